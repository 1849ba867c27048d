#!/usr/bin/env python3
"""Brings the repository's own definitions and lemmas to the kit's spelling, by the table respell.tsv beside this script.

usage: python3 tools/respell.py [TOP]      once, right after /opt/rattle/port/port.py; TOP is the repository, otherwise this folder's.
                                           Where docs/PORT.md is there the names are turned already, and nothing is done.

Turned are the words of the .antt and .rt files of crates/, and those in code spans of pages. Must-fail edits stay.
"""
import os
import re
import subprocess
import sys

HERE = os.path.dirname(os.path.realpath(__file__))
# A word of a proof file or a source.
WORD = re.compile(r'[^\s(){}.;,@"«»`]+')
STRING_OR_COMMENT = re.compile(r'"(?:[^"\\\n]|\\.)*"|(?<!\S)--[^\n]*|//[^\n]*')
CODE_SPAN = re.compile(r"(?<!`)`([^`\n]+)`(?!`)")


def table():
    rows = {}
    with open(os.path.join(HERE, "respell.tsv"), encoding="utf-8") as lines:
        for line in lines:
            if line.strip() and not line.startswith("#"):
                old, new, *where = line.rstrip("\n").split("\t")
                rows[old] = (new, where[0] if where else "")
    return rows


def respelt(rows, text, path, page=False):
    """The text with its words respelt."""
    quiet = [m.span() for m in STRING_OR_COMMENT.finditer(text)]

    def word(m):
        new, where = rows.get(m[0], (m[0], ""))
        if where == "free" and text[m.start() - 1:m.start()] == ".":
            return m[0]
        if where not in ("", "free"):
            in_code = not any(start <= m.start() < end for start, end in quiet)
            if page or path not in where.split(",") or not in_code:
                return m[0]
        return new

    return WORD.sub(word, text)


def main():
    top = sys.argv[1] if len(sys.argv) > 1 else os.path.dirname(HERE)
    if os.path.exists(os.path.join(top, "docs/PORT.md")):
        sys.exit("docs/PORT.md is there: the names are turned already")
    rows = table()
    changed = 0
    files = subprocess.run(["git", "ls-files", "-co", "--exclude-standard"], cwd=top, capture_output=True, text=True, check=True).stdout
    for path in files.split("\n"):
        code = path.startswith("crates/") and path.endswith((".antt", ".rt"))
        if not (code or path.endswith(".md")) or not os.path.exists(os.path.join(top, path)):
            continue
        with open(os.path.join(top, path), encoding="utf-8") as f:
            text = f.read()
        if code:
            new = respelt(rows, text, path)
        else:
            new = CODE_SPAN.sub(lambda m: "`" + respelt(rows, m[1], path, page=True) + "`", text)
        if new != text:
            with open(os.path.join(top, path), "w", encoding="utf-8") as f:
                f.write(new)
            changed += 1
    print("respelt:", changed, "files")


if __name__ == "__main__":
    main()
