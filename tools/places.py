#!/usr/bin/env python3
"""Lists the places that docs/DESIGN-PASS.md counts: tools/places.py [POINT..] (1 to 8; all without one).

It goes by shape, not by name, over crates/*/src/*.rt and crates/*/proofs: what it lists is to be judged by
a reader, and what it cannot see is found by reading. Each line is `point kind: place what`."""
import collections
import pathlib
import re
import sys

ROOT = pathlib.Path(__file__).resolve().parent.parent / "crates"
SOURCES = sorted(ROOT.glob("*/src/**/*.rt"))
FUNCTION = re.compile(r"^( *)(?:pub )?(?:extern \"C\" )?fn ([a-z_0-9]+)(.*?)^\1\}", re.M | re.S)
TOKEN = re.compile(r"[A-Za-z_][A-Za-z_0-9]*|[0-9][0-9a-zA-Z_]*|b?\"[^\"]*\"|b?'[^']*'|->|[^\s]")
KEYWORDS = set("let mut if else match return for in while loop break true false self Self as fn pub ref".split())


def place(path, text, at):
    return f"{path.relative_to(ROOT)}:{text.count(chr(10), 0, at) + 1}"


def bare(text):
    """The source without comments and `ghost use` lines, newlines kept."""
    text = re.sub(r"//[^\n]*", "", text)
    return re.sub(r"^[ \t]*ghost use [^\n]*", "", text, flags=re.M)


def functions():
    for path in SOURCES:
        text = bare(path.read_text())
        for found in FUNCTION.finditer(text):
            head, _, body = found.group(3).partition("\n" + found.group(1) + "{")
            if not body:
                head, _, body = found.group(3).partition("{")
            yield place(path, text, found.start()), found.group(2), head, body


def lines(pattern):
    rule = re.compile(pattern)
    for path in SOURCES:
        for number, line in enumerate(bare(path.read_text()).split("\n"), 1):
            if rule.search(line):
                yield f"{path.relative_to(ROOT)}:{number}", line.strip()


def shape(body):
    """A body's tokens, each name by its first place, each number and text as one word."""
    names, shaped = {}, []
    for token in TOKEN.findall(body):
        if token in KEYWORDS or not re.match(r"[A-Za-z_0-9\"'b]", token):
            shaped.append(token)
        elif re.match(r"[0-9]", token):
            shaped.append("1")
        elif "'" in token or '"' in token:
            shaped.append("''")
        else:
            shaped.append("i%d" % names.setdefault(token, len(names)))
    return tuple(shaped)


def point_1():
    for where, line in lines(r"^(pub )?enum "):
        yield "enum", where, line
    for where, line in lines(r"^\s*(pub )?[a-z_0-9]+: bool,?$"):
        yield "flag", where, line
    for where, line in lines(r"^\s+[A-Z][A-Za-z]+\((u64|usize)\),?$|^\s*(pub )?(form|fine|number|kind|flange)[a-z]*: u64,?$"):
        yield "number", where, line


def point_2():
    groups = collections.defaultdict(list)
    for where, name, _, body in functions():
        shaped = shape(body)
        if len(shaped) >= 12:
            groups[shaped].append(f"{name} ({where})")
    for shaped, names in groups.items():
        if len(names) > 1:
            yield "functions", f"{len(names)} of {len(shaped)} words:", ", ".join(names)
    structs = collections.defaultdict(list)
    for path in SOURCES:
        for found in re.finditer(r"struct ([A-Za-z]+)[^{;]*\{(.*?)\n\}", bare(path.read_text()), re.S):
            fields = tuple(re.findall(r"^\s*(?:pub )?([a-z_0-9]+):", found.group(2), re.M))
            structs[fields].append(f"{found.group(1)} ({path.relative_to(ROOT)})")
    for fields, names in structs.items():
        if len(names) > 1:
            yield "structs", f"{{{', '.join(fields)}}}", ", ".join(names)


def point_3():
    for where, line in lines(r"^\s*while "):
        yield "while", where, line
    for where, line in lines(r"^\s*for [a-z_]+ in [^{]*\.\."):
        yield "for over numbers", where, line


def point_4():
    for where, line in lines(r"^\s*let [a-z0-9_]+ = [a-z0-9_]+\.[a-z0-9_]+;"):
        yield "copy", where, line
    for where, line in lines(r"^\s*#\[derive\("):
        if "PartialEq" not in line:
            yield "no equality", where, line
    for where, name, head, body in functions():
        if re.search(r"-> bool", head) and re.search(r"\.[a-z0-9_]+ (==|!=|<=|<) [a-z0-9_.]+\.", body) and len(body) < 300:
            yield "comparison", where, name
        if re.fullmatch(r"\s*if (\w+) <=? (\w+) \{\s*(\1|\2)\s*\} else \{\s*(\1|\2)\s*\}\s*", body):
            yield "order", where, name
        if re.search(r"% 10\b", body):
            yield "digits", where, name
        if name in ("of", "number", "text", "integer") or re.match(r"(from|to|into)_|.*_of$", name) and len(shape(body)) < 40 and "{" in body:
            yield "conversion", where, name


def clauses(head):
    for kind, clause in re.findall(r"(requires|ensures)\s*\w*\s*\{(.*)\}\s*$", head, re.M):
        yield kind, re.sub(r"\b(self|[a-z])\b(\.\w+)*", "_", clause.strip())


def point_5():
    facts, together = collections.Counter(), collections.Counter()
    for _, _, head, _ in functions():
        for part in set(p for kind, c in clauses(head) if kind == "requires" for p in re.split(r" × ", c)):
            facts[part.strip("() ")] += 1
        parameters = re.findall(r"\b([a-z_0-9]+: &?(?:mut )?[A-Za-z\[\]0-9]+)", head.split(")")[0])
        for i, first in enumerate(parameters):
            for second in parameters[i + 1:]:
                together[first, second] += 1
    for fact, count in facts.most_common():
        if count > 2:
            yield "fact", f"{count} times", fact
    for pair, count in together.most_common():
        if count > 2:
            yield "parameters", f"{count} times", ", ".join(pair)


def point_6():
    for where, line in lines(r"^\s*(pub )?[a-z_0-9]+: \[.*;.*\],?$"):
        yield "array field", where, line
    for where, line in lines(r"= \[[^\]]*; [^\]]*\];"):
        yield "array", where, line
    for where, line in lines(r"const [A-Z_]+: \["):
        yield "table", where, line


def point_7():
    for where, line in lines(r"match letter|match kind|if [a-z]+ == [0-9_]{3,} \{|fn pick"):
        yield "switch", where, line


def point_8():
    for crate in sorted(ROOT.iterdir()):
        files = sorted((crate / "proofs").glob("**/*.antt"))
        inner = [f for f in files if f.parent != crate / "proofs"]
        if files:
            size = lambda fs: sum(len(f.read_text().splitlines()) for f in fs)
            yield "of functions", crate.name, f"{len(inner)} files, {size(inner)} lines"
            yield "lemmas", crate.name, f"{len(files) - len(inner)} files, {size(files) - size(inner)} lines"


def main():
    points = [int(p) for p in sys.argv[1:]] or range(1, 9)
    for point in points:
        found = list(globals()[f"point_{point}"]())
        for kind, where, what in found:
            print(f"{point} {kind}: {where} {what}")
        for kind, count in collections.Counter(k for k, _, _ in found).items():
            print(f"{point} {kind}: {count} in all")


if __name__ == "__main__":
    main()
