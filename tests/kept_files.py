"""The files of a program in crates/: what it reads, and what it must print. Works as tests/reference/src/kept.rs does."""
import os
import sys

CRATES = os.path.join(os.path.dirname(os.path.abspath(__file__)), '..', 'crates')


def in_lines(texts):
    return ''.join(text + '\n' for text in texts).encode('ascii')


def read(path):
    try:
        with open(path, 'rb') as f:
            return f.read()
    except FileNotFoundError:
        return None


def unlike(kept, made):
    """The first line in which two files differ."""
    if kept is None:
        return 'is not there'
    kept, made = kept.split(b'\n'), made.split(b'\n')
    at = next(i for i in range(max(len(kept), len(made))) if kept[i : i + 1] != made[i : i + 1])
    lines = [repr(lines[at].decode('ascii', 'replace')) if at < len(lines) else 'nothing' for lines in (kept, made)]
    return 'line %d is %s and should be %s' % (at + 1, *lines)


def hold_or_write(crate, stdin, stdout):
    """Holds both files against these or, with the only switch --write, writes those that differ. Returns the exit
    status."""
    name = crate.replace('_', ' ')
    if sys.argv[1:] not in ([], ['--write']):
        print('%s: the only switch is --write' % name, file=sys.stderr)
        return 1
    made = {'stdin': stdin, 'stdout': stdout}
    wrong = [part for part in made if read(os.path.join(CRATES, crate, part)) != made[part]]
    summary = '%s: %d cases; files' % (name, stdin.count(b'\n'))
    if sys.argv[1:]:
        for part in wrong:
            with open(os.path.join(CRATES, crate, part), 'wb') as f:
                f.write(made[part])
        print('%s written: %d of %d' % (summary, len(wrong), len(made)))
        return 0
    for part in wrong:
        path = os.path.join(CRATES, crate, part)
        print('crates/%s/%s: %s' % (crate, part, unlike(read(path), made[part])))
    if wrong:
        print('%s not as they should be: %d of %d (--write writes them)' % (summary, len(wrong), len(made)))
        return 1
    print('%s as they should be: %d' % (summary, len(made)))
    return 0
