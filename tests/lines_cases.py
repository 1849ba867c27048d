#!/usr/bin/env python3
"""The cases of crates/lines_cases, and what they must print, from document 01's rules of spelling alone.

Lines key=value, each ended by byte 10, of a small table: a letter, two numbers, a number that may have a
minus, a digit of two. A number is 1 to 10 digits, no leading zero but in 0 itself, a minus never before 0.
Read in order with nothing behind the last; else the first bad or missing line, and line 6 for bytes behind.
Rows of decimals, one blank between and a newline behind the last; so many digits with leading zeros, written
and read back up to a newline; the places where lines end.

Holds crates/lines_cases/stdin and crates/lines_cases/stdout against them, and exits with status 1 where they
differ. With --write, writes them.
"""
import random
import re
import sys

from kept_files import in_lines, hold_or_write

NUMBER = '(?:0|[1-9][0-9]{0,9})'
SIGNED = '(?:0|-?[1-9][0-9]{0,9})'
TABLE = (('form', '[CZ]'), ('n', NUMBER), ('longest', NUMBER), ('z', SIGNED), ('live', '[01]'))
LETTERS = {'form': 'CZ', 'live': '01'}
KEYS = [key for key, _ in TABLE]
LINES = [re.compile((key + '=' + form + '\n').encode('ascii')) for key, form in TABLE]
MOST = 2**64 - 1
RANDOM_CASES = 300

draw = random.Random(20260116)
cases = []
expected = []


def case(letter, data, answer):
    assert len(data) <= 512
    cases.append(letter + data.hex())
    expected.append(answer)


def shown(name, data):
    """What was written, with its length, between two points that have to stay."""
    return b'%s %d\n.%s.\n' % (name, len(data), data)


def word(n):
    return n.to_bytes(8, 'big')


# ---- lines

def first_bad(data):
    """The first bad line of data, counted from 1, or 0 where there is none."""
    at = 0
    for i, line in enumerate(LINES):
        found = line.match(data, at)
        if not found:
            return i + 1
        at = found.end()
    return 0 if at == len(data) else len(LINES) + 1


def read(data):
    bad = first_bad(data)
    case('r', data, b'bad %d\n' % bad if bad else shown(b'right', data))
    return bad


def write(i, below, size):
    key = KEYS[i]
    value = LETTERS[key][1 if size else 0] if key in LETTERS else -size if below else size
    case('w', bytes([i, below]) + word(size), shown(b'line', ('%s=%s\n' % (key, value)).encode('ascii')))


def text(values):
    return ''.join('%s=%s\n' % pair for pair in zip(KEYS, values)).encode('latin-1')


RIGHT = ('C', 7200, 9999999999, -42, '1')
SOME_BAD = ('', '00', '01', '-', '-0', '--1', '+1', ' 1', '1 ', '1.0', '1=', '1\r', '1\0', '\xb9', '10000000000',
            '-10000000000', '18446744073709551616', 'CC', 'c', 'Z ', 'X', '2', '11', 'D')


def some_number():
    return draw.randrange(10 ** draw.randint(0, 10))


def some_values():
    return (draw.choice('CZ'), some_number(), some_number(), draw.choice((-1, 1)) * some_number(), draw.choice('01'))


def right_lines():
    for form in 'CZ':
        for live in '01':
            for n in (0, 1, 9, 10, 99, 100, 9999999999):
                assert not read(text((form, n, n, n, live)))
                assert not read(text((form, n, n, -n, live)))
    for _ in range(40):
        assert not read(text(some_values()))


def bad_lines():
    for i in range(len(KEYS)):
        for value in SOME_BAD + ('-1',):
            read(text(RIGHT[:i] + (value,) + RIGHT[i + 1:]))
    lines = text(RIGHT).splitlines(keepends=True)
    for i, line in enumerate(lines):
        read(b''.join(lines[:i] + lines[i + 1:]))
        read(b''.join(lines[:i] + [line] + lines[i:]))
        read(b''.join(lines[:i] + [line.upper()] + lines[i + 1:]))
        read(b''.join(lines[:i] + [b'\n'] + lines[i:]))
    whole = text(RIGHT)
    for n in range(len(whole)):
        assert read(whole[:n]) > 0
        for b in (whole[n] ^ 1, whole[n] ^ 128, 0, 10, 45, 48, 61):
            read(whole[:n] + bytes([b]) + whole[n + 1:])
        read(whole[:n] + whole[n + 1:])
        read(whole[:n] + whole[n:n + 1] + whole[n:])
    for behind in (b'\n', b'\r', b'\0', b' ', b'x', b'form=C\n', whole):
        assert read(whole + behind) == len(KEYS) + 1
    for data in (b'', b'\n', b'\0', b'form=', b'form=C', b'form=C\n', b'\xff' * 300):
        read(data)


def damaged_lines():
    for _ in range(RANDOM_CASES):
        data = bytearray(text(some_values()))
        for _ in range(draw.randint(1, 2)):
            at = draw.randrange(len(data))
            kind = draw.randint(0, 3)
            if kind == 0:
                data[at] = draw.choice(b'0123456789-=\nCZ')
            elif kind == 1:
                del data[at]
            elif kind == 2:
                data.insert(at, draw.choice(b'0123456789-=\nCZ'))
            else:
                data[at] ^= 1 << draw.randint(0, 7)
        read(bytes(data))


def sizes():
    some = {0, 1, 2, MOST, MOST - 1, 2**63, 2**32}
    for k in range(1, 20):
        some |= {10**k - 1, 10**k, 10**k + 1}
    return sorted(some)


def written_lines():
    for i in range(len(KEYS)):
        for size in sizes():
            for below in (0, 1):
                write(i, below, size)


# ---- rows, fixed digits, splitting

def row(numbers):
    line = (' '.join(map(str, numbers)) + '\n').encode('ascii') if numbers else b''
    case('d', b''.join(map(word, numbers)), shown(b'row', line))


def rows():
    row([])
    for n in sizes():
        row([n])
        row([n, 0, n])
    for count in range(2, 9):
        row([MOST] * count)
        row([0] * count)
        for _ in range(10):
            row([draw.randrange(10 ** draw.randint(0, 19)) for _ in range(count)])


def write_fixed(digits, n):
    last = n % 10**digits
    case('f', bytes([digits]) + word(n), shown(b'fixed', b'%0*d' % (digits, last) if digits else b''))


def read_fixed(digits, data):
    found = re.compile(rb'[0-9]{%d}\n' % digits).match(data)
    answer = b'number %d\nbehind %d\n' % (int(b'0' + data[:digits]), found.end() + 1) if found else b'bad 0\n'
    case('g', bytes([digits]) + data, answer)


def fixed():
    for digits in range(21):
        for n in {0, 1, 9, 273, 9999, 10000, MOST, 10**digits % 2**64, (10**digits - 1) % 2**64}:
            write_fixed(digits, n)
    for digits in range(20):
        for n in {0, 1, 273, 10**digits - 1, draw.randrange(10**digits)}:
            whole = b'%0*d\n' % (digits, n) if digits else b'\n'
            for data in (whole, whole + b'live=1\n', whole[:-1], b'0' + whole, whole[1:], whole[:-1] + b'\r\n', b' ' + whole, b''):
                read_fixed(digits, data)
    for digit in (47, 58, 45, 43, 0, 255):
        read_fixed(4, b'00' + bytes([digit]) + b'3\n')


def split(data):
    ends = []
    at = 0
    while at < len(data):
        place = data.find(b'\n', at)
        at = len(data) if place < 0 else place + 1
        ends.append(at)
    case('s', data, b''.join(b'end %d\n' % end for end in ends) + b'split %d\n' % len(data))


def splits():
    whole = text(RIGHT)
    for data in (b'', b'\n', b'\n\n', b'a', b'a\n', b'\na', b'a\nb', b'\r\n', b'\n\n\n', whole, whole[:-1], whole * 5, whole + b'x', b'x' * 512, b'\n' * 100):
        split(data)
    for _ in range(60):
        split(bytes(draw.choice(b'a=1\n\n') for _ in range(draw.randint(1, 60))))


def main():
    right_lines()
    bad_lines()
    damaged_lines()
    written_lines()
    rows()
    fixed()
    splits()
    lines = {e.split(b'\n')[0] for e in expected}
    assert all(b'bad %d' % n in lines for n in range(1, 7)), 'each line is bad in some case'
    return hold_or_write('lines_cases', in_lines(cases), b''.join(expected))


if __name__ == '__main__':
    sys.exit(main())
