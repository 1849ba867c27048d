#!/usr/bin/env python3
"""The cases of crates/pair_cases, and what they must print, from the documents alone.

Document 01, "Pairs and the scale": a value is a pair of whole numbers, a lower and an upper end, in
units of 1/s. Each operation uses the ends that make the result smallest for the lower end and largest
for the upper, then rounds the lower down and the upper up to a whole unit; below zero that is toward
minus and toward plus infinity. An operation applies where its divisors are above zero and its result
can be held in 64 bits; a root's scale is a multiple of 64 and its argument has at most 70 bits (76 for
a cube root). The smaller of two values is by the same rule; request W-205 takes it.

Holds crates/pair_cases/stdin and crates/pair_cases/stdout against them, and exits with status 1 where they
differ. With --write, writes them.
"""
import math
import random
import sys

from kept_files import in_lines, hold_or_write

WORD = 2**64
MOST = WORD - 1
MILLION = 10**6
TEN_MILLION = 10**7
SCALES = (MILLION, TEN_MILLION)
STEPS = 1000  # a value between two ends, in so many steps
RANDOM_CASES = 110

draw = random.Random(20260101)


# ---- rounding and roots

def floor(n, d):
    return n // d


def ceil(n, d):
    return -(-n // d)


def power_root(n, order):
    """The root of n rounded down."""
    if order == 2:
        return math.isqrt(n)
    r = 1 << (n.bit_length() // order + 1)
    while r**order > n:
        r = ((order - 1) * r + n // r ** (order - 1)) // order
    return r


def root_up(n, order):
    r = power_root(n, order)
    return r if r**order == n else r + 1


def word(n):
    return 0 <= n < WORD


def words(pair):
    return word(pair[0]) and word(pair[1])


def ordered(pair):
    return pair[0] <= pair[1]


def reach(pair):
    return max(abs(pair[0]), abs(pair[1]))


# ---- the rule: the least and the greatest over the ends, rounded outward. A result for one choice of
# ends is a fraction, numerator and denominator.

def outward(fractions):
    fractions = list(fractions)
    return min(floor(n, d) for n, d in fractions), max(ceil(n, d) for n, d in fractions)


def plus(p, q):
    return outward((a + b, 1) for a in p for b in q)


def minus(p, q):
    return outward((a - b, 1) for a in p for b in q)


def times(p, q, s):
    return outward((a * b, s) for a in p for b in q)


def over(p, q, s):
    return outward((a * s, b) for a in p for b in q)


def times_ratio(p, a, b, s):
    return times(p, (a * s // b, a * s // b), s)


def over_ratio(p, a, b, s):
    return over(p, (a * s // b, a * s // b), s)


def smaller(p, q):
    return outward((min(a, b), 1) for a in p for b in q)


def coarser(p, k):
    return outward((a, k) for a in p)


def root(p, s):
    return power_root(p[0] * s, 2), root_up(p[1] * s, 2)


def cube_root(p, s):
    return power_root(p[0] * s * s, 3), root_up(p[1] * s * s, 3)


# ---- where an operation applies

def times_applies(p, q, s):
    return s > 0 and words(times(p, q, s))


def over_applies(p, q, s):
    return q[0] > 0 and q[1] > 0 and words(over(p, q, s))


def exact_ratio(a, b, s):
    return s > 0 and b > 0 and a * s % b == 0


def root_applies(p, s):
    return ordered(p) and s % 64 == 0 and p[1] * s < 2**70


def cube_root_applies(p, s):
    return ordered(p) and s % 64 == 0 and p[1] * s * s < 2**76


def signed_times_applies(a, b, s):
    return s > 0 and ordered(a) and ordered(b) and word(ceil(reach(a) * reach(b), s))


def signed_over_applies(a, q, s):
    return q[0] > 0 and ordered(q) and word(ceil(reach(a) * s, q[0]))


# ---- containment: exact values between the operands' ends give an exact result between the result's

def between(pair):
    """STEPS times a value between the ends."""
    return pair[0] * STEPS + (pair[1] - pair[0]) * draw.randint(0, STEPS)


def contains(result, n, d):
    assert result[0] * d <= n <= result[1] * d, (result, n, d)


def assert_times(r, p, q, s):
    contains(r, between(p) * between(q), STEPS * STEPS * s)


def assert_over(r, p, q, s):
    contains(r, between(p) * s, between(q))


def assert_power(r, n, order):
    """r holds the root of n / STEPS."""
    assert r[0] ** order * STEPS <= n <= r[1] ** order * STEPS, (r, n, order)


CONTAINED = {
    'plus': lambda r, p, q: contains(r, between(p) + between(q), STEPS),
    'minus': lambda r, p, q: contains(r, between(p) - between(q), STEPS),
    'times': assert_times,
    'over': assert_over,
    'times_ratio': lambda r, p, a, b, s: contains(r, between(p) * a, STEPS * b),
    'over_ratio': lambda r, p, a, b, s: contains(r, between(p) * b, STEPS * a),
    'root': lambda r, p, s: assert_power(r, between(p) * s, 2),
    'cube_root': lambda r, p, s: assert_power(r, between(p) * s * s, 3),
    'smaller': lambda r, p, q: contains(r, min(between(p), between(q)), STEPS),
    'between': lambda r, p, q: contains(r, between(p) - between(q), STEPS),
    'signed_plus': lambda r, p, q: contains(r, between(p) + between(q), STEPS),
    'signed_minus': lambda r, p, q: contains(r, between(p) - between(q), STEPS),
    'signed_times': assert_times,
    'times_signed': assert_times,
    'signed_over': assert_over,
    'coarser': lambda r, p, k: contains(r, between(p), STEPS * k),
}


# ---- the operations: the letter of a case, whether the operation applies, its result

def whole_root(n, order):
    r = power_root(n, order)
    return r, n - r**order


def anything(*operands):
    return True


OPERATIONS = {
    'high': ('h', anything, lambda a, b: (a * b // WORD,)),
    'floor_of': ('f', lambda a, b, d: d > 0 and word(a * b // d), lambda a, b, d: (floor(a * b, d),)),
    'ceil_of': ('g', lambda a, b, d: d > 0 and word(ceil(a * b, d)), lambda a, b, d: (ceil(a * b, d),)),
    'square_of': ('q', anything, lambda n: whole_root(n, 2)),
    'scaled_square': ('s', lambda v, s: root_applies((v, v), s), lambda v, s: whole_root(v * s, 2)),
    'cube_of': ('k', anything, lambda n: whole_root(n, 3)),
    'exact': ('e', anything, lambda v: (v, v)),
    'ratio': ('v', lambda a, b, s: b > 0 and word(a * s), lambda a, b, s: (a * s // b, a * s // b)),
    'plus': ('p', lambda p, q: words((p[0] + q[0], p[1] + q[1])), plus),
    'minus': ('m', lambda p, q: q[1] <= p[0] and q[0] <= p[1], minus),
    'times': ('t', times_applies, times),
    'over': ('o', over_applies, over),
    'times_ratio': ('x', lambda p, a, b, s: exact_ratio(a, b, s) and words(times_ratio(p, a, b, s)), times_ratio),
    'over_ratio': ('y', lambda p, a, b, s: exact_ratio(a, b, s) and a > 0 and words(over_ratio(p, a, b, s)), over_ratio),
    'root': ('r', root_applies, root),
    'roots': ('R', lambda p, q, s: root_applies(p, s) and root_applies(q, s), lambda p, q, s: root(p, s) + root(q, s)),
    'cube_root': ('c', cube_root_applies, cube_root),
    'smaller': ('i', anything, smaller),
    'of': ('F', anything, lambda p: p),
    'between': ('B', anything, minus),
    'integer_plus': ('A', lambda x, y: word(abs(x) + abs(y)), lambda x, y: (x + y,)),
    'at_most': ('L', anything, lambda x, y: (int(x <= y),)),
    'least': ('I', anything, lambda x, y: (min(x, y),)),
    'greatest': ('G', anything, lambda x, y: (max(x, y),)),
    'signed_plus': ('P', lambda a, b: word(reach(a) + reach(b)), plus),
    'signed_minus': ('M', lambda a, b: word(reach(a) + reach(b)), minus),
    'signed_times': ('T', signed_times_applies, times),
    'times_signed': ('X', signed_times_applies, times),
    'signed_over': ('O', signed_over_applies, over),
    'coarser': ('C', lambda a, k: k > 0, coarser),
}

# those that apply to pairs with ends in order only, and say so; to any other, pairs are given in order
TEST_THE_ORDER = ('root', 'roots', 'cube_root', 'signed_times', 'times_signed', 'signed_over')

cases = []
expected = []


def numbers(operands):
    for x in operands:
        if isinstance(x, tuple):
            yield from x
        else:
            yield x


def case(name, *operands, text=None):
    """One case: a line of input, and the line that it must print. `text` is the operands' own spelling."""
    letter, applies, result = OPERATIONS[name]
    given = list(numbers(operands))
    assert all(abs(x) < WORD for x in given)
    assert name in TEST_THE_ORDER or all(ordered(p) for p in operands if isinstance(p, tuple))
    cases.append(' '.join([letter] + (text or [str(x) for x in given])))
    if not applies(*operands):
        expected.append(name + ' does not apply')
        return
    r = result(*operands)
    expected.append(' '.join([name] + [str(x) for x in r]))
    if name in CONTAINED and all(ordered(p) for p in operands if isinstance(p, tuple)):
        CONTAINED[name](r, *operands)


# ---- operands

def some_word(most=64):
    return draw.getrandbits(draw.randint(1, most))


def narrow(least=50000, most=5 * 10**8):
    """A length of 0.05 to 500 mm with ends 0 to 4 units apart, each power of ten as likely."""
    lo = int(least * (most / least) ** draw.random())
    return lo, lo + draw.randint(0, 4)


def wide(most=64):
    return tuple(sorted((some_word(most), some_word(most))))


def some_pair(most=64):
    return narrow() if draw.random() < 0.5 else wide(most)


def some_signed(most=64):
    """Ends on either side of zero."""
    kind = draw.randint(0, 3)
    if kind == 0:
        lo = draw.randint(-5, 5)
        return lo, lo + draw.randint(0, 5)
    lo, hi = some_pair(most)
    return ((lo, hi), (-hi, -lo), (-lo, hi))[kind - 1]


def some_scale():
    return draw.choice((MILLION, MILLION, TEN_MILLION, TEN_MILLION, 1, 64, 10**9, some_word()))


def near(n):
    """n, and one off it either way, where that is a word."""
    return [x for x in (n - 1, n, n + 1) if word(x)]


def edges():
    """Words with something special about them."""
    return [0, 1, 2, MILLION, 2**32 - 1, 2**32, 2**32 + 1, 2**63, MOST - 1, MOST]


# ---- the cases of document 01, and the edges

def marked_cases():
    for name, operands, ends in (
        ('root', ((2000000, 2000000), MILLION), (1414213, 1414214)),
        ('cube_root', ((8000, 8000), MILLION), (200000, 200000)),
        ('over', ((2000000, 2000000), (3000000, 3000000), MILLION), (666666, 666667)),
    ):
        assert OPERATIONS[name][2](*operands) == ends
        case(name, *operands)


def quotient_edges(name):
    for d in SCALES + (1, 2, 3, MOST, 2**63, 0):
        for k in (1, 7, MOST // max(d, 1)):
            for a in near(d * k if d * k < WORD else d):
                case(name, a, 1, d)
                case(name, a, 3, d)
    for a in edges():
        case(name, a, MOST, MOST)
        case(name, a, MOST, MOST - 1)
        case(name, MOST, a, MILLION)
    for s in SCALES:  # the largest quotient, and one past it
        for b in [s - 1, s, s + 1] + [some_word() | 2**40 for _ in range(8)]:
            for a in near(s * MOST // b):
                case(name, a, b, s)


def whole_root_edges():
    for r in [0, 1, 2, 3, 1000, 65535, 65536, 2**31, 2**32 - 2, 2**32 - 1] + [some_word(32) for _ in range(25)]:
        for n in near(r * r) + [r * r + 2 * r]:
            case('square_of', n)
    for r in [0, 1, 2, 3, 1000, 65536, 2**21, 2642244, 2642245] + [some_word(21) for _ in range(25)]:
        for n in near(r**3) + [r**3 + 3 * r * r + 3 * r]:
            if word(n):
                case('cube_of', n)
    for n in edges():
        case('square_of', n)
        case('cube_of', n)


def sum_edges():
    for a in edges():
        case('exact', a)
        case('of', (a, MOST))
        for b in edges():
            case('high', a, b)
            case('plus', (a, a), (b, b))
            case('minus', (a, a), (b, b))
            case('between', (a, a), (b, b))
    for lo in near(5):
        for hi in near(5):
            case('minus', (5, 7), (min(lo, hi), hi))
            case('minus', (5, 5), (0, hi))
            case('between', (5, 7), (min(lo, hi), hi))
            case('between', (4, 6), (lo, lo + hi))
    case('plus', (1, MOST - 3), (1, 3))
    case('plus', (1, MOST - 3), (1, 4))


def product_edges(name):
    for s in SCALES:
        for b in [s - 1, s, s + 1] + [some_word() | 2**40 for _ in range(6)]:
            for a in near(s * MOST // b):
                case(name, (a, a), (b, b), s)
                case(name, (max(a - 2, 0), a), (b, b), s)
        for k in (1, 3, 500, 123457):
            for a in near(k * s):
                case(name, (a, a), (3, 3), s)
                case(name, (a, a + 1), (a, a), s)
    for a in (0, 1, MOST):
        case(name, (0, a), (0, a), MILLION)
        case(name, (a, a), (1, 1), 0)
        case(name, (a, a), (MOST, MOST), MOST)
        case(name, (1, MOST), (a, a), 1)


def quotient_pair_edges(name):
    for s in SCALES:
        for a in [MOST, MOST - 1, 2**63] + [some_word() | 2**50 for _ in range(6)]:
            for b in near(a * s // MOST) + near(ceil(a * s, MOST)):
                case(name, (a, a), (b, b), s)
                case(name, (a // 2, a), (b, MOST), s)
        for k in (1, 3, 500, 123457):
            for a in near(3 * k):
                case(name, (a, a), (3 * s, 3 * s), s)
                case(name, (a, a + 2), (3, 4), s)
    for a in (0, 1, MOST):
        case(name, (0, a), (0, a), MILLION)
        case(name, (a, a), (0, 0), MILLION)
        case(name, (a, a), (MOST, MOST), MILLION)
        case(name, (a // 2, a), (1, 1), 1)
        case(name, (0, a), (1, MOST), 0)


def ratio_edges():
    for name in ('times_ratio', 'over_ratio'):
        for s in SCALES:
            ratios = ((1, 2), (2, 1), (1, 12), (7, 12), (210, 1), (1, 4), (10, 1895416), (0, 1), (1, 0), (1, 3))
            for a, b in ratios + ((MOST, 1), (s, 1), (1, s), (3, 3), (MOST, MOST)):
                for v in (0, 1, 5, 6, 7, 11, 12, 13, 50000, MOST):
                    case(name, (v, v), a, b, s)
            case(name, (5, 9), 1, 2, s + 1)
        case(name, (5, 9), 1, 2, 0)
        case(name, (5, 9), 1, 1, 0)
    for v in near(MOST // 210):
        case('times_ratio', (v, v), 210, 1, MILLION)
        case('over_ratio', (v, v), 1, 210, MILLION)


def exact_value_edges():
    for s in SCALES:
        for a in [0, 1, 2, 3, 99, 100, 101, MOST // s, MOST // s + 1, MOST]:
            for b in (0, 1, 2, 3, 100, s, MOST):
                case('ratio', a, b, s)


def root_edges():
    for s in SCALES:
        unit = s // MILLION  # s times unit * k * k is a square
        for k in [0, 1, 2, 3, 7, 1000, 22360] + [some_word(20) for _ in range(12)]:
            for v in near(unit * k * k):
                case('root', (v, v), s)
                case('root', (v, v + 4), s)
                case('scaled_square', v, s)
        for bits in range(60, 72):
            for _ in range(3):
                v = draw.getrandbits(bits) // s
                case('root', (v, v + draw.randint(0, 4)), s)
                case('root', (v // 2, v), s)
                case('scaled_square', v, s)
        for v in near((2**70 - 1) // s):
            case('root', (v, v), s)
            case('root', (0, v), s)
            case('scaled_square', v, s)
    for s in (0, 1, 63, 64, 65, 128, MILLION + 1, 2**40, 2**40 + 64, 2**63):
        case('root', (1, 2), s)
        case('root', (0, 0), s)
        case('scaled_square', 1, s)
    case('root', (3, 2), MILLION)
    case('root', (MOST, MOST), 64)
    case('root', (0, MOST), 64)
    case('root', (1, 2**20), 64)
    case('root', (1, 2**20 + 1), 64)


def cube_root_edges():
    for s in SCALES:
        unit = 1 if s == MILLION else 10  # s times s times unit * k * k * k is a cube
        for k in [0, 1, 2, 3, 20, 1000] + [some_word(11) for _ in range(12)]:
            for v in near(unit * k**3):
                case('cube_root', (v, v), s)
                case('cube_root', (v, v + 4), s)
        for bits in range(60, 78):
            for _ in range(3):
                v = draw.getrandbits(bits) // (s * s)
                case('cube_root', (v, v + draw.randint(0, 4)), s)
                case('cube_root', (v // 2, v), s)
        for v in near((2**76 - 1) // (s * s)):
            case('cube_root', (v, v), s)
            case('cube_root', (0, v), s)
    for s in (0, 1, 63, 64, 65, 128, MILLION + 1, 2**38 - 64, 2**38, 2**38 + 64, 2**63):
        case('cube_root', (0, 1), s)
        case('cube_root', (0, 0), s)
    case('cube_root', (3, 2), MILLION)
    case('cube_root', (MOST, MOST), 64)


def integer_edges():
    sizes = [0, 1, 2, 2**63, MOST]
    spelled = [(x, str(x)) for x in sizes] + [(-x, '-' + str(x)) for x in sizes]
    for name in ('integer_plus', 'at_most', 'least', 'greatest'):
        for x, x_text in spelled:
            for y, y_text in spelled:
                case(name, x, y, text=[x_text, y_text])
    for name in ('signed_plus', 'signed_minus'):
        for x, x_text in spelled:
            for y, y_text in spelled:
                if y <= 0:
                    case(name, (x, MOST), (y, 0), text=[x_text, str(MOST), y_text, '-0'])
                case(name, (x, x), (y, y), text=[x_text, x_text, y_text, y_text])


def signed_edges():
    ends = [(a, b) for a in range(-2, 3) for b in range(a, 3)]
    for a in ends:
        for b in ends:
            case('times_signed', a, b, 2)
            case('times_signed', a, b, MILLION)
            if b[0] >= 0:
                case('signed_times', a, b, 2)
                case('signed_times', a, b, MILLION)
                case('signed_over', a, b, 3)
                case('signed_over', a, b, MILLION)
    case('times_signed', (2, -2), (1, 1), MILLION)
    case('times_signed', (1, 1), (2, -2), MILLION)
    case('signed_over', (-2, 2), (3, 2), MILLION)
    for s in SCALES:
        for b in [s - 1, s, s + 1] + [some_word() | 2**40 for _ in range(4)]:
            for a in near(s * MOST // b):
                for name in ('signed_times', 'times_signed'):
                    case(name, (-a, a), (b, b), s)
                    case(name, (-a, -a + 1), (b - 1, b), s)
                case('times_signed', (-3, a), (-b, -b), s)
        for a in (MOST, 2**63):
            for q in near(a * s // MOST):
                case('signed_over', (-a, 5), (q, q), s)
                case('signed_over', (-a, -1), (q, MOST), s)


def coarser_edges():
    for k in (10000, 1, 2, 3, MOST, 0):
        for middle in (0, k, 5 * k):
            for lo in (middle - 1, middle, middle + 1):
                for hi in (lo, lo + 1):
                    if abs(lo) < WORD and abs(hi) < WORD:
                        case('coarser', (lo, hi), k)
                        case('coarser', (-hi, -lo), k)
        case('coarser', (-MOST, MOST), k)
    case('coarser', (0, 0), 10000, text=['-0', '-0', '10000'])


# ---- random operands

def random_quotients():
    for name in ('floor_of', 'ceil_of'):
        for _ in range(RANDOM_CASES):
            case(name, some_word(), some_word(), some_word())
            case(name, some_word(), some_word(48), some_scale())
        for _ in range(RANDOM_CASES // 2):  # products that pass 64 bits with quotients that do not
            d = some_word() | 2**32
            case(name, draw.randrange(d), some_word(), d)
    for _ in range(RANDOM_CASES):
        case('high', some_word(), some_word())
        case('square_of', some_word())
        case('cube_of', some_word())
        case('scaled_square', some_word(50), draw.choice(SCALES))


def random_pairs():
    for _ in range(RANDOM_CASES):
        p, q, s = some_pair(), some_pair(), some_scale()
        case('exact', some_word())
        case('plus', p, q)
        case('minus', max(p, q), min(p, q))
        case('times', p, q, s)
        case('times', narrow(), wide(40), draw.choice(SCALES))
        case('over', p, q, s)
        case('over', wide(44), narrow(), draw.choice(SCALES))
        case('root', some_pair(49), draw.choice(SCALES))
        case('root', narrow(1, 5 * 10**13), draw.choice(SCALES))
        case('cube_root', some_pair(34), draw.choice(SCALES))
        case('cube_root', narrow(1, 5 * 10**8), draw.choice(SCALES))


def random_ratios():
    for _ in range(RANDOM_CASES):
        case('ratio', some_word(48), some_word(8), draw.choice(SCALES))
    for name in ('times_ratio', 'over_ratio'):
        for _ in range(RANDOM_CASES):
            s = draw.choice(SCALES)
            divisor = draw.choice((1, 2, 4, 5, 8, 10, 16, 100, 125, 1000, s))
            case(name, some_pair(50), draw.randint(0, 10**6), divisor, s)
            case(name, some_pair(), some_word(), divisor, s)
            case(name, some_pair(50), draw.randint(1, 50), draw.randint(1, 50), s)


def random_signed():
    for _ in range(RANDOM_CASES):
        a, b, s = some_signed(), some_signed(), draw.choice(SCALES)
        case('of', some_pair())
        case('between', some_pair(), some_pair())
        case('integer_plus', a[0], b[1])
        case('at_most', a[0], b[1])
        case('least', a[0], b[1])
        case('greatest', a[0], b[1])
        case('signed_plus', a, b)
        case('signed_minus', a, b)
        case('signed_times', some_signed(48), some_pair(36), s)
        case('times_signed', some_signed(48), some_signed(36), s)
        case('signed_over', some_signed(40), narrow(), s)
        case('signed_over', a, some_pair(), s)
        case('coarser', a, draw.choice((10000, 10000, 100000, 3, some_word())))


def two_roots():
    """Two roots at once: each of them small, whole, near a word's end and past it, or random."""
    for s in SCALES:
        values = [0, 1, 4000, 452929, 1000000, 23456789]
        for bits in (32, 62, 64, 70):
            values += near(2**bits // s)
        for v in values:
            for w in values:
                case('roots', (v, v + draw.randint(0, 4)), (w, w + draw.randint(0, 4)), s)
    for _ in range(RANDOM_CASES):
        case('roots', some_pair(49), narrow(1, 5 * 10**13), draw.choice(SCALES))
    case('roots', (3, 2), (2, 3), MILLION)
    case('roots', (2, 3), (3, 2), MILLION)


def smaller_of_two():
    """Ends in every order, equal ones too, at both ends of their range and at powers of two; then random pairs, and
    pairs a few units apart."""
    for ends in ((0, 1, MOST - 1, MOST), (2**32 - 1, 2**32, 2**63 - 1, 2**63)):
        pairs = [(lo, hi) for lo in ends for hi in ends if lo <= hi]
        for p in pairs:
            for q in pairs:
                case('smaller', p, q)
    for _ in range(RANDOM_CASES):
        case('smaller', some_pair(), some_pair())
        lo, hi = narrow()
        least = lo + draw.randint(-4, 4)
        case('smaller', (lo, hi), (least, least + draw.randint(0, 4)))


def all_cases():
    marked_cases()
    quotient_edges('floor_of')
    quotient_edges('ceil_of')
    whole_root_edges()
    sum_edges()
    product_edges('times')
    quotient_pair_edges('over')
    ratio_edges()
    exact_value_edges()
    root_edges()
    cube_root_edges()
    integer_edges()
    signed_edges()
    coarser_edges()
    random_quotients()
    random_pairs()
    random_ratios()
    random_signed()
    two_roots()
    smaller_of_two()


def both_ways():
    """Every operation that may not apply has cases of either kind."""
    for name, (letter, applies, _) in OPERATIONS.items():
        lines = [e for e in expected if e.split(' ')[0] == name]
        refused = sum(e.endswith(' does not apply') for e in lines)
        assert len(lines) - refused >= 100 or name in ('exact', 'of'), (name, len(lines), refused)
        assert (refused == 0) == (applies is anything), (name, refused)


def main():
    all_cases()
    both_ways()
    return hold_or_write('pair_cases', in_lines(cases), in_lines(expected))


if __name__ == '__main__':
    sys.exit(main())
