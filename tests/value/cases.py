#!/usr/bin/env python3
"""Writes the cases of crates/cases_value/stdin: python3 tests/value/cases.py > crates/cases_value/stdin

Each case is a line of fixed columns: an operator's letter, the operands x (m bits), y (n bits) and a count c, and the value that
is expected, of length 0 where there is none. Numbers are hexadecimal, lengths and counts decimal. For a constant m is its length, its
digits stand in the columns of x, n and y, and c is its kind: 0 bare, 10 decimal, k or 10 + k for digits of k bits at the right or at the
left, 20 the length before a base.

    column  0    2..4  6..69  71..73  75..138  140..142  144..146  148..211
            op   m     x      n       y        c         length    number

The expected values are those of the manual and of documents 01 and 02, and for random operands those of Python's integers."""
import random
import re

LONGEST = 256
LENGTHS = [1, 2, 15, 16, 63, 64, 65, 127, 128, 129, 255, 256]


def fit(length, number):
    """The low bits of a number as a value, or none."""
    return (length, number % 2**length) if 0 < length <= LONGEST else None


def bits(m, x):
    """The bits of a normal value, the first one first."""
    return format(x, f"0{m}b")


def cut(m, c):
    return c if c <= m else 0


# One operator a letter: its value from x, of m bits, y, of n bits, and the count c.
OPERATORS = {
    "+": lambda m, x, n, y, c: fit(max(m, n) + 1, x + y),
    "-": lambda m, x, n, y, c: fit(max(m, n) + 1, x - y),
    "n": lambda m, x, n, y, c: fit(m + 1, -x),
    "=": lambda m, x, n, y, c: fit(1, x == y),
    "#": lambda m, x, n, y, c: fit(1, x != y),
    "<": lambda m, x, n, y, c: fit(1, x < y),
    ">": lambda m, x, n, y, c: fit(1, x > y),
    "{": lambda m, x, n, y, c: fit(1, x <= y),
    "}": lambda m, x, n, y, c: fit(1, x >= y),
    "~": lambda m, x, n, y, c: fit(m, ~x),
    "*": lambda m, x, n, y, c: fit(max(m, n), x & y),
    "^": lambda m, x, n, y, c: fit(max(m, n), x ^ y),
    "|": lambda m, x, n, y, c: fit(max(m, n), x | y),
    ",": lambda m, x, n, y, c: fit(m + n, (x << n) + y),
    "@": lambda m, x, n, y, c: fit(m * c, sum(x << m * i for i in range(c))),
    "h": lambda m, x, n, y, c: fit(cut(m, c), x >> max(m - c, 0)),
    "t": lambda m, x, n, y, c: fit(cut(m, c), x),
    "o": lambda m, x, n, y, c: fit(1, x != 0),
    "a": lambda m, x, n, y, c: fit(1, x == 2**m - 1),
    "x": lambda m, x, n, y, c: fit(1, x.bit_count()),
    "s": lambda m, x, n, y, c: fit(16, x.bit_count()),
    "p": lambda m, x, n, y, c: fit(n if c + n <= m else 0, x >> max(m - c - n, 0)),
    "r": lambda m, x, n, y, c: fit(m, (((x >> c + n) << n) + y % 2**n << c) + x % 2**c),
    "f": lambda m, x, n, y, c: fit(m, x % 2**64),
    "w": lambda m, x, n, y, c: fit(64, x),
    "i": lambda m, x, n, y, c: fit(1, x < 2**64),
    "e": lambda m, x, n, y, c: fit(1, x == y),
}
TWO = "+-=#<>{}*^|,e"
ONE = "n~oaxsfwi"

# The same by the bits, where the operand is normal: a check of the table above.
BY_BITS = {
    ",": lambda m, x, n, y, c: bits(m, x) + bits(n, y),
    "@": lambda m, x, n, y, c: bits(m, x) * c,
    "h": lambda m, x, n, y, c: bits(m, x)[:c] if c <= m else "",
    "t": lambda m, x, n, y, c: bits(m, x)[m - c:] if c <= m else "",
    "~": lambda m, x, n, y, c: bits(m, x).translate({48: 49, 49: 48}),
    "p": lambda m, x, n, y, c: bits(m, x)[c:c + n] if c + n <= m else "",
    "r": lambda m, x, n, y, c: bits(m, x)[:m - c - n] + bits(n, y) + bits(m, x)[m - c:],
}


def line(letter, m, x, n, y, c, made):
    length, number = made or (0, 0)
    return f"{letter} {m:03} {x:064x} {n:03} {y:064x} {c:03} {length:03} {number:064x}"


def case(letter, m, x, n, y, c):
    made = OPERATORS[letter](m, x, n, y, c)
    if letter in BY_BITS and 0 < m <= LONGEST and x < 2**m and y < 2**max(n, 1) and not (letter == "r" and c + n > m):
        by = BY_BITS[letter](m, x, n, y, c)
        assert made == (fit(len(by), int(by, 2)) if by else None), (letter, m, x, n, y, c)
    return line(letter, m, x, n, y, c, made)


# ---- Constants.

BASES = {"B": 1, "Q": 2, "@": 3, "H": 4}
KINDS = {"": 0, "D": 10, **BASES}


def parts(text):
    """The length, the base, the period and the digits of a constant; a bare one has digits alone."""
    length, base, period, digits = re.fullmatch(r"(\d+)(?:([BQ@DH])(\.?)([0-9A-F]+))?", text).groups()
    return (0, "", "", length) if base is None else (int(length), base, period, digits)


def constant(text):
    """The value of a constant, or none where document 01 refuses it."""
    length, base, period, digits = parts(text)
    if not base:
        return (16, int(digits)) if int(digits) <= 65535 else None
    if base == "D":
        return fit(length, int(digits))
    if not period:
        return fit(length, int(digits, 2 ** BASES[base]))
    row = "".join(format(int(d, 16), f"0{BASES[base]}b") for d in digits)
    return fit(length, int(row.ljust(length, "0")[:length] or "0", 2))


def digits_line(digits, kind, length, made):
    made = made or (0, 0)
    return f"k {length:03} {digits:133} {kind:03} {made[0]:03} {made[1]:064x}"


def constant_line(text, made):
    length, base, period, digits = parts(text)
    kind = KINDS[base] + (10 if period else 0)
    return digits_line(digits, kind, length, made)


# ---- The manual's examples (2.3 and 5.3, subtraction as 02 has it) and 01's cases.

CONSTANTS = """
6D22 010110 | 1B1 1 | 8B101 00000101 | 8B.101 10100000 | 2B101 01 | 2B.101 10 | 16Q2321 0000000010111001 | 11@1367 01011110111
6H3C 111100 | 10H.74 0111010000 | 1 0000000000000001 | 10 0000000000001010 | 100 0000000001100100 | 4095 0000111111111111
65535 1111111111111111 | 65536 none | 257D1 none | 0D1 none
"""

EXAMPLES = """
1B1 (+) 4B1011 = 01100 | 4B1111 (+) 4B1111 = 11110 | 1B1 (+) 1B0 = 01 | 4B1001 (+) 4B1100 = 10101
1B1 (-) 4B1011 = 10110 | 4B1111 (-) 4B1111 = 00000 | 1B1 (-) 1B0 = 01 | 1B0 (-) 3B110 = 1010 | 3B001 (-) 3B011 = 1110
3B111 (-) 3B000 = 0111 | 4B1110 (-) 3B001 = 01101 | 8D3 (-) 2 = 00000000000000001 | 16D0 (-) 65535 = 10000000000000001
(-) 3B110 = 1010 | (-) 3B001 = 1111 | (-) 3B000 = 0000 | (-) 2B11 = 101 | 256D0 (-) 1B1 = none | (-) 256D1 = none
2B10 > 16D1 = 1 | 10D1 # 1B1 = 0 | 8D2 (=) 8D3 = 0 | 1B1 >= 2@3 = 0
3B101 EXT 3 = 101101101 | 8B11010110 HEAD 4 = 1101 | 8B11010110 TAIL 2 = 10
4B1101 CON 6B1 = 1101000001 | 4B1 CON 6B.1 = 0001100000
- 1B1 = 0 | - 6B110101 = 001010 | - 10@1473 = 0011000100
5B10110 * 5B00101 = 00100 | 5B10110 [+] 5B00101 = 10011 | 5B10110 + 5B00101 = 10111 | 5B10110 * 7B1111111 = 0010110
+ RED 5B00010 = 1 | * RED 5B11111 = 1 | [+] RED 5B00101 = 0 | (+) RED 5B11101 = 0000000000000100
4B1 EXT 65 = none
"""

SIGNS = {"(+)": "+", "(-)": "-", "(=)": "=", "#": "#", "<": "<", ">": ">", "<=": "{", ">=": "}", "CON": ",", "*": "*", "[+]": "^", "+": "|"}
COUNTED = {"EXT": "@", "HEAD": "h", "TAIL": "t"}
PREFIXES = {"(-)": "n", "-": "~"}
REDUCTIONS = {"+": "o", "*": "a", "[+]": "x", "(+)": "s"}


def rows(table):
    return [row.strip() for row in table.replace("\n", "|").split("|") if row.strip()]


def written(text):
    return None if text == "none" else (len(text), int(text, 2))


def example(row):
    """An example as a line; the table of operators has to agree with it."""
    words, result = row.rsplit(" = ", 1)
    words = words.split()
    if words[1] == "RED":
        letter, x, y, c = REDUCTIONS[words[0]], constant(words[2]), (0, 0), 0
    elif len(words) == 2:
        letter, x, y, c = PREFIXES[words[0]], constant(words[1]), (0, 0), 0
    elif words[1] in COUNTED:
        letter, x, y, c = COUNTED[words[1]], constant(words[0]), (0, 0), int(words[2])
    else:
        letter, x, y, c = SIGNS[words[1]], constant(words[0]), constant(words[2]), 0
    assert OPERATORS[letter](*x, *y, c) == written(result), row
    return line(letter, *x, *y, c, written(result))


def papers():
    for row in rows(CONSTANTS):
        text, result = row.split()
        assert constant(text) == written(result), row
        yield constant_line(text, written(result))
    yield from (example(row) for row in rows(EXAMPLES))
    yield case("@", 4, 1, 0, 0, 64)
    yield constant_line("256D1", (256, 1))


# ---- Random operands, from a fixed seed.

RANDOM = random.Random(1976)


def number(m):
    """A number of m bits: often an edge, else any."""
    return RANDOM.choice([0, 1, 2**m - 1, 2 ** (m - 1), *(RANDOM.getrandbits(m) for _ in range(8))])


def pairs():
    for m in LENGTHS:
        for n in LENGTHS:
            for letter in TWO:
                x = number(m)
                yield case(letter, m, x, n, RANDOM.choice([x % 2**n, number(n), number(n)]), 0)
            if n <= m:
                yield case("r", m, number(m), n, number(n), RANDOM.randint(0, m - n))
                yield case("p", m, number(m), n, 0, RANDOM.randint(0, m - n))


def singles():
    for m in LENGTHS:
        for _ in range(8):
            for letter in ONE:
                yield case(letter, m, number(m), 0, 0, 0)
            yield case("@", m, number(m), 0, 0, RANDOM.randint(0, LONGEST // m + 1))
            yield case("h", m, number(m), 0, 0, RANDOM.randint(0, m + 1))
            yield case("t", m, number(m), 0, 0, RANDOM.randint(0, m + 1))
            yield case("p", m, number(m), RANDOM.randint(0, m), 0, RANDOM.randint(0, m))


def spare():
    """Operands with spare bits set, and lengths that no value has."""
    for letter in OPERATORS:
        for _ in range(12):
            m, n, c = (RANDOM.choice([*LENGTHS, 0, 257, 999]) for _ in range(3))
            yield case(letter, m, RANDOM.getrandbits(256), n, RANDOM.getrandbits(256), c)


def constants():
    for length in LENGTHS:
        for base, digits in [("B", "01"), ("Q", "0123"), ("@", "01234567"), ("D", "0123456789"), ("H", "0123456789ABCDEF")]:
            for period in ["", "."] if base != "D" else [""]:
                for size in [1, length // 4 + 1, RANDOM.randint(1, 120), 120]:
                    text = f"{length}{base}{period}" + "".join(RANDOM.choice(digits) for _ in range(size))
                    yield constant_line(text, constant(text))
    for bare in [0, 65534, 65535, 65536, 10**60, 2**256 + 5, 2**320 + 7]:
        yield constant_line(str(bare), constant(str(bare)))
        yield digits_line(str(bare), 20, 0, (32, min(bare, 65536)))


for part in papers, pairs, singles, spare, constants:
    for row in part():
        print(row)
