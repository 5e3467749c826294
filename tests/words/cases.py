#!/usr/bin/env python3
"""Writes the texts of crates/cases_words: data/ with one text a file, stdin with their names, stdout with what is expected.

    python3 tests/words/cases.py crates/cases_words

The words and refusals are worked out here from document 01 and the manual, sections 2.1 to 2.5, by regular expressions and by
Python's numbers."""
import pathlib
import random
import re
import sys

LONGEST_TEXT = 32768
LONGEST_LINE = 132
LONGEST_NAME = 132
LONGEST_VALUE = 256
BARE_LARGEST = 65535

# The kinds of words: single symbols from 3 on, multiple ones from 21 on, reserved words from 30 on, in the manual's order.
SINGLE = "# $ ( ) * + , - . / : ; < = > @ [ ]".split()
MULTIPLE = "[+] (+) (-) (=) >= <= -> => <-".split()
RESERVED = (
    "CASE DO ENDCASE IF THEN ELSE ENDIF END CON RED EXT HEAD TAIL TIME INPUT OUTPUT LEVEL RETURN REGISTER MEMORY "
    "TERMINAL OPERATION CONTROL"
).split()
KINDS = {s: 3 + i for i, s in enumerate(SINGLE)} | {s: 21 + i for i, s in enumerate(MULTIPLE)} | {"_": 29}

BITS = {"B": 1, "Q": 2, "@": 3, "H": 4}
DIGITS = {"B": "01", "Q": "0-3", "@": "0-7", "H": "0-9A-Fa-f", "D": "0-9"}
BASED = "|".join(f"(?P<{n}>[{c}{c.lower()}]{'' if c == 'D' else '[.]?'}[{DIGITS[c]}]*)" for n, c in zip("bqohd", "BQ@HD"))
ITEM = re.compile(
    rf'(?P<gap>[ \t\r\n]|"[^"\n]*"?)|(?P<name>[A-Za-z][A-Za-z0-9]*)|(?P<digits>[0-9]+)(?:{BASED})?|(?P<symbol>'
    + "|".join(re.escape(s) for s in sorted(KINDS, key=len, reverse=True))
    + ")",
    re.DOTALL,
)


def constant(m):
    """The value of a constant, (length, number, bare), or None where it is refused."""
    before = int(m["digits"])
    tail = m[0][len(m["digits"]):]
    if not tail:
        return (16, before, True) if before <= BARE_LARGEST else None
    base, digits = tail[0].upper(), tail[1:]
    left = digits.startswith(".")
    digits = digits.removeprefix(".")
    if not digits or not 1 <= before <= LONGEST_VALUE:
        return None
    if base == "D":
        return before, int(digits) % 2**before, False
    row = "".join(format(int(d, 16), f"0{BITS[base]}b") for d in digits)
    zeroes = "0" * before
    return before, int((row + zeroes)[:before] if left else (zeroes + row)[-before:], 2), False


def line_faults(text):
    """The byte that passes the last column, for each line that is too long."""
    start = 0
    for line in re.split("(?<=\n)", text):
        body = re.sub("\r?\n$", "", line)
        column = 0
        for i, c in enumerate(body):
            column = (column // 8 + 1) * 8 if c == "\t" else column + 1
            if column > LONGEST_LINE:
                yield start + i, 2
                break
        start += len(line)


def shown(text):
    """What the program prints of a text."""
    if len(text) > LONGEST_TEXT:
        return ["refused 1 0"]
    words, faults, at = [], list(line_faults(text)), 0
    while at < len(text):
        m = ITEM.match(text, at)
        if not m:
            faults.append((at, 2))
            at += 1
            continue
        s = m[0]
        if m["name"] and s.upper() in RESERVED:
            words.append(f"{at} {len(s)} sign {30 + RESERVED.index(s.upper())}")
        elif m["name"] and len(s) > LONGEST_NAME:
            faults.append((at, 4))
        elif m["name"]:
            words.append(f"{at} {len(s)} name {s.upper()}")
        elif m["symbol"]:
            words.append(f"{at} {len(s)} sign {KINDS[s]}")
        elif m["digits"]:
            v = constant(m)
            if v:
                limbs = ",".join(str(v[1] >> 64 * i & 2**64 - 1) for i in (3, 2, 1, 0))
                words.append(f"{at} {len(s)} constant {v[0]}:{limbs}" + " bare" * v[2])
            else:
                faults.append((at, 5))
        at = m.end()
    if faults:
        place, number = min(faults)
        return [f"refused {number} {place}"]
    return words


def random_text(rng, faulty):
    """Fragments of words, side by side or apart."""
    parts = SINGLE + MULTIPLE + RESERVED + ["_", " ", "  ", "\t", "\n", "\r\n", "\r", "a", "Zz9", "x0", '"c"', '"c\n']
    parts += ["7", "65535", "8B10", "8b.1", "16Q2321", "11@1367", "10H.74", "2@3", "256D1", "12d9", "4h.F", "0"]
    parts += ["1B", "0D1", "65536", "257H1", "3D.", "!", "^", "\x80", "\0", "A" * 130] if faulty else []
    text = ""
    while len(text) < 300:
        text += rng.choice(parts) + rng.choice(["", "", " ", "\n"])
    return text


def texts():
    """The cases, by name."""
    every = [*SINGLE, *MULTIPLE, "_"]
    yield "empty", ""
    yield "symbols_apart", " ".join(every)
    yield "symbols_together", "".join(SINGLE) + "\n" + "".join(MULTIPLE) + "_"
    yield "symbols_in_pairs", "\n".join("".join(a + b for b in every) for a in every)
    yield "longest_match", "A<-B A<--B [+](+)(-)(=)=>=<=<-->>=-=- [ +] (+ ) ( -) (=( => >= =>= <-> <=> [+ (- (="
    yield "reserved", "\n".join(f"{w} {w.lower()}" for w in RESERVED)
    yield "reserved_within", "CASEX XCASE END1 ENDI ENDIFF EnDcAsE RE D IF\"\"THEN DO2"
    yield "names", "a A1 Q1 a\"b\"c A.B x0y9Z aa#bb 12AB"
    for name, c in [("zero", 0), ("control", 1), ("vertical_tab", 11), ("form_feed", 12), ("escape", 27), ("exclamation", 33),
                    ("percent", 37), ("ampersand", 38), ("apostrophe", 39), ("question", 63), ("backslash", 92), ("caret", 94),
                    ("grave", 96), ("brace", 123), ("bar", 124), ("tilde", 126), ("delete", 127), ("high", 128), ("last", 255)]:
        yield "bad_" + name, "AB " + chr(c) + "C"
    anything = "".join(chr(c) for c in range(256) if c not in (9, 10, 34))
    yield "comment_of_any_bytes", "A\n" + "\n".join('"' + anything[i:i + 100] + '"' for i in range(0, len(anything), 100)) + "B"
    yield "comment_ended_by_line", 'A "! ^ %\nB "\r\nC'
    yield "comment_not_closed", 'A "B'
    yield "comments_side_by_side", '""A""B"""C"D'
    yield "bad_after_comment", '"!"!'
    line = "A," * 66
    yield "line_132", line + "\n" + line
    yield "line_133", line + "\n" + line + "A"
    yield "line_133_in_comment", "\n" + '"' + "x" * 132
    yield "line_crlf", line + "\r\n" + line + "\r\n"
    yield "line_return", line + "\r"
    yield "line_two_returns", line + "\r\r\n"
    yield "line_tabs", "A\tB\tC\n" + "\t" * 16 + "A,A,\n" + " " * 127 + "\tA,A"
    yield "line_tab_at_129", "\n" + " " * 128 + "\t"
    yield "line_tab_at_128", "\n" + " " * 127 + "\t"
    yield "line_tabs_17", "\t" * 17
    yield "line_two_long", "," * 140 + "\n" + "," * 140
    yield "line_before_word", "," * 132 + "!"
    yield "word_before_line", "," * 131 + "!!"
    yield "name_132", "N" * 131 + "9"
    yield "name_133", "N" * 133
    yield "name_133_later", "A\n " + "n" * 133
    yield "bare", "0 1 65535 00000 000065535"
    yield "bare_65536", "A 65536"
    yield "bare_huge", " " + "9" * 100
    yield "based_1", "1B0 1B1 1B.1 1Q3 1Q.3 1@7 1@.7 1D1 1D9 1HF 1H.8"
    yield "based_256", "\n".join(["256B" + "10" * 64, "256B." + "1" * 127, "256Q" + "3" * 128, "256@7" + "6" * 85, "256@." + "7" * 86,
                                  "256H" + "F" * 64, "256H." + "0" * 63 + "1", "256D" + "9" * 78, "256D" + "9" * 128, "256D1"])
    yield "based_255", "\n".join(["255@" + "7" * 85, "255@." + "7" * 86, "255H" + "F" * 64, "255H." + "a" * 64, "255D" + "1" * 100])
    yield "based_truncated", "4HAB 4H.AB 3@17 3@.17 2B.101 2B101 5D33"
    yield "based_extended", "12HA 12H.A 9@1 9@.1 16Q2321 11@1367 10H.74 6B.1 4B1 4D9"
    yield "based_lower_case", "8b10 8q3 8@7 8d9 8hfa 8hFa"
    yield "based_next_word", "8B102 8Q34 8@78 8D9A 8HFG 8B10.1 8D1.5 0008B1"
    for name, s in [("b", "8B"), ("b_period", "8B."), ("q", "8Q4"), ("octal", "8@8"), ("h", "8HG"), ("d", "8D"), ("d_period", "8D.5"),
                    ("do", "1DO"), ("end", "8h")]:
        yield "no_digit_" + name, "A " + s
    yield "length_0", "A 0D1"
    yield "length_0_bare", "A 00B1"
    yield "length_257", "256D1 257D1"
    yield "length_65536", "A 65536H1"
    yield "length_huge", "A " + "1" * 90 + "H1"
    yield "two_faults_at_once", "A" * 133 + "!"
    yield "text_32768", "A" + " " * 126 + "\n" + (" " * 127 + "\n") * 254 + " " * 127 + "Z"
    yield "text_32769", "A" + " " * 126 + "\n" + (" " * 127 + "\n") * 254 + " " * 127 + "Z\n"
    rng = random.Random(1)
    for i in range(40):
        yield f"random_{i:02}", random_text(rng, i % 2 == 1)


def main():
    folder = pathlib.Path(sys.argv[1])
    data = folder / "data"
    data.mkdir(exist_ok=True)
    for old in data.iterdir():
        old.unlink()
    names, out = [], []
    for name, text in texts():
        (data / name).write_bytes(text.encode("latin-1"))
        names.append(name)
        out += ["== " + name, *shown(text)]
    (folder / "stdin").write_text("\n".join(names) + "\n")
    (folder / "stdout").write_text("\n".join(out) + "\n")


main()
