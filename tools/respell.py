#!/usr/bin/env python3
"""Spells the repository's own definitions and lemmas as today's Rattle spells its library's: words in snake case.

usage: tools/respell.py [FOLDER]

Run once, right after the kit's port.py, at the top of the repository or of FOLDER. It turns each name of .antt and
.rt files that has a capital inside, as `wordsLeft`, and the same names in must-fail edits and pages. Functions,
types, variants and exported names of src/ have no such names and stay. Before that, the few lemmas and locals whose
name a definition would then have get another one.
"""

import os
import re
import sys

NAME = r"[^\s(){}.;,@\"«»:=λ\[\]⌜⌝`|]"
TOKEN = re.compile(NAME + "+")
CAMEL = re.compile(r"^[a-z][a-z0-9]*[A-Z]")

# Where two names would fall together: the lemma is told from its definition by `_lem`, the local gets a name of its own.
APART = [
    (
        r"crates/about_(grammar|reading|rules|running)/.*\.antt$",
        {
            "plain_word": "plain_word_lem",
            "all_pass": "all_pass_lem",
            "all_right": "all_right_lem",
            "if_word": "if_word_lem",
            "at_sign": "at_sign_lem",
            "all_first": "all_first_lem",
            "all_known": "all_known_lem",
            "run_step": "run_step_lem",
            "on_value": "on_value_lem",
        },
    ),
    (
        r"crates/text_items/proofs/(Lookup|symbols/.*)\.antt$",
        {"of_one": "of_one_lem", "of_two": "of_two_lem", "of_three": "of_three_lem"},
    ),
    (
        r"crates/judge_actions/proofs/walk/.*\.antt$",
        {"arms_at": "arms_at_index", "list_at": "list_at_index"},
    ),
    (
        r"crates/value_operators/proofs/parts/part/Proof\.antt$",
        {"part_length": "part_length_call"},
    ),
]


def files(root, endings):
    for folder, below, names in os.walk(root):
        below[:] = sorted(d for d in below if d not in ("out", ".git", "target"))
        for name in sorted(names):
            if name.endswith(endings):
                yield os.path.join(folder, name)


def is_camel(token):
    return any(CAMEL.match(part) for part in token.split("-"))


def snake(token):
    part_of = lambda p: re.sub(r"(?<=[a-z0-9])([A-Z])", lambda m: "_" + m[1].lower(), p) if CAMEL.match(p) else p
    return "-".join(part_of(p) for p in token.split("-"))


def code_of(text):
    """Without comments."""
    return re.sub(r"(?m)(^|\s)(--|//).*$", "", text)


def main(root):
    for path in files(os.path.join(root, "crates"), ".antt"):
        for where, names in APART:
            if re.search(where, os.path.relpath(path, root)):
                text = open(path, encoding="utf-8").read()
                # A name behind a dot is a field's, a folder's or a function's.
                one = re.compile("(?<!%s)(?<!\\.)(%s)(?!%s)" % (NAME, "|".join(map(re.escape, names)), NAME))
                new = one.sub(lambda m: names[m[1]], text)
                if new != text:
                    open(path, "w", encoding="utf-8").write(new)
    old = set()
    for path in files(os.path.join(root, "crates"), (".antt", ".rt")):
        text = code_of(open(path, encoding="utf-8").read())
        old |= {t for t in TOKEN.findall(re.sub(r'"[^"\n]*"', '""', text)) if is_camel(t)}
    turn = {t: snake(t) for t in old}
    pages = [p for p in files(root, (".md", ".edit"))]
    for path in list(files(os.path.join(root, "crates"), (".antt", ".rt"))) + pages:
        text = open(path, encoding="utf-8").read()
        # What stands in quotes stays.
        pieces = re.split(r'("[^"\n]*")', text) if not path.endswith(".md") else [text]
        new = "".join(p if p.startswith('"') else TOKEN.sub(lambda m: turn.get(m[0], m[0]), p) for p in pieces)
        if new != text:
            open(path, "w", encoding="utf-8").write(new)


main(sys.argv[1] if len(sys.argv) > 1 else ".")
