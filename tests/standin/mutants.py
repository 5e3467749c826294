#!/usr/bin/env python3
"""Shows that the harness sees more than the stand-in's own faults: changes the
second simulator in one place at a time, builds the stand-in over it, and lets
the harness find the difference. Not part of tests/run: each change takes some
twenty seconds. To be run when the harness, the corpus or the second simulator
changes; a change that is missed wants a case in the corpus or another kind of
try in the harness.

    tests/standin/mutants.py [NUMBER...]      all changes, or those with these numbers
"""
import pathlib
import shutil
import subprocess
import sys

ROOT = pathlib.Path(__file__).resolve().parents[2]
WORK = ROOT / "target" / "mutants"
SEED, TRIES = "1979", "2500"
BUILD = ["rustc", "--edition", "2021", "-C", "opt-level=1", "-A", "warnings"]

# What the change leaves out, the file of tests/second, the words there, and those in their place.
CHANGES = [
    ("bytes are not compared", "load.rs", "(image(&description) == own)", "(image(&description).len() == own.len())"),
    ("no ceiling on what is counted", "load.rs", "&& self.counted() <= Some(COUNTED)", ""),
    ("no ceiling on operations", "load.rs", "&& self.operations.len() / OPERATION <= OPERATIONS", ""),
    ("no ceiling on facilities", "load.rs", "(1..=FACILITIES).contains(&facilities)", "facilities >= 1"),
    ("no ceiling on states", "load.rs", "(1..=STATES).contains(&states)", "states >= 1"),
    ("reserved words are names", "load.rs", "&& !RESERVED.contains(&text)", ""),
    ("names begin with digits", "load.rs", "begins && goes_on", "goes_on"),
    ("names have small letters", "load.rs", "byte.is_ascii_uppercase() || byte.is_ascii_digit()", "byte.is_ascii_alphanumeric()"),
    ("names are of any length", "load.rs", "text.len() <= NAME &&", ""),
    ("values without labels", "load.rs", "let sound = label.is_some() || value.is_none();", "let sound = true;"),
    ("inputs of two dimensions", "load.rs", "let sound = dimensions.len() < 2 || !function;", "let sound = true;"),
    ("facilities in any order", "load.rs", "if !records.clone().map(|record| section(record[0])).is_sorted() {", "if false {"),
    ("stores in states", "load_actions.rs", "(1..=4, Within::Operation)", "(1..=4, _)"),
    ("RETURN in operations", "load_actions.rs", "(9, Within::State)", "(9, _)"),
    ("work of 65,537", "rules.rs", "> WORK {", "> WORK + 1 {"),
    ("operations and states named as facilities", "rules.rs", "if self.meanings.contains_key(&name.text) {", "if self.meanings.contains_key(&name.text) && matches!(meaning, Meaning::Facility(_)) {"),
    ("a sequencing register of two dimensions", "rules.rs", "shape.0.len() == 2 || ", ""),
    ("too few arms", "lengths.rs", "arms == 1 << condition", "arms <= 1 << condition"),
    ("immediate stores to the sequencing register", "lengths.rs", "delayed || !sequencing", "delayed || *sequencing || !sequencing"),
    ("parts against the direction", "lengths.rs", "position(first) > position(last)", "false"),
    ("nesting of 25", "grammar.rs", "const NESTING: usize = 24;", "const NESTING: usize = 25;"),
    ("HEAD and TAIL change places", "image.rs", "(Counted::Head, 41), (Counted::Tail, 42)", "(Counted::Head, 42), (Counted::Tail, 41)"),
    ("returns that are not held", "record.rs", "numbers[4 + held..].iter().any(|&unused| unused != 0)", "false"),
    ("no open mark", "record.rs", "numbers[0] != MARK ||", ""),
    ("returns to no state", "sound.rs", "&& returns.iter().all(|&held| held < states)", ""),
    ("any sequencing register", "sound.rs", "store[register][0] == description.values[state]", "register < usize::MAX"),
    ("spare bits", "value.rs", "(whole.ones() == value.ones()).then_some(value)", "Some(value)"),
    ("a short record", "calls.rs", "self.record.len() >= RECORD", "self.record.len() >= RECORD - 1"),
    ("scratch of three stores", "calls.rs", "4 * size && traced", "3 * size && traced"),
    ("a short trace", "calls.rs", "let traced = self.trace.is_empty()", "let traced = true"),
    ("stimuli too many", "calls.rs", "if bytes.len() as u128 != cycles as u128 * size as u128 {", "if (bytes.len() as u128) < cycles as u128 * size as u128 {"),
    ("two calls", "step.rs", "|| self.calls.len() > 1", ""),
    ("no last cycle", "step.rs", "run.cycle.checked_add(1).ok_or(Stop(7))?", "run.cycle.wrapping_add(1)"),
    ("seventeen returns", "step.rs", "if returns.len() >= RETURNS {", "if returns.len() > RETURNS {"),
    ("conflicts of first bits", "step.rs", "bits.iter().any(|bit|", "bits.first().is_some_and(|bit|"),
    ("the first bit named alone", "step.rs", "self.named.extend(bits);", "self.named.extend(bits.into_iter().take(1));"),
    ("CASE 0 takes the first arm", "evaluate.rs", "(Choice::Case, 0) => Ok(arms.last())", "(Choice::Case, 0) => Ok(arms.first())"),
    ("256 ones are none", "evaluate.rs", "Bits::from_number(ones, 16)", "Bits::from_number(ones & 255, 16)"),
]


def build(kind, name, source, folder, *more):
    command = BUILD + ["--crate-type", kind, "--crate-name", name, *more, "--out-dir", str(folder), str(source)]
    subprocess.run(command, check=True)


def prepare():
    """The second simulator itself, and the harness over an archive that comes at run time."""
    shutil.rmtree(WORK, ignore_errors=True)
    (WORK / "first").mkdir(parents=True)
    build("rlib", "second", ROOT / "tests/second/lib.rs", WORK)
    second = f"second={WORK}/libsecond.rlib"
    build("cdylib", "ddlp", ROOT / "tests/standin/standin.rs", WORK / "first", "--extern", second)
    linked = ["-L", f"native={WORK}/first", "-l", "dylib=ddlp"]
    build("bin", "harness", ROOT / "tests/harness/main.rs", WORK, "--extern", second, *linked)


def changed(file, words, others):
    """A copy of what the second simulator is built from, with the change."""
    copy = WORK / "copy"
    shutil.rmtree(copy, ignore_errors=True)
    for part in ["tests/second", "docs", "tests/corpus/trace-example-as-printed"]:
        shutil.copytree(ROOT / part, copy / part)
    path = copy / "tests/second" / file
    path.write_text(path.read_text().replace(words, others))
    return copy / "tests/second/lib.rs"


def is_caught(file, words, others):
    folder = WORK / "changed"
    shutil.rmtree(folder, ignore_errors=True)
    folder.mkdir()
    build("rlib", "second", changed(file, words, others), folder, "-C", "metadata=changed")
    second = f"second={folder}/libsecond.rlib"
    build("cdylib", "ddlp", ROOT / "tests/standin/standin.rs", folder, "--extern", second, "-C", "metadata=changed")
    return any(fails(folder, *arguments) for arguments in [("--corpus", ROOT / "tests/corpus"), (SEED, TRIES)])


def fails(folder, *arguments):
    tried = subprocess.run([WORK / "harness", *arguments], env={"LD_LIBRARY_PATH": str(folder)}, capture_output=True)
    return tried.returncode != 0


def stand():
    """Each change can still be made, also those that are not tried now."""
    for what, file, words, _ in CHANGES:
        if (ROOT / "tests/second" / file).read_text().count(words) != 1:
            sys.exit(f"{what}: {file} does not have this once: {words}")


def main():
    wanted = [int(number) for number in sys.argv[1:]] or range(len(CHANGES))
    stand()
    prepare()
    missed = 0
    for number in wanted:
        what, *change = CHANGES[number]
        caught = is_caught(*change)
        missed += not caught
        print(f"{number:3} {'caught' if caught else 'MISSED'}: {what}", flush=True)
    print(f"mutants: {len(wanted)} changes, {missed} missed")
    sys.exit(missed > 0)


main()
