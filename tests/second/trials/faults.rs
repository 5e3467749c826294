//! Faults of the last stage put into legal words, each so that its number
//! and its word are certain. Where a word stands says what it is.

use crate::trials::mutate::{is_constant, is_name, Mutation};
use crate::trials::random::Random;

/// Puts one fault in; where no word is of the kind looked for, none.
pub fn fault(words: &mut Vec<String>, random: &mut Random) -> Mutation {
    match random.below(6) {
        0 => unknown_reference(words, random),
        1 => count_of_zero(words, random),
        2 => far_subscript(words, random),
        3 => odd_state_value(words, random),
        4 => set_register(words, random),
        _ => long_condition(words, random),
    }
}

/// A random word for which this holds.
fn any(words: &[String], random: &mut Random, fits: impl Fn(&Around) -> bool) -> Option<usize> {
    let fitting: Vec<usize> = (0..words.len()).filter(|&at| fits(&Around { words, at })).collect();
    if fitting.is_empty() {
        None
    } else {
        Some(random.pick(&fitting))
    }
}

/// A word and its neighbours.
struct Around<'a> {
    words: &'a [String],
    at: usize,
}

impl Around<'_> {
    fn word(&self) -> &str {
        &self.words[self.at]
    }

    fn before(&self, steps: usize) -> &str {
        self.at.checked_sub(steps).map_or("", |at| &self.words[at])
    }

    fn after(&self, steps: usize) -> &str {
        self.words.get(self.at + steps).map_or("", |word| word)
    }
}

fn unknown_reference(words: &mut [String], random: &mut Random) -> Mutation {
    const BEFORE: [&str; 13] = ["->", "=>", "(+)", "(-)", "*", "[+]", "(=)", "<=", ">=", "RED", "CASE", "IF", "<-"];
    let at = any(words, random, |around| is_name(around.word()) && BEFORE.contains(&around.before(1)));
    if let Some(at) = at {
        words[at] = "UNKNOWNNAME".to_string();
    }
    Mutation { kind: "unknown reference", expected: at.map(|at| (4, at)) }
}

fn count_of_zero(words: &mut [String], random: &mut Random) -> Mutation {
    let at = any(words, random, |around| ["HEAD", "TAIL", "EXT"].contains(&around.before(1)));
    if let Some(at) = at {
        words[at] = random.pick(&["0", "257", "64B0", "256H.F"]).to_string();
    }
    Mutation { kind: "count of zero", expected: at.map(|at| (7, at - 1)) }
}

/// A bound above 65,535, or a constant subscript or end of a part that far out.
fn far_subscript(words: &mut [String], random: &mut Random) -> Mutation {
    let at = any(words, random, |around| match (around.before(1), around.after(1)) {
        _ if !is_constant(around.word()) => false,
        (":", _) | ("[", "]" | "," | ":") | (",", "]" | ":") => true,
        _ => false,
    });
    if let Some(at) = at {
        words[at] = random.pick(&["17D65536", "64HFFFFFFFFFFFFFFFF", "256B.1"]).to_string();
    }
    Mutation { kind: "far subscript", expected: at.map(|at| (6, at)) }
}

/// No sequencing register that is made has 255 bits.
fn odd_state_value(words: &mut [String], random: &mut Random) -> Mutation {
    let at = any(words, random, |around| {
        is_constant(around.word()) && is_name(around.before(2)) && (around.after(1), around.after(2)) == (")", ":")
    });
    if let Some(at) = at {
        words[at] = "255B1".to_string();
    }
    Mutation { kind: "odd state value", expected: at.map(|at| (9, at)) }
}

/// `@` on a register of one bit, in a state of its own.
fn set_register(words: &mut Vec<String>, random: &mut Random) -> Mutation {
    let end = words.iter().position(|word| word == "." || word == "END").unwrap_or(0);
    let registers = &words[..if words[0] == "REGISTER" { end + 1 } else { 0 }];
    let register =
        any(registers, random, |around| is_name(around.word()) && [",", ".", "END"].contains(&around.after(1)));
    let control = words.iter().position(|word| word == "CONTROL");
    let (Some(register), Some(control)) = (register, control) else {
        return Mutation { kind: "register set", expected: None };
    };
    let state = [&words[register], "@", "/"].map(str::to_string);
    words.splice(control + 1..control + 1, state);
    Mutation { kind: "register set", expected: Some((8, control + 2)) }
}

/// A condition with a bit in front has more than one.
fn long_condition(words: &mut Vec<String>, random: &mut Random) -> Mutation {
    let begins_chain = |word: &str| is_name(word) || is_constant(word) || word == "(";
    let at = any(words, random, |around| around.word() == "IF" && begins_chain(around.after(1)));
    if let Some(at) = at {
        words.splice(at + 1..at + 1, ["1B0", "CON"].map(str::to_string));
    }
    Mutation { kind: "long condition", expected: at.map(|at| (7, at)) }
}
