//! Legal words broken in one place, mostly so that a refusal follows.

use crate::trials::random::Random;
use crate::words::RESERVED;

/// What was done, and the refusal's number and word where they are certain.
pub struct Mutation {
    pub kind: &'static str,
    pub expected: Option<(u8, usize)>,
}

const POOL: [&str; 42] = [
    "[+]", "(+)", "(-)", "(=)", ">=", "<=", "->", "=>", "<-", "#", "$", "(", ")", "*", "+", ",", "-", ".", "/", ":",
    ";", "<", "=", ">", "@", "[", "]", "_", "CASE", "DO", "ENDCASE", "IF", "THEN", "ELSE", "ENDIF", "END", "CON",
    "RED", "EXT", "HEAD", "TAIL", "RETURN",
];
const BAD_CONSTANTS: [&str; 9] =
    ["257D1", "0D1", "65536", "8B", "8Q4", "8@9", "99999999999999999999999B1", "000H1", "8DX"];
const CONSTANTS: [&str; 14] =
    ["0", "1", "2", "4", "5", "7", "9", "16", "1B1", "2B10", "4D9", "8HFF", "17D65536", "256D1"];

pub fn is_constant(word: &str) -> bool {
    word.starts_with(|first: char| first.is_ascii_digit())
}

pub fn is_name(word: &str) -> bool {
    word.starts_with(|first: char| first.is_ascii_alphabetic()) && !RESERVED.contains(&word)
}

/// Breaks the words; nothing is done where no word is of the kind looked for.
pub fn mutate(words: &mut Vec<String>, random: &mut Random) -> Mutation {
    match random.below(19) {
        0 => dropped(words, random),
        1 => repeated(words, random),
        2 => swapped(words, random),
        3 => replaced(words, random),
        4 => inserted(words, random),
        5 | 6 => renamed(words, random),
        7 => unknown(words, random),
        8..=10 => renumbered(words, random),
        11 => bad_constant(words, random),
        12 => long_name(words, random),
        13 => cut(words, random),
        14 | 15 => other_store(words, random),
        16 | 17 => set_terminal(words, random),
        _ => marked(words, random),
    }
}

fn uncertain(kind: &'static str) -> Mutation {
    Mutation { kind, expected: None }
}

/// A random word of those that are asked for.
fn any(words: &[String], random: &mut Random, fits: impl Fn(&str) -> bool) -> Option<usize> {
    let fitting: Vec<usize> = (0..words.len()).filter(|&i| fits(&words[i])).collect();
    if fitting.is_empty() {
        None
    } else {
        Some(random.pick(&fitting))
    }
}

fn dropped(words: &mut Vec<String>, random: &mut Random) -> Mutation {
    words.remove(random.below(words.len()));
    uncertain("word dropped")
}

fn repeated(words: &mut Vec<String>, random: &mut Random) -> Mutation {
    let at = random.below(words.len());
    words.insert(at, words[at].clone());
    uncertain("word repeated")
}

fn swapped(words: &mut [String], random: &mut Random) -> Mutation {
    let at = random.below(words.len() - 1);
    words.swap(at, at + 1);
    uncertain("words swapped")
}

fn from_pool(words: &[String], random: &mut Random) -> String {
    match random.below(4) {
        0 => random.pick(words),
        1 => random.pick(&CONSTANTS).to_string(),
        _ => random.pick(&POOL).to_string(),
    }
}

fn replaced(words: &mut [String], random: &mut Random) -> Mutation {
    let word = from_pool(words, random);
    words[random.below(words.len())] = word;
    uncertain("word replaced")
}

fn inserted(words: &mut Vec<String>, random: &mut Random) -> Mutation {
    let word = from_pool(words, random);
    words.insert(random.below(words.len() + 1), word);
    uncertain("word inserted")
}

fn renamed(words: &mut [String], random: &mut Random) -> Mutation {
    let (at, from) = (any(words, random, is_name), any(words, random, is_name));
    if let (Some(at), Some(from)) = (at, from) {
        words[at] = words[from].clone();
    }
    uncertain("name for another")
}

fn unknown(words: &mut [String], random: &mut Random) -> Mutation {
    if let Some(at) = any(words, random, is_name) {
        words[at] = "UNKNOWNNAME".to_string();
    }
    uncertain("unknown name")
}

fn renumbered(words: &mut [String], random: &mut Random) -> Mutation {
    if let Some(at) = any(words, random, is_constant) {
        words[at] = random.pick(&CONSTANTS).to_string();
    }
    uncertain("constant for another")
}

fn bad_constant(words: &mut [String], random: &mut Random) -> Mutation {
    let at = any(words, random, is_constant);
    if let Some(at) = at {
        words[at] = random.pick(&BAD_CONSTANTS).to_string();
    }
    Mutation { kind: "bad constant", expected: at.map(|at| (5, at)) }
}

fn long_name(words: &mut [String], random: &mut Random) -> Mutation {
    let at = any(words, random, is_name);
    if let Some(at) = at {
        words[at] = "L".repeat(random.between(133, 300));
    }
    Mutation { kind: "long name", expected: at.map(|at| (4, at)) }
}

/// Only the dollar can be missing at the end of a legal text.
fn cut(words: &mut Vec<String>, random: &mut Random) -> Mutation {
    let at = random.below(words.len());
    let expected = if words[at] == "$" { None } else { Some((3, at)) };
    words.truncate(at);
    Mutation { kind: "text cut", expected }
}

/// A delayed store made immediate or the other way round.
fn other_store(words: &mut [String], random: &mut Random) -> Mutation {
    let operations = words.iter().position(|word| word == "OPERATION").unwrap_or(words.len());
    let (_, bodies) = words.split_at_mut(operations);
    // An operation's own `=` has a bracket after it.
    let is_store = |at: &usize| {
        matches!(&bodies[*at][..], "=" | "<-" | "_") && bodies.get(at + 1).is_some_and(|after| after != "[")
    };
    let stores: Vec<usize> = (0..bodies.len()).filter(is_store).collect();
    if !stores.is_empty() {
        let at = random.pick(&stores);
        bodies[at] = if bodies[at] == "=" { "<-" } else { "=" }.to_string();
    }
    uncertain("store for another")
}

/// `@` on any name at the start of an action list.
fn set_terminal(words: &mut Vec<String>, random: &mut Random) -> Mutation {
    let name = any(words, random, is_name).map(|from| words[from].clone());
    let at = any(words, random, |word| ["THEN", "ELSE", "CONTROL"].contains(&word));
    if let (Some(name), Some(at)) = (name, at) {
        let set = if words[at] == "CONTROL" { vec![&name[..], "@", "/"] } else { vec![&name[..], "@", ","] };
        words.splice(at + 1..at + 1, set.into_iter().map(str::to_string));
    }
    uncertain("terminal set")
}

/// A register marked, a mark taken away, or a state's value put in or out.
fn marked(words: &mut Vec<String>, random: &mut Random) -> Mutation {
    if let Some(at) = any(words, random, |word| word == "#") {
        if random.chance(50) {
            words.remove(at);
            return uncertain("mark taken away");
        }
    }
    if let Some(at) = any(words, random, |word| word == ":").filter(|_| random.chance(50)) {
        let value = random.pick(&CONSTANTS);
        words.splice(at..at, ["(", value, ")"].map(str::to_string));
        return uncertain("value put in");
    }
    let registers = words.iter().position(|word| word == "." || word == "END").unwrap_or(0);
    let names: Vec<usize> = (0..registers).filter(|&i| is_name(&words[i])).collect();
    if !names.is_empty() {
        words.insert(random.pick(&names), "#".to_string());
    }
    uncertain("register marked")
}

/// Breaks the bytes of a text: some changed, taken out or put in.
pub fn mutate_bytes(text: &mut Vec<u8>, random: &mut Random) {
    for _ in 0..random.pick(&[1, 1, 1, 2, 10]) {
        let at = random.below(text.len());
        match random.below(5) {
            0 if at < text.len() => text[at] = random.below(256) as u8,
            1 if at < text.len() => drop(text.remove(at)),
            2 => text.insert(at, random.pick(b"!%&'?\\^`{|}~\x7f\0\x0b\x80\xff")),
            3 => drop(text.splice(at..at, vec![b' '; 133])),
            _ => text.insert(at, random.below(128) as u8),
        }
    }
}
