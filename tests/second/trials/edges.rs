//! Texts at each ceiling, which are taken, and one step past it, which are
//! refused at a place known beforehand.

use crate::refusal::{refusal, Refusal};
use crate::trials::layout::lay_out;
use crate::trials::random::Random;

pub struct Edge {
    pub ceiling: &'static str,
    pub text: Vec<u8>,
    pub expected: Result<(), Refusal>,
}

/// A text at a random ceiling, or one step past it.
pub fn edge(random: &mut Random) -> Edge {
    let past = random.chance(50);
    match random.below(10) {
        0 => worded("facilities", facilities(past), random),
        1 => worded("operations", operations(past), random),
        2 => worded("states", states(past, random), random),
        3 => worded("counted", counted(past, random), random),
        4 => worded("nesting", nesting(past, random), random),
        5 => worded("work", work(past, random), random),
        6 => worded("store", store(past, random), random),
        7 => name(past, random),
        8 => line(past, random),
        _ => text(past, random),
    }
}

/// Words under way, and the one that passes the ceiling.
#[derive(Default)]
struct Draft {
    words: Vec<String>,
    fault: Option<usize>,
}

impl Draft {
    fn add(&mut self, words: &str) {
        self.words.extend(words.split_whitespace().map(str::to_string));
    }

    /// The next word passes the ceiling, if none has before it.
    fn mark(&mut self, passes: bool) {
        if passes {
            self.fault.get_or_insert(self.words.len());
        }
    }
}

fn worded(ceiling: &'static str, draft: Draft, random: &mut Random) -> Edge {
    let text = lay_out(&draft.words, false, random);
    let expected = draft.fault.map_or(Ok(()), |word| Err(refusal(10, text.places[word])));
    Edge { ceiling, text: text.bytes, expected }
}

fn facilities(past: bool) -> Draft {
    let mut draft = Draft::default();
    for number in 0..256 + past as usize {
        draft.add(if number == 0 { "REGISTER" } else { "," });
        draft.mark(number == 256);
        draft.add(&format!("A{number}"));
    }
    draft.add(". CONTROL / .");
    draft
}

fn operations(past: bool) -> Draft {
    let mut draft = Draft::default();
    draft.add("TERMINAL T .");
    for number in 0..128 + past as usize {
        draft.add(if number == 0 { "OPERATION" } else { "," });
        draft.mark(number == 128);
        draft.add(&format!("O{number} = [ T @ ]"));
    }
    draft.add(". CONTROL / .");
    draft
}

fn states(past: bool, random: &mut Random) -> Draft {
    let mut draft = Draft::default();
    draft.add("TERMINAL T . CONTROL");
    for number in 0..256 + past as usize {
        draft.mark(number == 256);
        match random.below(4) {
            0 => draft.add(&format!("S{number} : /")),
            1 => draft.add("T @ /"),
            2 => draft.add("RETURN /"),
            _ => draft.add("/"),
        }
    }
    draft.add(".");
    draft
}

/// Actions with their counting words marked by `!`.
const COUNTING: [&str; 9] = [
    "A != !B",
    "T !@",
    "A !<- !- !B",
    "A != !B !* !A",
    "A != !X [ !1 ]",
    "A != !X [ 1 : 1 ] !HEAD 1",
    "!IF !A THEN T !@ ENDIF",
    "A != !+ RED !B",
    "X [ !1 ] CON B != !2B1",
];

fn counted(past: bool, random: &mut Random) -> Draft {
    let mut draft = Draft::default();
    draft.add("REGISTER A , B , X [ 2 ] . TERMINAL T . OPERATION O = [");
    let mut counted = 0;
    while counted < 2_048 + past as usize {
        let action = if counted < 2_043 || counted == 2_048 { random.pick(&COUNTING) } else { "T !@" };
        if counted > 0 {
            draft.add(",");
        }
        for word in action.split_whitespace() {
            let counts = word.starts_with('!');
            counted += counts as usize;
            draft.mark(counts && counted > 2_048);
            draft.add(word.trim_start_matches('!'));
        }
    }
    draft.add("] . CONTROL / .");
    draft
}

fn nesting(past: bool, random: &mut Random) -> Draft {
    let mut draft = Draft::default();
    draft.add("REGISTER B , X [ 0 : 1 ] . TERMINAL T =");
    nest(&mut draft, 0, 24 + past as usize, 8, random);
    draft.add(". CONTROL / .");
    draft
}

/// One bit with openings one in another: `-` takes no `-`, RED no RED, `(-)` a term.
fn nest(draft: &mut Draft, open: usize, most: usize, forms: usize, random: &mut Random) {
    if open == most {
        return draft.add("B");
    }
    let (before, opening, inner, after) = match random.below(forms) {
        0 => ("", "(", 8, ")"),
        1 => ("X", "[", 8, "]"),
        2 => ("", "IF", 8, "THEN B ELSE B ENDIF"),
        3 => ("", "IF B THEN", 8, "ELSE B ENDIF"),
        4 => ("", "CASE B DO B DO", 8, "ENDCASE"),
        5 => ("", "(-)", 5, "TAIL 1"),
        6 => ("", random.pick(&["+ RED", "* RED", "[+] RED"]), 6, ""),
        _ => ("", "-", 7, ""),
    };
    draft.add(before);
    draft.mark(open == 24);
    draft.add(opening);
    nest(draft, open + 1, most, inner, random);
    draft.add(after);
}

/// Fourteen doublings make 65,535, or 65,536 with terminals; `T @` adds one.
fn work(past: bool, random: &mut Random) -> Draft {
    let mut draft = Draft::default();
    let by_terminals = random.chance(50);
    let (first, next) = if by_terminals { ("= A", ["= ", " + ", ""]) } else { ("= [ A = B ]", ["= [ ", " , ", " ]"]) };
    draft.add("REGISTER A , B . TERMINAL T");
    draft.add(if by_terminals { "," } else { ". OPERATION" });
    draft.add(&format!("D0 {first}"));
    for number in 1..15 {
        draft.add(&format!(", D{number} {}D{before}{}D{before}{}", next[0], next[1], next[2], before = number - 1));
    }
    draft.add(". CONTROL");
    draft.mark(past);
    draft.add(random.pick(&["P :", ""]));
    draft.add(if by_terminals { "IF D14 THEN T @ ENDIF" } else { "D14 , T @" });
    draft.add(if past { ", T @ / ." } else { "/ ." });
    draft
}

/// Memories that fill 16,384 bytes, the words of one or two bytes or of many.
fn store(past: bool, random: &mut Random) -> Draft {
    let mut draft = Draft::default();
    let mut left: usize = 16_384;
    draft.add("MEMORY");
    while left > 0 {
        let bytes = random.between(left.div_ceil(2), left);
        let taken = match random.below(3) {
            0 if bytes * 8 <= 65_535 => {
                draft.add(&format!("M{left} [ {} ]", bytes * 8));
                bytes
            }
            1 if bytes > 1 => {
                draft.add(&format!("M{left} [ {} , {} ]", bytes / 2, random.between(9, 16)));
                bytes / 2 * 2
            }
            _ => {
                draft.add(&format!("M{left} [ {bytes} , {} ]", random.between(1, 8)));
                bytes
            }
        };
        left -= taken;
        draft.add(if left > 0 { "," } else { "" });
    }
    draft.add(". TERMINAL C = 1B1");
    if past {
        draft.add(",");
        draft.mark(true);
        draft.add(random.pick(&["T", "T = INPUT ( 1 , T )"]));
    }
    draft.add(". CONTROL / .");
    draft
}

fn name(past: bool, random: &mut Random) -> Edge {
    let name = "N".repeat(132 + past as usize);
    let words = ["REGISTER", &name, ".", "CONTROL", "/", "."].map(str::to_string);
    let text = lay_out(&words, false, random);
    let expected = if past { Err(refusal(4, text.places[1])) } else { Ok(()) };
    Edge { ceiling: "name", text: text.bytes, expected }
}

fn line(past: bool, random: &mut Random) -> Edge {
    let mut text = b"REGISTER A.\n".to_vec();
    let mut width = 0;
    while width < 132 {
        let tab = random.chance(20) && width < 128;
        text.push(if tab { b'\t' } else { b' ' });
        width = if tab { (width / 8 + 1) * 8 } else { width + 1 };
    }
    let place = text.len();
    if past {
        text.push(random.pick(b" \tC\""));
    }
    text.extend(random.pick(&["\n", "\r\n"]).bytes());
    let expected = if past { Err(refusal(2, place)) } else { Ok(()) };
    text.extend(b"CONTROL /.");
    Edge { ceiling: "line", text, expected }
}

fn text(past: bool, random: &mut Random) -> Edge {
    let mut text = b"REGISTER A. CONTROL /.".to_vec();
    while text.len() < 32_768 + past as usize {
        text.push(random.pick(b"\n\n\n\r"));
    }
    let expected = if past { Err(refusal(1, 0)) } else { Ok(()) };
    Edge { ceiling: "text", text, expected }
}
