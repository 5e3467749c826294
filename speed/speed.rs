//! How fast the module is: cycles a second of processor time, and
//! instructions a cycle, through `ddlp_run` and `ddlp_cycle`; beside a plain
//! interpreter in C and the second simulator, on three descriptions, in one
//! run.
//!
//!     speed FOLDER [MILLISECONDS]     FOLDER holds the descriptions; so long each is measured (default 400)
//!     speed --read CORPUS [MILLISECONDS]
//!                                     how long reading takes
//!     speed --kept FOLDER [MILLISECONDS]
//!                                     how long the wrapper takes to take up a kept image
//!     speed --stack FOLDER            the stack that calls need at most; status 1 where it is more than is said
//!     speed --stack-each FOLDER       the same, and what each call needs
//!     speed --stack-wrong FOLDER      whether a limit that is a byte too low would be told
//!     speed --carry FOLDER NAME       1,000 cycles by each on one description, for a tool that counts instructions
//!     speed --agree SEED TRIES        holds the interpreter in C against the second simulator
//!
//! Before anything is measured all four carry out the same cycles and must
//! come to the same store and record.

#[path = "../tests/harness/module.rs"]
#[allow(dead_code)]
mod module;

mod agree;
mod calls;
mod chains;
mod deep;
mod engines;
mod forged;
mod kept;
mod measure;
mod painted;
mod reading;
mod records;
mod stack;
mod texts;

use engines::{Board, Engine, ENGINES};
use measure::{Counter, Measured};
use std::process::ExitCode;
use std::time::Duration;
use std::{env, fs};

const USAGE: &str = "usage: speed FOLDER [MILLISECONDS], --read CORPUS [MILLISECONDS], --kept FOLDER [MILLISECONDS], \
    --stack FOLDER, --stack-each FOLDER, --stack-wrong FOLDER, --carry FOLDER NAME, or --agree SEED TRIES";
/// So long each is measured, unless it is said.
const TIME: Duration = Duration::from_millis(400);

/// A description, and what stands in its memory at the beginning.
struct Description {
    name: &'static str,
    memory: &'static [(u16, u16)],
}

const DESCRIPTIONS: [Description; 3] = [
    Description { name: "blackjack", memory: &[] },
    Description { name: "minicomputer", memory: &PROGRAM },
    Description { name: "datapath", memory: &[] },
];

/// Adds up a table of sixteen words over and over, the sum rotated after
/// each. 1 adds, 2 subtracts, 3 loads, 4 keeps, 5 jumps, 6 jumps where AC is
/// not zero, 7 rotates; the bit after the operation is the indirect one.
const PROGRAM: [(u16, u16); 18] = [
    (0, 0x6040),  // LOAD   the table's first address
    (1, 0x8041),  // KEEP   as the pointer
    (2, 0x6042),  // LOAD   the sum
    (3, 0x3041),  // ADD    the word under the pointer
    (4, 0xE000),  // ROTATE
    (5, 0x8042),  // KEEP   as the sum
    (6, 0x6041),  // LOAD   the pointer
    (7, 0x2043),  // ADD    one
    (8, 0x8041),  // KEEP   as the pointer
    (9, 0x6041),  // LOAD   it again
    (10, 0x4044), // SUB    the end of the table
    (11, 0xC002), // JUMPN  to the next word
    (12, 0xA000), // JUMP   to the beginning
    (0x40, 0x0080),
    (0x43, 0x0001),
    (0x44, 0x0090),
    (0x80, 0x1234),
    (0x81, 0xFEDC),
];

fn board(folder: &str, description: &Description) -> Result<Board, String> {
    let path = format!("{folder}/{}.ddl", description.name);
    let text = fs::read(&path).map_err(|error| format!("{path}: {error}"))?;
    let mut board = Board::open(&text).map_err(|refusal| format!("{path}: refused {refusal}"))?;
    for &(word, contents) in description.memory {
        board.set_word("M", word, contents)?;
    }
    Ok(board)
}

/// All engines must come to the same store and record.
fn all_agree(board: &Board) -> Result<(), String> {
    let first = ENGINES[0].after(board)?;
    for engine in &ENGINES[1..] {
        if engine.after(board)? != first {
            return Err(format!("{} and {} differ", engine.name, ENGINES[0].name));
        }
    }
    Ok(())
}

fn carried(folder: &str, name: &str) -> Result<(), String> {
    let description = DESCRIPTIONS.iter().find(|description| description.name == name);
    all_agree(&board(folder, description.ok_or(format!("no description {name}"))?)?)
}

fn row(engine: &Engine, measured: &Measured, beside: &Measured) {
    let rate = measured.a_second();
    let ratio = beside.a_second() / rate;
    let instructions = measured.instructions_each().map_or("-".to_string(), |count| format!("{count:.0}"));
    println!("  {:22} {rate:>14.0} {instructions:>14} {ratio:>10.2}", engine.name);
}

fn table(folder: &str, time: Duration) -> Result<(), String> {
    let counter = Counter::open();
    if counter.is_none() {
        println!("this host does not count instructions");
    }
    println!("  {:22} {:>14} {:>14} {:>10}", "", "cycles/second", "instructions", "times C");
    for description in &DESCRIPTIONS {
        let board = board(folder, description)?;
        all_agree(&board)?;
        println!("{}: image {} bytes, store {} bytes", description.name, board.image.len(), board.store.len());
        let measured: Vec<Measured> =
            ENGINES.iter().map(|engine| engine.measured(&board, time, counter.as_ref())).collect();
        let beside = ENGINES.iter().zip(&measured).find(|(engine, _)| engine.in_c).map(|(_, measured)| measured);
        for (engine, measured) in ENGINES.iter().zip(&measured) {
            row(engine, measured, beside.unwrap_or(measured));
        }
    }
    Ok(())
}

fn asked(arguments: &[String]) -> Result<(), String> {
    let number = |word: &String| word.parse::<u64>().map_err(|_| format!("{word} is no number"));
    let time = |word: &String| number(word).map(Duration::from_millis);
    let names = DESCRIPTIONS.map(|description| description.name);
    match arguments {
        [folder] => table(folder, TIME),
        [stack, folder] if stack == "--stack" => stack::table(folder, &names, false),
        [each, folder] if each == "--stack-each" => stack::table(folder, &names, true),
        [wrong, folder] if wrong == "--stack-wrong" => stack::wrong(folder, &names),
        [carry, folder, name] if carry == "--carry" => carried(folder, name),
        [read, corpus] if read == "--read" => reading::table(corpus, TIME),
        [read, corpus, word] if read == "--read" => reading::table(corpus, time(word)?),
        [kept, folder] if kept == "--kept" => kept::table(folder, &names, TIME),
        [kept, folder, word] if kept == "--kept" => kept::table(folder, &names, time(word)?),
        [agree, seed, tries] if agree == "--agree" => agree::interpreter_agrees(number(seed)?, number(tries)?),
        [folder, word] => table(folder, time(word)?),
        _ => Err(USAGE.to_string()),
    }
}

fn main() -> ExitCode {
    let arguments: Vec<String> = env::args().skip(1).collect();
    match asked(&arguments) {
        Ok(()) => ExitCode::SUCCESS,
        Err(error) => {
            eprintln!("speed: {error}");
            ExitCode::FAILURE
        }
    }
}
