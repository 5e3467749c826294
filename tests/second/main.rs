//! The command line: the trace program over `run.ddl` and standard input; with
//! `--random SEED COUNT` the self-check; with `--text SEED` a text, and with
//! `--input SEED LINES` input lines for `run.ddl`, to hold another simulator
//! against this one; with `--images SEED MOST TEXT...` images that pass and
//! that do not, those of the texts up to so many bytes among them; with
//! `--pack FOLDER...` cases in one file: of each the lengths of its text, its
//! input and the output that is owed in four bytes, and these.

use second::trials::{check::check, forge, supply};
use std::env;
use std::fs;
use std::io::{self, Read, Write};
use std::path::Path;
use std::process::ExitCode;

fn main() -> ExitCode {
    let arguments: Vec<String> = env::args().skip(1).collect();
    let done = match &arguments[..] {
        [] => traced().map_err(|error| error.to_string()),
        [mode, seed, count] if mode == "--random" => checked(seed, count),
        [mode, seed] if mode == "--text" => supplied(seed, None),
        [mode, seed, lines] if mode == "--input" => supplied(seed, Some(lines)),
        [mode, seed, most, texts @ ..] if mode == "--images" => forged(seed, most, texts),
        [mode, folders @ ..] if mode == "--pack" => packed(folders).map_err(|error| error.to_string()),
        _ => {
            Err("usage: second [--random SEED COUNT | --text SEED | --input SEED LINES | --images SEED MOST TEXT... | \
            --pack FOLDER...]"
                .to_string())
        }
    };
    match done {
        Ok(()) => ExitCode::SUCCESS,
        Err(error) => {
            eprintln!("second: {error}");
            ExitCode::FAILURE
        }
    }
}

fn number(word: &str) -> Result<u64, String> {
    word.parse().map_err(|_| format!("{word} is no number"))
}

fn checked(seed: &str, count: &str) -> Result<(), String> {
    match check(number(seed)?, number(count)?) {
        true => Ok(()),
        false => Err("the self-check failed".to_string()),
    }
}

/// A text, or as many input lines for the one that stands in `run.ddl`.
fn supplied(seed: &str, lines: Option<&String>) -> Result<(), String> {
    let seed = number(seed)?;
    let made = match lines {
        None => supply::text(seed),
        Some(lines) => {
            let text = fs::read("run.ddl").map_err(|error| error.to_string())?;
            supply::input(&text, seed, number(lines)? as usize)
        }
    };
    io::stdout().write_all(&made).map_err(|error| error.to_string())
}

fn forged(seed: &str, most: &str, texts: &[String]) -> Result<(), String> {
    let mut places = texts.to_vec();
    places.sort();
    let texts: Result<Vec<_>, _> = places.iter().map(fs::read).collect();
    let texts = texts.map_err(|error| error.to_string())?;
    let made = forge::cases(number(seed)?, number(most)? as usize, &texts);
    io::stdout().write_all(&made).map_err(|error| error.to_string())
}

fn packed(folders: &[String]) -> io::Result<()> {
    let mut places = folders.to_vec();
    places.sort();
    let mut output = io::BufWriter::new(io::stdout().lock());
    for place in &places {
        let folder = Path::new(place);
        let parts =
            [fs::read(folder.join("run.ddl"))?, fs::read(folder.join("stdin"))?, fs::read(folder.join("stdout"))?];
        for part in &parts {
            output.write_all(&(part.len() as u32).to_le_bytes())?;
        }
        for part in &parts {
            output.write_all(part)?;
        }
    }
    output.flush()
}

fn traced() -> io::Result<()> {
    let text = fs::read("run.ddl")?;
    let mut input = Vec::new();
    io::stdin().read_to_end(&mut input)?;
    let mut output = io::BufWriter::new(io::stdout().lock());
    let mut written = Ok(());
    second::trace::trace(&text, &input, |line| {
        if written.is_ok() {
            written = writeln!(output, "{line}");
        }
    });
    written.and_then(|()| output.flush())
}
