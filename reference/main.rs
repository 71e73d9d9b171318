//! The reference: a second, slow and plain implementation of what `kushrebat` answers.
//!
//! It takes the same scripts and prints the same answers, by methods that share nothing with the product, so that the
//! answers of the two can be held against each other. It also makes the stored scripts of labels. See README.md.

mod bench;
mod factory;
mod labels;
mod make;
mod random;
mod refusal;
mod script;
mod selftest;
mod session;
mod spelling;

use std::fs;
use std::io::{self, Read, Write};
use std::process::ExitCode;

const HELP: &str = "\
reference [FILE]                     answer a script (standard input where no FILE is given)
reference --spell PLAN.. -- TEXT..   the words of dotted labels, lawful or not, one to a line;
                                     PLAN.. as behind `plan` in a script: position 4, level 2 4
reference --translate FILE           a script with labels in brackets, [1.9/1 = 01 0 1001 1 0001],
                                     as a script with words
reference --make-labels SEED COUNT   a script of COUNT lines on labels
reference --selftest                 check the reference itself
reference --bench COUNT              time COUNT readings, openings and questions to a shelf
";

fn main() -> ExitCode {
    let arguments: Vec<String> = std::env::args().skip(1).collect();
    match output(&arguments) {
        Ok(text) => match io::stdout().write_all(text.as_bytes()) {
            Ok(()) => ExitCode::SUCCESS,
            Err(_) => ExitCode::FAILURE,
        },
        Err(why) => {
            eprintln!("reference: {why}");
            ExitCode::FAILURE
        }
    }
}

/// All that the program prints, or why it prints nothing.
fn output(arguments: &[String]) -> Result<String, String> {
    let words: Vec<&str> = arguments.iter().map(String::as_str).collect();
    match words[..] {
        [] => {
            let mut script = Vec::new();
            io::stdin().read_to_end(&mut script).map_err(|why| format!("standard input: {why}"))?;
            Ok(session::answers(&script))
        }
        ["--help"] => Ok(HELP.to_string()),
        ["--selftest"] => selftest::selftest(),
        ["--bench", count] => Ok(bench::bench(number(count)? as usize)),
        ["--make-labels", seed, count] => Ok(make::labels_script(number(seed)?, number(count)? as usize)),
        ["--translate", file] => {
            let source = String::from_utf8(contents(file)?).map_err(|why| format!("{file}: {why}"))?;
            spelling::translate(&source).map_err(|why| format!("{file}, {why}"))
        }
        ["--spell", ..] => {
            let mut parts = arguments[1..].splitn(2, |word| word == "--");
            let plan = parts.next().unwrap_or_default();
            spelling::spell(plan, parts.next().ok_or("-- is missing between the plan and the labels")?)
        }
        [file] if !file.starts_with("--") => Ok(session::answers(&contents(file)?)),
        _ => Err(format!("cannot make sense of these words; there are\n{HELP}")),
    }
}

fn contents(file: &str) -> Result<Vec<u8>, String> {
    fs::read(file).map_err(|why| format!("{file}: {why}"))
}

fn number(word: &str) -> Result<u64, String> {
    script::decimal(word.as_bytes()).ok_or_else(|| format!("{word:?} is no number"))
}
