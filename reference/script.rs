//! Reading a script: lines, words, and the command that a line holds.
//!
//! A script is bytes and not text: nothing in the grammar needs more than ASCII, and a byte that is none of its
//! characters is simply a word that no command has.

use crate::labels::PlanKind;
use std::fmt;

/// A line that could be read.
#[derive(Clone, Debug, PartialEq, Eq)]
pub enum Command {
    /// Choose another width plan. The numbers need not be widths.
    Plan(PlanKind, Vec<u64>),
    /// Length, level, parent and text of a word.
    Ask(u64),
    /// How two words stand to each other.
    Relate(u64, u64),
    /// The label for a new child between two bounds.
    Between { parent: u64, lower: Option<u64>, upper: Option<u64> },
    /// The rows of the factory's sheet.
    Factory,
}

/// Why a line could not be read.
#[derive(Clone, Copy, Debug, PartialEq, Eq)]
pub enum LineError {
    UnknownCommand,
    MissingWord,
    ExtraWord,
    NotANumber,
    NotALabelWord,
}

impl fmt::Display for LineError {
    fn fmt(&self, f: &mut fmt::Formatter<'_>) -> fmt::Result {
        f.write_str(match self {
            LineError::UnknownCommand => "error unknown command",
            LineError::MissingWord => "error missing word",
            LineError::ExtraWord => "error extra word",
            LineError::NotANumber => "error not a number",
            LineError::NotALabelWord => "error not a label word",
        })
    }
}

/// The lines of a script. A line ends at a line feed, with or without a carriage return before it; the last one may
/// lack it.
pub fn lines(script: &[u8]) -> impl Iterator<Item = &[u8]> {
    script.split_inclusive(|&byte| byte == b'\n').map(|line| match line {
        [text @ .., b'\r', b'\n'] | [text @ .., b'\n'] => text,
        text => text,
    })
}

/// A line in front of its comment, and the comment with its `#` (empty where there is none).
pub fn split_comment(line: &[u8]) -> (&[u8], &[u8]) {
    let end = line.iter().position(|&byte| byte == b'#').unwrap_or(line.len());
    line.split_at(end)
}

/// The command in a line, or none where the line has no word.
pub fn parse(line: &[u8]) -> Result<Option<Command>, LineError> {
    let (code, _) = split_comment(line);
    let mut words = Words::new(code);
    let Some(name) = words.next() else {
        return Ok(None);
    };
    let command = match name {
        b"plan" => {
            let kind = match words.expect()? {
                b"position" => PlanKind::Position,
                b"level" => PlanKind::Level,
                _ => return Err(LineError::UnknownCommand),
            };
            Command::Plan(kind, words.numbers()?)
        }
        b"ask" => Command::Ask(words.label_word()?),
        b"relate" => Command::Relate(words.label_word()?, words.label_word()?),
        b"between" => Command::Between { parent: words.label_word()?, lower: words.bound()?, upper: words.bound()? },
        b"factory" => Command::Factory,
        _ => return Err(LineError::UnknownCommand),
    };
    words.end()?;
    Ok(Some(command))
}

/// The words of a line that are not read yet. They are taken from left to right, and the first that cannot be read
/// decides what is wrong with the line.
struct Words<'a> {
    left: Vec<&'a [u8]>,
}

impl<'a> Words<'a> {
    fn new(code: &'a [u8]) -> Words<'a> {
        let mut left: Vec<&[u8]> = code.split(|&byte| byte == b' ').filter(|word| !word.is_empty()).collect();
        left.reverse();
        Words { left }
    }

    /// The next word, if there is one.
    fn next(&mut self) -> Option<&'a [u8]> {
        self.left.pop()
    }

    /// The next word, which must be there.
    fn expect(&mut self) -> Result<&'a [u8], LineError> {
        self.next().ok_or(LineError::MissingWord)
    }

    /// A label word: sixteen hexadecimal digits.
    fn label_word(&mut self) -> Result<u64, LineError> {
        hexadecimal(self.expect()?).ok_or(LineError::NotALabelWord)
    }

    /// A label word, or `none`.
    fn bound(&mut self) -> Result<Option<u64>, LineError> {
        match self.expect()? {
            b"none" => Ok(None),
            word => hexadecimal(word).map(Some).ok_or(LineError::NotALabelWord),
        }
    }

    /// All words to the end of the line, as numbers.
    fn numbers(&mut self) -> Result<Vec<u64>, LineError> {
        std::iter::from_fn(|| self.next()).map(|word| decimal(word).ok_or(LineError::NotANumber)).collect()
    }

    /// No word may be left.
    fn end(&mut self) -> Result<(), LineError> {
        match self.next() {
            Some(_) => Err(LineError::ExtraWord),
            None => Ok(()),
        }
    }
}

/// The value of sixteen hexadecimal digits of either case.
fn hexadecimal(word: &[u8]) -> Option<u64> {
    if word.len() != 16 {
        return None;
    }
    word.iter().try_fold(0, |value, &digit| Some(value << 4 | u64::from(char::from(digit).to_digit(16)?)))
}

/// The value of one or more decimal digits. Zeros in front do not count, however many there are.
pub fn decimal(word: &[u8]) -> Option<u64> {
    if word.is_empty() {
        return None;
    }
    word.iter().try_fold(0u64, |value, &digit| {
        let digit = char::from(digit).to_digit(10)?;
        value.checked_mul(10)?.checked_add(u64::from(digit))
    })
}
