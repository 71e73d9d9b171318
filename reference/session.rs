//! Carrying a script out: one answer for each line that has a command.

use crate::factory;
use crate::labels::{Plan, Scheme};
use crate::refusal::Refusal;
use crate::script::{self, Command};

/// What a script has set up so far.
pub struct Session {
    scheme: Scheme,
}

impl Session {
    /// The state before the first line: the built-in plan, words of 64 bits.
    pub fn new() -> Session {
        Session { scheme: Scheme::new(Plan::four(), 64) }
    }

    /// How labels are spelled at this point of the script.
    pub fn scheme(&self) -> &Scheme {
        &self.scheme
    }

    /// The answer to one line, or none where the line is empty.
    pub fn answer_line(&mut self, line: &[u8]) -> Option<String> {
        match script::parse(line) {
            Ok(None) => None,
            Ok(Some(command)) => Some(self.answer(command).unwrap_or_else(|refusal| refusal.to_string())),
            Err(error) => Some(error.to_string()),
        }
    }

    /// The answer to one command. After a refusal nothing is changed.
    fn answer(&mut self, command: Command) -> Result<String, Refusal> {
        match command {
            Command::Plan(kind, widths) => {
                self.scheme = Scheme::new(Plan::new(kind, &widths)?, 64);
                Ok("ok".to_string())
            }
            Command::Ask(word) => {
                let reading = self.scheme.ask(word)?;
                let parent = reading.parent.map_or("none".to_string(), hexadecimal);
                Ok(format!("bits {} level {} parent {parent} text {}", reading.bits, reading.level, reading.label))
            }
            Command::Relate(first, second) => Ok(self.scheme.relate(first, second)?.to_string()),
            Command::Between { parent, lower, upper } => {
                let (word, label) = self.scheme.label_between(parent, lower, upper)?;
                Ok(format!("label {} {label}", hexadecimal(word)))
            }
            Command::Factory => Ok(factory::rows()),
        }
    }
}

/// A word as it is printed.
pub fn hexadecimal(word: u64) -> String {
    format!("{word:016X}")
}

/// All answers to a script, one after the other, and a newline behind each.
pub fn answers(script: &[u8]) -> String {
    let mut session = Session::new();
    let mut text = String::new();
    for line in script::lines(script) {
        if let Some(answer) = session.answer_line(line) {
            text.push_str(&answer);
            text.push('\n');
        }
    }
    text
}
