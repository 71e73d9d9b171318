//! The ways in which a lawful line is turned down.
//!
//! A refusal is an answer like any other, so it is a value here and not an error of the program. The numbers and
//! names are fixed by the table that the product's users have in hand; they are kept in one place so that no other
//! module ever writes a number by hand.

use std::fmt;

/// One refusal with the values that it carries.
#[derive(Clone, Copy, Debug, PartialEq, Eq)]
pub enum Refusal {
    /// A word ends inside the subvalue that starts at this bit.
    Short { bit: usize },
    /// The subvalue that starts at this bit ends its level and is 0.
    Zero { bit: usize },
    /// No label fits between the two bounds.
    NoPlace,
    /// A list of widths is empty, too long, or has a width outside 1 to 8.
    Plan,
}

impl Refusal {
    /// The refusal's number in the users' table.
    pub fn number(self) -> u64 {
        match self {
            Refusal::Short { .. } => 1,
            Refusal::Zero { .. } => 2,
            Refusal::NoPlace => 12,
            Refusal::Plan => 24,
        }
    }

    /// The refusal's name in the users' table.
    pub fn name(self) -> &'static str {
        match self {
            Refusal::Short { .. } => "SHORT",
            Refusal::Zero { .. } => "ZERO",
            Refusal::NoPlace => "NO PLACE",
            Refusal::Plan => "PLAN",
        }
    }

    /// The first bit of the faulty subvalue, where the refusal is about one.
    pub fn bit(self) -> Option<usize> {
        match self {
            Refusal::Short { bit } | Refusal::Zero { bit } => Some(bit),
            Refusal::NoPlace | Refusal::Plan => None,
        }
    }
}

impl fmt::Display for Refusal {
    fn fmt(&self, f: &mut fmt::Formatter<'_>) -> fmt::Result {
        write!(f, "no {} {}", self.number(), self.name())?;
        match self.bit() {
            Some(bit) => write!(f, " bit {bit}"),
            None => Ok(()),
        }
    }
}
