//! Label theory on lists.
//!
//! A label is a list of levels and a level a list of subvalues; the bits of a label are a list of truth values. No
//! question is answered by arithmetic on the 64-bit word: a word is taken apart into its bits when it comes in and
//! put together when it goes out, and everything between works on lists. This is slow and meant to be: it is to be
//! seen at a glance that it says what the rules say, and it must have no step in common with a fast implementation.
//!
//! The number of bits in a word is a parameter (`room`), so that the same code can be compared to an exhaustive
//! search where words are short enough for one.

use crate::refusal::Refusal;
use std::fmt;
use std::str::FromStr;

/// The bits of a label or of a word, leftmost first.
pub type Bits = Vec<bool>;

/// What decides the width of a subvalue.
#[derive(Clone, Copy, Debug, PartialEq, Eq)]
pub enum PlanKind {
    /// The subvalue's position within its level.
    Position,
    /// The level.
    Level,
}

/// A width plan: how many bits each subvalue has.
#[derive(Clone, Debug, PartialEq, Eq)]
pub struct Plan {
    kind: PlanKind,
    widths: Vec<usize>,
}

impl Plan {
    /// The plan with these widths, of which there must be 1 to 8, each from 1 to 8.
    ///
    /// The widths come as any number that a script can hold, because a number that is no width is a refusal and not
    /// a line that cannot be read.
    pub fn new(kind: PlanKind, widths: &[u64]) -> Result<Plan, Refusal> {
        let lawful = (1..=8).contains(&widths.len()) && widths.iter().all(|w| (1..=8).contains(w));
        if lawful {
            let widths = widths.iter().map(|&w| w as usize).collect();
            Ok(Plan { kind, widths })
        } else {
            Err(Refusal::Plan)
        }
    }

    /// The built-in plan: four bits for every subvalue.
    pub fn four() -> Plan {
        Plan { kind: PlanKind::Position, widths: vec![4] }
    }

    /// The width of the subvalue at `position` (from 0) in `level` (from 1). The last width of the list serves
    /// everything behind it.
    pub fn width(&self, level: usize, position: usize) -> usize {
        let index = match self.kind {
            PlanKind::Position => position,
            PlanKind::Level => level - 1,
        };
        self.widths[index.min(self.widths.len() - 1)]
    }
}

/// The plan as a script writes it behind the word `plan`.
impl fmt::Display for Plan {
    fn fmt(&self, f: &mut fmt::Formatter<'_>) -> fmt::Result {
        f.write_str(match self.kind {
            PlanKind::Position => "position",
            PlanKind::Level => "level",
        })?;
        self.widths.iter().try_for_each(|width| write!(f, " {width}"))
    }
}

/// A label, lawful or not: its levels, each a list of subvalues.
///
/// The derived order is the lexicographic one of lists of lists, which is the order of the drawn tree: a place stands
/// before all that is below it (a list before its continuations), and all that is below it before its next sibling
/// (of two levels that begin alike, the shorter comes first, whatever follows it in deeper levels).
#[derive(Clone, Debug, PartialEq, Eq, PartialOrd, Ord)]
pub struct Label {
    levels: Vec<Vec<u32>>,
}

impl Label {
    /// The label with these levels.
    pub fn new(levels: Vec<Vec<u32>>) -> Label {
        Label { levels }
    }

    /// The levels, the head's first.
    pub fn levels(&self) -> &[Vec<u32>] {
        &self.levels
    }

    /// The number of levels.
    pub fn level(&self) -> usize {
        self.levels.len()
    }

    /// The label without its last level, or none where that leaves nothing.
    pub fn parent(&self) -> Option<Label> {
        match self.levels.split_last() {
            Some((_, above)) if !above.is_empty() => Some(Label::new(above.to_vec())),
            _ => None,
        }
    }

    /// The label with one more level.
    pub fn child(&self, level: Vec<u32>) -> Label {
        let mut levels = self.levels.clone();
        levels.push(level);
        Label { levels }
    }

    /// Whether this label stands above the other: its levels are the first levels of the other, which has more.
    pub fn leads(&self, other: &Label) -> bool {
        self.level() < other.level() && other.levels.starts_with(&self.levels)
    }
}

/// The dotted text, as `1.9/1`.
impl fmt::Display for Label {
    fn fmt(&self, f: &mut fmt::Formatter<'_>) -> fmt::Result {
        let level = |subvalues: &Vec<u32>| {
            let texts: Vec<String> = subvalues.iter().map(u32::to_string).collect();
            texts.join("/")
        };
        let levels: Vec<String> = self.levels.iter().map(level).collect();
        f.write_str(&levels.join("."))
    }
}

/// Reads a dotted text. Leading zeros are allowed, because the literature prints them.
impl FromStr for Label {
    type Err = String;

    fn from_str(text: &str) -> Result<Label, String> {
        let subvalue = |digits: &str| match digits.parse() {
            Ok(value) if digits.bytes().all(|c| c.is_ascii_digit()) => Ok(value),
            _ => Err(format!("{text:?} is no dotted label")),
        };
        let level = |part: &str| part.split('/').map(subvalue).collect();
        let levels = text.split('.').map(level).collect::<Result<_, String>>()?;
        Ok(Label { levels })
    }
}

/// How one label stands to another.
#[derive(Clone, Copy, Debug, PartialEq, Eq)]
pub enum Relation {
    Same,
    Above,
    Below,
    Before,
    After,
}

impl fmt::Display for Relation {
    fn fmt(&self, f: &mut fmt::Formatter<'_>) -> fmt::Result {
        f.write_str(match self {
            Relation::Same => "same",
            Relation::Above => "above",
            Relation::Below => "below",
            Relation::Before => "before",
            Relation::After => "after",
        })
    }
}

/// What can be asked of one word.
#[derive(Clone, Debug, PartialEq, Eq)]
pub struct Reading {
    pub bits: usize,
    pub level: usize,
    pub parent: Option<u64>,
    pub label: Label,
}

/// A plan together with the number of bits in a word: everything that decides how labels are spelled.
#[derive(Clone, Debug)]
pub struct Scheme {
    plan: Plan,
    room: usize,
}

impl Scheme {
    /// Labels under `plan` in words of `room` bits (at most 64).
    pub fn new(plan: Plan, room: usize) -> Scheme {
        assert!(room <= 64, "a word is printed as a number of 64 bits");
        Scheme { plan, room }
    }

    /// The scheme's plan.
    pub fn plan(&self) -> &Plan {
        &self.plan
    }

    /// The number of bits in a word.
    pub fn room(&self) -> usize {
        self.room
    }

    /// All bits of a word as a list.
    pub fn bits_of(&self, word: u64) -> Bits {
        (0..self.room).rev().map(|place| word >> place & 1 == 1).collect()
    }

    /// The word that has these bits at its left and zeros behind.
    pub fn word_of(&self, bits: &[bool]) -> u64 {
        self.padded(bits).iter().fold(0, |word, &bit| word << 1 | u64::from(bit))
    }

    /// The bits of a label, lawful or not; or why they are no bits of a word: a subvalue that is too large for its
    /// width, or more bits than a word has.
    pub fn spell(&self, label: &Label) -> Result<Bits, String> {
        let mut bits = Bits::new();
        for (index, subvalues) in label.levels().iter().enumerate() {
            if index > 0 {
                bits.push(false);
            }
            for (position, &value) in subvalues.iter().enumerate() {
                let width = self.plan.width(index + 1, position);
                if value >> width != 0 {
                    return Err(format!("{label} has a {value} where there are {width} bits"));
                }
            }
            bits.extend(self.spell_level(index + 1, subvalues));
        }
        if bits.len() > self.room {
            return Err(format!("{label} has {} bits", bits.len()));
        }
        Ok(bits)
    }

    /// Reads the bits of a word from left to right.
    pub fn read(&self, word: &[bool]) -> Result<Label, Refusal> {
        let mut levels = Vec::new();
        let mut subvalues = Vec::new();
        let mut bit = 0;
        loop {
            let width = self.plan.width(levels.len() + 1, subvalues.len());
            let Some(own) = word.get(bit..bit + width) else {
                return Err(Refusal::Short { bit });
            };
            let value = own.iter().fold(0, |value, &one| value << 1 | u32::from(one));
            let behind = &word[bit + width..];
            // With nothing but zeros behind, there is no separator: the label ends.
            let separator = behind.contains(&true).then(|| behind[0]);
            let ends_level = separator != Some(true);
            if value == 0 && ends_level {
                return Err(Refusal::Zero { bit });
            }
            subvalues.push(value);
            if ends_level {
                levels.push(std::mem::take(&mut subvalues));
            }
            if separator.is_none() {
                return Ok(Label::new(levels));
            }
            bit += width + 1;
        }
    }

    /// The label between: the shortest lawful child of `parent` whose word lies strictly between the bounds and, of
    /// several equally short ones, the least. The bounds are words of any bits; a missing one bounds nothing.
    ///
    /// Children with equally many subvalues are equally long, and more subvalues are more bits, so the numbers of
    /// subvalues are tried in turn. For one such number, the levels counted as mixed-radix numbers rise with their
    /// words; hence the first above the lower bound is the only one that must be held against the upper bound.
    pub fn between(&self, parent: &Label, lower: Option<&[bool]>, upper: Option<&[bool]>) -> Result<Label, Refusal> {
        let level = parent.level() + 1;
        let mut front = self.spell(parent).map_err(|_| Refusal::NoPlace)?;
        front.push(false);
        for count in 1.. {
            let widths: Vec<usize> = (0..count).map(|position| self.plan.width(level, position)).collect();
            let length = front.len() + widths.iter().sum::<usize>() + (count - 1);
            if length > self.room {
                break;
            }
            let radices: Vec<u128> = widths.iter().map(|width| 1 << width).collect();
            let word = |number: u128| {
                let mut bits = front.clone();
                bits.extend(self.spell_level(level, &digits(number, &radices)));
                self.padded(&bits)
            };
            let all: u128 = radices.iter().product();
            let mut number = first_number(all, |number| lower.is_none_or(|lower| word(number)[..] > *lower));
            // A level must not end in 0. Its successor ends in 1 and is no longer.
            if number % radices[count - 1] == 0 {
                number += 1;
            }
            if number < all && upper.is_none_or(|upper| word(number)[..] < *upper) {
                let label = parent.child(digits(number, &radices));
                if parent.leads(&label) {
                    return Ok(label);
                }
            }
        }
        Err(Refusal::NoPlace)
    }

    /// What can be asked of a word: length, level, parent, and the label itself.
    pub fn ask(&self, word: u64) -> Result<Reading, Refusal> {
        let label = self.read(&self.bits_of(word))?;
        Ok(Reading {
            bits: self.lawful_bits(&label).len(),
            level: label.level(),
            parent: label.parent().map(|parent| self.word_of(&self.lawful_bits(&parent))),
            label,
        })
    }

    /// How the first word's label stands to the second's. A fault in the first is told before one in the second.
    pub fn relate(&self, first: u64, second: u64) -> Result<Relation, Refusal> {
        let first = self.read(&self.bits_of(first))?;
        let second = self.read(&self.bits_of(second))?;
        Ok(if first == second {
            Relation::Same
        } else if first.leads(&second) {
            Relation::Above
        } else if second.leads(&first) {
            Relation::Below
        } else if first < second {
            Relation::Before
        } else {
            Relation::After
        })
    }

    /// The label between, for words. A parent that is no label is told as reading it would tell it.
    pub fn label_between(&self, parent: u64, lower: Option<u64>, upper: Option<u64>) -> Result<(u64, Label), Refusal> {
        let parent = self.read(&self.bits_of(parent))?;
        let lower = lower.map(|word| self.bits_of(word));
        let upper = upper.map(|word| self.bits_of(word));
        let label = self.between(&parent, lower.as_deref(), upper.as_deref())?;
        Ok((self.word_of(&self.lawful_bits(&label)), label))
    }

    /// The bits of a label that was read from a word or made to fit one.
    fn lawful_bits(&self, label: &Label) -> Bits {
        self.spell(label).expect("a label that was read or found fits its word")
    }

    /// The subvalues of one level with a 1 between each two. Each fits its width.
    fn spell_level(&self, level: usize, subvalues: &[u32]) -> Bits {
        let mut bits = Bits::new();
        for (position, &value) in subvalues.iter().enumerate() {
            if position > 0 {
                bits.push(true);
            }
            let width = self.plan.width(level, position);
            bits.extend((0..width).rev().map(|place| value >> place & 1 == 1));
        }
        bits
    }

    /// The bits with zeros behind, up to a whole word.
    fn padded(&self, bits: &[bool]) -> Bits {
        let mut word = bits.to_vec();
        word.resize(self.room, false);
        word
    }
}

/// The digits of a number in a mixed radix, the most significant first.
fn digits(mut number: u128, radices: &[u128]) -> Vec<u32> {
    let mut digits: Vec<u32> = Vec::with_capacity(radices.len());
    for radix in radices.iter().rev() {
        digits.push((number % radix) as u32);
        number /= radix;
    }
    digits.reverse();
    digits
}

/// The first number below `end` for which `holds`, or `end`. Once it holds it must go on holding.
fn first_number(end: u128, holds: impl Fn(u128) -> bool) -> u128 {
    let (mut from, mut to) = (0, end);
    while from < to {
        let middle = from + (to - from) / 2;
        if holds(middle) {
            to = middle;
        } else {
            from = middle + 1;
        }
    }
    from
}
