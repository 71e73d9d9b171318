//! The reference's check of itself.
//!
//! Three things are checked: known answers, fixed by hand; the whole theory against plain search, in words so short
//! that all words and all labels can be gone through; and the words written down as constants elsewhere. The search
//! uses the definitions on bits and numbers (a label leads another when its bits begin the other's and a 0 follows;
//! words compare as numbers), so that it also shows that the lists of the theory mean the same.

use crate::bench;
use crate::factory;
use crate::labels::{Bits, Label, Plan, PlanKind, Relation, Scheme};
use crate::random::SplitMix;
use crate::session::answers;
use crate::spelling::label;
use std::collections::BTreeMap;

/// The plans that are gone through in short words.
const PLANS: [(PlanKind, &[u64]); 12] = [
    (PlanKind::Position, &[4]),
    (PlanKind::Position, &[1]),
    (PlanKind::Position, &[2]),
    (PlanKind::Position, &[3]),
    (PlanKind::Position, &[8]),
    (PlanKind::Position, &[1, 4, 5]),
    (PlanKind::Position, &[3, 2, 3]),
    (PlanKind::Position, &[2, 1]),
    (PlanKind::Level, &[2, 4]),
    (PlanKind::Level, &[1, 2, 3]),
    (PlanKind::Level, &[3, 1, 2]),
    (PlanKind::Level, &[5, 1]),
];

/// Scripts with the answers that they must have.
const KNOWN: [(&str, &str); 14] = [
    // Two bits for the head, four below it.
    ("plan level 2 4\nask 5200000000000000", "ok\nbits 7 level 2 parent 4000000000000000 text 1.9\n"),
    ("plan level 2 4\nask 5400000000000000", "ok\nbits 7 level 2 parent 4000000000000000 text 1.10\n"),
    (
        "plan level 2 4\nbetween 4000000000000000 5200000000000000 5400000000000000",
        "ok\nlabel 5310000000000000 1.9/1\n",
    ),
    // A longer level is a later sibling of the level that it continues, and does not stand below it.
    ("plan level 2 4\nrelate 5200000000000000 5310000000000000", "ok\nbefore\n"),
    // Zeros may stand inside a level.
    ("plan position 3\nask 217A960000000000", "ok\nbits 23 level 3 parent 217A000000000000 text 1.0/3/5.4/3\n"),
    // A level may not end in zero, neither where the label ends nor before.
    ("ask 0000000000000000", "no 2 ZERO bit 0\n"),
    ("ask 1440000000000000", "no 2 ZERO bit 10\n"),
    ("ask 1002000000000000", "no 2 ZERO bit 5\n"),
    // Before the first, between a level and its continuation, and after the last one of its length.
    ("between 1000000000000000 none 1080000000000000", "label 1044000000000000 1.0/1\n"),
    ("between 1000000000000000 1080000000000000 10C4000000000000", "label 10C2200000000000 1.1/0/1\n"),
    ("between 1000000000000000 1780000000000000 none", "label 17C4000000000000 1.15/1\n"),
    // Twelve levels leave place for one more, thirteen fill the word.
    (
        "between 1084210842108420 none none\nask 1084210842108421",
        "label 1084210842108421 1.1.1.1.1.1.1.1.1.1.1.1.1\n\
         bits 64 level 13 parent 1084210842108420 text 1.1.1.1.1.1.1.1.1.1.1.1.1\n",
    ),
    ("between 1084210842108421 none none", "no 12 NO PLACE\n"),
    // A separator in the last bit calls for a subvalue that has no bit left.
    ("plan position 1\nask FFFFFFFFFFFFFFFF", "ok\nno 1 SHORT bit 64\n"),
];

/// Runs all checks and reports what was found; an error where one fails.
pub fn selftest() -> Result<String, String> {
    let mut report = String::new();
    for (script, expected) in KNOWN {
        let found = answers(script.as_bytes());
        ensure(found == expected, || format!("{script:?} is answered {found:?} and not {expected:?}"))?;
    }
    report.push_str(&format!("known answers: {} scripts\n", KNOWN.len()));
    bench_parents()?;
    factory::check()?;
    for (kind, widths) in PLANS {
        let plan = Plan::new(kind, widths).map_err(|refusal| refusal.to_string())?;
        let exhaustive = Search::new(Scheme::new(plan.clone(), 7)).check(Bounds::All)?;
        let sampled = Search::new(Scheme::new(plan.clone(), 12)).check(Bounds::NearChildren)?;
        report.push_str(&format!("plan {plan}: 7 bits {exhaustive}; 12 bits {sampled}\n"));
    }
    report.push_str("all well\n");
    Ok(report)
}

fn ensure(holds: bool, message: impl FnOnce() -> String) -> Result<(), String> {
    if holds {
        Ok(())
    } else {
        Err(message())
    }
}

/// The parents in the measurement are the labels that their documentation says.
fn bench_parents() -> Result<(), String> {
    let scheme = Scheme::new(Plan::four(), 64);
    let texts = ["1", "9", "15", "2/3", "1.1", "1.12", "1.2/3", "1.1.1.1"];
    for (word, text) in bench::PARENTS.into_iter().zip(texts) {
        let found = scheme.ask(word).map(|reading| reading.label);
        ensure(found == Ok(label(text)), || format!("{word:016X} is not {text}"))?;
    }
    Ok(())
}

/// Which bounds are tried for each parent.
#[derive(Clone, Copy)]
enum Bounds {
    /// Every pair of words, and none.
    All,
    /// The words of the parent's children and their neighbours, words at random, and none.
    NearChildren,
}

/// All labels of a short word, found by plain search.
struct Search {
    scheme: Scheme,
    /// Every lawful label with its bits.
    labels: Vec<(Label, Bits)>,
}

impl Search {
    fn new(scheme: Scheme) -> Search {
        let mut search = Search { scheme, labels: Vec::new() };
        search.grow(&mut Vec::new());
        search
    }

    /// Collects all lawful labels that begin with these levels, by trying every subvalue at every next place.
    fn grow(&mut self, levels: &mut Vec<Vec<u32>>) {
        let level = levels.len() + 1;
        let mut open: Vec<Vec<u32>> = vec![Vec::new()];
        while let Some(begun) = open.pop() {
            for value in 0..1u32 << self.scheme.plan().width(level, begun.len()) {
                let mut subvalues = begun.clone();
                subvalues.push(value);
                levels.push(subvalues.clone());
                let label = Label::new(levels.clone());
                if let Ok(bits) = self.scheme.spell(&label) {
                    if value > 0 {
                        self.labels.push((label, bits));
                        self.grow(levels);
                    }
                    open.push(subvalues);
                }
                levels.pop();
            }
        }
    }

    /// Checks reading, relating and finding a label between; tells how much was tried.
    fn check(&self, bounds: Bounds) -> Result<String, String> {
        self.check_reading()?;
        self.check_relating()?;
        let openings = self.check_between(bounds)?;
        Ok(format!("{} labels, {openings} openings", self.labels.len()))
    }

    /// The words that can be read are exactly those of the labels, each read as its label.
    fn check_reading(&self) -> Result<(), String> {
        let by_word: BTreeMap<u64, &Label> =
            self.labels.iter().map(|(label, bits)| (self.scheme.word_of(bits), label)).collect();
        ensure(by_word.len() == self.labels.len(), || "two labels have one word".to_string())?;
        for word in 0..1u64 << self.scheme.room() {
            let found = self.scheme.read(&self.scheme.bits_of(word));
            ensure(found.as_ref().ok() == by_word.get(&word).copied(), || format!("{word:b} is read as {found:?}"))?;
            if let Ok(reading) = self.scheme.ask(word) {
                let bits = self.bits(&reading.label);
                let parent = reading.label.parent().map(|parent| self.scheme.word_of(self.bits(&parent)));
                let well = reading.bits == bits.len()
                    && reading.level == reading.label.levels().len()
                    && reading.parent == parent;
                ensure(well, || format!("{word:b} is answered {reading:?}"))?;
            }
        }
        Ok(())
    }

    /// The bits of a lawful label, looked up.
    fn bits(&self, label: &Label) -> &Bits {
        let found = self.labels.iter().find(|(known, _)| known == label);
        &found.expect("every lawful label was collected").1
    }

    /// Relations by lists are those by bits and numbers.
    fn check_relating(&self) -> Result<(), String> {
        // All pairs would be millions for the narrowest widths; every seventh label is enough of the first ones.
        let stride = if self.labels.len() > 600 { 7 } else { 1 };
        for (_, first) in self.labels.iter().step_by(stride) {
            for (_, second) in &self.labels {
                let (a, b) = (self.scheme.word_of(first), self.scheme.word_of(second));
                let expected = if first == second {
                    Relation::Same
                } else if leads(first, second) {
                    Relation::Above
                } else if leads(second, first) {
                    Relation::Below
                } else if a < b {
                    Relation::Before
                } else {
                    Relation::After
                };
                let found = self.scheme.relate(a, b);
                ensure(found == Ok(expected), || format!("{a:b} {b:b} relate as {found:?}, not {expected:?}"))?;
            }
        }
        Ok(())
    }

    /// The label between is the best of all that plain search finds. Returns the number of openings tried.
    fn check_between(&self, bounds: Bounds) -> Result<usize, String> {
        let mut random = SplitMix::new(12);
        let mut openings = 0;
        for (parent, parent_bits) in &self.labels {
            let children: Vec<(usize, u64)> = self
                .labels
                .iter()
                .filter(|(child, bits)| child.level() == parent.level() + 1 && leads(parent_bits, bits))
                .map(|(_, bits)| (bits.len(), self.scheme.word_of(bits)))
                .collect();
            let tried = self.bounds(bounds, &children, &mut random);
            for &lower in &tried {
                for &upper in &tried {
                    let expected = children
                        .iter()
                        .filter(|(_, word)| lower.is_none_or(|lower| lower < *word))
                        .filter(|(_, word)| upper.is_none_or(|upper| *word < upper))
                        .min()
                        .map(|(_, word)| *word);
                    let parent_word = self.scheme.word_of(parent_bits);
                    let found = self.scheme.label_between(parent_word, lower, upper);
                    let word = found.as_ref().ok().map(|(word, _)| *word);
                    ensure(word == expected, || {
                        format!("under {parent} between {lower:?} and {upper:?}: {found:?}, not {expected:?}")
                    })?;
                    openings += 1;
                }
            }
        }
        Ok(openings)
    }

    /// The bounds to try under a parent with these children.
    fn bounds(&self, bounds: Bounds, children: &[(usize, u64)], random: &mut SplitMix) -> Vec<Option<u64>> {
        let last = (1u64 << self.scheme.room()) - 1;
        let mut words: Vec<u64> = match bounds {
            Bounds::All => (0..=last).collect(),
            Bounds::NearChildren => {
                let mut words = vec![0, last];
                // Of many children a few at random will do: the parents are many too.
                let few: Vec<u64> = match children.len() {
                    0..=8 => children.iter().map(|&(_, word)| word).collect(),
                    _ => (0..8).map(|_| random.pick(children).1).collect(),
                };
                words.extend(few.iter().flat_map(|&word| [word - 1, word, (word + 1).min(last)]));
                words.extend((0..6).map(|_| random.next() & last));
                words
            }
        };
        words.sort_unstable();
        words.dedup();
        words.into_iter().map(Some).chain([None]).collect()
    }
}

/// Whether the first bits are those of a label above the second, by the bits alone.
fn leads(first: &[bool], second: &[bool]) -> bool {
    second.len() > first.len() && second.starts_with(first) && !second[first.len()]
}
