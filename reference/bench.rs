//! Measuring how long reading a word and finding a label between take, and putting, finding and ranking rows.
//!
//! The inputs are defined so simply that another program can make exactly the same and be held against the checksums:
//!
//! - All numbers come from SplitMix64 with 64-bit wrapping arithmetic. Its state starts at 0x9E3779B97F4A7C15. Each
//!   output first adds 0x9E3779B97F4A7C15 to the state (so the first output comes from 0x3C6EF372FE94F82A), then
//!   takes z = state; z = (z ^ (z >> 30)) * 0xBF58476D1CE4E5B9; z = (z ^ (z >> 27)) * 0x94D049BB133111EB; and gives
//!   z ^ (z >> 31).
//! - The plan is the built-in one: four bits for every subvalue.
//! - Words to read: from a fresh generator, COUNT outputs as they come. Few of them are short, some are unlawful, and
//!   turning those down is part of the work. The checksum is the wrapping sum, over all words, of
//!   bits + 100 * level + parent (0 for none), or of 1000 * number + bit for a refusal.
//! - Openings: from a second fresh generator, started like the first, three outputs x, y, z for each of COUNT
//!   openings. The parent is `PARENTS[x & 7]`; the lower bound is the parent's word + (y >> 8), the upper one is the
//!   lower + (z >> 12), both saturating at 2^64 - 1. The checksum is the wrapping sum of the words found, or of 1
//!   where there is none.
//! - Labels of rows: from a third fresh generator, started like the first, 2,048 outputs as they come; no two are equal.
//!   They are put, one after the other, on a shelf that is empty at first and keeps its rows by rising labels. The
//!   checksum is the wrapping sum of the labels put, or of the number of the refusal.
//! - Labels asked for: from the third generator, behind the labels of rows, one output x for each of COUNT questions.
//!   Where x is odd, it is the label, and no row has it; where x is even, the label is that of the row that was put as
//!   number (x >> 1) mod 2,048, the first being number 0. Finding adds the index of the label's row among all rows,
//!   or 2,048 where there is none; ranking adds how many rows have a smaller label. Both ask for the same labels.
//!
//! The product has two shelves, and measures these three calls on each. Here there is one, a `Vec` of rows as one would
//! write it in Rust; it is measured twice, once under the names of each of the product's.
//!
//! Inputs are made before the clock starts, and the clock covers nothing but the calls and their summing up.

use crate::labels::{Plan, Scheme};
use crate::random::SplitMix;
use std::hint::black_box;
use std::time::Instant;

/// The parents of the measured openings, as words: 1, 9, 15, 2/3, 1.1, 1.12, 1.2/3 and 1.1.1.1.
///
/// Most are short, because the lower bound is drawn from so wide a range that it seldom falls among the children of a
/// long label; the long ones measure how fast it is found that there is no place.
pub const PARENTS: [u64; 8] = [
    0x1000_0000_0000_0000, // 1
    0x9000_0000_0000_0000, // 9
    0xF000_0000_0000_0000, // 15
    0x2980_0000_0000_0000, // 2/3
    0x1080_0000_0000_0000, // 1.1
    0x1600_0000_0000_0000, // 1.12
    0x114C_0000_0000_0000, // 1.2/3
    0x1084_2000_0000_0000, // 1.1.1.1
];

/// One opening: parent and bounds.
type Opening = (u64, u64, u64);

/// How many rows a shelf has room for.
const MOST_ROWS: usize = 2048;

/// A row, as large as one of the product's. Only the label is looked at.
#[derive(Clone, Copy)]
struct Row {
    label: u64,
    _state: u8,
    _card: u64,
}

/// Runs all measurements and reports a line of each.
pub fn bench(count: usize) -> String {
    let scheme = Scheme::new(Plan::four(), 64);
    let words = words(count);
    let openings = openings(count);
    let mut lines = vec![
        measure("read", &words, |&word| read_sum(&scheme, word)),
        measure("between", &openings, |&opening| between_sum(&scheme, opening)),
    ];
    let (labels, questions) = labels_and_questions(count);
    for shelf in ["table", "chain"] {
        let mut rows = Vec::with_capacity(MOST_ROWS);
        lines.push(measure(&format!("{shelf} put"), &labels, |&label| put_sum(&mut rows, label)));
        lines.push(measure(&format!("{shelf} find"), &questions, |&label| find_sum(&rows, label)));
        lines.push(measure(&format!("{shelf} rank"), &questions, |&label| rank_sum(&rows, label)));
    }
    lines.join("\n") + "\n"
}

/// The words to read.
fn words(count: usize) -> Vec<u64> {
    let mut random = SplitMix::new(SplitMix::STEP);
    (0..count).map(|_| random.next()).collect()
}

/// The openings to find a label for.
fn openings(count: usize) -> Vec<Opening> {
    let mut random = SplitMix::new(SplitMix::STEP);
    let mut opening = || {
        let parent = PARENTS[(random.next() & 7) as usize];
        let lower = parent.saturating_add(random.next() >> 8);
        let upper = lower.saturating_add(random.next() >> 12);
        (parent, lower, upper)
    };
    (0..count).map(|_| opening()).collect()
}

/// The labels of the rows, and the labels asked for.
fn labels_and_questions(count: usize) -> (Vec<u64>, Vec<u64>) {
    let mut random = SplitMix::new(SplitMix::STEP);
    let labels: Vec<u64> = (0..MOST_ROWS).map(|_| random.next()).collect();
    let mut question = || match random.next() {
        x if x % 2 == 0 => labels[(x / 2) as usize % MOST_ROWS],
        x => x,
    };
    let questions = (0..count).map(|_| question()).collect();
    (labels, questions)
}

/// What one reading adds to the checksum.
fn read_sum(scheme: &Scheme, word: u64) -> u64 {
    match black_box(scheme.ask(word)) {
        Ok(reading) => {
            let shape = reading.bits as u64 + 100 * reading.level as u64;
            shape.wrapping_add(reading.parent.unwrap_or(0))
        }
        Err(refusal) => 1000 * refusal.number() + refusal.bit().unwrap_or(0) as u64,
    }
}

/// What one opening adds to the checksum.
fn between_sum(scheme: &Scheme, (parent, lower, upper): Opening) -> u64 {
    match black_box(scheme.label_between(parent, Some(lower), Some(upper))) {
        Ok((word, _)) => word,
        Err(_) => 1,
    }
}

/// Puts a row by its label, and gives what that adds to the checksum: 3 and 4 are the numbers of the refusals.
fn put_sum(rows: &mut Vec<Row>, label: u64) -> u64 {
    match rows.binary_search_by_key(&label, |row| row.label) {
        Ok(_) => 3,
        Err(_) if rows.len() == MOST_ROWS => 4,
        Err(index) => {
            rows.insert(index, Row { label, _state: 0, _card: 0 });
            label
        }
    }
}

/// What finding one label adds to the checksum.
fn find_sum(rows: &[Row], label: u64) -> u64 {
    black_box(rows.binary_search_by_key(&label, |row| row.label)).unwrap_or(MOST_ROWS) as u64
}

/// What ranking one label adds to the checksum.
fn rank_sum(rows: &[Row], label: u64) -> u64 {
    black_box(rows.binary_search_by_key(&label, |row| row.label)).unwrap_or_else(|index| index) as u64
}

/// Sums `call` over the inputs and reports the sum and the time for each call.
fn measure<T>(name: &str, inputs: &[T], mut call: impl FnMut(&T) -> u64) -> String {
    let start = Instant::now();
    let sum = inputs.iter().fold(0u64, |sum, input| sum.wrapping_add(call(black_box(input))));
    let nanoseconds = start.elapsed().as_nanos() as f64 / inputs.len().max(1) as f64;
    format!("{name} count {} checksum {sum:016X} ns {nanoseconds:.1}", inputs.len())
}
