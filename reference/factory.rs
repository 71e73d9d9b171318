//! The factory's sheet, as docs/SHELVES.md has it in its table, and its rows as text.

use crate::labels::{Label, Plan, Scheme};

/// The rows: the label, its word, and the card's word. All are filled.
const ROWS: [(&str, &str, &str); 17] = [
    ("1", "1000000000000000", "0001000000000000"),
    ("1.1", "1080000000000000", "0001000000000000"),
    ("1.1.1", "1084000000000000", "0002009600960000"),
    ("1.1.2", "1088000000000000", "0003009600000078"),
    ("1.2", "1100000000000000", "0001000000000000"),
    ("1.2.1", "1104000000000000", "00020104003C0000"),
    ("1.2.2", "1108000000000000", "000301040000003C"),
    ("1.3", "1180000000000000", "0001000000000000"),
    ("1.3.1", "1184000000000000", "0002017200780000"),
    ("1.3.2", "1188000000000000", "0003017200000078"),
    ("1.3.3", "118C000000000000", "000202DA00B40000"),
    ("1.3.4", "1190000000000000", "000302DA000000B4"),
    ("1.4", "1200000000000000", "0001000000000000"),
    ("1.4.1", "1204000000000000", "0004022600780000"),
    ("1.4.2", "1208000000000000", "000302260000005A"),
    ("1.5", "1280000000000000", "0001000000000000"),
    ("1.5.1", "1284000000000000", "0004003C00C80000"),
];

/// How many rows there are, and a line for each, indented by two spaces a level.
pub fn rows() -> String {
    let mut lines = vec![format!("rows {}", ROWS.len())];
    lines.extend(ROWS.map(|(label, word, card)| {
        let levels = label.split('.').count();
        format!("{}{word} filled {label} {}", "  ".repeat(levels), card_text(card))
    }));
    lines.join("\n")
}

/// A card by the digits of its word: four for the kind, and four for each of its numbers.
fn card_text(word: &str) -> String {
    let [kind, target, rate, minutes] = [0, 4, 8, 12].map(|from| number(&word[from..from + 4]));
    match kind {
        1 => "section".to_string(),
        2 => format!("ramp {target} {rate}"),
        3 => format!("hold {target} {minutes}"),
        4 => format!("cool {target} {rate}"),
        _ => panic!("{word} is no card"),
    }
}

/// Checks the table: each word is the label's under plan 4, and each row stands behind the one before it.
pub fn check() -> Result<(), String> {
    let scheme = Scheme::new(Plan::four(), 64);
    let mut before: Option<Label> = None;
    for (text, word, _) in ROWS {
        let label: Label = text.parse()?;
        if scheme.word_of(&scheme.spell(&label)?) != number(word) {
            return Err(format!("{word} is not {text}"));
        }
        if before.is_some_and(|before| before >= label) {
            return Err(format!("{text} does not stand behind the row before it"));
        }
        before = Some(label);
    }
    Ok(())
}

/// The value of the table's hexadecimal digits.
fn number(digits: &str) -> u64 {
    u64::from_str_radix(digits, 16).expect("the table has hexadecimal digits")
}
