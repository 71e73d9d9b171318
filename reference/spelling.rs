//! From labels as people write them to words.
//!
//! Two uses: spelling single labels for somebody who writes a script by hand, and translating a whole script in which
//! labels stand in brackets as the literature prints them. Both also take labels that are unlawful, because what the
//! literature prints is not always lawful here and the refusal is then the point of the question.

use crate::labels::{Bits, Label, Plan, Scheme};
use crate::script;
use crate::session::{hexadecimal, Session};

/// The words of dotted texts under a plan given by its words in a script, one to a line.
pub fn spell(plan_words: &[String], texts: &[String]) -> Result<String, String> {
    let line = format!("plan {}", plan_words.join(" "));
    let plan = match script::parse(line.as_bytes()) {
        Ok(Some(script::Command::Plan(kind, widths))) => Plan::new(kind, &widths),
        _ => return Err(format!("{line:?} is no plan")),
    };
    let scheme = Scheme::new(plan.map_err(|refusal| refusal.to_string())?, 64);
    let words: Vec<String> =
        texts.iter().map(|text| Ok(hexadecimal(written(&scheme, text)?) + "\n")).collect::<Result<_, String>>()?;
    Ok(words.concat())
}

/// Translates a script with labels in brackets into one with words.
///
/// A label is written `[TEXT]`, `[= BITS]` or `[TEXT = BITS]`, with spaces between the bits where one likes. Where
/// both are given they must agree, so that the printed bits of the literature are checked against our spelling of
/// the printed numbers. Each line is given a comment with the labels as they were written, for the reader.
pub fn translate(source: &str) -> Result<String, String> {
    let mut session = Session::new();
    let mut script = String::new();
    for (index, line) in source.lines().enumerate() {
        let translated = translate_line(session.scheme(), line).map_err(|why| format!("line {}: {why}", index + 1))?;
        // Carried out only for the sake of the plan, which decides how the next line is spelled.
        session.answer_line(translated.as_bytes());
        script.push_str(&translated);
        script.push('\n');
    }
    Ok(script)
}

/// One line with its bracketed labels replaced by words.
fn translate_line(scheme: &Scheme, line: &str) -> Result<String, String> {
    let (code, comment) = match line.find('#') {
        Some(start) => line.split_at(start),
        None => (line, ""),
    };
    let mut translated = String::new();
    let mut labels = Vec::new();
    let mut rest = code;
    while let Some((before, behind)) = rest.split_once('[') {
        let (label, after) = behind.split_once(']').ok_or("a bracket is not closed")?;
        translated.push_str(before);
        translated.push_str(&hexadecimal(written(scheme, label)?));
        labels.push(format!("[{label}]"));
        rest = after;
    }
    translated.push_str(rest);
    if labels.is_empty() {
        return Ok(line.to_string());
    }
    let remark = comment.trim_start_matches('#').trim();
    let colon = if remark.is_empty() { "" } else { ": " };
    Ok(format!("{} # {}{colon}{remark}", translated.trim_end(), labels.join(" ")))
}

/// The word of one label as it is written in brackets.
fn written(scheme: &Scheme, label: &str) -> Result<u64, String> {
    let (text, printed) = match label.split_once('=') {
        Some((text, printed)) => (text.trim(), Some(bits(printed)?)),
        None => (label.trim(), None),
    };
    let spelled = match text {
        "" => None,
        _ => Some(scheme.spell(&text.parse()?)?),
    };
    let bits = match (spelled, printed) {
        (Some(spelled), Some(printed)) if spelled != printed => {
            return Err(format!("{label:?} has other bits than its text"));
        }
        (_, Some(printed)) => printed,
        (Some(spelled), None) => spelled,
        (None, None) => return Err("a label is missing".to_string()),
    };
    if bits.len() > scheme.room() {
        return Err(format!("{label:?} has {} bits", bits.len()));
    }
    Ok(scheme.word_of(&bits))
}

/// Printed bits, with spaces anywhere.
fn bits(printed: &str) -> Result<Bits, String> {
    let digits = printed.chars().filter(|c| *c != ' ');
    let bit = |c| match c {
        '0' => Ok(false),
        '1' => Ok(true),
        _ => Err(format!("{printed:?} are no bits")),
    };
    digits.map(bit).collect()
}

/// The label of a text that this program itself holds.
///
/// # Panics
/// Where the text is none.
pub fn label(text: &str) -> Label {
    text.parse().unwrap_or_else(|why| panic!("{why}"))
}
