//! The check program's behaviour.

use crate::calls::{open, report_from, Feed};
use crate::hedge;
use crate::numbers::{self, Refusal};
use crate::rule::{record, Required, Rule};

/// The levels for each reading.
pub const LEVELS: usize = 1024;

/// What the input holds: the bytes of the rule file, and the events.
pub struct Input<'a> {
    pub rule_file: &'a [u8],
    pub rule: Rule,
    pub events: Vec<u16>,
}

/// The four records, then one record of kind 5 whose body is the events, two
/// bytes each, little-endian (odd length: 3, looked at with the length). Bytes
/// after that record: 5. Places count from the start of the input.
pub fn take_apart(input: &[u8]) -> Result<Input<'_>, Refusal> {
    let (rule, end_of_rule) = Rule::from_start(input)?;
    let body = record(input, end_of_rule, 5, Required::Even)?;
    if body.end < input.len() {
        return Err(Refusal::new(numbers::BYTES_AFTER, body.end as u64));
    }
    let events = input[body].chunks(2).map(|two| u16::from_le_bytes([two[0], two[1]])).collect();
    Ok(Input { rule_file: &input[..end_of_rule], rule, events })
}

/// What the check program prints for this standard input.
pub fn check_program(input: &[u8]) -> String {
    check_program_by(hedge::feed, input)
}

/// The same by a way of feeding.
pub fn check_program_by(feed: Feed, input: &[u8]) -> String {
    let parts = match take_apart(input) {
        Ok(parts) => parts,
        Err(refusal) => return format!("rule {refusal}\n"),
    };
    let zeros = vec![0; parts.rule.n + 1];
    let mut book = zeros.clone();
    let (file, events) = (parts.rule_file, &parts.events);
    let first = match open(file, &mut book) {
        Ok(opening) => opening.reading,
        Err(refusal) => return format!("skip {refusal}\nfull {refusal}\n"),
    };
    let report = |book: &[u64]| report_from(first, feed, file, book, LEVELS, events, u32::MAX);
    let skip = report(&book);
    let full = report(&zeros);
    format!("skip {skip}\nfull {full}\n")
}
