//! The rule file: four records in order, nothing after.
//!
//! A record is a length (4 bytes, little-endian, body bytes only), a kind
//! (2 bytes, little-endian), then the body.

use crate::numbers::{self, Refusal};
use std::ops::Range;

/// What a state says at the end of a reading.
#[derive(Clone, Copy, Debug, PartialEq, Eq, Hash)]
pub enum Class {
    OffSchema,
    Reject,
    Accept,
}

/// A rule as tables. `None` is the file's 255, "none".
#[derive(Clone, Debug, PartialEq, Eq)]
pub struct Rule {
    /// States are 0 to n−1.
    pub n: usize,
    /// Letters are 0 to k−1.
    pub k: usize,
    pub initial: usize,
    pub tree_start: Option<usize>,
    /// `letter_moves[q][a]`: a row for each state.
    pub letter_moves: Vec<Vec<Option<usize>>>,
    /// `tree_moves[u][p]`: a row for each upper state, a column for each lower.
    pub tree_moves: Vec<Vec<Option<usize>>>,
    pub classes: Vec<Class>,
}

/// The length a record is required to have.
#[derive(Clone, Copy)]
pub(crate) enum Required {
    Exactly(usize),
    Even,
}

/// The size of a record's header.
pub const HEADER: usize = 6;

impl Rule {
    /// n is 1 to 64.
    pub const MOST_STATES: usize = 64;
    /// k is 1 to 256.
    pub const MOST_LETTERS: usize = 256;
    /// A move or the tree start may be 255, "none".
    pub const NONE: u8 = 255;
    /// The longest file.
    pub const LONGEST_FILE: usize = 20_573;

    /// The rule check on a whole file.
    pub fn from_file(file: &[u8]) -> Result<Rule, Refusal> {
        let (rule, end) = Rule::from_start(file)?;
        if end < file.len() {
            return Err(Refusal::new(numbers::BYTES_AFTER, end as u64));
        }
        Ok(rule)
    }

    /// The rule check on the four records at the start of `file`, record by
    /// record; with the rule comes the place of the first byte after them.
    pub fn from_start(file: &[u8]) -> Result<(Rule, usize), Refusal> {
        let body = record(file, 0, 1, Required::Exactly(5))?;
        let first = body.start;
        let end = body.end;

        let n = file[first] as usize;
        in_range((1..=Rule::MOST_STATES).contains(&n), first)?;
        let initial = file[first + 1] as usize;
        in_range(initial < n, first + 1)?;
        let tree_start = state_or_none(file[first + 2], n, first + 2)?;
        let k = u16::from_le_bytes([file[first + 3], file[first + 4]]) as usize;
        in_range((1..=Rule::MOST_LETTERS).contains(&k), first + 3)?;

        let body = record(file, end, 2, Required::Exactly(n * k))?;
        let end = body.end;
        let letter_moves = table(file, body, n, k)?;

        let body = record(file, end, 3, Required::Exactly(n * n))?;
        let end = body.end;
        let tree_moves = table(file, body, n, n)?;

        let body = record(file, end, 4, Required::Exactly(n))?;
        let end = body.end;
        let mut classes = Vec::new();
        for place in body {
            classes.push(match file[place] {
                0 => Class::OffSchema,
                1 => Class::Reject,
                2 => Class::Accept,
                _ => return Err(Refusal::new(numbers::RANGE, place as u64)),
            });
        }

        let rule = Rule { n, k, initial, tree_start, letter_moves, tree_moves, classes };
        Ok((rule, end))
    }
}

/// Where the body of the record at `at` lies. In turn: fewer than 6 bytes 1;
/// kind 2; length 3; body cut short 1.
pub(crate) fn record(
    file: &[u8],
    at: usize,
    kind: u16,
    required: Required,
) -> Result<Range<usize>, Refusal> {
    let file_ends = Refusal::new(numbers::FILE_ENDS, file.len() as u64);
    let rest = &file[at..];
    if rest.len() < HEADER {
        return Err(file_ends);
    }
    if u16::from_le_bytes([rest[4], rest[5]]) != kind {
        return Err(Refusal::new(numbers::KIND, at as u64 + 4));
    }
    let length = u32::from_le_bytes([rest[0], rest[1], rest[2], rest[3]]) as usize;
    let as_required = match required {
        Required::Exactly(bytes) => length == bytes,
        Required::Even => length.is_multiple_of(2),
    };
    if !as_required {
        return Err(Refusal::new(numbers::LENGTH, at as u64));
    }
    if rest.len() - HEADER < length {
        return Err(file_ends);
    }
    Ok(at + HEADER..at + HEADER + length)
}

fn in_range(good: bool, place: usize) -> Result<(), Refusal> {
    if good {
        Ok(())
    } else {
        Err(Refusal::new(numbers::RANGE, place as u64))
    }
}

/// A state is 0 to n−1; a move or the tree start may be none.
fn state_or_none(byte: u8, n: usize, place: usize) -> Result<Option<usize>, Refusal> {
    if byte == Rule::NONE {
        return Ok(None);
    }
    in_range((byte as usize) < n, place)?;
    Ok(Some(byte as usize))
}

/// A table of moves, a row of `columns` bytes for each of `rows` states.
fn table(
    file: &[u8],
    body: Range<usize>,
    rows: usize,
    columns: usize,
) -> Result<Vec<Vec<Option<usize>>>, Refusal> {
    let mut table = Vec::with_capacity(rows);
    for row in 0..rows {
        let mut moves = Vec::with_capacity(columns);
        for column in 0..columns {
            let place = body.start + row * columns + column;
            moves.push(state_or_none(file[place], rows, place)?);
        }
        table.push(moves);
    }
    Ok(table)
}
