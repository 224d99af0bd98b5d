//! The writer of rule files.

use crate::numbers::{self, Refusal};
use crate::rule::{Rule, HEADER};

/// Takes n, initial state, tree start, k and the three tables, and lays the
/// same bytes into a lent output; returns the count of bytes; bytes past them
/// stay. A refused call leaves the output untouched.
///
/// In turn: the four numbers 4 in file order, table lengths 3, table bytes 4,
/// room 14; places are those in the file to be.
#[allow(clippy::too_many_arguments)]
pub fn write_rule(
    n: u8,
    initial: u8,
    tree_start: u8,
    k: u16,
    letter_moves: &[u8],
    tree_moves: &[u8],
    classes: &[u8],
    output: &mut [u8],
) -> Result<usize, Refusal> {
    let bad_number = |place: usize| Err(Refusal::new(numbers::RANGE, place as u64));
    if n == 0 || n as usize > Rule::MOST_STATES {
        return bad_number(HEADER);
    }
    if initial >= n {
        return bad_number(HEADER + 1);
    }
    if tree_start >= n && tree_start != Rule::NONE {
        return bad_number(HEADER + 2);
    }
    if k == 0 || k as usize > Rule::MOST_LETTERS {
        return bad_number(HEADER + 3);
    }

    let (states, letters) = (n as usize, k as usize);
    let is_move = |byte: u8| byte < n || byte == Rule::NONE;
    let is_class = |byte: u8| byte <= 2;

    // Kind, the table, the length it is required to have, what its bytes may be.
    type Test<'a> = &'a dyn Fn(u8) -> bool;
    let tables: [(u16, &[u8], usize, Test); 3] = [
        (2, letter_moves, states * letters, &is_move),
        (3, tree_moves, states * states, &is_move),
        (4, classes, states, &is_class),
    ];
    // Where each of these records begins in the file to be.
    let mut starts = Vec::new();
    let mut at = HEADER + 5;
    for (_, _, required, _) in &tables {
        starts.push(at);
        at += HEADER + required;
    }

    for (start, (_, bytes, required, _)) in starts.iter().zip(&tables) {
        if bytes.len() != *required {
            return Err(Refusal::new(numbers::LENGTH, *start as u64));
        }
    }
    for (start, (_, bytes, _, allowed)) in starts.iter().zip(&tables) {
        if let Some(bad) = bytes.iter().position(|&byte| !allowed(byte)) {
            return bad_number(start + HEADER + bad);
        }
    }
    if output.len() < at {
        return Err(Refusal::new(numbers::OUTPUT_SHORT, at as u64));
    }

    let mut file = Vec::new();
    let [low, high] = k.to_le_bytes();
    lay_record(&mut file, 1, &[n, initial, tree_start, low, high]);
    for (kind, bytes, _, _) in &tables {
        lay_record(&mut file, *kind, bytes);
    }
    output[..file.len()].copy_from_slice(&file);
    Ok(file.len())
}

/// A record: length, kind, body.
pub fn lay_record(file: &mut Vec<u8>, kind: u16, body: &[u8]) {
    file.extend_from_slice(&(body.len() as u32).to_le_bytes());
    file.extend_from_slice(&kind.to_le_bytes());
    file.extend_from_slice(body);
}

impl Rule {
    /// The bytes of this rule's file.
    pub fn to_file(&self) -> Vec<u8> {
        let byte = |m: &Option<usize>| m.map_or(Rule::NONE, |q| q as u8);
        let flat = |table: &[Vec<Option<usize>>]| -> Vec<u8> {
            table.iter().flatten().map(byte).collect()
        };
        let mut output = vec![0; Rule::LONGEST_FILE];
        let count = write_rule(
            self.n as u8,
            self.initial as u8,
            byte(&self.tree_start),
            self.k as u16,
            &flat(&self.letter_moves),
            &flat(&self.tree_moves),
            &self.classes.iter().map(|&c| c as u8).collect::<Vec<u8>>(),
            &mut output,
        )
        .expect("a rule held in tables can be written");
        output.truncate(count);
        output
    }
}
