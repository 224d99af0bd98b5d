//! The small rules of document 01, and rule C.
#![allow(dead_code)]

use reader::writer::lay_record;
use reader::{Class, Rule};

/// Rule A, 47 bytes, as printed.
pub const RULE_A: [u8; 47] = [
    0x05, 0x00, 0x00, 0x00, 0x01, 0x00, 0x03, 0x00, 0x00, 0x02, 0x00, //
    0x06, 0x00, 0x00, 0x00, 0x02, 0x00, 0x00, 0x01, 0x01, 0x01, 0x02, 0xFF, //
    0x09, 0x00, 0x00, 0x00, 0x03, 0x00, 0x00, 0x02, 0x00, 0x01, 0x01, 0x01, 0x02, 0x02,
    0xFF, //
    0x03, 0x00, 0x00, 0x00, 0x04, 0x00, 0x01, 0x00, 0x02,
];

/// Rule B: n 3, k 1, initial 0, tree start 1; letter moves 2, 2, 2; tree move of
/// 0 and 2 is 0, all others none; classes 2, 0, 1.
pub fn rule_b() -> Rule {
    let mut tree_moves = vec![vec![None; 3]; 3];
    tree_moves[0][2] = Some(0);
    Rule {
        n: 3,
        k: 1,
        initial: 0,
        tree_start: Some(1),
        letter_moves: vec![vec![Some(2)]; 3],
        tree_moves,
        classes: vec![Class::Accept, Class::OffSchema, Class::Reject],
    }
}

/// Rule C: n 3, k 1, initial 0, tree start none; letter moves 1, 2, 2; tree move
/// of 0 and 2 is 1, all others none.
pub fn rule_c() -> Rule {
    let mut tree_moves = vec![vec![None; 3]; 3];
    tree_moves[0][2] = Some(1);
    Rule {
        n: 3,
        k: 1,
        initial: 0,
        tree_start: None,
        letter_moves: vec![vec![Some(1)], vec![Some(2)], vec![Some(2)]],
        tree_moves,
        classes: vec![Class::OffSchema, Class::Reject, Class::Accept],
    }
}

/// The input of the check program: the rule's records, then the events.
pub fn input(rule_file: &[u8], events: &[u16]) -> Vec<u8> {
    let mut input = rule_file.to_vec();
    let body: Vec<u8> = events.iter().flat_map(|e| e.to_le_bytes()).collect();
    lay_record(&mut input, 5, &body);
    input
}
