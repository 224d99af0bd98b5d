//! The cases printed in document 01, and others that are always asked first.

use crate::inputs::join;
use crate::rules::{rule_a, rule_b, rule_c};
use reader::Rule;

/// The events of A1 to A6, then of the refusals of rule A.
const RULE_A_EVENTS: [&[u16]; 14] = [
    &[],
    &[0, 3, 1],
    &[0, 3, 2, 2, 1, 2],
    &[0, 3, 1, 3],
    &[3, 0, 2, 1],
    &[0, 0, 3, 1, 1],
    &[1],
    &[0, 3, 1, 1],
    &[3, 4],
    &[0],
    &[3, 0],
    &[3, 0, 1, 1],
    &[0, 3, 0, 4],
    &[0, 3, 0, 1, 1, 1],
];

/// The events of B1 and B2, and some more.
const RULE_B_EVENTS: [&[u16]; 6] = [&[0, 2, 1], &[0, 1], &[0, 2], &[0, 0, 1], &[2, 0, 1], &[1]];

const RULE_C_EVENTS: [&[u16]; 6] = [&[], &[2], &[2, 2], &[2, 2, 0, 1], &[0], &[2, 0, 1]];

/// Rules with events, whole inputs of the check program.
pub fn printed() -> Vec<Vec<u8>> {
    let mut inputs = Vec::new();
    let mut with = |rule: Rule, streams: &[&[u16]]| {
        for events in streams {
            inputs.push(join(&rule, events));
        }
    };
    with(rule_a(), &RULE_A_EVENTS);
    with(rule_b(), &RULE_B_EVENTS);
    with(rule_c(), &RULE_C_EVENTS);

    // As many levels as the check program has, and one more; and a deep part
    // that is skipped and needs none.
    for (first, levels) in [(2, 1024), (2, 1025), (3, 5000)] {
        let mut events = vec![first];
        events.extend(vec![0; levels]);
        events.extend(vec![1; levels]);
        inputs.push(join(&rule_a(), &events));
    }

    // The printed example cut at every place, and with each byte made 255.
    let example = join(&rule_a(), RULE_A_EVENTS[2]);
    for place in 0..example.len() {
        inputs.push(example[..place].to_vec());
        let mut changed = example.clone();
        changed[place] = 255;
        inputs.push(changed);
    }
    // One byte after the fifth record.
    inputs.push([&example[..], &[0]].concat());
    inputs
}
