//! Whole inputs of the check program.

use crate::damage::damaged;
use crate::events::random_events;
use crate::printed::printed;
use crate::prng::Prng;
use crate::rules::{random_rule, rule_a, rule_b, rule_c};
use reader::writer::lay_record;
use reader::{Book, Rule};

/// The rule's four records, then the record of kind 5 with the events.
pub fn join(rule: &Rule, events: &[u16]) -> Vec<u8> {
    let mut input = rule.to_file();
    let body: Vec<u8> = events.iter().flat_map(|event| event.to_le_bytes()).collect();
    lay_record(&mut input, 5, &body);
    input
}

/// The inputs of one seed, by index: the printed cases first, the same for every
/// seed, then random ones.
pub struct Inputs {
    seed: u64,
    printed: Vec<Vec<u8>>,
}

impl Inputs {
    pub fn new(seed: u64) -> Inputs {
        Inputs { seed, printed: printed() }
    }

    /// How many come first, the same for every seed.
    pub fn printed(&self) -> usize {
        self.printed.len()
    }

    pub fn get(&self, index: u64) -> Vec<u8> {
        if let Some(input) = self.printed.get(index as usize) {
            return input.clone();
        }
        let mut rng = Prng::new(self.seed, index);
        let (rule, events) = rule_and_events(&mut rng);
        let input = join(&rule, &events);
        if rng.chance(20) {
            damaged(&mut rng, &input)
        } else {
            input
        }
    }
}

/// A rule and a stream of events for it.
pub fn rule_and_events(rng: &mut Prng) -> (Rule, Vec<u16>) {
    let rule = match rng.below(40) {
        0 => rule_a(),
        1 => rule_b(),
        2 => rule_c(),
        _ => random_rule(rng),
    };
    let book = Book::of(&rule);
    let events = random_events(rng, &rule, &book);
    (rule, events)
}
