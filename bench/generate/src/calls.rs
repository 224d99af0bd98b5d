//! Arguments for the single calls: any book, any reading, any level store, any
//! ceiling; and arguments for the writer.

use crate::damage::{damaged, records};
use crate::events::random_events;
use crate::inputs::join;
use crate::prng::Prng;
use crate::rules::random_rule;
use reader::{feed, Book, Level, Reading, Rule};

/// The arguments of a feed, and of the finish after it.
#[derive(Clone, Debug)]
pub struct Call {
    pub rule_file: Vec<u8>,
    pub book: Vec<u64>,
    pub reading: Reading,
    pub store: Vec<Level>,
    pub events: Vec<u16>,
    pub ceiling: u32,
}

/// The arguments of a call of the writer.
#[derive(Clone, Debug)]
pub struct Writing {
    pub n: u8,
    pub initial: u8,
    pub tree_start: u8,
    pub k: u16,
    pub letter_moves: Vec<u8>,
    pub tree_moves: Vec<u8>,
    pub classes: Vec<u8>,
    /// The length of the lent output.
    pub room: usize,
}

/// A call of feed.
pub fn random_call(rng: &mut Prng) -> Call {
    let rule = loop {
        let rule = random_rule(rng);
        if rule.n <= 8 || rng.chance(10) {
            break rule;
        }
    };
    let sets = Book::of(&rule);
    let book = random_book(rng, &rule, &sets);
    let mut events = random_events(rng, &rule, &sets);
    if rng.chance(70) {
        events.truncate(2000);
    }
    let levels = rng.weighted(&[(10, 0), (10, 1), (15, 2), (15, 4), (50, 2100)]);
    let mut store: Vec<Level> = (0..levels).map(|_| random_level(rng, rule.n)).collect();
    let mut rule_file = rule.to_file();

    let fresh = Reading { state: rule.initial as u8, depth: 0, skip: 0, taken: 0, looks: 0 };
    let reading = match rng.below(10) {
        0..=3 => fresh,
        4..=6 => {
            // One that an earlier feed has left.
            let most = rng.below(events.len() + 1);
            let earlier: Vec<u16> = events.drain(..most).collect();
            feed(&rule_file, &book, fresh, &mut store, &earlier, u32::MAX).reading
        }
        _ => random_reading(rng, &rule, &book, &mut store),
    };
    let ceiling = match rng.below(10) {
        0 => rng.below(10) as u32,
        1 => reading.looks.saturating_add(rng.below(12) as u32),
        2 => reading.looks.saturating_sub(1),
        _ => u32::MAX,
    };
    if rng.chance(4) {
        rule_file = damaged(rng, &rule_file);
    }
    Call { rule_file, book, reading, store, events, ceiling }
}

fn random_level(rng: &mut Prng, n: usize) -> Level {
    let state = if rng.chance(97) { rng.below(n) as u8 } else { rng.below(256) as u8 };
    Level { state, place: rng.word() as u32 }
}

/// The rule's own book, one of zeros, one with bits changed, or any words at all;
/// longer than needed at times, or too short.
fn random_book(rng: &mut Prng, rule: &Rule, sets: &Book) -> Vec<u64> {
    let made = sets.words();
    let mut book = match rng.below(10) {
        0 => vec![0; made.len()],
        1 | 2 => {
            let mut changed = made;
            for _ in 0..rng.between(1, 4) {
                let at = rng.below(changed.len());
                changed[at] ^= 1 << rng.below(64);
            }
            changed
        }
        3 => (0..made.len()).map(|_| rng.word()).collect(),
        4 => (0..made.len()).map(|_| rng.word() & rng.word() & rng.word()).collect(),
        _ => made,
    };
    if rng.chance(20) && rule.n < 64 {
        // The bits for n and above are ignored.
        let above = u64::MAX << rule.n;
        for word in &mut book {
            *word |= above;
        }
    }
    if rng.chance(15) {
        book.push(rng.word());
    }
    if rng.chance(3) {
        book.truncate(rng.below(rule.n + 1));
    }
    book
}

/// A reading that no feed need have left; most are readings all the same.
fn random_reading(rng: &mut Prng, rule: &Rule, book: &[u64], store: &mut [Level]) -> Reading {
    let depth = rng.below(store.len().min(12) + 1);
    if rng.chance(85) {
        for level in &mut store[..depth] {
            level.state = rng.below(rule.n) as u8;
        }
    }
    let mut state = rng.below(rule.n) as u8;
    let mut skip = 0;
    if rng.chance(50) && book.len() > rule.n {
        // A state that is settled there, if there is one.
        let upper = store[..depth]
            .last()
            .map_or(0, |level| book.get(1 + level.state as usize).copied().unwrap_or(0));
        let settled: Vec<u8> =
            (0..rule.n as u8).filter(|&p| (book[0] | upper) >> p & 1 == 1).collect();
        if !settled.is_empty() {
            state = rng.pick(&settled);
            skip = rng.pick(&[0, 1, 2, 5, 400, 2_000_000_000, u32::MAX - 300]);
        }
    }
    let nesting = depth as u32 + skip;
    let taken = match rng.below(6) {
        0 => u32::MAX,
        1 => u32::MAX - rng.below(12) as u32,
        2 => (u32::MAX - rng.below(300) as u32).max(nesting),
        3 => nesting,
        _ => nesting.saturating_add(rng.below(1000) as u32),
    };
    let looks = rng.word() as u32 % taken.saturating_add(1).max(1);
    let mut reading = Reading { state, depth: depth as u32, skip, taken, looks };
    if rng.chance(18) {
        match rng.below(6) {
            0 => reading.state = rng.pick(&[rule.n as u8, 64, 255]),
            1 => reading.depth = store.len() as u32 + rng.pick(&[0, 1, 9]),
            2 => reading.skip = rng.pick(&[1, 2, u32::MAX]),
            3 => reading.taken = nesting.saturating_sub(1),
            4 => reading.looks = reading.taken.saturating_add(1),
            _ => reading.skip = reading.taken.saturating_sub(reading.depth).saturating_add(1),
        }
    }
    reading
}

/// A call of the writer, with something wrong at times.
pub fn random_writing(rng: &mut Prng) -> Writing {
    let rule = random_rule(rng);
    let records = records(&join(&rule, &[]));
    let mut writing = Writing {
        n: records[0][6],
        initial: records[0][7],
        tree_start: records[0][8],
        k: u16::from_le_bytes([records[0][9], records[0][10]]),
        letter_moves: records[1][6..].to_vec(),
        tree_moves: records[2][6..].to_vec(),
        classes: records[3][6..].to_vec(),
        room: 0,
    };
    let needed = 29 + rule.n * rule.k + rule.n * rule.n + rule.n;
    writing.room = match rng.below(6) {
        0 => rng.below(needed),
        1 => needed - 1,
        2 => needed,
        _ => needed + rng.below(50),
    };
    for _ in 0..rng.pick(&[0, 0, 1, 1, 2, 3]) {
        let n = writing.n;
        match rng.below(8) {
            0 => writing.n = rng.pick(&[0, 65, 255, n.wrapping_add(1)]),
            1 => writing.initial = rng.pick(&[n, 64, 255]),
            2 => writing.tree_start = rng.pick(&[n, 64, 254, 255]),
            3 => writing.k = rng.pick(&[0, 257, 512, 65_535, writing.k.wrapping_add(1)]),
            4 | 5 => {
                let table = match rng.below(3) {
                    0 => &mut writing.letter_moves,
                    1 => &mut writing.tree_moves,
                    _ => &mut writing.classes,
                };
                if rng.chance(50) {
                    table.push(0);
                } else {
                    table.pop();
                }
            }
            _ => {
                let table = match rng.below(3) {
                    0 => &mut writing.letter_moves,
                    1 => &mut writing.tree_moves,
                    _ => &mut writing.classes,
                };
                if !table.is_empty() {
                    let at = rng.below(table.len());
                    table[at] = rng.pick(&[2, 3, n, 64, 254, 255]);
                }
            }
        }
    }
    writing
}
