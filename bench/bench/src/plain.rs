//! Plain safe Rust with the same answers: tables in vectors, one event after the
//! other, opening with a vector of marks or with words. Written as one would
//! without a proof in mind, and checked against the second reading before anything
//! is measured.
//!
//! [`feed`] takes what the proved call takes and answers what it answers: the goal
//! for full reading is measured against it. [`read_in_full`] has less to do and is
//! there for information.

use reader::{Fed, Level, Opening, Outcome, Reading, Refusal};

/// A rule in flat tables.
pub struct Table {
    pub n: usize,
    pub k: usize,
    pub initial: u8,
    pub tree_start: u8,
    pub letter_moves: Vec<u8>,
    pub tree_moves: Vec<u8>,
    pub classes: Vec<u8>,
}

pub const NONE: u8 = 255;
const HEADER: usize = 6;
const OPEN: u16 = 0;
const CLOSE: u16 = 1;

impl Table {
    /// The rule check.
    pub fn from_file(file: &[u8]) -> Result<Table, Refusal> {
        let refuse = |number, place: usize| Err(Refusal::new(number, place as u64));
        let numbers = body(file, 0, 1, 5)?;
        let n = numbers[0] as usize;
        if n == 0 || n > 64 {
            return refuse(4, HEADER);
        }
        let initial = numbers[1];
        if initial as usize >= n {
            return refuse(4, HEADER + 1);
        }
        let tree_start = numbers[2];
        if tree_start as usize >= n && tree_start != NONE {
            return refuse(4, HEADER + 2);
        }
        let k = u16::from_le_bytes([numbers[3], numbers[4]]) as usize;
        if k == 0 || k > 256 {
            return refuse(4, HEADER + 3);
        }

        let mut at = HEADER + 5;
        let mut tables = Vec::new();
        for (kind, size) in [(2, n * k), (3, n * n), (4, n)] {
            let bytes = body(file, at, kind, size)?;
            let bad = match kind {
                4 => bytes.iter().position(|&class| class > 2),
                _ => bytes.iter().position(|&to| to as usize >= n && to != NONE),
            };
            if let Some(bad) = bad {
                return refuse(4, at + HEADER + bad);
            }
            tables.push(bytes.to_vec());
            at += HEADER + size;
        }
        if at < file.len() {
            return refuse(5, at);
        }
        let classes = tables.pop().expect("three tables");
        let tree_moves = tables.pop().expect("three tables");
        let letter_moves = tables.pop().expect("three tables");
        Ok(Table { n, k, initial, tree_start, letter_moves, tree_moves, classes })
    }

    fn letter_move(&self, state: u8, letter: usize) -> u8 {
        self.letter_moves[state as usize * self.k + letter]
    }

    fn tree_move(&self, upper: u8, lower: u8) -> u8 {
        self.tree_moves[upper as usize * self.n + lower as usize]
    }
}

/// The body of the record at a place.
fn body(file: &[u8], at: usize, kind: u16, size: usize) -> Result<&[u8], Refusal> {
    let refuse = |number, place: usize| Err(Refusal::new(number, place as u64));
    let rest = &file[at..];
    if rest.len() < HEADER {
        return refuse(1, file.len());
    }
    if u16::from_le_bytes([rest[4], rest[5]]) != kind {
        return refuse(2, at + 4);
    }
    if u32::from_le_bytes([rest[0], rest[1], rest[2], rest[3]]) as usize != size {
        return refuse(3, at);
    }
    rest.get(HEADER..HEADER + size).ok_or(Refusal::new(1, file.len() as u64))
}

fn bit(word: u64, state: u8) -> bool {
    word >> state & 1 == 1
}

/// Feeding: any book, reading, level store and ceiling.
pub fn feed(
    file: &[u8],
    book: &[u64],
    reading: Reading,
    store: &mut [Level],
    events: &[u16],
    ceiling: u32,
) -> Fed {
    let refused = |took, reading, number, place| Fed {
        took,
        reading,
        outcome: Outcome::Refused(Refusal::new(number, place)),
    };
    let table = match Table::from_file(file) {
        Ok(table) => table,
        Err(refusal) => return refused(0, reading, refusal.number, refusal.place),
    };
    if book.len() < table.n + 1 {
        return refused(0, reading, 6, 0);
    }
    if !is_reading(&table, book, &reading, store) {
        return refused(0, reading, 13, 0);
    }
    let Reading { mut state, mut depth, mut skip, mut taken, mut looks } = reading;
    let before = taken;
    let mut outcome = Outcome::AllTaken;
    for &event in events {
        let stop = |number| Outcome::Refused(Refusal::new(number, taken as u64));
        if taken == u32::MAX {
            outcome = stop(16);
            break;
        }
        if event as usize >= table.k + 2 {
            outcome = stop(10);
            break;
        }
        if event == CLOSE && depth == 0 && skip == 0 {
            outcome = stop(7);
            break;
        }
        let upper = if depth > 0 { store[depth as usize - 1].state } else { NONE };
        let held = depth > 0 && bit(book[1 + upper as usize], state);
        let settled = held || bit(book[0], state);
        if settled && (event != CLOSE || skip > 0) {
            match event {
                OPEN => skip += 1,
                CLOSE => skip -= 1,
                _ => {}
            }
        } else if held {
            state = upper;
            depth -= 1;
        } else {
            if event == OPEN && depth as usize >= store.len() {
                outcome = stop(8);
                break;
            }
            if looks >= ceiling {
                outcome = stop(9);
                break;
            }
            let to = match event {
                OPEN => table.tree_start,
                CLOSE => table.tree_move(upper, state),
                _ => table.letter_move(state, event as usize - 2),
            };
            if to == NONE {
                outcome = stop(missing(event));
                break;
            }
            match event {
                OPEN => {
                    store[depth as usize] = Level { state, place: taken };
                    depth += 1;
                }
                CLOSE => depth -= 1,
                _ => {}
            }
            state = to;
            looks += 1;
        }
        taken += 1;
    }
    let reading = Reading { state, depth, skip, taken, looks };
    Fed { took: (taken - before) as usize, reading, outcome }
}

/// The number of a missing move, by the event that wants it.
fn missing(event: u16) -> u8 {
    match event {
        OPEN => 17,
        CLOSE => 18,
        _ => 11,
    }
}

fn is_reading(table: &Table, book: &[u64], reading: &Reading, store: &[Level]) -> bool {
    let depth = reading.depth as usize;
    if reading.state as usize >= table.n || depth > store.len() {
        return false;
    }
    if store[..depth].iter().any(|level| level.state as usize >= table.n) {
        return false;
    }
    let held = depth > 0 && bit(book[1 + store[depth - 1].state as usize], reading.state);
    if reading.skip > 0 && !held && !bit(book[0], reading.state) {
        return false;
    }
    let nesting = reading.depth as u64 + reading.skip as u64;
    nesting <= reading.taken as u64 && reading.looks <= reading.taken
}

/// Full reading alone, from the first event and with no book in sight: what one
/// would write who never skips.
pub fn read_in_full(file: &[u8], store: &mut [Level], events: &[u16]) -> Fed {
    let fed = |took, state, depth, outcome| Fed {
        took,
        reading: Reading { state, depth, skip: 0, taken: took as u32, looks: took as u32 },
        outcome,
    };
    let table = match Table::from_file(file) {
        Ok(table) => table,
        Err(refusal) => return fed(0, 0, 0, Outcome::Refused(refusal)),
    };
    let mut state = table.initial;
    let mut depth = 0;
    for (took, &event) in events.iter().enumerate() {
        let refused = |number| {
            fed(took, state, depth as u32, Outcome::Refused(Refusal::new(number, took as u64)))
        };
        if event as usize >= table.k + 2 {
            return refused(10);
        }
        let to = match event {
            OPEN if depth >= store.len() => return refused(8),
            OPEN => table.tree_start,
            CLOSE if depth == 0 => return refused(7),
            CLOSE => table.tree_move(store[depth - 1].state, state),
            _ => table.letter_move(state, event as usize - 2),
        };
        if to == NONE {
            return refused(missing(event));
        }
        match event {
            OPEN => {
                store[depth] = Level { state, place: took as u32 };
                depth += 1;
            }
            CLOSE => depth -= 1,
            _ => {}
        }
        state = to;
    }
    fed(events.len(), state, depth as u32, Outcome::AllTaken)
}

/// The states in which a tree can end, with a mark for each: a state that is met
/// is tried with each state met before it, above it and below it.
fn tree_ends(table: &Table) -> Vec<bool> {
    let n = table.n;
    let mut ends = vec![false; n];
    let mut waiting: Vec<u8> = vec![table.tree_start];
    while let Some(q) = waiting.pop() {
        if q == NONE || ends[q as usize] {
            continue;
        }
        ends[q as usize] = true;
        waiting.extend(&table.letter_moves[q as usize * table.k..(q as usize + 1) * table.k]);
        for met in (0..n).filter(|&p| ends[p]).map(|p| p as u8) {
            waiting.extend([table.tree_move(q, met), table.tree_move(met, q)]);
        }
    }
    ends
}

/// What opening gives: the fresh reading and the still count.
fn opening(table: &Table, still: u32) -> Opening {
    let reading = Reading { state: table.initial, depth: 0, skip: 0, taken: 0, looks: 0 };
    Opening { reading, still }
}

/// Opening, its book over a vector of marks for each state.
pub fn open_by_marks(file: &[u8], book: &mut [u64]) -> Result<Opening, Refusal> {
    let table = Table::from_file(file)?;
    let n = table.n;
    if book.len() < n + 1 {
        return Err(Refusal::new(6, 0));
    }
    let ends = tree_ends(&table);
    let mut reach = vec![vec![false; n]; n];
    for q in 0..n {
        let mut waiting = vec![q];
        reach[q][q] = true;
        while let Some(p) = waiting.pop() {
            let letters = &table.letter_moves[p * table.k..(p + 1) * table.k];
            let row = &table.tree_moves[p * n..(p + 1) * n];
            let trees = row.iter().zip(&ends).filter(|(_, &counts)| counts).map(|(to, _)| to);
            for &to in letters.iter().chain(trees) {
                if to != NONE && !reach[q][to as usize] {
                    reach[q][to as usize] = true;
                    waiting.push(to as usize);
                }
            }
        }
    }
    let still = |q: usize| (0..n).all(|p| !reach[q][p] || p == q);
    let holds = |u: usize, p: usize| {
        (0..n).all(|low| {
            let to = table.tree_move(u as u8, low as u8);
            !reach[p][low] || to == NONE || to as usize == u
        })
    };
    book[0] = (0..n).filter(|&q| still(q)).map(|q| 1 << q).sum();
    for u in 0..n {
        book[1 + u] = (0..n).filter(|&p| holds(u, p)).map(|p| 1 << p).sum();
    }
    Ok(opening(&table, book[0].count_ones()))
}

/// Opening, its book over a word for each state: rounds of `or` until none adds a
/// state.
pub fn open_by_words(file: &[u8], book: &mut [u64]) -> Result<Opening, Refusal> {
    let table = Table::from_file(file)?;
    let n = table.n;
    if book.len() < n + 1 {
        return Err(Refusal::new(6, 0));
    }
    let ends = tree_ends(&table);
    let with = |set: u64, to: u8| if to == NONE { set } else { set | 1 << to };
    let mut reach: Vec<u64> = (0..n)
        .map(|q| {
            let letters = &table.letter_moves[q * table.k..(q + 1) * table.k];
            let set = letters.iter().fold(1 << q, |set, &to| with(set, to));
            let trees = &table.tree_moves[q * n..(q + 1) * n];
            (0..n).filter(|&low| ends[low]).fold(set, |set, low| with(set, trees[low]))
        })
        .collect();
    loop {
        let next: Vec<u64> = reach
            .iter()
            .map(|&from| (0..n).filter(|q| from >> q & 1 == 1).fold(from, |all, q| all | reach[q]))
            .collect();
        if next == reach {
            break;
        }
        reach = next;
    }
    book[0] = (0..n).filter(|&q| reach[q] == 1 << q).map(|q| 1 << q).sum();
    for u in 0..n {
        let row = &table.tree_moves[u * n..(u + 1) * n];
        let changes = (0..n)
            .filter(|&low| row[low] != NONE && row[low] as usize != u)
            .fold(0u64, |set, low| set | 1 << low);
        book[1 + u] = (0..n).filter(|&p| reach[p] & changes == 0).map(|p| 1 << p).sum();
    }
    Ok(opening(&table, book[0].count_ones()))
}

/// The memory limit: each event is read and added up.
pub fn sum(events: &[u16]) -> u64 {
    events.iter().map(|&event| event as u64).sum()
}

/// The same of bytes.
pub fn sum_bytes(bytes: &[u8]) -> u64 {
    bytes.iter().map(|&byte| byte as u64).sum()
}
