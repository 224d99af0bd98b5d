//! The proved calls, linked into this program, so that single calls with any book,
//! reading, level store and ceiling can be asked.
//!
//! A call is asked with the same arguments here and there, and all that it leaves
//! must agree: whether the answer fitted, the answer's numbers, the output's bytes,
//! the book's words and the records of the level store, those past what was written
//! too.

use crate::disagreements;
use crate::tally::{Can, Tally, FEED, FINISH, OPEN, RULE, WHOLE, WRITER};
use generate::calls::{random_call, random_writing, Call, Writing};
use generate::damage::damaged;
use generate::rules::random_rule;
use generate::{Inputs, Prng};
use host::{Store, Tables, ANSWER};
use reader::check::take_apart;
use reader::{End, Fed, Level, Opening, Outcome, Reading, Refusal, Rule};
use std::fmt::Debug;
use std::time::Instant;

/// What a call leaves.
#[derive(Debug, Default, PartialEq)]
struct Left {
    fitted: bool,
    answer: Vec<u64>,
    output: Vec<u8>,
    book: Vec<u64>,
    store: Vec<Level>,
}

impl Left {
    /// An answer's numbers in front of what the slice held; a slice that is too
    /// short for them stays.
    fn by(numbers: Vec<u64>, held: &[u64]) -> Left {
        let fitted = numbers.len() <= held.len();
        let mut answer = held.to_vec();
        if fitted {
            answer[..numbers.len()].copy_from_slice(&numbers);
        }
        Left { fitted, answer, ..Left::default() }
    }
}

/// The number of the refusal or 0, its place or 0, and then the values.
fn numbers<T>(answer: Result<T, Refusal>, values: impl Fn(T) -> Vec<u64>) -> Vec<u64> {
    match answer {
        Ok(given) => [vec![0, 0], values(given)].concat(),
        Err(refusal) => vec![refusal.number as u64, refusal.place],
    }
}

fn reading_values(reading: Reading) -> Vec<u64> {
    let counts = [reading.depth, reading.skip, reading.taken, reading.looks];
    [vec![reading.state as u64], counts.map(u64::from).to_vec()].concat()
}

fn opening_values(opening: Opening) -> Vec<u64> {
    [vec![opening.still as u64], reading_values(opening.reading)].concat()
}

fn fed_numbers(fed: Fed) -> Vec<u64> {
    let (number, place) = match fed.outcome {
        Outcome::AllTaken => (0, 0),
        Outcome::Refused(refusal) => (refusal.number as u64, refusal.place),
    };
    [vec![number, place, fed.took as u64], reading_values(fed.reading)].concat()
}

fn end_numbers(end: End) -> Vec<u64> {
    match end {
        End::Verdict(verdict, state) => vec![0, 0, verdict as u64, state as u64],
        End::Refused(refusal) => vec![refusal.number as u64, refusal.place],
    }
}

/// The arguments of an index are asked here and there.
struct Comparison<'a> {
    seed: u64,
    index: u64,
    tally: &'a mut Tally,
}

impl Comparison<'_> {
    /// What the call left against what the second reading says.
    fn same(
        &mut self,
        name: &'static str,
        can: Can,
        arguments: &dyn Debug,
        expected: Left,
        found: Left,
    ) -> Result<(), String> {
        if expected != found {
            let text = format!(
                "{name}\n\narguments\n{arguments:?}\n\nexpected\n{expected:?}\n\nfound\n{found:?}\n"
            );
            let saved = disagreements::save(
                &format!("linked-seed{}-{}", self.seed, self.index),
                &[("call", text.as_bytes())],
            );
            return Err(format!("arguments {} of seed {}: {name}; {saved}", self.index, self.seed));
        }
        self.tally.add(name, can, expected.fitted.then(|| expected.answer[0]));
        Ok(())
    }

    fn check_rule(&mut self, file: &[u8], held: &[u64]) -> Result<(), String> {
        let values = |rule: Rule| {
            let tree_start = rule.tree_start.map_or(Rule::NONE as u64, |state| state as u64);
            vec![rule.n as u64, rule.initial as u64, tree_start, rule.k as u64]
        };
        let expected = Left::by(numbers(Rule::from_file(file), values), held);
        let mut answer = held.to_vec();
        let fitted = host::check_rule(file, &mut answer);
        let found = Left { fitted, answer, ..Left::default() };
        self.same("rule check", RULE, &(file, held), expected, found)
    }

    fn open(&mut self, file: &[u8], book: &[u64], held: &[u64]) -> Result<(), String> {
        let mut words = book.to_vec();
        let opened = reader::open(file, &mut words);
        let expected = Left { book: words, ..Left::by(numbers(opened, opening_values), held) };
        let (mut book_after, mut answer) = (book.to_vec(), held.to_vec());
        let fitted = host::open(file, &mut book_after, &mut answer);
        let found = Left { fitted, answer, book: book_after, ..Left::default() };
        self.same("open", OPEN, &(file, book, held), expected, found)
    }

    /// Opened, fed and finished by the linked calls alone, each with what the one
    /// before it gave: as the whole document, which leaves the same.
    fn calls_in_turn(&mut self, call: &Call, book: &[u64]) -> Result<(), String> {
        let (file, held) = (&call.rule_file, [0; ANSWER]);
        let (mut words, mut store) = (book.to_vec(), call.store.clone());
        let end = reader::whole(file, &mut words, &mut store, &call.events);
        let expected = Left { book: words, store, ..Left::by(end_numbers(end), &held) };

        let (mut book_after, mut lent, mut answer) = (book.to_vec(), Store::new(&call.store), held);
        host::open(file, &mut book_after, &mut answer);
        if answer[0] == 0 {
            let (first, events) = (reading_of(&answer), &call.events);
            answer = held;
            host::feed(file, &book_after, u32::MAX, first, &mut lent, events, &mut answer);
            if answer[0] == 0 {
                let last = reading_of(&answer);
                answer = held;
                host::finish(file, &book_after, last, &lent, &mut answer);
            }
        }
        // What feeding laid after a refusal's number and place is not the document's.
        if answer[0] != 0 {
            answer[2..].fill(0);
        }
        let answer = answer.to_vec();
        let store = lent.levels();
        let found = Left { fitted: true, answer, book: book_after, store, ..Left::default() };
        self.same("open, feed, finish", WHOLE, &(call, book), expected, found)
    }

    fn write_rule(&mut self, writing: &Writing, output: &[u8], held: &[u64]) -> Result<(), String> {
        let mut bytes = output.to_vec();
        let written = reader::write_rule(
            writing.n,
            writing.initial,
            writing.tree_start,
            writing.k,
            &writing.letter_moves,
            &writing.tree_moves,
            &writing.classes,
            &mut bytes,
        );
        let expected =
            Left { output: bytes, ..Left::by(numbers(written, |count| vec![count as u64]), held) };
        let tables = Tables {
            n: writing.n,
            initial: writing.initial,
            tree_start: writing.tree_start,
            k: writing.k,
            letter_moves: &writing.letter_moves,
            tree_moves: &writing.tree_moves,
            classes: &writing.classes,
        };
        let (mut output_after, mut answer) = (output.to_vec(), held.to_vec());
        let fitted = host::write_rule(tables, &mut output_after, &mut answer);
        let found = Left { fitted, answer, output: output_after, ..Left::default() };
        self.same("writer", WRITER, &(writing, output, held), expected, found)
    }

    /// Feeding, and finishing what it was given and what it left.
    fn feed_and_finish(&mut self, call: &Call, held: &[u64]) -> Result<(), String> {
        let (fed, store) = feed_second(call);
        let expected = Left { store: store.clone(), ..Left::by(fed_numbers(fed), held) };
        let found = feed_linked(call, call.reading, &call.store, &call.events, held);
        self.same("feed", FEED, &(call, held), expected, found)?;
        self.finish(call, call.reading, &call.store, held)?;
        self.finish(call, fed.reading, &store, held)
    }

    fn finish(
        &mut self,
        call: &Call,
        reading: Reading,
        store: &[Level],
        held: &[u64],
    ) -> Result<(), String> {
        let (file, book) = (&call.rule_file, &call.book);
        let end = reader::finish(file, book, reading, store);
        let expected = Left { store: store.to_vec(), ..Left::by(end_numbers(end), held) };
        let (lent, mut answer) = (Store::new(store), held.to_vec());
        let fitted = host::finish(file, book, reading, &lent, &mut answer);
        let found = Left { fitted, answer, store: lent.levels(), ..Left::default() };
        self.same("finish", FINISH, &(file, book, reading, store, held), expected, found)
    }

    /// Feeding part after part, each from where the one before it left off, until
    /// one is refused: as feeding all at once.
    fn split_feeds(&mut self, call: &Call, parts: &[&[u16]]) -> Result<(), String> {
        let held = [0; ANSWER];
        let (fed, store) = feed_second(call);
        let expected = Left { store, ..Left::by(fed_numbers(fed), &held) };

        let mut found = feed_linked(call, call.reading, &call.store, parts[0], &held);
        for part in &parts[1..] {
            if found.answer[0] != 0 {
                break;
            }
            let took = found.answer[2];
            found = feed_linked(call, reading_of(&found.answer), &found.store, part, &held);
            found.answer[2] += took;
        }
        let lengths: Vec<usize> = parts.iter().map(|part| part.len()).collect();
        self.same("split feeds", FEED, &(call, lengths), expected, found)
    }

    fn read_document(&mut self, call: &Call, book: &[u64], held: &[u64]) -> Result<(), String> {
        let (file, events) = (&call.rule_file, &call.events);
        let (mut words, mut store) = (book.to_vec(), call.store.clone());
        let end = reader::whole(file, &mut words, &mut store, events);
        let expected = Left { book: words, store, ..Left::by(end_numbers(end), held) };
        let (mut book_after, mut lent) = (book.to_vec(), Store::new(&call.store));
        let mut answer = held.to_vec();
        let fitted = host::read_document(file, &mut book_after, &mut lent, events, &mut answer);
        let found =
            Left { fitted, answer, book: book_after, store: lent.levels(), ..Left::default() };
        self.same("whole document", WHOLE, &(call, book, held), expected, found)
    }

    /// All calls, with the arguments of one index.
    fn ask(&mut self) -> Result<(), String> {
        let mut rng = Prng::new(self.seed, self.index);
        let call = random_call(&mut rng);
        let held = random_held(&mut rng);
        self.feed_and_finish(&call, &held)?;
        self.split_feeds(&call, &random_parts(&mut rng, &call.events))?;
        let book = random_words(&mut rng, call.book.len());
        self.open(&call.rule_file, &book, &held)?;
        self.read_document(&call, &book, &held)?;
        self.calls_in_turn(&call, &book)?;

        let rule = random_rule(&mut rng);
        let good = rule.to_file();
        let file = if rng.chance(70) { damaged(&mut rng, &good) } else { good };
        self.check_rule(&file, &held)?;
        let words = rng.weighted(&[(70, rule.n + 1), (10, rule.n), (10, rule.n + 4), (10, 66)]);
        let book = random_words(&mut rng, words);
        let file = if rng.chance(95) { rule.to_file() } else { file };
        self.open(&file, &book, &held)?;

        let writing = random_writing(&mut rng);
        let output: Vec<u8> = (0..writing.room).map(|_| rng.word() as u8).collect();
        self.write_rule(&writing, &output, &held)
    }

    /// The cases printed in document 01, as whole documents and in full.
    fn ask_printed(&mut self) -> Result<(), String> {
        let inputs = Inputs::new(self.seed);
        for index in 0..inputs.printed() as u64 {
            self.index = index;
            let input = inputs.get(index);
            let Ok(parts) = take_apart(&input) else { continue };
            let call = Call {
                rule_file: parts.rule_file.to_vec(),
                book: vec![0; parts.rule.n + 1],
                reading: reader::open(parts.rule_file, &mut [0; 65]).expect("a good rule").reading,
                store: vec![Level::default(); 1024],
                events: parts.events,
                ceiling: u32::MAX,
            };
            self.feed_and_finish(&call, &[0; ANSWER])?;
            self.read_document(&call, &call.book, &[0; ANSWER])?;
            self.calls_in_turn(&call, &call.book)?;
        }
        Ok(())
    }
}

/// The second reading's feed, and the level store after it.
fn feed_second(call: &Call) -> (Fed, Vec<Level>) {
    let mut store = call.store.clone();
    let (file, book) = (&call.rule_file, &call.book);
    let fed = reader::feed(file, book, call.reading, &mut store, &call.events, call.ceiling);
    (fed, store)
}

/// The linked feed, with the rule, book and ceiling of a call.
fn feed_linked(
    call: &Call,
    reading: Reading,
    store: &[Level],
    events: &[u16],
    held: &[u64],
) -> Left {
    let (mut lent, mut answer) = (Store::new(store), held.to_vec());
    let fitted = host::feed(
        &call.rule_file,
        &call.book,
        call.ceiling,
        reading,
        &mut lent,
        events,
        &mut answer,
    );
    Left { fitted, answer, store: lent.levels(), ..Left::default() }
}

/// The reading in the answer of opening or of a feed: both have a count before it.
fn reading_of(answer: &[u64]) -> Reading {
    Reading {
        state: answer[3] as u8,
        depth: answer[4] as u32,
        skip: answer[5] as u32,
        taken: answer[6] as u32,
        looks: answer[7] as u32,
    }
}

/// The events in two parts, in several, or one by one; parts may be empty.
fn random_parts<'a>(rng: &mut Prng, events: &'a [u16]) -> Vec<&'a [u16]> {
    if events.len() < 60 && !events.is_empty() && rng.chance(30) {
        return events.chunks(1).collect();
    }
    let mut parts = Vec::new();
    let mut rest = events;
    for _ in 0..rng.pick(&[1, 1, 1, 2, 4, 7]) {
        let (part, after) = rest.split_at(rng.below(rest.len() + 1));
        parts.push(part);
        rest = after;
    }
    parts.push(rest);
    parts
}

/// What a lent answer holds before a call; too short at times.
fn random_held(rng: &mut Prng) -> Vec<u64> {
    let length = if rng.chance(90) { rng.between(ANSWER, 11) } else { rng.below(ANSWER) };
    random_words(rng, length)
}

fn random_words(rng: &mut Prng, count: usize) -> Vec<u64> {
    (0..count).map(|_| rng.word()).collect()
}

/// The arguments 0 to `count`−1 of the seed, after the printed cases.
pub fn run(count: u64, seed: u64, tally: &mut Tally) -> Result<(), String> {
    let began = Instant::now();
    let mut comparison = Comparison { seed, index: 0, tally };
    comparison.ask_printed()?;
    for index in 0..count {
        comparison.index = index;
        comparison.ask()?;
    }
    println!(
        "the linked calls: {count} arguments of seed {seed}, {:.0} s",
        began.elapsed().as_secs_f64()
    );
    Ok(())
}
