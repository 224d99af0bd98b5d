//! `bench [FILE]`: the proved calls against plain safe Rust of the same answers and
//! against a plain sum over what is read, side by side in one run. The tables are
//! printed, or written into FILE, between its lines `<!-- measured -->` and
//! `<!-- end -->`.

#![forbid(unsafe_code)]

mod agrees;
mod inputs;
mod plain;
mod report;
mod timing;

use host::{Store, ANSWER};
use reader::{stream, Fed, Level, Outcome, Reading, Rule};
use report::{Call, Full, Passing, Report};
use std::process::ExitCode;
use timing::least;

const SIZES: [usize; 4] = [10_000, 100_000, 1_000_000, 10_000_000];
/// All rows are measured so often, one pass after the other, so that a time in which
/// the machine is busy with something else falls on no row alone.
const PASSES: usize = 5;
/// How often in each pass.
const REPETITIONS: usize = 5;
const LARGEST: u32 = u32::MAX;

fn main() -> ExitCode {
    let arguments: Vec<String> = std::env::args().skip(1).collect();
    if arguments.len() > 1 {
        eprintln!("usage: bench [FILE]");
        return ExitCode::from(2);
    }
    agrees::ask();
    let report = (1..PASSES).fold(measured(), |report, _| report.least(measured()));
    let Some(path) = arguments.first() else {
        print!("{}", report.markdown());
        return ExitCode::SUCCESS;
    };
    match report.write_into(path) {
        Ok(()) => ExitCode::SUCCESS,
        Err(message) => {
            eprintln!("bench: {path}: {message}");
            ExitCode::FAILURE
        }
    }
}

fn measured() -> Report {
    Report {
        repetitions: REPETITIONS,
        full: full_reading(),
        passing: passing_over(),
        calls: single_calls(),
    }
}

/// How many calls make up one repetition: a millisecond's worth or more.
fn calls_for(size: usize) -> usize {
    (1_000_000 / size).max(1)
}

/// The linked feed from the reading that opening gave, in the second reading's words.
fn feed_linked(
    file: &[u8],
    book: &[u64],
    first: Reading,
    store: &mut Store,
    events: &[u16],
) -> Fed {
    let mut answer = [0; ANSWER];
    assert!(host::feed(file, book, LARGEST, first, store, events, &mut answer));
    let [number, place, took, state, depth, skip, taken, looks] = answer;
    let counts = [depth, skip, taken, looks].map(|count| count as u32);
    let [depth, skip, taken, looks] = counts;
    let outcome = match number {
        0 => Outcome::AllTaken,
        _ => Outcome::Refused(reader::Refusal::new(number as u8, place)),
    };
    let reading = Reading { state: state as u8, depth, skip, taken, looks };
    Fed { took: took as usize, reading, outcome }
}

/// Full reading: opened, and fed with a book of zeros.
fn full_reading() -> Vec<Full> {
    let mut rows = Vec::new();
    let small = inputs::mixing(16, 16);
    let largest = inputs::mixing(64, 256);
    type Events = fn(usize, usize) -> Vec<u16>;
    let cases: [(&'static str, &Rule, Events); 3] = [
        ("rows of a table, n 16, k 16", &small, inputs::rows),
        ("nested to 60, n 16, k 16", &small, inputs::mixed),
        ("nested to 60, n 64, k 256", &largest, inputs::mixed),
    ];
    for (name, rule, generate) in cases {
        let file = rule.to_file();
        let zeros = vec![0; rule.n + 1];
        let first = reader::open(&file, &mut zeros.clone()).expect("a good rule").reading;
        for size in SIZES {
            let events = generate(rule.k, size);
            let levels = vec![Level::default(); 64];
            let mut linked = Store::new(&levels);
            let (mut plainly, mut alone) = (levels.clone(), levels);

            let expected = stream::feed(&file, &zeros, first, &mut plainly, &events, LARGEST);
            assert_eq!(expected.outcome, Outcome::AllTaken);
            assert_eq!(expected.reading.looks as usize, size);
            assert_eq!(feed_linked(&file, &zeros, first, &mut linked, &events), expected);
            let fed = plain::feed(&file, &zeros, first, &mut plainly, &events, LARGEST);
            assert_eq!(fed, expected);
            assert_eq!(plain::read_in_full(&file, &mut alone, &events), expected);

            let [proved, safe, alone, sum] = least(
                REPETITIONS,
                calls_for(size),
                [
                    &mut || {
                        feed_linked(&file, &zeros, first, &mut linked, &events).reading.looks as u64
                    },
                    &mut || {
                        let store = &mut plainly;
                        let fed = plain::feed(&file, &zeros, first, store, &events, LARGEST);
                        fed.reading.looks as u64
                    },
                    &mut || plain::read_in_full(&file, &mut alone, &events).reading.looks as u64,
                    &mut || plain::sum(&events),
                ],
            )
            .map(|time| time / size as f64);
            rows.push(Full { name, size, proved, safe, alone, sum });
        }
    }
    rows
}

/// Passing over: the book that opening fills, and the same events in full.
fn passing_over() -> Vec<Passing> {
    let mut rows = Vec::new();
    let rule = inputs::settling(16, 16);
    let file = rule.to_file();
    let zeros = vec![0; rule.n + 1];
    let mut book = zeros.clone();
    let first = reader::open(&file, &mut book).expect("a good rule").reading;
    type Events = fn(usize, usize) -> Vec<u16>;
    let cases: [(&'static str, Events); 3] = [
        ("letters only", inputs::letters),
        ("a deep part", inputs::deep),
        ("a shallow, bushy part", inputs::bushy),
    ];
    for (name, generate) in cases {
        for size in SIZES {
            let events = generate(rule.k, size);
            let levels = vec![Level::default(); inputs::DEEPEST];
            let (mut linked, mut linked_full) = (Store::new(&levels), Store::new(&levels));
            let mut plainly = levels;

            let expected = stream::feed(&file, &book, first, &mut plainly, &events, LARGEST);
            assert_eq!(expected.outcome, Outcome::AllTaken);
            assert_eq!(expected.reading.looks, 1);
            assert_eq!(feed_linked(&file, &book, first, &mut linked, &events), expected);
            let fed = plain::feed(&file, &book, first, &mut plainly, &events, LARGEST);
            assert_eq!(fed, expected);
            let full = stream::feed(&file, &zeros, first, &mut plainly, &events, LARGEST);
            assert_eq!(full.outcome, Outcome::AllTaken);
            assert_eq!(full.reading.looks as usize, size);
            assert_eq!(feed_linked(&file, &zeros, first, &mut linked_full, &events), full);

            let [proved, full, safe, sum] = least(
                REPETITIONS,
                calls_for(size),
                [
                    &mut || {
                        feed_linked(&file, &book, first, &mut linked, &events).reading.taken as u64
                    },
                    &mut || {
                        let store = &mut linked_full;
                        feed_linked(&file, &zeros, first, store, &events).reading.taken as u64
                    },
                    &mut || {
                        let store = &mut plainly;
                        let fed = plain::feed(&file, &book, first, store, &events, LARGEST);
                        fed.reading.taken as u64
                    },
                    &mut || plain::sum(&events),
                ],
            )
            .map(|time| time / size as f64);
            rows.push(Passing { name, size, proved, full, safe, sum });
        }
    }
    rows
}

/// Opening and the rule check, at the most states and letters.
fn single_calls() -> Vec<Call> {
    let mut rows = Vec::new();
    for (name, rule) in [
        ("opening, Reach in one round", inputs::mixing(64, 256)),
        ("opening, Reach in 63 rounds", inputs::chain(64, 256)),
    ] {
        let file = rule.to_file();
        let mut expected = vec![0; 65];
        let opening = reader::open(&file, &mut expected).expect("a good rule");
        let mut books = [(); 3].map(|()| vec![0; 65]);
        let mut answer = [0; ANSWER];
        let [linked, words, marks] = &mut books;
        assert!(host::open(&file, linked, &mut answer));
        let (still, state) = (opening.still as u64, opening.reading.state as u64);
        assert_eq!(answer, [0, 0, still, state, 0, 0, 0, 0]);
        assert_eq!(plain::open_by_words(&file, words), Ok(opening));
        assert_eq!(plain::open_by_marks(&file, marks), Ok(opening));
        assert!([&*linked, words, marks].iter().all(|book| **book == expected));

        let [proved, by_words, by_marks, sum] = least(
            REPETITIONS,
            20,
            [
                &mut || {
                    host::open(&file, linked, &mut answer);
                    answer[2]
                },
                &mut || {
                    plain::open_by_words(&file, words).map_or(0, |opening| opening.still as u64)
                },
                &mut || {
                    plain::open_by_marks(&file, marks).map_or(0, |opening| opening.still as u64)
                },
                &mut || plain::sum_bytes(&file),
            ],
        );
        rows.push(Call { name, safe: "words", proved, plain: by_words, sum });
        rows.push(Call { name, safe: "marks", proved, plain: by_marks, sum });
    }

    let file = inputs::mixing(64, 256).to_file();
    assert_eq!(file.len(), Rule::LONGEST_FILE);
    let mut answer = [0; ANSWER];
    assert!(host::check_rule(&file, &mut answer));
    assert_eq!(answer[..6], [0, 0, 64, 0, 1, 256]);
    let [proved, safe, sum] = least(
        REPETITIONS,
        200,
        [
            &mut || {
                host::check_rule(&file, &mut answer);
                answer[2]
            },
            &mut || plain::Table::from_file(&file).map_or(0, |table| table.classes.len() as u64),
            &mut || plain::sum_bytes(&file),
        ],
    );
    rows.push(Call {
        name: "the rule check, 20,573 bytes",
        safe: "tables copied into vectors",
        proved,
        plain: safe,
        sum,
    });
    rows
}
