//! The three ways of reading agree on many generated inputs.

use generate::calls::{random_call, random_writing, Call};
use generate::events::well_nested;
use generate::rules::random_rule;
use generate::{join, rule_and_events, Inputs, Prng};
use reader::book::{reach, reach_with, tree_ends};
use reader::calls::{report_by, Feed};
use reader::check::{check_program_by, take_apart, LEVELS};
use reader::positions::FullRun;
use reader::stream::feed;
use reader::*;
use std::collections::{BTreeMap, BTreeSet};

const LARGEST: u32 = u32::MAX;

/// How many cases a test asks for: as given, or as many times more as the
/// variable `TIMES` says.
fn many(cases: u64) -> u64 {
    cases * std::env::var("TIMES").ok().and_then(|times| times.parse().ok()).unwrap_or(1)
}

/// The check program's lines by the table over the places; the skip line only
/// where it follows from the full reading.
fn lines_by_positions(input: &[u8]) -> Option<(Option<String>, String)> {
    let parts = take_apart(input).ok()?;
    let run = FullRun::new(&parts.rule, &parts.events);
    let skip = run.predict_skip(&Book::of(&parts.rule), LEVELS, LARGEST);
    let full = run.predict_full(LEVELS, LARGEST);
    Some((skip.map(|report| format!("skip {report}")), format!("full {full}")))
}

/// Counts how often each kind of line comes, so that the generator cannot fall
/// silent on one of them.
#[test]
fn the_check_program_in_three_ways() {
    let mut seen: BTreeMap<String, u32> = BTreeMap::new();
    let mut count = |kind: String| *seen.entry(kind).or_default() += 1;
    let inputs = Inputs::new(1);
    for index in 0..many(6000) {
        let input = inputs.get(index);
        let lines = check_program(&input);
        assert_eq!(lines, check_program_by(feed, &input), "input {index}");
        let words: Vec<Vec<&str>> = lines.lines().map(|line| line.split(' ').collect()).collect();
        for line in &words {
            count(line[..if line[1] == "refused" { 3 } else { 2 }].join(" "));
        }
        let Some((skip, full)) = lines_by_positions(&input) else { continue };
        let (first, second) = lines.split_once('\n').unwrap();
        assert_eq!(second.trim_end(), full, "input {index}");
        match skip {
            Some(skip) => assert_eq!(first, skip, "input {index}"),
            None => count("skip not foretold".into()),
        }
        if words[0][1] != "refused" {
            let (events, looks) = (words[0][3], words[0][4]);
            count(if events == looks { "looks at all" } else { "looks at less" }.into());
            if events != looks && looks != "0" && words[1][1] != "refused" {
                count("looks at some".into());
            }
        }
    }
    println!("{seen:#?}");
    let number = |kind: &str| seen.get(kind).copied().unwrap_or(0);
    for kind in ["accept", "reject", "off-schema"] {
        assert!(number(&format!("skip {kind}")) > 300, "{kind}");
        assert!(number(&format!("full {kind}")) > 300, "{kind}");
    }
    for refusal in [7, 8, 10, 11, 12, 17, 18] {
        assert!(number(&format!("skip refused {refusal}")) > 10, "{refusal}");
        assert!(number(&format!("full refused {refusal}")) > 10, "{refusal}");
    }
    for refusal in 1..=5 {
        assert!(number(&format!("rule refused {refusal}")) > 50, "{refusal}");
    }
    assert!(number("looks at some") > 1000);
    assert!(number("skip not foretold") > 50);
}

/// "The looks of skipping are the remaining events, so never more than the
/// events taken"; where full reading ends with a verdict, skipping ends with the
/// same one.
#[test]
fn looks_are_the_events_not_passed_over() {
    let mut rng = Prng::new(2, 0);
    let mut verdicts = 0;
    for _ in 0..many(4000) {
        let (rule, events) = rule_and_events(&mut rng);
        let sets = Book::of(&rule);
        let run = FullRun::new(&rule, &events);
        let levels = events.len() + 1;
        let Report::Ended { verdict, state, .. } = run.predict_full(levels, LARGEST) else {
            continue;
        };
        verdicts += 1;
        let not_passed = run.passed_over(&sets).iter().filter(|&&passed| !passed).count();
        let expected =
            Report::Ended { verdict, state, events: events.len() as u32, looks: not_passed as u32 };
        let skip = report_by(feed, &rule.to_file(), &sets.words(), levels, &events, LARGEST);
        assert_eq!(skip, expected);
    }
    assert!(verdicts > 1000, "{verdicts}");
}

/// Foretelling with few levels and low ceilings.
#[test]
fn few_levels_and_low_ceilings() {
    let mut rng = Prng::new(3, 0);
    for _ in 0..many(4000) {
        let (rule, mut events) = rule_and_events(&mut rng);
        events.truncate(500);
        let levels = rng.pick(&[0, 1, 2, 3, 5, 600]);
        let ceiling = rng.pick(&[0, 1, 2, 5, 20, LARGEST]);
        let file = rule.to_file();
        let sets = Book::of(&rule);
        let run = FullRun::new(&rule, &events);
        let report = |book: &[u64]| report_by(feed, &file, book, levels, &events, ceiling);
        assert_eq!(report(&vec![0; rule.n + 1]), run.predict_full(levels, ceiling));
        if let Some(predicted) = run.predict_skip(&sets, levels, ceiling) {
            assert_eq!(report(&sets.words()), predicted);
        }
    }
}

/// A feed, and what it leaves in the store.
fn fed(feed: Feed, call: &Call) -> (Fed, Vec<Level>) {
    let mut store = call.store.clone();
    let answer =
        feed(&call.rule_file, &call.book, call.reading, &mut store, &call.events, call.ceiling);
    (answer, store)
}

/// Any book, any reading, any store, any ceiling; fed at once by both ways, in
/// parts, and one by one.
#[test]
fn any_call_in_two_ways_and_in_parts() {
    let mut rng = Prng::new(4, 0);
    let mut seen: BTreeMap<u8, u32> = BTreeMap::new();
    for index in 0..many(20_000) {
        let call = random_call(&mut rng);
        let (whole, left) = fed(feed, &call);
        assert_eq!((whole, left.clone()), fed(hedge::feed, &call), "call {index}");
        match whole.outcome {
            Outcome::AllTaken => *seen.entry(0).or_default() += 1,
            Outcome::Refused(refusal) => *seen.entry(refusal.number).or_default() += 1,
        }
        if whole.took == 0 {
            assert_eq!((whole.reading, &left), (call.reading, &call.store));
        }
        assert_eq!(whole.reading.taken as usize, call.reading.taken as usize + whole.took);
        if let Outcome::Refused(refusal) = whole.outcome {
            if ![1, 2, 3, 4, 5, 6, 13].contains(&refusal.number) {
                assert_eq!(refusal.place, whole.reading.taken as u64);
            }
        }

        // Feeding the first m events and then the rest equals feeding all, when
        // the first feed is not refused.
        let m = rng.below(call.events.len() + 1);
        let (first, rest) = call.events.split_at(m);
        let (half, store) = fed(feed, &Call { events: first.to_vec(), ..call.clone() });
        if half.outcome == Outcome::AllTaken {
            let again =
                Call { events: rest.to_vec(), reading: half.reading, store, ..call.clone() };
            let (end, store) = fed(feed, &again);
            assert_eq!(m + end.took, whole.took);
            assert_eq!(
                (end.reading, end.outcome, store),
                (whole.reading, whole.outcome, left.clone())
            );
        }
        if call.events.len() < 60 {
            let mut now = call.reading;
            let mut store = call.store.clone();
            let mut outcome = Outcome::AllTaken;
            for event in &call.events {
                let one =
                    feed(&call.rule_file, &call.book, now, &mut store, &[*event], call.ceiling);
                now = one.reading;
                outcome = one.outcome;
                if outcome != Outcome::AllTaken {
                    break;
                }
            }
            if !call.events.is_empty() {
                assert_eq!((now, outcome, store), (whole.reading, whole.outcome, left.clone()));
            }
        }

        // A reading that a feed has left is one.
        if whole.outcome == Outcome::AllTaken || whole.took > 0 {
            match finish(&call.rule_file, &call.book, whole.reading, &left) {
                End::Verdict(_, state) => {
                    assert_eq!((whole.reading.depth, whole.reading.skip), (0, 0));
                    assert_eq!(state, whole.reading.state);
                }
                End::Refused(refusal) => assert_eq!(refusal.number, 12),
            }
        }
    }
    println!("{seen:?}");
    for number in [0, 1, 3, 4, 6, 7, 8, 9, 10, 11, 13, 16, 17, 18] {
        assert!(seen.get(&number).copied().unwrap_or(0) > 20, "number {number}: {seen:?}");
    }
}

/// All that rounds add to a set, each round all states one move away, and how
/// many rounds add. The lower states are these, or the set so far.
fn in_rounds(
    rule: &Rule,
    start: BTreeSet<usize>,
    lowers: Option<&BTreeSet<usize>>,
) -> (BTreeSet<usize>, usize) {
    let mut found = start;
    for rounds in 0.. {
        let mut next = found.clone();
        for &m in &found {
            next.extend(rule.letter_moves[m].iter().flatten());
            next.extend(lowers.unwrap_or(&found).iter().filter_map(|&low| rule.tree_moves[m][low]));
        }
        if next == found {
            return (found, rounds);
        }
        found = next;
    }
    unreachable!("a set of states cannot grow for ever")
}

/// In rounds the states in which a tree can end and Reach are those that the
/// reader finds otherwise, and the 64th round never adds a state.
#[test]
fn sets_in_rounds() {
    let mut rng = Prng::new(5, 0);
    let mut most = (0, 0);
    let mut check = |rule: &Rule| {
        let (ends, rounds) = in_rounds(rule, rule.tree_start.into_iter().collect(), None);
        assert_eq!(ends, tree_ends(rule));
        most.0 = most.0.max(rounds);
        let walked = reach(rule);
        for q in 0..rule.n {
            let (found, rounds) = in_rounds(rule, BTreeSet::from([q]), Some(&ends));
            assert_eq!(found, walked[q]);
            most.1 = most.1.max(rounds);
        }
        assert!(most.0 < 64 && most.1 < 64);
    };
    for _ in 0..many(300) {
        check(&random_rule(&mut rng));
    }
    // The longest chain, by letters: 63 rounds add a state, the 64th does not.
    let by_letters = Rule {
        n: 64,
        k: 1,
        initial: 0,
        tree_start: Some(0),
        letter_moves: (0..64).map(|q| vec![Some((q + 1).min(63))]).collect(),
        tree_moves: vec![vec![None; 64]; 64],
        classes: vec![Class::Accept; 64],
    };
    check(&by_letters);
    // By trees whose lower state is the newest: the moves of the last wait for all rounds.
    let mut by_trees = Rule { letter_moves: vec![vec![None]; 64], ..by_letters.clone() };
    for q in 0..63 {
        by_trees.tree_moves[q][q] = Some(q + 1);
    }
    by_trees.tree_moves[63][63] = Some(62);
    check(&by_trees);
    assert_eq!(most, (63, 63));
    let mut book = [0; 65];
    let mut still = |rule: &Rule| open(&rule.to_file(), &mut book).map(|opening| opening.still);
    assert_eq!((still(&by_letters), still(&by_trees)), (Ok(1), Ok(0)));
}

/// The book with L2's lower states has at least the bits of the one with any:
/// more is skipped, and nothing less. Often it has more.
#[test]
fn more_is_skipped() {
    let mut rng = Prng::new(7, 0);
    let mut more = 0;
    for _ in 0..many(1000) {
        let rule = random_rule(&mut rng);
        let any = reach_with(&rule, &(0..rule.n).collect());
        let own = reach(&rule);
        for q in 0..rule.n {
            assert!(own[q].is_subset(&any[q]));
        }
        more += (own != any) as u64;
    }
    assert!(more > many(100), "{more}");
}

/// A part that skipping takes at one settled level may be exchanged for any
/// other well-nested run: end state, verdict and looks stay.
#[test]
fn a_passed_over_part_may_be_exchanged() {
    let mut rng = Prng::new(6, 0);
    let mut exchanged = 0;
    for _ in 0..many(4000) {
        let (rule, mut events) = rule_and_events(&mut rng);
        events.truncate(200);
        let file = rule.to_file();
        let book = Book::of(&rule).words();
        let read = |events: &[u16]| report_by(feed, &file, &book, 300, events, LARGEST);
        let Report::Ended { verdict, state, looks, .. } = read(&events) else { continue };

        // A place on a settled level with skip depth zero, and the well-nested
        // part that follows up to a place of the same kind on that level.
        let mut store = vec![Level::default(); 300];
        let start = rng.below(events.len() + 1);
        let first = open(&file, &mut [0; 65]).unwrap().reading;
        let before = feed(&file, &book, first, &mut store, &events[..start], LARGEST);
        let now = before.reading;
        let state_bit = |word: u64| word >> now.state & 1 == 1;
        let upper = now.depth.checked_sub(1).map(|d| store[d as usize].state as usize);
        if now.skip > 0 || !(state_bit(book[0]) || upper.is_some_and(|u| state_bit(book[1 + u]))) {
            continue;
        }
        let mut end = start;
        let mut nesting = 0;
        for (at, event) in events.iter().enumerate().skip(start) {
            match event {
                0 => nesting += 1,
                1 if nesting == 0 => break,
                1 => nesting -= 1,
                _ => {}
            }
            if nesting == 0 {
                end = at + 1;
                if rng.chance(30) {
                    break;
                }
            }
        }
        let length = rng.below(30);
        let other = well_nested(&mut rng, &rule, length);
        let changed = [&events[..start], &other, &events[end..]].concat();
        let expected = Report::Ended { verdict, state, looks, events: changed.len() as u32 };
        assert_eq!(read(&changed), expected);
        exchanged += 1;
    }
    assert!(exchanged > 500, "{exchanged}");
}

/// What the writer lays down the reader reads, and the two refuse alike.
#[test]
fn writer_and_reader() {
    let mut rng = Prng::new(7, 0);
    let mut seen: BTreeMap<u8, u32> = BTreeMap::new();
    for _ in 0..many(5000) {
        let w = random_writing(&mut rng);
        let mut output = vec![0xAB; w.room];
        let answer = write_rule(
            w.n,
            w.initial,
            w.tree_start,
            w.k,
            &w.letter_moves,
            &w.tree_moves,
            &w.classes,
            &mut output,
        );
        // The file to be, laid down without any check.
        let mut file = Vec::new();
        let [low, high] = w.k.to_le_bytes();
        writer::lay_record(&mut file, 1, &[w.n, w.initial, w.tree_start, low, high]);
        writer::lay_record(&mut file, 2, &w.letter_moves);
        writer::lay_record(&mut file, 3, &w.tree_moves);
        writer::lay_record(&mut file, 4, &w.classes);
        match answer {
            Ok(count) => {
                assert_eq!(output[..count], file);
                assert!(output[count..].iter().all(|&byte| byte == 0xAB));
                assert_eq!(Rule::from_file(&file).unwrap().to_file(), file);
            }
            Err(refusal) => {
                *seen.entry(refusal.number).or_default() += 1;
                assert!(output.iter().all(|&byte| byte == 0xAB));
                match refusal.number {
                    14 => {
                        assert_eq!(refusal.place, file.len() as u64);
                        assert!(Rule::from_file(&file).is_ok());
                    }
                    // With the lengths right, the reader finds the same bad number.
                    4 => assert_eq!(Rule::from_file(&file), Err(refusal)),
                    // The reader goes record by record, so it may find a bad number
                    // in a table before the one of wrong length.
                    3 => match Rule::from_file(&file) {
                        Err(found) if found.number == 4 => assert!(found.place < refusal.place),
                        found => assert_eq!(found, Err(refusal)),
                    },
                    other => panic!("number {other}"),
                }
            }
        }
    }
    assert_eq!(seen.keys().copied().collect::<Vec<u8>>(), [3, 4, 14]);
}

/// The same seed and index always give the same input.
#[test]
fn inputs_can_be_made_again() {
    let (first, second) = (Inputs::new(9), Inputs::new(9));
    let far = first.printed() as u64 + 50;
    assert_eq!(first.get(far), second.get(far));
    assert_ne!(first.get(far), Inputs::new(10).get(far));
    assert_eq!(join(&generate::rules::rule_a(), &[]).len(), 47 + 6);
}
