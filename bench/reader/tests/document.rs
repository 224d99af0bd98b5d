//! The cases printed in document 01.

mod common;

use common::{input, rule_b, rule_c, RULE_A};
use reader::calls::report_by;
use reader::check::check_program_by;
use reader::positions::FullRun;
use reader::stream::feed;
use reader::*;

const LARGEST: u32 = u32::MAX;

fn book_of(rule_file: &[u8]) -> Vec<u64> {
    Book::of(&Rule::from_file(rule_file).unwrap()).words()
}

/// Both ways of skipping with the rule's own book; they must agree.
fn skip(rule_file: &[u8], levels: usize, ceiling: u32, events: &[u16]) -> String {
    let book = book_of(rule_file);
    let streamed = report_by(feed, rule_file, &book, levels, events, ceiling);
    let by_hedge = report_by(hedge::feed, rule_file, &book, levels, events, ceiling);
    assert_eq!(streamed, by_hedge);
    let rule = Rule::from_file(rule_file).unwrap();
    if let Some(predicted) =
        FullRun::new(&rule, events).predict_skip(&Book::of(&rule), levels, ceiling)
    {
        assert_eq!(streamed, predicted);
    }
    streamed.to_string()
}

fn full(rule_file: &[u8], levels: usize, ceiling: u32, events: &[u16]) -> String {
    let zeros = [0; 65];
    let streamed = report_by(feed, rule_file, &zeros, levels, events, ceiling);
    let by_hedge = report_by(hedge::feed, rule_file, &zeros, levels, events, ceiling);
    assert_eq!(streamed, by_hedge);
    let rule = Rule::from_file(rule_file).unwrap();
    assert_eq!(streamed, FullRun::new(&rule, events).predict_full(levels, ceiling));
    streamed.to_string()
}

fn case(rule_file: &[u8], events: &[u16], skipping: &str, reading_fully: &str) {
    assert_eq!(skip(rule_file, 1024, LARGEST, events), skipping, "skip {events:?}");
    assert_eq!(full(rule_file, 1024, LARGEST, events), reading_fully, "full {events:?}");
    let lines = format!("skip {skipping}\nfull {reading_fully}\n");
    let input = input(rule_file, events);
    assert_eq!(check_program(&input), lines);
    assert_eq!(check_program_by(feed, &input), lines);
}

#[test]
fn rule_a_is_read_and_written() {
    let rule = Rule::from_file(&RULE_A).unwrap();
    assert_eq!((rule.n, rule.k, rule.initial, rule.tree_start), (3, 2, 0, Some(0)));
    assert_eq!(rule.letter_moves[2], [Some(2), None]);
    assert_eq!(rule.tree_moves[0], [Some(0), Some(2), Some(0)]);
    assert_eq!(rule.classes, [Class::Reject, Class::OffSchema, Class::Accept]);
    assert_eq!(rule.to_file(), RULE_A);
}

/// The tree move of 0 waits for lower state 1, which a letter brings, and that of 1
/// for lower state 2, which that tree move brings.
fn met_later() -> Rule {
    let mut tree_moves = vec![vec![None; 3]; 3];
    tree_moves[0][1] = Some(2);
    tree_moves[1][2] = Some(0);
    Rule {
        n: 3,
        k: 1,
        initial: 0,
        tree_start: Some(0),
        letter_moves: vec![vec![Some(1)], vec![None], vec![None]],
        tree_moves,
        classes: vec![Class::Accept; 3],
    }
}

#[test]
fn states_in_which_a_tree_can_end() {
    let ends = |rule: &Rule| book::tree_ends(rule).into_iter().collect::<Vec<_>>();
    assert_eq!(ends(&Rule::from_file(&RULE_A).unwrap()), [0, 1, 2]);
    assert_eq!(ends(&rule_b()), [1, 2]);
    assert_eq!(ends(&rule_c()), []);
    assert_eq!(ends(&met_later()), [0, 1, 2]);
}

#[test]
fn books() {
    assert_eq!(book_of(&RULE_A), [6, 4, 7, 7]);
    assert_eq!(book_of(&rule_b().to_file()), [4, 7, 7, 7]);
    assert_eq!(book_of(&rule_c().to_file()), [4, 0, 7, 7]);
    // L2: with no tree start no tree move counts in Reach; in hold's own question they do.
    let no_start = [
        5, 0, 0, 0, 1, 0, 2, 0, 255, 1, 0, 2, 0, 0, 0, 2, 0, 0, 1, 4, 0, 0, 0, 3, 0, 1, 0, 0, 1, 2,
        0, 0, 0, 4, 0, 1, 2,
    ];
    assert_eq!(book_of(&no_start), [3, 2, 2]);
    assert_eq!(book_of(&met_later().to_file()), [4, 4, 0, 7]);
    let mut book = [99; 6];
    let reading = Reading { state: 0, depth: 0, skip: 0, taken: 0, looks: 0 };
    assert_eq!(open(&RULE_A, &mut book), Ok(Opening { reading, still: 2 }));
    assert_eq!(book, [6, 4, 7, 7, 99, 99]);
    let mut short = [99; 3];
    assert_eq!(open(&RULE_A, &mut short), Err(Refusal::new(6, 0)));
    assert_eq!(short, [99; 3]);
    assert_eq!(open(&RULE_A[..46], &mut short), Err(Refusal::new(1, 46)));
    assert_eq!(short, [99; 3]);
    // The initial state is the rule's own, and the book does not depend on it.
    let mut another = RULE_A;
    another[7] = 1;
    let first = open(&another, &mut book).map(|opening| opening.reading.state);
    assert_eq!((first, book), (Ok(1), [6, 4, 7, 7, 99, 99]));
}

#[test]
fn cases_a() {
    case(&RULE_A, &[], "reject 0 0 0", "reject 0 0 0");
    case(&RULE_A, &[0, 3, 1], "accept 2 3 3", "accept 2 3 3");
    case(&RULE_A, &[0, 3, 2, 2, 1, 2], "accept 2 6 3", "accept 2 6 6");
    case(&RULE_A, &[0, 3, 1, 3], "accept 2 4 3", "refused 11 3");
    case(&RULE_A, &[3, 0, 2, 1], "off-schema 1 4 1", "off-schema 1 4 4");
    case(&RULE_A, &[0, 0, 3, 1, 1], "reject 0 5 4", "reject 0 5 5");
}

#[test]
fn cases_b() {
    let rule_b = rule_b().to_file();
    case(&rule_b, &[0, 2, 1], "accept 0 3 1", "accept 0 3 3");
    case(&rule_b, &[0, 1], "accept 0 2 1", "refused 18 1");
}

/// A missing move says which: 11 letter move, 17 tree start, 18 tree move.
#[test]
fn which_move_is_missing() {
    // No tree start: at the open, and not on a level that is settled.
    let rule_c = rule_c().to_file();
    case(&rule_c, &[0], "refused 17 0", "refused 17 0");
    case(&rule_c, &[2, 0, 1], "refused 17 1", "refused 17 1");
    case(&rule_c, &[2, 2, 0, 1], "accept 2 4 2", "refused 17 2");
    // No tree move: at the close, and not where it is held.
    let rule_b = rule_b().to_file();
    case(&rule_b, &[2, 0, 1], "reject 2 3 1", "refused 18 2");
    // The letter moves of rule A.
    case(&RULE_A, &[0, 3, 1, 3], "accept 2 4 3", "refused 11 3");
}

#[test]
fn refusals_of_rule_a() {
    assert_eq!(skip(&RULE_A, 1024, LARGEST, &[1]), "refused 7 0");
    assert_eq!(skip(&RULE_A, 1024, LARGEST, &[0, 3, 1, 1]), "refused 7 3");
    assert_eq!(skip(&RULE_A, 1024, LARGEST, &[3, 4]), "refused 10 1");
    let a6 = [0, 0, 3, 1, 1];
    assert_eq!(skip(&RULE_A, 1, LARGEST, &a6), "refused 8 1");
    assert_eq!(skip(&RULE_A, 2, LARGEST, &a6), "reject 0 5 4");
    let a2 = [0, 3, 1];
    assert_eq!(skip(&RULE_A, 1024, 2, &a2), "refused 9 2");
    assert_eq!(skip(&RULE_A, 1024, 3, &a2), "accept 2 3 3");
    assert_eq!(skip(&RULE_A, 1024, LARGEST, &[0]), "refused 12 0");
    assert_eq!(skip(&RULE_A, 1024, LARGEST, &[3, 0]), "refused 12 2");
}

#[test]
fn the_printed_example() {
    let mut input = RULE_A.to_vec();
    input.extend([0x0C, 0, 0, 0, 5, 0]);
    input.extend([0, 0, 3, 0, 2, 0, 2, 0, 1, 0, 2, 0]);
    assert_eq!(check_program(&input), "skip accept 2 6 3\nfull accept 2 6 6\n");
}

#[test]
fn the_longest_file() {
    let rule = Rule {
        n: 64,
        k: 256,
        initial: 63,
        tree_start: None,
        letter_moves: vec![vec![Some(63); 256]; 64],
        tree_moves: vec![vec![None; 64]; 64],
        classes: vec![Class::OffSchema; 64],
    };
    let file = rule.to_file();
    assert_eq!(file.len(), Rule::LONGEST_FILE);
    assert_eq!(Rule::from_file(&file), Ok(rule));
}

#[test]
fn the_whole_document_call() {
    let mut book = [99; 5];
    let mut store = [Level { state: 77, place: 7 }; 3];
    let end = whole(&RULE_A, &mut book, &mut store, &[0, 3, 2, 2, 1, 2]);
    assert_eq!(end, End::Verdict(Class::Accept, 2));
    assert_eq!(book, [6, 4, 7, 7, 99]);
    // Only the open that was stored has written, and it is not cleared.
    assert_eq!(store[0], Level { state: 0, place: 0 });
    assert_eq!(store[1..], [Level { state: 77, place: 7 }; 2]);

    let end = whole(&RULE_A, &mut book[..3], &mut store, &[0]);
    assert_eq!(end, End::Refused(Refusal::new(6, 0)));
    let end = whole(&RULE_A, &mut book, &mut store, &[2, 0]);
    assert_eq!(end, End::Refused(Refusal::new(12, 1)));
    let end = whole(&RULE_A, &mut book, &mut store[..0], &[2, 0]);
    assert_eq!(end, End::Refused(Refusal::new(8, 1)));
    let end = whole(&RULE_A[..46], &mut book, &mut store, &[2, 0]);
    assert_eq!(end, End::Refused(Refusal::new(1, 46)));
    let end = whole(&rule_c().to_file(), &mut book, &mut store, &[2, 0]);
    assert_eq!(end, End::Refused(Refusal::new(17, 1)));
}
