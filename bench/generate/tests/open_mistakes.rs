//! The generated arguments of opening find the mistakes that are easy to make.
//!
//! Opening once more, with a mistake built in on demand: without one it must agree
//! on every call, with one the random calls have to show it, in the answer or in
//! the book.

use generate::damage::damaged;
use generate::rules::random_rule;
use generate::Prng;
use reader::{open, Book, Opening, Reading, Refusal, Rule};

#[derive(Clone, Copy, Debug, PartialEq)]
enum Mistake {
    Nothing,
    BookForgotten,
    StateZero,
    TreeStartForTheInitialState,
    StillCountOfTheFirstHoldWord,
    StatesThatAreNotStillCounted,
    BookFilledThoughRefused,
    WordsPastTheBookCleared,
    BookOfNWordsIsEnough,
    BookBeforeTheRule,
    EventsTakenAtTheStart,
}

use Mistake::*;

const ALL: [Mistake; 10] = [
    BookForgotten,
    StateZero,
    TreeStartForTheInitialState,
    StillCountOfTheFirstHoldWord,
    StatesThatAreNotStillCounted,
    BookFilledThoughRefused,
    WordsPastTheBookCleared,
    BookOfNWordsIsEnough,
    BookBeforeTheRule,
    EventsTakenAtTheStart,
];

fn mistaken(mistake: Mistake, file: &[u8], book: &mut [u64]) -> Result<Opening, Refusal> {
    let short = Refusal::new(6, 0);
    if mistake == BookBeforeTheRule && book.len() < 2 {
        return Err(short);
    }
    let rule = Rule::from_file(file)?;
    let words = Book::of(&rule).words();
    let enough = if mistake == BookOfNWordsIsEnough { rule.n } else { rule.n + 1 };
    let refused = book.len() < enough;
    if mistake == BookFilledThoughRefused || !refused && mistake != BookForgotten {
        book.iter_mut().zip(&words).for_each(|(place, &word)| *place = word);
    }
    if refused {
        return Err(short);
    }
    if mistake == WordsPastTheBookCleared {
        book.iter_mut().skip(rule.n + 1).for_each(|place| *place = 0);
    }
    let state = match mistake {
        StateZero => 0,
        TreeStartForTheInitialState => rule.tree_start.unwrap_or(rule.initial),
        _ => rule.initial,
    };
    let still = match mistake {
        StillCountOfTheFirstHoldWord => words[1].count_ones(),
        StatesThatAreNotStillCounted => rule.n as u32 - words[0].count_ones(),
        _ => words[0].count_ones(),
    };
    let taken = (mistake == EventsTakenAtTheStart) as u32;
    let reading = Reading { state: state as u8, depth: 0, skip: 0, taken, looks: 0 };
    Ok(Opening { reading, still })
}

/// The first index whose arguments show the mistake.
fn shown(mistake: Mistake) -> Option<u64> {
    (0..2000).find(|&index| {
        let mut rng = Prng::new(11, index);
        let rule = random_rule(&mut rng);
        let good = rule.to_file();
        let file = if rng.chance(20) { damaged(&mut rng, &good) } else { good };
        let length =
            rng.weighted(&[(60, rule.n + 1), (10, rule.n), (10, rule.n + 4), (10, 66), (10, 1)]);
        let lent: Vec<u64> = (0..length).map(|_| rng.word()).collect();
        let (mut right, mut wrong) = (lent.clone(), lent);
        let expected = open(&file, &mut right);
        (expected, right) != (mistaken(mistake, &file, &mut wrong), wrong)
    })
}

#[test]
fn without_a_mistake_nothing_shows() {
    assert_eq!(shown(Nothing), None);
}

#[test]
fn every_mistake_shows() {
    for mistake in ALL {
        assert!(shown(mistake).is_some(), "{mistake:?}");
    }
}
