//! The calls around feeding: opening, the end, the whole document.

use crate::book::Book;
use crate::hedge::feed;
use crate::numbers::{self, Refusal};
use crate::reading::{admit, End, Fed, Level, Outcome, Reading, Report};
use crate::rule::Rule;

/// A way of feeding: [`crate::hedge::feed`] is one, [`crate::stream::feed`] the
/// other.
pub type Feed = fn(&[u8], &[u64], Reading, &mut [Level], &[u16], u32) -> Fed;

/// What opening gives: a reading with the initial state and four zeros, and how
/// many states are still.
#[derive(Clone, Copy, Debug, PartialEq, Eq)]
pub struct Opening {
    pub reading: Reading,
    pub still: u32,
}

/// Opening: fills the book. In turn: rule, 6, 15 (never given, see
/// [`numbers::ROUNDS`]). Words past n+1 stay; a refused call leaves the book
/// untouched.
pub fn open(rule_file: &[u8], book: &mut [u64]) -> Result<Opening, Refusal> {
    let rule = Rule::from_file(rule_file)?;
    if book.len() < rule.n + 1 {
        return Err(Refusal::new(numbers::BOOK_SHORT, 0));
    }
    let sets = Book::of(&rule);
    book.iter_mut().zip(sets.words()).for_each(|(place, word)| *place = word);
    let reading = Reading { state: rule.initial as u8, depth: 0, skip: 0, taken: 0, looks: 0 };
    Ok(Opening { reading, still: sets.still.len() as u32 })
}

/// Finishing: rule, 6, 13, then 12; at the end the class of the state is the
/// verdict.
pub fn finish(rule_file: &[u8], book: &[u64], reading: Reading, store: &[Level]) -> End {
    let rule = match admit(rule_file, book, &reading, store) {
        Ok(rule) => rule,
        Err(refusal) => return End::Refused(refusal),
    };
    if reading.depth > 0 || reading.skip > 0 {
        let place = match store[..reading.depth as usize].last() {
            Some(innermost) => innermost.place,
            None => reading.taken,
        };
        return End::Refused(Refusal::new(numbers::OPEN_AT_FINISH, place as u64));
    }
    End::Verdict(rule.classes[reading.state as usize], reading.state)
}

/// The whole-document call: opens, feeds and finishes with ceiling 4,294,967,295;
/// it answers as those calls in turn and leaves what they leave.
pub fn whole(rule_file: &[u8], book: &mut [u64], store: &mut [Level], events: &[u16]) -> End {
    let reading = match open(rule_file, book) {
        Ok(opening) => opening.reading,
        Err(refusal) => return End::Refused(refusal),
    };
    let fed = feed(rule_file, book, reading, store, events, u32::MAX);
    match fed.outcome {
        Outcome::Refused(refusal) => End::Refused(refusal),
        Outcome::AllTaken => finish(rule_file, book, fed.reading, store),
    }
}

/// A reading fed by `feed` and finished, with a level store of `levels` records of
/// its own.
pub fn report_from(
    reading: Reading,
    feed: Feed,
    rule_file: &[u8],
    book: &[u64],
    levels: usize,
    events: &[u16],
    ceiling: u32,
) -> Report {
    let mut store = vec![Level::default(); levels];
    let fed = feed(rule_file, book, reading, &mut store, events, ceiling);
    if let Outcome::Refused(refusal) = fed.outcome {
        return Report::Refused(refusal);
    }
    match finish(rule_file, book, fed.reading, &store) {
        End::Refused(refusal) => Report::Refused(refusal),
        End::Verdict(verdict, state) => {
            Report::Ended { verdict, state, events: fed.reading.taken, looks: fed.reading.looks }
        }
    }
}

/// The same from the reading that opening gives, with any book.
pub fn report_by(
    feed: Feed,
    rule_file: &[u8],
    book: &[u64],
    levels: usize,
    events: &[u16],
    ceiling: u32,
) -> Report {
    match open(rule_file, &mut [0; Rule::MOST_STATES + 1]) {
        Ok(opening) => report_from(opening.reading, feed, rule_file, book, levels, events, ceiling),
        Err(refusal) => Report::Refused(refusal),
    }
}
