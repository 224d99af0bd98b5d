//! Full reading as a table over the places, and skipping predicted from it.
//!
//! No stack is kept: for each place the table holds the state just before the
//! event there and the open of the level that event stands on. The levels
//! outside are found by following the opens outwards. From this table "passed
//! over" is marked by its definition, and the marks alone foretell what skipping
//! with the rule's own book will answer.

use crate::book::Book;
use crate::numbers::{self, Refusal};
use crate::reading::{Report, CLOSE, FIRST_LETTER, OPEN};
use crate::rule::Rule;

/// A full reading from the first event, without want of levels or looks.
pub struct FullRun<'a> {
    rule: &'a Rule,
    events: &'a [u16],
    /// The state just before the event at each place, and after the last.
    before: Vec<usize>,
    /// The place of the open of the level which the event at each place stands
    /// on; none on the top. (A close stands on the level it ends.)
    on: Vec<Option<usize>>,
    /// What ends it early, at the last place of the table.
    stop: Option<Stop>,
}

/// What ends a full reading that wants neither levels nor looks.
#[derive(Clone, Copy, PartialEq)]
enum Stop {
    /// An event that no reading takes, passed over or not: 10 or 7.
    Never(u8),
    /// A move that is not there.
    NoMove,
}

/// The number of a missing move, by the event that wants it.
fn missing(event: u16) -> u8 {
    match event {
        OPEN => numbers::NO_TREE_START,
        CLOSE => numbers::NO_TREE_MOVE,
        _ => numbers::NO_LETTER_MOVE,
    }
}

impl<'a> FullRun<'a> {
    pub fn new(rule: &'a Rule, events: &'a [u16]) -> FullRun<'a> {
        let mut before = vec![rule.initial];
        let mut on: Vec<Option<usize>> = vec![None];
        let mut stop = None;
        for (place, &event) in events.iter().enumerate() {
            let state = before[place];
            let level = on[place];
            let (target, next_level) = match (event, level) {
                (OPEN, _) => (rule.tree_start, Some(place)),
                (CLOSE, Some(open)) => (rule.tree_moves[before[open]][state], on[open]),
                (CLOSE, None) => {
                    stop = Some(Stop::Never(numbers::CLOSE_AT_TOP));
                    break;
                }
                _ if event as usize >= rule.k + 2 => {
                    stop = Some(Stop::Never(numbers::UNKNOWN_EVENT));
                    break;
                }
                _ => (rule.letter_moves[state][(event - FIRST_LETTER) as usize], level),
            };
            let Some(target) = target else {
                stop = Some(Stop::NoMove);
                break;
            };
            before.push(target);
            on.push(next_level);
        }
        FullRun { rule, events, before, on, stop }
    }

    /// Whether the events were all taken.
    pub fn all_taken(&self) -> bool {
        self.stop.is_none()
    }

    /// Whether the level which the event at `place` stands on is settled, just
    /// before that event: by still, by hold.
    fn settled_by(&self, book: &Book, place: usize) -> (bool, bool) {
        let state = self.before[place];
        let by_still = book.still.contains(&state);
        let by_hold = match self.on[place] {
            Some(open) => book.hold[self.before[open]].contains(&state),
            None => false,
        };
        (by_still, by_hold)
    }

    /// Which events are passed over: if, just before it, the level it stands on
    /// or any level outside it (top included) is settled. One exception: a close
    /// of a level settled only by still, with nothing outside settled, is not
    /// passed over.
    ///
    /// Marked are the events taken and the one that stops the reading.
    pub fn passed_over(&self, book: &Book) -> Vec<bool> {
        let mut passed = Vec::new();
        // For each place: whether a level outside the one it stands on is settled,
        // and whether that one itself is.
        let mut outside: Vec<bool> = Vec::new();
        let mut here: Vec<bool> = Vec::new();
        for place in 0..self.before.len() {
            let (by_still, by_hold) = self.settled_by(book, place);
            let nothing_outside = match self.on[place] {
                Some(open) => !here[open] && !outside[open],
                None => true,
            };
            here.push(by_still || by_hold);
            outside.push(!nothing_outside);
            if place < self.events.len() {
                let exception =
                    self.events[place] == CLOSE && by_still && !by_hold && nothing_outside;
                passed.push((here[place] || outside[place]) && !exception);
            }
        }
        passed
    }

    /// What full reading answers with `levels` levels and this ceiling.
    pub fn predict_full(&self, levels: usize, ceiling: u32) -> Report {
        let every_event = vec![true; self.before.len()];
        self.predict(&every_event, levels, ceiling).expect("every event of full reading looks")
    }

    /// What skipping with the rule's own book answers, as far as it follows from the
    /// full reading: unknown (`None`) once full reading finds no move at an event
    /// passed over, unless skipping is refused before.
    pub fn predict_skip(&self, book: &Book, levels: usize, ceiling: u32) -> Option<Report> {
        let looks: Vec<bool> = self.passed_over(book).iter().map(|passed| !passed).collect();
        self.predict(&looks, levels, ceiling)
    }

    /// The answer when the events marked in `looked_at` are the looks and the
    /// others change nothing but the count of events.
    fn predict(&self, looked_at: &[bool], levels: usize, ceiling: u32) -> Option<Report> {
        let refused = |number, place| Some(Report::Refused(Refusal::new(number, place as u64)));
        // For each place: how many of the levels open there are stored, and the
        // open of the innermost of them.
        let mut stored: Vec<usize> = Vec::new();
        let mut innermost: Vec<Option<usize>> = Vec::new();
        let mut looks = 0;
        for place in 0..self.before.len() {
            let (count, record) = match self.on[place] {
                None => (0, None),
                Some(open) if looked_at[open] => (stored[open] + 1, Some(open)),
                Some(open) => (stored[open], innermost[open]),
            };
            stored.push(count);
            innermost.push(record);

            let last = place + 1 == self.before.len();
            match self.stop {
                None if last => break,
                Some(Stop::Never(number)) if last => return refused(number, place),
                _ => {}
            }
            if !looked_at[place] {
                if last {
                    return None;
                }
                continue;
            }
            if self.events[place] == OPEN && count >= levels {
                return refused(numbers::STORE_FULL, place);
            }
            if looks >= ceiling {
                return refused(numbers::CEILING, place);
            }
            if last {
                return refused(missing(self.events[place]), place);
            }
            looks += 1;
        }

        let end = self.events.len();
        if self.on[end].is_some() {
            return refused(numbers::OPEN_AT_FINISH, innermost[end].unwrap_or(end));
        }
        let state = self.before[end];
        Some(Report::Ended {
            verdict: self.rule.classes[state],
            state: state as u8,
            events: end as u32,
            looks,
        })
    }
}
