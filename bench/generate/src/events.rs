//! Random streams of events for a rule.

use crate::prng::Prng;
use reader::{Book, Rule};

/// What a stream tries not to be refused by.
#[derive(Clone, Copy)]
enum Steer {
    /// Any event, whatever the rule has for it.
    Not,
    /// Events for which full reading has a move.
    Full,
    /// Events for which skipping has a move or needs none.
    Skip,
}

/// A stream under way, and the reading it is steered by.
struct Walk<'a> {
    rule: &'a Rule,
    book: &'a Book,
    steer: Steer,
    events: Vec<u16>,
    /// The states above the levels of the reading.
    above: Vec<usize>,
    state: usize,
    /// Levels opened below a settled one.
    skipped: usize,
    /// The reading has found no move; from there on nothing is steered.
    lost: bool,
}

impl Walk<'_> {
    fn nesting(&self) -> usize {
        self.above.len() + self.skipped
    }

    fn settled(&self) -> bool {
        let held = self.above.last().is_some_and(|&u| self.book.hold[u].contains(&self.state));
        matches!(self.steer, Steer::Skip) && (held || self.book.still.contains(&self.state))
    }

    /// The move for the event, if the reading needs one: `None` if it needs none.
    fn sought(&self, event: u16) -> Option<Option<usize>> {
        match event {
            _ if self.skipped > 0 => None,
            1 => {
                let &u = self.above.last()?;
                if self.settled() && self.book.hold[u].contains(&self.state) {
                    return None;
                }
                Some(self.rule.tree_moves[u][self.state])
            }
            _ if self.settled() => None,
            0 => Some(self.rule.tree_start),
            _ => Some(self.rule.letter_moves[self.state][event as usize - 2]),
        }
    }

    /// Whether the event suits the steering.
    fn suits(&self, event: u16) -> bool {
        self.lost || matches!(self.steer, Steer::Not) || self.sought(event) != Some(None)
    }

    fn go(&mut self, event: u16) {
        self.events.push(event);
        let sought = self.sought(event);
        let skip_level = self.skipped > 0 || (event != 1 && self.settled());
        match event {
            0 if skip_level => self.skipped += 1,
            0 => self.above.push(self.state),
            1 if skip_level => self.skipped -= 1,
            1 => {
                let u = self.above.pop().expect("a level is open");
                if sought.is_none() {
                    self.state = u;
                }
            }
            _ => {}
        }
        match sought {
            Some(Some(target)) => self.state = target,
            Some(None) => self.lost = true,
            None => {}
        }
    }

    fn letter(&self, rng: &mut Prng) -> u16 {
        2 + rng.below(self.rule.k) as u16
    }

    /// One of a few tries that suits, or the last try.
    fn try_some(&mut self, rng: &mut Prng, mut choose: impl FnMut(&mut Prng, &Self) -> u16) {
        let mut event = choose(rng, self);
        for _ in 0..8 {
            if self.suits(event) {
                break;
            }
            event = choose(rng, self);
        }
        self.go(event);
    }

    /// Closes a level; a letter or two come first if the close would not suit.
    fn close(&mut self, rng: &mut Prng) {
        for _ in 0..4 {
            if self.suits(1) {
                break;
            }
            let letter = self.letter(rng);
            if self.suits(letter) {
                self.go(letter);
            }
        }
        self.go(1);
    }
}

fn length(rng: &mut Prng) -> usize {
    let (low, high) = rng.weighted(&[
        (500, (0, 12)),
        (350, (13, 80)),
        (125, (81, 1000)),
        (22, (1001, 6000)),
        (2, (20_000, 40_000)),
        (1, (60_000, 120_000)),
    ]);
    rng.between(low, high)
}

/// Whether opens alone lead skipping down any number of levels, all stored.
fn goes_deep(rule: &Rule, book: &Book) -> bool {
    let Some(start) = rule.tree_start else { return false };
    let loose = |q: usize| !book.still.contains(&q);
    let unheld = |u: usize| !book.hold[u].contains(&start);
    loose(rule.initial) && loose(start) && unheld(rule.initial) && unheld(start)
}

/// A stream of events: flat, bushy or deep, short or long, mostly well nested.
pub fn random_events(rng: &mut Prng, rule: &Rule, book: &Book) -> Vec<u16> {
    let steer = rng.weighted(&[(10, Steer::Not), (60, Steer::Full), (30, Steer::Skip)]);
    let mut walk = Walk {
        rule,
        book,
        steer,
        events: Vec::new(),
        above: Vec::new(),
        state: rule.initial,
        skipped: 0,
        lost: false,
    };
    let length = length(rng);
    // Of a hundred events so many open and close; the rest are letters.
    let (opens, closes, deepest) = rng.pick(&[
        (5, 5, 3),
        (25, 25, 3),
        (30, 30, 8),
        (45, 40, 40),
        (40, 10, 60),
        (35, 5, 2000),
        (10, 20, 5),
    ]);
    // Deep first, now and then: about as many levels as the check program has.
    if rng.chance(if goes_deep(rule, book) { 6 } else { 1 }) {
        let letters = rng.pick(&[0, 0, 10]);
        for _ in 0..rng.pick(&[30, 1000, 1023, 1024, 1025, 1100]) {
            walk.try_some(rng, |rng, walk| if rng.chance(letters) { walk.letter(rng) } else { 0 });
        }
    }
    while walk.events.len() < length {
        walk.try_some(rng, |rng, walk| {
            let turn = rng.below(100);
            if turn < opens && walk.nesting() < deepest {
                0
            } else if turn < opens + closes && walk.nesting() > 0 {
                1
            } else {
                walk.letter(rng)
            }
        });
    }
    if rng.chance(88) {
        while walk.nesting() > 0 {
            walk.close(rng);
        }
        while rng.chance(40) {
            walk.try_some(rng, |rng, walk| walk.letter(rng));
        }
    }
    let mut events = walk.events;
    if rng.chance(22) {
        damage(rng, rule, &mut events);
    }
    events
}

/// Damages a stream: unmatched closes, unknown letters, truncation and the like.
pub fn damage(rng: &mut Prng, rule: &Rule, events: &mut Vec<u16>) {
    let at = rng.below(events.len() + 1);
    let k = rule.k as u16;
    let unknown = rng.pick(&[k + 2, k + 2, k + 3, 258, 512, 32_768, 65_535]).max(k + 2);
    match rng.below(9) {
        0 => events.insert(at, 1),
        1 => events.push(1),
        2 => events.insert(at, unknown),
        3 => events.push(unknown),
        4 => events.truncate(at),
        5 => events.insert(at, 0),
        6 if at < events.len() => {
            events.remove(at);
        }
        7 if at < events.len() => events[at] = rng.below(rule.k + 3) as u16,
        _ => {
            let part: Vec<u16> = events[..at].to_vec();
            events.extend(part);
        }
    }
}

/// A well-nested run of events, with no regard for moves.
pub fn well_nested(rng: &mut Prng, rule: &Rule, length: usize) -> Vec<u16> {
    let mut events = Vec::new();
    let mut open = 0;
    for _ in 0..length {
        match rng.below(4) {
            0 => {
                events.push(0);
                open += 1;
            }
            1 if open > 0 => {
                events.push(1);
                open -= 1;
            }
            _ => events.push(2 + rng.below(rule.k) as u16),
        }
    }
    events.extend(vec![1; open]);
    events
}
