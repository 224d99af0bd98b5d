//! The rules and the streams of events that are measured.

use generate::Prng;
use reader::{Class, Rule};

const SEED: u64 = 20_573;

fn rng() -> Prng {
    Prng::new(SEED, 0)
}

/// A rule with every move there, each to a state by `target`: from a state, and
/// for a tree move with a lower state.
fn rule_by(
    n: usize,
    k: usize,
    tree_start: usize,
    mut target: impl FnMut(usize, Option<usize>) -> usize,
) -> Rule {
    let letter_moves = (0..n).map(|q| (0..k).map(|_| Some(target(q, None))).collect()).collect();
    let tree_moves = (0..n).map(|u| (0..n).map(|p| Some(target(u, Some(p)))).collect()).collect();
    let classes = (0..n).map(|q| [Class::OffSchema, Class::Reject, Class::Accept][q % 3]).collect();
    Rule { n, k, initial: 0, tree_start: Some(tree_start), letter_moves, tree_moves, classes }
}

/// Any state to any state.
pub fn mixing(n: usize, k: usize) -> Rule {
    let mut rng = rng();
    rule_by(n, k, 1 % n, |_, _| rng.below(n))
}

/// A letter leads from each state to the next, so that Reach and the set of the
/// tree start, state 0, are as long as they can be and every round of opening
/// but the last adds a state.
pub fn chain(n: usize, k: usize) -> Rule {
    let mut rng = rng();
    rule_by(n, k, 0, |q, lower| match lower {
        None => (q + 1).min(n - 1),
        Some(_) => rng.below(q + 1),
    })
}

/// The first letter leads to a state that is still; the insides of trees mix the
/// other states. So full reading has work to do where skipping has none.
pub fn settling(n: usize, k: usize) -> Rule {
    let mut rng = rng();
    let mut rule = rule_by(n, k, 2, |q, _| if q == 1 { 1 } else { rng.between(2, n - 1) });
    rule.letter_moves[0] = vec![Some(1); k];
    rule
}

fn letter(rng: &mut Prng, k: usize) -> u16 {
    2 + rng.below(k) as u16
}

/// A walk of so many events, well nested, whose depth stays between two bounds
/// once it has got there; of a hundred events so many open, and as many close.
fn walk(k: usize, count: usize, low: usize, high: usize, opens: usize) -> Vec<u16> {
    let mut rng = rng();
    let mut events = Vec::with_capacity(count);
    let mut depth = 0;
    while events.len() < count {
        let left = count - events.len();
        let turn = rng.below(100);
        let event = if depth >= left {
            1
        } else if depth + 2 > left {
            letter(&mut rng, k)
        } else if depth < low || (turn < opens && depth < high) {
            0
        } else if turn >= opens && turn < 2 * opens && depth > low {
            1
        } else {
            letter(&mut rng, k)
        };
        match event {
            0 => depth += 1,
            1 => depth -= 1,
            _ => {}
        }
        events.push(event);
    }
    events
}

/// Trees of eight letters, one after the other, in one tree around them.
pub fn rows(k: usize, count: usize) -> Vec<u16> {
    let mut rng = rng();
    let mut events = vec![0];
    while events.len() + 11 <= count {
        events.push(0);
        events.extend((0..8).map(|_| letter(&mut rng, k)));
        events.push(1);
    }
    events.push(1);
    events.resize(count, 2);
    events
}

/// Trees within trees, to a depth of 60.
pub fn mixed(k: usize, count: usize) -> Vec<u16> {
    walk(k, count, 0, 60, 25)
}

/// Letters alone.
pub fn letters(k: usize, count: usize) -> Vec<u16> {
    walk(k, count, 0, 0, 0)
}

/// The deepest level of a deep part.
pub const DEEPEST: usize = 2000;

/// A letter, and then a part that goes down a thousand levels and stays between
/// there and [`DEEPEST`] until its end.
pub fn deep(k: usize, count: usize) -> Vec<u16> {
    settled(walk(k, count - 1, 1000, DEEPEST, 25))
}

/// A letter, and then small trees of one, two or three levels.
pub fn bushy(k: usize, count: usize) -> Vec<u16> {
    settled(walk(k, count - 1, 0, 3, 30))
}

/// A letter before a part.
pub fn settled(part: Vec<u16>) -> Vec<u16> {
    [vec![2], part].concat()
}
