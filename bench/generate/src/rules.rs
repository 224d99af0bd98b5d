//! Random rules, and the small rules of document 01.

use crate::prng::Prng;
use reader::{Class, Rule};

const CLASSES: [Class; 3] = [Class::OffSchema, Class::Reject, Class::Accept];

fn states(rng: &mut Prng) -> usize {
    let (low, high) =
        rng.weighted(&[(5, (1, 1)), (45, (2, 4)), (32, (5, 10)), (14, (11, 63)), (4, (64, 64))]);
    rng.between(low, high)
}

fn letters(rng: &mut Prng) -> usize {
    let (low, high) =
        rng.weighted(&[(15, (1, 1)), (52, (2, 4)), (25, (5, 20)), (6, (21, 255)), (2, (256, 256))]);
    rng.between(low, high)
}

/// How the moves of a rule are chosen.
#[derive(Clone, Copy)]
enum Style {
    /// Any state.
    Plain,
    /// Some states can be left by no move.
    Sinks,
    /// Moves lead to the same state or a higher one.
    Ordered,
    /// Most tree moves keep the upper state.
    Keeping,
    /// Letters lead from each state to the next, so Reach is long.
    Chain,
    /// Two halves, the lower one for the insides of trees: many states of the
    /// inside hold the states outside.
    Halves,
}

/// A rule of random size, density of none, and manner of moves.
pub fn random_rule(rng: &mut Prng) -> Rule {
    let n = states(rng);
    let k = letters(rng);
    let style = rng.weighted(&[
        (15, Style::Plain),
        (25, Style::Sinks),
        (20, Style::Ordered),
        (20, Style::Keeping),
        (5, Style::Chain),
        (15, Style::Halves),
    ]);
    let none = rng.pick(&[0, 0, 0, 2, 5, 15, 40, 90]);
    let mut rule =
        match style {
            Style::Plain => by(rng, n, k, none, |rng, _, _| rng.below(n)),
            Style::Ordered => {
                let stay = rng.pick(&[20, 60, 90]);
                by(
                    rng,
                    n,
                    k,
                    none,
                    |rng, q, _| if rng.chance(stay) { q } else { rng.between(q, n - 1) },
                )
            }
            Style::Sinks => {
                let sinks = rng.between(1, n);
                let mut rule = by(rng, n, k, none, |rng, q, _| {
                    if q + sinks >= n {
                        q
                    } else if rng.chance(15) {
                        rng.between(n - sinks, n - 1)
                    } else {
                        rng.below(n)
                    }
                });
                rule.initial = rng.below(n);
                if sinks < n && rng.chance(80) {
                    rule.initial = rng.below(n - sinks);
                }
                rule
            }
            Style::Keeping => {
                let keep = rng.pick(&[60, 90, 98]);
                by(rng, n, k, none, |rng, q, lower| {
                    if lower.is_some() && rng.chance(keep) {
                        q
                    } else {
                        rng.below(n)
                    }
                })
            }
            Style::Chain => by(rng, n, k, none / 10, |rng, q, lower| match lower {
                None => (q + 1).min(n - 1),
                Some(_) => rng.pick(&[q, (q + 1).min(n - 1)]),
            }),
            Style::Halves => halves(rng, n, k, none),
        };
    if rng.chance(8) {
        rule.tree_start = None;
    }
    if rng.chance(30) {
        // A few rows that keep the upper state whatever is below.
        for u in 0..n {
            if rng.chance(25) {
                for p in 0..n {
                    rule.tree_moves[u][p] = if rng.chance(none) { None } else { Some(u) };
                }
            }
        }
    }
    // Mostly the reading should not be settled before it begins.
    let leaves = |q: usize| {
        rule.letter_moves[q].iter().chain(&rule.tree_moves[q]).flatten().any(|&to| to != q)
    };
    if !leaves(rule.initial) && rng.chance(70) {
        let others: Vec<usize> = (0..n).filter(|&q| leaves(q)).collect();
        if !others.is_empty() {
            rule.initial = rng.pick(&others);
        }
    }
    rule
}

/// A rule whose moves come from `target`, given the state and, for tree moves,
/// the lower state; `none` of a hundred are none.
fn by(
    rng: &mut Prng,
    n: usize,
    k: usize,
    none: usize,
    mut target: impl FnMut(&mut Prng, usize, Option<usize>) -> usize,
) -> Rule {
    let mut letter_moves = vec![vec![None; k]; n];
    let mut tree_moves = vec![vec![None; n]; n];
    for q in 0..n {
        for a in 0..k {
            if !rng.chance(none) {
                letter_moves[q][a] = Some(target(rng, q, None));
            }
        }
        for p in 0..n {
            if !rng.chance(none) {
                tree_moves[q][p] = Some(target(rng, q, Some(p)));
            }
        }
    }
    let initial = if rng.chance(50) { 0 } else { rng.below(n) };
    let tree_start = if rng.chance(30) { initial } else { rng.below(n) };
    let classes = (0..n).map(|_| rng.pick(&CLASSES)).collect();
    Rule { n, k, initial, tree_start: Some(tree_start), letter_moves, tree_moves, classes }
}

fn halves(rng: &mut Prng, n: usize, k: usize, none: usize) -> Rule {
    let half = n / 2;
    let mut rule = by(rng, n, k, none, |rng, q, lower| match lower {
        _ if q < half => rng.below(half),
        None => rng.between(q, n - 1),
        Some(_) => q,
    });
    if half > 0 {
        rule.initial = rng.below(half);
        rule.tree_start =
            Some(if rng.chance(70) { rng.between(half, n - 1) } else { rng.below(n) });
        for u in 0..half {
            for p in half..n {
                if rng.chance(75) {
                    rule.tree_moves[u][p] = Some(u);
                }
            }
        }
    }
    rule
}

/// Rule A of document 01.
pub fn rule_a() -> Rule {
    Rule {
        n: 3,
        k: 2,
        initial: 0,
        tree_start: Some(0),
        letter_moves: vec![vec![Some(0), Some(1)], vec![Some(1), Some(1)], vec![Some(2), None]],
        tree_moves: vec![
            vec![Some(0), Some(2), Some(0)],
            vec![Some(1), Some(1), Some(1)],
            vec![Some(2), Some(2), None],
        ],
        classes: vec![Class::Reject, Class::OffSchema, Class::Accept],
    }
}

/// Rule B of document 01.
pub fn rule_b() -> Rule {
    Rule {
        n: 3,
        k: 1,
        initial: 0,
        tree_start: Some(1),
        letter_moves: vec![vec![Some(2)]; 3],
        tree_moves: vec![vec![None, None, Some(0)], vec![None; 3], vec![None; 3]],
        classes: vec![Class::Accept, Class::OffSchema, Class::Reject],
    }
}

/// Rule C: in one round from state 0 only state 1 is found, and only state 2,
/// one round further, spoils hold(0). Its book is 4, 0, 7, 7.
pub fn rule_c() -> Rule {
    Rule {
        n: 3,
        k: 1,
        initial: 0,
        tree_start: None,
        letter_moves: vec![vec![Some(1)], vec![Some(2)], vec![Some(2)]],
        tree_moves: vec![vec![None, None, Some(1)], vec![None; 3], vec![None; 3]],
        classes: vec![Class::OffSchema, Class::Reject, Class::Accept],
    }
}
