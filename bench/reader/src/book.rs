//! The skip book.

use crate::rule::Rule;
use std::collections::BTreeSet;

/// The two kinds of sets in a book, as sets of states.
#[derive(Clone, Debug, PartialEq, Eq)]
pub struct Book {
    /// The states q with Reach(q) = {q}.
    pub still: BTreeSet<usize>,
    /// `hold[u]`: the states p such that, for every p' in Reach(p), the tree
    /// move of u and p' is none or u.
    pub hold: Vec<BTreeSet<usize>>,
}

/// The states in which a tree can end: the least set that holds the tree start,
/// if there is one, and every state got from a member by a letter move or by a
/// tree move with a lower state from that very set. Found state by state: one
/// that is met is tried with each state met before it, as the upper state and as
/// the lower one, since a move may have waited for it as its lower state.
pub fn tree_ends(rule: &Rule) -> BTreeSet<usize> {
    let mut ends = BTreeSet::new();
    let mut met: Vec<usize> = rule.tree_start.into_iter().collect();
    while let Some(q) = met.pop() {
        if !ends.insert(q) {
            continue;
        }
        met.extend(rule.letter_moves[q].iter().flatten());
        for &other in &ends {
            met.extend(rule.tree_moves[q][other]);
            met.extend(rule.tree_moves[other][q]);
        }
    }
    ends
}

/// Reach(q) for each state q: the least set that holds q and every state got
/// from a member by a letter move or by a tree move with a lower state in which
/// a tree can end. None adds nothing, and with no tree start no tree move counts.
/// Found by a walk, depth first, over the graph of single moves.
pub fn reach(rule: &Rule) -> Vec<BTreeSet<usize>> {
    reach_with(rule, &tree_ends(rule))
}

/// The same with these lower states.
pub fn reach_with(rule: &Rule, lowers: &BTreeSet<usize>) -> Vec<BTreeSet<usize>> {
    let mut edges = vec![vec![false; rule.n]; rule.n];
    for q in 0..rule.n {
        let trees = lowers.iter().map(|&lower| &rule.tree_moves[q][lower]);
        for target in rule.letter_moves[q].iter().chain(trees).flatten() {
            edges[q][*target] = true;
        }
    }
    (0..rule.n).map(|q| walk(&edges, q)).collect()
}

fn walk(edges: &[Vec<bool>], from: usize) -> BTreeSet<usize> {
    let mut seen = vec![false; edges.len()];
    seen[from] = true;
    let mut to_visit = vec![from];
    while let Some(q) = to_visit.pop() {
        for target in 0..edges.len() {
            if edges[q][target] && !seen[target] {
                seen[target] = true;
                to_visit.push(target);
            }
        }
    }
    (0..edges.len()).filter(|&q| seen[q]).collect()
}

impl Book {
    /// The sets of a rule.
    pub fn of(rule: &Rule) -> Book {
        let reach = reach(rule);
        let still = (0..rule.n).filter(|&q| reach[q] == BTreeSet::from([q])).collect();
        let keeps = |u: usize, p: usize| rule.tree_moves[u][p].is_none_or(|to| to == u);
        let hold = (0..rule.n)
            .map(|u| (0..rule.n).filter(|&p| reach[p].iter().all(|&low| keeps(u, low))).collect())
            .collect();
        Book { still, hold }
    }

    /// The book as n+1 words of 64 bits: word 0 is still, word 1+u is hold(u),
    /// bit p for state p.
    pub fn words(&self) -> Vec<u64> {
        let word = |set: &BTreeSet<usize>| set.iter().map(|&p| 1u64 << p).sum();
        std::iter::once(word(&self.still)).chain(self.hold.iter().map(word)).collect()
    }
}
