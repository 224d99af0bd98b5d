//! What was asked and answered in a run.

use std::collections::BTreeMap;

/// The numbers that a call can be brought to give.
pub type Can = &'static [u64];

pub const RULE: Can = &[1, 2, 3, 4, 5];
pub const WRITER: Can = &[3, 4, 14];
pub const OPEN: Can = &[1, 2, 3, 4, 5, 6];
pub const FEED: Can = &[1, 2, 3, 4, 5, 6, 7, 8, 9, 10, 11, 13, 16, 17, 18];
pub const FINISH: Can = &[1, 2, 3, 4, 5, 6, 12, 13];
pub const WHOLE: Can = &[1, 2, 3, 4, 5, 6, 7, 8, 10, 11, 12, 17, 18];
pub const LINE: Can = &[7, 8, 10, 11, 12, 17, 18];

/// Why some numbers are not brought out.
const NEVER: &str = "\
-: that call does not give the number.
15: no call does. Both sets begin with one state at most, of at most 64, so the 64th round adds none.
9, 13, 16: a whole document and a program read from the reading that opening gives, under the
    largest ceiling, and 4,294,967,296 events are more than a program's record holds and than are
    asked here.";

/// From so many inputs on, every number that can be given must have been.
const ENOUGH: u64 = 10_000;

const LAST_NUMBER: u64 = 18;

struct Row {
    name: &'static str,
    can: Can,
    /// How often each number was given, 0 for none.
    given: BTreeMap<u64, u64>,
    /// Answers that did not fit into the slice lent for them.
    unfit: u64,
}

#[derive(Default)]
pub struct Tally {
    rows: Vec<Row>,
}

impl Tally {
    /// An answer on which both sides agree: its number, 0 for none, or nothing if
    /// it did not fit.
    pub fn add(&mut self, name: &'static str, can: Can, number: Option<u64>) {
        let known = self.rows.iter().position(|row| row.name == name);
        let at = known.unwrap_or_else(|| {
            self.rows.push(Row { name, can, given: BTreeMap::new(), unfit: 0 });
            self.rows.len() - 1
        });
        match number {
            Some(number) => *self.rows[at].given.entry(number).or_default() += 1,
            None => self.rows[at].unfit += 1,
        }
    }

    pub fn agreements(&self) -> u64 {
        self.rows.iter().map(Row::answers).sum()
    }

    /// The answers by call and number; `-` where a call never gives the number.
    pub fn print(&self) {
        print!("{:20}{:>9}{:>9}{:>9}", "answers", "all", "no room", "given");
        (1..=LAST_NUMBER).for_each(|number| print!("{number:>7}"));
        println!();
        for row in &self.rows {
            print!("{:20}{:>9}{:>9}{:>9}", row.name, row.answers(), row.unfit, row.times(0));
            for number in 1..=LAST_NUMBER {
                match (row.times(number), row.can.contains(&number)) {
                    (0, false) => print!("{:>7}", "-"),
                    (times, _) => print!("{times:>7}"),
                }
            }
            println!();
        }
        println!("{NEVER}");
    }

    /// The numbers that a run of so many inputs should have brought out and did not,
    /// or did and should not.
    pub fn check(&self, count: u64) -> Result<(), String> {
        for row in &self.rows {
            for number in 1..=LAST_NUMBER {
                let (times, can) = (row.times(number), row.can.contains(&number));
                if times == 0 && can && count >= ENOUGH {
                    return Err(format!("{}: the inputs never brought out {number}", row.name));
                }
                if times > 0 && !can {
                    return Err(format!("{}: {number} was given", row.name));
                }
            }
        }
        Ok(())
    }
}

impl Row {
    fn times(&self, number: u64) -> u64 {
        self.given.get(&number).copied().unwrap_or(0)
    }

    fn answers(&self) -> u64 {
        self.given.values().sum::<u64>() + self.unfit
    }
}
