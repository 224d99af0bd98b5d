//! The tables, in Markdown, and how far the goals are met.

use std::fmt::Write;

/// Full reading, nanoseconds for an event.
pub struct Full {
    pub name: &'static str,
    pub size: usize,
    pub proved: f64,
    pub safe: f64,
    /// Safe Rust that never skips.
    pub alone: f64,
    pub sum: f64,
}

/// Passing over, nanoseconds for an event.
pub struct Passing {
    pub name: &'static str,
    pub size: usize,
    pub proved: f64,
    pub full: f64,
    pub safe: f64,
    pub sum: f64,
}

/// A single call, nanoseconds.
pub struct Call {
    pub name: &'static str,
    pub safe: &'static str,
    pub proved: f64,
    pub plain: f64,
    pub sum: f64,
}

/// The least of each figure in two lots of the same rows.
fn least_of<Row>(
    mut rows: Vec<Row>,
    others: Vec<Row>,
    figures: fn(&mut Row) -> Vec<&mut f64>,
) -> Vec<Row> {
    for (row, mut other) in rows.iter_mut().zip(others) {
        for (figure, other) in figures(row).into_iter().zip(figures(&mut other)) {
            *figure = figure.min(*other);
        }
    }
    rows
}

pub struct Report {
    /// How many repetitions each figure is the least of.
    pub repetitions: usize,
    pub full: Vec<Full>,
    pub passing: Vec<Passing>,
    pub calls: Vec<Call>,
}

const BEGIN: &str = "<!-- measured -->\n";
const END: &str = "<!-- end -->\n";

impl Report {
    /// The same rows, measured at two times.
    pub fn least(self, other: Report) -> Report {
        Report {
            repetitions: self.repetitions + other.repetitions,
            full: least_of(self.full, other.full, |row| {
                vec![&mut row.proved, &mut row.safe, &mut row.alone, &mut row.sum]
            }),
            passing: least_of(self.passing, other.passing, |row| {
                vec![&mut row.proved, &mut row.full, &mut row.safe, &mut row.sum]
            }),
            calls: least_of(self.calls, other.calls, |row| {
                vec![&mut row.proved, &mut row.plain, &mut row.sum]
            }),
        }
    }

    /// Puts the tables between two lines of the file.
    pub fn write_into(&self, path: &str) -> Result<(), String> {
        let text = std::fs::read_to_string(path).map_err(|error| error.to_string())?;
        let (before, rest) = text.split_once(BEGIN).ok_or("no line says where to begin")?;
        let (_, after) = rest.split_once(END).ok_or("no line says where to end")?;
        let text = format!("{before}{BEGIN}\n{}\n{END}{after}", self.markdown());
        std::fs::write(path, text).map_err(|error| error.to_string())
    }

    pub fn markdown(&self) -> String {
        let mut text = String::new();
        self.write(&mut text).expect("a string takes what is written");
        text
    }

    fn write(&self, text: &mut String) -> std::fmt::Result {
        writeln!(
            text,
            "Processor: {} ({}). The least time of {} repetitions, in which the columns take turns.\n",
            processor(),
            std::env::consts::ARCH,
            self.repetitions
        )?;

        writeln!(text, "### Full reading, nanoseconds for an event\n")?;
        writeln!(text, "| input | events | proved | safe Rust | its time / proved | plain sum | proved / sum | for information: safe Rust that never skips | its time / proved |")?;
        writeln!(text, "|---|---:|---:|---:|---:|---:|---:|---:|---:|")?;
        for row in &self.full {
            writeln!(
                text,
                "| {} | {} | {:.2} | {:.2} | {:.2} | {:.3} | {:.1} | {:.2} | {:.2} |",
                row.name,
                counted(row.size),
                row.proved,
                row.safe,
                row.safe / row.proved,
                row.sum,
                row.proved / row.sum,
                row.alone,
                row.alone / row.proved
            )?;
        }

        writeln!(text, "\n### Passing over, nanoseconds for an event\n")?;
        writeln!(text, "| input | events | proved | plain sum | proved / sum | the same in full, proved | full / passing | safe Rust | its time / proved |")?;
        writeln!(text, "|---|---:|---:|---:|---:|---:|---:|---:|---:|")?;
        for row in &self.passing {
            writeln!(
                text,
                "| {} | {} | {:.3} | {:.3} | {:.2} | {:.2} | {:.1} | {:.2} | {:.2} |",
                row.name,
                counted(row.size),
                row.proved,
                row.sum,
                row.proved / row.sum,
                row.full,
                row.full / row.proved,
                row.safe,
                row.safe / row.proved
            )?;
        }

        writeln!(text, "\n### Single calls, n 64 and k 256, microseconds for a call\n")?;
        writeln!(text, "| call | proved | safe Rust | its time / proved | safe Rust over | plain sum of the file's bytes |")?;
        writeln!(text, "|---|---:|---:|---:|---|---:|")?;
        for row in &self.calls {
            writeln!(
                text,
                "| {} | {:.1} | {:.1} | {:.2} | {} | {:.2} |",
                row.name,
                row.proved / 1000.0,
                row.plain / 1000.0,
                row.plain / row.proved,
                row.safe,
                row.sum / 1000.0
            )?;
        }

        writeln!(text, "\n### Goals\n")?;
        writeln!(text, "| goal | measured, the worst of the rows | met |")?;
        writeln!(text, "|---|---|---|")?;
        for (goal, measured, met) in self.goals() {
            writeln!(text, "| {goal} | {measured} | {} |", if met { "yes" } else { "no" })?;
        }
        Ok(())
    }

    fn goals(&self) -> Vec<(&'static str, String, bool)> {
        let least = |ratios: Vec<f64>| ratios.into_iter().fold(f64::INFINITY, f64::min);
        let safe = least(self.full.iter().map(|row| row.safe / row.proved).collect());
        let deep: Vec<&Passing> =
            self.passing.iter().filter(|row| row.name == "a deep part").collect();
        let times_sum =
            1.0 / least(deep.iter().map(|row| row.sum / row.proved).collect::<Vec<f64>>());
        let times_full = least(deep.iter().map(|row| row.full / row.proved).collect());
        let openings = self.calls.iter().filter(|row| row.name.starts_with("opening"));
        let opening = openings.map(|row| row.proved).fold(0.0, f64::max) / 1_000_000.0;
        vec![
            (
                "full reading at least as fast as the safe Rust",
                format!("safe Rust takes {safe:.2} times as long"),
                safe >= 1.0,
            ),
            (
                "passing over a deep part within twice the memory limit",
                format!("{times_sum:.2} times the plain sum"),
                times_sum <= 2.0,
            ),
            (
                "passing over a deep part at least 20 times as fast as full reading",
                format!("{times_full:.1} times as fast"),
                times_full >= 20.0,
            ),
            ("opening under 1 ms at n 64 and k 256", format!("{opening:.3} ms"), opening < 1.0),
        ]
    }
}

/// 10,000,000.
fn counted(number: usize) -> String {
    let digits = number.to_string();
    let mut text = String::new();
    for (index, digit) in digits.chars().enumerate() {
        if index > 0 && (digits.len() - index).is_multiple_of(3) {
            text.push(',');
        }
        text.push(digit);
    }
    text
}

/// The processor's kind, as the caller names it.
fn processor() -> String {
    std::env::var("PROCESSOR").unwrap_or("not named".into())
}
