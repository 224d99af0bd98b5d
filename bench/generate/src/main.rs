//! `generate SEED INDEX`: writes one input of the seed to standard output.

use std::io::{self, Write};
use std::process::ExitCode;

fn main() -> ExitCode {
    let numbers: Vec<u64> = std::env::args().skip(1).filter_map(|a| a.parse().ok()).collect();
    let [seed, index] = numbers[..] else {
        eprintln!("usage: generate SEED INDEX");
        return ExitCode::from(2);
    };
    match io::stdout().write_all(&generate::Inputs::new(seed).get(index)) {
        Ok(()) => ExitCode::SUCCESS,
        Err(error) => {
            eprintln!("generate: {error}");
            ExitCode::FAILURE
        }
    }
}
