//! The oracle: an independent reference program for the planner of shared fibre links.

mod bad;
mod brute;
mod cases;
mod checker;
mod damage;
mod exact;
mod joined;
mod joined_laws;
mod limits;
mod link;
mod loads;
mod mix;
mod moving;
mod oneslot;
mod oneslot_laws;
mod oneslot_vectors;
mod planfile;
mod planner;
mod program;
mod quick;
mod random;
mod report;
mod selftest;
mod stats;
mod strings;
mod text;
mod vectors;

use cases::{line_numbers, line_text, Case};
use random::Random;
use std::io::{self, BufRead, BufWriter, Write};
use std::process::ExitCode;

const USAGE: &str = "usage: oracle selftest | cases SEED COUNT | answers | stats | strings";

fn main() -> ExitCode {
    let words: Vec<String> = std::env::args().skip(1).collect();
    let words: Vec<&str> = words.iter().map(String::as_str).collect();
    let done = match words.as_slice() {
        ["selftest"] => selftest::run(),
        ["cases", seed, count] => match (seed.parse(), count.parse()) {
            (Ok(seed), Ok(count)) => print_cases(seed, count),
            _ => Err(USAGE.to_string()),
        },
        ["answers"] => print_answers(),
        ["stats"] => print_stats(),
        ["strings"] => strings::print(),
        _ => Err(USAGE.to_string()),
    };
    match done {
        Ok(()) => ExitCode::SUCCESS,
        Err(message) => {
            eprintln!("{message}");
            ExitCode::FAILURE
        }
    }
}

/// First the fixed block (vectors and limits), then random cases.
fn print_cases(seed: u64, count: usize) -> Result<(), String> {
    let mut output = BufWriter::new(io::stdout().lock());
    let mut random = Random::new(seed);
    let fixed = vectors::all().into_iter().map(|vector| vector.case).chain(limits::all());
    let endless = std::iter::from_fn(|| Some(mix::case(&mut random)));
    for case in fixed.chain(endless).take(count) {
        writeln!(output, "{}", line_text(&case.numbers())).map_err(|error| error.to_string())?;
    }
    output.flush().map_err(|error| error.to_string())
}

/// The cases on standard input, one a line.
fn read_cases() -> impl Iterator<Item = Result<Case, String>> {
    io::stdin().lock().lines().enumerate().map(|(index, line)| {
        let line = line.map_err(|error| error.to_string())?;
        line_numbers(&line)
            .and_then(|numbers| Case::from_numbers(&numbers))
            .ok_or(format!("line {} is not a case", index + 1))
    })
}

fn print_answers() -> Result<(), String> {
    let mut output = BufWriter::new(io::stdout().lock());
    for case in read_cases() {
        let answer = line_text(&case?.answer());
        writeln!(output, "{answer}").map_err(|error| error.to_string())?;
    }
    output.flush().map_err(|error| error.to_string())
}

fn print_stats() -> Result<(), String> {
    let cases: Vec<Case> = read_cases().collect::<Result<_, _>>()?;
    print!("{}", stats::table(&cases));
    Ok(())
}
