//! The proved calls from Rust beside the crate's: first the answers, then the times.
//!
//! edge-speed COUNT ROUNDS SVG: compares on all systematic inputs and COUNT random draws, times each
//! case as the best of ROUNDS, and draws how the time of reading grows in the file SVG.
//! edge-speed ours ROUNDS: prints our time of each case, for whoever compares two libraries.

mod answers;
mod calls;
mod cases;
mod growth;
mod ours;
mod plot;
mod timing;

use judge::oracle;
use std::process::ExitCode;
use std::{env, fs, io};

fn compare(count: u64) -> bool {
    let mut answers = answers::compare(count);
    for case in cases::all() {
        case.check(&mut answers);
    }
    println!(
        "{} answers compared, {} differences; {} names left out that are no UTF-8.",
        answers.compared, answers.differences, answers.left_out
    );
    println!(
        "Without a start code, taken by the crate and refused by ours: {} read, {} written.",
        answers.read_by_crate, answers.written_by_crate
    );
    answers.differences == 0 && answers.read_by_crate > 0 && answers.written_by_crate > 0
}

fn time(rounds: u64) {
    println!("Best of {rounds} rounds. memcpy is a plain copy of the packet's bytes.\n");
    cases::print_head();
    let cases = cases::all();
    let missed = cases.iter().filter(|case| !case.time(rounds)).count();
    println!("\n{missed} targets missed.");
}

/// Each case has to be answered as it is meant, and is then timed.
fn time_ours(rounds: u64) {
    for case in cases::all() {
        case.check_ours();
        case.time_ours(rounds);
    }
}

fn number(word: &str) -> io::Result<u64> {
    word.parse()
        .map_err(|_| io::Error::other(format!("'{word}' is no number")))
}

fn run(count: &str, rounds: &str, svg: &str) -> io::Result<bool> {
    let (count, rounds) = (number(count)?, number(rounds)?);
    oracle::keep_panics_of_crate();
    if !compare(count) {
        return Ok(false);
    }
    time(rounds);
    let panels = [growth::over_universes(rounds), growth::over_names(rounds)];
    panels.iter().for_each(growth::Growth::print);
    fs::write(svg, plot::svg(&panels))?;
    Ok(true)
}

fn main() -> io::Result<ExitCode> {
    let words: Vec<String> = env::args().skip(1).collect();
    let words: Vec<&str> = words.iter().map(String::as_str).collect();
    match words[..] {
        ["ours", rounds] => time_ours(number(rounds)?),
        [count, rounds, svg] => {
            if !run(count, rounds, svg)? {
                return Ok(ExitCode::FAILURE);
            }
        }
        _ => {
            let usage = "edge-speed COUNT ROUNDS SVG, or edge-speed ours ROUNDS";
            return Err(io::Error::other(usage));
        }
    }
    Ok(ExitCode::SUCCESS)
}
