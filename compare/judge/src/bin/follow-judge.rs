//! Compares our program follow with request 02's rules, and these with the crate's own follower.
//!
//! follow-judge COUNT SEED PROGRAM [WORDS...]: COUNT random captures from SEED after the fixed ones;
//! PROGRAM and its words start follow.

use judge::beside::Beside;
use judge::follow::{self, Heard};
use judge::follow_tally::FollowTally;
use judge::inputs::{scenes, script};
use judge::probe::Probe;
use judge::{capture, oracle};
use std::io;
use std::process::ExitCode;

/// From the seed of a capture to the next one's: runs from neighbouring seeds have no capture in common.
/// `follow-judge 1 SEED` asks one of them, behind the fixed ones.
const STRIDE: u64 = 1_000_000;

/// Differences that are printed.
const SHOWN: u64 = 10;

struct Judge {
    program: Probe,
    tally: FollowTally,
    captures: u64,
    lines: u64,
    differences: u64,
}

impl Judge {
    fn run(&mut self, count: u64, seed: u64) -> io::Result<()> {
        self.compare("the empty capture", &[])?;
        self.compare("the sample", &capture::of(&script::sample()))?;
        self.compare("everyone", &capture::of(&script::everyone()))?;
        self.compare("many", &capture::of(&script::many()))?;
        for i in 0..count {
            let seed = seed.wrapping_add(i.wrapping_mul(STRIDE));
            self.compare(&format!("seed {seed}"), &scenes::capture(seed))?;
        }
        Ok(())
    }

    /// Follows a capture by the rules, and has the program follow it.
    fn compare(&mut self, name: &str, capture: &[u8]) -> io::Result<()> {
        let expected = self.expected(name, capture)?;
        let said = self.program.feed(capture);
        let said = said.map_err(|e| io::Error::other(format!("capture {name}: {e}")))?;
        self.captures += 1;
        self.lines += expected.lines().count() as u64;
        if said != expected {
            let (rules, program) = first_difference(&expected, &said);
            self.differ(name, "follow", rules, program);
        }
        Ok(())
    }

    /// The text by the rules; the crate is asked beside them.
    fn expected(&mut self, name: &str, capture: &[u8]) -> io::Result<String> {
        let mut text = Vec::new();
        let mut beside = Beside::begin();
        let mut apart = Vec::new();
        let last = follow::write_text(&mut text, capture, |n, heard, became| {
            self.tally.count(heard, became);
            if let Heard::Data(sent) = heard {
                match beside.ask(sent, became) {
                    Ok(agreement) => self.tally.count_crate(agreement),
                    Err(said) => apart.push((n, said)),
                }
            }
        })?;
        if !beside.was_in_time() {
            return Err(io::Error::other(format!(
                "capture {name}: the crate's timeout passed while it was asked, on a slow or busy machine; run it again"
            )));
        }
        self.tally.count_last(&last);
        let text = String::from_utf8(text).expect("the lines are ASCII");
        for (n, said) in apart {
            let line = text.lines().nth(n as usize - 1).unwrap_or("");
            self.differ(name, "the crate", line, &said);
        }
        Ok(text)
    }

    fn differ(&mut self, name: &str, who: &str, rules: &str, said: &str) {
        self.differences += 1;
        if self.differences <= SHOWN {
            println!("capture   {name}");
            println!("rules     {rules}");
            println!("{who:<10}{said}");
        }
    }
}

/// The first line that is not the same in both; a text that has ended says nothing.
fn first_difference<'a>(expected: &'a str, said: &'a str) -> (&'a str, &'a str) {
    let (mut expected, mut said) = (expected.lines(), said.lines());
    loop {
        match (expected.next(), said.next()) {
            (Some(a), Some(b)) if a == b => {}
            (a, b) => return (a.unwrap_or("(no line)"), b.unwrap_or("(no line)")),
        }
    }
}

fn main() -> io::Result<ExitCode> {
    let words: Vec<String> = std::env::args().skip(1).collect();
    let (count, seed) = match words.get(..2) {
        Some([count, seed]) if words.len() > 2 => (count.parse(), seed.parse()),
        _ => {
            return Err(io::Error::other(
                "follow-judge COUNT SEED PROGRAM [WORDS...]",
            ))
        }
    };
    let (Ok(count), Ok(seed)) = (count, seed) else {
        return Err(io::Error::other("COUNT and SEED are numbers"));
    };
    oracle::keep_panics_of_crate();
    let mut judge = Judge {
        program: Probe(words[2..].to_vec()),
        tally: FollowTally::default(),
        captures: 0,
        lines: 0,
        differences: 0,
    };
    judge.run(count, seed)?;
    let complete = judge.tally.print();
    println!(
        "{} captures followed, {} lines compared, {} differences",
        judge.captures, judge.lines, judge.differences
    );
    Ok(if complete && judge.differences == 0 {
        ExitCode::SUCCESS
    } else {
        ExitCode::FAILURE
    })
}
