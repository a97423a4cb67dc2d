//! Compares our probe program with the crate.
//!
//! judge COUNT SEED PROGRAM [WORDS...]: COUNT random draws after the systematic inputs, from SEED;
//! PROGRAM and its words start the probe.

use judge::inputs::{self, Draw};
use judge::oracle::{self, Answer};
use judge::probe::Probe;
use judge::random::Random;
use judge::request::Request;
use judge::tally::Tally;
use judge::wire::hex;
use std::io;
use std::process::ExitCode;

/// Requests for one run of the probe: enough that starting it costs nothing, and few to hold.
const BATCH: usize = 10_000;

/// Differences that are printed.
const SHOWN: u64 = 10;

struct Judge {
    probe: Probe,
    draw: Draw,
    tally: Tally,
    requests: Vec<Vec<u8>>,
    expected: Vec<String>,
    compared: u64,
    differences: u64,
}

impl Judge {
    /// Asks the crate; what it reads is written back as well.
    fn take(&mut self, request: Request) -> io::Result<()> {
        let answer = request.ask_crate();
        self.tally.count(&request, &answer);
        self.requests.push(request.encode());
        self.expected.push(answer.line());
        if let Answer::Read(record) = answer {
            let room = self.draw.room(record.packet_length());
            return self.take(Request::Pack(record, room));
        }
        if self.requests.len() >= BATCH {
            self.compare()?;
        }
        Ok(())
    }

    /// Asks the probe what the crate was asked since the last time.
    fn compare(&mut self) -> io::Result<()> {
        let lines = self.probe.ask(&self.requests)?;
        for ((request, expected), line) in self.requests.iter().zip(&self.expected).zip(&lines) {
            self.compared += 1;
            if line == expected {
                continue;
            }
            self.differences += 1;
            if self.differences <= SHOWN {
                println!("request  {}", hex(request));
                println!("crate    {expected}");
                println!("probe    {line}");
            }
        }
        self.requests.clear();
        self.expected.clear();
        Ok(())
    }

    fn run(&mut self, count: u64) -> io::Result<()> {
        let mut result = Ok(());
        inputs::systematic(&mut |request| {
            if result.is_ok() {
                result = self.take(request);
            }
        });
        result?;
        for _ in 0..count {
            let request = if self.draw.0.once_in(4) {
                let record = self.draw.record();
                let room = self.draw.room(record.packet_length());
                Request::Pack(record, room)
            } else {
                Request::Read(self.draw.datagram())
            };
            self.take(request)?;
        }
        self.compare()
    }
}

fn main() -> io::Result<ExitCode> {
    let words: Vec<String> = std::env::args().skip(1).collect();
    let (count, seed) = match words.get(..2) {
        Some([count, seed]) if words.len() > 2 => (count.parse(), seed.parse()),
        _ => return Err(io::Error::other("judge COUNT SEED PROGRAM [WORDS...]")),
    };
    let (Ok(count), Ok(seed)) = (count, seed) else {
        return Err(io::Error::other("COUNT and SEED are numbers"));
    };
    oracle::keep_panics_of_crate();
    let mut judge = Judge {
        probe: Probe(words[2..].to_vec()),
        draw: Draw(Random::new(seed)),
        tally: Tally::default(),
        requests: Vec::new(),
        expected: Vec::new(),
        compared: 0,
        differences: 0,
    };
    judge.run(count)?;
    let complete = judge.tally.print();
    println!(
        "{} compared, {} differences",
        judge.compared, judge.differences
    );
    Ok(if complete && judge.differences == 0 {
        ExitCode::SUCCESS
    } else {
        ExitCode::FAILURE
    })
}
