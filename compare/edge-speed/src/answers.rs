//! The same questions to both: all systematic inputs, and random ones.

use crate::ours;
use judge::exception::{NOTHING_READ, NOTHING_WRITTEN};
use judge::inputs::{self, Draw};
use judge::oracle::Answer;
use judge::random::Random;
use judge::request::Request;
use judge::wire::hex;

const SEED: u64 = 1;

/// Differences that are printed.
const SHOWN: u64 = 10;

#[derive(Default)]
pub struct Answers {
    pub compared: u64,
    pub differences: u64,
    /// Names that are no UTF-8 and cannot be put in Rust.
    pub left_out: u64,
    /// Packets without a start code that the crate reads, and that it writes: ours has to refuse both.
    pub read_by_crate: u64,
    pub written_by_crate: u64,
}

impl Answers {
    /// Asks both. What is read is written back as well.
    pub fn take(&mut self, request: &Request) {
        let Some(answer) = ours::ask(request) else {
            self.left_out += 1;
            return;
        };
        let expected = request.ask_crate();
        match expected {
            Answer::ReadRefused(NOTHING_READ) => self.read_by_crate += 1,
            Answer::PackRefused(NOTHING_WRITTEN) => self.written_by_crate += 1,
            _ => {}
        }
        let (ours, theirs) = (answer.line(), expected.line());
        self.compared += 1;
        if ours != theirs {
            self.differences += 1;
            if self.differences <= SHOWN {
                println!("request  {}", hex(&request.encode()));
                println!("crate    {theirs}");
                println!("ours     {ours}");
            }
        }
        if let Answer::Read(record) = answer {
            let room = record.packet_length();
            self.take(&Request::Pack(record, room));
        }
    }
}

/// Compares on all systematic inputs and `count` random draws.
pub fn compare(count: u64) -> Answers {
    let mut answers = Answers::default();
    inputs::systematic(&mut |request| answers.take(&request));
    let mut draw = Draw(Random::new(SEED));
    for _ in 0..count {
        answers.take(&Request::Read(draw.datagram()));
        let record = draw.record();
        let room = draw.room(record.packet_length());
        answers.take(&Request::Pack(record, room));
    }
    answers
}
