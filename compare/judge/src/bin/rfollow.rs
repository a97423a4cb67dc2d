//! The follow program over the crate's reading and its follower: a capture on standard input, request
//! 02's lines on standard output. It is the baseline for speed.
//!
//! The follower's cost is left as it is: at each packet it looks at the time of every source it keeps.
//! It has no limit of sources, and gives no verdict on a terminated packet, which counts as accepted here.

use judge::follow::{self, Answer, Heard, Sent, Totals};
use judge::{capture, oracle};
use sacn::error::errors::SacnError;
use sacn::follower::Follower;
use std::io::{self, BufReader, BufWriter, Write};
use uuid::Uuid;

const BUFFER: usize = 1 << 16;

fn answer(follower: &mut Follower, heard: &Heard) -> Answer {
    match heard {
        Heard::Data(sent) => answer_data(follower, sent),
        Heard::Other => Answer::Other,
        Heard::Unreadable(refusal) => Answer::Unreadable(*refusal),
    }
}

fn answer_data(follower: &mut Follower, sent: &Sent) -> Answer {
    let (cid, universe) = (Uuid::from_bytes(sent.source.cid), sent.source.universe);
    if sent.terminated {
        follower.remove(cid, universe);
        return Answer::Accepted;
    }
    match follower.check(cid, universe, sent.number) {
        Ok(()) => Answer::Accepted,
        Err(SacnError::OutOfSequence(..)) => Answer::Discarded,
        Err(error) => panic!("the crate without a limit and an announced timeout said {error:?}"),
    }
}

fn main() -> io::Result<()> {
    oracle::keep_panics_of_crate();
    let input = BufReader::with_capacity(BUFFER, io::stdin().lock());
    let mut out = BufWriter::with_capacity(BUFFER, io::stdout().lock());
    let mut follower = Follower::new();
    let mut totals = Totals::default();
    let last = capture::each_entry(input, |n, datagram| {
        let answer = answer(&mut follower, &follow::hear(datagram));
        totals.count(&answer);
        answer.write(&mut out, n)
    })?;
    totals.write(&mut out)?;
    last.write(&mut out)?;
    out.flush()
}
