//! The dump program over the crate: a capture on standard input, document 01's lines on standard
//! output. It is the baseline for speed.

use judge::{capture, dump, oracle};
use std::io::{self, BufReader, BufWriter, Write};

const BUFFER: usize = 1 << 16;

fn main() -> io::Result<()> {
    oracle::keep_panics_of_crate();
    let input = BufReader::with_capacity(BUFFER, io::stdin().lock());
    let mut out = BufWriter::with_capacity(BUFFER, io::stdout().lock());
    let mut text = Vec::new();
    let last = capture::each_entry(input, |n, datagram| {
        dump::write_line(&mut out, n, datagram, &mut text)
    })?;
    last.write(&mut out)?;
    out.flush()
}
