//! A capture: entries of a length and that many bytes, at most 8192. The length is in groups of
//! seven bits, lowest first, top bit set when another follows, shortest form.

use std::io::{self, ErrorKind, Read, Write};

pub const LIMIT: usize = 8192;

pub fn write_entry(out: &mut impl Write, entry: &[u8]) -> io::Result<()> {
    assert!(entry.len() <= LIMIT, "an entry has at most {LIMIT} bytes");
    if entry.len() < 0x80 {
        out.write_all(&[entry.len() as u8])?;
    } else {
        out.write_all(&[entry.len() as u8 | 0x80, (entry.len() >> 7) as u8])?;
    }
    out.write_all(entry)
}

/// A whole capture of these entries.
pub fn of(entries: &[Vec<u8>]) -> Vec<u8> {
    let mut capture = Vec::new();
    for entry in entries {
        write_entry(&mut capture, entry).expect("a vector takes every byte");
    }
    capture
}

/// How a capture ends, as document 01's last line has it.
pub struct Last {
    pub word: &'static str,
    pub whole: u64,
}

impl Last {
    pub fn write(&self, out: &mut impl Write) -> io::Result<()> {
        writeln!(out, "{} {}", self.word, self.whole)
    }
}

/// Hands each whole entry and its number, from 1, to `take`.
pub fn each_entry(
    input: impl Read,
    mut take: impl FnMut(u64, &[u8]) -> io::Result<()>,
) -> io::Result<Last> {
    let mut reader = Reader::new(input);
    let mut whole = 0;
    let word = loop {
        match reader.read_entry()? {
            Next::Entry(entry) => {
                whole += 1;
                take(whole, entry)?;
            }
            Next::End => break "end",
            Next::Cut => break "cut",
            Next::Bad => break "bad",
        }
    };
    Ok(Last { word, whole })
}

/// What comes next in a capture.
enum Next<'a> {
    Entry(&'a [u8]),
    End,
    /// The input stops inside an entry or its length.
    Cut,
    /// A length that is too large or not in the shortest form.
    Bad,
}

/// Holds one entry at a time.
struct Reader<R> {
    input: R,
    entry: [u8; LIMIT],
}

enum Length {
    Of(usize),
    End,
    Cut,
    Bad,
}

impl<R: Read> Reader<R> {
    fn new(input: R) -> Reader<R> {
        let entry = [0; LIMIT];
        Reader { input, entry }
    }

    fn read_entry(&mut self) -> io::Result<Next<'_>> {
        let length = match self.length()? {
            Length::Of(length) => length,
            Length::End => return Ok(Next::End),
            Length::Cut => return Ok(Next::Cut),
            Length::Bad => return Ok(Next::Bad),
        };
        match self.input.read_exact(&mut self.entry[..length]) {
            Ok(()) => Ok(Next::Entry(&self.entry[..length])),
            Err(e) if e.kind() == ErrorKind::UnexpectedEof => Ok(Next::Cut),
            Err(e) => Err(e),
        }
    }

    fn length(&mut self) -> io::Result<Length> {
        let Some(low) = self.byte()? else {
            return Ok(Length::End);
        };
        if low < 0x80 {
            return Ok(Length::Of(usize::from(low)));
        }
        let Some(high) = self.byte()? else {
            return Ok(Length::Cut);
        };
        let length = usize::from(low & 0x7f) | usize::from(high) << 7;
        // A second group of 0 is not the shortest form; one with its top bit set is above 8192.
        if high == 0 || length > LIMIT {
            return Ok(Length::Bad);
        }
        Ok(Length::Of(length))
    }

    fn byte(&mut self) -> io::Result<Option<u8>> {
        let mut one = [0];
        match self.input.read_exact(&mut one) {
            Ok(()) => Ok(Some(one[0])),
            Err(e) if e.kind() == ErrorKind::UnexpectedEof => Ok(None),
            Err(e) => Err(e),
        }
    }
}
