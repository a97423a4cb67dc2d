//! Request 02's rules for sequence numbers in plain Rust, and the lines of the program that follows a
//! capture. Datagrams are read by the crate, and those without a start code refused (`exception`).
//!
//! Refusal 40 is left out: no capture is long enough for a total to reach its largest number.

use crate::capture::{self, Last};
use crate::oracle;
use crate::refusal::Refusal;
use sacn::packet::E131RootLayerData;
use std::io::{self, Write};
use std::ops::RangeInclusive;

/// The program's table has room for so many sources.
pub const ROOM: usize = 1024;

/// A new source, and no free entry.
const NO_ROOM: Refusal = Refusal {
    number: 41,
    place: 0,
    value: 0,
};

/// The differences that are late: above -20 and at most 0.
const LATE: RangeInclusive<i8> = -19..=0;

/// Who sends, and where.
#[derive(Clone, Copy, PartialEq, Eq, Hash)]
pub struct Source {
    pub cid: [u8; 16],
    pub universe: u16,
}

/// What counts of a data packet.
pub struct Sent {
    pub source: Source,
    pub number: u8,
    pub terminated: bool,
    pub preview: bool,
}

pub enum Heard {
    Data(Sent),
    Other,
    Unreadable(Refusal),
}

/// Reads a datagram by the crate.
pub fn hear(datagram: &[u8]) -> Heard {
    let pdu = match oracle::parse(datagram) {
        Ok(packet) => packet.pdu,
        Err(refusal) => return Heard::Unreadable(refusal),
    };
    let E131RootLayerData::DataPacket(data) = pdu.data else {
        return Heard::Other;
    };
    Heard::Data(Sent {
        source: Source {
            cid: pdu.cid.into_bytes(),
            universe: data.universe,
        },
        number: data.sequence_number,
        terminated: data.stream_terminated,
        preview: data.preview_data,
    })
}

#[derive(Clone, Copy, PartialEq, Eq)]
pub enum Answer {
    Accepted,
    Discarded,
    NoRoom,
    Other,
    Unreadable(Refusal),
}

impl Answer {
    /// Writes the line of entry `n`.
    pub fn write(&self, out: &mut impl Write, n: u64) -> io::Result<()> {
        match self {
            Answer::Accepted => writeln!(out, "{n} accepted"),
            Answer::Discarded => writeln!(out, "{n} discarded"),
            Answer::NoRoom => writeln!(out, "{n} {}", oracle::refused(&NO_ROOM)),
            Answer::Other => writeln!(out, "{n} other"),
            Answer::Unreadable(refusal) => writeln!(out, "{n} {}", oracle::refused(refusal)),
        }
    }
}

#[derive(Default)]
pub struct Totals {
    accepted: u64,
    discarded: u64,
    room_refused: u64,
}

impl Totals {
    pub fn count(&mut self, answer: &Answer) {
        match answer {
            Answer::Accepted => self.accepted += 1,
            Answer::Discarded => self.discarded += 1,
            Answer::NoRoom => self.room_refused += 1,
            Answer::Other | Answer::Unreadable(_) => {}
        }
    }

    /// Writes the line before the last.
    pub fn write(&self, out: &mut impl Write) -> io::Result<()> {
        writeln!(
            out,
            "totals accepted {} discarded {} room-refused {}",
            self.accepted, self.discarded, self.room_refused
        )
    }
}

/// What became of a datagram; the rest is for who counts what was met.
pub struct Became {
    pub answer: Answer,
    /// The number minus the source's last; none where the source was not in the table.
    pub difference: Option<i8>,
    /// A new source took an entry that another one had left.
    pub room_again: bool,
}

impl Became {
    fn plain(answer: Answer) -> Became {
        Became {
            answer,
            difference: None,
            room_again: false,
        }
    }
}

struct Entry {
    source: Source,
    last: u8,
}

/// The table; a free entry is none.
pub struct Table {
    entries: Vec<Option<Entry>>,
    /// So many entries were in use at one time or another: the first ones, for the first free is taken.
    reached: usize,
}

impl Table {
    pub fn new(room: usize) -> Table {
        Table {
            entries: (0..room).map(|_| None).collect(),
            reached: 0,
        }
    }

    pub fn follow(&mut self, heard: &Heard) -> Became {
        match heard {
            Heard::Unreadable(refusal) => Became::plain(Answer::Unreadable(*refusal)),
            Heard::Other => Became::plain(Answer::Other),
            Heard::Data(sent) => self.follow_data(sent),
        }
    }

    fn follow_data(&mut self, sent: &Sent) -> Became {
        let mut used = self.entries.iter().enumerate();
        let own = used.find_map(|(at, entry)| match entry {
            Some(entry) if entry.source == sent.source => Some((at, entry.last)),
            _ => None,
        });
        let free = self.entries.iter().position(Option::is_none);
        match (own, free) {
            (Some((at, last)), _) => self.follow_known(at, last, sent),
            (None, Some(at)) => self.follow_new(at, sent),
            (None, None) => Became::plain(Answer::NoRoom),
        }
    }

    fn follow_known(&mut self, at: usize, last: u8, sent: &Sent) -> Became {
        let difference = sent.number.wrapping_sub(last) as i8;
        let answer = if LATE.contains(&difference) {
            Answer::Discarded
        } else {
            self.accept(at, sent);
            Answer::Accepted
        };
        Became {
            answer,
            difference: Some(difference),
            room_again: false,
        }
    }

    fn follow_new(&mut self, at: usize, sent: &Sent) -> Became {
        let room_again = at < self.reached;
        self.reached = self.reached.max(at + 1);
        self.accept(at, sent);
        Became {
            answer: Answer::Accepted,
            difference: None,
            room_again,
        }
    }

    /// Stores the number, or leaves the entry free after the last packet of a stream.
    fn accept(&mut self, at: usize, sent: &Sent) {
        let entry = Entry {
            source: sent.source,
            last: sent.number,
        };
        self.entries[at] = (!sent.terminated).then_some(entry);
    }
}

/// Writes what has to be said of a capture; `see` gets what was heard of each entry and became of it.
pub fn write_text(
    out: &mut impl Write,
    capture: &[u8],
    mut see: impl FnMut(u64, &Heard, &Became),
) -> io::Result<Last> {
    let mut table = Table::new(ROOM);
    let mut totals = Totals::default();
    let last = capture::each_entry(capture, |n, datagram| {
        let heard = hear(datagram);
        let became = table.follow(&heard);
        totals.count(&became.answer);
        see(n, &heard, &became);
        became.answer.write(out, n)
    })?;
    totals.write(out)?;
    last.write(out)?;
    Ok(last)
}
