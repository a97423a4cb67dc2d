//! Captures for the follower that do not depend on a seed.

use crate::follow::{Source, ROOM};
use crate::record::{Data, Discovery, Record, Sync};
use crate::wire::{put16, PREVIEW, PRIORITY, TERMINATED, UNIVERSE};

const NAME: &[u8] = b"Desk";

/// A source's packets go to so many universes of one CID.
const UNIVERSES: usize = 8;

/// Differences at the edges of what is late, of the sign, and next to them.
pub const EDGES: [i8; 11] = [-128, -127, -21, -20, -19, -18, -1, 0, 1, 2, 127];

/// Last numbers from which the edges lie on this side of the wrap and beyond it.
const LASTS: [u8; 3] = [5, 130, 250];

/// The number that most sources of the script start with.
const START: u8 = 100;

/// More than sixteen bits count.
const MANY: usize = 70_000;

/// The k-th of many sources: eight universes of a CID, then the next CID.
pub fn source(k: usize) -> Source {
    let mut cid = *b"\x10\x32\x54\x76\x98\xba\xdc\xfe\x01\x23\x45\x67\x89\xab\x00\x00";
    put16(&mut cid, 14, (k / UNIVERSES) as u16);
    let universe = 1 + (k % UNIVERSES) as u16;
    Source { cid, universe }
}

/// The smallest data packet, with a start code alone.
pub fn data(source: Source, number: u8, options: u8) -> Data {
    Data {
        cid: source.cid,
        name: NAME.to_vec(),
        priority: 100,
        sync: 0,
        sequence: number,
        options,
        universe: source.universe,
        values: vec![0],
    }
}

/// A sync packet for the source's own universe.
pub fn sync(source: Source, number: u8) -> Record {
    Record::Sync(Sync {
        cid: source.cid,
        sequence: number,
        address: source.universe,
    })
}

pub fn discovery(source: Source) -> Record {
    Record::Discovery(Discovery {
        cid: source.cid,
        name: NAME.to_vec(),
        page: 0,
        last: 0,
        universes: vec![source.universe],
    })
}

/// Entries, one after the other, and how many sources had a part in them.
#[derive(Default)]
struct Script {
    entries: Vec<Vec<u8>>,
    sources: usize,
}

impl Script {
    /// A source that has not sent yet.
    fn newcomer(&mut self) -> Source {
        self.sources += 1;
        source(self.sources - 1)
    }

    fn send(&mut self, source: Source, number: u8, options: u8) {
        let record = Record::Data(data(source, number, options));
        self.entries.push(record.datagram());
    }

    /// Each edge of a difference, from each of the last numbers, by sources of their own.
    fn edges(&mut self) {
        for last in LASTS {
            for difference in EDGES {
                let source = self.newcomer();
                self.send(source, last, 0);
                self.send(source, last.wrapping_add_signed(difference), 0);
            }
        }
    }

    /// Streams that end, well and badly; the number sent again tells whether the source is still known.
    fn ends(&mut self) {
        let source = self.newcomer();
        // A first packet, and a later one, free the source. A late one does not.
        self.send(source, START, TERMINATED);
        self.send(source, START, 0);
        self.send(source, START - 1, TERMINATED);
        self.send(source, START, 0);
        self.send(source, START + 1, TERMINATED);
        self.send(source, START + 1, 0);
        // Preview packets are followed as others.
        self.send(source, START + 2, PREVIEW);
        self.send(source, START + 2, 0);
        self.send(source, START + 3, PREVIEW | TERMINATED);
        self.send(source, START, 0);
    }

    /// What moves nothing: the number sent again is late after each.
    fn others(&mut self) {
        let source = self.newcomer();
        self.send(source, START, 0);
        let ended = Record::Data(data(source, START + 1, TERMINATED)).datagram();
        let cut = ended[..ended.len() - 1].to_vec();
        let empty = Record::Data(Data {
            values: Vec::new(),
            ..data(source, START + 1, TERMINATED)
        });
        let (mut priority, mut universe) = (ended.clone(), ended);
        priority[PRIORITY] = u8::MAX;
        put16(&mut universe, UNIVERSE, 0);
        let kept = [sync(source, START + 1), discovery(source)].map(|record| record.datagram());
        for entry in kept
            .into_iter()
            .chain([cut, priority, universe, empty.datagram(), Vec::new()])
        {
            self.entries.push(entry);
            self.send(source, START, 0);
        }
    }

    /// As many newcomers as the table has room, so that the last ones meet a full one. Their numbers
    /// start anywhere; each one's first number is returned with it.
    fn fill(&mut self) -> Vec<(Source, u8)> {
        (0..ROOM)
            .map(|k| {
                let (source, number) = (self.newcomer(), (37 * k) as u8);
                self.send(source, number, 0);
                (source, number)
            })
            .collect()
    }

    /// Every difference between a source's number and its last, once.
    fn differences(&mut self, known: &[(Source, u8)]) {
        for (difference, (source, last)) in (i8::MIN..=i8::MAX).zip(known) {
            self.send(*source, last.wrapping_add_signed(difference), 0);
        }
    }

    /// In a full table the first of `known` ends late, which frees nothing, and the others in order,
    /// which does. A newcomer comes and ends, another ends with its first packet, and then as many are
    /// taken as have ended, and no more.
    fn make_room(&mut self, known: &[(Source, u8)]) {
        let newcomers: Vec<Source> = known.iter().map(|_| self.newcomer()).collect();
        self.send(newcomers[0], START, TERMINATED);
        for (k, (source, last)) in known.iter().enumerate() {
            let step = u8::from(k > 0);
            self.send(*source, last.wrapping_add(step), TERMINATED);
            self.send(newcomers[0], START, 0);
        }
        self.send(newcomers[0], START + 1, TERMINATED);
        self.send(newcomers[1], START, TERMINATED);
        for source in &newcomers {
            self.send(*source, START, 0);
            self.send(*source, START, 0);
        }
        for (source, last) in known {
            self.send(*source, *last, 0);
        }
    }
}

/// The capture that the gate replays: every kind of line, every difference, and a table that is full.
pub fn sample() -> Vec<Vec<u8>> {
    let mut script = Script::default();
    script.edges();
    script.ends();
    script.others();
    let known = script.fill();
    script.differences(&known);
    script.make_room(&known[600..604]);
    script.entries
}

/// More sources than the table holds: all send, all end, and all send again from the last to the first.
pub fn everyone() -> Vec<Vec<u8>> {
    let mut script = Script::default();
    let sources: Vec<Source> = (0..ROOM + ROOM / 16).map(|_| script.newcomer()).collect();
    for source in &sources {
        script.send(*source, START, 0);
    }
    for source in &sources {
        script.send(*source, START + 1, TERMINATED);
    }
    for source in sources.iter().rev() {
        script.send(*source, START, 0);
    }
    script.entries
}

/// Totals that sixteen bits do not hold: a source sends in order, then one number again and again; then,
/// with the table full, another one sends.
pub fn many() -> Vec<Vec<u8>> {
    let mut script = Script::default();
    let source = script.newcomer();
    for k in 0..MANY {
        script.send(source, k as u8, 0);
    }
    for _ in 0..MANY {
        script.send(source, MANY as u8, 0);
    }
    script.fill();
    let beyond = script.newcomer();
    for _ in 0..MANY {
        script.send(beyond, START, 0);
    }
    script.entries
}
