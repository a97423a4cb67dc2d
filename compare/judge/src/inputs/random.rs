//! Random records, good and damaged.

use super::bytes::NUMBERS;
use super::cuts::mend;
use super::names::{CHARACTERS, EDGES};
use super::samples::layers;
use crate::random::Random;
use crate::record::{Data, Discovery, Record, Sync};
use crate::wire::*;

/// Draws from a seed.
pub struct Draw(pub Random);

impl Draw {
    /// A datagram: mostly one of a good record, often damaged.
    pub fn datagram(&mut self) -> Vec<u8> {
        let record = self.record();
        let mut datagram = record.datagram();
        match self.0.below(8) {
            0..=2 => {}
            3..=4 => self.change_bytes(&mut datagram),
            5 => self.change_lengths(&mut datagram, &record),
            6 => self.resize(&mut datagram, &record),
            _ => {
                self.resize(&mut datagram, &record);
                self.change_lengths(&mut datagram, &record);
                self.change_bytes(&mut datagram);
            }
        }
        datagram
    }

    /// A record; now and then outside what can be read or written.
    pub fn record(&mut self) -> Record {
        match self.0.below(5) {
            0 => Record::Sync(Sync {
                cid: self.0.cid(),
                sequence: self.0.byte(),
                address: self.number(),
            }),
            1..=2 => Record::Data(self.data()),
            _ => Record::Discovery(self.discovery()),
        }
    }

    /// A buffer length around the packet's, at most 2048.
    pub fn room(&mut self, length: usize) -> usize {
        match self.0.below(8) {
            0 => self.0.below(length),
            1 => length - 1,
            2..=4 => length,
            5 => length + 1,
            _ => length + self.0.below(40),
        }
        .min(2048)
    }

    fn data(&mut self) -> Data {
        let count = self.count(513);
        Data {
            cid: self.0.cid(),
            name: self.name(),
            priority: if self.0.once_in(10) {
                self.0.byte()
            } else {
                self.0.below(201) as u8
            },
            sync: if self.0.once_in(2) { 0 } else { self.number() },
            sequence: self.0.byte(),
            options: self.0.byte() & 0xe0,
            universe: self.number(),
            values: self.0.bytes(count),
        }
    }

    fn discovery(&mut self) -> Discovery {
        let (a, b) = (self.0.byte(), self.0.byte());
        let in_order = !self.0.once_in(12);
        Discovery {
            cid: self.0.cid(),
            name: self.name(),
            page: if in_order { a.min(b) } else { a },
            last: if in_order { a.max(b) } else { b },
            universes: self.universes(),
        }
    }

    /// A 16-bit number, mostly allowed as a universe, often near a boundary.
    fn number(&mut self) -> u16 {
        match self.0.below(8) {
            0 => self.0.pick(&NUMBERS),
            1 => self.0.number(),
            _ => 1 + self.0.below(63999) as u16,
        }
    }

    /// Mostly small, now and then near the limit, seldom above it.
    fn count(&mut self, limit: usize) -> usize {
        match self.0.below(20) {
            0 => limit,
            1 => limit - 1,
            2 => self.0.below(limit + 1),
            3 if self.0.once_in(4) => limit + 1 + self.0.below(8),
            _ => self.0.below(20),
        }
    }

    fn universes(&mut self) -> Vec<u16> {
        let count = self.count(512);
        let step = 65536 / (count + 1);
        let mut next = self.0.below(step) as u16;
        let mut list = Vec::with_capacity(count);
        for _ in 0..count {
            list.push(next);
            next = next.saturating_add(1 + self.0.below(step) as u16);
        }
        if count > 1 && self.0.once_in(8) {
            let i = 1 + self.0.below(count - 1);
            list[i] = if self.0.once_in(2) {
                list[i - 1]
            } else {
                self.0.number()
            };
        }
        list
    }

    fn name(&mut self) -> Vec<u8> {
        let mut name = Vec::new();
        let length = if self.0.once_in(4) {
            64
        } else {
            self.0.below(20)
        };
        while name.len() < length {
            match self.0.below(4) {
                0 => name.extend(self.0.pick(&CHARACTERS).as_bytes()),
                _ => name.push(b' ' + self.0.below(95) as u8),
            }
        }
        if self.0.once_in(2) {
            name.truncate(63);
        }
        if self.0.once_in(10) && !name.is_empty() {
            let at = self.0.below(name.len());
            name[at] = self.0.pick(&EDGES);
        }
        name
    }

    fn change_bytes(&mut self, datagram: &mut [u8]) {
        for _ in 0..1 + self.0.below(4) {
            if datagram.is_empty() {
                return;
            }
            // Headers are where the checks are.
            let end = datagram
                .len()
                .min(if self.0.once_in(3) { 2000 } else { 130 });
            let at = self.0.below(end);
            datagram[at] = match self.0.below(4) {
                0 => self.0.byte(),
                1 => self.0.pick(&EDGES),
                2 => datagram[at].wrapping_add(1),
                _ => datagram[at] ^ (1 << self.0.below(8)),
            };
        }
    }

    fn change_lengths(&mut self, datagram: &mut [u8], record: &Record) {
        for at in layers(record) {
            if at + 2 > datagram.len() || self.0.once_in(2) {
                continue;
            }
            let own = get_length(datagram, at);
            let length = match self.0.below(4) {
                0 => self.0.below(4096),
                1 => self.0.below(130),
                _ => (own + self.0.below(7)).saturating_sub(3),
            };
            put_length(datagram, at, length);
        }
    }

    fn resize(&mut self, datagram: &mut Vec<u8>, record: &Record) {
        let length = match self.0.below(3) {
            0 => self.0.below(datagram.len() + 1),
            1 => datagram.len() - 1 - self.0.below(12),
            _ => datagram.len() + 1 + self.0.below(20),
        };
        let fill = self.0.byte();
        datagram.resize(length, fill);
        let depth = self.0.below(4);
        mend(datagram, &layers(record), depth);
    }
}
