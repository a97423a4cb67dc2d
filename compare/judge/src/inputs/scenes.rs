//! Captures for the follower from a seed: a few sources that send well and badly, or more of them than
//! the table holds.

use super::random::Draw;
use super::script::{self, EDGES};
use crate::capture;
use crate::follow::{Source, ROOM};
use crate::random::Random;
use crate::record::{Data, Record};
use crate::wire::{FORCE, PREVIEW, TERMINATED};
use sacn::packet::E131_MAX_MULTICAST_UNIVERSE;

/// Once in so many captures more sources send than the table holds.
const CROWDED: usize = 100;

/// In such a capture so many sources at most find no room, and so many packets follow their first ones.
const TOO_MANY: usize = 80;
const CROWD_PACKETS: usize = 1500;

/// The fewest packets of another capture, and how many more there may be.
const FEWEST: usize = 40;
const MORE: usize = 300;

/// Lengths that are too large or not in the shortest form.
const BAD_LENGTHS: [&[u8]; 4] = [b"\x80\x00", b"\x81\x40", b"\xff\x7f", b"\x80\x80\x01"];

/// A source, and the number it sent last.
struct Sender {
    source: Source,
    number: u8,
}

struct Scene {
    draw: Draw,
    senders: Vec<Sender>,
    capture: Vec<u8>,
}

/// The whole capture of a seed.
pub fn capture(seed: u64) -> Vec<u8> {
    let mut draw = Draw(Random::new(seed));
    let crowded = draw.0.once_in(CROWDED);
    let sources = if crowded {
        crowd(&mut draw.0)
    } else {
        company(&mut draw.0)
    };
    let sender = |source| Sender {
        source,
        number: draw.0.byte(),
    };
    let senders = sources.into_iter().map(sender).collect();
    let mut scene = Scene {
        draw,
        senders,
        capture: Vec::new(),
    };
    if crowded {
        scene.play_crowd();
    } else {
        scene.play();
    }
    scene.capture
}

fn crowd(random: &mut Random) -> Vec<Source> {
    let count = ROOM + 1 + random.below(TOO_MANY);
    (0..count).map(script::source).collect()
}

/// A few CIDs on a few universes each. They differ in one bit: a program that compares less of them is
/// found out.
fn company(random: &mut Random) -> Vec<Source> {
    let cid = if random.once_in(8) {
        [0; 16]
    } else {
        random.cid()
    };
    let universe = 1 + random.below(usize::from(E131_MAX_MULTICAST_UNIVERSE)) as u16;
    let cids: Vec<_> = (0..random.below(4)).map(|_| near(random, cid)).collect();
    let universes: Vec<_> = (0..random.below(4))
        .map(|_| universe ^ 1 << random.below(16))
        .filter(|near| (1..=E131_MAX_MULTICAST_UNIVERSE).contains(near))
        .collect();
    let mut sources = Vec::new();
    for cid in cids.into_iter().chain([cid]) {
        for &universe in universes.iter().chain([&universe]) {
            sources.push(Source { cid, universe });
        }
    }
    sources
}

fn near(random: &mut Random, cid: [u8; 16]) -> [u8; 16] {
    let mut near = cid;
    near[random.below(16)] ^= 1 << random.below(8);
    near
}

impl Scene {
    fn put(&mut self, datagram: &[u8]) {
        capture::write_entry(&mut self.capture, datagram).expect("a vector takes every byte");
    }

    fn play(&mut self) {
        for _ in 0..FEWEST + self.draw.0.below(MORE) {
            let datagram = match self.draw.0.below(16) {
                0 => self.other(),
                1 => self.damaged(),
                _ => self.data().datagram(),
            };
            self.put(&datagram);
        }
        match self.draw.0.below(8) {
            0 => self.cut(),
            1 => self.bad(),
            _ => {}
        }
    }

    /// All send; then one here and one there, and many streams end, so that others find room.
    fn play_crowd(&mut self) {
        for k in 0..self.senders.len() {
            let Sender { source, number } = self.senders[k];
            self.put(&Record::Data(script::data(source, number, 0)).datagram());
        }
        for _ in 0..CROWD_PACKETS {
            let mut data = self.next();
            if self.draw.0.once_in(5) {
                data.options |= TERMINATED;
            }
            self.put(&Record::Data(data).datagram());
        }
    }

    fn any(&mut self) -> Source {
        let k = self.draw.0.below(self.senders.len());
        self.senders[k].source
    }

    /// The next packet of any source.
    fn next(&mut self) -> Data {
        let step = self.step();
        let random = &mut self.draw.0;
        let k = random.below(self.senders.len());
        let sender = &mut self.senders[k];
        let number = sender.number.wrapping_add_signed(step);
        // A late number is mostly a packet that took long, and now and then a source that starts again.
        if step > 0 || random.once_in(3) {
            sender.number = number;
        }
        script::data(sender.source, number, 0)
    }

    /// From the number a source sent last to the next: mostly one, and all that goes wrong.
    fn step(&mut self) -> i8 {
        let random = &mut self.draw.0;
        match random.below(16) {
            0..=7 => 1,
            8 => 2 + random.below(8) as i8,
            9 => 0,
            10..=11 => -1 - random.below(30) as i8,
            12..=13 => random.byte() as i8,
            _ => random.pick(&EDGES),
        }
    }

    fn data(&mut self) -> Record {
        let mut data = self.next();
        let random = &mut self.draw.0;
        for (option, times) in [(TERMINATED, 24), (PREVIEW, 12), (FORCE, 12)] {
            if random.once_in(times) {
                data.options |= option;
            }
        }
        // Without values it is refused, and moves nothing.
        let count = match random.below(32) {
            0 => 513,
            1 => 0,
            _ => 1 + random.below(3),
        };
        data.values = random.bytes(count);
        Record::Data(data)
    }

    /// A packet of another kind from a source that sends data, too.
    fn other(&mut self) -> Vec<u8> {
        let source = self.any();
        let record = if self.draw.0.once_in(2) {
            script::sync(source, self.draw.0.byte())
        } else {
            script::discovery(source)
        };
        record.datagram()
    }

    /// A packet of a source cut short, or any datagram, mostly a damaged one.
    fn damaged(&mut self) -> Vec<u8> {
        if self.draw.0.once_in(2) {
            return self.draw.datagram();
        }
        let mut datagram = self.data().datagram();
        datagram.truncate(self.draw.0.below(datagram.len()));
        datagram
    }

    /// Stops inside an entry or its length.
    fn cut(&mut self) {
        let whole = self.capture.len();
        let datagram = self.data().datagram();
        self.put(&datagram);
        let more = self.capture.len() - whole;
        self.capture
            .truncate(whole + 1 + self.draw.0.below(more - 1));
    }

    /// Puts a bad length, and behind it an entry that nobody may follow.
    fn bad(&mut self) {
        let length = self.draw.0.pick(&BAD_LENGTHS);
        self.capture.extend(length);
        let datagram = self.data().datagram();
        self.put(&datagram);
    }
}
