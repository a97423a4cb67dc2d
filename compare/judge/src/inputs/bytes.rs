//! Single bytes and single fields of good packets.

use super::samples;
use crate::record::{Data, Record};
use crate::wire::*;

/// Each byte of a small packet of each kind at each of its 256 values.
pub fn each_byte(sink: &mut dyn FnMut(Vec<u8>)) {
    for record in samples::small() {
        let good = record.datagram();
        for at in 0..good.len() {
            for value in 0..=255 {
                let mut d = good.clone();
                d[at] = value;
                sink(d);
            }
        }
    }
}

const VECTORS: [u32; 15] = [
    0,
    1,
    2,
    3,
    4,
    5,
    7,
    8,
    9,
    0x0100_0004,
    0x0001_0002,
    0x0000_0101,
    0x0800_0000,
    0x8000_0001,
    u32::MAX,
];

/// Root and framing vectors in all pairs, with a framing length that is right, one above its part,
/// and one above root's part; then the vectors of the discovery layer.
pub fn vectors(sink: &mut dyn FnMut(Vec<u8>)) {
    for record in samples::small() {
        let good = record.datagram();
        let part = good.len() - FRAMING;
        for length in [part, part + 1, part + FRAMING - ROOT + 1] {
            for root in VECTORS {
                for framing in VECTORS {
                    let mut d = good.clone();
                    put_length(&mut d, FRAMING, length);
                    put32(&mut d, ROOT_VECTOR, root);
                    put32(&mut d, FRAMING_VECTOR, framing);
                    sink(d);
                }
            }
        }
    }
    let good = samples::discovery(b"Source_B", 3).datagram();
    for vector in VECTORS {
        let mut d = good.clone();
        put32(&mut d, DISCOVERY + 2, vector);
        sink(d);
    }
}

/// Numbers around the ends of the universe range and around the discovery universe.
pub const NUMBERS: [u16; 16] = [
    0, 1, 2, 255, 256, 511, 512, 32768, 63998, 63999, 64000, 64001, 64213, 64214, 64215, 65535,
];

/// Priority, sync address and universe at their boundaries, in all combinations.
pub fn boundaries(sink: &mut dyn FnMut(Vec<u8>)) {
    let Record::Data(good) = samples::data(b"", 1) else {
        unreachable!("a data record was asked for")
    };
    for priority in [0, 1, 199, 200, 201, 255] {
        for sync in NUMBERS {
            for universe in NUMBERS {
                let record = Record::Data(Data {
                    priority,
                    sync,
                    universe,
                    ..good.clone()
                });
                sink(record.datagram());
            }
        }
    }
    let good = samples::sync().datagram();
    for address in NUMBERS {
        let mut d = good.clone();
        put16(&mut d, SYNC_ADDRESS, address);
        sink(d);
    }
}
