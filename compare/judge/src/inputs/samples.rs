//! Good packets to start from.

use crate::record::{Data, Discovery, Record, Sync};
use crate::wire::{DISCOVERY, DMP, FRAMING, ROOT};

const CID: [u8; 16] = *b"\x11\x22\x33\x44\x55\x66\x77\x88\x99\xaa\xbb\xcc\xdd\xee\xff\x00";

pub fn sync() -> Record {
    Record::Sync(Sync {
        cid: CID,
        sequence: 7,
        address: 8000,
    })
}

pub fn data(name: &[u8], values: usize) -> Record {
    Record::Data(Data {
        cid: CID,
        name: name.to_vec(),
        priority: 100,
        sync: 7962,
        sequence: 154,
        options: 0xa0,
        universe: 1,
        values: (0..values).map(|i| i as u8).collect(),
    })
}

/// Universes 3, 10, 17 and so on.
pub fn discovery(name: &[u8], universes: usize) -> Record {
    Record::Discovery(Discovery {
        cid: CID,
        name: name.to_vec(),
        page: 1,
        last: 2,
        universes: (0..universes).map(|i| 3 + 7 * i as u16).collect(),
    })
}

/// One small packet of each kind.
pub fn small() -> Vec<Record> {
    vec![sync(), data(b"Source_A", 2), discovery(b"Source_B", 3)]
}

/// Small packets, with empty names and lists among them, and a packet without values, which the crate takes.
pub fn smallest() -> Vec<Record> {
    let mut records = small();
    records.extend([data(b"", 0), data(b"", 1), discovery(b"", 0)]);
    records
}

/// Full packets, and those one below.
pub fn large() -> Vec<Record> {
    vec![
        data(b"Source_A", 512),
        data(b"Source_A", 513),
        discovery(b"Source_B", 511),
        discovery(b"Source_B", 512),
    ]
}

/// Where the layers of a packet start, outermost first: each starts with its length field.
pub fn layers(record: &Record) -> Vec<usize> {
    match record {
        Record::Data(_) => vec![ROOT, FRAMING, DMP],
        Record::Sync(_) => vec![ROOT, FRAMING],
        Record::Discovery(_) => vec![ROOT, FRAMING, DISCOVERY],
    }
}
