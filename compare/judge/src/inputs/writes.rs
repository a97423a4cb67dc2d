//! Records to write.

use super::names::{inside, BROKEN, CHARACTERS, EDGES};
use super::{samples, Sink};
use crate::record::Record;
use crate::request::Request;

/// Sizes around every limit, each into buffers around the packet's length.
pub fn rooms(sink: &mut Sink) {
    let data = [0, 1, 2, 511, 512, 513, 514, 515, 700];
    let data = data.map(|count| samples::data(b"Source_A", count));
    let discovery = [0, 1, 2, 3, 511, 512, 513, 514, 700];
    let discovery = discovery.map(|count| samples::discovery(b"Source_B", count));
    for record in data.into_iter().chain(discovery).chain([samples::sync()]) {
        let length = record.packet_length();
        for room in (0..=130).chain(length - 3..=length + 3).chain([1144, 2000]) {
            sink(Request::Pack(record.clone(), room));
        }
    }
}

fn with_name(record: &Record, name: &[u8]) -> Record {
    let mut record = record.clone();
    match &mut record {
        Record::Data(r) => r.name = name.to_vec(),
        Record::Discovery(r) => r.name = name.to_vec(),
        Record::Sync(_) => {}
    }
    record
}

fn put(name: &[u8], sink: &mut Sink) {
    for record in [samples::data(b"", 1), samples::discovery(b"", 1)] {
        let record = with_name(&record, name);
        let room = record.packet_length() + 5;
        sink(Request::Pack(record, room));
    }
}

/// Names of each length with each kind of character last, whole and broken, and inside; malformed names;
/// names with a zero.
pub fn names(sink: &mut Sink) {
    for character in CHARACTERS {
        for before in (0..=70).chain([127, 128, 200, 251]) {
            let mut name = vec![b'n'; before];
            name.extend(character.as_bytes());
            put(&name, sink);
            name.pop();
            put(&name, sink);
        }
    }
    for bytes in BROKEN {
        for before in 0..=63 {
            let name = [&vec![b'n'; before][..], bytes].concat();
            put(&name, sink);
        }
    }
    for name in inside() {
        put(&name, sink);
    }
    for zero in 0..=64 {
        let mut name = vec![b'n'; 64];
        name[zero.min(63)] = 0;
        put(&name[..zero.max(1)], sink);
        put(&name, sink);
        put(&name[..63], sink);
    }
    for a in EDGES {
        for b in EDGES {
            put(&[a, b], sink);
            put(&[b'n', a, b, 0x80], sink);
        }
    }
}

/// Several faults at once: the order of the refusals shows. Equal and falling pairs at each place.
pub fn refusals(sink: &mut Sink) {
    let names: [&[u8]; 5] = [b"ok", &[b'n'; 64], b"n\0n", b"\xff", &[0xff; 64]];
    for name in names {
        for records in [
            samples::data(name, 0),
            samples::data(name, 513),
            samples::data(name, 514),
            samples::discovery(name, 512),
            samples::discovery(name, 513),
            samples::discovery(name, 4),
        ] {
            bad_pairs(&records, sink);
        }
    }
}

fn bad_pairs(record: &Record, sink: &mut Sink) {
    let length = record.packet_length();
    for room in [length - 1, length, length + 1] {
        sink(Request::Pack(record.clone(), room));
        let Record::Discovery(list) = record else {
            continue;
        };
        for i in [1, 2, list.universes.len() - 1] {
            for falling in [0, 1] {
                let mut bad = list.clone();
                bad.universes[i] = bad.universes[i - 1] - falling;
                sink(Request::Pack(Record::Discovery(bad.clone()), room));
                // A second bad pair of the other kind: the first decides.
                bad.universes
                    .push(bad.universes[bad.universes.len() - 1] - 1 + falling);
                sink(Request::Pack(Record::Discovery(bad), room + 2));
            }
        }
    }
}
