//! Length fields near their boundaries.

use super::samples;
use crate::record::Record;
use crate::wire::*;

/// Values at which some check turns, with their neighbours.
fn near(own: usize) -> Vec<usize> {
    let mut values: Vec<usize> = (0..=160).collect();
    for middle in [
        own, 512, 523, 590, 600, 622, 638, 1032, 1106, 1128, 2048, 4092,
    ] {
        values.extend(middle.saturating_sub(4)..=(middle + 4).min(4095));
    }
    values.sort_unstable();
    values.dedup();
    values
}

/// Each length field, and the DMP count, at each value, with and without bytes behind.
pub fn single(sink: &mut dyn FnMut(Vec<u8>)) {
    for record in samples::smallest() {
        for more in [0, 1, 2, 64, 1200] {
            let mut datagram = record.datagram();
            datagram.resize(datagram.len() + more, 0x5a);
            for at in samples::layers(&record) {
                set_each(&datagram, at, sink);
            }
            if let Record::Data(_) = record {
                counts(&datagram, sink);
            }
        }
    }
}

fn set_each(datagram: &[u8], at: usize, sink: &mut dyn FnMut(Vec<u8>)) {
    for length in near(get_length(datagram, at)) {
        let mut d = datagram.to_vec();
        put_length(&mut d, at, length);
        sink(d);
    }
}

fn counts(datagram: &[u8], sink: &mut dyn FnMut(Vec<u8>)) {
    for count in (0..=20).chain(508..=518).chain(65530..=65535) {
        let mut d = datagram.to_vec();
        put16(&mut d, COUNT, count);
        sink(d);
    }
}

/// All lengths of a packet a little off at once, in every way.
pub fn joint(sink: &mut dyn FnMut(Vec<u8>)) {
    for record in samples::smallest() {
        for more in [0, 4] {
            let mut datagram = record.datagram();
            datagram.resize(datagram.len() + more, 0);
            shift(&datagram, &samples::layers(&record), sink);
        }
    }
}

fn shift(datagram: &[u8], layers: &[usize], sink: &mut dyn FnMut(Vec<u8>)) {
    let Some((at, rest)) = layers.split_first() else {
        return sink(datagram.to_vec());
    };
    let own = get_length(datagram, *at);
    for length in own.saturating_sub(3)..=own + 4 {
        let mut d = datagram.to_vec();
        put_length(&mut d, *at, length);
        shift(&d, rest, sink);
    }
}

/// Data framing parts of every size up to the DMP layer, with each field good and bad: a missing
/// field counts when its turn comes, and a small framing length only after all fields.
pub fn missing_fields(sink: &mut dyn FnMut(Vec<u8>)) {
    let good = samples::data(b"Source_A", 1).datagram();
    for part in 0..=good.len() - FRAMING {
        for framing in [6, 70, 76, 77, 78, part] {
            for change in bad_fields() {
                let mut d = good.clone();
                put_length(&mut d, ROOT, FRAMING - ROOT + part);
                put_length(&mut d, FRAMING, framing);
                if let Some((at, value)) = change {
                    put16(&mut d, at, value);
                }
                sink(d);
            }
        }
    }
}

/// Two bytes that spoil one field: name, priority (its sync address stays good), sync, universe.
fn bad_fields() -> [Option<(usize, u16)>; 5] {
    [
        None,
        Some((NAME, 0xff00)),
        Some((PRIORITY, 0xc900)),
        Some((DATA_SYNC, 64000)),
        Some((UNIVERSE, 0)),
    ]
}

/// DMP parts of 0 to 14 bytes with each small length, each field good and bad.
pub fn short_dmp(sink: &mut dyn FnMut(Vec<u8>)) {
    let good = samples::data(b"Source_A", 4).datagram();
    let faults: [Option<usize>; 6] = [None, Some(2), Some(3), Some(5), Some(7), Some(9)];
    for part in 0..=14 {
        for length in 0..=16 {
            for fault in faults {
                let mut d = good.clone();
                put_length(&mut d, ROOT, DMP - ROOT + part);
                put_length(&mut d, FRAMING, DMP - FRAMING + part);
                put_length(&mut d, DMP, length);
                put16(&mut d, COUNT, (length as u16).saturating_sub(10));
                if let Some(at) = fault {
                    d[DMP + at] ^= 0x40;
                }
                sink(d);
            }
        }
    }
}

/// Discovery framing lengths around 82 with small discovery lengths.
pub fn short_discovery(sink: &mut dyn FnMut(Vec<u8>)) {
    let good = samples::discovery(b"Source_B", 4).datagram();
    for framing in 60..=90 {
        for length in 0..=18 {
            let mut d = good.clone();
            put_length(&mut d, FRAMING, framing);
            put_length(&mut d, DISCOVERY, length);
            sink(d);
        }
    }
}
