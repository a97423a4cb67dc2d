//! Datagrams that stop early or go on too long.

use super::samples;
use crate::record::Record;
use crate::wire::*;

const INTERESTING: [u8; 16] = [
    0, 1, 2, 4, 8, 0x0f, 0x10, 0x11, 0x41, 0x70, 0x7f, 0x80, 0xa1, 0xef, 0xf0, 0xff,
];

/// No byte, each one byte, two interesting bytes.
pub fn short(sink: &mut dyn FnMut(Vec<u8>)) {
    sink(Vec::new());
    (0..=255).for_each(|b| sink(vec![b]));
    for a in INTERESTING {
        INTERESTING.iter().for_each(|b| sink(vec![a, *b]));
    }
}

/// Makes the outer `depth` lengths, and with all three the DMP count, say what the datagram has.
pub fn mend(datagram: &mut [u8], layers: &[usize], depth: usize) {
    let whole = datagram.len();
    for at in layers.iter().take(depth) {
        put_length(datagram, *at, whole.saturating_sub(*at));
    }
    if depth == 3 && layers.contains(&DMP) && whole >= VALUES {
        put16(datagram, COUNT, (whole - VALUES) as u16);
    }
}

/// Each packet cut at every byte, as it is and with its outer lengths mended.
pub fn cuts(sink: &mut dyn FnMut(Vec<u8>)) {
    let all = samples::smallest().into_iter().chain(samples::large());
    for record in all {
        let whole = record.datagram();
        for end in 0..=whole.len() {
            for depth in 0..=samples::layers(&record).len() {
                sink(resized(&record, &whole, end, depth));
            }
        }
    }
}

/// Each packet with bytes behind it, as it is and with its outer lengths mended.
pub fn padded(sink: &mut dyn FnMut(Vec<u8>)) {
    let all = samples::smallest().into_iter().chain(samples::large());
    for record in all {
        let whole = record.datagram();
        for more in [1, 2, 3, 4, 16, 100, 513, 1024] {
            for depth in 0..=samples::layers(&record).len() {
                sink(resized(&record, &whole, whole.len() + more, depth));
            }
        }
    }
}

fn resized(record: &Record, whole: &[u8], length: usize, depth: usize) -> Vec<u8> {
    let mut datagram = whole.to_vec();
    datagram.resize(length, 0x5a);
    mend(&mut datagram, &samples::layers(record), depth);
    datagram
}
