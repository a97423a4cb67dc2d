//! Name fields of every kind.

use super::samples;
use crate::wire::*;

/// Bytes at which a range of UTF-8's table begins or ends, and their neighbours.
pub const EDGES: [u8; 27] = [
    0x00, 0x01, 0x7f, 0x80, 0x8f, 0x90, 0x9f, 0xa0, 0xbf, 0xc0, 0xc1, 0xc2, 0xdf, 0xe0, 0xe1, 0xec,
    0xed, 0xee, 0xef, 0xf0, 0xf1, 0xf3, 0xf4, 0xf5, 0xf7, 0xf8, 0xff,
];

/// Characters of each length, whole.
pub const CHARACTERS: [&str; 8] = [
    "A",
    "\u{7f}",
    "\u{80}",
    "é",
    "\u{7ff}",
    "\u{ffff}",
    "\u{10000}",
    "\u{10ffff}",
];

/// Names that are not UTF-8, each in its way: a character cut by another byte or by the end, a surrogate,
/// a byte that begins none.
pub const BROKEN: [&[u8]; 6] = [
    b"\xc3\x28",
    b"a\xc3",
    b"ab\xed\xa0\x80",
    b"\xe2\x82\xac\xc0",
    b"\xf0\x9f\x92",
    b"\xff",
];

/// The first 64 bytes as the name field of a data and of a discovery packet.
fn put(bytes: &[u8], sink: &mut dyn FnMut(Vec<u8>)) {
    for record in [samples::data(b"", 1), samples::discovery(b"", 1)] {
        let mut d = record.datagram();
        d[NAME..NAME + bytes.len()].copy_from_slice(bytes);
        sink(d);
    }
}

/// Names of each length with each kind of character last, with and without rubbish after the zero;
/// fields of 64 bytes without a zero.
pub fn fields(sink: &mut dyn FnMut(Vec<u8>)) {
    for character in CHARACTERS {
        for before in 0..=64 - character.len() {
            let mut field = vec![b'n'; before];
            field.extend(character.as_bytes());
            put(&field, sink);
            // Behind the zero anything goes, malformed bytes and further zeros, too.
            if field.len() < 64 {
                field.push(0);
                field.resize(64, 0xff);
                put(&field, sink);
                field[63] = 0;
                put(&field, sink);
            }
            // A character without its last byte, at the end of the field or before the zero.
            let mut short = vec![b'n'; before];
            short.extend(&character.as_bytes()[..character.len() - 1]);
            put(&short, sink);
        }
    }
    for byte in EDGES {
        put(&[byte; 64], sink);
        put(&[byte; 63], sink);
    }
}

/// How much text stands behind a character: little, up to the eighth byte from it and around that, and much.
const BEHIND: [usize; 6] = [1, 5, 6, 7, 8, 17];

/// Names with a character inside, whole or broken, and text on both sides of it: of every length in front.
pub fn inside() -> Vec<Vec<u8>> {
    let whole = CHARACTERS.iter().map(|character| character.as_bytes());
    let mut names = Vec::new();
    for bytes in whole.chain(BROKEN) {
        for before in 0..63 {
            for behind in BEHIND {
                names.push([&vec![b'n'; before], bytes, &vec![b'n'; behind]].concat());
            }
        }
    }
    names.retain(|name| name.len() < 64);
    names
}

/// The same in their field, with rubbish behind the zero.
pub fn inside_fields(sink: &mut dyn FnMut(Vec<u8>)) {
    for mut field in inside() {
        field.push(0);
        field.resize(64, 0xff);
        put(&field, sink);
    }
}

/// Malformed names behind fronts of each length. After the zero: zeros, bytes that could go on with a
/// character, bytes that never could.
pub fn broken(sink: &mut dyn FnMut(Vec<u8>)) {
    for bytes in BROKEN {
        for before in 0..=63 - bytes.len() {
            for rubbish in [0, 0x80, 0xff] {
                let mut field = vec![b'n'; before];
                field.extend(bytes);
                field.push(0);
                field.resize(64, rubbish);
                put(&field, sink);
            }
        }
    }
}

/// Sequences of up to four edge bytes: two and three in all ways, four behind the long leads.
pub fn sequences(sink: &mut dyn FnMut(Vec<u8>)) {
    for a in EDGES {
        for b in EDGES {
            put(&[a, b], sink);
            for c in EDGES {
                put(&[a, b, c], sink);
            }
        }
    }
    for a in [0xf0, 0xf1, 0xf3, 0xf4, 0xf5] {
        for b in EDGES {
            for c in [0x7f, 0x80, 0xbf, 0xc0] {
                for d in [0x00, 0x7f, 0x80, 0xbf, 0xc0] {
                    put(&[a, b, c, d], sink);
                }
            }
        }
    }
}
