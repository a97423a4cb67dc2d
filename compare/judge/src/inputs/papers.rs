//! The datagrams that docs/DIFFERENCES.md gives.

use crate::wire::PREAMBLE;
use std::str::SplitWhitespace;
use std::{env, fs};

/// What stands before each: a backquote and the preamble's letter.
const BEGIN: &str = "`P ";

/// Each text like `P 70 16 00 00 00 04 [16 zeros]`.
pub fn differences(sink: &mut dyn FnMut(Vec<u8>)) {
    let file = env::var("DIFFERENCES").expect("DIFFERENCES names the paper of that name");
    let text = fs::read_to_string(file).expect("the paper of differences can be read");
    assert!(text.contains(BEGIN), "the paper gives no datagram");
    for begun in text.split(BEGIN).skip(1) {
        let (words, _) = begun.split_once('`').expect("a datagram's end");
        sink(datagram(words));
    }
}

fn datagram(text: &str) -> Vec<u8> {
    let mut bytes = PREAMBLE.to_vec();
    let mut words = text.split_whitespace();
    while let Some(word) = words.next() {
        if let Some(count) = word.strip_prefix('[') {
            bytes.resize(bytes.len() + zeros(count, &mut words), 0);
        } else {
            bytes.push(u8::from_str_radix(word, 16).expect("a byte of a datagram"));
        }
    }
    bytes
}

/// The number of `[16 zeros]`, whose first word is taken.
fn zeros(count: &str, words: &mut SplitWhitespace) -> usize {
    assert_eq!(words.next(), Some("zeros]"), "what stands behind [{count}");
    count.parse().expect("how many zeros")
}
