//! How often each record and each refusal was met, by which of the crate's tests lengths and counts were
//! refused, and with which numbers of good bytes.

use crate::exception::{NOTHING_READ, NOTHING_WRITTEN};
use crate::oracle::{self, Answer};
use crate::refusal::NAMED;
use crate::request::Request;
use std::collections::{BTreeMap, BTreeSet};

#[derive(Clone, Copy, PartialEq, Eq, PartialOrd, Ord)]
pub enum Met {
    Read(&'static str),
    /// Number and place.
    ReadRefused(u8, u8),
    Packed(&'static str),
    PackRefused(u8),
    Address,
    NoAddress(u8),
}

use Met::*;

/// All that can occur. What is met and not listed here is a fault, too.
const EXPECTED: [Met; 48] = [
    Read("data"),
    Read("sync"),
    Read("disc"),
    ReadRefused(1, 1),
    ReadRefused(2, 1),
    ReadRefused(1, 2),
    ReadRefused(3, 2),
    ReadRefused(4, 2),
    ReadRefused(13, 2),
    ReadRefused(14, 2),
    ReadRefused(1, 3),
    ReadRefused(3, 3),
    ReadRefused(4, 3),
    ReadRefused(5, 3),
    ReadRefused(6, 3),
    ReadRefused(7, 3),
    ReadRefused(8, 3),
    ReadRefused(9, 3),
    ReadRefused(10, 3),
    ReadRefused(13, 3),
    ReadRefused(14, 3),
    ReadRefused(1, 4),
    ReadRefused(2, 4),
    ReadRefused(3, 4),
    ReadRefused(4, 4),
    ReadRefused(13, 4),
    ReadRefused(14, 4),
    ReadRefused(15, 4),
    ReadRefused(17, 4),
    ReadRefused(3, 5),
    ReadRefused(4, 5),
    ReadRefused(5, 5),
    ReadRefused(11, 5),
    ReadRefused(16, 5),
    ReadRefused(12, 6),
    Packed("data"),
    Packed("sync"),
    Packed("disc"),
    PackRefused(20),
    PackRefused(21),
    PackRefused(22),
    PackRefused(23),
    PackRefused(24),
    PackRefused(25),
    PackRefused(26),
    PackRefused(27),
    Address,
    NoAddress(30),
];

/// What document 01 writes down and no input reaches, with the reason.
const UNREACHABLE: [(&str, &str); 6] = [
    (
        "1 at place 6",
        "the count is made from the part: (length - 8) / 2 universes always fit",
    ),
    (
        "1 at place 5",
        "a discovery framing length of 82 or more leaves the layer 8 bytes, and 6 are asked for",
    ),
    (
        "5 at place 5, length below 8",
        "the length equals the part, which has 8 bytes or more; 5 at place 5 is a length above 1032",
    ),
    (
        "13 in sync and discovery framing",
        "their lengths, 11 and at least 82, are asked for before the fields",
    ),
    (
        "13 at places 5 and 6",
        "the part has 8 bytes or more, and the list is whole",
    ),
    ("31", "copying universes out is not the crate's; the probe has no request for it"),
];

/// The numbers besides 1 that are the crate's one kind of error. Several of its tests share one, and a place.
const LENGTHS: [u8; 3] = [14, 15, 16];

/// The refusals that stand where the crate took the packet, and what it did.
const TAKEN: [(Met, &str); 2] = [
    (
        ReadRefused(NOTHING_READ.number, NOTHING_READ.place),
        "the crate reads it",
    ),
    (PackRefused(NOTHING_WRITTEN.number), "the crate writes it"),
];

/// The refusals whose value is how many bytes of a name are good.
const MALFORMED: [Met; 2] = [ReadRefused(7, 3), PackRefused(23)];

/// A name has at most 63 bytes, and one of them is bad.
const MOST_GOOD: u32 = 62;

#[derive(Default)]
pub struct Tally {
    met: BTreeMap<Met, u64>,
    lengths: BTreeMap<&'static str, u64>,
    good_bytes: BTreeMap<Met, BTreeSet<u32>>,
}

impl Tally {
    pub fn count(&mut self, request: &Request, answer: &Answer) {
        let met = met(request, answer);
        *self.met.entry(met).or_default() += 1;
        if let (Request::Read(datagram), ReadRefused(number, _)) = (request, met) {
            if LENGTHS.contains(&number) {
                let words = oracle::words(datagram).expect("the words of a refused length");
                *self.lengths.entry(words).or_default() += 1;
            }
        }
        if let Answer::ReadRefused(r) | Answer::PackRefused(r) = answer {
            if MALFORMED.contains(&met) {
                self.good_bytes.entry(met).or_default().insert(r.value);
            }
        }
    }

    /// Prints how often each test of the crate told 14, 15 or 16; says whether each did.
    fn print_lengths(&self) -> bool {
        let mut each = true;
        for check in NAMED.iter().filter(|check| LENGTHS.contains(&check.number)) {
            let (number, place, words) = (check.number, check.place, check.words);
            let count = *self.lengths.get(words).unwrap_or(&0);
            println!("{number} place {place}, \"{words}\": {count}");
            if count == 0 {
                println!("never met: {number} place {place}, \"{words}\"");
                each = false;
            }
        }
        each
    }

    /// Prints which values of the refusals of a malformed name were met; says whether all that can occur
    /// were, and no other.
    fn print_good_bytes(&self) -> bool {
        let all: BTreeSet<u32> = (0..=MOST_GOOD).collect();
        let none = BTreeSet::new();
        let mut whole = true;
        for refusal in MALFORMED {
            let (words, values) = (name(refusal), self.good_bytes.get(&refusal));
            let values = values.unwrap_or(&none);
            let count = values.intersection(&all).count();
            println!(
                "{words}: {count} of the {} values 0..={MOST_GOOD}",
                all.len()
            );
            for value in all.difference(values) {
                println!("never met: {words} value {value}");
            }
            for value in values.difference(&all) {
                println!("met, and it should not occur: {words} value {value}");
            }
            whole &= *values == all;
        }
        whole
    }

    /// Prints the table; says whether all that can occur was met, and nothing else.
    pub fn print(&self) -> bool {
        for met in EXPECTED {
            let taken = TAKEN.iter().find(|(refused, _)| *refused == met);
            let words = taken.map_or(String::new(), |(_, words)| format!("  {words}"));
            let count = self.met.get(&met).unwrap_or(&0);
            println!("{:<28}{count:>10}{words}", name(met));
        }
        let lengths = self.print_lengths();
        let good_bytes = self.print_good_bytes();
        println!("cannot occur:");
        for (what, why) in UNREACHABLE {
            println!("  {what}: {why}");
        }
        let missed = EXPECTED.iter().filter(|met| !self.met.contains_key(met));
        let missed: Vec<_> = missed.map(|met| name(*met)).collect();
        let strange = self.met.keys().filter(|met| !EXPECTED.contains(met));
        let strange: Vec<_> = strange.map(|met| name(*met)).collect();
        for what in &missed {
            println!("never met: {what}");
        }
        for what in &strange {
            println!("met, and it should not occur: {what}");
        }
        missed.is_empty() && strange.is_empty() && lengths && good_bytes
    }
}

pub fn met(request: &Request, answer: &Answer) -> Met {
    match answer {
        Answer::Read(record) => Read(record.kind()),
        Answer::ReadRefused(r) => ReadRefused(r.number, r.place),
        Answer::Packed { .. } => match request {
            Request::Pack(record, _) => Packed(record.kind()),
            _ => unreachable!("only a request to pack is packed"),
        },
        Answer::PackRefused(r) => PackRefused(r.number),
        Answer::Address(..) => Address,
        Answer::NoAddress(r) => NoAddress(r.number),
    }
}

fn name(met: Met) -> String {
    match met {
        Read(kind) => format!("read {kind}"),
        ReadRefused(number, place) => format!("read refused {number} place {place}"),
        Packed(kind) => format!("packed {kind}"),
        PackRefused(number) => format!("pack refused {number}"),
        Address => "universe address".to_string(),
        NoAddress(number) => format!("universe refused {number}"),
    }
}
