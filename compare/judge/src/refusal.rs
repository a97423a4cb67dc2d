//! The crate's errors and panics as document 01's refusals: number, place, value.

use crate::kinds;
use crate::wire::*;
use sacn::error::errors::SacnError;
use sacn::sacn_parse_pack_error::ParsePacketError::{self, *};
use std::fmt::Debug;

#[derive(Clone, Copy, PartialEq, Eq, PartialOrd, Ord)]
pub struct Refusal {
    pub number: u8,
    pub place: u8,
    pub value: u32,
}

/// The number of an error that document 01 does not expect: it is never equal to a refusal of ours.
const UNEXPECTED: (u8, u32) = (0, 0);

/// A panic while reading; its place is the layer whose code panicked.
pub const PANIC: u8 = 13;

/// A length beyond its part. The crate's text does not say how long, so the datagram is asked.
const LENGTH_BEYOND: u8 = 14;

/// The number, where the definition of crates/demands gives it the error's kind.
fn held_to_kind(number: u8, error: &impl Debug) -> u8 {
    if kinds::of(number) == kinds::name(error) {
        number
    } else {
        UNEXPECTED.0
    }
}

/// Document 01's number for an error of the crate, and the value the error carries.
fn number_and_value(error: &ParsePacketError, writing: bool) -> (u8, u32) {
    let (number, value) = by_kind(error, writing);
    (held_to_kind(number, error), value)
}

fn by_kind(error: &ParsePacketError, writing: bool) -> (u8, u32) {
    match error {
        // The crate's short-buffer error at writing is of a kind that stands for bad data at reading.
        ParseInvalidData(_) if writing => (20, 0),
        ParseInsufficientData(text) => insufficient(text),
        ParseInvalidData(text) => named_in(text).map_or(UNEXPECTED, |check| (check.number, 0)),
        ParsePduInvalidFlags(flags) => (3, u32::from(*flags)),
        PduInvalidVector(vector) => (4, *vector),
        PduInvalidLength(length) => (5, *length as u32),
        SourceNameNotNullTerminated() => (6, 0),
        ParseInvalidPriority(priority) => (8, u32::from(*priority)),
        ParseInvalidSyncAddr(address) => (9, u32::from(*address)),
        ParseInvalidUniverse(universe) => (10, u32::from(*universe)),
        ParseInvalidPage(_) => (11, 0),
        ParseInvalidUniverseOrder(text) => (12, number_behind(text, "Universe ")),
        PackInvalidData(text) if text == "Universes are not unique" => (25, 0),
        PackInvalidData(text) if text == "Universes are not sorted" => (26, 0),
        PackInvalidData(_) => (24, 0),
        _ => UNEXPECTED,
    }
}

/// One kind of the crate's stands for 1, 14, 15 and 16: its text tells which, and of 15 and 16 the value.
fn insufficient(text: &str) -> (u8, u32) {
    match named_in(text).map(|check| check.number) {
        Some(15) => (15, number_behind(text, "count field indicates ")),
        Some(16) => (16, number_behind(text, "length field (")),
        Some(number) => (number, 0),
        None if text.contains("pdu_info") => (1, 0),
        None => UNEXPECTED,
    }
}

/// The number behind these words of an error's text; it stands nowhere else.
fn number_behind(text: &str, words: &str) -> u32 {
    let behind = text.split_once(words).map_or("", |(_, behind)| behind);
    let digits = behind.split(|c: char| !c.is_ascii_digit()).next();
    digits.and_then(|d| d.parse().ok()).unwrap_or(u32::MAX)
}

pub fn of_reading(error: &SacnError, datagram: &[u8]) -> Refusal {
    let (number, value, place) = match error {
        // A name is looked at in a framing layer only. The error says how many of its bytes are good.
        SacnError::Str(utf8) => (held_to_kind(7, error), utf8.valid_up_to() as u32, 3),
        SacnError::SacnParsePackError(error) => {
            let (number, value) = number_and_value(error, false);
            let place = place(number, error, datagram);
            let value = match number {
                LENGTH_BEYOND => length_at(place, datagram),
                _ => value,
            };
            (number, value, place)
        }
        _ => (UNEXPECTED.0, UNEXPECTED.1, 0),
    };
    Refusal {
        number,
        place,
        value,
    }
}

pub fn of_writing(error: &SacnError) -> Refusal {
    let (number, value) = match error {
        SacnError::SacnParsePackError(error) => number_and_value(error, true),
        SacnError::IllegalUniverse(universe) => (held_to_kind(30, error), u32::from(*universe)),
        _ => UNEXPECTED,
    };
    Refusal {
        number,
        place: 0,
        value,
    }
}

/// A panic's place: its line in packet.rs is the call of the macro that has the layer's code.
pub fn of_panic(line: u32) -> Refusal {
    let text = sacn::PACKET_TEXT.lines().nth(line as usize - 1);
    let place = match text.and_then(|text| text.split('!').next()) {
        Some("impl_e131_root_layer") => 2,
        Some("impl_data_packet_framing_layer") => 3,
        Some("impl_data_packet_dmp_layer") => 4,
        Some("impl_universe_discovery_packet_framing_layer") => 3,
        Some("impl_universe_discovery_packet_universe_discovery_layer") => 5,
        _ => 0,
    };
    Refusal {
        number: PANIC,
        place,
        value: 0,
    }
}

/// A check that the crate's error names in its text: with which words, its number here, and its place.
pub struct Named {
    pub words: &'static str,
    pub number: u8,
    pub place: u8,
}

const fn named(words: &'static str, number: u8, place: u8) -> Named {
    Named {
        words,
        number,
        place,
    }
}

/// All of them. "pdu_info" is missing: every layer starts with it.
pub static NAMED: [Named; 17] = [
    named("ACN root layer preamble", 1, 1),
    named("invalid Preamble Size", 2, 1),
    named("invalid Post-amble Size", 2, 1),
    named("invalid ACN packet identifier", 2, 1),
    named("on ACN root layer pdu length", 14, 2),
    named("on E131 framing layer pdu length", 14, 3),
    named("on data packet framing layer pdu length", 14, 3),
    named("on synchronisation packet framing layer pdu length", 14, 3),
    named(
        "on universe discovery packet framing layer pdu length",
        14,
        3,
    ),
    named("on data packet dmp layer pdu length", 14, 4),
    named("dmp layer property value count", 15, 4),
    named("invalid Address and Data Type", 2, 4),
    named("invalid First Property Address", 2, 4),
    named("invalid Address Increment", 2, 4),
    named("only 512 DMX slots allowed", 2, 4),
    named("universe discovery layer pdu length", 16, 5),
    named("cannot be parsed into the given number of universes", 1, 6),
];

pub fn named_in(text: &str) -> Option<&'static Named> {
    NAMED.iter().find(|check| text.contains(check.words))
}

/// What the length field of a place's layer says.
fn length_at(place: u8, datagram: &[u8]) -> u32 {
    let layer = match place {
        2 => ROOT,
        3 => FRAMING,
        _ => DMP,
    };
    get_length(datagram, layer) as u32
}

/// By the error's text where it names the layer, by its kind where one layer alone has it, else by
/// the outermost layer that shows the fault: layers are read from the outside inwards.
fn place(number: u8, error: &ParsePacketError, datagram: &[u8]) -> u8 {
    match error {
        ParseInsufficientData(text) | ParseInvalidData(text) => {
            named_in(text).map_or_else(|| outermost(number, datagram), |check| check.place)
        }
        ParsePduInvalidFlags(_) | PduInvalidVector(_) | PduInvalidLength(_) => {
            outermost(number, datagram)
        }
        ParseInvalidPage(_) => 5,
        ParseInvalidUniverseOrder(_) => 6,
        _ => 3,
    }
}

fn outermost(number: u8, datagram: &[u8]) -> u8 {
    if root_shows(number, datagram) {
        2
    } else if framing_shows(number, datagram) {
        3
    } else if get32(datagram, ROOT_VECTOR) == ROOT_DATA {
        4
    } else {
        5
    }
}

fn flags_are_bad(datagram: &[u8], at: usize) -> bool {
    datagram[at] & 0xf0 != 0x70
}

fn root_shows(number: u8, datagram: &[u8]) -> bool {
    match number {
        1 => datagram.len() < ROOT + 6,
        3 => flags_are_bad(datagram, ROOT),
        4 => ![ROOT_DATA, ROOT_EXTENDED].contains(&get32(datagram, ROOT_VECTOR)),
        _ => false,
    }
}

fn framing_shows(number: u8, datagram: &[u8]) -> bool {
    let data = get32(datagram, ROOT_VECTOR) == ROOT_DATA;
    match number {
        1 => get_length(datagram, ROOT) < FRAMING - ROOT + 6,
        3 => flags_are_bad(datagram, FRAMING),
        4 => match get32(datagram, FRAMING_VECTOR) {
            1 => data,
            2 => false,
            _ => true,
        },
        _ => get32(datagram, FRAMING_VECTOR) == 1 || get_length(datagram, FRAMING) < 82,
    }
}
