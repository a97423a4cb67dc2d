//! The places of a datagram (document 01's byte layout) and small helpers on bytes.

pub const PREAMBLE: [u8; 16] = *b"\x00\x10\x00\x00ASC-E1.17\x00\x00\x00";

/// Where the layers start.
pub const ROOT: usize = 16;
pub const FRAMING: usize = 38;
pub const DMP: usize = 115;
pub const DISCOVERY: usize = 112;

/// Where single fields stand.
pub const ROOT_VECTOR: usize = 18;
pub const FRAMING_VECTOR: usize = 40;
pub const NAME: usize = 44;
pub const NAME_END: usize = 108;
pub const PRIORITY: usize = 108;
pub const DATA_SYNC: usize = 109;
pub const OPTIONS: usize = 112;
pub const UNIVERSE: usize = 113;
pub const COUNT: usize = 123;
pub const VALUES: usize = 125;
pub const SYNC_ADDRESS: usize = 45;
pub const PAGE: usize = 118;
pub const UNIVERSES: usize = 120;

/// Root vectors.
pub const ROOT_DATA: u32 = 4;
pub const ROOT_EXTENDED: u32 = 8;

/// The bits of a data packet's options.
pub const PREVIEW: u8 = 0x80;
pub const TERMINATED: u8 = 0x40;
pub const FORCE: u8 = 0x20;

pub fn get16(bytes: &[u8], at: usize) -> u16 {
    u16::from_be_bytes([bytes[at], bytes[at + 1]])
}

pub fn get32(bytes: &[u8], at: usize) -> u32 {
    u32::from(get16(bytes, at)) << 16 | u32::from(get16(bytes, at + 2))
}

pub fn put16(bytes: &mut [u8], at: usize, value: u16) {
    bytes[at..at + 2].copy_from_slice(&value.to_be_bytes());
}

pub fn put32(bytes: &mut [u8], at: usize, value: u32) {
    bytes[at..at + 4].copy_from_slice(&value.to_be_bytes());
}

/// The length in a flags and length field.
pub fn get_length(bytes: &[u8], at: usize) -> usize {
    usize::from(get16(bytes, at) & 0x0fff)
}

/// Writes flags 0x70 and the length; a field that lies past the end is left out.
pub fn put_length(bytes: &mut [u8], at: usize, length: usize) {
    if at + 2 <= bytes.len() {
        put16(bytes, at, 0x7000 | (length & 0x0fff) as u16);
    }
}

/// Lower-case hex, `-` for no bytes.
pub fn hex(bytes: &[u8]) -> String {
    if bytes.is_empty() {
        return "-".to_string();
    }
    let mut text = Vec::with_capacity(2 * bytes.len());
    push_hex(&mut text, bytes);
    String::from_utf8(text).expect("hex digits are ASCII")
}

pub fn push_hex(text: &mut Vec<u8>, bytes: &[u8]) {
    const DIGITS: &[u8; 16] = b"0123456789abcdef";
    for b in bytes {
        text.push(DIGITS[usize::from(b >> 4)]);
        text.push(DIGITS[usize::from(b & 15)]);
    }
}
