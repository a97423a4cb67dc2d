//! What a packet says, in plain fields: laid out as a datagram, as a request, as a line.

use crate::wire::*;

#[derive(Clone)]
pub struct Data {
    pub cid: [u8; 16],
    pub name: Vec<u8>,
    pub priority: u8,
    pub sync: u16,
    pub sequence: u8,
    /// 0x80 preview, 0x40 terminated, 0x20 force synchronization.
    pub options: u8,
    pub universe: u16,
    pub values: Vec<u8>,
}

#[derive(Clone)]
pub struct Sync {
    pub cid: [u8; 16],
    pub sequence: u8,
    pub address: u16,
}

#[derive(Clone)]
pub struct Discovery {
    pub cid: [u8; 16],
    pub name: Vec<u8>,
    pub page: u8,
    pub last: u8,
    pub universes: Vec<u16>,
}

#[derive(Clone)]
pub enum Record {
    Data(Data),
    Sync(Sync),
    Discovery(Discovery),
}

impl Record {
    pub fn kind(&self) -> &'static str {
        match self {
            Record::Data(_) => "data",
            Record::Sync(_) => "sync",
            Record::Discovery(_) => "disc",
        }
    }

    pub fn packet_length(&self) -> usize {
        match self {
            Record::Data(r) => VALUES + r.values.len(),
            Record::Sync(_) => 49,
            Record::Discovery(r) => UNIVERSES + 2 * r.universes.len(),
        }
    }

    /// The name and whether there is one at all.
    pub fn name(&self) -> Option<&[u8]> {
        match self {
            Record::Data(r) => Some(&r.name),
            Record::Sync(_) => None,
            Record::Discovery(r) => Some(&r.name),
        }
    }

    /// The datagram by document 01's layout, made without the crate. A name is cut to its field.
    pub fn datagram(&self) -> Vec<u8> {
        match self {
            Record::Data(r) => r.datagram(),
            Record::Sync(r) => r.datagram(),
            Record::Discovery(r) => r.datagram(),
        }
    }

    /// The fields of a line, after its number.
    pub fn line(&self) -> String {
        match self {
            Record::Data(r) => r.line(),
            Record::Sync(r) => format!(
                "sync cid {} seq {} addr {}",
                hex(&r.cid),
                r.sequence,
                r.address
            ),
            Record::Discovery(r) => format!(
                "disc cid {} name {} page {} last {} universes {}",
                hex(&r.cid),
                hex(&r.name),
                r.page,
                r.last,
                hex(&big_endian(&r.universes))
            ),
        }
    }
}

impl Data {
    fn datagram(&self) -> Vec<u8> {
        let mut d = start(VALUES + self.values.len(), ROOT_DATA, 2, &self.cid);
        put_name(&mut d, &self.name);
        d[PRIORITY] = self.priority;
        put16(&mut d, DATA_SYNC, self.sync);
        d[OPTIONS - 1] = self.sequence;
        d[OPTIONS] = self.options;
        put16(&mut d, UNIVERSE, self.universe);
        let length = d.len() - DMP;
        put_length(&mut d, DMP, length);
        d[DMP + 2..COUNT].copy_from_slice(&[2, 0xa1, 0, 0, 0, 1]);
        put16(&mut d, COUNT, self.values.len() as u16);
        d[VALUES..].copy_from_slice(&self.values);
        d
    }

    fn line(&self) -> String {
        format!(
            "data cid {} name {} prio {} sync {} seq {} flags {} univ {} values {}",
            hex(&self.cid),
            hex(&self.name),
            self.priority,
            self.sync,
            self.sequence,
            flags(self.options),
            self.universe,
            hex(&self.values)
        )
    }
}

impl Sync {
    fn datagram(&self) -> Vec<u8> {
        let mut d = start(49, ROOT_EXTENDED, 1, &self.cid);
        d[SYNC_ADDRESS - 1] = self.sequence;
        put16(&mut d, SYNC_ADDRESS, self.address);
        d
    }
}

impl Discovery {
    fn datagram(&self) -> Vec<u8> {
        let length = UNIVERSES + 2 * self.universes.len();
        let mut d = start(length, ROOT_EXTENDED, 2, &self.cid);
        put_name(&mut d, &self.name);
        put_length(&mut d, DISCOVERY, length - DISCOVERY);
        put32(&mut d, DISCOVERY + 2, 1);
        d[PAGE] = self.page;
        d[PAGE + 1] = self.last;
        d[UNIVERSES..].copy_from_slice(&big_endian(&self.universes));
        d
    }
}

/// A datagram of zeros with preamble, root layer and the start of the framing layer.
fn start(length: usize, root_vector: u32, framing_vector: u32, cid: &[u8; 16]) -> Vec<u8> {
    let mut d = vec![0; length];
    d[..ROOT].copy_from_slice(&PREAMBLE);
    put_length(&mut d, ROOT, length - ROOT);
    put32(&mut d, ROOT_VECTOR, root_vector);
    d[ROOT_VECTOR + 4..FRAMING].copy_from_slice(cid);
    put_length(&mut d, FRAMING, length - FRAMING);
    put32(&mut d, FRAMING_VECTOR, framing_vector);
    d
}

fn put_name(datagram: &mut [u8], name: &[u8]) {
    let n = name.len().min(NAME_END - NAME);
    datagram[NAME..NAME + n].copy_from_slice(&name[..n]);
}

pub fn big_endian(numbers: &[u16]) -> Vec<u8> {
    numbers.iter().flat_map(|u| u.to_be_bytes()).collect()
}

/// Preview, terminated, force as three digits.
pub fn flags(options: u8) -> String {
    format!("{:03b}", options >> 5)
}
