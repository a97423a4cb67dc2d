//! One question: encoded for the probe, and asked of the crate.

use crate::oracle::{self, Answer};
use crate::record::{big_endian, Data, Discovery, Record, Sync};

pub enum Request {
    Read(Vec<u8>),
    /// A record and the length of the buffer to write it into.
    Pack(Record, usize),
    Universe(u16),
}

impl Request {
    /// The probe's form; the first byte says what is asked.
    pub fn encode(&self) -> Vec<u8> {
        match self {
            Request::Read(datagram) => [&[0], &datagram[..]].concat(),
            Request::Pack(Record::Data(r), room) => encode_data(r, *room),
            Request::Pack(Record::Sync(r), room) => encode_sync(r, *room),
            Request::Pack(Record::Discovery(r), room) => encode_discovery(r, *room),
            Request::Universe(universe) => [&[4], &universe.to_be_bytes()[..]].concat(),
        }
    }

    /// What ours has to answer, by the crate.
    pub fn ask_crate(&self) -> Answer {
        match self {
            Request::Read(datagram) => oracle::read(datagram),
            Request::Pack(record, room) => oracle::pack(record, *room),
            Request::Universe(universe) => oracle::universe(*universe),
        }
    }
}

fn start(kind: u8, room: usize, cid: &[u8; 16]) -> Vec<u8> {
    let mut bytes = vec![kind];
    bytes.extend((room as u16).to_be_bytes());
    bytes.extend(cid);
    bytes
}

fn push_name(bytes: &mut Vec<u8>, name: &[u8]) {
    bytes.push(name.len() as u8);
    bytes.extend(name);
}

fn encode_data(r: &Data, room: usize) -> Vec<u8> {
    let mut bytes = start(1, room, &r.cid);
    bytes.push(r.priority);
    bytes.extend(r.sync.to_be_bytes());
    bytes.extend([r.sequence, r.options]);
    bytes.extend(r.universe.to_be_bytes());
    push_name(&mut bytes, &r.name);
    bytes.extend(&r.values);
    bytes
}

fn encode_sync(r: &Sync, room: usize) -> Vec<u8> {
    let mut bytes = start(2, room, &r.cid);
    bytes.push(r.sequence);
    bytes.extend(r.address.to_be_bytes());
    bytes
}

fn encode_discovery(r: &Discovery, room: usize) -> Vec<u8> {
    let mut bytes = start(3, room, &r.cid);
    bytes.extend([r.page, r.last]);
    push_name(&mut bytes, &r.name);
    bytes.extend(big_endian(&r.universes));
    bytes
}
