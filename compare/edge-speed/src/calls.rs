//! The calls that are timed. None is inlined, so that neither side is cut down to what a case uses.

use crate::ours;
use crate::timing::{timer, Timer};
use judge::oracle;
use judge::record::Record;
use ledgerwren::{DataPacket, Packet, Refusal, SynchronizationPacket, UniverseDiscovery};
use sacn::error::errors::SacnError;
use sacn::packet::AcnRootLayerProtocol;
use std::hint::black_box;

#[inline(never)]
fn parse_ours(datagram: &[u8]) -> Result<Packet<'_>, Refusal> {
    ledgerwren::parse(datagram)
}

#[inline(never)]
fn parse_theirs(datagram: &[u8]) -> Result<AcnRootLayerProtocol<'_>, SacnError> {
    AcnRootLayerProtocol::parse(datagram)
}

#[inline(never)]
fn pack_data(buf: &mut [u8], cid: [u8; 16], packet: &DataPacket) -> Result<usize, Refusal> {
    ledgerwren::pack_data(buf, cid, packet)
}

#[inline(never)]
fn pack_synchronization(
    buf: &mut [u8],
    cid: [u8; 16],
    packet: &SynchronizationPacket,
) -> Result<usize, Refusal> {
    ledgerwren::pack_synchronization(buf, cid, packet)
}

#[inline(never)]
fn pack_discovery(
    buf: &mut [u8],
    cid: [u8; 16],
    packet: &UniverseDiscovery,
) -> Result<usize, Refusal> {
    ledgerwren::pack_discovery(buf, cid, packet)
}

#[inline(never)]
fn pack_theirs(buf: &mut [u8], packet: &AcnRootLayerProtocol) -> Result<(), SacnError> {
    packet.pack(buf)
}

/// Reading a datagram: ours and the crate's. What is read is dropped within the time.
pub fn reading(datagram: &[u8]) -> [Timer<'_>; 2] {
    let ours = timer(|| {
        black_box(&parse_ours(black_box(datagram)));
    });
    let theirs = timer(|| {
        black_box(&parse_theirs(black_box(datagram)));
    });
    [ours, theirs]
}

/// Writing a record into a buffer of this length: ours and the crate's.
pub fn writing(record: &Record, room: usize) -> [Timer<'_>; 2] {
    let packet = oracle::packet_of(record);
    let mut buf = vec![0; room];
    let theirs = timer(move || {
        black_box(&pack_theirs(black_box(&mut buf), black_box(&packet)));
    });
    [writing_ours(record, room), theirs]
}

fn writing_ours(record: &Record, room: usize) -> Timer<'_> {
    let mut buf = vec![0; room];
    match record {
        Record::Data(r) => {
            let packet = ours::data(r).expect("a name in UTF-8");
            timer(move || {
                black_box(&pack_data(black_box(&mut buf), r.cid, black_box(&packet)));
            })
        }
        Record::Sync(r) => {
            let packet = ours::synchronization(r);
            timer(move || {
                let buf = black_box(&mut buf);
                black_box(&pack_synchronization(buf, r.cid, black_box(&packet)));
            })
        }
        Record::Discovery(r) => {
            let packet = ours::discovery(r).expect("a name in UTF-8");
            timer(move || {
                black_box(&pack_discovery(
                    black_box(&mut buf),
                    r.cid,
                    black_box(&packet),
                ));
            })
        }
    }
}
