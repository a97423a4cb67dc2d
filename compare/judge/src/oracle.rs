//! Asks the crate, and says by its answer what ours has to be: the same, but for request 07's exception.

use crate::exception;
use crate::record::{Data, Discovery, Record, Sync};
use crate::refusal::{self, Refusal};
use crate::wire::hex;
use sacn::packet::*;
use std::cell::Cell;
use std::net::Ipv4Addr;
use std::panic;

/// What a buffer to pack into is filled with before the call.
pub const FILL: u8 = 0xee;

pub enum Answer {
    Read(Record),
    ReadRefused(Refusal),
    Packed { length: usize, buffer: Vec<u8> },
    PackRefused(Refusal),
    Address(Ipv4Addr, u16),
    NoAddress(Refusal),
}

impl Answer {
    /// The probe's line for this answer, after its number.
    pub fn line(&self) -> String {
        match self {
            Answer::Read(record) => record.line(),
            Answer::ReadRefused(r) | Answer::NoAddress(r) => refused(r),
            Answer::Packed { length, buffer } => format!("packed {length} {}", hex(buffer)),
            // Nothing lent is altered by a refusal: document 01's rule, not the crate's.
            Answer::PackRefused(r) => refused(r) + " kept",
            Answer::Address(address, port) => format!("address {address} port {port}"),
        }
    }
}

pub fn refused(r: &Refusal) -> String {
    format!("refused {} place {} value {}", r.number, r.place, r.value)
}

thread_local! {
    static PANIC_LINE: Cell<u32> = const { Cell::new(0) };
}

/// The crate's panics are answers: their line is kept, and nothing is printed. A panic of our own
/// code is told as usual.
pub fn keep_panics_of_crate() {
    let usual = panic::take_hook();
    panic::set_hook(Box::new(move |info| match info.location() {
        Some(at) if at.file().ends_with("packet.rs") => PANIC_LINE.set(at.line()),
        _ => usual(info),
    }));
}

/// Reads a datagram by the crate. A packet without a start code is refused, though the crate reads it.
pub fn parse(datagram: &[u8]) -> Result<AcnRootLayerProtocol<'_>, Refusal> {
    match panic::catch_unwind(|| AcnRootLayerProtocol::parse(datagram)) {
        Ok(Ok(packet)) => match exception::of_reading(datagram, &packet) {
            Some(refusal) => Err(refusal),
            None => Ok(packet),
        },
        Ok(Err(error)) => Err(refusal::of_reading(&error, datagram)),
        Err(_) => Err(refusal::of_panic(PANIC_LINE.get())),
    }
}

/// The words with which the crate's error names its check; none where there is no error that does.
pub fn words(datagram: &[u8]) -> Option<&'static str> {
    let answer = panic::catch_unwind(|| AcnRootLayerProtocol::parse(datagram).map(|_| ()));
    let text = format!("{:?}", answer.ok()?.err()?);
    refusal::named_in(&text).map(|check| check.words)
}

pub fn read(datagram: &[u8]) -> Answer {
    match parse(datagram) {
        Ok(packet) => Answer::Read(record_of(packet)),
        Err(refusal) => Answer::ReadRefused(refusal),
    }
}

/// The options byte of the three bits.
pub fn options(data: &DataPacketFramingLayer) -> u8 {
    u8::from(data.preview_data) << 7
        | u8::from(data.stream_terminated) << 6
        | u8::from(data.force_synchronization) << 5
}

fn record_of(packet: AcnRootLayerProtocol) -> Record {
    let cid = packet.pdu.cid.into_bytes();
    match packet.pdu.data {
        E131RootLayerData::DataPacket(data) => Record::Data(Data {
            cid,
            options: options(&data),
            name: data.source_name.into_owned().into_bytes(),
            priority: data.priority,
            sync: data.synchronization_address,
            sequence: data.sequence_number,
            universe: data.universe,
            values: data.data.property_values.into_owned(),
        }),
        E131RootLayerData::SynchronizationPacket(sync) => Record::Sync(Sync {
            cid,
            sequence: sync.sequence_number,
            address: sync.synchronization_address,
        }),
        E131RootLayerData::UniverseDiscoveryPacket(disc) => Record::Discovery(Discovery {
            cid,
            name: disc.source_name.into_owned().into_bytes(),
            page: disc.data.page,
            last: disc.data.last_page,
            universes: disc.data.universes.into_owned(),
        }),
    }
}

/// Writes a record by the crate, or, where its name lies outside the crate's domain, answers what
/// document 01 says. A packet without a start code is refused, though the crate writes it.
pub fn pack(record: &Record, room: usize) -> Answer {
    if let Some((number, value)) = name_refusal(record) {
        let short = room < record.packet_length();
        let (number, value) = if short { (20, 0) } else { (number, value) };
        return Answer::PackRefused(Refusal {
            number,
            place: 0,
            value,
        });
    }
    let packet = packet_of(record);
    let mut buffer = vec![FILL; room];
    match panic::catch_unwind(panic::AssertUnwindSafe(|| packet.pack(&mut buffer))) {
        Ok(Ok(())) => match exception::of_writing(record, &buffer) {
            Some(refusal) => Answer::PackRefused(refusal),
            None => Answer::Packed {
                length: packet.len(),
                buffer,
            },
        },
        Ok(Err(error)) => Answer::PackRefused(refusal::of_writing(&error)),
        Err(_) => Answer::PackRefused(refusal::of_panic(PANIC_LINE.get())),
    }
}

/// Document 01's refusals of a name at writing and their values, in its order; the crate has none of
/// them. The standard library says how many bytes are good.
fn name_refusal(record: &Record) -> Option<(u8, u32)> {
    let name = record.name()?;
    if name.len() > 63 {
        Some((21, 0))
    } else if name.contains(&0) {
        Some((22, 0))
    } else {
        let malformed = std::str::from_utf8(name).err();
        malformed.map(|error| (23, error.valid_up_to() as u32))
    }
}

/// A record as the crate takes it; its name is well-formed UTF-8.
pub fn packet_of(record: &Record) -> AcnRootLayerProtocol<'_> {
    let (cid, data) = match record {
        Record::Data(r) => (r.cid, E131RootLayerData::DataPacket(data_of(r))),
        Record::Sync(r) => (
            r.cid,
            E131RootLayerData::SynchronizationPacket(SynchronizationPacketFramingLayer {
                sequence_number: r.sequence,
                synchronization_address: r.address,
            }),
        ),
        Record::Discovery(r) => (
            r.cid,
            E131RootLayerData::UniverseDiscoveryPacket(UniverseDiscoveryPacketFramingLayer {
                source_name: text(&r.name).into(),
                data: UniverseDiscoveryPacketUniverseDiscoveryLayer {
                    page: r.page,
                    last_page: r.last,
                    universes: (&r.universes[..]).into(),
                },
            }),
        ),
    };
    let cid = uuid::Uuid::from_bytes(cid);
    AcnRootLayerProtocol {
        pdu: E131RootLayer { cid, data },
    }
}

fn data_of(r: &Data) -> DataPacketFramingLayer<'_> {
    DataPacketFramingLayer {
        source_name: text(&r.name).into(),
        priority: r.priority,
        synchronization_address: r.sync,
        sequence_number: r.sequence,
        preview_data: r.options & 0x80 != 0,
        stream_terminated: r.options & 0x40 != 0,
        force_synchronization: r.options & 0x20 != 0,
        universe: r.universe,
        data: DataPacketDmpLayer {
            property_values: (&r.values[..]).into(),
        },
    }
}

fn text(name: &[u8]) -> &str {
    std::str::from_utf8(name).expect("the name was checked")
}

/// The multicast address by the crate. Its range check has to say the same.
pub fn universe(universe: u16) -> Answer {
    let in_range = is_universe_in_range(universe);
    match universe_to_ipv4_multicast_addr(universe) {
        Ok(address) => {
            assert!(
                in_range.is_ok(),
                "the crate contradicts itself at {universe}"
            );
            let address = address.as_socket_ipv4().expect("an IPv4 address");
            Answer::Address(*address.ip(), address.port())
        }
        Err(error) => {
            assert!(
                in_range.is_err(),
                "the crate contradicts itself at {universe}"
            );
            Answer::NoAddress(refusal::of_writing(&error))
        }
    }
}
