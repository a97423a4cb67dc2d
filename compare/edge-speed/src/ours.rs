//! Asks the proved calls what the judge asks the crate.

use judge::oracle::{Answer, FILL};
use judge::record::{Data, Discovery, Record, Sync};
use judge::refusal::Refusal;
use judge::request::Request;
use ledgerwren::{DataPacket, PacketData, SynchronizationPacket, UniverseDiscovery};

/// Told of a refusal that altered the buffer: no refusal of the crate's has this number.
const ALTERED: u8 = 255;

/// The answer; none where the request cannot be put in Rust, since its name is no `str`.
pub fn ask(request: &Request) -> Option<Answer> {
    match request {
        Request::Read(datagram) => Some(read(datagram)),
        Request::Pack(record, room) => pack(record, *room),
        Request::Universe(universe) => Some(address(*universe)),
    }
}

fn judged(refusal: ledgerwren::Refusal) -> Refusal {
    Refusal {
        number: refusal.number(),
        place: refusal.place(),
        value: refusal.value(),
    }
}

fn read(datagram: &[u8]) -> Answer {
    match ledgerwren::parse(datagram) {
        Ok(packet) => Answer::Read(record_of(packet)),
        Err(refusal) => Answer::ReadRefused(judged(refusal)),
    }
}

fn record_of(packet: ledgerwren::Packet) -> Record {
    let cid = packet.cid;
    match packet.data {
        PacketData::DataPacket(data) => Record::Data(Data {
            cid,
            name: data.source_name.as_bytes().to_vec(),
            priority: data.priority,
            sync: data.synchronization_address,
            sequence: data.sequence_number,
            options: u8::from(data.preview_data) << 7
                | u8::from(data.stream_terminated) << 6
                | u8::from(data.force_synchronization) << 5,
            universe: data.universe,
            values: data.property_values.to_vec(),
        }),
        PacketData::SynchronizationPacket(sync) => Record::Sync(Sync {
            cid,
            sequence: sync.sequence_number,
            address: sync.synchronization_address,
        }),
        PacketData::UniverseDiscoveryPacket(discovery) => Record::Discovery(Discovery {
            cid,
            name: discovery.source_name.as_bytes().to_vec(),
            page: discovery.page,
            last: discovery.last_page,
            universes: discovery.universes.iter().collect(),
        }),
        unknown => panic!("the judge does not know this kind of packet: {unknown:?}"),
    }
}

/// A data record as our call takes it.
pub fn data(record: &Data) -> Option<DataPacket<'_>> {
    Some(DataPacket {
        source_name: std::str::from_utf8(&record.name).ok()?,
        priority: record.priority,
        synchronization_address: record.sync,
        sequence_number: record.sequence,
        preview_data: record.options & 0x80 != 0,
        stream_terminated: record.options & 0x40 != 0,
        force_synchronization: record.options & 0x20 != 0,
        universe: record.universe,
        property_values: &record.values,
    })
}

pub fn synchronization(record: &Sync) -> SynchronizationPacket {
    SynchronizationPacket {
        sequence_number: record.sequence,
        synchronization_address: record.address,
    }
}

pub fn discovery(record: &Discovery) -> Option<UniverseDiscovery<'_>> {
    Some(UniverseDiscovery {
        source_name: std::str::from_utf8(&record.name).ok()?,
        page: record.page,
        last_page: record.last,
        universes: &record.universes,
    })
}

fn pack(record: &Record, room: usize) -> Option<Answer> {
    let mut buffer = vec![FILL; room];
    let written = match record {
        Record::Data(r) => ledgerwren::pack_data(&mut buffer, r.cid, &data(r)?),
        Record::Sync(r) => {
            ledgerwren::pack_synchronization(&mut buffer, r.cid, &synchronization(r))
        }
        Record::Discovery(r) => ledgerwren::pack_discovery(&mut buffer, r.cid, &discovery(r)?),
    };
    Some(match written {
        Ok(length) => Answer::Packed { length, buffer },
        Err(refusal) => {
            let mut refusal = judged(refusal);
            if buffer.iter().any(|byte| *byte != FILL) {
                refusal.number = ALTERED;
            }
            Answer::PackRefused(refusal)
        }
    })
}

fn address(universe: u16) -> Answer {
    let in_range = ledgerwren::is_universe_in_range(universe);
    let address = ledgerwren::universe_to_ipv4_multicast_addr(universe);
    assert_eq!(in_range, address.map(|_| ()), "the two calls at {universe}");
    match address {
        Ok(address) => Answer::Address(*address.ip(), address.port()),
        Err(refusal) => Answer::NoAddress(judged(refusal)),
    }
}
