//! Whole datagrams, read.

use crate::ffi;
use crate::{Cid, Refusal, Universes};

/// A datagram that was read. It borrows from the datagram, and copies nothing of it but the CID.
#[derive(Clone, Copy, PartialEq, Eq, Hash, Debug)]
#[non_exhaustive]
pub struct Packet<'a> {
    /// The sender's CID.
    pub cid: Cid,
    /// What the packet is.
    pub data: PacketData<'a>,
}

/// The kinds of packet.
#[derive(Clone, Copy, PartialEq, Eq, Hash, Debug)]
#[non_exhaustive]
pub enum PacketData<'a> {
    /// Values of a universe.
    DataPacket(DataPacket<'a>),
    /// A time at which values are to be shown.
    SynchronizationPacket(SynchronizationPacket),
    /// Universes on which a source sends.
    UniverseDiscoveryPacket(UniverseDiscoveryPacket<'a>),
}

/// A data packet: what is read, and what [`pack_data`](crate::pack_data) takes.
#[derive(Clone, Copy, PartialEq, Eq, Hash, Debug)]
pub struct DataPacket<'a> {
    /// The name of the source.
    pub source_name: &'a str,
    /// The priority, at most 200 when read.
    pub priority: u8,
    /// The universe of the synchronization packets that it waits for, 0 for none.
    pub synchronization_address: u16,
    /// The sequence number.
    pub sequence_number: u8,
    /// Whether the values are a preview and not to be shown.
    pub preview_data: bool,
    /// Whether the source stops sending on this universe.
    pub stream_terminated: bool,
    /// Whether values wait for synchronization that stays away.
    pub force_synchronization: bool,
    /// The universe, in 1..=63999 when read.
    pub universe: u16,
    /// The start code and the values behind it, 1 to 513 bytes.
    pub property_values: &'a [u8],
}

/// A synchronization packet: what is read, and what
/// [`pack_synchronization`](crate::pack_synchronization) takes.
#[derive(Clone, Copy, PartialEq, Eq, Hash, Debug)]
pub struct SynchronizationPacket {
    /// The sequence number.
    pub sequence_number: u8,
    /// The synchronization address, in 1..=63999 when read.
    pub synchronization_address: u16,
}

/// A universe discovery packet that was read.
#[derive(Clone, Copy, PartialEq, Eq, Hash, Debug)]
#[non_exhaustive]
pub struct UniverseDiscoveryPacket<'a> {
    /// The name of the source.
    pub source_name: &'a str,
    /// The page's number, from 0.
    pub page: u8,
    /// The number of the last page.
    pub last_page: u8,
    /// The universes of the page, strictly ascending, at most 512.
    pub universes: Universes<'a>,
}

/// Reads a datagram. Bytes behind the packet are ignored.
///
/// ```
/// use ledgerwren::{pack_data, parse, DataPacket, PacketData};
///
/// let packet = DataPacket {
///     source_name: "Source_A",
///     priority: 100,
///     synchronization_address: 7962,
///     sequence_number: 154,
///     preview_data: false,
///     stream_terminated: false,
///     force_synchronization: false,
///     universe: 1,
///     property_values: &[0, 1, 2, 3],
/// };
/// let mut buf = [0; 638];
/// let length = pack_data(&mut buf, [7; 16], &packet)?;
///
/// let read = parse(&buf[..length])?;
/// assert_eq!(read.cid, [7; 16]);
/// assert_eq!(read.data, PacketData::DataPacket(packet));
/// # Ok::<(), ledgerwren::Refusal>(())
/// ```
///
/// # Errors
///
/// The first check that fails, in the order of the layers and of the fields in each.
///
/// ```
/// # let mut buf = [0; 638];
/// # let packet = ledgerwren::DataPacket {
/// #     source_name: "Source_A", priority: 100, synchronization_address: 0, sequence_number: 0,
/// #     preview_data: false, stream_terminated: false, force_synchronization: false,
/// #     universe: 1, property_values: &[0],
/// # };
/// # let length = ledgerwren::pack_data(&mut buf, [7; 16], &packet)?;
/// const PRIORITY: usize = 108;
/// buf[PRIORITY] = 201;
/// let refusal = ledgerwren::parse(&buf[..length]).unwrap_err();
/// assert_eq!(
///     refusal.to_string(),
///     "the priority is above 200 (8) in the framing layer: 201"
/// );
/// # Ok::<(), ledgerwren::Refusal>(())
/// ```
#[inline]
pub fn parse(datagram: &[u8]) -> Result<Packet<'_>, Refusal> {
    let reading = ffi::parse(datagram);
    let data = match reading.found().kind {
        ffi::DATA => PacketData::DataPacket(data(&reading)),
        ffi::SYNCHRONIZATION => PacketData::SynchronizationPacket(synchronization(&reading)),
        ffi::DISCOVERY => PacketData::UniverseDiscoveryPacket(discovery(&reading)),
        _ => return Err(reading.found().refusal),
    };
    Ok(Packet {
        cid: reading.found().cid,
        data,
    })
}

#[inline]
fn data<'a>(reading: &ffi::Reading<'a, ffi::Found>) -> DataPacket<'a> {
    let fields = &reading.found().data_fields;
    DataPacket {
        source_name: reading.name(),
        priority: fields.priority,
        synchronization_address: fields.synchronization_address,
        sequence_number: fields.sequence_number,
        preview_data: fields.preview_data,
        stream_terminated: fields.stream_terminated,
        force_synchronization: fields.force_synchronization,
        universe: fields.universe,
        property_values: reading.values(),
    }
}

#[inline]
fn synchronization(reading: &ffi::Reading<'_, ffi::Found>) -> SynchronizationPacket {
    let fields = &reading.found().synchronization_fields;
    SynchronizationPacket {
        sequence_number: fields.sequence_number,
        synchronization_address: fields.synchronization_address,
    }
}

#[inline]
fn discovery<'a>(reading: &ffi::Reading<'a, ffi::Found>) -> UniverseDiscoveryPacket<'a> {
    let fields = &reading.found().discovery_fields;
    UniverseDiscoveryPacket {
        source_name: reading.name(),
        page: fields.page,
        last_page: fields.last_page,
        universes: Universes::new(reading.universes()),
    }
}
