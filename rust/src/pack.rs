//! Packets, written.

use crate::ffi;
use crate::{Cid, DataPacket, Refusal, SynchronizationPacket};

/// A universe discovery packet to be written.
#[derive(Clone, Copy, PartialEq, Eq, Hash, Debug)]
pub struct UniverseDiscovery<'a> {
    /// The name of the source.
    pub source_name: &'a str,
    /// The page's number, from 0.
    pub page: u8,
    /// The number of the last page.
    pub last_page: u8,
    /// The universes of the page.
    pub universes: &'a [u16],
}

/// Writes a data packet to the front of `buf` and answers its length. The rest of `buf` is left as
/// found.
///
/// ```
/// use ledgerwren::{pack_data, Check, DataPacket};
///
/// let mut packet = DataPacket {
///     source_name: "Front of house, desk 1",
///     priority: 100,
///     synchronization_address: 0,
///     sequence_number: 1,
///     preview_data: false,
///     stream_terminated: false,
///     force_synchronization: false,
///     universe: 1,
///     property_values: &[0, 255, 128],
/// };
/// let mut buf = [0; 638];
/// assert_eq!(pack_data(&mut buf, [7; 16], &packet), Ok(128));
///
/// let name = "n".repeat(64);
/// packet.source_name = &name;
/// let refusal = pack_data(&mut buf, [7; 16], &packet).unwrap_err();
/// assert_eq!(refusal.check(), Check::NameTooLong);
///
/// // The start code is the first of the values.
/// packet.source_name = "Front of house, desk 1";
/// packet.property_values = &[];
/// let refusal = pack_data(&mut buf, [7; 16], &packet).unwrap_err();
/// assert_eq!(refusal.check(), Check::NoValues);
/// ```
///
/// # Errors
///
/// In this order: the buffer is shorter than the packet; the name has more than 63 bytes, or a zero;
/// there are no values, which the crate sacn would write; there are more than 513. `buf` is then left
/// as found. Priority and addresses are not checked, as in the crate sacn.
#[inline]
pub fn pack_data(buf: &mut [u8], cid: Cid, packet: &DataPacket<'_>) -> Result<usize, Refusal> {
    let fields = ffi::DataFields {
        priority: packet.priority,
        synchronization_address: packet.synchronization_address,
        sequence_number: packet.sequence_number,
        preview_data: packet.preview_data,
        stream_terminated: packet.stream_terminated,
        force_synchronization: packet.force_synchronization,
        universe: packet.universe,
    };
    let header = ffi::DataHeader { cid, fields };
    ffi::pack_data(buf, header, packet.source_name, packet.property_values)
}

/// Writes a synchronization packet to the front of `buf` and answers its length, 49. The rest of
/// `buf` is left as found.
///
/// ```
/// use ledgerwren::{pack_synchronization, Check, SynchronizationPacket};
///
/// let packet = SynchronizationPacket {
///     sequence_number: 7,
///     synchronization_address: 8000,
/// };
/// let mut buf = [0; 49];
/// assert_eq!(pack_synchronization(&mut buf, [7; 16], &packet), Ok(49));
///
/// let refusal = pack_synchronization(&mut buf[..48], [7; 16], &packet).unwrap_err();
/// assert_eq!(refusal.check(), Check::BufferTooSmall);
/// ```
///
/// # Errors
///
/// The buffer is shorter than the packet. `buf` is then left as found. The address is not checked,
/// as in the crate sacn.
#[inline]
pub fn pack_synchronization(
    buf: &mut [u8],
    cid: Cid,
    packet: &SynchronizationPacket,
) -> Result<usize, Refusal> {
    let fields = ffi::SynchronizationFields {
        sequence_number: packet.sequence_number,
        synchronization_address: packet.synchronization_address,
    };
    ffi::pack_synchronization(buf, ffi::SynchronizationHeader { cid, fields })
}

/// Writes a universe discovery packet to the front of `buf` and answers its length. The rest of
/// `buf` is left as found.
///
/// ```
/// use ledgerwren::{pack_discovery, Check, UniverseDiscovery};
///
/// let mut packet = UniverseDiscovery {
///     source_name: "Front of house, desk 1",
///     page: 0,
///     last_page: 0,
///     universes: &[1, 2, 300],
/// };
/// let mut buf = [0; 1144];
/// assert_eq!(pack_discovery(&mut buf, [7; 16], &packet), Ok(126));
///
/// packet.universes = &[1, 300, 2];
/// let refusal = pack_discovery(&mut buf, [7; 16], &packet).unwrap_err();
/// assert_eq!(refusal.check(), Check::FallingUniverses);
/// ```
///
/// # Errors
///
/// In this order: the buffer is shorter than the packet; the name has more than 63 bytes, or a zero;
/// there are more than 512 universes; the first two neighbours that do not ascend are equal, or fall.
/// `buf` is then left as found. The order of the pages is not checked, as in the crate sacn.
#[inline]
pub fn pack_discovery(
    buf: &mut [u8],
    cid: Cid,
    packet: &UniverseDiscovery<'_>,
) -> Result<usize, Refusal> {
    let fields = ffi::DiscoveryFields {
        page: packet.page,
        last_page: packet.last_page,
    };
    let header = ffi::DiscoveryHeader { cid, fields };
    ffi::pack_discovery(buf, header, packet.source_name, packet.universes)
}
