//! Data packets by the standard's edition of 2009.

use crate::ffi;
use crate::{Cid, Refusal};

/// A data packet as the edition of 2009 knows it: without synchronization.
#[derive(Clone, Copy, PartialEq, Eq, Hash, Debug)]
#[non_exhaustive]
pub struct DataPacket2009<'a> {
    /// The sender's CID.
    pub cid: Cid,
    /// The name of the source.
    pub source_name: &'a str,
    /// The priority, at most 200.
    pub priority: u8,
    /// The sequence number.
    pub sequence_number: u8,
    /// Whether the values are a preview and not to be shown.
    pub preview_data: bool,
    /// Whether the source stops sending on this universe.
    pub stream_terminated: bool,
    /// The universe, in 1..=63999.
    pub universe: u16,
    /// The start code and the values behind it, 1 to 513 bytes.
    pub property_values: &'a [u8],
}

/// Reads a datagram by the edition of 2009: data packets only, and the bytes that later became the
/// synchronization address and its option are not looked at.
///
/// ```
/// use ledgerwren::{pack_data, pack_synchronization, parse_2009};
/// use ledgerwren::{Check, DataPacket, SynchronizationPacket};
///
/// let packet = DataPacket {
///     source_name: "Desk 1",
///     priority: 100,
///     // Above 63999, which the present edition refuses.
///     synchronization_address: 64000,
///     sequence_number: 1,
///     preview_data: false,
///     stream_terminated: false,
///     force_synchronization: false,
///     universe: 1,
///     property_values: &[0, 255],
/// };
/// let mut buf = [0; 638];
/// let length = pack_data(&mut buf, [7; 16], &packet)?;
/// assert_eq!(parse_2009(&buf[..length])?.property_values, [0, 255]);
///
/// let packet = SynchronizationPacket {
///     sequence_number: 1,
///     synchronization_address: 1,
/// };
/// let length = pack_synchronization(&mut buf, [7; 16], &packet)?;
/// let refusal = parse_2009(&buf[..length]).unwrap_err();
/// assert_eq!(refusal.check(), Check::InvalidVector);
/// # Ok::<(), ledgerwren::Refusal>(())
/// ```
///
/// # Errors
///
/// The first check that fails, as for [`parse`](crate::parse).
#[inline]
pub fn parse_2009(datagram: &[u8]) -> Result<DataPacket2009<'_>, Refusal> {
    let reading = ffi::parse_2009(datagram);
    if reading.found().kind != ffi::DATA {
        return Err(reading.found().refusal);
    }
    let fields = &reading.found().data_fields;
    Ok(DataPacket2009 {
        cid: reading.found().cid,
        source_name: reading.name(),
        priority: fields.priority,
        sequence_number: fields.sequence_number,
        preview_data: fields.preview_data,
        stream_terminated: fields.stream_terminated,
        universe: fields.universe,
        property_values: reading.values(),
    })
}
