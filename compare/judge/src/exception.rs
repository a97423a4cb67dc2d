//! Request 07's exception: where there are no values, and so no start code, the crate reads or writes, and
//! ours refuses. What the crate does there is looked at before a refusal is expected in its place.

use crate::kinds;
use crate::oracle::FILL;
use crate::record::Record;
use crate::refusal::Refusal;
use crate::wire::{get16, COUNT};
use sacn::packet::{AcnRootLayerProtocol, E131RootLayerData};

/// Told where the crate reads a data packet whose count is 0.
pub const NOTHING_READ: Refusal = Refusal {
    number: 17,
    place: 4,
    value: 0,
};

/// Told where the crate writes a data packet without values.
pub const NOTHING_WRITTEN: Refusal = Refusal {
    number: 27,
    place: 0,
    value: 0,
};

/// The kind that `kind_of` has for these numbers.
const TAKEN: &str = "Taken";

fn held_to_kind(refusal: Refusal) -> Refusal {
    let number = refusal.number;
    assert_eq!(kinds::of(number), TAKEN, "the kind of {number}");
    refusal
}

/// What ours tells of a datagram that the crate reads; nothing where it has to read it, too. The count in
/// the datagram and the values of the crate have to agree.
pub fn of_reading(datagram: &[u8], packet: &AcnRootLayerProtocol) -> Option<Refusal> {
    let E131RootLayerData::DataPacket(data) = &packet.pdu.data else {
        return None;
    };
    let count = usize::from(get16(datagram, COUNT));
    let values = data.data.property_values.len();
    assert_eq!(values, count, "the values that the crate reads");
    (count == 0).then(|| held_to_kind(NOTHING_READ))
}

/// What ours tells of a record that the crate writes into this buffer; nothing where it has to write it, too.
/// The crate has to leave the packet without values, and behind it the buffer as it was.
pub fn of_writing(record: &Record, buffer: &[u8]) -> Option<Refusal> {
    match record {
        Record::Data(data) if data.values.is_empty() => {
            let mut expected = record.datagram();
            expected.resize(buffer.len(), FILL);
            assert!(buffer == expected, "what the crate writes without values");
            Some(held_to_kind(NOTHING_WRITTEN))
        }
        _ => None,
    }
}
