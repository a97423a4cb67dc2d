//! Document 01's dump lines over the crate.

use crate::oracle::{self, options};
use crate::wire::push_hex;
use sacn::packet::*;
use std::io::{self, Write};

/// Writes the line of entry `n`. `text` is room for a name's hex digits, kept between calls.
pub fn write_line(
    out: &mut impl Write,
    n: u64,
    datagram: &[u8],
    text: &mut Vec<u8>,
) -> io::Result<()> {
    let packet = match oracle::parse(datagram) {
        Ok(packet) => packet,
        Err(refusal) => return writeln!(out, "{n} {}", oracle::refused(&refusal)),
    };
    match &packet.pdu.data {
        E131RootLayerData::DataPacket(data) => write_data(out, n, data, text),
        E131RootLayerData::SynchronizationPacket(sync) => writeln!(
            out,
            "{n} sync seq {} addr {}",
            sync.sequence_number, sync.synchronization_address
        ),
        E131RootLayerData::UniverseDiscoveryPacket(disc) => {
            put_name(text, &disc.source_name);
            write!(out, "{n} disc name ")?;
            out.write_all(text)?;
            let count = disc.data.universes.len();
            let (page, last) = (disc.data.page, disc.data.last_page);
            writeln!(out, " page {page} last {last} count {count}")
        }
    }
}

fn write_data(
    out: &mut impl Write,
    n: u64,
    data: &DataPacketFramingLayer,
    text: &mut Vec<u8>,
) -> io::Result<()> {
    put_name(text, &data.source_name);
    write!(out, "{n} data name ")?;
    out.write_all(text)?;
    writeln!(
        out,
        " prio {} sync {} seq {} flags {:03b} univ {} values {}",
        data.priority,
        data.synchronization_address,
        data.sequence_number,
        options(data) >> 5,
        data.universe,
        data.data.property_values.len()
    )
}

fn put_name(text: &mut Vec<u8>, name: &str) {
    text.clear();
    if name.is_empty() {
        text.push(b'-');
    }
    push_hex(text, name.as_bytes());
}
