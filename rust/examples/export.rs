//! The export: reads a capture, replaces the names of sources, and writes the capture again.
//!
//! ```text
//! export OLD=NEW... <capture >renamed
//! ```
//!
//! Each word says that sources named OLD are to be named NEW; OLD ends at the first `=`. A data or
//! discovery packet with such a name is written anew. What the reader ignores is then not kept: bytes
//! behind the packet and its layers, what stands behind a name, reserved places and option bits.
//! Everything else is handed on byte for byte: packets with other names, synchronization packets, and
//! what the reader refuses.
//!
//! A new name that is refused, as one of 64 bytes, is told on standard error as `entry N: ...`, and
//! that entry is handed on with its old name, so that none is lost. Entries count from 1.
//!
//! The exit status is 0 if all names were replaced; 1 if a name was refused, or if the capture is cut
//! or has a bad length, which is told, too, behind the entries before it; 2 if the words are wrong or
//! reading or writing fails.

use ledgerwren::{pack_data, pack_discovery, parse, DataPacket, PacketData, UniverseDiscovery};
use ledgerwren::{Cid, Refusal, UniverseDiscoveryPacket};
use std::collections::HashMap;
use std::env;
use std::io::{self, BufReader, BufWriter, Error, ErrorKind, Read, Write};
use std::process::ExitCode;

/// The longest entry of a capture.
const LONGEST_ENTRY: usize = 8192;

/// The longest packet: a discovery packet with 512 universes.
const LONGEST_PACKET: usize = 1144;

/// Set in a length's byte when another one follows; the others are seven bits of the length.
const MORE: u8 = 0x80;

type Names = HashMap<String, String>;

/// What comes next in a capture.
enum Next {
    /// An entry of this many bytes.
    Entry(usize),
    End,
    /// The capture stops inside an entry or its length.
    Cut,
    /// A length that is too large or longer than it has to be.
    Bad,
}

fn next_byte(input: &mut impl Read) -> io::Result<Option<u8>> {
    let mut byte = [0];
    match input.read_exact(&mut byte) {
        Ok(()) => Ok(Some(byte[0])),
        Err(e) if e.kind() == ErrorKind::UnexpectedEof => Ok(None),
        Err(e) => Err(e),
    }
}

/// A length: one group of seven bits or two, the lower first.
fn next_length(input: &mut impl Read) -> io::Result<Next> {
    let Some(low) = next_byte(input)? else {
        return Ok(Next::End);
    };
    if low & MORE == 0 {
        return Ok(Next::Entry(low.into()));
    }
    let Some(high) = next_byte(input)? else {
        return Ok(Next::Cut);
    };
    let length = usize::from(low & !MORE) | usize::from(high) << 7;
    // A second group of 0 could have been left out; one that announces a third is too large.
    Ok(if high == 0 || length > LONGEST_ENTRY {
        Next::Bad
    } else {
        Next::Entry(length)
    })
}

/// Reads an entry to the front of the buffer.
fn next_entry(input: &mut impl Read, entry: &mut [u8; LONGEST_ENTRY]) -> io::Result<Next> {
    let next = next_length(input)?;
    if let Next::Entry(length) = next {
        match input.read_exact(&mut entry[..length]) {
            Err(e) if e.kind() == ErrorKind::UnexpectedEof => return Ok(Next::Cut),
            result => result?,
        }
    }
    Ok(next)
}

fn write_entry(output: &mut impl Write, entry: &[u8]) -> io::Result<()> {
    let (low, high) = (entry.len() as u8 & !MORE, (entry.len() >> 7) as u8);
    if high == 0 {
        output.write_all(&[low])?;
    } else {
        output.write_all(&[low | MORE, high])?;
    }
    output.write_all(entry)
}

/// Writes the packet with its new name to the front of `buf`. Gives no length where no name is to be
/// replaced.
fn renamed(datagram: &[u8], names: &Names, buf: &mut [u8]) -> Result<Option<usize>, Refusal> {
    let Ok(packet) = parse(datagram) else {
        return Ok(None);
    };
    match packet.data {
        PacketData::DataPacket(data) => names
            .get(data.source_name)
            .map(|name| rename_data(buf, packet.cid, data, name))
            .transpose(),
        PacketData::UniverseDiscoveryPacket(discovery) => names
            .get(discovery.source_name)
            .map(|name| rename_discovery(buf, packet.cid, discovery, name))
            .transpose(),
        // Synchronization has no name; a kind that is not known here is handed on, too.
        _ => Ok(None),
    }
}

fn rename_data(
    buf: &mut [u8],
    cid: Cid,
    data: DataPacket,
    source_name: &str,
) -> Result<usize, Refusal> {
    let data = DataPacket {
        source_name,
        ..data
    };
    pack_data(buf, cid, &data)
}

fn rename_discovery(
    buf: &mut [u8],
    cid: Cid,
    discovery: UniverseDiscoveryPacket,
    source_name: &str,
) -> Result<usize, Refusal> {
    let universes: Vec<u16> = discovery.universes.iter().collect();
    let discovery = UniverseDiscovery {
        source_name,
        page: discovery.page,
        last_page: discovery.last_page,
        universes: &universes,
    };
    pack_discovery(buf, cid, &discovery)
}

/// Exports the whole capture and says whether nothing had to be told on `told`.
fn export(
    mut input: impl Read,
    mut output: impl Write,
    mut told: impl Write,
    names: &Names,
) -> io::Result<bool> {
    let mut entry = [0; LONGEST_ENTRY];
    let mut buf = [0; LONGEST_PACKET];
    let mut number = 0;
    let mut clean = true;
    let fault = loop {
        let datagram = match next_entry(&mut input, &mut entry)? {
            Next::Entry(length) => &entry[..length],
            Next::End => break None,
            Next::Cut => break Some("is cut"),
            Next::Bad => break Some("has a bad length"),
        };
        number += 1;
        match renamed(datagram, names, &mut buf) {
            Ok(Some(length)) => write_entry(&mut output, &buf[..length])?,
            Ok(None) => write_entry(&mut output, datagram)?,
            Err(refusal) => {
                clean = false;
                writeln!(told, "entry {number}: {refusal}")?;
                write_entry(&mut output, datagram)?;
            }
        }
    };
    if let Some(fault) = fault {
        clean = false;
        writeln!(told, "the capture {fault} behind entry {number}")?;
    }
    output.flush()?;
    Ok(clean)
}

/// The names to be replaced, each with its new one.
fn names(words: impl Iterator<Item = String>) -> io::Result<Names> {
    let mut names = Names::new();
    for word in words {
        let Some((old, new)) = word.split_once('=') else {
            return Err(Error::other(format!("{word} is not OLD=NEW")));
        };
        if names.insert(old.to_string(), new.to_string()).is_some() {
            return Err(Error::other(format!("{old} is to have two names")));
        }
    }
    Ok(names)
}

fn run() -> io::Result<bool> {
    let names = names(env::args().skip(1))?;
    let input = BufReader::new(io::stdin().lock());
    let output = BufWriter::new(io::stdout().lock());
    export(input, output, io::stderr().lock(), &names)
}

fn main() -> ExitCode {
    match run() {
        Ok(true) => ExitCode::SUCCESS,
        Ok(false) => ExitCode::from(1),
        Err(error) => {
            eprintln!("export: {error}");
            ExitCode::from(2)
        }
    }
}
