//! E1.31 (streaming ACN) packets, read and written by proved code.
//!
//! The calls read like those of the crate sacn, whose packet part they stand in for: [`parse`] gives
//! a [`Packet`] that borrows from the datagram, [`pack_data`], [`pack_synchronization`] and
//! [`pack_discovery`] write into a lent buffer, and a [`Refusal`] says which check failed, in which
//! layer, and with what value. [`parse_2009`] reads by the older edition.
//!
//! `docs/FORMAT.md` in the repository has the layout of packets in bytes, and for each refusal its
//! number, place and value and when it comes.
//!
//! # What is proved, and what is not
//!
//! Proved, in the repository that this crate is part of: for every input, a call behind this crate
//! returns, stays within what it is lent, and gives the answer of a written definition; a refused
//! write changes nothing; what is written within the readable limits is read back as it was.
//!
//! Not proved: this crate. It hands arguments and answers on, and is held to that by tests. The
//! `unsafe` code is in one file, `ffi.rs`, with its reasons. Also trusted are the compilers.
//!
//! # Names of 64 bytes
//!
//! A name of 64 bytes has no room for the zero behind it. It is refused when it is written, and not
//! only when somebody reads it:
//!
//! ```
//! use ledgerwren::{pack_discovery, UniverseDiscovery};
//!
//! let name = "n".repeat(64);
//! let packet = UniverseDiscovery {
//!     source_name: &name,
//!     page: 0,
//!     last_page: 0,
//!     universes: &[1, 2],
//! };
//! let mut buf = [0xee; 1144];
//! let refusal = pack_discovery(&mut buf, [7; 16], &packet).unwrap_err();
//! assert_eq!(refusal.to_string(), "the name has more than 63 bytes (21)");
//! assert_eq!(buf, [0xee; 1144]);
//! ```
//!
//! # Building
//!
//! The static library, `libledgerwren.a`, is made by `./staticlib` at the root of the repository. It is
//! x86-64 code for Linux. `LEDGERWREN_LIB_DIR` names its folder where that is not `target/staticlib`.
//! `cargo check` and `cargo doc` need no library.
//!
//! The names of its calls carry the version of their layout, so that a library of another layout does
//! not link.

// The calls are thin, so they and what they use are marked `#[inline]`: a record is then built where
// it is wanted, and not copied there.
#![deny(unsafe_code)]
#![deny(missing_docs)]

mod edition2009;
#[allow(unsafe_code)]
mod ffi;
mod pack;
mod packet;
mod refusal;
mod universe;
mod universes;

pub use edition2009::{parse_2009, DataPacket2009};
pub use pack::{pack_data, pack_discovery, pack_synchronization, UniverseDiscovery};
pub use packet::{
    parse, DataPacket, Packet, PacketData, SynchronizationPacket, UniverseDiscoveryPacket,
};
pub use refusal::{Check, Layer, Refusal};
pub use universe::{is_universe_in_range, universe_to_ipv4_multicast_addr};
pub use universes::{copy_universes, Universes, UniversesIter};

/// A sender's CID: the sixteen bytes of a UUID.
pub type Cid = [u8; 16];
