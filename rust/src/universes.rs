//! The list of universes of a discovery packet.

use crate::ffi;
use crate::Refusal;
use std::fmt::{self, Debug, Formatter};
use std::iter::FusedIterator;
use std::slice::ChunksExact;

/// A universe is two bytes, the higher first.
const UNIVERSE_LENGTH: usize = 2;

/// Universes as they stand in a datagram, borrowed from it.
///
/// ```
/// use ledgerwren::{pack_discovery, parse, PacketData, UniverseDiscovery};
///
/// let mut buf = [0; 1144];
/// let packet = UniverseDiscovery {
///     source_name: "Desk 1",
///     page: 0,
///     last_page: 0,
///     universes: &[1, 2, 300],
/// };
/// let length = pack_discovery(&mut buf, [7; 16], &packet)?;
///
/// let PacketData::UniverseDiscoveryPacket(read) = parse(&buf[..length])?.data else {
///     panic!("a discovery packet was written");
/// };
/// assert_eq!(read.universes.len(), 3);
/// assert_eq!(read.universes.get(2), Some(300));
/// assert_eq!(read.universes.iter().collect::<Vec<_>>(), [1, 2, 300]);
/// # Ok::<(), ledgerwren::Refusal>(())
/// ```
#[derive(Clone, Copy, PartialEq, Eq, Hash)]
pub struct Universes<'a>(&'a [u8]);

impl<'a> Universes<'a> {
    /// An odd last byte is not part of the list.
    #[inline]
    pub(crate) fn new(bytes: &'a [u8]) -> Universes<'a> {
        Universes(&bytes[..bytes.len() / UNIVERSE_LENGTH * UNIVERSE_LENGTH])
    }

    /// How many universes there are.
    pub fn len(&self) -> usize {
        self.0.len() / UNIVERSE_LENGTH
    }

    /// Whether there are none.
    pub fn is_empty(&self) -> bool {
        self.0.is_empty()
    }

    /// The universe at an index.
    pub fn get(&self, index: usize) -> Option<u16> {
        self.iter().nth(index)
    }

    /// All universes, in their order.
    pub fn iter(&self) -> UniversesIter<'a> {
        UniversesIter(self.0.chunks_exact(UNIVERSE_LENGTH))
    }
}

impl Debug for Universes<'_> {
    fn fmt(&self, f: &mut Formatter<'_>) -> fmt::Result {
        f.debug_list().entries(self).finish()
    }
}

impl<'a> IntoIterator for Universes<'a> {
    type Item = u16;
    type IntoIter = UniversesIter<'a>;

    fn into_iter(self) -> UniversesIter<'a> {
        self.iter()
    }
}

impl<'a> IntoIterator for &Universes<'a> {
    type Item = u16;
    type IntoIter = UniversesIter<'a>;

    fn into_iter(self) -> UniversesIter<'a> {
        self.iter()
    }
}

/// The universes of a list, one after the other; its length is exact.
#[derive(Clone, Debug)]
pub struct UniversesIter<'a>(ChunksExact<'a, u8>);

fn universe(bytes: &[u8]) -> u16 {
    u16::from_be_bytes([bytes[0], bytes[1]])
}

impl Iterator for UniversesIter<'_> {
    type Item = u16;

    fn next(&mut self) -> Option<u16> {
        self.0.next().map(universe)
    }

    fn size_hint(&self) -> (usize, Option<usize>) {
        self.0.size_hint()
    }

    fn nth(&mut self, n: usize) -> Option<u16> {
        self.0.nth(n).map(universe)
    }
}

impl DoubleEndedIterator for UniversesIter<'_> {
    fn next_back(&mut self) -> Option<u16> {
        self.0.next_back().map(universe)
    }
}

impl ExactSizeIterator for UniversesIter<'_> {}

impl FusedIterator for UniversesIter<'_> {}

/// Reads a datagram, copies the universes that it lists to the front of `out`, and says how many
/// there are. The rest of `out` is left as found.
///
/// ```
/// use ledgerwren::{copy_universes, pack_discovery, UniverseDiscovery};
///
/// let mut buf = [0; 1144];
/// let packet = UniverseDiscovery {
///     source_name: "Desk 1",
///     page: 0,
///     last_page: 0,
///     universes: &[1, 2, 300],
/// };
/// let length = pack_discovery(&mut buf, [7; 16], &packet)?;
///
/// let mut out = [9; 5];
/// assert_eq!(copy_universes(&buf[..length], &mut out)?, 3);
/// assert_eq!(out, [1, 2, 300, 9, 9]);
/// # Ok::<(), ledgerwren::Refusal>(())
/// ```
///
/// # Errors
///
/// [`NoUniversesCopied`](crate::Check::NoUniversesCopied) where the datagram is no readable discovery
/// packet or `out` is too short; `out` is left as found.
#[inline]
pub fn copy_universes(datagram: &[u8], out: &mut [u16]) -> Result<usize, Refusal> {
    ffi::copy_universes(datagram, out)
}

#[cfg(test)]
mod tests {
    use super::*;

    #[test]
    fn a_list_is_walked_from_both_ends() {
        let list = Universes::new(&[0, 1, 1, 0, 0xff, 0xfe, 7]);
        assert_eq!(format!("{list:?}"), "[1, 256, 65534]");
        assert_eq!(list.iter().rev().collect::<Vec<_>>(), [65534, 256, 1]);
        let mut rest = list.into_iter();
        assert_eq!((rest.next(), rest.len()), (Some(1), 2));
        assert_eq!((list.get(2), list.get(3)), (Some(65534), None));
    }

    #[test]
    fn an_empty_list_is_empty() {
        let list = Universes::new(&[]);
        assert!(list.is_empty());
        assert_eq!((list.len(), list.iter().next()), (0, None));
    }
}
