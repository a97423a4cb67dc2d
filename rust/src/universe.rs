//! Universes and their multicast addresses.

use crate::ffi;
use crate::Refusal;
use std::net::{Ipv4Addr, SocketAddrV4};

/// Says whether a universe may be sent on: 1 to 63999, and 64214 for discovery.
///
/// ```
/// use ledgerwren::is_universe_in_range;
///
/// assert_eq!(is_universe_in_range(63999), Ok(()));
/// assert_eq!(
///     is_universe_in_range(64000).unwrap_err().to_string(),
///     "the universe has no multicast address (30): 64000"
/// );
/// ```
///
/// # Errors
///
/// [`NoMulticastAddress`](crate::Check::NoMulticastAddress) for every other number.
#[inline]
pub fn is_universe_in_range(universe: u16) -> Result<(), Refusal> {
    ffi::is_universe_in_range(universe)
}

/// The IPv4 multicast address of a universe, with the port of the protocol, 5568.
///
/// ```
/// use ledgerwren::universe_to_ipv4_multicast_addr;
///
/// let address = universe_to_ipv4_multicast_addr(64214)?;
/// assert_eq!(address.to_string(), "239.255.250.214:5568");
/// # Ok::<(), ledgerwren::Refusal>(())
/// ```
///
/// # Errors
///
/// As for [`is_universe_in_range`].
#[inline]
pub fn universe_to_ipv4_multicast_addr(universe: u16) -> Result<SocketAddrV4, Refusal> {
    let address = ffi::universe_to_ipv4_multicast_addr(universe)?;
    let ip = Ipv4Addr::new(
        address.highest,
        address.second,
        address.third,
        address.lowest,
    );
    Ok(SocketAddrV4::new(ip, address.port))
}
