//! Prints one number that settles the crate's answers for all 65,536 universes.
//!
//! For each universe in order: v = 0 if it is out of range, else the four address bytes as one
//! big-endian number plus the port; sum = (sum * 31 + v) mod 4294967291, from sum = 7.

use sacn::packet::{is_universe_in_range, universe_to_ipv4_multicast_addr};

const MODULUS: u64 = 4_294_967_291;

fn answer(universe: u16) -> u64 {
    if is_universe_in_range(universe).is_err() {
        return 0;
    }
    let address = universe_to_ipv4_multicast_addr(universe).expect("the universe is in range");
    let address = address
        .as_socket_ipv4()
        .expect("the address is an IPv4 one");
    u64::from(u32::from(*address.ip())) + u64::from(address.port())
}

fn main() {
    let sum = (0..=u16::MAX).fold(7, |sum, universe| (sum * 31 + answer(universe)) % MODULUS);
    println!("{sum}");
}
