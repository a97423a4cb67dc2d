//! The inputs: families that go through all cases near a boundary, and random ones from a seed. Those of
//! the follower are whole captures.

mod bytes;
mod cuts;
mod lengths;
mod lists;
mod names;
mod papers;
mod random;
mod samples;
pub mod scenes;
pub mod script;
mod writes;

pub use random::Draw;

use crate::request::Request;

/// Takes one request after the other.
pub type Sink<'a> = dyn FnMut(Request) + 'a;

/// The datagrams that do not depend on a seed, and of which the sample is taken.
pub fn datagrams(sink: &mut dyn FnMut(Vec<u8>)) {
    cuts::short(sink);
    cuts::cuts(sink);
    cuts::padded(sink);
    lengths::single(sink);
    lengths::joint(sink);
    lengths::missing_fields(sink);
    lengths::short_dmp(sink);
    lengths::short_discovery(sink);
    bytes::each_byte(sink);
    bytes::vectors(sink);
    bytes::boundaries(sink);
    names::fields(sink);
    names::broken(sink);
    names::sequences(sink);
    lists::universes(sink);
    lists::layer_lengths(sink);
    lists::values(sink);
}

/// All requests that do not depend on a seed.
pub fn systematic(sink: &mut Sink) {
    datagrams(&mut |datagram| sink(Request::Read(datagram)));
    names::inside_fields(&mut |datagram| sink(Request::Read(datagram)));
    papers::differences(&mut |datagram| sink(Request::Read(datagram)));
    writes::rooms(sink);
    writes::names(sink);
    writes::refusals(sink);
    (0..=u16::MAX).for_each(|universe| sink(Request::Universe(universe)));
}
