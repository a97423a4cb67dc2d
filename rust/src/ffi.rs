//! The boundary: what the static library exports, and a safe function over each call. This is the
//! only file with `unsafe`.
//!
//! Taken on trust here, and nowhere else:
//!
//! - The declarations are those of `crates/ledgerwren_c/src/lib.rt` and of the structs that it names,
//!   most in `crates/c_answers/src/lib.rt`. Of that a linker checks the names alone, and with them the
//!   layout's version; the test `header` compares the rest, and the other tests see a different value
//!   in every field.
//! - A call reads and writes within the lengths it is given, keeps no pointer, and returns. That is
//!   proved, for every input, of the code behind it.
//! - The name that the reader finds is well-formed UTF-8. That is proved, too, by Unicode's table; a
//!   second look at a name of 22 bytes made the reading of its packet a tenth longer.
//!
//! Where a part stands in a datagram is proved as well, but slicing checks it again: that costs one
//! hundredth.

use crate::Refusal;

pub(crate) const DATA: u8 = 1;
pub(crate) const SYNCHRONIZATION: u8 = 2;
pub(crate) const DISCOVERY: u8 = 3;

#[repr(C)]
#[derive(Clone, Copy)]
pub(crate) struct Span {
    start: usize,
    len: usize,
}

#[repr(C)]
#[derive(Clone, Copy)]
pub(crate) struct DataFields {
    pub(crate) priority: u8,
    pub(crate) synchronization_address: u16,
    pub(crate) sequence_number: u8,
    pub(crate) preview_data: bool,
    pub(crate) stream_terminated: bool,
    pub(crate) force_synchronization: bool,
    pub(crate) universe: u16,
}

#[repr(C)]
#[derive(Clone, Copy)]
pub(crate) struct SynchronizationFields {
    pub(crate) sequence_number: u8,
    pub(crate) synchronization_address: u16,
}

#[repr(C)]
#[derive(Clone, Copy)]
pub(crate) struct DiscoveryFields {
    pub(crate) page: u8,
    pub(crate) last_page: u8,
}

#[repr(C)]
#[derive(Clone, Copy)]
pub(crate) struct DataFields2009 {
    pub(crate) priority: u8,
    pub(crate) sequence_number: u8,
    pub(crate) preview_data: bool,
    pub(crate) stream_terminated: bool,
    pub(crate) universe: u16,
}

#[repr(C)]
pub(crate) struct Ipv4Address {
    pub(crate) highest: u8,
    pub(crate) second: u8,
    pub(crate) third: u8,
    pub(crate) lowest: u8,
    pub(crate) port: u16,
}

#[repr(C)]
pub(crate) struct Found {
    pub(crate) kind: u8,
    pub(crate) cid: [u8; 16],
    pub(crate) refusal: Refusal,
    pub(crate) data_fields: DataFields,
    pub(crate) synchronization_fields: SynchronizationFields,
    pub(crate) discovery_fields: DiscoveryFields,
    name: Span,
    values: Span,
    universes: Span,
}

#[repr(C)]
pub(crate) struct Found2009 {
    pub(crate) kind: u8,
    pub(crate) cid: [u8; 16],
    pub(crate) refusal: Refusal,
    pub(crate) data_fields: DataFields2009,
    name: Span,
    values: Span,
}

#[repr(C)]
pub(crate) struct DataHeader {
    pub(crate) cid: [u8; 16],
    pub(crate) fields: DataFields,
}

#[repr(C)]
pub(crate) struct SynchronizationHeader {
    pub(crate) cid: [u8; 16],
    pub(crate) fields: SynchronizationFields,
}

#[repr(C)]
pub(crate) struct DiscoveryHeader {
    pub(crate) cid: [u8; 16],
    pub(crate) fields: DiscoveryFields,
}

#[repr(C)]
struct Outcome {
    refusal: Refusal,
    count: usize,
}

#[repr(C)]
struct Address {
    refusal: Refusal,
    address: Ipv4Address,
}

// The unit tests call none of these, and so need no library: where there is none, it is rustc that
// misses it, in one line, and no linker.
#[cfg_attr(not(test), link(name = "ledgerwren", kind = "static"))]
extern "C" {
    fn ledgerwren1_parse(datagram: *const u8, datagram_len: usize) -> Found;
    fn ledgerwren1_parse_2009(datagram: *const u8, datagram_len: usize) -> Found2009;
    fn ledgerwren1_copy_universes(
        datagram: *const u8,
        datagram_len: usize,
        out: *mut u16,
        out_len: usize,
    ) -> Outcome;
    fn ledgerwren1_pack_data(
        buf: *mut u8,
        buf_len: usize,
        header: DataHeader,
        name: *const u8,
        name_len: usize,
        values: *const u8,
        values_len: usize,
    ) -> Outcome;
    fn ledgerwren1_pack_synchronization(
        buf: *mut u8,
        buf_len: usize,
        header: SynchronizationHeader,
    ) -> Outcome;
    fn ledgerwren1_pack_discovery(
        buf: *mut u8,
        buf_len: usize,
        header: DiscoveryHeader,
        name: *const u8,
        name_len: usize,
        universes: *const u16,
        universes_len: usize,
    ) -> Outcome;
    fn ledgerwren1_is_universe_in_range(universe: u16) -> Refusal;
    fn ledgerwren1_universe_to_ipv4_multicast_addr(universe: u16) -> Address;
}

impl Outcome {
    #[inline]
    fn result(self) -> Result<usize, Refusal> {
        self.refusal.unless_none().map(|()| self.count)
    }
}

/// The spans that both readers answer.
pub(crate) trait Spans {
    fn name(&self) -> Span;
    fn values(&self) -> Span;
}

impl Spans for Found {
    #[inline]
    fn name(&self) -> Span {
        self.name
    }

    #[inline]
    fn values(&self) -> Span {
        self.values
    }
}

impl Spans for Found2009 {
    #[inline]
    fn name(&self) -> Span {
        self.name
    }

    #[inline]
    fn values(&self) -> Span {
        self.values
    }
}

/// What a reader found in a datagram, beside that datagram. Only `parse` and `parse_2009` make one and
/// nobody changes it, so the spans are those of this datagram.
pub(crate) struct Reading<'a, F> {
    datagram: &'a [u8],
    found: F,
}

impl<'a, F: Spans> Reading<'a, F> {
    #[inline]
    pub(crate) fn found(&self) -> &F {
        &self.found
    }

    #[inline]
    pub(crate) fn name(&self) -> &'a str {
        // SAFETY: a reader takes a name only where it is well-formed UTF-8, the span is the one that it
        // answered for this datagram, and the span of no name is empty.
        unsafe { std::str::from_utf8_unchecked(part(self.datagram, self.found.name())) }
    }

    #[inline]
    pub(crate) fn values(&self) -> &'a [u8] {
        part(self.datagram, self.found.values())
    }
}

impl<'a> Reading<'a, Found> {
    #[inline]
    pub(crate) fn universes(&self) -> &'a [u8] {
        part(self.datagram, self.found.universes)
    }
}

#[inline]
fn part(datagram: &[u8], span: Span) -> &[u8] {
    &datagram[span.start..][..span.len]
}

#[inline]
pub(crate) fn parse(datagram: &[u8]) -> Reading<'_, Found> {
    // SAFETY: pointer and length are one live slice's, which the call only reads.
    let found = unsafe { ledgerwren1_parse(datagram.as_ptr(), datagram.len()) };
    Reading { datagram, found }
}

#[inline]
pub(crate) fn parse_2009(datagram: &[u8]) -> Reading<'_, Found2009> {
    // SAFETY: pointer and length are one live slice's, which the call only reads.
    let found = unsafe { ledgerwren1_parse_2009(datagram.as_ptr(), datagram.len()) };
    Reading { datagram, found }
}

#[inline]
pub(crate) fn copy_universes(datagram: &[u8], out: &mut [u16]) -> Result<usize, Refusal> {
    // SAFETY: pointers and lengths are those of two live slices. They do not overlap, since `out` is
    // borrowed alone; only `out` is written.
    let outcome = unsafe {
        ledgerwren1_copy_universes(
            datagram.as_ptr(),
            datagram.len(),
            out.as_mut_ptr(),
            out.len(),
        )
    };
    outcome.result()
}

#[inline]
pub(crate) fn pack_data(
    buf: &mut [u8],
    header: DataHeader,
    name: &str,
    values: &[u8],
) -> Result<usize, Refusal> {
    // SAFETY: pointers and lengths are those of three live slices. `buf` overlaps neither of the
    // others, since it is borrowed alone; only `buf` is written.
    let outcome = unsafe {
        ledgerwren1_pack_data(
            buf.as_mut_ptr(),
            buf.len(),
            header,
            name.as_ptr(),
            name.len(),
            values.as_ptr(),
            values.len(),
        )
    };
    outcome.result()
}

#[inline]
pub(crate) fn pack_synchronization(
    buf: &mut [u8],
    header: SynchronizationHeader,
) -> Result<usize, Refusal> {
    // SAFETY: pointer and length are one live slice's, which is borrowed alone.
    let outcome = unsafe { ledgerwren1_pack_synchronization(buf.as_mut_ptr(), buf.len(), header) };
    outcome.result()
}

#[inline]
pub(crate) fn pack_discovery(
    buf: &mut [u8],
    header: DiscoveryHeader,
    name: &str,
    universes: &[u16],
) -> Result<usize, Refusal> {
    // SAFETY: pointers and lengths are those of three live slices. `buf` overlaps neither of the
    // others, since it is borrowed alone; only `buf` is written.
    let outcome = unsafe {
        ledgerwren1_pack_discovery(
            buf.as_mut_ptr(),
            buf.len(),
            header,
            name.as_ptr(),
            name.len(),
            universes.as_ptr(),
            universes.len(),
        )
    };
    outcome.result()
}

#[inline]
pub(crate) fn is_universe_in_range(universe: u16) -> Result<(), Refusal> {
    // SAFETY: a number goes in and numbers come out.
    unsafe { ledgerwren1_is_universe_in_range(universe) }.unless_none()
}

#[inline]
pub(crate) fn universe_to_ipv4_multicast_addr(universe: u16) -> Result<Ipv4Address, Refusal> {
    // SAFETY: a number goes in and numbers come out.
    let answer = unsafe { ledgerwren1_universe_to_ipv4_multicast_addr(universe) };
    answer.refusal.unless_none().map(|()| answer.address)
}
