//! Packets written through the boundary: limits, refusals and what they leave of the buffer.

use ledgerwren::*;
use std::net::{Ipv4Addr, SocketAddrV4};

const CID: Cid = [7; 16];
const FILL: u8 = 0xee;
const ROOM: usize = 1200;

fn data<'a>(source_name: &'a str, property_values: &'a [u8]) -> DataPacket<'a> {
    DataPacket {
        source_name,
        priority: 100,
        synchronization_address: 0,
        sequence_number: 1,
        preview_data: false,
        stream_terminated: false,
        force_synchronization: false,
        universe: 1,
        property_values,
    }
}

fn discovery<'a>(source_name: &'a str, universes: &'a [u16]) -> UniverseDiscovery<'a> {
    UniverseDiscovery {
        source_name,
        page: 0,
        last_page: 0,
        universes,
    }
}

/// The number of the refusal, which leaves the buffer as found.
fn refused(room: usize, pack: impl Fn(&mut [u8]) -> Result<usize, Refusal>) -> u8 {
    let mut buf = [FILL; ROOM];
    let refusal = pack(&mut buf[..room]).expect_err("a refusal");
    assert_eq!(buf, [FILL; ROOM]);
    assert_eq!((refusal.place(), refusal.value()), (0, 0));
    refusal.number()
}

/// The length of the packet, behind which the buffer is as found; the packet is read again.
fn written(pack: impl Fn(&mut [u8]) -> Result<usize, Refusal>) -> usize {
    let mut buf = [FILL; ROOM];
    let length = pack(&mut buf).expect("a packet");
    assert!(buf[length..].iter().all(|byte| *byte == FILL));
    assert_eq!(
        parse(&buf[..length]).expect("a packet that is read").cid,
        CID
    );
    length
}

#[test]
fn a_name_has_at_most_63_bytes() {
    let (fits, over) = ("n".repeat(63), "n".repeat(64));
    assert_eq!(written(|buf| pack_data(buf, CID, &data(&fits, &[0]))), 126);
    assert_eq!(
        written(|buf| pack_discovery(buf, CID, &discovery(&fits, &[]))),
        120
    );
    assert_eq!(
        refused(ROOM, |buf| pack_data(buf, CID, &data(&over, &[0]))),
        21
    );
    assert_eq!(
        refused(ROOM, |buf| pack_discovery(buf, CID, &discovery(&over, &[]))),
        21
    );
}

#[test]
fn a_name_has_no_zero() {
    assert_eq!(
        refused(ROOM, |buf| pack_data(buf, CID, &data("a\0b", &[0]))),
        22
    );
    assert_eq!(
        refused(ROOM, |buf| pack_discovery(
            buf,
            CID,
            &discovery("a\0b", &[1])
        )),
        22
    );
}

#[test]
fn there_are_at_most_513_values_and_512_universes() {
    let values = [5; 514];
    assert_eq!(
        written(|buf| pack_data(buf, CID, &data("n", &values[..513]))),
        638
    );
    assert_eq!(
        refused(ROOM, |buf| pack_data(buf, CID, &data("n", &values))),
        24
    );
    let universes: Vec<u16> = (1..=513).collect();
    assert_eq!(
        written(|buf| pack_discovery(buf, CID, &discovery("n", &universes[..512]))),
        1144
    );
    assert_eq!(
        refused(ROOM, |buf| pack_discovery(
            buf,
            CID,
            &discovery("n", &universes)
        )),
        24
    );
}

/// A short buffer and a name's faults are told before it.
#[test]
fn there_is_a_start_code() {
    assert_eq!(written(|buf| pack_data(buf, CID, &data("n", &[0]))), 126);
    let over = "n".repeat(64);
    for (room, name, number) in [
        (ROOM, "n", 27),
        (125, "n", 27),
        (124, "n", 20),
        (124, &over, 20),
        (ROOM, &over, 21),
        (ROOM, "a\0b", 22),
    ] {
        assert_eq!(
            refused(room, |buf| pack_data(buf, CID, &data(name, &[]))),
            number,
            "{name:?} into {room} bytes"
        );
    }
}

#[test]
fn universes_ascend() {
    for (universes, number) in [([5, 5], 25), ([5, 3], 26)] {
        assert_eq!(
            refused(ROOM, |buf| pack_discovery(
                buf,
                CID,
                &discovery("n", &universes)
            )),
            number
        );
    }
}

#[test]
fn a_short_buffer_is_told_first() {
    let name = "n".repeat(64);
    assert_eq!(
        refused(125, |buf| pack_data(buf, CID, &data(&name, &[0]))),
        20
    );
    assert_eq!(
        refused(121, |buf| pack_discovery(buf, CID, &discovery(&name, &[1]))),
        20
    );
    let packet = SynchronizationPacket {
        sequence_number: 7,
        synchronization_address: 8000,
    };
    assert_eq!(
        refused(48, |buf| pack_synchronization(buf, CID, &packet)),
        20
    );
    assert_eq!(written(|buf| pack_synchronization(buf, CID, &packet)), 49);
}

#[test]
fn universes_are_copied_whole_or_not_at_all() {
    let mut buf = [FILL; ROOM];
    let length = pack_discovery(&mut buf, CID, &discovery("n", &[1, 0x0203, 0xfffe]));
    let length = length.expect("a discovery packet");
    let mut out = [9; 4];
    let refusal = copy_universes(&buf[..length], &mut out[..2]).expect_err("two are too few");
    assert_eq!((refusal.number(), out), (31, [9; 4]));
    assert_eq!(copy_universes(&buf[..length], &mut out), Ok(3));
    assert_eq!(out, [1, 0x0203, 0xfffe, 9]);
    let refusal = copy_universes(&buf[..length - 1], &mut out).expect_err("a cut datagram");
    assert_eq!(refusal.check(), Check::NoUniversesCopied);
}

#[test]
fn every_universe_has_its_address_or_none() {
    for universe in 0..=u16::MAX {
        let answer = universe_to_ipv4_multicast_addr(universe);
        assert_eq!(is_universe_in_range(universe), answer.map(|_| ()));
        if (1..=63999).contains(&universe) || universe == 64214 {
            let [high, low] = universe.to_be_bytes();
            let ip = Ipv4Addr::new(239, 255, high, low);
            assert_eq!(answer, Ok(SocketAddrV4::new(ip, 5568)));
        } else {
            let refusal = answer.expect_err("a universe without an address");
            assert_eq!(
                (refusal.number(), refusal.value()),
                (30, u32::from(universe))
            );
        }
    }
}
