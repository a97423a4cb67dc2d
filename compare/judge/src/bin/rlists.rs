//! What crates/list_times does, over the crate: it does the same work as often and prints the same number.
//! It is the baseline for speed.
//!
//! Once all pages are there the crate keeps the finished source, and the next page begins a new one: a page
//! that comes again makes no list. Where our program is fed one, this one has the finished source's pages
//! joined.

use sacn::collector::{DiscoveredSacnSource, SacnReceiver};
use sacn::packet::*;
use std::hint::black_box;
use std::io::{self, Read};
use uuid::Uuid;

const PAGES: usize = 128;
const LAST_PAGE: u8 = PAGES as u8 - 1;

/// The bytes of a full page.
const ROOM: usize = 1144;

const CID: [u8; 16] = [1, 2, 3, 4, 5, 6, 7, 8, 9, 10, 11, 12, 13, 14, 15, 16];

const MODULUS: u64 = 4_294_967_291;

fn mix(sum: u64, value: usize) -> u64 {
    (sum * 31 + value as u64) % MODULUS
}

/// Each round has another CID, so that it writes other bytes than the one before it.
fn cid_of(round: usize) -> Uuid {
    let mut cid = CID;
    cid[0] = round as u8;
    Uuid::from_bytes(cid)
}

fn packet_of(cid: Uuid, page: u8, universes: &[u16]) -> AcnRootLayerProtocol<'_> {
    let data = UniverseDiscoveryPacketUniverseDiscoveryLayer {
        page,
        last_page: LAST_PAGE,
        universes: universes.into(),
    };
    let framing = UniverseDiscoveryPacketFramingLayer {
        source_name: "desk".into(),
        data,
    };
    let data = E131RootLayerData::UniverseDiscoveryPacket(framing);
    AcnRootLayerProtocol {
        pdu: E131RootLayer { cid, data },
    }
}

fn write_pages(mut sum: u64, packets: &mut [u8], cid: Uuid, universes: &[u16]) -> u64 {
    let pages = universes.chunks(DISCOVERY_UNI_PER_PAGE);
    for (page, (room, universes)) in packets.chunks_mut(ROOM).zip(pages).enumerate() {
        let packet = packet_of(cid, page as u8, universes);
        packet.pack(room).expect("the page can be written");
        sum = mix(sum, packet.len());
    }
    sum
}

/// A byte of each round counts, and at the end all.
fn write_rounds(rounds: usize, packets: &mut [u8], universes: &[u16]) -> u64 {
    let mut sum = 0;
    for round in 0..rounds {
        sum = write_pages(sum, packets, cid_of(round), black_box(universes));
        sum = mix(sum, packets[round % packets.len()].into());
    }
    packets
        .iter()
        .fold(sum, |sum, byte| mix(sum, (*byte).into()))
}

/// Reads a packet and hands its page on.
fn feed(receiver: &mut SacnReceiver, packet: &[u8]) {
    let packet = AcnRootLayerProtocol::parse(packet).expect("the packet can be read");
    let E131RootLayerData::UniverseDiscoveryPacket(page) = packet.pdu.data else {
        panic!("the packet is no page");
    };
    receiver.collect(packet.pdu.cid, page);
}

/// All pages, to a fresh receiver: the last completes the list.
fn feed_all(packets: &[u8]) -> SacnReceiver {
    let mut receiver = SacnReceiver::default();
    for packet in packets.chunks(ROOM) {
        feed(&mut receiver, packet);
    }
    receiver
}

fn only_source(receiver: &SacnReceiver) -> &DiscoveredSacnSource {
    let [source] = receiver.discovered() else {
        panic!("not one source is complete");
    };
    source
}

fn mix_joined(sum: u64, list: &[u16], round: usize) -> u64 {
    mix(mix(sum, list.len()), list[round % list.len()].into())
}

fn mix_list(sum: u64, list: &[u16]) -> u64 {
    list.iter()
        .fold(sum, |sum, universe| mix(sum, (*universe).into()))
}

fn collect_rounds(rounds: usize, packets: &[u8]) -> u64 {
    let (mut sum, mut list) = (0, Vec::new());
    for round in 0..rounds {
        list = only_source(&feed_all(black_box(packets))).get_all_universes();
        sum = mix_joined(sum, &list, round);
    }
    mix_list(sum, &list)
}

fn join_rounds(rounds: usize, full: &DiscoveredSacnSource) -> u64 {
    let (mut sum, mut list) = (0, Vec::new());
    for round in 0..rounds {
        list = black_box(full).get_all_universes();
        sum = mix_joined(sum, &list, round);
    }
    mix_list(sum, &list)
}

fn run(letter: &str, rounds: usize) -> u64 {
    let universes: Vec<u16> = (0..=u16::MAX).collect();
    let mut packets = vec![0; PAGES * ROOM];
    if letter == "w" {
        return write_rounds(rounds, &mut packets, &universes);
    }
    write_pages(0, &mut packets, Uuid::from_bytes(CID), &universes);
    if letter == "c" {
        return collect_rounds(rounds, &packets);
    }
    join_rounds(rounds, only_source(&feed_all(&packets)))
}

fn main() -> io::Result<()> {
    let mut input = String::new();
    io::stdin().read_to_string(&mut input)?;
    let (letter, rounds) = input.trim_end().split_at(1);
    println!("{}", run(letter, rounds.parse().expect("a number")));
    Ok(())
}
