//! Asks the crate what it does with pages of universes, for the rows of docs/DIFFERENCES.md on request 05,
//! and fails where it is not as they say.

use sacn::collector::SacnReceiver;
use sacn::packet::*;
use std::process::ExitCode;
use uuid::Uuid;

/// A page, its last page and its universes.
type Page = (u8, u8, &'static [u16]);

/// The pages that come, after which of them a source is complete, and the list then, or none.
struct Row {
    words: &'static str,
    pages: &'static [Page],
    complete: &'static [bool],
    list: &'static [u16],
}

const ROWS: [Row; 5] = [
    Row {
        words: "pages 1, 0: joined in page order",
        pages: &[(1, 1, &[9]), (0, 1, &[5])],
        complete: &[false, true],
        list: &[5, 9],
    },
    Row {
        words: "pages 0, 0, 1: no list",
        pages: &[(0, 1, &[5]), (0, 1, &[5]), (1, 1, &[9])],
        complete: &[false, false, false],
        list: &[],
    },
    Row {
        words: "pages 0, 1, 1: the third makes no list",
        pages: &[(0, 1, &[5]), (1, 1, &[9]), (1, 1, &[9])],
        complete: &[false, true, false],
        list: &[5, 9],
    },
    Row {
        words: "page 0 of 0 to 1, then page 1 of 0 to 2: a list",
        pages: &[(0, 1, &[5]), (1, 2, &[9])],
        complete: &[false, true],
        list: &[5, 9],
    },
    Row {
        words: "universes 5 and 9, then 5: joined",
        pages: &[(0, 1, &[5, 9]), (1, 1, &[5])],
        complete: &[false, true],
        list: &[5, 9, 5],
    },
];

fn layer((page, last_page, universes): Page) -> UniverseDiscoveryPacketFramingLayer<'static> {
    UniverseDiscoveryPacketFramingLayer {
        source_name: "desk".into(),
        data: UniverseDiscoveryPacketUniverseDiscoveryLayer {
            page,
            last_page,
            universes: universes.into(),
        },
    }
}

fn holds(row: &Row) -> bool {
    let mut receiver = SacnReceiver::default();
    let cid = Uuid::from_bytes([7; 16]);
    let told = row
        .pages
        .iter()
        .map(|page| receiver.collect(cid, layer(*page)).is_some());
    let complete: Vec<bool> = told.collect();
    let list = receiver
        .discovered()
        .first()
        .map_or(Vec::new(), |source| source.get_all_universes());
    complete == row.complete && list == row.list
}

/// The packer sees a page and not the list: 512 universes of which the next page begins with the last.
fn packs_a_page_of_a_list_with_a_fault() -> bool {
    let universes: Vec<u16> = (1..=512).chain([512]).collect();
    let page = UniverseDiscoveryPacketFramingLayer {
        source_name: "desk".into(),
        data: UniverseDiscoveryPacketUniverseDiscoveryLayer {
            page: 0,
            last_page: 1,
            universes: universes[..DISCOVERY_UNI_PER_PAGE].into(),
        },
    };
    let packet = AcnRootLayerProtocol {
        pdu: E131RootLayer {
            cid: Uuid::nil(),
            data: E131RootLayerData::UniverseDiscoveryPacket(page),
        },
    };
    packet.pack(&mut [0; 1144]).is_ok()
}

fn main() -> ExitCode {
    let mut rows: Vec<(&str, bool)> = ROWS.iter().map(|row| (row.words, holds(row))).collect();
    rows.push((
        "page 0 of 513 universes whose last two are equal: packed",
        packs_a_page_of_a_list_with_a_fault(),
    ));
    for (words, holds) in &rows {
        let verdict = if *holds { "so it is" } else { "NOT SO" };
        println!("the crate, {words}: {verdict}");
    }
    if rows.iter().all(|(_, holds)| *holds) {
        ExitCode::SUCCESS
    } else {
        ExitCode::FAILURE
    }
}
