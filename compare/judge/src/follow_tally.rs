//! What the follower met, and how often.

use crate::beside::Agreement;
use crate::capture::Last;
use crate::exception::NOTHING_READ;
use crate::follow::{Answer, Became, Heard, Sent};
use std::collections::BTreeMap;

#[derive(Clone, Copy, PartialEq, Eq, PartialOrd, Ord)]
enum Met {
    First,
    Known,
    Discarded,
    TerminatedFirst,
    TerminatedAccepted,
    TerminatedDiscarded,
    Preview,
    NoRoom,
    RoomAgain,
    RoomAgainAfterNoRoom,
    Other,
    Unreadable,
    NoStartCode,
    Ended(&'static str),
    Crate(Agreement),
}

use Met::*;

/// Each of these has to be met.
const EXPECTED: [(Met, &str); 21] = [
    (First, "first packet of a source"),
    (Known, "later packet, accepted"),
    (Discarded, "later packet, discarded"),
    (TerminatedFirst, "terminated, a first packet"),
    (TerminatedAccepted, "terminated, a later one, accepted"),
    (TerminatedDiscarded, "terminated, discarded"),
    (Preview, "preview, followed"),
    (NoRoom, "refused 41"),
    (RoomAgain, "freed room used again"),
    (RoomAgainAfterNoRoom, "freed room used again, after 41"),
    (Other, "other"),
    (Unreadable, "unreadable"),
    (NoStartCode, "unreadable, but the crate reads it"),
    (Ended("end"), "captures to their end"),
    (Ended("cut"), "captures cut"),
    (Ended("bad"), "captures with a bad length"),
    (Crate(Agreement::Equal), "the crate asked, and equal"),
    (Crate(Agreement::Silent), "the crate has no verdict"),
    (
        Crate(Agreement::TakenAsNew),
        "the crate takes a freed source",
    ),
    (
        Crate(Agreement::OtherNumber),
        "the crate has another number",
    ),
    (Crate(Agreement::NotAsked), "the crate not asked, for 41"),
];

#[derive(Default)]
pub struct FollowTally {
    met: BTreeMap<Met, u64>,
    differences: BTreeMap<i8, u64>,
    /// Refusal 41 was met in this capture.
    full: bool,
}

impl FollowTally {
    fn add(&mut self, met: Met) {
        *self.met.entry(met).or_default() += 1;
    }

    pub fn count(&mut self, heard: &Heard, became: &Became) {
        match heard {
            Heard::Data(sent) => self.count_data(sent, became),
            Heard::Other => self.add(Other),
            Heard::Unreadable(refusal) if *refusal == NOTHING_READ => self.add(NoStartCode),
            Heard::Unreadable(_) => self.add(Unreadable),
        }
    }

    fn count_data(&mut self, sent: &Sent, became: &Became) {
        let new = became.difference.is_none();
        let (plain, terminated) = match became.answer {
            Answer::Accepted if new => (First, TerminatedFirst),
            Answer::Accepted => (Known, TerminatedAccepted),
            Answer::Discarded => (Discarded, TerminatedDiscarded),
            _ => (NoRoom, NoRoom),
        };
        self.add(if sent.terminated { terminated } else { plain });
        if let Some(difference) = became.difference {
            *self.differences.entry(difference).or_default() += 1;
        }
        if sent.preview {
            self.add(Preview);
        }
        if became.room_again {
            self.add(RoomAgain);
        }
        if became.room_again && self.full {
            self.add(RoomAgainAfterNoRoom);
        }
        self.full |= became.answer == Answer::NoRoom;
    }

    pub fn count_crate(&mut self, agreement: Agreement) {
        self.add(Crate(agreement));
    }

    /// Counts how a capture ended; the next one starts with a free table.
    pub fn count_last(&mut self, last: &Last) {
        self.add(Ended(last.word));
        self.full = false;
    }

    /// Prints the table; says whether all was met.
    pub fn print(&self) -> bool {
        let mut whole = true;
        for (met, words) in EXPECTED {
            let count = self.met.get(&met).unwrap_or(&0);
            println!("{words:<36}{count:>10}");
            whole &= *count > 0;
        }
        let rarest = self.differences.values().min().unwrap_or(&0);
        println!(
            "{} of the 256 differences -128..=127, the rarest {rarest} times",
            self.differences.len()
        );
        for (_, words) in EXPECTED
            .iter()
            .filter(|(met, _)| !self.met.contains_key(met))
        {
            println!("never met: {words}");
        }
        for difference in i8::MIN..=i8::MAX {
            if !self.differences.contains_key(&difference) {
                println!("never met: difference {difference}");
                whole = false;
            }
        }
        whole
    }
}
