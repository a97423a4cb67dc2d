//! The crate's own follower, asked beside the rules: as a receiver asks it that listens to all universes
//! and takes preview packets, too.

use crate::follow::{Answer, Became, Sent, Source};
use sacn::error::errors::SacnError;
use sacn::follower::Follower;
use sacn::packet::E131_NETWORK_DATA_LOSS_TIMEOUT;
use std::collections::HashMap;
use std::time::Instant;
use uuid::Uuid;

/// What the crate says beside the rules, where it says what it must.
#[derive(Clone, Copy, PartialEq, Eq, PartialOrd, Ord)]
pub enum Agreement {
    Equal,
    /// A terminated packet frees its source, and the crate gives no verdict.
    Silent,
    /// The crate had freed the source at a late packet, and takes it as new.
    TakenAsNew,
    /// The crate goes by another number of this source than the rules.
    OtherNumber,
    /// The rules have no room, and the crate has no limit.
    NotAsked,
}

/// What the crate keeps of a source where that is not the number of the rules.
#[derive(Clone, Copy)]
enum Apart {
    Nothing,
    OtherNumber,
}

/// The crate's follower over one capture.
pub struct Beside {
    follower: Follower,
    apart: HashMap<Source, Apart>,
    began: Instant,
}

impl Beside {
    pub fn begin() -> Beside {
        Beside {
            follower: Follower::new(),
            apart: HashMap::new(),
            began: Instant::now(),
        }
    }

    /// Asks about a data packet, in the order of the crate's handle_data_packet. A difference is told in
    /// words.
    pub fn ask(&mut self, sent: &Sent, became: &Became) -> Result<Agreement, String> {
        if became.answer == Answer::NoRoom {
            return Ok(Agreement::NotAsked);
        }
        let accepted = became.answer == Answer::Accepted;
        let apart = self.apart.remove(&sent.source);
        let (cid, universe) = (Uuid::from_bytes(sent.source.cid), sent.source.universe);
        if sent.terminated {
            self.follower.remove(cid, universe);
            if !accepted {
                self.apart.insert(sent.source, Apart::Nothing);
            }
            return Ok(Agreement::Silent);
        }
        let late = match self.follower.check(cid, universe, sent.number) {
            Ok(()) => None,
            Err(SacnError::OutOfSequence(_, _, difference)) => Some(difference),
            Err(error) => return Err(format!("{error:?}")),
        };
        // Once both have taken a packet, they keep the same number.
        if apart.is_some() && !(accepted && late.is_none()) {
            self.apart.insert(sent.source, Apart::OtherNumber);
        }
        agreement(apart, late, became)
    }

    /// Whether the crate was asked all before it could take a source for lost.
    pub fn was_in_time(&self) -> bool {
        self.began.elapsed() < E131_NETWORK_DATA_LOSS_TIMEOUT
    }
}

/// Compares a verdict of the crate, the difference of a number that it finds late, with what became of
/// the packet.
fn agreement(
    apart: Option<Apart>,
    late: Option<isize>,
    became: &Became,
) -> Result<Agreement, String> {
    let expected = match became.answer {
        Answer::Discarded => became.difference.map(isize::from),
        _ => None,
    };
    match (apart, late) {
        (None, _) if late == expected => Ok(Agreement::Equal),
        (Some(Apart::Nothing), None) => Ok(Agreement::TakenAsNew),
        (Some(Apart::OtherNumber), _) => Ok(Agreement::OtherNumber),
        (_, None) => Err("accepted".to_string()),
        (_, Some(difference)) => Err(format!("discarded, difference {difference}")),
    }
}
