//! The follower of receive.rs. Its items are private there, so what asks them stands in their module.

use crate::error::errors::*;
use crate::packet::{
    E131_NETWORK_DATA_LOSS_TIMEOUT, E131_SEQ_DIFF_DISCARD_LOWER_BOUND,
    E131_SEQ_DIFF_DISCARD_UPPER_BOUND,
};
use std::collections::HashMap;
use std::time::{Duration, Instant};
use uuid::Uuid;

include!(concat!(env!("OUT_DIR"), "/follower.rs"));

/// A receiver's default: a source that timed out is removed without a word.
const ANNOUNCE_TIMEOUT: bool = false;

/// What a receiver keeps of the sources it hears.
pub struct Follower(SequenceNumbering);

impl Follower {
    pub fn new() -> Follower {
        Follower(SequenceNumbering::new())
    }

    /// Asks about a data packet, with no limit of sources.
    pub fn check(&mut self, cid: Uuid, universe: u16, sequence_number: u8) -> Result<()> {
        let limit = None;
        self.0
            .check_data_seq_number(limit, cid, sequence_number, universe, ANNOUNCE_TIMEOUT)
    }

    /// Does what a terminated packet does. A source that is not known is no fault, as in the crate.
    pub fn remove(&mut self, cid: Uuid, universe: u16) {
        let _ = self.0.remove_seq_numbers(cid, universe);
    }
}
