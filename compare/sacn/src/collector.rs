//! The collector of discovery pages of receive.rs. Its items are private there, so what asks them stands
//! in their module.

use crate::packet::{
    UniverseDiscoveryPacketFramingLayer, UniverseDiscoveryPacketUniverseDiscoveryLayer,
};
use std::time::Instant;
use uuid::Uuid;

include!(concat!(env!("OUT_DIR"), "/collector.rs"));

/// The crate's receiver has sockets and more; its methods that collect pages need no more than this.
#[derive(Default)]
pub struct SacnReceiver {
    discovered_sources: Vec<DiscoveredSacnSource>,
    partially_discovered_sources: Vec<DiscoveredSacnSource>,
}

impl SacnReceiver {
    /// Takes in a page, and tells the source's name where it was the last one missing.
    pub fn collect(
        &mut self,
        cid: Uuid,
        page: UniverseDiscoveryPacketFramingLayer,
    ) -> Option<String> {
        self.handle_universe_discovery_packet(cid, page)
    }

    /// The sources of which all pages are there.
    pub fn discovered(&self) -> &[DiscoveredSacnSource] {
        &self.discovered_sources
    }
}
