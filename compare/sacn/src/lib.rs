//! The packet part of sacn, its follower of sequence numbers and its collector of discovery pages, as they
//! were published.

// The sources are judged for what they do; their style is not ours to change.
#![allow(warnings)]

pub mod collector;
pub mod follower;

include!(concat!(env!("OUT_DIR"), "/modules.rs"));
