//! The crate sacn as the judge of our packet programs: what it is asked, and what it answers.

pub mod beside;
pub mod capture;
pub mod dump;
pub mod exception;
pub mod follow;
pub mod follow_tally;
pub mod inputs;
pub mod kinds;
pub mod oracle;
pub mod probe;
pub mod random;
pub mod record;
pub mod refusal;
pub mod request;
pub mod tally;
pub mod wire;
