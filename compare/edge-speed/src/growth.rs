//! How the time of reading grows.

use crate::calls;
use crate::cases::{data, discovery};
use crate::timing::best;
use judge::record::Record;

/// Nanoseconds of ours and of the crate's at each size.
pub struct Growth {
    pub title: &'static str,
    /// What the sizes count.
    pub unit: &'static str,
    pub points: Vec<(usize, [f64; 2])>,
}

impl Growth {
    fn of(
        title: &'static str,
        unit: &'static str,
        sizes: &[usize],
        record: impl Fn(usize) -> Record,
        rounds: u64,
    ) -> Growth {
        let points = sizes.iter().map(|size| {
            let datagram = record(*size).datagram();
            (*size, best(calls::reading(&datagram), rounds))
        });
        Growth {
            title,
            unit,
            points: points.collect(),
        }
    }

    pub fn print(&self) {
        println!("\n{}", self.title);
        println!(
            "{:>14}{:>10}{:>11}{:>14}",
            self.unit, "ours, ns", "crate, ns", "crate / ours"
        );
        for (size, [ours, theirs]) in &self.points {
            println!(
                "{size:>14}{ours:>10.1}{theirs:>11.1}{:>14.2}",
                theirs / ours
            );
        }
    }
}

pub fn over_universes(rounds: u64) -> Growth {
    let sizes: Vec<usize> = (0..=512).step_by(64).collect();
    let title = "Reading a discovery packet, by universes";
    Growth::of(title, "universes", &sizes, discovery, rounds)
}

pub fn over_names(rounds: u64) -> Growth {
    let mut sizes: Vec<usize> = (0..63).step_by(8).collect();
    sizes.push(63);
    let title = "Reading data with one value, by length of name";
    let named = |bytes| data(&"n".repeat(bytes), 1);
    Growth::of(title, "bytes of name", &sizes, named, rounds)
}
