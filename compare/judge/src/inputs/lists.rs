//! Universe lists and value lists.

use super::cuts::mend;
use super::samples;
use crate::wire::*;

/// Lists with an equal or falling pair at each place of interest, and with the extreme numbers.
pub fn universes(sink: &mut dyn FnMut(Vec<u8>)) {
    for count in [0, 1, 2, 3, 4, 100, 511, 512, 513] {
        let good = samples::discovery(b"Source_B", count).datagram();
        sink(good.clone());
        for i in places(count) {
            let at = UNIVERSES + 2 * i;
            let before = i.checked_sub(1).map_or(0, |_| get16(&good, at - 2));
            for value in [0, before.saturating_sub(1), before, before + 1, u16::MAX] {
                let mut d = good.clone();
                put16(&mut d, at, value);
                sink(d);
            }
        }
    }
}

fn places(count: usize) -> Vec<usize> {
    let mut places: Vec<usize> = (0..count.min(4)).collect();
    places.extend([count / 2, count.saturating_sub(2), count.saturating_sub(1)]);
    places.retain(|i| *i < count);
    places.dedup();
    places
}

/// Discovery layers of each length around the largest, whole ones and ones with an odd last byte.
pub fn layer_lengths(sink: &mut dyn FnMut(Vec<u8>)) {
    let record = samples::discovery(b"Source_B", 520);
    let whole = record.datagram();
    for length in (8..=20).chain(1024..=1040) {
        let mut d = whole[..DISCOVERY + length].to_vec();
        mend(&mut d, &samples::layers(&record), 3);
        sink(d.clone());
        // Page above last page, judged after the length.
        d[PAGE] = 3;
        sink(d);
    }
}

/// Data packets around the largest number of values, with the right count and with one below.
pub fn values(sink: &mut dyn FnMut(Vec<u8>)) {
    for count in (0..=3).chain(509..=517).chain([600, 1000, 3900]) {
        let mut d = samples::data(b"Source_A", count).datagram();
        sink(d.clone());
        put16(&mut d, COUNT, (count as u16).wrapping_sub(1));
        sink(d);
    }
}
