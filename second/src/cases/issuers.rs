//! Lines `issuer`.

use super::Random;
use crate::hex::word;

/// Most blocks that a grant may name.
const MOST: u64 = 1_048_576;

pub fn line(random: &mut Random, n: u64) -> String {
    let number = match random.below(4) {
        0 => random.next(),
        1 => u64::MAX - MOST * random.below(3) as u64 - random.below(3) as u64,
        _ => u64::MAX - random.below(8) as u64,
    };
    let length = match n % 8 {
        0 => random.below(21),
        1..=3 => 8,
        _ => 16,
    };
    let mut start = random.bytes(length);
    if length >= 8 {
        start[length - 8..].copy_from_slice(&number.to_be_bytes());
    }
    // Block counts from here to the top, as a grant of size 16 would see it.
    let left = (u64::MAX - number).saturating_add(1);
    let mut line = format!("issuer {}", word(&start));
    for _ in 0..random.below(10) {
        let count = match random.below(6) {
            0 => random.pick(&[0, MOST + 1, u64::MAX]),
            1 => random.pick(&[1, MOST, MOST - 1]),
            2 => random.pick(&[left - 1, left, left.saturating_add(1)]),
            3 => random.next() % MOST + 1,
            _ => random.within(1, 4) as u64,
        };
        line += &format!(" {count}");
    }
    line
}
