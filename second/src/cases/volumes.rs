//! Lines `vempty`, `vcheck`, `vrecord`, `vadd` and `vdispose`.

use super::Random;
use crate::hex::word;
use crate::volume;

/// Bytes of an index entry, and of the trailer.
const ENTRY: usize = 24;

/// A volume and what its lines are chosen by.
struct Case {
    bytes: Vec<u8>,
    /// Day stored and term of each record.
    days: Vec<(u32, u32)>,
    latest: u32,
}

pub fn line(random: &mut Random, n: u64) -> String {
    let mut case = valid(random);
    match n % 16 {
        0 => {
            let room = random.pick(&[0, 1, 23, 24, 25, 48, 65536]);
            return format!("vempty {room}");
        }
        1..=8 => {}
        9..=12 => one_byte_changed(random, &mut case.bytes, n / 16 * 4 + n % 16 - 9),
        13..=14 => near_the_top(random, &mut case),
        _ => other_length(random, &mut case.bytes),
    }
    match random.below(4) {
        0 => format!("vcheck {}", word(&case.bytes)),
        1 => format!(
            "vrecord {} {}",
            word(&case.bytes),
            number(random, &case.days)
        ),
        2 => add_line(random, &case),
        _ => dispose_line(random, &case),
    }
}

/// Up to five records, some empty, on days at the edges.
fn valid(random: &mut Random) -> Case {
    let mut bytes = vec![0; ENTRY];
    let mut days = Vec::new();
    let mut today = random.pick(&[0, 0, 1, 1000, u32::MAX - 3, u32::MAX]);
    for _ in 0..random.below(6) {
        let length = random.pick(&[0, 0, 1, 5, 24, 40]);
        let record = random.bytes(length);
        let term = random.pick(&[0, 1, 2, 10, u32::MAX - today, u32::MAX]);
        let mut out = vec![0; bytes.len() + record.len() + ENTRY];
        volume::add(&bytes, &record, term, today, &mut out).expect("a valid volume");
        bytes = out;
        days.push((today, term));
        today = today.saturating_add(random.pick(&[0, 1, 2]));
    }
    let mut case = Case {
        latest: days.iter().map(|day| day.0).max().unwrap_or(0),
        bytes,
        days,
    };
    if case.days.len() > 1 && random.once_in(3) {
        swap_days(random, &mut case);
    }
    case
}

/// A valid volume's days needn't be in order.
fn swap_days(random: &mut Random, case: &mut Case) {
    let count = case.days.len();
    let (a, b) = (random.below(count), random.below(count));
    let index = case.bytes.len() - ENTRY * (count + 1);
    case.days.swap(a, b);
    for i in 0..8 {
        case.bytes
            .swap(index + ENTRY * a + 16 + i, index + ENTRY * b + 16 + i);
    }
}

/// Goes through the bytes of index and trailer from the end, each in turn.
fn one_byte_changed(random: &mut Random, bytes: &mut [u8], n: u64) {
    let place = bytes.len() - 1 - n as usize % bytes.len();
    bytes[place] = random.other_byte(bytes[place]);
}

/// Counts, offsets and lengths so large that sums pass the largest 64-bit number and come out right.
fn near_the_top(random: &mut Random, case: &mut Case) {
    let count = case.days.len();
    let bytes = &mut case.bytes;
    let trailer = bytes.len() - ENTRY;
    let index = trailer - ENTRY * count;
    let large = random.pick(&[1 << 61, 1 << 63, u64::MAX - 23, u64::MAX]);
    match random.below(4) {
        0 => raise(bytes, trailer + 8, 1 << 61),
        1 => raise(bytes, trailer, large),
        2 => {
            let entries = random.within(1, 3) as u64;
            raise(bytes, trailer + 8, entries);
            raise(bytes, trailer, (entries * ENTRY as u64).wrapping_neg());
        }
        _ if count > 1 => {
            let entry = random.below(count - 1);
            raise(bytes, index + ENTRY * entry + 8, large);
            raise(bytes, index + ENTRY * (entry + 1), large);
            raise(bytes, index + ENTRY * (entry + 1) + 8, large.wrapping_neg());
        }
        _ => raise(bytes, trailer + 8, large),
    }
}

/// Adds to a 64-bit field; after the largest value comes zero.
fn raise(bytes: &mut [u8], place: usize, by: u64) {
    let mut field = [0; 8];
    field.copy_from_slice(&bytes[place..place + 8]);
    let sum = u64::from_be_bytes(field).wrapping_add(by);
    bytes[place..place + 8].copy_from_slice(&sum.to_be_bytes());
}

fn other_length(random: &mut Random, bytes: &mut Vec<u8>) {
    match random.below(3) {
        0 => bytes.truncate(random.below(bytes.len())),
        1 => bytes.push(0),
        _ => drop(bytes.remove(0)),
    }
}

/// The number of a record, or one that no record has.
fn number(random: &mut Random, days: &[(u32, u32)]) -> u64 {
    let count = days.len() as u64;
    match random.below(6) {
        0 => count,
        1 => random.pick(&[count + 1, 1 << 61, u64::MAX]),
        _ => random.below(days.len().max(1)) as u64,
    }
}

fn add_line(random: &mut Random, case: &Case) -> String {
    let length = random.pick(&[0, 0, 1, 7, 30]);
    let record = random.bytes(length);
    let room = case.bytes.len() + length + ENTRY;
    let room = random.pick(&[room, room, room + 1, room - 1, 0, 65536]);
    let term = random.pick(&[0, 1, u32::MAX]);
    let today = today(random, case.latest);
    format!(
        "vadd {} {} {term} {today} {room}",
        word(&case.bytes),
        word(&record)
    )
}

fn dispose_line(random: &mut Random, case: &Case) -> String {
    let number = number(random, &case.days);
    let free = case
        .days
        .get(number as usize)
        .map_or(0, |&(day, term)| u64::from(day) + u64::from(term));
    let free = free.min(u32::MAX.into()) as u32;
    let today = match random.below(3) {
        0 => today(random, case.latest),
        1 => free.max(case.latest),
        _ => free.saturating_sub(1),
    };
    format!("vdispose {} {number} {today}", word(&case.bytes))
}

/// The latest day or near it, also with the clock set back one day.
fn today(random: &mut Random, latest: u32) -> u32 {
    random.pick(&[
        latest,
        latest,
        latest.saturating_sub(1),
        latest.saturating_add(1),
        0,
        u32::MAX,
    ])
}
