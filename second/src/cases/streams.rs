//! Lines `stream` and `record`.

use super::auxiliary::{entries, total};
use super::samples::{self, Inputs};
use super::{any_parameters, parameters, Random, CODES, PROTECTED_KINDS};
use crate::hex::word;
use crate::replay::words::{direction_text, parameters_text};
use crate::sample::Direction;
use crate::stream::{self, Record};
use crate::subsample::{Entry, Map, LONGEST_SAMPLE};
use crate::track::Parameters;

pub fn line(random: &mut Random, n: u64) -> String {
    match n % 16 {
        0..=2 => {
            let inputs = samples::well_formed(random, n);
            let cut = n / (16 * PROTECTED_KINDS as u64);
            stream_line(random, &inputs, |random, record| {
                cut_once(random, record, cut)
            })
        }
        3 => {
            let inputs = samples::well_formed(random, n);
            stream_line(random, &inputs, single_bytes)
        }
        4..=7 => {
            let mut inputs = samples::well_formed(random, n);
            if random.once_in(8) {
                inputs.zero_kid();
            }
            stream_line(random, &inputs, mixed)
        }
        8 => {
            let inputs = samples::unprotected(random);
            stream_line(random, &inputs, mixed)
        }
        9 => {
            let faults = random.within(1, 2);
            let inputs = samples::faulty(random, n, faults);
            stream_line(random, &inputs, mixed)
        }
        10 => {
            let inputs = samples::longest(random, n);
            stream_line(random, &inputs, mixed)
        }
        11..=13 => record_line(random, n, 0),
        14 => record_line(random, n, 1),
        _ => {
            let faults = random.within(1, 2);
            record_line(random, n, faults)
        }
    }
}

fn stream_line(
    random: &mut Random,
    inputs: &Inputs,
    calls: impl Fn(&mut Random, Record) -> Vec<String>,
) -> String {
    let direction = direction(random);
    let (_, record) = stream::start(
        direction,
        &inputs.code,
        &inputs.track_box,
        &inputs.aux,
        &inputs.keys,
        inputs.length,
    );
    let calls = calls(random, record);
    let line = format!(
        "stream {} {} {}",
        direction_text(direction),
        inputs.text(),
        inputs.length
    );
    [vec![line], calls].concat().join(" ")
}

fn direction(random: &mut Random) -> Direction {
    random.pick(&[Direction::Lock, Direction::Open])
}

/// A feeding of random bytes.
fn feeding(random: &mut Random, length: u64, room: u64) -> String {
    format!("{}/{room}", word(&random.bytes(length as usize)))
}

/// A feeding with just the output that is due; moves the record's position.
fn exact(random: &mut Random, record: &mut Record, length: u64) -> String {
    let after = record.position + length;
    let due = record.released_at(after) - record.released_at(record.position);
    record.position = after;
    feeding(random, length, due)
}

/// Two pieces and the end.
fn cut_once(random: &mut Random, mut record: Record, cut: u64) -> Vec<String> {
    let cut = cut % (record.length + 1);
    let rest = record.length - cut;
    vec![
        exact(random, &mut record, cut),
        exact(random, &mut record, rest),
        "end".to_string(),
    ]
}

fn single_bytes(random: &mut Random, mut record: Record) -> Vec<String> {
    let mut calls = Vec::new();
    while record.position < record.length.min(300) {
        calls.push(exact(random, &mut record, 1));
    }
    calls.push("end".to_string());
    calls
}

/// Pieces of all sizes, calls that are refused, empty pieces, ends; most lists come to the sample's end.
fn mixed(random: &mut Random, mut record: Record) -> Vec<String> {
    let mut calls = Vec::new();
    for _ in 0..random.below(12) {
        let left = record.length - record.position;
        let length = piece_length(random, left);
        let due =
            record.released_at(record.position + length) - record.released_at(record.position);
        calls.push(match random.below(12) {
            0 => "end".to_string(),
            1 => format!("-/{}", random.pick(&[0, 1, 20])),
            2 if left < 5000 => feeding(random, left + 1, left + 17),
            3 if due > 0 => feeding(random, length, due - 1),
            4 if due > 0 => feeding(random, length, 0),
            5 => {
                let room = due + random.pick(&[1, 15, 16, 40]);
                record.position += length;
                feeding(random, length, room)
            }
            _ => exact(random, &mut record, length),
        });
    }
    let left = record.length - record.position;
    if left < 5000 && !random.once_in(4) {
        calls.push(exact(random, &mut record, left));
        calls.push("end".to_string());
    }
    calls
}

fn piece_length(random: &mut Random, left: u64) -> u64 {
    let length = match random.below(4) {
        0 => random.pick(&[1, 15, 16, 17, 31, 32, 33]),
        1 => random.below(100),
        _ => random.below(20),
    };
    left.min(length as u64)
}

/// A record of the caller's own, with so many faults.
fn record_line(random: &mut Random, n: u64, faults: usize) -> String {
    let mut record = foreign(random, n);
    let mut calls = mixed(random, record.clone());
    for _ in 0..faults {
        fault(random, &mut record);
    }
    if faults > 0 {
        calls.truncate(3);
        calls.push(format!("-/{}", random.below(2)));
        calls.push("end".to_string());
    }
    [vec![record_text(&record)], calls].concat().join(" ")
}

/// A sound record whose free places hold anything.
fn foreign(random: &mut Random, n: u64) -> Record {
    let p = if random.once_in(10) {
        any_parameters(random)
    } else {
        parameters(random, (n / 16) as usize % PROTECTED_KINDS)
    };
    let (written, length) = match random.below(4) {
        0 => long_map(random, &p),
        _ => samples::map(random, &p),
    };
    let mut map = Map::EMPTY;
    if p.is_protected() {
        map.count = written.len() as u64;
        map.entries[..written.len()].copy_from_slice(&written);
    }
    if random.once_in(2) {
        for entry in &mut map.entries[map.count as usize..] {
            *entry = Entry {
                clear: random.next() as u16,
                protected: random.next() as u32,
            };
        }
    }
    let mut record = Record {
        direction: direction(random),
        parameters: p,
        length,
        map,
        position: position(random, &written, length),
        key: random.array(),
        block: random.array(),
        held: random.array(),
        held_count: 0,
    };
    record.held_count = record.held_at(record.position);
    if random.once_in(3) {
        record.held[record.held_count as usize..].fill(0);
    }
    if random.once_in(4) {
        record.block[8..].fill(0xff);
    }
    record
}

/// Few entries, or none, in a sample of up to the longest.
fn long_map(random: &mut Random, p: &Parameters) -> (Vec<Entry>, u64) {
    if random.once_in(2) {
        let length = LONGEST_SAMPLE - random.pick(&[0, 1, 15, 16, 100_000]);
        return (Vec::new(), length);
    }
    let protected = [100_000, 160_016, 1 << 20, (1 << 20) + 15, 5_000_000];
    let count = random.within(1, 3);
    let entries = entries(random, p, count, &[0, 5, 65535], &protected);
    let length = total(&entries);
    (entries, length)
}

/// Anywhere in the sample, often near its beginning, its end or the beginning of a protected range.
fn position(random: &mut Random, entries: &[Entry], length: u64) -> u64 {
    let near = match random.below(4) {
        0 => 0,
        1 => length,
        2 if !entries.is_empty() => {
            let before = random.below(entries.len());
            total(&entries[..before]) + u64::from(entries[before].clear)
        }
        _ => random.next() % (length + 1),
    };
    (near + random.below(40) as u64)
        .saturating_sub(20)
        .min(length)
}

/// A change that mostly makes a record unsound.
fn fault(random: &mut Random, record: &mut Record) {
    let p = &mut record.parameters;
    match random.below(19) {
        0 => p.code = random.pick(&CODES),
        1 => p.code[random.below(4)] ^= 1 << random.below(8),
        2 => p.version = random.pick(&[0, 1, 2, 255]),
        3 => p.crypt = random.pick(&[0, 1, 15, 16, 255]),
        4 => p.skip = random.pick(&[0, 1, 15, 16, 255]),
        5 => p.protected = random.pick(&[0, 1, 2]),
        6 => p.iv_size = random.pick(&[0, 8, 16, 17]),
        7 => p.constant[random.below(16)] ^= 1,
        8 => (p.crypt, p.skip) = (0, random.pick(&[1, 9, 15])),
        9..=10 => p.kid = [0; 16],
        11 => record.length = near(random, record.length, LONGEST_SAMPLE + 1),
        12 => record.map.count = near(random, record.map.count, 65),
        13 => record.map.entries[0] = Entry::ZERO,
        14 => record.map.entries[0].protected ^= random.pick(&[1, 16]),
        15 => record.position = near(random, record.position, record.length.wrapping_add(1)),
        _ => record.held_count = near(random, record.held_count, 16),
    }
}

/// One less, one more, an edge, or a number so large that sums pass the largest.
fn near(random: &mut Random, value: u64, edge: u64) -> u64 {
    random.pick(&[
        value.saturating_sub(1),
        value.wrapping_add(1),
        edge,
        edge.wrapping_sub(1),
        255,
        u64::MAX,
    ])
}

fn record_text(record: &Record) -> String {
    let entry = |entry: &Entry| format!("{}:{}", entry.clear, entry.protected);
    let entries: Vec<String> = record.map.entries.iter().map(entry).collect();
    format!(
        "record {} {} {} {} {} {} {} {} {} {}",
        direction_text(record.direction),
        parameters_text(&record.parameters),
        record.length,
        record.map.count,
        entries.join(","),
        record.position,
        word(&record.key),
        word(&record.block),
        word(&record.held),
        record.held_count
    )
}
