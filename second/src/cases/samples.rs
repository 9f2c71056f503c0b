//! Lines `lock` and `open`.

use super::auxiliary::{auxiliary, byte_fault, entries, entry_fault, total};
use super::{any_parameters, box_of, boxes, parameters, zero_kid, Random, KINDS, PROTECTED_KINDS};
use crate::hex::word;
use crate::subsample::{Entry, LONGEST_SAMPLE};
use crate::track::Parameters;

pub fn line(random: &mut Random, n: u64) -> String {
    let call = random.pick(&["lock", "open"]);
    let inputs = match n % 16 {
        0..=9 => well_formed(random, n),
        10 => unprotected(random),
        11..=14 => faulty(random, n, 1),
        _ => {
            let faults = random.within(2, 3);
            faulty(random, n, faults)
        }
    };
    let sample = random.bytes(inputs.length as usize);
    format!("{call} {} {}", inputs.text(), word(&sample))
}

/// The inputs of a call, and the length of its sample.
pub struct Inputs {
    pub code: Vec<u8>,
    pub track_box: Vec<u8>,
    pub aux: Vec<u8>,
    pub keys: Vec<u8>,
    pub length: u64,
}

impl Inputs {
    pub fn text(&self) -> String {
        format!(
            "{} {} {} {}",
            word(&self.code),
            word(&self.track_box),
            word(&self.aux),
            word(&self.keys)
        )
    }

    /// Puts box and key record under the zero KID: 4 and not 6 if the track is protected.
    pub fn zero_kid(&mut self) {
        zero_kid(&mut self.track_box);
        zero_key_kid(&mut self.keys);
    }
}

/// Accepted inputs for a protected track; each kind of track has its turn.
pub fn well_formed(random: &mut Random, n: u64) -> Inputs {
    let p = parameters(random, (n / 16) as usize % PROTECTED_KINDS);
    let (entries, length) = map(random, &p);
    inputs(random, &p, &entries, length)
}

/// Accepted inputs for an unprotected track, whose key record isn't looked at.
pub fn unprotected(random: &mut Random) -> Inputs {
    let kind = random.within(PROTECTED_KINDS, KINDS.len() - 1);
    let p = parameters(random, kind);
    let length = random.below(100) as u64;
    let mut inputs = inputs(random, &p, &[], length);
    if random.once_in(2) {
        key_fault(random, &mut inputs.keys);
    }
    inputs
}

/// Inputs for a length at the edge of what a sample may have, some under the zero KID; no line can hold such a
/// sample itself.
pub fn longest(random: &mut Random, n: u64) -> Inputs {
    let p = parameters(random, (n / 16) as usize % PROTECTED_KINDS);
    let length = random.pick(&[LONGEST_SAMPLE, LONGEST_SAMPLE + 1, u64::MAX]);
    let mut inputs = inputs(random, &p, &[], length);
    if random.once_in(8) {
        inputs.zero_kid();
    }
    inputs
}

/// Inputs with so many faults.
pub fn faulty(random: &mut Random, n: u64, faults: usize) -> Inputs {
    let p = if random.once_in(8) {
        any_parameters(random)
    } else {
        parameters(random, (n / 16) as usize % PROTECTED_KINDS)
    };
    let (mut entries, mut length) = map(random, &p);
    let (mut of_entries, mut of_bytes, mut of_keys, mut of_box) = (0, 0, 0, 0);
    let mut under_zero_kid = false;
    for _ in 0..faults {
        match random.below(9) {
            0..=1 => of_keys += 1,
            2..=3 => of_box += 1,
            4 => of_bytes += 1,
            5 => under_zero_kid = true,
            _ => of_entries += 1,
        }
    }
    for _ in 0..of_entries {
        entry_fault(random, &mut entries, &mut length);
    }
    let mut inputs = inputs(random, &p, &entries, length);
    if under_zero_kid {
        inputs.zero_kid();
    }
    for _ in 0..of_bytes {
        byte_fault(random, &p, &mut inputs.aux);
    }
    for _ in 0..of_keys {
        key_fault(random, &mut inputs.keys);
    }
    for _ in 0..of_box {
        boxes::damage(random, &mut inputs.code, &mut inputs.track_box);
    }
    inputs
}

fn inputs(random: &mut Random, p: &Parameters, entries: &[Entry], length: u64) -> Inputs {
    let mut aux = auxiliary(random, p, entries);
    if p.iv_size == 16 && random.once_in(2) {
        let near_top = u64::MAX - random.below(6) as u64;
        aux[8..16].copy_from_slice(&near_top.to_be_bytes());
    }
    Inputs {
        code: p.code.to_vec(),
        track_box: box_of(p),
        aux,
        keys: [p.kid, random.array()].concat(),
        length,
    }
}

/// Entries and the length of their sample: mostly small, some with many entries, some long.
pub fn map(random: &mut Random, p: &Parameters) -> (Vec<Entry>, u64) {
    let clear = [0, 0, 0, 1, 3, 5, 16, 17, 20];
    let protected = [0, 1, 10, 15, 16, 17, 31, 32, 33, 48, 63, 64, 80, 100];
    let entries = match random.below(64) {
        0 => vec![Entry::ZERO; random.pick(&[1, 3, 64])],
        1 => {
            let count = random.within(30, 64);
            entries(random, p, count, &[0, 1, 2], &[0, 1, 15, 16, 17, 32])
        }
        2 => entries(random, p, 3, &clear, &[160, 176, 340, 1000, 1280]),
        3 => return (Vec::new(), random.within(200, 4000) as u64),
        4..=31 => {
            let count = random.within(1, 5);
            entries(random, p, count, &clear, &protected)
        }
        _ => return (Vec::new(), random.below(200) as u64),
    };
    let length = total(&entries);
    (entries, length)
}

/// A key record of another length, or for another KID, the zero KID too.
fn key_fault(random: &mut Random, keys: &mut Vec<u8>) {
    match random.below(4) {
        0 => keys.resize(random.pick(&[0, 16, 31, 33, 64]), 0),
        1 => keys.truncate(keys.len().saturating_sub(1)),
        2 => zero_key_kid(keys),
        _ if keys.len() < 16 => keys.clear(),
        _ => keys[random.below(16)] ^= 1 << random.below(8),
    }
}

/// Puts a key record, whole or cut short, under the zero KID.
fn zero_key_kid(keys: &mut [u8]) {
    if let Some(kid) = keys.get_mut(..16) {
        kid.fill(0);
    }
}
