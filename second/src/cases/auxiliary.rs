//! Lines `aux`, and entries and auxiliary data for other lines.

use super::{any_parameters, box_of, boxes, parameters, zero_kid, Random, KINDS, PROTECTED_KINDS};
use crate::hex::word;
use crate::subsample::{Entry, LONGEST_SAMPLE};
use crate::track::Parameters;

pub fn line(random: &mut Random, n: u64) -> String {
    let round = (n / 16) as usize;
    let p = parameters(random, round % PROTECTED_KINDS);
    match n % 16 {
        0..=1 => {
            let length = random.pick(&[0, 1, 15, 16, 17, LONGEST_SAMPLE]);
            well_formed(random, &p, &[], length)
        }
        2..=4 => {
            let count = random.within(1, 8);
            let entries = big_entries(random, &p, count);
            well_formed(random, &p, &entries, total(&entries))
        }
        5 => {
            let count = random.pick(&[63, 64, 65, 66]);
            let entries = big_entries(random, &p, count);
            well_formed(random, &p, &entries, total(&entries))
        }
        6 => longest(random, &p),
        7 => {
            let entries = vec![Entry::ZERO; random.pick(&[1, 2, 64, 65])];
            let length = random.pick(&[0, 0, 0, 1]);
            well_formed(random, &p, &entries, length)
        }
        8 => {
            let cbc1 = random.within(4, 5);
            let p = parameters(random, cbc1);
            let mut entries = big_entries(random, &p, 3);
            entries[random.below(3)].protected ^= random.pick(&[1, 2, 4, 8]);
            well_formed(random, &p, &entries, total(&entries))
        }
        9 => {
            let kind = random.within(PROTECTED_KINDS, KINDS.len() - 1);
            let p = parameters(random, kind);
            let length = random.pick(&[0, 1, LONGEST_SAMPLE, LONGEST_SAMPLE + 1]);
            let extra = random.pick(&[0, 0, 1, 8, 16]);
            aux_line(&p.code, &box_of(&p), length, &random.bytes(extra))
        }
        10..=14 => faulty(random, &p, 1),
        _ => {
            let p = any_parameters(random);
            let faults = random.within(2, 3);
            faulty(random, &p, faults)
        }
    }
}

fn aux_line(code: &[u8], track_box: &[u8], length: u64, aux: &[u8]) -> String {
    format!(
        "aux {} {} {length} {}",
        word(code),
        word(track_box),
        word(aux)
    )
}

fn well_formed(random: &mut Random, p: &Parameters, entries: &[Entry], length: u64) -> String {
    let aux = auxiliary(random, p, entries);
    aux_line(&p.code, &box_of(p), length, &aux)
}

/// Lengths at the edge of what a sample may have, with and without entries.
fn longest(random: &mut Random, p: &Parameters) -> String {
    let length = LONGEST_SAMPLE + random.pick(&[0, 0, 0, 1, 16, u64::MAX - LONGEST_SAMPLE]);
    let mut entries = big_entries(random, p, 3);
    let rest = length.wrapping_sub(total(&entries)) as u32;
    entries.push(Entry {
        clear: (rest % 16) as u16,
        protected: rest - rest % 16,
    });
    entries.truncate(random.pick(&[0, 4, 4, 4]));
    well_formed(random, p, &entries, length)
}

/// Well-formed auxiliary data with so many faults made to it, its box or its code.
fn faulty(random: &mut Random, p: &Parameters, faults: usize) -> String {
    let count = random.below(5);
    let mut entries = big_entries(random, p, count);
    let mut length = total(&entries);
    let mut code = p.code.to_vec();
    let mut track_box = box_of(p);
    let mut of_bytes = 0;
    for _ in 0..faults {
        match random.below(9) {
            0 => boxes::damage(random, &mut code, &mut track_box),
            1 => length = random.pick(&[LONGEST_SAMPLE + 1, u64::MAX]),
            2 => zero_kid(&mut track_box),
            3..=5 => of_bytes += 1,
            _ => entry_fault(random, &mut entries, &mut length),
        }
    }
    let mut aux = auxiliary(random, p, &entries);
    for _ in 0..of_bytes {
        byte_fault(random, p, &mut aux);
    }
    aux_line(&code, &track_box, length, &aux)
}

/// Accepted entries of all sizes.
fn big_entries(random: &mut Random, p: &Parameters, count: usize) -> Vec<Entry> {
    let clear = [0, 0, 1, 15, 16, 255, 256, 1000, 65535];
    let protected = [0, 1, 15, 16, 17, 32, 255, 256, 4096, 65535, 65536, 100_000];
    entries(random, p, count, &clear, &protected)
}

/// Accepted entries with lengths out of these lists; for cbc1 whole blocks.
pub fn entries(
    random: &mut Random,
    p: &Parameters,
    count: usize,
    clear: &[u16],
    protected: &[u32],
) -> Vec<Entry> {
    let entry = |_| {
        let mut entry = Entry {
            clear: random.pick(clear),
            protected: random.pick(protected),
        };
        if p.code == *b"cbc1" {
            entry.protected -= entry.protected % 16;
        }
        if entry == Entry::ZERO {
            entry.clear = 1;
        }
        entry
    };
    (0..count).map(entry).collect()
}

pub fn total(entries: &[Entry]) -> u64 {
    entries.iter().map(Entry::length).sum()
}

/// Auxiliary data of a random IV and these entries; empty for an unprotected track.
pub fn auxiliary(random: &mut Random, p: &Parameters, entries: &[Entry]) -> Vec<u8> {
    let mut aux = random.bytes(p.iv_size.into());
    if p.is_protected() && !entries.is_empty() {
        aux.extend((entries.len() as u16).to_be_bytes());
        for entry in entries {
            aux.extend(entry.clear.to_be_bytes());
            aux.extend(entry.protected.to_be_bytes());
        }
    }
    aux
}

/// A fault in the entries, or in how they go with the length.
pub fn entry_fault(random: &mut Random, entries: &mut Vec<Entry>, length: &mut u64) {
    if entries.is_empty() {
        *length = 0;
    }
    let place = random.below(entries.len() + 1);
    match random.below(6) {
        0 if *length > 0 && random.once_in(2) => *length -= 1,
        0 => *length = length.wrapping_add(1),
        1 => entries.insert(place, Entry::ZERO),
        2..=3 => {
            let odd = Entry {
                clear: 0,
                protected: random.pick(&[1, 8, 15, 17, 31]),
            };
            entries.insert(place, odd);
            *length = length.wrapping_add(odd.length());
        }
        4 => {
            let one = Entry {
                clear: 1,
                protected: 0,
            };
            while entries.len() < 65 {
                entries.push(one);
                *length = length.wrapping_add(1);
            }
        }
        _ => {
            // Together 2^32 more than the sample has.
            let pair = random.pick(&[(0xffff_ffff, 1), (0xffff_fff0, 16), (0x8000_0000, 0)]);
            entries.insert(
                place,
                Entry {
                    clear: pair.1,
                    protected: pair.0,
                },
            );
            if pair.1 == 0 {
                entries.push(entries[place]);
            }
        }
    }
}

/// A fault in the count or in the size of auxiliary data.
pub fn byte_fault(random: &mut Random, p: &Parameters, aux: &mut Vec<u8>) {
    let size = usize::from(p.iv_size);
    match random.below(4) {
        0 if aux.len() >= size + 2 => {
            let count = u16::from_be_bytes([aux[size], aux[size + 1]]);
            let other = random.pick(&[
                0,
                count.wrapping_sub(1),
                count.wrapping_add(1),
                count ^ 256,
                65,
                65535,
            ]);
            aux[size..size + 2].copy_from_slice(&other.to_be_bytes());
        }
        1 => aux.truncate(random.below(aux.len() + 1)),
        2 => aux.truncate(aux.len().saturating_sub(1)),
        _ => {
            let extra = random.pick(&[1, 2, 6, 8, 12]);
            aux.extend(vec![0; extra]);
        }
    }
}
