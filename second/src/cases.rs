//! Seeded lines for `replay`. The same seed gives the same lines.

mod auxiliary;
mod boxes;
mod issuers;
mod samples;
mod streams;
mod volumes;

use crate::track::{self, Parameters};
use std::io::{self, Write};

/// Prints `count` lines; false if there is no such set.
pub fn print(set: &str, seed: u64, count: u64, out: &mut impl Write) -> io::Result<bool> {
    let line: fn(&mut Random, u64) -> String = match set {
        "box" => boxes::line,
        "aux" => auxiliary::line,
        "sample" => samples::line,
        "stream" => streams::line,
        "issuer" => issuers::line,
        "volume" => volumes::line,
        _ => return Ok(false),
    };
    let mut random = Random(seed);
    for n in 0..count {
        writeln!(out, "{}", line(&mut random, n))?;
    }
    Ok(true)
}

/// SplitMix64.
struct Random(u64);

impl Random {
    fn next(&mut self) -> u64 {
        self.0 = self.0.wrapping_add(0x9e3779b97f4a7c15);
        let mut z = self.0;
        z = (z ^ (z >> 30)).wrapping_mul(0xbf58476d1ce4e5b9);
        z = (z ^ (z >> 27)).wrapping_mul(0x94d049bb133111eb);
        z ^ (z >> 31)
    }

    /// From 0 to `limit` - 1.
    fn below(&mut self, limit: usize) -> usize {
        (self.next() % limit as u64) as usize
    }

    /// From `low` to `high`, both included.
    fn within(&mut self, low: usize, high: usize) -> usize {
        low + self.below(high - low + 1)
    }

    /// True once in `times`.
    fn once_in(&mut self, times: usize) -> bool {
        self.below(times) == 0
    }

    fn pick<T: Copy>(&mut self, choices: &[T]) -> T {
        choices[self.below(choices.len())]
    }

    fn byte(&mut self) -> u8 {
        self.next() as u8
    }

    fn bytes(&mut self, length: usize) -> Vec<u8> {
        (0..length).map(|_| self.byte()).collect()
    }

    fn array<const N: usize>(&mut self) -> [u8; N] {
        std::array::from_fn(|_| self.byte())
    }

    /// A byte other than `old`, mostly near it or near an edge of some field.
    fn other_byte(&mut self, old: u8) -> u8 {
        loop {
            let new = match self.below(4) {
                0 => self.pick(&[0, 1, 2, 7, 8, 9, 15, 16, 17, 32, 49, 127, 128, 240, 255]),
                1 => old ^ 1 << self.below(8),
                2 => self.pick(&[old.wrapping_add(1), old.wrapping_sub(1)]),
                _ => self.byte(),
            };
            if new != old {
                return new;
            }
        }
    }
}

const CODES: [[u8; 4]; 4] = [*b"cenc", *b"cbc1", *b"cens", *b"cbcs"];

/// Every kind of accepted box: code, version, protected flag, IV size. The protected ones come first.
const KINDS: [(&[u8; 4], u8, u8, u8); 20] = [
    (b"cenc", 0, 1, 8),
    (b"cenc", 0, 1, 16),
    (b"cenc", 1, 1, 8),
    (b"cenc", 1, 1, 16),
    (b"cbc1", 0, 1, 16),
    (b"cbc1", 1, 1, 16),
    (b"cens", 0, 1, 8),
    (b"cens", 0, 1, 16),
    (b"cens", 1, 1, 8),
    (b"cens", 1, 1, 16),
    (b"cbcs", 0, 1, 0),
    (b"cbcs", 1, 1, 0),
    (b"cenc", 0, 0, 0),
    (b"cenc", 1, 0, 0),
    (b"cbc1", 0, 0, 0),
    (b"cbc1", 1, 0, 0),
    (b"cens", 0, 0, 0),
    (b"cens", 1, 0, 0),
    (b"cbcs", 0, 0, 0),
    (b"cbcs", 1, 0, 0),
];

const PROTECTED_KINDS: usize = 12;

/// Accepted parameters of one kind; pattern, KID and constant IV are random, the KID also near zero.
fn parameters(random: &mut Random, kind: usize) -> Parameters {
    let (code, version, protected, iv_size) = KINDS[kind];
    let mut parameters = Parameters {
        code: *code,
        version,
        protected,
        iv_size,
        kid: match random.below(8) {
            0 => near_zero_kid(random),
            1..=2 if protected == 0 => [0; 16],
            _ => random.array(),
        },
        ..Parameters::REFUSED
    };
    // In version 0 the pattern is 0:0, in version 1 sometimes.
    let patterned = version == 1 && protected == 1 && matches!(code, b"cens" | b"cbcs");
    if patterned && !random.once_in(4) {
        parameters.crypt = random.pick(&[1, 1, 1, 2, 3, 5, 14, 15]);
        parameters.skip = random.pick(&[0, 0, 1, 1, 2, 9, 9, 14, 15]);
    }
    if parameters.has_constant() {
        parameters.constant = random.array();
    }
    parameters
}

/// A KID that is zero but for one byte: the first, the last or any.
fn near_zero_kid(random: &mut Random) -> [u8; 16] {
    let any = random.below(16);
    let mut kid = [0; 16];
    kid[random.pick(&[0, 15, any])] = random.other_byte(0);
    kid
}

fn any_parameters(random: &mut Random) -> Parameters {
    let kind = random.below(KINDS.len());
    parameters(random, kind)
}

/// The box of accepted parameters.
fn box_of(parameters: &Parameters) -> Vec<u8> {
    track::bytes(parameters).expect("accepted parameters")
}

/// Puts a box, whole or cut short, under the zero KID.
fn zero_kid(bytes: &mut [u8]) {
    if let Some(kid) = bytes.get_mut(16..32) {
        kid.fill(0);
    }
}

/// Corrects the size field of a box.
fn mend_size(bytes: &mut [u8]) {
    let length = bytes.len() as u32;
    if let Some(size) = bytes.get_mut(..4) {
        size.copy_from_slice(&length.to_be_bytes());
    }
}
