//! Whole samples, locked and opened in place.

use crate::aes::{self, xor, Block, RoundKeys};
use crate::subsample::{self, Map};
use crate::track::{self, Parameters, Scheme};
use std::ops::Range;

#[derive(Clone, Copy, Debug, PartialEq, Eq)]
pub enum Direction {
    Lock,
    Open,
}

/// Locks a sample and answers 0, or leaves it and answers a refusal, 1 to 12.
pub fn lock(code: &[u8], track_box: &[u8], aux: &[u8], keys: &[u8], sample: &mut [u8]) -> u8 {
    run(Direction::Lock, code, track_box, aux, keys, sample)
}

/// Opens a sample and answers 0, or leaves it and answers a refusal, 1 to 12.
pub fn open(code: &[u8], track_box: &[u8], aux: &[u8], keys: &[u8], sample: &mut [u8]) -> u8 {
    run(Direction::Open, code, track_box, aux, keys, sample)
}

fn run(
    direction: Direction,
    code: &[u8],
    track_box: &[u8],
    aux: &[u8],
    keys: &[u8],
    sample: &mut [u8],
) -> u8 {
    match admit(code, track_box, aux, keys, sample.len() as u64) {
        Ok(inputs) => {
            transform(direction, &inputs, sample);
            0
        }
        Err(number) => number,
    }
}

/// Inputs that none of 1 to 12 refuses. For an unprotected track key and IV are zero.
pub struct Inputs {
    pub parameters: Parameters,
    pub scheme: Scheme,
    pub key: [u8; 16],
    pub map: Map,
    pub iv: Block,
}

pub fn admit(
    code: &[u8],
    track_box: &[u8],
    aux: &[u8],
    keys: &[u8],
    length: u64,
) -> Result<Inputs, u8> {
    let parameters = track::read(code, track_box)?;
    let scheme = parameters.check()?;
    let mut key = [0; 16];
    if parameters.is_protected() {
        if keys.len() != 32 {
            return Err(5);
        }
        if keys[..16] != parameters.kid {
            return Err(6);
        }
        key.copy_from_slice(&keys[16..]);
    }
    let (map, iv) = subsample::read_under(&parameters, length, aux)?;
    Ok(Inputs {
        parameters,
        scheme,
        key,
        map,
        iv,
    })
}

fn transform(direction: Direction, inputs: &Inputs, sample: &mut [u8]) {
    if !inputs.parameters.is_protected() {
        return;
    }
    let keys = aes::expand(&inputs.key);
    let mut stream = KeyStream::new(&keys, inputs.iv);
    let mut chain = inputs.iv;
    for range in protected_ranges(&inputs.map, sample.len()) {
        if inputs.scheme == Scheme::Cbcs {
            chain = inputs.iv;
        }
        for run in ciphered_runs(inputs, range) {
            match inputs.scheme {
                Scheme::Cenc | Scheme::Cens => stream.apply(&mut sample[run]),
                Scheme::Cbc1 | Scheme::Cbcs => {
                    chain_blocks(direction, &keys, &mut chain, &mut sample[run]);
                }
            }
        }
    }
}

/// The protected range of each entry; the whole sample if no entry is written.
fn protected_ranges(map: &Map, length: usize) -> Vec<Range<usize>> {
    if map.count == 0 {
        return vec![0..length];
    }
    let mut end = 0;
    let mut ranges = Vec::new();
    for entry in map.written() {
        let start = end + entry.clear as usize;
        end = start + entry.protected as usize;
        ranges.push(start..end);
    }
    ranges
}

/// The parts of a protected range that are ciphered: in cenc all of it, in cbc1 its whole blocks, in
/// cens and cbcs those of its whole blocks that the pattern names.
fn ciphered_runs(inputs: &Inputs, range: Range<usize>) -> impl Iterator<Item = Range<usize>> {
    let length = range.len();
    let (crypt, skip) = inputs.parameters.pattern();
    let (crypt, skip) = (16 * usize::from(crypt), 16 * usize::from(skip));
    let (run, step, clear) = match inputs.scheme {
        Scheme::Cenc => (length, length, 0),
        Scheme::Cbc1 => (length, length, length % 16),
        Scheme::Cens | Scheme::Cbcs => (crypt, crypt + skip, length % 16),
    };
    let end = range.end - clear;
    (range.start..end)
        .step_by(step.max(1))
        .map(move |start| start..end.min(start + run))
}

/// Counter mode's key stream, which goes on in mid-block.
struct KeyStream<'a> {
    keys: &'a RoundKeys,
    counter: Block,
    block: Block,
    used: usize,
}

impl KeyStream<'_> {
    fn new(keys: &RoundKeys, counter: Block) -> KeyStream<'_> {
        KeyStream {
            keys,
            counter,
            block: [0; 16],
            used: 16,
        }
    }

    fn apply(&mut self, mut bytes: &mut [u8]) {
        while !bytes.is_empty() {
            if self.used == 16 {
                self.block = aes::encipher(self.keys, self.counter);
                self.used = 0;
                raise(&mut self.counter);
            }
            let (now, later) = bytes.split_at_mut(bytes.len().min(16 - self.used));
            for (byte, k) in now.iter_mut().zip(&self.block[self.used..]) {
                *byte ^= k;
            }
            self.used += now.len();
            bytes = later;
        }
    }
}

/// Raises bytes 8 to 15 by one; after the largest value comes zero.
pub fn raise(counter: &mut Block) {
    let mut low = [0; 8];
    low.copy_from_slice(&counter[8..]);
    let next = u64::from_be_bytes(low).wrapping_add(1);
    counter[8..].copy_from_slice(&next.to_be_bytes());
}

/// CBC over whole blocks. The chain is the last cipher text block.
fn chain_blocks(direction: Direction, keys: &RoundKeys, chain: &mut Block, bytes: &mut [u8]) {
    for place in bytes.chunks_exact_mut(16) {
        let mut block = [0; 16];
        block.copy_from_slice(place);
        place.copy_from_slice(&chain_block(direction, keys, chain, block));
    }
}

pub fn chain_block(
    direction: Direction,
    keys: &RoundKeys,
    chain: &mut Block,
    block: Block,
) -> Block {
    match direction {
        Direction::Lock => {
            *chain = aes::encipher(keys, xor(block, chain));
            *chain
        }
        Direction::Open => {
            let plain = xor(aes::decipher(keys, block), chain);
            *chain = block;
            plain
        }
    }
}
