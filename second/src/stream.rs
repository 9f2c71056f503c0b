//! A sample locked or opened piece by piece.

use crate::aes::{self, Block, RoundKeys};
use crate::sample::{admit, chain_block, raise, Direction};
use crate::subsample::{Entry, Map, LONGEST_SAMPLE};
use crate::track::{Parameters, Scheme};

/// Everything a stream knows between two calls. Any values can be held; calls refuse unsound ones.
#[derive(Clone, Debug, PartialEq, Eq)]
pub struct Record {
    pub direction: Direction,
    pub parameters: Parameters,
    pub length: u64,
    pub map: Map,
    pub position: u64,
    pub key: [u8; 16],
    /// The counter or the chain.
    pub block: Block,
    /// Places for a whole block, of which at most 15 are ever held between calls.
    pub held: Block,
    pub held_count: u64,
}

/// Starts a stream. A refusal is 1 to 12, and the record then that of an empty unprotected track.
pub fn start(
    direction: Direction,
    code: &[u8],
    track_box: &[u8],
    aux: &[u8],
    keys: &[u8],
    length: u64,
) -> (u8, Record) {
    match admit(code, track_box, aux, keys, length) {
        Ok(inputs) => {
            let record = Record {
                direction,
                parameters: inputs.parameters,
                length,
                map: inputs.map,
                key: inputs.key,
                block: inputs.iv,
                ..Record::REFUSED
            };
            (0, record)
        }
        Err(number) => (number, Record::REFUSED),
    }
}

/// Feeds a piece and answers a number, 0 or 13 to 15, and how many bytes of `out` were written.
pub fn feed(record: &mut Record, piece: &[u8], out: &mut [u8]) -> (u8, usize) {
    if !record.is_sound() {
        return (13, 0);
    }
    let after = record.position + piece.len() as u64;
    if after > record.length {
        return (14, 0);
    }
    let due = record.released_at(after) - record.released_at(record.position);
    if (out.len() as u64) < due {
        return (15, 0);
    }
    if piece.is_empty() {
        return (0, 0);
    }
    let mut machine = Machine::at(record, out);
    for &byte in piece {
        machine.take(byte);
    }
    let Machine {
        block,
        held,
        written,
        ..
    } = machine;
    record.position = after;
    record.block = block;
    record.held = held;
    record.held_count = record.held_at(after);
    record.held[record.held_count as usize..].fill(0);
    (0, written)
}

/// Answers 0 if the whole declared length has been fed, else 13 or 16.
pub fn end(record: &Record) -> u8 {
    if !record.is_sound() {
        13
    } else if record.position != record.length {
        16
    } else {
        0
    }
}

impl Record {
    pub const REFUSED: Record = Record {
        direction: Direction::Open,
        parameters: Parameters::REFUSED,
        length: 0,
        map: Map::EMPTY,
        position: 0,
        key: [0; 16],
        block: [0; 16],
        held: [0; 16],
        held_count: 0,
    };

    pub fn is_sound(&self) -> bool {
        let Ok(scheme) = self.parameters.check() else {
            return false;
        };
        self.length <= LONGEST_SAMPLE
            && (self.parameters.is_protected() || self.map.count == 0)
            && self.map.check(scheme, self.length).is_ok()
            && self.position <= self.length
            && self.held_count == self.held_at(self.position)
    }

    /// How many bytes are held at a position: those of a CBC block that isn't complete. For a record whose
    /// parameters and map are sound.
    pub fn held_at(&self, position: u64) -> u64 {
        match Walk::at(self, position).place() {
            Some(place) if !self.counts() => place.byte as u64,
            _ => 0,
        }
    }

    /// How many bytes have been released at a position, likewise.
    pub fn released_at(&self, position: u64) -> u64 {
        position - self.held_at(position)
    }

    /// Whether the scheme is one of counter mode.
    fn counts(&self) -> bool {
        matches!(
            Scheme::named(&self.parameters.code),
            Some(Scheme::Cenc | Scheme::Cens)
        )
    }
}

/// Takes one byte at a time and writes what can be released.
struct Machine<'a> {
    direction: Direction,
    counts: bool,
    /// cbcs: what the first block of each range is chained to.
    constant: Option<Block>,
    keys: RoundKeys,
    walk: Walk,
    block: Block,
    /// The enciphered counter block, once a byte of it is wanted.
    key_stream: Block,
    held: Block,
    out: &'a mut [u8],
    written: usize,
}

impl Machine<'_> {
    fn at<'a>(record: &Record, out: &'a mut [u8]) -> Machine<'a> {
        let keys = aes::expand(&record.key);
        Machine {
            direction: record.direction,
            counts: record.counts(),
            constant: record
                .parameters
                .has_constant()
                .then_some(record.parameters.constant),
            walk: Walk::at(record, record.position),
            block: record.block,
            key_stream: aes::encipher(&keys, record.block),
            held: record.held,
            keys,
            out,
            written: 0,
        }
    }

    fn take(&mut self, byte: u8) {
        match self.walk.place() {
            None => self.release(&[byte]),
            Some(place) if self.counts => {
                if place.byte == 0 {
                    self.key_stream = aes::encipher(&self.keys, self.block);
                }
                self.release(&[byte ^ self.key_stream[place.byte]]);
                if place.byte == 15 {
                    raise(&mut self.block);
                }
            }
            Some(place) => {
                self.held[place.byte] = byte;
                if place.byte == 15 {
                    if let (Some(constant), true) = (self.constant, place.first) {
                        self.block = constant;
                    }
                    let block = chain_block(self.direction, &self.keys, &mut self.block, self.held);
                    self.release(&block);
                }
            }
        }
        self.walk.advance(1);
    }

    fn release(&mut self, bytes: &[u8]) {
        self.out[self.written..][..bytes.len()].copy_from_slice(bytes);
        self.written += bytes.len();
    }
}

/// A byte's place in a block that is ciphered.
struct Place {
    byte: usize,
    /// Whether the block is the first of its range.
    first: bool,
}

/// Goes through a sample and knows which bytes are ciphered.
struct Walk {
    scheme: Scheme,
    crypt: u64,
    skip: u64,
    /// Clear and protected length of the entries still to come, the next one last.
    coming: Vec<(u64, u64)>,
    /// Of the entry at hand: clear bytes left, the range's length, and how much of it has been passed.
    clear: u64,
    range: u64,
    passed: u64,
    /// Protected bytes in the entries before.
    before: u64,
}

impl Walk {
    /// For a record whose parameters and map are sound.
    fn at(record: &Record, position: u64) -> Walk {
        let parameters = &record.parameters;
        let mut coming: Vec<(u64, u64)> = if !parameters.is_protected() {
            vec![(record.length, 0)]
        } else if record.map.count == 0 {
            vec![(0, record.length)]
        } else {
            let both = |entry: &Entry| (entry.clear.into(), entry.protected.into());
            record.map.written().iter().map(both).collect()
        };
        coming.reverse();
        let (crypt, skip) = parameters.pattern();
        let mut walk = Walk {
            scheme: parameters.check().expect("sound parameters"),
            crypt: crypt.into(),
            skip: skip.into(),
            coming,
            clear: 0,
            range: 0,
            passed: 0,
            before: 0,
        };
        walk.advance(position);
        walk
    }

    fn advance(&mut self, mut count: u64) {
        loop {
            let clear = count.min(self.clear);
            self.clear -= clear;
            count -= clear;
            let protected = count.min(self.range - self.passed);
            self.passed += protected;
            count -= protected;
            if self.clear > 0 || self.passed < self.range {
                return;
            }
            let Some((clear, range)) = self.coming.pop() else {
                return;
            };
            self.before += self.range;
            (self.clear, self.range, self.passed) = (clear, range, 0);
        }
    }

    /// The next byte's place in a ciphered block; `None` if it stays clear or there is no next byte.
    fn place(&self) -> Option<Place> {
        if self.clear > 0 || self.passed == self.range {
            return None;
        }
        let block = self.passed / 16;
        let ciphered = match self.scheme {
            Scheme::Cenc => {
                // One run through all ranges, in which blocks needn't begin where ranges do.
                return Some(Place {
                    byte: ((self.before + self.passed) % 16) as usize,
                    first: false,
                });
            }
            Scheme::Cbc1 => true,
            Scheme::Cens | Scheme::Cbcs => block % (self.crypt + self.skip) < self.crypt,
        };
        let whole = 16 * block + 16 <= self.range;
        (ciphered && whole).then_some(Place {
            byte: (self.passed % 16) as usize,
            first: block == 0,
        })
    }
}
