//! A sample's auxiliary data: its IV and the map of clear and protected bytes.

use crate::track::{self, Parameters, Scheme};

pub const LONGEST_SAMPLE: u64 = 16_777_216;

/// A number of clear bytes, then a number of protected ones.
#[derive(Clone, Copy, Debug, PartialEq, Eq)]
pub struct Entry {
    pub clear: u16,
    pub protected: u32,
}

impl Entry {
    pub const ZERO: Entry = Entry {
        clear: 0,
        protected: 0,
    };

    pub fn length(&self) -> u64 {
        u64::from(self.clear) + u64::from(self.protected)
    }
}

/// The entries written and their count, 0 if none is. Any values can be held.
#[derive(Clone, Debug, PartialEq, Eq)]
pub struct Map {
    pub count: u64,
    pub entries: [Entry; Map::MOST_ENTRIES],
}

impl Map {
    pub const MOST_ENTRIES: usize = 64;

    pub const EMPTY: Map = Map {
        count: 0,
        entries: [Entry::ZERO; Map::MOST_ENTRIES],
    };

    /// The entries that count; all places if the count passes them.
    pub fn written(&self) -> &[Entry] {
        &self.entries[..self.count.min(Map::MOST_ENTRIES as u64) as usize]
    }

    /// Refusals 9 to 12. They speak of entries written; without any none applies.
    pub fn check(&self, scheme: Scheme, length: u64) -> Result<(), u8> {
        if self.count == 0 {
            return Ok(());
        }
        if self.count > Map::MOST_ENTRIES as u64 {
            return Err(9);
        }
        let entries = self.written();
        if length > 0 && entries.contains(&Entry::ZERO) {
            return Err(10);
        }
        if entries.iter().map(Entry::length).sum::<u64>() != length {
            return Err(11);
        }
        if scheme == Scheme::Cbc1 && entries.iter().any(|entry| entry.protected % 16 != 0) {
            return Err(12);
        }
        Ok(())
    }
}

/// Reads auxiliary data under a code and a box. Refusals 1 to 4 and 7 to 12.
pub fn read(code: &[u8], track_box: &[u8], length: u64, aux: &[u8]) -> Result<(Map, [u8; 16]), u8> {
    read_under(&track::read(code, track_box)?, length, aux)
}

/// The same under accepted parameters. Refusals 7 to 12.
pub fn read_under(parameters: &Parameters, length: u64, aux: &[u8]) -> Result<(Map, [u8; 16]), u8> {
    let scheme = parameters.check()?;
    if length > LONGEST_SAMPLE {
        return Err(7);
    }
    if !parameters.is_protected() {
        return if aux.is_empty() {
            Ok((Map::EMPTY, [0; 16]))
        } else {
            Err(8)
        };
    }
    let size = usize::from(parameters.iv_size);
    let (written_iv, rest) = aux.split_at_checked(size).ok_or(8)?;
    let map = read_entries(rest)?;
    map.check(scheme, length)?;
    let mut iv = parameters.constant;
    iv[..size].copy_from_slice(written_iv);
    Ok((map, iv))
}

/// Reads what follows the IV. Refusals 8 and 9.
fn read_entries(bytes: &[u8]) -> Result<Map, u8> {
    let mut map = Map::EMPTY;
    if bytes.is_empty() {
        return Ok(map);
    }
    let (count, bytes) = bytes.split_at_checked(2).ok_or(8)?;
    let count = usize::from(u16::from_be_bytes([count[0], count[1]]));
    if count == 0 || bytes.len() != 6 * count {
        return Err(8);
    }
    if count > Map::MOST_ENTRIES {
        return Err(9);
    }
    map.count = count as u64;
    for (entry, b) in map.entries.iter_mut().zip(bytes.chunks_exact(6)) {
        entry.clear = u16::from_be_bytes([b[0], b[1]]);
        entry.protected = u32::from_be_bytes([b[2], b[3], b[4], b[5]]);
    }
    Ok(map)
}
