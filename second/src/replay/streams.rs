//! Lines `stream` and `record`.
//!
//! A line may have no calls at all. Of a record all 64 entries are read; of the record answered, as of a
//! map, those that count are written. LENGTH, COUNT, POSITION and HELDCOUNT may be any 64-bit numbers.

use super::words::{
    any, byte, direction, direction_text, fixed, map_text, number, pair, parameters_text, room,
};
use crate::hex;
use crate::stream::{self, Record};
use crate::subsample::{Entry, Map};
use crate::track::Parameters;

enum Call {
    /// A piece and the length of the output.
    Feed(Vec<u8>, usize),
    End,
}

/// `DIRECTION CODE BOX AUX KEYS LENGTH CALL..`
pub fn stream(words: &[&[u8]]) -> Option<String> {
    let [way, code, track_box, aux, keys, length, calls @ ..] = words else {
        return None;
    };
    let (number, record) = stream::start(
        direction(way)?,
        &any(code)?,
        &any(track_box)?,
        &any(aux)?,
        &any(keys)?,
        number(length, u64::MAX)?,
    );
    Some(format!("{number} {}", replies(record, calls)?))
}

/// `RECORD CALL..`
pub fn record(words: &[&[u8]]) -> Option<String> {
    let [way, code, version, pattern, protected, iv_size, kid, constant, words @ ..] = words else {
        return None;
    };
    let [length, count, entries, position, key, block, held, held_count, calls @ ..] = words else {
        return None;
    };
    let (crypt, skip) = pair(pattern, u8::MAX.into(), u8::MAX.into())?;
    let record = Record {
        direction: direction(way)?,
        parameters: Parameters {
            code: fixed(code)?,
            version: byte(version)?,
            crypt: crypt as u8,
            skip: skip as u8,
            protected: byte(protected)?,
            iv_size: byte(iv_size)?,
            kid: fixed(kid)?,
            constant: fixed(constant)?,
        },
        length: number(length, u64::MAX)?,
        map: Map {
            count: number(count, u64::MAX)?,
            entries: all_entries(entries)?,
        },
        position: number(position, u64::MAX)?,
        key: fixed(key)?,
        block: fixed(block)?,
        held: fixed(held)?,
        held_count: number(held_count, u64::MAX)?,
    };
    replies(record, calls)
}

fn all_entries(word: &[u8]) -> Option<[Entry; Map::MOST_ENTRIES]> {
    let entry = |word: &[u8]| {
        let (clear, protected) = pair(word, u16::MAX.into(), u32::MAX.into())?;
        Some(Entry {
            clear: clear as u16,
            protected: protected as u32,
        })
    };
    let entries: Option<Vec<Entry>> = word.split(|&c| c == b',').map(entry).collect();
    entries?.try_into().ok()
}

/// `PIECE/ROOM` or `end`.
fn call(word: &&[u8]) -> Option<Call> {
    if *word == b"end" {
        return Some(Call::End);
    }
    let slash = word.iter().position(|&c| c == b'/')?;
    Some(Call::Feed(any(&word[..slash])?, room(&word[slash + 1..])?))
}

/// The reply to each call, then the record.
fn replies(mut record: Record, calls: &[&[u8]]) -> Option<String> {
    let calls: Option<Vec<Call>> = calls.iter().map(call).collect();
    let mut replies = String::new();
    for call in calls? {
        match call {
            Call::Feed(piece, room) => {
                let mut out = vec![0; room];
                let (number, released) = stream::feed(&mut record, &piece, &mut out);
                replies += &format!("{number}/{} ", hex::word(&out[..released]));
            }
            Call::End => replies += &format!("{} ", stream::end(&record)),
        }
    }
    Some(replies + &record_text(&record))
}

fn record_text(record: &Record) -> String {
    format!(
        "{} [{}] {} [{}] {} {} {} {} {}",
        direction_text(record.direction),
        parameters_text(&record.parameters),
        record.length,
        map_text(&record.map),
        record.position,
        hex::word(&record.key),
        hex::word(&record.block),
        hex::word(&record.held),
        record.held_count
    )
}
