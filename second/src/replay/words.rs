//! Reading the words of a line, and writing those of an answer. A word that breaks the rules is `None`.

use crate::hex;
use crate::sample::Direction;
use crate::subsample::Map;
use crate::track::Parameters;

/// Longest output that a line can lend.
const LONGEST_ROOM: u64 = 65536;

pub fn direction(word: &[u8]) -> Option<Direction> {
    match word {
        b"lock" => Some(Direction::Lock),
        b"open" => Some(Direction::Open),
        _ => None,
    }
}

pub fn direction_text(direction: Direction) -> &'static str {
    match direction {
        Direction::Lock => "lock",
        Direction::Open => "open",
    }
}

/// A byte string of any length.
pub fn any(word: &[u8]) -> Option<Vec<u8>> {
    match word {
        b"" => None,
        b"-" => Some(Vec::new()),
        digits => hex::read(digits),
    }
}

/// A byte string of exactly `N` bytes.
pub fn fixed<const N: usize>(word: &[u8]) -> Option<[u8; N]> {
    any(word)?.try_into().ok()
}

/// A number from 0 to `largest`.
pub fn number(word: &[u8], largest: u64) -> Option<u64> {
    if word.len() > 1 && word[0] == b'0' || !word.iter().all(u8::is_ascii_digit) {
        return None;
    }
    let value = std::str::from_utf8(word).ok()?.parse().ok()?;
    (value <= largest).then_some(value)
}

/// A number from 0 to 255.
pub fn byte(word: &[u8]) -> Option<u8> {
    Some(number(word, u8::MAX.into())? as u8)
}

/// Two numbers joined by a colon.
pub fn pair(word: &[u8], largest: u64, second_largest: u64) -> Option<(u64, u64)> {
    let colon = word.iter().position(|&c| c == b':')?;
    let second = number(&word[colon + 1..], second_largest)?;
    Some((number(&word[..colon], largest)?, second))
}

/// The length of an output, 0 to 65,536.
pub fn room(word: &[u8]) -> Option<usize> {
    Some(number(word, LONGEST_ROOM)? as usize)
}

pub fn parameters_text(p: &Parameters) -> String {
    format!(
        "{} {} {}:{} {} {} {} {}",
        hex::word(&p.code),
        p.version,
        p.crypt,
        p.skip,
        p.protected,
        p.iv_size,
        hex::word(&p.kid),
        hex::word(&p.constant)
    )
}

/// The count and the entries that count.
pub fn map_text(map: &Map) -> String {
    let entries: Vec<String> = map
        .written()
        .iter()
        .map(|entry| format!("{}:{}", entry.clear, entry.protected))
        .collect();
    if entries.is_empty() {
        format!("{} -", map.count)
    } else {
        format!("{} {}", map.count, entries.join(","))
    }
}
