//! One call a line, one answer a line.
//!
//! Words are parted by single spaces. Bytes are pairs of lower-case hex digits, `-` for none. Numbers
//! are decimal digits without leading zeros, within the range of their place. A wrong word count, an
//! unknown kind, or a word that breaks these rules makes the line malformed.
//!
//! VERSION, CRYPT, SKIP, PROTECTED and IVSIZE are 0 to 255, a ROOM 0 to 65,536, other numbers any of
//! their type. In `write` and `record` CODE is exactly 4 bytes and KID, CONSTANT, KEY, BLOCK and HELD
//! are exactly 16; all other byte strings may have any length. A last line needs no newline.

mod streams;
mod vault;
pub(crate) mod words;

use self::words::{any, byte, direction, fixed, map_text, number, parameters_text};
use crate::hex;
use crate::sample::{self, Direction};
use crate::subsample::{self, Map};
use crate::track::{self, Parameters};
use std::io::{self, BufRead, Read, Write};

/// Longest line, without its newline.
const LONGEST_LINE: usize = 256 * 1024;

const MALFORMED: &str = "malformed";

pub fn run(input: &mut impl BufRead, out: &mut impl Write) -> io::Result<()> {
    let mut line = Vec::new();
    loop {
        line.clear();
        let mut head = input.take(LONGEST_LINE as u64 + 1);
        if head.read_until(b'\n', &mut line)? == 0 {
            return Ok(());
        }
        if line.last() == Some(&b'\n') {
            line.pop();
        } else if line.len() > LONGEST_LINE {
            input.skip_until(b'\n')?;
            writeln!(out, "{MALFORMED}")?;
            continue;
        }
        writeln!(out, "{}", answer(&line))?;
    }
}

fn answer(line: &[u8]) -> String {
    if line.is_empty() {
        return String::new();
    }
    let words: Vec<&[u8]> = line.split(|&c| c == b' ').collect();
    call(&words).unwrap_or_else(|| MALFORMED.to_string())
}

/// `None` if the line is malformed.
fn call(words: &[&[u8]]) -> Option<String> {
    match words {
        [b"box", code, bytes] => {
            let (number, parameters) = match track::read(&any(code)?, &any(bytes)?) {
                Ok(parameters) => (0, parameters),
                Err(number) => (number, Parameters::REFUSED),
            };
            Some(format!("{number} {}", parameters_text(&parameters)))
        }
        [b"write", code, version, crypt, skip, protected, iv_size, kid, constant, room] => {
            let parameters = Parameters {
                code: fixed(code)?,
                version: byte(version)?,
                crypt: byte(crypt)?,
                skip: byte(skip)?,
                protected: byte(protected)?,
                iv_size: byte(iv_size)?,
                kid: fixed(kid)?,
                constant: fixed(constant)?,
            };
            let mut out = vec![0; words::room(room)?];
            Some(match track::write(&parameters, &mut out) {
                Ok(length) => format!("0 {}", hex::word(&out[..length])),
                Err(number) => format!("{number} -"),
            })
        }
        [b"aux", code, track_box, length, aux] => {
            let (code, track_box, aux) = (any(code)?, any(track_box)?, any(aux)?);
            let length = number(length, u64::MAX)?;
            let (number, map, iv) = match subsample::read(&code, &track_box, length, &aux) {
                Ok((map, iv)) => (0, map, iv),
                Err(number) => (number, Map::EMPTY, [0; 16]),
            };
            Some(format!("{number} {} {}", map_text(&map), hex::word(&iv)))
        }
        [kind @ (b"lock" | b"open"), code, track_box, aux, keys, sample] => {
            let (code, track_box) = (any(code)?, any(track_box)?);
            let (aux, keys, mut sample) = (any(aux)?, any(keys)?, any(sample)?);
            let call = match direction(kind)? {
                Direction::Lock => sample::lock,
                Direction::Open => sample::open,
            };
            let number = call(&code, &track_box, &aux, &keys, &mut sample);
            Some(format!("{number} {}", hex::word(&sample)))
        }
        [b"stream", words @ ..] => streams::stream(words),
        [b"record", words @ ..] => streams::record(words),
        [b"issuer", words @ ..] => vault::issuer(words),
        _ => vault::volume(words),
    }
}

#[cfg(test)]
mod tests {
    use super::*;

    fn answers(input: &[u8]) -> String {
        let mut out = Vec::new();
        run(&mut &input[..], &mut out).unwrap();
        String::from_utf8(out).unwrap()
    }

    #[test]
    fn lines_are_parted() {
        let refused = "1 63656e63 0 0:0 0 0 00000000000000000000000000000000 00000000000000000000000000000000";
        assert_eq!(answers(b""), "");
        assert_eq!(answers(b"\nbox - -"), format!("\n{refused}\n"));
        assert_eq!(answers(b"box - -\n\n"), format!("{refused}\n\n"));
    }

    #[test]
    fn longest_line() {
        let line = |length: usize| format!("box - {}\n\n", "0".repeat(length - 6));
        assert!(answers(line(LONGEST_LINE).as_bytes()).starts_with("1 "));
        assert_eq!(answers(line(LONGEST_LINE + 2).as_bytes()), "malformed\n\n");
    }
}
