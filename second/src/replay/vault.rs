//! Lines `issuer`, `vempty`, `vcheck`, `vrecord`, `vadd` and `vdispose`.

use super::words::{any, number, room};
use crate::hex;
use crate::issuer::Issuer;
use crate::volume;

/// `START COUNT..`, answered the start's number and `NUMBER/VECTOR` for each count.
pub fn issuer(words: &[&[u8]]) -> Option<String> {
    let (start, counts) = words.split_first()?;
    let (start_number, mut issuer) = Issuer::start(&any(start)?);
    let mut answer = start_number.to_string();
    for count in counts {
        let (number, vector) = issuer.grant(number(count, u64::MAX)?);
        answer += &format!(" {number}/{}", hex::write(&vector));
    }
    Some(answer)
}

/// A call on volumes, answered `NUMBER` or `NUMBER BYTES`.
pub fn volume(words: &[&[u8]]) -> Option<String> {
    match words {
        [b"vempty", length] => {
            let mut out = vec![0; room(length)?];
            let length = volume::empty(&mut out);
            Some(with_bytes(length.map(|length| &out[..length])))
        }
        [b"vcheck", volume] => Some(alone(volume::check(&any(volume)?))),
        [b"vrecord", volume, place] => {
            let volume = any(volume)?;
            let place = number(place, u64::MAX)?;
            Some(with_bytes(volume::record(&volume, place)))
        }
        [b"vadd", volume, record, term, today, length] => {
            let (volume, record) = (any(volume)?, any(record)?);
            let (term, today) = (day(term)?, day(today)?);
            let mut out = vec![0; room(length)?];
            let length = volume::add(&volume, &record, term, today, &mut out);
            Some(with_bytes(length.map(|length| &out[..length])))
        }
        [b"vdispose", volume, place, today] => {
            let place = number(place, u64::MAX)?;
            Some(alone(volume::dispose(&any(volume)?, place, day(today)?)))
        }
        _ => None,
    }
}

/// A day, or a number of days.
fn day(word: &[u8]) -> Option<u32> {
    Some(number(word, u32::MAX.into())? as u32)
}

fn alone(result: Result<(), u8>) -> String {
    result.err().unwrap_or(0).to_string()
}

fn with_bytes(result: Result<&[u8], u8>) -> String {
    match result {
        Ok(bytes) => format!("0 {}", hex::word(bytes)),
        Err(number) => format!("{number} -"),
    }
}
