//! Lines `box` and `write`.

use super::{
    any_parameters, box_of, mend_size, near_zero_kid, parameters, zero_kid, Random, CODES, KINDS,
};
use crate::hex::word;
use crate::track::Parameters;

pub fn line(random: &mut Random, n: u64) -> String {
    let (round, turn) = ((n / 16) as usize, n % 16);
    match turn {
        0..=1 => {
            let p = parameters(random, (2 * round + turn as usize) % KINDS.len());
            let mut bytes = box_of(&p);
            if random.once_in(4) {
                zero_kid(&mut bytes);
            }
            box_line(&p.code, &bytes)
        }
        2..=6 => one_byte_changed(random, 5 * round + turn as usize - 2),
        7 => other_length(random),
        8 => edge_fields(random),
        9 => several_faults(random),
        10 => other_code(random),
        11 => garbage(random),
        12 => {
            let mut p = parameters(random, round % KINDS.len());
            if random.once_in(4) {
                p.kid = [0; 16];
            }
            write_line(random, &p)
        }
        _ => near_write(random),
    }
}

fn box_line(code: &[u8], bytes: &[u8]) -> String {
    format!("box {} {}", word(code), word(bytes))
}

/// Goes through every kind and every place of its box in turn.
fn one_byte_changed(random: &mut Random, n: usize) -> String {
    let p = parameters(random, n % KINDS.len());
    let mut bytes = box_of(&p);
    let place = n / KINDS.len() % bytes.len();
    bytes[place] = random.other_byte(bytes[place]);
    box_line(&p.code, &bytes)
}

fn other_length(random: &mut Random) -> String {
    let p = any_parameters(random);
    let mut bytes = box_of(&p);
    change_length(random, &mut bytes);
    box_line(&p.code, &bytes)
}

/// Cuts a box short or adds to it, with the size field as it was, mended, or one off.
fn change_length(random: &mut Random, bytes: &mut Vec<u8>) {
    let length = match random.below(4) {
        0 => random.pick(&[0, 3, 4, 8, 31, 32, 33, 34, 48, 49, 50]),
        1 => bytes.len().saturating_sub(1),
        2 => bytes.len() + 1,
        _ => random.below(70),
    };
    while bytes.len() < length {
        bytes.push(random.byte());
    }
    bytes.truncate(length);
    if !random.once_in(3) {
        mend_size(bytes);
    }
    if bytes.len() >= 4 && random.once_in(4) {
        bytes[3] = bytes[3].wrapping_add(random.pick(&[1, 255]));
    }
}

/// A box put together from fields near their edges, of a right size.
fn edge_fields(random: &mut Random) -> String {
    let mut bytes = b"\0\0\0\0tenc".to_vec();
    bytes.push(random.pick(&[0, 1, 1, 1, 1, 2]));
    bytes.extend([0, 0, 0, random.pick(&[0, 0, 0, 0, 0, 0, 0, 1])]);
    bytes.push(match random.below(3) {
        0 => 0,
        1 => random.pick(&[0x01, 0x09, 0x0f, 0x10, 0x19, 0x1f, 0xf0, 0xff]),
        _ => random.byte(),
    });
    bytes.extend([
        random.pick(&[0, 1, 1, 1, 2]),
        random.pick(&[0, 0, 8, 8, 16, 16, 7, 9, 15, 17]),
    ]);
    bytes.extend(match random.below(4) {
        0 => [0; 16],
        1 => near_zero_kid(random),
        _ => random.array(),
    });
    if random.once_in(2) {
        bytes.push(random.pick(&[16, 16, 16, 8, 0, 17]));
        bytes.extend(random.bytes(16));
    }
    mend_size(&mut bytes);
    box_line(&random.pick(&CODES), &bytes)
}

/// Two or three faults at once, so that the order of refusals shows.
fn several_faults(random: &mut Random) -> String {
    let p = any_parameters(random);
    let mut code = p.code.to_vec();
    let mut bytes = box_of(&p);
    for _ in 0..random.within(2, 3) {
        damage(random, &mut code, &mut bytes);
    }
    box_line(&code, &bytes)
}

/// One fault in a code or a box; crypt 0 with a skip and the zero KID are among them.
pub fn damage(random: &mut Random, code: &mut Vec<u8>, bytes: &mut Vec<u8>) {
    match random.below(8) {
        0 => change_length(random, bytes),
        1 => *code = random_code(random),
        2 if bytes.len() > 13 => bytes[13] = random.within(1, 15) as u8,
        3 => zero_kid(bytes),
        _ if bytes.is_empty() => {}
        _ => {
            let place = random.below(bytes.len().min(16));
            bytes[place] = random.other_byte(bytes[place]);
        }
    }
}

/// A well-formed box under a code that isn't its own.
fn other_code(random: &mut Random) -> String {
    let p = any_parameters(random);
    box_line(&random_code(random), &box_of(&p))
}

/// Random bytes, a known code changed or of another length, or another known code.
fn random_code(random: &mut Random) -> Vec<u8> {
    let mut code = random.pick(&CODES).to_vec();
    match random.below(5) {
        0 => {
            let length = random.below(7);
            random.bytes(length)
        }
        1 => {
            let place = random.below(4);
            code[place] = random.other_byte(code[place]);
            code
        }
        2 => {
            code.resize(random.below(7), b' ');
            code
        }
        3 => random.pick(&[b"sve1", b"CENC", b"piff", b"tenc"]).to_vec(),
        _ => code,
    }
}

/// Random bytes, sometimes with a right size, or with a right size and type.
fn garbage(random: &mut Random) -> String {
    let length = random.below(65);
    let mut bytes = random.bytes(length);
    if random.once_in(2) {
        mend_size(&mut bytes);
        if length >= 8 && random.once_in(2) {
            bytes[4..8].copy_from_slice(b"tenc");
        }
    }
    let code = random_code(random);
    box_line(&code, &bytes)
}

fn write_line(random: &mut Random, p: &Parameters) -> String {
    let room = match random.below(6) {
        0 => random.pick(&[30, 31, 32, 33]),
        1 => random.pick(&[47, 48, 49, 50]),
        2 => random.below(61),
        3 => random.pick(&[0, 65536]),
        _ => 60,
    };
    format!(
        "write {} {} {} {} {} {} {} {} {room}",
        word(&p.code),
        p.version,
        p.crypt,
        p.skip,
        p.protected,
        p.iv_size,
        word(&p.kid),
        word(&p.constant)
    )
}

/// Accepted parameters with up to three fields changed.
fn near_write(random: &mut Random) -> String {
    let mut p = any_parameters(random);
    for _ in 0..random.below(4) {
        match random.below(10) {
            0 => p.version = random.pick(&[0, 1, 2, 255]),
            1 => p.crypt = small_or_any(random),
            2 => p.skip = small_or_any(random),
            3 => p.protected = random.pick(&[0, 1, 2, 255]),
            4 => p.iv_size = random.pick(&[0, 7, 8, 9, 15, 16, 17, 255]),
            5 => p.constant[random.below(16)] ^= 1 << random.below(8),
            6 => p.code = random.pick(&CODES),
            7 => (p.crypt, p.skip) = (0, random.below(17) as u8),
            8 => p.kid = [0; 16],
            _ => {
                let place = random.below(4);
                p.code[place] = random.other_byte(p.code[place]);
            }
        }
    }
    write_line(random, &p)
}

fn small_or_any(random: &mut Random) -> u8 {
    match random.below(3) {
        0 => random.pick(&[0, 1, 14, 15, 16, 17, 255]),
        1 => random.below(16) as u8,
        _ => random.byte(),
    }
}
