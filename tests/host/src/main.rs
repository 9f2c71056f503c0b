//! Calls the C interface and the second program on the same samples: `host cases SEED COUNT` on generated ones, `host longest`
//! on those at each limit and one past it.

use cenc::{refusal, KEY_RECORD_LENGTH, MAX_ENTRIES, MAX_KEY_RECORDS, MAX_SAMPLE_LENGTH};
use second::track::{self, Parameters};
use second::{cases, hex, sample};

/// Bytes on each side of a sample that no call may change.
const MARGIN: usize = 16;

type Ours = fn(&[u8], &[u8], &[u8], &[u8], &mut [u8]) -> Result<(), u8>;
type Second = fn(&[u8], &[u8], &[u8], &[u8], &mut [u8]) -> u8;

/// Locking or opening, what undoes it, and the same by the second program.
struct Calls(Ours, Ours, Second);

const LOCK: Calls = Calls(cenc::lock, cenc::open, sample::lock);
const OPEN: Calls = Calls(cenc::open, cenc::lock, sample::open);

struct Inputs {
    code: Vec<u8>,
    track_box: Vec<u8>,
    aux: Vec<u8>,
    keys: Vec<u8>,
}

fn main() {
    let words: Vec<String> = std::env::args().skip(1).collect();
    let words: Vec<&str> = words.iter().map(String::as_str).collect();
    let told = match words[..] {
        ["cases", seed, count] => match (seed.parse(), count.parse()) {
            (Ok(seed), Ok(count)) => generated(seed, count),
            _ => Err("SEED and COUNT are numbers".to_string()),
        },
        ["longest"] => longest(),
        _ => Err("usage: host cases SEED COUNT | host longest".to_string()),
    };
    match told {
        Ok(line) => println!("{line}"),
        Err(line) => {
            eprintln!("host: {line}");
            std::process::exit(1);
        }
    }
}

/// Both sides give the same number and bytes; a refusal changes nothing, and an accepted call can be undone. Answers the number.
fn compare(calls: &Calls, inputs: &Inputs, contents: &[u8]) -> Result<u8, String> {
    let Calls(ours, undo, second) = calls;
    let Inputs {
        code,
        track_box,
        aux,
        keys,
    } = inputs;
    let framed = [&[0xa5; MARGIN], contents, &[0xa5; MARGIN]].concat();
    let mut buffer = framed.clone();
    let end = MARGIN + contents.len();
    let number = ours(code, track_box, aux, keys, &mut buffer[MARGIN..end])
        .err()
        .unwrap_or(0);
    let mut expected = framed.clone();
    let expected_number = second(code, track_box, aux, keys, &mut expected[MARGIN..end]);
    if number != expected_number {
        return Err(format!(
            "answered {number}, and the second program {expected_number}"
        ));
    }
    if buffer != expected {
        return Err(format!("answered {number}, but the bytes differ"));
    }
    if number == 0 {
        undo(code, track_box, aux, keys, &mut buffer[MARGIN..end])
            .map_err(|number| format!("undoing it was refused ({number})"))?;
    }
    if buffer != framed {
        return Err(format!(
            "answered {number}, but the bytes are not as before"
        ));
    }
    Ok(number)
}

/// Lines of the second program's generator.
fn generated(seed: u64, count: u64) -> Result<String, String> {
    let mut lines = Vec::new();
    cases::print("sample", seed, count, &mut lines).map_err(|error| error.to_string())?;
    let mut given = [0u64; 256];
    for line in lines.split(|&c| c == b'\n').filter(|line| !line.is_empty()) {
        let told = |what| format!("{what}: {}", String::from_utf8_lossy(line));
        let (calls, inputs, contents) = read(line).ok_or_else(|| told("not a call".to_string()))?;
        given[usize::from(compare(&calls, &inputs, &contents).map_err(told)?)] += 1;
    }
    // No line holds a sample of more than 16 MiB, so 7 is not among them.
    if let Some(missing) = (0..=12).find(|&number| number != 7 && given[number] == 0) {
        return Err(format!("no case was answered {missing}"));
    }
    let total: u64 = given.iter().sum();
    if total != count {
        return Err(format!("{total} cases, not {count}"));
    }
    Ok(format!(
        "{total} calls alike, {} of them accepted and undone",
        given[0]
    ))
}

/// `lock CODE BOX AUX KEYS SAMPLE`, or `open ..`.
fn read(line: &[u8]) -> Option<(Calls, Inputs, Vec<u8>)> {
    let mut words = line.split(|&c| c == b' ');
    let calls = match words.next()? {
        b"lock" => LOCK,
        b"open" => OPEN,
        _ => return None,
    };
    let mut bytes = || match words.next()? {
        b"-" => Some(Vec::new()),
        digits => hex::read(digits),
    };
    let inputs = Inputs {
        code: bytes()?,
        track_box: bytes()?,
        aux: bytes()?,
        keys: bytes()?,
    };
    Some((calls, inputs, bytes()?))
}

/// Every scheme at the greatest length, without entries and with as many as there may be, and with a byte more; then as many key
/// records as there may be, and an entry or a key record more.
fn longest() -> Result<String, String> {
    let contents: Vec<u8> = (0..=MAX_SAMPLE_LENGTH)
        .map(|i| (i * 7 % 251) as u8)
        .collect();
    let mut done = 0;
    for (code, crypt, skip, iv_size) in [
        (b"cenc", 0, 0, 8),
        (b"cenc", 0, 0, 16),
        (b"cbc1", 0, 0, 16),
        (b"cens", 2, 1, 8),
        (b"cens", 1, 9, 16),
        (b"cens", 0, 0, 16),
        (b"cbcs", 1, 9, 0),
        (b"cbcs", 0, 0, 0),
    ] {
        for entries in [0, MAX_ENTRIES] {
            for calls in [LOCK, OPEN] {
                for (length, due) in [
                    (MAX_SAMPLE_LENGTH, 0),
                    (MAX_SAMPLE_LENGTH + 1, refusal::LENGTH),
                ] {
                    let name = String::from_utf8_lossy(code);
                    let told = |what| {
                        format!(
                            "{name}, IV size {iv_size}, {entries} entries, {length} bytes: {what}"
                        )
                    };
                    let inputs = inputs(code, crypt, skip, iv_size, entries);
                    let number = compare(&calls, &inputs, &contents[..length]).map_err(told)?;
                    if number != due {
                        return Err(told(format!("answered {number} and not {due}")));
                    }
                    done += 1;
                }
            }
        }
    }
    for (entries, records, due) in [
        (0, MAX_KEY_RECORDS, 0),
        (0, MAX_KEY_RECORDS + 1, refusal::KEY_RECORD),
        (MAX_ENTRIES + 1, 1, refusal::ENTRIES),
    ] {
        let told = |what| format!("cenc, {entries} entries, {records} key records: {what}");
        let mut inputs = inputs(b"cenc", 0, 0, 8, entries);
        for record in 1..records {
            inputs.keys.extend([0xe0 + record as u8; KEY_RECORD_LENGTH]);
        }
        let number = compare(&LOCK, &inputs, &contents[..64]).map_err(told)?;
        if number != due {
            return Err(told(format!("answered {number} and not {due}")));
        }
        done += 1;
    }
    Ok(format!("{done} calls at the limits and past them alike"))
}

/// Inputs for the greatest length, with so many equal entries.
fn inputs(code: &[u8; 4], crypt: u8, skip: u8, iv_size: u8, entries: usize) -> Inputs {
    let kid = [1; 16];
    let parameters = Parameters {
        code: *code,
        version: 1,
        crypt,
        skip,
        protected: 1,
        iv_size,
        kid,
        constant: if iv_size == 0 { [2; 16] } else { [0; 16] },
    };
    let mut aux = vec![0xf0; iv_size.into()];
    if entries > 0 {
        aux.extend((entries as u16).to_be_bytes());
        let clear = 48u16;
        let protected = (MAX_SAMPLE_LENGTH / entries) as u32 - u32::from(clear);
        for _ in 0..entries {
            aux.extend(clear.to_be_bytes());
            aux.extend(protected.to_be_bytes());
        }
    }
    Inputs {
        code: code.to_vec(),
        track_box: track::bytes(&parameters).expect("accepted parameters"),
        aux,
        keys: [&kid[..], &[3; KEY_RECORD_LENGTH - 16]].concat(),
    }
}
