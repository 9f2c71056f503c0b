//! Locks a recording of 4 MiB by cenc with a map, opens it again and compares.

const LENGTH: usize = 4 << 20;

/// Version 0, protected, IV size 8, KID 01 to 10.
const TRACK_BOX: &[u8] =
    b"\x00\x00\x00\x20tenc\x00\x00\x00\x00\x00\x00\x01\x08\x01\x02\x03\x04\x05\x06\x07\x08\x09\x0a\x0b\x0c\x0d\x0e\x0f\x10";

/// The KID, then the key.
const KEY_RECORD: &[u8] =
    b"\x01\x02\x03\x04\x05\x06\x07\x08\x09\x0a\x0b\x0c\x0d\x0e\x0f\x10\x2b\x7e\x15\x16\x28\xae\xd2\xa6\xab\xf7\x15\x88\x09\xcf\x4f\x3c";

/// The clear bytes at the start of each of two halves.
const CLEAR: usize = 100;

fn main() {
    if let Err(what) = run() {
        eprintln!("recording: {what}");
        std::process::exit(1);
    }
}

fn run() -> Result<(), String> {
    let half = (LENGTH / 2 - CLEAR) as u32;
    let entry = [&(CLEAR as u16).to_be_bytes()[..], &half.to_be_bytes()].concat();
    let auxiliary = [
        b"\xf0\xf1\xf2\xf3\xf4\xf5\xf6\xf7\x00\x02",
        &entry[..],
        &entry,
    ]
    .concat();
    let recording: Vec<u8> = (0..LENGTH).map(|i| (i % 251) as u8).collect();
    let mut sample = recording.clone();

    cenc::lock(b"cenc", TRACK_BOX, &auxiliary, KEY_RECORD, &mut sample)
        .map_err(|number| refused("lock", number))?;
    for start in [0, LENGTH / 2] {
        let (clear, end) = (start + CLEAR, start + CLEAR + 16);
        if sample[start..clear] != recording[start..clear]
            || sample[clear..end] == recording[clear..end]
        {
            return Err("locking changed other bytes than the map says".to_string());
        }
    }
    println!(
        "locked {LENGTH} bytes by cenc in two entries; byte {CLEAR} on is now {}",
        hex(&sample)
    );

    cenc::open(b"cenc", TRACK_BOX, &auxiliary, KEY_RECORD, &mut sample)
        .map_err(|number| refused("open", number))?;
    if sample != recording {
        return Err("opening did not give the recording back".to_string());
    }
    println!(
        "opened {LENGTH} bytes; byte {CLEAR} on is again {}, and all are as before",
        hex(&sample)
    );
    Ok(())
}

fn refused(call: &str, number: u8) -> String {
    format!("{call} refused {number}: {}", cenc::refusal::text(number))
}

/// The first 16 protected bytes.
fn hex(sample: &[u8]) -> String {
    sample[CLEAR..][..16]
        .iter()
        .map(|byte| format!("{byte:02x}"))
        .collect()
}
