//! `include/cenc.h` over slices. What it says of wrong keys, of key bytes that stay on the stack and of time holds here too.

pub mod refusal;

/// The most that a call takes: bytes of a sample, subsample entries of a sample, key records.
pub const MAX_SAMPLE_LENGTH: usize = 16_777_216;
pub const MAX_ENTRIES: usize = 64;
pub const MAX_KEY_RECORDS: usize = 1;

/// The bytes of a key record: the KID, then the key, 16 each.
pub const KEY_RECORD_LENGTH: usize = 32;

type Call = unsafe extern "C" fn(
    *const u8,
    usize,
    *const u8,
    usize,
    *const u8,
    usize,
    *const u8,
    usize,
    *mut u8,
    usize,
) -> u8;

extern "C" {
    fn cenc_lock(
        scheme: *const u8,
        scheme_length: usize,
        track_box: *const u8,
        box_length: usize,
        auxiliary: *const u8,
        auxiliary_length: usize,
        key_record: *const u8,
        key_record_length: usize,
        sample: *mut u8,
        sample_length: usize,
    ) -> u8;
    fn cenc_open(
        scheme: *const u8,
        scheme_length: usize,
        track_box: *const u8,
        box_length: usize,
        auxiliary: *const u8,
        auxiliary_length: usize,
        key_record: *const u8,
        key_record_length: usize,
        sample: *mut u8,
        sample_length: usize,
    ) -> u8;
}

/// Locks a sample where it lies, or leaves it and answers the number of the refusal.
pub fn lock(
    scheme: &[u8],
    track_box: &[u8],
    auxiliary: &[u8],
    key_record: &[u8],
    sample: &mut [u8],
) -> Result<(), u8> {
    run(cenc_lock, scheme, track_box, auxiliary, key_record, sample)
}

/// Opens a sample where it lies, or leaves it and answers the number of the refusal.
pub fn open(
    scheme: &[u8],
    track_box: &[u8],
    auxiliary: &[u8],
    key_record: &[u8],
    sample: &mut [u8],
) -> Result<(), u8> {
    run(cenc_open, scheme, track_box, auxiliary, key_record, sample)
}

fn run(
    call: Call,
    scheme: &[u8],
    track_box: &[u8],
    auxiliary: &[u8],
    key_record: &[u8],
    sample: &mut [u8],
) -> Result<(), u8> {
    // Each range is a slice; the sample is borrowed by `&mut`, so it overlaps no other.
    let number = unsafe {
        call(
            scheme.as_ptr(),
            scheme.len(),
            track_box.as_ptr(),
            track_box.len(),
            auxiliary.as_ptr(),
            auxiliary.len(),
            key_record.as_ptr(),
            key_record.len(),
            sample.as_mut_ptr(),
            sample.len(),
        )
    };
    match number {
        0 => Ok(()),
        number => Err(number),
    }
}
