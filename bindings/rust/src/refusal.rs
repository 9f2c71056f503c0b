//! The numbers of `include/cenc.h`: names for those that `lock` and `open` answer, words for all.

pub const SCHEME: u8 = 1;
pub const FRAME: u8 = 2;
pub const VERSION: u8 = 3;
pub const FIELDS: u8 = 4;
pub const KEY_RECORD: u8 = 5;
pub const KID: u8 = 6;
pub const LENGTH: u8 = 7;
pub const SIZE: u8 = 8;
pub const ENTRIES: u8 = 9;
pub const EMPTY_ENTRY: u8 = 10;
pub const SUM: u8 = 11;
pub const REMAINDER: u8 = 12;

/// A number in words that can stand behind `refused 7: `.
pub fn text(number: u8) -> &'static str {
    match number {
        0 => "done",
        1 => "the scheme code isn't four bytes naming one of the four",
        2 => "the box has under 32 bytes, or its size field isn't its length, or its type isn't tenc",
        3 => "version above 1, flags or zero byte not zero, or a pattern in version 0",
        4 => "the fields aren't allowed, or the box is longer or shorter than they call for",
        5 => "key record not 32 bytes (KID, then key)",
        6 => "the key record's KID isn't the track's",
        7 => "sample over 16,777,216 bytes",
        8 => "auxiliary data of the wrong size, or an entry count of 0",
        9 => "more than 64 entries",
        10 => "an entry 0 and 0 in a sample that isn't empty",
        11 => "the entries' lengths don't add up to the sample's",
        12 => "cbc1 entry whose protected length isn't a multiple of 16",
        13 => "stream record breaks its rules",
        14 => "piece runs past the declared length",
        15 => "output shorter than the bytes due",
        16 => "end asked for too early",
        17 => "output too short for the box being written",
        19 => "the block count of a grant is below 1 or above 1,048,576",
        20 => "the grant's counter, or in size 16 its last block's, would pass the largest 64-bit number, or the issuer is used up",
        31 => "the start of an issuer has neither 8 nor 16 bytes",
        50 => "the volume isn't valid",
        51 => "the volume has no such record",
        52 => "today is before the volume's latest day",
        53 => "the output is shorter than the volume being written",
        54 => "the record's day stored plus its term, as a plain sum, is above today",
        _ => "unknown number",
    }
}
