//! The published vectors, worked out again, and a long chain of blocks under changing keys.

use crate::track::{self, Parameters};
use crate::{aes, hex, sample};
use std::io::{self, Write};

const KEY: &str = "2b7e151628aed2a6abf7158809cf4f3c";
const PLAIN: [&str; 4] = [
    "6bc1bee22e409f96e93d7e117393172a",
    "ae2d8a571e03ac9c9eb76fac45af8e51",
    "30c81c46a35ce411e5fbc1191a0a52ef",
    "f69f2445df4f9b17ad2b417be66c3710",
];
const ECB: [&str; 4] = [
    "3ad77bb40d7a3660a89ecaf32466ef97",
    "f5d3d58503b9699de785895a96fdbaaf",
    "43b1cd7f598ece23881b00e3ed030688",
    "7b0c785e27e8ad3f8223207104725dd4",
];
const CBC_IV: &str = "000102030405060708090a0b0c0d0e0f";
const CBC: [&str; 4] = [
    "7649abac8119b246cee98e9b12e9197d",
    "5086cb9b507219ee95db113a917678b2",
    "73bed6b8e3c1743b7116e69e22229516",
    "3ff1caa1681fac09120eca307586e1a7",
];
const CTR_IV: &str = "f0f1f2f3f4f5f6f7f8f9fafbfcfdfeff";
const CTR: [&str; 4] = [
    "874d6191b620e3261bef6864990db6ce",
    "9806f66b7970fdff8617187bb9fffdff",
    "5ae4df3edbd5d35e5b4f09020db03eab",
    "1e031dda2fbe03d1792170a0f3009cee",
];
const KID: [u8; 16] = [1; 16];

/// The 16 bytes of a hex constant.
fn block(text: &str) -> [u8; 16] {
    let mut bytes = [0; 16];
    bytes.copy_from_slice(&hex::read(text.as_bytes()).unwrap());
    bytes
}

pub fn print(out: &mut impl Write) -> io::Result<()> {
    fips_197(out)?;
    sp_800_38a(out)?;
    chained(out)
}

fn fips_197(out: &mut impl Write) -> io::Result<()> {
    let keys = aes::expand(&block(KEY));
    for (i, word) in keys.words().iter().enumerate() {
        writeln!(out, "FIPS 197 A.1 w[{i}] {}", hex::write(word))?;
    }
    let examples = [
        (
            "B",
            KEY,
            "3243f6a8885a308d313198a2e0370734",
            "3925841d02dc09fbdc118597196a0b32",
        ),
        (
            "C.1",
            "000102030405060708090a0b0c0d0e0f",
            "00112233445566778899aabbccddeeff",
            "69c4e0d86a7b0430d8cdb78070b4c55a",
        ),
    ];
    for (name, key, plain, cipher) in examples {
        let keys = aes::expand(&block(key));
        let enciphered = hex::write(&aes::encipher(&keys, block(plain)));
        let deciphered = hex::write(&aes::decipher(&keys, block(cipher)));
        writeln!(out, "FIPS 197 {name} enciphered {enciphered}")?;
        writeln!(out, "FIPS 197 {name} deciphered {deciphered}")?;
    }
    Ok(())
}

fn sp_800_38a(out: &mut impl Write) -> io::Result<()> {
    let mut data = PLAIN.map(block).concat();
    aes::encipher_blocks(&block(KEY), &mut data);
    blocks(out, "F.1.1", &data)?;
    let mut data = ECB.map(block).concat();
    aes::decipher_blocks(&block(KEY), &mut data);
    blocks(out, "F.1.2", &data)?;
    for (name, call, code, iv, text) in [
        ("F.2.1", sample::lock as Call, b"cbc1", CBC_IV, PLAIN),
        ("F.2.2", sample::open, b"cbc1", CBC_IV, CBC),
        ("F.5.1", sample::lock, b"cenc", CTR_IV, PLAIN),
        ("F.5.2", sample::open, b"cenc", CTR_IV, CTR),
    ] {
        let mut data = text.map(block).concat();
        done(call, code, &block(iv), &mut data);
        blocks(out, name, &data)?;
    }
    Ok(())
}

type Call = fn(&[u8], &[u8], &[u8], &[u8], &mut [u8]) -> u8;

/// A whole sample under the published key, accepted.
fn done(call: Call, code: &[u8; 4], iv: &[u8; 16], data: &mut [u8]) {
    let parameters = Parameters {
        code: *code,
        protected: 1,
        iv_size: 16,
        kid: KID,
        ..Parameters::REFUSED
    };
    let track_box = track::bytes(&parameters).expect("accepted parameters");
    let keys = [KID, block(KEY)].concat();
    assert_eq!(call(code, &track_box, iv, &keys, data), 0);
}

fn blocks(out: &mut impl Write, name: &str, data: &[u8]) -> io::Result<()> {
    for (i, block) in data.chunks(16).enumerate() {
        writeln!(
            out,
            "SP 800-38A {name} block {} {}",
            i + 1,
            hex::write(block)
        )?;
    }
    Ok(())
}

/// 100 blocks under each of 1,000 keys, each key made from the one before and the last block; then all
/// of it back.
fn chained(out: &mut impl Write) -> io::Result<()> {
    let mut key = block("000102030405060708090a0b0c0d0e0f");
    let mut block = [0; 16];
    for done in 1..=1000 {
        let keys = aes::expand(&key);
        for _ in 0..100 {
            block = aes::encipher(&keys, block);
        }
        key = aes::xor(key, &block);
        report(out, done, "enciphered", &key, &block)?;
    }
    for done in 1..=1000 {
        key = aes::xor(key, &block);
        let keys = aes::expand(&key);
        for _ in 0..100 {
            block = aes::decipher(&keys, block);
        }
        report(out, done, "deciphered", &key, &block)?;
    }
    Ok(())
}

/// A line after each 100 keys.
fn report(
    out: &mut impl Write,
    keys_done: usize,
    what: &str,
    key: &[u8; 16],
    block: &[u8; 16],
) -> io::Result<()> {
    if keys_done % 100 == 0 {
        let (count, key, block) = (100 * keys_done, hex::write(key), hex::write(block));
        writeln!(out, "chained {count} {what} {key} {block}")?;
    }
    Ok(())
}

#[cfg(test)]
mod tests {
    use super::*;

    fn lines() -> Vec<String> {
        let mut out = Vec::new();
        print(&mut out).unwrap();
        let text = String::from_utf8(out).unwrap();
        text.lines().map(str::to_string).collect()
    }

    #[test]
    fn published_blocks() {
        let lines = lines();
        for (name, text) in [
            ("F.1.1", ECB),
            ("F.1.2", PLAIN),
            ("F.2.1", CBC),
            ("F.2.2", PLAIN),
            ("F.5.1", CTR),
            ("F.5.2", PLAIN),
        ] {
            for (i, value) in text.iter().enumerate() {
                let line = format!("SP 800-38A {name} block {} {value}", i + 1);
                assert!(lines.contains(&line), "{line}");
            }
        }
    }
}
