//! Times the library beside the second program on the same bytes: both sides in turn, medians of several rounds.

use second::sample::{self, Direction};
use second::stream;
use second::track::{self, Parameters};
use std::time::Instant;

const SIZE: usize = 16 << 20;
const PIECE: usize = 1400;
const ROUNDS: usize = 11;

extern "C" {
    fn ecb_encipher(key: *const u8, key_len: usize, data: *mut u8, data_len: usize);
    fn ecb_decipher(key: *const u8, key_len: usize, data: *mut u8, data_len: usize);
    fn pieces_open(
        scheme: *const u8,
        scheme_len: usize,
        track_box: *const u8,
        box_len: usize,
        auxiliary: *const u8,
        auxiliary_len: usize,
        key_record: *const u8,
        key_record_len: usize,
        in_place: bool,
        size: usize,
        data: *const u8,
        data_len: usize,
        out: *mut u8,
        out_len: usize,
    ) -> u8;
}

fn library_encipher(key: &[u8; 16], data: &mut [u8]) {
    // The two ranges are borrowed by Rust's rules, so they do not overlap.
    unsafe { ecb_encipher(key.as_ptr(), key.len(), data.as_mut_ptr(), data.len()) }
}

fn library_decipher(key: &[u8; 16], data: &mut [u8]) {
    // As above.
    unsafe { ecb_decipher(key.as_ptr(), key.len(), data.as_mut_ptr(), data.len()) }
}

const KID: [u8; 16] = [1; 16];

/// A sample of a protected track: version 1, IVs of 16 bytes or, in cbcs, a constant one.
struct Track {
    code: &'static [u8; 4],
    track_box: Vec<u8>,
    key_record: Vec<u8>,
}

impl Track {
    fn new(code: &'static [u8; 4], crypt: u8, skip: u8, key: &[u8; 16]) -> Track {
        let constant = code == b"cbcs";
        let parameters = Parameters {
            code: *code,
            version: 1,
            crypt,
            skip,
            protected: 1,
            iv_size: if constant { 0 } else { 16 },
            kid: KID,
            constant: if constant { [2; 16] } else { [0; 16] },
        };
        Track {
            code,
            track_box: track::bytes(&parameters).expect("accepted parameters"),
            key_record: [KID, *key].concat(),
        }
    }

    /// Auxiliary data with so many equal entries, each with 100 clear bytes.
    fn auxiliary(&self, entries: usize) -> Vec<u8> {
        let mut auxiliary = vec![2; self.track_box[15].into()];
        if entries > 0 {
            auxiliary.extend((entries as u16).to_be_bytes());
            let protected = (SIZE / entries) as u32 - 100;
            for _ in 0..entries {
                auxiliary.extend(100u16.to_be_bytes());
                auxiliary.extend(protected.to_be_bytes());
            }
        }
        auxiliary
    }

    /// A row for opening the whole sample.
    fn row(&self, name: &str, entries: usize) {
        let Track {
            code,
            track_box,
            key_record,
        } = self;
        let auxiliary = self.auxiliary(entries);
        row(
            name,
            |data| cenc::open(*code, track_box, &auxiliary, key_record, data).expect("accepted"),
            |data| {
                assert_eq!(
                    sample::open(*code, track_box, &auxiliary, key_record, data),
                    0
                )
            },
        );
    }
}

impl Track {
    /// The library's pieces, from one buffer into another.
    fn library_pieces(&self, in_place: bool, auxiliary: &[u8], data: &[u8], out: &mut [u8]) -> u8 {
        // The ranges are borrowed by Rust's rules, so none overlaps the output.
        unsafe {
            pieces_open(
                self.code.as_ptr(),
                self.code.len(),
                self.track_box.as_ptr(),
                self.track_box.len(),
                auxiliary.as_ptr(),
                auxiliary.len(),
                self.key_record.as_ptr(),
                self.key_record.len(),
                in_place,
                PIECE,
                data.as_ptr(),
                data.len(),
                out.as_mut_ptr(),
                out.len(),
            )
        }
    }

    /// The second program's.
    fn second_pieces(&self, auxiliary: &[u8], data: &[u8], out: &mut [u8]) -> u8 {
        let length = data.len() as u64;
        let (number, mut record) = stream::start(
            Direction::Open,
            self.code,
            &self.track_box,
            auxiliary,
            &self.key_record,
            length,
        );
        assert_eq!(number, 0);
        let mut done = 0;
        for piece in data.chunks(PIECE) {
            let (number, released) = stream::feed(&mut record, piece, &mut out[done..]);
            assert_eq!(number, 0);
            done += released;
        }
        stream::end(&record)
    }

    /// A row for opening the sample in pieces.
    fn row_of_pieces(&self, name: &str, in_place: bool) {
        let auxiliary = self.auxiliary(0);
        let data: Vec<u8> = (0..SIZE).map(|i| (i * 7 % 251) as u8).collect();
        row(
            name,
            |out| assert_eq!(self.library_pieces(in_place, &auxiliary, &data, out), 0),
            |out| assert_eq!(self.second_pieces(&auxiliary, &data, out), 0),
        );
    }
}

/// Milliseconds of one call.
fn time(call: impl FnOnce()) -> f64 {
    let start = Instant::now();
    call();
    start.elapsed().as_secs_f64() * 1000.0
}

fn median(mut times: Vec<f64>) -> f64 {
    times.sort_by(f64::total_cmp);
    times[times.len() / 2]
}

/// One row of the table: both sides on equal bytes, in turn, after one round to warm up.
fn row(name: &str, ours: impl Fn(&mut [u8]), second: impl Fn(&mut [u8])) {
    let start: Vec<u8> = (0..SIZE).map(|i| (i * 7 % 251) as u8).collect();
    let (mut a, mut b) = (start.clone(), start);
    let (mut times_a, mut times_b) = (Vec::new(), Vec::new());
    for round in 0..=ROUNDS {
        let (x, y) = (time(|| ours(&mut a)), time(|| second(&mut b)));
        assert!(a == b, "{name}: the two sides differ");
        if round > 0 {
            times_a.push(x);
            times_b.push(y);
        }
    }
    let (x, y) = (median(times_a), median(times_b));
    println!("| {name} | {x:.0} | {y:.0} | {:.2} |", x / y);
}

fn main() {
    let key: [u8; 16] = std::array::from_fn(|i| 17 * i as u8);
    println!("| 16 MiB | library, ms | second program, ms | ratio |");
    println!("|---|---|---|---|");
    row(
        "blocks enciphered",
        |data| library_encipher(&key, data),
        |data| second::aes::encipher_blocks(&key, data),
    );
    row(
        "blocks deciphered",
        |data| library_decipher(&key, data),
        |data| second::aes::decipher_blocks(&key, data),
    );
    let cenc = Track::new(b"cenc", 0, 0, &key);
    let cbcs = Track::new(b"cbcs", 1, 9, &key);
    cenc.row("sample opened, cenc", 0);
    cenc.row("sample opened, cenc, 64 entries", 64);
    cbcs.row("sample opened, cbcs 1:9", 0);
    cbcs.row("sample opened, cbcs 1:9, 64 entries", 64);
    cenc.row_of_pieces("pieces of 1,400 bytes, cenc, by value", false);
    cenc.row_of_pieces("pieces of 1,400 bytes, cenc, in place", true);
    cbcs.row_of_pieces("pieces of 1,400 bytes, cbcs 1:9, by value", false);
    cbcs.row_of_pieces("pieces of 1,400 bytes, cbcs 1:9, in place", true);
}
