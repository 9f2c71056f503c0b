//! The vault volume: records, then an index, then a trailer.

/// Bytes of an index entry, and of the trailer.
const ENTRY: usize = 24;

struct Entry {
    offset: u64,
    length: u64,
    day: u32,
    term: u32,
}

/// A valid volume.
struct Volume<'a> {
    records: &'a [u8],
    /// The index as it is written.
    index: &'a [u8],
    latest: u32,
}

/// Writes the empty volume and answers its length. Refusal 53.
pub fn empty(out: &mut [u8]) -> Result<usize, u8> {
    out.get_mut(..ENTRY).ok_or(53)?.fill(0);
    Ok(ENTRY)
}

/// Refusal 50.
pub fn check(volume: &[u8]) -> Result<(), u8> {
    read(volume).map(|_| ())
}

/// The record of that number. Refusals 50 and 51.
pub fn record(volume: &[u8], number: u64) -> Result<&[u8], u8> {
    let volume = read(volume)?;
    let entry = volume.entry(number)?;
    Ok(&volume.records[entry.offset as usize..][..entry.length as usize])
}

/// Writes the volume with one more record and answers its length. Refusals 50, 52 and 53.
pub fn add(
    volume: &[u8],
    record: &[u8],
    term: u32,
    today: u32,
    out: &mut [u8],
) -> Result<usize, u8> {
    let old = read(volume)?;
    if today < old.latest {
        return Err(52);
    }
    let entry = Entry {
        offset: old.records.len() as u64,
        length: record.len() as u64,
        day: today,
        term,
    };
    let new = [
        old.records,
        record,
        old.index,
        &entry.bytes(),
        &(entry.offset + entry.length).to_be_bytes(),
        &(old.count() + 1).to_be_bytes(),
        &today.to_be_bytes(),
        &[0; 4],
    ]
    .concat();
    out.get_mut(..new.len()).ok_or(53)?.copy_from_slice(&new);
    Ok(new.len())
}

/// Whether a record may be disposed of. Refusals 50, 51, 52 and 54.
pub fn dispose(volume: &[u8], number: u64, today: u32) -> Result<(), u8> {
    let volume = read(volume)?;
    let entry = volume.entry(number)?;
    if today < volume.latest {
        return Err(52);
    }
    if u64::from(entry.day) + u64::from(entry.term) > u64::from(today) {
        return Err(54);
    }
    Ok(())
}

fn read(bytes: &[u8]) -> Result<Volume<'_>, u8> {
    let body = bytes.len().checked_sub(ENTRY).ok_or(50)?;
    let (body, trailer) = bytes.split_at(body);
    let start = usize::try_from(eight(&trailer[..8])).map_err(|_| 50)?;
    let (records, index) = body.split_at_checked(start).ok_or(50)?;
    let volume = Volume {
        records,
        index,
        latest: four(&trailer[16..20]),
    };
    if index.len() % ENTRY != 0 || volume.count() != eight(&trailer[8..16]) {
        return Err(50);
    }
    let mut end = 0u64;
    for entry in volume.entries() {
        if entry.offset != end {
            return Err(50);
        }
        end = end.checked_add(entry.length).ok_or(50)?;
    }
    let latest = volume.entries().map(|entry| entry.day).max().unwrap_or(0);
    if end != records.len() as u64 || latest != volume.latest || trailer[20..] != [0; 4] {
        return Err(50);
    }
    Ok(volume)
}

impl Volume<'_> {
    fn count(&self) -> u64 {
        (self.index.len() / ENTRY) as u64
    }

    fn entries(&self) -> impl Iterator<Item = Entry> + '_ {
        self.index.chunks_exact(ENTRY).map(Entry::read)
    }

    /// Refusal 51.
    fn entry(&self, number: u64) -> Result<Entry, u8> {
        let number = usize::try_from(number).map_err(|_| 51)?;
        self.entries().nth(number).ok_or(51)
    }
}

impl Entry {
    fn read(bytes: &[u8]) -> Entry {
        Entry {
            offset: eight(&bytes[..8]),
            length: eight(&bytes[8..16]),
            day: four(&bytes[16..20]),
            term: four(&bytes[20..24]),
        }
    }

    fn bytes(&self) -> Vec<u8> {
        let eights = [self.offset.to_be_bytes(), self.length.to_be_bytes()];
        let fours = [self.day.to_be_bytes(), self.term.to_be_bytes()];
        [eights.concat(), fours.concat()].concat()
    }
}

fn eight(bytes: &[u8]) -> u64 {
    let mut array = [0; 8];
    array.copy_from_slice(bytes);
    u64::from_be_bytes(array)
}

fn four(bytes: &[u8]) -> u32 {
    let mut array = [0; 4];
    array.copy_from_slice(bytes);
    u32::from_be_bytes(array)
}

#[cfg(test)]
mod tests {
    use super::*;

    /// A line of `replay` does not show the output past what was written, nor after a refusal.
    #[test]
    fn only_the_volume_is_written() {
        let mut out = [7; 50];
        assert_eq!(empty(&mut out[..23]), Err(53));
        assert_eq!(out, [7; 50]);
        assert_eq!(empty(&mut out), Ok(24));
        assert_eq!(out[..24], [0; 24]);
        assert_eq!(out[24..], [7; 26]);
        let mut out = [7; 50];
        assert_eq!(add(&[0; 24], b"a", 3, 10, &mut out[..48]), Err(53));
        assert_eq!(add(b"abc", b"a", 3, 10, &mut out), Err(50));
        assert_eq!(out, [7; 50]);
        assert_eq!(add(&[0; 24], b"a", 3, 10, &mut out), Ok(49));
        assert_eq!(out[..2], [b'a', 0]);
        assert_eq!(out[49], 7);
    }
}
