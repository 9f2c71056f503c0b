//! An issuer of start vectors for one KID.

/// Most blocks that one sample may have.
const MOST_BLOCKS: u64 = 1_048_576;

#[derive(Clone, Debug, PartialEq, Eq)]
pub struct Issuer {
    size: Size,
    /// The number of the next grant.
    number: u64,
    used_up: bool,
}

/// Size 16 keeps its first eight bytes; the number is the other eight.
#[derive(Clone, Debug, PartialEq, Eq)]
enum Size {
    Eight,
    Sixteen([u8; 8]),
}

impl Issuer {
    const REFUSED: Issuer = Issuer {
        size: Size::Eight,
        number: 0,
        used_up: true,
    };

    /// Refusal 31 for a start of neither 8 nor 16 bytes.
    pub fn start(bytes: &[u8]) -> (u8, Issuer) {
        let issuer = |size, number| Issuer {
            size,
            number: u64::from_be_bytes(number),
            used_up: false,
        };
        if let Ok(number) = bytes.try_into() {
            return (0, issuer(Size::Eight, number));
        }
        match bytes.split_at_checked(8) {
            Some((first, low)) if low.len() == 8 => {
                let mut eights = [[0; 8]; 2];
                eights[0].copy_from_slice(first);
                eights[1].copy_from_slice(low);
                (0, issuer(Size::Sixteen(eights[0]), eights[1]))
            }
            _ => (31, Issuer::REFUSED),
        }
    }

    /// A start vector for a sample of so many blocks, filled out to 16 bytes. Refusals 19 and 20.
    pub fn grant(&mut self, blocks: u64) -> (u8, [u8; 16]) {
        if !(1..=MOST_BLOCKS).contains(&blocks) {
            return (19, [0; 16]);
        }
        let (first, second, step) = match self.size {
            Size::Eight => (self.number.to_be_bytes(), [0; 8], 1),
            Size::Sixteen(first) => (first, self.number.to_be_bytes(), blocks),
        };
        let last = self.number.checked_add(step - 1);
        let Some(last) = last.filter(|_| !self.used_up) else {
            return (20, [0; 16]);
        };
        match last.checked_add(1) {
            Some(next) => self.number = next,
            None => self.used_up = true,
        }
        let mut vector = [0; 16];
        vector[..8].copy_from_slice(&first);
        vector[8..].copy_from_slice(&second);
        (0, vector)
    }
}
