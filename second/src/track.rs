//! The track encryption box: its parameters, read and written.
//!
//! A refusal is an `Err` with its number in document 01's table.

/// Length of a box without and with a constant IV.
const SHORT_BOX: usize = 32;
const LONG_BOX: usize = 49;

#[derive(Clone, Copy, Debug, PartialEq, Eq)]
pub enum Scheme {
    Cenc,
    Cbc1,
    Cens,
    Cbcs,
}

impl Scheme {
    pub fn named(code: &[u8]) -> Option<Scheme> {
        match code {
            b"cenc" => Some(Scheme::Cenc),
            b"cbc1" => Some(Scheme::Cbc1),
            b"cens" => Some(Scheme::Cens),
            b"cbcs" => Some(Scheme::Cbcs),
            _ => None,
        }
    }
}

/// What a box says, together with the scheme's code. Any values can be held; `check` tells the allowed ones.
#[derive(Clone, Debug, PartialEq, Eq)]
pub struct Parameters {
    pub code: [u8; 4],
    pub version: u8,
    pub crypt: u8,
    pub skip: u8,
    pub protected: u8,
    pub iv_size: u8,
    pub kid: [u8; 16],
    pub constant: [u8; 16],
}

impl Parameters {
    /// What a refused call hands back: an unprotected cenc track in version 0.
    pub const REFUSED: Parameters = Parameters {
        code: *b"cenc",
        version: 0,
        crypt: 0,
        skip: 0,
        protected: 0,
        iv_size: 0,
        kid: [0; 16],
        constant: [0; 16],
    };

    pub fn is_protected(&self) -> bool {
        self.protected == 1
    }

    /// Whether the fields call for a constant IV.
    pub fn has_constant(&self) -> bool {
        self.protected == 1 && self.iv_size == 0
    }

    /// In cens and cbcs: how many blocks of a range are ciphered, and how many then passed over.
    pub fn pattern(&self) -> (u8, u8) {
        match (self.crypt, self.skip) {
            // 02, Ask 2: "0:0 ciphers every whole block of a range, as 1:0 does".
            (0, 0) => (1, 0),
            pattern => pattern,
        }
    }

    /// Refusals 1, 3 and 4; the scheme if none applies.
    pub fn check(&self) -> Result<Scheme, u8> {
        let scheme = Scheme::named(&self.code).ok_or(1)?;
        let pattern = (self.crypt, self.skip);
        if self.version > 1 || self.version == 0 && pattern != (0, 0) {
            return Err(3);
        }
        let allowed = match (self.protected, scheme) {
            (0, _) => self.iv_size == 0 && pattern == (0, 0),
            // 02, Ask 8: "No protected track under the zero KID."
            (1, _) if self.kid == [0; 16] => false,
            (1, Scheme::Cenc) => matches!(self.iv_size, 8 | 16) && pattern == (0, 0),
            (1, Scheme::Cbc1) => self.iv_size == 16 && pattern == (0, 0),
            (1, Scheme::Cens) => matches!(self.iv_size, 8 | 16) && is_pattern(pattern),
            (1, Scheme::Cbcs) => self.iv_size == 0 && is_pattern(pattern),
            _ => false,
        };
        if !allowed || !self.has_constant() && self.constant != [0; 16] {
            return Err(4);
        }
        Ok(scheme)
    }
}

/// Whether cens and cbcs know the pattern. With crypt 0 only skip 0 is one.
fn is_pattern((crypt, skip): (u8, u8)) -> bool {
    match crypt {
        0 => skip == 0,
        1..=15 => skip <= 15,
        _ => false,
    }
}

/// Reads a box under a scheme's code. Refusals 1 to 4.
pub fn read(code: &[u8], bytes: &[u8]) -> Result<Parameters, u8> {
    if Scheme::named(code).is_none() {
        return Err(1);
    }
    if bytes.len() < SHORT_BOX {
        return Err(2);
    }
    let size = u32::from_be_bytes(fixed(&bytes[..4]));
    if u64::from(size) != bytes.len() as u64 || bytes[4..8] != *b"tenc" {
        return Err(2);
    }
    let (version, flags, zero, pattern) = (bytes[8], &bytes[9..12], bytes[12], bytes[13]);
    if version > 1 || flags != [0; 3] || zero != 0 || version == 0 && pattern != 0 {
        return Err(3);
    }
    let mut parameters = Parameters {
        code: fixed(code),
        version,
        crypt: pattern >> 4,
        skip: pattern & 15,
        protected: bytes[14],
        iv_size: bytes[15],
        kid: fixed(&bytes[16..32]),
        constant: [0; 16],
    };
    if parameters.has_constant() {
        if bytes.len() != LONG_BOX || bytes[32] != 16 {
            return Err(4);
        }
        parameters.constant = fixed(&bytes[33..]);
    } else if bytes.len() != SHORT_BOX {
        return Err(4);
    }
    parameters.check()?;
    Ok(parameters)
}

/// The box of these parameters. Refusals 1, 3 and 4.
pub fn bytes(parameters: &Parameters) -> Result<Vec<u8>, u8> {
    parameters.check()?;
    let mut bytes = b"\0\0\0\0tenc".to_vec();
    bytes.extend([parameters.version, 0, 0, 0, 0]);
    bytes.push(parameters.crypt << 4 | parameters.skip);
    bytes.extend([parameters.protected, parameters.iv_size]);
    bytes.extend(parameters.kid);
    if parameters.has_constant() {
        bytes.push(16);
        bytes.extend(parameters.constant);
    }
    bytes[3] = bytes.len() as u8;
    Ok(bytes)
}

/// Writes a box to the beginning of `out` and answers its length. Refusals 1, 3, 4 and 17.
pub fn write(parameters: &Parameters, out: &mut [u8]) -> Result<usize, u8> {
    let bytes = bytes(parameters)?;
    let place = out.get_mut(..bytes.len()).ok_or(17)?;
    place.copy_from_slice(&bytes);
    Ok(bytes.len())
}

fn fixed<const N: usize>(bytes: &[u8]) -> [u8; N] {
    let mut array = [0; N];
    array.copy_from_slice(bytes);
    array
}

#[cfg(test)]
mod tests {
    use super::*;

    /// A line of `replay` does not show the output past what was written, nor after a refusal.
    #[test]
    fn only_the_box_is_written() {
        let parameters = Parameters::REFUSED;
        let mut out = [7; 33];
        assert_eq!(write(&parameters, &mut out[..31]), Err(17));
        assert_eq!(out, [7; 33]);
        assert_eq!(write(&parameters, &mut out), Ok(32));
        assert_eq!(out[..4], [0, 0, 0, 32]);
        assert_eq!(out[32], 7);
    }

    /// 02, Ask 8: refused, and not a byte is written.
    #[test]
    fn nothing_is_written_under_the_zero_kid() {
        let mut parameters = Parameters {
            protected: 1,
            iv_size: 8,
            ..Parameters::REFUSED
        };
        let mut out = [7; 32];
        assert_eq!(write(&parameters, &mut out), Err(4));
        assert_eq!(out, [7; 32]);
        parameters.kid[15] = 1;
        assert_eq!(write(&parameters, &mut out), Ok(32));
    }
}
