//! The sheet: a scheme code and then a box, told in lines.

use crate::hex;
use crate::track::{self, Parameters, Scheme};

/// Longest input, code and box together.
pub const LONGEST: usize = 4096;

pub fn lines(input: &[u8]) -> String {
    match read(input) {
        Ok(parameters) => accepted(&parameters),
        Err(number) => format!("refused {number}\n"),
    }
}

fn read(input: &[u8]) -> Result<Parameters, u8> {
    let (code, bytes) = input.split_at_checked(4).ok_or(1)?;
    if Scheme::named(code).is_some() && input.len() > LONGEST {
        return Err(2);
    }
    track::read(code, bytes)
}

fn accepted(parameters: &Parameters) -> String {
    let constant = if parameters.has_constant() {
        hex::write(&parameters.constant)
    } else {
        "none".to_string()
    };
    [
        format!("scheme {}\n", String::from_utf8_lossy(&parameters.code)),
        format!("version {}\n", parameters.version),
        format!("pattern {}:{}\n", parameters.crypt, parameters.skip),
        format!("protected {}\n", parameters.protected),
        format!("iv {}\n", parameters.iv_size),
        format!("kid {}\n", hex::write(&parameters.kid)),
        format!("constant {constant}\n"),
    ]
    .concat()
}

#[cfg(test)]
mod tests {
    use super::*;

    #[test]
    fn edges() {
        let input = |length: usize| [b"cbc1".to_vec(), vec![0; length - 4]].concat();
        assert_eq!(lines(b"cbc"), "refused 1\n");
        assert_eq!(lines(b"cbc1"), "refused 2\n");
        assert_eq!(lines(&input(4097)), "refused 2\n");
        assert_eq!(lines(&[0; 4097]), "refused 1\n");
    }

    /// At the limit the box is still read; past it nothing in it counts.
    #[test]
    fn longest_input() {
        let long_box = |length: usize| {
            let mut input = b"cbc1\0\0\0\0tenc".to_vec();
            input.resize(length, 0);
            input[4..8].copy_from_slice(&(length as u32 - 4).to_be_bytes());
            input
        };
        assert_eq!(lines(&long_box(4096)), "refused 4\n");
        assert_eq!(lines(&long_box(4097)), "refused 2\n");
    }
}
