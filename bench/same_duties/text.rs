//! Errors of a schedule's lines, and bytes, numbers and hex as text.

use std::collections::TryReserveError;
use std::fmt::{self, Display, Formatter};

pub enum Error {
    WordCount,
    BadWord(usize),
    UnknownWord,
    LateAgent,
    OutOfMemory,
}

impl Display for Error {
    fn fmt(&self, out: &mut Formatter<'_>) -> fmt::Result {
        match self {
            Error::WordCount => write!(out, "it has too few or too many words"),
            Error::BadWord(place) => write!(out, "word {} is wrong", place + 1),
            Error::UnknownWord => write!(out, "its first word is unknown"),
            Error::LateAgent => write!(out, "an agent is after an action"),
            Error::OutOfMemory => write!(out, "out of memory"),
        }
    }
}

impl From<TryReserveError> for Error {
    fn from(_: TryReserveError) -> Error {
        Error::OutOfMemory
    }
}

/// The hex digits, and their values.
pub struct Hex {
    pub pairs: [[u8; 2]; 256],
    pub values: [u8; 256],
}

pub fn copy(bytes: &[u8]) -> Result<Vec<u8>, Error> {
    let mut copy = Vec::new();
    copy.try_reserve_exact(bytes.len())?;
    copy.extend_from_slice(bytes);
    Ok(copy)
}

pub fn write(out: &mut Vec<u8>, bytes: &[u8]) -> Result<(), Error> {
    out.try_reserve(bytes.len())?;
    out.extend_from_slice(bytes);
    Ok(())
}

pub fn write_number(out: &mut Vec<u8>, mut number: u64) -> Result<(), Error> {
    let mut digits = [0; 20];
    let mut at = digits.len();
    loop {
        at -= 1;
        digits[at] = b'0' + (number % 10) as u8;
        number /= 10;
        if number == 0 {
            return write(out, &digits[at..]);
        }
    }
}

impl Hex {
    pub fn new() -> Hex {
        let digits = b"0123456789abcdef";
        let mut hex = Hex {
            pairs: [[0; 2]; 256],
            values: [u8::MAX; 256],
        };
        for byte in 0..256 {
            hex.pairs[byte] = [digits[byte >> 4], digits[byte & 15]];
        }
        for (value, digit) in digits.iter().enumerate() {
            hex.values[*digit as usize] = value as u8;
            hex.values[digit.to_ascii_uppercase() as usize] = value as u8;
        }
        hex
    }

    pub fn write(&self, out: &mut Vec<u8>, bytes: &[u8]) -> Result<(), Error> {
        if bytes.is_empty() {
            return write(out, b"-");
        }
        out.try_reserve(bytes.len() * 2)?;
        for byte in bytes {
            out.extend_from_slice(&self.pairs[*byte as usize]);
        }
        Ok(())
    }

    pub fn read(&self, words: &[&[u8]], place: usize) -> Result<Vec<u8>, Error> {
        let word = words[place];
        if word == b"-" {
            return Ok(Vec::new());
        }
        if word.len() % 2 == 1 {
            return Err(Error::BadWord(place));
        }
        let mut bytes = Vec::new();
        bytes.try_reserve_exact(word.len() / 2)?;
        for pair in word.chunks_exact(2) {
            let (high, low) = (self.values[pair[0] as usize], self.values[pair[1] as usize]);
            if high == u8::MAX || low == u8::MAX {
                return Err(Error::BadWord(place));
            }
            bytes.push(high << 4 | low);
        }
        Ok(bytes)
    }
}
