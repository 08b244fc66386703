//! The words of a case line: numbers decimal, bytes lowercase hex, no bytes `-`, one blank between them.
use std::fmt::Display;
use std::fmt::Write;
use std::str::{FromStr, Split};

use quay::Refusal;

pub type Malformed = String;

/// The words that are still to be read.
pub struct Words<'a> {
    rest: Split<'a, char>,
}

impl<'a> Words<'a> {
    pub fn new(text: &'a str) -> Words<'a> {
        Words { rest: text.split(' ') }
    }

    pub fn word(&mut self, name: &str) -> Result<&'a str, Malformed> {
        match self.rest.next() {
            Some(word) if !word.is_empty() => Ok(word),
            _ => Err(format!("{name} is missing")),
        }
    }

    pub fn number<Number: FromStr>(&mut self, name: &str) -> Result<Number, Malformed> {
        let word = self.word(name)?;
        if !word.bytes().all(|letter| letter.is_ascii_digit()) {
            return Err(format!("{name} is {word:?}, not a decimal number"));
        }
        word.parse().map_err(|_| format!("{name} is {word}, which is too large"))
    }

    pub fn bytes(&mut self, name: &str) -> Result<Vec<u8>, Malformed> {
        let word = self.word(name)?;
        if word == "-" {
            return Ok(Vec::new());
        }
        word.as_bytes()
            .chunks(2)
            .map(|pair| byte_of(pair).ok_or_else(|| format!("{name} is not lowercase hex: {word:?}")))
            .collect()
    }

    pub fn array<const LENGTH: usize>(&mut self, name: &str) -> Result<[u8; LENGTH], Malformed> {
        let bytes = self.bytes(name)?;
        let given = bytes.len();
        bytes.try_into().map_err(|_| format!("{name} has {given} bytes, not {LENGTH}"))
    }

    pub fn end(&mut self) -> Result<(), Malformed> {
        match self.rest.next() {
            None => Ok(()),
            Some(word) => Err(format!("{word:?} is one word too many")),
        }
    }
}

fn byte_of(pair: &[u8]) -> Option<u8> {
    match pair {
        [high, low] => Some(half_of(*high)? << 4 | half_of(*low)?),
        _ => None,
    }
}

fn half_of(letter: u8) -> Option<u8> {
    match letter {
        b'0'..=b'9' => Some(letter - b'0'),
        b'a'..=b'f' => Some(letter - b'a' + 10),
        _ => None,
    }
}

/// An answer in the making: its words so far.
#[derive(Default)]
pub struct Telling(String);

impl Telling {
    pub fn number(mut self, number: impl Display) -> Telling {
        if !self.0.is_empty() {
            self.0.push(' ');
        }
        // Writing to a String does not fail.
        let _ = write!(self.0, "{number}");
        self
    }

    pub fn numbers(self, numbers: &[u64]) -> Telling {
        numbers.iter().fold(self, |told, number| told.number(number))
    }

    pub fn bytes(self, bytes: &[u8]) -> Telling {
        if bytes.is_empty() {
            return self.number('-');
        }
        let mut hex = String::with_capacity(bytes.len() * 2);
        for byte in bytes {
            hex.push(char::from_digit(u32::from(byte >> 4), 16).unwrap_or('?'));
            hex.push(char::from_digit(u32::from(byte & 15), 16).unwrap_or('?'));
        }
        self.number(hex)
    }

    pub fn told(self) -> String {
        self.0
    }
}

/// What a write of the crate answers, as its raw words: number, length, the whole room.
pub fn tell_written(written: Result<usize, Refusal>, room: &[u8]) -> String {
    let (refusal, length) = match written {
        Ok(length) => (0, length),
        Err(why) => (why.number(), 0),
    };
    Telling::default().number(refusal).number(length).bytes(room).told()
}
