//! A record that no call accepts, written with its octets: a shelf may have it ("Record contents are not judged
//! here"), and no tables could be written for it.

use super::number;
use crate::numbers::{Number, RECORD, STAIRCASE};
use crate::record::profile;

/// What the lines of such a record say so far.
pub struct Refused {
    /// The number that refuses it.
    number: Number,
    count: usize,
    octets: Vec<u8>,
}

impl Refused {
    /// What a record's first line says of it.
    pub fn new(refusal: &str, count: &str) -> Result<Refused, String> {
        let numbers = RECORD.into()..=STAIRCASE.into();
        let refusal = number("the number that refuses", refusal, numbers)?;
        Ok(Refused {
            number: Number::try_from(refusal).expect("5 and 6 are small"),
            count: number("the count of octets", count, 0..=u16::MAX)?.into(),
            octets: Vec::new(),
        })
    }

    pub fn octets(&self) -> &[u8] {
        &self.octets
    }

    /// Puts the octets of a line behind the others.
    pub fn more(&mut self, words: &[&str]) -> Result<(), String> {
        let octets: Result<Vec<u8>, String> = words.iter().map(|word| octet(word)).collect();
        self.octets.extend(octets?);
        if self.octets.len() > self.count {
            return Err(format!("an octet too many: the record has {}", self.count));
        }
        Ok(())
    }

    /// Judges the record.
    pub fn finish(&self) -> Result<(), String> {
        let (is, due) = (self.octets.len(), self.count);
        if is != due {
            return Err(format!("the record has {is} octets, and {due} are due"));
        }
        match profile(&self.octets) {
            Ok(_) => {
                Err("the record is accepted, and has to be written with its tables".to_string())
            }
            Err(number) if number != self.number => Err(format!(
                "the record is refused with {number}, and not with {}",
                self.number
            )),
            Err(_) => Ok(()),
        }
    }
}

/// Two hexadecimal digits.
fn octet(word: &str) -> Result<u8, String> {
    let is_digit = |digit: u8| digit.is_ascii_hexdigit();
    match u8::from_str_radix(word, 16) {
        Ok(octet) if word.len() == 2 && word.bytes().all(is_digit) => Ok(octet),
        _ => Err(format!(
            "`{word}` is no octet of two hexadecimal digits, and begins no record"
        )),
    }
}
