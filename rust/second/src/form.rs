//! The form of a kind of request: its words and its optional words, and what a line gives for them.

use std::vec::IntoIter;

use crate::errors::Fault;
use crate::words;

/// The words after the name, and the optional words `name=value` that may stand after them.
pub struct Form {
    pub words: &'static [Word],
    pub options: &'static [Optional],
}

/// What a word has to be (docs/REQUESTS.md, "Words").
#[derive(Clone, Copy, Debug)]
pub enum Word {
    Number,
    /// A number that fits into two octets.
    Short,
    /// The length of an output.
    Length,
    /// A number in hexadecimal.
    Mask,
    /// Bits, or places.
    Bits,
    /// Packed octets, and how many there is room for.
    Hex(usize),
}

/// An optional word.
pub struct Optional {
    name: &'static str,
    holds: Holds,
}

/// What an optional word has to hold, and what it holds where a line has it not.
#[derive(Clone, Copy)]
enum Holds {
    /// A number, else this one.
    Number(u64),
    /// One of these, else the first of them.
    OneOf(&'static [&'static str]),
}

/// What a line gives for one word.
#[derive(Clone, Debug, PartialEq, Eq)]
pub enum Value {
    Number(u64),
    Octets(Vec<u8>),
    Alternative(&'static str),
}

/// What a line gives: the values of the form's words, taken from left to right, and that of each
/// optional word, taken by its name.
#[derive(Debug)]
pub struct Given {
    words: IntoIter<Value>,
    options: Vec<(&'static str, Value)>,
}

impl Optional {
    pub const fn number(name: &'static str, default: u64) -> Optional {
        let holds = Holds::Number(default);
        Optional { name, holds }
    }

    pub fn name(&self) -> &'static str {
        self.name
    }

    /// The first of the alternatives is the default.
    pub const fn one_of(name: &'static str, alternatives: &'static [&'static str]) -> Optional {
        let holds = Holds::OneOf(alternatives);
        Optional { name, holds }
    }
}

impl Form {
    /// What the words after the name give, or the first error: unknown and doubled optional words and
    /// the count of the others go before what stands in the words.
    pub fn read(&self, words: &[&[u8]]) -> Result<Given, Fault> {
        let (words, optional) = parted(words);
        let named = self.named(optional)?;
        if words.len() != self.words.len() || words.iter().any(|word| word.is_empty()) {
            return Err(Fault::Words);
        }
        Ok(Given {
            words: self.values(words)?.into_iter(),
            options: self.chosen(&named)?,
        })
    }

    /// The place in the form of each optional word of a line, and what the word holds.
    fn named<'line>(&self, words: &[&'line [u8]]) -> Result<Vec<(usize, &'line [u8])>, Fault> {
        let mut named: Vec<(usize, &[u8])> = Vec::new();
        for word in words {
            let (name, held) = at_equals(word);
            let known = |option: &Optional| option.name.as_bytes() == name;
            let place = self.options.iter().position(known).ok_or(Fault::Words)?;
            if named.iter().any(|&(other, _)| other == place) {
                return Err(Fault::Words);
            }
            named.push((place, held));
        }
        Ok(named)
    }

    fn values(&self, words: &[&[u8]]) -> Result<Vec<Value>, Fault> {
        let pairs = self.words.iter().zip(words);
        pairs.map(|(word, text)| word.value(text)).collect()
    }

    /// The value of every optional word. They are read in the order of the line, for its first error.
    fn chosen(&self, named: &[(usize, &[u8])]) -> Result<Vec<(&'static str, Value)>, Fault> {
        let default = |option: &Optional| (option.name, option.holds.default());
        let mut chosen: Vec<(&str, Value)> = self.options.iter().map(default).collect();
        for &(place, held) in named {
            chosen[place].1 = self.options[place].holds.value(held)?;
        }
        Ok(chosen)
    }
}

/// The form's words, and the optional words: those at the end that hold a `=`.
fn parted<'words, 'line>(
    words: &'words [&'line [u8]],
) -> (&'words [&'line [u8]], &'words [&'line [u8]]) {
    let last = words.iter().rposition(|word| !word.contains(&b'='));
    words.split_at(last.map_or(0, |place| place + 1))
}

/// What stands before the first `=` of a word and what stands after it.
fn at_equals(word: &[u8]) -> (&[u8], &[u8]) {
    let place = word.iter().position(|&octet| octet == b'=');
    let place = place.expect("an optional word holds one");
    (&word[..place], &word[place + 1..])
}

impl Word {
    fn value(self, text: &[u8]) -> Result<Value, Fault> {
        match self {
            Word::Number => words::number(text).map(Value::Number),
            Word::Short => words::short(text).map(|number| Value::Number(number.into())),
            Word::Length => words::length(text).map(|length| Value::Number(length as u64)),
            Word::Mask => words::mask(text).map(Value::Number),
            Word::Bits => words::bits(text).map(Value::Octets),
            Word::Hex(room) => words::hex(text, room).map(Value::Octets),
        }
    }
}

impl Holds {
    fn default(self) -> Value {
        match self {
            Holds::Number(number) => Value::Number(number),
            Holds::OneOf(alternatives) => Value::Alternative(alternatives[0]),
        }
    }

    fn value(self, text: &[u8]) -> Result<Value, Fault> {
        match self {
            Holds::Number(_) => words::number(text).map(Value::Number),
            Holds::OneOf(alternatives) => alternatives
                .iter()
                .find(|alternative| alternative.as_bytes() == text)
                .map(|alternative| Value::Alternative(alternative))
                .ok_or(Fault::Words),
        }
    }
}

/// A kind that takes other words than its form has is a fault of this program, and ends it.
impl Given {
    pub fn number(&mut self) -> u64 {
        match self.words.next() {
            Some(Value::Number(number)) => number,
            other => panic!("the form has no number here: {other:?}"),
        }
    }

    pub fn short(&mut self) -> u16 {
        let number = self.number();
        number.try_into().expect("the form has a short number here")
    }

    pub fn length(&mut self) -> usize {
        let number = self.number();
        number.try_into().expect("the form has a length here")
    }

    pub fn octets(&mut self) -> Vec<u8> {
        match self.words.next() {
            Some(Value::Octets(octets)) => octets,
            other => panic!("the form has no octets here: {other:?}"),
        }
    }

    /// The number that the optional word of this name holds.
    pub fn number_of(&self, name: &str) -> u64 {
        match self.option(name) {
            Value::Number(number) => *number,
            other => panic!("the form has no number there: {other:?}"),
        }
    }

    /// The alternative that the optional word of this name holds. None decides an answer here; what is
    /// compared with this implementation may ask.
    pub fn alternative_of(&self, name: &str) -> &'static str {
        match self.option(name) {
            Value::Alternative(alternative) => alternative,
            other => panic!("the form has no alternatives there: {other:?}"),
        }
    }

    fn option(&self, name: &str) -> &Value {
        let option = self.options.iter().find(|(own, _)| *own == name);
        &option.expect("the form has this optional word").1
    }

    /// All that is given, for the tests of reading.
    #[cfg(test)]
    pub fn values(&self) -> Vec<Value> {
        self.words.as_slice().to_vec()
    }
}

#[cfg(test)]
mod tests;
