//! Lines at and beyond the room that a line or a word has.

use super::makers::Maker;
use super::write;
use crate::form::Word;
use crate::kinds::Kind;
use crate::lines::LINE_ROOM;
use crate::random::Random;
use crate::words::BITS_ROOM;

/// What is long in a line.
#[derive(Clone, Copy)]
enum Long {
    /// The whole line is long, and how.
    Line(fn(&Kind, &mut Random) -> Vec<u8>),
    /// The word at this place after the name is long, and how.
    Word(usize, fn(Word, &mut Random) -> Vec<u8>),
    /// The request is a long one that the kind makes itself.
    Request(Maker),
}

const LINES: [fn(&Kind, &mut Random) -> Vec<u8>; 7] = [
    |kind, random| filled(&done(kind, random), b' ', random),
    |kind, random| filled(&[&done(kind, random)[..], b" # "].concat(), b'1', random),
    |_, random| filled(b"# ", b'1', random),
    |_, random| filled(b"", b' ', random),
    |_, random| filled(b"", b'c', random),
    |kind, random| filled(&done(kind, random), b'0', random),
    beyond_any_buffer,
];

const NUMBERS: [fn(Word, &mut Random) -> Vec<u8>; 2] = [
    |_, _| [&vec![b'0'; BITS_ROOM + 1][..], b"8"].concat(),
    |_, _| vec![b'9'; BITS_ROOM + 1],
];

const BITS: [fn(Word, &mut Random) -> Vec<u8>; 9] = [
    |_, random| digits(BITS_ROOM, random),
    |_, random| digits(BITS_ROOM + 1, random),
    |_, random| bits_as_pairs(BITS_ROOM, b"", random),
    |_, random| bits_as_pairs(BITS_ROOM, b"0", random),
    |_, random| bits_as_pairs(BITS_ROOM + 1, b"", random),
    |_, random| bits_as_pairs(BITS_ROOM + 1, b"0", random),
    |_, random| [&digits(BITS_ROOM - 1, random)[..], b"3"].concat(),
    |_, random| [&digits(BITS_ROOM - 1, random)[..], b"q"].concat(),
    |_, random| [&digits(BITS_ROOM, random)[..], b"q"].concat(),
];

const OCTETS: [fn(Word, &mut Random) -> Vec<u8>; 6] = [
    |word, random| hex(word, 0, b"", random),
    |word, random| hex(word, 0, b"0", random),
    |word, random| hex(word, 1, b"", random),
    |word, random| hex(word, 1, b"0", random),
    |word, random| hex(word, 0, b"q", random),
    |word, random| hex(word, 0, b"qq", random),
];

/// The long lines of the kinds follow one another, in the order of the turns.
pub fn line(kinds: &[&Kind], turn: u64, random: &mut Random) -> Vec<u8> {
    let all = all(kinds);
    let place = turn % all.len() as u64;
    let (kind, long) = all[usize::try_from(place).expect("there are not many")];
    match long {
        Long::Line(make) => make(kind, random),
        Long::Word(place, make) => {
            let mut words = kind.done(random);
            words[1 + place] = make(kind.form.words[place], random);
            write::line(&words)
        }
        Long::Request(make) => write::line(&kind.request(make, random)),
    }
}

/// All long lines that there are, the kinds in turn, so that few lines already show each of them.
fn all<'kinds>(kinds: &[&'kinds Kind]) -> Vec<(&'kinds Kind, Long)> {
    let lists: Vec<Vec<Long>> = kinds.iter().map(|kind| of_kind(kind)).collect();
    let longest = lists.iter().map(Vec::len).max().unwrap_or(0);
    (0..longest)
        .flat_map(|place| kinds.iter().zip(&lists).map(move |pair| (pair, place)))
        .filter_map(|((kind, list), place)| list.get(place).map(|&long| (*kind, long)))
        .collect()
}

fn of_kind(kind: &Kind) -> Vec<Long> {
    let lines = LINES.iter().map(|&make| Long::Line(make));
    let requests = kind.makers.large.iter().map(|&make| Long::Request(make));
    let places = kind.form.words.iter().enumerate();
    let words = places.flat_map(|(place, word)| {
        let makers = match word {
            Word::Number | Word::Short | Word::Length | Word::Mask => &NUMBERS[..],
            Word::Bits => &BITS,
            Word::Hex(_) => &OCTETS,
        };
        makers.iter().map(move |&make| Long::Word(place, make))
    });
    requests.chain(words).chain(lines).collect()
}

fn done(kind: &Kind, random: &mut Random) -> Vec<u8> {
    write::line(&kind.done(random))
}

fn digits(count: usize, random: &mut Random) -> Vec<u8> {
    (0..count).map(|_| random.pick(b"01")).collect()
}

fn bits_as_pairs(count: usize, end: &[u8], random: &mut Random) -> Vec<u8> {
    let bits: Vec<u8> = (0..count).map(|_| random.pick(&[0, 1])).collect();
    [&write::bits_as_pairs(&bits, random), end].concat()
}

/// Packed octets, so many more than there is room for.
fn hex(word: Word, more: usize, end: &[u8], random: &mut Random) -> Vec<u8> {
    let room = match word {
        Word::Hex(room) => room,
        _ => BITS_ROOM,
    };
    let octets: Vec<u8> = (0..room + more).map(|_| random.octet()).collect();
    [&write::hex(&octets, random), end].concat()
}

/// A line as long as may be, or longer by one or two.
fn filled(text: &[u8], fill: u8, random: &mut Random) -> Vec<u8> {
    let mut line = text.to_vec();
    line.resize(LINE_ROOM + random.below(3), fill);
    line
}

/// Requests stand in it one behind the other, so that a reader that goes on too early is seen.
fn beyond_any_buffer(kind: &Kind, random: &mut Random) -> Vec<u8> {
    let length = 2 * LINE_ROOM + random.below(LINE_ROOM);
    let request = [&done(kind, random)[..], b" "].concat();
    request.iter().copied().cycle().take(length).collect()
}

#[cfg(test)]
mod tests {
    use super::{all, line};
    use crate::answer::answer;
    use crate::kinds::{named, Kind, KINDS};
    use crate::lines::LINE_ROOM;
    use crate::random::Random;

    /// Rounds over the long lines of the kinds, for the lengths that are drawn.
    fn lines(kinds: &[&Kind], rounds: usize) -> Vec<Vec<u8>> {
        let mut random = Random::new(1);
        (0..(rounds * all(kinds).len()) as u64)
            .map(|turn| line(kinds, turn, &mut random))
            .collect()
    }

    #[test]
    fn lines_of_the_full_room_and_beyond_are_among_them() {
        let lines = lines(&[named(b"crc").unwrap()], 3);
        for length in [LINE_ROOM, LINE_ROOM + 1] {
            assert!(lines.iter().any(|line| line.len() == length));
        }
        assert!(lines.iter().any(|line| line.len() > 2 * LINE_ROOM));
        assert!(lines.iter().all(|line| !line.contains(&b'\n')));
    }

    #[test]
    fn they_are_answered_in_several_ways() {
        let kinds: Vec<&Kind> = KINDS.iter().collect();
        let lines = lines(&kinds, 1);
        let answers: Vec<Option<String>> = lines.iter().map(|line| answer(line)).collect();
        for text in [
            "12 0",
            "5",
            "error long",
            "error request",
            "error number",
            "error bits",
        ] {
            assert!(answers.contains(&Some(text.to_string())), "{text}");
        }
        assert!(answers.contains(&None));
    }
}
