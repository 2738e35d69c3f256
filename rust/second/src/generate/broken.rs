//! Lines that are no request, or only just one.

use super::write::{self, Words};
use crate::form::Word;
use crate::kinds::Kind;
use crate::random::Random;

pub fn line(kind: &Kind, random: &mut Random) -> Vec<u8> {
    if !kind.form.options.is_empty() && random.one_in(3) {
        return about_its_options(kind, random);
    }
    match random.below(10) {
        0 => no_answer(kind, random),
        1 => other_name(kind, random),
        2 => other_count_of_words(kind, random),
        3 => doubled_space(kind, random),
        4..=5 => write::line(&words_at_the_edge(kind, random)),
        6 => any_characters(kind, random),
        7 => optional_words(kind, random),
        _ => one_change(kind, random),
    }
}

/// Blank lines and comments.
fn no_answer(kind: &Kind, random: &mut Random) -> Vec<u8> {
    let request = write::line(&kind.done(random));
    let fronts: [&[u8]; 8] = [
        b"",
        b" ",
        b"      ",
        b"#",
        b"# ",
        b"#\xff\0 #",
        b" #",
        b"   # ",
    ];
    let front = random.pick(&fronts);
    if front.contains(&b'#') {
        [front, &request].concat()
    } else {
        front.to_vec()
    }
}

fn other_name(kind: &Kind, random: &mut Random) -> Vec<u8> {
    let name = kind.name.as_bytes();
    let names = [
        name.to_ascii_uppercase(),
        [&name[..1].to_ascii_uppercase(), &name[1..]].concat(),
        name[..name.len() - 1].to_vec(),
        [name, b"s"].concat(),
        [name, b"24"].concat(),
        [name, b"\t"].concat(),
        [name, b"\0"].concat(),
        [b"\xef\xbb\xbf", name].concat(),
        b"".to_vec(),
        b" ".to_vec(),
        b"24".to_vec(),
        b"-".to_vec(),
    ];
    let name = names[random.below(names.len())].clone();
    if random.one_in(4) {
        return name;
    }
    let mut words = kind.done(random);
    words[0] = name;
    write::line(&words)
}

fn other_count_of_words(kind: &Kind, random: &mut Random) -> Vec<u8> {
    let mut words = kind.done(random);
    match random.below(4) {
        0 => words.truncate(1 + random.below(kind.form.words.len())),
        1 => drop(words.remove(1 + random.below(kind.form.words.len()))),
        2 => words.push(words[words.len() - 1].clone()),
        _ => {
            let more: [&[u8]; 6] = [b"1", b"-", b"q", b"1 1", b"x: #", b"#1 1"];
            let place = 1 + random.below(words.len());
            words.insert(place, random.pick(&more).to_vec());
        }
    }
    let mut line = write::line(&words);
    if random.one_in(4) {
        line.push(b' ');
    }
    line
}

/// One of the spaces of a request written twice or more, or spaces in front.
fn doubled_space(kind: &Kind, random: &mut Random) -> Vec<u8> {
    let mut words = kind.done(random);
    let place = random.below(words.len());
    let mut spaces = vec![b' '; 1 + random.below(3)];
    spaces.append(&mut words[place]);
    words[place] = spaces;
    write::line(&words)
}

/// One word at the edge of what it may be, or two, so that the order of the errors is compared.
fn words_at_the_edge(kind: &Kind, random: &mut Random) -> Words {
    let mut words = random.pick(&[Kind::done, Kind::done, Kind::refused])(kind, random);
    for _ in 0..random.pick(&[1, 1, 2]) {
        let place = random.below(kind.form.words.len());
        words[1 + place] = word_at_the_edge(kind.form.words[place], random);
    }
    words
}

fn word_at_the_edge(word: Word, random: &mut Random) -> Vec<u8> {
    let number = number_at_the_edge(random);
    let bits = bits_at_the_edge(random);
    let hex = hex_at_the_edge(random);
    let mask = mask_at_the_edge(random);
    let own = match word {
        Word::Number | Word::Short | Word::Length => number,
        Word::Mask => mask,
        Word::Bits => bits,
        Word::Hex(_) => hex,
    };
    // Now and then a word of another kind.
    match random.below(9) {
        0 => number.to_vec(),
        1 => bits.to_vec(),
        2 => hex.to_vec(),
        3 => mask.to_vec(),
        _ => own.to_vec(),
    }
}

fn number_at_the_edge(random: &mut Random) -> &'static [u8] {
    let numbers: [&[u8]; 28] = [
        b"18446744073709551615",
        b"18446744073709551616",
        b"18446744073709551617",
        b"18446744073709551620",
        b"18446744073709551624",
        b"18446744073709551632",
        b"18446744073709551640",
        b"0000018446744073709551615",
        b"99999999999999999999",
        b"340282366920938463463374607431768211480",
        b"000000000000000000000000000000008",
        b"65535",
        b"65536",
        b"0065535",
        b"139999",
        b"140000",
        b"140001",
        b"4294967296",
        b"4294967297",
        b"+8",
        b"-8",
        b"-",
        b"8.0",
        b"0x8",
        b"1e1",
        b"8\0",
        b"\xd9\xa8",
        b"eight",
    ];
    random.pick(&numbers)
}

fn mask_at_the_edge(random: &mut Random) -> &'static [u8] {
    let masks: [&[u8]; 34] = [
        b"0",
        b"00",
        b"a",
        b"F",
        b"10",
        b"0000000000000000",
        b"000000000000ffff",
        b"0000000000000001",
        b"8000000000000000",
        b"7fffffffffffffff",
        b"fffffffffffffffe",
        b"FFFFffffFFFFffff",
        b"ffffffffffff0000",
        b"00000000000000000",
        b"00000000000000001",
        b"0ffffffffffffffff",
        b"10000000000000000",
        b"1000000000000ffff",
        b"fffffffffffffffff",
        b"000000000000000000000000000000001",
        b"g",
        b"G",
        b"/",
        b":",
        b"@",
        b"`",
        b"0x1",
        b"x:1",
        b"x:01",
        b"-",
        b"-1",
        b"+1",
        b"f\0",
        b"\xef\xbc\x91",
    ];
    random.pick(&masks)
}

fn bits_at_the_edge(random: &mut Random) -> &'static [u8] {
    let words: [&[u8]; 24] = [
        b"-",
        b"x:",
        b"0",
        b"2",
        b"x:0",
        b"x:010",
        b"x:01020",
        b"x:0g",
        b"x:g0",
        b"x:0001:",
        b"x:x:",
        b"x:-",
        b"X:01",
        b"x",
        b"x01",
        b"0x:01",
        b"--",
        b"-1",
        b"1-",
        b"1,0",
        b"0a",
        b"/",
        b":",
        b"\xef\xbc\x91",
    ];
    random.pick(&words)
}

fn hex_at_the_edge(random: &mut Random) -> &'static [u8] {
    let words: [&[u8]; 20] = [
        b"-",
        b"00",
        b"0000",
        b"fF",
        b"0",
        b"000",
        b"0000000",
        b"0g",
        b"g0",
        b"0G",
        b"00x",
        b"x:00",
        b"0x00",
        b"--",
        b"-0",
        b"0-",
        b"00-",
        b"0,",
        b"@A",
        b"\xef\xbc\x90",
    ];
    random.pick(&words)
}

/// Words that hold a `=`, behind a request, in the middle of it, or in the place of its last words.
fn optional_words(kind: &Kind, random: &mut Random) -> Vec<u8> {
    let mut words = kind.done(random);
    if random.one_in(4) {
        words.truncate(1 + random.below(words.len()));
    }
    for _ in 0..random.pick(&[1, 1, 2, 3]) {
        let last = words.len();
        let anywhere = random.below(last + 1);
        let place = random.pick(&[last, last, last, anywhere]);
        words.insert(place, optional_word(random));
    }
    write::line(&words)
}

/// A name that some kind may have, or one that none has, and what it may or may not hold.
fn optional_word(random: &mut Random) -> Vec<u8> {
    let names: [&[u8]; 8] = [b"rv", b"ed", b"type", b"by", b"rv", b"RV", b"q", b""];
    let name = random.pick(&names);
    let words: [&[u8]; 9] = [
        b"0", b"1", b"00", b"quick", b"plain", b"Plain", b"", b"=", b"1=1",
    ];
    let number = number_at_the_edge(random);
    let held = random.pick(&words);
    let held = random.pick(&[held, held, held, number]);
    [name, b"=", held].concat()
}

/// Words that are picked from a list.
type Picked = fn(&mut Random) -> &'static [u8];

/// A request whose form has optional words, with words about these behind it, in the middle of it, or in
/// the place of one of its words. The request is good, refused, or at the edge itself, so that the order of
/// the errors is compared.
fn about_its_options(kind: &Kind, random: &mut Random) -> Vec<u8> {
    let mut words = random.pick(&[Kind::done, Kind::refused, words_at_the_edge])(kind, random);
    words.truncate(1 + kind.form.words.len());
    let about: [(&str, Picked); 4] = [
        ("by", checker_words),
        ("rv", version_words),
        ("ed", edition_words),
        ("type", type_words),
    ];
    let has = |name: &str| kind.form.options.iter().any(|option| option.name() == name);
    let about: Vec<_> = about.iter().filter(|(name, _)| has(name)).collect();
    let about = random.pick(&about).1(random).to_vec();
    let place = 1 + random.below(kind.form.words.len());
    match random.below(6) {
        0 => words.insert(place, about),
        1 => words[place] = about,
        _ => words.push(about),
    }
    write::line(&words)
}

/// The optional word for the checker, and what is close to it: another value, another name, another
/// form, and more words than one.
fn checker_words(random: &mut Random) -> &'static [u8] {
    let words: [&[u8]; 23] = [
        b"by=quick",
        b"by=plain",
        b"by=slow",
        b"by=",
        b"by=Plain",
        b"by=plai",
        b"by=quickly",
        b"by=plain=",
        b"By=plain",
        b"=plain",
        b"by",
        b"by plain",
        b"ed=1",
        b"by=plain ed=1",
        b"ed=1 by=plain",
        b"rv=0",
        b"by=plain rv=0",
        b"rv=0 by=plain",
        b"by=plain type=1",
        b"by=plain by=plain",
        b"by=quick by=plain",
        b"by=slow by=plain",
        b"by=plain -",
    ];
    random.pick(&words)
}

/// The same for the redundancy version.
fn version_words(random: &mut Random) -> &'static [u8] {
    let words: [&[u8]; 32] = [
        b"rv=0",
        b"rv=1",
        b"rv=2",
        b"rv=3",
        b"rv=4",
        b"rv=00000000000000000000000000000003",
        b"rv=18446744073709551615",
        b"rv=18446744073709551616",
        b"rv=18446744073709551617",
        b"rv=",
        b"rv==",
        b"rv=-",
        b"rv=+1",
        b"rv=-1",
        b"rv=1=",
        b"rv=0x1",
        b"rv=three",
        b"RV=0",
        b"rv",
        b"rv 0",
        b"rv=0 rv=0",
        b"rv=0 rv=1",
        b"rv=q rv=0",
        b"rv=0 ed=1",
        b"ed=1 rv=0",
        b"rv=0 q=1",
        b"rv=1 by=plain",
        b"by=plain rv=1",
        b"rv=q by=slow",
        b"by=slow rv=q",
        b"rv=1 type=2",
        b"rv=0 -",
    ];
    random.pick(&words)
}

/// The same for the edition.
fn edition_words(random: &mut Random) -> &'static [u8] {
    let words: [&[u8]; 34] = [
        b"ed=1",
        b"ed=2",
        b"ed=0",
        b"ed=3",
        b"ed=4",
        b"ed=00000000000000000000000000000002",
        b"ed=18446744073709551615",
        b"ed=18446744073709551616",
        b"ed=18446744073709551617",
        b"ed=18446744073709551618",
        b"ed=",
        b"ed==",
        b"ed=-",
        b"ed=+2",
        b"ed=-1",
        b"ed=2=",
        b"ed=0x2",
        b"ed=two",
        b"ED=2",
        b"ed",
        b"ed 2",
        b"edition=2",
        b"ed=2 ed=2",
        b"ed=1 ed=2",
        b"ed=q ed=2",
        b"ed=2 q=1",
        b"ed=2 rv=0",
        b"rv=4 ed=3",
        b"ed=q rv=q",
        b"ed=2 by=plain",
        b"by=slow ed=q",
        b"by=plain ed=3 rv=0",
        b"ed=2 type=2",
        b"ed=2 -",
    ];
    random.pick(&words)
}

/// The same for the type, alone and with a redundancy version.
fn type_words(random: &mut Random) -> &'static [u8] {
    let words: [&[u8]; 26] = [
        b"type=1",
        b"type=2",
        b"type=0",
        b"type=3",
        b"type=02",
        b"type=18446744073709551615",
        b"type=18446744073709551617",
        b"type=18446744073709551618",
        b"type=",
        b"type=two",
        b"type=2=",
        b"Type=2",
        b"type",
        b"type 2",
        b"type=2 type=2",
        b"type=1 type=2",
        b"type=2 rv=1",
        b"rv=1 type=2",
        b"type=2 rv=4",
        b"type=3 rv=4",
        b"type=1 rv=1",
        b"type=q rv=1",
        b"rv=1 type=q",
        b"type=2 rv=1 type=2",
        b"type=2 by=plain",
        b"rv=1 type=2 -",
    ];
    random.pick(&words)
}

/// Short lines out of the characters that mean something.
fn any_characters(kind: &Kind, random: &mut Random) -> Vec<u8> {
    let length = random.below(16);
    let tail: Vec<u8> = (0..length)
        .map(|_| random.pick(b"  ##crc0128x:-af="))
        .collect();
    let mut words = kind.done(random);
    words.truncate(random.below(words.len() + 1));
    let mut line = write::line(&words);
    if random.one_in(2) {
        line.push(b' ');
    }
    [line, tail].concat()
}

/// A good request with one octet put in, taken out or changed.
fn one_change(kind: &Kind, random: &mut Random) -> Vec<u8> {
    let words: Words = kind.done(random);
    let mut line = write::line(&words);
    let place = random.below(line.len());
    let any = any_but_newline(random);
    let meaning = random.pick(b" #0123456789abcdefgxX:-=");
    let octet = random.pick(&[any, meaning]);
    match random.below(3) {
        0 => line.insert(place, octet),
        1 => line[place] = octet,
        _ => drop(line.remove(place)),
    }
    line
}

/// A newline would make two lines of one.
fn any_but_newline(random: &mut Random) -> u8 {
    match random.octet() {
        b'\n' => b'\r',
        octet => octet,
    }
}

#[cfg(test)]
mod tests {
    use super::{about_its_options, line, optional_words};
    use crate::answer::answer;
    use crate::kinds::{named, Kind, KINDS};
    use crate::random::Random;

    /// The kinds that may ask for a checker.
    const CHECKING: [&str; 4] = ["check", "recv", "hrecv", "hcheck"];

    /// What the lines are answered, as far as they are.
    fn answers(lines: &[Vec<u8>]) -> Vec<String> {
        lines.iter().filter_map(|line| answer(line)).collect()
    }

    /// How many of the answers begin so.
    fn count(answers: &[String], begin: &str) -> usize {
        let found = answers.iter().filter(|text| text.starts_with(begin));
        found.count()
    }

    #[test]
    fn optional_words_are_errors_where_a_kind_has_none() {
        let mut random = Random::new(1);
        let has_none = |kind: &&Kind| kind.form.options.is_empty();
        for kind in KINDS.iter().filter(has_none) {
            let lines: Vec<_> = (0..100)
                .map(|_| optional_words(kind, &mut random))
                .collect();
            let answers = answers(&lines);
            assert_eq!(count(&answers, "error "), answers.len());
            assert!(count(&answers, "error words") > 70, "{}", kind.name);
        }
    }

    /// The kinds whose forms have optional words.
    fn with_options() -> impl Iterator<Item = &'static Kind> {
        KINDS.iter().filter(|kind| !kind.form.options.is_empty())
    }

    #[test]
    fn words_about_options_are_errors_or_not() {
        let mut random = Random::new(2);
        assert_eq!(with_options().count(), 8);
        for kind in with_options() {
            let name = kind.name;
            let lines: Vec<_> = (0..1000)
                .map(|_| about_its_options(kind, &mut random))
                .collect();
            let answers = answers(&lines);
            assert!(count(&answers, "error words") > 300, "{name}");
            assert!(count(&answers, "error number") > 0, "{name}");
            // Words in the middle, and words at the edge, go before what an optional word holds.
            assert!(
                count(&answers, "error bits") + count(&answers, "error hex") > 0,
                "{name}"
            );
            assert!(count(&answers, "0 ") > 10, "{name}");
        }
    }

    /// Whether some of the lines end so and are answered so.
    fn is_answered(lines: &[Vec<u8>], ending: &str, text: &str) -> bool {
        let mut ending_so = lines
            .iter()
            .filter(|line| line.ends_with(ending.as_bytes()));
        ending_so.any(|line| answer(line).is_some_and(|answer| answer.starts_with(text)))
    }

    #[test]
    fn a_checker_is_asked_for_wrongly_in_every_way() {
        let mut random = Random::new(3);
        for name in CHECKING {
            let kind = named(name.as_bytes()).unwrap();
            let lines: Vec<_> = (0..2000).map(|_| line(kind, &mut random)).collect();
            for ending in [
                " by=slow",
                " by=",
                " by=Plain",
                " by=plain by=plain",
                " by=quick by=plain",
                " by=plain type=1",
            ] {
                assert!(
                    is_answered(&lines, ending, "error words"),
                    "{name}: {ending}"
                );
            }
            let in_the_middle = |line: &Vec<u8>| {
                let mut words = line.split(|&octet| octet == b' ');
                let place = words.position(|word| word == b"by=plain");
                place.is_some_and(|place| place < kind.form.words.len())
            };
            assert!(lines.iter().any(in_the_middle), "{name}");
        }
    }

    #[test]
    fn a_version_is_asked_for_wrongly_in_every_way() {
        let mut random = Random::new(4);
        for name in ["rate", "send", "recv", "hsend", "hrecv"] {
            let kind = named(name.as_bytes()).unwrap();
            let lines: Vec<_> = (0..4000).map(|_| line(kind, &mut random)).collect();
            for (ending, text) in [
                (" rv=0 rv=1", "error words"),
                (" rv=0 q=1", "error words"),
                (" RV=0", "error words"),
                (" rv=", "error number"),
                (" rv=-1", "error number"),
                (" rv=18446744073709551616", "error number"),
                (" rv=18446744073709551615", "16 "),
                (" rv=4", "16 "),
            ] {
                assert!(is_answered(&lines, ending, text), "{name}: {ending}");
            }
        }
    }

    #[test]
    fn an_edition_is_asked_for_wrongly_in_every_way() {
        let mut random = Random::new(6);
        for name in ["plan", "send", "recv", "hsend", "hrecv"] {
            let kind = named(name.as_bytes()).unwrap();
            let lines: Vec<_> = (0..5000).map(|_| line(kind, &mut random)).collect();
            for (ending, text) in [
                (" ed=1 ed=2", "error words"),
                (" edition=2", "error words"),
                (" ed=2 type=2", "error words"),
                (" ED=2", "error words"),
                (" ed=", "error number"),
                (" ed=-1", "error number"),
                (" ed=18446744073709551616", "error number"),
                (" ed=18446744073709551615", "19 "),
                (" ed=0", "19 "),
                (" ed=3", "19 "),
                (" ed=2", "0 "),
            ] {
                assert!(is_answered(&lines, ending, text), "{name}: {ending}");
            }
        }
    }

    #[test]
    fn a_type_is_asked_for_in_every_way() {
        let mut random = Random::new(5);
        let kind = named(b"rate").unwrap();
        let lines: Vec<_> = (0..6000).map(|_| line(kind, &mut random)).collect();
        for (ending, text) in [
            (" type=2 rv=1", "0 "),
            (" rv=1 type=2", "0 "),
            (" type=2 rv=4", "16 "),
            (" type=1 rv=1", "16 "),
            (" type=3 rv=4", "5 "),
            (" type=0", "5 "),
            (" type=2 type=2", "error words"),
            (" type=2 rv=1 type=2", "error words"),
            (" type=2 by=plain", "error words"),
            (" type=two", "error number"),
        ] {
            assert!(is_answered(&lines, ending, text), "{ending}");
        }
    }
}
