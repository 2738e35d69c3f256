use crate::errors::Fault;
use crate::form::Value;
use crate::kinds::{Kind, KINDS};
use crate::lines::LINE_ROOM;
use crate::words::{BITS_ROOM, BLOCK_ROOM, SHELF_ROOM};

/// The name of a request and the values of its words.
type Read = Result<Option<(&'static str, Vec<Value>)>, Fault>;

fn request(line: &[u8]) -> Read {
    let read = super::request(line)?;
    Ok(read.map(|(kind, given)| (kind.name, given.values())))
}

fn read(name: &'static str, values: &[Value]) -> Read {
    Ok(Some((name, values.to_vec())))
}

fn number(number: u64) -> Value {
    Value::Number(number)
}

fn octets(octets: &[u8]) -> Value {
    Value::Octets(octets.to_vec())
}

fn crc(width: u64, bits: &[u8]) -> Read {
    read("crc", &[number(width), octets(bits)])
}

fn padded(text: &[u8], length: usize) -> Vec<u8> {
    let mut line = text.to_vec();
    line.resize(length, b' ');
    line
}

#[test]
fn a_request_is_read() {
    assert_eq!(
        request(b"crc 24 00000001"),
        crc(24, &[0, 0, 0, 0, 0, 0, 0, 1])
    );
    assert_eq!(request(b"crc 8 x:00ff"), crc(8, &[0, 255]));
    assert_eq!(request(b"crc 16 -"), crc(16, &[]));
    assert_eq!(
        request(b"crc24b x:00ff"),
        read("crc24b", &[octets(&[0, 255])])
    );
}

#[test]
fn a_request_of_packed_octets_is_read() {
    let crcoct = |width, packed: &[u8]| read("crcoct", &[number(width), octets(packed)]);
    assert_eq!(request(b"crcoct 24 01fE"), crcoct(24, &[0x01, 0xfe]));
    assert_eq!(request(b"crcoct 7 -"), crcoct(7, &[]));
    assert_eq!(request(b"crcoct q 0"), Err(Fault::Number));
    assert_eq!(request(b"crcoct 8 0"), Err(Fault::Hex));
    assert_eq!(request(b"crcoct 8 x:00"), Err(Fault::Hex));
}

#[test]
fn requests_under_a_mask_are_read() {
    let values = |mask| [number(16), number(mask), octets(&[0, 1, 9])];
    assert_eq!(request(b"crcm 16 10 019"), read("crcm", &values(16)));
    assert_eq!(
        request(b"crctest 16 FFFFffffFFFFffff 019"),
        read("crctest", &values(u64::MAX))
    );
    assert_eq!(
        request(b"crcappend 16 000000000000fFfF 019 7"),
        read("crcappend", &[&values(0xffff)[..], &[number(7)]].concat())
    );
}

#[test]
fn a_mask_has_1_to_16_digits() {
    for (name, length) in [("crcm", ""), ("crctest", ""), ("crcappend", " 9")] {
        let asked = |mask: &str| request(format!("{name} 8 {mask} 1{length}").as_bytes());
        assert!(asked("0").is_ok());
        assert!(asked("0000000000000000").is_ok());
        assert_eq!(asked(""), Err(Fault::Words));
        for mask in [
            "00000000000000000",
            "10000000000000000",
            "g",
            "-",
            "x:1",
            "0x1",
            "+1",
            "rv=0",
        ] {
            assert_eq!(asked(mask), Err(Fault::Number), "{name} {mask}");
        }
    }
}

#[test]
fn a_mask_is_looked_at_in_its_turn() {
    assert_eq!(request(b"crcappend q 0 0 140001"), Err(Fault::Number));
    assert_eq!(request(b"crcappend 7 q q 140001"), Err(Fault::Number));
    assert_eq!(request(b"crcappend 7 f q 140001"), Err(Fault::Bits));
    assert_eq!(request(b"crcappend 7 f 2 140001"), Err(Fault::Long));
}

#[test]
fn requests_about_a_record_are_read() {
    let record = || octets(&[0x00, 0xfe]);
    assert_eq!(request(b"profile 00fe"), read("profile", &[record()]));
    assert_eq!(
        request(b"plan 00Fe 18446744073709551615"),
        read("plan", &[record(), number(u64::MAX)])
    );
}

#[test]
fn requests_about_one_block_are_read() {
    let places = octets(&[0, 1, 2]);
    assert_eq!(
        request(b"encode 01 2 012 140000"),
        read(
            "encode",
            &[octets(&[1]), number(2), places, number(140_000)]
        )
    );
    assert_eq!(
        request(b"check - 18446744073709551615 x:00ff"),
        read("check", &[octets(&[]), number(u64::MAX), octets(&[0, 255])])
    );
    let word = octets(&[0, 1, 9]);
    assert_eq!(
        request(b"sums 01 2 019 140000"),
        read("sums", &[octets(&[1]), number(2), word, number(140_000)])
    );
}

#[test]
fn requests_about_radio_bits_are_read() {
    assert_eq!(
        request(b"rate 65537 012 7"),
        read("rate", &[number(65_537), octets(&[0, 1, 2]), number(7)])
    );
    let record = octets(&[0]);
    let sending = [1, 2, 3, 4].map(number);
    assert_eq!(
        request(b"send 00 5a 1 2 3 4"),
        read(
            "send",
            &[&[record.clone(), octets(&[0x5a])], &sending[..]].concat()
        )
    );
    let receiving = [
        number(8),
        number(1),
        number(2),
        octets(&[0, 1, 9]),
        number(4),
    ];
    assert_eq!(
        request(b"recv 00 8 1 2 019 4"),
        read("recv", &[&[record], &receiving[..]].concat())
    );
}

#[test]
fn requests_about_shelves_are_read() {
    let shelves = [octets(&[1, 2]), octets(&[]), number(65_535), number(0)];
    assert_eq!(request(b"lookup 0102 - 65535 0"), read("lookup", &shelves));
    let sending = [octets(&[0x5a]), number(1), number(2), number(3), number(4)];
    assert_eq!(
        request(b"hsend 0102 - 65535 0 5a 1 2 3 4"),
        read("hsend", &[&shelves[..], &sending].concat())
    );
    let receiving = [
        number(8),
        number(1),
        number(2),
        octets(&[0, 1, 9]),
        number(4),
    ];
    assert_eq!(
        request(b"hrecv 0102 - 65535 0 8 1 2 019 4"),
        read("hrecv", &[&shelves[..], &receiving].concat())
    );
    let word = [number(8), octets(&[0, 1, 9])];
    assert_eq!(
        request(b"hcheck 0102 - 65535 0 8 019"),
        read("hcheck", &[&shelves[..], &word].concat())
    );
    let place = [octets(&[1, 2]), number(65_535), number(0)];
    assert_eq!(
        request(b"put 0102 65535 0 - 140000"),
        read(
            "put",
            &[&place[..], &[octets(&[]), number(140_000)]].concat()
        )
    );
    assert_eq!(
        request(b"remove 0102 65535 0 4"),
        read("remove", &[&place[..], &[number(4)]].concat())
    );
}

#[test]
fn requests_about_control_words_are_read() {
    let bits = || octets(&[0, 1, 9]);
    assert_eq!(
        request(b"tbenc 019 140000"),
        read("tbenc", &[bits(), number(140_000)])
    );
    assert_eq!(
        request(b"tbrm 18446744073709551615 019 65537 7"),
        read(
            "tbrm",
            &[number(u64::MAX), bits(), number(65_537), number(7)]
        )
    );
    assert_eq!(
        request(b"tbsend x:0001ff 007 8"),
        read("tbsend", &[octets(&[0, 1, 255]), number(7), number(8)])
    );
    assert_eq!(
        request(b"tbback 6 - 18"),
        read("tbback", &[number(6), octets(&[]), number(18)])
    );
    assert_eq!(
        request(b"near 007 019 140000"),
        read("near", &[number(7), bits(), number(140_000)])
    );
}

#[test]
fn words_about_control_words_are_looked_at_from_left_to_right() {
    for (line, error) in [
        (&b"tbenc q 140001"[..], Fault::Bits),
        (b"tbenc 0 140001", Fault::Long),
        (b"tbenc 0 q", Fault::Number),
        (b"tbrm q q q 140001", Fault::Number),
        (b"tbrm 129 q q 140001", Fault::Bits),
        (b"tbrm 129 0 q 140001", Fault::Number),
        (b"tbrm 129 0 0 140001", Fault::Long),
        (b"tbsend q q 140001", Fault::Bits),
        (b"tbsend 0 18446744073709551616 140001", Fault::Number),
        (b"tbsend 0 18446744073709551615 140001", Fault::Long),
        (b"tbback 18446744073709551616 q q", Fault::Number),
        (b"tbback 18446744073709551615 x:0 q", Fault::Bits),
        (b"tbback 6 0 q", Fault::Number),
        (b"near 18446744073709551616 q q", Fault::Number),
        (b"near 18446744073709551615 q q", Fault::Bits),
        (b"near 6 x:0 140001", Fault::Bits),
        (b"near 6 0 140001", Fault::Long),
        (b"near 6 0 q", Fault::Number),
    ] {
        let text = String::from_utf8_lossy(line);
        assert_eq!(request(line), Err(error), "{text}");
    }
}

/// The kinds that may ask for a checker.
const CHECKING: [&str; 4] = ["check", "recv", "hrecv", "hcheck"];

/// The name of a kind, and for each word of its form one that is a number, bits and packed octets alike.
fn any_words(name: &str) -> Vec<String> {
    let kind = KINDS.iter().find(|kind| kind.name == name).unwrap();
    let words = kind.form.words.iter().map(|_| "00".to_string());
    std::iter::once(name.to_string()).chain(words).collect()
}

#[test]
fn no_other_request_has_an_optional_word() {
    let has_none = |kind: &&Kind| kind.form.options.is_empty();
    assert_eq!(KINDS.iter().filter(has_none).count(), 17);
    for kind in KINDS.iter().filter(has_none) {
        let line = any_words(kind.name).join(" ");
        let read = |ending: &str| request([&line, ending].concat().as_bytes());
        assert!(read("").is_ok(), "{line}");
        for ending in [
            " by=quick",
            " by=plain",
            " rv=0",
            " =",
            " by=quick ed=1",
            " q=",
            " rv=0 # comment",
        ] {
            assert_eq!(read(ending), Err(Fault::Words), "{line}{ending}");
        }
    }
}

#[test]
fn a_checker_is_asked_for() {
    for name in CHECKING {
        for (ending, by) in [
            ("", "quick"),
            (" by=quick", "quick"),
            (" by=plain", "plain"),
            (" by=plain # by=quick", "plain"),
            (" by=plain   ", "plain"),
        ] {
            let line = any_words(name).join(" ") + ending;
            let (kind, given) = super::request(line.as_bytes()).unwrap().unwrap();
            assert_eq!((kind.name, given.alternative_of("by")), (name, by));
            assert_eq!(given.values().len(), kind.form.words.len());
        }
    }
}

#[test]
fn a_checker_is_one_of_the_two_and_is_asked_for_once() {
    for name in CHECKING {
        for ending in [
            "by=slow",
            "by=",
            "by=Plain",
            "by=plain=",
            "BY=plain",
            "type=1",
            "by=plain type=1",
            "type=1 by=plain",
            "by=plain by=plain",
            "by=quick by=plain",
            "by=slow by=plain",
            "by",
            " by=plain",
        ] {
            let line = any_words(name).join(" ") + " " + ending;
            assert_eq!(request(line.as_bytes()), Err(Fault::Words), "{line}");
        }
    }
}

#[test]
fn a_version_is_asked_for() {
    for kind in KINDS {
        let line = any_words(kind.name).join(" ");
        let read = |ending: &str| super::request([&line, ending].concat().as_bytes());
        if !["rate", "send", "recv", "hsend", "hrecv"].contains(&kind.name) {
            assert_eq!(read(" rv=0").err(), Some(Fault::Words), "{line}");
            continue;
        }
        for (ending, rv) in [
            ("", 0),
            (" rv=0", 0),
            (" rv=3", 3),
            (" rv=007", 7),
            (" rv=2 # rv=1", 2),
            (" rv=18446744073709551615", u64::MAX),
        ] {
            let (_, given) = read(ending).unwrap().unwrap();
            assert_eq!(given.number_of("rv"), rv, "{line}{ending}");
        }
        for ending in [
            " rv=",
            " rv=-",
            " rv=q",
            " rv=1=",
            " rv=18446744073709551616",
        ] {
            assert_eq!(read(ending).err(), Some(Fault::Number), "{line}{ending}");
        }
        for ending in [" rv=1 rv=1", " RV=1", " rv", " rv=1 q=1", " q=1 rv=q"] {
            assert_eq!(read(ending).err(), Some(Fault::Words), "{line}{ending}");
        }
        // Only a rate has a type, and no edition; and only receiving has a checker.
        let has = |name: &str, holds: bool| (read(name).is_ok(), holds);
        for (left, right) in [
            has(" type=2 rv=1", kind.name == "rate"),
            has(" rv=1 type=2", kind.name == "rate"),
            has(" rv=1 ed=2", kind.name != "rate"),
            has(" ed=2 rv=1", kind.name != "rate"),
            has(" by=plain rv=1", kind.name.ends_with("recv")),
            has(" rv=1 by=plain", kind.name.ends_with("recv")),
        ] {
            assert_eq!(left, right, "{line}");
        }
    }
}

#[test]
fn an_edition_is_asked_for() {
    for kind in KINDS {
        let line = any_words(kind.name).join(" ");
        let read = |ending: &str| super::request([&line, ending].concat().as_bytes());
        if !["plan", "send", "recv", "hsend", "hrecv"].contains(&kind.name) {
            assert_eq!(read(" ed=1").err(), Some(Fault::Words), "{line}");
            continue;
        }
        for (ending, ed) in [
            ("", 1),
            (" ed=0", 0),
            (" ed=2", 2),
            (" ed=003", 3),
            (" ed=2 # ed=1", 2),
            (" ed=18446744073709551615", u64::MAX),
        ] {
            let (_, given) = read(ending).unwrap().unwrap();
            assert_eq!(given.number_of("ed"), ed, "{line}{ending}");
        }
        for ending in [
            " ed=",
            " ed=-",
            " ed=x",
            " ed=2=",
            " ed=18446744073709551616",
        ] {
            assert_eq!(read(ending).err(), Some(Fault::Number), "{line}{ending}");
        }
        for ending in [" ed=2 ed=2", " ED=2", " ed", " edition=2", " ed=x type=2"] {
            assert_eq!(read(ending).err(), Some(Fault::Words), "{line}{ending}");
        }
        let is_plan = kind.name == "plan";
        assert_eq!(read(" rv=1 ed=2").is_ok(), !is_plan, "{line}");
    }
}

#[test]
fn a_type_is_1_where_it_is_left_out() {
    for (ending, coding, rv) in [
        ("", 1, 0),
        (" type=2", 2, 0),
        (" rv=3 type=0", 0, 3),
        (" type=18446744073709551615 rv=4", u64::MAX, 4),
    ] {
        let line = format!("rate 0 0 0{ending}");
        let (_, given) = super::request(line.as_bytes()).unwrap().unwrap();
        assert_eq!(
            (given.number_of("type"), given.number_of("rv")),
            (coding, rv)
        );
    }
    assert_eq!(request(b"rate 0 0 0 type=q rv="), Err(Fault::Number));
    assert_eq!(request(b"rate 0 0 0 type=1 type=1"), Err(Fault::Words));
}

#[test]
fn a_checker_is_asked_for_behind_all_other_words() {
    for name in CHECKING {
        let words = any_words(name);
        for place in 1..words.len() {
            let mut more = words.clone();
            more.insert(place, "by=plain".to_string());
            let line = more.join(" ");
            assert_eq!(request(line.as_bytes()), Err(Fault::Words), "{line}");
        }
        // In the place of another word it is a word like any other.
        for place in 1..words.len() - 1 {
            let mut other = words.clone();
            other[place] = "by=plain".to_string();
            let read = request(other.join(" ").as_bytes());
            assert!(!matches!(read, Ok(_) | Err(Fault::Words)), "{other:?}");
        }
    }
}

#[test]
fn words_go_before_what_an_optional_word_holds() {
    assert_eq!(request(b"check q q q by=slow"), Err(Fault::Hex));
    assert_eq!(request(b"check 00 q q by=slow"), Err(Fault::Number));
    assert_eq!(request(b"check 00 2 q by=slow"), Err(Fault::Bits));
    assert_eq!(request(b"check 00 2 0 by=slow"), Err(Fault::Words));
    // An unknown or doubled one goes before them.
    assert_eq!(request(b"check q q q rv=0"), Err(Fault::Words));
    assert_eq!(request(b"check q q q by=plain by=plain"), Err(Fault::Words));
}

#[test]
fn the_name_is_no_optional_word() {
    for line in [
        &b"rv=0"[..],
        b"crc=1",
        b"rv=0 by=quick",
        b"=",
        b"q=0 8 1 rv=0",
    ] {
        assert_eq!(request(line), Err(Fault::Request));
    }
    assert_eq!(request(b"crc rv=0"), Err(Fault::Words));
}

#[test]
fn a_tenant_and_a_profile_fit_into_two_octets() {
    for line in [
        &b"lookup - - 65536 0"[..],
        b"lookup - - 1 65536",
        b"put - 65536 0 - 0",
        b"put - 1 65536 - 0",
        b"remove - 65536 0 0",
        b"remove - 1 65536 0",
    ] {
        assert_eq!(request(line), Err(Fault::Number));
    }
}

#[test]
fn a_block_has_room_for_4_096_octets() {
    let asked = |digits: usize| {
        let block = vec![b'0'; digits];
        request(&[b"send 00 ", &block[..], b" 1 2 128 128"].concat())
    };
    assert!(asked(2 * BLOCK_ROOM).is_ok());
    assert_eq!(asked(2 * BLOCK_ROOM - 1), Err(Fault::Hex));
    assert_eq!(asked(2 * BLOCK_ROOM + 1), Err(Fault::Long));
}

#[test]
fn a_record_and_packed_octets_have_room_for_70_000() {
    for name in [&b"profile "[..], b"crcoct 8 "] {
        let asked = |digits: usize| request(&[name, &vec![b'0'; digits]].concat());
        assert!(asked(2 * SHELF_ROOM).is_ok());
        assert_eq!(asked(2 * SHELF_ROOM - 1), Err(Fault::Hex));
        assert_eq!(asked(2 * SHELF_ROOM + 1), Err(Fault::Long));
    }
    for (before, behind) in [
        (&b"put "[..], &b" 1 7 - 0"[..]),
        (b"put - 1 7 ", b" 0"),
        (b"remove ", b" 1 7 0"),
    ] {
        let asked = |digits: usize| request(&[before, &vec![b'0'; digits], behind].concat());
        assert!(asked(2 * SHELF_ROOM).is_ok());
        assert_eq!(asked(2 * SHELF_ROOM - 1), Err(Fault::Hex));
        assert_eq!(asked(2 * SHELF_ROOM + 1), Err(Fault::Long));
    }
}

#[test]
fn every_request_has_its_count_of_words() {
    for (name, count) in [
        ("crc", 2),
        ("crc24b", 1),
        ("crcoct", 2),
        ("crcm", 3),
        ("crcappend", 4),
        ("crctest", 3),
        ("profile", 1),
        ("plan", 2),
        ("encode", 4),
        ("check", 3),
        ("sums", 4),
        ("rate", 3),
        ("send", 6),
        ("recv", 6),
        ("lookup", 4),
        ("hsend", 9),
        ("hrecv", 9),
        ("hcheck", 6),
        ("put", 5),
        ("remove", 4),
        ("tbenc", 2),
        ("tbrm", 4),
        ("tbsend", 3),
        ("tbback", 3),
        ("near", 3),
    ] {
        for words in (0..12).filter(|&words| words != count) {
            let line = [name, &" 0".repeat(words)].concat();
            assert_eq!(request(line.as_bytes()), Err(Fault::Words), "{line}");
        }
        let line = [name, &" q".repeat(count)].concat();
        assert_ne!(request(line.as_bytes()), Err(Fault::Words), "{line}");
    }
}

#[test]
fn blank_lines_and_comments_have_no_answer() {
    for line in [
        &b""[..],
        b" ",
        b"    ",
        b"#",
        b"# crc 8 1",
        b"#crc",
        b" #",
        b"   # crc 8 1",
    ] {
        assert_eq!(request(line), Ok(None));
    }
}

#[test]
fn a_comment_ends_a_request() {
    for line in [
        &b"crc 8 1 #"[..],
        b"crc 8 1 # comment",
        b"crc 8 1    # comment",
        b"crc 8 1 #comment # again",
        b"crc 8 1 #\xff",
    ] {
        assert_eq!(request(line), crc(8, &[1]));
    }
}

#[test]
fn a_comment_begins_after_a_space() {
    assert_eq!(request(b"crc 8 1#"), Err(Fault::Bits));
    assert_eq!(request(b"crc 8# 1"), Err(Fault::Number));
    assert_eq!(request(b"crc# 8 1"), Err(Fault::Request));
    assert_eq!(request(b"crc 8 #1"), Err(Fault::Words));
    assert_eq!(request(b"crc #8 1"), Err(Fault::Words));
}

#[test]
fn spaces_at_the_end_are_dropped() {
    assert_eq!(request(b"crc 8 1 "), crc(8, &[1]));
    assert_eq!(request(b"crc 8 1     "), crc(8, &[1]));
    assert_eq!(request(b"crc 8 "), Err(Fault::Words));
}

#[test]
fn only_a_space_separates() {
    assert_eq!(request(b"crc\t8 1"), Err(Fault::Request));
    assert_eq!(request(b"crc 8\t1"), Err(Fault::Words));
    assert_eq!(request(b"crc 8 1\t"), Err(Fault::Bits));
    assert_eq!(request(b"crc 8 1\r"), Err(Fault::Bits));
    assert_eq!(request(b"\t"), Err(Fault::Request));
    assert_eq!(request(b"\r"), Err(Fault::Request));
}

#[test]
fn the_first_word_names_the_request() {
    for line in [
        &b"CRC 8 1"[..],
        b"cr 8 1",
        b"crcc 8 1",
        b"8 1",
        b"x",
        b" crc 8 1",
        b"  crc 8 1",
        b"\xff",
        b"crc\0 8 1",
    ] {
        assert_eq!(request(line), Err(Fault::Request));
    }
}

#[test]
fn words_are_counted_before_they_are_read() {
    for line in [
        &b"crc"[..],
        b"crc 8",
        b"crc q",
        b"crc 8 1 1",
        b"crc q q q",
        b"crc  8 1",
        b"crc 8  1",
        b"crc  8",
        b"crc   8",
    ] {
        assert_eq!(request(line), Err(Fault::Words));
    }
}

#[test]
fn words_are_looked_at_from_left_to_right() {
    assert_eq!(request(b"crc q q"), Err(Fault::Number));
    assert_eq!(request(b"crc 18446744073709551616 q"), Err(Fault::Number));
    assert_eq!(request(b"crc 18446744073709551615 q"), Err(Fault::Bits));
    let long = [&b"crc q "[..], &vec![b'1'; BITS_ROOM + 1]].concat();
    assert_eq!(request(&long), Err(Fault::Number));
    let long = [&b"crc 7 "[..], &vec![b'1'; BITS_ROOM + 1]].concat();
    assert_eq!(request(&long), Err(Fault::Long));
}

#[test]
fn words_of_every_kind_are_looked_at_from_left_to_right() {
    let words = ["q", "q", "q", "140001"];
    let good = ["00", "0", "0", "0"];
    let errors = [Fault::Hex, Fault::Number, Fault::Bits, Fault::Long];
    for (place, &error) in errors.iter().enumerate() {
        let line = [&["encode"], &good[..place], &words[place..]].concat();
        assert_eq!(request(line.join(" ").as_bytes()), Err(error));
    }
}

#[test]
fn words_of_what_is_put_are_looked_at_from_left_to_right() {
    let words = ["q", "65536", "q", "0", "140001"];
    let good = ["00", "0", "0", "00", "0"];
    let errors = [
        Fault::Hex,
        Fault::Number,
        Fault::Number,
        Fault::Hex,
        Fault::Long,
    ];
    for (place, &error) in errors.iter().enumerate() {
        let line = [&["put"], &good[..place], &words[place..]].concat();
        assert_eq!(request(line.join(" ").as_bytes()), Err(error));
    }
}

#[test]
fn a_line_has_room_for_its_octets() {
    assert_eq!(request(&padded(b"crc 8 1", LINE_ROOM)), crc(8, &[1]));
    assert_eq!(request(&padded(b"crc 8 1 #", LINE_ROOM)), crc(8, &[1]));
    assert_eq!(request(&padded(b"", LINE_ROOM)), Ok(None));
    assert_eq!(request(&padded(b"# comment", LINE_ROOM)), Ok(None));
}

#[test]
fn the_length_of_a_line_goes_before_what_stands_in_it() {
    for text in [&b"crc 8 1"[..], b"crc 8 1 # comment", b"q", b"", b" #"] {
        assert_eq!(request(&padded(text, LINE_ROOM + 1)), Err(Fault::Long));
    }
}

#[test]
fn a_comment_may_have_any_length() {
    assert_eq!(request(&padded(b"# comment", LINE_ROOM + 1)), Ok(None));
}
