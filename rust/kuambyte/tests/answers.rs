//! Every refusal by a call that answers it, outputs one octet short, nothing at all, and the words and
//! the version that include/kuambyte.h has.

use kuambyte::rules::{broken_record, RecordRule, ShelfRule};
use kuambyte::{
    checksum, control, rate_match, Checksum, CodedBits, Edition, Layers, Mask, Octets, Order,
    Profile, ProfileNumber, RedundancyVersion, Refusal, Shelf, Shelves, Side, Size, Tenant, Terms,
    Type, Width, WordLength,
};

const HEADER: &str = include_str!("../../../include/kuambyte.h");

/// The toy record of document 02, CR 3.
const TOY: [u8; 26] = [
    0, 1, 0, 3, 0, 0, 0, 1, 0, 1, 0, 2, 0, 14, 0, 1, 0, 255, 1, 0, 0, 0, 255, 1, 255, 0,
];

const TERMS: Terms = Terms {
    layers: Layers(1),
    order: Order(2),
    rv: RedundancyVersion(0),
    edition: Edition::ONE,
};

fn toy() -> Profile<'static> {
    Profile::new(&TOY).unwrap()
}

/// The toy as profile 7 of tenant 1.
fn private() -> Vec<u8> {
    let mut out = vec![0xa5; 36];
    let record = (Tenant(1), ProfileNumber(7));
    let empty = Shelf::private(&[0, 0]);
    assert_eq!(
        empty.put(record.0, record.1, &TOY, &mut out).unwrap().len(),
        36
    );
    out
}

/// What a call answers where it is lent so many octets; they have to be as they were with a refusal.
fn lent<'a>(
    octets: usize,
    call: impl Fn(&mut [u8]) -> Result<usize, Refusal> + 'a,
) -> Result<usize, Refusal> {
    let mut out = vec![0xa5; octets];
    let answer = call(&mut out);
    let written = answer.unwrap_or(0);
    assert!(out[written..].iter().all(|&octet| octet == 0xa5));
    answer
}

/// The call writes so many octets, also where there is room for more, and is refused with one less.
fn takes<'a>(octets: usize, call: impl Fn(&mut [u8]) -> Result<usize, Refusal> + 'a) {
    assert_eq!(lent(octets, &call), Ok(octets));
    assert_eq!(lent(octets + 7, &call), Ok(octets));
    assert_eq!(lent(octets - 1, &call), Err(Refusal::ShortOutput));
    assert_eq!(lent(0, &call), Err(Refusal::ShortOutput));
}

fn sent(block: &[u8], terms: Terms, g: usize) -> Result<usize, Refusal> {
    lent(512, |out| {
        Ok(toy().send(block, terms, CodedBits(g), out)?.len())
    })
}

fn received(octets: usize, bits: &[u8]) -> Result<usize, Refusal> {
    lent(512, |out| {
        Ok(toy().receive(Octets(octets), TERMS, bits, out)?.len())
    })
}

#[test]
fn lookups() {
    let (own, none) = (private(), [0, 0]);
    let shelves = |private, public| Shelves {
        private: Shelf::private(private),
        public: Shelf::public(public),
    };
    let both = shelves(&own, &none);
    let found = both.lookup(Tenant(1), ProfileNumber(7)).unwrap();
    assert_eq!(
        (found.side, found.start, found.record),
        (Side::Private, 10, &TOY[..])
    );
    let asked = |shelves: Shelves, tenant| {
        shelves
            .lookup(Tenant(tenant), ProfileNumber(7))
            .unwrap_err()
    };
    assert_eq!(asked(both, 0), Refusal::TenantZero);
    assert_eq!(asked(shelves(&own[..35], &none), 1), Refusal::PrivateShelf);
    assert_eq!(asked(shelves(&own, &own), 1), Refusal::PublicShelf);
    assert_eq!(asked(both, 2), Refusal::NoRecord);
    assert_eq!(
        both.profile(Tenant(2), ProfileNumber(7)),
        Err(Refusal::NoRecord)
    );
}

#[test]
fn records() {
    assert_eq!(Profile::new(&TOY[..25]), Err(Refusal::Profile));
    let mut no_stairs = TOY;
    no_stairs[15] = 255;
    assert_eq!(Profile::new(&no_stairs), Err(Refusal::NoStaircase));
    assert_eq!(
        broken_record(&no_stairs).unwrap().rule,
        RecordRule::TopEmpty
    );
    assert_eq!(broken_record(&TOY), None);
    // A shift of 9 in row 1, column 0, where z is 2.
    let mut shifted = TOY;
    shifted[18] = 9;
    let broken = broken_record(&shifted).unwrap();
    assert_eq!((broken.rule, broken.table), (RecordRule::Entry, 0));
    assert_eq!((broken.row, broken.column, broken.at), (1, 0, 18));
    let place = "(table 0, row 1, column 0, octet 18)";
    assert!(broken.to_string().ends_with(place));
}

#[test]
fn sending() {
    assert_eq!(sent(&[1], TERMS, 128), Ok(128));
    let edition_3 = Terms {
        edition: Edition(3),
        ..TERMS
    };
    assert_eq!(sent(&[1], edition_3, 128), Err(Refusal::Edition));
    assert_eq!(sent(&[], TERMS, 128), Err(Refusal::BlockLength));
    let version_1 = Terms {
        rv: RedundancyVersion(1),
        ..TERMS
    };
    assert_eq!(sent(&[1], version_1, 128), Err(Refusal::RedundancyVersion));
    assert_eq!(sent(&[1], TERMS, 129), Err(Refusal::Parameter));
    assert_eq!(sent(&[0; 14], TERMS, 512), Err(Refusal::TooManyBlocks));
    assert_eq!(sent(&[1], TERMS, 30), Err(Refusal::TooFewPlaces));
    takes(128, |out| {
        Ok(toy().send(&[1], TERMS, CodedBits(128), out)?.len())
    });
}

#[test]
fn receiving() {
    let mut bits = [0; 128];
    toy().send(&[1], TERMS, CodedBits(128), &mut bits).unwrap();
    takes(1, |out| {
        Ok(toy().receive(Octets(1), TERMS, &bits, out)?.len())
    });
    assert_eq!(received(2049, &bits), Err(Refusal::BlockLength));
    assert_eq!(received(usize::MAX, &bits), Err(Refusal::BlockLength));
    assert_eq!(received(1, &bits[..126]), Err(Refusal::NoRoom));
    bits[5] ^= 1;
    assert_eq!(received(1, &bits), Err(Refusal::Unsent));
    bits[5] = 2;
    assert_eq!(received(1, &bits), Err(Refusal::NoBit));
}

#[test]
fn the_least_bits_have_room_and_no_fewer_have() {
    let least = toy().least_bits(Octets(1), TERMS).unwrap();
    assert_eq!(
        (least.g, least.blocks, least.larger),
        (CodedBits(128), 16, 0)
    );
    assert_eq!((least.first, least.last), (CodedBits(8), CodedBits(8)));
    let mut bits = [0; 126];
    toy().send(&[1], TERMS, CodedBits(126), &mut bits).unwrap();
    assert_eq!(received(1, &bits), Err(Refusal::NoRoom));
    let many = toy().least_bits(Octets(14), TERMS);
    assert_eq!(many, Err(Refusal::TooManyBlocks));
}

/// kb 20, m 3 and the sizes 1 and 2: 3 octets are cut into three blocks of 16 bits with 24 of
/// checksum each, so z is 2.
#[test]
fn a_plan_in_edition_2() {
    let mut record = vec![0, 20, 0, 3, 0, 0, 0, 1, 0, 2, 0, 1, 0, 18, 0, 2, 0, 87];
    for shift in [0, 1] {
        for staircase in [[shift, 0, 255], [0, 0, 0], [shift, 255, 0]] {
            record.extend_from_slice(&[0; 20]);
            record.extend_from_slice(&staircase);
        }
    }
    let profile = Profile::new(&record).unwrap();
    assert_eq!((profile.kb(), profile.m(), profile.x()), (20, 3, 0));
    assert_eq!(profile.kind(), Type::ONE);
    assert!(profile.sizes().eq([Size(1), Size(2)]));
    let plan = profile.plan(Edition::TWO, Octets(3)).unwrap();
    assert_eq!(
        (plan.bits, plan.kmax, plan.blocks, plan.places),
        (48, 40, 3, 40)
    );
    assert_eq!((plan.z, plan.index, plan.sums), (Size(2), 1, 24));
}

/// kb 2, m 3 and z 3: one octet is cut into six blocks, N is 15 in the first two and 14 in the others.
#[test]
fn the_least_bits_with_unequal_shares() {
    let record = [
        0, 2, 0, 3, 0, 0, 0, 1, 0, 1, 0, 3, 0, 14, 1, 2, 1, 0, 255, 255, 0, 0, 0, 0, 2, 255, 1,
        255, 0,
    ];
    let least = Profile::new(&record)
        .unwrap()
        .least_bits(Octets(1), TERMS)
        .unwrap();
    assert_eq!((least.g, least.blocks, least.larger), (CodedBits(88), 6, 2));
    assert_eq!((least.first, least.last), (CodedBits(16), CodedBits(14)));
}

#[test]
fn parts() {
    takes(8, |out| Ok(toy().code_block(Size(2), &[1, 2], out)?.len()));
    takes(6, |out| Ok(toy().row_sums(Size(2), &[0; 8], out)?.len()));
    assert_eq!(toy().check_word(Size(3), &[0; 8]), Err(Refusal::Parameter));
    let places = [1, 2, 0, 0];
    let rate = |out: &mut [u8]| {
        let sent = rate_match(&places, Type::ONE, RedundancyVersion(0), CodedBits(9), out)?;
        Ok(sent.len())
    };
    takes(9, rate);
    takes(17, |out| {
        let word = checksum::append_under(Width::Sixteen, Mask(0xffff), &[1], out)?;
        Ok(word.len())
    });
}

#[test]
fn control_words() {
    let word = [1, 0, 1, 1, 0, 0];
    takes(18, |out| Ok(control::code_word(&word, out)?.len()));
    takes(20, |out| {
        Ok(control::send_word(&word, CodedBits(20), out)?.len())
    });
    let mut streams = [0; 18];
    control::code_word(&word, &mut streams).unwrap();
    let d = WordLength(6);
    takes(18, |out| {
        Ok(control::match_streams(d, &streams, CodedBits(18), out)?.len())
    });
    takes(18, |out| Ok(control::streams_of(d, &streams, out)?.len()));
    takes(6, |out| {
        Ok(control::nearest_word(d, &streams, out)?.word.len())
    });
    let short = lent(512, |out| Ok(control::code_word(&word[..5], out)?.len()));
    assert_eq!(short, Err(Refusal::ControlLength));
}

#[test]
fn keeping() {
    let own = private();
    let shelf = Shelf::private(&own);
    takes(36, |out| {
        let record = (Tenant(1), ProfileNumber(7));
        Ok(shelf.put(record.0, record.1, &TOY, out)?.len())
    });
    takes(2, |out| {
        Ok(shelf.remove(Tenant(1), ProfileNumber(7), out)?.len())
    });
    // 64 empty records.
    let mut full = vec![0, 64];
    for profile in 0..64 {
        full.extend_from_slice(&[0, 1, 0, profile, 2, 2, 0, 0]);
    }
    let full = Shelf::private(&full);
    assert_eq!(full.broken(), None);
    let put = lent(600, |out| {
        Ok(full.put(Tenant(2), ProfileNumber(7), &TOY, out)?.len())
    });
    assert_eq!(put, Err(Refusal::FullShelf));
    let public = Shelf::public(&own).broken().unwrap();
    assert_eq!(
        (public.rule, public.entry, public.at),
        (ShelfRule::Tenant, 0, 2)
    );
}

/// Nothing is kept between calls, so threads that call at once do not meet.
#[test]
fn threads_at_once() {
    std::thread::scope(|scope| {
        for first in 0..4 {
            scope.spawn(move || {
                for octet in (first..=255u8).step_by(4) {
                    let (mut bits, mut block) = ([0; 128], [0]);
                    let sent = toy()
                        .send(&[octet], TERMS, CodedBits(128), &mut bits)
                        .unwrap();
                    let got = toy().receive(Octets(1), TERMS, sent, &mut block).unwrap();
                    assert_eq!(got, [octet]);
                }
            });
        }
    });
}

#[test]
fn nothing_at_all() {
    assert_eq!(Profile::new(&[]), Err(Refusal::Profile));
    assert_eq!(checksum::of_bits(Width::Eight, &[]), Ok(Checksum(0)));
    assert_eq!(checksum::of_octets(Width::TwentyFour, &[]), Checksum(0));
    assert_eq!(checksum::test_under(Width::Eight, Mask(0), &[]), Ok(false));
    assert_eq!(
        Shelf::public(&[]).broken().unwrap().rule,
        ShelfRule::NoCount
    );
    let none = rate_match(&[], Type::ONE, RedundancyVersion(0), CodedBits(0), &mut [])
        .map(|out| out.len());
    assert_eq!(none, Ok(0));
}

/// The numbers of an enum of the header and the words behind them: `NAME = 4, /* words */`.
fn numbered(name: &str) -> Vec<(u32, &'static str)> {
    let (_, rest) = HEADER.split_once(&format!("enum {name} {{")).unwrap();
    let (body, _) = rest.split_once("};").unwrap();
    let line = |line: &'static str| {
        let (_, rest) = line.split_once(" = ")?;
        let (number, words) = rest.split_once("/*")?;
        let number = number.trim().trim_end_matches(',').parse().ok()?;
        Some((number, words.strip_suffix("*/")?.trim()))
    };
    body.lines().filter_map(line).collect()
}

#[test]
fn numbers_and_words_are_the_header_s() {
    let numbers = numbered("kuambyte_number");
    let of = |refusal: &Refusal| (refusal.number(), refusal.meaning());
    let refusals: Vec<_> = Refusal::ALL.iter().map(of).collect();
    assert_eq!(numbers[0], (0, "done"));
    assert_eq!(numbers[1..], refusals);
    for number in 0..40 {
        let known = refusals.iter().any(|&(known, _)| known == number);
        assert_eq!(Refusal::from_number(number).is_some(), known);
    }
    let rules = |name| {
        let of = |(_, words)| words;
        numbered(name)
            .into_iter()
            .skip(1)
            .map(of)
            .collect::<Vec<_>>()
    };
    let of_shelf: Vec<_> = ShelfRule::ALL.iter().map(|rule| rule.words()).collect();
    assert_eq!(rules("kuambyte_shelf_rule"), of_shelf);
    let of_record: Vec<_> = RecordRule::ALL.iter().map(|rule| rule.words()).collect();
    assert_eq!(rules("kuambyte_record_rule"), of_record);
}

#[test]
fn the_version_is_the_header_s() {
    let line = format!(
        "#define KUAMBYTE_VERSION \"{}\"\n",
        env!("CARGO_PKG_VERSION")
    );
    assert!(HEADER.contains(&line));
}
