//! The generated requests of the second implementation, good, refused and very long ones, through the
//! safe calls: every answer is the second's.

use std::collections::BTreeMap;

use kuambyte::{
    checksum, control, rate_match, Checker, CodedBits, Edition, Layers, Mask, Octets, Order,
    Profile, ProfileNumber, RedundancyVersion, Refusal, Shelf, Shelves, Side, Size, Tenant, Terms,
    Type, Width, WordLength,
};
use second::errors::Fault;
use second::form::Given;
use second::kinds::parts::{digits, hex, hex_of_bits, tested, written};
use second::kinds::{Kind, KINDS};
use second::lines::next_line;
use second::numbers::Number;
use second::requests::request;

/// Lines of each kind and seed: KUAMBYTE_LINES, or these.
const LINES: u64 = 600;
const SEEDS: [u64; 3] = [11, 12, 13];

/// What the safe calls say to a request.
enum Said {
    /// The line that answers it.
    Line(Result<String, Fault>),
    /// The types cannot ask it; one of these numbers is what the service answers.
    Unaskable(&'static [u32]),
}

#[test]
fn every_kind_is_answered_as_the_second_answers() {
    let lines = std::env::var("KUAMBYTE_LINES").map_or(LINES, |text| text.parse().unwrap());
    let mut counts = BTreeMap::new();
    for kind in KINDS {
        for seed in SEEDS {
            compare(kind, seed, lines, &mut counts);
        }
    }
    println!("answers by number, and what the types shut out: {counts:?}");
    for refusal in Refusal::ALL {
        let count = counts.get(&refusal.number().to_string());
        assert!(count > Some(&0), "{refusal:?} was never answered");
    }
}

fn compare(kind: &'static Kind, seed: u64, lines: u64, counts: &mut BTreeMap<String, usize>) {
    let mut text = Vec::new();
    second::generate::generate(&[kind], seed, lines, &mut text).unwrap();
    let mut input = &text[..];
    while let Some(line) = next_line(&mut input).unwrap() {
        // A line that is no request is not for the calls.
        let Ok(Some((kind, given))) = request(&line) else {
            continue;
        };
        let wanted = (kind.answer)(again(&line)).unwrap();
        let number = wanted.split(' ').next().unwrap().to_string();
        let counted = match said(kind.name, given) {
            Said::Line(answer) => {
                let answer = answer.unwrap();
                assert_eq!(answer, wanted, "{}", start_of(&line));
                number
            }
            Said::Unaskable(numbers) => {
                let known = numbers.iter().any(|known| known.to_string() == number);
                assert!(known, "{number}: {}", start_of(&line));
                "unaskable".to_string()
            }
        };
        *counts.entry(counted).or_default() += 1;
    }
}

fn again(line: &[u8]) -> Given {
    request(line).unwrap().unwrap().1
}

fn start_of(line: &[u8]) -> String {
    String::from_utf8_lossy(&line[..line.len().min(400)]).into_owned()
}

fn said(name: &str, mut given: Given) -> Said {
    let given = &mut given;
    Said::Line(match name {
        "crc" | "crcoct" | "crcm" | "crcappend" | "crctest" => return summed(name, given),
        "recv" => return received(given),
        "hrecv" => return hosted_received(given),
        "crc24b" => Ok(summing(checksum::of_block_bits(&given.octets()))),
        "profile" => Ok(match Profile::new(&given.octets()) {
            Ok(_) => "0".to_string(),
            Err(refusal) => refusal.number().to_string(),
        }),
        "plan" => Ok(plan(given)),
        "encode" => coded(given),
        "check" => Ok(tested(checked(given).map_err(number_for))),
        "sums" => row_sums(given),
        "rate" => rate(given),
        "send" => sent(given),
        "lookup" => Ok(looked_up(given)),
        "hsend" => hosted_sent(given),
        "hcheck" => Ok(tested(hosted_checked(given).map_err(number_for))),
        "put" => put(given),
        "remove" => removed(given),
        "tbenc" => word_coded(given),
        "tbrm" => matched(given),
        "tbsend" => word_sent(given),
        "tbback" => back(given),
        "near" => nearest(given),
        _ => panic!("the kind {name} is compared nowhere here"),
    })
}

/// The octets of the wrapper's answer are the front of what it was lent.
fn wrote(answer: Result<&mut [u8], Refusal>) -> Result<usize, Number> {
    answer.map(|octets| octets.len()).map_err(number_for)
}

fn number_for(refusal: Refusal) -> Number {
    refusal.number().try_into().unwrap()
}

fn number(given: &mut Given) -> usize {
    given.number().try_into().unwrap()
}

fn number_of(given: &Given, name: &str) -> usize {
    given.number_of(name).try_into().unwrap()
}

fn width(number: usize) -> Option<Width> {
    match number {
        8 => Some(Width::Eight),
        16 => Some(Width::Sixteen),
        24 => Some(Width::TwentyFour),
        _ => None,
    }
}

fn terms(layers: usize, order: usize, given: &Given) -> Terms {
    Terms {
        layers: Layers(layers),
        order: Order(order),
        rv: RedundancyVersion(number_of(given, "rv")),
        edition: Edition(number_of(given, "ed")),
    }
}

fn checker(given: &Given) -> Checker {
    match given.alternative_of("by") {
        "plain" => Checker::Plain,
        _ => Checker::Quick,
    }
}

fn summing(sum: Result<kuambyte::Checksum, Refusal>) -> String {
    match sum {
        Ok(sum) => format!("0 {:x}", sum.0),
        Err(refusal) => format!("{} 0", refusal.number()),
    }
}

/// A width is one of three types' values, so 8 cannot be asked for.
fn summed(name: &str, given: &mut Given) -> Said {
    let Some(width) = width(number(given)) else {
        return Said::Unaskable(&[8]);
    };
    Said::Line(match name {
        "crc" => Ok(summing(checksum::of_bits(width, &given.octets()))),
        "crcoct" => Ok(summing(Ok(checksum::of_octets(width, &given.octets())))),
        "crcm" => {
            let mask = Mask(given.number());
            Ok(summing(checksum::under(width, mask, &given.octets())))
        }
        "crctest" => {
            let mask = Mask(given.number());
            let holds = checksum::test_under(width, mask, &given.octets());
            Ok(tested(holds.map_err(number_for)))
        }
        _ => {
            let (mask, bits) = (Mask(given.number()), given.octets());
            written(given.length(), hex_of_bits, |out| {
                wrote(checksum::append_under(width, mask, &bits, out))
            })
        }
    })
}

fn plan(given: &mut Given) -> String {
    let (record, block) = (given.octets(), Octets(number(given)));
    let edition = Edition(number_of(given, "ed"));
    match Profile::new(&record).and_then(|profile| profile.plan(edition, block)) {
        Ok(plan) => format!(
            "0 {} {} {} {} {}",
            plan.bits, plan.blocks, plan.places, plan.z, plan.sums
        ),
        Err(refusal) => format!("{} 0 0 0 0 0", refusal.number()),
    }
}

fn coded(given: &mut Given) -> Result<String, Fault> {
    let (record, z, places) = (given.octets(), Size(number(given)), given.octets());
    written(given.length(), digits, |out| {
        let profile = Profile::new(&record).map_err(number_for)?;
        wrote(profile.code_block(z, &places, out))
    })
}

fn checked(given: &mut Given) -> Result<bool, Refusal> {
    let (record, z, word) = (given.octets(), Size(number(given)), given.octets());
    Profile::new(&record)?.check_word_by(z, &word, checker(given))
}

fn row_sums(given: &mut Given) -> Result<String, Fault> {
    let (record, z, word) = (given.octets(), Size(number(given)), given.octets());
    written(given.length(), digits, |out| {
        let profile = Profile::new(&record).map_err(number_for)?;
        wrote(profile.row_sums(z, &word, out))
    })
}

fn rate(given: &mut Given) -> Result<String, Fault> {
    let (e, places) = (CodedBits(number(given)), given.octets());
    let kind = Type(number_of(given, "type"));
    let rv = RedundancyVersion(number_of(given, "rv"));
    written(given.length(), hex_of_bits, |out| {
        wrote(rate_match(&places, kind, rv, e, out))
    })
}

fn sent(given: &mut Given) -> Result<String, Fault> {
    let (record, block) = (given.octets(), given.octets());
    let terms = terms(number(given), number(given), given);
    let g = CodedBits(number(given));
    written(given.length(), hex_of_bits, |out| {
        let profile = Profile::new(&record).map_err(number_for)?;
        wrote(profile.send(&block, terms, g, out))
    })
}

/// The shelves, and who asks for what.
struct Asked {
    private: Vec<u8>,
    public: Vec<u8>,
    tenant: Tenant,
    profile: ProfileNumber,
}

impl Asked {
    fn of(given: &mut Given) -> Asked {
        Asked {
            private: given.octets(),
            public: given.octets(),
            tenant: Tenant(given.short()),
            profile: ProfileNumber(given.short()),
        }
    }

    fn shelves(&self) -> Shelves<'_> {
        Shelves {
            private: Shelf::private(&self.private),
            public: Shelf::public(&self.public),
        }
    }
}

/// A NL QM BITS OUTLEN rv=0 ed=1 by=quick|plain.
struct Heard {
    a: usize,
    terms: Terms,
    bits: Vec<u8>,
    checker: Checker,
    length: usize,
}

impl Heard {
    fn of(given: &mut Given) -> Heard {
        Heard {
            a: number(given),
            terms: terms(number(given), number(given), given),
            bits: given.octets(),
            checker: checker(given),
            length: given.length(),
        }
    }

    /// What a call says to the block in octets. An A that is no multiple of 8 cannot be asked for:
    /// 7, or what comes before it.
    fn said(&self, call: impl FnOnce(Octets, &mut [u8]) -> Result<usize, Number>) -> Said {
        if self.a % 8 != 0 {
            return Said::Unaskable(&[1, 2, 3, 4, 5, 6, 19, 7]);
        }
        Said::Line(written(self.length, hex, |out| {
            call(Octets(self.a / 8), out)
        }))
    }
}

fn received(given: &mut Given) -> Said {
    let (record, heard) = (given.octets(), Heard::of(given));
    heard.said(|block, out| {
        let profile = Profile::new(&record).map_err(number_for)?;
        wrote(profile.receive_by(block, heard.terms, &heard.bits, heard.checker, out))
    })
}

fn hosted_received(given: &mut Given) -> Said {
    let (asked, heard) = (Asked::of(given), Heard::of(given));
    let (tenant, profile, terms) = (asked.tenant, asked.profile, heard.terms);
    heard.said(|block, out| {
        let shelves = asked.shelves();
        wrote(shelves.receive_by(
            tenant,
            profile,
            block,
            terms,
            &heard.bits,
            heard.checker,
            out,
        ))
    })
}

fn looked_up(given: &mut Given) -> String {
    let asked = Asked::of(given);
    match asked.shelves().lookup(asked.tenant, asked.profile) {
        Ok(found) => {
            let (name, octets) = match found.side {
                Side::Private => ("private", &asked.private),
                Side::Public => ("public", &asked.public),
            };
            let end = found.start + found.record.len();
            assert!(
                std::ptr::eq(found.record, &octets[found.start..end]),
                "no copy"
            );
            format!("0 {name} {} {}", found.start, found.record.len())
        }
        Err(refusal) => format!("{} public 0 0", refusal.number()),
    }
}

fn hosted_sent(given: &mut Given) -> Result<String, Fault> {
    let (asked, block) = (Asked::of(given), given.octets());
    let terms = terms(number(given), number(given), given);
    let g = CodedBits(number(given));
    written(given.length(), hex_of_bits, |out| {
        let (tenant, profile) = (asked.tenant, asked.profile);
        wrote(asked.shelves().send(tenant, profile, &block, terms, g, out))
    })
}

fn hosted_checked(given: &mut Given) -> Result<bool, Refusal> {
    let (asked, z, word) = (Asked::of(given), Size(number(given)), given.octets());
    let checker = checker(given);
    asked
        .shelves()
        .check_word_by(asked.tenant, asked.profile, z, &word, checker)
}

fn put(given: &mut Given) -> Result<String, Fault> {
    let private = given.octets();
    let (tenant, profile) = (Tenant(given.short()), ProfileNumber(given.short()));
    let record = given.octets();
    written(given.length(), hex, |out| {
        wrote(Shelf::private(&private).put(tenant, profile, &record, out))
    })
}

fn removed(given: &mut Given) -> Result<String, Fault> {
    let private = given.octets();
    let (tenant, profile) = (Tenant(given.short()), ProfileNumber(given.short()));
    written(given.length(), hex, |out| {
        wrote(Shelf::private(&private).remove(tenant, profile, out))
    })
}

fn word_coded(given: &mut Given) -> Result<String, Fault> {
    let word = given.octets();
    written(given.length(), hex_of_bits, |out| {
        wrote(control::code_word(&word, out))
    })
}

fn matched(given: &mut Given) -> Result<String, Fault> {
    let (d, streams) = (WordLength(number(given)), given.octets());
    let e = CodedBits(number(given));
    written(given.length(), hex_of_bits, |out| {
        wrote(control::match_streams(d, &streams, e, out))
    })
}

fn word_sent(given: &mut Given) -> Result<String, Fault> {
    let (word, e) = (given.octets(), CodedBits(number(given)));
    written(given.length(), hex_of_bits, |out| {
        wrote(control::send_word(&word, e, out))
    })
}

fn back(given: &mut Given) -> Result<String, Fault> {
    let (d, bits) = (WordLength(number(given)), given.octets());
    written(given.length(), hex_of_bits, |out| {
        wrote(control::streams_of(d, &bits, out))
    })
}

fn nearest(given: &mut Given) -> Result<String, Fault> {
    let (d, heard) = (WordLength(number(given)), given.octets());
    let mut differences = 0;
    let text = written(given.length(), hex_of_bits, |out| {
        let nearest = control::nearest_word(d, &heard, out).map_err(number_for)?;
        differences = nearest.differences;
        Ok(nearest.word.len())
    })?;
    Ok(format!("{text} {differences}"))
}
