//! Requests `lookup`, `hsend`, `hrecv` and `hcheck`: records found on either shelf, and each refusal.

use super::makers::Makers;
use super::parity::{self, Block};
use super::records::{like, to_cut};
use super::recv::{self, Receiving};
use super::send::{self, Sending};
use super::shelf::{any_record, of_length, refused_record, Shelves};
use super::write::{self, Words};
use crate::draft::Draft;
use crate::random::Random;
use crate::samples::TOY;

pub const LOOKUP: Makers = Makers {
    done: |random| {
        let octets = send::octets(random.pick(&[0, 1, 5, 20]), random);
        lookup(&Shelves::with(&octets, random), random)
    },
    refused: |random| {
        let mut shelves = Shelves::with(&TOY, random);
        shelves.spoil(random);
        lookup(&shelves, random)
    },
    large: &[
        |random| lookup(&of_length(65_535, random), random),
        |random| lookup(&of_length(65_536, random), random),
        |random| lookup(&on_the_other_side(of_length(65_535, random)), random),
        |random| lookup(&on_the_other_side(of_length(65_536, random)), random),
        |random| lookup(&of_length(70_000, random), random),
    ],
};

pub const HSEND: Makers = Makers {
    done: |random| {
        let draft = to_cut(random);
        let sending = Sending::drawn(&draft, random);
        hsend(&Shelves::with(&draft.octets(), random), &sending, random)
    },
    refused: |random| {
        let (record, sending) = send::refused(random);
        let shelves = refused_shelves(&record, Shelves::with, random);
        hsend(&shelves, &sending, random)
    },
    large: &[],
};

pub const HRECV: Makers = Makers {
    done: |random| {
        let draft = to_cut(random);
        let receiving = Receiving::drawn(&draft, random);
        hrecv(&Shelves::with(&draft.octets(), random), &receiving, random)
    },
    refused: |random| {
        let (record, receiving) = recv::refused(random);
        let shelves = refused_shelves(&record, Shelves::with, random);
        hrecv(&shelves, &receiving, random)
    },
    large: &[],
};

pub const HCHECK: Makers = Makers {
    done: |random| {
        let word = parity::word(random);
        let shelves = shelves_for_words(&word.record, &word.draft, random);
        hcheck(&shelves, &word, random)
    },
    refused: |random| {
        let word = parity::refused_word(random);
        let with =
            |record: &[u8], random: &mut Random| shelves_for_words(record, &word.draft, random);
        hcheck(&refused_shelves(&word.record, with, random), &word, random)
    },
    large: &[],
};

/// Shelves on which the record is found. Where it could be looked for wrongly there mostly stands one
/// that takes words of the same lengths as the draft, so that no refusal tells the two apart.
fn shelves_for_words(record: &[u8], draft: &Draft, random: &mut Random) -> Shelves {
    let wrong = |random: &mut Random| match random.below(3) {
        0 => any_record(random),
        _ => like(draft, random).octets(),
    };
    Shelves::with_few(record, wrong, random)
}

/// The shelves of a request that is refused: they are the reason, or the record is, or neither.
fn refused_shelves(
    record: &[u8],
    with: impl FnOnce(&[u8], &mut Random) -> Shelves,
    random: &mut Random,
) -> Shelves {
    let mut shelves = match random.below(6) {
        0 => with(&refused_record(random), random),
        _ => with(record, random),
    };
    if random.one_in(3) {
        shelves.spoil(random);
    }
    shelves
}

/// The long shelf as the public one.
fn on_the_other_side(mut shelves: Shelves) -> Shelves {
    std::mem::swap(&mut shelves.private, &mut shelves.public);
    // The tenants of the three entries.
    for entry in 0..3 {
        shelves.public[2 + 8 * entry..4 + 8 * entry].fill(0);
    }
    shelves
}

fn lookup(shelves: &Shelves, random: &mut Random) -> Words {
    shelves.words(random)
}

fn hsend(shelves: &Shelves, sending: &Sending, random: &mut Random) -> Words {
    [shelves.words(random), sending.words(random)].concat()
}

fn hrecv(shelves: &Shelves, receiving: &Receiving, random: &mut Random) -> Words {
    [shelves.words(random), receiving.words(random)].concat()
}

fn hcheck(shelves: &Shelves, word: &Block, random: &mut Random) -> Words {
    let mut words = [shelves.words(random), word.words(random)].concat();
    words.extend(write::checker(random));
    words
}

#[cfg(test)]
mod tests {
    use super::{hcheck, parity, shelves_for_words, write, Block, Shelves};
    use crate::answer::answer;
    use crate::random::Random;

    fn answered(shelves: &Shelves, word: &Block, random: &mut Random) -> String {
        let words = write::request("hcheck", hcheck(shelves, word, random));
        answer(&write::line(&words)).unwrap()
    }

    #[test]
    fn a_word_shows_with_which_shelf_it_was_checked() {
        let mut random = Random::new(1);
        let mut shown = 0;
        for _ in 0..1000 {
            let word = parity::word(&mut random);
            let mut shelves = shelves_for_words(&word.record, &word.draft, &mut random);
            let right = answered(&shelves, &word, &mut random);
            assert!(["0 0", "0 1"].contains(&&right[..]), "{right}");
            // No record of the tenant's own.
            shelves.private = vec![0, 0];
            let wrong = answered(&shelves, &word, &mut random);
            shown += usize::from(wrong.starts_with("0 ") && wrong != right);
        }
        assert!(shown > 40, "{shown}");
    }
}
