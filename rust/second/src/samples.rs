//! Records that are known from the documents: the toy, and Type 1 tables of 5G.212 v2.3. For tests also
//! the toy spoiled, a small record of z 5, single bits, and an empty folder.

use crate::draft::{with_staircase, Draft, Rows, EMPTY};
#[cfg(test)]
use crate::{draft::with_extension, octets::unpacked, random::Random};

/// The toy record of document 01, "Small profile and worked numbers", in the form of document 02, CR 3.
pub const TOY: [u8; 26] = [
    0x00, 0x01, 0x00, 0x03, 0x00, 0x00, 0x00, 0x01, 0x00, 0x01, 0x00, 0x02, 0x00, 0x0e, 0x00, 0x01,
    0x00, 0xff, 0x01, 0x00, 0x00, 0x00, 0xff, 0x01, 0xff, 0x00,
];

/// Table 5.1.3.2-2, rate 5/6, for Z 27, 54 and 81. Every row has its 24 numbers.
const FIVE_SIXTHS: [&str; 3] = [
    "17 13 8 21 9 3 18 12 10 0 4 15 19 2 5 10 26 19 13 13 1 0 -1 -1
     3 12 11 14 11 25 5 18 0 9 2 26 26 10 24 7 14 20 4 2 -1 0 0 -1
     22 16 4 3 10 21 12 5 21 14 19 5 -1 8 5 18 11 5 5 15 0 -1 0 0
     7 7 14 14 4 16 16 24 24 10 1 7 15 6 10 26 8 18 21 14 1 -1 -1 0",
    "48 29 37 52 2 16 6 14 53 31 34 5 18 42 53 31 45 -1 46 52 1 0 -1 -1
     17 4 30 7 43 11 24 6 14 21 6 39 17 40 47 7 15 41 19 -1 -1 0 0 -1
     7 2 51 31 46 23 16 11 53 40 10 7 46 53 33 35 -1 25 35 38 0 -1 0 0
     19 48 41 1 10 7 36 47 5 29 52 52 31 10 26 6 3 2 -1 51 1 -1 -1 0",
    "13 48 80 66 4 74 7 30 76 52 37 60 -1 49 73 31 74 73 23 -1 1 0 -1 -1
     69 63 74 56 64 77 57 65 6 16 51 -1 64 -1 68 9 48 62 54 27 -1 0 0 -1
     51 15 0 80 24 25 42 54 44 71 71 9 67 35 -1 58 -1 29 -1 53 0 -1 0 0
     16 29 36 41 44 56 59 37 50 24 -1 65 4 65 52 -1 4 -1 73 52 1 -1 -1 0",
];

/// Table 5.1.3.2-5, rate 1/2, for Z 27, 54 and 81, as extracted: a row has 22 to 25 numbers where
/// 24 are due, since some of the -1 behind its 13th number are lost and one is there twice.
const HALF: [&str; 3] = [
    "0  -1 -1 -1 0  0 -1 -1 0 -1 -1 0  1  0 -1 -1 -1 -1 -1 -1 -1 -1 -1
     22 0  -1 -1 17 -1 0  0 12 -1 -1 -1 -1 0  0 -1 -1 -1 -1 -1 -1 -1 -1
     6  -1 0  -1 10 -1 -1 -1 24 -1 0 -1 -1 -1 0  0 -1 -1 -1 -1 -1 -1 -1
     2  -1 -1 0  20 -1 -1 -1 25 0 -1 -1 -1 -1 -1 0  0 -1 -1 -1 -1 -1 -1
     23 -1 -1 -1 3  -1 -1 -1 0 -1 9  11 -1 -1 -1 -1 0  0 -1 -1 -1 -1 -1
     24 -1 23 1  17 -1 3  -1 10 -1 -1 -1 -1 -1 -1 -1 0  0 -1 -1 -1 -1
     25 -1 -1 -1 8  -1 -1 -1 7  18 -1 -1 0 -1 -1 -1 -1 -1 0  0 -1 -1 -1
     13 24 -1 -1 0 -1 8  -1 6  -1 -1 -1 -1 -1 -1 -1 -1 0  0 -1 -1 -1
     7  20 -1 16 22 10 -1 -1 23 -1 -1 -1 -1 -1 -1 -1 -1 -1 -1 0  0 -1
     11 -1 -1 -1 19 -1 -1 -1 13 -1 3  17 -1 -1 -1 -1 -1 -1 -1 -1 0  0
     25 -1 8  -1 23 18 -1 14 9  -1 -1 -1 -1 -1 -1 -1 -1 -1 -1 -1 0  0
     3  -1 -1 -1 16 -1 -1 2  25 5  -1 -1 1  -1 -1 -1 -1 -1 -1 -1 -1 0",
    "40 -1 -1 -1 22 -1 49 23 43 -1 -1 -1 1  0 -1 -1 -1 -1 -1 -1 -1 -1
     50 1  -1 -1 48 35 -1 -1 13 -1 30 -1 -1 0  0 -1 -1 -1 -1 -1 -1 -1
     39 50 -1 -1 4  -1 2  -1 -1 -1 -1 49 -1 -1 0  0 -1 -1 -1 -1 -1 -1
     33 -1 -1 38 37 -1 -1 4  1  -1 -1 -1 -1 -1 -1 0  0 -1 -1 -1 -1 -1
     45 -1 -1 -1 0  22 -1 -1 20 42 -1 -1 -1 -1 -1 -1 0  0 -1 -1 -1 -1
     51 -1 -1 48 35 -1 -1 -1 44 -1 18 -1 -1 -1 -1 -1 0  0 -1 -1 -1 -1
     47 11 -1 -1 -1 17 -1 -1 51 -1 -1 -1 0 -1 -1 -1 -1 -1 0  0 -1 -1
     5  -1 25 -1 6  -1 45 -1 13 40 -1 -1 -1 -1 -1 -1 -1 -1 0  0 -1 -1
     33 -1 -1 34 24 -1 -1 -1 23 -1 -1 46 -1 -1 -1 -1 -1 -1 -1 0  0 -1
     1  -1 27 -1 1  -1 -1 -1 38 -1 44 -1 -1 -1 -1 -1 -1 -1 -1 0  0 -1
     -1 18 -1 -1 23 -1 -1 8  0  35 -1 -1 -1 -1 -1 -1 -1 -1 -1 -1 0  0
     49 -1 17 -1 30 -1 -1 -1 34 -1 -1 19 1  -1 -1 -1 -1 -1 -1 -1 -1 0",
    "57 -1 -1 -1 50 -1 11 -1 50 -1 79 -1 1  0 -1 -1 -1 -1 -1 -1 -1 -1
     3  -1 28 -1 0  -1 -1 -1 55 7  -1 -1 -1 0  0 -1 -1 -1 -1 -1 -1 -1
     30 -1 -1 -1 24 37 -1 -1 56 14 -1 -1 -1 -1 0  0 -1 -1 -1 -1 -1 -1
     62 53 -1 -1 53 -1 -1 3  35 -1 -1 -1 -1 -1 -1 0  0 -1 -1 -1 -1 -1
     40 -1 -1 20 66 -1 -1 22 28 -1 -1 -1 -1 -1 -1 0  0 -1 -1 -1 -1 -1
     0  -1 -1 -1 8  -1 42 -1 50 -1 -1 8  -1 -1 -1 -1 -1 0  0 -1 -1 -1
     69 79 79 -1 -1 -1 56 -1 52 -1 -1 -1 0 -1 -1 -1 -1 -1 0  0 -1 -1
     65 -1 -1 -1 38 57 -1 -1 72 -1 27 -1 -1 -1 -1 -1 -1 -1 -1 0 0 -1 -1 -1
     64 -1 -1 -1 14 52 -1 -1 30 -1 -1 32 -1 -1 -1 -1 -1 -1 -1 -1 0 0 -1 -1
     -1 45 -1 70 0 -1 -1 -1 77 9 -1 -1 -1 -1 -1 -1 -1 -1 -1 -1 0 0 -1
     2 56 -1 57 35 -1 -1 -1 -1 -1 12 -1 -1 -1 -1 -1 -1 -1 -1 -1 -1 -1 0 0
     24 -1 61 -1 60 -1 -1 27 51 -1 -1 16 1 -1 -1 -1 -1 -1 -1 -1 -1 -1 -1 -1 0",
];

const SIZES: [u16; 3] = [27, 54, 81];

/// Kb 20, m 4, z 27, 54 and 81: the tables as they are printed.
pub fn five_sixths() -> Draft {
    let tables = FIVE_SIXTHS.map(|text| printed(text).iter().map(|row| entries(row)).collect());
    Draft::new(20, 4, SIZES.into_iter().zip(tables).collect())
}

/// Kb 12, m 12, z 27, 54 and 81: the first 12 columns as they are printed, and the staircase whose
/// outer shift is 1 and whose middle 0 stands in row 6, as the 13th column shows.
pub fn half() -> Draft {
    let tables = HALF.map(|text| {
        let left: Rows = printed(text)
            .iter()
            .map(|row| entries(&row[..12]))
            .collect();
        with_staircase(&left, 1, 6)
    });
    Draft::new(12, 12, SIZES.into_iter().zip(tables).collect())
}

/// A record with nothing but zeros left of its staircases, whose outer shift is 1 where z allows it
/// and whose middle 0 stands in row 1. The numbers need not be ones that a record may have.
#[cfg(test)]
pub fn plain(kb: u16, m: u16, sizes: &[u16]) -> Draft {
    let left = vec![vec![0; usize::from(kb)]; usize::from(m)];
    let table = |&z: &u16| (z, with_staircase(&left, u8::from(z > 1), 1));
    Draft::new(kb, m, sizes.iter().map(table).collect())
}

/// The record of Type 2 with which the redundancy versions were worked out beforehand: kb 1, m 3,
/// x 1, one z of 3.
#[cfg(test)]
pub const EXTENDED: [u8; 34] = [
    0x00, 0x01, 0x00, 0x03, 0x00, 0x01, 0x00, 0x02, 0x00, 0x01, 0x00, 0x03, 0x00, 0x0e, 0x00, 0x01,
    0x00, 0xff, 0xff, 0x02, 0x00, 0x00, 0x00, 0xff, 0x01, 0x01, 0xff, 0x00, 0xff, 0xff, 0x02, 0xff,
    0x01, 0x00,
];

/// What octet A5 is sent as with it, N_L 1, Q_m 2 and G 176, in hexadecimal, for rv 0 to 3.
#[cfg(test)]
pub const EXTENDED_SENT: [&str; 4] = [
    "a2bd3f585eb25eb2a2bd0000fc0f9de55eb2a2bdc6af",
    "15eafac3f595f59515ea0000e07fef29f59515ea1abc",
    "af51d61facafacafaf51000003fe794eacafaf51d5e3",
    "7a8ab0fd657a657a7a8a00001ff0ca77657a7a8aaf1a",
];

/// The record with which edition 2 was worked out beforehand: kb 20, m 3, one z of 2, so that Kmax is 40. Of
/// its first twenty columns row 0 holds j mod 2, row 1 floor(j/2) mod 2, and row 2 nothing and 0 in turn; its
/// staircase is the toy's.
#[cfg(test)]
pub fn twenty() -> Draft {
    let row = |entry: fn(u8) -> u8| (0..20).map(entry).collect();
    let left: Rows = vec![
        row(|j| j % 2),
        row(|j| j / 2 % 2),
        row(|j| if j % 2 == 0 { EMPTY } else { 0 }),
    ];
    Draft::new(20, 3, vec![(2, with_staircase(&left, 1, 1))])
}

/// What octets 010203 are sent as with it, N_L 1, Q_m 2 and G 138, in hexadecimal, in editions 1 and 2: two blocks
/// of 24 bits, and three of 16 bits and their checksums, E and N being 46.
#[cfg(test)]
pub const TWENTY_SENT: [&str; 2] = [
    "0102030004080c00110a3ac6b428eb1ad080",
    "0102004284900d0803581148eb122b1229c0",
];

/// A record of Type 2 with nothing but zeros left of its staircases, and with extension rows that are filled
/// in every other column before their 0, with shift 1 where z allows it.
#[cfg(test)]
pub fn plain_extended(kb: u16, m: u16, x: u16, sizes: &[u16]) -> Draft {
    let left = vec![vec![0; usize::from(kb)]; usize::from(m)];
    let table = |&z: &u16| {
        let shift = u8::from(z > 1);
        let entry = |column: u16| if column % 2 == 0 { shift } else { EMPTY };
        let extension: Rows = (0..x)
            .map(|i| (0..kb + m + i).map(entry).collect())
            .collect();
        (
            z,
            with_extension(with_staircase(&left, shift, 1), &extension),
        )
    };
    Draft::of_type(2, kb, m, x, sizes.iter().map(table).collect())
}

/// The toy with a shift that is not below its z.
#[cfg(test)]
pub fn not_well_formed() -> [u8; 26] {
    let mut record = TOY;
    record[14] = 2;
    record
}

/// The toy with shift 1 where its staircase has to hold 0: row 0 of column kb + 1.
#[cfg(test)]
pub fn no_staircase() -> [u8; 26] {
    let mut record = TOY;
    record[16] = 1;
    record
}

/// Kb 1, m 3, one z of 5: rows 2 1 0 -, 4 0 0 0 and 1 1 - 0. No shift but 0 is the same the other way
/// round, as shift 1 of the toy is.
#[cfg(test)]
pub const FIVE: [u8; 26] = [
    0x00, 0x01, 0x00, 0x03, 0x00, 0x00, 0x00, 0x01, 0x00, 0x01, 0x00, 0x05, 0x00, 0x0e, 0x02, 0x01,
    0x00, 0xff, 0x04, 0x00, 0x00, 0x00, 0x01, 0x01, 0xff, 0x00,
];

/// A word that checks with it: x = 10000 and three groups of parity bits. With x5 read as x0 and so on,
/// rows 0 to 4 are x[i+2] + p[i+1] + q[i], rows 5 to 9 are x[i+4] + p[i] + q[i] + r[i], and rows 10 to 14
/// are x[i+1] + p[i+1] + r[i]. All three add up to x[i+2] + x[i+4] + x[i+1] + p[i], so p is 1 where i+2,
/// i+4 or i+1 is 5, in places 3, 1 and 4. Then p[i+1] is 1 in places 2, 0 and 3, and x[i+2] in place 3:
/// q is 1 in places 0 and 2. And x[i+1] is 1 in place 4: r is 1 in places 0, 2, 3 and 4.
#[cfg(test)]
pub const FIVE_WORD: [u8; 20] = [1, 0, 0, 0, 0, 0, 1, 0, 1, 1, 1, 0, 1, 0, 0, 1, 0, 1, 1, 1];

/// Single bits, at random.
#[cfg(test)]
pub fn bits(count: usize, random: &mut Random) -> Vec<u8> {
    (0..count).map(|_| random.pick(&[0, 1])).collect()
}

/// Octet, G, and what it is sent as with the toy, N_L 1 and Q_m 2, in hexadecimal (document 02, CR 1): "The
/// toy case with G 130 now gives ten bits to the first block, whose last two repeat its first two." The
/// checksum of C0 is 2AE476 (P1 and P2, doubled and added without carry), so the sixteen words are those of
/// C0 2A E4 76 by P6 to P9.
#[cfg(test)]
pub const TOY_SENT: [(u8, usize, &str); 5] = [
    (0xc0, 128, "cc00000000b7b7b7ccb77b007bcc7bb7"),
    (0xc0, 130, "ccc00000002dededf32ddec01ef31eedc0"),
    // Two bits more for the first three words: 11, 00 and 00.
    (0xc0, 134, "ccc000000002dededf32ddec01ef31eedc"),
    // Six bits of the last word, 10110111.
    (0xc0, 126, "cc00000000b7b7b7ccb77b007bcc7bb4"),
    // The first word of octet 01 is all zeros, and so are its copies.
    (0x01, 130, "0000001eedc01eeddec0330033332df300"),
];

/// The first bits of octets that are written in hexadecimal; behind them there are only zeros, which
/// fill up the last octet.
#[cfg(test)]
pub fn bits_of_hex(hex: &str, count: usize) -> Vec<u8> {
    let octet = |place| u8::from_str_radix(&hex[place..place + 2], 16).expect("two digits");
    let octets: Vec<u8> = (0..hex.len()).step_by(2).map(octet).collect();
    let mut bits = unpacked(&octets);
    let zeros = bits.split_off(count);
    assert!(zeros.len() < 8 && zeros.iter().all(|&bit| bit == 0));
    bits
}

/// The places of a number's binary digits, the highest first.
#[cfg(test)]
pub fn binary(number: u32, places: usize) -> Vec<u8> {
    (0..places)
        .rev()
        .map(|place| u8::from(number >> place & 1 == 1))
        .collect()
}

/// The numbers of each line.
fn printed(text: &str) -> Vec<Vec<i16>> {
    let number = |word: &str| word.parse().expect("the tables hold numbers");
    text.lines()
        .map(|line| line.split_whitespace().map(number).collect())
        .collect()
}

/// The octets of a row: what is no octet is the -1 of an empty entry.
fn entries(row: &[i16]) -> Vec<u8> {
    row.iter()
        .map(|&number| u8::try_from(number).unwrap_or(EMPTY))
        .collect()
}

/// A folder that is empty at first, for one test.
#[cfg(test)]
pub fn folder(name: &str) -> std::path::PathBuf {
    let folder = std::env::temp_dir().join(format!("second-{}-{name}", std::process::id()));
    let _ = std::fs::remove_dir_all(&folder);
    std::fs::create_dir(&folder).unwrap();
    folder
}

#[cfg(test)]
mod tests {
    use super::{five_sixths, half, printed, EXTENDED, FIVE_SIXTHS, HALF, TOY};
    use crate::draft::{with_extension, with_staircase, Draft, EMPTY};

    /// The numbers of a row that are no -1, from a column on.
    fn filled_from(row: &[i16], column: usize) -> Vec<i16> {
        row[column..]
            .iter()
            .copied()
            .filter(|&number| number != -1)
            .collect()
    }

    #[test]
    fn the_toy_is_made_of_its_parts() {
        // Document 01: kb 1, m 3, one z of 2.
        let left = [vec![0], vec![1], vec![EMPTY]];
        let toy = Draft::new(1, 3, vec![(2, with_staircase(&left, 1, 1))]);
        assert_eq!(toy.octets(), TOY);
    }

    #[test]
    fn the_record_of_type_2_is_made_of_its_parts() {
        let left = [vec![0], vec![2], vec![1]];
        let staircase = with_staircase(&left, 1, 1);
        let rows = with_extension(staircase, &[vec![EMPTY, 2, EMPTY, 1]]);
        let record = Draft::of_type(2, 1, 3, 1, vec![(3, rows)]);
        assert_eq!(record.octets(), EXTENDED);
    }

    #[test]
    fn rate_5_6_has_all_its_numbers() {
        for text in FIVE_SIXTHS {
            assert_eq!(printed(text).len(), 4);
            assert!(printed(text).iter().all(|row| row.len() == 24));
        }
        assert_eq!(five_sixths().octets().len(), 22 + 3 * 4 * 24);
    }

    #[test]
    fn rate_1_2_has_lost_and_doubled_empty_entries_only() {
        for text in HALF {
            let rows = printed(text);
            assert_eq!(rows.len(), 12);
            assert!(rows.iter().all(|row| (22..=25).contains(&row.len())));
            // The 13th column and the steps, as a staircase has them, whatever was lost between.
            assert_eq!(filled_from(&rows[0], 12), [1, 0]);
            assert_eq!(filled_from(&rows[6], 12), [0, 0, 0]);
            assert_eq!(filled_from(&rows[11], 12), [1, 0]);
            for row in [1, 2, 3, 4, 5, 7, 8, 9, 10] {
                assert_eq!(filled_from(&rows[row], 12), [0, 0]);
            }
            assert_eq!([rows[0][12], rows[6][12], rows[11][12]], [1, 0, 1]);
        }
        assert_eq!(half().octets().len(), 22 + 3 * 12 * 24);
    }
}
