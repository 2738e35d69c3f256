//! What a text gives, each of its faults with its line, and the shelves of the repository.

use std::fs;
use std::path::{Path, PathBuf};

use super::text::{self, Fault};
use super::{make, SHELVES};
use crate::draft::ShelfDraft;
use crate::generate::samples;
use crate::random::Random;
use crate::record::{profile, Coding, Entry, Profile};
use crate::samples::{five_sixths, folder, half, no_staircase, EXTENDED, TOY};
use crate::shelf::{lookup, records, Asked, Side};

/// The toy record, as the text of a public shelf.
const TOY_TEXT: &str = "\
# The toy.
tenant 0 profile 7 kb 1 m 3 x 0 type 1

z 2 # its only size
0  1 0 -
1  0 0 0
-  1 - 0
";

/// The record of Type 2 of samples.
const EXTENDED_TEXT: &str = "\
tenant 0 profile 9 kb 1 m 3 x 1 type 2
z 3
0  1 0 -  -
2  0 0 0  -
1  1 - 0  -
-  2 - 1  0
";

/// The folder of the repository's shelves.
fn shipped() -> PathBuf {
    Path::new(env!("CARGO_MANIFEST_DIR")).join("../../shelves")
}

fn fault(line: usize, what: &str) -> Result<Vec<u8>, Fault> {
    let what = what.to_string();
    Err(Fault { line, what })
}

fn public(text: &str) -> Result<Vec<u8>, Fault> {
    text::shelf(text, Side::Public)
}

/// The toy's text with one line of it (counted from 1) changed.
fn with_line(line: usize, changed: &str) -> String {
    let mut lines: Vec<&str> = TOY_TEXT.lines().collect();
    lines[line - 1] = changed;
    lines.join("\n")
}

#[test]
fn a_text_gives_its_shelf() {
    let toy = [0, 1, 0, 0, 0, 7, 0, 10, 0, 26];
    assert_eq!(public(TOY_TEXT), Ok([&toy[..], &TOY].concat()));
    let extended = [0, 1, 0, 0, 0, 9, 0, 10, 0, 34];
    assert_eq!(
        public(EXTENDED_TEXT),
        Ok([&extended[..], &EXTENDED].concat())
    );
}

#[test]
fn spaces_comments_and_line_ends_change_nothing() {
    let wide = TOY_TEXT
        .replace(' ', " \t ")
        .replace('\n', "  # more\r\n\n");
    assert_eq!(public(&wide), public(TOY_TEXT));
    assert_eq!(public(TOY_TEXT.trim_end()), public(TOY_TEXT));
}

/// A record that 5 refuses, one that 6 refuses and one without octets, about the toy.
const REFUSED_TEXT: &str = "\
tenant 3 profile 7 refused 5 octets 3
0A ff 00
tenant 3 profile 8 refused 6 octets 26 # shift 1 in a step
00 01 00 03 00 00 00 01 00 01 00 02 00 0e 00 01
01 ff 01 00 00 00 ff 01 ff 00
tenant 3 profile 9 kb 1 m 3 x 0 type 1
z 2
0  1 0 -
1  0 0 0
-  1 - 0
tenant 4 profile 7 refused 5 octets 0
";

fn private(text: &str) -> Result<Vec<u8>, Fault> {
    text::shelf(text, Side::Private)
}

#[test]
fn a_record_that_is_refused_is_written_with_its_octets() {
    let parts: [(u16, u16, &[u8]); 4] = [
        (3, 7, &[0x0a, 0xff, 0]),
        (3, 8, &no_staircase()),
        (3, 9, &TOY),
        (4, 7, &[]),
    ];
    let shelf = ShelfDraft::new(&parts).octets();
    assert_eq!(private(REFUSED_TEXT), Ok(shelf.clone()));
    // Over any number of lines.
    let other = REFUSED_TEXT
        .replace("0A ff 00", "0A # ten\n\n  fF\n00")
        .replace("00 01\n01 ff", "00 01 01 ff");
    assert_eq!(private(&other), Ok(shelf));
}

#[test]
fn octets_are_judged() {
    for (line, changed, at, what) in [
        (2, "0A ff", 1, "the record has 2 octets, and 3 are due"),
        (2, "", 1, "the record has 0 octets, and 3 are due"),
        (2, "0A ff 00 00", 2, "an octet too many: the record has 3"),
        (12, "00", 12, "an octet too many: the record has 0"),
        (
            2,
            "0A f 00",
            2,
            "`f` is no octet of two hexadecimal digits, and begins no record",
        ),
        (
            2,
            "0A +f 00",
            2,
            "`+f` is no octet of two hexadecimal digits, and begins no record",
        ),
        (
            2,
            "0Aff00",
            2,
            "`0Aff00` is no octet of two hexadecimal digits, and begins no record",
        ),
        (
            2,
            "z 2",
            2,
            "`z` is no octet of two hexadecimal digits, and begins no record",
        ),
        (
            3,
            "tenant 3 profile 8 refused 5 octets 26",
            3,
            "the record is refused with 6, and not with 5",
        ),
        (
            1,
            "tenant 3 profile 7 refused 6 octets 3",
            1,
            "the record is refused with 5, and not with 6",
        ),
        (
            11,
            "tenant 4 profile 7 refused 6 octets 0",
            11,
            "the record is refused with 5, and not with 6",
        ),
        (
            5,
            "00 ff 01 00 00 00 ff 01 ff 00",
            3,
            "the record is accepted, and has to be written with its tables",
        ),
        (
            1,
            "tenant 3 profile 7 refused 4 octets 3",
            1,
            "the number that refuses is `4`, and has to be a number from 5 to 6",
        ),
        (
            1,
            "tenant 3 profile 7 refused 5 octets 65536",
            1,
            "the count of octets is `65536`, and has to be a number from 0 to 65535",
        ),
        (
            11,
            "tenant 3 profile 9 refused 5 octets 0",
            11,
            "tenant 3 profile 9 does not stand above tenant 3 profile 9 before it",
        ),
    ] {
        let mut lines: Vec<&str> = REFUSED_TEXT.lines().collect();
        lines.resize(12, "");
        lines[line - 1] = changed;
        assert_eq!(private(&lines.join("\n")), fault(at, what), "{changed}");
    }
}

/// A shelf as a text, to be read back.
fn as_text(shelf: &[u8], side: Side) -> String {
    let mut lines = Vec::new();
    for ((tenant, number), record) in records(shelf, side).unwrap() {
        let pair = format!("tenant {tenant} profile {number}");
        match profile(&record) {
            Ok(Profile {
                kb,
                m,
                x,
                coding,
                tables,
            }) => {
                let coding = if coding == Coding::One { 1 } else { 2 };
                lines.push(format!("{pair} kb {kb} m {m} x {x} type {coding}"));
                for table in tables {
                    lines.push(format!("z {}", table.z));
                    lines.extend(table.rows.iter().map(|row| {
                        let entry = |entry: &Entry| match entry {
                            Entry::Empty => "-".to_string(),
                            Entry::Shift(shift) => shift.to_string(),
                        };
                        row.iter().map(entry).collect::<Vec<_>>().join(" ")
                    }));
                }
            }
            Err(refusal) => {
                lines.push(format!("{pair} refused {refusal} octets {}", record.len()));
                lines.extend(record.chunks(16).map(|octets| {
                    let octets: Vec<String> = octets.iter().map(|o| format!("{o:02x}")).collect();
                    octets.join(" ")
                }));
            }
        }
    }
    lines.join("\n")
}

#[test]
fn every_well_formed_shelf_has_a_text() {
    let mut random = Random::new(1);
    for _ in 0..300 {
        let (side, shelf) = samples::drawn(&mut random);
        assert_eq!(text::shelf(&as_text(&shelf, side), side), Ok(shelf));
    }
}

#[test]
fn a_text_without_records_gives_the_empty_shelf() {
    for text in ["", "\n\n", "# only a comment"] {
        assert_eq!(public(text), Ok(vec![0, 0]));
        assert_eq!(text::shelf(text, Side::Private), Ok(vec![0, 0]));
    }
}

#[test]
fn a_tenant_belongs_to_its_side() {
    let private = TOY_TEXT.replace("tenant 0", "tenant 1");
    assert!(text::shelf(&private, Side::Private).is_ok());
    assert_eq!(
        public(&private),
        fault(2, "the tenant is `1`, and has to be 0")
    );
    assert_eq!(
        text::shelf(TOY_TEXT, Side::Private),
        fault(
            2,
            "the tenant is `0`, and has to be a number from 1 to 65535"
        )
    );
}

#[test]
fn numbers_keep_to_their_ranges() {
    for (changed, what) in [
        (
            "tenant 0 profile 65536 kb 1 m 3 x 0 type 1",
            "the profile number is `65536`, and has to be a number from 0 to 65535",
        ),
        (
            "tenant 0 profile 7 kb 0 m 3 x 0 type 1",
            "kb is `0`, and has to be a number from 1 to 20",
        ),
        (
            "tenant 0 profile 7 kb 21 m 3 x 0 type 1",
            "kb is `21`, and has to be a number from 1 to 20",
        ),
        (
            "tenant 0 profile 7 kb 1 m 2 x 0 type 1",
            "m is `2`, and has to be a number from 3 to 12",
        ),
        (
            "tenant 0 profile 7 kb 1 m 13 x 0 type 1",
            "m is `13`, and has to be a number from 3 to 12",
        ),
        (
            "tenant 0 profile 7 kb 1 m three x 0 type 1",
            "m is `three`, and has to be a number from 3 to 12",
        ),
    ] {
        assert_eq!(public(&with_line(2, changed)), fault(2, what));
    }
    for z in ["0", "82", "-", "+2"] {
        assert_eq!(
            public(&with_line(4, &format!("z {z}"))),
            fault(
                4,
                &format!("z is `{z}`, and has to be a number from 1 to 81")
            )
        );
    }
}

#[test]
fn a_row_has_its_numbers_and_shifts_are_below_z() {
    for (changed, what) in [
        ("0 0 0", "row 1 has 3 numbers, and kb + m + x is 4"),
        ("0 0 0 0 -", "row 1 has 5 numbers, and kb + m + x is 4"),
        (
            "2 0 0 0",
            "a shift is `2`, and has to be a number from 0 to 1",
        ),
        (
            "0 0 -1 0",
            "a shift is `-1`, and has to be a number from 0 to 1",
        ),
        (
            "-1 0 0 0",
            "`-1` begins no row, and no `tenant .. profile .. kb .. m .. x .. type ..`, `tenant .. profile .. \
             refused .. octets ..` or `z ..` either",
        ),
        (
            "tenant 0 profile 8 kb 1 m 3",
            "`tenant` begins no row, and no `tenant .. profile .. kb .. m .. x .. type ..`, `tenant .. profile .. \
             refused .. octets ..` or `z ..` either",
        ),
    ] {
        assert_eq!(public(&with_line(6, changed)), fault(6, what));
    }
}

#[test]
fn a_table_has_its_rows_and_is_a_staircase() {
    let few = "the table has 2 rows, and m + x is 3";
    assert_eq!(public(&with_line(7, "")), fault(4, few));
    assert_eq!(public(&with_line(7, "z 3")), fault(4, few));
    assert_eq!(
        public(&with_line(7, "tenant 0 profile 8 kb 1 m 3 x 0 type 1")),
        fault(4, few)
    );
    assert_eq!(
        public(&format!("{TOY_TEXT}- - - -")),
        fault(8, "a row too many: m + x is 3")
    );
    for changed in ["-  0 - 0", "-  1 0 0", "-  - - 0", "-  1 - -"] {
        assert_eq!(
            public(&with_line(7, changed)),
            fault(4, "the table is no staircase")
        );
    }
}

#[test]
fn every_table_is_judged() {
    let table = |z: usize, last: &str| format!("z {z}\n0 1 0 -\n0 0 0 0\n- {last} - 0\n");
    let good = format!("{TOY_TEXT}{}{}", table(3, "1"), table(81, "1"));
    assert!(public(&good).is_ok());
    let bad = format!("{TOY_TEXT}{}{}", table(3, "0"), table(81, "1"));
    assert_eq!(public(&bad), fault(8, "the table is no staircase"));
    let bad = format!("{TOY_TEXT}{}{}", table(3, "1"), table(81, "0"));
    assert_eq!(public(&bad), fault(12, "the table is no staircase"));
    assert_eq!(
        public(&format!("{TOY_TEXT}{}", table(2, "1"))),
        fault(8, "z 2 does not stand above z 2 before it")
    );
    assert_eq!(
        public(&format!("{TOY_TEXT}{}{}z 80", table(3, "1"), table(4, "1"))),
        fault(16, "a record has at most 3 tables")
    );
}

#[test]
fn parts_stand_in_their_order() {
    for (text, line, what) in [
        ("\nz 2", 2, "a table stands before the first record"),
        ("0 0", 1, "a row stands before the first record"),
        (
            "tenant 0 profile 7 kb 1 m 3 x 0 type 1\n- 1 0 -",
            2,
            "a row stands before the record's first `z ..`",
        ),
        (
            "tenant 0 profile 7 kb 1 m 3 x 0 type 1\n",
            1,
            "the record has no table",
        ),
        (
            "tenant 0 profile 7 kb 1 m 3 x 0 type 1\ntenant 0 profile 8 kb 1 m 3 x 0 type 1\n",
            1,
            "the record has no table",
        ),
    ] {
        assert_eq!(public(text), fault(line, what));
    }
}

#[test]
fn records_rise() {
    let second = |numbers: &str| {
        let first = TOY_TEXT.replace("tenant 0", "tenant 4");
        let text = first.clone() + &first.replace("tenant 4 profile 7", numbers);
        text::shelf(&text, Side::Private)
    };
    assert!(second("tenant 4 profile 8").is_ok());
    assert!(second("tenant 5 profile 0").is_ok());
    for numbers in [
        "tenant 4 profile 7",
        "tenant 4 profile 6",
        "tenant 3 profile 8",
    ] {
        let what = format!("{numbers} does not stand above tenant 4 profile 7 before it");
        assert_eq!(second(numbers), fault(9, &what));
    }
}

/// So many records, each with three tables of kb 20 and this m.
fn many(count: usize, m: usize) -> String {
    let row = |row: usize| {
        let entry = |j: usize| match j {
            0 if [0, 1, m - 1].contains(&row) => " 0",
            _ if j > 0 && (row == j || row + 1 == j) => " 0",
            _ => " -",
        };
        "- ".repeat(20) + &(0..m).map(entry).collect::<String>() + "\n"
    };
    let rows: String = (0..m).map(row).collect();
    let record = |profile: usize| {
        format!(
            "tenant 0 profile {profile} kb 20 m {m} x 0 type 1\nz 1\n{rows}z 2\n{rows}z 3\n{rows}"
        )
    };
    (0..count).map(record).collect()
}

#[test]
fn a_shelf_has_at_most_64_records() {
    assert!(public(&many(64, 3)).is_ok());
    assert_eq!(
        public(&many(65, 3)),
        fault(64 * 13 + 1, "a shelf has at most 64 records")
    );
}

#[test]
fn a_shelf_has_at_most_65_535_octets() {
    // 2 + 55 · (8 + 22 + 3 · 12 · 32) octets fit, and 56 records do not.
    assert_eq!(public(&many(55, 12)).unwrap().len(), 65_012);
    assert_eq!(
        public(&many(56, 12)),
        fault(
            55 * 40 + 1,
            "with this record the shelf has 66194 octets, and it may have 65535"
        )
    );
}

#[test]
fn all_shelves_are_written_and_faults_name_the_file() {
    let folder = folder("shelves");
    let private = TOY_TEXT.replace("tenant 0", "tenant 1");
    fs::write(folder.join("public.txt"), TOY_TEXT).unwrap();
    let missing = make(&folder, &folder).unwrap_err().to_string();
    let file = folder.join("private.txt");
    assert!(missing.starts_with(&format!("{}: ", file.display())));
    fs::write(&file, "z 2").unwrap();
    assert_eq!(
        make(&folder, &folder).unwrap_err().to_string(),
        format!(
            "{}: line 1: a table stands before the first record",
            file.display()
        )
    );
    assert!(!folder.join("public.shelf").exists());
    fs::write(&file, &private).unwrap();
    let missing = make(&folder, &folder).unwrap_err().to_string();
    let file = folder.join("trial.txt");
    assert!(missing.starts_with(&format!("{}: ", file.display())));
    assert!(!folder.join("public.shelf").exists());
    fs::write(&file, EXTENDED_TEXT).unwrap();
    make(&folder, &folder).unwrap();
    for (side, name, text) in [
        (Side::Public, "public.shelf", TOY_TEXT),
        (Side::Private, "private.shelf", &private),
        (Side::Public, "trial.shelf", EXTENDED_TEXT),
    ] {
        let made = fs::read(folder.join(name)).unwrap();
        assert_eq!(Ok(made), text::shelf(text, side));
    }
    fs::remove_dir_all(&folder).unwrap();
}

#[test]
fn the_repositorys_shelves_are_what_their_texts_give() {
    let folder = folder("shipped");
    make(&shipped(), &folder).unwrap();
    for (_, _, name) in SHELVES {
        let made = fs::read(folder.join(name)).unwrap();
        assert_eq!(made, fs::read(shipped().join(name)).unwrap(), "{name}");
    }
    fs::remove_dir_all(&folder).unwrap();
}

/// What the repository's shelves answer: the side and the record.
fn shipped_record(tenant: u16, number: u16) -> Option<(Side, Vec<u8>)> {
    let asked = Asked {
        private: fs::read(shipped().join("private.shelf")).unwrap(),
        public: fs::read(shipped().join("public.shelf")).unwrap(),
        tenant,
        profile: number,
    };
    let found = lookup(&asked).ok()?;
    Some((found.side, asked.octets(&found).to_vec()))
}

#[test]
fn the_repositorys_records_are_accepted_profiles() {
    for (tenant, number, side, parts) in [
        (1, 12, Side::Public, (12, 12, 3)),
        (1, 23, Side::Public, (16, 8, 3)),
        (1, 34, Side::Public, (18, 6, 3)),
        (1, 56, Side::Public, (20, 4, 3)),
        (3, 34, Side::Private, (4, 4, 1)),
        (3, 56, Side::Public, (20, 4, 3)),
        (7, 34, Side::Private, (6, 3, 2)),
        (7, 70, Side::Private, (2, 3, 1)),
        (11, 34, Side::Public, (18, 6, 3)),
        (11, 110, Side::Private, (5, 5, 3)),
    ] {
        let (found, record) = shipped_record(tenant, number).unwrap();
        let profile = profile(&record).unwrap();
        let told = (profile.kb, profile.m, profile.tables.len());
        assert_eq!((found, told), (side, parts), "{tenant} {number}");
    }
    for (tenant, number) in [(0, 34), (3, 70), (7, 110), (11, 70), (1, 35)] {
        assert_eq!(shipped_record(tenant, number), None, "{tenant} {number}");
    }
}

#[test]
fn rate_five_sixths_is_the_sample_that_was_copied_apart() {
    let (_, record) = shipped_record(1, 56).unwrap();
    assert_eq!(record, five_sixths().octets());
}

#[test]
fn rate_one_half_is_the_sample_that_was_mended_apart() {
    let (_, record) = shipped_record(1, 12).unwrap();
    assert_eq!(record, half().octets());
}

#[test]
fn the_mended_tables_have_regular_columns() {
    let heavy = |often| [often, 3, 3, 3, often, 3, 3, 3, often, 3, 3, 3];
    let with_4 = [11, 4, 3, 3, 11, 3, 3, 3, 11, 3, 3, 3];
    for (number, place, due) in [
        (12, 0, &heavy(12)[..]),
        (12, 1, &with_4),
        (12, 2, &with_4),
        (23, 0, &[8, 8, 8, 6, 4, 4, 4, 4, 4, 3, 3, 3, 3, 3, 3, 3]),
        (23, 1, &[8, 8, 8, 7, 7, 3, 3, 3, 3, 3, 3, 3, 3, 3, 3, 3]),
        (23, 2, &[8, 8, 8, 8, 6, 3, 3, 3, 3, 3, 3, 3, 3, 3, 3, 3]),
    ] {
        let (_, record) = shipped_record(1, number).unwrap();
        let profile = profile(&record).unwrap();
        let rows = &profile.tables[place].rows;
        let shifts = |column: usize| {
            let filled = rows.iter().filter(|row| row[column] != Entry::Empty);
            filled.count()
        };
        let counts: Vec<usize> = (0..profile.kb).map(shifts).collect();
        assert_eq!(counts, due, "{number} {place}");
    }
}

#[test]
fn x_and_type_keep_to_their_ranges() {
    let head = |parts: &str| public(&format!("tenant 0 profile 9 kb 1 {parts}\nz 3"));
    for (parts, what) in [
        (
            "m 3 x 38 type 2",
            "x is `38`, and has to be a number from 0 to 37",
        ),
        (
            "m 3 x - type 2",
            "x is `-`, and has to be a number from 0 to 37",
        ),
        (
            "m 3 x 0 type 0",
            "the type is `0`, and has to be a number from 1 to 2",
        ),
        (
            "m 3 x 0 type 3",
            "the type is `3`, and has to be a number from 1 to 2",
        ),
        ("m 4 x 37 type 2", "m + x is 41, and at most 40"),
        ("m 3 x 1 type 1", "x is 1, and in type 1 it is 0"),
    ] {
        assert_eq!(head(parts), fault(1, what));
    }
    let few = "the table has 0 rows, and m + x is 40";
    assert_eq!(head("m 4 x 36 type 2"), fault(2, few));
}

#[test]
fn an_extension_is_judged() {
    let lines: Vec<&str> = EXTENDED_TEXT.lines().collect();
    let with = |line: usize, changed: &str| {
        let mut lines = lines.clone();
        lines[line - 1] = changed;
        public(&lines.join("\n"))
    };
    assert_eq!(
        with(6, "-  2 - 1"),
        fault(6, "row 3 has 4 numbers, and kb + m + x is 5")
    );
    assert_eq!(
        with(6, ""),
        fault(2, "the table has 3 rows, and m + x is 4")
    );
    for (line, changed) in [(3, "0  1 0 -  0"), (6, "-  2 - 1  1"), (6, "-  2 - 1  -")] {
        assert_eq!(
            with(line, changed),
            fault(2, "the table is no staircase with extension")
        );
    }
    assert!(with(6, "2  - 0 -  0").is_ok());
}

#[test]
fn the_trial_shelf_has_one_table_of_type_2() {
    let asked = Asked {
        private: vec![0, 0],
        public: fs::read(shipped().join("trial.shelf")).unwrap(),
        tenant: 1,
        profile: 13,
    };
    let found = lookup(&asked).unwrap();
    assert_eq!(found.stretch, 10..7232);
    let profile = profile(asked.octets(&found)).unwrap();
    assert_eq!((profile.kb, profile.m, profile.x), (20, 4, 36));
    assert_eq!(profile.coding, Coding::Two);
    let sizes: Vec<usize> = profile.tables.iter().map(|table| table.z).collect();
    assert_eq!(sizes, [27, 54, 81]);
    // It is on no other shelf.
    assert_eq!(shipped_record(1, 13), None);
    let text = fs::read_to_string(shipped().join("trial.txt")).unwrap();
    assert!(text.starts_with("# The trial shelf: a trial table"));
    assert!(text.contains("Nobody stands for this table."));
}
