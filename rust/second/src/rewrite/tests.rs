//! Whole files: shelves and texts of requests.

use std::fs;

use super::{rewrite, rewritten, Done};
use crate::answer::answer;
use crate::draft::ShelfDraft;
use crate::lines::LINE_ROOM;
use crate::samples::{folder, TOY};
use crate::words::SHELF_ROOM;

const OLD_TOY: &str = "0001000300010002000A000100FF01000000FF01FF00";
const NEW_TOY: &str = "000100030000000100010002000E000100FF01000000FF01FF00";

/// The toy in the old form.
fn old_toy() -> Vec<u8> {
    let mut record = [&TOY[..4], &TOY[8..]].concat();
    record[9] = 10;
    record
}

fn shelf(tenant: u16, record: &[u8]) -> Vec<u8> {
    ShelfDraft::new(&[(tenant, 7, record), (tenant, 8, record)]).octets()
}

fn text(old: &str) -> (String, Done) {
    let (new, done) = rewritten(old.as_bytes()).unwrap();
    (String::from_utf8(new).unwrap(), done)
}

#[test]
fn either_shelf_is_rewritten() {
    for tenant in [0, 3] {
        let (new, done) = rewritten(&shelf(tenant, &old_toy())).unwrap();
        assert_eq!(new, shelf(tenant, &TOY));
        assert_eq!((done.records, done.lines), (2, 0));
    }
    assert_eq!(rewritten(&[0, 0]).unwrap(), (vec![0, 0], Done::default()));
}

#[test]
fn a_shelf_is_rewritten_once() {
    let error = rewritten(&shelf(0, &TOY)).unwrap_err();
    assert_eq!(error, "a record has the new form already");
    let error = rewritten(format!("crc 8 1\nprofile {NEW_TOY}\n").as_bytes()).unwrap_err();
    assert_eq!(error, "line 2: a record has the new form already");
}

#[test]
fn a_shelf_that_is_none_or_would_be_too_long_is_refused() {
    let mut broken = shelf(0, &old_toy());
    broken.push(0);
    assert!(rewritten(&broken).is_err());
    assert!(rewritten(&[0]).is_err());
    let long = ShelfDraft::new(&[(1, 7, &vec![9; 65_525])]).octets();
    assert_eq!(long.len(), 65_535);
    let error = rewritten(&long).unwrap_err();
    assert!(error.contains("65539 octets"), "{error}");
}

#[test]
fn every_record_and_shelf_of_a_text_is_rewritten_and_nothing_else() {
    let shelf = |record: &str, length: &str, next: &str| {
        format!("0002000100070012{length}00020007{next}{length}{record}{record}")
    };
    let old_shelf = shelf(OLD_TOY, "0016", "0028");
    let new_shelf = shelf(NEW_TOY, "001A", "002C");
    let lines = |record: &str, shelf: &str| {
        let lower = record.to_lowercase();
        format!(
            "# profile {OLD_TOY}\n\nprofile {record} # {OLD_TOY}\nplan {lower} 13\n\
             crcoct 24 {OLD_TOY}\nprofile  {record}\nplan {record}\nprofile q\nprofile -\n\
             check {record} 2 01111011 by=plain\nlookup {shelf} 0000 1 7\n\
             hsend 0000 {shelf} 1 7 01 1 2 128 128\nsend {record} 01 1 2 128 128"
        )
    };
    let (new, done) = text(&lines(OLD_TOY, &old_shelf));
    assert_eq!(new, lines(NEW_TOY, &new_shelf));
    assert_eq!((done.records, done.lines), (10, 8));
    assert!(done.left.is_empty());
}

#[test]
fn what_was_answered_is_answered_again() {
    let (new, _) = text(&format!("send {OLD_TOY} 01 1 2 128 128"));
    assert_eq!(
        answer(new.as_bytes()).unwrap(),
        "0 128 0000007bb7007bb77b00cc00ccccb7cc"
    );
}

#[test]
fn what_would_be_too_long_stays_and_is_told() {
    // A word that would be over its room, and a line that would be.
    let word = format!("{OLD_TOY}{}", "00".repeat(SHELF_ROOM - 22));
    let long_word = format!("profile {word}");
    let bits = "0".repeat(LINE_ROOM - 7 - 44);
    let long_line = format!("check {OLD_TOY} {bits}");
    assert!(long_line.len() <= LINE_ROOM && long_line.len() + 8 > LINE_ROOM);
    for line in [long_word, long_line] {
        let (new, done) = text(&format!("crc 8 1\n{line}\n"));
        assert_eq!(new, format!("crc 8 1\n{line}\n"));
        assert_eq!((done.records, done.left.len()), (0, 1));
        assert!(done.left[0].starts_with("line 2: it stays: "));
    }
    // What was too long before is no request.
    let line = format!("profile {OLD_TOY} {}", "0".repeat(LINE_ROOM));
    assert_eq!(text(&line), (line.clone(), Done::default()));
}

#[test]
fn a_file_is_written_whole_or_not_at_all() {
    let folder = folder("rewrite");
    let (old, new) = (folder.join("old"), folder.join("new"));
    assert!(rewrite(&old, &new).is_err());
    fs::write(&old, shelf(0, &TOY)).unwrap();
    let error = rewrite(&old, &new).unwrap_err().to_string();
    assert!(error.starts_with(&old.display().to_string()), "{error}");
    assert!(!new.exists());
    fs::write(&old, shelf(0, &old_toy())).unwrap();
    assert_eq!(rewrite(&old, &new).unwrap(), "records rewritten: 2");
    assert_eq!(fs::read(&new).unwrap(), shelf(0, &TOY));
    // Also in its own place.
    fs::write(&old, format!("profile {OLD_TOY}\n")).unwrap();
    assert_eq!(
        rewrite(&old, &old).unwrap(),
        "records rewritten: 1, lines: 1"
    );
    assert_eq!(
        fs::read_to_string(&old).unwrap(),
        format!("profile {NEW_TOY}\n")
    );
    let names = fs::read_dir(&folder).unwrap().count();
    assert_eq!(names, 2);
    fs::remove_dir_all(&folder).unwrap();
}
