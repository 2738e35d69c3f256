//! Runs the program as a user does.

use std::fs::{self, File};
use std::path::Path;
use std::process::{Command, Output, Stdio};

fn page() -> String {
    let page = Path::new(env!("CARGO_MANIFEST_DIR")).join("../../docs/REQUESTS.md");
    fs::read_to_string(page).unwrap()
}

/// The names of the requests that the page lists, in a table under "Requests".
fn kinds(page: &str) -> Vec<&str> {
    let (_, table) = page.split_once("## Requests\n").unwrap();
    let names: Vec<&str> = table
        .lines()
        .filter_map(|line| line.strip_prefix("| `"))
        .map(|line| line.split([' ', '`']).next().unwrap())
        .collect();
    assert!(names.contains(&"crc") && names.len() >= 12, "{names:?}");
    names
}

fn second(arguments: &[&str], input: Stdio) -> Output {
    Command::new(env!("CARGO_BIN_EXE_second"))
        .args(arguments)
        .stdin(input)
        .output()
        .unwrap()
}

#[test]
fn chosen_requests_are_answered_as_recorded() {
    let program = Path::new(env!("CARGO_MANIFEST_DIR")).join("../../crates/kuambyte");
    let output = second(
        &["replay"],
        File::open(program.join("stdin")).unwrap().into(),
    );
    let recorded = fs::read_to_string(program.join("stdout")).unwrap();
    assert_eq!(String::from_utf8(output.stdout).unwrap(), recorded);
    assert!(output.status.success());
}

#[test]
fn the_examples_of_the_format_are_answered_as_it_says() {
    let text = page();
    let examples: Vec<&str> = text
        .lines()
        .filter_map(|line| line.strip_prefix("    "))
        .collect();
    for kind in kinds(&text) {
        let begin = format!("{kind} ");
        assert!(
            examples.iter().any(|line| line.starts_with(&begin)),
            "{kind}"
        );
    }
    let file = Path::new(env!("CARGO_TARGET_TMPDIR")).join("examples");
    fs::write(&file, examples.join("\n")).unwrap();
    let output = second(&["replay"], File::open(&file).unwrap().into());
    let answers = String::from_utf8(output.stdout).unwrap();
    let expected: Vec<&str> = examples
        .iter()
        .map(|line| line.split_once(" # ").unwrap().1)
        .collect();
    assert_eq!(answers.lines().collect::<Vec<&str>>(), expected);
}

#[test]
fn help_says_what_there_is() {
    let output = second(&["help"], Stdio::null());
    let text = String::from_utf8(output.stdout).unwrap();
    for name in [
        "second replay",
        "second generate SEED COUNT",
        "second shelves FOLDER",
        "second pack private|public",
        "second shelf-samples COUNT SEED FOLDER",
        "second tables",
        "second public",
        "second trial",
        "second rewrite OLD NEW",
        "second help",
    ] {
        assert!(text.contains(name));
    }
    assert!(output.status.success());
}

#[test]
fn generate_writes_lines() {
    let output = second(&["generate", "2", "10"], Stdio::null());
    assert_eq!(output.stdout.split(|&octet| octet == b'\n').count(), 11);
    assert!(output.status.success());
}

#[test]
fn generate_writes_lines_of_one_kind() {
    for kind in kinds(&page()) {
        let output = second(&["generate", "2", "50", kind], Stdio::null());
        let text = String::from_utf8_lossy(&output.stdout);
        let begin = format!("{kind} ");
        let count = text.lines().filter(|line| line.starts_with(&begin)).count();
        assert!(count > 25, "{kind}: {count}");
    }
}

#[test]
fn shelves_are_made_from_their_texts() {
    let shelves = Path::new(env!("CARGO_MANIFEST_DIR")).join("../../shelves");
    let made = Path::new(env!("CARGO_TARGET_TMPDIR")).join("shelves");
    fs::create_dir_all(&made).unwrap();
    let folders = [shelves.to_str().unwrap(), made.to_str().unwrap()];
    let output = second(&["shelves", folders[0], folders[1]], Stdio::null());
    assert!(output.status.success());
    assert!(output.stdout.is_empty());
    for name in ["public.shelf", "private.shelf", "trial.shelf"] {
        let shipped = fs::read(shelves.join(name)).unwrap();
        assert_eq!(fs::read(made.join(name)).unwrap(), shipped, "{name}");
    }
}

#[test]
fn a_text_with_a_fault_is_reported_in_one_line() {
    let folder = Path::new(env!("CARGO_TARGET_TMPDIR")).join("fault");
    fs::create_dir_all(&folder).unwrap();
    fs::write(folder.join("public.txt"), "# nothing yet\nz 82\n").unwrap();
    let output = second(&["shelves", folder.to_str().unwrap()], Stdio::null());
    assert_eq!(output.status.code(), Some(1));
    let message = String::from_utf8(output.stderr).unwrap();
    assert!(message.starts_with("second: "));
    assert!(message.ends_with("public.txt: line 2: a table stands before the first record\n"));
    assert!(!folder.join("public.shelf").exists());
}

#[test]
fn a_shelf_is_packed_from_its_text() {
    let shelves = Path::new(env!("CARGO_MANIFEST_DIR")).join("../../shelves");
    for side in ["private", "public"] {
        let text = File::open(shelves.join(side).with_extension("txt")).unwrap();
        let output = second(&["pack", side], text.into());
        assert!(output.status.success());
        let shipped = fs::read(shelves.join(side).with_extension("shelf")).unwrap();
        assert_eq!(output.stdout, shipped, "{side}");
    }
    let text = File::open(shelves.join("private.txt")).unwrap();
    let output = second(&["pack", "public"], text.into());
    assert_eq!(output.status.code(), Some(1));
    assert!(output.stdout.is_empty());
    let message = String::from_utf8(output.stderr).unwrap();
    assert!(
        message.starts_with("second: line 11: the tenant is `3`"),
        "{message}"
    );
}

#[test]
fn sample_shelves_are_written() {
    let folder = Path::new(env!("CARGO_TARGET_TMPDIR")).join("samples");
    let _ = fs::remove_dir_all(&folder);
    let name = folder.to_str().unwrap();
    let output = second(&["shelf-samples", "3", "1", name], Stdio::null());
    assert!(output.status.success());
    assert_eq!(fs::read_dir(&folder).unwrap().count(), 3);
}

#[test]
fn a_text_without_the_tables_is_reported() {
    for command in ["tables", "public", "trial"] {
        let output = second(&[command], Stdio::null());
        assert_eq!(output.status.code(), Some(1));
        let message = String::from_utf8(output.stderr).unwrap();
        assert!(message.starts_with("second: table 5.1.3.2-"), "{message}");
    }
}

#[test]
fn what_is_stored_in_the_old_form_is_rewritten() {
    let folder = Path::new(env!("CARGO_TARGET_TMPDIR")).join("rewrite");
    fs::create_dir_all(&folder).unwrap();
    let (old, new) = (folder.join("old"), folder.join("new"));
    let _ = fs::remove_file(&new);
    let names = [old.to_str().unwrap(), new.to_str().unwrap()];
    fs::write(
        &old,
        "plan 0001000300010002000A000100FF01000000FF01FF00 13\n",
    )
    .unwrap();
    let output = second(&["rewrite", names[0], names[1]], Stdio::null());
    assert!(output.status.success());
    assert!(output.stdout.is_empty());
    assert_eq!(output.stderr, b"records rewritten: 1, lines: 1\n");
    let answers = second(&["replay"], File::open(&new).unwrap().into());
    assert_eq!(answers.stdout, b"0 128 64 2 2 0\n");
    // What is rewritten is not rewritten again.
    let output = second(&["rewrite", names[1], names[0]], Stdio::null());
    assert_eq!(output.status.code(), Some(1));
    let message = String::from_utf8(output.stderr).unwrap();
    assert!(
        message.ends_with("line 1: a record has the new form already\n"),
        "{message}"
    );
}

#[test]
fn other_commands_are_refused() {
    for arguments in [
        &[][..],
        &["reply"],
        &["replay", "file"],
        &["generate"],
        &["generate", "1"],
        &["generate", "one", "1"],
        &["generate", "1", "18446744073709551616"],
        &["generate", "1", "1", "1"],
        &["generate", "1", "1", "plans"],
        &["generate", "1", "1", "plan", "plan"],
        &["shelves"],
        &["shelves", "from", "to", "on"],
        &["pack"],
        &["pack", "both"],
        &["pack", "private", "file"],
        &["shelf-samples", "1", "1"],
        &["shelf-samples", "one", "1", "folder"],
        &["shelf-samples", "1", "-1", "folder"],
        &["tables", "file"],
        &["public", "file"],
        &["trial", "file"],
        &["rewrite"],
        &["rewrite", "old"],
        &["rewrite", "old", "new", "on"],
        &["help", "me"],
    ] {
        let output = second(arguments, Stdio::null());
        assert_eq!(output.status.code(), Some(2), "{arguments:?}");
        assert!(output.stdout.is_empty());
        let message = String::from_utf8(output.stderr).unwrap();
        assert_eq!(message.lines().count(), 1);
    }
}
