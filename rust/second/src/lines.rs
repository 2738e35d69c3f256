//! Cuts the input into lines without keeping more of a line than decides its answer.

use std::io::{self, BufRead, Read};

/// The most octets of a line, its newline not counted (docs/REQUESTS.md, "Lines").
pub const LINE_ROOM: usize = 600_000;

/// One octet over the room shows that a line is too long, so the rest need not be kept.
const KEPT: usize = LINE_ROOM + 1;

/// The next line without its newline, or none where the input has ended.
/// Of a line that is over its length only the first `KEPT` octets are given.
pub fn next_line(input: &mut impl BufRead) -> io::Result<Option<Vec<u8>>> {
    let mut line = Vec::new();
    input
        .by_ref()
        .take(KEPT as u64)
        .read_until(b'\n', &mut line)?;
    if line.is_empty() {
        return Ok(None);
    }
    if line.ends_with(b"\n") {
        line.pop();
    } else if line.len() == KEPT {
        input.skip_until(b'\n')?;
    }
    Ok(Some(line))
}

#[cfg(test)]
mod tests {
    use super::{next_line, KEPT, LINE_ROOM};
    use std::io::BufReader;

    fn lines(input: &[u8]) -> Vec<Vec<u8>> {
        // A small buffer, so that lines lie across its ends.
        let mut input = BufReader::with_capacity(7, input);
        let mut lines = Vec::new();
        while let Some(line) = next_line(&mut input).unwrap() {
            lines.push(line);
        }
        lines
    }

    #[test]
    fn no_input_has_no_line() {
        assert!(lines(b"").is_empty());
    }

    #[test]
    fn a_newline_ends_a_line_and_begins_none() {
        assert_eq!(lines(b"\n"), [b""]);
        assert_eq!(lines(b"one\n\ntwo\n"), [&b"one"[..], b"", b"two"]);
    }

    #[test]
    fn the_last_newline_may_be_missing() {
        assert_eq!(lines(b"one\ntwo"), [b"one", b"two"]);
    }

    #[test]
    fn other_line_ends_are_ordinary_octets() {
        assert_eq!(lines(b"one\r\ntwo\rtwo\0"), [&b"one\r"[..], b"two\rtwo\0"]);
    }

    #[test]
    fn a_line_of_the_full_room_is_given_whole() {
        for end in [&b"\nnext"[..], b""] {
            let input = [&vec![b'a'; LINE_ROOM], end].concat();
            let lines = lines(&input);
            assert_eq!(lines[0].len(), LINE_ROOM);
            assert_eq!(lines.len(), if end.is_empty() { 1 } else { 2 });
        }
    }

    #[test]
    fn an_over_long_line_is_cut_and_the_next_one_follows() {
        for length in [KEPT, KEPT + 1, 2 * KEPT, 2 * KEPT + 1] {
            let input = [&vec![b'a'; length], &b"\nnext\n"[..]].concat();
            let lines = lines(&input);
            assert_eq!(lines[0], vec![b'a'; KEPT]);
            assert_eq!(lines[1..], [b"next"]);
        }
    }

    #[test]
    fn an_over_long_last_line_may_lack_its_newline() {
        for length in [KEPT, KEPT + 1, 2 * KEPT] {
            assert_eq!(lines(&vec![b'a'; length]), [vec![b'a'; KEPT]]);
        }
    }
}
