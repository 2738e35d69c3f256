//! Reads requests line by line and writes the answers in the same order.

use std::io::{self, BufRead, Write};

use crate::answer::answer;
use crate::lines::next_line;

pub fn replay(input: &mut impl BufRead, output: &mut impl Write) -> io::Result<()> {
    while let Some(line) = next_line(input)? {
        if let Some(text) = answer(&line) {
            writeln!(output, "{text}")?;
        }
    }
    Ok(())
}

#[cfg(test)]
mod tests {
    use super::replay;
    use crate::lines::LINE_ROOM;

    fn replayed(input: &[u8]) -> String {
        let mut output = Vec::new();
        replay(&mut &input[..], &mut output).unwrap();
        String::from_utf8(output).unwrap()
    }

    #[test]
    fn nothing_is_answered_with_nothing() {
        assert_eq!(replayed(b""), "");
        assert_eq!(replayed(b"\n\n# only a comment\n   \n"), "");
    }

    #[test]
    fn answers_stand_in_the_order_of_the_requests() {
        let input = b"crc 16 1\n# between\ncrc 8 1\n\ncrc 7 1\n";
        assert_eq!(replayed(input), "0 1021\n0 9b\n8 0\n");
    }

    #[test]
    fn the_last_line_may_lack_its_newline() {
        assert_eq!(replayed(b"crc 8 1\ncrc 16 1"), "0 9b\n0 1021\n");
    }

    #[test]
    fn the_line_after_an_over_long_one_is_read_as_usual() {
        let mut input = vec![b'c'; 3 * LINE_ROOM];
        input.extend_from_slice(b" crc 8 1\ncrc 8 1\n");
        assert_eq!(replayed(&input), "error long\n0 9b\n");
    }

    #[test]
    fn octets_that_are_no_text_do_not_stop_it() {
        assert_eq!(
            replayed(b"\xff\xfe\0\ncrc 8 \x80\n\r\ncrc 8 1\n"),
            "error request\nerror bits\nerror request\n0 9b\n"
        );
    }
}
