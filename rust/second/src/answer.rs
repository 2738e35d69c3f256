//! Answers one line (docs/REQUESTS.md, "Requests" and "Errors").

use crate::errors::Fault;
use crate::requests::request;

/// The answer without its newline, or none for a line that has no answer.
pub fn answer(line: &[u8]) -> Option<String> {
    match request(line) {
        Ok(None) => None,
        Ok(Some((kind, given))) => Some((kind.answer)(given).unwrap_or_else(error)),
        Err(fault) => Some(error(fault)),
    }
}

fn error(fault: Fault) -> String {
    format!("error {}", fault.word())
}

#[cfg(test)]
mod tests {
    use super::answer;
    use crate::kinds::parts::{digits, hex};
    use crate::lines::LINE_ROOM;
    use crate::samples::{bits_of_hex, twenty, TWENTY_SENT};
    use crate::words::BITS_ROOM;

    const TOY: &str = "000100030000000100010002000E000100FF01000000FF01FF00";

    /// The 128 bits of document 01's case P10.
    const P10: &str = "\
        00000000000000000000000001111011101101110000000001111011101101110111101100000000110011000\
        00000001100110011001100\
        1011011111001100";

    fn answered(line: &str) -> String {
        answer(line.as_bytes()).unwrap()
    }

    #[test]
    fn the_examples_of_the_format() {
        assert_eq!(answered("crc 24 00000001"), "0 864cfb");
        assert_eq!(answered("crc 7 1"), "8 0");
        assert_eq!(answered("crc 8 12"), "12 0");
        assert_eq!(answered("crc24b 1"), "0 800063");
        assert_eq!(answered("crc24b -"), "0 0");
        assert_eq!(answered("crc24b 12"), "12 0");
        assert_eq!(answered("crcoct 24 01"), "0 864cfb");
        assert_eq!(answered("crcoct 7 01"), "8 0");
        assert_eq!(answered("crcm 16 ffff 1"), "0 efde");
        assert_eq!(answered("crcm 8 1ff 1"), "0 64");
        assert_eq!(answered("crcm 7 ffff 1"), "8 0");
        assert_eq!(answered("crcm 8 ff 12"), "12 0");
        assert_eq!(answered("crcappend 16 ffff 1 17"), "0 17 f7ef00");
        assert_eq!(answered("crcappend 15 ffff 1 17"), "8 0 -");
        assert_eq!(answered("crcappend 16 ffff 1 16"), "11 0 -");
        assert_eq!(answered("crcappend 16 ffff 2 17"), "12 0 -");
        let word = "11110111111011110";
        assert_eq!(answered(&format!("crctest 16 ffff {word}")), "0 1");
        assert_eq!(answered(&format!("crctest 16 0 {word}")), "0 0");
        assert_eq!(answered("crctest 16 ffff 1111"), "0 0");
        assert_eq!(answered("crctest 0 ffff -"), "8 0");
        assert_eq!(answered("crctest 16 ffff 2"), "12 0");
        assert_eq!(answered(&format!("profile {TOY}")), "0");
        assert_eq!(answered(&format!("profile {TOY}00")), "5");
        assert_eq!(answered(&format!("plan {TOY} 13")), "0 128 64 2 2 0");
        assert_eq!(answered(&format!("plan {TOY} 14")), "9 0 0 0 0 0");
        assert_eq!(answered(&format!("encode {TOY} 2 12 8")), "0 8 12110111");
        assert_eq!(answered(&format!("encode {TOY} 2 12 7")), "11 0 -");
        assert_eq!(answered(&format!("check {TOY} 2 01111011")), "0 1");
        assert_eq!(answered(&format!("check {TOY} 2 01111010")), "0 0");
        assert_eq!(answered(&format!("check {TOY} 2 21111011")), "12 0");
        assert_eq!(answered(&format!("sums {TOY} 2 01111011 6")), "0 6 000000");
        assert_eq!(answered(&format!("sums {TOY} 2 11111111 7")), "0 6 110000");
        assert_eq!(answered(&format!("sums {TOY} 2 01111011 5")), "11 0 -");
        assert_eq!(answered(&format!("sums {TOY} 2 0111101 6")), "8 0 -");
        assert_eq!(answered("rate 9 1200 9"), "0 9 9200");
        assert_eq!(answered("rate 1 22 1"), "8 0 -");
        assert_eq!(
            answered(&format!("send {TOY} 01 1 2 128 128")),
            "0 128 0000007bb7007bb77b00cc00ccccb7cc"
        );
        assert_eq!(answered(&format!("send {TOY} 01 1 2 30 128")), "10 0 -");
        assert_eq!(answered(&format!("recv {TOY} 8 1 2 {P10} 1")), "0 1 01");
        assert_eq!(answered(&format!("recv {TOY} 16 1 2 {P10} 2")), "13 0 -");
        let shelves = format!("00010001000700{:02x}001A{TOY} 0000", 10);
        assert_eq!(
            answered(&format!("lookup {shelves} 1 7")),
            "0 private 10 26"
        );
        assert_eq!(answered(&format!("lookup {shelves} 2 7")), "4 public 0 0");
        assert_eq!(
            answered(&format!("hsend {shelves} 1 7 01 1 2 128 128")),
            "0 128 0000007bb7007bb77b00cc00ccccb7cc"
        );
        assert_eq!(
            answered(&format!("hrecv {shelves} 1 7 8 1 2 {P10} 1")),
            "0 1 01"
        );
        assert_eq!(
            answered(&format!("hrecv {shelves} 0 7 8 1 2 {P10} 1")),
            "1 0 -"
        );
        assert_eq!(answered(&format!("hcheck {shelves} 1 7 2 01111011")), "0 1");
        assert_eq!(answered(&format!("hcheck {shelves} 1 7 2 01111010")), "0 0");
        assert_eq!(answered(&format!("hcheck {shelves} 2 7 2 01111011")), "4 0");
        let (toy, private) = (TOY.to_lowercase(), format!("000100010007000a001a{TOY}"));
        let put = format!("0 36 000100010007000a001a{toy}");
        assert_eq!(answered(&format!("put 0000 1 7 {TOY} 36")), put);
        assert_eq!(answered(&format!("put 0000 1 7 {TOY} 35")), "11 0 -");
        assert_eq!(answered(&format!("put 0000 0 7 {TOY} 36")), "1 0 -");
        assert_eq!(answered(&format!("remove {private} 1 7 2")), "0 2 0000");
        assert_eq!(answered(&format!("remove {private} 1 8 2")), "4 0 -");
    }

    #[test]
    fn the_examples_of_control_words() {
        for (line, text) in [
            ("tbenc 100000 18", "0 18 35c680"),
            ("tbenc 000001 18", "0 18 6b8d00"),
            ("tbenc 10000 18", "17 0 -"),
            ("tbenc 100000 17", "11 0 -"),
            ("tbenc 200000 18", "12 0 -"),
            ("tbenc x:010000000000 18", "0 18 35c680"),
            ("tbsend 101100 18 18", "0 18 ed6bc0"),
            ("tbsend 101100 20 20", "0 20 ed6bf0"),
            ("tbsend 101100 1 1", "0 1 80"),
            ("tbsend - 18 18", "17 0 -"),
            ("tbsend 101100 0 18", "8 0 -"),
            ("tbsend 101100 18 17", "11 0 -"),
            ("tbsend 10110x 18 18", "error bits"),
            ("tbrm 6 110111111000101111 18 18", "0 18 ed6bc0"),
            ("tbrm 6 110111111000101111 20 20", "0 20 ed6bf0"),
            ("tbrm 5 110111111000101 20 20", "17 0 -"),
            ("tbrm 6 11011111100010111 18 18", "8 0 -"),
            ("tbrm 6 110111111000101112 18 18", "12 0 -"),
            ("tbback 6 111011010110101111 18", "0 18 df8bc0"),
            ("tbback 6 11101101011010111111 18", "0 18 df8bc0"),
            ("tbback 6 11101101011010111110 18", "14 0 -"),
            ("tbback 6 11101101011010111 18", "13 0 -"),
            ("tbback 6 111011010110101113 18", "12 0 -"),
            ("tbback 6 111011010110101111 17", "11 0 -"),
            ("tbback 6 - 18", "8 0 -"),
            ("tbback 129 - 18", "17 0 -"),
            ("near 6 011010111000110100 6", "0 6 04 0"),
            ("near 6 001011110010110110 6", "0 6 6c 4"),
            ("near 6 001011110010110110 140000", "0 6 6c 4"),
            ("near 7 110100111010001001101 7", "0 7 52 6"),
            ("near 5 011010111000110 5", "17 0 - 0"),
            ("near 129 - 0", "17 0 - 0"),
            ("near 6 01101011100011010 6", "8 0 - 0"),
            ("near 6 0110101110001101000 6", "8 0 - 0"),
            ("near 6 - 6", "8 0 - 0"),
            ("near 6 011010111000110100 5", "11 0 - 0"),
            ("near 6 011010111000110102 6", "12 0 - 0"),
            ("near 6 01101011100011010q 6", "error bits"),
        ] {
            assert_eq!(answered(line), text, "{line}");
        }
    }

    #[test]
    fn optional_numbers_are_read() {
        let record = "000100030001000200010003000E000100FFFF02000000FF0101FF00FFFF02FF0100";
        let bits = "15eafac3f595f59515ea0000e07fef29f59515ea1abc";
        let send = format!("send {record} A5 1 2 176 176");
        let first = answered(&send);
        assert_eq!(answered(&format!("{send} rv=0")), first);
        assert_eq!(answered(&format!("{send} rv=001")), format!("0 176 {bits}"));
        for (rv, text) in [
            ("4", "16 0 -"),
            ("18446744073709551615", "16 0 -"),
            ("18446744073709551616", "error number"),
            ("", "error number"),
            ("one", "error number"),
            ("1 rv=1", "error words"),
            ("1 by=plain", "error words"),
            ("1 type=2", "error words"),
        ] {
            assert_eq!(answered(&format!("{send} rv={rv}")), text, "{rv}");
        }
        assert_eq!(
            answered(&format!("send {record} - 1 2 176 176 rv=4")),
            "7 0 -"
        );
        assert_eq!(
            answered(&format!("send {record} A5 9 2 176 176 rv=4")),
            "16 0 -"
        );
        assert_eq!(
            answered(&format!("send {TOY} 01 1 2 128 128 rv=1")),
            "16 0 -"
        );
        // The bits of rv 1 again, one digit each.
        let digits = digits(&bits_of_hex(bits, 176));
        let shelves = format!("000100010007000A0022{record} 0000 1 7");
        for (line, text) in [
            (format!("recv {record} 8 1 2 {digits} 1"), "14 0 -"),
            (format!("recv {record} 8 1 2 {digits} 1 rv=1"), "0 1 a5"),
            (
                format!("recv {record} 8 1 2 {digits} 1 rv=1 by=plain"),
                "0 1 a5",
            ),
            (
                format!("recv {record} 8 1 2 {digits} 1 by=plain rv=1"),
                "0 1 a5",
            ),
            (
                format!("recv {record} 8 1 2 {digits} 1 by=plain rv=2"),
                "14 0 -",
            ),
            (format!("recv {record} 8 9 2 {digits} 1 rv=4"), "16 0 -"),
            (format!("recv {record} 9 1 2 {digits} 1 rv=4"), "7 0 -"),
            (format!("hrecv {shelves} 8 1 2 {digits} 1 rv=1"), "0 1 a5"),
            (format!("hrecv {shelves} 8 1 2 {digits} 1 rv=4"), "16 0 -"),
            (format!("hsend {shelves} A5 1 2 176 176 rv=4"), "16 0 -"),
        ] {
            assert_eq!(answered(&line), text, "{line}");
        }
        let hosted = answered(&format!("hsend {shelves} A5 1 2 176 176 rv=1"));
        assert_eq!(hosted, format!("0 176 {bits}"));
    }

    #[test]
    fn an_edition_is_read() {
        let record = hex(&twenty().octets());
        let [one, two] = TWENTY_SENT;
        let send = format!("send {record} 010203 1 2 138 138");
        for (ending, text) in [
            ("", format!("0 138 {one}")),
            (" ed=1", format!("0 138 {one}")),
            (" ed=2", format!("0 138 {two}")),
            (" ed=002 rv=0", format!("0 138 {two}")),
            (" rv=1 ed=2", "16 0 -".to_string()),
            (" rv=1 ed=3", "19 0 -".to_string()),
            (" ed=0", "19 0 -".to_string()),
            (" ed=18446744073709551615", "19 0 -".to_string()),
            (" ed=18446744073709551616", "error number".to_string()),
            (" ed=", "error number".to_string()),
            (" ed=two", "error number".to_string()),
            (" ed=2 ed=2", "error words".to_string()),
            (" ED=2", "error words".to_string()),
        ] {
            assert_eq!(answered(&format!("{send}{ending}")), text, "{ending}");
        }
        for (ending, text) in [
            ("3", "0 48 2 40 2 0"),
            ("3 ed=1", "0 48 2 40 2 0"),
            ("3 ed=2", "0 48 3 40 2 24"),
            ("1 ed=2", "0 32 1 40 2 0"),
            ("125 ed=2", "0 1024 64 40 2 24"),
            ("126 ed=2", "9 0 0 0 0 0"),
            ("0 ed=2", "7 0 0 0 0 0"),
            ("0 ed=3", "19 0 0 0 0 0"),
            ("3 rv=0", "error words"),
        ] {
            assert_eq!(answered(&format!("plan {record} {ending}")), text);
        }
        assert_eq!(answered("plan - 0 ed=3"), "5 0 0 0 0 0");
        // The bits again, one digit each.
        let digits = digits(&bits_of_hex(two, 138));
        let shelves = format!("000100010007000A0053{record} 0000 1 7");
        for (line, text) in [
            (format!("recv {record} 24 1 2 {digits} 3"), "14 0 -"),
            (
                format!("recv {record} 24 1 2 {digits} 3 ed=2"),
                "0 3 010203",
            ),
            (
                format!("recv {record} 24 1 2 {digits} 3 by=plain rv=0 ed=2"),
                "0 3 010203",
            ),
            (format!("recv {record} 24 1 2 {digits} 3 ed=4"), "19 0 -"),
            (
                format!("hrecv {shelves} 24 1 2 {digits} 3 ed=2"),
                "0 3 010203",
            ),
            (format!("hrecv {shelves} 24 1 2 {digits} 3 ed=1"), "14 0 -"),
            (format!("hrecv {shelves} 24 1 2 {digits} 3 ed=0"), "19 0 -"),
        ] {
            assert_eq!(answered(&line), text, "{line}");
        }
        let hosted = answered(&format!("hsend {shelves} 010203 1 2 138 138 ed=2"));
        assert_eq!(hosted, format!("0 138 {two}"));
    }

    #[test]
    fn rate_has_a_type_and_a_version() {
        // Places 0 to 7 are 10011100.
        for (words, text) in [
            ("", "0 8 9c"),
            (" type=1", "0 8 9c"),
            (" type=2", "0 8 9c"),
            (" rv=0", "0 8 9c"),
            (" type=2 rv=1", "0 8 72"),
            (" rv=2 type=2", "0 8 c9"),
            (" rv=3 type=2", "0 8 27"),
            (" rv=1", "16 0 -"),
            (" type=2 rv=4", "16 0 -"),
            (" type=0", "5 0 -"),
            (" type=3 rv=4", "5 0 -"),
            (" type=2 rv=1 rv=1", "error words"),
            (" by=plain", "error words"),
            (" type=", "error number"),
        ] {
            assert_eq!(
                answered(&format!("rate 8 10011100 8{words}")),
                text,
                "{words}"
            );
        }
    }

    #[test]
    fn either_checker_says_the_same() {
        let shelves = format!("00010001000700{:02x}001A{TOY} 0000 1 7", 10);
        for (line, answers) in [
            (format!("check {TOY} 2 01111011"), "0 1"),
            (format!("check {TOY} 2 01111010"), "0 0"),
            (format!("check {TOY} 3 01111011"), "8 0"),
            (format!("recv {TOY} 8 1 2 {P10} 1"), "0 1 01"),
            (format!("recv {TOY} 8 1 2 {P10} 0"), "11 0 -"),
            (format!("hrecv {shelves} 8 1 2 {P10} 1"), "0 1 01"),
            (format!("hrecv {shelves} 8 1 4 {P10} 1"), "0 1 01"),
            (format!("hcheck {shelves} 2 01111011"), "0 1"),
            (format!("hcheck {shelves} 2 01111012"), "12 0"),
        ] {
            for ending in ["", " by=quick", " by=plain", " by=plain # comment"] {
                assert_eq!(
                    answered(&(line.clone() + ending)),
                    answers,
                    "{line}{ending}"
                );
            }
            assert_eq!(answered(&(line + " by=slow")), "error words");
        }
    }

    #[test]
    fn values_have_no_leading_zeros() {
        assert_eq!(answered("crc 24 -"), "0 0");
        assert_eq!(answered("crc 8 0"), "0 0");
        // Multiples of the generators, written in hexadecimal as message and remainder:
        // 13 04 is 1c times 19b, 11 0210 is 10 times 11021, 3 0c99f6 is 2 times 1864cfb.
        assert_eq!(answered("crc 8 10011"), "0 4");
        assert_eq!(answered("crc 16 10001"), "0 210");
        assert_eq!(answered("crc 24 11"), "0 c99f6");
        // P5 with nearly all of the checksum taken away by the mask, and P4 with all of it.
        assert_eq!(answered("crcm 8 9a 1"), "0 1");
        assert_eq!(answered("crcm 16 1021 1"), "0 0");
    }

    #[test]
    fn none_written_is_a_dash() {
        assert_eq!(answered("rate 0 - 0"), "0 0 -");
        assert_eq!(answered("rate 0 22 140000"), "0 0 -");
    }

    #[test]
    fn the_last_octet_is_filled_up_with_zeros() {
        assert_eq!(answered("rate 1 1 1"), "0 1 80");
        assert_eq!(answered("rate 8 1 8"), "0 8 ff");
        assert_eq!(answered("rate 9 1 9"), "0 9 ff80");
    }

    #[test]
    fn a_comment_has_no_answer() {
        assert_eq!(answer(b"# crc 8 1"), None);
        assert_eq!(answer(b""), None);
    }

    #[test]
    fn every_error_word() {
        assert_eq!(answered(&" ".repeat(LINE_ROOM + 1)), "error long");
        assert_eq!(answered("src 8 1"), "error request");
        assert_eq!(answered("crc 8"), "error words");
        assert_eq!(answered("crc 8 1 by=plain"), "error words");
        assert_eq!(answered("sums - 2 - 0 by=plain"), "error words");
        assert_eq!(answered("crc eight 1"), "error number");
        assert_eq!(answered("crcm 8 eight 1"), "error number");
        assert_eq!(answered("crctest 8 x:01 1"), "error number");
        let long = "1".repeat(BITS_ROOM + 1);
        assert_eq!(answered(&format!("crc 8 {long}")), "error long");
        assert_eq!(answered("crc 8 one"), "error bits");
        assert_eq!(answered("profile one"), "error hex");
        assert_eq!(answered("crcoct 8 one"), "error hex");
    }
}
