//! A whole script: bytes in, text out (01, "A whole script", and 02, 2.1 and
//! 2.10).

use std::fmt::Write;

use crate::board::{Answer, Board, Obey};
use crate::config::{Config, STRONG};
use crate::records::Reader;
use crate::refusal::Refusal;
use crate::text;

/// The longest script.
pub const LONGEST_SCRIPT: usize = 65_536;

/// A buffer of this length has room for the text of every script.
pub const ROOM_FOR_TEXT: usize = 16 * LONGEST_SCRIPT + 64;

/// The text that the program board prints for this script.
pub fn run(script: &[u8]) -> String {
    run_by(script, Board::obey)
}

/// The same, each call obeyed in this way.
pub(crate) fn run_by(script: &[u8], obey: Obey) -> String {
    match lines(script, obey) {
        Ok(text) => text,
        Err(refusal) => format!("{refusal}\n"),
    }
}

/// Stores the text in a lent buffer and answers its length; refuses 10, with
/// no byte written, if the buffer is shorter than all that is to be written.
pub fn run_into(script: &[u8], buffer: &mut [u8]) -> Result<usize, Refusal> {
    let text = run(script);
    let lent = buffer.get_mut(..text.len()).ok_or(Refusal::Buffer)?;
    lent.copy_from_slice(text.as_bytes());
    Ok(text.len())
}

/// The lines from a board that stands, or why none does: 9, then reading the
/// set-up, then 1.
fn lines(script: &[u8], obey: Obey) -> Result<String, Refusal> {
    if script.len() > LONGEST_SCRIPT {
        return Err(Refusal::TooLong);
    }
    let mut reader = Reader::new(script);
    let config = set_up(&mut reader)?;
    let mut board = Board::fresh(config)?;

    let mut text = first_line(&config);
    let mut number = 0u32;
    while !reader.at_end() {
        number += 1;
        let read = reader.record();
        let answer = match &read {
            Ok(call) => Answer::from(obey(&mut board, call)),
            Err(refusal) => Answer::from(*refusal),
        };
        write!(text, "{number} ").expect("a String takes everything");
        text::put_answer(&mut text, &answer);
        text.push('\n');
        if read.is_err() {
            break;
        }
    }
    text.push_str(&format!("tuples {}\n", board.count));
    Ok(text)
}

/// Reads n, t and the policy number, and under policy 3 k, sound or not.
pub(crate) fn set_up(reader: &mut Reader) -> Result<Config, Refusal> {
    let n = reader.number()?;
    let t = reader.number()?;
    let policy = reader.number()?;
    let k = if policy == STRONG { reader.number()? } else { 0 };
    Ok(Config { n, t, policy, k })
}

/// board, n, t, policy, and under policy 3 k.
fn first_line(config: &Config) -> String {
    let Config { n, t, policy, k } = config;
    match *policy {
        STRONG => format!("board {n} {t} {policy} {k}\n"),
        _ => format!("board {n} {t} {policy}\n"),
    }
}

#[cfg(test)]
mod tests {
    use super::*;

    /// Bytes from two-digit hexadecimal groups.
    fn hex(text: &str) -> Vec<u8> {
        text.split_whitespace().map(|byte| u8::from_str_radix(byte, 16).unwrap()).collect()
    }

    const WORKED: &str = "04 01 02
        01 01 04 04 01 08 00 08 01 0C 50
        02 01 04 04 01 08 00 08 02 0C 51
        03 01 04 04 01 08 00 08 03 0C 50
        04 04 04 04 02 08 00 0E 11 04 04 02 08 00 0C 51 10 02
        01 04 04 04 02 08 00 0E 11 04 04 02 08 00 0C 50 10 05
        02 02 04 04 02 08 00 0E 11
        05 02 01 05";

    const WORKED_TEXT: &str = "board 4 1 2\n1 done\n2 done\n3 done\n4 refused 13\n5 inserted\n\
        6 found w2 c0 o-40 s5\n7 refused 6\ntuples 4\n";

    #[test]
    fn the_worked_script() {
        assert_eq!(run(&hex(WORKED)), WORKED_TEXT);
    }

    #[test]
    fn a_lent_buffer() {
        let mut buffer = [0xA5; 200];
        let length = run_into(&hex(WORKED), &mut buffer).unwrap();
        assert_eq!(&buffer[..length], WORKED_TEXT.as_bytes());
        assert!(buffer[length..].iter().all(|byte| *byte == 0xA5));
        let mut buffer = vec![0xA5; length - 1];
        assert_eq!(run_into(&hex(WORKED), &mut buffer), Err(Refusal::Buffer));
        assert!(buffer.iter().all(|byte| *byte == 0xA5));
    }

    #[test]
    fn before_a_board_stands() {
        let rows = [
            ("", "refused 2\n"),
            ("04", "refused 2\n"),
            ("04 01", "refused 2\n"),
            ("04 01 82", "refused 2\n"),
            ("84 00 01 02", "refused 3\n"),
            ("00 00 80 00", "refused 3\n"),
            ("03 01 02", "refused 1\n"),
            ("04 01 06", "refused 1\n"),
            ("03 01 04", "refused 1\n"),
            ("03 01 05", "refused 1\n"),
            ("00 00 00", "refused 1\n"),
            ("20 00 02", "refused 1\n"),
            ("1F 0B 02", "refused 1\n"),
            ("1F FF FF FF FF 0F 00", "refused 1\n"),
            ("04 01 00", "board 4 1 0\ntuples 0\n"),
            ("01 00 02", "board 1 0 2\ntuples 0\n"),
            ("04 01 04", "board 4 1 4\ntuples 0\n"),
            ("04 01 05", "board 4 1 5\ntuples 0\n"),
            ("1F 0A 02", "board 31 10 2\ntuples 0\n"),
        ];
        for (script, text) in rows {
            assert_eq!(run(&hex(script)), text, "{script}");
        }
    }

    #[test]
    fn the_fourth_number() {
        let rows = [
            ("04 01 03", "refused 2\n"),
            ("00 01 03", "refused 2\n"),
            ("04 01 03 82", "refused 2\n"),
            ("04 01 03 80 00", "refused 3\n"),
            ("00 01 03 80 00", "refused 3\n"),
            ("04 01 03 FF FF FF FF 10", "refused 1\n"),
            ("04 01 03 FF FF FF FF FF FF FF FF FF 02", "refused 3\n"),
            ("04 00 03 FF FF FF FF 0F", "refused 1\n"),
            ("04 00 03 00", "refused 1\n"),
            ("04 00 03 01", "refused 1\n"),
            ("04 00 03 09", "refused 1\n"),
            ("03 01 03 02", "refused 1\n"),
            ("09 01 03 08", "refused 1\n"),
            ("04 01 03 02", "board 4 1 3 2\ntuples 0\n"),
            ("0A 01 03 08", "board 10 1 3 8\ntuples 0\n"),
            ("1F 0A 03 03", "refused 1\n"),
            ("1F 0A 03 02", "board 31 10 3 2\ntuples 0\n"),
            ("01 00 03 08", "board 1 0 3 8\ntuples 0\n"),
            // Under the other policies a record follows, and policy 6 needs no further number.
            ("04 01 02 02", "board 4 1 2\n1 refused 2\ntuples 0\n"),
            ("04 01 00 02 01 01 04 07", "board 4 1 0\n1 done\ntuples 1\n"),
            ("04 01 04 02", "board 4 1 4\n1 refused 2\ntuples 0\n"),
            ("04 01 04 80 00", "board 4 1 4\n1 refused 3\ntuples 0\n"),
            ("04 01 05 02", "board 4 1 5\n1 refused 2\ntuples 0\n"),
            ("04 01 05 80 00", "board 4 1 5\n1 refused 3\ntuples 0\n"),
            ("04 01 06 80 00", "refused 1\n"),
        ];
        for (script, text) in rows {
            assert_eq!(run(&hex(script)), text, "{script}");
        }
    }

    #[test]
    fn long_numbers_of_a_set_up() {
        let rows = [
            // n, t, the policy, k: alone, and before a cut or an unshortest number.
            ("84 80 80 80 10 01 02", "refused 1\n"),
            ("84 80 80 80 10", "refused 2\n"),
            ("84 80 80 80 10 81", "refused 2\n"),
            ("84 80 80 80 10 81 00 02", "refused 3\n"),
            ("84 80 80 80 10 01", "refused 2\n"),
            ("84 80 80 80 10 01 82 00", "refused 3\n"),
            ("84 80 80 80 10 01 03", "refused 2\n"),
            ("84 80 80 80 10 01 03 82 00", "refused 3\n"),
            ("04 81 80 80 80 10 02", "refused 1\n"),
            ("04 FF FF FF FF 10 02", "refused 1\n"),
            ("04 81 80 80 80 10", "refused 2\n"),
            ("04 81 80 80 80 10 82 00", "refused 3\n"),
            ("04 01 82 80 80 80 10", "refused 1\n"),
            // No k follows a policy that is none, though its low bits are those of 3.
            ("04 01 83 80 80 80 10", "refused 1\n"),
            ("04 01 83 80 80 80 10 80", "refused 1\n"),
            ("04 01 83 80 80 80 10 80 00", "refused 1\n"),
            ("04 01 03 82 80 80 80 10", "refused 1\n"),
            ("04 01 03 82 80 80 80 90", "refused 2\n"),
            ("04 01 03 82 80 80 80 90 00", "refused 3\n"),
            // The largest number, one more, and ten bytes that go on.
            ("FF FF FF FF FF FF FF FF FF 01 01 02", "refused 1\n"),
            ("FF FF FF FF FF FF FF FF FF 02 01 02", "refused 3\n"),
            ("80 80 80 80 80 80 80 80 80", "refused 2\n"),
            ("80 80 80 80 80 80 80 80 80 80", "refused 3\n"),
            // 3t + 1 is 2^64, and 9t + 1 is 2^64 + 3.
            ("04 D5 AA D5 AA D5 AA D5 AA 55 02", "refused 1\n"),
            ("0A F2 B8 9C 8E C7 E3 F1 B8 1C 03 08", "refused 1\n"),
        ];
        for (script, text) in rows {
            assert_eq!(run(&hex(script)), text, "{script}");
        }
    }

    #[test]
    fn a_round_among_choices() {
        let script = "04 01 03 02
            01 01 04 04 01 08 00 08 01 0C 01
            02 01 04 04 01 08 00 08 02 0C 03
            03 01 04 04 01 08 00 08 03 0C 05
            03 01 04 04 01 08 00 08 03 0C 03
            03 01 04 04 01 08 00 08 03 0C 01
            04 04 04 04 02 08 00 0E 11 04 04 02 08 00 0C 00 10 07
            04 04 04 04 02 08 00 0E 11 04 04 02 08 00 0C 03 10 07
            01 04 04 04 02 08 00 0E 11 04 04 02 08 00 0C 03 10 06
            02 02 04 04 02 08 00 0E 11";
        let text = "board 4 1 3 2\n1 done\n2 done\n3 refused 7\n4 done\n5 refused 12\n6 refused 7\n\
            7 refused 13\n8 inserted\n9 found w2 c0 o1 s6\ntuples 4\n";
        assert_eq!(run(&hex(script)), text);
    }

    #[test]
    fn a_shared_list() {
        let script = "04 01 04
            01 04 05 04 03 08 01 09 09 0E 05 04 03 08 01 08 01 08 00 0C 50
            02 04 05 04 03 08 01 09 09 0E 05 04 03 08 01 08 02 08 00 0C 51
            01 04 05 04 03 08 01 09 09 0E 05 04 03 08 01 08 01 08 00 0C 50
            02 04 05 04 03 08 03 09 09 0E 05 04 03 08 03 08 02 08 00 0C 51
            02 04 05 04 03 08 02 09 09 0E 05 04 03 08 02 08 02 08 00 0C 00
            02 04 05 04 03 08 02 09 09 0E 05 04 03 08 02 08 02 08 00 0C 51
            03 01 05 04 03 08 03 08 03 08 00 0C 03
            03 03 05 04 03 08 02 09 09 0E
            03 02 05 04 03 08 02 09 09 0E
            03 02 05 04 03 08 03 0A 09 0D";
        let text =
            "board 4 1 4\n1 inserted\n2 held w3 c1 c1 c0 o-40\n3 refused 7\n4 refused 7\n5 refused 7\n\
            6 inserted\n7 refused 7\n8 refused 7\n9 found w3 c2 c2 c0 o40\n10 none\ntuples 2\n";
        assert_eq!(run(&hex(script)), text);
    }

    #[test]
    fn a_shared_list_with_announcements() {
        // Seat 2 announces -40, and seat 1 lists it at position 2.
        let script = "04 01 05
            02 01 04 04 04 08 02 08 07 0C 50
            02 01 04 04 04 08 02 08 08 0C 50
            03 04 05 04 03 08 01 09 09 0E 05 04 03 08 01 08 02 08 07 0C 50
            01 04 05 04 03 08 01 09 09 0E 05 04 03 08 01 08 01 08 00 0C 51
            01 04 05 04 03 08 02 09 09 0E 05 04 03 08 02 08 01 08 01 0C 51
            02 04 05 04 03 08 02 09 09 0E 05 04 03 08 02 08 02 08 08 0C 50
            03 02 04 04 04 08 02 09 0E
            01 04 05 04 03 08 02 09 09 0E 05 04 03 08 02 08 02 08 07 0C 50
            03 04 05 04 03 08 02 09 09 0E 05 04 03 08 02 08 02 08 07 0C 50
            01 03 04 04 04 08 02 09 0E
            02 03 04 04 04 08 02 08 07 0E
            02 03 04 04 04 08 02 0A 0D
            02 03 04 04 04 08 02 09 0E
            02 01 04 04 04 08 02 08 08 0C 00
            02 01 04 04 04 08 02 08 08 0C 50";
        let text = "board 4 1 5\n1 done\n2 refused 7\n3 refused 7\n4 inserted\n5 refused 7\n6 refused 7\n\
            7 found w4 c2 c7 o-40\n8 inserted\n9 refused 7\n10 refused 7\n11 refused 7\n\
            12 found w4 c2 c7 o-40\n13 none\n14 refused 7\n15 done\ntuples 3\n";
        assert_eq!(run(&hex(script)), text);
    }

    #[test]
    fn an_unreadable_record_ends_the_script() {
        let rows = [
            ("01", "1 refused 2\ntuples 0\n"),
            ("01 01 01 04 80 02 01 01 01 04 01", "1 refused 3\ntuples 0\n"),
            ("01 05", "1 refused 4\ntuples 0\n"),
            ("01 01 01 04 01 01 01 07", "1 done\n2 refused 5\ntuples 1\n"),
            ("05 01 01 04 01 01 01 01 04 FF 01", "1 refused 6\n2 done\ntuples 1\n"),
            ("01 01 01 10 80 80 80 80 08 01 01 01 04 01", "1 refused 3\ntuples 0\n"),
            ("01 01 01 10 80 80 02 01 01 01 10 FF FF FF FF 07", "1 done\n2 done\ntuples 2\n"),
            ("81 80 80 80 10 01 01 04 01", "1 refused 3\ntuples 0\n"),
            ("01 81 80 80 80 10 01 04 01", "1 refused 4\ntuples 0\n"),
            ("01 01 81 80 80 80 10 04 01", "1 refused 5\ntuples 0\n"),
            ("01 01 01 84 80 80 80 10 01", "1 refused 4\ntuples 0\n"),
            ("01 01 01 04 81 80 80 80 10", "1 refused 3\ntuples 0\n"),
            ("01 01 01 08 81 80 80 80 10 01 01 01 04 01", "1 done\n2 done\ntuples 2\n"),
            ("FF FF FF FF 0F 01 01 04 01 01 01 01 04 01", "1 refused 6\n2 done\ntuples 1\n"),
        ];
        for (records, text) in rows {
            let script = hex(&format!("04 01 00 {records}"));
            assert_eq!(run(&script), format!("board 4 1 0\n{text}"), "{records}");
        }
    }

    #[test]
    fn a_set_with_a_seat_above_n_is_read() {
        // The set is seat 16 alone, which nobody of fifteen is, and of which 31 seats need ten more.
        let records = "01 04 04 04 02 08 00 0E 11 04 04 02 08 00 0C 50 10 80 80 02
            02 02 04 04 02 08 00 0E 11";
        for (set_up, first, refusal) in [("0F 04 02", "15 4 2", 7), ("1F 0A 02", "31 10 2", 13)] {
            let text = format!("board {first}\n1 refused {refusal}\n2 none\ntuples 0\n");
            assert_eq!(run(&hex(&format!("{set_up} {records}"))), text);
        }
    }

    #[test]
    fn how_fields_are_shown() {
        let out =
            "01 01 06 04 FF 01 08 FF FF FF FF FF FF FF FF FF 01 0C 00 0C 01 0C C0 9A 0C 10 FF FF FF FF 07";
        let inp = "02 03 06 05 09 0D 0E 0C C0 9A 0C 12";
        let cas = "02 04 01 05 01 0C C1 9A 0C";
        let script = hex(&format!("04 01 00 {out} {inp} {inp} {cas} 01 02 01 0E"));
        let text =
            "board 4 1 0\n1 done\n2 found w255 c18446744073709551615 o_ o0 o-100000 s2147483647\n3 none\n\
            4 inserted\n5 found o100000\ntuples 1\n";
        assert_eq!(run(&script), text);
    }

    #[test]
    fn the_longest_script() {
        let mut script = hex("04 01 00");
        while script.len() + 5 <= LONGEST_SCRIPT {
            script.extend(hex("01 01 01 04 07"));
        }
        script.resize(LONGEST_SCRIPT, 1);
        let text = run(&script);
        assert!(text.contains("\n256 done\n257 refused 8\n"));
        assert!(text.ends_with("refused 2\ntuples 256\n"), "{}", &text[text.len() - 40..]);
        script.push(1);
        assert_eq!(run(&script), "refused 9\n");
        assert_eq!(run(&[0xFF; LONGEST_SCRIPT + 1]), "refused 9\n");
    }

    #[test]
    fn a_text_of_long_counts() {
        // An out of six counts of twenty digits, read again by records of nine bytes as often as there is room for.
        let mut script = hex("1F 0A 00 01 01 06");
        for _ in 0..6 {
            script.extend(hex("08 FF FF FF FF FF FF FF FF FF 01"));
        }
        script.extend(hex("01 02 06 09 09 09 09 09 09").repeat(7_273));
        script.extend(hex("00 02 01 05 01 09 00"));
        assert_eq!(script.len(), LONGEST_SCRIPT);
        let text = run(&script);
        assert_eq!(text.len(), 1_038_995);
        assert!(text.len() <= ROOM_FOR_TEXT);
        let counts = " c18446744073709551615".repeat(6);
        let last = format!("\n7274 found{counts}\n7275 refused 6\n7276 refused 4\ntuples 1\n");
        assert!(text.ends_with(&last), "{}", &text[text.len() - 200..]);
    }
}
