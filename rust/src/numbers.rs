//! Numbers in groups of seven bits, and the travelling number of an offset
//! (01, "Bytes", and 02, 2.5 and 2.10).

use crate::refusal::Refusal;

/// A number takes at most this many bytes.
pub const LONGEST_NUMBER: usize = 10;

/// The tenth byte of a number may be at most this.
const LAST_TENTH: u8 = 0x01;

/// Reads the number at the front of `bytes`; answers it and how many bytes it
/// took. Each byte has seven bits of it, the lowest first, and a top bit that
/// tells whether another follows.
pub fn read_number(bytes: &[u8]) -> Result<(u64, usize), Refusal> {
    let mut value = 0;
    for (place, &byte) in bytes.iter().enumerate() {
        if place + 1 == LONGEST_NUMBER && byte > LAST_TENTH {
            return Err(Refusal::Value);
        }
        value |= u64::from(byte & 0x7F) << (7 * place);
        if byte & 0x80 == 0 {
            let shortest = byte != 0 || place == 0;
            return if shortest { Ok((value, place + 1)) } else { Err(Refusal::Value) };
        }
    }
    Err(Refusal::Ended)
}

/// Appends the shortest writing of `value`.
pub fn write_number(value: u64, out: &mut Vec<u8>) {
    let mut left = value;
    while left >= 128 {
        out.push((left & 0x7F) as u8 | 0x80);
        left >>= 7;
    }
    out.push(left as u8);
}

/// An offset as it is meant; fields keep its travelling number.
#[derive(Clone, Copy, Debug, PartialEq, Eq, Hash)]
pub enum Offset {
    /// The default mark, equal to the mark and to no number.
    Mark,
    /// Whole hundredths of a needle space.
    Number(i64),
}

impl Offset {
    /// The mark's travelling number.
    pub const MARK: u64 = 0;
    /// The largest magnitude of an offset.
    pub const LIMIT: i64 = 100_000;
    /// The largest travelling number of an offset: that of `LIMIT` itself.
    pub const LAST: u64 = 200_001;

    /// 0 for the mark, 1 + 2z from zero up, -2z below zero. `None` if the
    /// offset is out of range.
    pub fn travelling(self) -> Option<u64> {
        match self {
            Offset::Mark => Some(Self::MARK),
            Offset::Number(z) if !(-Self::LIMIT..=Self::LIMIT).contains(&z) => None,
            Offset::Number(z) if z >= 0 => Some(1 + 2 * z.unsigned_abs()),
            Offset::Number(z) => Some(2 * z.unsigned_abs()),
        }
    }

    /// The offset with this travelling number, if it is in range.
    pub fn from_travelling(number: u64) -> Option<Offset> {
        if number > Self::LAST {
            return None;
        }
        let half = i64::try_from(number / 2).ok()?;
        Some(match number {
            Self::MARK => Offset::Mark,
            odd if odd % 2 == 1 => Offset::Number(half),
            _ => Offset::Number(-half),
        })
    }
}

#[cfg(test)]
mod tests {
    use super::*;

    fn written(value: u64) -> Vec<u8> {
        let mut out = Vec::new();
        write_number(value, &mut out);
        out
    }

    #[test]
    fn edge_values_of_numbers() {
        let rows: [(u64, &[u8]); 13] = [
            (0, &[0x00]),
            (127, &[0x7F]),
            (128, &[0x80, 0x01]),
            (16_384, &[0x80, 0x80, 0x01]),
            (268_435_456, &[0x80, 0x80, 0x80, 0x80, 0x01]),
            (4_294_967_295, &[0xFF, 0xFF, 0xFF, 0xFF, 0x0F]),
            (4_294_967_296, &[0x80, 0x80, 0x80, 0x80, 0x10]),
            (4_563_402_751, &[0xFF, 0xFF, 0xFF, 0xFF, 0x10]),
            (34_359_738_367, &[0xFF, 0xFF, 0xFF, 0xFF, 0x7F]),
            (34_359_738_368, &[0x80, 0x80, 0x80, 0x80, 0x80, 0x01]),
            ((1 << 63) - 1, &[0xFF, 0xFF, 0xFF, 0xFF, 0xFF, 0xFF, 0xFF, 0xFF, 0x7F]),
            (1 << 63, &[0x80, 0x80, 0x80, 0x80, 0x80, 0x80, 0x80, 0x80, 0x80, 0x01]),
            (18_446_744_073_709_551_615, &[0xFF, 0xFF, 0xFF, 0xFF, 0xFF, 0xFF, 0xFF, 0xFF, 0xFF, 0x01]),
        ];
        for (value, bytes) in rows {
            assert_eq!(read_number(bytes), Ok((value, bytes.len())));
            assert_eq!(written(value), bytes);
        }
    }

    #[test]
    fn refused_numbers() {
        let rows: [(&[u8], Refusal); 11] = [
            (&[], Refusal::Ended),
            (&[0x80], Refusal::Ended),
            (&[0x80, 0x80, 0x80, 0x80], Refusal::Ended),
            (&[0xFF, 0xFF, 0xFF, 0xFF, 0x80], Refusal::Ended),
            (&[0x80; 9], Refusal::Ended),
            (&[0x80; 10], Refusal::Value),
            (&[0xFF; 11], Refusal::Value),
            (&[0x80, 0x00], Refusal::Value),
            (&[0xFF, 0xFF, 0xFF, 0xFF, 0x00], Refusal::Value),
            (&[0xFF, 0xFF, 0xFF, 0xFF, 0xFF, 0x00], Refusal::Value),
            (&[0x81, 0x80, 0x00, 0x01], Refusal::Value),
        ];
        for (bytes, refusal) in rows {
            assert_eq!(read_number(bytes), Err(refusal), "{bytes:02X?}");
        }
    }

    #[test]
    fn the_tenth_byte() {
        for front in [[0x80; 9], [0xFF; 9], [0x80, 0x81, 0x82, 0x83, 0x84, 0x85, 0x86, 0x87, 0x88]] {
            for tenth in 0..=255 {
                let bytes = [&front[..], &[tenth]].concat();
                for behind in [&[][..], &[0x00], &[0x01], &[0xFF]] {
                    let read = read_number(&[&bytes, behind].concat());
                    match tenth {
                        1 => assert_eq!(
                            read.map(|(value, taken)| (written(value), taken)),
                            Ok((bytes.clone(), 10))
                        ),
                        _ => assert_eq!(read, Err(Refusal::Value), "{bytes:02X?}"),
                    }
                }
            }
            for cut in 0..=9 {
                assert_eq!(read_number(&front[..cut]), Err(Refusal::Ended));
            }
        }
    }

    #[test]
    fn every_bit_stands_where_it_belongs() {
        for bit in 0..64 {
            for value in [1 << bit, (1 << bit) - 1, u64::MAX >> bit, u64::MAX << bit] {
                let bytes = written(value);
                assert_eq!(read_number(&bytes), Ok((value, bytes.len())));
                let bits = 64 - value.leading_zeros() as usize;
                assert_eq!(bytes.len(), bits.div_ceil(7).max(1), "{value}");
            }
        }
    }

    #[test]
    fn bytes_behind_a_number_do_not_matter() {
        assert_eq!(read_number(&[0x7F, 0xFF]), Ok((127, 1)));
        assert_eq!(read_number(&[0x80, 0x01, 0x00]), Ok((128, 2)));
    }

    #[test]
    fn every_two_byte_string_reads_once() {
        // What reads is the only writing of its number.
        for first in 0..=255u8 {
            for second in 0..=255u8 {
                let bytes = [first, second];
                if let Ok((value, taken)) = read_number(&bytes) {
                    assert_eq!(written(value), &bytes[..taken]);
                }
            }
        }
    }

    #[test]
    fn edge_values_of_offsets() {
        let rows = [
            (Offset::Mark, 0),
            (Offset::Number(0), 1),
            (Offset::Number(-1), 2),
            (Offset::Number(1), 3),
            (Offset::Number(40), 0x51),
            (Offset::Number(-40), 0x50),
            (Offset::Number(-100_000), 200_000),
            (Offset::Number(100_000), 200_001),
        ];
        for (offset, number) in rows {
            assert_eq!(offset.travelling(), Some(number));
            assert_eq!(Offset::from_travelling(number), Some(offset));
        }
        for z in [-100_001, 100_001, i64::MIN, i64::MAX] {
            assert_eq!(Offset::Number(z).travelling(), None);
        }
        assert_eq!(Offset::from_travelling(200_002), None);
        assert_eq!(Offset::from_travelling(u64::MAX), None);
        assert_eq!(read_number(&[0xC1, 0x9A, 0x0C]), Ok((200_001, 3)));
        assert_eq!(read_number(&[0xC2, 0x9A, 0x0C]), Ok((200_002, 3)));
    }

    #[test]
    fn travelling_numbers_and_offsets_are_one_to_one() {
        for number in 0..=Offset::LAST {
            let offset = Offset::from_travelling(number).unwrap();
            assert_eq!(offset.travelling(), Some(number));
        }
    }
}
