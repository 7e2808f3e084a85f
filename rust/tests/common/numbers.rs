//! Numbers as bytes (01, "Bytes", and 02, 2.10), judged apart from the plain version; the nine places where one stands, and what a number that
//! is too large for its place is refused there; and numbers of one byte to eleven.

use std::collections::BTreeMap;

use reference::numbers::write_number;

use super::{compare_read, compare_text, Dice};

/// What stands from a number's first byte on.
#[derive(Clone, Copy, Debug, PartialEq, Eq, PartialOrd, Ord)]
pub enum Sort {
    /// All bytes go on, fewer than ten.
    Cut,
    /// Ten bytes go on.
    GoesOn,
    /// The tenth byte ends it, above 01.
    TenthAbove,
    /// The last of several bytes is 00.
    Unshortest,
    /// A number above 4,294,967,295, and one up to it.
    Long,
    Short,
}

impl Sort {
    pub const ALL: [Sort; 6] =
        [Sort::Cut, Sort::GoesOn, Sort::TenthAbove, Sort::Unshortest, Sort::Long, Sort::Short];

    /// What these bytes are, and the number and its length where they are one.
    pub fn of(bytes: &[u8]) -> (Sort, u128, usize) {
        let ten = &bytes[..bytes.len().min(10)];
        let Some(last) = ten.iter().position(|byte| *byte < 0x80) else {
            return (if ten.len() < 10 { Sort::Cut } else { Sort::GoesOn }, 0, 0);
        };
        let value = ten[..=last].iter().rev().fold(0, |value, byte| value * 128 + u128::from(byte % 128));
        let sort = match ten[last] {
            0 if last > 0 => Sort::Unshortest,
            2.. if last == 9 => Sort::TenthAbove,
            _ if value > 4_294_967_295 => Sort::Long,
            _ => Sort::Short,
        };
        (sort, value, last + 1)
    }

    /// What bytes that are no number are refused, wherever they stand.
    fn refused(self) -> Option<usize> {
        match self {
            Sort::Cut => Some(2),
            Sort::GoesOn | Sort::TenthAbove | Sort::Unshortest => Some(3),
            Sort::Long | Sort::Short => None,
        }
    }
}

/// Where a number stands.
#[derive(Clone, Copy, Debug, PartialEq, Eq, PartialOrd, Ord)]
pub enum Place {
    Seat,
    Code,
    FieldCount,
    Head,
    Word,
    Count,
    Offset,
    Set,
    SetUp,
}

/// The bytes before a number, one that is right there, and those behind it.
pub type Row = (&'static [u8], u64, &'static [u8]);

impl Place {
    pub const ALL: [Place; 9] = [
        Place::Seat,
        Place::Code,
        Place::FieldCount,
        Place::Head,
        Place::Word,
        Place::Count,
        Place::Offset,
        Place::Set,
        Place::SetUp,
    ];

    /// Scripts of one record with the number at this place: in an entry and in a template, where it can stand in either.
    pub fn rows(self) -> &'static [Row] {
        match self {
            Place::Seat => &[(&[4, 1, 0], 1, &[1, 1, 4, 7])],
            Place::Code => &[(&[4, 1, 0, 1], 1, &[1, 4, 7])],
            Place::FieldCount => &[(&[4, 1, 0, 1, 1], 1, &[4, 7]), (&[4, 1, 0, 1, 4], 2, &[5, 9, 1, 4, 7])],
            Place::Head => &[(&[4, 1, 0, 1, 1, 1], 4, &[7]), (&[4, 1, 0, 1, 2, 2, 9], 13, &[])],
            Place::Word => &[(&[4, 1, 0, 1, 1, 1, 4], 7, &[]), (&[4, 1, 0, 1, 2, 2, 4], 255, &[9])],
            Place::Count => &[(&[4, 1, 0, 1, 1, 1, 8], 7, &[]), (&[4, 1, 0, 1, 3, 2, 8], 1 << 31, &[5])],
            Place::Offset => &[(&[4, 1, 0, 1, 1, 1, 12], 80, &[]), (&[4, 1, 0, 1, 2, 2, 12], 200_001, &[9])],
            Place::Set => {
                &[(&[4, 1, 0, 1, 1, 1, 16], 5, &[]), (&[4, 1, 0, 1, 3, 2, 16], (1 << 31) - 1, &[6])]
            }
            Place::SetUp => &[
                (&[], 4, &[1, 2]),
                (&[4], 1, &[2]),
                (&[4, 1], 2, &[]),
                (&[], 4, &[1, 3, 2]),
                (&[4], 1, &[3, 2]),
                (&[4, 1], 3, &[2]),
                (&[4, 1, 3], 2, &[]),
            ],
        }
    }

    /// What a number above 4,294,967,295 is refused, by the rule of its place; a count is not.
    fn long_is(self) -> usize {
        match self {
            Place::Count => 0,
            Place::SetUp => 1,
            Place::Code | Place::Head => 4,
            Place::FieldCount => 5,
            Place::Seat | Place::Word | Place::Offset | Place::Set => 3,
        }
    }

    /// What a script with this number behind its front is refused, where 02 says it of the number alone.
    fn expected(self, script: &[u8], front: usize) -> Option<usize> {
        let (sort, ..) = Sort::of(&script[front..]);
        match (self, sort) {
            (Place::SetUp, _) => set_up_refused(script),
            // A right one reads, and so does a count; then it is for what stands behind it.
            (_, Sort::Short) | (Place::Count, Sort::Long) => None,
            (_, Sort::Long) => Some(self.long_is()),
            _ => sort.refused(),
        }
    }
}

/// What the set-up at the front of a script is refused, where it can't be read or has a number above 4,294,967,295: 1 comes when all of it is
/// read, and k is only read under policy 3.
pub fn set_up_refused(script: &[u8]) -> Option<usize> {
    let (mut rest, mut numbers) = (script, Vec::new());
    while numbers.len() < 3 || numbers.len() == 3 && numbers[2] == 3 {
        let (sort, value, length) = Sort::of(rest);
        if let Some(refusal) = sort.refused() {
            return Some(refusal);
        }
        numbers.push(value);
        rest = &rest[length..];
    }
    numbers.iter().any(|number| *number > 4_294_967_295).then_some(1)
}

/// What was refused, and how often, by the place and the sort of a number.
#[derive(Default)]
pub struct Numbers {
    pub inputs: usize,
    came: BTreeMap<(Place, Sort), BTreeMap<usize, usize>>,
}

impl Numbers {
    /// A script with these bytes where a number stands, by both: its text, and the record as such. Gives what is refused, 0 if nothing is.
    pub fn compare(&mut self, place: Place, front: &[u8], number: &[u8], behind: &[u8]) -> usize {
        let script = [front, number, behind].concat();
        let text = compare_text(&script);
        let refusal = match place {
            Place::SetUp => alone_refused(&text),
            _ => compare_read(&script, 3),
        };
        let expected = place.expected(&script, front.len());
        assert_eq!(refusal, expected.unwrap_or(refusal), "{place:?}: {script:02X?}");
        let (sort, ..) = Sort::of(&script[front.len()..]);
        *self.came.entry((place, sort)).or_default().entry(refusal).or_default() += 1;
        self.inputs += 1;
        refusal
    }

    /// Prints how often each refusal came, 0 where nothing is refused.
    pub fn print(&self) {
        for place in Place::ALL {
            let came = self.came.iter().filter(|((own, _), _)| *own == place);
            let came: Vec<String> = came.map(|((_, sort), came)| format!("{sort:?} {came:?}")).collect();
            println!("         {place:?}: {}", came.join(", "));
        }
    }

    /// At every place numbers of every sort were refused, or not, as they are, so often at least.
    pub fn assert_each(&self, least: usize) {
        for (place, sort) in Place::ALL.into_iter().flat_map(|place| Sort::ALL.map(|sort| (place, sort))) {
            let refusal = match sort {
                Sort::Short => 0,
                Sort::Long => place.long_is(),
                _ => sort.refused().expect("no number"),
            };
            let often = self.came.get(&(place, sort)).and_then(|came| came.get(&refusal)).unwrap_or(&0);
            assert!(*often >= least, "{sort:?} was refused {refusal} {often} times at {place:?}");
        }
    }
}

/// What a script without a board is refused, 0 where one stands.
pub fn alone_refused(text: &str) -> usize {
    text.strip_prefix("refused ").map_or(0, |number| number.trim_end().parse().expect("a number"))
}

/// The shortest bytes of a number.
pub fn written(value: u64) -> Vec<u8> {
    let mut bytes = Vec::new();
    write_number(value, &mut bytes);
    bytes
}

/// So many bytes that go on but for the last.
pub fn bytes_of(dice: &mut Dice, length: usize) -> Vec<u8> {
    let mut bytes: Vec<u8> = (0..length).map(|_| 0x80 | dice.next() as u8).collect();
    if let Some(last) = bytes.last_mut() {
        *last &= 0x7F;
    }
    bytes
}

/// A number near what is right, or any: one byte to eleven, at times without an end, with a last byte 00, or with a tenth byte at its bound.
pub fn any_number(dice: &mut Dice, right: u64) -> Vec<u8> {
    let length = 1 + dice.below(11) as usize;
    match dice.below(8) {
        0 => written(right),
        // High bits alone make it another.
        1 => written(right | 1 << (32 + dice.below(32))),
        2 => written(right | dice.next() << dice.pick(&[8, 16, 32])),
        3 => vec![dice.pick(&[0x80, 0xFF]); length],
        _ => {
            let mut bytes = bytes_of(dice, length);
            if dice.one_in(2) {
                bytes[length - 1] = dice.pick(&[0x00, 0x01, 0x02, 0x7F, 0x80, 0x81]);
            }
            bytes
        }
    }
}
