//! Fields, tuples and matching (01, "Fields and tuples", and 02, 2.8 and 2.10).
//!
//! `Field` and `Tuple` are plain values that can hold anything; `check` tells
//! whether they hold something that 01 allows, and if not, which fault is the
//! first from left to right.

use crate::numbers::Offset;
use crate::refusal::Refusal;

/// Most fields a tuple has.
pub const MOST_FIELDS: usize = 6;

/// Most seats: a set of seats has a bit for each.
pub const MOST_SEATS: u64 = 31;

/// The word that starts a proposal.
pub const PROPOSE: u64 = 1;
/// The word that starts a decision.
pub const DECISION: u64 = 2;
/// The word that starts a list tuple.
pub const LISTED: u64 = 3;
/// The word that starts an announcement.
pub const ANNOUNCED: u64 = 4;

/// What a field is about.
#[derive(Clone, Copy, Debug, PartialEq, Eq, Hash)]
#[repr(u32)]
pub enum Kind {
    Word = 1,
    Count = 2,
    Offset = 3,
    Seats = 4,
}

impl Kind {
    /// All kinds, in order of their numbers.
    pub const ALL: [Kind; 4] = [Kind::Word, Kind::Count, Kind::Offset, Kind::Seats];

    /// The kind with this number.
    pub fn from_number(number: u64) -> Option<Kind> {
        Kind::ALL.into_iter().find(|kind| *kind as u64 == number)
    }

    /// The largest values of the kinds, by their numbers; 0 is no kind's.
    const LAST: [u64; 5] = [0, 255, u64::MAX, Offset::LAST, (1 << MOST_SEATS) - 1];

    /// The largest value (for an offset, travelling number) of this kind.
    pub const fn last(self) -> u64 {
        Kind::LAST[self as usize]
    }

    /// The letter that stands for this kind in text.
    pub const fn letter(self) -> char {
        match self {
            Kind::Word => 'w',
            Kind::Count => 'c',
            Kind::Offset => 'o',
            Kind::Seats => 's',
        }
    }
}

/// Whether a field's value is given, or in which way it is not.
#[derive(Clone, Copy, Debug, PartialEq, Eq, Hash)]
#[repr(u32)]
pub enum State {
    Given = 0,
    /// The source's "*".
    Any = 1,
    /// The source's "?v".
    Open = 2,
}

impl State {
    /// All states, in order of their numbers.
    pub const ALL: [State; 3] = [State::Given, State::Any, State::Open];

    /// The state with this number.
    pub fn from_number(number: u64) -> Option<State> {
        State::ALL.into_iter().find(|state| *state as u64 == number)
    }
}

/// Which part a tuple plays in a call.
#[derive(Clone, Copy, Debug, PartialEq, Eq, Hash)]
pub enum Role {
    /// May have any number of undefined fields, none included.
    Template,
    /// Has only given fields.
    Entry,
}

/// A field as a plain value. An offset's value is its travelling number.
#[derive(Clone, Copy, Debug, Default, PartialEq, Eq, Hash)]
pub struct Field {
    pub kind: u32,
    pub state: u32,
    pub value: u64,
}

impl Field {
    /// An unused field place.
    pub const BLANK: Field = Field { kind: 0, state: 0, value: 0 };

    /// A given field.
    pub const fn given(kind: Kind, value: u64) -> Field {
        Field { kind: kind as u32, state: State::Given as u32, value }
    }

    /// An undefined field, "*".
    pub const fn any(kind: Kind) -> Field {
        Field { kind: kind as u32, state: State::Any as u32, value: 0 }
    }

    /// An undefined field, "?v".
    pub const fn open(kind: Kind) -> Field {
        Field { kind: kind as u32, state: State::Open as u32, value: 0 }
    }

    /// The field's kind and state, if there are such.
    pub fn head(&self) -> Option<(Kind, State)> {
        Some((Kind::from_number(self.kind.into())?, State::from_number(self.state.into())?))
    }

    /// The value, if this is a given field of that kind.
    pub fn value_of(&self, kind: Kind) -> Option<u64> {
        (self.head() == Some((kind, State::Given))).then_some(self.value)
    }

    /// Whether this is an undefined field of that kind, "*" or "?v".
    pub fn is_undefined(&self, kind: Kind) -> bool {
        matches!(self.head(), Some((own, State::Any | State::Open)) if own == kind)
    }

    /// The first fault of the used parts: 4 for the head, 5 for an undefined
    /// field in an entry, 3 for the value.
    pub fn check(&self, role: Role) -> Result<(), Refusal> {
        let (kind, state) = self.head().ok_or(Refusal::Unknown)?;
        match (state, role) {
            (State::Given, _) if self.value > kind.last() => Err(Refusal::Value),
            (State::Given, _) | (_, Role::Template) => Ok(()),
            (_, Role::Entry) => Err(Refusal::Shape),
        }
    }
}

/// A tuple as a plain value: its field count and six field places.
#[derive(Clone, Copy, Debug, Default, PartialEq, Eq, Hash)]
pub struct Tuple {
    pub count: usize,
    pub fields: [Field; MOST_FIELDS],
}

impl Tuple {
    /// An unused tuple: all zero.
    pub const BLANK: Tuple = Tuple { count: 0, fields: [Field::BLANK; MOST_FIELDS] };

    /// A tuple of these fields; fields behind the sixth are left out.
    pub fn of(fields: &[Field]) -> Tuple {
        let mut tuple = Tuple::BLANK;
        for (place, field) in tuple.fields.iter_mut().zip(fields) {
            *place = *field;
            tuple.count += 1;
        }
        tuple
    }

    /// (word 1, count round, count seat, offset).
    pub fn proposal(round: u64, seat: u64, offset: u64) -> Tuple {
        Tuple::of(&[
            Field::given(Kind::Word, PROPOSE),
            Field::given(Kind::Count, round),
            Field::given(Kind::Count, seat),
            Field::given(Kind::Offset, offset),
        ])
    }

    /// (word 1, count round, count seat, open offset).
    pub fn proposal_template(round: u64, seat: u64) -> Tuple {
        Tuple::of(&[
            Field::given(Kind::Word, PROPOSE),
            Field::given(Kind::Count, round),
            Field::given(Kind::Count, seat),
            Field::open(Kind::Offset),
        ])
    }

    /// (word 2, count round, offset, seats).
    pub fn decision(round: u64, offset: u64, seats: u64) -> Tuple {
        Tuple::of(&[
            Field::given(Kind::Word, DECISION),
            Field::given(Kind::Count, round),
            Field::given(Kind::Offset, offset),
            Field::given(Kind::Seats, seats),
        ])
    }

    /// (word 2, count round, open offset, any seats).
    pub fn decision_template(round: u64) -> Tuple {
        Tuple::of(&[
            Field::given(Kind::Word, DECISION),
            Field::given(Kind::Count, round),
            Field::open(Kind::Offset),
            Field::any(Kind::Seats),
        ])
    }

    /// (word 3, count position, count seat, count serial, offset shift).
    pub fn listed(position: u64, seat: u64, serial: u64, shift: u64) -> Tuple {
        Tuple::of(&[
            Field::given(Kind::Word, LISTED),
            Field::given(Kind::Count, position),
            Field::given(Kind::Count, seat),
            Field::given(Kind::Count, serial),
            Field::given(Kind::Offset, shift),
        ])
    }

    /// (word 3, count position, any count, any count, open offset).
    pub fn listed_template(position: u64) -> Tuple {
        Tuple::of(&[
            Field::given(Kind::Word, LISTED),
            Field::given(Kind::Count, position),
            Field::any(Kind::Count),
            Field::any(Kind::Count),
            Field::open(Kind::Offset),
        ])
    }

    /// (word 4, count seat, count serial, offset shift).
    pub fn announcement(seat: u64, serial: u64, shift: u64) -> Tuple {
        Tuple::of(&[
            Field::given(Kind::Word, ANNOUNCED),
            Field::given(Kind::Count, seat),
            Field::given(Kind::Count, serial),
            Field::given(Kind::Offset, shift),
        ])
    }

    /// The fields in use.
    pub fn used(&self) -> &[Field] {
        &self.fields[..self.count.min(MOST_FIELDS)]
    }

    /// The first fault of the used parts, from left to right.
    pub fn check(&self, role: Role) -> Result<(), Refusal> {
        if !(1..=MOST_FIELDS).contains(&self.count) {
            return Err(Refusal::Shape);
        }
        self.used().iter().try_for_each(|field| field.check(role))
    }

    /// Whether the places behind the count, and the values of undefined
    /// fields, are zero.
    pub fn unused_is_zero(&self) -> bool {
        let behind = &self.fields[self.used().len()..];
        let undefined = |field: &&Field| field.state != State::Given as u32;
        behind.iter().all(|field| *field == Field::BLANK)
            && self.used().iter().filter(undefined).all(|field| field.value == 0)
    }

    /// Whether a well-formed board can hold this tuple: an entry within its
    /// kinds' ranges, unused places zero.
    pub fn is_entry(&self) -> bool {
        self.check(Role::Entry).is_ok() && self.unused_is_zero()
    }

    /// Whether this template matches `entry`: as many fields, the same kind at
    /// each place, and equal values wherever the template's field is given.
    pub fn matches(&self, entry: &Tuple) -> bool {
        self.count == entry.count
            && self.used().iter().zip(entry.used()).all(|(asked, held)| {
                asked.kind == held.kind && (asked.state != State::Given as u32 || asked.value == held.value)
            })
    }

    /// Round, seat and offset, if this is (word 1, count, count, offset), all given.
    pub fn as_proposal(&self) -> Option<(u64, u64, u64)> {
        let [word, round, seat, offset] = self.used() else {
            return None;
        };
        if word.value_of(Kind::Word)? != PROPOSE {
            return None;
        }
        Some((round.value_of(Kind::Count)?, seat.value_of(Kind::Count)?, offset.value_of(Kind::Offset)?))
    }

    /// Round, offset and seats, if this is (word 2, count, offset, seats), all given.
    pub fn as_decision(&self) -> Option<(u64, u64, u64)> {
        let [word, round, offset, seats] = self.used() else {
            return None;
        };
        if word.value_of(Kind::Word)? != DECISION {
            return None;
        }
        Some((round.value_of(Kind::Count)?, offset.value_of(Kind::Offset)?, seats.value_of(Kind::Seats)?))
    }

    /// Position, seat, serial and shift, if this is (word 3, count, count,
    /// count, offset), all given.
    pub fn as_listed(&self) -> Option<(u64, u64, u64, u64)> {
        let [word, position, seat, serial, shift] = self.used() else {
            return None;
        };
        if word.value_of(Kind::Word)? != LISTED {
            return None;
        }
        let (position, seat) = (position.value_of(Kind::Count)?, seat.value_of(Kind::Count)?);
        Some((position, seat, serial.value_of(Kind::Count)?, shift.value_of(Kind::Offset)?))
    }

    /// Seat, serial and shift, if this is (word 4, count, count, offset), all
    /// given, the shift not the mark: with the mark it is no announcement.
    pub fn as_announcement(&self) -> Option<(u64, u64, u64)> {
        let [word, seat, serial, shift] = self.used() else {
            return None;
        };
        if word.value_of(Kind::Word)? != ANNOUNCED {
            return None;
        }
        let shift = shift.value_of(Kind::Offset).filter(|shift| *shift != Offset::MARK)?;
        Some((seat.value_of(Kind::Count)?, serial.value_of(Kind::Count)?, shift))
    }
}

#[cfg(test)]
mod tests {
    use super::*;

    #[test]
    fn ranges_of_the_kinds() {
        for (kind, last) in [(Kind::Word, 255), (Kind::Offset, 200_001), (Kind::Seats, 2_147_483_647)] {
            for role in [Role::Template, Role::Entry] {
                assert_eq!(Field::given(kind, 0).check(role), Ok(()));
                assert_eq!(Field::given(kind, last).check(role), Ok(()));
                for beyond in [last + 1, 1 << 32, (1 << 32) + last, 1 << 63, u64::MAX] {
                    assert_eq!(Field::given(kind, beyond).check(role), Err(Refusal::Value), "{beyond}");
                }
            }
        }
        for value in [0, 4_294_967_295, 4_294_967_296, 1 << 63, 18_446_744_073_709_551_615] {
            assert_eq!(Field::given(Kind::Count, value).check(Role::Template), Ok(()));
            assert_eq!(Field::given(Kind::Count, value).check(Role::Entry), Ok(()));
        }
    }

    #[test]
    fn faults_of_a_field_in_order() {
        for (kind, state) in [(0, 0), (5, 0), (1, 3), (0, 1), (255, 255)] {
            let field = Field { kind, state, value: u64::MAX };
            assert_eq!(field.check(Role::Template), Err(Refusal::Unknown));
            assert_eq!(field.check(Role::Entry), Err(Refusal::Unknown));
        }
        for field in [Field::any(Kind::Word), Field::open(Kind::Offset)] {
            assert_eq!(field.check(Role::Template), Ok(()));
            assert_eq!(field.check(Role::Entry), Err(Refusal::Shape));
        }
    }

    #[test]
    fn undefined_fields() {
        for kind in Kind::ALL {
            for other in Kind::ALL {
                assert_eq!(Field::any(kind).is_undefined(other), kind == other);
                assert_eq!(Field::open(kind).is_undefined(other), kind == other);
                assert!(!Field::given(kind, 0).is_undefined(other));
            }
        }
        assert!(!Field { state: 3, ..Field::any(Kind::Word) }.is_undefined(Kind::Word));
        assert!(!Field::BLANK.is_undefined(Kind::Word));
    }

    #[test]
    fn field_counts() {
        let field = Field::given(Kind::Word, 1);
        for count in 1..=6 {
            assert_eq!(Tuple::of(&vec![field; count]).check(Role::Entry), Ok(()));
        }
        for count in [0, 7, usize::MAX] {
            let tuple = Tuple { count, fields: [Field { kind: 9, state: 9, value: 9 }; 6] };
            assert_eq!(tuple.check(Role::Entry), Err(Refusal::Shape));
            assert_eq!(tuple.check(Role::Template), Err(Refusal::Shape));
        }
    }

    #[test]
    fn unused_parts() {
        let mut tuple = Tuple::of(&[Field::open(Kind::Offset)]);
        assert!(tuple.unused_is_zero());
        tuple.fields[0].value = 1;
        assert!(!tuple.unused_is_zero());
        let mut tuple = Tuple::of(&[Field::given(Kind::Offset, 3)]);
        assert!(tuple.unused_is_zero());
        tuple.fields[5].kind = 1;
        assert!(!tuple.unused_is_zero());
        assert!(!tuple.is_entry());
    }

    #[test]
    fn matching() {
        let entry = Tuple::decision(3, 2, 5);
        assert!(Tuple::decision_template(3).matches(&entry));
        assert!(!Tuple::decision_template(2).matches(&entry));
        assert!(entry.matches(&entry), "a template without undefined fields");
        // The same values under another kind, and fewer fields, do not match.
        let counted = Tuple::of(&[Field::given(Kind::Count, 1)]);
        let worded = Tuple::of(&[Field::given(Kind::Word, 1)]);
        assert!(!counted.matches(&worded));
        assert!(!Tuple::of(&[Field::any(Kind::Word)]).matches(&counted));
        assert!(Tuple::of(&[Field::any(Kind::Count)]).matches(&counted));
        let longer = Tuple::of(&[Field::given(Kind::Word, 1); 2]);
        assert!(!worded.matches(&longer));
        assert!(!longer.matches(&worded));
        // Counts that differ in their high bits alone.
        let long = Tuple::of(&[Field::given(Kind::Count, (1 << 32) + 1)]);
        assert!(long.matches(&long) && !long.matches(&counted) && !counted.matches(&long));
        // The mark is not zero, and 40 is not -40.
        let mark = Tuple::of(&[Field::given(Kind::Offset, 0)]);
        let zero = Tuple::of(&[Field::given(Kind::Offset, 1)]);
        assert!(mark.matches(&mark));
        assert!(!mark.matches(&zero));
        assert!(!Tuple::proposal(0, 1, 0x50).matches(&Tuple::proposal(0, 1, 0x51)));
    }
}
