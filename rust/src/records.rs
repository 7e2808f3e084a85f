//! Calls, and the records they travel in: reader and writer (01, "Bytes", and
//! 02, 2.10).

use crate::fields::{Field, Kind, Role, State, Tuple, MOST_FIELDS};
use crate::numbers::{read_number, write_number};
use crate::refusal::Refusal;

/// The longest record has this many bytes.
pub const LONGEST_RECORD: usize = 140;

/// Which call it is.
#[derive(Clone, Copy, Debug, PartialEq, Eq, Hash)]
#[repr(u32)]
pub enum Code {
    Out = 1,
    Rdp = 2,
    Inp = 3,
    Cas = 4,
}

impl Code {
    /// All codes, in order of their numbers.
    pub const ALL: [Code; 4] = [Code::Out, Code::Rdp, Code::Inp, Code::Cas];

    /// The code with this number.
    pub fn from_number(number: u64) -> Option<Code> {
        Code::ALL.into_iter().find(|code| *code as u64 == number)
    }

    /// Whether a record of this call has a template.
    pub const fn has_template(self) -> bool {
        !matches!(self, Code::Out)
    }

    /// Whether a record of this call has an entry.
    pub const fn has_entry(self) -> bool {
        matches!(self, Code::Out | Code::Cas)
    }

    /// The call's name.
    pub const fn name(self) -> &'static str {
        match self {
            Code::Out => "out",
            Code::Rdp => "rdp",
            Code::Inp => "inp",
            Code::Cas => "cas",
        }
    }
}

/// A call as a plain value that can hold anything.
#[derive(Clone, Copy, Debug, Default, PartialEq, Eq, Hash)]
pub struct Call {
    pub process: u32,
    pub code: u32,
    pub template: Tuple,
    pub entry: Tuple,
}

impl Call {
    /// out(entry).
    pub fn out(process: u32, entry: Tuple) -> Call {
        Call { process, code: Code::Out as u32, template: Tuple::BLANK, entry }
    }

    /// rdp(template).
    pub fn rdp(process: u32, template: Tuple) -> Call {
        Call { process, code: Code::Rdp as u32, template, entry: Tuple::BLANK }
    }

    /// inp(template).
    pub fn inp(process: u32, template: Tuple) -> Call {
        Call { process, code: Code::Inp as u32, template, entry: Tuple::BLANK }
    }

    /// cas(template, entry).
    pub fn cas(process: u32, template: Tuple, entry: Tuple) -> Call {
        Call { process, code: Code::Cas as u32, template, entry }
    }

    /// The first fault of a call handed in, refused 3 to 5 in record order with
    /// unused parts last; or which call it is.
    pub fn check(&self) -> Result<Code, Refusal> {
        let code = Code::from_number(self.code.into()).ok_or(Refusal::Unknown)?;
        if code.has_template() {
            self.template.check(Role::Template)?;
        }
        if code.has_entry() {
            self.entry.check(Role::Entry)?;
        }
        let zero = |used: bool, tuple: &Tuple| match used {
            true => tuple.unused_is_zero(),
            false => *tuple == Tuple::BLANK,
        };
        if zero(code.has_template(), &self.template) && zero(code.has_entry(), &self.entry) {
            Ok(code)
        } else {
            Err(Refusal::Shape)
        }
    }
}

/// Reads numbers, fields and tuples from left to right.
#[derive(Clone, Debug)]
pub struct Reader<'a> {
    bytes: &'a [u8],
    taken: usize,
}

impl<'a> Reader<'a> {
    /// A reader at the first of these bytes.
    pub fn new(bytes: &'a [u8]) -> Reader<'a> {
        Reader { bytes, taken: 0 }
    }

    /// How many bytes were taken.
    pub fn taken(&self) -> usize {
        self.taken
    }

    /// Whether no byte is left.
    pub fn at_end(&self) -> bool {
        self.taken == self.bytes.len()
    }

    /// The next number.
    pub fn number(&mut self) -> Result<u64, Refusal> {
        let (value, taken) = read_number(&self.bytes[self.taken..])?;
        self.taken += taken;
        Ok(value)
    }

    /// The next field.
    fn field(&mut self, role: Role) -> Result<Field, Refusal> {
        let (kind, state) = head(self.number()?).ok_or(Refusal::Unknown)?;
        let mut field = Field { kind: kind as u32, state: state as u32, value: 0 };
        field.check(role)?;
        if state == State::Given {
            field.value = self.number()?;
            field.check(role)?;
        }
        Ok(field)
    }

    /// The next tuple.
    fn tuple(&mut self, role: Role) -> Result<Tuple, Refusal> {
        let count = match self.number()? {
            0 => return Err(Refusal::Shape),
            count => usize::try_from(count).map_err(|_| Refusal::Shape)?,
        };
        if count > MOST_FIELDS {
            return Err(Refusal::Shape);
        }
        let mut tuple = Tuple { count, ..Tuple::BLANK };
        for place in &mut tuple.fields[..count] {
            *place = self.field(role)?;
        }
        Ok(tuple)
    }

    /// The next bare seat number, which ends at 4,294,967,295: above it 3.
    fn seat(&mut self) -> Result<u32, Refusal> {
        u32::try_from(self.number()?).map_err(|_| Refusal::Value)
    }

    /// The next record.
    pub fn record(&mut self) -> Result<Call, Refusal> {
        let process = self.seat()?;
        let code = Code::from_number(self.number()?).ok_or(Refusal::Unknown)?;
        let mut call = Call { process, code: code as u32, ..Call::default() };
        if code.has_template() {
            call.template = self.tuple(Role::Template)?;
        }
        if code.has_entry() {
            call.entry = self.tuple(Role::Entry)?;
        }
        Ok(call)
    }
}

/// Kind and state of a head.
fn head(number: u64) -> Option<(Kind, State)> {
    let kind = Kind::from_number(number / 4)?;
    let state = State::from_number(number % 4)?;
    Some((kind, state))
}

/// Reads the record at the front of `bytes`; answers the call and how many
/// bytes it took. Bytes after the record don't matter.
pub fn read_record(bytes: &[u8]) -> Result<(Call, usize), Refusal> {
    let mut reader = Reader::new(bytes);
    let call = reader.record()?;
    Ok((call, reader.taken()))
}

/// The record of a call.
pub fn record_of(call: &Call) -> Result<Vec<u8>, Refusal> {
    let mut record = Vec::with_capacity(LONGEST_RECORD);
    push_record(call, &mut record)?;
    Ok(record)
}

/// Stores the record from the buffer's first byte and answers its length. No
/// byte after it is changed, and on a refusal no byte at all.
pub fn write_record(call: &Call, buffer: &mut [u8]) -> Result<usize, Refusal> {
    let record = record_of(call)?;
    let lent = buffer.get_mut(..record.len()).ok_or(Refusal::Buffer)?;
    lent.copy_from_slice(&record);
    Ok(record.len())
}

/// Appends the record of a call.
pub(crate) fn push_record(call: &Call, record: &mut Vec<u8>) -> Result<(), Refusal> {
    let code = call.check()?;
    write_number(call.process.into(), record);
    write_number(code as u64, record);
    if code.has_template() {
        push_tuple(&call.template, record);
    }
    if code.has_entry() {
        push_tuple(&call.entry, record);
    }
    Ok(())
}

/// Appends a checked tuple.
fn push_tuple(tuple: &Tuple, record: &mut Vec<u8>) {
    write_number(tuple.count as u64, record);
    for field in tuple.used() {
        write_number((4 * field.kind + field.state).into(), record);
        if field.state == State::Given as u32 {
            write_number(field.value, record);
        }
    }
}

#[cfg(test)]
mod tests {
    use super::*;
    use Refusal::*;

    fn longest() -> Call {
        let template = Tuple::of(&[Field::given(Kind::Count, u64::MAX); 6]);
        Call::cas(u32::MAX, template, template)
    }

    fn samples() -> Vec<Call> {
        let undefined = Tuple::of(&[
            Field::any(Kind::Word),
            Field::open(Kind::Count),
            Field::any(Kind::Offset),
            Field::open(Kind::Seats),
            Field::open(Kind::Word),
            Field::given(Kind::Seats, Kind::Seats.last()),
        ]);
        vec![
            Call::out(1, Tuple::proposal(0, 1, 0x50)),
            Call::rdp(0, undefined),
            Call::inp(128, Tuple::decision_template(7)),
            Call::cas(1, Tuple::decision_template(0), Tuple::decision(0, 0, 5)),
            longest(),
        ]
    }

    #[test]
    fn what_is_written_reads_back() {
        for call in samples() {
            let mut buffer = [0xA5; LONGEST_RECORD + 1];
            let length = write_record(&call, &mut buffer).unwrap();
            assert_eq!(read_record(&buffer), Ok((call, length)));
            assert!(buffer[length..].iter().all(|byte| *byte == 0xA5));
            for cut in 0..length {
                assert_eq!(read_record(&buffer[..cut]), Err(Ended));
            }
        }
        assert_eq!(record_of(&longest()).unwrap().len(), LONGEST_RECORD);
    }

    #[test]
    fn a_short_buffer_is_left_alone() {
        let mut buffer = [0xA5; LONGEST_RECORD - 1];
        assert_eq!(write_record(&longest(), &mut buffer), Err(Buffer));
        assert_eq!(buffer, [0xA5; LONGEST_RECORD - 1]);
        let mut bad = longest();
        bad.entry.fields[5] = Field::given(Kind::Word, 256);
        assert_eq!(write_record(&bad, &mut []), Err(Value), "3 to 5 come before 10");
    }

    #[test]
    fn every_head() {
        let known = [4, 5, 6, 8, 9, 10, 12, 13, 14, 16, 17, 18];
        for number in 0..2000 {
            assert_eq!(head(number).is_some(), known.contains(&number), "{number}");
        }
        for number in [4_294_967_300, 4_294_967_306, (1 << 34) + 4, (1 << 63) + 18, u64::MAX] {
            assert_eq!(head(number), None, "{number}");
        }
        assert_eq!(head(10), Some((Kind::Count, State::Open)));
    }

    #[test]
    fn faults_where_they_stand() {
        let rows: [(&[u8], Refusal); 22] = [
            (&[], Ended),
            (&[0x01], Ended),
            (&[0x80, 0x00], Value),
            (&[0x01, 0x00], Unknown),
            (&[0x01, 0x05], Unknown),
            (&[0x01, 0xC8, 0x01], Unknown),
            (&[0x01, 0x81], Ended),
            (&[0x01, 0x01], Ended),
            (&[0x01, 0x01, 0x00], Shape),
            (&[0x01, 0x01, 0x07], Shape),
            (&[0x01, 0x01, 0x80], Ended),
            (&[0x01, 0x01, 0x01], Ended),
            (&[0x01, 0x01, 0x01, 0x07], Unknown),
            (&[0x01, 0x01, 0x01, 0x84, 0x00], Value),
            (&[0x01, 0x01, 0x02, 0x05, 0x07], Shape),
            (&[0x01, 0x02, 0x02, 0x05, 0x07], Unknown),
            (&[0x01, 0x01, 0x01, 0x04], Ended),
            (&[0x01, 0x01, 0x01, 0x04, 0x80, 0x02], Value),
            (&[0x01, 0x01, 0x01, 0x0C, 0xC2, 0x9A, 0x0C], Value),
            (&[0x01, 0x01, 0x01, 0x10, 0x80, 0x80, 0x80, 0x80, 0x08], Value),
            (&[0x01, 0x01, 0x01, 0x08, 0xFF, 0xFF, 0xFF, 0xFF, 0x90], Ended),
            (&[0x01, 0x01, 0x01, 0x08, 0xFF, 0xFF, 0xFF, 0xFF, 0x90, 0x00], Value),
        ];
        for (bytes, refusal) in rows {
            assert_eq!(read_record(bytes), Err(refusal), "{bytes:02X?}");
        }
        assert!(read_record(&[0x01, 0x01, 0x01, 0x0C, 0xC1, 0x9A, 0x0C]).is_ok());
        assert!(read_record(&[0x01, 0x01, 0x01, 0x10, 0x80, 0x80, 0x02]).is_ok());
        assert!(read_record(&[0x01, 0x01, 0x01, 0x10, 0xFF, 0xFF, 0xFF, 0xFF, 0x07]).is_ok());
        assert!(read_record(&[0x01, 0x01, 0x01, 0x08, 0xFF, 0xFF, 0xFF, 0xFF, 0x10]).is_ok());
        assert!(read_record(&[0x01, 0x02, 0x06, 5, 6, 9, 10, 13, 14]).is_ok());
    }

    /// `front`, this number and `behind`.
    fn around(front: &[u8], value: u64, behind: &[u8]) -> Vec<u8> {
        let mut bytes = front.to_vec();
        write_number(value, &mut bytes);
        bytes.extend(behind);
        bytes
    }

    #[test]
    fn long_numbers_are_refused_by_their_own_rule() {
        // The bytes before and behind a number that would be right, and what it is refused where it stands.
        let rows: [(&[u8], u64, &[u8], Refusal); 8] = [
            (&[], 1, &[0x01, 0x01, 0x04, 0x00], Value),
            (&[0x01], 1, &[0x01, 0x04, 0x00], Unknown),
            (&[0x01, 0x01], 1, &[0x04, 0x00], Shape),
            (&[0x01, 0x04, 0x01, 0x05], 1, &[0x04, 0x00], Shape),
            (&[0x01, 0x01, 0x01], 4, &[0x00], Unknown),
            (&[0x01, 0x01, 0x01, 0x04], 7, &[], Value),
            (&[0x01, 0x01, 0x01, 0x0C], 0x50, &[], Value),
            (&[0x01, 0x01, 0x01, 0x10], 5, &[], Value),
        ];
        for (front, right, behind, refusal) in rows {
            assert!(read_record(&around(front, right, behind)).is_ok());
            for high in [1 << 32, 1 << 40, 1 << 63, u64::MAX << 32] {
                // Whatever stands behind it, or nothing.
                for behind in [behind, &[], &[0x80], &[0x80, 0x00], &[0x09]] {
                    let bytes = around(front, high + right, behind);
                    assert_eq!(read_record(&bytes), Err(refusal), "{bytes:02X?}");
                }
            }
        }
        for value in [1 << 32, 1 << 63, u64::MAX] {
            let (call, _) = read_record(&around(&[0x01, 0x01, 0x01, 0x08], value, &[])).unwrap();
            assert_eq!(call.entry, Tuple::of(&[Field::given(Kind::Count, value)]));
        }
    }

    #[test]
    fn the_bare_seat_number() {
        let behind = [0x01, 0x01, 0x04, 0x07];
        for seat in [0, 127, 128, 4_294_967_295] {
            let (call, _) = read_record(&around(&[], seat, &behind)).unwrap();
            assert_eq!(u64::from(call.process), seat);
            assert_eq!(read_record(&around(&[], seat, &[])), Err(Ended));
            assert_eq!(read_record(&around(&[], seat, &[0x09])), Err(Unknown));
        }
        // In a count field the same number is one like others.
        let seat = 4_294_967_296;
        assert!(read_record(&around(&[0x01, 0x01, 0x01, 0x08], seat, &[])).is_ok());
        assert_eq!(read_record(&around(&[], seat, &behind)), Err(Value));
        assert_eq!(read_record(&around(&[], seat, &[])), Err(Value), "where it is read");
        assert_eq!(read_record(&around(&[], seat, &[0x09])), Err(Value), "before the code");
    }

    #[test]
    fn unused_parts_come_last() {
        let good = Call::cas(1, Tuple::decision_template(0), Tuple::decision(0, 0, 5));
        assert_eq!(good.check(), Ok(Code::Cas));
        let mut call = good;
        call.template.fields[2].value = 9;
        assert_eq!(call.check(), Err(Shape), "the value of an open field");
        call.entry.fields[3].value = Kind::Seats.last() + 1;
        assert_eq!(call.check(), Err(Value), "the entry before unused parts");
        call.template.fields[0].kind = 0;
        assert_eq!(call.check(), Err(Unknown), "the template before the entry");
        call.code = 5;
        call.template.count = 0;
        assert_eq!(call.check(), Err(Unknown), "the code before the template");

        let mut call = Call::out(1, Tuple::proposal(0, 1, 3));
        call.template.fields[0].value = 1;
        assert_eq!(call.check(), Err(Shape), "the template of an out");
        let mut call = Call::rdp(1, Tuple::decision_template(0));
        call.entry.count = 9;
        assert_eq!(call.check(), Err(Shape), "the entry of an rdp");
        call.code = Code::Inp as u32;
        assert_eq!(call.check(), Err(Shape), "the entry of an inp");
        let mut call = Call::out(1, Tuple::proposal(0, 1, 3));
        call.entry.fields[4].state = 1;
        assert_eq!(call.check(), Err(Shape), "a place behind the count");
    }
}
