//! Fields, tuples, answers and calls as text (01, "A whole script").

use std::fmt::{self, Write};

use crate::board::{Answer, AnswerKind};
use crate::fields::{Field, Kind, State, Tuple};
use crate::numbers::Offset;
use crate::records::{Call, Code};

/// `w`, `c`, `o` or `s` and the decimal value; `?` for open, `*` for any.
fn put_field(text: &mut String, field: &Field) {
    let put = match field.head() {
        Some((Kind::Offset, State::Given)) => put_offset(text, field.value),
        Some((kind, State::Given)) => write!(text, "{}{}", kind.letter(), field.value),
        Some((kind, State::Any)) => write!(text, "{}*", kind.letter()),
        Some((kind, State::Open)) => write!(text, "{}?", kind.letter()),
        None => write!(text, "{field:?}"),
    };
    put.expect("a String takes everything");
}

/// `o` and the offset with this travelling number, `o_` for the mark.
fn put_offset(text: &mut String, travelling: u64) -> fmt::Result {
    match Offset::from_travelling(travelling) {
        Some(Offset::Mark) => text.write_str("o_"),
        Some(Offset::Number(z)) => write!(text, "o{z}"),
        None => write!(text, "o!{travelling}"),
    }
}

/// The fields in use, each behind a single space.
fn put_tuple(text: &mut String, tuple: &Tuple) {
    for field in tuple.used() {
        text.push(' ');
        put_field(text, field);
    }
}

/// done, none, inserted, found or held with the fields, or refused and the number.
pub fn put_answer(text: &mut String, answer: &Answer) {
    match answer.kind {
        AnswerKind::Done => text.push_str("done"),
        AnswerKind::None => text.push_str("none"),
        AnswerKind::Inserted => text.push_str("inserted"),
        AnswerKind::Found => text.push_str("found"),
        AnswerKind::Held => text.push_str("held"),
        AnswerKind::Refused(refusal) => write!(text, "{refusal}").expect("a String takes everything"),
    }
    if matches!(answer.kind, AnswerKind::Found | AnswerKind::Held) {
        put_tuple(text, &answer.tuple);
    }
}

/// The same as a text of its own.
pub fn answer(answer: &Answer) -> String {
    let mut text = String::new();
    put_answer(&mut text, answer);
    text
}

/// The fields in use, separated by single spaces.
pub fn tuple(tuple: &Tuple) -> String {
    let mut text = String::new();
    put_tuple(&mut text, tuple);
    text.trim_start().to_string()
}

/// `o` and the offset with this travelling number, `o_` for the mark.
pub fn offset(travelling: u64) -> String {
    let mut text = String::new();
    put_offset(&mut text, travelling).expect("a String takes everything");
    text
}

/// The call's name and its tuples: the template, the entry, or both.
pub fn call(call: &Call) -> String {
    match Code::from_number(call.code.into()) {
        Some(code @ Code::Out) => format!("{} {}", code.name(), tuple(&call.entry)),
        Some(code @ (Code::Rdp | Code::Inp)) => format!("{} {}", code.name(), tuple(&call.template)),
        Some(code @ Code::Cas) => {
            format!("{} {}, {}", code.name(), tuple(&call.template), tuple(&call.entry))
        }
        None => format!("{call:?}"),
    }
}
