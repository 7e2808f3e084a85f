//! Values of this crate as the numbers and structs that cross to the proved library.

use crate::board::{Answer, AnswerKind, Board};
use crate::config::Config;
use crate::fields::{Field, Tuple};
use crate::numbers::Offset;
use crate::records::Call;
use crate::refusal::Refusal;
use crate::seat::{Phase, Seat, Step};
use crate::sys;

pub fn field(field: &Field) -> sys::Field {
    sys::Field { kind: field.kind, state: field.state, value: field.value }
}

pub fn tuple(tuple: &Tuple) -> sys::Tuple {
    sys::Tuple { count: tuple.count, fields: tuple.fields.each_ref().map(field) }
}

pub fn call(call: &Call) -> sys::Call {
    let (template, entry) = (tuple(&call.template), tuple(&call.entry));
    sys::Call { process: call.process, code: call.code, template, entry }
}

pub fn config(config: &Config) -> sys::Config {
    sys::Config { n: config.n, t: config.t, policy: config.policy, k: config.k }
}

pub fn space(board: &Board) -> sys::Space {
    let tuples = board.tuples.each_ref().map(tuple);
    sys::Space { config: config(&board.config), count: board.count, tuples, table: board.table }
}

pub fn reply(answer: &Answer) -> sys::Reply {
    let (outcome, refusal) = match answer.kind {
        AnswerKind::Done => (0, 0),
        AnswerKind::None => (1, 0),
        AnswerKind::Found => (2, 0),
        AnswerKind::Inserted => (3, 0),
        AnswerKind::Held => (4, 0),
        AnswerKind::Refused(refusal) => (5, refusal.number()),
    };
    sys::Reply { outcome, refusal, tuple: tuple(&answer.tuple) }
}

pub fn process(seat: &Seat) -> sys::Process {
    let (phase, value) = match seat.phase {
        Phase::Proposing => (0, 0),
        Phase::Reading(asked) => (1, asked.into()),
        Phase::Deciding => (2, 0),
        Phase::Decided(offset) => (3, offset),
    };
    let (config, found) = (config(&seat.config), seat.found);
    sys::Process { config, process: seat.process, phase, round: seat.round, value, found }
}

/// What a handing gives: its step and state, or the refusal beside the state as it was.
pub fn handed(before: &sys::Process, result: &Result<(Seat, Step), Refusal>) -> sys::Step {
    match result {
        Ok((seat, Step::Call(next))) => calls(seat, next),
        Ok((seat, Step::Decision { offset, .. })) => {
            let (bottom, hundredths) = match Offset::from_travelling(*offset) {
                Some(Offset::Number(z)) => (0, i32::try_from(z).expect("an offset in range")),
                Some(Offset::Mark) => (1, 0),
                None => panic!("a decision out of range"),
            };
            let call = sys::Call::default();
            sys::Step { next: 1, refusal: 0, bottom, hundredths, process: process(seat), call }
        }
        Err(refusal) => refused(before, *refusal),
    }
}

/// What a start gives: its state and call, or the refusal beside a blank state.
pub fn started(result: &Result<(Seat, Call), Refusal>) -> sys::Step {
    match result {
        Ok((seat, out)) => calls(seat, out),
        Err(refusal) => refused(&sys::Process::default(), *refusal),
    }
}

/// Whether seats follow: 0, the number of the first record in which one strays, or the refusal's.
pub fn strays(result: &Result<Option<u32>, Refusal>) -> u64 {
    match result {
        Ok(stray) => stray.unwrap_or(0).into(),
        Err(refusal) => sys::REFUSED + u64::from(refusal.number()),
    }
}

/// A refusal, the state as it was.
pub fn refused(before: &sys::Process, refusal: Refusal) -> sys::Step {
    sys::Step { next: 2, refusal: refusal.number(), process: *before, ..sys::Step::default() }
}

fn calls(seat: &Seat, next: &Call) -> sys::Step {
    sys::Step { process: process(seat), call: call(next), ..sys::Step::default() }
}
