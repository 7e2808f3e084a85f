//! Counts above 32 bits (02, 2.10): tuples and calls with one, and how often a call or its board had one, by what it is the count of.

use std::collections::{BTreeMap, BTreeSet};

use reference::fields::{ANNOUNCED, DECISION, LISTED, MOST_FIELDS, PROPOSE};
use reference::{Answer, AnswerKind, Board, Call, Field, Kind, State, Tuple};

use super::Dice;

/// A count of any length in bits.
pub fn any_count(dice: &mut Dice) -> u64 {
    dice.next() >> dice.below(64)
}

/// Bits above the lower 32: one, or any.
fn high_bits(dice: &mut Dice) -> u64 {
    if dice.one_in(2) {
        1 << (32 + dice.below(32))
    } else {
        dice.next() << 32
    }
}

fn is_count(field: &Field) -> bool {
    field.kind == Kind::Count as u32 && field.state == State::Given as u32
}

/// Gives a count of a tuple high bits, if it has one.
pub fn lengthen(dice: &mut Dice, tuple: &mut Tuple) {
    let places: Vec<usize> =
        (0..tuple.used().len()).filter(|place| is_count(&tuple.fields[*place])).collect();
    if !places.is_empty() {
        tuple.fields[dice.pick(&places)].value |= high_bits(dice);
    }
}

/// Gives a count of a call high bits, if it has one: of its template, of its entry, or mostly of both where both have it.
pub fn lengthen_call(dice: &mut Dice, call: &mut Call) {
    let (which, bits) = (dice.below(5), high_bits(dice));
    let mut fields: Vec<&mut Field> = match which {
        0 => call.template.fields.iter_mut().collect(),
        1 => call.entry.fields.iter_mut().collect(),
        _ => call.template.fields.iter_mut().chain(&mut call.entry.fields).collect(),
    };
    let places: Vec<usize> = (0..fields.len()).filter(|place| is_count(fields[*place])).collect();
    if places.is_empty() {
        return;
    }
    let place = dice.pick(&places) % MOST_FIELDS;
    for place in places.into_iter().filter(|other| other % MOST_FIELDS == place) {
        fields[place].value |= bits;
    }
}

/// The bits that make a count another with the same low 32.
const HIGH: [u64; 2] = [1 << 32, 1 << 63];

/// A tuple with high bits in each of its counts in turn.
pub fn lengthened(tuple: &Tuple) -> Vec<Tuple> {
    let places = (0..MOST_FIELDS).filter(|place| is_count(&tuple.fields[*place]));
    let mut tuples = Vec::new();
    for (place, bits) in places.flat_map(|place| HIGH.map(|bits| (place, bits))) {
        let mut other = *tuple;
        other.fields[place].value |= bits;
        tuples.push(other);
    }
    tuples
}

/// A call with high bits in each of its counts in turn, and in the same one of template and entry.
pub fn lengthened_calls(call: &Call) -> Vec<Call> {
    let templates = lengthened(&call.template);
    let mut calls: Vec<Call> =
        templates.iter().map(|template| Call { template: *template, ..*call }).collect();
    for entry in lengthened(&call.entry) {
        calls.push(Call { entry, ..*call });
        let changed = |place: &usize| entry.fields[*place] != call.entry.fields[*place];
        let place = (0..MOST_FIELDS).find(changed).expect("a count that was changed");
        let same = templates.iter().filter(|template| template.fields[place] == entry.fields[place]);
        calls.extend(same.map(|template| Call { template: *template, entry, ..*call }));
    }
    calls
}

/// What a count is of.
#[derive(Clone, Copy, Debug, PartialEq, Eq, PartialOrd, Ord)]
pub enum Part {
    Round,
    Seat,
    Position,
    Serial,
    /// Of a tuple that no policy but 0 knows.
    Other,
}

/// What the counts above 32 bits of a tuple are of.
fn long_parts(tuple: &Tuple) -> impl Iterator<Item = Part> + '_ {
    let is_long = |(_, field): &(usize, &Field)| is_count(field) && field.value > 4_294_967_295;
    let word = tuple.fields[0].value;
    tuple.used().iter().enumerate().filter(is_long).map(move |(place, _)| match (word, place) {
        (PROPOSE | DECISION, 1) => Part::Round,
        (LISTED, 1) => Part::Position,
        (PROPOSE | LISTED, 2) | (ANNOUNCED, 1) => Part::Seat,
        (LISTED, 3) | (ANNOUNCED, 2) => Part::Serial,
        _ => Part::Other,
    })
}

/// How often such counts came, by policy and by what they are of.
#[derive(Default)]
pub struct Long {
    /// In a call that was obeyed, in one that was denied, on the board of a call that was either.
    came: BTreeMap<(u64, Part), [usize; 3]>,
}

impl Long {
    /// Counts a call and its answer, if nothing was wrong before the policy was asked.
    pub fn note(&mut self, before: &Board, call: &Call, answer: &Answer) {
        let place = match answer.kind {
            AnswerKind::Refused(refusal) if refusal.number() < 7 => return,
            AnswerKind::Refused(_) => 1,
            _ => 0,
        };
        let policy = before.config.policy;
        let called: BTreeSet<Part> = long_parts(&call.template).chain(long_parts(&call.entry)).collect();
        for part in called {
            self.came.entry((policy, part)).or_default()[place] += 1;
        }
        let held: BTreeSet<Part> = before.held().iter().flat_map(long_parts).collect();
        for part in held {
            self.came.entry((policy, part)).or_default()[2] += 1;
        }
    }

    pub fn print(&self) {
        for policy in 0..=5 {
            let came = self.came.iter().filter(|((p, _), _)| *p == policy);
            let came: Vec<String> = came.map(|((_, part), came)| format!("{part:?} {came:?}")).collect();
            if !came.is_empty() {
                println!(
                    "         under policy {policy} counts above 32 bits, of calls obeyed, of calls denied, on boards: {}",
                    came.join(", ")
                );
            }
        }
    }

    /// Under a policy each of these came so often at least, in calls obeyed, in calls denied and on boards.
    pub fn assert_came(&self, policy: u64, parts: &[(Part, [usize; 3])]) {
        for (part, least) in parts {
            let came = self.came.get(&(policy, *part)).copied().unwrap_or_default();
            let enough = came.iter().zip(least).all(|(often, least)| often >= least);
            assert!(enough, "{part:?} came {came:?} times under policy {policy}");
        }
    }
}
