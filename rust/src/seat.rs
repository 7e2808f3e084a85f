//! The procedure of a following seat (01, "The procedure of a following seat",
//! and 02, 2.1).
//!
//! # When a state is well formed
//!
//! Document 01: "if the procedure can reach it by fitting answers". The set-up,
//! seat and round are those that starting lets through and never change. What
//! is found grows by one seat at a time, by the seat just asked, with any
//! offset that may be proposed (under policy 2 all but the mark, under policy 3
//! the choices): an answer fits whatever the seat itself proposed, its own
//! seat's reading included. Call what is found *open* if no offset has t + 1
//! found seats and, under policy 2, fewer than n - t seats are found; the seat
//! goes on reading exactly while that is so. An open finding leaves a seat to
//! ask: under policy 3 each of the k choices has at most t found seats, and kt
//! is below n.
//!
//! - Proposing: always reached, by starting. Nothing is found.
//! - Reading(q): reached exactly when what is found is open and q is from 1 to
//!   n and not found. Only then: the seat reads on only if open, and skips the
//!   found ones. Always then: answer none to all but the found ones, which
//!   takes one way round at most (each part of an open finding is open, so it
//!   never stops early); after that, none leads to each seat not found in turn.
//! - Deciding: reached exactly when what is found is not open but is, for some
//!   found seat, open without it. Only then: the last seat found is such a one.
//!   Always then: find the others first, reach Reading of the last one as
//!   above, and find it.
//! - Decided(code): reached exactly with what may be decided (under policy 2 an
//!   offset in range or the mark, under policy 3 a choice), for a held tuple may
//!   bring any of them, and t + 1 seats found with one offset reach Deciding.
//!   Nothing is kept as found.
//!
//! Tests below compare this with an exhaustive search for small n.

use crate::board::{Answer, AnswerKind};
use crate::config::{Config, DEFAULT, STRONG};
use crate::fields::{Tuple, MOST_SEATS};
use crate::numbers::Offset;
use crate::policy::LAST_ROUND;
use crate::records::Call;
use crate::refusal::Refusal;

/// The policies that a seat starts under.
const POLICIES: [u64; 2] = [DEFAULT, STRONG];

/// Where a seat stands in its round.
#[derive(Clone, Copy, Debug, PartialEq, Eq, Hash)]
pub enum Phase {
    /// Its out waits for its answer.
    Proposing,
    /// It has asked for the proposal of this seat.
    Reading(u32),
    /// Its cas waits for its answer.
    Deciding,
    /// It has decided the offset with this travelling number.
    Decided(u64),
}

/// A seat state as a plain value that can hold anything.
#[derive(Clone, Copy, Debug, PartialEq, Eq, Hash)]
pub struct Seat {
    pub config: Config,
    pub process: u32,
    pub round: u64,
    pub phase: Phase,
    /// At place k - 1 the travelling number of the offset that seat k was
    /// found to have proposed, 0 if it was not found.
    pub found: [u64; MOST_SEATS as usize],
}

/// What comes of handing an answer.
#[derive(Clone, Copy, Debug, PartialEq, Eq, Hash)]
pub enum Step {
    /// The next call.
    Call(Call),
    /// The decision: its round, and its offset's travelling number.
    Decision { round: u64, offset: u64 },
}

/// Nothing found.
const NOTHING: [u64; MOST_SEATS as usize] = [0; MOST_SEATS as usize];

impl Seat {
    /// Starts a seat in one round with the offset it chose (its travelling
    /// number); gives the state and the out. Refuses 1, 6, 3 in this order.
    pub fn start(config: Config, process: u32, round: u64, offset: u64) -> Result<(Seat, Call), Refusal> {
        let seat = Seat { config, process, round, phase: Phase::Proposing, found: NOTHING };
        config.check()?;
        if !POLICIES.contains(&config.policy) {
            return Err(Refusal::Unsound);
        }
        if !config.has_seat(process.into()) {
            return Err(Refusal::Seat);
        }
        if round > LAST_ROUND || !config.may_propose(offset) {
            return Err(Refusal::Value);
        }
        let out = Call::out(process, Tuple::proposal(round, process.into(), offset));
        Ok((seat, out))
    }

    /// Refused 1 unless the procedure can reach this state by fitting answers.
    pub fn check(&self) -> Result<(), Refusal> {
        self.is_well_formed().then_some(()).ok_or(Refusal::Unsound)
    }

    fn is_well_formed(&self) -> bool {
        let started = self.config.check().is_ok()
            && POLICIES.contains(&self.config.policy)
            && self.config.has_seat(self.process.into())
            && self.round <= LAST_ROUND;
        started
            && match self.phase {
                Phase::Proposing => self.found == NOTHING,
                Phase::Reading(asked) => {
                    self.found_may_be()
                        && self.goes_on()
                        && self.config.has_seat(asked.into())
                        && !self.has_found(asked)
                }
                Phase::Deciding => {
                    self.found_may_be()
                        && !self.goes_on()
                        && self.seats_found().any(|last| self.with(last, 0).goes_on())
                }
                Phase::Decided(offset) => self.found == NOTHING && self.config.may_decide(offset),
            }
    }

    /// Hands the state the answer to its last call; gives the state after it,
    /// and the next call or the decision. Refuses 1, 11 in this order, and
    /// then the seat is as it was.
    pub fn hand(&self, answer: &Answer) -> Result<(Seat, Step), Refusal> {
        self.check()?;
        self.step(answer).ok_or(Refusal::Unfit)
    }

    /// The procedure on a well-formed state; `None` if the answer doesn't fit.
    fn step(&self, answer: &Answer) -> Option<(Seat, Step)> {
        match self.phase {
            Phase::Proposing => (*answer == Answer::DONE).then(|| self.ask(1)),
            Phase::Reading(asked) => {
                let after = match answer.kind {
                    AnswerKind::None if answer.tuple == Tuple::BLANK => *self,
                    AnswerKind::Found => self.with(asked, self.proposal_in(&answer.tuple, asked)?),
                    _ => return None,
                };
                Some(after.after_reading(asked))
            }
            Phase::Deciding => match answer.kind {
                AnswerKind::Inserted if answer.tuple == Tuple::BLANK => Some(self.decide(self.verdict()?.0)),
                AnswerKind::Held => Some(self.decide(self.decision_in(&answer.tuple)?)),
                _ => None,
            },
            Phase::Decided(offset) => Some(self.decide(offset)),
        }
    }

    /// Stops with a cas, or reads the next seat that is not found.
    fn after_reading(&self, asked: u32) -> (Seat, Step) {
        match self.verdict() {
            Some((offset, seats)) => {
                let entry = Tuple::decision(self.round, offset, seats);
                let call = Call::cas(self.process, Tuple::decision_template(self.round), entry);
                (Seat { phase: Phase::Deciding, ..*self }, Step::Call(call))
            }
            None => {
                let n = self.config.n as u32;
                let next = (asked + 1..=n).chain(1..=n).find(|q| !self.has_found(*q));
                // Without a verdict fewer than n are found, so there is one.
                self.ask(next.unwrap_or(asked))
            }
        }
    }

    /// The state that has asked for this seat's proposal, and its rdp.
    fn ask(&self, asked: u32) -> (Seat, Step) {
        let template = Tuple::proposal_template(self.round, asked.into());
        let call = Call::rdp(self.process, template);
        (Seat { phase: Phase::Reading(asked), ..*self }, Step::Call(call))
    }

    /// The state that has decided, and its decision.
    fn decide(&self, offset: u64) -> (Seat, Step) {
        let seat = Seat { phase: Phase::Decided(offset), found: NOTHING, ..*self };
        (seat, Step::Decision { round: self.round, offset })
    }

    /// Offset and seats of the cas, if what is found is enough for one: an
    /// offset with t + 1 found seats, else under policy 2 the mark, if n - t
    /// seats are found.
    fn verdict(&self) -> Option<(u64, u64)> {
        let enough = |offset: &u64| u64::from(self.seats_with(*offset).count_ones()) > self.config.t;
        let offset = self.seats_found().filter_map(|k| self.found_of(k)).find(enough);
        match offset {
            Some(offset) => Some((offset, self.seats_with(offset))),
            None if self.config.policy == DEFAULT => {
                let all = self.seats_found().fold(0, |set, k| set | bit(k));
                let many = u64::from(all.count_ones()) >= self.config.n - self.config.t;
                many.then_some((Offset::MARK, all))
            }
            None => None,
        }
    }

    /// Whether what is found is not enough for a cas.
    fn goes_on(&self) -> bool {
        self.verdict().is_none()
    }

    /// The offset proposed, if this is a proposal of the asked round and seat
    /// (under policy 2 any but the mark, under policy 3 a choice), which a
    /// well-formed board can hold.
    fn proposal_in(&self, tuple: &Tuple, asked: u32) -> Option<u64> {
        let (round, seat, offset) = tuple.is_entry().then(|| tuple.as_proposal())??;
        let fits = round == self.round && seat == u64::from(asked) && self.config.may_propose(offset);
        fits.then_some(offset)
    }

    /// The offset decided, if this is (word 2, the asked round, an offset or
    /// the mark, under policy 3 a choice, seats in 1 to n), which a well-formed
    /// board can hold.
    fn decision_in(&self, tuple: &Tuple) -> Option<u64> {
        let (round, offset, seats) = tuple.is_entry().then(|| tuple.as_decision())??;
        let fits = round == self.round && seats >> self.config.n == 0 && self.config.may_decide(offset);
        fits.then_some(offset)
    }

    /// The state with this seat found to have proposed this offset; 0 for not found.
    fn with(&self, seat: u32, offset: u64) -> Seat {
        let mut after = *self;
        if let Some(place) = (seat as usize).checked_sub(1).and_then(|k| after.found.get_mut(k)) {
            *place = offset;
        }
        after
    }

    /// The offset that this seat was found to have proposed.
    fn found_of(&self, seat: u32) -> Option<u64> {
        let place = (seat as usize).checked_sub(1)?;
        self.found.get(place).copied().filter(|offset| *offset != 0)
    }

    fn has_found(&self, seat: u32) -> bool {
        self.found_of(seat).is_some()
    }

    /// The seats found, in order.
    fn seats_found(&self) -> impl Iterator<Item = u32> + '_ {
        (1..=MOST_SEATS as u32).filter(|k| self.has_found(*k))
    }

    /// The set of the found seats that proposed this offset.
    fn seats_with(&self, offset: u64) -> u64 {
        self.seats_found().filter(|k| self.found_of(*k) == Some(offset)).fold(0, |set, k| set | bit(k))
    }

    /// Whether only seats from 1 to n are found, with offsets that may be proposed.
    fn found_may_be(&self) -> bool {
        let may_be = |k: u32| {
            self.config.has_seat(k.into()) && self.found_of(k).is_some_and(|w| self.config.may_propose(w))
        };
        self.seats_found().all(may_be)
    }
}

/// The set of one seat.
fn bit(seat: u32) -> u64 {
    1 << (seat - 1)
}

#[cfg(test)]
mod tests {
    use super::*;
    use crate::config::making::strong;
    use crate::fields::{Field, Kind};
    use std::collections::HashSet;
    use Refusal::{Denied, Second, Unborne, Unfit, Unsound, Value};

    fn config(n: u64, t: u64) -> Config {
        Config { n, t, policy: 2, k: 0 }
    }

    fn proposal(round: u64, seat: u64, offset: u64) -> Answer {
        Answer::found(Tuple::proposal(round, seat, offset))
    }

    /// Hands answers one after another; gives the last state and step.
    fn handed(seat: Seat, answers: &[Answer]) -> (Seat, Step) {
        let (last, front) = answers.split_last().unwrap();
        let before = front.iter().fold(seat, |seat, answer| seat.hand(answer).unwrap().0);
        before.hand(last).unwrap()
    }

    fn asks(seat: &Seat, asked: u32) -> Step {
        Step::Call(Call::rdp(seat.process, Tuple::proposal_template(seat.round, asked.into())))
    }

    fn offers(seat: &Seat, offset: u64, seats: u64) -> Step {
        let template = Tuple::decision_template(seat.round);
        Step::Call(Call::cas(seat.process, template, Tuple::decision(seat.round, offset, seats)))
    }

    #[test]
    fn starting() {
        let (seat, out) = Seat::start(config(4, 1), 2, 7, 200_001).unwrap();
        assert_eq!(out, Call::out(2, Tuple::proposal(7, 2, 200_001)));
        assert_eq!(seat.phase, Phase::Proposing);
        assert_eq!(seat.check(), Ok(()));
        let start = |n, t, policy, process, round, offset| {
            Seat::start(Config { n, t, policy, k: 0 }, process, round, offset).map(|_| ())
        };
        assert_eq!(start(4, 1, 2, 4, 0, 1), Ok(()));
        assert_eq!(start(3, 1, 2, 0, 8, 0), Err(Unsound));
        assert_eq!(start(4, 1, 3, 0, 8, 0), Err(Unsound));
        for policy in [0, 1, 4, 5, 6] {
            assert_eq!(start(4, 1, policy, 1, 0, 1), Err(Unsound));
            assert_eq!(start(4, 1, policy, 0, 8, 0), Err(Unsound));
        }
        assert_eq!(start(4, 1, 2, 0, 8, 0), Err(Refusal::Seat));
        assert_eq!(start(4, 1, 2, 5, 8, 0), Err(Refusal::Seat));
        assert_eq!(start(4, 1, 2, 4, 8, 1), Err(Value));
        assert_eq!(start(4, 1, 2, 4, u64::MAX, 1), Err(Value));
        assert_eq!(start(4, 1, 2, 4, 7, 0), Err(Value));
        assert_eq!(start(4, 1, 2, 4, 7, 200_002), Err(Value));
    }

    #[test]
    fn starting_among_choices() {
        let (seat, out) = Seat::start(strong(5, 1, 3), 2, 7, 5).unwrap();
        assert_eq!(out, Call::out(2, Tuple::proposal(7, 2, 5)));
        assert_eq!(seat.check(), Ok(()));
        let start =
            |config: Config, process, round, offset| Seat::start(config, process, round, offset).map(|_| ());
        for offset in (0..20).chain([200_000, 200_001, 200_002, u64::MAX]) {
            let expected = if [1, 3, 5].contains(&offset) { Ok(()) } else { Err(Value) };
            assert_eq!(start(strong(5, 1, 3), 5, 7, offset), expected, "{offset}");
            assert_eq!(start(strong(5, 1, 3), 5, 8, offset), Err(Value));
            assert_eq!(start(strong(5, 1, 3), 0, 7, offset), Err(Refusal::Seat));
            assert_eq!(start(strong(5, 1, 3), 6, 8, offset), Err(Refusal::Seat));
            assert_eq!(start(strong(4, 1, 3), 6, 8, offset), Err(Unsound));
            assert_eq!(start(Config { k: 3, ..config(5, 1) }, 5, 7, offset), Err(Unsound));
        }
    }

    #[test]
    fn reading_round_and_round() {
        let (seat, _) = Seat::start(config(4, 1), 2, 5, 3).unwrap();
        let mut answers = vec![Answer::DONE];
        let mut expect = |answer: Option<Answer>, next: Step| {
            answers.extend(answer);
            assert_eq!(handed(seat, &answers).1, next);
        };
        expect(None, asks(&seat, 1));
        expect(Some(Answer::NONE), asks(&seat, 2));
        expect(Some(Answer::NONE), asks(&seat, 3));
        expect(Some(proposal(5, 3, 9)), asks(&seat, 4));
        expect(Some(Answer::NONE), asks(&seat, 1));
        expect(Some(proposal(5, 1, 8)), asks(&seat, 2));
        expect(Some(Answer::NONE), asks(&seat, 4));
        expect(Some(Answer::NONE), asks(&seat, 2));
        expect(Some(proposal(5, 2, 1)), offers(&seat, 0, 0b0111));
        expect(Some(Answer::INSERTED), Step::Decision { round: 5, offset: 0 });
        // Once decided, any answer brings the decision again.
        expect(Some(Answer::NONE), Step::Decision { round: 5, offset: 0 });
        for refusal in [Denied, Second, Unborne] {
            expect(Some(Answer::from(refusal)), Step::Decision { round: 5, offset: 0 });
        }
        let odd = Tuple { count: 99, ..Tuple::proposal(8, 8, 8) };
        expect(Some(Answer::held(odd)), Step::Decision { round: 5, offset: 0 });
    }

    #[test]
    fn an_offset_of_t_plus_1_comes_before_the_mark() {
        let (seat, _) = Seat::start(config(4, 1), 1, 0, 0x51).unwrap();
        let answers = [Answer::DONE, proposal(0, 1, 0x51), proposal(0, 2, 0x50), proposal(0, 3, 0x50)];
        let (deciding, step) = handed(seat, &answers);
        assert_eq!(step, offers(&seat, 0x50, 0b0110));
        assert_eq!(deciding.hand(&Answer::INSERTED).unwrap().1, Step::Decision { round: 0, offset: 0x50 });
        for offset in [0, 1, 0x51, 200_001] {
            for seats in [0, 0b1111] {
                let held = Answer::held(Tuple::decision(0, offset, seats));
                assert_eq!(deciding.hand(&held).unwrap().1, Step::Decision { round: 0, offset });
            }
        }
    }

    #[test]
    fn thirty_one_seats() {
        let (seat, _) = Seat::start(config(31, 10), 31, 0, 9).unwrap();
        let found = |seats: std::ops::RangeInclusive<u64>, offset: fn(u64) -> u64| {
            seats.map(move |q| proposal(0, q, offset(q))).collect::<Vec<_>>()
        };
        let alike = [vec![Answer::DONE], found(1..=11, |_| 9)].concat();
        assert_eq!(handed(seat, &alike[..11]).1, asks(&seat, 11));
        assert_eq!(handed(seat, &alike).1, offers(&seat, 9, 0x7FF));
        let unlike = [vec![Answer::DONE], found(1..=21, |q| 1 + q % 3)].concat();
        assert_eq!(handed(seat, &unlike[..21]).1, asks(&seat, 21));
        assert_eq!(handed(seat, &unlike).1, offers(&seat, 0, 0x1F_FFFF));
        // Twenty are found up to the last seat, and then the first one.
        let late = [vec![Answer::DONE], vec![Answer::NONE; 11], found(12..=31, |q| 1 + q % 3)].concat();
        assert_eq!(handed(seat, &late).1, asks(&seat, 1));
        let late = [late, found(1..=1, |_| 9)].concat();
        assert_eq!(handed(seat, &late).1, offers(&seat, 0, 0x7FFF_F801));
    }

    #[test]
    fn a_choice_is_read_for_until_t_plus_1_have_it() {
        // Six found seats settle nothing, the seventh does.
        let (seat, _) = Seat::start(strong(9, 2, 3), 5, 0, 1).unwrap();
        let mut answers = vec![Answer::DONE, Answer::NONE];
        for (asked, offset) in [(2, 1), (3, 3), (4, 5), (5, 1), (6, 3), (7, 5)] {
            answers.push(proposal(0, asked, offset));
            assert_eq!(handed(seat, &answers).1, asks(&seat, asked as u32 + 1));
        }
        let settled = [answers.clone(), vec![proposal(0, 8, 5)]].concat();
        let (deciding, step) = handed(seat, &settled);
        assert_eq!(step, offers(&seat, 5, 0b0_1100_1000));
        assert_eq!(deciding.hand(&Answer::INSERTED).unwrap().1, Step::Decision { round: 0, offset: 5 });
        // Round again, past the found ones.
        answers.extend([Answer::NONE, Answer::NONE]);
        assert_eq!(handed(seat, &answers).1, asks(&seat, 1));
        answers.push(Answer::NONE);
        assert_eq!(handed(seat, &answers).1, asks(&seat, 8));
        // Whatever is held, if it is a choice, is the decision.
        for offset in (0..10).chain([200_000, 200_001]) {
            for seats in [0, 0x1FF] {
                let held = Answer::held(Tuple::decision(0, offset, seats));
                let decision = deciding.hand(&held).map(|(_, step)| step);
                let choice = [1, 3, 5].contains(&offset);
                let expected = if choice { Ok(Step::Decision { round: 0, offset }) } else { Err(Unfit) };
                assert_eq!(decision, expected, "{offset}");
            }
        }
    }

    #[test]
    fn proposals_of_no_choice_do_not_fit() {
        let (proposing, _) = Seat::start(strong(5, 1, 3), 1, 3, 1).unwrap();
        let (reading, _) = proposing.hand(&Answer::DONE).unwrap();
        for offset in (0..10).chain([200_000, 200_001, 200_002]) {
            let fits = reading.hand(&proposal(3, 1, offset)).map(|(_, step)| step);
            let choice = [1, 3, 5].contains(&offset);
            assert_eq!(fits, if choice { Ok(asks(&reading, 2)) } else { Err(Unfit) }, "{offset}");
        }
        assert_eq!(reading.hand(&Answer::NONE).unwrap().1, asks(&reading, 2));
    }

    #[test]
    fn one_seat_alone() {
        let (seat, _) = Seat::start(config(1, 0), 1, 7, 0x50).unwrap();
        let waiting = [Answer::DONE, Answer::NONE, Answer::NONE];
        assert_eq!(handed(seat, &waiting).1, asks(&seat, 1));
        let (deciding, step) = handed(seat, &[Answer::DONE, proposal(7, 1, 0x52)]);
        assert_eq!(step, offers(&seat, 0x52, 1));
        let mark = Answer::held(Tuple::decision(7, 0, 0));
        assert_eq!(deciding.hand(&mark).unwrap().1, Step::Decision { round: 7, offset: 0 });
    }

    #[test]
    fn answers_that_do_not_fit() {
        let (proposing, _) = Seat::start(config(4, 1), 1, 3, 9).unwrap();
        let (reading, _) = proposing.hand(&Answer::DONE).unwrap();
        let (deciding, _) = handed(reading, &[proposal(3, 1, 9), proposal(3, 2, 9)]);
        assert_eq!(deciding.phase, Phase::Deciding);
        let good = Tuple::proposal(3, 1, 9);
        let decision = Tuple::decision(3, 9, 0b1111);
        let fits = |seat: &Seat, answer: &Answer| match seat.hand(answer) {
            Ok(_) => true,
            Err(refusal) => {
                assert_eq!(refusal, Unfit);
                false
            }
        };
        let bare = [
            AnswerKind::Done,
            AnswerKind::None,
            AnswerKind::Inserted,
            AnswerKind::Found,
            AnswerKind::Held,
            AnswerKind::Refused(Denied),
            AnswerKind::Refused(Second),
            AnswerKind::Refused(Unborne),
        ];
        for kind in bare {
            for tuple in [Tuple::BLANK, good, decision] {
                let answer = Answer { kind, tuple };
                let blank = tuple == Tuple::BLANK;
                assert_eq!(fits(&proposing, &answer), kind == AnswerKind::Done && blank);
                let read =
                    (kind == AnswerKind::None && blank) || (kind == AnswerKind::Found && tuple == good);
                assert_eq!(fits(&reading, &answer), read);
                let cast = (kind == AnswerKind::Inserted && blank)
                    || (kind == AnswerKind::Held && tuple == decision);
                assert_eq!(fits(&deciding, &answer), cast);
            }
        }
        for tuple in [
            Tuple::proposal(2, 1, 9),
            Tuple::proposal(3, 2, 9),
            Tuple::proposal(3, 1, 0),
            Tuple::proposal(3, 1, 200_002),
            Tuple::proposal_template(3, 1),
            Tuple { count: 3, ..good },
            Tuple { count: 5, ..good },
        ] {
            assert!(!fits(&reading, &Answer::found(tuple)));
        }
        for tuple in [
            Tuple::decision(2, 9, 1),
            Tuple::decision(3, 200_002, 1),
            Tuple::decision(3, 9, 0b1_0000),
            Tuple::decision(3, 9, Kind::Seats.last() + 1),
            Tuple::decision_template(3),
        ] {
            assert!(!fits(&deciding, &Answer::held(tuple)));
        }
        let mut spoilt = good;
        spoilt.fields[5].value = 1;
        assert!(!fits(&reading, &Answer::found(spoilt)));
        let mut spoilt = decision;
        spoilt.fields[4] = Field::given(Kind::Word, 0);
        assert!(!fits(&deciding, &Answer::held(spoilt)));
    }

    #[test]
    fn unreachable_states_are_refused() {
        let (proposing, _) = Seat::start(config(4, 1), 1, 3, 9).unwrap();
        let (reading, _) = handed(proposing, &[Answer::DONE, proposal(3, 1, 9)]);
        assert_eq!(reading.phase, Phase::Reading(2));
        let mut states = Vec::new();
        for seat in [proposing, reading] {
            states.push(Seat { process: 0, ..seat });
            states.push(Seat { process: 5, ..seat });
            states.push(Seat { round: 8, ..seat });
            states.push(Seat { config: Config { policy: 0, ..seat.config }, ..seat });
            states.push(Seat { config: Config { policy: 4, ..seat.config }, ..seat });
            states.push(Seat { config: Config { t: u64::MAX, ..seat.config }, ..seat });
            states.push(Seat { config: Config { n: 3, ..seat.config }, ..seat });
            states.push(Seat { config: Config { n: 0, ..seat.config }, ..seat });
        }
        states.push(Seat { phase: Phase::Proposing, ..reading });
        states.push(Seat { phase: Phase::Deciding, ..reading });
        states.push(Seat { phase: Phase::Decided(9), ..reading });
        states.push(Seat { phase: Phase::Decided(200_002), ..proposing });
        for asked in [0, 1, 5, u32::MAX] {
            states.push(Seat { phase: Phase::Reading(asked), ..reading });
        }
        states.push(reading.with(5, 9));
        states.push(reading.with(MOST_SEATS as u32, 9));
        states.push(reading.with(3, 200_002));
        states.push(reading.with(3, 9));
        // The same under policy 3, where found and decided are choices.
        let (proposing, _) = Seat::start(strong(5, 1, 3), 1, 3, 1).unwrap();
        let (reading, _) = handed(proposing, &[Answer::DONE, proposal(3, 1, 5)]);
        assert_eq!(reading.check(), Ok(()));
        for k in [0, 1, 2, 4, 9, u64::MAX] {
            states.push(Seat { config: Config { k, ..reading.config }, ..reading });
        }
        for policy in [0, 1, 2, 4, 5] {
            states.push(Seat { config: Config { policy, ..reading.config }, ..reading });
        }
        for offset in [2, 4, 7, 200_001, 200_002] {
            states.push(reading.with(3, offset));
            states.push(Seat { phase: Phase::Decided(offset), ..proposing });
        }
        states.push(Seat { phase: Phase::Decided(Offset::MARK), ..proposing });
        states.push(Seat { phase: Phase::Deciding, ..reading });
        states.push(reading.with(3, 5));
        // Four found, and the cas hangs on the last two.
        let deciding = Seat { phase: Phase::Deciding, ..reading.with(2, 3).with(3, 1).with(4, 1) };
        assert_eq!(deciding.check(), Ok(()));
        states.push(deciding.with(5, 1));
        states.push(deciding.with(5, 3));
        states.push(deciding.with(4, 0));
        for state in states {
            assert_eq!(state.hand(&Answer::NONE), Err(Unsound), "{state:?}");
            assert_eq!(state.hand(&Answer::DONE), Err(Unsound), "{state:?}");
        }
    }

    /// All states that fitting answers reach, with these offsets alone, all of
    /// which may be proposed.
    fn reached(config: Config, offsets: &[u64]) -> HashSet<Seat> {
        let (first, _) = Seat::start(config, 1, 0, offsets[0]).unwrap();
        let mut reached = HashSet::from([first]);
        let mut open = vec![first];
        while let Some(seat) = open.pop() {
            let answers: Vec<Answer> = match seat.phase {
                Phase::Proposing => vec![Answer::DONE],
                Phase::Reading(asked) => {
                    let found = offsets.iter().map(|w| proposal(0, asked.into(), *w));
                    found.chain([Answer::NONE]).collect()
                }
                Phase::Deciding => {
                    let mark = (config.policy == DEFAULT).then_some(&Offset::MARK);
                    let held = offsets.iter().chain(mark).map(|w| Answer::held(Tuple::decision(0, *w, 0)));
                    held.chain([Answer::INSERTED]).collect()
                }
                Phase::Decided(_) => vec![Answer::NONE],
            };
            for answer in answers {
                // `step`, not `hand`: the search must not lean on `check`.
                let (next, _) = seat.step(&answer).expect("a fitting answer");
                if reached.insert(next) {
                    open.push(next);
                }
            }
        }
        reached
    }

    /// All states with these offsets alone, reachable or not.
    fn all(config: Config, offsets: &[u64]) -> Vec<Seat> {
        let mut findings = vec![NOTHING];
        for place in 0..=config.n as usize {
            // One place behind n as well.
            let more = findings.clone().into_iter().flat_map(|finding| {
                offsets.iter().map(move |offset| {
                    let mut finding = finding;
                    finding[place] = *offset;
                    finding
                })
            });
            findings.extend(more.collect::<Vec<_>>());
        }
        let mut phases = vec![Phase::Proposing, Phase::Deciding, Phase::Decided(0)];
        phases.extend((0..=config.n as u32 + 1).map(Phase::Reading));
        phases.extend(offsets.iter().map(|offset| Phase::Decided(*offset)));
        let state = |found, phase| Seat { config, process: 1, round: 0, phase, found };
        findings.iter().flat_map(|found| phases.iter().map(move |phase| state(*found, *phase))).collect()
    }

    #[test]
    fn well_formed_is_reachable() {
        let rows: [(u64, u64, &[u64]); 9] = [
            (1, 0, &[1, 2, 200_001]),
            (2, 0, &[1, 2, 3]),
            (3, 0, &[1, 2, 3]),
            (4, 0, &[1, 2]),
            (4, 1, &[1, 2, 3, 4]),
            (5, 1, &[1, 2, 3, 4]),
            (6, 1, &[1, 2, 3]),
            (7, 2, &[1, 2, 3]),
            (8, 2, &[1, 2]),
        ];
        for (n, t, offsets) in rows {
            well_formed_is_reached(config(n, t), offsets, &[]);
        }
    }

    #[test]
    fn well_formed_is_reachable_among_choices() {
        // n, t and k, and offsets that are no choices.
        let rows: [(u64, u64, u64, &[u64]); 10] = [
            (1, 0, 2, &[2, 5, 200_001]),
            (1, 0, 8, &[2, 17]),
            (2, 0, 3, &[2, 7]),
            (3, 0, 2, &[2, 5]),
            (4, 1, 2, &[2, 5, 200_001]),
            (5, 1, 3, &[2, 7]),
            (6, 1, 2, &[5]),
            (6, 1, 4, &[]),
            (7, 2, 2, &[2]),
            (8, 2, 2, &[]),
        ];
        for (n, t, k, others) in rows {
            let choices: Vec<u64> = (0..k).map(|choice| 1 + 2 * choice).collect();
            well_formed_is_reached(strong(n, t, k), &choices, others);
        }
    }

    /// Of all states with these offsets and these others, those that are well
    /// formed are those that the offsets reach.
    fn well_formed_is_reached(config: Config, offsets: &[u64], others: &[u64]) {
        let reached = reached(config, offsets);
        let all = all(config, &[offsets, others].concat());
        for seat in &all {
            assert_eq!(seat.check().is_ok(), reached.contains(seat), "{seat:?}");
        }
        let well_formed = all.iter().filter(|seat| seat.check().is_ok()).count();
        assert_eq!(well_formed, reached.len(), "{config:?}");
    }
}
