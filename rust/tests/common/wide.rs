//! How often came what 02, 2.8 made larger: boards that hold more than half of what they may, sets with a seat of the upper half, and set-ups
//! of so many seats, by their choices and by how many may stray.

use std::collections::BTreeMap;

use reference::board::MOST_TUPLES;
use reference::config::{CHOICES, DEFAULT, STRONG};
use reference::fields::MOST_SEATS;
use reference::{Answer, AnswerKind, Board, Call, Config, Refusal, Seat, Step};

/// The first seat of the upper half: 16.
const UPPER_SEAT: u64 = MOST_SEATS / 2 + 1;

/// The most tuples of the lower half: 128.
const HALF: usize = MOST_TUPLES / 2;

/// Whether a board holds more than half of what it may.
pub fn is_wide(board: &Board) -> bool {
    board.count > HALF
}

/// Whether this is a cas of a decision whose set has a seat of the upper half.
fn has_wide_set(call: &Call) -> bool {
    let upper = |(_, _, seats): (u64, u64, u64)| seats >> (UPPER_SEAT - 1) != 0;
    call.code == 4 && call.entry.as_decision().is_some_and(upper)
}

#[derive(Default)]
pub struct Wide {
    /// Calls on wide boards, by policy: obeyed, denied, refused 8.
    boards: BTreeMap<u64, [usize; 3]>,
    /// Decisions with a wide set, by policy: borne, refused 13, refused 7.
    sets: BTreeMap<u64, [usize; 3]>,
    /// Those that a seat's state gave, by policy.
    given: BTreeMap<u64, usize>,
    /// Set-ups of so many seats, by k and t.
    set_ups: BTreeMap<(u64, u64), usize>,
}

impl Wide {
    /// Counts a call and its answer, if nothing was wrong before the policy was asked.
    pub fn note(&mut self, before: &Board, call: &Call, answer: &Answer) {
        let number = match answer.kind {
            AnswerKind::Refused(refusal) if refusal.number() < 7 => return,
            AnswerKind::Refused(refusal) => refusal.number(),
            _ => 0,
        };
        let policy = before.config.policy;
        self.note_set_up(&before.config);
        if is_wide(before) {
            let place = match number {
                0 => 0,
                8 => 2,
                _ => 1,
            };
            self.boards.entry(policy).or_default()[place] += 1;
        }
        if has_wide_set(call) && [DEFAULT, STRONG].contains(&policy) {
            let place = match number {
                13 => 1,
                7 => 2,
                _ => 0,
            };
            self.sets.entry(policy).or_default()[place] += 1;
        }
    }

    /// Counts what a handing gave, if the state was well formed.
    pub fn note_step(&mut self, seat: &Seat, result: &Result<(Seat, Step), Refusal>) {
        if *result != Err(Refusal::Unsound) {
            self.note_set_up(&seat.config);
        }
        if let Ok((_, Step::Call(call))) = result {
            *self.given.entry(seat.config.policy).or_default() += usize::from(has_wide_set(call));
        }
    }

    fn note_set_up(&mut self, config: &Config) {
        if config.n >= UPPER_SEAT {
            *self.set_ups.entry((config.k, config.t)).or_default() += 1;
        }
    }

    pub fn print(&self) {
        for (policy, came) in &self.boards {
            println!("         under policy {policy} {came:?} on more than {HALF} tuples: obeyed, denied, refused 8");
        }
        for (policy, came) in &self.sets {
            println!("         under policy {policy} {came:?} sets with a seat from {UPPER_SEAT} on: borne, refused 13, 7");
        }
        for (policy, came) in &self.given {
            println!("         under policy {policy} {came} cas of a seat with such a set");
        }
        for k in choices() {
            let came: Vec<usize> = strays(k).map(|t| self.often(k, t)).collect();
            if came.iter().any(|often| *often > 0) {
                println!("         with n from {UPPER_SEAT} on and k = {k} {came:?}: by t");
            }
        }
    }

    fn often(&self, k: u64, t: u64) -> usize {
        self.set_ups.get(&(k, t)).copied().unwrap_or(0)
    }

    /// Under these policies wide boards obeyed, denied and refused 8 so often at least.
    pub fn assert_boards(&self, policies: &[u64], least: [usize; 3]) {
        for policy in policies {
            let came = self.boards.get(policy).copied().unwrap_or_default();
            assert!(
                came.iter().zip(least).all(|(often, least)| *often >= least),
                "{came:?} under policy {policy}"
            );
        }
    }

    /// Under these policies wide sets were borne, refused 13 and refused 7 so often at least.
    pub fn assert_sets(&self, policies: &[u64], least: usize) {
        for policy in policies {
            let came = self.sets.get(policy).copied().unwrap_or_default();
            assert!(came.iter().all(|often| *often >= least), "{came:?} under policy {policy}");
        }
    }

    /// States gave so many wide sets at least, under policy 2 and under policy 3.
    pub fn assert_given(&self, least: usize) {
        assert!(
            [DEFAULT, STRONG].iter().all(|policy| self.given.get(policy) >= Some(&least)),
            "{:?}",
            self.given
        );
    }

    /// Every k and every t that it allows came so often at least with so many seats.
    pub fn assert_set_ups(&self, least: usize) {
        for (k, t) in choices().flat_map(|k| strays(k).map(move |t| (k, t))) {
            let often = self.often(k, t);
            assert!(often >= least, "k {k} and t {t} came {often} times");
        }
    }
}

/// No choices, and all that policy 3 has.
fn choices() -> impl Iterator<Item = u64> {
    [0].into_iter().chain(CHOICES)
}

/// How many of the most seats may stray among k choices.
fn strays(k: u64) -> impl Iterator<Item = u64> {
    0..=(MOST_SEATS - 1) / (k + 1).max(3)
}
