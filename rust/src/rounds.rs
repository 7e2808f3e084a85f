//! Board and seats together under policies 2 and 3: fixed cases, a line for
//! every call and every decision.
//!
//! The rounds of a case come one after another. In each pass of a round the
//! following seats come in order, each with one call at most, its answer
//! handed to it at once; at the end of the pass stands one call of a stray. A
//! round ends after the pass in which the last following seat that is not
//! silent has decided, and strays' calls left over are not made.

use std::fmt::Write;

use crate::board::{Answer, Board};
use crate::config::{Config, DEFAULT, STRONG};
use crate::fields::{Tuple, MOST_SEATS};
use crate::numbers::Offset;
use crate::records::Call;
use crate::seat::{Phase, Seat, Step};
use crate::text;

/// What one seat does in one round.
enum Part {
    /// Follows with this offset, from this pass on.
    Follows { offset: i64, begin: u32 },
    /// Follows, and never calls.
    Silent,
    /// Calls what the round has for strays.
    Strays,
}

/// One round: its number, what each seat from 1 on does, and the calls of the
/// strays, one at the end of each pass.
struct Round {
    number: u64,
    parts: Vec<Part>,
    strays: Vec<Call>,
}

/// A case: a fresh board and the rounds on it. It is under policy 2 if k is 0,
/// else under policy 3 with k choices.
struct Case {
    name: &'static str,
    n: u64,
    t: u64,
    k: u64,
    rounds: Vec<Round>,
}

impl Round {
    /// A round without strays.
    fn of(number: u64, parts: Vec<Part>) -> Round {
        Round { number, parts, strays: Vec::new() }
    }
}

impl Case {
    fn config(&self) -> Config {
        let policy = if self.k == 0 { DEFAULT } else { STRONG };
        Config { n: self.n, t: self.t, policy, k: self.k }
    }

    /// Its name, n and t, and under policy 3 k.
    fn title(&self) -> String {
        let Case { name, n, t, k, .. } = self;
        match k {
            0 => format!("{name} {n} {t}"),
            _ => format!("{name} {n} {t} {k}"),
        }
    }
}

/// Follows from the first pass.
fn follows(offset: i64) -> Part {
    Part::Follows { offset, begin: 1 }
}

/// The travelling number of an offset that is known to be in range.
fn travelling(offset: i64) -> u64 {
    Offset::Number(offset).travelling().expect("an offset in range")
}

/// A proposal in round 0, made by this seat in that one's name.
fn proposal(seat: u32, that: u64, offset: i64) -> Call {
    Call::out(seat, Tuple::proposal(0, that, travelling(offset)))
}

/// A decision in round 0, by this seat with this set.
fn decision(seat: u32, offset: u64, seats: u64) -> Call {
    Call::cas(seat, Tuple::decision_template(0), Tuple::decision(0, offset, seats))
}

/// The cases, in order.
fn cases() -> Vec<Case> {
    let default = [stray(), split(), signs(), late(), held(), bottom(), one(), full()];
    default.into_iter().chain([choices(), seventh(), pair(), wide()]).collect()
}

fn stray() -> Case {
    let parts = vec![follows(40), follows(40), follows(-40), Part::Strays];
    let strays =
        vec![proposal(4, 4, -40), proposal(4, 4, 40), decision(4, travelling(-40), 9), proposal(4, 1, -40)];
    Case { name: "stray", n: 4, t: 1, k: 0, rounds: vec![Round { number: 0, parts, strays }] }
}

fn split() -> Case {
    let parts = [-100_000, 0, 100_000, -1].map(follows).into();
    Case { name: "split", n: 4, t: 1, k: 0, rounds: vec![Round::of(0, parts)] }
}

fn signs() -> Case {
    let parts = [40, -40, 40, -40].map(follows).into();
    Case { name: "signs", n: 4, t: 1, k: 0, rounds: vec![Round::of(0, parts)] }
}

fn late() -> Case {
    let parts = vec![follows(5), follows(-5), Part::Follows { offset: -5, begin: 8 }, Part::Silent];
    Case { name: "late", n: 4, t: 1, k: 0, rounds: vec![Round::of(3, parts)] }
}

/// Seats 2 and 4 settle on -40 before seats 1 and 3 propose 40, which then
/// call cas with 40 and are held -40.
fn held() -> Case {
    let late = || Part::Follows { offset: 40, begin: 7 };
    let parts = vec![late(), follows(-40), late(), follows(-40)];
    Case { name: "held", n: 4, t: 1, k: 0, rounds: vec![Round::of(0, parts)] }
}

/// The stray gets the mark decided, once three offsets are proposed. Seat 1,
/// which then proposes what seat 2 did, calls cas with it and is held the mark.
fn bottom() -> Case {
    let parts = vec![Part::Follows { offset: -40, begin: 4 }, follows(-40), follows(0), Part::Strays];
    let strays =
        vec![decision(4, Offset::MARK, 0b0110), proposal(4, 4, 5), decision(4, Offset::MARK, 0b1110)];
    Case { name: "bottom", n: 4, t: 1, k: 0, rounds: vec![Round { number: 0, parts, strays }] }
}

fn one() -> Case {
    Case { name: "one", n: 1, t: 0, k: 0, rounds: vec![Round::of(7, vec![follows(-40)])] }
}

/// Eight rounds, in which all thirty-one seats follow: at the end the board is full.
fn full() -> Case {
    let parts = |r: i64| (1..=MOST_SEATS as i64).map(|k| follows(((k + r) % (r + 1)) * 50 - 100)).collect();
    let rounds = (0..=7).map(|r: i64| Round::of(r.unsigned_abs(), parts(r))).collect();
    Case { name: "full", n: MOST_SEATS, t: 10, k: 0, rounds }
}

/// What seats 2 to 8 propose of three choices, seats 1 and 9 doing otherwise.
fn between(first: Part, last: Part) -> Vec<Part> {
    let following = [0, 1, 2, 0, 1, 2, 2].map(follows);
    [first].into_iter().chain(following).chain([last]).collect()
}

fn choices() -> Case {
    let parts = between(Part::Strays, Part::Strays);
    let strays = vec![
        proposal(1, 1, 0),
        proposal(9, 9, 1),
        decision(1, travelling(2), 0b0_0100_1001),
        decision(9, Offset::MARK, 0b1_1111_1111),
    ];
    Case { name: "choices", n: 9, t: 2, k: 3, rounds: vec![Round { number: 0, parts, strays }] }
}

/// Only the seventh proposal found settles it.
fn seventh() -> Case {
    let parts = between(Part::Silent, Part::Silent);
    Case { name: "seventh", n: 9, t: 2, k: 3, rounds: vec![Round::of(0, parts)] }
}

fn pair() -> Case {
    let parts = (0..15).map(|place| follows(place % 2)).collect();
    Case { name: "pair", n: 15, t: 4, k: 2, rounds: vec![Round::of(0, parts)] }
}

/// Seats 1, 5, 9, .. 29 are silent, eight of the ten that may stray. The others
/// propose 0 and 1 in turn, so that only the twenty-first found settles it.
fn wide() -> Case {
    let part = |place| match place % 8 {
        0 | 4 => Part::Silent,
        1 | 3 | 6 => follows(0),
        _ => follows(1),
    };
    let parts = (0..MOST_SEATS).map(part).collect();
    Case { name: "wide", n: MOST_SEATS, t: 10, k: 2, rounds: vec![Round::of(0, parts)] }
}

/// The text of all cases.
pub fn run() -> String {
    cases().iter().map(run_case).collect()
}

fn run_case(case: &Case) -> String {
    let mut text = case.title() + "\n";
    let mut board = Board::fresh(case.config()).expect("a sound set-up");
    for round in &case.rounds {
        run_round(&mut board, round, &mut text);
    }
    text
}

/// A following seat that has begun: its state and its due call, if undecided.
struct Begun {
    seat: Seat,
    due: Option<Call>,
}

fn run_round(board: &mut Board, round: &Round, text: &mut String) {
    let mut begun: Vec<Option<Begun>> = round.parts.iter().map(|_| None).collect();
    let mut strays = round.strays.iter();
    for pass in 1.. {
        for ((k, part), begun) in (1..).zip(&round.parts).zip(&mut begun) {
            match part {
                Part::Silent | Part::Strays => {}
                Part::Follows { begin, .. } if begun.is_none() && pass < *begin => {}
                Part::Follows { offset, .. } => {
                    let begun = begun.get_or_insert_with(|| {
                        let started = Seat::start(board.config, k, round.number, travelling(*offset));
                        let (seat, out) = started.expect("a seat that may start");
                        Begun { seat, due: Some(out) }
                    });
                    begun.go_on(board, text);
                }
            }
        }
        if let Some(call) = strays.next() {
            obey(board, call, text);
        }
        let decided = |(part, begun): (&Part, &Option<Begun>)| match part {
            Part::Follows { .. } => begun.as_ref().is_some_and(Begun::has_decided),
            Part::Silent | Part::Strays => true,
        };
        if round.parts.iter().zip(&begun).all(decided) {
            return;
        }
    }
}

impl Begun {
    fn has_decided(&self) -> bool {
        matches!(self.seat.phase, Phase::Decided(_))
    }

    /// Makes the due call, if there is one, and hands its answer to the seat.
    fn go_on(&mut self, board: &mut Board, text: &mut String) {
        let Some(call) = self.due.take() else {
            return;
        };
        let answer = obey(board, &call, text);
        let (seat, step) = self.seat.hand(&answer).expect("the board's answer fits");
        self.seat = seat;
        match step {
            Step::Call(call) => self.due = Some(call),
            Step::Decision { round, offset } => {
                line(text, format_args!("{} decides c{round} {}", seat.process, text::offset(offset)));
            }
        }
    }
}

/// Makes a call and writes its line.
fn obey(board: &mut Board, call: &Call, text: &mut String) -> Answer {
    let answer = Answer::from(board.call(call));
    line(text, format_args!("{} {}: {}", call.process, text::call(call), text::answer(&answer)));
    answer
}

/// Writes a line.
fn line(text: &mut String, line: std::fmt::Arguments<'_>) {
    writeln!(text, "{line}").expect("a string takes all that is written");
}

#[cfg(test)]
mod tests {
    use super::*;

    #[test]
    fn the_cases_come_in_order() {
        let text = run();
        let headers: Vec<&str> =
            text.lines().filter(|line| line.starts_with(|first: char| first.is_ascii_lowercase())).collect();
        let default = ["stray 4 1", "split 4 1", "signs 4 1", "late 4 1", "held 4 1", "bottom 4 1"];
        let largest = ["one 1 0", "full 31 10"];
        let strong = ["choices 9 2 3", "seventh 9 2 3", "pair 15 4 2", "wide 31 10 2"];
        assert_eq!(headers, [&default[..], &largest, &strong].concat());
        assert!(text.ends_with("\n31 decides c0 o0\n"));
    }

    #[test]
    fn a_stray_cannot_turn_the_decision() {
        let text = "stray 4 1
1 out w1 c0 c1 o40: done
2 out w1 c0 c2 o40: done
3 out w1 c0 c3 o-40: done
4 out w1 c0 c4 o-40: done
1 rdp w1 c0 c1 o?: found w1 c0 c1 o40
2 rdp w1 c0 c1 o?: found w1 c0 c1 o40
3 rdp w1 c0 c1 o?: found w1 c0 c1 o40
4 out w1 c0 c4 o40: refused 12
1 rdp w1 c0 c2 o?: found w1 c0 c2 o40
2 rdp w1 c0 c2 o?: found w1 c0 c2 o40
3 rdp w1 c0 c2 o?: found w1 c0 c2 o40
4 cas w2 c0 o? s*, w2 c0 o-40 s9: refused 13
1 cas w2 c0 o? s*, w2 c0 o40 s3: inserted
1 decides c0 o40
2 cas w2 c0 o? s*, w2 c0 o40 s3: held w2 c0 o40 s3
2 decides c0 o40
3 cas w2 c0 o? s*, w2 c0 o40 s3: held w2 c0 o40 s3
3 decides c0 o40
4 out w1 c0 c1 o-40: refused 7
";
        assert_eq!(run_case(&stray()), text);
    }

    /// The lines that the proved program prints.
    #[test]
    fn the_stored_lines() {
        let stored = include_str!("../../crates/rounds/stdout");
        for (number, (line, stored)) in (1..).zip(run().lines().zip(stored.lines())) {
            assert_eq!(line, stored, "line {number}");
        }
        assert_eq!(run(), stored);
    }

    #[test]
    fn the_held_offset_is_decided_and_not_its_own() {
        for (case, seats, own, held) in [(held(), 4, "o40 s5", "o-40"), (bottom(), 3, "o-40 s3", "o_")] {
            let text = run_case(&case);
            assert_eq!(text.matches(&format!(" decides c0 {held}\n")).count(), seats);
            assert_eq!(text.matches(" decides ").count(), seats);
            assert!(text.contains(&format!("1 cas w2 c0 o? s*, w2 c0 {own}: held w2 c0 {held} ")));
        }
    }

    #[test]
    fn a_stray_decides_the_mark() {
        let text = run_case(&bottom());
        let cas: Vec<&str> = text.lines().filter(|line| line.starts_with("4 cas")).collect();
        let early = "4 cas w2 c0 o? s*, w2 c0 o_ s6: refused 13";
        let decides = "4 cas w2 c0 o? s*, w2 c0 o_ s14: inserted";
        assert_eq!(cas, [early, decides]);
        assert_eq!(text.matches(": inserted").count(), 1);
    }

    #[test]
    fn eight_full_rounds_fill_the_board() {
        let text = run_case(&full());
        let count = |end: &str| text.lines().filter(|line| line.ends_with(end)).count();
        assert_eq!(count(": done"), 248);
        assert_eq!(count(": inserted"), 8);
        assert_eq!(text.matches(" decides ").count(), 248);
        assert_eq!(text.matches("refused").count(), 0);
        // Eleven seats for an offset; from the third round on none has as many among 21.
        assert_eq!(count(" o-100 s2047: inserted"), 1);
        assert_eq!(count(" o_ s2097151: inserted"), 6);
    }

    #[test]
    fn every_call_of_the_strays_is_made() {
        let calls = |text: &str| text.lines().filter(|line| line.contains(": ")).count();
        // Seven seats follow: each proposes, reads five seats, and decides.
        assert_eq!(calls(&run_case(&choices())), 7 * (1 + 5 + 1) + 4);
        // Without the strays' proposals each reads eight seats.
        assert_eq!(calls(&run_case(&seventh())), 7 * (1 + 8 + 1));
    }

    #[test]
    fn the_twenty_first_settles_it() {
        let text = run_case(&wide());
        // 23 seats follow: each proposes, reads up to the twenty-first of them, seat 28, and decides.
        assert_eq!(text.matches(": ").count(), 23 * (1 + 28 + 1));
        let seats: u64 = [2, 4, 7, 10, 12, 15, 18, 20, 23, 26, 28].map(|seat| 1 << (seat - 1)).iter().sum();
        assert_eq!(text.matches(&format!(", w2 c0 o0 s{seats}: ")).count(), 23);
    }

    #[test]
    fn strays_among_choices_are_told_why() {
        let text = run_case(&choices());
        let refused: Vec<&str> = text.lines().filter(|line| line.contains("refused")).collect();
        let unborne = "1 cas w2 c0 o? s*, w2 c0 o2 s73: refused 13";
        let mark = "9 cas w2 c0 o? s*, w2 c0 o_ s511: refused 7";
        assert_eq!(refused, [unborne, mark]);
    }

    #[test]
    fn one_choice_is_decided() {
        let cases = [(choices(), "o0", 7), (seventh(), "o2", 7), (pair(), "o0", 15), (wide(), "o0", 23)];
        for (case, decision, seats) in cases {
            let text = run_case(&case);
            assert_eq!(text.matches(&format!(" decides c0 {decision}\n")).count(), seats);
            assert_eq!(text.matches(" decides ").count(), seats);
        }
    }
}
