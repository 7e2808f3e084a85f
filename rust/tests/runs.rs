//! Demand 3 on random runs under policies 2 and 3: following seats, strays that
//! call anything, any order. The list of policy 4 on such runs: seats that race
//! for its positions hold the same sums. That of policy 5: the same, and what a
//! seat announces is listed within n positions. And the record reader on random
//! bytes.

mod common;

use std::collections::HashMap;

use common::announced::{Came, Helping};
use common::denials::Denials;
use common::lists::{Cause, Race};
use common::{config_of, offsets_of, some_seats, Dice};
use reference::config::{DEFAULT, LIST, STRONG, WAIT_FREE};
use reference::list::LAST_POSITION;
use reference::policy::LAST_ROUND;
use reference::records::{read_record, record_of};
use reference::{
    Answer, AnswerKind, Board, Call, Config, Field, Kind, Offset, Phase, Refusal, Seat, Step, Tuple,
};

/// What a stray calls: mostly near the policy's forms, at times spoilt. Its
/// offset is one of these, the mark, or some other.
fn stray_call(dice: &mut Dice, process: u32, n: u64, round: u64, offsets: &[u64]) -> Call {
    let offset = match dice.below(6) {
        0 | 1 => Offset::MARK,
        2 => dice.below(20),
        _ => dice.pick(offsets),
    };
    let seat = if dice.one_in(4) { dice.below(n + 2) } else { process.into() };
    let seats = dice.below(1 << n);
    let template = Tuple::decision_template(round);
    let mut call = match dice.below(5) {
        0 | 1 => Call::out(process, Tuple::proposal(round, seat, offset)),
        2 => Call::rdp(process, Tuple::proposal_template(round, seat)),
        3 => {
            Call::inp(process, if dice.one_in(2) { template } else { Tuple::proposal_template(round, seat) })
        }
        _ => Call::cas(process, template, Tuple::decision(round, offset, seats)),
    };
    if dice.one_in(5) {
        let place = dice.below(6) as usize;
        let field = [Field::any(Kind::Word), Field::open(Kind::Offset), Field::given(Kind::Count, round)];
        let field = field[dice.below(3) as usize];
        match dice.below(6) {
            0 => call.template.fields[place] = field,
            1 => call.entry.fields[place] = field,
            2 => call.template.count = dice.below(9) as usize,
            3 => call.entry.count = dice.below(9) as usize,
            4 => call.code = dice.below(6) as u32,
            _ => call.entry.fields[place].value = dice.below(1 << 40),
        }
    }
    call
}

/// A following seat in its present round.
struct Follower {
    seat: Seat,
    due: Option<Call>,
    /// Its calls since its own proposal and those of n - t seats are done.
    since: Option<u64>,
}

/// The decisions given out, and what was proposed by following seats.
#[derive(Default)]
struct Record {
    decisions: HashMap<u64, u64>,
    proposed: HashMap<u64, Vec<u64>>,
    done: HashMap<u64, u64>,
    /// How many calls were refused 7, 12 and 13.
    denied: [usize; 3],
}

impl Record {
    fn decide(&mut self, round: u64, offset: u64) {
        assert_eq!(*self.decisions.entry(round).or_insert(offset), offset, "two decisions in a round");
    }

    /// Notes an answer; decisions of strays' calls count too.
    fn note(&mut self, call: &Call, answer: &Answer) {
        match answer.kind {
            AnswerKind::Done => {
                let (round, _, _) = call.entry.as_proposal().unwrap();
                *self.done.entry(round).or_default() += 1;
            }
            AnswerKind::Inserted => {
                let (round, offset, _) = call.entry.as_decision().unwrap();
                self.decide(round, offset);
            }
            AnswerKind::Held => {
                let (round, offset, _) = answer.tuple.as_decision().unwrap();
                self.decide(round, offset);
            }
            AnswerKind::Refused(refusal) => {
                let denials = [Refusal::Denied, Refusal::Second, Refusal::Unborne];
                if let Some(place) = denials.iter().position(|denial| *denial == refusal) {
                    self.denied[place] += 1;
                }
            }
            AnswerKind::None | AnswerKind::Found => {}
        }
    }
}

/// A sound set-up under policy 2 or 3, and what its following seats propose.
fn set_up(dice: &mut Dice, policy: u64) -> (Config, Vec<u64>) {
    let n = some_seats(dice);
    let k = if policy == STRONG { dice.pick(&[2, 2, 3, 3, 4, 5, 6, 7, 8]) } else { 0 };
    let t = dice.below((n - 1) / if policy == STRONG { k + 1 } else { 3 } + 1);
    let config = Config { n, t, policy, k };
    (config, offsets_of(dice, &config))
}

/// Makes one run; gives the number of rounds decided in it, and how many calls
/// were refused 7, 12 and 13.
fn run(dice: &mut Dice, policy: u64) -> (usize, [usize; 3]) {
    let (config, offsets) = set_up(dice, policy);
    let Config { n, t, k, .. } = config;
    let mut board = Board::fresh(config).unwrap();
    let mut record = Record::default();
    // At most t seats stray; the others follow.
    let mut strays: Vec<u64> = (0..t).map(|_| 1 + dice.below(n)).collect();
    strays.dedup();
    let mut followers: HashMap<u64, (u64, Option<Follower>)> =
        (1..=n).filter(|k| !strays.contains(k)).map(|k| (k, (0, None))).collect();
    let (mut done, mut inserted) = (0, 0);

    for _ in 0..n * 200 {
        let process = dice.below(n + 2);
        let Some((round, follower)) = followers.get_mut(&process) else {
            let round = dice.below(10);
            let call = stray_call(dice, process as u32, n, round, &offsets);
            let before = board.clone();
            let answer = Answer::from(board.call(&call));
            assert_ne!(answer, Answer::from(Refusal::Full));
            if matches!(answer.kind, AnswerKind::Refused(_)) {
                assert_eq!(board, before);
            }
            if !(1..=n).contains(&process) {
                assert!(matches!(answer.kind, AnswerKind::Refused(_)));
            }
            record.note(&call, &answer);
            done += usize::from(answer.kind == AnswerKind::Done);
            inserted += usize::from(answer.kind == AnswerKind::Inserted);
            continue;
        };
        if *round > LAST_ROUND {
            continue;
        }
        if follower.is_none() {
            let offset = dice.pick(&offsets);
            let (seat, out) = Seat::start(config, process as u32, *round, offset).unwrap();
            record.proposed.entry(*round).or_default().push(offset);
            *follower = Some(Follower { seat, due: Some(out), since: None });
        }
        let state = follower.as_mut().unwrap();
        let call = state.due.take().unwrap();
        if state.since.is_none()
            && state.seat.phase != Phase::Proposing
            && record.done.get(round).is_some_and(|done| *done >= n - t)
        {
            state.since = Some(0);
        }
        state.since = state.since.map(|calls| calls + 1);
        let answer = Answer::from(board.call(&call));
        record.note(&call, &answer);
        done += usize::from(answer.kind == AnswerKind::Done);
        inserted += usize::from(answer.kind == AnswerKind::Inserted);
        let (seat, step) = state.seat.hand(&answer).expect("the board's answer fits");
        state.seat = seat;
        match step {
            Step::Call(call) => {
                state.due = Some(call);
                assert!(state.since.unwrap_or(0) <= n, "no decision within n + 1 calls");
            }
            Step::Decision { round: decided, offset } => {
                assert_eq!(decided, *round);
                assert_eq!(seat.phase, Phase::Decided(offset));
                record.decide(decided, offset);
                *round += 1;
                *follower = None;
            }
        }
        assert_eq!(board.count, done + inserted);
    }
    assert_eq!(board.check(), Ok(()));
    let decided = record.decisions.len();
    for (round, offset) in &record.decisions {
        let proposed = &record.proposed[round];
        assert!((policy == DEFAULT && *offset == Offset::MARK) || proposed.contains(offset));
        if policy == STRONG {
            assert!(offset % 2 == 1 && *offset < 2 * k, "a decision that is no choice");
        }
        if proposed.iter().all(|other| *other == proposed[0]) {
            assert_eq!(*offset, proposed[0]);
        }
    }
    (decided, record.denied)
}

#[test]
fn runs_with_strays() {
    let mut dice = Dice::new(21);
    for policy in [DEFAULT, STRONG] {
        let (mut decided, mut denied) = (0, [0; 3]);
        for _ in 0..150 {
            let (rounds, calls) = run(&mut dice, policy);
            decided += rounds;
            denied = [0, 1, 2].map(|place| denied[place] + calls[place]);
        }
        assert!(decided > 300, "{decided} under policy {policy}");
        assert!(denied.iter().all(|calls| *calls > 100), "{denied:?} under policy {policy}");
    }
}

/// Makes one run under policy 4; gives how many positions it filled, and how
/// many sums were held against another's.
fn run_of_a_list(dice: &mut Dice, denials: &mut Denials) -> [usize; 2] {
    let n = some_seats(dice);
    let mut board = Board::fresh(config_of(dice, n, LIST)).unwrap();
    let mut race = Race::new(dice, &board.config);
    for _ in 0..race.calls(dice, 6_000) {
        let call = race.call(dice, &board);
        let before = board.clone();
        let answer = Answer::from(board.call(&call));
        assert_ne!(answer, Answer::from(Refusal::Full));
        let inserted = usize::from(answer.kind == AnswerKind::Inserted);
        assert_eq!(board.count, before.count + inserted);
        if inserted == 0 {
            assert_eq!(board, before);
        }
        denials.note(&before, &call, &answer);
        race.hear(dice, &call, &answer);
    }
    [board.count, race.check(&board)]
}

#[test]
fn runs_of_a_list() {
    let mut dice = Dice::new(23);
    let mut denials = Denials::default();
    let runs: Vec<[usize; 2]> = (0..200).map(|_| run_of_a_list(&mut dice, &mut denials)).collect();
    let whole = runs.iter().filter(|[filled, _]| *filled as u64 == LAST_POSITION).count();
    let sums: usize = runs.iter().map(|[_, sums]| sums).sum();
    assert!(whole > 20 && sums > 50_000, "{whole} {sums}");
    assert!(denials.lists.inserted > 5_000 && denials.lists.held > 10_000);
    denials.lists.assert_each(&Cause::UNDER_4, 100);
}

/// Makes one run under policy 5; gives what came of it.
fn run_of_announcements(dice: &mut Dice, denials: &mut Denials) -> Came {
    let n = some_seats(dice);
    let mut board = Board::fresh(config_of(dice, n, WAIT_FREE)).unwrap();
    let mut helping = Helping::new(dice, &board.config);
    for _ in 0..helping.calls(dice, 6_000) {
        let call = helping.call(dice, &board);
        let before = board.clone();
        let answer = Answer::from(board.call(&call));
        match answer.kind {
            AnswerKind::Done | AnswerKind::Inserted => assert_eq!(board.count, before.count + 1),
            AnswerKind::Found if call.code == 3 => assert_eq!(board.count, before.count - 1),
            _ => assert_eq!(board, before),
        }
        denials.note(&before, &call, &answer);
        helping.hear(dice, &board, &call, &answer);
        if helping.is_over(dice) {
            break;
        }
    }
    helping.check(&board);
    helping.came
}

#[test]
fn runs_of_announcements() {
    let mut dice = Dice::new(27);
    let (mut denials, mut came) = (Denials::default(), Came::default());
    for _ in 0..300 {
        came.add(&run_of_announcements(&mut dice, &mut denials));
    }
    came.assert_each([20, 20_000, 50_000, 3_000, 1_000, 300, 300, 500]);
    denials.announced.assert_each(&Cause::UNDER_4, 50);
    denials.announced.assert_each(&Cause::UNDER_5, 50);
    assert!(denials.announced.taken_off > 1_000 && denials.announced.not_held > 50);
}

#[test]
fn a_record_that_reads_is_the_only_one() {
    let mut dice = Dice::new(22);
    let likely = [0, 1, 2, 3, 4, 5, 6, 8, 9, 10, 12, 13, 14, 16, 17, 18, 0x80, 0x81, 0xFF];
    let offsets: Vec<u64> = (1..=100).collect();
    let (mut read, mut refused) = (0, 0);
    for _ in 0..50_000 {
        // A record, or nothing, with a few bytes changed and a few appended.
        let round = dice.below(8);
        let call = stray_call(&mut dice, 300, 4, round, &offsets);
        let mut bytes = record_of(&call).unwrap_or_default();
        for _ in 0..dice.below(3) {
            let place = dice.below(bytes.len() as u64 + 1) as usize;
            if let Some(byte) = bytes.get_mut(place) {
                *byte = match dice.one_in(4) {
                    true => dice.below(256) as u8,
                    false => likely[dice.below(likely.len() as u64) as usize],
                };
            }
        }
        bytes.extend((0..dice.below(4)).map(|_| dice.below(20) as u8));
        match read_record(&bytes) {
            Ok((call, taken)) => {
                assert_eq!(record_of(&call).unwrap(), bytes[..taken]);
                read += 1;
            }
            Err(refusal) => {
                assert!((2..=5).contains(&refusal.number()));
                refused += 1;
            }
        }
    }
    assert!(read > 10_000 && refused > 10_000, "{read} {refused}");
}
