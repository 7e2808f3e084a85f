//! Whole runs by both, call by call and as scripts: following seats, driven by the procedure, among strays that aim at the decision.
//! On each run under policies 2 and 3 demand 3's four properties are checked: agreement, validity, unanimity, a decision within n + 1
//! calls. Under policy 3 every decision is a choice. Under policy 4 seats race for the positions of the list, and all that have read the
//! same positions hold the same sum. Under policy 5 they announce their shifts and list each other's, and none waits for more than n
//! positions. Every board of the runs is written back as a script, or refused under policy 5, and at their ends boards beside the last one
//! are too.

mod common;

use std::collections::{BTreeMap, HashMap};

use common::announced::{Came, Helping};
use common::denials::{Cause, Denials};
use common::dumps::{near_miss, Dumps};
use common::lists::{self, Race};
use common::long::{Long, Part};
use common::reached::Flaw;
use common::wide::Wide;
use common::*;
use reference::board::MOST_TUPLES;
use reference::config::{BARE, DEFAULT, LIST, STRONG, WAIT_FREE, WEAK};
use reference::fields::MOST_SEATS;
use reference::list::LAST_POSITION;
use reference::records::{record_of, LONGEST_RECORD};
use reference::script::{run, LONGEST_SCRIPT};
use reference::tabled;
use reference::{
    Answer, AnswerKind, Board, Call, Config, Field, Kind, Offset, Phase, Refusal, Seat, Step, Tuple,
};

/// A following seat: the rounds it will take, and the one it is in.
struct Follower {
    rounds: Vec<u64>,
    now: Option<Now>,
}

struct Now {
    seat: Seat,
    due: Call,
    /// Its calls since its own proposal and those of n - t seats are done.
    since: u64,
}

#[derive(Default)]
struct Counts {
    calls: usize,
    handings: usize,
    scripts: usize,
    decided: usize,
    /// Of these, the rounds decided with the mark, and those that a stray's cas decided, with an offset and with the mark.
    marks: usize,
    raced: [usize; 2],
    refused: usize,
    /// How many calls were refused 8.
    full: usize,
    denials: Denials,
    wide: Wide,
    long: Long,
    /// The runs' boards written back, and boards beside them.
    dumps: Dumps,
    misses: Dumps,
}

impl Counts {
    fn print_dumps(&self) {
        println!("compared {:>7} boards of these runs written back", self.dumps.boards());
        self.dumps.print();
        println!("compared {:>7} boards beside these written back", self.misses.boards());
        self.misses.print();
    }

    /// So many boards of runs, and of those beside them so many of each answer, came at least under this policy.
    fn assert_dumps(&self, policy: u64, written: usize, beside: usize) {
        let came = self.dumps.under(policy);
        assert!(came.written >= written, "{came:?}");
        self.misses.assert_came(policy, beside);
    }

    /// Under policies 2 and 3: calls on boards that hold more than half of what they may, such boards written back, and those beside them.
    fn assert_wide(&self, policy: u64) {
        self.wide.assert_boards(&[policy], [1_000, 100, 0]);
        self.wide.assert_sets(&[policy], 100);
        self.dumps.assert_wide(policy, [100, 0]);
        self.misses.assert_wide(policy, [5, 5]);
    }
}

struct Run {
    config: Config,
    board: Board,
    /// Done proposals: round, then seat, then offset.
    proposed: BTreeMap<u64, BTreeMap<u64, u64>>,
    /// The decision of each round.
    decisions: BTreeMap<u64, u64>,
    /// The seat whose cas was inserted, in each round.
    winners: BTreeMap<u64, u64>,
    script: Vec<u8>,
    held: usize,
}

impl Run {
    fn new(config: Config) -> Run {
        let board = Board::fresh(config).unwrap();
        let mut script = vec![config.n as u8, config.t as u8, config.policy as u8];
        if config.policy == STRONG {
            script.push(config.k as u8);
        }
        Run {
            config,
            board,
            proposed: BTreeMap::new(),
            decisions: BTreeMap::new(),
            winners: BTreeMap::new(),
            script,
            held: 0,
        }
    }

    /// Agreement: a second decision in a round is the first.
    fn decide(&mut self, round: u64, offset: u64) {
        assert_eq!(*self.decisions.entry(round).or_insert(offset), offset, "two decisions in round {round}");
    }

    /// Makes a call by both, and notes what it gives out.
    fn call(&mut self, call: &Call, counts: &mut Counts) -> Answer {
        let before = self.board.clone();
        let answer = compare_call(&mut self.board, call);
        counts.denials.note(&before, call, &answer);
        counts.wide.note(&before, call, &answer);
        counts.long.note(&before, call, &answer);
        counts.calls += 1;
        if let Ok(record) = record_of(call) {
            self.script.extend(record);
        }
        match answer.kind {
            AnswerKind::Done | AnswerKind::Inserted => self.held += 1,
            AnswerKind::Found if call.code == 3 => self.held -= 1,
            AnswerKind::Refused(refusal) => {
                counts.refused += 1;
                counts.full += usize::from(refusal == Refusal::Full);
                assert!(self.board == before, "a refused call changed the board");
            }
            _ => {}
        }
        assert_eq!(self.board.count, self.held, "tuples held are done outs plus inserted less found by inp");
        if self.config.policy > 0 {
            assert_ne!(answer, Answer::from(Refusal::Full), "no place from a fresh board");
        }
        if [DEFAULT, STRONG].contains(&self.config.policy) {
            self.note(call, &answer);
        }
        // Every board of the run: this call left another one.
        if self.board.count != before.count {
            self.dump(counts);
        }
        answer
    }

    /// Writes the board back as a script, by both.
    fn dump(&self, counts: &mut Counts) {
        let refusal = counts.dumps.note(&self.board).err();
        // A script ends in a run's board, but under policy 5 none is written.
        assert_eq!(refusal, (self.config.policy == WAIT_FREE).then_some(Refusal::Unwritten));
    }

    /// At the end of the run: boards beside its last one.
    fn dump_beside(&self, dice: &mut Dice, counts: &mut Counts) {
        for _ in 0..10 {
            _ = counts.misses.note(&near_miss(dice, &self.board));
        }
    }

    fn note(&mut self, call: &Call, answer: &Answer) {
        match answer.kind {
            AnswerKind::Done => {
                let (round, seat, offset) = call.entry.as_proposal().unwrap();
                assert_eq!(seat, u64::from(call.process));
                let again = self.proposed.entry(round).or_default().insert(seat, offset);
                assert_eq!(again, None, "a second proposal");
            }
            AnswerKind::Inserted => {
                let (round, offset, _) = call.entry.as_decision().unwrap();
                self.decide(round, offset);
                self.winners.insert(round, call.process.into());
            }
            AnswerKind::Held => {
                let (round, offset, _) = answer.tuple.as_decision().unwrap();
                self.decide(round, offset);
            }
            AnswerKind::None | AnswerKind::Found | AnswerKind::Refused(_) => {}
        }
    }

    /// The whole script by both, into a buffer that may be short.
    fn script(&self, dice: &mut Dice, counts: &mut Counts) {
        let mut buffer = vec![0xA5; 16 * self.script.len() + 64];
        let length = compare_script(&self.script, &buffer).unwrap();
        assert!(tabled::run(&self.script) == run(&self.script), "by the table: {:02X?}", self.script);
        for room in [length, length - 1, dice.below(length as u64) as usize, length + 9] {
            buffer.resize(room, 0x5A);
            _ = compare_lent(&self.script, &buffer);
        }
        // Damaged: cut anywhere, or a byte changed.
        for _ in 0..6 {
            let mut damaged = self.script.clone();
            let place = dice.below(damaged.len() as u64) as usize;
            match dice.below(3) {
                0 => damaged.truncate(place),
                1 => damaged[place] = dice.next() as u8,
                _ => damaged[place] = dice.pick(&[0, 1, 4, 5, 7, 12, 0x80]),
            }
            if dice.one_in(2) {
                compare_text(&damaged);
            } else {
                _ = compare_lent(&damaged, &vec![0xA5; 16 * damaged.len() + 64]);
            }
        }
        counts.scripts += 11;
    }

    /// Validity and unanimity, for the seats that follow.
    fn check(&self, follows: impl Fn(u64) -> bool, counts: &mut Counts) {
        assert_eq!(self.board.check(), Ok(()));
        for (round, offset) in &self.decisions {
            let by_following: Vec<u64> = self.proposed[round]
                .iter()
                .filter(|(seat, _)| follows(**seat))
                .map(|(_, offset)| *offset)
                .collect();
            assert!(!by_following.is_empty(), "a decision without a following seat's proposal");
            let strong = self.config.policy == STRONG;
            assert!((*offset == Offset::MARK && !strong) || by_following.contains(offset), "validity");
            assert!(!strong || (offset % 2 == 1 && *offset < 2 * self.config.k), "a choice");
            if by_following.iter().all(|other| *other == by_following[0]) {
                assert_eq!(*offset, by_following[0], "unanimity");
            }
            counts.decided += 1;
            let mark = usize::from(*offset == Offset::MARK);
            counts.marks += mark;
            counts.raced[mark] += usize::from(!follows(self.winners[round]));
        }
    }
}

/// What a stray calls that aims at a round: it races the decision, forges a set, or equivocates.
fn stray_call(dice: &mut Dice, run: &Run, process: u32, round: u64, offsets: &[u64]) -> Call {
    let (n, t) = (run.config.n, run.config.t);
    let none = BTreeMap::new();
    let proposed = run.proposed.get(&round).unwrap_or(&none);
    let set = |seats: &mut dyn Iterator<Item = u64>| seats.fold(0, |set, seat| set | 1 << (seat - 1));
    let offset = if dice.one_in(4) { no_choice(dice, run.config.k) } else { dice.pick(offsets) };
    let cas = |offset, seats| {
        Call::cas(process, Tuple::decision_template(round), Tuple::decision(round, offset, seats))
    };
    let mut call = match dice.below(12) {
        // Its proposal, and one in another's name.
        0 | 1 => Call::out(process, Tuple::proposal(round, process.into(), offset)),
        2 => Call::out(process, Tuple::proposal(round, 1 + dice.below(n), offset)),
        // All that have proposed the offset: a race, if they are t + 1.
        3 | 4 => cas(offset, set(&mut proposed.iter().filter(|(_, w)| **w == offset).map(|(k, _)| *k))),
        // The same and one seat more, itself or any.
        5 => {
            let extra = if dice.one_in(2) { process.into() } else { 1 + dice.below(MOST_SEATS) };
            cas(
                offset,
                set(&mut proposed.iter().filter(|(_, w)| **w == offset).map(|(k, _)| *k))
                    | 1 << (extra.clamp(1, MOST_SEATS) - 1),
            )
        }
        // The mark, with at most t seats of each offset: a race to the mark.
        6 | 7 => {
            let mut per = HashMap::new();
            let few = proposed.iter().filter(|(_, w)| {
                let seats = per.entry(**w).or_insert(0);
                *seats += 1;
                *seats <= t
            });
            cas(Offset::MARK, set(&mut few.map(|(k, _)| *k)))
        }
        // The mark with all that proposed, or with all.
        8 if dice.one_in(2) => cas(Offset::MARK, set(&mut proposed.keys().copied())),
        8 => cas(Offset::MARK, (1 << n) - 1),
        9 => cas(if dice.one_in(2) { Offset::MARK } else { offset }, dice.below(1 << MOST_SEATS)),
        10 => Call::rdp(process, Tuple::decision_template(round)),
        _ => Call::inp(
            process,
            if dice.one_in(2) { Tuple::decision_template(round) } else { Tuple::proposal_template(round, 1) },
        ),
    };
    if dice.one_in(8) {
        let part = dice.below(PARTS);
        spoil(dice, &mut call, part);
        // A stray can't call under a following seat's number.
        call.process = process;
    }
    call
}

/// Policies 2 and 3: following seats among as many strays as there may be, each number's turn coming so often on average.
fn run_of_seats(dice: &mut Dice, config: Config, turns: u64, counts: &mut Counts) {
    let mut run = Run::new(config);
    let Config { n, t, .. } = config;
    let offsets = offsets_of(dice, &run.config);
    let mut strays: Vec<u64> = (1..=n).collect();
    for place in (1..strays.len()).rev() {
        strays.swap(place, dice.below(place as u64 + 1) as usize);
    }
    strays.truncate(t as usize);
    let in_order = !dice.one_in(4);
    let mut followers: BTreeMap<u64, Follower> = BTreeMap::new();
    for k in (1..=n).filter(|k| !strays.contains(k)) {
        // The rounds it takes, last first; now and then it takes fewer, or in another order.
        let mut rounds: Vec<u64> = (0..=7).rev().collect();
        if !in_order {
            for place in (1..rounds.len()).rev() {
                rounds.swap(place, dice.below(place as u64 + 1) as usize);
            }
        }
        if dice.one_in(8) {
            rounds = rounds.split_off(dice.below(9) as usize);
        }
        followers.insert(k, Follower { rounds, now: None });
    }
    for _ in 0..n * turns {
        if run.script.len() + LONGEST_RECORD > LONGEST_SCRIPT {
            break;
        }
        let process = dice.below(n + 2);
        let Some(follower) = followers.get_mut(&process) else {
            let busy: Vec<u64> =
                followers.values().filter_map(|f| f.now.as_ref().map(|now| now.seat.round)).collect();
            let round = if busy.is_empty() || dice.one_in(6) { dice.below(10) } else { dice.pick(&busy) };
            let call = stray_call(dice, &run, process as u32, round, &offsets);
            let answer = run.call(&call, counts);
            if !(1..=n).contains(&process) {
                assert!(refused(&answer));
            }
            continue;
        };
        let mut now = match follower.now.take() {
            Some(now) => now,
            None => {
                let Some(round) = follower.rounds.pop() else {
                    continue;
                };
                let offset = Offset::from_travelling(dice.pick(&offsets)).expect("an offset in range");
                let (seat, due) = compare_start(run.config, process as u32, round, offset).unwrap();
                Now { seat, due, since: 0 }
            }
        };
        let round = now.seat.round;
        let enough = run.proposed.get(&round).is_some_and(|done| done.len() as u64 >= n - t);
        if enough && now.seat.phase != Phase::Proposing {
            now.since += 1;
        }
        let answer = run.call(&now.due, counts);
        counts.handings += 1;
        let (seat, step) = compare_hand(&now.seat, &answer).expect("the board's answer fits");
        match step {
            Step::Call(due) => {
                assert!(now.since <= n, "no decision within n + 1 calls");
                follower.now = Some(Now { seat, due, since: now.since });
            }
            Step::Decision { round: decided, offset } => {
                assert_eq!(decided, round);
                run.decide(round, offset);
                // The decision again, whatever is handed in.
                if dice.one_in(4) {
                    let stale = Answer { kind: AnswerKind::Held, tuple: good_tuple(dice, true) };
                    let (same, again) = compare_hand(&seat, &stale).expect("a decided seat repeats");
                    assert_eq!((same, again), (seat, step));
                    counts.handings += 1;
                }
            }
        }
    }
    run.check(|seat| followers.contains_key(&seat), counts);
    run.script(dice, counts);
    run.dump_beside(dice, counts);
}

/// Policies 0 and 1: calls that meet each other, on few values. Some runs under policy 0 are longer and fill the board, and then take off
/// and append in turn.
fn run_of_others(dice: &mut Dice, counts: &mut Counts) {
    let (n, policy) = (some_seats(dice), dice.below(2));
    let mut run = Run::new(config_of(dice, n, policy));
    let fills = policy == BARE && dice.one_in(4);
    let field = |dice: &mut Dice, entry: bool| {
        let kind = dice.pick(&[Kind::Count, Kind::Count, Kind::Word, Kind::Offset]);
        match dice.below(if entry { 2 } else { 4 }) {
            2 => Field::any(kind),
            3 => Field::open(kind),
            _ => Field::given(kind, dice.below(3)),
        }
    };
    let tuple = |dice: &mut Dice, entry: bool| {
        let fields: Vec<Field> = (0..1 + dice.below(2)).map(|_| field(dice, entry)).collect();
        Tuple::of(&fields)
    };
    for _ in 0..if fills { 2 * MOST_TUPLES } else { 220 } {
        let seat = dice.below(run.config.n + 2) as u32;
        let call = if run.config.policy == 1 && !dice.one_in(8) {
            let (round, offset) = (dice.below(9), dice.below(4));
            let head = [Field::given(Kind::Word, 2), Field::given(Kind::Count, round)];
            let template = Tuple::of(&[head[0], head[1], Field::open(Kind::Offset)]);
            let mut call =
                Call::cas(seat, template, Tuple::of(&[head[0], head[1], Field::given(Kind::Offset, offset)]));
            if dice.one_in(4) {
                let part = dice.below(PARTS);
                spoil(dice, &mut call, part);
            }
            call
        } else {
            match dice.below(8) {
                0..=3 => Call::out(seat, tuple(dice, true)),
                4 if fills => Call::out(seat, tuple(dice, true)),
                5 if fills && run.held < MOST_TUPLES - 8 => Call::out(seat, tuple(dice, true)),
                4 => Call::rdp(seat, tuple(dice, false)),
                5 => Call::inp(seat, tuple(dice, false)),
                _ => Call::cas(seat, tuple(dice, false), tuple(dice, true)),
            }
        };
        run.call(&call, counts);
    }
    run.script(dice, counts);
    run.dump_beside(dice, counts);
}

/// Policy 4: seats that race for the positions of the list, among strays. Gives how many positions are filled, how many readings met
/// another and how many sums were held against another's.
fn run_of_a_list(dice: &mut Dice, counts: &mut Counts) -> [usize; 3] {
    let n = some_seats(dice);
    let mut run = Run::new(config_of(dice, n, LIST));
    let mut race = Race::new(dice, &run.config);
    for _ in 0..race.calls(dice, 2_400) {
        let call = race.call(dice, &run.board);
        let answer = run.call(&call, counts);
        race.hear(dice, &call, &answer);
    }
    let sums = race.check(&run.board);
    assert!(run.script.len() <= LONGEST_SCRIPT, "{}", run.script.len());
    run.script(dice, counts);
    run.dump_beside(dice, counts);
    [run.board.count, race.read_again, sums]
}

/// Policy 5: seats that announce their shifts and list each other's, among strays.
fn run_of_announcements(dice: &mut Dice, counts: &mut Counts) -> Came {
    let n = some_seats(dice);
    let mut run = Run::new(config_of(dice, n, WAIT_FREE));
    let mut helping = Helping::new(dice, &run.config);
    for _ in 0..helping.calls(dice, 2_400) {
        let call = helping.call(dice, &run.board);
        let answer = run.call(&call, counts);
        helping.hear(dice, &run.board, &call, &answer);
        if helping.is_over(dice) {
            break;
        }
    }
    helping.check(&run.board);
    assert!(run.script.len() <= LONGEST_SCRIPT, "{}", run.script.len());
    run.script(dice, counts);
    run.dump_beside(dice, counts);
    helping.came
}

/// So many runs under a policy, then some of all seats and as many strays as there may be, and what was counted in them.
fn runs_under(policy: u64, seed: u64, runs: usize, most: &[Config]) -> Counts {
    let mut dice = Dice::new(seed);
    let mut counts = Counts::default();
    for _ in 0..runs {
        let n = some_seats(&mut dice);
        let config = config_of(&mut dice, n, policy);
        run_of_seats(&mut dice, config, 70, &mut counts);
    }
    let others = counts.decided;
    for config in most {
        run_of_seats(&mut dice, *config, 200, &mut counts);
    }
    let (runs, of_most) = (runs + most.len(), counts.decided - others);
    let Counts { calls, handings, scripts, decided, marks, raced: [offsets, bottoms], refused, .. } = counts;
    println!("compared {calls:>7} calls of {runs} runs under policy {policy}: {refused} refused");
    counts.denials.print();
    counts.wide.print();
    println!("         {decided:>7} rounds decided: {marks} with the mark; {of_most} in the {} runs of {MOST_SEATS} seats", most.len());
    println!("         strays' cas decided {offsets} with an offset and {bottoms} with the mark");
    println!("compared {handings:>7} answers handed to following seats");
    println!("compared {scripts:>7} scripts of these runs, whole, damaged, into short buffers");
    counts.print_dumps();
    assert!(of_most >= 2 * most.len(), "{of_most}");
    counts
}

/// Why strays' calls are denied in runs, under both policies.
const IN_RUNS: [Cause; 10] = [
    Cause::SameAgain,
    Cause::OtherAgain,
    Cause::MarkAgain,
    Cause::AnothersAgain,
    Cause::NoMember,
    Cause::TooFew,
    Cause::Differs,
    Cause::Silent,
    Cause::AboveN,
    Cause::RoundAbove,
];

#[test]
fn runs_under_policy_2() {
    let counts = runs_under(DEFAULT, 11, 80, &[Config { n: MOST_SEATS, t: 10, policy: DEFAULT, k: 0 }; 4]);
    counts.assert_dumps(DEFAULT, 300, 5);
    counts.assert_wide(DEFAULT);
    let Counts { decided, marks, raced, denials, .. } = counts;
    assert!(decided > 300 && marks > 30, "{decided} {marks}");
    assert!(raced.iter().all(|often| *often > 20), "{raced:?}");
    denials.assert_each(DEFAULT, &IN_RUNS, 10);
    let marks = [Cause::MarkNoMember, Cause::MarkTooFew, Cause::MarkSilent, Cause::MarkCrowded];
    denials.assert_each(DEFAULT, &marks, 10);
}

#[test]
fn runs_under_policy_3() {
    let most = [(2, 10), (3, 7), (8, 3)].map(|(k, t)| Config { n: MOST_SEATS, t, policy: STRONG, k });
    let counts = runs_under(STRONG, 13, 50, &most);
    counts.assert_dumps(STRONG, 150, 5);
    counts.assert_wide(STRONG);
    let Counts { decided, marks, raced, denials, .. } = counts;
    assert!(decided > 150 && marks == 0 && raced[0] > 15 && raced[1] == 0, "{decided} {marks} {raced:?}");
    denials.assert_each(STRONG, &IN_RUNS, 3);
    denials.assert_each(STRONG, &Cause::STRONG_ONLY, 5);
}

#[test]
fn runs_under_policy_4() {
    let mut dice = Dice::new(18);
    let mut counts = Counts::default();
    let runs: Vec<[usize; 3]> = (0..60).map(|_| run_of_a_list(&mut dice, &mut counts)).collect();
    let whole = runs.iter().filter(|[filled, ..]| *filled as u64 == LAST_POSITION).count();
    let [filled, met, sums] = [0, 1, 2].map(|place| runs.iter().map(|run| run[place]).sum::<usize>());
    let Counts { calls, scripts, refused, .. } = counts;
    println!("compared {calls:>7} calls of {} runs under policy 4: {refused} refused", runs.len());
    counts.denials.print();
    counts.long.print();
    counts.long.assert_came(LIST, &[(Part::Serial, [1_000, 500, 1_000])]);
    println!("         {filled:>7} positions filled, all 112 in {whole} runs; {met} readings and {sums} sums met others");
    println!("compared {scripts:>7} scripts of these runs, whole, damaged, into short buffers");
    counts.print_dumps();
    counts.assert_dumps(LIST, 500, 5);
    assert!(whole >= 5 && met > 5_000 && sums > 5_000, "{whole} {met} {sums}");
    let lists = &counts.denials.lists;
    assert!(lists.held > 3_000 && lists.found > 1_000 && lists.none > 200, "{} {}", lists.held, lists.found);
    lists.assert_each(&lists::Cause::UNDER_4, 10);
    counts.misses.assert_each(LIST, &[Flaw::Misplaced], 50);
}

#[test]
fn runs_under_policy_5() {
    let mut dice = Dice::new(26);
    let (mut counts, mut came) = (Counts::default(), Came::default());
    for _ in 0..120 {
        came.add(&run_of_announcements(&mut dice, &mut counts));
    }
    let Counts { calls, scripts, refused, .. } = counts;
    println!("compared {calls:>7} calls of 120 runs under policy 5: {refused} refused");
    counts.denials.print();
    counts.long.print();
    counts.long.assert_came(WAIT_FREE, &[(Part::Serial, [1_000, 500, 1_000])]);
    came.print();
    println!("compared {scripts:>7} scripts of these runs, whole, damaged, into short buffers");
    counts.print_dumps();
    came.assert_each([5, 10_000, 10_000, 1_000, 500, 100, 100, 200]);
    counts.denials.announced.assert_each(&lists::Cause::UNDER_4, 10);
    counts.denials.announced.assert_each(&lists::Cause::UNDER_5, 10);
    assert!(counts.denials.announced.taken_off > 1_000 && counts.denials.announced.not_held > 200);
    assert!(counts.dumps.under(WAIT_FREE).unwritten > 5_000);
    counts.misses.assert_came(WAIT_FREE, 5);
}

#[test]
fn runs_under_policies_0_and_1() {
    let mut dice = Dice::new(12);
    let mut counts = Counts::default();
    for _ in 0..100 {
        run_of_others(&mut dice, &mut counts);
    }
    let Counts { calls, scripts, refused, full, .. } = counts;
    println!(
        "compared {calls:>7} calls of 100 runs under policies 0 and 1: {refused} refused, {full} of them 8"
    );
    println!("compared {scripts:>7} scripts of these runs");
    counts.wide.print();
    assert!(full > 100, "{full}");
    counts.wide.assert_boards(&[BARE], [1_000, 0, 100]);
    counts.print_dumps();
    counts.dumps.assert_wide(BARE, [500, 0]);
    counts.assert_dumps(BARE, 100, 5);
    counts.assert_dumps(WEAK, 100, 5);
}
