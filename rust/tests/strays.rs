//! Which seat strays (02, 2.11), on scripts of following seats among seats that slip and seats that call anything, whole and with a record
//! changed, dropped, doubled, swapped or cut; on scripts of bytes; and on set-ups and sets at and beyond their bounds. Each answer is also
//! held against what `common::strays` works out seat by seat, and against what holds of all of them.

mod common;

use std::collections::BTreeMap;

use common::strays::{Came, Clause, Judged};
use common::*;
use reference::config::{DEFAULT, STRONG};
use reference::fields::MOST_SEATS;
use reference::numbers::write_number;
use reference::policy::LAST_ROUND;
use reference::records::{record_of, LONGEST_RECORD};
use reference::script::LONGEST_SCRIPT;
use reference::tabled;
use reference::{Answer, Board, Call, Config, Field, Kind, Offset, Refusal, Seat, Step, Tuple};

/// The set of seats 1 to n.
fn all_of(n: u64) -> u64 {
    (1 << n) - 1
}

/// The set of one seat.
fn bit(seat: u32) -> u64 {
    1 << (seat - 1)
}

/// A set-up as it stands in a script.
fn set_up(config: &Config) -> Vec<u8> {
    let mut bytes = Vec::new();
    let numbers = [config.n, config.t, config.policy, config.k];
    let many = if config.policy == STRONG { 4 } else { 3 };
    numbers[..many].iter().for_each(|number| write_number(*number, &mut bytes));
    bytes
}

/// A seat that takes its rounds by the procedure, and at times slips.
struct Player {
    seat: u32,
    /// The rounds it has still to take, and those it has begun.
    rounds: Vec<u64>,
    begun: Vec<u64>,
    now: Option<(Seat, Call)>,
    last_cas: Option<Call>,
    /// It slips once in so many calls, if at all, and stops after so many.
    slips: Option<u64>,
    calls: u64,
}

impl Player {
    fn new(dice: &mut Dice, seat: u32, slips: Option<u64>) -> Player {
        let mut rounds: Vec<u64> = (0..=LAST_ROUND).collect();
        if dice.one_in(2) {
            for place in (1..rounds.len()).rev() {
                rounds.swap(place, dice.below(place as u64 + 1) as usize);
            }
        }
        let calls = if dice.one_in(4) { dice.below(60) } else { u64::MAX };
        Player { seat, rounds, begun: Vec::new(), now: None, last_cas: None, slips, calls }
    }

    /// Its next call, if it makes one, and the state that waits for the answer.
    fn next(&mut self, dice: &mut Dice, config: &Config, offsets: &[u64]) -> Option<(Call, Option<Seat>)> {
        self.calls = self.calls.checked_sub(1)?;
        // More often where it seldom stands: between rounds, and at its cas.
        let often = |slips| match self.now {
            None if self.begun.is_empty() => 20,
            Some((_, due)) if due.code != 4 => slips,
            _ => 2 + slips / 8,
        };
        if self.slips.is_some_and(|slips| dice.one_in(often(slips))) {
            return Some((self.slip(dice, config, offsets), None));
        }
        if self.now.is_none() {
            let round = self.rounds.pop()?;
            self.begun.push(round);
            let started = Seat::start(*config, self.seat, round, dice.pick(offsets));
            self.now = Some(started.expect("a seat that may start"));
        }
        self.now.take().map(|(seat, call)| (call, Some(seat)))
    }

    fn hear(&mut self, seat: Option<Seat>, call: &Call, answer: &Answer) {
        if call.code == 4 {
            self.last_cas = Some(*call);
        }
        // A slip's answer goes to nobody, and what does not fit ends the seat.
        let Some(seat) = seat else {
            return;
        };
        match seat.hand(answer) {
            Ok((after, Step::Call(next))) => self.now = Some((after, next)),
            Ok((_, Step::Decision { .. })) => self.now = None,
            Err(_) => self.calls = 0,
        }
    }

    /// A call that is mostly not the procedure's here.
    fn slip(&mut self, dice: &mut Dice, config: &Config, offsets: &[u64]) -> Call {
        let (seat, own, n) = (self.seat, u64::from(self.seat), config.n);
        let round = self.begun.last().copied().unwrap_or(0);
        let fresh = self.rounds.last().copied().unwrap_or(round);
        let offset = dice.pick(offsets);
        let out = |round, q, offset| Call::out(seat, Tuple::proposal(round, q, offset));
        let rdp = |round, q| Call::rdp(seat, Tuple::proposal_template(round, q));
        let cas = |round, offset, set| {
            Call::cas(seat, Tuple::decision_template(round), Tuple::decision(round, offset, set))
        };
        match (dice.below(10), self.now) {
            (0, _) => Call::inp(seat, Tuple::proposal_template(round, own)),
            (1, _) => out(dice.pick(&[&self.begun[..], &[round]].concat()), own, offset),
            (2, _) => Call::rdp(seat, Tuple::decision_template(round)),
            (3, None) => out(fresh, own, Offset::MARK),
            (4, None) => out(fresh, own, no_choice(dice, config.k)),
            (5, None) => out(dice.pick(&[8, 9, 255, 1 << 32, u64::MAX]), own, offset),
            (6, None) => out(fresh, dice.pick(&[0, own + 1, 1, n, own + 256]), offset),
            (7, None) => Call::out(seat, Tuple::decision(fresh, offset, bit(seat))),
            (8, None) => rdp(round, 1 + dice.below(n)),
            (_, None) => self.last_cas.unwrap_or(cas(round, offset, bit(seat))),
            (3, _) => out(fresh, own, offset),
            (4, _) => rdp(round, dice.pick(&[0, n, n + 1, own])),
            (5, _) => rdp(round, 1 + dice.below(n)),
            (6, Some((state, _))) => {
                let found: Vec<u64> = (1..=n).filter(|q| state.found[*q as usize - 1] != 0).collect();
                rdp(round, if found.is_empty() { own } else { dice.pick(&found) })
            }
            (7, _) => cas(round, offset, dice.below(1 << n)),
            (_, Some((_, due))) => alter(dice, config, &due, offsets),
        }
    }
}

/// A call with one of its parts another: of an out its round, its seat or its offset, of an rdp its seat or its round, of a cas its set, its
/// offset, its round or its template; or another call in its place.
fn alter(dice: &mut Dice, config: &Config, call: &Call, offsets: &[u64]) -> Call {
    let mut other = *call;
    let n = config.n;
    match (call.code, dice.below(6)) {
        (_, 0) => return near_call(dice, config, call.process, offsets),
        (1, 1) => other.entry.fields[1].value = dice.below(10),
        (1, 2) => other.entry.fields[2].value = dice.below(n + 2),
        (1, 3) => other.entry.fields[3].value = no_choice(dice, config.k),
        (1, 4) => other.entry.fields[3].value = Offset::MARK,
        (1, _) => other.entry.fields[3].value = dice.pick(offsets),
        (2, 1) => other.template.fields[1].value = dice.below(9),
        (2, 2) => other = Call::inp(call.process, call.template),
        (2, 3) => other.template.fields[3] = Field::any(Kind::Offset),
        (2, _) => other.template.fields[2].value = dice.below(n + 2),
        (4, 1) => other.entry.fields[3].value ^= 1 << dice.below(n),
        (4, 2) => {
            let offset = dice.pick(offsets);
            other.entry.fields[2].value = dice.pick(&[Offset::MARK, 1, 2, offset]);
        }
        (4, 3) => other.template.fields[3] = Field::open(Kind::Seats),
        (4, 4) => {
            let round = dice.below(9);
            (other.template.fields[1].value, other.entry.fields[1].value) = (round, round);
        }
        (4, _) => other.entry.fields[3].value = dice.below(1 << n),
        _ => spoil(dice, &mut other, 2),
    }
    other
}

/// What a stray calls: in the policy's forms, or anything.
fn near_call(dice: &mut Dice, config: &Config, process: u32, offsets: &[u64]) -> Call {
    let (n, round) = (config.n, dice.below(9));
    let offset = if dice.one_in(4) { no_choice(dice, config.k) } else { dice.pick(offsets) };
    let template = Tuple::decision_template(round);
    match dice.below(8) {
        0..=2 => Call::out(process, Tuple::proposal(round, process.into(), offset)),
        3 => Call::out(process, Tuple::proposal(round, dice.below(n + 2), offset)),
        4 => Call::rdp(process, Tuple::proposal_template(round, dice.below(n + 2))),
        5 => Call::rdp(process, template),
        6 => Call::cas(process, template, Tuple::decision(round, offset, dice.below(1 << n))),
        _ => Call { process, ..good_call(dice) },
    }
}

/// This number, or one that no seat has, its low bits at times a seat's.
fn any_number(dice: &mut Dice, process: u32) -> u32 {
    match dice.below(8) {
        0 => dice.pick(&[0, 32, 33, 34, 64, 65, 129, 257, (1 << 16) + 1, (1 << 31) + 1, u32::MAX]),
        _ => process,
    }
}

/// A script in the making: what its seats do, and the records so far.
struct Traffic {
    config: Config,
    /// The seats that follow, by their making.
    followers: u64,
    calls: Vec<Call>,
    offsets: Vec<u64>,
}

impl Traffic {
    /// Seats that follow, slip or call anything.
    fn new(dice: &mut Dice, policy: u64) -> Traffic {
        let n = some_seats(dice);
        let config = config_of(dice, n, policy);
        let (share, turns) = (dice.pick(&[[8, 8], [5, 8], [5, 6], [2, 8]]), dice.pick(&[2, 8, 24, 24, 60]));
        Traffic::of(dice, config, share, turns)
    }

    /// So many eighths of the seats follow, so many follow or slip, and the others call anything, in any order, the same one at times
    /// several times in a row; each number's turn comes so often on average.
    fn of(dice: &mut Dice, config: Config, [follow, slip]: [u64; 2], turns: u64) -> Traffic {
        let n = config.n;
        let offsets = offsets_of(dice, &config);
        let mut players = BTreeMap::new();
        for seat in 1..=n as u32 {
            match dice.below(8) {
                share if share < follow => _ = players.insert(seat, Player::new(dice, seat, None)),
                share if share < slip => {
                    let slips = dice.pick(&[8, 30, 100]);
                    players.insert(seat, Player::new(dice, seat, Some(slips)));
                }
                _ => {}
            }
        }
        let follows = players.values().filter(|player| player.slips.is_none());
        let followers = follows.map(|player| bit(player.seat)).sum();
        let mut board = Board::fresh(config).expect("a sound set-up");
        let (mut calls, mut length) = (Vec::new(), 4);
        let (mut process, stays) = (0, dice.pick(&[1, 1, 2, 8]));
        for _ in 0..n * turns {
            if !dice.one_in(stays) || process == 0 {
                process = dice.below(n + 2) as u32;
            }
            let (call, seat) = match players.get_mut(&process) {
                Some(player) => match player.next(dice, &config, &offsets) {
                    Some(next) => next,
                    None => continue,
                },
                // Strays are heard less often, for they fill the rounds.
                None if dice.one_in(2) => continue,
                None => {
                    let number = any_number(dice, process);
                    (near_call(dice, &config, number, &offsets), None)
                }
            };
            let Ok(record) = record_of(&call) else {
                continue;
            };
            length += record.len();
            if length > LONGEST_SCRIPT - 2 * LONGEST_RECORD {
                break;
            }
            let answer = Answer::from(board.obey(&call));
            if let Some(player) = players.get_mut(&process) {
                player.hear(seat, &call, &answer);
            }
            calls.push(call);
        }
        Traffic { config, followers, calls, offsets }
    }

    fn bytes_of(&self, calls: &[Call]) -> Vec<u8> {
        calls.iter().fold(set_up(&self.config), |bytes, call| [bytes, record(call)].concat())
    }

    /// Sets to ask about: none, all, those that follow, with one more, some, and one.
    fn sets(&self, dice: &mut Dice) -> [u64; 9] {
        let all = all_of(self.config.n);
        let mut one = || 1 << dice.below(self.config.n);
        let (first, second, third, fourth) = (one(), one(), one(), one());
        let few = dice.next() & dice.next();
        [0, all, self.followers, self.followers | first, few & all, first, second, third, fourth]
    }

    /// The place of a record: of any, of an out, or of a cas.
    fn place(&self, dice: &mut Dice) -> Option<usize> {
        let code = dice.pick(&[1, 2, 4, 4, 4]);
        let places: Vec<usize> =
            (0..self.calls.len()).filter(|place| self.calls[*place].code == code).collect();
        (!places.is_empty()).then(|| dice.pick(&places))
    }

    /// The script with one record changed, dropped, doubled, swapped with another or with the next, or with another call by its seat or by
    /// any put behind it; and the first place that is another.
    fn mended(&self, dice: &mut Dice) -> Option<(Vec<Call>, usize)> {
        let mut calls = self.calls.clone();
        let place = self.place(dice)?;
        let call = calls[place];
        let first = match dice.below(10) {
            0 | 1 => {
                calls[place] = alter(dice, &self.config, &call, &self.offsets);
                place
            }
            2 => {
                calls.remove(place);
                place
            }
            3 => {
                calls.insert(place, call);
                place + 1
            }
            4 => {
                let other = dice.below(calls.len() as u64) as usize;
                calls.swap(place, other);
                place.min(other)
            }
            5 => {
                calls.swap(place, (place + 1).min(self.calls.len() - 1));
                place
            }
            6..=8 => {
                calls.insert(place + 1, self.behind(dice, &call));
                place + 1
            }
            _ => {
                let process = 1 + dice.below(self.config.n) as u32;
                calls.insert(place, near_call(dice, &self.config, process, &self.offsets));
                place
            }
        };
        calls.iter().all(|call| record_of(call).is_ok()).then_some((calls, first))
    }

    /// A call by the seat of this one: in the same round the decision read, or an out, or a reading.
    fn behind(&self, dice: &mut Dice, call: &Call) -> Call {
        let tuple = if call.code == 2 { &call.template } else { &call.entry };
        let (round, process) = (tuple.fields[1].value, call.process);
        match dice.below(3) {
            0 => Call::rdp(process, Tuple::decision_template(round)),
            1 => Call::out(process, Tuple::proposal(round, process.into(), dice.pick(&self.offsets))),
            _ => Call::rdp(process, Tuple::proposal_template(round, 1 + dice.below(self.config.n))),
        }
    }
}

/// Asks about a script that stands and a set of its seats: by both, and by what was worked out of it.
fn ask(bytes: &[u8], judged: &Judged, set: u64, came: &mut Came) -> Option<u32> {
    let answer = compare_strays(bytes, set).expect("a script that stands");
    judged.check(set, answer);
    came.judge(judged, set);
    answer
}

/// A script that stands and a set with a seat above n.
fn ask_above(dice: &mut Dice, bytes: &[u8], n: u64, came: &mut Came) {
    let above = 1 << (n + if dice.one_in(2) { 0 } else { dice.below(64 - n) });
    let any = dice.next();
    let set = above | dice.pick(&[0, all_of(n), any]);
    assert_eq!(compare_strays(bytes, set), Err(Refusal::Seat));
    came.refuse(Refusal::Seat);
}

/// One script, and what becomes of it with a record changed, and cut.
fn ask_about(dice: &mut Dice, traffic: &Traffic, came: &mut Came) {
    let Traffic { config, followers, .. } = *traffic;
    let bytes = traffic.bytes_of(&traffic.calls);
    let first = set_up(&config).len();
    let judged = Judged::of(config, &bytes, first);
    for set in traffic.sets(dice) {
        let answer = ask(&bytes, &judged, set, came);
        assert!(set & !followers != 0 || answer.is_none(), "seats that follow by their making");
        assert_eq!(tabled::first_stray(&bytes, set), Ok(answer));
        if answer.is_none() {
            for _ in 0..2 {
                let cut = first + dice.below((bytes.len() - first + 1) as u64) as usize;
                assert_eq!(compare_strays(&bytes[..cut], set), Ok(None), "cut at {cut}");
            }
        }
    }
    // The first of all is the first of each.
    let (all, half) = (all_of(config.n), dice.next() & all_of(config.n));
    let of = |set| judged.first(set).map_or(u32::MAX, |(number, _)| number);
    assert_eq!(of(all), of(half).min(of(all & !half)));
    ask_above(dice, &bytes, config.n, came);

    for _ in 0..6 {
        let Some((calls, place)) = traffic.mended(dice) else {
            continue;
        };
        let mended = traffic.bytes_of(&calls);
        let judged = Judged::of(config, &mended, first);
        for set in [followers, all, dice.next() & followers] {
            let answer = ask(&mended, &judged, set, came);
            assert!(
                set & !followers != 0 || answer.is_none_or(|number| number as usize > place),
                "{answer:?} of {place}"
            );
        }
    }
    ask_unread(dice, traffic, &bytes, came);
}

/// A script cut within a record, or with a byte changed, or with bytes behind it that are no record.
fn ask_unread(dice: &mut Dice, traffic: &Traffic, bytes: &[u8], came: &mut Came) {
    let Traffic { config, followers, .. } = *traffic;
    let first = set_up(&config).len();
    let own = 1 + dice.below(config.n) as u8;
    for turn in 0..3 {
        let mut bytes = bytes.to_vec();
        let place = first + dice.below((bytes.len() - first).max(1) as u64) as usize;
        match turn {
            0 => bytes.truncate(place),
            1 => bytes.extend(dice.pick(&[&[own, 5][..], &[own, 1, 7], &[own], &[own, 1, 1, 7], &[0x80, 0]])),
            _ => {
                if let Some(byte) = bytes.get_mut(place) {
                    *byte = dice.pick(&[0, 1, 2, 4, 5, 7, 12, 0x80, 0xFF]);
                }
            }
        }
        let judged = Judged::of(config, &bytes, first);
        for set in [followers, all_of(config.n), dice.next() & all_of(config.n)] {
            ask(&bytes, &judged, set, came);
        }
    }
}

fn scripts_under(policy: u64, seed: u64, scripts: usize, clauses: &[Clause]) {
    let mut dice = Dice::new(seed);
    let mut came = Came::default();
    for _ in 0..scripts {
        let traffic = Traffic::new(&mut dice, policy);
        ask_about(&mut dice, &traffic, &mut came);
    }
    println!("compared {:>7} sets of seats with scripts of {scripts} runs under policy {policy}", came.asked);
    came.print();
    came.assert_refusals(&[Refusal::Seat], 100);
    came.assert_clauses(clauses, 50);
    let Came { nobody, silent, decided, halfway, unread, unread_own, stray_before, all_seats, late, .. } =
        came;
    let often = [nobody, silent, decided, halfway, unread, unread_own, stray_before, all_seats, late];
    assert!(often.iter().all(|often| *often >= 500), "{often:?}");
}

#[test]
fn scripts_under_policy_2() {
    let clauses: Vec<Clause> = Clause::ALL.into_iter().filter(|clause| *clause != Clause::NoChoice).collect();
    scripts_under(DEFAULT, 31, 1_500, &clauses);
}

#[test]
fn scripts_under_policy_3() {
    scripts_under(STRONG, 32, 1_000, &Clause::ALL);
}

#[test]
fn long_scripts() {
    let mut dice = Dice::new(33);
    let mut came = Came::default();
    let mut longest = 0;
    for (share, t, policy, k) in
        [([8, 8], 10, DEFAULT, 0), ([7, 8], 10, DEFAULT, 0), ([8, 8], 7, STRONG, 3), ([7, 8], 10, STRONG, 2)]
    {
        let traffic = Traffic::of(&mut dice, Config { n: MOST_SEATS, t, policy, k }, share, 500);
        longest = longest.max(traffic.bytes_of(&traffic.calls).len());
        ask_about(&mut dice, &traffic, &mut came);
    }
    println!("compared {:>7} sets of {MOST_SEATS} seats with scripts of up to {longest} bytes", came.asked);
    came.print();
    assert!(longest > LONGEST_SCRIPT / 2 && came.halfway > 20 && came.all_seats > 5, "{longest} {came:?}");
}

/// What is refused of a set-up and a set, by their numbers alone.
fn refusal_of_numbers(config: &Config, set: u64) -> Option<Refusal> {
    let Config { n, t, policy, k } = *config;
    let least = match policy {
        2 => Some(3 * u128::from(t) + 1),
        3 if (2..=8).contains(&k) => Some(u128::from(k + 1) * u128::from(t) + 1),
        _ => None,
    };
    match least {
        Some(least) if u128::from(n) >= least && (1..=31).contains(&n) => {
            (set >= 1 << n).then_some(Refusal::Seat)
        }
        _ => Some(Refusal::Unsound),
    }
}

#[test]
fn every_set_up() {
    let mut came = Came::default();
    let mut stand = 0;
    // A k behind another policy than 3 would be a record.
    for config in every_config().into_iter().filter(|config| config.policy == STRONG || config.k == 0) {
        let (bytes, n) = (set_up(&config), config.n.min(62));
        for set in [0, all_of(n), 1 << n, 1 << (n + 1), 1 << 40, 1 << 63, u64::MAX] {
            let refusal = refusal_of_numbers(&config, set);
            assert_eq!(compare_strays(&bytes, set), refusal.map_or(Ok(None), Err), "{config:?} {set:x}");
            match refusal {
                Some(refusal) => came.refuse(refusal),
                None => stand += 1,
            }
        }
    }
    println!("compared {:>7} set-ups and sets at and beyond their bounds: {stand} stand", came.asked + stand);
    came.print_refusals();
    came.assert_refusals(&[Refusal::Unsound, Refusal::Seat], 1_000);
    assert!(stand > 1_000, "{stand}");
}

#[test]
fn every_bit_of_a_set() {
    let mut sets = 0;
    for n in 1..=MOST_SEATS {
        for config in [Config { n, t: 0, policy: DEFAULT, k: 0 }, Config { n, t: 0, policy: STRONG, k: 2 }] {
            // Seat k strays in the record k, with a reading before its out.
            let call = |seat| Call::rdp(seat, Tuple::proposal_template(0, 1));
            let bytes = (1..=n as u32).fold(set_up(&config), |bytes, k| [bytes, record(&call(k))].concat());
            for place in 0..64 {
                let one = if place < n { Ok(Some(place as u32 + 1)) } else { Err(Refusal::Seat) };
                assert_eq!(compare_strays(&bytes, 1 << place), one, "{config:?} {place}");
                // This seat and all below it, and this one and all above.
                let below = if place < n { Ok(Some(1)) } else { Err(Refusal::Seat) };
                assert_eq!(compare_strays(&bytes, u64::MAX >> (63 - place)), below);
                assert_eq!(compare_strays(&bytes, u64::MAX << place), Err(Refusal::Seat));
                if place < n {
                    assert_eq!(compare_strays(&bytes, (u64::MAX << place) & all_of(n)), one);
                }
                sets += 3 + usize::from(place < n);
            }
        }
    }
    println!("compared {sets:>7} sets of one seat, of all up to one and of all from one on");
}

/// A script with a fault or several in its head, or none, and what it is refused: 9, then 2 or 3, then 1, then 6.
fn faulty_head(dice: &mut Dice) -> (Vec<u8>, u64, Option<Refusal>) {
    let config = if dice.one_in(2) {
        odd_config(dice)
    } else {
        let (n, policy) = (some_seats(dice), dice.pick(&[DEFAULT, STRONG, DEFAULT, STRONG, 0, 1, 4, 5]));
        config_of(dice, n, policy)
    };
    let config = if config.policy == STRONG { config } else { Config { k: 0, ..config } };
    let n = config.n.min(62);
    let set = match dice.below(3) {
        0 => dice.next() & all_of(n),
        1 => dice.next() & all_of(n) | 1 << n,
        _ => dice.next(),
    };
    let mut refusal = refusal_of_numbers(&config, set);
    let mut bytes = set_up(&config);
    match dice.below(4) {
        // Cut; a number that is not shortest, or too long.
        0 => {
            bytes.truncate(dice.below(bytes.len() as u64) as usize);
            refusal = Some(Refusal::Ended);
        }
        1 => {
            let before = dice.pick(&[&[4, 1][..], &[4], &[], &[0, 0], &[4, 1, 3]]);
            let number = dice.pick(&[&[0x80, 0][..], &[0x80; 10], &[0x84, 0x80, 0], &[0xFF; 10]]);
            bytes = [before, number].concat();
            refusal = Some(Refusal::Value);
        }
        // Records: a stray's under some number, or none at all.
        2 => {
            let seat = dice.pick(&SEATS);
            bytes.extend(record(&near_call(
                dice,
                &Config { n: 4, t: 1, policy: DEFAULT, k: 0 },
                seat,
                &[1, 3],
            )));
        }
        _ => {}
    }
    if refusal != Some(Refusal::Ended) && dice.one_in(4) {
        let length = LONGEST_SCRIPT + dice.pick(&[0, 1, 2, 70_000]);
        // No record begins so.
        bytes.resize(length.max(bytes.len()), dice.pick(&[0, 0x80, 0xFF]));
        if length > LONGEST_SCRIPT {
            refusal = Some(Refusal::TooLong);
        }
    }
    (bytes, set, refusal)
}

#[test]
fn refusals_in_their_order() {
    let mut dice = Dice::new(34);
    let mut came = Came::default();
    let mut stand = 0;
    for _ in 0..60_000 {
        let (bytes, set, refusal) = faulty_head(&mut dice);
        let answer = compare_strays(&bytes, set);
        assert_eq!(answer.err(), refusal, "{:02X?} {set:x}", &bytes[..bytes.len().min(40)]);
        match refusal {
            Some(refusal) => came.refuse(refusal),
            None => stand += 1,
        }
    }
    println!("compared {:>7} scripts with faults in their heads: {stand} stand", came.asked + stand);
    came.print_refusals();
    use Refusal::{Ended, Seat, TooLong, Unsound, Value};
    came.assert_refusals(&[Unsound, Ended, Value, Seat, TooLong], 1_000);
    assert!(stand > 1_000, "{stand}");
}

#[test]
fn scripts_of_bytes() {
    let mut dice = Dice::new(35);
    let mut came = Came::default();
    let likely = [0, 1, 2, 3, 4, 8, 9, 10, 12, 14, 17, 16, 0x80, 0xFF];
    let bytes_of = |dice: &mut Dice, many| -> Vec<u8> { (0..many).map(|_| dice.pick(&likely)).collect() };
    let mut heads = 0;
    for _ in 0..20_000 {
        // All of it, and the records alone.
        let many = dice.below(12);
        let set = dice.pick(&[0, 1, 3, 1 << 31]);
        heads += usize::from(compare_strays(&bytes_of(&mut dice, many), set).is_ok());
        let config = Config { n: 2, t: 0, policy: DEFAULT, k: 0 };
        let mut bytes = set_up(&config);
        let first = bytes.len();
        for _ in 0..dice.below(4) {
            let seat = dice.pick(&[1, 2]);
            bytes.extend(record(&Call::out(seat, Tuple::proposal(dice.below(8), seat.into(), 1))));
        }
        let many = dice.below(14);
        bytes.extend(bytes_of(&mut dice, many));
        let judged = Judged::of(config, &bytes, first);
        ask(&bytes, &judged, dice.below(4), &mut came);
    }
    println!("compared {:>7} scripts of bytes: {heads} stand; {} of records and bytes", 20_000, came.asked);
    came.print();
    assert!(heads > 100 && came.unread > 2_000 && came.stray_before > 100, "{came:?}");
}
