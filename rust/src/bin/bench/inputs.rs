//! What both sides are run on: records, boards with a call, and scripts.

use std::fs;

use reference::board::MOST_TUPLES;
use reference::config::{BARE, WAIT_FREE};
use reference::fields::{ANNOUNCED, MOST_SEATS};
use reference::list::LAST_POSITION;
use reference::policy::LAST_ROUND;
use reference::records::record_of;
use reference::script::LONGEST_SCRIPT;
use reference::tabled;
use reference::{Answer, Board, Call, Config, Field, Kind, Offset, Phase, Seat, Step, Tuple};

/// All seats, under policy 2.
pub const FULL: Config = Config { n: MOST_SEATS, t: (MOST_SEATS - 1) / 3, policy: 2, k: 0 };

/// Records of all four calls, one behind the other, their counts from this one on.
pub fn records(least: u64) -> Vec<u8> {
    let mut bytes = Vec::new();
    for k in 0..1000u64 {
        let process = (1 + k % MOST_SEATS) as u32;
        let (round, seat) = (least + k % (LAST_ROUND + 1), least + u64::from(process));
        let offset = 1 + k * 7919 % Offset::LAST;
        let call = match k % 4 {
            0 => Call::out(process, Tuple::proposal(round, seat, offset)),
            1 => Call::rdp(process, Tuple::proposal_template(round, seat)),
            2 => {
                let count = Field::given(Kind::Count, least + k * 65_537);
                Call::inp(process, Tuple::of(&[count, Field::any(Kind::Word)]))
            }
            _ => Call::cas(process, Tuple::decision_template(round), Tuple::decision(round, offset, k)),
        };
        add(&mut bytes, &call);
    }
    bytes
}

/// The hundredths that seat k proposes in a round.
pub fn choice(round: u64, k: u32) -> i32 {
    (k as i32 + round as i32) % (round as i32 + 1) * 50 - 100
}

/// Its travelling number.
fn chosen(round: u64, k: u32) -> u64 {
    Offset::Number(choice(round, k).into()).travelling().expect("in range")
}

/// All rounds by the plain version, in which all seats follow; each call is shown before it is made.
pub fn rounds_shown(mut show: impl FnMut(&Call)) {
    let mut board = Board::fresh(FULL).expect("a sound set-up");
    for round in 0..=LAST_ROUND {
        let start = |k| {
            let (seat, out) = Seat::start(FULL, k, round, chosen(round, k)).expect("a seat that may start");
            (seat, Some(out))
        };
        let mut seats: Vec<(Seat, Option<Call>)> = (1..=MOST_SEATS as u32).map(start).collect();
        while seats.iter().any(|(_, due)| due.is_some()) {
            for (seat, due) in &mut seats {
                if let Some(call) = due.take() {
                    show(&call);
                    let answer = Answer::from(tabled::call(&mut board, &call));
                    let (next, step) = seat.hand(&answer).expect("the board's answer fits");
                    *seat = next;
                    if let Step::Call(call) = step {
                        *due = Some(call);
                    }
                }
            }
        }
    }
    assert_eq!(board.count, MOST_TUPLES);
}

/// A board that eight rounds of proposals of all seats and a decision have filled.
pub fn full_board() -> Board {
    let mut board = Board::fresh(FULL).expect("a sound set-up");
    for round in 0..=LAST_ROUND {
        for seat in 1..=MOST_SEATS as u32 {
            let out = Call::out(seat, Tuple::proposal(round, seat.into(), 81));
            assert_eq!(board.call(&out), Ok(Answer::DONE));
        }
        let cas =
            Call::cas(1, Tuple::decision_template(round), Tuple::decision(round, 81, (1 << MOST_SEATS) - 1));
        assert_eq!(board.call(&cas), Ok(Answer::INSERTED));
    }
    board
}

/// A tuple of a bare board.
fn entry(k: u64) -> Tuple {
    Tuple::of(&[Field::given(Kind::Count, k), Field::given(Kind::Offset, 1 + k)])
}

/// What asks for it.
fn template(k: u64) -> Tuple {
    Tuple::of(&[Field::given(Kind::Count, k), Field::open(Kind::Offset)])
}

/// A bare board that holds so many tuples, and an rdp that goes through all of them.
pub fn searched(count: usize) -> (Board, Call) {
    let mut board = Board::fresh(Config { policy: BARE, ..FULL }).expect("a sound set-up");
    for k in 0..count as u64 {
        assert_eq!(board.call(&Call::out(1, entry(k))), Ok(Answer::DONE));
    }
    (board, Call::rdp(1, template(MOST_TUPLES as u64)))
}

/// A decision with the first of all seats, so many.
fn decision(round: u64, offset: u64, members: u64) -> Call {
    Call::cas(1, Tuple::decision_template(round), Tuple::decision(round, offset, (1 << members) - 1))
}

/// A board of so many tuples: rounds in which all seats have proposed and one has decided, with all of one offset, or with four or fewer of
/// each for the mark; at last what is left of a round. And a cas in the last round, with as many seats as it needs.
pub fn decided(count: usize, mark: bool) -> (Board, Call) {
    let mut board = Board::fresh(FULL).expect("a sound set-up");
    let offset = |seat: u64| if mark { 1 + seat % 8 } else { 81 };
    let cas = |round| match mark {
        true => decision(round, Offset::MARK, FULL.n - FULL.t),
        false => decision(round, 81, FULL.t + 1),
    };
    let turns = MOST_SEATS + 1;
    for turn in 0..count as u64 {
        let (round, seat) = (turn / turns, 1 + turn % turns);
        let answer = match seat {
            1..=MOST_SEATS => board.call(&Call::out(seat as u32, Tuple::proposal(round, seat, offset(seat)))),
            _ => board.call(&cas(round)),
        };
        assert!(answer.is_ok(), "{answer:?}");
    }
    (board, cas((count as u64 - 1) / turns))
}

/// A seat that calls cas with the mark in the last round, having found as many as that needs.
pub fn deciding() -> Seat {
    let (mut seat, _) =
        Seat::start(FULL, 1, LAST_ROUND, chosen(LAST_ROUND, 1)).expect("a seat that may start");
    let found = |k| Answer::found(Tuple::proposal(LAST_ROUND, k, chosen(LAST_ROUND, k as u32)));
    for answer in [Answer::DONE].into_iter().chain((1..=FULL.n - FULL.t).map(found)) {
        (seat, _) = seat.hand(&answer).expect("a fitting answer");
    }
    assert_eq!(seat.phase, Phase::Deciding);
    seat
}

/// The beginning of a script of all seats under a policy other than 3.
fn begun(policy: u64) -> Vec<u8> {
    [FULL.n, FULL.t, policy].map(|number| number as u8).into()
}

/// Adds the record of a call.
fn add(bytes: &mut Vec<u8>, call: &Call) {
    bytes.extend(record_of(call).expect("a sound call"));
}

/// Adds the records of as many of these calls as there is room for in the longest script, and makes it as long.
fn fill(mut bytes: Vec<u8>, calls: impl Iterator<Item = Call>) -> Vec<u8> {
    for call in calls {
        let record = record_of(&call).expect("a sound call");
        if bytes.len() + record.len() > LONGEST_SCRIPT {
            break;
        }
        bytes.extend(record);
    }
    bytes.resize(LONGEST_SCRIPT, 1);
    bytes
}

/// The worked script of document 01.
pub fn worked_script() -> Vec<u8> {
    fs::read(concat!(env!("CARGO_MANIFEST_DIR"), "/../crates/board/stdin")).expect("the worked script")
}

/// A bare board filled with tuples, then rdp and cas in turn up to the longest script.
pub fn long_script() -> Vec<u8> {
    let mut bytes = begun(BARE);
    for k in 0..MOST_TUPLES as u64 {
        add(&mut bytes, &Call::out(1, entry(k)));
    }
    let asked = |k| template(k * 37 % MOST_TUPLES as u64);
    let call = |k| if k % 2 == 0 { Call::rdp(2, asked(k)) } else { Call::cas(3, asked(k), entry(k)) };
    fill(bytes, (0..).map(call))
}

/// How many tuples wait on the board of the next script.
pub const WAITING: usize = 200;

/// A bare board on which as many tuples wait; then one is taken off by inp, the oldest, one in the middle or the newest in turn, and another
/// put by out, up to the longest script.
pub fn taking_script() -> Vec<u8> {
    let mut bytes = begun(BARE);
    let mut waiting: Vec<u64> = (0..WAITING as u64).collect();
    for k in &waiting {
        add(&mut bytes, &Call::out(1, entry(*k)));
    }
    let oldest = Tuple::of(&[Field::open(Kind::Count), Field::open(Kind::Offset)]);
    let turn = |k: u64| {
        let (place, asked) = match k % 3 {
            0 => (0, oldest),
            1 => (WAITING / 2, template(waiting[WAITING / 2])),
            _ => (WAITING - 1, template(waiting[WAITING - 1])),
        };
        waiting.remove(place);
        waiting.push(k);
        [Call::inp(2, asked), Call::out(1, entry(k))]
    };
    fill(bytes, (WAITING as u64..).flat_map(turn))
}

/// The eight rounds as a script.
pub fn rounds_script() -> Vec<u8> {
    let mut bytes = begun(FULL.policy);
    rounds_shown(|call| add(&mut bytes, call));
    assert!(bytes.len() <= LONGEST_SCRIPT);
    bytes
}

/// A shared list of 112 positions under policy 4 or 5. For each of them three seats race; then the others read it. At last one seat after
/// another reads the whole list, up to the longest script.
pub fn list_script(policy: u64) -> Vec<u8> {
    let mut listing = Listing::begun(policy);
    for position in 1..=LAST_POSITION {
        let racers = [0, 11, 22].map(|further| 1 + (5 * position + further) % MOST_SEATS);
        listing.race(position, racers);
        for seat in (1..=MOST_SEATS).filter(|seat| !racers.contains(seat)) {
            listing.add(&reading(seat, position));
        }
    }
    let all = (1..=MOST_SEATS).cycle().flat_map(|seat| (1..=LAST_POSITION).map(move |p| reading(seat, p)));
    fill(listing.bytes, all)
}

/// The script of a list in the making.
struct Listing {
    bytes: Vec<u8>,
    /// Whether seats announce, which is policy 5.
    announcing: bool,
    seats: [Lister; MOST_SEATS as usize + 1],
}

/// How many shifts a seat has listed, and whether it has announced the next.
#[derive(Clone, Copy, Default)]
struct Lister {
    listed: u64,
    announced: bool,
}

impl Listing {
    fn begun(policy: u64) -> Listing {
        let seats = [Lister::default(); MOST_SEATS as usize + 1];
        Listing { bytes: begun(policy), announcing: policy == WAIT_FREE, seats }
    }

    fn add(&mut self, call: &Call) {
        add(&mut self.bytes, call);
    }

    /// The serial and the shift that a seat lists next.
    fn next(&self, seat: u64) -> (u64, u64) {
        let serial = self.seats[seat as usize].listed;
        (serial, 1 + (7 * seat + 3 * serial) % 40)
    }

    /// Seats race for a position. Each reads that it is free, and where they announce what waits of the preferred seat, having announced its
    /// own; then each would list that, or else its own. Who was listed takes its announcement off.
    fn race(&mut self, position: u64, racers: [u64; 3]) {
        let preferred = 1 + (position - 1) % MOST_SEATS;
        for seat in racers {
            if self.announcing {
                self.announce(seat);
                self.add(&Call::rdp(seat as u32, announcement_template(preferred)));
            }
            self.add(&reading(seat, position));
        }
        let owed = self.seats[preferred as usize].announced;
        let listed_by = |seat| if owed { preferred } else { seat };
        for caller in racers {
            let seat = listed_by(caller);
            let (serial, shift) = self.next(seat);
            let entry = Tuple::listed(position, seat, serial, shift);
            self.add(&Call::cas(caller as u32, Tuple::listed_template(position), entry));
        }
        self.settle(listed_by(racers[0]));
    }

    /// A seat announces what it lists next, where it has not.
    fn announce(&mut self, seat: u64) {
        let (serial, shift) = self.next(seat);
        if !std::mem::replace(&mut self.seats[seat as usize].announced, true) {
            self.add(&Call::out(seat as u32, Tuple::announcement(seat, serial, shift)));
        }
    }

    /// A seat was listed.
    fn settle(&mut self, seat: u64) {
        let Lister { listed, announced } = &mut self.seats[seat as usize];
        *listed += 1;
        if std::mem::take(announced) {
            self.add(&Call::inp(seat as u32, announcement_template(seat)));
        }
    }
}

/// The rdp of a position.
fn reading(seat: u64, position: u64) -> Call {
    Call::rdp(seat as u32, Tuple::listed_template(position))
}

/// (word 4, count seat, any serial, open shift).
fn announcement_template(seat: u64) -> Tuple {
    let [word, seat] = [Field::given(Kind::Word, ANNOUNCED), Field::given(Kind::Count, seat)];
    Tuple::of(&[word, seat, Field::any(Kind::Count), Field::open(Kind::Offset)])
}
