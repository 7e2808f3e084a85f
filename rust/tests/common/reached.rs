//! Whether any script ends in a well-formed board (02, 2.4), by a rule over the order of its tuples and without a run: every tuple must be
//! one that the policy lets somebody append to those before it, since policies 1 to 4 let nobody take one off. Policy 5 does, and has no
//! rule here: its boards are not written back. A seat's second proposal in a round, the mark and what is no choice have none either: a board
//! with one is not well formed (02, 2.9), which `tables` judges.

use reference::config::{BARE, DEFAULT, LIST, STRONG, WEAK};
use reference::policy::LAST_ROUND;
use reference::{Board, Config, Field, Kind, Offset, Tuple};

/// Why nobody may append a tuple to those before it.
#[derive(Clone, Copy, Debug, PartialEq, Eq, PartialOrd, Ord)]
pub enum Flaw {
    /// Under policy 1 no decision, under 2 and 3 neither proposal nor decision, under 4 no list tuple.
    Shape,
    /// A proposal or a list tuple of seat 0; of one above n.
    SeatZero,
    SeatAbove,
    /// A proposal in a round above 7.
    ProposedRound,
    /// A decision in a round above 7; after another of the round; of the mark where it can't be decided; of what is no choice; with a
    /// member above n.
    DecidedRound,
    DecidedAgain,
    DecidedMark,
    DecidedNoChoice,
    SetAbove,
    /// A decision that those before it don't bear, though with those after it they would. Or not even so: its set is too small; a member
    /// has not proposed it, or for the mark not at all; for the mark, an offset has more than t members.
    Early,
    TooFew,
    Silent,
    Crowded,
    /// A list tuple whose position is not its place; behind the 112th; of the mark; of a seat and serial that stand before it.
    Misplaced,
    Beyond,
    ListedMark,
    ListedAgain,
}

use Flaw::*;

impl Flaw {
    /// Those that each policy has, on boards of few tuples too.
    pub const UNDER_1: [Flaw; 4] = [Shape, DecidedRound, DecidedAgain, DecidedMark];
    pub const UNDER_2_AND_3: [Flaw; 10] = [
        Shape,
        SeatZero,
        SeatAbove,
        ProposedRound,
        DecidedRound,
        DecidedAgain,
        SetAbove,
        Early,
        TooFew,
        Silent,
    ];
    pub const UNDER_2: [Flaw; 1] = [Crowded];
    pub const UNDER_3: [Flaw; 2] = [DecidedMark, DecidedNoChoice];
    pub const UNDER_4: [Flaw; 6] = [Shape, SeatZero, SeatAbove, Misplaced, ListedMark, ListedAgain];
}

/// The flaw of the oldest tuple that has one; no script ends in the board if there is one, and else some script does. The policy is one of
/// 0 to 4.
pub fn flaw(board: &Board) -> Option<Flaw> {
    let held = board.held();
    (0..held.len()).find_map(|place| flaw_of(&board.config, held, place))
}

/// The flaw of the tuple at a place.
fn flaw_of(config: &Config, held: &[Tuple], place: usize) -> Option<Flaw> {
    let tuple = held[place];
    let [_, second, third, fourth, fifth, _] = tuple.fields.map(|field| field.value);
    match config.policy {
        BARE => None,
        WEAK if tuple == weak_decision(second, third) => {
            flaw_of_decision(config, held, place, (second, third, None))
        }
        DEFAULT | STRONG if tuple == Tuple::proposal(second, third, fourth) => {
            flaw_of_proposal(config, second, third)
        }
        DEFAULT | STRONG if tuple == Tuple::decision(second, third, fourth) => {
            flaw_of_decision(config, held, place, (second, third, Some(fourth)))
        }
        LIST if tuple == Tuple::listed(second, third, fourth, fifth) => flaw_of_listed(config, held, place),
        _ => Some(Shape),
    }
}

/// (word 2, count round, offset), what policy 1 decides.
pub fn weak_decision(round: u64, offset: u64) -> Tuple {
    Tuple::of(&[
        Field::given(Kind::Word, 2),
        Field::given(Kind::Count, round),
        Field::given(Kind::Offset, offset),
    ])
}

fn flaw_of_proposal(config: &Config, round: u64, seat: u64) -> Option<Flaw> {
    match seat {
        0 => Some(SeatZero),
        _ if seat > config.n => Some(SeatAbove),
        _ => (round > LAST_ROUND).then_some(ProposedRound),
    }
}

/// Each list tuple has the position of its place, from 1, so that none stands before its turn and no position is taken twice.
fn flaw_of_listed(config: &Config, held: &[Tuple], place: usize) -> Option<Flaw> {
    let counts = |tuple: &Tuple| [1, 2, 3].map(|at| tuple.fields[at].value);
    let [position, seat, serial] = counts(&held[place]);
    match position {
        _ if position != place as u64 + 1 => Some(Misplaced),
        113.. => Some(Beyond),
        _ if seat == 0 => Some(SeatZero),
        _ if seat > config.n => Some(SeatAbove),
        _ if held[place].fields[4].value == Offset::MARK => Some(ListedMark),
        // Those before it have no flaw, so they are list tuples.
        _ if held[..place].iter().any(|other| counts(other)[1..] == [seat, serial]) => Some(ListedAgain),
        _ => None,
    }
}

/// A decision has a set of seats except under policy 1.
fn flaw_of_decision(
    config: &Config,
    held: &[Tuple],
    place: usize,
    (round, offset, set): (u64, u64, Option<u64>),
) -> Option<Flaw> {
    let of_the_round = |other: &Tuple| {
        let [_, _, third, fourth, ..] = other.fields.map(|field| field.value);
        *other == set.map_or(weak_decision(round, third), |_| Tuple::decision(round, third, fourth))
    };
    if round > LAST_ROUND {
        return Some(DecidedRound);
    }
    if held[..place].iter().any(of_the_round) {
        return Some(DecidedAgain);
    }
    if offset == Offset::MARK && config.policy != DEFAULT {
        return Some(DecidedMark);
    }
    if offset != Offset::MARK && !is_choice(config, offset) {
        return Some(DecidedNoChoice);
    }
    let set = set?;
    if set >= 1 << config.n {
        return Some(SetAbove);
    }
    let unborne = |tuples: &[Tuple]| unborne(config, tuples, (round, offset, set));
    unborne(&held[..place]).map(|flaw| if unborne(held).is_none() { Early } else { flaw })
}

/// Why a set in 1 to n does not bear an offset or the mark in a round, by the proposals among these tuples.
fn unborne(config: &Config, tuples: &[Tuple], (round, offset, set): (u64, u64, u64)) -> Option<Flaw> {
    let Config { n, t, .. } = *config;
    let members = (1..=n).filter(|seat| set >> (seat - 1) & 1 == 1);
    let offsets: Vec<Option<u64>> = members.map(|seat| proposed(tuples, round, seat)).collect();
    let mark = offset == Offset::MARK;
    let silent = |own: &Option<u64>| if mark { own.is_none() } else { *own != Some(offset) };
    let alike = |own: &Option<u64>| offsets.iter().filter(|other| *other == own).count() as u64;
    if (offsets.len() as u64) < if mark { n - t } else { t + 1 } {
        Some(TooFew)
    } else if offsets.iter().any(silent) {
        Some(Silent)
    } else if mark && offsets.iter().any(|own| alike(own) > t) {
        Some(Crowded)
    } else {
        None
    }
}

/// The offset of a seat's proposal in a round among these tuples.
fn proposed(tuples: &[Tuple], round: u64, seat: u64) -> Option<u64> {
    let offset = |tuple: &Tuple| tuple.fields[3].value;
    tuples.iter().find(|tuple| **tuple == Tuple::proposal(round, seat, offset(tuple))).map(offset)
}

/// Whether a number, and not the mark, may be proposed and decided: under policy 3 those from 0 to k - 1 alone.
fn is_choice(config: &Config, offset: u64) -> bool {
    config.policy != STRONG || (offset % 2 == 1 && offset / 2 < config.k)
}
