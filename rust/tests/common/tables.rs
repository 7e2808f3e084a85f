//! The table of who proposed what (02, 2.9): the right one for every board that is made by hand; why a board is not well formed by it, and what
//! stands on a well-formed one without a place in it, worked out apart from the plain version and counted; and boards with one such fault.

use std::collections::{BTreeMap, BTreeSet};

use reference::board::MOST_TUPLES;
use reference::config::{DEFAULT, STRONG, WAIT_FREE};
use reference::fields::MOST_SEATS;
use reference::policy::LAST_ROUND;
use reference::table::{Table, EMPTY, PLACES};
use reference::{Board, Config, Kind, Offset, Tuple};

use super::{likely_offset, no_choice, Dice};

/// A board with these tuples and their table, as if handed in.
pub fn board_with(config: Config, tuples: &[Tuple]) -> Board {
    let table = table_of(&config, tuples);
    let mut board = Board { config, count: tuples.len(), tuples: [Tuple::BLANK; MOST_TUPLES], table };
    board.tuples[..tuples.len()].copy_from_slice(tuples);
    board
}

/// The same board with one tuple more.
pub fn push(board: &mut Board, tuple: Tuple) {
    *board = board_with(board.config, &[board.held(), &[tuple]].concat());
}

/// The table of these tuples; of two that have one place it has the later, and it has whatever they propose.
pub fn table_of(config: &Config, tuples: &[Tuple]) -> Table {
    let mut table = EMPTY;
    for (place, offset) in tuples.iter().filter_map(|tuple| placed(config, tuple)) {
        table[place] = offset;
    }
    table
}

/// Round, seat and offset of what has the shape of a proposal.
fn proposal(tuple: &Tuple) -> Option<(u64, u64, u64)> {
    let [_, round, seat, offset, ..] = tuple.fields.map(|field| field.value);
    (*tuple == Tuple::proposal(round, seat, offset)).then_some((round, seat, offset))
}

/// Its place in the table, where it has one, and its offset.
fn placed(config: &Config, tuple: &Tuple) -> Option<(usize, u64)> {
    let (round, seat, offset) = proposal(tuple)?;
    let tabled = config.policy == DEFAULT || config.policy == STRONG;
    let has = tabled && round < 8 && seat >= 1 && seat <= config.n && seat < 32;
    has.then(|| (round as usize * 31 + seat as usize - 1, offset))
}

/// Whether an offset may be proposed: not the mark, and under policy 3 the odd numbers below 2k.
fn offered(config: &Config, offset: u64) -> bool {
    match config.policy {
        STRONG => offset % 2 == 1 && offset / 2 < config.k,
        _ => offset != Offset::MARK,
    }
}

/// Whether a board is well formed but perhaps for its table: as it was before there was one.
pub fn is_tidy(board: &Board) -> bool {
    board.config.check().is_ok()
        && board.count <= MOST_TUPLES
        && board.held().iter().all(Tuple::is_entry)
        && board.tuples[board.count..].iter().all(|place| *place == Tuple::BLANK)
}

/// Why such a board is not well formed.
#[derive(Clone, Copy, Debug, PartialEq, Eq, PartialOrd, Ord)]
pub enum Unfit {
    /// A seat's second proposal in a round, equal or other; the mark proposed; under policy 3 what is no choice.
    SameAgain,
    OtherAgain,
    Mark,
    NoChoice,
    /// A place of the table has something else than was proposed; nothing, though something was; something, though nothing was: in a round
    /// in which others have proposed; above n; in any other round.
    Changed,
    Missing,
    Added,
    AboveN,
    OtherRound,
    /// Several of these.
    Several,
    /// Under policies 0, 1, 4 and 5, a table that is not empty.
    NotEmpty,
}

use Unfit::*;

impl Unfit {
    /// Those that policies 2 and 3 have, one by one.
    pub const UNDER_2: [Unfit; 8] =
        [SameAgain, OtherAgain, Mark, Changed, Missing, Added, AboveN, OtherRound];
    pub const UNDER_3: [Unfit; 9] =
        [SameAgain, OtherAgain, Mark, NoChoice, Changed, Missing, Added, AboveN, OtherRound];

    /// Those of a policy.
    pub fn under(policy: u64) -> &'static [Unfit] {
        match policy {
            DEFAULT => &Unfit::UNDER_2,
            STRONG => &Unfit::UNDER_3,
            _ => &[NotEmpty],
        }
    }
}

/// What is wrong with the table and the proposals of a board that is else well formed.
pub fn unfit(board: &Board) -> Option<Unfit> {
    let Board { config, table, .. } = board;
    if ![DEFAULT, STRONG].contains(&config.policy) {
        return table.iter().any(|code| *code != 0).then_some(NotEmpty);
    }
    let mut proposed: BTreeMap<usize, Vec<u64>> = BTreeMap::new();
    for (place, offset) in board.held().iter().filter_map(|tuple| placed(config, tuple)) {
        proposed.entry(place).or_default().push(offset);
    }
    let rounds: BTreeSet<usize> = proposed.keys().map(|place| place / 31).collect();
    let mut faults = BTreeSet::new();
    for (place, code) in table.iter().enumerate() {
        let Some(offsets) = proposed.get(&place) else {
            if *code != 0 {
                let above = (place % 31) as u64 >= config.n;
                let alone = if rounds.contains(&(place / 31)) { Added } else { OtherRound };
                faults.insert(if above { AboveN } else { alone });
            }
            continue;
        };
        if offsets.len() > 1 {
            let same = offsets.iter().all(|offset| *offset == offsets[0]);
            faults.insert(if same { SameAgain } else { OtherAgain });
        }
        for offset in offsets.iter().filter(|offset| !offered(config, **offset)) {
            faults.insert(if *offset == Offset::MARK { Mark } else { NoChoice });
        }
        if !offsets.contains(code) {
            faults.insert(if *code == 0 { Missing } else { Changed });
        }
    }
    match faults.len() {
        0 => None,
        1 => faults.first().copied(),
        _ => Some(Several),
    }
}

/// What stands on a well-formed board, though it would not if it had a place in the table.
#[derive(Clone, Copy, Debug, PartialEq, Eq, PartialOrd, Ord)]
pub enum Calm {
    /// Under policies 2 and 3 a proposal of seat 0, of n + 1, of one above; of round 8, of one above.
    SeatZero,
    SeatNext,
    SeatAbove,
    RoundNext,
    RoundAbove,
    /// Such a one of the mark or of what is no choice; such a one twice, equal or other.
    NoOffer,
    Twice,
    /// Under the other policies a proposal that would have a place; one of the mark; two for one.
    Untabled,
    UntabledMark,
    UntabledTwice,
}

impl Calm {
    pub const UNDER_2_AND_3: [Calm; 7] = [
        Calm::SeatZero,
        Calm::SeatNext,
        Calm::SeatAbove,
        Calm::RoundNext,
        Calm::RoundAbove,
        Calm::NoOffer,
        Calm::Twice,
    ];
    pub const UNDER_OTHERS: [Calm; 3] = [Calm::Untabled, Calm::UntabledMark, Calm::UntabledTwice];

    /// Those of a policy.
    pub fn under(policy: u64) -> &'static [Calm] {
        match policy {
            DEFAULT | STRONG => &Calm::UNDER_2_AND_3,
            _ => &Calm::UNDER_OTHERS,
        }
    }
}

/// Those of them that stand on a well-formed board.
pub fn calm(board: &Board) -> BTreeSet<Calm> {
    let Config { n, policy, .. } = board.config;
    let tabled = [DEFAULT, STRONG].contains(&policy);
    let (mut came, mut places) = (BTreeSet::new(), BTreeSet::new());
    for (round, seat, offset) in board.held().iter().filter_map(proposal) {
        let has_place = round <= LAST_ROUND && (1..=n).contains(&seat);
        if has_place == tabled {
            continue;
        }
        let again = !places.insert((round, seat));
        if !tabled {
            came.insert(Calm::Untabled);
            came.extend((offset == Offset::MARK).then_some(Calm::UntabledMark));
            came.extend(again.then_some(Calm::UntabledTwice));
            continue;
        }
        if round <= LAST_ROUND {
            came.insert(match seat {
                0 => Calm::SeatZero,
                _ if seat == n + 1 => Calm::SeatNext,
                _ => Calm::SeatAbove,
            });
        } else {
            came.insert(if round == LAST_ROUND + 1 { Calm::RoundNext } else { Calm::RoundAbove });
        }
        came.extend((!offered(&board.config, offset)).then_some(Calm::NoOffer));
        came.extend(again.then_some(Calm::Twice));
    }
    came
}

/// How often each came.
#[derive(Default)]
pub struct Tables {
    /// Boards under each policy: well formed, and not.
    boards: BTreeMap<u64, [usize; 2]>,
    unfit: BTreeMap<(u64, Unfit), usize>,
    calm: BTreeMap<(u64, Calm), usize>,
}

impl Tables {
    /// Holds whether a board was refused 1 against what is wrong with it, and counts that.
    pub fn note(&mut self, board: &Board, refused: bool) {
        let policy = board.config.policy;
        let tidy = is_tidy(board);
        let unfit = if tidy { unfit(board) } else { None };
        let expected = !tidy || unfit.is_some();
        assert_eq!(refused, expected, "{unfit:?} by the table of {board:?}");
        self.boards.entry(policy).or_default()[usize::from(refused)] += 1;
        if let Some(unfit) = unfit {
            *self.unfit.entry((policy, unfit)).or_default() += 1;
        }
        if !refused {
            for calm in calm(board) {
                *self.calm.entry((policy, calm)).or_default() += 1;
            }
        }
    }

    /// Prints what came under each policy.
    pub fn print(&self) {
        for (policy, [formed, others]) in self.boards.iter().filter(|(policy, _)| **policy <= WAIT_FREE) {
            let came = |names: Vec<String>| match names.is_empty() {
                true => String::new(),
                false => format!(" ({})", names.join(", ")),
            };
            let calm = self.calm.iter().filter(|((p, _), _)| p == policy);
            let calm = came(calm.map(|((_, calm), often)| format!("{calm:?} {often}")).collect());
            let unfit = self.unfit.iter().filter(|((p, _), _)| p == policy);
            let unfit = came(unfit.map(|((_, unfit), often)| format!("{unfit:?} {often}")).collect());
            println!("         under policy {policy} boards well formed {formed}{calm}, not {others}{unfit}");
        }
    }

    /// Under these policies half of the boards at least were well formed.
    pub fn assert_half(&self, policies: &[u64]) {
        for policy in policies {
            let [formed, others] = self.boards.get(policy).copied().unwrap_or_default();
            assert!(formed >= others && formed > 100, "{formed} well formed, {others} not under {policy}");
        }
    }

    /// Each of these faults came so often at least, alone, under this policy.
    pub fn assert_unfit(&self, policy: u64, faults: &[Unfit], least: usize) {
        for fault in faults {
            let often = self.unfit.get(&(policy, *fault)).copied().unwrap_or(0);
            assert!(often >= least, "{fault:?} came {often} times under policy {policy}");
        }
    }

    /// Each of these stood so often at least on a well-formed board under this policy.
    pub fn assert_calm(&self, policy: u64, calms: &[Calm], least: usize) {
        for calm in calms {
            let often = self.calm.get(&(policy, *calm)).copied().unwrap_or(0);
            assert!(often >= least, "{calm:?} came {often} times under policy {policy}");
        }
    }
}

/// Gives those proposals for whose sake a board of these tuples would not be well formed an offset that may be proposed, and a place that is
/// free, often of the same round; some go to round 8, and all if none is free.
pub fn settle(dice: &mut Dice, config: &Config, tuples: &mut [Tuple]) {
    let mut taken = BTreeSet::new();
    for tuple in tuples {
        let Some((place, offset)) = placed(config, tuple) else {
            continue;
        };
        if !offered(config, offset) {
            tuple.fields[3].value = likely_offset(dice, config);
        }
        if taken.insert(place) {
            continue;
        }
        let n = config.n.min(MOST_SEATS) as usize;
        let free: Vec<usize> = (0..PLACES).filter(|p| p % 31 < n && !taken.contains(p)).collect();
        let near: Vec<usize> = free.iter().copied().filter(|other| other / 31 == place / 31).collect();
        let among = if near.is_empty() || dice.one_in(2) { free } else { near };
        if among.is_empty() || dice.one_in(3) {
            tuple.fields[1].value = LAST_ROUND + 1;
        } else {
            let place = dice.pick(&among);
            taken.insert(place);
            (tuple.fields[1].value, tuple.fields[2].value) = (place as u64 / 31, place as u64 % 31 + 1);
        }
    }
}

/// A proposal that has no place in the table, whatever it is of: of a seat that is none, or of a round that is none.
pub fn stranger(dice: &mut Dice, config: &Config) -> Tuple {
    let n = config.n.clamp(1, MOST_SEATS);
    let offset = if dice.one_in(3) { no_choice(dice, config.k.min(8)) } else { likely_offset(dice, config) };
    if dice.one_in(2) {
        let seat = dice.pick(&[0, n + 1, n + 1, n + 2, MOST_SEATS + 1, (1 << 32) + n, Kind::Count.last()]);
        return Tuple::proposal(dice.below(LAST_ROUND + 1), seat, offset);
    }
    let round = dice.pick(&[8, 8, 8, 9, 255, 1 << 32, Kind::Count.last()]);
    Tuple::proposal(round, 1 + dice.below(n), offset)
}

/// Gives one place of a board's table another value.
pub fn spoil_table(dice: &mut Dice, board: &mut Board) {
    // Half of the time one that has something.
    let taken: Vec<usize> = (0..PLACES).filter(|place| board.table[*place] != 0).collect();
    let any = taken.is_empty() || dice.one_in(2);
    let place = if any { dice.below(PLACES as u64) as usize } else { dice.pick(&taken) };
    let code = board.table[place];
    let values =
        [0, 0, 0, 1, 2, 3, code ^ 1, code.wrapping_sub(2), likely_offset(dice, &board.config), u64::MAX];
    let others: Vec<u64> = values.into_iter().filter(|value| *value != code).collect();
    board.table[place] = dice.pick(&others);
}

/// A well-formed board with this one fault, if it can have it.
pub fn with_fault(dice: &mut Dice, board: &Board, fault: Unfit) -> Option<Board> {
    let config = board.config;
    let (n, table) = (config.n as usize, board.table);
    let places =
        |among: &dyn Fn(usize) -> bool| (0..PLACES).filter(|place| among(*place)).collect::<Vec<_>>();
    let is_taken = |place: usize| table[place] != 0;
    let is_open = |round: usize| (31 * round..31 * round + 31).any(is_taken);
    let mut other = board.clone();
    let place = match fault {
        Changed | Missing | SameAgain | OtherAgain => places(&is_taken),
        Added => places(&|place| place % 31 < n && !is_taken(place) && is_open(place / 31)),
        AboveN => places(&|place| place % 31 >= n),
        OtherRound => places(&|place| place % 31 < n && !is_open(place / 31)),
        Mark | NoChoice => places(&|place| place % 31 < n && !is_taken(place)),
        NotEmpty => places(&|_| true),
        Several => return None,
    };
    if place.is_empty() {
        return None;
    }
    let place = dice.pick(&place);
    let (round, seat) = (place as u64 / 31, place as u64 % 31 + 1);
    let offset = match fault {
        SameAgain => table[place],
        Mark => Offset::MARK,
        NoChoice => dice.pick(&[2, 2 * config.k, 1 + 2 * config.k, 200_000, 200_001]),
        _ => loop {
            let offset = likely_offset(dice, &config);
            if offset != table[place] {
                break offset;
            }
        },
    };
    match fault {
        Changed => {
            let odd = [offset, offset, table[place] + 1, table[place] + 2, 200_001, 200_002, u64::MAX];
            let odd: Vec<u64> = odd.into_iter().filter(|code| *code != table[place]).collect();
            other.table[place] = dice.pick(&odd);
        }
        Missing => other.table[place] = 0,
        Added | AboveN | OtherRound => other.table[place] = offset,
        NotEmpty => other.table[place] = dice.pick(&[1, 2, 3, 0x50, 200_001, u64::MAX]),
        _ => {
            // One tuple more, anywhere; on a full board in the place of one that is not in the table.
            let mut tuples = board.held().to_vec();
            if tuples.len() == MOST_TUPLES {
                tuples.remove(tuples.iter().position(|tuple| placed(&config, tuple).is_none())?);
            }
            tuples.insert(dice.below(tuples.len() as u64 + 1) as usize, Tuple::proposal(round, seat, offset));
            other = board_with(config, &tuples);
            // Of two offsets the table may have either.
            if fault == OtherAgain && dice.one_in(2) {
                other.table[place] = table[place];
            }
        }
    }
    Some(other)
}
