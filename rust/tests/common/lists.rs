//! The list of policies 4 and 5 (02, 2.6 and 2.7): why a call is denied, worked out apart from the plain version's policies. Under policy 4:
//! seats that race for its positions, among strays; what holds of every run; and lists that no run makes. Under policy 5 `announced` has
//! these.

use std::collections::{BTreeMap, BTreeSet};

use reference::board::MOST_TUPLES;
use reference::config::LIST;
use reference::fields::MOST_SEATS;
use reference::list::LAST_POSITION;
use reference::{Answer, AnswerKind, Board, Call, Config, Field, Kind, Offset, Refusal, Tuple};

use super::long::{any_count, lengthen, lengthen_call};
use super::{announced, good_field, good_tuple, spoil, Dice, PARTS, SEATS};

/// Why a call is denied.
#[derive(Clone, Copy, Debug, PartialEq, Eq, PartialOrd, Ord)]
pub enum Cause {
    /// An out or inp, under policy 5 one of another shape.
    Out,
    Inp,
    /// A cas of another entry.
    Entry,
    /// A cas with one thing wrong: another template; the template of another position; position 0; one above 112; another's number,
    /// where under policy 5 nothing is owed; the mark; the position before it empty.
    Template,
    TwoPositions,
    PositionZero,
    PositionAbove,
    Anothers,
    Mark,
    NoneBefore,
    /// Or its seat and serial are listed: as the same tuple; at its position with another shift; elsewhere.
    SameAgain,
    ShiftAgain,
    ElsewhereAgain,
    /// A call with several of these wrong.
    Several,
    /// Policy 5, a cas with nothing else wrong: the caller's own where another's announcement waits; the preferred seat's own other serial
    /// where its own announcement does; what is owed but for its shift; anything else where something is owed; another's announcement
    /// where nothing is.
    OwnOwed,
    SerialOwed,
    ShiftOwed,
    ElseOwed,
    OutOfTurn,
    /// Policy 5, an out with one thing wrong: the mark; another's number; the seat's own stands.
    AnnouncedMark,
    AnnouncedAnothers,
    AnnouncedAgain,
    /// Policy 5, an inp with one thing wrong: another's number; its number undefined; the serial or the shift given.
    InpAnothers,
    InpAnybodys,
    InpGiven,
}

use Cause::*;

impl Cause {
    pub const UNDER_4: [Cause; 14] = [
        Out,
        Inp,
        Entry,
        Template,
        TwoPositions,
        PositionZero,
        PositionAbove,
        Anothers,
        Mark,
        NoneBefore,
        SameAgain,
        ShiftAgain,
        ElsewhereAgain,
        Several,
    ];
    /// Those that policy 5 has besides, and of these the ones of a cas where something is owed.
    pub const UNDER_5: [Cause; 11] = [
        OwnOwed,
        SerialOwed,
        ShiftOwed,
        ElseOwed,
        OutOfTurn,
        AnnouncedMark,
        AnnouncedAnothers,
        AnnouncedAgain,
        InpAnothers,
        InpAnybodys,
        InpGiven,
    ];
    pub const OWED: [Cause; 4] = [OwnOwed, SerialOwed, ShiftOwed, ElseOwed];

    /// Why policy 4 or 5 denies this call, if it does. The board is well formed, the call sound and of a seat from 1 to n.
    fn of(board: &Board, call: &Call) -> Option<Cause> {
        match (board.config.policy, call.code) {
            (_, 2) => None,
            (_, 4) => Cause::of_cas(board, call),
            (LIST, 1) => Some(Out),
            (LIST, _) => Some(Inp),
            (_, 1) => announced::cause_of_out(board, call),
            _ => announced::cause_of_inp(call),
        }
    }

    fn of_cas(board: &Board, call: &Call) -> Option<Cause> {
        let [_, position, seat, serial, shift, _] = call.entry.fields.map(|field| field.value);
        if call.entry != Tuple::listed(position, seat, serial, shift) {
            return Some(Entry);
        }
        let asked = call.template.fields[1].value;
        let shaped = call.template == Tuple::listed_template(asked);
        let again = again(board, &call.entry);
        let whose = match board.config.policy {
            LIST => (seat != call.process.into()).then_some(Anothers),
            _ => announced::whose(board, call),
        };
        Cause::one_of(&[
            (!shaped, Template),
            (shaped && asked != position, TwoPositions),
            (position == 0, PositionZero),
            (position > 112, PositionAbove),
            (whose.is_some(), whose.unwrap_or(Several)),
            (shift == 0, Mark),
            (position > 1 && !stands(board, [Some(position - 1), None, None]), NoneBefore),
            (again.is_some(), again.unwrap_or(Several)),
        ])
    }

    /// The one thing that is wrong, or that several are.
    pub fn one_of(faults: &[(bool, Cause)]) -> Option<Cause> {
        let mut wrong = faults.iter().filter(|(is_wrong, _)| *is_wrong).map(|(_, cause)| *cause);
        match (wrong.next(), wrong.next()) {
            (Some(_), Some(_)) => Some(Several),
            (one, _) => one,
        }
    }
}

/// Where the seat and serial of this list tuple are listed already.
fn again(board: &Board, entry: &Tuple) -> Option<Cause> {
    let [_, position, seat, serial, ..] = entry.fields.map(|field| field.value);
    if board.held().contains(entry) {
        Some(SameAgain)
    } else if stands(board, [Some(position), Some(seat), Some(serial)]) {
        Some(ShiftAgain)
    } else if stands(board, [None, Some(seat), Some(serial)]) {
        Some(ElsewhereAgain)
    } else {
        None
    }
}

/// Whether a list tuple of this position, seat and serial, where they are given, is on the board.
pub fn stands(board: &Board, counts: [Option<u64>; 3]) -> bool {
    let [position, seat, serial] =
        counts.map(|count| count.map_or(Field::any(Kind::Count), |value| Field::given(Kind::Count, value)));
    let sought = Tuple::of(&[Field::given(Kind::Word, 3), position, seat, serial, Field::any(Kind::Offset)]);
    board.held().iter().any(|held| sought.matches(held))
}

/// What came of calls on boards under policy 4 or under policy 5, and why they were denied.
#[derive(Default)]
pub struct Lists {
    pub inserted: usize,
    pub held: usize,
    pub found: usize,
    pub none: usize,
    pub denied: usize,
    pub full: usize,
    /// Under policy 5: announcements put; tuples taken off, and those with the mark among them; another's shift listed, or held; a cas
    /// denied alone because something is owed at its position, though that is taken.
    pub done: usize,
    pub taken_off: usize,
    pub marks_off: usize,
    pub helped: usize,
    pub help_held: usize,
    pub not_held: usize,
    causes: BTreeMap<Cause, usize>,
}

impl Lists {
    /// Holds the answer to a call on this board against its cause, and counts it.
    pub fn note(&mut self, before: &Board, call: &Call, answer: &Answer) {
        let standing = before.held().iter().find(|held| call.template.matches(held));
        let place = before.count < MOST_TUPLES;
        let (right, came) = match answer.kind {
            AnswerKind::Done => (call.code == 1 && place, &mut self.done),
            AnswerKind::Inserted => (standing.is_none() && place, &mut self.inserted),
            AnswerKind::Held => (standing == Some(&answer.tuple), &mut self.held),
            AnswerKind::Found if call.code == 3 => (standing == Some(&answer.tuple), &mut self.taken_off),
            AnswerKind::Found => (standing == Some(&answer.tuple), &mut self.found),
            AnswerKind::None => (standing.is_none(), &mut self.none),
            AnswerKind::Refused(Refusal::Denied) => (true, &mut self.denied),
            AnswerKind::Refused(Refusal::Full) => (standing.is_none() && !place, &mut self.full),
            // What is refused before the policy is asked is not judged.
            AnswerKind::Refused(refusal) => return assert!(refusal.number() < 7, "{refusal} to {call:?}"),
        };
        assert!(right, "{answer:?} to {call:?} on {before:?}");
        *came += 1;
        let (cause, denied) = (Cause::of(before, call), Answer::from(Refusal::Denied));
        assert_eq!(cause.is_some(), *answer == denied, "{cause:?}: {call:?} on {before:?}");
        let anothers = usize::from(call.entry.fields[2].value != call.process.into());
        match answer.kind {
            AnswerKind::Inserted => self.helped += anothers,
            AnswerKind::Held => self.help_held += anothers,
            AnswerKind::Found if call.code == 3 => {
                self.marks_off += usize::from(answer.tuple.fields[3].value == Offset::MARK);
            }
            _ => {}
        }
        if let Some(cause) = cause {
            self.not_held += usize::from(Cause::OWED.contains(&cause) && standing.is_some());
            *self.causes.entry(cause).or_default() += 1;
        }
    }

    /// How often a cause came.
    pub fn often(&self, cause: Cause) -> usize {
        self.causes.get(&cause).copied().unwrap_or(0)
    }

    /// How often a call was denied alone because something is owed.
    pub fn owed(&self) -> usize {
        Cause::OWED.into_iter().map(|cause| self.often(cause)).sum()
    }

    /// Prints what came under this policy.
    pub fn print(&self, policy: u64) {
        let Lists { inserted, held, found, none, denied, full, causes, .. } = self;
        if *denied == 0 {
            return;
        }
        println!(
            "         under policy {policy} inserted {inserted}, held {held}, found {found}, none {none}, refused 7 {denied}, \
             refused 8 {full}"
        );
        let Lists { done, taken_off, marks_off, helped, help_held, not_held, .. } = self;
        if policy != LIST {
            println!(
                "         announced {done}, taken off {taken_off}, {marks_off} of them with the mark; another's inserted {helped}, \
                 tried and held {help_held}; refused 7 for what is owed {}, {not_held} of them on a taken position",
                self.owed()
            );
        }
        let causes: Vec<String> = causes.iter().map(|(cause, often)| format!("{cause:?} {often}")).collect();
        println!("         refused 7 under policy {policy}: {}", causes.join(", "));
    }

    /// Each of these causes came so often at least.
    pub fn assert_each(&self, causes: &[Cause], least: usize) {
        for cause in causes {
            let often = self.often(*cause);
            assert!(often >= least, "{cause:?} came {often} times on a list");
        }
    }
}

/// A shift other than the mark: near 0, or far off.
pub fn any_shift(dice: &mut Dice) -> u64 {
    dice.pick(&[1, 2, 3, 0x50, 0x51, 16_383, 16_384, 200_000, 200_001])
}

/// A seat that tries its shift at the first position that it has not read, until it is listed, and adds up what it reads.
struct Racer {
    seat: u32,
    serial: u64,
    shift: u64,
    /// The sum up to each position that it has read, from the first one on.
    sums: Vec<i64>,
}

impl Racer {
    fn new(dice: &mut Dice, seat: u32) -> Racer {
        let last = Kind::Count.last() - LAST_POSITION;
        let serial = dice.pick(&[0, 1, 100, 16_300, (1 << 28) - 9, (1 << 32) - 9, (1 << 63) - 9, last]);
        Racer { seat, serial, shift: any_shift(dice), sums: Vec::new() }
    }

    /// Now and then it only looks whether the position is taken.
    fn call(&self, dice: &mut Dice) -> Call {
        let position = self.sums.len() as u64 + 1;
        let template = Tuple::listed_template(position);
        if dice.one_in(4) {
            return Call::rdp(self.seat, template);
        }
        Call::cas(self.seat, template, Tuple::listed(position, self.seat.into(), self.serial, self.shift))
    }

    /// Nothing but the end of the list stops it.
    fn hear(&mut self, dice: &mut Dice, call: &Call, answer: &Answer) {
        let Some(read) = read_in(call, answer) else {
            let ended = self.sums.len() as u64 == LAST_POSITION && *answer == Answer::from(Refusal::Denied);
            return assert!(ended || *answer == Answer::NONE, "{answer:?} to {call:?}");
        };
        if answer.kind == AnswerKind::Inserted {
            self.serial += 1;
            self.shift = any_shift(dice);
        }
        let (position, _, _, shift) = read.as_listed().expect("a list tuple");
        assert_eq!(position, self.sums.len() as u64 + 1, "{call:?}");
        let sum = self.sums.last().copied().unwrap_or(0);
        self.sums.push(sum + hundredths(shift));
    }
}

/// The tuple that an answer gives: what was inserted, held or found.
pub fn read_in(call: &Call, answer: &Answer) -> Option<Tuple> {
    match answer.kind {
        AnswerKind::Inserted => Some(call.entry),
        AnswerKind::Held | AnswerKind::Found => Some(answer.tuple),
        _ => None,
    }
}

/// The hundredths of a shift that is not the mark.
pub fn hundredths(shift: u64) -> i64 {
    match Offset::from_travelling(shift) {
        Some(Offset::Number(z)) => z,
        other => panic!("a shift that is {other:?}"),
    }
}

/// A run from a fresh board under policy 4: some seats race, the others call anything.
pub struct Race {
    n: u64,
    racers: BTreeMap<u32, Racer>,
    /// What was read at each position, by whomever.
    read: BTreeMap<u64, Tuple>,
    /// How often a position was read again.
    pub read_again: usize,
}

impl Race {
    pub fn new(dice: &mut Dice, config: &Config) -> Race {
        let share = dice.pick(&[1, 3, 4]);
        let mut racers = BTreeMap::new();
        for seat in 1..=config.n as u32 {
            if seat == 1 || dice.below(4) < share {
                racers.insert(seat, Racer::new(dice, seat));
            }
        }
        Race { n: config.n, racers, read: BTreeMap::new(), read_again: 0 }
    }

    /// How many calls a run has, so many at most: a few, or enough to fill the list.
    pub fn calls(&self, dice: &mut Dice, most: u64) -> u64 {
        ((self.n + 2) * dice.pick(&[3, 12, 40, 170])).min(most)
    }

    /// The next call: a racer's own, or a stray's on this board.
    pub fn call(&self, dice: &mut Dice, board: &Board) -> Call {
        let process = dice.below(self.n + 2) as u32;
        match self.racers.get(&process) {
            Some(racer) => racer.call(dice),
            // A stray can't call under another's number.
            None => Call { process, ..near_call(dice, board, process) },
        }
    }

    /// Whatever is read at a position is the same, and the racer whose call it was adds it up.
    pub fn hear(&mut self, dice: &mut Dice, call: &Call, answer: &Answer) {
        if let Some(read) = read_in(call, answer) {
            let (position, ..) = read.as_listed().expect("a run's board holds list tuples alone");
            if let Some(before) = self.read.insert(position, read) {
                assert_eq!(before, read, "two readings of position {position}");
                self.read_again += 1;
            }
        }
        if let Some(racer) = self.racers.get_mut(&call.process) {
            racer.hear(dice, call, answer);
        }
    }

    /// At the end of the run: the list has no gap, no mark and nothing twice, and whoever has read positions 1 to m holds the same sum.
    /// Gives how many sums were held against another's.
    pub fn check(&self, board: &Board) -> usize {
        assert_eq!(board.check(), Ok(()));
        let (mut listed, mut sums, mut sum) = (BTreeSet::new(), Vec::new(), 0);
        for (place, tuple) in (1..).zip(board.held()) {
            let (position, seat, serial, shift) = tuple.as_listed().expect("a list tuple");
            assert_eq!(position, place, "{board:?}");
            assert!((1..=self.n).contains(&seat) && listed.insert((seat, serial)), "{board:?}");
            assert_eq!(self.read.get(&position), Some(tuple), "{board:?}");
            sum += hundredths(shift);
            sums.push(sum);
        }
        assert!(sums.len() as u64 <= 112);
        let mut equal = 0;
        for (seat, racer) in &self.racers {
            assert_eq!(racer.sums, sums[..racer.sums.len()], "seat {seat}");
            for other in self.racers.range(..seat).map(|(_, other)| other) {
                let both = racer.sums.len().min(other.sums.len());
                assert_eq!(racer.sums[..both], other.sums[..both], "seats {} and {seat}", other.seat);
                equal += both;
            }
        }
        equal
    }
}

/// A call at this list: right, with one thing wrong, or seldom with several; now and then with a count above 32 bits.
pub fn near_call(dice: &mut Dice, board: &Board, process: u32) -> Call {
    let entry = near_entry(dice, board, process);
    let position = entry.fields[1].value;
    let template = match dice.below(20) {
        0 => Tuple::listed_template(dice.pick(&[position.saturating_add(1), position.max(1) - 1])),
        1 | 2 => near_template(dice, &entry),
        _ => Tuple::listed_template(position),
    };
    let mut call = match dice.below(16) {
        0 => Call::out(process, entry),
        1 => Call::inp(process, template),
        2 => Call::rdp(process, near_template(dice, &entry)),
        3 if dice.one_in(2) => Call::rdp(process, good_tuple(dice, false)),
        3 => Call::rdp(process, some_template(dice, board)),
        _ => Call::cas(process, template, entry),
    };
    if dice.one_in(16) {
        let part = dice.below(PARTS);
        spoil(dice, &mut call, part);
    }
    if dice.one_in(20) {
        lengthen_call(dice, &mut call);
    }
    call
}

/// What such a call lists: behind the newest tuple, behind any, or at the first position; at times what is listed already, under another's
/// number, at a position that is none, or no list tuple.
fn near_entry(dice: &mut Dice, board: &Board, process: u32) -> Tuple {
    let list: Vec<_> = board.held().iter().filter_map(looks_listed).collect();
    let own: Vec<_> = list.iter().filter(|(_, seat, _, _)| *seat == u64::from(process)).copied().collect();
    let (mut position, mut seat, mut shift) =
        (near_position(dice, board), u64::from(process), any_shift(dice));
    let mut serial = if dice.one_in(8) { dice.below(4) } else { any_count(dice) };
    match dice.below(20) {
        0 => position = dice.pick(&[0, 0, 1, 111, 112, 113, 114, 255, Kind::Count.last()]),
        1 => position = position.saturating_add(1 + dice.below(2)),
        2 if dice.one_in(4) => seat = dice.pick(&SEATS).into(),
        2 => seat = dice.below(board.config.n.min(MOST_SEATS + 1) + 2),
        3 => shift = Offset::MARK,
        4 | 5 if !own.is_empty() => (position, seat, serial, shift) = dice.pick(&own),
        6 if !own.is_empty() => (position, seat, serial, _) = dice.pick(&own),
        7 if !own.is_empty() => serial = dice.pick(&own).2,
        _ => {}
    }
    let mut entry = Tuple::listed(position, seat, serial, shift);
    match dice.below(20) {
        0 => entry.fields[dice.below(5) as usize] = good_field(dice, true),
        1 if dice.one_in(2) => entry = good_tuple(dice, true),
        1 => entry = Tuple::of(&entry.fields[..4]),
        _ => {}
    }
    entry
}

/// The first position, the one behind the newest list tuple, or behind any.
pub fn near_position(dice: &mut Dice, board: &Board) -> u64 {
    let list: Vec<_> = board.held().iter().filter_map(looks_listed).collect();
    let before: u64 = match dice.below(8) {
        _ if list.is_empty() => 0,
        0 => 0,
        1..=4 => list[list.len() - 1].0,
        _ => dice.pick(&list).0,
    };
    before.saturating_add(1)
}

/// Position, seat, serial and shift of a list tuple, and of what looks like one, its shift within its kind's range.
pub fn looks_listed(tuple: &Tuple) -> Option<(u64, u64, u64, u64)> {
    let [_, position, seat, serial, shift, _] = tuple.fields;
    let counts = [position, seat, serial];
    let [position, seat, serial] = counts.map(|field| field.value);
    let shift = shift.value.clamp(1, Offset::LAST);
    counts.iter().all(|field| field.kind == Kind::Count as u32).then_some((position, seat, serial, shift))
}

/// The template of a list tuple but for one field, or for how many it has.
pub fn near_template(dice: &mut Dice, entry: &Tuple) -> Tuple {
    let right = Tuple::listed_template(entry.fields[1].value);
    let (mut fields, place) = (right.fields, dice.below(5) as usize);
    match dice.below(6) {
        0 => return Tuple::of(&fields[..4]),
        1 => return Tuple::of(&[&fields[..5], &[good_field(dice, false)]].concat()),
        2 => fields[place] = entry.fields[place],
        3 => fields[place] = good_field(dice, false),
        _ => fields[place] = Field { state: 1 + dice.below(2) as u32, value: 0, ..fields[place] },
    }
    Tuple::of(&fields[..5])
}

/// A tuple of the board as a template, any of its fields given, any or open.
fn some_template(dice: &mut Dice, board: &Board) -> Tuple {
    let mut template =
        if board.held().is_empty() { good_tuple(dice, false) } else { dice.pick(board.held()) };
    for field in template.fields.iter_mut().take(template.count) {
        if dice.one_in(2) {
            *field = Field { state: 1 + dice.below(2) as u32, value: 0, ..*field };
        }
    }
    template
}

/// The tuple at this place, from 0, of a list: as a run makes it, and each part of it once in so many times as no run does.
pub fn odd_listed(dice: &mut Dice, config: &Config, place: u64, often: u64) -> Tuple {
    let n = config.n.clamp(1, MOST_SEATS);
    let position = match dice.below(3 * often) {
        0 => dice.pick(&[0, 1, place, place + 2, place + 3, 111, 112, 113, Kind::Count.last()]),
        1 => 1 + dice.below(place + 1),
        _ => place + 1,
    };
    let strange = [0, n + 1, MOST_SEATS, MOST_SEATS + 1];
    let seat = if dice.one_in(2 * often) { dice.pick(&strange) } else { 1 + dice.below(n) };
    let serial = dice.below(often * often / 4);
    let shift = if dice.one_in(2 * often) { Offset::MARK } else { any_shift(dice) };
    let mut tuple = Tuple::listed(position, seat, serial, shift);
    match dice.below(8 * often) {
        // What looks like a list tuple, and what doesn't.
        0 => tuple.fields[0].value = dice.pick(&[1, 2, 4]),
        1 => tuple = Tuple::of(&tuple.fields[..4]),
        2 => tuple = Tuple::of(&[&tuple.fields[..5], &[good_field(dice, true)]].concat()),
        3 => tuple.fields[4] = Field::given(Kind::Count, shift),
        4 => tuple.fields[dice.below(5) as usize] = good_field(dice, true),
        5 => tuple = Tuple::proposal(place, seat, shift),
        6 => tuple = good_tuple(dice, true),
        7 | 8 => lengthen(dice, &mut tuple),
        _ => {}
    }
    tuple
}

/// A list handed in: mostly one that no run makes, at times on a full board.
pub fn odd_list(dice: &mut Dice, config: &Config) -> Vec<Tuple> {
    let often = dice.pick(&[2, 8, 40, 400]);
    let held = match dice.below(6) {
        0 => LAST_POSITION - 4 + dice.below(21),
        1 => dice.below(MOST_TUPLES as u64 + 1),
        _ => dice.below(12),
    };
    let mut tuples: Vec<Tuple> = (0..held).map(|place| odd_listed(dice, config, place, often)).collect();
    match dice.below(6) {
        // Gaps, and older tuples among newer ones.
        0 => tuples.retain(|_| !dice.one_in(4)),
        1 if held > 1 => tuples.swap(dice.below(held) as usize, dice.below(held) as usize),
        _ => {}
    }
    if dice.one_in(5) {
        tuples.resize_with(MOST_TUPLES, || good_tuple(dice, true));
    }
    tuples
}
