//! The announcements of policy 5 (02, 2.7): what is owed at a position and why a call is denied, worked out apart from the plain version's
//! policy; seats that announce, help and race, among strays; what holds of every run; and boards that no run makes.

use std::collections::{BTreeMap, BTreeSet};

use reference::board::MOST_TUPLES;
use reference::fields::MOST_SEATS;
use reference::list::LAST_POSITION;
use reference::{Answer, AnswerKind, Board, Call, Config, Field, Kind, Offset, Refusal, Tuple};

use super::lists::{any_shift, hundredths, looks_listed, near_position, near_template, odd_list};
use super::lists::{read_in, stands, Cause};
use super::long::{any_count, lengthen, lengthen_call};
use super::{good_field, good_tuple, lists, spoil, Dice, PARTS, SEATS};

/// What is owed at a position: the oldest announcement of the seat that differs from it by a multiple of n, unless its seat and serial are
/// listed.
pub fn owed(board: &Board, position: u64) -> Option<Tuple> {
    let n = board.config.n.clamp(1, MOST_SEATS);
    let preferred = (1..=n).find(|seat| seat % n == position % n)?;
    let oldest = oldest(board, preferred)?;
    let serial = oldest.fields[2].value;
    (!stands(board, [None, Some(preferred), Some(serial)])).then_some(oldest)
}

/// A seat's oldest announcement.
fn oldest(board: &Board, seat: u64) -> Option<Tuple> {
    let own = template_of(seat);
    board.held().iter().find(|held| own.matches(held) && held.fields[3].value != Offset::MARK).copied()
}

/// (word 4, count seat, any count, open offset).
fn template_of(seat: u64) -> Tuple {
    Tuple::of(&[
        Field::given(Kind::Word, 4),
        Field::given(Kind::Count, seat),
        Field::any(Kind::Count),
        Field::open(Kind::Offset),
    ])
}

/// Seat, serial and shift of what has the fields of an announcement.
fn parts(tuple: &Tuple) -> (u64, u64, u64) {
    let [_, seat, serial, shift, ..] = tuple.fields.map(|field| field.value);
    (seat, serial, shift)
}

/// Why policy 5 denies an out, if it does.
pub fn cause_of_out(board: &Board, call: &Call) -> Option<Cause> {
    let (seat, serial, shift) = parts(&call.entry);
    if call.entry != Tuple::announcement(seat, serial, shift) {
        return Some(Cause::Out);
    }
    let own = u64::from(call.process);
    Cause::one_of(&[
        (shift == Offset::MARK, Cause::AnnouncedMark),
        (seat != own, Cause::AnnouncedAnothers),
        (oldest(board, own).is_some(), Cause::AnnouncedAgain),
    ])
}

/// Why policy 5 denies an inp, if it does.
pub fn cause_of_inp(call: &Call) -> Option<Cause> {
    let [word, seat, serial, shift, _, _] = call.template.fields;
    let kinds = [word, seat, serial, shift].map(|field| field.kind);
    if call.template.count != 4 || kinds != [1, 2, 2, 3] || (word.state, word.value) != (0, 4) {
        return Some(Cause::Inp);
    }
    Cause::one_of(&[
        (seat.state == 0 && seat.value != call.process.into(), Cause::InpAnothers),
        (seat.state != 0, Cause::InpAnybodys),
        (serial.state == 0 || shift.state == 0, Cause::InpGiven),
    ])
}

/// Why a cas of this list tuple is not this caller's to make, if it is not.
pub fn whose(board: &Board, call: &Call) -> Option<Cause> {
    let [_, position, seat, serial, shift, _] = call.entry.fields.map(|field| field.value);
    let (entry, process) = (Tuple::announcement(seat, serial, shift), u64::from(call.process));
    match owed(board, position) {
        Some(owed) if owed == entry => None,
        Some(owed) => {
            let (preferred, waiting, _) = parts(&owed);
            Some(match seat == process {
                _ if (seat, serial) == (preferred, waiting) => Cause::ShiftOwed,
                true if seat == preferred => Cause::SerialOwed,
                true => Cause::OwnOwed,
                false => Cause::ElseOwed,
            })
        }
        None if seat == process => None,
        None if shift != Offset::MARK && board.held().contains(&entry) => Some(Cause::OutOfTurn),
        None => Some(Cause::Anothers),
    }
}

/// What a helper does at the first position that it has not read.
#[derive(Clone, Copy)]
enum Next {
    /// Reads it.
    Look,
    /// Reads what its preferred seat has announced.
    Ask,
    /// Lists what this announcement says.
    List(Tuple),
}

/// A seat that lists its shifts, or what others have announced, and adds up what it reads.
struct Helper {
    seat: u32,
    /// It announces its shifts; it tries them before it looks; it seldom calls.
    announces: bool,
    hasty: bool,
    slow: bool,
    /// Its shift as an announcement; whether that stands; whether it has read that it is listed.
    own: Tuple,
    stands: bool,
    listed: bool,
    next: Next,
    /// What it has read from the first position on, and the sum up to each.
    read: Vec<Tuple>,
    sums: Vec<i64>,
}

impl Helper {
    fn new(dice: &mut Dice, seat: u32) -> Helper {
        let last = Kind::Count.last() - 1_000;
        let serial = dice.pick(&[0, 1, 100, 16_300, (1 << 28) - 9, (1 << 32) - 9, (1 << 63) - 9, last]);
        Helper {
            seat,
            announces: !dice.one_in(4),
            hasty: !dice.one_in(3),
            slow: dice.one_in(3),
            own: Tuple::announcement(seat.into(), serial, any_shift(dice)),
            stands: false,
            listed: false,
            next: Next::Look,
            read: Vec::new(),
            sums: Vec::new(),
        }
    }

    fn position(&self) -> u64 {
        self.read.len() as u64 + 1
    }

    /// Takes its announcement off once it is listed, seldom before.
    fn call(&self, dice: &mut Dice, n: u64) -> Call {
        let template = Tuple::listed_template(self.position());
        if self.stands && (self.listed || dice.one_in(40)) {
            return Call::inp(self.seat, own_template(dice, self.seat.into()));
        }
        match self.next {
            _ if self.announces && !self.stands => Call::out(self.seat, self.own),
            Next::Look => Call::rdp(self.seat, template),
            Next::Ask => Call::rdp(self.seat, template_of(1 + (self.position() - 1) % n)),
            Next::List(tuple) => {
                let (seat, serial, shift) = parts(&tuple);
                Call::cas(self.seat, template, Tuple::listed(self.position(), seat, serial, shift))
            }
        }
    }

    fn hear(&mut self, dice: &mut Dice, call: &Call, answer: &Answer) {
        match (call.code, read_in(call, answer)) {
            (1, _) => {
                assert_eq!(*answer, Answer::DONE, "{call:?}");
                self.stands = true;
            }
            (3, _) => {
                assert_eq!(*answer, Answer::found(self.own), "{call:?}");
                self.stands = false;
                // What it took off too early it mostly announces again.
                if self.listed || dice.one_in(4) {
                    self.renew(dice);
                }
            }
            (_, Some(read)) if read.count == 5 => self.add(dice, read),
            // What is listed is not owed.
            (_, Some(waiting)) => {
                let known = self.read.iter().any(|listed| listed.fields[2..4] == waiting.fields[1..3]);
                self.next = Next::List(if known { self.own } else { waiting });
            }
            // Something else is owed there, this is listed already, or the list is at its end.
            (4, None) => {
                assert_eq!(*answer, Answer::from(Refusal::Denied), "{call:?}");
                self.next = Next::Look;
            }
            (_, None) => {
                assert_eq!(*answer, Answer::NONE, "{call:?}");
                self.next = if let Next::Look = self.next { Next::Ask } else { Next::List(self.own) };
            }
        }
    }

    /// Adds what it read at its position.
    fn add(&mut self, dice: &mut Dice, read: Tuple) {
        let (position, seat, serial, shift) = read.as_listed().expect("a list tuple");
        assert_eq!(position, self.position());
        let sum = self.sums.last().copied().unwrap_or(0);
        self.sums.push(sum + hundredths(shift));
        self.read.push(read);
        self.next = if self.hasty { Next::List(self.own) } else { Next::Look };
        let (own, waiting, _) = parts(&self.own);
        if (seat, serial) == (own, waiting) {
            self.listed = true;
            if !self.stands {
                self.renew(dice);
            }
        }
    }

    /// Takes up its next shift.
    fn renew(&mut self, dice: &mut Dice) {
        let (seat, serial, _) = parts(&self.own);
        self.own = Tuple::announcement(seat, serial + 1, any_shift(dice));
        self.listed = false;
        self.next = Next::Look;
    }
}

/// What came of runs.
#[derive(Clone, Copy, Debug, Default)]
pub struct Came {
    /// Positions filled, and runs that filled all 112.
    pub filled: usize,
    pub whole: usize,
    /// Readings and sums that met another.
    pub read_again: usize,
    pub sums: usize,
    /// Announcements that were listed within n positions of their out; of these, by another seat, and with the last of the n.
    pub in_time: usize,
    pub helped: usize,
    pub at_last: usize,
    /// Announcements of what was listed already; those taken off while they waited.
    pub listed_before: usize,
    pub given_up: usize,
}

impl Came {
    pub fn add(&mut self, other: &Came) {
        self.filled += other.filled;
        self.whole += other.whole;
        self.read_again += other.read_again;
        self.sums += other.sums;
        self.in_time += other.in_time;
        self.helped += other.helped;
        self.at_last += other.at_last;
        self.listed_before += other.listed_before;
        self.given_up += other.given_up;
    }

    pub fn print(&self) {
        let Came { filled, whole, read_again, sums, .. } = self;
        println!(
            "         {filled:>7} positions filled, all 112 in {whole} runs; {read_again} readings and {sums} sums met others"
        );
        let Came { in_time, helped, at_last, listed_before, given_up, .. } = self;
        println!(
            "         {in_time:>7} announcements listed within n positions: {helped} by another seat, {at_last} at the last of the n; \
             {listed_before} were listed before, {given_up} taken off while they waited"
        );
    }

    /// Each came so often at least, from `whole` on.
    pub fn assert_each(&self, least: [usize; 8]) {
        let Came { whole, read_again, sums, in_time, helped, at_last, listed_before, given_up, .. } = *self;
        let came = [whole, read_again, sums, in_time, helped, at_last, listed_before, given_up];
        assert!(came.iter().zip(least).all(|(often, least)| *often >= least), "{self:?}");
    }
}

/// A run from a fresh board under policy 5: some seats help, the others call anything. What stands on the board is followed by the answers
/// alone.
pub struct Helping {
    n: u64,
    helpers: BTreeMap<u32, Helper>,
    list: Vec<Tuple>,
    listed: BTreeSet<(u64, u64)>,
    /// The announcement that stands of each seat.
    standing: BTreeMap<u64, Tuple>,
    /// How many positions were filled at the out of those that stand and are not listed.
    waiting: BTreeMap<u64, u64>,
    pub came: Came,
}

impl Helping {
    pub fn new(dice: &mut Dice, config: &Config) -> Helping {
        let share = dice.pick(&[1, 3, 4]);
        let mut helpers = BTreeMap::new();
        for seat in 1..=config.n as u32 {
            if seat == 1 || dice.below(4) < share {
                helpers.insert(seat, Helper::new(dice, seat));
            }
        }
        Helping {
            n: config.n,
            helpers,
            list: Vec::new(),
            listed: BTreeSet::new(),
            standing: BTreeMap::new(),
            waiting: BTreeMap::new(),
            came: Came::default(),
        }
    }

    /// How many calls a run has, so many at most: a few, or enough to fill the list.
    pub fn calls(&self, dice: &mut Dice, most: u64) -> u64 {
        ((self.n + 2) * dice.pick(&[3, 12, 60, 400])).min(most)
    }

    /// Whether the run ends here: some time after its list has.
    pub fn is_over(&self, dice: &mut Dice) -> bool {
        self.list.len() as u64 == LAST_POSITION && dice.one_in(40 * (self.n + 2))
    }

    /// The next call: a helper's own, or a stray's on this board.
    pub fn call(&self, dice: &mut Dice, board: &Board) -> Call {
        let mut process = dice.below(self.n + 2) as u32;
        if self.helpers.get(&process).is_some_and(|helper| helper.slow) && !dice.one_in(8) {
            process = dice.below(self.n + 2) as u32;
        }
        match self.helpers.get(&process) {
            Some(helper) => helper.call(dice, self.n),
            // A stray can't call under another's number.
            None => Call { process, ..near_call(dice, board, process) },
        }
    }

    /// What holds of every call, which left this board.
    pub fn hear(&mut self, dice: &mut Dice, board: &Board, call: &Call, answer: &Answer) {
        assert_ne!(*answer, Answer::from(Refusal::Full), "{call:?}");
        match (answer.kind, call.code) {
            (AnswerKind::Done, _) => self.announce(call),
            (AnswerKind::Found, 3) => self.take_off(call, answer),
            (AnswerKind::Inserted, _) => self.list(call),
            _ => {}
        }
        if let Some(read) = read_in(call, answer).filter(|read| read.count == 5) {
            let (position, ..) = read.as_listed().expect("a run's board holds no other tuples of five");
            assert_eq!(self.list.get(position as usize - 1), Some(&read), "a reading of position {position}");
            self.came.read_again += usize::from(answer.kind != AnswerKind::Inserted);
        }
        assert_eq!(board.count, self.list.len() + self.standing.len());
        self.is_never_stuck(dice, board);
        if let Some(helper) = self.helpers.get_mut(&call.process) {
            helper.hear(dice, call, answer);
        }
    }

    /// At most one announcement to a seat, put by itself, with no mark.
    fn announce(&mut self, call: &Call) {
        let (seat, serial, shift) = parts(&call.entry);
        assert_eq!(call.entry, Tuple::announcement(seat, serial, shift));
        assert!(seat == call.process.into() && shift != Offset::MARK, "{call:?}");
        assert_eq!(self.standing.insert(seat, call.entry), None, "{call:?}");
        if self.listed.contains(&(seat, serial)) {
            self.came.listed_before += 1;
        } else {
            self.waiting.insert(seat, self.list.len() as u64);
        }
    }

    /// A seat takes off its own alone.
    fn take_off(&mut self, call: &Call, answer: &Answer) {
        let seat = u64::from(call.process);
        assert_eq!(self.standing.remove(&seat), Some(answer.tuple), "{call:?}");
        self.came.given_up += usize::from(self.waiting.remove(&seat).is_some());
    }

    /// Positions are filled in order, with no mark and nothing twice, each by its own seat or with what that announces; and an announcement
    /// that stands, and was not listed at its out, is among the first n after it.
    fn list(&mut self, call: &Call) {
        let (position, seat, serial, shift) = call.entry.as_listed().expect("a list tuple");
        let announced = self.standing.get(&seat) == Some(&Tuple::announcement(seat, serial, shift));
        let own = seat == u64::from(call.process);
        assert_eq!(position, self.list.len() as u64 + 1, "{call:?}");
        assert!(position <= 112 && shift != Offset::MARK && (own || announced), "{call:?}");
        assert!(self.listed.insert((seat, serial)), "{call:?}");
        self.list.push(call.entry);
        let it = self.standing.get(&seat).is_some_and(|announced| parts(announced).1 == serial);
        if let Some(since) = if it { self.waiting.remove(&seat) } else { None } {
            assert!(position <= since + self.n, "{seat} waited from {since} to {position}");
            self.came.in_time += 1;
            self.came.helped += usize::from(!own);
            self.came.at_last += usize::from(position == since + self.n);
        }
        for (seat, since) in &self.waiting {
            assert!(position < since + self.n, "{seat} waits from {since} on, at {position}");
        }
    }

    /// At the next position what is owed, and if nothing is, one's own, is inserted; and while something is owed, one's own is denied.
    fn is_never_stuck(&self, dice: &mut Dice, board: &Board) {
        let position = self.list.len() as u64 + 1;
        if position > LAST_POSITION {
            return;
        }
        let process = 1 + dice.below(self.n);
        let new = (0..).find(|serial| !self.listed.contains(&(process, *serial))).expect("a serial");
        let own = Tuple::announcement(process, new, any_shift(dice));
        let preferred = 1 + (position - 1) % self.n;
        let owed = self.waiting.get(&preferred).map(|_| self.standing[&preferred]);
        let answer = |tuple: &Tuple| {
            let (seat, serial, shift) = parts(tuple);
            let entry = Tuple::listed(position, seat, serial, shift);
            let call = Call::cas(process as u32, Tuple::listed_template(position), entry);
            Answer::from(board.clone().call(&call))
        };
        assert_eq!(answer(&owed.unwrap_or(own)), Answer::INSERTED, "{board:?}");
        if owed.is_some_and(|owed| owed != own) {
            assert_eq!(answer(&own), Answer::from(Refusal::Denied), "{board:?}");
        }
    }

    /// At the end of the run: the board holds the list and the announcements that stand, and whoever has read positions 1 to m holds the
    /// same sum.
    pub fn check(&mut self, board: &Board) {
        assert_eq!(board.check(), Ok(()));
        let (list, others): (Vec<Tuple>, Vec<Tuple>) =
            board.held().iter().copied().partition(|held| held.count == 5);
        assert_eq!(list, self.list, "{board:?}");
        let others: BTreeMap<u64, Tuple> = others.into_iter().map(|held| (parts(&held).0, held)).collect();
        assert_eq!(others, self.standing, "{board:?}");
        assert!(list.len() as u64 <= 112);
        let mut sums = vec![0];
        sums.extend(list.iter().map(|listed| hundredths(listed.fields[4].value)).scan(0, |sum, shift| {
            *sum += shift;
            Some(*sum)
        }));
        for (seat, helper) in &self.helpers {
            assert_eq!(helper.sums, sums[1..=helper.sums.len()], "seat {seat}");
            for other in self.helpers.range(..seat).map(|(_, other)| other) {
                let both = helper.sums.len().min(other.sums.len());
                assert_eq!(helper.sums[..both], other.sums[..both], "seats {} and {seat}", other.seat);
                self.came.sums += both;
            }
        }
        self.came.filled = list.len();
        self.came.whole = usize::from(list.len() as u64 == LAST_POSITION);
    }
}

/// The template with which a seat takes its own off, its last two fields undefined in either way.
fn own_template(dice: &mut Dice, seat: u64) -> Tuple {
    let mut template = template_of(seat);
    for field in &mut template.fields[2..4] {
        field.state = 1 + dice.below(2) as u32;
    }
    template
}

/// A call at this list and its announcements: right, with one thing wrong, or seldom with several; now and then with a count above 32 bits.
pub fn near_call(dice: &mut Dice, board: &Board, process: u32) -> Call {
    let mut call = match dice.below(16) {
        0..=2 => Call::out(process, near_announcement(dice, board, process)),
        3 | 4 => Call::inp(process, near_own_template(dice, board, process)),
        5 => Call::rdp(process, near_own_template(dice, board, process)),
        6..=11 => near_cas(dice, board, process),
        _ => return lists::near_call(dice, board, process),
    };
    if dice.one_in(16) {
        let part = dice.below(PARTS);
        spoil(dice, &mut call, part);
    }
    if dice.one_in(20) {
        lengthen_call(dice, &mut call);
    }
    call
}

/// A seat's number, mostly one from 1 to n.
fn near_seat(dice: &mut Dice, board: &Board) -> u64 {
    if dice.one_in(4) {
        return dice.pick(&SEATS).into();
    }
    dice.below(board.config.n.min(MOST_SEATS + 1) + 2)
}

/// What has the fields of an announcement on this board, its shift within its kind's range.
fn announced(board: &Board) -> Vec<Tuple> {
    let has_fields = |held: &&Tuple| held.count == 4 && held.fields[0] == Field::given(Kind::Word, 4);
    let within = |held: &Tuple| {
        let (seat, serial, shift) = parts(held);
        Tuple::announcement(seat, serial, shift.min(Offset::LAST))
    };
    board.held().iter().filter(has_fields).map(within).collect()
}

/// An announcement of the caller's, now and then of a listed serial or as it stands already; at times with the mark, under another's number,
/// or none.
fn near_announcement(dice: &mut Dice, board: &Board, process: u32) -> Tuple {
    let own = u64::from(process);
    let standing = announced(board);
    let list = board.held().iter().filter_map(looks_listed);
    let own_list: Vec<_> = list.filter(|(_, seat, _, _)| *seat == own).collect();
    let serial = if dice.one_in(2) { dice.below(4) } else { any_count(dice) };
    let mut entry = Tuple::announcement(own, serial, any_shift(dice));
    match dice.below(20) {
        0 | 1 => entry.fields[1].value = near_seat(dice, board),
        2 | 3 => entry.fields[3].value = Offset::MARK,
        4 if !standing.is_empty() => entry = dice.pick(&standing),
        5 if !own_list.is_empty() => entry.fields[2].value = dice.pick(&own_list).2,
        6 => entry.fields[0].value = dice.pick(&[1, 2, 3, 5]),
        7 => entry.fields[dice.below(4) as usize] = good_field(dice, true),
        8 if dice.one_in(2) => entry = Tuple::of(&entry.fields[..3]),
        8 => entry = Tuple::of(&[&entry.fields[..4], &[good_field(dice, true)]].concat()),
        _ => {}
    }
    entry
}

/// The template with which the caller takes its own off, at times but for one field, or for how many it has.
fn near_own_template(dice: &mut Dice, board: &Board, process: u32) -> Tuple {
    let mut template = own_template(dice, process.into());
    let (standing, place) = (announced(board), 2 + dice.below(2) as usize);
    match dice.below(16) {
        0 | 1 => template.fields[1].value = near_seat(dice, board),
        2 => template.fields[1] = Field { state: 1 + dice.below(2) as u32, value: 0, ..template.fields[1] },
        3 if !standing.is_empty() => template.fields[place] = dice.pick(&standing).fields[place],
        4 => template.fields[place] = Field { state: 0, value: dice.below(4), ..template.fields[place] },
        5 => template.fields[dice.below(4) as usize] = good_field(dice, false),
        6 if dice.one_in(2) => template = Tuple::of(&template.fields[..3]),
        6 => template = Tuple::of(&[&template.fields[..4], &[good_field(dice, false)]].concat()),
        _ => {}
    }
    template
}

/// A cas of what is owed, of what else is announced, or of the caller's own, at a position that is free or taken; at times with one part
/// of it changed.
fn near_cas(dice: &mut Dice, board: &Board, process: u32) -> Call {
    let mut position = near_position(dice, board);
    if dice.one_in(5) {
        position = position.max(2) - 1;
    }
    let serial = if dice.one_in(2) { dice.below(4) } else { any_count(dice) };
    let standing = announced(board);
    let chosen = match (owed(board, position), dice.below(8)) {
        (Some(owed), 0..=4) => owed,
        (_, 5 | 6) if !standing.is_empty() => dice.pick(&standing),
        _ => Tuple::announcement(process.into(), serial, any_shift(dice)),
    };
    let (mut seat, mut serial, mut shift) = parts(&chosen);
    match dice.below(12) {
        0 => shift = any_shift(dice),
        1 => serial = dice.below(4),
        2 => seat = near_seat(dice, board),
        3 => position = dice.pick(&[0, position.saturating_add(1)]),
        4 => shift = dice.pick(&[Offset::MARK, shift]),
        _ => {}
    }
    let entry = Tuple::listed(position, seat, serial, shift);
    let right = Tuple::listed_template(position);
    let template = if dice.one_in(12) { near_template(dice, &entry) } else { right };
    Call::cas(process, template, entry)
}

/// An announcement on a board handed in: of any seat, now and then of what these tuples list, with its shift or another, or with the mark;
/// seldom what only looks like one.
pub fn odd_announced(dice: &mut Dice, config: &Config, tuples: &[Tuple]) -> Tuple {
    let n = config.n.clamp(1, MOST_SEATS);
    let mut seat =
        if dice.one_in(8) { dice.pick(&[0, n + 1, MOST_SEATS, MOST_SEATS + 1]) } else { 1 + dice.below(n) };
    let (mut serial, mut shift) = (dice.below(6), any_shift(dice));
    let list: Vec<_> = tuples.iter().filter_map(looks_listed).collect();
    if !list.is_empty() && dice.one_in(4) {
        let (_, q, s, v) = dice.pick(&list);
        (seat, serial, shift) = (q, s, dice.pick(&[v, shift]));
    }
    if dice.one_in(8) {
        shift = Offset::MARK;
    }
    let mut tuple = Tuple::announcement(seat, serial, shift);
    match dice.below(40) {
        0 => tuple.fields[0].value = dice.pick(&[1, 3, 5]),
        1 => tuple = Tuple::of(&tuple.fields[..3]),
        2 => tuple = Tuple::of(&[&tuple.fields[..4], &[good_field(dice, true)]].concat()),
        3 => tuple.fields[3] = Field::given(Kind::Count, shift),
        4 => tuple.fields[dice.below(4) as usize] = good_field(dice, true),
        5 => tuple = good_tuple(dice, true),
        6 | 7 => lengthen(dice, &mut tuple),
        _ => {}
    }
    tuple
}

/// A list and announcements handed in: mostly what no run makes, at times on a full board.
pub fn odd_tuples(dice: &mut Dice, config: &Config) -> Vec<Tuple> {
    let mut tuples = odd_list(dice, config);
    for _ in 0..dice.below(2 * config.n.clamp(1, MOST_SEATS) + 2) {
        let tuple = odd_announced(dice, config, &tuples);
        let place = dice.below(tuples.len() as u64 + 1) as usize;
        if tuples.len() < MOST_TUPLES {
            tuples.insert(place, tuple);
        } else {
            tuples[place.min(MOST_TUPLES - 1)] = tuple;
        }
    }
    tuples
}
