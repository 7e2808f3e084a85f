//! Seats that stray (02, 2.11): which clause of following each of them breaks first in a script, worked out apart from the plain version's
//! `stray` and `Seat`, seat by seat from the board's answers; and how often each came.

use std::collections::{BTreeMap, BTreeSet};

use reference::config::{DEFAULT, STRONG};
use reference::fields::MOST_SEATS;
use reference::policy::LAST_ROUND;
use reference::records::read_record;
use reference::{Answer, AnswerKind, Board, Call, Config, Offset, Refusal, Tuple};

use super::refused;

/// What a seat's first wrong call is.
#[derive(Clone, Copy, Debug, PartialEq, Eq, PartialOrd, Ord)]
pub enum Clause {
    /// Between rounds: an out of its own proposal with the mark, with an offset that is no choice, in a round above 7, in a round begun
    /// before; one in another's number; one of another tuple.
    Mark,
    NoChoice,
    RoundAbove,
    Again,
    Anothers,
    Otherwise,
    /// Between rounds: a call that is no out, before its first round; after a decision an rdp of it, the cas once more, and others.
    NotBegun,
    ReadsDecision,
    CasAgain,
    NotOver,
    /// In a round: an out in this round, and another out.
    SecondOut,
    UnderWay,
    /// Where a reading is due: that of a seat found, of another seat, another rdp; a cas.
    FoundAgain,
    AnotherSeat,
    AnotherReading,
    Early,
    /// Where the cas is due: an rdp; another set, another offset, another cas.
    ReadsOn,
    AnotherSet,
    AnotherOffset,
    AnotherCas,
    /// In a round: an inp.
    Takes,
}

impl Clause {
    pub const ALL: [Clause; 21] = [
        Clause::Mark,
        Clause::NoChoice,
        Clause::RoundAbove,
        Clause::Again,
        Clause::Anothers,
        Clause::Otherwise,
        Clause::NotBegun,
        Clause::ReadsDecision,
        Clause::CasAgain,
        Clause::NotOver,
        Clause::SecondOut,
        Clause::UnderWay,
        Clause::FoundAgain,
        Clause::AnotherSeat,
        Clause::AnotherReading,
        Clause::Early,
        Clause::ReadsOn,
        Clause::AnotherSet,
        Clause::AnotherOffset,
        Clause::AnotherCas,
        Clause::Takes,
    ];

    const fn words(self) -> &'static str {
        match self {
            Clause::Mark => "the mark proposed",
            Clause::NoChoice => "no choice proposed",
            Clause::RoundAbove => "a round above 7",
            Clause::Again => "a round begun before",
            Clause::Anothers => "another's number proposed",
            Clause::Otherwise => "an out of another tuple",
            Clause::NotBegun => "no out at first",
            Clause::ReadsDecision => "the decision read",
            Clause::CasAgain => "the cas once more",
            Clause::NotOver => "another call after the decision",
            Clause::SecondOut => "a second out in the round",
            Clause::UnderWay => "an out while a round is under way",
            Clause::FoundAgain => "a found seat read again",
            Clause::AnotherSeat => "another seat read",
            Clause::AnotherReading => "another rdp in a round",
            Clause::Early => "a cas too early",
            Clause::ReadsOn => "read on where the cas is due",
            Clause::AnotherSet => "a cas with another set",
            Clause::AnotherOffset => "a cas with another offset",
            Clause::AnotherCas => "another cas",
            Clause::Takes => "an inp in a round",
        }
    }
}

/// Where a seat stands that has followed so far.
#[derive(Default)]
struct Standing {
    /// The rounds begun, in order.
    begun: Vec<u64>,
    /// The readings of the round under way, each with what was found.
    reading: Option<Vec<(u64, Option<u64>)>>,
    /// Its last cas, and how many rounds it has decided.
    cas: Option<Call>,
    decided: usize,
}

/// What the documents have a seat call next.
enum Due {
    Out,
    Rdp(u64),
    Cas(u64, u64),
}

impl Standing {
    /// What is due, from the readings alone.
    fn due(&self, config: &Config) -> Due {
        let Some(readings) = &self.reading else {
            return Due::Out;
        };
        let found: BTreeMap<u64, u64> =
            readings.iter().filter_map(|(asked, offset)| Some((*asked, (*offset)?))).collect();
        let set = |offset: Option<u64>| -> u64 {
            let seats = found.iter().filter(|(_, w)| offset.is_none_or(|offset| offset == **w));
            seats.map(|(seat, _)| 1 << (seat - 1)).sum()
        };
        let enough = found.values().find(|w| u64::from(set(Some(**w)).count_ones()) > config.t);
        if let Some(offset) = enough {
            return Due::Cas(*offset, set(Some(*offset)));
        }
        if config.policy == DEFAULT && found.len() as u64 >= config.n - config.t {
            return Due::Cas(Offset::MARK, set(None));
        }
        let last = readings.last().map_or(0, |(asked, _)| *asked);
        let next = (last + 1..last + 1 + config.n).map(|next| 1 + (next - 1) % config.n);
        Due::Rdp(next.into_iter().find(|seat| !found.contains_key(seat)).expect("a seat that is not found"))
    }

    fn round(&self) -> u64 {
        self.begun.last().copied().unwrap_or(0)
    }

    /// Why the procedure would not make this call here, if it would not.
    fn wrong(&self, config: &Config, call: &Call) -> Option<Clause> {
        let (seat, round) = (call.process, self.round());
        match self.due(config) {
            Due::Out if call.code == 1 => self.wrong_begin(config, call),
            Due::Out if self.decided == 0 => Some(Clause::NotBegun),
            Due::Out if *call == Call::rdp(seat, Tuple::decision_template(round)) => {
                Some(Clause::ReadsDecision)
            }
            Due::Out if Some(call) == self.cas.as_ref() => Some(Clause::CasAgain),
            Due::Out => Some(Clause::NotOver),
            _ if call.code == 1 => {
                let second = call.entry.as_proposal().is_some_and(|(r, q, _)| (r, q) == (round, seat.into()));
                Some(if second { Clause::SecondOut } else { Clause::UnderWay })
            }
            _ if call.code == 3 => Some(Clause::Takes),
            Due::Rdp(_) if call.code == 4 => Some(Clause::Early),
            Due::Rdp(due) => {
                let asked =
                    (1..=config.n).find(|asked| call.template == Tuple::proposal_template(round, *asked));
                let found = |asked| self.reading.iter().flatten().any(|r| r.0 == asked && r.1.is_some());
                match asked {
                    Some(asked) if asked == due => None,
                    Some(asked) if found(asked) => Some(Clause::FoundAgain),
                    Some(_) => Some(Clause::AnotherSeat),
                    None => Some(Clause::AnotherReading),
                }
            }
            Due::Cas(..) if call.code == 2 => Some(Clause::ReadsOn),
            Due::Cas(offset, set) => match call.entry.as_decision() {
                _ if call.template != Tuple::decision_template(round) => Some(Clause::AnotherCas),
                Some((r, w, p)) if (r, w, p) == (round, offset, set) => None,
                Some((r, w, _)) if (r, w) == (round, offset) => Some(Clause::AnotherSet),
                Some((r, ..)) if r == round => Some(Clause::AnotherOffset),
                _ => Some(Clause::AnotherCas),
            },
        }
    }

    /// The same of an out between rounds.
    fn wrong_begin(&self, config: &Config, call: &Call) -> Option<Clause> {
        let Some((round, seat, offset)) = call.entry.as_proposal() else {
            return Some(Clause::Otherwise);
        };
        let choice = config.policy != STRONG || (offset % 2 == 1 && offset < 2 * config.k);
        match seat {
            _ if seat != call.process.into() => Some(Clause::Anothers),
            _ if round > LAST_ROUND => Some(Clause::RoundAbove),
            _ if offset == Offset::MARK => Some(Clause::Mark),
            _ if !choice => Some(Clause::NoChoice),
            _ => self.begun.contains(&round).then_some(Clause::Again),
        }
    }

    /// A call that the procedure makes, and its answer.
    fn hear(&mut self, call: &Call, answer: &Answer) {
        match call.code {
            1 => {
                let (round, ..) = call.entry.as_proposal().expect("a proposal");
                self.begun.push(round);
                self.reading = Some(Vec::new());
            }
            2 => {
                let asked = call.template.fields[2].value;
                let found = (answer.kind == AnswerKind::Found).then_some(answer.tuple.fields[3].value);
                self.reading.as_mut().expect("a round").push((asked, found));
            }
            _ => {
                self.reading = None;
                self.cas = Some(*call);
                self.decided += 1;
            }
        }
    }
}

/// What a script under policy 2 or 3 comes to, for every seat.
pub struct Judged {
    pub config: Config,
    pub board: Board,
    /// Each seat from 1 on: its first wrong record, and why; the rounds it has decided; whether one is under way; whether it calls.
    seats: Vec<(Option<(u32, Clause)>, usize, bool, bool)>,
    /// The records that read, with their callers, and whether each was refused.
    pub records: Vec<(u32, bool)>,
    /// How far the script reads, if it ends with a record that doesn't; and the number of that record's seat, if that reads.
    pub unread: Option<(usize, Option<u32>)>,
}

impl Judged {
    /// Of a script that stands, whose records begin at this place.
    pub fn of(config: Config, bytes: &[u8], first: usize) -> Judged {
        let mut board = Board::fresh(config).expect("a sound set-up");
        let mut standings: Vec<Standing> = (0..config.n).map(|_| Standing::default()).collect();
        let mut wrong = vec![None; config.n as usize];
        let (mut records, mut called, mut unread) = (Vec::new(), BTreeSet::new(), None);
        let mut at = first;
        while at < bytes.len() {
            let Ok((call, taken)) = read_record(&bytes[at..]) else {
                unread = Some((at, read_seat(&bytes[at..])));
                break;
            };
            at += taken;
            let answer = Answer::from(board.obey(&call));
            records.push((call.process, refused(&answer)));
            called.insert(call.process);
            let place = (call.process as usize).wrapping_sub(1);
            if let (Some(standing), Some(None)) = (standings.get_mut(place), wrong.get(place)) {
                match standing.wrong(&config, &call) {
                    Some(clause) => wrong[place] = Some((records.len() as u32, clause)),
                    None => standing.hear(&call, &answer),
                }
            }
        }
        let seats = standings.iter().zip(wrong).zip(1..);
        let seats =
            seats.map(|((s, wrong), seat)| (wrong, s.decided, s.reading.is_some(), called.contains(&seat)));
        Judged { config, board, seats: seats.collect(), records, unread }
    }

    /// The seats of a set.
    fn members(&self, set: u64) -> impl Iterator<Item = &(Option<(u32, Clause)>, usize, bool, bool)> {
        self.seats.iter().enumerate().filter(move |(place, _)| set >> place & 1 == 1).map(|(_, seat)| seat)
    }

    /// The first wrong record of a seat in the set, and why.
    pub fn first(&self, set: u64) -> Option<(u32, Clause)> {
        self.members(set).filter_map(|(wrong, ..)| *wrong).min_by_key(|(number, _)| *number)
    }

    /// What holds of every answer: it is this one, it is no later than a refused call of a member, and where all of so many follow
    /// that at most t are left, what is decided is valid.
    pub fn check(&self, set: u64, answer: Option<u32>) {
        assert_eq!(answer, self.first(set).map(|(number, _)| number));
        let is_member = |seat: u32| (1..=32).contains(&seat) && set >> (seat - 1) & 1 == 1;
        let refused = self.records.iter().position(|(seat, refused)| *refused && is_member(*seat));
        if let Some(place) = refused {
            assert!(answer.is_some_and(|number| number as usize <= place + 1), "{answer:?} and {place}");
        }
        if answer.is_none() && u64::from(set.count_ones()) >= self.config.n - self.config.t {
            self.check_decisions(set);
        }
    }

    /// Validity and unanimity, for the seats of a set that follow.
    fn check_decisions(&self, set: u64) {
        for (round, offset, _) in self.board.held().iter().filter_map(Tuple::as_decision) {
            let proposals = self.board.held().iter().filter_map(Tuple::as_proposal);
            let theirs: BTreeSet<u64> = proposals
                .filter(|(r, seat, _)| *r == round && set >> (seat - 1) & 1 == 1)
                .map(|(_, _, w)| w)
                .collect();
            assert!((offset == Offset::MARK && theirs.len() > 1) || theirs.contains(&offset), "{theirs:?}");
            assert!(theirs.len() > 1 || theirs.contains(&offset), "{theirs:?}");
        }
    }
}

/// The bare seat number at the front of a record.
fn read_seat(bytes: &[u8]) -> Option<u32> {
    match bytes {
        [seat @ 0..=0x7F, ..] => Some(u32::from(*seat)),
        _ => None,
    }
}

/// How often each answer came, by what it came from.
#[derive(Debug, Default)]
pub struct Came {
    pub asked: usize,
    /// All follow: no seat in the set; none that calls; some that have decided and none in a round; some halfway through one.
    pub nobody: usize,
    pub silent: usize,
    pub decided: usize,
    pub halfway: usize,
    /// All follow in a script that ends unread; of these, in a record under a member's number; and a stray before such a record.
    pub unread: usize,
    pub unread_own: usize,
    pub stray_before: usize,
    /// Strays in a script of all seats, and those that are not the set's first calls.
    pub all_seats: usize,
    pub late: usize,
    clauses: BTreeMap<Clause, usize>,
    refusals: BTreeMap<Refusal, usize>,
}

impl Came {
    pub fn refuse(&mut self, refusal: Refusal) {
        self.asked += 1;
        *self.refusals.entry(refusal).or_default() += 1;
    }

    pub fn judge(&mut self, judged: &Judged, set: u64) {
        self.asked += 1;
        let all = judged.config.n == MOST_SEATS;
        if let Some((number, clause)) = judged.first(set) {
            *self.clauses.entry(clause).or_default() += 1;
            self.stray_before += usize::from(judged.unread.is_some());
            self.all_seats += usize::from(all);
            self.late += usize::from(number > 20);
            return;
        }
        if let Some((_, seat)) = judged.unread {
            self.unread += 1;
            let own = seat.is_some_and(|seat| (1..=32).contains(&seat) && set >> (seat - 1) & 1 == 1);
            self.unread_own += usize::from(own);
        }
        let count = match set {
            0 => &mut self.nobody,
            _ if judged.members(set).all(|(.., called)| !called) => &mut self.silent,
            _ if judged.members(set).any(|(_, _, reading, _)| *reading) => &mut self.halfway,
            _ => &mut self.decided,
        };
        *count += 1;
    }

    pub fn print(&self) {
        let Came { nobody, silent, decided, halfway, unread, unread_own, .. } = self;
        println!(
            "         all follow: {decided} with decided rounds alone, {halfway} halfway, {silent} that never call, {nobody} of no seat; \
             {unread} of these end unread, {unread_own} in a member's record"
        );
        let clauses: Vec<String> =
            self.clauses.iter().map(|(clause, often)| format!("{often} {}", clause.words())).collect();
        println!("         strays: {}", clauses.join(", "));
        let Came { all_seats, late, stray_before, .. } = self;
        println!("         {all_seats} of these among {MOST_SEATS} seats, {late} behind 20 records, {stray_before} before an unread record");
        self.print_refusals();
    }

    pub fn print_refusals(&self) {
        let refusals: Vec<String> =
            self.refusals.iter().map(|(refusal, often)| format!("{often} {refusal}")).collect();
        if !refusals.is_empty() {
            println!("         {}", refusals.join(", "));
        }
    }

    /// Each of these clauses came so often at least, and no other.
    pub fn assert_clauses(&self, clauses: &[Clause], least: usize) {
        assert!(self.clauses.keys().eq(clauses), "{:?}", self.clauses);
        assert!(self.clauses.values().all(|often| *often >= least), "{:?}", self.clauses);
    }

    /// Each of these refusals came so often at least, and no other.
    pub fn assert_refusals(&self, refusals: &[Refusal], least: usize) {
        assert!(self.refusals.keys().eq(refusals), "{:?}", self.refusals);
        assert!(self.refusals.values().all(|often| *often >= least), "{:?}", self.refusals);
    }
}
