//! Why policies 2 and 3 deny a call (02, 2.3), worked out member by member and apart from the plain version's policies: each cause of 12
//! and 13 by itself, and the 7s beside them, counted. Under policies 4 and 5 `lists` judges.

use std::collections::BTreeMap;

use reference::config::{DEFAULT, LIST, STRONG, WAIT_FREE};
use reference::policy::LAST_ROUND;
use reference::{Answer, AnswerKind, Board, Call, Config, Offset, Tuple};

use super::lists::Lists;

/// Why a call is denied.
#[derive(Clone, Copy, Debug, PartialEq, Eq, PartialOrd, Ord)]
pub enum Cause {
    /// 12: the same offset stands there already; another does.
    SameAgain,
    OtherAgain,
    /// 7: a second out with the mark, of what is no choice, of another seat's number, in a round above 7; any other out.
    MarkAgain,
    NoChoiceAgain,
    AnothersAgain,
    RoundAgain,
    OtherOut,
    /// 13, an offset: no member; too few, though each proposed it; enough, but one proposed something else; enough, but one proposed
    /// nothing; several of these.
    NoMember,
    TooFew,
    Differs,
    Silent,
    Several,
    /// 13, the mark: no member; too few; one has not proposed; an offset has too many; the same with t = 0; several of these.
    MarkNoMember,
    MarkTooFew,
    MarkSilent,
    MarkCrowded,
    MarkNoStrays,
    MarkSeveral,
    /// 7, a cas with nothing else wrong but its set: a member above n. Or but its offset: under policy 3 the mark, or no choice. Or but
    /// its round: above 7, or two rounds.
    AboveN,
    StrongMark,
    StrongNoChoice,
    RoundAbove,
    TwoRounds,
    /// 7: a cas with another shape, or with several of these wrong; an inp.
    OtherCas,
    Inp,
}

use Cause::*;

impl Cause {
    /// Those that both policies have, on any board.
    pub const BOTH: [Cause; 15] = [
        SameAgain,
        OtherAgain,
        MarkAgain,
        AnothersAgain,
        RoundAgain,
        OtherOut,
        NoMember,
        TooFew,
        Differs,
        Silent,
        AboveN,
        RoundAbove,
        TwoRounds,
        OtherCas,
        Inp,
    ];
    /// Those of policy 2 alone, and of policy 3 alone.
    pub const DEFAULT_ONLY: [Cause; 5] = [MarkNoMember, MarkTooFew, MarkSilent, MarkCrowded, MarkNoStrays];
    pub const STRONG_ONLY: [Cause; 3] = [NoChoiceAgain, StrongMark, StrongNoChoice];

    /// The number of its refusal.
    pub fn number(self) -> u32 {
        match self {
            SameAgain | OtherAgain => 12,
            NoMember | TooFew | Differs | Silent | Several => 13,
            MarkNoMember | MarkTooFew | MarkSilent | MarkCrowded | MarkNoStrays | MarkSeveral => 13,
            MarkAgain | NoChoiceAgain | AnothersAgain | RoundAgain | OtherOut => 7,
            AboveN | StrongMark | StrongNoChoice | RoundAbove | TwoRounds | OtherCas | Inp => 7,
        }
    }

    /// Why policy 2 or 3 denies this call, if it does. The board is well formed, the call sound and of a seat from 1 to n.
    fn of(board: &Board, call: &Call) -> Option<Cause> {
        match call.code {
            1 => Cause::of_out(board, call),
            2 => None,
            3 => Some(Inp),
            _ => Cause::of_cas(board, call),
        }
    }

    fn of_out(board: &Board, call: &Call) -> Option<Cause> {
        let Some((round, seat, offset)) = call.entry.as_proposal() else {
            return Some(OtherOut);
        };
        let place = Tuple::proposal_template(round, seat);
        let standing: Vec<u64> =
            board.held().iter().filter(|held| place.matches(held)).map(|held| held.fields[3].value).collect();
        let may = offered(&board.config, offset);
        match (standing.is_empty(), round <= LAST_ROUND, seat == call.process.into(), may) {
            (true, true, true, true) => None,
            (false, true, true, true) if standing.contains(&offset) => Some(SameAgain),
            (false, true, true, true) => Some(OtherAgain),
            (false, true, true, false) if offset == Offset::MARK => Some(MarkAgain),
            (false, true, true, false) => Some(NoChoiceAgain),
            (false, true, false, true) => Some(AnothersAgain),
            (false, false, true, true) => Some(RoundAgain),
            _ => Some(OtherOut),
        }
    }

    fn of_cas(board: &Board, call: &Call) -> Option<Cause> {
        let Some((round, offset, seats)) = call.entry.as_decision() else {
            return Some(OtherCas);
        };
        let asked = call.template.fields[1].value;
        if call.template != Tuple::decision_template(asked) {
            return Some(OtherCas);
        }
        let mark = offset == Offset::MARK;
        let decidable = if mark { board.config.policy == DEFAULT } else { offered(&board.config, offset) };
        let within = seats < 1 << board.config.n;
        match (asked == round, round <= LAST_ROUND, within, decidable) {
            (true, true, true, true) if mark => Cause::of_mark(board, round, seats),
            (true, true, true, true) => Cause::of_offset(board, round, offset, seats),
            (true, true, false, true) => Some(AboveN),
            (true, true, true, false) => Some(if mark { StrongMark } else { StrongNoChoice }),
            (true, false, true, true) => Some(RoundAbove),
            (false, true, true, true) if asked <= LAST_ROUND => Some(TwoRounds),
            _ => Some(OtherCas),
        }
    }

    fn of_offset(board: &Board, round: u64, offset: u64, seats: u64) -> Option<Cause> {
        let members = members(board, round, seats);
        let few = members.len() as u64 <= board.config.t;
        let differs = members.iter().any(|own| !own.is_empty() && !own.contains(&offset));
        let silent = members.iter().any(Vec::is_empty);
        match (few, differs, silent) {
            (false, false, false) => None,
            _ if members.is_empty() => Some(NoMember),
            (true, false, false) => Some(TooFew),
            (false, true, false) => Some(Differs),
            (false, false, true) => Some(Silent),
            _ => Some(Several),
        }
    }

    fn of_mark(board: &Board, round: u64, seats: u64) -> Option<Cause> {
        let members = members(board, round, seats);
        let Config { n, t, .. } = board.config;
        let few = (members.len() as u64) < n - t;
        let silent = members.iter().any(Vec::is_empty);
        let seats_of = |w: &u64| members.iter().filter(|own| own.contains(w)).count() as u64;
        let crowded = members.iter().flatten().any(|w| seats_of(w) > t);
        match (few, silent, crowded) {
            (false, false, false) => None,
            _ if members.is_empty() => Some(MarkNoMember),
            (true, false, false) => Some(MarkTooFew),
            (false, true, false) => Some(MarkSilent),
            (false, false, true) if t == 0 => Some(MarkNoStrays),
            (false, false, true) => Some(MarkCrowded),
            _ => Some(MarkSeveral),
        }
    }
}

/// Whether an offset may be proposed: under policy 2 all but the mark, under policy 3 the odd numbers below 2k.
fn offered(config: &Config, offset: u64) -> bool {
    match config.policy {
        STRONG => offset % 2 == 1 && offset / 2 < config.k,
        _ => offset != Offset::MARK,
    }
}

/// For each member of a set in 1 to n, the offsets that it has proposed in the round.
fn members(board: &Board, round: u64, seats: u64) -> Vec<Vec<u64>> {
    let proposed = |q: u64| {
        let own = board.held().iter().filter_map(Tuple::as_proposal);
        let own = own.filter(|(r, seat, w)| (*r, *seat) == (round, q) && offered(&board.config, *w));
        own.map(|(_, _, w)| w).collect()
    };
    (1..=board.config.n).filter(|q| seats >> (q - 1) & 1 == 1).map(proposed).collect()
}

/// How often each cause came.
#[derive(Default)]
pub struct Denials {
    came: BTreeMap<(u64, Cause), usize>,
    /// Under policy 4, and under policy 5.
    pub lists: Lists,
    pub announced: Lists,
}

impl Denials {
    /// Holds the answer to a call on this board against its cause, and counts it.
    pub fn note(&mut self, before: &Board, call: &Call, answer: &Answer) {
        let policy = before.config.policy;
        match policy {
            LIST => return self.lists.note(before, call, answer),
            WAIT_FREE => return self.announced.note(before, call, answer),
            _ => {}
        }
        let denial = match answer.kind {
            AnswerKind::Refused(refusal) if [7, 12, 13].contains(&refusal.number()) => Some(refusal.number()),
            // 8 comes behind these; what is refused before them is not judged.
            AnswerKind::Refused(refusal) if refusal.number() != 8 => return,
            _ => None,
        };
        if policy < DEFAULT {
            assert!(matches!(denial, None | Some(7)), "{call:?} under policy {policy}");
            return;
        }
        let cause = Cause::of(before, call);
        assert_eq!(denial, cause.map(Cause::number), "{cause:?}: {call:?} on {before:?}");
        if let Some(cause) = cause {
            *self.came.entry((policy, cause)).or_default() += 1;
        }
    }

    /// Prints what came under policies 2 to 5.
    pub fn print(&self) {
        for policy in [DEFAULT, STRONG] {
            for number in [12, 13, 7] {
                let came =
                    self.came.iter().filter(|((p, cause), _)| (*p, cause.number()) == (policy, number));
                let came: Vec<String> =
                    came.map(|((_, cause), often)| format!("{cause:?} {often}")).collect();
                if !came.is_empty() {
                    println!("         refused {number} under policy {policy}: {}", came.join(", "));
                }
            }
        }
        self.lists.print(LIST);
        self.announced.print(WAIT_FREE);
    }

    /// Each of these causes came so often at least under this policy.
    pub fn assert_each(&self, policy: u64, causes: &[Cause], least: usize) {
        for cause in causes {
            let often = self.came.get(&(policy, *cause)).copied().unwrap_or(0);
            assert!(often >= least, "{cause:?} came {often} times under policy {policy}");
        }
    }
}
