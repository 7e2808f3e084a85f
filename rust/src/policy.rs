//! The six policies (01, "Policies", and 02, 2.1 to 2.3, 2.6 and 2.7), over the
//! set-up and the tuples held, oldest first. Those handed to `check` are a
//! well-formed board's, and the call is sound and of a seat from 1 to n.

use crate::announcements;
use crate::config::{Config, BARE, DEFAULT, LIST, STRONG, WAIT_FREE, WEAK};
use crate::fields::{Field, Kind, Tuple, DECISION, MOST_SEATS};
use crate::list;
use crate::numbers::Offset;
use crate::records::{Call, Code};
use crate::refusal::Refusal;

/// Rounds are 0 to this.
pub const LAST_ROUND: u64 = 7;

/// Refused 7, or under policies 2 and 3 in its place 12 or 13, unless the
/// set-up's policy permits the call.
pub(crate) fn check(config: &Config, held: &[Tuple], code: Code, call: &Call) -> Result<(), Refusal> {
    match (config.policy, code) {
        (BARE, _) => Ok(()),
        (WEAK, Code::Cas) if weak_cas(&call.template, &call.entry) => Ok(()),
        (DEFAULT | STRONG, Code::Out) => proposing_out(config, held, call.process.into(), &call.entry),
        (DEFAULT | STRONG | LIST | WAIT_FREE, Code::Rdp) => Ok(()),
        (DEFAULT | STRONG, Code::Cas) => deciding_cas(config, held, &call.template, &call.entry),
        (LIST, Code::Cas) if list::permits(held, call) => Ok(()),
        (WAIT_FREE, Code::Out) if announcements::permits_out(held, call) => Ok(()),
        (WAIT_FREE, Code::Inp) if announcements::permits_inp(call) => Ok(()),
        (WAIT_FREE, Code::Cas) if announcements::permits_cas(config, held, call) => Ok(()),
        _ => Err(Refusal::Denied),
    }
}

/// Fig. 3: (word 2, count r, open offset) and (word 2, the same r, offset v),
/// v not the mark.
fn weak_cas(template: &Tuple, entry: &Tuple) -> bool {
    let [_, round, offset] = entry.used() else {
        return false;
    };
    let (Some(round), Some(offset)) = (round.value_of(Kind::Count), offset.value_of(Kind::Offset)) else {
        return false;
    };
    let word = Field::given(Kind::Word, DECISION);
    let named = Tuple::of(&[word, Field::given(Kind::Count, round), Field::open(Kind::Offset)]);
    entry.fields[0] == word && *template == named && round <= LAST_ROUND && offset != Offset::MARK
}

/// Fig. 5, out: an offset that may be proposed, else 7, where the calling seat
/// has no other, whatever it be, in the round, else 12.
fn proposing_out(config: &Config, held: &[Tuple], process: u64, entry: &Tuple) -> Result<(), Refusal> {
    let (round, seat, offset) = entry.as_proposal().ok_or(Refusal::Denied)?;
    if round > LAST_ROUND || seat != process || !config.may_propose(offset) {
        return Err(Refusal::Denied);
    }
    let again = held.iter().filter_map(Tuple::as_proposal).any(|(r, q, _)| (r, q) == (round, seat));
    if again {
        return Err(Refusal::Second);
    }
    Ok(())
}

/// Fig. 5, cas: a decision of what may be decided, with a set in 1 to n, else
/// 7, that bears it out, else 13.
fn deciding_cas(config: &Config, held: &[Tuple], template: &Tuple, entry: &Tuple) -> Result<(), Refusal> {
    let (round, offset, seats) = entry.as_decision().ok_or(Refusal::Denied)?;
    if *template != Tuple::decision_template(round) || round > LAST_ROUND {
        return Err(Refusal::Denied);
    }
    if seats >> config.n != 0 || !config.may_decide(offset) {
        return Err(Refusal::Denied);
    }
    if !bears(config, held, round, offset, seats) {
        return Err(Refusal::Unborne);
    }
    Ok(())
}

/// Whether this set of seats bears the offset in the round: at least t + 1
/// seats that have each proposed it; for the mark at least n - t seats that
/// have each proposed, and no offset proposed by more than t of them.
fn bears(config: &Config, held: &[Tuple], round: u64, offset: u64, seats: u64) -> bool {
    let Config { n, t, .. } = *config;
    let proposals = Proposals::of(config, held, round);
    let size = u64::from(seats.count_ones());
    if offset == Offset::MARK {
        size >= n - t
            && seats & !proposals.seats() == 0
            && proposals.offsets().all(|w| u64::from((seats & proposals.seats_of(w)).count_ones()) <= t)
    } else {
        size > t && seats & !proposals.seats_of(offset) == 0
    }
}

/// What seats have proposed in one round: seat and offset. A tuple
/// with what may not be proposed is none.
struct Proposals(Vec<(u64, u64)>);

impl Proposals {
    fn of(config: &Config, held: &[Tuple], round: u64) -> Proposals {
        let proposal = |tuple: &Tuple| match tuple.as_proposal() {
            Some((r, seat, offset)) if r == round && config.may_propose(offset) => Some((seat, offset)),
            _ => None,
        };
        Proposals(held.iter().filter_map(proposal).collect())
    }

    /// The offsets proposed, perhaps more than once.
    fn offsets(&self) -> impl Iterator<Item = u64> + '_ {
        self.0.iter().map(|(_, offset)| *offset)
    }

    /// The set of seats that have proposed.
    fn seats(&self) -> u64 {
        set(self.0.iter().map(|(seat, _)| *seat))
    }

    /// The set of seats that have proposed this offset.
    fn seats_of(&self, offset: u64) -> u64 {
        set(self.0.iter().filter(|(_, w)| *w == offset).map(|(seat, _)| *seat))
    }
}

/// The set of these seats; numbers that are no seat's are left out.
fn set(seats: impl Iterator<Item = u64>) -> u64 {
    seats.filter(|seat| (1..=MOST_SEATS).contains(seat)).fold(0, |set, seat| set | 1 << (seat - 1))
}

#[cfg(test)]
mod tests {
    use super::*;
    use crate::board::making::with as filled;
    use crate::board::{Answer, Board};
    use crate::config::making;
    use crate::fields::PROPOSE;

    const DENIED: Result<Answer, Refusal> = Err(Refusal::Denied);
    const SECOND: Result<Answer, Refusal> = Err(Refusal::Second);
    const UNBORNE: Result<Answer, Refusal> = Err(Refusal::Unborne);
    const UNSOUND: Result<Answer, Refusal> = Err(Refusal::Unsound);

    fn board(n: u64, t: u64, policy: u64) -> Board {
        Board::fresh(making::config(n, t, policy)).unwrap()
    }

    /// An empty board under policy 3.
    fn strong(n: u64, t: u64, k: u64) -> Board {
        Board::fresh(making::strong(n, t, k)).unwrap()
    }

    /// A board under policy 2 with these tuples, as if handed in.
    fn with(n: u64, t: u64, tuples: &[Tuple]) -> Board {
        filled(making::config(n, t, DEFAULT), tuples)
    }

    /// One under policy 3.
    fn strong_with(n: u64, t: u64, k: u64, tuples: &[Tuple]) -> Board {
        filled(making::strong(n, t, k), tuples)
    }

    fn propose(process: u32, round: u64, seat: u64, offset: u64) -> Call {
        Call::out(process, Tuple::proposal(round, seat, offset))
    }

    fn cas(round: u64, offset: u64, seats: u64) -> Call {
        Call::cas(1, Tuple::decision_template(round), Tuple::decision(round, offset, seats))
    }

    #[test]
    fn weak() {
        let template = |round| {
            Tuple::of(&[
                Field::given(Kind::Word, 2),
                Field::given(Kind::Count, round),
                Field::open(Kind::Offset),
            ])
        };
        let entry = |round, offset| {
            Tuple::of(&[
                Field::given(Kind::Word, 2),
                Field::given(Kind::Count, round),
                Field::given(Kind::Offset, offset),
            ])
        };
        let mut board = board(4, 1, 1);
        let mut call = |call: Call| board.call(&call);
        assert_eq!(call(Call::cas(1, template(7), entry(7, 0))), DENIED);
        assert_eq!(call(Call::cas(1, template(7), entry(7, 1))), Ok(Answer::INSERTED));
        assert_eq!(call(Call::cas(2, template(7), entry(7, 5))), Ok(Answer::held(entry(7, 1))));
        assert_eq!(call(Call::cas(2, template(7), entry(7, 0))), DENIED);
        assert_eq!(call(Call::cas(2, template(0), entry(0, 5))), Ok(Answer::INSERTED));
        assert_eq!(call(Call::cas(1, template(8), entry(8, 1))), DENIED);
        assert_eq!(call(Call::cas(1, template(1), entry(2, 1))), DENIED);
        assert_eq!(call(Call::cas(1, entry(1, 1), entry(1, 1))), DENIED);
        assert_eq!(call(Call::out(1, entry(1, 1))), DENIED);
        assert_eq!(call(Call::rdp(1, template(7))), DENIED);
        assert_eq!(call(Call::inp(1, template(7))), DENIED);
        for place in 0..3 {
            let mut any = template(1);
            any.fields[place] = Field { state: 1, value: 0, ..any.fields[place] };
            assert_eq!(call(Call::cas(1, any, entry(1, 1))), DENIED);
        }
        let mut propose = entry(1, 1);
        propose.fields[0].value = PROPOSE;
        assert_eq!(call(Call::cas(1, template(1), propose)), DENIED);
        assert_eq!(call(cas(1, 1, 3)), DENIED);
    }

    #[test]
    fn under_the_other_policies_nothing_is_second_or_unborne() {
        let proposals = [Tuple::proposal(0, 1, 9), Tuple::proposal(0, 2, 9)];
        let answer = |policy, call| filled(making::config(4, 1, policy), &proposals).call(&call);
        let second = propose(1, 0, 1, 9);
        assert_eq!(answer(BARE, second), Ok(Answer::DONE));
        assert_eq!(answer(WEAK, second), DENIED);
        assert_eq!(answer(LIST, second), DENIED);
        assert_eq!(answer(WAIT_FREE, second), DENIED);
        for seats in [0, 0b0001, 0b0011, 0b0111, 0b1_0011] {
            for offset in [0, 7, 9] {
                assert_eq!(answer(BARE, cas(0, offset, seats)), Ok(Answer::INSERTED));
                assert_eq!(answer(WEAK, cas(0, offset, seats)), DENIED);
                assert_eq!(answer(LIST, cas(0, offset, seats)), DENIED);
                assert_eq!(answer(WAIT_FREE, cas(0, offset, seats)), DENIED);
            }
        }
    }

    #[test]
    fn default_reading() {
        let mut board = board(4, 1, 2);
        assert_eq!(board.call(&Call::rdp(1, Tuple::of(&[Field::any(Kind::Seats)]))), Ok(Answer::NONE));
        assert_eq!(board.call(&Call::inp(1, Tuple::decision_template(0))), DENIED);
    }

    #[test]
    fn default_proposals() {
        let mut board = board(4, 1, 2);
        assert_eq!(board.call(&propose(1, 8, 1, 3)), DENIED);
        assert_eq!(board.call(&propose(1, 7, 2, 3)), DENIED);
        assert_eq!(board.call(&propose(1, 7, 1, 0)), DENIED);
        assert_eq!(board.call(&propose(1, 7, 1, 1)), Ok(Answer::DONE), "0 is not the mark");
        for offset in [1, 2, 3, 200_001] {
            assert_eq!(board.call(&propose(1, 7, 1, offset)), SECOND, "{offset}");
        }
        // A second one that could not be the first either is denied for what it is.
        assert_eq!(board.call(&propose(1, 7, 1, 0)), DENIED);
        assert_eq!(board.call(&propose(2, 7, 1, 1)), DENIED);
        assert_eq!(board.call(&propose(2, 7, 1, 0)), DENIED);
        assert_eq!(board.call(&propose(1, 6, 1, 3)), Ok(Answer::DONE));
        assert_eq!(board.call(&propose(2, 7, 2, 3)), Ok(Answer::DONE));
        assert_eq!(board.call(&propose(1, 7, 2, 3)), DENIED);
        for round in [5, 7] {
            let mut longer = Tuple::proposal(round, 1, 3);
            longer.fields[4] = Field::given(Kind::Word, 0);
            longer.count = 5;
            assert_eq!(board.call(&Call::out(1, longer)), DENIED);
        }
        let mut worded = Tuple::proposal(7, 1, 1);
        worded.fields[0].value = DECISION;
        assert_eq!(board.call(&Call::out(1, worded)), DENIED);
        // There is no round 8, and a mark on a board handed in is refused with it.
        let mut board = with(4, 1, &[Tuple::proposal(8, 1, 3), Tuple::proposal(8, 1, 0)]);
        assert_eq!(board.call(&propose(1, 8, 1, 3)), DENIED);
        assert_eq!(board.call(&propose(1, 1, 1, 3)), Ok(Answer::DONE));
        let mut board = with(4, 1, &[Tuple::proposal(0, 1, 0)]);
        assert_eq!(board.call(&propose(1, 0, 1, 3)), UNSOUND);
        assert_eq!(board.call(&propose(1, 1, 1, 3)), UNSOUND);
    }

    #[test]
    fn only_its_own_round_and_seat_stand_in_the_way() {
        let mut tuples = [Tuple::proposal(0, 1, 3); 6];
        tuples[0].fields[0].value = DECISION;
        tuples[1].fields[1].value = 1;
        tuples[2].fields[2].value = 2;
        tuples[3].fields[3] = Field::given(Kind::Count, 3);
        tuples[4].fields[4] = Field::given(Kind::Word, 0);
        tuples[4].count = 5;
        tuples[5] = Tuple::of(&tuples[5].fields[..3]);
        let mut board = with(4, 1, &tuples);
        assert_eq!(board.call(&propose(1, 0, 1, 3)), Ok(Answer::DONE));
        assert_eq!(board.call(&propose(1, 0, 1, 3)), SECOND);
        assert_eq!(board.call(&propose(1, 1, 1, 3)), SECOND);
        assert_eq!(board.call(&propose(2, 0, 2, 3)), SECOND);
    }

    #[test]
    fn default_decisions() {
        let proposals = [(1, 0x50), (2, 0x51), (3, 0x50), (4, 7)].map(|(q, w)| Tuple::proposal(0, q, w));
        let fresh = with(4, 1, &proposals);
        let answer = |call: Call| fresh.clone().call(&call);
        assert_eq!(answer(cas(0, 0x50, 0b0101)), Ok(Answer::INSERTED));
        for seats in [0, 0b0001, 0b0111, 0b0010] {
            assert_eq!(answer(cas(0, 0x50, seats)), UNBORNE, "{seats}");
            assert_eq!(answer(cas(8, 0x50, seats)), DENIED, "{seats}");
        }
        assert_eq!(answer(cas(0, 0x50, 0b1_0101)), DENIED, "5 is above n");
        assert_eq!(answer(cas(0, 0x51, 0b0010)), UNBORNE);
        assert_eq!(answer(cas(1, 0x50, 0b0101)), UNBORNE);
        assert_eq!(answer(cas(8, 0x50, 0b0101)), DENIED);
        // The mark: n - t seats, none of whose offsets has more than t of them.
        assert_eq!(answer(cas(0, 0, 0b1011)), Ok(Answer::INSERTED));
        for seats in [0, 0b0011, 0b0111, 0b1111] {
            assert_eq!(answer(cas(0, 0, seats)), UNBORNE, "{seats}");
            assert_eq!(answer(cas(8, 0, seats)), DENIED, "{seats}");
        }
        assert_eq!(answer(cas(0, 0, 0b1_1011)), DENIED, "5 is above n");
        assert_eq!(answer(cas(1, 0, 0b1011)), UNBORNE);
        // The template must be exactly the one named, whether the set bears the offset or not.
        for seats in [0b0101, 0b0001] {
            for place in 0..4 {
                for state in 0..=2 {
                    let mut call = cas(0, 0x50, seats);
                    if call.template.fields[place].state != state {
                        call.template.fields[place] =
                            Field { state, value: 0, ..call.template.fields[place] };
                        assert_eq!(answer(call), DENIED);
                    }
                }
            }
            for round in [1, 8] {
                let mut other = cas(0, 0x50, seats);
                other.template = Tuple::decision_template(round);
                assert_eq!(answer(other), DENIED);
            }
        }
    }

    #[test]
    fn why_a_set_does_not_bear_its_offset() {
        // Of seven seats, two of which may stray, the last proposes nothing.
        let proposals = [9, 9, 9, 7, 7, 5].into_iter().zip(1..).map(|(w, q)| Tuple::proposal(0, q, w));
        let fresh = with(7, 2, &proposals.collect::<Vec<_>>());
        let answer = |call: Call| fresh.clone().call(&call);
        let rows = [
            (9, 0, "no member"),
            (9, 0b000_0011, "two members"),
            (9, 0b000_1111, "4 has proposed 7"),
            (9, 0b100_0111, "7 has proposed nothing"),
            (9, 0b111_1111, "4 to 7 have not proposed it"),
            (7, 0b001_1000, "two members, all that have proposed it"),
            (7, 0b011_1000, "6 has proposed 5"),
            (8, 0b000_0111, "nobody has proposed it"),
            (0, 0, "no member, for the mark"),
            (0, 0b011_1001, "four members, for the mark"),
            (0, 0b111_1001, "7 has not proposed"),
            (0, 0b001_1111, "1 to 3 have proposed 9"),
            (0, 0b111_1111, "both"),
        ];
        for (offset, seats, why) in rows {
            assert_eq!(answer(cas(0, offset, seats)), UNBORNE, "{why}");
            // With a member above n, in a round that is none, or in two rounds it is not the set alone.
            assert_eq!(answer(cas(0, offset, seats | 1 << 7)), DENIED, "{why}");
            assert_eq!(answer(cas(0, offset, seats | 1 << 30)), DENIED, "{why}");
            assert_eq!(answer(cas(8, offset, seats)), DENIED, "{why}");
            let two = Call { template: Tuple::decision_template(1), ..cas(0, offset, seats) };
            assert_eq!(answer(two), DENIED, "{why}");
        }
        for (offset, seats) in [(9, 0b000_0111), (0, 0b011_1011), (0, 0b011_1110)] {
            assert_eq!(answer(cas(0, offset, seats)), Ok(Answer::INSERTED));
        }
    }

    #[test]
    fn decisions_of_thirty_one_seats() {
        // Seats 1 to 10 have proposed 9, seats 11 to 20 7, and seats 21 to 31 5.
        let offset = |seat: u64| [9, 7, 5][((seat - 1) / 10).min(2) as usize];
        let proposals: Vec<Tuple> = (1..=31).map(|seat| Tuple::proposal(0, seat, offset(seat))).collect();
        let answer = |offset, seats| with(31, 10, &proposals).call(&cas(0, offset, seats));
        assert_eq!(answer(5, 0x7FF0_0000), Ok(Answer::INSERTED));
        assert_eq!(answer(5, 0x7FE0_0000), UNBORNE, "ten members");
        assert_eq!(answer(5, 0x7FF8_0000), UNBORNE, "20 has proposed 7");
        assert_eq!(answer(9, 0x3FF), UNBORNE, "ten members, all that have proposed it");
        // The mark: 21 seats, of which no offset has more than ten.
        assert_eq!(answer(0, 0x400F_FFFF), Ok(Answer::INSERTED));
        assert_eq!(answer(0, 0x7FE0_07FF), Ok(Answer::INSERTED));
        assert_eq!(answer(0, 0xF_FFFF), UNBORNE, "twenty members");
        assert_eq!(answer(0, 0x7FFF_FFFF), UNBORNE, "21 to 31 have proposed 5");
        assert_eq!(answer(0, 1 << 31 | 0x400F_FFFF), Err(Refusal::Value), "there is no seat 32");
        let thirty = with(30, 9, &proposals[..30]).call(&cas(0, 5, 0x7FF0_0000));
        assert_eq!(thirty, DENIED, "31 is above n");
    }

    #[test]
    fn the_policy_comes_before_the_match() {
        let tuples = [1, 3].map(|q| Tuple::proposal(0, q, 9));
        let mut board = with(4, 1, &tuples);
        assert_eq!(board.call(&cas(0, 9, 0b0101)), Ok(Answer::INSERTED));
        assert_eq!(board.call(&cas(0, 9, 0b0101)), Ok(Answer::held(Tuple::decision(0, 9, 5))));
        assert_eq!(board.call(&cas(0, 9, 0b0001)), UNBORNE);
        assert_eq!(board.call(&cas(0, 9, 0b1_0101)), DENIED);
        assert_eq!(board.call(&propose(1, 0, 1, 9)), SECOND);
    }

    #[test]
    fn proposals_that_no_run_makes() {
        // Those of seats that are none, and of a round that is none, do no harm, whatever they are and how often.
        let strangers = [0, 5, 31, 4_294_967_295, (1 << 32) + 4].map(|q| Tuple::proposal(0, q, 7));
        let late = [(8, 1), (8, 2), (8, 3), (8, 4), (1 << 32, 4)].map(|(r, q)| Tuple::proposal(r, q, 7));
        let mut tuples = [strangers, late, strangers, late].concat();
        tuples.extend([(1, 9), (2, 9), (3, 7), (4, 5)].map(|(q, w)| Tuple::proposal(0, q, w)));
        let answer = |tuples: &[Tuple], call: Call| with(4, 1, tuples).call(&call);
        assert_eq!(answer(&tuples, cas(0, 9, 0b0011)), Ok(Answer::INSERTED));
        assert_eq!(answer(&tuples, cas(0, 7, 0b0100)), UNBORNE);
        assert_eq!(answer(&tuples, cas(0, 7, 0b1_0100)), DENIED, "5 is above n");
        assert_eq!(answer(&tuples, cas(0, 0, 0b1110)), Ok(Answer::INSERTED));
        assert_eq!(answer(&tuples, cas(0, 0, 0b0111)), UNBORNE, "1 and 2 have proposed 9");
        assert_eq!(answer(&tuples, propose(1, 0, 1, 9)), SECOND);
        // A seat's second one, equal or not, and a mark do: the board is refused.
        for (seat, offset) in [(1, 9), (1, 7), (4, 7), (4, 0)] {
            let second = [&tuples[..], &[Tuple::proposal(0, seat, offset)]].concat();
            for call in [cas(0, 9, 0b0011), cas(0, 0, 0b1110), propose(1, 0, 1, 9), propose(1, 1, 1, 9)] {
                assert_eq!(answer(&second, call), UNSOUND, "{seat} {offset}");
            }
        }
    }

    #[test]
    fn without_strays_the_mark_is_never_decided() {
        for seats in 0..=0b1111 {
            let tuples = [1, 2, 3, 4].map(|q| Tuple::proposal(0, q, q));
            assert_eq!(with(4, 0, &tuples).call(&cas(0, 0, seats)), UNBORNE);
            let borne = if seats == 1 { Ok(Answer::INSERTED) } else { UNBORNE };
            assert_eq!(with(4, 0, &tuples).call(&cas(0, 1, seats)), borne);
        }
    }

    #[test]
    fn strong_reading() {
        let mut board = strong(4, 1, 2);
        assert_eq!(board.call(&Call::rdp(1, Tuple::of(&[Field::any(Kind::Seats)]))), Ok(Answer::NONE));
        assert_eq!(board.call(&Call::inp(1, Tuple::decision_template(0))), DENIED);
    }

    #[test]
    fn strong_proposals() {
        let mut board = strong(5, 1, 3);
        // The mark, -1, -2, 3, 100,000; then another's, and round 8.
        for offset in [0, 2, 4, 7, 200_001] {
            assert_eq!(board.call(&propose(1, 7, 1, offset)), DENIED, "{offset}");
        }
        assert_eq!(board.call(&propose(1, 7, 2, 3)), DENIED);
        assert_eq!(board.call(&propose(1, 8, 1, 3)), DENIED);
        for (seat, offset) in [(1, 1), (2, 3), (3, 5)] {
            assert_eq!(board.call(&propose(seat, 7, seat.into(), offset)), Ok(Answer::DONE), "{offset}");
            for again in 0..8 {
                let expected = if [1, 3, 5].contains(&again) { SECOND } else { DENIED };
                assert_eq!(board.call(&propose(seat, 7, seat.into(), again)), expected, "{again}");
                assert_eq!(board.call(&propose(seat + 1, 7, seat.into(), again)), DENIED, "{again}");
            }
        }
        // Where what is no choice, or the mark, stands on a board handed in, it is refused.
        for offset in [0, 2, 7, 200_001] {
            let mut board = strong_with(5, 1, 3, &[Tuple::proposal(0, 1, offset)]);
            for call in [propose(1, 0, 1, 3), propose(1, 0, 1, 0), propose(1, 1, 1, 3)] {
                assert_eq!(board.call(&call), UNSOUND, "{offset}");
            }
        }
    }

    #[test]
    fn strong_decisions() {
        let proposals = [1, 3, 1, 5, 1].into_iter().zip(1..).map(|(w, q)| Tuple::proposal(0, q, w));
        let fresh = strong_with(5, 1, 3, &proposals.collect::<Vec<_>>());
        for seats in 0..1 << 6 {
            for offset in 0..9 {
                let answer = fresh.clone().call(&cas(0, offset, seats));
                let borne = offset == 1 && seats & !0b10101 == 0 && seats.count_ones() >= 2;
                let expected = match offset {
                    1 | 3 | 5 if seats >> 5 != 0 => DENIED,
                    1 | 3 | 5 if borne => Ok(Answer::INSERTED),
                    1 | 3 | 5 => UNBORNE,
                    _ => DENIED,
                };
                assert_eq!(answer, expected, "{offset} {seats}");
            }
        }
        let answer = |call: Call| fresh.clone().call(&call);
        assert_eq!(answer(cas(1, 1, 0b00101)), UNBORNE);
        for seats in [0b00101, 0b00001] {
            assert_eq!(answer(cas(8, 1, seats)), DENIED);
            let mut other = cas(0, 1, seats);
            other.template = Tuple::decision_template(1);
            assert_eq!(answer(other), DENIED);
        }
        let mut board = fresh.clone();
        assert_eq!(board.call(&cas(0, 1, 0b00101)), Ok(Answer::INSERTED));
        assert_eq!(board.call(&cas(0, 1, 0b10100)), Ok(Answer::held(Tuple::decision(0, 1, 5))));
        assert_eq!(board.call(&cas(0, 5, 0b01000)), UNBORNE);
        assert_eq!(board.call(&cas(0, 0, 0b11111)), DENIED);
        assert_eq!(board.call(&cas(0, 7, 0b01000)), DENIED);
    }

    #[test]
    fn strong_proposals_that_no_run_makes() {
        // Enough seats for each of the mark, -1 and 2, which are no choices among two, where there is no such round; and for 1.
        let late = [0, 2, 5].into_iter().flat_map(|w| (1..=4).map(move |q| Tuple::proposal(8, q, w)));
        let tuples: Vec<Tuple> = late.chain((1..=4).map(|q| Tuple::proposal(0, q, 3))).collect();
        for seats in 0..=0b1111u64 {
            for offset in 0..8 {
                let answer = strong_with(4, 1, 2, &tuples).call(&cas(0, offset, seats));
                let expected = match offset {
                    3 if seats.count_ones() >= 2 => Ok(Answer::INSERTED),
                    1 | 3 => UNBORNE,
                    _ => DENIED,
                };
                assert_eq!(answer, expected, "{offset} {seats}");
            }
        }
        // In a round that is one, each of them makes the board ill formed, and so does a second choice.
        let chosen = [(1, 1), (2, 1), (3, 3)].map(|(q, w)| Tuple::proposal(0, q, w));
        assert_eq!(strong_with(4, 1, 2, &chosen).call(&cas(0, 1, 0b0011)), Ok(Answer::INSERTED));
        for (seat, offset) in [(4, 0), (4, 2), (4, 5), (1, 1), (1, 3), (3, 1)] {
            let tuples = [&chosen[..], &[Tuple::proposal(0, seat, offset)]].concat();
            assert_eq!(strong_with(4, 1, 2, &tuples).call(&cas(0, 1, 0b0011)), UNSOUND, "{seat} {offset}");
        }
    }
}
