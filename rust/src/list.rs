//! Policy 4: a list of shifts that all seats share (02, 2.6). Policy 5 has the
//! same list, and asks otherwise who may list what (`announcements`).
//!
//! A list tuple stands on the board as it is, whatever its position, seat and
//! shift: also one that no run makes lists its seat and serial, and lets the
//! next position be filled.

use crate::fields::Tuple;
use crate::numbers::Offset;
use crate::records::Call;

/// Positions are 1 to this.
pub const LAST_POSITION: u64 = 112;

/// Whether policy 4 permits a cas: an entry that fits, of the caller's own
/// number.
pub(crate) fn permits(held: &[Tuple], call: &Call) -> bool {
    fitting_entry(held, call).is_some_and(|(_, seat, _, _)| seat == u64::from(call.process))
}

/// Position, seat, serial and shift of a cas's entry, if it fits the list: at
/// the position that the template asks for, the first or one behind another,
/// with a shift other than the mark, and not listed yet.
pub(crate) fn fitting_entry(held: &[Tuple], call: &Call) -> Option<(u64, u64, u64, u64)> {
    let (position, seat, serial, shift) = call.entry.as_listed()?;
    let fits = call.template == Tuple::listed_template(position)
        && (1..=LAST_POSITION).contains(&position)
        && shift != Offset::MARK
        && !is_listed(held, seat, serial)
        && (position == 1 || is_filled(held, position - 1));
    fits.then_some((position, seat, serial, shift))
}

/// Whether this seat and serial are listed, at any position with any shift.
pub(crate) fn is_listed(held: &[Tuple], seat: u64, serial: u64) -> bool {
    list(held).any(|(_, q, s, _)| (q, s) == (seat, serial))
}

/// Whether a list tuple of this position is on the board.
fn is_filled(held: &[Tuple], position: u64) -> bool {
    list(held).any(|(p, _, _, _)| p == position)
}

/// Position, seat, serial and shift of the list tuples, oldest first.
fn list(held: &[Tuple]) -> impl Iterator<Item = (u64, u64, u64, u64)> + '_ {
    held.iter().filter_map(Tuple::as_listed)
}

#[cfg(test)]
mod tests {
    use super::*;
    use crate::board::{Answer, AnswerKind, Board, MOST_TUPLES};
    use crate::config::{Config, LIST};
    use crate::fields::{Field, Kind, LISTED};
    use crate::refusal::Refusal;

    const DENIED: Result<Answer, Refusal> = Err(Refusal::Denied);
    const INSERTED: Result<Answer, Refusal> = Ok(Answer::INSERTED);

    /// A board of four seats under policy 4 with these tuples, as if handed in.
    fn with(tuples: &[Tuple]) -> Board {
        let mut board = Board::fresh(Config { n: 4, t: 1, policy: LIST, k: 0 }).unwrap();
        board.count = tuples.len();
        board.tuples[..tuples.len()].copy_from_slice(tuples);
        board
    }

    /// The seat's cas of its own shift at a position.
    fn cas(position: u64, seat: u32, serial: u64, shift: u64) -> Call {
        let entry = Tuple::listed(position, seat.into(), serial, shift);
        Call::cas(seat, Tuple::listed_template(position), entry)
    }

    #[test]
    fn a_list_grows_by_one_position_at_a_time() {
        let mut board = with(&[]);
        assert_eq!(board.call(&cas(2, 1, 0, 3)), DENIED, "position 1 is free to begin");
        assert_eq!(board.call(&cas(1, 1, 0, 3)), INSERTED);
        assert_eq!(board.call(&cas(3, 1, 1, 3)), DENIED);
        assert_eq!(board.call(&cas(2, 4, 0, 2)), INSERTED, "a serial is its seat's alone");
        assert_eq!(board.call(&cas(3, 1, u64::MAX, 1)), INSERTED, "0 is not the mark");
        assert_eq!(board.call(&cas(4, 1, 1, 200_001)), INSERTED, "serials need no order");
        assert_eq!(board.call(&cas(5, 1, 1 << 32, 5)), INSERTED, "a serial is not its low bits");
        assert_eq!(board.call(&cas((1 << 32) + 6, 1, 2, 5)), DENIED, "nor is a position");
        let long = [(3, 1, u64::MAX, 1), (4, 1, 1, 200_001), (5, 1, 1 << 32, 5)];
        let list = [(1, 1, 0, 3), (2, 4, 0, 2), long[0], long[1], long[2]];
        assert_eq!(board.held(), list.map(|(p, q, s, v)| Tuple::listed(p, q, s, v)));
    }

    #[test]
    fn a_taken_position_is_held_for_what_is_not_listed() {
        let first = Tuple::listed(1, 1, 7, 3);
        let mut board = with(&[first, Tuple::listed(2, 2, 7, 5)]);
        assert_eq!(board.call(&cas(1, 2, 8, 9)), Ok(Answer::held(first)));
        assert_eq!(board.call(&cas(1, 1, 8, 9)), Ok(Answer::held(first)));
        assert_eq!(board.call(&cas(2, 3, 7, 9)), Ok(Answer::held(Tuple::listed(2, 2, 7, 5))));
        // The policy comes before the match: what is listed is denied, at its own position too.
        for position in 1..=4 {
            for shift in [1, 3, 5] {
                assert_eq!(board.call(&cas(position, 1, 7, shift)), DENIED);
                assert_eq!(board.call(&cas(position, 2, 7, shift)), DENIED);
            }
        }
        assert_eq!(board.call(&cas(1, 2, 8, Offset::MARK)), DENIED);
        assert_eq!(board.count, 2);
    }

    #[test]
    fn only_its_own_number_and_no_mark() {
        let board = with(&[Tuple::listed(1, 1, 0, 3)]);
        let answer = |call: Call| board.clone().call(&call);
        for seat in [0, 1, 3, 5, 31, 4_294_967_295, (1 << 32) + 2, u64::MAX] {
            let mut call = cas(2, 2, 9, 3);
            call.entry.fields[2].value = seat;
            assert_eq!(answer(call), DENIED, "{seat}");
        }
        assert_eq!(answer(cas(2, 2, 9, 3)), INSERTED);
        assert_eq!(answer(cas(2, 2, 9, Offset::MARK)), DENIED);
        for process in [0, 5, u32::MAX] {
            assert_eq!(answer(cas(2, process, 9, 3)), Err(Refusal::Seat));
        }
    }

    #[test]
    fn positions_are_1_to_112() {
        let list: Vec<Tuple> = (1..=111).map(|p| Tuple::listed(p, 1 + p % 4, p, 3)).collect();
        let mut board = with(&list);
        for position in [0, 113, 114, 255, 4_294_967_295, (1 << 32) + 112, u64::MAX] {
            assert_eq!(board.call(&cas(position, 1, 0, 3)), DENIED, "{position}");
        }
        assert_eq!(board.call(&cas(112, 1, 0, 3)), INSERTED);
        assert_eq!(board.call(&cas(113, 1, 1, 3)), DENIED, "112 is the last");
        assert_eq!(board.call(&cas(112, 1, 1, 3)), Ok(Answer::held(Tuple::listed(112, 1, 0, 3))));
        assert_eq!(board.count, 112);
    }

    #[test]
    fn the_template_must_be_exactly_the_one_named() {
        let board = with(&[Tuple::listed(1, 1, 0, 3)]);
        let good = cas(2, 2, 0, 3);
        let answer = |call: Call| board.clone().call(&call);
        assert_eq!(answer(good), INSERTED);
        for place in 0..5 {
            for state in 0..=2 {
                // Where the field is given, with the entry's own value too.
                for value in if state == 0 { vec![0, good.entry.fields[place].value] } else { vec![0] } {
                    let mut call = good;
                    call.template.fields[place] = Field { state, value, ..call.template.fields[place] };
                    assert_eq!(answer(call), if call == good { INSERTED } else { DENIED }, "{call:?}");
                }
            }
            let mut call = good;
            let kind = if place == 0 { Kind::Count } else { Kind::Word };
            call.template.fields[place].kind = kind as u32;
            assert_eq!(answer(call), DENIED, "{call:?}");
        }
        for position in [0, 1, 3] {
            let call = Call { template: Tuple::listed_template(position), ..good };
            assert_eq!(answer(call), DENIED, "{position}");
        }
        let fields = good.template.fields;
        assert_eq!(answer(Call { template: Tuple::of(&fields[..4]), ..good }), DENIED);
        let longer = [&fields[..5], &[Field::any(Kind::Word)]].concat();
        assert_eq!(answer(Call { template: Tuple::of(&longer), ..good }), DENIED);
    }

    #[test]
    fn the_entry_must_be_a_list_tuple() {
        let good = cas(1, 2, 0, 3);
        let mut entries = vec![Tuple::of(&good.entry.fields[..4])];
        entries.push(Tuple::of(&[&good.entry.fields[..5], &[Field::given(Kind::Word, 0)]].concat()));
        for (place, kind) in
            [Kind::Count, Kind::Word, Kind::Word, Kind::Seats, Kind::Count].iter().enumerate()
        {
            let mut entry = good.entry;
            entry.fields[place].kind = *kind as u32;
            entries.push(entry);
        }
        for word in [0, 1, 2, 4, 255] {
            let mut entry = good.entry;
            entry.fields[0].value = word;
            entries.push(entry);
        }
        for entry in entries {
            assert_eq!(with(&[]).call(&Call { entry, ..good }), DENIED, "{entry:?}");
        }
        assert_eq!(with(&[]).call(&good), INSERTED);
    }

    #[test]
    fn reading_but_neither_out_nor_inp() {
        let first = Tuple::listed(1, 1, 0, 3);
        let mut board = with(&[first]);
        let any = Field::any(Kind::Count);
        let listed = [Field::given(Kind::Word, LISTED), any, any, any, Field::any(Kind::Offset)];
        for template in [first, Tuple::listed_template(1), Tuple::of(&listed)] {
            assert_eq!(board.call(&Call::rdp(2, template)), Ok(Answer::found(first)));
            assert_eq!(board.call(&Call::inp(2, template)), DENIED);
        }
        for template in [Tuple::listed_template(2), Tuple::of(&[Field::open(Kind::Seats)])] {
            assert_eq!(board.call(&Call::rdp(2, template)), Ok(Answer::NONE));
            assert_eq!(board.call(&Call::inp(2, template)), DENIED);
        }
        for entry in [Tuple::listed(2, 2, 0, 3), Tuple::proposal(0, 2, 3), Tuple::decision(0, 3, 1)] {
            assert_eq!(board.call(&Call::out(2, entry)), DENIED);
        }
        // What policies 1 to 3 permit or deny by a number of their own.
        let decision = Call::cas(2, Tuple::decision_template(0), Tuple::decision(0, 3, 0));
        assert_eq!(board.call(&decision), DENIED);
    }

    #[test]
    fn gaps_stand_as_they_are() {
        let board = with(&[Tuple::listed(1, 1, 0, 3), Tuple::listed(3, 1, 1, 3)]);
        let answer = |position| board.clone().call(&cas(position, 2, 0, 3)).map(|answer| answer.kind);
        let answers = [1, 2, 3, 4, 5].map(answer);
        let (held, inserted) = (Ok(AnswerKind::Held), Ok(AnswerKind::Inserted));
        // Position 3 is taken, but the one before it does not stand.
        assert_eq!(answers, [held, inserted, Err(Refusal::Denied), inserted, Err(Refusal::Denied)]);
    }

    #[test]
    fn tuples_that_no_run_makes() {
        // A mark, a seat above n, a position twice, one seat and serial twice, position 0, two above 112.
        let tuples = [
            Tuple::listed(5, 1, 0, Offset::MARK),
            Tuple::listed(7, 9, 0, 3),
            Tuple::listed(9, 2, 0, 3),
            Tuple::listed(9, 3, 0, 5),
            Tuple::listed(20, 4, 0, 3),
            Tuple::listed(30, 4, 0, 3),
            Tuple::listed(0, 1, 4, 3),
            Tuple::listed(200, 1, 5, 3),
            Tuple::listed(4_294_967_295, 1, 6, 3),
        ];
        let board = with(&tuples);
        let answer = |call: Call| board.clone().call(&call);
        // Each lets the next position be filled.
        for position in [6, 8, 10, 21, 31] {
            assert_eq!(answer(cas(position, 1, 9, 3)), INSERTED, "{position}");
        }
        assert_eq!(answer(cas(1, 1, 9, 3)), INSERTED);
        assert_eq!(answer(cas(201, 1, 9, 3)), DENIED);
        assert_eq!(answer(cas(0, 1, 9, 3)), DENIED);
        // Each lists its seat and serial.
        for (seat, serial) in [(1, 0), (2, 0), (3, 0), (4, 0), (1, 4), (1, 5), (1, 6)] {
            assert_eq!(answer(cas(1, seat, serial, 3)), DENIED, "{seat} {serial}");
        }
        // The mark and the oldest of two are held.
        let mut marked = tuples.to_vec();
        marked.extend([4, 8].map(|position| Tuple::listed(position, 1, 10 + position, 3)));
        for (position, place) in [(5, 0), (9, 2)] {
            assert_eq!(with(&marked).call(&cas(position, 1, 9, 3)), Ok(Answer::held(tuples[place])));
        }
    }

    #[test]
    fn other_tuples_are_no_list_tuples() {
        let listed = Tuple::listed(1, 1, 0, 3);
        let mut others = [listed; 4];
        others[0].fields[0].value = 2;
        others[1].fields[4] = Field::given(Kind::Count, 3);
        others[2] = Tuple::of(&listed.fields[..4]);
        others[3].fields[5] = Field::given(Kind::Word, 0);
        others[3].count = 6;
        assert_eq!(with(&others).call(&cas(2, 2, 0, 3)), DENIED, "nothing stands at position 1");
        assert_eq!(with(&others).call(&cas(1, 1, 0, 3)), INSERTED, "nothing is listed");
    }

    #[test]
    fn announcements_mean_nothing_here() {
        // Each seat's, and seat 1's first again.
        let waiting: Vec<Tuple> = [1, 2, 3, 4, 1].map(|seat| Tuple::announcement(seat, 7, 5)).into();
        let board = with(&waiting);
        let answer = |call: Call| board.clone().call(&call);
        for seat in 1..=4 {
            assert_eq!(answer(cas(1, seat, 0, 3)), INSERTED);
            assert_eq!(answer(cas(1, seat, 7, 3)), INSERTED);
            assert_eq!(answer(Call { process: seat % 4 + 1, ..cas(1, seat, 7, 5) }), DENIED);
            assert_eq!(answer(Call::out(seat, Tuple::announcement(seat.into(), 8, 5))), DENIED);
            assert_eq!(with(&[]).call(&Call::out(seat, Tuple::announcement(seat.into(), 8, 5))), DENIED);
            let mut template = Tuple::announcement(seat.into(), 0, 0);
            assert_eq!(answer(Call::inp(seat, template)), DENIED);
            template.fields[2] = Field::any(Kind::Count);
            template.fields[3] = Field::open(Kind::Offset);
            assert_eq!(answer(Call::inp(seat, template)), DENIED);
            assert_eq!(answer(Call::rdp(1, template)), Ok(Answer::found(waiting[seat as usize - 1])));
        }
    }

    #[test]
    fn a_full_board() {
        let mut tuples = [Tuple::of(&[Field::given(Kind::Count, 1)]); MOST_TUPLES];
        tuples[100] = Tuple::listed(1, 1, 0, 3);
        let mut board = with(&tuples);
        assert_eq!(board.call(&cas(2, 2, 0, 3)), Err(Refusal::Full));
        assert_eq!(board.call(&cas(2, 1, 0, 3)), DENIED, "7 before 8");
        assert_eq!(board.call(&cas(3, 2, 0, 3)), DENIED);
        assert_eq!(board.call(&cas(1, 2, 0, 3)), Ok(Answer::held(tuples[100])));
        assert_eq!(board.call(&cas(2, 5, 0, 3)), Err(Refusal::Seat));
        assert_eq!(board, with(&tuples));
    }
}
