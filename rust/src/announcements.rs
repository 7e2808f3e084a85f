//! Policy 5: the list of policy 4, on which no seat is left waiting (02, 2.7).
//!
//! A seat announces what it wants listed. Each position has a preferred seat,
//! and while the announcement of that one waits, nothing else is listed there,
//! whoever calls.

use crate::config::Config;
use crate::fields::{Field, Kind, Tuple, ANNOUNCED};
use crate::list;
use crate::records::Call;

/// Whether an out is permitted: of an announcement of the caller's own number,
/// while none of its own stands. Its serial may be listed already.
pub(crate) fn permits_out(held: &[Tuple], call: &Call) -> bool {
    let own = u64::from(call.process);
    call.entry.as_announcement().is_some_and(|(seat, _, _)| seat == own) && oldest(held, own).is_none()
}

/// Whether an inp is permitted: with the template (word 4, the caller's own
/// number, count, offset), the last two undefined in either way.
pub(crate) fn permits_inp(call: &Call) -> bool {
    let [word, seat, serial, shift] = call.template.used() else {
        return false;
    };
    *word == Field::given(Kind::Word, ANNOUNCED)
        && *seat == Field::given(Kind::Count, call.process.into())
        && serial.is_undefined(Kind::Count)
        && shift.is_undefined(Kind::Offset)
}

/// Whether a cas is permitted: an entry that fits the list and is what is owed
/// at its position; where nothing is, of the caller's own number.
pub(crate) fn permits_cas(config: &Config, held: &[Tuple], call: &Call) -> bool {
    let Some((position, seat, serial, shift)) = list::fitting_entry(held, call) else {
        return false;
    };
    match owed(config, held, position) {
        Some(owed) => owed == (seat, serial, shift),
        None => seat == u64::from(call.process),
    }
}

/// What is owed at a position: the preferred seat's oldest announcement, if its
/// seat and serial are not listed.
fn owed(config: &Config, held: &[Tuple], position: u64) -> Option<(u64, u64, u64)> {
    let announced = oldest(held, preferred_seat(config, position));
    announced.filter(|(seat, serial, _)| !list::is_listed(held, *seat, *serial))
}

/// The seat that is preferred at a position: the remainder of position by n, and
/// seat n when that is zero.
fn preferred_seat(config: &Config, position: u64) -> u64 {
    match position % config.n {
        0 => config.n,
        seat => seat,
    }
}

/// Seat, serial and shift of a seat's oldest announcement.
fn oldest(held: &[Tuple], seat: u64) -> Option<(u64, u64, u64)> {
    held.iter().filter_map(Tuple::as_announcement).find(|(own, _, _)| *own == seat)
}

#[cfg(test)]
mod tests {
    use super::*;
    use crate::board::{Answer, Board, MOST_TUPLES};
    use crate::config::WAIT_FREE;
    use crate::fields::LISTED;
    use crate::numbers::Offset;
    use crate::refusal::Refusal;

    const DENIED: Result<Answer, Refusal> = Err(Refusal::Denied);
    const INSERTED: Result<Answer, Refusal> = Ok(Answer::INSERTED);

    /// A board of so many seats under policy 5 with these tuples, as if handed in.
    fn of(n: u64, tuples: &[Tuple]) -> Board {
        let config = Config { n, t: (n - 1) / 3, policy: WAIT_FREE, k: 0 };
        let mut board = Board::fresh(config).unwrap();
        board.count = tuples.len();
        board.tuples[..tuples.len()].copy_from_slice(tuples);
        board
    }

    /// A board of four seats.
    fn with(tuples: &[Tuple]) -> Board {
        of(4, tuples)
    }

    fn announced(seat: u64, serial: u64, shift: u64) -> Tuple {
        Tuple::announcement(seat, serial, shift)
    }

    fn out(seat: u32, serial: u64, shift: u64) -> Call {
        Call::out(seat, announced(seat.into(), serial, shift))
    }

    /// The inp of a seat's own announcement.
    fn off(seat: u32) -> Call {
        Call::inp(seat, template(seat.into(), Field::any(Kind::Count), Field::open(Kind::Offset)))
    }

    /// (word 4, count seat, serial, shift).
    fn template(seat: u64, serial: Field, shift: Field) -> Tuple {
        Tuple::of(&[Field::given(Kind::Word, 4), Field::given(Kind::Count, seat), serial, shift])
    }

    /// A caller's cas of that seat's shift at a position.
    fn cas(process: u32, position: u64, seat: u64, serial: u64, shift: u64) -> Call {
        let entry = Tuple::listed(position, seat, serial, shift);
        Call::cas(process, Tuple::listed_template(position), entry)
    }

    #[test]
    fn preferred_seats() {
        let config = |n| Config { n, t: 0, policy: WAIT_FREE, k: 0 };
        let seats = |n: u64| (1..=9).map(|position| preferred_seat(&config(n), position)).collect::<Vec<_>>();
        assert_eq!(seats(1), [1; 9]);
        assert_eq!(seats(2), [1, 2, 1, 2, 1, 2, 1, 2, 1]);
        assert_eq!(seats(4), [1, 2, 3, 4, 1, 2, 3, 4, 1]);
        assert_eq!(seats(31), [1, 2, 3, 4, 5, 6, 7, 8, 9]);
        assert_eq!([30, 31, 32, 111, 112].map(|p| preferred_seat(&config(31), p)), [30, 31, 1, 18, 19]);
        assert_eq!([111, 112].map(|p| preferred_seat(&config(4), p)), [3, 4]);
    }

    #[test]
    fn without_announcements_it_is_policy_4() {
        let mut board = with(&[]);
        assert_eq!(board.call(&cas(1, 2, 1, 0, 3)), DENIED);
        assert_eq!(board.call(&cas(2, 1, 1, 0, 3)), DENIED, "another's");
        assert_eq!(board.call(&cas(2, 1, 2, 0, 3)), INSERTED);
        assert_eq!(board.call(&cas(3, 1, 3, 0, 3)), Ok(Answer::held(Tuple::listed(1, 2, 0, 3))));
        assert_eq!(board.call(&cas(2, 2, 2, 0, 3)), DENIED, "listed already");
        assert_eq!(board.call(&cas(2, 2, 2, 1, Offset::MARK)), DENIED);
        assert_eq!(board.call(&cas(2, 3, 2, 1, 3)), DENIED);
        assert_eq!(board.call(&cas(2, 2, 2, 1, 3)), INSERTED);
        assert_eq!(board.call(&Call::out(2, Tuple::listed(3, 2, 2, 3))), DENIED);
        assert_eq!(board.call(&Call::inp(2, Tuple::listed_template(1))), DENIED);
        assert_eq!(board.call(&Call::rdp(2, Tuple::listed_template(2))).unwrap().tuple, board.tuples[1]);
    }

    #[test]
    fn one_announcement_to_a_seat() {
        let mut board = with(&[]);
        assert_eq!(board.call(&out(1, 5, Offset::MARK)), DENIED);
        assert_eq!(board.call(&Call::out(1, announced(2, 5, 3))), DENIED);
        assert_eq!(board.call(&out(1, 5, 1)), Ok(Answer::DONE), "0 is not the mark");
        // The second one is 7, the same or another.
        for (serial, shift) in [(5, 1), (5, 3), (6, 1), (6, 3), (6, Offset::MARK)] {
            assert_eq!(board.call(&out(1, serial, shift)), DENIED);
        }
        assert_eq!(board.call(&out(4, 5, 1)), Ok(Answer::DONE));
        assert_eq!(board.call(&off(1)), Ok(Answer::found(announced(1, 5, 1))));
        assert_eq!(board.call(&off(1)), Ok(Answer::NONE));
        assert_eq!(board.call(&out(1, 5, 200_001)), Ok(Answer::DONE));
        assert_eq!(board.held(), [announced(4, 5, 1), announced(1, 5, 200_001)]);
        // One with the mark on a board handed in is none, and one of a listed serial is one.
        let mut board = with(&[announced(1, 0, Offset::MARK), Tuple::listed(1, 1, 5, 3)]);
        assert_eq!(board.call(&out(1, 5, 3)), Ok(Answer::DONE));
        assert_eq!(board.call(&out(1, 6, 3)), DENIED);
        // What stands under other numbers is in nobody's way.
        let mut board = with(&[announced(0, 0, 3), announced(2, 0, 3), announced(5, 0, 3)]);
        assert_eq!(board.call(&out(1, 0, 3)), Ok(Answer::DONE));
    }

    #[test]
    fn only_an_announcement_goes_out() {
        let good = announced(2, 0, 3);
        let mut entries = vec![Tuple::of(&good.fields[..3]), Tuple::proposal(0, 2, 3)];
        entries.push(Tuple::of(&[&good.fields[..4], &[Field::given(Kind::Word, 0)]].concat()));
        for (place, kind) in [Kind::Count, Kind::Word, Kind::Offset, Kind::Count].into_iter().enumerate() {
            let mut entry = good;
            entry.fields[place].kind = kind as u32;
            entries.push(entry);
        }
        for word in [0, 1, 2, 3, 5, 255] {
            let mut entry = good;
            entry.fields[0].value = word;
            entries.push(entry);
        }
        for entry in &entries {
            assert_eq!(with(&[]).call(&Call::out(2, *entry)), DENIED, "{entry:?}");
        }
        assert_eq!(with(&[]).call(&Call::out(2, good)), Ok(Answer::DONE));
        // Nor is anything of these, on a board handed in, an announcement.
        for entry in entries {
            assert_eq!(with(&[entry]).call(&Call::out(2, good)), Ok(Answer::DONE), "{entry:?}");
            let own = with(&[Tuple::listed(1, 1, 0, 3), entry]).call(&cas(1, 2, 1, 1, 3));
            assert_eq!(own, INSERTED, "{entry:?}");
        }
    }

    #[test]
    fn only_its_own_is_taken_off() {
        let held =
            [announced(1, 9, 3), announced(2, 0, Offset::MARK), announced(2, 7, 3), announced(5, 7, 3)];
        let answer = |call: Call| with(&held).call(&call);
        let (counts, offsets) = (
            [Field::any(Kind::Count), Field::open(Kind::Count)],
            [Field::any(Kind::Offset), Field::open(Kind::Offset)],
        );
        for (serial, shift) in counts.into_iter().flat_map(|serial| offsets.map(|shift| (serial, shift))) {
            // The oldest that matches, with the mark too.
            assert_eq!(answer(Call::inp(2, template(2, serial, shift))), Ok(Answer::found(held[1])));
            assert_eq!(answer(Call::inp(1, template(1, serial, shift))), Ok(Answer::found(held[0])));
            assert_eq!(answer(Call::inp(3, template(3, serial, shift))), Ok(Answer::NONE));
            for seat in [0, 1, 3, 5] {
                assert_eq!(answer(Call::inp(2, template(seat, serial, shift))), DENIED, "{seat}");
            }
            assert_eq!(answer(Call::inp(5, template(5, serial, shift))), Err(Refusal::Seat));
            let fields = template(2, serial, shift).fields;
            assert_eq!(answer(Call::inp(2, Tuple::of(&fields[..3]))), DENIED);
            assert_eq!(answer(Call::inp(2, Tuple::of(&[&fields[..4], &[serial]].concat()))), DENIED);
            // One field given, undefined or of another kind.
            for (place, field) in [
                (0, Field::any(Kind::Word)),
                (0, Field::given(Kind::Word, LISTED)),
                (0, Field::given(Kind::Count, ANNOUNCED)),
                (1, Field::any(Kind::Count)),
                (1, Field::open(Kind::Count)),
                (1, Field::given(Kind::Word, 2)),
                (2, Field::given(Kind::Count, 7)),
                (2, Field::any(Kind::Word)),
                (2, Field::open(Kind::Offset)),
                (3, Field::given(Kind::Offset, 3)),
                (3, Field::any(Kind::Count)),
                (3, Field::open(Kind::Seats)),
            ] {
                let mut spoilt = template(2, serial, shift);
                spoilt.fields[place] = field;
                assert_eq!(answer(Call::inp(2, spoilt)), DENIED, "{spoilt:?}");
                // Reading is free.
                assert!(answer(Call::rdp(2, spoilt)).is_ok(), "{spoilt:?}");
            }
        }
        let mut board = with(&held);
        assert_eq!(board.call(&off(2)), Ok(Answer::found(held[1])));
        assert_eq!(board.call(&off(2)), Ok(Answer::found(held[2])));
        assert_eq!(board.call(&off(2)), Ok(Answer::NONE));
        assert_eq!(board.held(), [held[0], held[3]]);
    }

    #[test]
    fn what_is_owed_is_listed_by_anybody_and_nothing_else() {
        // Position 2 is behind the list, and seat 2 is preferred there.
        let board = with(&[Tuple::listed(1, 1, 0, 3), announced(2, 7, 5), announced(3, 7, 5)]);
        let answer = |call: Call| board.clone().call(&call);
        for process in 1..=4 {
            assert_eq!(answer(cas(process, 2, 2, 7, 5)), INSERTED, "{process}");
            for (seat, serial, shift) in [(2, 7, 4), (2, 8, 5), (3, 7, 5), (process.into(), 9, 5)] {
                assert_eq!(answer(cas(process, 2, seat, serial, shift)), DENIED, "{process} {seat} {serial}");
            }
            // Seat 3's is for position 3, which is not reached: though it is owed there, it is denied.
            assert_eq!(answer(cas(process, 3, 3, 7, 5)), DENIED);
            assert_eq!(answer(cas(process, 2, 2, 7, Offset::MARK)), DENIED);
        }
        // Once it is listed, at any position, nothing is owed to the seat.
        for (position, seat) in [(2, 2), (6, 2), (6, 1)] {
            let list = (1..position).map(|p| Tuple::listed(p, if p == 3 { 2 } else { 1 }, p + 4, 3));
            let held: Vec<Tuple> = [announced(2, 7, 5)].into_iter().chain(list).collect();
            // Position 3, where there is one, lists it with another shift.
            let owed = position == 2;
            let own = with(&held).call(&cas(seat, position, seat.into(), 99, 5));
            assert_eq!(own, if owed { DENIED } else { INSERTED }, "{position} {seat}");
            let waiting = with(&held).call(&cas(4, position, 2, 7, 5));
            assert_eq!(waiting, if owed { INSERTED } else { DENIED }, "{position}");
        }
    }

    #[test]
    fn its_turn_comes_within_n_positions() {
        // Seat 3 waits from the start on; the others list their own until position 3.
        let mut board = with(&[announced(3, 0, 9)]);
        for (process, position) in [(1, 1), (4, 2)] {
            assert_eq!(board.call(&cas(process, position, 3, 0, 9)), DENIED, "not its turn");
            assert_eq!(board.call(&cas(process, position, process.into(), 0, 5)), INSERTED);
        }
        assert_eq!(board.call(&cas(1, 3, 1, 1, 5)), DENIED);
        assert_eq!(board.call(&cas(3, 3, 3, 1, 9)), DENIED, "its own other serial");
        assert_eq!(board.call(&cas(3, 3, 3, 0, 5)), DENIED, "its own other shift");
        assert_eq!(board.call(&cas(1, 3, 3, 0, 9)), INSERTED);
        // It stands on, and nothing is owed for it.
        assert_eq!(board.call(&cas(1, 4, 1, 1, 5)), INSERTED);
        assert_eq!(board.call(&out(3, 1, 5)), DENIED);
        assert_eq!(board.call(&off(3)), Ok(Answer::found(announced(3, 0, 9))));
        assert_eq!(board.call(&out(3, 0, 5)), Ok(Answer::DONE), "a serial that is listed");
        assert_eq!(board.call(&cas(3, 5, 3, 0, 5)), DENIED);
        for (process, position) in [(2, 5), (2, 6), (2, 7)] {
            assert_eq!(board.call(&cas(process, position, 2, position, 5)), INSERTED);
        }
        // A seat may list what it announced out of its turn, with another shift too.
        assert_eq!(board.call(&out(2, 20, 5)), Ok(Answer::DONE));
        assert_eq!(board.call(&cas(2, 8, 2, 20, 7)), INSERTED);
        assert_eq!(board.call(&cas(4, 9, 4, 9, 7)), INSERTED);
        assert_eq!(board.call(&cas(4, 10, 2, 20, 5)), DENIED);
        assert_eq!(board.call(&cas(4, 10, 4, 10, 7)), INSERTED, "nothing is owed at 10");
    }

    #[test]
    fn a_taken_position_is_denied_while_an_announcement_waits() {
        let list = [Tuple::listed(1, 4, 0, 3), Tuple::listed(2, 4, 1, 3)];
        let held = [list[0], list[1], announced(1, 7, 5)];
        let answer = |call: Call| with(&held).call(&call);
        for process in 1..=4 {
            let own = u64::from(process);
            // Seat 1 is preferred at 1, which is taken: what is owed is held, all else denied.
            assert_eq!(answer(cas(process, 1, 1, 7, 5)), Ok(Answer::held(list[0])));
            assert_eq!(answer(cas(process, 1, own, 9, 5)), DENIED);
            // Nothing is owed at 2 and 3.
            assert_eq!(answer(cas(process, 2, own, 9, 5)), Ok(Answer::held(list[1])));
            assert_eq!(answer(cas(process, 3, own, 9, 5)), INSERTED);
        }
    }

    #[test]
    fn one_seat_alone() {
        let mut board = of(1, &[]);
        assert_eq!(board.call(&out(1, 0, 3)), Ok(Answer::DONE));
        assert_eq!(board.call(&cas(1, 1, 1, 1, 3)), DENIED);
        assert_eq!(board.call(&cas(1, 1, 1, 0, 3)), INSERTED);
        assert_eq!(board.call(&cas(1, 2, 1, 1, 3)), INSERTED);
        assert_eq!(board.call(&cas(1, 3, 1, 2, 3)), INSERTED);
    }

    #[test]
    fn the_oldest_of_several_counts() {
        let first = [announced(1, 0, Offset::MARK), announced(1, 7, 5), announced(1, 8, 5)];
        let answer = |held: &[Tuple], call: Call| with(held).call(&call);
        assert_eq!(answer(&first, cas(2, 1, 1, 7, 5)), INSERTED, "the mark is no announcement");
        assert_eq!(answer(&first, cas(2, 1, 1, 8, 5)), DENIED);
        assert_eq!(answer(&first, cas(1, 1, 1, 8, 5)), DENIED);
        assert_eq!(answer(&first, cas(2, 1, 1, 0, 5)), DENIED);
        assert_eq!(answer(&first, cas(2, 1, 2, 0, 5)), DENIED);
        // The oldest is listed: nothing is owed, though the second waits.
        let listed = [&first[..], &[Tuple::listed(9, 1, 7, 3)]].concat();
        assert_eq!(answer(&listed, cas(2, 1, 1, 8, 5)), DENIED);
        assert_eq!(answer(&listed, cas(1, 1, 1, 8, 5)), INSERTED);
        assert_eq!(answer(&listed, cas(2, 1, 2, 0, 5)), INSERTED);
        // Twice the same, and the same serial with two shifts.
        let again = [first[1], first[1], announced(1, 7, 9)];
        assert_eq!(answer(&again, cas(2, 1, 1, 7, 5)), INSERTED);
        assert_eq!(answer(&again, cas(2, 1, 1, 7, 9)), DENIED);
        // Of seats that are none, nothing is owed.
        let strangers = [0, 5, 4_294_967_295, (1 << 32) + 1, u64::MAX];
        let strange = strangers.map(|seat| announced(seat, 7, 5));
        for process in 1..=4 {
            assert_eq!(answer(&strange, cas(process, 1, process.into(), 0, 5)), INSERTED);
            for seat in strangers {
                assert_eq!(answer(&strange, cas(process, 1, seat, 7, 5)), DENIED);
            }
        }
    }

    #[test]
    fn positions_are_1_to_112() {
        let list: Vec<Tuple> = (1..=111).map(|p| Tuple::listed(p, 1 + p % 4, p, 3)).collect();
        // Seat 4 is preferred at 112, and seat 1 would be at 113.
        let mut board = with(&[&[announced(4, 0, 5), announced(1, 0, 5)][..], &list].concat());
        for position in [0, 113, 114, 255, 4_294_967_295, (1 << 32) + 112, u64::MAX] {
            for seat in [1, 4] {
                assert_eq!(board.call(&cas(seat, position, seat.into(), 0, 5)), DENIED, "{position}");
            }
        }
        assert_eq!(board.call(&cas(2, 112, 2, 0, 5)), DENIED);
        assert_eq!(board.call(&cas(2, 112, 4, 0, 5)), INSERTED);
        assert_eq!(board.call(&cas(2, 113, 1, 0, 5)), DENIED, "112 is the last");
        assert_eq!(board.call(&cas(1, 112, 1, 0, 5)), Ok(Answer::held(Tuple::listed(112, 4, 0, 5))));
        assert_eq!(board.call(&out(2, 0, 5)), Ok(Answer::DONE));
    }

    #[test]
    fn no_run_fills_the_board() {
        let mut board = of(31, &[]);
        for position in 1..=112 {
            assert_eq!(board.call(&cas(1, position, 1, position, 3)), INSERTED);
        }
        for seat in 1..=31 {
            assert_eq!(board.call(&out(seat, 0, 3)), Ok(Answer::DONE));
            assert_eq!(board.call(&out(seat, 1, 3)), DENIED);
        }
        assert_eq!(board.count, 143);
    }

    #[test]
    fn a_full_board() {
        let mut tuples = [Tuple::of(&[Field::given(Kind::Count, 1)]); MOST_TUPLES];
        tuples[100] = announced(1, 7, 5);
        tuples[101] = Tuple::listed(1, 2, 0, 3);
        let mut board = with(&tuples);
        assert_eq!(board.call(&out(2, 0, 3)), Err(Refusal::Full));
        assert_eq!(board.call(&out(1, 0, 3)), DENIED, "7 before 8");
        assert_eq!(board.call(&cas(1, 2, 1, 0, 3)), Err(Refusal::Full));
        assert_eq!(board.call(&cas(3, 1, 1, 7, 5)), Ok(Answer::held(tuples[101])));
        assert_eq!(board.call(&cas(3, 1, 3, 7, 5)), DENIED);
        assert_eq!(board, with(&tuples));
        // The place freed by inp serves again.
        assert_eq!(board.call(&off(1)), Ok(Answer::found(tuples[100])));
        assert_eq!(board.call(&out(2, 0, 3)), Ok(Answer::DONE));
        assert_eq!(board.call(&out(1, 0, 3)), Err(Refusal::Full));
    }
}
