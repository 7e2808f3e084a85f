//! The list of policies 4 and 5 (02, 2.6 and 2.7) by the proved library and the plain version: calls on lists and announcements that no run
//! makes, lists that reach the last position, and such boards written back as scripts, which those of policy 5 are not. Runs in which seats
//! race for its positions, and help each other, are in together.rs, and on the plain version alone in runs.rs.

mod common;

use common::announced::{self, odd_tuples};
use common::denials::Denials;
use common::dumps::{near_miss, Dumps};
use common::lists::{near_call, odd_list, Cause};
use common::long::{Long, Part};
use common::reached::Flaw;
use common::tables::{board_with, Calm, Unfit};
use common::wide::Wide;
use common::*;
use reference::board::MOST_TUPLES;
use reference::config::{LIST, WAIT_FREE};
use reference::fields::MOST_SEATS;
use reference::list::LAST_POSITION;
use reference::{Answer, Board, Call, Config, Field, Kind, Offset, Refusal, Tuple};

/// A board under policy 4 with a list that no run need make.
fn board_of_a_list(dice: &mut Dice) -> Board {
    let n = 1 + dice.below(MOST_SEATS);
    let config = config_of(dice, n, LIST);
    board_with(config, &odd_list(dice, &config))
}

/// A board under policy 5 with a list and announcements that no run need make.
fn board_of_announcements(dice: &mut Dice) -> Board {
    let n = 1 + dice.below(MOST_SEATS);
    let config = config_of(dice, n, WAIT_FREE);
    board_with(config, &odd_tuples(dice, &config))
}

/// Five calls on each of many boards handed in, and what was answered and denied.
fn calls_handed_in(
    seed: u64,
    boards: usize,
    board: fn(&mut Dice) -> Board,
    near_call: fn(&mut Dice, &Board, u32) -> Call,
    name: &str,
) -> (Denials, Wide, Long) {
    let mut dice = Dice::new(seed);
    let (mut inputs, mut outcomes) = (0, [0usize; ANSWERS]);
    let (mut denials, mut wide, mut long) = (Denials::default(), Wide::default(), Long::default());
    for _ in 0..boards {
        let before = board(&mut dice);
        for _ in 0..5 {
            let n = before.config.n;
            let process = if dice.one_in(20) { dice.pick(&[0, n + 1]) } else { 1 + dice.below(n) } as u32;
            let call = near_call(&mut dice, &before, process);
            let answer = compare_call(&mut before.clone(), &call);
            denials.note(&before, &call, &answer);
            wide.note(&before, &call, &answer);
            long.note(&before, &call, &answer);
            outcomes[refusal_of(&answer)] += 1;
            inputs += 1;
        }
    }
    println!("compared {inputs:>7} calls on {name} handed in: answered, refused 1 to 13: {outcomes:?}");
    denials.print();
    wide.print();
    long.print();
    (denials, wide, long)
}

/// Boards handed in, and boards beside them, written back.
fn dumps_handed_in(seed: u64, boards: usize, board: fn(&mut Dice) -> Board, name: &str) -> Dumps {
    let mut dice = Dice::new(seed);
    let mut dumps = Dumps::default();
    for _ in 0..boards {
        let board = board(&mut dice);
        _ = dumps.note(&if dice.one_in(2) { near_miss(&mut dice, &board) } else { board });
    }
    println!("compared {:>7} {name} handed in written back, and boards beside them", dumps.boards());
    dumps.print();
    dumps
}

/// Counts above 32 bits on lists: in calls obeyed, in calls denied and on boards.
const LONG_PARTS: [(Part, [usize; 3]); 3] =
    [(Part::Position, [10, 100, 500]), (Part::Seat, [3, 100, 500]), (Part::Serial, [500, 500, 500])];

/// Calls on lists handed in: with gaps, positions twice, marks, seats above n and other tuples, and on full boards.
#[test]
fn lists_handed_in() {
    let (Denials { lists, .. }, wide, long) = calls_handed_in(17, 5_000, board_of_a_list, near_call, "lists");
    wide.assert_boards(&[LIST], [100, 100, 100]);
    long.assert_came(LIST, &LONG_PARTS);
    lists.assert_each(&Cause::UNDER_4, 50);
    let came = [lists.inserted, lists.held, lists.found, lists.none, lists.full];
    assert!(came.iter().all(|often| *often > 200), "{came:?}");
}

/// Where 1 and 3 stand, 2 and 4 are both permitted, and 3 is not; nor is what is listed, though its position is taken.
#[test]
fn lists_with_a_gap() {
    let listed = |(position, seat)| Tuple::listed(position, seat, 0, 3);
    let tuples = [(1, 1), (3, 2)].map(listed);
    let before = board_with(Config { n: 4, t: 1, policy: LIST, k: 0 }, &tuples);
    let answer = |position, seat: u32, serial| {
        let entry = Tuple::listed(position, seat.into(), serial, 5);
        compare_call(&mut before.clone(), &Call::cas(seat, Tuple::listed_template(position), entry))
    };
    let denied = Answer::from(Refusal::Denied);
    let answers = [1, 2, 3, 4, 5].map(|position| answer(position, 3, 0));
    assert_eq!(answers, [Answer::held(tuples[0]), Answer::INSERTED, denied, Answer::INSERTED, denied]);
    assert_eq!([1, 2, 3, 4].map(|position| answer(position, 1, 0)), [denied; 4]);
    assert_eq!(answer(1, 1, 1), Answer::held(tuples[0]));
}

/// Lists up to the last position, each board of them written back; the longest of these scripts.
#[test]
fn lists_of_112_positions() {
    let mut dumps = Dumps::default();
    // Serials of five bytes and of ten make all records of one length.
    let rows =
        [(1, 0, None), (4, 100, None), (MOST_SEATS, 1 << 28, Some(27)), (MOST_SEATS, 1 << 63, Some(32))];
    for (n, serial, bytes) in rows {
        let config = Config { n, t: (n - 1) / 3, policy: LIST, k: 0 };
        let mut board = Board::fresh(config).unwrap();
        let cas = |position| {
            let seat = 1 + position % n;
            let entry = Tuple::listed(position, seat, serial + position, 200_001);
            Call::cas(seat as u32, Tuple::listed_template(position), entry)
        };
        for position in 1..=LAST_POSITION {
            assert_eq!(compare_call(&mut board, &cas(position + 1)), Answer::from(Refusal::Denied));
            assert_eq!(compare_call(&mut board, &cas(position)), Answer::INSERTED);
            assert_eq!(compare_call(&mut board, &cas(position)), Answer::from(Refusal::Denied));
            let script = dumps.note(&board).expect("a board that a run makes");
            if let Some(bytes) = bytes {
                assert_eq!(script.len() as u64, 3 + bytes * position);
            }
        }
        for position in [0, 113, 114, 255] {
            assert_eq!(compare_call(&mut board, &cas(position)), Answer::from(Refusal::Denied));
        }
        assert_eq!(board.count, 112);
        // A list that goes on as no run can.
        for position in 113..=MOST_TUPLES as u64 {
            board.tuples[board.count] = cas(position).entry;
            board.count += 1;
            assert_eq!(dumps.note(&board), Err(Refusal::Unreached));
            assert_eq!(compare_call(&mut board, &cas(position + 1)), Answer::from(Refusal::Denied));
        }
    }
    println!("compared {:>7} lists of up to {MOST_TUPLES} positions written back", dumps.boards());
    dumps.print();
    dumps.assert_each(LIST, &[Flaw::Beyond], 4 * (MOST_TUPLES - 112));
}

#[test]
fn lists_handed_in_written_back() {
    let dumps = dumps_handed_in(19, 4_000, board_of_a_list, "lists");
    dumps.assert_came(LIST, 50);
    dumps.assert_wide(LIST, [0, 100]);
    dumps.assert_each(LIST, &Flaw::UNDER_4, 25);
    dumps.assert_tables(LIST, (&[Unfit::NotEmpty], &[Calm::Untabled, Calm::UntabledMark]), 25);
}

/// Calls on announcements handed in: two of one seat, with the mark, of seats above n, of what is listed, with its shift or another.
#[test]
fn announcements_handed_in() {
    let (Denials { announced: lists, .. }, wide, long) =
        calls_handed_in(24, 14_000, board_of_announcements, announced::near_call, "announcements");
    wide.assert_boards(&[WAIT_FREE], [100, 100, 100]);
    long.assert_came(WAIT_FREE, &LONG_PARTS);
    lists.assert_each(&Cause::UNDER_4, 50);
    lists.assert_each(&Cause::UNDER_5, 50);
    let came = [lists.inserted, lists.held, lists.found, lists.none, lists.full, lists.done];
    assert!(came.iter().all(|often| *often > 200), "{came:?}");
    let came = [lists.taken_off, lists.marks_off, lists.helped, lists.help_held, lists.not_held];
    assert!(came.iter().all(|often| *often > 100), "{came:?}");
}

/// Four seats, of which one may stray, under policy 5.
const FOUR: Config = Config { n: 4, t: 1, policy: WAIT_FREE, k: 0 };

fn listed((position, seat, serial, shift): (u64, u64, u64, u64)) -> Tuple {
    Tuple::listed(position, seat, serial, shift)
}

fn announcement((seat, serial, shift): (u64, u64, u64)) -> Tuple {
    Tuple::announcement(seat, serial, shift)
}

/// What may be listed at position 1, free or taken by seat 4, and by whom.
#[test]
fn what_is_owed() {
    let mark = Offset::MARK;
    // The announcements, what else is listed, and what is owed at position 1.
    let rows: [(&[(u64, u64, u64)], &[(u64, u64, u64, u64)], Option<(u64, u64, u64)>); 12] = [
        (&[], &[], None),
        (&[(1, 7, 5)], &[], Some((1, 7, 5))),
        (&[(1, 7, 5), (1, 8, 9)], &[], Some((1, 7, 5))),
        (&[(1, 7, mark), (1, 8, 9)], &[], Some((1, 8, 9))),
        (&[(1, 7, mark)], &[], None),
        (&[(2, 7, 5), (5, 7, 5), (0, 7, 5), (MOST_SEATS + 1, 7, 5)], &[], None),
        (&[(1, 7, 5)], &[(50, 1, 7, 5)], None),
        (&[(1, 7, 5)], &[(50, 1, 7, 9)], None),
        (&[(1, 7, 5)], &[(200, 1, 7, mark)], None),
        (&[(1, 7, 5), (1, 8, 9)], &[(50, 1, 7, 9)], None),
        (&[(1, 7, 5)], &[(50, 2, 7, 5), (51, 1, 8, 5)], Some((1, 7, 5))),
        (&[(5, 7, 5), (1, 7, 5)], &[(50, 5, 7, 5)], Some((1, 7, 5))),
    ];
    let denied = Answer::from(Refusal::Denied);
    let mut inputs = 0;
    for (waiting, list, owed) in rows {
        for first in [None, Some(listed((1, 4, 0, 3)))] {
            let list = list.iter().copied().map(listed).chain(first);
            let tuples: Vec<Tuple> = waiting.iter().copied().map(announcement).chain(list).collect();
            let before = board_with(FOUR, &tuples);
            let permitted = first.map_or(Answer::INSERTED, Answer::held);
            for process in 1..=4 {
                let own = u64::from(process);
                let others = [(1, 20, 5), (1, 7, 5), (1, 7, 9), (1, 8, 9), (2, 20, 5)];
                let tries = [&[(own, 20, 5), (own, 20, 9)], waiting, &others].concat();
                for (seat, serial, shift) in tries.into_iter().filter(|(_, _, shift)| *shift != mark) {
                    let entry = Tuple::listed(1, seat, serial, shift);
                    let call = Call::cas(process, Tuple::listed_template(1), entry);
                    let again = |held: &Tuple| held.count == 5 && held.fields[2..4] == entry.fields[2..4];
                    let right = match owed {
                        Some(owed) => owed == (seat, serial, shift),
                        None => seat == own && !tuples.iter().any(again),
                    };
                    let answer = compare_call(&mut before.clone(), &call);
                    assert_eq!(answer, if right { permitted } else { denied }, "{call:?} on {before:?}");
                    inputs += 1;
                }
            }
        }
    }
    println!("compared {inputs:>7} calls at a position where something is owed, or nothing");
}

/// Every field that is undefined, or given with a small value; those of the right templates are among them.
fn fields() -> Vec<Field> {
    let of_kind = |kind: Kind| {
        let given = [0, 1, 2, 3, 4, 5, 7].map(|value| Field::given(kind, value));
        given.into_iter().chain([Field::any(kind), Field::open(kind)])
    };
    Kind::ALL.into_iter().flat_map(of_kind).collect()
}

/// Templates of inp, and of a cas where something is owed, with one field or two replaced by any other; and those with a field more or
/// fewer.
#[test]
fn nearly_right_templates() {
    let tuples = [(2, 7, 5), (3, 7, Offset::MARK)].map(announcement);
    let before = board_with(FOUR, &[&[listed((1, 1, 0, 3))], &tuples[..]].concat());
    let own = [Field::given(Kind::Word, 4), Field::given(Kind::Count, 2)];
    let off = Call::inp(2, Tuple::of(&[own[0], own[1], Field::any(Kind::Count), Field::open(Kind::Offset)]));
    let cas = Call::cas(3, Tuple::listed_template(2), listed((2, 2, 7, 5)));
    let (fields, mut inputs, mut denials) = (fields(), 0, Denials::default());
    let mut permitted = [0usize; 2];
    for (which, base) in [off, cas].into_iter().enumerate() {
        let mut try_template = |template: Tuple| {
            let call = Call { template, ..base };
            let answer = compare_call(&mut before.clone(), &call);
            denials.note(&before, &call, &answer);
            permitted[which] += usize::from(!refused(&answer));
            inputs += 1;
        };
        let count = base.template.count;
        for first in 0..count {
            for second in 0..first {
                for one in &fields {
                    for other in &fields {
                        let mut template = base.template;
                        template.fields[first] = *one;
                        template.fields[second] = *other;
                        try_template(template);
                    }
                }
            }
        }
        try_template(Tuple::of(&base.template.fields[..count - 1]));
        for field in &fields {
            try_template(Tuple::of(&[&base.template.fields[..count], &[*field]].concat()));
        }
    }
    println!("compared {inputs:>7} calls with templates nearly right: permitted {permitted:?}");
    assert!(permitted.iter().all(|often| *often > 0), "{permitted:?}");
    let causes = [Cause::InpAnothers, Cause::InpAnybodys, Cause::InpGiven, Cause::Template];
    denials.announced.assert_each(&causes, 10);
}

/// Lists up to the last position, each of whose tuples was announced and is listed by another seat, where there is one; none of these boards is written back.
#[test]
fn lists_of_112_announcements() {
    let mut dumps = Dumps::default();
    let denied = Answer::from(Refusal::Denied);
    for n in [1, 2, 4, MOST_SEATS] {
        let mut board = Board::fresh(Config { n, t: (n - 1) / 3, policy: WAIT_FREE, k: 0 }).unwrap();
        let cas = |process: u64, position, (seat, serial): (u64, u64)| {
            let entry = Tuple::listed(position, seat, serial, 200_001);
            Call::cas(process as u32, Tuple::listed_template(position), entry)
        };
        let preferred = |position: u64| if position % n == 0 { n } else { position % n };
        let out = |seat: u64, serial| Call::out(seat as u32, announcement((seat, serial, 200_001)));
        for seat in 1..=n {
            assert_eq!(compare_call(&mut board, &out(seat, seat)), Answer::DONE);
            assert_eq!(compare_call(&mut board, &out(seat, 200)), denied);
        }
        for position in 1..=LAST_POSITION + n {
            let seat = preferred(position);
            let helper = 1 + seat % n;
            let right = if position <= LAST_POSITION { Answer::INSERTED } else { denied };
            // Neither the preferred seat's own, nor another's.
            assert_eq!(compare_call(&mut board, &cas(seat, position, (seat, 500))), denied);
            assert_eq!(compare_call(&mut board, &cas(helper, position, (helper, 500))), denied);
            assert_eq!(compare_call(&mut board, &cas(helper, position, (seat, position))), right);
            assert_eq!(dumps.note(&board), Err(Refusal::Unwritten));
            if position > LAST_POSITION {
                continue;
            }
            let own = Tuple::announcement(seat, position, 200_001);
            let mut template = own;
            template.fields[2] = Field::open(Kind::Count);
            template.fields[3] = Field::any(Kind::Offset);
            assert_eq!(compare_call(&mut board, &Call::inp(seat as u32, template)), Answer::found(own));
            assert_eq!(dumps.note(&board), Err(Refusal::Unwritten));
            assert_eq!(compare_call(&mut board, &out(seat, position + n)), Answer::DONE);
        }
        assert_eq!(board.count as u64, LAST_POSITION + n);
        for position in [0, 113, 114, 255] {
            assert_eq!(compare_call(&mut board, &cas(1, position, (1, 500))), denied);
        }
    }
    println!("compared {:>7} lists of announcements, each refused 15", dumps.boards());
}

#[test]
fn announcements_handed_in_written_back() {
    let dumps = dumps_handed_in(25, 3_000, board_of_announcements, "boards of announcements");
    dumps.assert_came(WAIT_FREE, 50);
    dumps.assert_wide(WAIT_FREE, [0, 100]);
    dumps.assert_tables(WAIT_FREE, (&[Unfit::NotEmpty], &[Calm::Untabled, Calm::UntabledMark]), 25);
}
