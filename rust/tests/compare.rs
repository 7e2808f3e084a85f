//! The proved library and the plain version on random inputs, each kind with its own seed, and on some that are enumerated. Every input's
//! whole answer, and all that is left behind, must be equal. `SEED=7 rust/check` takes other inputs.

mod common;

use common::announced::{self, odd_announced};
use common::denials::{Cause, Denials};
use common::dumps::{near_miss, Dumps};
use common::lists::{self, near_call, odd_listed};
use common::long::{lengthen, lengthen_call, lengthened, lengthened_calls, Long, Part};
use common::reached::{weak_decision, Flaw};
use common::tables::{self, board_with, stranger, table_of, with_fault, Calm, Tables, Unfit};
use common::wide::Wide;
use common::*;
use reference::board::MOST_TUPLES;
use reference::config::{BARE, DEFAULT, LIST, STRONG, WAIT_FREE, WEAK};
use reference::dump::LONGEST_DUMP;
use reference::fields::{MOST_FIELDS, MOST_SEATS};
use reference::flat;
use reference::list::LAST_POSITION;
use reference::numbers::write_number;
use reference::policy::LAST_ROUND;
use reference::records::{record_of, LONGEST_RECORD};
use reference::table::PLACES;
use reference::tabled;
use reference::{
    Answer, AnswerKind, Board, Call, Code, Config, Field, Kind, Offset, Phase, Refusal, Seat, Tuple,
};

fn count(kind: &str, inputs: usize, note: String) {
    println!("compared {inputs:>7} {kind}: {note}");
}

#[test]
fn records_read() {
    let mut dice = Dice::new(1);
    let likely =
        [0, 1, 2, 3, 4, 5, 6, 7, 8, 9, 10, 11, 12, 13, 14, 15, 16, 17, 18, 19, 0x7F, 0x80, 0x81, 0xFF];
    let (mut inputs, mut sound) = (0, 0);
    for _ in 0..40_000 {
        let mut bytes = match dice.below(8) {
            // Any bytes, and a record with others behind it.
            0 => (0..dice.below(40)).map(|_| dice.pick(&likely)).collect(),
            1 => {
                let call = good_call(&mut dice);
                let mut bytes = record(&call);
                bytes.extend([0xFF, 0xFF, 0xFF, 0xFF, 0x0F]);
                bytes
            }
            _ => record(&good_call(&mut dice)),
        };
        // Damage: bytes changed, taken out, put in, cut off, put behind.
        for _ in 0..dice.pick(&[0, 0, 1, 1, 1, 2, 3]) {
            let place = dice.below(bytes.len() as u64 + 1) as usize;
            let byte = if dice.one_in(3) { dice.next() as u8 } else { dice.pick(&likely) };
            match dice.below(5) {
                0 if place < bytes.len() => drop(bytes.remove(place)),
                1 => bytes.insert(place, byte),
                2 => bytes.truncate(place),
                3 => bytes.push(byte),
                _ if place < bytes.len() => bytes[place] = byte,
                _ => {}
            }
        }
        sound += usize::from(compare_read(&bytes, 0) == 0);
        // The same record behind other bytes, and a place behind the end.
        let ahead = dice.below(4) as usize;
        let mut moved = vec![0x83; ahead];
        moved.extend(&bytes);
        compare_read(&moved, ahead);
        compare_read(&moved, moved.len() + dice.pick(&[0, 1, usize::MAX - moved.len()]));
        inputs += 3;
    }
    // Every cut of a record of each code.
    for _ in 0..500 {
        let bytes = record(&good_call(&mut dice));
        for cut in 0..=bytes.len() {
            compare_read(&bytes[..cut], 0);
            inputs += 1;
        }
    }
    // A field of each kind with every value at a bound, and beyond, in an entry and in a template.
    for (kind, value) in Kind::ALL.into_iter().flat_map(|kind| VALUES.map(|value| (kind, value))) {
        for code in [Code::Out, Code::Rdp] {
            let mut bytes = vec![1, code as u8, 1, 4 * kind as u8];
            write_number(value, &mut bytes);
            compare_read(&bytes, 0);
            inputs += 1;
        }
    }
    count("records read", inputs, format!("{sound} of the first 40000 are sound"));
}

#[test]
fn records_written() {
    let mut dice = Dice::new(2);
    let (mut inputs, mut sound) = (0, 0);
    for _ in 0..40_000 {
        let mut call = good_call(&mut dice);
        for _ in 0..dice.pick(&[0, 0, 1, 2]) {
            let part = dice.below(PARTS);
            spoil(&mut dice, &mut call, part);
        }
        let room = match record_of(&call) {
            Ok(record) => {
                sound += 1;
                let short = dice.pick(&[0, 0, 1, 2, LONGEST_RECORD]);
                (record.len() + dice.pick(&[0, 0, 1, 7])).saturating_sub(short)
            }
            Err(_) => dice.below(LONGEST_RECORD as u64 + 10) as usize,
        };
        let buffer: Vec<u8> = (0..room).map(|_| dice.next() as u8).collect();
        compare_write(&call, &buffer);
        inputs += 1;
    }
    count("records written", inputs, format!("{sound} of calls without fault"));
}

/// A sound set-up of four seats, of which one may stray, under a policy.
fn four_seats(policy: u64) -> Config {
    Config { n: 4, t: 1, policy, k: if policy == STRONG { 2 } else { 0 } }
}

/// Boards of every policy, some with the tuples that make a base call permitted; the last of them is behind a gap under policies 4 and 5.
/// Under policy 5 seat 3's announcement waits for that gap.
fn base_boards() -> Vec<Board> {
    let mut boards = Vec::new();
    for policy in 0..=5 {
        boards.push(Board::fresh(four_seats(policy)).unwrap());
        let offsets = if policy == STRONG { [1, 3, 1, 3] } else { [0x50, 0x51, 0x50, 9] };
        let tuple = |(seat, offset)| match policy {
            LIST | WAIT_FREE => Tuple::listed(seat + u64::from(seat > 2), seat, 0, offset),
            _ => Tuple::proposal(0, seat, offset),
        };
        let mut tuples: Vec<Tuple> = (1..).zip(offsets).map(tuple).collect();
        boards.push(board_with(four_seats(policy), &tuples));
        if policy == WAIT_FREE {
            tuples.extend([(2, 0, 3), (3, 7, 5)].map(|(q, s, v)| Tuple::announcement(q, s, v)));
            boards.push(board_with(four_seats(policy), &tuples));
        }
    }
    boards
}

fn base_calls() -> Vec<Call> {
    let weak = |offset: Option<u64>| {
        let last = offset.map_or(Field::open(Kind::Offset), |offset| Field::given(Kind::Offset, offset));
        Tuple::of(&[Field::given(Kind::Word, 2), Field::given(Kind::Count, 0), last])
    };
    let six = Tuple::of(&[Field::given(Kind::Count, 1); 6]);
    let own = |serial: Field, shift: Field| {
        Tuple::of(&[Field::given(Kind::Word, 4), Field::given(Kind::Count, 3), serial, shift])
    };
    vec![
        Call::out(1, Tuple::proposal(1, 1, 0x50)),
        Call::out(1, Tuple::proposal(1, 1, 3)),
        Call::out(1, Tuple::proposal(0, 1, 3)),
        Call::out(2, six),
        Call::rdp(4, Tuple::proposal_template(0, 3)),
        Call::inp(4, Tuple::proposal_template(0, 3)),
        Call::cas(1, Tuple::decision_template(0), Tuple::decision(0, 0x50, 5)),
        Call::cas(1, Tuple::decision_template(0), Tuple::decision(0, 1, 5)),
        Call::cas(1, Tuple::decision_template(0), Tuple::decision(0, 1, 3)),
        Call::cas(1, Tuple::decision_template(0), Tuple::decision(0, 0, 11)),
        Call::cas(1, weak(None), weak(Some(3))),
        Call::cas(3, six, six),
        Call::rdp(4, Tuple::listed_template(1)),
        Call::cas(1, Tuple::listed_template(1), Tuple::listed(1, 1, 5, 3)),
        Call::cas(2, Tuple::listed_template(3), Tuple::listed(3, 2, 5, 3)),
        Call::cas(2, Tuple::listed_template(3), Tuple::listed(3, 3, 7, 5)),
        Call::out(1, Tuple::announcement(1, 5, 3)),
        Call::out(3, Tuple::announcement(3, 7, 5)),
        Call::inp(3, own(Field::any(Kind::Count), Field::open(Kind::Offset))),
        Call::inp(3, own(Field::open(Kind::Count), Field::any(Kind::Offset))),
    ]
}

#[test]
fn calls_with_wrong_fields() {
    let mut dice = Dice::new(3);
    let boards = base_boards();
    let mut inputs = 0;
    let mut answers = [0usize; ANSWERS];
    let mut denials = Denials::default();
    let mut try_call = |dice: &mut Dice, call: &Call| {
        let before = dice.pick(&boards.iter().collect::<Vec<_>>());
        let answer = compare_call(&mut before.clone(), call);
        denials.note(before, call, &answer);
        answers[refusal_of(&answer)] += 1;
        inputs += 1;
    };
    for call in base_calls() {
        for first in 0..PARTS {
            for _ in 0..12 {
                let mut one = call;
                spoil(&mut dice, &mut one, first);
                try_call(&mut dice, &one);
            }
            for second in 0..first {
                for _ in 0..4 {
                    let mut two = call;
                    spoil(&mut dice, &mut two, first);
                    spoil(&mut dice, &mut two, second);
                    try_call(&mut dice, &two);
                }
            }
        }
    }
    count(
        "calls with fields wrong in turn and in pairs",
        inputs,
        format!("answered, refused 1 to 13: {answers:?}"),
    );
    assert!(answers[12] > 5 && answers[13] > 50, "{answers:?}");
}

/// Boards of every policy and base calls, with high bits in each count of a tuple, of the call, or of both: whoever cuts a round, a seat, a
/// position or a serial to 32 bits takes it for another that is there.
#[test]
fn counts_that_differ_in_high_bits() {
    let calls: Vec<Call> =
        base_calls().iter().flat_map(|call| [vec![*call], lengthened_calls(call)].concat()).collect();
    let (mut inputs, mut denials, mut long) = (0, Denials::default(), Long::default());
    let mut dumps = Dumps::default();
    for base in base_boards() {
        let mut boards = vec![base.clone()];
        for (place, tuple) in base.held().iter().enumerate() {
            for other in lengthened(tuple) {
                let mut tuples = base.held().to_vec();
                tuples[place] = other;
                boards.push(board_with(base.config, &tuples));
            }
        }
        for before in boards {
            for call in &calls {
                let answer = compare_call(&mut before.clone(), call);
                denials.note(&before, call, &answer);
                long.note(&before, call, &answer);
                inputs += 1;
            }
            _ = dumps.note(&before);
        }
    }
    count("calls with counts that differ in high bits", inputs, String::new());
    long.print();
    count("such boards written back", dumps.boards(), String::new());
    dumps.print();
    long.assert_came(BARE, &[(Part::Round, [500, 0, 500]), (Part::Seat, [500, 0, 500])]);
    long.assert_came(BARE, &[(Part::Position, [100, 0, 0]), (Part::Serial, [50, 0, 0])]);
    long.assert_came(WEAK, &[(Part::Round, [0, 100, 100])]);
    for policy in [DEFAULT, STRONG] {
        long.assert_came(policy, &[Part::Round, Part::Seat].map(|part| (part, [25, 500, 500])));
    }
    for policy in [LIST, WAIT_FREE] {
        let position = (Part::Position, [50, 100, 500]);
        long.assert_came(policy, &[position, (Part::Seat, [5, 100, 500]), (Part::Serial, [50, 50, 500])]);
    }
}

/// A tuple near the policies' shapes, as no run need make it, now and then with a count above 32 bits.
fn odd_tuple(dice: &mut Dice, config: &Config) -> Tuple {
    let mut tuple = near_tuple(dice, config);
    if dice.one_in(20) {
        lengthen(dice, &mut tuple);
    }
    tuple
}

fn near_tuple(dice: &mut Dice, config: &Config) -> Tuple {
    let most = MOST_SEATS;
    let (round, seat) = (
        dice.pick(&[0, 0, 0, 1, 7, 8]),
        dice.pick(&[0, 1, 1, 2, 3, 4, 5, most / 2 + 1, most, most + 1, Kind::Count.last()]),
    );
    let offset = near_offset(dice, config);
    if [LIST, WAIT_FREE].contains(&config.policy) || dice.one_in(20) {
        if dice.one_in(if config.policy == WAIT_FREE { 2 } else { 10 }) {
            return odd_announced(dice, config, &[]);
        }
        let place = dice.pick(&[0, 0, 1, 2, 3, 4, 5, LAST_POSITION - 1, LAST_POSITION]);
        return odd_listed(dice, config, place, 4);
    }
    match dice.below(8) {
        0 => good_tuple(dice, true),
        1 => Tuple::decision(
            round,
            offset,
            dice.pick(&[0, 1, 3, 15, 31, 1 << (MOST_SEATS - 1), Kind::Seats.last()]),
        ),
        2 => Tuple::of(&[
            Field::given(Kind::Word, 2),
            Field::given(Kind::Count, round),
            Field::given(Kind::Offset, offset),
        ]),
        3 => {
            let mut tuple = Tuple::proposal(round, seat, offset);
            tuple.fields[dice.below(4) as usize] = good_field(dice, true);
            tuple
        }
        _ => Tuple::proposal(round, seat, offset),
    }
}

/// The seats under whose numbers an offset stands in a round; for the mark, those under whose numbers anything does.
fn bearers(board: &Board, round: u64, offset: u64) -> u64 {
    let stands = |(r, seat, w): &(u64, u64, u64)| {
        *r == round && (1..=MOST_SEATS).contains(seat) && (*w == offset || offset == Offset::MARK)
    };
    let standing = board.held().iter().filter_map(Tuple::as_proposal).filter(stands);
    standing.fold(0, |set, (_, seat, _)| set | 1 << (seat - 1))
}

/// A cas that policy 1 permits, but for its round or the mark.
fn weak_call(dice: &mut Dice, board: &Board, seat: u32) -> Call {
    let round = dice.below(LAST_ROUND + 2);
    let entry = weak_decision(round, near_offset(dice, &board.config));
    let mut template = entry;
    template.fields[2] = Field::open(Kind::Offset);
    Call::cas(seat, template, entry)
}

/// A call that aims at such tuples, now and then with a count above 32 bits.
fn aimed_call(dice: &mut Dice, board: &Board) -> Call {
    let mut call = short_call(dice, board);
    if dice.one_in(16) {
        lengthen_call(dice, &mut call);
    }
    call
}

fn short_call(dice: &mut Dice, board: &Board) -> Call {
    let n = board.config.n.clamp(1, MOST_SEATS);
    let seat = if dice.one_in(10) { dice.pick(&SEATS) } else { 1 + dice.below(n) as u32 };
    match board.config.policy {
        WEAK if !dice.one_in(4) => return weak_call(dice, board, seat),
        LIST if !dice.one_in(8) => return near_call(dice, board, seat),
        WAIT_FREE if !dice.one_in(8) => return announced::near_call(dice, board, seat),
        _ => {}
    }
    let round = if dice.one_in(4) { dice.below(LAST_ROUND + 1) } else { dice.pick(&[0, 0, 0, 0, 1, 7, 8]) };
    let for_mark = board.config.policy == DEFAULT && dice.one_in(3);
    let offset = if for_mark { Offset::MARK } else { near_offset(dice, &board.config) };
    let own = if dice.one_in(6) { dice.below(MOST_SEATS + 2) } else { seat.into() };
    let within = (1 << if dice.one_in(8) { MOST_SEATS } else { n }) - 1;
    // Any set, or those that bear the offset, at times with one seat more or fewer; for the mark all that stand, or some of each offset.
    let bear = bearers(board, round, offset) & within;
    let set = match dice.below(6) {
        0 => dice.below(1 << MOST_SEATS) & within,
        1 => bear ^ 1 << dice.below(n),
        2..=4 if offset == Offset::MARK => uncrowded(dice, board, round, bear),
        _ => bear,
    };
    let entry = odd_tuple(dice, &board.config);
    let mut template = odd_tuple(dice, &board.config);
    for field in &mut template.fields[..template.count] {
        if dice.one_in(2) {
            *field = Field { state: 1 + dice.below(2) as u32, value: 0, ..*field };
        }
    }
    match dice.below(8) {
        0 | 1 => Call::out(seat, Tuple::proposal(round, own, offset)),
        2 => Call::out(seat, entry),
        3 => Call::rdp(seat, template),
        4 => Call::inp(seat, template),
        5 => Call::cas(seat, template, entry),
        _ => Call::cas(seat, Tuple::decision_template(round), Tuple::decision(round, offset, set)),
    }
}

/// A round in which most seats have proposed something, mostly not the same, at times what none may, or a second time.
fn odd_proposals(dice: &mut Dice, config: &Config) -> Vec<Tuple> {
    let mut proposals = Vec::new();
    for seat in 1..=config.n.clamp(1, MOST_SEATS) {
        for _ in 0..dice.pick(&[0, 1, 1, 1, 1, 1, 2]) {
            let offset = if dice.one_in(4) { near_offset(dice, config) } else { dice.pick(&OFFSETS) };
            proposals.push(Tuple::proposal(0, seat, offset));
        }
    }
    proposals
}

/// A board as no run need make it, at times not well formed.
fn odd_board(dice: &mut Dice) -> Board {
    let config = if dice.one_in(8) {
        odd_config(dice)
    } else {
        let (n, policy) = (1 + dice.below(MOST_SEATS), dice.pick(&[0, 1, 2, 2, 2, 3, 3, 3, 4, 4, 5, 5]));
        config_of(dice, n, policy)
    };
    let held = match dice.below(6) {
        0 => MOST_TUPLES,
        1 => MOST_TUPLES - 1,
        2 => dice.below(MOST_TUPLES as u64 + 1) as usize,
        _ if dice.one_in(12) => dice.below(2) as usize,
        _ => dice.below(48) as usize,
    };
    let proposals = if dice.one_in(2) { odd_proposals(dice, &config) } else { Vec::new() };
    let mut tuples: Vec<Tuple> = proposals.into_iter().take(held).collect();
    tuples.resize_with(held, || odd_tuple(dice, &config));
    // Most are settled, so that no proposal is for a place that is taken, or of what may not be proposed there.
    if !dice.one_in(8) {
        tables::settle(dice, &config, &mut tuples);
    }
    let mut board = board_with(config, &tuples);
    // What is not well formed: a count that is not the tuples', a dirty place, a field out of range, another table.
    if dice.one_in(5) {
        match dice.below(5) {
            0 => {
                let most = MOST_TUPLES;
                board.count = dice.pick(&[0, 1, most / 2, most - 1, most, most + 1, 2 * most, usize::MAX]);
            }
            1 => {
                let (place, part) = (dice.below(MOST_TUPLES as u64) as usize, dice.below(TUPLE_PARTS));
                spoil_tuple(dice, &mut board.tuples[place], part);
            }
            2 => {
                let (place, part) = (dice.below(held.max(1) as u64) as usize, dice.below(TUPLE_PARTS));
                spoil_tuple(dice, &mut board.tuples[place], part);
            }
            3 => tables::spoil_table(dice, &mut board),
            _ => board.tuples[MOST_TUPLES - 1].fields[5].value = 1,
        }
        // The table of what then stands there, if it is not the table that was changed.
        if board.table == table_of(&config, &tuples) && dice.one_in(2) {
            board.table = table_of(&config, board.held());
        }
    }
    board
}

#[test]
fn boards_that_no_run_makes() {
    let mut dice = Dice::new(4);
    let (mut inputs, mut outcomes) = (0, [0usize; ANSWERS]);
    let (mut denials, mut wide, mut tables) = (Denials::default(), Wide::default(), Tables::default());
    let mut long = Long::default();
    // What is inserted or held under policies 2 to 5, and the mark, which is so under policy 2.
    let (mut entries, mut marks) = ([0usize; 4], 0);
    for _ in 0..42_000 {
        let mut board = odd_board(&mut dice);
        let policy = board.config.policy;
        for turn in 0..2 {
            let call = aimed_call(&mut dice, &board);
            let before = board.clone();
            let answer = compare_call(&mut board, &call);
            if turn == 0 {
                tables.note(&before, answer == Answer::from(Refusal::Unsound));
            }
            if [DEFAULT, STRONG].contains(&policy) {
                hold_tabled(&before, &call, &answer, &board);
            }
            denials.note(&before, &call, &answer);
            wide.note(&before, &call, &answer);
            long.note(&before, &call, &answer);
            outcomes[refusal_of(&answer)] += 1;
            if matches!(answer.kind, AnswerKind::Inserted | AnswerKind::Held) && policy >= DEFAULT {
                entries[(policy - DEFAULT) as usize] += 1;
                let mark = |(_, offset, _)| offset == Offset::MARK;
                marks += usize::from(call.entry.as_decision().is_some_and(mark));
            }
            inputs += 1;
        }
    }
    count("calls on boards that no run makes", inputs, format!("answered, refused 1 to 13: {outcomes:?}"));
    println!("         inserted or held under policies 2 to 5: {entries:?}, {marks} of the mark");
    assert!(entries.iter().all(|often| *often > 200) && marks > 20, "{entries:?} {marks}");
    wide.print();
    wide.assert_boards(&[BARE], [100, 0, 20]);
    wide.assert_boards(&[WEAK, DEFAULT, STRONG, LIST], [100, 100, 20]);
    wide.assert_boards(&[WAIT_FREE], [100, 100, 5]);
    wide.assert_sets(&[DEFAULT, STRONG], 50);
    wide.assert_set_ups(10);
    tables.print();
    tables.assert_half(&[BARE, WEAK, DEFAULT, STRONG, LIST, WAIT_FREE]);
    for policy in [BARE, WEAK, DEFAULT, STRONG] {
        tables.assert_calm(policy, Calm::under(policy), 200);
    }
    denials.announced.assert_each(&lists::Cause::UNDER_5, 25);
    assert!(outcomes[12] > 200 && outcomes[13] > 200, "{outcomes:?}");
    long.print();
    long.assert_came(BARE, &[Part::Round, Part::Seat, Part::Other].map(|part| (part, [50, 0, 500])));
    long.assert_came(WEAK, &[(Part::Round, [0, 100, 500])]);
    for policy in [DEFAULT, STRONG] {
        long.assert_came(policy, &[Part::Round, Part::Seat].map(|part| (part, [5, 100, 500])));
    }
    for policy in [LIST, WAIT_FREE] {
        long.assert_came(policy, &[Part::Position, Part::Seat].map(|part| (part, [3, 50, 500])));
        long.assert_came(policy, &[(Part::Serial, [50, 50, 500])]);
    }
}

/// The benchmark's plain side, which answers from the table, answers as the one that searches.
fn hold_tabled(before: &Board, call: &Call, answer: &Answer, after: &Board) {
    let mut board = before.clone();
    assert_eq!(Answer::from(tabled::call(&mut board, call)), *answer, "{call:?} on {before:?}");
    assert!(board == *after, "{call:?} on {before:?}");
}

/// A board of one round: who has proposed what, mostly as a run makes it, at times decided or full.
fn board_of_a_round(dice: &mut Dice, round: u64) -> Board {
    let (n, policy) = (1 + dice.below(MOST_SEATS), dice.pick(&[DEFAULT, STRONG]));
    let config = config_of(dice, n, policy);
    // What no run makes: the mark or what is no choice, and a second proposal. In rounds 0 to 7 no well-formed board has them.
    let odd = dice.one_in(if round > LAST_ROUND { 2 } else { 8 });
    let share = dice.pick(&[1, 2, 3, 4, 4, 4]);
    let mut tuples = Vec::new();
    for seat in 1..=n {
        let rare = if odd { dice.below(8) } else { 2 };
        if rare == 0 {
            let none = if policy == STRONG { no_choice(dice, config.k) } else { Offset::MARK };
            tuples.push(Tuple::proposal(round, seat, none));
        } else if dice.below(4) < share {
            tuples.push(Tuple::proposal(round, seat, likely_offset(dice, &config)));
        }
        if rare == 1 {
            tuples.push(Tuple::proposal(round, seat, near_offset(dice, &config)));
        }
    }
    // What has no place in the table does not matter to the round.
    for _ in 0..dice.pick(&[0, 0, 1, 3]) {
        let place = dice.below(tuples.len() as u64 + 1) as usize;
        tuples.insert(place, stranger(dice, &config));
    }
    if dice.one_in(4) {
        tuples.push(Tuple::decision(round, likely_offset(dice, &config), 1));
    }
    if dice.one_in(8) {
        tuples.resize_with(MOST_TUPLES, || odd_tuple(dice, &config));
        // Those that would take the round's own places go elsewhere.
        if !odd {
            tables::settle(dice, &config, &mut tuples);
        }
    }
    board_with(config, &tuples)
}

/// Some members of a set, so many at most.
fn some_of(dice: &mut Dice, set: u64, most: u64) -> u64 {
    let mut some = set;
    while u64::from(some.count_ones()) > most {
        some &= !(1 << dice.below(MOST_SEATS));
    }
    some
}

/// Of a set those members that leave at most t of each offset of the round, so that none is crowded.
fn uncrowded(dice: &mut Dice, board: &Board, round: u64, set: u64) -> u64 {
    let offsets = board.held().iter().filter_map(Tuple::as_proposal).map(|(_, _, offset)| offset);
    offsets.filter(|offset| *offset != Offset::MARK).fold(set, |set, offset| {
        let theirs = bearers(board, round, offset);
        set & !theirs | some_of(dice, set & theirs, board.config.t)
    })
}

/// An out in a round: the seat's first proposal or its second, of the same or another offset, the mark or what is no choice, now and
/// then of another's number.
fn near_out(dice: &mut Dice, board: &Board, round: u64) -> Call {
    let process = 1 + dice.below(board.config.n);
    let place = Tuple::proposal_template(round, process);
    let standing = board.held().iter().find(|held| place.matches(held));
    let offset = match (standing, dice.below(8)) {
        (Some(held), 0..=2) => held.fields[3].value,
        (_, 6) => Offset::MARK,
        (_, 7) => no_choice(dice, board.config.k),
        _ => likely_offset(dice, &board.config),
    };
    let seat = if dice.one_in(5) { 1 + dice.below(board.config.n) } else { process };
    Call::out(process as u32, Tuple::proposal(round, seat, offset))
}

/// A cas in a round: of an offset or the mark with those that bear it, and then with fewer, with others or with none.
fn near_cas(dice: &mut Dice, board: &Board, round: u64) -> Call {
    let Config { n, t, policy, .. } = board.config;
    let all = (1 << n) - 1;
    let offset = match dice.below(8) {
        0..=2 if policy == DEFAULT => Offset::MARK,
        0 => no_choice(dice, board.config.k),
        _ => likely_offset(dice, &board.config),
    };
    let proposed = bearers(board, round, Offset::MARK) & all;
    let (bear, enough) = if offset == Offset::MARK {
        (uncrowded(dice, board, round, proposed), n - t)
    } else {
        (bearers(board, round, offset) & all, t + 1)
    };
    let set = match dice.below(12) {
        0 => 0,
        1 | 2 => some_of(dice, bear, enough - 1),
        // Those that proposed nothing, one or all of them; those that proposed something else.
        3 => bear | some_of(dice, all & !proposed, 1),
        4 => bear | all & !proposed,
        // With t = 0 nobody bears the mark.
        5..=8 if t == 0 && offset == Offset::MARK => proposed,
        5 | 6 => bear | some_of(dice, proposed & !bear, 1),
        7 => proposed,
        8 => (bear | 1 << dice.below(MOST_SEATS)) & Kind::Seats.last(),
        9 => dice.below(all + 1),
        _ if bear == 0 => proposed,
        _ => bear,
    };
    let asked = if dice.one_in(12) { dice.below(LAST_ROUND + 2) } else { round };
    let process = 1 + dice.below(n) as u32;
    Call::cas(process, Tuple::decision_template(asked), Tuple::decision(round, offset, set))
}

/// Calls that policies 2 and 3 deny for one cause alone, and those beside them.
#[test]
fn denials_and_their_causes() {
    let mut dice = Dice::new(14);
    let (mut inputs, mut outcomes) = (0, [0usize; ANSWERS]);
    let (mut denials, mut wide, mut tables) = (Denials::default(), Wide::default(), Tables::default());
    for _ in 0..5_000 {
        let round = dice.pick(&[0, 1, 6, 7, 8]);
        let before = board_of_a_round(&mut dice, round);
        for turn in 0..4 {
            let mut call = match dice.below(10) {
                0..=3 => near_out(&mut dice, &before, round),
                4 => Call::inp(1, Tuple::proposal_template(round, 1)),
                _ => near_cas(&mut dice, &before, round),
            };
            if dice.one_in(10) {
                let part = dice.below(PARTS);
                spoil(&mut dice, &mut call, part);
            }
            let mut after = before.clone();
            let answer = compare_call(&mut after, &call);
            if turn == 0 {
                tables.note(&before, answer == Answer::from(Refusal::Unsound));
            }
            hold_tabled(&before, &call, &answer, &after);
            denials.note(&before, &call, &answer);
            wide.note(&before, &call, &answer);
            outcomes[refusal_of(&answer)] += 1;
            inputs += 1;
        }
    }
    count("calls denied and beside those", inputs, format!("answered, refused 1 to 13: {outcomes:?}"));
    denials.print();
    denials.assert_each(DEFAULT, &Cause::BOTH, 25);
    denials.assert_each(DEFAULT, &Cause::DEFAULT_ONLY, 25);
    denials.assert_each(STRONG, &Cause::BOTH, 25);
    denials.assert_each(STRONG, &Cause::STRONG_ONLY, 25);
    wide.print();
    wide.assert_boards(&[DEFAULT, STRONG], [25, 100, 10]);
    wide.assert_sets(&[DEFAULT, STRONG], 100);
    tables.print();
    tables.assert_half(&[DEFAULT, STRONG]);
    for policy in [DEFAULT, STRONG] {
        tables.assert_calm(policy, &Calm::UNDER_2_AND_3, 100);
    }
}

/// A well-formed board of a policy: one that a run makes part of the time, else one that no run need make.
fn formed_board(dice: &mut Dice, policy: u64) -> Board {
    let n = 1 + dice.below(MOST_SEATS);
    let config = config_of(dice, n, policy);
    let held = dice.pick(&[0, 1, 3, 8, 20, 40, 100, 200, MOST_TUPLES as u64]);
    let mut tuples: Vec<Tuple> = (0..held).map(|_| odd_tuple(dice, &config)).collect();
    if [DEFAULT, STRONG].contains(&policy) && dice.one_in(2) {
        // Rounds as a run makes them, up to the last of them.
        let proposal = |place: u64| Tuple::proposal(place / n, 1 + place % n, 1 + 2 * (place % 2));
        tuples = (0..held.min((LAST_ROUND + 1) * n)).map(proposal).collect();
    }
    tables::settle(dice, &config, &mut tuples);
    board_with(config, &tuples)
}

/// Boards that are well formed, and those beside them with one fault of their tables or of what is proposed on them: these are refused 1 by
/// every call and by the script writer, and come back as they were. And those with what has no place in the table, which does not matter.
#[test]
fn boards_and_their_tables() {
    let mut dice = Dice::new(29);
    let mut tables = Tables::default();
    let mut inputs = [0usize; 3];
    let try_board = |dice: &mut Dice, tables: &mut Tables, board: &Board, fault: Option<Unfit>| {
        assert_eq!(tables::unfit(board), fault, "{board:?}");
        let mut after = board.clone();
        let call = aimed_call(dice, board);
        let answer = compare_call(&mut after, &call);
        let room = dice.pick(&[0, 3, LONGEST_DUMP]);
        let dumped = compare_dump(board, &vec![0xA5; room]);
        let refused = answer == Answer::from(Refusal::Unsound);
        assert_eq!(refused, dumped == Err(Refusal::Unsound), "{call:?} on {board:?}");
        assert!(!refused || after == *board, "a refused call changed the board");
        tables.note(board, refused);
        refused
    };
    for (turn, policy) in (0..300).flat_map(|turn| (0..=WAIT_FREE).map(move |policy| (turn, policy))) {
        let board = formed_board(&mut dice, policy);
        assert!(!try_board(&mut dice, &mut tables, &board, None));
        inputs[0] += 1;
        for fault in Unfit::under(policy) {
            if let Some(other) = with_fault(&mut dice, &board, *fault) {
                assert!(try_board(&mut dice, &mut tables, &other, Some(*fault)));
                inputs[1] += 1;
            }
        }
        // One stranger, or several, the same one among them.
        let mut tuples = board.held().to_vec();
        tuples.truncate(MOST_TUPLES - 4);
        for _ in 0..1 + turn % 3 {
            let other = stranger(&mut dice, &board.config);
            let place = dice.below(tuples.len() as u64 + 1) as usize;
            tuples.insert(place, other);
            if turn % 3 == 1 {
                tuples.push(other);
            }
        }
        let other = board_with(board.config, &tuples);
        assert!(!try_board(&mut dice, &mut tables, &other, None));
        inputs[2] += 1;
    }
    let [formed, faults, strangers] = inputs;
    count(
        "boards and their tables",
        formed + faults + strangers,
        format!("{formed} well formed, {faults} with one fault, each refused 1, {strangers} with strangers"),
    );
    tables.print();
    for policy in 0..=WAIT_FREE {
        tables.assert_unfit(policy, Unfit::under(policy), 100);
    }
    for policy in [BARE, WEAK, DEFAULT, STRONG] {
        tables.assert_calm(policy, Calm::under(policy), 25);
    }
}

/// How many tuples the boards hold that are then made dirty: few or none, and half of what they may or more.
const HELD: [[usize; 2]; 3] = [[0, MOST_TUPLES / 2], [1, MOST_TUPLES - 1], [2, MOST_TUPLES]];

/// Boards that are well formed but for one number: whatever the call, it is refused 1, and the board comes back as it was. Nor are they
/// written back as scripts, whatever the buffer.
#[test]
fn boards_with_dirty_places() {
    let mut dice = Dice::new(12);
    let mut inputs = 0;
    let mut try_board = |dice: &mut Dice, mut board: Board| {
        let mut call = aimed_call(dice, &board);
        if dice.one_in(4) {
            let part = dice.below(PARTS);
            spoil(dice, &mut call, part);
        }
        let before = board.clone();
        assert_eq!(compare_call(&mut board, &call), Answer::from(Refusal::Unsound), "{call:?} on {before:?}");
        assert!(board == before, "a refused call changed the board");
        let room = dice.pick(&[0, 3, LONGEST_DUMP]);
        assert_eq!(compare_dump(&board, &vec![0xA5; room]), Err(Refusal::Unsound), "{board:?}");
        inputs += 1;
    };
    for (policy, held) in (0..=5).flat_map(|policy| HELD[policy as usize % 3].map(|held| (policy, held))) {
        let config = four_seats(policy);
        let mut tuples: Vec<Tuple> = (0..held).map(|_| odd_tuple(&mut dice, &config)).collect();
        tables::settle(&mut dice, &config, &mut tuples);
        let clean = board_with(config, &tuples);
        assert_eq!(clean.check(), Ok(()));
        for place in 0..MOST_TUPLES {
            for part in 0..TUPLE_PARTS {
                let mut board = clean.clone();
                soil(&mut dice, &mut board.tuples[place], part);
                try_board(&mut dice, board);
            }
        }
        // Every place of the table, and what stands there made another, or nothing.
        for place in 0..PLACES {
            let code = clean.table[place];
            let other = if code == 0 { dice.pick(&[1, 2, 3, 200_001]) } else { code ^ dice.pick(&[1, 2, 4]) };
            for value in [other, if code == 0 { u64::MAX } else { 0 }] {
                let mut board = clean.clone();
                board.table[place] = value;
                try_board(&mut dice, board);
            }
        }
        let beyond = [MOST_TUPLES + 1, 2 * MOST_TUPLES, 1 << 20, usize::MAX];
        for count in HELD.into_iter().flatten().chain(beyond) {
            if count != held {
                try_board(&mut dice, Board { count, ..clean.clone() });
            }
        }
        // Another k, or a policy to which this k does not belong.
        for k in CHOICES.into_iter().filter(|k| *k != config.k) {
            try_board(&mut dice, Board { config: Config { k, ..config }, ..clean.clone() });
        }
        let strange = |other: &u64| *other > WAIT_FREE || (*other == STRONG) != (policy == STRONG);
        for policy in POLICIES.into_iter().filter(strange) {
            try_board(&mut dice, Board { config: Config { policy, ..config }, ..clean.clone() });
        }
    }
    count("calls on boards with one dirty number", inputs, "each refused 1, the board as it was".into());
    count("such boards written back", inputs, "each refused 1".into());
}

/// A tuple that a run may well append to this board, seldom one that none can.
fn next_tuple(dice: &mut Dice, board: &Board) -> Tuple {
    let Config { n, policy, k, .. } = board.config;
    let round = if dice.one_in(30) { LAST_ROUND + 1 } else { dice.pick(&[0, 0, 1, LAST_ROUND]) };
    let rare = if policy == WEAK { 20 } else { 60 };
    let offset = if dice.one_in(rare) { no_choice(dice, k) } else { likely_offset(dice, &board.config) };
    match policy {
        _ if dice.one_in(40) => odd_tuple(dice, &board.config),
        WAIT_FREE if dice.one_in(3) => odd_announced(dice, &board.config, board.held()),
        LIST | WAIT_FREE => odd_listed(dice, &board.config, board.count as u64, 16),
        WEAK => weak_decision(dice.below(LAST_ROUND + 1).max(round), offset),
        _ => match ripe(board, round) {
            Some(ripe) if dice.one_in(2) => next_decision(dice, board, round, ripe),
            None if dice.one_in(20) => next_decision(dice, board, round, offset),
            _ => {
                let proposed = bearers(board, round, Offset::MARK);
                let free: Vec<u64> = (1..=n).filter(|seat| proposed >> (seat - 1) & 1 == 0).collect();
                // Seldom one that has proposed, and one that is none.
                let any = free.is_empty() || dice.one_in(10);
                let taken = dice.one_in(4);
                let seat = match (any, taken) {
                    (false, _) => dice.pick(&free),
                    (true, true) => 1 + dice.below(n),
                    (true, false) => dice.pick(&[0, n + 1]),
                };
                Tuple::proposal(round, seat, offset)
            }
        },
    }
}

/// What may be decided in a round not yet decided: an offset that t + 1 seats have proposed, or the mark.
fn ripe(board: &Board, round: u64) -> Option<u64> {
    let Config { n, t, policy, .. } = board.config;
    if board.held().iter().any(|held| Tuple::decision_template(round).matches(held)) {
        return None;
    }
    let seats = |offset| u64::from(bearers(board, round, offset).count_ones());
    let offsets = board.held().iter().filter_map(Tuple::as_proposal).map(|(_, _, offset)| offset);
    let crowded = offsets.filter(|offset| *offset != Offset::MARK).find(|offset| seats(*offset) > t);
    crowded.or((policy == DEFAULT && seats(Offset::MARK) >= n - t).then_some(Offset::MARK))
}

/// A decision with those that bear it; at times of the mark or another offset, or with one seat more or fewer.
fn next_decision(dice: &mut Dice, board: &Board, round: u64, offset: u64) -> Tuple {
    let offset = match dice.below(8) {
        0 => no_choice(dice, board.config.k),
        1 | 2 if board.config.policy == DEFAULT => Offset::MARK,
        _ => offset,
    };
    let other = if dice.one_in(6) { 1 << dice.below(board.config.n + 1) } else { 0 };
    Tuple::decision(round, offset, bearers(board, round, offset) ^ other)
}

/// A board of a few tuples.
fn small_board(dice: &mut Dice) -> Board {
    let (n, policy) = (dice.pick(&[1, 2, 3, 4, 4, 4, 5, 7]), dice.below(WAIT_FREE + 1));
    let mut board = Board::fresh(config_of(dice, n, policy)).expect("a sound set-up");
    for _ in 0..dice.below(11) {
        let tuple = next_tuple(dice, &board);
        tables::push(&mut board, tuple);
    }
    board
}

/// Boards written back as scripts, whether a run makes them or not.
fn written_back(kind: &str, boards: usize, mut next: impl FnMut() -> Board) -> Dumps {
    let mut dumps = Dumps::default();
    for _ in 0..boards {
        _ = dumps.note(&next());
    }
    count(kind, dumps.boards(), String::new());
    dumps.print();
    dumps
}

#[test]
fn small_boards_written_back() {
    let mut dice = Dice::new(15);
    let dumps = written_back("small boards written back, and boards beside them", 22_000, || {
        let board = small_board(&mut dice);
        if dice.one_in(2) {
            near_miss(&mut dice, &board)
        } else {
            board
        }
    });
    for policy in [BARE, WEAK, DEFAULT, STRONG, LIST, WAIT_FREE] {
        dumps.assert_came(policy, 25);
    }
    dumps.assert_each(WEAK, &Flaw::UNDER_1, 25);
    dumps.assert_each(LIST, &Flaw::UNDER_4, 25);
    dumps.assert_each(DEFAULT, &Flaw::UNDER_2_AND_3, 5);
    dumps.assert_each(DEFAULT, &Flaw::UNDER_2, 5);
    dumps.assert_each(STRONG, &Flaw::UNDER_2_AND_3, 5);
    dumps.assert_each(STRONG, &Flaw::UNDER_3, 5);
    dumps.assert_half(&[BARE, WEAK, DEFAULT, STRONG, LIST, WAIT_FREE]);
    let calm = [Calm::SeatZero, Calm::SeatNext, Calm::RoundNext, Calm::Twice];
    dumps.assert_tables(DEFAULT, (&[Unfit::SameAgain, Unfit::OtherAgain, Unfit::Mark], &calm), 25);
    dumps.assert_tables(DEFAULT, (&[Unfit::Changed, Unfit::Missing, Unfit::AboveN], &[]), 25);
    dumps.assert_tables(
        STRONG,
        (&[Unfit::SameAgain, Unfit::OtherAgain, Unfit::Mark, Unfit::NoChoice], &calm),
        25,
    );
    dumps.assert_tables(STRONG, (&[Unfit::Changed, Unfit::Missing, Unfit::AboveN], &[]), 25);
    for policy in [BARE, WEAK, LIST, WAIT_FREE] {
        dumps.assert_tables(policy, (&[Unfit::NotEmpty], &[Calm::Untabled]), 25);
    }
}

#[test]
fn boards_that_no_run_makes_written_back() {
    let mut dice = Dice::new(16);
    let dumps = written_back("boards that no run makes written back", 4_000, || odd_board(&mut dice));
    for policy in [BARE, WEAK, DEFAULT, STRONG, LIST, WAIT_FREE] {
        dumps.assert_came(policy, 1);
        dumps.assert_wide(policy, if policy == BARE { [25, 0] } else { [0, 25] });
    }
    dumps.assert_half(&[BARE, WEAK, DEFAULT, STRONG, LIST, WAIT_FREE]);
    let dumps = written_back("boards of a round written back", 3_000, || {
        let round = dice.pick(&[0, 1, 6, 7, 8]);
        let board = board_of_a_round(&mut dice, round);
        if dice.one_in(2) {
            near_miss(&mut dice, &board)
        } else {
            board
        }
    });
    dumps.assert_came(DEFAULT, 10);
    dumps.assert_came(STRONG, 10);
    dumps.assert_half(&[DEFAULT, STRONG]);
}

/// The worked script's board into every buffer up to its script's length and beyond, and the longest script.
#[test]
fn the_worked_board_and_the_longest_script() {
    let proposal = |seat, offset| Tuple::proposal(0, seat, offset);
    let tuples = [proposal(1, 0x50), proposal(2, 0x51), proposal(3, 0x50), Tuple::decision(0, 0x50, 5)];
    let worked = board_with(four_seats(DEFAULT), &tuples);
    let mut dumps = Dumps::default();
    let script = dumps.note(&worked).expect("a board that a run makes");
    let records = [
        &[0x04, 0x01, 0x02][..],
        &[0x01, 0x01, 0x04, 0x04, 0x01, 0x08, 0x00, 0x08, 0x01, 0x0C, 0x50],
        &[0x02, 0x01, 0x04, 0x04, 0x01, 0x08, 0x00, 0x08, 0x02, 0x0C, 0x51],
        &[0x03, 0x01, 0x04, 0x04, 0x01, 0x08, 0x00, 0x08, 0x03, 0x0C, 0x50],
        &[0x01, 0x04, 0x04, 0x04, 0x02, 0x08, 0x00, 0x0E, 0x11],
        &[0x04, 0x04, 0x02, 0x08, 0x00, 0x0C, 0x50, 0x10, 0x05],
    ]
    .concat();
    assert_eq!((script.len(), &script), (54, &records));
    for room in 0..=script.len() + 9 {
        let expected = if room < script.len() { Err(Refusal::Buffer) } else { Ok(records.clone()) };
        assert_eq!(compare_dump(&worked, &vec![0xA5; room]), expected);
    }
    for value in [(1 << 63) - 1, 1 << 63, Kind::Count.last()] {
        let counts = Tuple::of(&[Field::given(Kind::Count, value); MOST_FIELDS]);
        let board = board_with(four_seats(BARE), &[counts; MOST_TUPLES]);
        let length = dumps.note(&board).expect("every board is reached").len();
        assert_eq!(length == LONGEST_DUMP, value >= 1 << 63, "{length}");
    }
    assert_eq!(LONGEST_DUMP, 17_667);
    count("boards written back", dumps.boards(), "the worked script's and the longest".into());
}

/// Offsets at the bounds of their range and of the choices, and beyond.
fn offsets_to_start_with() -> Vec<Offset> {
    let numbers = [0, 1, 2, 3, 7, 8, 9, -1, -2, -8, 100_000, -100_000, 100_001, -100_001, i32::MAX, i32::MIN];
    numbers.into_iter().map(|z| Offset::Number(z.into())).chain([Offset::Mark]).collect()
}

/// Flags of the mark, and hundredths beside it that would start a seat.
const FLAGGED: [(u32, i32); 9] =
    [(1, 1), (2, 0), (2, -40), (128, 1), (255, 0), (255, 100_000), (256, 0), (65_536, -40), (u32::MAX, 1)];

#[test]
fn seats_started() {
    let all = offsets_to_start_with();
    let (mut inputs, mut started) = (0, [0usize; 2]);
    for config in every_config() {
        // A set-up that is not sound is refused 1 whatever else is handed in: a few will do.
        let sound = config.check().is_ok();
        let processes: &[u32] =
            if sound { &[0, 1, 4, 5, MOST_SEATS as u32, MOST_SEATS as u32 + 1, u32::MAX] } else { &[0, 1] };
        let rounds: &[u64] = if sound { &[0, 7, 8, u64::MAX] } else { &[0, 8] };
        let offsets: &[Offset] =
            if sound { &all } else { &[Offset::Number(0), Offset::Number(2), Offset::Mark] };
        for process in processes {
            for round in rounds {
                for offset in offsets {
                    let starts = compare_start(config, *process, *round, *offset).is_ok();
                    started[usize::from(config.policy == STRONG)] += usize::from(starts);
                    inputs += 1;
                }
                // Every flag but 0 is the mark's, whatever stands beside it.
                for (flag, hundredths) in if sound { &FLAGGED[..] } else { &FLAGGED[..1] } {
                    let mark = compare_flagged(config, *process, *round, (*flag, *hundredths));
                    assert!(mark.is_err(), "{config:?} {process} {round} {flag} {hundredths}");
                    inputs += 1;
                }
            }
        }
    }
    count("seats started at every bound", inputs, format!("start under policies 2 and 3: {started:?}"));
}

/// How many seats the states have.
const SIZES: [u64; 17] = [1, 2, 3, 4, 4, 4, 5, 7, 9, 10, 13, 16, 20, 22, 25, 28, MOST_SEATS];

/// A state of any phase: near what the procedure reaches, or any.
fn any_state(dice: &mut Dice) -> Seat {
    let (n, policy) = (dice.pick(&SIZES), dice.pick(&[DEFAULT, STRONG]));
    let mut config = config_of(dice, n, policy);
    let k = config.k;
    if dice.one_in(20) {
        config = odd_config(dice);
    }
    let (mut process, mut round) = (1 + dice.below(n) as u32, dice.below(8));
    if dice.one_in(20) {
        process = dice.pick(&SEATS);
    }
    if dice.one_in(20) {
        round = dice.pick(&VALUES);
    }
    // Found seats: few offsets, so that they meet; seldom out of range, no choice or behind n.
    let mut found = [0; MOST_SEATS as usize];
    let share = dice.below(4);
    for place in &mut found[..n as usize] {
        if dice.below(4) < share {
            *place = likely_offset(dice, &config);
        }
    }
    if dice.one_in(12) {
        found[dice.below(MOST_SEATS) as usize] =
            dice.pick(&[0, 1, 2, 2 * k, 1 + 2 * k, 200_000, 200_001, 200_002, u64::MAX]);
    }
    let phase = match dice.below(10) {
        0 => Phase::Proposing,
        1..=4 => Phase::Reading(if dice.one_in(8) { dice.pick(&SEATS) } else { 1 + dice.below(n) as u32 }),
        5..=8 => Phase::Deciding,
        _ => {
            let last = (1 + 2 * k).saturating_sub(2);
            Phase::Decided(dice.pick(&[
                0,
                1,
                3,
                last,
                last + 1,
                last + 2,
                200_000,
                200_001,
                200_002,
                u64::MAX,
            ]))
        }
    };
    if matches!(phase, Phase::Proposing | Phase::Decided(_)) && !dice.one_in(6) {
        found.fill(0);
    }
    if let (Phase::Reading(asked), true) = (phase, dice.below(4) > 0) {
        if let Some(place) = found.get_mut((asked as usize).wrapping_sub(1)) {
            *place = 0;
        }
    }
    Seat { config, process, round, phase, found }
}

/// A state that the procedure reaches, of any phase; every step to it by both.
fn reached_state(dice: &mut Dice, wide: &mut Wide) -> Seat {
    let (n, policy) = (dice.pick(&SIZES), dice.pick(&[DEFAULT, STRONG]));
    let config = config_of(dice, n, policy);
    let (process, round) = (1 + dice.below(n) as u32, dice.below(8));
    let offset = likely_offset(dice, &config);
    let offset = Offset::from_travelling(offset).expect("an offset in range");
    let (mut seat, _) = compare_start(config, process, round, offset).expect("a seat that may start");
    for _ in 0..dice.below(n + 4) {
        let answer = fitting_answer(dice, &seat);
        let result = compare_hand(&seat, &answer);
        wide.note_step(&seat, &result);
        (seat, _) = result.expect("a fitting answer");
    }
    seat
}

/// An answer that fits a state that the procedure reaches.
fn fitting_answer(dice: &mut Dice, seat: &Seat) -> Answer {
    let offset = likely_offset(dice, &seat.config);
    match seat.phase {
        Phase::Proposing => Answer::DONE,
        Phase::Reading(_) if dice.one_in(4) => Answer::NONE,
        Phase::Reading(asked) => Answer::found(Tuple::proposal(seat.round, asked.into(), offset)),
        Phase::Deciding if dice.one_in(2) => Answer::INSERTED,
        Phase::Deciding | Phase::Decided(_) => {
            Answer::held(Tuple::decision(seat.round, offset, dice.below(1 << seat.config.n)))
        }
    }
}

/// Gives one part of a state another value.
fn change_state(dice: &mut Dice, seat: &mut Seat) {
    let Config { n, t, k, .. } = seat.config;
    match dice.below(8) {
        0 => seat.config.n = dice.pick(&[n - 1, n + 1]),
        1 => seat.config.t = dice.pick(&[t.saturating_sub(1), t + 1, u64::MAX]),
        2 => seat.config.policy = dice.pick(&POLICIES),
        3 => {
            seat.config.k =
                if dice.one_in(2) { dice.pick(&CHOICES) } else { dice.pick(&[k + 1, k.max(1) - 1]) }
        }
        4 => seat.phase = dice.pick(&[Phase::Proposing, Phase::Deciding]),
        5 => seat.phase = Phase::Reading(dice.below(n + 2) as u32),
        6 => seat.phase = Phase::Decided(near_offset(dice, &seat.config)),
        _ => {
            let offset = if dice.one_in(3) { 0 } else { near_offset(dice, &seat.config) };
            seat.found[dice.below(MOST_SEATS) as usize] = offset;
        }
    }
}

/// A state: reached, reached and then changed in one part, or any.
fn state(dice: &mut Dice, wide: &mut Wide) -> Seat {
    if dice.one_in(2) {
        return any_state(dice);
    }
    let mut seat = reached_state(dice, wide);
    if dice.one_in(2) {
        change_state(dice, &mut seat);
    }
    seat
}

/// An answer that fits the state, nearly fits it, or is any.
fn answer(dice: &mut Dice, seat: &Seat) -> Answer {
    let offset = near_offset(dice, &seat.config);
    let asked = if let Phase::Reading(asked) = seat.phase { asked } else { 1 };
    let bits = if dice.one_in(6) { MOST_SEATS + 1 } else { seat.config.n.clamp(1, MOST_SEATS) };
    let set = dice.below(1 << bits);
    let mut answer = match (seat.phase, dice.below(4)) {
        (_, 0) => Answer::bare(any_kind(dice)),
        (Phase::Proposing, _) => Answer::DONE,
        (Phase::Reading(_), 1) => Answer::NONE,
        (Phase::Reading(_), _) => Answer::found(Tuple::proposal(seat.round, asked.into(), offset)),
        (Phase::Deciding, 1) => Answer::INSERTED,
        _ => Answer::held(Tuple::decision(seat.round, offset, set)),
    };
    // What fits but for its kind, for a number of its tuple, or for all of it.
    if dice.one_in(8) {
        answer.kind = any_kind(dice);
    }
    if dice.one_in(4) {
        let part = dice.below(TUPLE_PARTS);
        spoil_tuple(dice, &mut answer.tuple, part);
    }
    if dice.one_in(10) {
        answer.tuple = good_tuple(dice, true);
    }
    answer
}

fn any_kind(dice: &mut Dice) -> AnswerKind {
    dice.pick(&[
        AnswerKind::Done,
        AnswerKind::None,
        AnswerKind::Inserted,
        AnswerKind::Found,
        AnswerKind::Held,
        AnswerKind::Refused(Refusal::Denied),
        AnswerKind::Refused(Refusal::Second),
        AnswerKind::Refused(Refusal::Unborne),
        AnswerKind::Refused(Refusal::Unreached),
        AnswerKind::Refused(Refusal::Unwritten),
        AnswerKind::Refused(Refusal::Unfit),
    ])
}

#[test]
fn states_and_answers() {
    let mut dice = Dice::new(5);
    let (mut inputs, mut results) = (0, [[0usize; 3]; 2]);
    let mut wide = Wide::default();
    for _ in 0..60_000 {
        let mut seat = state(&mut dice, &mut wide);
        let results = &mut results[usize::from(seat.config.policy == STRONG)];
        // Onward from it, as long as answers fit.
        for _ in 0..3 {
            let answer = answer(&mut dice, &seat);
            inputs += 1;
            let result = compare_hand(&seat, &answer);
            wide.note_step(&seat, &result);
            match result {
                Ok((next, _)) => {
                    results[0] += 1;
                    seat = next;
                }
                Err(refusal) => {
                    results[if refusal == Refusal::Unsound { 1 } else { 2 }] += 1;
                    if refusal == Refusal::Unsound {
                        break;
                    }
                }
            }
        }
    }
    let [others, strong] = results;
    let note = format!("goes on, refused 1, refused 11: {others:?}, under policy 3 {strong:?}");
    count("states and answers handed", inputs, note);
    wide.print();
    wide.assert_given(100);
    wide.assert_set_ups(10);
}

/// Numbers that stand for no phase, no outcome or no refusal, and values beside a phase that has none.
#[test]
fn numbers_that_are_no_case() {
    let mut dice = Dice::new(6);
    let mut inputs = 0;
    for _ in 0..20_000 {
        let seat = state(&mut dice, &mut Wide::default());
        let answer = answer(&mut dice, &seat);
        let (mut process, mut reply) = (flat::process(&seat), flat::reply(&answer));
        if dice.one_in(2) {
            match dice.below(3) {
                0 => process.phase = dice.pick(&[4, 5, 127, 128, 255, 256, 257, 65_538, u32::MAX]),
                1 => {
                    process.phase = dice.pick(&[0, 2]);
                    process.value = dice.pick(&[1, 2, MOST_SEATS, u64::MAX]);
                }
                _ => {
                    process.phase = 1;
                    process.value = dice.pick(&[1 << 32, (1 << 32) + 1, u64::MAX]);
                }
            }
            compare_numbers(process, reply, flat::refused(&process, Refusal::Unsound));
        } else {
            match dice.below(2) {
                0 => {
                    (reply.outcome, reply.refusal) = (
                        dice.pick(&[5, 6, 7, 128, 255, 256, 258, u32::MAX]),
                        dice.pick(&[0, 1, 7, 11, 12, 13, 14, 15, 16, 255, 256, u32::MAX]),
                    )
                }
                _ => {
                    (reply.outcome, reply.refusal) = (
                        dice.below(6) as u32,
                        dice.pick(&[1, 2, 7, 11, 12, 13, 14, 15, 16, 255, 256, u32::MAX]),
                    )
                }
            }
            let unknown = Answer { kind: AnswerKind::Refused(Refusal::Unfit), tuple: answer.tuple };
            compare_numbers(process, reply, flat::handed(&process, &seat.hand(&unknown)));
        }
        inputs += 1;
    }
    count("states and replies whose numbers are no case's", inputs, "1, or 11, or the decision again".into());
}

/// The set-ups of scripts, at every bound and in every damaged form.
#[test]
fn set_ups_of_scripts() {
    let mut dice = Dice::new(7);
    let mut inputs = 0;
    let numbers: [&[u8]; 27] = [
        &[0],
        &[1],
        &[2],
        &[3],
        &[4],
        &[5],
        &[6],
        &[8],
        &[9],
        &[10],
        &[11],
        &[MOST_SEATS as u8 - 1],
        &[MOST_SEATS as u8],
        &[MOST_SEATS as u8 + 1],
        &[0x7F],
        &[0x80, 0x01],
        &[0x84, 0x00],
        &[0x80],
        &[0xFF, 0xFF, 0xFF, 0xFF, 0x0F],
        &[0xFF, 0xFF, 0xFF, 0xFF, 0x10],
        &[0xFF, 0xFF, 0xFF, 0xFF, 0xFF],
        &[0x80, 0x80, 0x80, 0x80],
        &[0x83, 0x80, 0x80, 0x80, 0x10],
        &[0xFF, 0xFF, 0xFF, 0xFF, 0xFF, 0xFF, 0xFF, 0xFF, 0xFF, 0x01],
        &[0xFF, 0xFF, 0xFF, 0xFF, 0xFF, 0xFF, 0xFF, 0xFF, 0xFF, 0x02],
        &[0xFF; 10],
        &[],
    ];
    for n in numbers {
        for t in numbers {
            for policy in numbers {
                // Behind policy 3 stands k; behind another, the same bytes are a record that ends too early.
                let fourth: &[&[u8]] = if policy == [3] { &numbers } else { &[&[], &[2], &[0x80, 0]] };
                for k in fourth {
                    let script: Vec<u8> = [n, t, policy, *k].concat();
                    let buffer = vec![0xA5; dice.pick(&[0, 9, 10, 11, 24, 25, 26, 60])];
                    _ = compare_script(&script, &buffer);
                    inputs += 1;
                }
            }
        }
    }
    let longest = scripts_of_the_longest_length();
    for script in &longest {
        _ = compare_script(script, &vec![0xA5; 1 << 20]);
        inputs += 1;
    }
    count(
        "set-ups of scripts, and scripts of the longest length",
        inputs,
        format!("{} of these, {} texts as the program prints them", longest.len(), texts()),
    );
}

/// Scripts at and above the greatest length, behind set-ups that stand, that are refused 1, and that can't be read. Above it all are 9.
fn scripts_of_the_longest_length() -> Vec<Vec<u8>> {
    let set_ups: [&[u8]; 10] = [
        &[4, 1, 0],
        &[4, 1, 2],
        &[5, 1, 3, 3],
        &[3, 1, 0],
        &[4, 1, 6],
        &[4, 1, 3, 9],
        &[0x84, 0x00, 1, 0],
        &[4, 1, 0x80, 0x00],
        &[4, 0xFF, 0xFF, 0xFF, 0xFF, 0x10, 0],
        &[0xFF; 10],
    ];
    let mut scripts = Vec::new();
    for set_up in set_ups {
        for length in [65_535, 65_536, 65_537, 70_000] {
            let mut script = set_up.to_vec();
            while script.len() + 5 <= length {
                script.extend([1, 1 + (script.len() % 3) as u8 % 2, 1, 4, 7]);
            }
            script.resize(length, 1);
            scripts.push(script);
        }
    }
    scripts
}

#[test]
fn fresh_boards() {
    let configs = every_config();
    let sound = configs.iter().filter(|config| compare_fresh(**config).is_ok()).count();
    count("fresh boards", configs.len(), format!("{sound} of sound set-ups"));
}
