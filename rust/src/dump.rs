//! A board written back as a script (02, 2.4 and 2.6 to 2.9).

use crate::board::{Answer, AnswerKind, Board, Obey, MOST_TUPLES};
use crate::config::{Config, BARE, LIST, STRONG, WAIT_FREE, WEAK};
use crate::fields::{Field, Kind, Tuple, DECISION, MOST_FIELDS};
use crate::numbers::{write_number, LONGEST_NUMBER};
use crate::records::{push_record, Call};
use crate::refusal::Refusal;

/// The longest script that is written: a set-up of three bytes, then 256 outs
/// of six counts. Seat, code, field count and heads take a byte each.
pub const LONGEST_DUMP: usize = 3 + MOST_TUPLES * (3 + MOST_FIELDS * (1 + LONGEST_NUMBER));

/// Stores the board's script from the buffer's first byte and answers its
/// length. No byte after it is changed, and on a refusal no byte at all.
pub fn dump_into(board: &Board, buffer: &mut [u8]) -> Result<usize, Refusal> {
    dump_by(board, buffer, Board::obey)
}

/// The same, each call of the run obeyed in this way.
pub(crate) fn dump_by(board: &Board, buffer: &mut [u8], obey: Obey) -> Result<usize, Refusal> {
    let script = script_by(board, obey)?;
    let lent = buffer.get_mut(..script.len()).ok_or(Refusal::Buffer)?;
    lent.copy_from_slice(&script);
    Ok(script.len())
}

/// A script whose run ends in this board; refused 1, then 15 under policy 5,
/// then 14 if there is none.
///
/// Under policy 0 there always is one. Under policies 1 to 4 nothing is taken
/// off, so a run that ends in this board appends its tuples one by one, oldest
/// first, and the only calls that could are those of `call_of`. So it is
/// enough to see whether these, in a run of their own, append every tuple.
pub fn script_of(board: &Board) -> Result<Vec<u8>, Refusal> {
    script_by(board, Board::obey)
}

/// The same, each call of the run obeyed in this way.
fn script_by(board: &Board, obey: Obey) -> Result<Vec<u8>, Refusal> {
    board.check()?;
    if board.config.policy == WAIT_FREE {
        return Err(Refusal::Unwritten);
    }
    let mut script = set_up(&board.config);
    let mut run = Board::fresh(board.config)?;
    for tuple in board.held() {
        let call = call_of(board.config.policy, tuple).ok_or(Refusal::Unreached)?;
        if !appends(obey(&mut run, &call)) {
            return Err(Refusal::Unreached);
        }
        push_record(&call, &mut script)?;
    }
    Ok(script)
}

/// n, t and the policy number, and under policy 3 k.
fn set_up(config: &Config) -> Vec<u8> {
    let Config { n, t, policy, k } = *config;
    let mut script = Vec::with_capacity(LONGEST_DUMP);
    for number in [n, t, policy].into_iter().chain((policy == STRONG).then_some(k)) {
        write_number(number, &mut script);
    }
    script
}

/// The call that puts this tuple on a board, if the policy can permit any: under
/// policy 0 an out by seat 1, else for a proposal an out by its seat, for a
/// decision a cas by seat 1, which is permitted to it if it is to anyone, and
/// for a list tuple a cas by its seat.
fn call_of(policy: u64, tuple: &Tuple) -> Option<Call> {
    match policy {
        BARE => Some(Call::out(1, *tuple)),
        WEAK => {
            let round = tuple.fields[1].value_of(Kind::Count)?;
            Some(Call::cas(1, weak_template(round), *tuple))
        }
        LIST => {
            let (position, seat, _, _) = tuple.as_listed()?;
            Some(Call::cas(u32::try_from(seat).ok()?, Tuple::listed_template(position), *tuple))
        }
        _ => match tuple.as_proposal() {
            Some((_, seat, _)) => Some(Call::out(u32::try_from(seat).ok()?, *tuple)),
            None => {
                let (round, _, _) = tuple.as_decision()?;
                Some(Call::cas(1, Tuple::decision_template(round), *tuple))
            }
        },
    }
}

/// (word 2, count round, open offset).
fn weak_template(round: u64) -> Tuple {
    Tuple::of(&[
        Field::given(Kind::Word, DECISION),
        Field::given(Kind::Count, round),
        Field::open(Kind::Offset),
    ])
}

/// Whether a call that was answered so has appended its entry.
fn appends(answer: Result<Answer, Refusal>) -> bool {
    answer.is_ok_and(|answer| matches!(answer.kind, AnswerKind::Done | AnswerKind::Inserted))
}

#[cfg(test)]
mod tests {
    use std::collections::HashSet;

    use super::*;
    use crate::board::making::with;
    use crate::config::making::{config, strong};
    use crate::records::Reader;
    use crate::script::run;
    use crate::table;
    use Refusal::*;

    /// (word 2, count round, offset).
    fn weak(round: u64, offset: u64) -> Tuple {
        Tuple::of(&[
            Field::given(Kind::Word, DECISION),
            Field::given(Kind::Count, round),
            Field::given(Kind::Offset, offset),
        ])
    }

    /// Bytes from two-digit hexadecimal groups.
    fn hex(text: &str) -> Vec<u8> {
        text.split_whitespace().map(|byte| u8::from_str_radix(byte, 16).unwrap()).collect()
    }

    /// The board in which a script without fault ends.
    fn end_of(script: &[u8], config: Config) -> Board {
        let mut reader = Reader::new(script);
        for number in [config.n, config.t, config.policy] {
            assert_eq!(reader.number(), Ok(number));
        }
        if config.policy == STRONG {
            assert_eq!(reader.number(), Ok(config.k));
        }
        let mut board = Board::fresh(config).unwrap();
        while !reader.at_end() {
            let call = reader.record().unwrap();
            assert!(appends(board.obey(&call)), "{call:?}");
        }
        board
    }

    /// Writes the board's script, which must give it back.
    fn written(board: &Board) -> Vec<u8> {
        let script = script_of(board).unwrap();
        assert_eq!(end_of(&script, board.config), *board);
        script
    }

    fn refused(config: Config, tuples: &[Tuple]) {
        assert_eq!(script_of(&with(config, tuples)), Err(Unreached), "{config:?} {tuples:?}");
    }

    fn unsound(config: Config, tuples: &[Tuple]) {
        assert_eq!(script_of(&with(config, tuples)), Err(Unsound), "{config:?} {tuples:?}");
    }

    /// The board in which the worked script of 01 ends.
    fn worked() -> Board {
        let proposal = |seat, offset| Tuple::proposal(0, seat, offset);
        let tuples = [proposal(1, 0x50), proposal(2, 0x51), proposal(3, 0x50), Tuple::decision(0, 0x50, 5)];
        with(config(4, 1, 2), &tuples)
    }

    const WORKED: &str = "04 01 02
        01 01 04 04 01 08 00 08 01 0C 50
        02 01 04 04 01 08 00 08 02 0C 51
        03 01 04 04 01 08 00 08 03 0C 50
        01 04 04 04 02 08 00 0E 11 04 04 02 08 00 0C 50 10 05";

    #[test]
    fn the_worked_board() {
        assert_eq!(written(&worked()), hex(WORKED));
        assert_eq!(hex(WORKED).len(), 54);
        let text = "board 4 1 2\n1 done\n2 done\n3 done\n4 inserted\ntuples 4\n";
        assert_eq!(run(&hex(WORKED)), text);
    }

    #[test]
    fn an_empty_board() {
        for policy in [0, 1, 2, 4] {
            assert_eq!(written(&with(config(4, 1, policy), &[])), [4, 1, policy as u8]);
        }
        assert_eq!(written(&with(config(31, 10, 2), &[])), [31, 10, 2]);
        assert_eq!(written(&with(strong(31, 3, 8), &[])), [31, 3, 3, 8]);
    }

    #[test]
    fn under_policy_0_each_is_an_out_by_seat_1() {
        // What the other policies never reach: each of these tuples, twice.
        let tuples = [Tuple::proposal(9, 7, 0), Tuple::decision(0, 3, 0x7FFF_FFFF), weak(0, 0)];
        let board = with(config(1, 0, 0), &[tuples, tuples].concat());
        let once = "01 01 04 04 01 08 09 08 07 0C 00
            01 01 04 04 02 08 00 0C 03 10 FF FF FF FF 07
            01 01 03 04 02 08 00 0C 00";
        assert_eq!(written(&board), hex(&format!("01 00 00 {once} {once}")));
        for policy in [config(4, 1, 1), config(4, 1, 2), strong(4, 1, 2), config(4, 1, 4)] {
            for tuple in tuples {
                refused(policy, &[tuple]);
            }
        }
    }

    #[test]
    fn under_policy_1() {
        let board = with(config(4, 1, 1), &[weak(7, 1), weak(0, 0x50)]);
        let script = "04 01 01
            01 04 03 04 02 08 07 0E 03 04 02 08 07 0C 01
            01 04 03 04 02 08 00 0E 03 04 02 08 00 0C 50";
        assert_eq!(written(&board), hex(script));
        refused(board.config, &[weak(0, 0)]);
        refused(board.config, &[weak(8, 1)]);
        refused(board.config, &[weak(0, 1), weak(0, 1)]);
        refused(board.config, &[weak(0, 1), weak(1, 1), weak(0, 3)]);
        refused(board.config, &[Tuple::proposal(0, 1, 3)]);
        refused(board.config, &[Tuple::decision(0, 3, 1)]);
        refused(board.config, &[Tuple::of(&[Field::given(Kind::Word, 2)])]);
        let mut worded = weak(0, 1);
        worded.fields[0].value = 3;
        refused(board.config, &[worded]);
    }

    #[test]
    fn under_policy_3() {
        let proposals = [Tuple::proposal(7, 4, 3), Tuple::proposal(7, 2, 3)];
        let decided = [proposals[0], proposals[1], Tuple::decision(7, 3, 0b1010)];
        let script = "04 01 03 02
            04 01 04 04 01 08 07 08 04 0C 03
            02 01 04 04 01 08 07 08 02 0C 03
            01 04 04 04 02 08 07 0E 11 04 04 02 08 07 0C 03 10 0A";
        assert_eq!(written(&with(strong(4, 1, 2), &decided)), hex(script));
        for offset in [0, 2, 4, 5, 200_001] {
            unsound(strong(4, 1, 2), &[Tuple::proposal(7, 1, offset)]);
            refused(strong(4, 1, 2), &[Tuple::proposal(8, 1, offset)]);
            refused(strong(4, 1, 2), &[Tuple::proposal(7, 5, offset)]);
            refused(strong(4, 1, 2), &[proposals[0], proposals[1], Tuple::decision(7, offset, 0b1010)]);
        }
        written(&with(strong(5, 1, 3), &[Tuple::proposal(7, 1, 5)]));
        refused(strong(4, 1, 2), &[proposals[0], Tuple::decision(7, 3, 0b1000)]);
        // Three seats for the mark, as policy 2 has it.
        let three = [Tuple::proposal(0, 1, 1), Tuple::proposal(0, 2, 3), Tuple::proposal(0, 3, 5)];
        let marked = [three[0], three[1], three[2], Tuple::decision(0, 0, 0b0111)];
        written(&with(config(4, 1, 2), &marked));
        refused(strong(5, 1, 3), &marked);
    }

    #[test]
    fn under_policy_4_each_is_a_cas_by_its_seat() {
        let four = config(4, 1, LIST);
        let list = [(1, 4, 0, 0x50), (2, 1, 0, 0x51), (3, 4, u64::MAX, 1)];
        let [first, second, third] = list.map(|(p, q, s, v)| Tuple::listed(p, q, s, v));
        let script = "04 01 04
            04 04 05 04 03 08 01 09 09 0E 05 04 03 08 01 08 04 08 00 0C 50
            01 04 05 04 03 08 02 09 09 0E 05 04 03 08 02 08 01 08 00 0C 51
            04 04 05 04 03 08 03 09 09 0E 05 04 03 08 03 08 04 08 FF FF FF FF FF FF FF FF FF 01 0C 01";
        assert_eq!(written(&with(four, &[first, second, third])), hex(script));
        // Out of order, with a gap, a position twice, a seat and serial twice.
        refused(four, &[second]);
        refused(four, &[second, first]);
        refused(four, &[first, third]);
        refused(four, &[first, second, second]);
        refused(four, &[first, second, Tuple::listed(2, 2, 0, 3)]);
        refused(four, &[first, Tuple::listed(2, 4, 0, 3)]);
        refused(four, &[first, second, Tuple::listed(3, 4, 0, 0x50)]);
        // A position, a seat, a mark or another tuple that nobody may list.
        refused(four, &[Tuple::listed(0, 1, 0, 3)]);
        for seat in [0, 5, 31, 4_294_967_295, (1 << 32) + 1, u64::MAX] {
            refused(four, &[Tuple::listed(1, seat, 0, 3)]);
            refused(four, &[first, Tuple::listed(2, seat, 1, 3)]);
        }
        refused(four, &[Tuple::listed(1, 1, 0, 0)]);
        refused(four, &[first, Tuple::listed(2, 1, 0, 0)]);
        refused(four, &[first, weak(0, 3)]);
        refused(four, &[Tuple::proposal(0, 1, 3)]);
        refused(four, &[Tuple::of(&first.fields[..4])]);
        for policy in [config(4, 1, 1), config(4, 1, 2), strong(4, 1, 2)] {
            refused(policy, &[first]);
        }
    }

    #[test]
    fn under_policy_5_nothing_is_written() {
        let five = config(4, 1, WAIT_FREE);
        let listed = Tuple::listed(1, 1, 0, 3);
        let waiting = Tuple::announcement(2, 0, 3);
        // Runs end in the first four of these, and in none of the others.
        let rows = [
            &[][..],
            &[listed],
            &[waiting],
            &[waiting, listed],
            &[waiting, waiting],
            &[Tuple::listed(2, 1, 0, 3)],
            &[Tuple::proposal(0, 1, 3)],
            &[Tuple::announcement(2, 0, 0)],
        ];
        for tuples in rows {
            let board = with(five, tuples);
            for room in [0, 2, 3, LONGEST_DUMP] {
                let mut buffer = vec![0xA5; room];
                assert_eq!(dump_into(&board, &mut buffer), Err(Unwritten), "15 before 10 and 14");
                assert_eq!(buffer, vec![0xA5; room]);
            }
            let spoilt: [fn(&mut Board); 5] = [
                |board| board.count = 5,
                |board| board.config.n = 3,
                |board| board.config.k = 2,
                |board| board.config.policy = 6,
                |board| board.tuples[MOST_TUPLES - 1].fields[5].value = 1,
            ];
            for spoil in spoilt {
                let mut board = board.clone();
                spoil(&mut board);
                assert_eq!(dump_into(&board, &mut [0xA5; 60]), Err(Unsound), "1 before 15");
                assert_eq!(dump_into(&board, &mut []), Err(Unsound));
            }
        }
        // The other policies have no announcements.
        for policy in [config(4, 1, 1), config(4, 1, 2), strong(4, 1, 2), config(4, 1, LIST)] {
            refused(policy, &[waiting]);
        }
        written(&with(config(4, 1, 0), &[waiting, waiting]));
    }

    #[test]
    fn the_longest_list() {
        let list = |last: u64| -> Vec<Tuple> {
            let listed = |p| Tuple::listed(p, 1 + p % 31, (1 << 63) + p, 200_001);
            (1..=last).map(listed).collect()
        };
        // 32 bytes for each position.
        for last in [1, 2, 111, 112] {
            let board = with(config(31, 10, LIST), &list(last));
            assert_eq!(written(&board).len(), 3 + 32 * last as usize);
        }
        assert_eq!(written(&with(config(31, 10, LIST), &list(112))).len(), 3_587);
        refused(config(31, 10, LIST), &list(113));
        refused(config(31, 10, LIST), &list(MOST_TUPLES as u64));
    }

    #[test]
    fn no_script_ends_in_these() {
        let four = config(4, 1, 2);
        let [first, second, third, decision] = [0, 1, 2, 3].map(|place| worked().tuples[place]);
        // A decision before the proposals that bear it, or without them.
        written(&with(four, &[first, third, decision, second]));
        refused(four, &[first, decision, third]);
        refused(four, &[decision, first, second, third]);
        refused(four, &[decision]);
        refused(four, &[first, second, decision]);
        refused(four, &[first, third, Tuple::decision(0, 0x50, 0b0111)]);
        refused(four, &[first, third, Tuple::decision(0, 0x50, 0b0001)]);
        refused(four, &[first, third, Tuple::decision(0, 0, 0b0101)]);
        // Two decisions of a round, equal or not.
        refused(four, &[first, third, decision, decision]);
        refused(four, &[first, third, decision, second, Tuple::decision(0, 0, 0b0111)]);
        // Two proposals of a seat in a round, equal or not, and the mark: the board is not well formed.
        unsound(four, &[first, first]);
        unsound(four, &[first, second, Tuple::proposal(0, 1, 3)]);
        unsound(four, &[Tuple::proposal(0, 1, 0)]);
        unsound(four, &[decision, Tuple::proposal(0, 1, 0)]);
        written(&with(four, &[first, Tuple::proposal(1, 1, 0x50)]));
        // A seat, a round or a set that nobody may propose or decide.
        for seat in [0, 5, 31, 4_294_967_295, (1 << 32) + 1, u64::MAX] {
            refused(four, &[Tuple::proposal(0, seat, 3)]);
        }
        for round in [8, 4_294_967_295, 1 << 32, u64::MAX] {
            refused(four, &[Tuple::proposal(round, 1, 3)]);
            let both = [Tuple::proposal(round, 1, 3), Tuple::proposal(round, 2, 3)];
            refused(four, &[both[0], both[1], Tuple::decision(round, 3, 0b0011)]);
            refused(four, &[both[0], both[0], Tuple::proposal(round, 2, 0)]);
        }
        refused(four, &[first, third, Tuple::decision(0, 0x50, 0b1_0101)]);
        // Any other tuple.
        refused(four, &[weak(0, 3)]);
        refused(four, &[Tuple::of(&[Field::given(Kind::Count, 1); 6])]);
    }

    #[test]
    fn into_a_lent_buffer() {
        let mut buffer = [0xA5; 60];
        assert_eq!(dump_into(&worked(), &mut buffer), Ok(54));
        assert_eq!(buffer[..54], hex(WORKED));
        assert_eq!(buffer[54..], [0xA5; 6]);
        assert_eq!(dump_into(&worked(), &mut buffer[..54]), Ok(54));
        for room in [0, 1, 3, 53] {
            let mut buffer = vec![0xA5; room];
            assert_eq!(dump_into(&worked(), &mut buffer), Err(Buffer));
            assert_eq!(buffer, vec![0xA5; room]);
        }
    }

    #[test]
    fn tables_that_are_not_the_boards() {
        let worked = worked();
        // 31 places for each round: the first three are those that have proposed.
        assert_eq!(worked.table[..4], [0x50, 0x51, 0x50, 0]);
        let spoilt: [fn(&mut Board); 8] = [
            |board| board.table[0] = 0x51,
            |board| board.table[1] = 0,
            |board| board.table[3] = 0x50,
            |board| board.table[4] = 0x50,
            |board| board.table[31] = 0x50,
            |board| board.table[247] = 1,
            |board| board.table.swap(0, 1),
            |board| board.table = table::EMPTY,
        ];
        for spoil in spoilt {
            let mut board = worked.clone();
            spoil(&mut board);
            for room in [0, 53, 54, LONGEST_DUMP] {
                assert_eq!(dump_into(&board, &mut vec![0xA5; room]), Err(Unsound));
            }
        }
        for policy in [0, 1, 4, 5] {
            for place in 0..table::PLACES {
                let mut board = with(config(4, 1, policy), &[]);
                board.table[place] = 1;
                assert_eq!(script_of(&board), Err(Unsound), "1 before 15");
            }
        }
    }

    #[test]
    fn refusals_in_order() {
        let mut board = worked();
        board.tuples.swap(0, 3);
        for room in [0, 53, 54, LONGEST_DUMP] {
            let mut buffer = vec![0xA5; room];
            assert_eq!(dump_into(&board, &mut buffer), Err(Unreached), "14 before 10");
            assert_eq!(buffer, vec![0xA5; room]);
        }
        let spoilt: [fn(&mut Board); 6] = [
            |board| board.count = 3,
            |board| board.count = 5,
            |board| board.config.n = 3,
            |board| board.config.k = 2,
            |board| board.tuples[3].fields[5].value = 1,
            |board| board.table[0] = 0,
        ];
        for spoil in spoilt {
            let mut board = board.clone();
            spoil(&mut board);
            let mut buffer = [0xA5; 60];
            assert_eq!(dump_into(&board, &mut buffer), Err(Unsound), "1 before 14");
            assert_eq!(dump_into(&board, &mut []), Err(Unsound), "1 before 10");
            assert_eq!(buffer, [0xA5; 60]);
        }
    }

    #[test]
    fn the_longest_script() {
        for value in [1 << 63, u64::MAX] {
            let counts = Tuple::of(&[Field::given(Kind::Count, value); MOST_FIELDS]);
            let board = with(config(31, 10, 0), &[counts; MOST_TUPLES]);
            assert_eq!(written(&board).len(), 17_667);
        }
        assert_eq!(LONGEST_DUMP, 17_667);
        let counts = Tuple::of(&[Field::given(Kind::Count, (1 << 63) - 1); MOST_FIELDS]);
        let board = with(config(31, 10, 0), &[counts; MOST_TUPLES]);
        assert_eq!(written(&board).len(), 17_667 - 6 * 256);
    }

    #[test]
    fn full_boards_of_eight_rounds() {
        let all = Kind::Seats.last();
        // A set of 31 seats has five bytes, and an offset three or one.
        for (config, offset, length) in [(config(31, 10, 2), 200_001, 3_419), (strong(31, 3, 8), 15, 2_908)] {
            let mut tuples = Vec::new();
            for round in 0..=7 {
                tuples.extend((1..=31).map(|seat| Tuple::proposal(round, seat, offset)));
                tuples.push(Tuple::decision(round, offset, all));
            }
            let board = with(config, &tuples);
            assert_eq!(board.count, MOST_TUPLES);
            assert_eq!(written(&board).len(), length);
        }
    }

    /// All boards of so many of these tuples at most, oldest first.
    fn all(tuples: &[Tuple], most: usize) -> Vec<Vec<Tuple>> {
        let mut boards = vec![Vec::new()];
        let mut last = boards.clone();
        for _ in 0..most {
            let longer = |board: &Vec<Tuple>| tuples.iter().map(|t| [&board[..], &[*t]].concat()).collect();
            last = last.iter().flat_map(|board| -> Vec<Vec<Tuple>> { longer(board) }).collect();
            boards.extend(last.iter().cloned());
        }
        boards
    }

    /// The tuple as a template, each field from its third on given, any or open.
    fn templates(tuple: &Tuple) -> Vec<Tuple> {
        let mut templates = vec![*tuple];
        for place in 2..tuple.count {
            for template in templates.clone() {
                for state in 1..=2 {
                    let mut other = template;
                    other.fields[place] = Field { state, value: 0, ..other.fields[place] };
                    templates.push(other);
                }
            }
        }
        templates
    }

    /// All boards of so many tuples at most that calls with these tuples reach. The templates are these tuples with any of their fields from
    /// the third on any or open.
    fn reached(config: Config, tuples: &[Tuple], most: usize) -> HashSet<Vec<Tuple>> {
        let templates: HashSet<Tuple> = tuples.iter().flat_map(templates).collect();
        let mut calls = Vec::new();
        for seat in 0..=config.n as u32 + 1 {
            calls.extend(tuples.iter().map(|entry| Call::out(seat, *entry)));
            calls.extend(templates.iter().map(|template| Call::inp(seat, *template)));
            // Who calls a cas matters to policies 4 and 5 alone, and 5 is not written back.
            if seat == 1 || config.policy == LIST {
                let cas = |template| tuples.iter().map(move |entry| Call::cas(seat, template, *entry));
                calls.extend(templates.iter().copied().flat_map(cas));
            }
        }
        let mut reached = HashSet::from([Vec::new()]);
        let mut open = vec![Board::fresh(config).unwrap()];
        while let Some(board) = open.pop() {
            for call in &calls {
                let mut next = board.clone();
                let obeyed = next.call(call).is_ok();
                if obeyed && next.count <= most && reached.insert(next.held().to_vec()) {
                    open.push(next);
                }
            }
        }
        reached
    }

    /// 14 comes for those boards of these tuples that no calls reach, or 1 where they are not well formed.
    fn refused_are_not_reached(config: Config, tuples: &[Tuple], most: usize) {
        let reached = reached(config, tuples, most);
        let (mut written, mut refused) = (0, 0);
        for held in all(tuples, most) {
            let board = with(config, &held);
            let script = script_of(&board);
            assert_eq!(script.is_ok(), reached.contains(&held), "{config:?} {held:?}");
            match script {
                Ok(script) => {
                    assert_eq!(end_of(&script, config).held(), held);
                    written += 1;
                }
                Err(refusal) => {
                    assert_eq!(refusal, if board.check().is_ok() { Unreached } else { Unsound });
                    refused += usize::from(refusal == Unreached);
                }
            }
        }
        assert!(written == reached.len() && (refused > 100 || config.policy == BARE), "{written} {refused}");
    }

    #[test]
    fn what_is_refused_is_not_reached() {
        let others = [weak(0, 3), Tuple::of(&[Field::given(Kind::Seats, 1)])];
        let proposals = [(0, 1, 1), (0, 1, 3), (0, 2, 1), (0, 2, 0), (0, 0, 1), (8, 1, 1)];
        let proposals = proposals.map(|(round, seat, offset)| Tuple::proposal(round, seat, offset));
        let decisions = [(0, 1, 1), (0, 1, 3), (0, 3, 1), (0, 0, 3), (8, 1, 1), (0, 1, 0)];
        let decisions = decisions.map(|(round, offset, seats)| Tuple::decision(round, offset, seats));
        let tuples = [&others[..], &proposals, &decisions].concat();
        for config in [config(1, 0, 2), config(2, 0, 2), config(4, 1, 2), strong(1, 0, 2), strong(4, 1, 2)] {
            refused_are_not_reached(config, &tuples, 3);
        }
        refused_are_not_reached(config(1, 0, 0), &tuples[..6], 2);
        let decisions = [(0, 1), (0, 3), (0, 0), (7, 1), (8, 1), (1, 200_001)];
        let decisions = decisions.map(|(round, offset)| weak(round, offset));
        refused_are_not_reached(config(2, 0, 1), &[&tuples[1..4], &decisions].concat(), 3);
    }

    #[test]
    fn what_is_refused_is_not_reached_on_a_list() {
        let others = [weak(0, 3), Tuple::proposal(0, 1, 3)];
        let list = |rows: &[(u64, u64, u64, u64)]| -> Vec<Tuple> {
            rows.iter().map(|(p, q, s, v)| Tuple::listed(*p, *q, *s, *v)).collect()
        };
        // Two seats and another, two serials, a mark, a seat and positions that are none.
        let rows = [
            (1, 1, 0, 3),
            (1, 1, 1, 3),
            (1, 2, 0, 0),
            (1, 0, 0, 3),
            (2, 1, 0, 3),
            (2, 2, 0, 3),
            (2, 2, 0, 1),
            (3, 1, 1, 3),
            (3, 3, 0, 3),
            (0, 1, 2, 3),
            (113, 1, 2, 3),
        ];
        let tuples = [&others[..], &list(&rows)].concat();
        for n in 1..=3 {
            refused_are_not_reached(config(n, 0, LIST), &tuples, 3);
        }
        let rows = [(1, 1, 0, 3), (2, 1, 1, 3), (2, 2, 0, 3), (3, 1, 1, 3), (3, 2, 0, 1), (4, 1, 2, 3)];
        refused_are_not_reached(config(2, 0, LIST), &list(&rows), 4);
    }

    #[test]
    fn what_is_refused_is_not_reached_with_the_mark() {
        let proposals = [(1, 1), (2, 3), (3, 2), (3, 3)];
        let proposals = proposals.map(|(seat, offset)| Tuple::proposal(0, seat, offset));
        let decisions = [(0, 7), (0, 3), (3, 6)];
        let decisions = decisions.map(|(offset, seats)| Tuple::decision(0, offset, seats));
        let tuples = [&proposals[..], &decisions].concat();
        refused_are_not_reached(config(4, 1, 2), &tuples, 4);
        refused_are_not_reached(strong(4, 1, 2), &tuples, 4);
    }
}
