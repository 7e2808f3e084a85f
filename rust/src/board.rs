//! The board: well-formedness, the four calls (01, "Calls", and 02, 2.8 and 2.9).

use crate::config::Config;
use crate::fields::Tuple;
use crate::policy;
use crate::records::{Call, Code};
use crate::refusal::Refusal;
use crate::table::{self, Table};

/// Most tuples a board holds.
pub const MOST_TUPLES: usize = 256;

/// What a call is answered with.
#[derive(Clone, Copy, Debug, PartialEq, Eq, Hash)]
pub enum AnswerKind {
    Done,
    None,
    Inserted,
    Found,
    Held,
    Refused(Refusal),
}

/// An answer as a plain value. Only found and held use the tuple.
#[derive(Clone, Copy, Debug, PartialEq, Eq, Hash)]
pub struct Answer {
    pub kind: AnswerKind,
    pub tuple: Tuple,
}

impl Answer {
    /// The out's tuple was appended.
    pub const DONE: Answer = Answer::bare(AnswerKind::Done);
    /// No tuple matches.
    pub const NONE: Answer = Answer::bare(AnswerKind::None);
    /// The cas's entry was appended.
    pub const INSERTED: Answer = Answer::bare(AnswerKind::Inserted);

    /// An answer with its tuple blank.
    pub const fn bare(kind: AnswerKind) -> Answer {
        Answer { kind, tuple: Tuple::BLANK }
    }

    /// The oldest tuple that matches the template of an rdp or inp.
    pub const fn found(tuple: Tuple) -> Answer {
        Answer { kind: AnswerKind::Found, tuple }
    }

    /// The oldest tuple that matches the template of a cas.
    pub const fn held(tuple: Tuple) -> Answer {
        Answer { kind: AnswerKind::Held, tuple }
    }
}

impl From<Refusal> for Answer {
    fn from(refusal: Refusal) -> Answer {
        Answer::bare(AnswerKind::Refused(refusal))
    }
}

impl From<Result<Answer, Refusal>> for Answer {
    fn from(result: Result<Answer, Refusal>) -> Answer {
        result.unwrap_or_else(Answer::from)
    }
}

/// How a board obeys a call: by searching, or in the benchmark by its table.
pub(crate) type Obey = fn(&mut Board, &Call) -> Result<Answer, Refusal>;

/// A board as a plain value that can hold anything: a list of tuples, oldest
/// first, in the front places of `tuples`, and the table of the proposals among
/// them.
#[derive(Clone, Debug, PartialEq, Eq)]
pub struct Board {
    pub config: Config,
    pub count: usize,
    pub tuples: [Tuple; MOST_TUPLES],
    pub table: Table,
}

impl Board {
    /// An empty board with this set-up, if it is sound.
    pub fn fresh(config: Config) -> Result<Board, Refusal> {
        config.check()?;
        Ok(Board { config, count: 0, tuples: [Tuple::BLANK; MOST_TUPLES], table: table::EMPTY })
    }

    /// The tuples held, oldest first.
    pub fn held(&self) -> &[Tuple] {
        &self.tuples[..self.count.min(MOST_TUPLES)]
    }

    /// Refused 1 unless the board is well formed: a sound set-up, at most 256
    /// tuples, each an entry within its kinds' ranges, unused places zero, and
    /// the table that of the tuples held.
    pub fn check(&self) -> Result<(), Refusal> {
        self.config.check()?;
        let well_formed = self.count <= MOST_TUPLES
            && self.held().iter().all(Tuple::is_entry)
            && self.tuples[self.held().len()..].iter().all(|place| *place == Tuple::BLANK)
            && table::of(&self.config, self.held()) == Some(self.table);
        well_formed.then_some(()).ok_or(Refusal::Unsound)
    }

    /// Obeys a call, or refuses it and leaves the board as it was: 1, then 3
    /// to 5 in record order with unused parts last, then 6, then 7, 12 or 13,
    /// then 8.
    pub fn call(&mut self, call: &Call) -> Result<Answer, Refusal> {
        self.check()?;
        self.obey(call)
    }

    /// The same on a board that nobody else writes, and so is well formed.
    pub fn obey(&mut self, call: &Call) -> Result<Answer, Refusal> {
        let code = call.check()?;
        if !self.config.has_seat(call.process.into()) {
            return Err(Refusal::Seat);
        }
        policy::check(&self.config, self.held(), code, call)?;
        self.carry_out(code, call)
    }

    /// Carries out a sound call that the policy permits.
    pub(crate) fn carry_out(&mut self, code: Code, call: &Call) -> Result<Answer, Refusal> {
        match code {
            Code::Out => self.append(&call.entry).map(|()| Answer::DONE),
            Code::Rdp => Ok(match self.oldest(&call.template) {
                Some(place) => Answer::found(self.tuples[place]),
                None => Answer::NONE,
            }),
            Code::Inp => Ok(match self.oldest(&call.template) {
                Some(place) => Answer::found(self.take(place)),
                None => Answer::NONE,
            }),
            Code::Cas => match self.oldest(&call.template) {
                Some(place) => Ok(Answer::held(self.tuples[place])),
                None => self.append(&call.entry).map(|()| Answer::INSERTED),
            },
        }
    }

    /// The place of the oldest tuple that matches.
    fn oldest(&self, template: &Tuple) -> Option<usize> {
        self.held().iter().position(|tuple| template.matches(tuple))
    }

    /// Appends an entry, which the table has from then on if it is due there, or
    /// refuses 8.
    fn append(&mut self, entry: &Tuple) -> Result<(), Refusal> {
        let place = self.tuples.get_mut(self.count).ok_or(Refusal::Full)?;
        *place = *entry;
        self.count += 1;
        if let Some((place, offset)) = table::due(&self.config, entry) {
            self.table[place] = offset;
        }
        Ok(())
    }

    /// Takes off the tuple at this place, the rest keeping their order. It is not
    /// in the table, for policies 2 and 3 permit no inp.
    fn take(&mut self, place: usize) -> Tuple {
        let taken = self.tuples[place];
        self.tuples.copy_within(place + 1..self.count, place);
        self.count -= 1;
        self.tuples[self.count] = Tuple::BLANK;
        taken
    }
}

#[cfg(test)]
pub(crate) mod making {
    use super::*;

    /// A board with these tuples and their table, as if handed in; of two that
    /// are due at one place the table has the later.
    pub(crate) fn with(config: Config, tuples: &[Tuple]) -> Board {
        let mut board = Board::fresh(config).unwrap();
        board.count = tuples.len();
        board.tuples[..tuples.len()].copy_from_slice(tuples);
        for (place, offset) in tuples.iter().filter_map(|tuple| table::due(&config, tuple)) {
            board.table[place] = offset;
        }
        board
    }
}

#[cfg(test)]
mod tests {
    use super::making::with;
    use super::*;
    use crate::config::making::{config, strong};
    use crate::fields::{Field, Kind, MOST_SEATS};
    use Refusal::*;

    fn bare() -> Board {
        Board::fresh(config(4, 1, 0)).unwrap()
    }

    fn number(value: u64) -> Tuple {
        Tuple::of(&[Field::given(Kind::Count, value)])
    }

    const ANY: Field = Field::any(Kind::Count);

    /// Makes a call; a refused one must leave the board as it was.
    fn obey(board: &mut Board, call: Call) -> Result<Answer, Refusal> {
        let before = board.clone();
        let answer = board.call(&call);
        if answer.is_err() {
            assert_eq!(*board, before);
        }
        answer
    }

    #[test]
    fn oldest_first_and_order_kept() {
        let mut board = bare();
        let pair = |first, second| Tuple::of(&[first, second].map(|v| Field::given(Kind::Count, v)));
        for tuple in [pair(1, 1), pair(2, 1), pair(1, 2), pair(1, 1)] {
            assert_eq!(obey(&mut board, Call::out(1, tuple)), Ok(Answer::DONE));
        }
        let ones = Tuple::of(&[Field::given(Kind::Count, 1), ANY]);
        assert_eq!(obey(&mut board, Call::rdp(2, ones)), Ok(Answer::found(pair(1, 1))));
        assert_eq!(board.count, 4);
        assert_eq!(obey(&mut board, Call::inp(2, ones)), Ok(Answer::found(pair(1, 1))));
        assert_eq!(board.held(), [pair(2, 1), pair(1, 2), pair(1, 1)]);
        assert_eq!(board.check(), Ok(()));
        assert_eq!(obey(&mut board, Call::inp(2, ones)), Ok(Answer::found(pair(1, 2))));
        assert_eq!(obey(&mut board, Call::cas(3, ones, pair(9, 9))), Ok(Answer::held(pair(1, 1))));
        assert_eq!(obey(&mut board, Call::inp(2, ones)), Ok(Answer::found(pair(1, 1))));
        assert_eq!(obey(&mut board, Call::inp(2, ones)), Ok(Answer::NONE));
        assert_eq!(obey(&mut board, Call::rdp(2, ones)), Ok(Answer::NONE));
        assert_eq!(obey(&mut board, Call::cas(3, ones, pair(9, 9))), Ok(Answer::INSERTED));
        assert_eq!(board.held(), [pair(2, 1), pair(9, 9)]);
    }

    #[test]
    fn the_257th_has_no_place() {
        let mut board = bare();
        for value in 1..=256 {
            assert_eq!(obey(&mut board, Call::out(1, number(value))), Ok(Answer::DONE));
        }
        assert_eq!(obey(&mut board, Call::out(1, number(0))), Err(Full));
        assert_eq!(obey(&mut board, Call::cas(1, number(0), number(0))), Err(Full));
        let any = Tuple::of(&[ANY]);
        assert_eq!(obey(&mut board, Call::cas(1, any, number(0))), Ok(Answer::held(number(1))));
        assert_eq!(obey(&mut board, Call::rdp(1, number(256))), Ok(Answer::found(number(256))));
        assert_eq!(obey(&mut board, Call::inp(1, number(177))), Ok(Answer::found(number(177))));
        assert_eq!(obey(&mut board, Call::cas(1, number(0), number(0))), Ok(Answer::INSERTED));
        assert_eq!(board.held().last(), Some(&number(0)));
        assert_eq!(obey(&mut board, Call::out(1, number(0))), Err(Full));
    }

    #[test]
    fn refusals_in_order() {
        let good = Call::out(1, number(1));
        let lists = [config(4, 1, 4), config(4, 1, 5)];
        let others = [config(4, 1, 0), config(4, 1, 1), config(4, 1, 2), strong(4, 1, 2)];
        for config in others.into_iter().chain(lists) {
            let mut board = Board::fresh(config).unwrap();
            for process in [0, 5, u32::MAX] {
                assert_eq!(obey(&mut board, Call { process, ..good }), Err(Seat));
            }
            let mut unused = Call { process: 0, ..good };
            unused.template.count = 1;
            assert_eq!(obey(&mut board, unused), Err(Shape), "5 before 6");
            board.config.n = 3;
            assert_eq!(obey(&mut board, unused), Err(Unsound), "1 before 5");
        }
        for config in others[2..].iter().copied().chain(lists) {
            assert_eq!(obey(&mut Board::fresh(config).unwrap(), good), Err(Denied));
        }
        let mut board = bare();
        board.count = MOST_TUPLES;
        board.tuples = [number(1); MOST_TUPLES];
        for policy in [1, 4, 5] {
            board.config.policy = policy;
            assert_eq!(obey(&mut board, good), Err(Denied), "7 before 8");
        }
    }

    #[test]
    fn in_the_place_of_7() {
        let out = |process, round| Call::out(process, Tuple::proposal(round, 1, 3));
        let cas =
            |process, seats| Call::cas(process, Tuple::decision_template(0), Tuple::decision(0, 3, seats));
        for config in [config(4, 1, 2), strong(4, 1, 2)] {
            // A full board, on which seats 1 and 2 have proposed.
            let mut tuples = [number(1); MOST_TUPLES];
            (tuples[0], tuples[MOST_TUPLES - 1]) = (Tuple::proposal(0, 1, 3), Tuple::proposal(0, 2, 3));
            let mut board = with(config, &tuples);
            assert_eq!(obey(&mut board, out(1, 1)), Err(Full));
            assert_eq!(obey(&mut board, out(1, 0)), Err(Second), "12 before 8");
            assert_eq!(obey(&mut board, out(2, 0)), Err(Denied));
            assert_eq!(obey(&mut board, out(5, 0)), Err(Seat), "6 before 12");
            assert_eq!(obey(&mut board, cas(1, 0b0011)), Err(Full));
            assert_eq!(obey(&mut board, cas(1, 0b0001)), Err(Unborne), "13 before 8");
            assert_eq!(obey(&mut board, cas(1, 0b1_0011)), Err(Denied));
            assert_eq!(obey(&mut board, cas(0, 0b0001)), Err(Seat), "6 before 13");
            for mut spoilt in [out(1, 0), cas(1, 0b0001)] {
                spoilt.entry.fields[5].value = 1;
                assert_eq!(obey(&mut board, spoilt), Err(Shape), "5 before 12 and 13");
            }
            board.config.n = 3;
            for call in [out(1, 0), cas(1, 0b0001)] {
                assert_eq!(obey(&mut board, call), Err(Unsound), "1 before 12 and 13");
            }
        }
    }

    #[test]
    fn boards_handed_in() {
        let good = Call::rdp(1, number(1));
        let mut board = bare();
        board.count = 2;
        board.tuples[0] = Tuple::decision(18_446_744_073_709_551_615, 0, Kind::Seats.last());
        board.tuples[1] = number(9);
        assert_eq!(board.check(), Ok(()));
        let spoilt: [fn(&mut Board); 14] = [
            |board| board.count = 1,
            |board| board.count = 3,
            |board| board.count = MOST_TUPLES + 1,
            |board| board.count = usize::MAX,
            |board| board.tuples[1].fields[0] = ANY,
            |board| board.tuples[0].fields[3].value = 1 << 32,
            |board| board.tuples[1].fields[5].value = 1,
            |board| board.tuples[MOST_TUPLES - 1].fields[5].value = 1,
            |board| board.config.policy = 3,
            |board| board.config.policy = 6,
            |board| (board.config.policy, board.config.k) = (4, 2),
            |board| (board.config.policy, board.config.k) = (5, 2),
            |board| board.config.k = 1,
            |board| board.config.k = 2,
        ];
        for spoil in spoilt {
            let mut board = board.clone();
            spoil(&mut board);
            assert_eq!(obey(&mut board, good), Err(Unsound));
        }
    }

    /// Four seats under each policy.
    fn every_policy() -> [Config; 6] {
        [0, 1, 2, 3, 4, 5].map(|policy| if policy == 3 { strong(4, 1, 2) } else { config(4, 1, policy) })
    }

    /// What 02 says of boards with these tuples, whatever stands in their table:
    /// under policies 2 and 3 they are well formed with this table alone, or with
    /// none; under the others with an empty one alone.
    fn tables(configs: &[Config], tuples: &[Tuple], expected: Option<&[(u64, u64, u64)]>) {
        for config in configs {
            let mut board = with(*config, tuples);
            assert_eq!(board.check().is_ok(), expected.is_some(), "{tuples:?} under {config:?}");
            let Some(expected) = expected else {
                // Nor with the table of any part of them.
                for place in 0..table::PLACES {
                    let mut other = board.clone();
                    other.table[place] = 0;
                    assert_eq!(other.check(), Err(Unsound), "{tuples:?} under {config:?}");
                }
                board.table = table::EMPTY;
                assert_eq!(board.check(), Err(Unsound), "{tuples:?} under {config:?}");
                continue;
            };
            let mut table = table::EMPTY;
            for (round, seat, offset) in expected {
                table[(31 * round + seat - 1) as usize] = *offset;
            }
            assert_eq!(board.table, table);
            for place in 0..table.len() {
                for other in [0, 1, 2, 3, 5, 200_001, u64::MAX].into_iter().filter(|w| *w != table[place]) {
                    board.table[place] = other;
                    assert_eq!(board.check(), Err(Unsound), "{other} at {place} under {config:?}");
                }
                board.table[place] = table[place];
            }
            assert_eq!(board.check(), Ok(()));
        }
    }

    #[test]
    fn the_table_of_a_board_handed_in() {
        let [bare, weak, default, choice, list, waiting] = every_policy();
        let both = [default, choice];
        let proposal = Tuple::proposal;
        tables(&every_policy(), &[], Some(&[]));
        let two = [proposal(0, 1, 3), proposal(7, 4, 1)];
        tables(&both, &two, Some(&[(0, 1, 3), (7, 4, 1)]));
        tables(&[bare, weak, list, waiting], &two, Some(&[]));
        // The same seat in all rounds, and all seats in a round.
        let rounds = [0, 1, 2, 3, 4, 5, 6, 7];
        tables(&both, &rounds.map(|r| proposal(r, 2, 3)), Some(&rounds.map(|r| (r, 2, 3))));
        let seats = [1, 2, 3, 4];
        tables(&both, &seats.map(|q| proposal(5, q, 1)), Some(&seats.map(|q| (5, q, 1))));
        // Two proposals for one place, equal or not.
        for twice in [[proposal(0, 1, 3), proposal(0, 1, 3)], [proposal(0, 1, 3), proposal(0, 1, 1)]] {
            tables(&both, &twice, None);
            tables(&both, &[twice[0], number(1), proposal(1, 1, 1), twice[1]], None);
            tables(&[bare, weak, list, waiting], &twice, Some(&[]));
        }
        // The mark, and what is no choice: -1, 2, 100,000 and -100,000.
        tables(&both, &[proposal(0, 1, 0)], None);
        tables(&both, &[proposal(0, 1, 3), proposal(7, 4, 0)], None);
        tables(&[bare, weak, list, waiting], &[proposal(0, 1, 0)], Some(&[]));
        for offset in [2, 5, 200_000, 200_001] {
            tables(&[default], &[proposal(3, 2, offset)], Some(&[(3, 2, offset)]));
            tables(&[choice], &[proposal(3, 2, offset)], None);
            tables(&[bare, weak, list, waiting], &[proposal(3, 2, offset)], Some(&[]));
        }
    }

    #[test]
    fn what_has_no_place_in_the_table() {
        let last = Kind::Count.last();
        let strangers = [0, 5, 31, 32, last].map(|seat| Tuple::proposal(0, seat, 3));
        let late = [8, 9, last].map(|round| Tuple::proposal(round, 1, 3));
        let mut other = [Tuple::proposal(0, 1, 3); 4];
        other[0].fields[0].value = 2;
        other[1].fields[3] = Field::given(Kind::Count, 3);
        other[2] = Tuple::of(&other[2].fields[..3]);
        other[3].fields[4] = Field::given(Kind::Word, 0);
        other[3].count = 5;
        let decisions = [Tuple::decision(0, 0, 0), Tuple::decision(0, 3, Kind::Seats.last())];
        // Twice, of the mark and of any offset: nothing is asked of them.
        let marks: Vec<Tuple> = (strangers.iter().chain(&late))
            .map(|tuple| {
                let mut mark = *tuple;
                mark.fields[3].value = 0;
                mark
            })
            .collect();
        let tuples = [&strangers[..], &late, &other, &decisions, &marks].concat();
        tables(&every_policy(), &[&tuples[..], &tuples].concat(), Some(&[]));
        // Of 31 seats, 31 has a place, and 32 has none.
        let config = config(MOST_SEATS, 10, 2);
        tables(&[config], &strangers, Some(&[(0, 5, 3), (0, 31, 3)]));
        assert_eq!(with(config, &strangers).table[30], 3);
    }

    #[test]
    fn a_call_keeps_the_table() {
        for config in every_policy() {
            let mut board = Board::fresh(config).unwrap();
            assert_eq!(board.table, [0; 248]);
            let due = [2, 3].contains(&config.policy);
            let out = |seat: u32, round, offset| Call::out(seat, Tuple::proposal(round, seat.into(), offset));
            for (call, place) in [(out(1, 0, 3), 0), (out(4, 0, 1), 3), (out(2, 7, 1), 218)] {
                let obeyed = obey(&mut board, call).is_ok();
                assert_eq!(obeyed, config.policy == 0 || due);
                assert_eq!(board.table[place], if due { call.entry.fields[3].value } else { 0 });
            }
            assert_eq!(board.table.iter().filter(|code| **code != 0).count(), if due { 3 } else { 0 });
            let table = board.table;
            // A refused call, a reading and a decision leave it.
            for call in [out(1, 0, 1), out(2, 0, 0), out(5, 0, 3), out(3, 8, 3)] {
                _ = obey(&mut board, call);
                assert_eq!(board.table, table);
            }
            let template = Tuple::decision_template(0);
            _ = obey(&mut board, out(2, 0, 3));
            let table = board.table;
            for call in [
                Call::rdp(1, Tuple::proposal_template(0, 1)),
                Call::inp(1, Tuple::proposal_template(0, 1)),
                Call::cas(1, template, Tuple::decision(0, 3, 0b0011)),
            ] {
                _ = obey(&mut board, call);
                assert_eq!(board.table, table);
            }
            assert_eq!(board.check(), Ok(()));
        }
    }

    #[test]
    fn a_full_board_keeps_its_table() {
        for config in [config(4, 1, 2), strong(4, 1, 2)] {
            let mut board = with(config, &[number(1); MOST_TUPLES]);
            assert_eq!(obey(&mut board, Call::out(1, Tuple::proposal(0, 1, 3))), Err(Full));
            assert_eq!(board.table, table::EMPTY);
        }
    }
}
