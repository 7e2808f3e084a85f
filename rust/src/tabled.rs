//! Policies 2 and 3 answered from a board's table, for the benchmark alone (02,
//! 2.9): what one would write who wants them quick. All else goes on searching,
//! which is what the proved library is compared with.

use crate::board::{Answer, Board};
use crate::config::{Config, DEFAULT, STRONG};
use crate::dump;
use crate::fields::{Tuple, MOST_SEATS};
use crate::numbers::Offset;
use crate::policy::{self, LAST_ROUND};
use crate::records::{Call, Code};
use crate::refusal::Refusal;
use crate::script;
use crate::stray;
use crate::table;

/// As `Board::call`.
pub fn call(board: &mut Board, call: &Call) -> Result<Answer, Refusal> {
    board.check()?;
    obey(board, call)
}

/// As `Board::obey`.
pub fn obey(board: &mut Board, call: &Call) -> Result<Answer, Refusal> {
    let code = call.check()?;
    if !board.config.has_seat(call.process.into()) {
        return Err(Refusal::Seat);
    }
    match (board.config.policy, code) {
        (DEFAULT | STRONG, Code::Out) => proposing_out(board, call.process.into(), &call.entry)?,
        (DEFAULT | STRONG, Code::Cas) => deciding_cas(board, &call.template, &call.entry)?,
        _ => policy::check(&board.config, board.held(), code, call)?,
    }
    board.carry_out(code, call)
}

/// As `script::run`.
pub fn run(script: &[u8]) -> String {
    script::run_by(script, obey)
}

/// As `script::run_into`.
pub fn run_into(script: &[u8], buffer: &mut [u8]) -> Result<usize, Refusal> {
    let text = run(script);
    let lent = buffer.get_mut(..text.len()).ok_or(Refusal::Buffer)?;
    lent.copy_from_slice(text.as_bytes());
    Ok(text.len())
}

/// As `dump::dump_into`.
pub fn dump_into(board: &Board, buffer: &mut [u8]) -> Result<usize, Refusal> {
    dump::dump_by(board, buffer, obey)
}

/// As `stray::first_stray`.
pub fn first_stray(script: &[u8], set: u64) -> Result<Option<u32>, Refusal> {
    stray::first_stray_by(script, set, obey)
}

fn proposing_out(board: &Board, process: u64, entry: &Tuple) -> Result<(), Refusal> {
    let (round, seat, offset) = entry.as_proposal().ok_or(Refusal::Denied)?;
    if seat != process || !board.config.may_propose(offset) {
        return Err(Refusal::Denied);
    }
    let place = table::place(&board.config, round, seat).ok_or(Refusal::Denied)?;
    if board.table[place] != 0 {
        return Err(Refusal::Second);
    }
    Ok(())
}

fn deciding_cas(board: &Board, template: &Tuple, entry: &Tuple) -> Result<(), Refusal> {
    let (round, offset, seats) = entry.as_decision().ok_or(Refusal::Denied)?;
    let Config { n, .. } = board.config;
    if round > LAST_ROUND
        || seats >> n != 0
        || !board.config.may_decide(offset)
        || *template != Tuple::decision_template(round)
    {
        return Err(Refusal::Denied);
    }
    let first = (MOST_SEATS * round) as usize;
    if !bears(&board.config, &board.table[first..first + n as usize], offset, seats) {
        return Err(Refusal::Unborne);
    }
    Ok(())
}

/// Whether this set bears the offset, given what seats 1 to n have proposed.
fn bears(config: &Config, row: &[u64], offset: u64, seats: u64) -> bool {
    let (n, t) = (config.n as usize, config.t as usize);
    let size = seats.count_ones() as usize;
    let mut members = row.iter().enumerate().filter(|(place, _)| seats >> place & 1 == 1).map(|(_, w)| *w);
    if offset != Offset::MARK {
        return size > t && members.all(|w| w == offset);
    }
    if size < n - t {
        return false;
    }
    let mut proposed = [0; MOST_SEATS as usize];
    for (place, w) in proposed.iter_mut().zip(members) {
        *place = w;
    }
    // In order, equal ones stand side by side: more than t of them if one is t places behind another.
    let proposed = &mut proposed[..size];
    proposed.sort_unstable();
    proposed.first() != Some(&0) && proposed.windows(t + 1).all(|some| some[0] != some[t])
}

#[cfg(test)]
mod tests {
    use super::*;
    use crate::board::making::with;
    use crate::config::making::{config, strong};
    use crate::fields::Kind;

    /// Makes a call both ways: the answers and what is left must be equal.
    fn both(board: &Board, asked: &Call) -> Result<Answer, Refusal> {
        let (mut searched, mut tabled) = (board.clone(), board.clone());
        let answer = searched.call(asked);
        assert_eq!(call(&mut tabled, asked), answer, "{asked:?} on {:?}", board.held());
        assert_eq!(tabled, searched);
        answer
    }

    #[test]
    fn as_by_searching() {
        // What each of four seats has proposed: nothing, or one of three offsets.
        let rows = (0..256u64).map(|row| [row % 4, row / 4 % 4, row / 16 % 4, row / 64]);
        let mut answers = [0usize; 14];
        for (row, config) in
            rows.flat_map(|row| [config(4, 1, 2), config(4, 0, 2), strong(4, 1, 2)].map(|c| (row, c)))
        {
            let offsets = if config.policy == STRONG { [0, 1, 3, 0] } else { [0, 1, 2, 3] };
            let proposals = (1..).zip(row).map(|(seat, which)| (seat, offsets[which as usize]));
            let proposals = proposals.filter(|(_, offset)| *offset != 0);
            let mut tuples: Vec<Tuple> =
                proposals.map(|(seat, offset)| Tuple::proposal(3, seat, offset)).collect();
            let (mut one, mut other) = ([0xA5; 256], [0xA5; 256]);
            assert!(dump_into(&with(config, &tuples), &mut one).is_ok());
            assert!(dump::dump_into(&with(config, &tuples), &mut other).is_ok());
            assert_eq!(one, other);
            // Strangers, and a decision, which do not matter.
            tuples.extend([(3, 5, 1), (8, 1, 1), (2, 1, 3)].map(|(r, q, w)| Tuple::proposal(r, q, w)));
            tuples.push(Tuple::decision(3, 1, 0));
            let board = with(config, &tuples);
            let cas = |round, offset, seats| {
                Call::cas(2, Tuple::decision_template(round), Tuple::decision(round, offset, seats))
            };
            let mut calls: Vec<Call> = (0..5)
                .flat_map(|offset| (0..32).map(move |seats| (offset, seats)))
                .map(|(w, p)| cas(3, w, p))
                .collect();
            calls.extend([2, 4, 7, 8].map(|round| cas(round, 1, 3)));
            calls.push(Call { template: Tuple::decision_template(2), ..cas(3, 1, 3) });
            for (process, round, offset) in (0..6).flat_map(|q| [(q, 3, 1), (q, 3, 0), (q, 8, 1), (q, 2, 3)])
            {
                calls.push(Call::out(process, Tuple::proposal(round, process.into(), offset)));
                calls.push(Call::out(process, Tuple::proposal(round, 1, offset)));
            }
            assert_eq!(dump_into(&board, &mut one), dump::dump_into(&board, &mut other));
            for asked in &calls {
                answers[both(&board, asked).map_or_else(|refusal| refusal.number() as usize, |_| 0)] += 1;
            }
        }
        assert!([0, 6, 7, 12, 13].iter().all(|number| answers[*number] > 1_000), "{answers:?}");
    }

    #[test]
    fn as_by_searching_with_31_seats() {
        let offset = |seat: u64| [9, 7, 5][((seat - 1) / 10).min(2) as usize];
        let proposals: Vec<Tuple> = (1..=31).map(|seat| Tuple::proposal(7, seat, offset(seat))).collect();
        let board = with(config(31, 10, 2), &proposals);
        let sets = [
            0,
            1,
            0x3FF,
            0x7FF,
            0xF_FFFF,
            0x400F_FFFF,
            0x7FF0_0000,
            0x7FE0_07FF,
            0x7FF8_0000,
            Kind::Seats.last(),
        ];
        for (wanted, seats) in [0, 5, 7, 9, 11].into_iter().flat_map(|w| sets.map(|seats| (w, seats))) {
            let entry = Tuple::decision(7, wanted, seats);
            _ = both(&board, &Call::cas(31, Tuple::decision_template(7), entry));
        }
    }

    #[test]
    fn scripts_as_by_searching() {
        let mut bytes = vec![4, 1, 2];
        for (seat, offset) in [(1, 0x50), (2, 0x51), (3, 0x50), (3, 0x51)] {
            bytes.extend([seat, 1, 4, 4, 1, 8, 0, 8, seat, 0x0C, offset]);
        }
        for (offset, seats) in [(0x51, 2), (0x50, 5), (0, 7)] {
            bytes.extend([1, 4, 4, 4, 2, 8, 0, 0x0E, 0x11, 4, 4, 2, 8, 0, 0x0C, offset, 0x10, seats]);
        }
        assert_eq!(run(&bytes), script::run(&bytes));
        let (mut one, mut other) = ([0xA5; 99], [0xA5; 99]);
        assert_eq!(run_into(&bytes, &mut one), script::run_into(&bytes, &mut other));
        assert_eq!(one, other);
        assert_eq!(run_into(&bytes, &mut one[..9]), Err(Refusal::Buffer));
        for set in 0..32 {
            assert_eq!(first_stray(&bytes, set), stray::first_stray(&bytes, set));
        }
    }
}
