//! Which seat strays (02, 2.11): a script is run under policy 2 or 3, and the
//! calls of some of its seats are held against the procedure (01, "The procedure
//! of a following seat" and "Runs").
//!
//! A seat's calls are those under its number. Between rounds it may begin one
//! that it has not begun, with any offset that starting allows; in a round it
//! makes the call that its state gave, and the board's answer is handed to that
//! state. It may stop anywhere.

use crate::board::{Answer, Board, Obey};
use crate::config::{Config, DEFAULT, STRONG};
use crate::fields::MOST_SEATS;
use crate::policy::LAST_ROUND;
use crate::records::{Call, Reader};
use crate::refusal::Refusal;
use crate::script::{set_up, LONGEST_SCRIPT};
use crate::seat::{Seat, Step};

/// The number, as the program board prints it, of the first record in which a
/// seat of this set makes a call that the procedure would not make there; `None`
/// if all of them follow. Seat k is the bit worth 2 to the power k - 1. Refuses 9,
/// then 2 or 3 for a set-up that can't be read, then 1, also for another policy
/// than 2 and 3, then 6 for a set with a seat above n.
pub fn first_stray(script: &[u8], set: u64) -> Result<Option<u32>, Refusal> {
    first_stray_by(script, set, Board::obey)
}

/// The same, each call obeyed in this way.
pub(crate) fn first_stray_by(script: &[u8], set: u64, obey: Obey) -> Result<Option<u32>, Refusal> {
    let (mut board, mut reader) = opened(script, set)?;
    let mut watches = [Watch::NEW; MOST_SEATS as usize];
    let mut number = 0;
    while !reader.at_end() {
        number += 1;
        // A record that can't be read ends the script, and is nobody's fault.
        let Ok(call) = reader.record() else {
            break;
        };
        let Some(watch) = watched(set, call.process).and_then(|place| watches.get_mut(place)) else {
            // Not judged, but made: the others read what it leaves.
            _ = obey(&mut board, &call);
            continue;
        };
        let Some(seat) = watch.makes(board.config, &call) else {
            return Ok(Some(number));
        };
        let answer = Answer::from(obey(&mut board, &call));
        watch.go_on(seat, &call, &answer);
    }
    Ok(None)
}

/// The fresh board of a script, and its records; or why none is looked at.
fn opened(script: &[u8], set: u64) -> Result<(Board, Reader<'_>), Refusal> {
    if script.len() > LONGEST_SCRIPT {
        return Err(Refusal::TooLong);
    }
    let mut reader = Reader::new(script);
    let config = set_up(&mut reader)?;
    let board = Board::fresh(config)?;
    if ![DEFAULT, STRONG].contains(&config.policy) {
        return Err(Refusal::Unsound);
    }
    // A sound n is far below 64.
    if set >> config.n != 0 {
        return Err(Refusal::Seat);
    }
    Ok((board, reader))
}

/// The place of a seat that is in the set, from 0.
fn watched(set: u64, process: u32) -> Option<usize> {
    let place = process.checked_sub(1).filter(|place| *place < u64::BITS)?;
    (set >> place & 1 == 1).then_some(place as usize)
}

/// What is kept of a seat that has followed so far.
#[derive(Clone, Copy)]
struct Watch {
    /// The rounds that it has begun.
    begun: [bool; LAST_ROUND as usize + 1],
    /// The round under way: its state, and the call that is due.
    now: Option<(Seat, Call)>,
}

impl Watch {
    /// A seat that has not called.
    const NEW: Watch = Watch { begun: [false; LAST_ROUND as usize + 1], now: None };

    /// The state that waits for this call's answer, if the procedure makes this
    /// call here: the one that is due, or between rounds the out that begins one.
    fn makes(&self, config: Config, call: &Call) -> Option<Seat> {
        let (seat, due) = self.now.or_else(|| self.begins(config, call))?;
        (due == *call).then_some(seat)
    }

    /// The start of the round and with the offset that this call's entry names,
    /// unless that round was begun before.
    fn begins(&self, config: Config, call: &Call) -> Option<(Seat, Call)> {
        let (round, _, offset) = call.entry.as_proposal()?;
        let started = Seat::start(config, call.process, round, offset).ok()?;
        (!self.has_begun(round)).then_some(started)
    }

    fn has_begun(&self, round: u64) -> bool {
        usize::try_from(round).is_ok_and(|round| self.begun.get(round) == Some(&true))
    }

    /// The state's call was made and answered so: the next one is due, or after the
    /// decision none until a round begins. An answer that doesn't fit would leave
    /// the seat as it was; the board's own answers to a following seat fit.
    fn go_on(&mut self, seat: Seat, call: &Call, answer: &Answer) {
        if let Some(begun) = self.begun.get_mut(seat.round as usize) {
            *begun = true;
        }
        self.now = match seat.hand(answer) {
            Ok((after, Step::Call(next))) => Some((after, next)),
            Ok((_, Step::Decision { .. })) => None,
            Err(_) => Some((seat, *call)),
        };
    }
}

#[cfg(test)]
mod tests {
    use super::*;
    use crate::fields::{Field, Kind, Tuple};
    use crate::records::record_of;
    use crate::script::run;
    use Refusal::{Ended, TooLong, Unsound, Value};

    /// Bytes from two-digit hexadecimal groups.
    fn hex(text: &str) -> Vec<u8> {
        text.split_whitespace().map(|byte| u8::from_str_radix(byte, 16).unwrap()).collect()
    }

    /// The script of a set-up and these calls.
    fn script(set_up: &[u8], calls: &[Call]) -> Vec<u8> {
        calls.iter().fold(set_up.to_vec(), |script, call| [script, record_of(call).unwrap()].concat())
    }

    /// One seat alone, two of two with none astray, and four with one.
    const ONE: [u8; 3] = [1, 0, 2];
    const TWO: [u8; 3] = [2, 0, 2];
    const FOUR: [u8; 3] = [4, 1, 2];

    fn out(seat: u32, round: u64, offset: u64) -> Call {
        Call::out(seat, Tuple::proposal(round, seat.into(), offset))
    }

    fn rdp(seat: u32, round: u64, asked: u64) -> Call {
        Call::rdp(seat, Tuple::proposal_template(round, asked))
    }

    fn cas(seat: u32, round: u64, offset: u64, seats: u64) -> Call {
        Call::cas(seat, Tuple::decision_template(round), Tuple::decision(round, offset, seats))
    }

    /// The whole round of one seat alone.
    fn alone(round: u64) -> [Call; 3] {
        [out(1, round, 0x50), rdp(1, round, 1), cas(1, round, 0x50, 1)]
    }

    /// Of these calls of seat 1 every part follows but the whole, which strays at
    /// its last call.
    fn strays_at_last(set_up: &[u8], calls: &[Call]) {
        for many in 0..calls.len() {
            assert_eq!(first_stray(&script(set_up, &calls[..many]), 1), Ok(None), "{many} of {calls:?}");
        }
        let last = Some(calls.len() as u32);
        assert_eq!(first_stray(&script(set_up, calls), 1), Ok(last), "{calls:?}");
        // And nothing behind it matters.
        let more = [calls, &alone(7), calls].concat();
        assert_eq!(first_stray(&script(set_up, &more), 1), Ok(last), "{calls:?}");
    }

    #[test]
    fn the_worked_script() {
        let worked = include_bytes!("../../crates/board/stdin");
        assert!(run(worked).contains("\n4 refused 13\n"));
        let rows = [
            (0b0100, Ok(None)),
            (0b0001, Ok(Some(5))),
            (0b0010, Ok(Some(6))),
            (0b1000, Ok(Some(4))),
            (0b0111, Ok(Some(5))),
            (0b1111, Ok(Some(4))),
            (0b1_0000, Err(Refusal::Seat)),
            (0, Ok(None)),
        ];
        for (set, expected) in rows {
            assert_eq!(first_stray(worked, set), expected, "{set:b}");
        }
    }

    #[test]
    fn refusals_in_order() {
        let rows = [
            ("", 0, Ended),
            ("04 01", 1 << 40, Ended),
            ("04 01 03", 16, Ended),
            ("00 01 03", 0, Ended),
            ("04 80 00 02", 16, Value),
            ("20 00 80 00", 1, Value),
            ("03 01 02", 0, Unsound),
            ("20 00 02", u64::MAX, Unsound),
            ("04 01 03 09", 16, Unsound),
            ("04 01 06", 16, Unsound),
            ("04 01 00", 0, Unsound),
            ("04 01 00", 16, Unsound),
            ("04 01 01", 1, Unsound),
            ("04 01 04", 0, Unsound),
            ("04 01 05", 16, Unsound),
            ("04 01 02", 16, Refusal::Seat),
            ("04 01 03 02", 16, Refusal::Seat),
            ("04 01 02 FF FF", 16, Refusal::Seat),
            ("04 01 02 01 03 07", 17, Refusal::Seat),
            ("04 01 02", 1 << 40, Refusal::Seat),
            ("04 01 02", 1 << 63, Refusal::Seat),
            ("01 00 02", 2, Refusal::Seat),
            ("1F 0A 02", 1 << 31, Refusal::Seat),
            ("1F 0A 02", u64::MAX, Refusal::Seat),
        ];
        for (script, set, refusal) in rows {
            assert_eq!(first_stray(&hex(script), set), Err(refusal), "{script} {set:x}");
        }
        for script in ["04 01 02", "04 01 02 FF FF", "04 01 02 01 03 07", "04 01 03 02"] {
            assert_eq!(first_stray(&hex(script), 0), Ok(None), "{script}");
        }
        assert_eq!(first_stray(&hex("1F 0A 02"), (1 << 31) - 1), Ok(None));
    }

    #[test]
    fn the_longest_script() {
        for set_up in [&hex("04 01 02")[..], &hex("80 00"), &hex("04 01 00"), &[]] {
            let mut script = set_up.to_vec();
            script.resize(LONGEST_SCRIPT + 1, 0xFF);
            assert_eq!(first_stray(&script, 16), Err(TooLong));
            assert_eq!(first_stray(&script, 0), Err(TooLong));
            script.pop();
            assert_ne!(first_stray(&script, 0), Err(TooLong));
        }
        // The last record that it has room for.
        let other = record_of(&rdp(2, 0, 1)).unwrap();
        let mut bytes = script(&TWO, &[]);
        while bytes.len() + 2 * other.len() <= LONGEST_SCRIPT {
            bytes.extend(&other);
        }
        let records = (bytes.len() - 3) / other.len();
        bytes.extend(record_of(&rdp(1, 0, 1)).unwrap());
        assert_eq!(first_stray(&bytes, 1), Ok(Some(records as u32 + 1)));
        assert_eq!(first_stray(&bytes, 2), Ok(Some(1)));
    }

    #[test]
    fn rounds_one_after_another() {
        let calls = [alone(5), alone(0), alone(7), alone(1)].concat();
        for many in 0..=calls.len() {
            assert_eq!(first_stray(&script(&ONE, &calls[..many]), 1), Ok(None), "{many}");
        }
        let eight: Vec<Call> = (0..=7).flat_map(alone).collect();
        assert_eq!(first_stray(&script(&ONE, &eight), 1), Ok(None));
        for round in 0..=7 {
            strays_at_last(&ONE, &[&eight[..], &[out(1, round, 9)]].concat());
        }
    }

    #[test]
    fn a_round_begun_twice() {
        strays_at_last(&ONE, &[&alone(5)[..], &[out(1, 5, 0x50)]].concat());
        strays_at_last(&ONE, &[&alone(5)[..], &alone(0), &[out(1, 5, 9)]].concat());
    }

    #[test]
    fn what_may_be_proposed() {
        for offset in [1, 2, 3, 0x50, 0x51, 200_000, 200_001] {
            assert_eq!(first_stray(&script(&FOUR, &[out(1, 0, offset)]), 1), Ok(None));
        }
        strays_at_last(&FOUR, &[out(1, 0, 0)]);
        for k in 2..=8 {
            let set_up = [10, 1, 3, k];
            for offset in 0..20 {
                let choice = offset % 2 == 1 && offset < 2 * u64::from(k);
                let expected = if choice { None } else { Some(1) };
                assert_eq!(first_stray(&script(&set_up, &[out(1, 0, offset)]), 1), Ok(expected));
            }
        }
    }

    #[test]
    fn between_rounds() {
        let wrong = |call: Call| {
            strays_at_last(&ONE, &[call]);
            strays_at_last(&ONE, &[&alone(3)[..], &[call]].concat());
        };
        for round in [8, 9, 255, u64::MAX] {
            wrong(out(1, round, 9));
        }
        for seat in [0, 2, 31, 257, u64::MAX] {
            wrong(Call::out(1, Tuple::proposal(0, seat, 9)));
        }
        let good = Tuple::proposal(0, 1, 9).fields;
        let mut word = Tuple::of(&good[..4]);
        word.fields[0] = Field::given(Kind::Word, 2);
        let longer = [&good[..4], &[Field::given(Kind::Word, 0)]].concat();
        for entry in [word, Tuple::of(&good[..3]), Tuple::of(&longer), Tuple::decision(0, 9, 1)] {
            wrong(Call::out(1, entry));
        }
        wrong(rdp(1, 0, 1));
        wrong(cas(1, 0, 9, 1));
        wrong(Call::inp(1, Tuple::proposal_template(0, 1)));
        wrong(Call::cas(1, Tuple::decision_template(0), Tuple::proposal(0, 1, 9)));
    }

    #[test]
    fn after_the_decision() {
        for call in
            [Call::rdp(1, Tuple::decision_template(3)), cas(1, 3, 0x50, 1), rdp(1, 3, 1), out(1, 3, 0x50)]
        {
            strays_at_last(&ONE, &[&alone(3)[..], &[call]].concat());
        }
    }

    #[test]
    fn while_a_round_is_under_way() {
        // Each call is wrong behind each part of the round.
        for (begun, calls) in [
            (1, vec![cas(1, 3, 0x50, 1), rdp(1, 3, 2), rdp(1, 2, 1), Call::inp(1, rdp(1, 3, 1).template)]),
            (2, vec![rdp(1, 3, 1), cas(1, 3, 0x50, 0), cas(1, 3, 0x51, 1), cas(1, 2, 0x50, 1)]),
        ] {
            let always = [out(1, 3, 0x50), out(1, 3, 0x51), out(1, 2, 0x50), out(1, 8, 0)];
            for call in calls.into_iter().chain(always) {
                strays_at_last(&ONE, &[&alone(3)[..begun], &[call]].concat());
            }
        }
        let mut template = cas(1, 3, 0x50, 1);
        template.template.fields[3] = Field::open(Kind::Seats);
        strays_at_last(&ONE, &[&alone(3)[..2], &[template]].concat());
    }

    #[test]
    fn readings_in_their_order() {
        // Nobody else has proposed: 1 is found, then 2, 3, 4 and again 2.
        let begun = [out(1, 0, 9), rdp(1, 0, 1)];
        for asked in [1, 3, 4, 5, 0] {
            strays_at_last(&FOUR, &[&begun[..], &[rdp(1, 0, asked)]].concat());
        }
        let round = [&begun[..], &[2, 3, 4, 2, 3].map(|asked| rdp(1, 0, asked))].concat();
        strays_at_last(&FOUR, &[&round[..], &[rdp(1, 0, 1)]].concat());
        strays_at_last(&FOUR, &[&round[..], &[cas(1, 0, 9, 1)]].concat());
        // Seat 2 proposes: it is found, and the first two seats bear 9.
        let mut calls = [&round[..], &[out(2, 0, 9)], &[4, 2].map(|asked| rdp(1, 0, asked))].concat();
        assert_eq!(first_stray(&script(&FOUR, &calls), 3), Ok(None));
        for (set, expected) in [(0b0011, None), (0b0111, Some(11)), (0b0001, Some(11)), (0b0010, Some(11))] {
            calls.push(cas(1, 0, 9, set));
            assert_eq!(first_stray(&script(&FOUR, &calls), 3), Ok(expected), "{set:b}");
            calls.pop();
        }
        calls.push(rdp(1, 0, 3));
        assert_eq!(first_stray(&script(&FOUR, &calls), 3), Ok(Some(11)));
    }

    #[test]
    fn the_mark_by_all_that_are_found() {
        let offsets = [(2, 0, 1), (3, 0, 3), (1, 0, 5), (4, 0, 1)];
        let mut calls = offsets.map(|(seat, round, offset)| out(seat, round, offset)).to_vec();
        calls.extend([1, 2, 3].map(|asked| rdp(1, 0, asked)));
        for (call, expected) in [
            (cas(1, 0, 0, 0b0111), None),
            (cas(1, 0, 0, 0b1111), Some(8)),
            (cas(1, 0, 1, 0b1010), Some(8)),
            (rdp(1, 0, 4), Some(8)),
        ] {
            calls.push(call);
            assert_eq!(first_stray(&script(&FOUR, &calls), 15), Ok(expected), "{call:?}");
            // Under policy 3 the three choices go on.
            let reads_on = call == rdp(1, 0, 4);
            let strong = script(&[5, 1, 3, 3], &calls);
            assert_eq!(first_stray(&strong, 15), Ok((!reads_on).then_some(8)), "{call:?}");
            calls.pop();
        }
    }

    #[test]
    fn a_held_decision_ends_the_round_too() {
        let calls = [
            out(1, 0, 9),
            out(2, 0, 9),
            rdp(1, 0, 1),
            rdp(1, 0, 2),
            rdp(2, 0, 1),
            // Without the readings, and with a set that the procedure would not name: seat 3 is no member.
            out(3, 0, 9),
            cas(3, 0, 9, 0b0101),
            rdp(2, 0, 2),
            cas(2, 0, 9, 0b0011),
            cas(1, 0, 9, 0b0011),
            out(1, 1, 9),
            out(2, 7, 9),
        ];
        let bytes = script(&FOUR, &calls);
        assert!(run(&bytes).contains("\n9 held w2 c0 o4 s5\n10 held w2 c0 o4 s5\n"));
        assert_eq!(first_stray(&bytes, 0b1011), Ok(None));
        assert_eq!(first_stray(&bytes, 0b1111), Ok(Some(7)));
    }

    #[test]
    fn others_are_made_and_counted() {
        // 0, a seat above n and one outside the set, obeyed and refused.
        let others = [
            rdp(0, 0, 1),
            out(5, 0, 9),
            out(2, 0, 9),
            out(2, 0, 9),
            Call::inp(3, rdp(3, 0, 1).template),
            rdp(65, 0, 1),
            rdp(1 << 31, 0, 1),
        ];
        let calls = [&others[..], &[out(1, 0, 9), rdp(1, 0, 1), rdp(1, 0, 2)]].concat();
        assert_eq!(first_stray(&script(&FOUR, &calls), 0b1001), Ok(None));
        for (last, expected) in [(cas(1, 0, 9, 3), None), (rdp(1, 0, 3), Some(11))] {
            let calls = [&calls[..], &others, &[last]].concat();
            let expected = expected.map(|number| number + others.len() as u32);
            assert_eq!(first_stray(&script(&FOUR, &calls), 0b1001), Ok(expected));
        }
        assert_eq!(first_stray(&script(&FOUR, &calls), 0b0011), Ok(Some(4)));
    }

    #[test]
    fn an_unreadable_record_is_nobodys_fault() {
        let begun = script(&ONE, &alone(5)[..1]);
        // The same call once more, which is astray, cut and whole.
        let again = record_of(&out(1, 5, 0x50)).unwrap();
        for cut in 0..again.len() {
            assert_eq!(first_stray(&[&begun, &again[..cut]].concat(), 1), Ok(None), "{cut}");
        }
        assert_eq!(first_stray(&[&begun[..], &again].concat(), 1), Ok(Some(2)));
        // No code, no head, no field; what stands behind it is not looked at.
        for unread in ["01 05", "01 01 01 07", "01 01 00", "01 80 00", "81 00 01"] {
            let bytes = [begun.clone(), hex(unread), again.clone()].concat();
            assert_eq!(first_stray(&bytes, 1), Ok(None), "{unread}");
        }
        // The calls before it are judged.
        assert_eq!(first_stray(&[&begun[..], &again, &[1, 5]].concat(), 1), Ok(Some(2)));
    }
}
