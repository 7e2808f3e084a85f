//! Boards written back as scripts by both (02, 2.4), and what was written run again, which must end in the board. Beside the plain version,
//! `reached` judges which boards no script ends in. Those of policy 5 are all refused.

use std::collections::BTreeMap;

use reference::board::MOST_TUPLES;
use reference::config::{BARE, LIST, STRONG, WAIT_FREE, WEAK};
use reference::dump::LONGEST_DUMP;
use reference::records::read_record;
use reference::script::run;
use reference::sys::Crosses;
use reference::{flat, sys};
use reference::{Answer, Board, Code, Config, Kind, Refusal, Tuple};

use super::reached::{flaw, Flaw};
use super::tables::{board_with, is_tidy, spoil_table, unfit, Calm, Tables, Unfit};
use super::wide::is_wide;
use super::{compare_dump, Dice, CHOICES, POLICIES, VALUES};

/// How often boards were written back, and refused 1, 15, 14 and 10.
#[derive(Clone, Copy, Debug, Default)]
pub struct Came {
    pub written: usize,
    pub unsound: usize,
    pub unwritten: usize,
    pub unreached: usize,
    pub short: usize,
}

/// What came under each policy, and why it was 14.
#[derive(Default)]
pub struct Dumps {
    came: BTreeMap<u64, Came>,
    /// Of boards that hold more than half of what they may: how many were written, and how many refused 14 or 15.
    wide: BTreeMap<u64, [usize; 2]>,
    flaws: BTreeMap<(u64, Flaw), usize>,
    /// Which boards are well formed by their tables, and which are not.
    tables: Tables,
    /// The last script that was run.
    last: Option<Ran>,
}

impl Dumps {
    /// Writes a board back by both, into buffers of several lengths, holds the answer against the rule, and runs what was written.
    pub fn note(&mut self, board: &Board) -> Result<Vec<u8>, Refusal> {
        let policy = board.config.policy;
        let came = self.came.entry(policy).or_default();
        let answer = compare_dump(board, &[0xA5; LONGEST_DUMP + 1]);
        let unsound = (!is_tidy(board) || unfit(board).is_some()).then_some(Refusal::Unsound);
        let refused = unsound.or((policy == WAIT_FREE).then_some(Refusal::Unwritten));
        let flaw = if refused.is_none() { flaw(board) } else { None };
        let expected = refused.or(flaw.map(|_| Refusal::Unreached));
        assert_eq!(answer.as_ref().err(), expected.as_ref(), "{flaw:?} in {board:?}");
        self.tables.note(board, answer == Err(Refusal::Unsound));
        match &answer {
            Ok(script) => {
                // The other lengths for every small board, and for every eighth of the larger ones.
                if board.count <= 32 || board.count % 8 == 0 {
                    for room in [script.len() - 1, 0] {
                        assert_eq!(compare_dump(board, &vec![0x5A; room]), Err(Refusal::Buffer));
                        came.short += 1;
                    }
                    assert_eq!(compare_dump(board, &vec![0x5A; script.len()]).as_ref(), Ok(script));
                }
                self.last = Some(ends_in(script, board, self.last.take()));
                came.written += 1;
            }
            Err(refusal) => {
                // 1, 15 and 14 come before 10.
                assert_eq!(compare_dump(board, &[]), Err(*refusal));
                *match refusal {
                    Refusal::Unsound => &mut came.unsound,
                    Refusal::Unwritten => &mut came.unwritten,
                    _ => &mut came.unreached,
                } += 1;
            }
        }
        if let Some(flaw) = flaw {
            *self.flaws.entry((policy, flaw)).or_default() += 1;
        }
        if is_wide(board) && answer != Err(Refusal::Unsound) {
            self.wide.entry(policy).or_default()[usize::from(answer.is_err())] += 1;
        }
        answer
    }

    /// What came under a policy.
    pub fn under(&self, policy: u64) -> Came {
        self.came.get(&policy).copied().unwrap_or_default()
    }

    /// How many boards there were.
    pub fn boards(&self) -> usize {
        let boards = |came: &Came| came.written + came.unsound + came.unwritten + came.unreached;
        self.came.values().map(boards).sum()
    }

    /// Prints what came under each policy.
    pub fn print(&self) {
        for (policy, Came { written, unsound, unwritten, unreached, short }) in &self.came {
            if *policy > WAIT_FREE {
                continue;
            }
            if *policy == WAIT_FREE {
                println!("         under policy 5 refused 1 {unsound}, refused 15 {unwritten}");
                continue;
            }
            println!(
                "         under policy {policy} written {written}, refused 1 {unsound}, refused 14 {unreached}; \
                 refused 10 {short}"
            );
            let flaws = self.flaws.iter().filter(|((p, _), _)| p == policy);
            let flaws: Vec<String> = flaws.map(|((_, flaw), often)| format!("{flaw:?} {often}")).collect();
            if !flaws.is_empty() {
                println!("         refused 14 under policy {policy}: {}", flaws.join(", "));
            }
        }
        self.tables.print();
        if !self.wide.is_empty() {
            println!(
                "         of more than half of the tuples, written and refused 14 or 15: {:?}",
                self.wide
            );
        }
    }

    /// So many boards that hold more than half of what they may were written, and so many refused 14 or 15, at least under this policy.
    pub fn assert_wide(&self, policy: u64, [written, refused]: [usize; 2]) {
        let came = self.wide.get(&policy).copied().unwrap_or_default();
        assert!(came[0] >= written && came[1] >= refused, "{came:?} under policy {policy}");
    }

    /// Each answer that can come did so often at least under this policy, but 10, which written boards give: all but 14 under policy 0,
    /// and 1 and 15 alone under policy 5.
    pub fn assert_came(&self, policy: u64, least: usize) {
        let came = self.under(policy);
        let Came { written, unsound, unwritten, unreached, .. } = came;
        let (can, cannot) = match policy {
            BARE => (vec![written, unsound], unreached + unwritten),
            WAIT_FREE => (vec![unsound, unwritten], written + unreached),
            _ => (vec![written, unsound, unreached], unwritten),
        };
        assert!(can.iter().all(|often| *often >= least) && cannot == 0, "{came:?} under policy {policy}");
    }

    /// Half of the boards at least were well formed under these policies.
    pub fn assert_half(&self, policies: &[u64]) {
        self.tables.assert_half(policies);
    }

    /// Each of these faults of the table, and each of these that are none, came so often at least under this policy.
    pub fn assert_tables(&self, policy: u64, (faults, calm): (&[Unfit], &[Calm]), least: usize) {
        self.tables.assert_unfit(policy, faults, least);
        self.tables.assert_calm(policy, calm, least);
    }

    /// Each of these flaws came so often at least under this policy.
    pub fn assert_each(&self, policy: u64, flaws: &[Flaw], least: usize) {
        for flaw in flaws {
            let often = self.flaws.get(&(policy, *flaw)).copied().unwrap_or(0);
            assert!(often >= least, "{flaw:?} came {often} times under policy {policy}");
        }
    }
}

/// A script that was run by both, and the boards in which it ended.
struct Ran {
    script: Vec<u8>,
    space: sys::Space,
    plain: Board,
}

impl Ran {
    /// A script without calls.
    fn fresh(config: Config, numbers: &[u64]) -> Ran {
        let opened = sys::fresh(flat::config(&config));
        assert_eq!(opened.refusal, 0, "{config:?}");
        // Each number of a sound set-up takes one byte.
        let script = numbers.iter().map(|number| *number as u8).collect();
        Ran { script, space: opened.space, plain: Board::fresh(config).expect("a sound set-up") }
    }

    /// Runs the call of the record at the script's end, which appends this tuple.
    fn append(&mut self, script: &[u8], tuple: &Tuple) {
        let (policy, at) = (self.plain.config.policy, self.script.len());
        let (call, taken) = read_record(&script[at..]).expect("a record");
        assert_eq!((call.process.into(), call.code), writer(policy, tuple), "{call:?}");
        assert!(policy != LIST || taken <= 32, "{call:?}");
        let answer = self.plain.call(&call);
        assert!([Ok(Answer::DONE), Ok(Answer::INSERTED)].contains(&answer), "{answer:?} to {call:?}");

        let read = sys::read(script, at);
        assert_eq!((read.refusal, read.next), (0, at + taken), "{script:02X?} at {at}");
        let applied = sys::apply(self.space, read.call);
        // Done or inserted.
        assert!([0, 3].contains(&applied.reply.outcome), "{:?} to {:?}", applied.reply, read.call);
        self.space = applied.space;
        self.script.extend(&script[at..read.next]);
    }
}

/// Runs a script by both, call by call and as a whole: each call appends a tuple, and the last one leaves this board. Where it begins with
/// the last one that was run, it goes on from there.
fn ends_in(script: &[u8], board: &Board, last: Option<Ran>) -> Ran {
    let Config { n, t, policy, k } = board.config;
    let numbers = if policy == STRONG { vec![n, t, policy, k] } else { vec![n, t, policy] };
    let begun = last.filter(|last| script.starts_with(&last.script));
    let mut ran = begun.unwrap_or_else(|| Ran::fresh(board.config, &numbers));
    for tuple in &board.held()[ran.plain.count..] {
        ran.append(script, tuple);
    }
    assert_eq!(ran.script, script, "{board:?}");
    assert!(ran.plain == *board, "{script:02X?} ends in {:?}, not in {board:?}", ran.plain);
    assert!(ran.space.bytes() == flat::space(board).bytes(), "{script:02X?} ends in {:?}", ran.space);

    let text = text_of(board, &numbers);
    let mut buffer = vec![0; text.len() + 1];
    let length = sys::script(script, &mut buffer);
    assert_eq!(length, Ok(text.len()), "{script:02X?}");
    assert_eq!(String::from_utf8_lossy(&buffer[..text.len()]), text, "{script:02X?}");
    assert_eq!(run(script), text, "{script:02X?}");
    ran
}

/// By whom, and by which call, this tuple is written.
fn writer(policy: u64, tuple: &Tuple) -> (u64, u32) {
    let [word, _, third, ..] = tuple.fields.map(|field| field.value);
    match policy {
        BARE => (1, Code::Out as u32),
        WEAK => (1, Code::Cas as u32),
        LIST => (third, Code::Cas as u32),
        _ if word == 1 => (third, Code::Out as u32),
        _ => (1, Code::Cas as u32),
    }
}

/// What the program prints for a script that appends this board's tuples: nothing but done and inserted between the first line and the
/// last.
fn text_of(board: &Board, numbers: &[u64]) -> String {
    let numbers: Vec<String> = numbers.iter().map(u64::to_string).collect();
    let mut text = format!("board {}\n", numbers.join(" "));
    for (number, tuple) in (1..).zip(board.held()) {
        let (_, code) = writer(board.config.policy, tuple);
        text += &format!("{number} {}\n", if code == Code::Out as u32 { "done" } else { "inserted" });
    }
    text + &format!("tuples {}\n", board.count)
}

/// A board beside this one: two of its tuples swapped, one repeated, one taken out, one value changed, or under another set-up, each with the
/// table of its tuples; or with another table.
pub fn near_miss(dice: &mut Dice, board: &Board) -> Board {
    let mut config = board.config;
    let mut tuples = board.held().to_vec();
    let held = tuples.len() as u64;
    match dice.below(7) {
        0 | 1 if held > 1 => {
            let first = dice.below(held) as usize;
            // Half of them with the next but one or two, so that few others stand between.
            let second =
                if dice.one_in(2) { first + 1 + dice.below(2) as usize } else { dice.below(held) as usize };
            tuples.swap(first, second.min(held as usize - 1));
        }
        2 if held > 0 => {
            let tuple = dice.pick(&tuples);
            tuples.truncate(MOST_TUPLES - 1);
            tuples.insert(dice.below(tuples.len() as u64 + 1) as usize, tuple);
        }
        3 if held > 0 => drop(tuples.remove(dice.below(held) as usize)),
        4 if held > 0 => {
            let place = dice.below(held) as usize;
            change_value(dice, &mut tuples[place]);
        }
        5 => {
            let mut other = board.clone();
            spoil_table(dice, &mut other);
            return other;
        }
        _ => change_set_up(dice, &mut config),
    }
    board_with(config, &tuples)
}

/// Gives one field of a tuple another value, seldom one beyond its kind.
fn change_value(dice: &mut Dice, tuple: &mut Tuple) {
    let place = dice.below(tuple.count as u64) as usize;
    let field = &mut tuple.fields[place];
    let last = Kind::from_number(field.kind.into()).expect("a field in use").last();
    let value = match dice.below(8) {
        0..=2 => field.value.saturating_sub(1 + dice.below(2)),
        3 | 4 => field.value.saturating_add(1 + dice.below(2)),
        5 if field.kind == Kind::Count as u32 => field.value ^ 1 << dice.pick(&[0, 1, 2, 3, 32, 63]),
        5 => field.value ^ 1 << dice.below(4),
        _ => dice.pick(&VALUES),
    };
    field.value = if dice.one_in(4) { value } else { value.min(last) };
}

/// Gives one number of a set-up another value.
fn change_set_up(dice: &mut Dice, config: &mut Config) {
    let near = |dice: &mut Dice, number: u64| if dice.one_in(2) { number + 1 } else { number.max(1) - 1 };
    match dice.below(5) {
        0 | 1 => config.n = near(dice, config.n),
        2 => config.t = near(dice, config.t),
        3 if config.policy == STRONG => config.k = near(dice, config.k),
        3 => config.k = dice.pick(&CHOICES),
        _ => {
            config.policy = dice.pick(&POLICIES[..7]);
            config.k = if config.policy == STRONG { 2 + dice.below(3) } else { 0 };
        }
    }
}
