//! What the comparisons share: a generator of numbers, values at and beyond every bound, and the comparisons themselves. Each
//! compares the whole answer and all that is left behind.

#![allow(dead_code)]

pub mod announced;
pub mod denials;
pub mod dumps;
pub mod lists;
pub mod long;
pub mod numbers;
pub mod reached;
pub mod strays;
pub mod tables;
pub mod wide;

use std::cell::RefCell;
use std::fmt::Debug;

use reference::config::STRONG;
use reference::dump::dump_into;
use reference::fields::{MOST_FIELDS, MOST_SEATS};
use reference::list::LAST_POSITION;
use reference::records::{read_record, record_of, write_record};
use reference::script::{run, run_into, ROOM_FOR_TEXT};
use reference::stray::first_stray;
use reference::sys::Crosses;
use reference::{flat, sys};
use reference::{
    Answer, AnswerKind, Board, Call, Config, Field, Kind, Offset, Phase, Refusal, Seat, Step, Tuple,
};

use long::any_count;

/// How many numbers the answer to a call is counted under: 0 for those obeyed, then each refusal's. 14 and 15 are no call's.
pub const ANSWERS: usize = Refusal::Unborne as usize + 1;

/// A small generator of numbers (xorshift). `SEED` in the environment changes all of them.
pub struct Dice(u64);

impl Dice {
    pub fn new(seed: u64) -> Dice {
        let given = std::env::var("SEED").ok().and_then(|text| text.parse().ok()).unwrap_or(0u64);
        let mut dice = Dice((seed ^ given.wrapping_mul(0x9E37_79B9_7F4A_7C15)) | 1);
        for _ in 0..8 {
            dice.below(2);
        }
        dice
    }

    pub fn next(&mut self) -> u64 {
        self.0 ^= self.0 << 13;
        self.0 ^= self.0 >> 7;
        self.0 ^= self.0 << 17;
        self.0.wrapping_mul(0x2545_F491_4F6C_DD1D)
    }

    pub fn below(&mut self, limit: u64) -> u64 {
        (self.next() >> 20) % limit
    }

    pub fn one_in(&mut self, many: u64) -> bool {
        self.below(many) == 0
    }

    pub fn pick<T: Copy>(&mut self, choices: &[T]) -> T {
        choices[self.below(choices.len() as u64) as usize]
    }
}

/// Values at the bounds of 01 and 02, and around them.
pub const VALUES: [u64; 39] = [
    0,
    1,
    2,
    3,
    4,
    5,
    6,
    7,
    8,
    9,
    MOST_SEATS - 1,
    MOST_SEATS,
    MOST_SEATS + 1,
    LAST_POSITION - 1,
    LAST_POSITION,
    LAST_POSITION + 1,
    127,
    128,
    Kind::Word.last(),
    Kind::Word.last() + 1,
    16_383,
    16_384,
    (1 << 28) - 1,
    1 << 28,
    Kind::Seats.last(),
    Kind::Seats.last() + 1,
    199_999,
    200_000,
    200_001,
    200_002,
    4_294_967_295,
    4_294_967_296,
    4_294_967_297,
    (1 << 35) - 1,
    1 << 35,
    (1 << 63) - 1,
    1 << 63,
    (1 << 63) + 1,
    u64::MAX,
];

/// Kinds, states and codes, and numbers whose low bytes are one's.
pub const KINDS: [u32; 8] = [0, 1, 2, 3, 4, 5, 65_538, u32::MAX];
pub const STATES: [u32; 6] = [0, 1, 2, 3, 65_536, u32::MAX];
pub const COUNTS: [usize; 9] = [0, 1, 2, 3, 4, 5, 6, 7, usize::MAX];
pub const CODES: [u32; 8] = [0, 1, 2, 3, 4, 5, 65_540, u32::MAX];
pub const SEATS: [u32; 10] = {
    let most = MOST_SEATS as u32;
    [0, 1, 2, 4, 5, most / 2 + 1, most, most + 1, 127, u32::MAX]
};

/// Every policy, and numbers that are none's.
pub const POLICIES: [u64; 9] = [0, 1, 2, 3, 4, 5, 6, 4_294_967_299, u64::MAX];

/// How many choices: all of policy 3, and beyond its bounds.
pub const CHOICES: [u64; 13] = [0, 1, 2, 3, 4, 5, 6, 7, 8, 9, 4_294_967_295, 4_294_967_298, u64::MAX];

/// How many may stray: all that any set-up has and one more, and so many that 3t, 4t or 9t just fits in 64 bits, or wraps; and one whose low
/// bits are those of 1.
pub const STRAYS: [u64; 20] = {
    let [x, y, z] = [u64::MAX / 3, u64::MAX / 4, u64::MAX / 9];
    [0, 1, 2, 3, 4, 5, 6, 7, 8, 9, 10, 11, x, x + 1, y, y + 1, z, z + 1, 4_294_967_297, u64::MAX]
};

/// How many seats a run has: mostly few, so that they get far, else any number or all.
pub fn some_seats(dice: &mut Dice) -> u64 {
    match dice.below(8) {
        0 => MOST_SEATS,
        1..=3 => 1 + dice.below(MOST_SEATS),
        _ => 1 + dice.below(8),
    }
}

/// A sound set-up of so many seats under a policy; mostly few choices, so that some may stray.
pub fn config_of(dice: &mut Dice, n: u64, policy: u64) -> Config {
    let k = if policy == STRONG { dice.pick(&[2, 2, 2, 2, 3, 3, 3, 4, 4, 5, 6, 7, 8]) } else { 0 };
    let most = (n - 1) / if policy == STRONG { k + 1 } else { 3 };
    Config { n, t: if dice.one_in(3) { dice.below(most + 1) } else { most }, policy, k }
}

/// A set-up at or beyond its bounds.
pub fn odd_config(dice: &mut Dice) -> Config {
    let most = MOST_SEATS;
    let n = dice.pick(&[0, 1, 3, 4, 5, 6, 7, 9, 10, most / 2 + 1, most - 1, most, most + 1, u64::MAX]);
    let policy = dice.pick(&[0, 1, 2, 3, 3, 4, 5, 6, u64::MAX]);
    let k = if policy == STRONG || dice.one_in(3) { dice.pick(&CHOICES) } else { 0 };
    Config { n, t: dice.pick(&STRAYS), policy, k }
}

/// Every n, t, policy and k at and around its bounds, with every other: among them n one too small for k and t.
pub fn every_config() -> Vec<Config> {
    let mut configs = Vec::new();
    for n in (0..=MOST_SEATS + 2).chain([4_294_967_300, u64::MAX]) {
        for t in STRAYS {
            for policy in POLICIES {
                configs.extend(CHOICES.map(|k| Config { n, t, policy, k }));
            }
        }
    }
    configs
}

/// The offsets that following seats propose and strays race them with: 0, 7, -7, 40, -40, 100,000 and -100,000.
pub const OFFSETS: [u64; 7] = [1, 15, 14, 81, 80, 200_001, 200_000];

/// Offsets for a run, one or a few, so that they meet, and more where there are more seats: of the choices under policy 3, else of these.
pub fn offsets_of(dice: &mut Dice, config: &Config) -> Vec<u64> {
    let all = match config.policy {
        STRONG => (0..config.k).map(|choice| 1 + 2 * choice).collect(),
        _ => OFFSETS.to_vec(),
    };
    // Those from one place on, round the table: the opposites stand side by side.
    let (first, many) = (dice.below(all.len() as u64), 1 + dice.below(4 + config.n / 8));
    all.into_iter().cycle().skip(first as usize).take(many as usize).collect()
}

/// An offset that may be proposed; one of a few, so that they meet.
pub fn likely_offset(dice: &mut Dice, config: &Config) -> u64 {
    match config.policy {
        STRONG => 1 + 2 * dice.pick(&[0, 1, config.k.clamp(2, 8) - 1]),
        _ => 1 + dice.below(3),
    }
}

/// The mark, or an offset that is no choice among k: -1, -k, k, or far off.
pub fn no_choice(dice: &mut Dice, k: u64) -> u64 {
    dice.pick(&[0, 0, 0, 2, 2, 2 * k, 1 + 2 * k, 1 + 2 * k, 200_000, 200_001])
}

/// An offset or the mark, mostly one that may be proposed.
pub fn near_offset(dice: &mut Dice, config: &Config) -> u64 {
    if dice.one_in(3) {
        no_choice(dice, config.k.min(8))
    } else {
        likely_offset(dice, config)
    }
}

/// A field that an entry, or a template, may have.
pub fn good_field(dice: &mut Dice, entry: bool) -> Field {
    let kind = dice.pick(&Kind::ALL);
    if !entry && dice.one_in(3) {
        return if dice.one_in(2) { Field::any(kind) } else { Field::open(kind) };
    }
    let value = match dice.below(3) {
        0 => dice.below(4),
        1 if kind == Kind::Count => any_count(dice),
        1 => dice.next() % (kind.last() + 1),
        _ => dice.pick(&VALUES).min(kind.last()),
    };
    Field::given(kind, value)
}

pub fn good_tuple(dice: &mut Dice, entry: bool) -> Tuple {
    let fields: Vec<Field> = (0..1 + dice.below(6)).map(|_| good_field(dice, entry)).collect();
    Tuple::of(&fields)
}

/// A call without fault.
pub fn good_call(dice: &mut Dice) -> Call {
    let seat = dice.pick(&SEATS);
    let template = good_tuple(dice, false);
    let entry = good_tuple(dice, true);
    match dice.below(4) {
        0 => Call::out(seat, entry),
        1 => Call::rdp(seat, template),
        2 => Call::inp(seat, template),
        _ => Call::cas(seat, template, entry),
    }
}

/// How many numbers a tuple consists of, and a call.
pub const TUPLE_PARTS: u64 = 1 + 3 * MOST_FIELDS as u64;
pub const PARTS: u64 = 2 + 2 * TUPLE_PARTS;

/// Gives one number of a call another value, near its bounds or any.
pub fn spoil(dice: &mut Dice, call: &mut Call, part: u64) {
    match part {
        0 => call.process = dice.pick(&SEATS),
        1 => call.code = dice.pick(&CODES),
        _ => {
            let tuple = if part < 2 + TUPLE_PARTS { &mut call.template } else { &mut call.entry };
            spoil_tuple(dice, tuple, (part - 2) % TUPLE_PARTS);
        }
    }
}

pub fn spoil_tuple(dice: &mut Dice, tuple: &mut Tuple, part: u64) {
    if part == 0 {
        tuple.count = dice.pick(&COUNTS);
        return;
    }
    let field = &mut tuple.fields[(part - 1) as usize / 3];
    match part % 3 {
        0 => field.kind = dice.pick(&KINDS),
        1 => field.state = dice.pick(&STATES),
        _ => field.value = if dice.one_in(4) { dice.next() } else { dice.pick(&VALUES) },
    }
}

/// Gives one number of a place of a well-formed board a value that no such board has there.
pub fn soil(dice: &mut Dice, place: &mut Tuple, part: u64) {
    if part == 0 {
        let others: Vec<usize> = COUNTS.into_iter().filter(|count| *count != place.count).collect();
        place.count = dice.pick(&others);
        return;
    }
    // A field in use has a kind, an unused one is blank.
    let field = &mut place.fields[(part - 1) as usize / 3];
    match (part % 3, Kind::from_number(field.kind.into())) {
        (0, Some(kind)) => field.kind = dice.pick(&[0, 5, 65_536 + kind as u32, u32::MAX]),
        (0, None) => field.kind = dice.pick(&KINDS[1..]),
        // No value is beyond a count.
        (1, _) | (_, Some(Kind::Count)) => field.state = dice.pick(&STATES[1..]),
        (_, Some(kind)) => field.value = dice.pick(&[kind.last() + 1, 1 << 32, u64::MAX]),
        (_, None) => field.value = dice.pick(&VALUES[1..]),
    }
}

// ---- the comparisons

/// What proved and plain give must be equal. `rust/plant` looks for these words, and sets `FIRST`, by which all ends at the first difference.
fn same<T: PartialEq + Debug>(proved: T, plain: T, input: impl FnOnce() -> String) {
    if proved != plain {
        differ(proved, plain, input);
    }
}

/// The same of structs that cross, byte by byte.
fn same_bytes<T: Crosses>(proved: T, plain: T, input: impl FnOnce() -> String) {
    if proved.bytes() != plain.bytes() {
        differ(proved, plain, input);
    }
}

fn differ<T: Debug>(proved: T, plain: T, input: impl FnOnce() -> String) -> ! {
    let difference = format!("proved and plain differ: {}\nproved {proved:?}\nplain {plain:?}", input());
    if std::env::var_os("FIRST").is_some() {
        println!("{difference}");
        std::process::exit(1);
    }
    panic!("{difference}");
}

/// A fresh board, by both: the refusal, and beside it the blank space.
pub fn compare_fresh(config: Config) -> Result<Board, Refusal> {
    let plain = Board::fresh(config);
    let blank = tables::board_with(Config::default(), &[]);
    let refusal = plain.as_ref().map_or_else(|refusal| refusal.number().into(), |_| 0);
    let space = flat::space(plain.as_ref().unwrap_or(&blank));
    same_bytes(sys::fresh(flat::config(&config)), sys::Opened { refusal, space }, || format!("{config:?}"));
    plain
}

/// A call on a board, by both: the answer and the whole board afterwards must be equal, and where the call is refused the board that was handed in.
pub fn compare_call(board: &mut Board, call: &Call) -> Answer {
    let before = board.clone();
    let handed = flat::space(&before);
    let ours = sys::apply(handed, flat::call(call));
    let answer = Answer::from(board.call(call));
    let plain = sys::Applied { reply: flat::reply(&answer), space: flat::space(board) };
    let input = || format!("{call:?}\non {before:?}");
    same_bytes(ours, plain, input);
    if refused(&answer) {
        same_bytes(ours.space, handed, input);
    }
    answer
}

/// How many bytes stand before and behind a lent buffer, and what they are.
const GUARD: usize = 32;
const GUARDED: u8 = 0xC3;

/// Lends a buffer with these bytes in it, guards before and behind it; what is answered, the buffer afterwards, and the guards.
fn lend<T>(buffer: &[u8], work: impl FnOnce(&mut [u8]) -> T) -> (T, Vec<u8>, Vec<u8>) {
    let guard = [GUARDED; GUARD];
    let mut lent = [&guard, buffer, &guard].concat();
    let answer = work(&mut lent[GUARD..GUARD + buffer.len()]);
    let behind = lent.split_off(GUARD + buffer.len());
    let buffer = lent.split_off(GUARD);
    (answer, buffer, [lent, behind].concat())
}

/// Writing a call's record, by both: the length or refusal and the whole buffer, and nothing around it.
pub fn compare_write(call: &Call, buffer: &[u8]) {
    let proved = lend(buffer, |lent| sys::write(flat::call(call), lent));
    let plain = lend(buffer, |lent| write_record(call, lent).map_err(Refusal::number));
    same(proved, plain, || format!("{call:?} into {} bytes", buffer.len()));
}

/// Reading the record at a place, by both. Gives the number of its refusal, 0 if it reads.
pub fn compare_read(bytes: &[u8], at: usize) -> usize {
    let proved = sys::read(bytes, at);
    let plain = match read_record(bytes.get(at..).unwrap_or(&[])) {
        Ok((call, taken)) => sys::Read { refusal: 0, next: at + taken, call: flat::call(&call) },
        Err(refusal) => sys::Read { refusal: refusal.number().into(), ..sys::Read::default() },
    };
    same_bytes(proved, plain, || format!("{bytes:02X?} at {at}"));
    plain.refusal as usize
}

/// A script's text into a buffer, by both, and into one that has room for every text.
pub fn compare_script(script: &[u8], buffer: &[u8]) -> Result<usize, Refusal> {
    compare_text(script);
    compare_lent(script, buffer)
}

/// A script's text into a buffer, by both.
pub fn compare_lent(script: &[u8], buffer: &[u8]) -> Result<usize, Refusal> {
    let proved = lend(buffer, |lent| sys::script(script, lent));
    let (answer, left, guards) = lend(buffer, |lent| run_into(script, lent));
    let plain = (answer.map_err(Refusal::number), left, guards);
    same(proved, plain, || format!("{script:02X?} into {} bytes", buffer.len()));
    answer
}

thread_local! {
    /// The buffer that the program lends, with its guards, and how many scripts it was lent for. It has room for the text of every script, so
    /// that the text is not measured first.
    static WIDE: RefCell<(Vec<u8>, usize)> = RefCell::new((vec![GUARDED; ROOM_FOR_TEXT + 2 * GUARD], 0));
}

/// A script's text by the path that the program takes, and nothing around it. Gives the text.
pub fn compare_text(script: &[u8]) -> String {
    let text = run(script);
    WIDE.with_borrow_mut(|(wide, lent)| {
        let answer = sys::script(script, &mut wide[GUARD..GUARD + ROOM_FOR_TEXT]);
        let end = GUARD + text.len();
        let ours = String::from_utf8_lossy(&wide[GUARD..end]);
        same((answer, ours.as_ref()), (Ok(text.len()), &text), || format!("{script:02X?}"));
        wide[GUARD..end].fill(GUARDED);
        // All of what is outside the text now and then, else what is next to it, and the guards.
        let near = (end + 1024).min(wide.len());
        let (front, rest) =
            if *lent % 64 == 0 { (wide.len(), wide.len()) } else { (near, GUARD + ROOM_FOR_TEXT) };
        let changed = wide[..front].iter().chain(&wide[rest..]).filter(|byte| **byte != GUARDED).count();
        same(changed, 0, || format!("bytes outside the text of {script:02X?}"));
        *lent += 1;
    });
    text
}

/// How many scripts' texts were compared by the path that the program takes, on this thread.
pub fn texts() -> usize {
    WIDE.with_borrow(|(_, lent)| *lent)
}

/// Writing a board back as a script, by both: the length or refusal and the whole buffer, and nothing around it. Gives what the proved
/// function wrote.
pub fn compare_dump(board: &Board, buffer: &[u8]) -> Result<Vec<u8>, Refusal> {
    let proved = lend(buffer, |lent| sys::dump(flat::space(board), lent));
    let mut ours = proved.1.clone();
    let (answer, left, guards) = lend(buffer, |lent| dump_into(board, lent));
    let plain = (answer.map_err(Refusal::number), left, guards);
    same(proved, plain, || format!("{board:?} into {} bytes", buffer.len()));
    // Nothing behind the script was changed; of a refused one, nothing at all.
    let length = answer.unwrap_or(0);
    assert!(ours[length..] == buffer[length..], "{board:?}\nproved {ours:02X?}");
    ours.truncate(length);
    answer.map(|_| ours)
}

/// The first record of a script in which a seat of a set strays, by both.
pub fn compare_strays(script: &[u8], set: u64) -> Result<Option<u32>, Refusal> {
    let plain = first_stray(script, set);
    same(sys::strays(script, set), flat::strays(&plain), || format!("{script:02X?} and the set {set:#X}"));
    plain
}

/// Starting a seat, by both. The offset is the mark, or any number.
pub fn compare_start(
    config: Config,
    process: u32,
    round: u64,
    offset: Offset,
) -> Result<(Seat, Call), Refusal> {
    let (bottom, hundredths) = match offset {
        Offset::Mark => (1, 0),
        Offset::Number(z) => (0, i32::try_from(z).expect("an offset that crosses")),
    };
    compare_flagged(config, process, round, (bottom, hundredths))
}

/// Starting a seat, by both, with a flag for the mark, any but 0, and hundredths, which do not matter beside it.
pub fn compare_flagged(
    config: Config,
    process: u32,
    round: u64,
    (bottom, hundredths): (u32, i32),
) -> Result<(Seat, Call), Refusal> {
    let offset = if bottom == 0 { Offset::Number(hundredths.into()) } else { Offset::Mark };
    let ours = sys::start(flat::config(&config), process, round, bottom, hundredths);
    let plain = Seat::start(config, process, round, offset.travelling().unwrap_or(u64::MAX));
    let input = || format!("{config:?} {process} {round} {bottom} {hundredths}");
    same_bytes(ours, flat::started(&plain), input);
    plain
}

/// Handing a state an answer, by both: what comes next and the whole state afterwards, and after a refusal the state that was handed in.
pub fn compare_hand(seat: &Seat, answer: &Answer) -> Result<(Seat, Step), Refusal> {
    let before = flat::process(seat);
    let ours = sys::resume(before, flat::reply(answer));
    let plain = seat.hand(answer);
    let input = || format!("{seat:?} {answer:?}");
    same_bytes(ours, flat::handed(&before, &plain), input);
    if plain.is_err() {
        same_bytes(ours.process, before, input);
    }
    plain
}

/// What a seat waits for that is not of this crate's types: numbers that are no phase's, no outcome's, or too large.
pub fn compare_numbers(process: sys::Process, reply: sys::Reply, expected: sys::Step) {
    same_bytes(sys::resume(process, reply), expected, || format!("{process:?} {reply:?}"));
}

/// The record of a call that is known to be sound.
pub fn record(call: &Call) -> Vec<u8> {
    record_of(call).expect("a sound call")
}

/// The number of the answer's refusal, 0 if it was obeyed.
pub fn refusal_of(answer: &Answer) -> usize {
    match answer.kind {
        AnswerKind::Refused(refusal) => refusal.number() as usize,
        _ => 0,
    }
}

pub fn refused(answer: &Answer) -> bool {
    matches!(answer.kind, AnswerKind::Refused(_))
}

pub fn decided(seat: &Seat) -> bool {
    matches!(seat.phase, Phase::Decided(_))
}
