//! The proved library and the plain Rust version side by side: same inputs, interleaved, medians of many rounds; and how many copies of 4 KB and
//! more each makes, per record or call. Where a board is handed in (b, d, f and the first rows of g) both sides test that it is well formed, at
//! every call; in scripts (c, e, i to n and the other rows of g), whose board nobody else writes, neither does. Both answer from the board's
//! table who proposed what; the plain version that the library is compared with goes on searching.
//!
//!     bench [the proved program board] [the Rust program board] [the library that counts copies]
//!
//! With the two programs it runs them too, from standard input to standard output. With the library (rust/copies.c, which says what is
//! counted) it first runs itself where that is loaded, and prints the copies behind the times: what is timed is the same code without it.

mod inputs;
mod meter;

use std::fs::File;
use std::hint::black_box;
use std::io::Write;
use std::process::{Command, Stdio};

use inputs::*;
use meter::{counted_lines, Meter, Pair};
use reference::board::MOST_TUPLES;
use reference::config::{LIST, WAIT_FREE};
use reference::dump::LONGEST_DUMP;
use reference::fields::MOST_SEATS;
use reference::list::LAST_POSITION;
use reference::policy::LAST_ROUND;
use reference::records::{read_record, record_of};
use reference::script::ROOM_FOR_TEXT;
use reference::tabled::{self, dump_into, run_into};
use reference::{flat, sys};
use reference::{Answer, Board, Call, Offset, Seat, Tuple};

/// Takes a row: its name, what was measured, and of how many records or calls.
type Put<'a> = &'a mut dyn FnMut(&str, Pair, usize);

fn read_ours(bytes: &[u8]) {
    let mut at = 0;
    while at < bytes.len() {
        let read = black_box(sys::read(bytes, at));
        assert_eq!(read.refusal, 0);
        at = read.next;
    }
}

fn read_plain(bytes: &[u8]) {
    let mut at = 0;
    while at < bytes.len() {
        let (_, taken) = black_box(read_record(&bytes[at..])).expect("a record");
        at += taken;
    }
}

/// All rounds, in which all seats follow; how many calls were made.
fn rounds_ours() -> usize {
    let config = flat::config(&FULL);
    let mut space = sys::fresh(config).space;
    let mut calls = 0;
    for round in 0..=LAST_ROUND {
        let mut steps: Vec<sys::Step> =
            (1..=MOST_SEATS as u32).map(|k| sys::start(config, k, round, 0, choice(round, k))).collect();
        while steps.iter().any(|step| step.next == 0) {
            for step in &mut steps {
                if step.next == 0 {
                    let applied = sys::apply(space, step.call);
                    space = applied.space;
                    *step = sys::resume(step.process, applied.reply);
                    calls += 1;
                }
            }
        }
    }
    assert_eq!(space.count, MOST_TUPLES);
    calls
}

/// The same by the plain version.
fn rounds_plain() -> usize {
    let mut calls = 0;
    rounds_shown(|_| calls += 1);
    calls
}

/// How many calls are measured at once where one is too short.
const CALLS: usize = 100;

/// As many calls, which both answer alike and leave the board as it is.
fn calls_on(meter: &Meter, mut board: Board, call: Call) -> Pair {
    let (space, asked) = (flat::space(&board), flat::call(&call));
    let answer = Answer::from(tabled::call(&mut board, &call));
    assert_eq!(sys::apply(space, asked), sys::Applied { reply: flat::reply(&answer), space });
    let ours = || (0..CALLS).for_each(|_| _ = black_box(&sys::apply(*black_box(&space), asked)));
    let plain = || (0..CALLS).for_each(|_| _ = black_box(tabled::call(&mut board, black_box(&call))));
    meter.of(101, ours, plain)
}

/// A script so many times at once, of which both give the same text; and of how many records that is.
fn script_runs(meter: &Meter, rounds: usize, script: &[u8], times: usize) -> (Pair, usize) {
    let (mut text, mut other) = (vec![0; ROOM_FOR_TEXT], vec![0; ROOM_FOR_TEXT]);
    let length = sys::script(script, &mut text).expect("a text");
    assert_eq!(run_into(script, &mut other), Ok(length));
    assert_eq!(text, other);
    // A line for each, and the first and the last.
    let records = text[..length].iter().filter(|byte| **byte == b'\n').count() - 2;
    let ours = || (0..times).for_each(|_| _ = black_box(sys::script(black_box(script), &mut text)));
    let plain = || (0..times).for_each(|_| _ = black_box(run_into(black_box(script), &mut other)));
    (meter.of(rounds, ours, plain), times * records)
}

/// All seats of a script, which follow, found to do so.
fn all_follow(meter: &Meter, script: &[u8]) -> Pair {
    let set = (1 << FULL.n) - 1;
    assert_eq!((sys::strays(script, set), tabled::first_stray(script, set)), (0, Ok(None)));
    let ours = || _ = black_box(sys::strays(black_box(script), set));
    let plain = || _ = black_box(tabled::first_stray(black_box(script), set));
    meter.of(21, ours, plain)
}

/// How many calls stand in a script behind those that make a board.
const SCRIPTED: usize = 1_000;

/// As many calls in a script, on the board that its first calls make: the whole script less its beginning.
fn calls_in_a_script(meter: &Meter, board: &Board, call: &Call) -> Pair {
    let mut begun = vec![0; LONGEST_DUMP];
    let length = dump_into(board, &mut begun).expect("a board that a run makes");
    begun.truncate(length);
    let mut whole = begun.clone();
    whole.extend(record_of(call).expect("a sound call").repeat(SCRIPTED));
    let (((ours, plain), all), ((ours_begun, plain_begun), first)) =
        (script_runs(meter, 41, &whole, 1), script_runs(meter, 41, &begun, 1));
    assert_eq!(all - first, SCRIPTED);
    (ours - ours_begun, plain - plain_begun)
}

/// As many handings of a held mark.
fn handed_to(meter: &Meter, seat: Seat) -> Pair {
    let answer = Answer::held(Tuple::decision(seat.round, Offset::MARK, (1 << FULL.n) - 1));
    let (process, reply) = (flat::process(&seat), flat::reply(&answer));
    assert_eq!(sys::resume(process, reply), flat::handed(&process, &seat.hand(&answer)));
    let ours = || (0..CALLS).for_each(|_| _ = black_box(sys::resume(black_box(process), reply)));
    let plain = || (0..CALLS).for_each(|_| _ = black_box(black_box(&seat).hand(&answer)));
    meter.of(101, ours, plain)
}

/// A board written back by both.
fn written_back(meter: &Meter, board: &Board) -> Pair {
    let space = flat::space(board);
    let (mut bytes, mut other) = ([0; LONGEST_DUMP], [0; LONGEST_DUMP]);
    assert_eq!(sys::dump(space, &mut bytes).ok(), dump_into(board, &mut other).ok());
    assert_eq!(bytes, other);
    let ours = || _ = black_box(sys::dump(space, &mut bytes));
    let plain = || _ = black_box(dump_into(board, &mut other));
    meter.of(101, ours, plain)
}

fn run_program(program: &str, input: &str) {
    let input = File::open(input).expect("the script");
    let mut run = Command::new(program);
    let status = run.stdin(input).stdout(Stdio::null()).status().expect("the program runs");
    assert!(status.success());
}

/// A script through the two programs.
fn program_runs(meter: &Meter, ours: &str, plain: &str, script: &[u8]) -> Pair {
    let path = std::env::temp_dir().join(format!("board-bench-{}", std::process::id()));
    File::create(&path).and_then(|mut file| file.write_all(script)).expect("a temporary file");
    let name = path.to_str().expect("a plain path");
    let pair = meter.of(21, || run_program(ours, name), || run_program(plain, name));
    std::fs::remove_file(&path).expect("the temporary file");
    pair
}

/// Rows a to e: records, rounds, the longest script, a board written back.
fn first_rows(meter: &Meter, programs: Option<(&str, &str)>, put: Put) {
    for (least, name) in
        [(0, "a  reading 1,000 records"), (1 << 63, "a  reading 1,000 records whose counts have ten bytes")]
    {
        let bytes = records(least);
        put(name, meter.of(301, || read_ours(&bytes), || read_plain(&bytes)), 1_000);
    }

    let calls = rounds_plain();
    assert_eq!(rounds_ours(), calls);
    let rounds = meter.of(41, || _ = black_box(rounds_ours()), || _ = black_box(rounds_plain()));
    let name =
        format!("b  eight rounds, n = {}, t = {}: {calls} calls, the board tested at each", FULL.n, FULL.t);
    put(&name, rounds, calls);

    let long = long_script();
    let (pair, records) = script_runs(meter, 21, &long, 1);
    put("c  a script of 65,536 bytes, rdp and cas on a full board, which is not tested", pair, records);

    let board = full_board();
    let name = format!("d  a board of {} tuples, tested once and written back as a script", board.count);
    put(&name, written_back(meter, &board), board.count);

    if let Some((ours, plain)) = programs {
        let name = "e  the script of c through the programs, from standard input to standard output";
        put(name, program_runs(meter, ours, plain, &long), records);
    }
}

/// Rows f to h: single calls on boards of several sizes, and an answer handed to a seat.
fn rows_of_calls(meter: &Meter, put: Put) {
    for count in [8, 32, 128, MOST_TUPLES] {
        let (board, call) = searched(count);
        let name = format!("f  {CALLS} rdp that find nothing on {count} tuples, the board tested at each");
        put(&name, calls_on(meter, board, call), CALLS);
    }

    let (few, many) = (FULL.t + 1, FULL.n - FULL.t);
    for (mark, what) in
        [(false, format!("an offset with {few} seats")), (true, format!("the mark with {many} seats"))]
    {
        // Eight proposals bear neither.
        let boards = [(8, "refused 13"), (32, "held"), (128, "held"), (MOST_TUPLES, "held")];
        for (count, answer) in boards {
            let (board, call) = decided(count, mark);
            let name = format!("g  {CALLS} cas of {what}, {answer}, on {count} tuples, tested at each");
            put(&name, calls_on(meter, board, call), CALLS);
        }
        for (count, answer) in boards {
            let (board, call) = decided(count, mark);
            let name = format!("g  1,000 cas of {what}, {answer}, on {count} tuples, in a script");
            put(&name, calls_in_a_script(meter, &board, &call), SCRIPTED);
        }
    }

    let name = format!("h  {CALLS} answers handed to a seat that decides, {many} of {} found", FULL.n);
    put(&name, handed_to(meter, deciding()), CALLS);
}

/// Rows i to n: whole scripts of several kinds, and one whose seats are found to follow.
fn rows_of_scripts(meter: &Meter, put: Put) {
    let (pair, records) = script_runs(meter, 101, &worked_script(), CALLS);
    put(
        &format!("i  {CALLS} runs of the worked script, which has {} records", records / CALLS),
        pair,
        records,
    );

    let taken = format!("j  a script of 65,536 bytes, inp and out where {WAITING} tuples wait");
    let rounds = format!("k  the eight rounds of b as a script, policy 2, n = {}", FULL.n);
    let list = format!("l  a script of 65,536 bytes, a list of {LAST_POSITION} positions, policy 4");
    let announced = "m  the same with announcements, policy 5".to_string();
    // Each with how many tuples it leaves: under policy 5 the announcements of 21 seats wait.
    let scripts = [
        (taken, taking_script(), WAITING),
        (rounds, rounds_script(), MOST_TUPLES),
        (list, list_script(LIST), LAST_POSITION as usize),
        (announced, list_script(WAIT_FREE), LAST_POSITION as usize + 21),
    ];
    for (name, script, left) in scripts {
        assert!(tabled::run(&script).ends_with(&format!("\ntuples {left}\n")));
        let (pair, records) = script_runs(meter, 21, &script, 1);
        put(&format!("{name}: {records} records"), pair, records);
    }

    let script = rounds_script();
    let name =
        format!("n  all {} seats of the script of k, of {} bytes, found to follow", FULL.n, script.len());
    put(&name, all_follow(meter, &script), rounds_plain());
}

/// All rows, in order.
fn rows(meter: &Meter, programs: Option<(&str, &str)>, put: Put) {
    first_rows(meter, programs, put);
    rows_of_calls(meter, put);
    rows_of_scripts(meter, put);
}

/// Prints how many copies each row makes, per record or call.
fn print_copies(meter: &Meter, programs: Option<(&str, &str)>) {
    rows(meter, programs, &mut |_, (ours, plain), count| {
        let each = |sum: f64| sum / count as f64;
        println!("{:>11.1} {:>11.1}", each(ours), each(plain));
    });
}

/// Prints the times of each row, and behind them these lines.
fn print_times(meter: &Meter, programs: Option<(&str, &str)>, copies: Vec<String>) {
    let note = "copies are those of 4 KB and more, per record or call, in d per tuple";
    println!("{note:<80} {:>23} {:>31}", "median time in µs", "copies");
    let (ours, plain) = ("proved", "plain Rust");
    println!("{:<80} {ours:>11} {plain:>11} {:>7} {ours:>11} {plain:>11}", "", "ratio");
    let mut copies = copies.into_iter();
    rows(meter, programs, &mut |name, (ours, plain), _| {
        let copies = copies.next().unwrap_or_default();
        println!("{name:<80} {ours:>11.1} {plain:>11.1} {:>7.2} {copies}", ours / plain);
    });
}

fn main() {
    let arguments: Vec<String> = std::env::args().skip(1).collect();
    let programs = match arguments.as_slice() {
        [ours, plain, ..] => Some((ours.as_str(), plain.as_str())),
        _ => None,
    };
    let meter = Meter::here();
    match (&meter, arguments.get(2)) {
        (Meter::Copies(_), _) => print_copies(&meter, programs),
        (Meter::Times, Some(library)) => {
            print_times(&meter, programs, counted_lines(library, &arguments[..2]));
        }
        (Meter::Times, None) => print_times(&meter, programs, Vec::new()),
    }
}
