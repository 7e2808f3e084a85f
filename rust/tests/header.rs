//! The C header: the sizes and offsets that it asserts, held to those of the structs that cross in `sys.rs`; its numbers, held to the plain version's;
//! and its words for the refusals, held to the fitter's table. That no struct has padding is asserted in both.

use std::fs;
use std::mem::{offset_of, size_of};

use reference::board::MOST_TUPLES;
use reference::config::{BARE, CHOICES, DEFAULT, LIST, STRONG, WAIT_FREE, WEAK};
use reference::dump::LONGEST_DUMP;
use reference::fields::{ANNOUNCED, DECISION, LISTED, MOST_FIELDS, MOST_SEATS, PROPOSE};
use reference::list::LAST_POSITION;
use reference::policy::LAST_ROUND;
use reference::records::LONGEST_RECORD;
use reference::script::{LONGEST_SCRIPT, ROOM_FOR_TEXT};
use reference::table::PLACES;
use reference::{sys, Code, Kind, Offset, Refusal, State};

/// A file of the repository.
fn file(path: &str) -> String {
    let root = concat!(env!("CARGO_MANIFEST_DIR"), "/..");
    fs::read_to_string(format!("{root}/{path}")).unwrap_or_else(|error| panic!("{path}: {error}"))
}

/// The header's name of a struct's field: C++ keeps one of the words.
fn name_in_c(field: &str) -> &str {
    match field {
        "template" => "template_",
        _ => field,
    }
}

/// The header's assertions for a struct: its size, and the place of each of its fields.
macro_rules! layout {
    ($name:literal, $type:ty, $($field:ident),+) => {{
        let mut lines = vec![format!("BOARD_SIZE({}, {});", $name, size_of::<$type>())];
        $(lines.push(format!("BOARD_AT({}, {}, {});", $name, name_in_c(stringify!($field)), offset_of!($type, $field)));)+
        lines
    }};
}

/// Every struct of the header has its size asserted, and once more as the sum of its members'.
#[test]
fn no_struct_has_padding() {
    let header = file("include/board.h");
    let names = |front: &str| -> Vec<String> {
        let lines = header.lines().filter_map(|line| line.strip_prefix(front));
        lines.map(|line| line.split([',', ';']).next().unwrap_or_default().trim().to_owned()).collect()
    };
    let structs = names("} ");
    assert_eq!(structs.len(), 11);
    assert_eq!(names("BOARD_SIZE("), structs);
    assert_eq!(names("BOARD_SUM("), structs);
}

#[test]
fn the_header_has_this_layout() {
    let expected = [
        layout!("board_field", sys::Field, kind, state, value),
        layout!("board_tuple", sys::Tuple, count, fields),
        layout!("board_call", sys::Call, process, code, template, entry),
        layout!("board_config", sys::Config, n, t, policy, k),
        layout!("board_space", sys::Space, config, count, tuples, table),
        layout!("board_reply", sys::Reply, outcome, refusal, tuple),
        layout!("board_opened", sys::Opened, refusal, space),
        layout!("board_applied", sys::Applied, reply, space),
        layout!("board_read_call", sys::Read, refusal, next, call),
        layout!("board_process", sys::Process, config, process, phase, round, value, found),
        layout!("board_step", sys::Step, next, refusal, bottom, hundredths, process, call),
    ]
    .concat();
    let header = file("include/board.h");
    let found: Vec<&str> = header
        .lines()
        .filter(|line| line.starts_with("BOARD_SIZE(") || line.starts_with("BOARD_AT("))
        .collect();
    assert_eq!(found, expected);
}

/// The numbers that the header names by `NAME = NUMBER`, in its order.
fn numbers(header: &str) -> Vec<(&str, u64)> {
    let words: Vec<&str> = header.split_whitespace().collect();
    words
        .windows(3)
        .filter(|three| three[0].starts_with("BOARD_") && three[1] == "=")
        .map(|three| (three[0], three[2].trim_end_matches(',').parse().expect(three[0])))
        .collect()
}

#[test]
fn the_header_has_these_numbers() {
    let expected = [
        ("SEATS", MOST_SEATS),
        ("ROUNDS", LAST_ROUND + 1),
        ("CHOICES", *CHOICES.end()),
        ("POSITIONS", LAST_POSITION),
        ("FIELDS", MOST_FIELDS as u64),
        ("TUPLES", MOST_TUPLES as u64),
        ("PLACES", PLACES as u64),
        ("LARGEST_OFFSET", Offset::LIMIT as u64),
        ("SCRIPT_BYTES", LONGEST_SCRIPT as u64),
        ("TEXT_BYTES", ROOM_FOR_TEXT as u64),
        ("RECORD_BYTES", LONGEST_RECORD as u64),
        ("DUMP_BYTES", LONGEST_DUMP as u64),
        ("POLICY_BARE", BARE),
        ("POLICY_WEAK", WEAK),
        ("POLICY_DEFAULT", DEFAULT),
        ("POLICY_CHOICE", STRONG),
        ("POLICY_LIST", LIST),
        ("POLICY_ANNOUNCED", WAIT_FREE),
        ("CALL_OUT", Code::Out as u64),
        ("CALL_RDP", Code::Rdp as u64),
        ("CALL_INP", Code::Inp as u64),
        ("CALL_CAS", Code::Cas as u64),
        ("KIND_WORD", Kind::Word as u64),
        ("KIND_COUNT", Kind::Count as u64),
        ("KIND_OFFSET", Kind::Offset as u64),
        ("KIND_SEATS", Kind::Seats as u64),
        ("STATE_GIVEN", State::Given as u64),
        ("STATE_ANY", State::Any as u64),
        ("STATE_OPEN", State::Open as u64),
        ("WORD_PROPOSE", PROPOSE),
        ("WORD_DECISION", DECISION),
        ("WORD_LISTED", LISTED),
        ("WORD_ANNOUNCED", ANNOUNCED),
        ("OUTCOME_DONE", 0),
        ("OUTCOME_NONE", 1),
        ("OUTCOME_FOUND", 2),
        ("OUTCOME_INSERTED", 3),
        ("OUTCOME_HELD", 4),
        ("OUTCOME_REFUSED", 5),
        ("PHASE_PROPOSING", 0),
        ("PHASE_READING", 1),
        ("PHASE_DECIDING", 2),
        ("PHASE_DECIDED", 3),
        ("STEP_CALLS", 0),
        ("STEP_DECIDES", 1),
        ("STEP_REFUSED", 2),
        ("REFUSAL_NONE", 0),
        ("REFUSAL_UNSOUND", Refusal::Unsound as u64),
        ("REFUSAL_CUT", Refusal::Ended as u64),
        ("REFUSAL_BEYOND", Refusal::Value as u64),
        ("REFUSAL_UNKNOWN", Refusal::Unknown as u64),
        ("REFUSAL_MISSHAPEN", Refusal::Shape as u64),
        ("REFUSAL_STRANGER", Refusal::Seat as u64),
        ("REFUSAL_DENIED", Refusal::Denied as u64),
        ("REFUSAL_FULL", Refusal::Full as u64),
        ("REFUSAL_LONG_SCRIPT", Refusal::TooLong as u64),
        ("REFUSAL_NO_ROOM", Refusal::Buffer as u64),
        ("REFUSAL_UNFIT", Refusal::Unfit as u64),
        ("REFUSAL_SECOND_PROPOSAL", Refusal::Second as u64),
        ("REFUSAL_UNBORNE", Refusal::Unborne as u64),
        ("REFUSAL_UNREACHED", Refusal::Unreached as u64),
        ("REFUSAL_UNSCRIPTED", Refusal::Unwritten as u64),
    ];
    let header = file("include/board.h");
    let found: Vec<(&str, u64)> = numbers(&header)
        .into_iter()
        .map(|(name, number)| (name.strip_prefix("BOARD_").expect(name), number))
        .collect();
    assert_eq!(found, expected);
}

/// The header's words for a refusal, from a line `case NUMBER: return "WORDS";`.
fn returned(line: &str) -> Option<(u64, &str)> {
    let (number, text) = line.trim().strip_prefix("case ")?.split_once(": return \"")?;
    Some((number.parse().ok()?, text.strip_suffix("\";")?))
}

/// The fitter's words for a refusal, from a row `| NUMBER | WORDS | ..`.
fn tabled(line: &str) -> Option<(u64, &str)> {
    let mut cells = line.strip_prefix('|')?.split('|').map(str::trim);
    Some((cells.next()?.parse().ok()?, cells.next()?))
}

#[test]
fn the_refusals_have_the_fitters_words() {
    let header = file("include/board.h");
    let page = file("docs/FITTER.md");
    let (refused, words): (Vec<_>, Vec<_>) =
        header.lines().filter_map(returned).partition(|(number, _)| *number > 0);
    assert_eq!(words, [(0, "not refused")]);
    assert!(refused.iter().map(|(number, _)| *number).eq(1..=15), "{refused:?}");
    assert_eq!(page.lines().filter_map(tabled).collect::<Vec<_>>(), refused);
}

/// The bytes passed and those that come back, in the firmware page's table of the stack.
#[test]
fn the_firmware_page_has_these_sizes() {
    let (space, call, config) = (size_of::<sys::Space>(), size_of::<sys::Call>(), size_of::<sys::Config>());
    let (process, reply, step) = (size_of::<sys::Process>(), size_of::<sys::Reply>(), size_of::<sys::Step>());
    let expected = [
        ("board_apply", space + call, size_of::<sys::Applied>()),
        ("board_dump", space, 0),
        ("board_fresh", config, size_of::<sys::Opened>()),
        ("board_read", 0, size_of::<sys::Read>()),
        ("board_resume", process + reply, step),
        ("board_script", 0, 0),
        ("board_start", config, step),
        ("board_strays", 0, 0),
        ("board_write", call, 0),
    ];
    let page = file("docs/FIRMWARE.md");
    let number = |cell: &str| cell.replace(',', "").parse().unwrap_or(0);
    let rows = page
        .lines()
        .map(|line| line.split('|').map(|cell| cell.trim_matches([' ', '`'])).collect::<Vec<_>>());
    let found: Vec<(String, usize, usize)> = rows
        .filter(|cells| cells.len() == 6 && cells[1].starts_with("board_"))
        .map(|cells| (cells[1].to_owned(), number(cells[3]), number(cells[4])))
        .collect();
    assert_eq!(found, expected.map(|(name, passed, back)| (name.to_owned(), passed, back)));
}
