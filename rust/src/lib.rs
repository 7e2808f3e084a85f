//! The shared offset board of document 01 with requests 2.1 to 2.11 of document
//! 02, read independently and written plainly: safe Rust, std only. Records and
//! matching lie below policies and board, which lie below the seat procedure and
//! the program.
//!
//! `sys` and `flat` stand apart: they reach the proved library, for the tests
//! that compare the two (tests/compare.rs, numbers.rs, lists.rs, together.rs and
//! strays.rs) and for the benchmark (the program bench). So does `tabled`, which
//! is the benchmark's alone.

pub mod refusal;

pub mod numbers;

pub mod fields;

pub mod records;

pub mod config;

pub mod list;

pub mod announcements;

pub mod policy;

pub mod table;

pub mod board;

pub mod seat;

pub mod text;

pub mod script;

pub mod dump;

pub mod stray;

pub mod rounds;

pub mod sys;

pub mod flat;

pub mod tabled;

pub use board::{Answer, AnswerKind, Board};
pub use config::Config;
pub use fields::{Field, Kind, Role, State, Tuple};
pub use numbers::Offset;
pub use records::{Call, Code};
pub use refusal::Refusal;
pub use seat::{Phase, Seat, Step};
