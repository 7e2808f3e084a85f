//! The proved library (crates/board_c): its functions and structs, and the only place with `unsafe`.
//!
//! Each function has an answer for every number and struct that is passed; its contract in crates/board_c/src/lib.rt says which. A
//! slice crosses as its pointer and its length: the pointer is valid for as many bytes, and two slices of one call do not overlap. Numbers stand for the cases of an enum.

#![allow(unsafe_code)]

use std::fmt::Debug;
use std::mem::size_of;

use crate::board::MOST_TUPLES;
use crate::fields::{MOST_FIELDS, MOST_SEATS};
use crate::table::Table;

/// A length, or a record's number, is below this; a refusal is this and its number.
pub(crate) const REFUSED: u64 = 1 << 32;

/// A struct that crosses. Each of its bytes is a byte of a number in it.
pub trait Crosses: Copy + Debug {
    fn bytes(&self) -> &[u8];
}

/// Structs that cross: as C lays them out, and with nothing between their members or behind them, for the size is the sum of the members'.
macro_rules! crossing {
    ($($(#[$note:meta])* pub struct $name:ident { $(pub $member:ident: $type:ty,)+ })+) => {$(
        $(#[$note])*
        #[repr(C)]
        #[derive(Clone, Copy, Debug, PartialEq, Eq)]
        pub struct $name {
            $(pub $member: $type,)+
        }

        const _: () = assert!(size_of::<$name>() == 0 $(+ size_of::<$type>())+, stringify!($name));

        impl Crosses for $name {
            fn bytes(&self) -> &[u8] {
                // Safety: no byte of the struct is padding, as asserted here of it and of each struct in it; the slice borrows it.
                unsafe { std::slice::from_raw_parts(std::ptr::from_ref(self).cast(), size_of::<$name>()) }
            }
        }
    )+};
}

crossing! {
    #[derive(Default)]
    pub struct Field {
        pub kind: u32,
        pub state: u32,
        pub value: u64,
    }

    #[derive(Default)]
    pub struct Tuple {
        pub count: usize,
        pub fields: [Field; MOST_FIELDS],
    }

    #[derive(Default)]
    pub struct Call {
        pub process: u32,
        pub code: u32,
        pub template: Tuple,
        pub entry: Tuple,
    }

    #[derive(Default)]
    pub struct Config {
        pub n: u64,
        pub t: u64,
        pub policy: u64,
        pub k: u64,
    }

    pub struct Space {
        pub config: Config,
        pub count: usize,
        pub tuples: [Tuple; MOST_TUPLES],
        pub table: Table,
    }

    /// 0 done, 1 none, 2 found, 3 inserted, 4 held, 5 refused; the refusal's number, else 0; the tuple, else blank.
    #[derive(Default)]
    pub struct Reply {
        pub outcome: u32,
        pub refusal: u32,
        pub tuple: Tuple,
    }

    pub struct Opened {
        pub refusal: u64,
        pub space: Space,
    }

    pub struct Applied {
        pub reply: Reply,
        pub space: Space,
    }

    #[derive(Default)]
    pub struct Read {
        pub refusal: u64,
        pub next: usize,
        pub call: Call,
    }

    /// Phase 0 proposing, 1 reading, 2 deciding, 3 decided; the value is the process asked (1) or the decision's code (3), else 0.
    #[derive(Default)]
    pub struct Process {
        pub config: Config,
        pub process: u32,
        pub phase: u32,
        pub round: u64,
        pub value: u64,
        pub found: [u64; MOST_SEATS as usize],
    }

    /// 0 calls, 1 decides, 2 refused; the refusal's number, else 0; the decision, else 0.
    #[derive(Default)]
    pub struct Step {
        pub next: u32,
        pub refusal: u32,
        pub bottom: u32,
        pub hundredths: i32,
        pub process: Process,
        pub call: Call,
    }
}

extern "C" {
    fn board_script(bytes: *const u8, length: usize, buffer: *mut u8, room: usize) -> u64;
    fn board_fresh(config: Config) -> Opened;
    fn board_apply(space: Space, call: Call) -> Applied;
    fn board_start(config: Config, process: u32, round: u64, bottom: u32, hundredths: i32) -> Step;
    fn board_resume(process: Process, reply: Reply) -> Step;
    fn board_read(bytes: *const u8, length: usize, at: usize) -> Read;
    fn board_write(call: Call, buffer: *mut u8, room: usize) -> u64;
    fn board_dump(space: Space, buffer: *mut u8, room: usize) -> u64;
    fn board_strays(bytes: *const u8, length: usize, set: u64) -> u64;
}

/// A length, or a refusal's number.
fn length(number: u64) -> Result<usize, u32> {
    match number.checked_sub(REFUSED) {
        None => Ok(number as usize),
        Some(refusal) => Err(refusal as u32),
    }
}

/// Runs a script and puts its text at the start of the buffer.
pub fn script(bytes: &[u8], buffer: &mut [u8]) -> Result<usize, u32> {
    // Safety: both slices live through the call, and no function of the library keeps a pointer.
    length(unsafe { board_script(bytes.as_ptr(), bytes.len(), buffer.as_mut_ptr(), buffer.len()) })
}

/// A fresh space.
pub fn fresh(config: Config) -> Opened {
    // Safety: only values cross.
    unsafe { board_fresh(config) }
}

/// A call on a space: the reply, and the space afterwards.
#[inline]
pub fn apply(space: Space, call: Call) -> Applied {
    // Safety: only values cross.
    unsafe { board_apply(space, call) }
}

/// Starts a process; its proposal is bottom if the flag is not 0.
#[inline]
pub fn start(config: Config, process: u32, round: u64, bottom: u32, hundredths: i32) -> Step {
    // Safety: only values cross.
    unsafe { board_start(config, process, round, bottom, hundredths) }
}

/// Hands a process a reply.
#[inline]
pub fn resume(process: Process, reply: Reply) -> Step {
    // Safety: only values cross.
    unsafe { board_resume(process, reply) }
}

/// The call at a place of bytes, and the place behind it.
#[inline]
pub fn read(bytes: &[u8], at: usize) -> Read {
    // Safety: the slice lives through the call.
    unsafe { board_read(bytes.as_ptr(), bytes.len(), at) }
}

/// Puts the record of a call at the start of the buffer.
pub fn write(call: Call, buffer: &mut [u8]) -> Result<usize, u32> {
    // Safety: the slice lives through the call.
    length(unsafe { board_write(call, buffer.as_mut_ptr(), buffer.len()) })
}

/// Puts a script whose run ends in the space at the start of the buffer.
pub fn dump(space: Space, buffer: &mut [u8]) -> Result<usize, u32> {
    // Safety: the slice lives through the call.
    length(unsafe { board_dump(space, buffer.as_mut_ptr(), buffer.len()) })
}

/// 0 if all seats of a set follow in a script, else the number of the first record in which one strays, or of a refusal.
pub fn strays(bytes: &[u8], set: u64) -> u64 {
    // Safety: the slice lives through the call.
    unsafe { board_strays(bytes.as_ptr(), bytes.len(), set) }
}
