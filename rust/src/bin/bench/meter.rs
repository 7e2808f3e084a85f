//! What is measured of the two sides of a row: their times, or how many copies of 4 KB and more they make.

use std::hint::black_box;
use std::path::{Path, PathBuf};
use std::process::Command;
use std::time::{Duration, Instant};
use std::{env, fs};

/// What was measured of ours and of plain Rust.
pub type Pair = (f64, f64);

/// The variable that names the file in which copies are counted (rust/copies.c).
const COPIES: &str = "COPIES";

pub enum Meter {
    /// The medians of the times, in µs.
    Times,
    /// The copies that one run makes, by the count in this file.
    Copies(PathBuf),
}

impl Meter {
    /// What is to be measured: copies, where they are counted.
    pub fn here() -> Meter {
        let Some(file) = env::var_os(COPIES) else {
            return Meter::Times;
        };
        assert_counts(Path::new(&file));
        Meter::Copies(file.into())
    }

    /// Measures both sides.
    pub fn of(&self, rounds: usize, mut ours: impl FnMut(), mut plain: impl FnMut()) -> Pair {
        match self {
            Meter::Times => medians(rounds, ours, plain),
            Meter::Copies(file) => (counted(file, &mut ours), counted(file, &mut plain)),
        }
    }
}

/// The medians of both sides, measured in turn.
fn medians(rounds: usize, mut ours: impl FnMut(), mut plain: impl FnMut()) -> Pair {
    let time = |work: &mut dyn FnMut()| {
        let start = Instant::now();
        work();
        start.elapsed()
    };
    let (mut a, mut b) = (Vec::new(), Vec::new());
    for round in 0..rounds + 2 {
        // The first two rounds warm up; the side that goes first changes.
        let (x, y) = if round % 2 == 0 {
            let x = time(&mut ours);
            (x, time(&mut plain))
        } else {
            let y = time(&mut plain);
            (time(&mut ours), y)
        };
        if round >= 2 {
            a.push(x);
            b.push(y);
        }
    }
    (median(a), median(b))
}

/// The median of times, in µs.
fn median(mut times: Vec<Duration>) -> f64 {
    times.sort();
    times[times.len() / 2].as_secs_f64() * 1e6
}

/// How many copies one run makes.
fn counted(file: &Path, work: &mut dyn FnMut()) -> f64 {
    let before = count(file);
    work();
    (count(file) - before) as f64
}

/// A copy of 4 KB and a move by one place are counted, and a copy of a byte less is not.
fn assert_counts(file: &Path) {
    let from: Vec<u8> = (0..4097).map(|k| k as u8).collect();
    let mut to = vec![0; from.len()];
    for (length, copies) in [(4095, 0.0), (4096, 1.0)] {
        let length = black_box(length);
        assert_eq!(counted(file, &mut || to[..length].copy_from_slice(&from[..length])), copies);
        assert_eq!(counted(file, &mut || to.copy_within(..length, 1)), copies);
    }
    assert_eq!(to[1..], from[..4096]);
}

/// The count so far.
fn count(file: &Path) -> u64 {
    let bytes = fs::read(file).expect("the file of the count");
    u64::from_ne_bytes(bytes.try_into().expect("eight bytes"))
}

/// The lines that this program prints with the same arguments where the library that counts copies is loaded, one for each row.
pub fn counted_lines(library: &str, arguments: &[String]) -> Vec<String> {
    let library = fs::canonicalize(library).expect("the library that counts copies");
    let file = env::temp_dir().join(format!("board-copies-{}", std::process::id()));
    fs::write(&file, 0u64.to_ne_bytes()).expect("a temporary file");
    let mut run = Command::new(env::current_exe().expect("this program"));
    let output = run.args(arguments).env("LD_PRELOAD", library).env(COPIES, &file).output();
    fs::remove_file(&file).expect("the temporary file");
    let output = output.expect("this program runs");
    assert!(output.status.success(), "{}", String::from_utf8_lossy(&output.stderr));
    String::from_utf8(output.stdout).expect("a text").lines().map(String::from).collect()
}
