//! The benchmark's driver: for each row the same calls on the original and on ours, so many times over.
//!
//!     driver count N        each row N times, once a side, and then a line with both names. `bench/run` has callgrind's counts of the functions `row::side`, or those that
//!                           bench/count.c takes at each line
//!     driver time N         each row N times, nine times over: the least nanoseconds for once
//!
//! The sides are the original; `boundary`, the archives' functions on lent words, as C calls them; `krate`, the Rust
//! crate; and `locked`, the Rust crate behind its spin lock. Before a row its answers are compared: they must be the
//! same on all sides; where the original answers otherwise (`is_like_original`), on ours.
mod caller;
mod host;
mod kinds;
mod rows;
mod sides;

use std::{hint::black_box, process::ExitCode, time::Instant};

pub struct Row {
    name: &'static str,
    /// By side, in the order of `SIDES`: so many times around.
    around: [fn(u64); 4],
    /// What is answered so many times around.
    answers: [fn(u64) -> caller::Recorded; 4],
    /// Whether the original answers the same. It has no version 0x20, and ends one line of a shared vector alone.
    is_like_original: bool,
}

const SIDES: [&str; 4] = ["original", "boundary", "krate", "locked"];
const COMPARED: u64 = 10;

fn is_answered_alike(row: &Row) -> bool {
    let answers = row.answers.map(|answers| answers(COMPARED));
    let compared = if row.is_like_original { &answers[..] } else { &answers[1..] };
    let is_alike = compared.iter().all(|side| *side == compared[0]);
    if !is_alike {
        eprintln!("{}: the sides' answers aren't the same: {SIDES:?} {answers:?}", row.name);
    }
    is_alike
}

/// The least of nine runs, in nanoseconds for once around.
fn time(around: fn(u64), times: u64) -> f64 {
    let run = || {
        let start = Instant::now();
        around(times);
        start.elapsed().as_nanos() as f64 / times as f64
    };
    (0..9).map(|_| run()).fold(f64::INFINITY, f64::min)
}

fn main() -> ExitCode {
    let arguments: Vec<String> = std::env::args().skip(1).collect();
    let (Some(way), Some(times)) = (arguments.first(), arguments.get(1).and_then(|text| text.parse().ok())) else {
        eprintln!("usage: driver count|time N");
        return ExitCode::from(2);
    };
    host::set_vcpus(black_box(8), black_box(0xff));
    for row in rows::ROWS {
        if !is_answered_alike(row) {
            return ExitCode::FAILURE;
        }
        match way.as_str() {
            "count" => {
                for (around, side) in row.around.iter().zip(SIDES) {
                    around(times);
                    println!("{} {side}", row.name);
                }
            }
            _ => println!("{} {}", row.name, row.around.map(|around| format!("{:.2}", time(around, times))).join(" ")),
        }
    }
    ExitCode::SUCCESS
}
