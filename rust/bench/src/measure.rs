//! One row of the table: two ways to do the same, timed in turns, or one of them called so many
//! times that its instructions can be counted from outside (`rust/bench/count`).

use std::env;
use std::hint::black_box;
use std::time::{Duration, Instant};

const BATCHES: usize = 201;
const BATCH: Duration = Duration::from_micros(200);
const MOVED: &str = "moved";

/// Whether the program was told to name its rows, or to call one of them, and not to time them.
pub fn is_told() -> bool {
    env::args().nth(1).is_some_and(|word| word != MOVED)
}

/// Whether each answer is moved once more after the call, as by a caller who keeps it elsewhere.
fn is_moved() -> bool {
    env::args().nth(1).is_some_and(|word| word == MOVED)
}

pub fn print_heading() {
    println!(
        "{:<34} {:>10} {:>13} {:>7}",
        "call", "proved ns", "reference ns", "ratio"
    );
}

/// Times both in turns, so that what slows the machine down slows both, and prints the row.
pub fn row<A, B>(name: &str, mut proved: impl FnMut() -> A, mut reference: impl FnMut() -> B) {
    if is_told() {
        return called(name, &mut proved, &mut reference);
    }
    let calls = calls_in_a_batch(&mut proved).min(calls_in_a_batch(&mut reference));
    let mut proved_times = Vec::with_capacity(BATCHES);
    let mut reference_times = Vec::with_capacity(BATCHES);
    for _ in 0..BATCHES {
        proved_times.push(time(calls, &mut proved));
        reference_times.push(time(calls, &mut reference));
    }
    let (proved, reference) = (median(proved_times), median(reference_times));
    let ratio = proved / reference;
    println!("{name:<34} {proved:>10.2} {reference:>13.2} {ratio:>7.2}");
}

/// `names` prints the row's name; `proved N NAME` and `reference N NAME` make N calls of that row.
fn called<A, B>(name: &str, proved: &mut impl FnMut() -> A, reference: &mut impl FnMut() -> B) {
    let words: Vec<String> = env::args().skip(1).collect();
    let words: Vec<&str> = words.iter().map(String::as_str).collect();
    match words[..] {
        ["names"] => println!("{name}"),
        ["proved", calls, row] if row == name => repeat(number(calls), proved),
        ["reference", calls, row] if row == name => repeat(number(calls), reference),
        _ => {}
    }
}

fn number(word: &str) -> u32 {
    word.parse().expect("a number of calls")
}

/// An answer is looked at where the call left it. Moving it costs an answer in memory more than a
/// number, and is no part of the call.
fn repeat<T>(calls: u32, call: &mut impl FnMut() -> T) {
    for _ in 0..calls {
        black_box(&call());
    }
}

fn repeat_and_move<T>(calls: u32, call: &mut impl FnMut() -> T) {
    for _ in 0..calls {
        black_box(call());
    }
}

fn calls_in_a_batch<T>(call: &mut impl FnMut() -> T) -> u32 {
    let mut calls = 64;
    while calls < 1 << 24 && time(calls, call) * f64::from(calls) < BATCH.as_nanos() as f64 {
        calls *= 2;
    }
    calls
}

/// Nanoseconds for one call.
fn time<T>(calls: u32, call: &mut impl FnMut() -> T) -> f64 {
    let moved = is_moved();
    let start = Instant::now();
    if moved {
        repeat_and_move(calls, call);
    } else {
        repeat(calls, call);
    }
    start.elapsed().as_nanos() as f64 / f64::from(calls)
}

fn median(mut times: Vec<f64>) -> f64 {
    times.sort_by(f64::total_cmp);
    times[times.len() / 2]
}
