//! Times of two calls in one run, one on each side, and of the difference between two calls of a side.

use std::hint::black_box;
use std::time::{Duration, Instant};

/// How long a measurement lasts at least, and how many each call gets, where a difference is asked for more. A short one often meets
/// no other program.
const EACH: Duration = Duration::from_millis(1);
const ROUNDS: usize = 160;
const ROUNDS_APART: usize = 480;

/// What one proved call and one Rust call take, in nanoseconds.
#[derive(Clone, Copy)]
pub struct Times {
    pub proved: f64,
    pub rust: f64,
}

impl Times {
    /// The times of one among so many.
    pub fn each(self, count: usize) -> Times {
        Times { proved: self.proved / count as f64, rust: self.rust / count as f64 }
    }

    /// Without end where the proved call takes time and the Rust one, by a difference, none.
    pub fn ratio(self) -> f64 {
        self.proved / self.rust.max(0.0)
    }
}

/// How long this many calls take.
fn spent<T>(call: &mut impl FnMut() -> T, calls: u32) -> Duration {
    let start = Instant::now();
    for _ in 0..calls {
        black_box(call());
    }
    start.elapsed()
}

/// A call, and how many of it make a measurement.
struct Timed<F> {
    call: F,
    calls: u32,
}

impl<T, F: FnMut() -> T> Timed<F> {
    fn new(mut call: F) -> Timed<F> {
        let mut calls = 1;
        while spent(&mut call, calls) < EACH {
            calls *= 2;
        }
        Timed { call, calls }
    }

    /// The nanoseconds of one call, by a measurement.
    fn nanos(&mut self) -> f64 {
        spent(&mut self.call, self.calls).as_nanos() as f64 / f64::from(self.calls)
    }
}

/// Measures both in turn, so that a slow moment meets both: the least of each.
pub fn both<P, R>(proved: impl FnMut() -> P, rust: impl FnMut() -> R) -> Times {
    let (mut proved, mut rust) = (Timed::new(proved), Timed::new(rust));
    let mut least = Times { proved: f64::INFINITY, rust: f64::INFINITY };
    for _ in 0..ROUNDS {
        least.proved = least.proved.min(proved.nanos());
        least.rust = least.rust.min(rust.nanos());
    }
    least
}

/// Two calls of one side, of which the first does all that the second does and more.
pub struct Apart<L, S> {
    pub long: L,
    pub short: S,
}

/// The number in the middle.
fn median(mut numbers: Vec<f64>) -> f64 {
    numbers.sort_by(f64::total_cmp);
    numbers[numbers.len() / 2]
}

/// What the long call of each side takes beyond the short one, all four measured in turn: the median of the differences, as each may be
/// small beside the calls.
pub fn difference<P, R>(
    proved: Apart<impl FnMut() -> P, impl FnMut() -> P>,
    rust: Apart<impl FnMut() -> R, impl FnMut() -> R>,
) -> Times {
    let (mut proved_long, mut proved_short) = (Timed::new(proved.long), Timed::new(proved.short));
    let (mut rust_long, mut rust_short) = (Timed::new(rust.long), Timed::new(rust.short));
    let (mut of_proved, mut of_rust) = (Vec::new(), Vec::new());
    for _ in 0..ROUNDS_APART {
        of_proved.push(proved_long.nanos() - proved_short.nanos());
        of_rust.push(rust_long.nanos() - rust_short.nanos());
    }
    Times { proved: median(of_proved), rust: median(of_rust) }
}

/// Prints what the proved call and the Rust one take, and their ratio.
pub fn line(name: &str, times: Times) {
    let Times { proved, rust } = times;
    println!(
        "{name:<56} proved {proved:10.1} ns   Rust {rust:10.1} ns   ratio {:5.2}",
        times.ratio()
    );
}

/// Measurements, each with its name.
#[derive(Default)]
pub struct Measured(Vec<(String, Times)>);

impl Measured {
    /// Prints a measurement and keeps it.
    pub fn note(&mut self, name: String, times: Times) {
        line(&name, times);
        self.0.push((name, times));
    }

    /// The entry for which a number is greatest.
    fn greatest(&self, number: impl Fn(Times) -> f64) -> &(String, Times) {
        let order = |one: &&(String, Times), other: &&(String, Times)| {
            number(one.1).total_cmp(&number(other.1))
        };
        self.0.iter().max_by(order).expect("a measurement")
    }

    /// Prints the worst of all that was measured so far, and how many ratios are above 1.
    pub fn print_worst(&self) {
        let (slowest, ratio) = self.greatest(Times::ratio);
        let (longest, time) = self.greatest(|times| times.proved);
        let (ratio, time) = (ratio.ratio(), time.proved / 1e6);
        let (above, all) = (self.0.iter().filter(|at| at.1.ratio() > 1.0).count(), self.0.len());
        print!("worst: ratio {ratio:.2} at {slowest}; {time:.3} ms at {longest}; ");
        println!("{above} of {all} ratios above 1");
    }
}
