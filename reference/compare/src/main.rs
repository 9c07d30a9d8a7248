//! The proved library against the separately written implementation.
//!
//! `compare` makes cases from a seed, calls both sides, and holds every answer and every word of a lent buffer to the other side's. It
//! prints how many calls it made and how often each kind of answer, move and state came, and ends with a failure where two sides
//! differ, or where a kind came too seldom (`--cases N` with fewer cases than by default: only where two sides differ). `--seed S`
//! makes other cases. `compare bench` prints times of both in one run, as ratios, and judges nothing.

mod checks;
mod damage;
mod hiding;
mod images;
mod lent;
mod made_alone;
mod move_speed;
mod names;
mod options;
mod packing;
mod proved;
mod report;
mod runs;
mod short;
mod speed;
mod states;
mod tally;
mod timing;
mod walks;

use std::process::ExitCode;
use std::time::Instant;

use options::{Command, Plan};
use report::Report;
use timing::Measured;

type Compare = fn(&mut Report);

/// The parts of the comparison.
const PARTS: [(&str, Compare); 6] = [
    ("block checks", checks::compare),
    ("images", images::compare),
    ("short estimates", short::compare),
    ("walks", walks::compare),
    ("states", states::compare),
    ("runs", runs::compare),
];

fn compare(plan: Plan) -> ExitCode {
    let mut report = Report::new(plan);
    for (name, part) in PARTS {
        let (before, started) = (report.calls, Instant::now());
        part(&mut report);
        let calls = report.calls - before;
        println!("{name}: {calls} calls, {:.1} s", started.elapsed().as_secs_f64());
    }
    report.tally.print();
    let faults = if plan.is_full() { report.tally.faults() } else { Vec::new() };
    faults.iter().for_each(|fault| println!("TOO SELDOM OR TOO OFTEN: {fault}"));
    let Report { calls, differences, .. } = report;
    let (Plan { cases, seed }, faults) = (plan, faults.len());
    println!("--cases {cases} --seed {seed}: {calls} calls of the proved library");
    println!("{differences} differences, {faults} kinds too seldom or too often");
    if differences == 0 && faults == 0 { ExitCode::SUCCESS } else { ExitCode::FAILURE }
}

fn main() -> ExitCode {
    match options::command(std::env::args().skip(1)) {
        Some(Command::Compare(plan)) => compare(plan),
        Some(Command::Bench) => {
            checks::bench();
            let measured = &mut Measured::default();
            speed::bench(measured);
            move_speed::bench(measured);
            made_alone::bench(measured);
            ExitCode::SUCCESS
        }
        None => {
            eprintln!("{}", options::USAGE);
            ExitCode::from(2)
        }
    }
}
