//! Compares the library with the model: random books and calls, every returned
//! number and every byte of the lent buffers, refused calls too. And holds the library
//! to itself where two books have the same records of a security.
//!
//! `agreement [ROUNDS [FIRST SEED]]` has so many rounds in each group. One round
//! from a seed that was named for a difference repeats it.

mod bytewise;
mod caller;
mod calls;
mod compare;
mod conversions;
mod groups;
mod guarded;
mod ladders;
mod maker;
mod pairs;
mod rounds;
mod selfcheck;
mod tally;

use maker::Maker;
use std::env;
use std::process::ExitCode;
use support::Report;

const DEFAULT_ROUNDS: u64 = 4_000;
/// Calls that a run of the default length has at least.
const LEAST_CALLS: u64 = 200_000;

fn main() -> ExitCode {
    let arguments: Vec<String> = env::args().skip(1).collect();
    let number = |place: usize, default: u64| {
        arguments
            .get(place)
            .map_or(Some(default), |text| text.parse().ok())
    };
    if let [touch, what, length] = &arguments[..] {
        if touch == selfcheck::TOUCH {
            selfcheck::touch(what, length.parse().unwrap_or(0));
            return ExitCode::SUCCESS;
        }
    }
    match (number(0, DEFAULT_ROUNDS), number(1, 1)) {
        (Some(rounds), Some(first)) if arguments.len() <= 2 => run(rounds, first),
        _ => {
            eprintln!("usage: agreement [ROUNDS [FIRST SEED]]");
            ExitCode::from(2)
        }
    }
}

fn run(rounds: u64, first: u64) -> ExitCode {
    let mut report = Report::default();
    let mut maker = Maker::new();
    guarded::report_touches();
    selfcheck::run(&mut report, &mut maker.borrower);
    let seeds = first..first + rounds;
    println!("seeds {first} to {}", first + rounds - 1);
    for group in groups::all() {
        report.check(group.name, group.run(seeds.clone(), &mut maker));
    }
    for group in conversions::all() {
        report.check(group.name, group.run(seeds.clone(), &mut maker));
    }
    for group in pairs::all() {
        report.check(group.name, group.run(seeds.clone(), &mut maker));
    }
    run_bytewise(&mut report, &mut maker);
    println!("{} calls:", maker.calls);
    maker.coverage.print();
    if rounds >= DEFAULT_ROUNDS {
        check_reach(&mut report, &maker);
    }
    report.finish()
}

fn run_bytewise(report: &mut Report, maker: &mut Maker) {
    let books = bytewise::books(maker);
    report.check("every byte of a small book changed", books);
    let ladders = bytewise::ladders(maker);
    report.check("every byte of its ladder changed", ladders);
    let turned = bytewise::turned_books(maker);
    report.check("every byte of a small book changed, and turned", turned);
    let targets = bytewise::targets(maker);
    report.check("every length of a target around its limits", targets);
}

/// A run of the default length may be blind to nothing.
fn check_reach(report: &mut Report, maker: &Maker) {
    let enough = maker.calls >= LEAST_CALLS;
    let few = format!("only {}", maker.calls);
    report.check("enough calls", enough.then_some(()).ok_or(few));
    let reached = maker.coverage.verdict();
    report.check("all that has to occur occurred", reached);
}
