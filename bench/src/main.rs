//! Times the library's calls beside the model made fast.
//!
//!     bench                measures, and prints the tables
//!     bench --write DIR    does so, and writes PERFORMANCE.md and performance.svg
//!     bench quick          only compares the results of all cases

mod books;
mod calls;
mod cases;
mod ladders;
mod leaving;
mod machine;
mod measure;
mod plot;
mod report;
mod reserves;
mod securities;

use cases::Case;
use measure::Measured;
use report::Timed;
use std::env;
use std::fs;
use std::path::Path;
use std::process::ExitCode;

fn main() -> ExitCode {
    let arguments: Vec<String> = env::args().skip(1).collect();
    let words: Vec<&str> = arguments.iter().map(String::as_str).collect();
    match words.as_slice() {
        ["quick"] => quick(),
        [] => full(None),
        ["--write", folder] => full(Some(Path::new(folder))),
        _ => {
            eprintln!("usage: bench [quick | --write DIR]");
            ExitCode::from(2)
        }
    }
}

/// Makes each call once by both and compares the results, timing nothing.
fn quick() -> ExitCode {
    let (mut passed, mut failed) = (0, 0);
    let cases = cases::all();
    let beside: Vec<Case> = cases
        .iter()
        .filter_map(Case::plain_and_new)
        .flatten()
        .collect();
    for case in cases.into_iter().chain(beside) {
        match measure::compare(&case) {
            Ok(()) => passed += 1,
            Err(difference) => {
                failed += 1;
                println!("FAILED: {}: {difference}", full_name(&case));
            }
        }
    }
    println!("{passed} passed, {failed} failed");
    ExitCode::from(u8::from(failed > 0))
}

fn full(folder: Option<&Path>) -> ExitCode {
    match measured(folder) {
        Ok(()) => ExitCode::SUCCESS,
        Err(reason) => {
            eprintln!("bench: {reason}");
            ExitCode::FAILURE
        }
    }
}

/// Measures every case, prints the tables and writes the files.
fn measured(folder: Option<&Path>) -> Result<(), String> {
    let before = machine::load();
    let mut results = Vec::new();
    for case in cases::all() {
        let measured = compared_and_measured(&case)?;
        let beside = match case.plain_and_new() {
            Some([plain, new]) => {
                Some([compared_and_measured(&plain)?, compared_and_measured(&new)?])
            }
            None => None,
        };
        results.push(Timed {
            case,
            measured,
            beside,
        });
    }
    let tables = [
        report::tables(&results),
        report::growth(&results),
        report::forms(&results),
    ];
    print!("{}", tables.join("\n"));
    let load = [before, machine::load()];
    match folder {
        Some(folder) => write(folder, &results, load).map_err(|error| error.to_string()),
        None => Ok(()),
    }
}

fn compared_and_measured(case: &Case) -> Result<Measured, String> {
    measure::compare(case).map_err(|difference| format!("{}: {difference}", full_name(case)))?;
    Ok(measure::measure(case))
}

fn write(folder: &Path, results: &[Timed], load: [String; 2]) -> std::io::Result<()> {
    let document = report::document(results, load);
    fs::write(folder.join("PERFORMANCE.md"), document)?;
    fs::write(folder.join("performance.svg"), plot::drawing(results))
}

fn full_name(case: &Case) -> String {
    format!("{}, {}", case.call_name, case.book_name)
}
