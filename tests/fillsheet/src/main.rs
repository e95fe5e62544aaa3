//! Compares a fillsheet program with the model's fillsheet, byte for byte.
//!
//! `fillsheets PROGRAM [INPUTS [FIRST SEED]]` runs the program on fixed scripts
//! and on so many random ones.

mod scripts;

use scripts::Script;
use std::process::ExitCode;
use support::{Comparison, Coverage};

const CASE_C: &[u8] = b"A 3\nS 1 D 100100 1000 0\nS 2 D 100000 1000 0\nS 3 D 100000 3000 0\n\
                        S 4 D 100000 1000 0\nT B 100000 1000\n";

fn main() -> ExitCode {
    let comparison = Comparison {
        model: model::fillsheet,
        sample: CASE_C.to_vec(),
        fixed: fixed_scripts(),
        inputs: 600,
        random: |random, coverage| Script::random(random, coverage).text,
        note,
        coverage: expected(),
    };
    comparison.run()
}

/// The counts that every full run has to raise above 0. A book is always sound
/// and the executions always fit, so that refusals 2 and 8 can't occur.
fn expected() -> Coverage {
    let mut coverage = Coverage::default();
    scripts::expect_spoilings(&mut coverage);
    coverage.expect("script without a last line end");
    for refusal in [1, 3, 4, 5, 6, 7] {
        coverage.expect(format!("printed: refused {refusal}"));
    }
    for printed in ["order", "execution", "left"] {
        coverage.expect(format!("printed: {printed}"));
    }
    coverage.expect("output longer than 65,536 bytes");
    coverage
}

fn fixed_scripts() -> Vec<(String, Vec<u8>)> {
    let longest = model::LONGEST_INPUT;
    let with_last = |length: usize, last: u8| {
        let mut text = scripts::of_length(length);
        text[length - 1] = last;
        text
    };
    [
        ("case c", CASE_C.to_vec()),
        (
            "case c without a last line end",
            CASE_C[..CASE_C.len() - 1].to_vec(),
        ),
        ("empty input", Vec::new()),
        ("one empty line", b"\n".to_vec()),
        ("two empty lines", b"\n\n".to_vec()),
        ("one byte", b"A".to_vec()),
        ("full books taken whole", scripts::full_books()),
        ("65,535 bytes", scripts::of_length(longest - 1)),
        ("65,536 bytes", scripts::of_length(longest)),
        (
            "65,536 bytes without a last line end",
            with_last(longest, b'1'),
        ),
        ("65,537 bytes", scripts::of_length(longest + 1)),
        (
            "65,537 bytes, the last a line end",
            with_last(longest + 1, b'\n'),
        ),
        ("65,536 bytes of line ends", vec![b'\n'; longest]),
        ("200,000 bytes", scripts::of_length(200_000)),
    ]
    .map(|(name, text)| (name.to_string(), text))
    .into()
}

/// Notes what sorts of lines an output has.
fn note(coverage: &mut Coverage, _: &[u8], output: &[u8]) {
    for line in output.split_inclusive(|&byte| byte == b'\n') {
        let line = String::from_utf8_lossy(line);
        let line = line.trim_end();
        let sort = match line.split(' ').next() {
            Some("refused") => line,
            Some(word @ ("order" | "left")) => word,
            _ => "execution",
        };
        coverage.note(format!("printed: {sort}"));
    }
    coverage.note_if(output.len() > 65_536, "output longer than 65,536 bytes");
}
