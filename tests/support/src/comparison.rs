//! A program that is held to the model's, byte for byte, on fixed and on random
//! inputs.

use crate::{Coverage, Random, Report};
use std::env;
use std::io::Write;
use std::ops::Range;
use std::process::{Command, ExitCode, Stdio};

pub struct Comparison {
    /// What the program has to print for an input.
    pub model: fn(&[u8]) -> Vec<u8>,
    /// An input in whose output each byte has to count.
    pub sample: Vec<u8>,
    pub fixed: Vec<(String, Vec<u8>)>,
    /// Random inputs of a full run.
    pub inputs: u64,
    /// A random input; what it is like is noted.
    pub random: fn(&mut Random, &mut Coverage) -> Vec<u8>,
    /// Notes what an input and its output are like.
    pub note: fn(&mut Coverage, &[u8], &[u8]),
    /// The counts that every full run has to raise above 0.
    pub coverage: Coverage,
}

impl Comparison {
    /// Runs the program that the arguments name: PROGRAM [INPUTS [FIRST SEED]].
    pub fn run(self) -> ExitCode {
        let arguments: Vec<String> = env::args().collect();
        let number = |place: usize, default: u64| {
            let text = arguments.get(place);
            text.map_or(Some(default), |text| text.parse().ok())
        };
        match (arguments.get(1), number(2, self.inputs), number(3, 1)) {
            (Some(program), Some(inputs), Some(first)) if arguments.len() <= 4 => {
                self.report(program, first..first + inputs)
            }
            _ => {
                eprintln!("usage: {} PROGRAM [INPUTS [FIRST SEED]]", arguments[0]);
                ExitCode::from(2)
            }
        }
    }

    fn report(mut self, program: &str, seeds: Range<u64>) -> ExitCode {
        let mut report = Report::default();
        report.check("an altered output is seen", self.sees_a_difference(program));
        for (name, input) in std::mem::take(&mut self.fixed) {
            report.check(&name, self.agree(program, &input));
        }
        println!("seeds {} to {}", seeds.start, seeds.end - 1);
        let full = seeds.end - seeds.start >= self.inputs;
        let outcome = seeds.into_iter().try_for_each(|seed| {
            let mut random = Random::new(seed, 0);
            let input = (self.random)(&mut random, &mut self.coverage);
            self.agree(program, &input)
                .map_err(|word| format!("seed {seed}\n{word}"))
        });
        report.check("random inputs", outcome);
        self.coverage.print();
        if full {
            let reached = self.coverage.verdict();
            report.check("all that has to occur occurred", reached);
        }
        report.finish()
    }

    /// Fails if the program's output differs from the model's.
    fn agree(&mut self, program: &str, input: &[u8]) -> Result<(), String> {
        let expected = (self.model)(input);
        (self.note)(&mut self.coverage, input, &expected);
        compare(input, &expected, &output(program, input)?)
    }

    /// Whether the comparison sees that the model's output has been altered.
    fn sees_a_difference(&self, program: &str) -> Result<(), String> {
        let input = &self.sample;
        let expected = (self.model)(input);
        let printed = output(program, input)?;
        compare(input, &expected, &printed)?;
        for place in 0..expected.len() {
            let mut altered = expected.clone();
            altered[place] ^= 1;
            if compare(input, &altered, &printed).is_ok() {
                return Err(format!("byte {place} was altered, and not seen"));
            }
        }
        let shorter = &expected[..expected.len() - 1];
        match compare(input, shorter, &printed) {
            Err(_) => Ok(()),
            Ok(()) => Err(String::from("a missing byte was not seen")),
        }
    }
}

fn compare(input: &[u8], expected: &[u8], printed: &[u8]) -> Result<(), String> {
    if expected == printed {
        return Ok(());
    }
    let lines = |text: &[u8]| -> Vec<String> {
        let lines = text.split_inclusive(|&byte| byte == b'\n');
        lines.map(|line| line.escape_ascii().to_string()).collect()
    };
    let (ours, theirs) = (lines(expected), lines(printed));
    let same = ours
        .iter()
        .zip(&theirs)
        .take_while(|(our, their)| our == their);
    let place = same.count();
    Err(format!(
        "line {} of the output: model {:?}, program {:?}\ninput:\n{}",
        place + 1,
        ours.get(place),
        theirs.get(place),
        lines(input).join("\n"),
    ))
}

/// What the program prints. The input is written beside the reading, so that
/// neither waits for the other.
fn output(program: &str, input: &[u8]) -> Result<Vec<u8>, String> {
    let mut child = Command::new(program)
        .stdin(Stdio::piped())
        .stdout(Stdio::piped())
        .spawn()
        .map_err(|error| format!("{program}: {error}"))?;
    let mut stdin = child.stdin.take().expect("a pipe");
    let input = input.to_vec();
    // A program may stop reading where it has read enough, so that the rest
    // can't be written.
    let writer = std::thread::spawn(move || drop(stdin.write_all(&input)));
    let output = child
        .wait_with_output()
        .map_err(|error| error.to_string())?;
    writer
        .join()
        .map_err(|_| String::from("the writer failed"))?;
    match output.status.code() {
        Some(_) => Ok(output.stdout),
        None => Err(format!("the program was ended: {}", output.status)),
    }
}
