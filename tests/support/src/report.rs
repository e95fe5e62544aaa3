//! The report of checks that passed or failed.

use std::process::ExitCode;

#[derive(Default)]
pub struct Report {
    passed: u32,
    failed: u32,
}

impl Report {
    /// Counts and prints a check and, if it failed, why.
    pub fn check(&mut self, name: &str, outcome: Result<(), String>) {
        match outcome {
            Ok(()) => {
                self.passed += 1;
                println!("passed: {name}");
            }
            Err(reason) => {
                self.failed += 1;
                println!("FAILED: {name}\n{reason}");
            }
        }
    }

    /// Prints the last line and gives the exit status.
    pub fn finish(self) -> ExitCode {
        println!("{} passed, {} failed", self.passed, self.failed);
        ExitCode::from(u8::from(self.failed > 0))
    }
}
