//! Calls that model and library agree on, counted, and what occurred in them.

use crate::compare::{Borrower, Entry, Lending, Outcome};
use crate::tally;
use support::Coverage;

pub struct Maker {
    pub borrower: Borrower,
    pub coverage: Coverage,
    pub calls: u64,
}

impl Maker {
    pub fn new() -> Maker {
        Maker {
            borrower: Borrower::new(),
            coverage: tally::expected(),
            calls: 0,
        }
    }

    /// The outcome of a call, or where model and library differ.
    pub fn make(&mut self, entry: &Entry, lending: Lending) -> Result<Outcome, String> {
        let outcome = self.borrower.agreed(entry, lending)?;
        tally::note(&mut self.coverage, entry, &outcome);
        self.calls += 1;
        Ok(outcome)
    }
}
