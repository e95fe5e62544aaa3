//! A count of what occurred, by name, so that a test that no longer reaches
//! something is seen to be blind to it.

use std::collections::BTreeMap;

#[derive(Default)]
pub struct Coverage {
    counts: BTreeMap<String, u64>,
}

impl Coverage {
    /// A count that has to rise above 0.
    pub fn expect(&mut self, name: impl Into<String>) {
        self.counts.entry(name.into()).or_insert(0);
    }

    pub fn note(&mut self, name: impl Into<String>) {
        *self.counts.entry(name.into()).or_insert(0) += 1;
    }

    pub fn note_if(&mut self, occurred: bool, name: &str) {
        if occurred {
            self.note(name);
        }
    }

    pub fn print(&self) {
        for (name, count) in &self.counts {
            println!("  {count:>9}  {name}");
        }
    }

    /// The names that were expected and did not occur.
    pub fn missing(&self) -> Vec<&str> {
        let never = self.counts.iter().filter(|(_, &count)| count == 0);
        never.map(|(name, _)| name.as_str()).collect()
    }

    /// Fails if something expected did not occur.
    pub fn verdict(&self) -> Result<(), String> {
        match self.missing() {
            missing if missing.is_empty() => Ok(()),
            missing => Err(format!("never occurred: {}", missing.join("; "))),
        }
    }
}

#[cfg(test)]
mod tests {
    use super::Coverage;

    #[test]
    fn what_was_expected_and_did_not_occur_is_missing() {
        let mut coverage = Coverage::default();
        coverage.expect("one");
        coverage.expect("other");
        coverage.note("one");
        coverage.note_if(false, "other");
        assert_eq!(coverage.missing(), ["other"]);
        assert!(coverage.verdict().is_err());
        coverage.note_if(true, "other");
        assert_eq!(coverage.verdict(), Ok(()));
    }
}
