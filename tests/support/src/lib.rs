//! What the comparing programs have in common: random numbers from a seed, a
//! count of what occurred, the report of checks that passed or failed, and the
//! comparison of a program with the model's.

mod comparison;
mod coverage;
mod random;
mod report;

pub use comparison::Comparison;
pub use coverage::Coverage;
pub use random::Random;
pub use report::Report;
