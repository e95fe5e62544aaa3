//! Random books in both forms, ways in which they are spoilt, and pairs of books
//! that have the same records of one security.

pub mod damage;
mod making;
mod pairs;
mod records;
mod shapes;

pub use making::{Book, Making};
pub use pairs::Pair;
pub use records::{number_in, records, records_of};
pub use shapes::{Shape, Sizes};
