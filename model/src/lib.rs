//! Order allocation after PSX Rule 3307, written plainly from the rule and its
//! scope, so that the library can be compared with it: five calls on the bytes
//! of a lent book of two securities, the ladder beside it with a call and three
//! forms of its own, two calls between the old form of a book and the new one, and
//! the programs fillsheet and convert.
//!
//! A book is read into a list of orders, the list is changed, and the whole
//! book is written anew. Nothing here is meant to be fast, save the module
//! `fast`, which has the same calls as a measure for the library's speed.

pub mod book;
mod calls;
mod conversion;
mod convert;
pub mod fast;
mod fillsheet;
pub mod ladder;
mod order;
mod program;
mod sharing;
mod take;

pub use calls::{add, check, find, reduce};
pub use conversion::{to_new, to_old};
pub use convert::convert;
pub use fillsheet::{fillsheet, LONGEST_INPUT};
pub use ladder::{add_ladder, ladder, reduce_ladder, take_ladder, LADDER_LENGTH};
pub use program::from_input_to_output;
pub use take::{read_executions, take, Execution, EXECUTION_LENGTH};

/// Why a call is refused. The conditions are looked at in this order.
#[derive(Clone, Copy, Debug, PartialEq, Eq)]
pub enum Refusal {
    OutOfRange = 1,
    UnsoundBook = 2,
    LadderLength = 9,
    LadderOfAnotherBook = 10,
    OldFormCannotTell = 11,
    TargetUnfit = 12,
    NoSuchOrder = 3,
    NumberNotAboveAll = 4,
    CouldTrade = 5,
    NoFreeRecord = 6,
    MoreThanOrderHas = 7,
    ExecutionsDoNotFit = 8,
}

#[cfg(test)]
mod tests;
