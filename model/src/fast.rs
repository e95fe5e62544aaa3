//! The same calls made fast, as a measure for the library's speed: nothing is
//! allocated, a book is checked in one pass over its bytes, orders are sorted by
//! price once a take and once a ladder, and a group that fits is filled whole. A
//! ladder that is kept is changed only in the rows that the call is about.

mod beside;
mod calls;
mod fill;
mod ladder;
mod record;
mod settlement;
mod sharing;
mod soundness;
mod take;
mod taker;

pub use calls::{add, add_ladder, check, find, reduce, reduce_ladder};
pub use ladder::ladder;
pub use take::{take, take_ladder};
