//! Which orders a take made leave, and what became of those that stayed. Behind
//! the first that left, their records moved to close the gaps.

use super::takes::Take;
use crate::compare::Entry;
use model::book::{Order, MOST_ORDERS, RECORD_LENGTH};
use support::Coverage;

/// The books that are told apart.
const FULL: &str = "256 orders";
const WITH_FREE_RECORDS: &str = "fewer orders than records";

/// Whether the orders at these places, of a book of so many orders, are those that
/// an occasion is about.
type Left = fn(&[usize], usize) -> bool;

/// Which orders left, and how many records moved if there were 256.
const LEFT: [(&str, usize, Left); 6] = [
    ("every second left from place 1 on", 127, |left, orders| {
        is_every_second(left, 1, orders)
    }),
    ("every second left from place 0 on", 128, |left, orders| {
        is_every_second(left, 0, orders)
    }),
    ("the first alone left", 255, |left, orders| {
        left == [0] && orders > 1
    }),
    ("the last alone left", 0, |left, orders| {
        left == [orders - 1] && orders > 1
    }),
    ("none left though shares were executed", 0, |left, _| {
        left.is_empty()
    }),
    ("all left", 0, |left, orders| {
        left.len() == orders && orders > 1
    }),
];

fn is_every_second(left: &[usize], first: usize, orders: usize) -> bool {
    orders > 2 && left.iter().copied().eq((first..orders).step_by(2))
}

/// An order that stayed where others left.
struct Stayed {
    was: Order,
    is: Order,
    /// Whether it stood behind the first that left.
    moved: bool,
    /// Whether it is on the incoming order's side.
    own_side: bool,
}

impl Stayed {
    fn is_filled_in_part(&self) -> bool {
        self.is.shares() < self.was.shares()
    }

    fn moved_as_it_was(&self) -> bool {
        self.moved && self.is == self.was
    }
}

const FILLED_BEFORE: &str = "one filled in part before the first that left";
const FILLED_BEHIND: &str = "one filled in part behind the first that left";
const FILLED_BEFORE_AND_BEHIND: &str = "some filled in part before and behind the first that left";

/// What became of an order that stayed.
type Became = fn(&Stayed) -> bool;
const STAYED: [(&str, Became); 7] = [
    (FILLED_BEFORE, |order| {
        !order.moved && order.is_filled_in_part()
    }),
    (FILLED_BEHIND, |order| {
        order.moved && order.is_filled_in_part()
    }),
    ("a minimum lowered in a record that moved", |order| {
        order.moved && order.is.least_fill() < order.was.least_fill()
    }),
    (
        "one of the incoming order's side moved as it was",
        |order| order.moved_as_it_was() && order.own_side,
    ),
    ("one of the other side moved as it was", |order| {
        order.moved_as_it_was() && !order.own_side
    }),
    ("a marked one moved as it was", |order| {
        order.moved_as_it_was() && order.is.setter
    }),
    ("a marked one filled in part moved with its mark", |order| {
        order.moved && order.is_filled_in_part() && order.is.setter
    }),
];

pub fn expect(coverage: &mut Coverage) {
    for call in ["take", "take_ladder"] {
        for (which, moves, _) in LEFT {
            coverage.expect(left_full(call, which, moves));
            coverage.expect(of_book(call, WITH_FREE_RECORDS, which));
        }
        for book in [FULL, WITH_FREE_RECORDS] {
            for (what, _) in STAYED {
                coverage.expect(of_book(call, book, what));
            }
            coverage.expect(of_book(call, book, FILLED_BEFORE_AND_BEHIND));
            for algorithm in 1..=3 {
                coverage.expect(of_book(call, book, &left_by(algorithm)));
            }
        }
    }
}

fn of_book(call: &str, book: &str, what: &str) -> String {
    format!("{call}: of {book}, {what}")
}

fn left_full(call: &str, which: &str, moves: usize) -> String {
    format!("{}, {moves} moves", of_book(call, FULL, which))
}

fn left_by(algorithm: u32) -> String {
    format!("some left by algorithm {algorithm}")
}

/// Notes a take from a book that has these orders before and after it.
pub fn note(coverage: &mut Coverage, entry: &Entry, take: &Take, orders: [&[Order]; 2]) {
    let [before, _] = orders;
    let book = match before.len() {
        MOST_ORDERS => FULL,
        fewer if fewer * RECORD_LENGTH < entry.book.len() => WITH_FREE_RECORDS,
        _ => return,
    };
    if take.executions.is_empty() {
        return;
    }
    let call = entry.call.name();
    let (left, stayed) = parted(take, orders);
    let moves = stayed.iter().filter(|order| order.moved).count();
    for (which, _, is_left) in LEFT {
        if is_left(&left, before.len()) {
            coverage.note(match book {
                FULL => left_full(call, which, moves),
                _ => of_book(call, book, which),
            });
        }
    }
    if !left.is_empty() {
        coverage.note(of_book(call, book, &left_by(take.algorithm)));
        note_stayed(coverage, &stayed, |what| of_book(call, book, what));
    }
}

/// The places of the orders that left, and the orders that stayed.
fn parted(take: &Take, [before, after]: [&[Order]; 2]) -> (Vec<usize>, Vec<Stayed>) {
    let mut left = Vec::new();
    let mut stayed = Vec::new();
    for (place, &was) in before.iter().enumerate() {
        match after.binary_search_by_key(&was.number, |order| order.number) {
            Ok(found) => stayed.push(Stayed {
                was,
                is: after[found],
                moved: !left.is_empty(),
                own_side: was.side == take.side,
            }),
            Err(_) => left.push(place),
        }
    }
    (left, stayed)
}

fn note_stayed(coverage: &mut Coverage, stayed: &[Stayed], name: impl Fn(&str) -> String) {
    let mut met = Vec::new();
    for (what, became) in STAYED {
        if stayed.iter().any(became) {
            met.push(what);
        }
    }
    if met.contains(&FILLED_BEFORE) && met.contains(&FILLED_BEHIND) {
        met.push(FILLED_BEFORE_AND_BEHIND);
    }
    for what in met {
        coverage.note(name(what));
    }
}
