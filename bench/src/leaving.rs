//! Takes from a full book in which few orders change, or many leave.

use crate::books::{self, BEST_PRICE};
use crate::cases::{self, Case, FULL};
use model::book::Order;

const CALL_NAME: &str = "take, few orders change or many leave (price/time)";
const PRICE_TIME: u32 = 1;

const FIRST: u32 = 0;
const MIDDLE: u32 = FULL / 2 - 1;
const LAST: u32 = FULL - 1;

/// What the orders that trade are called, which places they have, and whether they
/// are filled whole, and so leave.
type Trade = (&'static str, fn(u32) -> bool, bool);

const TRADES: [Trade; 8] = [
    ("filled in part, the first", |at| at == FIRST, false),
    ("filled in part, the middle one", |at| at == MIDDLE, false),
    ("filled in part, the last", |at| at == LAST, false),
    ("leaves, the last", |at| at == LAST, true),
    ("leaves, the middle one", |at| at == MIDDLE, true),
    ("leaves, the first", |at| at == FIRST, true),
    (
        "leave, every second from the second",
        |at| at % 2 == 1,
        true,
    ),
    ("leave, every second from the first", |at| at % 2 == 0, true),
];

pub fn cases() -> impl Iterator<Item = Case> {
    TRADES.into_iter().map(case)
}

/// A take of the orders at the best price.
fn case((name, places, filled): Trade) -> Case {
    let orders = books::better_at(FULL, places);
    let is_best = |order: &Order| order.price == BEST_PRICE;
    let (best, others): (Vec<Order>, Vec<Order>) = orders.iter().copied().partition(is_best);
    let total = books::total(&best);
    let behind_first = others.iter().filter(|order| order.number > best[0].number);
    let (size, moves) = match filled {
        true => (total, behind_first.count()),
        false => (total / 2, 0),
    };
    let count = best.len();
    let book_name = format!("{count} {name}: {moves} moves");
    Case {
        call_name: CALL_NAME,
        ..cases::take(PRICE_TIME, book_name, &orders, size, Some(count))
    }
}
