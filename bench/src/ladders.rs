//! The cases with a ladder: the call that makes a new one, and the forms that keep
//! one.

use crate::books;
use crate::calls::{Call, SECURITY};
use crate::cases::{Case, BUY, FULL};
use model::book::{Order, Side};
use model::LADDER_LENGTH;

/// What the buffer of a new ladder holds before.
const FILLER: u8 = 0xEE;

/// How many orders a book has, and how many prices on each side.
type Extent = (u32, u32);

const NEW: [Extent; 6] = [
    (4, 2),
    (64, 32),
    (FULL, 1),
    (FULL, 4),
    (FULL, 32),
    MOST_PRICES,
];
const KEPT: [Extent; 3] = [(4, 2), (FULL, 4), MOST_PRICES];

/// The book with the longest ladder, and those with fewer prices that its time is
/// compared with: of as many orders as prices, and of as many orders as it has.
pub const MOST_PRICES: Extent = (FULL, 128);
pub const FEWER_PRICES: [Extent; 2] = [(64, 32), (FULL, 32)];

/// The name of a form with its book's orders, and the call that is made of them.
type Form = (&'static str, fn(&[Order]) -> Call);

const FORMS: [Form; 4] = [
    ("add with a ladder", |orders| {
        Call::AddLadder(books::numbers(&orders[orders.len() - 1]))
    }),
    ("reduce in part with a ladder", |orders| {
        let Order { number, .. } = middle(orders);
        Call::ReduceLadder { number, shares: 50 }
    }),
    ("reduce to nothing with a ladder", |orders| {
        let Order { number, size, .. } = middle(orders);
        Call::ReduceLadder {
            number,
            shares: size,
        }
    }),
    ("take with a ladder, algorithm 2 (pro rata)", |orders| {
        let sells = orders.iter().filter(|order| order.side == Side::Sell);
        let total: u32 = sells.map(|order| order.size).sum();
        Call::TakeLadder([BUY, books::price(FULL), total / 5 * 3, 2, SECURITY])
    }),
];

fn middle(orders: &[Order]) -> Order {
    orders[orders.len() / 2 - 1]
}

pub fn cases() -> Vec<Case> {
    let mut cases: Vec<Case> = NEW.map(new).into();
    for form in FORMS {
        cases.extend(KEPT.map(|extent| kept(form, extent)));
    }
    cases
}

pub fn book_name((orders, prices): Extent) -> String {
    format!("{orders} orders at {} prices", 2 * prices)
}

fn new(extent: Extent) -> Case {
    let (count, prices) = extent;
    Case {
        call_name: "ladder",
        book_name: book_name(extent),
        call: Call::Ladder,
        book: books::entered(&books::both_sides(count, prices), count),
        ladder: vec![FILLER; LADDER_LENGTH],
        executions: None,
    }
}

/// A form on a book with its own ladder. An order that is added is the last of its
/// book.
fn kept((call_name, call): Form, extent: Extent) -> Case {
    let (count, prices) = extent;
    let orders = books::both_sides(count, prices);
    let call = call(&orders);
    let before = match call {
        Call::AddLadder(_) => &orders[..orders.len() - 1],
        _ => &orders[..],
    };
    let book = books::entered(before, count);
    let mut ladder = vec![0; LADDER_LENGTH];
    let refusal = model::ladder(&book, &mut ladder, SECURITY);
    assert_eq!(refusal, 0, "the book is sound");
    Case {
        call_name,
        book_name: book_name(extent),
        call,
        book,
        ladder,
        executions: None,
    }
}
