//! What is timed: a call and the book that it is made on.

use crate::books::{self, price, BEST_PRICE};
use crate::calls::{Call, SECURITY};
use crate::ladders;
use crate::leaving;
use crate::reserves;
use crate::securities;
use model::book::Order;

#[derive(Clone)]
pub struct Case {
    /// What is called.
    pub call_name: &'static str,
    pub book_name: String,
    pub call: Call,
    pub book: Vec<u8>,
    /// Empty for a call without one.
    pub ladder: Vec<u8>,
    /// How many executions the call has, where the case is about that.
    pub executions: Option<usize>,
}

impl Case {
    /// Beside a form that keeps a ladder: its plain call, and the new ladder of the
    /// same book.
    pub fn plain_and_new(&self) -> Option<[Case; 2]> {
        let plain = Case {
            call: self.call.plain()?,
            ladder: Vec::new(),
            ..self.clone()
        };
        let new = Case {
            call: Call::Ladder,
            executions: None,
            ..self.clone()
        };
        Some([plain, new])
    }
}

/// How many orders the books have.
const COUNTS: [u32; 3] = [16, 64, 256];
pub const FULL: u32 = 256;
pub const BUY: u32 = 1;

const TAKES: [&str; 3] = [
    "take, algorithm 1 (price/time)",
    "take, algorithm 2 (pro rata)",
    "take, algorithm 3 (pro rata with the price setter)",
];

pub fn all() -> Vec<Case> {
    let mut cases = Vec::new();
    cases.extend(checks());
    cases.extend(on_displayed("find the last order", |count, _| Call::Find {
        number: count,
    }));
    cases.extend(adds());
    cases.extend(on_displayed("reduce in part", |count, _| Call::Reduce {
        number: count / 2,
        shares: 50,
    }));
    cases.extend(on_displayed("reduce to nothing", |count, orders| {
        let middle = orders[count as usize / 2 - 1];
        Call::Reduce {
            number: middle.number,
            shares: middle.size,
        }
    }));
    for algorithm in 1..=3 {
        cases.extend(takes_of_displayed(algorithm));
        cases.extend(takes_of_minimums(algorithm));
        cases.extend(takes_of_groups(algorithm));
    }
    cases.extend(leaving::cases());
    cases.extend(ladders::cases());
    cases.extend(reserves::cases());
    cases.extend(securities::cases());
    cases
}

/// A call on books of each count, of one price and of as many prices as orders.
fn on_displayed(
    call_name: &'static str,
    call: impl Fn(u32, &[Order]) -> Call,
) -> impl Iterator<Item = Case> {
    sizes_and_prices().map(move |(count, many_prices)| {
        let orders = books::displayed(count, many_prices);
        Case {
            call_name,
            book_name: book_name(count, many_prices),
            call: call(count, &orders),
            book: books::entered(&orders, count),
            ladder: Vec::new(),
            executions: None,
        }
    })
}

fn sizes_and_prices() -> impl Iterator<Item = (u32, bool)> {
    [false, true]
        .into_iter()
        .flat_map(|many_prices| COUNTS.map(|count| (count, many_prices)))
}

fn book_name(count: u32, many_prices: bool) -> String {
    match many_prices {
        true => format!("{count} orders at {count} prices"),
        false => format!("{count} orders at one price"),
    }
}

fn checks() -> Vec<Case> {
    let mut cases: Vec<Case> = on_displayed("check", |_, _| Call::Check).collect();
    let setters = |book_name: &str, orders: &[Order]| Case {
        call_name: "check",
        book_name: book_name.to_owned(),
        call: Call::Check,
        book: books::marked(orders),
        ladder: Vec::new(),
        executions: None,
    };
    cases.push(setters(
        "256 setters, each better priced",
        &books::improving(FULL),
    ));
    cases.push(setters(
        "256 setters in no order",
        &books::displayed(FULL, true),
    ));
    cases
}

/// The last order of each book is the one that is added.
fn adds() -> impl Iterator<Item = Case> {
    sizes_and_prices().map(|(count, many_prices)| {
        let orders = books::displayed(count, many_prices);
        let (last, before) = orders.split_last().expect("an order");
        Case {
            call_name: "add",
            book_name: book_name(count, many_prices),
            call: Call::Add(books::numbers(last)),
            book: books::entered(before, count),
            ladder: Vec::new(),
            executions: None,
        }
    })
}

/// A buy within every price of the orders.
pub fn take(
    algorithm: u32,
    book_name: impl Into<String>,
    orders: &[Order],
    size: u32,
    executions: Option<usize>,
) -> Case {
    Case {
        call_name: TAKES[algorithm as usize - 1],
        book_name: book_name.into(),
        call: Call::Take([BUY, price(FULL), size, algorithm, SECURITY]),
        book: books::entered(orders, orders.len() as u32),
        ladder: Vec::new(),
        executions,
    }
}

fn takes_of_displayed(algorithm: u32) -> impl Iterator<Item = Case> {
    let each = sizes_and_prices().map(move |(count, many_prices)| {
        let orders = books::displayed(count, many_prices);
        let total = books::total(&orders);
        let name = book_name(count, many_prices);
        match many_prices {
            true => all_filled(algorithm, &name, &orders),
            false => {
                let name = name + ", shared in part";
                take(algorithm, name, &orders, total / 5 * 3, None)
            }
        }
    });
    let one_price = books::displayed(FULL, false);
    let many_prices = books::displayed(FULL, true);
    let best = many_prices.iter().find(|order| order.price == BEST_PRICE);
    let size = best.expect("an order at the best price").size - 1;
    let name = "256 orders at 256 prices, only the best reached";
    each.chain([
        all_filled(algorithm, &book_name(FULL, false), &one_price),
        take(algorithm, name, &many_prices, size, Some(1)),
    ])
}

fn all_filled(algorithm: u32, book_name: &str, orders: &[Order]) -> Case {
    let name = format!("{book_name}, all filled");
    let total = books::total(orders);
    take(algorithm, name, orders, total, Some(orders.len()))
}

fn takes_of_minimums(algorithm: u32) -> Vec<Case> {
    let one_price = books::minimums(FULL, false);
    let many_prices = books::minimums(FULL, true);
    let unmet = 199;
    let some_met = books::total(&one_price) / 2 + 199;
    vec![
        take(
            algorithm,
            "256 minimum quantity orders at one price, none met",
            &one_price,
            unmet,
            Some(0),
        ),
        take(
            algorithm,
            "256 minimum quantity orders at one price, some met",
            &one_price,
            some_met,
            None,
        ),
        take(
            algorithm,
            "256 minimum quantity orders at 256 prices, none met",
            &many_prices,
            unmet,
            Some(0),
        ),
    ]
}

fn takes_of_groups(algorithm: u32) -> [Case; 2] {
    let incoming = 100_000;
    let half_met = books::half_met(128, incoming);
    let every_paragraph = books::every_paragraph(51);
    [
        take(
            algorithm,
            "128 prices, one of two minimum quantity orders met",
            &half_met,
            incoming,
            Some(128),
        ),
        all_filled(
            algorithm,
            "51 prices, an order in every paragraph",
            &every_paragraph,
        ),
    ]
}
