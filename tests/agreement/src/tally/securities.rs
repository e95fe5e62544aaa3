//! What occurred because a book has orders of two securities.

use super::reserves::of_call;
use crate::calls::{self, Call};
use crate::compare::{self, Entry};
use books::{number_in, records_of};
use model::book::{Order, Side, MOST_ORDERS, SECURITIES};
use support::Coverage;

/// What books of both securities are like.
type Meets = fn(&[Order]) -> bool;
const BOOKS: [(&str, Meets); 5] = [
    ("orders of both by turns", |orders| {
        let securities = orders.chunk_by(|one, next| one.security == next.security);
        securities.count() > 2
    }),
    ("both at one side and price", |orders| {
        share_a_level(orders, |_| true)
    }),
    ("marks of both at one side and price", |orders| {
        share_a_level(orders, |order| order.setter)
    }),
    ("sides that overlap across securities alone", |orders| {
        let overlaps = |securities| overlap(orders, securities);
        (overlaps([0, 1]) || overlaps([1, 0])) && !overlaps([0, 0]) && !overlaps([1, 1])
    }),
    ("255 orders or more of both", |orders| {
        orders.len() + 1 >= MOST_ORDERS
    }),
];

/// Whether orders of both securities that fit have a side and price in common.
fn share_a_level(orders: &[Order], fits: impl Fn(&Order) -> bool) -> bool {
    let mut levels: Vec<(u32, u32, u32)> = orders
        .iter()
        .filter(|order| fits(order))
        .map(|order| (order.price, order.side as u32, order.security))
        .collect();
    levels.sort_unstable();
    levels.dedup();
    let same = |two: &[(u32, u32, u32)]| (two[0].0, two[0].1) == (two[1].0, two[1].1);
    levels.windows(2).any(same)
}

/// Whether a buy of the first security reaches the price of a sell of the second.
pub fn overlap(orders: &[Order], [buys, sells]: [u32; 2]) -> bool {
    let prices = |security: u32, side: Side| {
        let fits = move |order: &&Order| order.security == security && order.side == side;
        orders.iter().filter(fits).map(|order| order.price)
    };
    let highest = prices(buys, Side::Buy).max();
    let lowest = prices(sells, Side::Sell).min();
    highest.is_some() && lowest.is_some() && highest >= lowest
}

const CALLS: [&str; 9] = [
    "check",
    "find",
    "add",
    "reduce",
    "take",
    "ladder",
    "add_ladder",
    "reduce_ladder",
    "take_ladder",
];

const NO_SECURITY: &str = "refused 1 for security 2 alone";
const NO_SECURITY_UNSOUND: &str = "refused 1 for the security alone, of an unsound book";

const COUNTED: &str = "fewer orders counted than there are";
const OTHERS_NUMBER: &str = "refused 3, a number that the other security has";
const FOUR_BY_OTHER: &str = "refused 4 by the other security's numbers alone";
const SIX_BY_OTHER: &str = "refused 6, every record the other security's";
const COULD_TRADE: &str = "accepted, though it could trade with the other security";
const MARKED_AT_WORSE: &str = "marked, the other security displayed at a better price";
const MARKED_AT_SAME: &str = "marked, the other security marked at its price";
/// Both ladders of a book are kept: one has changed since this one did.
const IN_TURN: &str = "accepted behind a form of the other security";

/// The calls and what occurs in them.
const OCCASIONS: [(&[&str], &[&str]); 4] = [
    (&["check"], &[COUNTED]),
    (&["find"], &[OTHERS_NUMBER]),
    (
        &["add", "add_ladder"],
        &[
            FOUR_BY_OTHER,
            SIX_BY_OTHER,
            COULD_TRADE,
            MARKED_AT_WORSE,
            MARKED_AT_SAME,
        ],
    ),
    (&["reduce", "reduce_ladder"], &[OTHERS_NUMBER]),
];

pub fn expect(coverage: &mut Coverage) {
    for call in CALLS {
        for security in 0..SECURITIES {
            coverage.expect(of_call(call, &accepted_for(security)));
        }
        for what in [NO_SECURITY, NO_SECURITY_UNSOUND] {
            coverage.expect(of_call(call, what));
        }
        for (book, _) in BOOKS {
            coverage.expect(of_book(call, book));
        }
    }
    for (calls, occasions) in OCCASIONS {
        for call in calls {
            for occasion in occasions {
                coverage.expect(of_call(call, occasion));
            }
        }
    }
    for call in ["ladder", "add_ladder", "reduce_ladder", "take_ladder"] {
        coverage.expect(of_call(call, IN_TURN));
    }
}

fn accepted_for(security: u32) -> String {
    format!("accepted for security {security}")
}

fn of_book(call: &str, book: &str) -> String {
    of_call(call, &format!("accepted, book with {book}"))
}

pub fn kept_in_turn(call: Call) -> String {
    of_call(call.name(), IN_TURN)
}

/// Notes a call that is refused with this number.
pub fn note_refused(coverage: &mut Coverage, entry: &Entry, refusal: usize) {
    let security = entry.call.security().expect("a call for a security");
    let mut note = |what| coverage.note(of_call(entry.call.name(), what));
    if security >= SECURITIES {
        let mut right = entry.clone();
        right.call = entry.call.for_security(0);
        match compare::by_model(&right).refusal() {
            2 => note(NO_SECURITY_UNSOUND),
            other if other != 1 && security == SECURITIES => note(NO_SECURITY),
            _ => {}
        }
        return;
    }
    let mut own = records_of(&entry.book, security).map(number_in);
    let mut other = records_of(&entry.book, 1 - security).map(number_in);
    match (entry.call.plain(), refusal) {
        (Call::Find([_, number]) | Call::Reduce([_, number, _]), 3)
            if other.any(|others| others == number) =>
        {
            note(OTHERS_NUMBER);
        }
        (Call::Add([_, _, number, ..]), 4) if own.all(|owns| owns < number) => {
            note(FOUR_BY_OTHER);
        }
        (Call::Add(_), 6) if own.next().is_none() && other.next().is_some() => {
            note(SIX_BY_OTHER);
        }
        _ => {}
    }
}

/// Notes an accepted call on a book that has these orders before and after it.
pub fn note_accepted(coverage: &mut Coverage, entry: &Entry, [before, after]: [&[Order]; 2]) {
    let call = entry.call.name();
    let security = entry.call.security().expect("a call for a security");
    coverage.note(of_call(call, &accepted_for(security)));
    if before.iter().all(|order| order.security == security) {
        return;
    }
    let is_own = |order: &Order| order.security == security;
    if before.iter().any(is_own) {
        for (book, meets) in BOOKS {
            if meets(before) {
                coverage.note(of_book(call, book));
            }
        }
    }
    let mut note = |what| coverage.note(of_call(call, what));
    match entry.call.plain() {
        Call::Check(_) => note(COUNTED),
        Call::Add(_) => {
            let new = after.last().expect("the order that was added");
            let other = calls::of_security(before, 1 - security);
            additions(new, &other).into_iter().for_each(note);
        }
        _ => {}
    }
}

/// What was told of a new order beside those of the other security.
fn additions(new: &Order, other: &[Order]) -> Vec<&'static str> {
    let could_trade = |resting: &Order| {
        resting.side != new.side
            && new.side.within(new.price, resting.price)
            && resting.least_fill() <= new.shares()
    };
    let of_side = other.iter().filter(|order| order.side == new.side);
    let mut displayed = of_side.filter(|order| order.is_displayed());
    let better = |order: &Order| new.side.is_better(order.price, new.price);
    let mut met = Vec::new();
    if other.iter().any(could_trade) {
        met.push(COULD_TRADE);
    }
    if new.setter && displayed.clone().any(better) {
        met.push(MARKED_AT_WORSE);
    }
    if new.setter && displayed.any(|order| order.setter && order.price == new.price) {
        met.push(MARKED_AT_SAME);
    }
    met
}
