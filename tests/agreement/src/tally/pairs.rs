//! What occurred in calls on two books with the same records of a security.

use super::reserves::of_call;
use super::REFUSALS;
use crate::calls::Call;
use crate::compare::{Entry, Outcome};
use crate::pairs::Made;
use books::{number_in, records, records_of};
use model::book::{self, Order};
use support::Coverage;

/// What the two books are like beside the security's records.
type Meets = fn(&[Vec<Order>; 2], &[Entry; 2]) -> bool;
const BOOKS: [(&str, Meets); 4] = [
    ("of different lengths", |_, entries| {
        entries[0].book.len() != entries[1].book.len()
    }),
    ("one without the other security", |others, _| {
        others[0].is_empty() != others[1].is_empty()
    }),
    ("more of the other security in one", |others, _| {
        let [one, other] = others.each_ref().map(Vec::len);
        one != other && one.min(other) > 0
    }),
    ("as many of the other security, but others", |others, _| {
        others[0].len() == others[1].len() && others[0] != others[1]
    }),
];

const SEVERAL_PARAGRAPHS: &str = "executed in several paragraphs";
const LEFT_BETWEEN: &str = "a record left from between the other security's";
const MARKED_BESIDE: &str = "marked on both, a better price of the other security in one";
const TRADED_BESIDE: &str = "accepted on both, could trade with the other security in one";

/// The calls and what occurs in them.
const OCCASIONS: [(&[&str], &[&str]); 3] = [
    (&["add", "add_ladder"], &[MARKED_BESIDE, TRADED_BESIDE]),
    (&["reduce", "reduce_ladder"], &[LEFT_BETWEEN]),
    (
        &["take", "take_ladder"],
        &[SEVERAL_PARAGRAPHS, LEFT_BETWEEN],
    ),
];

pub fn expect(coverage: &mut Coverage) {
    for (call, refusals) in &REFUSALS[..9] {
        coverage.expect(in_pair(call, &on_both(0)));
        for (books, _) in BOOKS {
            coverage.expect(in_pair(call, books));
        }
        for &refusal in refusals.iter().filter(|&&refusal| refusal != 2) {
            coverage.expect(in_pair(call, &on_both(refusal)));
            if [4, 6].contains(&refusal) {
                coverage.expect(in_pair(call, &on_one(refusal)));
            }
        }
    }
    for (calls, occasions) in OCCASIONS {
        for call in calls {
            for occasion in occasions {
                coverage.expect(in_pair(call, occasion));
            }
        }
    }
}

fn in_pair(call: &str, what: &str) -> String {
    of_call(call, &format!("pair of books, {what}"))
}

fn on_both(refusal: usize) -> String {
    match refusal {
        0 => String::from("accepted on both"),
        refusal => format!("refused {refusal} on both"),
    }
}

fn on_one(refusal: usize) -> String {
    format!("refused {refusal} on one, accepted on the other")
}

/// Notes a call on both books of a pair.
pub fn note(coverage: &mut Coverage, made: &Made) {
    let call = made.call().name();
    let mut note = |what: &str| coverage.note(in_pair(call, what));
    match made.refusals() {
        [one, other] if one == other => note(&on_both(one)),
        [0, refusal] | [refusal, 0] => note(&on_one(refusal)),
        _ => {}
    }
    if made.refusals() != [0, 0] {
        return;
    }
    let others = made.entries.each_ref().map(|entry| {
        let orders = book::read(&entry.book).expect("a sound book");
        let others = orders.into_iter();
        others.filter(|order| order.security != made.security)
    });
    let others = others.map(Iterator::collect);
    for (books, meets) in BOOKS {
        if meets(&others, &made.entries) {
            note(books);
        }
    }
    match made.call().plain() {
        Call::Add(_) => additions(made, &others).into_iter().for_each(note),
        Call::Reduce(_) | Call::Take(_) => {
            if (0..2).any(|place| left_between(made, place)) {
                note(LEFT_BETWEEN);
            }
            if executed_paragraphs(&made.outcomes[0]) > 1 {
                note(SEVERAL_PARAGRAPHS);
            }
        }
        _ => {}
    }
}

/// What was told of an order that was added to both.
fn additions(made: &Made, others: &[Vec<Order>; 2]) -> Vec<&'static str> {
    let orders = book::read(&made.outcomes[0].book).expect("a sound book");
    let new = orders.last().expect("the order that was added");
    let better = |order: &Order| {
        let same_side = order.side == new.side && order.is_displayed();
        same_side && new.side.is_better(order.price, new.price)
    };
    let could_trade = |order: &Order| {
        let within = order.side != new.side && new.side.within(new.price, order.price);
        within && order.least_fill() <= new.shares()
    };
    let in_one = |fits: &dyn Fn(&Order) -> bool| {
        let [one, other] = others.each_ref().map(|orders| orders.iter().any(fits));
        one != other
    };
    let mut met = Vec::new();
    if new.setter && in_one(&better) {
        met.push(MARKED_BESIDE);
    }
    if in_one(&could_trade) {
        met.push(TRADED_BESIDE);
    }
    met
}

/// Whether a record of the security left one of the books that stood between two of
/// the other's.
fn left_between(made: &Made, place: usize) -> bool {
    let [before, after] = [&made.entries[place].book, &made.outcomes[place].book];
    let numbers =
        |records: &mut dyn Iterator<Item = &[u8]>| -> Vec<u32> { records.map(number_in).collect() };
    let others = numbers(&mut records_of(before, 1 - made.security));
    let rest = numbers(&mut records(after));
    let left = numbers(&mut records_of(before, made.security));
    let mut left = left.iter().filter(|number| !rest.contains(number));
    match others[..] {
        [first, .., last] => left.any(|number| (first..last).contains(number)),
        _ => false,
    }
}

/// How many paragraphs the executions of a take name; none of another call.
fn executed_paragraphs(outcome: &Outcome) -> usize {
    let executions = model::read_executions(&outcome.executions, outcome.numbers[1] as u32);
    let mut paragraphs: Vec<u8> = executions.iter().map(|fill| fill.paragraph).collect();
    paragraphs.sort_unstable();
    paragraphs.dedup();
    paragraphs.len()
}
