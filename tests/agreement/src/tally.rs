//! What occurred in a run, told from the calls' entries and outcomes.

pub mod conversions;
mod divisions;
mod groups;
mod ladders;
mod leaving;
pub mod pairs;
mod paragraphs;
mod reserve_entries;
mod reserves;
pub mod securities;
mod security_takes;
mod setters;
mod takes;

use crate::calls::Call;
use crate::compare::{Entry, Outcome};
use crate::guarded;
use crate::ladders::WRONG_LADDERS;
use books::damage;
use model::book::{self, Form, Order, LONGEST_BOOK, MOST_ORDERS};
use support::Coverage;
use takes::Take;

/// The calls and the refusals that each can have.
const REFUSALS: [(&str, &[usize]); 11] = [
    ("check", &[1, 2]),
    ("find", &[1, 2, 3]),
    ("add", &[1, 2, 4, 5, 6]),
    ("reduce", &[1, 2, 3, 7]),
    ("take", &[1, 2, 8]),
    ("ladder", &[1, 2, 9]),
    ("add_ladder", &[1, 2, 9, 10, 4, 5, 6]),
    ("reduce_ladder", &[1, 2, 9, 10, 3, 7]),
    ("take_ladder", &[1, 2, 9, 10, 8]),
    ("to_new", &[2, 12]),
    ("to_old", &[2, 11, 12]),
];

const OCCASIONS: [&str; 7] = [
    "add that set a setter mark",
    "reduce that emptied an order",
    "reduce that lowered a minimum",
    "book of length 0",
    "full book of 256 orders",
    "book whose sides overlap",
    "book with a marked reserve order",
];

/// Which pages of a full book could not be written in a take, and stay.
const FIRST_KEPT: &str = "those of the first page not writable, one behind it changed";
const LAST_KEPT: &str = "those of the last page not writable, one before it changed";
const ALL_KEPT: &str = "none writable, none changed";

/// The counts that every full run has to raise above 0.
pub fn expected() -> Coverage {
    let mut coverage = Coverage::default();
    for (call, refusals) in REFUSALS {
        coverage.expect(format!("{call}: accepted"));
        for refusal in refusals {
            coverage.expect(format!("{call}: refused {refusal}"));
        }
    }
    for (damage, _) in damage::all(Form::New) {
        coverage.expect(refused_damage(damage));
    }
    for (wrong, refusal, _) in WRONG_LADDERS {
        coverage.expect(refused_ladder(wrong, refusal));
    }
    for occasion in OCCASIONS {
        coverage.expect(occasion);
    }
    takes::expect(&mut coverage);
    paragraphs::expect(&mut coverage);
    divisions::expect(&mut coverage);
    setters::expect(&mut coverage);
    leaving::expect(&mut coverage);
    reserves::expect(&mut coverage);
    reserve_entries::expect(&mut coverage);
    securities::expect(&mut coverage);
    security_takes::expect(&mut coverage);
    ladders::expect(&mut coverage);
    conversions::expect(&mut coverage);
    pairs::expect(&mut coverage);
    for call in ["take", "take_ladder"] {
        for pages in [FIRST_KEPT, LAST_KEPT, ALL_KEPT] {
            coverage.expect(kept(call, pages));
        }
    }
    coverage
}

fn refusals_of(call: Call) -> &'static [usize] {
    let found = REFUSALS.iter().find(|(name, _)| *name == call.name());
    found.map_or(&[], |(_, refusals)| refusals)
}

fn kept(call: &str, pages: &str) -> String {
    format!("{call}: of 256 records, {pages}")
}

pub fn refused_damage(damage: &str) -> String {
    format!("damaged book refused: {damage}")
}

pub fn refused_ladder(wrong: &str, refusal: usize) -> String {
    format!("wrong ladder refused {refusal}: {wrong}")
}

/// Notes what a call was and what came of it.
pub fn note(coverage: &mut Coverage, entry: &Entry, outcome: &Outcome) {
    for name in [entry.call.name(), "all calls"] {
        coverage.note(format!("{name}: made"));
        match outcome.refusal() {
            0 => coverage.note(format!("{name}: accepted")),
            refusal => coverage.note(format!("{name}: refused {refusal}")),
        }
    }
    if entry.call.is_turning() {
        conversions::note(coverage, entry, outcome.refusal());
        return;
    }
    if outcome.refusal() != 0 {
        securities::note_refused(coverage, entry, outcome.refusal());
        if entry.call.has_ladder() {
            ladders::note_refused(coverage, entry, outcome);
        }
        match outcome.refusal() {
            8 => reserves::note_refused(coverage, entry),
            refusal => reserve_entries::note_refused(coverage, entry, refusal),
        }
        return;
    }
    note_accepted(coverage, entry, outcome);
}

/// Notes an accepted call on a book.
fn note_accepted(coverage: &mut Coverage, entry: &Entry, outcome: &Outcome) {
    let before = book::read(&entry.book).expect("an accepted call has a sound book");
    let after = book::read(&outcome.book).expect("an accepted call leaves a sound book");
    note_book(coverage, entry, &before);
    securities::note_accepted(coverage, entry, [&before, &after]);
    if entry.call.has_ladder() {
        ladders::note_accepted(coverage, entry, outcome, [&before, &after]);
    }
    match entry.call.plain() {
        Call::Add(_) => {
            let marked = after.last().is_some_and(|order| order.setter);
            coverage.note_if(marked, "add that set a setter mark");
            reserve_entries::note_add(coverage, entry, [&before, &after]);
        }
        Call::Reduce([_, number, shares]) => {
            note_reduce(coverage, number, &before, &after);
            security_takes::note_left(coverage, entry, [&before, &after]);
            reserve_entries::note_reduce(coverage, entry.call.name(), number, shares, &before);
        }
        Call::Take(_) => {
            let take = Take::new(entry, outcome, &before);
            take.note(coverage, after.len());
            paragraphs::note(coverage, &take, &before);
            divisions::note(coverage, &take);
            setters::note(coverage, entry, &before, &take);
            leaving::note(coverage, entry, &take, [&before, &after]);
            reserves::note(coverage, entry, &take, [&before, &after]);
            security_takes::note_left(coverage, entry, [&before, &after]);
            security_takes::note_take(coverage, entry, &take, &before);
        }
        _ => {}
    }
}

/// Notes a take from a full book of which what stays could not be written.
pub fn note_kept(coverage: &mut Coverage, entry: &Entry, outcome: &Outcome) {
    if !matches!(entry.call.plain(), Call::Take(_)) || entry.book.len() != LONGEST_BOOK {
        return;
    }
    let pages = guarded::pages_at_end(&entry.book, &outcome.book);
    let all = pages.iter().all(|&stays| stays);
    let mut note = |pages| coverage.note(kept(entry.call.name(), pages));
    match pages[..] {
        _ if all => note(ALL_KEPT),
        [first, .., last] => {
            if first {
                note(FIRST_KEPT);
            }
            if last {
                note(LAST_KEPT);
            }
        }
        _ => {}
    }
}

fn note_book(coverage: &mut Coverage, entry: &Entry, orders: &[Order]) {
    let full = orders.len() == MOST_ORDERS;
    let overlap = [0, 1].map(|security| securities::overlap(orders, [security; 2]));
    coverage.note_if(entry.book.is_empty(), "book of length 0");
    coverage.note_if(full, "full book of 256 orders");
    coverage.note_if(overlap != [false; 2], "book whose sides overlap");
    let marked = |order: &Order| order.setter && reserves::is_reserve(order);
    let marked = orders.iter().any(marked);
    coverage.note_if(marked, "book with a marked reserve order");
}

fn note_reduce(coverage: &mut Coverage, number: u32, before: &[Order], after: &[Order]) {
    let minimum = |orders: &[Order]| {
        let order = orders.iter().find(|order| order.number == number);
        order.map(Order::least_fill)
    };
    let (old, new) = (minimum(before), minimum(after));
    coverage.note_if(new.is_none(), "reduce that emptied an order");
    let lowered = new.is_some() && new < old;
    coverage.note_if(lowered, "reduce that lowered a minimum");
}
