//! What adds and reduces did to reserve orders, or because of them.

use super::reserves::{is_reserve, of_call};
use crate::calls::Call;
use crate::compare::Entry;
use model::book::{self, Order, LARGEST_SIZE, LONGEST_BOOK, RECORD_LENGTH, ROUND_LOT};
use support::Coverage;

const FIVE_BY_RESTING: &str = "refused 5 by a resting reserve order alone";
const FIVE_BY_HIDDEN: &str = "refused 5 by a minimum, which the shown shares alone don't reach";
const MARK_DENIED_BY_RESTING: &str = "no mark because of a resting reserve order";
const MARK_DENIED_BY_SHOWN: &str = "no mark for less than a lot shown, with a lot or more in all";
const MARKED: &str = "a reserve order marked";
const NOTHING_HIDDEN: &str = "a reserve order that hides nothing";

/// What is wrong with a number of add, the number's place, and whether it is that,
/// by the kind and the number.
type Wrong = (&'static str, usize, fn(u32, u32) -> bool);
const WRONG: [Wrong; 7] = [
    ("hidden shares of another kind", 6, |kind, _| kind != 4),
    ("a refresh size of another kind", 7, |kind, _| kind != 4),
    ("too many hidden shares", 6, |kind, _| kind == 4),
    ("the refresh size 0", 7, |kind, size| kind == 4 && size == 0),
    ("a refresh size that isn't shown", 7, |kind, size| {
        kind == 4 && (1..=LARGEST_SIZE).contains(&size)
    }),
    ("a refresh size too large", 7, |kind, size| {
        kind == 4 && size > LARGEST_SIZE
    }),
    ("a minimum of a reserve order", 5, |kind, _| kind == 4),
];

/// Whether a reduce by so many shares is one of an order that shows and hides so
/// many.
type Reduces = fn(u32, u32, u32) -> bool;
const REDUCED: [(&str, Reduces); 6] = [
    ("within the hidden shares", |shares, _, hidden| {
        shares < hidden
    }),
    ("by the hidden shares", |shares, _, hidden| {
        shares == hidden && hidden > 0
    }),
    ("across both parts", |shares, shown, hidden| {
        hidden > 0 && shares > hidden && shares < shown + hidden
    }),
    (
        "whole, of which some was hidden",
        |shares, shown, hidden| hidden > 0 && shares == shown + hidden,
    ),
    ("by more than it shows", |shares, shown, _| shares > shown),
    ("that one call can't take whole", |_, shown, hidden| {
        shown + hidden > LARGEST_SIZE
    }),
];
const SEVEN_AGAINST_ALL: &str = "refused 7, a reserve order that hides shares";

pub fn expect(coverage: &mut Coverage) {
    for call in ["add", "add_ladder"] {
        for what in [
            FIVE_BY_RESTING,
            FIVE_BY_HIDDEN,
            MARK_DENIED_BY_RESTING,
            MARK_DENIED_BY_SHOWN,
            MARKED,
            NOTHING_HIDDEN,
        ] {
            coverage.expect(of_call(call, what));
        }
        for (wrong, ..) in WRONG {
            coverage.expect(of_call(call, &refused_for(wrong)));
        }
    }
    for call in ["reduce", "reduce_ladder"] {
        for (what, _) in REDUCED {
            coverage.expect(of_call(call, &reduced(what)));
        }
        coverage.expect(of_call(call, SEVEN_AGAINST_ALL));
    }
}

fn refused_for(wrong: &str) -> String {
    format!("refused 1 for {wrong}")
}

fn reduced(what: &str) -> String {
    format!("a reserve order reduced {what}")
}

/// Notes an add or a reduce that is refused with this number.
pub fn note_refused(coverage: &mut Coverage, entry: &Entry, refusal: usize) {
    match (entry.call.plain(), refusal) {
        (Call::Add(numbers), 1) => note_wrong(coverage, entry.call.name(), numbers),
        (Call::Add(numbers), 5) => note_five(coverage, entry, numbers),
        (Call::Reduce([_, number, _]), 7) => {
            let orders = book::read(&entry.book).expect("7 comes behind 2");
            let order = orders.iter().find(|order| order.number == number);
            let hides = order.is_some_and(|order| order.hidden() > 0);
            let name = of_call(entry.call.name(), SEVEN_AGAINST_ALL);
            coverage.note_if(hides, &name);
        }
        _ => {}
    }
}

/// Notes which number alone is wrong in those of an add that is refused 1.
fn note_wrong(coverage: &mut Coverage, call: &str, numbers: [u32; 9]) {
    for (wrong, place, fits) in WRONG {
        let [_, kind, _, _, size, ..] = numbers;
        let mut right = numbers;
        right[place] = match (kind, place) {
            (4, 7) => size,
            _ => 0,
        };
        let alone = right != numbers && Order::of_request(right).is_some();
        if alone && fits(kind, numbers[place]) {
            coverage.note(of_call(call, &refused_for(wrong)));
        }
    }
}

/// Notes an add that is refused 5.
fn note_five(coverage: &mut Coverage, entry: &Entry, numbers: [u32; 9]) {
    let call = entry.call.name();
    let orders = book::read(&entry.book).expect("5 comes behind 2");
    let by_resting = add_to(&without_reserves(&orders), numbers).0 != 5;
    coverage.note_if(by_resting, &of_call(call, FIVE_BY_RESTING));
    let mut shown = numbers;
    shown[6] = 0;
    let by_hidden = add_to(&orders, shown).0 != 5;
    coverage.note_if(by_hidden, &of_call(call, FIVE_BY_HIDDEN));
}

fn without_reserves(orders: &[Order]) -> Vec<Order> {
    let others = orders.iter().filter(|order| !is_reserve(order));
    others.copied().collect()
}

/// The refusal of an add to a book of these orders, and whether the new one is
/// marked. An order that finds no room counts as unmarked.
pub fn add_to(orders: &[Order], numbers: [u32; 9]) -> (u32, bool) {
    let length = (orders.len() + 1) * RECORD_LENGTH;
    let mut book = vec![0; length.min(LONGEST_BOOK)];
    book::write(&mut book, orders);
    let refusal = model::add(&mut book, numbers);
    let after = book::read(&book).expect("add leaves a sound book");
    let marked = after.last().is_some_and(|order| order.setter);
    (refusal, refusal == 0 && marked)
}

/// Notes an accepted add to a book that has these orders before and after it.
pub fn note_add(coverage: &mut Coverage, entry: &Entry, [before, after]: [&[Order]; 2]) {
    let Call::Add(numbers) = entry.call.plain() else {
        unreachable!("only adds are noted as such");
    };
    let call = entry.call.name();
    let new = after.last().expect("the order that was added");
    let marked = is_reserve(new) && new.setter;
    coverage.note_if(marked, &of_call(call, MARKED));
    let hides_nothing = is_reserve(new) && new.hidden() == 0;
    coverage.note_if(hides_nothing, &of_call(call, NOTHING_HIDDEN));
    if new.setter || !new.is_displayed() {
        return;
    }
    if before.iter().any(is_reserve) && add_to(&without_reserves(before), numbers).1 {
        coverage.note(of_call(call, MARK_DENIED_BY_RESTING));
    }
    if is_reserve(new) && new.size < ROUND_LOT && new.shares() >= ROUND_LOT {
        let mut with_a_lot = numbers;
        with_a_lot[4] = ROUND_LOT;
        with_a_lot[7] = ROUND_LOT;
        let by_shown = add_to(before, with_a_lot).1;
        coverage.note_if(by_shown, &of_call(call, MARK_DENIED_BY_SHOWN));
    }
}

/// Notes an accepted reduce of an order of a book that has these at entry.
pub fn note_reduce(
    coverage: &mut Coverage,
    call: &str,
    number: u32,
    shares: u32,
    before: &[Order],
) {
    let order = before.iter().find(|order| order.number == number);
    if let Some(order) = order.filter(|order| is_reserve(order)) {
        for (what, reduces) in REDUCED {
            if reduces(shares, order.size, order.hidden()) {
                coverage.note(of_call(call, &reduced(what)));
            }
        }
    }
}
