//! What takes for one security met of the other, and what left from between its
//! orders.

use super::paragraphs::paragraph_of;
use super::reserves::of_call;
use super::takes::Take;
use crate::calls;
use crate::compare::Entry;
use model::book::{Order, MOST_ORDERS};
use support::Coverage;

const LEFT_BETWEEN: &str = "an order left from between the other security's";
const EMPTIED_BETWEEN: &str = "all of its security left from between the other's";
const EMPTIED_FULL: &str = "all of its security left a book of 256 orders of both";
const PASSED_BETTER: &str = "executed at a worse price than the other security's best";
const OTHERS_MARK: &str = "no setter, a mark of the other security at the price";
const BOTH_MARKS: &str = "a setter, and a mark of the other security at its price";

pub fn expect(coverage: &mut Coverage) {
    for call in ["reduce", "reduce_ladder", "take", "take_ladder"] {
        coverage.expect(of_call(call, LEFT_BETWEEN));
    }
    for call in ["take", "take_ladder"] {
        for what in [
            EMPTIED_BETWEEN,
            EMPTIED_FULL,
            PASSED_BETTER,
            OTHERS_MARK,
            BOTH_MARKS,
        ] {
            coverage.expect(of_call(call, what));
        }
        for algorithm in 1..=3 {
            coverage.expect(of_call(call, &divided_beside(algorithm)));
        }
    }
}

fn divided_beside(algorithm: u32) -> String {
    format!("a group divided beside the other security's parts, by algorithm {algorithm}")
}

/// Notes which orders left a book that has these before and after an accepted reduce
/// or take.
pub fn note_left(coverage: &mut Coverage, entry: &Entry, [before, after]: [&[Order]; 2]) {
    let security = entry.call.security().expect("a call for a security");
    for what in leavings(before, after, security) {
        coverage.note(of_call(entry.call.name(), what));
    }
}

/// What was told of the orders that left, by where the other security's stand.
fn leavings(before: &[Order], after: &[Order], security: u32) -> Vec<&'static str> {
    let stays = |order: &Order| {
        let place = after.binary_search_by_key(&order.number, |order| order.number);
        place.is_ok()
    };
    let is_other = |order: &Order| order.security != security;
    let mut others = before.iter().filter(|order| is_other(order));
    let (first, last) = match (others.next(), others.next_back()) {
        (Some(first), Some(last)) => (first.number, last.number),
        _ => return Vec::new(),
    };
    let between = |order: &Order| (first..last).contains(&order.number);
    let own: Vec<&Order> = before.iter().filter(|order| !is_other(order)).collect();
    let left = own.iter().filter(|order| !stays(order));
    let mut met = Vec::new();
    if left.clone().any(|order| between(order)) {
        met.push(LEFT_BETWEEN);
        if left.count() == own.len() && own.len() > 1 {
            met.push(EMPTIED_BETWEEN);
            if before.len() == MOST_ORDERS {
                met.push(EMPTIED_FULL);
            }
        }
    }
    met
}

/// Notes what an accepted take met of the other security, from a book that has these
/// orders at entry.
pub fn note_take(coverage: &mut Coverage, entry: &Entry, take: &Take, before: &[Order]) {
    let security = entry.call.security().expect("a call for a security");
    let other = calls::of_security(before, 1 - security);
    if other.is_empty() || take.executions.is_empty() {
        return;
    }
    let opposite: Vec<Order> = other
        .into_iter()
        .filter(|order| order.side != take.side)
        .collect();
    let call = entry.call.name();
    let first = take.executions[0].price;
    let better = |order: &Order| order.side.is_better(order.price, first);
    coverage.note_if(opposite.iter().any(better), &of_call(call, PASSED_BETTER));
    for group in take.groups.iter().filter(|group| group.executed() > 0) {
        let at_price = opposite.iter().filter(|order| order.price == group.price);
        let beside = |part: Order| paragraph_of(&part, take.algorithm) == group.paragraph;
        if group.is_divided() && at_price.clone().flat_map(Order::parts).any(beside) {
            coverage.note(of_call(call, &divided_beside(take.algorithm)));
        }
        let others_mark = at_price.clone().any(|order| order.setter);
        if others_mark && take.algorithm == 3 && group.paragraph == 2 {
            coverage.note(match group.setter() {
                None => of_call(call, OTHERS_MARK),
                Some(_) => of_call(call, BOTH_MARKS),
            });
        }
    }
}
