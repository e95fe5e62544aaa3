//! What price setters got of takes by the price-setter variation.

use super::groups::Group;
use super::takes::Take;
use crate::calls::Call;
use crate::compare::{self, Entry};
use model::book::{Order, ROUND_LOT};
use std::cmp::{Ordering, Reverse};
use support::Coverage;

const GUARANTEE_EXACTLY: &str = "take: a setter got its guarantee exactly";
const MORE_THAN_GUARANTEE: &str = "take: a setter got more than its guarantee";

/// Where the rest of plain sharing can end, seen from the setter. Larger orders
/// have their turns before it, and of its own size the earlier ones.
const ENDS: [&str; 5] = [
    "among larger orders than the setter",
    "among orders of the setter's size, before its turn",
    "with the setter",
    "among orders of the setter's size, behind its turn",
    "among smaller orders than the setter",
];

pub fn expect(coverage: &mut Coverage) {
    coverage.expect(GUARANTEE_EXACTLY);
    coverage.expect(MORE_THAN_GUARANTEE);
    for end in ENDS {
        coverage.expect(rest_ended(end, true));
        coverage.expect(rest_ended(end, false));
    }
}

fn rest_ended(end: &str, plain_holds: bool) -> String {
    match plain_holds {
        true => format!("take: rest ends {end}, plain sharing holds"),
        false => format!("take: rest ends {end}, the guarantee holds"),
    }
}

fn end_of_rest(last: &Order, setter: &Order) -> &'static str {
    let by_size = last.size.cmp(&setter.size);
    match (by_size, last.number.cmp(&setter.number)) {
        (Ordering::Greater, _) => ENDS[0],
        (Ordering::Equal, Ordering::Less) => ENDS[1],
        (Ordering::Equal, Ordering::Equal) => ENDS[2],
        (Ordering::Equal, Ordering::Greater) => ENDS[3],
        (Ordering::Less, _) => ENDS[4],
    }
}

/// Notes a take from a book that has these orders at entry.
pub fn note(coverage: &mut Coverage, entry: &Entry, before: &[Order], take: &Take) {
    let has_setter = |group: &Group| group.shares > 0 && group.setter().is_some();
    if take.algorithm != 3 || !take.groups.iter().any(has_setter) {
        return;
    }
    let plain = by_plain_sharing(entry, before);
    for (group, plain) in take.groups.iter().zip(&plain.groups) {
        if let (Some((setter, got)), Some((_, plain_got))) = (group.setter(), plain.setter()) {
            let guarantee = setter.size.min(2 * divided(group) / 5);
            coverage.note_if(got > 0 && got == guarantee, GUARANTEE_EXACTLY);
            coverage.note_if(got > guarantee, MORE_THAN_GUARANTEE);
            if let Some(last) = last_of_rest(plain) {
                let end = end_of_rest(&last, &setter);
                coverage.note(rest_ended(end, plain_got > guarantee));
            }
        }
    }
}

/// The same take by algorithm 2, which has the same groups and gives each as many
/// shares.
fn by_plain_sharing(entry: &Entry, before: &[Order]) -> Take {
    let mut entry = entry.clone();
    entry.call = entry.call.plain();
    if let Call::Take([.., algorithm, _]) = &mut entry.call {
        *algorithm = 2;
    }
    entry.executions = vec![0; 2 * before.len() * model::EXECUTION_LENGTH];
    Take::new(&entry, &compare::by_model(&entry), before)
}

/// The shares that a group divides.
fn divided(group: &Group) -> u32 {
    group.total().min(u64::from(group.shares)) as u32
}

/// The last order in turn that got some of the rest, if several orders divided
/// shares by lots and there was a rest.
fn last_of_rest(group: &Group) -> Option<Order> {
    if !group.is_divided() || group.parts.len() < 2 {
        return None;
    }
    let first_step = |order: &Order| {
        let exact = u64::from(order.size) * u64::from(divided(group)) / group.total();
        exact as u32 / ROUND_LOT * ROUND_LOT
    };
    let of_rest = group
        .parts
        .iter()
        .filter(|(order, got)| *got > first_step(order));
    let orders = of_rest.map(|(order, _)| *order);
    orders.max_by_key(|order| (Reverse(order.size), order.number))
}
