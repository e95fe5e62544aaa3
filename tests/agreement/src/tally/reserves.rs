//! What takes did to reserve orders.

use super::takes::Take;
use crate::compare::{self, Entry};
use model::book::{Kind, Order};
use model::EXECUTION_LENGTH;
use support::Coverage;

/// A reserve order that a take executed.
struct Executed {
    was: Order,
    /// What rests of it.
    is: Option<Order>,
    /// What each part lost.
    shown: u32,
    hidden: u32,
    /// Whether an order before it left.
    behind_gap: bool,
    algorithm: u32,
}

impl Executed {
    fn is_refreshed(&self) -> bool {
        self.is.is_some() && self.shown == self.was.size
    }

    fn in_both_parts(&self) -> bool {
        self.shown > 0 && self.hidden > 0
    }

    /// What a refreshed order shows, and its refresh size.
    fn refreshed(&self) -> Option<(u32, u32)> {
        let refreshed = self.is.filter(|_| self.is_refreshed());
        refreshed.map(|order| (order.size, refresh(&order)))
    }
}

type Became = fn(&Executed) -> bool;
const TAKEN: [(&str, Became); 9] = [
    ("refreshed to its refresh size", |order| {
        order.refreshed().is_some_and(|(shown, size)| shown == size)
    }),
    ("refreshed to less than its refresh size", |order| {
        order.refreshed().is_some_and(|(shown, size)| shown < size)
    }),
    ("refreshed, showing more than before", |order| {
        order
            .refreshed()
            .is_some_and(|(shown, _)| shown > order.was.size)
    }),
    ("left with one share shown, not refreshed", |order| {
        order.was.size - order.shown == 1 && order.shown > 0 && order.was.hidden() > 0
    }),
    ("executed in both parts and refreshed", |order| {
        order.in_both_parts() && order.is_refreshed()
    }),
    ("executed in both parts and gone", |order| {
        order.in_both_parts() && order.is.is_none()
    }),
    ("gone with nothing hidden", |order| {
        order.was.hidden() == 0 && order.is.is_none()
    }),
    ("refreshed and kept its mark by algorithm 3", |order| {
        let kept = order.is.is_some_and(|rest| rest.setter);
        order.algorithm == 3 && order.is_refreshed() && kept
    }),
    ("refreshed behind a gap", |order| {
        order.is_refreshed() && order.behind_gap
    }),
];

const ALL_TWICE: &str = "256 reserve orders executed twice, in 8,192 bytes";
const ALL_TWICE_REFUSED: &str = "256 reserve orders executed twice, refused 8 in 8,191 bytes";
const ALL_REFRESHED: &str = "256 reserve orders refreshed";

/// The paragraphs of hidden parts by algorithm.
const HIDDEN_PARTS: [(u32, u8); 5] = [(1, 3), (2, 4), (2, 6), (3, 4), (3, 6)];

pub fn expect(coverage: &mut Coverage) {
    for call in ["take", "take_ladder"] {
        for (what, _) in TAKEN {
            coverage.expect(of_call(call, what));
        }
        for what in [ALL_TWICE, ALL_TWICE_REFUSED, ALL_REFRESHED] {
            coverage.expect(of_call(call, what));
        }
    }
    for (algorithm, paragraph) in HIDDEN_PARTS {
        coverage.expect(hidden_alone(algorithm, paragraph));
    }
}

pub fn of_call(call: &str, what: &str) -> String {
    format!("{call}: {what}")
}

fn hidden_alone(algorithm: u32, paragraph: u8) -> String {
    format!("take: a hidden part alone in paragraph {paragraph} by algorithm {algorithm}")
}

pub fn is_reserve(order: &Order) -> bool {
    matches!(order.kind, Kind::Reserve { .. })
}

fn refresh(order: &Order) -> u32 {
    match order.kind {
        Kind::Reserve { refresh, .. } => refresh,
        _ => 0,
    }
}

/// Notes a take from a book that has these orders before and after it.
pub fn note(coverage: &mut Coverage, entry: &Entry, take: &Take, [before, after]: [&[Order]; 2]) {
    let call = entry.call.name();
    let executed = executed(take, before, after);
    for (what, became) in TAKEN {
        if executed.iter().any(became) {
            coverage.note(of_call(call, what));
        }
    }
    let all = before.len() == 256 && executed.len() == 256;
    let twice = all && executed.iter().all(Executed::in_both_parts);
    let fits = entry.executions.len() == 512 * EXECUTION_LENGTH;
    coverage.note_if(twice && fits, &of_call(call, ALL_TWICE));
    let refreshed = all && executed.iter().all(Executed::is_refreshed);
    coverage.note_if(refreshed, &of_call(call, ALL_REFRESHED));
    for group in take.groups.iter().filter(|group| group.executed() > 0) {
        if let [(part, _)] = group.parts[..] {
            let place = before.binary_search_by_key(&part.number, |order| order.number);
            if is_reserve(&before[place.expect("an order's part")]) && !part.is_displayed() {
                coverage.note(hidden_alone(take.algorithm, group.paragraph));
            }
        }
    }
}

/// The reserve orders that a take executed.
fn executed(take: &Take, before: &[Order], after: &[Order]) -> Vec<Executed> {
    let rest = |order: &Order| {
        let place = after.binary_search_by_key(&order.number, |order| order.number);
        place.ok().map(|place| after[place])
    };
    let first_gap = before.iter().find(|order| rest(order).is_none());
    let mut numbers: Vec<u32> = take.executions.iter().map(|fill| fill.number).collect();
    numbers.sort_unstable();
    numbers.dedup();
    let orders = before
        .iter()
        .filter(|order| is_reserve(order) && numbers.binary_search(&order.number).is_ok());
    orders
        .map(|order| {
            let fills = take.executions.iter();
            let fills = fills.filter(|fill| fill.number == order.number);
            let lost = |displayed: bool| {
                let of_part = fills
                    .clone()
                    .filter(|fill| (fill.paragraph <= last_displayed(take.algorithm)) == displayed);
                of_part.map(|fill| fill.shares).sum()
            };
            Executed {
                was: *order,
                is: rest(order),
                shown: lost(true),
                hidden: lost(false),
                behind_gap: first_gap.is_some_and(|gap| gap.number < order.number),
                algorithm: take.algorithm,
            }
        })
        .collect()
}

/// The last paragraph of displayed parts.
fn last_displayed(algorithm: u32) -> u8 {
    match algorithm {
        1 => 2,
        _ => 3,
    }
}

/// Notes a take that is refused 8.
pub fn note_refused(coverage: &mut Coverage, entry: &Entry) {
    if entry.executions.len() == 512 * EXECUTION_LENGTH - 1 {
        let mut roomy = entry.clone();
        roomy.executions.push(0);
        let twice = compare::by_model(&roomy).numbers[1] == 512;
        let name = of_call(entry.call.name(), ALL_TWICE_REFUSED);
        coverage.note_if(twice, &name);
    }
}
