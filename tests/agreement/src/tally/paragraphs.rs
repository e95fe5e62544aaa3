//! The paragraphs of the rule, and which of them the executions of a take name.

use super::takes::Take;
use model::book::{Kind, Order, ROUND_LOT};
use model::Execution;
use support::Coverage;

/// The sorts of orders, and in which paragraph of each algorithm they have their
/// turn. A reserve order's parts are of the first four.
const SORTS: [(&str, [u8; 3]); 6] = [
    ("displayed order of a lot or more", [2, 2, 2]),
    ("displayed order below a lot", [2, 3, 3]),
    ("non-displayed order of a lot or more", [3, 4, 4]),
    ("non-displayed order below a lot", [3, 6, 6]),
    ("minimum quantity order of a lot or more", [3, 5, 5]),
    ("minimum quantity order below a lot", [3, 5, 5]),
];

const SETTER_BESIDE_OTHERS: &str = "take: setter and others of its price in paragraph 2";

pub fn expect(coverage: &mut Coverage) {
    for algorithm in 1..=3 {
        for (sort, paragraphs) in SORTS {
            let paragraph = paragraphs[algorithm as usize - 1];
            coverage.expect(executed_in(sort, paragraph, algorithm));
        }
        for (sort, paragraphs) in &SORTS[..4] {
            let paragraph = paragraphs[algorithm as usize - 1];
            coverage.expect(executed_in(&part_as(sort), paragraph, algorithm));
        }
        coverage.expect(every_paragraph(algorithm));
        coverage.expect(lower_behind_higher(algorithm));
    }
    coverage.expect(SETTER_BESIDE_OTHERS);
}

fn executed_in(sort: &str, paragraph: u8, algorithm: u32) -> String {
    format!("take: {sort} in paragraph {paragraph} by algorithm {algorithm}")
}

fn part_as(sort: &str) -> String {
    format!("reserve order's part as a {sort}")
}

fn every_paragraph(algorithm: u32) -> String {
    format!("take: every paragraph of algorithm {algorithm} at one price")
}

fn lower_behind_higher(algorithm: u32) -> String {
    format!(
        "take: lower paragraph behind a higher one, at the next price, by algorithm {algorithm}"
    )
}

/// The paragraph in which a part of an order has its turn.
pub fn paragraph_of(part: &Order, algorithm: u32) -> u8 {
    let (_, paragraphs) = SORTS[sort_of(part)];
    paragraphs[algorithm as usize - 1]
}

/// The place of a part's sort.
fn sort_of(part: &Order) -> usize {
    let first = match part.kind {
        Kind::Displayed => 0,
        Kind::NonDisplayed => 2,
        Kind::MinimumQuantity { .. } => 4,
        Kind::Reserve { .. } => unreachable!("a reserve order's parts are of other kinds"),
    };
    first + usize::from(part.size < ROUND_LOT)
}

/// Notes what the executions of a take name, from a book that has these orders
/// at entry.
pub fn note(coverage: &mut Coverage, take: &Take, before: &[Order]) {
    note_sorts(coverage, take, before);
    let falls = |two: &[Execution]| {
        let [one, next] = [two[0], two[1]];
        one.price != next.price && one.paragraph > next.paragraph
    };
    if take.executions.windows(2).any(falls) {
        coverage.note(lower_behind_higher(take.algorithm));
    }
    let same_price = |one: &Execution, next: &Execution| one.price == next.price;
    for price in take.executions.chunk_by(same_price) {
        note_price(coverage, take.algorithm, price, before);
    }
}

fn note_sorts(coverage: &mut Coverage, take: &Take, before: &[Order]) {
    for execution in &take.executions {
        let order = order_of(execution, before);
        let in_paragraph = |part: &Order| paragraph_of(part, take.algorithm) == execution.paragraph;
        let part = order.parts().into_iter().find(in_paragraph);
        let (sort, _) = SORTS[sort_of(&part.expect("executions are of parts"))];
        let sort = match order.kind {
            Kind::Reserve { .. } => part_as(sort),
            _ => String::from(sort),
        };
        coverage.note(executed_in(&sort, execution.paragraph, take.algorithm));
    }
}

/// Notes the executions of one price.
fn note_price(coverage: &mut Coverage, algorithm: u32, price: &[Execution], before: &[Order]) {
    let mut paragraphs: Vec<u8> = price.iter().map(|execution| execution.paragraph).collect();
    paragraphs.dedup();
    let every: &[u8] = match algorithm {
        1 => &[2, 3],
        _ => &[2, 3, 4, 5, 6],
    };
    if paragraphs == every {
        coverage.note(every_paragraph(algorithm));
    }
    let in_second = price.iter().filter(|execution| execution.paragraph == 2);
    let second: Vec<&Order> = in_second
        .map(|execution| order_of(execution, before))
        .collect();
    let has_setter = algorithm == 3 && second.iter().any(|order| order.setter);
    coverage.note_if(has_setter && second.len() > 1, SETTER_BESIDE_OTHERS);
}

/// The order at entry that an execution names.
fn order_of<'a>(execution: &Execution, before: &'a [Order]) -> &'a Order {
    let place = before.binary_search_by_key(&execution.number, |order| order.number);
    &before[place.expect("executions are of orders in the book")]
}
