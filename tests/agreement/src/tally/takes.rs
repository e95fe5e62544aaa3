//! What occurred in a take as a whole.

use super::groups::{self, Group};
use crate::calls::Call;
use crate::compare::{Entry, Outcome};
use model::book::{Kind, Order, Side};
use model::{Execution, EXECUTION_LENGTH};
use support::Coverage;

const OCCASIONS: [&str; 17] = [
    "take: a buy executed",
    "take: a sell executed",
    "take: executed at several prices",
    "take: nothing executed",
    "take: all shares taken",
    "take: all shares taken, book of at most 16 orders",
    "take: all shares taken, book of more than 64 orders",
    "take: shares left after executions",
    "take: shares left after executions, book of at most 16 orders",
    "take: shares left after executions, book of more than 64 orders",
    "take: half the book's orders or more filled",
    "take: executions fit exactly",
    "take: best price alone, enough without its minimum quantity orders",
    "take: best price alone, enough only with its minimum quantity orders",
    "take: best price too little, executed at others",
    "take: group filled whole, records not in the order of prices",
    "take: group filled whole, records not in the order of paragraphs",
];

pub fn expect(coverage: &mut Coverage) {
    for algorithm in 1..=3 {
        coverage.expect(executed_by(algorithm));
        coverage.expect(passed_over_by(algorithm));
    }
    for occasion in OCCASIONS {
        coverage.expect(occasion);
    }
}

fn executed_by(algorithm: u32) -> String {
    format!("take: executed by algorithm {algorithm}")
}

fn passed_over_by(algorithm: u32) -> String {
    format!("take: unmet minimum passed over by algorithm {algorithm}, others filled behind it")
}

/// An accepted take.
pub struct Take {
    pub side: Side,
    size: u32,
    pub algorithm: u32,
    pub executions: Vec<Execution>,
    /// The parts of orders that it may trade with, in groups, as their turns come.
    pub groups: Vec<Group>,
    fits_exactly: bool,
    left: usize,
    /// How many orders the book has at entry.
    orders: usize,
}

impl Take {
    /// The take from a book that has these orders at entry.
    pub fn new(entry: &Entry, outcome: &Outcome, before: &[Order]) -> Take {
        let Call::Take([side, limit, size, algorithm, security]) = entry.call.plain() else {
            unreachable!("only takes are noted as such");
        };
        let side = Side::of_number(side).expect("an accepted side");
        let [_, count, left] = outcome.numbers;
        let executions = model::read_executions(&outcome.executions, count as u32);
        let may_trade = |order: &&Order| {
            order.security == security && order.side != side && side.within(limit, order.price)
        };
        let parts = before.iter().filter(may_trade).flat_map(Order::parts);
        Take {
            side,
            size,
            algorithm,
            groups: groups::in_turn(parts.collect(), &executions, size, algorithm),
            executions,
            fits_exactly: count > 0 && entry.executions.len() == count * EXECUTION_LENGTH,
            left,
            orders: before.len(),
        }
    }

    /// Notes the take, after which so many orders rest.
    pub fn note(&self, coverage: &mut Coverage, resting: usize) {
        if self.passes_over_minimum() {
            coverage.note(passed_over_by(self.algorithm));
        }
        let emptied = self.orders > 1 && 2 * resting <= self.orders;
        coverage.note_if(emptied, "take: half the book's orders or more filled");
        coverage.note_if(self.fits_exactly, "take: executions fit exactly");
        let executed = self.groups.iter().any(|group| group.executed() > 0);
        coverage.note_if(!executed, "take: nothing executed");
        if executed {
            coverage.note(executed_by(self.algorithm));
            coverage.note(match self.side {
                Side::Buy => "take: a buy executed",
                Side::Sell => "take: a sell executed",
            });
            self.note_end(coverage);
            self.note_prices(coverage);
            self.note_records(coverage);
        }
    }

    fn note_end(&self, coverage: &mut Coverage) {
        let end = match self.left {
            0 => "take: all shares taken",
            _ => "take: shares left after executions",
        };
        coverage.note(end);
        match self.orders {
            0..=16 => coverage.note(format!("{end}, book of at most 16 orders")),
            17..=64 => {}
            _ => coverage.note(format!("{end}, book of more than 64 orders")),
        }
    }

    /// How many prices had a part, and whether the best of several is enough.
    fn note_prices(&self, coverage: &mut Coverage) {
        let executed = self.groups.iter().filter(|group| group.executed() > 0);
        let mut prices: Vec<u32> = executed.map(|group| group.price).collect();
        prices.dedup();
        coverage.note_if(prices.len() > 1, "take: executed at several prices");
        let best = self.groups[0].price;
        let others = self.groups.iter().any(|group| group.price != best);
        let enough = self.size_without_minimum(best) >= u64::from(self.size);
        let alone = others && prices == [best] && self.left == 0;
        coverage.note_if(
            alone && enough,
            "take: best price alone, enough without its minimum quantity orders",
        );
        coverage.note_if(
            alone && !enough,
            "take: best price alone, enough only with its minimum quantity orders",
        );
        coverage.note_if(
            !enough && prices != [best],
            "take: best price too little, executed at others",
        );
    }

    /// The total size of a price's orders that have no minimum.
    fn size_without_minimum(&self, price: u32) -> u64 {
        let groups = self.groups.iter().filter(|group| group.price == price);
        let orders = groups
            .flat_map(|group| &group.parts)
            .map(|(order, _)| order);
        orders
            .filter(|order| !matches!(order.kind, Kind::MinimumQuantity { .. }))
            .map(|order| u64::from(order.size))
            .sum()
    }

    /// Groups of several orders that are filled whole though records don't stand
    /// as turns come: one of an earlier turn stands behind the group's first.
    fn note_records(&self, coverage: &mut Coverage) {
        for (place, group) in self.groups.iter().enumerate() {
            if group.parts.len() < 2 || !group.is_filled_whole() {
                continue;
            }
            let (first, _) = group.parts[0];
            let stands_behind = |other: &&Group| {
                let last = other.parts.last();
                last.is_some_and(|(order, _)| order.number > first.number)
            };
            let mut earlier = self.groups[..place].iter().filter(stands_behind);
            let of_price = earlier.clone().any(|other| other.price == group.price);
            let of_others = earlier.any(|other| other.price != group.price);
            coverage.note_if(
                of_others,
                "take: group filled whole, records not in the order of prices",
            );
            coverage.note_if(
                of_price,
                "take: group filled whole, records not in the order of paragraphs",
            );
        }
    }

    /// Whether an order got nothing for its minimum, and one behind it at its
    /// price, or at a worse one, got shares.
    fn passes_over_minimum(&self) -> bool {
        let passed = |(order, got): &&(Order, u32)| order.least_fill() > 1 && *got == 0;
        (0..self.groups.len()).any(|place| {
            let group = &self.groups[place];
            let Some((first, _)) = group.parts.iter().find(passed) else {
                return false;
            };
            let by_time = self.algorithm == 1;
            let beside = |(order, got): &(Order, u32)| order.number > first.number && *got > 0;
            let behind = &self.groups[place + 1..];
            by_time && group.parts.iter().any(beside)
                || behind.iter().any(|group| group.executed() > 0)
        })
    }
}
