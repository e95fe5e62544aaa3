//! Take: an incoming order executes against the other side of the book.

use crate::book::{self, Kind, Order, Side, ROUND_LOT};
use crate::sharing::{self, Allotment};
use crate::Refusal;

pub const EXECUTION_LENGTH: usize = 16;

const EXECUTION_MARK: [u8; 2] = [0x45, 0x58];

#[derive(Clone, Copy, PartialEq, Eq)]
enum Algorithm {
    PriceTime,
    ProRata,
    ProRataWithSetter,
}

struct Incoming {
    side: Side,
    limit: u32,
    size: u32,
    algorithm: Algorithm,
    security: u32,
}

/// What one part of a resting order traded, at the order's price.
#[derive(Clone, Copy, Debug, PartialEq, Eq)]
pub struct Execution {
    /// The paragraph of the rule whose group gave the shares.
    pub paragraph: u8,
    pub number: u32,
    pub price: u32,
    pub shares: u32,
}

/// Takes side, limit, size, algorithm and security. Gives the refusal number, the
/// count of executions and the shares left.
pub fn take(book: &mut [u8], executions: &mut [u8], incoming: [u32; 5]) -> (u32, u32, u32) {
    let [_, _, size, ..] = incoming;
    match decide(book, executions.len(), Incoming::of_numbers(incoming)) {
        Ok((orders, fills)) => {
            book::write(book, &orders);
            write_executions(executions, &fills);
            let executed: u32 = fills.iter().map(|fill| fill.shares).sum();
            (0, fills.len() as u32, size - executed)
        }
        Err(refusal) => (refusal as u32, 0, 0),
    }
}

/// The executions in the first `count` entries of a buffer.
pub fn read_executions(executions: &[u8], count: u32) -> Vec<Execution> {
    executions
        .chunks_exact(EXECUTION_LENGTH)
        .take(count as usize)
        .map(|bytes| Execution {
            paragraph: bytes[2],
            number: book::number_at(bytes, 4),
            price: book::number_at(bytes, 8),
            shares: book::number_at(bytes, 12),
        })
        .collect()
}

/// The orders that rest after the take, and its executions.
fn decide(
    book: &[u8],
    room: usize,
    incoming: Option<Incoming>,
) -> Result<(Vec<Order>, Vec<Execution>), Refusal> {
    let incoming = incoming.ok_or(Refusal::OutOfRange)?;
    let orders = book::read(book)?;
    let fills = fills(&orders, &incoming);
    if fills.len() * EXECUTION_LENGTH > room {
        return Err(Refusal::ExecutionsDoNotFit);
    }
    Ok((resting(&orders, &fills, incoming.algorithm), fills))
}

impl Incoming {
    fn of_numbers(numbers: [u32; 5]) -> Option<Incoming> {
        let [side, limit, size, algorithm, security] = numbers;
        let algorithm = match algorithm {
            1 => Algorithm::PriceTime,
            2 => Algorithm::ProRata,
            3 => Algorithm::ProRataWithSetter,
            _ => return None,
        };
        let side = Side::of_number(side)?;
        let in_range = book::price_in_range(limit)
            && book::size_in_range(size)
            && book::security_in_range(security);
        in_range.then_some(Incoming {
            side,
            limit,
            size,
            algorithm,
            security,
        })
    }

    fn may_trade_with(&self, order: &Order) -> bool {
        order.security == self.security
            && order.side != self.side
            && self.side.within(self.limit, order.price)
    }
}

impl Algorithm {
    /// The paragraph of the rule in which a part of an order has its turn.
    fn paragraph(self, part: &Order) -> u8 {
        let round_lot = part.size >= ROUND_LOT;
        match (self, part.kind) {
            (_, Kind::Reserve { .. }) => unreachable!("a reserve order's parts are of other kinds"),
            (Algorithm::PriceTime, Kind::Displayed) => 2,
            (Algorithm::PriceTime, _) => 3,
            (_, Kind::Displayed) if round_lot => 2,
            (_, Kind::Displayed) => 3,
            (_, Kind::NonDisplayed) if round_lot => 4,
            (_, Kind::MinimumQuantity { .. }) => 5,
            (_, Kind::NonDisplayed) => 6,
        }
    }

    /// How the group of a paragraph shares.
    fn allot(self, paragraph: u8, group: &[Order], shares: u32) -> Allotment {
        match (self, paragraph) {
            (Algorithm::PriceTime, _) => sharing::by_time(group, shares),
            (Algorithm::ProRataWithSetter, 2) => sharing::lot_sharing_with_setter(group, shares),
            (_, 2 | 4) => sharing::lot_sharing(group, shares),
            (_, 5) => sharing::smallest_minimum_first(group, shares),
            _ => sharing::largest_first(group, shares),
        }
    }
}

/// What executes, by price, then paragraph, then rising order number.
fn fills(orders: &[Order], incoming: &Incoming) -> Vec<Execution> {
    let opposite = orders.iter().filter(|order| incoming.may_trade_with(order));
    let parts: Vec<Order> = opposite.flat_map(Order::parts).collect();
    let mut fills = Vec::new();
    let mut left = incoming.size;
    for price in price_levels(&parts, incoming.side) {
        for paragraph in 2..=6 {
            let group: Vec<Order> = parts
                .iter()
                .filter(|part| part.price == price)
                .filter(|part| incoming.algorithm.paragraph(part) == paragraph)
                .copied()
                .collect();
            let allotment = incoming.algorithm.allot(paragraph, &group, left);
            for (part, shares) in group.iter().zip(allotment) {
                left -= shares;
                if shares > 0 {
                    fills.push(Execution {
                        paragraph,
                        number: part.number,
                        price,
                        shares,
                    });
                }
            }
        }
    }
    fills
}

/// The prices of these parts, the best first for an incoming order of a side.
fn price_levels(parts: &[Order], side: Side) -> Vec<u32> {
    let mut prices: Vec<u32> = parts.iter().map(|part| part.price).collect();
    prices.sort_unstable();
    prices.dedup();
    if side == Side::Sell {
        prices.reverse();
    }
    prices
}

/// The orders that rest after the executions. What a part lost is the execution
/// with its order's number and its own paragraph.
fn resting(orders: &[Order], fills: &[Execution], algorithm: Algorithm) -> Vec<Order> {
    let lost = |part: &Order| {
        let paragraph = algorithm.paragraph(part);
        let mut of_order = fills.iter().filter(|fill| fill.number == part.number);
        let fill = of_order.find(|fill| fill.paragraph == paragraph);
        fill.map_or(0, |fill| fill.shares)
    };
    orders
        .iter()
        .filter_map(|order| {
            let parts = order.parts();
            order.executed(lost(&parts[0]), parts.get(1).map_or(0, lost))
        })
        .collect()
}

/// Writes the executions from the buffer's start; what lies behind them stays.
fn write_executions(executions: &mut [u8], fills: &[Execution]) {
    for (bytes, fill) in executions.chunks_exact_mut(EXECUTION_LENGTH).zip(fills) {
        bytes[0..2].copy_from_slice(&EXECUTION_MARK);
        bytes[2] = fill.paragraph;
        bytes[3] = 0;
        bytes[4..8].copy_from_slice(&fill.number.to_le_bytes());
        bytes[8..12].copy_from_slice(&fill.price.to_le_bytes());
        bytes[12..16].copy_from_slice(&fill.shares.to_le_bytes());
    }
}
