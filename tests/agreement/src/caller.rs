//! The random making of calls for a book.

use crate::calls::{of_security, Call};
use books::Shape;
use model::book::{Order, Side, HIGHEST_PRICE, LARGEST_SIZE, SECURITIES};
use support::Random;

/// Which calls are made, and how.
pub struct Caller {
    /// How often check, find, add, reduce, take and ladder come.
    pub mix: [usize; 6],
    /// Whether add, reduce and take come in the forms that keep a ladder.
    pub keeps_ladder: bool,
    /// Whether an incoming order has about as many shares as the best price.
    pub for_best: bool,
    /// One in so many calls has a wrong number.
    pub wrong: usize,
    /// How often each algorithm comes.
    pub algorithms: [usize; 3],
}

impl Caller {
    /// A call on a book that has these orders, mostly for the security of one of them.
    pub fn call(&self, random: &mut Random, shape: &Shape, orders: &[Order]) -> Call {
        let security = match orders {
            [] => random.weighted(&shape.securities) as u32,
            _ if random.once_in(10) => random.within(0..=SECURITIES - 1),
            _ => orders[random.below(orders.len())].security,
        };
        self.call_for(random, shape, orders, security)
    }

    /// As above, for this security.
    pub fn call_for(
        &self,
        random: &mut Random,
        shape: &Shape,
        orders: &[Order],
        security: u32,
    ) -> Call {
        let own = of_security(orders, security);
        let either = match random.once_in(8) {
            true => orders,
            false => &own,
        };
        let mut call = match random.weighted(&self.mix) {
            0 => Call::Check([security]),
            1 => Call::Find([security, number_near(random, either)]),
            2 => add(random, shape, orders, security),
            3 => reduce(random, shape, either, security),
            4 => self.take(random, shape, &own, security),
            _ => Call::Ladder([security]),
        };
        if random.once_in(self.wrong) {
            spoil(random, call.numbers());
        }
        match self.keeps_ladder {
            true => call.keeping_ladder(),
            false => call,
        }
    }

    fn take(&self, random: &mut Random, shape: &Shape, orders: &[Order], security: u32) -> Call {
        let (side, limit, size) = match self.for_best && !orders.is_empty() {
            true => for_best_price(random, orders),
            false => for_any_price(random, shape, orders),
        };
        let algorithm = random.weighted(&self.algorithms) as u32 + 1;
        Call::Take([side as u32, limit, size, algorithm, security])
    }
}

/// Side, limit and size of an incoming order.
fn for_any_price(random: &mut Random, shape: &Shape, orders: &[Order]) -> (Side, u32, u32) {
    let rival = (!orders.is_empty()).then(|| orders[random.below(orders.len())]);
    let (side, limit) = side_and_limit(random, shape, rival);
    let within = |order: &Order| order.side != side && side.within(limit, order.price);
    let total = total_size(orders, within).clamp(1, LARGEST_SIZE);
    let size = match random.below(12) {
        0 | 1 => random.within(1..=120),
        2 | 3 => shape.size(random),
        4 => total,
        5 => (total + 1).min(LARGEST_SIZE),
        6 => LARGEST_SIZE,
        7 => random.within(total.div_ceil(2)..=total),
        8 => random.within(1..=total.div_ceil(100)) * 100 % LARGEST_SIZE,
        _ => random.within(1..=total),
    };
    (side, limit, size)
}

/// Side, limit and size of an incoming order for the best price of a side: mostly
/// of exactly the shares there, or else of some fewer or more.
fn for_best_price(random: &mut Random, orders: &[Order]) -> (Side, u32, u32) {
    let resting = orders[random.below(orders.len())].side;
    let prices = orders.iter().filter(|order| order.side == resting);
    let better = |one, other| match resting.is_better(one, other) {
        true => one,
        false => other,
    };
    let best = prices.map(|order| order.price).reduce(better);
    let best = best.expect("an order of that side");
    let total = total_size(orders, |order| order.side == resting && order.price == best);
    let others = total_size(orders, |order| order.side == resting && order.price != best);
    let size = match random.below(8) {
        0 => random.within(1..=total),
        1 => total - random.within(1..=total) / 2,
        2 => total + random.within(1..=400),
        3 => total + random.within(0..=others),
        _ => total,
    };
    let side = opposite(resting);
    let limit = random.one_of(&[best, limit_beyond_all(side)]);
    (side, limit, size.min(LARGEST_SIZE))
}

/// The shares of the orders that fit, hidden ones included.
fn total_size(orders: &[Order], fits: impl Fn(&Order) -> bool) -> u32 {
    let fitting = orders.iter().filter(|order| fits(order));
    fitting.map(Order::shares).sum()
}

/// The number of an order, or often one beside it.
fn number_near(random: &mut Random, orders: &[Order]) -> u32 {
    if orders.is_empty() {
        return random.within(1..=u32::MAX);
    }
    let number = orders[random.below(orders.len())].number;
    match random.below(8) {
        0 => number.saturating_add(1),
        1 => number.saturating_sub(1).max(1),
        _ => number,
    }
}

fn add(random: &mut Random, shape: &Shape, orders: &[Order], security: u32) -> Call {
    let last = orders.last().map_or(0, |order| order.number);
    let mut own = orders.iter().filter(|order| order.security == security);
    let number = match random.below(20) {
        0 => last.max(1),
        1 => number_near(random, orders),
        2 => last.saturating_add(random.within(1..=1_000)),
        3 => own
            .next_back()
            .map_or(1, |order| order.number.saturating_add(1)),
        _ => last.saturating_add(1),
    };
    let mut numbers = shape.order(random, number);
    numbers[8] = security;
    Call::Add(numbers)
}

fn reduce(random: &mut Random, shape: &Shape, orders: &[Order], security: u32) -> Call {
    let number = number_near(random, orders);
    let found = orders.iter().find(|order| order.number == number);
    let all = found.map_or(100, Order::shares);
    let hidden = found.map_or(0, Order::hidden);
    let shares = match random.below(10) {
        0 => all + 1,
        1 => shape.size(random),
        2 | 3 => all,
        4 => hidden + random.within(0..=1),
        5 => random.within(hidden..=all),
        6 => LARGEST_SIZE,
        _ => random.within(1..=all),
    };
    Call::Reduce([security, number, shares.clamp(1, LARGEST_SIZE)])
}

/// The side and limit price of an incoming order that is mostly to meet a given
/// one: its price, one beside it, one of the shape's, or one that lets all trade.
fn side_and_limit(random: &mut Random, shape: &Shape, rival: Option<Order>) -> (Side, u32) {
    let price = rival.map_or_else(|| shape.price(random), |order| order.price);
    let side = match rival {
        Some(order) => opposite(order.side),
        None => random.one_of(&[Side::Buy, Side::Sell]),
    };
    let limit = match random.below(6) {
        0 => price.saturating_sub(1).max(1),
        1 => (price + 1).min(HIGHEST_PRICE),
        2 => shape.price(random),
        3 => limit_beyond_all(side),
        _ => price,
    };
    (side, limit)
}

fn opposite(side: Side) -> Side {
    match side {
        Side::Buy => Side::Sell,
        Side::Sell => Side::Buy,
    }
}

/// The limit with which an order of a side may trade at every price.
fn limit_beyond_all(side: Side) -> u32 {
    match side {
        Side::Buy => HIGHEST_PRICE,
        Side::Sell => 1,
    }
}

/// Makes one of the numbers a wrong one, or at least another.
fn spoil(random: &mut Random, numbers: &mut [u32]) {
    if !numbers.is_empty() {
        let place = random.below(numbers.len());
        let any = random.draw() as u32;
        let wrong = [
            0,
            2,
            3,
            4,
            LARGEST_SIZE + 1,
            HIGHEST_PRICE + 1,
            u32::MAX,
            any,
        ];
        numbers[place] = random.one_of(&wrong);
    }
}
