//! The books that are timed. All orders are sells, numbered from 1, but in the
//! books with a ladder, which have buys too; and all are of one security, but in the
//! book of two.

use crate::calls::SECURITY;
use model::book::{self, Kind, Order, Side, RECORD_LENGTH};

/// The best price. Others are a cent each above it.
pub const BEST_PRICE: u32 = 100_000;
const CENT: u32 = 100;

/// A price so many cents above the best.
pub fn price(cents: u32) -> u32 {
    BEST_PRICE + cents * CENT
}

/// Sizes of one to eleven round lots and odd shares, in no order.
pub fn mixed_size(place: u32) -> u32 {
    100 + place * 7_919 % 1_009
}

/// A place of its own for each below the count, in no order. The count is a
/// power of 2.
pub fn scattered(place: u32, count: u32) -> u32 {
    place * (count * 5 / 8 + 1) % count
}

fn sell(place: u32, kind: Kind, price: u32, size: u32) -> Order {
    Order {
        side: Side::Sell,
        kind,
        number: place + 1,
        price,
        size,
        setter: false,
        security: SECURITY,
    }
}

/// Displayed sells of mixed sizes, at one price or each at a price of its own.
pub fn displayed(count: u32, many_prices: bool) -> Vec<Order> {
    let cents = |place| match many_prices {
        true => scattered(place, count),
        false => 0,
    };
    (0..count)
        .map(|place| {
            sell(
                place,
                Kind::Displayed,
                price(cents(place)),
                mixed_size(place),
            )
        })
        .collect()
}

/// Reserve sells at one price, which show and hide mixed sizes.
pub fn reserves(count: u32) -> Vec<Order> {
    (0..count)
        .map(|place| {
            let refresh = mixed_size(place);
            let hidden = mixed_size(count - place);
            let kind = Kind::Reserve { hidden, refresh };
            sell(place, kind, BEST_PRICE, refresh)
        })
        .collect()
}

/// Displayed sells of mixed sizes at one price, of two securities by turns.
pub fn two_securities(count: u32) -> Vec<Order> {
    let mut orders = displayed(count, false);
    for order in orders.iter_mut().skip(1).step_by(2) {
        order.security = 1 - SECURITY;
    }
    orders
}

/// Displayed sells of mixed sizes, those at some places a cent better priced than
/// the others.
pub fn better_at(count: u32, is_better: impl Fn(u32) -> bool) -> Vec<Order> {
    let mut orders = displayed(count, false);
    for (order, place) in orders.iter_mut().zip(0..) {
        order.price = price(u32::from(!is_better(place)));
    }
    orders
}

/// Displayed sells, each better priced than those before it.
pub fn improving(count: u32) -> Vec<Order> {
    (0..count)
        .map(|place| {
            sell(
                place,
                Kind::Displayed,
                price(count - 1 - place),
                mixed_size(place),
            )
        })
        .collect()
}

/// Minimum quantity sells of 1,000 shares, at one price or each at its own. The
/// minimums are 200 to 999.
pub fn minimums(count: u32, many_prices: bool) -> Vec<Order> {
    displayed(count, many_prices)
        .into_iter()
        .map(|order| {
            let minimum = 200 + order.number * 7_919 % 800;
            sell(
                order.number - 1,
                Kind::MinimumQuantity { minimum },
                order.price,
                1_000,
            )
        })
        .collect()
}

/// At each price a minimum quantity sell of 10 shares, and one that could trade
/// all that reaches the price, and no less: the first is filled, and the second
/// is then passed over.
pub fn half_met(prices: u32, incoming: u32) -> Vec<Order> {
    let met = Kind::MinimumQuantity { minimum: 1 };
    (0..prices)
        .flat_map(|level| {
            let minimum = incoming - 10 * level;
            let passed_over = Kind::MinimumQuantity { minimum };
            [
                sell(2 * level, met, price(level), 10),
                sell(2 * level + 1, passed_over, price(level), incoming),
            ]
        })
        .collect()
}

/// At each price an order in every paragraph of the pro rata algorithm.
pub fn every_paragraph(prices: u32) -> Vec<Order> {
    let minimum = Kind::MinimumQuantity { minimum: 50 };
    let five = [
        (Kind::NonDisplayed, 60),
        (minimum, 300),
        (Kind::NonDisplayed, 500),
        (Kind::Displayed, 70),
        (Kind::Displayed, 400),
    ];
    (0..5 * prices)
        .map(|place| {
            let (kind, size) = five[(place / prices) as usize];
            sell(place, kind, price(place * 31 % prices), size)
        })
        .collect()
}

/// Sells and buys by turns, of every kind, each side at so many prices, which come
/// in no order. The buys are below the sells.
pub fn both_sides(count: u32, prices: u32) -> Vec<Order> {
    let kinds = [
        Kind::Displayed,
        Kind::NonDisplayed,
        Kind::MinimumQuantity { minimum: 50 },
    ];
    (0..count)
        .map(|place| {
            let cents = place / 2 * 53 % prices;
            let kind = kinds[place as usize % kinds.len()];
            let order = sell(place, kind, price(cents), mixed_size(place));
            match place % 2 {
                0 => order,
                _ => Order {
                    side: Side::Buy,
                    price: BEST_PRICE - CENT - cents * CENT,
                    ..order
                },
            }
        })
        .collect()
}

/// The bytes of a book with room for so many orders, entered one by one.
pub fn entered(orders: &[Order], records: u32) -> Vec<u8> {
    let mut book = vec![0; records as usize * RECORD_LENGTH];
    for order in orders {
        let refusal = model::add(&mut book, numbers(order));
        assert_eq!(refusal, 0, "the orders of a case can all be entered");
    }
    book
}

/// The numbers of an order, as add takes them.
pub fn numbers(order: &Order) -> [u32; 9] {
    let (kind, minimum, hidden, refresh) = match order.kind {
        Kind::Displayed => (1, 0, 0, 0),
        Kind::NonDisplayed => (2, 0, 0, 0),
        Kind::MinimumQuantity { minimum } => (3, minimum, 0, 0),
        Kind::Reserve { hidden, refresh } => (4, 0, hidden, refresh),
    };
    let Order {
        number,
        price,
        size,
        security,
        ..
    } = *order;
    let side = order.side as u32;
    [
        side, kind, number, price, size, minimum, hidden, refresh, security,
    ]
}

/// The bytes of a full book of orders that all have the setter mark.
pub fn marked(orders: &[Order]) -> Vec<u8> {
    let marked = orders.iter().map(|order| Order {
        setter: true,
        ..*order
    });
    let mut book = vec![0; orders.len() * RECORD_LENGTH];
    book::write(&mut book, &marked.collect::<Vec<Order>>());
    book
}

/// The shares of the orders, hidden ones included.
pub fn total(orders: &[Order]) -> u32 {
    orders.iter().map(Order::shares).sum()
}
