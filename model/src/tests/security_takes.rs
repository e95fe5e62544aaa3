//! What a take for one security meets in a book of two.

use super::securities::{by_turns, checked, marked, of_orders, orders_of, taken};
use super::{Market, BUY, PRICE, SELL};
use crate::book::Order;

/// The other security's orders of the price have no part in the sharing, whatever
/// their sizes, minimums and marks.
#[test]
fn take_shares_within_the_security() {
    let sells = "D 600, D 400, D 300";
    let alone = Market::of_sells(sells);
    let both = by_turns(sells);
    for algorithm in 1..=3 {
        for size in [80, 500, 1_200, 1_300, 1_400] {
            let (_, fills, left, after) = taken(&alone, [BUY, PRICE, size, algorithm, 0]);
            for security in [0, 1] {
                let named = |number| 2 * number - 1 + security;
                let expected: Vec<(u32, u32)> = fills
                    .iter()
                    .map(|&(number, shares)| (named(number), shares))
                    .collect();
                let incoming = [BUY, PRICE, size, algorithm, security];
                let (refusal, of_both, left_of_both, after_both) = taken(&both, incoming);
                assert_eq!((refusal, of_both, left_of_both), (0, expected, left));
                let sizes = |orders: Vec<Order>| -> Vec<u32> {
                    orders.iter().map(|order| order.size).collect()
                };
                let rests = sizes(orders_of(&after_both, security));
                assert_eq!(rests, sizes(after.orders()));
                let other = 1 - security;
                assert_eq!(orders_of(&after_both, other), orders_of(&both, other));
            }
        }
    }
}

/// Nor does the other security's better price come first.
#[test]
fn take_meets_the_prices_of_its_security() {
    let market = of_orders(
        4,
        &[
            (1, SELL, PRICE - 10, "D 100"),
            (0, SELL, PRICE, "D 100"),
            (1, SELL, PRICE, "M 100/1"),
            (0, SELL, PRICE + 10, "H 100"),
        ],
    );
    let take = |security| {
        let (_, fills, left, _) = taken(&market, [BUY, PRICE + 10, 250, 2, security]);
        (fills, left)
    };
    assert_eq!(take(0), (vec![(2, 100), (4, 100)], 50));
    assert_eq!(take(1), (vec![(1, 100), (3, 100)], 50));
}

/// The mark of the other security's order at the price is no setter's here.
#[test]
fn the_setter_is_one_of_the_security() {
    let market = of_orders(
        6,
        &[
            (0, SELL, PRICE, "D 1000"),
            (1, SELL, PRICE - 1, "D 50"),
            (1, SELL, PRICE, "D 1000"),
            (0, SELL, PRICE, "D 3000"),
            (0, SELL, PRICE, "D 1000"),
        ],
    );
    assert_eq!(marked(&market, 0), [1]);
    assert_eq!(marked(&market, 1), []);
    let (_, fills, _, _) = taken(&market, [BUY, PRICE, 1_000, 3, 0]);
    assert_eq!(fills, [(1, 400), (4, 500), (5, 100)]);
    let (_, fills, _, _) = taken(&market, [BUY, PRICE, 500, 3, 1]);
    assert_eq!(fills, [(2, 50), (3, 450)]);
}

/// Every second record leaves, and those of the other security close up.
#[test]
fn a_take_empties_a_security_between_the_others_records() {
    let mut orders = [(0, SELL, PRICE, "D 150"); 256];
    orders.iter_mut().step_by(2).for_each(|order| order.0 = 1);
    let market = of_orders(256, &orders);
    for security in [0, 1] {
        let incoming = [BUY, PRICE, 128 * 150, 2, security];
        let (refusal, fills, left, after) = taken(&market, incoming);
        assert_eq!((refusal, fills.len(), left), (0, 128, 0));
        assert_eq!(checked(&after, security), (0, 0));
        assert_eq!(checked(&after, 1 - security), (0, 128));
        assert_eq!(after.orders(), orders_of(&market, 1 - security));
    }
}

/// The executions of a take that the other security could have are needed by none.
#[test]
fn refusal_8_is_of_the_securitys_executions() {
    let mut market = by_turns("D 100, D 200");
    for (room, refusal) in [(31, 8), (32, 0)] {
        market.executions = vec![0x77; room];
        for security in [0, 1] {
            let incoming = [BUY, PRICE, 300, 1, security];
            assert_eq!(taken(&market, incoming).0, refusal);
        }
    }
}
