//! What an order of one security is entered against in a book of two.

use super::securities::{added, by_turns, checked, marked, of_orders, order_of, reduced, SETTER};
use super::{Market, BUY, PRICE, SELL};
use crate::book::RECORD_LENGTH;

#[test]
fn order_numbers_rise_over_both_securities() {
    let mut market = Market::new(4);
    market.accept(SELL, 3, PRICE, "D 100");
    market.book = added(&market, order_of(1, SELL, 9, PRICE, "D 100")).1.book;
    for security in [0, 1] {
        for (number, refusal) in [(3, 4), (4, 4), (8, 4), (9, 4), (10, 0), (u32::MAX, 0)] {
            let new = order_of(security, SELL, number, PRICE, "D 100");
            assert_eq!(added(&market, new).0, refusal, "{security} {number}");
        }
    }
    let mut falling = market.clone();
    falling.book[RECORD_LENGTH + 4] = 3;
    assert_eq!(checked(&falling, 0), (2, 0));
}

/// However few of the orders are of the new one's security.
#[test]
fn the_securities_share_the_records() {
    for other in [0, 1] {
        let mut market = of_orders(3, &[(other, SELL, PRICE, "D 100"); 3]);
        let new = |security| order_of(security, SELL, 4, PRICE, "D 100");
        assert_eq!(added(&market, new(0)).0, 6);
        assert_eq!(added(&market, new(1)).0, 6);
        market = reduced(&market, other, 2, 100).1;
        let (refusal, after) = added(&market, new(1 - other));
        assert_eq!(refusal, 0);
        assert_eq!(checked(&after, 1 - other), (0, 1));
    }
    let full = of_orders(256, &[(1, SELL, PRICE, "D 100"); 256]);
    assert_eq!(added(&full, order_of(0, SELL, 257, PRICE, "D 1")).0, 6);
    let late = order_of(0, SELL, 256, PRICE, "D 1");
    assert_eq!(added(&full, late).0, 4);
}

/// A buy of one security may stand above a sell of the other.
#[test]
fn an_order_could_trade_within_its_security_alone() {
    for resting in ["D 100", "H 100", "M 100/40", "R 100+50/100"] {
        for (security, refusal) in [(0, 5), (1, 0)] {
            let market = Market::of_sells(resting);
            let new = order_of(security, BUY, 2, PRICE + 10, "D 100");
            assert_eq!(added(&market, new).0, refusal, "{resting}");
        }
    }
    let crossed = of_orders(
        5,
        &[
            (0, SELL, PRICE, "D 100"),
            (1, BUY, PRICE + 10, "D 100"),
            (0, BUY, PRICE - 1, "D 100"),
            (1, SELL, PRICE + 11, "D 100"),
        ],
    );
    for (security, side, price, refusal) in [
        (0, BUY, PRICE, 5),
        (0, SELL, PRICE - 1, 5),
        (1, BUY, PRICE + 11, 5),
        (1, SELL, PRICE + 10, 5),
        (0, SELL, PRICE + 10, 0),
        (1, BUY, PRICE, 0),
    ] {
        let new = order_of(security, side, 5, price, "D 100");
        assert_eq!(added(&crossed, new).0, refusal);
    }
}

/// Neither the other security's better price nor the same one stands in the way.
#[test]
fn each_security_has_its_own_setters() {
    for (side, better) in [(SELL, PRICE - 5), (BUY, PRICE + 5)] {
        let market = of_orders(
            8,
            &[
                (0, side, better, "D 100"),
                (1, side, PRICE, "D 100"),
                (1, side, PRICE, "D 100"),
                (0, side, PRICE, "D 100"),
                (1, side, better, "D 99"),
                (0, side, better, "R 100+50/100"),
                (1, side, better, "D 100"),
            ],
        );
        assert_eq!(marked(&market, 0), [1]);
        assert_eq!(marked(&market, 1), [2]);
    }
}

#[test]
fn a_security_side_and_price_has_one_setter() {
    let market = by_turns("D 100, R 100+50/100");
    assert_eq!(marked(&market, 0), [1]);
    assert_eq!(marked(&market, 1), [2]);
    let with_marks = |marks: [u8; 4]| {
        let mut market = market.clone();
        let records = market.book.chunks_exact_mut(RECORD_LENGTH);
        records
            .zip(marks)
            .for_each(|(record, mark)| record[SETTER] = mark);
        checked(&market, 0).0
    };
    for sound in [[1, 1, 0, 0], [0, 0, 1, 1], [1, 0, 0, 1], [0, 1, 1, 0]] {
        assert_eq!(with_marks(sound), 0, "{sound:?}");
    }
    for unsound in [[1, 0, 1, 0], [0, 1, 0, 1], [1, 1, 1, 0], [1, 1, 1, 1]] {
        assert_eq!(with_marks(unsound), 2, "{unsound:?}");
    }
}
