//! What the price setter gets, by books that another reading would share
//! otherwise.

use super::{Market, BUY, PRICE, SELL};
use crate::book::RECORD_LENGTH;

/// The place of the setter mark in a record.
const MARK: usize = 20;

#[test]
fn incoming_buys_and_sells_meet_a_setter_alike() {
    for (resting, incoming) in [(SELL, BUY), (BUY, SELL)] {
        let market = Market::of_side(resting, "D 1000, D 3000, D 1000");
        assert_eq!(market.shares_of(incoming, 1_000, 3), [400, 500, 100]);
    }
}

/// Two fifths are 32.4 of 81, 33.2 of 83 and 33.6 of 84; a fifth of 84, rounded
/// down and then doubled, would be 32.
#[test]
fn the_guarantee_is_rounded_down_and_once() {
    let market = Market::of_sells("D 1000, D 3000, D 1000");
    assert_eq!(market.shares_of_buy(81, 3), [32, 49, 0]);
    assert_eq!(market.shares_of_buy(83, 3), [33, 50, 0]);
    assert_eq!(market.shares_of_buy(84, 3), [33, 51, 0]);
}

/// The exact share of order 1 is 112.5, below the guarantee of 120; the second
/// step gives it 150. The others don't share the 150 left anew: that would be 50
/// and 100.
#[test]
fn plain_sharing_above_the_guarantee_holds_for_all() {
    let market = Market::of_sells("D 150, D 100, D 150");
    assert_eq!(market.shares_of_buy(300, 3), [150, 0, 150]);
    assert_eq!(market.shares_of_buy(300, 2), [150, 0, 150]);
}

/// Order 1 is below a lot and so unmarked, and the others don't better its price.
#[test]
fn without_a_mark_there_is_no_setter() {
    let market = Market::of_sells("D 50, D 200, D 800");
    assert_eq!(market.shares_of_buy(100, 3), [0, 0, 100]);
}

/// Add marks the first order of a price or none; a sound book may mark another.
#[test]
fn the_setter_is_the_marked_order_and_not_the_first() {
    let mut market = Market::of_sells("D 50, D 800, D 200");
    market.book[2 * RECORD_LENGTH + MARK] = 1;
    assert_eq!(market.shares_of_buy(100, 3), [0, 60, 40]);
}

#[test]
fn a_partly_filled_setter_keeps_its_mark() {
    let mut market = Market::of_sells("D 300, D 900");
    for _ in 0..2 {
        assert_eq!(market.shares_of_buy(100, 3), [40, 60]);
        market.take(BUY, PRICE, 100, 3);
    }
    assert_eq!(market.rests(1), (220, 0));
    market.take(BUY, PRICE, 500, 3);
    assert_eq!(market.rests(1), (20, 0));
    assert!(market.orders()[0].setter);
}

#[test]
fn a_setter_below_a_lot_has_no_guarantee_in_paragraph_3() {
    let mut market = Market::of_sells("D 150, D 80");
    assert_eq!(market.reduce(1, 90), 0);
    assert_eq!(market.shares_of_buy(50, 3), [0, 50]);
}
