//! Readings of the rule that are false, and what holds instead; and points that
//! the cases leave open.

use super::{Market, BUY, PRICE, SELL};

/// Dividing size by the total first would give every order nothing in the first
/// step, and order 1 only a round lot of the 1,200.
#[test]
fn size_is_multiplied_before_it_is_divided() {
    let market = Market::of_sells("D 600, D 400, D 300");
    assert_eq!(market.shares_of_buy(1_200, 2)[0], 600);
}

/// After the first step order 1 lacks 100 and order 2 lacks 150.
#[test]
fn the_second_step_goes_by_entry_size() {
    let market = Market::of_sells("D 300, D 250");
    assert_eq!(market.shares_of_buy(400, 2), [300, 100]);
}

#[test]
fn the_guarantee_is_rounded_down_to_a_share() {
    let market = Market::of_sells("D 1000, D 3000");
    assert_eq!(market.shares_of_buy(81, 3), [32, 49]);
}

#[test]
fn equality_goes_to_the_guarantee() {
    let market = Market::of_sells("D 300, D 250, D 250, D 200");
    assert_ne!(market.shares_of_buy(500, 3), market.shares_of_buy(500, 2));
}

#[test]
fn an_unmet_minimum_does_not_stop_the_others() {
    let market = Market::of_sells("M 300/300, M 100/100, H 30");
    assert_eq!(market.shares_of_buy(120, 1), [0, 100, 20]);
    let market = Market::of_sells("H 30, M 300/300");
    assert_eq!(market.shares_of_buy(120, 2), [30, 0]);
}

#[test]
fn equal_ranks_go_by_time() {
    let market = Market::of_sells("D 50, D 60, D 60");
    assert_eq!(market.shares_of_buy(70, 2), [0, 60, 10]);
    let market = Market::of_sells("M 90/80, M 90/70, M 90/70");
    assert_eq!(market.shares_of_buy(160, 2), [0, 90, 70]);
    let market = Market::of_sells("H 200, H 300, H 300");
    assert_eq!(market.shares_of_buy(50, 2), [0, 50, 0]);
}

#[test]
fn a_minimum_is_compared_with_what_is_left_at_its_turn() {
    let market = Market::of_sells("D 100, M 300/200, H 40");
    assert_eq!(market.shares_of_buy(299, 2), [100, 0, 40]);
    assert_eq!(market.shares_of_buy(300, 2), [100, 200, 0]);
}

#[test]
fn executions_go_by_price_then_paragraph_then_number() {
    let mut market = Market::new(8);
    market.accept(SELL, 1, PRICE + 1, "D 100");
    for (number, sell) in [(2, "H 50"), (3, "M 100/30"), (4, "M 100/20")] {
        market.accept(SELL, number, PRICE, sell);
    }
    for (number, sell) in [(5, "H 100"), (6, "D 70"), (7, "D 80"), (8, "D 100")] {
        market.accept(SELL, number, PRICE, sell);
    }
    let fills = market.take(BUY, PRICE + 1, 10_000, 2).0;
    let numbers: Vec<u32> = fills.iter().map(|fill| fill.0).collect();
    assert_eq!(numbers, [8, 6, 7, 5, 3, 4, 2, 1]);
}

#[test]
fn an_incoming_sell_meets_the_highest_buy_first() {
    let mut market = Market::new(3);
    for (number, price) in [(1, 90_000), (2, 100_000), (3, 95_000)] {
        market.accept(BUY, number, price, "D 100");
    }
    let taken = market.take(SELL, 90_001, 250, 3);
    assert_eq!(taken, (vec![(2, 100_000, 100), (3, 95_000, 100)], 50));
    assert_eq!(market.orders().len(), 1);
}

#[test]
fn each_price_has_its_own_setter() {
    let mut market = Market::new(8);
    market.accept(SELL, 1, PRICE + 1, "D 200");
    market.accept(SELL, 2, PRICE + 1, "D 800");
    market.accept(SELL, 3, PRICE, "D 200");
    market.accept(SELL, 4, PRICE, "D 800");
    let fills = market.take(BUY, PRICE + 1, 1_100, 3).0;
    let at_entry = [(3, PRICE, 200), (4, PRICE, 800)];
    assert_eq!(fills[..2], at_entry);
    assert_eq!(fills[2..], [(1, PRICE + 1, 40), (2, PRICE + 1, 60)]);
}

/// A setter reduced below a round lot keeps its mark, which then means nothing.
#[test]
fn a_small_setter_has_no_guarantee() {
    let mut market = Market::of_sells("D 150, D 800");
    assert_eq!(market.reduce(1, 60), 0);
    assert!(market.orders()[0].setter);
    assert_eq!(market.shares_of_buy(500, 3), [0, 500]);
}
