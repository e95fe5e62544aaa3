//! What each paragraph of the rule says of its group, by books that another
//! reading would share otherwise.

use super::{Market, BUY, PRICE, SELL};

const PRO_RATA: [u32; 2] = [2, 3];

/// What each order gets of an incoming one: the same for sells and for buys, and
/// under each of the algorithms.
fn shared(orders: &str, size: u32, algorithms: &[u32]) -> Vec<u32> {
    let first = Market::of_sells(orders).shares_of(BUY, size, algorithms[0]);
    for &algorithm in algorithms {
        for (resting, incoming) in [(SELL, BUY), (BUY, SELL)] {
            let market = Market::of_side(resting, orders);
            let shares = market.shares_of(incoming, size, algorithm);
            assert_eq!(shares, first, "{orders}, algorithm {algorithm}");
        }
    }
    first
}

fn of_kind(letter: &str, sizes: &[u32]) -> String {
    let orders = sizes.iter().map(|size| format!("{letter} {size}"));
    orders.collect::<Vec<String>>().join(", ")
}

/// Paragraph 2 without its setter, and paragraph 4 alike.
fn in_lots(sizes: &[u32], incoming: u32) -> Vec<u32> {
    let displayed = shared(&of_kind("D", sizes), incoming, &[2]);
    let non_displayed = shared(&of_kind("H", sizes), incoming, &PRO_RATA);
    assert_eq!(displayed, non_displayed);
    displayed
}

/// Paragraph 3, and paragraph 6 alike.
fn below_a_lot(sizes: &[u32], incoming: u32) -> Vec<u32> {
    let displayed = shared(&of_kind("D", sizes), incoming, &PRO_RATA);
    let non_displayed = shared(&of_kind("H", sizes), incoming, &PRO_RATA);
    assert_eq!(displayed, non_displayed);
    displayed
}

/// Filled in turn, order 2 would get all 300 as the largest, and order 1 its 100
/// as the first.
#[test]
fn paragraphs_2_and_4_share_in_lots() {
    assert_eq!(in_lots(&[100, 300, 200], 300), [0, 200, 100]);
}

/// After the first step order 1 lacks 100 and order 2 lacks 150.
#[test]
fn the_rest_goes_round_by_entry_size() {
    assert_eq!(in_lots(&[300, 250], 400), [300, 100]);
}

#[test]
fn the_rest_goes_round_by_time_among_equal_sizes() {
    assert_eq!(in_lots(&[200, 300, 300], 50), [0, 50, 0]);
}

/// After the first step order 1 has 100 and lacks 150, and 250 remain.
#[test]
fn the_rest_goes_round_with_a_lot_at_most_for_each() {
    assert_eq!(in_lots(&[250, 150, 150], 350), [200, 100, 50]);
}

/// After the first step each has 100, and 90 remain.
#[test]
fn the_rest_goes_round_with_no_more_than_an_order_lacks() {
    assert_eq!(in_lots(&[150, 150], 290), [150, 140]);
}

#[test]
fn less_than_a_lot_goes_to_the_largest() {
    assert_eq!(in_lots(&[300, 600], 80), [0, 80]);
}

/// Size times shares has 40 bits here.
#[test]
fn the_largest_sizes_are_shared_alike() {
    let shares = in_lots(&[999_999, 999_999, 999_999], 999_999);
    assert_eq!(shares, [333_399, 333_300, 333_300]);
}

#[test]
fn an_order_of_99_shares_is_below_a_lot() {
    assert_eq!(in_lots(&[99, 300], 250), [0, 250]);
    assert_eq!(in_lots(&[100, 300], 250), [50, 200]);
}

#[test]
fn paragraphs_3_and_6_go_largest_first() {
    assert_eq!(below_a_lot(&[40, 60], 50), [0, 50]);
    assert_eq!(below_a_lot(&[30, 60], 50), [0, 50]);
    assert_eq!(below_a_lot(&[40, 60, 50], 100), [0, 60, 40]);
}

#[test]
fn paragraphs_3_and_6_go_by_time_among_equal_sizes() {
    assert_eq!(below_a_lot(&[60, 60], 70), [60, 10]);
    assert_eq!(below_a_lot(&[50, 60, 60], 70), [0, 60, 10]);
}

/// By time, or with the largest minimum first, order 1 would come first in both
/// books; with the largest size first in the one, with the smallest in the other.
#[test]
fn paragraph_5_goes_smallest_minimum_first() {
    assert_eq!(shared("M 500/200, M 400/100", 450, &PRO_RATA), [0, 400]);
    assert_eq!(shared("M 400/200, M 500/100", 450, &PRO_RATA), [0, 450]);
}

#[test]
fn paragraph_5_goes_by_time_among_equal_minimums() {
    assert_eq!(shared("M 300/100, M 400/100", 350, &PRO_RATA), [300, 0]);
    assert_eq!(shared("M 400/100, M 300/100", 350, &PRO_RATA), [350, 0]);
}

/// Neither do those below a lot wait for paragraph 6, nor do the others share in
/// paragraph 4, nor do the two take turns.
#[test]
fn paragraph_5_has_minimum_quantity_orders_of_any_size() {
    assert_eq!(shared("H 60, M 50/20", 55, &PRO_RATA), [5, 50]);
    assert_eq!(shared("M 200/100, H 300", 300, &PRO_RATA), [0, 300]);
    assert_eq!(shared("M 60/30, M 200/20", 210, &PRO_RATA), [0, 200]);
    assert_eq!(shared("M 200/30, M 60/20", 210, &PRO_RATA), [150, 60]);
}

#[test]
fn a_minimum_equal_to_the_shares_left_is_met() {
    for algorithms in [&[1][..], &PRO_RATA] {
        assert_eq!(shared("M 300/200", 199, algorithms), [0]);
        assert_eq!(shared("M 300/200", 200, algorithms), [200]);
    }
}

/// 300 reach order 2's paragraph, and 100 are left when its turn comes.
#[test]
fn a_minimum_is_held_against_what_earlier_turns_left() {
    for algorithms in [&[1][..], &PRO_RATA] {
        assert_eq!(shared("M 200/100, M 200/150", 300, algorithms), [200, 0]);
        assert_eq!(shared("M 200/100, M 200/150", 350, algorithms), [200, 150]);
    }
}

#[test]
fn a_partly_filled_order_keeps_a_minimum_that_fits() {
    let mut market = Market::of_sells("M 500/100");
    market.take(BUY, PRICE, 150, 2);
    assert_eq!(market.rests(1), (350, 100));
    market.take(BUY, PRICE, 300, 2);
    assert_eq!(market.rests(1), (50, 50));
}

/// Each paragraph is filled before the next has its turn.
#[test]
fn paragraphs_have_their_turns_from_2_to_6() {
    let orders = "H 60, M 100/70, H 100, D 60, D 100";
    for (size, shares) in [
        (100, [0, 0, 0, 0, 100]),
        (160, [0, 0, 0, 60, 100]),
        (260, [0, 0, 100, 60, 100]),
        (360, [0, 100, 100, 60, 100]),
        (420, [60, 100, 100, 60, 100]),
    ] {
        assert_eq!(shared(orders, size, &PRO_RATA), shares);
    }
}

#[test]
fn algorithm_1_has_displayed_orders_first() {
    assert_eq!(shared("H 100, D 100", 100, &[1]), [0, 100]);
    assert_eq!(
        shared("H 100, M 50/50, D 70, D 30", 120, &[1]),
        [20, 0, 70, 30]
    );
}

#[test]
fn an_unmet_minimum_does_not_keep_from_the_next_price() {
    for algorithm in 1..=3 {
        let mut market = Market::new(2);
        market.accept(SELL, 1, PRICE, "M 300/300");
        market.accept(SELL, 2, PRICE + 1, "D 100");
        let taken = market.take(BUY, PRICE + 1, 150, algorithm);
        assert_eq!(taken, (vec![(2, PRICE + 1, 100)], 50));
    }
}

#[test]
fn an_incoming_buy_does_not_go_above_its_limit() {
    let mut market = Market::new(2);
    market.accept(SELL, 1, PRICE, "D 100");
    market.accept(SELL, 2, PRICE + 1, "D 100");
    assert_eq!(market.take(BUY, PRICE, 150, 2), (vec![(1, PRICE, 100)], 50));
}

#[test]
fn an_incoming_order_meets_the_other_side_alone() {
    let mut market = Market::new(2);
    market.accept(BUY, 1, PRICE, "D 100");
    market.accept(SELL, 2, PRICE + 1, "D 100");
    let taken = market.clone().take(BUY, PRICE + 1, 150, 2);
    assert_eq!(taken, (vec![(2, PRICE + 1, 100)], 50));
    assert_eq!(
        market.take(SELL, PRICE, 150, 2),
        (vec![(1, PRICE, 100)], 50)
    );
}
