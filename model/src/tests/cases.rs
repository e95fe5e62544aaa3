//! The cases a to o of the scope.

use super::{Market, BUY, PRICE, SELL};

/// Order 1 waits at a worse price; the sizes from order 2 on are at the usual
/// one, the first of them its setter.
fn beside_a_worse_price(sizes: [u32; 3]) -> Market {
    let mut market = Market::new(8);
    market.accept(SELL, 1, PRICE + 100, "D 1000");
    for (place, size) in sizes.iter().enumerate() {
        market.accept(SELL, place as u32 + 2, PRICE, &format!("D {size}"));
    }
    market
}

#[test]
fn case_a_example_1() {
    let market = Market::of_sells("D 600, D 400, D 300");
    assert_eq!(market.shares_of_buy(1_200, 2), [600, 400, 200]);
}

#[test]
fn case_b_example_2() {
    let market = Market::of_sells("D 600, D 400, D 300");
    assert_eq!(market.shares_of_buy(80, 2), [80, 0, 0]);
}

#[test]
fn case_c_example_3() {
    let market = beside_a_worse_price([1_000, 3_000, 1_000]);
    assert_eq!(market.shares_of_buy(1_000, 3), [0, 400, 500, 100]);
}

#[test]
fn case_d_example_4() {
    let market = beside_a_worse_price([3_000, 1_000, 1_000]);
    assert_eq!(market.shares_of_buy(1_000, 3), [0, 600, 200, 200]);
}

#[test]
fn case_e_example_5() {
    let market = beside_a_worse_price([1_000, 3_000, 1_000]);
    assert_eq!(market.shares_of_buy(80, 3), [0, 32, 48, 0]);
}

#[test]
fn case_f() {
    let market = Market::of_sells("D 150, D 150");
    assert_eq!(market.shares_of_buy(290, 2), [150, 140]);
}

#[test]
fn case_g() {
    let market = Market::of_sells("D 300, D 250, D 250, D 200");
    assert_eq!(market.shares_of_buy(500, 3), [200, 200, 100, 0]);
    assert_eq!(market.shares_of_buy(500, 2), [200, 100, 100, 100]);
}

#[test]
fn case_h() {
    let market = Market::of_sells("D 100, D 900");
    assert_eq!(market.shares_of_buy(500, 3), [100, 400]);
}

#[test]
fn case_i() {
    let market = Market::of_sells("D 99, D 100");
    assert_eq!(market.shares_of_buy(100, 2), [0, 100]);
    assert_eq!(market.shares_of_buy(100, 1), [99, 1]);
}

#[test]
fn case_j() {
    let market = Market::of_sells("M 500/400, M 400/300");
    let mut first = market.clone();
    assert_eq!(first.take(BUY, PRICE, 350, 2), (vec![(2, PRICE, 350)], 0));
    assert_eq!(first.rests(1), (500, 400));
    assert_eq!(first.rests(2), (50, 50));
    let mut second = market.clone();
    assert_eq!(second.take(BUY, PRICE, 299, 2), (vec![], 299));
    assert_eq!(second.book, market.book);
}

#[test]
fn case_k() {
    let market = Market::of_sells("H 50, M 200/200");
    assert_eq!(market.shares_of_buy(220, 2), [20, 200]);
    assert_eq!(market.clone().take(BUY, PRICE, 220, 2).1, 0);
    assert_eq!(market.shares_of_buy(220, 1), [50, 0]);
    assert_eq!(market.clone().take(BUY, PRICE, 220, 1).1, 170);
}

#[test]
fn case_l() {
    let market = Market::of_sells("M 300/300, H 100");
    assert_eq!(market.shares_of_buy(150, 1), [0, 100]);
    assert_eq!(market.clone().take(BUY, PRICE, 150, 1).1, 50);
}

#[test]
fn case_m() {
    let mut market = Market::new(1);
    market.accept(BUY, 1, PRICE, "D 100");
    let taken = market.take(SELL, PRICE - 10_000, 100, 1);
    assert_eq!(taken, (vec![(1, PRICE, 100)], 0));
    assert!(market.book.iter().all(|&byte| byte == 0));
}

#[test]
fn case_n() {
    let mut market = Market::new(0);
    assert_eq!(market.take(BUY, PRICE, 10, 1), (vec![], 10));
    assert_eq!(market.add(BUY, 1, PRICE, "D 100"), 6);
}

#[test]
fn case_o() {
    let market = Market::of_sells("D 300, D 200");
    assert_eq!(market.shares_of_buy(80, 3), [80, 0]);
}
