//! Reserve orders in a book's bytes, in add and reduce, and in the ladder.

use super::desk::{add, reduce, take, Desk};
use super::refusals::{add_refused, reduce_refused};
use super::{described, Market, BUY, PRICE, SECURITY, SELL};
use crate::book::{Order, LARGEST_SIZE, RECORD_LENGTH};
use crate::{check, fast};

/// Asserts that both models find so many orders, or the book unsound.
fn checked(book: &[u8], expected: (u32, u32)) {
    assert_eq!(check(book, SECURITY), expected);
    assert_eq!(fast::check(book, SECURITY), expected);
}

/// The first record's four bytes from a place on become this number.
fn with_number(market: &Market, place: usize, number: u32) -> Vec<u8> {
    let mut book = market.book.clone();
    book[place..place + 4].copy_from_slice(&number.to_le_bytes());
    book
}

#[test]
fn a_reserve_order_has_these_bytes() {
    let mut market = Market::new(1);
    market.accept(SELL, 0x0102_0304, PRICE, "R 258+999999/258");
    let record = [
        0x4F, 0x43, 2, 4, 4, 3, 2, 1, 0xA0, 0x86, 1, 0, 2, 1, 0, 0, 0, 0, 0, 0, 1, 0, 0, 0, 0, 0,
        0, 0, 0, 0, 0, 0, 0x3F, 0x42, 0x0F, 0, 2, 1, 0, 0,
    ];
    assert_eq!(market.book, record);
    assert_eq!(crate::find(&market.book, SECURITY, 0x0102_0304), (0, 0, 40));
}

/// What is shown is tied neither to the refresh size nor to what is hidden.
#[test]
fn a_sound_reserve_order_has_these_numbers() {
    let market = Market::of_sells("R 100+250/100");
    for (place, sound, unsound) in [
        (12, [1, 101, LARGEST_SIZE], [0, 1_000_000, u32::MAX]),
        (32, [0, 1, LARGEST_SIZE], [1_000_000, 1 << 31, u32::MAX]),
        (36, [1, 99, LARGEST_SIZE], [0, 1_000_000, u32::MAX]),
    ] {
        for number in sound {
            checked(&with_number(&market, place, number), (0, 1));
        }
        for number in unsound {
            checked(&with_number(&market, place, number), (2, 0));
        }
    }
    checked(&with_number(&market, 16, 1), (2, 0));
    checked(&with_number(&market, 20, 0), (0, 1));
    checked(&with_number(&market, 20, 2), (2, 0));
    for place in 22..32 {
        let mut book = market.book.clone();
        book[place] = 1;
        checked(&book, (2, 0));
    }
}

/// Also a displayed one, of which nothing is hidden.
#[test]
fn only_a_reserve_order_has_hidden_shares_and_a_refresh_size() {
    for order in ["D 100", "H 100", "M 100/40"] {
        let market = Market::of_sells(order);
        for place in [32, 36] {
            for number in [1, 5, 100, LARGEST_SIZE] {
                checked(&with_number(&market, place, number), (2, 0));
            }
        }
    }
}

#[test]
fn a_price_has_one_setter_among_displayed_and_reserve_orders() {
    for second in ["R 100+0/100", "D 100"] {
        let mut market = Market::of_sells(&format!("R 100+250/100, {second}"));
        market.book[RECORD_LENGTH + 20] = 1;
        checked(&market.book, (2, 0));
        market.book[20] = 0;
        checked(&market.book, (0, 2));
    }
}

#[test]
fn numbers_of_a_new_reserve_order_out_of_range_are_refused_1() {
    let market = Market::of_sells("D 100");
    let sound = described(SELL, 2, PRICE, "R 100+250/100");
    for (place, number) in [
        (4, 0),
        (4, 99),
        (4, 101),
        (4, 1_000_000),
        (5, 1),
        (6, 1_000_000),
        (6, u32::MAX),
        (7, 0),
        (7, 99),
        (7, 101),
        (7, 1_000_000),
    ] {
        let mut wrong = sound;
        wrong[place] = number;
        add_refused(&market, 1, wrong);
    }
    add_refused(&market, 1, described(SELL, 2, PRICE, "R 0+250/0"));
    add_refused(&market, 1, described(SELL, 2, PRICE, "R 1000000+0/1000000"));
    for order in ["R 1+0/1", "R 999999+999999/999999"] {
        market.clone().accept(SELL, 2, PRICE, order);
    }
}

#[test]
fn hidden_shares_and_refresh_sizes_of_other_kinds_are_refused_1() {
    let market = Market::of_sells("D 100");
    for order in ["D 100", "H 100", "M 100/40"] {
        let numbers = described(SELL, 2, PRICE, order);
        for [hidden, refresh] in [[5, 0], [0, 5], [0, 100], [250, 100]] {
            let mut wrong = numbers;
            wrong[6..8].copy_from_slice(&[hidden, refresh]);
            add_refused(&market, 1, wrong);
        }
    }
}

/// Against a minimum, a new reserve order's size is all that it has.
#[test]
fn a_new_reserve_order_could_trade_with_all_its_shares() {
    let mut market = Market::new(3);
    market.accept(SELL, 1, PRICE, "M 600/550");
    for (order, refusal) in [
        ("R 100+500/100", 5),
        ("R 100+450/100", 5),
        ("R 100+449/100", 0),
        ("R 100+400/100", 0),
        ("R 550+0/550", 5),
    ] {
        assert_eq!(market.clone().add(BUY, 2, PRICE, order), refusal, "{order}");
        assert_eq!(market.clone().add(BUY, 2, PRICE - 1, order), 0, "{order}");
    }
}

#[test]
fn a_new_order_could_trade_with_any_reserve_order_within_its_price() {
    for order in ["R 100+250/100", "R 1+0/1"] {
        let market = Market::of_sells(order);
        for new in ["D 1", "H 1", "M 500/500", "R 1+0/1"] {
            add_refused(&market, 5, described(BUY, 2, PRICE, new));
            assert_eq!(market.clone().add(BUY, 2, PRICE - 1, new), 0, "{new}");
        }
    }
}

/// Whether each of these sells, the next a tick better than the one before or at
/// the same price, has a mark.
fn marks(orders: &[(u32, &str)]) -> Vec<bool> {
    let mut market = Market::new(8);
    for (place, &(price, order)) in orders.iter().enumerate() {
        market.accept(SELL, place as u32 + 1, price, order);
    }
    market.orders().iter().map(|order| order.setter).collect()
}

#[test]
fn a_reserve_order_is_marked_by_what_it_shows() {
    assert_eq!(marks(&[(PRICE, "R 99+900/99")]), [false]);
    assert_eq!(marks(&[(PRICE, "R 100+0/100")]), [true]);
    assert_eq!(marks(&[(PRICE, "R 100+900/100")]), [true]);
}

/// One that shows a share stands in the way as well as one that shows a lot.
#[test]
fn a_reserve_order_stands_in_the_way_of_a_mark() {
    for first in ["R 1+0/1", "R 99+900/99", "R 100+900/100"] {
        for second in ["D 100", "R 100+50/100"] {
            let marked = |price| marks(&[(PRICE, first), (price, second)])[1];
            assert!(!marked(PRICE), "{first}, {second}");
            assert!(!marked(PRICE + 1), "{first}, {second}");
            assert!(marked(PRICE - 1), "{first}, {second}");
        }
    }
    assert_eq!(
        marks(&[(PRICE, "D 50"), (PRICE, "R 100+0/100")]),
        [false; 2]
    );
}

/// What rests of an order that is reduced by these numbers in turn, in both
/// models.
fn reduced(order: &str, reductions: &[u32]) -> Option<(u32, u32)> {
    let mut market = Market::of_sells(order);
    let mut beside = market.clone();
    for &shares in reductions {
        assert_eq!(market.reduce(1, shares), 0);
        assert_eq!(fast::reduce(&mut beside.book, SECURITY, 1, shares), 0);
    }
    assert_eq!(market.book, beside.book);
    let orders = market.orders();
    orders.first().map(|order| (order.size, order.hidden()))
}

/// The refresh size and the mark stay, and nothing is refreshed.
#[test]
fn reduce_takes_hidden_shares_first() {
    let order = "R 100+250/100";
    for (reductions, rests) in [
        (&[1][..], (100, 249)),
        (&[250], (100, 0)),
        (&[251], (99, 0)),
        (&[349], (1, 0)),
        (&[200, 100], (50, 0)),
    ] {
        assert_eq!(reduced(order, reductions), Some(rests), "{reductions:?}");
    }
    assert_eq!(reduced(order, &[350]), None);
    let mut market = Market::of_sells(order);
    assert_eq!(market.reduce(1, 260), 0);
    let [before, after] = [Market::of_sells(order), market].map(|market| market.orders()[0]);
    let kind = crate::book::Kind::Reserve {
        hidden: 0,
        refresh: 100,
    };
    let size = 90;
    assert_eq!(
        after,
        Order {
            kind,
            size,
            ..before
        }
    );
}

/// Refusal 7 looks at the sum, which one reduce can't always take.
#[test]
fn reduce_is_refused_against_all_shares() {
    let market = Market::of_sells("R 100+250/100");
    for shares in [351, LARGEST_SIZE] {
        reduce_refused(&market, 7, 1, shares);
    }
    let largest = "R 999999+999999/999999";
    assert_eq!(reduced(largest, &[LARGEST_SIZE]), Some((LARGEST_SIZE, 0)));
    assert_eq!(
        reduced(largest, &[1, LARGEST_SIZE]),
        Some((LARGEST_SIZE - 1, 0))
    );
    assert_eq!(reduced(largest, &[LARGEST_SIZE, LARGEST_SIZE]), None);
    reduce_refused(&Market::of_sells(largest), 1, 1, 1_000_000);
}

/// One order, shown under displayed and hidden under other.
#[test]
fn a_ladder_counts_a_reserve_order_once() {
    let mut desk = Desk::of(Market::new(8));
    let row = |displayed, other, orders| [SELL, PRICE, displayed, other, orders];
    desk.accept(add(SELL, 1, PRICE, "R 100+250/100"), &[row(100, 250, 1)]);
    desk.accept(add(SELL, 2, PRICE, "R 50+0/50"), &[row(150, 250, 2)]);
    desk.accept(add(SELL, 3, PRICE, "M 70/70"), &[row(150, 320, 3)]);
    desk.accept(reduce(1, 260), &[row(140, 70, 3)]);
    desk.accept(reduce(1, 90), &[row(50, 70, 2)]);
}

/// Shares that a refresh shows move from one column to the other.
#[test]
fn a_ladder_is_kept_when_orders_are_refreshed() {
    let mut desk = Desk::with(&[
        (SELL, PRICE, "R 100+250/100"),
        (SELL, PRICE, "D 300"),
        (SELL, PRICE + 1, "R 60+20/60"),
    ]);
    let next = [SELL, PRICE + 1, 60, 20, 1];
    let buy = |size| take(BUY, PRICE + 1, size, 2);
    desk.accept(buy(500), &[[SELL, PRICE, 100, 50, 1], next]);
    desk.accept(buy(100), &[[SELL, PRICE, 50, 0, 1], next]);
    desk.accept(buy(110), &[[SELL, PRICE + 1, 20, 0, 1]]);
    desk.accept(buy(20), &[]);
}

/// The largest shares of both columns, and the count in two bytes.
#[test]
fn a_ladder_counts_256_reserve_orders() {
    let mut market = Market::new(256);
    for number in 1..=256 {
        market.accept(BUY, number, PRICE, "R 999999+999999/999999");
    }
    let all = 256 * LARGEST_SIZE;
    let fewer = [BUY, PRICE, all, all - LARGEST_SIZE, 256];
    let mut desk = Desk::of(market);
    desk.accept(take(SELL, PRICE, LARGEST_SIZE, 1), &[fewer]);
}
