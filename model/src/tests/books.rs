//! What makes a book sound, and what the calls leave in its bytes.

use super::{Market, BUY, PRICE, SECURITY, SELL};
use crate::book::RECORD_LENGTH;
use crate::check;

/// A book of two displayed buys and a minimum quantity sell, and a free record.
fn three_orders() -> Market {
    let mut market = Market::new(4);
    market.accept(BUY, 1, PRICE, "D 100");
    market.accept(BUY, 5, PRICE, "D 100");
    market.accept(SELL, 9, PRICE + 1, "M 100/40");
    market
}

fn with_byte(place: usize, byte: u8) -> Vec<u8> {
    let mut book = three_orders().book;
    book[place] = byte;
    book
}

#[test]
fn an_order_has_these_bytes() {
    let mut market = Market::new(2);
    market.accept(SELL, 0x0102_0304, 2_000_000_000, "D 999999");
    let record = [
        0x4F, 0x43, 2, 1, 4, 3, 2, 1, 0x00, 0x94, 0x35, 0x77, 0x3F, 0x42, 0x0F, 0, 0, 0, 0, 0, 1,
    ];
    assert_eq!(market.book[..21], record);
    assert!(market.book[21..].iter().all(|&byte| byte == 0));
}

#[test]
fn a_sound_book_has_a_sound_length() {
    for records in [0, 1, 255, 256] {
        assert_eq!(check(&vec![0; records * RECORD_LENGTH], SECURITY), (0, 0));
    }
    for length in [1, 32, 39, 41, 64, 8_192, 10_239, 10_241, 10_280, 20_480] {
        assert_eq!(check(&vec![0; length], SECURITY), (2, 0));
    }
}

#[test]
fn each_byte_of_a_record_counts() {
    assert_eq!(check(&three_orders().book, SECURITY), (0, 3));
    for (place, byte) in [
        (0, 0x4E),
        (1, 0),
        (1, 0x42),
        (2, 0),
        (2, 3),
        (3, 0),
        (3, 4),
        (3, 5),
        (4, 0),
    ] {
        assert_eq!(
            check(&with_byte(place, byte), SECURITY),
            (2, 0),
            "byte {place}"
        );
    }
    for place in [16, 19, 22, 31, 32, 35, 36, 39, 120, 159] {
        assert_eq!(
            check(&with_byte(place, 1), SECURITY),
            (2, 0),
            "byte {place}"
        );
    }
    for (place, byte) in [
        (11, 0xFF),
        (14, 0xFF),
        (20, 2),
        (21, 2),
        (80 + 20, 1),
        (80 + 16, 0),
        (80 + 16, 101),
    ] {
        assert_eq!(
            check(&with_byte(place, byte), SECURITY),
            (2, 0),
            "byte {place}"
        );
    }
}

#[test]
fn numbers_rise_without_gaps_between_orders() {
    assert_eq!(check(&with_byte(40 + 4, 1), SECURITY), (2, 0));
    assert_eq!(check(&with_byte(80 + 4, 4), SECURITY), (2, 0));
    let mut book = three_orders().book;
    book[40..80].fill(0);
    assert_eq!(check(&book, SECURITY), (2, 0));
}

#[test]
fn a_price_has_one_setter_a_side() {
    assert_eq!(check(&with_byte(40 + 20, 1), SECURITY), (2, 0));
    let mut other_price = with_byte(40 + 20, 1);
    other_price[40 + 8] += 1;
    assert_eq!(check(&other_price, SECURITY), (0, 3));
    let mut other_side = with_byte(40 + 20, 1);
    other_side[40 + 2] = 2;
    assert_eq!(check(&other_side, SECURITY), (0, 3));
}

#[test]
fn the_setter_is_displayed_round_lot_and_strictly_best() {
    let mut market = Market::new(8);
    for (number, price, buy) in [
        (1, PRICE + 50, "H 500"),
        (2, PRICE, "D 99"),
        (3, PRICE, "D 100"),
        (4, PRICE + 1, "D 100"),
        (5, PRICE + 1, "D 100"),
        (6, PRICE + 2, "H 100"),
        (7, PRICE + 2, "D 100"),
    ] {
        market.accept(BUY, number, price, buy);
    }
    market.accept(SELL, 8, PRICE + 100, "D 100");
    let marks: Vec<bool> = market.orders().iter().map(|order| order.setter).collect();
    assert_eq!(marks, [false, false, false, true, false, false, true, true]);
}

#[test]
fn reduce_lowers_the_minimum_and_frees_the_record() {
    let mut market = three_orders();
    assert_eq!(market.reduce(9, 50), 0);
    assert_eq!(market.rests(9), (50, 40));
    assert_eq!(market.reduce(9, 20), 0);
    assert_eq!(market.rests(9), (30, 30));
    let last = market.book[80..120].to_vec();
    assert_eq!(market.reduce(1, 100), 0);
    assert_eq!(market.book[40..80], last);
    assert!(market.book[80..].iter().all(|&byte| byte == 0));
}

#[test]
fn find_answers_with_the_orders_own_bytes() {
    let market = three_orders();
    assert_eq!(crate::find(&market.book, SECURITY, 1), (0, 0, 40));
    assert_eq!(crate::find(&market.book, SECURITY, 9), (0, 80, 40));
}

/// Soundness doesn't forbid it, though add can't make such a book.
#[test]
fn sides_may_overlap() {
    let mut market = three_orders();
    market.book[80 + 8] -= 10;
    assert_eq!(check(&market.book, SECURITY), (0, 3));
    assert_eq!(market.take(SELL, 1, 150, 1).1, 0);
}
