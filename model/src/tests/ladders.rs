//! The bytes that the new call makes of a book, and its refusals.

use super::{Market, BUY, PRICE, SECURITY, SELL};
use crate::book::{LARGEST_SIZE, RECORD_LENGTH};
use crate::LADDER_LENGTH;

/// Lengths that no ladder has: none, a row less and more, a byte less and more.
pub const WRONG_LENGTHS: [usize; 7] = [0, 24, 6_120, 6_143, 6_145, 6_168, 12_288];

/// Side, price, displayed shares, other shares and orders of a row.
pub type Level = [u32; 5];

/// The bytes of a ladder that has these rows and no others.
pub fn ladder_of(levels: &[Level]) -> Vec<u8> {
    let mut bytes = Vec::new();
    for &[side, price, displayed, other, orders] in levels {
        bytes.extend([0x4C, 0x44, side as u8, 0]);
        for number in [price, displayed, other] {
            bytes.extend(number.to_le_bytes());
        }
        bytes.extend([orders as u8, (orders >> 8) as u8, 0, 0, 0, 0, 0, 0]);
    }
    bytes.resize(6_144, 0);
    bytes
}

/// What the new call makes of a book, in a buffer that held other bytes.
pub fn new_ladder(market: &Market) -> Vec<u8> {
    new_ladder_of(market, SECURITY)
}

/// As above, of a security.
pub fn new_ladder_of(market: &Market, security: u32) -> Vec<u8> {
    let mut ladder = vec![0xEE; LADDER_LENGTH];
    assert_eq!(crate::ladder(&market.book, &mut ladder, security), 0);
    ladder
}

/// Asserts that two ladders are the same, row by row.
pub fn assert_same(ladder: &[u8], expected: &[u8]) {
    assert_eq!(ladder.len(), expected.len());
    for (row, expected) in ladder.chunks(24).zip(expected.chunks(24)) {
        assert_eq!(row, expected);
    }
}

/// Asserts that the new call makes these rows of a book.
fn has_rows(market: &Market, levels: &[Level]) {
    assert_same(&new_ladder(market), &ladder_of(levels));
}

/// A full book of so many displayed orders of the largest size at each price,
/// the prices in no order.
pub fn full_book(side: u32, at_a_price: u32) -> Market {
    let mut market = Market::new(256);
    let levels = 256 / at_a_price;
    for place in 0..256 {
        let price = PRICE + place * 161 % levels;
        market.accept(side, place + 1, price, &format!("D {LARGEST_SIZE}"));
    }
    market
}

/// The rows of such a book.
pub fn full_levels(side: u32, at_a_price: u32) -> Vec<Level> {
    let shares = at_a_price * LARGEST_SIZE;
    let level = |cents| [side, PRICE + cents, shares, 0, at_a_price];
    let mut levels: Vec<Level> = (0..256 / at_a_price).map(level).collect();
    if side == BUY {
        levels.reverse();
    }
    levels
}

#[test]
fn a_row_has_these_bytes() {
    let mut market = Market::new(3);
    market.accept(SELL, 1, 2_000_000_000, "D 999999");
    market.accept(SELL, 2, 2_000_000_000, "H 258");
    market.accept(SELL, 3, 2_000_000_000, "M 3/1");
    let row = [
        0x4C, 0x44, 2, 0, 0x00, 0x94, 0x35, 0x77, 0x3F, 0x42, 0x0F, 0, 5, 1, 0, 0, 3, 0, 0, 0, 0,
        0, 0, 0,
    ];
    let ladder = new_ladder(&market);
    assert_eq!(ladder.len(), 6_144);
    assert_eq!(ladder[..24], row);
    assert!(ladder[24..].iter().all(|&byte| byte == 0));
}

#[test]
fn an_empty_book_has_no_rows() {
    for records in [0, 1, 256] {
        has_rows(&Market::new(records), &[]);
    }
}

#[test]
fn sells_rise_and_behind_them_buys_fall() {
    let mut market = Market::new(6);
    for (number, side, price) in [
        (1, BUY, PRICE - 2),
        (2, SELL, PRICE + 2),
        (3, BUY, PRICE - 1),
        (4, SELL, PRICE + 3),
        (5, BUY, PRICE - 3),
        (6, SELL, PRICE + 1),
    ] {
        market.accept(side, number, price, "D 100");
    }
    let levels = [
        [SELL, PRICE + 1, 100, 0, 1],
        [SELL, PRICE + 2, 100, 0, 1],
        [SELL, PRICE + 3, 100, 0, 1],
        [BUY, PRICE - 1, 100, 0, 1],
        [BUY, PRICE - 2, 100, 0, 1],
        [BUY, PRICE - 3, 100, 0, 1],
    ];
    has_rows(&market, &levels);
}

/// Neither is a minimum quantity order displayed, nor is a displayed order below
/// a lot among the others; and an order's minimum isn't what it has.
#[test]
fn only_kind_1_is_displayed() {
    for side in [BUY, SELL] {
        for (orders, displayed, other, count) in [
            ("D 600", 600, 0, 1),
            ("H 500", 0, 500, 1),
            ("M 400/300", 0, 400, 1),
            ("D 40, D 600, M 7/5, H 20, M 1000/1", 640, 1_027, 5),
        ] {
            let level = [side, PRICE, displayed, other, count];
            has_rows(&Market::of_side(side, orders), &[level]);
        }
    }
}

/// Where only a minimum stands between them, both sides have orders there.
#[test]
fn the_sides_of_a_price_have_a_row_each() {
    let mut market = Market::new(3);
    market.accept(SELL, 1, PRICE, "M 500/400");
    market.accept(BUY, 2, PRICE, "D 300");
    market.accept(BUY, 3, PRICE + 1, "H 20");
    let levels = [
        [SELL, PRICE, 0, 500, 1],
        [BUY, PRICE + 1, 0, 20, 1],
        [BUY, PRICE, 300, 0, 1],
    ];
    has_rows(&market, &levels);
}

/// A count in one byte would be 0.
#[test]
fn a_row_counts_256_orders() {
    for side in [BUY, SELL] {
        let market = full_book(side, 256);
        has_rows(&market, &full_levels(side, 256));
        let ladder = new_ladder(&market);
        assert_eq!(ladder[16..18], [0, 1]);
        assert_eq!(ladder[8..12], 255_999_744_u32.to_le_bytes());
    }
}

#[test]
fn a_ladder_has_256_rows() {
    for side in [BUY, SELL] {
        let market = full_book(side, 1);
        has_rows(&market, &full_levels(side, 1));
        let ladder = new_ladder(&market);
        assert_eq!(ladder[255 * 24..255 * 24 + 2], [0x4C, 0x44]);
    }
}

/// The tail is cleared, and the new call takes no offence at another ladder.
#[test]
fn the_new_call_writes_over_whatever_stood_there() {
    let market = Market::of_sells("D 600, H 50");
    let expected = ladder_of(&[[SELL, PRICE, 600, 50, 2]]);
    let any = (0..LADDER_LENGTH).map(|place| (place * 7 + 1) as u8);
    for before in [
        vec![0; LADDER_LENGTH],
        vec![0xFF; LADDER_LENGTH],
        any.collect(),
        new_ladder(&full_book(SELL, 1)),
        new_ladder(&market),
    ] {
        let mut ladder = before;
        assert_eq!(crate::ladder(&market.book, &mut ladder, SECURITY), 0);
        assert_same(&ladder, &expected);
    }
}

#[test]
fn the_new_call_is_refused_in_this_order() {
    let sound = Market::of_sells("D 600").book;
    let mut unsound = sound.clone();
    unsound[RECORD_LENGTH - 1] = 1;
    let refused = |refusal, book: &[u8], length| {
        let mut ladder = vec![0xEE; length];
        assert_eq!(
            crate::ladder(book, &mut ladder, SECURITY),
            refusal,
            "{length}"
        );
        assert!(ladder.iter().all(|&byte| byte == 0xEE));
    };
    for length in WRONG_LENGTHS {
        refused(9, &sound, length);
        refused(9, &[], length);
        refused(2, &unsound, length);
    }
    refused(2, &unsound, LADDER_LENGTH);
    refused(2, &[0], LADDER_LENGTH);
}
