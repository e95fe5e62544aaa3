//! Old books into the new form and back.

use super::securities::of_orders;
use super::{Market, BUY, PRICE, SECURITY, SELL};
use crate::{check, to_new, to_old};

/// One of the two calls.
pub type Turn = fn(&[u8], &mut [u8]) -> u32;

/// The two calls, each with the record lengths of its source and its target.
pub const TURNS: [(Turn, usize, usize); 2] = [(to_new, 32, 40), (to_old, 40, 32)];

/// The same book in the old form, with so many records, taken byte by byte.
pub fn in_old_form(book: &[u8], records: usize) -> Vec<u8> {
    let mut old = Vec::new();
    for record in book.chunks_exact(40).filter(|record| record[0] != 0) {
        old.extend([0x4F, 0x42]);
        old.extend(&record[2..32]);
    }
    assert!(old.len() <= 32 * records);
    old.resize(32 * records, 0);
    old
}

/// An order of each old kind on both sides, two of them marked, in 8 records.
pub fn all_kinds() -> Market {
    let mut market = Market::new(8);
    market.accept(SELL, 3, PRICE + 2, "D 300");
    market.accept(SELL, 4, PRICE + 2, "H 999999");
    market.accept(SELL, 9, PRICE + 1, "M 500/400");
    market.accept(BUY, 10, PRICE, "M 70/70");
    market.accept(BUY, 0x0102_0304, PRICE, "D 100");
    market.accept(BUY, u32::MAX, PRICE, "D 99");
    market
}

const ORDERS: usize = 6;

/// The source of a call whose source has records of this length.
fn source(market: &Market, record_length: usize) -> Vec<u8> {
    match record_length {
        32 => in_old_form(&market.book, market.book.len() / 40),
        _ => market.book.clone(),
    }
}

/// What the call makes of a target of this length.
pub fn turned(turn: Turn, source: &[u8], length: usize) -> Vec<u8> {
    let mut target = vec![0xEE; length];
    assert_eq!(turn(source, &mut target), 0, "{length} bytes");
    target
}

/// Asserts a refusal that leaves the target as it was.
pub fn refused(turn: Turn, refusal: u32, source: &[u8], length: usize) {
    let mut target = vec![0xEE; length];
    assert_eq!(turn(source, &mut target), refusal, "{length} bytes");
    assert_eq!(target, vec![0xEE; length]);
}

#[test]
fn an_order_has_these_bytes_in_both_forms() {
    let old = [
        0x4F, 0x42, 2, 3, 4, 3, 2, 1, 0x00, 0x94, 0x35, 0x77, 0x3F, 0x42, 0x0F, 0, 2, 1, 0, 0, 0,
        0, 0, 0, 0, 0, 0, 0, 0, 0, 0, 0,
    ];
    let mut new = [0; 40];
    new[..32].copy_from_slice(&old);
    new[1] = 0x43;
    assert_eq!(turned(to_new, &old, 40), new);
    assert_eq!(turned(to_old, &new, 32), old);
    assert_eq!(check(&new, SECURITY), (0, 1));
}

/// Whatever stood in the target: every byte behind the orders becomes zero.
#[test]
fn all_kinds_and_marks_go_both_ways() {
    let market = all_kinds();
    let marks = market.orders().iter().filter(|order| order.setter).count();
    assert_eq!((market.orders().len(), marks), (ORDERS, 2));
    for records in [ORDERS, 7, 8, 9, 255, 256] {
        let mut new = market.book.clone();
        new.truncate(40 * ORDERS);
        new.resize(40 * records, 0);
        let old = in_old_form(&market.book, records);
        assert_eq!(turned(to_new, &source(&market, 32), 40 * records), new);
        assert_eq!(turned(to_old, &source(&market, 40), 32 * records), old);
        assert_eq!(check(&new, SECURITY), (0, ORDERS as u32));
    }
}

#[test]
fn there_and_back_the_book_is_the_same() {
    let market = all_kinds();
    for ([forth, back], [from, to]) in [([to_new, to_old], [32, 40]), ([to_old, to_new], [40, 32])]
    {
        let source = source(&market, from);
        for records in [ORDERS, 8, 256] {
            let between = turned(forth, &source, to * records);
            assert_eq!(turned(back, &between, source.len()), source);
            let shorter = turned(back, &between, from * ORDERS);
            assert_eq!(shorter, source[..from * ORDERS]);
        }
    }
}

#[test]
fn a_target_with_fewer_records_than_orders_is_refused_12() {
    for (turn, from, to) in TURNS {
        let source = source(&all_kinds(), from);
        turned(turn, &source, to * ORDERS);
        for records in 0..ORDERS {
            refused(turn, 12, &source, to * records);
        }
    }
}

/// Nor does the length that the orders have in the source fit.
#[test]
fn a_target_of_no_whole_number_of_records_is_refused_12() {
    for (turn, from, to) in TURNS {
        for source in [source(&all_kinds(), from), vec![0; from], Vec::new()] {
            for length in [1, 31, 33, 39, 41, 63, 65, 79, 81, from * ORDERS] {
                refused(turn, 12, &source, length);
            }
            for length in [to * ORDERS - 1, to * ORDERS + 1, to * 256 - 1] {
                refused(turn, 12, &source, length);
            }
        }
    }
}

#[test]
fn a_target_of_more_than_256_records_is_refused_12() {
    let mut full = Market::new(256);
    for number in 1..=256 {
        full.accept(BUY, number, PRICE, "H 1");
    }
    for (turn, from, to) in TURNS {
        for market in [&full, &all_kinds(), &Market::new(256), &Market::new(0)] {
            let source = source(market, from);
            turned(turn, &source, to * 256);
            for length in [to * 256 + 1, to * 257, to * 258, to * 512, to * 1_000] {
                refused(turn, 12, &source, length);
            }
        }
        refused(turn, 12, &source(&full, from), to * 255);
    }
}

#[test]
fn an_empty_book_may_have_any_capacity() {
    for (turn, from, to) in TURNS {
        for records in [0, 1, 8, 256] {
            for room in [0, 1, 7, 256] {
                let made = turned(turn, &vec![0; from * records], to * room);
                assert_eq!(made, vec![0; to * room]);
            }
        }
    }
}

/// Whatever else the book has, and whatever the target.
#[test]
fn an_order_that_the_old_form_cannot_tell_is_refused_11() {
    let usual = (0, SELL, PRICE, "D 100");
    for untold in [
        (0, SELL, PRICE, "R 100+250/100"),
        (0, SELL, PRICE, "R 100+0/100"),
        (0, SELL, PRICE, "R 1+0/1"),
        (1, SELL, PRICE, "D 100"),
        (1, BUY, PRICE, "H 1"),
        (1, SELL, 1, "M 5/5"),
        (1, SELL, PRICE, "R 100+0/100"),
    ] {
        for place in 0..3 {
            let mut orders = [usual; 3];
            orders[place] = untold;
            let market = of_orders(4, &orders);
            for length in [96, 128, 8_192, 0, 33, 39, 41, 64, 97, 8_224] {
                refused(to_old, 11, &market.book, length);
            }
        }
    }
}

#[test]
fn an_unsound_source_is_refused_2_before_all() {
    let mut market = Market::of_sells("D 100, R 100+250/100");
    market.book[40 + 22] = 1;
    for length in [64, 256, 0, 33, 8_224] {
        refused(to_old, 2, &market.book, length);
    }
    for (turn, from, to) in TURNS {
        let mut source = source(&all_kinds(), from);
        source[31] = 1;
        for length in [to * 8, to * ORDERS - 1, to * 5, to * 257, 0] {
            refused(turn, 2, &source, length);
        }
    }
}

#[test]
fn a_source_in_the_other_form_is_refused_2() {
    let market = Market::of_sells("D 100, H 50, M 50/20, D 70, D 1");
    refused(to_new, 2, &market.book, 320);
    refused(to_old, 2, &in_old_form(&market.book, 5), 160);
    refused(to_old, 2, &in_old_form(&market.book, 10), 320);
}
