//! What makes an old book sound, and the program convert.

use super::conversions::{all_kinds, in_old_form, refused, turned};
use super::securities::of_orders;
use super::{Market, PRICE, SELL};
use crate::{convert, to_new};

/// A displayed setter, another displayed sell of its price, a non-displayed one
/// and a minimum quantity order, and a free record.
fn old_book() -> Vec<u8> {
    let market = Market::of_sells("D 100, D 200, H 50, M 500/400");
    in_old_form(&market.book, 5)
}

/// Asserts that the book is sound with these bytes in these places, or isn't.
fn sound_with(changes: &[(usize, u8)], sound: bool) {
    let mut book = old_book();
    for &(place, byte) in changes {
        book[place] = byte;
    }
    match sound {
        true => drop(turned(to_new, &book, 200)),
        false => refused(to_new, 2, &book, 200),
    }
}

#[test]
fn each_byte_of_an_old_record_counts() {
    sound_with(&[], true);
    for (place, byte) in [(0, 0x4E), (1, 0x43), (1, 0), (2, 0), (2, 3), (3, 0), (3, 5)] {
        sound_with(&[(place, byte)], false);
    }
    for (place, byte) in [(4, 0), (11, 0xFF), (12, 0), (15, 1), (16, 1), (19, 1)] {
        sound_with(&[(place, byte)], false);
    }
    for place in 21..32 {
        for byte in [1, 128, 255] {
            sound_with(&[(place, byte)], false);
        }
    }
    sound_with(&[(3, 2), (20, 0)], true);
    sound_with(&[(20, 0)], true);
    sound_with(&[(20, 2)], false);
}

/// Neither with a mark nor without one.
#[test]
fn an_old_book_has_no_order_of_kind_4() {
    sound_with(&[(3, 4)], false);
    sound_with(&[(3, 4), (20, 0)], false);
    sound_with(&[(64 + 3, 4)], false);
    sound_with(&[(96 + 3, 4)], false);
}

#[test]
fn an_old_book_has_a_mark_on_kind_1_alone_and_once_a_price() {
    sound_with(&[(32 + 20, 1)], false);
    sound_with(&[(20, 0), (32 + 20, 1)], true);
    sound_with(&[(32 + 20, 1), (32 + 8, 1)], true);
    sound_with(&[(32 + 20, 1), (32 + 2, 1)], true);
    sound_with(&[(64 + 20, 1)], false);
    sound_with(&[(96 + 20, 1)], false);
}

#[test]
fn orders_of_an_old_book_rise_without_a_gap() {
    sound_with(&[(32 + 4, 1)], false);
    sound_with(&[(64 + 4, 1)], false);
    sound_with(&[(96 + 4, 200)], true);
    sound_with(&[(128, 1)], false);
    sound_with(&[(159, 1)], false);
    let mut gap = old_book();
    gap[32..64].fill(0);
    refused(to_new, 2, &gap, 200);
}

#[test]
fn an_old_book_has_at_most_256_records_of_32_bytes() {
    for length in [0, 32, 64, 160, 8_160, 8_192] {
        turned(to_new, &vec![0; length], 40);
    }
    for length in [1, 31, 33, 40, 80, 8_191, 8_193, 8_224, 10_240, 16_384] {
        refused(to_new, 2, &vec![0; length], 40);
    }
}

#[test]
fn convert_turns_each_form_into_the_other() {
    let new = all_kinds().book;
    let old = in_old_form(&new, 8);
    assert_eq!(convert(&old), new);
    assert_eq!(convert(&new), old);
    assert_eq!(convert(&[]), []);
}

/// Zeros may be a book in both forms; they are then taken for an old one.
#[test]
fn convert_takes_zeros_for_an_old_book_if_it_can() {
    for (length, other) in [
        (32, 40),
        (40, 32),
        (160, 200),
        (8_192, 10_240),
        (10_240, 8_192),
        (10_200, 8_160),
    ] {
        assert_eq!(convert(&vec![0; length]), vec![0; other]);
    }
    for length in [1, 31, 33, 48, 8_224, 10_239, 10_241, 10_272, 10_280, 65_536] {
        assert_eq!(convert(&vec![0; length]), b"refused 2\n");
    }
}

#[test]
fn convert_prints_a_refusal_alone() {
    assert_eq!(
        convert(&Market::of_sells("R 100+0/100").book),
        b"refused 11\n"
    );
    let second = of_orders(2, &[(0, SELL, PRICE, "D 100"), (1, SELL, PRICE, "D 100")]);
    assert_eq!(convert(&second.book), b"refused 11\n");
    let mut market = Market::of_sells("D 100, R 100+250/100");
    assert_eq!(convert(&market.book), b"refused 11\n");
    market.book[31] = 1;
    assert_eq!(convert(&market.book), b"refused 2\n");
    let mut old = old_book();
    old[21] = 1;
    assert_eq!(convert(&old), b"refused 2\n");
    let mut market = Market::new(1);
    market.accept(SELL, 1, PRICE, "D 100");
    assert_eq!(convert(&market.book[..39]), b"refused 2\n");
}
