//! The refusals, in the order in which they are looked at. Each call below has
//! a condition, and often those of later refusals as well.

use super::{described, Market, BUY, PRICE, SECURITY, SELL};

/// A full book of a displayed buy and a minimum quantity sell above it.
fn full_book() -> Market {
    let mut market = Market::new(2);
    market.accept(BUY, 3, PRICE, "D 100");
    market.accept(SELL, 7, PRICE + 10, "M 500/400");
    market
}

fn unsound_book() -> Market {
    let mut market = full_book();
    market.book[31] = 1;
    market
}

/// Asserts a refusal of add that leaves the book as it was.
pub fn add_refused(market: &Market, refusal: u32, numbers: [u32; 9]) {
    let mut book = market.book.clone();
    assert_eq!(crate::add(&mut book, numbers), refusal, "{numbers:?}");
    assert_eq!(book, market.book);
}

pub fn reduce_refused(market: &Market, refusal: u32, number: u32, shares: u32) {
    let mut book = market.book.clone();
    let given = crate::reduce(&mut book, SECURITY, number, shares);
    assert_eq!(given, refusal);
    assert_eq!(book, market.book);
}

pub fn take_refused(market: &Market, refusal: u32, numbers: [u32; 4], room: usize) {
    let mut book = market.book.clone();
    let mut executions = vec![0x77; room];
    let [side, limit, size, algorithm] = numbers;
    let incoming = [side, limit, size, algorithm, SECURITY];
    let given = crate::take(&mut book, &mut executions, incoming);
    assert_eq!(given, (refusal, 0, 0), "{numbers:?}");
    assert_eq!(book, market.book);
    assert!(executions.iter().all(|&byte| byte == 0x77));
}

#[test]
fn numbers_of_add_out_of_range_come_first() {
    let sound = described(SELL, 1, 1, "M 500/400");
    add_refused(&unsound_book(), 2, sound);
    for (place, number) in [
        (0, 0),
        (0, 3),
        (1, 0),
        (1, 4),
        (1, 5),
        (2, 0),
        (3, 0),
        (3, 2_000_000_001),
    ] {
        let mut wrong = sound;
        wrong[place] = number;
        add_refused(&unsound_book(), 1, wrong);
    }
    for (place, number) in [
        (4, 0),
        (4, 399),
        (4, 1_000_000),
        (5, 0),
        (5, 501),
        (5, u32::MAX),
        (6, 1),
        (7, 500),
        (8, 2),
        (8, u32::MAX),
    ] {
        let mut wrong = sound;
        wrong[place] = number;
        add_refused(&unsound_book(), 1, wrong);
    }
    for kind in [1, 2] {
        add_refused(
            &unsound_book(),
            1,
            [SELL, kind, 1, 1, 500, 1, 0, 0, SECURITY],
        );
    }
}

#[test]
fn add_is_refused_in_this_order() {
    let trading = described(SELL, 7, PRICE, "D 100");
    add_refused(&full_book(), 4, trading);
    add_refused(&full_book(), 4, described(SELL, 5, PRICE, "D 100"));
    add_refused(&full_book(), 5, described(SELL, 8, PRICE, "D 100"));
    add_refused(&full_book(), 6, described(SELL, 8, PRICE + 1, "D 100"));
}

#[test]
fn a_minimum_not_above_the_new_size_could_trade() {
    add_refused(&full_book(), 5, described(BUY, 8, PRICE + 10, "D 400"));
    add_refused(&full_book(), 6, described(BUY, 8, PRICE + 10, "D 399"));
    add_refused(&full_book(), 6, described(BUY, 8, PRICE + 9, "D 400"));
    let own_minimum = described(BUY, 8, PRICE + 10, "M 500/450");
    add_refused(&full_book(), 5, own_minimum);
}

#[test]
fn find_is_refused_in_this_order() {
    assert_eq!(crate::find(&unsound_book().book, SECURITY, 0), (1, 0, 0));
    assert_eq!(crate::find(&unsound_book().book, SECURITY, 4), (2, 0, 0));
    assert_eq!(crate::find(&full_book().book, SECURITY, 4), (3, 0, 0));
    assert_eq!(
        crate::find(&full_book().book, SECURITY, u32::MAX),
        (3, 0, 0)
    );
}

#[test]
fn reduce_is_refused_in_this_order() {
    for (number, shares) in [(0, 1), (3, 0), (3, 1_000_000), (4, u32::MAX)] {
        reduce_refused(&unsound_book(), 1, number, shares);
    }
    reduce_refused(&unsound_book(), 2, 4, 101);
    reduce_refused(&full_book(), 3, 4, 999_999);
    reduce_refused(&full_book(), 7, 3, 101);
}

#[test]
fn take_is_refused_in_this_order() {
    let sound = [SELL, 1, 10, 2];
    let wrong_places = [(0, 0), (0, 3), (1, 0), (1, 2_000_000_001)];
    let wrong_rest = [(2, 0), (2, 1_000_000), (3, 0), (3, 4)];
    for (place, number) in wrong_places.into_iter().chain(wrong_rest) {
        let mut wrong = sound;
        wrong[place] = number;
        take_refused(&unsound_book(), 1, wrong, 0);
    }
    take_refused(&unsound_book(), 2, sound, 0);
    take_refused(&full_book(), 8, sound, 15);
}

#[test]
fn executions_that_fit_exactly_are_not_refused() {
    let mut market = full_book();
    market.executions = vec![0; 16];
    assert_eq!(
        market.take(SELL, PRICE, 150, 1),
        (vec![(3, PRICE, 100)], 50)
    );
    market.executions.clear();
    assert_eq!(market.take(BUY, PRICE + 10, 399, 1), (vec![], 399));
}
