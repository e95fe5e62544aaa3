//! What the forms of add, reduce and take leave in a ladder.

use super::desk::{add, reduce, take, two_levels, Desk, BID, LOWER, UPPER};
use super::ladders::{full_book, full_levels};
use super::{Market, BUY, PRICE, SELL};
use crate::book::LARGEST_SIZE;

#[test]
fn add_finds_its_row_or_makes_one() {
    let mut desk = two_levels();
    let lower = [SELL, PRICE, 100, 550, 3];
    desk.accept(add(SELL, 6, PRICE, "H 350"), &[lower, UPPER, BID]);
    let best = [BUY, PRICE - 1, 700, 0, 1];
    let behind = [BUY, PRICE - 2, 0, 60, 1];
    let form = add(BUY, 7, PRICE - 2, "M 60/60");
    desk.accept(form, &[lower, UPPER, best, behind]);
    let bids = [[BUY, PRICE - 1, 750, 0, 2], behind];
    let form = add(BUY, 8, PRICE - 1, "D 50");
    desk.accept(form, &[lower, UPPER, bids[0], bids[1]]);
}

#[test]
fn a_new_row_goes_to_its_place() {
    let mut desk = Desk::of(Market::new(5));
    let level = |side, price| [side, price, 100, 0, 1];
    let worst = level(SELL, PRICE + 3);
    desk.accept(add(SELL, 1, PRICE + 3, "D 100"), &[worst]);
    let bid = level(BUY, PRICE - 3);
    desk.accept(add(BUY, 2, PRICE - 3, "D 100"), &[worst, bid]);
    let best = level(SELL, PRICE + 1);
    desk.accept(add(SELL, 3, PRICE + 1, "D 100"), &[best, worst, bid]);
    let between = level(SELL, PRICE + 2);
    let form = add(SELL, 4, PRICE + 2, "D 100");
    desk.accept(form, &[best, between, worst, bid]);
    let better = level(BUY, PRICE - 2);
    let form = add(BUY, 5, PRICE - 2, "D 100");
    desk.accept(form, &[best, between, worst, better, bid]);
}

/// The row doesn't stay with a count of 0, and none stays behind the last.
#[test]
fn a_row_leaves_with_its_last_order() {
    let mut desk = two_levels();
    desk.accept(reduce(5, 700), &[LOWER, UPPER]);
    let lower = [SELL, PRICE, 100, 0, 1];
    desk.accept(reduce(2, 200), &[lower, UPPER]);
    desk.accept(reduce(4, 100), &[UPPER]);
    desk.accept(reduce(1, 300), &[[SELL, PRICE + 1, 0, 400, 1]]);
    desk.accept(reduce(3, 400), &[]);
}

#[test]
fn reduce_takes_shares_from_their_own_column() {
    let mut desk = two_levels();
    let upper = [SELL, PRICE + 1, 1, 400, 2];
    desk.accept(reduce(1, 299), &[LOWER, upper, BID]);
    let upper = [SELL, PRICE + 1, 1, 50, 2];
    desk.accept(reduce(3, 350), &[LOWER, upper, BID]);
}

/// Displayed and other shares of both prices trade.
#[test]
fn take_empties_one_level_and_thins_the_next() {
    let mut desk = two_levels();
    let upper = [SELL, PRICE + 1, 0, 390, 1];
    let buy = take(BUY, PRICE + 1, 610, 2);
    desk.accept(buy, &[upper, BID]);
    let mut desk = Desk::with(&[
        (BUY, PRICE - 1, "H 200"),
        (BUY, PRICE, "M 200/200"),
        (BUY, PRICE - 1, "D 300"),
        (BUY, PRICE, "D 100"),
        (SELL, PRICE + 1, "D 700"),
    ]);
    let ask = [SELL, PRICE + 1, 700, 0, 1];
    let levels = [ask, [BUY, PRICE - 1, 0, 190, 1]];
    desk.accept(take(SELL, PRICE - 1, 610, 3), &levels);
}

/// A level in the midst may stay whole, where its minimum isn't met.
#[test]
fn take_leaves_a_level_between_two_that_it_empties() {
    let orders = [
        (SELL, PRICE, "D 100"),
        (SELL, PRICE + 1, "M 400/300"),
        (SELL, PRICE + 2, "H 50"),
    ];
    let mut desk = Desk::with(&orders);
    let stays = [SELL, PRICE + 1, 0, 400, 1];
    desk.accept(take(BUY, PRICE + 2, 200, 1), &[stays]);
}

#[test]
fn take_of_nothing_changes_no_row() {
    let mut desk = two_levels();
    let nothing = take(BUY, PRICE - 1, 450, 2);
    desk.accept(nothing, &[LOWER, UPPER, BID]);
    desk.with_wrong_byte(0).refuse(10, nothing);
    let mut empty = Desk::of(Market::new(0));
    empty.accept(nothing, &[]);
}

/// The count goes from 00 01 to FF 00 and back.
#[test]
fn forms_count_256_orders_of_a_price() {
    let mut desk = Desk::of(full_book(SELL, 256));
    let fewer = [SELL, PRICE, 255 * LARGEST_SIZE, 0, 255];
    desk.accept(reduce(7, LARGEST_SIZE), &[fewer]);
    let form = add(SELL, 257, PRICE, "H 10");
    desk.accept(form, &[[SELL, PRICE, 255 * LARGEST_SIZE, 10, 256]]);
    let buy = take(BUY, PRICE, LARGEST_SIZE, 1);
    desk.accept(buy, &[[SELL, PRICE, 254 * LARGEST_SIZE, 10, 255]]);
}

/// The last row becomes free, and is used again.
#[test]
fn forms_move_256_rows() {
    for side in [BUY, SELL] {
        let mut desk = Desk::of(full_book(side, 1));
        let mut levels = full_levels(side, 1);
        let first = levels.remove(0);
        let opposite = BUY + SELL - side;
        let take = take(opposite, first[1], LARGEST_SIZE, 1);
        desk.accept(take, &levels);
        assert!(desk.ladder[255 * 24..].iter().all(|&byte| byte == 0));
        let again = add(side, 257, first[1], &format!("D {LARGEST_SIZE}"));
        desk.accept(again, &full_levels(side, 1));
    }
}
