//! The refusals of the forms that keep a ladder, in their order.

use super::desk::{add, reduce, take, two_levels, Desk, Form, BID, LOWER, UPPER};
use super::ladders::{ladder_of, WRONG_LENGTHS};
use super::{Market, BUY, PRICE, SECURITY, SELL};
use crate::LADDER_LENGTH;

/// A form of each sort that is accepted on a desk of two levels, and one
/// that is refused there for each reason behind 10.
const ACCEPTED: [Form; 4] = [
    Form::Add([BUY, 1, 6, PRICE - 2, 100, 0, 0, 0, SECURITY]),
    reduce(1, 300),
    take(BUY, PRICE + 1, 450, 2),
    take(BUY, PRICE - 1, 450, 2),
];
const REFUSED: [(u32, Form); 4] = [
    (3, reduce(6, 1)),
    (4, Form::Add([BUY, 1, 5, PRICE - 2, 100, 0, 0, 0, SECURITY])),
    (5, Form::Add([BUY, 1, 6, PRICE, 100, 0, 0, 0, SECURITY])),
    (7, reduce(1, 301)),
];

/// Every form of those.
fn every_form() -> impl Iterator<Item = Form> {
    let refused = REFUSED.iter().map(|&(_, form)| form);
    ACCEPTED.into_iter().chain(refused)
}

#[test]
fn a_ladder_of_another_length_is_refused_9() {
    for length in WRONG_LENGTHS {
        let desk = two_levels().with_length(length);
        every_form().for_each(|form| desk.refuse(9, form));
        let empty = Desk::of(Market::new(0)).with_length(length);
        empty.refuse(9, ACCEPTED[0]);
    }
}

/// In a row, in its six zeros, and in the zeros behind the last row.
#[test]
fn every_byte_of_the_ladder_is_looked_at() {
    let desk = two_levels();
    for place in 0..LADDER_LENGTH {
        let wrong = desk.with_wrong_byte(place);
        every_form().for_each(|form| wrong.refuse(10, form));
    }
}

#[test]
fn a_ladder_of_another_book_is_refused_10() {
    let desk = two_levels();
    let (after, _) = ACCEPTED[1].kept(&desk);
    let fewer = [BUY, PRICE - 1, 699, 0, 1];
    let orders_more = [BUY, PRICE - 1, 700, 0, 2];
    for ladder in [
        ladder_of(&[]),
        ladder_of(&[LOWER, UPPER]),
        ladder_of(&[UPPER, LOWER, BID]),
        ladder_of(&[BID, LOWER, UPPER]),
        ladder_of(&[LOWER, UPPER, fewer]),
        ladder_of(&[LOWER, UPPER, orders_more]),
        ladder_of(&[LOWER, UPPER, BID, [BUY, PRICE - 2, 0, 0, 0]]),
        after.ladder,
        vec![0xEE; LADDER_LENGTH],
    ] {
        let wrong = Desk {
            ladder,
            ..desk.clone()
        };
        every_form().for_each(|form| wrong.refuse(10, form));
    }
}

/// A form that could be refused for several reasons is for the first of 1, 2, 9,
/// 10 and then those of its plain call.
#[test]
fn forms_are_refused_in_this_order() {
    let desk = two_levels();
    let mut unsound = desk.clone();
    unsound.market.book[31] = 1;
    let out_of_range = [
        Form::Add([BUY, 1, 0, PRICE, 100, 0, 0, 0, SECURITY]),
        reduce(0, 1),
        take(BUY, PRICE, 0, 2),
    ];
    for length in WRONG_LENGTHS.into_iter().chain([LADDER_LENGTH]) {
        let unsound = unsound.with_length(length);
        out_of_range
            .iter()
            .for_each(|&form| unsound.refuse(1, form));
        every_form().for_each(|form| unsound.refuse(2, form));
    }
    let wrong = unsound.with_wrong_byte(5);
    out_of_range.iter().for_each(|&form| wrong.refuse(1, form));
    every_form().for_each(|form| wrong.refuse(2, form));
    for (refusal, form) in REFUSED {
        desk.refuse(refusal, form);
        desk.with_wrong_byte(5).refuse(10, form);
        desk.with_length(6_143).refuse(9, form);
    }
}

/// Also where a stale number, a price that could trade and a full book come
/// together with a wrong ladder.
#[test]
fn a_full_book_is_refused_6_behind_a_wrong_ladder() {
    let mut market = Market::new(1);
    market.accept(SELL, 1, PRICE, "D 100");
    let desk = Desk::of(market);
    let form = add(SELL, 2, PRICE, "D 100");
    desk.refuse(6, form);
    desk.with_wrong_byte(6_143).refuse(10, form);
    desk.with_length(0).refuse(9, form);
    desk.refuse(4, add(SELL, 1, PRICE, "D 100"));
    desk.refuse(5, add(BUY, 2, PRICE, "D 100"));
}

/// Executions that don't fit leave the ladder alone, as they leave the book.
#[test]
fn a_take_that_is_refused_8_keeps_the_ladder() {
    let mut desk = two_levels();
    let buy = take(BUY, PRICE + 1, 610, 2);
    for room in [0, 15, 16, 48, 63] {
        desk.market.executions = vec![0x77; room];
        desk.refuse(8, buy);
        desk.with_wrong_byte(6_143).refuse(10, buy);
        desk.with_length(6_120).refuse(9, buy);
    }
    desk.market.executions = vec![0x77; 64];
    desk.accept(buy, &[[SELL, PRICE + 1, 0, 390, 1], BID]);
}
