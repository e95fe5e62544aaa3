//! The ladders of two securities beside one book.

use super::desk::{Desk, Form};
use super::ladders::{assert_same, ladder_of, Level};
use super::securities::{of_orders, order_of, NO_SECURITIES};
use super::{Market, BUY, PRICE, SELL};
use crate::{fast, LADDER_LENGTH};

/// Both securities at the same prices, by turns.
fn interleaved() -> Market {
    of_orders(
        8,
        &[
            (0, SELL, PRICE, "D 300"),
            (1, SELL, PRICE, "H 200"),
            (1, SELL, PRICE, "D 100"),
            (0, SELL, PRICE + 1, "M 400/10"),
            (1, BUY, PRICE - 1, "R 100+50/100"),
        ],
    )
}

const FIRST: [Level; 2] = [[SELL, PRICE, 300, 0, 1], [SELL, PRICE + 1, 0, 400, 1]];
const SECOND: [Level; 2] = [[SELL, PRICE, 100, 200, 2], [BUY, PRICE - 1, 100, 50, 1]];

/// Forms of a security that are accepted on that book.
fn forms(security: u32) -> [Form; 3] {
    let number = [1, 3][security as usize];
    [
        Form::Add(order_of(security, SELL, 6, PRICE, "H 5")),
        Form::Reduce([security, number, 100]),
        Form::Take([BUY, PRICE, 100, 2, security]),
    ]
}

/// The two desks of a book.
fn desks(market: &Market) -> [Desk; 2] {
    [0, 1].map(|security| Desk::of_security(market.clone(), security))
}

#[test]
fn a_ladder_has_the_rows_of_its_security() {
    let market = interleaved();
    for (security, levels) in [(0, FIRST), (1, SECOND)] {
        let mut ladder = vec![0xEE; LADDER_LENGTH];
        assert_eq!(crate::ladder(&market.book, &mut ladder, security), 0);
        assert_same(&ladder, &ladder_of(&levels));
        let mut ladder = vec![0xEE; LADDER_LENGTH];
        assert_eq!(fast::ladder(&market.book, &mut ladder, security), 0);
        assert_same(&ladder, &ladder_of(&levels));
    }
}

/// A form of one security leaves the other's ladder the book's.
#[test]
fn both_ladders_of_a_book_are_kept_in_turn() {
    let [mut first, mut second] = desks(&interleaved());
    let mut turn = |security: u32, form: Form, levels: &[Level]| {
        let [desk, other] = match security {
            0 => [&mut first, &mut second],
            _ => [&mut second, &mut first],
        };
        desk.accept(form, levels);
        other.market.book.clone_from(&desk.market.book);
        let unchanged = Desk::of_security(other.market.clone(), 1 - security);
        assert_same(&other.ladder, &unchanged.ladder);
    };
    let fewer = [SELL, PRICE, 250, 0, 1];
    turn(0, Form::Reduce([0, 1, 50]), &[fewer, FIRST[1]]);
    let more = [SELL, PRICE, 100, 205, 3];
    let added = Form::Add(order_of(1, SELL, 6, PRICE, "H 5"));
    turn(1, added, &[more, SECOND[1]]);
    turn(0, Form::Take([BUY, PRICE + 1, 650, 1, 0]), &[]);
    turn(1, Form::Take([BUY, PRICE, 305, 2, 1]), &[SECOND[1]]);
    let again = [SELL, PRICE - 1, 70, 0, 1];
    let added = Form::Add(order_of(0, SELL, 7, PRICE - 1, "D 70"));
    turn(0, added, &[again]);
    turn(1, Form::Reduce([1, 5, 150]), &[]);
}

#[test]
fn the_ladder_of_the_other_security_is_refused_10() {
    let [first, second] = desks(&interleaved());
    for (security, own, other) in [(0, &first, &second), (1, &second, &first)] {
        for form in forms(security) {
            assert_eq!(form.kept(own).1[0], 0, "{form:?}");
            other.refuse(10, form);
        }
    }
}

/// Nor that of both securities' orders together.
#[test]
fn the_ladder_of_all_orders_is_refused_10() {
    let market = interleaved();
    let all = [[SELL, PRICE, 400, 200, 3], FIRST[1], SECOND[1]];
    for mut desk in desks(&market) {
        desk.ladder = ladder_of(&all);
        for form in forms(desk.security) {
            desk.refuse(10, form);
        }
    }
}

/// Before 2, 9 and 10.
#[test]
fn forms_of_no_security_are_refused_1() {
    let sound = Desk::of_security(interleaved(), 0);
    let mut unsound = sound.clone();
    unsound.market.book[21] = 2;
    for security in NO_SECURITIES {
        let forms = [
            Form::Add(order_of(security, SELL, 6, PRICE, "H 5")),
            Form::Reduce([security, 1, 100]),
            Form::Take([BUY, PRICE, 100, 2, security]),
        ];
        for form in forms {
            for desk in [&sound, &unsound] {
                desk.refuse(1, form);
                desk.with_length(24).refuse(1, form);
                desk.with_wrong_byte(5).refuse(1, form);
            }
        }
    }
}

/// The other security's number is refused 3 behind 10, and its order changes no row.
#[test]
fn reduce_of_the_others_order_is_refused_3_behind_10() {
    let [first, second] = desks(&interleaved());
    for (desk, number) in [(&first, 2), (&second, 1)] {
        let form = Form::Reduce([desk.security, number, 10]);
        desk.refuse(3, form);
        desk.with_wrong_byte(6_143).refuse(10, form);
    }
}

/// 256 rows of one security, and 128 of each.
#[test]
fn full_books_have_rows_for_each_security() {
    for (securities, rows) in [([0, 0], [256, 0]), ([1, 1], [0, 256]), ([0, 1], [128, 128])] {
        let orders: Vec<(u32, u32, u32, &str)> = (0..256)
            .map(|place| (securities[place as usize % 2], SELL, PRICE + place, "D 10"))
            .collect();
        let market = of_orders(256, &orders);
        for desk in desks(&market) {
            let used = desk.ladder.chunks(24).filter(|row| row[0] != 0).count();
            assert_eq!(used, rows[desk.security as usize]);
        }
    }
}
