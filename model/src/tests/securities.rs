//! Two securities in one book: what concerns one of them alone, and what both. Each
//! call is made by both models.

use super::{described, Market, BUY, PRICE, SELL};
use crate::book::{self, Order, RECORD_LENGTH};
use crate::{fast, LADDER_LENGTH};

/// Numbers that are no security's.
pub const NO_SECURITIES: [u32; 5] = [2, 3, 255, 256, u32::MAX];

/// The place of the security in a record, and of the setter mark.
const SECURITY: usize = 21;
pub const SETTER: usize = 20;

/// What add takes for an order of a security.
pub fn order_of(security: u32, side: u32, number: u32, price: u32, order: &str) -> [u32; 9] {
    let mut numbers = described(side, number, price, order);
    numbers[8] = security;
    numbers
}

/// A book of these orders, numbered from 1: security, side, price and what is
/// written.
pub fn of_orders(records: usize, orders: &[(u32, u32, u32, &str)]) -> Market {
    let mut market = Market::new(records);
    for (number, &(security, side, price, order)) in (1..).zip(orders) {
        let numbers = order_of(security, side, number, price, order);
        assert_eq!(crate::add(&mut market.book, numbers), 0, "{order}");
    }
    market
}

/// The same sells of both securities by turns, the even numbers of security 1.
pub fn by_turns(sells: &str) -> Market {
    let twice = sells.split(", ").flat_map(|order| [order, order]);
    let orders: Vec<(u32, u32, u32, &str)> = (0..)
        .zip(twice)
        .map(|(place, order)| (place % 2, SELL, PRICE, order))
        .collect();
    of_orders(orders.len() + 1, &orders)
}

pub fn checked(market: &Market, security: u32) -> (u32, u32) {
    let plain = crate::check(&market.book, security);
    assert_eq!(fast::check(&market.book, security), plain);
    plain
}

fn found(market: &Market, security: u32, number: u32) -> (u32, usize, usize) {
    let plain = crate::find(&market.book, security, number);
    assert_eq!(fast::find(&market.book, security, number), plain);
    plain
}

/// A call that changes a market, and what it returns: its refusal, and the rest.
type Call<'a, T> = &'a dyn Fn(&mut Market) -> (u32, T);

/// Makes a call by both models. Gives what it returns, and the market afterwards. A
/// refused call leaves all as it was.
fn made<T: PartialEq + std::fmt::Debug>(market: &Market, calls: [Call<T>; 2]) -> (u32, T, Market) {
    let [plain, fast] = calls.map(|call| {
        let mut after = market.clone();
        let answer = call(&mut after);
        (answer, after)
    });
    assert_eq!(plain.0, fast.0);
    assert_eq!(plain.1.book, fast.1.book);
    assert_eq!(plain.1.executions, fast.1.executions);
    let ((refusal, others), after) = plain;
    if refusal != 0 {
        assert_eq!(after.book, market.book);
        assert_eq!(after.executions, market.executions);
    }
    (refusal, others, after)
}

pub fn added(market: &Market, numbers: [u32; 9]) -> (u32, Market) {
    let plain = |market: &mut Market| (crate::add(&mut market.book, numbers), ());
    let fast = |market: &mut Market| (fast::add(&mut market.book, numbers), ());
    let (refusal, (), after) = made(market, [&plain, &fast]);
    (refusal, after)
}

pub fn reduced(market: &Market, security: u32, number: u32, shares: u32) -> (u32, Market) {
    let plain = |market: &mut Market| {
        let refusal = crate::reduce(&mut market.book, security, number, shares);
        (refusal, ())
    };
    let fast = |market: &mut Market| {
        let refusal = fast::reduce(&mut market.book, security, number, shares);
        (refusal, ())
    };
    let (refusal, (), after) = made(market, [&plain, &fast]);
    (refusal, after)
}

/// The refusal of a take with these numbers, number and shares of each execution,
/// the shares left, and the market afterwards.
pub fn taken(market: &Market, incoming: [u32; 5]) -> (u32, Vec<(u32, u32)>, u32, Market) {
    let plain = |market: &mut Market| {
        let taken = crate::take(&mut market.book, &mut market.executions, incoming);
        (taken.0, (taken.1, taken.2))
    };
    let fast = |market: &mut Market| {
        let taken = fast::take(&mut market.book, &mut market.executions, incoming);
        (taken.0, (taken.1, taken.2))
    };
    let (refusal, (count, left), after) = made(market, [&plain, &fast]);
    let fills = crate::read_executions(&after.executions, count);
    let fills = fills.iter().map(|fill| (fill.number, fill.shares));
    (refusal, fills.collect(), left, after)
}

/// The orders of a security.
pub fn orders_of(market: &Market, security: u32) -> Vec<Order> {
    book::orders_of(&market.book, security).expect("a sound book")
}

/// The numbers of a security's orders that have the setter mark.
pub fn marked(market: &Market, security: u32) -> Vec<u32> {
    let orders = orders_of(market, security);
    let marked = orders.iter().filter(|order| order.setter);
    marked.map(|order| order.number).collect()
}

#[test]
fn an_order_of_security_1_has_these_bytes() {
    let mut market = Market::new(1);
    let numbers = order_of(1, SELL, 0x0102_0304, PRICE, "R 258+999999/258");
    market.book = added(&market, numbers).1.book;
    let record = [
        0x4F, 0x43, 2, 4, 4, 3, 2, 1, 0xA0, 0x86, 1, 0, 2, 1, 0, 0, 0, 0, 0, 0, 1, 1, 0, 0, 0, 0,
        0, 0, 0, 0, 0, 0, 0x3F, 0x42, 0x0F, 0, 2, 1, 0, 0,
    ];
    assert_eq!(market.book, record);
}

/// Whatever security is asked for, and in whichever record it stands.
#[test]
fn a_record_of_no_security_is_unsound() {
    let market = by_turns("D 100, H 50, M 40/10, R 100+20/100");
    for place in 0..8 {
        for byte in 2..=u8::MAX {
            let mut spoilt = market.clone();
            spoilt.book[place * RECORD_LENGTH + SECURITY] = byte;
            for security in [0, 1] {
                assert_eq!(checked(&spoilt, security), (2, 0), "{place} {byte}");
            }
        }
    }
}

/// An unsound record of the other security makes the book unsound for both.
#[test]
fn soundness_is_the_whole_books() {
    let market = by_turns("D 100, D 200");
    for place in 0..4 {
        let mut spoilt = market.clone();
        spoilt.book[place * RECORD_LENGTH + 22] = 1;
        for security in [0, 1] {
            assert_eq!(checked(&spoilt, security), (2, 0));
            assert_eq!(found(&spoilt, security, 1), (2, 0, 0));
            let new = order_of(security, SELL, 9, PRICE, "D 100");
            assert_eq!(added(&spoilt, new).0, 2);
            assert_eq!(reduced(&spoilt, security, 1, 10).0, 2);
            assert_eq!(taken(&spoilt, [BUY, PRICE, 10, 2, security]).0, 2);
        }
    }
}

/// Before the book is looked at, and with every other number in its range.
#[test]
fn a_number_of_no_security_is_refused_1() {
    let sound = by_turns("D 100, D 200");
    let mut unsound = sound.clone();
    unsound.book[SECURITY] = 2;
    for security in NO_SECURITIES {
        for market in [&sound, &unsound, &Market::new(0)] {
            assert_eq!(checked(market, security), (1, 0));
            assert_eq!(found(market, security, 1), (1, 0, 0));
            let new = order_of(security, SELL, 9, PRICE, "D 100");
            assert_eq!(added(market, new).0, 1);
            assert_eq!(reduced(market, security, 1, 10).0, 1);
            let (refusal, fills, left, _) = taken(market, [BUY, PRICE, 10, 2, security]);
            assert_eq!((refusal, fills, left), (1, vec![], 0));
            for length in [LADDER_LENGTH, 24] {
                let mut ladder = vec![0xEE; length];
                assert_eq!(crate::ladder(&market.book, &mut ladder, security), 1);
                assert_eq!(fast::ladder(&market.book, &mut ladder, security), 1);
                assert_eq!(ladder, vec![0xEE; length]);
            }
        }
    }
}

#[test]
fn check_counts_the_securitys_orders() {
    let orders = [
        (1, SELL, PRICE, "D 100"),
        (0, SELL, PRICE, "D 100"),
        (1, BUY, PRICE - 1, "H 100"),
        (1, SELL, PRICE, "R 10+20/10"),
    ];
    for (count, of_each) in [(0, [0, 0]), (1, [0, 1]), (2, [1, 1]), (4, [1, 3])] {
        let market = of_orders(5, &orders[..count]);
        for security in [0, 1] {
            let expected = (0, of_each[security as usize]);
            assert_eq!(checked(&market, security), expected, "{count}");
        }
    }
}

#[test]
fn find_and_reduce_reach_orders_of_their_own_security_alone() {
    let market = by_turns("D 100, D 200, R 100+50/100");
    for number in 1..=6 {
        let (own, other) = ((number + 1) % 2, number % 2);
        let start = (number as usize - 1) * RECORD_LENGTH;
        assert_eq!(found(&market, own, number), (0, start, RECORD_LENGTH));
        assert_eq!(found(&market, other, number), (3, 0, 0));
        assert_eq!(reduced(&market, own, number, 50).0, 0);
        for shares in [50, 999_999] {
            assert_eq!(reduced(&market, other, number, shares).0, 3);
        }
        assert_eq!(reduced(&market, own, number, 999_999).0, 7);
    }
    assert_eq!(found(&market, 0, 7), (3, 0, 0));
    assert_eq!(found(&market, 1, 0), (1, 0, 0));
}

/// An order of security 1 leaves from between those of security 0.
#[test]
fn reduce_moves_the_records_of_both_securities() {
    let market = by_turns("D 100, D 200");
    let (refusal, after) = reduced(&market, 1, 2, 100);
    assert_eq!(refusal, 0);
    assert_eq!(after.book[..40], market.book[..40]);
    assert_eq!(after.book[40..120], market.book[80..160]);
    assert!(after.book[120..].iter().all(|&byte| byte == 0));
    assert_eq!(orders_of(&after, 0), orders_of(&market, 0));
}

/// On books with the same orders of security 0, numbers and records of security 1
/// apart.
#[test]
fn a_security_is_answered_alike_beside_any_orders_of_the_other() {
    let own = [
        (0, SELL, PRICE, "D 300"),
        (0, SELL, PRICE, "R 100+250/100"),
        (0, BUY, PRICE - 2, "D 100"),
    ];
    let other = (1, SELL, PRICE - 1, "D 700");
    let books = [
        of_orders(5, &[own[0], own[1], own[2]]),
        of_orders(256, &[own[0], own[1], own[2], other, other]),
        of_orders(4, &[own[0], own[1], own[2], (1, BUY, 5, "M 9/9")]),
    ];
    let new = order_of(0, SELL, 9, PRICE - 1, "D 100");
    let answers = books.map(|market| {
        let (refusal, after) = added(&market, new);
        let added = (refusal != 6).then(|| orders_of(&after, 0));
        let (_, after) = reduced(&market, 0, 1, 300);
        let (_, fills, left, taken) = taken(&market, [BUY, PRICE, 420, 3, 0]);
        let rests = [orders_of(&after, 0), orders_of(&taken, 0)];
        (checked(&market, 0), added, rests, fills, left)
    });
    let [alone, beside, full] = answers;
    assert_eq!(alone, beside);
    assert_eq!(full.1, None);
    assert_eq!((full.0, &full.2, &full.3), (alone.0, &alone.2, &alone.3));
}
