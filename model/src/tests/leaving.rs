//! What a take leaves of a full book that every second order leaves.

use super::executions::TAKES;
use super::{Market, BUY, PRICE, SECURITY, SELL};
use crate::book::{self, RECORD_LENGTH};

/// The size of the order at a place.
fn size(place: u32) -> u32 {
    101 + place
}

/// A full book of displayed sells, numbered from 1. Every second of them has the
/// usual price, from a place on, and the others a worse one.
fn every_second_better(first: u32) -> Market {
    let mut market = Market::new(256);
    for place in 0..256 {
        let price = PRICE + u32::from(place % 2 != first);
        market.accept(SELL, place + 1, price, &format!("D {}", size(place)));
    }
    market
}

/// Asserts that the better priced orders leave and the others stay, the first of
/// which loses so many shares.
fn every_second_leaves(first: u32, lost: u32, algorithm: u32) {
    let market = every_second_better(first);
    let better: u32 = (first..256).step_by(2).map(size).sum();
    let others = (1 - first..256).step_by(2);
    let mut rest: Vec<(u32, u32)> = others.map(|place| (place + 1, size(place))).collect();
    rest[0].1 -= lost;
    for take in TAKES {
        let Market {
            mut book,
            mut executions,
        } = market.clone();
        let incoming = [BUY, PRICE + 1, better + lost, algorithm, SECURITY];
        let taken = take(&mut book, &mut executions, incoming);
        assert_eq!(taken, (0, 128 + u32::from(lost > 0), 0));
        let orders = book::read(&book).expect("a sound book");
        let resting: Vec<(u32, u32)> = orders.iter().map(|o| (o.number, o.size)).collect();
        assert_eq!(resting, rest);
        assert!(book[128 * RECORD_LENGTH..].iter().all(|&byte| byte == 0));
    }
}

#[test]
fn every_second_order_leaves_a_full_book() {
    for algorithm in 1..=3 {
        every_second_leaves(0, 0, algorithm);
        every_second_leaves(1, 0, algorithm);
    }
}

/// It stands before the first that leaves, or behind it.
#[test]
fn an_order_is_filled_in_part_beside_those_that_leave() {
    every_second_leaves(1, 50, 1);
    every_second_leaves(0, 50, 1);
}
