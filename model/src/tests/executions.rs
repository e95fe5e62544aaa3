//! The bytes of executions, and the paragraph that each of them names.

use super::{Market, BUY, PRICE, SECURITY, SELL};
use crate::{fast, Execution};

/// Take of the plain model, and of the fast one.
type Take = fn(&mut [u8], &mut [u8], [u32; 5]) -> (u32, u32, u32);
pub const TAKES: [Take; 2] = [crate::take, fast::take];

/// An order for each paragraph of the pro rata algorithm, and what each executes
/// of a buy for all of them.
const FIVE: &str = "D 300, D 40, H 200, M 100/50, H 30";
const FIVE_EXECUTED: [Execution; 5] = [
    at_price(2, 1, 300),
    at_price(3, 2, 40),
    at_price(4, 3, 200),
    at_price(5, 4, 100),
    at_price(6, 5, 30),
];

/// An execution at the usual price.
pub const fn at_price(paragraph: u8, number: u32, shares: u32) -> Execution {
    Execution {
        paragraph,
        number,
        price: PRICE,
        shares,
    }
}

/// The same executions with other paragraphs.
fn named(mut executed: [Execution; 5], paragraphs: [u8; 5]) -> [Execution; 5] {
    for (execution, paragraph) in executed.iter_mut().zip(paragraphs) {
        execution.paragraph = paragraph;
    }
    executed
}

fn bytes_of(execution: &Execution) -> Vec<u8> {
    let mut bytes = vec![0x45, 0x58, execution.paragraph, 0];
    for number in [execution.number, execution.price, execution.shares] {
        bytes.extend(number.to_le_bytes());
    }
    bytes
}

/// The execution buffer behind a take of these numbers, and how many there are.
fn taken(take: Take, market: &Market, numbers: [u32; 4]) -> (Vec<u8>, u32) {
    let Market {
        mut book,
        mut executions,
    } = market.clone();
    let [side, limit, size, algorithm] = numbers;
    let incoming = [side, limit, size, algorithm, SECURITY];
    let (refusal, count, _) = take(&mut book, &mut executions, incoming);
    assert_eq!(refusal, 0, "{numbers:?}");
    (executions, count)
}

/// Asserts that a take of these numbers writes the bytes of these executions and
/// no others, and that they read as such.
fn writes(market: &Market, numbers: [u32; 4], executed: &[Execution]) {
    let mut bytes: Vec<u8> = executed.iter().flat_map(bytes_of).collect();
    bytes.extend(&market.executions[bytes.len()..]);
    for take in TAKES {
        let (executions, count) = taken(take, market, numbers);
        assert_eq!(executions, bytes, "{numbers:?}");
        assert_eq!(crate::read_executions(&executions, count), executed);
    }
}

fn buy_writes(sells: &str, size: u32, algorithm: u32, executed: &[Execution]) {
    let market = Market::of_sells(sells);
    writes(&market, [BUY, PRICE, size, algorithm], executed);
}

#[test]
fn an_execution_has_these_bytes_and_the_rest_stays() {
    let mut market = Market::of_sells("D 300");
    market.take(BUY, PRICE, 257, 2);
    let execution = [0x45, 0x58, 2, 0, 1, 0, 0, 0, 0xA0, 0x86, 1, 0, 1, 1, 0, 0];
    assert_eq!(market.executions[..16], execution);
    assert!(market.executions[16..].iter().all(|&byte| byte == 0xEE));
}

#[test]
fn what_is_behind_the_executions_stays_in_a_buffer_of_any_length() {
    for room in [80, 81, 83, 95, 96, 111] {
        let mut market = Market::of_sells(FIVE);
        market.executions.truncate(room);
        writes(&market, [BUY, PRICE, 670, 2], &FIVE_EXECUTED);
    }
}

#[test]
fn pro_rata_names_paragraphs_2_to_6() {
    buy_writes(FIVE, 670, 2, &FIVE_EXECUTED);
    buy_writes(FIVE, 670, 3, &FIVE_EXECUTED);
}

/// Displayed orders are in paragraph 2 and all others in 3, of any size.
#[test]
fn price_time_names_paragraphs_2_and_3() {
    buy_writes(FIVE, 670, 1, &named(FIVE_EXECUTED, [2, 2, 3, 3, 3]));
}

#[test]
fn case_k_has_its_paragraphs_by_the_algorithm() {
    let orders = "H 50, M 200/200";
    buy_writes(orders, 220, 1, &[at_price(3, 1, 50)]);
    for algorithm in [2, 3] {
        let executed = [at_price(5, 2, 200), at_price(6, 1, 20)];
        buy_writes(orders, 220, algorithm, &executed);
    }
}

/// Asserts that the orders of a buy's executions have these paragraphs.
fn buy_names(size: u32, algorithm: u32, paragraphs: [u8; 5]) {
    for take in TAKES {
        let numbers = [BUY, PRICE, size, algorithm];
        let (executions, count) = taken(take, &Market::of_sells(FIVE), numbers);
        let executed = crate::read_executions(&executions, count);
        let of_order = |execution: &Execution| paragraphs[execution.number as usize - 1];
        let differs = |execution: &&Execution| execution.paragraph != of_order(execution);
        assert_eq!(executed.iter().find(differs), None, "{numbers:?}");
    }
}

/// However far the shares go in an order's group.
#[test]
fn an_order_has_one_paragraph_whatever_comes_in() {
    for size in 1..=670 {
        buy_names(size, 1, [2, 2, 3, 3, 3]);
        buy_names(size, 2, [2, 3, 4, 5, 6]);
        buy_names(size, 3, [2, 3, 4, 5, 6]);
    }
}

/// The second price begins at paragraph 2, whatever the first one ended with.
#[test]
fn each_price_has_its_own_paragraphs() {
    for (resting, incoming, worse) in [(SELL, BUY, PRICE + 1), (BUY, SELL, PRICE - 1)] {
        let mut market = Market::new(5);
        market.accept(resting, 1, worse, "D 300");
        market.accept(resting, 2, worse, "H 30");
        market.accept(resting, 3, PRICE, "D 40");
        market.accept(resting, 4, PRICE, "H 200");
        market.accept(resting, 5, PRICE, "M 100/50");
        let at_worse = |number, shares| Execution {
            price: worse,
            ..at_price(0, number, shares)
        };
        let executed = [
            at_price(0, 3, 40),
            at_price(0, 4, 200),
            at_price(0, 5, 100),
            at_worse(1, 300),
            at_worse(2, 30),
        ];
        let take = |algorithm| [incoming, worse, 670, algorithm];
        writes(&market, take(1), &named(executed, [2, 3, 3, 2, 3]));
        writes(&market, take(2), &named(executed, [3, 4, 5, 2, 6]));
        writes(&market, take(3), &named(executed, [3, 4, 5, 2, 6]));
    }
}

/// With the guarantee, and where plain sharing gives the setter more.
#[test]
fn a_setter_and_those_beside_it_are_in_paragraph_2() {
    let executed = [
        at_price(2, 1, 400),
        at_price(2, 2, 500),
        at_price(2, 3, 100),
    ];
    buy_writes("D 1000, D 3000, D 1000", 1_000, 3, &executed);
    let executed = [
        at_price(2, 1, 600),
        at_price(2, 2, 200),
        at_price(2, 3, 200),
    ];
    buy_writes("D 3000, D 1000, D 1000", 1_000, 3, &executed);
}

#[test]
fn a_setter_below_a_lot_is_in_paragraph_3() {
    let mut market = Market::of_sells("D 150, D 800");
    assert_eq!(market.reduce(1, 60), 0);
    let executed = [at_price(2, 2, 800), at_price(3, 1, 50)];
    writes(&market, [BUY, PRICE, 850, 3], &executed);
}

/// The first take leaves order 1 with 99 shares.
#[test]
fn the_paragraph_goes_by_the_size_at_entry() {
    for (orders, before, after) in [("D 199", 2, 3), ("H 199", 4, 6), ("M 199/1", 5, 5)] {
        let mut market = Market::of_sells(orders);
        writes(&market, [BUY, PRICE, 100, 2], &[at_price(before, 1, 100)]);
        market.take(BUY, PRICE, 100, 2);
        writes(&market, [BUY, PRICE, 99, 2], &[at_price(after, 1, 99)]);
    }
}
