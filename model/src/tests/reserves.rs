//! What takes give reserve orders, and what they leave of them. "R 100+250/100"
//! shows 100 shares, hides 250 and has the refresh size 100.

use super::executions::{at_price, TAKES};
use super::refusals::take_refused;
use super::{Market, BUY, PRICE, SECURITY, SELL};
use crate::book::Order;
use crate::Execution;

/// Number, shown and hidden shares of an order, and whether it has a mark.
type Rest = (u32, u32, u32, bool);

fn rest(order: &Order) -> Rest {
    (order.number, order.size, order.hidden(), order.setter)
}

/// Asserts that a buy at the usual price executes so, as paragraph, order number
/// and shares, and that these orders rest then.
fn buy(market: &Market, size: u32, algorithm: u32, fills: &[(u8, u32, u32)], rests: &[Rest]) {
    let fill = |&(paragraph, number, shares): &(u8, u32, u32)| at_price(paragraph, number, shares);
    let expected: Vec<Execution> = fills.iter().map(fill).collect();
    let executed: u32 = fills.iter().map(|fill| fill.2).sum();
    for take in TAKES {
        let mut after = market.clone();
        let Market { book, executions } = &mut after;
        let incoming = [BUY, PRICE, size, algorithm, SECURITY];
        let taken = take(book, executions, incoming);
        assert_eq!(taken, (0, fills.len() as u32, size - executed));
        assert_eq!(crate::read_executions(executions, taken.1), expected);
        let orders: Vec<Rest> = after.orders().iter().map(rest).collect();
        assert_eq!(orders, rests);
    }
}

/// As above, of sells that add numbers from 1 and marks the first of, if it shows
/// a lot.
fn buy_of(sells: &str, size: u32, algorithm: u32, fills: &[(u8, u32, u32)], rests: &[Rest]) {
    buy(&Market::of_sells(sells), size, algorithm, fills, rests);
}

/// The refreshed shares don't trade in the same take, and the hidden part has its
/// turn in paragraph 4 with its own size.
#[test]
fn both_parts_execute_and_the_shown_one_is_refreshed() {
    let sells = "R 100+250/100, D 300";
    let fills = [(2, 1, 100), (2, 2, 300), (4, 1, 100)];
    buy_of(sells, 500, 2, &fills, &[(1, 100, 50, true)]);
}

#[test]
fn an_order_leaves_when_both_parts_are_used_up() {
    let sells = "R 100+250/100, D 300";
    let fills = [(2, 1, 100), (2, 2, 300), (4, 1, 250)];
    buy_of(sells, 650, 2, &fills, &[]);
    buy_of(sells, 651, 2, &fills, &[]);
    buy_of(
        sells,
        649,
        2,
        &[fills[0], fills[1], (4, 1, 249)],
        &[(1, 1, 0, true)],
    );
}

#[test]
fn a_hidden_part_below_a_lot_is_in_paragraph_6() {
    let fills = [(2, 1, 100), (4, 2, 200), (6, 1, 30)];
    buy_of("R 100+60/100, H 200", 330, 2, &fills, &[(1, 30, 0, true)]);
}

/// With 99 and 100 hidden, and as one of several in its paragraph: as a
/// non-displayed order of its own size, and not of all the order's shares.
#[test]
fn a_hidden_part_ranks_by_its_own_size() {
    let fills = [(2, 1, 200), (4, 2, 100), (6, 1, 99)];
    buy_of("R 200+99/200, H 100", 399, 2, &fills, &[]);
    let fills = [(2, 1, 200), (4, 1, 100), (4, 2, 100)];
    buy_of("R 200+100/200, H 100", 400, 2, &fills, &[]);
    let fills = [(2, 1, 900), (4, 2, 100)];
    let rests = [(1, 200, 0, true), (2, 100, 0, false)];
    buy_of(
        "R 900+200/900, H 200",
        900,
        2,
        &fills[..1],
        &[rests[0], (2, 200, 0, false)],
    );
    buy_of(
        "R 900+150/900, H 200",
        1_000,
        2,
        &fills,
        &[(1, 150, 0, true), rests[1]],
    );
    let fills = [(2, 1, 900), (6, 2, 40)];
    buy_of("R 900+30/900, H 40", 940, 2, &fills, &[(1, 30, 0, true)]);
}

/// To the refresh size, to less where less is hidden, and not at all while a
/// share is shown.
#[test]
fn a_refresh_shows_what_is_hidden_up_to_the_refresh_size() {
    for algorithm in 1..=3 {
        let fills = [(2, 1, 100)];
        buy_of(
            "R 100+250/100",
            100,
            algorithm,
            &fills,
            &[(1, 100, 150, true)],
        );
        buy_of(
            "R 100+100/100",
            100,
            algorithm,
            &fills,
            &[(1, 100, 0, true)],
        );
        buy_of("R 100+30/100", 100, algorithm, &fills, &[(1, 30, 0, true)]);
        buy_of("R 100+0/100", 100, algorithm, &fills, &[]);
        buy_of(
            "R 100+30/100",
            99,
            algorithm,
            &[(2, 1, 99)],
            &[(1, 1, 30, true)],
        );
    }
}

/// One that a sound book may have: it shows less than its refresh size, or more.
#[test]
fn a_refresh_goes_by_the_refresh_size_and_not_by_what_was_shown() {
    for (refresh, rests) in [(40_u32, (1, 40, 210, true)), (180, (1, 180, 70, true))] {
        let mut market = Market::of_sells("R 100+250/100");
        market.book[36..40].copy_from_slice(&refresh.to_le_bytes());
        buy(&market, 100, 2, &[(2, 1, 100)], &[rests]);
        buy(&market, 99, 2, &[(2, 1, 99)], &[(1, 1, 250, true)]);
    }
}

#[test]
fn a_shown_part_below_a_lot_is_in_paragraph_3() {
    let fills = [(2, 2, 200), (3, 1, 50), (4, 1, 10)];
    buy_of("R 50+150/50, D 200", 260, 2, &fills, &[(1, 50, 90, false)]);
}

/// The hidden part has its order's time.
#[test]
fn price_time_has_the_hidden_part_in_paragraph_3() {
    let fills = [(2, 2, 100), (3, 1, 50), (3, 2, 50)];
    let rests = [(2, 100, 100, true), (3, 70, 0, false)];
    buy_of("H 50, R 100+250/100, H 70", 200, 1, &fills, &rests);
}

/// Only the hidden part is left to trade, for all that is shown goes first.
#[test]
fn shown_parts_trade_before_hidden_ones() {
    let sells = "R 100+250/100, R 100+40/100";
    let fills = [(2, 1, 100), (2, 2, 100)];
    let rests = [(1, 100, 150, true), (2, 40, 0, false)];
    for algorithm in 1..=3 {
        buy_of(sells, 200, algorithm, &fills, &rests);
    }
    let later = [fills[0], fills[1], (4, 1, 250), (6, 2, 20)];
    buy_of(sells, 470, 2, &later, &[(2, 20, 0, false)]);
    let later = [fills[0], fills[1], (3, 1, 250), (3, 2, 20)];
    buy_of(sells, 470, 1, &later, &[(2, 20, 0, false)]);
}

#[test]
fn a_marked_order_has_its_guarantee_and_keeps_its_mark_when_refreshed() {
    let market = Market::of_sells("R 100+500/100, D 900");
    let fills = [(2, 1, 100), (2, 2, 400)];
    let rests = [(1, 100, 400, true), (2, 500, 0, false)];
    buy(&market, 500, 3, &fills, &rests);
    let market = Market::of_sells("R 1000+500/1000, D 3000, D 1000");
    let fills = [(2, 1, 400), (2, 2, 500), (2, 3, 100)];
    let rests = [
        (1, 600, 500, true),
        (2, 2_500, 0, false),
        (3, 900, 0, false),
    ];
    buy(&market, 1_000, 3, &fills, &rests);
}

/// A refreshed order stays before a later one of the same price.
#[test]
fn a_refreshed_order_keeps_its_time() {
    let mut market = Market::of_sells("R 100+250/100, D 100");
    market.take(BUY, PRICE, 100, 1);
    let rests = [(1, 50, 150, true), (2, 100, 0, false)];
    buy(&market, 50, 1, &[(2, 1, 50)], &rests);
    let fills = [(2, 1, 100), (2, 2, 60)];
    let rests = [(1, 100, 50, true), (2, 40, 0, false)];
    buy(&market, 160, 1, &fills, &rests);
}

/// Order 2 leaves; order 3 behind it is refreshed, moves up and keeps its bytes.
#[test]
fn a_refreshed_order_survives_behind_a_gap() {
    let market = Market::of_sells("D 50, D 100, R 100+30/100, H 70");
    let fills = [(2, 1, 50), (2, 2, 100), (2, 3, 100)];
    let rests = [(3, 30, 0, false), (4, 70, 0, false)];
    buy(&market, 250, 1, &fills, &rests);
}

/// Order 2 hides more than it shows, and so gets the more in paragraph 4.
#[test]
fn incoming_sells_meet_reserve_buys_alike() {
    let expected = [
        at_price(2, 1, 300),
        at_price(2, 2, 100),
        at_price(4, 2, 200),
    ];
    for (resting, incoming) in [(SELL, BUY), (BUY, SELL)] {
        let market = Market::of_side(resting, "R 300+100/300, R 100+300/100");
        for take in TAKES {
            let Market {
                mut book,
                mut executions,
            } = market.clone();
            let numbers = [incoming, PRICE, 600, 2, SECURITY];
            let taken = take(&mut book, &mut executions, numbers);
            assert_eq!(taken, (0, 3, 0));
            assert_eq!(crate::read_executions(&executions, 3), expected);
        }
    }
}

/// A full book of reserve orders, each of which shows and hides so many shares.
fn full_book(shown: u32, hidden: u32) -> Market {
    let mut market = Market::new(256);
    let order = format!("R {shown}+{hidden}/{shown}");
    for number in 1..=256 {
        market.accept(SELL, number, PRICE, &order);
    }
    market
}

/// 512 executions of 16 bytes are 8,192 bytes.
#[test]
fn a_full_book_executes_twice_an_order() {
    for (shown, hidden, paragraphs) in [(100, 100, [2, 4]), (7, 5, [3, 6]), (100, 5, [2, 6])] {
        let market = full_book(shown, hidden);
        let part = |paragraph, shares| (1..=256).map(move |order| (paragraph, order, shares));
        let fills = |paragraphs: [u8; 2]| -> Vec<(u8, u32, u32)> {
            part(paragraphs[0], shown)
                .chain(part(paragraphs[1], hidden))
                .collect()
        };
        let size = 256 * (shown + hidden);
        buy(&market, size, 1, &fills([2, 3]), &[]);
        buy(&market, size, 2, &fills(paragraphs), &[]);
        buy(&market, size, 3, &fills(paragraphs), &[]);
        take_refused(&market, 8, [BUY, PRICE, size, 2], 8_191);
    }
}

#[test]
fn a_full_book_is_refreshed_whole() {
    let market = full_book(100, 140);
    let fills: Vec<(u8, u32, u32)> = (1..=256).map(|order| (2, order, 100)).collect();
    let rests: Vec<Rest> = (1..=256)
        .map(|order| (order, 100, 40, order == 1))
        .collect();
    for algorithm in 1..=3 {
        buy(&market, 25_600, algorithm, &fills, &rests);
    }
}
