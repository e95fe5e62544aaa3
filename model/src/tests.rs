//! The scope's cases, its refusals in their order, the readings of the rule that
//! it rules out, what each paragraph of the rule says, what executions name, the
//! ladder beside the book, reserve orders, old books, and two securities in one
//! book.

mod books;
mod cases;
mod conversions;
mod desk;
mod executions;
mod keeping;
mod keeping_refused;
mod ladders;
mod leaving;
mod lines;
mod old_books;
mod paragraphs;
mod readings;
mod refusals;
mod reserve_books;
mod reserves;
mod securities;
mod security_entries;
mod security_ladders;
mod security_takes;
mod setters;

use crate::book::{self, Kind, Order, RECORD_LENGTH};

const PRICE: u32 = 100_000;
const BUY: u32 = 1;
const SELL: u32 = 2;
/// The security of a market, where nothing else is said.
const SECURITY: u32 = 0;

/// A market of one book, made by add, with room for executions.
#[derive(Clone)]
struct Market {
    book: Vec<u8>,
    executions: Vec<u8>,
}

impl Market {
    fn new(records: usize) -> Market {
        Market {
            book: vec![0; records * RECORD_LENGTH],
            executions: vec![0xEE; 8_192],
        }
    }

    /// Orders of a side at the usual price, numbered from 1, with commas between.
    fn of_side(side: u32, orders: &str) -> Market {
        let mut market = Market::new(8);
        for (place, order) in orders.split(", ").enumerate() {
            market.accept(side, place as u32 + 1, PRICE, order);
        }
        market
    }

    fn of_sells(sells: &str) -> Market {
        Market::of_side(SELL, sells)
    }

    fn add(&mut self, side: u32, number: u32, price: u32, order: &str) -> u32 {
        crate::add(&mut self.book, described(side, number, price, order))
    }

    fn accept(&mut self, side: u32, number: u32, price: u32, order: &str) {
        assert_eq!(self.add(side, number, price, order), 0, "{order}");
    }

    /// The price and shares of each execution, in order, and the shares left.
    fn take(
        &mut self,
        side: u32,
        limit: u32,
        size: u32,
        algorithm: u32,
    ) -> (Vec<(u32, u32, u32)>, u32) {
        let incoming = [side, limit, size, algorithm, SECURITY];
        let (refusal, count, left) = crate::take(&mut self.book, &mut self.executions, incoming);
        assert_eq!(refusal, 0);
        let fills = crate::read_executions(&self.executions, count);
        let fills = fills
            .iter()
            .map(|fill| (fill.number, fill.price, fill.shares));
        (fills.collect(), left)
    }

    /// What orders 1, 2 and so on get when a buy at the usual price comes in.
    fn shares_of_buy(&self, size: u32, algorithm: u32) -> Vec<u32> {
        self.shares_of(BUY, size, algorithm)
    }

    fn shares_of(&self, side: u32, size: u32, algorithm: u32) -> Vec<u32> {
        let fills = self.clone().take(side, PRICE, size, algorithm).0;
        let shares = |number| {
            let fill = fills.iter().find(|fill| fill.0 == number);
            fill.map_or(0, |fill| fill.2)
        };
        self.orders()
            .iter()
            .map(|order| shares(order.number))
            .collect()
    }

    /// Takes shares from an order. Gives the refusal number.
    fn reduce(&mut self, number: u32, shares: u32) -> u32 {
        crate::reduce(&mut self.book, SECURITY, number, shares)
    }

    fn orders(&self) -> Vec<Order> {
        book::read(&self.book).expect("a sound book")
    }

    /// Size and minimum of an order, 0 for none.
    fn rests(&self, number: u32) -> (u32, u32) {
        let orders = self.orders();
        let order = orders.iter().find(|order| order.number == number);
        order.map_or((0, 0), |order| match order.kind {
            Kind::MinimumQuantity { minimum } => (order.size, minimum),
            _ => (order.size, 0),
        })
    }
}

/// What add takes for an order written as "D 600", "H 50", "M 500/400" with its
/// minimum, or "R 100+250/100" with shown shares, hidden shares and refresh size.
fn described(side: u32, number: u32, price: u32, order: &str) -> [u32; 9] {
    let (letter, numbers) = order.split_once(' ').expect("a letter and a size");
    let (shares, last) = numbers.split_once('/').unwrap_or((numbers, "0"));
    let (size, hidden) = shares.split_once('+').unwrap_or((shares, "0"));
    let [size, hidden, last] = [size, hidden, last].map(|text| text.parse().expect("a number"));
    let (kind, minimum, refresh) = match letter {
        "D" => (1, 0, 0),
        "H" => (2, 0, 0),
        "M" => (3, last, 0),
        _ => (4, 0, last),
    };
    [
        side, kind, number, price, size, minimum, hidden, refresh, SECURITY,
    ]
}
