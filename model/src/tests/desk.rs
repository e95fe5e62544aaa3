//! A desk: a market with a security's ladder beside its book, and the forms that
//! keep it.

use super::ladders::{assert_same, ladder_of, new_ladder_of, Level};
use super::{described, Market, BUY, PRICE, SECURITY, SELL};

/// A market with a security's ladder beside its book.
#[derive(Clone)]
pub struct Desk {
    pub market: Market,
    pub security: u32,
    pub ladder: Vec<u8>,
}

#[derive(Clone, Copy, Debug)]
pub enum Form {
    Add([u32; 9]),
    /// Security, number and shares.
    Reduce([u32; 3]),
    Take([u32; 5]),
}

impl Form {
    /// The form's numbers and what it leaves.
    pub fn kept(self, desk: &Desk) -> (Desk, [u32; 3]) {
        let mut after = desk.clone();
        let Desk { market, ladder, .. } = &mut after;
        let numbers = match self {
            Form::Add(order) => [crate::add_ladder(&mut market.book, ladder, order), 0, 0],
            Form::Reduce([security, number, shares]) => {
                let book = &mut market.book;
                let refusal = crate::reduce_ladder(book, ladder, security, number, shares);
                [refusal, 0, 0]
            }
            Form::Take(incoming) => {
                let Market { book, executions } = market;
                let taken = crate::take_ladder(book, executions, ladder, incoming);
                [taken.0, taken.1, taken.2]
            }
        };
        (after, numbers)
    }

    /// The plain call's numbers and what it leaves.
    fn plain(self, market: &Market) -> (Market, [u32; 3]) {
        let mut after = market.clone();
        let Market { book, executions } = &mut after;
        let numbers = match self {
            Form::Add(order) => [crate::add(book, order), 0, 0],
            Form::Reduce([security, number, shares]) => {
                [crate::reduce(book, security, number, shares), 0, 0]
            }
            Form::Take(incoming) => {
                let taken = crate::take(book, executions, incoming);
                [taken.0, taken.1, taken.2]
            }
        };
        (after, numbers)
    }
}

impl Desk {
    pub fn of(market: Market) -> Desk {
        Desk::of_security(market, SECURITY)
    }

    pub fn of_security(market: Market, security: u32) -> Desk {
        let ladder = new_ladder_of(&market, security);
        Desk {
            market,
            security,
            ladder,
        }
    }

    /// A desk of these orders: side, price and what is written.
    pub fn with(orders: &[(u32, u32, &str)]) -> Desk {
        let mut market = Market::new(8);
        for (place, &(side, price, order)) in orders.iter().enumerate() {
            market.accept(side, place as u32 + 1, price, order);
        }
        Desk::of(market)
    }

    fn same_bytes(&self, other: &Desk) -> bool {
        self.market.book == other.market.book
            && self.market.executions == other.market.executions
            && self.ladder == other.ladder
    }

    /// Asserts that the form does what the plain call does, and leaves the ladder
    /// with these rows, which are those that the new call makes.
    pub fn accept(&mut self, form: Form, levels: &[Level]) {
        let (plain, plain_numbers) = form.plain(&self.market);
        let (after, numbers) = form.kept(self);
        assert_eq!(numbers[0], 0, "{form:?}");
        assert_eq!(numbers, plain_numbers, "{form:?}");
        assert_eq!(after.market.book, plain.book, "{form:?}");
        assert_eq!(after.market.executions, plain.executions, "{form:?}");
        assert_same(&after.ladder, &ladder_of(levels));
        assert_same(&after.ladder, &new_ladder_of(&after.market, self.security));
        *self = after;
    }

    /// Asserts a refusal with zeros behind it that changes no byte.
    pub fn refuse(&self, refusal: u32, form: Form) {
        let (after, numbers) = form.kept(self);
        assert_eq!(numbers, [refusal, 0, 0], "{form:?}");
        assert!(after.same_bytes(self), "{form:?}");
    }

    /// The desk with one byte of the ladder changed.
    pub fn with_wrong_byte(&self, place: usize) -> Desk {
        let mut wrong = self.clone();
        wrong.ladder[place] ^= 1;
        wrong
    }

    pub fn with_length(&self, length: usize) -> Desk {
        let mut wrong = self.clone();
        wrong.ladder.resize(length, 0);
        wrong
    }
}

pub fn add(side: u32, number: u32, price: u32, order: &str) -> Form {
    Form::Add(described(side, number, price, order))
}

pub const fn reduce(number: u32, shares: u32) -> Form {
    Form::Reduce([SECURITY, number, shares])
}

pub const fn take(side: u32, limit: u32, size: u32, algorithm: u32) -> Form {
    Form::Take([side, limit, size, algorithm, SECURITY])
}

/// Two sells at each of two prices, one displayed and one not, and a buy.
pub fn two_levels() -> Desk {
    Desk::with(&[
        (SELL, PRICE + 1, "D 300"),
        (SELL, PRICE, "H 200"),
        (SELL, PRICE + 1, "M 400/10"),
        (SELL, PRICE, "D 100"),
        (BUY, PRICE - 1, "D 700"),
    ])
}

pub const UPPER: Level = [SELL, PRICE + 1, 300, 400, 2];
pub const LOWER: Level = [SELL, PRICE, 100, 200, 2];
pub const BID: Level = [BUY, PRICE - 1, 700, 0, 1];
