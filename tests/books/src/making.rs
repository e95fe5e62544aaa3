//! Books, and how they are made.

use crate::damage;
use crate::shapes::Shape;
use model::book::{self, Form, Order, MOST_ORDERS, RECORD_LENGTH};
use support::Random;

/// A book in one of the forms, and the orders that it has, or had before it was
/// spoilt.
pub struct Book {
    pub form: Form,
    pub bytes: Vec<u8>,
    pub orders: Vec<Order>,
}

impl Book {
    /// A sound book of the new form, or the same in the old form if that is asked
    /// for, with as many records.
    fn in_form(form: Form, new: &[u8]) -> Book {
        let orders = book::read(new).expect("a sound book");
        let records = new.len() / RECORD_LENGTH;
        let mut bytes = vec![0; records * form.record_length()];
        book::write_in(form, &mut bytes, &orders);
        Book {
            form,
            bytes,
            orders,
        }
    }

    /// How many records the book has, used or free.
    pub fn records(&self) -> usize {
        self.bytes.len() / self.form.record_length()
    }

    /// How many bytes the records of its orders have.
    pub fn used(&self) -> usize {
        self.orders.len() * self.form.record_length()
    }

    /// Spoils the book in a way that is left to chance. Gives the damage's name.
    pub fn damage(&mut self, random: &mut Random) -> &'static str {
        let (name, damage) = random.one_of(&damage::all(self.form));
        damage(random, self);
        name
    }
}

/// How books are made.
#[derive(Clone, Copy, PartialEq, Eq)]
pub enum Making {
    /// Empty, for calls to fill it.
    Empty,
    Grown,
    Built,
    /// Built, of two to six orders.
    Few,
    Full,
    /// Full or nearly so, with a price for each order.
    Spread,
    /// Full, or of fewer orders with free records behind them; some orders of a
    /// side are better priced than all its others.
    Chosen,
    /// Of no or hardly any records.
    Tiny,
    /// To be damaged.
    Damaged,
}

impl Making {
    /// A sound book of this form, which can tell the shape's kinds.
    pub fn book(self, random: &mut Random, shape: &Shape, form: Form) -> Book {
        Book::in_form(form, &self.new_book(random, shape))
    }

    fn new_book(self, random: &mut Random, shape: &Shape) -> Vec<u8> {
        let records = random.one_of(&[1, 2, 4, 8, 16, 32, 64]);
        let few = random.below(records + 1);
        match self {
            Making::Empty => vec![0; records * RECORD_LENGTH],
            Making::Grown => shape.grown_book(random, records, 2 * records),
            Making::Built => shape.built_book(random, records, few),
            Making::Few => {
                let orders = random.within(2..=6) as usize;
                shape.built_book(random, records.max(orders), orders)
            }
            Making::Full => {
                let free = random.one_of(&[0, 0, 0, 1, 2, 16]);
                shape.built_book(random, MOST_ORDERS, MOST_ORDERS - free)
            }
            Making::Spread => {
                let free = random.one_of(&[0, 0, 1, 2]);
                shape.spread_book(random, MOST_ORDERS, MOST_ORDERS - free)
            }
            Making::Chosen => {
                let fewer = random.within(2..=64) as usize;
                let free = random.one_of(&[1, 2, 16, MOST_ORDERS - fewer]);
                let full = (MOST_ORDERS, MOST_ORDERS);
                let (records, orders) = random.one_of(&[full, (fewer + free, fewer)]);
                shape.chosen_book(random, records, orders)
            }
            Making::Tiny => {
                let records = random.one_of(&[0, 0, 1, 2, 3]);
                shape.grown_book(random, records, records)
            }
            Making::Damaged => {
                let records = random.one_of(&[records, records, MOST_ORDERS]);
                let orders = random.one_of(&[few, records]);
                shape.built_book(random, records, orders)
            }
        }
    }
}
