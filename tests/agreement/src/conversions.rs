//! Rounds that turn a book from one form into the other, and back.

use crate::calls::Call;
use crate::compare::{Entry, Lending, Outcome};
use crate::maker::Maker;
use crate::rounds;
use crate::tally;
use books::{Book, Making, Shape};
use model::book::{self, Form, MOST_ORDERS};
use std::ops::Range;
use support::Random;

/// Targets that the book of a round is turned into.
const TARGETS: usize = 3;

/// Rounds that have the form and the making of their books in common.
pub struct Group {
    pub name: &'static str,
    form: Form,
    making: Making,
    /// One in so many rounds is run.
    one_in: usize,
}

pub fn all() -> Vec<Group> {
    [
        ("old books turned", Form::Old, Making::Built, 1),
        ("full old books turned", Form::Old, Making::Full, 4),
        ("tiny old books turned", Form::Old, Making::Tiny, 1),
        ("damaged old books turned", Form::Old, Making::Damaged, 1),
        ("new books turned", Form::New, Making::Built, 1),
        ("full new books turned", Form::New, Making::Full, 4),
        ("tiny new books turned", Form::New, Making::Tiny, 1),
        ("damaged new books turned", Form::New, Making::Damaged, 1),
    ]
    .map(|(name, form, making, one_in)| Group {
        name,
        form,
        making,
        one_in,
    })
    .into()
}

impl Group {
    /// Runs the rounds of these seeds. Fails at the first difference.
    pub fn run(&self, seeds: Range<u64>, maker: &mut Maker) -> Result<(), String> {
        let seeds = seeds.step_by(self.one_in);
        rounds::each(self.name, seeds, |seed, random| {
            self.round(seed, random, maker)
        })
    }

    fn round(&self, seed: u64, mut random: Random, maker: &mut Maker) -> Result<(), String> {
        let shape = Shape::in_form(&mut random, self.form);
        let mut book = self.making.book(&mut random, &shape, self.form);
        let damaged = self.making == Making::Damaged;
        let damage = damaged.then(|| book.damage(&mut random));
        for _ in 0..TARGETS {
            let length = target_length(&mut random, &book);
            let entry = Entry {
                target: random.bytes(length),
                ..Entry::of(Call::turning(self.form), book.bytes.clone())
            };
            let lending = rounds::lending(seed, &mut random);
            let outcome = maker.make(&entry, lending)?;
            match (outcome.refusal(), damage) {
                (0, _) => {
                    let target = random.bytes(book.bytes.len());
                    turn_back(maker, &entry, outcome, target, lending)?;
                }
                (2, Some(damage)) => {
                    let name = tally::conversions::refused_damage(entry.call, damage);
                    maker.coverage.note(name);
                }
                _ => {}
            }
        }
        Ok(())
    }
}

/// A length for the target of a book: mostly about as many records as the book has
/// orders, or as there may be.
fn target_length(random: &mut Random, book: &Book) -> usize {
    let orders = book.orders.len();
    let records = match random.below(12) {
        0 => orders + 1,
        1 | 2 => orders.saturating_sub(1),
        3 | 4 => book.records(),
        5 => MOST_ORDERS,
        6 => MOST_ORDERS + 1,
        7 => random.below(MOST_ORDERS + 1),
        8 => MOST_ORDERS + random.within(2..=300) as usize,
        _ => orders,
    };
    let length = records * book.form.other().record_length();
    match random.below(16) {
        0 => length.saturating_sub(1),
        1 => length + 1,
        2 => records * book.form.record_length(),
        3 => random.one_of(&[0, 33, 39, 41]),
        _ => length,
    }
}

/// Turns what became of a book back into a target of the book's length: it has to
/// become the same book, and in the new form it has the same number of orders, all of
/// security 0.
fn turn_back(
    maker: &mut Maker,
    entry: &Entry,
    outcome: Outcome,
    target: Vec<u8>,
    lending: Lending,
) -> Result<(), String> {
    let form = entry.call.form();
    let orders = book::read_in(form, &entry.book).map_or(0, |orders| orders.len());
    let back = Entry {
        target,
        ..Entry::of(Call::turning(form.other()), outcome.target)
    };
    let returned = maker.make(&back, lending)?;
    if returned.refusal() != 0 || returned.target != entry.book {
        return Err(String::from("there and back isn't the same book"));
    }
    let new = match form {
        Form::Old => back.book,
        Form::New => returned.target,
    };
    let checked = maker.make(&Entry::of(Call::Check([0]), new), lending)?;
    if checked.numbers != [0, orders, 0] {
        return Err(String::from("there aren't as many orders as before"));
    }
    maker
        .coverage
        .note(tally::conversions::returned(entry.call));
    Ok(())
}
