//! Compares a convert program with the model's convert, byte for byte.
//!
//! `converts PROGRAM [INPUTS [FIRST SEED]]` runs the program on fixed books and on
//! so many random ones.

mod inputs;

use model::book::{self, Form, LONGEST_BOOK, MOST_ORDERS};
use std::process::ExitCode;
use support::{Comparison, Coverage};

/// What a sound book is like that has so many records and orders.
type Meets = fn(usize, usize) -> bool;

const SOUND: [(&str, Meets); 6] = [
    ("no orders", |_, orders| orders == 0),
    ("one order", |_, orders| orders == 1),
    ("no free record", |records, orders| {
        records == orders && orders > 0
    }),
    ("free records behind orders", |records, orders| {
        records > orders && orders > 0
    }),
    ("256 free records", |records, orders| {
        records == MOST_ORDERS && orders == 0
    }),
    ("256 orders", |_, orders| orders == MOST_ORDERS),
];

const NO_BYTES: &str = "input of no bytes";
const IN_BOTH_FORMS: &str = "zeros that are a book in both forms";
const TOO_LONG: &str = "input of more than 10,240 bytes";
const REFUSALS: [&str; 2] = ["refused 2", "refused 11"];

fn main() -> ExitCode {
    let comparison = Comparison {
        model: model::convert,
        sample: inputs::small_book(Form::Old),
        fixed: inputs::fixed(),
        inputs: 3_000,
        random: inputs::random,
        note,
        coverage: expected(),
    };
    comparison.run()
}

fn expected() -> Coverage {
    let mut coverage = Coverage::default();
    for form in [Form::Old, Form::New] {
        inputs::expect_damages(&mut coverage, form);
        for (meeting, _) in SOUND {
            coverage.expect(turned(form, meeting));
        }
    }
    for occasion in [NO_BYTES, IN_BOTH_FORMS, TOO_LONG] {
        coverage.expect(occasion);
    }
    for refusal in REFUSALS {
        coverage.expect(printed(refusal));
    }
    coverage
}

fn turned(form: Form, meeting: &str) -> String {
    format!("{form:?} book turned: {meeting}")
}

fn printed(refusal: &str) -> String {
    format!("printed: {refusal}")
}

/// Notes what an input was, and what came of it.
fn note(coverage: &mut Coverage, input: &[u8], output: &[u8]) {
    let refusal = REFUSALS
        .iter()
        .find(|refusal| output == format!("{refusal}\n").as_bytes());
    if let Some(refusal) = refusal {
        coverage.note(printed(refusal));
        coverage.note_if(input.len() > LONGEST_BOOK, TOO_LONG);
        return;
    }
    let orders = |form| book::read_in(form, input).map(|orders| orders.len());
    let (form, orders) = match (orders(Form::Old), orders(Form::New)) {
        (Ok(old), new) => {
            coverage.note_if(input.is_empty(), NO_BYTES);
            coverage.note_if(new.is_ok() && !input.is_empty(), IN_BOTH_FORMS);
            (Form::Old, old)
        }
        (_, new) => (Form::New, new.expect("a book that was turned")),
    };
    for (meeting, meets) in SOUND {
        if meets(input.len() / form.record_length(), orders) {
            coverage.note(turned(form, meeting));
        }
    }
}
