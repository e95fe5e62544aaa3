//! What occurred in the calls that are lent a ladder.

use crate::calls::{self, Call};
use crate::compare::{self, Entry, Outcome};
use model::book::{Order, Side};
use model::ladder::{self, Row};
use model::LADDER_LENGTH;
use support::Coverage;

/// The forms that keep a ladder, and what their plain calls can answer behind
/// refusal 2; 0 is an accepted call.
const FORMS: [(&str, &[usize]); 3] = [
    ("add_ladder", &[0, 4, 5, 6]),
    ("reduce_ladder", &[0, 3, 7]),
    ("take_ladder", &[0, 8]),
];

/// What can be wrong with a ladder beside what comes first.
const ANOTHER_LENGTH: &str = "a ladder of another length";
const ANOTHER_BOOKS: &str = "a ladder that isn't the book's";

/// What every accepted call with a ladder meets, before it or behind it.
type Meets = fn(&[Row]) -> bool;
const MEETINGS: [(&str, Meets); 7] = [
    ("no rows", |rows| rows.is_empty()),
    ("256 rows", |rows| rows.len() == 256),
    ("256 orders in a row", |rows| {
        rows.iter().any(|row| row.orders == 256)
    }),
    ("rows of both sides", |rows| {
        rows.first().map(|row| row.side) != rows.last().map(|row| row.side)
    }),
    ("displayed and other shares in a row", |rows| {
        rows.iter().any(|row| row.displayed > 0 && row.other > 0)
    }),
    ("displayed shares beyond three bytes", |rows| {
        rows.iter().any(|row| row.displayed >= 1 << 24)
    }),
    ("other shares beyond three bytes", |rows| {
        rows.iter().any(|row| row.other >= 1 << 24)
    }),
];

const SELLS_THINNED: &str = "take_ladder: a level of sells emptied, the next thinned, both kinds";
const BUYS_THINNED: &str = "take_ladder: a level of buys emptied, the next thinned, both kinds";

const OCCASIONS: [&str; 15] = [
    "ladder: the same as stood there",
    "ladder: written over other bytes",
    "ladder: sells and buys of one price",
    "add_ladder: a row made before all others",
    "add_ladder: a row made between others",
    "add_ladder: a row made behind all others",
    "add_ladder: an order put in a row",
    "reduce_ladder: a level's only order left",
    "reduce_ladder: an order left a level that stays",
    "reduce_ladder: a level thinned",
    "take_ladder: nothing executed",
    SELLS_THINNED,
    BUYS_THINNED,
    "take_ladder: an order left a level that stays",
    "take_ladder: a level stays between two that are emptied",
];

pub fn expect(coverage: &mut Coverage) {
    for (form, answers) in FORMS {
        for wrong in [ANOTHER_LENGTH, ANOTHER_BOOKS] {
            coverage.expect(refused_beside(form, 1, wrong));
            coverage.expect(refused_beside(form, 2, wrong));
        }
        for &plain in answers {
            coverage.expect(refused_before(form, 9, plain));
            coverage.expect(refused_before(form, 10, plain));
        }
    }
    coverage.expect(refused_beside("ladder", 1, ANOTHER_LENGTH));
    coverage.expect(refused_beside("ladder", 2, ANOTHER_LENGTH));
    for (name, _) in FORMS.iter().chain(&[("ladder", &[][..])]) {
        for (meeting, _) in MEETINGS {
            coverage.expect(met(name, meeting));
        }
    }
    for occasion in OCCASIONS {
        coverage.expect(occasion);
    }
}

/// Refused for the numbers or the book, though the ladder is wrong too.
fn refused_beside(name: &str, refusal: usize, wrong: &str) -> String {
    format!("{name}: refused {refusal} with {wrong}")
}

/// Refused for the ladder, where the plain call answers so.
fn refused_before(name: &str, refusal: usize, plain: usize) -> String {
    match plain {
        0 => format!("{name}: refused {refusal}, the plain call accepted"),
        plain => format!("{name}: refused {refusal}, the plain call refused {plain}"),
    }
}

fn met(name: &str, meeting: &str) -> String {
    format!("{name}: {meeting}")
}

/// Notes a refused call that is lent a ladder.
pub fn note_refused(coverage: &mut Coverage, entry: &Entry, outcome: &Outcome) {
    let name = entry.call.name();
    match outcome.refusal() {
        first @ (1 | 2) if entry.ladder.len() != LADDER_LENGTH => {
            coverage.note(refused_beside(name, first, ANOTHER_LENGTH));
        }
        first @ (1 | 2) if !is_the_books(entry) => {
            coverage.note(refused_beside(name, first, ANOTHER_BOOKS));
        }
        refusal @ (9 | 10) if entry.call.is_form() => {
            let mut plain = entry.clone();
            plain.call = entry.call.plain();
            let plain = compare::by_model(&plain).refusal();
            coverage.note(refused_before(name, refusal, plain));
        }
        _ => {}
    }
}

/// Whether the ladder at entry is what the new call makes of the book. An unsound
/// book has none, and no security has none either.
fn is_the_books(entry: &Entry) -> bool {
    let mut new = vec![0; LADDER_LENGTH];
    let security = entry.call.security().expect("a call with a ladder");
    model::ladder(&entry.book, &mut new, security) == 0 && new == entry.ladder
}

/// Notes an accepted call that is lent a ladder, of a book that has these orders
/// before and after it.
pub fn note_accepted(
    coverage: &mut Coverage,
    entry: &Entry,
    outcome: &Outcome,
    orders: [&[Order]; 2],
) {
    let security = entry.call.security().expect("a call with a ladder");
    let orders = orders.map(|orders| calls::of_security(orders, security));
    let [before, after] = orders.each_ref().map(|orders| ladder::rows(orders));
    let name = entry.call.name();
    for (meeting, meets) in MEETINGS {
        if meets(&before) || meets(&after) {
            coverage.note(met(name, meeting));
        }
    }
    match entry.call.plain() {
        Call::Ladder(_) => note_new(coverage, entry, outcome, &before),
        Call::Add(_) => coverage.note(addition(&before, &after)),
        Call::Reduce(_) => coverage.note(reduction(&before, &after)),
        Call::Take([taker, ..]) => {
            let nothing = entry.book == outcome.book;
            coverage.note_if(nothing, "take_ladder: nothing executed");
            note_levels(coverage, taker, &before, &after);
        }
        _ => {}
    }
}

fn note_new(coverage: &mut Coverage, entry: &Entry, outcome: &Outcome, rows: &[Row]) {
    coverage.note(match entry.ladder == outcome.ladder {
        true => "ladder: the same as stood there",
        false => "ladder: written over other bytes",
    });
    let twice = |row: &Row| {
        let of_price = rows.iter().filter(|other| other.price == row.price);
        of_price.count() > 1
    };
    let both = rows.iter().any(twice);
    coverage.note_if(both, "ladder: sells and buys of one price");
}

/// Where add put its order.
fn addition(before: &[Row], after: &[Row]) -> &'static str {
    let made = after.iter().position(|row| row_of(row, before).is_none());
    match made {
        None => "add_ladder: an order put in a row",
        Some(place) if place + 1 == after.len() => "add_ladder: a row made behind all others",
        Some(0) => "add_ladder: a row made before all others",
        Some(_) => "add_ladder: a row made between others",
    }
}

fn reduction(before: &[Row], after: &[Row]) -> &'static str {
    let orders = |rows: &[Row]| rows.iter().map(|row| row.orders).sum::<u16>();
    if after.len() < before.len() {
        "reduce_ladder: a level's only order left"
    } else if orders(after) < orders(before) {
        "reduce_ladder: an order left a level that stays"
    } else {
        "reduce_ladder: a level thinned"
    }
}

/// The row of the same side and price.
fn row_of(row: &Row, rows: &[Row]) -> Option<Row> {
    let same = |other: &&Row| (other.side, other.price) == (row.side, row.price);
    rows.iter().find(same).copied()
}

/// What a take did to the levels of the other side, which stand in its order.
fn note_levels(coverage: &mut Coverage, taker: u32, before: &[Row], after: &[Row]) {
    let opposite = before.iter().filter(|row| row.side as u32 != taker);
    let levels: Vec<(Row, Option<Row>)> = opposite.map(|row| (*row, row_of(row, after))).collect();
    for two in levels.windows(2) {
        if let [(one, None), (next, Some(rest))] = two {
            let displayed = one.displayed + next.displayed > rest.displayed;
            let other = one.other + next.other > rest.other;
            let thinned = match one.side {
                Side::Sell => SELLS_THINNED,
                Side::Buy => BUYS_THINNED,
            };
            coverage.note_if(rest != next && displayed && other, thinned);
        }
    }
    let left = |(row, rest): &(Row, Option<Row>)| rest.is_some_and(|rest| rest.orders < row.orders);
    let fewer = levels.iter().any(left);
    coverage.note_if(fewer, "take_ladder: an order left a level that stays");
    let between = |three: &[(Row, Option<Row>)]| {
        three[0].1.is_none() && three[1].1 == Some(three[1].0) && three[2].1.is_none()
    };
    coverage.note_if(
        levels.windows(3).any(between),
        "take_ladder: a level stays between two that are emptied",
    );
}
