//! What a convert program is run on: fixed books, and random ones of both forms,
//! sound and damaged.

use books::{damage, Making, Shape};
use model::book::{self, Form, Order, MOST_ORDERS};
use support::{Coverage, Random};

/// Lengths of zeros: those of books in one form, in both and in none, up to the
/// limits and beyond.
const ZEROS: [usize; 28] = [
    0, 1, 31, 32, 33, 39, 40, 41, 64, 80, 159, 160, 161, 320, 8_160, 8_191, 8_192, 8_193, 8_200,
    8_224, 10_200, 10_208, 10_239, 10_240, 10_241, 10_272, 10_280, 200_000,
];

/// Side, kind, size, minimum, hidden shares, refresh size and security of some orders.
const DISPLAYED: [u32; 7] = [2, 1, 600, 0, 0, 0, 0];
const NON_DISPLAYED: [u32; 7] = [2, 2, 70_000, 0, 0, 0, 0];
const MINIMUM: [u32; 7] = [2, 3, 500, 400, 0, 0, 0];
const RESERVE: [u32; 7] = [2, 4, 100, 0, 250, 100, 0];
const RESERVE_WITHOUT_HIDDEN: [u32; 7] = [2, 4, 100, 0, 0, 100, 0];
const OF_SECURITY_1: [u32; 7] = [2, 1, 600, 0, 0, 0, 1];

/// A book of this form with so many records and these orders, of which the first
/// is marked.
fn book_of(form: Form, records: usize, orders: &[[u32; 7]]) -> Vec<u8> {
    let order = |(number, numbers): (u32, &[u32; 7])| {
        let [side, kind, size, minimum, hidden, refresh, security] = *numbers;
        let numbers = [
            side, kind, number, 100_000, size, minimum, hidden, refresh, security,
        ];
        let order = Order::of_numbers(numbers).expect("numbers within their ranges");
        Order {
            setter: number == 1,
            ..order
        }
    };
    let orders: Vec<Order> = (1..).zip(orders).map(order).collect();
    let mut book = vec![0; records * form.record_length()];
    book::write_in(form, &mut book, &orders);
    book
}

/// An order of each kind that both forms can tell, one of them marked, and a free
/// record.
pub fn small_book(form: Form) -> Vec<u8> {
    book_of(form, 4, &[DISPLAYED, NON_DISPLAYED, MINIMUM])
}

pub fn fixed() -> Vec<(String, Vec<u8>)> {
    let full = |form, more| {
        let book = book_of(form, MOST_ORDERS, &[DISPLAYED; MOST_ORDERS]);
        [book, vec![0; more]].concat()
    };
    let full_but_last = |last| {
        let mut orders = [DISPLAYED; MOST_ORDERS];
        orders[MOST_ORDERS - 1] = last;
        book_of(Form::New, MOST_ORDERS, &orders)
    };
    let reserve = book_of(Form::New, 2, &[DISPLAYED, RESERVE]);
    let mut unsound = reserve.clone();
    unsound[31] = 1;
    let mut of_no_security = small_book(Form::New);
    of_no_security[21] = 2;
    let books = [
        ("a small old book", small_book(Form::Old)),
        ("a small new book", small_book(Form::New)),
        ("a full old book", full(Form::Old, 0)),
        ("a full new book", full(Form::New, 0)),
        ("a full old book, and a byte", full(Form::Old, 1)),
        ("a full new book, and a byte", full(Form::New, 1)),
        ("a full old book, and 32 bytes", full(Form::Old, 32)),
        ("a full new book, and 40 bytes", full(Form::New, 40)),
        ("a reserve order", reserve),
        ("an unsound book with a reserve order", unsound),
        (
            "a reserve order that hides nothing",
            book_of(Form::New, 1, &[RESERVE_WITHOUT_HIDDEN]),
        ),
        (
            "a full book whose last is a reserve order",
            full_but_last(RESERVE),
        ),
        (
            "an order of security 1",
            book_of(Form::New, 1, &[OF_SECURITY_1]),
        ),
        (
            "a full book whose last is of security 1",
            full_but_last(OF_SECURITY_1),
        ),
        ("an order of no security", of_no_security),
    ];
    let books = books.map(|(name, bytes)| (name.to_string(), bytes));
    let zeros = ZEROS.map(|length| (format!("{length} zeros"), vec![0; length]));
    books.into_iter().chain(zeros).collect()
}

const MAKINGS: [Making; 8] = [
    Making::Empty,
    Making::Tiny,
    Making::Grown,
    Making::Built,
    Making::Full,
    Making::Damaged,
    Making::Damaged,
    Making::Damaged,
];

/// A random book; damage that makes it unsound is noted.
pub fn random(random: &mut Random, coverage: &mut Coverage) -> Vec<u8> {
    let form = random.one_of(&[Form::Old, Form::New]);
    let shape = Shape::in_form(random, form);
    let making = random.one_of(&MAKINGS);
    let mut book = making.book(random, &shape, form);
    match making {
        Making::Damaged => {
            let damage = book.damage(random);
            let unsound = book::read_in(form, &book.bytes).is_err();
            coverage.note_if(unsound, &damaged(form, damage));
        }
        Making::Empty => {
            let records = random.below(MOST_ORDERS + 2);
            book.bytes.resize(records * form.record_length(), 0);
        }
        _ => {}
    }
    book.bytes
}

pub fn expect_damages(coverage: &mut Coverage, form: Form) {
    for (damage, _) in damage::all(form) {
        coverage.expect(damaged(form, damage));
    }
}

fn damaged(form: Form, damage: &str) -> String {
    format!("{form:?} book made unsound: {damage}")
}
