//! Every byte of a small book, and of its ladder, changed, and every length of a
//! target around its limits.

use crate::calls::Call;
use crate::compare::{Entry, Lending};
use crate::maker::Maker;
use model::book::{self, Form, Order, RECORD_LENGTH};
use model::ladder::ROW_LENGTH;
use model::LADDER_LENGTH;

/// Records of a small book.
const RECORDS: usize = 7;

/// An order of each kind, of both sides and both securities, with a free record
/// behind. Three are marked, two of them at one price.
fn small_book() -> Vec<u8> {
    let mut book = vec![0; RECORDS * RECORD_LENGTH];
    let orders = [
        [2, 4, 0x0102_0304, 100_100, 600, 0, 70_000, 600, 0],
        [2, 1, 0x0102_0305, 100_000, 300, 0, 0, 0, 0],
        [2, 2, 0x0102_0306, 100_000, 50, 0, 0, 0, 1],
        [2, 3, 0x0102_0307, 100_000, 400, 300, 0, 0, 0],
        [2, 4, 0x0102_0308, 100_000, 100, 0, 30, 100, 1],
        [1, 2, 0x0102_0309, 99_900, 70_000, 0, 0, 0, 0],
    ];
    for order in orders {
        assert_eq!(model::add(&mut book, order), 0, "the book can be made");
    }
    book
}

/// A call of each kind that looks at the whole book.
const CALLS: [Call; 3] = [
    Call::Check([0]),
    Call::Reduce([1, 0x0102_0308, 50]),
    Call::Take([1, 100_100, 1_600, 3, 0]),
];

/// A form of each kind that is accepted with the ladder of security 0.
const FORMS: [Call; 3] = [
    Call::AddLadder([2, 4, 0x0102_030A, 100_000, 100, 0, 40, 100, 0]),
    Call::ReduceLadder([0, 0x0102_0304, 50]),
    Call::TakeLadder([1, 100_100, 1_600, 3, 0]),
];

/// That ladder has three rows. Up to the end of the one behind them
/// each byte is made every other value, and further on these.
const EVERY_VALUE: usize = 4 * ROW_LENGTH;
const SOME_VALUES: [u8; 4] = [1, 0x4C, 0x80, 0xFF];

/// The small book in this form, with each reserve order as a displayed one of what
/// it shows, and those of security 1 without marks as of security 0.
fn small_book_in(form: Form) -> Vec<u8> {
    let orders = book::read(&small_book()).expect("a sound book");
    let told = |order: &Order| Order {
        security: 0,
        setter: order.setter && order.security == 0,
        ..order.parts()[0]
    };
    let orders: Vec<Order> = orders.iter().map(told).collect();
    let mut book = vec![0; RECORDS * form.record_length()];
    book::write_in(form, &mut book, &orders);
    book
}

/// Small books and the call that turns each into the other form, or refuses to.
fn turnings() -> [(Call, Vec<u8>); 3] {
    [
        (Call::ToNew, small_book_in(Form::Old)),
        (Call::ToOld, small_book_in(Form::New)),
        (Call::ToOld, small_book()),
    ]
}

/// Makes a call. Gives its refusal number.
fn make(maker: &mut Maker, entry: Entry) -> Result<usize, String> {
    let lending = Lending {
        again: None,
        read_only: false,
    };
    let outcome = maker.make(&entry, lending)?;
    Ok(outcome.refusal())
}

fn with_ladder(call: Call, book: &[u8], ladder: &[u8]) -> Entry {
    Entry {
        executions: vec![0x5A; 140],
        ladder: ladder.to_vec(),
        ..Entry::of(call, book.to_vec())
    }
}

fn with_target(call: Call, book: &[u8], length: usize) -> Entry {
    Entry {
        target: vec![0x5A; length],
        ..Entry::of(call, book.to_vec())
    }
}

/// Does something with each change of a byte: every byte with every other value.
fn each_change(
    bytes: &[u8],
    mut act: impl FnMut(&[u8]) -> Result<(), String>,
) -> Result<(), String> {
    let mut changed = bytes.to_vec();
    for place in 0..bytes.len() {
        for value in (0..=u8::MAX).filter(|&value| value != bytes[place]) {
            changed[place] = value;
            act(&changed).map_err(|difference| told(place, value, &difference))?;
        }
        changed[place] = bytes[place];
    }
    Ok(())
}

/// Makes each call on each changed book. Fails at the first difference.
pub fn books(maker: &mut Maker) -> Result<(), String> {
    each_change(&small_book(), |changed| {
        let mut calls = CALLS.iter();
        calls.try_for_each(|&call| make(maker, with_ladder(call, changed, &[])).map(drop))
    })
}

/// Turns each changed book into the other form. Fails at the first difference.
pub fn turned_books(maker: &mut Maker) -> Result<(), String> {
    for (call, book) in turnings() {
        let length = RECORDS * call.form().other().record_length();
        each_change(&book, |changed| {
            make(maker, with_target(call, changed, length)).map(drop)
        })?;
    }
    Ok(())
}

/// Turns small books, and empty ones, into targets of every length up to more than
/// they need, and around the longest. Fails at the first difference.
pub fn targets(maker: &mut Maker) -> Result<(), String> {
    for (call, book) in turnings() {
        let record = call.form().other().record_length();
        let lengths = (0..=record * (RECORDS + 1)).chain(record * 255..=record * 258);
        for length in lengths {
            let free = &book[book.len() - call.form().record_length()..];
            for source in [&book[..], free, &[]] {
                make(maker, with_target(call, source, length))?;
            }
        }
    }
    Ok(())
}

/// Makes the forms by turns with each changed ladder. Fails at the first
/// difference, and where a form isn't refused 10.
pub fn ladders(maker: &mut Maker) -> Result<(), String> {
    let book = small_book();
    let mut ladder = vec![0; LADDER_LENGTH];
    assert_eq!(model::ladder(&book, &mut ladder, 0), 0, "a sound book");
    let mut forms = FORMS.iter().cycle();
    for place in 0..LADDER_LENGTH {
        let values: Vec<u8> = match place {
            0..EVERY_VALUE => (0..=u8::MAX).collect(),
            _ => SOME_VALUES.to_vec(),
        };
        for value in values.into_iter().filter(|&value| value != ladder[place]) {
            let mut changed = ladder.clone();
            changed[place] = value;
            let form = *forms.next().expect("forms without end");
            let refusal = make(maker, with_ladder(form, &book, &changed))
                .map_err(|difference| told(place, value, &difference))?;
            if refusal != 10 {
                return Err(told(place, value, &format!("{form:?}: {refusal}")));
            }
        }
    }
    Ok(())
}

fn told(place: usize, value: u8, difference: &str) -> String {
    format!("byte {place} made {value}\n{difference}")
}
