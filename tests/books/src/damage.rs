//! Ways in which a sound book is spoilt.

use crate::making::Book;
use model::book::{self, Form, Kind, Order, HIGHEST_PRICE, LARGEST_SIZE, MOST_ORDERS};
use support::Random;

/// Places of a record.
const SIDE: usize = 2;
const KIND: usize = 3;
const NUMBER: usize = 4;
const PRICE: usize = 8;
const SIZE: usize = 12;
const MINIMUM: usize = 16;
const SETTER: usize = 20;
const SECURITY: usize = 21;
const HIDDEN: usize = 32;
const REFRESH: usize = 36;

/// Spoils a sound book. One with too few orders or records for it may stay as it
/// is.
pub type Damage = fn(&mut Random, &mut Book);

/// The least length that is a whole number of records in both forms.
const WHOLE_IN_BOTH: usize = 160;

/// Every kind of damage, with its name, to a book of this form.
pub fn all(form: Form) -> Vec<(&'static str, Damage)> {
    let others: &[(&str, Damage)] = match form {
        Form::Old => &TO_OLD_FORM,
        Form::New => &TO_NEW_FORM,
    };
    [&TO_BOTH_FORMS, others].concat()
}

const TO_BOTH_FORMS: [(&str, Damage); 25] = [
    ("one byte changed", |random, book| {
        let used = book.used();
        change_a_byte(random, &mut book.bytes[..used]);
    }),
    ("garbage behind the orders", |random, book| {
        let used = book.used();
        change_a_byte(random, &mut book.bytes[used..]);
    }),
    ("random bytes", |random, book| random.fill(&mut book.bytes)),
    ("no whole number of records", |random, book| {
        let part = part_of_a_record(random, book.form);
        book.bytes.resize(book.bytes.len() + part, 0);
    }),
    ("a length of the other form", |random, book| {
        let other = book.form.other().record_length();
        let whole = WHOLE_IN_BOTH / other;
        let records = whole * random.below(51) + 1 + random.below(whole - 1);
        book.bytes.resize(other * records, 0);
    }),
    ("more than 256 records", |random, book| {
        let records = MOST_ORDERS + random.one_of(&[1, 2, 256, 300]);
        book.bytes.resize(records * book.form.record_length(), 0);
    }),
    ("too long, no whole number of records", |random, book| {
        let records = MOST_ORDERS + random.below(301);
        let part = part_of_a_record(random, book.form);
        let length = records * book.form.record_length() + part;
        book.bytes.resize(length, 0);
    }),
    ("a gap between orders", |random, book| {
        let last = book.orders.last().map(|order| order.number);
        let earlier = |order: &Order| Some(order.number) != last;
        in_record(random, book, earlier, |_, record| record.fill(0));
    }),
    ("numbers that do not rise", |random, book| {
        stop_rising(random, book);
    }),
    (
        "two setters of a security, side and price",
        |random, book| {
            mark_two(random, book);
        },
    ),
    ("a wrong mark", |random, book| {
        in_record(random, book, any, |random, record| {
            record[random.below(2)] = random.one_of(&[0, 0x44, 0x4E, 0xFF]);
        });
    }),
    ("the other form's mark", |random, book| {
        in_record(random, book, any, |_, record| record[1] ^= 0x42 ^ 0x43);
    }),
    ("every record in the other form", |_, book| {
        let form = book.form.other();
        if book.orders.iter().all(|order| form.can_tell(order)) {
            book.bytes = vec![0; book.records() * form.record_length()];
            book::write_in(form, &mut book.bytes, &book.orders);
        }
    }),
    ("a wrong side", |random, book| {
        in_record(random, book, any, |random, record| {
            record[SIDE] = random.one_of(&[0, 3, 255]);
        });
    }),
    ("a wrong kind", |random, book| {
        in_record(random, book, any, |random, record| {
            record[KIND] = random.one_of(&[0, 6, 255]);
        });
    }),
    ("kind 5", |random, book| {
        in_record(random, book, any, |_, record| record[KIND] = 5);
    }),
    ("number 0", |_, book| {
        if !book.orders.is_empty() {
            set_number(record(book, 0), NUMBER, 0);
        }
    }),
    ("a price out of range", |random, book| {
        in_record(random, book, any, |random, record| {
            let price = random.one_of(&[0, HIGHEST_PRICE + 1, u32::MAX]);
            set_number(record, PRICE, price);
        });
    }),
    ("a size out of range", |random, book| {
        in_record(random, book, any, |random, record| {
            let size = random.one_of(&[0, LARGEST_SIZE + 1, u32::MAX]);
            set_number(record, SIZE, size);
        });
    }),
    ("a minimum beyond the size or 0", |random, book| {
        let has_minimum = |order: &Order| matches!(order.kind, Kind::MinimumQuantity { .. });
        in_record(random, book, has_minimum, |random, record| {
            let size = book::number_at(record, SIZE);
            let minimum = random.one_of(&[0, size + 1, u32::MAX]);
            set_number(record, MINIMUM, minimum);
        });
    }),
    ("a minimum of another kind", |random, book| {
        in_record(random, book, has_no_minimum, |_, record| {
            set_number(record, MINIMUM, 1);
        });
    }),
    ("a setter mark that is none", |random, book| {
        in_record(random, book, Order::is_displayed, |random, record| {
            record[SETTER] = random.one_of(&[2, 3, 128, 255]);
        });
    }),
    ("a hidden setter", |random, book| {
        let hidden = |order: &Order| !order.is_displayed();
        in_record(random, book, hidden, |_, record| record[SETTER] = 1);
    }),
    ("a byte behind the security", |random, book| {
        in_record(random, book, any, |random, record| {
            record[random.within(22..=31) as usize] = random.one_of(&[1, 2, 128, 255]);
        });
    }),
    ("no security", |random, book| {
        in_record(random, book, any, |random, record| {
            record[SECURITY] = random.one_of(&[2, 3, 128, 255]);
        });
    }),
];

/// What is sound in the new form alone.
const TO_OLD_FORM: [(&str, Damage); 2] = [
    ("kind 4", |random, book| {
        in_record(random, book, has_no_minimum, |_, record| record[KIND] = 4);
    }),
    ("security 1", |random, book| {
        in_record(random, book, any, |_, record| record[SECURITY] = 1);
    }),
];

const TO_NEW_FORM: [(&str, Damage); 6] = [
    ("a minimum of a reserve order", |random, book| {
        in_record(random, book, is_reserve, |_, record| {
            set_number(record, MINIMUM, 1);
        });
    }),
    ("hidden shares of another kind", |random, book| {
        in_record(random, book, is_no_reserve, |random, record| {
            set_number(record, HIDDEN, random.one_of(&[1, 5, 256, 1 << 24]));
        });
    }),
    ("a refresh size of another kind", |random, book| {
        in_record(random, book, is_no_reserve, |random, record| {
            set_number(record, REFRESH, random.one_of(&[1, 5, 256, 1 << 24]));
        });
    }),
    ("too many hidden shares", |random, book| {
        in_record(random, book, is_reserve, |random, record| {
            let hidden = random.one_of(&[LARGEST_SIZE + 1, 1 << 31, u32::MAX]);
            set_number(record, HIDDEN, hidden);
        });
    }),
    ("the refresh size 0", |random, book| {
        in_record(random, book, is_reserve, |_, record| {
            set_number(record, REFRESH, 0);
        });
    }),
    ("a refresh size too large", |random, book| {
        in_record(random, book, is_reserve, |random, record| {
            let refresh = random.one_of(&[LARGEST_SIZE + 1, 1 << 31, u32::MAX]);
            set_number(record, REFRESH, refresh);
        });
    }),
];

/// Fits every order.
fn any(_: &Order) -> bool {
    true
}

fn is_reserve(order: &Order) -> bool {
    matches!(order.kind, Kind::Reserve { .. })
}

fn is_no_reserve(order: &Order) -> bool {
    !is_reserve(order)
}

fn has_no_minimum(order: &Order) -> bool {
    matches!(order.kind, Kind::Displayed | Kind::NonDisplayed)
}

/// A number of bytes that is less than a record's, and not 0.
fn part_of_a_record(random: &mut Random, form: Form) -> usize {
    1 + random.below(form.record_length() - 1)
}

fn change_a_byte(random: &mut Random, bytes: &mut [u8]) {
    if !bytes.is_empty() {
        let place = random.below(bytes.len());
        bytes[place] = match random.below(3) {
            0 => bytes[place].wrapping_add(1),
            1 => bytes[place] ^ (1 << random.below(8)),
            _ => random.byte(),
        };
    }
}

/// Changes the record of one of the orders that fit.
fn in_record(
    random: &mut Random,
    book: &mut Book,
    fits: impl Fn(&Order) -> bool,
    change: impl Fn(&mut Random, &mut [u8]),
) {
    let fitting = places(&book.orders, fits);
    if !fitting.is_empty() {
        let place = random.one_of(&fitting);
        change(random, record(book, place));
    }
}

/// The places of the orders that fit.
fn places(orders: &[Order], fits: impl Fn(&Order) -> bool) -> Vec<usize> {
    let all = 0..orders.len();
    all.filter(|&place| fits(&orders[place])).collect()
}

/// Gives an order the number of the one before it, or a lower one.
fn stop_rising(random: &mut Random, book: &mut Book) {
    if book.orders.len() > 1 {
        let place = 1 + random.below(book.orders.len() - 1);
        let before = book.orders[place - 1].number;
        let number = random.within(before.saturating_sub(1).max(1)..=before);
        set_number(record(book, place), NUMBER, number);
    }
}

/// Makes two displayed orders setters of one security, side and price.
fn mark_two(random: &mut Random, book: &mut Book) {
    let displayed = places(&book.orders, Order::is_displayed);
    if displayed.len() > 1 {
        let first = random.below(displayed.len() - 1);
        let second = first + 1 + random.below(displayed.len() - first - 1);
        let pattern = book.orders[displayed[first]];
        for place in [displayed[first], displayed[second]] {
            let marked = record(book, place);
            marked[SIDE] = pattern.side as u8;
            marked[SECURITY] = pattern.security as u8;
            set_number(marked, PRICE, pattern.price);
            marked[SETTER] = 1;
        }
    }
}

fn record(book: &mut Book, place: usize) -> &mut [u8] {
    let length = book.form.record_length();
    &mut book.bytes[place * length..(place + 1) * length]
}

fn set_number(record: &mut [u8], place: usize, number: u32) {
    record[place..place + 4].copy_from_slice(&number.to_le_bytes());
}
