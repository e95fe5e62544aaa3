//! A book of an older box is brought into the new form, traded with, and brought back. Built, with the library installed below DIR, by
//!     rustc --edition 2021 -L DIR/lib convert.rs
#[allow(dead_code)] // not every name of the module is used here
mod ruhvasto;

use ruhvasto::{AddRequest, Algorithm, Kind, Order, Refusal, Side, TakeRequest};

/// As the older box stored it: records of 32 bytes, here without the zeros at their end.
const STORED: [&[u8]; 3] = [
    // a displayed sell of 300 at 100000, which set this price
    b"\x4f\x42\x02\x01\x01\0\0\0\xa0\x86\x01\0\x2c\x01\0\0\0\0\0\0\x01",
    // a non-displayed sell of 70 at 100000
    b"\x4f\x42\x02\x02\x02\0\0\0\xa0\x86\x01\0\x46",
    // a minimum quantity sell of 200 at 100100, with a minimum of 50
    b"\x4f\x42\x02\x03\x03\0\0\0\x04\x87\x01\0\xc8\0\0\0\x32",
];

/// The security of all orders here: that of every order of an old book.
const SECURITY: u32 = 0;

fn name<T>(answer: Result<T, Refusal>) -> &'static str {
    answer.err().map_or("accepted", Refusal::name)
}

fn add(book: &mut [u8], request: AddRequest) {
    println!(
        "add {}: {}",
        request.number,
        name(ruhvasto::add(book, request))
    );
}

fn print_book(book: &[u8]) {
    let orders = ruhvasto::check(book, SECURITY).unwrap_or(0);
    for record in book
        .chunks_exact(ruhvasto::RECORD_BYTES)
        .take(orders as usize)
    {
        let order = Order::of(record);
        let setter = if order.setter { " setter" } else { "" };
        println!(
            "order {} kind {} price {} size {} minimum {}{setter}",
            order.number, order.kind, order.price, order.size, order.minimum
        );
    }
}

/// The fields up to byte 31 lie where they lie in a new record.
fn print_old(old: &[u8]) {
    for record in old
        .chunks_exact(ruhvasto::OLD_RECORD_BYTES)
        .take_while(|record| record[0] != 0)
    {
        let mut bytes = [0; ruhvasto::RECORD_BYTES];
        bytes[..ruhvasto::OLD_RECORD_BYTES].copy_from_slice(record);
        let order = Order::of(&bytes);
        let setter = if order.setter { " setter" } else { "" };
        println!(
            "old order {} kind {} size {}{setter}",
            order.number, order.kind, order.size
        );
    }
}

fn to_old(book: &[u8], old: &mut [u8]) {
    let bytes = old.len();
    println!(
        "to old, {bytes} bytes: {}",
        name(ruhvasto::to_old(book, old))
    );
}

fn main() {
    assert_eq!(
        ruhvasto::version(),
        ruhvasto::VERSION,
        "this is written for another version of the library"
    );
    let mut old = [0; 4 * ruhvasto::OLD_RECORD_BYTES]; // the last record is free
    for (record, stored) in old.chunks_exact_mut(ruhvasto::OLD_RECORD_BYTES).zip(STORED) {
        record[..stored.len()].copy_from_slice(stored);
    }
    let mut book = [0; 16 * ruhvasto::RECORD_BYTES]; // for 16 orders

    // The target may have room for more orders than the source, or for fewer, as long as all find room.
    println!("to new: {}", name(ruhvasto::to_new(&old, &mut book)));
    print_book(&book);

    let buy = TakeRequest {
        side: Side::Buy,
        limit: 100000,
        size: 200,
        algorithm: Algorithm::ProRata,
        security: SECURITY,
    };
    let mut executions = [0; ruhvasto::EXECUTIONS_BYTES];
    let answer = ruhvasto::take(&mut book, &mut executions, buy);
    let (count, left) = answer.as_ref().map_or((0, 0), |t| (t.count, t.left));
    println!("take: {}, executions {count}, left {left}", name(answer));
    let rest = AddRequest {
        side: Side::Buy,
        kind: Kind::Displayed,
        number: 4,
        price: 99900,
        size: 40,
        security: SECURITY,
    };
    add(&mut book, rest);
    to_old(&book, &mut old);
    print_old(&old);

    // Three records are too few for four orders, and 100 bytes aren't whole records. The target stays as it was.
    to_old(&book, &mut old[..3 * ruhvasto::OLD_RECORD_BYTES]);
    to_old(&book, &mut old[..100]);

    // The old form has no reserve orders, nor orders of security 1. With this one in the book there is no way back; without it there is.
    let reserve = AddRequest {
        side: Side::Sell,
        kind: Kind::Reserve(250),
        number: 5,
        price: 100200,
        size: 100,
        security: SECURITY,
    };
    add(&mut book, reserve);
    to_old(&book, &mut old);
    println!(
        "reduce 5: {}",
        name(ruhvasto::reduce(&mut book, SECURITY, 5, 350))
    );
    to_old(&book, &mut old);
}
