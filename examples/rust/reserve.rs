//! A reserve order shows some of its shares and hides the others. Built, with the library installed below DIR, by
//!     rustc --edition 2021 -L DIR/lib reserve.rs
#[allow(dead_code)] // not every name of the module is used here
mod ruhvasto;

use ruhvasto::{AddRequest, Algorithm, Execution, Kind, Order, Refusal, Side, TakeRequest};

/// The security of all orders here.
const SECURITY: u32 = 0;

fn refusal<T>(answer: &Result<T, Refusal>) -> u32 {
    answer.as_ref().err().map_or(0, |refusal| refusal.0)
}

/// A sell at 100000.
fn add_sell(book: &mut [u8], kind: Kind, number: u32, size: u32) {
    let request = AddRequest {
        side: Side::Sell,
        kind,
        number,
        price: 100000,
        size,
        security: SECURITY,
    };
    let answer = ruhvasto::add(book, request);
    println!("add {number} refusal {}", refusal(&answer));
}

fn reduce(book: &mut [u8], number: u32, shares: u32) {
    let answer = ruhvasto::reduce(book, SECURITY, number, shares);
    println!("reduce {number} by {shares} refusal {}", refusal(&answer));
}

/// A buy up to 100000, by pro rata.
fn take(book: &mut [u8], size: u32) {
    let request = TakeRequest {
        side: Side::Buy,
        limit: 100000,
        size,
        algorithm: Algorithm::ProRata,
        security: SECURITY,
    };
    let mut executions = [0; ruhvasto::EXECUTIONS_BYTES];
    let answer = ruhvasto::take(book, &mut executions, request);
    let (count, left) = answer.as_ref().map_or((0, 0), |t| (t.count, t.left));
    let refusal = refusal(&answer);
    println!("take refusal {refusal} executions {count} left {left}");
    for bytes in executions
        .chunks_exact(ruhvasto::EXECUTION_BYTES)
        .take(count as usize)
    {
        let execution = Execution::of(bytes);
        println!(
            "{} shares from order {} by paragraph {}",
            execution.shares, execution.number, execution.paragraph
        );
    }
}

/// Of a displayed order the hidden shares and the refresh size are 0.
fn print_book(book: &[u8]) {
    let orders = ruhvasto::check(book, SECURITY).unwrap_or(0);
    for record in book
        .chunks_exact(ruhvasto::RECORD_BYTES)
        .take(orders as usize)
    {
        let order = Order::of(record);
        let setter = if order.setter { " setter" } else { "" };
        println!(
            "order {} shows {} hides {} refresh {}{setter}",
            order.number, order.size, order.hidden, order.refresh
        );
    }
}

fn main() {
    assert_eq!(
        ruhvasto::version(),
        ruhvasto::VERSION,
        "this is written for another version of the library"
    );
    let mut book = [0; 16 * ruhvasto::RECORD_BYTES]; // for 16 orders, none yet
    add_sell(&mut book, Kind::Reserve(250), 1, 100);
    add_sell(&mut book, Kind::Displayed, 2, 300);
    print_book(&book);

    // All that is shown, and 100 of the hidden shares: two executions of order 1. Of the 150 left, 100 are shown then.
    take(&mut book, 500);
    print_book(&book);

    // One share of those that it shows stays, so nothing is refreshed.
    take(&mut book, 99);
    print_book(&book);

    // With that share fewer hidden shares are left than the refresh size: all of them are shown.
    take(&mut book, 1);
    print_book(&book);

    // Hidden shares are taken first.
    add_sell(&mut book, Kind::Reserve(40), 3, 200);
    reduce(&mut book, 3, 241);
    reduce(&mut book, 3, 30);
    reduce(&mut book, 3, 30);
    print_book(&book);
}
