//! A book is made by add, searched, reduced and taken from. Built, with the library installed below DIR, by
//!     rustc --edition 2021 -L DIR/lib allocate.rs
#[allow(dead_code)] // not every name of the module is used here
mod ruhvasto;

use ruhvasto::{AddRequest, Algorithm, Execution, Kind, Order, Refusal, Side, TakeRequest};

/// The security of all orders here.
const SECURITY: u32 = 0;

/// A displayed sell.
fn add_sell(book: &mut [u8], number: u32, price: u32, size: u32) {
    let request = AddRequest {
        side: Side::Sell,
        kind: Kind::Displayed,
        number,
        price,
        size,
        security: SECURITY,
    };
    let answer = ruhvasto::add(book, request);
    println!("add {number} refusal {}", refusal(&answer));
}

fn refusal<T>(answer: &Result<T, Refusal>) -> u32 {
    answer.as_ref().err().map_or(0, |refusal| refusal.0)
}

fn print_order(order: Order) {
    let setter = if order.setter { " setter" } else { "" };
    println!(
        "order {} price {} size {}{setter}",
        order.number, order.price, order.size
    );
}

fn print_book(book: &[u8]) {
    let answer = ruhvasto::check(book, SECURITY);
    let orders = *answer.as_ref().unwrap_or(&0);
    println!("book refusal {} orders {orders}", refusal(&answer));
    for record in book
        .chunks_exact(ruhvasto::RECORD_BYTES)
        .take(orders as usize)
    {
        print_order(Order::of(record));
    }
}

fn find(book: &[u8], number: u32) {
    let answer = ruhvasto::find(book, SECURITY, number);
    println!("find {number} refusal {}", refusal(&answer));
    if let Ok(record) = answer {
        print_order(Order::of(record));
    }
}

fn take(book: &mut [u8], request: TakeRequest) {
    let mut executions = [0; ruhvasto::EXECUTIONS_BYTES];
    match ruhvasto::take(book, &mut executions, request) {
        Err(Refusal(refusal)) => println!("take refusal {refusal} executions 0 left 0"),
        Ok(taken) => {
            println!(
                "take refusal 0 executions {} left {}",
                taken.count, taken.left
            );
            for bytes in executions
                .chunks_exact(ruhvasto::EXECUTION_BYTES)
                .take(taken.count as usize)
            {
                let execution = Execution::of(bytes);
                println!(
                    "{} shares from order {} at {} by paragraph {}",
                    execution.shares, execution.number, execution.price, execution.paragraph
                );
            }
        }
    }
}

fn main() {
    assert_eq!(
        ruhvasto::version(),
        ruhvasto::VERSION,
        "this is written for another version of the library"
    );
    let mut book = [0; 16 * ruhvasto::RECORD_BYTES]; // for 16 orders, none yet
    add_sell(&mut book, 1, 100100, 1000);
    add_sell(&mut book, 2, 100000, 1000);
    add_sell(&mut book, 3, 100000, 3000);
    add_sell(&mut book, 4, 100000, 1000);
    add_sell(&mut book, 5, 100000, 40);
    print_book(&book);
    find(&book, 3);
    println!(
        "reduce 1 refusal {}",
        refusal(&ruhvasto::reduce(&mut book, SECURITY, 1, 400))
    );
    let request = TakeRequest {
        side: Side::Buy,
        limit: 100000,
        size: 1000,
        algorithm: Algorithm::ProRataSetter,
        security: SECURITY,
    };
    take(&mut book, request);
    print_book(&book);
    let request = TakeRequest {
        size: 4030,
        algorithm: Algorithm::ProRata,
        ..request
    };
    take(&mut book, request);
    find(&book, 4);
    add_sell(&mut book, 4, 100000, 1000);
}
