//! Two seminar groups trade two securities, 0 and 1, in one book. Built, with the library installed below DIR, by
//!     rustc --edition 2021 -L DIR/lib securities.rs
#[allow(dead_code)] // not every name of the module is used here
mod ruhvasto;

use ruhvasto::{AddRequest, Algorithm, Execution, Kind, Order, Refusal, Side, TakeRequest};

fn say<T>(security: u32, call: &str, number: u32, answer: &Result<T, Refusal>) {
    let name = answer.as_ref().err().map_or("accepted", |r| r.name());
    println!("security {security} {call} {number}: {name}");
}

struct Room {
    book: [u8; 6 * ruhvasto::RECORD_BYTES],
    ladders: [[u8; ruhvasto::LADDER_BYTES]; ruhvasto::SECURITIES as usize],
}

impl Room {
    /// A displayed order.
    fn add(&mut self, security: u32, side: Side, number: u32, price: u32, size: u32) {
        let request = AddRequest {
            side,
            kind: Kind::Displayed,
            number,
            price,
            size,
            security,
        };
        let ladder = &mut self.ladders[security as usize];
        let answer = ruhvasto::add_ladder(&mut self.book, ladder, request);
        say(security, "add", number, &answer);
    }

    fn find(&self, security: u32, number: u32) {
        let answer = ruhvasto::find(&self.book, security, number);
        say(security, "find", number, &answer);
        if let Ok(record) = answer {
            println!("it has {} shares", Order::of(record).size);
        }
    }

    /// A buy up to 100000, by pro rata.
    fn take(&mut self, security: u32, size: u32) {
        let request = TakeRequest {
            side: Side::Buy,
            limit: 100000,
            size,
            algorithm: Algorithm::ProRata,
            security,
        };
        let mut executions = [0; ruhvasto::EXECUTIONS_BYTES];
        let ladder = &mut self.ladders[security as usize];
        let answer = ruhvasto::take_ladder(&mut self.book, &mut executions, ladder, request);
        say(security, "take", size, &answer);
        let (count, left) = answer.map_or((0, 0), |t| (t.count, t.left));
        for bytes in executions
            .chunks_exact(ruhvasto::EXECUTION_BYTES)
            .take(count as usize)
        {
            let execution = Execution::of(bytes);
            println!(
                "{} shares from order {} at {}",
                execution.shares, execution.number, execution.price
            );
        }
        println!("{left} left");
    }

    /// The whole book, and what each group sees of it.
    fn print(&self) {
        for record in ruhvasto::records(&self.book) {
            let order = Order::of(record);
            let setter = if order.setter { " setter" } else { "" };
            println!(
                "order {} of security {} size {}{setter}",
                order.number, order.security, order.size
            );
        }
        for (security, ladder) in (0..).zip(&self.ladders) {
            let orders = ruhvasto::check(&self.book, security).unwrap_or(0);
            println!("security {security} orders {orders}");
            for row in ruhvasto::rows(ladder) {
                let side = if row.side == Side::Sell as u8 {
                    "sell"
                } else {
                    "buy"
                };
                println!(
                    "{side} {} displayed {} orders {}",
                    row.price, row.displayed, row.orders
                );
            }
        }
    }
}

fn main() {
    assert_eq!(
        ruhvasto::version(),
        ruhvasto::VERSION,
        "this is written for another version of the library"
    );
    // For six orders of both groups together, none yet; the ladder of a group without orders is zeros.
    let mut room = Room {
        book: [0; 6 * ruhvasto::RECORD_BYTES],
        ladders: [[0; ruhvasto::LADDER_BYTES]; ruhvasto::SECURITIES as usize],
    };

    // The same prices in both groups. Each has a price setter of its own, and the sell at 99900 meets no buy of its security.
    room.add(0, Side::Sell, 1, 100000, 300);
    room.add(1, Side::Sell, 2, 100000, 500);
    room.add(0, Side::Sell, 3, 100000, 200);
    room.add(1, Side::Sell, 4, 100000, 400);
    room.add(0, Side::Buy, 5, 99900, 100);
    room.add(1, Side::Sell, 5, 99900, 100); // the number is the other group's
    room.add(1, Side::Sell, 6, 99900, 100);
    room.add(0, Side::Sell, 7, 100100, 100); // six orders in six records, three of them its own
    room.print();

    // A number is known to its group alone.
    room.find(0, 3);
    room.find(0, 4);
    room.find(1, 4);
    let answer = ruhvasto::reduce(&mut room.book, 0, 4, 100);
    say(0, "reduce", 4, &answer);

    // A take shares among the orders of its security, as if there were no others.
    room.take(0, 350);

    // This one empties the records of security 1, which stand between the others: these move up, and are what they were.
    room.take(1, 1200);
    room.print();

    // The ladder of security 0 is still right, and there is room again, for either group.
    room.add(0, Side::Sell, 7, 100100, 100);

    // The ladder of the other group isn't this one's.
    let answer = ruhvasto::reduce_ladder(&mut room.book, &mut room.ladders[0], 1, 7, 100);
    say(1, "reduce", 7, &answer);
}
