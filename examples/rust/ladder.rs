//! A ladder is kept beside a book. Built, with the library installed below DIR, by
//!     rustc --edition 2021 -L DIR/lib ladder.rs
#[allow(dead_code)] // not every name of the module is used here
mod ruhvasto;

use ruhvasto::{AddRequest, Algorithm, Kind, Refusal, Side, TakeRequest};

/// The security of all orders here.
const SECURITY: u32 = 0;

fn refusal<T>(answer: &Result<T, Refusal>) -> u32 {
    answer.as_ref().err().map_or(0, |refusal| refusal.0)
}

struct Kept {
    book: [u8; 16 * ruhvasto::RECORD_BYTES],
    ladder: [u8; ruhvasto::LADDER_BYTES],
}

impl Kept {
    fn add(&mut self, side: Side, kind: Kind, number: u32, price: u32, size: u32) {
        let request = AddRequest {
            side,
            kind,
            number,
            price,
            size,
            security: SECURITY,
        };
        let answer = ruhvasto::add_ladder(&mut self.book, &mut self.ladder, request);
        println!("add {number} refusal {}", refusal(&answer));
    }

    fn take(&mut self, request: TakeRequest) {
        let mut executions = [0; ruhvasto::EXECUTIONS_BYTES];
        let answer =
            ruhvasto::take_ladder(&mut self.book, &mut executions, &mut self.ladder, request);
        let (count, left) = answer.as_ref().map_or((0, 0), |t| (t.count, t.left));
        let refusal = refusal(&answer);
        println!("take refusal {refusal} executions {count} left {left}");
    }

    fn print_ladder(&self) {
        for row in ruhvasto::rows(&self.ladder) {
            let side = if row.side == Side::Sell as u8 {
                "sell"
            } else {
                "buy"
            };
            println!(
                "{side} {} displayed {} other {} orders {}",
                row.price, row.displayed, row.other, row.orders
            );
        }
    }
}

fn main() {
    assert_eq!(
        ruhvasto::version(),
        ruhvasto::VERSION,
        "this is written for another version of the library"
    );
    // For 16 orders, none yet; an empty book's ladder is zeros.
    let mut kept = Kept {
        book: [0; 16 * ruhvasto::RECORD_BYTES],
        ladder: [0; ruhvasto::LADDER_BYTES],
    };
    kept.add(Side::Sell, Kind::Displayed, 1, 100100, 500);
    kept.add(Side::Sell, Kind::Displayed, 2, 100000, 300);
    kept.add(Side::Sell, Kind::NonDisplayed, 3, 100000, 200);
    kept.add(Side::Buy, Kind::Displayed, 4, 99800, 400);
    kept.add(Side::Buy, Kind::MinimumQuantity(100), 5, 99900, 250);
    kept.print_ladder();

    // The only order of its side at its price: the row goes with it.
    let answer = ruhvasto::reduce_ladder(&mut kept.book, &mut kept.ladder, SECURITY, 4, 400);
    println!("reduce 4 refusal {}", refusal(&answer));
    kept.print_ladder();

    // All that is sold at 100000, and some of what is sold at 100100.
    kept.take(TakeRequest {
        side: Side::Buy,
        limit: 100100,
        size: 600,
        algorithm: Algorithm::ProRata,
        security: SECURITY,
    });
    kept.print_ladder();

    // A plain call changes the book alone. Its ladder is then another one, and has to be made again.
    let answer = ruhvasto::reduce(&mut kept.book, SECURITY, 1, 50);
    println!("plain reduce 1 refusal {}", refusal(&answer));
    kept.add(Side::Sell, Kind::Displayed, 6, 100100, 70);
    let answer = ruhvasto::ladder(&kept.book, &mut kept.ladder, SECURITY);
    println!("ladder refusal {}", refusal(&answer));
    kept.add(Side::Sell, Kind::Displayed, 6, 100100, 70);
    kept.print_ladder();
}
