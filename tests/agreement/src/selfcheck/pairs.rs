//! That a difference between the two outcomes of a pair of books is seen.

use super::sample;
use crate::calls::Call;
use crate::compare::{Borrower, Entry, Outcome};
use crate::pairs::Made;
use model::book::{self, Order, RECORD_LENGTH};
use support::Report;

/// A call on the book of the sample, and on a longer one that has orders of security 1
/// too, one of them between the others.
fn pair(borrower: &mut Borrower, call: Call) -> Result<Made, String> {
    let one = Entry { call, ..sample() };
    let mut orders = book::read(&one.book).expect("a sound book");
    for number in [3, 7] {
        orders.push(Order {
            security: 1,
            number,
            ..orders[1]
        });
    }
    orders.sort_by_key(|order| order.number);
    let mut other = one.clone();
    other.book = vec![0; 6 * RECORD_LENGTH];
    book::write(&mut other.book, &orders);
    Made::by_library([one, other], 0, borrower)
}

/// Whether it is seen that the outcome on the longer book has been altered.
fn sees_in_pair(
    borrower: &mut Borrower,
    call: Call,
    alter: impl Fn(&mut Outcome),
) -> Result<(), String> {
    let mut made = pair(borrower, call)?;
    made.held()?;
    alter(&mut made.outcomes[1]);
    match made.held() {
        Err(_) => Ok(()),
        Ok(()) => Err(String::from("an altered outcome was taken for the same")),
    }
}

/// What is altered in the outcome of the sample on the longer book. Of its orders one
/// of security 0 rests, before two of security 1.
type Alter = fn(&mut Outcome);
const ALTERED: [(&str, Alter); 8] = [
    ("the refusal", |outcome| outcome.numbers[0] = 8),
    ("the count", |outcome| outcome.numbers[1] ^= 1),
    ("the shares left", |outcome| outcome.numbers[2] ^= 1),
    ("an execution", |outcome| outcome.executions[63] ^= 1),
    ("the ladder", |outcome| outcome.ladder[8] ^= 1),
    ("a record of the security", |outcome| outcome.book[39] ^= 1),
    ("a record of the other", |outcome| outcome.book[92] ^= 1),
    ("a record's security", |outcome| outcome.book[61] ^= 1),
];

pub fn run(report: &mut Report, borrower: &mut Borrower) {
    let take = sample().call;
    for (what, alter) in ALTERED {
        let seen = sees_in_pair(borrower, take, alter);
        report.check(
            &format!("{what} altered on one book of a pair is seen"),
            seen,
        );
    }
    let find = Call::Find([0, 4]);
    let seen = sees_in_pair(borrower, find, |outcome| outcome.numbers[1] = 0);
    report.check("another part found on one book of a pair is seen", seen);
}
