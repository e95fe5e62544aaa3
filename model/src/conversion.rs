//! A book turned from the old form into the new one, or back, in a second buffer.

use crate::book::{self, Form, Order};
use crate::Refusal;

/// Turns an old book into the new form. Gives the refusal number.
pub fn to_new(old: &[u8], target: &mut [u8]) -> u32 {
    let orders = book::read_in(Form::Old, old);
    turn(orders, Form::New, target)
}

/// Turns a new book into the old form. Gives the refusal number.
pub fn to_old(book: &[u8], target: &mut [u8]) -> u32 {
    let orders = book::read_in(Form::New, book);
    turn(orders, Form::Old, target)
}

/// Makes the target a book of the orders that were read.
fn turn(orders: Result<Vec<Order>, Refusal>, form: Form, target: &mut [u8]) -> u32 {
    let outcome = orders.and_then(|orders| held(orders, form, target.len()));
    book::settle(form, target, outcome)
}

/// The orders, if a target of this form and length holds them.
fn held(orders: Vec<Order>, form: Form, length: usize) -> Result<Vec<Order>, Refusal> {
    if !orders.iter().all(|order| form.can_tell(order)) {
        return Err(Refusal::OldFormCannotTell);
    }
    if !form.allows_length(length) || length / form.record_length() < orders.len() {
        return Err(Refusal::TargetUnfit);
    }
    Ok(orders)
}
