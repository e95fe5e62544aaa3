//! The ladder: what a book's orders of one security come to at each side and price,
//! in a lent buffer beside the book, and the forms of add, reduce and take that keep
//! it.

use crate::book::{self, Order, Side};
use crate::{calls, take, Refusal};

pub const ROW_LENGTH: usize = 24;
pub const LADDER_LENGTH: usize = 256 * ROW_LENGTH;

const ROW_MARK: [u8; 2] = [0x4C, 0x44];

/// What the orders of one side and price come to.
#[derive(Clone, Copy, Debug, PartialEq, Eq)]
pub struct Row {
    pub side: Side,
    pub price: u32,
    /// Shares of displayed orders, and those that reserve orders show.
    pub displayed: u32,
    /// Shares of non-displayed and minimum quantity orders, and those that reserve
    /// orders hide.
    pub other: u32,
    pub orders: u16,
}

/// Writes the ladder of a security, whatever stood in the buffer. Gives the refusal
/// number.
pub fn ladder(book: &[u8], ladder: &mut [u8], security: u32) -> u32 {
    match ladder_of(book, security, ladder.len()) {
        Ok(bytes) => {
            ladder.copy_from_slice(&bytes);
            0
        }
        Err(refusal) => refusal as u32,
    }
}

/// Add that keeps the ladder. Takes the numbers that add takes.
pub fn add_ladder(book: &mut [u8], ladder: &mut [u8], order: [u32; 9]) -> u32 {
    let [.., security] = order;
    keeping(book, ladder, security, |book| calls::add(book, order))
}

/// Reduce that keeps the ladder.
pub fn reduce_ladder(
    book: &mut [u8],
    ladder: &mut [u8],
    security: u32,
    number: u32,
    shares: u32,
) -> u32 {
    keeping(book, ladder, security, |book| {
        calls::reduce(book, security, number, shares)
    })
}

/// Take that keeps the ladder. Takes the numbers that take takes.
pub fn take_ladder(
    book: &mut [u8],
    executions: &mut [u8],
    ladder: &mut [u8],
    incoming: [u32; 5],
) -> (u32, u32, u32) {
    let [.., security] = incoming;
    let mut written = executions.to_vec();
    let mut taken = (0, 0, 0);
    let refusal = keeping(book, ladder, security, |book| {
        taken = take::take(book, &mut written, incoming);
        taken.0
    });
    if refusal != 0 {
        return (refusal, 0, 0);
    }
    executions.copy_from_slice(&written);
    taken
}

/// Makes a plain call for a security on a copy of the book. If neither the call nor
/// the ladder is a reason to refuse, the book becomes that copy, and the ladder the
/// copy's. The refusals on account of the ladder stand directly behind 2.
fn keeping(
    book: &mut [u8],
    ladder: &mut [u8],
    security: u32,
    plain: impl FnOnce(&mut [u8]) -> u32,
) -> u32 {
    let mut after = book.to_vec();
    let of_call = plain(&mut after);
    if of_call == Refusal::OutOfRange as u32 || of_call == Refusal::UnsoundBook as u32 {
        return of_call;
    }
    match ladder_of(book, security, ladder.len()) {
        Err(refusal) => return refusal as u32,
        Ok(bytes) if bytes != ladder => return Refusal::LadderOfAnotherBook as u32,
        Ok(_) if of_call != 0 => return of_call,
        Ok(_) => {}
    }
    book.copy_from_slice(&after);
    self::ladder(book, ladder, security)
}

/// The bytes that a security's ladder has in a buffer of so many.
fn ladder_of(book: &[u8], security: u32, length: usize) -> Result<Vec<u8>, Refusal> {
    let orders = book::orders_of(book, security)?;
    if length != LADDER_LENGTH {
        return Err(Refusal::LadderLength);
    }
    let mut bytes = vec![0; LADDER_LENGTH];
    for (place, row) in bytes.chunks_exact_mut(ROW_LENGTH).zip(rows(&orders)) {
        place.copy_from_slice(&row.bytes());
    }
    Ok(bytes)
}

/// A row for each side and price that one of these orders has: sells with rising
/// price, then buys with falling price.
pub fn rows(orders: &[Order]) -> Vec<Row> {
    let rank = |order: &Order| match order.side {
        Side::Sell => (1, i64::from(order.price)),
        Side::Buy => (2, -i64::from(order.price)),
    };
    let mut ranked = orders.to_vec();
    ranked.sort_by_key(rank);
    ranked
        .chunk_by(|one, next| rank(one) == rank(next))
        .map(Row::of)
        .collect()
}

impl Row {
    /// The row of orders that have the same side and price.
    fn of(orders: &[Order]) -> Row {
        let shares = |displayed: bool| {
            let parts = orders.iter().flat_map(Order::parts);
            let of_kind = parts.filter(|part| part.is_displayed() == displayed);
            of_kind.map(|part| part.size).sum()
        };
        Row {
            side: orders[0].side,
            price: orders[0].price,
            displayed: shares(true),
            other: shares(false),
            orders: orders.len() as u16,
        }
    }

    /// The row's 24 bytes.
    fn bytes(&self) -> [u8; ROW_LENGTH] {
        let mut row = [0; ROW_LENGTH];
        row[0..2].copy_from_slice(&ROW_MARK);
        row[2] = self.side as u8;
        row[4..8].copy_from_slice(&self.price.to_le_bytes());
        row[8..12].copy_from_slice(&self.displayed.to_le_bytes());
        row[12..16].copy_from_slice(&self.other.to_le_bytes());
        row[16..18].copy_from_slice(&self.orders.to_le_bytes());
        row
    }
}
