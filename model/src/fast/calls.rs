//! Check, find, add and reduce, the last two also with a ladder.

use super::beside::{Beside, Ladder, Nothing};
use super::record::{self, Bytes, Record};
use super::soundness::sound;
use super::taker::Taker;
use crate::book::{self, security_in_range, Order, RECORD_LENGTH, ROUND_LOT};
use crate::Refusal;

/// The refusal number and the number of the security's orders.
pub fn check(book: &[u8], security: u32) -> (u32, u32) {
    if !security_in_range(security) {
        return (Refusal::OutOfRange as u32, 0);
    }
    match sound(book) {
        Ok(sound) => (0, sound.orders_of(security)),
        Err(refusal) => (refusal as u32, 0),
    }
}

/// The refusal number, and where the own bytes of the security's order with this
/// number start in the book and how many they are.
pub fn find(book: &[u8], security: u32, number: u32) -> (u32, usize, usize) {
    match place_of(book, security, number, &mut Nothing) {
        Ok((place, _)) => (0, place * RECORD_LENGTH, RECORD_LENGTH),
        Err(refusal) => (refusal as u32, 0, 0),
    }
}

/// Puts an order last. Gives the refusal number.
pub fn add(book: &mut [u8], order: [u32; 9]) -> u32 {
    refusal_of(enter(book, order, Nothing))
}

/// Add that keeps the ladder.
pub fn add_ladder(book: &mut [u8], ladder: &mut [u8], order: [u32; 9]) -> u32 {
    let [.., security] = order;
    refusal_of(enter(book, order, Ladder::of(security, ladder)))
}

/// Takes shares from the security's order with this number. Gives the refusal
/// number.
pub fn reduce(book: &mut [u8], security: u32, number: u32, shares: u32) -> u32 {
    refusal_of(lessen(book, security, [number, shares], Nothing))
}

/// Reduce that keeps the ladder.
pub fn reduce_ladder(
    book: &mut [u8],
    ladder: &mut [u8],
    security: u32,
    number: u32,
    shares: u32,
) -> u32 {
    let ladder = Ladder::of(security, ladder);
    refusal_of(lessen(book, security, [number, shares], ladder))
}

/// 0 for an accepted call.
pub fn refusal_of(outcome: Result<(), Refusal>) -> u32 {
    outcome.map_or_else(|refusal| refusal as u32, |()| 0)
}

/// The place of the security's order with this number, and how many orders there
/// are of both.
fn place_of(
    book: &[u8],
    security: u32,
    number: u32,
    beside: &mut impl Beside,
) -> Result<(usize, usize), Refusal> {
    if !security_in_range(security) || number == 0 {
        return Err(Refusal::OutOfRange);
    }
    let orders = sound(book)?.orders;
    let records: &[Bytes] = &book.as_chunks().0[..orders];
    beside.fits(records)?;
    match records.binary_search_by_key(&number, record::number_of) {
        Ok(place) if Record::of(&records[place]).security() == security => Ok((place, orders)),
        _ => Err(Refusal::NoSuchOrder),
    }
}

fn enter(book: &mut [u8], order: [u32; 9], mut beside: impl Beside) -> Result<(), Refusal> {
    let order = Order::of_request(order).ok_or(Refusal::OutOfRange)?;
    let taker = Taker::new(order.security, order.side, order.price, order.shares());
    let sound = sound(book)?;
    let orders: &[Bytes] = &book.as_chunks().0[..sound.orders];
    beside.fits(orders)?;
    let mut could_trade = false;
    let mut rivalled = false;
    for record in orders.iter().map(Record::of) {
        could_trade |= taker.may_trade_with(record);
        rivalled |= taker.is_rivalled_by(record);
    }
    if sound.last_number >= order.number {
        return Err(Refusal::NumberNotAboveAll);
    }
    if could_trade {
        return Err(Refusal::CouldTrade);
    }
    let records: &mut [Bytes] = book.as_chunks_mut().0;
    let free = records.get_mut(sound.orders).ok_or(Refusal::NoFreeRecord)?;
    let setter = order.is_displayed() && order.size >= ROUND_LOT && !rivalled;
    *free = Order { setter, ..order }.record();
    beside.added(Record::of(free));
    Ok(())
}

fn lessen(
    book: &mut [u8],
    security: u32,
    [number, shares]: [u32; 2],
    mut beside: impl Beside,
) -> Result<(), Refusal> {
    if !book::size_in_range(shares) {
        return Err(Refusal::OutOfRange);
    }
    let (place, orders) = place_of(book, security, number, &mut beside)?;
    let records: &mut [Bytes] = book.as_chunks_mut().0;
    let order = &mut records[place];
    let hidden = record::hidden_of(order);
    if shares > record::size_of(order) + hidden {
        return Err(Refusal::MoreThanOrderHas);
    }
    let from_hidden = shares.min(hidden);
    let from_size = shares - from_hidden;
    beside.lessened(Record::of(order), from_size, from_hidden);
    if from_hidden > 0 {
        record::lessen_hidden(order, from_hidden);
    }
    if record::lessen(order, from_size) == 0 {
        records.copy_within(place + 1..orders, place);
        records[orders - 1].fill(0);
    }
    Ok(())
}
