//! Check, find, add and reduce.

use crate::book::{self, security_in_range, Form, Order, RECORD_LENGTH, ROUND_LOT};
use crate::Refusal;

/// The refusal number and the number of the security's orders.
pub fn check(book: &[u8], security: u32) -> (u32, u32) {
    match book::orders_of(book, security) {
        Ok(orders) => (0, orders.len() as u32),
        Err(refusal) => (refusal as u32, 0),
    }
}

/// The refusal number, and where the own bytes of the security's order with this
/// number start in the book and how many they are.
pub fn find(book: &[u8], security: u32, number: u32) -> (u32, usize, usize) {
    match record_of(book, security, number) {
        Ok((_, place)) => (0, place * RECORD_LENGTH, RECORD_LENGTH),
        Err(refusal) => (refusal as u32, 0, 0),
    }
}

/// Puts an order last. Takes side, kind, number, price, size, minimum, hidden
/// shares, refresh size and security. Gives the refusal number.
pub fn add(book: &mut [u8], order: [u32; 9]) -> u32 {
    let outcome = Order::of_request(order)
        .ok_or(Refusal::OutOfRange)
        .and_then(|order| with_order(book, order));
    book::settle(Form::New, book, outcome)
}

/// Takes shares from the security's order with this number. Gives the refusal
/// number.
pub fn reduce(book: &mut [u8], security: u32, number: u32, shares: u32) -> u32 {
    let outcome = with_fewer_shares(book, security, number, shares);
    book::settle(Form::New, book, outcome)
}

/// The orders of the book, and the place of the security's one with this number.
fn record_of(book: &[u8], security: u32, number: u32) -> Result<(Vec<Order>, usize), Refusal> {
    if !security_in_range(security) || number == 0 {
        return Err(Refusal::OutOfRange);
    }
    let orders = book::read(book)?;
    let is_named = |order: &Order| (order.security, order.number) == (security, number);
    let place = orders.iter().position(is_named);
    Ok((orders, place.ok_or(Refusal::NoSuchOrder)?))
}

fn with_order(book: &[u8], order: Order) -> Result<Vec<Order>, Refusal> {
    let mut orders = book::read(book)?;
    if orders.iter().any(|other| other.number >= order.number) {
        return Err(Refusal::NumberNotAboveAll);
    }
    if orders.iter().any(|other| could_trade(&order, other)) {
        return Err(Refusal::CouldTrade);
    }
    if orders.len() == book.len() / RECORD_LENGTH {
        return Err(Refusal::NoFreeRecord);
    }
    let setter = sets_price(&order, &orders);
    orders.push(Order { setter, ..order });
    Ok(orders)
}

/// Whether a new order could trade with a resting one.
fn could_trade(new: &Order, resting: &Order) -> bool {
    resting.security == new.security
        && resting.side != new.side
        && new.side.within(new.price, resting.price)
        && resting.least_fill() <= new.shares()
}

/// Whether a new order is displayed, with a round lot or more shown, and better
/// priced than every displayed order of its security on its side.
fn sets_price(new: &Order, orders: &[Order]) -> bool {
    let mut rivals = orders
        .iter()
        .filter(|order| (order.security, order.side) == (new.security, new.side))
        .filter(|order| order.is_displayed());
    new.is_displayed()
        && new.size >= ROUND_LOT
        && rivals.all(|rival| new.side.is_better(new.price, rival.price))
}

fn with_fewer_shares(
    book: &[u8],
    security: u32,
    number: u32,
    shares: u32,
) -> Result<Vec<Order>, Refusal> {
    if !book::size_in_range(shares) {
        return Err(Refusal::OutOfRange);
    }
    let (mut orders, place) = record_of(book, security, number)?;
    if shares > orders[place].shares() {
        return Err(Refusal::MoreThanOrderHas);
    }
    match orders[place].reduced(shares) {
        Some(smaller) => orders[place] = smaller,
        None => drop(orders.remove(place)),
    }
    Ok(orders)
}
