//! A book's bytes: the records of its orders in the new form and in the old one,
//! and what makes a book sound.

use crate::Refusal;

pub use crate::order::{
    price_in_range, security_in_range, size_in_range, Kind, Order, Side, HIGHEST_PRICE,
    LARGEST_SIZE, ROUND_LOT, SECURITIES,
};

pub const MOST_ORDERS: usize = 256;
pub const RECORD_LENGTH: usize = 40;
pub const LONGEST_BOOK: usize = MOST_ORDERS * RECORD_LENGTH;

/// The form of a book's records. An old record is the start of a new one, with a
/// mark of its own.
#[derive(Clone, Copy, Debug, PartialEq, Eq)]
pub enum Form {
    Old,
    New,
}

impl Form {
    pub fn other(self) -> Form {
        match self {
            Form::Old => Form::New,
            Form::New => Form::Old,
        }
    }

    pub fn record_length(self) -> usize {
        match self {
            Form::Old => 32,
            Form::New => RECORD_LENGTH,
        }
    }

    fn mark(self) -> [u8; 2] {
        match self {
            Form::Old => [0x4F, 0x42],
            Form::New => [0x4F, 0x43],
        }
    }

    /// Whether a book of this form may have so many bytes.
    pub fn allows_length(self, length: usize) -> bool {
        let most = MOST_ORDERS * self.record_length();
        length <= most && length.is_multiple_of(self.record_length())
    }

    /// Whether a record of this form has a place for all that the order is.
    pub fn can_tell(self, order: &Order) -> bool {
        let in_old_form = !matches!(order.kind, Kind::Reserve { .. }) && order.security == 0;
        self == Form::New || in_old_form
    }
}

impl Order {
    /// The order's 40 bytes in the new form.
    pub fn record(&self) -> [u8; RECORD_LENGTH] {
        let (kind, minimum, hidden, refresh) = match self.kind {
            Kind::Displayed => (1, 0, 0, 0),
            Kind::NonDisplayed => (2, 0, 0, 0),
            Kind::MinimumQuantity { minimum } => (3, minimum, 0, 0),
            Kind::Reserve { hidden, refresh } => (4, 0, hidden, refresh),
        };
        let mut record = [0; RECORD_LENGTH];
        record[0..2].copy_from_slice(&Form::New.mark());
        record[2] = self.side as u8;
        record[3] = kind;
        record[4..8].copy_from_slice(&self.number.to_le_bytes());
        record[8..12].copy_from_slice(&self.price.to_le_bytes());
        record[12..16].copy_from_slice(&self.size.to_le_bytes());
        record[16..20].copy_from_slice(&minimum.to_le_bytes());
        record[20] = self.setter as u8;
        record[21] = self.security as u8;
        record[32..36].copy_from_slice(&hidden.to_le_bytes());
        record[36..40].copy_from_slice(&refresh.to_le_bytes());
        record
    }

    /// The order of a record in this form. An old one is read as a new one with zeros
    /// behind it, and has to be one that the old form can tell.
    fn of_record(form: Form, bytes: &[u8]) -> Option<Order> {
        let mut record = [0; RECORD_LENGTH];
        record[..bytes.len()].copy_from_slice(bytes);
        if record[0..2] != form.mark() || !all_zero(&record[22..32]) {
            return None;
        }
        let order = Order::of_numbers([
            u32::from(record[2]),
            u32::from(record[3]),
            number_at(&record, 4),
            number_at(&record, 8),
            number_at(&record, 12),
            number_at(&record, 16),
            number_at(&record, 32),
            number_at(&record, 36),
            u32::from(record[21]),
        ])
        .filter(|order| form.can_tell(order))?;
        match record[20] {
            0 => Some(order),
            1 if order.is_displayed() => Some(Order {
                setter: true,
                ..order
            }),
            _ => None,
        }
    }
}

/// The number in the four bytes from a place on.
pub fn number_at(bytes: &[u8], place: usize) -> u32 {
    let four = bytes[place..place + 4].try_into().expect("four bytes");
    u32::from_le_bytes(four)
}

/// The orders of a sound book in the new form, in the order of their records.
pub fn read(book: &[u8]) -> Result<Vec<Order>, Refusal> {
    read_in(Form::New, book)
}

/// The orders of a book that is sound in this form.
pub fn read_in(form: Form, book: &[u8]) -> Result<Vec<Order>, Refusal> {
    sound_orders(form, book).ok_or(Refusal::UnsoundBook)
}

/// The orders of a security in a sound book, in the order of their records.
pub fn orders_of(book: &[u8], security: u32) -> Result<Vec<Order>, Refusal> {
    if !security_in_range(security) {
        return Err(Refusal::OutOfRange);
    }
    let mut orders = read(book)?;
    orders.retain(|order| order.security == security);
    Ok(orders)
}

/// Makes the book one of exactly these orders in the new form, with zeros behind
/// them.
pub fn write(book: &mut [u8], orders: &[Order]) {
    write_in(Form::New, book, orders);
}

/// As above, in this form, which can tell the orders.
pub fn write_in(form: Form, book: &mut [u8], orders: &[Order]) {
    let length = form.record_length();
    book.fill(0);
    for (record, order) in book.chunks_exact_mut(length).zip(orders) {
        record.copy_from_slice(&order.record()[..length]);
        record[0..2].copy_from_slice(&form.mark());
    }
}

/// Writes the new orders, or leaves the book alone. Gives the refusal number.
pub fn settle(form: Form, book: &mut [u8], outcome: Result<Vec<Order>, Refusal>) -> u32 {
    match outcome {
        Ok(orders) => {
            write_in(form, book, &orders);
            0
        }
        Err(refusal) => refusal as u32,
    }
}

fn sound_orders(form: Form, book: &[u8]) -> Option<Vec<Order>> {
    if !form.allows_length(book.len()) {
        return None;
    }
    let records: Vec<&[u8]> = book.chunks_exact(form.record_length()).collect();
    let used = records.iter().rposition(|record| !all_zero(record));
    let occupied = used.map_or(0, |last| last + 1);
    let mut orders = Vec::with_capacity(occupied);
    for record in &records[..occupied] {
        orders.push(Order::of_record(form, record)?);
    }
    (numbers_rise(&orders) && setters_are_single(&orders)).then_some(orders)
}

fn numbers_rise(orders: &[Order]) -> bool {
    orders.windows(2).all(|two| two[0].number < two[1].number)
}

/// At most one order per security, side and price has the setter mark.
fn setters_are_single(orders: &[Order]) -> bool {
    let mut marked: Vec<(u32, u32, u32)> = orders
        .iter()
        .filter(|order| order.setter)
        .map(|order| (order.security, order.side as u32, order.price))
        .collect();
    marked.sort_unstable();
    marked.windows(2).all(|two| two[0] != two[1])
}

/// Of at most a record's bytes.
fn all_zero(bytes: &[u8]) -> bool {
    bytes == &[0; RECORD_LENGTH][..bytes.len()]
}
