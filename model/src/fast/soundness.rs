//! The pass over a book that finds whether it is sound.

use super::record::{Bytes, Record};
use crate::book::{Side, MOST_ORDERS, RECORD_LENGTH, SECURITIES};
use crate::Refusal;

/// What the pass finds out beside soundness.
pub struct Sound {
    /// The orders of both securities.
    pub orders: usize,
    /// Those of security 1.
    second: u32,
    /// The number of the last order, 0 without one.
    pub last_number: u32,
    /// Whether an order hides shares behind shown ones.
    pub hides: bool,
}

impl Sound {
    /// The number of a security's orders.
    pub fn orders_of(&self, security: u32) -> u32 {
        match security {
            0 => self.orders as u32 - self.second,
            _ => self.second,
        }
    }
}

/// Checks a book.
pub fn sound(book: &[u8]) -> Result<Sound, Refusal> {
    let (records, partial) = book.as_chunks::<RECORD_LENGTH>();
    if !partial.is_empty() || records.len() > MOST_ORDERS {
        return Err(Refusal::UnsoundBook);
    }
    let mut faults = 0;
    let mut marks = Marks::default();
    let mut sound = Sound {
        orders: 0,
        second: 0,
        last_number: 0,
        hides: false,
    };
    for bytes in records {
        if bytes[0] == 0 {
            break;
        }
        let mut record = Record::of(bytes);
        if record.is_reserve() {
            faults |= record.reserve_faults();
            sound.hides |= record.hidden() > 0;
            record = record.shown();
        }
        faults |= record.faults(sound.last_number);
        if record.setter() != 0 {
            marks.note(record);
        }
        sound.last_number = record.number();
        sound.second += record.security();
        sound.orders += 1;
    }
    let (orders, behind) = records.split_at(sound.orders);
    if faults == 0 && all_zero(behind.as_flattened()) && (marks.improve || marks_are_single(orders))
    {
        Ok(sound)
    } else {
        Err(Refusal::UnsoundBook)
    }
}

pub fn all_zero(bytes: &[u8]) -> bool {
    bytes.iter().fold(0, |all, byte| all | byte) == 0
}

/// Whether the marked orders of a security and side come at ever better prices. In
/// a book made by the calls they do, for add marks an order that is better than
/// every displayed one; and then no two of them have the same price.
struct Marks {
    improve: bool,
    /// The last marked price of each security's sells and buys, larger for a better
    /// one.
    best: [[u32; 2]; SECURITIES as usize],
}

impl Default for Marks {
    fn default() -> Marks {
        Marks {
            improve: true,
            best: [[0; 2]; SECURITIES as usize],
        }
    }
}

impl Marks {
    #[inline(never)]
    fn note(&mut self, marked: Record) {
        let buys = marked.is_on(Side::Buy);
        let price = if buys {
            marked.price()
        } else {
            !marked.price()
        };
        let best = &mut self.best[marked.security() as usize][usize::from(buys)];
        self.improve &= price > *best;
        *best = price;
    }
}

/// Whether at most one order per security, side and price has the setter mark, in
/// records that are sound each for itself.
#[cold]
#[inline(never)]
fn marks_are_single(records: &[Bytes]) -> bool {
    let mut marked = [0; MOST_ORDERS];
    let mut count = 0;
    for record in records.iter().map(Record::of) {
        if record.setter() != 0 {
            let side = u64::from(record.is_on(Side::Buy));
            let security = u64::from(record.security());
            marked[count] = u64::from(record.price()) << 2 | security << 1 | side;
            count += 1;
        }
    }
    let marked = &mut marked[..count];
    marked.sort_unstable();
    marked.windows(2).all(|two| two[0] != two[1])
}
