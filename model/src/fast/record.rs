//! A record read as five numbers of eight bytes.

use crate::book::{Side, HIGHEST_PRICE, LARGEST_SIZE, RECORD_LENGTH};

pub type Bytes = [u8; RECORD_LENGTH];

const DISPLAYED: u32 = 1;
pub const NON_DISPLAYED: u32 = 2;
const RESERVE: u32 = 4;

/// The first four bytes of a displayed buy's record: mark, side and kind.
const FIRST_FORM: u32 = 0x01_01_43_4F;
/// The kind of minimum quantity orders less 1, and the byte of the side.
const LAST_FORM: u64 = 0x02FF;
const MOST_PRICE_AND_SIZE: u64 = (LARGEST_SIZE as u64) << 32 | HIGHEST_PRICE as u64;
const MOST_HIDDEN_AND_REFRESH: u64 = (LARGEST_SIZE as u64) << 32 | LARGEST_SIZE as u64;
/// The one bit that a security has, beside minimum and setter mark.
const SECURITY: u64 = 1 << 40;
/// The top bits of the two numbers of four bytes in a word.
const TOP_BITS: u64 = 1 << 63 | 1 << 31;

/// The places of fields that are read and written alone.
const NUMBER: usize = 4;
const SIZE: usize = 12;
const MINIMUM: usize = 16;
const HIDDEN: usize = 32;

#[derive(Clone, Copy)]
pub struct Record {
    words: [u64; 5],
}

impl Record {
    #[inline(always)]
    pub fn of(bytes: &Bytes) -> Record {
        let (words, _) = bytes.as_chunks::<8>();
        Record {
            words: [0, 1, 2, 3, 4].map(|word| u64::from_le_bytes(words[word])),
        }
    }

    pub fn side(self) -> u32 {
        (self.words[0] >> 16) as u32 & 0xFF
    }

    pub fn kind(self) -> u32 {
        (self.words[0] >> 24) as u32 & 0xFF
    }

    pub fn number(self) -> u32 {
        (self.words[0] >> 32) as u32
    }

    pub fn price(self) -> u32 {
        self.words[1] as u32
    }

    pub fn size(self) -> u32 {
        (self.words[1] >> 32) as u32
    }

    pub fn minimum(self) -> u32 {
        self.words[2] as u32
    }

    pub fn setter(self) -> u32 {
        (self.words[2] >> 32) as u32 & 0xFF
    }

    pub fn security(self) -> u32 {
        u32::from(self.words[2] & SECURITY != 0)
    }

    pub fn hidden(self) -> u32 {
        self.words[4] as u32
    }

    /// The hidden shares that a reserve order without shown ones shows next.
    pub fn refreshed(self) -> u32 {
        let refresh = (self.words[4] >> 32) as u32;
        self.hidden().min(refresh)
    }

    /// Whether the order is displayed, at least in part.
    pub fn is_displayed(self) -> bool {
        (self.kind() == DISPLAYED) | self.is_reserve()
    }

    pub fn is_reserve(self) -> bool {
        self.kind() == RESERVE
    }

    pub fn is_on(self, side: Side) -> bool {
        self.side() == side as u32
    }

    /// Zero exactly if the record is sound and its number above the one before. Of a
    /// reserve order this is asked as of a displayed one, and `reserve_faults`
    /// beside it.
    ///
    /// The second word has price and size side by side, the third the minimum and the
    /// setter mark, if the security's bit is left out. Both fields of a word are held
    /// to their bounds by one subtraction of words each way: no bound reaches the top
    /// bit of its field, and so a field out of range sets the top bit of one of the
    /// differences.
    #[inline(always)]
    pub fn faults(self, number_before: u32) -> u64 {
        let [head, price_and_size, third, zero, none_hidden] = self.words;
        let minimum_and_setter = third & !SECURITY;
        // The kind less 1 in the second byte, the side less 1 in the first, and
        // nothing above them if the mark is right.
        let form = (head as u32).wrapping_sub(FIRST_FORM).rotate_right(16);
        let displayed = u64::from(form < 0x100);
        let has_minimum = u64::from(form >> 9);
        let size = price_and_size >> 32;
        let most_minimum = size & has_minimum.wrapping_neg();
        let rise = (head >> 32).wrapping_sub(u64::from(number_before) + 1);
        let differences = LAST_FORM.wrapping_sub(u64::from(form))
            | price_and_size.wrapping_sub(1 << 32 | 1)
            | MOST_PRICE_AND_SIZE.wrapping_sub(price_and_size)
            | minimum_and_setter.wrapping_sub(has_minimum)
            | (displayed << 32 | most_minimum).wrapping_sub(minimum_and_setter);
        let stray = form & !0x0301;
        zero | none_hidden | u64::from(stray) | (differences & TOP_BITS) | (rise >> 63)
    }

    /// Zero exactly if the hidden shares and the refresh size of a reserve order are
    /// within their ranges, which is told as above.
    #[inline(always)]
    pub fn reserve_faults(self) -> u64 {
        let hidden_and_refresh = self.words[4];
        let differences = hidden_and_refresh.wrapping_sub(1 << 32)
            | MOST_HIDDEN_AND_REFRESH.wrapping_sub(hidden_and_refresh);
        differences & TOP_BITS
    }

    /// A reserve order as a displayed one of what it shows.
    #[inline(always)]
    pub fn shown(self) -> Record {
        let [head, price_and_size, third, zero, _] = self.words;
        let head = head - (u64::from(RESERVE - DISPLAYED) << 24);
        Record {
            words: [head, price_and_size, third, zero, 0],
        }
    }
}

fn four(bytes: &Bytes, place: usize) -> u32 {
    u32::from_le_bytes([0, 1, 2, 3].map(|byte| bytes[place + byte]))
}

fn put_four(bytes: &mut Bytes, place: usize, number: u32) {
    bytes[place..place + 4].copy_from_slice(&number.to_le_bytes());
}

pub fn number_of(bytes: &Bytes) -> u32 {
    four(bytes, NUMBER)
}

pub fn size_of(bytes: &Bytes) -> u32 {
    four(bytes, SIZE)
}

pub fn hidden_of(bytes: &Bytes) -> u32 {
    four(bytes, HIDDEN)
}

/// Takes hidden shares from an order that has them.
#[inline(always)]
pub fn lessen_hidden(bytes: &mut Bytes, shares: u32) {
    put_four(bytes, HIDDEN, hidden_of(bytes) - shares);
}

/// Shows hidden shares of an order that has no others: up to its refresh size,
/// none if it hides none. Gives the new size.
#[inline(always)]
pub fn refresh(bytes: &mut Bytes) -> u32 {
    let size = Record::of(bytes).refreshed();
    if size > 0 {
        put_four(bytes, SIZE, size);
        lessen_hidden(bytes, size);
    }
    size
}

/// Takes shares from an order that has them; a minimum above the new size
/// becomes the new size. Gives the new size.
#[inline(always)]
pub fn lessen(bytes: &mut Bytes, shares: u32) -> u32 {
    let size = size_of(bytes) - shares;
    let minimum = four(bytes, MINIMUM).min(size);
    put_four(bytes, SIZE, size);
    put_four(bytes, MINIMUM, minimum);
    size
}
