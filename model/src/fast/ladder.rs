//! The rows of a ladder, and the call that makes a new one.

use super::calls::refusal_of;
use super::record::{hidden_of, Bytes, Record};
use super::soundness::{all_zero, sound};
use crate::book::{security_in_range, Side, MOST_ORDERS};
use crate::ladder::ROW_LENGTH;
use crate::{Refusal, LADDER_LENGTH};

pub type RowBytes = [u8; ROW_LENGTH];

/// The mark of a row, before its side.
const MARK: u64 = 0x444C;

/// Rises as rows stand: sells by price, then buys by falling price. No price
/// reaches the top bit.
pub fn rank(record: Record) -> u32 {
    rank_at(record.price(), record.is_on(Side::Buy))
}

fn rank_at(price: u32, buys: bool) -> u32 {
    match buys {
        true => !price,
        false => price,
    }
}

/// The rank of a row that is in use.
pub fn rank_of(row: &RowBytes) -> u32 {
    let price = u32::from_le_bytes([4, 5, 6, 7].map(|place| row[place]));
    rank_at(price, row[2] == Side::Buy as u8)
}

/// A row as three numbers of eight bytes: the mark, side and price; displayed
/// shares and above them other shares; the count of orders.
#[derive(Clone, Copy)]
pub struct Row {
    words: [u64; 3],
}

impl Row {
    /// Without orders.
    pub fn new(rank: u32) -> Row {
        Row { words: [0; 3] }.at(rank)
    }

    /// The same orders at the side and price of this rank.
    fn at(self, rank: u32) -> Row {
        let [_, shares, count] = self.words;
        let buys = rank >> 31 == 1;
        let side = if buys { Side::Buy } else { Side::Sell };
        let price = rank_at(rank, buys);
        let head = u64::from(price) << 32 | (side as u64) << 16 | MARK;
        Row {
            words: [head, shares, count],
        }
    }

    pub fn read(bytes: &RowBytes) -> Row {
        let (words, _) = bytes.as_chunks::<8>();
        Row {
            words: [0, 1, 2].map(|word| u64::from_le_bytes(words[word])),
        }
    }

    pub fn bytes(self) -> RowBytes {
        let mut bytes = [0; ROW_LENGTH];
        let (words, _) = bytes.as_chunks_mut::<8>();
        for (place, word) in words.iter_mut().zip(self.words) {
            *place = word.to_le_bytes();
        }
        bytes
    }

    /// With an order more.
    pub fn with(self, record: Record) -> Row {
        let [head, shares, count] = self.words;
        let more = in_column(record.size(), record.is_displayed());
        let hidden = in_column(record.hidden(), false);
        Row {
            words: [head, shares + more + hidden, count + 1],
        }
    }

    /// With so many shares less in a column.
    pub fn without(self, shares: u32, displayed: bool) -> Row {
        let [head, all, count] = self.words;
        Row {
            words: [head, all - in_column(shares, displayed), count],
        }
    }

    /// With so many hidden shares shown.
    pub fn with_shown(self, shares: u32) -> Row {
        let [head, all, count] = self.without(shares, false).words;
        Row {
            words: [head, all + in_column(shares, true), count],
        }
    }

    /// With an order less, which has no shares left.
    pub fn without_order(self) -> Row {
        let [head, shares, count] = self.words;
        Row {
            words: [head, shares, count - 1],
        }
    }

    pub fn is_empty(self) -> bool {
        self.words[2] == 0
    }

    /// Zero exactly if the rows are the same.
    fn difference(self, other: Row) -> u64 {
        let [a, b, c] = self.words;
        let [d, e, f] = other.words;
        (a ^ d) | (b ^ e) | (c ^ f)
    }
}

/// Shares in their place of a row's second number.
fn in_column(shares: u32, displayed: bool) -> u64 {
    u64::from(shares) << (32 * u32::from(!displayed))
}

/// An order as it counts in its row, as one number that sorts as rows stand: the
/// rank in 32 bits, the record's place in 8, whether it hides shares behind shown
/// ones in 1, whether it is displayed in 1, the size in 20.
#[derive(Clone, Copy, PartialEq, Eq, PartialOrd, Ord)]
struct Counted(u64);

impl Counted {
    const NONE: Counted = Counted(0);

    const DISPLAYED: u32 = 20;
    const HIDES: u32 = 21;
    const PLACE: u32 = 22;
    const RANK: u32 = 32;

    fn of(place: usize, record: Record) -> Counted {
        Counted(
            u64::from(rank(record)) << Counted::RANK
                | (place as u64) << Counted::PLACE
                | u64::from(record.hidden() > 0) << Counted::HIDES
                | u64::from(record.is_displayed()) << Counted::DISPLAYED
                | u64::from(record.size()),
        )
    }

    fn rank(self) -> u32 {
        (self.0 >> Counted::RANK) as u32
    }

    /// What it adds to its row's second number.
    fn shares(self, records: &[Bytes]) -> u64 {
        let size = self.0 as u32 & ((1 << Counted::DISPLAYED) - 1);
        let shares = in_column(size, self.0 >> Counted::DISPLAYED & 1 == 1);
        if self.0 >> Counted::HIDES & 1 == 0 {
            return shares;
        }
        let place = (self.0 >> Counted::PLACE) as usize % MOST_ORDERS;
        shares + in_column(hidden_of(&records[place]), false)
    }
}

/// Goes through the rows of a security's orders, in room for `ORDERS` records.
fn each_row<const ORDERS: usize>(records: &[Bytes], security: u32, mut act: impl FnMut(Row)) {
    let mut orders = [Counted::NONE; ORDERS];
    let mut count = 0;
    for (place, record) in records.iter().map(Record::of).enumerate() {
        orders[count] = Counted::of(place, record);
        count += usize::from(record.security() == security);
    }
    let orders = &mut orders[..count];
    if !orders.is_sorted() {
        orders.sort_unstable();
    }
    let mut rest = &*orders;
    while let Some(first) = rest.first() {
        let mut row = Row::new(first.rank());
        let mut count = 0;
        while count < rest.len() && rest[count].rank() == first.rank() {
            row.words[1] += rest[count].shares(records);
            count += 1;
        }
        row.words[2] = count as u64;
        rest = &rest[count..];
        act(row);
    }
}

/// As above, in room that fits. Clearing room for a full book would cost more
/// than the rows of a few orders.
fn rows(records: &[Bytes], security: u32, act: impl FnMut(Row)) {
    match records.len() {
        0..=16 => each_row::<16>(records, security, act),
        17..=64 => each_row::<64>(records, security, act),
        _ => each_row::<MOST_ORDERS>(records, security, act),
    }
}

/// Writes the ladder of a security, whatever stood in the buffer. Gives the refusal
/// number.
pub fn ladder(book: &[u8], ladder: &mut [u8], security: u32) -> u32 {
    refusal_of(make(book, ladder, security))
}

fn make(book: &[u8], ladder: &mut [u8], security: u32) -> Result<(), Refusal> {
    if !security_in_range(security) {
        return Err(Refusal::OutOfRange);
    }
    let orders = sound(book)?.orders;
    if ladder.len() != LADDER_LENGTH {
        return Err(Refusal::LadderLength);
    }
    let places: &mut [RowBytes] = ladder.as_chunks_mut().0;
    let mut used = 0;
    rows(&book.as_chunks().0[..orders], security, |row| {
        places[used] = row.bytes();
        used += 1;
    });
    places[used..].as_flattened_mut().fill(0);
    Ok(())
}

/// Up to so many rows it is faster to look for each order's than to sort.
const FEW: usize = 32;

/// How many rows a ladder has, if it is that of a security's orders.
pub fn is_ladder_of(ladder: &[RowBytes], records: &[Bytes], security: u32) -> Option<usize> {
    let (used, differences) = match ladder[FEW][0] {
        0 => differences_of_few(ladder, records, security)?,
        _ => differences_of_many(ladder, records, security),
    };
    let same = differences == 0 && all_zero(ladder[used..].as_flattened());
    same.then_some(used)
}

/// The number of rows that these orders have, and whether the ladder's differ.
fn differences_of_many(ladder: &[RowBytes], records: &[Bytes], security: u32) -> (usize, u64) {
    let mut differences = 0;
    let mut used = 0;
    rows(records, security, |row| {
        differences |= row.difference(Row::read(&ladder[used]));
        used += 1;
    });
    (used, differences)
}

/// As above, of a ladder whose own rows, if they stand in order, say where each
/// order counts. One that has no row, or a row without orders, makes it wrong.
fn differences_of_few(
    ladder: &[RowBytes],
    records: &[Bytes],
    security: u32,
) -> Option<(usize, u64)> {
    let mut ranks = [0; FEW];
    let mut used = 0;
    while used < FEW && ladder[used][0] != 0 {
        ranks[used] = rank_of(&ladder[used]);
        used += 1;
    }
    let ranks = &ranks[..used];
    if !ranks.is_sorted() {
        return None;
    }
    let mut counted = [Row::new(0); FEW];
    let of_security = |record: &Record| record.security() == security;
    for record in records.iter().map(Record::of).filter(of_security) {
        let row = &mut counted[ranks.binary_search(&rank(record)).ok()?];
        *row = row.with(record);
    }
    let mut differences = 0;
    for ((row, &rank), bytes) in counted.iter().zip(ranks).zip(ladder) {
        let row = row.at(rank);
        differences |= row.difference(Row::read(bytes)) | u64::from(row.is_empty());
    }
    Some((used, differences))
}
