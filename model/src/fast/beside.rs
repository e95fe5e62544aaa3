//! What a call keeps beside the book: nothing, or a ladder.

use super::fill::Fill;
use super::ladder::{self, is_ladder_of, Row, RowBytes};
use super::record::{Bytes, Record};
use crate::{Refusal, LADDER_LENGTH};

/// Kept beside a book while a call changes orders of one security.
pub trait Beside {
    /// Whether it is what belongs beside a book of these orders.
    fn fits(&mut self, records: &[Bytes]) -> Result<(), Refusal>;
    /// An order is put in the book.
    fn added(&mut self, record: Record);
    /// An order is to lose shares of its size, and hidden ones.
    fn lessened(&mut self, record: Record, shares: u32, hidden: u32);
    /// Orders have lost the shares of these fills, which come by price; those that
    /// are used up stand in their places still, without having been refreshed. The
    /// number is the first paragraph that isn't displayed.
    fn executed(&mut self, records: &[Bytes], fills: &[Fill], not_displayed: u8);
}

/// For a plain call.
pub struct Nothing;

impl Beside for Nothing {
    fn fits(&mut self, _: &[Bytes]) -> Result<(), Refusal> {
        Ok(())
    }

    fn added(&mut self, _: Record) {}

    fn lessened(&mut self, _: Record, _: u32, _: u32) {}

    fn executed(&mut self, _: &[Bytes], _: &[Fill], _: u8) {}
}

/// A lent ladder of a security.
pub struct Ladder<'a> {
    security: u32,
    bytes: &'a mut [u8],
    /// How many rows are in use, once the ladder fits.
    used: usize,
}

impl Ladder<'_> {
    pub fn of(security: u32, bytes: &mut [u8]) -> Ladder<'_> {
        Ladder {
            security,
            bytes,
            used: 0,
        }
    }

    fn rows(&mut self) -> &mut [RowBytes] {
        self.bytes.as_chunks_mut().0
    }

    /// The place of a row, or the one where it would have to stand.
    fn search(&mut self, rank: u32) -> Result<usize, usize> {
        let used = self.used;
        self.rows()[..used].binary_search_by_key(&rank, ladder::rank_of)
    }
}

impl Beside for Ladder<'_> {
    fn fits(&mut self, records: &[Bytes]) -> Result<(), Refusal> {
        if self.bytes.len() != LADDER_LENGTH {
            return Err(Refusal::LadderLength);
        }
        let security = self.security;
        let rows = is_ladder_of(self.rows(), records, security);
        self.used = rows.ok_or(Refusal::LadderOfAnotherBook)?;
        Ok(())
    }

    fn added(&mut self, record: Record) {
        match self.search(ladder::rank(record)) {
            Ok(place) => {
                let row = &mut self.rows()[place];
                *row = Row::read(row).with(record).bytes();
            }
            Err(place) => {
                let used = self.used;
                let rows = self.rows();
                rows.copy_within(place..used, place + 1);
                rows[place] = Row::new(ladder::rank(record)).with(record).bytes();
            }
        }
    }

    fn lessened(&mut self, record: Record, shares: u32, hidden: u32) {
        let Ok(place) = self.search(ladder::rank(record)) else {
            return;
        };
        let used = self.used;
        let rows = self.rows();
        let mut row = Row::read(&rows[place])
            .without(shares, record.is_displayed())
            .without(hidden, false);
        if shares == record.size() {
            row = row.without_order();
        }
        rows[place] = row.bytes();
        if row.is_empty() {
            rows.copy_within(place + 1..used, place);
            rows[used - 1].fill(0);
        }
    }

    fn executed(&mut self, records: &[Bytes], fills: &[Fill], not_displayed: u8) {
        let Some(first) = fills.first() else {
            return;
        };
        let best = ladder::rank(Record::of(&records[first.place()]));
        let Ok(start) = self.search(best) else {
            return;
        };
        let used = self.used;
        let rows = &mut self.rows()[start..used];
        let mut place = 0;
        let mut emptied = 0;
        for fill in fills {
            let record = Record::of(&records[fill.place()]);
            let rank = ladder::rank(record);
            // Fills come by price, as rows do.
            while ladder::rank_of(&rows[place]) != rank {
                place += 1;
            }
            let displayed = fill.paragraph() < not_displayed;
            let mut row = Row::read(&rows[place]).without(fill.shares(), displayed);
            // An order's size has one fill, whatever its hidden shares have.
            if record.size() == 0 && displayed == record.is_displayed() {
                match record.refreshed() {
                    0 => row = row.without_order(),
                    shown => row = row.with_shown(shown),
                }
            }
            rows[place] = row.bytes();
            emptied += usize::from(row.is_empty());
        }
        if emptied > 0 {
            close_gaps(rows);
        }
    }
}

/// Moves the rows that have orders to the front, with zeros behind them.
fn close_gaps(rows: &mut [RowBytes]) {
    let mut kept = 0;
    for place in 0..rows.len() {
        let row = rows[place];
        rows[kept] = row;
        kept += usize::from(!Row::read(&row).is_empty());
    }
    rows[kept..].as_flattened_mut().fill(0);
}
