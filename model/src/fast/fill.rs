//! Fills, and the groups that they stand in.

use crate::book::MOST_ORDERS;

/// What a part of an order gets, or may get, as one number that sorts by price
/// (the best first), then paragraph, then order number: the rank of the price in
/// 32 bits, the paragraph in 4, the record's place in 8, shares in 20.
#[derive(Clone, Copy, PartialEq, Eq, PartialOrd, Ord)]
pub struct Fill(u64);

impl Fill {
    pub const NONE: Fill = Fill(0);

    const PLACE: u32 = 20;
    const PARAGRAPH: u32 = 28;
    const RANK: u32 = 32;
    const SHARES: u64 = (1 << Fill::PLACE) - 1;

    #[inline(always)]
    pub fn new(rank: u32, paragraph: u8, place: usize, shares: u32) -> Fill {
        Fill(
            u64::from(rank) << Fill::RANK
                | u64::from(paragraph) << Fill::PARAGRAPH
                | (place as u64) << Fill::PLACE
                | u64::from(shares),
        )
    }

    /// Equal for the parts of a price and paragraph.
    pub fn group(self) -> u64 {
        self.0 >> Fill::PARAGRAPH
    }

    pub fn paragraph(self) -> u8 {
        (self.0 as u32 >> Fill::PARAGRAPH) as u8
    }

    pub fn place(self) -> usize {
        (self.0 >> Fill::PLACE) as usize % MOST_ORDERS
    }

    pub fn shares(self) -> u32 {
        (self.0 & Fill::SHARES) as u32
    }

    pub fn with_shares(self, shares: u32) -> Fill {
        Fill(self.0 & !Fill::SHARES | u64::from(shares))
    }
}

/// Moves the fills that are to be kept to the place `to`, from those between
/// `from` and `end` behind it, in their order. Gives the place behind them.
#[inline(always)]
pub fn keep(
    fills: &mut [Fill],
    to: usize,
    from: std::ops::Range<usize>,
    kept: impl Fn(Fill) -> bool,
) -> usize {
    let mut next = to;
    for place in from {
        let fill = fills[place];
        fills[next] = fill;
        next += usize::from(kept(fill));
    }
    next
}

/// Where the group that starts at a place of sorted fills ends, and its total.
pub fn group_end(fills: &[Fill], start: usize) -> (usize, u32) {
    let group = fills[start].group();
    let mut end = start;
    let mut total = 0;
    while end < fills.len() && fills[end].group() == group {
        total += fills[end].shares();
        end += 1;
    }
    (end, total)
}
