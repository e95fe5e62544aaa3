//! An order as it looks at the book.

use super::record::Record;
use crate::book::Side;

/// An order that comes in: whom it may trade with, and at which price.
#[derive(Clone, Copy)]
pub struct Taker {
    security: u32,
    side: Side,
    pub size: u32,
    /// Turns a price into its rank.
    turn: u32,
    /// The rank of its limit.
    limit: u32,
}

impl Taker {
    pub fn new(security: u32, side: Side, limit: u32, size: u32) -> Taker {
        let turn = match side {
            Side::Buy => 0,
            Side::Sell => u32::MAX,
        };
        Taker {
            security,
            side,
            size,
            turn,
            limit: limit ^ turn,
        }
    }

    /// Lower for a price that is better to trade at.
    pub fn rank(self, price: u32) -> u32 {
        price ^ self.turn
    }

    /// Whether a resting order of its security is on the other side, within the limit,
    /// and has no minimum above the size.
    #[inline(always)]
    pub fn may_trade_with(self, resting: Record) -> bool {
        !resting.is_on(self.side)
            & (self.rank(resting.price()) <= self.limit)
            & (resting.minimum() <= self.size)
            & (resting.security() == self.security)
    }

    /// Whether a resting order of its security is displayed on its own side, at its
    /// limit or a better price.
    #[inline(always)]
    pub fn is_rivalled_by(self, resting: Record) -> bool {
        resting.is_on(self.side)
            & resting.is_displayed()
            & (self.rank(resting.price()) >= self.limit)
            & (resting.security() == self.security)
    }
}
