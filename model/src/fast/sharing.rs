//! How a group shares what reaches it where that is less than the group has.

use super::fill::Fill;
use crate::book::{LARGEST_SIZE, MOST_ORDERS, ROUND_LOT};

/// The parts of orders of a price and paragraph, at most one of each order.
pub struct Group<'a> {
    /// In rising order number, each at first with its part's size as its shares.
    /// Sharing puts in what each part gets.
    pub fills: &'a mut [Fill],
    /// The sizes together.
    pub total: u32,
    /// What reaches the group: not more than its total.
    pub shares: u32,
}

/// Room for a group's orders as their turns come, and for what each gets.
pub struct Scratch<'a> {
    pub turns: &'a mut [u32],
    pub allotment: &'a mut [u32],
}

/// Each order in its turn is filled as far as the shares go; one whose minimum
/// exceeds the shares left is passed over. Gives the shares left.
pub fn by_time(group: Group, minimum_of: impl Fn(Fill) -> u32) -> u32 {
    let mut left = group.shares;
    for fill in group.fills {
        left -= fill_in_turn(fill, minimum_of(*fill), left);
    }
    left
}

/// As by time, but the smallest minimum first.
pub fn smallest_minimum_first(
    group: Group,
    minimum_of: impl Fn(Fill) -> u32,
    scratch: &mut Scratch,
) -> u32 {
    let mut left = group.shares;
    for &turn in sorted(group.fills, scratch.turns, minimum_of) {
        left -= fill_in_turn(&mut group.fills[place_in(turn)], rank_in(turn), left);
    }
    left
}

/// As by time, but the largest first, and none with a minimum, so that no shares
/// are left.
pub fn largest_first(group: Group, scratch: &mut Scratch) {
    let mut left = group.shares;
    for &turn in sorted(group.fills, scratch.turns, size_rank) {
        left -= fill_in_turn(&mut group.fills[place_in(turn)], 0, left);
    }
}

/// Gives an order what is left, up to its size, unless its minimum is above it.
/// Gives what it got.
fn fill_in_turn(fill: &mut Fill, minimum: u32, left: u32) -> u32 {
    let met = u32::from(minimum <= left);
    let shares = fill.shares().min(left) * met;
    *fill = fill.with_shares(shares);
    shares
}

/// Lower for a larger order.
fn size_rank(fill: Fill) -> u32 {
    LARGEST_SIZE - fill.shares()
}

/// A turn has a rank of 20 bits above a place of 8.
fn place_in(turn: u32) -> usize {
    turn as usize % MOST_ORDERS
}

fn rank_in(turn: u32) -> u32 {
    turn / MOST_ORDERS as u32
}

/// The turns of a group's orders: by rank, equal ranks by time.
fn sorted<'a>(fills: &[Fill], turns: &'a mut [u32], rank: impl Fn(Fill) -> u32) -> &'a [u32] {
    let turns = &mut turns[..fills.len()];
    for (place, (turn, fill)) in turns.iter_mut().zip(fills).enumerate() {
        *turn = rank(*fill) * MOST_ORDERS as u32 + place as u32;
    }
    turns.sort_unstable();
    turns
}

/// Pro rata by size in whole round lots; the rest goes round once, a round lot
/// at most to each, the largest order first.
pub fn lot_sharing(group: Group, scratch: &mut Scratch) {
    let proportion = Proportion::of(&group);
    let allotment = &mut scratch.allotment[..group.fills.len()];
    let mut rest = group.shares;
    for (allotted, fill) in allotment.iter_mut().zip(&*group.fills) {
        *allotted = proportion.in_lots(fill.shares());
        rest -= *allotted;
    }
    for &turn in sorted(group.fills, scratch.turns, size_rank) {
        if rest == 0 {
            break;
        }
        let place = place_in(turn);
        let more = second_step(group.fills[place].shares(), allotment[place]).min(rest);
        allotment[place] += more;
        rest -= more;
    }
    for (fill, &mut allotted) in group.fills.iter_mut().zip(allotment) {
        *fill = fill.with_shares(allotted);
    }
}

/// The most that an order gets beside its whole lots.
fn second_step(size: u32, lots: u32) -> u32 {
    ROUND_LOT.min(size - lots)
}

/// Lot sharing in which the order at the setter's place gets two fifths at least.
pub fn lot_sharing_with_setter(group: Group, setter: usize, scratch: &mut Scratch) {
    let size = group.fills[setter].shares();
    let guarantee = size.min(2 * group.shares / 5);
    if plain_exceeds(&group, setter, guarantee) {
        return lot_sharing(group, scratch);
    }
    // Among the others an order of no shares changes nothing.
    group.fills[setter] = group.fills[setter].with_shares(0);
    let others = Group {
        fills: &mut *group.fills,
        total: group.total - size,
        shares: group.shares - guarantee,
    };
    lot_sharing(others, scratch);
    group.fills[setter] = group.fills[setter].with_shares(guarantee);
}

/// Whether plain lot sharing gives the setter more than the guarantee.
fn plain_exceeds(group: &Group, setter: usize, guarantee: u32) -> bool {
    let proportion = Proportion::of(group);
    let size = group.fills[setter].shares();
    let lots = proportion.in_lots(size);
    let most = lots + second_step(size, lots);
    if lots > guarantee || most <= guarantee {
        return lots > guarantee;
    }
    // The second step decides: what has remained when the setter's turn comes.
    let mut rest = group.shares;
    for (place, fill) in group.fills.iter().enumerate() {
        let lots = proportion.in_lots(fill.shares());
        let earlier = fill.shares() > size || (fill.shares() == size && place < setter);
        let more = second_step(fill.shares(), lots) * u32::from(earlier);
        rest = rest.saturating_sub(lots + more);
    }
    (lots + rest).min(most) > guarantee
}

/// What a size is multiplied with for its part, so that a group needs one
/// division.
struct Proportion {
    shares: u64,
    /// The total times the round lot.
    lot_total: u64,
    /// Shares by that, times 2 to the 44th, rounded down.
    factor: u64,
}

impl Proportion {
    const BITS: u32 = 44;

    fn of(group: &Group) -> Proportion {
        let shares = u64::from(group.shares);
        let lot_total = u64::from(group.total) * u64::from(ROUND_LOT);
        Proportion {
            shares,
            lot_total,
            factor: (shares << Proportion::BITS) / lot_total,
        }
    }

    /// Size times shares by total, rounded down to a round lot. With a factor
    /// rounded down the product is at most one lot too low.
    #[inline(always)]
    fn in_lots(&self, size: u32) -> u32 {
        let size = u64::from(size);
        let lots = (size * self.factor) >> Proportion::BITS;
        let too_low = (lots + 1) * self.lot_total <= size * self.shares;
        (lots + u64::from(too_low)) as u32 * ROUND_LOT
    }
}
