//! How a group of orders shares what reaches it. A group's orders stand in
//! rising order number; an allotment has the shares of each, in the same order. A
//! part of a reserve order stands there as an order of its own.

use crate::book::{Order, ROUND_LOT};
use std::cmp::Reverse;

pub type Allotment = Vec<u32>;

pub fn by_time(group: &[Order], shares: u32) -> Allotment {
    one_after_another(group, |order| order.number, shares)
}

pub fn largest_first(group: &[Order], shares: u32) -> Allotment {
    one_after_another(group, |order| Reverse(order.size), shares)
}

pub fn smallest_minimum_first(group: &[Order], shares: u32) -> Allotment {
    one_after_another(group, Order::least_fill, shares)
}

/// Each order in its turn is filled as far as the shares go; one whose minimum
/// exceeds the shares left is passed over.
fn one_after_another<R: Ord>(
    group: &[Order],
    rank: impl Fn(&Order) -> R,
    shares: u32,
) -> Allotment {
    let mut allotment = vec![0; group.len()];
    let mut left = shares;
    for place in turns(group, rank) {
        if group[place].least_fill() <= left {
            allotment[place] = group[place].size.min(left);
            left -= allotment[place];
        }
    }
    allotment
}

/// The places of a group's orders as their turns come: by rank, equal ranks by
/// time.
fn turns<R: Ord>(group: &[Order], rank: impl Fn(&Order) -> R) -> Vec<usize> {
    let mut places: Vec<usize> = (0..group.len()).collect();
    places.sort_by_key(|&place| (rank(&group[place]), group[place].number));
    places
}

/// Pro rata by size in whole round lots; the rest goes round once, a round lot
/// at most to each, the largest order first.
pub fn lot_sharing(group: &[Order], shares: u32) -> Allotment {
    let total: u64 = total_size(group);
    let divided = divided(group, shares);
    let mut allotment: Allotment = group
        .iter()
        .map(|order| {
            let exact = u64::from(order.size) * u64::from(divided) / total;
            exact as u32 / ROUND_LOT * ROUND_LOT
        })
        .collect();
    let mut rest = divided - allotment.iter().sum::<u32>();
    for place in turns(group, |order| Reverse(order.size)) {
        let lacking = group[place].size - allotment[place];
        let more = ROUND_LOT.min(lacking).min(rest);
        allotment[place] += more;
        rest -= more;
    }
    assert_eq!(rest, 0, "one round uses up the rest");
    allotment
}

/// Lot sharing in which a price setter gets two fifths at least.
pub fn lot_sharing_with_setter(group: &[Order], shares: u32) -> Allotment {
    let plain = lot_sharing(group, shares);
    let Some(place) = group.iter().position(|order| order.setter) else {
        return plain;
    };
    let divided = divided(group, shares);
    let guarantee = group[place].size.min(2 * divided / 5);
    if plain[place] > guarantee {
        return plain;
    }
    let mut others = group.to_vec();
    others.remove(place);
    let mut allotment = lot_sharing(&others, divided - guarantee);
    allotment.insert(place, guarantee);
    allotment
}

fn total_size(group: &[Order]) -> u64 {
    group.iter().map(|order| u64::from(order.size)).sum()
}

/// The smaller of the shares that reach a group and its total size.
fn divided(group: &[Order], shares: u32) -> u32 {
    u64::from(shares).min(total_size(group)) as u32
}
