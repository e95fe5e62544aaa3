//! What occurred in the groups of a take that shares reached and didn't fill.

use super::groups::Group;
use super::takes::Take;
use model::book::Order;
use support::Coverage;

/// The ways in which a group is divided.
const BY_TIME: &str = "by time";
const BY_LOTS: &str = "by lots";
const BY_LOTS_WITH_SETTER: &str = "by lots with a setter";
const LARGEST_FIRST: &str = "largest first";
const SMALLEST_MINIMUM_FIRST: &str = "smallest minimum first";

pub fn expect(coverage: &mut Coverage) {
    for way in [
        BY_TIME,
        BY_LOTS,
        BY_LOTS_WITH_SETTER,
        LARGEST_FIRST,
        SMALLEST_MINIMUM_FIRST,
    ] {
        coverage.expect(small_group_divided(way));
        coverage.expect(large_group_divided(way));
    }
    for paragraph in 2..=6 {
        coverage.expect(ran_out_among_equals(paragraph));
    }
}

fn small_group_divided(way: &str) -> String {
    format!("take: group of 2 to 4 orders divided {way}")
}

fn large_group_divided(way: &str) -> String {
    format!("take: group of more than 16 orders divided {way}")
}

/// Of orders of one rank a later one got less, by algorithm 2 or 3.
fn ran_out_among_equals(paragraph: u8) -> String {
    match paragraph {
        2 | 4 => format!("take: rest of paragraph {paragraph} ran out among equal sizes"),
        5 => String::from("take: shares of paragraph 5 ran out among equal minimums"),
        _ => format!("take: shares of paragraph {paragraph} ran out among equal sizes"),
    }
}

pub fn note(coverage: &mut Coverage, take: &Take) {
    for group in take.groups.iter().filter(|group| group.is_divided()) {
        let way = way(group);
        match group.parts.len() {
            2..=4 => coverage.note(small_group_divided(way)),
            17.. => coverage.note(large_group_divided(way)),
            _ => {}
        }
        let equals = match way {
            BY_TIME => false,
            SMALLEST_MINIMUM_FIRST => later_lacks_more(group, Order::least_fill),
            _ => later_lacks_more(group, |order| order.size),
        };
        if equals {
            coverage.note(ran_out_among_equals(group.paragraph));
        }
    }
}

fn way(group: &Group) -> &'static str {
    match (group.algorithm, group.paragraph) {
        (1, _) => BY_TIME,
        (3, 2) if group.setter().is_some() => BY_LOTS_WITH_SETTER,
        (_, 2 | 4) => BY_LOTS,
        (_, 5) => SMALLEST_MINIMUM_FIRST,
        _ => LARGEST_FIRST,
    }
}

/// Whether an order got shares and a later one of the same rank lacks more than
/// it. A marked order is left out, since its mark may have got it more.
fn later_lacks_more(group: &Group, rank: impl Fn(&Order) -> u32) -> bool {
    let mut parts = group.parts.clone();
    parts.retain(|(order, _)| !order.setter);
    parts.sort_by_key(|(order, _)| rank(order));
    parts.windows(2).any(|two| {
        let [(one, got), (next, next_got)] = [two[0], two[1]];
        rank(&one) == rank(&next) && got > 0 && one.size - got < next.size - next_got
    })
}
