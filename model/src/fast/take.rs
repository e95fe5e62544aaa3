//! Take: an incoming order executes against the other side of the book.

use super::beside::{Beside, Ladder, Nothing};
use super::fill::{group_end, keep, Fill};
use super::record::{Bytes, Record, NON_DISPLAYED};
use super::settlement;
use super::sharing::{self, Group, Scratch};
use super::soundness::sound;
use super::taker::Taker;
use crate::book::{self, Side, MOST_ORDERS, ROUND_LOT};
use crate::{Refusal, EXECUTION_LENGTH};

/// A shown and a hidden part of each order.
const MOST_PARTS: usize = 2 * MOST_ORDERS;

#[derive(Clone, Copy, PartialEq, Eq)]
enum Algorithm {
    PriceTime,
    ProRata,
    ProRataWithSetter,
}

impl Algorithm {
    fn of_number(number: u32) -> Option<Algorithm> {
        match number {
            1 => Some(Algorithm::PriceTime),
            2 => Some(Algorithm::ProRata),
            3 => Some(Algorithm::ProRataWithSetter),
            _ => None,
        }
    }

    /// The paragraph in which an order has its turn, at twice its kind, and one
    /// more if it has a round lot; a reserve order with its shown part.
    fn paragraphs(self) -> [u8; 16] {
        match self {
            Algorithm::PriceTime => [0, 0, 2, 2, 3, 3, 3, 3, 2, 2, 0, 0, 0, 0, 0, 0],
            _ => [0, 0, 3, 2, 6, 4, 5, 5, 3, 2, 0, 0, 0, 0, 0, 0],
        }
    }

    /// The first paragraph that isn't displayed.
    fn not_displayed(self) -> u8 {
        match self {
            Algorithm::PriceTime => 3,
            _ => 4,
        }
    }

    /// Whether minimum quantity orders have their turn in a paragraph.
    fn has_minimums(self, paragraph: u8) -> bool {
        match self {
            Algorithm::PriceTime => paragraph == 3,
            _ => paragraph == 5,
        }
    }
}

/// The count of executions and the shares left, or why there are none.
type Outcome = Result<(usize, u32), Refusal>;

/// The refusal number, the count of executions and the shares left.
pub fn take(book: &mut [u8], executions: &mut [u8], incoming: [u32; 5]) -> (u32, u32, u32) {
    numbers_of(execute(book, executions, incoming, Nothing))
}

/// Take that keeps the ladder.
pub fn take_ladder(
    book: &mut [u8],
    executions: &mut [u8],
    ladder: &mut [u8],
    incoming: [u32; 5],
) -> (u32, u32, u32) {
    let [.., security] = incoming;
    let ladder = Ladder::of(security, ladder);
    numbers_of(execute(book, executions, incoming, ladder))
}

fn numbers_of(outcome: Outcome) -> (u32, u32, u32) {
    match outcome {
        Ok((count, left)) => (0, count as u32, left),
        Err(refusal) => (refusal as u32, 0, 0),
    }
}

fn execute(
    book: &mut [u8],
    executions: &mut [u8],
    incoming: [u32; 5],
    mut beside: impl Beside,
) -> Outcome {
    let [side, limit, size, algorithm, security] = incoming;
    let side = Side::of_number(side).ok_or(Refusal::OutOfRange)?;
    let algorithm = Algorithm::of_number(algorithm).ok_or(Refusal::OutOfRange)?;
    let in_range = book::price_in_range(limit)
        && book::size_in_range(size)
        && book::security_in_range(security);
    if !in_range {
        return Err(Refusal::OutOfRange);
    }
    let taker = Taker::new(security, side, limit, size);
    let sound = sound(book)?;
    let records = &mut book.as_chunks_mut().0[..sound.orders];
    beside.fits(records)?;
    let most_parts = sound.orders << usize::from(sound.hides);
    // Clearing room for a full book would cost more than a take of a few orders.
    match most_parts {
        0..=16 => execute_within::<16>(records, executions, taker, algorithm, beside),
        17..=64 => execute_within::<64>(records, executions, taker, algorithm, beside),
        65..=MOST_ORDERS => {
            execute_within::<MOST_ORDERS>(records, executions, taker, algorithm, beside)
        }
        _ => execute_within::<MOST_PARTS>(records, executions, taker, algorithm, beside),
    }
}

/// Executes against not more parts of orders than `PARTS`.
fn execute_within<const PARTS: usize>(
    records: &mut [Bytes],
    executions: &mut [u8],
    taker: Taker,
    algorithm: Algorithm,
    mut beside: impl Beside,
) -> Outcome {
    let mut fills = [Fill::NONE; PARTS];
    let scratch = Scratch {
        turns: &mut [0; PARTS],
        allotment: &mut [0; PARTS],
    };
    let count = collect(&mut fills, records, taker, algorithm);
    let count = order(&mut fills[..count], taker.size, algorithm);
    let fills = &mut fills[..count];
    let (count, left) = allot(fills, records, taker.size, algorithm, scratch);
    if count * EXECUTION_LENGTH > executions.len() {
        return Err(Refusal::ExecutionsDoNotFit);
    }
    let fills = &fills[..count];
    let not_displayed = algorithm.not_displayed();
    let used_up = settlement::execute(records, fills, executions, not_displayed);
    beside.executed(records, fills, not_displayed);
    if let Some(first) = used_up {
        settlement::close_gaps(records, first);
    }
    Ok((count, left))
}

/// Collects the fills of the parts that the incoming order may trade with, each
/// of its part's whole size. Gives their count.
fn collect(fills: &mut [Fill], records: &[Bytes], taker: Taker, algorithm: Algorithm) -> usize {
    let paragraphs = algorithm.paragraphs();
    let mut count = 0;
    for (place, record) in records.iter().map(Record::of).enumerate() {
        let part = |kind: u32, size: u32| {
            let column = 2 * kind as usize + usize::from(size >= ROUND_LOT);
            let rank = taker.rank(record.price());
            Fill::new(rank, paragraphs[column % 16], place, size)
        };
        let trades = usize::from(taker.may_trade_with(record));
        fills[count] = part(record.kind(), record.size());
        count += trades;
        if record.hidden() > 0 {
            fills[count] = part(NON_DISPLAYED, record.hidden());
            count += trades;
        }
    }
    count
}

/// Orders the fills as executions come, and gives how many of them the shares
/// can reach: those of the first group alone, if they use the shares up.
fn order(fills: &mut [Fill], shares: u32, algorithm: Algorithm) -> usize {
    if fills.is_sorted() {
        return fills.len();
    }
    let first = fills.iter().fold(fills[0], |best, &fill| best.min(fill));
    let in_first = |fill: Fill| fill.group() == first.group();
    let total: u32 = fills
        .iter()
        .map(|&fill| fill.shares() * u32::from(in_first(fill)))
        .sum();
    if total >= shares && !algorithm.has_minimums(first.paragraph()) {
        return keep(fills, 0, 0..fills.len(), in_first);
    }
    fills.sort_unstable();
    fills.len()
}

/// Moves the fills of the parts that get shares to the front, each with what its
/// part gets. Gives their count and the shares left.
fn allot(
    fills: &mut [Fill],
    records: &[Bytes],
    shares: u32,
    algorithm: Algorithm,
    mut scratch: Scratch,
) -> (usize, u32) {
    let (mut count, mut start, mut left) = (0, 0, shares);
    while start < fills.len() && left > 0 {
        let (end, total) = group_end(fills, start);
        if total <= left {
            fills.copy_within(start..end, count);
            count += end - start;
            left -= total;
        } else {
            let group = Group {
                fills: &mut fills[start..end],
                total,
                shares: left,
            };
            left = share(group, records, algorithm, &mut scratch);
            count = keep(fills, count, start..end, |fill| fill.shares() > 0);
        }
        start = end;
    }
    (count, left)
}

/// Shares within a group that doesn't fit. Gives the shares left.
fn share(group: Group, records: &[Bytes], algorithm: Algorithm, scratch: &mut Scratch) -> u32 {
    let record_of = |fill: Fill| Record::of(&records[fill.place()]);
    let minimum_of = |fill: Fill| record_of(fill).minimum();
    match (algorithm, group.fills[0].paragraph()) {
        (Algorithm::PriceTime, _) => return sharing::by_time(group, minimum_of),
        (_, 5) => return sharing::smallest_minimum_first(group, minimum_of, scratch),
        (Algorithm::ProRataWithSetter, 2) => {
            let marked = |fill: &Fill| record_of(*fill).setter() > 0;
            match group.fills.iter().position(marked) {
                Some(setter) => sharing::lot_sharing_with_setter(group, setter, scratch),
                None => sharing::lot_sharing(group, scratch),
            }
        }
        (_, 2 | 4) => sharing::lot_sharing(group, scratch),
        _ => sharing::largest_first(group, scratch),
    }
    0
}
