//! The bytes that a take writes, once all is decided.

use super::fill::Fill;
use super::record::{self, Bytes, Record};
use crate::EXECUTION_LENGTH;

/// The mark, a place for the paragraph, and a zero byte.
const EXECUTION_HEAD: [u8; 4] = [0x45, 0x58, 0, 0];

/// Writes the executions and takes their shares from the orders: from a reserve
/// order hidden ones, where the fill's paragraph is the first that isn't displayed
/// or a later one. Gives the place of the first order whose size is used up.
pub fn execute(
    records: &mut [Bytes],
    fills: &[Fill],
    executions: &mut [u8],
    not_displayed: u8,
) -> Option<usize> {
    let executions = executions.as_chunks_mut::<EXECUTION_LENGTH>().0;
    let mut first_used_up = records.len();
    for (fill, execution) in fills.iter().zip(executions) {
        let order = &mut records[fill.place()];
        execution[0..4].copy_from_slice(&EXECUTION_HEAD);
        execution[2] = fill.paragraph();
        // Number and price are side by side in a record too.
        execution[4..12].copy_from_slice(&order[4..12]);
        execution[12..16].copy_from_slice(&fill.shares().to_le_bytes());
        if fill.paragraph() >= not_displayed && Record::of(order).is_reserve() {
            record::lessen_hidden(order, fill.shares());
        } else if record::lessen(order, fill.shares()) == 0 {
            first_used_up = first_used_up.min(fill.place());
        }
    }
    (first_used_up < records.len()).then_some(first_used_up)
}

/// From the first order used up on: refreshes those that have none but hidden
/// shares, and moves each that rests behind a gap up to those before it, with zeros
/// behind the last.
pub fn close_gaps(orders: &mut [Bytes], first_used_up: usize) {
    let mut kept = first_used_up;
    for place in first_used_up..orders.len() {
        let order = &mut orders[place];
        if record::size_of(order) > 0 || record::refresh(order) > 0 {
            if kept < place {
                orders[kept] = orders[place];
            }
            kept += 1;
        }
    }
    orders[kept..].as_flattened_mut().fill(0);
}
