//! Calls for one of two securities, whose orders stand in a full book by turns.

use crate::books;
use crate::calls::{Call, SECURITY};
use crate::cases::{self, Case, FULL};
use model::book::Order;

const CALL_NAME: &str = "calls for one of two securities, 256 orders by turns";
const PRO_RATA: u32 = 2;

pub fn cases() -> [Case; 3] {
    let orders = books::two_securities(FULL);
    let own = orders.iter().filter(|order| order.security == SECURITY);
    let own: Vec<Order> = own.copied().collect();
    let total = books::total(&own);
    let take = |what: &str, size, executions| Case {
        call_name: CALL_NAME,
        ..cases::take(PRO_RATA, what, &orders, size, executions)
    };
    [
        Case {
            call: Call::Check,
            ..take("check", total, None)
        },
        take("take, shared in part (pro rata)", total / 5 * 3, None),
        take("take, all filled (pro rata)", total, Some(own.len())),
    ]
}
