//! Calls on a full book of reserve orders.

use crate::books;
use crate::calls::Call;
use crate::cases::{self, Case, FULL};
use model::book::Order;

const CALL_NAME: &str = "calls on 256 reserve orders at one price";
const ALGORITHMS: [&str; 3] = ["price/time", "pro rata", "pro rata with the price setter"];

pub fn cases() -> Vec<Case> {
    let orders = books::reserves(FULL);
    let middle = orders[FULL as usize / 2 - 1];
    let (last, before) = orders.split_last().expect("an order");
    let mut cases = vec![
        case("check", Call::Check, &orders),
        case("find the last order", Call::Find { number: FULL }, &orders),
        case("add", Call::Add(books::numbers(last)), before),
        case("reduce within what is hidden", reduce(&middle, 50), &orders),
        case(
            "reduce to what is shown in part",
            reduce(&middle, middle.hidden() + 50),
            &orders,
        ),
        case(
            "reduce to nothing",
            reduce(&middle, middle.shares()),
            &orders,
        ),
    ];
    let shown: u32 = orders.iter().map(|order| order.size).sum();
    let all = books::total(&orders);
    for (algorithm, name) in (1..).zip(ALGORITHMS) {
        let take = |what: &str, size, executions| Case {
            call_name: CALL_NAME,
            ..cases::take(
                algorithm,
                format!("take, {what} ({name})"),
                &orders,
                size,
                executions,
            )
        };
        cases.push(take("what is shown shared in part", shown / 5 * 3, None));
        cases.push(take("all refreshed", shown, Some(256)));
        let hidden = all - shown;
        let size = shown + hidden / 5 * 3;
        cases.push(take("what is hidden shared in part", size, None));
        cases.push(take("all executed twice", all, Some(512)));
    }
    cases
}

fn reduce(order: &Order, shares: u32) -> Call {
    Call::Reduce {
        number: order.number,
        shares,
    }
}

fn case(name: &str, call: Call, orders: &[Order]) -> Case {
    Case {
        call_name: CALL_NAME,
        book_name: name.to_owned(),
        call,
        book: books::entered(orders, FULL),
        ladder: Vec::new(),
        executions: None,
    }
}
