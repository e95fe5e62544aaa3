//! The groups in which the parts of a take's opposite orders have their turns.

use super::paragraphs::paragraph_of;
use model::book::{Order, Side};
use model::Execution;

/// The parts of orders of one price and one paragraph of the rule.
pub struct Group {
    pub algorithm: u32,
    pub price: u32,
    pub paragraph: u8,
    /// The shares left when the group has its turn.
    pub shares: u32,
    /// Each part as an order that ranks as it does, by rising number, with what it
    /// got.
    pub parts: Vec<(Order, u32)>,
}

/// The groups of these parts as their turns come, when so many shares come in and
/// these executions come of it. The parts are all of one side.
pub fn in_turn(
    mut parts: Vec<Order>,
    executions: &[Execution],
    size: u32,
    algorithm: u32,
) -> Vec<Group> {
    let turn = |part: &Order| match part.side {
        Side::Buy => (u32::MAX - part.price, paragraph_of(part, algorithm)),
        Side::Sell => (part.price, paragraph_of(part, algorithm)),
    };
    let got = |part: &Order| {
        let turn = (part.number, paragraph_of(part, algorithm));
        let mut fills = executions.iter();
        let fill = fills.find(|fill| (fill.number, fill.paragraph) == turn);
        fill.map_or(0, |fill| fill.shares)
    };
    parts.sort_by_key(turn);
    let mut left = size;
    let groups = parts.chunk_by(|one, next| turn(one) == turn(next));
    groups
        .map(|parts| {
            let group = Group {
                algorithm,
                price: parts[0].price,
                paragraph: paragraph_of(&parts[0], algorithm),
                shares: left,
                parts: parts.iter().map(|part| (*part, got(part))).collect(),
            };
            left -= group.executed();
            group
        })
        .collect()
}

impl Group {
    pub fn executed(&self) -> u32 {
        self.parts.iter().map(|&(_, got)| got).sum()
    }

    /// The total size of the parts.
    pub fn total(&self) -> u64 {
        let sizes = self.parts.iter().map(|(order, _)| u64::from(order.size));
        sizes.sum()
    }

    pub fn is_filled_whole(&self) -> bool {
        self.parts.iter().all(|(part, got)| *got == part.size)
    }

    /// Whether shares went to the group, and too few to fill it whole.
    pub fn is_divided(&self) -> bool {
        self.executed() > 0 && !self.is_filled_whole()
    }

    /// The marked order of paragraph 2, if there is one, with what it got.
    pub fn setter(&self) -> Option<(Order, u32)> {
        let marked = |(order, _): &&(Order, u32)| self.paragraph == 2 && order.setter;
        self.parts.iter().find(marked).copied()
    }
}
