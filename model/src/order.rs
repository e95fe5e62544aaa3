//! An order: its numbers and their ranges, the parts that it ranks with, and what
//! rests of it.

pub const HIGHEST_PRICE: u32 = 2_000_000_000;
pub const LARGEST_SIZE: u32 = 999_999;
/// Securities are numbered from 0 on.
pub const SECURITIES: u32 = 2;
/// Shares in a round lot.
pub const ROUND_LOT: u32 = 100;

#[derive(Clone, Copy, Debug, PartialEq, Eq)]
pub enum Side {
    Buy = 1,
    Sell = 2,
}

impl Side {
    pub fn of_number(number: u32) -> Option<Side> {
        match number {
            1 => Some(Side::Buy),
            2 => Some(Side::Sell),
            _ => None,
        }
    }

    /// Whether an order of this side with this limit may trade at the price.
    pub fn within(self, limit: u32, price: u32) -> bool {
        match self {
            Side::Buy => price <= limit,
            Side::Sell => price >= limit,
        }
    }

    /// Whether an order of this side at `price` is better than one at `other`.
    pub fn is_better(self, price: u32, other: u32) -> bool {
        match self {
            Side::Buy => price > other,
            Side::Sell => price < other,
        }
    }
}

#[derive(Clone, Copy, Debug, PartialEq, Eq)]
pub enum Kind {
    Displayed,
    NonDisplayed,
    /// Non-displayed, and trades at least `minimum` shares at a time.
    MinimumQuantity {
        minimum: u32,
    },
    /// Shows a part, its size, and hides the rest. When a take has used up the
    /// shown part, hidden shares up to the refresh size are shown instead.
    Reserve {
        hidden: u32,
        refresh: u32,
    },
}

#[derive(Clone, Copy, Debug, PartialEq, Eq)]
pub struct Order {
    pub side: Side,
    pub kind: Kind,
    /// A lower number is earlier in time.
    pub number: u32,
    /// In ten-thousandths of a dollar.
    pub price: u32,
    /// In shares; those shown, of a reserve order.
    pub size: u32,
    /// Whether the order set its price when it was entered.
    pub setter: bool,
    /// Orders trade within their security.
    pub security: u32,
}

impl Order {
    /// The order with these numbers, without a setter mark, if each of them is
    /// within a record's range. They are side, kind, number, price, size, minimum,
    /// hidden shares, refresh size and security.
    pub fn of_numbers(numbers: [u32; 9]) -> Option<Order> {
        let [side, kind, number, price, size, minimum, hidden, refresh, security] = numbers;
        let side = Side::of_number(side)?;
        let kind = match (kind, minimum, hidden, refresh) {
            (1, 0, 0, 0) => Kind::Displayed,
            (2, 0, 0, 0) => Kind::NonDisplayed,
            (3, _, 0, 0) if (1..=size).contains(&minimum) => Kind::MinimumQuantity { minimum },
            (4, 0, 0..=LARGEST_SIZE, _) if size_in_range(refresh) => {
                Kind::Reserve { hidden, refresh }
            }
            _ => return None,
        };
        let in_range = number >= 1
            && price_in_range(price)
            && size_in_range(size)
            && security_in_range(security);
        in_range.then_some(Order {
            side,
            kind,
            number,
            price,
            size,
            setter: false,
            security,
        })
    }

    /// As above, for a new order: a reserve order enters with its refresh size
    /// shown.
    pub fn of_request(numbers: [u32; 9]) -> Option<Order> {
        let order = Order::of_numbers(numbers)?;
        match order.kind {
            Kind::Reserve { refresh, .. } if refresh != order.size => None,
            _ => Some(order),
        }
    }

    /// Whether the order is displayed, at least in part.
    pub fn is_displayed(&self) -> bool {
        matches!(self.kind, Kind::Displayed | Kind::Reserve { .. })
    }

    /// The shares that a reserve order hides.
    pub fn hidden(&self) -> u32 {
        match self.kind {
            Kind::Reserve { hidden, .. } => hidden,
            _ => 0,
        }
    }

    /// All shares of the order, shown or not.
    pub fn shares(&self) -> u32 {
        self.size + self.hidden()
    }

    /// The parts of the order, as orders that rank as they do. A reserve order has
    /// a displayed part and, if it hides shares, a non-displayed one; every other
    /// order is its only part.
    pub fn parts(&self) -> Vec<Order> {
        let Kind::Reserve { hidden, .. } = self.kind else {
            return vec![*self];
        };
        let shown = Order {
            kind: Kind::Displayed,
            ..*self
        };
        let rest = Order {
            kind: Kind::NonDisplayed,
            size: hidden,
            setter: false,
            ..*self
        };
        [shown, rest]
            .into_iter()
            .filter(|part| part.size > 0)
            .collect()
    }

    /// The fewest shares that the order trades.
    pub fn least_fill(&self) -> u32 {
        match self.kind {
            Kind::MinimumQuantity { minimum } => minimum,
            _ => 1,
        }
    }

    /// What rests after a reduce: hidden shares go first. Nothing rests of an
    /// order that has lost all.
    pub fn reduced(self, shares: u32) -> Option<Order> {
        let hidden = shares.min(self.hidden());
        self.less(shares - hidden, hidden).resting()
    }

    /// What rests after a take in which the order lost these shares, a reserve
    /// order of its shown and of its hidden part.
    pub fn executed(self, shares: u32, hidden: u32) -> Option<Order> {
        self.less(shares, hidden).refreshed().resting()
    }

    /// With fewer shares: a minimum above the new size becomes the new size.
    fn less(self, shares: u32, less_hidden: u32) -> Order {
        let size = self.size - shares;
        let kind = match self.kind {
            Kind::MinimumQuantity { minimum } => Kind::MinimumQuantity {
                minimum: minimum.min(size),
            },
            Kind::Reserve { hidden, refresh } => Kind::Reserve {
                hidden: hidden - less_hidden,
                refresh,
            },
            other => other,
        };
        Order { kind, size, ..self }
    }

    /// A reserve order that shows nothing shows hidden shares, up to its refresh
    /// size.
    fn refreshed(self) -> Order {
        match self.kind {
            Kind::Reserve { hidden, refresh } if self.size == 0 => {
                let size = refresh.min(hidden);
                let hidden = hidden - size;
                let kind = Kind::Reserve { hidden, refresh };
                Order { kind, size, ..self }
            }
            _ => self,
        }
    }

    /// The order, unless it has no shares.
    fn resting(self) -> Option<Order> {
        (self.size > 0).then_some(self)
    }
}

pub fn price_in_range(price: u32) -> bool {
    (1..=HIGHEST_PRICE).contains(&price)
}

pub fn size_in_range(size: u32) -> bool {
    (1..=LARGEST_SIZE).contains(&size)
}

pub fn security_in_range(security: u32) -> bool {
    security < SECURITIES
}
