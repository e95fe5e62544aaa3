//! The calls as values.

use model::book::{Form, Order};

#[derive(Clone, Copy, Debug, PartialEq, Eq)]
pub enum Call {
    /// Security.
    Check([u32; 1]),
    /// Security and order number.
    Find([u32; 2]),
    /// Side, kind, order number, price, size, minimum, hidden shares, refresh size
    /// and security.
    Add([u32; 9]),
    /// Security, order number and shares.
    Reduce([u32; 3]),
    /// Side, limit price, size, algorithm and security.
    Take([u32; 5]),
    /// Security.
    Ladder([u32; 1]),
    /// The forms that keep a ladder, with the numbers of their plain calls.
    AddLadder([u32; 9]),
    ReduceLadder([u32; 3]),
    TakeLadder([u32; 5]),
    ToNew,
    ToOld,
}

impl Call {
    pub fn name(&self) -> &'static str {
        match self {
            Call::Check(_) => "check",
            Call::Find(_) => "find",
            Call::Add(_) => "add",
            Call::Reduce(_) => "reduce",
            Call::Take(_) => "take",
            Call::Ladder(_) => "ladder",
            Call::AddLadder(_) => "add_ladder",
            Call::ReduceLadder(_) => "reduce_ladder",
            Call::TakeLadder(_) => "take_ladder",
            Call::ToNew => "to_new",
            Call::ToOld => "to_old",
        }
    }

    /// The call that turns a book of this form into the other.
    pub fn turning(form: Form) -> Call {
        match form {
            Form::Old => Call::ToNew,
            Form::New => Call::ToOld,
        }
    }

    pub fn is_turning(self) -> bool {
        matches!(self, Call::ToNew | Call::ToOld)
    }

    /// The form of the book that the call is made on.
    pub fn form(self) -> Form {
        match self {
            Call::ToNew => Form::Old,
            _ => Form::New,
        }
    }

    /// The form that keeps a ladder, of a call that has one.
    pub fn keeping_ladder(self) -> Call {
        match self {
            Call::Add(numbers) => Call::AddLadder(numbers),
            Call::Reduce(numbers) => Call::ReduceLadder(numbers),
            Call::Take(numbers) => Call::TakeLadder(numbers),
            other => other,
        }
    }

    /// The plain call of a form; every other call itself.
    pub fn plain(self) -> Call {
        match self {
            Call::AddLadder(numbers) => Call::Add(numbers),
            Call::ReduceLadder(numbers) => Call::Reduce(numbers),
            Call::TakeLadder(numbers) => Call::Take(numbers),
            other => other,
        }
    }

    pub fn is_form(self) -> bool {
        self.plain() != self
    }

    /// Whether the call is lent a ladder.
    pub fn has_ladder(self) -> bool {
        self.is_form() || matches!(self, Call::Ladder(_))
    }

    /// The security that the call names; those that turn a book name none.
    pub fn security(mut self) -> Option<u32> {
        self.named_security().copied()
    }

    /// The same call for a security.
    pub fn for_security(mut self, security: u32) -> Call {
        if let Some(named) = self.named_security() {
            *named = security;
        }
        self
    }

    fn named_security(&mut self) -> Option<&mut u32> {
        match self {
            Call::Check([security]) | Call::Ladder([security]) => Some(security),
            Call::Find([security, ..]) => Some(security),
            Call::Add([.., security]) | Call::AddLadder([.., security]) => Some(security),
            Call::Reduce([security, ..]) | Call::ReduceLadder([security, ..]) => Some(security),
            Call::Take([.., security]) | Call::TakeLadder([.., security]) => Some(security),
            Call::ToNew | Call::ToOld => None,
        }
    }

    pub fn numbers(&mut self) -> &mut [u32] {
        match self {
            Call::ToNew | Call::ToOld => &mut [],
            Call::Check(numbers) | Call::Ladder(numbers) => numbers,
            Call::Find(numbers) => numbers,
            Call::Add(numbers) | Call::AddLadder(numbers) => numbers,
            Call::Reduce(numbers) | Call::ReduceLadder(numbers) => numbers,
            Call::Take(numbers) | Call::TakeLadder(numbers) => numbers,
        }
    }
}

/// Those of these orders that are of a security.
pub fn of_security(orders: &[Order], security: u32) -> Vec<Order> {
    let own = orders.iter().filter(|order| order.security == security);
    own.copied().collect()
}
