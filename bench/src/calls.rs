//! A call with its numbers, and the two that answer it: the library and the
//! model made fast.

use library::Numbers;
use model::fast;

/// The security that every call is for.
pub const SECURITY: u32 = 0;

#[derive(Clone, Copy)]
pub enum Call {
    Check,
    Find {
        number: u32,
    },
    /// Side, kind, number, price, size, minimum, hidden shares, refresh size and
    /// security.
    Add([u32; 9]),
    Reduce {
        number: u32,
        shares: u32,
    },
    /// Side, limit, size, algorithm and security.
    Take([u32; 5]),
    Ladder,
    /// The forms that keep a ladder, with the numbers of their plain calls.
    AddLadder([u32; 9]),
    ReduceLadder {
        number: u32,
        shares: u32,
    },
    TakeLadder([u32; 5]),
}

impl Call {
    /// The plain call of a form that keeps a ladder.
    pub fn plain(self) -> Option<Call> {
        match self {
            Call::AddLadder(order) => Some(Call::Add(order)),
            Call::ReduceLadder { number, shares } => Some(Call::Reduce { number, shares }),
            Call::TakeLadder(incoming) => Some(Call::Take(incoming)),
            _ => None,
        }
    }
}

/// What a call is lent. A buffer that it has no use for may be empty.
pub struct Buffers<'a> {
    pub book: &'a mut [u8],
    pub executions: &'a mut [u8],
    pub ladder: &'a mut [u8],
}

pub trait Calls {
    fn check(book: &[u8]) -> Numbers;
    fn find(book: &[u8], number: u32) -> Numbers;
    fn add(book: &mut [u8], order: [u32; 9]) -> Numbers;
    fn reduce(book: &mut [u8], number: u32, shares: u32) -> Numbers;
    fn take(book: &mut [u8], executions: &mut [u8], incoming: [u32; 5]) -> Numbers;
    fn ladder(book: &[u8], ladder: &mut [u8]) -> Numbers;
    fn add_ladder(book: &mut [u8], ladder: &mut [u8], order: [u32; 9]) -> Numbers;
    fn reduce_ladder(book: &mut [u8], ladder: &mut [u8], number: u32, shares: u32) -> Numbers;
    fn take_ladder(buffers: Buffers, incoming: [u32; 5]) -> Numbers;

    #[inline(always)]
    fn answer(call: &Call, buffers: Buffers) -> Numbers {
        let Buffers {
            book,
            executions,
            ladder,
        } = buffers;
        match *call {
            Call::Check => Self::check(book),
            Call::Find { number } => Self::find(book, number),
            Call::Add(order) => Self::add(book, order),
            Call::Reduce { number, shares } => Self::reduce(book, number, shares),
            Call::Take(incoming) => Self::take(book, executions, incoming),
            Call::Ladder => Self::ladder(book, ladder),
            Call::AddLadder(order) => Self::add_ladder(book, ladder, order),
            Call::ReduceLadder { number, shares } => {
                Self::reduce_ladder(book, ladder, number, shares)
            }
            Call::TakeLadder(incoming) => {
                let buffers = Buffers {
                    book,
                    executions,
                    ladder,
                };
                Self::take_ladder(buffers, incoming)
            }
        }
    }
}

/// An answer that is a refusal number alone.
fn only(refusal: u32) -> Numbers {
    all((refusal, 0, 0))
}

fn all((refusal, count, left): (u32, u32, u32)) -> Numbers {
    [refusal, count, left].map(|number| number as usize)
}

pub struct FastModel;

impl Calls for FastModel {
    fn check(book: &[u8]) -> Numbers {
        let (refusal, orders) = fast::check(book, SECURITY);
        [refusal as usize, orders as usize, 0]
    }

    fn find(book: &[u8], number: u32) -> Numbers {
        let (refusal, start, length) = fast::find(book, SECURITY, number);
        [refusal as usize, start, length]
    }

    fn add(book: &mut [u8], order: [u32; 9]) -> Numbers {
        only(fast::add(book, order))
    }

    fn reduce(book: &mut [u8], number: u32, shares: u32) -> Numbers {
        only(fast::reduce(book, SECURITY, number, shares))
    }

    fn take(book: &mut [u8], executions: &mut [u8], incoming: [u32; 5]) -> Numbers {
        all(fast::take(book, executions, incoming))
    }

    fn ladder(book: &[u8], ladder: &mut [u8]) -> Numbers {
        only(fast::ladder(book, ladder, SECURITY))
    }

    fn add_ladder(book: &mut [u8], ladder: &mut [u8], order: [u32; 9]) -> Numbers {
        only(fast::add_ladder(book, ladder, order))
    }

    fn reduce_ladder(book: &mut [u8], ladder: &mut [u8], number: u32, shares: u32) -> Numbers {
        only(fast::reduce_ladder(book, ladder, SECURITY, number, shares))
    }

    fn take_ladder(buffers: Buffers, incoming: [u32; 5]) -> Numbers {
        let Buffers {
            book,
            executions,
            ladder,
        } = buffers;
        all(fast::take_ladder(book, executions, ladder, incoming))
    }
}

pub struct Library;

impl Calls for Library {
    fn check(book: &[u8]) -> Numbers {
        library::check(book, SECURITY)
    }

    fn find(book: &[u8], number: u32) -> Numbers {
        library::find(book, SECURITY, number)
    }

    fn add(book: &mut [u8], order: [u32; 9]) -> Numbers {
        library::add(book, order)
    }

    fn reduce(book: &mut [u8], number: u32, shares: u32) -> Numbers {
        library::reduce(book, SECURITY, number, shares)
    }

    fn take(book: &mut [u8], executions: &mut [u8], incoming: [u32; 5]) -> Numbers {
        library::take(book, executions, incoming)
    }

    fn ladder(book: &[u8], ladder: &mut [u8]) -> Numbers {
        library::ladder(book, ladder, SECURITY)
    }

    fn add_ladder(book: &mut [u8], ladder: &mut [u8], order: [u32; 9]) -> Numbers {
        library::add_ladder(book, ladder, order)
    }

    fn reduce_ladder(book: &mut [u8], ladder: &mut [u8], number: u32, shares: u32) -> Numbers {
        library::reduce_ladder(book, ladder, SECURITY, number, shares)
    }

    fn take_ladder(buffers: Buffers, incoming: [u32; 5]) -> Numbers {
        library::take_ladder(buffers.book, buffers.executions, buffers.ladder, incoming)
    }
}
