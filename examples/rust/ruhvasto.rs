//! The library's calls for Rust. What each does, its ranges and its refusals are in ruhvasto.h. A slice is always to as many bytes as it
//! says, never NULL, and two that are lent at once to be written never overlap: so these functions are safe.

/// The version of the interface that this module is written for.
pub const VERSION: u32 = 8;

pub const RECORD_BYTES: usize = 40;
/// Securities are numbered from 0, and a book has the orders of so many.
pub const SECURITIES: u32 = 2;
/// Of a record of an old book.
pub const OLD_RECORD_BYTES: usize = 32;
pub const EXECUTION_BYTES: usize = 16;
/// An execution buffer of this length is never too small.
pub const EXECUTIONS_BYTES: usize = 8192;
pub const ROW_BYTES: usize = 24;
/// A ladder has this length and no other.
pub const LADDER_BYTES: usize = 6144;

/// The refusal number.
#[derive(Clone, Copy, Debug, PartialEq, Eq)]
pub struct Refusal(pub u32);

impl Refusal {
    /// In words.
    pub fn name(self) -> &'static str {
        match self.0 {
            0 => "accepted",
            1 => "out of range",
            2 => "unsound book",
            3 => "unknown number",
            4 => "stale number",
            5 => "could trade",
            6 => "book full",
            7 => "too many shares",
            8 => "small buffer",
            9 => "ladder length",
            10 => "other ladder",
            11 => "no old form",
            12 => "unfit target",
            _ => "unknown refusal",
        }
    }
}

#[derive(Clone, Copy)]
pub enum Side {
    Buy = 1,
    Sell = 2,
}

#[derive(Clone, Copy)]
pub enum Kind {
    Displayed,
    NonDisplayed,
    /// With its minimum.
    MinimumQuantity(u32),
    /// With its hidden shares. The size of the order is that of its shown part, and its refresh size too.
    Reserve(u32),
}

#[derive(Clone, Copy)]
pub enum Algorithm {
    PriceTime = 1,
    ProRata = 2,
    ProRataSetter = 3,
}

/// What add is given.
#[derive(Clone, Copy)]
pub struct AddRequest {
    pub side: Side,
    pub kind: Kind,
    pub number: u32,
    pub price: u32,
    pub size: u32,
    pub security: u32,
}

/// What take is given.
#[derive(Clone, Copy)]
pub struct TakeRequest {
    pub side: Side,
    pub limit: u32,
    pub size: u32,
    pub algorithm: Algorithm,
    pub security: u32,
}

/// An accepted take: how many executions it wrote, and the shares left.
pub struct Taken {
    pub count: u32,
    pub left: u32,
}

/// The structs that C's calls are given and return.
mod c {
    #[repr(C)]
    pub struct AddRequest {
        pub side: u32,
        pub kind: u32,
        pub number: u32,
        pub price: u32,
        pub size: u32,
        pub minimum: u32,
        pub hidden: u32,
        pub refresh: u32,
        pub security: u32,
    }

    #[repr(C)]
    pub struct TakeRequest {
        pub side: u32,
        pub limit: u32,
        pub size: u32,
        pub algorithm: u32,
        pub security: u32,
    }

    #[repr(C)]
    pub struct Checked {
        pub refusal: u32,
        pub orders: u32,
    }

    #[repr(C)]
    pub struct Found {
        pub refusal: u32,
        pub start: usize,
        pub length: usize,
    }

    #[repr(C)]
    pub struct Taken {
        pub refusal: u32,
        pub count: u32,
        pub left: u32,
    }

    #[link(name = "ruhvasto", kind = "static")]
    extern "C" {
        pub fn ruhvasto_version() -> u32;
        pub fn ruhvasto_check(book: *const u8, book_len: usize, security: u32) -> Checked;
        pub fn ruhvasto_find(book: *const u8, book_len: usize, security: u32, number: u32)
            -> Found;
        pub fn ruhvasto_add(book: *mut u8, book_len: usize, request: AddRequest) -> u32;
        pub fn ruhvasto_reduce(
            book: *mut u8,
            book_len: usize,
            security: u32,
            number: u32,
            shares: u32,
        ) -> u32;
        pub fn ruhvasto_take(
            book: *mut u8,
            book_len: usize,
            executions: *mut u8,
            executions_len: usize,
            request: TakeRequest,
        ) -> Taken;
        pub fn ruhvasto_ladder(
            book: *const u8,
            book_len: usize,
            ladder: *mut u8,
            ladder_len: usize,
            security: u32,
        ) -> u32;
        pub fn ruhvasto_add_ladder(
            book: *mut u8,
            book_len: usize,
            ladder: *mut u8,
            ladder_len: usize,
            request: AddRequest,
        ) -> u32;
        pub fn ruhvasto_reduce_ladder(
            book: *mut u8,
            book_len: usize,
            ladder: *mut u8,
            ladder_len: usize,
            security: u32,
            number: u32,
            shares: u32,
        ) -> u32;
        pub fn ruhvasto_take_ladder(
            book: *mut u8,
            book_len: usize,
            executions: *mut u8,
            executions_len: usize,
            ladder: *mut u8,
            ladder_len: usize,
            request: TakeRequest,
        ) -> Taken;
        pub fn ruhvasto_to_new(
            old: *const u8,
            old_len: usize,
            target: *mut u8,
            target_len: usize,
        ) -> u32;
        pub fn ruhvasto_to_old(
            book: *const u8,
            book_len: usize,
            target: *mut u8,
            target_len: usize,
        ) -> u32;
    }
}

impl AddRequest {
    fn for_c(self) -> c::AddRequest {
        let (kind, minimum, hidden, refresh) = match self.kind {
            Kind::Displayed => (1, 0, 0, 0),
            Kind::NonDisplayed => (2, 0, 0, 0),
            Kind::MinimumQuantity(minimum) => (3, minimum, 0, 0),
            Kind::Reserve(hidden) => (4, 0, hidden, self.size),
        };
        c::AddRequest {
            side: self.side as u32,
            kind,
            number: self.number,
            price: self.price,
            size: self.size,
            minimum,
            hidden,
            refresh,
            security: self.security,
        }
    }
}

impl TakeRequest {
    fn for_c(self) -> c::TakeRequest {
        c::TakeRequest {
            side: self.side as u32,
            limit: self.limit,
            size: self.size,
            algorithm: self.algorithm as u32,
            security: self.security,
        }
    }
}

fn accepted(refusal: u32) -> Result<(), Refusal> {
    if refusal == 0 {
        Ok(())
    } else {
        Err(Refusal(refusal))
    }
}

fn accepted_take(taken: c::Taken) -> Result<Taken, Refusal> {
    accepted(taken.refusal)?;
    Ok(Taken {
        count: taken.count,
        left: taken.left,
    })
}

/// The version of the library that is linked.
pub fn version() -> u32 {
    unsafe { c::ruhvasto_version() }
}

/// The number of orders of the security, in a sound book.
pub fn check(book: &[u8], security: u32) -> Result<u32, Refusal> {
    let checked = unsafe { c::ruhvasto_check(book.as_ptr(), book.len(), security) };
    accepted(checked.refusal)?;
    Ok(checked.orders)
}

/// The order's own record.
pub fn find(book: &[u8], security: u32, number: u32) -> Result<&[u8], Refusal> {
    let found = unsafe { c::ruhvasto_find(book.as_ptr(), book.len(), security, number) };
    accepted(found.refusal)?;
    Ok(&book[found.start..found.start + found.length])
}

pub fn add(book: &mut [u8], request: AddRequest) -> Result<(), Refusal> {
    accepted(unsafe { c::ruhvasto_add(book.as_mut_ptr(), book.len(), request.for_c()) })
}

pub fn reduce(book: &mut [u8], security: u32, number: u32, shares: u32) -> Result<(), Refusal> {
    accepted(unsafe { c::ruhvasto_reduce(book.as_mut_ptr(), book.len(), security, number, shares) })
}

pub fn take(
    book: &mut [u8],
    executions: &mut [u8],
    request: TakeRequest,
) -> Result<Taken, Refusal> {
    accepted_take(unsafe {
        c::ruhvasto_take(
            book.as_mut_ptr(),
            book.len(),
            executions.as_mut_ptr(),
            executions.len(),
            request.for_c(),
        )
    })
}

/// Makes the ladder of the security, whatever stood in it.
pub fn ladder(book: &[u8], ladder: &mut [u8], security: u32) -> Result<(), Refusal> {
    accepted(unsafe {
        c::ruhvasto_ladder(
            book.as_ptr(),
            book.len(),
            ladder.as_mut_ptr(),
            ladder.len(),
            security,
        )
    })
}

/// Add, with the ladder of its security kept.
pub fn add_ladder(book: &mut [u8], ladder: &mut [u8], request: AddRequest) -> Result<(), Refusal> {
    accepted(unsafe {
        c::ruhvasto_add_ladder(
            book.as_mut_ptr(),
            book.len(),
            ladder.as_mut_ptr(),
            ladder.len(),
            request.for_c(),
        )
    })
}

/// Reduce, with the ladder of its security kept.
pub fn reduce_ladder(
    book: &mut [u8],
    ladder: &mut [u8],
    security: u32,
    number: u32,
    shares: u32,
) -> Result<(), Refusal> {
    accepted(unsafe {
        c::ruhvasto_reduce_ladder(
            book.as_mut_ptr(),
            book.len(),
            ladder.as_mut_ptr(),
            ladder.len(),
            security,
            number,
            shares,
        )
    })
}

/// Take, with the ladder of its security kept.
pub fn take_ladder(
    book: &mut [u8],
    executions: &mut [u8],
    ladder: &mut [u8],
    request: TakeRequest,
) -> Result<Taken, Refusal> {
    accepted_take(unsafe {
        c::ruhvasto_take_ladder(
            book.as_mut_ptr(),
            book.len(),
            executions.as_mut_ptr(),
            executions.len(),
            ladder.as_mut_ptr(),
            ladder.len(),
            request.for_c(),
        )
    })
}

/// An old book into the new form, whatever stood in the target.
pub fn to_new(old: &[u8], target: &mut [u8]) -> Result<(), Refusal> {
    accepted(unsafe {
        c::ruhvasto_to_new(old.as_ptr(), old.len(), target.as_mut_ptr(), target.len())
    })
}

/// A book into the old form, whatever stood in the target.
pub fn to_old(book: &[u8], target: &mut [u8]) -> Result<(), Refusal> {
    accepted(unsafe {
        c::ruhvasto_to_old(book.as_ptr(), book.len(), target.as_mut_ptr(), target.len())
    })
}

/// The number in the four bytes from a place on.
fn number_at(bytes: &[u8], at: usize) -> u32 {
    u32::from_le_bytes([bytes[at], bytes[at + 1], bytes[at + 2], bytes[at + 3]])
}

/// The fields of a record.
pub struct Order {
    pub side: u8,
    pub kind: u8,
    pub number: u32,
    pub price: u32,
    pub size: u32,
    pub minimum: u32,
    pub setter: bool,
    pub hidden: u32,
    pub refresh: u32,
    pub security: u8,
}

impl Order {
    /// Of the 40 bytes of a record.
    pub fn of(record: &[u8]) -> Order {
        Order {
            side: record[2],
            kind: record[3],
            number: number_at(record, 4),
            price: number_at(record, 8),
            size: number_at(record, 12),
            minimum: number_at(record, 16),
            setter: record[20] == 1,
            hidden: number_at(record, 32),
            refresh: number_at(record, 36),
            security: record[21],
        }
    }
}

/// The records of a book's orders, of all securities. They end before the first whose first byte is zero, or with the last.
pub fn records(book: &[u8]) -> impl Iterator<Item = &[u8]> {
    book.chunks_exact(RECORD_BYTES)
        .take_while(|record| record[0] != 0)
}

/// The fields of an execution.
pub struct Execution {
    pub number: u32,
    pub price: u32,
    pub shares: u32,
    pub paragraph: u8,
}

impl Execution {
    /// Of the 16 bytes of an execution.
    pub fn of(bytes: &[u8]) -> Execution {
        Execution {
            number: number_at(bytes, 4),
            price: number_at(bytes, 8),
            shares: number_at(bytes, 12),
            paragraph: bytes[2],
        }
    }
}

/// The fields of a row of a ladder.
pub struct Row {
    pub side: u8,
    pub price: u32,
    pub displayed: u32,
    pub other: u32,
    pub orders: u16,
}

impl Row {
    /// Of the 24 bytes of a row.
    pub fn of(bytes: &[u8]) -> Row {
        Row {
            side: bytes[2],
            price: number_at(bytes, 4),
            displayed: number_at(bytes, 8),
            other: number_at(bytes, 12),
            orders: u16::from_le_bytes([bytes[16], bytes[17]]),
        }
    }
}

/// The rows of a ladder. They end before the first whose first byte is zero, or with the last.
pub fn rows(ladder: &[u8]) -> impl Iterator<Item = Row> + '_ {
    ladder
        .chunks_exact(ROW_BYTES)
        .take_while(|bytes| bytes[0] != 0)
        .map(Row::of)
}
