//! The library's C functions, on slices. Each gives the numbers of the answer:
//! the refusal number, and its other numbers or 0.

pub type Numbers = [usize; 3];

#[repr(C)]
struct Checked {
    refusal: u32,
    orders: u32,
}

#[repr(C)]
struct Found {
    refusal: u32,
    start: usize,
    length: usize,
}

#[repr(C)]
struct Taken {
    refusal: u32,
    count: u32,
    left: u32,
}

#[repr(C)]
struct AddRequest {
    side: u32,
    kind: u32,
    number: u32,
    price: u32,
    size: u32,
    minimum: u32,
    hidden: u32,
    refresh: u32,
    security: u32,
}

#[repr(C)]
struct TakeRequest {
    side: u32,
    limit: u32,
    size: u32,
    algorithm: u32,
    security: u32,
}

extern "C" {
    fn ruhvasto_check(book: *const u8, book_len: usize, security: u32) -> Checked;
    fn ruhvasto_find(book: *const u8, book_len: usize, security: u32, number: u32) -> Found;
    fn ruhvasto_add(book: *mut u8, book_len: usize, request: AddRequest) -> u32;
    fn ruhvasto_reduce(
        book: *mut u8,
        book_len: usize,
        security: u32,
        number: u32,
        shares: u32,
    ) -> u32;
    fn ruhvasto_take(
        book: *mut u8,
        book_len: usize,
        executions: *mut u8,
        executions_len: usize,
        request: TakeRequest,
    ) -> Taken;
    fn ruhvasto_ladder(
        book: *const u8,
        book_len: usize,
        ladder: *mut u8,
        ladder_len: usize,
        security: u32,
    ) -> u32;
    fn ruhvasto_add_ladder(
        book: *mut u8,
        book_len: usize,
        ladder: *mut u8,
        ladder_len: usize,
        request: AddRequest,
    ) -> u32;
    fn ruhvasto_reduce_ladder(
        book: *mut u8,
        book_len: usize,
        ladder: *mut u8,
        ladder_len: usize,
        security: u32,
        number: u32,
        shares: u32,
    ) -> u32;
    fn ruhvasto_take_ladder(
        book: *mut u8,
        book_len: usize,
        executions: *mut u8,
        executions_len: usize,
        ladder: *mut u8,
        ladder_len: usize,
        request: TakeRequest,
    ) -> Taken;
    fn ruhvasto_to_new(old: *const u8, old_len: usize, target: *mut u8, target_len: usize) -> u32;
    fn ruhvasto_to_old(book: *const u8, book_len: usize, target: *mut u8, target_len: usize)
        -> u32;
}

impl AddRequest {
    #[inline]
    fn of(numbers: [u32; 9]) -> AddRequest {
        let [side, kind, number, price, size, minimum, hidden, refresh, security] = numbers;
        AddRequest {
            side,
            kind,
            number,
            price,
            size,
            minimum,
            hidden,
            refresh,
            security,
        }
    }
}

impl TakeRequest {
    #[inline]
    fn of(numbers: [u32; 5]) -> TakeRequest {
        let [side, limit, size, algorithm, security] = numbers;
        TakeRequest {
            side,
            limit,
            size,
            algorithm,
            security,
        }
    }
}

impl Taken {
    #[inline]
    fn numbers(self) -> Numbers {
        [self.refusal, self.count, self.left].map(|number| number as usize)
    }
}

/// An answer that is a refusal number alone.
#[inline]
fn only(refusal: u32) -> Numbers {
    [refusal as usize, 0, 0]
}

#[inline]
pub fn check(book: &[u8], security: u32) -> Numbers {
    // Safety: the slice is as many bytes as said, and is only read.
    let checked = unsafe { ruhvasto_check(book.as_ptr(), book.len(), security) };
    [checked.refusal as usize, checked.orders as usize, 0]
}

#[inline]
pub fn find(book: &[u8], security: u32, number: u32) -> Numbers {
    // Safety: as above.
    let found = unsafe { ruhvasto_find(book.as_ptr(), book.len(), security, number) };
    [found.refusal as usize, found.start, found.length]
}

/// Side, kind, number, price, size, minimum, hidden shares, refresh size and
/// security.
#[inline]
pub fn add(book: &mut [u8], numbers: [u32; 9]) -> Numbers {
    let request = AddRequest::of(numbers);
    // Safety: the slice is as many bytes as said, and nobody else's meanwhile.
    only(unsafe { ruhvasto_add(book.as_mut_ptr(), book.len(), request) })
}

#[inline]
pub fn reduce(book: &mut [u8], security: u32, number: u32, shares: u32) -> Numbers {
    let (start, length) = (book.as_mut_ptr(), book.len());
    // Safety: as above.
    only(unsafe { ruhvasto_reduce(start, length, security, number, shares) })
}

/// Side, limit, size, algorithm and security.
#[inline]
pub fn take(book: &mut [u8], executions: &mut [u8], numbers: [u32; 5]) -> Numbers {
    let request = TakeRequest::of(numbers);
    let (start, length) = (book.as_mut_ptr(), book.len());
    let (second, room) = (executions.as_mut_ptr(), executions.len());
    // Safety: as above, for both slices; they don't overlap.
    unsafe { ruhvasto_take(start, length, second, room, request) }.numbers()
}

#[inline]
pub fn ladder(book: &[u8], ladder: &mut [u8], security: u32) -> Numbers {
    let (start, length) = (book.as_ptr(), book.len());
    let (second, room) = (ladder.as_mut_ptr(), ladder.len());
    // Safety: as above; the book is only read.
    only(unsafe { ruhvasto_ladder(start, length, second, room, security) })
}

/// Add that keeps a ladder.
#[inline]
pub fn add_ladder(book: &mut [u8], ladder: &mut [u8], numbers: [u32; 9]) -> Numbers {
    let request = AddRequest::of(numbers);
    let (start, length) = (book.as_mut_ptr(), book.len());
    let (second, room) = (ladder.as_mut_ptr(), ladder.len());
    // Safety: as above.
    only(unsafe { ruhvasto_add_ladder(start, length, second, room, request) })
}

/// Reduce that keeps a ladder.
#[inline]
pub fn reduce_ladder(
    book: &mut [u8],
    ladder: &mut [u8],
    security: u32,
    number: u32,
    shares: u32,
) -> Numbers {
    let (start, length) = (book.as_mut_ptr(), book.len());
    let (second, room) = (ladder.as_mut_ptr(), ladder.len());
    // Safety: as above.
    only(unsafe { ruhvasto_reduce_ladder(start, length, second, room, security, number, shares) })
}

/// Take that keeps a ladder.
#[inline]
pub fn take_ladder(
    book: &mut [u8],
    executions: &mut [u8],
    ladder: &mut [u8],
    numbers: [u32; 5],
) -> Numbers {
    let request = TakeRequest::of(numbers);
    // Safety: as above, for three slices.
    let taken = unsafe {
        ruhvasto_take_ladder(
            book.as_mut_ptr(),
            book.len(),
            executions.as_mut_ptr(),
            executions.len(),
            ladder.as_mut_ptr(),
            ladder.len(),
            request,
        )
    };
    taken.numbers()
}

/// An old book into the new form.
#[inline]
pub fn to_new(old: &[u8], target: &mut [u8]) -> Numbers {
    let (start, length) = (old.as_ptr(), old.len());
    // Safety: as above; the first slice is only read.
    only(unsafe { ruhvasto_to_new(start, length, target.as_mut_ptr(), target.len()) })
}

/// A new book into the old form.
#[inline]
pub fn to_old(book: &[u8], target: &mut [u8]) -> Numbers {
    let (start, length) = (book.as_ptr(), book.len());
    // Safety: as above.
    only(unsafe { ruhvasto_to_old(start, length, target.as_mut_ptr(), target.len()) })
}
