//! Buffers between pages that may not be touched.

use model::book::RECORD_LENGTH;
use std::ffi::{c_int, c_void};
use std::io::Write;
use std::sync::atomic::{AtomicU64, Ordering};

const PAGE: usize = 4096;
/// Pages of the longest buffer that can be lent.
const MOST_PAGES: usize = 6;
/// What the bytes beside a buffer hold, in a page that it doesn't fill.
const MARGIN: u8 = 0xA5;
const MARGINS: [u8; PAGE] = [MARGIN; PAGE];

const PROT_NONE: c_int = 0;
const PROT_READ: c_int = 1;
const PROT_READ_WRITE: c_int = 3;
const MAP_PRIVATE_ANONYMOUS: c_int = 0x22;
const SIGSEGV: c_int = 11;
const SIG_DFL: usize = 0;

extern "C" {
    fn mmap(
        address: *mut c_void,
        length: usize,
        protection: c_int,
        flags: c_int,
        file: c_int,
        offset: i64,
    ) -> *mut c_void;
    fn mprotect(address: *mut c_void, length: usize, protection: c_int) -> c_int;
    fn signal(number: c_int, handler: usize) -> usize;
    fn write(file: c_int, bytes: *const c_void, length: usize) -> isize;
}

/// The edge of a buffer that lies directly at a page that may not be touched.
/// Where whole pages are lent, both edges do.
#[derive(Clone, Copy, Debug, PartialEq, Eq)]
pub enum Edge {
    Start,
    End,
    /// Neither: the buffer has an odd address, `ODD` bytes behind such a page.
    Neither,
}

const ODD: usize = 13;

/// Room for buffers: for each number of pages a place between two pages that
/// may not be touched.
pub struct Lender {
    places: Vec<*mut u8>,
}

impl Lender {
    pub fn new() -> Lender {
        Lender {
            places: (0..=MOST_PAGES).map(guarded_pages).collect(),
        }
    }

    /// Lends a buffer with these bytes. One at a time is lent of a lender.
    pub fn lend(&mut self, bytes: &[u8], edge: Edge) -> Loan<'_> {
        let before = match edge {
            Edge::Neither => ODD,
            _ => 0,
        };
        let pages = (before + bytes.len()).div_ceil(PAGE);
        // Safety: the place has so many pages, which nobody else uses while
        // the loan borrows the lender.
        let room = unsafe { std::slice::from_raw_parts_mut(self.places[pages], pages * PAGE) };
        let start = match edge {
            Edge::End => room.len() - bytes.len(),
            _ => before,
        };
        room.fill(MARGIN);
        room[start..start + bytes.len()].copy_from_slice(bytes);
        Loan {
            room,
            start,
            length: bytes.len(),
        }
    }
}

/// A lent buffer and the pages that it lies in.
pub struct Loan<'a> {
    room: &'a mut [u8],
    start: usize,
    length: usize,
}

impl Loan<'_> {
    pub fn bytes(&mut self) -> &mut [u8] {
        &mut self.room[self.start..self.start + self.length]
    }

    /// Lets the bytes be read while they may not be written.
    pub fn read_only<T>(&mut self, reader: impl FnOnce(&[u8]) -> T) -> T {
        protect(self.room.as_mut_ptr(), self.room.len(), PROT_READ);
        let answer = reader(&self.room[self.start..self.start + self.length]);
        protect(self.room.as_mut_ptr(), self.room.len(), PROT_READ_WRITE);
        answer
    }

    /// Lends the bytes to a call that leaves these in their place. A page in which
    /// every record stays may not be written meanwhile.
    pub fn keeping<T>(&mut self, after: &[u8], call: impl FnOnce(&mut [u8]) -> T) -> T {
        let kept = self.kept_pages(after);
        self.protect_pages(&kept, PROT_READ);
        let answer = call(self.bytes());
        self.protect_pages(&kept, PROT_READ_WRITE);
        answer
    }

    /// The pages whose records have these bytes already.
    fn kept_pages(&mut self, after: &[u8]) -> Vec<usize> {
        let stays = pages_that_stay(self.start, self.bytes(), after);
        (0..stays.len()).filter(|&page| stays[page]).collect()
    }

    fn protect_pages(&mut self, pages: &[usize], protection: c_int) {
        for page in pages {
            protect(self.room[page * PAGE..].as_mut_ptr(), PAGE, protection);
        }
    }

    /// Whether the bytes beside the buffer are as they were.
    pub fn margin_is_whole(&self) -> bool {
        let (before, rest) = self.room.split_at(self.start);
        let margins = [before, &rest[self.length..]];
        margins
            .iter()
            .all(|margin| **margin == MARGINS[..margin.len()])
    }

    /// Changes the byte at a distance from the buffer's start, which may lie
    /// outside: for the check that this is fatal, or seen.
    pub fn touch(&mut self, distance: isize) {
        let byte = self.bytes().as_mut_ptr().wrapping_offset(distance);
        // Safety: none; the byte may not be there, and the process then ends.
        unsafe { byte.write_volatile(!byte.read_volatile()) };
    }

    /// Writes into the buffer while it may not be written: for the check that
    /// this is fatal.
    pub fn write_read_only(&mut self) {
        let start = self.bytes().as_mut_ptr();
        // Safety: none; the process ends here.
        self.read_only(|_| unsafe { start.write_volatile(0) });
    }
}

/// Whether the records of each page, those included that begin or end in another
/// page, are the same before and after, of a book so many bytes behind the start of
/// the first.
fn pages_that_stay(start: usize, before: &[u8], after: &[u8]) -> Vec<bool> {
    let length = before.len();
    let within = |place: usize| place.saturating_sub(start).min(length);
    let stays = |page: usize| {
        let from = within(page * PAGE) / RECORD_LENGTH * RECORD_LENGTH;
        let to = within((page + 1) * PAGE).next_multiple_of(RECORD_LENGTH);
        let part = from..to.min(length);
        before[part.clone()] == after[part]
    };
    (0..(start + length).div_ceil(PAGE)).map(stays).collect()
}

/// As above, of a book that ends where a page ends.
pub fn pages_at_end(before: &[u8], after: &[u8]) -> Vec<bool> {
    let start = before.len().next_multiple_of(PAGE) - before.len();
    pages_that_stay(start, before, after)
}

/// The start of readable and writable pages between two that are neither.
fn guarded_pages(pages: usize) -> *mut u8 {
    let length = (pages + 2) * PAGE;
    // Safety: a new mapping, wherever there is room.
    let base = unsafe {
        mmap(
            std::ptr::null_mut(),
            length,
            PROT_NONE,
            MAP_PRIVATE_ANONYMOUS,
            -1,
            0,
        )
    };
    assert!(base as isize != -1, "no memory for the lent buffers");
    let start = base.cast::<u8>().wrapping_add(PAGE);
    protect(start, pages * PAGE, PROT_READ_WRITE);
    start
}

fn protect(start: *mut u8, length: usize, protection: c_int) {
    if length > 0 {
        // Safety: whole pages of a mapping of our own.
        let outcome = unsafe { mprotect(start.cast(), length, protection) };
        assert_eq!(outcome, 0, "the protection of pages can't be changed");
    }
}

/// What a touch outside the lent buffers is reported with.
static SEED: AtomicU64 = AtomicU64::new(0);

/// Names the seed in the report of a touch from now on.
pub fn now_running(seed: u64) {
    SEED.store(seed, Ordering::Relaxed);
}

/// From now on a touch of a byte that may not be touched is reported before it
/// ends the process.
pub fn report_touches() {
    let handler: extern "C" fn(c_int) = touched;
    // Safety: the handler only writes to standard error.
    unsafe { signal(SIGSEGV, handler as usize) };
}

extern "C" fn touched(_signal: c_int) {
    let mut text = [0; 128];
    let room = text.len();
    let mut rest = &mut text[..];
    let seed = SEED.load(Ordering::Relaxed);
    let _ = writeln!(
        rest,
        "FAILED: seed {seed}: a byte was touched that may not be"
    );
    let length = room - rest.len();
    // Safety: the text's own bytes. The touch then happens again, and is fatal.
    unsafe {
        write(2, text.as_ptr().cast(), length);
        signal(SIGSEGV, SIG_DFL);
    }
}
