//! Checks of the test itself: that a touched byte is fatal, and that a
//! difference is seen.

mod pairs;

use crate::calls::Call;
use crate::compare::{self, Borrower, Entry, Lending, Outcome};
use crate::guarded::{self, Edge, Lender};
use model::book::{LONGEST_BOOK, RECORD_LENGTH};
use model::LADDER_LENGTH;
use std::os::unix::process::ExitStatusExt;
use std::process::Command;
use support::Report;

/// The argument that makes the program a child that touches a byte.
pub const TOUCH: &str = "touch";

const SIGSEGV: i32 = 11;
/// Lengths of the buffers beside which a byte is touched; the last are a ladder's,
/// that of all executions, which is two whole pages, and a full book's.
const LENGTHS: [usize; 6] = [0, 1, 100, LADDER_LENGTH, 8_192, LONGEST_BOOK];

/// Touches a byte that may not be touched, which should be the end.
pub fn touch(what: &str, length: usize) {
    guarded::report_touches();
    let mut lender = Lender::new();
    let bytes = vec![0; length];
    match what {
        "behind" => lender.lend(&bytes, Edge::End).touch(length as isize),
        "before" => lender.lend(&bytes, Edge::Start).touch(-1),
        "read-only" => lender.lend(&bytes, Edge::End).write_read_only(),
        "kept" => write_changing_last(&mut lender, &bytes, 0),
        "changed" => write_changing_last(&mut lender, &bytes, length - 1),
        _ => lender.lend(&bytes, Edge::End).touch(length as isize - 1),
    }
}

/// Writes a byte of a buffer that is lent to a call which changes the last.
fn write_changing_last(lender: &mut Lender, bytes: &[u8], place: usize) {
    let mut after = bytes.to_vec();
    *after.last_mut().expect("a byte") ^= 1;
    let mut loan = lender.lend(bytes, Edge::End);
    loan.keeping(&after, |bytes| bytes[place] ^= 1);
}

/// Whether a child that touches a byte ends as it should.
fn touch_ends(what: &str, length: usize, fatal: bool) -> Result<(), String> {
    let program = std::env::current_exe().map_err(|error| error.to_string())?;
    let child = Command::new(program)
        .args([TOUCH, what, &length.to_string()])
        .output()
        .map_err(|error| error.to_string())?;
    let reported = String::from_utf8_lossy(&child.stderr).contains("FAILED");
    let died = child.status.signal() == Some(SIGSEGV);
    let lived = child.status.success();
    let as_it_should = if fatal {
        died && reported
    } else {
        lived && !reported
    };
    as_it_should
        .then_some(())
        .ok_or(format!("{what} {length}: {}", child.status))
}

/// Whether a write beside a buffer, in a page that it doesn't fill, is seen.
fn margin_is_watched() -> Result<(), String> {
    let mut lender = Lender::new();
    for (edge, distance) in [
        (Edge::End, -1),
        (Edge::Start, 100),
        (Edge::Neither, -1),
        (Edge::Neither, 100),
    ] {
        let mut loan = lender.lend(&[0; 100], edge);
        loan.touch(0);
        let whole = loan.margin_is_whole();
        loan.touch(distance);
        if !whole || loan.margin_is_whole() {
            return Err(format!("{edge:?}: byte {distance}"));
        }
    }
    Ok(())
}

/// A take with a ladder that executes both parts of a reserve order, refreshes it
/// and leaves shares, and so has an answer of each sort and changes every buffer.
fn sample() -> Entry {
    let mut book = vec![0; 3 * RECORD_LENGTH];
    let mut ladder = vec![0; LADDER_LENGTH];
    for order in [
        [2, 4, 2, 100_000, 600, 0, 900, 600, 0],
        [2, 1, 4, 100_000, 400, 0, 0, 0, 0],
        [2, 1, 6, 100_000, 300, 0, 0, 0, 0],
    ] {
        model::add_ladder(&mut book, &mut ladder, order);
    }
    Entry {
        executions: vec![0x5A; 80],
        ladder,
        ..Entry::of(Call::TakeLadder([1, 100_000, 1_400, 2, 0]), book)
    }
}

/// That take, and the same with one byte of its ladder changed, for which it is
/// refused 10.
fn takes() -> [Entry; 2] {
    let mut refused = sample();
    refused.ladder[LADDER_LENGTH - 1] = 1;
    [sample(), refused]
}

/// The book of that take, its reserve order as a displayed one, turned into the old
/// form, and the same with one byte of the book changed, for which it is refused 2.
fn turnings() -> [Entry; 2] {
    let mut book = sample().book;
    book[3] = 1;
    book[32..40].fill(0);
    let accepted = Entry {
        target: vec![0x5A; 128],
        ..Entry::of(Call::ToOld, book)
    };
    let mut refused = accepted.clone();
    refused.book[22] = 1;
    [accepted, refused]
}

/// Whether the comparison sees that the model's outcome has been altered, of an
/// accepted call and of a refused one.
fn sees(
    borrower: &mut Borrower,
    samples: [Entry; 2],
    alter: impl Fn(&mut Outcome),
) -> Result<(), String> {
    for entry in samples {
        let lending = Lending {
            again: Some(Edge::Start),
            read_only: false,
        };
        let library = borrower.agreed(&entry, lending)?;
        let mut altered = compare::by_model(&entry);
        alter(&mut altered);
        if compare::compare(&entry, &altered, &library).is_ok() {
            return Err(String::from("an altered outcome was taken for the same"));
        }
    }
    Ok(())
}

/// Whether the library is lent the entry's own ladder or target, and what it leaves
/// there is looked at: the accepted call changes it, and the one that is refused so
/// doesn't.
fn is_lent(borrower: &mut Borrower, samples: [Entry; 2], refusal: usize) -> Result<(), String> {
    let lending = Lending {
        again: Some(Edge::Neither),
        read_only: false,
    };
    let [accepted, refused] = samples.map(|entry| {
        let outcome = borrower.agreed(&entry, lending)?;
        let stays = outcome.ladder == entry.ladder && outcome.target == entry.target;
        Ok::<_, String>((outcome.refusal(), stays))
    });
    (accepted? == (0, false) && refused? == (refusal, true))
        .then_some(())
        .ok_or(String::from("the samples aren't what they should be"))
}

/// Places of a buffer in which an altered byte has to be seen.
struct Watched {
    name: &'static str,
    samples: fn() -> [Entry; 2],
    buffer: fn(&mut Outcome) -> &mut Vec<u8>,
    places: &'static [usize],
}

const WATCHED: [Watched; 5] = [
    // The first and the last byte of hidden shares and refresh size, and the zeros
    // behind the only order that rests.
    Watched {
        name: "book",
        samples: takes,
        buffer: |outcome| &mut outcome.book,
        places: &[0, 32, 35, 36, 39, 40, 119],
    },
    // Bytes 2 and 3 are an execution's paragraph and the zero behind it.
    Watched {
        name: "executions",
        samples: takes,
        buffer: |outcome| &mut outcome.executions,
        places: &[0, 2, 3, 63, 79],
    },
    // Row by row: the mark, a share, the count, a zero of a row, the zeros behind.
    Watched {
        name: "ladder",
        samples: takes,
        buffer: |outcome| &mut outcome.ladder,
        places: &[0, 8, 17, 23, 24, LADDER_LENGTH - 1],
    },
    // The mark, the setter mark, the first record's end, the zeros behind the last.
    Watched {
        name: "target",
        samples: turnings,
        buffer: |outcome| &mut outcome.target,
        places: &[1, 20, 31, 32, 96, 127],
    },
    Watched {
        name: "book that is turned",
        samples: turnings,
        buffer: |outcome| &mut outcome.book,
        places: &[0, 119],
    },
];

pub fn run(report: &mut Report, borrower: &mut Borrower) {
    run_touches(report);
    for place in 0..3 {
        let seen = sees(borrower, takes(), |outcome| outcome.numbers[place] ^= 1);
        let name = format!("an altered number {place} of an answer is seen");
        report.check(&name, seen);
    }
    let ladder = is_lent(borrower, takes(), 10);
    report.check("a ladder is lent and looked at", ladder);
    pairs::run(report, borrower);
    let target = is_lent(borrower, turnings(), 2);
    report.check("a target is lent and looked at", target);
    for watched in WATCHED {
        for &place in watched.places {
            let alter = |outcome: &mut Outcome| (watched.buffer)(outcome)[place] ^= 1;
            let seen = sees(borrower, (watched.samples)(), alter);
            let name = format!("an altered byte {place} of the {} is seen", watched.name);
            report.check(&name, seen);
        }
    }
}

fn run_touches(report: &mut Report) {
    let each = |what: &str, lengths: &[usize], fatal: bool| {
        let mut lengths = lengths.iter();
        lengths.try_for_each(|&length| touch_ends(what, length, fatal))
    };
    let behind = each("behind", &LENGTHS, true);
    report.check("a touch behind a buffer is fatal", behind);
    let before = each("before", &LENGTHS, true);
    report.check("a touch before a buffer is fatal", before);
    let write = each("read-only", &LENGTHS[1..], true);
    report.check("a write into a read-only buffer is fatal", write);
    let kept = each("kept", &LENGTHS[3..], true);
    report.check("a write into a page that stays is fatal", kept);
    let changed = each("changed", &LENGTHS[1..], false);
    report.check("a write into a page that changes is not", changed);
    let inside = each("inside", &LENGTHS[1..], false);
    report.check("a touch inside a buffer is not", inside);
    report.check("a write beside a buffer is seen", margin_is_watched());
}
