//! One call on the same bytes by the model and by the library, and the
//! comparison of all that comes of it.

use crate::calls::Call;
use crate::guarded::{Edge, Lender, Loan};
use library::Numbers;
use model::book::Form;
use model::ladder::ROW_LENGTH;
use model::EXECUTION_LENGTH;
use std::fmt::Write;

/// A call and the bytes of the buffers at its entry. One that the call isn't
/// lent is empty.
#[derive(Clone)]
pub struct Entry {
    pub call: Call,
    pub book: Vec<u8>,
    pub executions: Vec<u8>,
    pub ladder: Vec<u8>,
    /// What the book is turned into another form in.
    pub target: Vec<u8>,
}

impl Entry {
    /// A call that is lent a book alone.
    pub fn of(call: Call, book: Vec<u8>) -> Entry {
        Entry {
            call,
            book,
            executions: Vec::new(),
            ladder: Vec::new(),
            target: Vec::new(),
        }
    }
}

/// What a call returned, and the bytes of the buffers behind it.
#[derive(Clone, PartialEq, Eq)]
pub struct Outcome {
    pub numbers: Numbers,
    pub book: Vec<u8>,
    pub executions: Vec<u8>,
    pub ladder: Vec<u8>,
    pub target: Vec<u8>,
}

impl Outcome {
    pub fn refusal(&self) -> usize {
        self.numbers[0]
    }
}

/// How buffers are lent to the library. They always end at a page that may not
/// be touched.
#[derive(Clone, Copy, Debug)]
pub struct Lending {
    /// Where the buffers lie if the call is made a second time.
    pub again: Option<Edge>,
    /// Whether what stays of a book can't be written: all of it by a call that
    /// only reads, and by a take each page in which every record stays. A book that
    /// is turned into another form can never be written.
    pub read_only: bool,
}

pub fn by_model(entry: &Entry) -> Outcome {
    let mut after = Outcome {
        numbers: [0; 3],
        book: entry.book.clone(),
        executions: entry.executions.clone(),
        ladder: entry.ladder.clone(),
        target: entry.target.clone(),
    };
    let book = &mut after.book;
    let executions = &mut after.executions;
    let ladder = &mut after.ladder;
    let target = &mut after.target;
    after.numbers = match entry.call {
        Call::Check([security]) => {
            let (refusal, orders) = model::check(book, security);
            [refusal as usize, orders as usize, 0]
        }
        Call::Find([security, number]) => {
            let (refusal, start, length) = model::find(book, security, number);
            [refusal as usize, start, length]
        }
        Call::Add(numbers) => only(model::add(book, numbers)),
        Call::Reduce([security, number, shares]) => {
            only(model::reduce(book, security, number, shares))
        }
        Call::Take(numbers) => all(model::take(book, executions, numbers)),
        Call::Ladder([security]) => only(model::ladder(book, ladder, security)),
        Call::AddLadder(numbers) => only(model::add_ladder(book, ladder, numbers)),
        Call::ReduceLadder([security, number, shares]) => {
            only(model::reduce_ladder(book, ladder, security, number, shares))
        }
        Call::TakeLadder(numbers) => all(model::take_ladder(book, executions, ladder, numbers)),
        Call::ToNew => only(model::to_new(book, target)),
        Call::ToOld => only(model::to_old(book, target)),
    };
    after
}

/// An answer that is a refusal number alone.
fn only(refusal: u32) -> Numbers {
    all((refusal, 0, 0))
}

fn all((refusal, count, left): (u32, u32, u32)) -> Numbers {
    [refusal, count, left].map(|number| number as usize)
}

/// The library with room for the buffers that it is lent.
pub struct Borrower {
    books: Lender,
    executions: Lender,
    ladders: Lender,
    targets: Lender,
}

impl Borrower {
    pub fn new() -> Borrower {
        Borrower {
            books: Lender::new(),
            executions: Lender::new(),
            ladders: Lender::new(),
            targets: Lender::new(),
        }
    }

    /// The outcome that model and library agree on, or where they differ.
    pub fn agreed(&mut self, entry: &Entry, lending: Lending) -> Result<Outcome, String> {
        let model = by_model(entry);
        for edge in [Some(Edge::End), lending.again].into_iter().flatten() {
            let library = self
                .outcome(entry, &model.book, edge, lending.read_only)
                .map_err(|word| format!("{word}\n{}", describe(entry)))?;
            compare(entry, &model, &library)?;
        }
        Ok(model)
    }

    /// The library's outcome of a call that nothing is expected of, or a word as below.
    pub fn by_library(&mut self, entry: &Entry) -> Result<Outcome, String> {
        self.outcome(entry, &entry.book, Edge::End, false)
    }

    /// The library's outcome, or a word on bytes beside a buffer that changed. The
    /// book should have these bytes then.
    fn outcome(
        &mut self,
        entry: &Entry,
        after: &[u8],
        edge: Edge,
        read_only: bool,
    ) -> Result<Outcome, String> {
        let mut loans = Loans {
            book: self.books.lend(&entry.book, edge),
            executions: self.executions.lend(&entry.executions, edge),
            ladder: self.ladders.lend(&entry.ladder, edge),
            target: self.targets.lend(&entry.target, edge),
        };
        let numbers = loans.call(entry.call, after, read_only);
        if !loans.margins_are_whole() {
            return Err(String::from("the library wrote beside a lent buffer"));
        }
        Ok(Outcome {
            numbers,
            book: loans.book.bytes().to_vec(),
            executions: loans.executions.bytes().to_vec(),
            ladder: loans.ladder.bytes().to_vec(),
            target: loans.target.bytes().to_vec(),
        })
    }
}

/// The buffers that the library is lent for a call.
struct Loans<'a> {
    book: Loan<'a>,
    executions: Loan<'a>,
    ladder: Loan<'a>,
    target: Loan<'a>,
}

impl Loans<'_> {
    /// The library's call. The book should have these bytes afterwards.
    fn call(&mut self, call: Call, after: &[u8], read_only: bool) -> Numbers {
        let book = &mut self.book;
        let executions = self.executions.bytes();
        let ladder = self.ladder.bytes();
        let target = self.target.bytes();
        match call {
            Call::Check([security]) if read_only => {
                book.read_only(|book| library::check(book, security))
            }
            Call::Check([security]) => library::check(book.bytes(), security),
            Call::Find([security, number]) if read_only => {
                book.read_only(|book| library::find(book, security, number))
            }
            Call::Find([security, number]) => library::find(book.bytes(), security, number),
            Call::Add(numbers) => library::add(book.bytes(), numbers),
            Call::Reduce([security, number, shares]) => {
                library::reduce(book.bytes(), security, number, shares)
            }
            Call::Take(numbers) if read_only => {
                book.keeping(after, |book| library::take(book, executions, numbers))
            }
            Call::Take(numbers) => library::take(book.bytes(), executions, numbers),
            Call::Ladder([security]) if read_only => {
                book.read_only(|book| library::ladder(book, ladder, security))
            }
            Call::Ladder([security]) => library::ladder(book.bytes(), ladder, security),
            Call::AddLadder(numbers) => library::add_ladder(book.bytes(), ladder, numbers),
            Call::ReduceLadder([security, number, shares]) => {
                library::reduce_ladder(book.bytes(), ladder, security, number, shares)
            }
            Call::TakeLadder(numbers) if read_only => book.keeping(after, |book| {
                library::take_ladder(book, executions, ladder, numbers)
            }),
            Call::TakeLadder(numbers) => {
                library::take_ladder(book.bytes(), executions, ladder, numbers)
            }
            Call::ToNew => book.read_only(|book| library::to_new(book, target)),
            Call::ToOld => book.read_only(|book| library::to_old(book, target)),
        }
    }

    fn margins_are_whole(&self) -> bool {
        let loans = [&self.book, &self.executions, &self.ladder, &self.target];
        loans.iter().all(|loan| loan.margin_is_whole())
    }
}

/// Fails if the two outcomes differ in any returned number or any byte.
pub fn compare(entry: &Entry, model: &Outcome, library: &Outcome) -> Result<(), String> {
    if model == library {
        return Ok(());
    }
    let mut text = describe(entry);
    if model.numbers != library.numbers {
        let (ours, theirs) = (model.numbers, library.numbers);
        let _ = writeln!(text, "returned: model {ours:?}, library {theirs:?}");
    }
    let form = entry.call.form();
    let [record, turned] = [form, form.other()].map(Form::record_length);
    let buffers = [
        ("book", record, &model.book, &library.book),
        (
            "executions",
            EXECUTION_LENGTH,
            &model.executions,
            &library.executions,
        ),
        ("ladder", ROW_LENGTH, &model.ladder, &library.ladder),
        ("target", turned, &model.target, &library.target),
    ];
    for (name, width, ours, theirs) in buffers {
        if let Some(place) = (0..ours.len()).find(|&place| ours[place] != theirs[place]) {
            let (ours, theirs) = (hex(ours, width), hex(theirs, width));
            let _ = writeln!(text, "{name}: first different byte at {place}");
            let _ = writeln!(text, "  model:\n{ours}  library:\n{theirs}");
        }
    }
    Err(text)
}

/// The call and the bytes at its entry.
pub fn describe(entry: &Entry) -> String {
    format!(
        "call: {:?}\nbook at entry, {} bytes:\n{}executions buffer of {} bytes\n\
         ladder at entry, {} bytes:\n{}target of {} bytes\n",
        entry.call,
        entry.book.len(),
        hex(&entry.book, entry.call.form().record_length()),
        entry.executions.len(),
        entry.ladder.len(),
        hex(&entry.ladder, ROW_LENGTH),
        entry.target.len(),
    )
}

/// Bytes in hex, so many a line, up to the last line that isn't zero.
fn hex(bytes: &[u8], width: usize) -> String {
    let lines: Vec<&[u8]> = bytes.chunks(width).collect();
    let is_used = |line: &&[u8]| line.iter().any(|&byte| byte != 0);
    let used = lines.iter().rposition(is_used);
    let mut text = String::new();
    for line in &lines[..used.map_or(0, |last| last + 1)] {
        let digits: Vec<String> = line.iter().map(|byte| format!("{byte:02X}")).collect();
        let _ = writeln!(text, "    {}", digits.join(" "));
    }
    text
}
