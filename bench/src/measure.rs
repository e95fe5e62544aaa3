//! Comparing and timing the two on one case.

use crate::calls::{Buffers, Calls, FastModel, Library};
use crate::cases::Case;
use library::Numbers;
use std::hint::black_box;
use std::time::{Duration, Instant};

/// Fresh copies of a book, and of the ladder beside it, are made for so many bytes
/// at a time, so that they stay in the nearest cache.
const COPIED_BYTES: usize = 32 * 1024;
const EXECUTIONS_BYTES: usize = 8_192;
/// What the execution buffer holds before a call.
const FILLER: u8 = 0xEE;
pub const ROUNDS: usize = 15;
/// How long a round lasts.
pub const ROUND: Duration = Duration::from_millis(10);

/// The least, the middle and the most of the rounds.
#[derive(Clone, Copy)]
pub struct Spread {
    pub least: f64,
    pub median: f64,
    pub most: f64,
}

impl Spread {
    fn of(values: impl Iterator<Item = f64>) -> Spread {
        let mut sorted: Vec<f64> = values.collect();
        sorted.sort_by(f64::total_cmp);
        Spread {
            least: sorted[0],
            median: sorted[sorted.len() / 2],
            most: sorted[sorted.len() - 1],
        }
    }
}

/// Nanoseconds a call, and the library's as a multiple of the fast model's: the
/// quotient of the medians, and the least and most of the rounds' quotients.
pub struct Measured {
    pub library: Spread,
    pub fast: Spread,
    pub ratio: Spread,
}

/// What a call answers and leaves in the buffers.
#[derive(PartialEq, Eq)]
struct Outcome {
    numbers: Numbers,
    book: Vec<u8>,
    executions: Vec<u8>,
    ladder: Vec<u8>,
}

fn outcome<C: Calls>(case: &Case) -> Outcome {
    let mut book = case.book.clone();
    let mut executions = vec![FILLER; EXECUTIONS_BYTES];
    let mut ladder = case.ladder.clone();
    let buffers = Buffers {
        book: &mut book,
        executions: &mut executions,
        ladder: &mut ladder,
    };
    let numbers = C::answer(&case.call, buffers);
    Outcome {
        numbers,
        book,
        executions,
        ladder,
    }
}

/// Whether both accept the call, with the executions that the case is about, and
/// leave the same bytes.
pub fn compare(case: &Case) -> Result<(), String> {
    let (library, fast) = (outcome::<Library>(case), outcome::<FastModel>(case));
    let wrong = if library.numbers != fast.numbers {
        "the numbers differ"
    } else if library.book != fast.book {
        "the books differ"
    } else if library.executions != fast.executions {
        "the executions differ"
    } else if library.ladder != fast.ladder {
        "the ladders differ"
    } else if library.numbers[0] != 0 {
        "the call is refused"
    } else if case
        .executions
        .is_some_and(|count| count != library.numbers[1])
    {
        "the case isn't what it says"
    } else {
        return Ok(());
    };
    let (library, fast) = (library.numbers, fast.numbers);
    Err(format!("{wrong}: library {library:?}, fast model {fast:?}"))
}

/// Buffers that the timed calls work on.
struct Copies {
    books: Vec<u8>,
    executions: Vec<u8>,
    ladders: Vec<u8>,
}

impl Copies {
    fn new(case: &Case) -> Copies {
        let count = COPIED_BYTES / (case.book.len() + case.ladder.len());
        Copies {
            books: case.book.repeat(count),
            executions: vec![FILLER; EXECUTIONS_BYTES],
            ladders: case.ladder.repeat(count),
        }
    }

    /// Nanoseconds a call, over a call on each of as many fresh copies, without
    /// the time of looking at the clock.
    fn time<C: Calls>(&mut self, case: &Case, clock: Duration) -> f64 {
        for copy in self.books.chunks_exact_mut(case.book.len()) {
            copy.copy_from_slice(&case.book);
        }
        // Of a case without a ladder there are no such copies, and one byte is
        // as good as any other length.
        for copy in self.ladders.chunks_exact_mut(case.ladder.len().max(1)) {
            copy.copy_from_slice(&case.ladder);
        }
        let mut ladders = &mut self.ladders[..];
        let start = Instant::now();
        for book in self.books.chunks_exact_mut(case.book.len()) {
            let (ladder, others) = ladders.split_at_mut(case.ladder.len());
            ladders = others;
            let buffers = Buffers {
                book,
                executions: &mut self.executions,
                ladder,
            };
            black_box(C::answer(black_box(&case.call), black_box(buffers)));
        }
        let spent = start.elapsed().saturating_sub(clock);
        let calls = self.books.len() / case.book.len();
        spent.as_secs_f64() * 1e9 / calls as f64
    }
}

/// How long it takes to look at the clock twice, as a rule.
fn clock_time() -> Duration {
    let mut times: Vec<Duration> = (0..1_001)
        .map(|_| black_box(Instant::now()).elapsed())
        .collect();
    times.sort();
    times[times.len() / 2]
}

/// Nanoseconds a call of both, the middle of many times taken turn by turn.
fn round(case: &Case, copies: &mut Copies, clock: Duration, length: Duration) -> (f64, f64) {
    let (mut library, mut fast) = (Vec::new(), Vec::new());
    let start = Instant::now();
    while library.is_empty() || start.elapsed() < length {
        library.push(copies.time::<Library>(case, clock));
        fast.push(copies.time::<FastModel>(case, clock));
    }
    let median = |times: Vec<f64>| Spread::of(times.into_iter()).median;
    (median(library), median(fast))
}

pub fn measure(case: &Case) -> Measured {
    let mut copies = Copies::new(case);
    let clock = clock_time();
    round(case, &mut copies, clock, ROUND / 4);
    let rounds: Vec<(f64, f64)> = (0..ROUNDS)
        .map(|_| round(case, &mut copies, clock, ROUND))
        .collect();
    let library = Spread::of(rounds.iter().map(|round| round.0));
    let fast = Spread::of(rounds.iter().map(|round| round.1));
    let ratio = Spread {
        median: library.median / fast.median,
        ..Spread::of(rounds.iter().map(|round| round.0 / round.1))
    };
    Measured {
        library,
        fast,
        ratio,
    }
}
