//! Rounds on pairs of sound books that have the same records of a security. A call
//! for it is made by the library on both books, with the same other buffers, and the
//! two outcomes are held to each other: what the other security has in a book makes
//! no difference, save for refusals 4 and 6. The model has no part in that.

use crate::caller::Caller;
use crate::calls::Call;
use crate::compare::{self, Borrower, Entry, Outcome};
use crate::ladders::Keeper;
use crate::maker::Maker;
use crate::rounds;
use crate::tally;
use books::{number_in, records, records_of, Pair, Shape};
use model::book;
use std::ops::Range;
use support::Random;

/// Calls of a round.
const CALLS: usize = 4;

/// Rounds that have the calls in common.
pub struct Group {
    pub name: &'static str,
    caller: Caller,
}

pub fn all() -> [Group; 2] {
    let caller = |mix, keeps_ladder| Caller {
        mix,
        keeps_ladder,
        for_best: false,
        wrong: 40,
        algorithms: [1, 1, 1],
    };
    [
        Group {
            name: "pairs of books",
            caller: caller([1, 2, 4, 3, 6, 0], false),
        },
        Group {
            name: "pairs of books with ladders",
            caller: caller([0, 0, 4, 3, 6, 1], true),
        },
    ]
}

impl Group {
    /// Runs the rounds of these seeds. Fails at the first difference.
    pub fn run(&self, seeds: Range<u64>, maker: &mut Maker) -> Result<(), String> {
        rounds::each(self.name, seeds, |_, random| self.round(random, maker))
    }

    fn round(&self, mut random: Random, maker: &mut Maker) -> Result<(), String> {
        let shape = Shape::random(&mut random, [1, 1, 1, 1]);
        let mut pair = Pair::random(&mut random, &shape);
        for _ in 0..CALLS {
            let entries = self.entries(&mut random, &shape, &pair);
            let made = Made::by_library(entries, pair.security, &mut maker.borrower)?;
            maker.calls += 2;
            made.held().map_err(|word| made.told(word))?;
            tally::pairs::note(&mut maker.coverage, &made);
            if made.is_comparable() {
                pair.books = made.outcomes.map(|outcome| outcome.book);
            }
        }
        Ok(())
    }

    /// A call for the pair's security, to be made on both books.
    fn entries(&self, random: &mut Random, shape: &Shape, pair: &Pair) -> [Entry; 2] {
        let one = &pair.books[random.below(2)];
        let known = book::read(one).expect("a sound book");
        let mut call = self.caller.call_for(random, shape, &known, pair.security);
        if call.security() == Some(1 - pair.security) {
            call = call.for_security(pair.security);
        }
        if let Call::Add(numbers) | Call::AddLadder(numbers) = &mut call {
            if random.once_in(2) {
                numbers[2] = numbers[2].max(above_all(&pair.books));
            }
        }
        let executions = rounds::executions_buffer(random, call, one);
        let ladder = Keeper::new(one).lend(random, call, one).bytes;
        pair.books.each_ref().map(|book| Entry {
            executions: executions.clone(),
            ladder: ladder.clone(),
            ..Entry::of(call, book.clone())
        })
    }
}

/// A number above every number of both books.
fn above_all(books: &[Vec<u8>; 2]) -> u32 {
    let numbers = books.iter().flat_map(|book| records(book));
    let highest = numbers.map(number_in).max();
    highest.map_or(1, |highest| highest + 1)
}

/// A call on two books with the same records of a security.
pub struct Made {
    pub security: u32,
    pub entries: [Entry; 2],
    pub outcomes: [Outcome; 2],
}

impl Made {
    /// Both outcomes of the library.
    pub fn by_library(
        entries: [Entry; 2],
        security: u32,
        borrower: &mut Borrower,
    ) -> Result<Made, String> {
        let [one, other] = entries.each_ref().map(|entry| borrower.by_library(entry));
        Ok(Made {
            security,
            entries,
            outcomes: [one?, other?],
        })
    }

    pub fn call(&self) -> Call {
        self.entries[0].call
    }

    pub fn refusals(&self) -> [usize; 2] {
        self.outcomes.each_ref().map(Outcome::refusal)
    }

    /// Whether neither is refused for the numbers or the records of both securities.
    pub fn is_comparable(&self) -> bool {
        self.refusals()
            .iter()
            .all(|refusal| ![4, 6].contains(refusal))
    }

    /// Fails, with a word, if the outcomes aren't what they are of each other.
    pub fn held(&self) -> Result<(), &'static str> {
        for (entry, outcome) in self.entries.iter().zip(&self.outcomes) {
            let other = 1 - self.security;
            let [before, after] = [&entry.book, &outcome.book];
            if !records_of(before, other).eq(records_of(after, other)) {
                return Err("records of the other security aren't as they were");
            }
            if outcome.refusal() != 0 && before != after {
                return Err("a refused call changed the book");
            }
            if book::read(after).is_err() {
                return Err("the book isn't sound any more");
            }
        }
        if !self.is_comparable() {
            return Ok(());
        }
        let [one, other] = &self.outcomes;
        if self.answer(0) != self.answer(1) {
            return Err("the answers differ");
        }
        if one.executions != other.executions || one.ladder != other.ladder {
            return Err("the other buffers differ");
        }
        let [one, other] = [one, other].map(|outcome| records_of(&outcome.book, self.security));
        match one.eq(other) {
            true => Ok(()),
            false => Err("the records of the security differ"),
        }
    }

    /// What the call answers on one of the books: its numbers, but of find the
    /// refusal and the bytes of its part.
    fn answer(&self, place: usize) -> (Vec<usize>, Option<&[u8]>) {
        let Outcome { numbers, book, .. } = &self.outcomes[place];
        match (self.call(), *numbers) {
            (Call::Find(_), [refusal, start, length]) => {
                (vec![refusal], book.get(start..start.saturating_add(length)))
            }
            _ => (numbers.to_vec(), None),
        }
    }

    fn told(&self, word: &str) -> String {
        let answers = self.outcomes.each_ref().map(|outcome| outcome.numbers);
        let [one, other] = self.entries.each_ref().map(compare::describe);
        format!(
            "{word}: security {}, returned {answers:?}\n{one}{other}",
            self.security
        )
    }
}
