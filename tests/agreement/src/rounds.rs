//! Rounds. A round makes a book from its seed and has a row of calls on it, each
//! by the model and by the library.

use crate::caller::Caller;
use crate::calls::Call;
use crate::compare::{self, Entry, Lending};
use crate::guarded::{self, Edge};
use crate::ladders::Keeper;
use crate::maker::Maker;
use crate::tally;
use books::{Making, Shape};
use model::book::{self, Form, MOST_ORDERS};
use model::EXECUTION_LENGTH;
use std::ops::Range;
use support::Random;

/// Both parts of every order of a full book.
const MOST_EXECUTIONS: usize = 2 * MOST_ORDERS;

/// Rounds that have something in common.
pub struct Group {
    pub name: &'static str,
    pub making: Making,
    pub kinds: [usize; 4],
    /// What the group's shapes have in common beside the kinds.
    pub reshape: fn(&mut Shape),
    pub caller: Caller,
    /// Calls of a round.
    pub calls: usize,
    /// One in so many rounds is run.
    pub one_in: usize,
}

impl Group {
    /// Runs the rounds of these seeds. Fails at the first difference.
    pub fn run(&self, seeds: Range<u64>, maker: &mut Maker) -> Result<(), String> {
        let seeds = seeds.step_by(self.one_in);
        each(self.name, seeds, |seed, random| {
            self.round(seed, random, maker)
        })
    }

    fn round(&self, seed: u64, mut random: Random, maker: &mut Maker) -> Result<(), String> {
        let mut shape = Shape::random(&mut random, self.kinds);
        (self.reshape)(&mut shape);
        let mut made = self.making.book(&mut random, &shape, Form::New);
        let mut keeper = Keeper::new(&made.bytes);
        let damaged = self.making == Making::Damaged;
        let damage = damaged.then(|| made.damage(&mut random));
        let (mut book, mut known) = (made.bytes, made.orders);
        for _ in 0..self.calls {
            known = book::read(&book).unwrap_or(known);
            let call = self.caller.call(&mut random, &shape, &known);
            let executions = executions_buffer(&mut random, call, &book);
            let lent = keeper.lend(&mut random, call, &book);
            let entry = Entry {
                executions,
                ladder: lent.bytes,
                ..Entry::of(call, book)
            };
            let lending = lending(seed, &mut random);
            let outcome = maker.make(&entry, lending)?;
            let in_turn = keeper.keep(&entry, &outcome)?;
            let coverage = &mut maker.coverage;
            if in_turn {
                coverage.note(tally::securities::kept_in_turn(call));
            }
            if lending.read_only {
                tally::note_kept(coverage, &entry, &outcome);
            }
            if let Some((wrong, refusal)) = lent.wrong {
                if outcome.refusal() == refusal {
                    coverage.note(tally::refused_ladder(wrong, refusal));
                }
            }
            if let (Some(damage), 2) = (damage, outcome.refusal()) {
                coverage.note(tally::refused_damage(damage));
            }
            book = outcome.book;
        }
        Ok(())
    }
}

/// Runs the rounds of a group. Fails at the first that does, with its seed.
pub fn each(
    name: &str,
    seeds: impl Iterator<Item = u64>,
    mut round: impl FnMut(u64, Random) -> Result<(), String>,
) -> Result<(), String> {
    for seed in seeds {
        guarded::now_running(seed);
        round(seed, Random::new(seed, stream(name)))
            .map_err(|difference| format!("seed {seed} of the group \"{name}\"\n{difference}"))?;
    }
    Ok(())
}

/// A number of the group's own, so that groups with the same seeds differ.
fn stream(name: &str) -> u64 {
    let letters = name.bytes().map(u64::from);
    letters.fold(0, |sum, letter| 31 * sum % 65_521 + letter)
}

/// The calls of three seeds in four are made twice.
pub fn lending(seed: u64, random: &mut Random) -> Lending {
    Lending {
        again: match seed % 4 {
            1 => Some(Edge::Neither),
            3 => None,
            _ => Some(Edge::Start),
        },
        read_only: random.once_in(4),
    }
}

/// A buffer for the executions of a take, of random bytes: exactly long enough,
/// or a little or much shorter or longer. Other calls have none.
pub fn executions_buffer(random: &mut Random, call: Call, book: &[u8]) -> Vec<u8> {
    if !matches!(call.plain(), Call::Take(_)) {
        return Vec::new();
    }
    let trial = Entry {
        executions: vec![0; MOST_EXECUTIONS * EXECUTION_LENGTH],
        ..Entry::of(call.plain(), book.to_vec())
    };
    let need = compare::by_model(&trial).numbers[1] * EXECUTION_LENGTH;
    let length = match random.below(16) {
        0 => need.saturating_sub(1),
        1 => need.saturating_sub(EXECUTION_LENGTH),
        2 => random.below(need + 1),
        3 => need + 1,
        4 => need + 1 + random.below(40),
        5 => random.below(9_000),
        6..=8 => trial.executions.len(),
        _ => need,
    };
    random.bytes(length)
}
