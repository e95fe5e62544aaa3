//! The ladders of both securities that a round keeps beside its book from call to
//! call, and the wrong ladders that it lends now and then instead.

use crate::calls::Call;
use crate::compare::{self, Entry, Outcome};
use model::book::{self, Order, MOST_ORDERS, RECORD_LENGTH, SECURITIES};
use model::ladder::ROW_LENGTH;
use model::{EXECUTION_LENGTH, LADDER_LENGTH};
use support::Random;

/// What a wrong ladder is made for.
pub struct Scene<'a> {
    call: Call,
    security: u32,
    book: &'a [u8],
    /// The ladder that was kept before the last change.
    former: &'a [u8],
}

/// Makes a book's ladder, with so many rows, a wrong one. One with too few rows
/// for it may stay as it is.
type Wrong = fn(&mut Random, &mut Vec<u8>, usize, &Scene);

/// Every kind of wrong ladder with its name and refusal number.
pub const WRONG_LADDERS: [(&str, usize, Wrong); 24] = [
    ("no bytes", 9, |_, ladder, _, _| ladder.clear()),
    ("one row", 9, |_, ladder, _, _| ladder.truncate(ROW_LENGTH)),
    ("the rows in use alone", 9, |_, ladder, rows, _| {
        ladder.truncate(rows * ROW_LENGTH);
    }),
    ("a row too short", 9, |_, ladder, _, _| {
        ladder.truncate(6_120)
    }),
    ("a byte too short", 9, |_, ladder, _, _| {
        ladder.truncate(6_143)
    }),
    ("a byte too long", 9, |_, ladder, _, _| {
        ladder.resize(6_145, 0)
    }),
    ("a row too long", 9, |_, ladder, _, _| {
        ladder.resize(6_168, 0)
    }),
    ("twice as long", 9, |_, ladder, _, _| {
        ladder.resize(12_288, 0)
    }),
    ("any other length", 9, |random, ladder, _, _| {
        ladder.resize(random.below(2 * LADDER_LENGTH), 0);
    }),
    ("a field of a row", 10, |random, ladder, rows, _| {
        alter_in_row(random, ladder, rows, 0..18);
    }),
    ("a zero of a row", 10, |random, ladder, rows, _| {
        alter_in_row(random, ladder, rows, 18..24);
    }),
    ("a byte behind the rows", 10, |random, ladder, rows, _| {
        alter_a_byte(random, &mut ladder[rows * ROW_LENGTH..]);
    }),
    ("the last byte", 10, |random, ladder, _, _| {
        alter_a_byte(random, &mut ladder[LADDER_LENGTH - 1..]);
    }),
    ("random bytes", 10, |random, ladder, _, _| {
        random.fill(ladder)
    }),
    ("no rows", 10, |_, ladder, _, _| ladder.fill(0)),
    ("two rows exchanged", 10, |random, ladder, rows, _| {
        if rows > 1 {
            let first = random.below(rows - 1) * ROW_LENGTH;
            ladder[first..first + 2 * ROW_LENGTH].rotate_left(ROW_LENGTH);
        }
    }),
    ("a row left out", 10, |random, ladder, rows, _| {
        let out = random.below(rows.max(1)) * ROW_LENGTH;
        ladder.drain(out..out + ROW_LENGTH);
        ladder.resize(LADDER_LENGTH, 0);
    }),
    ("a row without orders", 10, |random, ladder, rows, _| {
        let place = random.below(rows + 1) * ROW_LENGTH;
        let row = [0x4C, 0x44, 1, 0, 1, 0, 0, 0];
        ladder.splice(place..place, row.into_iter().chain([0; 16]));
        ladder.truncate(LADDER_LENGTH);
    }),
    (
        "shares in the wrong column",
        10,
        |random, ladder, rows, _| {
            if rows > 0 {
                let row = random.below(rows) * ROW_LENGTH;
                ladder[row + 8..row + 16].rotate_left(4);
            }
        },
    ),
    (
        "rows from the last to the first",
        10,
        |_, ladder, rows, _| {
            let reversed: Vec<u8> = ladder[..rows * ROW_LENGTH]
                .rchunks(ROW_LENGTH)
                .flatten()
                .copied()
                .collect();
            ladder[..reversed.len()].copy_from_slice(&reversed);
        },
    ),
    ("as before the last change", 10, |_, ladder, _, scene| {
        ladder.copy_from_slice(scene.former);
    }),
    ("as after the call", 10, |_, ladder, _, scene| {
        model::ladder(&scene.book_afterwards(), ladder, scene.security);
    }),
    ("the other security's", 10, |_, ladder, _, scene| {
        model::ladder(scene.book, ladder, 1 - scene.security);
    }),
    ("of both securities' orders", 10, |_, ladder, _, scene| {
        model::ladder(&scene.book_of_one_security(), ladder, 0);
    }),
];

impl Scene<'_> {
    /// The book that the plain call leaves, with room for all executions.
    fn book_afterwards(&self) -> Vec<u8> {
        let entry = Entry {
            executions: vec![0; 2 * MOST_ORDERS * EXECUTION_LENGTH],
            ..Entry::of(self.call.plain(), self.book.to_vec())
        };
        compare::by_model(&entry).book
    }

    /// The book with every order as one of security 0, without marks.
    fn book_of_one_security(&self) -> Vec<u8> {
        let orders = book::read(self.book).unwrap_or_default();
        let of_one = |order: &Order| Order {
            security: 0,
            setter: false,
            ..*order
        };
        let orders: Vec<Order> = orders.iter().map(of_one).collect();
        let mut book = vec![0; orders.len() * RECORD_LENGTH];
        book::write(&mut book, &orders);
        book
    }
}

/// Makes a byte another one.
fn alter_a_byte(random: &mut Random, bytes: &mut [u8]) {
    if !bytes.is_empty() {
        let place = random.below(bytes.len());
        bytes[place] ^= random.one_of(&[1, 1, 2, 0x80, 0xFF]);
    }
}

/// Alters a byte in these places of a row.
fn alter_in_row(
    random: &mut Random,
    ladder: &mut [u8],
    rows: usize,
    places: std::ops::Range<usize>,
) {
    if rows > 0 {
        let row = random.below(rows) * ROW_LENGTH;
        alter_a_byte(random, &mut ladder[row + places.start..row + places.end]);
    }
}

/// How many rows a ladder has in use.
fn rows_in_use(ladder: &[u8]) -> usize {
    let mut rows = ladder.chunks(ROW_LENGTH);
    rows.position(|row| row[0] == 0)
        .unwrap_or(LADDER_LENGTH / ROW_LENGTH)
}

/// A ladder that is to be lent, and what is wrong with it: the name, and the
/// refusal number of forms.
pub struct Lent {
    pub bytes: Vec<u8>,
    pub wrong: Option<(&'static str, usize)>,
}

/// The ladder of a security in a round.
struct Kept {
    bytes: Vec<u8>,
    former: Vec<u8>,
    /// Whether the ladder was made of the very book that the calls are made on.
    is_own: bool,
}

/// The ladders of a round, by security.
pub struct Keeper {
    ladders: [Kept; SECURITIES as usize],
    /// The security of the last form that was accepted.
    last: Option<usize>,
}

impl Keeper {
    /// Begins with the ladders of a sound book, which may be spoilt afterwards.
    pub fn new(book: &[u8]) -> Keeper {
        let ladders = [0, 1].map(|security| {
            let mut bytes = vec![0; LADDER_LENGTH];
            let refusal = model::ladder(book, &mut bytes, security);
            assert_eq!(refusal, 0, "a sound book");
            Kept {
                former: vec![0; LADDER_LENGTH],
                bytes,
                is_own: false,
            }
        });
        Keeper {
            ladders,
            last: None,
        }
    }

    /// The ladder for a call on a book: mostly the one that is kept for its security.
    /// Calls that have no ladder are lent none.
    pub fn lend(&self, random: &mut Random, call: Call, book: &[u8]) -> Lent {
        let mut bytes = Vec::new();
        let mut wrong = None;
        if call.has_ladder() {
            let security = security_of(call).unwrap_or(0);
            let kept = &self.ladders[security];
            bytes.clone_from(&kept.bytes);
            if random.once_in(if call.is_form() { 4 } else { 2 }) {
                let (name, refusal, make_wrong) = random.one_of(&WRONG_LADDERS);
                let scene = Scene {
                    call,
                    security: security as u32,
                    book,
                    former: &kept.former,
                };
                make_wrong(random, &mut bytes, rows_in_use(&kept.bytes), &scene);
                wrong = Some((name, refusal));
            }
        }
        Lent { bytes, wrong }
    }

    /// Keeps what an accepted call left. A new ladder may not be another than the
    /// one that was kept all along. Says whether a form of the other security was
    /// accepted before this one.
    pub fn keep(&mut self, entry: &Entry, outcome: &Outcome) -> Result<bool, String> {
        let Some(security) = security_of(entry.call) else {
            return Ok(false);
        };
        if outcome.refusal() != 0 || outcome.ladder.is_empty() {
            return Ok(false);
        }
        let kept = &mut self.ladders[security];
        if !entry.call.is_form() && kept.is_own && outcome.ladder != kept.bytes {
            return Err(String::from("the ladder that was kept isn't the new one"));
        }
        kept.is_own = true;
        if outcome.ladder != kept.bytes {
            kept.former = std::mem::replace(&mut kept.bytes, outcome.ladder.clone());
        }
        let in_turn = self.last == Some(1 - security);
        if entry.call.is_form() {
            self.last = Some(security);
        }
        Ok(in_turn)
    }
}

/// The security that a call names, if there is such a one.
fn security_of(call: Call) -> Option<usize> {
    let security = call.security().filter(|&security| security < SECURITIES);
    security.map(|security| security as usize)
}
