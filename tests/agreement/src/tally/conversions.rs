//! What occurred in the calls that turn a book into the other form.

use super::reserves::is_reserve;
use crate::calls::Call;
use crate::compare::Entry;
use books::damage;
use model::book::{self, Form, Kind, Order, MOST_ORDERS};
use support::Coverage;

const CALLS: [Call; 2] = [Call::ToNew, Call::ToOld];

/// What a book and a target are like.
struct Scene {
    /// The orders of a sound book.
    orders: Vec<Order>,
    /// The records of an unsound book that aren't free, or the orders of a sound one.
    used: usize,
    /// The records of the book, used or free.
    records: usize,
    /// The bytes of a record of the book, and of the target.
    from: usize,
    to: usize,
    /// The length of the target.
    length: usize,
}

type Meets = fn(&Scene) -> bool;

/// What an accepted call meets.
const ACCEPTED: [(&str, Meets); 13] = [
    ("as many records", |scene| scene.room() == scene.records),
    ("more records", |scene| scene.room() > scene.records),
    ("fewer records that just hold the orders", |scene| {
        scene.used > 0 && scene.room() == scene.used && scene.used < scene.records
    }),
    ("fewer records and free ones", |scene| {
        (scene.used + 1..scene.records).contains(&scene.room())
    }),
    ("256 records for fewer orders", |scene| {
        scene.room() == MOST_ORDERS && scene.used < MOST_ORDERS
    }),
    ("256 records for 256 orders", |scene| {
        scene.used == MOST_ORDERS
    }),
    ("no bytes into no bytes", |scene| {
        scene.records == 0 && scene.length == 0
    }),
    ("no bytes into free records", |scene| {
        scene.records == 0 && scene.length > 0
    }),
    ("free records into no bytes", |scene| {
        scene.records > 0 && scene.length == 0
    }),
    ("all three kinds and a mark", |scene| {
        let some = |fits: fn(&Order) -> bool| scene.orders.iter().any(fits);
        some(|order| order.kind == Kind::Displayed)
            && some(|order| order.kind == Kind::NonDisplayed)
            && some(|order| matches!(order.kind, Kind::MinimumQuantity { .. }))
            && some(|order| order.setter)
    }),
    ("a displayed order without a mark", |scene| {
        let mut orders = scene.orders.iter();
        orders.any(|order| order.kind == Kind::Displayed && !order.setter)
    }),
    ("marks on both sides", |scene| {
        let marked = scene.orders.iter().filter(|order| order.setter);
        let mut sides = marked.map(|order| order.side);
        let first = sides.next();
        sides.any(|side| Some(side) != first)
    }),
    ("a number beyond three bytes", |scene| {
        scene.orders.iter().any(|order| order.number >= 1 << 24)
    }),
];

/// What a target that is refused 12 is like, and often one that is refused for the
/// book.
const UNFIT: [(&str, Meets); 12] = [
    ("33 bytes", |scene| scene.length == 33),
    ("39 bytes", |scene| scene.length == 39),
    ("41 bytes", |scene| scene.length == 41),
    ("a byte too few", |scene| {
        scene.length + 1 == scene.used * scene.to
    }),
    ("a byte too many", |scene| {
        scene.length == scene.used * scene.to + 1
    }),
    ("a record too few", |scene| {
        scene.length + scene.to == scene.used * scene.to
    }),
    ("no bytes for orders", |scene| {
        scene.length == 0 && scene.used > 0
    }),
    ("as many records of the book's length", |scene| {
        scene.length == scene.records * scene.from && !scene.length.is_multiple_of(scene.to)
    }),
    ("a byte less than 256 records", |scene| {
        scene.length + 1 == MOST_ORDERS * scene.to
    }),
    ("a byte more than 256 records", |scene| {
        scene.length == MOST_ORDERS * scene.to + 1
    }),
    ("257 records", |scene| scene.length == 257 * scene.to),
    ("more than 257 records", |scene| {
        scene.length > 257 * scene.to && scene.length.is_multiple_of(scene.to)
    }),
];

/// The orders for which a book is refused 11.
const RESERVES: &str = "reserve orders";
const SECOND: &str = "orders of security 1";
const BOTH: &str = "both reserve orders and orders of security 1";

/// What they are like if they are of one sort alone.
const UNTOLD: [(&str, Meets); 3] = [
    ("the only order", |scene| scene.used == 1),
    ("the first of several alone", |scene| {
        scene.used > 1 && is_only(scene, scene.orders.first())
    }),
    ("the last of several alone", |scene| {
        scene.used > 1 && is_only(scene, scene.orders.last())
    }),
];

const NOTHING_HIDDEN: &str = "all of them hiding nothing";

/// What an unsound book may have in a record that the old form can't tell: a byte in
/// a place.
const UNTOLD_BYTES: [(&str, usize, u8); 2] = [("kind 4", 3, 4), ("security 1", 21, 1)];

impl Scene {
    fn of(entry: &Entry) -> Scene {
        let form = entry.call.form();
        let from = form.record_length();
        let orders = book::read_in(form, &entry.book).unwrap_or_default();
        let records = entry.book.chunks_exact(from);
        Scene {
            used: records.clone().filter(|record| record[0] != 0).count(),
            records: records.count(),
            orders,
            from,
            to: form.other().record_length(),
            length: entry.target.len(),
        }
    }

    /// The whole records of the target.
    fn room(&self) -> usize {
        self.length / self.to
    }

    /// The orders that the old form can't tell.
    fn untold(&self) -> impl Iterator<Item = &Order> {
        let orders = self.orders.iter();
        orders.filter(|order| !Form::Old.can_tell(order))
    }

    fn meet(
        &self,
        coverage: &mut Coverage,
        meetings: &[(&str, Meets)],
        name: impl Fn(&str) -> String,
    ) {
        for (meeting, meets) in meetings {
            if meets(self) {
                coverage.note(name(meeting));
            }
        }
    }
}

/// Whether this is the only order that the old form can't tell.
fn is_only(scene: &Scene, order: Option<&Order>) -> bool {
    scene.untold().eq(order)
}

pub fn expect(coverage: &mut Coverage) {
    for call in CALLS {
        for (meeting, _) in ACCEPTED {
            coverage.expect(accepted(call, meeting));
        }
        for &refusal in super::refusals_of(call) {
            for (meeting, _) in UNFIT {
                coverage.expect(unfit(call, refusal, meeting));
            }
        }
        for (damage, _) in damage::all(call.form()) {
            coverage.expect(refused_damage(call, damage));
        }
        coverage.expect(returned(call));
        for (what, ..) in UNTOLD_BYTES {
            coverage.expect(told(call, &unsound_with(what)));
            coverage.expect(told(call, &unsound_and_unfit(what)));
        }
    }
    for sort in [RESERVES, SECOND] {
        for (meeting, _) in UNTOLD {
            coverage.expect(untold(sort, meeting));
        }
    }
    coverage.expect(untold(RESERVES, NOTHING_HIDDEN));
    coverage.expect(untold(BOTH, "some"));
}

fn unsound_with(what: &str) -> String {
    format!("refused 2 with {what}")
}

fn unsound_and_unfit(what: &str) -> String {
    format!("{} and an unfit target", unsound_with(what))
}

fn told(call: Call, what: &str) -> String {
    format!("{}: {what}", call.name())
}

fn accepted(call: Call, meeting: &str) -> String {
    told(call, &format!("accepted, {meeting}"))
}

fn unfit(call: Call, refusal: usize, meeting: &str) -> String {
    told(call, &format!("refused {refusal}, a target of {meeting}"))
}

fn untold(sort: &str, meeting: &str) -> String {
    told(Call::ToOld, &format!("refused 11, {sort}: {meeting}"))
}

pub fn refused_damage(call: Call, damage: &str) -> String {
    told(call, &format!("damaged book refused: {damage}"))
}

/// The book came back the same.
pub fn returned(call: Call) -> String {
    told(call, "and back")
}

/// Notes a call that turns a book into the other form.
pub fn note(coverage: &mut Coverage, entry: &Entry, refusal: usize) {
    let call = entry.call;
    let scene = Scene::of(entry);
    if refusal == 0 {
        scene.meet(coverage, &ACCEPTED, |meeting| accepted(call, meeting));
        return;
    }
    scene.meet(coverage, &UNFIT, |meeting| unfit(call, refusal, meeting));
    match refusal {
        2 => note_unsound(coverage, entry, &scene),
        11 => note_untold(coverage, &scene),
        _ => {}
    }
}

/// Notes an unsound book that has what the old form can't tell.
fn note_unsound(coverage: &mut Coverage, entry: &Entry, scene: &Scene) {
    for (what, place, byte) in UNTOLD_BYTES {
        let mut records = entry.book.chunks_exact(scene.from);
        if records.any(|record| record[place] == byte) {
            coverage.note(told(entry.call, &unsound_with(what)));
            let form = entry.call.form().other();
            let unfit = !form.allows_length(scene.length) || scene.room() < scene.used;
            coverage.note_if(unfit, &told(entry.call, &unsound_and_unfit(what)));
        }
    }
}

/// Notes a book that is refused 11.
fn note_untold(coverage: &mut Coverage, scene: &Scene) {
    let reserves = scene.untold().any(is_reserve);
    let second = scene.untold().any(|order| order.security == 1);
    if reserves && second {
        coverage.note(untold(BOTH, "some"));
        return;
    }
    let sort = if reserves { RESERVES } else { SECOND };
    scene.meet(coverage, &UNTOLD, |meeting| untold(sort, meeting));
    let nothing_hidden = scene.untold().all(|order| order.hidden() == 0);
    if reserves && nothing_hidden {
        coverage.note(untold(RESERVES, NOTHING_HIDDEN));
    }
}
