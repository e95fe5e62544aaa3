//! The groups of rounds that a run has.

use crate::caller::Caller;
use crate::rounds::Group;
use books::{Making, Shape, Sizes};
use model::book::Side;

/// How often displayed, non-displayed, minimum quantity and reserve orders come.
const EVEN: [usize; 4] = [1, 1, 1, 1];
const MOSTLY_DISPLAYED: [usize; 4] = [8, 1, 1, 3];
const MOSTLY_RESERVE: [usize; 4] = [1, 1, 1, 6];
const ONLY_RESERVE: [usize; 4] = [0, 0, 0, 1];

/// How often check, find, add, reduce, take and ladder come.
const MIXED: [usize; 6] = [1, 2, 4, 2, 4, 0];
const MOSTLY_ADD: [usize; 6] = [1, 1, 12, 2, 2, 0];
const MOSTLY_TAKE: [usize; 6] = [1, 1, 2, 1, 8, 0];
const ONLY_TAKE: [usize; 6] = [0, 0, 0, 0, 1, 0];
const LADDERS: [usize; 6] = [0, 0, 4, 3, 4, 1];

fn group(name: &'static str, making: Making, mix: [usize; 6], calls: usize) -> Group {
    Group {
        name,
        making,
        kinds: EVEN,
        reshape: |_| {},
        caller: Caller {
            mix,
            keeps_ladder: false,
            for_best: false,
            wrong: 40,
            algorithms: [1, 1, 1],
        },
        calls,
        one_in: 1,
    }
}

pub fn all() -> Vec<Group> {
    let mut minimums = group("minimum quantity orders", Making::Built, MOSTLY_TAKE, 6);
    minimums.kinds = [1, 2, 8, 1];
    let mut large = group("large sizes", Making::Built, MIXED, 10);
    large.reshape = |shape| shape.sizes = Sizes::Large;
    let mut wrong = group("wrong numbers", Making::Grown, MIXED, 20);
    wrong.caller.wrong = 2;
    let [setters, marks, equals] = setter_groups();
    let mut groups = vec![
        group("books filled from empty", Making::Empty, MOSTLY_ADD, 40),
        group("books grown by add", Making::Grown, MIXED, 15),
        group("books built record by record", Making::Built, MIXED, 10),
        group(
            "full books and nearly full ones",
            Making::Full,
            MOSTLY_TAKE,
            6,
        ),
        group("books of no or few records", Making::Tiny, MIXED, 15),
        setters,
        marks,
        equals,
        minimums,
        large,
        wrong,
        group("damaged books", Making::Damaged, MIXED, 12),
    ];
    groups.extend(ladder_groups());
    groups.extend(leaving_groups());
    groups.extend(reserve_groups());
    groups
}

/// The groups whose books have mostly reserve orders, or no others.
fn reserve_groups() -> Vec<Group> {
    let reserves = |name, making, mix, calls| {
        let mut reserves = group(name, making, mix, calls);
        reserves.kinds = MOSTLY_RESERVE;
        reserves
    };
    let mut ladders = reserves("reserve orders with ladders", Making::Grown, LADDERS, 10);
    ladders.caller.keeps_ladder = true;
    let mut built = reserves("ladders of reserve orders", Making::Built, LADDERS, 8);
    built.caller.keeps_ladder = true;
    let mut large = reserves("large reserve orders", Making::Built, LADDERS, 6);
    large.caller.keeps_ladder = true;
    large.reshape = |shape| shape.sizes = Sizes::Large;
    // A take for all of such a book executes every order twice.
    let full = |name| {
        let mut full = reserves(name, Making::Full, ONLY_TAKE, 2);
        full.kinds = ONLY_RESERVE;
        full.reshape = |shape| {
            shape.choose();
            shape.levels = 1;
            shape.sides = [shape.sides[0]; 2];
            shape.always_hides = true;
        };
        full.caller.for_best = true;
        full.one_in = 4;
        full
    };
    let mut full_ladders = full("ladders of full books of reserve orders");
    full_ladders.caller.keeps_ladder = true;
    vec![
        reserves("reserve orders", Making::Built, MOSTLY_TAKE, 10),
        reserves("reserve orders grown by add", Making::Grown, MIXED, 10),
        full("full books of reserve orders"),
        ladders,
        built,
        large,
        full_ladders,
    ]
}

/// The groups whose takes are for orders that were chosen to leave, and behind
/// these for the best price that is left.
fn leaving_groups() -> [Group; 2] {
    let leaving = |name| {
        let mut leaving = group(name, Making::Chosen, ONLY_TAKE, 2);
        leaving.reshape = Shape::choose;
        leaving.caller.for_best = true;
        leaving
    };
    let mut keeping = leaving("chosen orders leave beside a ladder");
    keeping.caller.keeps_ladder = true;
    keeping.one_in = 2;
    [leaving("chosen orders leave"), keeping]
}

/// The groups that keep a ladder beside the book.
fn ladder_groups() -> Vec<Group> {
    let keeping = |name, making, calls| {
        let mut keeping = group(name, making, LADDERS, calls);
        keeping.caller.keeps_ladder = true;
        keeping
    };
    // Full books take long, above all those of many prices.
    let full = |name, making, reshape, one_in| {
        let mut full = keeping(name, making, 8);
        full.reshape = reshape;
        full.one_in = one_in;
        full
    };
    let one_of_sells: fn(&mut Shape) = |shape| {
        shape.levels = 1;
        shape.sides = [Side::Sell; 2];
    };
    let one_of_buys: fn(&mut Shape) = |shape| {
        shape.levels = 1;
        shape.sides = [Side::Buy; 2];
    };
    let mut filled = keeping("ladders of books filled from empty", Making::Empty, 30);
    filled.caller.mix = [0, 0, 12, 2, 2, 1];
    let mut wrong = keeping("ladders and wrong numbers", Making::Grown, 10);
    wrong.caller.wrong = 2;
    vec![
        filled,
        keeping("ladders of books grown by add", Making::Grown, 15),
        keeping("ladders of books built by record", Making::Built, 10),
        full("ladders of full books", Making::Full, |_| {}, 3),
        full("ladders of 256 rows", Making::Spread, Shape::spread, 5),
        full("ladders of a row of sells", Making::Full, one_of_sells, 3),
        full("ladders of a row of buys", Making::Full, one_of_buys, 3),
        keeping("ladders of tiny books", Making::Tiny, 10),
        wrong,
        keeping("ladders of damaged books", Making::Damaged, 10),
    ]
}

/// The groups whose takes are mostly by the price-setter variation.
fn setter_groups() -> [Group; 3] {
    let mut setters = group("price setters", Making::Grown, MOSTLY_TAKE, 8);
    setters.kinds = MOSTLY_DISPLAYED;
    setters.caller.algorithms = [1, 1, 6];
    let mut marks = group("setter marks at every price", Making::Built, MOSTLY_TAKE, 5);
    marks.kinds = MOSTLY_DISPLAYED;
    marks.caller.algorithms = [0, 0, 1];
    let mut equals = group("setters among equal sizes", Making::Few, MOSTLY_TAKE, 5);
    equals.kinds = MOSTLY_DISPLAYED;
    equals.reshape = |shape| {
        shape.sizes = Sizes::Alike;
        shape.levels = 1;
    };
    equals.caller.algorithms = [0, 0, 1];
    [setters, marks, equals]
}
