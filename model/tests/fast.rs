//! The fast calls against the plain ones on random books: the same numbers, and
//! the same bytes in every buffer.

use model::book::{
    self, Kind, Order, HIGHEST_PRICE, LARGEST_SIZE, LONGEST_BOOK, MOST_ORDERS, RECORD_LENGTH,
    SECURITIES,
};
use model::ladder::ROW_LENGTH;
use model::{fast, LADDER_LENGTH};
use support::Random;

const SEED: u64 = 3307;

/// What the orders of a book look like.
struct Shape {
    /// How many prices there are, from the lowest on.
    levels: u32,
    lowest: u32,
    /// How often displayed, non-displayed, minimum quantity and reserve orders
    /// come.
    kinds: [usize; 4],
    largest: u32,
    /// How often orders of each security come.
    securities: [usize; 2],
}

impl Shape {
    fn random(random: &mut Random) -> Shape {
        let levels = random.one_of(&[1, 1, 2, 5, 300]);
        Shape {
            levels,
            lowest: random.one_of(&[1, 100_000, HIGHEST_PRICE - levels]),
            kinds: random.one_of(&[
                [1, 1, 1, 0],
                [1, 1, 1, 1],
                [6, 1, 1, 1],
                [1, 1, 6, 1],
                [1, 0, 0, 0],
                [1, 1, 1, 6],
                [0, 0, 0, 1],
            ]),
            largest: random.one_of(&[130, 400, 1_000, 1_000, LARGEST_SIZE]),
            securities: random.one_of(&[[1, 0], [1, 1], [1, 1], [7, 1], [0, 1]]),
        }
    }

    fn price(&self, random: &mut Random) -> u32 {
        random.within(self.lowest..=self.lowest + self.levels)
    }

    fn size(&self, random: &mut Random) -> u32 {
        let size = random.within(1..=self.largest);
        let lots = size / 100 * 100;
        random.one_of(&[size, size, lots.max(1), (lots + 50).min(LARGEST_SIZE)])
    }

    /// The numbers that add takes.
    fn order(&self, random: &mut Random, number: u32) -> [u32; 9] {
        let side = random.within(1..=2);
        let kind = random.weighted(&self.kinds) as u32 + 1;
        let price = self.price(random);
        let size = self.size(random);
        let (minimum, hidden, refresh) = match kind {
            3 => (random.within(1..=size), 0, 0),
            4 => (0, self.size(random) * random.within(0..=1), size),
            _ => (0, 0, 0),
        };
        let security = random.weighted(&self.securities) as u32;
        [
            side, kind, number, price, size, minimum, hidden, refresh, security,
        ]
    }

    /// A sound book, the marks of which may be where add sets none, and the refresh
    /// sizes of which may be other than what is shown.
    fn book(&self, random: &mut Random, records: usize, free: usize) -> Vec<u8> {
        let marks = random.one_of(&[0, 1, 3]);
        let mut orders: Vec<Order> = Vec::new();
        let mut number = random.one_of(&[1, 1_000, u32::MAX - 3 * MOST_ORDERS as u32]);
        for _ in 0..records.saturating_sub(free) {
            let order = Order::of_numbers(self.order(random, number));
            let mut order = order.expect("numbers within their ranges");
            if let Kind::Reserve { refresh, .. } = &mut order.kind {
                let another = self.size(random);
                *refresh = random.one_of(&[order.size, another]);
            }
            let rival = |other: &Order| {
                let level = |order: &Order| (order.security, order.side, order.price);
                other.setter && level(other) == level(&order)
            };
            order.setter =
                order.is_displayed() && random.once_in(marks) && !orders.iter().any(rival);
            orders.push(order);
            number += random.within(1..=3);
        }
        let mut book = vec![0; records * RECORD_LENGTH];
        book::write(&mut book, &orders);
        book
    }
}

/// Spoils a book, most times.
fn damage(random: &mut Random, book: &mut Vec<u8>) {
    match random.below(9) {
        0 => book.resize(book.len() + random.one_of(&[1, 8, 32, 39, 40, 41]), 0),
        1 => book.resize(LONGEST_BOOK + random.one_of(&[1, 32, 40, 4_096]), 0),
        2 if book.len() >= 2 * RECORD_LENGTH => {
            let records = book.len() / RECORD_LENGTH;
            let (from, to) = (random.below(records), random.below(records));
            let record = from * RECORD_LENGTH..(from + 1) * RECORD_LENGTH;
            book.copy_within(record, to * RECORD_LENGTH);
        }
        3 => {
            let records = book.chunks_exact_mut(RECORD_LENGTH);
            records.for_each(|record| record[20] = u8::from([1, 4].contains(&record[3])));
        }
        4 if !book.is_empty() => {
            let place = random.below(book.len() / RECORD_LENGTH);
            book[place * RECORD_LENGTH + 21] ^= random.one_of(&[1, 1, 2, 3, 255]);
        }
        _ if book.is_empty() => book.push(0),
        _ => {
            let place = random.below(book.len());
            book[place] = random.one_of(&[0, 1, 2, 3, 4, 5, 0x42, 0x43, 0x4F, 127, 128, 255]);
        }
    }
}

/// A number that is mostly the one given, and seldom one at an edge.
fn mostly(random: &mut Random, number: u32) -> u32 {
    let edges = [
        0,
        1,
        2,
        4,
        LARGEST_SIZE + 1,
        HIGHEST_PRICE,
        HIGHEST_PRICE + 1,
        u32::MAX,
    ];
    match random.once_in(60) {
        true => random.one_of(&edges),
        false => number,
    }
}

/// What a random call on a book goes by.
struct Known {
    orders: Vec<Order>,
    /// One of them, if there is any.
    one: Option<Order>,
}

impl Known {
    fn of(random: &mut Random, book: &[u8]) -> Known {
        let orders = book::read(book).unwrap_or_default();
        let one = orders.get(random.below(orders.len().max(1))).copied();
        Known { orders, one }
    }

    /// A security: mostly that of the one order.
    fn security(&self, random: &mut Random) -> u32 {
        let any = random.within(0..=SECURITIES - 1);
        let own = self.one.map_or(any, |order| order.security);
        let security = random.one_of(&[own, own, own, any]);
        mostly(random, security)
    }

    /// Security and number.
    fn find(&self, random: &mut Random) -> [u32; 2] {
        let number = mostly(random, self.one.map_or(1, |order| order.number));
        [self.security(random), number]
    }

    /// The numbers that add takes.
    fn add(&self, random: &mut Random, shape: &Shape) -> [u32; 9] {
        let last = self.orders.last().map_or(0, |order| order.number);
        let order = shape.order(random, last.saturating_add(1));
        order.map(|number| mostly(random, number))
    }

    /// Security, number and shares.
    fn reduce(&self, random: &mut Random) -> [u32; 3] {
        let (number, size, hidden) = self.one.map_or((1, 1, 0), |order| {
            (order.number, order.size, order.hidden())
        });
        let all = size + hidden;
        let shares = [1, size, size / 2 + 1, hidden, hidden + 1, all, all + 1];
        let shares = random.one_of(&shares).clamp(1, LARGEST_SIZE);
        let [number, shares] = [number, shares].map(|number| mostly(random, number));
        [self.security(random), number, shares]
    }

    /// Side, limit, size, algorithm and security.
    fn take(&self, random: &mut Random, shape: &Shape) -> [u32; 5] {
        let total: u32 = self.orders.iter().map(Order::shares).sum();
        let part = random.within(1..=total.clamp(1, LARGEST_SIZE));
        let size = random.one_of(&[part, part / 2 + 1, part / 8 + 1, shape.largest, 99]);
        let (side, limit) = (random.within(1..=2), shape.price(random));
        let algorithm = random.within(1..=3);
        let security = self.security(random);
        [side, limit, size, algorithm, security].map(|number| mostly(random, number))
    }
}

/// An execution buffer that is often too small.
fn execution_buffer(random: &mut Random) -> Vec<u8> {
    vec![0xEE; random.one_of(&[0, 1, 16, 40, 100, 1_000, 4_096, 8_191, 8_192, 9_000])]
}

/// One call by both, on copies of the same bytes. Leaves the book as they do.
fn agree(random: &mut Random, shape: &Shape, book: &mut Vec<u8>) {
    let known = Known::of(random, book);
    let mut fast_book = book.clone();
    match random.weighted(&[1, 2, 3, 3, 6]) {
        0 => {
            let security = known.security(random);
            assert_eq!(model::check(book, security), fast::check(book, security));
        }
        1 => {
            let [security, number] = known.find(random);
            let plain = model::find(book, security, number);
            assert_eq!(plain, fast::find(book, security, number));
        }
        2 => {
            let order = known.add(random, shape);
            assert_eq!(model::add(book, order), fast::add(&mut fast_book, order));
        }
        3 => {
            let [security, number, shares] = known.reduce(random);
            let plain = model::reduce(book, security, number, shares);
            let fast = fast::reduce(&mut fast_book, security, number, shares);
            assert_eq!(plain, fast);
        }
        _ => {
            let incoming = known.take(random, shape);
            let mut buffer = execution_buffer(random);
            let mut fast_buffer = buffer.clone();
            let plain = model::take(book, &mut buffer, incoming);
            let fast = fast::take(&mut fast_book, &mut fast_buffer, incoming);
            assert_eq!(plain, fast, "{incoming:?}");
            assert_eq!(buffer, fast_buffer);
        }
    }
    assert_eq!(*book, fast_book);
}

/// The three buffers of a take that keeps a ladder.
#[derive(Clone, PartialEq)]
struct Lent {
    book: Vec<u8>,
    executions: Vec<u8>,
    ladder: Vec<u8>,
}

#[derive(Clone, Copy, Debug)]
enum Form {
    New([u32; 1]),
    Add([u32; 9]),
    Reduce([u32; 3]),
    Take([u32; 5]),
}

impl Form {
    /// A form, mostly for the security whose ladder is kept.
    fn random(random: &mut Random, shape: &Shape, book: &[u8], security: u32) -> Form {
        let known = Known::of(random, book);
        let mut form = match random.weighted(&[1, 3, 3, 4]) {
            0 => Form::New([security]),
            1 => Form::Add(known.add(random, shape)),
            2 => Form::Reduce(known.reduce(random)),
            _ => Form::Take(known.take(random, shape)),
        };
        if !random.once_in(8) {
            *form.security() = security;
        }
        form
    }

    fn security(&mut self) -> &mut u32 {
        match self {
            Form::New([security])
            | Form::Add([.., security])
            | Form::Reduce([security, ..])
            | Form::Take([.., security]) => security,
        }
    }

    /// What the plain model answers.
    fn plain(self, lent: &mut Lent) -> (u32, u32, u32) {
        let Lent {
            book,
            executions,
            ladder,
        } = lent;
        match self {
            Form::New([security]) => (model::ladder(book, ladder, security), 0, 0),
            Form::Add(order) => (model::add_ladder(book, ladder, order), 0, 0),
            Form::Reduce([security, number, shares]) => {
                let refusal = model::reduce_ladder(book, ladder, security, number, shares);
                (refusal, 0, 0)
            }
            Form::Take(incoming) => model::take_ladder(book, executions, ladder, incoming),
        }
    }

    /// What the fast model answers.
    fn fast(self, lent: &mut Lent) -> (u32, u32, u32) {
        let (book, ladder) = (&mut lent.book[..], &mut lent.ladder[..]);
        match self {
            Form::New([security]) => (fast::ladder(book, ladder, security), 0, 0),
            Form::Add(order) => (fast::add_ladder(book, ladder, order), 0, 0),
            Form::Reduce([security, number, shares]) => {
                let refusal = fast::reduce_ladder(book, ladder, security, number, shares);
                (refusal, 0, 0)
            }
            Form::Take(incoming) => fast::take_ladder(book, &mut lent.executions, ladder, incoming),
        }
    }
}

/// One call with a ladder by both. Leaves the buffers as they do, and gives the
/// refusal number.
fn agree_with_ladder(form: Form, lent: &mut Lent) -> u32 {
    let mut fast_lent = lent.clone();
    let plain = form.plain(lent);
    assert_eq!(plain, form.fast(&mut fast_lent), "{form:?}");
    assert!(*lent == fast_lent, "{form:?}: the bytes differ");
    plain.0
}

/// The ladder of a security, or zeros beside an unsound book.
fn new_ladder(book: &[u8], security: u32) -> Vec<u8> {
    let mut ladder = vec![0; LADDER_LENGTH];
    model::ladder(book, &mut ladder, security);
    ladder
}

/// Makes a ladder another one, or one of another length.
fn spoil_ladder(random: &mut Random, ladder: &mut Vec<u8>) {
    let rows = ladder.chunks(ROW_LENGTH).filter(|row| row[0] != 0).count();
    let near = random.below((rows + 1).min(256) * ROW_LENGTH);
    match random.below(6) {
        0 => ladder.resize(random.one_of(&[0, 24, 6_120, 6_143, 6_145, 6_168]), 0),
        1 => random.fill(ladder),
        2 => ladder[random.below(LADDER_LENGTH)] ^= 1,
        _ => ladder[near] ^= random.one_of(&[1, 2, 0x80]),
    }
}

/// So many books of a seed, and a row of calls on each.
fn agree_on_books(stream: u64, books: u32, spoilt: bool) {
    let mut random = Random::new(SEED, stream);
    for _ in 0..books {
        let shape = Shape::random(&mut random);
        let records = random.one_of(&[0, 1, 2, 5, 16, 17, 40, 64, 65, 200, MOST_ORDERS]);
        let free = random.one_of(&[0, 0, 1, records / 2, records]);
        let mut book = shape.book(&mut random, records, free);
        if spoilt {
            damage(&mut random, &mut book);
        }
        for _ in 0..6 {
            agree(&mut random, &shape, &mut book);
        }
    }
}

/// So many books of a seed, each with a row of calls that keep its ladder, some of
/// which are lent another one.
fn agree_on_ladders(stream: u64, books: u32, spoilt: bool) {
    let mut random = Random::new(SEED, stream);
    for _ in 0..books {
        let shape = Shape::random(&mut random);
        let records = random.one_of(&[0, 1, 5, 16, 17, 64, 65, MOST_ORDERS]);
        let free = random.one_of(&[0, 1, records / 2, records]);
        let mut book = shape.book(&mut random, records, free);
        if spoilt {
            damage(&mut random, &mut book);
        }
        let security = random.within(0..=SECURITIES - 1);
        let mut lent = Lent {
            ladder: new_ladder(&book, security),
            executions: Vec::new(),
            book,
        };
        for _ in 0..6 {
            let form = Form::random(&mut random, &shape, &lent.book, security);
            lent.executions = execution_buffer(&mut random);
            if random.once_in(5) {
                let mut wrong = lent.clone();
                spoil_ladder(&mut random, &mut wrong.ladder);
                agree_with_ladder(form, &mut wrong);
            }
            agree_with_ladder(form, &mut lent);
        }
    }
}

#[test]
fn fast_and_plain_keep_ladders_of_sound_books() {
    agree_on_ladders(4, 2_000, false);
}

#[test]
fn fast_and_plain_keep_ladders_of_damaged_books() {
    agree_on_ladders(5, 2_000, true);
}

/// A full book of security 1 whose orders have so many prices, and its ladder: of one
/// side, or buys and sells by turns, in no order.
fn full_ladder(levels: u32, sides: [u32; 2]) -> Lent {
    let orders: Vec<Order> = (0..MOST_ORDERS as u32)
        .map(|place| {
            let side = sides[place as usize % 2];
            let price = 100_000 + place * 161 % levels;
            let kinds = [[1, 0, 0, 0], [2, 0, 0, 0], [3, 40, 0, 0], [4, 0, 70, 50]];
            let [kind, minimum, hidden, refresh] = kinds[place as usize % 4];
            let (number, size) = (place + 1, 100 + place);
            Order::of_numbers([side, kind, number, price, size, minimum, hidden, refresh, 1])
                .expect("numbers within their ranges")
        })
        .collect();
    let mut book = vec![0; LONGEST_BOOK];
    book::write(&mut book, &orders);
    Lent {
        ladder: new_ladder(&book, 1),
        executions: vec![0xEE; 8_192],
        book,
    }
}

/// Every row leaves and comes again, and takes go through them up to the last.
#[test]
fn fast_and_plain_keep_full_ladders() {
    for levels in [1, 3, 256] {
        for sides in [[1, 1], [2, 2], [1, 2]] {
            let full = full_ladder(levels, sides);
            for place in 0..MOST_ORDERS as u32 {
                let mut lent = full.clone();
                let [number, size] = [place + 1, 100 + place];
                let reduce = Form::Reduce([1, number, size]);
                assert_eq!(agree_with_ladder(reduce, &mut lent), 0);
                let price = 100_000 + place * 161 % levels;
                let side = sides[place as usize % 2];
                let add = Form::Add([side, 2, 300, price, 50, 0, 0, 0, 1]);
                agree_with_ladder(add, &mut lent);
                let taker = 3 - sides[place as usize % 2];
                let limit = [100_300, 1][taker as usize - 1];
                let shares = place * 217 + 1;
                let take = Form::Take([taker, limit, shares, place % 3 + 1, 1]);
                assert_eq!(agree_with_ladder(take, &mut lent), 0);
            }
        }
    }
}

#[test]
fn fast_and_plain_agree_on_sound_books() {
    agree_on_books(1, 6_000, false);
}

#[test]
fn fast_and_plain_agree_on_damaged_books() {
    agree_on_books(2, 6_000, true);
}

/// One take by both, on copies of the same book.
fn agree_on_take(book: &[u8], incoming: [u32; 5]) {
    let mut copies = [book.to_vec(), book.to_vec()];
    let mut executions = [vec![0xEE; 8_192], vec![0xEE; 8_192]];
    let [plain, fast] = &mut copies;
    let [first, second] = &mut executions;
    let plain = model::take(plain, first, incoming);
    let fast = fast::take(fast, second, incoming);
    assert_eq!(plain, fast, "{incoming:?}");
    assert_eq!(copies[0], copies[1]);
    assert_eq!(executions[0], executions[1]);
}

/// A lot sharing of every small size shows each step of the rounding.
#[test]
fn fast_and_plain_agree_on_every_size_of_an_incoming_order() {
    let mut random = Random::new(SEED, 3);
    for largest in [250, 1_000, LARGEST_SIZE] {
        let shape = Shape {
            levels: 1,
            lowest: 100_000,
            kinds: [1, 1, 0, 1],
            largest,
            securities: [3, 1],
        };
        let book = shape.book(&mut random, 24, 0);
        for size in 1..2_000 {
            for algorithm in 1..=3 {
                agree_on_take(&book, [1, 200_000, size, algorithm, 0]);
            }
        }
    }
}

/// Kind, size and minimum of the orders of small books, each of which tells one
/// sentence on sharing from another reading of it. A reserve order has what it
/// hides in the minimum's place.
const TELLING_BOOKS: &[&[[u32; 3]]] = &[
    // Lot sharing: whole lots first, then the rest by entry size, a lot at most.
    &[[1, 100, 0], [1, 300, 0], [1, 200, 0]],
    &[[2, 100, 0], [2, 300, 0], [2, 200, 0]],
    &[[1, 300, 0], [1, 250, 0]],
    &[[2, 300, 0], [2, 250, 0]],
    &[[1, 250, 0], [1, 150, 0], [1, 150, 0]],
    &[[2, 250, 0], [2, 150, 0], [2, 150, 0]],
    &[[1, 200, 0], [1, 300, 0], [1, 300, 0]],
    &[[2, 200, 0], [2, 300, 0], [2, 300, 0]],
    &[[1, 150, 0], [1, 150, 0]],
    &[[2, 150, 0], [2, 150, 0]],
    // A lot has 100 shares.
    &[[1, 99, 0], [1, 300, 0]],
    &[[2, 99, 0], [2, 300, 0]],
    // Below a lot the largest first, equal ones by time.
    &[[1, 40, 0], [1, 60, 0]],
    &[[2, 30, 0], [2, 60, 0]],
    &[[1, 50, 0], [1, 60, 0], [1, 60, 0]],
    &[[2, 50, 0], [2, 60, 0], [2, 60, 0]],
    // The smallest minimum first, whatever the size, equal ones by time.
    &[[3, 500, 200], [3, 400, 100]],
    &[[3, 400, 200], [3, 500, 100]],
    &[[3, 300, 100], [3, 400, 100]],
    &[[3, 400, 100], [3, 300, 100]],
    &[[3, 60, 30], [3, 200, 20]],
    &[[3, 200, 30], [3, 60, 20]],
    &[[3, 200, 100], [3, 200, 150]],
    &[[2, 60, 0], [3, 50, 20]],
    &[[3, 200, 100], [2, 300, 0]],
    &[[3, 300, 200]],
    &[[3, 300, 300], [3, 100, 100], [2, 30, 0]],
    // All paragraphs, the last first.
    &[
        [2, 60, 0],
        [3, 100, 70],
        [2, 100, 0],
        [1, 60, 0],
        [1, 100, 0],
    ],
    // A setter, and none.
    &[[1, 1_000, 0], [1, 3_000, 0], [1, 1_000, 0]],
    &[[1, 150, 0], [1, 100, 0], [1, 150, 0]],
    &[[1, 300, 0], [1, 250, 0], [1, 250, 0], [1, 200, 0]],
    &[[1, 300, 0], [1, 900, 0]],
    &[[1, 50, 0], [1, 200, 0], [1, 800, 0]],
    // Reserve orders: two parts, each in its own paragraph, and a refresh.
    &[[4, 100, 250], [1, 300, 0]],
    &[[4, 100, 60], [2, 200, 0]],
    &[[4, 50, 150], [1, 200, 0]],
    &[[2, 50, 0], [4, 100, 250], [2, 70, 0]],
    &[[4, 100, 500], [1, 900, 0]],
    &[[4, 300, 100], [4, 100, 300]],
    &[[4, 40, 99], [4, 60, 100], [3, 100, 70]],
];

#[test]
fn fast_and_plain_agree_on_telling_books() {
    for &orders in TELLING_BOOKS {
        let total: u32 = orders.iter().map(|order| order[1] + order[2]).sum();
        for (resting, incoming) in [(1, 2), (2, 1)] {
            let mut book = vec![0; orders.len() * RECORD_LENGTH];
            for (place, &[kind, size, third]) in orders.iter().enumerate() {
                let (minimum, hidden, refresh) = match kind {
                    4 => (0, third, size),
                    _ => (third, 0, 0),
                };
                let [number, price] = [place as u32 + 1, 100_000];
                let order = [
                    resting, kind, number, price, size, minimum, hidden, refresh, 0,
                ];
                assert_eq!(model::add(&mut book, order), 0);
            }
            for size in 1..=total + 1 {
                for algorithm in 1..=3 {
                    agree_on_take(&book, [incoming, 100_000, size, algorithm, 0]);
                }
            }
        }
    }
}
