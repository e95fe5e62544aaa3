//! What the orders of random books look like, and the making of sound books.

use model::book::{self, Form, Kind, Order, Side, HIGHEST_PRICE, LARGEST_SIZE, RECORD_LENGTH};
use support::Random;

/// Levels of a side in a book that has a price for each order; prime to the
/// strides by which they are gone through.
const SPREAD_LEVELS: u32 = 600;

#[derive(Clone, Copy)]
pub enum Sizes {
    /// 99, 100, 101, 150 and the like.
    AroundLots,
    /// Up to a little more than a round lot.
    OddLots,
    /// Mostly the usual size, or else somewhat more.
    Alike,
    /// Up to the largest size.
    Large,
}

/// Whether the order at a place is one of those that are better priced, in a book
/// of so many orders.
type Choice = fn(&mut Random, usize, usize) -> bool;

const CHOICES: [Choice; 8] = [
    |_, place, _| place % 2 == 0,
    |_, place, _| place % 2 == 1,
    |_, place, _| place == 0,
    |_, place, orders| place == orders / 2,
    |_, place, orders| place == orders - 1,
    |_, _, _| true,
    |random, _, _| random.once_in(2),
    |random, _, _| random.once_in(10),
];

/// What the orders of a book look like.
#[derive(Clone, Copy)]
pub struct Shape {
    /// How many prices a side has.
    pub levels: u32,
    pub sizes: Sizes,
    /// The size that most orders have if sizes are alike.
    pub usual: u32,
    /// How often displayed, non-displayed, minimum quantity and reserve orders
    /// come.
    pub kinds: [usize; 4],
    /// Whether every reserve order hides shares.
    pub always_hides: bool,
    /// The sides that orders have, one as often as the other.
    pub sides: [Side; 2],
    /// How often orders of each security come, at the same prices.
    pub securities: [usize; 2],
    /// Whether buys and sells have the same prices, or meet at one at most.
    pub overlap: bool,
    /// The lowest price of a buy, and the distance of two prices.
    pub lowest: u32,
    pub step: u32,
}

impl Shape {
    /// A shape of these kinds, the rest by chance. Where reserve orders are one kind
    /// of several, every other shape is without them.
    pub fn random(random: &mut Random, mut kinds: [usize; 4]) -> Shape {
        if kinds[..3] != [0; 3] && random.once_in(2) {
            kinds[3] = 0;
        }
        let levels = random.one_of(&[1, 1, 2, 3, 5, 40, 600]);
        let step = random.one_of(&[1, 100, 256]);
        let highest = highest_start(levels, step);
        Shape {
            levels,
            sizes: random.one_of(&[
                Sizes::AroundLots,
                Sizes::AroundLots,
                Sizes::AroundLots,
                Sizes::OddLots,
                Sizes::Alike,
                Sizes::Large,
            ]),
            usual: random.one_of(&[40, 99, 250, 500, 1_000]),
            kinds,
            always_hides: false,
            sides: [Side::Buy, Side::Sell],
            securities: random.one_of(&[[1, 0], [0, 1], [1, 1], [1, 1], [6, 1]]),
            overlap: random.once_in(3),
            lowest: random.one_of(&[1, 100_000, highest]),
            step,
        }
    }

    /// A shape of the kinds and securities that this form can tell, the rest by
    /// chance. In the new form many have none that the old one can't tell.
    pub fn in_form(random: &mut Random, form: Form) -> Shape {
        let (kinds, securities) = match form {
            Form::Old => ([1, 1, 1, 0], [1, 0]),
            Form::New => {
                let few_of_second = random.one_of(&[[1, 0], [1, 0], [1, 0], [12, 1]]);
                ([4, 4, 4, 1], few_of_second)
            }
        };
        Shape {
            securities,
            ..Shape::random(random, kinds)
        }
    }

    pub fn price(&self, random: &mut Random) -> u32 {
        self.lowest + self.step * random.within(0..=2 * self.levels - 2)
    }

    fn price_of_side(&self, random: &mut Random, side: Side) -> u32 {
        self.price_at(side, random.within(0..=self.levels - 1))
    }

    /// The price of a side's level.
    fn price_at(&self, side: Side, level: u32) -> u32 {
        match side {
            Side::Sell if !self.overlap => self.lowest + self.step * (self.levels - 1 + level),
            _ => self.lowest + self.step * level,
        }
    }

    /// The price so many levels behind a side's best.
    fn price_behind_best(&self, side: Side, levels: u32) -> u32 {
        match side {
            Side::Buy => self.price_at(side, self.levels - 1 - levels),
            Side::Sell => self.price_at(side, levels),
        }
    }

    pub fn size(&self, random: &mut Random) -> u32 {
        match self.sizes {
            Sizes::AroundLots => {
                let lots = random.one_of(&[1, 1, 2, 2, 3, 4, 5, 10]);
                100 * lots - 50 + random.one_of(&[0, 49, 50, 50, 51, 99, 100, 101])
            }
            Sizes::OddLots => random.within(1..=130),
            Sizes::Alike => self.usual + random.one_of(&[0, 0, 0, 0, 0, 0, 1, 50]),
            Sizes::Large => {
                random.one_of(&[LARGEST_SIZE, LARGEST_SIZE - 1, 500_000, 100_050])
                    - random.within(0..=1_000) * random.within(0..=1)
            }
        }
    }

    /// The numbers of an order, as add takes them.
    pub fn order(&self, random: &mut Random, number: u32) -> [u32; 9] {
        let side = random.one_of(&self.sides);
        let kind = random.weighted(&self.kinds) as u32 + 1;
        let price = self.price_of_side(random, side);
        let size = self.size(random);
        let any = random.within(1..=size);
        let (minimum, hidden, refresh) = match kind {
            3 => {
                let minimums = [1, size, 100.min(size), 200.min(size), any, any];
                (random.one_of(&minimums), 0, 0)
            }
            4 => (0, self.hidden(random, size), size),
            _ => (0, 0, 0),
        };
        let side = side as u32;
        let security = random.weighted(&self.securities) as u32;
        [
            side, kind, number, price, size, minimum, hidden, refresh, security,
        ]
    }

    /// What a reserve order hides that shows so many shares.
    fn hidden(&self, random: &mut Random, shown: u32) -> u32 {
        let below_a_lot = random.within(1..=99);
        let any = self.size(random);
        match random.below(6) {
            0 if !self.always_hides => 0,
            1 => shown,
            2 => below_a_lot,
            3 => shown.div_ceil(2),
            _ => any,
        }
    }

    /// A sound book of so many records, so many of them orders, written record
    /// by record: sides may overlap, and marks may be where add sets none.
    pub fn built_book(&self, random: &mut Random, records: usize, orders: usize) -> Vec<u8> {
        let placed = self.orders(random, orders);
        marked_book(random, records, placed)
    }

    /// As a built book, but every order has a price of its own. The shape has as
    /// many levels as orders, or more.
    pub fn spread_book(&self, random: &mut Random, records: usize, orders: usize) -> Vec<u8> {
        let mut placed = self.orders(random, orders);
        let stride = random.one_of(&[1, 7, 11, SPREAD_LEVELS - 1]);
        for (order, place) in placed.iter_mut().zip(0..) {
            order.price = self.price_at(order.side, place * stride % SPREAD_LEVELS);
        }
        marked_book(random, records, placed)
    }

    /// As a built book, but some orders of a side are better priced than all its
    /// others; they may be all that there are of their security. The shape has several
    /// levels.
    pub fn chosen_book(&self, random: &mut Random, records: usize, orders: usize) -> Vec<u8> {
        let mut placed = self.orders(random, orders);
        let side = random.one_of(&self.sides);
        let choice = random.one_of(&CHOICES);
        let apart = !self.securities.contains(&0) && random.once_in(2);
        for (place, order) in placed.iter_mut().enumerate() {
            let chosen = choice(random, place, orders);
            if apart {
                order.security = u32::from(chosen);
            }
            let levels = match chosen {
                true => {
                    order.side = side;
                    0
                }
                false => random.within(1..=self.levels - 1),
            };
            order.price = self.price_behind_best(order.side, levels);
        }
        marked_book(random, records, placed)
    }

    /// So many orders, by rising number and without marks.
    fn orders(&self, random: &mut Random, orders: usize) -> Vec<Order> {
        let mut next = random.one_of(&[1, 1_000, u32::MAX - 3 * 256]);
        let mut placed: Vec<Order> = Vec::new();
        for _ in 0..orders {
            placed.push(self.placed(random, next));
            next += random.within(1..=3);
        }
        placed
    }

    /// An order that stands in a book without a mark. The refresh size of a reserve
    /// order may be another than what it shows.
    fn placed(&self, random: &mut Random, number: u32) -> Order {
        let order = Order::of_numbers(self.order(random, number));
        let mut order = order.expect("numbers within their ranges");
        if let Kind::Reserve { refresh, .. } = &mut order.kind {
            let another = self.size(random);
            *refresh = random.one_of(&[order.size, order.size, another, 1]);
        }
        order
    }

    /// The orders of a security that have these numbers, some of them marked.
    pub fn of_security(&self, random: &mut Random, security: u32, numbers: &[u32]) -> Vec<Order> {
        let order = |&number: &u32| Order {
            security,
            ..self.placed(random, number)
        };
        let mut orders: Vec<Order> = numbers.iter().map(order).collect();
        set_marks(random, &mut orders);
        orders
    }

    /// Makes room for a book in which every order has a price of its own.
    pub fn spread(&mut self) {
        self.set_levels(SPREAD_LEVELS);
    }

    /// Makes room for a book in which some orders are better priced than others, and
    /// of which a take can fill every order.
    pub fn choose(&mut self) {
        self.set_levels(self.levels.max(2));
        if matches!(self.sizes, Sizes::Large) {
            self.sizes = Sizes::AroundLots;
        }
    }

    fn set_levels(&mut self, levels: u32) {
        self.levels = levels;
        self.lowest = self.lowest.min(highest_start(levels, self.step));
    }

    /// A book of so many records after so many tries to add an order.
    pub fn grown_book(&self, random: &mut Random, records: usize, tries: usize) -> Vec<u8> {
        let mut book = vec![0; records * RECORD_LENGTH];
        for number in 1..=tries as u32 {
            model::add(&mut book, self.order(random, number));
        }
        book
    }
}

/// The highest price from which the levels of both sides have room.
fn highest_start(levels: u32, step: u32) -> u32 {
    HIGHEST_PRICE - 2 * levels * step
}

/// A book of these orders, some of them marked.
fn marked_book(random: &mut Random, records: usize, mut orders: Vec<Order>) -> Vec<u8> {
    set_marks(random, &mut orders);
    let mut book = vec![0; records * RECORD_LENGTH];
    book::write(&mut book, &orders);
    book
}

/// Marks some displayed orders, at most one of a security, side and price: none, the
/// first or the last of each, or one by chance.
fn set_marks(random: &mut Random, orders: &mut [Order]) {
    let once_in = random.one_of(&[0, 1, 2, 5]);
    let mut places: Vec<usize> = (0..orders.len()).collect();
    if random.once_in(2) {
        places.reverse();
    }
    for place in places {
        orders[place].setter = orders[place].is_displayed()
            && random.once_in(once_in)
            && !orders
                .iter()
                .any(|other| is_rival_setter(other, &orders[place]));
    }
}

/// Whether a marked order has the security, side and price of another.
fn is_rival_setter(marked: &Order, order: &Order) -> bool {
    let level = |order: &Order| (order.security, order.side, order.price);
    marked.setter && level(marked) == level(order)
}
