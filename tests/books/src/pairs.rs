//! Pairs of sound books that have the same records of one security, and otherwise
//! as much apart as chance will have it.

use crate::shapes::Shape;
use model::book::{self, Order, MOST_ORDERS, RECORD_LENGTH};
use support::Random;

/// Two books with the same records of a security.
pub struct Pair {
    pub security: u32,
    pub books: [Vec<u8>; 2],
}

/// Where the orders of the other security stand in a book.
#[derive(Clone, Copy)]
enum Others {
    Nowhere,
    Between,
    Behind,
    /// Between and behind, as many as there is room for.
    Everywhere,
}

const OTHERS: [Others; 6] = [
    Others::Nowhere,
    Others::Between,
    Others::Between,
    Others::Between,
    Others::Behind,
    Others::Everywhere,
];

/// Numbers that are free before each of the security's orders and behind the last.
const ROOM: u32 = 40;

impl Pair {
    /// Two books of a shape, whose securities don't count.
    pub fn random(random: &mut Random, shape: &Shape) -> Pair {
        let security = random.within(0..=1);
        let count = random.one_of(&[0, 1, 2, 3, 5, 8, 16, 40, 120]);
        let numbers: Vec<u32> = (1..=count).map(|place| place * ROOM).collect();
        let own = shape.of_security(random, security, &numbers);
        let books = [(); 2].map(|()| {
            let others = random.one_of(&OTHERS);
            beside(random, shape, &own, 1 - security, others)
        });
        Pair { security, books }
    }
}

/// A book of these orders, and of some of the other security.
fn beside(
    random: &mut Random,
    shape: &Shape,
    own: &[Order],
    security: u32,
    others: Others,
) -> Vec<u8> {
    let numbers = other_numbers(random, own, others);
    let mut orders = shape.of_security(random, security, &numbers);
    orders.extend(own);
    orders.sort_by_key(|order| order.number);
    let free = random.one_of(&[0, 1, 2, 20, MOST_ORDERS]);
    let records = (orders.len() + free).min(MOST_ORDERS);
    let mut book = vec![0; records * RECORD_LENGTH];
    book::write(&mut book, &orders);
    book
}

/// Rising numbers for orders of the other security, none of which is taken.
fn other_numbers(random: &mut Random, own: &[Order], others: Others) -> Vec<u32> {
    let room = MOST_ORDERS - own.len();
    let last = own.last().map_or(0, |order| order.number);
    let (numbers, most) = match others {
        Others::Nowhere => return Vec::new(),
        Others::Between => (1..=last + 1, 2 * own.len() + 3),
        Others::Behind => (last + 1..=last + 60, 9),
        Others::Everywhere => (1..=last + 8 * ROOM, MOST_ORDERS),
    };
    let free: Vec<u32> = numbers.filter(|number| number % ROOM > 0).collect();
    let most = most.min(room).min(free.len());
    let mut count = match others {
        Others::Everywhere => most,
        _ => random.below(most + 1),
    };
    let mut chosen = Vec::new();
    for (place, &number) in free.iter().enumerate() {
        if random.below(free.len() - place) < count {
            chosen.push(number);
            count -= 1;
        }
    }
    chosen
}
