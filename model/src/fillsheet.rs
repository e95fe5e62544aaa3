//! The fillsheet: a text of adds, reduces and takes, and what comes of them. It
//! trades one security.

use crate::book::LONGEST_BOOK;
use crate::{calls, take, Refusal};
use std::io::Write;

/// More input than this is refused whole.
pub const LONGEST_INPUT: usize = 65_536;
const EXECUTIONS_LENGTH: usize = 4_096;
const SECURITY: u32 = 0;

/// What the fillsheet prints for its input.
pub fn fillsheet(input: &[u8]) -> Vec<u8> {
    let mut desk = Desk::default();
    if input.len() > LONGEST_INPUT {
        desk.print_refusal(Refusal::OutOfRange as u32);
        return desk.output;
    }
    for line in lines(input) {
        let refusal = desk.enter(line).unwrap_or(Refusal::OutOfRange as u32);
        if refusal != 0 {
            desk.print_refusal(refusal);
        }
    }
    desk.output
}

/// The lines of a text; its end right after a line's end starts none.
fn lines(input: &[u8]) -> Vec<&[u8]> {
    let mut lines: Vec<&[u8]> = input.split(|&byte| byte == b'\n').collect();
    if lines.last().is_some_and(|last| last.is_empty()) {
        lines.pop();
    }
    lines
}

struct Desk {
    book: Vec<u8>,
    executions: Vec<u8>,
    algorithm: u32,
    output: Vec<u8>,
}

impl Default for Desk {
    fn default() -> Desk {
        Desk {
            book: vec![0; LONGEST_BOOK],
            executions: vec![0; EXECUTIONS_LENGTH],
            algorithm: 1,
            output: Vec::new(),
        }
    }
}

impl Desk {
    /// Carries out a line. Gives its refusal number, or nothing for a line of
    /// no known form.
    fn enter(&mut self, line: &[u8]) -> Option<u32> {
        let fields: Vec<&[u8]> = line.split(|&byte| byte == b' ').collect();
        match fields[..] {
            [b"A", algorithm] => {
                let algorithm = number(algorithm)?;
                self.algorithm = (1..=3).contains(&algorithm).then_some(algorithm)?;
                Some(0)
            }
            [b"X", order, shares] => Some(calls::reduce(
                &mut self.book,
                SECURITY,
                number(order)?,
                number(shares)?,
            )),
            [b"T", taker, limit, size] => {
                Some(self.take(side(taker)?, number(limit)?, number(size)?))
            }
            [maker, order, letter, price, size, minimum] => {
                let side = side(maker)?;
                let kind = kind(letter)?;
                let [order, price, size, minimum] = [
                    number(order)?,
                    number(price)?,
                    number(size)?,
                    number(minimum)?,
                ];
                let order = [side, kind, order, price, size, minimum, 0, 0, SECURITY];
                Some(calls::add(&mut self.book, order))
            }
            _ => None,
        }
    }

    fn take(&mut self, side: u32, limit: u32, size: u32) -> u32 {
        let incoming = [side, limit, size, self.algorithm, SECURITY];
        let (refusal, count, left) = take::take(&mut self.book, &mut self.executions, incoming);
        if refusal == 0 {
            self.print("order price shares");
            for fill in take::read_executions(&self.executions, count) {
                self.print(&format!("{} {} {}", fill.number, fill.price, fill.shares));
            }
            self.print(&format!("left {left}"));
        }
        refusal
    }

    fn print_refusal(&mut self, refusal: u32) {
        self.print(&format!("refused {refusal}"));
    }

    fn print(&mut self, line: &str) {
        writeln!(self.output, "{line}").expect("a list of bytes takes every line");
    }
}

fn side(field: &[u8]) -> Option<u32> {
    match field {
        b"B" => Some(1),
        b"S" => Some(2),
        _ => None,
    }
}

fn kind(field: &[u8]) -> Option<u32> {
    match field {
        b"D" => Some(1),
        b"H" => Some(2),
        b"M" => Some(3),
        _ => None,
    }
}

/// A number in decimal digits, without leading zeros. One too large for 32 bits
/// is outside every range, so it is none.
fn number(field: &[u8]) -> Option<u32> {
    let digits = !field.is_empty() && field.iter().all(u8::is_ascii_digit);
    if !digits || (field.len() > 1 && field[0] == b'0') {
        return None;
    }
    std::str::from_utf8(field).ok()?.parse().ok()
}
