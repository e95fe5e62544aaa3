//! Random scripts for the fillsheet: well-formed lines, and lines that are
//! nearly so.

use support::{Coverage, Random};

/// How a line of a script is spoilt. Gives the new line.
type Spoiling = fn(&mut Random, &str) -> Vec<u8>;

/// Every way to spoil a line, and its name.
const SPOILINGS: [(&str, Spoiling); 17] = [
    ("double space", |_, line| line.replacen(' ', "  ", 1).into()),
    ("leading space", |_, line| format!(" {line}").into()),
    ("trailing space", |_, line| format!("{line} ").into()),
    ("carriage return", |_, line| format!("{line}\r").into()),
    ("tab", |_, line| line.replacen(' ', "\t", 1).into()),
    ("lower case", |_, line| line.to_lowercase().into()),
    ("missing field", |random, line| drop_field(random, line)),
    ("extra field", |_, line| format!("{line} 0").into()),
    ("leading zero", |random, line| {
        change_number(random, line, "0", "")
    }),
    ("plus sign", |random, line| {
        change_number(random, line, "+", "")
    }),
    ("minus sign", |random, line| {
        change_number(random, line, "-", "")
    }),
    ("decimal point", |random, line| {
        change_number(random, line, "", ".0")
    }),
    ("40 digits more", |random, line| {
        change_number(random, line, "", &"7".repeat(40))
    }),
    ("above 32 bits", |random, line| {
        let above = random.one_of(&["4294967296", "4294967297", "18446744073709551617"]);
        set_number(random, line, above)
    }),
    ("wrong number", |random, line| {
        let wrong = random.one_of(&["0", "4", "1000000", "2000000001", "4294967295"]);
        set_number(random, line, wrong)
    }),
    ("empty line", |_, _| Vec::new()),
    ("any bytes", |random, _| {
        let length = random.below(30);
        random.bytes(length)
    }),
];

pub fn expect_spoilings(coverage: &mut Coverage) {
    for (name, _) in SPOILINGS {
        coverage.expect(spoilt(name));
    }
}

fn spoilt(name: &str) -> String {
    format!("spoilt line: {name}")
}

fn drop_field(random: &mut Random, line: &str) -> Vec<u8> {
    let mut fields: Vec<&str> = line.split(' ').collect();
    fields.remove(random.below(fields.len()));
    fields.join(" ").into()
}

/// Puts text before and behind one of the fields that are numbers.
fn change_number(random: &mut Random, line: &str, before: &str, behind: &str) -> Vec<u8> {
    with_number(random, line, |number| format!("{before}{number}{behind}"))
}

fn set_number(random: &mut Random, line: &str, number: &str) -> Vec<u8> {
    with_number(random, line, |_| number.to_string())
}

fn with_number(random: &mut Random, line: &str, change: impl Fn(&str) -> String) -> Vec<u8> {
    let mut fields: Vec<String> = line.split(' ').map(String::from).collect();
    let is_number = |field: &String| field.bytes().all(|byte| byte.is_ascii_digit());
    let places: Vec<usize> = (0..fields.len())
        .filter(|&place| is_number(&fields[place]))
        .collect();
    let place = random.one_of(&places);
    fields[place] = change(&fields[place]);
    fields.join(" ").into()
}

/// The lines of a script, made one after another.
pub struct Script {
    pub text: Vec<u8>,
    next_number: u32,
    levels: u32,
}

impl Script {
    /// A random script; what is spoilt in it is noted.
    pub fn random(random: &mut Random, coverage: &mut Coverage) -> Script {
        let mut script = Script {
            text: Vec::new(),
            next_number: 1,
            levels: random.one_of(&[1, 2, 4]),
        };
        let mix = random.one_of(&[[1, 8, 2, 2], [1, 30, 1, 1], [1, 3, 2, 2]]);
        let lines = random.one_of(&[1, 10, 50, 400]);
        let spoil = random.one_of(&[0, 3, 10]);
        for _ in 0..lines {
            let line = script.line(random, &mix);
            if random.once_in(spoil) {
                let (name, spoiling) = random.one_of(&SPOILINGS);
                script.push(&spoiling(random, &line));
                coverage.note(spoilt(name));
            } else {
                script.push(line.as_bytes());
            }
        }
        if random.once_in(3) {
            script.text.pop();
            coverage.note("script without a last line end");
        }
        script
    }

    fn push(&mut self, line: &[u8]) {
        self.text.extend(line);
        self.text.push(b'\n');
    }

    /// A well-formed line; algorithm, add, reduce and take by their weights.
    fn line(&mut self, random: &mut Random, mix: &[usize]) -> String {
        match random.weighted(mix) {
            0 => format!("A {}", random.within(1..=3)),
            1 => self.add(random),
            2 => {
                let number = random.within(1..=self.next_number);
                format!("X {number} {}", size(random))
            }
            _ => {
                let side = random.one_of(&["B", "S"]);
                let sizes = [size(random), random.within(1..=5_000), 999_999];
                let size = random.one_of(&sizes);
                format!("T {side} {} {size}", self.price(random, side == "B"))
            }
        }
    }

    fn add(&mut self, random: &mut Random) -> String {
        let side = random.one_of(&["B", "S"]);
        let kind = random.one_of(&["D", "H", "M"]);
        let size = size(random);
        let minimum = if kind == "M" {
            random.within(1..=size)
        } else {
            0
        };
        let number = self.next_number;
        self.next_number += u32::from(!random.once_in(10));
        let price = self.price(random, side == "S");
        format!("{side} {number} {kind} {price} {size} {minimum}")
    }

    /// A price, mostly in the upper or the lower half.
    fn price(&self, random: &mut Random, upper: bool) -> u32 {
        let level = random.within(0..=self.levels);
        let shift = if upper { self.levels } else { 0 };
        100_000 + 100 * (level + shift)
    }
}

fn size(random: &mut Random) -> u32 {
    let lots = random.within(0..=5);
    lots * 100 + random.one_of(&[1, 50, 99, 100, 101])
}

/// Adds up to a full book and takes it whole, again and again, until the text
/// is nearly as long as it may be.
pub fn full_books() -> Vec<u8> {
    let mut text = String::new();
    let mut number = 0;
    while text.len() < model::LONGEST_INPUT - 8_000 {
        for _ in 0..257 {
            number += 1;
            text += &format!("S {number} D 1999999999 100 0\n");
        }
        text += &format!("A {}\nT B 2000000000 999999\n", number / 257 % 3 + 1);
    }
    text.into()
}

/// A text of exactly so many bytes of short takes, the last line cut off.
pub fn of_length(length: usize) -> Vec<u8> {
    b"T B 1 1\n".iter().copied().cycle().take(length).collect()
}
