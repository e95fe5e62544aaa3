//! The measured times as Markdown.

use crate::cases::Case;
use crate::ladders::{self, FEWER_PRICES, MOST_PRICES};
use crate::machine;
use crate::measure::{Measured, Spread, ROUND, ROUNDS};

/// A case and its times.
pub struct Timed {
    pub case: Case,
    pub measured: Measured,
    /// Of a form that keeps a ladder: its plain call, and a new ladder.
    pub beside: Option<[Measured; 2]>,
}

/// The most times that the longest ladder may take of the one of a quarter of its
/// orders and prices.
const MOST_GROWTH: u32 = 6;

/// The results of one call each, in their order.
pub fn by_call(results: &[Timed]) -> impl Iterator<Item = &[Timed]> {
    results.chunk_by(|one, next| one.case.call_name == next.case.call_name)
}

/// A table for each call.
pub fn tables(results: &[Timed]) -> String {
    by_call(results)
        .map(table)
        .collect::<Vec<String>>()
        .join("\n")
}

fn table(results: &[Timed]) -> String {
    let mut lines = format!(
        "### {}\n\n\
         | book | library: least | median | most | fast model: least | median | most | ratio | spread |\n\
         |---|--:|--:|--:|--:|--:|--:|--:|--:|\n",
        capitalised(results[0].case.call_name)
    );
    for Timed { case, measured, .. } in results {
        let Spread {
            least,
            median,
            most,
        } = measured.ratio;
        lines += &format!(
            "| {} | {} | {} | {median:.2} | {least:.2} to {most:.2} |\n",
            case.book_name,
            nanoseconds(measured.library),
            nanoseconds(measured.fast),
        );
    }
    lines
}

/// How the time of a new ladder grows with the number of prices.
pub fn growth(results: &[Timed]) -> String {
    let median = |extent| {
        let name = ladders::book_name(extent);
        let of_book =
            |timed: &&Timed| timed.case.call_name == "ladder" && timed.case.book_name == name;
        let timed = results.iter().find(of_book).expect("a case of the ladder");
        (
            name,
            timed.measured.library.median,
            timed.measured.fast.median,
        )
    };
    let (longest, library, fast) = median(MOST_PRICES);
    let mut lines = String::from(
        "| ladder of | by that of | library | fast model | library at most |\n\
         |---|---|--:|--:|--:|\n",
    );
    for (extent, most) in FEWER_PRICES.into_iter().zip([Some(MOST_GROWTH), None]) {
        let (name, fewer, fewer_fast) = median(extent);
        let most = most.map_or(String::new(), |most| most.to_string());
        lines += &format!(
            "| {longest} | {name} | {:.2} | {:.2} | {most} |\n",
            library / fewer,
            fast / fewer_fast,
        );
    }
    lines
}

/// The library's forms that keep a ladder, beside their plain calls and two new
/// ladders.
pub fn forms(results: &[Timed]) -> String {
    let mut lines = String::from(
        "| call | book | plain call | new ladder | call with a ladder | plain call and two new ladders | ratio | ratio of the fast model |\n\
         |---|---|--:|--:|--:|--:|--:|--:|\n",
    );
    for timed in results {
        let Some([plain, new]) = &timed.beside else {
            continue;
        };
        let times = |of: fn(&Measured) -> Spread| {
            [plain, new, &timed.measured].map(|measured| of(measured).median)
        };
        let [plain, new, form] = times(|measured| measured.library);
        let [fast_plain, fast_new, fast_form] = times(|measured| measured.fast);
        let both = plain + 2.0 * new;
        lines += &format!(
            "| {} | {} | {} | {:.2} | {:.2} |\n",
            timed.case.call_name,
            timed.case.book_name,
            [plain, new, form, both].map(thousands).join(" | "),
            form / both,
            fast_form / (fast_plain + 2.0 * fast_new),
        );
    }
    lines
}

/// Three cells.
fn nanoseconds(spread: Spread) -> String {
    [spread.least, spread.median, spread.most]
        .map(thousands)
        .join(" | ")
}

/// A whole number with commas: 12,345.
fn thousands(number: f64) -> String {
    let digits = format!("{number:.0}");
    let mut text = String::new();
    for (place, digit) in digits.chars().enumerate() {
        if place > 0 && (digits.len() - place) % 3 == 0 {
            text.push(',');
        }
        text.push(digit);
    }
    text
}

fn capitalised(words: &str) -> String {
    let (first, rest) = words.split_at(1);
    first.to_uppercase() + rest
}

/// The whole of docs/PERFORMANCE.md.
pub fn document(results: &[Timed], load: [String; 2]) -> String {
    let [before, after] = load;
    let template = include_str!("../template.md");
    let parts = [
        ("{rounds}", ROUNDS.to_string()),
        ("{round}", ROUND.as_millis().to_string()),
        ("{machine}", machine::description()),
        ("{before}", before),
        ("{after}", after),
        ("{tables}", tables(results)),
        ("{growth}", growth(results)),
        ("{forms}", forms(results)),
        ("{remarks}", include_str!("../remarks.md").to_owned()),
    ];
    parts
        .iter()
        .fold(template.to_owned(), |text, (place, part)| {
            text.replace(place, part.trim_end())
        })
}
