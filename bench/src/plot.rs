//! The ratios as a picture: a dot for the median, a line for the spread.

use crate::measure::Spread;
use crate::report::{by_call, Timed};

const WIDTH: f64 = 1000.0;
/// Where the axis begins and ends; names stand before it, numbers behind.
const LEFT: f64 = 400.0;
const RIGHT: f64 = 920.0;
const TOP: f64 = 76.0;
const BOTTOM: f64 = 40.0;
const ROW: f64 = 18.0;
/// What a call's heading takes.
const HEADING: f64 = 30.0;

const MARKS: [f64; 13] = [
    0.05, 0.1, 0.2, 0.5, 1.0, 2.0, 5.0, 10.0, 20.0, 50.0, 100.0, 200.0, 500.0,
];

/// A logarithmic axis from one of the marks to another.
struct Axis {
    from: f64,
    to: f64,
}

impl Axis {
    /// The shortest that holds all the ratios, and 1.
    fn of(results: &[Timed]) -> Axis {
        let ratios = || results.iter().map(|result| result.measured.ratio);
        let least = ratios().map(|ratio| ratio.least).fold(1.0, f64::min);
        let most = ratios().map(|ratio| ratio.most).fold(1.0, f64::max);
        let below = MARKS.iter().rfind(|&&mark| mark <= least);
        let above = MARKS.iter().find(|&&mark| mark >= most);
        Axis {
            from: *below.unwrap_or(&least),
            to: *above.unwrap_or(&most),
        }
    }

    fn place(&self, ratio: f64) -> f64 {
        LEFT + (RIGHT - LEFT) * (ratio / self.from).ln() / (self.to / self.from).ln()
    }

    /// The marks with a line down and their number above and below.
    fn drawing(&self, height: f64) -> String {
        let within = |mark: &&f64| (self.from..=self.to).contains(*mark);
        let bottom = height - BOTTOM;
        let line = |mark: &f64| {
            let (x, colour) = (
                self.place(*mark),
                if *mark == 1.0 { "#444" } else { "#ddd" },
            );
            let numbers = [TOP - 8.0, bottom + 16.0]
                .map(|y| text(x, y, "middle", "#444", &mark.to_string()))
                .concat();
            format!("<path d='M{x:.1} {TOP}V{bottom:.1}' stroke='{colour}'/>\n{numbers}")
        };
        MARKS.iter().filter(within).map(line).collect()
    }
}

fn text(x: f64, y: f64, anchor: &str, colour: &str, words: &str) -> String {
    format!("<text x='{x:.1}' y='{y:.1}' text-anchor='{anchor}' fill='{colour}'>{words}</text>\n")
}

fn row(axis: &Axis, y: f64, result: &Timed) -> String {
    let Spread {
        least,
        median,
        most,
    } = result.measured.ratio;
    let (from, to, at) = (axis.place(least), axis.place(most), axis.place(median));
    let name = text(LEFT - 12.0, y + 4.0, "end", "#222", &result.case.book_name);
    let number = text(
        WIDTH - 14.0,
        y + 4.0,
        "end",
        "#222",
        &format!("{median:.2}"),
    );
    let ends = [from, to]
        .map(|x| format!("M{x:.1} {:.1}v8", y - 4.0))
        .concat();
    format!(
        "{name}{number}<path d='M{from:.1} {y:.1}H{to:.1}{ends}' stroke='#1f6fb2' stroke-width='1.5'/>\n\
         <circle cx='{at:.1}' cy='{y:.1}' r='4' fill='#1f6fb2'/>\n"
    )
}

/// The whole picture, as SVG.
pub fn drawing(results: &[Timed]) -> String {
    let axis = Axis::of(results);
    let mut rows = String::new();
    let mut y = TOP;
    for group in by_call(results) {
        y += HEADING;
        let heading = text(14.0, y - 8.0, "start", "#000", group[0].case.call_name);
        rows += &heading.replace("<text", "<text font-weight='bold'");
        for result in group {
            rows += &row(&axis, y + ROW / 2.0, result);
            y += ROW;
        }
    }
    let height = y + BOTTOM + 10.0;
    let title = "Time of the library ÷ time of the fast model";
    let key = "dot: median; line: least and most of the rounds; above 1 the library is slower";
    format!(
        "<svg xmlns='http://www.w3.org/2000/svg' viewBox='0 0 {WIDTH} {height}' width='{WIDTH}' \
         height='{height}' font-family='sans-serif' font-size='13'>\n\
         <rect width='100%' height='100%' fill='#fff'/>\n{}{}{}{rows}</svg>\n",
        text(14.0, 24.0, "start", "#000", title).replace("<text", "<text font-size='17'"),
        text(14.0, 44.0, "start", "#444", key),
        axis.drawing(height),
    )
}
