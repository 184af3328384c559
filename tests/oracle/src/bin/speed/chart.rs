//! docs/speed.svg: bars of the ratios.
use crate::{titled, Measured};
use oracle::timing::{OURS, RUST};

const TITLE: &str = "Dethrowg: time over the scalar Rust's, less is faster";

const WIDTH: u32 = 900;
const LEFT: f64 = 330.0;
const NOTES: f64 = 722.0;

/// The width of a ratio of 1, and the ratio where bars are cut.
const UNIT: f64 = 150.0;
const CUT: f64 = 2.25;

const ROW: u32 = 21;
const TOP: u32 = 96;

struct Bar {
    label: String,
    ratio: f64,
    note: String,
}

pub fn svg(measured: &Measured, machine: &[(&str, String)]) -> String {
    let (frames, others) = bars(measured);
    let second = TOP + ROW * frames.len() as u32 + 58;
    let bottom = second + ROW * others.len() as u32 + 10;
    let mut svg = head(bottom + 30);
    for (ratio, words) in [(1.0, "the scalar Rust"), (2.0, "the buyer's limit")] {
        svg += &line(ratio, words, bottom);
    }
    svg += &text(20.0, TOP - 14, 13, "Frames of random samples");
    svg += &group(&frames, TOP, "#2f6db3");
    svg += &text(20.0, second - 14, 13, "The first of them, beside others");
    svg += &text(NOTES, second - 14, 11, "blue's distance, on patches");
    svg += &group(&others, second, "#c0702a");
    let told = |name: &str| machine.iter().find(|(n, _)| *n == name).map_or("", |(_, what)| what);
    let (processor, date) = (told("Processor"), told("Date"));
    svg += &text(20.0, bottom + 16, 11, &format!("{processor}; one thread; {date}"));
    svg + "</svg>\n"
}

fn bars(measured: &Measured) -> (Vec<Bar>, Vec<Bar>) {
    let random = measured.frames.iter().step_by(2);
    let frames = random.map(|(task, times)| Bar {
        label: titled(task),
        ratio: times[OURS] / times[RUST],
        note: String::new(),
    });
    let others = measured.others.iter().map(|(other, ms)| Bar {
        label: other.name.clone(),
        ratio: ms / measured.others[RUST].1,
        note: other.distances.last().map_or(String::new(), |distance| {
            format!("mean {:.2}, largest {:.1}", distance.mean, distance.largest)
        }),
    });
    (frames.collect(), others.collect())
}

fn head(height: u32) -> String {
    format!(
        "<svg xmlns='http://www.w3.org/2000/svg' width='{WIDTH}' height='{height}' \
         viewBox='0 0 {WIDTH} {height}' font-family='sans-serif' fill='#222'>\n\
         <title>{TITLE}</title>\n<rect width='{WIDTH}' height='{height}' fill='#fff'/>\n{}",
        text(20.0, 28, 18, TITLE)
    )
}

/// With a white edge, so that it can be read over a line.
fn text(x: f64, y: u32, size: u32, words: &str) -> String {
    let words = words.replace('&', "&amp;").replace('<', "&lt;");
    format!(
        "<text x='{x:.0}' y='{y}' font-size='{size}' stroke='#fff' stroke-width='4' \
         paint-order='stroke'>{words}</text>\n"
    )
}

/// A ratio that bars are compared with, down to `bottom`.
fn line(ratio: f64, words: &str, bottom: u32) -> String {
    let (x, y) = (LEFT + ratio * UNIT, TOP - 34);
    let path = format!("<path d='M{x} {y}V{bottom}' stroke='#888' stroke-dasharray='4 3'/>\n");
    text(x - 40.0, y - 6, 11, words) + &path
}

/// Bars from `top` on.
fn group(bars: &[Bar], top: u32, colour: &str) -> String {
    let places = (top..).step_by(ROW as usize);
    bars.iter().zip(places).map(|(bar, y)| bar.draw(y, colour)).collect()
}

impl Bar {
    /// A bar that is longer than the picture is cut, with a point at its end.
    fn draw(&self, y: u32, colour: &str) -> String {
        let end = LEFT + self.ratio.min(CUT) * UNIT;
        let tip = if self.ratio > CUT { 8.0 } else { 0.0 };
        [
            format!("<path d='M{LEFT} {y}H{end:.1}l{tip} 7l-{tip} 7H{LEFT}z' fill='{colour}'/>\n"),
            text(20.0, y + 11, 12, &self.label),
            text(end + tip + 5.0, y + 11, 12, &format!("{:.2}", self.ratio)),
            text(NOTES, y + 11, 11, &self.note),
        ]
        .concat()
    }
}
