//! Times frames against the scalar Rust, in bands against the library's whole conversion, and Y4M frames
//! and woven chroma against a copy: the quick program. `speed` measures more of the first.
#[cfg(feature = "bands")]
use oracle::timing::measure_bands;
#[cfg(feature = "weave")]
use oracle::timing::weave::measure_weave;
#[cfg(feature = "y4m")]
use oracle::timing::y4m::{measure_y4m, Way};
use oracle::timing::{measure, name, Content, Task, Times, FRAME};
#[cfg(feature = "y4m")]
use oracle::y4m::Form;
#[cfg(feature = "weave")]
use oracle::{model::chroma_sides, weave};
use oracle::{tally::status, Codes};
use std::process::ExitCode;

const ROUNDS: usize = 51;

const RGBA: Codes = FRAME;
const RGB: Codes = Codes { order: 0, ..FRAME };
const RGBA_422: Codes = Codes { sampling: 1, ..FRAME };
const RGB_422: Codes = Codes { sampling: 1, order: 0, ..FRAME };
const RGBA_10: Codes = Codes { depth: 10, ..FRAME };
const RGB_10: Codes = Codes { depth: 10, order: 0, ..FRAME };
const RGBA_HIGH: Codes = Codes { depth: 10, packing: 1, ..FRAME };

/// The last size has a width that is no multiple of 64.
const SIZES: [(u32, u32, &[Codes]); 3] = [
    (1920, 1080, &[RGBA, RGB, RGBA_422, RGB_422, RGBA_10, RGB_10, RGBA_HIGH]),
    (3840, 2160, &[RGBA, RGBA_10]),
    (1000, 2000, &[RGBA, RGB]),
];

/// The frames in bands, and the rows of a band. The time is to be at most 1.05 of the whole
/// conversion's.
#[cfg(feature = "bands")]
const IN_BANDS: (u32, u32, &[Codes]) = (1920, 1080, &[RGBA, RGB, RGBA_10, RGBA_HIGH]);
#[cfg(feature = "bands")]
const BAND: u32 = 16;

fn main() -> ExitCode {
    println!("limited BT.709, medians of {ROUNDS} rounds, in ms");
    let mut same = true;
    for size in SIZES {
        let sides = format!("{} by {}", size.0, size.1);
        same &= table(&sides, ["ours", "Rust"], size, |task| measure(task, 2, ROUNDS, 1));
    }
    #[cfg(feature = "bands")]
    {
        let title = format!("{} by {}, bands of {BAND} rows", IN_BANDS.0, IN_BANDS.1);
        let measure = |task| measure_bands(task, BAND, ROUNDS);
        same &= table(&title, ["bands", "whole"], IN_BANDS, measure);
    }
    #[cfg(feature = "y4m")]
    {
        same &= y4m();
    }
    #[cfg(feature = "weave")]
    for sides in [(1920, 1080), (3840, 2160)] {
        same &= woven(sides);
    }
    println!("{}", if same { "all pixels, counts and samples equal" } else { "SOMETHING DIFFERS" });
    status(same)
}

/// Prints the times of two contenders, in their order, and the ratio; whether the pixels and the counts
/// are equal.
fn table(
    title: &str, contenders: [&str; 2], (width, height, kinds): (u32, u32, &[Codes]),
    measure: impl Fn(Task) -> (Times, bool),
) -> bool {
    heading(title, contenders);
    let mut all_same = true;
    for (content, word) in [(Content::Random, "random"), (Content::Smooth, "smooth")] {
        for codes in kinds.iter().filter(|c| c.depth == 8 || cfg!(feature = "level_b")) {
            let task = Task { codes: *codes, sides: (width, height), content };
            all_same &= line(&format!("{}, {word}", name(codes)), measure(task));
        }
    }
    all_same
}

fn heading(title: &str, [first, second]: [&str; 2]) {
    println!("{title:36} {first:>8} {second:>8} {:>8}", "ratio");
}

fn line(name: &str, (times, same): (Times, bool)) -> bool {
    println!("{name:36} {:8.3} {:8.3} {:8.3}", times[0], times[1], times[0] / times[1]);
    same
}

/// Frames of 1920 by 1080 read and written, beside a copy of their bytes; whether the samples are equal.
/// To read 8 bits is to take at most 1.5 of the time of the copy.
#[cfg(feature = "y4m")]
fn y4m() -> bool {
    heading("1920 by 1080, Y4M", ["ours", "copy"]);
    let mut all_same = true;
    for depth in [8, 10] {
        let form = Form { sampling: 0, depth, width: 1920, height: 1080 };
        for (way, word) in [(Way::Read, "read"), (Way::Write, "written")] {
            let measured = measure_y4m(form, way, ROUNDS);
            all_same &= line(&format!("{depth} bits, 4:2:0, {word}"), measured);
        }
    }
    all_same
}

/// The chroma of a 4:2:0 frame of these sides woven and unwoven, beside a copy of the bytes that are
/// written; whether the samples are equal. Each is to take at most 1.5 of the time of the copy.
#[cfg(feature = "weave")]
fn woven((width, height): (u32, u32)) -> bool {
    heading(&format!("{width} by {height}, chroma"), ["ours", "copy"]);
    let mut all_same = true;
    for depth in [8, 10] {
        for (way, word) in [(weave::Way::Weave, "woven"), (weave::Way::Unweave, "unwoven")] {
            let measured = measure_weave(way, chroma_sides(0, width, height), depth, ROUNDS);
            all_same &= line(&format!("{depth} bits, 4:2:0, {word}"), measured);
        }
    }
    all_same
}
