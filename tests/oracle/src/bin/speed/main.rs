//! Measures what stands in docs/SPEED.md: frames against the scalar Rust and a copy, the cost by
//! size, and other converters where they are installed. Renews the measured part of docs/SPEED.md and
//! docs/speed.svg; where pixels or counts differ it writes nothing.
mod chart;
mod machine;
mod others;
mod peers;
mod report;

use oracle::timing::{measure, median, name, Content, Task, Times, FRAME};
use oracle::{tally::status, Codes};
use others::Other;
use std::process::ExitCode;
use std::{fs, path::Path};

/// Passes over the whole list, against slow phases of some seconds: of each figure the middle of the
/// passes' medians is told.
const PASSES: usize = 5;

/// The most rounds of a pass; large frames have fewer.
const ROUNDS: usize = 21;

/// Pixels in a timing at the least, so that it takes some milliseconds.
const BATCH: usize = 1 << 21;

/// Pixels in a pass of a frame at the most, unless that would be less than 5 rounds.
const PASS: usize = 1 << 28;

const fn codes(depth: u32, packing: u32, sampling: u32, order: u32) -> Codes {
    Codes { depth, packing, sampling, order, ..FRAME }
}

const LOW: u32 = 0;
const HIGH: u32 = 1;
const YUV420: u32 = 0;
const YUV422: u32 = 1;
const RGB: u32 = 0;
const RGBA: u32 = 1;

const RGBA_8: Codes = codes(8, LOW, YUV420, RGBA);
const RGBA_10: Codes = codes(10, LOW, YUV420, RGBA);

const FRAMES: [((u32, u32), &[Codes]); 3] = [
    (
        (1920, 1080),
        &[
            RGBA_8,
            codes(8, LOW, YUV420, RGB),
            codes(8, LOW, YUV422, RGBA),
            codes(8, LOW, YUV422, RGB),
            RGBA_10,
            codes(10, LOW, YUV420, RGB),
            codes(10, HIGH, YUV420, RGBA),
            codes(10, HIGH, YUV420, RGB),
            codes(12, LOW, YUV420, RGBA),
            codes(12, LOW, YUV420, RGB),
            codes(12, HIGH, YUV420, RGBA),
            codes(10, LOW, YUV422, RGBA),
        ],
    ),
    ((3840, 2160), &[RGBA_8, RGBA_10]),
    ((16384, 64), &[RGBA_8, RGBA_10]),
];

const SIDES: [u32; 8] = [64, 128, 256, 512, 1024, 2048, 4096, 8192];

/// All that was measured. Of the frames each random one stands before its smooth one, of the sizes
/// each of 8 bits before its one of 10 bits; the others' times are in their order.
pub struct Measured {
    pub frames: Vec<(Task, Times)>,
    pub sizes: Vec<(Task, Times)>,
    pub others: Vec<(Other, f64)>,
}

fn main() -> ExitCode {
    if cfg!(debug_assertions) {
        eprintln!("measures release builds: cargo run --offline --release --bin speed");
        return status(false);
    }
    let written = measured().and_then(|measured| {
        let machine = machine::description();
        let markdown = report::markdown(&measured, &machine);
        print!("{markdown}");
        write(&markdown, &chart::svg(&measured, &machine))
    });
    if let Err(words) = &written {
        eprintln!("{words}; nothing is written");
    }
    status(written.is_ok())
}

fn measured() -> Result<Measured, String> {
    let (frames, sizes, others) = (frames(), sizes(), others::all()?);
    let mut passes = Vec::new();
    for pass in 1..=PASSES {
        eprintln!("pass {pass} of {PASSES}");
        let mut times: Vec<Times> =
            frames.iter().chain(&sizes).map(times).collect::<Result<_, _>>()?;
        times.push(others::times(ROUNDS)?);
        passes.push(times);
    }
    let mut times = middle(&passes).into_iter();
    Ok(Measured {
        frames: frames.into_iter().zip(times.by_ref()).collect(),
        sizes: sizes.into_iter().zip(times.by_ref()).collect(),
        others: others.into_iter().zip(times.flatten()).collect(),
    })
}

fn frames() -> Vec<Task> {
    let mut tasks = Vec::new();
    for (sides, kinds) in FRAMES {
        for codes in kinds.iter().copied() {
            tasks.push(Task { codes, sides, content: Content::Random });
            tasks.push(Task { codes, sides, content: Content::Smooth });
        }
    }
    tasks
}

fn sizes() -> Vec<Task> {
    let task = |side, codes| Task { codes, sides: (side, side), content: Content::Random };
    SIDES.into_iter().flat_map(|side| [task(side, RGBA_8), task(side, RGBA_10)]).collect()
}

/// The times of the library, the Rust and a copy, in one pass.
fn times(task: &Task) -> Result<Times, String> {
    let (width, height) = task.sides;
    let pixels = width as usize * height as usize;
    let batch = (BATCH / pixels).max(1);
    let rounds = (PASS / pixels).clamp(5, ROUNDS) | 1;
    let (times, same) = measure(*task, 3, rounds, batch);
    let differ = || format!("pixels or counts differ: {}", titled(task));
    same.then_some(times).ok_or_else(differ)
}

/// The sides and the settings of a frame in words.
pub fn titled(task: &Task) -> String {
    format!("{} by {}, {}", task.sides.0, task.sides.1, name(&task.codes))
}

/// Each figure's middle among the passes.
fn middle(passes: &[Vec<Times>]) -> Vec<Times> {
    let figure = |row: usize, i: usize| median(passes.iter().map(|pass| pass[row][i]).collect());
    let row = |row: usize| (0..passes[0][row].len()).map(|i| figure(row, i)).collect();
    (0..passes[0].len()).map(row).collect()
}

const BEGIN: &str = "<!-- measured: begin -->\n";
const END: &str = "<!-- measured: end -->\n";

/// Renews what stands between the two lines of docs/SPEED.md, and the picture.
fn write(markdown: &str, svg: &str) -> Result<(), String> {
    let docs = Path::new(env!("CARGO_MANIFEST_DIR")).join("../../docs");
    let page =
        fs::read_to_string(docs.join("SPEED.md")).map_err(|e| format!("docs/SPEED.md: {e}"))?;
    let parts =
        page.split_once(BEGIN).and_then(|(before, rest)| Some((before, rest.split_once(END)?.1)));
    let (before, after) = parts.ok_or("docs/SPEED.md has not the two lines")?;
    let page = format!("{before}{BEGIN}\n{markdown}\n{END}{after}");
    let written = fs::write(docs.join("SPEED.md"), page);
    let written = written.and_then(|()| fs::write(docs.join("speed.svg"), svg));
    written.map_err(|e| format!("docs: {e}"))
}
