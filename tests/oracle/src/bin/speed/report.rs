//! The measured part of docs/SPEED.md.
use crate::others::Other;
use crate::{peers, titled, Measured, BATCH, PASSES, ROUNDS};
use oracle::timing::{Task, Times, COPY, OURS, RUST};

pub fn markdown(measured: &Measured, machine: &[(&str, String)]) -> String {
    let machine = machine.iter().map(|(name, what)| vec![name.to_string(), what.clone()]);
    let parts = [
        stand(&measured.frames[0]),
        table(&["what", "which"], machine),
        manner(),
        "### Frames".into(),
        frames(&measured.frames),
        "### By size".into(),
        sizes(&measured.sizes),
        "### Others".into(),
        others(&measured.others),
    ];
    let absent = peers::absent().into_iter().map(|name| format!("{name} is not linked."));
    parts.into_iter().chain(absent).collect::<Vec<_>>().join("\n\n") + "\n"
}

/// Where the first frame stands.
fn stand((task, times): &(Task, Times)) -> String {
    let [ours, rust, ratio] = compared(times, 1.0);
    format!(
        "{}, random samples: ours {ours} ms, the scalar Rust {rust} ms, ratio **{ratio}**. The \
         buyer's limit is 2.",
        titled(task)
    )
}

fn manner() -> String {
    format!(
        "Limited BT.709, one thread, release builds, buffers written beforehand. Ours, the Rust and \
         the copy run in turns, and the others in turns with ours and the Rust: medians of 5 to \
         {ROUNDS} rounds, and of each figure the middle of {PASSES} passes over the whole list. \
         A timing goes over at least {BATCH} pixels, of small frames over as many different ones. \
         Pixels and counts of every frame are equal before and after."
    )
}

fn table(heads: &[&str], rows: impl Iterator<Item = Vec<String>>) -> String {
    let line = |cells: &[&str]| format!("| {} |", cells.join(" | "));
    let mut lines = vec![line(heads), line(&vec!["---"; heads.len()])];
    lines.extend(rows.map(|row| format!("| {} |", row.join(" | "))));
    lines.join("\n")
}

/// Ours, the Rust's, and the ratio, in a unit of so many ms.
fn compared(times: &Times, unit: f64) -> [String; 3] {
    let (ours, rust) = (times[OURS], times[RUST]);
    [ours / unit, rust / unit, ours / rust].map(|figure| format!("{figure:.2}"))
}

fn over_a_copy(times: &Times) -> String {
    format!("{:.1}", times[OURS] / times[COPY])
}

fn frames(frames: &[(Task, Times)]) -> String {
    let heads = [
        "frame", "random: ours, ms", "Rust, ms", "ratio", "smooth: ours, ms", "Rust, ms", "ratio",
        "ours over a copy",
    ];
    let row = |pair: &[(Task, Times)]| {
        let [(task, random), (_, smooth)] = pair else { unreachable!() };
        let mut row = vec![titled(task)];
        row.extend(compared(random, 1.0));
        row.extend(compared(smooth, 1.0));
        row.push(over_a_copy(random));
        row
    };
    table(&heads, frames.chunks(2).map(row))
}

/// Time per pixel, in ns.
fn sizes(sizes: &[(Task, Times)]) -> String {
    let heads = [
        "sides",
        "8 bits: ours, ns per pixel",
        "Rust, ns per pixel",
        "ratio",
        "ours over a copy",
        "10 bits: ours, ns per pixel",
        "Rust, ns per pixel",
        "ratio",
        "ours over a copy",
    ];
    let row = |pair: &[(Task, Times)]| {
        let (width, height) = pair[0].0.sides;
        let mut row = vec![format!("{width} by {height}")];
        for (_, times) in pair {
            row.extend(compared(times, f64::from(width) * f64::from(height) / 1e6));
            row.push(over_a_copy(times));
        }
        row
    };
    table(&heads, sizes.chunks(2).map(row))
}

fn others(others: &[(Other, f64)]) -> String {
    let heads = [
        "converter", "chroma", "ms", "over the Rust's", "random: largest", "mean",
        "smooth: largest", "mean", "patches: largest", "mean",
    ];
    let row = |(other, ms): &(Other, f64)| {
        let mut row = vec![other.name.clone(), other.chroma.into(), format!("{ms:.2}")];
        row.push(format!("{:.2}", ms / others[RUST].1));
        for distance in &other.distances {
            row.extend([distance.largest, distance.mean].map(|codes| format!("{codes:.2}")));
        }
        row
    };
    table(&heads, others.iter().map(row))
}
