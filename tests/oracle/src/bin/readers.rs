//! Compares the two row readers with document 01: number, expected, received, start and length.
use oracle::cases::{extent, Element};
use oracle::library::Read;
use oracle::{model, random::Random, tally::Tally, Extent, Part};
use std::process::ExitCode;

fn main() -> ExitCode {
    let (mut tally, mut random) = (Tally::default(), Random(2024));
    for _ in 0..500_000 {
        finished_row::<u8>(&mut tally, &mut random);
        finished_row::<u16>(&mut tally, &mut random);
        chroma_row::<u8>(&mut tally, &mut random);
        chroma_row::<u16>(&mut tally, &mut random);
    }
    tally.finish("rows")
}

fn finished_row<T: Read>(tally: &mut Tally, random: &mut Random) {
    let (order, sides) = (code(random, 4), sides(random));
    let rgb = around(random, sides.0.saturating_mul(model::channels(order.min(3))), sides.1);
    let row = row(random, sides.1);
    let ours = T::row(order, sides, &buffer::<T>(rgb), rgb.stride, row);
    let wanted = model::row(order, sides.0, sides.1, rgb, row);
    check(tally, rgb.len, ours, wanted, || {
        format!("  order {order}, sides {sides:?}, {rgb:?}, row {row}")
    });
}

fn chroma_row<T: Read>(tally: &mut Tally, random: &mut Random) {
    let (sampling, plane, sides) = (code(random, 2), code(random, 2), sides(random));
    let (width, height) = model::chroma_sides(sampling, sides.0, sides.1);
    let (u, v) = (around(random, width, height), around(random, width, height));
    let row = row(random, sides.1);
    let planes = (&buffer::<T>(u)[..], &buffer::<T>(v)[..]);
    let ours = T::chroma_row(sampling, plane, sides, planes, (u.stride, v.stride), row);
    let wanted = model::chroma_row(sampling, plane, sides, (u, v), row);
    check(tally, u.len + v.len, ours, wanted, || {
        let codes = format!("sampling {sampling}, plane {plane}");
        format!("  {codes}, sides {sides:?}, U {u:?}, V {v:?}, row {row}")
    });
}

fn check(tally: &mut Tally, size: usize, ours: Part, wanted: Part, text: impl FnOnce() -> String) {
    tally.count(ours.number);
    if ours != wanted {
        tally.differ(size, || format!("{}\n  ours   {ours:?}\n  wanted {wanted:?}", text()));
    }
}

/// A code below `known`, sometimes another.
fn code(random: &mut Random, known: u32) -> u32 {
    if random.below(20) == 0 {
        random.pick(&[known, known + 1, 256, u32::MAX])
    } else {
        random.below(known)
    }
}

/// Sides up to 12, sometimes 0 or around 16,384.
fn sides(random: &mut Random) -> (u32, u32) {
    let mut side = || match random.below(20) {
        0 => random.pick(&[0, 16383, 16384, 16385, 16385, u32::MAX]),
        _ => random.between(1, 12),
    };
    (side(), side())
}

/// A buffer at the limits or around them, at most 200,000 elements long.
fn around(random: &mut Random, row: u32, rows: u32) -> Extent {
    let slack = (random.pick(&[0, 0, 0, 0, 0, 1, 7, -1]), random.pick(&[0, 0, 0, 0, 0, 1, 90, -1]));
    let mut extent = extent(row, rows, slack);
    if random.below(40) == 0 {
        extent.stride = random.pick(&[0, 1, u32::MAX]);
    }
    extent.len = extent.len.min(200_000);
    extent
}

fn buffer<T: Element>(extent: Extent) -> Vec<T> {
    vec![T::low(0); extent.len]
}

/// A row below the height, sometimes another.
fn row(random: &mut Random, height: u32) -> u32 {
    if random.below(10) == 0 {
        random.pick(&[height, u32::MAX, 1 << 31])
    } else {
        random.below(height.max(1))
    }
}
