//! Document 01's questions 1 to 14, with the packing and the mode of document 02's slips 1 and 4, and
//! question 19 with the rows of a band of slip 5, written from their text. The Rust has no number for
//! 1, 2, 4, 13, 14 and 19 and no bands; for the others this is a second opinion. `src/y4m.rs` asks 1 to
//! 4 and 7 to 12 of Y4M frames, `src/weave.rs` 3 and 4 of woven chroma.
use crate::{Answer, Band, Codes, Extent, Part, Request, SettingsUsed};

pub(crate) type Asked = Result<(), Answer>;

pub(crate) fn ask(number: u64, yes: bool, expected: u64, received: u64) -> Asked {
    let no = Answer { number, expected, received, ..Default::default() };
    if yes {
        Ok(())
    } else {
        Err(no)
    }
}

pub(crate) fn answer(asked: Asked) -> Answer {
    asked.err().unwrap_or_default()
}

/// Questions 1 to 13, for planes of `bits` wide elements; no counts.
pub fn conversion(bits: u32, request: &Request) -> Answer {
    answer(conversion_asked(bits, request))
}

fn conversion_asked(bits: u32, q: &Request) -> Asked {
    codes(if bits == 8 { &[8] } else { &[10, 12] }, &q.codes)?;
    sides(q.width, q.height)?;
    destination(q.rgb, q.codes.order, q.width, q.height)?;
    planes(q.codes.sampling, (q.width, q.height), q.planes())?;
    weights(&q.codes)
}

/// A band: questions 1 to 13, then 19, how many rows are written, and the next first row; no counts.
pub fn band(bits: u32, q: &Request, first: u32, limit: u32) -> Band {
    let asked = conversion_asked(bits, q).and_then(|_| first_row(q.height, first));
    let rows = if asked.is_ok() { band_rows(q.height, first, limit) } else { 0 };
    Band { answer: answer(asked), rows: rows.into(), next: (first + rows).into() }
}

/// Question 19.
fn first_row(height: u32, first: u32) -> Asked {
    ask(19, !first_row_refused(height, first), 0, 0)
}

/// Whether a first row is odd and below the height, or above it.
pub fn first_row_refused(height: u32, first: u32) -> bool {
    first % 2 == 1 && first < height || first > height
}

/// The smaller of the limit and the rows left, made even by dropping one row unless it reaches the
/// last row.
fn band_rows(height: u32, first: u32, limit: u32) -> u32 {
    let rows = limit.min(height - first);
    if rows % 2 == 1 && first + rows != height {
        rows - 1
    } else {
        rows
    }
}

/// Questions 1 and 2, where `depths` are known.
pub(crate) fn codes(depths: &[u32], c: &Codes) -> Asked {
    ask(1, c.sampling <= 1, 0, 0)?;
    let others = c.order <= 3 && c.range <= 1 && c.matrix <= 6 && c.mode <= 1;
    ask(2, depths.contains(&c.depth) && others && packing_known(c), 0, 0)
}

/// Low bits at every depth, high bits at all but 8.
fn packing_known(c: &Codes) -> bool {
    c.packing == 0 || c.packing == 1 && c.depth != 8
}

/// Of refused codes, the setting of document 02 for which alone they are refused.
pub fn alone(depths: &[u32], c: &Codes) -> Option<&'static str> {
    let others = [("packing", Codes { packing: 0, ..*c }), ("mode", Codes { mode: 0, ..*c })];
    let found = others.into_iter().find(|(_, other)| codes(depths, other).is_ok());
    found.map(|(name, _)| name)
}

/// Questions 3 and 4.
pub(crate) fn sides(width: u32, height: u32) -> Asked {
    ask(3, width >= 1 && height >= 1, 0, 0)?;
    ask(4, width <= 16384 && height <= 16384, 0, 0)
}

/// The elements that rows of `row` elements take: the form of question 5.
pub(crate) fn needed(stride: u32, row: u32, rows: u32) -> u64 {
    u64::from(stride) * u64::from(rows - 1) + u64::from(row)
}

/// Questions 5 and 6.
fn destination(rgb: Extent, order: u32, width: u32, height: u32) -> Asked {
    let row = width * channels(order);
    let needed = needed(rgb.stride, row, height);
    ask(5, rgb.len as u64 >= needed, needed, rgb.len as u64)?;
    ask(6, rgb.stride >= row, row.into(), rgb.stride.into())
}

/// Questions 7 to 12 of the Y, U and V planes.
pub(crate) fn planes(sampling: u32, (width, height): (u32, u32), [y, u, v]: [Extent; 3]) -> Asked {
    plane(7, y, width, height)?;
    let (width, height) = chroma_sides(sampling, width, height);
    plane(9, u, width, height)?;
    plane(11, v, width, height)
}

/// Questions 7 and 8, 9 and 10, or 11 and 12.
fn plane(number: u64, plane: Extent, width: u32, height: u32) -> Asked {
    let area = |row: u32| u64::from(row) * u64::from(height);
    ask(number, plane.stride >= width, area(width), area(plane.stride))?;
    let needed = needed(plane.stride, width, height);
    ask(number + 1, plane.len as u64 >= needed, needed, plane.len as u64)
}

/// Question 13.
fn weights(codes: &Codes) -> Asked {
    ask(13, codes.matrix != 6 || usable(codes.depth, codes.range, codes.kr, codes.kb), 0, 0)
}

/// Whether Custom weights keep question 13.
pub fn usable(depth: u32, range: u32, kr: f32, kb: f32) -> bool {
    let weight = |k: f32| (0.0..=1.0).contains(&k);
    weight(kr) && weight(kb) && (1.0 - kr) - kb > 0.0 && green_sum(depth, range, kr, kb) <= 32767
}

/// The sum of the two rounded green coefficients, which reaches 2^38.
pub fn green_sum(depth: u32, range: u32, kr: f32, kb: f32) -> i64 {
    let [_, _, _, g1, g2] = computed(depth, range, kr, kb);
    g1 + g2
}

/// y, cr, cb, g1 and g2 by f32 operations, where there is no stored row.
pub fn computed(depth: u32, range: u32, kr: f32, kb: f32) -> [i64; 5] {
    let max = ((1 << depth) - 1) as f32;
    let scale = (1 << (depth - 8)) as f32;
    let (range_y, range_c) = if range == 0 { (219.0 * scale, 224.0 * scale) } else { (max, max) };
    let chroma = max / range_c;
    let kg = (1.0 - kr) - kb;
    let outer = |k: f32| (2.0 * (1.0 - k)) * chroma;
    let inner = |k: f32| (2.0 * (((1.0 - k) * k) / kg)) * chroma;
    [max / range_y, outer(kr), outer(kb), inner(kr), inner(kb)].map(|c| (c * 8192.0).round() as i64)
}

/// Questions 1, 2 and 13, of the codes alone; no values.
pub fn settings(c: &Codes) -> SettingsUsed {
    let asked = codes(&[8, 10, 12], c).and_then(|_| weights(c));
    let Answer { number, expected, received, .. } = answer(asked);
    SettingsUsed { number, expected, received, ..Default::default() }
}

/// The number of letters in the name of a channel order: RGB, RGBA, BGRA, BGR.
pub fn channels(order: u32) -> u32 {
    [3, 4, 4, 3][order as usize]
}

/// Chroma width and chroma height.
pub fn chroma_sides(sampling: u32, width: u32, height: u32) -> (u32, u32) {
    let half = |side: u32| side / 2 + side % 2;
    (half(width), if sampling == 0 { half(height) } else { height })
}

fn part(asked: Asked, place: impl FnOnce() -> (u64, u64)) -> Part {
    let (start, length) = if asked.is_ok() { place() } else { (0, 0) };
    let Answer { number, expected, received, .. } = answer(asked);
    Part { number, expected, received, start, length }
}

/// The finished row of a destination: questions 2 to 6 and 14.
pub fn row(order: u32, width: u32, height: u32, rgb: Extent, row: u32) -> Part {
    let asked = || {
        ask(2, order <= 3, 0, 0)?;
        sides(width, height)?;
        destination(rgb, order, width, height)?;
        ask(14, row < height, 0, 0)
    };
    part(asked(), || {
        (u64::from(rgb.stride) * u64::from(row), u64::from(width) * u64::from(channels(order)))
    })
}

/// The near chroma row of a luma row in U (0) or V (1): questions 1 to 4, 9 to 12 and 14.
pub fn chroma_row(
    sampling: u32, wanted: u32, (width, height): (u32, u32), (u, v): (Extent, Extent), row: u32,
) -> Part {
    let asked = || {
        ask(1, sampling <= 1, 0, 0)?;
        ask(2, wanted <= 1, 0, 0)?;
        sides(width, height)?;
        let (chroma_width, chroma_height) = chroma_sides(sampling, width, height);
        plane(9, u, chroma_width, chroma_height)?;
        plane(11, v, chroma_width, chroma_height)?;
        ask(14, row < height, 0, 0)
    };
    part(asked(), || {
        let stride = if wanted == 0 { u.stride } else { v.stride };
        let near = near_row(sampling, height, row);
        (u64::from(stride) * u64::from(near), chroma_sides(sampling, width, height).0.into())
    })
}

/// Row 2k of 4:2:0 is nearest to chroma row k, row 2k+1 to the next one, or to the last.
fn near_row(sampling: u32, height: u32, row: u32) -> u32 {
    let last = chroma_sides(sampling, 1, height).1 - 1;
    match (sampling, row % 2) {
        (0, 0) => row / 2,
        (0, _) => (row / 2 + 1).min(last),
        _ => row,
    }
}
