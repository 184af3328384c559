//! Pictures and what was clipped in them, in both modes: a second reading of documents 01 and 02 in
//! whole numbers of 64 bits, written from their text. Only the biases, and the coefficients that
//! matched mode leaves as they are, come from the Rust.
use crate::cases::Element;
use crate::{model, reference, Clipped, Codes, Planes, Request, SettingsUsed};
use std::ops::Range;

/// The settings that a conversion uses, of codes that no question refuses.
pub fn settings(codes: &Codes) -> SettingsUsed {
    let source = reference::settings(codes);
    match row(codes) {
        Some([y, cr, cb, g1, g2]) if codes.mode == 1 && smpte240_at_8_bits(codes) => {
            SettingsUsed { y, cr, cb, g1, g2, ..source }
        }
        _ => source,
    }
}

/// The settings whose coefficients are not the Rust's in matched mode.
pub fn smpte240_at_8_bits(codes: &Codes) -> bool {
    (codes.depth, codes.matrix) == (8, 3)
}

/// kr and kb of the matrices that the source stores rows for, in ten-thousandths.
const WEIGHTS: [(u64, u64); 5] = [(2990, 1140), (2126, 722), (2627, 593), (2120, 870), (2220, 713)];

/// y, cr, cb, g1 and g2 of known codes that the source stores a row for: each exact coefficient times
/// 8192, to the nearest whole number. In mode 0 `Smpte240` has its weights exchanged.
pub fn row(codes: &Codes) -> Option<[u32; 5]> {
    let matrices = if codes.depth == 8 { 5 } else { 3 };
    let (mut kr, mut kb) = *WEIGHTS[..matrices].get(codes.matrix as usize)?;
    if codes.matrix == 3 && codes.mode == 0 {
        (kr, kb) = (kb, kr);
    }
    let (kg, step) = (10_000 - kr - kb, 1 << (codes.depth - 8));
    let max = 256 * step - 1;
    let (range_y, range_c) = if codes.range == 0 { (219 * step, 224 * step) } else { (max, max) };
    let outer = |k: u64| nearest(8192 * 2 * (10_000 - k) * max, 10_000 * range_c);
    let inner = |k: u64| nearest(8192 * 2 * (10_000 - k) * k * max, 10_000 * kg * range_c);
    Some([nearest(8192 * max, range_y), outer(kr), outer(kb), inner(kr), inner(kb)])
}

/// The whole number nearest to n / d, which must not lie halfway between two.
fn nearest(n: u64, d: u64) -> u32 {
    assert_ne!(2 * n % (2 * d), d);
    ((2 * n + d) / (2 * d)) as u32
}

/// The letters of a pixel in each channel order: 0 red, 1 green, 2 blue, 3 alpha.
const LETTERS: [&[usize]; 4] = [&[0, 1, 2], &[0, 1, 2, 3], &[2, 1, 0, 3], &[2, 1, 0]];

/// The picture of a request that no question refuses: its pixels are written, all else is kept. Told
/// is how many of its colour components had a quotient, rounded down and not yet clamped, below 0 and
/// above M.
pub fn convert<T: Element>(q: &Request, planes: &Planes<T>, rgb: &mut [T]) -> Clipped {
    convert_rows(q, planes, rgb, 0..q.height)
}

/// The same of some rows of the picture.
pub fn convert_rows<T: Element>(
    q: &Request, planes: &Planes<T>, rgb: &mut [T], rows: Range<u32>,
) -> Clipped {
    let s = settings(&q.codes);
    let [max, bias_y, bias_c] = [s.max, s.bias_y, s.bias_uv].map(i64::from);
    let [y_coef, cr_coef, cb_coef, g1, g2] = [s.y, s.cr, s.cb, s.g1, s.g2].map(i64::from);
    let letters = LETTERS[q.codes.order as usize];
    let mut clipped = Clipped::default();
    for (r, c) in rows.flat_map(|r| (0..q.width).map(move |c| (r, c))) {
        let luma = y_coef * (sample(q, &planes[0], q.y.stride, r, c) - bias_y);
        let cb = chroma(q, Chroma::Cb, &planes[1], q.u.stride, r, c) - bias_c;
        let cr = chroma(q, Chroma::Cr, &planes[2], q.v.stride, r, c) - bias_c;
        let sums = [luma + cr_coef * cr, luma - g1 * cr - g2 * cb, luma + cb_coef * cb];
        let quotients = sums.map(|sum| (sum + 4096).div_euclid(8192));
        for quotient in quotients {
            clipped.below += u64::from(quotient < 0);
            clipped.above += u64::from(quotient > max);
        }
        let [red, green, blue] = quotients.map(|quotient| quotient.clamp(0, max));
        let start = place(q.rgb.stride, r, letters.len() as u32 * c);
        for (element, letter) in rgb[start..].iter_mut().zip(letters) {
            *element = T::low([red, green, blue, max][*letter] as u16);
        }
    }
    clipped
}

/// The place of a row's element in its buffer.
pub(crate) fn place(stride: u32, row: u32, column: u32) -> usize {
    stride as usize * row as usize + column as usize
}

/// A sample of a plane. One in the high bits is divided by 2^(16 - depth), rounding down.
fn sample<T: Element>(q: &Request, plane: &[T], stride: u32, row: u32, column: u32) -> i64 {
    let element: i64 = plane[place(stride, row, column)].into();
    if q.codes.packing == 1 {
        element >> (16 - q.codes.depth)
    } else {
        element
    }
}

#[derive(Clone, Copy, PartialEq)]
enum Chroma {
    Cb,
    Cr,
}

/// Cb or Cr of the pixel at row r and column c, blended and rounded down.
fn chroma<T: Element>(q: &Request, which: Chroma, plane: &[T], stride: u32, r: u32, c: u32) -> i64 {
    let (sum, weights) = blended(q, which, plane, stride, r, c);
    (sum + weights / 2) / weights
}

/// Cb or Cr before it is rounded: the weighted sum of its samples, and the sum of the weights.
fn blended<T: Element>(
    q: &Request, which: Chroma, plane: &[T], stride: u32, r: u32, c: u32,
) -> (i64, i64) {
    let (near, far) = chroma_rows(q, r);
    let (k, side) = (c / 2, c % 2);
    let at = |row: u32, column: u32| sample(q, plane, stride, row, column);
    match (two_rows(q, r), tail(q, c)) {
        (false, true) => (at(near, k), 1),
        // as in the source, Cr's tail has the weights the other way round
        (true, true) if q.codes.mode == 0 && which == Chroma::Cr => {
            (at(near, k) + 3 * at(far, k), 4)
        }
        (true, true) => (3 * at(near, k) + at(far, k), 4),
        (false, false) => {
            let (a, b) = (at(near, k), at(near, k + 1));
            match side {
                0 => (3 * a + b, 4),
                _ => (a + 3 * b, 4),
            }
        }
        (true, false) => {
            let (a, b, c, e) = (at(near, k), at(near, k + 1), at(far, k), at(far, k + 1));
            match side {
                0 => (9 * a + 3 * b + 3 * c + e, 16),
                _ => (3 * a + 9 * b + c + 3 * e, 16),
            }
        }
    }
}

/// Document 01's exact equation of blue at row r and column c, of 8 bits, limited BT.709: chroma
/// blended but not rounded, the value clamped.
pub fn exact_blue(q: &Request, planes: &Planes<u8>, r: u32, c: u32) -> f64 {
    let (max, bias_y, bias_c, range_y, range_c, kb) = (255.0, 16.0, 128.0, 219.0, 224.0, 0.0722);
    let luma = sample(q, &planes[0], q.y.stride, r, c) as f64;
    let (sum, weights) = blended(q, Chroma::Cb, &planes[1], q.u.stride, r, c);
    let cb = sum as f64 / weights as f64;
    let value = (luma - bias_y) * max / range_y + 2.0 * (1.0 - kb) * (cb - bias_c) * max / range_c;
    value.clamp(0.0, max)
}

/// The near and the far chroma row of luma row r; the same one twice where only one is used.
fn chroma_rows(q: &Request, r: u32) -> (u32, u32) {
    if q.codes.sampling == 1 {
        return (r, r);
    }
    let last = model::chroma_sides(0, q.width, q.height).1 - 1;
    let (first, second) = (r / 2, (r / 2 + 1).min(last));
    match r % 2 {
        0 => (first, second),
        _ => (second, first),
    }
}

/// Whether luma row r blends two chroma rows: in 4:2:0 all but an odd last row.
fn two_rows(q: &Request, r: u32) -> bool {
    q.codes.sampling == 0 && r + q.height % 2 < q.height
}

/// Whether column c has no chroma sample after its own.
fn tail(q: &Request, c: u32) -> bool {
    c / 2 + 1 >= model::chroma_sides(0, q.width, q.height).0
}

/// The pixels, by row and column, whose Cr matched mode blends by other weights than the Rust.
pub fn two_row_tail(q: &Request) -> impl Iterator<Item = (u32, u32)> + '_ {
    let rows = (0..q.height).filter(|r| two_rows(q, *r));
    rows.flat_map(|r| (0..q.width).filter(|c| tail(q, *c)).map(move |c| (r, c)))
}
