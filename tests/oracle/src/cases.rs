//! What is compared: element widths, samples, buffers at and around their limits, weights.
use crate::random::Random;
use crate::reference::Reference;
use crate::{model, Codes, Extent, Planes, Request};

/// An element of a plane.
pub trait Element: Reference + PartialEq + Into<i64> {
    const BITS: u32;
    const DEPTHS: &'static [u32];
    fn low(value: u16) -> Self;
}

impl Element for u8 {
    const BITS: u32 = 8;
    const DEPTHS: &'static [u32] = &[8];
    fn low(value: u16) -> u8 {
        value as u8
    }
}

impl Element for u16 {
    const BITS: u32 = 16;
    const DEPTHS: &'static [u32] = &[10, 12];
    fn low(value: u16) -> u16 {
        value
    }
}

/// Samples up to M, up to the element's width, or from the ends of both and the biases. In the high
/// bits any element is a sample up to M, and the ends have only 0s or only 1s below them. Mixed
/// samples are up to M, but for a few around 4,096 or far above it.
#[derive(Clone, Copy, Debug, PartialEq)]
pub enum Samples {
    Within,
    Any,
    Extreme,
    Mixed,
}

pub const SAMPLES: [Samples; 3] = [Samples::Within, Samples::Any, Samples::Extreme];

/// `len` elements, each made of 16 random bits.
pub fn elements<T: Element>(
    random: &mut Random, len: usize, element: impl Fn(u16) -> u16,
) -> Vec<T> {
    let mut all = Vec::with_capacity(len + 3);
    while all.len() < len {
        let bits = random.bits();
        all.extend((0..4).map(|lane| T::low(element((bits >> (16 * lane)) as u16))));
    }
    all.truncate(len);
    all
}

/// The three planes of a request.
pub fn planes<T: Element>(random: &mut Random, kind: Samples, q: &Request) -> Planes<T> {
    let depth = q.codes.depth.clamp(8, 16);
    let shift = if q.codes.packing == 1 { 16 - depth } else { 0 };
    let max = (u32::MAX >> (32 - depth)) as u16;
    let (bias_y, bias_c) = (16 << (depth - 8), 1 << (depth - 1));
    let ends = [0, 1, bias_y, bias_c - 1, bias_c, max - 1, max, u16::MAX];
    let below = [0, (1 << shift) - 1];
    let element = |bits: u16| match kind {
        Samples::Within | Samples::Mixed if shift == 0 => bits & max,
        Samples::Within | Samples::Mixed | Samples::Any => bits,
        Samples::Extreme => ends[usize::from(bits % 8)] << shift | below[usize::from(bits / 8 % 2)],
    };
    q.planes().map(|plane| {
        let mut samples = elements(random, plane.len, element);
        if kind == Samples::Mixed && plane.len > 0 {
            for _ in 0..random.below(4) {
                let large = random.between(4096, u32::from(u16::MAX)) as u16;
                let at = random.below(plane.len as u32) as usize;
                samples[at] = T::low(random.pick(&[4095, 4096, u16::MAX, large]));
            }
        }
        samples
    })
}

/// Elements before and after a destination, which a conversion is not given.
pub const GUARD: usize = 16;

/// Buffers of random elements, with such elements around them.
pub fn guarded<T: Element>(random: &mut Random, planes: [Extent; 3]) -> Planes<T> {
    planes.map(|plane| elements(random, plane.len + 2 * GUARD, |bits| bits))
}

/// The parts of buffers that are lent: all but the elements around them.
pub fn parts<T>(buffers: &mut Planes<T>) -> [&mut [T]; 3] {
    buffers.each_mut().map(|buffer| part(buffer, 0))
}

/// That part of one buffer, from a place on.
pub fn part<T>(buffer: &mut [T], from: usize) -> &mut [T] {
    let end = buffer.len() - GUARD;
    &mut buffer[GUARD + from..end]
}

/// How far a stride and a length lie above their limits.
pub type Slack = (i64, i64);

pub const TIGHT: [Slack; 4] = [(0, 0); 4];

/// A buffer for rows of `row` elements.
pub fn extent(row: u32, rows: u32, (stride, len): Slack) -> Extent {
    let stride = (i64::from(row) + stride).clamp(0, u32::MAX.into());
    let needed = stride * (i64::from(rows) - 1).max(0) + i64::from(row);
    Extent { len: (needed + len).max(0) as usize, stride: stride as u32 }
}

/// A request with the slack of the destination, Y, U and V.
pub fn request(codes: Codes, width: u32, height: u32, slack: [Slack; 4]) -> Request {
    let (chroma_width, chroma_height) = model::chroma_sides(codes.sampling, width, height);
    Request {
        codes,
        width,
        height,
        rgb: extent(width * model::channels(codes.order.min(3)), height, slack[0]),
        y: extent(width, height, slack[1]),
        u: extent(chroma_width, chroma_height, slack[2]),
        v: extent(chroma_width, chroma_height, slack[3]),
    }
}

/// Strides and lengths somewhat above their limits.
pub fn spare(random: &mut Random) -> [Slack; 4] {
    [(); 4].map(|_| (random.below(6).into(), random.below(30).into()))
}

/// Strides and lengths at their limits or somewhat above.
pub fn tight_or_spare(random: &mut Random) -> [Slack; 4] {
    if random.below(2) == 0 {
        TIGHT
    } else {
        spare(random)
    }
}

/// Stride and length of each of the four buffers one below, at and one above the limit, all together.
pub fn around_limits() -> impl Iterator<Item = [Slack; 4]> {
    (0..6561).map(|n| {
        let digit = |place: u32| i64::from(n / 3u32.pow(place) % 3) - 1;
        [0, 2, 4, 6].map(|place| (digit(place), digit(place + 1)))
    })
}

/// Sides from 1 to 9.
pub fn small_sides() -> impl Iterator<Item = (u32, u32)> {
    (0..81).map(|n| (n % 9 + 1, n / 9 + 1))
}

/// Sides up to 200, mostly small, with slack; a fifth have a buffer below or far above a limit.
pub fn mostly_small(random: &mut Random) -> ((u32, u32), [Slack; 4]) {
    let most = random.pick(&[4, 9, 9, 17, 17, 17, 33, 33, 64, 200]);
    let sides = (random.between(1, most), random.between(1, most));
    let mut slack = spare(random);
    if random.below(5) == 0 {
        slack[random.below(4) as usize].0 = i64::from(random.below(40)) - 3;
        slack[random.below(4) as usize].1 = i64::from(random.below(900)) - 30;
    }
    (sides, slack)
}

/// The request with a few elements in place of buffers longer than `most`.
pub fn tiny(random: &mut Random, most: usize, mut q: Request) -> Request {
    for extent in [&mut q.y, &mut q.u, &mut q.v, &mut q.rgb] {
        if extent.len > most {
            extent.len = random.below(20) as usize;
        }
    }
    q
}

/// Sides around 0 and 16,384.
pub const SIDES: [u32; 10] = [0, 1, 2, 3, 16383, 16384, 16385, 65536, 1 << 31, u32::MAX];

/// A request of such sides, with strides that fit or, if asked for, some that do not, up to the
/// largest.
pub fn around_sides(
    random: &mut Random, codes: Codes, (width, height): (u32, u32), some_strange: bool,
) -> Request {
    let side = |side: u32| side.min(16385);
    let tight = request(codes, side(width), side(height), TIGHT);
    let mut q = tiny(random, 300_000, Request { width, height, ..tight });
    for extent in [&mut q.y, &mut q.u, &mut q.v, &mut q.rgb] {
        if some_strange && random.below(4) == 0 {
            *extent = strange(random, *extent);
        }
    }
    q
}

/// An extent with another length and another stride.
pub fn strange(random: &mut Random, extent: Extent) -> Extent {
    let len = random.pick(&[0, 1, extent.len / 2, extent.len, extent.len + 100]);
    let stride = random.pick(&[0, 1, extent.stride, 1 << 31, u32::MAX]);
    Extent { len, stride }
}

/// The packings that are known at a depth.
pub fn packings(depth: u32) -> &'static [u32] {
    if depth == 8 {
        &[0]
    } else {
        &[0, 1]
    }
}

/// Known codes of mode 0, with weights.
pub fn codes<T: Element>(random: &mut Random) -> Codes {
    let (depth, range) = (random.pick(T::DEPTHS), random.below(2));
    let (kr, kb) = weights(random, depth, range);
    let (sampling, order, matrix) = (random.below(2), random.below(4), random.below(7));
    let packing = random.pick(packings(depth));
    Codes { depth, sampling, order, range, matrix, packing, mode: 0, kr, kb }
}

/// The codes, with a named matrix in place of Custom weights that question 13 refuses.
pub fn usable(codes: Codes) -> Codes {
    let usable = model::usable(codes.depth, codes.range, codes.kr, codes.kb);
    let matrix = if usable { codes.matrix } else { codes.matrix % 6 };
    Codes { matrix, ..codes }
}

/// Every setting of a packing and a mode, with two pairs of Custom weights, one of them refused.
pub fn every_setting<T: Element>(packing: u32, mode: u32) -> Vec<Codes> {
    let matrices = (0..6).map(|matrix| (matrix, 0.0, 0.0)).chain([(6, 0.35, 0.05), (6, 0.5, 0.5)]);
    let mut all = Vec::new();
    for (matrix, kr, kb) in matrices {
        for n in 0..16 {
            let (sampling, order, range) = (n % 2, n / 2 % 4, n / 8);
            for &depth in T::DEPTHS {
                all.push(Codes { depth, sampling, order, range, matrix, packing, mode, kr, kb });
            }
        }
    }
    all
}

pub const DEPTHS: [u32; 15] = [0, 1, 7, 8, 9, 10, 11, 12, 13, 14, 16, 32, 264, 266, u32::MAX];
pub const SAMPLINGS: [u32; 6] = [0, 1, 2, 3, 256, u32::MAX];
const ORDERS: [u32; 8] = [0, 1, 2, 3, 4, 5, 256, u32::MAX];
const RANGES: [u32; 6] = [0, 1, 2, 3, 256, u32::MAX];
const MATRICES: [u32; 13] = [0, 1, 2, 3, 4, 5, 6, 7, 8, 9, 256, 262, u32::MAX];
const PACKINGS: [u32; 6] = [0, 1, 2, 3, 256, u32::MAX];
pub const MODES: [u32; 6] = [0, 1, 2, 3, 256, u32::MAX];

/// Known and unknown codes in all combinations, with some of the modes.
pub fn every_code(modes: &[u32]) -> impl Iterator<Item = Codes> + '_ {
    let lists: [&[u32]; 7] = [&DEPTHS, &SAMPLINGS, &ORDERS, &RANGES, &MATRICES, &PACKINGS, modes];
    (0..lists.iter().map(|list| list.len()).product()).map(move |n: usize| {
        let mut rest = n;
        let [depth, sampling, order, range, matrix, packing, mode] = lists.map(|list| {
            let code = list[rest % list.len()];
            rest /= list.len();
            code
        });
        Codes { depth, sampling, order, range, matrix, packing, mode, kr: 0.0, kb: 0.0 }
    })
}

const fn bits(bits: u32) -> f32 {
    f32::from_bits(bits)
}

/// Weights at and beyond the ends: signed zeros, the neighbours of 0 and 1, subnormal and normal
/// ends, infinities, NaNs, and some plain ones.
#[rustfmt::skip]
pub const EDGES: [f32; 40] = [
    0.0, -0.0, 1.0, -1.0, 2.0, -2.0, 0.5, 0.25, 0.75, 0.4, 0.6, 0.3, 0.299, 0.114, 0.2126, 0.0722,
    0.9, 0.1, 1e-20, -1e-20, 1e-30, 1e10, f32::MIN, f32::MAX, f32::INFINITY, f32::NEG_INFINITY,
    f32::MIN_POSITIVE, -f32::MIN_POSITIVE, bits(0x0000_0001), bits(0x8000_0001), bits(0x007f_ffff),
    bits(0x807f_ffff), bits(0x3f7f_ffff), bits(0x3f80_0001), bits(0x3f7f_fffe), bits(0x3380_0000),
    bits(0x7fc0_0000), bits(0xffc0_0000), bits(0x7f80_0001), bits(0xff80_0001),
];

/// Weights that question 13 lets through, in the middle and at the limit, and others.
pub fn weights(random: &mut Random, depth: u32, range: u32) -> (f32, f32) {
    let kr = random.unit();
    match random.below(4) {
        0 => (random.pick(&EDGES), random.pick(&EDGES)),
        1 => (kr, limit(depth, range, kr)),
        2 => (limit(depth, range, kr), kr),
        _ => (0.9 * kr, random.unit() * (0.9 - 0.9 * kr)),
    }
}

/// The last kb that question 13 lets through beside kr.
pub fn limit(depth: u32, range: u32, kr: f32) -> f32 {
    let (mut yes, mut no) = (0, 1f32.to_bits());
    while no - yes > 1 {
        let middle = (yes + no) / 2;
        if model::usable(depth, range, kr, bits(middle)) {
            yes = middle;
        } else {
            no = middle;
        }
    }
    bits(yes)
}
