//! Times frames against the scalar Rust: one thread, in turns, pixels and counts compared.
use crate::cases::{planes, request, Samples, TIGHT};
use crate::library::Convert;
#[cfg(feature = "bands")]
use crate::{library::ConvertBand, Clipped};
use crate::{random::Random, reading, reference, Answer, Codes, Planes, Request};
use std::hint::black_box;
use std::time::Instant;

#[cfg(feature = "weave")]
pub mod weave;
#[cfg(feature = "y4m")]
pub mod y4m;

/// 8 bits, 4:2:0 to RGBA, limited BT.709.
pub const FRAME: Codes = Codes {
    depth: 8,
    sampling: 0,
    order: 1,
    range: 0,
    matrix: 1,
    packing: 0,
    mode: 0,
    kr: 0.0,
    kb: 0.0,
};

/// The settings of a frame in words.
pub fn name(codes: &Codes) -> String {
    let packing = ["", " high"][codes.packing as usize];
    let sampling = ["4:2:0", "4:2:2"][codes.sampling as usize];
    let order = ["RGB", "RGBA", "BGRA", "BGR"][codes.order as usize];
    format!("{} bits{packing}, {sampling} to {order}", codes.depth)
}

/// The samples of a frame: random within the depth; rising slowly; or, of 8 bits, random within the
/// limited range, with Cb and Cr constant in each patch.
#[derive(Clone, Copy, PartialEq)]
pub enum Content {
    Random,
    Smooth,
    Patches,
}

/// The sides of a patch, in luma samples.
pub const PATCH: u32 = 64;

/// A frame that is to be timed.
#[derive(Clone, Copy)]
pub struct Task {
    pub codes: Codes,
    pub sides: (u32, u32),
    pub content: Content,
}

/// A frame with the pictures that the library and the Rust make of it. Samples in the high bits are
/// divided for the Rust beforehand, so that dividing is not counted for it; for the library it is.
pub struct Frame<T> {
    pub request: Request,
    pub planes: Planes<T>,
    pub ours: Vec<T>,
    pub rust: Vec<T>,
    low: Request,
    divided: Option<Planes<T>>,
    answer: Answer,
    wanted: Answer,
}

impl<T: Convert> Frame<T> {
    /// The frame, converted once by both. Random samples go by the seed.
    pub fn new(Task { codes, sides, content }: Task, seed: u64) -> Frame<T> {
        let q = request(codes, sides.0, sides.1, TIGHT);
        let random = planes(&mut Random(seed), Samples::Within, &q);
        let planes = match content {
            Content::Random => random,
            Content::Smooth => gradient(&q),
            Content::Patches => patches(&q, random),
        };
        let (ours, mut rust) = (vec![T::low(0); q.rgb.len], vec![T::low(1); q.rgb.len]);
        let mut frame = Frame {
            wanted: Answer::default().with(reading::convert(&q, &planes, &mut rust)),
            answer: Answer::default(),
            low: Request { codes: Codes { packing: 0, ..codes }, ..q },
            divided: reference::divided(&codes, &planes),
            request: q,
            planes,
            ours,
            rust,
        };
        frame.convert_ours();
        frame.convert_rust();
        frame
    }

    pub fn convert_ours(&mut self) {
        let request = black_box(&self.request);
        self.answer = black_box(T::convert(request, &mut self.planes, &mut self.ours));
    }

    pub fn convert_rust(&mut self) {
        let planes = self.divided.as_ref().unwrap_or(&self.planes);
        let outcome = T::reference(black_box(&self.low), planes, &mut self.rust);
        black_box(outcome).expect("accepted");
    }

    /// Whether the pixels are the Rust's and the counts those of the second reading.
    pub fn same(&self) -> bool {
        self.answer == self.wanted && self.ours == self.rust
    }
}

#[cfg(feature = "bands")]
impl<T: ConvertBand> Frame<T> {
    /// Converts in bands of at most `limit` rows, up to the last row or to a call that writes none. The
    /// answer has the counts of all.
    fn convert_bands(&mut self, limit: u32) {
        let (mut first, mut clipped) = (0, Clipped::default());
        self.answer = loop {
            let (q, planes) = (black_box(&self.request), &mut self.planes);
            let band = black_box(T::convert_band(q, planes, &mut self.ours, first, limit));
            clipped += band.answer.clipped();
            first = band.next as u32;
            if band.rows == 0 || first >= self.request.height {
                break band.answer.with(clipped);
            }
        };
    }

    /// Whether both ways to convert, each on a destination of 0s, leave the pixels and the counts.
    fn same_in_bands(&mut self, limit: u32) -> bool {
        let mut same = |convert: &dyn Fn(&mut Self)| {
            self.ours.fill(T::low(0));
            convert(self);
            self.same()
        };
        same(&|frame| frame.convert_bands(limit)) && same(&Self::convert_ours)
    }
}

/// Median times in ms, each at its contender's place.
pub type Times = Vec<f64>;

/// The places of the library, of the Rust, and of a copy of as many bytes as the picture has.
pub const OURS: usize = 0;
pub const RUST: usize = 1;
pub const COPY: usize = 2;

/// The times of the first `count` contenders, and whether the pixels and the counts are equal before
/// and after. A batch has as many frames, each with random samples of its own: of one small frame over
/// and over the processor would learn which branch each pixel takes.
pub fn measure(task: Task, count: usize, rounds: usize, batch: usize) -> (Times, bool) {
    match task.codes.depth {
        8 => measure_of::<u8>(task, count, rounds, batch),
        #[cfg(feature = "level_b")]
        _ => measure_of::<u16>(task, count, rounds, batch),
        #[cfg(not(feature = "level_b"))]
        depth => panic!("{depth} bits need level_b"),
    }
}

fn measure_of<T: Convert>(task: Task, count: usize, rounds: usize, batch: usize) -> (Times, bool) {
    let mut frames: Vec<Frame<T>> = (7..).take(batch).map(|seed| Frame::new(task, seed)).collect();
    let same = |frames: &[Frame<T>]| frames.iter().all(Frame::same);
    let first = same(&frames);
    let mut copies: Vec<_> = frames.iter().map(|f| (f.ours.clone(), f.rust.clone())).collect();
    let times = in_turns(count, rounds, batch, |which, i| match which {
        OURS => frames[i].convert_ours(),
        RUST => frames[i].convert_rust(),
        _ => {
            let (from, to) = &mut copies[i];
            black_box(to).copy_from_slice(black_box(from));
        }
    });
    (times, first && same(&frames))
}

/// The times of a frame in bands of at most `limit` rows and as a whole, both by the library and on
/// one destination, and whether the pixels and the counts are equal before and after.
#[cfg(feature = "bands")]
pub fn measure_bands(task: Task, limit: u32, rounds: usize) -> (Times, bool) {
    match task.codes.depth {
        8 => measure_bands_of::<u8>(task, limit, rounds),
        _ => measure_bands_of::<u16>(task, limit, rounds),
    }
}

#[cfg(feature = "bands")]
fn measure_bands_of<T: ConvertBand>(task: Task, limit: u32, rounds: usize) -> (Times, bool) {
    let mut frame = Frame::<T>::new(task, 7);
    let first = frame.same_in_bands(limit);
    let times = in_turns(2, rounds, 1, |which, _| match which {
        0 => frame.convert_bands(limit),
        _ => frame.convert_ours(),
    });
    (times, first && frame.same_in_bands(limit))
}

/// The times of contenders that run in turns, forwards in one round and backwards in the next, so
/// that none always runs after the same other. `run` gets the contender and the call's number in the
/// batch; a time is that of a batch of calls, divided.
pub fn in_turns(
    count: usize, rounds: usize, batch: usize, mut run: impl FnMut(usize, usize),
) -> Times {
    let mut times = vec![Vec::new(); count];
    for turn in 0..count * rounds {
        let (round, place) = (turn / count, turn % count);
        let which = if round % 2 == 0 { place } else { count - 1 - place };
        let start = Instant::now();
        (0..batch).for_each(|i| run(which, i));
        times[which].push(start.elapsed().as_secs_f64() * 1000.0 / batch as f64);
    }
    times.into_iter().map(median).collect()
}

pub fn median(mut times: Vec<f64>) -> f64 {
    times.sort_by(f64::total_cmp);
    times[times.len() / 2]
}

/// Luma rising along the diagonal, Cb along the columns, Cr along the rows.
fn gradient<T: Convert>(q: &Request) -> Planes<T> {
    let max = (1 << if q.codes.packing == 1 { 16 } else { q.codes.depth }) - 1;
    let plane = |len: usize, stride: u32, across: usize, down: usize| {
        let value = move |i: usize| {
            let (row, column) = (i / stride as usize, i % stride as usize);
            (column * across + row * down) * max
                / (stride as usize * across + len / stride as usize * down)
        };
        (0..len).map(|i| T::low(value(i) as u16)).collect()
    };
    [
        plane(q.y.len, q.y.stride, 1, 1),
        plane(q.u.len, q.u.stride, 1, 0),
        plane(q.v.len, q.v.stride, 0, 1),
    ]
}

/// Random samples put into the limited range of 8 bits, where the Cb and Cr of a patch of 4:2:0 are
/// those of its first pixel.
fn patches<T: Convert>(q: &Request, random: Planes<T>) -> Planes<T> {
    let limited = |sample: T, range: i64| T::low(16 + (sample.into() % (range + 1)) as u16);
    let [y, u, v] = random;
    let (side, stride) = (PATCH as usize / 2, q.u.stride as usize);
    let chroma = |plane: Vec<T>| {
        let first = |i: usize| i / stride / side * side * stride + i % stride / side * side;
        (0..plane.len()).map(|i| limited(plane[first(i)], 224)).collect()
    };
    [y.into_iter().map(|sample| limited(sample, 219)).collect(), chroma(u), chroma(v)]
}
