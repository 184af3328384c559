//! The library and the Rust beside what else is installed: times, and how far blue lies from the
//! exact equation.
use crate::peers;
use oracle::cases::{request, TIGHT};
use oracle::timing::{in_turns, Content, Frame, Task, Times, FRAME, OURS, PATCH, RUST};
use oracle::{reading, Request};

/// A converter, and the distances on each of the contents.
pub struct Other {
    pub name: String,
    pub chroma: &'static str,
    pub distances: Vec<Distance>,
}

/// How far blue lies from the exact equation, in codes.
pub struct Distance {
    pub largest: f64,
    pub mean: f64,
}

const CONTENTS: [Content; 3] = [Content::Random, Content::Smooth, Content::Patches];

/// The proved bound of 8 bits.
const BOUND: f64 = 1.6;

const SIDES: (u32, u32) = (1920, 1080);
const SEED: u64 = 7;

fn task(content: Content) -> Task {
    Task { codes: FRAME, sides: SIDES, content }
}

fn differ() -> String {
    "pixels or counts differ beside the others".into()
}

/// The times of all converters, in the order of `all`.
pub fn times(rounds: usize) -> Result<Times, String> {
    let mut frame = Frame::<u8>::new(task(Content::Random), SEED);
    let q = frame.request;
    let mut peers = peers::linked(&q);
    let times = in_turns(2 + peers.len(), rounds, 1, |which, _| match which {
        OURS => frame.convert_ours(),
        RUST => frame.convert_rust(),
        other => peers[other - 2].convert(&q, &frame.planes),
    });
    frame.same().then_some(times).ok_or_else(differ)
}

/// The library, the Rust and the peers that are linked.
pub fn all() -> Result<Vec<Other>, String> {
    let ours = "bilinear, sample k at 2k − 1/2";
    let mut all = vec![("Dethrowg".into(), ours), ("the scalar Rust".into(), ours)];
    let peers = peers::linked(&request(FRAME, SIDES.0, SIDES.1, TIGHT));
    all.extend(peers.into_iter().map(|peer| (peer.name, peer.chroma)));
    let other = |(name, chroma)| Other { name, chroma, distances: Vec::new() };
    let mut all: Vec<Other> = all.into_iter().map(other).collect();
    for content in CONTENTS {
        let distances = distances(content)?;
        all.iter_mut().zip(distances).for_each(|(other, d)| other.distances.push(d));
    }
    Ok(all)
}

/// The distances of all converters, in the order of `all`.
fn distances(content: Content) -> Result<Vec<Distance>, String> {
    let frame = Frame::<u8>::new(task(content), SEED);
    let exact = Exact::new(&frame, content);
    let mut distances = vec![exact.distance(&frame.ours), exact.distance(&frame.rust)];
    for mut peer in peers::linked(&frame.request) {
        peer.convert(&frame.request, &frame.planes);
        distances.push(exact.distance(&peer.rgb));
    }
    let largest = distances[OURS].largest;
    if largest >= BOUND {
        return Err(format!("blue lies {largest} codes from the exact equation"));
    }
    frame.same().then_some(distances).ok_or_else(differ)
}

/// The pixels that are compared, by place, with the blue of the exact equation.
struct Exact(Vec<(usize, f64)>);

impl Exact {
    /// All pixels; of patches those that are at least 4 away from the patch's edge, where it does not
    /// matter how chroma is interpolated.
    fn new(frame: &Frame<u8>, content: Content) -> Exact {
        let Request { width, height, .. } = frame.request;
        let inside =
            |side: u32| content != Content::Patches || (4..PATCH - 4).contains(&(side % PATCH));
        let pixels = (0..height).flat_map(|r| (0..width).map(move |c| (r, c)));
        let pixels = pixels.filter(|(r, c)| inside(*r) && inside(*c));
        let blue = |(r, c)| {
            ((r * width + c) as usize, reading::exact_blue(&frame.request, &frame.planes, r, c))
        };
        Exact(pixels.map(blue).collect())
    }

    /// Of a picture in R, G, B, A.
    fn distance(&self, rgb: &[u8]) -> Distance {
        let away = |(place, blue): &(usize, f64)| (f64::from(rgb[4 * place + 2]) - blue).abs();
        let largest = self.0.iter().map(away).fold(0.0, f64::max);
        Distance { largest, mean: self.0.iter().map(away).sum::<f64>() / self.0.len() as f64 }
    }
}
