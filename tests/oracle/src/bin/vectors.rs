//! Writes the list that crates/oracle_vectors replays: calls on small buffers, and what the Rust
//! answers to each. Every call is one that the Rust answers itself: known codes, and weights that
//! question 13 lets through. The counts are those of `src/reading.rs`, and in matched mode the picture
//! and the settings used too. Sides are up to 12, in the last calls the width up to 341.
use oracle::cases::{codes, packings, request, Element, Slack, TIGHT};
use oracle::random::Random;
use oracle::{model, reading, reference, Answer, Codes, Extent, Planes, Request};

const COLUMNS: &str = "depth sampling order range matrix packing mode kr kb width height \
    y_stride u_stride v_stride rgb_stride y_len u_len v_len rgb_len seed top ends \
    number expected received below above sum max bias_y bias_uv y cr cb g1 g2";

/// The room that the replaying program has for each buffer.
const ROOM: usize = 1024;

/// The room that it has for the whole list.
const BYTES: usize = 524_288;

/// Of the calls of mode 0 on sides up to 12, every eleventh is left out, so that the list fits.
const LEFT_OUT: u64 = 11;

fn main() {
    let mut list = List::new();
    settings::<u8>(&mut list);
    settings::<u16>(&mut list);
    sides::<u8>(&mut list);
    sides::<u16>(&mut list);
    refusals::<u8>(&mut list);
    refusals::<u16>(&mut list);
    list.told("as in the source");
    matched_settings::<u8>(&mut list);
    matched_settings::<u16>(&mut list);
    matched_refusals::<u8>(&mut list);
    matched_refusals::<u16>(&mut list);
    list.told("then matched");
    wide::<u8>(&mut list);
    wide::<u16>(&mut list);
    list.told("then of wide rows, in both modes");
    let text = format!("{COLUMNS}\n{}\n", list.lines.join("\n"));
    assert!(text.len() < BYTES);
    print!("{text}");
    eprintln!("{} answers in {} bytes", list.lines.len(), text.len());
    eprintln!("by number: {:?}", list.by_number);
    eprintln!("in the high bits: {}", list.high);
    let [none, below, above, both] = list.clipped;
    eprintln!("accepted with neither count: {none}, with below alone: {below},");
    eprintln!("with above alone: {above}, with both: {both}");
}

struct List {
    random: Random,
    lines: Vec<String>,
    drawn: u64,
    told: usize,
    by_number: [u32; 13],
    clipped: [u32; 4],
    high: u32,
}

impl List {
    fn new() -> List {
        let (random, lines) = (Random(2024), Vec::new());
        List { random, lines, drawn: 0, told: 0, by_number: [0; 13], clipped: [0; 4], high: 0 }
    }

    /// Tells how many answers were added since it last told.
    fn told(&mut self, what: &str) {
        eprintln!("{} answers {what}", self.lines.len() - self.told);
        self.told = self.lines.len();
    }
}

/// Elements whose sum is taken.
trait Summed: Element + Into<u64> {}
impl Summed for u8 {}
impl Summed for u16 {}

/// The sequence that fills the buffers: Y, U, V, then the destination.
struct Sequence(u64);

impl Sequence {
    /// Samples from 0 to `top`; where `ends` is set, those two only.
    fn fill<T: Element>(&mut self, len: usize, top: u64, ends: bool) -> Vec<T> {
        let mut sample = || {
            self.0 = (self.0 * 1103515245 + 12345) % (1 << 31);
            let level = (self.0 >> 15) % (top + 1);
            match (ends, level % 2) {
                (false, _) => level,
                (true, 0) => 0,
                (true, _) => top,
            }
        };
        (0..len).map(|_| T::low(sample() as u16)).collect()
    }
}

/// A polynomial modulo the largest prime below 2^32.
fn sum<T: Summed>(buffer: &[T]) -> u64 {
    let numbers = buffer.iter().map(|element| Into::<u64>::into(*element));
    numbers.fold(0, |sum, number| (sum * 2147483629 + number + 1) % 4294967291)
}

/// Adds a call with its answer, unless it is one to leave out.
fn add<T: Summed>(list: &mut List, q: Request, top: u64, ends: bool) {
    list.drawn += 1;
    if q.codes.mode == 1 || q.width > 12 || list.drawn % LEFT_OUT > 0 {
        keep::<T>(list, q, top, ends);
    }
}

fn keep<T: Summed>(list: &mut List, mut q: Request, top: u64, ends: bool) {
    assert!(fits(&q));
    if q.codes.matrix < 6 {
        (q.codes.kr, q.codes.kb) = (0.0, 0.0);
    }
    let seed = list.drawn;
    let mut sequence = Sequence(seed);
    let planes: Planes<T> = [q.y, q.u, q.v].map(|plane| sequence.fill(plane.len, top, ends));
    let mut rgb: Vec<T> = sequence.fill(q.rgb.len, most::<T>(), false);
    let mut second = rgb.clone();
    let outcome = T::reference(&q, &planes, &mut rgb);
    // The Rust has one name for 9 to 12: which of them it is follows from their order.
    let mut answer = model::conversion(T::BITS, &q);
    assert!(reference::agrees(&outcome, answer), "{q:?}: {outcome:?}, {answer:?}");
    list.by_number[answer.number as usize] += 1;
    list.high += q.codes.packing;
    if answer.number == 0 {
        answer = answer.with(reading::convert(&q, &planes, &mut second));
        list.clipped[usize::from(answer.below > 0) + 2 * usize::from(answer.above > 0)] += 1;
        if q.codes.mode == 0 {
            assert_eq!(rgb, second, "{q:?}");
        }
    }
    let numbers = line(&q, [seed, top, ends.into()], answer, sum(&second));
    list.lines.push(numbers.map(|number| number.to_string()).join(" "));
}

/// Whether the replaying program has room for the buffers.
fn fits(q: &Request) -> bool {
    [q.y, q.u, q.v, q.rgb].iter().all(|buffer| buffer.len <= ROOM)
}

#[rustfmt::skip]
fn line(q: &Request, [seed, top, ends]: [u64; 3], answer: Answer, sum: u64) -> [u64; 36] {
    let c = &q.codes;
    let s = reading::settings(c);
    let small = |number: u32| u64::from(number);
    [
        small(c.depth), small(c.sampling), small(c.order), small(c.range), small(c.matrix),
        small(c.packing), small(c.mode), small(c.kr.to_bits()), small(c.kb.to_bits()),
        small(q.width), small(q.height),
        small(q.y.stride), small(q.u.stride), small(q.v.stride), small(q.rgb.stride),
        q.y.len as u64, q.u.len as u64, q.v.len as u64, q.rgb.len as u64, seed, top, ends,
        answer.number, answer.expected, answer.received, answer.below, answer.above, sum,
        small(s.max), small(s.bias_y), small(s.bias_uv),
        small(s.y), small(s.cr), small(s.cb), small(s.g1), small(s.g2),
    ]
}

/// Codes whose weights the Rust can take.
fn usable<T: Element>(random: &mut Random) -> Codes {
    loop {
        let c = codes::<T>(random);
        let positive = c.kr.is_sign_positive() && c.kb.is_sign_positive();
        if c.matrix < 6 || positive && model::usable(c.depth, c.range, c.kr, c.kb) {
            return c;
        }
    }
}

/// Strides and lengths somewhat above their limits.
fn spare(random: &mut Random) -> [Slack; 4] {
    [(); 4].map(|_| (random.below(6).into(), random.below(30).into()))
}

/// The largest element.
fn most<T: Element>() -> u64 {
    (1 << T::BITS) - 1
}

/// Samples within the depth, at its ends, and up to the element's width. In the high bits every
/// element is within the depth.
fn fillings<T: Element>(codes: &Codes) -> [(u64, bool); 3] {
    let within = if codes.packing == 1 { most::<T>() } else { (1 << codes.depth) - 1 };
    [(within, false), (within, true), (most::<T>(), false)]
}

/// Every setting with every kind of samples, on buffers at and above their limits; u16 samples of
/// each kind once in each packing.
fn settings<T: Summed>(list: &mut List) {
    for n in 0..16 * 8 * T::DEPTHS.len() as u32 {
        let depth = T::DEPTHS[n as usize / 128];
        for kind in 0..3 {
            let random = &mut list.random;
            let drawn = usable::<T>(random);
            let (sampling, order, range) = (n % 2, n / 2 % 4, n / 8 % 2);
            let mut c = Codes { depth, sampling, order, range, matrix: n / 16 % 8, ..drawn };
            if c.matrix > 5 {
                let custom = |c: &Codes| (c.matrix, c.depth, c.range) == (6, depth, range);
                let weights = (0..).map(|_| usable::<T>(random)).find(custom).unwrap();
                c = Codes { matrix: 6, kr: weights.kr, kb: weights.kb, ..c };
            }
            let (width, height) = (random.between(1, 12), random.between(1, 12));
            for (turn, slack) in [TIGHT, spare(random)].into_iter().enumerate() {
                let known = packings(depth);
                let c = Codes { packing: known[(kind + turn) % known.len()], ..c };
                let (top, ends) = fillings::<T>(&c)[kind];
                add::<T>(list, request(c, width, height, slack), top, ends);
            }
        }
    }
}

/// All sides from 1 to 12.
fn sides<T: Summed>(list: &mut List) {
    for (width, height) in (0..144).map(|n| (n % 12 + 1, n / 12 + 1)) {
        for sampling in 0..2 {
            let c = Codes { sampling, ..usable::<T>(&mut list.random) };
            let (top, ends) = list.random.pick(&fillings::<T>(&c));
            add::<T>(list, request(c, width, height, TIGHT), top, ends);
        }
    }
}

/// Sides of 0; each stride and each length one below its limit, with and without another fault;
/// strides up to the largest.
fn refusals<T: Summed>(list: &mut List) {
    for n in 0..20 {
        let c = usable::<T>(&mut list.random);
        let side = list.random.below(12);
        let (width, height) = if n % 2 == 0 { (0, side) } else { (side, 0) };
        add::<T>(list, request(c, width, height, TIGHT), most::<T>(), false);
    }
    for n in 0..400 {
        let random = &mut list.random;
        let (c, mut slack) = (usable::<T>(random), spare(random));
        let (width, height) = (random.between(1, 12), random.between(1, 12));
        let faults = [n % 8, if n % 3 == 0 { random.below(8) } else { n % 8 }];
        for fault in faults {
            let (stride, len) = &mut slack[fault as usize / 2];
            *if fault % 2 == 0 { stride } else { len } = -1;
        }
        add::<T>(list, request(c, width, height, slack), most::<T>(), false);
    }
    for n in 0..60 {
        let random = &mut list.random;
        let (c, slack) = (usable::<T>(random), spare(random));
        let height = random.pick(&[1, 1, 2, 7]);
        let mut q = request(c, random.between(1, 12), height, slack);
        let stride = random.pick(&[0, 1 << 31, u32::MAX]);
        let buffers: [&mut Extent; 4] = [&mut q.rgb, &mut q.y, &mut q.u, &mut q.v];
        buffers[n % 4].stride = stride;
        add::<T>(list, q, most::<T>(), false);
    }
}

/// Matched mode: every setting of the named matrices and some of Custom, widths even and odd.
fn matched_settings<T: Summed>(list: &mut List) {
    for &depth in T::DEPTHS {
        for (n, &packing) in (0..112).flat_map(|n| packings(depth).iter().map(move |p| (n, p))) {
            let (sampling, order, range, matrix) = (n % 2, n / 2 % 4, n / 8 % 2, n / 16);
            if matrix == 6 && order > 1 {
                continue;
            }
            let random = &mut list.random;
            let fits = |c: &Codes| (c.matrix, c.depth, c.range) == (matrix, depth, range);
            let c = (0..).map(|_| usable::<T>(random)).find(fits).unwrap();
            let c = Codes { sampling, order, packing, mode: 1, ..c };
            let width = 2 * random.between(1, 6) - (order + range) % 2;
            let slack = if random.below(2) == 0 { TIGHT } else { spare(random) };
            let (height, (top, ends)) = (random.between(1, 12), random.pick(&fillings::<T>(&c)));
            add::<T>(list, request(c, width, height, slack), top, ends);
        }
    }
}

/// Matched mode: a side of 0; each stride and each length one below its limit.
fn matched_refusals<T: Summed>(list: &mut List) {
    for n in 0..18 {
        let random = &mut list.random;
        let (c, mut slack) = (Codes { mode: 1, ..usable::<T>(random) }, spare(random));
        let (mut width, height) = (random.between(1, 12), random.between(1, 12));
        match n % 9 {
            8 => width = 0,
            fault if fault % 2 == 0 => slack[fault / 2].0 = -1,
            fault => slack[fault / 2].1 = -1,
        }
        add::<T>(list, request(c, width, height, slack), most::<T>(), false);
    }
}

/// Widths from 17 on, up to three rows high, in every depth, packing, order, sampling and mode. Of u16
/// samples some are up to 4,100, so that few of a row are above 4,095.
fn wide<T: Summed>(list: &mut List) {
    for &depth in T::DEPTHS {
        for (n, &packing) in (0..48).flat_map(|n| packings(depth).iter().map(move |p| (n, p))) {
            let (sampling, order, mode) = (n % 2, n / 2 % 4, n / 8 % 2);
            let random = &mut list.random;
            let drawn = (0..).map(|_| usable::<T>(random)).find(|c| c.depth == depth).unwrap();
            let c = Codes { sampling, order, packing, mode, ..drawn };
            let mixed = [(4100.min(most::<T>()), false)];
            let filling = random.pick(&[&fillings::<T>(&c)[..], &mixed].concat());
            let mut draw = || {
                let slack = if random.below(2) == 0 { TIGHT } else { spare(random) };
                request(c, random.between(17, 341), random.between(1, 3), slack)
            };
            let q = (0..).map(|_| draw()).find(fits).unwrap();
            add::<T>(list, q, filling.0, filling.1);
        }
    }
}
