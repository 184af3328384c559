//! Compares whole conversions: every destination element, the kept ones too, number, expected,
//! received, below and above. The pixels of mode 0 are compared with the Rust, those of matched mode
//! with `src/reading.rs`, and with the Rust too where the two must agree. The counts of both modes are
//! compared with `src/reading.rs`, whose own pixels of mode 0 must be the Rust's. Arguments: how many
//! random pictures for each element width and packing (in matched mode three fifths of it), and a
//! seed.
use oracle::cases::{
    around_limits, around_sides, codes, elements, every_code, every_setting, mostly_small, planes,
    request, small_sides, spare, tight_or_spare, tiny, usable, Samples, GUARD, MODES, SAMPLES,
    SIDES, TIGHT,
};
use oracle::library::Convert;
use oracle::tally::{differing, samples_of, status, Tally};
use oracle::{model, random::Random, reading, reference};
use oracle::{Answer, Codes, Planes, Request};
use std::process::ExitCode;

fn main() -> ExitCode {
    let mut arguments = std::env::args().skip(1).map(|text| text.parse().expect("a number"));
    let pictures = arguments.next().unwrap_or(500_000);
    let random = Random(arguments.next().unwrap_or(2024));
    let (tally, counts, beside) = (Tally::default(), Counts::default(), Beside::default());
    let mut run = Run { tally, counts, beside, random, pictures, packing: 0, mode: 0 };

    let triples: Part = ("every Y, Cb and Cr in 12 settings", every_triple);
    let mut same = run.group("8 bits", (0, 0), &[&known::<u8>()[..], &[triples]].concat());
    #[cfg(feature = "level_b")]
    {
        same &= run.group("10 and 12 bits in the low bits", (0, 0), &known::<u16>());
        same &= run.group("10 and 12 bits in the high bits", (1, 0), &known::<u16>());
    }
    let codes: &[Part] = &[
        ("bytes", unknown::<u8>),
        #[cfg(feature = "level_b")]
        ("u16", unknown::<u16>),
    ];
    same &= run.group("codes known and unknown", (0, 0), codes);

    run.pictures = run.pictures * 3 / 5;
    let triples: Part = ("every Y, Cb and Cr of Smpte240", every_triple);
    let parts = [&known::<u8>()[..5], &[triples]].concat();
    same &= run.group("matched, 8 bits", (0, 1), &parts);
    #[cfg(feature = "level_b")]
    {
        let parts = &known::<u16>()[..5];
        same &= run.group("matched, 10 and 12 bits in the low bits", (0, 1), parts);
        same &= run.group("matched, 10 and 12 bits in the high bits", (1, 1), parts);
    }
    let codes: &[Part] = &[
        ("bytes", other_modes::<u8>),
        #[cfg(feature = "level_b")]
        ("u16", other_modes::<u16>),
    ];
    same &= run.group("codes with modes known and unknown", (0, 0), codes);
    status(same)
}

/// Comparisons in groups: each group has its own counts, and one packing and one mode for the codes
/// it draws.
struct Run {
    tally: Tally,
    counts: Counts,
    beside: Beside,
    random: Random,
    pictures: u64,
    packing: u32,
    mode: u32,
}

type Part = (&'static str, fn(&mut Run));

impl Run {
    /// Compares the parts of a group and prints its counts; whether nothing differed.
    fn group(&mut self, name: &str, (packing, mode): (u32, u32), parts: &[Part]) -> bool {
        (self.tally, self.counts) = (Tally::default(), Counts::default());
        self.beside = Beside::default();
        (self.packing, self.mode) = (packing, mode);
        for (part, compare) in parts {
            let before = self.tally.calls;
            compare(self);
            println!("{name}, {part}: {} compared", self.tally.calls - before);
        }
        let same = self.tally.print(name);
        self.counts.print();
        self.beside.print();
        same
    }

    fn codes<T: Convert>(&mut self) -> Codes {
        Codes { packing: self.packing, mode: self.mode, ..codes::<T>(&mut self.random) }
    }
}

/// Counts of accepted pictures: what was clipped in them, and how those of mode 0 come out in the
/// second reading.
#[derive(Default)]
struct Counts {
    pictures: u64,
    components: u64,
    below: u64,
    above: u64,
    clipped: [u64; 4],
    as_source: u64,
    unlike: u64,
}

impl Counts {
    /// Counts a picture by its answer.
    fn count(&mut self, q: &Request, answer: Answer) {
        self.pictures += 1;
        self.components += 3 * u64::from(q.width) * u64::from(q.height);
        self.below += answer.below;
        self.above += answer.above;
        self.clipped[usize::from(answer.below > 0) + 2 * usize::from(answer.above > 0)] += 1;
    }

    /// Counts a picture of mode 0 that the second reading and the Rust have made.
    fn tie(&mut self, same: bool) {
        self.as_source += 1;
        self.unlike += u64::from(!same);
    }

    fn print(&self) {
        let Counts { pictures, components, below, above, clipped, as_source, unlike } = self;
        let [neither, below_alone, above_alone, both] = clipped;
        println!("  clipped: {below} components below and {above} above, of {components}");
        println!(
            "    accepted pictures: {pictures}; with neither: {neither}, below alone: \
             {below_alone}, above alone: {above_alone}, both: {both}"
        );
        if *as_source > 0 {
            println!("  the second reading and the Rust: {as_source} pictures, {unlike} different");
        }
    }
}

/// Counts of matched pictures beside the Rust's, which they equal outside the two-row tails, but for
/// `Smpte240` at 8 bits.
#[derive(Default)]
struct Beside {
    pictures: u64,
    unlike: u64,
    elements: u64,
    different: u64,
    without_tail: u64,
}

impl Beside {
    /// Counts a picture, and how many elements differ where they must not.
    fn count<T: Convert>(&mut self, q: &Request, ours: &[T], rust: &[T]) -> usize {
        self.pictures += 1;
        self.unlike += u64::from(ours != rust);
        if reading::smpte240_at_8_bits(&q.codes) {
            return 0;
        }
        let channels = model::channels(q.codes.order) as usize;
        let (mut outside, mut inside) = (rust.to_vec(), 0);
        for (row, column) in reading::two_row_tail(q) {
            let start = q.rgb.stride as usize * row as usize + channels * column as usize;
            let pixel = start..start + channels;
            outside[pixel.clone()].copy_from_slice(&ours[pixel]);
            inside += channels;
        }
        let different = outside.iter().zip(ours).filter(|(rust, ours)| rust != ours).count();
        self.elements += (ours.len() - inside) as u64;
        self.different += different as u64;
        self.without_tail += u64::from(inside == 0);
        different
    }

    fn print(&self) {
        let Beside { pictures, unlike, elements, different, without_tail } = self;
        if *pictures > 0 {
            println!("  matched pictures: {pictures}, not as the Rust's: {unlike}");
            println!("  of these but Smpte240 at 8 bits, with the Rust's outside two-row tails:");
            println!("    {elements} elements compared, {different} different");
            println!("    {without_tail} pictures without such a tail, so compared whole");
        }
    }
}

/// Pictures of known codes.
fn known<T: Convert>() -> [Part; 6] {
    [
        ("sides 1 to 9, every setting", small::<T>),
        ("strides and lengths around every limit", limits::<T>),
        ("sides around 0 and 16384", large::<T>),
        ("random pictures", various::<T>),
        ("widths 1 to 1200", widths::<T>),
        ("large pictures", megapixels::<T>),
    ]
}

fn compare<T: Convert>(run: &mut Run, kind: Samples, q: Request) {
    let planes = planes::<T>(&mut run.random, kind, &q);
    compare_planes(run, q, &planes);
}

fn compare_planes<T: Convert>(run: &mut Run, q: Request, planes: &Planes<T>) {
    let before: Vec<T> = elements(&mut run.random, q.rgb.len + 2 * GUARD, |bits| bits);
    let part = GUARD..GUARD + q.rgb.len;
    let (mut ours, mut lent) = (before.clone(), planes.clone());
    let (mut source, mut second) = (before.clone(), before.clone());
    let answer = T::convert(&q, &mut lent, &mut ours[part.clone()]);
    let mut model = model::conversion(T::BITS, &q);
    run.tally.count(answer.number);
    if answer.number == 2 {
        run.tally.count_alone(model::alone(T::DEPTHS, &q.codes));
    }
    let rust = match model.number {
        1 | 2 | 4 | 13 => None,
        _ => Some(T::reference(&q, planes, &mut source[part.clone()])),
    };
    let rust_agrees = rust.iter().all(|outcome| reference::agrees(outcome, answer));
    let (mut outside, mut tied) = (0, true);
    if model.number == 0 {
        model = model.with(reading::convert(&q, planes, &mut second[part.clone()]));
        run.counts.count(&q, model);
        if q.codes.mode == 0 {
            tied = second == source;
            run.counts.tie(tied);
        } else {
            outside = run.beside.count(&q, &ours[part.clone()], &source[part]);
        }
    }
    let wanted = if q.codes.mode == 0 { source } else { second };
    let pixels = ours == wanted && outside == 0 && tied;
    if answer == model && rust_agrees && lent == *planes && pixels {
        return;
    }
    run.tally.differ(q.y.len + q.u.len + q.v.len + q.rgb.len, || {
        let answers = format!("  ours  {answer:?}\n  model {model:?}\n  Rust  {rust:?}\n");
        format!("  {q:?}\n{answers}")
            + &samples_of(planes, &lent)
            + &differing(&before, &ours, &wanted)
            + &format!("  not as the Rust's outside the two-row tails: {outside}\n")
            + if tied { "" } else { "  the second reading is not as the Rust's\n" }
    });
}

fn small<T: Convert>(run: &mut Run) {
    let settings = every_setting::<T>(run.packing, run.mode);
    for (width, height) in small_sides() {
        for codes in &settings {
            for kind in SAMPLES {
                compare::<T>(run, kind, request(*codes, width, height, TIGHT));
                let slack = spare(&mut run.random);
                compare::<T>(run, kind, request(*codes, width, height, slack));
            }
        }
    }
}

fn limits<T: Convert>(run: &mut Run) {
    for (width, height) in [(1, 1), (2, 1), (1, 2), (2, 2), (3, 3), (4, 3)] {
        for slack in around_limits() {
            for (sampling, order) in [(0, 0), (0, 1), (1, 2), (1, 3)] {
                let codes = Codes { sampling, order, ..run.codes::<T>() };
                compare::<T>(run, Samples::Any, request(codes, width, height, slack));
            }
        }
    }
}

/// Known and unknown codes in all combinations, on sides that pass and sides that do not.
fn unknown<T: Convert>(run: &mut Run) {
    for (width, height) in [(2, 2), (0, 2), (2, 0), (16385, 1), (0, 16385)] {
        combinations::<T>(run, &MODES[..1], width, height);
    }
}

/// The same with every other mode.
fn other_modes<T: Convert>(run: &mut Run) {
    for (width, height) in [(2, 3), (0, 2)] {
        combinations::<T>(run, &MODES[1..], width, height);
    }
}

fn combinations<T: Convert>(run: &mut Run, modes: &[u32], width: u32, height: u32) {
    for codes in every_code(modes) {
        let Codes { kr, kb, .. } = run.codes::<T>();
        let q = request(Codes { kr, kb, ..codes }, width, height, TIGHT);
        let q = tiny(&mut run.random, 100, q);
        compare::<T>(run, Samples::Any, q);
    }
}

fn large<T: Convert>(run: &mut Run) {
    for sides in SIDES.iter().flat_map(|w| SIDES.map(|h| (*w, h))) {
        for turn in 0..40 {
            let codes = run.codes::<T>();
            let q = around_sides(&mut run.random, codes, sides, turn > 0);
            compare::<T>(run, Samples::Any, q);
        }
    }
}

fn various<T: Convert>(run: &mut Run) {
    for _ in 0..run.pictures {
        let ((width, height), slack) = mostly_small(&mut run.random);
        let (kind, codes) = (run.random.pick(&SAMPLES), run.codes::<T>());
        compare::<T>(run, kind, request(codes, width, height, slack));
    }
}

/// Every width from 1 to 1,200, up to four rows high, in every order and sampling with every kind of
/// samples. The library converts the pairs of a row in groups of up to 256, of eights of pairs and with
/// what is left over, rows of few pairs otherwise, and u16 groups of samples below 4,096 otherwise than
/// others: all of these occur.
fn widths<T: Convert>(run: &mut Run) {
    let kinds = [&SAMPLES[..], &[Samples::Mixed]].concat();
    for (width, n) in (1..=1200).flat_map(|width| (0..8).map(move |n| (width, n))) {
        for kind in &kinds {
            let codes = Codes { sampling: n % 2, order: n / 2, ..usable(run.codes::<T>()) };
            let slack = tight_or_spare(&mut run.random);
            let height = run.random.between(1, 4);
            compare::<T>(run, *kind, request(codes, width, height, slack));
        }
    }
}

/// 20 million pixels of each depth, at least half of them with samples up to the element's width.
fn megapixels<T: Convert>(run: &mut Run) {
    for &depth in T::DEPTHS {
        for turn in 0..20 {
            let codes = Codes { depth, matrix: turn % 7, kr: 0.9, kb: 0.01, ..run.codes::<T>() };
            let kind = if turn < 10 { Samples::Any } else { Samples::Within };
            compare::<T>(run, kind, request(codes, 1001, 1001, TIGHT));
        }
    }
}

/// All 2^24 triples of Y, Cb and Cr at 8 bits, in each named setting, in matched mode in those of
/// `Smpte240`: a row for each Cb and Cr, a column for each Y. Chroma is the same along a row, so that
/// blending keeps it.
fn every_triple(run: &mut Run) {
    let chroma =
        |of: &dyn Fn(usize) -> usize| (0..16384 * 128).map(|i| of(i / 128) as u8).collect();
    let settings = if run.mode == 0 { 0..12 } else { 6..8 };
    for (matrix, range) in settings.map(|n| (n / 2, n % 2)) {
        for quarter in 0..4 {
            let codes = Codes { sampling: 1, range, matrix, ..run.codes::<u8>() };
            let luma = (0..16384 * 256).map(|i| i as u8).collect();
            let u = chroma(&|row| quarter * 64 + row / 256);
            let v = chroma(&|row| row % 256);
            compare_planes(run, request(codes, 256, 16384, TIGHT), &[luma, u, v]);
        }
    }
}
