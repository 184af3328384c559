//! Compares bands: of every call all seven numbers, the planes, and every destination element, the
//! kept ones and some around the buffer too; then chains of calls from row 0 with one whole conversion.
//! Rows must be those of the whole picture as the Rust makes it, in matched mode as `src/reading.rs`
//! does. That has the counts of each row too; `src/model.rs` has the questions, how many rows are
//! written and the next first row. Arguments: how many random pictures for each element width, packing
//! and mode, and a seed.
use oracle::cases::{
    around_limits, around_sides, codes, elements, every_code, every_setting, mostly_small, planes,
    request, small_sides, tight_or_spare, usable, Samples, GUARD, MODES, SAMPLES, SIDES, TIGHT,
};
use oracle::library::ConvertBand;
use oracle::tally::{differing, samples_of, status, Tally};
use oracle::{model, random::Random, reading};
use oracle::{Answer, Band, Clipped, Codes, Planes, Request};
use std::ops::Range;
use std::process::ExitCode;

fn main() -> ExitCode {
    let mut arguments = std::env::args().skip(1).map(|text| text.parse().expect("a number"));
    let pictures = arguments.next().unwrap_or(100_000);
    let random = Random(arguments.next().unwrap_or(2025));
    let (tally, counts) = (Tally::default(), Counts::default());
    let mut run = Run { tally, counts, random, pictures, packing: 0, mode: 0 };

    let mut same = run.group("8 bits", (0, 0), &known::<u8>());
    same &= run.group("10 and 12 bits in the low bits", (0, 0), &known::<u16>());
    same &= run.group("10 and 12 bits in the high bits", (1, 0), &known::<u16>());
    same &= run.group("matched, 8 bits", (0, 1), &known::<u8>());
    same &= run.group("matched, 10 and 12 bits in the low bits", (0, 1), &known::<u16>());
    same &= run.group("matched, 10 and 12 bits in the high bits", (1, 1), &known::<u16>());
    let codes: &[Part] = &[("bytes", unknown::<u8>), ("u16", unknown::<u16>)];
    same &= run.group("codes known and unknown", (0, 0), codes);
    status(same)
}

/// Comparisons in groups: each group has its own counts, and one packing and one mode for the codes
/// it draws.
struct Run {
    tally: Tally,
    counts: Counts,
    random: Random,
    pictures: u64,
    packing: u32,
    mode: u32,
}

type Part = (&'static str, fn(&mut Run));

impl Run {
    /// Compares the parts of a group and prints its counts; whether nothing differed.
    fn group(&mut self, name: &str, (packing, mode): (u32, u32), parts: &[Part]) -> bool {
        (self.tally, self.counts) = (Tally::default(), Counts::default());
        (self.packing, self.mode) = (packing, mode);
        for (part, compare) in parts {
            let (pictures, calls) = (self.counts.pictures, self.tally.calls);
            compare(self);
            let (pictures, calls) = (self.counts.pictures - pictures, self.tally.calls - calls);
            println!("{name}, {part}: {pictures} pictures, {calls} calls");
        }
        let same = self.tally.print(&format!("{name}, calls"));
        self.counts.print();
        same
    }

    fn codes<T: ConvertBand>(&mut self) -> Codes {
        Codes { packing: self.packing, mode: self.mode, ..codes::<T>(&mut self.random) }
    }
}

/// Counts beside those of the calls.
#[derive(Default)]
struct Counts {
    pictures: u64,
    refused: u64,
    rows: u64,
    without_rows: u64,
    refused_twice: u64,
    chains: u64,
    chained: u64,
    two_or_more: u64,
    longest: u64,
}

impl Counts {
    /// Counts a call by what it should answer.
    fn call(&mut self, q: &Request, first: u32, wanted: Band) {
        let number = wanted.answer.number;
        self.rows += wanted.rows;
        self.without_rows += u64::from(number == 0 && wanted.rows == 0);
        let twice = !matches!(number, 0 | 19) && model::first_row_refused(q.height, first);
        self.refused_twice += u64::from(twice);
    }

    /// Counts a chain that reached the height.
    fn chain(&mut self, limits: Limits, calls: u32, most: u32) {
        self.chains += 1;
        self.chained += u64::from(calls);
        if limits != Limits::Any {
            self.two_or_more += 1;
            self.longest += u64::from(calls == most);
        }
    }

    fn print(&self) {
        let Counts { pictures, refused, rows, without_rows, refused_twice, .. } = self;
        let Counts { chains, chained, two_or_more, longest, .. } = self;
        println!("  pictures: {pictures}, refused by questions 1 to 13: {refused}");
        println!("  rows written: {rows}; accepted calls that write none: {without_rows}");
        println!(
            "  calls refused by questions 1 to 13 whose first row 19 refuses: {refused_twice}"
        );
        println!(
            "  chains: {chains} of {chained} calls; with limits of 2 or more: {two_or_more}, in \
             ceil(height/2) calls: {longest}"
        );
    }
}

/// A picture that is to be converted in bands: a destination before and after one whole conversion,
/// with elements around it; what is clipped in each row; and what the whole conversion answers.
struct Picture<T> {
    q: Request,
    planes: Planes<T>,
    before: Vec<T>,
    finished: Vec<T>,
    clipped: Vec<Clipped>,
    whole: Answer,
}

/// The destination's place among the elements around it.
fn part(q: &Request) -> Range<usize> {
    GUARD..GUARD + q.rgb.len
}

impl<T: ConvertBand> Picture<T> {
    /// A picture of random samples. The library's whole conversion is compared too.
    fn new(run: &mut Run, kind: Samples, q: Request) -> Picture<T> {
        let planes = planes::<T>(&mut run.random, kind, &q);
        let before: Vec<T> = elements(&mut run.random, q.rgb.len + 2 * GUARD, |bits| bits);
        let (finished, whole, clipped) = (before.clone(), Answer::default(), Vec::new());
        let mut picture = Picture { q, planes, before, finished, clipped, whole };
        let wanted = model::conversion(T::BITS, &q);
        let tied = wanted.number != 0 || picture.finish();
        let wanted = wanted.with(total(&picture.clipped));
        let mut lent = Lent::new(&picture);
        picture.whole = T::convert(&q, &mut lent.planes, &mut lent.ours[part(&q)]);
        lent.wanted.copy_from_slice(&picture.finished);
        run.counts.pictures += 1;
        run.counts.refused += u64::from(wanted.number != 0);
        if picture.whole != wanted || lent.unlike(&picture) || !tied {
            let whole = picture.whole;
            picture.differ(run, &lent, || {
                let tie = if tied { "" } else { "\n  the second reading is not as the Rust's" };
                format!("  as a whole\n  ours   {whole:?}\n  wanted {wanted:?}{tie}")
            });
        }
        picture
    }

    /// Finishes an accepted picture, as the Rust does or in matched mode the second reading; whether
    /// in mode 0 the two agree.
    fn finish(&mut self) -> bool {
        let (q, planes) = (&self.q, &self.planes);
        let rgb = &mut self.finished[part(q)];
        let row = |r: u32| reading::convert_rows(q, planes, rgb, r..r + 1);
        self.clipped = (0..q.height).map(row).collect();
        if q.codes.mode == 1 {
            return true;
        }
        let second = rgb.to_vec();
        T::reference(q, planes, rgb).expect("accepted");
        second == rgb
    }

    /// What a call should answer. The pixels of its rows are put into a destination.
    fn band(&self, rgb: &mut [T], first: u32, limit: u32) -> Band {
        let band = model::band(T::BITS, &self.q, first, limit);
        let rows = first as usize..first as usize + band.rows as usize;
        for row in rows.clone() {
            let start = GUARD + self.q.rgb.stride as usize * row;
            let channels = model::channels(self.q.codes.order) as usize;
            let pixels = start..start + channels * self.q.width as usize;
            rgb[pixels.clone()].copy_from_slice(&self.finished[pixels]);
        }
        let clipped = if band.rows > 0 { total(&self.clipped[rows]) } else { Clipped::default() };
        Band { answer: band.answer.with(clipped), ..band }
    }

    /// Counts a difference, told with what was asked.
    fn differ(&self, run: &mut Run, lent: &Lent<T>, told: impl FnOnce() -> String) {
        let Picture { q, planes, before, .. } = self;
        run.tally.differ(q.y.len + q.u.len + q.v.len + q.rgb.len, || {
            format!("  {q:?}\n{}\n", told())
                + &samples_of(planes, &lent.planes)
                + &differing(before, &lent.ours, &lent.wanted)
        });
    }
}

fn total(rows: &[Clipped]) -> Clipped {
    let mut total = Clipped::default();
    rows.iter().for_each(|row| total += *row);
    total
}

/// What the library is lent: the planes and a destination; and what this should hold.
struct Lent<T> {
    planes: Planes<T>,
    ours: Vec<T>,
    wanted: Vec<T>,
}

impl<T: ConvertBand> Lent<T> {
    fn new(picture: &Picture<T>) -> Lent<T> {
        let Picture { planes, before, .. } = picture;
        Lent { planes: planes.clone(), ours: before.clone(), wanted: before.clone() }
    }

    /// Whether a plane was written to or the destination is not as it should be.
    fn unlike(&self, picture: &Picture<T>) -> bool {
        self.planes != picture.planes || self.ours != self.wanted
    }
}

/// Compares a call; its answer, unless something differs.
fn call<T: ConvertBand>(
    run: &mut Run, picture: &Picture<T>, lent: &mut Lent<T>, first: u32, limit: u32,
) -> Option<Band> {
    let (q, whole) = (&picture.q, picture.whole);
    let band = T::convert_band(q, &mut lent.planes, &mut lent.ours[part(q)], first, limit);
    let wanted = picture.band(&mut lent.wanted, first, limit);
    run.tally.count(wanted.answer.number);
    run.counts.call(q, first, wanted);
    let told = |answer: Answer| (answer.number, answer.expected, answer.received);
    let as_whole = wanted.answer.number == 19 || told(band.answer) == told(whole);
    if band == wanted && as_whole && !lent.unlike(picture) {
        return Some(band);
    }
    picture.differ(run, lent, || {
        let answers = format!("  ours   {band:?}\n  wanted {wanted:?}\n  whole  {whole:?}");
        format!("  first {first}, limit {limit}\n{answers}")
    });
    None
}

/// A call by itself, on a destination that no other call has written to.
fn lone<T: ConvertBand>(run: &mut Run, picture: &Picture<T>, first: u32, limit: u32) {
    call(run, picture, &mut Lent::new(picture), first, limit);
}

/// The limits of a chain: one of 2 or more for all its calls, any of 2 or more, or any at all.
#[derive(Clone, Copy, Debug, PartialEq)]
enum Limits {
    Same(u32),
    TwoOrMore,
    Any,
}

impl Limits {
    fn new(random: &mut Random, height: u32) -> Limits {
        match random.below(4) {
            0 => Limits::Same(random.between(2, 3)),
            1 => Limits::Same(two_or_more(random, height)),
            2 => Limits::TwoOrMore,
            _ => Limits::Any,
        }
    }

    fn next(self, random: &mut Random, height: u32) -> u32 {
        match self {
            Limits::Same(limit) => limit,
            Limits::TwoOrMore => two_or_more(random, height),
            Limits::Any => any_limit(random, height),
        }
    }
}

fn two_or_more(random: &mut Random, height: u32) -> u32 {
    match random.below(16) {
        0 => u32::MAX,
        1..=4 => random.between(2, height.min(16384) + 3),
        _ => random.between(2, 9.max(height.min(16384) / 16)),
    }
}

/// A quarter of 0 and 1, and many odd ones.
fn any_limit(random: &mut Random, height: u32) -> u32 {
    match random.below(4) {
        0 => random.below(2),
        1 => two_or_more(random, height) | 1,
        _ => two_or_more(random, height),
    }
}

/// Calls from row 0 up to the height, each at the next first row, on one destination; then one at the
/// height.
fn chain<T: ConvertBand>(run: &mut Run, picture: &Picture<T>) {
    let height = picture.q.height;
    let (limits, mut lent) = (Limits::new(&mut run.random, height), Lent::new(picture));
    let (mut first, mut calls, mut clipped) = (0, 0, Clipped::default());
    while first < height {
        let limit = limits.next(&mut run.random, height);
        let Some(band) = call(run, picture, &mut lent, first, limit) else { return };
        clipped += band.answer.clipped();
        (first, calls) = (band.next as u32, calls + 1);
    }
    let most = height.div_ceil(2);
    run.counts.chain(limits, calls, most);
    let in_time = limits == Limits::Any || calls <= most;
    lent.wanted.copy_from_slice(&picture.finished);
    if !in_time || clipped != picture.whole.clipped() || lent.unlike(picture) {
        let whole = picture.whole;
        picture.differ(run, &lent, || {
            format!("  {calls} calls, {limits:?}\n  ours  {clipped:?}\n  whole {whole:?}")
        });
    }
    let limit = any_limit(&mut run.random, height);
    call(run, picture, &mut lent, height, limit);
}

/// Compares a chain, if the picture is accepted, and two calls by themselves.
fn compare<T: ConvertBand>(run: &mut Run, kind: Samples, q: Request) {
    let picture = Picture::<T>::new(run, kind, q);
    if !picture.clipped.is_empty() {
        chain(run, &picture);
    }
    for _ in 0..2 {
        let first = any_first(&mut run.random, q.height);
        let limit = any_limit(&mut run.random, q.height);
        lone(run, &picture, first, limit);
    }
}

/// First rows above every height, of which some bytes are those of small rows.
const FAR: [u32; 20] = [
    0x1_0000, 0x1_0001, 0x1_0002, 0x1_0004, 0x2_0000, 0x2_0001, 0x2_0002, 0x3_0000, 0x3_0003,
    0x100_0000, 0x100_0002, 0x7fff_ffff, 0x8000_0000, 0x8000_0001, 0x8000_0002, 0xffff_0000,
    0xffff_0001, 0xffff_0002, 0xffff_fffe, 0xffff_ffff,
];

/// A first row up to the height, mostly even, or one above it.
fn any_first(random: &mut Random, height: u32) -> u32 {
    let height = height.min(16385);
    match random.below(8) {
        0 => random.pick(&FAR),
        1 => random.between(height, height + 4),
        2 | 3 => random.between(0, height),
        _ => 2 * random.between(0, height / 2),
    }
}

/// Pictures of known codes.
fn known<T: ConvertBand>() -> [Part; 6] {
    [
        ("sides 1 to 9, every setting", small::<T>),
        ("sides 1 to 9, every first row", first_rows::<T>),
        ("strides and lengths around every limit", limits::<T>),
        ("sides around 0 and 16384", large::<T>),
        ("random pictures", various::<T>),
        ("widths 1 to 1200 and around 4096", widths::<T>),
    ]
}

fn small<T: ConvertBand>(run: &mut Run) {
    for codes in every_setting::<T>(run.packing, run.mode) {
        for (width, height) in small_sides() {
            let (kind, slack) = (run.random.pick(&SAMPLES), tight_or_spare(&mut run.random));
            compare::<T>(run, kind, request(codes, width, height, slack));
        }
    }
}

/// Every first row up to some above the height, and some far above it; a fifth of the pictures are
/// refused for their weights.
fn first_rows<T: ConvertBand>(run: &mut Run) {
    for ((width, height), n) in small_sides().flat_map(|sides| (0..5).map(move |n| (sides, n))) {
        let codes = Codes { sampling: n % 2, ..usable(run.codes::<T>()) };
        let refused = Codes { matrix: 6, kr: 0.5, kb: 0.5, ..codes };
        let slack = tight_or_spare(&mut run.random);
        let q = request(if n == 4 { refused } else { codes }, width, height, slack);
        let picture = Picture::<T>::new(run, Samples::Any, q);
        for first in (0..height + 5).chain(FAR) {
            for limit in [0, 1, 2, 3, height, u32::MAX] {
                lone(run, &picture, first, limit);
            }
        }
    }
}

fn limits<T: ConvertBand>(run: &mut Run) {
    for slack in around_limits() {
        let (width, height) = (run.random.between(1, 4), run.random.between(1, 5));
        let codes = run.codes::<T>();
        compare::<T>(run, Samples::Any, request(codes, width, height, slack));
    }
}

fn large<T: ConvertBand>(run: &mut Run) {
    for sides in SIDES.iter().flat_map(|w| SIDES.map(|h| (*w, h))) {
        for turn in 0..4 {
            let codes = run.codes::<T>();
            let q = around_sides(&mut run.random, codes, sides, turn > 1);
            compare::<T>(run, Samples::Any, q);
        }
    }
}

fn various<T: ConvertBand>(run: &mut Run) {
    for _ in 0..run.pictures {
        let ((width, height), slack) = mostly_small(&mut run.random);
        let (kind, codes) = (run.random.pick(&SAMPLES), run.codes::<T>());
        compare::<T>(run, kind, request(codes, width, height, slack));
    }
}

/// Every width from 1 to 1,200, in both samplings, up to nine rows high, and those around 4,096: up to
/// there the library has smaller buffers for samples in the high bits.
fn widths<T: ConvertBand>(run: &mut Run) {
    let kinds = [&SAMPLES[..], &[Samples::Mixed]].concat();
    let around = [4094, 4095, 4096, 4097, 4098, 8191, 8192, 8193];
    for (width, sampling) in (1..=1200).chain(around).flat_map(|width| [(width, 0), (width, 1)]) {
        let codes = Codes { sampling, ..usable(run.codes::<T>()) };
        let slack = tight_or_spare(&mut run.random);
        let (kind, height) = (run.random.pick(&kinds), run.random.between(1, 9));
        compare::<T>(run, kind, request(codes, width, height, slack));
    }
}

/// Known and unknown codes in all combinations, with the known modes and another.
fn unknown<T: ConvertBand>(run: &mut Run) {
    for codes in every_code(&MODES[..3]) {
        let Codes { kr, kb, .. } = run.codes::<T>();
        compare::<T>(run, Samples::Any, request(Codes { kr, kb, ..codes }, 2, 3, TIGHT));
    }
}
