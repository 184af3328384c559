//! Compares the weave of two chroma planes, and its undoing, with `src/weave.rs`, a second reading of
//! document 02: of every call all five numbers, and every element of the three planes, the kept ones and
//! some around the buffers too. What the library wove it must unweave, and what it unwove it must weave.
//! Arguments: how many random calls for each element width, and a seed.
use oracle::cases::{
    guarded, mostly_small, parts, strange, tight_or_spare, Element, Slack, GUARD, SIDES,
};
use oracle::library::weave::Weave;
use oracle::random::Random;
use oracle::tally::{differing_planes, status, Tally};
use oracle::weave::{Call, NAMES, WAYS};
use oracle::{Answer, Planes};
use std::process::ExitCode;

fn main() -> ExitCode {
    let mut arguments = std::env::args().skip(1).map(|text| text.parse().expect("a number"));
    let calls = arguments.next().unwrap_or(1_000_000);
    let random = Random(arguments.next().unwrap_or(2028));
    let (tally, counts) = (Tally::default(), Counts::default());
    let mut run = Run { tally, counts, random, calls };

    let mut same = run.group("8 bits", &all::<u8>());
    same &= run.group("16 bits", &all::<u16>());
    let most: &[Part] = &[("both sides 16,384", largest), ("more than 2^32 elements", far)];
    same &= run.group("8 bits, the most", most);
    status(same)
}

type Part = (&'static str, fn(&mut Run));

/// The parts of an element width.
fn all<T: Weave>() -> [Part; 6] {
    [
        ("small sides, planes around every limit", around_limits::<T>),
        ("all widths up to 1,200", all_widths::<T>),
        ("sides around 0 and 16,384", around_sides::<T>),
        ("large planes", large::<T>),
        ("random", random::<T>),
        ("there and back", there_and_back::<T>),
    ]
}

/// Comparisons in groups, each with its own counts.
struct Run {
    tally: Tally,
    counts: Counts,
    random: Random,
    calls: u64,
}

impl Run {
    /// Compares the parts of a group and prints its counts; whether nothing differed.
    fn group(&mut self, name: &str, parts: &[Part]) -> bool {
        (self.tally, self.counts) = (Tally::default(), Counts::default());
        for (part, compare) in parts {
            let (calls, accepted) = (self.tally.calls, self.counts.accepted);
            compare(self);
            let (calls, accepted) = (self.tally.calls - calls, self.counts.accepted - accepted);
            println!("{name}, {part}: {calls} calls, {accepted} accepted");
        }
        let same = self.tally.print(&format!("{name}, calls"));
        self.counts.print();
        same
    }
}

/// Counts beside those of the calls.
#[derive(Default)]
struct Counts {
    accepted: u64,
    written: u64,
    samples: u64,
    alone: [[u64; 2]; 3],
    twice: [u64; 2],
    restored: [u64; 2],
}

impl Counts {
    /// Counts a call by the number that it should answer, and where a later refusal holds too: of a
    /// plane, where it would hold with the nearest sides that 3 and 4 accept.
    fn call(&mut self, call: &Call, number: u64) {
        let near = |side: u32| side.clamp(1, 16_384);
        let (width, height) = (near(call.width), near(call.height));
        let faults = Call { width, height, ..*call }.faults();
        match number {
            0 => {
                self.accepted += 1;
                self.written += call.way.destinations().len() as u64;
                self.samples += 2 * u64::from(width) * u64::from(height);
            }
            22 => self.alone(faults),
            _ => {
                let above = number == 3 && call.width.max(call.height) > 16_384;
                let twice = above || faults.as_flattened().contains(&true);
                self.twice[number as usize - 3] += u64::from(twice);
            }
        }
    }

    /// Counts the plane, and its stride or its length, for which alone a call was refused.
    fn alone(&mut self, faults: [[bool; 2]; 3]) {
        let mut all = (0..6).filter(|n| faults[n / 2][n % 2]);
        if let (Some(n), None) = (all.next(), all.next()) {
            self.alone[n / 2][n % 2] += 1;
        }
    }

    fn print(&self) {
        let Counts { written, samples, alone, twice, restored, .. } = self;
        println!("  planes written: {written}, with {samples} samples");
        if twice[0] > 0 {
            let alone = |i: usize| alone.map(|counts| counts[i]);
            let (strides, lengths) = (alone(0), alone(1));
            println!(
                "  22 for the stride of U, V or woven alone: {strides:?}; the length: {lengths:?}"
            );
            println!("  3 where 4 or 22 holds too: {}; 4 where 22 does: {}", twice[0], twice[1]);
        }
        if restored[0] > 0 {
            println!("  there and back: {}, with {} samples", restored[0], restored[1]);
        }
    }
}

/// Compares a call on random buffers.
fn compare<T: Weave>(run: &mut Run, call: &Call) {
    let seed = run.random.bits();
    compare_on::<T>(run, call, || guarded(&mut Random(seed), call.planes));
}

/// Compares a call on buffers with elements around them; the library's answer, and its buffers.
fn compare_on<T: Weave>(
    run: &mut Run, call: &Call, before: impl Fn() -> Planes<T>,
) -> (Answer, Planes<T>) {
    let mut left = before();
    let mut right = left.clone();
    let answers = [T::run(call, parts(&mut left)), call.run(parts(&mut right))];
    count::<T>(run, call, answers, left == right, || {
        differing_planes(NAMES, &before(), &left, &right)
    });
    (answers[0], left)
}

/// Counts a call by the library's answer and the second reading's, and by whether the planes are equal.
fn count<T: Element>(
    run: &mut Run, call: &Call, [ours, wanted]: [Answer; 2], same: bool,
    planes: impl FnOnce() -> String,
) {
    run.tally.count(wanted.number);
    run.counts.call(call, wanted.number);
    if ours != wanted || !same {
        run.tally.differ(size(call), || {
            format!("{}  ours   {ours:?}\n  wanted {wanted:?}\n{}", text::<T>(call), planes())
        });
    }
}

fn size(call: &Call) -> usize {
    call.planes.iter().map(|plane| plane.len).sum()
}

fn text<T: Element>(call: &Call) -> String {
    let Call { way, width, height, planes: [u, v, woven] } = call;
    let planes = format!("U {u:?}, V {v:?}, woven {woven:?}");
    format!("  {way:?}, {} bits, {width} by {height}, {planes}\n", T::BITS)
}

/// So far below its limit that a stride or a length is 0.
const NONE: i64 = -1_000_000;

/// How far strides and lengths lie above their limits.
const STRIDES: [i64; 5] = [NONE, -1, 0, 1, 3];
const LENGTHS: [i64; 5] = [NONE, -1, 0, 1, 7];

const TIGHT: [Slack; 3] = [(0, 0); 3];

/// Sides from 0 to 9, with the strides and the lengths of all three planes together.
fn around_limits<T: Weave>(run: &mut Run) {
    let slack = |n: usize| (STRIDES[n % 5], LENGTHS[n / 5 % 5]);
    for sides in (0..100).map(|n| (n % 10, n / 10)) {
        for n in 0..25usize.pow(3) {
            let slack = [n, n / 25, n / 25 / 25].map(slack);
            WAYS.iter().for_each(|way| compare::<T>(run, &Call::new(*way, sides, slack)));
        }
    }
}

/// Strides and lengths at their limits or somewhat above.
fn fitting(random: &mut Random) -> [Slack; 3] {
    let [slack @ .., _] = tight_or_spare(random);
    slack
}

/// Rows of all lengths, so that all forms of the row's code occur.
fn all_widths<T: Weave>(run: &mut Run) {
    for sides in (1..=1200).flat_map(|width| [1, 2, 3].map(|height| (width, height))) {
        for way in WAYS {
            let slack = fitting(&mut run.random);
            compare::<T>(run, &Call::new(way, sides, slack));
        }
    }
}

/// Sides around 0 and 16,384, with planes that fit, at most 300,000 elements long, and with others.
fn around_sides<T: Weave>(run: &mut Run) {
    for (width, height) in SIDES.iter().flat_map(|width| SIDES.map(|height| (*width, height))) {
        let near = (width.min(16_385), height.min(16_385));
        for (n, way) in (0..20).flat_map(|n| WAYS.map(|way| (n, way))) {
            let mut call = Call { width, height, ..Call::new(way, near, TIGHT) };
            for plane in &mut call.planes {
                if plane.len > 300_000 {
                    plane.len = run.random.below(20) as usize;
                }
                if n > 0 && run.random.below(4) == 0 {
                    *plane = strange(&mut run.random, *plane);
                }
            }
            compare::<T>(run, &call);
        }
    }
}

/// Planes of the largest width and of the largest height.
fn large<T: Weave>(run: &mut Run) {
    for sides in [1, 2, 3, 200].iter().flat_map(|side| [(16_384, *side), (*side, 16_384)]) {
        WAYS.iter().for_each(|way| compare::<T>(run, &Call::new(*way, sides, TIGHT)));
    }
}

/// Sides up to 200, mostly small; a fifth have a plane below or far above a limit, and some a strange
/// one.
fn random<T: Weave>(run: &mut Run) {
    for _ in 0..run.calls {
        let (sides, [slack @ .., _]) = mostly_small(&mut run.random);
        let mut call = Call::new(run.random.pick(&WAYS), sides, slack);
        if run.random.below(20) == 0 {
            let plane = run.random.below(3) as usize;
            call.planes[plane] = strange(&mut run.random, call.planes[plane]);
        }
        compare::<T>(run, &call);
    }
}

/// What a call wrote, brought back by the other way into planes of other strides: their samples must be
/// those that it was written from.
fn there_and_back<T: Weave>(run: &mut Run) {
    for _ in 0..run.calls / 4 {
        let (sides, _) = mostly_small(&mut run.random);
        let way = run.random.pick(&WAYS);
        let [there, mut back] =
            [way, way.back()].map(|way| Call::new(way, sides, fitting(&mut run.random)));
        let before = guarded::<T>(&mut run.random, there.planes);
        let (first, mut between) = compare_on(run, &there, || before.clone());
        let mut lent = guarded(&mut run.random, back.planes);
        for i in way.destinations() {
            back.planes[i] = there.planes[i];
            std::mem::swap(&mut lent[i], &mut between[i]);
        }
        let (second, after) = compare_on(run, &back, || lent.clone());
        let same = came_back((&there, &before), (&back, &after));
        run.counts.restored[0] += 1;
        run.counts.restored[1] += 2 * u64::from(sides.0) * u64::from(sides.1);
        if [first, second] != [Answer::default(); 2] || !same {
            run.tally.differ(size(&there), || {
                let answers = format!("  there {first:?}\n  back  {second:?}\n");
                let calls = text::<T>(&there) + &text::<T>(&back);
                format!("{calls}{answers}  samples as before: {same}\n")
            });
        }
    }
}

/// Whether the samples that one call read are those that the other wrote.
fn came_back<T: Element>(
    (there, before): (&Call, &Planes<T>), (back, after): (&Call, &Planes<T>),
) -> bool {
    there.way.sources().all(|i| {
        let mut rows = there.rows(i).zip(back.rows(i));
        rows.all(|(from, to)| before[i][GUARD..][from] == after[i][GUARD..][to])
    })
}

/// Planes of the largest sides.
fn largest(run: &mut Run) {
    WAYS.iter().for_each(|way| compare::<u8>(run, &Call::new(*way, (16_384, 16_384), TIGHT)));
}

/// Each plane in turn with the largest stride and two rows, so that the last one ends past 2^32
/// elements. Only the rows and the elements around them are looked at; the others stay 0, in pages that
/// take no memory.
fn far(run: &mut Run) {
    for (far, way) in (0..3).flat_map(|far| WAYS.map(|way| (far, way))) {
        let mut slack = TIGHT;
        slack[far].0 = u32::MAX.into();
        let call = Call::new(way, (5, 2), slack);
        let seed = run.random.bits();
        let [mut left, mut right] = [(); 2].map(|_| sparse(&mut Random(seed), &call));
        let answers = [u8::run(&call, parts(&mut left)), call.run(parts(&mut right))];
        let same = (0..3).all(|i| {
            let mut around = call.rows(i).map(|row| row.start..row.end + 2 * GUARD);
            around.all(|part| left[i][part.clone()] == right[i][part])
        });
        count::<u8>(run, &call, answers, same, || format!("  elements equal: {same}\n"));
    }
}

/// Buffers of 0s, with elements around them, whose rows are random.
fn sparse(random: &mut Random, call: &Call) -> Planes<u8> {
    [0, 1, 2].map(|i| {
        let mut buffer = vec![0; call.planes[i].len + 2 * GUARD];
        for row in call.rows(i) {
            buffer[GUARD..][row].fill_with(|| random.bits() as u8);
        }
        buffer
    })
}
