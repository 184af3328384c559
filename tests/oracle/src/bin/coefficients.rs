//! Compares the settings used, named and Custom, with those of the Rust, in matched mode with
//! `src/reading.rs`, and with questions 1, 2 and 13; the stored rows also with their formula.
use oracle::cases::{every_code, limit, packings, EDGES, MODES};
use oracle::{
    library, model, random::Random, reading, reference, tally::Tally, Codes, SettingsUsed,
};
use std::process::ExitCode;

const DEPTHS: [u32; 3] = [8, 10, 12];

fn main() -> ExitCode {
    let mut tally = Tally::default();
    by_formula(&mut tally);
    named_and_unknown(&mut tally);
    let mut random = Random(2024);
    for depth in DEPTHS {
        for range in 0..2 {
            let pairs = pairs(&mut random, depth, range);
            println!("depth {depth}, range {range}: {} Custom pairs", pairs.len());
            for (kr, kb) in pairs {
                let (sampling, order) = (random.below(2), random.below(4));
                let (matrix, packing) = (6, random.pick(packings(depth)));
                for mode in 0..2 {
                    let codes =
                        Codes { depth, sampling, order, range, matrix, packing, mode, kr, kb };
                    compare(&mut tally, codes);
                }
            }
        }
    }
    tally.finish("settings")
}

fn compare(tally: &mut Tally, codes: Codes) {
    let Codes { depth, range, matrix, kr, kb, .. } = codes;
    let ours = library::settings(&codes);
    let mut wanted = model::settings(&codes);
    if wanted.number == 0 {
        wanted = reading::settings(&codes);
    }
    tally.count(ours.number);
    if ours.number == 2 {
        tally.count_alone(model::alone(&DEPTHS, &codes));
    }
    let text = |what: &str| {
        let (kr, kb) = (kr.to_bits(), kb.to_bits());
        format!("  {what} {codes:?}, kr {kr:#010x}, kb {kb:#010x}\n  ours   {ours:?}\n  wanted {wanted:?}")
    };
    if ours != wanted {
        tally.differ(0, || text("the library on"));
    }
    if matrix == 6 && wanted.number == 0 {
        if five(&wanted).map(i64::from) != model::computed(depth, range, kr, kb) {
            tally.differ(1, || text("the model, not the library, on"));
        }
    }
}

/// The rows that the source stores, by the formula of document 02's slip 6, which stops where a
/// coefficient lies halfway between two whole numbers.
fn by_formula(tally: &mut Tally) {
    let mut rows = [0, 0];
    for depth in DEPTHS {
        for code in 0..2 * 7 * 2 {
            let (range, matrix, mode) = (code % 2, code / 2 % 7, code / 14);
            let (sampling, order, packing, kr, kb) = (0, 0, 0, 0.0, 0.0);
            let codes = Codes { depth, sampling, order, range, matrix, packing, mode, kr, kb };
            let Some(row) = reading::row(&codes) else { continue };
            rows[mode as usize] += 1;
            if five(&library::settings(&codes)) != row {
                tally.differ(0, || format!("  the library on {codes:?}\n  wanted {row:?}"));
            }
            if mode == 0 && five(&reference::settings(&codes)) != row {
                tally.differ(1, || format!("  the Rust on {codes:?}\n  wanted {row:?}"));
            }
        }
    }
    println!(
        "stored rows by formula: {} of mode 0, {} matched, no number halfway",
        rows[0], rows[1]
    );
}

fn five(s: &SettingsUsed) -> [u32; 5] {
    [s.y, s.cr, s.cb, s.g1, s.g2]
}

/// Known and unknown codes in all combinations. The named matrices ignore the weights.
fn named_and_unknown(tally: &mut Tally) {
    const WEIGHTS: [(f32, f32); 5] =
        [(0.0, 0.0), (0.25, 0.25), (0.5, 0.5), (f32::NAN, 0.5), (-1.0, f32::INFINITY)];
    for codes in every_code(&MODES) {
        for (kr, kb) in WEIGHTS {
            compare(tally, Codes { kr, kb, ..codes });
        }
    }
}

/// Weights of Custom: edges of every kind, and random ones around every limit.
fn pairs(random: &mut Random, depth: u32, range: u32) -> Vec<(f32, f32)> {
    let mut all: Vec<(f32, f32)> = EDGES.iter().flat_map(|kr| EDGES.map(|kb| (*kr, kb))).collect();
    for turn in 0..210_000 {
        let kr = random.unit();
        all.push(match turn % 7 {
            0 => (kr, random.unit()),
            1 => (kr, random.unit() * (1.0 - kr)),
            2 => (any_bits(random), any_bits(random)),
            3 => (below_one(random), below_one(random)),
            4 => (kr, beside(random, 1.0 - kr)),
            5 => swapped(random.below(2), kr, beside(random, limit(depth, range, kr))),
            _ => (half(random), half(random)),
        });
    }
    all
}

fn any_bits(random: &mut Random) -> f32 {
    f32::from_bits(random.bits() as u32)
}

/// From 0 to 1, every exponent alike.
fn below_one(random: &mut Random) -> f32 {
    f32::from_bits(random.between(0, 1f32.to_bits()))
}

/// A float at most eight places away.
fn beside(random: &mut Random, x: f32) -> f32 {
    f32::from_bits(x.to_bits().wrapping_add(random.below(17)).wrapping_sub(8))
}

/// A weight whose own coefficient in full range ends in one half.
fn half(random: &mut Random) -> f32 {
    1.0 - (2 * random.below(16384) + 1) as f32 / 32768.0
}

/// The pair, or the pair with its members exchanged.
fn swapped(coin: u32, kr: f32, kb: f32) -> (f32, f32) {
    if coin == 0 {
        (kr, kb)
    } else {
        (kb, kr)
    }
}
