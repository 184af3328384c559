//! Runs the Rust and the library on the inputs of docs/DIFFERENCES.md, one function to a subject,
//! and prints the figures that stand there.
use oracle::cases::{request, TIGHT};
use oracle::library::{self, Convert};
use oracle::reference::{self, Reference};
use oracle::{reading, Codes, Extent, Planes, Request};
use source::yuv_p16_to_rgba16_bilinear::{i014_to_rgb14_bilinear, i016_to_rgb16_bilinear};
use source::YuvRange;
use std::panic::{catch_unwind, set_hook, take_hook, AssertUnwindSafe};

fn main() {
    smpte240();
    cr_tail();
    chroma_ramps();
    chroma_edges();
    unknown_codes();
    depths();
    large_sides();
    weights();
}

/// Settings at 8 bits, full range, RGB, mode 0.
fn full(sampling: u32, matrix: u32, kr: f32, kb: f32) -> Codes {
    Codes { depth: 8, sampling, order: 0, range: 1, matrix, packing: 0, mode: 0, kr, kb }
}

/// The same settings as in the source and in matched mode.
fn modes(codes: Codes) -> [(&'static str, Codes); 2] {
    [("as in the source", codes), ("matched", Codes { mode: 1, ..codes })]
}

/// Planes of one colour.
fn flat(q: &Request, [y, u, v]: [u8; 3]) -> Planes<u8> {
    [vec![y; q.y.len], vec![u; q.u.len], vec![v; q.v.len]]
}

/// What a function returns, or the words of its panic.
fn caught<T>(run: impl FnOnce() -> T) -> Result<T, String> {
    let hook = take_hook();
    set_hook(Box::new(|_| ()));
    let outcome = catch_unwind(AssertUnwindSafe(run));
    set_hook(hook);
    outcome.map_err(|payload| {
        let words = payload.downcast_ref::<String>().map(String::as_str);
        let words = words.or(payload.downcast_ref::<&str>().copied()).unwrap_or_default();
        format!("panic: {}", words.lines().next().unwrap_or_default())
    })
}

/// The Rust's picture, or its error, or the words of its panic.
fn rust(q: &Request, planes: &Planes<u8>) -> Result<Vec<u8>, String> {
    let mut rgb = vec![0; q.rgb.len];
    caught(|| u8::reference(q, planes, &mut rgb))?.map_err(|error| format!("{error:?}"))?;
    Ok(rgb)
}

/// The library's picture, or its number.
fn ours<T: Convert>(q: &Request, planes: &Planes<T>) -> Result<Vec<T>, u64> {
    let mut rgb = vec![T::low(0); q.rgb.len];
    match T::convert(q, &mut planes.clone(), &mut rgb).number {
        0 => Ok(rgb),
        number => Err(number),
    }
}

/// The picture that both make; in matched mode the library and the second reading.
fn both(q: &Request, planes: &Planes<u8>) -> Vec<u8> {
    let picture = ours(q, planes).expect("accepted");
    if q.codes.mode == 0 {
        assert_eq!(rust(q, planes), Ok(picture.clone()));
    } else {
        let mut second = vec![0; q.rgb.len];
        reading::convert(q, planes, &mut second);
        assert_eq!(second, picture);
    }
    picture
}

/// Document 01's exact equations, unclamped: R, G and B.
fn exact(c: &Codes, kr: f64, kb: f64, [y, cb, cr]: [u32; 3]) -> [f64; 3] {
    let (max, scale) = (f64::from((1u32 << c.depth) - 1), f64::from(1u32 << (c.depth - 8)));
    let limited = (16.0 * scale, 219.0 * scale, 224.0 * scale);
    let (bias, range_y, range_c) = if c.range == 0 { limited } else { (0.0, max, max) };
    let chroma = |c: u32| 2.0 * (f64::from(c) - 128.0 * scale) * max / range_c;
    let (luma, cb, cr) = ((f64::from(y) - bias) * max / range_y, chroma(cb), chroma(cr));
    let green = ((1.0 - kr) * kr * cr + (1.0 - kb) * kb * cb) / (1.0 - kr - kb);
    [luma + (1.0 - kr) * cr, luma - green, luma + (1.0 - kb) * cb]
}

/// Kept in mode 0: the weights of `Smpte240` at 8 bits.
fn smpte240() {
    println!("Smpte240, Y 100, U 128, V 178, full range, 8 bits");
    let pixel = |name: &str, codes: Codes| {
        let q = request(codes, 1, 1, TIGHT);
        println!("  {name}: R, G, B {:?}", both(&q, &flat(&q, [100, 128, 178])));
    };
    for (mode, codes) in modes(full(0, 3, 0.0, 0.0)) {
        pixel(&format!("Smpte240, {mode}"), codes);
    }
    pixel("Custom 0.212, 0.087", full(0, 6, 0.212, 0.087));
    for (mode, codes) in modes(full(0, 3, 0.0, 0.0)) {
        for depth in [8, 10, 12] {
            let s = library::settings(&Codes { depth, ..codes });
            println!("  coefficients at {depth} bits, {mode}: cr {}, cb {}", s.cr, s.cb);
        }
    }
}

/// Kept in mode 0: Cr's tail in rows that blend two chroma rows, here 0 and 1. A weight of one half
/// makes its colour's coefficient 1, so that with Y 128 blue is Cb, or red is Cr.
fn cr_tail() {
    println!("tail, width 1, height 3, U and V rows 10 and 30");
    for (name, kr, kb, letter) in [("Cb", 0.25, 0.5, 2), ("Cr", 0.5, 0.25, 0)] {
        for (mode, codes) in modes(full(0, 6, kr, kb)) {
            let q = request(codes, 1, 3, TIGHT);
            let rgb = both(&q, &[vec![128; 3], vec![10, 30], vec![10, 30]]);
            println!(
                "  {name} of rows 0 to 2, {mode}: {:?}",
                [0, 3, 6].map(|row| rgb[row + letter])
            );
        }
    }
}

/// Y and Cb that the pixels got, along a row or down a column, where the planes change in that
/// direction alone. With kr 1/4, kb 1/2 and neutral Cr, red is Y and blue is Y + Cb - 128.
fn line(
    side: usize, sampling: u32, down: bool, y: impl Fn(usize) -> u8, u: impl Fn(usize) -> u8,
) -> (Vec<f64>, Vec<f64>) {
    let q = request(full(sampling, 6, 0.25, 0.5), side as u32, side as u32, TIGHT);
    let plane = |extent: Extent, of: &dyn Fn(usize) -> u8| {
        let stride = extent.stride as usize;
        (0..extent.len).map(|i| of(if down { i / stride } else { i % stride })).collect()
    };
    let rgb = both(&q, &[plane(q.y, &y), plane(q.u, &u), vec![128; q.v.len]]);
    let pixel = |i: usize| &rgb[3 * if down { i * side + 8 } else { 8 * side + i }..];
    let letters = (0..side).map(|i| (f64::from(pixel(i)[0]), f64::from(pixel(i)[2])));
    letters.map(|(red, blue)| (red, blue - red + 128.0)).unzip()
}

/// Kept: where chroma lies. Sample k of a ramp is 16 + 4k, so a pixel's Cb tells the k, a fraction,
/// that it took. The last pixels, which have no sample after their own, stand apart.
fn chroma_ramps() {
    println!("chroma ramps, pixels 0 to 29");
    let kinds = [(0, false, 2.0), (0, true, 2.0), (1, false, 2.0), (1, true, 1.0)];
    for (side, (sampling, down, step)) in [32, 31].iter().flat_map(|s| kinds.map(|k| (*s, k))) {
        let (_, cb) = line(side, sampling, down, |_| 128, |k| 16 + 4 * k as u8);
        let taken: Vec<f64> = cb.iter().map(|cb| (cb - 16.0) / 4.0).collect();
        let mut places: Vec<f64> = (0..30).map(|x| x as f64 - step * taken[x]).collect();
        places.dedup();
        let name =
            format!("4:2:{}, {side} {}", 2 * sampling, if down { "rows" } else { "columns" });
        println!(
            "  {name}: sample k lies at {step}k plus {places:?}; the last take {:?}",
            &taken[30..]
        );
        if step == 2.0 {
            let moved = |siting: f64| places.iter().map(|place| place - siting).collect::<Vec<_>>();
            println!("    moved, centred chroma (2k + 0.5): {:?}", moved(0.5));
            println!("    moved, co-sited chroma (2k): {:?}", moved(0.0));
        }
    }
}

/// Kept: where chroma lies. An edge between pixels 15 and 16 of Y, and of Cb as the mean of each
/// pair of pixels.
fn chroma_edges() {
    println!("edge between pixels 15 and 16, of Y (60, 180) and of Cb (100, 140)");
    for (name, sampling, down) in
        [("4:2:0, columns", 0, false), ("4:2:0, rows", 0, true), ("4:2:2, columns", 1, false)]
    {
        let (y, cb) = line(32, sampling, down, |x| [60, 180][x / 16], |k| [100, 140][k / 8]);
        println!("  {name}: Y halfway at {}, Cb at {}", halfway(&y, 120.0), halfway(&cb, 120.0));
        println!("    Y  of 12 to 17: {:?}", &y[12..18]);
        println!("    Cb of 12 to 17: {:?}", &cb[12..18]);
    }
}

/// Where rising values pass a level, between pixels by a straight line.
fn halfway(values: &[f64], level: f64) -> f64 {
    let i = values.iter().position(|value| *value >= level).expect("a value at the level");
    i as f64 - (values[i] - level) / (values[i] - values[i - 1])
}

/// Numbers 1 and 2: codes on which the Rust panics.
fn unknown_codes() {
    println!("unknown codes");
    for (sampling, order) in [(2, 0), (3, 0), (0, 4)] {
        for side in [2, 0] {
            let q = request(Codes { order, ..full(sampling, 0, 0.0, 0.0) }, side, side, TIGHT);
            let planes = flat(&q, [128; 3]);
            let (rust, ours) = (rust(&q, &planes), ours(&q, &planes));
            println!("  sampling {sampling}, order {order}, sides {side}: {rust:?}; ours {ours:?}");
        }
    }
}

/// Number 2: depths that the Rust's public functions convert, 4:2:0, limited BT.709.
fn depths() {
    println!(
        "depths, 2 by 2, limited BT.709, Y 16, 100, 180, 235, U 118, V 138, times 2^(depth - 8)"
    );
    for depth in [14, 16] {
        let codes = Codes { depth, range: 0, ..full(0, 1, 0.0, 0.0) };
        let q = request(codes, 2, 2, TIGHT);
        let scaled = |samples: &[u16]| samples.iter().map(|s| s << (depth - 8)).collect::<Vec<_>>();
        let planes = [scaled(&[16, 100, 180, 235]), scaled(&[118]), scaled(&[138])];
        let public = if depth == 14 { i014_to_rgb14_bilinear } else { i016_to_rgb16_bilinear };
        let (mut rgb, image) = (vec![0; 12], reference::image(&q, &planes));
        let outcome = public(&image, &mut rgb, 6, YuvRange::Limited, reference::matrix(&codes));
        println!("  {depth} bits: {outcome:?}; ours {:?}", ours(&q, &planes));
        for (pixel, y) in rgb.chunks(3).zip(&planes[0]) {
            let samples = [(*y).into(), planes[1][0].into(), planes[2][0].into()];
            println!("    {pixel:?}, exact {:.1?}", exact(&codes, 0.2126, 0.0722, samples));
        }
    }
}

/// Number 4: sides above 16,384.
fn large_sides() {
    println!("sides, neutral grey of 100");
    let q = request(full(0, 0, 0.0, 0.0), 16385, 1, TIGHT);
    let planes = flat(&q, [100, 128, 128]);
    let grey = rust(&q, &planes).map(|rgb| rgb.iter().filter(|letter| **letter == 100).count());
    println!("  16385 by 1: {grey:?} letters of 100; ours {:?}", ours(&q, &planes));
    let small = request(q.codes, 1, 1, TIGHT);
    let q = Request { width: u32::MAX, height: u32::MAX, ..small };
    let planes = flat(&q, [100, 128, 128]);
    println!("  2^32 - 1 both: {:?}; ours {:?}", rust(&q, &planes), ours(&q, &planes));
}

/// Number 13: Custom weights that the library refuses, the five coefficients before and after the
/// Rust's `cast` to i16, and the first pixel of a frame of one colour.
fn weights() {
    println!("Custom, 8 bits, full range, 2 by 2, Y 100, U 138, V 133");
    let pairs = [(0.4, 0.4), (2.0, 0.0), (f32::NAN, 0.0), (0.5, 0.499_999_97), (0.5, 0.5)];
    for (kr, kb) in pairs {
        let five = caught(|| {
            let s = reference::settings(&full(0, 6, kr, kb));
            [s.y, s.cr, s.cb, s.g1, s.g2].map(|c| c as i32)
        });
        println!("  kr {kr}, kb {kb}: y, cr, cb, g1, g2 {five:?}");
        if let Ok(five) = five {
            println!("    cast to i16 {:?}", five.map(|c| c as i16));
            let exact = exact(&full(0, 6, kr, kb), kr.into(), kb.into(), [100, 138, 133]);
            println!("    exact R, G, B {exact:.2?}");
        }
        for (name, sampling) in [("4:2:2", 1), ("4:2:0", 0)] {
            let q = request(full(sampling, 6, kr, kb), 2, 2, TIGHT);
            let planes = flat(&q, [100, 138, 133]);
            let first = rust(&q, &planes).map(|rgb| rgb[..3].to_vec());
            println!("    {name}: {first:?}; ours {:?}", ours(&q, &planes));
        }
    }
    let mut q = request(full(0, 6, 0.5, 0.5), 2, 2, TIGHT);
    q.rgb.len -= 1;
    let planes = flat(&q, [100, 138, 133]);
    println!(
        "  0.5, 0.5, destination short: {:?}; ours {:?}",
        rust(&q, &planes),
        ours(&q, &planes)
    );
}
