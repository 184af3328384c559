//! Converts a small 4:2:0 frame of bytes to RGBA, prints the settings used, the picture, how much of
//! it was clipped and one finished row, then a refused call. In the repository, after
//! `(cd crates/dethrowg && rt lib)` and `mkdir -p target`:
//!
//!     rustc --edition 2021 -O -L crates/dethrowg/out -l static=dethrowg examples/rust/main.rs -o target/convert_rust
//!     target/convert_rust

/// The settings of a conversion.
#[repr(C)]
struct Codes {
    depth: u32,
    sampling: u32,
    order: u32,
    range: u32,
    matrix: u32,
    packing: u32,
    mode: u32,
    kr: f32,
    kb: f32,
}

/// The sides of the picture, and the strides of its planes.
#[repr(C)]
struct Image {
    width: u32,
    height: u32,
    y_stride: u32,
    u_stride: u32,
    v_stride: u32,
}

#[repr(C)]
struct Answer {
    number: u64,
    expected: u64,
    received: u64,
    below: u64,
    above: u64,
}

#[repr(C)]
#[derive(Debug)]
struct SettingsUsed {
    number: u64,
    expected: u64,
    received: u64,
    max: u32,
    bias_y: u32,
    bias_uv: u32,
    y: u32,
    cr: u32,
    cb: u32,
    g1: u32,
    g2: u32,
}

#[repr(C)]
struct Part {
    number: u64,
    expected: u64,
    received: u64,
    start: u64,
    length: u64,
}

#[rustfmt::skip]
extern "C" {
    fn dethrowg_coefficients(codes: Codes) -> SettingsUsed;
    fn dethrowg_yuv8_to_rgb(
        codes: Codes, image: Image,
        y: *const u8, y_len: usize, u: *const u8, u_len: usize, v: *const u8, v_len: usize,
        rgb: *mut u8, rgb_len: usize, rgb_stride: u32,
    ) -> Answer;
    fn dethrowg_row8(
        order: u32, width: u32, height: u32,
        rgb: *const u8, rgb_len: usize, rgb_stride: u32, row: u32,
    ) -> Part;
}

// codes of include/dethrowg.h
const YUV420: u32 = 0;
const RGBA: u32 = 1;
const LIMITED: u32 = 0;
const BT709: u32 = 1;
const LOW_BITS: u32 = 0;
const AS_SOURCE: u32 = 0;

const CODES: Codes = Codes {
    depth: 8,
    sampling: YUV420,
    order: RGBA,
    range: LIMITED,
    matrix: BT709,
    packing: LOW_BITS,
    mode: AS_SOURCE,
    kr: 0.0,
    kb: 0.0,
};

const WIDTH: u32 = 4;
const HEIGHT: u32 = 3;
const CHROMA_WIDTH: u32 = WIDTH.div_ceil(2);
const STRIDE: u32 = WIDTH * 4;

const IMAGE: Image = Image {
    width: WIDTH,
    height: HEIGHT,
    y_stride: WIDTH,
    u_stride: CHROMA_WIDTH,
    v_stride: CHROMA_WIDTH,
};

#[rustfmt::skip]
const Y: [u8; 12] = [
    16, 90, 160, 235,
    30, 100, 170, 200,
    40, 110, 180, 220,
];
const U: [u8; 4] = [128, 90, 150, 128];
const V: [u8; 4] = [128, 160, 100, 128];

/// The words for each number of an answer: quoted, one to a line.
const WORDS: &str = include_str!("../words.inc");

// ---- the calls of the library; a slice's pointer is never null

fn settings() -> SettingsUsed {
    unsafe { dethrowg_coefficients(CODES) }
}

/// How many components were below 0 and above the largest code. Rust keeps `rgb` apart from the
/// planes.
#[rustfmt::skip]
fn convert(rgb: &mut [u8]) -> Result<(u64, u64), String> {
    let Answer { number, expected, received, below, above } = unsafe {
        dethrowg_yuv8_to_rgb(
            CODES, IMAGE,
            Y.as_ptr(), Y.len(), U.as_ptr(), U.len(), V.as_ptr(), V.len(),
            rgb.as_mut_ptr(), rgb.len(), STRIDE,
        )
    };
    accepted(number, expected, received)?;
    Ok((below, above))
}

fn finished_row(rgb: &[u8], row: u32) -> Result<&[u8], String> {
    let part =
        unsafe { dethrowg_row8(CODES.order, WIDTH, HEIGHT, rgb.as_ptr(), rgb.len(), STRIDE, row) };
    accepted(part.number, part.expected, part.received)?;
    let start = part.start as usize;
    Ok(&rgb[start..start + part.length as usize])
}

/// An error with the words of a refusal, unless the number is 0.
fn accepted(number: u64, expected: u64, received: u64) -> Result<(), String> {
    let words = WORDS.lines().nth(number as usize).unwrap_or_default();
    let words = words.trim_end_matches(',').trim_matches('"');
    match number {
        0 => Ok(()),
        _ => Err(format!("{words} (number {number}, expected {expected}, received {received})")),
    }
}

// ---- printing

fn print_pixels(pixels: &[u8]) {
    for p in pixels.chunks(4) {
        print!("  {:3} {:3} {:3} {:3}", p[0], p[1], p[2], p[3]);
    }
    println!();
}

fn main() -> Result<(), String> {
    let used = settings();
    println!("settings used: {used:?}");

    let mut rgb = [0; (STRIDE * HEIGHT) as usize];
    let (below, above) = convert(&mut rgb)?;
    println!("picture:");
    rgb.chunks(STRIDE as usize).for_each(print_pixels);
    let components = 3 * WIDTH * HEIGHT;
    println!("clipped of {components} components: {below} below 0, {above} above {}", used.max);

    println!("finished row 1:");
    print_pixels(finished_row(&rgb, 1)?);

    let short = rgb.len() - 1;
    if let Err(refusal) = convert(&mut rgb[..short]) {
        println!("destination one element short, refused: {refusal}");
    }
    Ok(())
}
