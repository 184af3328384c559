//! The Rust, called by codes. It takes samples in the low bits; those in the high bits are divided
//! for it. It has no mode: what it answers is mode 0. Where it would panic it must not be called: an
//! unknown code, and Custom weights that question 13 refuses.
use crate::{Answer, Codes, Planes, Request, SettingsUsed};
use source::{YuvError, YuvPlanarImage, YuvRange, YuvStandardMatrix};
use std::ops::{RangeInclusive, Shr};

/// Element widths that the Rust converts.
pub trait Reference: Copy + std::fmt::Debug + Shr<u32, Output = Self> {
    fn reference(
        request: &Request, planes: &Planes<Self>, rgb: &mut [Self],
    ) -> Result<(), YuvError>;
}

impl Reference for u8 {
    fn reference(q: &Request, planes: &Planes<u8>, rgb: &mut [u8]) -> Result<(), YuvError> {
        let driver = source::yuv_to_rgba_bilinear::driver(q.codes.order, q.codes.sampling);
        driver(&image(q, planes), rgb, q.rgb.stride, range(q.codes.range), matrix(&q.codes))
    }
}

impl Reference for u16 {
    fn reference(q: &Request, planes: &Planes<u16>, rgb: &mut [u16]) -> Result<(), YuvError> {
        let Codes { order, sampling, depth, .. } = q.codes;
        let driver = source::yuv_p16_to_rgba16_bilinear::driver(order, sampling, depth);
        let divided = divided(&q.codes, planes);
        let image = image(q, divided.as_ref().unwrap_or(planes));
        driver(&image, rgb, q.rgb.stride, range(q.codes.range), matrix(&q.codes))
    }
}

/// The samples of planes in the high bits, each divided by 2^(16 - depth), rounding down; none where
/// they stand in the low bits.
pub fn divided<T: Reference>(codes: &Codes, planes: &Planes<T>) -> Option<Planes<T>> {
    let plane = |plane: &Vec<T>| plane.iter().map(|s| *s >> (16 - codes.depth)).collect();
    (codes.packing == 1).then(|| planes.each_ref().map(plane))
}

/// A request with its planes, as the Rust takes them.
pub fn image<'a, T: Copy + std::fmt::Debug>(
    q: &Request, planes: &'a Planes<T>,
) -> YuvPlanarImage<'a, T> {
    YuvPlanarImage {
        y_plane: &planes[0],
        y_stride: q.y.stride,
        u_plane: &planes[1],
        u_stride: q.u.stride,
        v_plane: &planes[2],
        v_stride: q.v.stride,
        width: q.width,
        height: q.height,
    }
}

fn range(code: u32) -> YuvRange {
    [YuvRange::Limited, YuvRange::Full][code as usize]
}

/// The Rust's matrix of a code and its weights.
pub fn matrix(codes: &Codes) -> YuvStandardMatrix {
    use YuvStandardMatrix::*;
    [Bt601, Bt709, Bt2020, Smpte240, Bt470_6, Fcc, Custom(codes.kr, codes.kb)]
        [codes.matrix as usize]
}

/// Whether an outcome of the Rust is an answer's number, expected and received.
pub fn agrees(outcome: &Result<(), YuvError>, answer: Answer) -> bool {
    let (numbers, expected, received) = numbers(outcome);
    numbers.contains(&answer.number) && (answer.expected, answer.received) == (expected, received)
}

/// The questions that an outcome may come from: the Rust has one name for 9 to 12.
fn numbers(outcome: &Result<(), YuvError>) -> (RangeInclusive<u64>, u64, u64) {
    let (numbers, size) = match outcome {
        Ok(()) => return (0..=0, 0, 0),
        Err(YuvError::ZeroBaseSize) => return (3..=3, 0, 0),
        Err(YuvError::DestinationSizeMismatch(size)) => (5..=5, size),
        Err(YuvError::MinimumStrideSizeMismatch(size)) => (6..=6, size),
        Err(YuvError::LumaPlaneMinimumSizeMismatch(size)) => (7..=7, size),
        Err(YuvError::LumaPlaneSizeMismatch(size)) => (8..=8, size),
        Err(YuvError::ChromaPlaneMinimumSizeMismatch(size)) => (9..=12, size),
        Err(other) => panic!("an error that no question names: {other:?}"),
    };
    (numbers, size.expected as u64, size.received as u64)
}

/// The settings that the drivers use.
pub fn settings(codes: &Codes) -> SettingsUsed {
    let (biases, transform) = source::coefficients(codes.depth, range(codes.range), matrix(codes));
    SettingsUsed {
        max: (1 << codes.depth) - 1,
        bias_y: biases.bias_y,
        bias_uv: biases.bias_uv,
        y: transform.y_coef as u32,
        cr: transform.cr_coef as u32,
        cb: transform.cb_coef as u32,
        g1: transform.g_coeff_1 as u32,
        g2: transform.g_coeff_2 as u32,
        ..Default::default()
    }
}
