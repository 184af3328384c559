//! The seven files of yuvutils-rs, unchanged, and a way to what is private in them.
//!
//! The vector routines stand behind the features `avx` and `sse`, which this crate does not have,
//! and behind NEON, which is refused below: the scalar rows run.
#![allow(dead_code, unexpected_cfgs, clippy::all)]

#[cfg(all(target_arch = "aarch64", target_feature = "neon"))]
compile_error!("with NEON the source runs its vector rows");
#[cfg(not(target_pointer_width = "64"))]
compile_error!("the reference answers are those of a 64-bit machine");

include!(concat!(env!("OUT_DIR"), "/source.rs"));

pub use images::YuvPlanarImage;
pub use yuv_error::{MismatchedSize, YuvError};
pub use yuv_support::*;

/// The biases and whole-number coefficients, found as the drivers find them.
/// It panics where `1 - kr - kb` is 0.
pub fn coefficients(
    depth: u32,
    range: YuvRange,
    matrix: YuvStandardMatrix,
) -> (YuvChromaRange, CbCrInverseTransform<i32>) {
    let chroma_range = get_yuv_range(depth, range);
    let transform =
        search_inverse_transform(13, depth, range, matrix, chroma_range, matrix.get_kr_kb());
    (chroma_range, transform)
}
