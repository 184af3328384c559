// Included after yuv_p16_to_rgba16_bilinear.rs, in the same module.

pub type Driver = fn(
    &YuvPlanarImage<u16>,
    &mut [u16],
    u32,
    YuvRange,
    YuvStandardMatrix,
) -> Result<(), YuvError>;

/// The 16-bit driver at Q = 13 for a channel order, a sampling and a depth.
pub fn driver(order: u32, sampling: u32, depth: u32) -> Driver {
    match depth {
        10 => at_depth::<10>(order, sampling),
        12 => at_depth::<12>(order, sampling),
        _ => panic!("no driver for depth {depth}"),
    }
}

fn at_depth<const BIT_DEPTH: usize>(order: u32, sampling: u32) -> Driver {
    match (order, sampling) {
        (0, 0) => yuv16_to_rgbx_impl_bilinear::<0, 0, 13, BIT_DEPTH>,
        (1, 0) => yuv16_to_rgbx_impl_bilinear::<1, 0, 13, BIT_DEPTH>,
        (2, 0) => yuv16_to_rgbx_impl_bilinear::<2, 0, 13, BIT_DEPTH>,
        (3, 0) => yuv16_to_rgbx_impl_bilinear::<3, 0, 13, BIT_DEPTH>,
        (0, 1) => yuv16_to_rgbx_impl_bilinear::<0, 1, 13, BIT_DEPTH>,
        (1, 1) => yuv16_to_rgbx_impl_bilinear::<1, 1, 13, BIT_DEPTH>,
        (2, 1) => yuv16_to_rgbx_impl_bilinear::<2, 1, 13, BIT_DEPTH>,
        (3, 1) => yuv16_to_rgbx_impl_bilinear::<3, 1, 13, BIT_DEPTH>,
        _ => panic!("no driver for order {order}, sampling {sampling}"),
    }
}
