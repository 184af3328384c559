// Included after yuv_to_rgba_bilinear.rs, in the same module.

pub type Driver = fn(
    &YuvPlanarImage<u8>,
    &mut [u8],
    u32,
    YuvRange,
    YuvStandardMatrix,
) -> Result<(), YuvError>;

/// The 8-bit driver at Q = 13 for a channel order and a sampling.
pub fn driver(order: u32, sampling: u32) -> Driver {
    match (order, sampling) {
        (0, 0) => yuv_to_rgbx_impl_bilinear::<0, 0, 13>,
        (1, 0) => yuv_to_rgbx_impl_bilinear::<1, 0, 13>,
        (2, 0) => yuv_to_rgbx_impl_bilinear::<2, 0, 13>,
        (3, 0) => yuv_to_rgbx_impl_bilinear::<3, 0, 13>,
        (0, 1) => yuv_to_rgbx_impl_bilinear::<0, 1, 13>,
        (1, 1) => yuv_to_rgbx_impl_bilinear::<1, 1, 13>,
        (2, 1) => yuv_to_rgbx_impl_bilinear::<2, 1, 13>,
        (3, 1) => yuv_to_rgbx_impl_bilinear::<3, 1, 13>,
        // codes on which the source itself panics
        (0, 2) => yuv_to_rgbx_impl_bilinear::<0, 2, 13>,
        (0, 3) => yuv_to_rgbx_impl_bilinear::<0, 3, 13>,
        (4, 0) => yuv_to_rgbx_impl_bilinear::<4, 0, 13>,
        _ => panic!("no driver for order {order}, sampling {sampling}"),
    }
}
