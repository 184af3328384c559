//! The exports of the proved library (include/dethrowg.h), behind safe functions.
#[cfg(feature = "bands")]
use crate::Band;
#[cfg(feature = "level_c")]
use crate::Part;
#[cfg(feature = "level_a")]
use crate::{Answer, Planes, Request};
use crate::{Codes, SettingsUsed};

#[cfg(feature = "weave")]
pub mod weave;
#[cfg(feature = "y4m")]
pub mod y4m;

extern "C" {
    fn dethrowg_coefficients(codes: Codes) -> SettingsUsed;
}

/// The settings that a conversion uses.
pub fn settings(codes: &Codes) -> SettingsUsed {
    unsafe { dethrowg_coefficients(*codes) }
}

/// The sides of a picture, and the strides of its planes.
#[cfg(feature = "level_a")]
#[repr(C)]
struct Image {
    width: u32,
    height: u32,
    y_stride: u32,
    u_stride: u32,
    v_stride: u32,
}

#[cfg(feature = "level_a")]
fn image(q: &Request) -> Image {
    let [y_stride, u_stride, v_stride] = q.strides();
    Image { width: q.width, height: q.height, y_stride, u_stride, v_stride }
}

/// Element widths that the library converts.
#[cfg(feature = "level_a")]
pub trait Convert: crate::cases::Element {
    /// The request's lengths are those of the buffers. The planes are lent as mutable, so that a
    /// write to them could be seen.
    fn convert(request: &Request, planes: &mut Planes<Self>, rgb: &mut [Self]) -> Answer;
}

/// Element widths of which the library converts bands.
#[cfg(feature = "bands")]
pub trait ConvertBand: Convert {
    /// Of the request's picture, at most `limit` rows from row `first` on; buffers as above.
    fn convert_band(
        request: &Request, planes: &mut Planes<Self>, rgb: &mut [Self], first: u32, limit: u32,
    ) -> Band;
}

#[rustfmt::skip]
macro_rules! conversion {
    (
        $level:literal, $element:ty, $export:ident, $trait:ident::$method:ident -> $answer:ident
        $(, $row:ident)*
    ) => {
        #[cfg(feature = $level)]
        extern "C" {
            fn $export(
                codes: Codes, image: Image,
                y: *const $element, y_len: usize,
                u: *const $element, u_len: usize,
                v: *const $element, v_len: usize,
                rgb: *mut $element, rgb_len: usize, rgb_stride: u32, $($row: u32),*
            ) -> $answer;
        }

        #[cfg(feature = $level)]
        impl $trait for $element {
            fn $method(
                q: &Request, planes: &mut Planes<Self>, rgb: &mut [Self], $($row: u32),*
            ) -> $answer {
                let [y, u, v] = planes;
                let lengths = [y.len(), u.len(), v.len(), rgb.len()];
                assert_eq!([q.y.len, q.u.len, q.v.len, q.rgb.len], lengths);
                unsafe {
                    $export(
                        q.codes, image(q),
                        y.as_mut_ptr(), y.len(),
                        u.as_mut_ptr(), u.len(),
                        v.as_mut_ptr(), v.len(),
                        rgb.as_mut_ptr(), rgb.len(), q.rgb.stride, $($row),*
                    )
                }
            }
        }
    };
}

conversion!("level_a", u8, dethrowg_yuv8_to_rgb, Convert::convert -> Answer);
conversion!("level_b", u16, dethrowg_yuv16_to_rgb, Convert::convert -> Answer);
conversion!(
    "bands", u8, dethrowg_yuv8_to_rgb_band, ConvertBand::convert_band -> Band, first, limit
);
conversion!(
    "bands", u16, dethrowg_yuv16_to_rgb_band, ConvertBand::convert_band -> Band, first, limit
);

/// Element widths whose rows the library hands back.
#[cfg(feature = "level_c")]
pub trait Read: crate::cases::Element {
    fn row(order: u32, sides: (u32, u32), rgb: &[Self], stride: u32, row: u32) -> Part;
    fn chroma_row(
        sampling: u32, wanted: u32, sides: (u32, u32), planes: (&[Self], &[Self]),
        strides: (u32, u32), row: u32,
    ) -> Part;
}

#[rustfmt::skip]
macro_rules! readers {
    ($element:ty, $row:ident, $chroma_row:ident) => {
        #[cfg(feature = "level_c")]
        extern "C" {
            fn $row(
                order: u32, width: u32, height: u32,
                rgb: *const $element, rgb_len: usize, rgb_stride: u32, row: u32,
            ) -> Part;
            fn $chroma_row(
                sampling: u32, plane: u32, width: u32, height: u32,
                u: *const $element, u_len: usize, u_stride: u32,
                v: *const $element, v_len: usize, v_stride: u32, row: u32,
            ) -> Part;
        }

        #[cfg(feature = "level_c")]
        impl Read for $element {
            fn row(order: u32, sides: (u32, u32), rgb: &[Self], stride: u32, row: u32) -> Part {
                unsafe { $row(order, sides.0, sides.1, rgb.as_ptr(), rgb.len(), stride, row) }
            }

            fn chroma_row(
                sampling: u32, wanted: u32, sides: (u32, u32), (u, v): (&[Self], &[Self]),
                strides: (u32, u32), row: u32,
            ) -> Part {
                unsafe {
                    $chroma_row(
                        sampling, wanted, sides.0, sides.1,
                        u.as_ptr(), u.len(), strides.0,
                        v.as_ptr(), v.len(), strides.1, row,
                    )
                }
            }
        }
    };
}

readers!(u8, dethrowg_row8, dethrowg_chroma_row8);
readers!(u16, dethrowg_row16, dethrowg_chroma_row16);
