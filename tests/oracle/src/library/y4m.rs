//! The exports for Y4M streams.
use super::Image;
use crate::{cases::Element, y4m::Form, Written, Y4mFrame};

extern "C" {
    fn dethrowg_y4m_header(stream: *const u8, len: usize) -> Y4mFrame;
    fn dethrowg_y4m_write_header(
        sampling: u32, depth: u32, width: u32, height: u32, out: *mut u8, out_len: usize,
    ) -> Written;
}

/// What the header says. The stream is lent as mutable, so that a write to it could be seen.
pub fn header(stream: &mut [u8]) -> Y4mFrame {
    unsafe { dethrowg_y4m_header(stream.as_mut_ptr(), stream.len()) }
}

/// Writes a header.
pub fn write_header(form: &Form, out: &mut [u8]) -> Written {
    let Form { sampling, depth, width, height } = *form;
    let (out, out_len) = (out.as_mut_ptr(), out.len());
    unsafe { dethrowg_y4m_write_header(sampling, depth, width, height, out, out_len) }
}

/// Element widths whose frames the library reads and writes.
pub trait Frames: Element {
    /// Reads the frame at a place into planes; the stream as above.
    fn read(stream: &mut [u8], place: u64, planes: [&mut [Self]; 3], strides: [u32; 3])
        -> Y4mFrame;

    /// Writes a frame of some planes; these as the stream above.
    fn write(form: &Form, planes: [&mut [Self]; 3], strides: [u32; 3], out: &mut [u8]) -> Written;
}

#[rustfmt::skip]
macro_rules! frames {
    ($element:ty, $read:ident, $write:ident) => {
        extern "C" {
            fn $read(
                stream: *const u8, len: usize, place: u64,
                y: *mut $element, y_len: usize, y_stride: u32,
                u: *mut $element, u_len: usize, u_stride: u32,
                v: *mut $element, v_len: usize, v_stride: u32,
            ) -> Y4mFrame;
            fn $write(
                sampling: u32, depth: u32, image: Image,
                y: *const $element, y_len: usize,
                u: *const $element, u_len: usize,
                v: *const $element, v_len: usize,
                out: *mut u8, out_len: usize,
            ) -> Written;
        }

        impl Frames for $element {
            fn read(
                stream: &mut [u8], place: u64, [y, u, v]: [&mut [Self]; 3], strides: [u32; 3],
            ) -> Y4mFrame {
                unsafe {
                    $read(
                        stream.as_mut_ptr(), stream.len(), place,
                        y.as_mut_ptr(), y.len(), strides[0],
                        u.as_mut_ptr(), u.len(), strides[1],
                        v.as_mut_ptr(), v.len(), strides[2],
                    )
                }
            }

            fn write(
                form: &Form, [y, u, v]: [&mut [Self]; 3], strides: [u32; 3], out: &mut [u8],
            ) -> Written {
                let Form { sampling, depth, width, height } = *form;
                let [y_stride, u_stride, v_stride] = strides;
                let image = Image { width, height, y_stride, u_stride, v_stride };
                unsafe {
                    $write(
                        sampling, depth, image,
                        y.as_mut_ptr(), y.len(),
                        u.as_mut_ptr(), u.len(),
                        v.as_mut_ptr(), v.len(),
                        out.as_mut_ptr(), out.len(),
                    )
                }
            }
        }
    };
}

frames!(u8, dethrowg_y4m_read8, dethrowg_y4m_write_frame8);
frames!(u16, dethrowg_y4m_read16, dethrowg_y4m_write_frame16);
