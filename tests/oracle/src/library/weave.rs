//! The exports that weave chroma and unweave it.
use crate::weave::{Call, Way};
use crate::{cases::Element, Answer};

/// Element widths that the library weaves.
pub trait Weave: Element {
    /// The call's lengths are those of the planes U, V and woven. All three are lent as mutable, so
    /// that a write to those that are only read could be seen.
    fn run(call: &Call, planes: [&mut [Self]; 3]) -> Answer;
}

#[rustfmt::skip]
macro_rules! weave {
    ($element:ty, $weave:ident, $unweave:ident) => {
        extern "C" {
            fn $weave(
                width: u32, height: u32,
                u: *const $element, u_len: usize, u_stride: u32,
                v: *const $element, v_len: usize, v_stride: u32,
                uv: *mut $element, uv_len: usize, uv_stride: u32,
            ) -> Answer;
            fn $unweave(
                width: u32, height: u32,
                uv: *const $element, uv_len: usize, uv_stride: u32,
                u: *mut $element, u_len: usize, u_stride: u32,
                v: *mut $element, v_len: usize, v_stride: u32,
            ) -> Answer;
        }

        impl Weave for $element {
            fn run(call: &Call, [u, v, uv]: [&mut [Self]; 3]) -> Answer {
                assert_eq!(call.planes.map(|plane| plane.len), [u.len(), v.len(), uv.len()]);
                let [u_stride, v_stride, uv_stride] = call.planes.map(|plane| plane.stride);
                match call.way {
                    Way::Weave => unsafe {
                        $weave(
                            call.width, call.height,
                            u.as_mut_ptr(), u.len(), u_stride,
                            v.as_mut_ptr(), v.len(), v_stride,
                            uv.as_mut_ptr(), uv.len(), uv_stride,
                        )
                    },
                    Way::Unweave => unsafe {
                        $unweave(
                            call.width, call.height,
                            uv.as_mut_ptr(), uv.len(), uv_stride,
                            u.as_mut_ptr(), u.len(), u_stride,
                            v.as_mut_ptr(), v.len(), v_stride,
                        )
                    },
                }
            }
        }
    };
}

weave!(u8, dethrowg_weave8, dethrowg_unweave8);
weave!(u16, dethrowg_weave16, dethrowg_unweave16);
