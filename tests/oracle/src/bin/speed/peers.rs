//! What else converts such frames and is installed: libyuv and swscale, from 8 bits 4:2:0, limited
//! BT.709, to the bytes R, G, B, A.
use oracle::{Planes, Request};

/// Another converter, with its picture.
pub struct Peer {
    pub name: String,
    pub chroma: &'static str,
    pub rgb: Vec<u8>,
    converter: Box<dyn Converter>,
}

impl Peer {
    pub fn convert(&mut self, q: &Request, planes: &Planes<u8>) {
        self.converter.convert(q, planes, &mut self.rgb);
    }
}

trait Converter {
    fn convert(&mut self, q: &Request, planes: &Planes<u8>, rgb: &mut [u8]);
}

/// The peers that are linked, for frames of a request's sides.
pub fn linked(q: &Request) -> Vec<Peer> {
    let all = [libyuv::peers(), swscale::peers(q)];
    let peer =
        |(name, chroma, converter)| Peer { name, chroma, converter, rgb: vec![0; q.rgb.len] };
    all.into_iter().flatten().map(peer).collect()
}

/// The names of those that are not.
pub fn absent() -> Vec<&'static str> {
    let all = [("libyuv", cfg!(peer_libyuv)), ("swscale", cfg!(peer_swscale))];
    all.into_iter().filter(|(_, linked)| !linked).map(|(name, _)| name).collect()
}

/// A name, the chroma interpolation in words, and what converts.
type Row = (String, &'static str, Box<dyn Converter>);

#[cfg(any(peer_libyuv, peer_swscale))]
fn strides(q: &Request) -> [std::ffi::c_int; 4] {
    [q.y, q.u, q.v, q.rgb].map(|plane| plane.stride as std::ffi::c_int)
}

#[cfg(not(peer_libyuv))]
mod libyuv {
    pub fn peers() -> Vec<super::Row> {
        Vec::new()
    }
}

#[cfg(not(peer_swscale))]
mod swscale {
    pub fn peers(_: &oracle::Request) -> Vec<super::Row> {
        Vec::new()
    }
}

#[cfg(peer_libyuv)]
mod libyuv {
    use super::{Converter, Row};
    use oracle::{Planes, Request};
    use std::ffi::c_int;

    /// A matrix of libyuv's own form.
    #[repr(C)]
    struct Matrix([u8; 0]);

    #[rustfmt::skip]
    extern "C" {
        #[link_name = "kYvuH709Constants"]
        static BT709_VU: Matrix;
        fn I420ToARGBMatrixFilter(
            y: *const u8, y_stride: c_int, u: *const u8, u_stride: c_int,
            v: *const u8, v_stride: c_int, argb: *mut u8, argb_stride: c_int,
            matrix: *const Matrix, width: c_int, height: c_int, filter: c_int,
        ) -> c_int;
        fn MaskCpuFlags(flags: c_int) -> c_int;
    }

    /// `enum FilterMode`; kFilterLinear is refused.
    const NONE: c_int = 0;
    const BILINEAR: c_int = 2;

    const NAME: &str = concat!("libyuv ", env!("LIBYUV_VERSION"));

    pub fn peers() -> Vec<Row> {
        let nearest = "nearest (kFilterNone), a sample for 2 by 2 pixels";
        let bilinear = "bilinear (kFilterBilinear), sample k at 2k + 1/2";
        vec![
            (format!("{NAME}, nearest chroma"), nearest, Box::new(Filter(NONE))),
            (format!("{NAME}, bilinear chroma"), bilinear, Box::new(Filter(BILINEAR))),
            (format!("{NAME} in C, bilinear chroma"), bilinear, Box::new(InC(Filter(BILINEAR)))),
        ]
    }

    struct Filter(c_int);

    impl Converter for Filter {
        /// What libyuv calls ARGB stands as B, G, R, A. With U and V exchanged, and the matrix made
        /// for that, it stands as R, G, B, A, as in its I420ToABGR.
        #[rustfmt::skip]
        fn convert(&mut self, q: &Request, planes: &Planes<u8>, rgb: &mut [u8]) {
            let [y, u, v] = planes.each_ref().map(|plane| plane.as_ptr());
            let [y_stride, u_stride, v_stride, rgb_stride] = super::strides(q);
            let done = unsafe {
                I420ToARGBMatrixFilter(
                    y, y_stride, v, v_stride, u, u_stride, rgb.as_mut_ptr(), rgb_stride,
                    &raw const BT709_VU, q.width as c_int, q.height as c_int, self.0,
                )
            };
            assert_eq!(done, 0);
        }
    }

    /// Without vector code. To turn that off and on again takes 0.03 ms, little beside the conversion.
    struct InC(Filter);

    impl Converter for InC {
        fn convert(&mut self, q: &Request, planes: &Planes<u8>, rgb: &mut [u8]) {
            unsafe { MaskCpuFlags(1) };
            self.0.convert(q, planes, rgb);
            unsafe { MaskCpuFlags(-1) };
        }
    }
}

#[cfg(peer_swscale)]
mod swscale {
    use super::{Converter, Row};
    use oracle::{Planes, Request};
    use std::ffi::{c_char, c_int, c_uint, c_void, CStr};
    use std::ptr::{null, null_mut};

    #[rustfmt::skip]
    extern "C" {
        fn swscale_version() -> c_uint;
        fn av_get_pix_fmt(name: *const c_char) -> c_int;
        fn sws_getCoefficients(colorspace: c_int) -> *const c_int;
        fn sws_getContext(
            width: c_int, height: c_int, format: c_int,
            to_width: c_int, to_height: c_int, to_format: c_int, flags: c_int,
            filter: *const c_void, to_filter: *const c_void, parameters: *const f64,
        ) -> *mut c_void;
        fn sws_setColorspaceDetails(
            context: *mut c_void, matrix: *const c_int, full: c_int,
            to_matrix: *const c_int, to_full: c_int,
            brightness: c_int, contrast: c_int, saturation: c_int,
        ) -> c_int;
        fn sws_scale(
            context: *mut c_void, planes: *const *const u8, strides: *const c_int,
            first: c_int, rows: c_int, to: *const *mut u8, to_strides: *const c_int,
        ) -> c_int;
        fn sws_freeContext(context: *mut c_void);
    }

    /// Flags, and the code of BT.709.
    const BILINEAR: c_int = 2;
    const FULL_CHR_H_INT: c_int = 0x2000;
    const FULL_CHR_H_INP: c_int = 0x4000;
    const ACCURATE_RND: c_int = 0x40000;
    const CS_ITU709: c_int = 1;

    /// SWS_POINT makes the same picture as SWS_BILINEAR alone. Where the samples lie was measured
    /// with ramps.
    pub fn peers(q: &Request) -> Vec<Row> {
        let version = unsafe { swscale_version() };
        let name = format!("swscale {}.{}.{}", version >> 16, version >> 8 & 255, version & 255);
        let full = ACCURATE_RND | FULL_CHR_H_INT | FULL_CHR_H_INP;
        let context = |flags| Box::new(Context::new(q, BILINEAR | flags));
        let nearest = "nearest (SWS_BILINEAR), a sample for 2 by 2 pixels";
        let bilinear = "bilinear (SWS_BILINEAR, SWS_ACCURATE_RND, SWS_FULL_CHR_H_INT, \
                        SWS_FULL_CHR_H_INP), sample k at column 2k + 1/2, row 2k + 1";
        vec![
            (format!("{name}, nearest chroma"), nearest, context(0)),
            (format!("{name}, accurate, bilinear chroma"), bilinear, context(full)),
        ]
    }

    struct Context(*mut c_void);

    impl Context {
        /// From limited to full range, BT.709 on both sides.
        #[rustfmt::skip]
        fn new(q: &Request, flags: c_int) -> Context {
            let (width, height) = (q.width as c_int, q.height as c_int);
            let format = |name: &CStr| unsafe { av_get_pix_fmt(name.as_ptr()) };
            let (from, to) = (format(c"yuv420p"), format(c"rgba"));
            unsafe {
                let context = sws_getContext(
                    width, height, from, width, height, to, flags, null(), null(), null(),
                );
                assert!(!context.is_null());
                let matrix = sws_getCoefficients(CS_ITU709);
                let one = 1 << 16;
                let set = sws_setColorspaceDetails(context, matrix, 0, matrix, 1, 0, one, one);
                assert!(set >= 0);
                Context(context)
            }
        }
    }

    impl Converter for Context {
        fn convert(&mut self, q: &Request, planes: &Planes<u8>, rgb: &mut [u8]) {
            let [y, u, v] = planes.each_ref().map(|plane| plane.as_ptr());
            let [y_stride, u_stride, v_stride, rgb_stride] = super::strides(q);
            // it reads four of each
            let (from, strides) = ([y, u, v, null()], [y_stride, u_stride, v_stride, 0]);
            let to = [rgb.as_mut_ptr(), null_mut(), null_mut(), null_mut()];
            let (to_strides, height) = ([rgb_stride, 0, 0, 0], q.height as c_int);
            let rows = unsafe {
                let (from, strides) = (from.as_ptr(), strides.as_ptr());
                sws_scale(self.0, from, strides, 0, height, to.as_ptr(), to_strides.as_ptr())
            };
            assert_eq!(rows, height);
        }
    }

    impl Drop for Context {
        fn drop(&mut self) {
            unsafe { sws_freeContext(self.0) }
        }
    }
}
