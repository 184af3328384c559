//! Compares the proved library with the scalar Rust of yuvutils-rs, with document 01's questions and,
//! where the Rust has nothing to compare, with a second reading of the documents: matched mode, what
//! was clipped, bands, Y4M streams, and woven chroma. The settings `packing` and `mode`, the counts
//! `below` and `above`, bands, Y4M streams and woven chroma are those of document 02, slips 1, 4, 3, 5,
//! 2 and 8.

pub mod cases;
pub mod library;
pub mod model;
pub mod random;
pub mod reading;
pub mod reference;
pub mod streams;
pub mod tally;
#[cfg(feature = "level_a")]
pub mod timing;
pub mod weave;
pub mod y4m;

/// What a conversion answers: 0, 0, 0 and what was clipped, or the first question that got a "no",
/// and then 0 and 0.
#[repr(C)]
#[derive(Clone, Copy, Debug, Default, PartialEq, Eq)]
pub struct Answer {
    pub number: u64,
    pub expected: u64,
    pub received: u64,
    pub below: u64,
    pub above: u64,
}

/// How many colour components lay below 0 and above the largest code before they were clamped.
#[derive(Clone, Copy, Debug, Default, PartialEq, Eq)]
pub struct Clipped {
    pub below: u64,
    pub above: u64,
}

impl Answer {
    /// The answer with these counts.
    pub fn with(self, Clipped { below, above }: Clipped) -> Answer {
        Answer { below, above, ..self }
    }

    pub fn clipped(self) -> Clipped {
        Clipped { below: self.below, above: self.above }
    }
}

impl std::ops::AddAssign for Clipped {
    fn add_assign(&mut self, other: Clipped) {
        self.below += other.below;
        self.above += other.above;
    }
}

/// What a call for a band answers: as a conversion, of the rows written; how many these are; and the
/// first row of the next call.
#[repr(C)]
#[derive(Clone, Copy, Debug, Default, PartialEq, Eq)]
pub struct Band {
    pub answer: Answer,
    pub rows: u64,
    pub next: u64,
}

/// What a call that reads a Y4M stream answers: the place after the frame, or the place that it was
/// given; what the header says, 0s where it is refused; and whether a frame was read. Of the header
/// alone the place is that of the first frame line, 0 where the header is refused.
#[repr(C)]
#[derive(Clone, Copy, Debug, Default, PartialEq, Eq)]
pub struct Y4mFrame {
    pub number: u64,
    pub expected: u64,
    pub received: u64,
    pub next: u64,
    pub width: u32,
    pub height: u32,
    pub sampling: u32,
    pub depth: u32,
    pub found: u32,
}

/// What a call that writes a part of a Y4M stream answers: how many bytes it wrote, 0 on a refusal.
#[repr(C)]
#[derive(Clone, Copy, Debug, Default, PartialEq, Eq)]
pub struct Written {
    pub number: u64,
    pub expected: u64,
    pub received: u64,
    pub written: u64,
}

/// The settings that a conversion uses; all 0 beside a number other than 0.
#[repr(C)]
#[derive(Clone, Copy, Debug, Default, PartialEq, Eq)]
pub struct SettingsUsed {
    pub number: u64,
    pub expected: u64,
    pub received: u64,
    pub max: u32,
    pub bias_y: u32,
    pub bias_uv: u32,
    pub y: u32,
    pub cr: u32,
    pub cb: u32,
    pub g1: u32,
    pub g2: u32,
}

/// A part of a buffer; empty, at 0, beside a number other than 0.
#[repr(C)]
#[derive(Clone, Copy, Debug, Default, PartialEq, Eq)]
pub struct Part {
    pub number: u64,
    pub expected: u64,
    pub received: u64,
    pub start: u64,
    pub length: u64,
}

/// The codes of the settings, with the weights of Custom.
#[repr(C)]
#[derive(Clone, Copy, Debug)]
pub struct Codes {
    pub depth: u32,
    pub sampling: u32,
    pub order: u32,
    pub range: u32,
    pub matrix: u32,
    pub packing: u32,
    pub mode: u32,
    pub kr: f32,
    pub kb: f32,
}

/// The length and the stride of a buffer, in elements.
#[derive(Clone, Copy, Debug)]
pub struct Extent {
    pub len: usize,
    pub stride: u32,
}

/// All that a conversion is asked with, without the samples.
#[derive(Clone, Copy, Debug)]
pub struct Request {
    pub codes: Codes,
    pub width: u32,
    pub height: u32,
    pub y: Extent,
    pub u: Extent,
    pub v: Extent,
    pub rgb: Extent,
}

impl Request {
    /// The buffers of the Y, U and V planes.
    pub fn planes(&self) -> [Extent; 3] {
        [self.y, self.u, self.v]
    }

    pub fn strides(&self) -> [u32; 3] {
        self.planes().map(|plane| plane.stride)
    }
}

/// The samples of the Y, U and V planes, or of U, V and the woven plane.
pub type Planes<T> = [Vec<T>; 3];
