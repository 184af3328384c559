//! Chroma woven together: a second reading of document 02's slip 8 on plain slices, written from its
//! text. The questions 3 and 4 and the form of 5 are those of `src/model.rs`.
use crate::cases::{extent, Element, Slack};
use crate::model::{self, answer, ask, Asked};
use crate::reading::place;
use crate::{Answer, Extent};
use std::ops::Range;

/// From U and V into the woven plane, or back.
#[derive(Clone, Copy, Debug, PartialEq)]
pub enum Way {
    Weave,
    Unweave,
}

pub const WAYS: [Way; 2] = [Way::Weave, Way::Unweave];

impl Way {
    pub fn back(self) -> Way {
        match self {
            Way::Weave => Way::Unweave,
            Way::Unweave => Way::Weave,
        }
    }

    /// The planes that are only read.
    pub fn sources(self) -> Range<usize> {
        match self {
            Way::Weave => 0..2,
            Way::Unweave => 2..3,
        }
    }

    /// The planes that are written.
    pub fn destinations(self) -> Range<usize> {
        self.back().sources()
    }
}

/// The planes of a call, in the order that they have here.
pub const NAMES: [&str; 3] = ["U", "V", "woven"];

/// All that a call is asked with, without the samples. The sides are those of U and of V.
#[derive(Clone, Copy, Debug)]
pub struct Call {
    pub way: Way,
    pub width: u32,
    pub height: u32,
    pub planes: [Extent; 3],
}

/// The elements of a row of each plane.
fn row_lengths(width: u32) -> [u32; 3] {
    [width, width, 2 * width]
}

impl Call {
    /// A call with the slack of each plane.
    pub fn new(way: Way, (width, height): (u32, u32), slack: [Slack; 3]) -> Call {
        let rows = row_lengths(width);
        let planes = [0, 1, 2].map(|i| extent(rows[i], height, slack[i]));
        Call { way, width, height, planes }
    }

    /// The parts of a plane's buffer that its rows take, without padding.
    pub fn rows(&self, plane: usize) -> impl Iterator<Item = Range<usize>> {
        let (row, stride) = (row_lengths(self.width)[plane], self.planes[plane].stride);
        (0..self.height).map(move |r| place(stride, r, 0)..place(stride, r, row))
    }

    /// Of each plane, whether its stride is below the row and whether it is short by the form of 5; of
    /// sides that questions 3 and 4 accept.
    pub fn faults(&self) -> [[bool; 2]; 3] {
        let rows = row_lengths(self.width);
        [0, 1, 2].map(|i| {
            let Extent { len, stride } = self.planes[i];
            [stride < rows[i], (len as u64) < model::needed(stride, rows[i], self.height)]
        })
    }

    /// Questions 3, 4 and 22.
    fn asked(&self) -> Asked {
        model::sides(self.width, self.height)?;
        ask(22, !self.faults().as_flattened().contains(&true), 0, 0)
    }

    /// Weaves or unweaves buffers of the call's lengths.
    pub fn run<T: Element>(&self, [u, v, woven]: [&mut [T]; 3]) -> Answer {
        assert_eq!(self.planes.map(|plane| plane.len), [u.len(), v.len(), woven.len()]);
        let asked = self.asked();
        let rows = if asked.is_ok() { self.height } else { 0 };
        let strides = self.planes.map(|plane| plane.stride);
        for (r, c) in (0..rows).flat_map(|r| (0..self.width).map(move |c| (r, c))) {
            let (in_u, in_v) = (place(strides[0], r, c), place(strides[1], r, c));
            let first = place(strides[2], r, 2 * c);
            match self.way {
                Way::Weave => (woven[first], woven[first + 1]) = (u[in_u], v[in_v]),
                Way::Unweave => (u[in_u], v[in_v]) = (woven[first], woven[first + 1]),
            }
        }
        answer(asked)
    }
}
