//! Times chroma that the library weaves and unweaves, each beside one copy of the bytes that it writes.
use super::{in_turns, Times};
use crate::cases::elements;
use crate::library::weave::Weave;
use crate::weave::{Call, Way};
use crate::{random::Random, Planes};
use std::hint::black_box;

/// Planes of random samples with what is woven of them, the planes that the library is lent, and what
/// the woven plane is copied into: as many bytes as either way writes.
struct Chroma<T> {
    call: Call,
    wanted: Planes<T>,
    lent: Planes<T>,
    copy: Vec<T>,
}

impl<T: Weave> Chroma<T> {
    fn new(way: Way, sides: (u32, u32), depth: u32) -> Chroma<T> {
        let call = Call::new(way, sides, [(0, 0); 3]);
        let (mut random, sample) = (Random(7), |bits: u16| bits >> (16 - depth));
        let mut wanted = call.planes.map(|plane| elements(&mut random, plane.len, sample));
        let weave = Call { way: Way::Weave, ..call };
        weave.run(wanted.each_mut().map(|plane| &mut plane[..]));
        let (lent, copy) = (wanted.clone(), vec![T::low(0); wanted[2].len()]);
        Chroma { call, wanted, lent, copy }
    }

    fn run(&mut self) {
        let lent = self.lent.each_mut().map(|plane| &mut plane[..]);
        black_box(T::run(black_box(&self.call), lent));
    }

    fn copy(&mut self) {
        black_box(&mut self.copy).copy_from_slice(black_box(&self.wanted[2]));
    }

    /// Whether all samples are there, those that are written in planes of 0s.
    fn same(&mut self) -> bool {
        self.lent[self.call.way.destinations()].iter_mut().for_each(|plane| plane.fill(T::low(0)));
        self.run();
        self.lent == self.wanted
    }
}

/// The times of a way, of planes of these sides, and of the copy, and whether the samples are right
/// before and after.
pub fn measure_weave(way: Way, sides: (u32, u32), depth: u32, rounds: usize) -> (Times, bool) {
    match depth {
        8 => measure_of::<u8>(way, sides, depth, rounds),
        _ => measure_of::<u16>(way, sides, depth, rounds),
    }
}

fn measure_of<T: Weave>(way: Way, sides: (u32, u32), depth: u32, rounds: usize) -> (Times, bool) {
    let mut chroma = Chroma::<T>::new(way, sides, depth);
    chroma.copy();
    let first = chroma.same();
    let times = in_turns(2, rounds, 1, |which, _| match which {
        0 => chroma.run(),
        _ => chroma.copy(),
    });
    (times, first && chroma.same())
}
