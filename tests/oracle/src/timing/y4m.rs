//! Times Y4M frames that the library reads and writes, each beside one copy of the frame's bytes.
use super::{in_turns, Times};
use crate::cases::{planes, request, Samples, TIGHT};
use crate::library::y4m::Frames;
use crate::y4m::{self, Form};
use crate::{random::Random, Planes, Request};
use std::hint::black_box;

/// What is timed beside the copy.
#[derive(Clone, Copy, PartialEq)]
pub enum Way {
    Read,
    Write,
}

/// A frame of random samples as planes and as a stream, the planes that it is read into, and the bytes
/// that it is written or copied into.
struct Frame<T> {
    form: Form,
    request: Request,
    planes: Planes<T>,
    stream: Vec<u8>,
    begin: usize,
    read: Planes<T>,
    written: Vec<u8>,
    copy: Vec<u8>,
}

impl<T: Frames> Frame<T> {
    fn new(form: Form) -> Frame<T> {
        let request = request(form.codes(), form.width, form.height, TIGHT);
        let planes = planes::<T>(&mut Random(7), Samples::Within, &request);
        let mut stream = vec![0; 256];
        let begin = y4m::write_header(&form, &mut stream).written as usize;
        stream.resize(begin + 6 + form.bytes() as usize, 0);
        let lent = planes.each_ref().map(|plane| &plane[..]);
        y4m::write_frame(&form, lent, request.strides(), &mut stream[begin..]);
        let read = planes.each_ref().map(|plane| vec![T::low(0); plane.len()]);
        let (written, copy) = (vec![0; stream.len() - begin], vec![0; form.bytes() as usize]);
        Frame { form, request, planes, stream, begin, read, written, copy }
    }

    fn run(&mut self, way: Way) {
        let strides = self.request.strides();
        match way {
            Way::Read => {
                let lent = self.read.each_mut().map(|plane| &mut plane[..]);
                black_box(T::read(black_box(&mut self.stream), 0, lent, strides));
            }
            Way::Write => {
                let lent = self.planes.each_mut().map(|plane| &mut plane[..]);
                black_box(T::write(black_box(&self.form), lent, strides, &mut self.written));
            }
        }
    }

    fn copy(&mut self) {
        let samples = black_box(&self.stream[self.begin + 6..]);
        black_box(&mut self.copy).copy_from_slice(samples);
    }

    /// Whether the frame is read, or written, into buffers of 0s.
    fn same(&mut self, way: Way) -> bool {
        self.read.iter_mut().for_each(|plane| plane.fill(T::low(0)));
        self.written.fill(0);
        self.run(way);
        match way {
            Way::Read => self.read == self.planes,
            Way::Write => self.written == self.stream[self.begin..],
        }
    }
}

/// The times of a way and of the copy, and whether the samples are the frame's before and after.
pub fn measure_y4m(form: Form, way: Way, rounds: usize) -> (Times, bool) {
    match form.depth {
        8 => measure_of::<u8>(form, way, rounds),
        _ => measure_of::<u16>(form, way, rounds),
    }
}

fn measure_of<T: Frames>(form: Form, way: Way, rounds: usize) -> (Times, bool) {
    let mut frame = Frame::<T>::new(form);
    frame.copy();
    let first = frame.same(way);
    let times = in_turns(2, rounds, 1, |which, _| match which {
        0 => frame.run(way),
        _ => frame.copy(),
    });
    (times, first && frame.same(way))
}
