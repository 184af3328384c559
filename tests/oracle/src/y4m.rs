//! Y4M streams: a second reading of document 02's slip 2 on plain slices, written from its text. The
//! questions 1 to 4 and 7 to 12 are those of `src/model.rs`.
use crate::cases::Element;
use crate::model::{self, ask, Asked};
use crate::reading::place;
use crate::{Answer, Codes, Extent, Written, Y4mFrame};

/// The names that C may have, each with its sampling and its depth.
pub const NAMES: [(&str, u32, u32); 6] = [
    ("420jpeg", 0, 8),
    ("422", 1, 8),
    ("420p10", 0, 10),
    ("422p10", 1, 10),
    ("420p12", 0, 12),
    ("422p12", 1, 12),
];

/// What a header says of the frames.
#[derive(Clone, Copy, Debug)]
pub struct Form {
    pub sampling: u32,
    pub depth: u32,
    pub width: u32,
    pub height: u32,
}

impl Form {
    /// The sides of the Y, U and V planes.
    pub fn planes(&self) -> [(u32, u32); 3] {
        let chroma = model::chroma_sides(self.sampling, self.width, self.height);
        [(self.width, self.height), chroma, chroma]
    }

    /// The width of an element.
    pub fn bits(&self) -> u32 {
        if self.depth == 8 {
            8
        } else {
            16
        }
    }

    /// The bytes of a frame's samples.
    pub fn bytes(&self) -> u64 {
        let samples: u64 = self.planes().iter().map(|(w, h)| u64::from(*w) * u64::from(*h)).sum();
        samples * u64::from(self.bits() / 8)
    }

    /// The samples in the stream's order, Y, U, V, row by row: each one's plane and its place there.
    pub fn places(&self, strides: [u32; 3]) -> impl Iterator<Item = (usize, usize)> {
        let sides = self.planes();
        (0..3).flat_map(move |plane| {
            let ((row, rows), stride) = (sides[plane], strides[plane]);
            (0..rows).flat_map(move |r| (0..row).map(move |c| (plane, place(stride, r, c))))
        })
    }

    /// C's name of a known form.
    pub fn name(&self) -> &'static str {
        let known = NAMES.into_iter().find(|name| (name.1, name.2) == (self.sampling, self.depth));
        known.expect("a known form").0
    }

    /// The codes of a conversion; those that a stream does not have are 0.
    pub fn codes(&self) -> Codes {
        Codes {
            depth: self.depth,
            sampling: self.sampling,
            order: 0,
            range: 0,
            matrix: 0,
            packing: 0,
            mode: 0,
            kr: 0.0,
            kb: 0.0,
        }
    }

    /// Questions 1 to 4, where `depths` are known.
    fn asked(&self, depths: &[u32]) -> Asked {
        model::codes(depths, &self.codes())?;
        model::sides(self.width, self.height)
    }

    /// Questions 7 to 12.
    pub fn planes_asked(&self, planes: [Extent; 3]) -> Asked {
        model::planes(self.sampling, (self.width, self.height), planes)
    }
}

/// A line at the begin of the bytes: its words, parted by single spaces, and the bytes after it. None
/// where byte 10 is not among the first 256 bytes or a word is empty.
fn line(bytes: &[u8]) -> Option<(Vec<&[u8]>, &[u8])> {
    let end = bytes.iter().take(256).position(|byte| *byte == 10)?;
    let words: Vec<&[u8]> = bytes[..end].split(|byte| *byte == b' ').collect();
    words.iter().all(|word| !word.is_empty()).then_some((words, &bytes[end + 1..]))
}

/// A header that is not malformed: the digits of W and H, the name of C if it is there, and the bytes
/// after the line.
struct Header<'a> {
    width: &'a [u8],
    height: &'a [u8],
    name: Option<&'a [u8]>,
    after: &'a [u8],
}

impl Header<'_> {
    fn of(stream: &[u8]) -> Option<Header<'_>> {
        let (words, after) = line(stream)?;
        let (&word, fields) = words.split_first()?;
        let all = |letter: &[u8]| -> Vec<&[u8]> {
            fields.iter().filter_map(|field| field.strip_prefix(letter)).collect()
        };
        let (&[width], &[height]) = (&all(b"W")[..], &all(b"H")[..]) else { return None };
        let name = match all(b"C")[..] {
            [] => None,
            [name] => Some(name),
            _ => return None,
        };
        let number = |text: &[u8]| !text.is_empty() && text.iter().all(u8::is_ascii_digit);
        let well_formed = word == b"YUV4MPEG2" && number(width) && number(height);
        well_formed.then_some(Header { width, height, name, after })
    }

    /// None where C has another name or a side is outside 1 to 16,384.
    fn form(&self) -> Option<Form> {
        let name = self.name.unwrap_or(b"420jpeg");
        let (_, sampling, depth) =
            NAMES.into_iter().find(|(known, ..)| known.as_bytes() == name)?;
        Some(Form { sampling, depth, width: side(self.width)?, height: side(self.height)? })
    }
}

/// The number of some digits, if it is from 1 to 16,384.
fn side(digits: &[u8]) -> Option<u32> {
    let more = |number: u32, digit: &u8| (10 * number + u32::from(digit - b'0')).min(16_385);
    let number = digits.iter().fold(0, more);
    (1..=16_384).contains(&number).then_some(number)
}

/// The bytes after a frame line that is not malformed.
fn after_frame_line(bytes: &[u8]) -> Option<&[u8]> {
    let (words, after) = line(bytes)?;
    (words[0] == b"FRAME").then_some(after)
}

impl Y4mFrame {
    /// What the header says, if it is told.
    pub fn form(&self) -> Option<Form> {
        let Y4mFrame { width, height, sampling, depth, .. } = *self;
        (depth != 0).then_some(Form { sampling, depth, width, height })
    }
}

/// An answer with the sides, the sampling and the depth, or 0s.
pub fn told(form: Option<Form>) -> Y4mFrame {
    let Some(Form { sampling, depth, width, height }) = form else { return Y4mFrame::default() };
    Y4mFrame { width, height, sampling, depth, ..Default::default() }
}

/// The header alone.
pub fn header(stream: &[u8]) -> Y4mFrame {
    let Some(header) = Header::of(stream) else {
        return Y4mFrame { number: 16, ..Default::default() };
    };
    match header.form() {
        None => Y4mFrame { number: 17, ..Default::default() },
        form => Y4mFrame { next: (stream.len() - header.after.len()) as u64, ..told(form) },
    }
}

/// Reads the frame whose line is at a place, 0 standing for the header's end, into planes.
pub fn read<T: Element>(
    stream: &[u8], place: u64, planes: [&mut [T]; 3], strides: [u32; 3],
) -> Y4mFrame {
    let header = Header::of(stream);
    let form = header.as_ref().and_then(Header::form);
    let form = form.filter(|form| form.bits() == T::BITS);
    let told = Y4mFrame { next: place, ..told(form) };
    let extents = extents(&planes.each_ref().map(|plane| plane.len()), strides);
    match frame(stream, place, header, form, extents) {
        Ok(None) => told,
        Ok(Some(Found { form, samples, next })) => {
            put_samples(&form, samples, planes, strides);
            Y4mFrame { next, found: 1, ..told }
        }
        Err(Answer { number, expected, received, .. }) => {
            Y4mFrame { number, expected, received, ..told }
        }
    }
}

fn extents(lengths: &[usize; 3], strides: [u32; 3]) -> [Extent; 3] {
    [0, 1, 2].map(|i| Extent { len: lengths[i], stride: strides[i] })
}

/// A frame that is to be read: its form, the bytes of its samples, and the place after them.
struct Found<'a> {
    form: Form,
    samples: &'a [u8],
    next: u64,
}

/// The refusals of a stream, then questions 7 to 12; the frame, unless there is no further one.
fn frame<'a>(
    stream: &'a [u8], place: u64, header: Option<Header>, form: Option<Form>, planes: [Extent; 3],
) -> Result<Option<Found<'a>>, Answer> {
    let refusal = |number| Answer { number, ..Default::default() };
    let header = header.ok_or(refusal(16))?;
    let (len, end) = (stream.len() as u64, (stream.len() - header.after.len()) as u64);
    let place = if place == 0 { end } else { place };
    ask(16, (end..=len).contains(&place), 0, 0)?;
    let rest = &stream[place as usize..];
    let after = match rest {
        [] => None,
        _ => Some(after_frame_line(rest).ok_or(refusal(16))?),
    };
    let form = form.ok_or(refusal(17))?;
    let Some(after) = after else { return Ok(None) };
    ask(18, after.len() as u64 >= form.bytes(), 0, 0)?;
    form.planes_asked(planes)?;
    let (samples, others) = after.split_at(form.bytes() as usize);
    Ok(Some(Found { form, samples, next: len - others.len() as u64 }))
}

/// Puts a frame's samples into planes.
pub fn put_samples<T: Element>(
    form: &Form, bytes: &[u8], planes: [&mut [T]; 3], strides: [u32; 3],
) {
    let samples = bytes.chunks(T::BITS as usize / 8).map(sample_of);
    for ((plane, at), sample) in form.places(strides).zip(samples) {
        planes[plane][at] = T::low(sample);
    }
}

/// The sample of one byte, or of two, low byte first.
pub fn sample_of(bytes: &[u8]) -> u16 {
    bytes.iter().rev().fold(0, |high, low| high << 8 | u16::from(*low))
}

/// The bytes of a sample.
pub fn bytes_of<T: Element>(sample: T) -> impl Iterator<Item = u8> {
    let sample: i64 = sample.into();
    sample.to_le_bytes().into_iter().take(T::BITS as usize / 8)
}

/// The bytes of a frame's samples.
pub fn sample_bytes<T: Element>(form: &Form, planes: [&[T]; 3], strides: [u32; 3]) -> Vec<u8> {
    let mut bytes = Vec::with_capacity(form.bytes() as usize);
    for (plane, at) in form.places(strides) {
        bytes.extend(bytes_of(planes[plane][at]));
    }
    bytes
}

/// Writes a header.
pub fn write_header(form: &Form, out: &mut [u8]) -> Written {
    let text = form.asked(&[8, 10, 12]).map(|_| {
        format!("YUV4MPEG2 W{} H{} C{}\n", form.width, form.height, form.name()).into_bytes()
    });
    put(text, out)
}

/// Writes a frame of some planes, FRAME alone on its line.
pub fn write_frame<T: Element>(
    form: &Form, planes: [&[T]; 3], strides: [u32; 3], out: &mut [u8],
) -> Written {
    let extents = extents(&planes.map(|plane| plane.len()), strides);
    let asked = form.asked(T::DEPTHS).and_then(|_| form.planes_asked(extents));
    let text = || [b"FRAME\n", &sample_bytes(form, planes, strides)[..]].concat();
    put(asked.map(|_| text()), out)
}

/// Puts bytes at the begin of an output that is long enough: question 5.
fn put(bytes: Result<Vec<u8>, Answer>, out: &mut [u8]) -> Written {
    let asked = bytes.and_then(|bytes| {
        let (needed, actual) = (bytes.len() as u64, out.len() as u64);
        ask(5, actual >= needed, needed, actual).map(|_| bytes)
    });
    match asked {
        Ok(bytes) => {
            out[..bytes.len()].copy_from_slice(&bytes);
            Written { written: bytes.len() as u64, ..Default::default() }
        }
        Err(Answer { number, expected, received, .. }) => {
            Written { number, expected, received, written: 0 }
        }
    }
}
