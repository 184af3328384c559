//! Writes the list that crates/y4m_vectors replays: calls that read small Y4M streams, and what
//! `src/y4m.rs` answers to each, with the planes as it leaves them.
use oracle::cases::{request, strange, tight_or_spare, Element, TIGHT};
use oracle::random::Random;
use oracle::streams::{self, Line, Stream};
use oracle::y4m::{self, Form};
use oracle::{Request, Y4mFrame};
use std::io::Write;

/// The room that the replaying program has for each plane, and for the whole list.
const ROOM: usize = 256;
const BYTES: usize = 131_072;

/// A longer stream is drawn anew.
const LONGEST: usize = 300;

/// Every element before a call.
const BEFORE: u16 = 170;

fn main() {
    let mut list = List::new();
    headers(&mut list);
    frame_lines(&mut list);
    damaged(&mut list);
    limits(&mut list);
    assert!(list.bytes.len() < BYTES);
    std::io::stdout().write_all(&list.bytes).expect("a list written");
    eprintln!("{} answers in {} bytes", list.answers, list.bytes.len());
    eprintln!("of kinds 0, 1 and 2: {:?}; by number: {:?}", list.by_kind, list.by_number);
    let [found, no_further] = list.accepted;
    eprintln!("frames read: {found}; no further frame: {no_further}");
    eprintln!("calls on a header of 256 bytes: {}", list.full);
}

struct List {
    random: Random,
    bytes: Vec<u8>,
    answers: u32,
    by_kind: [u32; 3],
    by_number: [u32; 19],
    accepted: [u32; 2],
    full: u32,
}

/// What a call is given beside the stream: its kind, the place, and the lengths and strides of planes.
struct Call {
    kind: u64,
    place: u64,
    strides: [u32; 3],
    lengths: [usize; 3],
}

impl List {
    fn new() -> List {
        let (random, bytes) = (Random(2028), Vec::new());
        List {
            random,
            bytes,
            answers: 0,
            by_kind: [0; 3],
            by_number: [0; 19],
            accepted: [0; 2],
            full: 0,
        }
    }

    /// Adds a call with its answer.
    fn add(&mut self, stream: &Stream, call: &Call, answer: Y4mFrame, planes: &[u8]) {
        let Y4mFrame { number, expected, received, next, .. } = answer;
        let Y4mFrame { width, height, sampling, depth, found, .. } = answer;
        let mut numbers = vec![call.kind, stream.len as u64, call.place];
        numbers.extend(call.strides.map(u64::from));
        numbers.extend(call.lengths.map(|length| length as u64));
        numbers.extend([number, expected, received, next]);
        numbers.extend([width, height, sampling, depth, found].map(u64::from));
        self.bytes.extend(numbers.into_iter().flat_map(u64::to_be_bytes));
        self.bytes.extend(stream.lent());
        self.bytes.extend(planes);
        self.answers += 1;
        self.by_kind[call.kind as usize] += 1;
        self.by_number[number as usize] += 1;
        if call.kind > 0 && number == 0 {
            self.accepted[usize::from(found == 0)] += 1;
        }
        self.full += u32::from(stream.lent().get(255) == Some(&b'\n'));
    }

    /// A stream that is short enough, made by `make`.
    fn stream(&mut self, make: impl Fn(&mut Random) -> Stream) -> Stream {
        loop {
            let stream = make(&mut self.random);
            if stream.len <= LONGEST {
                return stream;
            }
        }
    }

    /// What the header says.
    fn header(&mut self, stream: &Stream) {
        let call = Call { kind: 0, place: 0, strides: [0; 3], lengths: [0; 3] };
        self.add(stream, &call, y4m::header(stream.lent()), &[]);
    }

    /// A read into planes of the header's element width, now and then of the other.
    fn read(&mut self, stream: &Stream, place: u64, q: &Request) -> Y4mFrame {
        let bits = stream.form.bits();
        match if self.random.below(12) == 0 { 24 - bits } else { bits } {
            8 => self.read_into::<u8>(stream, place, q),
            _ => self.read_into::<u16>(stream, place, q),
        }
    }

    fn read_into<T: Element>(&mut self, stream: &Stream, place: u64, q: &Request) -> Y4mFrame {
        let width = T::BITS as usize / 8;
        let lengths = q.planes().map(|plane| plane.len.min(ROOM));
        let call = Call { kind: width as u64, place, strides: q.strides(), lengths };
        let mut planes = lengths.map(|length| vec![T::low(BEFORE); length]);
        let lent = planes.each_mut().map(|plane| &mut plane[..]);
        let answer = y4m::read(stream.lent(), place, lent, call.strides);
        let number = |element: &T| -> i64 { (*element).into() };
        let numbers = planes.iter().flatten().map(number);
        let bytes: Vec<u8> =
            numbers.flat_map(|number| number.to_be_bytes()[8 - width..].to_vec()).collect();
        self.add(stream, &call, answer, &bytes);
        answer
    }

    /// A read into planes that mostly fit.
    fn read_any(&mut self, stream: &Stream, place: u64) -> Y4mFrame {
        let form = &stream.form;
        let slack = tight_or_spare(&mut self.random);
        let mut q = request(form.codes(), form.width, form.height, slack);
        if self.random.below(20) == 0 {
            q.u = strange(&mut self.random, q.u);
        }
        self.read(stream, place, &q)
    }
}

/// A known form of sides from 1 to 5, or one as `streams` makes them.
fn form(random: &mut Random) -> Form {
    let form = streams::form(random);
    match random.below(4) {
        0 => form,
        _ => Form { width: random.between(1, 5), height: random.between(1, 5), ..form },
    }
}

fn frames(random: &mut Random, count: u32) -> Vec<Line> {
    (0..count).map(|_| Line::frame(random)).collect()
}

/// Headers with and without faults, each read alone and with the frame after it.
fn headers(list: &mut List) {
    for _ in 0..60 {
        let stream = list.stream(|random| {
            let form = form(random);
            let line = Line::header(random, &form).spoilt(random);
            let count = random.below(2);
            let frames = frames(random, count);
            Stream::new(random, form, &line, &frames, LONGEST as u64)
        });
        list.header(&stream);
        list.read_any(&stream, 0);
    }
}

/// Frames whose lines have faults, read at 0, at each place and at any.
fn frame_lines(list: &mut List) {
    for _ in 0..25 {
        let stream = list.stream(|random| {
            let form = form(random);
            let line = Line::header(random, &form);
            let frames: Vec<Line> =
                (0..random.between(1, 2)).map(|_| Line::frame(random).spoilt(random)).collect();
            Stream::new(random, form, &line, &frames, LONGEST as u64)
        });
        list.read_any(&stream, 0);
        for place in &stream.places {
            list.read_any(&stream, *place);
        }
        let place = stream.place(&mut list.random);
        list.read_any(&stream, place);
    }
}

/// Streams that were well formed before bytes were changed or their end was cut off, read from 0 on
/// as long as there are frames, and at any place.
fn damaged(list: &mut List) {
    for n in 0..40 {
        let stream = list.stream(|random| {
            let form = form(random);
            let line = Line::header(random, &form);
            let count = random.below(4);
            let frames = frames(random, count);
            let mut stream = Stream::new(random, form, &line, &frames, LONGEST as u64);
            if n % 2 == 0 {
                stream.damage(random);
            }
            if n % 4 > 1 {
                stream.cut(random);
            }
            stream
        });
        list.header(&stream);
        let mut answer = list.read_any(&stream, 0);
        while answer.found == 1 {
            answer = list.read_any(&stream, answer.next);
        }
        let place = stream.place(&mut list.random);
        list.read_any(&stream, place);
    }
}

/// Whole frames of each name into planes that fit tightly, and with each stride and each length one
/// below its limit.
fn limits(list: &mut List) {
    for (n, (_, sampling, depth)) in (0..7).flat_map(|n| y4m::NAMES.map(|name| (n, name))) {
        let stream = list.stream(|random| {
            let (width, height) = (random.between(1, 4), random.between(1, 4));
            let form = Form { sampling, depth, width, height };
            let (line, frames) = (Line::header(random, &form), frames(random, 1));
            Stream::new(random, form, &line, &frames, LONGEST as u64)
        });
        let (form, mut slack) = (&stream.form, TIGHT);
        match n {
            6 => {}
            _ if n % 2 == 0 => slack[1 + n / 2].0 = -1,
            _ => slack[1 + n / 2].1 = -1,
        }
        let q = request(form.codes(), form.width, form.height, slack);
        list.read(&stream, 0, &q);
    }
}
