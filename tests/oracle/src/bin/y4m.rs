//! Compares Y4M streams with `src/y4m.rs`, a second reading of document 02: of every read all nine
//! numbers, the stream, and every element of the planes, the kept ones and some around the buffers too;
//! of every write all four numbers, the planes, and every byte of the output, likewise. What the
//! library wrote it must read back. Arguments: how many streams of each kind, and a seed.
use oracle::cases::{
    around_limits, around_sides, elements, guarded, part, parts, planes, request, strange,
    tight_or_spare, tiny, Samples, DEPTHS, GUARD, SAMPLINGS, SIDES, TIGHT,
};
use oracle::library::y4m as library;
use oracle::library::y4m::Frames;
use oracle::random::Random;
use oracle::streams::{self, Line, Stream, MOST};
use oracle::tally::{differing, differing_planes, samples_of, status, Tally};
use oracle::y4m::{self, Form};
use oracle::{Planes, Request, Written, Y4mFrame};
use std::process::ExitCode;

fn main() -> ExitCode {
    let mut arguments = std::env::args().skip(1).map(|text| text.parse().expect("a number"));
    let streams = arguments.next().unwrap_or(1_000_000);
    let random = Random(arguments.next().unwrap_or(2027));
    let mut run = Run { tally: Tally::default(), counts: Counts::default(), random, streams };

    let mut same = run.group("headers", headers);
    same &= run.group("frame lines", frame_lines);
    same &= run.group("truncated and damaged streams", damaged);
    same &= run.group("lent planes around every limit", limits);
    same &= run.group("large frames", large);
    same &= run.group("written headers", written_headers);
    same &= run.group("written frames of 8 bits", written_frames::<u8>);
    same &= run.group("written frames of 10 and 12 bits", written_frames::<u16>);
    same &= run.group("written and read back, 8 bits", read_back::<u8>);
    same &= run.group("written and read back, 10 and 12 bits", read_back::<u16>);
    status(same)
}

/// Comparisons in groups, each with its own counts.
struct Run {
    tally: Tally,
    counts: Counts,
    random: Random,
    streams: u64,
}

impl Run {
    /// Compares a group and prints its counts; whether nothing differed.
    fn group(&mut self, name: &str, compare: fn(&mut Run)) -> bool {
        (self.tally, self.counts) = (Tally::default(), Counts::default());
        compare(self);
        let same = self.tally.print(&format!("{name}, calls"));
        self.counts.print();
        same
    }
}

/// Counts beside those of the calls.
#[derive(Default)]
struct Counts {
    streams: u64,
    lines: u64,
    ends: [u64; 4],
    found: u64,
    no_further: u64,
    twice: [u64; 2],
    read_back: u64,
}

impl Counts {
    /// Counts a stream, and its lines by where their byte 10 is.
    fn stream(&mut self, stream: &Stream) {
        self.streams += 1;
        for place in [0].iter().chain(&stream.places) {
            let line = stream.lent().get(*place as usize..).unwrap_or_default();
            self.lines += u64::from(!line.is_empty());
            match line.iter().position(|byte| *byte == 10) {
                Some(at @ 254..=256) => self.ends[at - 254] += 1,
                None if !line.is_empty() => self.ends[3] += 1,
                _ => {}
            }
        }
    }

    /// Counts a read by what it should answer, and where a later refusal holds too.
    fn read(&mut self, lent: &[u8], q: &Request, wanted: Y4mFrame) {
        let Y4mFrame { number, found, .. } = wanted;
        self.found += u64::from(found);
        self.no_further += u64::from(number == 0 && found == 0);
        self.twice[0] += u64::from(number == 16 && y4m::header(lent).number == 17);
        let planes = |form: Form| form.planes_asked(q.planes()).is_err();
        self.twice[1] += u64::from(number == 18 && wanted.form().is_some_and(planes));
    }

    fn print(&self) {
        let Counts { streams, lines, found, no_further, read_back, .. } = self;
        let ([in_255, in_256, in_257, without], [malformed, early]) = (self.ends, self.twice);
        if *streams > 0 {
            println!("  streams: {streams}; frames found: {found}, no further frame: {no_further}");
        }
        if malformed + early > 0 {
            println!("  16 where the header meets 17 too: {malformed}; 18 and 7 to 12: {early}");
        }
        if in_256 > 0 {
            println!(
                "  lines: {lines}; of 255, 256 and 257 bytes: {in_255}, {in_256}, {in_257}; without \
                 byte 10: {without}"
            );
        }
        if *read_back > 0 {
            println!("  samples read back: {read_back}");
        }
    }
}

/// Compares what the header says.
fn header(run: &mut Run, stream: &Stream) {
    let mut lent = stream.bytes.clone();
    let ours = library::header(&mut lent[..stream.len]);
    let wanted = y4m::header(stream.lent());
    run.tally.count(wanted.number);
    if ours != wanted || lent != stream.bytes {
        run.tally.differ(stream.len, || {
            format!("{}  ours   {ours:?}\n  wanted {wanted:?}", text(stream, &lent))
        });
    }
}

/// The begin of a stream, and whether it was written to.
fn text(stream: &Stream, lent: &[u8]) -> String {
    let (len, shown) = (stream.len, stream.lent()[..stream.len.min(500)].escape_ascii());
    let kept = if lent == stream.bytes { "" } else { "  the stream was written to\n" };
    format!("  {len} bytes: {shown}\n{kept}")
}

/// Compares a read into planes of the request's lengths and strides; the library's answer, and its
/// planes with the elements around them.
fn read<T: Frames>(
    run: &mut Run, stream: &Stream, place: u64, q: &Request,
) -> (Y4mFrame, Planes<T>) {
    let before: Planes<T> = guarded(&mut run.random, q.planes());
    let (mut left, mut right, mut lent) = (before.clone(), before.clone(), stream.bytes.clone());
    let ours = T::read(&mut lent[..stream.len], place, parts(&mut left), q.strides());
    let wanted = y4m::read(stream.lent(), place, parts(&mut right), q.strides());
    run.tally.count(wanted.number);
    run.counts.read(stream.lent(), q, wanted);
    if ours != wanted || left != right || lent != stream.bytes {
        run.tally.differ(stream.len + q.y.len + q.u.len + q.v.len, || {
            let planes = format!("Y {:?}, U {:?}, V {:?}, {} bits", q.y, q.u, q.v, T::BITS);
            let answers = format!("  ours   {ours:?}\n  wanted {wanted:?}\n");
            let text = text(stream, &lent) + &format!("  place {place}, {planes}\n{answers}");
            text + &differing_planes(["Y", "U", "V"], &before, &left, &right)
        });
    }
    (ours, left)
}

/// A read into planes of an element width; the answer.
fn read_into(run: &mut Run, stream: &Stream, place: u64, bits: u32, q: &Request) -> Y4mFrame {
    match bits {
        8 => read::<u8>(run, stream, place, q).0,
        _ => read::<u16>(run, stream, place, q).0,
    }
}

/// A read into planes that mostly fit the frame and have the header's element width.
fn read_any(run: &mut Run, stream: &Stream, place: u64) -> Y4mFrame {
    let q = lent_planes(&mut run.random, &stream.form);
    let bits = stream.form.bits();
    let bits = if run.random.below(10) == 0 { 24 - bits } else { bits };
    read_into(run, stream, place, bits, &q)
}

/// Planes for a form: most fit; of some the strides and the lengths lie around their limits, or one of
/// them is strange.
fn lent_planes(random: &mut Random, form: &Form) -> Request {
    let slack = match random.below(8) {
        0 => [(); 4].map(|_| (random.pick(&[-1, 0, 0, 1]), random.pick(&[-1, 0, 0, 1]))),
        _ => tight_or_spare(random),
    };
    let q = request(form.codes(), form.width, form.height, slack);
    let mut q = tiny(random, 100_000, q);
    if random.below(20) == 0 {
        let plane = random.below(3) as usize;
        let plane = [&mut q.y, &mut q.u, &mut q.v].into_iter().nth(plane).expect("one of three");
        *plane = strange(random, *plane);
    }
    q
}

/// Reads from a place, and from each next one as long as there are frames.
fn chain(run: &mut Run, stream: &Stream, mut place: u64) {
    for _ in 0..9 {
        let answer = read_any(run, stream, place);
        if answer.found == 0 {
            break;
        }
        place = answer.next;
    }
}

/// Headers with and without faults.
fn headers(run: &mut Run) {
    for _ in 0..run.streams {
        let random = &mut run.random;
        let form = streams::form(random);
        let line = Line::header(random, &form).spoilt(random);
        let frames: Vec<Line> = (0..random.below(3)).map(|_| Line::frame(random)).collect();
        let mut stream = Stream::new(random, form, &line, &frames, MOST);
        if random.below(8) == 0 {
            stream.cut(random);
        }
        let place = stream.place(random);
        run.counts.stream(&stream);
        header(run, &stream);
        read_any(run, &stream, 0);
        read_any(run, &stream, place);
    }
}

/// Frames whose lines have faults, some after a header with faults.
fn frame_lines(run: &mut Run) {
    for _ in 0..run.streams {
        let random = &mut run.random;
        let form = streams::form(random);
        let line = Line::header(random, &form);
        let line = if random.below(8) == 0 { line.spoilt(random) } else { line };
        let count = random.between(1, 3);
        let frames: Vec<Line> = (0..count).map(|_| Line::frame(random).spoilt(random)).collect();
        let mut stream = Stream::new(random, form, &line, &frames, MOST);
        if random.below(8) == 0 {
            stream.cut(random);
        }
        run.counts.stream(&stream);
        for place in &stream.places {
            read_any(run, &stream, *place);
        }
        read_any(run, &stream, 0);
    }
}

/// Streams that were well formed before bytes were changed or their end was cut off.
fn damaged(run: &mut Run) {
    for n in 0..run.streams {
        let random = &mut run.random;
        let form = streams::form(random);
        let line = Line::header(random, &form);
        let frames: Vec<Line> = (0..random.below(4)).map(|_| Line::frame(random)).collect();
        let mut stream = Stream::new(random, form, &line, &frames, MOST);
        if n % 4 != 0 {
            stream.damage(random);
        }
        if n % 2 == 0 {
            stream.cut(random);
        }
        let place = stream.place(random);
        run.counts.stream(&stream);
        header(run, &stream);
        chain(run, &stream, 0);
        chain(run, &stream, place);
    }
}

/// Frames that are whole, or end a byte early, into planes whose strides and lengths lie around every
/// limit.
fn limits(run: &mut Run) {
    for (slack, (_, sampling, depth)) in
        around_limits().flat_map(|slack| y4m::NAMES.map(|name| (slack, name)))
    {
        let random = &mut run.random;
        let (width, height) = (random.between(1, 4), random.between(1, 5));
        let form = Form { sampling, depth, width, height };
        let (line, frames) = (Line::header(random, &form), [Line::frame(random)]);
        let mut stream = Stream::new(random, form, &line, &frames, MOST);
        stream.len -= usize::from(random.below(8) == 0);
        run.counts.stream(&stream);
        let q = request(form.codes(), width, height, slack);
        read_into(run, &stream, 0, form.bits(), &q);
    }
}

/// Frames of the largest width and of the largest height, read whole and a byte short, and written; of
/// both once.
fn large(run: &mut Run) {
    let narrow = (1..4).flat_map(|side| [(16_384, side), (side, 16_384)]);
    let narrow = narrow.flat_map(|(width, height)| {
        y4m::NAMES.map(|(_, sampling, depth)| Form { sampling, depth, width, height })
    });
    let both = Form { sampling: 0, depth: 8, width: 16_384, height: 16_384 };
    for form in narrow.chain([both]) {
        let random = &mut run.random;
        let (line, frames) = (Line::header(random, &form), [Line::frame(random)]);
        let mut stream = Stream::new(random, form, &line, &frames, u64::MAX);
        let q = fitting(random, &form);
        run.counts.stream(&stream);
        read_into(run, &stream, 0, form.bits(), &q);
        stream.len -= 1;
        read_into(run, &stream, 0, form.bits(), &q);
        drop(stream);
        match form.bits() {
            8 => written_frame::<u8>(run, &q),
            _ => written_frame::<u16>(run, &q),
        }
    }
}

/// An output with bytes around it, as it was, and as the library and the second reading leave it.
struct Output {
    before: Vec<u8>,
    left: Vec<u8>,
    right: Vec<u8>,
}

impl Output {
    fn new(random: &mut Random, len: usize) -> Output {
        let before: Vec<u8> = elements(random, len + 2 * GUARD, |bits| bits);
        Output { left: before.clone(), right: before.clone(), before }
    }

    /// Compares a call that writes from a place on; the library's answer.
    fn write(
        &mut self, run: &mut Run, from: usize, ours: impl FnOnce(&mut [u8]) -> Written,
        wanted: impl FnOnce(&mut [u8]) -> Written, told: impl FnOnce() -> String,
    ) -> Written {
        let (ours, wanted) =
            (ours(part(&mut self.left, from)), wanted(part(&mut self.right, from)));
        run.tally.count(wanted.number);
        if ours != wanted || self.left != self.right {
            run.tally.differ(self.before.len(), || {
                let answers = format!("  ours   {ours:?}\n  wanted {wanted:?}\n");
                let bytes = differing(&self.before, &self.left, &self.right);
                format!("{}  from {from}\n{answers}{bytes}", told())
            });
        }
        ours
    }

    fn header(&mut self, run: &mut Run, from: usize, form: &Form) -> Written {
        let ours = |out: &mut [u8]| library::write_header(form, out);
        let wanted = |out: &mut [u8]| y4m::write_header(form, out);
        self.write(run, from, ours, wanted, || format!("  {form:?}\n"))
    }

    fn frame<T: Frames>(
        &mut self, run: &mut Run, from: usize, q: &Request, planes: &Planes<T>,
    ) -> Written {
        let (form, mut lent) = (form(q), planes.clone());
        let ours = |out: &mut [u8]| {
            T::write(&form, lent.each_mut().map(|plane| &mut plane[..]), q.strides(), out)
        };
        let wanted = |out: &mut [u8]| {
            y4m::write_frame(&form, planes.each_ref().map(|plane| &plane[..]), q.strides(), out)
        };
        let told = || format!("  {q:?}\n{}", samples_of(planes, planes));
        let written = self.write(run, from, ours, wanted, told);
        if lent != *planes {
            run.tally
                .differ(self.before.len(), || format!("  {q:?}\n{}", samples_of(planes, &lent)));
        }
        written
    }
}

/// The form of the frames that a request's planes are for.
fn form(q: &Request) -> Form {
    let (sampling, depth) = (q.codes.sampling, q.codes.depth);
    Form { sampling, depth, width: q.width, height: q.height }
}

/// The length of an output for which so many bytes are needed: as long, a byte less, longer, or any
/// that is less.
fn output_length(random: &mut Random, needed: usize) -> usize {
    let less = random.below(needed as u32 + 1) as usize;
    let longer = needed + random.between(1, 40) as usize;
    random.pick(&[needed, needed, needed.saturating_sub(1), longer, less])
}

/// Known and unknown codes with sides around 0 and 16,384, and sides of all lengths.
fn written_headers(run: &mut Run) {
    for n in 0..SAMPLINGS.len() * DEPTHS.len() * SIDES.len() * SIDES.len() {
        let mut rest = n;
        let [sampling, depth, width, height] =
            [&SAMPLINGS[..], &DEPTHS, &SIDES, &SIDES].map(|list| {
                let value = list[rest % list.len()];
                rest /= list.len();
                value
            });
        written_header(run, &Form { sampling, depth, width, height });
    }
    for _ in 0..run.streams / 5 {
        let mut side = || 16_384 >> run.random.below(15);
        let [width, height] = [side(), side()].map(|most| run.random.between(1, most));
        let form = streams::form(&mut run.random);
        written_header(run, &Form { width, height, ..form });
    }
}

/// A header into outputs of all lengths around the one that is needed.
fn written_header(run: &mut Run, form: &Form) {
    let needed = y4m::write_header(form, &mut [0; 256]).written as usize;
    for len in
        [needed, needed.saturating_sub(1), needed + 1, output_length(&mut run.random, needed)]
    {
        Output::new(&mut run.random, len).header(run, 0, form);
    }
}

/// Frames of planes around every limit, of any planes, and of known and unknown codes.
fn written_frames<T: Frames>(run: &mut Run) {
    let codes = |run: &mut Run| {
        let form = streams::form(&mut run.random);
        Form { depth: run.random.pick(T::DEPTHS), ..form }.codes()
    };
    for slack in around_limits() {
        let (width, height) = (run.random.between(1, 4), run.random.between(1, 5));
        let q = request(codes(run), width, height, slack);
        written_frame::<T>(run, &q);
    }
    for (width, height) in SIDES.iter().flat_map(|width| SIDES.map(|height| (*width, height))) {
        let codes = codes(run);
        let q = around_sides(&mut run.random, codes, (width, height), true);
        written_frame::<T>(run, &q);
    }
    for (sampling, depth) in SAMPLINGS.iter().flat_map(|s| DEPTHS.map(|depth| (*s, depth))) {
        for (width, height) in [(3, 2), (0, 2), (3, 0), (16_385, 1)] {
            let form = Form { sampling, depth, width, height };
            written_frame::<T>(run, &request(form.codes(), width, height, TIGHT));
        }
    }
    for _ in 0..run.streams / 5 {
        let form = Form { depth: run.random.pick(T::DEPTHS), ..streams::form(&mut run.random) };
        let q = lent_planes(&mut run.random, &form);
        written_frame::<T>(run, &q);
    }
}

/// A frame of any samples into an output of about the length that is needed.
fn written_frame<T: Frames>(run: &mut Run, q: &Request) {
    let samples = planes::<T>(&mut run.random, Samples::Any, q);
    let sides = q.width.max(q.height) <= 16_384 && q.width.min(q.height) > 0;
    let needed = if sides { form(q).bytes().min(1 << 20) as usize + 6 } else { 10 };
    let len = output_length(&mut run.random, needed);
    Output::new(&mut run.random, len).frame(run, 0, q, &samples);
}

/// A header and some frames, written one after the other, then read.
fn read_back<T: Frames>(run: &mut Run) {
    for _ in 0..run.streams / 10 {
        let random = &mut run.random;
        let form = Form { depth: random.pick(T::DEPTHS), ..streams::form(random) };
        let small = Form { width: form.width.min(12), height: form.height.min(12), ..form };
        let form = if form.bytes() > MOST { small } else { form };
        let frames = random.below(5) as usize;
        let len = 33 + frames * (6 + form.bytes() as usize) + random.below(20) as usize;
        let mut output = Output::new(random, len);
        let mut used = output.header(run, 0, &form).written as usize;
        let mut places = vec![used as u64];
        let mut written = Vec::new();
        for _ in 0..frames {
            let q = fitting(&mut run.random, &form);
            let samples = planes::<T>(&mut run.random, Samples::Any, &q);
            used += output.frame(run, used, &q, &samples).written as usize;
            places.push(used as u64);
            written.push((q, samples));
        }
        let stream = Stream { bytes: output.left[GUARD..].to_vec(), len: used, form, places };
        run.counts.stream(&stream);
        header(run, &stream);
        read_all(run, &stream, &written);
    }
}

/// Planes that a frame fits.
fn fitting(random: &mut Random, form: &Form) -> Request {
    let slack = tight_or_spare(random);
    request(form.codes(), form.width, form.height, slack)
}

/// Reads a stream from 0 on, each frame at the place after the one before: they must be those that were
/// written, and the places their ends. After the last there must be no further frame.
fn read_all<T: Frames>(run: &mut Run, stream: &Stream, written: &[(Request, Planes<T>)]) {
    let (form, mut place) = (&stream.form, 0);
    for (i, (from, samples)) in written.iter().enumerate() {
        let q = fitting(&mut run.random, form);
        let (answer, planes) = read::<T>(run, stream, place, &q);
        let wanted = Y4mFrame { next: stream.places[i + 1], found: 1, ..y4m::told(Some(*form)) };
        let mut pairs = form.places(from.strides()).zip(form.places(q.strides()));
        let same =
            pairs.all(|((plane, at), (_, to))| samples[plane][at] == planes[plane][GUARD + to]);
        run.counts.read_back += form.places(q.strides()).count() as u64;
        if answer != wanted || !same {
            run.tally.differ(stream.len, || {
                let told = format!("  frame {i}: ours {answer:?}\n  wanted {wanted:?}");
                format!("{}{told}\n  samples as written: {same}", text(stream, &stream.bytes))
            });
            return;
        }
        place = answer.next;
    }
    let q = fitting(&mut run.random, form);
    let (answer, _) = read::<T>(run, stream, place, &q);
    if answer != (Y4mFrame { next: place, ..y4m::told(Some(*form)) }) {
        let told = || format!("{}  at the end {answer:?}", text(stream, &stream.bytes));
        run.tally.differ(stream.len, told);
    }
}
