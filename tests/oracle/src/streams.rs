//! Y4M streams to compare: lines and frames that are well formed, and lines and streams with faults.
use crate::cases::elements;
use crate::random::Random;
use crate::y4m::{self, Form};

/// A known form of sides from 1 to 12, now and then of the largest.
pub fn form(random: &mut Random) -> Form {
    let (_, sampling, depth) = random.pick(&y4m::NAMES);
    let mut side = || match random.below(200) {
        0 => 16_384,
        _ => random.between(1, 12),
    };
    Form { sampling, depth, width: side(), height: side() }
}

/// A line: its first word, its fields, each with a space before it, and its end.
pub struct Line {
    word: Vec<u8>,
    fields: Vec<Vec<u8>>,
    end: &'static [u8],
}

impl Line {
    /// A header that says a form, with some other fields, in any order.
    pub fn header(random: &mut Random, form: &Form) -> Line {
        let mut fields = vec![format!("W{}", form.width), format!("H{}", form.height)];
        if form.name() != "420jpeg" || random.below(2) == 0 {
            fields.push(format!("C{}", form.name()));
        }
        let mut fields: Vec<Vec<u8>> = fields.into_iter().map(String::into_bytes).collect();
        fields.extend((0..random.below(4)).map(|_| other_field(random)));
        for i in 1..fields.len() {
            if random.below(2) == 0 {
                fields.swap(i, random.below(i as u32) as usize);
            }
        }
        Line { word: b"YUV4MPEG2".into(), fields, end: b"\n" }
    }

    /// A frame line, mostly without fields.
    pub fn frame(random: &mut Random) -> Line {
        let count = random.pick(&[0, 0, 0, 1, 2]);
        let fields = (0..count).map(|_| any_field(random)).collect();
        Line { word: b"FRAME".into(), fields, end: b"\n" }
    }

    pub fn bytes(&self) -> Vec<u8> {
        let mut bytes = self.word.clone();
        for field in &self.fields {
            bytes.push(b' ');
            bytes.extend(field);
        }
        bytes.extend(self.end);
        bytes
    }

    /// The line with up to three faults.
    pub fn spoilt(mut self, random: &mut Random) -> Line {
        for _ in 0..random.pick(&[0, 1, 1, 1, 2, 2, 3]) {
            self.spoil(random);
        }
        self
    }

    /// A fault, or what is none but might be taken for one.
    fn spoil(&mut self, random: &mut Random) {
        match random.below(16) {
            0..=2 => self.replace(random.pick(b"WH"), odd_number(random)),
            3 | 4 => self.replace(b'C', odd_name(random)),
            5 => drop(self.remove(random)),
            6 => {
                let twice = self.remove(random).map(|field| [field.clone(), field]);
                twice.into_iter().flatten().for_each(|field| self.insert(field, random));
            }
            7 => self.insert(any_field(random), random),
            8 | 9 => self.insert(Vec::new(), random),
            10 => self.word = spoilt(random, &self.word),
            11..=14 => self.lengthen(random),
            _ => self.end = random.pick(&[&b""[..], b"\r\n", b"\r", b"\0"]),
        }
    }

    fn insert(&mut self, field: Vec<u8>, random: &mut Random) {
        let at = random.below(self.fields.len() as u32 + 1) as usize;
        self.fields.insert(at, field);
    }

    /// Takes a field out, if there is one.
    fn remove(&mut self, random: &mut Random) -> Option<Vec<u8>> {
        let at = random.below(self.fields.len() as u32) as usize;
        (!self.fields.is_empty()).then(|| self.fields.remove(at))
    }

    /// Another text in the field of a letter; a field more where there was none.
    fn replace(&mut self, letter: u8, text: Vec<u8>) {
        let field = [&[letter], &text[..]].concat();
        match self.field(letter) {
            Some(other) => *other = field,
            None => self.fields.push(field),
        }
    }

    fn field(&mut self, letter: u8) -> Option<&mut Vec<u8>> {
        self.fields.iter_mut().find(|field| field.first() == Some(&letter))
    }

    /// One more field, or zeros in that of W, so that a shorter line has from 254 to 258 bytes.
    fn lengthen(&mut self, random: &mut Random) {
        let missing = (random.between(254, 258) as usize).saturating_sub(self.bytes().len());
        let zeros = random.below(4) == 0;
        match self.field(b'W') {
            Some(width) if zeros => drop(width.splice(1..1, vec![b'0'; missing])),
            _ if missing >= 2 => {
                let mut field = bytes(random, missing - 1);
                field[0] = b'X';
                self.insert(field, random);
            }
            _ => {}
        }
    }
}

/// Any byte but 10 and the space; half of them those of fields.
fn byte(random: &mut Random) -> u8 {
    let any = random.below(256) as u8;
    match random.below(2) {
        0 if any != b'\n' && any != b' ' => any,
        _ => random.pick(b"WHCIFAXwhc0123456789/:;.+-=pjegmono\t\r\0\x0b\x1f\x7f\x80\xff"),
    }
}

fn bytes(random: &mut Random, count: usize) -> Vec<u8> {
    (0..count).map(|_| byte(random)).collect()
}

/// Text that is cut off, goes on, or has another byte, one in the other case, one more or one less.
fn spoilt(random: &mut Random, text: &[u8]) -> Vec<u8> {
    let (mut text, other) = (text.to_vec(), byte(random));
    let at = random.below(text.len().max(1) as u32) as usize;
    match random.below(6) {
        0 => text.truncate(at),
        1 => text.push(other),
        2 => text.insert(at, other),
        3 if at < text.len() => drop(text.remove(at)),
        4 if at < text.len() => text[at] ^= 0x20,
        _ => text.iter_mut().skip(at).take(1).for_each(|byte| *byte = other),
    }
    text
}

/// The text of a W or an H: none, around the ends, with zeros before it, with bits above those of a
/// side, long, or with a byte that is no digit.
fn odd_number(random: &mut Random) -> Vec<u8> {
    let small = random.between(1, 12);
    let ends = [0, 1, 9999, 10_000, 16_383, 16_384, 16_385, 16_390, 99_999, small];
    let number = random.pick(&ends);
    let digits = random.between(1, 200) as usize;
    let text = match random.below(8) {
        0 => String::new(),
        1 | 2 => number.to_string(),
        3 => format!("{number:0digits$}"),
        4 => (random.pick(&[1 << 16, 1 << 32, 1 << 64, 1 << 127]) + u128::from(small)).to_string(),
        5 => (0..digits).map(|_| char::from(b'0' + random.below(10) as u8)).collect(),
        _ => return spoilt(random, small.to_string().as_bytes()),
    };
    text.into()
}

/// The text of a C: another name, or one that might be taken for a known one.
fn odd_name(random: &mut Random) -> Vec<u8> {
    let (known, ..) = random.pick(&y4m::NAMES);
    let others = [
        "", "420", "420mpeg2", "420paldv", "411", "444", "444alpha", "mono", "mono10", "410",
        "440", "420p9", "420p14", "420p16", "422p9", "422p14", "422p16", "444p10", "422jpeg",
        "420p",
    ];
    match random.below(4) {
        0 => known.into(),
        1 => random.pick(&others).into(),
        2 => [known, random.pick(&others)].concat().into(),
        _ => spoilt(random, known.as_bytes()),
    }
}

/// A field that a header passes over.
fn other_field(random: &mut Random) -> Vec<u8> {
    let others = [
        "Ip", "It", "Im", "I?", "F25:1", "F30000:1001", "A1:1", "A0:0", "XYSCSS=420JPEG",
        "XCOLORRANGE=FULL", "X", "XW5", "w5", "h5", "c422", "YUV4MPEG2", "FRAME", "5",
    ];
    let count = random.between(1, 12) as usize;
    let mut field = bytes(random, count);
    match random.below(2) {
        0 if !b"WHC".contains(&field[0]) => field,
        0 => {
            field[0] = b'X';
            field
        }
        _ => random.pick(&others).into(),
    }
}

/// Such a field, or a W, an H or a C.
fn any_field(random: &mut Random) -> Vec<u8> {
    let (name, ..) = random.pick(&y4m::NAMES);
    match random.below(6) {
        0 => format!("W{}", random.between(1, 12)).into(),
        1 => format!("H{}", random.between(1, 12)).into(),
        2 => format!("C{name}").into(),
        _ => other_field(random),
    }
}

/// A stream as it is lent: the first `len` of some bytes, so that a reader which goes too far finds
/// what is missing.
pub struct Stream {
    pub bytes: Vec<u8>,
    pub len: usize,
    /// What the header says or, where it is refused, was to say before it had faults.
    pub form: Form,
    /// The ends of the header and of the frames, before the stream was damaged.
    pub places: Vec<u64>,
}

/// The bytes of most frames' samples, at most.
pub const MOST: u64 = 70_000;

impl Stream {
    /// A header, and a frame for each of the other lines; some bytes in place of frames of more than
    /// `most`.
    pub fn new(
        random: &mut Random, form: Form, header: &Line, frames: &[Line], most: u64,
    ) -> Stream {
        let mut bytes = header.bytes();
        let form = y4m::header(&bytes).form().unwrap_or(form);
        let mut places = vec![bytes.len() as u64];
        for line in frames {
            bytes.extend(line.bytes());
            bytes.extend(samples(random, form.bytes(), most));
            places.push(bytes.len() as u64);
        }
        Stream { len: bytes.len(), bytes, form, places }
    }

    pub fn lent(&self) -> &[u8] {
        &self.bytes[..self.len]
    }

    /// Cuts the stream at one of its places, near it, or anywhere.
    pub fn cut(&mut self, random: &mut Random) {
        let near = self.near(random);
        let anywhere = u64::from(random.below(self.len as u32 + 1));
        self.len = random.pick(&[near, near, anywhere]).min(self.len as u64) as usize;
    }

    /// One of the places or a byte or two beside it.
    fn near(&self, random: &mut Random) -> u64 {
        (random.pick(&self.places) + random.pick(&[0, 0, 1, 2, 3, 4])).saturating_sub(2)
    }

    /// Some bytes changed, added, taken out, or doubled.
    pub fn damage(&mut self, random: &mut Random) {
        for _ in 0..random.between(1, 3) {
            let at = self.damaged_place(random);
            let byte = random.pick(b"\n\n   0123456789WHCFRAME\r\0\xff");
            match random.below(4) {
                0 if at < self.bytes.len() => self.bytes[at] = byte,
                1 if at < self.bytes.len() => drop(self.bytes.remove(at)),
                2 => {
                    let end = (at + random.between(1, 20) as usize).min(self.bytes.len());
                    let doubled = self.bytes[at..end].to_vec();
                    drop(self.bytes.splice(at..at, doubled));
                }
                _ => self.bytes.insert(at, byte),
            }
        }
        self.len = self.bytes.len();
    }

    /// A place in a line, mostly, or any.
    fn damaged_place(&self, random: &mut Random) -> usize {
        let header = random.below(self.places[0] as u32) as usize;
        let frame = random.pick(&self.places) as usize + random.below(8) as usize;
        let any = random.below(self.bytes.len() as u32) as usize;
        random.pick(&[header, frame, frame, any]).min(self.bytes.len())
    }

    /// A place to read from: 0, the header's end, the begin of a frame, the stream's end, one of these
    /// or near it with bits far above, one inside the header, past the end, or any.
    pub fn place(&self, random: &mut Random) -> u64 {
        let (len, near) = (self.len as u64, self.near(random));
        match random.below(16) {
            0..=3 => 0,
            4..=9 => random.pick(&self.places),
            10 => near,
            11 => random.below(self.places[0] as u32).into(),
            12 => random.below(self.len as u32 + 1).into(),
            13 => len + random.pick(&[0, 0, 1, 2, 300]),
            14 => random.pick(&[1 << 32, 1 << 48, 1 << 63]) + near,
            _ => u64::MAX - random.pick(&[0, 0, 1, near]),
        }
    }
}

/// The samples of a frame, or a few bytes in place of more than `most`. A quarter of the frames are
/// made of the bytes of lines.
fn samples(random: &mut Random, bytes: u64, most: u64) -> Vec<u8> {
    let count = if bytes > most { random.below(40) as usize } else { bytes as usize };
    let text = b"\nFRAME 0";
    match random.below(4) {
        0 => elements(random, count, |bits| text[usize::from(bits % 8)].into()),
        _ => elements(random, count, |bits| bits),
    }
}
