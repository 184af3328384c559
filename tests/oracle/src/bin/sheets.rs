//! Compares the program `sheet` with document 01's sheet and document 02's last line, read here once
//! more; the pixels are the Rust's, the counts those of `src/reading.rs`. `sheets COUNT SEED` sets the
//! random sheets; `sheets -` prints the answer to its input.
use oracle::cases::Element;
use oracle::{model, random::Random, reading, tally::Tally, Clipped, Codes, Extent, Request};
use std::io::{Read, Write};
use std::process::{Command, ExitCode, Stdio};

const NAMES: &[u8] = b"depth sampling order range matrix width height\n";

fn main() -> ExitCode {
    let words: Vec<String> = std::env::args().skip(1).collect();
    if words.first().is_some_and(|word| word == "-") {
        let mut input = Vec::new();
        std::io::stdin().read_to_end(&mut input).unwrap();
        print!("{}", answer(&input));
        return ExitCode::SUCCESS;
    }
    let number = |at: usize, default| words.get(at).map_or(default, |word| word.parse().unwrap());
    let (mut tally, mut random) = (Tally::default(), Random(number(1, 2026)));
    for _ in 0..number(0, 20_000) {
        let input = sheet(&mut random);
        let (ours, wanted) = (program(&input), answer(&input));
        tally.count(refusal(&wanted));
        if ours != wanted.as_bytes() {
            let ours = String::from_utf8_lossy(&ours).into_owned();
            let input = String::from_utf8_lossy(&input).into_owned();
            tally.differ(input.len(), || format!("{input}\n  ours   {ours}\n  wanted {wanted}"));
        }
    }
    tally.finish("sheets")
}

/// The number of a refusal; 0 for a table.
fn refusal(text: &str) -> u64 {
    text.strip_prefix("refused ").map_or(0, |number| number.trim_end().parse().unwrap())
}

/// What the compiled program writes.
fn program(input: &[u8]) -> Vec<u8> {
    let path = std::env::var("DETHROWG_SHEET").unwrap_or("../../crates/sheet/out/sheet".into());
    let mut child = Command::new(path)
        .stdin(Stdio::piped())
        .stdout(Stdio::piped())
        .spawn()
        .expect("crates/sheet/out/sheet: run `rt run` in crates/sheet first");
    let _ = child.stdin.take().unwrap().write_all(input);
    child.wait_with_output().unwrap().stdout
}

/// Document 01's sheet, with document 02's line of what was clipped.
fn answer(input: &[u8]) -> String {
    let lines = input.strip_prefix(NAMES).and_then(|rest| line(rest, 7, 99_999));
    let Some((values, rest)) = lines else { return "refused 15\n".into() };
    let [depth, sampling, order, range, matrix, width, height] = values[..] else { unreachable!() };
    if sampling > 1 {
        return "refused 1\n".into();
    }
    if order > 3 || range > 1 || matrix > 6 || ![8, 10, 12].contains(&depth) {
        return "refused 2\n".into();
    }
    let (packing, mode, kr, kb) = (0, 0, 0.0, 0.0);
    let codes = Codes { depth, sampling, order, range, matrix, packing, mode, kr, kb };
    let sides = (1..=64).contains(&width) && (1..=64).contains(&height);
    if input.len() > 65_536 || !sides || matrix > 5 {
        return "refused 15\n".into();
    }
    let table = if depth == 8 {
        table::<u8>(codes, width, height, rest)
    } else {
        table::<u16>(codes, width, height, rest)
    };
    table.unwrap_or("refused 15\n".into())
}

/// The numbers of a line of `count`, none above `most`, and what follows the line.
fn line(text: &[u8], count: u32, most: u32) -> Option<(Vec<u32>, &[u8])> {
    let end = text.iter().position(|byte| *byte == b'\n')?;
    let words: Vec<&[u8]> = text[..end].split(|byte| *byte == b' ').collect();
    let number = |word: &&[u8]| {
        let digits = (1..=5).contains(&word.len()) && word.iter().all(u8::is_ascii_digit);
        let number = std::str::from_utf8(word).ok()?.parse().ok()?;
        (digits && number <= most).then_some(number)
    };
    let numbers: Vec<u32> = words.iter().map(number).collect::<Option<_>>()?;
    (numbers.len() as u32 == count).then_some((numbers, &text[end + 1..]))
}

/// The table, if the rest is the samples of the three planes and nothing over.
fn table<T: Element + Into<u32>>(c: Codes, width: u32, height: u32, rest: &[u8]) -> Option<String> {
    let mut rest = rest;
    let chroma = model::chroma_sides(c.sampling, width, height);
    let mut plane = |(row, rows): (u32, u32)| {
        let mut samples = Vec::new();
        for _ in 0..rows {
            let (numbers, after) = line(rest, row, u32::MAX >> (32 - T::BITS))?;
            samples.extend(numbers.iter().map(|number| T::low(*number as u16)));
            rest = after;
        }
        Some(samples)
    };
    let planes = [plane((width, height))?, plane(chroma)?, plane(chroma)?];
    if !rest.is_empty() {
        return None;
    }
    let channels = model::channels(c.order);
    let extent = |stride: u32, rows: u32| Extent { len: (stride * rows) as usize, stride };
    let (y, u) = (extent(width, height), extent(chroma.0, chroma.1));
    let rgb = extent(width * channels, height);
    let q = Request { codes: c, width, height, y, u, v: u, rgb };
    let mut picture = vec![T::low(0); rgb.len];
    T::reference(&q, &planes, &mut picture).unwrap();
    let mut second = vec![T::low(0); rgb.len];
    let Clipped { below, above } = reading::convert(&q, &planes, &mut second);
    assert_eq!(second, picture);
    let mut text = String::from("row column r g b\n");
    let red = if c.order < 2 { 0 } else { 2 };
    for (at, pixel) in picture.chunks(channels as usize).enumerate() {
        let (row, column) = (at as u32 / width, at as u32 % width);
        let [r, g, b]: [u32; 3] = [pixel[red].into(), pixel[1].into(), pixel[2 - red].into()];
        text += &format!("{row} {column} {r} {g} {b}\n");
    }
    text += &format!("clipped {below} {above}\n");
    Some(text)
}

/// A sheet, now and then with an unknown value, a sample that is too wide, or damage.
fn sheet(random: &mut Random) -> Vec<u8> {
    let rare = |random: &mut Random, usual: u32, odd: &[u32]| match random.below(40) {
        0 => random.pick(odd),
        _ => usual,
    };
    let depth = random.pick(&[8, 10, 12]);
    let [sampling, order] = [random.below(2), random.below(4)];
    let [range, matrix] = [random.below(2), random.below(6)];
    let mut side = || match random.below(30) {
        0 => random.pick(&[0, 63, 64, 64, 65]),
        _ => random.between(1, 9),
    };
    let (width, height) = (side(), side());
    let values = [
        rare(random, depth, &[0, 9, 16]),
        rare(random, sampling, &[2, 99_999]),
        rare(random, order, &[4, 70]),
        rare(random, range, &[2]),
        rare(random, matrix, &[6, 7]),
        width,
        height,
    ];
    let mut text = NAMES.to_vec();
    put(&mut text, random, &values);
    let most = if depth == 8 { 255 } else { random.pick(&[(1 << depth) - 1, 65_535]) };
    let chroma = model::chroma_sides(sampling, width, height);
    for (row, rows) in [(width, height), chroma, chroma] {
        for _ in 0..rows {
            let samples: Vec<u32> = (0..row)
                .map(|_| match random.below(2_000) {
                    0 => random.pick(&[256, 65_535, 65_536]),
                    _ => random.between(0, most),
                })
                .collect();
            put(&mut text, random, &samples);
        }
    }
    damage(&mut text, random);
    text
}

/// A line of numbers, some with leading zeros.
fn put(text: &mut Vec<u8>, random: &mut Random, numbers: &[u32]) {
    let words: Vec<String> = numbers
        .iter()
        .map(|number| match random.below(50) {
            0 => format!("{number:05}"),
            _ => number.to_string(),
        })
        .collect();
    text.extend_from_slice(words.join(" ").as_bytes());
    text.push(b'\n');
}

/// In a third of the sheets a byte changed, added or taken out, an end cut off, or bytes over.
fn damage(text: &mut Vec<u8>, random: &mut Random) {
    let at = random.below(text.len() as u32) as usize;
    let byte = random.pick(b" \n0579x\r\t\0\xff-");
    match random.below(16) {
        0 => text[at] = byte,
        1 => text.insert(at, byte),
        2 => drop(text.remove(at)),
        3 => text.truncate(at),
        4 => text.push(byte),
        5 if random.below(20) == 0 => text.resize(random.between(65_530, 65_540) as usize, byte),
        _ => {}
    }
}
