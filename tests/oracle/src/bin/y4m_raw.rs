//! Between Y4M streams and raw samples (Y, U, V, unpadded, u16 low byte first), by the library; see
//! tests/y4m. `y4m_raw read` writes the samples of all frames of its input; `y4m_raw write SAMPLING
//! DEPTH WIDTH HEIGHT` writes a stream of its input's samples.
use oracle::cases::{request, Slack};
use oracle::library::y4m::{header, write_header, Frames};
use oracle::y4m::{put_samples, sample_bytes, Form};
use oracle::{Planes, Request, Written};
use std::io::{Read, Write};
use std::process::ExitCode;

/// Padding after the rows of the planes, so that they are not as in the stream.
const PADDED: [Slack; 4] = [(0, 0), (3, 0), (1, 2), (2, 1)];

fn main() -> ExitCode {
    let words: Vec<String> = std::env::args().skip(1).collect();
    let mut input = Vec::new();
    std::io::stdin().read_to_end(&mut input).unwrap();
    let output = match words.first().map(String::as_str) {
        Some("read") if words.len() == 1 => read(&mut input),
        Some("write") if words.len() == 5 => {
            let number = |at: usize| words[at].parse().expect("a number");
            let (sampling, depth) = (number(1), number(2));
            write(&Form { sampling, depth, width: number(3), height: number(4) }, &input)
        }
        _ => panic!("y4m_raw read, or y4m_raw write SAMPLING DEPTH WIDTH HEIGHT"),
    };
    match output {
        Ok(bytes) => {
            std::io::stdout().write_all(&bytes).unwrap();
            ExitCode::SUCCESS
        }
        Err(number) => {
            eprintln!("refused {number}");
            ExitCode::FAILURE
        }
    }
}

fn read(stream: &mut [u8]) -> Result<Vec<u8>, u64> {
    let told = header(stream);
    match told.form() {
        None => Err(told.number),
        Some(form) if form.depth == 8 => read_frames::<u8>(stream, &form),
        Some(form) => read_frames::<u16>(stream, &form),
    }
}

/// Planes of 0s for a form, and their request.
fn planes<T: Frames>(form: &Form) -> (Request, Planes<T>) {
    let q = request(form.codes(), form.width, form.height, PADDED);
    (q, q.planes().map(|plane| vec![T::low(0); plane.len]))
}

/// The samples of all frames, or the number of a refusal.
fn read_frames<T: Frames>(stream: &mut [u8], form: &Form) -> Result<Vec<u8>, u64> {
    let (q, mut planes) = planes::<T>(form);
    let (mut raw, mut place) = (Vec::new(), 0);
    loop {
        let lent = planes.each_mut().map(|plane| &mut plane[..]);
        let answer = T::read(stream, place, lent, q.strides());
        match (answer.number, answer.found) {
            (0, 0) => return Ok(raw),
            (0, _) => {
                raw.extend(sample_bytes(form, planes.each_ref().map(|p| &p[..]), q.strides()))
            }
            (number, _) => return Err(number),
        }
        place = answer.next;
    }
}

fn write(form: &Form, raw: &[u8]) -> Result<Vec<u8>, u64> {
    match form.depth {
        8 => write_frames::<u8>(form, raw),
        _ => write_frames::<u16>(form, raw),
    }
}

/// A stream of the samples, or the number of a refusal.
fn write_frames<T: Frames>(form: &Form, raw: &[u8]) -> Result<Vec<u8>, u64> {
    let mut stream = vec![0; 256];
    let written = accepted(write_header(form, &mut stream))?;
    stream.truncate(written);
    let (q, mut planes) = planes::<T>(form);
    for samples in raw.chunks(form.bytes() as usize) {
        put_samples(form, samples, planes.each_mut().map(|plane| &mut plane[..]), q.strides());
        let mut frame = vec![0; samples.len() + 6];
        let lent = planes.each_mut().map(|plane| &mut plane[..]);
        let written = accepted(T::write(form, lent, q.strides(), &mut frame))?;
        stream.extend(&frame[..written]);
    }
    Ok(stream)
}

/// How many bytes were written, or the number of a refusal.
fn accepted(Written { number, written, .. }: Written) -> Result<usize, u64> {
    match number {
        0 => Ok(written as usize),
        number => Err(number),
    }
}
