//! Between raw frames whose chroma is planar and raw frames whose chroma is woven (unpadded, u16 low
//! byte first), by the library; see tests/nv12. `weave_raw weave DEPTH LUMA WIDTH HEIGHT` makes frames of
//! Y and woven chroma from frames of Y, U and V, each with LUMA samples of Y; `weave_raw unweave` and the
//! same does the other. The sides are those of U and of V. As ffmpeg has them, planar samples stand in
//! the low bits, and those of a woven frame, its Y too, in the high bits.
use oracle::cases::Slack;
use oracle::library::weave::Weave;
use oracle::weave::{Call, Way};
use oracle::y4m::{bytes_of, sample_of};
use std::io::{Read, Write};
use std::process::ExitCode;

/// Padding after the rows of the planes, so that they are not as in the frames.
const PADDED: [Slack; 3] = [(3, 0), (1, 2), (2, 1)];

fn main() -> ExitCode {
    let words: Vec<String> = std::env::args().skip(1).collect();
    let way = match words.first().map(String::as_str) {
        Some("weave") if words.len() == 5 => Way::Weave,
        Some("unweave") if words.len() == 5 => Way::Unweave,
        _ => panic!("weave_raw weave DEPTH LUMA WIDTH HEIGHT, or weave_raw unweave and the same"),
    };
    let number = |at: usize| words[at].parse().expect("a number");
    let (depth, luma) = (number(1), number(2));
    let call = Call::new(way, (number(3), number(4)), PADDED);
    let mut input = Vec::new();
    std::io::stdin().read_to_end(&mut input).unwrap();
    let output = match depth {
        8 => frames::<u8>(&call, depth, luma, &input),
        _ => frames::<u16>(&call, depth, luma, &input),
    };
    match output {
        Ok(bytes) => {
            std::io::stdout().write_all(&bytes).unwrap();
            ExitCode::SUCCESS
        }
        Err(number) => {
            eprintln!("refused {number}");
            ExitCode::FAILURE
        }
    }
}

/// All frames, or the number of a refusal.
fn frames<T: Weave>(call: &Call, depth: u32, luma: u32, raw: &[u8]) -> Result<Vec<u8>, u64> {
    let shift = T::BITS - depth;
    let samples = raw.chunks(T::BITS as usize / 8).map(sample_of);
    let samples: Vec<T> = match call.way {
        Way::Weave => samples.map(|sample| T::low(sample << shift)).collect(),
        Way::Unweave => samples.map(|sample| T::low(sample >> shift)).collect(),
    };
    let luma = luma as usize;
    let mut output = Vec::with_capacity(samples.len());
    for frame in samples.chunks(luma + 2 * (call.width * call.height) as usize) {
        output.extend(&frame[..luma]);
        output.extend(chroma(call, &frame[luma..])?);
    }
    Ok(output.into_iter().flat_map(bytes_of).collect())
}

/// The chroma of a frame the other way, or the number of a refusal.
fn chroma<T: Weave>(call: &Call, mut samples: &[T]) -> Result<Vec<T>, u64> {
    let mut planes = call.planes.map(|plane| vec![T::low(0); plane.len]);
    for i in call.way.sources() {
        for row in call.rows(i) {
            let (first, others) = samples.split_at(row.len());
            planes[i][row].copy_from_slice(first);
            samples = others;
        }
    }
    let answer = T::run(call, planes.each_mut().map(|plane| &mut plane[..]));
    if answer.number != 0 {
        return Err(answer.number);
    }
    let rows = call.way.destinations().flat_map(|i| call.rows(i).map(move |row| (i, row)));
    Ok(rows.flat_map(|(i, row)| planes[i][row].to_vec()).collect())
}
