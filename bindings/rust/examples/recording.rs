//! Makes a recording of the first frames of a recorded stream, reads it again and plays it: `cargo run --example recording FILE.vec OUT.yard`.
//! Its samples are to be the stream's, and its frames those that were written.

mod stream;

use post::{Recording, Writer};
use std::{env, fs, process::ExitCode};
use stream::Stream;

/// A recording has at most 60 records of 1,024 bytes, of which the first holds no frame.
const FRAMES: usize = 59;

fn make(file: &str, out: &str) -> Result<String, String> {
    let stream = Stream::read(file)?;
    let refused = |what: &str, why: post::Refusal| format!("{file}: {what} is refused: {why}");
    let records = &stream.records[..FRAMES.min(stream.records.len())];
    let mut bytes = vec![0; 1_024 * (records.len() + 1)];
    let mut writer = Writer::begin(&mut bytes, stream.shape).map_err(|why| refused("the shape", why))?;
    for (index, record) in records.iter().enumerate() {
        let written = match &record.frame {
            Some((params, description, pulses)) => {
                // A recording keeps 320 pulses at every shape.
                let mut lent = [0; 320];
                lent[..pulses.len()].copy_from_slice(pulses);
                writer.received(*params, description, &lent)
            }
            None => writer.lost(),
        };
        written.map_err(|why| refused(&format!("frame {index}"), why))?;
    }
    let recording = Recording::read(writer.written()).map_err(|why| refused("the recording", why))?;
    for (number, record) in (1..).zip(records) {
        let kept = recording.frame(number).map_err(|why| refused("a frame's number", why))?;
        let same = match (&kept, &record.frame) {
            (Some(kept), Some((params, description, pulses))) => {
                (kept.params, &kept.description, &kept.pulses[..pulses.len()]) == (*params, description, &pulses[..])
            }
            (kept, written) => kept.is_none() && written.is_none(),
        };
        if !same {
            return Err(format!("{file}: frame {number} reads back as another"));
        }
    }
    let mut output = vec![0; recording.room()];
    let played = recording.play(&mut output).map_err(|why| refused("playing", why))?;
    if !output[..played].iter().eq(records.iter().flat_map(|record| &record.samples)) {
        return Err(format!("{file}: the recording plays other samples than the stream"));
    }
    let lost = records.iter().filter(|record| record.frame.is_none()).count();
    fs::write(out, recording.bytes()).map_err(|why| format!("{out}: {why}"))?;
    Ok(format!("{out}: {} frames, {lost} of them lost, played as recorded", records.len()))
}

fn main() -> ExitCode {
    let words: Vec<String> = env::args().skip(1).collect();
    let [file, out] = &words[..] else {
        eprintln!("recording FILE.vec OUT.yard");
        return ExitCode::from(2);
    };
    match make(file, out) {
        Ok(text) => {
            println!("{text}");
            ExitCode::SUCCESS
        }
        Err(why) => {
            eprintln!("{why}");
            ExitCode::FAILURE
        }
    }
}
