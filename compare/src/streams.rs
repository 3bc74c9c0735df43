//! Recorded streams: frames of speech with the samples that a decoder played for them.

use crate::call::{self, Call, Draft, What};
use crate::draw::SHAPES;
use crate::reference::{NEWER, Settings};
use std::fs;
use std::path::{Path, PathBuf};

pub struct Stream {
    pub name: String,
    pub rate: i32,
    pub subframes: i32,
    /// Each frame as a plain state's call, and the samples that are to be played.
    pub records: Vec<(Call, Vec<i16>)>,
}

struct Bytes<'a>(&'a [u8]);

impl Bytes<'_> {
    fn take<const N: usize>(&mut self) -> Result<[u8; N], String> {
        let (first, rest) = self.0.split_first_chunk().ok_or("the file is cut")?;
        self.0 = rest;
        Ok(*first)
    }

    fn small(&mut self) -> Result<i8, String> {
        Ok(i8::from_le_bytes(self.take()?))
    }

    fn long(&mut self) -> Result<i32, String> {
        Ok(i32::from_le_bytes(self.take()?))
    }

    fn shorts(&mut self, to: &mut [i16]) -> Result<(), String> {
        for short in to {
            *short = i16::from_le_bytes(self.take()?);
        }
        Ok(())
    }
}

/// The streams of a folder, by name, or the one stream that is named.
pub fn files(place: &Path) -> Result<Vec<PathBuf>, String> {
    if place.is_file() {
        return Ok(vec![place.into()]);
    }
    let entries = fs::read_dir(place).map_err(|why| format!("{}: {why}", place.display()))?;
    let mut files: Vec<PathBuf> = entries.filter_map(|entry| Some(entry.ok()?.path())).collect();
    files.retain(|file| file.extension().is_some_and(|end| end == "vec"));
    files.sort();
    if files.is_empty() {
        return Err(format!("{}: it has no stream (*.vec)", place.display()));
    }
    Ok(files)
}

/// Reads a stream. What is to be played is its `.rust.pcm` where there is one, else the samples in its records.
pub fn read(file: &Path) -> Result<Stream, String> {
    let mut stream = recorded(file)?;
    let rust = file.with_extension("rust.pcm");
    if rust.exists() {
        let named = |why: String| format!("{}: {why}", stream.name);
        let bytes = fs::read(&rust).map_err(|why| named(why.to_string()))?;
        let mut bytes = Bytes(&bytes);
        for (_, samples) in &mut stream.records {
            bytes.shorts(samples).map_err(named)?;
        }
        if !bytes.0.is_empty() {
            return Err(named("its .rust.pcm is longer".into()));
        }
    }
    Ok(stream)
}

/// Reads a stream, with the samples in its records.
pub fn recorded(file: &Path) -> Result<Stream, String> {
    let name = file.file_name().unwrap().to_string_lossy().into_owned();
    let named = |why: String| format!("{name}: {why}");
    let bytes = fs::read(file).map_err(|why| named(why.to_string()))?;
    let stream = parse(&mut Bytes(&bytes)).map_err(named)?;
    Ok(Stream { name, ..stream })
}

fn parse(bytes: &mut Bytes) -> Result<Stream, String> {
    if bytes.take()? != *b"SILKVEC1" {
        return Err("no stream".into());
    }
    let [rate, subframes, zeros @ ..] = bytes.take::<4>()?.map(i32::from);
    if !SHAPES.contains(&(rate, subframes)) || zeros != [0, 0] {
        return Err(format!("no stream of the decoder: {rate} kHz, {subframes} subframes, then {zeros:?}"));
    }
    let count = u32::from_le_bytes(bytes.take()?);
    if count == 0 {
        return Err("it has no record".into());
    }
    let mut records = vec![];
    for index in 0..count {
        let what = match bytes.take()? {
            [0] => What::Lost,
            [1] => What::Received,
            [kind] => return Err(format!("record {index} has the kind {kind}")),
        };
        let mut draft = Draft::plain(what, rate, subframes);
        if what == What::Received {
            let (indices, control) = (&mut draft.dec.indices, &mut draft.control);
            indices.signal_type = bytes.small()?;
            indices.quant_offset_type = bytes.small()?;
            indices.nlsf_interp_coef_q2 = bytes.small()?;
            indices.seed = bytes.small()?;
            for number in control.pitch_l.iter_mut().chain(&mut control.gains_q16) {
                *number = bytes.long()?;
            }
            for row in &mut control.pred_coef_q12 {
                bytes.shorts(row)?;
            }
            bytes.shorts(&mut control.ltp_coef_q14)?;
            control.ltp_scale_q14 = bytes.long()?;
            bytes.shorts(&mut draft.lines)?;
            bytes.shorts(&mut draft.pulses)?;
        }
        let mut samples = vec![0; draft.output.len()];
        bytes.shorts(&mut samples)?;
        records.push((draft.call(), samples));
    }
    if !bytes.0.is_empty() {
        return Err("bytes follow the last record".into());
    }
    Ok(Stream { name: String::new(), rate, subframes, records })
}

/// The set-up of a stream's decoder, which has no squelch and is of the newer edition.
pub fn set_up(stream: &Stream) -> Call {
    let draft = Draft::plain(What::SetUpWith, stream.rate, stream.subframes);
    Draft { named: Settings { squelch: 0, edition: NEWER }, ..draft }.call()
}

/// Plays a stream from set-up, and hands on what each record's frame plays.
pub fn play(
    stream: &Stream, mut make: impl FnMut(&mut Call) -> Result<i32, String>, mut heard: impl FnMut(usize, &[i16]) -> Result<(), String>,
) -> Result<(), String> {
    let mut set_up = set_up(stream);
    set_up.words.fill(-1);
    set_up.halves.fill(-1);
    let mut played = |call: &mut Call| match make(call)? {
        0 => Ok(()),
        row => Err(format!("refused by {row}")),
    };
    played(&mut set_up)?;
    let (mut words, mut halves) = (set_up.words, set_up.halves);
    for (index, (record, _)) in stream.records.iter().enumerate() {
        let mut call = record.clone();
        (call.words, call.halves) = (words, halves);
        played(&mut call).and_then(|()| heard(index, &call.output)).map_err(|why| format!("record {index}: {why}"))?;
        (words, halves) = (call.words, call.halves);
    }
    Ok(())
}

/// Plays a stream from set-up; what isn't played as recorded, if anything.
pub fn play_as_recorded(stream: &Stream, make: impl FnMut(&mut Call) -> Result<i32, String>) -> Result<(), String> {
    play(stream, make, |index, output| as_recorded(output, &stream.records[index].1))
}

/// The first sample of a frame that isn't the recorded one, if any.
pub fn as_recorded(output: &[i16], samples: &[i16]) -> Result<(), String> {
    match (0..samples.len()).find(|at| output[*at] != samples[*at]) {
        Some(at) => Err(format!("sample {at} is {}, recorded is {}", output[at], samples[at])),
        None => Ok(()),
    }
}

/// Writes a stream with the samples that the Rust plays in place of those in its records.
pub fn record(from: &Path, to: &Path) -> Result<(), String> {
    let stream = read(from)?;
    let mut bytes = fs::read(from).map_err(|why| format!("{}: {why}", from.display()))?;
    let mut at = 16;
    play(
        &stream,
        |call| Ok(call::reference(call)),
        |index, output| {
            let length = 2 * output.len();
            at += if stream.records[index].0.what == What::Received { 177 + length } else { 1 };
            for (to, sample) in bytes[at..at + length].chunks_exact_mut(2).zip(output) {
                to.copy_from_slice(&sample.to_le_bytes());
            }
            at += length;
            Ok(())
        },
    )?;
    fs::write(to, bytes).map_err(|why| format!("{}: {why}", to.display()))
}
