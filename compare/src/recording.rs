//! Yard recordings (document 02, Note 9), read, written and played apart from the library: each `post_recording_` function over the Rust.

use crate::post::ffi::{COEFS, FRAME, HALVES, WORDS};
use crate::post::ffi::{coefs, frame};
use crate::reference::{self, Judged, NEWER, Settings, answer, judge_numbers, judge_shape, unless};

/// The pulses of a recorded frame, and the samples that each record may play.
pub const PULSES: usize = 320;
/// The bytes of a record.
pub const RECORD: usize = 1_024;
/// The records of the longest recording.
pub const RECORDS: usize = 60;
/// What is told of a recording: rate, subframes, count of frames, and the frames' records.
pub const HEAD: usize = 62;
/// The count of samples.
pub const PLAYED: usize = 1;

const MARK: [u8; 4] = *b"YARD";
const CHAIN: i32 = 20;
const BAD: i32 = 21;

/// A frame as it was lent; of a lost one only the shape is kept.
#[derive(Clone, PartialEq)]
pub struct Recorded {
    pub frame: [i32; FRAME],
    pub coefs: [i16; COEFS],
    pub pulses: [i16; PULSES],
}

/// Where numbers of a frame stand in its slices, from a place on, and how many.
#[derive(Clone, Copy)]
enum Part {
    Frame(usize, usize),
    Coefs(usize, usize),
    Pulses,
}

/// A received frame in its record, after the kind: the bytes of each number, and the numbers.
const PARTS: [(usize, Part); 8] = [
    (1, Part::Frame(frame::SIGNAL, 4)),
    (4, Part::Frame(frame::LAGS, 4)),
    (4, Part::Frame(frame::GAINS, 4)),
    (2, Part::Coefs(coefs::ROWS, 32)),
    (2, Part::Coefs(coefs::TAPS, 20)),
    (4, Part::Frame(frame::SCALE, 1)),
    (2, Part::Coefs(coefs::LINES, 16)),
    (2, Part::Pulses),
];

impl Recorded {
    pub fn lost([rate, subframes]: [i32; 2]) -> Recorded {
        let mut lost = Recorded { frame: [0; FRAME], coefs: [0; COEFS], pulses: [0; PULSES] };
        (lost.frame[frame::RATE], lost.frame[frame::SUBFRAMES]) = (rate, subframes);
        lost
    }

    pub fn is_received(&self) -> bool {
        self.frame[frame::RECEIVED] != 0
    }

    /// A received frame from what follows the kind in its record.
    fn received(shape: [i32; 2], mut bytes: &[u8]) -> Recorded {
        let mut read = Recorded::lost(shape);
        read.frame[frame::RECEIVED] = 1;
        let mut number = |width: usize| {
            let (low, rest) = bytes.split_at(width);
            bytes = rest;
            let unsigned = low.iter().rev().fold(0i64, |above, byte| 256 * above + i64::from(*byte));
            if low[width - 1] < 128 { unsigned } else { unsigned - (1 << (8 * width)) }
        };
        for (width, part) in PARTS {
            match part {
                Part::Frame(from, count) => read.frame[from..from + count].fill_with(|| number(width) as i32),
                Part::Coefs(from, count) => read.coefs[from..from + count].fill_with(|| number(width) as i16),
                Part::Pulses => read.pulses.fill_with(|| number(width) as i16),
            }
        }
        read
    }

    /// The frame's record, which leads to another one.
    pub fn record(&self, next: u16) -> Vec<u8> {
        let mut bytes = next.to_le_bytes().to_vec();
        if self.is_received() {
            bytes.push(1);
            for (width, part) in PARTS {
                let mut put = |number: i64| bytes.extend_from_slice(&number.to_le_bytes()[..width]);
                match part {
                    Part::Frame(from, count) => self.frame[from..from + count].iter().for_each(|number| put((*number).into())),
                    Part::Coefs(from, count) => self.coefs[from..from + count].iter().for_each(|number| put((*number).into())),
                    Part::Pulses => self.pulses.iter().for_each(|number| put((*number).into())),
                }
            }
        }
        bytes.resize(RECORD, 0);
        bytes
    }
}

/// Record 0.
pub fn head_record(next: u16, [rate, subframes]: [i32; 2]) -> Vec<u8> {
    let mut bytes = next.to_le_bytes().to_vec();
    bytes.extend(MARK);
    bytes.extend([rate as u8, subframes as u8]);
    bytes.resize(RECORD, 0);
    bytes
}

/// Frames in records of a file that has other bytes.
pub fn placed(shape: [i32; 2], frames: &[Recorded], records: &[usize], mut bytes: Vec<u8>) -> Vec<u8> {
    let next = |at: usize| records.get(at).map_or(0, |record| *record as u16);
    bytes[..RECORD].copy_from_slice(&head_record(next(0), shape));
    for (at, frame) in frames.iter().enumerate() {
        bytes[RECORD * records[at]..][..RECORD].copy_from_slice(&frame.record(next(at + 1)));
    }
    bytes
}

/// Frames in order, one record after the other.
pub fn written(shape: [i32; 2], frames: &[Recorded]) -> Vec<u8> {
    let records: Vec<usize> = (1..=frames.len()).collect();
    placed(shape, frames, &records, vec![0; RECORD * (records.len() + 1)])
}

/// What an accepted recording holds, in the chain's order.
pub struct Recording {
    pub shape: [i32; 2],
    pub records: Vec<usize>,
    pub frames: Vec<Recorded>,
}

/// The count of a file's records.
fn records_in(bytes: &[u8]) -> Result<usize, i32> {
    let count = bytes.len() / RECORD;
    unless(BAD, bytes.len() == count * RECORD && (1..=RECORDS).contains(&count)).map(|()| count)
}

/// Record 0's mark and zeros, then its rate and subframes, which are not judged.
fn read_head(record: &[u8]) -> Result<[i32; 2], i32> {
    unless(BAD, record[2..6] == MARK && record[8..].iter().all(|byte| *byte == 0))?;
    Ok([record[6].into(), record[7].into()])
}

pub fn read(bytes: &[u8]) -> Result<Recording, i32> {
    let count = records_in(bytes)?;
    let record = |at: usize| &bytes[RECORD * at..RECORD * (at + 1)];
    let (mut records, mut at) = (vec![], 0);
    loop {
        at = usize::from(record(at)[0]) + 256 * usize::from(record(at)[1]);
        if at == 0 {
            break;
        }
        unless(CHAIN, at < count && !records.contains(&at))?;
        records.push(at);
    }
    let shape = read_head(record(0))?;
    let mut frames = vec![];
    for at in &records {
        let (kind, rest) = (record(*at)[2], &record(*at)[3..]);
        let used = 816 * usize::from(kind);
        unless(BAD, kind <= 1 && rest[used..].iter().all(|byte| *byte == 0))?;
        frames.push(if kind == 1 { Recorded::received(shape, rest) } else { Recorded::lost(shape) });
    }
    judge_shape(shape[0], shape[1])?;
    let refused = frames.iter().filter(|frame| frame.is_received());
    match refused.filter_map(|frame| judge_numbers(shape, &frame.frame, &frame.coefs).err()).min() {
        Some(row) => Err(row),
        None => Ok(Recording { shape, records, frames }),
    }
}

/// What a post plays that was set up for the shape, with no squelch.
pub fn played(recording: &Recording) -> Vec<i16> {
    let ([rate, subframes], unsquelched) = (recording.shape, Settings { squelch: 0, edition: NEWER });
    let (mut words, mut halves, mut samples) = (vec![0; WORDS], vec![0; HALVES], vec![]);
    assert_eq!(reference::post_set_up_with(rate, subframes, unsquelched, &mut words, &mut halves), 0);
    for frame in &recording.frames {
        let (mut lent, mut output) = (frame.clone(), vec![0; (5 * rate * subframes) as usize]);
        let row = reference::post_frame(&mut words, &mut halves, &mut lent.frame, &mut lent.coefs, &frame.pulses, &mut output);
        assert_eq!(row, 0, "the Rust refuses a frame of an accepted recording, or stops on it");
        samples.extend(output);
    }
    samples
}

// The library's functions. A slice that is shorter than its size is refused by 21.

pub fn post_recording_read(bytes: &[u8], head: &mut [i32]) -> i32 {
    answer(|| {
        unless(BAD, head.len() >= HEAD)?;
        let recording = read(bytes)?;
        let records = recording.records.iter().map(|record| *record as i32);
        let numbers = recording.shape.into_iter().chain([records.len() as i32]).chain(records).chain(std::iter::repeat(0));
        head[..HEAD].iter_mut().zip(numbers).for_each(|(to, number)| *to = number);
        Ok(())
    })
}

pub fn post_recording_frame(bytes: &[u8], number: u32, frame: &mut [i32], coefs: &mut [i16], pulses: &mut [i16]) -> i32 {
    answer(|| {
        unless(BAD, frame.len() >= FRAME && coefs.len() >= COEFS && pulses.len() >= PULSES)?;
        let recording = read(bytes)?;
        let found = recording.frames.get((number as usize).wrapping_sub(1)).ok_or(CHAIN)?;
        frame[..FRAME].copy_from_slice(&found.frame);
        coefs[..COEFS].copy_from_slice(&found.coefs);
        pulses[..PULSES].copy_from_slice(&found.pulses);
        Ok(())
    })
}

pub fn post_recording_begin(bytes: &mut [u8], rate: i32, subframes: i32) -> i32 {
    answer(|| {
        unless(BAD, bytes.len() >= RECORD)?;
        judge_shape(rate, subframes)?;
        bytes[..RECORD].copy_from_slice(&head_record(0, [rate, subframes]));
        Ok(())
    })
}

pub fn post_recording_append(bytes: &mut [u8], frames: u32, frame: &[i32], coefs: &[i16], pulses: &[i16]) -> i32 {
    answer(|| {
        unless(BAD, frame.len() >= FRAME && coefs.len() >= COEFS)?;
        let received = frame[frame::RECEIVED] != 0;
        let last = frames as usize + 1;
        unless(BAD, last < RECORDS && bytes.len() >= RECORD * (last + 1) && (!received || pulses.len() >= PULSES))?;
        let shape = read_head(&bytes[..RECORD])?;
        judge_appended(shape, frame, coefs)?;
        let mut new = Recorded::lost(shape);
        if received {
            new.frame.copy_from_slice(&frame[..FRAME]);
            new.coefs.copy_from_slice(&coefs[..COEFS]);
            new.pulses.copy_from_slice(&pulses[..PULSES]);
        }
        bytes[RECORD * (last - 1)..][..2].copy_from_slice(&(last as u16).to_le_bytes());
        bytes[RECORD * last..RECORD * (last + 1)].copy_from_slice(&new.record(0));
        Ok(())
    })
}

/// Rows 1, 2 and 5 to 9 of a new frame: its shape is that of record 0, which is one.
fn judge_appended(shape: [i32; 2], frame: &[i32], coefs: &[i16]) -> Judged {
    let brought = [frame[frame::RATE], frame[frame::SUBFRAMES]];
    unless(1, brought[0] == shape[0])?;
    judge_shape(shape[0], if brought[1] == shape[1] { shape[1] } else { 0 })?;
    if frame[frame::RECEIVED] == 0 { Ok(()) } else { judge_numbers(shape, frame, coefs) }
}

pub fn post_recording_play(bytes: &[u8], output: &mut [i16], played: &mut [i32]) -> i32 {
    answer(|| {
        unless(BAD, played.len() >= PLAYED && output.len() >= PULSES * (records_in(bytes)? - 1))?;
        let samples = self::played(&read(bytes)?);
        output[..samples.len()].copy_from_slice(&samples);
        played[0] = samples.len() as i32;
        Ok(())
    })
}
