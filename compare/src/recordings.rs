//! The library's recordings beside those of `recording.rs`: hand-made cases, and recordings that are mutated, read, played and written again.

use crate::bench::stack_of;
use crate::call::{Draft, What as Whole};
use crate::checks::{Options, told};
use crate::draw::{self, Draw, SHAPES};
use crate::ffi;
use crate::load;
use crate::post::ffi::{COEFS, FRAME, coefs, frame};
use crate::recording::{self, HEAD, PLAYED, PULSES, RECORD, RECORDS, Recorded, head_record, placed, written};
use crate::streams::{self, Stream};
use std::collections::BTreeMap;
use std::path::{Path, PathBuf};

/// The repository's own stream.
pub const DEMO: &str = concat!(env!("CARGO_MANIFEST_DIR"), "/../crates/play/stdin");
/// Whether the library has the functions.
pub const LINKED: bool = cfg!(all(has_recording_read, has_recording_frame, has_recording_begin, has_recording_append, has_recording_play));

/// The five functions.
struct Functions {
    read: fn(&[u8], &mut [i32]) -> i32,
    frame: fn(&[u8], u32, &mut [i32], &mut [i16], &mut [i16]) -> i32,
    begin: fn(&mut [u8], i32, i32) -> i32,
    append: fn(&mut [u8], u32, &[i32], &[i16], &[i16]) -> i32,
    play: fn(&[u8], &mut [i16], &mut [i32]) -> i32,
}

const APART: Functions = Functions {
    read: recording::post_recording_read,
    frame: recording::post_recording_frame,
    begin: recording::post_recording_begin,
    append: recording::post_recording_append,
    play: recording::post_recording_play,
};

const LIBRARY: Functions = Functions {
    read: ffi::recording_read,
    frame: ffi::recording_frame,
    begin: ffi::recording_begin,
    append: ffi::recording_append,
    play: ffi::recording_play,
};

#[derive(Clone, Copy, PartialEq, Debug)]
enum What {
    Read,
    Frame,
    Begin,
    Append,
    Play,
}

/// A call with its numbers and its slices; those that its function does not take are empty.
#[derive(Clone)]
struct Call {
    what: What,
    /// A frame's number, or the count of frames that are written.
    number: u32,
    shape: [i32; 2],
    bytes: Vec<u8>,
    frame: Vec<i32>,
    coefs: Vec<i16>,
    pulses: Vec<i16>,
    output: Vec<i16>,
    /// What is told of a recording, or the count of samples.
    result: Vec<i32>,
}

impl Call {
    /// Its slices have their sizes and hold what a call is to overwrite.
    fn new(what: What, bytes: Vec<u8>) -> Call {
        let of_frame = [What::Frame, What::Append].contains(&what);
        let samples = PULSES * (bytes.len() / RECORD).saturating_sub(1);
        Call {
            what,
            number: 0,
            shape: [8, 2],
            bytes,
            frame: vec![-7; if of_frame { FRAME } else { 0 }],
            coefs: vec![-7; if of_frame { COEFS } else { 0 }],
            pulses: vec![-7; if of_frame { PULSES } else { 0 }],
            output: vec![-7; if what == What::Play { samples } else { 0 }],
            result: vec![
                -7;
                match what {
                    What::Read => HEAD,
                    What::Play => PLAYED,
                    _ => 0,
                }
            ],
        }
    }

    fn append(bytes: Vec<u8>, frames: u32, frame: &Recorded) -> Call {
        let (coefs, pulses) = (frame.coefs.to_vec(), frame.pulses.to_vec());
        Call { number: frames, frame: frame.frame.to_vec(), coefs, pulses, ..Call::new(What::Append, bytes) }
    }

    fn made(&mut self, by: &Functions) -> i32 {
        let [rate, subframes] = self.shape;
        match self.what {
            What::Read => (by.read)(&self.bytes, &mut self.result),
            What::Frame => (by.frame)(&self.bytes, self.number, &mut self.frame, &mut self.coefs, &mut self.pulses),
            What::Begin => (by.begin)(&mut self.bytes, rate, subframes),
            What::Append => (by.append)(&mut self.bytes, self.number, &self.frame, &self.coefs, &self.pulses),
            What::Play => (by.play)(&self.bytes, &mut self.output, &mut self.result),
        }
    }
}

/// Makes a call of both: the answer and what is left, or the first difference.
fn both(before: &Call, fault: bool) -> Result<(i32, Call), String> {
    let (mut apart, mut library) = (before.clone(), before.clone());
    let (expected, answer) = (apart.made(&APART), library.made(&LIBRARY));
    if fault && answer == 0 && before.bytes.len() > 5 * RECORD {
        library.result.first_mut().into_iter().for_each(|number| *number ^= 1);
        library.pulses.first_mut().into_iter().for_each(|number| *number ^= 1);
    }
    fn first<T: PartialEq + Copy + Into<i64>>(name: &str, apart: &[T], library: &[T]) -> Option<String> {
        let at = (0..apart.len()).find(|at| apart[*at] != library[*at])?;
        Some(format!("{name}[{at}]: apart {}, library {}", apart[at].into(), library[at].into()))
    }
    let differs = (answer != expected).then(|| format!("answer: apart {expected}, library {answer}"));
    let differs = differs
        .or_else(|| first("bytes", &apart.bytes, &library.bytes))
        .or_else(|| first("frame", &apart.frame, &library.frame))
        .or_else(|| first("coefs", &apart.coefs, &library.coefs))
        .or_else(|| first("pulses", &apart.pulses, &library.pulses))
        .or_else(|| first("output", &apart.output, &library.output))
        .or_else(|| first("result", &apart.result, &library.result));
    match differs {
        Some(why) => Err(format!("{:?}, number {}, shape {:?}: {why}", before.what, before.number, before.shape)),
        None => Ok((expected, apart)),
    }
}

/// A check sum of numbers: in 32 bits, times the prime of FNV, and the number added.
pub fn sum(numbers: impl Iterator<Item = i32>) -> i32 {
    numbers.fold(0, |sum: i32, number| sum.wrapping_mul(16_777_619).wrapping_add(number))
}

fn sum_of_bytes(bytes: &[u8]) -> i32 {
    sum(bytes.iter().map(|byte| i32::from(*byte)))
}

fn sum_of_samples(samples: &[i16]) -> i32 {
    sum(samples.iter().map(|sample| i32::from(*sample)))
}

// Mutated recordings.

#[derive(Clone)]
enum Edit {
    /// Bytes from a place on, as far as there are any.
    Put(usize, Vec<u8>),
    /// Another length: cut, or with zeros behind.
    Length(usize),
}

/// A recording and its edits.
#[derive(Clone)]
struct Mutated {
    label: String,
    base: Vec<u8>,
    edits: Vec<Edit>,
}

impl Mutated {
    fn bytes(&self) -> Vec<u8> {
        let mut bytes = self.base.clone();
        for edit in &self.edits {
            match edit {
                Edit::Put(at, new) => bytes.iter_mut().skip(*at).zip(new).for_each(|(byte, new)| *byte = *new),
                Edit::Length(length) => bytes.resize(*length, 0),
            }
        }
        bytes
    }

    fn told(&self) -> String {
        let mut text = format!("  {}, {} bytes, sum {}", self.label, self.base.len(), sum_of_bytes(&self.base));
        for edit in &self.edits {
            text.push_str(&match edit {
                Edit::Put(at, new) if new.len() > 16 => {
                    format!("\n    record {}: {} bytes from {} on", at / RECORD, new.len(), at % RECORD)
                }
                Edit::Put(at, new) => format!("\n    record {}, byte {}: {new:?}", at / RECORD, at % RECORD),
                Edit::Length(length) => format!("\n    {length} bytes"),
            });
        }
        text
    }

    /// The edits that are needed for it to fail.
    fn smallest(mut self, fails: impl Fn(&Mutated) -> bool) -> Mutated {
        let mut at = 0;
        while at < self.edits.len() {
            let mut less = self.clone();
            less.edits.remove(at);
            if fails(&less) {
                self = less;
            } else {
                at += 1;
            }
        }
        self
    }
}

/// Frames of a stream from one on; the pulses past a frame's samples are 0.
pub fn frames_of(stream: &Stream, from: usize, count: usize) -> Vec<Recorded> {
    let recorded = |call: &crate::call::Call| {
        let mut frame = Recorded::lost([stream.rate, stream.subframes]);
        if call.what == Whole::Received {
            frame.frame.copy_from_slice(&call.frame);
            frame.coefs.copy_from_slice(&call.coefs);
            frame.pulses[..call.pulses.len()].copy_from_slice(&call.pulses);
        }
        frame
    };
    stream.records.iter().skip(from).take(count).map(|(call, _)| recorded(call)).collect()
}

/// A drawn frame of a shape, received or lost.
pub fn drawn(draw: &mut Draw, [rate, subframes]: [i32; 2]) -> Recorded {
    let mut frame = Recorded::lost([rate, subframes]);
    if draw.one_in(4) {
        return frame;
    }
    let mut draft = Draft::plain(Whole::Received, rate, subframes);
    draw::frame(draw, &mut draft);
    let call = draft.call();
    frame.frame.copy_from_slice(&call.frame);
    frame.coefs.copy_from_slice(&call.coefs);
    draw.fill(&mut frame.pulses);
    let own = call.pulses.len().min(PULSES);
    frame.pulses[..own].copy_from_slice(&call.pulses[..own]);
    frame
}

/// A recording before it is mutated, and its chain: frames of a stream, drawn ones or those of a load; in order, or anywhere among other bytes.
fn base(draw: &mut Draw, streams: &[Stream]) -> (Mutated, Vec<usize>) {
    let count = draw.pick(&[0, 1, 1, 2, 2, 3, 4, 6, 10, 20, RECORDS - 1]);
    let (shape, mut frames, from) = match draw.below(5) {
        0 | 1 => {
            let stream = &streams[draw.below(streams.len() as u64) as usize];
            let from = draw.below((stream.records.len() - count.min(stream.records.len() - 1)) as u64) as usize;
            ([stream.rate, stream.subframes], frames_of(stream, from, count), format!("{} from record {from} on", stream.name))
        }
        2 | 3 => {
            let (rate, subframes) = draw.pick(&SHAPES);
            ([rate, subframes], (0..count).map(|_| drawn(draw, [rate, subframes])).collect(), "drawn frames".into())
        }
        _ => {
            let ((rate, subframes), seed) = (draw.pick(&SHAPES), draw.any());
            ([rate, subframes], load::recorded(seed, [rate, subframes], count), format!("the load of seed {seed}"))
        }
    };
    if draw.one_in(8) {
        // A long loss.
        let from = draw.below(10) as usize;
        frames.iter_mut().skip(from).for_each(|frame| *frame = Recorded::lost(shape));
    }
    let label = format!("{} frames at {} kHz with {} subframes: {from}", frames.len(), shape[0], shape[1]);
    if draw.one_in(2) {
        let chain = (1..=frames.len()).collect();
        return (Mutated { label, base: written(shape, &frames), edits: vec![] }, chain);
    }
    let records = frames.len() + 1 + draw.below((RECORDS - frames.len()) as u64) as usize;
    let mut places: Vec<usize> = (1..records).collect();
    for at in (1..places.len()).rev() {
        places.swap(at, draw.below(at as u64 + 1) as usize);
    }
    let chain = places[..frames.len()].to_vec();
    let mut bytes = vec![0; RECORD * records];
    draw.fill(&mut bytes);
    let base = placed(shape, &frames, &chain, bytes);
    (Mutated { label: format!("{label}, at {chain:?} of {records} records"), base, edits: vec![] }, chain)
}

/// One mutation, of a place that reading looks at or of any.
fn mutate(draw: &mut Draw, mutated: &mut Mutated, chain: &[usize]) {
    let bytes = mutated.bytes();
    let records = bytes.len() / RECORD;
    let on_chain = |draw: &mut Draw| if chain.is_empty() { 0 } else { draw.pick(chain) };
    let mut put = |at: usize, new: &[u8]| mutated.edits.push(Edit::Put(at, new.to_vec()));
    match draw.below(16) {
        0 => put(draw.below(bytes.len().max(1) as u64) as usize, &[draw.any()]),
        1..=3 => {
            let at = match draw.below(4) {
                0 => 0,
                1 => on_chain(draw),
                _ => chain.last().copied().unwrap_or(0),
            };
            let other = on_chain(draw) as u16;
            let end = records as u16;
            let numbers = [0, at as u16, other, 256 + other, end.wrapping_sub(1), end, end + 1, 256, 0xffff];
            let next = if draw.one_in(4) { draw.next() as u16 } else { draw.pick(&numbers) };
            put(RECORD * at, &next.to_le_bytes());
        }
        4 | 5 => match draw.below(4) {
            0 => put(2 + draw.below(4) as usize, &[draw.pick(&[b'Y', b'A', b'R', b'D', b'y', 0])]),
            1 => put(6, &[draw.pick(&[0, 8, 9, 12, 15, 16, 24, 48, 255])]),
            2 => put(7, &[draw.pick(&[0, 1, 2, 3, 4, 5, 255])]),
            _ => put(draw.pick(&[8, 9, 600, 1022, 1023]), &[draw.pick(&[0, 1, 128])]),
        },
        6 => put(RECORD * on_chain(draw) + 2, &[draw.pick(&[0, 1, 2, 128, 255])]),
        7 | 8 => {
            let at = draw.pick(&[3, 4, 7, 818, 819, 820, 1022, 1023]);
            put(RECORD * on_chain(draw) + at, &[draw.pick(&[0, 1, 128, 255])]);
        }
        9..=13 => {
            let record = RECORD * on_chain(draw);
            let (at, number) = field(draw, i32::from(bytes.get(6).copied().unwrap_or(8)));
            put(record + at, &number);
        }
        14 => {
            let length = bytes.len();
            let lengths = [0, 1, 1023, length.saturating_sub(1), length + 1, length.saturating_sub(RECORD), length + RECORD];
            let lengths = [&lengths[..], &[RECORD, RECORD * RECORDS, RECORD * (RECORDS + 1), RECORD * (RECORDS + 4)]].concat();
            mutated.edits.push(Edit::Length(draw.pick(&lengths)));
        }
        _ => {
            let (one, other) = (on_chain(draw), draw.below(records.max(1) as u64) as usize);
            let of = |record: usize| bytes.get(RECORD * record..RECORD * (record + 1)).unwrap_or_default();
            put(RECORD * one, of(other));
            put(RECORD * other, of(one));
        }
    }
}

/// A number of a frame's record, often at an end of its range or just past it: its place and its bytes.
fn field(draw: &mut Draw, rate: i32) -> (usize, Vec<u8>) {
    let k = draw.below(4) as usize;
    let near = |draw: &mut Draw, low: i32, high: i32| draw.pick(&[low - 1, low, high, high + 1, 0, -1, i32::MIN, i32::MAX]);
    match draw.below(9) {
        0 => (3, vec![draw.pick(&[0, 1, 2, 3, 255, 128])]),
        1 => (4, vec![draw.pick(&[0, 1, 2, 255])]),
        2 => (5, vec![draw.pick(&[0, 3, 4, 5, 255])]),
        3 => (7 + 4 * k, near(draw, 2 * rate, 18 * rate).to_le_bytes().to_vec()),
        4 => (23 + 4 * k, near(draw, 81_920, 1_686_110_208).to_le_bytes().to_vec()),
        5 => {
            let taps = draw.pick(&[[32_767i16, 0, 0], [32_767, 1, 0], [32_767, 1, -1], [-32_768, 0, 0], [-32_768, -1, 0]]);
            (103 + 10 * k, taps.iter().flat_map(|tap| tap.to_le_bytes()).chain([0; 4]).collect())
        }
        6 => (143, near(draw, 0, 16_384).to_le_bytes().to_vec()),
        7 => (147 + 2 * draw.below(16) as usize, draw.pick(&[0i16, -1, i16::MIN, i16::MAX]).to_le_bytes().to_vec()),
        _ => (39 + 2 * draw.below(390) as usize, draw.any::<i16>().to_le_bytes().to_vec()),
    }
}

/// How often something came.
#[derive(Default)]
struct Counts {
    answers: BTreeMap<i32, u64>,
    appended: BTreeMap<i32, u64>,
    frames: u64,
    samples: u64,
    in_order: u64,
}

/// Lends a slice longer than it must be, or now and then shorter.
pub fn lend<T: draw::Number>(draw: &mut Draw, numbers: &mut Vec<T>) {
    match draw.below(40) {
        0 => numbers.truncate(numbers.len().saturating_sub(1)),
        1 => numbers.truncate(draw.below(numbers.len() as u64 + 1) as usize),
        2..=9 => (0..1 + draw.below(8)).for_each(|_| numbers.push(draw.any())),
        _ => {}
    }
}

/// A recording read, played, taken apart and written again by both.
fn compare(mutated: &Mutated, case: &mut Draw, fault: bool, counts: &mut Counts) -> Result<(), String> {
    let bytes = mutated.bytes();
    let (answer, told) = both(&Call::new(What::Read, bytes.clone()), fault)?;
    *counts.answers.entry(answer).or_insert(0) += 1;
    let mut lent = Call::new(What::Read, bytes.clone());
    lend(case, &mut lent.result);
    both(&lent, fault)?;

    let mut play = Call::new(What::Play, bytes.clone());
    let (as_read, heard) = both(&play, fault)?;
    if as_read != answer {
        return Err(format!("reading answers {answer}, playing {as_read}"));
    }
    lend(case, &mut play.output);
    lend(case, &mut play.result);
    both(&play, fault)?;

    let frames = if answer == 0 { told.result[2] as u32 } else { 0 };
    let mut numbers = vec![0, 1, frames, frames + 1, case.pick(&[u32::MAX, 256 + frames, 1 << 31, frames + 2])];
    if answer == 0 && case.one_in(8) {
        numbers.extend(2..frames);
    }
    for number in numbers {
        let mut call = Call { number, ..Call::new(What::Frame, bytes.clone()) };
        let found = both(&call, fault)?.0;
        let expected = if answer == 0 && !(1..=frames).contains(&number) { 20 } else { answer };
        if found != expected {
            return Err(format!("frame {number} of {frames} is answered by {found}, reading by {answer}"));
        }
        lend(case, &mut call.frame);
        lend(case, &mut call.coefs);
        lend(case, &mut call.pulses);
        both(&call, fault)?;
    }
    if answer == 0 {
        (counts.frames, counts.samples) = (counts.frames + u64::from(frames), counts.samples + heard.result[0] as u64);
        counts.in_order += write_again(&bytes, case, fault)? as u64;
    }
    append_badly(bytes, case, fault, counts)
}

/// Writes an accepted recording's frames: they read back as the same, and with the chain in order the bytes are the same; whether it is.
fn write_again(bytes: &[u8], case: &mut Draw, fault: bool) -> Result<bool, String> {
    let held = recording::read(bytes).map_err(|row| format!("read again, it is refused by {row}"))?;
    let records = held.frames.len() + 1;
    let mut buffer = vec![0; RECORD * records + case.pick(&[0, 0, 1, RECORD])];
    case.fill(&mut buffer);
    let each = case.one_in(8);
    let mut library = buffer.clone();
    let mut apart = Call { shape: held.shape, ..Call::new(What::Begin, buffer) };
    if each {
        apart = both(&apart, fault)?.1;
    } else if apart.made(&APART) != 0 || (LIBRARY.begin)(&mut library, held.shape[0], held.shape[1]) != 0 {
        return Err("beginning is refused".into());
    }
    for (written, frame) in held.frames.iter().enumerate() {
        let mut call = Call::append(apart.bytes, written as u32, frame);
        if each {
            let (answer, after) = both(&call, fault)?;
            if answer != 0 {
                return Err(format!("frame {} is refused by {answer} as it is written again", written + 1));
            }
            apart = after;
        } else {
            let answers = [call.made(&APART), (LIBRARY.append)(&mut library, written as u32, &frame.frame, &frame.coefs, &frame.pulses)];
            if answers != [0, 0] {
                return Err(format!("frame {} is answered by {answers:?} as it is written again", written + 1));
            }
            apart = call;
        }
    }
    if !each && apart.bytes != library {
        let at = (0..library.len()).find(|at| apart.bytes[*at] != library[*at]).unwrap_or_default();
        return Err(format!(
            "written again, record {}, byte {}: apart {}, library {}",
            at / RECORD,
            at % RECORD,
            apart.bytes[at],
            library[at]
        ));
    }
    let file = &apart.bytes[..RECORD * records];
    both(&Call::new(What::Read, file.to_vec()), fault)?;
    let again = recording::read(file).map_err(|row| format!("what was written is refused by {row}"))?;
    if again.frames != held.frames || again.shape != held.shape {
        return Err("what was written reads back as other frames".into());
    }
    let in_order = bytes.len() == file.len() && held.records.iter().copied().eq(1..records);
    if in_order && file != bytes {
        return Err("what was read in order is written back as other bytes".into());
    }
    Ok(in_order)
}

/// An append and a beginning with something wrong, or with nothing wrong, on a buffer as it comes.
fn append_badly(mut bytes: Vec<u8>, case: &mut Draw, fault: bool, counts: &mut Counts) -> Result<(), String> {
    let records = (bytes.len() / RECORD) as u32;
    let shape = match case.below(4) {
        0 => [case.pick(&[0, 8, 9, 12, 16, -8, 264]), case.pick(&[0, 2, 3, 4, 258])],
        _ if bytes.len() >= RECORD => [bytes[6], bytes[7]].map(i32::from),
        _ => [8, 2],
    };
    let known = SHAPES.contains(&(shape[0], shape[1]));
    let mut frame = drawn(case, if known { shape } else { [8, 2] });
    frame.frame[frame::RATE..frame::SIGNAL].copy_from_slice(&shape);
    let number = match case.below(4) {
        0 => case.pick(&[0, records, records.wrapping_sub(1), 58, 59, u32::MAX, u32::MAX - 1]),
        _ => case.below(u64::from(records.max(2)) - 1) as u32,
    };
    if case.one_in(4) {
        // As much room as the frame needs, a byte less, or more.
        let room = RECORD * (number.min(RECORDS as u32 - 1) as usize + 2);
        bytes.resize(case.pick(&[room - 1, room, room, room + 1, room + RECORD]), 0);
    }
    let mut call = Call::append(bytes.clone(), number, &frame);
    if case.one_in(3) {
        let at = 3 + case.below(13) as usize;
        call.frame[at] = case.pick(&[-1, 0, 1, 2, 3, 5, 255, 256, 258, 81_919, 16_385, 1_686_110_209, i32::MIN, i32::MAX]);
    }
    if case.one_in(6) {
        call.frame[0] = case.any();
    }
    if case.one_in(6) {
        let at = case.below(COEFS as u64) as usize;
        call.coefs[at] = case.any();
    }
    lend(case, &mut call.frame);
    lend(case, &mut call.coefs);
    lend(case, &mut call.pulses);
    lend(case, &mut call.bytes);
    let answer = both(&call, fault)?.0;
    *counts.appended.entry(answer).or_insert(0) += 1;
    both(&Call { shape, ..Call::new(What::Begin, bytes) }, fault).map(|_| ())
}

impl Options {
    /// The hand-made cases, then ten times as many mutated recordings as are counted for a function.
    pub fn recordings(&self, streams: &[PathBuf]) -> bool {
        let fault = self.fault.as_deref() == Some("recordings");
        let read: Result<Vec<Stream>, String> =
            std::iter::once(Path::new(DEMO)).chain(streams.iter().map(PathBuf::as_path)).map(streams::read).collect();
        let streams = match read {
            Ok(streams) => streams,
            Err(why) => {
                println!("recordings: {why}");
                return false;
            }
        };
        let (rows, appends) = (rows(&streams[0]), appends());
        let mut wrong: Vec<String> = rows.iter().filter_map(|row| row.check().err().map(|why| format!("{}: {why}", row.label))).collect();
        for (label, call, row) in &appends {
            match both(call, false) {
                Ok((answer, _)) if answer == *row => {}
                Ok((answer, _)) => wrong.push(format!("{label}: answered by {answer}, not {row}")),
                Err(why) => wrong.push(format!("{label}: {why}")),
            }
        }
        wrong.iter().take(10).for_each(|why| println!("recordings: {why}"));
        println!("recordings: {} of {} hand-made cases differ", wrong.len(), rows.len() + appends.len());
        if !wrong.is_empty() {
            return false;
        }
        let mut counts = Counts::default();
        let count = (10 * self.count).min(100_000);
        for number in self.from..self.from + count {
            let draw = &mut Draw::new(self.seed, 100, number);
            let (mut mutated, chain) = base(draw, &streams);
            for _ in 0..draw.pick(&[0, 1, 1, 1, 1, 2, 3]) {
                mutate(draw, &mut mutated, &chain);
            }
            let case = |mutated: &Mutated, counts: &mut Counts| compare(mutated, &mut Draw::new(self.seed, 101, number), fault, counts);
            if let Err(why) = case(&mutated, &mut counts) {
                println!("recordings: case {number} of seed {}: {why}", self.seed);
                let smallest = mutated.smallest(|less| case(less, &mut Counts::default()).is_err());
                println!("  with the edits that are needed: {}", case(&smallest, &mut counts).err().unwrap_or_default());
                println!("{}", smallest.told());
                return false;
            }
        }
        println!("recordings: {count} mutated recordings equal; {}", told(&counts.answers));
        println!(
            "recordings: {} frames and {} samples of them played, {} files in order written back",
            counts.frames, counts.samples, counts.in_order
        );
        println!("recordings: appended with something wrong: {}", told(&counts.appended));
        println!("recordings: a call takes up to {} bytes of stack", deepest());
        true
    }
}

/// The stack of the library's deepest call on a long recording.
fn deepest() -> usize {
    let frames = load::recorded(0, [16, 4], RECORDS - 1);
    let file = written([16, 4], &frames);
    let append = Call::append(file.clone(), 0, frames.iter().find(|frame| frame.is_received()).unwrap_or(&frames[0]));
    let others = [What::Read, What::Frame, What::Begin, What::Play].map(|what| Call { number: 59, ..Call::new(what, file.clone()) });
    let of_call = |mut call: Call| {
        stack_of(|| {
            call.made(&LIBRARY);
        })
    };
    others.into_iter().chain([append]).map(of_call).max().unwrap_or(0)
}

// Hand-made cases.

struct Row {
    label: String,
    bytes: Vec<u8>,
    answer: i32,
    /// The sum of the bytes, and the count and the sum of the samples.
    sums: Option<(i32, usize, i32)>,
}

impl Row {
    fn check(&self) -> Result<(), String> {
        let (answer, _) = both(&Call::new(What::Read, self.bytes.clone()), false)?;
        let (as_played, after) = both(&Call::new(What::Play, self.bytes.clone()), false)?;
        if [answer, as_played] != [self.answer; 2] {
            return Err(format!("read with {answer} and played with {as_played}, not {}", self.answer));
        }
        let Some(sums) = self.sums else { return Ok(()) };
        let samples = &after.output[..after.result[0] as usize];
        let found = (sum_of_bytes(&self.bytes), samples.len(), sum_of_samples(samples));
        if found == sums { Ok(()) } else { Err(format!("sum of the bytes, samples and their sum {found:?}, not {sums:?}")) }
    }
}

/// A voiced frame at the ends of its ranges.
pub fn ends() -> Recorded {
    let mut frame = Recorded::lost([8, 2]);
    frame.frame = [1, 8, 2, 2, 0, 4, -1, 16, 144, 0, 0, 81_920, 81_920, 0, 0, 16_384];
    (0..16).for_each(|k| frame.coefs[coefs::LINES + k] = 10 * k as i16);
    (frame.pulses[0], frame.pulses[1]) = (1, -1);
    frame
}

/// An inactive frame without pulses, from whose lines the older edition makes loud noise.
fn noise() -> Recorded {
    let mut frame = Recorded::lost([8, 2]);
    frame.frame = [1, 8, 2, 0, 0, 4, 0, 16, 16, 16, 16, 8_192_000, 8_192_000, 8_192_000, 8_192_000, 0];
    frame.coefs[coefs::LINES..][..10].copy_from_slice(&[32_767, 14_671, 0, 0, 1_974, 0, 8_636, 2_698, 0, 0]);
    frame
}

fn rows(demo: &Stream) -> Vec<Row> {
    let mut rows = vec![];
    let mut plays = |label: &str, bytes: Vec<u8>, sums: (i32, usize, i32)| {
        rows.push(Row { label: label.into(), bytes, answer: 0, sums: Some(sums) });
    };
    let narrow = [8, 2];
    let load = load::recorded(0, narrow, 6);
    let third = written(narrow, &load);
    plays("no frames", written(narrow, &[]), (299_925_664, 0, 0));
    plays("one frame and its loss", written(narrow, &[ends(), Recorded::lost(narrow)]), (926_891_982, 160, -268_642_955));
    plays("six frames of a load", third.clone(), (-558_168_852, 480, -1_965_520_189));
    plays(
        "the same, in other records",
        placed(narrow, &load, &[5, 2, 7, 1, 6, 4], vec![0xa5; 9 * RECORD]),
        (-954_751_144, 480, -1_965_520_189),
    );
    plays("59 frames of a load", written([16, 4], &load::recorded(0, [16, 4], 59)), (-2_007_328_040, 18_880, -816_647_186));
    plays("59 frames of the repository's stream", written(narrow, &frames_of(demo, 0, 59)), (286_238_076, 4_720, -1_498_645_842));

    let long_loss = [vec![noise()], vec![Recorded::lost(narrow); RECORDS - 2]].concat();
    plays(
        "noise that a squelch of 50 or the older edition would change",
        written(narrow, &long_loss),
        (-525_206_975, 4_720, -1_631_317_027),
    );

    let mut edited = |label: &str, answer: i32, edits: &[(usize, usize, &[u8])]| {
        let edits = edits.iter().map(|(record, byte, new)| Edit::Put(RECORD * record + byte, new.to_vec())).collect();
        let bytes = Mutated { label: String::new(), base: third.clone(), edits }.bytes();
        rows.push(Row { label: label.into(), bytes, answer, sums: None });
    };
    // Records 3 and 5 are received.
    for next in [3u16, 6, 7, 8, 256, 0x0103, 0xffff] {
        edited(&format!("record 6 leads to {next}"), 20, &[(6, 0, &next.to_le_bytes())]);
    }
    edited("record 0 leads nowhere, and records 1 and 3 are none", 0, &[(0, 0, &[0, 0]), (1, 2, &[9]), (3, 3, &[9])]);
    edited("no mark", 21, &[(0, 2, b"y")]);
    edited("no mark and a broken chain", 20, &[(0, 2, b"y"), (6, 0, &[7])]);
    edited("a bad rate, gain and padding and a broken chain", 20, &[(0, 6, &[9]), (3, 26, &[0x7f]), (3, 1023, &[1]), (6, 0, &[7])]);
    for byte in [8, 1023] {
        edited(&format!("record 0, byte {byte}"), 21, &[(0, byte, &[1])]);
    }
    for kind in [2, 255] {
        edited(&format!("kind {kind}"), 21, &[(3, 2, &[kind])]);
    }
    for (byte, answer) in [(818, 0), (819, 21), (1023, 21)] {
        edited(&format!("received, byte {byte}"), answer, &[(3, byte, &[1])]);
    }
    for byte in [3, 1023] {
        edited(&format!("lost, byte {byte}"), 21, &[(1, byte, &[1])]);
    }
    edited("a received frame called lost", 21, &[(3, 2, &[0])]);
    edited("rate 9", 1, &[(0, 6, &[9])]);
    edited("3 subframes", 2, &[(0, 7, &[3])]);
    edited("rate 9 and 3 subframes", 1, &[(0, 6, &[9, 3])]);
    edited("rate 9 and record 0, byte 8", 21, &[(0, 6, &[9]), (0, 8, &[1])]);
    edited("rate 9 and type 3", 1, &[(0, 6, &[9]), (3, 3, &[3])]);
    edited("type 3 in a frame after one with a gain of 0", 5, &[(3, 23, &[0; 4]), (5, 3, &[3])]);
    edited("a bad scale in a frame after one with a bad line", 8, &[(3, 148, &[0x80]), (5, 143, &[1, 64, 0, 0])]);
    for (label, byte, value) in [("type 255", 3, 255), ("type 3", 3, 3), ("offset 2", 4, 2), ("interpolation 5", 5, 5)] {
        edited(label, 5, &[(3, byte, &[value])]);
    }
    for (place, gain, answer) in [(0, 81_919, 6), (0, 81_920, 0), (1, 1_686_110_208, 0), (1, 1_686_110_209i32, 6), (2, 0, 0)] {
        edited(&format!("gain {gain} at {place}"), answer, &[(3, 23 + 4 * place, &gain.to_le_bytes())]);
    }
    let pitch: [u8; 16] = std::array::from_fn(|at| if at % 4 == 0 { 16 } else { 0 });
    for (place, lag, signal, answer) in [(0, 15, 2, 7), (1, 145, 2, 7), (0, 16, 2, 0), (1, 144, 2, 0), (2, 145, 2, 0), (0, 145, 1, 0i32)] {
        let edits: [(usize, usize, &[u8]); 3] = [(3, 3, &[signal]), (3, 7, &pitch), (3, 7 + 4 * place, &[lag])];
        edited(&format!("type {signal}, lag {lag} at {place}"), answer, &edits);
    }
    for (scale, answer) in [(16_384, 0), (16_385, 8), (-1i32, 8)] {
        edited(&format!("scale {scale}"), answer, &[(3, 143, &scale.to_le_bytes())]);
    }
    let taps: [u8; 10] = [0xff, 0x7f, 1, 0, 0, 0, 0, 0, 0, 0];
    for (signal, subframe, answer) in [(2, 0, 8), (2, 1, 8), (2, 2, 0), (0, 0, 0)] {
        let edits: [(usize, usize, &[u8]); 3] = [(3, 3, &[signal]), (3, 7, &pitch), (3, 103 + 10 * subframe, &taps)];
        edited(&format!("type {signal}, taps of {subframe} that add up to 32,768"), answer, &edits);
    }
    for (line, answer) in [(0, 9), (9, 9), (10, 0)] {
        edited(&format!("line {line} negative"), answer, &[(3, 148 + 2 * line, &[0x80])]);
    }
    for (length, answer) in [(0, 21), (1, 21), (7_167, 21), (7_169, 21), (RECORD * RECORDS, 0), (RECORD * (RECORDS + 1), 21)] {
        let bytes = Mutated { label: String::new(), base: third.clone(), edits: vec![Edit::Length(length)] }.bytes();
        rows.push(Row { label: format!("{length} bytes"), bytes, answer, sums: None });
    }
    rows
}

/// Frames that are written, and the answers.
fn appends() -> Vec<(&'static str, Call, i32)> {
    let lost = Recorded::lost([8, 2]);
    let with = |change: &dyn Fn(&mut Call)| {
        let mut call = Call::append([head_record(0, [8, 2]), vec![0xa5; RECORD]].concat(), 0, &ends());
        change(&mut call);
        call
    };
    let long = |records: usize, frames: u32| {
        Call::append([head_record(1, [8, 2]), vec![0; RECORD * (records - 1)]].concat(), frames, &Recorded::lost([8, 2]))
    };
    let shaped = |rate: u8, subframes: u8| {
        move |call: &mut Call| {
            (call.bytes[6], call.bytes[7]) = (rate, subframes);
        }
    };
    vec![
        ("the first frame", with(&|_| {}), 0),
        ("a lost one without pulses", with(&|call| (call.frame, call.pulses) = (lost.frame.to_vec(), vec![])), 0),
        ("received by another number", with(&|call| call.frame[0] = -1), 0),
        ("a seed of more than 8 bits", with(&|call| call.frame[6] = 0x1_2380), 0),
        ("319 pulses", with(&|call| call.pulses.truncate(319)), 21),
        ("15 numbers", with(&|call| call.frame.truncate(15)), 21),
        ("67 coefficients of a lost one", with(&|call| (call.frame[0], call.coefs) = (0, vec![0; 67])), 21),
        ("a byte too few", with(&|call| call.bytes.truncate(2 * RECORD - 1)), 21),
        ("the 59th frame", long(RECORDS, 58), 0),
        ("the 60th frame, in room for it", long(RECORDS + 1, 59), 21),
        ("the last count there is", long(RECORDS + 4, u32::MAX), 21),
        ("no mark", with(&|call| call.bytes[5] = b'd'), 21),
        ("record 0, byte 1023, and a rate of 9", with(&|call| (call.bytes[6], call.bytes[1023]) = (9, 1)), 21),
        ("record 0 leads past the end", with(&|call| call.bytes[1] = 9), 0),
        ("record 0 has the rate 9, and so has the frame", with(&|call| (call.bytes[6], call.frame[1]) = (9, 9)), 1),
        ("record 0 has 3 subframes, and so has the frame", with(&|call| (call.bytes[7], call.frame[2]) = (3, 3)), 2),
        ("record 0 has another rate", with(&shaped(12, 2)), 1),
        ("record 0 has another count", with(&shaped(8, 4)), 2),
        ("record 0 has 3 subframes and another rate", with(&shaped(12, 3)), 1),
        ("type 3", with(&|call| call.frame[3] = 3), 5),
        ("type 256", with(&|call| call.frame[3] = 256), 5),
        ("type 258 and no gain", with(&|call| (call.frame[3], call.frame[11]) = (258, 0)), 5),
        ("no gain", with(&|call| call.frame[11] = 0), 6),
        ("lag 15", with(&|call| call.frame[7] = 15), 7),
        ("scale 16,385", with(&|call| call.frame[15] = 16_385), 8),
        ("a negative line", with(&|call| call.coefs[61] = -1), 9),
        ("of a lost one, all else wrong", with(&|call| (call.frame[0], call.frame[3], call.frame[11]) = (0, 9, 0)), 0),
    ]
}
