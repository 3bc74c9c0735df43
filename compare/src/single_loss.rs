//! The one frame that mattered (document 02, Note 14) by trying each loss: every call is played whole, from set-up on. The library beside it on
//! hand-made recordings and on drawn ones, at every limit at which an answer may change.

use crate::bench::stack_of;
use crate::checks::{Options, told};
use crate::draw::{Draw, SHAPES};
use crate::ffi;
use crate::load;
use crate::recording::{self, RECORD, RECORDS, Recorded, Recording, placed, played, written};
use crate::recordings::{DEMO, drawn, ends, frames_of};
use crate::reference::{answer, unless};
use crate::streams::{self, Stream};
use std::collections::BTreeMap;
use std::path::{Path, PathBuf};

/// Whether the library has the function.
pub const LINKED: bool = cfg!(has_single_loss);

const BAD: i32 = 21;
const LIMIT: i32 = 23;

/// The size of the loudest sample of the call as recorded, and of each call in which one received frame more is lost.
struct Sizes {
    recorded: i32,
    /// None for a frame that is recorded as lost.
    without: Vec<Option<i32>>,
}

fn loudest(recording: &Recording) -> i32 {
    played(recording).into_iter().map(|sample| i32::from(sample).abs()).max().unwrap_or(0)
}

impl Sizes {
    fn of(mut recording: Recording) -> Sizes {
        let recorded = loudest(&recording);
        let shape = recording.shape;
        let without = (0..recording.frames.len())
            .map(|at| {
                let frame = std::mem::replace(&mut recording.frames[at], Recorded::lost(shape));
                let size = frame.is_received().then(|| loudest(&recording));
                recording.frames[at] = frame;
                size
            })
            .collect();
        Sizes { recorded, without }
    }

    /// 0 for none; refused by 23.
    fn answer(&self, limit: i32) -> Result<i32, i32> {
        unless(LIMIT, (1..=32_767).contains(&limit) && self.recorded <= limit)?;
        let found = self.without.iter().position(|size| size.is_some_and(|size| size > limit));
        Ok(found.map_or(0, |at| at as i32 + 1))
    }

    /// The limits at which the answer may be another than at the next one below or above.
    fn limits(&self) -> Vec<i32> {
        let louder = self.without.iter().flatten().copied().filter(|size| *size > self.recorded);
        let sizes = louder.chain([self.recorded, 0, 32_767]);
        let mut limits: Vec<i32> = sizes.flat_map(|size| [size - 1, size, size + 1]).chain([i32::MIN, i32::MAX]).collect();
        limits.sort_unstable();
        limits.dedup();
        limits
    }
}

/// The library's function. A slice that is shorter than its size is refused by 21.
pub fn post_single_loss(bytes: &[u8], limit: i32, number: &mut [i32]) -> i32 {
    answer(|| {
        unless(BAD, !number.is_empty())?;
        number[0] = Sizes::of(recording::read(bytes)?).answer(limit)?;
        Ok(())
    })
}

/// The library's answer, which must be this one, with nothing else written.
fn library(bytes: &[u8], limit: i32, expected: Result<i32, i32>, fault: bool) -> Result<i32, String> {
    let mut number = [-7; 2];
    let row = ffi::single_loss(bytes, limit, &mut number);
    if fault && row == 0 && bytes.len() > 5 * RECORD {
        number[0] ^= 1;
    }
    let left = expected.unwrap_or(-7);
    let row_expected = expected.err().unwrap_or(0);
    if (row, number) != (row_expected, [left, -7]) {
        return Err(format!("limit {limit}: apart {row_expected}, number {left}, library {row}, numbers {number:?}"));
    }
    if ffi::single_loss(bytes, limit, &mut []) != BAD {
        return Err(format!("limit {limit}: no place for the number is not refused by {BAD}"));
    }
    Ok(row)
}

/// A recording at each of its limits; those that are drawn from them where there are more than so many.
fn compare(bytes: &[u8], draw: &mut Draw, most: usize, fault: bool, counts: &mut Counts) -> Result<(), String> {
    let sizes = match recording::read(bytes) {
        Ok(read) => Sizes::of(read),
        Err(row) => {
            *counts.answers.entry(library(bytes, draw.pick(&[0, 1, 9_000, 32_768]), Err(row), fault)?).or_insert(0) += 1;
            return Ok(());
        }
    };
    let mut limits = sizes.limits();
    while limits.len() > most {
        limits.swap_remove(draw.below(limits.len() as u64) as usize);
    }
    for limit in limits {
        let expected = sizes.answer(limit);
        *counts.answers.entry(library(bytes, limit, expected, fault)?).or_insert(0) += 1;
        match expected {
            Ok(0) => counts.none += 1,
            Ok(_) => counts.named += 1,
            Err(_) => {}
        }
        counts.not_the_loudest += u64::from(
            expected.is_ok_and(|number| number > 0 && sizes.without[number as usize - 1] < sizes.without.iter().copied().max().flatten()),
        );
    }
    Ok(())
}

/// How often something came.
#[derive(Default)]
struct Counts {
    answers: BTreeMap<i32, u64>,
    named: u64,
    none: u64,
    not_the_loudest: u64,
}

/// A recording of a stream's frames, of drawn ones or of a load's, in order or not, some of whose frames are quieter than they came.
fn base(draw: &mut Draw, streams: &[Stream]) -> (String, Vec<u8>) {
    let count = draw.pick(&[0, 1, 2, 3, 5, 8, 13, 21, 34, RECORDS - 1]);
    let (shape, mut frames, from) = match draw.below(6) {
        0 => {
            let ((rate, subframes), seed) = (draw.pick(&SHAPES), draw.any());
            ([rate, subframes], load::recorded(seed, [rate, subframes], count), format!("the load of seed {seed}"))
        }
        1 => {
            let (rate, subframes) = draw.pick(&SHAPES);
            ([rate, subframes], (0..count).map(|_| drawn(draw, [rate, subframes])).collect(), "drawn frames".into())
        }
        _ => {
            let stream = &streams[draw.below(streams.len() as u64) as usize];
            let from = draw.below((stream.records.len() - count.min(stream.records.len() - 1)) as u64) as usize;
            ([stream.rate, stream.subframes], frames_of(stream, from, count), format!("{} from record {from} on", stream.name))
        }
    };
    if draw.one_in(2) {
        // Losses that were recorded, up to all frames.
        let one_in = draw.pick(&[1, 2, 8]);
        frames.iter_mut().filter(|_| draw.one_in(one_in)).for_each(|frame| *frame = Recorded::lost(shape));
    }
    let label = format!("{} frames at {} kHz with {} subframes: {from}", frames.len(), shape[0], shape[1]);
    if draw.one_in(2) {
        return (label, written(shape, &frames));
    }
    let backwards: Vec<usize> = (1..=frames.len()).rev().collect();
    let bytes = placed(shape, &frames, &backwards, vec![0xa5; RECORD * (frames.len() + 1)]);
    (format!("{label}, the last in record 1"), bytes)
}

/// Recordings and limits whose answers are known: document 02's order of the rows, and the repository's own recording.
fn rows(demo: &Stream) -> Vec<(&'static str, Vec<u8>, i32, Result<i32, i32>)> {
    let narrow = [8, 2];
    let own = written(narrow, &frames_of(demo, 0, 59));
    let with = |at: usize, byte: u8| {
        let mut bytes = own.clone();
        bytes[at] = byte;
        bytes
    };
    let two = written(narrow, &[ends(), Recorded::lost(narrow)]);
    let lost = written(narrow, &vec![Recorded::lost(narrow); RECORDS - 1]);
    let mut rows = vec![];
    for (limit, expected) in [
        (0, Err(23)),
        (-9_642, Err(23)),
        (9_641, Err(23)),
        (9_642, Ok(5)),
        (10_053, Ok(5)),
        (10_054, Ok(6)),
        (10_149, Ok(6)),
        (11_193, Ok(6)),
        (11_194, Ok(0)),
        (32_767, Ok(0)),
        (32_768, Err(23)),
    ] {
        rows.push(("the repository's stream", own.clone(), limit, expected));
    }
    rows.push(("a byte too few and no limit", own[..61_439].to_vec(), 0, Err(21)));
    rows.push(("a broken chain and no limit", with(1, 1), 0, Err(20)));
    rows.push(("no mark and no limit", with(2, b'y'), 0, Err(21)));
    rows.push(("rate 9 and no limit", with(6, 9), 0, Err(1)));
    rows.push(("3 subframes and a limit that is passed", with(7, 3), 1, Err(2)));
    rows.push(("a quiet frame and its loss", two.clone(), 1, Ok(0)));
    rows.push(("a quiet frame and its loss", two, 0, Err(23)));
    rows.push(("losses alone", lost, 1, Ok(0)));
    rows.push(("no frames", written(narrow, &[]), 1, Ok(0)));
    rows.push(("no frames", written(narrow, &[]), 0, Err(23)));
    for (shape, count) in [(narrow, 6), ([16, 4], RECORDS - 1)] {
        for limit in [1, 32_766, 32_767] {
            rows.push(("a load, whose samples reach -32,768", written(shape, &load::recorded(0, shape, count)), limit, Err(23)));
        }
    }
    rows
}

impl Options {
    /// The hand-made cases, then one recording for each fifty calls that are counted for a function, and at most 1,000.
    pub fn single_losses(&self, streams: &[PathBuf]) -> bool {
        let fault = self.fault.as_deref() == Some("single_loss");
        let read: Result<Vec<Stream>, String> =
            std::iter::once(Path::new(DEMO)).chain(streams.iter().map(PathBuf::as_path)).map(streams::read).collect();
        let streams = match read {
            Ok(streams) => streams,
            Err(why) => {
                println!("single_loss: {why}");
                return false;
            }
        };
        let mut wrong = vec![];
        let rows = rows(&streams[0]);
        for (label, bytes, limit, expected) in &rows {
            let mut number = [-7];
            let row = post_single_loss(bytes, *limit, &mut number);
            let apart = if row == 0 { Ok(number[0]) } else { Err(row) };
            if apart != *expected {
                wrong.push(format!("{label}, limit {limit}: apart {apart:?}, not {expected:?}"));
            }
            wrong.extend(library(bytes, *limit, *expected, false).err().map(|why| format!("{label}, {why}")));
        }
        wrong.iter().take(10).for_each(|why| println!("single_loss: {why}"));
        println!("single_loss: {} of {} hand-made cases differ", wrong.len(), rows.len());
        if !wrong.is_empty() {
            return false;
        }
        let mut counts = Counts::default();
        let count = self.count.div_ceil(50).min(1_000);
        for number in self.from..self.from + count {
            let draw = &mut Draw::new(self.seed, 102, number);
            let (label, mut bytes) = base(draw, &streams);
            if draw.one_in(16) {
                let at = draw.below(bytes.len() as u64) as usize;
                bytes[at] = draw.any();
            }
            if let Err(why) = compare(&bytes, draw, 12, fault, &mut counts) {
                println!("single_loss: case {number} of seed {}, {label}: {why}", self.seed);
                return false;
            }
        }
        println!("single_loss: {count} recordings equal; {}", told(&counts.answers));
        println!(
            "single_loss: a frame named {} times, {} times not the one whose loss is the loudest; none {} times",
            counts.named, counts.not_the_loudest, counts.none
        );
        let own = &rows[8].1;
        let stack = stack_of(|| _ = ffi::single_loss(own, 11_194, &mut [0]));
        println!("single_loss: a call takes up to {stack} bytes of stack");
        true
    }
}
