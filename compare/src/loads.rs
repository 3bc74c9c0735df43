//! The library's load beside that of `load.rs`: hand-made cases, drawn frames and leaps, every draw there is, and loads that are played.

use crate::bench::stack_of;
use crate::call::{Draft, What};
use crate::checks::{Options, told};
use crate::draw::{self, Draw, SHAPES};
use crate::ffi;
use crate::load::{DRAWS, Generator, LONGEST, after};
use crate::post::ffi::{COEFS, FRAME, coefs};
use crate::recording::PULSES;
use crate::recordings::{lend, sum};
use crate::reference::{NEWER, answer, judge_shape, unless};
use std::collections::BTreeMap;

/// Whether the library has the functions.
pub const LINKED: bool = cfg!(all(has_load_frame, has_load_leap, has_load_undoing));

// The library's functions, apart from it.

pub fn post_load_frame(rate: i32, subframes: i32, seed: i32, number: u32, frame: &mut [i32], coefs: &mut [i16], pulses: &mut [i16]) -> i32 {
    answer(|| {
        unless(-1, frame.len() >= FRAME && coefs.len() >= COEFS && pulses.len() >= PULSES)?;
        judge_shape(rate, subframes)?;
        unless(12, number < LONGEST)?;
        let drawn = after(seed, DRAWS * u64::from(number)).frame([rate, subframes]);
        frame[..FRAME].copy_from_slice(&drawn.frame);
        coefs[..COEFS].copy_from_slice(&drawn.coefs);
        pulses[..PULSES].copy_from_slice(&drawn.pulses);
        Ok(())
    })
}

pub fn post_load_leap(seed: i32, draws: u64) -> i32 {
    after(seed, draws).0 as i32
}

/// With as many more, the draws are a multiple of 2^32, after which the generator is where it was.
pub fn post_load_undoing(draws: u64) -> u64 {
    (1 << 32) - draws % (1 << 32)
}

/// A frame of the load, or what its call answers and leaves.
#[derive(Clone, PartialEq)]
struct Call {
    shape: [i32; 2],
    seed: i32,
    number: u32,
    frame: Vec<i32>,
    coefs: Vec<i16>,
    pulses: Vec<i16>,
}

impl Call {
    fn new(shape: [i32; 2], seed: i32, number: u32) -> Call {
        Call { shape, seed, number, frame: vec![-7; FRAME], coefs: vec![-7; COEFS], pulses: vec![-7; PULSES] }
    }

    /// Makes the call of both: the answer and what is left, or what differs.
    fn both(&self, fault: bool) -> Result<(i32, Call), String> {
        let (mut apart, mut library) = (self.clone(), self.clone());
        let [rate, subframes] = self.shape;
        let row = post_load_frame(rate, subframes, self.seed, self.number, &mut apart.frame, &mut apart.coefs, &mut apart.pulses);
        let found = ffi::load_frame(rate, subframes, self.seed, self.number, &mut library.frame, &mut library.coefs, &mut library.pulses);
        if fault && row == 0 && self.number > 1_000_000 {
            library.pulses[319] ^= 1;
        }
        let at = |slice: &str, place: Option<usize>| place.map(|place| format!("{slice}[{place}] differs"));
        let differs = (row != found).then(|| format!("answer: apart {row}, library {found}"));
        let differs = differs
            .or_else(|| at("frame", (0..self.frame.len()).find(|k| apart.frame[*k] != library.frame[*k])))
            .or_else(|| at("coefs", (0..self.coefs.len()).find(|k| apart.coefs[*k] != library.coefs[*k])))
            .or_else(|| at("pulses", (0..self.pulses.len()).find(|k| apart.pulses[*k] != library.pulses[*k])));
        match differs {
            Some(why) => Err(format!("frame {} of seed {} at {:?}: {why}", self.number, self.seed, self.shape)),
            None => Ok((row, apart)),
        }
    }

    /// The frame's numbers in the order of their draws.
    fn numbers(&self) -> impl Iterator<Item = i32> {
        let frame = [&self.frame[..1], &self.frame[3..15]].concat();
        let coefs = [&self.coefs[coefs::ROWS..coefs::LINES], &self.coefs[..coefs::ROWS]].concat();
        let last = [&self.coefs[coefs::LINES..COEFS], &self.pulses[..PULSES]].concat();
        let wide = |short: i16| i32::from(short);
        frame.into_iter().chain(coefs.into_iter().map(wide)).chain([self.frame[15]]).chain(last.into_iter().map(wide))
    }
}

/// The generator after draws, by both.
fn leap(seed: i32, draws: u64, expected: i32) -> Result<(), String> {
    let (apart, library) = (post_load_leap(seed, draws), ffi::load_leap(seed, draws));
    if [apart, library] == [expected; 2] {
        return Ok(());
    }
    Err(format!("{draws} draws from {seed}: {expected} is to come, apart {apart}, library {library}"))
}

/// Leaps as a factor and a term.
const LEAPS: [(u64, u32, u32); 22] = [
    (0, 1, 0),
    (1, 196_314_165, 907_633_515),
    (2, 3_026_498_297, 2_641_306_770),
    (4, 2_007_447_089, 4_143_921_812),
    (5, 4_241_652_773, 1_151_390_735),
    (8, 1_298_576_737, 381_724_904),
    (9, 4_187_787_541, 1_431_042_931),
    (13, 893_727_493, 3_466_173_847),
    (29, 1_002_241_221, 3_321_004_455),
    (45, 872_715_909, 173_232_567),
    (65, 468_294_453, 1_161_811_883),
    (66, 141_784_569, 2_635_478_482),
    (82, 3_327_905_465, 3_099_410_466),
    (402, 693_231_033, 1_789_068_898),
    (1_000_000, 835_351_297, 2_612_610_368),
    (1 << 30, 1, 1_073_741_824),
    (1 << 31, 1, 2_147_483_648),
    ((1 << 32) - 1, 592_883_229, 2_526_741_217),
    (1 << 32, 1, 0),
    (1 << 63, 1, 0),
    (u64::MAX, 592_883_229, 2_526_741_217),
    (402 * 2_147_483_647, 3_307_149_449, 1_984_587_150),
];

/// A seed; the sums of frames 0 to 2 at 8, 12 and 16 kHz; the generator after them.
const SUMS: [(i32, [[i32; 3]; 3], i32); 3] = [
    (
        0,
        [
            [1_104_505_869, -2_078_478_502, -2_007_054_019],
            [-1_976_893_390, 1_609_608_642, -1_724_509_129],
            [-603_344_762, -60_572_219, -1_552_120_256],
        ],
        -2_087_181_066,
    ),
    (
        -1,
        [
            [1_264_774_901, -228_301_089, 836_226_488],
            [-2_070_353_080, -1_484_385_169, -2_034_249_511],
            [2_124_548_217, -229_964_667, -449_777_623],
        ],
        1_983_127_821,
    ),
    (
        i32::MIN,
        [
            [990_357_253, 819_840_223, 2_071_129_071],
            [-753_959_902, 1_518_919_254, 1_615_826_915],
            [-1_598_352_334, -227_294_991, 210_775_462],
        ],
        60_302_582,
    ),
];

/// The sum of the samples of frames 0 to 99 of seed 0, at each shape.
const PLAYED: [i32; 6] = [-57_089_450, -1_387_612_267, 1_569_586_515, -8_146_691, -1_604_833_838, -406_329_052];

fn known() -> Result<(), String> {
    for (draws, factor, term) in LEAPS {
        for seed in [0u32, 1, 777, u32::MAX] {
            leap(seed as i32, draws, factor.wrapping_mul(seed).wrapping_add(term) as i32)?;
        }
    }
    for (draws, undone) in [(0, 1 << 32), (1, (1 << 32) - 1), (1 << 32, 1 << 32), (u64::MAX, 1), (402 * 2_147_483_647, 402)] {
        let found = [post_load_undoing(draws), ffi::load_undoing(draws)];
        if found != [undone; 2] {
            return Err(format!("{draws} draws are to be undone by {undone}; apart and library {found:?}"));
        }
    }
    for (seed, rates, end) in SUMS {
        for (rate, sums) in [8, 12, 16].into_iter().zip(rates) {
            for (number, expected) in sums.into_iter().enumerate() {
                let found = sum(Call::new([rate, 4], seed, number as u32).both(false)?.1.numbers());
                if found != expected {
                    return Err(format!("frame {number} of seed {seed} at {rate} kHz has the sum {found}, not {expected}"));
                }
            }
        }
        leap(seed, 3 * DRAWS, end)?;
    }
    let first = Call::new([8, 2], 0, 0).both(false)?.1;
    let numbers = [0, 8, 2, 1, 1, 4, -60, 50, 90, 27, 58, 1_362_692_624, 830_558_838, 1_665_335_756, 1_360_759_838, 10_054];
    if first.frame != numbers
        || first.coefs[..5] != [-2_486, -4_159, 1_173, 5_097, -2_746]
        || first.pulses[316..] != [686, 30_052, -31_659, -5_469]
    {
        return Err("frame 0 of seed 0 at 8 kHz is another".into());
    }
    let last = Call::new([16, 4], 0, LONGEST - 1).both(false)?.1;
    if last.frame[7..11] != [53, 225, 226, 261] || sum(last.numbers()) != 1_640_156_946 {
        return Err("the last frame of seed 0 at 16 kHz is another".into());
    }
    for (rate, subframes, number, row) in [(9, 3, u32::MAX, 1), (8, 3, u32::MAX, 2), (8, 2, LONGEST, 12), (8, 2, u32::MAX, 12)] {
        let found = Call::new([rate, subframes], 0, number).both(false)?.0;
        if found != row {
            return Err(format!("frame {number} at {rate} kHz with {subframes} subframes is answered by {found}, not {row}"));
        }
    }
    Ok(())
}

/// Leaps from places that are reached by drawing alone: 2^32 draws, after which the generator is where it was.
fn every_draw(seed: i32) -> Result<(), String> {
    let mut generator = Generator(seed as u32);
    for draws in 1..=1u64 << 32 {
        let value = generator.draw() as i32;
        if draws % 65_521 == 0 {
            leap(seed, draws, value)?;
        }
    }
    leap(seed, 1 << 32, generator.0 as i32).and(if generator.0 as i32 == seed { Ok(()) } else { Err("the generator is elsewhere".into()) })
}

/// A drawn frame, lent as it may be, and drawn leaps.
fn drawn(draw: &mut Draw, fault: bool, answers: &mut BTreeMap<i32, u64>) -> Result<(), String> {
    let (rate, subframes) = draw.pick(&SHAPES);
    let number = if draw.one_in(16) { draw.pick(&[LONGEST, LONGEST + 1, u32::MAX]) } else { draw.range(0, i64::from(LONGEST) - 1) as u32 };
    let mut call = Call::new([rate, subframes], draw.any(), number);
    if draw.one_in(16) {
        call.shape = [draw.pick(&[0, 8, 9, 12, 16, 24, -8]), draw.pick(&[0, 1, 2, 3, 4, 5])];
    }
    lend(draw, &mut call.frame);
    lend(draw, &mut call.coefs);
    lend(draw, &mut call.pulses);
    *answers.entry(call.both(fault)?.0).or_insert(0) += 1;

    let (few, many, seed) = (draw.below(2_000), draw.next() >> draw.below(64), draw.any());
    let mut generator = after(seed, many);
    (0..few).for_each(|_| _ = generator.draw());
    leap(seed, many.wrapping_add(few), generator.0 as i32)?;
    let (there, back) = (ffi::load_leap(seed, many), ffi::load_undoing(many));
    if back != post_load_undoing(many) || ffi::load_leap(there, back) != seed {
        return Err(format!("{many} draws from {seed} are not undone by {back}"));
    }
    Ok(())
}

impl Options {
    /// The hand-made cases, every draw, drawn frames and leaps, and loads that are played whole.
    pub fn load(&self) -> bool {
        let fault = self.fault.as_deref() == Some("load");
        let compared = || -> Result<(), String> {
            known()?;
            println!("load: the hand-made cases are equal");
            every_draw(Draw::new(self.seed, 102, 0).any())?;
            println!("load: leaps are equal to single draws, up to 2^32 of them");
            let mut answers = BTreeMap::new();
            for case in self.from..self.from + self.count {
                drawn(&mut Draw::new(self.seed, 103, case), fault, &mut answers)
                    .map_err(|why| format!("case {case} of seed {}: {why}", self.seed))?;
            }
            println!("load: {} drawn frames and leaps equal; {}", self.count, told(&answers));
            let (mut frames, mut lost) = (0, 0);
            for (shape, expected) in SHAPES.into_iter().zip(PLAYED) {
                let found = sum(self.load_played(shape, 0, 0, 100, None)?.0.into_iter().map(i32::from));
                if found != expected {
                    return Err(format!("100 frames at {shape:?}: the samples have the sum {found}, not {expected}"));
                }
            }
            for case in self.from..self.from + self.count.div_ceil(100) {
                let draw = &mut Draw::new(self.seed, 104, case);
                let (shape, seed, first) = (draw.pick(&SHAPES), draw.any(), draw.range(0, i64::from(LONGEST) - 100) as u32);
                lost += self
                    .load_played(shape, seed, first, 100, Some(draw))
                    .map_err(|why| format!("load {case} of seed {}: {why}", self.seed))?
                    .1;
                frames += 100;
            }
            let mut call = Call::new([16, 4], 0, LONGEST - 1);
            let stack = stack_of(|| _ = ffi::load_frame(16, 4, 0, LONGEST - 1, &mut call.frame, &mut call.coefs, &mut call.pulses));
            println!("load: a call takes up to {stack} bytes of stack");
            println!("load: {frames} frames of drawn loads played, {lost} of them lost, none refused");
            Ok(())
        };
        let compared = compared();
        if let Err(why) = &compared {
            println!("load: {why}");
        }
        compared.is_ok()
    }

    /// Plays frames of a load by both, from set-up, with settings that are drawn or none: their samples, and how many were lost.
    fn load_played(
        &self, shape: (i32, i32), seed: i32, first: u32, count: u32, mut draw: Option<&mut Draw>,
    ) -> Result<(Vec<i16>, u64), String> {
        let mut draft = Draft::plain(What::Received, shape.0, shape.1);
        draft.settings = draw.as_mut().map_or(draft.settings, |draw| draw::settings(draw, &draft.dec));
        assert!(draw.is_some() || draft.settings.squelch == 0 && draft.settings.edition == NEWER);
        let (mut call, mut samples, mut lost) = (draft.call(), vec![], 0);
        for number in first..first + count {
            let drawn = Call::new([shape.0, shape.1], seed, number).both(false)?.1;
            (call.frame, call.coefs, call.pulses) = (drawn.frame, drawn.coefs, drawn.pulses);
            let received = call.frame[0] == 1;
            call.what = if received { What::Received } else { What::Lost };
            let (row, after) = self.both(&call)?;
            if row != 0 {
                return Err(format!("frame {number} of seed {seed} at {shape:?} is refused by {row}"));
            }
            lost += !received as u64;
            samples.extend(&after.output);
            call = after;
        }
        Ok((samples, lost))
    }
}
