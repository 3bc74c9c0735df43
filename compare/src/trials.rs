//! The library's trial beside a count of its own (document 02, Note 13): hand-made cases, drawn trials, and trials whose frames are played.

use crate::bench::stack_of;
use crate::call::{Draft, What};
use crate::checks::{Options, told};
use crate::draw::{Draw, SHAPES};
use crate::ffi;
use crate::load::{Generator, LONGEST};
use crate::post::ffi::{COUNTS, LISTENERS, frame, words};
use crate::recordings::lend;
use crate::reference::{NEWER, Settings, answer, judge_shape, unless};
use std::collections::BTreeMap;

/// Whether the library has the function.
pub const LINKED: bool = cfg!(has_trial);

/// A link's state after each frame, from the first on: whether the frame is received.
struct Link {
    generator: Generator,
    numbers: [u16; 2],
    bad: bool,
}

impl Link {
    fn new(seed: i32, numbers: [u16; 2]) -> Link {
        Link { generator: Generator(seed as u32), numbers, bad: false }
    }

    /// Whether the next frame is received; then the link goes on.
    fn received(&mut self) -> bool {
        let bad = self.bad;
        self.bad ^= self.generator.draw() >> 16 < u32::from(self.numbers[usize::from(bad)]);
        !bad
    }
}

/// A listener's frames, received, concealed and squelched.
fn heard(seed: i32, squelch: i32, frames: u32, numbers: [u16; 2]) -> [u32; 3] {
    let (mut link, mut row, mut counts) = (Link::new(seed, numbers), 0, [0; 3]);
    for _ in 0..frames {
        row = if link.received() { 0 } else { row + 1 };
        let silent = squelch > 0 && row >= i64::from(squelch);
        counts[if row == 0 { 0 } else { 1 + usize::from(silent) }] += 1;
    }
    counts
}

/// The library's function, apart from it.
pub fn post_trial([rate, subframes, _, squelch]: [i32; 4], frames: u32, numbers: [u16; 2], seeds: &[i32], counts: &mut [u32]) -> i32 {
    answer(|| {
        unless(-1, seeds.len() >= LISTENERS && counts.len() >= COUNTS)?;
        judge_shape(rate, subframes)?;
        unless(12, frames <= LONGEST)?;
        unless(14, (0..=10_000).contains(&squelch))?;
        for (i, seed) in seeds[..LISTENERS].iter().enumerate() {
            let [received, concealed, squelched] = heard(*seed, squelch, frames, numbers);
            (counts[i], counts[16 + i], counts[32 + i]) = (received, concealed, squelched);
        }
        Ok(())
    })
}

/// A trial: rate, subframes, the load's seed and the squelch; the frames; the link's numbers; the listeners' seeds.
#[derive(Clone)]
struct Trial {
    first: [i32; 4],
    frames: u32,
    numbers: [u16; 2],
    seeds: Vec<i32>,
    counts: Vec<u32>,
}

impl Trial {
    fn new(first: [i32; 4], frames: u32, numbers: [u16; 2], seeds: Vec<i32>) -> Trial {
        Trial { first, frames, numbers, seeds, counts: vec![7; COUNTS] }
    }

    /// Runs it by both: the answer and the counts, or what differs.
    fn both(&self, fault: bool) -> Result<(i32, Vec<u32>), String> {
        let (mut apart, mut library) = (self.counts.clone(), self.counts.clone());
        let row = post_trial(self.first, self.frames, self.numbers, &self.seeds, &mut apart);
        let found = ffi::trial(self.first, self.frames, self.numbers, &self.seeds, &mut library);
        if fault && row == 0 && self.frames > 1_000 {
            library[47] ^= 1;
        }
        let told = || format!("{:?}, {} frames, link {:?}, seeds {:?}", self.first, self.frames, self.numbers, self.seeds);
        if row != found {
            return Err(format!("{}: answer: apart {row}, library {found}", told()));
        }
        match (0..apart.len()).find(|k| apart[*k] != library[*k]) {
            Some(k) => Err(format!("{}: counts[{k}]: apart {}, library {}", told(), apart[k], library[k])),
            None => Ok((row, apart)),
        }
    }
}

/// Counts of sixteen listeners with seeds 0 to 15, 3,000 frames, a squelch of 50 and a link of 655 and 655.
const KNOWN: [[u32; 3]; 16] = [
    [1_452, 724, 824],
    [1_339, 563, 1_098],
    [1_526, 569, 905],
    [1_494, 670, 836],
    [1_597, 456, 947],
    [1_733, 464, 803],
    [1_677, 495, 828],
    [1_492, 605, 903],
    [1_849, 598, 553],
    [1_989, 409, 602],
    [1_620, 482, 898],
    [1_490, 600, 910],
    [1_190, 667, 1_143],
    [766, 643, 1_591],
    [1_698, 708, 594],
    [1_282, 519, 1_199],
];

fn known() -> Result<(), String> {
    let seeds: Vec<i32> = (0..16).collect();
    let counts = Trial::new([8, 2, 0, 50], 3_000, [655; 2], seeds.clone()).both(false)?.1;
    let expected: Vec<u32> = (0..COUNTS).map(|k| KNOWN[k % 16][k / 16]).collect();
    if counts != expected {
        return Err("the counts of 3,000 frames are others".into());
    }
    for (squelch, frames, numbers, row) in [
        (0, 100, [65_535, 0], [1, 99, 0]),
        (1, 100, [65_535, 0], [1, 0, 99]),
        (5, 100, [65_535, 0], [1, 4, 95]),
        (5, 100, [0, 65_535], [100, 0, 0]),
        (10_000, 20_001, [65_535, 0], [1, 9_999, 10_001]),
        (3, 10, [40_000, 20_000], [3, 5, 2]),
        // Draw 8,400 of seed 0 is the first with the top 16 bits 65,535: no state is left after that frame.
        (50, 8_400, [65_535; 2], [4_200, 4_200, 0]),
        (50, 8_401, [65_535; 2], [4_200, 4_201, 0]),
        (50, 8_402, [65_535; 2], [4_201, 4_201, 0]),
    ] {
        let counts = Trial::new([16, 4, 7, squelch], frames, numbers, seeds.clone()).both(false)?.1;
        if [counts[0], counts[16], counts[32]] != row {
            return Err(format!("squelch {squelch}, {frames} frames, link {numbers:?}: listener 0 is to have {row:?}"));
        }
    }
    for (first, frames, row) in [
        ([9, 3, 0, -1], u32::MAX, 1),
        ([8, 3, 0, -1], u32::MAX, 2),
        ([8, 2, 0, -1], LONGEST + 1, 12),
        ([8, 2, 0, 10_001], 10, 14),
        ([8, 2, 0, -1], 10, 14),
    ] {
        let found = Trial::new(first, frames, [1; 2], seeds.clone()).both(false)?.0;
        if found != row {
            return Err(format!("{first:?}, {frames} frames: answered by {found}, not {row}"));
        }
    }
    Ok(())
}

/// A drawn trial, its slices lent as they may be.
fn drawn(draw: &mut Draw) -> Trial {
    let number = |draw: &mut Draw| if draw.one_in(4) { draw.pick(&[0, 1, 65_534, 65_535]) } else { draw.range(0, 65_535) as u16 };
    let (rate, subframes) = draw.pick(&SHAPES);
    let squelch = if draw.one_in(4) { draw.pick(&[0, 1, 2, 9_999, 10_000, 10_001, -1]) } else { draw.range(0, 200) as i32 };
    let frames = if draw.one_in(16) { draw.pick(&[LONGEST + 1, u32::MAX]) } else { draw.range(0, 3_000) as u32 };
    let numbers = [number(draw), number(draw)];
    let seeds = (0..LISTENERS).map(|_| draw.any()).collect();
    let mut trial = Trial::new([rate, subframes, draw.any(), squelch], frames, numbers, seeds);
    if draw.one_in(16) {
        trial.first[0] = draw.pick(&[0, 8, 9, 12, 16, 24, -8]);
        trial.first[1] = draw.pick(&[0, 1, 2, 3, 4, 5]);
    }
    lend(draw, &mut trial.seeds);
    lend(draw, &mut trial.counts);
    trial
}

impl Options {
    /// The hand-made cases, drawn trials, and trials whose frames are played.
    pub fn trials(&self) -> bool {
        let fault = self.fault.as_deref() == Some("trial");
        let compared = || -> Result<(), String> {
            known()?;
            println!("trial: the hand-made cases are equal");
            let mut answers = BTreeMap::new();
            for case in self.from..self.from + self.count {
                let trial = drawn(&mut Draw::new(self.seed, 105, case));
                let row = trial.both(fault).map_err(|why| format!("case {case} of seed {}: {why}", self.seed))?.0;
                *answers.entry(row).or_insert(0) += 1;
            }
            println!("trial: {} drawn trials equal; {}", self.count, told(&answers));
            let mut frames = 0;
            for case in self.from..self.from + self.count.div_ceil(100) {
                let draw = &mut Draw::new(self.seed, 106, case);
                frames += self.trial_played(draw).map_err(|why| format!("trial {case} of seed {}: {why}", self.seed))?;
            }
            let (seeds, mut counts) = ([0; LISTENERS], [0; COUNTS]);
            let stack = stack_of(|| _ = ffi::trial([16, 4, 0, 50], 1_000, [655; 2], &seeds, &mut counts));
            println!("trial: a call takes up to {stack} bytes of stack");
            println!("trial: {frames} frames of drawn trials played, each heard as it is counted");
            Ok(())
        };
        let compared = compared();
        if let Err(why) = &compared {
            println!("trial: {why}");
        }
        compared.is_ok()
    }

    /// Plays a short trial of one listener by both, from set-up with its squelch, and counts what was played: a lost frame is squelched if the state
    /// counts at least as many losses as the squelch, and then every sample is 0.
    fn trial_played(&self, draw: &mut Draw) -> Result<u64, String> {
        let (rate, subframes) = draw.pick(&SHAPES);
        let (squelch, frames) = (draw.range(0, 12) as i32, draw.range(1, 100) as u32);
        let numbers = [draw.range(0, 30_000) as u16, draw.range(0, 30_000) as u16];
        let seeds: Vec<i32> = (0..LISTENERS).map(|_| draw.any()).collect();
        let (row, expected) = Trial::new([rate, subframes, draw.any(), squelch], frames, numbers, seeds.clone()).both(false)?;
        assert_eq!(row, 0);
        let mut draft = Draft::plain(What::Received, rate, subframes);
        draft.settings = Settings { squelch, edition: NEWER };
        let (mut call, mut counts) = (draft.call(), [0; 3]);
        let (mut link, mut load) = (Link::new(seeds[0], numbers), Generator(draw.any::<i32>() as u32));
        for _ in 0..frames {
            let drawn = load.frame([rate, subframes]);
            let received = link.received();
            (call.frame, call.coefs, call.pulses) = (drawn.frame.to_vec(), drawn.coefs.to_vec(), drawn.pulses.to_vec());
            call.frame[frame::RECEIVED] = i32::from(received);
            call.what = if received { What::Received } else { What::Lost };
            let (row, after) = self.both(&call)?;
            if row != 0 {
                return Err(format!("a frame is refused by {row}"));
            }
            let silent = !received && squelch > 0 && after.words[words::LOSS_CNT] >= squelch;
            if silent && after.output[..(5 * rate * subframes) as usize].iter().any(|sample| *sample != 0) {
                return Err("a squelched frame is heard".into());
            }
            counts[if received { 0 } else { 1 + usize::from(silent) }] += 1;
            call = after;
        }
        let found = [expected[0], expected[16], expected[32]];
        if counts != found {
            return Err(format!("played {counts:?}, counted {found:?}"));
        }
        Ok(u64::from(frames))
    }
}
