//! A load: frames that anyone can draw again from a seed.

use super::{Frame, Numbers, Refusal, Shape, answered, ffi};

/// A load, whose frames are drawn from a seed. Each takes 402 draws, lost or not, so that any frame is drawn without those before it. A post
/// that is set up for the shape refuses none of the first 2,147,483,647.
///
/// ```
/// use post::{Load, Shape, leap, undoing};
///
/// let load = Load { shape: Shape { rate: 8, subframes: 2 }, seed: 0 };
/// let later = Load { seed: leap(load.seed, 402 * 1_000_000), ..load };
/// assert_eq!(load.frame(1_000_002)?, later.frame(2)?);
/// assert_eq!(leap(later.seed, undoing(402 * 1_000_000)), load.seed);
/// # Ok::<(), post::Refusal>(())
/// ```
#[derive(Clone, Copy, PartialEq, Eq, Debug)]
pub struct Load {
    /// The shape of all of its frames.
    pub shape: Shape,
    /// The generator's value before the first draw of frame 0.
    pub seed: i32,
}

/// A frame of a load.
#[derive(Clone, PartialEq, Eq, Debug)]
pub struct Drawn {
    /// It is lost: a post is not given its numbers, which are drawn none the less.
    pub lost: bool,
    /// Its numbers.
    pub frame: Frame,
}

impl Load {
    /// The draws of a frame.
    pub const DRAWS: u64 = 402;

    /// A frame by its number, from 0 on. Refused by 1, 2 and, above 2,147,483,646, by 12.
    pub fn frame(&self, number: u32) -> Result<Drawn, Refusal> {
        let mut numbers = Numbers { frame: [0; ffi::FRAME], coefs: [0; ffi::COEFS] };
        let (Shape { rate, subframes }, mut pulses) = (self.shape, [0; ffi::PULSES]);
        answered(ffi::load_frame(rate, subframes, self.seed, number, &mut numbers.frame, &mut numbers.coefs, &mut pulses))?;
        Ok(Drawn { lost: numbers.frame[ffi::frame::RECEIVED] == 0, frame: numbers.frame(pulses) })
    }
}

/// A two-state link, good at first. A frame is lost while it is bad. After each frame a state is left if the top 16 bits of the listener's
/// next draw are below its number.
#[derive(Clone, Copy, PartialEq, Eq, Debug)]
pub struct Link {
    /// The number of the good state.
    pub leave_good: u16,
    /// The number of the bad one.
    pub leave_bad: u16,
}

/// What became of the frames that a listener was sent; the three add up to all of them.
#[derive(Clone, Copy, PartialEq, Eq, Debug)]
pub struct Heard {
    /// The received ones.
    pub received: u32,
    /// The lost ones that a post conceals.
    pub concealed: u32,
    /// The lost ones that its squelch silences.
    pub squelched: u32,
}

impl Load {
    /// Sixteen listeners, each with a seed, follow the first frames of the load with its losses replaced by those of a link. No frame is decoded:
    /// 2,147,483,647 of them take minutes. Refused by 1, 2, 12 for more frames, 14.
    ///
    /// ```
    /// use post::{Heard, Link, Load, Shape};
    ///
    /// let load = Load { shape: Shape { rate: 8, subframes: 2 }, seed: 0 };
    /// let heard = load.trial(50, 3_000, Link { leave_good: 655, leave_bad: 655 }, &core::array::from_fn(|i| i as i32))?;
    /// assert_eq!(heard[0], Heard { received: 1_452, concealed: 724, squelched: 824 });
    /// # Ok::<(), post::Refusal>(())
    /// ```
    pub fn trial(&self, squelch: i32, frames: u32, link: Link, seeds: &[i32; ffi::LISTENERS]) -> Result<[Heard; ffi::LISTENERS], Refusal> {
        let (Shape { rate, subframes }, Link { leave_good, leave_bad }) = (self.shape, link);
        let mut counts = [0; ffi::COUNTS];
        answered(ffi::trial(rate, subframes, self.seed, squelch, frames, leave_good, leave_bad, seeds, &mut counts))?;
        Ok(core::array::from_fn(|i| Heard { received: counts[i], concealed: counts[16 + i], squelched: counts[32 + i] }))
    }
}

/// The generator's value after a count of draws.
pub fn leap(seed: i32, draws: u64) -> i32 {
    ffi::load_leap(seed, draws)
}

/// The count of draws after which the generator is again where it was before `draws` of them.
pub fn undoing(draws: u64) -> u64 {
    ffi::load_undoing(draws)
}
