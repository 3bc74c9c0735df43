//! The yard post's SILK back end: parameters of a frame in, samples out.
//!
//! [`Post`] owns a decoder's state. A frame is played by [`Post::received`] or [`Post::lost`]; one that the
//! back end turns down leaves the state, the description and the output as they were. A call takes up to 22,944
//! bytes of stack, [`Recording::play`] up to 69,536 and [`Recording::single_loss`] up to 85,824. The library, which `tools/staticlib post` builds or
//! POST_LIBRARY names, is for x86-64 Linux alone. Features, which are on unless they are turned off, have archives of their own: `filters`, which
//! `tools/staticlib post_filters` builds, has [`stability`], [`sentence`], [`filter`], [`cosine`] and [`is_rising`]; `recording`, by
//! `tools/staticlib post_recording`, has [`Recording`] and [`Writer`]; `load`, by `tools/staticlib post_load`, has [`Load`] with its trial,
//! [`leap`] and [`undoing`].
//!
//! ```
//! use post::{Description, Params, Post, Shape};
//!
//! let shape = Shape { rate: 16, subframes: 4 };
//! let mut post = Post::set_up(shape)?;
//! let mut output = [0i16; 320];
//! let mut description = Description { gains_q16: [81_920; 4], ..Description::default() };
//! let pulses = [0i16; 320];
//! post.received(shape, Params::default(), &mut description, &pulses, &mut output)?;
//! post.lost(shape, &mut description, &mut output)?;
//! # Ok::<(), post::Refusal>(())
//! ```

#![no_std]
#![warn(missing_docs)]
#![deny(unsafe_code)]

#[allow(unsafe_code)]
#[rustfmt::skip]
pub mod ffi;

#[cfg(feature = "filters")]
mod filters;
#[cfg(feature = "load")]
mod load;
#[cfg(feature = "recording")]
mod recording;

#[cfg(feature = "filters")]
pub use filters::{Sentence, Stability, cosine, filter, is_rising, sentence, stability};
#[cfg(feature = "load")]
pub use load::{Drawn, Heard, Link, Load, leap, undoing};
#[cfg(feature = "recording")]
pub use recording::{Recording, Writer};

use core::fmt;

/// Why a call was turned down, r being the rate in kHz and n the count of subframes: of a whole frame its own, else those that the post holds.
#[derive(Clone, Copy, PartialEq, Eq, Debug)]
#[repr(i32)]
pub enum Refusal {
    /// A rate, the frame's or the state's, is not 8, 12 or 16 kHz.
    Rate = 1,
    /// A count of subframes, the frame's or the state's, is not 2 or 4, or a length or order in the state disagrees with its shape.
    Size = 2,
    /// A state field is outside its range. For a whole frame the state is judged as the frame's shape leaves it.
    History = 3,
    /// The frame is lost and the count of losses is 2,147,483,647.
    RunFull = 4,
    /// The signal type is not 0 to 2, the offset type not 0 or 1, or the interpolation not 0 to 4.
    Signal = 5,
    /// A gain is not in 81,920 to 1,686,110,208 (Q16).
    Gain = 6,
    /// The frame is voiced and a lag is not in 2r to 18r.
    Lag = 7,
    /// The long-term scale is not in 0 to 16,384, or the frame is voiced and a subframe's taps add up to more than 16 bits hold.
    Taps = 8,
    /// A line frequency is negative.
    Line = 9,
    /// Fewer than 5rn pulses were lent.
    Pulses = 10,
    /// Fewer than 5rn output samples were lent.
    Speaker = 11,
    /// Gluing or noise alone: the length is 0, above 320 or above the buffer. A load: the frame's number is above 2,147,483,646. A trial: more than
    /// 2,147,483,647 frames.
    Length = 12,
    /// Stability test or filter from lines: the order is none, or a slice is shorter than it.
    Order = 13,
    /// Set-up: the squelch is not in 0 to 10,000.
    Squelch = 14,
    /// The place of a cosine is above 128; or the rising check's order is not 10 or 16, or its slice is shorter.
    Place = 17,
    /// A recording: a next number is past the end or met before, or there is no frame of the number.
    Chain = 20,
    /// A recording: its length is not that of 1 to 60 records, or would not be; a slice is too short; record 0 has no mark; or a kind or the
    /// zeros of a record are wrong.
    Record = 21,
    /// Set-up, stability test or filter from lines: the edition is neither 6716 nor 8251. No [`Edition`] gives it.
    Edition = 22,
    /// A single loss: the limit is not in 1 to 32,767, or the call as recorded already has a sample beyond it.
    Limit = 23,
}

impl Refusal {
    /// Every refusal, in the order of their numbers.
    pub const ALL: [Refusal; 19] = [
        Refusal::Rate,
        Refusal::Size,
        Refusal::History,
        Refusal::RunFull,
        Refusal::Signal,
        Refusal::Gain,
        Refusal::Lag,
        Refusal::Taps,
        Refusal::Line,
        Refusal::Pulses,
        Refusal::Speaker,
        Refusal::Length,
        Refusal::Order,
        Refusal::Squelch,
        Refusal::Place,
        Refusal::Chain,
        Refusal::Record,
        Refusal::Edition,
        Refusal::Limit,
    ];

    /// The refusal that has a number, if one has.
    pub fn of(number: i32) -> Option<Refusal> {
        Refusal::ALL.into_iter().find(|why| why.number() == number)
    }

    /// The number that the library answers.
    pub fn number(self) -> i32 {
        self as i32
    }

    /// What was turned down, in a word or two.
    pub fn word(self) -> &'static str {
        match self {
            Refusal::Rate => "rate",
            Refusal::Size => "size",
            Refusal::History => "history",
            Refusal::RunFull => "run full",
            Refusal::Signal => "signal",
            Refusal::Gain => "gain",
            Refusal::Lag => "lag",
            Refusal::Taps => "taps",
            Refusal::Line => "line",
            Refusal::Pulses => "pulses",
            Refusal::Speaker => "speaker",
            Refusal::Length => "length",
            Refusal::Order => "order",
            Refusal::Squelch => "squelch",
            Refusal::Place => "place",
            Refusal::Chain => "chain",
            Refusal::Record => "record",
            Refusal::Edition => "edition",
            Refusal::Limit => "limit",
        }
    }
}

impl fmt::Display for Refusal {
    fn fmt(&self, f: &mut fmt::Formatter) -> fmt::Result {
        write!(f, "{} ({})", self.word(), self.number())
    }
}

impl core::error::Error for Refusal {}

/// An answer of the library. Its slices always have their sizes here, so -1 cannot come.
fn answered(number: i32) -> Result<(), Refusal> {
    if number == 0 {
        return Ok(());
    }
    Err(Refusal::of(number).unwrap_or_else(|| panic!("the library answers {number}")))
}

/// A rate and a count of subframes.
#[derive(Clone, Copy, PartialEq, Eq, Debug)]
pub struct Shape {
    /// 8, 12 or 16 kHz.
    pub rate: i32,
    /// 2 or 4.
    pub subframes: i32,
}

/// An edition of the standard, by the number of its RFC. They differ in the stability test alone: in a step of it that leaves 32 bits.
#[derive(Clone, Copy, Default, PartialEq, Eq, Debug)]
#[repr(i32)]
pub enum Edition {
    /// RFC 6716 as first published: the step keeps the low 32 bits, and the test goes on.
    Rfc6716 = 6716,
    /// RFC 6716 with RFC 8251: the filter is unstable.
    #[default]
    Rfc8251 = 8251,
}

impl Edition {
    /// The number that the library takes.
    pub fn number(self) -> i32 {
        self as i32
    }
}

/// What a post is set up with beside its shape. No frame changes it. The default is a squelch of 50 and the newer edition.
#[derive(Clone, Copy, PartialEq, Eq, Debug)]
pub struct Settings {
    /// 0 to 10,000. From the loss on that makes the count of losses this many, a lost frame plays zeros, while the state and the description
    /// change as without it; 0 means never. Only [`Post::lost`] goes by it: the stages alone play what they play.
    pub squelch: i32,
    /// The edition by which concealment and comfort noise test their filters. Under the older one the noise of lines in no order may be loud
    /// and stay so, which concealment never does.
    pub edition: Edition,
}

impl Default for Settings {
    fn default() -> Settings {
        Settings { squelch: 50, edition: Edition::default() }
    }
}

/// The small numbers of a received frame.
#[derive(Clone, Copy, Default, PartialEq, Eq, Debug)]
pub struct Params {
    /// 0 no voice activity, 1 unvoiced, 2 voiced.
    pub signal_type: i8,
    /// 0 or 1.
    pub quant_offset_type: i8,
    /// 0 to 4; below 4 the first half of the frame has a filter of its own.
    pub nlsf_interp_coef_q2: i8,
    /// Where the excitation's generator starts.
    pub seed: i8,
}

/// A frame's description. The back end may change lags and taps.
#[derive(Clone, Default, PartialEq, Eq, Debug)]
pub struct Description {
    /// The lag of each subframe, in samples.
    pub pitch_l: [i32; 4],
    /// The gain of each subframe.
    pub gains_q16: [i32; 4],
    /// The scale of the long-term state in the frame's first subframe.
    pub ltp_scale_q14: i32,
    /// Five long-term taps for each subframe.
    pub ltp_coef_q14: [i16; 20],
    /// The two coefficient rows of a received frame. Subframes 0 and 1 are played with the first, 2 and 3 with the second; concealment
    /// keeps the second of every frame, so that both are to be filled with 2 subframes too.
    pub pred_coef_q12: [[i16; 16]; 2],
    /// The line frequencies of a received frame.
    pub nlsf_q15: [i16; 16],
}

/// A frame with all of its numbers, as a recording keeps it or a load draws it.
#[derive(Clone, PartialEq, Eq, Debug)]
pub struct Frame {
    /// Its small numbers.
    pub params: Params,
    /// Its description.
    pub description: Description,
    /// Its pulses; those past 5rn are not played.
    pub pulses: [i16; ffi::PULSES],
}

/// A frame in numbers, as the library takes it.
struct Numbers {
    frame: [i32; ffi::FRAME],
    coefs: [i16; ffi::COEFS],
}

impl Numbers {
    /// A received frame, or a lost one where there are no small numbers.
    fn of(shape: Shape, params: Option<Params>, description: &Description) -> Numbers {
        let (mut frame, mut coefs) = ([0; ffi::FRAME], [0; ffi::COEFS]);
        frame[ffi::frame::RECEIVED] = params.is_some().into();
        frame[ffi::frame::RATE] = shape.rate;
        frame[ffi::frame::SUBFRAMES] = shape.subframes;
        let small = params.unwrap_or_default();
        frame[ffi::frame::SIGNAL] = small.signal_type.into();
        frame[ffi::frame::OFFSET] = small.quant_offset_type.into();
        frame[ffi::frame::INTERPOLATION] = small.nlsf_interp_coef_q2.into();
        frame[ffi::frame::SEED] = small.seed.into();
        frame[ffi::frame::LAGS..ffi::frame::GAINS].copy_from_slice(&description.pitch_l);
        frame[ffi::frame::GAINS..ffi::frame::SCALE].copy_from_slice(&description.gains_q16);
        frame[ffi::frame::SCALE] = description.ltp_scale_q14;
        coefs[..ffi::coefs::ROWS].copy_from_slice(&description.ltp_coef_q14);
        coefs[ffi::coefs::ROWS..ffi::coefs::LINES].copy_from_slice(description.pred_coef_q12.as_flattened());
        coefs[ffi::coefs::LINES..].copy_from_slice(&description.nlsf_q15);
        Numbers { frame, coefs }
    }

    /// The frame that the library gives in numbers.
    #[cfg(any(feature = "recording", feature = "load"))]
    fn frame(&self, pulses: [i16; ffi::PULSES]) -> Frame {
        let [signal_type, quant_offset_type, nlsf_interp_coef_q2, seed] =
            [ffi::frame::SIGNAL, ffi::frame::OFFSET, ffi::frame::INTERPOLATION, ffi::frame::SEED].map(|place| self.frame[place] as i8);
        let mut description = Description { ltp_scale_q14: self.frame[ffi::frame::SCALE], ..Description::default() };
        self.left(&mut description);
        description.gains_q16.copy_from_slice(&self.frame[ffi::frame::GAINS..ffi::frame::SCALE]);
        description.pred_coef_q12.as_flattened_mut().copy_from_slice(&self.coefs[ffi::coefs::ROWS..ffi::coefs::LINES]);
        description.nlsf_q15.copy_from_slice(&self.coefs[ffi::coefs::LINES..]);
        Frame { params: Params { signal_type, quant_offset_type, nlsf_interp_coef_q2, seed }, description, pulses }
    }

    /// What a call may have written: the lags and the taps.
    fn left(&self, description: &mut Description) {
        description.pitch_l.copy_from_slice(&self.frame[ffi::frame::LAGS..ffi::frame::GAINS]);
        description.ltp_coef_q14.copy_from_slice(&self.coefs[..ffi::coefs::ROWS]);
    }
}

/// A decoder's state, in slices of its own.
#[derive(Clone, PartialEq, Eq, Debug)]
pub struct Post {
    words: [i32; ffi::WORDS],
    halves: [i16; ffi::HALVES],
}

impl Post {
    /// A post for a shape, with the default settings.
    pub fn set_up(shape: Shape) -> Result<Post, Refusal> {
        let mut post = Post { words: [0; ffi::WORDS], halves: [0; ffi::HALVES] };
        answered(ffi::set_up(shape.rate, shape.subframes, &mut post.words, &mut post.halves))?;
        Ok(post)
    }

    /// A post for a shape, with settings of its own.
    pub fn set_up_with(shape: Shape, settings: Settings) -> Result<Post, Refusal> {
        let mut post = Post { words: [0; ffi::WORDS], halves: [0; ffi::HALVES] };
        let Settings { squelch, edition } = settings;
        answered(ffi::set_up_with(shape.rate, shape.subframes, squelch, edition.number(), &mut post.words, &mut post.halves))?;
        Ok(post)
    }

    /// A post from numbers that [`Post::parts`] gave; a state that no post can have is refused at its first call.
    pub fn from_parts(words: [i32; ffi::WORDS], halves: [i16; ffi::HALVES]) -> Post {
        Post { words, halves }
    }

    /// The state's numbers, in the library's order.
    pub fn parts(&self) -> (&[i32; ffi::WORDS], &[i16; ffi::HALVES]) {
        (&self.words, &self.halves)
    }

    /// The shape that the post holds: that of the last frame that was played, or of its set-up. The stages alone go by it.
    pub fn shape(&self) -> Shape {
        Shape { rate: self.words[ffi::words::RATE], subframes: self.words[ffi::words::SUBFRAMES] }
    }

    /// Plays a received frame into the first samples of `output`. The frame brings its shape, which the post then holds: a new count of
    /// subframes keeps all history, a new rate forgets the signal before it.
    pub fn received(
        &mut self, shape: Shape, params: Params, description: &mut Description, pulses: &[i16], output: &mut [i16],
    ) -> Result<(), Refusal> {
        let mut numbers = Numbers::of(shape, Some(params), description);
        answered(ffi::frame(&mut self.words, &mut self.halves, &mut numbers.frame, &mut numbers.coefs, pulses, output))?;
        numbers.left(description);
        Ok(())
    }

    /// Conceals a lost frame, or plays zeros where it is squelched ([`Settings`]); the four lags of the description become the last one. It
    /// brings its shape as a received one does.
    pub fn lost(&mut self, shape: Shape, description: &mut Description, output: &mut [i16]) -> Result<(), Refusal> {
        let mut numbers = Numbers::of(shape, None, description);
        answered(ffi::frame(&mut self.words, &mut self.halves, &mut numbers.frame, &mut numbers.coefs, &[], output))?;
        numbers.left(description);
        Ok(())
    }

    /// The core of a received frame alone.
    pub fn core(&mut self, params: Params, description: &mut Description, pulses: &[i16], output: &mut [i16]) -> Result<(), Refusal> {
        let mut numbers = Numbers::of(self.shape(), Some(params), description);
        answered(ffi::core(&mut self.words, &mut self.halves, &mut numbers.frame, &mut numbers.coefs, pulses, output))?;
        numbers.left(description);
        Ok(())
    }

    /// What concealment keeps of a received frame, alone.
    pub fn plc_received(&mut self, params: Params, description: &Description) -> Result<(), Refusal> {
        let numbers = Numbers::of(self.shape(), Some(params), description);
        answered(ffi::plc_received(&mut self.words, &mut self.halves, &numbers.frame, &numbers.coefs))
    }

    /// Concealment of a lost frame alone.
    pub fn plc_lost(&mut self, description: &mut Description, output: &mut [i16]) -> Result<(), Refusal> {
        let mut numbers = Numbers::of(self.shape(), None, description);
        answered(ffi::plc_lost(&mut self.words, &mut self.halves, &mut numbers.frame, output))?;
        numbers.left(description);
        Ok(())
    }

    /// Gluing of the first `length` samples alone.
    pub fn glue(&mut self, buffer: &mut [i16], length: usize) -> Result<(), Refusal> {
        answered(ffi::glue(&mut self.words, &mut self.halves, buffer, length))
    }

    /// Comfort noise on the first `length` samples alone.
    pub fn noise(&mut self, description: &Description, buffer: &mut [i16], length: usize) -> Result<(), Refusal> {
        let numbers = Numbers::of(self.shape(), None, description);
        answered(ffi::noise(&mut self.words, &mut self.halves, &numbers.frame, buffer, length))
    }
}

/// The part of an output that a frame of this shape fills, empty for no shape or a short output.
pub fn played(shape: Shape, output: &mut [i16]) -> &mut [i16] {
    let count = ffi::played(shape.rate, shape.subframes, output);
    &mut output[..count as usize]
}
