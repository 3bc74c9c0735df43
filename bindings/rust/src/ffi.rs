//! The linked functions, on slices. Slices that Rust lends to one call never overlap where one of them is written.

/// The state's numbers of 32 bits.
pub const WORDS: usize = 698;
/// The state's numbers of 16 bits.
pub const HALVES: usize = 535;
/// A frame's numbers of 32 bits.
pub const FRAME: usize = 16;
/// A frame's numbers of 16 bits, its pulses aside.
pub const COEFS: usize = 68;
/// The stability test's answer: its number and its value.
pub const ANSWER: usize = 2;
/// The value of an entry of the cosine table, or the rising check's answer.
pub const VALUE: usize = 1;
/// The bytes of a sentence.
pub const TEXT: usize = 64;
/// The bytes of a recording's record.
pub const RECORD: usize = 1_024;
/// The records of the longest recording.
pub const RECORDS: usize = 60;
/// What is told of a recording: rate, subframes, count of frames, and the frames' records.
pub const HEAD: usize = 62;
/// A recorded frame's pulses, which are the samples of the longest frame.
pub const PULSES: usize = 320;

/// The listeners of a trial.
pub const LISTENERS: usize = 16;
/// A trial's counts: each listener's received frames, then the concealed ones, then the squelched ones.
pub const COUNTS: usize = 48;

/// Where some of the state's numbers stand in its slice of [`WORDS`].
pub mod words {
    /// The rate that the state holds, in kHz.
    pub const RATE: usize = 338;
    /// The count of subframes that it holds.
    pub const SUBFRAMES: usize = 339;
    /// The losses since the last received frame.
    pub const LOSS_CNT: usize = 345;
    /// The later of concealment's two gains.
    pub const LATER_GAIN: usize = 353;
    /// The squelch that the state was set up with.
    pub const SQUELCH: usize = 696;
    /// The edition that it was set up with.
    pub const EDITION: usize = 697;
}

/// Where a frame's numbers stand in its slice of [`FRAME`].
pub mod frame {
    /// 0 lost, any other received.
    pub const RECEIVED: usize = 0;
    /// The coming rate in kHz. The stages do not read it.
    pub const RATE: usize = 1;
    /// The coming count of subframes. The stages do not read it.
    pub const SUBFRAMES: usize = 2;
    /// The signal type.
    pub const SIGNAL: usize = 3;
    /// The offset type.
    pub const OFFSET: usize = 4;
    /// The interpolation of the lines.
    pub const INTERPOLATION: usize = 5;
    /// The generator's seed.
    pub const SEED: usize = 6;
    /// Four lags.
    pub const LAGS: usize = 7;
    /// Four gains.
    pub const GAINS: usize = 11;
    /// The long-term scale.
    pub const SCALE: usize = 15;
}

/// Where a frame's numbers stand in its slice of [`COEFS`].
pub mod coefs {
    /// Five long-term taps for each of four subframes.
    pub const TAPS: usize = 0;
    /// Two rows of 16 coefficients.
    pub const ROWS: usize = 20;
    /// 16 line frequencies.
    pub const LINES: usize = 52;
}

unsafe extern "C" {
    fn post_set_up(rate: i32, subframes: i32, words: *mut i32, words_len: usize, halves: *mut i16, halves_len: usize) -> i32;
    fn post_set_up_with(
        rate: i32, subframes: i32, squelch: i32, edition: i32, words: *mut i32, words_len: usize, halves: *mut i16, halves_len: usize,
    ) -> i32;
    fn post_frame(
        words: *mut i32, words_len: usize, halves: *mut i16, halves_len: usize, frame: *mut i32, frame_len: usize,
        coefs: *mut i16, coefs_len: usize, pulses: *const i16, pulses_len: usize, output: *mut i16, output_len: usize,
    ) -> i32;
    fn post_played(rate: i32, subframes: i32, output: *const i16, output_len: usize) -> i32;
    fn post_core(
        words: *mut i32, words_len: usize, halves: *mut i16, halves_len: usize, frame: *mut i32, frame_len: usize,
        coefs: *mut i16, coefs_len: usize, pulses: *const i16, pulses_len: usize, output: *mut i16, output_len: usize,
    ) -> i32;
    fn post_plc_received(
        words: *mut i32, words_len: usize, halves: *mut i16, halves_len: usize, frame: *const i32, frame_len: usize,
        coefs: *const i16, coefs_len: usize,
    ) -> i32;
    fn post_plc_lost(
        words: *mut i32, words_len: usize, halves: *mut i16, halves_len: usize, frame: *mut i32, frame_len: usize,
        output: *mut i16, output_len: usize,
    ) -> i32;
    fn post_glue(words: *mut i32, words_len: usize, halves: *mut i16, halves_len: usize, buffer: *mut i16, buffer_len: usize, length: usize) -> i32;
    fn post_noise(
        words: *mut i32, words_len: usize, halves: *mut i16, halves_len: usize, frame: *const i32, frame_len: usize,
        buffer: *mut i16, buffer_len: usize, length: usize,
    ) -> i32;
}

#[cfg(feature = "filters")]
unsafe extern "C" {
    fn post_stability(
        coefficients: *const i16, coefficients_len: usize, order: usize, edition: i32, answer: *mut i32, answer_len: usize,
    ) -> i32;
    fn post_sentence(
        coefficients: *const i16, coefficients_len: usize, order: usize, edition: i32, text: *mut u8, text_len: usize,
    ) -> i32;
    fn post_filter(
        coefficients: *mut i16, coefficients_len: usize, lines: *const i16, lines_len: usize, order: usize, edition: i32,
    ) -> i32;
    fn post_cosine(place: usize, value: *mut i32, value_len: usize) -> i32;
    fn post_rising(lines: *const i16, lines_len: usize, order: usize, answer: *mut i32, answer_len: usize) -> i32;
}

#[cfg(feature = "recording")]
unsafe extern "C" {
    fn post_recording_read(bytes: *const u8, bytes_len: usize, head: *mut i32, head_len: usize) -> i32;
    fn post_recording_frame(
        bytes: *const u8, bytes_len: usize, number: u32, frame: *mut i32, frame_len: usize, coefs: *mut i16, coefs_len: usize,
        pulses: *mut i16, pulses_len: usize,
    ) -> i32;
    fn post_recording_begin(bytes: *mut u8, bytes_len: usize, rate: i32, subframes: i32) -> i32;
    fn post_recording_append(
        bytes: *mut u8, bytes_len: usize, frames: u32, frame: *const i32, frame_len: usize, coefs: *const i16, coefs_len: usize,
        pulses: *const i16, pulses_len: usize,
    ) -> i32;
    fn post_single_loss(bytes: *const u8, bytes_len: usize, limit: i32, number: *mut i32, number_len: usize) -> i32;
    fn post_recording_play(
        bytes: *const u8, bytes_len: usize, output: *mut i16, output_len: usize, played: *mut i32, played_len: usize,
    ) -> i32;
}

#[cfg(feature = "load")]
unsafe extern "C" {
    fn post_load_frame(
        rate: i32, subframes: i32, seed: i32, number: u32, frame: *mut i32, frame_len: usize, coefs: *mut i16, coefs_len: usize,
        pulses: *mut i16, pulses_len: usize,
    ) -> i32;
    fn post_load_leap(seed: i32, draws: u64) -> i32;
    fn post_load_undoing(draws: u64) -> u64;
    fn post_trial(
        rate: i32, subframes: i32, seed: i32, squelch: i32, frames: u32, leave_good: u16, leave_bad: u16, seeds: *const i32,
        seeds_len: usize, counts: *mut u32, counts_len: usize,
    ) -> i32;
}

/// `post_set_up`.
pub fn set_up(rate: i32, subframes: i32, words: &mut [i32], halves: &mut [i16]) -> i32 {
    // SAFETY: each pointer is lent with its own slice's length, for the call alone.
    unsafe { post_set_up(rate, subframes, words.as_mut_ptr(), words.len(), halves.as_mut_ptr(), halves.len()) }
}

/// `post_set_up_with`.
pub fn set_up_with(rate: i32, subframes: i32, squelch: i32, edition: i32, words: &mut [i32], halves: &mut [i16]) -> i32 {
    // SAFETY: each pointer is lent with its own slice's length, for the call alone.
    unsafe { post_set_up_with(rate, subframes, squelch, edition, words.as_mut_ptr(), words.len(), halves.as_mut_ptr(), halves.len()) }
}

/// `post_frame`.
pub fn frame(words: &mut [i32], halves: &mut [i16], frame: &mut [i32], coefs: &mut [i16], pulses: &[i16], output: &mut [i16]) -> i32 {
    // SAFETY: each pointer is lent with its own slice's length, for the call alone.
    unsafe {
        post_frame(
            words.as_mut_ptr(), words.len(), halves.as_mut_ptr(), halves.len(), frame.as_mut_ptr(), frame.len(),
            coefs.as_mut_ptr(), coefs.len(), pulses.as_ptr(), pulses.len(), output.as_mut_ptr(), output.len(),
        )
    }
}

/// `post_core`.
pub fn core(words: &mut [i32], halves: &mut [i16], frame: &mut [i32], coefs: &mut [i16], pulses: &[i16], output: &mut [i16]) -> i32 {
    // SAFETY: each pointer is lent with its own slice's length, for the call alone.
    unsafe {
        post_core(
            words.as_mut_ptr(), words.len(), halves.as_mut_ptr(), halves.len(), frame.as_mut_ptr(), frame.len(),
            coefs.as_mut_ptr(), coefs.len(), pulses.as_ptr(), pulses.len(), output.as_mut_ptr(), output.len(),
        )
    }
}

/// `post_plc_received`.
pub fn plc_received(words: &mut [i32], halves: &mut [i16], frame: &[i32], coefs: &[i16]) -> i32 {
    // SAFETY: each pointer is lent with its own slice's length, for the call alone.
    unsafe {
        post_plc_received(
            words.as_mut_ptr(), words.len(), halves.as_mut_ptr(), halves.len(), frame.as_ptr(), frame.len(), coefs.as_ptr(), coefs.len(),
        )
    }
}

/// `post_plc_lost`.
pub fn plc_lost(words: &mut [i32], halves: &mut [i16], frame: &mut [i32], output: &mut [i16]) -> i32 {
    // SAFETY: each pointer is lent with its own slice's length, for the call alone.
    unsafe {
        post_plc_lost(
            words.as_mut_ptr(), words.len(), halves.as_mut_ptr(), halves.len(), frame.as_mut_ptr(), frame.len(),
            output.as_mut_ptr(), output.len(),
        )
    }
}

/// `post_glue`.
pub fn glue(words: &mut [i32], halves: &mut [i16], buffer: &mut [i16], length: usize) -> i32 {
    // SAFETY: each pointer is lent with its own slice's length, for the call alone.
    unsafe { post_glue(words.as_mut_ptr(), words.len(), halves.as_mut_ptr(), halves.len(), buffer.as_mut_ptr(), buffer.len(), length) }
}

/// `post_noise`.
pub fn noise(words: &mut [i32], halves: &mut [i16], frame: &[i32], buffer: &mut [i16], length: usize) -> i32 {
    // SAFETY: each pointer is lent with its own slice's length, for the call alone.
    unsafe {
        post_noise(
            words.as_mut_ptr(), words.len(), halves.as_mut_ptr(), halves.len(), frame.as_ptr(), frame.len(),
            buffer.as_mut_ptr(), buffer.len(), length,
        )
    }
}

/// `post_played`.
pub fn played(rate: i32, subframes: i32, output: &[i16]) -> i32 {
    // SAFETY: each pointer is lent with its own slice's length, for the call alone.
    unsafe { post_played(rate, subframes, output.as_ptr(), output.len()) }
}

/// `post_stability`.
#[cfg(feature = "filters")]
pub fn stability(coefficients: &[i16], order: usize, edition: i32, answer: &mut [i32]) -> i32 {
    // SAFETY: each pointer is lent with its own slice's length, for the call alone.
    unsafe { post_stability(coefficients.as_ptr(), coefficients.len(), order, edition, answer.as_mut_ptr(), answer.len()) }
}

/// `post_sentence`.
#[cfg(feature = "filters")]
pub fn sentence(coefficients: &[i16], order: usize, edition: i32, text: &mut [u8]) -> i32 {
    // SAFETY: each pointer is lent with its own slice's length, for the call alone.
    unsafe { post_sentence(coefficients.as_ptr(), coefficients.len(), order, edition, text.as_mut_ptr(), text.len()) }
}

/// `post_filter`.
#[cfg(feature = "filters")]
pub fn filter(coefficients: &mut [i16], lines: &[i16], order: usize, edition: i32) -> i32 {
    // SAFETY: each pointer is lent with its own slice's length, for the call alone.
    unsafe { post_filter(coefficients.as_mut_ptr(), coefficients.len(), lines.as_ptr(), lines.len(), order, edition) }
}

/// `post_cosine`.
#[cfg(feature = "filters")]
pub fn cosine(place: usize, value: &mut [i32]) -> i32 {
    // SAFETY: the pointer is lent with its own slice's length, for the call alone.
    unsafe { post_cosine(place, value.as_mut_ptr(), value.len()) }
}

/// `post_rising`.
#[cfg(feature = "filters")]
pub fn rising(lines: &[i16], order: usize, answer: &mut [i32]) -> i32 {
    // SAFETY: each pointer is lent with its own slice's length, for the call alone.
    unsafe { post_rising(lines.as_ptr(), lines.len(), order, answer.as_mut_ptr(), answer.len()) }
}

/// `post_recording_read`.
#[cfg(feature = "recording")]
pub fn recording_read(bytes: &[u8], head: &mut [i32]) -> i32 {
    // SAFETY: each pointer is lent with its own slice's length, for the call alone.
    unsafe { post_recording_read(bytes.as_ptr(), bytes.len(), head.as_mut_ptr(), head.len()) }
}

/// `post_recording_frame`.
#[cfg(feature = "recording")]
pub fn recording_frame(bytes: &[u8], number: u32, frame: &mut [i32], coefs: &mut [i16], pulses: &mut [i16]) -> i32 {
    // SAFETY: each pointer is lent with its own slice's length, for the call alone.
    unsafe {
        post_recording_frame(
            bytes.as_ptr(), bytes.len(), number, frame.as_mut_ptr(), frame.len(), coefs.as_mut_ptr(), coefs.len(),
            pulses.as_mut_ptr(), pulses.len(),
        )
    }
}

/// `post_recording_begin`.
#[cfg(feature = "recording")]
pub fn recording_begin(bytes: &mut [u8], rate: i32, subframes: i32) -> i32 {
    // SAFETY: the pointer is lent with its own slice's length, for the call alone.
    unsafe { post_recording_begin(bytes.as_mut_ptr(), bytes.len(), rate, subframes) }
}

/// `post_recording_append`.
#[cfg(feature = "recording")]
pub fn recording_append(bytes: &mut [u8], frames: u32, frame: &[i32], coefs: &[i16], pulses: &[i16]) -> i32 {
    // SAFETY: each pointer is lent with its own slice's length, for the call alone.
    unsafe {
        post_recording_append(
            bytes.as_mut_ptr(), bytes.len(), frames, frame.as_ptr(), frame.len(), coefs.as_ptr(), coefs.len(), pulses.as_ptr(), pulses.len(),
        )
    }
}

/// `post_recording_play`.
#[cfg(feature = "recording")]
pub fn recording_play(bytes: &[u8], output: &mut [i16], played: &mut [i32]) -> i32 {
    // SAFETY: each pointer is lent with its own slice's length, for the call alone.
    unsafe {
        post_recording_play(bytes.as_ptr(), bytes.len(), output.as_mut_ptr(), output.len(), played.as_mut_ptr(), played.len())
    }
}

/// `post_load_frame`.
#[cfg(feature = "load")]
pub fn load_frame(rate: i32, subframes: i32, seed: i32, number: u32, frame: &mut [i32], coefs: &mut [i16], pulses: &mut [i16]) -> i32 {
    // SAFETY: each pointer is lent with its own slice's length, for the call alone.
    unsafe {
        post_load_frame(
            rate, subframes, seed, number, frame.as_mut_ptr(), frame.len(), coefs.as_mut_ptr(), coefs.len(),
            pulses.as_mut_ptr(), pulses.len(),
        )
    }
}

/// `post_load_leap`.
#[cfg(feature = "load")]
pub fn load_leap(seed: i32, draws: u64) -> i32 {
    // SAFETY: no pointer is lent.
    unsafe { post_load_leap(seed, draws) }
}

/// `post_load_undoing`.
#[cfg(feature = "load")]
pub fn load_undoing(draws: u64) -> u64 {
    // SAFETY: no pointer is lent.
    unsafe { post_load_undoing(draws) }
}

/// `post_trial`.
#[cfg(feature = "load")]
#[allow(clippy::too_many_arguments)]
pub fn trial(
    rate: i32, subframes: i32, seed: i32, squelch: i32, frames: u32, leave_good: u16, leave_bad: u16, seeds: &[i32], counts: &mut [u32],
) -> i32 {
    // SAFETY: each pointer is lent with its own slice's length, for the call alone.
    unsafe {
        post_trial(
            rate, subframes, seed, squelch, frames, leave_good, leave_bad, seeds.as_ptr(), seeds.len(), counts.as_mut_ptr(), counts.len(),
        )
    }
}

/// `post_single_loss`.
#[cfg(feature = "recording")]
pub fn single_loss(bytes: &[u8], limit: i32, number: &mut [i32]) -> i32 {
    // SAFETY: each pointer is lent with its own slice's length, for the call alone.
    unsafe { post_single_loss(bytes.as_ptr(), bytes.len(), limit, number.as_mut_ptr(), number.len()) }
}
