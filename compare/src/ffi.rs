//! The library's functions, each slice a pointer and a length.

use crate::call::{Call, What};

#[rustfmt::skip]
unsafe extern "C" {
    fn post_set_up(rate: i32, subframes: i32, words: *mut i32, words_len: usize, halves: *mut i16, halves_len: usize) -> i32;
    fn post_set_up_with(rate: i32, subframes: i32, squelch: i32, edition: i32,
        words: *mut i32, words_len: usize, halves: *mut i16, halves_len: usize) -> i32;
    fn post_frame(words: *mut i32, words_len: usize, halves: *mut i16, halves_len: usize, frame: *mut i32, frame_len: usize,
        coefs: *mut i16, coefs_len: usize, pulses: *const i16, pulses_len: usize, output: *mut i16, output_len: usize) -> i32;
    fn post_core(words: *mut i32, words_len: usize, halves: *mut i16, halves_len: usize, frame: *mut i32, frame_len: usize,
        coefs: *mut i16, coefs_len: usize, pulses: *const i16, pulses_len: usize, output: *mut i16, output_len: usize) -> i32;
    fn post_plc_received(words: *mut i32, words_len: usize, halves: *mut i16, halves_len: usize, frame: *const i32, frame_len: usize,
        coefs: *const i16, coefs_len: usize) -> i32;
    fn post_plc_lost(words: *mut i32, words_len: usize, halves: *mut i16, halves_len: usize, frame: *mut i32, frame_len: usize,
        output: *mut i16, output_len: usize) -> i32;
    fn post_glue(words: *mut i32, words_len: usize, halves: *mut i16, halves_len: usize,
        buffer: *mut i16, buffer_len: usize, length: usize) -> i32;
    fn post_noise(words: *mut i32, words_len: usize, halves: *mut i16, halves_len: usize,
        frame: *const i32, frame_len: usize, buffer: *mut i16, buffer_len: usize, length: usize) -> i32;
    fn post_played(rate: i32, subframes: i32, output: *const i16, output_len: usize) -> i32;
    fn post_stability(coefficients: *const i16, coefficients_len: usize, order: usize, edition: i32,
        result: *mut i32, result_len: usize) -> i32;
    fn post_sentence(coefficients: *const i16, coefficients_len: usize, order: usize, edition: i32,
        text: *mut u8, text_len: usize) -> i32;
    fn post_filter(coefficients: *mut i16, coefficients_len: usize, lines: *const i16, lines_len: usize, order: usize, edition: i32) -> i32;
    fn post_cosine(place: usize, value: *mut i32, value_len: usize) -> i32;
    fn post_rising(lines: *const i16, lines_len: usize, order: usize, answer: *mut i32, answer_len: usize) -> i32;
}

/// Makes a call of the linked function, in place.
#[inline(always)]
#[rustfmt::skip]
pub fn call(c: &mut Call) -> i32 {
    let (words, halves) = ((c.words.as_mut_ptr(), c.words.len()), (c.halves.as_mut_ptr(), c.halves.len()));
    let (frame, coefs) = ((c.frame.as_mut_ptr(), c.frame.len()), (c.coefs.as_mut_ptr(), c.coefs.len()));
    let (pulses, output) = ((c.pulses.as_ptr(), c.pulses.len()), (c.output.as_mut_ptr(), c.output.len()));
    // Every slice is lent for the call alone, with its own length.
    unsafe {
        match c.what {
            What::SetUp => post_set_up(c.rate, c.subframes, words.0, words.1, halves.0, halves.1),
            What::SetUpWith => post_set_up_with(c.rate, c.subframes, c.named.squelch, c.named.edition, words.0, words.1, halves.0, halves.1),
            What::Received | What::Lost => post_frame(words.0, words.1, halves.0, halves.1, frame.0, frame.1,
                coefs.0, coefs.1, pulses.0, pulses.1, output.0, output.1),
            What::Core => post_core(words.0, words.1, halves.0, halves.1, frame.0, frame.1,
                coefs.0, coefs.1, pulses.0, pulses.1, output.0, output.1),
            What::PlcReceived => post_plc_received(words.0, words.1, halves.0, halves.1, frame.0, frame.1, coefs.0, coefs.1),
            What::PlcLost => post_plc_lost(words.0, words.1, halves.0, halves.1, frame.0, frame.1, output.0, output.1),
            What::Glue => post_glue(words.0, words.1, halves.0, halves.1, output.0, output.1, c.length),
            What::Noise => post_noise(words.0, words.1, halves.0, halves.1, frame.0, frame.1, output.0, output.1, c.length),
            What::Played => post_played(c.rate, c.subframes, output.0, output.1),
            What::Stability => post_stability(c.coefficients.as_ptr(), c.coefficients.len(), c.length, c.named.edition,
                c.result.as_mut_ptr(), c.result.len()),
            What::Sentence => post_sentence(c.coefficients.as_ptr(), c.coefficients.len(), c.length, c.named.edition,
                c.text.as_mut_ptr(), c.text.len()),
            What::Filter => post_filter(c.coefficients.as_mut_ptr(), c.coefficients.len(), c.lines.as_ptr(), c.lines.len(), c.length,
                c.named.edition),
            What::Cosine => post_cosine(c.length, c.result.as_mut_ptr(), c.result.len()),
            What::Rising => post_rising(c.lines.as_ptr(), c.lines.len(), c.length, c.result.as_mut_ptr(), c.result.len()),
        }
    }
}

// Yard recordings.

#[rustfmt::skip]
unsafe extern "C" {
    fn post_recording_read(bytes: *const u8, bytes_len: usize, head: *mut i32, head_len: usize) -> i32;
    fn post_recording_frame(bytes: *const u8, bytes_len: usize, number: u32, frame: *mut i32, frame_len: usize,
        coefs: *mut i16, coefs_len: usize, pulses: *mut i16, pulses_len: usize) -> i32;
    fn post_recording_begin(bytes: *mut u8, bytes_len: usize, rate: i32, subframes: i32) -> i32;
    fn post_recording_append(bytes: *mut u8, bytes_len: usize, frames: u32, frame: *const i32, frame_len: usize,
        coefs: *const i16, coefs_len: usize, pulses: *const i16, pulses_len: usize) -> i32;
    fn post_recording_play(bytes: *const u8, bytes_len: usize, output: *mut i16, output_len: usize, played: *mut i32, played_len: usize) -> i32;
    fn post_single_loss(bytes: *const u8, bytes_len: usize, limit: i32, number: *mut i32, number_len: usize) -> i32;
}

pub fn recording_read(bytes: &[u8], head: &mut [i32]) -> i32 {
    unsafe { post_recording_read(bytes.as_ptr(), bytes.len(), head.as_mut_ptr(), head.len()) }
}

#[rustfmt::skip]
pub fn recording_frame(bytes: &[u8], number: u32, frame: &mut [i32], coefs: &mut [i16], pulses: &mut [i16]) -> i32 {
    unsafe {
        post_recording_frame(bytes.as_ptr(), bytes.len(), number, frame.as_mut_ptr(), frame.len(),
            coefs.as_mut_ptr(), coefs.len(), pulses.as_mut_ptr(), pulses.len())
    }
}

pub fn recording_begin(bytes: &mut [u8], rate: i32, subframes: i32) -> i32 {
    unsafe { post_recording_begin(bytes.as_mut_ptr(), bytes.len(), rate, subframes) }
}

#[rustfmt::skip]
pub fn recording_append(bytes: &mut [u8], frames: u32, frame: &[i32], coefs: &[i16], pulses: &[i16]) -> i32 {
    unsafe {
        post_recording_append(bytes.as_mut_ptr(), bytes.len(), frames, frame.as_ptr(), frame.len(),
            coefs.as_ptr(), coefs.len(), pulses.as_ptr(), pulses.len())
    }
}

#[rustfmt::skip]
pub fn recording_play(bytes: &[u8], output: &mut [i16], played: &mut [i32]) -> i32 {
    unsafe {
        post_recording_play(bytes.as_ptr(), bytes.len(), output.as_mut_ptr(), output.len(), played.as_mut_ptr(), played.len())
    }
}

// The load.

#[rustfmt::skip]
unsafe extern "C" {
    fn post_load_frame(rate: i32, subframes: i32, seed: i32, number: u32, frame: *mut i32, frame_len: usize,
        coefs: *mut i16, coefs_len: usize, pulses: *mut i16, pulses_len: usize) -> i32;
    fn post_load_leap(seed: i32, draws: u64) -> i32;
    fn post_load_undoing(draws: u64) -> u64;
    fn post_trial(rate: i32, subframes: i32, seed: i32, squelch: i32, frames: u32, leave_good: u16, leave_bad: u16,
        seeds: *const i32, seeds_len: usize, counts: *mut u32, counts_len: usize) -> i32;
}

#[rustfmt::skip]
pub fn load_frame(rate: i32, subframes: i32, seed: i32, number: u32, frame: &mut [i32], coefs: &mut [i16], pulses: &mut [i16]) -> i32 {
    unsafe {
        post_load_frame(rate, subframes, seed, number, frame.as_mut_ptr(), frame.len(),
            coefs.as_mut_ptr(), coefs.len(), pulses.as_mut_ptr(), pulses.len())
    }
}

pub fn load_leap(seed: i32, draws: u64) -> i32 {
    unsafe { post_load_leap(seed, draws) }
}

pub fn load_undoing(draws: u64) -> u64 {
    unsafe { post_load_undoing(draws) }
}

#[rustfmt::skip]
pub fn trial([rate, subframes, seed, squelch]: [i32; 4], frames: u32, [good, bad]: [u16; 2], seeds: &[i32], counts: &mut [u32]) -> i32 {
    unsafe {
        post_trial(rate, subframes, seed, squelch, frames, good, bad, seeds.as_ptr(), seeds.len(), counts.as_mut_ptr(), counts.len())
    }
}

pub fn single_loss(bytes: &[u8], limit: i32, number: &mut [i32]) -> i32 {
    unsafe { post_single_loss(bytes.as_ptr(), bytes.len(), limit, number.as_mut_ptr(), number.len()) }
}
