//! Every function of the library as the given Rust would have it: document 01's rows, then the Rust's own stage or frame. What document 02
//! adds to the Rust, a change of shape, a squelch and the rising check, is written here; the older edition has a copy of its own.

use crate::post::ffi::words::SQUELCH;
pub use crate::post::ffi::{ANSWER, COEFS, FRAME, HALVES, TEXT, VALUE, WORDS};
use crate::post::{Stability, ffi};
use given::range_coder::RangeCoder;
use given::silk::decode_core::silk_decode_core;
use given::silk::decode_frame::{FLAG_DECODE_NORMAL, FLAG_PACKET_LOST};
use given::silk::decoder_structs::{SilkDecoderControl, SilkDecoderState};
use given::silk::plc::silk_plc_glue_frames;
use given::silk::structs::SideInfoIndices;
use given::silk::tables::SILK_LSF_COS_TAB_FIX_Q12;
use std::panic::{AssertUnwindSafe, catch_unwind};
use std::slice::from_mut as one;
use std::sync::Mutex;

/// A slice that must have a size is shorter.
const TOO_SHORT: i32 = -1;
/// The Rust stopped on input that document 01 accepts.
pub const STOPPED: i32 = i32::MIN;
/// What was said at the last stop.
pub static STOP: Mutex<String> = Mutex::new(String::new());

// The editions.

/// RFC 6716 as first published, and with RFC 8251.
pub const OLDER: i32 = 6716;
pub const NEWER: i32 = 8251;

/// What of the Rust tests a filter's stability, or calls what does.
#[derive(Clone, Copy)]
pub struct Tests {
    pub frame: fn(&mut SilkDecoderState, &mut RangeCoder, &mut [i16], &mut i32, i32, i32) -> i32,
    pub plc: fn(&mut SilkDecoderState, &mut SilkDecoderControl, &mut [i16], i32),
    pub cng: fn(&mut SilkDecoderState, &SilkDecoderControl, &mut [i16], usize),
    pub nlsf2a: fn(&mut [i16], &[i16], usize),
    pub reason: fn(&[i16], usize) -> [i32; 2],
}

/// The Rust under an edition.
pub fn under(edition: i32) -> Tests {
    if edition == OLDER {
        use given::older::silk::{cng, decode_frame, nlsf, plc};
        return Tests {
            frame: decode_frame::silk_decode_frame,
            plc: plc::silk_plc,
            cng: cng::silk_cng,
            nlsf2a: nlsf::silk_nlsf2a,
            reason: given::older_reason,
        };
    }
    use given::silk::{cng, decode_frame, nlsf, plc};
    Tests {
        frame: decode_frame::silk_decode_frame,
        plc: plc::silk_plc,
        cng: cng::silk_cng,
        nlsf2a: nlsf::silk_nlsf2a,
        reason: given::reason,
    }
}

// The library's form of the state and of a frame.

/// The state's i32 fields in the library's order.
pub fn word_fields(dec: &mut SilkDecoderState) -> [(&'static str, &mut [i32]); 27] {
    let (plc, cng) = (&mut dec.s_plc, &mut dec.s_cng);
    [
        ("prev_gain_q16", one(&mut dec.prev_gain_q16)),
        ("exc_q14", &mut dec.exc_q14),
        ("s_lpc_q14_buf", &mut dec.s_lpc_q14_buf),
        ("lag_prev", one(&mut dec.lag_prev)),
        ("fs_khz", one(&mut dec.fs_khz)),
        ("nb_subfr", one(&mut dec.nb_subfr)),
        ("frame_length", one(&mut dec.frame_length)),
        ("subfr_length", one(&mut dec.subfr_length)),
        ("ltp_mem_length", one(&mut dec.ltp_mem_length)),
        ("lpc_order", one(&mut dec.lpc_order)),
        ("first_frame_after_reset", one(&mut dec.first_frame_after_reset)),
        ("loss_cnt", one(&mut dec.loss_cnt)),
        ("prev_signal_type", one(&mut dec.prev_signal_type)),
        ("s_plc.pitch_l_q8", one(&mut plc.pitch_l_q8)),
        ("s_plc.last_frame_lost", one(&mut plc.last_frame_lost)),
        ("s_plc.rand_seed", one(&mut plc.rand_seed)),
        ("s_plc.conc_energy", one(&mut plc.conc_energy)),
        ("s_plc.conc_energy_shift", one(&mut plc.conc_energy_shift)),
        ("s_plc.prev_gain_q16", &mut plc.prev_gain_q16),
        ("s_plc.fs_khz", one(&mut plc.fs_khz)),
        ("s_plc.nb_subfr", one(&mut plc.nb_subfr)),
        ("s_plc.subfr_length", one(&mut plc.subfr_length)),
        ("s_cng.cng_exc_buf_q14", &mut cng.cng_exc_buf_q14),
        ("s_cng.cng_synth_state", &mut cng.cng_synth_state),
        ("s_cng.cng_smth_gain_q16", one(&mut cng.cng_smth_gain_q16)),
        ("s_cng.rand_seed", one(&mut cng.rand_seed)),
        ("s_cng.fs_khz", one(&mut cng.fs_khz)),
    ]
}

/// What set-up names and no frame changes.
#[derive(Clone, Copy)]
pub struct Settings {
    pub squelch: i32,
    pub edition: i32,
}

impl Default for Settings {
    fn default() -> Settings {
        Settings { squelch: 0, edition: NEWER }
    }
}

/// The settings in the library's order; they stand behind the state's i32 fields.
pub fn setting_fields(settings: &mut Settings) -> [(&'static str, &mut [i32]); 2] {
    [("settings.squelch", one(&mut settings.squelch)), ("settings.edition", one(&mut settings.edition))]
}

/// The state's i16 fields in the library's order.
pub fn half_fields(dec: &mut SilkDecoderState) -> [(&'static str, &mut [i16]); 7] {
    let plc = &mut dec.s_plc;
    [
        ("out_buf", &mut dec.out_buf),
        ("prev_nlsf_q15", &mut dec.prev_nlsf_q15),
        ("s_plc.ltp_coef_q14", &mut plc.ltp_coef_q14),
        ("s_plc.prev_lpc_q12", &mut plc.prev_lpc_q12),
        ("s_plc.rand_scale_q14", one(&mut plc.rand_scale_q14)),
        ("s_plc.prev_ltp_scale_q14", one(&mut plc.prev_ltp_scale_q14)),
        ("s_cng.cng_smth_nlsf_q15", &mut dec.s_cng.cng_smth_nlsf_q15),
    ]
}

/// A frame in numbers.
#[derive(Clone, Default)]
pub struct Frame {
    pub received: i32,
    /// The coming rate and subframes.
    pub shape: [i32; 2],
    /// Signal type, offset type, interpolation and seed.
    pub small: [i32; 4],
    pub control: SilkDecoderControl,
    pub lines: [i16; 16],
}

/// A frame's i32 numbers in the library's order.
pub fn frame_fields(frame: &mut Frame) -> [(&'static str, &mut [i32]); 10] {
    let ([rate, subframes], [signal, offset, interpolation, seed]) = (&mut frame.shape, &mut frame.small);
    let control = &mut frame.control;
    [
        ("received", one(&mut frame.received)),
        ("rate", one(rate)),
        ("subframes", one(subframes)),
        ("signal_type", one(signal)),
        ("quant_offset_type", one(offset)),
        ("nlsf_interp_coef_q2", one(interpolation)),
        ("seed", one(seed)),
        ("pitch_l", &mut control.pitch_l),
        ("gains_q16", &mut control.gains_q16),
        ("ltp_scale_q14", one(&mut control.ltp_scale_q14)),
    ]
}

/// A frame's i16 numbers in the library's order.
pub fn coef_fields(frame: &mut Frame) -> [(&'static str, &mut [i16]); 3] {
    let control = &mut frame.control;
    [
        ("ltp_coef_q14", &mut control.ltp_coef_q14),
        ("pred_coef_q12", control.pred_coef_q12.as_flattened_mut()),
        ("nlsf_q15", &mut frame.lines),
    ]
}

fn read<T: Copy, const N: usize>(fields: [(&str, &mut [T]); N], mut from: &[T]) {
    for (_, field) in fields {
        let (first, rest) = from.split_at(field.len());
        field.copy_from_slice(first);
        from = rest;
    }
}

fn write<T: Copy, const N: usize>(fields: [(&str, &mut [T]); N], mut to: &mut [T]) {
    for (_, field) in fields {
        let (first, rest) = to.split_at_mut(field.len());
        first.copy_from_slice(field);
        to = rest;
    }
}

pub fn read_into(dec: &mut SilkDecoderState, words: &[i32], halves: &[i16]) {
    read(word_fields(dec), words);
    read(half_fields(dec), halves);
}

pub fn read_state(words: &[i32], halves: &[i16]) -> SilkDecoderState {
    let mut dec = SilkDecoderState::default();
    read_into(&mut dec, words, halves);
    dec
}

pub fn write_state(dec: &mut SilkDecoderState, words: &mut [i32], halves: &mut [i16]) {
    write(word_fields(dec), words);
    write(half_fields(dec), halves);
}

pub fn read_settings(words: &[i32]) -> Settings {
    let mut settings = Settings::default();
    read(setting_fields(&mut settings), &words[SQUELCH..]);
    settings
}

pub fn write_settings(mut settings: Settings, words: &mut [i32]) {
    write(setting_fields(&mut settings), &mut words[SQUELCH..]);
}

/// The frame that numbers hold; without coefficients they are 0.
pub fn read_frame(frame: &[i32], coefs: &[i16]) -> Frame {
    let mut read_in = Frame::default();
    read(frame_fields(&mut read_in), frame);
    if !coefs.is_empty() {
        read(coef_fields(&mut read_in), coefs);
    }
    read_in
}

pub fn write_frame(from: &mut Frame, frame: &mut [i32], coefs: &mut [i16]) {
    write(frame_fields(from), frame);
    if !coefs.is_empty() {
        write(coef_fields(from), coefs);
    }
}

impl Frame {
    /// The small numbers as the Rust has them: one outside 8 bits is none of the permitted ones; of the seed the low 8 bits count.
    pub fn indices(&self) -> SideInfoIndices {
        let [signal_type, quant_offset_type, nlsf_interp_coef_q2] = [0, 1, 2].map(|at| i8::try_from(self.small[at]).unwrap_or(-1));
        SideInfoIndices { signal_type, quant_offset_type, nlsf_interp_coef_q2, seed: self.small[3] as i8, ..Default::default() }
    }

    /// The frame as the Rust's reading of the bitstream would give it.
    pub fn coder<'a>(&self, pulses: &'a [i16]) -> RangeCoder<'a> {
        RangeCoder { indices: self.indices(), lines: self.lines, pulses, control: self.control.clone() }
    }
}

/// Writes a description back: lags, and taps where they are lent. The Rust may have changed nothing else of it.
fn keep(before: &SilkDecoderControl, after: &SilkDecoderControl, frame: &mut [i32], coefs: &mut [i16]) {
    let rest = |control: &SilkDecoderControl| (control.gains_q16, control.ltp_scale_q14, control.pred_coef_q12);
    assert_eq!(rest(before), rest(after), "the Rust changes a gain, the scale or a coefficient row");
    frame[ffi::frame::LAGS..ffi::frame::GAINS].copy_from_slice(&after.pitch_l);
    if coefs.is_empty() {
        assert_eq!(before.ltp_coef_q14, after.ltp_coef_q14, "the Rust changes taps that are not lent");
    } else {
        coefs[..ffi::coefs::ROWS].copy_from_slice(&after.ltp_coef_q14);
    }
}

// Document 01, "Why a frame is turned down": the first row that applies.

pub type Judged = Result<(), i32>;

pub fn unless(row: i32, fine: bool) -> Judged {
    if fine { Ok(()) } else { Err(row) }
}

fn judge_sizes(sizes: &[(usize, usize)]) -> Judged {
    unless(TOO_SHORT, sizes.iter().all(|(length, size)| length >= size))
}

fn judge_rate(rate: i32) -> Judged {
    unless(1, [8, 12, 16].contains(&rate))
}

fn judge_count(subframes: i32) -> Judged {
    unless(2, [2, 4].contains(&subframes))
}

pub fn judge_shape(rate: i32, subframes: i32) -> Judged {
    judge_rate(rate)?;
    judge_count(subframes)
}

fn order_at(rate: i32) -> i32 {
    if rate == 16 { 16 } else { 10 }
}

fn none_negative(lines: &[i16]) -> bool {
    lines.iter().all(|line| *line >= 0)
}

/// Rows 1 to 3 of a stage.
fn judge_state(dec: &SilkDecoderState, settings: Settings) -> Judged {
    judge_rate(dec.fs_khz)?;
    judge_size(dec)?;
    judge_history(dec, settings)
}

/// A squelch's range, by a row: 14 of a set-up, 3 of a state.
fn judge_squelch(row: i32, squelch: i32) -> Judged {
    unless(row, (0..=10_000).contains(&squelch))
}

/// An edition, by a row: 22 of a call that names it, 3 of a state.
fn judge_edition(row: i32, edition: i32) -> Judged {
    unless(row, [OLDER, NEWER].contains(&edition))
}

/// Row 2 of a state that holds a rate.
fn judge_size(dec: &SilkDecoderState) -> Judged {
    let (r, n) = (dec.fs_khz, dec.nb_subfr);
    judge_count(n)?;
    unless(2, dec.frame_length == 5 * r * n && dec.subfr_length == 5 * r && dec.ltp_mem_length == 20 * r && dec.lpc_order == order_at(r))
}

/// Row 3.
fn judge_history(dec: &SilkDecoderState, settings: Settings) -> Judged {
    let r = dec.fs_khz;
    let order = dec.lpc_order as usize;
    let gain = 65_536..=1_686_110_208;
    unless(
        3,
        dec.loss_cnt >= 0
            && (dec.loss_cnt == 0 || (2 * r..=18 * r).contains(&dec.lag_prev))
            && (0..=2).contains(&dec.prev_signal_type)
            && gain.contains(&dec.prev_gain_q16)
            && (0..=1).contains(&dec.first_frame_after_reset)
            && (0..=1).contains(&dec.s_plc.last_frame_lost)
            && none_negative(&dec.prev_nlsf_q15[..order]),
    )?;
    let plc = &dec.s_plc;
    let [first, second, middle, fourth, fifth] = plc.ltp_coef_q14;
    unless(
        3,
        [first, second, fourth, fifth] == [0; 4]
            && (-11_456..=15_565).contains(&middle)
            && (0..=27_840).contains(&plc.rand_scale_q14)
            && (0..=16_384).contains(&plc.prev_ltp_scale_q14)
            && plc.conc_energy >= 0
            && (0..=31).contains(&plc.conc_energy_shift),
    )?;
    let subframes = (plc.nb_subfr, plc.subfr_length);
    unless(
        3,
        plc.fs_khz != r
            || (512 * r..=4_608 * r).contains(&plc.pitch_l_q8)
                && plc.prev_gain_q16.iter().all(|g| gain.contains(g))
                && [(2, 20), (2, 5 * r), (4, 5 * r)].contains(&subframes),
    )?;
    let cng = &dec.s_cng;
    unless(3, cng.fs_khz != r || none_negative(&cng.cng_smth_nlsf_q15[..order]) && (0..=1_686_110_208).contains(&cng.cng_smth_gain_q16))?;
    judge_squelch(3, settings.squelch)?;
    judge_edition(3, settings.edition)
}

/// Rows 1 to 3 of a whole frame: the held and the coming shape, each by itself, then the state as the coming one leaves it.
fn judge_coming(dec: &mut SilkDecoderState, settings: Settings, [rate, subframes]: [i32; 2]) -> Judged {
    judge_rate(dec.fs_khz)?;
    judge_rate(rate)?;
    judge_size(dec)?;
    judge_count(subframes)?;
    change(dec, rate, subframes);
    judge_history(dec, settings)
}

/// Another shape in the middle of a call (document 02, Note 1).
fn change(dec: &mut SilkDecoderState, rate: i32, subframes: i32) {
    if dec.fs_khz != rate {
        dec.out_buf.fill(0);
        dec.s_lpc_q14_buf.fill(0);
        (dec.lag_prev, dec.prev_signal_type, dec.first_frame_after_reset) = (100, 0, 1);
        (dec.fs_khz, dec.subfr_length, dec.ltp_mem_length, dec.lpc_order) = (rate, 5 * rate, 20 * rate, order_at(rate));
    }
    (dec.nb_subfr, dec.frame_length) = (subframes, 5 * rate * subframes);
}

/// A loss now makes the count the squelch or more (document 02, Note 3).
pub fn squelched(dec: &SilkDecoderState, settings: Settings) -> bool {
    settings.squelch > 0 && i64::from(settings.squelch) <= i64::from(dec.loss_cnt) + 1
}

/// Rows 4, 11.
fn judge_lost(dec: &SilkDecoderState, output: &[i16]) -> Judged {
    unless(4, dec.loss_cnt != 2_147_483_647)?;
    judge_room(11, dec, output)
}

/// Row 6.
fn judge_gains(dec: &SilkDecoderState, control: &SilkDecoderControl) -> Judged {
    let gains = &control.gains_q16[..dec.nb_subfr as usize];
    unless(6, gains.iter().all(|g| (81_920..=1_686_110_208).contains(g)))
}

/// Rows 5 to 8.
fn judge_description(dec: &SilkDecoderState, control: &SilkDecoderControl) -> Judged {
    let (r, n) = (dec.fs_khz, dec.nb_subfr as usize);
    let voiced = dec.indices.signal_type == 2;
    unless(
        5,
        (0..=2).contains(&dec.indices.signal_type)
            && (0..=1).contains(&dec.indices.quant_offset_type)
            && (0..=4).contains(&dec.indices.nlsf_interp_coef_q2),
    )?;
    judge_gains(dec, control)?;
    let lags = &control.pitch_l[..n];
    unless(7, !voiced || lags.iter().all(|l| (2 * r..=18 * r).contains(l)))?;
    let sum = |taps: &[i16]| taps.iter().map(|tap| *tap as i32).sum::<i32>();
    let mut sums = control.ltp_coef_q14.chunks(5).take(n).map(sum);
    unless(8, (0..=16_384).contains(&control.ltp_scale_q14) && (!voiced || sums.all(|sum| (-32_768..=32_767).contains(&sum))))
}

/// Rows 5 to 9 of a received frame, at the shape that the state holds.
fn judge_received(dec: &mut SilkDecoderState, frame: &Frame) -> Judged {
    dec.indices = frame.indices();
    judge_description(dec, &frame.control)?;
    unless(9, none_negative(&frame.lines[..dec.lpc_order as usize]))
}

/// The same of a frame in numbers, at a shape.
pub fn judge_numbers([rate, subframes]: [i32; 2], frame: &[i32], coefs: &[i16]) -> Judged {
    judge_received(&mut set_up(rate, subframes), &read_frame(frame, coefs))
}

/// Rows 10 and 11.
fn judge_room(row: i32, dec: &SilkDecoderState, lent: &[i16]) -> Judged {
    unless(row, lent.len() >= dec.frame_length as usize)
}

/// Row 12.
fn judge_length(buffer: &[i16], length: usize) -> Judged {
    unless(12, (1..=320).contains(&length) && length <= buffer.len())
}

pub fn answer(judged: impl FnOnce() -> Judged) -> i32 {
    judged().err().unwrap_or(0)
}

fn run<T>(rust: impl FnOnce() -> T) -> Result<T, i32> {
    catch_unwind(AssertUnwindSafe(rust)).map_err(|_| STOPPED)
}

// The library's functions.

/// The crate's default state with the shape's sizes filled in.
pub fn set_up(rate: i32, subframes: i32) -> SilkDecoderState {
    SilkDecoderState {
        fs_khz: rate,
        nb_subfr: subframes,
        frame_length: 5 * rate * subframes,
        subfr_length: 5 * rate,
        ltp_mem_length: 20 * rate,
        lpc_order: order_at(rate),
        ..Default::default()
    }
}

pub fn post_set_up(rate: i32, subframes: i32, words: &mut [i32], halves: &mut [i16]) -> i32 {
    post_set_up_with(rate, subframes, Settings { squelch: 50, ..Settings::default() }, words, halves)
}

pub fn post_set_up_with(rate: i32, subframes: i32, settings: Settings, words: &mut [i32], halves: &mut [i16]) -> i32 {
    answer(|| {
        judge_sizes(&[(words.len(), WORDS), (halves.len(), HALVES)])?;
        judge_shape(rate, subframes)?;
        judge_squelch(14, settings.squelch)?;
        judge_edition(22, settings.edition)?;
        write_state(&mut set_up(rate, subframes), words, halves);
        write_settings(settings, words);
        Ok(())
    })
}

pub fn post_frame(words: &mut [i32], halves: &mut [i16], frame: &mut [i32], coefs: &mut [i16], pulses: &[i16], output: &mut [i16]) -> i32 {
    answer(|| {
        judge_sizes(&[(words.len(), WORDS), (halves.len(), HALVES), (frame.len(), FRAME), (coefs.len(), COEFS)])?;
        let mut dec = read_state(words, halves);
        let brought = read_frame(frame, coefs);
        let mut coder = brought.coder(pulses);
        let settings = read_settings(words);
        judge_coming(&mut dec, settings, brought.shape)?;
        let flag = if brought.received == 0 {
            judge_lost(&dec, output)?;
            FLAG_PACKET_LOST
        } else {
            judge_received(&mut dec, &brought)?;
            judge_room(10, &dec, pulses)?;
            judge_room(11, &dec, output)?;
            FLAG_DECODE_NORMAL
        };
        let silent = flag == FLAG_PACKET_LOST && squelched(&dec, settings);
        run(|| (under(settings.edition).frame)(&mut dec, &mut coder, output, &mut 0, flag, 0))?;
        if silent {
            output[..dec.frame_length as usize].fill(0);
        }
        write_state(&mut dec, words, halves);
        keep(&brought.control, &coder.control, frame, coefs);
        Ok(())
    })
}

pub fn post_core(words: &mut [i32], halves: &mut [i16], frame: &mut [i32], coefs: &mut [i16], pulses: &[i16], output: &mut [i16]) -> i32 {
    answer(|| {
        judge_sizes(&[(words.len(), WORDS), (halves.len(), HALVES), (frame.len(), FRAME), (coefs.len(), COEFS)])?;
        let mut dec = read_state(words, halves);
        let brought = read_frame(frame, coefs);
        dec.indices = brought.indices();
        let mut description = brought.control.clone();
        judge_state(&dec, read_settings(words))?;
        judge_description(&dec, &description)?;
        judge_room(10, &dec, pulses)?;
        judge_room(11, &dec, output)?;
        run(|| silk_decode_core(&mut dec, &mut description, output, pulses))?;
        write_state(&mut dec, words, halves);
        keep(&brought.control, &description, frame, coefs);
        Ok(())
    })
}

pub fn post_plc_received(words: &mut [i32], halves: &mut [i16], frame: &[i32], coefs: &[i16]) -> i32 {
    answer(|| {
        judge_sizes(&[(words.len(), WORDS), (halves.len(), HALVES), (frame.len(), FRAME), (coefs.len(), COEFS)])?;
        let mut dec = read_state(words, halves);
        let brought = read_frame(frame, coefs);
        dec.indices = brought.indices();
        let mut description = brought.control;
        let settings = read_settings(words);
        judge_state(&dec, settings)?;
        judge_description(&dec, &description)?;
        run(|| (under(settings.edition).plc)(&mut dec, &mut description, &mut [], 0))?;
        write_state(&mut dec, words, halves);
        Ok(())
    })
}

pub fn post_plc_lost(words: &mut [i32], halves: &mut [i16], frame: &mut [i32], output: &mut [i16]) -> i32 {
    answer(|| {
        judge_sizes(&[(words.len(), WORDS), (halves.len(), HALVES), (frame.len(), FRAME)])?;
        let mut dec = read_state(words, halves);
        let before = read_frame(frame, &[]).control;
        let mut description = before.clone();
        let settings = read_settings(words);
        judge_state(&dec, settings)?;
        judge_lost(&dec, output)?;
        run(|| (under(settings.edition).plc)(&mut dec, &mut description, output, 1))?;
        write_state(&mut dec, words, halves);
        keep(&before, &description, frame, &mut []);
        Ok(())
    })
}

pub fn post_glue(words: &mut [i32], halves: &mut [i16], buffer: &mut [i16], length: usize) -> i32 {
    answer(|| {
        judge_sizes(&[(words.len(), WORDS), (halves.len(), HALVES)])?;
        let mut dec = read_state(words, halves);
        judge_state(&dec, read_settings(words))?;
        judge_length(buffer, length)?;
        run(|| silk_plc_glue_frames(&mut dec, buffer, length))?;
        write_state(&mut dec, words, halves);
        Ok(())
    })
}

pub fn post_noise(words: &mut [i32], halves: &mut [i16], frame: &[i32], buffer: &mut [i16], length: usize) -> i32 {
    answer(|| {
        judge_sizes(&[(words.len(), WORDS), (halves.len(), HALVES), (frame.len(), FRAME)])?;
        let mut dec = read_state(words, halves);
        let description = read_frame(frame, &[]).control;
        let settings = read_settings(words);
        judge_state(&dec, settings)?;
        if dec.loss_cnt == 0 {
            judge_gains(&dec, &description)?;
        }
        judge_length(buffer, length)?;
        run(|| (under(settings.edition).cng)(&mut dec, &description, buffer, length))?;
        write_state(&mut dec, words, halves);
        Ok(())
    })
}

pub fn post_played(rate: i32, subframes: i32, output: &[i16]) -> i32 {
    let played = |length: i32| {
        if output.len() >= length as usize { length } else { 0 }
    };
    judge_shape(rate, subframes).map_or(0, |()| played(5 * rate * subframes))
}

/// Rows 13 and 22 of the stability test.
fn judge_test(coefficients: &[i16], order: usize, edition: i32) -> Judged {
    unless(13, (1..=16).contains(&order) && order <= coefficients.len())?;
    judge_edition(22, edition)
}

pub fn post_stability(coefficients: &[i16], order: usize, edition: i32, result: &mut [i32]) -> i32 {
    answer(|| {
        judge_sizes(&[(result.len(), ANSWER)])?;
        judge_test(coefficients, order, edition)?;
        result[..ANSWER].copy_from_slice(&run(|| (under(edition).reason)(coefficients, order))?);
        Ok(())
    })
}

pub fn post_sentence(coefficients: &[i16], order: usize, edition: i32, text: &mut [u8]) -> i32 {
    answer(|| {
        judge_sizes(&[(text.len(), TEXT)])?;
        judge_test(coefficients, order, edition)?;
        let sentence = Stability::of(run(|| (under(edition).reason)(coefficients, order))?).to_string();
        text[..TEXT].fill(0);
        text[..sentence.len()].copy_from_slice(sentence.as_bytes());
        Ok(())
    })
}

pub fn post_filter(coefficients: &mut [i16], lines: &[i16], order: usize, edition: i32) -> i32 {
    answer(|| {
        unless(13, [10, 16].contains(&order) && order <= coefficients.len() && order <= lines.len())?;
        unless(9, none_negative(&lines[..order]))?;
        judge_edition(22, edition)?;
        run(|| (under(edition).nlsf2a)(&mut coefficients[..order], lines, order))
    })
}

pub fn post_cosine(place: usize, value: &mut [i32]) -> i32 {
    answer(|| {
        judge_sizes(&[(value.len(), VALUE)])?;
        unless(17, place <= 128)?;
        value[0] = SILK_LSF_COS_TAB_FIX_Q12[place].into();
        Ok(())
    })
}

/// The lines lie between 0 and 32,768, with at least 3 from each of these numbers to the next.
pub fn post_rising(lines: &[i16], order: usize, result: &mut [i32]) -> i32 {
    answer(|| {
        judge_sizes(&[(result.len(), VALUE)])?;
        unless(17, [10, 16].contains(&order) && order <= lines.len())?;
        let inner = lines[..order].iter().map(|line| i32::from(*line));
        let all: Vec<i32> = std::iter::once(0).chain(inner).chain([32_768]).collect();
        result[0] = all.windows(2).all(|pair| pair[1] - pair[0] >= 3).into();
        Ok(())
    })
}
