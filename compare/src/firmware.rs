//! The Rust's `silk_decode_frame` with the library in place of its stages, as a firmware has it, beside the Rust's own.

use crate::call::{Call, What, place};
use crate::post::{Description, Params, Post, Refusal, Shape, ffi};
use crate::reference::{self, NEWER, Settings, read_frame, read_into, write_settings, write_state};
use crate::streams::Stream;
use given::range_coder::RangeCoder;
use given::silk::decode_frame::{self, FLAG_DECODE_LBRR, FLAG_DECODE_NORMAL, FLAG_PACKET_LOST};
use given::silk::decode_indices::silk_decode_indices;
use given::silk::decode_pulses::silk_decode_pulses;
use given::silk::decoder_structs::{SilkDecoderControl, SilkDecoderState};
use given::silk::define::MAX_FRAME_LENGTH;
use given::silk::structs::SideInfoIndices;
use std::cell::RefCell;

/// A post in the state that the last frame left. It has no squelch, and the edition 8251, as the Rust.
pub fn post_of(ps_dec: &mut SilkDecoderState) -> Post {
    let (mut words, mut halves) = ([0; ffi::WORDS], [0; ffi::HALVES]);
    write_state(ps_dec, &mut words, &mut halves);
    write_settings(Settings { squelch: 0, edition: NEWER }, &mut words);
    Post::from_parts(words, halves)
}

/// Writes a post's state back. After a refusal it is the one that the last frame left, line frequencies included.
pub fn keep(ps_dec: &mut SilkDecoderState, post: &Post) {
    let (words, halves) = post.parts();
    read_into(ps_dec, words, halves);
}

pub fn params_of(indices: &SideInfoIndices) -> Params {
    Params {
        signal_type: indices.signal_type,
        quant_offset_type: indices.quant_offset_type,
        nlsf_interp_coef_q2: indices.nlsf_interp_coef_q2,
        seed: indices.seed,
    }
}

/// A description, with the line frequencies that `silk_decode_parameters` left in the state.
pub fn description_of(ps_dec: &SilkDecoderState, ps_dec_ctrl: &SilkDecoderControl) -> Description {
    Description {
        pitch_l: ps_dec_ctrl.pitch_l,
        gains_q16: ps_dec_ctrl.gains_q16,
        ltp_scale_q14: ps_dec_ctrl.ltp_scale_q14,
        ltp_coef_q14: ps_dec_ctrl.ltp_coef_q14,
        pred_coef_q12: ps_dec_ctrl.pred_coef_q12,
        nlsf_q15: ps_dec.prev_nlsf_q15,
    }
}

/// The bitstream is read as in the Rust; then one call plays the frame. Answers 0 or a refusal's number.
pub fn silk_decode_frame(
    ps_dec: &mut SilkDecoderState, ps_range_dec: &mut RangeCoder, p_out: &mut [i16], p_n: &mut i32, lost_flag: i32, cond_coding: i32,
) -> i32 {
    let mut post = post_of(ps_dec);
    let shape = Shape { rate: ps_dec.fs_khz, subframes: ps_dec.nb_subfr };
    let lbrr = lost_flag == FLAG_DECODE_LBRR && ps_dec.lbrr_flags[ps_dec.n_frames_decoded as usize] == 1;
    let played = if lost_flag == FLAG_DECODE_NORMAL || lbrr {
        let mut pulses = [0; MAX_FRAME_LENGTH];
        let mut ps_dec_ctrl = SilkDecoderControl::new();
        silk_decode_indices(ps_dec, ps_range_dec, ps_dec.n_frames_decoded, lost_flag, cond_coding);
        let (signal, offset) = (ps_dec.indices.signal_type as i32, ps_dec.indices.quant_offset_type as i32);
        silk_decode_pulses(ps_range_dec, &mut pulses, signal, offset, ps_dec.frame_length);
        silk_decode_parameters(ps_dec, &mut ps_dec_ctrl, cond_coding);
        post.received(shape, params_of(&ps_dec.indices), &mut description_of(ps_dec, &ps_dec_ctrl), &pulses, p_out)
    } else {
        post.lost(shape, &mut Description::default(), p_out)
    };
    keep(ps_dec, &post);
    *p_n = ps_dec.frame_length;
    played.map_or_else(Refusal::number, |()| 0)
}

thread_local! {
    /// What the next `silk_decode_parameters` gives.
    static RECORDED: RefCell<SilkDecoderControl> = RefCell::default();
}

/// In place of the Rust's, which is not among the sources: hands over the recorded description.
fn silk_decode_parameters(_: &mut SilkDecoderState, ps_dec_ctrl: &mut SilkDecoderControl, _: i32) {
    RECORDED.with_borrow(|recorded| ps_dec_ctrl.clone_from(recorded));
}

/// A record as the bitstream would give it.
fn coder(record: &Call) -> RangeCoder<'_> {
    read_frame(&record.frame, &record.coefs).coder(&record.pulses)
}

/// Plays a stream in both loops; the first difference of a sample or of the state after a frame, if any.
pub fn compare(stream: &Stream, fault: bool) -> Result<(), String> {
    let fresh = reference::set_up(stream.rate, stream.subframes);
    let mut rust = SilkDecoderState { last_gain_index: 7, fs_api_hz: 48_000, n_frames_decoded: 1, ..fresh };
    let mut firmware = rust.clone();
    for (index, (record, _)) in stream.records.iter().enumerate() {
        let compared = refused(&firmware, record).and_then(|()| {
            let lbrr = index % 2 == 1;
            frame(&mut rust, &mut firmware, record, lbrr, fault && index == 9)
        });
        compared.map_err(|why| format!("record {index}: {why}"))?;
    }
    Ok(())
}

/// A received frame without gains is refused, and leaves the state and the output.
fn refused(before: &SilkDecoderState, record: &Call) -> Result<(), String> {
    if record.what != What::Received {
        return Ok(());
    }
    RECORDED.replace(SilkDecoderControl::new());
    let (mut dec, mut output) = (before.clone(), record.output.clone());
    let answer = silk_decode_frame(&mut dec, &mut coder(record), &mut output, &mut 0, FLAG_DECODE_NORMAL, 0);
    if answer != Refusal::Gain.number() || held(&mut dec) != held(&mut before.clone()) || output != record.output {
        return Err(format!("without gains: answer {answer}, or something was changed"));
    }
    Ok(())
}

/// One frame in both loops, by the flag of redundancy if `lbrr`.
fn frame(rust: &mut SilkDecoderState, firmware: &mut SilkDecoderState, record: &Call, lbrr: bool, fault: bool) -> Result<(), String> {
    let received = record.what == What::Received;
    let lost_flag = match (lbrr, received) {
        (true, _) => FLAG_DECODE_LBRR,
        (_, true) => FLAG_DECODE_NORMAL,
        (_, false) => FLAG_PACKET_LOST,
    };
    let coder = coder(record);
    RECORDED.replace(coder.control.clone());
    let play = |dec: &mut SilkDecoderState, loop_of: Loop| {
        dec.lbrr_flags[1] = received as i32;
        let (mut output, mut length) = (record.output.clone(), 0);
        let answer = loop_of(dec, &mut coder.clone(), &mut output, &mut length, lost_flag, 0);
        (answer, length, output)
    };
    let expected = play(rust, decode_frame::silk_decode_frame);
    let mut found = play(firmware, silk_decode_frame);
    found.2[3] ^= fault as i16;
    if (expected.0, expected.1) != (found.0, found.1) {
        return Err(format!("answer and length: Rust {}, {}, firmware {}, {}", expected.0, expected.1, found.0, found.1));
    }
    if let Some(at) = (0..expected.2.len()).find(|at| expected.2[*at] != found.2[*at]) {
        return Err(format!("sample {at}: Rust {}, firmware {}", expected.2[at], found.2[at]));
    }
    let [expected, found] = [rust, firmware].map(|dec| (held(dec), rest(dec)));
    if let Some(at) = (0..expected.0.len()).find(|at| expected.0[*at] != found.0[*at]) {
        let name = if at < ffi::WORDS { place("words", at) } else { place("halves", at - ffi::WORDS) };
        return Err(format!("{name}: Rust {}, firmware {}", expected.0[at], found.0[at]));
    }
    if expected.1 != found.1 {
        return Err(format!("what only the reading of the bitstream writes: Rust {:?}, firmware {:?}", expected.1, found.1));
    }
    Ok(())
}

type Loop = fn(&mut SilkDecoderState, &mut RangeCoder, &mut [i16], &mut i32, i32, i32) -> i32;

/// The numbers that the library keeps.
fn held(dec: &mut SilkDecoderState) -> Vec<i32> {
    let post = post_of(dec);
    let (words, halves) = post.parts();
    words.iter().copied().chain(halves.iter().map(|half| *half as i32)).collect()
}

/// The numbers that it doesn't.
fn rest(dec: &mut SilkDecoderState) -> Vec<i32> {
    let indices = &dec.indices;
    let small = [&indices.gains_indices[..], &indices.ltp_index, &indices.nlsf_indices].concat();
    let single = [indices.contour_index, indices.signal_type, indices.quant_offset_type, indices.nlsf_interp_coef_q2];
    let last = [indices.per_index, indices.ltp_scale_index, indices.seed, dec.last_gain_index];
    let mut rest: Vec<i32> = [&small[..], &single, &last].concat().into_iter().map(i32::from).collect();
    rest.extend([indices.lag_index as i32, dec.ec_prev_lag_index as i32, dec.ec_prev_signal_type, dec.fs_api_hz, dec.lbrr_flag]);
    rest.extend([dec.n_frames_decoded, dec.n_frames_per_packet]);
    rest.extend(dec.vad_flags.into_iter().chain(dec.lbrr_flags));
    rest
}
