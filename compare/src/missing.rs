//! What the given sources lean on and lack: two functions from document 01's words, the reading of the bitstream (it hands over what
//! the caller brought), and what only the encoder calls.

/// Each product is rounded to nearest, halves up; so is the factor, times the first one, after each.
pub fn silk_bwexpander(ar: &mut [i16], d: usize, chirp_q16: i32) {
    let rounded = |product: i64| (product + 32_768) >> 16;
    let mut factor = chirp_q16 as i64;
    for a in &mut ar[..d] {
        *a = rounded(factor * *a as i64) as i16;
        factor = rounded(factor * chirp_q16 as i64);
    }
}

/// The first d samples are 0; each other is the rounded (Q12), saturated difference of the sample and the products' sum; both wrap.
pub fn silk_lpc_analysis_filter(out: &mut [i16], input: &[i16], b: &[i16], len: usize, d: usize, _arch: i32) {
    match d {
        10 if cfg!(feature = "constant_order") => filtered(out, input, b, len, 10),
        16 if cfg!(feature = "constant_order") => filtered(out, input, b, len, 16),
        _ => filtered(out, input, b, len, d),
    }
}

#[inline(always)]
fn filtered(out: &mut [i16], input: &[i16], b: &[i16], len: usize, d: usize) {
    let (out, input, b) = (&mut out[..len], &input[..len], &b[..d]);
    out[..d].fill(0);
    for (played, samples) in out[d..].iter_mut().zip(input.windows(d + 1)) {
        let (sample, past) = samples.split_last().unwrap();
        let sum = past.iter().rev().zip(b).fold(0i32, |sum, (x, b)| sum.wrapping_add(*x as i32 * *b as i32));
        let difference = ((*sample as i32) << 12).wrapping_sub(sum);
        let rounded = (difference >> 12) + ((difference >> 11) & 1);
        *played = rounded.clamp(i16::MIN as i32, i16::MAX as i32) as i16;
    }
}

thread_local! {
    static WHY: std::cell::Cell<(u8, usize)> = const { std::cell::Cell::new((0, 0)) };
}

/// Keeps why the stability test answers 0.
pub fn because(number: u8, step: usize) -> i32 {
    WHY.set((number, step));
    0
}

/// The stability test's answer: 0 and the inverse gain, or the number of the return that was reached and its step. Both functions are the
/// test, the second with its returns numbered.
fn reason_of(plain: fn(&[i16], usize) -> i32, numbered: fn(&[i16], usize) -> i32, a_q12: &[i16], order: usize) -> [i32; 2] {
    let gain = numbered(a_q12, order);
    assert_eq!(gain, plain(a_q12, order));
    let (number, step) = WHY.get();
    if gain == 0 { [number as i32, step as i32] } else { [0, gain] }
}

pub fn reason(a_q12: &[i16], order: usize) -> [i32; 2] {
    use crate::silk::{lpc_analysis, lpc_reasons};
    reason_of(lpc_analysis::silk_lpc_inverse_pred_gain, lpc_reasons::silk_lpc_inverse_pred_gain, a_q12, order)
}

pub fn older_reason(a_q12: &[i16], order: usize) -> [i32; 2] {
    use crate::older::silk::{lpc_analysis, lpc_reasons};
    reason_of(lpc_analysis::silk_lpc_inverse_pred_gain, lpc_reasons::silk_lpc_inverse_pred_gain, a_q12, order)
}

pub mod range_coder {
    use crate::silk::decoder_structs::SilkDecoderControl;
    use crate::silk::structs::SideInfoIndices;

    /// A frame as its caller describes it, in place of the bitstream.
    #[derive(Clone)]
    pub struct RangeCoder<'a> {
        pub indices: SideInfoIndices,
        pub lines: [i16; 16],
        pub pulses: &'a [i16],
        pub control: SilkDecoderControl,
    }
}

pub mod decode_indices {
    use crate::range_coder::RangeCoder;
    use crate::silk::decoder_structs::SilkDecoderState;

    /// Also sets the first order places of `prev_nlsf_q15`.
    pub fn silk_decode_indices(dec: &mut SilkDecoderState, frame: &mut RangeCoder, _: i32, _: i32, _: i32) {
        let order = dec.lpc_order as usize;
        dec.indices = frame.indices;
        dec.prev_nlsf_q15[..order].copy_from_slice(&frame.lines[..order]);
    }
}

pub mod decode_pulses {
    use crate::range_coder::RangeCoder;

    pub fn silk_decode_pulses(frame: &mut RangeCoder, pulses: &mut [i16], _: i32, _: i32, length: i32) {
        let length = length as usize;
        pulses[..length].copy_from_slice(&frame.pulses[..length]);
    }
}

pub mod decode_parameters {
    use crate::silk::decoder_structs::{SilkDecoderControl, SilkDecoderState};

    /// The description is there already.
    pub fn silk_decode_parameters(_: &mut SilkDecoderState, _: &mut SilkDecoderControl, _: i32) {}
}

pub mod interpolate {
    pub fn silk_interpolate(_: &[i16], _: &[i16], _: i32, _: usize) -> [i16; 16] {
        unreachable!("only the encoder interpolates")
    }
}

pub mod nlsf_encode {
    use crate::silk::structs::NLSFCodebook;

    pub fn silk_nlsf_encode(_: &mut [i8], _: &mut [i16], _: &NLSFCodebook, _: &[i16], _: i32, _: usize, _: i32) {
        unreachable!("only the encoder encodes")
    }
}

pub mod tables_nlsf {
    use crate::silk::structs::NLSFCodebook;

    const EMPTY: NLSFCodebook = NLSFCodebook {
        n_vectors: 0,
        order: 0,
        quant_step_size_q16: 0,
        inv_quant_step_size_q6: 0,
        cb1_nlsf_q8: &[],
        cb1_wght_q9: &[],
        cb1_icdf: &[],
        pred_q8: &[],
        ec_sel: &[],
        ec_icdf: &[],
        ec_rates_q5: &[],
        delta_min_q15: &[],
    };
    pub static SILK_NLSF_CB_NB_MB: NLSFCodebook = EMPTY;
    pub static SILK_NLSF_CB_WB: NLSFCodebook = EMPTY;
}
