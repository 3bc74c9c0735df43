//! The given Rust as a side of compare/bench: a shared library over `given`, or with the feature `one_crate` a module of it.

#[path = "side.rs"]
mod side;

use given::range_coder::RangeCoder;
use given::silk::decode_frame::{FLAG_DECODE_NORMAL, FLAG_PACKET_LOST, silk_decode_frame};
use given::silk::decoder_structs::{SilkDecoderControl, SilkDecoderState};
use given::silk::define::MAX_FRAME_LENGTH;
use given::silk::structs::SideInfoIndices;
use side::{Call, Shape, Side, calls};
use std::slice::from_raw_parts;

#[repr(C)]
struct Frame {
    received: i32,
    shape: [i32; 2],
    signal_type: i32,
    quant_offset_type: i32,
    nlsf_interp_coef_q2: i32,
    seed: i32,
    pitch_l: [i32; 4],
    gains_q16: [i32; 4],
    ltp_scale_q14: i32,
}

#[repr(C)]
struct Coefs {
    ltp_coef_q14: [i16; 20],
    pred_coef_q12: [[i16; 16]; 2],
    lines: [i16; 16],
}

struct Player {
    dec: SilkDecoderState,
    frame: RangeCoder<'static>,
    output: [i16; MAX_FRAME_LENGTH],
}

unsafe extern "C" fn set_up(player: *mut Player, shape: &Shape) {
    let dec = SilkDecoderState {
        fs_khz: shape.fs_khz,
        nb_subfr: shape.nb_subfr,
        frame_length: shape.frame_length,
        subfr_length: shape.subfr_length,
        ltp_mem_length: shape.ltp_mem_length,
        lpc_order: shape.lpc_order,
        ..Default::default()
    };
    let frame = RangeCoder { indices: dec.indices, lines: [0; 16], pulses: &[], control: SilkDecoderControl::new() };
    unsafe { player.write(Player { dec, frame, output: [0; MAX_FRAME_LENGTH] }) }
}

/// The small numbers go into the state too, where the core alone reads them.
unsafe extern "C" fn bring(player: *mut Player, frame: &Frame, coefs: &Coefs, pulses: *const i16, count: usize) {
    let player = unsafe { &mut *player };
    if frame.received != 0 {
        player.dec.indices = SideInfoIndices {
            signal_type: frame.signal_type as i8,
            quant_offset_type: frame.quant_offset_type as i8,
            nlsf_interp_coef_q2: frame.nlsf_interp_coef_q2 as i8,
            seed: frame.seed as i8,
            ..Default::default()
        };
    }
    player.frame = RangeCoder {
        indices: player.dec.indices,
        lines: coefs.lines,
        pulses: unsafe { from_raw_parts(pulses, count) },
        control: SilkDecoderControl {
            pitch_l: frame.pitch_l,
            gains_q16: frame.gains_q16,
            pred_coef_q12: coefs.pred_coef_q12,
            ltp_coef_q14: coefs.ltp_coef_q14,
            ltp_scale_q14: frame.ltp_scale_q14,
        },
    };
}

unsafe extern "C" fn output(player: *const Player) -> *const i16 {
    unsafe { &raw const (*player).output }.cast()
}

/// All that a call works on: state, frame and the frame's room.
fn parts(player: &mut Player) -> (&mut SilkDecoderState, &mut RangeCoder<'static>, &mut [i16]) {
    let length = player.dec.frame_length as usize;
    (&mut player.dec, &mut player.frame, &mut player.output[..length])
}

fn whole(player: &mut Player, flag: i32) -> i32 {
    let (dec, frame, output) = parts(player);
    silk_decode_frame(dec, frame, output, &mut 0, flag, 0)
}

calls! {
    side_received |player| whole(player, FLAG_DECODE_NORMAL);
    side_lost |player| whole(player, FLAG_PACKET_LOST);
}

/// A stage that is called from elsewhere too is not inlined into the frame, so one crate has frames alone.
#[cfg(feature = "one_crate")]
const STAGES: [Option<Call<Player>>; 3] = [None; 3];

#[cfg(not(feature = "one_crate"))]
const STAGES: [Option<Call<Player>>; 3] = {
    use given::silk::{cng::silk_cng, decode_core::silk_decode_core, plc::silk_plc};

    fn stage(player: &mut Player, stage: impl FnOnce(&mut SilkDecoderState, &mut RangeCoder, &mut [i16])) -> i32 {
        let (dec, frame, output) = parts(player);
        stage(dec, frame, output);
        0
    }

    calls! {
        side_core |player| stage(player, |dec, frame, output| silk_decode_core(dec, &mut frame.control, output, frame.pulses));
        side_plc_lost |player| stage(player, |dec, frame, output| silk_plc(dec, &mut frame.control, output, 1));
        side_noise |player| stage(player, |dec, frame, output| silk_cng(dec, &frame.control, output, output.len()));
    }
    [Some(side_core), Some(side_plc_lost), Some(side_noise)]
};

#[unsafe(no_mangle)]
static SIDE: Side<Player, Frame, Coefs> = Side {
    size: size_of::<Player>(),
    state: size_of::<SilkDecoderState>(),
    recorded: false,
    set_up,
    bring,
    output,
    frames: [side_received, side_lost],
    stages: STAGES,
};
