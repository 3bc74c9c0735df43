//! Hand-made lists of frames from set-up: changes of shape (document 02, Note 1), a squelch (Note 3) and editions (Note 10).

use crate::call::{self, Call, Draft, What::*};
use crate::post::ffi::frame::{GAINS, LAGS};
use crate::reference::{NEWER, OLDER, Settings, read_state, set_up};
use given::silk::decoder_structs::SilkDecoderState;

/// What is to hold of the state and of the slices that a call leaves.
type Holds = fn(&SilkDecoderState, &Call) -> bool;

pub struct Vector {
    pub label: &'static str,
    set_up: (i32, i32),
    settings: Settings,
    /// Each frame, and what is asked of it.
    frames: Vec<(Draft, Option<Holds>)>,
}

impl Vector {
    fn new(label: &'static str, set_up: (i32, i32), settings: Settings) -> Vector {
        Vector { label, set_up, settings, frames: vec![] }
    }

    fn plays(mut self, frame: Draft) -> Vector {
        self.frames.push((frame, None));
        self
    }

    fn loses(self, count: usize) -> Vector {
        (0..count).fold(self, |list, _| list.plays(lost(8, 2)))
    }

    fn gives(mut self, frame: Draft, holds: Holds) -> Vector {
        self.frames.push((frame, Some(holds)));
        self
    }

    /// The list's calls, each of which is given the state that the one before left.
    pub fn calls(&self) -> Vec<Call> {
        let plain = Draft::plain(SetUpWith, self.set_up.0, self.set_up.1);
        let set_up = Draft { named: self.settings, ..plain };
        std::iter::once(&set_up).chain(self.frames.iter().map(|(frame, _)| frame)).map(|draft| draft.clone().call()).collect()
    }

    /// The frames of which something is asked, by their number from 1, each on the state that those before it leave.
    pub fn asked(&self) -> Vec<(usize, Draft, Holds)> {
        let (mut dec, mut asked) = (set_up(self.set_up.0, self.set_up.1), vec![]);
        for (index, (frame, holds)) in self.frames.iter().enumerate() {
            let frame = Draft { settings: self.settings, ..on(dec, frame.clone()) };
            dec = left(frame.clone());
            asked.extend(holds.map(|holds| (index + 1, frame, holds)));
        }
        asked
    }
}

/// A voiced frame with a pulse of 3 at every 16th place.
pub fn voiced(rate: i32, subframes: i32) -> Draft {
    let mut d = Draft::plain(Received, rate, subframes);
    (d.dec.indices.signal_type, d.dec.indices.nlsf_interp_coef_q2, d.dec.indices.seed) = (2, 4, 1);
    (d.control.pitch_l, d.control.gains_q16, d.control.ltp_scale_q14) = ([10 * rate; 4], [1 << 24; 4], 15_565);
    d.control.ltp_coef_q14.chunks_mut(5).for_each(|taps| taps[2] = 8_192);
    d.control.pred_coef_q12.iter_mut().for_each(|row| row[0] = 2_048);
    (0..16).for_each(|i| d.lines[i] = 1_900 * (i as i16 + 1));
    d.pulses.iter_mut().step_by(16).for_each(|pulse| *pulse = 3);
    d
}

fn lost(rate: i32, subframes: i32) -> Draft {
    Draft::plain(Lost, rate, subframes)
}

/// An inactive frame without pulses, whose lines noise takes up.
fn lines(lines: [i16; 10]) -> Draft {
    let mut d = Draft::plain(Received, 8, 2);
    (d.dec.indices.nlsf_interp_coef_q2, d.control.gains_q16) = (4, [8_192_000; 4]);
    d.lines[..10].copy_from_slice(&lines);
    d
}

/// An inactive frame without pulses, whose two rows have these first coefficients.
fn rows(first: i16, second: i16) -> Draft {
    let mut d = Draft::plain(Received, 8, 2);
    d.dec.indices.nlsf_interp_coef_q2 = 4;
    d.control.pred_coef_q12.iter_mut().for_each(|row| (row[0], row[1]) = (first, second));
    d
}

/// A frame on another state.
pub fn on(dec: SilkDecoderState, mut draft: Draft) -> Draft {
    let indices = draft.dec.indices;
    draft.dec = SilkDecoderState { indices, ..dec };
    draft
}

/// The state that a frame leaves, which is played.
pub fn left(frame: Draft) -> SilkDecoderState {
    let mut call = frame.call();
    assert_eq!(call::reference(&mut call), 0, "a frame of a list is played");
    read_state(&call.words, &call.halves)
}

/// The largest sample in size.
fn largest(c: &Call) -> u16 {
    c.output.iter().map(|sample| sample.unsigned_abs()).max().unwrap()
}

/// The first samples, the last, the largest in size, and the sum.
fn heard(c: &Call) -> ([i16; 8], i16, u16, i32) {
    (c.output[..8].try_into().unwrap(), *c.output.last().unwrap(), largest(c), c.output.iter().map(|sample| *sample as i32).sum())
}

/// `lag_prev`, the previous type, the first-frame flag and the count of losses.
fn kept(s: &SilkDecoderState) -> (i32, i32, i32, i32) {
    (s.lag_prev, s.prev_signal_type, s.first_frame_after_reset, s.loss_cnt)
}

/// Rate, subframes and their length, pitch, middle tap, noise scale, later gain, first coefficient and energy of concealment.
fn concealment(s: &SilkDecoderState) -> ([i32; 4], i16, i16, i32, i16, i32) {
    let plc = &s.s_plc;
    let shape = [plc.fs_khz, plc.nb_subfr, plc.subfr_length, plc.pitch_l_q8];
    (shape, plc.ltp_coef_q14[2], plc.rand_scale_q14, plc.prev_gain_q16[1], plc.prev_lpc_q12[0], plc.conc_energy)
}

/// The count of losses, the energy for gluing and the description's lags.
fn moved(s: &SilkDecoderState, c: &Call) -> (i32, i32, [i32; 4]) {
    (s.loss_cnt, s.s_plc.conc_energy, c.frame[LAGS..GAINS].try_into().unwrap())
}

/// The held shape: rate, subframes, frame, subframe, history and order.
fn shape(s: &SilkDecoderState) -> [i32; 6] {
    [s.fs_khz, s.nb_subfr, s.frame_length, s.subfr_length, s.ltp_mem_length, s.lpc_order]
}

/// After 12, 4: what a loss at 16, 2 leaves.
fn lost_at_16(s: &SilkDecoderState, c: &Call) -> bool {
    shape(s) == [16, 2, 160, 80, 320, 16]
        && kept(s) == (82, 0, 1, 1)
        && concealment(s) == ([16, 2, 20, 20_890], 11_235, 16_057, 65_536, 0, 65)
        && s.s_plc.prev_lpc_q12 == [0; 16]
        && (s.s_cng.fs_khz, s.s_cng.cng_smth_nlsf_q15[0], s.s_cng.cng_smth_nlsf_q15[15]) == (16, 1_927, 30_832)
        && s.prev_gain_q16 == 1 << 24
        && c.frame[LAGS..GAINS] == [82; 4]
}

/// And then a frame received there.
fn resumed_at_16(s: &SilkDecoderState, c: &Call) -> bool {
    heard(c) == ([2, 10, 10, 7, 4, 3, 3, 1], 9, 764, 637)
        && kept(s) == (160, 2, 0, 0)
        && concealment(s) == ([16, 2, 80, 40_960], 11_464, 16_057, 1 << 24, 2_048, 65)
        && s.prev_nlsf_q15[15] == 30_400
}

/// Or another loss, back at 12, 4.
fn lost_at_12(s: &SilkDecoderState, c: &Call) -> bool {
    shape(s) == [12, 4, 240, 60, 240, 10]
        && kept(s) == (125, 0, 1, 2)
        && concealment(s) == ([12, 2, 20, 31_966], 9_150, 10_533, 65_536, 0, 154)
        && s.s_cng.cng_smth_nlsf_q15[9..11] == [29_780, 21_197]
        && c.frame[LAGS..GAINS] == [125; 4]
}

pub fn all() -> Vec<Vector> {
    changes().into_iter().chain(squelches()).chain(editions()).collect()
}

fn changes() -> [Vector; 7] {
    let from = |label: &'static str, rate: i32| Vector::new(label, (rate, 4), Settings::default());
    [
        from("12, 4; lost at 12, 2", 12)
            .gives(voiced(12, 4), |s, c| {
                heard(c) == ([757, 388, 203, 95, 41, 30, 24, 5], 3, 765, 3_305)
                    && kept(s) == (120, 2, 0, 0)
                    && concealment(s) == ([12, 4, 60, 30_720], 11_464, 0, 1 << 24, 2_048, 0)
                    && s.prev_nlsf_q15[9..] == [19_000, 0, 0, 0, 0, 0, 0]
            })
            .gives(lost(12, 2), |s, c| {
                heard(c) == ([261, 139, 71, 38, 15, 20, 12, 2], -11, 537, -101)
                    && shape(s) == [12, 2, 120, 60, 240, 10]
                    && kept(s) == (122, 2, 0, 1)
                    && concealment(s) == ([12, 4, 60, 31_337], 11_235, 4_218, 1 << 24, 2_028, 3_735_631)
                    && c.frame[LAGS..GAINS] == [122; 4]
            }),
        from("12, 4; lost at 12, 4", 12).plays(voiced(12, 4)).gives(lost(12, 4), |s, c| {
            heard(c) == ([261, 139, 71, 38, 15, 20, 12, 2], -85, 537, -2_294)
                && kept(s) == (125, 2, 0, 1)
                && concealment(s) == ([12, 4, 60, 31_966], 11_010, 3_806, 1 << 24, 2_028, 6_337_560)
                && c.frame[LAGS..GAINS] == [125; 4]
        }),
        from("12, 4; lost at 16, 2; 16, 2", 12)
            .plays(voiced(12, 4))
            .gives(lost(16, 2), |s, c| heard(c) == ([0; 8], 0, 5, 19) && lost_at_16(s, c))
            .gives(voiced(16, 2), resumed_at_16),
        from("12, 4; lost at 16, 2; lost at 12, 4", 12)
            .plays(voiced(12, 4))
            .plays(lost(16, 2))
            .gives(lost(12, 4), |s, c| heard(c) == ([0, 3, 0, 0, 0, 0, 0, 0], 0, 3, 10) && lost_at_12(s, c)),
        from("12, 4; 8, 4", 12).plays(voiced(12, 4)).gives(voiced(8, 4), |s, c| {
            heard(c) == ([757, 388, 203, 95, 41, 30, 24, 5], 4, 1_138, 5_402)
                && shape(s) == [8, 4, 160, 40, 160, 10]
                && kept(s) == (80, 2, 0, 0)
                && concealment(s) == ([8, 4, 40, 20_480], 11_464, 0, 1 << 24, 2_048, 0)
        }),
        from("12, 4; 16, 4", 12).plays(voiced(12, 4)).gives(voiced(16, 4), |s, c| {
            heard(c) == ([758, 389, 205, 96, 42, 31, 26, 7], 18, 1_143, 2_470)
                && shape(s) == [16, 4, 320, 80, 320, 16]
                && kept(s) == (160, 2, 0, 0)
                && concealment(s) == ([16, 4, 80, 40_960], 11_464, 0, 1 << 24, 2_048, 0)
        }),
        from("16, 4; lost at 16, 2", 16).plays(voiced(16, 4)).gives(lost(16, 2), |s, c| {
            heard(c) == ([-250, -122, -58, -32, -18, 5, 5, 11], 8, 806, 478)
                && kept(s) == (163, 2, 0, 1)
                && concealment(s) == ([16, 4, 80, 41_782], 11_235, 4_218, 1 << 24, 2_028, 4_249_872)
        }),
    ]
}

fn squelches() -> [Vector; 3] {
    let from =
        |label: &'static str, shape: (i32, i32), squelch: i32| Vector::new(label, shape, Settings { squelch, ..Settings::default() });
    [
        from("squelch 3; four losses between two frames, and one more", (8, 2), 3)
            .plays(voiced(8, 2))
            .gives(lost(8, 2), |s, c| {
                c.output[..6] == [531, 275, 145, 69, 29, 20] && largest(c) == 640 && moved(s, c) == (1, 2_170_806, [82; 4])
            })
            .gives(lost(8, 2), |s, c| {
                c.output[..6] == [12, 3, 370, 193, 103, 50] && largest(c) == 442 && moved(s, c) == (2, 1_037_875, [83; 4])
            })
            .gives(lost(8, 2), |s, c| c.output == [0; 80] && moved(s, c) == (3, 478_733, [85; 4]))
            .gives(lost(8, 2), |s, c| c.output == [0; 80] && moved(s, c) == (4, 208_441, [87; 4]))
            .gives(voiced(8, 2), |s, c| {
                c.output[..8] == [173, 104, 63, 20, 9, 9, 25, 11] && largest(c) == 768 && (s.loss_cnt, s.s_plc.conc_energy) == (0, 208_441)
            })
            .gives(lost(8, 2), |s, c| {
                c.output[..6] == [541, 280, 148, 47, 20, 20] && largest(c) == 564 && moved(s, c) == (1, 2_259_583, [82; 4])
            }),
        from("squelch 1; 12, 4; lost at 16, 2; 16, 2", (12, 4), 1)
            .plays(voiced(12, 4))
            .gives(lost(16, 2), |s, c| c.output == [0; 160] && lost_at_16(s, c))
            .gives(voiced(16, 2), resumed_at_16),
        from("squelch 2; 12, 4; lost at 16, 2; lost at 12, 4", (12, 4), 2)
            .plays(voiced(12, 4))
            .gives(lost(16, 2), |s, c| heard(c) == ([0; 8], 0, 5, 19) && lost_at_16(s, c))
            .gives(lost(12, 4), |s, c| c.output == [0; 240] && lost_at_12(s, c)),
    ]
}

fn editions() -> [Vector; 8] {
    let newer = |label: &'static str| Vector::new(label, (8, 2), Settings { edition: NEWER, ..Settings::default() });
    let older = |label: &'static str| Vector::new(label, (8, 2), Settings { edition: OLDER, ..Settings::default() });
    let apart = lines([6434, 0, 32767, 32767, 32767, 0, 0, 32767, 26014, 32767]);
    let loud = lines([32767, 14671, 0, 0, 1974, 0, 8636, 2698, 0, 0]);
    [
        newer("noise by 8251").plays(apart.clone()).loses(11).gives(lost(8, 2), |_, c| c.output[0] == 1),
        older("noise by 6716").plays(apart).loses(11).gives(lost(8, 2), |_, c| c.output[0] == -347),
        newer("other noise by 8251")
            .plays(loud.clone())
            .loses(11)
            .gives(lost(8, 2), |_, c| (c.output[0], largest(c)) == (2, 3))
            .loses(8)
            .gives(lost(8, 2), |_, c| largest(c) == 32)
            .loses(39)
            .gives(lost(8, 2), |_, c| largest(c) == 37)
            .loses(139)
            .gives(lost(8, 2), |_, c| largest(c) == 27)
            .loses(898)
            .gives(lost(8, 2), |s, c| (s.loss_cnt, largest(c)) == (1_100, 33)),
        older("loud noise by 6716")
            .plays(loud)
            .loses(11)
            .gives(lost(8, 2), |_, c| (c.output[0], largest(c)) == (32_767, 32_768))
            .loses(8)
            .gives(lost(8, 2), |_, c| largest(c) == 32_768)
            .loses(39)
            .gives(lost(8, 2), |_, c| largest(c) == 32_767)
            .loses(139)
            .gives(lost(8, 2), |_, c| largest(c) == 32_767)
            .loses(898)
            .gives(lost(8, 2), |s, c| (s.loss_cnt, largest(c)) == (1_100, 32_767)),
        newer("concealment by 8251").plays(rows(-32582, 4051)).gives(lost(8, 2), |s, _| s.s_plc.rand_scale_q14 == 15),
        older("concealment by 6716").plays(rows(-32582, 4051)).gives(lost(8, 2), |s, _| s.s_plc.rand_scale_q14 == 3_770),
        newer("other concealment by 8251").plays(rows(-2325, 4170)).gives(lost(8, 2), |s, _| s.s_plc.rand_scale_q14 == 15),
        older("other concealment by 6716").plays(rows(-2325, 4170)).gives(lost(8, 2), |s, _| s.s_plc.rand_scale_q14 == 17),
    ]
}
