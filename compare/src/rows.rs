//! Hand-made cases: the ends of every range of document 01 and its test bench; of document 02 changes of shape (Note 1), squelches (Note 3),
//! editions (Note 10) and what the announcement writer asks (Note 6).

use crate::call::{BYTES, Call, Draft, LONG, SHORT, What};
use crate::draw::{APART_10, BETWEEN_10, BETWEEN_16};
use crate::post::ffi::frame::{GAINS, INTERPOLATION, LAGS, OFFSET, RATE, RECEIVED, SEED, SIGNAL, SUBFRAMES};
use crate::post::ffi::words::{EDITION, SQUELCH};
use crate::reference::{NEWER, OLDER, read_state, set_up};
use crate::vectors::{self, left, on, voiced};
use What::*;
use given::silk::decoder_structs::SilkDecoderState;

pub struct Row {
    pub label: String,
    pub what: What,
    /// It stands in the fixed list of answers even where it plays a frame.
    pub listed: bool,
    draft: Draft,
    answer: i32,
    holds: Box<dyn Fn(&SilkDecoderState, &Call) -> bool>,
}

impl Row {
    pub fn call(&self) -> Call {
        self.draft.clone().call()
    }

    /// The answer is the row's; refused, everything is unchanged.
    pub fn check(&self, answer: i32, before: &Call, after: &Call) -> Result<(), String> {
        let (mut before, mut after) = (before.clone(), after.clone());
        if answer != self.answer {
            return Err(format!("answered {answer}, not {}", self.answer));
        }
        let same = LONG.iter().all(|(_, get, _)| get(&mut before) == get(&mut after))
            && SHORT.iter().all(|(_, get, _)| get(&mut before) == get(&mut after))
            && BYTES.iter().all(|(_, get, _)| get(&mut before) == get(&mut after));
        if answer != 0 && !same {
            return Err("something was changed".into());
        }
        let dec = if after.words.is_empty() { SilkDecoderState::default() } else { read_state(&after.words, &after.halves) };
        if (self.holds)(&dec, &after) { Ok(()) } else { Err("another result".into()) }
    }
}

/// The rows, in the order in which they are added, and whether the next ones are listed.
struct Table {
    rows: Vec<Row>,
    listed: bool,
}

impl Table {
    /// A plain call at 16 kHz with four subframes, changed.
    fn add(&mut self, what: What, label: &str, answer: i32, change: impl Fn(&mut Draft)) {
        self.outcome(what, label, answer, change, |_, _| true);
    }

    fn outcome(
        &mut self, what: What, label: &str, answer: i32, change: impl Fn(&mut Draft),
        holds: impl Fn(&SilkDecoderState, &Call) -> bool + 'static,
    ) {
        let mut draft = Draft::plain(what, 16, 4);
        (draft.dec.s_plc.fs_khz, draft.dec.s_cng.fs_khz) = (16, 16);
        (draft.dec.s_plc.pitch_l_q8, draft.dec.s_plc.prev_gain_q16) = (512 * 16, [65_536; 2]);
        (draft.dec.s_plc.nb_subfr, draft.dec.s_plc.subfr_length) = (4, 80);
        change(&mut draft);
        self.push(label, answer, draft, holds);
    }

    fn push(&mut self, label: &str, answer: i32, draft: Draft, holds: impl Fn(&SilkDecoderState, &Call) -> bool + 'static) {
        self.rows.push(Row { label: label.into(), what: draft.what, listed: self.listed, draft, answer, holds: Box::new(holds) });
    }

    /// A change that every function judging the state answers alike.
    fn state(&mut self, label: &str, answer: i32, change: impl Fn(&mut Draft)) {
        for what in [Received, Lost, Core, PlcReceived, PlcLost, Glue, Noise] {
            self.add(what, label, answer, &change);
        }
    }

    /// A change that every function judging the description answers alike.
    fn described(&mut self, label: &str, answer: i32, change: impl Fn(&mut Draft)) {
        for what in [Received, Core, PlcReceived] {
            self.add(what, label, answer, &change);
        }
    }
}

pub fn all() -> Vec<Row> {
    let mut table = Table { rows: alone(), listed: false };
    for list in vectors::all() {
        for (number, frame, holds) in list.asked() {
            table.push(&format!("{}: frame {number}", list.label), 0, frame, holds);
        }
    }
    table.rows
}

/// The rows that are no list's frame.
pub fn alone() -> Vec<Row> {
    let mut table = Table { rows: vec![], listed: false };
    shapes(&mut table);
    states(&mut table);
    descriptions(&mut table);
    lengths(&mut table);
    bench(&mut table);
    table.listed = true;
    changes(&mut table);
    squelches(&mut table);
    editions(&mut table);
    announcements(&mut table);
    table.rows
}

fn shapes(t: &mut Table) {
    t.state("plain", 0, |_| {});
    t.state("rate 0", 1, |d| d.dec.fs_khz = 0);
    t.state("rate 24", 1, |d| d.dec.fs_khz = 24);
    t.state("rate 15 and all else wrong", 1, |d| (d.dec.fs_khz, d.dec.nb_subfr, d.dec.loss_cnt, d.length) = (15, 3, -1, 0));
    t.state("rate 12 with the sizes of 16", 2, |d| d.dec.fs_khz = 12);
    t.state("3 subframes", 2, |d| d.dec.nb_subfr = 3);
    t.state("2 subframes, frame of 4", 2, |d| d.dec.nb_subfr = 2);
    t.state("frame length", 2, |d| d.dec.frame_length += 1);
    t.state("subframe length", 2, |d| d.dec.subfr_length -= 1);
    t.state("history length", 2, |d| d.dec.ltp_mem_length = 319);
    t.state("order 10 at 16", 2, |d| d.dec.lpc_order = 10);
    t.state("size before history", 2, |d| (d.dec.lpc_order, d.dec.loss_cnt) = (15, -1));
    t.add(SetUp, "16, 4", 0, |_| {});
    t.add(SetUp, "rate 10", 1, |d| d.rate = 10);
    t.add(SetUp, "3 subframes", 2, |d| d.subframes = 3);
    t.add(SetUp, "rate first", 1, |d| (d.rate, d.subframes) = (0, 0));
    t.outcome(
        SetUp,
        "8, 2",
        0,
        |d| (d.rate, d.subframes) = (8, 2),
        |s, _| {
            (s.prev_gain_q16, s.lag_prev, s.first_frame_after_reset, s.s_plc.fs_khz, s.s_cng.fs_khz) == (65_536, 100, 1, 0, 0)
                && (s.fs_khz, s.nb_subfr, s.frame_length, s.subfr_length, s.ltp_mem_length, s.lpc_order) == (8, 2, 80, 40, 160, 10)
        },
    );
    t.add(Played, "16, 4", 320, |_| {});
    t.add(Played, "a longer buffer", 320, |d| d.output.push(1));
    t.add(Played, "a short buffer", 0, |d| d.output.truncate(319));
    t.add(Played, "rate 9", 0, |d| d.rate = 9);
    t.add(Played, "1 subframe", 0, |d| d.subframes = 1);
    t.add(Played, "12, 2", 120, |d| (d.rate, d.subframes) = (12, 2));
}

fn states(t: &mut Table) {
    t.state("loss_cnt -1", 3, |d| d.dec.loss_cnt = -1);
    t.state("lag_prev 31", 3, |d| (d.dec.loss_cnt, d.dec.lag_prev) = (1, 31));
    t.state("lag_prev 32", 0, |d| (d.dec.loss_cnt, d.dec.lag_prev) = (1, 32));
    t.state("lag_prev 288", 0, |d| (d.dec.loss_cnt, d.dec.lag_prev) = (1, 288));
    t.state("lag_prev 289", 3, |d| (d.dec.loss_cnt, d.dec.lag_prev) = (1, 289));
    t.state("lag_prev free without a loss", 0, |d| d.dec.lag_prev = -5);
    t.state("prev_signal_type -1", 3, |d| d.dec.prev_signal_type = -1);
    t.state("prev_signal_type 2", 0, |d| d.dec.prev_signal_type = 2);
    t.state("prev_signal_type 3", 3, |d| d.dec.prev_signal_type = 3);
    t.state("prev_gain_q16 65,535", 3, |d| d.dec.prev_gain_q16 = 65_535);
    t.state("prev_gain_q16 65,536", 0, |d| d.dec.prev_gain_q16 = 65_536);
    t.state("prev_gain_q16 1,686,110,208", 0, |d| d.dec.prev_gain_q16 = 1_686_110_208);
    t.state("prev_gain_q16 1,686,110,209", 3, |d| d.dec.prev_gain_q16 = 1_686_110_209);
    t.state("first_frame_after_reset 2", 3, |d| d.dec.first_frame_after_reset = 2);
    t.state("first_frame_after_reset -1", 3, |d| d.dec.first_frame_after_reset = -1);
    t.state("last_frame_lost 1", 0, |d| d.dec.s_plc.last_frame_lost = 1);
    t.state("last_frame_lost 2", 3, |d| d.dec.s_plc.last_frame_lost = 2);
    t.state("prev_nlsf_q15[15] -1", 3, |d| d.dec.prev_nlsf_q15[15] = -1);
    for place in [0usize, 1, 3, 4] {
        let change: fn(&mut Draft) = match place {
            0 => |d| d.dec.s_plc.ltp_coef_q14[0] = 1,
            1 => |d| d.dec.s_plc.ltp_coef_q14[1] = -1,
            3 => |d| d.dec.s_plc.ltp_coef_q14[3] = 1,
            _ => |d| d.dec.s_plc.ltp_coef_q14[4] = -1,
        };
        t.state("an outer tap", 3, change);
    }
    t.state("middle tap -11,457", 3, |d| d.dec.s_plc.ltp_coef_q14[2] = -11_457);
    t.state("middle tap -11,456", 0, |d| d.dec.s_plc.ltp_coef_q14[2] = -11_456);
    t.state("middle tap 15,565", 0, |d| d.dec.s_plc.ltp_coef_q14[2] = 15_565);
    t.state("middle tap 15,566", 3, |d| d.dec.s_plc.ltp_coef_q14[2] = 15_566);
    t.state("rand_scale_q14 -1", 3, |d| d.dec.s_plc.rand_scale_q14 = -1);
    t.state("rand_scale_q14 27,840", 0, |d| d.dec.s_plc.rand_scale_q14 = 27_840);
    t.state("rand_scale_q14 27,841", 3, |d| d.dec.s_plc.rand_scale_q14 = 27_841);
    t.state("held LTP scale -1", 3, |d| d.dec.s_plc.prev_ltp_scale_q14 = -1);
    t.state("held LTP scale 16,384", 0, |d| d.dec.s_plc.prev_ltp_scale_q14 = 16_384);
    t.state("held LTP scale 16,385", 3, |d| d.dec.s_plc.prev_ltp_scale_q14 = 16_385);
    t.state("energy -1", 3, |d| d.dec.s_plc.conc_energy = -1);
    t.state("energy at the top", 0, |d| d.dec.s_plc.conc_energy = i32::MAX);
    t.state("energy shift -1", 3, |d| d.dec.s_plc.conc_energy_shift = -1);
    t.state("energy shift 31", 0, |d| d.dec.s_plc.conc_energy_shift = 31);
    t.state("energy shift 32", 3, |d| d.dec.s_plc.conc_energy_shift = 32);
    t.state("pitch 8,191", 3, |d| d.dec.s_plc.pitch_l_q8 = 8_191);
    t.state("pitch 73,728", 0, |d| d.dec.s_plc.pitch_l_q8 = 73_728);
    t.state("pitch 73,729", 3, |d| d.dec.s_plc.pitch_l_q8 = 73_729);
    t.state("pitch at another rate", 0, |d| (d.dec.s_plc.fs_khz, d.dec.s_plc.pitch_l_q8) = (8, -1));
    t.state("held gain 65,535", 3, |d| d.dec.s_plc.prev_gain_q16[0] = 65_535);
    t.state("held gain 1,686,110,209", 3, |d| d.dec.s_plc.prev_gain_q16[1] = 1_686_110_209);
    t.state("held gain at another rate", 0, |d| (d.dec.s_plc.fs_khz, d.dec.s_plc.prev_gain_q16) = (0, [-7, 0]));
    t.state("2 of 20", 0, |d| (d.dec.s_plc.nb_subfr, d.dec.s_plc.subfr_length) = (2, 20));
    t.state("2 of 80", 0, |d| (d.dec.s_plc.nb_subfr, d.dec.s_plc.subfr_length) = (2, 80));
    t.state("4 of 20", 3, |d| (d.dec.s_plc.nb_subfr, d.dec.s_plc.subfr_length) = (4, 20));
    t.state("3 of 80", 3, |d| (d.dec.s_plc.nb_subfr, d.dec.s_plc.subfr_length) = (3, 80));
    t.state("2 of 60 at 16", 3, |d| (d.dec.s_plc.nb_subfr, d.dec.s_plc.subfr_length) = (2, 60));
    t.state("any subframes at another rate", 0, |d| (d.dec.s_plc.fs_khz, d.dec.s_plc.nb_subfr) = (12, 77));
    t.state("noise line -1", 3, |d| d.dec.s_cng.cng_smth_nlsf_q15[15] = -1);
    t.state("noise line at another rate", 0, |d| (d.dec.s_cng.fs_khz, d.dec.s_cng.cng_smth_nlsf_q15[0]) = (8, -1));
    t.state("noise gain -1", 3, |d| d.dec.s_cng.cng_smth_gain_q16 = -1);
    t.state("noise gain 1,686,110,208", 0, |d| d.dec.s_cng.cng_smth_gain_q16 = 1_686_110_208);
    t.state("noise gain 1,686,110,209", 3, |d| d.dec.s_cng.cng_smth_gain_q16 = 1_686_110_209);
    t.state("noise gain at another rate", 0, |d| (d.dec.s_cng.fs_khz, d.dec.s_cng.cng_smth_gain_q16) = (0, -1));
    for what in [Lost, PlcLost] {
        t.add(what, "run full", 4, |d| (d.dec.loss_cnt, d.dec.lag_prev) = (i32::MAX, 100));
        t.add(what, "one below run full", 0, |d| (d.dec.loss_cnt, d.dec.lag_prev) = (i32::MAX - 1, 100));
        t.add(what, "history before run full", 3, |d| (d.dec.loss_cnt, d.dec.lag_prev) = (i32::MAX, 0));
        t.add(what, "run full before speaker", 4, |d| {
            (d.dec.loss_cnt, d.dec.lag_prev) = (i32::MAX, 100);
            d.output.clear();
        });
    }
    for what in [Received, Core, PlcReceived, Glue, Noise] {
        t.add(what, "run full is for lost frames", 0, |d| (d.dec.loss_cnt, d.dec.lag_prev) = (i32::MAX, 100));
    }
}

fn descriptions(t: &mut Table) {
    t.described("signal -1", 5, |d| d.dec.indices.signal_type = -1);
    t.described("signal 2", 0, |d| d.dec.indices.signal_type = 2);
    t.described("signal 3", 5, |d| d.dec.indices.signal_type = 3);
    t.described("offset 1", 0, |d| d.dec.indices.quant_offset_type = 1);
    t.described("offset 2", 5, |d| d.dec.indices.quant_offset_type = 2);
    t.described("interpolation -1", 5, |d| d.dec.indices.nlsf_interp_coef_q2 = -1);
    t.described("interpolation 0", 0, |d| d.dec.indices.nlsf_interp_coef_q2 = 0);
    t.described("interpolation 5", 5, |d| d.dec.indices.nlsf_interp_coef_q2 = 5);
    // Numbers outside 8 bits whose low 8 bits are permitted.
    t.described("signal 258", 5, |d| d.numbers.push((SIGNAL, 258)));
    t.described("signal -256", 5, |d| d.numbers.push((SIGNAL, -256)));
    t.described("offset 256", 5, |d| d.numbers.push((OFFSET, 256)));
    t.described("interpolation 65,536", 5, |d| d.numbers.push((INTERPOLATION, 65_536)));
    t.described("gain 81,919", 6, |d| d.control.gains_q16[0] = 81_919);
    t.described("gain 1,686,110,208", 0, |d| d.control.gains_q16[3] = 1_686_110_208);
    t.described("gain 1,686,110,209", 6, |d| d.control.gains_q16[3] = 1_686_110_209);
    t.described("lag 288, voiced", 0, |d| (d.dec.indices.signal_type, d.control.pitch_l[3]) = (2, 288));
    t.described("lag 289, voiced", 7, |d| (d.dec.indices.signal_type, d.control.pitch_l[3]) = (2, 289));
    t.described("lag 31, voiced", 7, |d| (d.dec.indices.signal_type, d.control.pitch_l[0]) = (2, 31));
    t.described("lag 289, unvoiced", 0, |d| (d.dec.indices.signal_type, d.control.pitch_l[0]) = (1, 289));
    t.described("LTP scale -1", 8, |d| d.control.ltp_scale_q14 = -1);
    t.described("LTP scale 16,384", 0, |d| d.control.ltp_scale_q14 = 16_384);
    t.described("LTP scale 16,385, unvoiced", 8, |d| (d.dec.indices.signal_type, d.control.ltp_scale_q14) = (1, 16_385));
    t.described("tap sum 32,767", 0, |d| {
        d.dec.indices.signal_type = 2;
        d.control.ltp_coef_q14[15..].copy_from_slice(&[32_767, 32_767, -32_767, -1, 1]);
    });
    t.described("tap sum 32,768", 8, |d| {
        d.dec.indices.signal_type = 2;
        d.control.ltp_coef_q14[15..].copy_from_slice(&[32_767, 1, 0, 0, 0]);
    });
    t.described("tap sum -32,769", 8, |d| {
        d.dec.indices.signal_type = 2;
        d.control.ltp_coef_q14[..5].copy_from_slice(&[-32_768, 0, 0, 0, -1]);
    });
    t.described("tap sum 32,768, unvoiced", 0, |d| d.control.ltp_coef_q14[..2].copy_from_slice(&[32_767, 1]));
    t.described("signal before gain", 5, |d| (d.dec.indices.signal_type, d.control.gains_q16[0]) = (3, 0));
    t.described("gain before lag", 6, |d| (d.dec.indices.signal_type, d.control.gains_q16[0], d.control.pitch_l[0]) = (2, 0, 0));
    t.described("lag before taps", 7, |d| (d.dec.indices.signal_type, d.control.ltp_scale_q14, d.control.pitch_l[0]) = (2, -1, 0));
    t.described("history before signal", 3, |d| (d.dec.indices.signal_type, d.dec.loss_cnt) = (3, -1));
    for received in [2, -1, 256, i32::MIN] {
        t.add(Received, "any number but 0 is a received frame", 10, |d| d.pulses.clear());
        t.rows.last_mut().unwrap().draft.numbers.push((RECEIVED, received));
    }
    t.add(Received, "0 is a lost frame", 0, |d| {
        d.numbers.push((RECEIVED, 0));
        d.pulses.clear();
    });
    for what in [Core, PlcReceived, PlcLost, Noise] {
        t.add(what, "a shape that is none, which is not read", 0, |d| d.numbers.extend([(RATE, 9), (SUBFRAMES, 3)]));
    }
    for what in [Core, PlcReceived, PlcLost, Noise] {
        t.add(what, "a stage does not read whether its frame is received", 0, |d| d.numbers.push((RECEIVED, i32::MAX)));
    }
    for what in [Lost, PlcLost] {
        let any = |d: &mut Draft| {
            (d.control.gains_q16, d.control.pitch_l, d.control.ltp_scale_q14) = ([-1; 4], [-1; 4], -1);
            d.control.ltp_coef_q14 = [-1; 20];
        };
        t.outcome(what, "any description, kept but for the lags", 0, any, |_, c| {
            c.frame[LAGS..GAINS] == [33; 4] && c.frame[GAINS..] == [-1; 5] && c.coefs.iter().take(20).all(|tap| *tap == -1)
        });
    }
    t.add(Noise, "gain 81,919", 6, |d| d.control.gains_q16[3] = 81_919);
    t.add(Noise, "gain 81,919 after a loss", 0, |d| (d.dec.loss_cnt, d.control.gains_q16) = (1, [81_919; 4]));
    t.add(Noise, "gain before length", 6, |d| (d.control.gains_q16[0], d.length) = (0, 0));
    let voiced = |d: &mut Draft| (d.dec.indices.signal_type, d.control.ltp_coef_q14, d.control.pitch_l) = (2, [7; 20], [40; 4]);
    t.outcome(PlcReceived, "the description is kept", 0, voiced, |_, c| c.frame[LAGS..GAINS] == [40; 4] && c.coefs[..20] == [7; 20]);
    let at_8 = |d: &mut Draft| {
        *d = Draft::plain(Received, 8, 2);
        (d.lines, d.dec.prev_nlsf_q15[10]) = ([5; 16], -7);
        d.lines[10] = -1;
    };
    t.outcome(Received, "lines past order 10", 0, at_8, |s, _| s.prev_nlsf_q15[9..12] == [5, -7, 0]);
    t.add(Received, "line -1", 9, |d| d.lines[15] = -1);
    t.add(Received, "line before pulses", 9, |d| {
        d.lines[0] = -1;
        d.pulses.clear();
    });
    for what in [Received, Core] {
        t.add(what, "319 pulses", 10, |d| d.pulses.truncate(319));
        t.add(what, "pulses before speaker", 10, |d| {
            d.pulses.clear();
            d.output.clear();
        });
    }
    for what in [Received, Core, Lost, PlcLost] {
        t.add(what, "319 samples", 11, |d| d.output.truncate(319));
    }
}

fn lengths(t: &mut Table) {
    for what in [Glue, Noise] {
        t.add(what, "length 0", 12, |d| d.length = 0);
        t.add(what, "length 1", 0, |d| d.length = 1);
        t.add(what, "length 320", 0, |d| d.length = 320);
        t.add(what, "length 321", 12, |d| {
            d.length = 321;
            d.output.resize(400, 0);
        });
        t.add(what, "length above the buffer", 12, |d| d.output.truncate(319));
        t.add(what, "history before length", 3, |d| (d.dec.loss_cnt, d.length) = (-1, 0));
    }
    for what in [Stability, Sentence] {
        t.add(what, "order 0", 13, |d| d.length = 0);
        t.add(what, "order 17", 13, |d| {
            d.length = 17;
            d.coefficients.resize(20, 0);
        });
        t.add(what, "15 coefficients", 13, |d| d.coefficients.truncate(15));
        t.add(what, "order at the top", 13, |d| d.length = usize::MAX);
    }
    t.add(Filter, "order 16", 0, |_| {});
    t.add(Filter, "order 12", 13, |d| d.length = 12);
    t.add(Filter, "15 coefficients", 13, |d| d.coefficients.truncate(15));
    t.add(Filter, "order before line", 13, |d| (d.length, d.lines[0]) = (12, -1));
    t.add(Filter, "line -1", 9, |d| d.lines[15] = -1);
    t.add(Filter, "line -1 past order 10", 0, |d| (d.length, d.lines[10]) = (10, -1));
}

/// Lines of a filter of order 10.
fn lines_10(d: &mut Draft, lines: [i16; 10]) {
    d.length = 10;
    d.lines[..10].copy_from_slice(&lines);
}

fn bench(t: &mut Table) {
    t.outcome(
        Filter,
        "lines at the limit, order 10",
        0,
        |d| lines_10(d, BETWEEN_10[0]),
        |_, c| c.coefficients[..10] == [734, 1107, 1955, 1417, 918, 211, -371, -751, -652, -474],
    );
    t.outcome(
        Filter,
        "other lines at the limit, order 10",
        0,
        |d| lines_10(d, BETWEEN_10[1]),
        |_, c| c.coefficients[..10] == [6573, -2418, 1799, -5138, 5774, -2489, 790, -2713, 2724, -809],
    );
    t.outcome(
        Filter,
        "lines at the limit, order 16",
        0,
        |d| d.lines = BETWEEN_16,
        |_, c| c.coefficients == [-1789, -2296, 296, 1092, -591, -997, -724, -757, 1114, 473, -976, -1259, -1578, -1156, 284, 115],
    );
    let noise = |d: &mut Draft| {
        (d.dec.loss_cnt, d.dec.lag_prev, d.dec.s_cng.cng_smth_nlsf_q15) = (1, 100, BETWEEN_16);
        (d.dec.s_cng.cng_smth_gain_q16, d.dec.s_cng.cng_exc_buf_q14) = (1 << 22, [1 << 20; 320]);
    };
    t.outcome(Noise, "noise of lines at the limit", 0, noise, |_, c| c.output[317] == 849);
    let lines = |d: &mut Draft| {
        d.lines = [30065, 6622, 25335, 1023, 28535, 943, 27848, 3878, 32165, 3214, 31194, 220, 25395, 8565, 30358, 2383];
    };
    t.outcome(Filter, "lines in no order", 0, lines, |_, c| c.coefficients == [25, -2709, 12, -228, 1, -7, 0, 0, 0, 0, 0, 0, 0, 0, 0, 0]);
    t.outcome(Core, "seed 0, type 2, pulse 1", 0, |d| (d.dec.indices.signal_type, d.pulses[0]) = (2, 1), |s, _| s.exc_q14[0] == 15_616);
    t.outcome(Core, "seed 0, type 2, pulse 0", 0, |d| d.dec.indices.signal_type = 2, |s, _| s.exc_q14[0] == 512);
    t.outcome(Core, "seed 0, type 2, pulse -1", 0, |d| (d.dec.indices.signal_type, d.pulses[0]) = (2, -1), |s, _| s.exc_q14[0] == -14_592);
    t.outcome(
        Core,
        "seed 7, type 2, pulse 0",
        0,
        |d| (d.dec.indices.signal_type, d.dec.indices.seed) = (2, 7),
        |s, _| s.exc_q14[0] == -512,
    );
    t.outcome(
        Core,
        "of seed 263 the low 8 bits, 7",
        0,
        |d| {
            d.dec.indices.signal_type = 2;
            d.numbers.push((SEED, 263));
        },
        |s, c| s.exc_q14[0] == -512 && c.frame[SEED] == 263,
    );
    for what in [Received, Core] {
        let after_loss = |d: &mut Draft| {
            (d.dec.loss_cnt, d.dec.prev_signal_type, d.dec.lag_prev) = (1, 2, 50);
            (d.control.ltp_coef_q14, d.control.pitch_l) = ([7; 20], [-1; 4]);
        };
        t.outcome(what, "unvoiced after a voiced loss", 0, after_loss, |_, c| {
            c.frame[LAGS..GAINS] == [50, 50, -1, -1] && c.coefs[..10] == [0, 0, 4096, 0, 0, 0, 0, 4096, 0, 0] && c.coefs[10..20] == [7; 10]
        });
    }
    fn taps(t: &mut Table, label: &str, change: fn(&mut Draft), holds: fn(&SilkDecoderState, &Call) -> bool) {
        t.outcome(PlcReceived, label, 0, change, holds);
    }
    fn sum(d: &mut Draft, sum: i16) {
        (d.dec.indices.signal_type, d.control.ltp_coef_q14[17]) = (2, sum);
    }
    taps(t, "tap sum 256", |d| sum(d, 256), |s, _| s.s_plc.ltp_coef_q14 == [0, 0, -4_915, 0, 0]);
    taps(t, "tap sum 358", |d| sum(d, 358), |s, _| s.s_plc.ltp_coef_q14[2] == -11_444);
    taps(t, "tap sum 359", |d| sum(d, 359), |s, _| s.s_plc.ltp_coef_q14[2] == 11_468);
    taps(t, "tap sum 11,469", |d| sum(d, 11_469), |s, _| s.s_plc.ltp_coef_q14[2] == 11_469);
    taps(t, "tap sum 15,565", |d| sum(d, 15_565), |s, _| s.s_plc.ltp_coef_q14[2] == 15_565);
    taps(t, "tap sum 15,566", |d| sum(d, 15_566), |s, _| s.s_plc.ltp_coef_q14[2] == 15_564);
    for what in [Lost, PlcLost] {
        t.outcome(
            what,
            "pitch 40,960",
            0,
            |d| d.dec.s_plc.pitch_l_q8 = 40_960,
            |s, c| s.s_plc.pitch_l_q8 == 42_620 && c.frame[LAGS..GAINS] == [166; 4] && s.loss_cnt == 1,
        );
        t.outcome(
            what,
            "pitch 73,728",
            0,
            |d| d.dec.s_plc.pitch_l_q8 = 73_728,
            |s, c| s.s_plc.pitch_l_q8 == 73_728 && c.frame[LAGS..GAINS] == [288; 4],
        );
    }
    t.outcome(
        Noise,
        "noise lines, order 16",
        0,
        |d| (d.dec.s_cng.fs_khz, d.dec.prev_signal_type) = (0, 1),
        |s, _| (s.s_cng.cng_smth_nlsf_q15[0], s.s_cng.cng_smth_nlsf_q15[15]) == (1_927, 30_832),
    );
    let at_8 = |d: &mut Draft| {
        *d = Draft::plain(Noise, 8, 2);
        d.dec.prev_signal_type = 1;
    };
    t.outcome(Noise, "noise lines, order 10", 0, at_8, |s, _| {
        (s.s_cng.cng_smth_nlsf_q15[0], s.s_cng.cng_smth_nlsf_q15[9]) == (2_978, 29_780)
    });
    let quiet = |d: &mut Draft| {
        *d = Draft::plain(Noise, 8, 2);
        (d.dec.s_cng.cng_synth_state, d.output) = ([9; 16], vec![9; 80]);
    };
    t.outcome(Noise, "no loss", 0, quiet, |s, c| {
        c.output == [9; 80] && s.s_cng.cng_synth_state == [0, 0, 0, 0, 0, 0, 0, 0, 0, 0, 9, 9, 9, 9, 9, 9]
    });
    let gain = |d: &mut Draft| {
        (d.dec.s_plc.last_frame_lost, d.dec.s_plc.conc_energy) = (1, 1);
        (d.length, d.output) = (1, vec![2]);
    };
    t.outcome(Glue, "a gain above one, one sample", 0, gain, |s, c| c.output == [8] && s.s_plc.conc_energy == 1);
}

// Document 02, Note 1.

/// A plain call that brings another shape; at 16 kHz with 4 subframes it lends enough for any.
fn bring(d: &mut Draft, rate: i32, subframes: i32) {
    (d.rate, d.subframes) = (rate, subframes);
}

/// The same on the state after a voiced frame of 12 kHz and 4 subframes.
fn at_12(d: &mut Draft, rate: i32, subframes: i32) {
    d.dec = left(voiced(12, 4));
    bring(d, rate, subframes);
}

/// A voiced frame on another state.
fn voiced_on(d: &mut Draft, dec: SilkDecoderState, rate: i32, subframes: i32) {
    *d = on(dec, voiced(rate, subframes));
}

fn changes(t: &mut Table) {
    for what in [Received, Lost] {
        t.add(what, "held 16, 4, coming 9, 3", 1, |d| bring(d, 9, 3));
        t.add(what, "held 16, 4, coming 9, 4", 1, |d| bring(d, 9, 4));
        t.add(what, "held 16, 4, coming 16, 3", 2, |d| bring(d, 16, 3));
        t.add(what, "held 16, 4, coming 8, 0", 2, |d| bring(d, 8, 0));
        t.add(what, "held 16, 4, coming 0, 2", 1, |d| bring(d, 0, 2));
        t.add(what, "held 3 subframes, coming 9, 2", 1, |d| {
            d.dec.nb_subfr = 3;
            bring(d, 9, 2);
        });
        t.add(what, "held 3 subframes, coming 16, 2", 2, |d| {
            d.dec.nb_subfr = 3;
            bring(d, 16, 2);
        });
        t.add(what, "held rate 9, coming 16, 4", 1, |d| d.dec.fs_khz = 9);
        t.add(what, "held rate 9, coming 16, 3", 1, |d| {
            d.dec.fs_khz = 9;
            bring(d, 16, 3);
        });
        t.add(what, "held frame length 321, coming 16, 2", 2, |d| {
            d.dec.frame_length = 321;
            bring(d, 16, 2);
        });
        t.add(what, "held frame length 321, coming 8, 2", 2, |d| {
            d.dec.frame_length = 321;
            bring(d, 8, 2);
        });
        t.add(what, "held frame length of the coming shape", 2, |d| {
            d.dec.frame_length = 80;
            bring(d, 8, 2);
        });
        t.add(what, "coming size before history", 2, |d| {
            d.dec.loss_cnt = -1;
            bring(d, 16, 3);
        });
    }
    t.add(Lost, "type 3, coming 12, 4", 3, |d| {
        at_12(d, 12, 4);
        d.dec.prev_signal_type = 3;
    });
    t.add(Lost, "type 3, coming 12, 2", 3, |d| {
        at_12(d, 12, 2);
        d.dec.prev_signal_type = 3;
    });
    t.add(Lost, "type 3, coming 16, 4", 0, |d| {
        at_12(d, 16, 4);
        d.dec.prev_signal_type = 3;
    });
    t.add(Lost, "flag 2, coming 12, 4", 3, |d| {
        at_12(d, 12, 4);
        d.dec.first_frame_after_reset = 2;
    });
    t.add(Lost, "flag 2, coming 8, 4", 0, |d| {
        at_12(d, 8, 4);
        d.dec.first_frame_after_reset = 2;
    });
    t.add(Lost, "one loss, lag 23, coming 12, 4", 3, |d| {
        at_12(d, 12, 4);
        (d.dec.loss_cnt, d.dec.lag_prev) = (1, 23);
    });
    t.add(Lost, "one loss, lag 23, coming 16, 4", 0, |d| {
        at_12(d, 16, 4);
        (d.dec.loss_cnt, d.dec.lag_prev) = (1, 23);
    });
    fn line(d: &mut Draft, rate: i32) {
        at_12(d, rate, 4);
        d.dec.prev_nlsf_q15[12] = -1;
    }
    t.add(Lost, "line 12 -1, coming 12, 4", 0, |d| line(d, 12));
    t.add(Lost, "line 12 -1, coming 8, 4", 0, |d| line(d, 8));
    t.add(Lost, "line 12 -1, coming 16, 4", 3, |d| line(d, 16));
    fn pitch(d: &mut Draft, rate: i32) {
        at_12(d, rate, 4);
        (d.dec.s_plc.fs_khz, d.dec.s_plc.pitch_l_q8) = (16, 8_191);
    }
    t.add(Lost, "concealment of 16 with pitch 8,191, coming 12, 4", 0, |d| pitch(d, 12));
    t.add(Lost, "concealment of 16 with pitch 8,191, coming 8, 4", 0, |d| pitch(d, 8));
    t.add(Lost, "concealment of 16 with pitch 8,191, coming 16, 4", 3, |d| pitch(d, 16));
    fn gain(d: &mut Draft, rate: i32) {
        at_12(d, rate, 4);
        (d.dec.s_cng.fs_khz, d.dec.s_cng.cng_smth_gain_q16) = (16, -1);
    }
    t.add(Lost, "noise of 16 with gain -1, coming 12, 4", 0, |d| gain(d, 12));
    t.add(Lost, "noise of 16 with gain -1, coming 16, 4", 3, |d| gain(d, 16));
    t.add(Lost, "run full, coming 16, 2", 4, |d| {
        at_12(d, 16, 2);
        d.dec.loss_cnt = i32::MAX;
    });
    t.add(Lost, "run full, coming 16, 3", 2, |d| {
        at_12(d, 16, 3);
        d.dec.loss_cnt = i32::MAX;
    });
    fn lent(d: &mut Draft, held: i32, coming: (i32, i32), lent: usize) {
        d.dec = set_up(16, held);
        bring(d, coming.0, coming.1);
        d.output.truncate(lent);
    }
    t.add(Lost, "held 16, 4, coming 16, 2, 160 samples", 0, |d| lent(d, 4, (16, 2), 160));
    t.add(Lost, "held 16, 4, coming 16, 4, 319 samples", 11, |d| lent(d, 4, (16, 4), 319));
    t.add(Lost, "held 16, 2, coming 16, 4, 160 samples", 11, |d| lent(d, 2, (16, 4), 160));
    t.add(Lost, "held 16, 2, coming 8, 4, 160 samples", 0, |d| lent(d, 2, (8, 4), 160));
    let past = |d: &mut Draft| {
        bring(d, 8, 2);
        d.output.fill(9);
    };
    t.outcome(Lost, "samples past the coming frame", 0, past, |_, c| c.output[80..] == [9; 240]);
    t.add(Received, "line 12 -1, held 12, 4, coming 16, 4", 9, |d| {
        voiced_on(d, left(voiced(12, 4)), 16, 4);
        d.lines[12] = -1;
    });
    t.add(Received, "line 12 -1, held 16, 4, coming 12, 4", 0, |d| {
        voiced_on(d, set_up(16, 4), 12, 4);
        d.lines[12] = -1;
    });
    t.add(Received, "gain 3 is 0, held 16, 2, coming 16, 4", 6, |d| {
        voiced_on(d, set_up(16, 2), 16, 4);
        d.control.gains_q16[3] = 0;
    });
    t.add(Received, "gain 3 is 0, held 16, 4, coming 16, 2", 0, |d| {
        voiced_on(d, set_up(16, 4), 16, 2);
        d.control.gains_q16[3] = 0;
    });
    t.add(Received, "lag 250, held 16, 4, coming 12, 4", 7, |d| {
        voiced_on(d, set_up(16, 4), 12, 4);
        d.control.pitch_l[0] = 250;
    });
    t.add(Received, "lag 250, held 12, 4, coming 16, 4", 0, |d| {
        voiced_on(d, left(voiced(12, 4)), 16, 4);
        d.control.pitch_l[0] = 250;
    });
    t.add(Received, "held 16, 2, coming 16, 4, 160 pulses", 10, |d| {
        voiced_on(d, set_up(16, 2), 16, 4);
        d.pulses.truncate(160);
    });
    t.add(Received, "held 16, 4, coming 16, 2, 160 pulses", 0, |d| voiced_on(d, set_up(16, 4), 16, 2));
}

// Document 02, Note 3.

/// A state with a count of losses and a squelch, and an output of 9s.
fn hold(d: &mut Draft, losses: i32, squelch: i32) {
    (d.dec.loss_cnt, d.settings.squelch) = (losses, squelch);
    (d.dec.s_plc.prev_lpc_q12[0], d.dec.first_frame_after_reset) = (2_048, 0);
    (d.dec.exc_q14, d.dec.s_plc.rand_scale_q14, d.dec.s_plc.prev_gain_q16) = ([1 << 20; 320], 16_384, [1 << 24; 2]);
    d.output.fill(9);
}

fn squelches(t: &mut Table) {
    fn named(d: &mut Draft, rate: i32, subframes: i32, squelch: i32) {
        (d.rate, d.subframes, d.named.squelch, d.settings.squelch) = (rate, subframes, squelch, 7);
    }
    t.outcome(SetUp, "the default squelch is 50", 0, |d| named(d, 8, 2, 9), |_, c| c.words[SQUELCH] == 50);
    t.outcome(SetUpWith, "squelch 0", 0, |d| named(d, 8, 2, 0), |s, c| (s.fs_khz, c.words[SQUELCH]) == (8, 0));
    t.outcome(SetUpWith, "squelch 1", 0, |d| named(d, 8, 2, 1), |_, c| c.words[SQUELCH] == 1);
    t.outcome(SetUpWith, "squelch 50", 0, |d| named(d, 16, 4, 50), |_, c| c.words[SQUELCH] == 50);
    t.outcome(SetUpWith, "squelch 10,000", 0, |d| named(d, 8, 2, 10_000), |_, c| c.words[SQUELCH] == 10_000);
    t.add(SetUpWith, "squelch -1", 14, |d| named(d, 8, 2, -1));
    t.add(SetUpWith, "squelch 10,001", 14, |d| named(d, 8, 2, 10_001));
    t.add(SetUpWith, "size before squelch", 2, |d| named(d, 8, 3, -1));
    t.add(SetUpWith, "rate before squelch", 1, |d| named(d, 9, 3, -1));
    t.state("held squelch -1", 3, |d| d.settings.squelch = -1);
    t.state("held squelch 10,000", 0, |d| d.settings.squelch = 10_000);
    t.state("held squelch 10,001", 3, |d| d.settings.squelch = 10_001);
    t.state("size before held squelch", 2, |d| (d.dec.lpc_order, d.settings.squelch) = (15, -1));
    t.add(Lost, "held squelch before run full", 3, |d| (d.dec.loss_cnt, d.settings.squelch) = (i32::MAX, -1));
    t.add(Lost, "held squelch 10,001, coming 8, 2", 3, |d| {
        d.settings.squelch = 10_001;
        bring(d, 8, 2);
    });
    fn plays(_: &SilkDecoderState, c: &Call) -> bool {
        c.output.iter().any(|sample| *sample != 0)
    }
    fn is_silent(_: &SilkDecoderState, c: &Call) -> bool {
        c.output.iter().all(|sample| *sample == 0)
    }
    t.outcome(Lost, "squelch 0", 0, |d| hold(d, 5, 0), plays);
    t.outcome(Lost, "squelch 1, the first loss", 0, |d| hold(d, 0, 1), is_silent);
    t.outcome(Lost, "squelch 2, the first loss", 0, |d| hold(d, 0, 2), plays);
    t.outcome(Lost, "squelch 2, the second loss", 0, |d| hold(d, 1, 2), is_silent);
    t.outcome(Lost, "squelch 50, the 49th loss", 0, |d| hold(d, 48, 50), plays);
    t.outcome(Lost, "squelch 50, the 50th loss", 0, |d| hold(d, 49, 50), is_silent);
    t.outcome(Lost, "squelch 10,000, the 9,999th loss", 0, |d| hold(d, 9_998, 10_000), plays);
    t.outcome(Lost, "squelch 10,000, the 10,000th loss", 0, |d| hold(d, 9_999, 10_000), is_silent);
    t.outcome(Lost, "squelch 10,000, the last loss that is played", 0, |d| hold(d, i32::MAX - 1, 10_000), is_silent);
    let shorter = |d: &mut Draft| {
        hold(d, 4, 3);
        bring(d, 8, 2);
    };
    t.outcome(Lost, "squelch 3, coming 8, 2", 0, shorter, |s, c| {
        s.loss_cnt == 5 && c.output[..80] == [0; 80] && c.output[80..] == [9; 240]
    });
    t.outcome(PlcLost, "concealment alone has no squelch", 0, |d| hold(d, 4, 3), plays);
    t.outcome(Noise, "noise alone has no squelch", 0, |d| hold(d, 4, 3), plays);
    t.outcome(Glue, "gluing alone has no squelch", 0, |d| hold(d, 4, 3), plays);
    t.outcome(
        Received,
        "a received frame has no squelch",
        0,
        |d| {
            hold(d, 4, 3);
            d.pulses.fill(3);
            d.control.gains_q16 = [1 << 24; 4];
        },
        plays,
    );
}

// Document 02, Note 10.

/// A filter, and its answer under the newer edition.
const ALIKE: [(&[i16], [i32; 2]); 18] = [
    (&[0], [0, 1_073_741_824]),
    (&[4_094], [0, 1_048_320]),
    (&[4_095], [2, 0]),
    (&[-4_095], [2, 0]),
    (&[4_096], [1, 0]),
    // Steps of 16,773,022, -16,773,022, 16,773,023 and 16,773,043.
    (&[3_999, 96], [0, 536_468]),
    (&[-3_999, 96], [0, 536_468]),
    (&[4_000, 95], [2, 0]),
    (&[4_019, 76], [2, 0]),
    (&[1, 4_095], [1, 0]),
    (&[0, -4_095], [2, 1]),
    (&[0, 0, 0, 0, 0, 0, 0, 0, 0, 0, 0, 0, 0, 0, 0, -4_095], [2, 15]),
    (&[-7_771, -3_677], [3, 0]),
    (&[-6, 0, 4_093], [3, 1]),
    (&[-62, 0, 4_065], [3, 0]),
    (&[-6, 0, 0, 0, 0, 0, 0, 0, 0, 4_093], [3, 8]),
    // A step to -2^31.
    (&[-256, 4_094], [2, 0]),
    (&[-4455, -5162, -5267, -3607, -2096, -1109, -460, -144, -44, -9], [0, 421_920_260]),
];

/// A filter with a step beyond 32 bits, that step, and its answer under the older edition.
const APART: [(&[i16], i32, [i32; 2]); 9] = [
    (&[-257, 4_094], 1, [2, 0]),
    (&[-511, 4_094], 1, [0, 786_240]),
    (&[-512, 4_094], 1, [0, 1_048_320]),
    (&[-32_768, 3_968], 1, [0, 66_060_288]),
    (&[303, -209, -4_094], 2, [2, 1]),
    (&[-1_021, 0, -4_094], 2, [0, 305_212]),
    (&[0, 1_020, -4_094], 2, [3, 0]),
    (&[0, 0, 0, 0, -261, 0, 0, 0, 0, 4_094], 9, [2, 4]),
    (&[-5940, -9177, -12485, -11399, -8833, -6233, -3445, -1436, -590, -164], 2, [0, 224_964]),
];

/// Numbers that are no edition.
const NO_EDITIONS: [i32; 6] = [0, -1, 6_715, 6_717, 8_250, 8_252];

fn editions(t: &mut Table) {
    fn named(d: &mut Draft, edition: i32) {
        (d.named.edition, d.settings.edition) = (edition, 7);
    }
    t.outcome(SetUp, "the default edition is 8251", 0, |d| named(d, OLDER), |_, c| c.words[EDITION] == NEWER);
    for edition in [OLDER, NEWER] {
        t.outcome(SetUpWith, &format!("edition {edition}"), 0, |d| named(d, edition), move |_, c| c.words[EDITION] == edition);
        t.state(&format!("held edition {edition}"), 0, |d| d.settings.edition = edition);
    }
    for edition in NO_EDITIONS {
        for what in [SetUpWith, Stability, Sentence, Filter] {
            t.add(what, &format!("edition {edition}"), 22, |d| named(d, edition));
        }
        t.state(&format!("held edition {edition}"), 3, |d| d.settings.edition = edition);
    }
    t.add(SetUpWith, "squelch before edition", 14, |d| (d.named.squelch, d.named.edition) = (-1, 0));
    t.add(SetUpWith, "size before edition", 2, |d| (d.subframes, d.named.edition) = (3, 0));
    t.add(SetUpWith, "rate before edition", 1, |d| (d.rate, d.named.edition) = (9, 0));
    for what in [Stability, Sentence, Filter] {
        t.add(what, "order before edition", 13, |d| (d.length, d.named.edition) = (17, 0));
    }
    t.add(Filter, "line before edition", 9, |d| (d.lines[0], d.named.edition) = (-1, 0));
    t.state("size before held edition", 2, |d| (d.dec.lpc_order, d.settings.edition) = (15, 0));
    t.add(Lost, "held edition before run full", 3, |d| (d.dec.loss_cnt, d.settings.edition) = (i32::MAX, 0));

    let mut tested = |a: &[i16], edition: i32, answer: [i32; 2]| {
        let filter = |d: &mut Draft| (d.coefficients, d.length, d.named.edition) = (a.to_vec(), a.len(), edition);
        t.outcome(Stability, &format!("{a:?} by {edition}"), 0, filter, move |_, c| c.result == answer);
    };
    for (a, answer) in ALIKE {
        tested(a, NEWER, answer);
        tested(a, OLDER, answer);
    }
    for (a, step, answer) in APART {
        tested(a, NEWER, [4, step]);
        tested(a, OLDER, answer);
    }
    let filters = [
        (NEWER, APART_10[0], [-4455, -5162, -5267, -3607, -2096, -1109, -460, -144, -44, -9]),
        (OLDER, APART_10[0], [-5940, -9177, -12485, -11399, -8833, -6233, -3445, -1436, -590, -164]),
        // Lines at the limit of a step's coefficient, as above; the second ones rise.
        (OLDER, BETWEEN_10[0], [734, 1107, 1955, 1417, 918, 211, -371, -751, -652, -474]),
        (OLDER, BETWEEN_10[1], [6573, -2418, 1799, -5138, 5774, -2489, 790, -2713, 2724, -809]),
    ];
    for (edition, of, filter) in filters {
        let lines = |d: &mut Draft| {
            lines_10(d, of);
            d.named.edition = edition;
        };
        t.outcome(Filter, &format!("{of:?} by {edition}"), 0, lines, move |_, c| c.coefficients[..10] == filter);
    }
    t.outcome(
        Filter,
        "lines at the limit by 6716, order 16",
        0,
        |d| (d.lines, d.named.edition) = (BETWEEN_16, OLDER),
        |_, c| c.coefficients == [-1789, -2296, 296, 1092, -591, -997, -724, -757, 1114, 473, -976, -1259, -1578, -1156, 284, 115],
    );
}

// Document 02, Note 6.

/// Lines from 3 on, each 3 above the last.
fn lowest(d: &mut Draft, order: usize) {
    d.length = order;
    (0..16).for_each(|k| d.lines[k] = 3 * (k as i16 + 1));
}

/// Lines up to 32,765, each 3 above the last.
fn highest(d: &mut Draft, order: usize) {
    lowest(d, order);
    (0..order).for_each(|k| d.lines[k] += 32_765 - 3 * order as i16);
}

fn announcements(t: &mut Table) {
    let known = [(0, 8_192), (1, 8_190), (63, 202), (64, 0), (65, -202), (127, -8_190), (128, -8_192)];
    for place in 0..=128usize {
        let value = known.iter().find(|(at, _)| *at == place).map(|(_, value)| *value);
        let holds = move |_: &SilkDecoderState, c: &Call| value.is_none_or(|value| c.result == [value]);
        t.outcome(Cosine, &format!("place {place}"), 0, |d| d.length = place, holds);
    }
    for place in [129, 130, 255, 256, 257, u32::MAX as usize] {
        t.add(Cosine, &format!("place {place}"), 17, |d| d.length = place);
    }

    for order in [0, 9, 11, 15, 17, u32::MAX as usize] {
        t.add(Rising, &format!("order {order}"), 17, |d| {
            lowest(d, order);
            d.lines_lent = 20;
        });
    }
    let mut told = |label: &str, order: usize, rises: bool, change: &dyn Fn(&mut Draft)| {
        t.outcome(Rising, &format!("{label}, order {order}"), 0, change, move |_, c| c.result == [rises as i32]);
    };
    told("a negative line past the order", 10, true, &|d| {
        lowest(d, 10);
        d.lines[10] = -1;
    });
    for order in [10, 16usize] {
        let last = order - 1;
        told("lowest lines", order, true, &|d| lowest(d, order));
        told("highest lines", order, true, &|d| highest(d, order));
        told("lines enough", order, true, &|d| {
            lowest(d, order);
            d.lines_lent = order;
        });
        told("a line past the order", order, true, &|d| {
            lowest(d, order);
            d.lines_lent = 20;
        });
        told("the lines of a flat spectrum", order, true, &|d| {
            let step = 32_767 / (order as i16 + 1);
            d.length = order;
            (0..order).for_each(|k| d.lines[k] = step * (k as i16 + 1));
        });
        for (first, rises) in [(3, true), (2, false), (0, false), (-1, false), (i16::MIN, false)] {
            told(&format!("first line {first}"), order, rises, &|d| {
                lowest(d, order);
                d.lines[0] = first;
            });
        }
        for (top, rises) in [(32_765, true), (32_766, false), (32_767, false)] {
            told(&format!("last line {top}"), order, rises, &|d| {
                lowest(d, order);
                d.lines[last] = top;
            });
        }
        for k in 1..order {
            for (gap, rises) in [(3, true), (2, false), (0, false), (-1, false)] {
                // The lines from k on lie `gap` above the one before them, and 3 between them.
                told(&format!("line {k} {gap} above the last"), order, rises, &|d| {
                    lowest(d, order);
                    (k..order).for_each(|j| d.lines[j] += gap - 3);
                });
            }
            told(&format!("line {k} negative"), order, false, &|d| {
                lowest(d, order);
                d.lines[k] = -1;
            });
        }
        told("falling lines", order, false, &|d| {
            lowest(d, order);
            d.lines[..order].reverse();
        });
        told("equal lines", order, false, &|d| {
            lowest(d, order);
            d.lines = [9_000; 16];
        });
    }
    for order in [10, 16usize] {
        t.add(Rising, &format!("one line too few, order {order}"), 17, |d| {
            lowest(d, order);
            d.lines_lent = order - 1;
        });
    }
    // Every vector without a negative line has a filter, rising or not.
    for order in [10, 16usize] {
        t.add(Filter, &format!("falling lines, order {order}"), 0, |d| {
            highest(d, order);
            d.lines[..order].reverse();
        });
        t.add(Filter, &format!("equal lines, order {order}"), 0, |d| {
            lowest(d, order);
            d.lines = [9_000; 16];
        });
        t.add(Filter, &format!("rising lines, order {order}"), 0, |d| highest(d, order));
    }
}
