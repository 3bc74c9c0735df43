//! One call of a function: its numbers and the slices that it is lent.

use crate::draw::SHAPES;
use crate::reference::{self, Settings, coef_fields, frame_fields, half_fields, setting_fields, word_fields};
use given::silk::decoder_structs::{SilkDecoderControl, SilkDecoderState};
use std::fmt::Write;

#[derive(Clone, Copy, PartialEq, Eq, Debug)]
pub enum What {
    SetUp,
    Received,
    Lost,
    Core,
    PlcReceived,
    PlcLost,
    Glue,
    Noise,
    Played,
    Stability,
    Filter,
    Sentence,
    SetUpWith,
    Cosine,
    Rising,
}

impl What {
    /// Each call, its function's name without `post_`, or for `post_frame` its kind, and whether the library has the function.
    pub const ALL: [(What, &'static str, bool); 15] = [
        (What::Stability, "stability", cfg!(has_stability)),
        (What::Sentence, "sentence", cfg!(has_sentence)),
        (What::Filter, "filter", cfg!(has_filter)),
        (What::Cosine, "cosine", cfg!(has_cosine)),
        (What::Rising, "rising", cfg!(has_rising)),
        (What::Core, "core", cfg!(has_core)),
        (What::PlcReceived, "plc_received", cfg!(has_plc_received)),
        (What::PlcLost, "plc_lost", cfg!(has_plc_lost)),
        (What::Glue, "glue", cfg!(has_glue)),
        (What::Noise, "noise", cfg!(has_noise)),
        (What::SetUp, "set_up", cfg!(has_set_up)),
        (What::SetUpWith, "set_up_with", cfg!(has_set_up_with)),
        (What::Played, "played", cfg!(has_played)),
        (What::Received, "received", cfg!(has_frame)),
        (What::Lost, "lost", cfg!(has_frame)),
    ];

    pub fn name(self) -> &'static str {
        What::ALL.iter().find(|(what, ..)| *what == self).unwrap().1
    }

    pub fn linked(self) -> bool {
        What::ALL.iter().find(|(what, ..)| *what == self).unwrap().2
    }
}

/// A call in the Rust's own types, from which its slices are made.
#[derive(Clone)]
pub struct Draft {
    pub what: What,
    /// With the subframes the shape of set-up or of the played part, or the one that comes with a frame.
    pub rate: i32,
    pub subframes: i32,
    /// The settings that set-up names; of them a filter's call has the edition.
    pub named: Settings,
    /// With the frame's signal type, offset type, interpolation and seed in its `indices`.
    pub dec: SilkDecoderState,
    /// Those that the state holds.
    pub settings: Settings,
    pub control: SilkDecoderControl,
    pub lines: [i16; 16],
    /// How many of them a filter's call is lent; past the sixteenth they are 0.
    pub lines_lent: usize,
    /// Numbers that stand in `frame` in place of those above: the place and the number.
    pub numbers: Vec<(usize, i32)>,
    pub pulses: Vec<i16>,
    /// The output, or the buffer of gluing or noise.
    pub output: Vec<i16>,
    pub coefficients: Vec<i16>,
    /// The buffer's played length, the filter's order, or the place of a cosine.
    pub length: usize,
}

impl Draft {
    /// A simple call that is accepted: all is 0 but for what a range asks.
    pub fn plain(what: What, rate: i32, subframes: i32) -> Draft {
        let frame = (5 * rate * subframes) as usize;
        let control = SilkDecoderControl { pitch_l: [2 * rate; 4], gains_q16: [81_920; 4], ..Default::default() };
        let length = match what {
            What::Stability | What::Sentence | What::Filter | What::Rising => 16,
            What::Cosine => 0,
            _ => frame,
        };
        Draft {
            what,
            rate,
            subframes,
            named: Settings::default(),
            dec: reference::set_up(rate, subframes),
            settings: Settings::default(),
            control,
            lines: [0; 16],
            lines_lent: 16,
            numbers: vec![],
            pulses: vec![0; frame],
            output: vec![0; frame],
            coefficients: vec![0; 16],
            length,
        }
    }

    /// The shape that the frame is played at: the coming one, for a stage or where that is none the held one.
    pub fn shape(&self) -> (i32, i32) {
        let coming = (self.rate, self.subframes);
        let whole = matches!(self.what, What::Received | What::Lost);
        if whole && SHAPES.contains(&coming) { coming } else { (self.dec.fs_khz, self.dec.nb_subfr) }
    }

    /// The call's numbers and the slices that its function takes.
    pub fn call(mut self) -> Call {
        use What::*;
        let what = self.what;
        let takes = |all: &[What]| all.contains(&what);
        let state = !takes(&[Played, Stability, Sentence, Filter, Cosine, Rising]);
        let frame = takes(&[Received, Lost, Core, PlcReceived, PlcLost, Noise]);
        let coefs = takes(&[Received, Lost, Core, PlcReceived]);
        let lines = (0..self.lines_lent).map(|k| self.lines.get(k).copied().unwrap_or(0));
        let result = match what {
            Stability => reference::ANSWER,
            Cosine | Rising => reference::VALUE,
            _ => 0,
        };
        let mut call = Call {
            what,
            rate: self.rate,
            subframes: self.subframes,
            named: self.named,
            length: self.length,
            words: vec![0; if state { reference::WORDS } else { 0 }],
            halves: vec![0; if state { reference::HALVES } else { 0 }],
            frame: vec![0; if frame { reference::FRAME } else { 0 }],
            coefs: vec![0; if coefs { reference::COEFS } else { 0 }],
            lines: if takes(&[Filter, Rising]) { lines.collect() } else { vec![] },
            pulses: if takes(&[Received, Core]) { self.pulses } else { vec![] },
            output: if takes(&[Received, Lost, Core, PlcLost, Glue, Noise, Played]) { self.output } else { vec![] },
            coefficients: if takes(&[Stability, Sentence, Filter]) { self.coefficients } else { vec![] },
            result: vec![0; result],
            text: vec![0; if takes(&[Sentence]) { reference::TEXT } else { 0 }],
        };
        if state {
            reference::write_state(&mut self.dec, &mut call.words, &mut call.halves);
            reference::write_settings(self.settings, &mut call.words);
        }
        if frame {
            let small = self.dec.indices;
            let mut numbers = reference::Frame {
                received: !takes(&[Lost, PlcLost]) as i32,
                shape: [self.rate, self.subframes],
                small: [small.signal_type, small.quant_offset_type, small.nlsf_interp_coef_q2, small.seed].map(i32::from),
                control: self.control,
                lines: self.lines,
            };
            reference::write_frame(&mut numbers, &mut call.frame, &mut call.coefs);
            self.numbers.iter().for_each(|(place, number)| call.frame[*place] = *number);
        }
        call
    }
}

#[derive(Clone)]
pub struct Call {
    pub what: What,
    pub rate: i32,
    pub subframes: i32,
    pub named: Settings,
    pub length: usize,
    pub words: Vec<i32>,
    pub halves: Vec<i16>,
    pub frame: Vec<i32>,
    pub coefs: Vec<i16>,
    pub lines: Vec<i16>,
    pub pulses: Vec<i16>,
    pub output: Vec<i16>,
    pub coefficients: Vec<i16>,
    pub result: Vec<i32>,
    pub text: Vec<u8>,
}

/// A slice of a call: its name, itself, and whether it must have a size, which it has in a plain call; of the others the call's numbers say it.
pub type Slice<T> = (&'static str, fn(&mut Call) -> &mut Vec<T>, bool);

pub const LONG: [Slice<i32>; 3] =
    [("words", |c| &mut c.words, true), ("frame", |c| &mut c.frame, true), ("result", |c| &mut c.result, true)];

pub const BYTES: [Slice<u8>; 1] = [("text", |c| &mut c.text, true)];

pub const SHORT: [Slice<i16>; 6] = [
    ("halves", |c| &mut c.halves, true),
    ("coefs", |c| &mut c.coefs, true),
    ("lines", |c| &mut c.lines, false),
    ("pulses", |c| &mut c.pulses, false),
    ("output", |c| &mut c.output, false),
    ("coefficients", |c| &mut c.coefficients, false),
];

/// Makes a call of the reference, in place.
pub fn reference(c: &mut Call) -> i32 {
    use reference::*;
    let (words, halves, frame, coefs, output) = (&mut c.words, &mut c.halves, &mut c.frame, &mut c.coefs, &mut c.output);
    match c.what {
        What::SetUp => post_set_up(c.rate, c.subframes, words, halves),
        What::SetUpWith => post_set_up_with(c.rate, c.subframes, c.named, words, halves),
        What::Received | What::Lost => post_frame(words, halves, frame, coefs, &c.pulses, output),
        What::Core => post_core(words, halves, frame, coefs, &c.pulses, output),
        What::PlcReceived => post_plc_received(words, halves, frame, coefs),
        What::PlcLost => post_plc_lost(words, halves, frame, output),
        What::Glue => post_glue(words, halves, output, c.length),
        What::Noise => post_noise(words, halves, frame, output, c.length),
        What::Played => post_played(c.rate, c.subframes, output),
        What::Stability => post_stability(&c.coefficients, c.length, c.named.edition, &mut c.result),
        What::Sentence => post_sentence(&c.coefficients, c.length, c.named.edition, &mut c.text),
        What::Filter => post_filter(&mut c.coefficients, &c.lines, c.length, c.named.edition),
        What::Cosine => post_cosine(c.length, &mut c.result),
        What::Rising => post_rising(&c.lines, c.length, &mut c.result),
    }
}

/// The name of a place in a slice.
pub fn place(slice: &str, index: usize) -> String {
    fn named<'a, T: 'a>(fields: impl IntoIterator<Item = (&'a str, &'a mut [T])>, index: usize) -> Option<String> {
        let mut at = index;
        for (name, field) in fields {
            if at < field.len() {
                return Some(if field.len() == 1 { name.to_string() } else { format!("{name}[{at}]") });
            }
            at -= field.len();
        }
        None
    }
    let name = match slice {
        "words" => named(word_fields(&mut Default::default()).into_iter().chain(setting_fields(&mut Default::default())), index),
        "halves" => named(half_fields(&mut Default::default()), index),
        "frame" => named(frame_fields(&mut Default::default()), index),
        "coefs" => named(coef_fields(&mut Default::default()), index),
        _ => None,
    };
    name.map_or(format!("{slice}[{index}]"), |name| format!("{slice}: {name}"))
}

/// What of a call isn't as in a plain one of the same shape.
pub fn written(call: &Call, plain: &Call) -> String {
    let (mut call, mut plain) = (call.clone(), plain.clone());
    let mut text = format!("  {}, else as plain at {} kHz with {} subframes:\n", call.what.name(), plain.rate, plain.subframes);
    let numbers = |c: &Call| {
        let [rate, subframes, squelch, edition] = [c.rate, c.subframes, c.named.squelch, c.named.edition].map(i64::from);
        [("rate", rate), ("subframes", subframes), ("squelch", squelch), ("edition", edition), ("length", c.length as i64)]
    };
    for ((name, value), (_, usual)) in numbers(&call).into_iter().zip(numbers(&plain)) {
        if value != usual {
            writeln!(text, "    {name} = {value}").unwrap();
        }
    }
    fn slice<T: PartialEq + Copy + Into<i64>>(text: &mut String, name: &str, values: &[T], usual: &[T]) {
        if values.len() != usual.len() {
            writeln!(text, "    {name} has {} places, not {}", values.len(), usual.len()).unwrap();
        }
        for (index, (value, usual)) in values.iter().zip(usual).enumerate() {
            if value != usual {
                writeln!(text, "    {} = {}", place(name, index), (*value).into()).unwrap();
            }
        }
    }
    for (name, get, _) in LONG {
        slice(&mut text, name, get(&mut call), get(&mut plain));
    }
    for (name, get, _) in SHORT {
        slice(&mut text, name, get(&mut call), get(&mut plain));
    }
    for (name, get, _) in BYTES {
        slice(&mut text, name, get(&mut call), get(&mut plain));
    }
    text
}
