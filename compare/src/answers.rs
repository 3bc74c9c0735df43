//! A fixed list of calls with the Rust's answers, which the program crates/replay makes again without the Rust; and the sentences that the
//! program crates/service must write.

use crate::call::{self, Call, Draft, What};
use crate::draw::{self, Draw, SHAPES};
use crate::post::Stability;
use crate::reference::{NEWER, OLDER, STOP, STOPPED, read_settings, read_state, under};
use crate::{rows, streams, vectors};
use std::fmt::Write;
use std::fs;
use std::path::Path;

const SEED: u64 = 1;
/// Frames of each recorded stream.
const RECORDS: usize = 45;
/// Drawn calls of the stability test, of the filter, and of the rising check.
const FILTERS: u64 = 200;
/// Numbers after a line's first two: the program's row has 64.
const PLACES: usize = 62;

/// The program's number for each call.
fn number(what: What) -> usize {
    match what {
        What::SetUp => 0,
        What::Received | What::Lost => 1,
        What::Core => 2,
        What::PlcReceived => 3,
        What::PlcLost => 4,
        What::Glue => 5,
        What::Noise => 6,
        What::Played => 7,
        What::Stability => 8,
        What::Filter => 9,
        What::Cosine => 10,
        What::Rising => 11,
        What::SetUpWith => 12,
        What::Sentence => unreachable!("crates/service has the sentences"),
    }
}

/// A slice that the program lends parts of: its name, its number in a line, and whether a call is given its contents.
type Kept<T> = (&'static str, usize, fn(&mut Call) -> &mut Vec<T>, bool);

const LONG: [Kept<i32>; 3] =
    [("words", 20, |c| &mut c.words, true), ("frame", 22, |c| &mut c.frame, true), ("result", 28, |c| &mut c.result, false)];

const SHORT: [Kept<i16>; 6] = [
    ("halves", 21, |c| &mut c.halves, true),
    ("coefs", 23, |c| &mut c.coefs, true),
    ("lines", 24, |c| &mut c.lines, true),
    ("pulses", 25, |c| &mut c.pulses, true),
    ("output", 26, |c| &mut c.output, false),
    ("coefficients", 27, |c| &mut c.coefficients, true),
];

struct List {
    /// What calls are lent parts of, as the program keeps it.
    kept: Call,
    stdin: String,
    stdout: String,
    calls: u64,
}

/// What the program crates/service writes for a line that is none of an edition and coefficients.
const BAD_LINE: &str = "bad line: it is to have an edition, 6716 or 8251, and one to sixteen whole numbers of sixteen bits";

/// Writes, from the Rust, what the program crates/service must write for its standard input.
pub fn write_sentences(folder: &Path) -> Result<(), String> {
    let input = fs::read_to_string(folder.join("stdin")).map_err(|why| format!("stdin: {why}"))?;
    let whole = |word: &str| word.trim_start_matches('-').bytes().all(|byte| byte.is_ascii_digit());
    let mut output = String::new();
    for line in input.lines() {
        let words = line.split([' ', '\t', '\r', ',']).filter(|word| !word.is_empty());
        let read: Option<Vec<i16>> = words.map(|word| word.parse().ok().filter(|_| whole(word))).collect();
        let text = match read.as_deref().and_then(<[i16]>::split_first) {
            Some((edition, a)) if [OLDER, NEWER].contains(&i32::from(*edition)) && (1..=16).contains(&a.len()) => {
                Stability::of((under(i32::from(*edition)).reason)(a, a.len())).to_string()
            }
            _ => BAD_LINE.into(),
        };
        writeln!(output, "{text}").unwrap();
    }
    fs::write(folder.join("stdout"), output).map_err(|why| format!("stdout: {why}"))
}

/// Writes the program's standard input and, from the Rust, what it must write.
pub fn write(streams: &Path, folder: &Path) -> Result<(), String> {
    let mut list = List::new();
    for (rate, subframes) in SHAPES {
        list.stream(&streams.join(format!("r{rate}_n{subframes}_0.vec")))?;
    }
    for shape in SHAPES {
        list.drawn(shape)?;
    }
    list.changes()?;
    list.vectors()?;
    list.rows()?;
    list.short()?;
    list.filters()?;
    list.refused_and_short()?;
    writeln!(list.stdout, "{} calls", list.calls).unwrap();
    for (name, text) in [("stdin", &list.stdin), ("stdout", &list.stdout)] {
        fs::write(folder.join(name), text).map_err(|why| format!("{name}: {why}"))?;
    }
    Ok(())
}

impl List {
    fn new() -> List {
        let mut kept = Draft::plain(What::Received, 16, 4).call();
        kept.words = vec![0; 704];
        kept.halves = vec![0; 544];
        kept.frame = vec![0; 24];
        kept.coefs = vec![0; 80];
        kept.lines = vec![0; 24];
        kept.pulses = vec![0; 400];
        kept.output = vec![0; 400];
        kept.coefficients = vec![0; 48];
        kept.result = vec![0; 16];
        let stdin = "# Calls, as crates/replay reads them; made by compare/answers.\n".into();
        List { kept, stdin, stdout: String::new(), calls: 0 }
    }

    /// A heading, which has no digit.
    fn title(&mut self, text: &str) {
        assert!(!text.contains(|c: char| c.is_ascii_digit()));
        writeln!(self.stdin, "# {text}").unwrap();
    }

    /// The state that the last call left.
    fn state(&self) -> given::silk::decoder_structs::SilkDecoderState {
        read_state(&self.kept.words, &self.kept.halves)
    }

    /// Lines that make the kept numbers those of a call, one that makes it, and the Rust's answer.
    fn make(&mut self, mut call: Call) -> Result<i32, String> {
        let mut numbers = match call.what {
            What::SetUp | What::SetUpWith | What::Played => vec![call.rate as i64, call.subframes as i64],
            What::Glue | What::Noise | What::Stability | What::Filter | What::Cosine | What::Rising => {
                call.length = call.length.min(u32::MAX as usize);
                let filter = matches!(call.what, What::Stability | What::Filter);
                vec![call.length as u32 as i32 as i64, if filter { call.named.edition as i64 } else { 0 }]
            }
            _ => vec![0; 2],
        };
        if call.what == What::Lost {
            // Its coefficients are not read: they may be those that are there.
            let lent = call.coefs.len();
            call.coefs.copy_from_slice(&self.kept.coefs[..lent]);
        }
        let mut lent = [0; 9];
        for kept in LONG {
            self.lend(&mut call, kept, &mut lent);
        }
        for kept in SHORT {
            self.lend(&mut call, kept, &mut lent);
        }
        if call.what == What::SetUpWith {
            // Set-up is lent neither frame nor coefficients.
            (lent[2], lent[3]) = (call.named.squelch as i64, call.named.edition as i64);
        }
        numbers.extend(lent);
        while numbers.last() == Some(&0) {
            numbers.pop();
        }
        write!(self.stdin, "{} {}", number(call.what), call.what.name()).unwrap();
        for number in numbers {
            write!(self.stdin, " {number}").unwrap();
        }
        self.stdin.push('\n');

        let answer = call::reference(&mut call);
        if answer == STOPPED {
            return Err(format!("call {}: the Rust stops: {}", self.calls + 1, STOP.lock().unwrap()));
        }
        for kept in LONG {
            self.back(&mut call, kept);
        }
        for kept in SHORT {
            self.back(&mut call, kept);
        }
        self.calls += 1;
        writeln!(self.stdout, "{} {answer} {:08x}", self.calls, self.sum()).unwrap();
        Ok(answer)
    }

    /// A call's slice becomes the first part of a kept one, by lines for what differs.
    fn lend<T: Copy + PartialEq + Into<i64>>(&mut self, call: &mut Call, (name, number, get, given): Kept<T>, lent: &mut [i64; 9]) {
        let (slice, kept) = (get(call), get(&mut self.kept));
        lent[number - 20] = slice.len() as i64;
        if given {
            let mut at = 0;
            while at < slice.len() {
                if slice[at] == kept[at] {
                    at += 1;
                    continue;
                }
                let most = slice.len().min(at + PLACES);
                let differs = |place: &usize| slice[*place] != kept[*place];
                // A line ends before four numbers that are the same.
                let end = (at + 1..most).find(|end| !(*end..most.min(end + 4)).any(|place| differs(&place))).unwrap_or(most);
                write!(self.stdin, "{number} {name} {at}:").unwrap();
                for value in &slice[at..end] {
                    write!(self.stdin, " {}", (*value).into()).unwrap();
                }
                self.stdin.push('\n');
                at = end;
            }
            kept[..slice.len()].copy_from_slice(slice);
        } else {
            let length = slice.len();
            slice.copy_from_slice(&kept[..length]);
        }
    }

    fn back<T: Copy>(&mut self, call: &mut Call, (_, _, get, _): Kept<T>) {
        let slice = get(call);
        get(&mut self.kept)[..slice.len()].copy_from_slice(slice);
    }

    /// The program's check sum of all that a call can write.
    fn sum(&self) -> i32 {
        let mixed = |sum: i32, number: i32| sum.wrapping_mul(16_777_619).wrapping_add(number);
        let short = |sum: i32, numbers: &[i16]| numbers.iter().fold(sum, |sum, number| mixed(sum, *number as i32));
        let long = |sum: i32, numbers: &[i32]| numbers.iter().fold(sum, |sum, number| mixed(sum, *number));
        let k = &self.kept;
        let state = short(long(0, &k.words), &k.halves);
        let frame = short(long(state, &k.frame), &k.coefs);
        long(short(short(frame, &k.output), &k.coefficients), &k.result)
    }

    /// A call on the state that the last one left.
    fn next(&mut self, mut call: Call) -> Result<i32, String> {
        call.words = self.kept.words[..call.words.len()].to_vec();
        call.halves = self.kept.halves[..call.halves.len()].to_vec();
        self.make(call)
    }

    /// The first frames of a recorded stream, from set-up.
    fn stream(&mut self, file: &Path) -> Result<(), String> {
        let stream = streams::read(file)?;
        self.title("speech");
        self.next(streams::set_up(&stream))?;
        stream.records.into_iter().take(RECORDS).try_for_each(|(record, _)| self.next(record).map(|_| ()))
    }

    /// Frames from set-up, received, lost and refused, and each stage alone on a state met there.
    fn drawn(&mut self, (rate, subframes): (i32, i32)) -> Result<(), String> {
        let draw = &mut Draw::new(SEED, 100, (rate * subframes) as u64);
        self.title("drawn frames, received, lost and refused");
        self.next(Draft::plain(What::SetUp, rate, subframes).call())?;
        for step in "vlulivvluxvlllivxuLv".chars() {
            self.step(draw, step)?;
        }
        self.title("stages alone");
        for what in [What::Core, What::PlcReceived, What::PlcLost, What::Glue, What::Noise, What::Played] {
            self.frame(draw, what, None, false)?;
        }
        self.step(draw, 'l')?;
        for what in [What::Noise, What::Glue, What::PlcReceived, What::Core, What::Glue] {
            self.frame(draw, what, None, false)?;
        }
        Ok(())
    }

    /// Each shape after each, brought by a received frame and by a lost one, and some refused; each list from set-up.
    fn changes(&mut self) -> Result<(), String> {
        // In this row, closed to a ring, each of the shapes follows each, itself too.
        let mut row = vec![];
        for (at, shape) in SHAPES.into_iter().enumerate() {
            row.push(shape);
            SHAPES[at + 1..].iter().for_each(|other| row.extend([shape, *other]));
        }
        assert_eq!(row.len(), SHAPES.len() * SHAPES.len());
        for what in [What::Received, What::Lost] {
            let draw = &mut Draw::new(SEED, 101, what as u64);
            self.title("drawn frames of changing shapes");
            let (rate, subframes) = row[0];
            self.next(Draft::plain(What::SetUp, rate, subframes).call())?;
            for (index, shape) in row[1..].iter().chain(&row[..1]).copied().enumerate() {
                if index % 6 == 5 {
                    self.frame_at(draw, shape, What::Received, None, true)?;
                }
                self.frame_at(draw, shape, what, None, false)?;
                let dec = self.state();
                assert_eq!((dec.fs_khz, dec.nb_subfr), shape, "a change of shape is played");
                if what == What::Lost && index % 3 != 2 {
                    self.frame_at(draw, shape, What::Received, None, false)?;
                }
            }
        }
        Ok(())
    }

    /// The hand-made lists, from set-up.
    fn vectors(&mut self) -> Result<(), String> {
        self.title("hand-made lists");
        vectors::all().iter().flat_map(vectors::Vector::calls).try_for_each(|call| match self.next(call)? {
            0 => Ok(()),
            answer => Err(format!("call {}: a frame of a hand-made list is refused by {answer}", self.calls)),
        })
    }

    /// A step of a list: voiced, unvoiced, inactive, lost, a run of losses, or refused.
    fn step(&mut self, draw: &mut Draw, step: char) -> Result<(), String> {
        match step {
            'v' => self.frame(draw, What::Received, Some(2), false),
            'u' => self.frame(draw, What::Received, Some(1), false),
            'i' => self.frame(draw, What::Received, Some(0), false),
            'l' => self.frame(draw, What::Lost, None, false),
            'L' => (0..12).try_for_each(|_| self.frame(draw, What::Lost, None, false)),
            _ => self.frame(draw, What::Received, Some(2), true),
        }
    }

    /// A drawn call of a frame or a stage on the state that the last call left, at its shape.
    fn frame(&mut self, draw: &mut Draw, what: What, signal: Option<i8>, broken: bool) -> Result<(), String> {
        let dec = self.state();
        self.frame_at(draw, (dec.fs_khz, dec.nb_subfr), what, signal, broken)
    }

    /// The same at a coming shape.
    fn frame_at(&mut self, draw: &mut Draw, shape: (i32, i32), what: What, signal: Option<i8>, broken: bool) -> Result<(), String> {
        let (dec, (rate, subframes)) = (self.state(), shape);
        let settings = read_settings(&self.kept.words);
        let mut draft = Draft { dec, settings, ..Draft::plain(what, rate, subframes) };
        // Drawn until the type is the wanted one.
        loop {
            draw::frame(draw, &mut draft);
            if signal.is_none_or(|signal| draft.dec.indices.signal_type == signal) {
                break;
            }
        }
        if broken {
            draw::break_frame(draw, &mut draft);
        }
        if what == What::Noise && draft.dec.loss_cnt > 0 {
            draw::any_control(draw, &mut draft.control);
        }
        draft.length = rate as usize * 5 * subframes as usize;
        self.make(draft.call()).map(|_| ())
    }

    /// The hand-made rows: of calls that play a frame, those that are refused, and those of document 02; not the sentences, which the other
    /// program writes.
    fn rows(&mut self) -> Result<(), String> {
        self.title("the ends of the ranges");
        for row in rows::alone().into_iter().filter(|row| row.what != What::Sentence) {
            let mut call = row.call();
            let whole = matches!(row.what, What::Received | What::Lost | What::Core | What::PlcLost);
            if !whole || row.listed || call::reference(&mut call) != 0 {
                self.make(row.call())?;
            }
        }
        Ok(())
    }

    /// Each sized slice of each call, one place too short.
    fn short(&mut self) -> Result<(), String> {
        self.title("slices that are too short");
        for (what, ..) in What::ALL {
            let call = Draft::plain(what, 8, 2).call();
            for (_, get, sized) in call::LONG {
                self.cut(&call, get, sized)?;
            }
            for (_, get, sized) in call::SHORT {
                self.cut(&call, get, sized)?;
            }
        }
        Ok(())
    }

    fn cut<T>(&mut self, call: &Call, get: fn(&mut Call) -> &mut Vec<T>, sized: bool) -> Result<(), String> {
        let mut call = call.clone();
        if !sized || get(&mut call).pop().is_none() {
            return Ok(());
        }
        self.next(call).map(|_| ())
    }

    /// The stability test, the filter from lines and the rising check on drawn calls.
    fn filters(&mut self) -> Result<(), String> {
        self.title("stability, filter and rising check");
        for case in 0..FILTERS {
            for what in [What::Stability, What::Filter, What::Rising] {
                self.make(draw::call(&mut Draw::new(SEED, what as u64, case), what))?;
            }
        }
        Ok(())
    }

    /// Calls that would be refused, with no place for an answer, which is told first.
    fn refused_and_short(&mut self) -> Result<(), String> {
        self.title("no place for the answer of a call that would be refused");
        for (what, length) in [(What::Stability, 17), (What::Cosine, 129), (What::Rising, 9), (What::Rising, 10)] {
            let mut call = Draft { length, lines_lent: 9, ..Draft::plain(what, 8, 2) }.call();
            call.result.clear();
            self.make(call)?;
        }
        Ok(())
    }
}
