//! The comparisons: each function on drawn calls, lists of frames, streams.

use crate::call::{self, BYTES, Call, Draft, LONG, SHORT, What, place, written};
use crate::draw::{self, Draw, SHAPES};
use crate::post::ffi::frame::{RATE, SUBFRAMES};
use crate::post::ffi::words::EDITION;
use crate::reference::{NEWER, OLDER, STOP, STOPPED, read_state, squelched};
use crate::shrink::shrink;
use crate::{ffi, firmware, rows, streams};
use std::collections::BTreeMap;
use std::ffi::OsStr;
use std::path::{Path, PathBuf};
use std::process::Command;

/// What to compare, and how much of it.
pub struct Options {
    pub seed: u64,
    pub from: u64,
    pub count: u64,
    pub streams: Option<PathBuf>,
    /// The reference stands in for functions that the library lacks.
    pub own: bool,
    /// A function whose result is changed, to see that the comparison notices.
    pub fault: Option<String>,
}

impl Options {
    pub fn has(&self, what: What) -> bool {
        self.own || what.linked()
    }

    /// Makes a call of both: the Rust's answer and what it left, or the first difference.
    pub fn both(&self, before: &Call) -> Result<(i32, Call), String> {
        let (mut rust, mut library) = (before.clone(), before.clone());
        let expected = call::reference(&mut rust);
        if expected == STOPPED {
            return Err(format!("the Rust stops: {}", STOP.lock().unwrap()));
        }
        let answer = ffi::call(&mut library);
        if self.fault.as_deref() == Some(before.what.name()) {
            harm(before, &mut library);
        }
        if answer != expected {
            return Err(format!("answer: Rust {expected}, library {answer}"));
        }
        let mut differs = None;
        fn first<T: PartialEq + Copy + Into<i64>>(name: &str, rust: &[T], library: &[T]) -> Option<String> {
            let at = (0..rust.len()).find(|at| rust[*at] != library[*at])?;
            Some(format!("{}: Rust {}, library {}", place(name, at), rust[at].into(), library[at].into()))
        }
        for (name, get, _) in LONG {
            differs = differs.or_else(|| first(name, get(&mut rust), get(&mut library)));
        }
        for (name, get, _) in SHORT {
            differs = differs.or_else(|| first(name, get(&mut rust), get(&mut library)));
        }
        for (name, get, _) in BYTES {
            differs = differs.or_else(|| first(name, get(&mut rust), get(&mut library)));
        }
        differs.map_or(Ok((expected, rust)), Err)
    }

    /// Prints the first difference with its smallest input.
    fn report(&self, title: &str, before: Call, why: String) {
        println!("{title}: {why}");
        let (smallest, plain) = shrink(before, |trial| self.both(trial).is_err());
        println!("  the smallest input found: {}", self.both(&smallest).err().unwrap_or_default());
        print!("{}", written(&smallest, &plain));
    }

    /// One function on drawn calls, each of which is made under the other edition too, where it goes by one.
    pub fn function(&self, what: What) -> bool {
        let (mut answers, mut editions, mut apart) = (BTreeMap::new(), 0, 0);
        for case in self.from..self.from + self.count {
            let call = draw::call(&mut Draw::new(self.seed, what as u64, case), what);
            let other = other_edition(&call);
            let mut made = vec![];
            for call in std::iter::once(call).chain(other) {
                match self.both(&call) {
                    Ok(both) => made.push(both),
                    Err(why) => {
                        self.report(&format!("{}: case {case} of seed {}", what.name(), self.seed), call, why);
                        return false;
                    }
                }
            }
            *answers.entry(made[0].0).or_insert(0) += 1;
            if let [(_, one), (_, other)] = &made[..] {
                editions += 1;
                apart += differs(one, other) as u64;
            }
        }
        println!("{}: {} calls equal; {}", what.name(), self.count, told(&answers));
        if editions > 0 {
            println!("{}: {editions} of them made under both editions, {apart} with another result", what.name());
        }
        true
    }

    /// Lists of received, lost and refused frames with changes of shape, from set-up and from accepted states. Number 3 never comes from
    /// set-up, and from an accepted state only at another rate.
    pub fn lists(&self) -> bool {
        let (mut answers, mut frames, mut list, mut longest) = (BTreeMap::new(), 0, self.from, 0);
        let (mut rates, mut counts, mut silent) = (0, 0, 0);
        while frames < self.count {
            let draw = &mut Draw::new(self.seed, 99, list);
            let (rate, subframes) = draw.pick(&SHAPES);
            let mut draft = Draft::plain(What::Received, rate, subframes);
            let fresh = !draw.one_in(3);
            if !fresh {
                draft.dec = draw::state(draw);
            }
            draft.settings = draw::settings(draw, &draft.dec);
            let (mut left, mut lost, mut row, mut counted) = (draw.pick(&[3, 10, 30, 100]), false, 0, 0);
            while left > 0 && frames < self.count {
                if row == 0 {
                    lost = draw.one_in(2);
                    row = if lost { draw.pick(&[1, 1, 1, 2, 3, 5, 10, 50]) } else { 1 + draw.below(12) };
                    if lost && draw.one_in(200) {
                        row = 1_100;
                    }
                    left -= 1;
                }
                row -= 1;
                frames += 1;
                draft.what = if lost { What::Lost } else { What::Received };
                draw::coming(draw, &mut draft);
                draw::frame(draw, &mut draft);
                if lost {
                    draw::any_control(draw, &mut draft.control);
                }
                let mut broken = draft.clone();
                if draw.one_in(16) {
                    draw::break_frame(draw, &mut broken);
                }
                if draw.one_in(32) {
                    draw::break_length(draw, &mut broken);
                }
                let broken_rate = broken.rate;
                let call = broken.call();
                match self.both(&call) {
                    Ok((3, _)) if fresh || broken_rate == draft.dec.fs_khz => {
                        println!("lists: list {list} of seed {}: refused by 3", self.seed);
                        return false;
                    }
                    Ok((answer, after)) => {
                        rates += (answer == 0 && after.frame[RATE] != draft.dec.fs_khz) as u64;
                        counts += (answer == 0 && after.frame[SUBFRAMES] != draft.dec.nb_subfr) as u64;
                        silent += (answer == 0 && lost && squelched(&draft.dec, draft.settings)) as u64;
                        *answers.entry(answer).or_insert(0) += 1;
                        counted = if lost { counted + (answer == 0) as u64 } else { counted * (answer != 0) as u64 };
                        longest = longest.max(counted);
                        draft.dec = read_state(&after.words, &after.halves);
                    }
                    Err(why) => {
                        self.report(&format!("lists: list {list} of seed {}", self.seed), call, why);
                        return false;
                    }
                }
            }
            list += 1;
        }
        let lists = list - self.from;
        println!("lists: {frames} frames in {lists} lists equal, {rates} played at a new rate and {counts} with a new count of subframes");
        println!("lists: at most {longest} losses in a row, {silent} squelched; {}", told(&answers));
        true
    }

    /// Hand-made rows on the reference, and on the library where it has the function.
    pub fn rows(&self) -> bool {
        let mut wrong = 0;
        for row in rows::all() {
            let call = row.call();
            let made = if self.has(row.what) {
                self.both(&call)
            } else {
                let mut after = call.clone();
                Ok((call::reference(&mut after), after))
            };
            let found = made.and_then(|(answer, after)| row.check(answer, &call, &after));
            if let Err(why) = found {
                wrong += 1;
                if wrong <= 10 {
                    println!("rows: {}: {}: {why}", row.what.name(), row.label);
                }
            }
        }
        println!("rows: {wrong} of {} differ", rows::all().len());
        wrong == 0
    }

    /// A stream, played by the reference and, where it has the functions, by the library.
    pub fn stream(&self, file: &Path) -> bool {
        let library = [What::SetUpWith, What::Received, What::Lost].iter().all(|what| self.has(*what));
        let played = streams::read(file).and_then(|stream| {
            streams::play_as_recorded(&stream, |call| Ok(call::reference(call)))
                .map_err(|why| format!("{}: the reference: {why}", stream.name))?;
            if library {
                let made = |call: &mut Call| {
                    let (answer, after) = self.both(call)?;
                    *call = after;
                    Ok(answer)
                };
                streams::play_as_recorded(&stream, made).map_err(|why| format!("{}: the library: {why}", stream.name))?;
            }
            let who = if library { "reference and library play" } else { "reference plays" };
            Ok(format!("{}: {who} all {} records as recorded", stream.name, stream.records.len()))
        });
        match &played {
            Ok(text) | Err(text) => println!("streams: {text}"),
        }
        played.is_ok()
    }

    /// A stream in the Rust's frame loop, its own and with the library in place of its stages.
    pub fn firmware(&self, file: &Path) -> bool {
        let fault = self.fault.as_deref() == Some("firmware");
        let compared = streams::read(file).and_then(|stream| {
            firmware::compare(&stream, fault).map_err(|why| format!("{}: {why}", stream.name))?;
            Ok(format!("{}: both loops agree on samples and state after each of {} frames", stream.name, stream.records.len()))
        });
        match &compared {
            Ok(text) | Err(text) => println!("firmware: {text}"),
        }
        compared.is_ok()
    }
}

/// The call under the other edition, where it goes by one.
fn other_edition(call: &Call) -> Option<Call> {
    let mut other = call.clone();
    let edition = match call.what {
        What::SetUp | What::SetUpWith | What::Played | What::Cosine | What::Rising => return None,
        What::Stability | What::Sentence | What::Filter => &mut other.named.edition,
        _ => other.words.get_mut(EDITION)?,
    };
    *edition = match *edition {
        OLDER => NEWER,
        NEWER => OLDER,
        _ => return None,
    };
    Some(other)
}

/// Whether two calls left other numbers, the edition aside.
fn differs(one: &Call, other: &Call) -> bool {
    let (mut one, mut other) = (one.clone(), other.clone());
    if let Some(edition) = one.words.get_mut(EDITION) {
        *edition = other.words[EDITION];
    }
    LONG.iter().any(|(_, get, _)| get(&mut one) != get(&mut other))
        || SHORT.iter().any(|(_, get, _)| get(&mut one) != get(&mut other))
        || BYTES.iter().any(|(_, get, _)| get(&mut one) != get(&mut other))
}

/// The examples in C and Rust, built and run by their script.
pub fn examples(script: &OsStr, streams: &Path) -> bool {
    match Command::new(script).arg(streams).status() {
        Ok(status) => status.success(),
        Err(why) => {
            println!("examples: {}: {why}", script.display());
            false
        }
    }
}

/// A fault for a test: shows only where the input has a large third number, or a large place of a cosine.
fn harm(before: &Call, after: &mut Call) {
    if before.what == What::Cosine && before.length > 64 {
        after.result.iter_mut().for_each(|value| *value ^= 1);
    }
    let third = [&before.halves, &before.coefs, &before.lines, &before.coefficients, &before.output]
        .iter()
        .find_map(|numbers| numbers.get(2).copied());
    if third.is_some_and(|number| number > 1000) {
        for (_, get, _) in SHORT {
            if let Some(number) = get(after).get_mut(3) {
                *number ^= 1;
                return;
            }
        }
    }
}

/// How often each answer came.
pub fn told(answers: &BTreeMap<i32, u64>) -> String {
    let each: Vec<String> = answers.iter().map(|(answer, count)| format!("{answer}: {count}")).collect();
    format!("answers {}", each.join(", "))
}
