//! A smaller call that still fails: every number is moved towards that of a plain call.

use crate::call::{BYTES, Call, Draft, LONG, SHORT};
use crate::draw::{Number, SHAPES};
use crate::post::ffi::frame::{RATE, SUBFRAMES};
use crate::reference::{FRAME, HALVES, WORDS, read_state, write_state};

/// The smallest failing call found, and the plain call that it is told apart from.
pub fn shrink(mut call: Call, fails: impl Fn(&Call) -> bool) -> (Call, Call) {
    let mut plain = plain_like(&call);
    for _ in 0..8 {
        let mut changed = reshape(&mut call, &fails);
        plain = plain_like(&call);
        changed |= numbers(&mut call, &plain, &fails);
        for (_, get, _) in LONG {
            changed |= slice(&mut call, get(&mut plain), get, &fails);
        }
        for (_, get, _) in SHORT {
            changed |= slice(&mut call, get(&mut plain), get, &fails);
        }
        for (_, get, _) in BYTES {
            changed |= slice(&mut call, get(&mut plain), get, &fails);
        }
        if !changed {
            break;
        }
    }
    (call, plain)
}

fn plain_like(call: &Call) -> Call {
    let (rate, subframes) = shape(call).unwrap_or((8, 2));
    Draft::plain(call.what, rate, subframes).call()
}

/// Takes the first smaller shape at which the call fails too, then the first smaller one that its frame brings.
fn reshape(call: &mut Call, fails: &impl Fn(&Call) -> bool) -> bool {
    let Some(held) = shape(call) else { return false };
    let smaller = |(rate, subframes): (i32, i32)| {
        SHAPES.into_iter().filter(move |(r, n)| r * n < rate * subframes || r * n == rate * subframes && *r < rate)
    };
    let changed = smaller(held).any(|(rate, subframes)| keep(call, reshaped(call, rate, subframes), fails));
    let Some(brought) = coming(call).filter(|brought| SHAPES.contains(brought)) else { return changed };
    smaller(brought).any(|(rate, subframes)| {
        let mut trial = call.clone();
        (trial.frame[RATE], trial.frame[SUBFRAMES]) = (rate, subframes);
        keep(call, trial, fails)
    }) || changed
}

/// The shape that a call's frame brings.
fn coming(call: &Call) -> Option<(i32, i32)> {
    (call.frame.len() >= FRAME).then(|| (call.frame[RATE], call.frame[SUBFRAMES]))
}

/// The shape that a call's state holds, or the one that it names.
fn shape(call: &Call) -> Option<(i32, i32)> {
    let held = if call.words.is_empty() || call.halves.is_empty() {
        (call.rate, call.subframes)
    } else if call.words.len() >= WORDS && call.halves.len() >= HALVES {
        let dec = read_state(&call.words, &call.halves);
        (dec.fs_khz, dec.nb_subfr)
    } else {
        return None;
    };
    SHAPES.contains(&held).then_some(held)
}

/// The same call at another shape, which its frame brings too if it brought the held one.
fn reshaped(call: &Call, rate: i32, subframes: i32) -> Call {
    let unchanged = coming(call).is_some() && coming(call) == shape(call);
    let mut call = call.clone();
    if unchanged {
        (call.frame[RATE], call.frame[SUBFRAMES]) = (rate, subframes);
    }
    (call.rate, call.subframes) = (rate, subframes);
    if call.words.len() >= WORDS && call.halves.len() >= HALVES {
        let mut dec = read_state(&call.words, &call.halves);
        let plain = crate::reference::set_up(rate, subframes);
        for fs_khz in [&mut dec.s_plc.fs_khz, &mut dec.s_cng.fs_khz] {
            if *fs_khz == dec.fs_khz {
                *fs_khz = rate;
            }
        }
        (dec.fs_khz, dec.nb_subfr, dec.frame_length) = (plain.fs_khz, plain.nb_subfr, plain.frame_length);
        (dec.subfr_length, dec.ltp_mem_length, dec.lpc_order) = (plain.subfr_length, plain.ltp_mem_length, plain.lpc_order);
        write_state(&mut dec, &mut call.words, &mut call.halves);
    }
    call
}

/// Takes a trial if it fails too.
fn keep(call: &mut Call, trial: Call, fails: &impl Fn(&Call) -> bool) -> bool {
    let worse = fails(&trial);
    if worse {
        *call = trial;
    }
    worse
}

fn numbers(call: &mut Call, plain: &Call, fails: &impl Fn(&Call) -> bool) -> bool {
    let changes: [fn(&mut Call, &Call) -> bool; 5] = [
        |c, p| std::mem::replace(&mut c.rate, p.rate) != p.rate,
        |c, p| std::mem::replace(&mut c.subframes, p.subframes) != p.subframes,
        |c, p| std::mem::replace(&mut c.named.squelch, p.named.squelch) != p.named.squelch,
        |c, p| std::mem::replace(&mut c.named.edition, p.named.edition) != p.named.edition,
        |c, p| std::mem::replace(&mut c.length, p.length) != p.length,
    ];
    let mut changed = false;
    for change in changes {
        let mut trial = call.clone();
        changed |= change(&mut trial, plain) && keep(call, trial, fails);
    }
    changed
}

fn slice<T: Number + PartialEq + Into<i64>>(
    call: &mut Call, plain: &[T], get: fn(&mut Call) -> &mut Vec<T>, fails: &impl Fn(&Call) -> bool,
) -> bool {
    let mut changed = false;
    let mut trial = call.clone();
    let length = get(&mut trial).len();
    if length != plain.len() {
        get(&mut trial).resize(plain.len(), T::low(0));
        changed |= keep(call, trial, fails);
    }
    let length = get(call).len().min(plain.len()).min(length);
    let mut part = length;
    while part > 0 {
        for start in (0..length).step_by(part) {
            let places = start..length.min(start + part);
            let mut trial = call.clone();
            let numbers = &mut get(&mut trial)[places.clone()];
            if numbers != &plain[places.clone()] {
                numbers.copy_from_slice(&plain[places]);
                changed |= keep(call, trial, fails);
            }
        }
        part /= 2;
    }
    for (place, usual) in plain.iter().enumerate().take(length) {
        let (mut fine, mut failing): (i64, i64) = ((*usual).into(), get(call)[place].into());
        while (failing - fine).abs() > 1 {
            let middle = (failing + fine) / 2;
            let mut trial = call.clone();
            get(&mut trial)[place] = T::low(middle);
            if keep(call, trial, fails) {
                (failing, changed) = (middle, true);
            } else {
                fine = middle;
            }
        }
    }
    changed
}
