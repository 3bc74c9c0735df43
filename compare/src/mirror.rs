//! The reference in the library's place: each exported function that the library lacks.

use crate::reference::{self, Settings};
use crate::{loads, recording, single_loss, trials};
use std::slice::{from_raw_parts as part, from_raw_parts_mut as part_mut};

type Longs = *mut i32;
type Shorts = *mut i16;

#[cfg(not(has_set_up))]
#[unsafe(no_mangle)]
unsafe extern "C" fn post_set_up(rate: i32, subframes: i32, w: Longs, wn: usize, h: Shorts, hn: usize) -> i32 {
    unsafe { reference::post_set_up(rate, subframes, part_mut(w, wn), part_mut(h, hn)) }
}

#[cfg(not(has_set_up_with))]
#[unsafe(no_mangle)]
unsafe extern "C" fn post_set_up_with(rate: i32, subframes: i32, squelch: i32, edition: i32, w: Longs, wn: usize, h: Shorts, hn: usize) -> i32 {
    unsafe { reference::post_set_up_with(rate, subframes, Settings { squelch, edition }, part_mut(w, wn), part_mut(h, hn)) }
}

#[cfg(not(has_frame))]
#[unsafe(no_mangle)]
unsafe extern "C" fn post_frame(w: Longs, wn: usize, h: Shorts, hn: usize, f: Longs, fn_: usize, c: Shorts, cn: usize,
    p: Shorts, pn: usize, o: Shorts, on: usize) -> i32 {
    unsafe { reference::post_frame(part_mut(w, wn), part_mut(h, hn), part_mut(f, fn_), part_mut(c, cn), part(p, pn), part_mut(o, on)) }
}

#[cfg(not(has_core))]
#[unsafe(no_mangle)]
unsafe extern "C" fn post_core(w: Longs, wn: usize, h: Shorts, hn: usize, f: Longs, fn_: usize, c: Shorts, cn: usize,
    p: Shorts, pn: usize, o: Shorts, on: usize) -> i32 {
    unsafe { reference::post_core(part_mut(w, wn), part_mut(h, hn), part_mut(f, fn_), part_mut(c, cn), part(p, pn), part_mut(o, on)) }
}

#[cfg(not(has_plc_received))]
#[unsafe(no_mangle)]
unsafe extern "C" fn post_plc_received(w: Longs, wn: usize, h: Shorts, hn: usize, f: Longs, fn_: usize, c: Shorts, cn: usize) -> i32 {
    unsafe { reference::post_plc_received(part_mut(w, wn), part_mut(h, hn), part(f, fn_), part(c, cn)) }
}

#[cfg(not(has_plc_lost))]
#[unsafe(no_mangle)]
unsafe extern "C" fn post_plc_lost(w: Longs, wn: usize, h: Shorts, hn: usize, f: Longs, fn_: usize, o: Shorts, on: usize) -> i32 {
    unsafe { reference::post_plc_lost(part_mut(w, wn), part_mut(h, hn), part_mut(f, fn_), part_mut(o, on)) }
}

#[cfg(not(has_glue))]
#[unsafe(no_mangle)]
unsafe extern "C" fn post_glue(w: Longs, wn: usize, h: Shorts, hn: usize, b: Shorts, bn: usize, length: usize) -> i32 {
    unsafe { reference::post_glue(part_mut(w, wn), part_mut(h, hn), part_mut(b, bn), length) }
}

#[cfg(not(has_noise))]
#[unsafe(no_mangle)]
unsafe extern "C" fn post_noise(w: Longs, wn: usize, h: Shorts, hn: usize, f: Longs, fn_: usize, b: Shorts, bn: usize, length: usize) -> i32 {
    unsafe { reference::post_noise(part_mut(w, wn), part_mut(h, hn), part(f, fn_), part_mut(b, bn), length) }
}

#[cfg(not(has_played))]
#[unsafe(no_mangle)]
unsafe extern "C" fn post_played(rate: i32, subframes: i32, o: Shorts, on: usize) -> i32 {
    unsafe { reference::post_played(rate, subframes, part(o, on)) }
}

#[cfg(not(has_stability))]
#[unsafe(no_mangle)]
unsafe extern "C" fn post_stability(a: Shorts, an: usize, order: usize, edition: i32, r: Longs, rn: usize) -> i32 {
    unsafe { reference::post_stability(part(a, an), order, edition, part_mut(r, rn)) }
}

#[cfg(not(has_sentence))]
#[unsafe(no_mangle)]
unsafe extern "C" fn post_sentence(a: Shorts, an: usize, order: usize, edition: i32, t: *mut u8, tn: usize) -> i32 {
    unsafe { reference::post_sentence(part(a, an), order, edition, part_mut(t, tn)) }
}

#[cfg(not(has_filter))]
#[unsafe(no_mangle)]
unsafe extern "C" fn post_filter(a: Shorts, an: usize, l: Shorts, ln: usize, order: usize, edition: i32) -> i32 {
    unsafe { reference::post_filter(part_mut(a, an), part(l, ln), order, edition) }
}

#[cfg(not(has_cosine))]
#[unsafe(no_mangle)]
unsafe extern "C" fn post_cosine(place: usize, v: Longs, vn: usize) -> i32 {
    unsafe { reference::post_cosine(place, part_mut(v, vn)) }
}

#[cfg(not(has_rising))]
#[unsafe(no_mangle)]
unsafe extern "C" fn post_rising(l: Shorts, ln: usize, order: usize, r: Longs, rn: usize) -> i32 {
    unsafe { reference::post_rising(part(l, ln), order, part_mut(r, rn)) }
}

#[cfg(not(has_recording_read))]
#[unsafe(no_mangle)]
unsafe extern "C" fn post_recording_read(b: *const u8, bn: usize, h: Longs, hn: usize) -> i32 {
    unsafe { recording::post_recording_read(part(b, bn), part_mut(h, hn)) }
}

#[cfg(not(has_recording_frame))]
#[unsafe(no_mangle)]
unsafe extern "C" fn post_recording_frame(b: *const u8, bn: usize, number: u32, f: Longs, fn_: usize, c: Shorts, cn: usize,
    p: Shorts, pn: usize) -> i32 {
    unsafe { recording::post_recording_frame(part(b, bn), number, part_mut(f, fn_), part_mut(c, cn), part_mut(p, pn)) }
}

#[cfg(not(has_recording_begin))]
#[unsafe(no_mangle)]
unsafe extern "C" fn post_recording_begin(b: *mut u8, bn: usize, rate: i32, subframes: i32) -> i32 {
    unsafe { recording::post_recording_begin(part_mut(b, bn), rate, subframes) }
}

#[cfg(not(has_recording_append))]
#[unsafe(no_mangle)]
unsafe extern "C" fn post_recording_append(b: *mut u8, bn: usize, frames: u32, f: Longs, fn_: usize, c: Shorts, cn: usize,
    p: Shorts, pn: usize) -> i32 {
    unsafe { recording::post_recording_append(part_mut(b, bn), frames, part(f, fn_), part(c, cn), part(p, pn)) }
}

#[cfg(not(has_recording_play))]
#[unsafe(no_mangle)]
unsafe extern "C" fn post_recording_play(b: *const u8, bn: usize, o: Shorts, on: usize, p: Longs, pn: usize) -> i32 {
    unsafe { recording::post_recording_play(part(b, bn), part_mut(o, on), part_mut(p, pn)) }
}

#[cfg(not(has_load_frame))]
#[unsafe(no_mangle)]
unsafe extern "C" fn post_load_frame(rate: i32, subframes: i32, seed: i32, number: u32, f: Longs, fn_: usize, c: Shorts, cn: usize,
    p: Shorts, pn: usize) -> i32 {
    unsafe { loads::post_load_frame(rate, subframes, seed, number, part_mut(f, fn_), part_mut(c, cn), part_mut(p, pn)) }
}

#[cfg(not(has_load_leap))]
#[unsafe(no_mangle)]
unsafe extern "C" fn post_load_leap(seed: i32, draws: u64) -> i32 {
    loads::post_load_leap(seed, draws)
}

#[cfg(not(has_load_undoing))]
#[unsafe(no_mangle)]
unsafe extern "C" fn post_load_undoing(draws: u64) -> u64 {
    loads::post_load_undoing(draws)
}

#[cfg(not(has_trial))]
#[unsafe(no_mangle)]
unsafe extern "C" fn post_trial(rate: i32, subframes: i32, seed: i32, squelch: i32, frames: u32, good: u16, bad: u16, s: *const i32, sn: usize,
    c: *mut u32, cn: usize) -> i32 {
    unsafe { trials::post_trial([rate, subframes, seed, squelch], frames, [good, bad], part(s, sn), part_mut(c, cn)) }
}

#[cfg(not(has_single_loss))]
#[unsafe(no_mangle)]
unsafe extern "C" fn post_single_loss(b: *const u8, bn: usize, limit: i32, n: Longs, nn: usize) -> i32 {
    unsafe { single_loss::post_single_loss(part(b, bn), limit, part_mut(n, nn)) }
}
