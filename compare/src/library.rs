//! The library as a side of compare/bench, and its calls refused by their last row.

use crate::post::ffi::{self, COEFS, FRAME, HALVES, WORDS};
use crate::side::{Shape, Side, calls};
use std::slice::from_raw_parts;

pub struct Player {
    words: [i32; WORDS],
    halves: [i16; HALVES],
    frame: [i32; FRAME],
    coefs: [i16; COEFS],
    pulses: &'static [i16],
    output: [i16; 320],
    /// The samples of output that are lent, and noise's length.
    room: usize,
    length: usize,
}

unsafe extern "C" fn set_up(player: *mut Player, shape: &Shape) {
    let length = shape.frame_length as usize;
    let (words, halves, frame, coefs, output) = ([0; WORDS], [0; HALVES], [0; FRAME], [0; COEFS], [0; 320]);
    let mut made = Player { words, halves, frame, coefs, pulses: &[], output, room: length, length };
    assert_eq!(ffi::set_up_with(shape.fs_khz, shape.nb_subfr, 0, 8251, &mut made.words, &mut made.halves), 0);
    unsafe { player.write(made) }
}

unsafe extern "C" fn bring(player: *mut Player, frame: &[i32; FRAME], coefs: &[i16; COEFS], pulses: *const i16, count: usize) {
    let player = unsafe { &mut *player };
    (player.frame, player.coefs) = (*frame, *coefs);
    player.pulses = unsafe { from_raw_parts(pulses, count) };
}

unsafe extern "C" fn output(player: *const Player) -> *const i16 {
    unsafe { &raw const (*player).output }.cast()
}

/// Makes the last row of every call apply: an output that is a sample short, a length of 0.
pub fn shorten(player: &mut Player) {
    (player.room, player.length) = (player.room - 1, 0);
}

#[inline(always)]
fn whole(p: &mut Player, received: i32) -> i32 {
    p.frame[ffi::frame::RECEIVED] = received;
    ffi::frame(&mut p.words, &mut p.halves, &mut p.frame, &mut p.coefs, p.pulses, &mut p.output[..p.room])
}

#[inline(always)]
fn core(p: &mut Player) -> i32 {
    ffi::core(&mut p.words, &mut p.halves, &mut p.frame, &mut p.coefs, p.pulses, &mut p.output[..p.room])
}

#[inline(always)]
fn plc_lost(p: &mut Player) -> i32 {
    ffi::plc_lost(&mut p.words, &mut p.halves, &mut p.frame, &mut p.output[..p.room])
}

#[inline(always)]
fn noise(p: &mut Player) -> i32 {
    ffi::noise(&mut p.words, &mut p.halves, &p.frame, &mut p.output[..p.room], p.length)
}

// A refusal's number comes negated, or both functions of a call would be folded into one.
calls! {
    library_received |player| whole(player, 1);
    library_lost |player| whole(player, 0);
    library_core |player| core(player);
    library_plc_lost |player| plc_lost(player);
    library_noise |player| noise(player);
    refused_received |player| -whole(player, 1);
    refused_lost |player| -whole(player, 0);
    refused_core |player| -core(player);
    refused_plc_lost |player| -plc_lost(player);
    refused_noise |player| -noise(player);
}

pub static LIBRARY: Side<Player> = Side {
    size: size_of::<Player>(),
    state: 4 * WORDS + 2 * HALVES,
    recorded: false,
    set_up,
    bring,
    output,
    frames: [library_received, library_lost],
    stages: [Some(library_core), Some(library_plc_lost), Some(library_noise)],
};

pub static REFUSED: Side<Player> =
    Side { frames: [refused_received, refused_lost], stages: [Some(refused_core), Some(refused_plc_lost), Some(refused_noise)], ..LIBRARY };
