//! Plays frames of a load: `cargo run --example load SEED RATE SUBFRAMES FIRST COUNT`. A post that is set up for the shape refuses none of them.

use post::{Load, Post, Settings, Shape};
use std::{env, process::ExitCode};

fn play(load: Load, first: u32, count: u32) -> Result<String, String> {
    let unsquelched = Settings { squelch: 0, ..Settings::default() };
    let mut post = Post::set_up_with(load.shape, unsquelched).map_err(|why| format!("set-up is refused: {why}"))?;
    let (mut lost, mut loudest, mut output) = (0, 0, [0; 320]);
    for number in (first..).take(count as usize) {
        let refused = |why| format!("frame {number} is refused: {why}");
        let mut drawn = load.frame(number).map_err(refused)?;
        let frame = &mut drawn.frame;
        let played = if drawn.lost {
            post.lost(load.shape, &mut frame.description, &mut output)
        } else {
            post.received(load.shape, frame.params, &mut frame.description, &frame.pulses, &mut output)
        };
        played.map_err(refused)?;
        lost += u32::from(drawn.lost);
        let samples = post::played(load.shape, &mut output);
        loudest = samples.iter().map(|sample| sample.unsigned_abs()).fold(loudest, u16::max);
    }
    Ok(format!("{count} frames played, {lost} of them lost, none refused; the loudest sample is {loudest}"))
}

fn main() -> ExitCode {
    let words: Option<Vec<i64>> = env::args().skip(1).map(|word| word.parse().ok()).collect();
    let numbers = words.and_then(|words| <[i64; 5]>::try_from(words).ok()).and_then(|[seed, rate, subframes, first, count]| {
        let shape = Shape { rate: rate.try_into().ok()?, subframes: subframes.try_into().ok()? };
        Some((Load { shape, seed: seed.try_into().ok()? }, first.try_into().ok()?, count.try_into().ok()?))
    });
    let Some((load, first, count)) = numbers else {
        eprintln!("load SEED RATE SUBFRAMES FIRST COUNT");
        return ExitCode::from(2);
    };
    match play(load, first, count) {
        Ok(text) => {
            println!("{text}");
            ExitCode::SUCCESS
        }
        Err(why) => {
            eprintln!("{why}");
            ExitCode::FAILURE
        }
    }
}
