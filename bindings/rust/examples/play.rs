//! Plays recorded streams and compares each sample with the recorded one: `cargo run --example play FILE.vec ..`.

mod stream;

use post::{Description, Post, Settings};
use std::{env, process::ExitCode};
use stream::Stream;

/// Plays a stream, and says what was played.
fn play(file: &str) -> Result<String, String> {
    let stream = Stream::read(file)?;
    let unsquelched = Settings { squelch: 0, ..Settings::default() };
    let mut post = Post::set_up_with(stream.shape, unsquelched).map_err(|why| format!("{file}: set-up is refused: {why}"))?;
    let (mut received, mut lost) = (0, 0);
    for (index, record) in stream.records.into_iter().enumerate() {
        let mut output = vec![0; record.samples.len()];
        let played = match record.frame {
            Some((params, mut description, pulses)) => {
                received += 1;
                post.received(stream.shape, params, &mut description, &pulses, &mut output)
            }
            None => {
                lost += 1;
                post.lost(stream.shape, &mut Description::default(), &mut output)
            }
        };
        played.map_err(|why| format!("{file}: frame {index} is refused: {why}"))?;
        if let Some(at) = (0..output.len()).find(|at| output[*at] != record.samples[*at]) {
            return Err(format!("{file}: frame {index}, sample {at}: {} is played, {} recorded", output[at], record.samples[at]));
        }
    }
    Ok(format!("{received} received and {lost} lost frames played as recorded"))
}

fn main() -> ExitCode {
    if env::args().len() < 2 {
        eprintln!("play FILE.vec ..");
        return ExitCode::from(2);
    }
    let mut code = ExitCode::SUCCESS;
    for file in env::args().skip(1) {
        match play(&file) {
            Ok(text) => println!("{file}: {text}"),
            Err(why) => {
                eprintln!("{why}");
                code = ExitCode::FAILURE;
            }
        }
    }
    code
}
