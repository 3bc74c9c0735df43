//! Draws how concealed frames fade: `cargo run --example fade FILE.vec ... > fade.svg`.
//!
//! In each stream 1,200 frames are lost after its loudest one, and again after the loudest one that leaves an ordinary filter, if there
//! is one: the sizes of its coefficients add up to at most 4,096. A frame's level is its loudest concealed sample before comfort noise.
//! The bound is drawn from the 1,025th loss on (demand 3), or from the 129th after an ordinary filter (document 02, Note 12).

mod stream;

use post::{Description, Post, Refusal, Settings, Shape, ffi};
use std::{env, process::ExitCode};
use stream::Stream;

const LOSSES: usize = 1_200;

/// The place of concealment's coefficients in the state's halves.
const COEFFICIENTS: usize = 501;

/// Filters, by the most that the sizes of their coefficients may add up to, and the losses after which the bound holds.
struct Kind {
    sum: u32,
    counted: usize,
    name: &'static str,
    dashes: &'static str,
}

const KINDS: [Kind; 2] = [
    Kind { sum: u32::MAX, counted: 1_024, name: "", dashes: "none" },
    Kind { sum: 4_096, counted: 128, name: ", ordinary", dashes: "5 3" },
];

struct Start {
    kind: &'static Kind,
    name: String,
    levels: Vec<u16>,
    bound: i32,
}

/// Plays a stream, and for each kind of filter loses frames after the loudest received one that leaves such a filter.
fn starts(file: &str) -> Result<Vec<Start>, String> {
    let refused = |why: Refusal| format!("{file}: a frame is refused: {why}");
    let stream = Stream::read(file)?;
    let unsquelched = Settings { squelch: 0, ..Settings::default() };
    let mut post = Post::set_up_with(stream.shape, unsquelched).map_err(refused)?;
    let order = if stream.shape.rate == 16 { 16 } else { 10 };
    let mut best = KINDS.map(|_| (0, None));
    let mut output = vec![];
    for record in stream.records {
        output.resize(record.samples.len(), 0);
        if let Some((params, mut description, pulses)) = record.frame {
            post.received(stream.shape, params, &mut description, &pulses, &mut output).map_err(refused)?;
            let level = peak(&output);
            let sum: u32 = post.parts().1[COEFFICIENTS..][..order].iter().map(|a| u32::from(a.unsigned_abs())).sum();
            for (kind, best) in KINDS.iter().zip(&mut best) {
                if sum <= kind.sum && level > best.0 {
                    *best = (level, Some(post.clone()));
                }
            }
        } else {
            post.lost(stream.shape, &mut Description::default(), &mut output).map_err(refused)?;
        }
    }
    let found = KINDS.iter().zip(best).filter_map(|(kind, (_, post))| Some((kind, post?)));
    found.map(|(kind, post)| faded(kind, stream.shape, post, &mut output).map_err(refused)).collect()
}

/// Loses frames of a shape.
fn faded(kind: &'static Kind, shape: Shape, mut post: Post, output: &mut [i16]) -> Result<Start, Refusal> {
    let mut levels = vec![];
    for _ in 0..LOSSES {
        let mut description = Description::default();
        post.clone().plc_lost(&mut description, output)?;
        levels.push(peak(output));
        post.lost(shape, &mut description, output)?;
    }
    let bound = post.parts().0[ffi::words::LATER_GAIN] / 4_194_304 + 64;
    Ok(Start { kind, name: format!("{} kHz, {} subframes{}", shape.rate, shape.subframes, kind.name), levels, bound })
}

fn peak(samples: &[i16]) -> u16 {
    samples.iter().map(|sample| sample.unsigned_abs()).max().unwrap_or(0)
}

fn main() -> ExitCode {
    if env::args().len() < 2 {
        eprintln!("fade FILE.vec .. > fade.svg");
        return ExitCode::from(2);
    }
    match env::args().skip(1).map(|file| starts(&file)).collect::<Result<Vec<Vec<Start>>, String>>() {
        Ok(starts) => draw(&starts),
        Err(why) => {
            eprintln!("{why}");
            return ExitCode::FAILURE;
        }
    }
    ExitCode::SUCCESS
}

fn draw(streams: &[Vec<Start>]) {
    let (width, height, left, top) = (900.0, 420.0, 60.0, 30.0);
    let across = |loss: usize| left + width * ((loss + 1) as f64).ln() / (LOSSES as f64 + 1.0).ln();
    let up = |level: f64| top + height * (1.0 - (level + 1.0).log2() / 16.0);
    println!(r#"<svg xmlns="http://www.w3.org/2000/svg" viewBox="0 0 1000 500" font-family="sans-serif" font-size="13">"#);
    println!(r#"<rect width="1000" height="500" fill="white"/>"#);
    for level in [0, 1, 16, 64, 256, 1_024, 4_096, 32_767] {
        let y = up(level as f64);
        println!(
            r##"<line x1="{left}" x2="{}" y1="{y:.1}" y2="{y:.1}" stroke="#ddd"/><text x="{}" y="{:.1}" text-anchor="end">{level}</text>"##,
            left + width,
            left - 6.0,
            y + 4.0
        );
    }
    for loss in [1, 2, 5, 10, 20, 50, 128, 256, 512, 1_024] {
        println!(r#"<text x="{:.1}" y="475" text-anchor="middle">{loss}</text>"#, across(loss - 1));
    }
    println!(r#"<text x="510" y="495" text-anchor="middle">loss</text>"#);
    let colours = ["#1b6ca8", "#c0392b", "#27823b", "#8e44ad", "#b9770e", "#34495e"];
    let coloured = streams.iter().zip(colours.iter().cycle()).flat_map(|(stream, colour)| stream.iter().map(move |start| (start, colour)));
    for (index, (start, colour)) in coloured.enumerate() {
        let points: Vec<String> =
            start.levels.iter().enumerate().map(|(loss, level)| format!("{:.1},{:.1}", across(loss), up(*level as f64))).collect();
        println!(r#"<polyline fill="none" stroke="{colour}" stroke-dasharray="{}" points="{}"/>"#, start.kind.dashes, points.join(" "));
        let y = up(start.bound as f64);
        println!(
            r#"<line x1="{:.1}" x2="{:.1}" y1="{y:.1}" y2="{y:.1}" stroke="{colour}" stroke-width="3"/><text x="700" y="{}" fill="{colour}">{}: bound {}</text>"#,
            across(start.kind.counted),
            across(LOSSES - 1),
            75 + 18 * index,
            start.name,
            start.bound
        );
    }
    println!(
        r#"<text x="65" y="20">loudest concealed sample of a frame, before comfort noise; the thick lines are the proved bound, dashed those of ordinary filters</text>"#
    );
    println!("</svg>");
}
