//! The given Rust beside the proved library.

mod answers;
mod bench;
mod call;
mod checks;
mod draw;
mod ffi;
mod firmware;
mod library;
mod load;
mod loads;
#[allow(unused)]
#[rustfmt::skip]
mod mirror;
/// The safe binding, as a firmware has it.
#[allow(unused)]
#[rustfmt::skip]
#[path = "../../bindings/rust/src/lib.rs"]
mod post;
mod recording;
mod recordings;
mod reference;
mod rows;
mod shrink;
mod side;
mod single_loss;
mod streams;
mod trials;
mod vectors;

use call::What;
use checks::Options;
use std::panic::catch_unwind;
use std::path::{Path, PathBuf};
use std::process::ExitCode;

const USAGE: &str = "compare/run SOURCES [--seed S] [--from CASE] [--count N] [--streams STREAMS] [--self] [WHAT ...]";
const OTHERS: [&str; 9] = ["rows", "lists", "recordings", "single_loss", "load", "trial", "streams", "firmware", "examples"];

fn main() -> ExitCode {
    let words: Vec<String> = std::env::args().skip(1).collect();
    let texts: Vec<&str> = words.iter().map(String::as_str).collect();
    std::panic::set_hook(Box::new(|why| *reference::STOP.lock().unwrap() = why.to_string()));
    let done = catch_unwind(|| match texts[..] {
        ["run", ..] => run(&texts[1..]),
        ["bench", folder, own, only_time, ref sides @ ..] => {
            bench::bench(Path::new(folder), own == "--self", only_time == "--time", sides).map(|()| true)
        }
        ["record", from, to] => streams::record(Path::new(from), Path::new(to)).map(|()| true),
        ["answers", streams, crates] => {
            let crates = Path::new(crates);
            answers::write_sentences(&crates.join("service"))
                .and_then(|()| answers::write(Path::new(streams), &crates.join("replay")))
                .map(|()| true)
        }
        ["count", folder, shape, ref sides @ ..] => bench::count(Path::new(folder), shape, sides).map(|()| true),
        ["time", folder, shape, ref sides @ ..] => bench::time(Path::new(folder), shape, sides).map(|()| true),
        _ => Err(USAGE.into()),
    });
    match done.unwrap_or_else(|_| Err(reference::STOP.lock().unwrap().clone())) {
        Ok(true) => ExitCode::SUCCESS,
        Ok(false) => ExitCode::FAILURE,
        Err(why) => {
            eprintln!("{why}");
            ExitCode::from(2)
        }
    }
}

fn run(words: &[&str]) -> Result<bool, String> {
    let fault = std::env::var("COMPARE_FAULT").ok();
    let mut options = Options { seed: 1, from: 0, count: 10_000, streams: None, own: false, fault };
    let mut named = vec![];
    let mut words = words.iter().copied();
    while let Some(word) = words.next() {
        let mut value = || words.next().ok_or(USAGE);
        let number = |text: &str| text.parse::<u64>().map_err(|why| format!("{text}: {why}"));
        match word {
            "--seed" => options.seed = number(value()?)?,
            "--from" => options.from = number(value()?)?,
            "--count" => match number(value()?)? {
                0 => return Err("--count 0: nothing would be compared".into()),
                count => options.count = count,
            },
            "--streams" => options.streams = Some(PathBuf::from(value()?)),
            "--self" => options.own = true,
            _ if OTHERS.contains(&word) || What::ALL.iter().any(|(_, name, _)| *name == word) => named.push(word),
            _ => return Err(format!("{word}?\n{USAGE}")),
        }
    }
    let files = options.streams.as_deref().map(streams::files).transpose()?;
    let wanted = |name: &str| named.is_empty() || named.contains(&name);
    let absent = |name: &str| {
        println!("{name}: absent from the library");
        false
    };
    let mut outcomes = vec![];
    if wanted("rows") {
        outcomes.push(options.rows());
    }
    for (what, name, _) in What::ALL.into_iter().filter(|(_, name, _)| wanted(name)) {
        outcomes.push(if options.has(what) { options.function(what) } else { absent(name) });
    }
    let frames = options.has(What::Received) && options.has(What::Lost);
    if wanted("lists") {
        outcomes.push(if frames { options.lists() } else { absent("lists") });
    }
    if wanted("recordings") {
        let linked = options.own || recordings::LINKED;
        outcomes.push(if linked { options.recordings(files.as_deref().unwrap_or_default()) } else { absent("recordings") });
    }
    if wanted("single_loss") {
        let linked = options.own || single_loss::LINKED;
        outcomes.push(if linked { options.single_losses(files.as_deref().unwrap_or_default()) } else { absent("single_loss") });
    }
    if wanted("load") {
        let linked = options.own || loads::LINKED;
        outcomes.push(if linked { options.load() } else { absent("load") });
    }
    if wanted("trial") {
        let linked = options.own || trials::LINKED;
        outcomes.push(if linked { options.trials() } else { absent("trial") });
    }
    for name in ["streams", "firmware"].into_iter().filter(|name| wanted(name)) {
        match &files {
            _ if name == "firmware" && !frames => outcomes.push(absent(name)),
            Some(files) if name == "streams" => outcomes.extend(files.iter().map(|file| options.stream(file))),
            Some(files) => outcomes.extend(files.iter().map(|file| options.firmware(file))),
            None if named.is_empty() => println!("{name}: no stream is named"),
            None => return Err(format!("{name}: --streams STREAMS is needed")),
        }
    }
    if wanted("examples") {
        match (&options.streams, std::env::var_os("COMPARE_EXAMPLES")) {
            (Some(place), Some(script)) if !options.own && frames => outcomes.push(checks::examples(&script, place)),
            _ if named.is_empty() => println!("examples: need the library and a stream"),
            _ => return Err("examples: the library and --streams STREAMS are needed".into()),
        }
    }
    if outcomes.is_empty() {
        return Err("nothing was compared".into());
    }
    let passed = outcomes.iter().filter(|passed| **passed).count();
    println!("{passed} passed, {} failed", outcomes.len() - passed);
    Ok(passed == outcomes.len())
}
