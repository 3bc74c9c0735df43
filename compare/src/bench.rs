//! Time, instructions and stack of a call on each side, on the frames of recorded streams.

use crate::call::What;
use crate::draw::SHAPES;
use crate::library::{self, LIBRARY, REFUSED};
use crate::reference;
use crate::side::{Call, Shape, Side};
use crate::streams;
use std::ffi::{CString, c_char, c_int, c_void};
use std::fs;
use std::os::unix::ffi::OsStrExt;
use std::path::{Path, PathBuf};
use std::process::Command;
use std::thread;
use std::time::Instant;

const RUNS: usize = 5;
const PASSES: usize = 31;
/// A thread's stack in bytes, the words of it that are painted, and what the painting function's own frame may take.
const STACK: usize = 1 << 20;
const PAINTED: usize = 1 << 15;
const OWN_FRAME: usize = 128;

/// A side's calls in their order: their titles, and the library's functions, whose names end those of the calls.
const MEASURED: [(&str, What); 5] = [
    ("frame, received", What::Received),
    ("frame, lost", What::Lost),
    ("core, received", What::Core),
    ("concealment, lost", What::PlcLost),
    ("noise, lost", What::Noise),
];

/// A number of each measured call for each column; a side may lack a stage.
type Table = [Vec<Option<f64>>; 5];

#[derive(Clone, Copy)]
#[repr(align(64))]
struct Line(#[allow(unused)] [u8; 64]);

/// The memory of a side's player.
type Player = Vec<Line>;

/// A side, with the players that stand before each measured call.
struct Column {
    title: String,
    /// Where callgrind finds its functions, and how their names begin.
    file: PathBuf,
    prefix: &'static str,
    side: &'static Side<Line>,
    players: [Vec<Player>; 5],
}

impl Column {
    fn call(&self, measured: usize) -> Option<Call<Line>> {
        if measured < 2 { Some(self.side.frames[measured]) } else { self.side.stages[measured - 2] }
    }
}

unsafe extern "C" {
    fn dlopen(file: *const c_char, mode: c_int) -> *mut c_void;
    fn dlsym(library: *mut c_void, name: *const c_char) -> *mut c_void;
}

/// The side that a shared library has.
fn loaded(file: &Path) -> Result<&'static Side<Line>, String> {
    const NOW: c_int = 2;
    let name = CString::new(file.as_os_str().as_bytes()).map_err(|why| why.to_string())?;
    let library = unsafe { dlopen(name.as_ptr(), NOW) };
    let side = if library.is_null() { library } else { unsafe { dlsym(library, c"SIDE".as_ptr()) } };
    unsafe { side.cast::<Side<Line>>().as_ref() }.ok_or_else(|| format!("{}: no side could be loaded", file.display()))
}

/// The library, the sides in files, and last the library's refused calls.
fn columns(folder: &Path, shape: (i32, i32), files: &[&str]) -> Result<Vec<Column>, String> {
    let program = std::env::current_exe().map_err(|why| why.to_string())?;
    let own = |side: *const Side<library::Player>| unsafe { &*side.cast::<Side<Line>>() };
    let mut columns = vec![];
    let mut column = |title: &str, file: &Path, prefix, side| {
        let players = played(side, folder, shape).map_err(|why| format!("{title}: {why}"))?;
        columns.push(Column { title: title.into(), file: file.into(), prefix, side, players });
        Ok::<(), String>(())
    };
    column("library", &program, "library", own(&LIBRARY))?;
    for file in files.iter().map(Path::new) {
        column(&file.file_stem().unwrap_or_default().to_string_lossy(), file, "side", loaded(file)?)?;
    }
    let mut players = columns[0].players.clone();
    players.iter_mut().flatten().for_each(|player| library::shorten(unsafe { &mut *player.as_mut_ptr().cast() }));
    columns.push(Column { title: "refused".into(), file: program, prefix: "refused", side: own(&REFUSED), players });
    Ok(columns)
}

/// Plays the streams of one shape, each frame by one call, and compares the samples: the players that stand before the measured calls.
/// Noise alone has what a lost frame leaves.
fn played(side: &Side<Line>, folder: &Path, shape: (i32, i32)) -> Result<[Vec<Player>; 5], String> {
    let dec = reference::set_up(shape.0, shape.1);
    let sizes = Shape {
        fs_khz: dec.fs_khz,
        nb_subfr: dec.nb_subfr,
        frame_length: dec.frame_length,
        subfr_length: dec.subfr_length,
        ltp_mem_length: dec.ltp_mem_length,
        lpc_order: dec.lpc_order,
    };
    let mut players = [const { vec![] }; 5];
    for file in streams::files(folder)? {
        let stream = if side.recorded { streams::recorded(&file)? } else { streams::read(&file)? };
        if (stream.rate, stream.subframes) != shape {
            continue;
        }
        let mut player = vec![Line([0; 64]); side.size.div_ceil(size_of::<Line>())];
        unsafe { (side.set_up)(player.as_mut_ptr(), &sizes) };
        for (index, (record, samples)) in stream.records.into_iter().enumerate() {
            let lost = record.what == What::Lost;
            let (frame, coefs) = (record.frame[..].try_into().unwrap(), record.coefs[..].try_into().unwrap());
            // Every copy of the player refers to them.
            let pulses = record.pulses.leak();
            unsafe { (side.bring)(player.as_mut_ptr(), frame, coefs, pulses.as_ptr(), pulses.len()) };
            for measured in if lost { [1, 3] } else { [0, 2] } {
                players[measured].push(player.clone());
            }
            let answer = unsafe { side.frames[lost as usize](player.as_mut_ptr()) };
            let output = unsafe { std::slice::from_raw_parts((side.output)(player.as_ptr()), samples.len()) };
            let named = |why: String| format!("{}: record {index}: {why}", stream.name);
            if answer != 0 {
                return Err(named(format!("refused by {answer}")));
            }
            streams::as_recorded(output, &samples).map_err(named)?;
            if lost {
                players[4].push(player.clone());
            }
        }
    }
    Ok(players)
}

fn median(mut numbers: Vec<f64>) -> f64 {
    numbers.sort_by(f64::total_cmp);
    numbers[numbers.len() / 2]
}

/// Nanoseconds of one call, without the reading of the clock.
fn nanoseconds(call: Call<Line>, player: &mut Player) -> f64 {
    let start = Instant::now();
    unsafe { call(player.as_mut_ptr()) };
    let made = Instant::now();
    let nothing = made.elapsed();
    (made - start).as_nanos() as f64 - nothing.as_nanos() as f64
}

/// Prints the mean over all calls of each call's median, for each measured call and column. What the calls need is made in another
/// thread, whose heap is another, so that the sides find theirs as good as new.
pub fn time(folder: &Path, shape: &str, files: &[&str]) -> Result<(), String> {
    let shape = shape_of(shape)?;
    let columns = thread::scope(|scope| scope.spawn(|| columns(folder, shape, files)).join().unwrap())?;
    for measured in 0..MEASURED.len() {
        let found = passes(&columns, measured);
        for (at, (column, found)) in columns.iter().zip(&found).enumerate().filter(|(_, (column, _))| column.call(measured).is_some()) {
            let calls = column.players[measured].len();
            let of_call = |call: usize| median(found[call..].iter().step_by(calls).copied().collect());
            println!("{measured} {at} {}", (0..calls).map(of_call).sum::<f64>() / calls as f64);
        }
    }
    Ok(())
}

/// For each column the nanoseconds of each call in each pass. In a pass one column after the other makes all of its calls.
fn passes(columns: &[Column], measured: usize) -> Vec<Vec<f64>> {
    let players = |column: &Column| column.players[measured].len();
    let mut found: Vec<_> = columns.iter().map(|column| vec![0.0; PASSES * players(column)]).collect();
    let mut work: Vec<Player> = columns.iter().map(|column| column.players[measured].first().cloned().unwrap_or_default()).collect();
    for pass in 0..PASSES {
        for ((column, found), work) in columns.iter().zip(&mut found).zip(&mut work) {
            let Some(call) = column.call(measured) else { continue };
            for (player, found) in column.players[measured].iter().zip(&mut found[pass * players(column)..]) {
                work.copy_from_slice(player);
                *found = nanoseconds(call, work);
            }
        }
    }
    found
}

/// Makes each measured call once, for a count of its instructions; a played frame's call was made when its stream was played.
pub fn count(folder: &Path, shape: &str, files: &[&str]) -> Result<(), String> {
    for mut column in columns(folder, shape_of(shape)?, files)? {
        let (first, answers) = if column.prefix == "refused" { (0, -12..=-11) } else { (2, 0..=0) };
        for measured in first..MEASURED.len() {
            let Some(call) = column.call(measured) else { continue };
            for player in &mut column.players[measured] {
                let answer = unsafe { call(player.as_mut_ptr()) };
                if !answers.contains(&answer) {
                    return Err(format!("{}: {}: answer {answer}", column.title, MEASURED[measured].0));
                }
            }
        }
    }
    Ok(())
}

fn named((rate, subframes): (i32, i32)) -> String {
    format!("{rate}.{subframes}")
}

fn shape_of(name: &str) -> Result<(i32, i32), String> {
    SHAPES.into_iter().find(|shape| named(*shape) == name).ok_or("no such shape".into())
}

/// What a command writes.
fn said(command: &mut Command) -> Result<String, String> {
    let name = command.get_program().to_string_lossy().into_owned();
    let done = command.output().map_err(|why| format!("{name}: {why}"))?;
    let text = |bytes: &[u8]| String::from_utf8_lossy(bytes).into_owned();
    if done.status.success() { Ok(text(&done.stdout)) } else { Err(format!("{name}: {}", text(&done.stderr))) }
}

/// One run of `time`, a process of its own.
fn timed(folder: &Path, shape: (i32, i32), files: &[&str]) -> Result<Table, String> {
    let program = std::env::current_exe().map_err(|why| why.to_string())?;
    let said = said(Command::new(program).arg("time").arg(folder).arg(named(shape)).args(files))?;
    let mut table: Table = std::array::from_fn(|_| vec![None; files.len() + 2]);
    for line in said.lines() {
        let numbers: Vec<f64> = line.split(' ').filter_map(|number| number.parse().ok()).collect();
        table[numbers[0] as usize][numbers[1] as usize] = Some(numbers[2]);
    }
    Ok(table)
}

/// The instructions of a call, by `count` under callgrind. It would count `rep stosb` once for each byte, so glibc is kept from it.
fn counted(folder: &Path, shape: (i32, i32), files: &[&str], columns: &[Column]) -> Result<Table, String> {
    let program = &columns[0].file;
    let file = program.with_file_name(format!("callgrind.{}", named(shape)));
    let mut valgrind = Command::new("valgrind");
    valgrind.env("GLIBC_TUNABLES", "glibc.cpu.x86_rep_stosb_threshold=1000000");
    valgrind.args(["--tool=callgrind", "--quiet", "--compress-strings=no", "--compress-pos=no", "--collect-atstart=no"]);
    let function = |prefix: &str, measured: usize| format!("{prefix}_{}", MEASURED[measured].1.name());
    for measured in 0..MEASURED.len() {
        valgrind.args(["library", "side", "refused"].map(|prefix| format!("--toggle-collect={}", function(prefix, measured))));
    }
    valgrind.arg(format!("--callgrind-out-file={}", file.display()));
    said(valgrind.arg(program).arg("count").arg(folder).arg(named(shape)).args(files))?;
    let report = fs::read_to_string(&file).map_err(|why| why.to_string())?;
    let each = |column: &Column, measured| {
        column.call(measured)?;
        let sum = instructions(&report, &column.file, &function(column.prefix, measured));
        Some(sum as f64 / column.players[measured].len() as f64)
    };
    Ok(std::array::from_fn(|measured| columns.iter().map(|column| each(column, measured)).collect()))
}

/// The instructions of a file's function and of all that it calls.
fn instructions(report: &str, file: &Path, function: &str) -> u64 {
    let (mut sum, mut here, mut inside) = (0, false, false);
    for line in report.lines() {
        if let Some(name) = line.strip_prefix("ob=") {
            here = Path::new(name) == file;
        } else if let Some(name) = line.strip_prefix("fn=") {
            inside = here && name == function;
        } else if inside && line.starts_with(|first: char| first.is_ascii_digit()) {
            sum += line.split(' ').nth(1).and_then(|cost| cost.parse().ok()).unwrap_or(0);
        }
    }
    sum
}

/// The bytes of stack that a call overwrites below its caller, which must have as much left as is painted. Nothing large may stand in
/// this function's own frame.
#[inline(never)]
fn overwritten(call: impl FnOnce(), pattern: u64) -> usize {
    let here = 0u64;
    let top = &raw const here as usize - OWN_FRAME;
    let place = |at: usize| (top - 8 * at) as *mut u64;
    // All of these places lie between this function's frame and the end of its thread's stack.
    (1..PAINTED).for_each(|at| unsafe { place(at).write_volatile(pattern) });
    call();
    let found = (1..PAINTED).rev().find(|at| unsafe { place(*at).read_volatile() } != pattern);
    found.map_or(0, |at| OWN_FRAME + 8 * at)
}

/// Two patterns, since a call may write one of them itself.
const PATTERNS: [u64; 2] = [0xa5a5_a5a5_a5a5_a5a5, 0x5a5a_5a5a_5a5a_5a5a];

/// What is measured on a thread whose stack has room for the painting.
fn with_room<T: Send>(measure: impl FnOnce() -> T + Send) -> T {
    thread::scope(|scope| thread::Builder::new().stack_size(STACK).spawn_scoped(scope, measure).unwrap().join().unwrap())
}

/// The bytes of stack that a call takes.
pub fn stack_of(mut call: impl FnMut() + Send) -> usize {
    with_room(|| PATTERNS.map(|pattern| overwritten(&mut call, pattern)).into_iter().max().unwrap_or(0))
}

/// The deepest stack of each call.
fn depths(columns: &[Column]) -> Table {
    let deepest = |column: &Column, measured: usize| {
        let call = column.call(measured)?;
        let of_player = |player: &Player| {
            PATTERNS.map(|pattern| {
                let mut player = player.clone();
                overwritten(|| _ = unsafe { call(player.as_mut_ptr()) }, pattern)
            })
        };
        column.players[measured].iter().flat_map(of_player).max().map(|bytes| bytes as f64)
    };
    with_room(|| std::array::from_fn(|measured| columns.iter().map(|column| deepest(column, measured)).collect()))
}

/// The processor's name, and the numbers that tell its kind where the name doesn't.
fn processor() -> String {
    let text = fs::read_to_string("/proc/cpuinfo").unwrap_or_default();
    let fields = text.lines().filter_map(|line| line.split_once(':')).map(|(name, value)| (name.trim(), value.trim()));
    let field = |wanted| fields.clone().find(|(name, _)| *name == wanted).map_or("unknown", |(_, value)| value);
    format!("{}, family {}, model {}", field("model name"), field("cpu family"), field("model"))
}

/// What was found of a measured call at one shape, each number for each column.
struct Row {
    measured: usize,
    shape: (i32, i32),
    calls: usize,
    runs: Vec<Vec<Option<f64>>>,
    counts: Vec<Option<f64>>,
    depths: Vec<Option<f64>>,
}

impl Row {
    /// A column's time in each run.
    fn times(&self, at: usize) -> Option<Vec<f64>> {
        self.runs.iter().map(|run| run[at]).collect()
    }

    fn time(&self, at: usize) -> Option<f64> {
        self.times(at).map(median)
    }

    /// The library's time over a column's: the median of the runs, the least and the most.
    fn ratio(&self, at: usize) -> Option<String> {
        let ratios: Vec<f64> = self.times(0)?.iter().zip(self.times(at)?).map(|(library, time)| library / time).collect();
        let (least, most) = ratios.iter().fold((f64::MAX, 0f64), |(least, most), ratio| (least.min(*ratio), most.max(*ratio)));
        Some(format!("{:.2} ({least:.2}–{most:.2})", median(ratios)))
    }

    /// A column's instructions, and the library's over them.
    fn count(&self, at: usize) -> Option<String> {
        let (library, count) = (self.counts[0]?, self.counts[at]?);
        Some(if at == 0 { format!("{count:.0}") } else { format!("{count:.0} ({:.2})", library / count) })
    }
}

fn line(cells: impl IntoIterator<Item = String>) {
    println!("| {} |", cells.into_iter().collect::<Vec<_>>().join(" | "));
}

/// Prints the head of a table.
fn head(cells: Vec<String>) {
    let rule = "---|".repeat(cells.len());
    line(cells);
    println!("|{rule}");
}

/// Prints a table with some cells for each row.
fn table(rows: &[Row], titles: &[String], cells: impl Fn(&Row) -> Vec<Option<String>>) {
    head(["Call", "kHz", "Subframes"].map(String::from).into_iter().chain(titles.iter().cloned()).collect());
    for row in rows {
        let head = [MEASURED[row.measured].0.to_string(), row.shape.0.to_string(), row.shape.1.to_string()];
        line(head.into_iter().chain(cells(row).into_iter().map(Option::unwrap_or_default)));
    }
}

/// Prints tables of every measured call at every shape; without instructions if only time is wanted.
pub fn bench(folder: &Path, own: bool, only_time: bool, files: &[&str]) -> Result<(), String> {
    if let Some((_, what)) = MEASURED.iter().find(|(_, what)| !own && !what.linked()) {
        return Err(format!("{}: absent from the library", what.name()));
    }
    let (mut rows, mut titles, mut states): (Vec<Row>, _, _) = (vec![], vec![], vec!["state".to_string()]);
    for shape in SHAPES {
        let columns = columns(folder, shape, files)?;
        if columns[0].players.iter().all(Vec::is_empty) {
            continue;
        }
        let counts = if only_time { None } else { Some(counted(folder, shape, files, &columns)?) };
        let depths = depths(&columns);
        for measured in (0..MEASURED.len()).filter(|measured| !columns[0].players[*measured].is_empty()) {
            rows.push(Row {
                measured,
                shape,
                calls: columns[0].players[measured].len(),
                runs: vec![],
                counts: counts.as_ref().map_or(vec![None; columns.len()], |counts| counts[measured].clone()),
                depths: depths[measured].clone(),
            });
        }
        if titles.is_empty() {
            let shown = &columns[..columns.len() - 1];
            titles.extend(shown.iter().map(|column| column.title.clone()));
            states.extend(shown.iter().map(|column| column.side.state.to_string()));
        }
    }
    // A run has all shapes, so that other work on the machine falls into one run and not into all of one shape's.
    for _ in 0..RUNS {
        for shape in SHAPES {
            let table = timed(folder, shape, files)?;
            rows.iter_mut().filter(|row| row.shape == shape).for_each(|row| row.runs.push(table[row.measured].clone()));
        }
    }
    rows.sort_by_key(|row| row.measured);
    let refused = titles.len();
    let whole = |number: f64| format!("{number:.0}");
    println!("Processor: {}; {} cores.", processor(), thread::available_parallelism().map_or(0, usize::from));
    println!("\nNanoseconds: the mean over all calls of each call's median of {PASSES}; of {RUNS} runs the median.\n");
    table(&rows, &[vec!["Calls".into()], titles.clone()].concat(), |row| {
        let times = (0..refused).map(|at| row.time(at).map(whole));
        [Some(row.calls.to_string())].into_iter().chain(times).collect()
    });
    println!("\nThe library's time over the others': of {RUNS} runs the median, the least and the most.\n");
    table(&rows, &titles[1..], |row| (1..refused).map(|at| row.ratio(at)).collect());
    if !only_time {
        println!("\nInstructions: the mean over all calls, and the library's over the others'.\n");
        table(&rows, &titles, |row| (0..refused).map(|at| row.count(at)).collect());
    }
    println!("\nThe same calls refused by their last row: every check and no work. The library's ratio to the first Rust without them:\n");
    let heads = ["Refused ns", "Ratio without", "Refused instructions", "Ratio without"].map(String::from);
    table(&rows, &heads, |row| {
        let without = |[library, refused, rust]: [Option<f64>; 3]| Some(format!("{:.2}", (library? - refused?) / rust?));
        let places = [0, refused, 1];
        let numbers = [places.map(|at| row.time(at)), places.map(|at| row.counts[at])];
        numbers.into_iter().flat_map(|numbers| [numbers[1].map(whole), without(numbers)]).collect()
    });
    println!("\nBytes: the state, and the most of the stack that a call overwrote; what it allocates is not counted.\n");
    head([vec![String::new()], titles].concat());
    line(states);
    for (measured, (title, _)) in MEASURED.iter().enumerate() {
        let of_call = rows.iter().filter(|row| row.measured == measured);
        let deepest = |at: usize| of_call.clone().filter_map(|row| row.depths[at]).reduce(f64::max).map_or(String::new(), whole);
        line([format!("stack of {title}")].into_iter().chain((0..refused).map(deepest)));
    }
    Ok(())
}
