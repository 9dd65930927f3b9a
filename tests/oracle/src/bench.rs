//! Time of a call: the library's reading beside the decoder's, its findings
//! beside the original's, and typing beside reading; and time of a program
//! beside the same over the original.

use crate::causes;
use crate::decode::{answer, decode};
use crate::encode::encode;
use crate::generate::build::ir;
use crate::lang::ir::Ir;
use crate::messages::{alike, output, ranked, run as run_program};
use crate::offer::{Finder, Reader, Teller};
use crate::original::findings;
use crate::samples::{costly, every_pair, growing, samples, Sample};
use std::cell::RefCell;
use std::fs;
use std::hint::black_box;
use std::path::{Path, PathBuf};
use std::process::Command;
use std::time::Instant;

const ROUNDS: usize = 301;

/// Of the calls that take longest.
const PAIR_ROUNDS: usize = 11;

/// The words that the program lends.
const LENT: usize = 16_380;

/// One batch of calls takes about this long.
const BATCH_NANOSECONDS: f64 = 500_000.0;

pub fn bench(read: Reader, find: Finder, tell: Teller) {
    for sample in samples() {
        assert_eq!(answer(&decode(&sample.bytes)), (0, 0));
        assert_eq!(read(&sample.bytes), (0, 0));
        let doc = &sample.bytes[..];
        let ours = || {
            black_box(read(black_box(doc)));
        };
        let rust = || {
            let _ = black_box(decode(black_box(doc)));
        };
        line(&sample, "offer_read", ours, "Rust decode", rust);
    }
    for sample in samples() {
        findings_line(find, &sample, ROUNDS);
    }
    println!("all messages, one by one:");
    for sample in samples() {
        messages_line(find, tell, &sample);
    }
    println!("one module of so many transitions:");
    for sample in growing() {
        findings_line(find, &sample, ROUNDS);
    }
    println!("16 modules of 255 transitions, every pair found, counted and refused with 10:");
    let sample = every_pair();
    assert_eq!(find(&sample.bytes, &mut [0; LENT]), (10, [518_160, 0]));
    findings_line(find, &sample, PAIR_ROUNDS);
}

fn findings_line(find: Finder, sample: &Sample, rounds: usize) {
    let doc = &sample.bytes[..];
    let words = RefCell::new(vec![0; LENT]);
    let ours = || {
        black_box(find(black_box(doc), &mut words.borrow_mut()));
    };
    let rust = || {
        let decoded = decode(black_box(doc)).ok();
        black_box(decoded.map(|ir| findings(&ir)));
    };
    let its = "Rust decode and check";
    line_of(rounds, sample, "offer_findings", ours, its, rust);
}

/// Every message of a document by its number, beside the original's check,
/// which makes them all.
fn messages_line(find: Finder, tell: Teller, sample: &Sample) {
    let doc = &sample.bytes[..];
    let (number, counts) = find(doc, &mut [0; LENT]);
    assert_eq!(number, 0);
    if counts == [0, 0] {
        return;
    }
    let text = RefCell::new(vec![0; 4096]);
    let ours = || {
        for k in 0..counts[0] + counts[1] {
            black_box(tell(black_box(doc), k, &mut text.borrow_mut()));
        }
    };
    let rust = || {
        let decoded = decode(black_box(doc)).ok();
        black_box(decoded.map(|ir| findings(&ir)));
    };
    let our = format!("{} calls of offer_message", counts[0] + counts[1]);
    line(sample, &our, ours, "Rust decode and check", rust);
}

fn line(sample: &Sample, our: &str, ours: impl Fn(), its: &str, rust: impl Fn()) {
    line_of(ROUNDS, sample, our, ours, its, rust);
}

/// Batches of both in turn, and the median of each.
fn line_of(rounds: usize, sample: &Sample, our: &str, ours: impl Fn(), its: &str, rust: impl Fn()) {
    let (ours_calls, rust_calls) = (batch(&ours), batch(&rust));
    let mut ours_times = Vec::new();
    let mut rust_times = Vec::new();
    for _ in 0..rounds {
        ours_times.push(time(&ours, ours_calls));
        rust_times.push(time(&rust, rust_calls));
    }
    let (ours, rust) = (median(ours_times), median(rust_times));
    println!(
        "{:<6} {:>6} bytes: {our} {ours:>9.0} ns, {its} {rust:>9.0} ns, Rust/ours {:.2}",
        sample.name,
        sample.bytes.len(),
        rust / ours
    );
}

/// How many calls make a batch.
fn batch(call: impl Fn()) -> u32 {
    if time(&call, 1) > BATCH_NANOSECONDS {
        return 1;
    }
    let once = time(&call, 10).max(1.0);
    ((BATCH_NANOSECONDS / once) as u32).max(1)
}

/// Nanoseconds a call, over so many calls.
fn time(call: impl Fn(), calls: u32) -> f64 {
    let start = on_core();
    for _ in 0..calls {
        call();
    }
    (on_core() - start) / f64::from(calls)
}

/// Nanoseconds that this thread has run, without what runs beside it.
fn on_core() -> f64 {
    const CLOCK_THREAD_CPUTIME_ID: i32 = 3;
    #[repr(C)]
    struct TimeSpec {
        seconds: i64,
        nanoseconds: i64,
    }
    extern "C" {
        fn clock_gettime(clock: i32, time: *mut TimeSpec) -> i32;
    }
    let mut now = TimeSpec {
        seconds: 0,
        nanoseconds: 0,
    };
    // SAFETY: on 64-bit Linux the C library fills such a struct.
    let done = unsafe { clock_gettime(CLOCK_THREAD_CPUTIME_ID, &mut now) };
    assert_eq!(done, 0);
    now.seconds as f64 * 1e9 + now.nanoseconds as f64
}

fn median(mut times: Vec<f64>) -> f64 {
    times.sort_by(f64::total_cmp);
    times[times.len() / 2]
}

const TYPING_ROUNDS: usize = 101;

/// One run of the program takes about this long, beside its start.
const RUN_NANOSECONDS: f64 = 10_000_000.0;

/// The program `causes` on each sample: reading, typing, and judging the
/// patterns alone, in turn, so many times in one run; each sample has two
/// folders in `dir`.
pub fn typing(program: &Path, dir: &Path) -> Result<(), String> {
    let found = program.canonicalize();
    let program = found.map_err(|e| format!("{}: {e}", program.display()))?;
    for sample in samples() {
        let ir = decode(&sample.bytes).expect("a sample is accepted");
        let all = causes::record(&ir).typed();
        let steps = all.steps.len();
        let whole = folder(&dir.join(sample.name), all)?;
        let patterns = causes::record(&ir).patterns();
        let patterns = folder(&dir.join(format!("{}-patterns", sample.name)), patterns)?;
        let runs = [("read", &whole), ("type", &whole), ("type", &patterns)];
        let run = |k: usize, times: u32| run(&program, runs[k].1, runs[k].0, times);
        typing_line(&sample, steps, run)?;
    }
    Ok(())
}

/// A folder with one record, for the program.
fn folder(dir: &Path, record: causes::Record) -> Result<PathBuf, String> {
    let failed = |e: std::io::Error| format!("{}: {e}", dir.display());
    fs::create_dir_all(dir).map_err(failed)?;
    let file = causes::file(std::slice::from_ref(&record));
    fs::write(dir.join(causes::FILE), file).map_err(failed)?;
    Ok(dir.to_path_buf())
}

/// The fastest of many runs of each, less the fastest that does nothing.
fn typing_line(
    sample: &Sample,
    steps: usize,
    run: impl Fn(usize, u32) -> Result<f64, String>,
) -> Result<(), String> {
    let mut calls = [0; 3];
    for (k, calls) in calls.iter_mut().enumerate() {
        run(k, 100)?;
        *calls = (RUN_NANOSECONDS / run(k, 100)? * 100.0) as u32 + 1;
    }
    let mut start = f64::MAX;
    let mut fastest = [f64::MAX; 3];
    for _ in 0..TYPING_ROUNDS {
        start = start.min(run(0, 0)?);
        for (k, (calls, fastest)) in calls.iter().zip(&mut fastest).enumerate() {
            *fastest = fastest.min(run(k, *calls)?);
        }
    }
    let each = |k: usize| (fastest[k] - start) / f64::from(calls[k]);
    let (read, typed, patterns) = (each(0), each(1), each(2));
    println!(
        "{:<6} {:>6} bytes, {steps:>5} steps: read {read:>7.0} ns, type {typed:>7.0} ns, {:.2} of that; patterns alone {patterns:>6.0} ns, so expressions {:>6.0} ns, {:.2}",
        sample.name,
        sample.bytes.len(),
        typed / read,
        typed - patterns,
        (typed - patterns) / read
    );
    Ok(())
}

/// Nanoseconds of one run of the program.
fn run(program: &Path, dir: &Path, mode: &str, times: u32) -> Result<f64, String> {
    let mut command = Command::new(program);
    command.current_dir(dir).args([mode, &times.to_string()]);
    let start = Instant::now();
    let output = command.output().map_err(|e| e.to_string())?;
    let time = start.elapsed().as_nanos() as f64;
    let due = format!("{times} times, 0 answered otherwise\n");
    match output.stdout == due.as_bytes() {
        true => Ok(time),
        false => Err(String::from_utf8_lossy(&output.stdout).into_owned()),
    }
}

const PROGRAM_ROUNDS: usize = 101;

/// Two programs on each document through pipes, in turn, from start to end, and
/// one that does nothing: the smallest document, the samples, two with nearly
/// as many findings as the words hold, and those made to cost most.
pub fn programs(ours: &Path, rust: &Path, nothing: &Path) -> Result<(), String> {
    let sample = |name, ir: Ir| Sample {
        name,
        bytes: encode(&ir),
    };
    let mut all = vec![sample("empty", ir(Vec::new()))];
    all.extend(samples());
    all.push(sample("found", alike(81)));
    all.push(sample("ranked", ranked(81)));
    all.extend(costly());
    for sample in all {
        let due = output(&sample.bytes);
        let mut times = [Vec::new(), Vec::new(), Vec::new()];
        for _ in 0..PROGRAM_ROUNDS {
            for (path, times) in [ours, rust, nothing].into_iter().zip(&mut times) {
                let start = Instant::now();
                let given = run_program(path, &sample.bytes)?;
                times.push(start.elapsed().as_nanos() as f64);
                if path != nothing && given != due {
                    return Err(format!("{} prints something else", path.display()));
                }
            }
        }
        let [ours, rust, nothing] = times.map(median);
        println!(
            "{:<8} {:>6} bytes, {:>6} printed: program {ours:>9.0} ns, over the Rust {rust:>9.0} ns, a program that does nothing {nothing:>7.0} ns, Rust/ours {:.2}, less the start {:.2}",
            sample.name,
            sample.bytes.len(),
            due.len(),
            rust / ours,
            (rust - nothing) / (ours - nothing)
        );
    }
    Ok(())
}
