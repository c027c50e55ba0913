//! Times the library against plain Rust that does the same, and prints one table.

mod cases;
mod find;
mod jobs;
mod library;
mod plain;
mod timing;

use cases::{Case, Work};
use std::env;
use std::hint::black_box;
use timing::{Times, interleaved};

/// A reply buffer that holds every reply. It is not cleared between calls.
const REPLY: usize = 616;

/// Calls of size with a reply buffer of some length.
fn size_timed(job: &[u8], length: usize, size: impl Fn(&[u8], &mut [u8]) -> usize) -> impl FnMut() {
    let job = job.to_vec();
    let mut reply = vec![0; length];
    move || {
        black_box(size(black_box(&job), black_box(&mut reply)));
    }
}

fn measure_timed(job: &[u8], sizing: &[u8], measure: impl Fn(&[u8], &[u8]) -> Result<(u64, u64), usize>) -> impl FnMut() {
    let (job, sizing) = (job.to_vec(), sizing.to_vec());
    move || {
        let _ = black_box(measure(black_box(&job), black_box(&sizing)));
    }
}

fn refine_timed(
    job: &[u8],
    sizing: &[u8],
    place: usize,
    refine: impl Fn(&[u8], &[u8], usize) -> Result<plain::Refined, usize>,
) -> impl FnMut() {
    let (job, sizing) = (job.to_vec(), sizing.to_vec());
    move || {
        let _ = black_box(refine(black_box(&job), black_box(&sizing), black_box(place)));
    }
}

/// The times of a case: the library, plain Rust (a), (c) where it evaluates a delay, and (b) where it tries indices or sizings.
fn times(case: &Case) -> Times {
    match &case.work {
        Work::Questions => interleaved(&mut [
            &mut size_timed(&case.job, 0, library::size),
            &mut size_timed(&case.job, 0, plain::size),
        ]),
        Work::Measure { sizing } => interleaved(&mut [
            &mut measure_timed(&case.job, sizing, library::measure),
            &mut measure_timed(&case.job, sizing, plain::measure),
            &mut measure_timed(&case.job, sizing, plain::measure_fastest),
        ]),
        Work::Refine { sizing, place } => interleaved(&mut [
            &mut refine_timed(&case.job, sizing, *place, library::refine),
            &mut refine_timed(&case.job, sizing, *place, plain::refine),
            &mut refine_timed(&case.job, sizing, *place, plain::refine_fastest),
            &mut refine_timed(&case.job, sizing, *place, plain::refine_by_whole_delays),
        ]),
        Work::Size => interleaved(&mut [
            &mut size_timed(&case.job, REPLY, library::size),
            &mut size_timed(&case.job, REPLY, plain::size),
            &mut size_timed(&case.job, REPLY, plain::size_fastest),
            &mut size_timed(&case.job, REPLY, plain::size_by_whole_delays),
        ]),
    }
}

fn figure(nanoseconds: f64) -> String {
    match nanoseconds {
        t if t < 1e3 => format!("{t:.0} ns"),
        t if t < 1e5 => format!("{:.2} µs", t / 1e3),
        t if t < 1e6 => format!("{:.0} µs", t / 1e3),
        t => format!("{:.2} ms", t / 1e6),
    }
}

fn ratio(times: &Times, of: usize, to: usize) -> String {
    let (low, middle, high) = times.ratio(of, to);
    format!("{middle:.2} ({low:.2}–{high:.2})")
}

/// Prints the table of the cases whose name has a text in it.
fn print_table(text: &str) {
    println!("| case | library | (a) | library / (a) | (b) | (b) / library | (c) | library / (c) |");
    println!("|---|---|---|---|---|---|---|---|");
    for case in cases::all().into_iter().filter(|case| case.name.contains(text)) {
        let times = times(&case);
        let [library, as_library] = [0, 1].map(|side| figure(times.median(side)));
        let untimed = || "– | –".to_string();
        let fastest = match &case.work {
            Work::Questions => untimed(),
            _ => format!("{} | {}", figure(times.median(2)), ratio(&times, 0, 2)),
        };
        let whole = match &case.work {
            Work::Questions | Work::Measure { .. } => untimed(),
            Work::Refine { .. } | Work::Size => format!("{} | {}", figure(times.median(3)), ratio(&times, 3, 0)),
        };
        println!(
            "| {} | {library} | {as_library} | {} | {whole} | {fastest} |",
            case.name,
            ratio(&times, 0, 1)
        );
    }
}

/// Calls one side of one case as often as asked, for a profiler: `only CASE SIDE COUNT`.
fn only(words: &[String]) {
    let [case, side, count] = words else {
        panic!("only CASE SIDE COUNT")
    };
    let all = cases::all();
    let case = all
        .iter()
        .find(|c| c.name.contains(case.as_str()))
        .expect("a case has that name");
    let count: usize = count.parse().expect("COUNT is a number");
    let mut call: Box<dyn FnMut()> = match (&case.work, side.as_str()) {
        (Work::Questions, "library") => Box::new(size_timed(&case.job, 0, library::size)),
        (Work::Questions, _) => Box::new(size_timed(&case.job, 0, plain::size)),
        (Work::Measure { sizing }, "library") => Box::new(measure_timed(&case.job, sizing, library::measure)),
        (Work::Measure { sizing }, "c") => Box::new(measure_timed(&case.job, sizing, plain::measure_fastest)),
        (Work::Measure { sizing }, _) => Box::new(measure_timed(&case.job, sizing, plain::measure)),
        (Work::Refine { sizing, place }, "library") => Box::new(refine_timed(&case.job, sizing, *place, library::refine)),
        (Work::Refine { sizing, place }, "c") => Box::new(refine_timed(&case.job, sizing, *place, plain::refine_fastest)),
        (Work::Refine { sizing, place }, "b") => Box::new(refine_timed(&case.job, sizing, *place, plain::refine_by_whole_delays)),
        (Work::Refine { sizing, place }, _) => Box::new(refine_timed(&case.job, sizing, *place, plain::refine)),
        (Work::Size, "library") => Box::new(size_timed(&case.job, REPLY, library::size)),
        (Work::Size, "c") => Box::new(size_timed(&case.job, REPLY, plain::size_fastest)),
        (Work::Size, "b") => Box::new(size_timed(&case.job, REPLY, plain::size_by_whole_delays)),
        (Work::Size, _) => Box::new(size_timed(&case.job, REPLY, plain::size)),
    };
    (0..count).for_each(|_| call());
}

fn main() {
    let words: Vec<String> = env::args().skip(1).collect();
    match words.first().map(String::as_str) {
        None => print_table(""),
        Some("find") => find::find(),
        Some("only") => only(&words[1..]),
        Some(text) => print_table(text),
    }
}

#[cfg(test)]
mod tests;
