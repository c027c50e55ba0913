//! Looks for jobs with weights whose bounds are far apart, and writes them to `jobs/`. Not a part of the timing:
//! `cargo run --release -- find` was run once.

use crate::jobs::{Job, Random, Repeater, Segment};
use crate::plain;
use std::fs;

/// The largest figures of a width and of a driver size.
pub const WIDEST: u64 = 100;
pub const LARGEST: u64 = 100_000;

/// The room between a job's bounds.
pub fn room(job: &[u8]) -> u64 {
    let (lower, upper) = plain::bounds(job).expect("the job passes the questions");
    lower
        .iter()
        .zip(&upper)
        .map(|(&a, &b)| u64::from(b - a) + 1)
        .fold(1, u64::saturating_mul)
}

/// A table of n strictly rising numbers up to `most`.
fn rising(random: &mut Random, n: usize, most: u64) -> Vec<u32> {
    loop {
        let bits = u64::from(64 - most.leading_zeros());
        let mut table: Vec<u32> = (0..n).map(|_| (1 + random.up_to(bits) % most) as u32).collect();
        table.sort_unstable();
        table.dedup();
        if table.len() == n {
            return table;
        }
    }
}

/// Which places are free. Repeaters are, wherever there are some.
#[derive(Clone, Copy)]
pub enum Free {
    First { stages: bool, segments: usize },
    Last(usize),
}

struct Wanted {
    name: &'static str,
    stages: usize,
    segments: usize,
    repeaters: usize,
    free: Free,
    most: u64,
    steps: usize,
}

/// A table of n widths, with figures up to `most`.
pub fn widths(random: &mut Random, n: usize, most: u64) -> Vec<(u32, u32)> {
    let resistances = rising(random, n, most);
    let capacitances = rising(random, n, most);
    resistances.into_iter().rev().zip(capacitances).collect()
}

/// A table of n driver sizes, with figures up to `most`.
pub fn sizes(random: &mut Random, n: usize, most: u64) -> Vec<(u32, u32, u32)> {
    let resistances = rising(random, n, most);
    let gates = rising(random, n, most);
    resistances
        .into_iter()
        .rev()
        .zip(gates)
        .map(|(r, g)| (r, g, random.below(1 + u64::from(g)) as u32))
        .collect()
}

/// Repeaters at so many of the segments that have branches, each with the same range.
pub fn repeaters(random: &mut Random, job: &Job, n: usize, range: (u8, u8)) -> Vec<Repeater> {
    let mut sites = job.sites();
    while sites.len() > n {
        sites.remove(random.below(sites.len() as u64) as usize);
    }
    sites.into_iter().map(|segment| Repeater { segment, range }).collect()
}

fn fresh(random: &mut Random, wanted: &Wanted) -> Job {
    let kinds = (2 + random.below(7)) as usize;
    let drivers = (2 + random.below(15)) as usize;
    let n = wanted.segments;
    let free = |i: usize| match wanted.free {
        Free::First { segments, .. } => i < segments,
        Free::Last(segments) => n - segments <= i,
    };
    let free_stages = matches!(wanted.free, Free::First { stages: true, .. });
    let chained = random.below(4) + 1;
    let mut segments: Vec<Segment> = (0..n)
        .map(|i| {
            let scattered = random.below(chained) > 0 && !(matches!(wanted.free, Free::Last(_)) && free(i));
            let parent = if scattered {
                random.below(i as u64 + 1) as u8
            } else {
                i as u8
            };
            let fixed = random.below(kinds as u64) as u8;
            Segment {
                parent,
                length: 1 + random.up_to(9) as u32,
                sink: (random.below(3) == 0).then(|| (random.up_to(16) as u32, random.below(9) as u8)),
                range: if free(i) { (0, kinds as u8 - 1) } else { (fixed, fixed) },
            }
        })
        .collect();
    for i in 0..n {
        if segments[i].sink.is_none() && !segments.iter().any(|s| usize::from(s.parent) == i + 1) {
            segments[i].sink = Some((random.below(2_000) as u32, 1 + random.below(8) as u8));
        }
    }
    let mut job = Job {
        widths: widths(random, kinds, WIDEST),
        sizes: sizes(random, drivers, LARGEST),
        stages: (0..wanted.stages)
            .map(|s| {
                let fixed = random.below(drivers as u64) as u8;
                if s > 0 && free_stages {
                    (0, drivers as u8 - 1)
                } else {
                    (fixed, fixed)
                }
            })
            .collect(),
        segments,
        repeaters: Vec::new(),
        weights: Vec::new(),
    };
    if wanted.repeaters > 0 {
        job.repeaters = repeaters(random, &job, wanted.repeaters, (0, drivers as u8 - 1));
    }
    job
}

/// A job with one thing changed.
fn changed(random: &mut Random, job: &Job) -> Job {
    let mut job = job.clone();
    let free: Vec<usize> = (0..job.segments.len())
        .filter(|&i| job.segments[i].range.0 < job.segments[i].range.1)
        .collect();
    let any = random.below(job.segments.len() as u64) as usize;
    let i = if random.below(2) == 0 && !free.is_empty() {
        free[random.below(free.len() as u64) as usize]
    } else {
        any
    };
    match random.below(if job.repeaters.is_empty() { 8 } else { 9 }) {
        0 => job.widths = widths(random, job.widths.len(), WIDEST),
        1 => job.sizes = sizes(random, job.sizes.len(), LARGEST),
        2 | 3 => job.segments[i].length = 1 + random.up_to(9) as u32,
        4 => {
            let k = random.below(job.sizes.len() as u64) as u8;
            let s = random.below(job.stages.len() as u64) as usize;
            if job.stages[s].0 == job.stages[s].1 {
                job.stages[s] = (k, k);
            }
        }
        5 => {
            let k = random.below(job.widths.len() as u64) as u8;
            if job.segments[i].range.0 == job.segments[i].range.1 {
                job.segments[i].range = (k, k);
            }
        }
        6 => {
            let k = random.below(job.widths.len() as u64) as u8;
            let range = &mut job.segments[i].range;
            if range.0 < range.1 && k != range.0 {
                *range = (range.0.min(k), range.0.max(k));
            } else if range.0 < range.1 && k < range.1 {
                *range = (k, range.1);
            }
        }
        7 => {
            if let Some(sink) = &mut job.segments[i].sink {
                *sink = (random.up_to(16) as u32, 1 + random.below(8) as u8);
            }
        }
        _ => job.repeaters = repeaters(random, &job, job.repeaters.len(), job.repeaters[0].range),
    }
    job
}

/// A job with as large a room as a short search finds.
fn found(wanted: &Wanted) -> (u64, Job) {
    let mut best: Option<(u64, Job)> = None;
    for start in 1..=12 {
        let mut random = Random(start * 0x2545_F491_4F6C_DD1D);
        let mut job = fresh(&mut random, wanted);
        let mut reached = 0;
        for _ in 0..wanted.steps {
            let next = changed(&mut random, &job);
            let room = room(&next.bytes());
            if reached <= room && room <= wanted.most {
                reached = room;
                job = next;
            }
        }
        if best.as_ref().is_none_or(|(room, _)| *room < reached) {
            best = Some((reached, job));
        }
        if reached == wanted.most {
            break;
        }
    }
    best.expect("at least one start")
}

/// Finds the jobs and writes them.
pub fn find() {
    let wanted = [
        Wanted {
            name: "first",
            stages: 4,
            segments: 64,
            repeaters: 0,
            free: Free::First {
                stages: true,
                segments: 4,
            },
            most: 65_536,
            steps: 4_000,
        },
        Wanted {
            name: "last",
            stages: 4,
            segments: 64,
            repeaters: 0,
            free: Free::Last(16),
            most: 65_536,
            steps: 20_000,
        },
        Wanted {
            name: "median",
            stages: 2,
            segments: 16,
            repeaters: 0,
            free: Free::First {
                stages: true,
                segments: 16,
            },
            most: 600,
            steps: 4_000,
        },
        Wanted {
            name: "repeaters",
            stages: 4,
            segments: 64,
            repeaters: 8,
            free: Free::First {
                stages: false,
                segments: 0,
            },
            most: 65_536,
            steps: 20_000,
        },
    ];
    let folder = concat!(env!("CARGO_MANIFEST_DIR"), "/jobs");
    fs::create_dir_all(folder).expect("the folder can be made");
    for w in wanted {
        let (room, job) = found(&w);
        println!("{}: room {room}", w.name);
        fs::write(format!("{folder}/{}.job", w.name), job.bytes()).expect("the job can be written");
    }
}
