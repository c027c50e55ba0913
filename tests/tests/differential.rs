//! The library against the reference, call by call; with the feature `library` only.
#![cfg(feature = "library")]

use numlejka_tests::batches::{
    ABSENT, ALL_WEIGHED, BEFORE_FAULTS, BEFORE_WEIGHT_FAULTS, BOTH_LAYERS, CHAINED, Counts, EIGHT_REPEATERS, FRACTION, LAYER_1,
    LAYER_FAULTS, MINUS_ZERO_MET, MOST_ALLOWED, ONE_BEST, ONE_BEST_REPEATER, ONE_INDEX, OTHER_COUNT, OUTPUTS, REPEATER_FAULTS,
    REPEATERS, STRAY_SINK, TIE, TIE_AT_REPEATER, TIE_IN_CHAIN, WEIGHED_REPEATERS, WEIGHT_FAULTS, WEIGHTLESS_BEHIND, WHOLE, count,
    damaged_calls, damaged_repeater_calls, damaged_weighed_calls, fault_calls, job_of, large_calls, large_repeater_calls,
    large_weighed_calls, largest_calls, largest_weighed_calls, layered_calls, length_calls, limit_calls, repeated_calls,
    repeater_calls, repeater_limit_calls, repeater_room_calls, room_calls, small_calls, weighed_calls, weighed_room_calls,
    weight_fault_calls, weight_limit_calls, worked_calls, worked_weight_calls,
};
use numlejka_tests::calls::{Call, expected, hex};
use numlejka_tests::interface::run;
use numlejka_tests::random::{Random, SEED};

/// How many small jobs one test tries; there are two such tests.
const SMALL_JOBS: usize = 12_000;

/// How many small jobs with repeaters are tried.
const REPEATER_JOBS: usize = 8_000;

/// How many small jobs with weights are tried.
const WEIGHED_JOBS: usize = 8_000;

/// How many damaged jobs one test tries; there are three such tests, one with repeaters and one with weights.
const DAMAGED_JOBS: usize = 32_000;

/// How many jobs of many segments one test tries; there are three such tests, one with repeaters and one with weights.
const LARGE_JOBS: usize = 150;

/// Runs a call and compares its number and every byte of its buffer; a difference stops with the call's text.
fn compare(counts: &mut Counts, call: &Call) {
    let (want, got) = (expected(call), run(call));
    assert!(
        want == got,
        "the library differs\n  expected {} {}\n  got      {} {}\n  again: CALL='{}' cargo test --release --features library again",
        want.number,
        hex(&want.buffer),
        got.number,
        hex(&got.buffer),
        call.text()
    );
    count(counts, call, want.number);
}

/// Compares all calls and prints how often each operation gave each number, and what the calls met.
fn compare_all(name: &str, calls: impl Iterator<Item = Call>) -> Counts {
    let mut counts = Counts::new();
    let mut compared = 0;
    calls.for_each(|call| {
        compare(&mut counts, &call);
        compared += 1;
    });
    println!("{name}, seed {SEED:#x}: {compared} calls, {counts:?}");
    counts
}

/// Small random jobs over all four operations, among which measures with an output of stage 0 before another stage, refines of
/// each kind of place, and jobs with segments on both layers, come thousands of times.
fn compare_small(name: &str, mut random: Random) {
    let calls = (0..SMALL_JOBS).flat_map(|_| small_calls(&mut random, MOST_ALLOWED));
    let counts = compare_all(name, calls);
    for kind in [OUTPUTS, ONE_INDEX, ONE_BEST, TIE, BOTH_LAYERS] {
        assert!(counts[&(kind, 0)] >= 2_000, "{kind}");
    }
}

/// Small random jobs.
#[test]
fn small_jobs() {
    compare_small("small jobs", Random::new(21));
}

/// As many again with other numbers, for the second core.
#[test]
fn more_small_jobs() {
    compare_small("more small jobs", Random::new(22));
}

/// Small random jobs with repeaters, among which one behind another, eight, no weight behind one, refines at one that has several
/// indices, and ties there, come often.
#[test]
fn jobs_with_repeaters() {
    let mut random = Random::new(25);
    let calls = (0..REPEATER_JOBS).flat_map(|_| repeater_calls(&mut random, MOST_ALLOWED));
    let counts = compare_all("jobs with repeaters", calls);
    for (kind, least) in [
        (REPEATERS, 40_000),
        (CHAINED, 25_000),
        (EIGHT_REPEATERS, 5_000),
        (WEIGHTLESS_BEHIND, 8_000),
        (BOTH_LAYERS, 10_000),
        (ONE_BEST_REPEATER, 4_000),
        (TIE_AT_REPEATER, 800),
        (TIE_IN_CHAIN, 300),
    ] {
        assert!(counts[&(kind, 0)] >= least, "{kind}");
    }
}

/// Small random jobs with weights, of every form, with repeaters and without, with segments on both layers, with ties, and with
/// counts other than the own byte, come often.
#[test]
fn jobs_with_weights() {
    let mut random = Random::new(28);
    let calls = (0..WEIGHED_JOBS).flat_map(|_| weighed_calls(&mut random, MOST_ALLOWED));
    let counts = compare_all("jobs with weights", calls);
    for (kind, least) in [
        (ABSENT, 12_000),
        (WHOLE, 12_000),
        (FRACTION, 20_000),
        (MINUS_ZERO_MET, 4_000),
        (OTHER_COUNT, 20_000),
        (WEIGHED_REPEATERS, 10_000),
        (BOTH_LAYERS, 8_000),
        (ONE_BEST, 4_000),
        (TIE, 400),
    ] {
        assert!(counts[&(kind, 0)] >= least, "{kind}");
    }
}

/// Jobs with one to three damages over all four operations; a stray sink alone comes with each of 6 to 10, and no other number;
/// 24 comes in each of its ways alone, and 3, 4, 7 and 10 come for layer 1 alone.
#[test]
fn damaged_jobs() {
    let mut random = Random::new(23);
    let calls = (0..DAMAGED_JOBS).flat_map(|_| damaged_calls(&mut random, MOST_ALLOWED));
    let counts = compare_all("damaged jobs", calls);
    let stray: Vec<u64> = counts.keys().filter(|key| key.0 == STRAY_SINK).map(|key| key.1).collect();
    assert_eq!(stray, [6, 7, 8, 9, 10]);
    for number in stray {
        assert!(counts[&(STRAY_SINK, number)] >= 100, "{number}");
    }
    for way in LAYER_FAULTS {
        assert!(counts[&(way, 24)] >= 300, "{way}");
    }
    for number in [3, 4, 7, 10] {
        assert!(counts[&(LAYER_1, number)] >= 100, "{number} for layer 1 alone");
    }
}

/// The same with repeaters: 22 and 23 come in each of their ways alone, a repeater's fault comes behind each number of a job but 1,
/// and that of 23 behind 22.
#[test]
fn damaged_jobs_with_repeaters() {
    let mut random = Random::new(26);
    let calls = (0..DAMAGED_JOBS).flat_map(|_| damaged_repeater_calls(&mut random, MOST_ALLOWED));
    let counts = compare_all("damaged jobs with repeaters", calls);
    for (number, name) in REPEATER_FAULTS {
        assert!(counts[&(name, number)] >= 300, "{name}");
    }
    for number in (2..=11).chain([22, 24]) {
        assert!(counts[&(BEFORE_FAULTS, number)] >= 500, "{number}");
    }
}

/// The same with weights: 20 and 21 come in each of their ways alone, a weight's fault comes behind each number of a job but 1, and
/// that of 21 behind 20.
#[test]
fn damaged_jobs_with_weights() {
    let mut random = Random::new(29);
    let calls = (0..DAMAGED_JOBS).flat_map(|_| damaged_weighed_calls(&mut random, MOST_ALLOWED));
    let counts = compare_all("damaged jobs with weights", calls);
    for (number, name) in WEIGHT_FAULTS {
        assert!(counts[&(name, number)] >= 100, "{name}");
    }
    for number in (2..=11).chain([20, 22, 23, 24]) {
        assert!(counts[&(BEFORE_WEIGHT_FAULTS, number)] >= 300, "{number}");
    }
}

/// Jobs of every length: the number is 1 where the length is 0 or no multiple of 16, and nowhere else.
#[test]
fn jobs_of_every_length() {
    let calls = length_calls();
    for call in &calls {
        if let Call::Measure { job, .. } | Call::Refine { job, .. } | Call::Size { job, .. } = call {
            let uneven = job.is_empty() || job.len() % 16 != 0;
            assert_eq!(expected(call).number == 1, uneven, "{}", call.text());
        }
    }
    compare_all("jobs of every length", calls.into_iter());
}

/// Every field and count at its limit and beyond.
#[test]
fn jobs_at_the_limits() {
    compare_all("jobs at the limits", limit_calls().into_iter());
}

/// The same for jobs with repeaters.
#[test]
fn repeaters_at_the_limits() {
    compare_all("repeaters at the limits", repeater_limit_calls().into_iter());
}

/// The same for jobs with weights: 20 and 21 come in each of their ways alone, and 0, 2 to 5, 20 and 21 often.
#[test]
fn weights_at_the_limits() {
    let counts = compare_all("weights at the limits", weight_limit_calls().into_iter());
    for (number, name) in WEIGHT_FAULTS {
        assert!(counts.contains_key(&(name, number)), "{name}");
    }
    for number in [0, 2, 3, 4, 5, 20, 21] {
        assert!(counts[&("size", number)] >= 20, "{number}");
    }
    assert!(counts.contains_key(&(ALL_WEIGHED, 0)));
}

/// Faults of repeaters where the questions of an operation would refuse too.
#[test]
fn faults_of_repeaters() {
    compare_all("faults of repeaters", fault_calls().into_iter());
}

/// The same for weights.
#[test]
fn faults_of_weights() {
    compare_all("faults of weights", weight_fault_calls().into_iter());
}

/// Jobs of 68 places, and with repeaters of 76, with the largest figures.
#[test]
fn largest_jobs() {
    compare_all("largest jobs", largest_calls().into_iter());
}

/// Some of them with 64 weights, so that there are jobs of as many records as a job can have.
#[test]
fn largest_jobs_with_weights() {
    let calls = largest_weighed_calls();
    let records = calls.iter().map(|call| job_of(call).len() / 16).max();
    assert_eq!(records, Some(16 + 16 + 4 + 64 + 8 + 64));
    compare_all("largest jobs with weights", calls.into_iter());
}

/// Jobs of 10 to 64 segments, refine at every place.
#[test]
fn large_jobs() {
    let mut random = Random::new(24);
    compare_all("large jobs", (0..LARGE_JOBS).flat_map(|_| large_calls(&mut random)));
}

/// The same with repeaters.
#[test]
fn large_jobs_with_repeaters() {
    let mut random = Random::new(27);
    let calls = (0..LARGE_JOBS).flat_map(|_| large_repeater_calls(&mut random));
    let counts = compare_all("large jobs with repeaters", calls);
    assert!(counts[&(EIGHT_REPEATERS, 0)] >= 1_000);
}

/// The same with weights, 64 of them among these.
#[test]
fn large_jobs_with_weights() {
    let mut random = Random::new(30);
    let calls = (0..LARGE_JOBS).flat_map(|_| large_weighed_calls(&mut random));
    let counts = compare_all("large jobs with weights", calls);
    assert!(counts[&(OTHER_COUNT, 0)] >= 3_000 && counts[&(ALL_WEIGHED, 0)] >= 50);
}

/// Jobs with room at, below and above 65,536.
#[test]
fn jobs_around_the_largest_room() {
    compare_all("jobs around the largest room", room_calls().into_iter());
}

/// The same with repeaters: answered, and with 14.
#[test]
fn repeaters_around_the_largest_room() {
    let counts = compare_all("repeaters around the largest room", repeater_room_calls().into_iter());
    assert!(counts[&("size", 0)] >= 4 && counts[&("size", 14)] >= 4);
}

/// The same with weights, with repeaters and without.
#[test]
fn weights_around_the_largest_room() {
    let counts = compare_all("weights around the largest room", weighed_room_calls().into_iter());
    assert!(counts[&("size", 0)] >= 8 && counts[&("size", 14)] >= 8);
}

/// The worked jobs: every sizing, place and pair.
#[test]
fn worked_jobs() {
    compare_all("worked jobs", worked_calls().into_iter());
}

/// The worked jobs of two layers: every sizing, place and pair.
#[test]
fn worked_layers() {
    compare_all("worked layers", layered_calls().into_iter());
}

/// The worked jobs with repeaters: every sizing, place and pair.
#[test]
fn worked_repeaters() {
    compare_all("worked repeaters", repeated_calls().into_iter());
}

/// The worked jobs with weights: every sizing, place and pair.
#[test]
fn worked_weights() {
    compare_all("worked weights", worked_weight_calls().into_iter());
}

/// One call alone, given as text in `CALL`.
#[test]
fn again() {
    if let Ok(text) = std::env::var("CALL") {
        compare_all("one call again", std::iter::once(Call::from_text(&text)));
    }
}
