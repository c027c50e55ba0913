//! Writes a file of framed calls and a file of the lines that they have to give.

use numlejka_tests::batches::{
    ABSENT, BOTH_LAYERS, CHAINED, Counts, FRACTION, LAYER_FAULTS, MINUS_ZERO_MET, ONE_BEST_REPEATER, OTHER_COUNT, OUTPUTS,
    REPEATER_FAULTS, REPEATERS, STRAY_SINK, TIE_AT_REPEATER, WEIGHED_REPEATERS, WEIGHT_FAULTS, WEIGHTLESS_BEHIND, WHOLE,
    count_expected, damaged_calls, damaged_repeater_calls, damaged_weighed_calls, fault_calls, job_of, large_calls,
    large_repeater_calls, large_weighed_calls, limit_calls, repeated_calls, repeater_calls, repeater_limit_calls,
    repeater_room_calls, room_calls, small_calls, weighed_calls, weighed_room_calls, weight_fault_calls, weight_limit_calls,
    worked_calls, worked_weight_calls,
};
use numlejka_tests::calls::Call;
use numlejka_tests::random::{Random, SEED};

/// The longest job of most calls, in bytes.
const SHORT_JOB: usize = 30 * 16;

/// The most bytes of all frames.
const MOST_BYTES: usize = 1_280_000;

/// The most allowed sizings of a job, few so that a slow program is done soon.
const MOST_ALLOWED: u128 = 200;

/// A call whose place fits into one byte.
fn framed(call: Call) -> Call {
    match call {
        Call::Refine {
            job,
            sizing,
            place,
            ends,
        } => Call::Refine {
            job,
            sizing,
            place: place.min(255),
            ends,
        },
        other => other,
    }
}

/// Every so many of a list of calls.
fn every(step: usize, calls: Vec<Call>) -> Vec<Call> {
    calls.into_iter().step_by(step).collect()
}

/// The calls with short jobs: worked, small, damaged and at the limits.
fn short_calls(random: &mut Random) -> Vec<Call> {
    let mut calls = worked_calls();
    calls.extend((0..190).flat_map(|_| small_calls(random, MOST_ALLOWED)));
    calls.extend((0..260).flat_map(|_| damaged_calls(random, MOST_ALLOWED)));
    calls.extend(every(3, limit_calls()));
    calls.retain(|call| job_of(call).len() <= SHORT_JOB);
    calls
}

/// A few calls with more records, and some with too much room.
fn longer_calls(random: &mut Random) -> Vec<Call> {
    let mut calls = every(17, (0..4).flat_map(|_| large_calls(random)).collect());
    calls.extend(every(25, room_calls()));
    calls
}

/// The calls with repeaters: worked, small, damaged, at the limits, refused, with more records, and with much room.
fn calls_with_repeaters(random: &mut Random) -> Vec<Call> {
    let mut calls = repeated_calls();
    calls.extend((0..16).flat_map(|_| repeater_calls(random, MOST_ALLOWED)));
    calls.extend((0..20).flat_map(|_| damaged_repeater_calls(random, MOST_ALLOWED)));
    calls.extend(every(13, repeater_limit_calls()));
    calls.extend(every(5, fault_calls()));
    calls.retain(|call| job_of(call).len() <= SHORT_JOB);
    calls.extend(every(41, (0..2).flat_map(|_| large_repeater_calls(random)).collect()));
    calls.extend(every(7, repeater_room_calls()));
    calls
}

/// The calls with weights: worked, small, damaged, at the limits, refused, with more records, and with much room.
fn calls_with_weights(random: &mut Random) -> Vec<Call> {
    let mut calls = every(5, worked_weight_calls());
    calls.extend((0..14).flat_map(|_| weighed_calls(random, MOST_ALLOWED)));
    calls.extend((0..16).flat_map(|_| damaged_weighed_calls(random, MOST_ALLOWED)));
    calls.extend(every(151, weight_limit_calls()));
    calls.extend(every(11, weight_fault_calls()));
    calls.retain(|call| job_of(call).len() <= SHORT_JOB);
    calls.extend(every(61, large_weighed_calls(random)));
    calls.extend(every(31, weighed_room_calls()));
    calls
}

/// All calls of the file.
fn all_calls() -> Vec<Call> {
    let mut random = Random::new(31);
    let mut calls = short_calls(&mut random);
    calls.extend(longer_calls(&mut random));
    calls.extend(calls_with_repeaters(&mut Random::new(32)));
    calls.extend(calls_with_weights(&mut Random::new(33)));
    calls.into_iter().map(framed).collect()
}

/// Writes both files, and prints the seed and how often each operation gives each number.
fn main() -> std::io::Result<()> {
    let files: Vec<String> = std::env::args().skip(1).collect();
    assert_eq!(files.len(), 2, "usage: vectors STDIN-FILE STDOUT-FILE");
    let calls = all_calls();
    let frames: Vec<u8> = calls.iter().flat_map(Call::frame).collect();
    let lines: String = calls.iter().map(|call| call.printed() + "\n").collect();
    assert!(frames.len() < MOST_BYTES);
    assert!(lines.contains("measure 0 260 11\n"), "J4 is measured at (0, 0, 0)");
    std::fs::write(&files[0], &frames)?;
    std::fs::write(&files[1], lines)?;
    let mut counts = Counts::new();
    count_expected(&mut counts, &calls);
    assert!(
        (0..=12)
            .chain([14, 20, 21, 22, 23, 24])
            .all(|number| counts.contains_key(&("size", number))),
        "every question of size is reached"
    );
    assert!(
        (0..=11)
            .chain([15, 16, 17, 20, 21, 22, 23, 24])
            .all(|number| counts.contains_key(&("refine", number))),
        "every question of refine is reached"
    );
    assert!(
        (6..=10).all(|number| counts.contains_key(&(STRAY_SINK, number))),
        "a stray sink alone comes with each of 6 to 10"
    );
    assert!(
        counts[&(OUTPUTS, 0)] >= 100,
        "many measures have an output of stage 0, which is not the last"
    );
    assert!(
        LAYER_FAULTS.iter().all(|&way| counts.contains_key(&(way, 24))),
        "24 comes in each of its ways"
    );
    assert!(counts[&(BOTH_LAYERS, 0)] >= 100, "many calls have segments on both layers");
    assert!(
        REPEATER_FAULTS
            .iter()
            .chain(&WEIGHT_FAULTS)
            .all(|&(number, way)| counts.contains_key(&(way, number))),
        "20 to 23 come in each of their ways"
    );
    for (kind, least) in [
        (REPEATERS, 100),
        (CHAINED, 50),
        (WEIGHTLESS_BEHIND, 20),
        (ONE_BEST_REPEATER, 10),
        (TIE_AT_REPEATER, 2),
        (ABSENT, 30),
        (WHOLE, 30),
        (FRACTION, 60),
        (MINUS_ZERO_MET, 5),
        (OTHER_COUNT, 60),
        (WEIGHED_REPEATERS, 30),
    ] {
        assert!(counts[&(kind, 0)] >= least, "{kind}");
    }
    println!("seed {SEED:#x}, {} calls, {} bytes, {counts:?}", calls.len(), frames.len());
    Ok(())
}
