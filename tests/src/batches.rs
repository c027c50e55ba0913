//! Batches of calls: for small jobs, damaged jobs, jobs of every length, jobs at the limits, large jobs and jobs around the
//! largest room; and of each the like for jobs with repeaters and for jobs with weights.

use std::collections::BTreeMap;

use crate::calls::{Call, expected};
use crate::damage::damage;
use crate::fractions::MINUS_ZERO;
use crate::generate::{
    allowed_sizing, any_place, any_reply, any_sizing, large_plan, large_repeater_plan, large_weighed_plan, marked, move_weights,
    repeater_plan, roomy_plan, small_plan, tied_star, weighed_plan, weightless_plan, weightless_repeaters,
};
use crate::limits::{Limit, largest_plans, limits, repeater_faults, repeater_limits, weight_faults, weight_limits};
use crate::plan::{Plan, PlannedWeight, weight_record};
use crate::questions::{
    self, MOST_PLACES, MOST_UNREPEATED, Net, fails_in_layer_1, first_no, fraction_faults, layer_faults, range_faults, read,
    site_faults, stray_sink_alone,
};
use crate::random::Random;
use crate::reference::{Refined, measure, refine};
use crate::worked;

/// The most allowed sizings of a small job.
pub const MOST_ALLOWED: u128 = 400;

/// What refine meets: a place with one index, one best index of several, several best ones, and several at the delay 0.
pub const ONE_INDEX: &str = "refine at one index";
pub const ONE_BEST: &str = "refine with one best index";
pub const TIE: &str = "refine with a tie";
pub const TIE_AT_0: &str = "refine with a tie at 0";

/// A measure that is answered, where stage 0 is not the last and has an output: a figure without that output, with the last
/// stage's alone, or with the gates twice is another one.
pub const OUTPUTS: &str = "measure with an output of stage 0, not the last";

/// A call on a job that passes 1, 2, 24, 3 and 4 and has its unnamed bytes zero, but a capacitance or a weight where there is no
/// sink.
pub const STRAY_SINK: &str = "a stray sink alone";

/// A call that is refused with 24 for one of its four ways alone: a width's layer byte, a segment's layer byte, layers that fall,
/// layer 1 named and empty.
pub const LAYER_FAULTS: [&str; 4] = [
    "24 for a width's layer",
    "24 for a segment's layer",
    "24 for layers that fall",
    "24 for layer 1, named and empty",
];

/// A call that is refused with 3, 4, 7 or 10 for layer 1 alone.
pub const LAYER_1: &str = "layer 1 alone";

/// A call on a job that passes and has segments on both layers.
pub const BOTH_LAYERS: &str = "segments on both layers";

/// A call that is refused with 22 or 23 for one of their ways alone, each with its number: a segment that is missing or has no
/// branches, segment numbers that stay or fall; a range that is empty or beyond the table.
pub const REPEATER_FAULTS: [(u64, &str); 6] = [
    (22, "22 for a missing segment"),
    (22, "22 for a segment without branches"),
    (22, "22 for a segment twice"),
    (22, "22 for segments that fall"),
    (23, "23 for an empty range"),
    (23, "23 for a range beyond the table"),
];

/// A call that is refused with a number on a job that fails 22 or 23 too, whichever is asked later.
pub const BEFORE_FAULTS: &str = "a repeater's fault behind another number";

/// A call on a job that passes and has repeaters; eight of them; one behind another; one with no weight behind it, where there are
/// weights elsewhere.
pub const REPEATERS: &str = "repeaters";
pub const EIGHT_REPEATERS: &str = "eight repeaters";
pub const CHAINED: &str = "a repeater behind a repeater";
pub const WEIGHTLESS_BEHIND: &str = "no weight behind a repeater";

/// A refine at a repeater with weights behind it that has several indices: one of them is best, or several; and several best where
/// there is another repeater above it or below.
pub const ONE_BEST_REPEATER: &str = "refine at a repeater with one best index";
pub const TIE_AT_REPEATER: &str = "refine at a repeater with a tie";
pub const TIE_IN_CHAIN: &str = "refine at a repeater with a tie, another on its path";

/// A call that is refused with 20 or 21 for one of their ways alone, each with its number: a segment that is missing or has no sink,
/// a form above 2, a whole number above 255; a fraction in each way in which one fails.
pub const WEIGHT_FAULTS: [(u64, &str); 11] = [
    (20, "20 for a missing segment"),
    (20, "20 for a segment without a sink"),
    (20, "20 for a form"),
    (20, "20 for a whole number"),
    (21, "21 for what is not a number"),
    (21, "21 for what is infinite"),
    (21, "21 for what is negative"),
    (21, "21 for a subnormal"),
    (21, "21 for 1 and above"),
    (21, "21 for what is next to a count"),
    (21, "21 for what is no count"),
];

/// A call that is refused with a number on a job that fails 20 or 21 too, whichever is asked later.
pub const BEFORE_WEIGHT_FAULTS: &str = "a weight's fault behind another number";

/// A call on a job that passes and has a weight of a form: absent, a whole number, a fraction; minus zero; a count other than the
/// own byte; weights and repeaters; 64 weights.
pub const ABSENT: &str = "an absent weight";
pub const WHOLE: &str = "a whole weight";
pub const FRACTION: &str = "a fraction";
pub const MINUS_ZERO_MET: &str = "minus zero";
pub const OTHER_COUNT: &str = "a count other than the own byte";
pub const WEIGHED_REPEATERS: &str = "weights and repeaters";
pub const ALL_WEIGHED: &str = "64 weights";

/// How often each operation returned each number, and what its call met.
pub type Counts = BTreeMap<(&'static str, u64), usize>;

/// The name of a call's operation.
fn operation(call: &Call) -> &'static str {
    match call {
        Call::Measure { .. } => "measure",
        Call::Refine { .. } => "refine",
        Call::Choose { .. } => "choose",
        Call::Size { .. } => "size",
    }
}

/// What a call meets: a stray sink alone, of a call that tells its number; or what a measure or a refine that is answered meets.
fn met(call: &Call) -> Option<&'static str> {
    match call {
        Call::Measure { job, .. } | Call::Refine { job, .. } | Call::Size { job, .. } if stray_sink_alone(job) => {
            Some(STRAY_SINK)
        }
        Call::Measure { job, sizing, .. } => met_by(job, sizing),
        Call::Refine { job, sizing, place, .. } => met_at(job, sizing, *place),
        _ => None,
    }
}

/// The job of a call.
pub fn job_of(call: &Call) -> &[u8] {
    match call {
        Call::Measure { job, .. } | Call::Refine { job, .. } | Call::Choose { job, .. } | Call::Size { job, .. } => job,
    }
}

/// What a call meets in the layers of its job: segments on both, or, of a call that tells its number, one way to fail question 24
/// or another question failed for layer 1 alone.
fn met_in_layers(call: &Call) -> Option<&'static str> {
    let job = job_of(call);
    match first_no(job) {
        0 => {
            let on_layer = |layer: usize| read(job).is_ok_and(|net| net.segments.iter().any(|segment| segment.layer == layer));
            (on_layer(0) && on_layer(1)).then_some(BOTH_LAYERS)
        }
        24 if tells(call) => {
            let faults = layer_faults(job);
            let alone = faults.iter().filter(|&&fault| fault).count() == 1;
            let way = faults.iter().position(|&fault| fault)?;
            alone.then_some(LAYER_FAULTS[way])
        }
        number if tells(call) => fails_in_layer_1(job, number).then_some(LAYER_1),
        _ => None,
    }
}

/// Whether a call tells its number; choose does not.
fn tells(call: &Call) -> bool {
    !matches!(call, Call::Choose { .. })
}

/// What a call meets in the repeaters of its job: what there is behind them, what a refine meets at one, or, of a call that tells
/// its number, their faults.
fn met_in_repeaters(call: &Call) -> Vec<&'static str> {
    let job = job_of(call);
    match first_no(job) {
        0 => {
            let net = read(job).expect("a job that passes");
            let mut met = met_behind(&net);
            if let Call::Refine { job, sizing, place, .. } = call {
                met.extend(met_at_repeater(&net, refine(job, sizing, *place), *place));
            }
            met
        }
        number if number > 1 && tells(call) => {
            let faults = [&site_faults(job)[..], &range_faults(job)].concat();
            met_in_faults(&REPEATER_FAULTS, &faults, number, BEFORE_FAULTS)
        }
        _ => Vec::new(),
    }
}

/// What a job of whole records that is refused with a number meets in faults, each in its way: one way alone, or, called `behind`,
/// one of a question behind that number's.
fn met_in_faults(ways: &[(u64, &'static str)], faults: &[bool], number: u64, behind: &'static str) -> Vec<&'static str> {
    let found = ways.iter().zip(faults).filter(|(_, fault)| **fault);
    let found: Vec<(u64, &'static str)> = found.map(|(way, _)| *way).collect();
    match found[..] {
        _ if found.iter().any(|(question, _)| *question != number) => vec![behind],
        [(_, alone)] => vec![alone],
        _ => Vec::new(),
    }
}

/// What a call meets in the weights of its job: their forms and counts, or, of a call that tells its number, their faults.
fn met_in_weights(call: &Call) -> Vec<&'static str> {
    let job = job_of(call);
    match first_no(job) {
        0 => met_in_counts(job),
        number if number > 1 && tells(call) => {
            let faults = [&questions::weight_faults(job)[..], &fraction_faults(job)].concat();
            met_in_faults(&WEIGHT_FAULTS, &faults, number, BEFORE_WEIGHT_FAULTS)
        }
        _ => Vec::new(),
    }
}

/// What a call meets in the weights of a job that passes, whichever operation it is of.
fn met_in_counts(job: &[u8]) -> Vec<&'static str> {
    let net = read(job).expect("a job that passes");
    let of_kind = |kind: u8| job.chunks(16).filter(move |record| record[0] == kind);
    let weights = || of_kind(6);
    let sinks = net
        .segments
        .iter()
        .map(|segment| segment.sink.as_ref().map(|sink| sink.weight));
    let own = of_kind(4).map(|record| u64::from(record[12]));
    let all = [
        (weights().any(|record| record[2] == 0), ABSENT),
        (weights().any(|record| record[2] == 1), WHOLE),
        (weights().any(|record| record[2] == 2), FRACTION),
        (
            weights().any(|record| record[2] == 2 && record[8..] == MINUS_ZERO.to_le_bytes()),
            MINUS_ZERO_MET,
        ),
        (
            sinks.zip(own).any(|(sink, own)| sink.is_some_and(|sink| sink != own)),
            OTHER_COUNT,
        ),
        (weights().count() > 0 && !net.sites.is_empty(), WEIGHED_REPEATERS),
        (weights().count() == 64, ALL_WEIGHED),
    ];
    which(&all)
}

/// The names of what is met.
fn which(all: &[(bool, &'static str)]) -> Vec<&'static str> {
    all.iter().filter(|(met, _)| *met).map(|(_, name)| *name).collect()
}

/// The weight of the sinks behind a repeater.
fn weight_behind(net: &Net, repeater: usize) -> u64 {
    let behind = (0..net.segments.len()).filter(|&s| net.paths[s][1..].contains(&net.sites[repeater]));
    behind
        .filter_map(|s| net.segments[s].sink.as_ref())
        .map(|sink| sink.weight)
        .sum()
}

/// Whether a repeater is below another, or above.
fn in_chain(net: &Net, repeater: usize) -> bool {
    let below = |r: usize, other: usize| net.paths[net.sites[r]][1..].contains(&net.sites[other]);
    (0..net.sites.len()).any(|other| below(repeater, other) || below(other, repeater))
}

/// What a call meets in the repeaters of a net, whichever operation it is of.
fn met_behind(net: &Net) -> Vec<&'static str> {
    let repeaters = 0..net.sites.len();
    let weighted = net
        .segments
        .iter()
        .any(|segment| segment.sink.as_ref().is_some_and(|sink| sink.weight > 0));
    let all = [
        (!repeaters.is_empty(), REPEATERS),
        (repeaters.len() == 8, EIGHT_REPEATERS),
        (repeaters.clone().any(|r| in_chain(net, r)), CHAINED),
        (
            weighted && repeaters.clone().any(|r| weight_behind(net, r) == 0),
            WEIGHTLESS_BEHIND,
        ),
    ];
    which(&all)
}

/// What a refine meets that is answered at the place of a repeater which has several indices and weights behind it.
fn met_at_repeater(net: &Net, refined: Refined, place: usize) -> Vec<&'static str> {
    let Some(repeater) = place.checked_sub(net.repeater_place(0)) else {
        return Vec::new();
    };
    if refined.number != 0 || net.ranges[place].lowest == net.ranges[place].highest || weight_behind(net, repeater) == 0 {
        return Vec::new();
    }
    if refined.tie.lowest == refined.tie.highest {
        vec![ONE_BEST_REPEATER]
    } else if in_chain(net, repeater) {
        vec![TIE_AT_REPEATER, TIE_IN_CHAIN]
    } else {
        vec![TIE_AT_REPEATER]
    }
}

/// What a measure that is answered meets.
fn met_by(job: &[u8], sizing: &[u8]) -> Option<&'static str> {
    if measure(job, sizing).number != 0 {
        return None;
    }
    let net = read(job).expect("a job that is answered");
    (net.stages > 1 && net.sizes[usize::from(sizing[0])].output > 0).then_some(OUTPUTS)
}

/// What a refine that is answered meets at its place; a tie at the delay 0 counts apart.
fn met_at(job: &[u8], sizing: &[u8], place: usize) -> Option<&'static str> {
    let Refined { number: 0, tie } = refine(job, sizing, place) else {
        return None;
    };
    let range = &read(job).expect("a job that is answered").ranges[place];
    Some(if range.lowest == range.highest {
        ONE_INDEX
    } else if tie.lowest == tie.highest {
        ONE_BEST
    } else if tie.delay == 0 {
        TIE_AT_0
    } else {
        TIE
    })
}

/// Counts a call that has a number, by its operation and by what it meets.
pub fn count(counts: &mut Counts, call: &Call, number: u64) {
    let met = [Some(operation(call)), met(call), met_in_layers(call)].into_iter().flatten();
    for name in met.chain(met_in_repeaters(call)).chain(met_in_weights(call)) {
        *counts.entry((name, number)).or_default() += 1;
    }
}

/// Counts calls with the numbers that the reference expects of them.
pub fn count_expected(counts: &mut Counts, calls: &[Call]) {
    for call in calls {
        count(counts, call, expected(call).number);
    }
}

/// A measure of a job with a sizing made for a plan.
fn a_measure(random: &mut Random, job: &[u8], plan: &Plan) -> Call {
    let figures = marked(random.pick(&[16, 16, 16, 24, 17, 18, 31, 32]));
    Call::Measure {
        job: job.to_vec(),
        sizing: any_sizing(random, plan),
        figures,
    }
}

/// A refine of a job with a sizing made for a plan.
fn a_refine(random: &mut Random, job: &[u8], plan: &Plan) -> Call {
    let lowest = random.byte();
    let sizing = any_sizing(random, plan);
    let place = any_place(random, plan);
    let highest = random.byte();
    Call::Refine {
        job: job.to_vec(),
        sizing,
        place,
        ends: [&[lowest, highest][..], &marked(8)].concat(),
    }
}

/// A choose of a job between two sizings made for a plan, now and then equal but for what lies behind them.
fn a_choose(random: &mut Random, job: &[u8], plan: &Plan) -> Call {
    let x = any_sizing(random, plan);
    let y = if random.once_in(6) {
        [&x[..], &[9]].concat()
    } else {
        any_sizing(random, plan)
    };
    Call::Choose { job: job.to_vec(), x, y }
}

/// A size of a job with a buffer that is right or wrong for a plan.
fn a_size(random: &mut Random, job: &[u8], plan: &Plan) -> Call {
    Call::Size {
        job: job.to_vec(),
        reply: any_reply(random, plan.places()),
    }
}

/// A size of a job with a buffer that is five bytes longer than the reply of a job with so many places.
fn a_roomy_size(job: &[u8], places: usize) -> Call {
    Call::Size {
        job: job.to_vec(),
        reply: marked(8 * (1 + places) + 5),
    }
}

/// One call of each operation, for a job and the plan that it was made of.
pub fn one_of_each(random: &mut Random, job: &[u8], plan: &Plan) -> Vec<Call> {
    vec![
        a_measure(random, job, plan),
        a_refine(random, job, plan),
        a_choose(random, job, plan),
        a_size(random, job, plan),
    ]
}

/// The calls for one small job.
pub fn small_calls(random: &mut Random, most: u128) -> Vec<Call> {
    let plan = small_plan(random, most);
    calls_of(random, &plan)
}

/// The calls for one small job with repeaters, and refine at each of them.
pub fn repeater_calls(random: &mut Random, most: u128) -> Vec<Call> {
    let plan = repeater_plan(random, most);
    let mut calls = calls_of(random, &plan);
    let first = plan.stages.len() + plan.segments.len();
    calls.extend((first..plan.places()).map(|place| refine_at(random, &plan, place)));
    calls
}

/// The calls for one small job with weights.
pub fn weighed_calls(random: &mut Random, most: u128) -> Vec<Call> {
    let plan = weighed_plan(random, most);
    calls_of(random, &plan)
}

/// Some calls of each operation, for the job of a plan.
fn calls_of(random: &mut Random, plan: &Plan) -> Vec<Call> {
    let job = plan.bytes();
    let mut calls = one_of_each(random, &job, plan);
    calls.push(Call::Size {
        job: job.clone(),
        reply: marked(8 * (1 + plan.places())),
    });
    calls.push(a_measure(random, &job, plan));
    calls.push(a_refine(random, &job, plan));
    calls.push(a_refine(random, &job, plan));
    calls.push(a_choose(random, &job, plan));
    calls
}

/// The calls for one damaged job.
pub fn damaged_calls(random: &mut Random, most: u128) -> Vec<Call> {
    let plan = small_plan(random, most);
    calls_of_damaged(random, &plan)
}

/// The calls for one damaged job with repeaters.
pub fn damaged_repeater_calls(random: &mut Random, most: u128) -> Vec<Call> {
    let plan = repeater_plan(random, most);
    calls_of_damaged(random, &plan)
}

/// The calls for one damaged job with weights.
pub fn damaged_weighed_calls(random: &mut Random, most: u128) -> Vec<Call> {
    let plan = weighed_plan(random, most);
    calls_of_damaged(random, &plan)
}

/// One call of each operation, for the job of a plan, damaged.
fn calls_of_damaged(random: &mut Random, plan: &Plan) -> Vec<Call> {
    let mut job = plan.bytes();
    damage(random, &mut job);
    one_of_each(random, &job, plan)
}

/// The calls for every length of a worked job, of the clock net, of jobs with repeaters and of jobs with weights, one of each
/// operation: cut off, or with up to two records more.
pub fn length_calls() -> Vec<Call> {
    let mut random = Random::new(15);
    let mut calls = Vec::new();
    let named = worked::named().into_iter().map(|(_, plan)| plan);
    let behind = worked::with_repeaters().into_iter().chain(worked::with_weights());
    for plan in named.chain([worked::clock()]).chain(behind) {
        let mut longest = plan.bytes();
        let last = longest[longest.len() - 16..].to_vec();
        longest.extend([&last[..], &last].concat());
        for length in 0..=longest.len() {
            calls.extend(one_of_each(&mut random, &longest[..length], &plan));
        }
    }
    calls
}

/// The calls for one job of many segments.
pub fn large_calls(random: &mut Random) -> Vec<Call> {
    let plan = large_plan(random);
    calls_of_large(random, &plan, MOST_UNREPEATED)
}

/// The calls for one job of many segments with repeaters.
pub fn large_repeater_calls(random: &mut Random) -> Vec<Call> {
    let plan = large_repeater_plan(random);
    calls_of_large(random, &plan, MOST_PLACES)
}

/// The calls for one job of many segments with weights.
pub fn large_weighed_calls(random: &mut Random) -> Vec<Call> {
    let plan = large_weighed_plan(random);
    calls_of_large(random, &plan, MOST_PLACES)
}

/// Refine at every place of the job of a plan, and the rest; a buffer for its reply has room for so many places.
fn calls_of_large(random: &mut Random, plan: &Plan, room_for: usize) -> Vec<Call> {
    let job = plan.bytes();
    let mut calls = one_of_each(random, &job, plan);
    calls.push(a_roomy_size(&job, room_for));
    calls.extend((0..plan.places()).map(|place| refine_at(random, plan, place)));
    calls
}

/// A refine of the job of a plan at a place, with an allowed sizing.
fn refine_at(random: &mut Random, plan: &Plan, place: usize) -> Call {
    Call::Refine {
        job: plan.bytes(),
        sizing: allowed_sizing(random, plan),
        place,
        ends: marked(10),
    }
}

/// The calls for every job at or just beyond a limit, without repeaters.
pub fn limit_calls() -> Vec<Call> {
    calls_at(Random::new(12), limits(), MOST_UNREPEATED, 6)
}

/// The calls for every job with repeaters at or just beyond a limit.
pub fn repeater_limit_calls() -> Vec<Call> {
    calls_at(Random::new(16), repeater_limits(), MOST_PLACES, 10)
}

/// The calls for every job with weights at or just beyond a limit.
pub fn weight_limit_calls() -> Vec<Call> {
    calls_at(Random::new(19), weight_limits(), MOST_PLACES, 5)
}

/// One call of each operation for each of a list of jobs: sizings and buffers have room for more than so many places, and refine
/// asks one of the first.
fn calls_at(mut random: Random, limits: Vec<Limit>, places: usize, first: usize) -> Vec<Call> {
    let mut calls = Vec::new();
    for limit in limits {
        let sizing = vec![0; places + 2];
        let job = limit.job;
        calls.push(Call::Measure {
            job: job.clone(),
            sizing: sizing.clone(),
            figures: marked(16),
        });
        calls.push(Call::Refine {
            job: job.clone(),
            sizing: sizing.clone(),
            place: random.below(first),
            ends: marked(10),
        });
        calls.push(Call::Choose {
            job: job.clone(),
            x: sizing.clone(),
            y: sizing,
        });
        calls.push(a_roomy_size(&job, places));
    }
    calls
}

/// A job with six repeaters, one more, and so much room that 14 comes where the last is sound.
pub fn roomy_with(random: &mut Random, repeater: [u8; 3]) -> Vec<u8> {
    let mut plan = weightless_repeaters(random, &[16, 16, 16], &[8; 8], &[1; 6]);
    plan.repeaters.push(repeater);
    plan.bytes()
}

/// The calls for jobs that 22 or 23 refuses: where 12 would come, 14, 15, 16 or 17.
pub fn fault_calls() -> Vec<Call> {
    let mut random = Random::new(17);
    let roomy =
        [[8, 0, 15], [7, 0, 15], [5, 0, 15], [4, 0, 15], [6, 1, 0], [6, 0, 16]].map(|repeater| roomy_with(&mut random, repeater));
    calls_of_faults(repeater_faults(), &roomy)
}

/// The same for jobs that 20 or 21 refuses: eight segments have room, so segment 8 is missing.
pub fn weight_fault_calls() -> Vec<Call> {
    let mut random = Random::new(20);
    let roomy = [
        (8, PlannedWeight::Absent),
        (0, PlannedWeight::Whole(256)),
        (7, PlannedWeight::Fraction(1)),
        (3, PlannedWeight::Fraction(u64::MAX)),
    ]
    .map(|(segment, weight)| [roomy_with(&mut random, [6, 0, 15]), weight_record(segment, weight)].concat());
    calls_of_faults(weight_faults(), &roomy)
}

/// The calls for jobs that a fault refuses, in which every operation's own questions refuse too, or do not.
fn calls_of_faults(faults: Vec<Limit>, roomy: &[Vec<u8>]) -> Vec<Call> {
    let jobs = faults.into_iter().map(|limit| limit.job).chain(roomy.iter().cloned());
    jobs.flat_map(|job| {
        let places = job.chunks(16).filter(|record| (3..=5).contains(&record[0])).count();
        let sizings = [vec![0; places], vec![0; places - 1], vec![255; places], Vec::new()];
        let with_sizing = |sizing: &Vec<u8>| {
            let mut calls = vec![Call::Measure {
                job: job.clone(),
                sizing: sizing.clone(),
                figures: marked(16),
            }];
            calls.extend([0, places - 1, places, usize::MAX].map(|place| Call::Refine {
                job: job.clone(),
                sizing: sizing.clone(),
                place,
                ends: marked(10),
            }));
            calls.push(Call::Choose {
                job: job.clone(),
                x: sizings[0].clone(),
                y: sizing.clone(),
            });
            calls
        };
        let lengths = [8 * (1 + places) + 3, 8 * (1 + places), 8 * (1 + places) - 1, 0];
        let mut calls: Vec<Call> = sizings.iter().flat_map(with_sizing).collect();
        calls.extend(lengths.map(|length| Call::Size {
            job: job.clone(),
            reply: marked(length),
        }));
        calls
    })
    .collect()
}

/// The calls for every job of the largest size and figures; for those with repeaters also size with a buffer of the reply's length
/// and with one a byte shorter.
pub fn largest_calls() -> Vec<Call> {
    let mut random = Random::new(13);
    let mut calls = Vec::new();
    for (_, plan) in largest_plans() {
        let job = plan.bytes();
        let (times, lengths) = if plan.repeaters.is_empty() {
            (4, vec![])
        } else {
            (1, vec![8 * (1 + MOST_PLACES), 8 * (1 + MOST_PLACES) - 1])
        };
        for _ in 0..times {
            calls.extend(one_of_each(&mut random, &job, &plan));
        }
        calls.push(a_roomy_size(&job, plan.places()));
        calls.extend(lengths.into_iter().map(|length| Call::Size {
            job: job.clone(),
            reply: marked(length),
        }));
    }
    calls
}

/// The calls for some of the jobs of the largest size and figures, with a weight for each of the 64 sinks.
pub fn largest_weighed_calls() -> Vec<Call> {
    let mut random = Random::new(41);
    let mut calls = Vec::new();
    for (_, mut plan) in largest_plans().into_iter().step_by(7) {
        move_weights(&mut random, &mut plan);
        calls.push(a_roomy_size(&plan.bytes(), MOST_PLACES));
        calls.extend(one_of_each(&mut random, &plan.bytes(), &plan));
    }
    calls
}

/// Counts of indices at free stages and free segments, with room at, just below and just above 65,536.
const ROOMS: [(&[u8], &[u8]); 8] = [
    (&[], &[4, 4, 4, 4, 4, 4, 4, 4]),
    (&[16, 16, 16], &[2, 2, 2, 2]),
    (&[], &[2, 2, 2, 2, 2, 2, 2, 2, 2, 2, 2, 2, 2, 2, 2, 2]),
    (&[16, 16], &[8, 8, 4]),
    (&[13, 12, 12], &[7, 5]),
    (&[10], &[3, 3, 3, 3, 3, 3, 3, 3]),
    (&[5, 5, 5], &[5, 5, 7, 3]),
    (&[], &[8, 8, 8, 8, 8, 3]),
];

/// The calls for jobs around the largest room, and far beyond it.
pub fn room_calls() -> Vec<Call> {
    let mut random = Random::new(14);
    let mut plans: Vec<Plan> = ROOMS
        .iter()
        .map(|(stages, segments)| weightless_plan(&mut random, stages, segments))
        .collect();
    plans.extend([worked::weightless(8), worked::weightless(9), worked::clock()]);
    plans.extend((0..200).map(|_| roomy_plan(&mut random)));
    plans.extend([10, 13, 15, 16, 16, 17, 17, 18, 24, 40, 63, 64].map(|count| tied_star(&mut random, count)));
    calls_of_room(random, &plans, MOST_UNREPEATED)
}

/// Counts of indices at free stages, at segments of a chain and at repeaters, with room at, just below and just above 65,536.
const REPEATER_ROOMS: [(&[u8], &[u8], &[u8]); 8] = [
    (&[], &[1, 1, 1, 1, 1], &[16, 16, 16, 16]),
    (&[16], &[2, 2, 2, 2, 2], &[4, 4, 8]),
    (&[], &[1, 1, 1, 1, 1, 1, 1, 1, 1], &[4, 4, 4, 4, 4, 4, 4, 4]),
    (&[2, 2, 2], &[2, 2, 2, 2, 2, 1, 1, 1, 1], &[2, 2, 2, 2, 2, 2, 2, 2]),
    (&[13], &[1, 1, 7, 1, 5], &[12, 12]),
    (&[], &[1, 1, 1, 3, 3, 3, 3, 3, 3], &[10, 9]),
    (&[], &[1, 1, 1, 1, 1, 1, 1, 1, 2], &[4, 4, 4, 4, 4, 4, 4, 4]),
    (&[16, 16, 16], &[8; 64], &[16; 8]),
];

/// The calls for jobs with repeaters around the largest room, and far beyond it.
pub fn repeater_room_calls() -> Vec<Call> {
    let mut random = Random::new(18);
    let plans: Vec<Plan> = REPEATER_ROOMS
        .iter()
        .map(|(stages, segments, repeaters)| weightless_repeaters(&mut random, stages, segments, repeaters))
        .collect();
    calls_of_room(random, &plans, MOST_PLACES)
}

/// The calls for jobs around the largest room, with repeaters and without, whose weights are in records; and for the clock net with
/// its weights in records.
pub fn weighed_room_calls() -> Vec<Call> {
    let mut random = Random::new(42);
    let mut plans = vec![worked::weightless(8), worked::weightless(9), worked::clock()];
    plans.extend(ROOMS.map(|(stages, segments)| weightless_plan(&mut random, stages, segments)));
    plans.extend(
        REPEATER_ROOMS.map(|(stages, segments, repeaters)| weightless_repeaters(&mut random, stages, segments, repeaters)),
    );
    plans.iter_mut().for_each(|plan| move_weights(&mut random, plan));
    calls_of_room(random, &plans, MOST_PLACES)
}

/// For each plan a size with a buffer that has room for so many places, and one call of each operation.
fn calls_of_room(mut random: Random, plans: &[Plan], room_for: usize) -> Vec<Call> {
    plans
        .iter()
        .flat_map(|plan| {
            [
                vec![a_roomy_size(&plan.bytes(), room_for)],
                one_of_each(&mut random, &plan.bytes(), plan),
            ]
            .concat()
        })
        .collect()
}

/// The calls for a small job: every sizing, every place, every pair.
fn plan_calls(plan: &Plan) -> Vec<Call> {
    let mut calls = Vec::new();
    let job = plan.bytes();
    let (lowest, highest): (Vec<u8>, Vec<u8>) = plan.ranges().iter().map(|range| (range[0], range[1])).unzip();
    let sizings = crate::reference::sizings_between(&lowest, &highest);
    for x in &sizings {
        calls.push(Call::Measure {
            job: job.clone(),
            sizing: x.clone(),
            figures: marked(16),
        });
        for place in 0..=plan.places() {
            calls.push(Call::Refine {
                job: job.clone(),
                sizing: x.clone(),
                place,
                ends: marked(10),
            });
        }
        calls.extend(sizings.iter().map(|y| Call::Choose {
            job: job.clone(),
            x: x.clone(),
            y: y.clone(),
        }));
    }
    let exact = 8 * (1 + plan.places());
    calls.extend([exact - 1, exact, exact + 3].map(|length| Call::Size {
        job: job.clone(),
        reply: marked(length),
    }));
    calls
}

/// The calls for the worked jobs: every sizing, every place, every pair.
pub fn worked_calls() -> Vec<Call> {
    let mut calls: Vec<Call> = worked::named().iter().flat_map(|(_, plan)| plan_calls(plan)).collect();
    calls.extend(
        worked::refused()
            .into_iter()
            .map(|(job, _)| a_roomy_size(&job, MOST_UNREPEATED)),
    );
    calls
}

/// The same for the worked jobs of two layers.
pub fn layered_calls() -> Vec<Call> {
    let mut calls: Vec<Call> = [0, 1]
        .into_iter()
        .flat_map(|layer| plan_calls(&worked::on_layer(layer)))
        .collect();
    calls.extend(
        worked::layered()
            .into_iter()
            .map(|(job, _)| a_roomy_size(&job, MOST_UNREPEATED)),
    );
    calls
}

/// The same for the worked jobs with repeaters.
pub fn repeated_calls() -> Vec<Call> {
    let mut calls: Vec<Call> = worked::with_repeaters().iter().flat_map(plan_calls).collect();
    calls.extend(worked::repeated().into_iter().map(|(job, _)| a_roomy_size(&job, MOST_PLACES)));
    calls
}

/// The same for the worked jobs with weights.
pub fn worked_weight_calls() -> Vec<Call> {
    let mut calls: Vec<Call> = worked::with_weights().iter().flat_map(plan_calls).collect();
    calls.extend(worked::weighed().into_iter().map(|(job, _)| a_roomy_size(&job, MOST_PLACES)));
    calls
}
