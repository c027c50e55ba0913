//! Tests of the reference itself: the worked jobs, the two ways to the bounds, the limits, and what the generators reach.

use numlejka_tests::batches::{
    ABSENT, ALL_WEIGHED, BEFORE_FAULTS, BEFORE_WEIGHT_FAULTS, CHAINED, Counts, EIGHT_REPEATERS, FRACTION, LAYER_1, LAYER_FAULTS,
    MINUS_ZERO_MET, MOST_ALLOWED, ONE_BEST_REPEATER, OTHER_COUNT, REPEATER_FAULTS, REPEATERS, STRAY_SINK, TIE_AT_REPEATER,
    TIE_IN_CHAIN, WEIGHED_REPEATERS, WEIGHT_FAULTS, WEIGHTLESS_BEHIND, WHOLE, count_expected, damaged_calls,
    damaged_repeater_calls, damaged_weighed_calls, fault_calls, job_of, limit_calls, repeated_calls, repeater_calls,
    repeater_limit_calls, repeater_room_calls, room_calls, roomy_with, small_calls, weighed_calls, weighed_room_calls,
    weight_fault_calls, weight_limit_calls, worked_calls, worked_weight_calls,
};
use numlejka_tests::calls::{Call, expected};
use numlejka_tests::fractions::{MINUS_ZERO, fraction, neighbours, refused as refused_fractions};
use numlejka_tests::generate::{
    allowed_sizing, large_plan, large_repeater_plan, marked, repeater_plan, small_plan, weighed_plan,
};
use numlejka_tests::limits::{largest_plans, limits, repeater_limits, weight_limits};
use numlejka_tests::plan::{Plan, PlannedWeight, segment_with_sink, segment_without_sink};
use numlejka_tests::questions::{MOST_PLACES, MOST_UNREPEATED, Net, first_no, fraction_count, fraction_fault, read};
use numlejka_tests::random::{Random, SEED};
use numlejka_tests::reference::{
    Bounds, Choice, EXHAUSTIVE, Least, Side, Tie, choose, chosen, exhaustive_bounds, exhaustive_least, load_figure, measure,
    refine, rests, room, scaled_delay, size,
};
use numlejka_tests::reference_bounds::{SWEPT, least_between, swept_bounds};
use numlejka_tests::worked::{
    clock, j1, j2, j3, j4, j5, layered, on_layer, one_repeater, refused, repeated, three_weights, tied_repeater, two_repeaters,
    weighed, weighed_j1, weighed_j5, weighed_repeater, weightless, weightless_behind,
};

/// The net of a plan that passes its questions.
fn net_of(plan: &Plan) -> Net {
    read(&plan.bytes()).expect("a valid job")
}

/// The delay that measure answers.
fn delay(plan: &Plan, sizing: &[u8]) -> u128 {
    let answer = measure(&plan.bytes(), sizing);
    assert_eq!(answer.number, 0);
    answer.delay
}

/// The least delay, lean and wide of a plan.
fn least(plan: &Plan) -> (u128, Vec<u8>, Vec<u8>) {
    let net = net_of(plan);
    let Least { delay, lean, wide } = exhaustive_least(&net, &exhaustive_bounds(&net));
    (delay, lean, wide)
}

/// The tie of two ends and a delay.
fn tie(lowest: u8, highest: u8, delay: u128) -> Tie {
    Tie { lowest, highest, delay }
}

/// J1: delays 208 and 206, lean and wide equal.
#[test]
fn j1_has_one_least_delay_sizing() {
    assert_eq!(delay(&j1(), &[0, 0]), 208);
    assert_eq!(delay(&j1(), &[0, 1]), 206);
    assert_eq!(least(&j1()), (206, vec![0, 1], vec![0, 1]));
}

/// J2: both sizings have delay 166, and neither is lost.
#[test]
fn j2_ties() {
    assert_eq!(delay(&j2(), &[0, 0]), 166);
    assert_eq!(delay(&j2(), &[0, 1]), 166);
    assert_eq!(least(&j2()), (166, vec![0, 0], vec![0, 1]));
}

/// J3: without weight every delay is 0.
#[test]
fn j3_has_no_weight() {
    assert_eq!(delay(&j3(), &[0, 0]), 0);
    assert_eq!(delay(&j3(), &[0, 1]), 0);
    assert_eq!(least(&j3()), (0, vec![0, 0], vec![0, 1]));
}

/// J4: its four delays, its load, refine with a tie, with one best index and at a place with one index, choose, and the reply
/// byte by byte.
#[test]
fn j4_measures_refines_and_sizes() {
    let job = j4().bytes();
    assert_eq!(delay(&j4(), &[0, 0, 0]), 260);
    assert_eq!(delay(&j4(), &[0, 0, 1]), 262);
    assert_eq!(delay(&j4(), &[0, 1, 0]), 270);
    assert_eq!(delay(&j4(), &[0, 1, 1]), 262);
    assert_eq!(measure(&job, &[0, 0, 0]).load, 11);
    assert_eq!(refine(&job, &[0, 0, 1], 1).tie, tie(0, 1, 262));
    assert_eq!(refine(&job, &[0, 1, 0], 1).tie, tie(0, 0, 260));
    assert_eq!(refine(&job, &[0, 1, 0], 0).tie, tie(0, 0, 270));
    assert_eq!(choose(&job, &[0, 0, 1], &[0, 1, 1]), Choice::First);
    assert_eq!(chosen(&job, &[0, 1, 0, 77], &[0, 0, 0, 88]), [0, 0, 0]);
    let mut reply = marked(35);
    assert_eq!(size(&job, &mut reply, &EXHAUSTIVE), 0);
    let records = [
        260u64.to_le_bytes(),
        [0; 8],
        [0, 1, 0, 0, 0, 0, 0, 0],
        [0, 1, 0, 0, 0, 0, 0, 0],
    ]
    .concat();
    assert_eq!(reply[..32], records);
    assert_eq!(reply[32..], marked(35)[32..]);
}

/// The load figure has each wire, each sink, each gate but that of stage 0, and each output once, each kind in digits of its own.
#[test]
fn each_load_is_counted_once() {
    let plan = Plan {
        widths: vec![[2, 1], [1, 2]],
        sizes: vec![[3, 10, 1_000], [2, 20, 5_000], [1, 30, 2_000]],
        stages: vec![[0, 0], [0, 2], [1, 2], [0, 1]],
        segments: vec![
            segment_with_sink(0, 1, 100, 1, [0, 1]),
            segment_with_sink(1, 3, 500, 0, [0, 1]),
        ],
        ..Plan::default()
    };
    let load = |sizing: &[u8]| measure(&plan.bytes(), sizing).load;
    assert_eq!(load(&[0, 1, 2, 0, 0, 1]), 9_667);
    assert_eq!(load(&[0, 0, 1, 0, 0, 0]), 8_644);
    assert_eq!(load(&[0, 2, 2, 1, 1, 1]), 10_688);
}

/// J1 on two layers: the delays are those of the rows of its segment's layer; and the numbers of the worked jobs of two layers.
#[test]
fn layers_have_rows_of_their_own() {
    let delays = |layer: u8| [0, 1].map(|width| delay(&on_layer(layer), &[0, width]));
    assert_eq!(delays(0), [208, 206]);
    assert_eq!(delays(1), [242, 277]);
    for (job, number) in layered() {
        assert_eq!(first_no(&job), number, "{job:?}");
    }
}

/// One repeater behind a sink: the four delays that its table works out, least, bounds, load, refine at the repeater, choose, and
/// the reply byte by byte, of exactly its length and with a buffer one byte shorter.
#[test]
fn a_repeater_stands_between_a_sink_and_the_branches() {
    let (plan, job) = (one_repeater(), one_repeater().bytes());
    let sizings = [[0, 0, 0, 0], [0, 0, 1, 0], [0, 0, 0, 1], [0, 0, 1, 1]];
    assert_eq!(sizings.map(|sizing| delay(&plan, &sizing)), [764, 766, 918, 910]);
    assert_eq!(measure(&job, &[0, 0, 0, 0]).load, 18);
    assert_eq!(measure(&job, &[0, 0, 1, 1]).load, 23);
    assert_eq!(refine(&job, &[0, 0, 1, 1], 3).tie, tie(0, 0, 766));
    assert_eq!(refine(&job, &[0, 0, 0, 1], 2).tie, tie(1, 1, 910));
    assert_eq!(refine(&job, &[0, 0, 0, 1], 4).number, 17);
    assert_eq!(measure(&job, &[0, 0, 0]).number, 15);
    assert_eq!(measure(&job, &[0, 0, 0, 2]).number, 16);
    assert_eq!(chosen(&job, &[0, 0, 0, 1, 9], &[0, 0, 1, 1, 9]), [0, 0, 1, 1]);
    let mut reply = marked(40);
    assert_eq!(size(&job, &mut reply, &EXHAUSTIVE), 0);
    assert_eq!(reply, [&764u64.to_le_bytes()[..], &[0; 32]].concat());
    let mut short = marked(39);
    assert_eq!(size(&job, &mut short, &EXHAUSTIVE), 12);
    assert_eq!(short, marked(39));
}

/// Readings of a repeater that are wrong: one that its own segment's sink waits for, one that is seen through, one whose gate or
/// whose output is not counted, and one before its segment's sink.
#[test]
fn wrong_readings_of_a_repeater_give_other_delays() {
    let found = delay(&one_repeater(), &[0, 0, 0, 0]);
    assert_eq!(found, 764);
    for wrong in [
        2 * ((110 + 36 + 70) + (110 + 36 + 70 + 20)),
        2 * ((10 * (1 + 2 + 14) + 4 * (1 + 14)) * 2 + 70 + 20),
        2 * ((10 * (1 + 2 + 5) + 4 * (1 + 5)) * 2 + 70 + 20),
        2 * ((110 + 36) * 2 + 10 * 6 + 20),
        2 * ((10 * (1 + 2 + 3) + 4 * (1 + 3) + 10 * (1 + 5 + 6)) * 2 + 20),
    ] {
        assert_ne!(found, wrong);
    }
}

/// Without a weight behind the repeater all widths there tie, and the smallest gate is best.
#[test]
fn nothing_is_chosen_behind_a_repeater_without_weight() {
    let plan = weightless_behind();
    let sizings = [[0, 0, 0, 0], [0, 0, 1, 0], [0, 0, 0, 1], [0, 0, 1, 1]];
    assert_eq!(sizings.map(|sizing| delay(&plan, &sizing)), [292, 292, 404, 404]);
    assert_eq!(least(&plan), (292, vec![0, 0, 0, 0], vec![0, 0, 1, 0]));
}

/// Two sizes of a repeater tie, and lean and wide differ there.
#[test]
fn a_repeater_may_tie() {
    let plan = tied_repeater();
    assert_eq!([0, 1].map(|index| delay(&plan, &[0, 0, 0, index])), [2_964, 2_964]);
    assert_eq!(refine(&plan.bytes(), &[0, 0, 0, 0], 3).tie, tie(0, 1, 2_964));
    assert_eq!(least(&plan), (2_964, vec![0, 0, 0, 0], vec![0, 0, 0, 1]));
}

/// A repeater behind a repeater: the four delays that its table works out, and the load.
#[test]
fn a_repeater_may_sit_behind_a_repeater() {
    let plan = two_repeaters();
    let at = |first: u8, second: u8| [0, 0, 0, 0, 0, first, second];
    let sizings = [at(0, 0), at(1, 0), at(0, 1), at(1, 1)];
    assert_eq!(sizings.map(|sizing| delay(&plan, &sizing)), [754, 794, 840, 856]);
    assert_eq!(measure(&plan.bytes(), &at(0, 0)).load, 28);
    assert_eq!(least(&plan), (754, at(0, 0).to_vec(), at(0, 0).to_vec()));
}

/// The numbers of the worked jobs with repeaters.
#[test]
fn worked_jobs_with_repeaters_get_their_numbers() {
    for (job, number) in repeated() {
        assert_eq!(first_no(&job), number, "{job:?}");
    }
}

/// J1 with a weight record: the count multiplies its delays; nothing else of it changes.
#[test]
fn a_weight_record_counts_in_place_of_the_own_byte() {
    let delays = |weight: PlannedWeight| [0, 1].map(|width| delay(&weighed_j1(weight), &[0, width]));
    assert_eq!(delays(PlannedWeight::Absent), [208, 206]);
    assert_eq!(delays(PlannedWeight::Fraction(fraction(2))), [416, 412]);
    assert_eq!(delays(PlannedWeight::Whole(3)), [624, 618]);
    assert_eq!(delays(PlannedWeight::Whole(1)), [208, 206]);
    assert_eq!(delays(PlannedWeight::Fraction(fraction(255))), [53_040, 52_530]);
    assert_eq!(delays(PlannedWeight::Whole(255)), [53_040, 52_530]);
    for zero in [
        PlannedWeight::Whole(0),
        PlannedWeight::Fraction(0),
        PlannedWeight::Fraction(MINUS_ZERO),
    ] {
        assert_eq!(delays(zero), [0, 0]);
        assert_eq!(least(&weighed_j1(zero)), (0, vec![0, 0], vec![0, 1]));
    }
    let twice = weighed_j1(PlannedWeight::Fraction(fraction(2)));
    assert_eq!(least(&twice), (412, vec![0, 1], vec![0, 1]));
    assert_eq!(measure(&twice.bytes(), &[0, 0]).load, measure(&j1().bytes(), &[0, 0]).load);
    assert_eq!(refine(&twice.bytes(), &[0, 0], 1).tie, tie(1, 1, 412));
    assert_eq!(refine(&twice.bytes(), &[0, 0], 2).number, 17);
    assert_eq!(chosen(&twice.bytes(), &[0, 0], &[0, 1, 9]), [0, 1]);
    let mut reply = marked(24);
    assert_eq!(size(&twice.bytes(), &mut reply, &EXHAUSTIVE), 0);
    let records = [412u64.to_le_bytes(), [0; 8], [1, 1, 1, 1, 0, 0, 0, 0]].concat();
    assert_eq!(reply, records);
}

/// The delays that are worked out for other jobs with weights, and the numbers of the worked jobs with weights.
#[test]
fn worked_jobs_with_weights_get_their_delays_and_numbers() {
    assert_eq!(delay(&weighed_j5(), &[0, 0, 0, 0]), 142);
    let sizings = [[0, 0, 0, 0], [0, 0, 1, 0], [0, 0, 0, 1], [0, 0, 1, 1]];
    let found = sizings.map(|sizing| delay(&weighed_repeater(), &sizing));
    assert_eq!(found, [1_820, 1_824, 2_240, 2_224]);
    assert_eq!(delay(&three_weights(), &[0; 7]), 19_888);
    for (job, number) in weighed() {
        assert_eq!(first_no(&job), number, "{job:?}");
    }
}

/// Every count from 0 to 255 is read off the bits of its fraction, and nothing next to it is one; nor is anything of the list.
#[test]
fn the_bits_of_a_fraction_tell_its_count() {
    for count in 0..=255 {
        let bits = fraction(count);
        assert_eq!(fraction_count(bits), Some(count.into()));
        assert_eq!(neighbours(count).map(fraction_count), [None, None]);
        if count > 0 {
            assert_eq!(neighbours(count), [bits - 1, bits + 1]);
            assert_eq!(fraction_count(MINUS_ZERO | bits), None);
        }
    }
    // by hand: 1/256 is 2 to -8, so the exponent field is 1,023 - 8; 255/256 is 1.1111111 in binary, times 2 to -1
    assert_eq!(fraction_count((1_023 - 8) << 52), Some(1));
    assert_eq!(fraction_count((1_023 - 7) << 52), Some(2));
    assert_eq!(fraction_count((1_023 - 7) << 52 | 1 << 51), Some(3));
    assert_eq!(fraction_count((1_023 - 1) << 52), Some(128));
    assert_eq!(fraction_count((1_023 - 1) << 52 | 0b111_1111 << 45), Some(255));
    assert_eq!(fraction_count((1_023 - 1) << 52 | 0b1111_1111 << 44), None);
    assert_eq!(fraction_count(1_023 << 52), None);
    assert_eq!([0, MINUS_ZERO].map(fraction_count), [Some(0), Some(0)]);
    for (name, bits) in refused_fractions() {
        assert_eq!(fraction_count(bits), None, "{name}");
        assert!(fraction_fault(bits).is_some(), "{name}");
    }
}

/// What the bits tell is what the machine's arithmetic tells: on bits of every exponent field, with few bits behind it and with
/// many, of both signs.
#[test]
fn the_machine_counts_the_same() {
    let mut random = Random::new(8);
    let mut counted = 0;
    for exponent in 0..0x800 {
        for _ in 0..600 {
            let behind = (random.bits() >> 12) & (u64::MAX << random.below(53));
            for bits in [exponent << 52 | behind, 1 << 63 | exponent << 52 | behind] {
                let product = 256.0 * f64::from_bits(bits);
                let whole = (0..=255_u32).find(|&count| f64::from(count) == product);
                assert_eq!(fraction_count(bits), whole.map(u64::from), "{bits:#x}");
                counted += usize::from(whole.is_some());
            }
        }
    }
    println!("{counted} counts");
    assert!(counted > 500);
}

/// The count that a planned weight has, by the machine's arithmetic.
fn planned_count(weight: PlannedWeight) -> Option<u8> {
    match weight {
        PlannedWeight::Absent => None,
        PlannedWeight::Whole(number) => Some(number as u8),
        PlannedWeight::Fraction(bits) => Some((256.0 * f64::from_bits(bits)) as u8),
    }
}

/// A job with weights is answered as the same without them whose own bytes are the counts, by every operation.
#[test]
fn weights_stand_for_own_bytes() {
    let mut random = Random::new(9);
    let mut others = 0;
    for _ in 0..3_000 {
        let plan = weighed_plan(&mut random, MOST_ALLOWED);
        let mut own = plan.clone();
        for (segment, weight) in own.weights.split_off(0) {
            let byte = &mut own.segments[usize::from(segment)].weight;
            let count = planned_count(weight).unwrap_or(*byte);
            others += usize::from(count != *byte);
            *byte = count;
        }
        let (job, own) = (plan.bytes(), own.bytes());
        let (x, y) = (allowed_sizing(&mut random, &plan), allowed_sizing(&mut random, &plan));
        assert_eq!(measure(&job, &x), measure(&own, &x));
        for place in 0..=plan.places() {
            assert_eq!(refine(&job, &x, place), refine(&own, &x, place));
        }
        assert_eq!(choose(&job, &x, &y), choose(&own, &x, &y));
        let [mut reply, mut of_own] = [marked(700), marked(700)];
        assert_eq!(size(&job, &mut reply, &EXHAUSTIVE), size(&own, &mut of_own, &EXHAUSTIVE));
        assert_eq!(reply, of_own);
    }
    println!("{others} weights other than the own byte");
    assert!(others > 3_000);
}

/// The load figure has the gate and the output of each repeater once, each in digits of its own, beside those of the stages.
#[test]
fn each_repeater_is_counted_once() {
    let plan = Plan {
        widths: vec![[2, 1], [1, 2]],
        sizes: vec![[3, 10, 1_000], [2, 20, 5_000], [1, 30, 2_000]],
        stages: vec![[0, 0], [0, 2]],
        segments: vec![
            segment_without_sink(0, 1, [0, 1]),
            segment_with_sink(1, 3, 500, 0, [0, 1]),
            segment_with_sink(2, 4, 100, 1, [0, 1]),
        ],
        repeaters: vec![[0, 0, 2], [1, 0, 2]],
        ..Plan::default()
    };
    let load = |sizing: &[u8]| measure(&plan.bytes(), sizing).load;
    // wires 1 + 3 + 4, sinks 600, gates 10 + 10 + 10, outputs 4 × 1,000
    assert_eq!(load(&[0, 0, 0, 0, 0, 0, 0]), 4_638);
    // wires 1 + 6 + 4, sinks 600, gates 10 + 20 + 30, outputs 2 × 1,000 + 5,000 + 2,000
    assert_eq!(load(&[0, 0, 0, 1, 0, 1, 2]), 9_671);
    // wires 2 + 6 + 8, sinks 600, gates 30 + 30 + 20, outputs 1,000 + 2 × 2,000 + 5,000
    assert_eq!(load(&[0, 2, 1, 1, 1, 2, 1]), 10_696);
}

/// A repeater splits a net in two: with one at the far end of a trunk, the delay is that of the trunk with the repeater's gate for a
/// sink that has all the weights, and that of the branches with the repeater for their stage.
#[test]
fn a_repeater_splits_the_net() {
    let mut random = Random::new(6);
    let mut split = 0;
    for _ in 0..4_000 {
        let plan = repeater_plan(&mut random, MOST_ALLOWED);
        if plan.repeaters.len() != 1 || plan.repeaters[0][0] != 0 || plan.segments[1..].iter().any(|segment| segment.parent == 0)
        {
            continue;
        }
        let sizing = allowed_sizing(&mut random, &plan);
        let (stages, own) = (plan.stages.len(), *sizing.last().expect("a repeater's index"));
        let weight: u128 = plan.segments.iter().map(|segment| u128::from(segment.weight)).sum();
        let behind: u128 = plan.segments[1..].iter().map(|segment| u128::from(segment.weight)).sum();
        let mut before = plan.clone();
        before.repeaters.clear();
        before.segments.truncate(1);
        let gate = plan.sizes[usize::from(own)][1];
        before.segments[0] = segment_with_sink(0, plan.segments[0].length, plan.segments[0].capacitance + gate, 1, [0, 0]);
        before.segments[0].layer = plan.segments[0].layer;
        before.set_range(stages, plan.ranges()[stages]);
        if before.segments[0].capacitance > 100_000 {
            continue;
        }
        let mut after = plan.clone();
        after.repeaters.clear();
        after.segments.remove(0);
        after.segments.iter_mut().for_each(|segment| segment.parent -= 1);
        after.stages = vec![[own, own]];
        let in_front = delay(&before, &sizing[..=stages]);
        let behind_it = delay(&after, &[&[own], &sizing[stages + 1..sizing.len() - 1]].concat());
        assert_eq!(delay(&plan, &sizing), weight * in_front + behind_it, "{plan:?}");
        split += usize::from(behind > 0);
    }
    println!("{split} nets split");
    assert!(split > 200);
}

/// Both ends of a tie reach its delay, and an index between them may be worse.
#[test]
fn an_index_between_the_ends_may_be_worse() {
    let plan = Plan {
        widths: vec![[3, 3], [2, 4], [1, 5]],
        sizes: vec![[1, 1, 1]],
        stages: vec![[0, 0]],
        segments: vec![segment_with_sink(0, 1, 0, 1, [0, 2])],
        ..Plan::default()
    };
    assert_eq!(refine(&plan.bytes(), &[0, 1], 1).tie, tie(0, 2, 17));
    assert_eq!([0, 1, 2].map(|index| delay(&plan, &[0, index])), [17, 18, 17]);
}

/// Either end of a tie reaches the delay that is answered, and no index of the place a smaller one.
#[test]
fn both_ends_reach_the_delay() {
    let mut random = Random::new(5);
    let mut ties = 0;
    for case in 0..3_000 {
        let plan = if case < 2_000 {
            small_plan(&mut random, 1_024)
        } else {
            repeater_plan(&mut random, 1_024)
        };
        let (job, sizing) = (plan.bytes(), allowed_sizing(&mut random, &plan));
        for (place, [lowest, highest]) in plan.ranges().into_iter().enumerate() {
            let found = refine(&job, &sizing, place).tie;
            let with = |index: u8| {
                let mut put = sizing.clone();
                put[place] = index;
                measure(&job, &put).delay
            };
            assert_eq!([with(found.lowest), with(found.highest)], [found.delay; 2]);
            assert!((lowest..=highest).all(|index| with(index) >= found.delay));
            assert!((lowest..=highest).all(|index| with(index) > found.delay || (found.lowest..=found.highest).contains(&index)));
            ties += usize::from(found.lowest < found.highest);
        }
    }
    println!("{ties} ties");
    assert!(ties > 1_000);
}

/// J5: 155, and not the 180 of a segment charged with all of its capacitance.
#[test]
fn j5_charges_half_of_each_segment() {
    let found = delay(&j5(), &[0, 0, 0, 0]);
    assert_eq!(found, 155);
    assert_ne!(found, 180);
}

/// The six refused jobs, by every operation, with the buffer untouched.
#[test]
fn the_refused_jobs_get_their_numbers() {
    for (job, number) in refused() {
        assert_eq!(first_no(&job), number);
        assert_eq!(measure(&job, &[0; 70]).number, number);
        assert_eq!(refine(&job, &[0; 70], 0).number, number);
        assert_eq!(choose(&job, &[0; 70], &[0; 70]), Choice::None);
        let mut reply = marked(600);
        assert_eq!(size(&job, &mut reply, &EXHAUSTIVE), number);
        assert_eq!(reply, marked(600));
    }
}

/// Room 65,536 is answered.
#[test]
fn eight_weightless_segments_are_answered() {
    let plan = weightless(8);
    let bounds = swept_bounds(&net_of(&plan));
    assert_eq!(room(&bounds), 65_536);
    let mut reply = marked(90);
    assert_eq!(size(&plan.bytes(), &mut reply, &SWEPT), 0);
    let records = [
        vec![0; 8],
        vec![0; 8],
        [0, 3, 0, 3, 0, 0, 0, 0].repeat(8),
        marked(90)[80..].to_vec(),
    ]
    .concat();
    assert_eq!(reply, records);
}

/// Room above 65,536 gives 14, the bounds, and 255 for the rest.
#[test]
fn nine_weightless_segments_are_14() {
    let plan = weightless(9);
    let mut reply = marked(90);
    assert_eq!(size(&plan.bytes(), &mut reply, &SWEPT), 14);
    let stage = vec![0, 0, 255, 255, 0, 0, 0, 0];
    let records = [
        vec![255; 8],
        stage,
        [0, 3, 255, 255, 0, 0, 0, 0].repeat(9),
        marked(90)[88..].to_vec(),
    ]
    .concat();
    assert_eq!(reply, records);
}

/// Questions 15 to 17 in their order.
#[test]
fn short_sizings_and_far_places_get_15_16_17() {
    let job = j4().bytes();
    assert_eq!(measure(&job, &[0, 0]).number, 15);
    assert_eq!(measure(&job, &[1, 0, 0]).number, 16);
    assert_eq!(measure(&job, &[0, 2, 0]).number, 16);
    assert_eq!(refine(&job, &[0, 2, 0], 3).number, 16);
    assert_eq!(refine(&job, &[0, 0, 0], 3).number, 17);
    assert_eq!(refine(&job, &[0, 0, 0, 9], 2).number, 0);
    assert_eq!(choose(&job, &[0, 0, 0], &[0, 0]), Choice::None);
    assert_eq!(choose(&job, &[0, 0, 2], &[0, 0, 0]), Choice::None);
}

/// Every field and count at its limit and beyond.
#[test]
fn every_limit_gets_its_number() {
    for limit in limits().into_iter().chain(repeater_limits()).chain(weight_limits()) {
        assert_eq!(first_no(&limit.job), limit.number, "{}", limit.name);
    }
}

/// 20 to 23 come before 12 and before 14 to 17, in jobs among which some have too much room.
#[test]
fn faults_come_before_the_operations_own_questions() {
    let sound = roomy_with(&mut Random::new(17), [6, 0, 15]);
    assert_eq!(size(&sound, &mut marked(8 * (1 + MOST_PLACES)), &SWEPT), 14);
    for call in fault_calls().into_iter().chain(weight_fault_calls()) {
        let number = expected(&call).number;
        match call {
            Call::Choose { .. } => assert_eq!(number, 0),
            _ => assert_eq!(number, first_no(job_of(&call))),
        }
        assert!(matches!(first_no(job_of(&call)), 20..=23));
    }
}

/// Whether a sizing lies between two others at each place.
fn lies_between(low: &[u8], sizing: &[u8], high: &[u8]) -> bool {
    (0..sizing.len()).all(|place| low[place] <= sizing[place] && sizing[place] <= high[place])
}

/// What the theory says of bounds, lean and wide, checked on one net.
fn check_theory(net: &Net, bounds: &Bounds, found: &Least) {
    assert!(rests(net, &bounds.lower, Side::Below) && rests(net, &bounds.upper, Side::Above));
    assert!(lies_between(&bounds.lower, &found.lean, &found.wide) && lies_between(&found.lean, &found.wide, &bounds.upper));
    assert_eq!(scaled_delay(net, &found.lean), found.delay);
    assert_eq!(scaled_delay(net, &found.wide), found.delay);
}

/// The sweeps and the search between the bounds agree with the definitions on jobs that a generator makes; how often a job with
/// weights has a tie, a bound apart from lean or wide, and room above 1.
fn both_ways_agree(mut random: Random, jobs: usize, make: fn(&mut Random, u128) -> Plan) -> [usize; 3] {
    println!("seed {SEED:#x}");
    let (mut ties, mut gaps, mut several_rooms) = (0, 0, 0);
    for _ in 0..jobs {
        let plan = make(&mut random, 1_024);
        let net = net_of(&plan);
        let bounds = exhaustive_bounds(&net);
        let found = exhaustive_least(&net, &bounds);
        let case = format!("{:02x?}", plan.bytes());
        assert_eq!(swept_bounds(&net), bounds, "{case}");
        assert_eq!(least_between(&net, &bounds), found, "{case}");
        check_theory(&net, &bounds, &found);
        let weighted = net
            .segments
            .iter()
            .any(|segment| segment.sink.as_ref().is_some_and(|sink| sink.weight != 0));
        ties += usize::from(weighted && found.lean != found.wide);
        gaps += usize::from(weighted && (bounds.lower != found.lean || bounds.upper != found.wide));
        several_rooms += usize::from(weighted && room(&bounds) > 1);
    }
    println!("weighted jobs: {ties} with a tie, {gaps} with a bound apart from lean or wide, {several_rooms} with room above 1");
    [ties, gaps, several_rooms]
}

/// Small jobs without repeaters.
#[test]
fn both_ways_agree_on_small_jobs() {
    let [ties, gaps, _] = both_ways_agree(Random::new(1), 6_000, small_plan);
    assert!(ties > 100 && gaps > 100);
}

/// Small jobs with repeaters.
#[test]
fn both_ways_agree_on_jobs_with_repeaters() {
    let [ties, gaps, _] = both_ways_agree(Random::new(7), 3_000, repeater_plan);
    assert!(ties > 100 && gaps > 100);
}

/// Small jobs with weights, with repeaters and without.
#[test]
fn both_ways_agree_on_jobs_with_weights() {
    let [ties, gaps, _] = both_ways_agree(Random::new(10), 3_000, weighed_plan);
    assert!(ties > 100 && gaps > 100);
}

/// Bounds, lean and wide of jobs with many segments are as the theory says.
#[test]
fn large_jobs_keep_the_theory() {
    let mut random = Random::new(2);
    let mut rooms = Vec::new();
    for case in 0..120 {
        let plan = if case < 60 {
            large_plan(&mut random)
        } else {
            large_repeater_plan(&mut random)
        };
        let net = net_of(&plan);
        let bounds = swept_bounds(&net);
        rooms.push(room(&bounds));
        if room(&bounds) <= 65_536 {
            check_theory(&net, &bounds, &least_between(&net, &bounds));
        }
    }
    println!("rooms {rooms:?}");
}

/// The largest delays stay below 2^63, and the largest load figures are those of all wires, sinks, gates and outputs at their
/// limits.
#[test]
fn the_largest_delay_is_below_2_to_63() {
    for (repeaters, places) in [(0, MOST_UNREPEATED), (8, MOST_PLACES)] {
        let (mut delay, mut load) = (0, 0);
        for (name, plan) in largest_plans().iter().filter(|(_, plan)| plan.repeaters.len() == repeaters) {
            let net = net_of(plan);
            assert_eq!(net.places(), places, "{name}");
            for sizing in [net.lowest(), net.highest()] {
                delay = delay.max(scaled_delay(&net, &sizing));
                load = load.max(load_figure(&net, &sizing));
            }
        }
        println!(
            "{repeaters} repeaters: largest delay {delay}, that is 2^{:.2}, largest load {load}",
            (delay as f64).log2()
        );
        assert!(delay > 1 << 58 && delay < 1 << 63);
        // 64 wires of 1,000 × 100, 64 sinks, 3 gates and 4 outputs of the stages, 8 gates and outputs of the repeaters
        assert_eq!(
            load,
            64 * 100_000 + 64 * 100_000 + 3 * 100_000 + 4 * 100_000 + repeaters as u128 * 200_000
        );
    }
}

/// The clock net has 40 sinks or more, room above 1, and is answered.
#[test]
fn the_clock_net_is_answered() {
    let plan = clock();
    let net = net_of(&plan);
    let bounds = swept_bounds(&net);
    let found = least_between(&net, &bounds);
    println!("room {}, {bounds:?}, {found:?}", room(&bounds));
    assert!(plan.segments.iter().filter(|segment| segment.sink == 1).count() >= 40);
    assert!((2..=65_536).contains(&room(&bounds)));
    check_theory(&net, &bounds, &found);
}

/// The generated calls reach every number of every operation, and no other; a stray sink alone each of 6 to 10, and no other;
/// 24 and 20 to 23 in each of their ways; 3, 4, 7 and 10 for layer 1 alone; a fault of repeaters and one of weights behind each
/// number of a job but 1, 22 before 23 and 20 before 21 too; and what there is to meet at repeaters and at weights.
#[test]
fn every_number_is_reached() {
    let mut counts = Counts::new();
    let mut random = Random::new(3);
    for _ in 0..20_000 {
        count_expected(&mut counts, &damaged_calls(&mut random, MOST_ALLOWED));
    }
    for _ in 0..500 {
        count_expected(&mut counts, &small_calls(&mut random, MOST_ALLOWED));
    }
    count_expected(&mut counts, &limit_calls());
    count_expected(&mut counts, &worked_calls());
    count_expected(&mut counts, &room_calls());
    for _ in 0..20_000 {
        count_expected(&mut counts, &damaged_repeater_calls(&mut random, MOST_ALLOWED));
    }
    for _ in 0..500 {
        count_expected(&mut counts, &repeater_calls(&mut random, MOST_ALLOWED));
    }
    count_expected(&mut counts, &repeater_limit_calls());
    count_expected(&mut counts, &repeated_calls());
    count_expected(&mut counts, &repeater_room_calls());
    count_expected(&mut counts, &fault_calls());
    for _ in 0..10_000 {
        count_expected(&mut counts, &damaged_weighed_calls(&mut random, MOST_ALLOWED));
    }
    for _ in 0..500 {
        count_expected(&mut counts, &weighed_calls(&mut random, MOST_ALLOWED));
    }
    count_expected(&mut counts, &weight_limit_calls());
    count_expected(&mut counts, &worked_weight_calls());
    count_expected(&mut counts, &weighed_room_calls());
    count_expected(&mut counts, &weight_fault_calls());
    for ((operation, number), times) in &counts {
        println!("{operation} {number}: {times}");
    }
    let reached = |operation: &str| -> Vec<u64> { counts.keys().filter(|key| key.0 == operation).map(|key| key.1).collect() };
    let numbers = |own: &[u64]| -> Vec<u64> { (0..=11).chain(own.iter().copied()).chain(20..=24).collect() };
    assert_eq!(reached("size"), numbers(&[12, 14]));
    assert_eq!(reached("measure"), numbers(&[15, 16]));
    assert_eq!(reached("refine"), numbers(&[15, 16, 17]));
    assert_eq!(reached("choose"), [0, 1, 2]);
    assert_eq!(reached(STRAY_SINK), [6, 7, 8, 9, 10]);
    for way in LAYER_FAULTS {
        assert!(counts.keys().any(|key| key.0 == way), "{way}");
    }
    assert_eq!(reached(LAYER_1), [3, 4, 7, 10]);
    for (number, name) in REPEATER_FAULTS.into_iter().chain(WEIGHT_FAULTS) {
        assert_eq!(reached(name), [number], "{name}");
    }
    assert_eq!(reached(BEFORE_FAULTS), (2..=11).chain([22, 24]).collect::<Vec<u64>>());
    assert_eq!(
        reached(BEFORE_WEIGHT_FAULTS),
        (2..=11).chain([20, 22, 23, 24]).collect::<Vec<u64>>()
    );
    for kind in [REPEATERS, EIGHT_REPEATERS, CHAINED, WEIGHTLESS_BEHIND].into_iter().chain([
        ABSENT,
        WHOLE,
        FRACTION,
        MINUS_ZERO_MET,
        OTHER_COUNT,
        WEIGHED_REPEATERS,
        ALL_WEIGHED,
    ]) {
        assert!(counts.contains_key(&(kind, 0)), "{kind}");
    }
    for kind in [ONE_BEST_REPEATER, TIE_AT_REPEATER, TIE_IN_CHAIN] {
        assert_eq!(reached(kind), [0], "{kind}");
    }
}

/// A call that is printed can be run again.
#[test]
fn a_call_survives_its_text() {
    let mut random = Random::new(4);
    for call in (0..200)
        .flat_map(|_| small_calls(&mut random, MOST_ALLOWED))
        .collect::<Vec<Call>>()
    {
        assert_eq!(Call::from_text(&call.text()), call);
    }
}
