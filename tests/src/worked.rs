//! The worked jobs of the specification, jobs of two layers, with repeaters and with weights, and a clock net of realistic shape.

use crate::fractions::{MINUS_ZERO, fraction};
use crate::plan::{Plan, PlannedSegment, PlannedWeight, segment_with_sink, segment_without_sink};

/// J1: two widths, one size, one stage, one segment.
pub fn j1() -> Plan {
    Plan {
        widths: vec![[4, 2], [2, 3]],
        sizes: vec![[10, 3, 1]],
        stages: vec![[0, 0]],
        segments: vec![segment_with_sink(0, 1, 5, 1, [0, 1])],
        ..Plan::default()
    }
}

/// J2: J1 with driver resistance 9 and sink 4, a tie.
pub fn j2() -> Plan {
    let mut plan = j1();
    plan.sizes[0][0] = 9;
    plan.segments[0].capacitance = 4;
    plan
}

/// J3: J1 with weight 0.
pub fn j3() -> Plan {
    let mut plan = j1();
    plan.segments[0].weight = 0;
    plan
}

/// J4: two stages, the second free, and one segment.
pub fn j4() -> Plan {
    Plan {
        widths: vec![[4, 2], [2, 3]],
        sizes: vec![[10, 3, 1], [5, 7, 1]],
        stages: vec![[0, 0], [0, 1]],
        segments: vec![segment_with_sink(0, 1, 4, 1, [0, 1])],
        ..Plan::default()
    }
}

/// J5: one width, one size, a segment with two branches.
pub fn j5() -> Plan {
    Plan {
        widths: vec![[1, 1]],
        sizes: vec![[1, 1, 0]],
        stages: vec![[0, 0]],
        segments: vec![
            segment_without_sink(0, 1, [0, 0]),
            segment_with_sink(1, 2, 1, 1, [0, 0]),
            segment_with_sink(1, 3, 2, 2, [0, 0]),
        ],
        ..Plan::default()
    }
}

/// Segments of four widths with weights 0, each at the source: every sizing ties, and room is 4 to their count.
pub fn weightless(segments: usize) -> Plan {
    Plan {
        widths: vec![[4, 1], [3, 2], [2, 3], [1, 4]],
        sizes: vec![[10, 3, 1]],
        stages: vec![[0, 0]],
        segments: vec![segment_with_sink(0, 1, 5, 0, [0, 3]); segments],
        ..Plan::default()
    }
}

/// The worked jobs by name, in their order.
pub fn named() -> Vec<(&'static str, Plan)> {
    vec![("j1", j1()), ("j2", j2()), ("j3", j3()), ("j4", j4()), ("j5", j5())]
}

/// J1 with nine widths.
fn nine_widths() -> Plan {
    let mut plan = j1();
    plan.widths = (0..9).map(|i| [20 - i, 1 + i]).collect();
    plan
}

/// The six refused jobs of the specification, each with its number.
pub fn refused() -> Vec<(Vec<u8>, u64)> {
    let mut stray_and_zero = j1().bytes();
    stray_and_zero[3] = 1;
    stray_and_zero[4] = 0;
    let mut equal = j1();
    equal.widths[1][0] = equal.widths[0][0];
    vec![
        (Vec::new(), 1),
        (vec![0; 17], 1),
        (vec![0; 16], 2),
        (nine_widths().bytes(), 3),
        (stray_and_zero, 5),
        (equal.bytes(), 7),
    ]
}

/// J1 with two widths of layer 1, (3, 4) and (1, 7), and its segment on a layer. Widths are the records 0 to 3, the segment is 6.
pub fn on_layer(layer: u8) -> Plan {
    let mut plan = j1();
    plan.thick = vec![[3, 4], [1, 7]];
    plan.segments[0].layer = layer;
    plan
}

/// Jobs of two layers, each with its number: one that passes, question 24 in each of its ways, behind 2 and before 3, and 3, 4, 7
/// and 10 where layers change them.
pub fn layered() -> Vec<(Vec<u8>, u64)> {
    let with = |plan: Plan, bytes: &[(usize, u8)]| {
        let mut job = plan.bytes();
        bytes.iter().for_each(|&(at, byte)| job[at] = byte);
        job
    };
    let mut no_first = on_layer(1);
    no_first.widths.clear();
    vec![
        (with(on_layer(1), &[]), 0),
        (with(on_layer(1), &[(50, 2)]), 24),
        (with(on_layer(1), &[(111, 2)]), 24),
        (with(on_layer(1), &[(2, 1)]), 24),
        (with(j1(), &[(79, 1)]), 24),
        (with(on_layer(1), &[(0, 6), (50, 2)]), 2),
        (with(nine_widths(), &[(191, 2)]), 24),
        (with(no_first, &[]), 3),
        (with(on_layer(1), &[(33, 2), (49, 3)]), 4),
        (with(on_layer(1), &[(52, 3)]), 7),
        (with(on_layer(1), &[(110, 2)]), 10),
    ]
}

/// One stage, segment 0 with a sink and a repeater at its far end, and one branch behind it. With segment 0 at width 0, segment 1
/// at width 0 or 1 and the repeater at size 0 or 1, in order:
///
/// | | (0, 0) | (1, 0) | (0, 1) | (1, 1) |
/// |---|---|---|---|---|
/// | load under segment 0: its sink, the gate | 5 + 3 = 8 | 8 | 5 + 7 = 12 | 12 |
/// | the stage: 10 × (1 + 2 + that load) | 110 | 110 | 150 | 150 |
/// | segment 0: 4 × (1 + that load) | 36 | 36 | 52 | 52 |
/// | **sink 0**, before the repeater | 146 | 146 | 202 | 202 |
/// | load of the branch: segment 1, its sink | 2 + 4 = 6 | 3 + 4 = 7 | 6 | 7 |
/// | the repeater | 10 × (1 + 6) = 70 | 10 × (1 + 7) = 80 | 5 × (1 + 6) = 35 | 5 × (1 + 7) = 40 |
/// | segment 1 | 4 × (1 + 4) = 20 | 2 × (3/2 + 4) = 11 | 20 | 11 |
/// | **sink 1** | 146 + 70 + 20 = 236 | 237 | 202 + 35 + 20 = 257 | 253 |
/// | scaled: 2 × (sink 0 + sink 1) | 764 | 766 | 918 | 910 |
///
/// The load figure at the first: wires 2 + 2, sinks 5 + 4, output 1 of the stage, gate 3 and output 1 of the repeater: 18.
pub fn one_repeater() -> Plan {
    Plan {
        widths: vec![[4, 2], [2, 3]],
        sizes: vec![[10, 3, 1], [5, 7, 1]],
        stages: vec![[0, 0]],
        segments: vec![segment_with_sink(0, 1, 5, 1, [0, 0]), segment_with_sink(1, 1, 4, 1, [0, 1])],
        repeaters: vec![[0, 0, 1]],
        ..Plan::default()
    }
}

/// The same with no weight behind the repeater: twice sink 0, so 292 with size 0 and 404 with size 1, whatever width segment 1 has.
pub fn weightless_behind() -> Plan {
    let mut plan = one_repeater();
    plan.segments[1].weight = 0;
    plan
}

/// The same with segment 1 at width 0 alone and a sink of capacitance 11 and weight 4 there, so that both sizes tie. The load of
/// the branch is 13 and segment 1 adds 4 × (1 + 11) = 48.
///
/// - Size 0: sink 0 has 146, the repeater adds 10 × (1 + 13) = 140, sink 1 has 334, and 2 × (146 + 4 × 334) = 2,964.
/// - Size 1: sink 0 has 202, the repeater adds 5 × (1 + 13) = 70, sink 1 has 320, and 2 × (202 + 4 × 320) = 2,964.
pub fn tied_repeater() -> Plan {
    let mut plan = one_repeater();
    plan.segments[1] = segment_with_sink(1, 1, 11, 4, [0, 0]);
    plan
}

/// A repeater behind a repeater: the first, at segment 0, drives the branches 1 and 3, the second, at segment 1, drives segment 2.
/// Resistances and capacitances of segments 0 to 3 are 2, 1, 2, 3. With the repeaters at sizes 0 or 1, in order:
///
/// | | (0, 0) | (1, 0) | (0, 1) | (1, 1) |
/// |---|---|---|---|---|
/// | the stage: 3 × (1 + 2 + gate of the first) | 15 | 24 | 15 | 24 |
/// | segment 0: 2 × (1 + gate of the first) | 6 | 12 | 6 | 12 |
/// | load of branch 1: wire, sink, gate of the second | 1 + 3 + 2 = 6 | 6 | 1 + 3 + 5 = 9 | 9 |
/// | load of branch 3: wire, sink | 3 + 6 = 9 | 9 | 9 | 9 |
/// | the first repeater | 3 × (1 + 15) = 48 | 2 × (4 + 15) = 38 | 3 × (1 + 18) = 57 | 2 × (4 + 18) = 44 |
/// | segment 1: 1 × (1/2 + sink + gate of the second) | 5.5 | 5.5 | 8.5 | 8.5 |
/// | **sink 1** | 74.5 | 79.5 | 86.5 | 88.5 |
/// | the second repeater: its branch has 2 + 4 | 3 × (1 + 6) = 21 | 21 | 2 × (4 + 6) = 20 | 20 |
/// | **sink 2**: segment 2 adds 2 × (1 + 4) = 10 | 105.5 | 110.5 | 116.5 | 118.5 |
/// | **sink 3**: segment 3 adds 3 × (3/2 + 6) = 22.5 | 91.5 | 96.5 | 100.5 | 102.5 |
/// | scaled: 2 × (sink 1 + 2 × sink 2 + sink 3) | 754 | 794 | 840 | 856 |
///
/// The load figure at the first: wires 2 + 1 + 2 + 3, sinks 3 + 4 + 6, output 1 of the stage, twice gate 2 and output 1: 28.
pub fn two_repeaters() -> Plan {
    Plan {
        widths: vec![[1, 1]],
        sizes: vec![[3, 2, 1], [2, 5, 4]],
        stages: vec![[0, 0]],
        segments: vec![
            segment_without_sink(0, 2, [0, 0]),
            segment_with_sink(1, 1, 3, 1, [0, 0]),
            segment_with_sink(2, 2, 4, 2, [0, 0]),
            segment_with_sink(1, 3, 6, 1, [0, 0]),
        ],
        repeaters: vec![[0, 0, 1], [1, 0, 1]],
        ..Plan::default()
    }
}

/// The worked jobs with repeaters.
pub fn with_repeaters() -> Vec<Plan> {
    vec![one_repeater(), weightless_behind(), tied_repeater(), two_repeaters()]
}

/// The job of a plan with some bytes replaced, each given by its record and where it stands there.
fn with_bytes(plan: &Plan, bytes: &[(usize, usize, u8)]) -> Vec<u8> {
    let mut job = plan.bytes();
    bytes.iter().for_each(|&(record, at, byte)| job[16 * record + at] = byte);
    job
}

/// Jobs with repeaters, each with its number: those that pass, one of them with its last record taken for a weight;
/// question 22 in each of its ways, 23 in both, 22 before 23, 11 before 22, and 2, 3, 4 and 5 where repeaters change them.
pub fn repeated() -> Vec<(Vec<u8>, u64)> {
    // segments are the records 4 to 7, repeaters 8 and 9
    let with = |bytes: &[(usize, usize, u8)]| with_bytes(&two_repeaters(), bytes);
    let mut nine = two_repeaters();
    nine.repeaters = vec![[0, 0, 1]; 9];
    vec![
        (one_repeater().bytes(), 0),
        (with(&[]), 0),
        (with(&[(9, 2, 4)]), 22),
        (with(&[(9, 2, 2)]), 22),
        (with(&[(9, 2, 0)]), 22),
        (with(&[(8, 2, 1), (9, 2, 0)]), 22),
        (with(&[(9, 3, 1), (9, 4, 0)]), 23),
        (with(&[(9, 4, 2)]), 23),
        (with(&[(9, 2, 4), (8, 4, 2)]), 22),
        (with(&[(7, 3, 0), (7, 8, 0), (7, 12, 0), (9, 2, 4), (9, 4, 2)]), 11),
        (with(&[(9, 0, 6)]), 0),
        (with(&[(9, 0, 4)]), 2),
        (nine.bytes(), 3),
        (with(&[(9, 1, 0)]), 4),
        (with(&[(8, 5, 1)]), 5),
    ]
}

/// A plan with weights, given with their segments.
fn weighing(mut plan: Plan, weights: &[(u8, PlannedWeight)]) -> Plan {
    plan.weights = weights.to_vec();
    plan
}

/// J1 with a weight record: its delays are 208 and 206 times the count, and as they are where the weight is absent.
pub fn weighed_j1(weight: PlannedWeight) -> Plan {
    weighing(j1(), &[(0, weight)])
}

/// J5 with the weights 2 and 1 in place of 1 and 2. The stage adds 1 × 9, segment 0 adds 1 × (1/2 + 8), segment 1 adds 2 × (1 + 1)
/// and segment 2 adds 3 × (3/2 + 2), so the sinks have 21.5 and 28, and 2 × (2 × 21.5 + 28) = 142.
pub fn weighed_j5() -> Plan {
    weighing(
        j5(),
        &[(1, PlannedWeight::Fraction(fraction(2))), (2, PlannedWeight::Whole(1))],
    )
}

/// The job with one repeater and the weights 3 and 2, with sink 0 and sink 1 as in its table: 2 × (3 × 146 + 2 × 236) = 1,820,
/// 2 × (3 × 146 + 2 × 237) = 1,824, 2 × (3 × 202 + 2 × 257) = 2,240 and 2 × (3 × 202 + 2 × 253) = 2,224.
pub fn weighed_repeater() -> Plan {
    weighing(
        one_repeater(),
        &[(0, PlannedWeight::Whole(3)), (1, PlannedWeight::Fraction(fraction(2)))],
    )
}

/// The job with two repeaters, with the weight 128 at sink 1, 3 at sink 2, and the own 1 at sink 3. With both repeaters at size 0
/// the sinks have 74.5, 105.5 and 91.5, and 2 × (128 × 74.5 + 3 × 105.5 + 91.5) = 19,888. Segments are the records 4 to 7,
/// repeaters 8 and 9, weights 10 to 12.
pub fn three_weights() -> Plan {
    let half = PlannedWeight::Fraction(fraction(128));
    weighing(
        two_repeaters(),
        &[(1, half), (2, PlannedWeight::Whole(3)), (3, PlannedWeight::Absent)],
    )
}

/// The worked jobs with weights: each form, a tie with counts, no count and a layer of its own among them.
pub fn with_weights() -> Vec<Plan> {
    let half = PlannedWeight::Fraction(fraction(128));
    let j1_weights = [
        PlannedWeight::Absent,
        PlannedWeight::Whole(3),
        PlannedWeight::Fraction(fraction(2)),
        PlannedWeight::Fraction(MINUS_ZERO),
    ];
    let others = [
        weighing(j2(), &[(0, half)]),
        weighing(j3(), &[(0, PlannedWeight::Fraction(fraction(255)))]),
        weighing(j4(), &[(0, PlannedWeight::Whole(0))]),
        weighed_j5(),
        weighing(on_layer(1), &[(0, half)]),
        weighed_repeater(),
        weighing(weightless_behind(), &[(1, half)]),
        weighing(tied_repeater(), &[(1, PlannedWeight::Absent)]),
        three_weights(),
    ];
    j1_weights.map(weighed_j1).into_iter().chain(others).collect()
}

/// Jobs with weights, each with its number: two that pass, question 20 in each of its ways, 21 in each of its ways, 20 before 21
/// in either order of the records, 11, 22 and 23 before both, and 2, 4 and 5 where weights change them.
pub fn weighed() -> Vec<(Vec<u8>, u64)> {
    // the fraction 1/2 has the bytes 0xe0 and 0x3f last
    let with = |bytes: &[(usize, usize, u8)]| with_bytes(&three_weights(), bytes);
    vec![
        (with(&[]), 0),
        (with(&[(10, 14, 0), (10, 15, 0x80)]), 0),
        (with(&[(12, 1, 4)]), 20),
        (with(&[(10, 1, 0)]), 20),
        (with(&[(12, 2, 3)]), 20),
        (with(&[(11, 5, 1)]), 20),
        (with(&[(10, 14, 0xf8), (10, 15, 0x7f)]), 21),
        (with(&[(10, 14, 0xf0), (10, 15, 0x7f)]), 21),
        (with(&[(10, 15, 0xbf)]), 21),
        (with(&[(10, 8, 1), (10, 14, 0), (10, 15, 0)]), 21),
        (with(&[(10, 14, 0xf0)]), 21),
        (with(&[(10, 8, 1)]), 21),
        (with(&[(10, 14, 0x60)]), 21),
        (with(&[(10, 8, 1), (12, 2, 3)]), 20),
        (with(&[(10, 1, 0), (12, 2, 2), (12, 8, 1)]), 20),
        (with(&[(7, 3, 0), (7, 8, 0), (7, 12, 0), (10, 8, 1)]), 11),
        (with(&[(9, 2, 4), (10, 8, 1), (12, 2, 3)]), 22),
        (with(&[(9, 4, 2), (10, 8, 1), (12, 2, 3)]), 23),
        (with(&[(12, 0, 7)]), 2),
        (with(&[(12, 0, 5)]), 2),
        (with(&[(12, 1, 2)]), 4),
        (with(&[(10, 1, 2), (11, 1, 1)]), 4),
        (with(&[(10, 3, 1)]), 5),
        (with(&[(10, 4, 1)]), 5),
        (with(&[(11, 8, 1)]), 5),
        (with(&[(12, 4, 1)]), 5),
        (with(&[(12, 2, 3), (12, 15, 1)]), 5),
    ]
}

/// The depth of a segment in a tree where segment s has the branches 2s + 1 and 2s + 2.
fn depth(segment: usize) -> usize {
    (segment + 1).ilog2() as usize
}

/// One segment of the clock net: shorter by the level, with sinks at the leaves and at the taps one level above.
fn clock_segment(segment: usize) -> PlannedSegment {
    let parent = if segment == 0 { 0 } else { (segment - 1) / 2 + 1 } as u8;
    let level = depth(segment);
    let length = [80, 60, 40, 24, 12, 6][level];
    let weight = [1, 2, 4, 8, 3, 12, 20][segment % 7];
    match level {
        5 => segment_with_sink(parent, length, 215 + (segment as u32 * 37) % 90, weight, [0, 3]),
        4 => segment_with_sink(parent, length, 71, weight, [0, 3]),
        _ => segment_without_sink(parent, length, [0, 3]),
    }
}

/// A clock net: three stages, a tree of 63 segments on six levels, and 48 sinks of different weights.
pub fn clock() -> Plan {
    Plan {
        widths: vec![[80, 5], [40, 8], [20, 14], [10, 24]],
        sizes: vec![
            [68_500, 53, 26],
            [22_833, 159, 79],
            [7_611, 477, 238],
            [2_537, 1_431, 715],
            [845, 4_293, 2_146],
        ],
        stages: vec![[0, 0], [0, 4], [0, 4]],
        segments: (0..63).map(clock_segment).collect(),
        ..Plan::default()
    }
}
