//! Generators of valid jobs, sizings, places and buffers.

use crate::fractions::{MINUS_ZERO, fraction};
use crate::plan::{Plan, PlannedSegment, PlannedWeight, segment_with_sink, segment_without_sink};
use crate::questions::{MOST_PLACES, MOST_UNREPEATED};
use crate::random::Random;

/// The shapes of a tree of segments.
#[derive(Clone, Copy, Debug)]
pub enum Shape {
    Chain,
    Star,
    Binary,
    Comb,
    Any,
}

/// All shapes.
pub const SHAPES: [Shape; 5] = [Shape::Chain, Shape::Star, Shape::Binary, Shape::Comb, Shape::Any];

/// The shapes in which some of many segments have branches.
const BRANCHING: [Shape; 4] = [Shape::Chain, Shape::Binary, Shape::Comb, Shape::Any];

/// The parent byte of a segment in a tree of a shape.
pub fn parent_byte(random: &mut Random, shape: Shape, segment: usize) -> u8 {
    let parent = match shape {
        Shape::Chain => segment,
        Shape::Star => 0,
        Shape::Binary => segment.div_ceil(2),
        Shape::Comb if segment % 2 == 1 => segment,
        Shape::Comb => segment.saturating_sub(1),
        Shape::Any => random.below(segment + 1),
    };
    parent as u8
}

/// Different numbers from `low` to `high` in rising order, close together or spread out.
fn rising(random: &mut Random, count: usize, low: u32, high: u32) -> Vec<u32> {
    let most_step = if random.once_in(3) {
        (high - low) / count as u32
    } else {
        3.min((high - low) / count as u32)
    };
    let mut numbers = Vec::new();
    let mut at = low + random.between(0, most_step.max(1) - 1);
    for _ in 0..count {
        numbers.push(at);
        at += random.between(1, most_step.max(1));
    }
    numbers
}

/// Pairs with falling resistance and rising capacitance, often with equal products.
fn table(random: &mut Random, count: usize, high: u32) -> Vec<[u32; 2]> {
    if count <= 4 && random.once_in(3) {
        let scale = if random.once_in(2) { 1 } else { random.between(1, high / 8) };
        let start = random.below(5 - count);
        return (start..start + count).map(|i| [(8 >> i) * scale, (1 << i) * scale]).collect();
    }
    let resistances = rising(random, count, 1, high);
    let capacitances = rising(random, count, 1, high);
    (0..count).map(|i| [resistances[count - 1 - i], capacitances[i]]).collect()
}

/// A range within the first `count` indices: all of them, one, or some.
fn range(random: &mut Random, count: usize) -> [u8; 2] {
    let (a, b) = (random.below(count) as u8, random.below(count) as u8);
    match random.below(4) {
        0 | 1 => [0, count as u8 - 1],
        2 => [a, a],
        _ => [a.min(b), a.max(b)],
    }
}

/// Narrows the ranges of random places until at most `most` sizings are allowed.
fn narrow(random: &mut Random, plan: &mut Plan, most: u128) {
    while plan.allowed_sizings() > most {
        let place = random.below(plan.places());
        let [lowest, highest] = plan.ranges()[place];
        if lowest < highest {
            let narrower = if random.once_in(2) {
                [lowest + 1, highest]
            } else {
                [lowest, highest - 1]
            };
            plan.set_range(place, narrower);
        }
    }
}

/// A weight by the manner of its job: all 0, all equal, some 0, small, or any.
fn weight(random: &mut Random, manner: usize) -> u8 {
    match manner {
        0 => 0,
        1 => 1,
        2 => random.pick(&[0, 0, 1, 2]),
        3 => random.between(0, 4) as u8,
        _ => random.byte(),
    }
}

/// The tree of a plan: segments of one shape, with a sink at every end and here and there between.
fn plant(random: &mut Random, plan: &mut Plan, shape: Shape, count: usize, large: bool) {
    let parents: Vec<u8> = (0..count).map(|segment| parent_byte(random, shape, segment)).collect();
    let manner = random.pick(&[0, 1, 1, 2, 2, 3, 3, 3, 4, 4]);
    for (segment, &parent) in parents.iter().enumerate() {
        let length = if large {
            random.between(1, 1_000)
        } else {
            random.between(1, 3)
        };
        let range = range(random, plan.widths.len());
        let is_end = !parents.contains(&(segment as u8 + 1));
        plan.segments.push(if is_end || random.once_in(3) {
            let capacitance = if large {
                random.between(0, 100_000)
            } else {
                random.between(0, 6)
            };
            segment_with_sink(parent, length, capacitance, weight(random, manner), range)
        } else {
            segment_without_sink(parent, length, range)
        });
    }
}

/// A valid job's plan with a given number of segments and at most `most` allowed sizings, in one of these shapes.
fn plan_in(random: &mut Random, shapes: &[Shape], segments: usize, most: u128) -> Plan {
    let shape = random.pick(shapes);
    let large = random.once_in(4);
    let width_count = random.pick(&[1, 2, 2, 3, 3, 4, 4, 5, 8]);
    let size_count = random.pick(&[1, 2, 2, 3, 3, 4, 4, 6, 16]);
    let widths = table(random, width_count, if large { 100 } else { 32 });
    let sizes = table(random, size_count, if large { 100_000 } else { 48 });
    let outputs = if large { 100_000 } else { 4 };
    let sizes = sizes
        .iter()
        .map(|&[resistance, gate]| [resistance, gate, random.between(0, outputs)])
        .collect();
    let fixed = random.below(size_count) as u8;
    let stage_count = random.pick(&[1, 1, 2, 2, 3, 4]);
    let mut plan = Plan {
        widths,
        sizes,
        stages: vec![[fixed, fixed]],
        segments: Vec::new(),
        ..Plan::default()
    };
    for _ in 1..stage_count {
        plan.stages.push(range(random, size_count));
    }
    plant(random, &mut plan, shape, segments, large);
    narrow(random, &mut plan, most);
    plan
}

/// Different numbers from 1 to `high` in rising order, without any rule.
fn scattered(random: &mut Random, count: usize, high: u32) -> Vec<u32> {
    let mut numbers = Vec::new();
    while numbers.len() < count {
        let number = random.between(1, high);
        if !numbers.contains(&number) {
            numbers.push(number);
        }
    }
    numbers.sort();
    numbers
}

/// Adds a segment that has a sink and is free in every width of its plan.
fn push_with_sink(plan: &mut Plan, parent: u8, length: u32, capacitance: u32, weight: u8) {
    let widest = plan.widths.len() as u8 - 1;
    plan.segments
        .push(segment_with_sink(parent, length, capacitance, weight, [0, widest]));
}

/// A plan of coarse tables and several free stages, where stages and widths pull each other and the bounds stay apart.
pub fn pulling_plan(random: &mut Random, most: u128) -> Plan {
    let (width_count, size_count) = (random.between(2, 4) as usize, random.between(2, 4) as usize);
    let high = random.pick(&[8, 20, 100]);
    let resistances = scattered(random, width_count, high.min(20));
    let capacitances = scattered(random, width_count, high.min(20));
    let drives = scattered(random, size_count, high);
    let gates = scattered(random, size_count, high);
    let fixed = random.below(size_count) as u8;
    let mut plan = Plan {
        stages: vec![[fixed, fixed]],
        ..Plan::default()
    };
    plan.widths = (0..width_count)
        .map(|i| [resistances[width_count - 1 - i], capacitances[i]])
        .collect();
    plan.sizes = (0..size_count)
        .map(|i| [drives[size_count - 1 - i], gates[i], random.between(0, 3)])
        .collect();
    plan.stages
        .extend(vec![[0, size_count as u8 - 1]; random.pick(&[1, 2, 3, 3])]);
    let shape = random.pick(&SHAPES);
    for segment in 0..random.between(1, 4) as usize {
        let (parent, length) = (parent_byte(random, shape, segment), random.between(1, 2));
        let (capacitance, weight) = (random.between(0, 6), random.pick(&[0, 1, 1, 1, 2]));
        push_with_sink(&mut plan, parent, length, capacitance, weight);
    }
    narrow(random, &mut plan, most);
    plan
}

/// The driver resistance at which two neighbouring widths tie in a star of `count` equal segments, if it is a whole one.
fn tying_resistance(widths: [[u32; 2]; 2], length: u32, capacitance: u32, count: u32) -> Option<u32> {
    let [[r, c], [s, d]] = widths;
    let narrower = r * (length * c + 2 * capacitance);
    let wider = s * (length * d + 2 * capacitance);
    let difference = narrower.checked_sub(wider)?;
    let divisor = 2 * count * (d - c);
    if difference % divisor == 0 && (1..=100_000).contains(&(difference / divisor)) {
        Some(difference / divisor)
    } else {
        None
    }
}

/// A plan of `count` equal segments at the source, each of which ties between two widths, behind one or more fixed or free stages.
pub fn tied_star(random: &mut Random, count: usize) -> Plan {
    loop {
        let widths = table(random, 2, 32);
        let (length, capacitance) = (random.between(1, 3), random.between(0, 99));
        let weight = random.between(1, 3) as u8;
        if let Some(resistance) = tying_resistance([widths[0], widths[1]], length, capacitance, count as u32) {
            let sizes = vec![[resistance + 9, 2, 1], [resistance, 5, 0]];
            let mut stages = vec![[1, 1]];
            for _ in 0..random.below(4) {
                let last = stages.len() - 1;
                stages[last] = if last == 0 || random.once_in(2) {
                    stages[last]
                } else {
                    [0, 1]
                };
                stages.push([1, 1]);
            }
            let segments = vec![segment_with_sink(0, length, capacitance, weight, [0, 1]); count];
            return Plan {
                widths,
                sizes,
                stages,
                segments,
                ..Plan::default()
            };
        }
    }
}

/// A tied star in which some segments differ from the rest in length, sink or range.
pub fn nearly_tied_plan(random: &mut Random, most: u128) -> Plan {
    let count = random.between(1, 7) as usize;
    let mut plan = tied_star(random, count);
    for segment in 1..count {
        match random.below(8) {
            0 => plan.segments[segment].length += 1,
            1 => plan.segments[segment].capacitance += 1,
            2 => plan.segments[segment].lowest = 1,
            3 => plan.segments[segment].highest = 0,
            _ => {}
        }
    }
    narrow(random, &mut plan, most);
    plan
}

/// Gives a plan a second layer, with the rows of the first or with its own, and puts some of its segments on it, all or none.
fn add_layer(random: &mut Random, plan: &mut Plan) {
    let same = random.once_in(3);
    plan.thick = if same {
        plan.widths.clone()
    } else {
        let count = random.pick(&[1, 2, 2, 3, 4, 8]);
        table(random, count, 32)
    };
    let one_in = random.pick(&[1, 2, 2, 2, 3, usize::MAX]);
    for segment in 0..plan.segments.len() {
        if random.once_in(one_in) {
            plan.segments[segment].layer = 1;
            if !same {
                let range = range(random, plan.thick.len());
                plan.set_range(plan.stages.len() + segment, range);
            }
        }
    }
}

/// A small valid job's plan: of any kind, with stages and widths that pull each other, or with ties; with one layer or two.
pub fn small_plan(random: &mut Random, most: u128) -> Plan {
    let segments = random.pick(&[1, 1, 2, 2, 3, 3, 4, 4, 5, 5, 6, 7, 9, 12]);
    let mut plan = match random.below(4) {
        0 | 1 => plan_in(random, &SHAPES, segments, most),
        2 => pulling_plan(random, most),
        _ => nearly_tied_plan(random, most),
    };
    if random.once_in(2) {
        add_layer(random, &mut plan);
        narrow(random, &mut plan, most);
    }
    plan
}

/// A valid job's plan of 10 to 64 segments whose ranges are not narrowed, with one layer or two.
pub fn large_plan(random: &mut Random) -> Plan {
    let segments = random.between(10, 64) as usize;
    let mut plan = if random.once_in(2) {
        plan_in(random, &SHAPES, segments, u128::MAX)
    } else {
        geometric_plan(random, segments)
    };
    if random.once_in(2) {
        add_layer(random, &mut plan);
    }
    plan
}

/// Puts repeaters at some of the segments that have branches, once in three times at as many as there can be; once in four times
/// no sink behind one of them keeps a weight.
fn add_repeaters(random: &mut Random, plan: &mut Plan) {
    let mut sites = plan.sites();
    let most = sites.len().min(8);
    let count = if random.once_in(3) { most } else { random.below(most + 1) };
    while sites.len() > count {
        sites.remove(random.below(sites.len()));
    }
    for site in sites {
        let [lowest, highest] = range(random, plan.sizes.len());
        plan.repeaters.push([site, lowest, highest]);
    }
    if count > 0 && random.once_in(4) {
        let [site, ..] = random.pick(&plan.repeaters);
        clear_weights_below(plan, site);
    }
}

/// Takes the weights of all sinks below a segment away; its own keeps its weight.
fn clear_weights_below(plan: &mut Plan, segment: u8) {
    let mut parents = vec![segment + 1];
    for (number, below) in plan.segments.iter_mut().enumerate() {
        if parents.contains(&below.parent) {
            parents.push(number as u8 + 1);
            below.weight = 0;
        }
    }
}

/// The resistance upstream of a repeater at which two of its sizes tie, if it is a whole one: `weights` are those of all sinks and
/// of the sinks behind it, `load` is that of its branches.
fn tying_upstream(sizes: [[u32; 3]; 2], weights: [u32; 2], load: u32) -> Option<u32> {
    let [slower, faster] = sizes.map(|[resistance, _, output]| resistance * (output + load));
    let gain = weights[1] * slower.checked_sub(faster)?;
    let cost = weights[0] * (sizes[1][1] - sizes[0][1]);
    gain.is_multiple_of(cost).then_some(gain / cost)
}

/// A plan of one stage, a segment with a sink and a repeater that ties between two sizes, and up to three branches behind it. The
/// stage has a size of its own, before the two or behind them; every other time a repeater has it, behind another stage.
fn tied_repeater_plan(random: &mut Random) -> Plan {
    loop {
        let mut sizes: Vec<[u32; 3]> = table(random, 2, 48)
            .iter()
            .map(|&[resistance, gate]| [resistance, gate + 1, random.between(0, 4)])
            .collect();
        let width = [random.between(1, 4), random.between(1, 4)];
        let mut segments = vec![tied_segment(random, 0, 9, 0)];
        segments.extend((0..random.between(1, 3)).map(|_| tied_segment(random, 1, 60, 1)));
        let weight = |segments: &[PlannedSegment]| segments.iter().map(|segment| u32::from(segment.weight)).sum();
        let load = segments[1..]
            .iter()
            .map(|segment| segment.length * width[1] + segment.capacitance)
            .sum();
        let upstream = tying_upstream([sizes[0], sizes[1]], [weight(&segments), weight(&segments[1..])], load);
        let drive = upstream.and_then(|upstream| upstream.checked_sub(segments[0].length * width[0]));
        let (own, first) = match drive {
            Some(drive) if drive > sizes[0][0] => {
                sizes.insert(0, [drive, 1, 2]);
                (0, 1)
            }
            Some(drive) if (1..sizes[1][0]).contains(&drive) => {
                sizes.push([drive, sizes[1][1] + 1, 3]);
                (2, 0)
            }
            _ => continue,
        };
        let mut plan = Plan {
            widths: vec![width],
            sizes,
            stages: vec![[own, own]],
            segments,
            repeaters: vec![[0, first, first + 1]],
            ..Plan::default()
        };
        if random.once_in(2) {
            put_in_front(random, &mut plan);
        }
        return plan;
    }
}

/// A segment of one width with a sink of a capacitance up to `most` and a weight from `least` on.
fn tied_segment(random: &mut Random, parent: u8, most: u32, least: u32) -> PlannedSegment {
    let (length, capacitance) = (random.between(1, 3), random.between(0, most));
    segment_with_sink(parent, length, capacitance, random.between(least, 3) as u8, [0, 0])
}

/// Puts a stage and a segment in front of a plan of one stage, which becomes a repeater: free, or of its own size alone.
fn put_in_front(random: &mut Random, plan: &mut Plan) {
    let [own, _] = plan.stages[0];
    let last = plan.sizes.len() as u8 - 1;
    plan.segments.iter_mut().for_each(|segment| segment.parent += 1);
    plan.repeaters.iter_mut().for_each(|repeater| repeater[0] += 1);
    plan.segments.insert(0, tied_segment(random, 0, 9, 0));
    let [lowest, highest] = if random.once_in(2) { [own, own] } else { [0, last] };
    plan.repeaters.insert(0, [0, lowest, highest]);
    let size = random.pick(&[0, last]);
    plan.stages[0] = [size, size];
}

/// A small valid job's plan with up to eight repeaters: of any kind, in a chain with room for eight, with drivers and widths that
/// pull each other, each with one layer or two; or with a repeater that ties.
pub fn repeater_plan(random: &mut Random, most: u128) -> Plan {
    let segments = random.pick(&[2, 3, 3, 4, 4, 5, 5, 6, 7, 9, 12]);
    let mut plan = match random.below(8) {
        0..=3 => plan_in(random, &BRANCHING, segments, most),
        4 => plan_in(random, &[Shape::Chain], segments.max(9), most),
        5 | 6 => pulling_plan(random, most),
        _ => return tied_repeater_plan(random),
    };
    if random.once_in(2) {
        add_layer(random, &mut plan);
    }
    add_repeaters(random, &mut plan);
    narrow(random, &mut plan, most);
    plan
}

/// A valid job's plan of 10 to 64 segments with up to eight repeaters, whose ranges are not narrowed.
pub fn large_repeater_plan(random: &mut Random) -> Plan {
    let mut plan = large_plan(random);
    add_repeaters(random, &mut plan);
    plan
}

/// A weight that counts so much: a whole number or a fraction, for 0 now and then minus zero.
fn weight_of(random: &mut Random, count: u8) -> PlannedWeight {
    match random.below(3) {
        0 => PlannedWeight::Whole(count.into()),
        1 if count == 0 => PlannedWeight::Fraction(MINUS_ZERO),
        _ => PlannedWeight::Fraction(fraction(count)),
    }
}

/// Gives some sinks of a plan a weight record, often all and once in eight times none. It is absent, or it has a count. Once in three
/// times that is the own byte's, which is changed then, so that every delay stays.
fn add_weights(random: &mut Random, plan: &mut Plan) {
    let one_in = random.pick(&[1, 1, 1, 2, 2, 3, 4, usize::MAX]);
    let (keeps, manner) = (random.once_in(3), random.pick(&[0, 2, 2, 3, 3, 4, 4]));
    for (number, segment) in plan.segments.iter_mut().enumerate() {
        if segment.sink == 1 && random.once_in(one_in) {
            let count = if keeps { segment.weight } else { weight(random, manner) };
            let planned = if random.once_in(4) {
                PlannedWeight::Absent
            } else {
                weight_of(random, count)
            };
            if keeps && planned != PlannedWeight::Absent {
                segment.weight = random.byte();
            }
            plan.weights.push((number as u8, planned));
        }
    }
}

/// A small valid job's plan with weights, with repeaters or without.
pub fn weighed_plan(random: &mut Random, most: u128) -> Plan {
    let make = random.pick(&[small_plan, repeater_plan]);
    let mut plan = make(random, most);
    add_weights(random, &mut plan);
    plan
}

/// A valid job's plan of 10 to 64 segments with weights, with repeaters or without, whose ranges are not narrowed.
pub fn large_weighed_plan(random: &mut Random) -> Plan {
    let make = random.pick(&[large_plan, large_repeater_plan]);
    let mut plan = make(random);
    add_weights(random, &mut plan);
    plan
}

/// Gives every sink of a plan a weight record that leaves the weight as it is: each fourth segment's is absent, the others have the
/// weight, and the own byte is changed.
pub fn move_weights(random: &mut Random, plan: &mut Plan) {
    for (number, segment) in plan.segments.iter_mut().enumerate().filter(|(_, segment)| segment.sink == 1) {
        let weight = if number % 4 == 3 {
            PlannedWeight::Absent
        } else {
            let weight = weight_of(random, segment.weight);
            segment.weight ^= random.between(1, 255) as u8;
            weight
        };
        plan.weights.push((number as u8, weight));
    }
}

/// A plan of many segments in which resistance falls and capacitance rises by a factor from row to row, as in clock nets.
fn geometric_plan(random: &mut Random, segments: usize) -> Plan {
    let (factor, width_count) = (random.between(2, 4), random.between(2, 4));
    let (resistance, capacitance) = (random.between(48, 100), random.between(1, 6));
    let (drive, gate) = (random.between(10_000, 100_000), random.between(1, 60));
    let shape = random.pick(&[Shape::Binary, Shape::Binary, Shape::Any, Shape::Comb]);
    let mut plan = Plan {
        stages: vec![[0, 0], [0, 4], [0, 4]],
        ..Plan::default()
    };
    plan.widths = (0..width_count).map(|i| [resistance >> i, capacitance << i]).collect();
    plan.sizes = (0..5)
        .map(|i| [drive / factor.pow(i), gate * factor.pow(i), gate * factor.pow(i) / 2])
        .collect();
    for segment in 0..segments {
        let (parent, length) = (parent_byte(random, shape, segment), random.between(5, 80));
        let (capacitance, weight) = (random.between(100, 400), random.pick(&[1, 2, 3, 4, 8, 12, 20]));
        push_with_sink(&mut plan, parent, length, capacitance, weight);
    }
    plan
}

/// A job without weights whose room is all its allowed sizings, given as the count of indices at each free place.
pub fn weightless_plan(random: &mut Random, stage_counts: &[u8], segment_counts: &[u8]) -> Plan {
    let widths = (0..8).map(|i| [20 - i, 1 + i]).collect();
    let sizes = (0..16).map(|i| [90 - i, 1 + i, i]).collect();
    let mut plan = Plan {
        widths,
        sizes,
        stages: vec![[3, 3]],
        segments: Vec::new(),
        ..Plan::default()
    };
    plan.stages.extend(stage_counts.iter().map(|count| [0, count - 1]));
    let shape = random.pick(&SHAPES);
    for (segment, count) in segment_counts.iter().enumerate() {
        let parent = parent_byte(random, shape, segment);
        plan.segments.push(segment_with_sink(
            parent,
            random.between(1, 9),
            random.between(0, 9),
            0,
            [8 - count, 7],
        ));
    }
    plan
}

/// A job without weights in a chain, with repeaters at its first segments; the counts are those of `weightless_plan`, and the
/// repeaters'.
pub fn weightless_repeaters(random: &mut Random, stage_counts: &[u8], segment_counts: &[u8], repeater_counts: &[u8]) -> Plan {
    let mut plan = weightless_plan(random, stage_counts, segment_counts);
    for (number, segment) in plan.segments.iter_mut().enumerate() {
        segment.parent = number as u8;
    }
    plan.repeaters = (0..)
        .zip(repeater_counts)
        .map(|(site, count)| [site, 16 - count, 15])
        .collect();
    plan
}

/// A job without weights and with too much room to be searched.
pub fn roomy_plan(random: &mut Random) -> Plan {
    let free = random.between(9, 14) as usize;
    let counts: Vec<u8> = (0..free).map(|_| random.between(4, 8) as u8).collect();
    weightless_plan(random, &[], &counts)
}

/// Buffer bytes that are easy to tell from an answer.
pub fn marked(length: usize) -> Vec<u8> {
    (0..length).map(|i| 0xa0 | (i as u8 & 15)).collect()
}

/// An allowed sizing of a plan.
pub fn allowed_sizing(random: &mut Random, plan: &Plan) -> Vec<u8> {
    plan.ranges()
        .iter()
        .map(|&[lowest, highest]| random.between(lowest.into(), highest.into()) as u8)
        .collect()
}

/// Puts an index out of its range at a random place.
fn spoil(random: &mut Random, plan: &Plan, sizing: &mut [u8]) {
    let place = random.below(sizing.len());
    let [lowest, highest] = plan.ranges()[place];
    sizing[place] = random.pick(&[lowest.wrapping_sub(1), highest + 1, 255]);
}

/// A sizing of a plan: mostly allowed, else with an index out of range, too short, longer, or out of range and of another length.
pub fn any_sizing(random: &mut Random, plan: &Plan) -> Vec<u8> {
    let mut sizing = allowed_sizing(random, plan);
    if random.once_in(7) {
        spoil(random, plan, &mut sizing);
    }
    match random.below(8) {
        0 => {
            let length = random.pick(&[0, 1, sizing.len() - 1, sizing.len() - 1, sizing.len() / 2]);
            sizing.truncate(length);
        }
        1 | 2 => {
            let extra = random.between(1, 9) as usize;
            sizing.extend(random.bytes(extra));
        }
        _ => {}
    }
    sizing
}

/// A place of a plan: mostly one of the P places, else at or behind the end; or at or behind the most that a plan without or with
/// repeaters can have.
pub fn any_place(random: &mut Random, plan: &Plan) -> usize {
    let places = plan.places();
    let most = if plan.repeaters.is_empty() {
        MOST_UNREPEATED
    } else {
        MOST_PLACES
    };
    let inside = random.below(places);
    let outside = [
        places,
        places + 1,
        most,
        most + 1,
        255,
        256,
        256 + inside,
        (1 << 32) + inside,
        (1 << 63) + inside,
        usize::MAX,
    ];
    if random.once_in(5) { random.pick(&outside) } else { inside }
}

/// A reply buffer: exact, one byte short, empty, too short, or longer.
pub fn any_reply(random: &mut Random, places: usize) -> Vec<u8> {
    let exact = 8 * (1 + places);
    let short = random.below(exact);
    let longer = exact + random.between(1, 40) as usize;
    let length = random.pick(&[exact, exact, exact, longer, longer, longer, exact - 1, exact - 8, 0, short]);
    marked(length)
}
