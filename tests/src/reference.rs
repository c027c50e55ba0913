//! The independent search: every operation from its definition, by walking each sink's path, through the repeaters on it, and
//! trying every sizing.

use crate::questions::{Net, Size, product, read};

/// The largest room that is searched.
pub const MOST_ROOM: u128 = 65_536;

/// The side from which a place is refined: the smallest best index is put there from below, the largest from above.
#[derive(Clone, Copy, PartialEq, Eq, Debug)]
pub enum Side {
    Below,
    Above,
}

/// What measure answers; delay and load are 0 where the number is not.
#[derive(Clone, Copy, PartialEq, Eq, Debug)]
pub struct Measured {
    pub number: u64,
    pub delay: u128,
    pub load: u128,
}

/// The best indices at a place: the smallest, the largest, and the delay of the sizing with a best one put there.
#[derive(Clone, Copy, PartialEq, Eq, Debug)]
pub struct Tie {
    pub lowest: u8,
    pub highest: u8,
    pub delay: u128,
}

/// What refine answers; a refusal has zeros beside its number.
#[derive(Clone, Copy, PartialEq, Eq, Debug)]
pub struct Refined {
    pub number: u64,
    pub tie: Tie,
}

/// Which of the two sizings choose hands back.
#[derive(Clone, Copy, PartialEq, Eq, Debug)]
pub enum Choice {
    None,
    First,
    Second,
}

/// The lower and the upper bound of a net.
#[derive(Clone, PartialEq, Eq, Debug)]
pub struct Bounds {
    pub lower: Vec<u8>,
    pub upper: Vec<u8>,
}

/// The least delay of a net, and the extremes of the sizings that have it.
#[derive(Clone, PartialEq, Eq, Debug)]
pub struct Least {
    pub delay: u128,
    pub lean: Vec<u8>,
    pub wide: Vec<u8>,
}

/// A way to find the bounds of a net and its least-delay sizings.
pub struct Way {
    pub bounds: fn(&Net) -> Bounds,
    pub least: fn(&Net, &Bounds) -> Least,
}

/// The way that tries every allowed sizing.
pub const EXHAUSTIVE: Way = Way {
    bounds: exhaustive_bounds,
    least: exhaustive_least,
};

/// The electrical figures of the tree under one sizing: each segment's wire and the load under it, and what the last stage and
/// each repeater drives.
struct Tree {
    resistance: Vec<u128>,
    capacitance: Vec<u128>,
    under: Vec<u128>,
    driven_by_stages: u128,
    driven_by_repeater: Vec<u128>,
}

/// The driver size that a sizing has at a stage's or a repeater's place.
fn size_at<'a>(net: &'a Net, sizing: &[u8], place: usize) -> &'a Size {
    &net.sizes[usize::from(sizing[place])]
}

/// The capacitance of the sink at the far end of a segment, 0 where there is none.
fn sink_capacitance(net: &Net, segment: usize) -> u128 {
    net.segments[segment]
        .sink
        .as_ref()
        .map_or(0, |sink| u128::from(sink.capacitance))
}

/// What hangs at the far end of a segment: its sink, and the gate of the repeater there.
fn hanging_at(net: &Net, sizing: &[u8], segment: usize) -> u128 {
    let gate = |repeater: usize| size_at(net, sizing, net.repeater_place(repeater)).gate;
    sink_capacitance(net, segment) + u128::from(net.repeaters[segment].map_or(0, gate))
}

/// The tree under one sizing. Repeaters cut it into parts, each with its driver: the load under a segment is of the segment's own
/// part, in which a repeater at its end shows its gate, and what a driver drives is its whole part.
fn tree(net: &Net, sizing: &[u8]) -> Tree {
    let count = net.segments.len();
    let row = |segment: usize| &net.widths[net.segments[segment].layer][usize::from(sizing[net.stages + segment])];
    let resistance: Vec<u128> = (0..count)
        .map(|s| u128::from(row(s).resistance * net.segments[s].length))
        .collect();
    let capacitance: Vec<u128> = (0..count)
        .map(|s| u128::from(row(s).capacitance * net.segments[s].length))
        .collect();
    let load: Vec<u128> = (0..count).map(|s| capacitance[s] + hanging_at(net, sizing, s)).collect();
    let driven = |driver: Option<usize>| (0..count).filter(|&s| net.drivers[s] == driver).map(|s| load[s]).sum();
    let seen = |from: usize| net.seen[from].iter().map(|&s| load[s]).sum::<u128>();
    Tree {
        under: (0..count).map(|s| seen(s) - capacitance[s]).collect(),
        driven_by_stages: driven(None),
        driven_by_repeater: (0..net.sites.len()).map(|r| driven(Some(r))).collect(),
        resistance,
        capacitance,
    }
}

/// What a driver adds to the delay: its resistance times its own output and what it drives.
fn driver_delay(size: &Size, driven: u128) -> u128 {
    u128::from(size.resistance) * (u128::from(size.output) + driven)
}

/// The delay of the chain of stages: each drives the next gate, the last drives the tree.
fn stages_delay(net: &Net, sizing: &[u8], tree: &Tree) -> u128 {
    let driven = |stage: usize| {
        if stage + 1 < net.stages {
            u128::from(size_at(net, sizing, stage + 1).gate)
        } else {
            tree.driven_by_stages
        }
    };
    (0..net.stages)
        .map(|stage| driver_delay(size_at(net, sizing, stage), driven(stage)))
        .sum()
}

/// What a repeater adds to the delay of each sink below it.
fn repeater_delay(net: &Net, sizing: &[u8], tree: &Tree, repeater: usize) -> u128 {
    let size = size_at(net, sizing, net.repeater_place(repeater));
    driver_delay(size, tree.driven_by_repeater[repeater])
}

/// Twice the delay of the path from the source to the sink of a segment: each segment on it, and each repeater between two of
/// them. A repeater at the far end of the last one is behind the sink.
fn doubled_path_delay(net: &Net, sizing: &[u8], tree: &Tree, segment: usize) -> u128 {
    let path = &net.paths[segment];
    let wires: u128 = path
        .iter()
        .map(|&s| tree.resistance[s] * (tree.capacitance[s] + 2 * tree.under[s]))
        .sum();
    let between = path[1..].iter().filter_map(|&s| net.repeaters[s]);
    let repeaters: u128 = between.map(|r| repeater_delay(net, sizing, tree, r)).sum();
    wires + 2 * repeaters
}

/// The scaled delay of an allowed sizing: twice the sum over the sinks of weight times delay.
pub fn scaled_delay(net: &Net, sizing: &[u8]) -> u128 {
    let tree = tree(net, sizing);
    let stages = stages_delay(net, sizing, &tree);
    let mut delay = 0;
    for (segment, of_segment) in net.segments.iter().enumerate() {
        if let Some(sink) = &of_segment.sink {
            delay += u128::from(sink.weight) * (2 * stages + doubled_path_delay(net, sizing, &tree, segment));
        }
    }
    delay
}

/// The load figure: all wires, all sinks, the gates of stages 1 and up, the outputs of all stages, and the gates and outputs of
/// all repeaters.
pub fn load_figure(net: &Net, sizing: &[u8]) -> u128 {
    let tree = tree(net, sizing);
    let wires: u128 = tree.capacitance.iter().sum();
    let sinks: u128 = (0..net.segments.len()).map(|s| sink_capacitance(net, s)).sum();
    let repeaters = net.repeater_place(0)..net.places();
    let gate = |place: usize| u128::from(size_at(net, sizing, place).gate);
    let output = |place: usize| u128::from(size_at(net, sizing, place).output);
    let gates: u128 = (1..net.stages).chain(repeaters.clone()).map(gate).sum();
    let outputs: u128 = (0..net.stages).chain(repeaters).map(output).sum();
    wires + sinks + gates + outputs
}

/// The tie at a place, the rest held: of all allowed indices those that give the smallest delay.
pub fn tie_at(net: &Net, sizing: &[u8], place: usize) -> Tie {
    let mut tried = sizing[..net.places()].to_vec();
    let mut delay_with = |index: u8| {
        tried[place] = index;
        scaled_delay(net, &tried)
    };
    let delays: Vec<(u8, u128)> = (net.ranges[place].lowest..=net.ranges[place].highest)
        .map(|index| (index, delay_with(index)))
        .collect();
    let delay = delays.iter().map(|(_, delay)| *delay).min().expect("a range holds an index");
    let best = || delays.iter().filter(|(_, d)| *d == delay).map(|(index, _)| *index);
    Tie {
        lowest: best().min().expect("a best index"),
        highest: best().max().expect("a best index"),
        delay,
    }
}

impl Tie {
    /// The end that refining from a side puts.
    pub fn end(self, side: Side) -> u8 {
        match side {
            Side::Below => self.lowest,
            Side::Above => self.highest,
        }
    }
}

/// Whether refining from a side leaves a sizing as it is at every place.
pub fn rests(net: &Net, sizing: &[u8], side: Side) -> bool {
    (0..net.places()).all(|place| tie_at(net, sizing, place).end(side) == sizing[place])
}

/// Every sizing from one to another, place by place, both included.
pub fn sizings_between(low: &[u8], high: &[u8]) -> Vec<Vec<u8>> {
    let mut sizings = vec![Vec::new()];
    for place in 0..low.len() {
        sizings = sizings
            .iter()
            .flat_map(|start: &Vec<u8>| (low[place]..=high[place]).map(move |index| [&start[..], &[index]].concat()))
            .collect();
    }
    sizings
}

/// At each place the smallest index that a list of sizings has there.
fn smallest(sizings: &[&Vec<u8>]) -> Vec<u8> {
    (0..sizings[0].len())
        .map(|place| sizings.iter().map(|sizing| sizing[place]).min().expect("a sizing"))
        .collect()
}

/// At each place the largest index that a list of sizings has there.
fn largest(sizings: &[&Vec<u8>]) -> Vec<u8> {
    (0..sizings[0].len())
        .map(|place| sizings.iter().map(|sizing| sizing[place]).max().expect("a sizing"))
        .collect()
}

/// The least delay of a list of sizings, and the extremes of those that have it.
pub fn least_of(net: &Net, sizings: &[Vec<u8>]) -> Least {
    let delays: Vec<u128> = sizings.iter().map(|sizing| scaled_delay(net, sizing)).collect();
    let delay = *delays.iter().min().expect("a sizing");
    let best: Vec<&Vec<u8>> = sizings
        .iter()
        .zip(&delays)
        .filter(|(_, d)| **d == delay)
        .map(|(sizing, _)| sizing)
        .collect();
    Least {
        delay,
        lean: smallest(&best),
        wide: largest(&best),
    }
}

/// The bounds by their definition: the extremes of all allowed sizings that refining leaves as they are.
pub fn exhaustive_bounds(net: &Net) -> Bounds {
    let allowed = sizings_between(&net.lowest(), &net.highest());
    let resting = |side: Side| allowed.iter().filter(|sizing| rests(net, sizing, side)).collect::<Vec<_>>();
    Bounds {
        lower: smallest(&resting(Side::Below)),
        upper: largest(&resting(Side::Above)),
    }
}

/// The least delay, lean and wide over all allowed sizings; the bounds are not used.
pub fn exhaustive_least(net: &Net, _bounds: &Bounds) -> Least {
    least_of(net, &sizings_between(&net.lowest(), &net.highest()))
}

/// Room: how many sizings lie between the bounds, which never cross.
pub fn room(bounds: &Bounds) -> u128 {
    product(
        bounds
            .lower
            .iter()
            .zip(&bounds.upper)
            .map(|(lower, upper)| u128::from(upper.checked_sub(*lower).expect("a lower bound at most the upper")) + 1),
    )
}

/// Questions 15 and 16 of a list of sizings: the number of the first no, or 0.
fn sizing_refusal(net: &Net, sizings: &[&[u8]]) -> u64 {
    if sizings.iter().any(|sizing| sizing.len() < net.places()) {
        return 15;
    }
    let fits = |sizing: &&[u8]| {
        net.ranges
            .iter()
            .zip(*sizing)
            .all(|(r, index)| (r.lowest..=r.highest).contains(index))
    };
    if sizings.iter().all(fits) { 0 } else { 16 }
}

/// The net of a job with allowed sizings, or the first number of the job's questions, 15 and 16 that refuses.
fn read_with_sizings(job: &[u8], sizings: &[&[u8]]) -> Result<Net, u64> {
    let net = read(job)?;
    match sizing_refusal(&net, sizings) {
        0 => Ok(net),
        number => Err(number),
    }
}

/// The operation measure.
pub fn measure(job: &[u8], sizing: &[u8]) -> Measured {
    match read_with_sizings(job, &[sizing]) {
        Err(number) => Measured {
            number,
            delay: 0,
            load: 0,
        },
        Ok(net) => Measured {
            number: 0,
            delay: scaled_delay(&net, sizing),
            load: load_figure(&net, sizing),
        },
    }
}

/// The operation refine.
pub fn refine(job: &[u8], sizing: &[u8], place: usize) -> Refined {
    let refused = |number| Refined {
        number,
        tie: Tie {
            lowest: 0,
            highest: 0,
            delay: 0,
        },
    };
    match read_with_sizings(job, &[sizing]) {
        Err(number) => refused(number),
        Ok(net) if place >= net.places() => refused(17),
        Ok(net) => Refined {
            number: 0,
            tie: tie_at(&net, sizing, place),
        },
    }
}

/// The operation choose.
pub fn choose(job: &[u8], x: &[u8], y: &[u8]) -> Choice {
    match read_with_sizings(job, &[x, y]) {
        Err(_) => Choice::None,
        Ok(net) if scaled_delay(&net, x) <= scaled_delay(&net, y) => Choice::First,
        Ok(_) => Choice::Second,
    }
}

/// The part of its sizing that choose hands back.
pub fn chosen<'a>(job: &[u8], x: &'a [u8], y: &'a [u8]) -> &'a [u8] {
    let part = match choose(job, x, y) {
        Choice::None => return &[],
        Choice::First => x,
        Choice::Second => y,
    };
    &part[..read(job).map_or(0, |net| net.places())]
}

/// Writes a reply: the delay's eight bytes, then a record for each place.
fn write_reply(reply: &mut [u8], delay: [u8; 8], bounds: &Bounds, lean: &[u8], wide: &[u8]) {
    reply[..8].copy_from_slice(&delay);
    for place in 0..lean.len() {
        let record = [bounds.lower[place], bounds.upper[place], lean[place], wide[place], 0, 0, 0, 0];
        reply[8 * (1 + place)..8 * (2 + place)].copy_from_slice(&record);
    }
}

/// The operation size, with the bounds and the least-delay sizings found in a given way.
pub fn size(job: &[u8], reply: &mut [u8], way: &Way) -> u64 {
    let net = match read(job) {
        Err(number) => return number,
        Ok(net) => net,
    };
    if reply.len() < 8 * (1 + net.places()) {
        return 12;
    }
    let bounds = (way.bounds)(&net);
    if room(&bounds) > MOST_ROOM {
        let unknown = vec![255; net.places()];
        write_reply(reply, [255; 8], &bounds, &unknown, &unknown);
        return 14;
    }
    let least = (way.least)(&net, &bounds);
    let delay = u64::try_from(least.delay).expect("a delay below 2^63");
    write_reply(reply, delay.to_le_bytes(), &bounds, &least.lean, &least.wide);
    0
}
