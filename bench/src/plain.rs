//! The same work in plain Rust: questions 1 to 11 and 20 to 24, delay, refining, bounds, search, reply.
//! Nothing is shared with the library. A job that passes the questions is read in place, through slices of its records.
//!
//! Three ways to go:
//! (a) as the library goes: the delay by a walk over the branches; both ends of the tie at a place, in one pass over its
//!     indices, by what it drives and the resistance upstream of it, which for one place are found in one pass over the
//!     tree; the search through the free places, with what the held ones give summed once; for the bounds and the search
//!     the places stand in driving order: stages, then each segment with its repeater behind it;
//! (b) the delay as in (a), and a whole delay for each index that is refined and for each sizing that is searched;
//! (c) the delay by one pass without recursion, and so at each index that is refined; the search through all places, in
//!     the order of (a), with the loads and the delay so far carried along.

/// A record of a job.
pub type Record = [u8; 16];

/// The most places, segments and repeaters of a job.
const PLACES: usize = 76;
const SEGMENTS: usize = 64;
const REPEATERS: usize = 8;

/// The most sizings that a search covers.
const ROOM: u64 = 65_536;

/// A job's records by kind, its widths by layer, and the weight of each segment's sink. Its places are the stages, the segments
/// and the repeaters.
#[derive(Clone, Copy)]
pub struct Net<'a> {
    pub layers: [&'a [Record]; 2],
    pub sizes: &'a [Record],
    pub stages: &'a [Record],
    pub segments: &'a [Record],
    pub repeaters: &'a [Record],
    pub weights: &'a [u8],
}

/// The first segment at each node and the next sibling of each segment; `segments.len()` where there is none.
pub struct Links {
    first: [usize; SEGMENTS + 1],
    next: [usize; SEGMENTS],
}

/// The end of a tie that refining takes.
#[derive(Clone, Copy, PartialEq, Eq)]
enum Side {
    Below,
    Above,
}

/// The smallest and the largest of the indices that cost least, and what they cost.
#[derive(Clone, Copy)]
struct Tie {
    lowest: u8,
    highest: u8,
    cost: u64,
}

impl Tie {
    /// Both ends among the indices from `low` to `high`, in one pass. They are kept as wide as a register meanwhile.
    #[inline(always)]
    fn among(low: u8, high: u8, mut cost: impl FnMut(u8) -> u64) -> Tie {
        let (mut lowest, mut highest) = (u64::from(low), u64::from(low));
        let mut least = cost(low);
        let mut k = low;
        while k < high {
            k += 1;
            let cost = cost(k);
            if cost < least {
                least = cost;
                lowest = k.into();
                highest = k.into();
            } else if cost == least {
                highest = k.into();
            }
        }
        Tie {
            lowest: lowest as u8,
            highest: highest as u8,
            cost: least,
        }
    }

    /// The end that a side takes.
    fn end(self, side: Side) -> u8 {
        match side {
            Side::Below => self.lowest,
            Side::Above => self.highest,
        }
    }
}

/// How to go.
#[derive(Clone, Copy, PartialEq, Eq)]
enum Way {
    AsLibrary,
    WholeDelays,
    Fastest,
}

fn word(record: &Record, at: usize) -> u64 {
    u32::from_le_bytes([record[at], record[at + 1], record[at + 2], record[at + 3]]).into()
}

/// The records of a kind that stand in front, and those behind them.
fn run(records: &[Record], kind: u8) -> (&[Record], &[Record]) {
    let end = records.iter().position(|r| r[0] != kind);
    records.split_at(end.unwrap_or(records.len()))
}

/// Is a byte from `least` to `most` in each record, and does it never fall from one to the next?
fn climbs(records: &[Record], at: usize, least: u8, most: u8) -> bool {
    let mut before = least;
    for record in records {
        if record[at] < before {
            return false;
        }
        before = record[at];
    }
    before <= most
}

fn in_order(records: &[Record]) -> bool {
    records.iter().enumerate().all(|(k, r)| usize::from(r[1]) == k)
}

fn falls(records: &[Record], at: usize) -> bool {
    records.windows(2).all(|w| word(&w[1], at) < word(&w[0], at))
}

fn rises(records: &[Record], at: usize) -> bool {
    records.windows(2).all(|w| word(&w[0], at) < word(&w[1], at))
}

fn table_in_order(records: &[Record]) -> bool {
    falls(records, 4) && rises(records, 8)
}

fn words_within(records: &[Record], at: usize, least: u64, most: u64) -> bool {
    records.iter().all(|r| (least..=most).contains(&word(r, at)))
}

fn ranges_within(records: &[Record], at: usize, count: usize) -> bool {
    records.iter().all(|r| r[at] <= r[at + 1] && usize::from(r[at + 1]) < count)
}

/// Are a segment's fields in range, capacitance and weight 0 where it has no sink, and its range within its layer's rows?
#[inline(always)]
fn fits(segment: &Record, layers: &[&[Record]; 2]) -> bool {
    let capacitance = word(segment, 8);
    segment[3] <= 1
        && (1..=1_000).contains(&word(segment, 4))
        && capacitance <= 100_000
        && (segment[3] != 0 || (capacitance == 0 && segment[12] == 0))
        && segment[13] <= segment[14]
        && usize::from(segment[14]) < layers[usize::from(segment[15])].len()
}

/// Questions 10 and 11 of the segments, whose first branches are given; each sink gets the weight byte of its segment. Not put
/// into the function that asks, where it would have no registers left.
#[inline(never)]
fn check_segments(
    segments: &[Record],
    first: &[usize],
    layers: &[&[Record]; 2],
    weights: &mut [u8; SEGMENTS],
) -> Result<(), usize> {
    let mut ends = true;
    for ((segment, &child), weight) in segments.iter().zip(first).zip(weights) {
        if !fits(segment, layers) {
            return Err(10);
        }
        *weight = segment[12];
        ends &= segment[3] != 0 || child < segments.len();
    }
    if ends { Ok(()) } else { Err(11) }
}

/// The forms of a weight record beside 0, which leaves the weight byte of its segment.
const WHOLE: u8 = 1;
const FRACTION: u8 = 2;

/// Are the bytes of a weight record that its form does not name zero?
fn named_alone(record: &Record) -> bool {
    record[3] == 0 && (record[2] == WHOLE || record[4..8] == [0; 4]) && (record[2] == FRACTION || record[8..] == [0; 8])
}

/// Is the segment of a weight record there and has it a sink, and are its form and its whole number in range?
fn weighs(record: &Record, segments: &[Record]) -> bool {
    segments.get(usize::from(record[1])).is_some_and(|segment| segment[3] != 0)
        && record[2] <= FRACTION
        && (record[2] != WHOLE || word(record, 4) <= 255)
}

/// The 256ths of a record's fraction, where they are a whole number from 0 to 255: others are changed where they are made a byte.
fn count_of(record: &Record) -> Option<u8> {
    let product = 256.0 * f64::from_bits(word(record, 8) | word(record, 12) << 32);
    let count = product as u8;
    (f64::from(count) == product).then_some(count)
}

/// Puts what the weight records say into the table of the sinks' weights; false where a fraction has no count.
fn read_weights(records: &[Record], weights: &mut [u8; SEGMENTS]) -> bool {
    for record in records {
        let weight = &mut weights[usize::from(record[1])];
        match record[2] {
            WHOLE => *weight = record[4],
            FRACTION => {
                let Some(count) = count_of(record) else {
                    return false;
                };
                *weight = count;
            }
            _ => (),
        }
    }
    true
}

/// Asks questions 1, 2, 24, 3 to 11, 22, 23, 20 and 21, in this order, links the segments and fills the table of the sinks'
/// weights; the number of the first question that the job fails is the error.
fn check<'a>(job: &'a [u8], links: &mut Links, weights: &'a mut [u8; SEGMENTS]) -> Result<Net<'a>, usize> {
    let (records, rest) = job.as_chunks::<16>();
    if job.is_empty() || !rest.is_empty() {
        return Err(1);
    }
    let (widths, records) = run(records, 1);
    let (sizes, records) = run(records, 2);
    let (stages, records) = run(records, 3);
    let (segments, records) = run(records, 4);
    let (repeaters, records) = run(records, 5);
    let (weight_records, records) = run(records, 6);
    if !records.is_empty() {
        return Err(2);
    }
    let (first, second) = widths.split_at(widths.iter().filter(|r| r[2] == 0).count());
    let top = u8::from(!second.is_empty());
    if !(climbs(widths, 2, 0, 1) && segments.iter().all(|r| r[15] <= top)) {
        return Err(24);
    }
    if !(1..=8).contains(&first.len())
        || second.len() > 8
        || !(1..=16).contains(&sizes.len())
        || !(1..=4).contains(&stages.len())
        || !(1..=SEGMENTS).contains(&segments.len())
        || repeaters.len() > REPEATERS
    {
        return Err(3);
    }
    if !(in_order(first) && in_order(second) && in_order(sizes) && in_order(stages) && in_order(segments) && in_order(repeaters))
        || !weight_records.windows(2).all(|w| w[0][1] < w[1][1])
    {
        return Err(4);
    }
    if !(widths.iter().all(|r| r[3] == 0 && r[12..] == [0; 4])
        && sizes.iter().all(|r| r[2..4] == [0; 2])
        && stages.iter().all(|r| r[4..] == [0; 12])
        && repeaters.iter().all(|r| r[5..] == [0; 11])
        && weight_records.iter().all(named_alone))
    {
        return Err(5);
    }
    if !(words_within(widths, 4, 1, 100)
        && words_within(widths, 8, 1, 100)
        && words_within(sizes, 4, 1, 100_000)
        && words_within(sizes, 8, 1, 100_000)
        && words_within(sizes, 12, 0, 100_000))
    {
        return Err(6);
    }
    if !(table_in_order(first) && table_in_order(second) && table_in_order(sizes)) {
        return Err(7);
    }
    if !ranges_within(stages, 2, sizes.len()) || stages[0][2] != stages[0][3] {
        return Err(8);
    }
    if !links.fill(segments) {
        return Err(9);
    }
    let layers = [first, second];
    check_segments(segments, &links.first[1..], &layers, weights)?;
    if !links.sited(repeaters, segments.len()) {
        return Err(22);
    }
    if !ranges_within(repeaters, 3, sizes.len()) {
        return Err(23);
    }
    if !weight_records.iter().all(|r| weighs(r, segments)) {
        return Err(20);
    }
    if !read_weights(weight_records, weights) {
        return Err(21);
    }
    Ok(Net {
        layers,
        sizes,
        stages,
        segments,
        repeaters,
        weights: &weights[..segments.len()],
    })
}

impl Links {
    fn new() -> Self {
        Links {
            first: [0; SEGMENTS + 1],
            next: [0; SEGMENTS],
        }
    }

    /// Links the segments, from the last to the first; false where the parent byte of one is above its own number.
    fn fill(&mut self, segments: &[Record]) -> bool {
        let n = segments.len();
        self.first[..=n].fill(n);
        for (j, record) in segments.iter().enumerate().rev() {
            let node = usize::from(record[2]);
            if node > j {
                return false;
            }
            self.next[j] = self.first[node];
            self.first[node] = j;
        }
        true
    }

    /// Is the segment of each repeater one of the n, has it branches, and do the segment numbers strictly rise? `before` is the
    /// node at the far end of the segment before, and 0 before the first.
    fn sited(&self, repeaters: &[Record], n: usize) -> bool {
        let mut before = 0;
        for repeater in repeaters {
            let site = usize::from(repeater[2]);
            let node = site + 1;
            if site >= n || self.first[node] >= n || node <= before {
                return false;
            }
            before = node;
        }
        true
    }
}

/// The wire of a segment, whatever its width: the rows of its layer, and its length.
#[derive(Clone, Copy)]
struct Wire<'a> {
    rows: &'a [Record],
    length: u64,
}

/// A segment at its width: the weight and the capacitance of its sink, and the resistance and the capacitance of its wire.
#[derive(Clone, Copy, Default)]
struct Sized {
    weight: u64,
    sink: u64,
    resistance: u64,
    capacitance: u64,
}

/// A part of the tree: the weight of its sinks, its load as seen from above, and the scaled delay that arises inside it.
#[derive(Clone, Copy, Default)]
struct Part {
    weight: u64,
    load: u64,
    delay: u64,
}

impl Part {
    /// Joins a segment with what hangs at its far end.
    #[inline(always)]
    fn join(&mut self, segment: Sized, hanging: Part) {
        let weight = segment.weight + hanging.weight;
        let under = segment.sink + hanging.load;
        self.weight += weight;
        self.load += segment.capacitance + under;
        self.delay += weight * (segment.resistance * (segment.capacitance + 2 * under)) + hanging.delay;
    }
}

/// The indices of a sizing, by kind of place.
struct Indices<'x> {
    stages: &'x [u8],
    segments: &'x [u8],
    repeaters: &'x [u8],
}

impl<'a> Net<'a> {
    fn places(&self) -> usize {
        self.stages.len() + self.segments.len() + self.repeaters.len()
    }

    /// The segment that a place is; none where it is a driver.
    fn segment_at(&self, p: usize) -> Option<&'a Record> {
        self.segments.get(p.checked_sub(self.stages.len())?)
    }

    /// The wire of a segment.
    fn wire(&self, segment: &Record) -> Wire<'a> {
        Wire {
            rows: self.layers[usize::from(segment[15])],
            length: word(segment, 4),
        }
    }

    /// The weight of the sink of the segment that a place is; none where it is a driver.
    fn sink_weight_at(&self, p: usize) -> Option<u64> {
        self.weights
            .get(p.checked_sub(self.stages.len())?)
            .map(|&weight| weight.into())
    }

    /// A segment whose sink has a weight, at the width k.
    #[inline(always)]
    fn sized(&self, segment: &Record, weight: u8, k: u8) -> Sized {
        let Wire { rows, length } = self.wire(segment);
        let row = &rows[usize::from(k)];
        Sized {
            weight: weight.into(),
            sink: word(segment, 8),
            resistance: word(row, 4) * length,
            capacitance: word(row, 8) * length,
        }
    }

    /// The wire of a place that is a segment.
    fn wire_at(&self, p: usize) -> Option<Wire<'a>> {
        self.segment_at(p).map(|segment| self.wire(segment))
    }

    /// The lowest and the highest index of a place.
    fn range(&self, p: usize) -> (u8, u8) {
        if let Some(stage) = self.stages.get(p) {
            return (stage[2], stage[3]);
        }
        let i = p - self.stages.len();
        match self.segments.get(i) {
            Some(segment) => (segment[13], segment[14]),
            None => {
                let repeater = &self.repeaters[i - self.segments.len()];
                (repeater[3], repeater[4])
            }
        }
    }

    /// The index of a place at which refining from a side starts.
    fn first_index(&self, p: usize, side: Side) -> u8 {
        let (lowest, highest) = self.range(p);
        if side == Side::Below { lowest } else { highest }
    }

    /// The indices of a sizing that has one for each place, and may have more.
    fn by_kind<'x>(&self, sizing: &'x [u8]) -> Indices<'x> {
        let (stages, sizing) = sizing.split_at(self.stages.len());
        let (segments, sizing) = sizing.split_at(self.segments.len());
        Indices {
            stages,
            segments,
            repeaters: &sizing[..self.repeaters.len()],
        }
    }

    /// Branches seen from before their repeater, which has the size k: the load is its gate. Beside them what it charges.
    fn through_repeater(&self, k: u8, branches: Part) -> (Part, u64) {
        let size = &self.sizes[usize::from(k)];
        let charged = word(size, 12) + branches.load;
        let part = Part {
            weight: branches.weight,
            load: word(size, 8),
            delay: branches.delay + 2 * branches.weight * (word(size, 4) * charged),
        };
        (part, charged)
    }

    /// What all stages contribute to every sink, and what they charge: each its own output and what it drives.
    fn stages_figures(&self, sizes: &[u8], tree: u64) -> (u64, u64) {
        let (mut delay, mut load) = (0, 0);
        let mut driven = tree;
        for &k in sizes.iter().rev() {
            let size = &self.sizes[usize::from(k)];
            let charged = word(size, 12) + driven;
            delay += word(size, 4) * charged;
            load += charged;
            driven = word(size, 8);
        }
        (delay, load)
    }
}

/// What a walk over the branches reads: the segments at their widths, and what hangs behind the repeaters that are known.
struct Walk<'a> {
    links: &'a Links,
    seats: &'a [u8; SEGMENTS],
    segments: [Sized; SEGMENTS],
    parts: [Part; REPEATERS],
    count: usize,
}

impl Walk<'_> {
    /// What hangs at the far end of a segment: its branches, seen through the repeater where one sits there. Where it has no
    /// branches no call is made, because half of a tree's segments are such.
    #[inline(always)]
    fn hanging(&self, i: usize) -> Part {
        let child = self.links.first[i + 1];
        if child == self.count {
            return Part::default();
        }
        match self.parts.get(usize::from(self.seats[i])) {
            Some(&part) => part,
            None => self.branches(child),
        }
    }

    /// Segment j and its siblings after it, each with all below it.
    fn branches(&self, j: usize) -> Part {
        let mut part = Part::default();
        let mut i = j;
        while i < self.count {
            part.join(self.segments[i], self.hanging(i));
            i = self.links.next[i];
        }
        part
    }
}

/// A net with what whole delays need: its links, and of each segment the repeater at its far end, or the number past the last
/// that there can be.
struct Tree<'a> {
    net: &'a Net<'a>,
    links: &'a Links,
    seats: [u8; SEGMENTS],
}

impl<'a> Tree<'a> {
    fn new(net: &'a Net<'a>, links: &'a Links) -> Self {
        let mut seats = [REPEATERS as u8; SEGMENTS];
        for repeater in net.repeaters {
            seats[usize::from(repeater[2])] = repeater[1];
        }
        Tree { net, links, seats }
    }

    /// The whole tree by a walk over its branches, and what its repeaters charge. The repeaters come from the last to the first,
    /// so that each is known before the walk comes to its segment.
    fn by_walk(&self, x: &Indices) -> (Part, u64) {
        let mut walk = Walk {
            links: self.links,
            seats: &self.seats,
            segments: [Sized::default(); SEGMENTS],
            parts: [Part::default(); REPEATERS],
            count: self.net.segments.len(),
        };
        let segments = self.net.segments.iter().zip(self.net.weights);
        for ((sized, (segment, &weight)), &k) in walk.segments.iter_mut().zip(segments).zip(x.segments) {
            *sized = self.net.sized(segment, weight, k);
        }
        let mut charged = 0;
        for (r, (repeater, &k)) in self.net.repeaters.iter().zip(x.repeaters).enumerate().rev() {
            let branches = walk.branches(self.links.first[1 + usize::from(repeater[2])]);
            let (part, own) = self.net.through_repeater(k, branches);
            walk.parts[r] = part;
            charged += own;
        }
        (walk.branches(self.links.first[0]), charged)
    }

    /// The whole tree by one pass, from the last segment to the first, in runs that end before a repeater: the segment at whose
    /// far end it sits comes next, and its branches are seen through it.
    fn by_pass(&self, x: &Indices) -> (Part, u64) {
        let mut below = [(0, 0); SEGMENTS + 1];
        let mut part = Part::default();
        let mut charged = 0;
        let mut end = self.net.segments.len();
        for (repeater, &k) in self.net.repeaters.iter().zip(x.repeaters).rev() {
            let node = 1 + usize::from(repeater[2]);
            part.delay += self.pass(x, &mut below, node, end);
            (part.weight, part.load) = below[node];
            let own;
            (part, own) = self.net.through_repeater(k, part);
            charged += own;
            below[node].1 = part.load;
            end = node;
        }
        part.delay += self.pass(x, &mut below, 0, end);
        (part.weight, part.load) = below[0];
        (part, charged)
    }

    /// The segments from `start` to `end`, the end left out, from the last to the first: each adds its weight and load to its
    /// parent's. The answer is what they add to the delay.
    #[inline(always)]
    fn pass(&self, x: &Indices, below: &mut [(u64, u64); SEGMENTS + 1], start: usize, end: usize) -> u64 {
        let mut delay = 0;
        let run = self.net.segments[start..end].iter().zip(&self.net.weights[start..end]);
        for (i, ((segment, &own_weight), &k)) in run.zip(&x.segments[start..end]).enumerate().rev() {
            let Wire { rows, length } = self.net.wire(segment);
            let row = &rows[usize::from(k)];
            let own = word(row, 8) * length;
            let (weight, load) = below[start + i + 1];
            let weight = u64::from(own_weight) + weight;
            let under = word(segment, 8) + load;
            delay += weight * (word(row, 4) * length * (own + 2 * under));
            let parent = &mut below[usize::from(segment[2])];
            parent.0 += weight;
            parent.1 += own + under;
        }
        delay
    }

    /// The scaled delay and the load figure of a sizing: what its stages and its repeaters charge.
    fn figures<const PASS: bool>(&self, sizing: &[u8]) -> (u64, u64) {
        let x = self.net.by_kind(sizing);
        let (tree, charged) = if PASS { self.by_pass(&x) } else { self.by_walk(&x) };
        let (stages, load) = self.net.stages_figures(x.stages, tree.load);
        (tree.weight * (2 * stages) + tree.delay, load + charged)
    }

    /// The tie at a place, the rest held, by the whole delay at each index; its cost is the delay. x is left at some index.
    fn settle<const PASS: bool>(&self, x: &mut [u8], p: usize) -> Tie {
        let (lowest, highest) = self.net.range(p);
        Tie::among(lowest, highest, |k| {
            x[p] = k;
            self.figures::<PASS>(x).0
        })
    }

    /// The tie at a place of a sizing; its cost is the delay.
    fn refined<const PASS: bool>(&self, sizing: &[u8], p: usize) -> Tie {
        let mut held = [0; PLACES];
        let x = &mut held[..sizing.len()];
        x.copy_from_slice(sizing);
        self.settle::<PASS>(x, p)
    }

    /// The bound from a side, by sweeps until nothing changes.
    fn bound<const PASS: bool>(&self, x: &mut [u8], side: Side) {
        for (p, index) in x.iter_mut().enumerate() {
            *index = self.net.first_index(p, side);
        }
        loop {
            let mut changed = false;
            for p in 0..x.len() {
                let before = x[p];
                x[p] = self.settle::<PASS>(x, p).end(side);
                changed |= x[p] != before;
            }
            if !changed {
                return;
            }
        }
    }

    /// The search that evaluates the whole delay at each sizing between the bounds.
    fn search(&self, lower: &[u8], upper: &[u8], x: &mut [u8], found: &mut Found) {
        x.copy_from_slice(lower);
        loop {
            found.keep(x, self.figures::<false>(x).0);
            let Some(p) = (0..x.len()).find(|&p| x[p] < upper[p]) else {
                return;
            };
            x[p] += 1;
            x[..p].copy_from_slice(&lower[..p]);
        }
    }
}

/// The least delay so far, and the envelopes of the sizings that have it.
struct Found<'a> {
    least: u64,
    lean: &'a mut [u8],
    wide: &'a mut [u8],
}

impl Found<'_> {
    fn keep(&mut self, x: &[u8], delay: u64) {
        if delay < self.least {
            self.least = delay;
            self.lean.copy_from_slice(x);
            self.wide.copy_from_slice(x);
        } else if delay == self.least {
            for (a, &b) in self.lean.iter_mut().zip(x) {
                *a = b.min(*a);
            }
            for (a, &b) in self.wide.iter_mut().zip(x) {
                *a = b.max(*a);
            }
        }
    }
}

/// The places in driving order: the stages, then each segment and directly behind it its repeater. A place's number there is
/// its position.
struct Positions {
    /// The place at each position, and the position of each place.
    order: [usize; PLACES],
    position: [usize; PLACES],
    /// The node that each position hangs at: node 0 is before all, node t + 1 behind position t.
    hangs: [usize; PLACES],
}

impl Positions {
    fn new(net: &Net) -> Self {
        let mut at = Positions {
            order: [0; PLACES],
            position: [0; PLACES],
            hangs: [0; PLACES],
        };
        at.put_in_order(net);
        at.hang(net);
        at
    }

    /// Puts the places from `start` to `end`, the end left out, before which `passed` repeaters have been put.
    fn put_run(&mut self, start: usize, end: usize, passed: usize) {
        for (place, p) in self.order[start + passed..end + passed].iter_mut().zip(start..) {
            *place = p;
        }
        for (position, t) in self.position[start..end].iter_mut().zip(start + passed..) {
            *position = t;
        }
    }

    /// Puts all places in order: run after run of those between two repeaters.
    fn put_in_order(&mut self, net: &Net) {
        let places = net.stages.len() + net.segments.len();
        let mut start = 0;
        for (r, repeater) in net.repeaters.iter().enumerate() {
            let end = net.stages.len() + usize::from(repeater[2]) + 1;
            self.put_run(start, end, r);
            self.order[end + r] = places + r;
            self.position[places + r] = end + r;
            start = end;
        }
        self.put_run(start, places, net.repeaters.len());
    }

    /// Hangs each place: a segment where the one stands whose number is its parent byte, because the branches at a node hang
    /// behind all that stands before that one; a driver directly behind the place before it.
    fn hang(&mut self, net: &Net) {
        for t in 0..net.places() {
            self.hangs[t] = match net.segment_at(self.order[t]) {
                Some(segment) => self.position[net.stages.len() + usize::from(segment[2])],
                None => t,
            };
        }
    }

    /// The indices of a sizing that goes by place, by position.
    fn arranged(&self, sizing: &[u8]) -> [u8; PLACES] {
        let mut arranged = [0; PLACES];
        for (index, &p) in arranged.iter_mut().zip(&self.order).take(sizing.len()) {
            *index = sizing[p];
        }
        arranged
    }

    /// The weight of each position, in one pass from the last to the first: of a wire that of the sinks behind it, of a driver
    /// twice that.
    fn weigh(&self, net: &Net, weights: &mut [u64; PLACES]) {
        let mut gathered = [0; PLACES + 1];
        for t in (0..net.places()).rev() {
            let (weight, behind) = match net.sink_weight_at(self.order[t]) {
                Some(sink) => (1, sink + gathered[t + 1]),
                None => (2, gathered[t + 1]),
            };
            weights[t] = weight * behind;
            gathered[self.hangs[t]] += behind;
        }
    }
}

/// What a place adds at one of its indices: its part of the delay, and the load that it shows.
struct Step {
    delay: u64,
    load: u64,
}

impl Net<'_> {
    /// The step of a place to an index, over the load that it drives; `wire` is its wire, where it is a segment.
    #[inline(always)]
    fn step(&self, weight: u64, wire: Option<Wire>, k: u8, driven: u64) -> Step {
        match wire {
            None => {
                let size = &self.sizes[usize::from(k)];
                Step {
                    delay: weight * (word(size, 4) * (word(size, 12) + driven)),
                    load: word(size, 8),
                }
            }
            Some(Wire { rows, length }) => {
                let row = &rows[usize::from(k)];
                let own = word(row, 8) * length;
                Step {
                    delay: weight * (word(row, 4) * length * (own + 2 * driven)),
                    load: own + driven,
                }
            }
        }
    }
}

/// The branches at each node of the tree in a sizing: from these come the weight of each place, what it drives and what is
/// upstream of it.
struct Nodes<'a> {
    tree: &'a Tree<'a>,
    sizing: &'a [u8],
    x: Indices<'a>,
    parts: [Part; SEGMENTS + 1],
}

impl<'a> Nodes<'a> {
    /// One pass from the last segment to the first: each joins the branches at the node that it hangs at.
    fn new(tree: &'a Tree<'a>, sizing: &'a [u8]) -> Self {
        let x = tree.net.by_kind(sizing);
        let parts = [Part::default(); SEGMENTS + 1];
        let mut nodes = Nodes { tree, sizing, x, parts };
        for (i, (segment, &weight)) in tree.net.segments.iter().zip(tree.net.weights).enumerate().rev() {
            let hanging = nodes.hanging(i);
            let sized = tree.net.sized(segment, weight, nodes.x.segments[i]);
            nodes.parts[usize::from(segment[2])].join(sized, hanging);
        }
        nodes
    }

    /// What hangs at the far end of a segment: its branches, seen through the repeater where one sits there.
    #[inline(always)]
    fn hanging(&self, i: usize) -> Part {
        let branches = self.parts[i + 1];
        match self.x.repeaters.get(usize::from(self.tree.seats[i])) {
            Some(&k) => self.tree.net.through_repeater(k, branches).0,
            None => branches,
        }
    }

    /// The branches that a driver drives: those of the tree, or those behind a repeater.
    fn driven_branches(&self, p: usize) -> Part {
        let net = self.tree.net;
        let before = net.stages.len() + net.segments.len();
        match p.checked_sub(before) {
            Some(r) => self.parts[1 + usize::from(net.repeaters[r][2])],
            None => self.parts[0],
        }
    }

    /// The weight of a place: of a segment that of the sinks at or below its far end, of a driver twice that of those behind it.
    fn weight(&self, p: usize) -> u64 {
        let net = self.tree.net;
        match net.sink_weight_at(p) {
            Some(sink) => sink + self.parts[p - net.stages.len() + 1].weight,
            None => 2 * self.driven_branches(p).weight,
        }
    }

    /// The load that a place drives.
    fn driven(&self, p: usize) -> u64 {
        let net = self.tree.net;
        if let Some(&next) = self.x.stages.get(p + 1) {
            return word(&net.sizes[usize::from(next)], 8);
        }
        match net.segment_at(p) {
            Some(segment) => word(segment, 8) + self.hanging(p - net.stages.len()).load,
            None => self.driven_branches(p).load,
        }
    }

    /// The place that drives a place; none drives the first stage. What hangs at the far end of a segment is driven by the repeater
    /// there, where one sits, or by the segment.
    fn drives(&self, p: usize) -> Option<usize> {
        let net = self.tree.net;
        let stages = net.stages.len();
        let Some(i) = p.checked_sub(stages) else {
            return p.checked_sub(1);
        };
        let Some(segment) = net.segments.get(i) else {
            return Some(stages + usize::from(net.repeaters[i - net.segments.len()][2]));
        };
        let Some(above) = usize::from(segment[2]).checked_sub(1) else {
            return Some(stages - 1);
        };
        let seat = usize::from(self.tree.seats[above]);
        let behind = if seat < REPEATERS { net.segments.len() + seat } else { above };
        Some(stages + behind)
    }

    /// What the delay grows by with each unit of the load that a place shows: along the path to the driver before it, and no
    /// further.
    fn upstream(&self, mut p: usize) -> u64 {
        let net = self.tree.net;
        let mut sum = 0;
        while let Some(a) = self.drives(p) {
            let k = usize::from(self.sizing[a]);
            match net.wire_at(a) {
                None => return sum + self.weight(a) * word(&net.sizes[k], 4),
                Some(Wire { rows, length }) => sum += 2 * self.weight(a) * (word(&rows[k], 4) * length),
            }
            p = a;
        }
        sum
    }

    /// The tie at a place; its cost is the delay that either end reaches.
    fn refined(&self, p: usize) -> Tie {
        let net = self.tree.net;
        let source = self.parts[0];
        let (stages, _) = net.stages_figures(self.x.stages, source.load);
        let delay = source.weight * (2 * stages) + source.delay;
        let (weight, driven, upstream, wire) = (self.weight(p), self.driven(p), self.upstream(p), net.wire_at(p));
        let cost = |k| {
            let step = net.step(weight, wire, k, driven);
            step.delay + upstream * step.load
        };
        let (lowest, highest) = net.range(p);
        let tie = Tie::among(lowest, highest, cost);
        Tie {
            cost: delay + tie.cost - cost(self.sizing[p]),
            ..tie
        }
    }
}

/// The sums of a net whose places are held at one index each, or free, by position, as sizings are here: the loads that the
/// places drive, and what the delay grows by with each unit of the load that a place shows. A free place shows no load.
struct Sums<'a> {
    at: &'a Positions,
    weights: [u64; PLACES],
    driven: [u64; PLACES],
    upstream: [u64; PLACES],
}

impl<'a> Sums<'a> {
    fn new(at: &'a Positions) -> Self {
        Sums {
            at,
            weights: [0; PLACES],
            driven: [0; PLACES],
            upstream: [0; PLACES],
        }
    }

    /// One pass from the last position to the first: each held place adds the load that it shows where it hangs. The answer is
    /// what the held places add to the delay, where that is asked for.
    fn hold<const ADD: bool>(&mut self, net: &Net, lower: &[u8], upper: &[u8]) -> u64 {
        let mut gathered = [0; PLACES + 1];
        let mut delay = 0;
        for t in (0..net.places()).rev() {
            let segment = net.segment_at(self.at.order[t]);
            let sink = segment.map_or(0, |segment| word(segment, 8));
            self.driven[t] = sink + gathered[t + 1];
            if lower[t] >= upper[t] {
                let wire = segment.map(|segment| net.wire(segment));
                let weight = if ADD { self.weights[t] } else { 0 };
                let step = net.step(weight, wire, lower[t], self.driven[t]);
                gathered[self.at.hangs[t]] += step.load;
                delay += step.delay;
            }
        }
        delay
    }

    /// What the delay grows by with each unit of load behind position a, which is held at the index k. Nothing passes beyond a
    /// driver.
    #[inline(always)]
    fn onward(&self, net: &Net, a: usize, k: u8) -> u64 {
        match net.wire_at(self.at.order[a]) {
            None => self.weights[a] * word(&net.sizes[usize::from(k)], 4),
            Some(Wire { rows, length }) => 2 * self.weights[a] * (word(&rows[usize::from(k)], 4) * length) + self.upstream[a],
        }
    }

    /// The upstream of a position's load, from those of the positions before it.
    #[inline(always)]
    fn go_upstream(&mut self, net: &Net, lower: &[u8], upper: &[u8], t: usize) {
        self.upstream[t] = match self.at.hangs[t].checked_sub(1) {
            Some(a) if lower[a] == upper[a] => self.onward(net, a, lower[a]),
            _ => 0,
        };
    }

    /// What the place at a position adds at an index, with what its load costs upstream; `wire` is its wire, where it is a
    /// segment.
    #[inline(always)]
    fn cost(&self, net: &Net, t: usize, wire: Option<Wire>, k: u8) -> u64 {
        let step = net.step(self.weights[t], wire, k, self.driven[t]);
        step.delay + self.upstream[t] * step.load
    }

    /// The tie at a position, the rest held.
    #[inline(always)]
    fn settled(&self, net: &Net, t: usize) -> Tie {
        let p = self.at.order[t];
        let wire = net.wire_at(p);
        let (lowest, highest) = net.range(p);
        Tie::among(lowest, highest, |k| self.cost(net, t, wire, k))
    }

    /// The bound from a side, by sweeps until nothing changes.
    fn bound(&mut self, net: &Net, x: &mut [u8], side: Side) {
        for (index, &p) in x.iter_mut().zip(&self.at.order) {
            *index = net.first_index(p, side);
        }
        loop {
            self.hold::<false>(net, x, x);
            let mut changed = false;
            for t in 0..x.len() {
                self.go_upstream(net, x, x, t);
                let best = self.settled(net, t).end(side);
                changed |= x[t] != best;
                x[t] = best;
            }
            if !changed {
                return;
            }
        }
    }

    /// The search between the bounds.
    fn search(&mut self, net: &Net, lower: &[u8], upper: &[u8], x: &mut [u8], found: &mut Found) {
        let fixed = self.hold::<true>(net, lower, upper);
        for t in 0..lower.len() {
            self.go_upstream(net, lower, upper, t);
        }
        Search {
            net: *net,
            at: self.at,
            sums: self,
            lower,
            upper,
            x,
            ups: [0; PLACES],
            skips: [0; PLACES + 1],
            gathered: [0; PLACES + 1],
            found,
        }
        .all(fixed);
    }
}

/// The search over the free places, from the last position to the first. Loads go past held segments at once.
struct Search<'a, 'f> {
    net: Net<'a>,
    at: &'a Positions,
    sums: &'a Sums<'a>,
    lower: &'a [u8],
    upper: &'a [u8],
    x: &'a mut [u8],
    ups: [usize; PLACES],
    skips: [usize; PLACES + 1],
    gathered: [u64; PLACES + 1],
    found: &'a mut Found<'f>,
}

impl Search<'_, '_> {
    /// All sizings between the bounds, where the held places add `fixed`.
    fn all(&mut self, fixed: u64) {
        self.x.copy_from_slice(self.lower);
        for t in 0..self.x.len() {
            let held = self.lower[t] == self.upper[t];
            self.ups[t] = self.arrival(self.at.hangs[t]);
            self.skips[t + 1] = if held { self.skips[t] } else { t + 1 };
        }
        match self.skips[self.x.len()] {
            0 => self.found.keep(self.x, fixed),
            left if self.skips[left - 1] == 0 => self.last(left, fixed),
            left => self.positions_before(left, fixed),
        }
    }

    /// The node at which a load at `node` arrives, through the held wires above it.
    fn arrival(&self, node: usize) -> usize {
        let is_wire = |a: usize| self.net.segment_at(self.at.order[a]).is_some();
        match node.checked_sub(1) {
            Some(a) if self.lower[a] == self.upper[a] && is_wire(a) => self.ups[a],
            _ => node,
        }
    }

    /// Takes every sizing that has the indices of x but at the position before `left`, the last one that is free.
    fn last(&mut self, left: usize, added: u64) {
        let t = left - 1;
        let (weight, upstream) = (self.sums.weights[t], self.sums.upstream[t]);
        let driven = self.sums.driven[t] + self.gathered[t + 1];
        let wire = self.net.wire_at(self.at.order[t]);
        let reached = |net: &Net, k: u8| {
            let step = net.step(weight, wire, k, driven);
            added + step.delay + upstream * step.load
        };
        let mut k = self.lower[t];
        while k <= self.upper[t] && reached(&self.net, k) > self.found.least {
            k += 1;
        }
        for k in k..=self.upper[t] {
            let delay = reached(&self.net, k);
            if delay <= self.found.least {
                self.x[t] = k;
                self.found.keep(self.x, delay);
            }
        }
    }

    /// Takes every sizing that has the indices of x from `left` on; the position before `left` is free, and not the last
    /// one that is.
    fn positions_before(&mut self, left: usize, added: u64) {
        let t = left - 1;
        let (weight, upstream) = (self.sums.weights[t], self.sums.upstream[t]);
        let driven = self.sums.driven[t] + self.gathered[t + 1];
        let wire = self.net.wire_at(self.at.order[t]);
        let rest = self.skips[t];
        let further = self.skips[rest - 1];
        let node = self.ups[t];
        let before = self.gathered[node];
        for k in self.lower[t]..=self.upper[t] {
            let step = self.net.step(weight, wire, k, driven);
            let reached = added + step.delay + upstream * step.load;
            self.x[t] = k;
            self.gathered[node] = before + step.load;
            if further == 0 {
                self.last(rest, reached);
            } else {
                self.positions_before(rest, reached);
            }
        }
        self.gathered[node] = before;
    }
}

/// The search that carries loads and delay along, from the last position to the first. What a place drives hangs behind its
/// position: the first there, and the next behind the same position after each.
struct PassSearch<'a, 'f> {
    net: Net<'a>,
    order: &'a [usize],
    first: [usize; PLACES + 1],
    next: [usize; PLACES],
    weights: [u64; PLACES],
    loads: [u64; PLACES],
    lower: &'a [u8],
    upper: &'a [u8],
    x: &'a mut [u8],
    found: &'a mut Found<'f>,
}

impl<'a, 'f> PassSearch<'a, 'f> {
    fn new(
        net: &Net<'a>,
        at: &'a Positions,
        lower: &'a [u8],
        upper: &'a [u8],
        x: &'a mut [u8],
        found: &'a mut Found<'f>,
    ) -> Self {
        let places = lower.len();
        let mut search = PassSearch {
            net: *net,
            order: &at.order[..places],
            first: [places; PLACES + 1],
            next: [places; PLACES],
            weights: [0; PLACES],
            loads: [0; PLACES],
            lower,
            upper,
            x,
            found,
        };
        at.weigh(net, &mut search.weights);
        for (t, &node) in at.hangs[..places].iter().enumerate().rev() {
            search.next[t] = search.first[node];
            search.first[node] = t;
        }
        search
    }

    /// The load behind a position, from the loads of the places that hang there.
    fn behind(&self, t: usize) -> u64 {
        let mut sum = 0;
        let mut i = self.first[t + 1];
        while i < self.order.len() {
            sum += self.loads[i];
            i = self.next[i];
        }
        sum
    }

    /// Puts a driver at a size; the answer is what that adds to the delay.
    fn put_size(&mut self, t: usize, k: u8, driven: u64) -> u64 {
        let size = &self.net.sizes[usize::from(k)];
        self.x[t] = k;
        self.loads[t] = word(size, 8);
        self.weights[t] * (word(size, 4) * (word(size, 12) + driven))
    }

    /// Puts a segment at a width; the answer is what that adds to the delay.
    fn put_width(&mut self, t: usize, k: u8, wire: Wire, driven: u64) -> u64 {
        let Wire { rows, length } = wire;
        let row = &rows[usize::from(k)];
        let own = word(row, 8) * length;
        self.x[t] = k;
        self.loads[t] = own + driven;
        self.weights[t] * (word(row, 4) * length * (own + 2 * driven))
    }

    /// Takes every sizing that has the indices of x from `left` on.
    fn positions_before(&mut self, mut left: usize, mut added: u64) {
        while left > 0 && self.lower[left - 1] == self.upper[left - 1] {
            left -= 1;
            let (k, behind) = (self.lower[left], self.behind(left));
            added += match self.net.segment_at(self.order[left]) {
                None => self.put_size(left, k, behind),
                Some(segment) => self.put_width(left, k, self.net.wire(segment), word(segment, 8) + behind),
            };
        }
        let Some(t) = left.checked_sub(1) else {
            self.found.keep(self.x, added);
            return;
        };
        let behind = self.behind(t);
        match self.net.segment_at(self.order[t]) {
            None => {
                for k in self.lower[t]..=self.upper[t] {
                    let step = self.put_size(t, k, behind);
                    self.positions_before(t, added + step);
                }
            }
            Some(segment) => {
                let (wire, driven) = (self.net.wire(segment), word(segment, 8) + behind);
                for k in self.lower[t]..=self.upper[t] {
                    let step = self.put_width(t, k, wire, driven);
                    self.positions_before(t, added + step);
                }
            }
        }
    }
}

/// Questions 15 and 16.
fn check_sizing(net: &Net, sizing: &[u8]) -> Result<(), usize> {
    if sizing.len() < net.places() {
        return Err(15);
    }
    let x = net.by_kind(sizing);
    let allowed = |k: &u8, low: u8, high: u8| low <= *k && *k <= high;
    if !x.stages.iter().zip(net.stages).all(|(k, r)| allowed(k, r[2], r[3]))
        || !x.segments.iter().zip(net.segments).all(|(k, r)| allowed(k, r[13], r[14]))
        || !x.repeaters.iter().zip(net.repeaters).all(|(k, r)| allowed(k, r[3], r[4]))
    {
        return Err(16);
    }
    Ok(())
}

/// Delay and load figure of a sizing, or the number of the first question that fails.
fn measure_by<const PASS: bool>(job: &[u8], sizing: &[u8]) -> Result<(u64, u64), usize> {
    let (mut links, mut weights) = (Links::new(), [0; SEGMENTS]);
    let net = check(job, &mut links, &mut weights)?;
    check_sizing(&net, sizing)?;
    Ok(Tree::new(&net, &links).figures::<PASS>(sizing))
}

/// Measures as (a).
#[inline(never)]
pub fn measure(job: &[u8], sizing: &[u8]) -> Result<(u64, u64), usize> {
    measure_by::<false>(job, sizing)
}

/// Measures as (c).
#[inline(never)]
pub fn measure_fastest(job: &[u8], sizing: &[u8]) -> Result<(u64, u64), usize> {
    measure_by::<true>(job, sizing)
}

/// Both ends of the tie at a place, and the delay that either reaches.
pub type Refined = (u8, u8, u64);

/// Refines, or tells the number of the first question that fails.
fn refine_by(job: &[u8], sizing: &[u8], place: usize, way: Way) -> Result<Refined, usize> {
    let (mut links, mut weights) = (Links::new(), [0; SEGMENTS]);
    let net = check(job, &mut links, &mut weights)?;
    check_sizing(&net, sizing)?;
    let places = net.places();
    if places <= place {
        return Err(17);
    }
    let x = &sizing[..places];
    let tie = match way {
        Way::AsLibrary => Nodes::new(&Tree::new(&net, &links), x).refined(place),
        Way::WholeDelays => Tree::new(&net, &links).refined::<false>(x, place),
        Way::Fastest => Tree::new(&net, &links).refined::<true>(x, place),
    };
    Ok((tie.lowest, tie.highest, tie.cost))
}

/// Refines as (a).
#[inline(never)]
pub fn refine(job: &[u8], sizing: &[u8], place: usize) -> Result<Refined, usize> {
    refine_by(job, sizing, place, Way::AsLibrary)
}

/// Refines as (b).
#[inline(never)]
pub fn refine_by_whole_delays(job: &[u8], sizing: &[u8], place: usize) -> Result<Refined, usize> {
    refine_by(job, sizing, place, Way::WholeDelays)
}

/// Refines as (c).
#[inline(never)]
pub fn refine_fastest(job: &[u8], sizing: &[u8], place: usize) -> Result<Refined, usize> {
    refine_by(job, sizing, place, Way::Fastest)
}

fn room(lower: &[u8], upper: &[u8]) -> Option<u64> {
    lower.iter().zip(upper).try_fold(1, |room, (&a, &b)| {
        Some(room * (u64::from(b - a) + 1)).filter(|&room| room <= ROOM)
    })
}

/// Writes the bounds and what the search found; the sizings have place p at `at(p)`.
fn write_reply(reply: &mut [u8], lower: &[u8], upper: &[u8], found: &Found, at: impl Fn(usize) -> usize) {
    let (records, _) = reply.as_chunks_mut::<8>();
    let (first, records) = records.split_first_mut().expect("the reply has a first record");
    *first = found.least.to_le_bytes();
    for (p, record) in records[..lower.len()].iter_mut().enumerate() {
        let t = at(p);
        *record = [lower[t], upper[t], found.lean[t], found.wide[t], 0, 0, 0, 0];
    }
}

/// Question 14, the search where it is passed, and the reply: a search that is not made has found 255 everywhere.
fn answer(
    reply: &mut [u8],
    lower: &[u8],
    upper: &[u8],
    search: impl FnOnce(&mut [u8], &mut Found),
    at: impl Fn(usize) -> usize,
) -> usize {
    let places = lower.len();
    let (mut x, mut lean, mut wide) = ([0; PLACES], [255; PLACES], [255; PLACES]);
    let mut found = Found {
        least: u64::MAX,
        lean: &mut lean[..places],
        wide: &mut wide[..places],
    };
    let is_searched = room(lower, upper).is_some();
    if is_searched {
        search(&mut x[..places], &mut found);
    }
    write_reply(reply, lower, upper, &found, at);
    if is_searched { 0 } else { 14 }
}

/// Sizes a net as (a), by position.
fn size_in_order(net: &Net, reply: &mut [u8]) -> usize {
    let places = net.places();
    let at = Positions::new(net);
    let mut sums = Sums::new(&at);
    at.weigh(net, &mut sums.weights);
    let (mut lower, mut upper) = ([0; PLACES], [0; PLACES]);
    let (lower, upper) = (&mut lower[..places], &mut upper[..places]);
    sums.bound(net, lower, Side::Below);
    sums.bound(net, upper, Side::Above);
    let search = |x: &mut [u8], found: &mut Found| sums.search(net, lower, upper, x, found);
    answer(reply, lower, upper, search, |p| at.position[p])
}

/// The bounds of a net by whole delays, by place.
fn bounds_by_delays<const PASS: bool>(tree: &Tree, lower: &mut [u8], upper: &mut [u8]) {
    tree.bound::<PASS>(lower, Side::Below);
    tree.bound::<PASS>(upper, Side::Above);
}

/// Sizes a net as (b), by place.
fn size_by_delays(tree: &Tree, reply: &mut [u8]) -> usize {
    let places = tree.net.places();
    let (mut lower, mut upper) = ([0; PLACES], [0; PLACES]);
    let (lower, upper) = (&mut lower[..places], &mut upper[..places]);
    bounds_by_delays::<false>(tree, lower, upper);
    let search = |x: &mut [u8], found: &mut Found| tree.search(lower, upper, x, found);
    answer(reply, lower, upper, search, |p| p)
}

/// Sizes a net as (c): the bounds by place, the search between them by position.
fn size_by_passes(tree: &Tree, reply: &mut [u8]) -> usize {
    let places = tree.net.places();
    let mut by_place = [[0; PLACES]; 2];
    let [lower, upper] = &mut by_place;
    bounds_by_delays::<true>(tree, &mut lower[..places], &mut upper[..places]);
    let at = Positions::new(tree.net);
    let [lower, upper] = by_place.map(|x| at.arranged(&x));
    let (lower, upper) = (&lower[..places], &upper[..places]);
    let search = |x: &mut [u8], found: &mut Found| {
        PassSearch::new(tree.net, &at, lower, upper, x, found).positions_before(places, 0);
    };
    answer(reply, lower, upper, search, |p| at.position[p])
}

fn size_by(job: &[u8], reply: &mut [u8], way: Way) -> usize {
    let (mut links, mut weights) = (Links::new(), [0; SEGMENTS]);
    let net = match check(job, &mut links, &mut weights) {
        Ok(net) => net,
        Err(number) => return number,
    };
    if reply.len() < 8 * (1 + net.places()) {
        return 12;
    }
    match way {
        Way::AsLibrary => size_in_order(&net, reply),
        Way::WholeDelays => size_by_delays(&Tree::new(&net, &links), reply),
        Way::Fastest => size_by_passes(&Tree::new(&net, &links), reply),
    }
}

/// Sizes as (a).
#[inline(never)]
pub fn size(job: &[u8], reply: &mut [u8]) -> usize {
    size_by(job, reply, Way::AsLibrary)
}

/// Sizes as (b).
#[inline(never)]
pub fn size_by_whole_delays(job: &[u8], reply: &mut [u8]) -> usize {
    size_by(job, reply, Way::WholeDelays)
}

/// Sizes as (c).
#[inline(never)]
pub fn size_fastest(job: &[u8], reply: &mut [u8]) -> usize {
    size_by(job, reply, Way::Fastest)
}

/// The bounds of a job that passes the questions, by place.
pub fn bounds(job: &[u8]) -> Result<(Vec<u8>, Vec<u8>), usize> {
    let (mut links, mut weights) = (Links::new(), [0; SEGMENTS]);
    let net = check(job, &mut links, &mut weights)?;
    let (mut lower, mut upper) = (vec![0; net.places()], vec![0; net.places()]);
    bounds_by_delays::<true>(&Tree::new(&net, &links), &mut lower, &mut upper);
    Ok((lower, upper))
}
