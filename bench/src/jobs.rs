//! The jobs of the benchmark.

/// A segment: parent byte, length, sink as capacitance and weight, lowest and highest width.
#[derive(Clone)]
pub struct Segment {
    pub parent: u8,
    pub length: u32,
    pub sink: Option<(u32, u8)>,
    pub range: (u8, u8),
}

/// A repeater: the segment at whose far end it sits, lowest and highest size.
#[derive(Clone)]
pub struct Repeater {
    pub segment: u8,
    pub range: (u8, u8),
}

/// What a weight record says of the weight of a sink: nothing, or a count of 256ths, as a whole number or as a fraction.
#[derive(Clone, Copy)]
#[cfg_attr(not(test), allow(dead_code))] // the rows have fractions alone, the tests every form
pub enum Weight {
    Absent,
    Whole(u32),
    Fraction(f64),
}

impl Weight {
    /// A count as a fraction.
    pub fn fraction(count: u8) -> Self {
        Weight::Fraction(f64::from(count) / 256.0)
    }

    /// The form and the words of its record.
    fn fields(self) -> (u8, [u32; 3]) {
        match self {
            Weight::Absent => (0, [0; 3]),
            Weight::Whole(count) => (1, [count, 0, 0]),
            Weight::Fraction(fraction) => {
                let bits = fraction.to_bits();
                (2, [0, bits as u32, (bits >> 32) as u32])
            }
        }
    }
}

/// A job before it is written as records; each weight is that of the sink of the segment beside it.
#[derive(Clone)]
pub struct Job {
    pub widths: Vec<(u32, u32)>,
    pub sizes: Vec<(u32, u32, u32)>,
    pub stages: Vec<(u8, u8)>,
    pub segments: Vec<Segment>,
    pub repeaters: Vec<Repeater>,
    pub weights: Vec<(u8, Weight)>,
}

impl Job {
    /// The job's records.
    pub fn bytes(&self) -> Vec<u8> {
        let mut bytes = Vec::new();
        for (i, &(resistance, capacitance)) in self.widths.iter().enumerate() {
            push(&mut bytes, [1, i as u8, 0, 0], [resistance, capacitance, 0]);
        }
        for (i, &(resistance, gate, output)) in self.sizes.iter().enumerate() {
            push(&mut bytes, [2, i as u8, 0, 0], [resistance, gate, output]);
        }
        for (i, &(lowest, highest)) in self.stages.iter().enumerate() {
            push(&mut bytes, [3, i as u8, lowest, highest], [0; 3]);
        }
        for (i, s) in self.segments.iter().enumerate() {
            let (capacitance, weight) = s.sink.unwrap_or((0, 0));
            let last = u32::from_le_bytes([weight, s.range.0, s.range.1, 0]);
            push(
                &mut bytes,
                [4, i as u8, s.parent, s.sink.is_some().into()],
                [s.length, capacitance, last],
            );
        }
        for (i, r) in self.repeaters.iter().enumerate() {
            let (lowest, highest) = r.range;
            push(&mut bytes, [5, i as u8, r.segment, lowest], [highest.into(), 0, 0]);
        }
        for &(segment, weight) in &self.weights {
            let (form, words) = weight.fields();
            push(&mut bytes, [6, segment, form, 0], words);
        }
        bytes
    }

    /// The segments that have branches, in rising order: a repeater can sit at their far ends.
    pub fn sites(&self) -> Vec<u8> {
        (0..self.segments.len() as u8)
            .filter(|&i| self.segments.iter().any(|s| s.parent == i + 1))
            .collect()
    }

    /// Puts eight repeaters of all sizes at the segments 7 to 14. Of a net with two segments at each far end these are a level:
    /// each sink behind them is behind one of them.
    pub fn with_repeaters(mut self) -> Self {
        let range = (0, self.sizes.len() as u8 - 1);
        self.repeaters = (7..15).map(|segment| Repeater { segment, range }).collect();
        self
    }

    /// Gives every segment a sink, where it has none, and a weight record with a fraction.
    pub fn with_fractions(mut self) -> Self {
        let mut random = Random(0xBF58_476D_1CE4_E5B9);
        for (i, segment) in (0..).zip(&mut self.segments) {
            segment.sink.get_or_insert_with(|| (60 + random.below(260) as u32, 0));
            self.weights.push((i, Weight::fraction(1 + random.below(255) as u8)));
        }
        self
    }

    /// Fixes every segment at a width and every stage at a size.
    fn fixed(mut self) -> Self {
        self.stages.iter_mut().for_each(|s| *s = (5, 5));
        self.segments.iter_mut().for_each(|s| s.range = (3, 3));
        self
    }

    /// Takes all weights away: every sizing then has the delay 0.
    fn unweighted(mut self) -> Self {
        self.segments
            .iter_mut()
            .filter_map(|s| s.sink.as_mut())
            .for_each(|sink| sink.1 = 0);
        self
    }
}

fn push(bytes: &mut Vec<u8>, head: [u8; 4], words: [u32; 3]) {
    bytes.extend(head);
    words.iter().for_each(|w| bytes.extend(w.to_le_bytes()));
}

/// Numbers that look random and are the same in each run.
pub struct Random(pub u64);

impl Random {
    pub fn below(&mut self, n: u64) -> u64 {
        self.0 ^= self.0 << 13;
        self.0 ^= self.0 >> 7;
        self.0 ^= self.0 << 17;
        (self.0 >> 11) % n
    }

    /// A number of at most so many bits, each length as likely as the others.
    pub fn up_to(&mut self, bits: u64) -> u64 {
        let length = 1 + self.below(bits);
        self.below(1 << length)
    }
}

/// Where each segment hangs.
#[derive(Clone, Copy)]
pub enum Shape {
    /// Two at each far end, as in an H-tree.
    Binary,
    /// Each at the far end of the one before.
    Chain,
    /// All at the source.
    Star,
}

const WIDTHS: [(u32, u32); 8] = [(60, 10), (30, 16), (20, 22), (15, 28), (10, 40), (8, 52), (6, 64), (5, 76)];

/// The widths of a thick layer 1: less resistance than in `WIDTHS`, and more capacitance.
pub const THICK: [(u32, u32); 8] = [(30, 18), (15, 26), (10, 34), (8, 42), (6, 54), (4, 68), (3, 82), (2, 96)];

/// The rows of a job's widths.
pub fn rows(job: &[u8]) -> Vec<(u32, u32)> {
    let (records, _) = job.as_chunks::<16>();
    let word = |r: &[u8; 16], at: usize| u32::from_le_bytes([r[at], r[at + 1], r[at + 2], r[at + 3]]);
    let widths = records.iter().filter(|r| r[0] == 1);
    widths.map(|r| (word(r, 4), word(r, 8))).collect()
}

/// A job that has one layer, with the rows of a second behind its widths and every other segment, from segment 1 on, on it.
pub fn on_two_layers(job: &[u8], rows: &[(u32, u32)]) -> Vec<u8> {
    let (records, _) = job.as_chunks::<16>();
    let (widths, others) = records.split_at(records.iter().filter(|r| r[0] == 1).count());
    let mut bytes = widths.as_flattened().to_vec();
    for (i, &(resistance, capacitance)) in rows.iter().enumerate() {
        push(&mut bytes, [1, i as u8, 1, 0], [resistance, capacitance, 0]);
    }
    for record in others {
        let mut record = *record;
        if record[0] == 4 {
            record[15] = record[1] % 2;
        }
        bytes.extend(record);
    }
    bytes
}

/// A net of ordinary figures, all ranges whole but that of stage 0.
pub fn net(stages: usize, segments: usize, shape: Shape) -> Job {
    let mut random = Random(0x9E37_79B9_7F4A_7C15 ^ (segments as u64));
    let parent = |i: usize| match shape {
        Shape::Binary => i.div_ceil(2),
        Shape::Chain => i,
        Shape::Star => 0,
    };
    let has_branches = |i: usize| (i + 1..segments).any(|j| parent(j) == i + 1);
    Job {
        widths: WIDTHS.to_vec(),
        sizes: (0..16)
            .map(|k| (20_000 / (k + 1), 80 * (k + 1) + k * k, 40 * (k + 1)))
            .collect(),
        stages: (0..stages).map(|s| if s == 0 { (2, 2) } else { (0, 15) }).collect(),
        segments: (0..segments)
            .map(|i| Segment {
                parent: parent(i) as u8,
                length: 4 + random.below(40) as u32,
                sink: (!has_branches(i)).then(|| (60 + random.below(260) as u32, 1 + random.below(8) as u8)),
                range: (0, 7),
            })
            .collect(),
        repeaters: Vec::new(),
        weights: Vec::new(),
    }
}

/// An allowed sizing of a `net`, with or without repeaters, the same in each run.
pub fn sizing(net: &Job) -> Vec<u8> {
    let mut random = Random(0xD1B5_4A32_D192_ED03);
    let sizes = (0..net.stages.len()).map(|s| if s == 0 { 2 } else { 15 });
    let mut sizing: Vec<u8> = sizes.collect();
    sizing.iter_mut().skip(1).for_each(|k| *k = random.below(16) as u8);
    sizing.extend(net.segments.iter().map(|_| random.below(8) as u8));
    sizing.extend(net.repeaters.iter().map(|_| random.below(16) as u8));
    sizing
}

/// 4 stages, 64 segments, weights 0, room 65,536: stages 1 to 3 and the first two segments are free.
pub fn first_free() -> Job {
    let mut job = net(4, 64, Shape::Binary).unweighted().fixed();
    job.stages[1..].fill((0, 15));
    job.segments[0].range = (0, 7);
    job.segments[1].range = (0, 1);
    job
}

/// 4 stages, 64 segments, weights 0, room 65,536: the last eight segments are free.
pub fn last_free() -> Job {
    let mut job = net(4, 64, Shape::Binary).unweighted().fixed();
    job.segments[56..].iter_mut().for_each(|s| s.range = (2, 5));
    job
}

/// 2 stages, 16 segments, weights 0, room 512: stage 1, the trunk and two tips are free.
pub fn median_unweighted() -> Job {
    let mut job = net(2, 16, Shape::Binary).unweighted().fixed();
    job.stages[1] = (0, 7);
    job.segments[0].range = (0, 7);
    job.segments[7].range = (0, 3);
    job.segments[15].range = (0, 1);
    job
}
