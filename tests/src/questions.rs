//! Questions 1 to 11 and 20 to 24 of a job, asked one after the other, and the net that a job describes.

/// The bytes of one record.
pub const RECORD: usize = 16;

/// The most places that a job without repeaters can have, and that any job can have.
pub const MOST_UNREPEATED: usize = 4 + 64;
pub const MOST_PLACES: usize = MOST_UNREPEATED + 8;

/// A row of the table of a layer's widths, for each unit of length.
pub struct Width {
    pub resistance: u64,
    pub capacitance: u64,
}

/// A row of the table of driver sizes.
pub struct Size {
    pub resistance: u64,
    pub gate: u64,
    pub output: u64,
}

/// A sink at the far end of a segment; its weight counts 256ths.
pub struct Sink {
    pub capacitance: u64,
    pub weight: u64,
}

/// A segment of wire: the segment it hangs on, or the source, the layer it uses, its length and its sink.
pub struct Segment {
    pub parent: Option<usize>,
    pub layer: usize,
    pub length: u64,
    pub sink: Option<Sink>,
}

/// The indices allowed at a place, both ends included.
#[derive(Clone, Copy)]
pub struct Range {
    pub lowest: u8,
    pub highest: u8,
}

/// What a job describes; `widths` has the table of each layer, `ranges` one entry for each place: stages, segments, repeaters.
pub struct Net {
    pub widths: [Vec<Width>; 2],
    pub sizes: Vec<Size>,
    pub stages: usize,
    pub segments: Vec<Segment>,
    /// For each repeater, the segment at whose far end it sits; for each segment, the repeater there.
    pub sites: Vec<usize>,
    pub repeaters: Vec<Option<usize>>,
    pub ranges: Vec<Range>,
    /// For each segment, the segments from itself up to the source.
    pub paths: Vec<Vec<usize>>,
    /// For each segment, the repeater that drives it, the nearest above it; none where the last stage does.
    pub drivers: Vec<Option<usize>>,
    /// For each segment, itself and those below it that its own driver drives.
    pub seen: Vec<Vec<usize>>,
}

impl Net {
    /// The number of places, P.
    pub fn places(&self) -> usize {
        self.ranges.len()
    }

    /// The sizing with the lowest allowed index at each place.
    pub fn lowest(&self) -> Vec<u8> {
        self.ranges.iter().map(|range| range.lowest).collect()
    }

    /// The sizing with the highest allowed index at each place.
    pub fn highest(&self) -> Vec<u8> {
        self.ranges.iter().map(|range| range.highest).collect()
    }

    /// The place of a repeater: behind the stages and the segments.
    pub fn repeater_place(&self, repeater: usize) -> usize {
        self.stages + self.segments.len() + repeater
    }

    /// How many sizings are allowed.
    pub fn allowed_sizings(&self) -> u128 {
        product(self.ranges.iter().map(|range| u128::from(range.highest - range.lowest) + 1))
    }
}

/// A product, or the largest number where it is greater than that.
pub fn product(factors: impl Iterator<Item = u128>) -> u128 {
    factors.fold(1, u128::saturating_mul)
}

/// The forms of a weight record besides 0, which keeps the segment's own byte.
const WHOLE: u8 = 1;
const FRACTION: u8 = 2;

/// The four bytes of a record from `at` on, lowest first.
fn number(record: &[u8], at: usize) -> u64 {
    (0..4).map(|i| u64::from(record[at + i]) << (8 * i)).sum()
}

/// The records of one kind, in their order.
fn of_kind(job: &[u8], kind: u8) -> Vec<&[u8]> {
    job.chunks(RECORD).filter(|record| record[0] == kind).collect()
}

/// Question 1: is the length above 0 and a multiple of 16?
fn question_1(job: &[u8]) -> bool {
    !job.is_empty() && job.len().is_multiple_of(RECORD)
}

/// Question 2: is every kind 1 to 6, never falling?
fn question_2(job: &[u8]) -> bool {
    let kinds: Vec<u8> = job.chunks(RECORD).map(|record| record[0]).collect();
    kinds.iter().all(|kind| (1..=6).contains(kind)) && kinds.windows(2).all(|pair| pair[0] <= pair[1])
}

/// The width records of one layer, which byte 2 names, in their order.
fn of_layer(job: &[u8], layer: u8) -> Vec<&[u8]> {
    of_kind(job, 1).into_iter().filter(|record| record[2] == layer).collect()
}

/// The ways in which a job fails question 24: a layer byte of a width or of a segment is above 1, the layers of the widths fall, or
/// a segment names layer 1 and it is empty.
pub fn layer_faults(job: &[u8]) -> [bool; 4] {
    let widths: Vec<u8> = of_kind(job, 1).iter().map(|record| record[2]).collect();
    let segments: Vec<u8> = of_kind(job, 4).iter().map(|record| record[15]).collect();
    [
        widths.iter().any(|&layer| layer > 1),
        segments.iter().any(|&layer| layer > 1),
        widths.windows(2).any(|pair| pair[0] > pair[1]),
        segments.contains(&1) && !widths.contains(&1),
    ]
}

/// Question 24: is there none of these?
fn question_24(job: &[u8]) -> bool {
    layer_faults(job) == [false; 4]
}

/// Question 3: is each kind's count in its range, of widths up to eight in each layer and at least one in layer 0, of repeaters
/// up to eight?
fn question_3(job: &[u8]) -> bool {
    (1..=8).contains(&of_layer(job, 0).len())
        && of_layer(job, 1).len() <= 8
        && of_kind(job, 5).len() <= 8
        && [(2, 16), (3, 4), (4, 64)]
            .iter()
            .all(|&(kind, most)| (1..=most).contains(&of_kind(job, kind).len()))
}

/// The lists of records that are numbered from 0: the widths of each layer, and each other kind but the weights.
fn numbered(job: &[u8]) -> Vec<Vec<&[u8]>> {
    let layers = (0..=1).map(|layer| of_layer(job, layer));
    layers.chain((2..=5).map(|kind| of_kind(job, kind))).collect()
}

/// Question 4: do numbers count from 0 in each of the kinds 1 to 5, those of widths in each layer, and do those of weights
/// rise strictly?
fn question_4(job: &[u8]) -> bool {
    let counts = |list: &Vec<&[u8]>| list.iter().enumerate().all(|(i, record)| usize::from(record[1]) == i);
    numbered(job).iter().all(counts) && of_kind(job, 6).windows(2).all(|pair| pair[0][1] < pair[1][1])
}

/// The bytes of a record that the format names, the kind and the number included; those of a weight go by its form.
fn named_bytes(record: &[u8]) -> &'static [usize] {
    match (record[0], record[2]) {
        (1, _) => &[0, 1, 2, 4, 5, 6, 7, 8, 9, 10, 11],
        (2, _) => &[0, 1, 4, 5, 6, 7, 8, 9, 10, 11, 12, 13, 14, 15],
        (3, _) => &[0, 1, 2, 3],
        (5, _) => &[0, 1, 2, 3, 4],
        (6, WHOLE) => &[0, 1, 2, 4, 5, 6, 7],
        (6, FRACTION) => &[0, 1, 2, 8, 9, 10, 11, 12, 13, 14, 15],
        (6, _) => &[0, 1, 2],
        _ => &[0, 1, 2, 3, 4, 5, 6, 7, 8, 9, 10, 11, 12, 13, 14, 15],
    }
}

/// Whether a segment's record has sink byte 0 and yet a capacitance or a weight.
fn has_stray_sink(record: &[u8]) -> bool {
    record[3] == 0 && (number(record, 8) != 0 || record[12] != 0)
}

/// Question 5: are all unnamed bytes zero?
fn question_5(job: &[u8]) -> bool {
    let unnamed_zero = |record: &[u8]| (0..RECORD).all(|at| record[at] == 0 || named_bytes(record).contains(&at));
    job.chunks(RECORD).all(unnamed_zero)
}

/// Question 6: are the values of kinds 1 and 2 in range?
fn question_6(job: &[u8]) -> bool {
    let width_fits = |record: &&[u8]| (1..=100).contains(&number(record, 4)) && (1..=100).contains(&number(record, 8));
    let size_fits = |record: &&[u8]| {
        (1..=100_000).contains(&number(record, 4))
            && (1..=100_000).contains(&number(record, 8))
            && (0..=100_000).contains(&number(record, 12))
    };
    of_kind(job, 1).iter().all(width_fits) && of_kind(job, 2).iter().all(size_fits)
}

/// Question 7: in each table, of a layer or of the sizes, does resistance strictly fall and the capacitance of width or gate
/// strictly rise?
fn question_7(job: &[u8]) -> bool {
    let ordered = |pair: &[&[u8]]| number(pair[0], 4) > number(pair[1], 4) && number(pair[0], 8) < number(pair[1], 8);
    [of_layer(job, 0), of_layer(job, 1), of_kind(job, 2)]
        .iter()
        .all(|table| table.windows(2).all(ordered))
}

/// Question 8: is every stage's lowest at most its highest, below the count of sizes, both equal for stage 0?
fn question_8(job: &[u8]) -> bool {
    let sizes = of_kind(job, 2).len();
    let stages = of_kind(job, 3);
    stages
        .iter()
        .all(|record| record[2] <= record[3] && usize::from(record[3]) < sizes)
        && stages[0][2] == stages[0][3]
}

/// Question 9: is each parent byte at most the segment's own number?
fn question_9(job: &[u8]) -> bool {
    of_kind(job, 4).iter().all(|record| record[2] <= record[1])
}

/// Question 10: are segment fields in range, nothing hung where there is no sink, and the range within the widths of its layer?
fn question_10(job: &[u8]) -> bool {
    of_kind(job, 4).iter().all(|record| {
        record[3] <= 1
            && (1..=1_000).contains(&number(record, 4))
            && (0..=100_000).contains(&number(record, 8))
            && !has_stray_sink(record)
            && record[13] <= record[14]
            && usize::from(record[14]) < of_layer(job, record[15]).len()
    })
}

/// Whether a segment hangs on the one that has a number.
fn has_branches(job: &[u8], number: u8) -> bool {
    of_kind(job, 4)
        .iter()
        .any(|segment| usize::from(segment[2]) == usize::from(number) + 1)
}

/// Question 11: has every segment without branches a sink?
fn question_11(job: &[u8]) -> bool {
    of_kind(job, 4)
        .iter()
        .all(|segment| has_branches(job, segment[1]) || segment[3] == 1)
}

/// The ways in which a job fails question 22: a repeater's segment is missing, it is there and has no branches, or from a
/// repeater to the next the segment number stays or falls.
pub fn site_faults(job: &[u8]) -> [bool; 4] {
    let sites: Vec<u8> = of_kind(job, 5).iter().map(|record| record[2]).collect();
    let is_there = |site: u8| usize::from(site) < of_kind(job, 4).len();
    [
        sites.iter().any(|&site| !is_there(site)),
        sites.iter().any(|&site| is_there(site) && !has_branches(job, site)),
        sites.windows(2).any(|pair| pair[0] == pair[1]),
        sites.windows(2).any(|pair| pair[0] > pair[1]),
    ]
}

/// Question 22: is there none of these?
fn question_22(job: &[u8]) -> bool {
    site_faults(job) == [false; 4]
}

/// The ways in which a job fails question 23: a repeater's index range is empty, or its highest index is beyond the table of sizes.
pub fn range_faults(job: &[u8]) -> [bool; 2] {
    let (repeaters, sizes) = (of_kind(job, 5), of_kind(job, 2).len());
    [
        repeaters.iter().any(|record| record[3] > record[4]),
        repeaters.iter().any(|record| usize::from(record[4]) >= sizes),
    ]
}

/// Question 23: is there none of these?
fn question_23(job: &[u8]) -> bool {
    range_faults(job) == [false; 2]
}

/// The parts of a binary64: whether it is negative, the exponent field, and the 52 bits behind it.
fn parts(bits: u64) -> (bool, u64, u64) {
    (bits >> 63 == 1, bits >> 52 & 0x7ff, bits & ((1 << 52) - 1))
}

/// The whole number that 256 times a binary64 is, read off its bits; none unless it is one from 0 to 255.
pub fn fraction_count(bits: u64) -> Option<u64> {
    let (negative, exponent, behind) = parts(bits);
    match (exponent, behind) {
        (0, 0) => Some(0),
        (0 | 0x7ff, _) => None,
        _ if negative => None,
        _ => {
            // the binary64 is this times 2 to the exponent less 1,075, so 256 times it is this shifted down
            let significand = 1 << 52 | behind;
            let down = 1_067_u64.checked_sub(exponent).filter(|&down| down <= 52)?;
            let count = significand >> down;
            (count << down == significand && count <= 255).then_some(count)
        }
    }
}

/// The eight bytes of a weight record that hold a fraction, as the bits of a binary64.
fn fraction_bits(record: &[u8]) -> u64 {
    number(record, 12) << 32 | number(record, 8)
}

/// The ways in which a job fails question 20: a weight's segment is missing, it is there and has no sink, a form is above 2, or a
/// whole number is above 255.
pub fn weight_faults(job: &[u8]) -> [bool; 4] {
    let (weights, segments) = (of_kind(job, 6), of_kind(job, 4));
    let segment = |record: &[u8]| segments.get(usize::from(record[1])).copied();
    [
        weights.iter().any(|record| segment(record).is_none()),
        weights
            .iter()
            .any(|record| segment(record).is_some_and(|found| found[3] == 0)),
        weights.iter().any(|record| record[2] > FRACTION),
        weights.iter().any(|record| record[2] == WHOLE && number(record, 4) > 255),
    ]
}

/// Question 20: is there none of these?
fn question_20(job: &[u8]) -> bool {
    weight_faults(job) == [false; 4]
}

/// The ways in which a fraction fails, of which each that fails has one.
#[derive(Clone, Copy, PartialEq, Eq, Debug)]
pub enum FractionFault {
    NotANumber,
    Infinite,
    Negative,
    Subnormal,
    TooLarge,
    NextToACount,
    NoCount,
}

/// All of them, in their order.
pub const FRACTION_FAULTS: [FractionFault; 7] = [
    FractionFault::NotANumber,
    FractionFault::Infinite,
    FractionFault::Negative,
    FractionFault::Subnormal,
    FractionFault::TooLarge,
    FractionFault::NextToACount,
    FractionFault::NoCount,
];

/// The way in which a fraction fails, if it does.
pub fn fraction_fault(bits: u64) -> Option<FractionFault> {
    if fraction_count(bits).is_some() {
        return None;
    }
    let next_to_a_count = [bits - 1, bits.wrapping_add(1)]
        .into_iter()
        .any(|near| fraction_count(near).is_some());
    Some(match parts(bits) {
        (_, 0x7ff, 0) => FractionFault::Infinite,
        (_, 0x7ff, _) => FractionFault::NotANumber,
        (true, ..) => FractionFault::Negative,
        (_, 0, _) => FractionFault::Subnormal,
        (_, 0x3ff.., _) => FractionFault::TooLarge,
        _ if next_to_a_count => FractionFault::NextToACount,
        _ => FractionFault::NoCount,
    })
}

/// The ways in which a job fails question 21, those of its fractions.
pub fn fraction_faults(job: &[u8]) -> [bool; 7] {
    let weights = of_kind(job, 6).into_iter().filter(|record| record[2] == FRACTION);
    let found: Vec<FractionFault> = weights.filter_map(|record| fraction_fault(fraction_bits(record))).collect();
    FRACTION_FAULTS.map(|fault| found.contains(&fault))
}

/// Question 21: is there none of these?
fn question_21(job: &[u8]) -> bool {
    fraction_faults(job) == [false; 7]
}

/// Whether a capacitance or a weight stands at a segment whose sink byte is 0, in a job that passes 1, 2, 24, 3 and 4 and has its
/// unnamed bytes zero: question 10 alone forbids it.
pub fn stray_sink_alone(job: &[u8]) -> bool {
    [question_1, question_2, question_24, question_3, question_4, question_5]
        .iter()
        .all(|question| question(job))
        && of_kind(job, 4).into_iter().any(has_stray_sink)
}

/// Whether a job fails question 3, 4, 7 or 10 for layer 1 alone: without the widths of layer 1, for 10 without its segments, it
/// would pass it.
pub fn fails_in_layer_1(job: &[u8], number: u64) -> bool {
    let (question, kind, layer_byte): (Question, u8, usize) = match number {
        3 => (question_3, 1, 2),
        4 => (question_4, 1, 2),
        7 => (question_7, 1, 2),
        10 => (question_10, 4, 15),
        _ => return false,
    };
    let rest: Vec<u8> = job
        .chunks_exact(RECORD)
        .filter(|record| record[0] != kind || record[layer_byte] != 1)
        .flatten()
        .copied()
        .collect();
    !question(job) && question(&rest)
}

/// A question of a job, and whether its answer is yes.
type Question = fn(&[u8]) -> bool;

/// The number of the first question of a job whose answer is no, or 0: 24 is asked after 2 and before 3, 22 and 23 after 11,
/// 20 and 21 last.
pub fn first_no(job: &[u8]) -> u64 {
    let questions: [(u64, Question); 16] = [
        (1, question_1),
        (2, question_2),
        (24, question_24),
        (3, question_3),
        (4, question_4),
        (5, question_5),
        (6, question_6),
        (7, question_7),
        (8, question_8),
        (9, question_9),
        (10, question_10),
        (11, question_11),
        (22, question_22),
        (23, question_23),
        (20, question_20),
        (21, question_21),
    ];
    let failed = questions.iter().find(|(_, question)| !question(job));
    failed.map_or(0, |&(number, _)| number)
}

/// The count that a weight record has: its whole number or that of its fraction, none where it is absent.
fn count_of(record: &[u8]) -> Option<u64> {
    match record[2] {
        WHOLE => Some(number(record, 4)),
        FRACTION => fraction_count(fraction_bits(record)),
        _ => None,
    }
}

/// The weight of a segment's sink: the count of its weight record, where it has one with a count, else its own byte.
fn sink_weight(job: &[u8], segment: &[u8]) -> u64 {
    let records = of_kind(job, 6);
    let own = records.into_iter().find(|record| record[1] == segment[1]);
    own.and_then(count_of).unwrap_or(u64::from(segment[12]))
}

/// One segment of a job out of its record.
fn read_segment(job: &[u8], record: &[u8]) -> Segment {
    let sink = Sink {
        capacitance: number(record, 8),
        weight: sink_weight(job, record),
    };
    Segment {
        parent: usize::from(record[2]).checked_sub(1),
        layer: usize::from(record[15]),
        length: number(record, 4),
        sink: if record[3] == 1 { Some(sink) } else { None },
    }
}

/// The segments from one segment up to the source, itself first.
fn path_to_source(segments: &[Segment], segment: usize) -> Vec<usize> {
    let mut path = vec![segment];
    let mut at = segment;
    while let Some(parent) = segments[at].parent {
        path.push(parent);
        at = parent;
    }
    path
}

/// The range of each place: of stages, segments and repeaters the byte of the lowest index, with that of the highest behind it.
fn place_ranges(job: &[u8]) -> Vec<Range> {
    let ranges = |(kind, lowest): (u8, usize)| {
        of_kind(job, kind).into_iter().map(move |record| Range {
            lowest: record[lowest],
            highest: record[lowest + 1],
        })
    };
    [(3, 2), (4, 13), (5, 3)].into_iter().flat_map(ranges).collect()
}

/// The net of a job, or the number of the first question that it fails.
pub fn read(job: &[u8]) -> Result<Net, u64> {
    let refusal = first_no(job);
    if refusal != 0 {
        return Err(refusal);
    }
    let width = |record: &&[u8]| Width {
        resistance: number(record, 4),
        capacitance: number(record, 8),
    };
    let size = |record: &&[u8]| Size {
        resistance: number(record, 4),
        gate: number(record, 8),
        output: number(record, 12),
    };
    let segments: Vec<Segment> = of_kind(job, 4).into_iter().map(|record| read_segment(job, record)).collect();
    let sites: Vec<usize> = of_kind(job, 5).iter().map(|record| usize::from(record[2])).collect();
    let count = segments.len();
    let paths: Vec<Vec<usize>> = (0..count).map(|s| path_to_source(&segments, s)).collect();
    let repeaters: Vec<Option<usize>> = (0..count).map(|s| sites.iter().position(|&site| site == s)).collect();
    let drivers: Vec<Option<usize>> = paths
        .iter()
        .map(|path| path[1..].iter().find_map(|&s| repeaters[s]))
        .collect();
    let seen = (0..count)
        .map(|from| {
            (0..count)
                .filter(|&s| paths[s].contains(&from) && drivers[s] == drivers[from])
                .collect()
        })
        .collect();
    Ok(Net {
        widths: [0, 1].map(|layer| of_layer(job, layer).iter().map(width).collect()),
        sizes: of_kind(job, 2).iter().map(size).collect(),
        stages: of_kind(job, 3).len(),
        segments,
        sites,
        repeaters,
        ranges: place_ranges(job),
        paths,
        drivers,
        seen,
    })
}
