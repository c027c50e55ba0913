//! A job written field by field, before it becomes bytes.

use crate::questions::product;

/// A segment's fields as they stand in its record.
#[derive(Clone, Debug)]
pub struct PlannedSegment {
    pub parent: u8,
    pub sink: u8,
    pub length: u32,
    pub capacitance: u32,
    pub weight: u8,
    pub lowest: u8,
    pub highest: u8,
    pub layer: u8,
}

/// What a weight record says: nothing, a whole number, or the bits of a binary64.
#[derive(Clone, Copy, PartialEq, Eq, Debug)]
pub enum PlannedWeight {
    Absent,
    Whole(u32),
    Fraction(u64),
}

/// A job's fields: widths of layer 0 and, called thick, of layer 1 as resistance and capacitance, sizes as resistance, gate and
/// output, stages as lowest and highest, repeaters as segment, lowest and highest, weights with their segment.
#[derive(Clone, Debug, Default)]
pub struct Plan {
    pub widths: Vec<[u32; 2]>,
    pub thick: Vec<[u32; 2]>,
    pub sizes: Vec<[u32; 3]>,
    pub stages: Vec<[u8; 2]>,
    pub segments: Vec<PlannedSegment>,
    pub repeaters: Vec<[u8; 3]>,
    pub weights: Vec<(u8, PlannedWeight)>,
}

impl Plan {
    /// The number of places.
    pub fn places(&self) -> usize {
        self.stages.len() + self.segments.len() + self.repeaters.len()
    }

    /// The lowest and the highest index of each place.
    pub fn ranges(&self) -> Vec<[u8; 2]> {
        let segments = self.segments.iter().map(|segment| [segment.lowest, segment.highest]);
        let repeaters = self.repeaters.iter().map(|&[_, lowest, highest]| [lowest, highest]);
        self.stages.iter().copied().chain(segments).chain(repeaters).collect()
    }

    /// How many sizings the ranges allow.
    pub fn allowed_sizings(&self) -> u128 {
        product(self.ranges().iter().map(|[lowest, highest]| u128::from(highest - lowest) + 1))
    }

    /// Sets the range of a place.
    pub fn set_range(&mut self, place: usize, range: [u8; 2]) {
        let (stages, before_repeaters) = (self.stages.len(), self.stages.len() + self.segments.len());
        if place < stages {
            self.stages[place] = range;
        } else if place < before_repeaters {
            let segment = &mut self.segments[place - stages];
            [segment.lowest, segment.highest] = range;
        } else {
            self.repeaters[place - before_repeaters][1..].copy_from_slice(&range);
        }
    }

    /// The numbers of the segments that have branches, in rising order: where a repeater can sit.
    pub fn sites(&self) -> Vec<u8> {
        (0..self.segments.len() as u8)
            .filter(|&number| self.segments.iter().any(|segment| segment.parent == number + 1))
            .collect()
    }

    /// The job's bytes, with the numbers counted from 0 in each kind, those of widths in each layer.
    pub fn bytes(&self) -> Vec<u8> {
        let mut job = Vec::new();
        for (layer, table) in [&self.widths, &self.thick].into_iter().enumerate() {
            for (i, &[resistance, capacitance]) in table.iter().enumerate() {
                job.extend(record([1, i as u8, layer as u8, 0], [resistance, capacitance, 0]));
            }
        }
        for (i, &figures) in self.sizes.iter().enumerate() {
            job.extend(record([2, i as u8, 0, 0], figures));
        }
        for (i, &[lowest, highest]) in self.stages.iter().enumerate() {
            job.extend(record([3, i as u8, lowest, highest], [0, 0, 0]));
        }
        for (i, segment) in self.segments.iter().enumerate() {
            let last = u32::from_le_bytes([segment.weight, segment.lowest, segment.highest, segment.layer]);
            job.extend(record(
                [4, i as u8, segment.parent, segment.sink],
                [segment.length, segment.capacitance, last],
            ));
        }
        for (i, &[segment, lowest, highest]) in self.repeaters.iter().enumerate() {
            job.extend(record([5, i as u8, segment, lowest], [highest.into(), 0, 0]));
        }
        job.extend(
            self.weights
                .iter()
                .flat_map(|&(segment, weight)| weight_record(segment, weight)),
        );
        job
    }
}

/// The sixteen bytes of a record out of its first four and three numbers.
fn record(start: [u8; 4], numbers: [u32; 3]) -> Vec<u8> {
    let mut bytes = start.to_vec();
    for number in numbers {
        bytes.extend(number.to_le_bytes());
    }
    bytes
}

/// The record of a segment's weight.
pub fn weight_record(segment: u8, weight: PlannedWeight) -> Vec<u8> {
    let (form, whole, bits) = match weight {
        PlannedWeight::Absent => (0, 0, 0),
        PlannedWeight::Whole(number) => (1, number, 0),
        PlannedWeight::Fraction(bits) => (2, 0, bits),
    };
    record([6, segment, form, 0], [whole, bits as u32, (bits >> 32) as u32])
}

/// A segment of layer 0 with a sink.
pub fn segment_with_sink(parent: u8, length: u32, capacitance: u32, weight: u8, range: [u8; 2]) -> PlannedSegment {
    PlannedSegment {
        parent,
        sink: 1,
        length,
        capacitance,
        weight,
        lowest: range[0],
        highest: range[1],
        layer: 0,
    }
}

/// A segment of layer 0 without a sink.
pub fn segment_without_sink(parent: u8, length: u32, range: [u8; 2]) -> PlannedSegment {
    PlannedSegment {
        parent,
        sink: 0,
        length,
        capacitance: 0,
        weight: 0,
        lowest: range[0],
        highest: range[1],
        layer: 0,
    }
}
