//! Jobs at and just beyond every limit, jobs with a capacitance or a weight where there is no sink, jobs of two layers, jobs with
//! repeaters, jobs with weights, and jobs of the largest size and figures.

use crate::fractions::{MINUS_ZERO, fraction, refused};
use crate::generate::{SHAPES, Shape, parent_byte};
use crate::plan::{Plan, PlannedWeight, segment_with_sink, segment_without_sink};
use crate::random::Random;

/// A job with a name and the number with which every operation has to meet it (0: not refused by its own questions).
pub struct Limit {
    pub name: String,
    pub job: Vec<u8>,
    pub number: u64,
}

/// A job with two rows in each table, two stages and two segments, far from every limit.
fn middle() -> Plan {
    Plan {
        widths: vec![[40, 30], [20, 60]],
        sizes: vec![[4_000, 300, 7], [2_000, 600, 9]],
        stages: vec![[0, 0], [0, 1]],
        segments: vec![segment_without_sink(0, 50, [0, 1]), segment_with_sink(1, 60, 500, 3, [0, 1])],
        ..Plan::default()
    }
}

/// A field of the middle job: where it stands, its least and greatest value, and the number when it is beyond.
struct Field {
    name: &'static str,
    record: usize,
    at: usize,
    least: u32,
    greatest: u32,
    number: u64,
}

/// The four-byte fields, each in a row where both its limits keep the table's order.
const FIELDS: [Field; 13] = [
    Field {
        name: "largest width resistance",
        record: 0,
        at: 4,
        least: 21,
        greatest: 100,
        number: 6,
    },
    Field {
        name: "smallest width resistance",
        record: 1,
        at: 4,
        least: 1,
        greatest: 39,
        number: 6,
    },
    Field {
        name: "smallest width capacitance",
        record: 0,
        at: 8,
        least: 1,
        greatest: 59,
        number: 6,
    },
    Field {
        name: "largest width capacitance",
        record: 1,
        at: 8,
        least: 31,
        greatest: 100,
        number: 6,
    },
    Field {
        name: "largest size resistance",
        record: 2,
        at: 4,
        least: 2_001,
        greatest: 100_000,
        number: 6,
    },
    Field {
        name: "smallest size resistance",
        record: 3,
        at: 4,
        least: 1,
        greatest: 3_999,
        number: 6,
    },
    Field {
        name: "smallest gate",
        record: 2,
        at: 8,
        least: 1,
        greatest: 599,
        number: 6,
    },
    Field {
        name: "largest gate",
        record: 3,
        at: 8,
        least: 301,
        greatest: 100_000,
        number: 6,
    },
    Field {
        name: "output of size 0",
        record: 2,
        at: 12,
        least: 0,
        greatest: 100_000,
        number: 6,
    },
    Field {
        name: "output of size 1",
        record: 3,
        at: 12,
        least: 0,
        greatest: 100_000,
        number: 6,
    },
    Field {
        name: "length of segment 0",
        record: 6,
        at: 4,
        least: 1,
        greatest: 1_000,
        number: 10,
    },
    Field {
        name: "length of segment 1",
        record: 7,
        at: 4,
        least: 1,
        greatest: 1_000,
        number: 10,
    },
    Field {
        name: "sink capacitance",
        record: 7,
        at: 8,
        least: 0,
        greatest: 100_000,
        number: 10,
    },
];

/// The middle job with one four-byte field replaced.
fn with_field(field: &Field, value: u32) -> Vec<u8> {
    let mut job = middle().bytes();
    let at = 16 * field.record + field.at;
    job[at..at + 4].copy_from_slice(&value.to_le_bytes());
    job
}

/// Whether a value is allowed in a field of questions 6 and 10, the order of tables aside.
fn in_range(field: &Field, value: u32) -> bool {
    let greatest = match (field.number, field.record, field.at) {
        (6, 0 | 1, _) => 100,
        (10, _, 4) => 1_000,
        _ => 100_000,
    };
    let least = if field.at == 12 || field.name == "sink capacitance" {
        0
    } else {
        1
    };
    (least..=greatest).contains(&value)
}

/// The number for a value in a field: its own beyond the range, 7 where only the order of a table is lost.
fn number_for(field: &Field, value: u32) -> u64 {
    if !in_range(field, value) {
        field.number
    } else if (field.least..=field.greatest).contains(&value) {
        0
    } else {
        7
    }
}

/// Every four-byte field at its limits and beyond them.
fn field_limits() -> Vec<Limit> {
    let mut limits = Vec::new();
    for field in &FIELDS {
        let beyond = [0, 101, 1_001, 100_001, 1 << 16, 1 << 24, 1 << 31, u32::MAX];
        let near = [field.least, field.greatest, field.least.wrapping_sub(1), field.greatest + 1];
        for value in near.into_iter().chain(beyond) {
            let name = format!("{} {value}", field.name);
            limits.push(Limit {
                name,
                job: with_field(field, value),
                number: number_for(field, value),
            });
        }
    }
    limits
}

/// A plan with given counts of widths, sizes, stages and segments.
fn counted(widths: u32, sizes: u32, stages: usize, segments: usize) -> Plan {
    Plan {
        widths: (0..widths).map(|i| [widths - i, 1 + i]).collect(),
        sizes: (0..sizes).map(|i| [sizes - i, 1 + i, i % 3]).collect(),
        stages: vec![[0, 0]; stages],
        segments: vec![segment_with_sink(0, 1, 1, 1, [0, 0]); segments],
        ..Plan::default()
    }
}

/// The counts of each kind at their limits and beyond them.
fn count_limits() -> Vec<Limit> {
    let most = [8, 16, 4, 64];
    let mut limits = Vec::new();
    for kind in 0..4 {
        for (count, number) in [(0, 3), (1, 0), (most[kind], 0), (most[kind] + 1, 3), (most[kind] + 2, 3)] {
            let mut counts = [2, 2, 2, 2];
            counts[kind] = count;
            let plan = counted(counts[0] as u32, counts[1] as u32, counts[2], counts[3]);
            limits.push(Limit {
                name: format!("{count} of kind {}", kind + 1),
                job: plan.bytes(),
                number,
            });
        }
    }
    limits.push(Limit {
        name: "256 segments".into(),
        job: counted(1, 1, 1, 256).bytes(),
        number: 3,
    });
    limits.push(Limit {
        name: "4,096 records".into(),
        job: counted(1, 1, 1, 4_093).bytes(),
        number: 3,
    });
    limits.push(Limit {
        name: "5,000 records".into(),
        job: counted(1, 1, 1, 4_997).bytes(),
        number: 3,
    });
    limits
}

/// One-byte fields of the middle job at their limits and beyond them: record, byte, value, number.
const BYTES: [(usize, usize, u8, u64); 26] = [
    (4, 2, 1, 8),
    (4, 3, 1, 8),
    (5, 2, 1, 0),
    (5, 2, 2, 8),
    (5, 3, 0, 0),
    (5, 3, 2, 8),
    (5, 3, 255, 8),
    (6, 2, 1, 9),
    (6, 2, 255, 9),
    (7, 2, 0, 11),
    (7, 2, 1, 0),
    (7, 2, 2, 9),
    (6, 3, 1, 0),
    (6, 3, 2, 10),
    (7, 3, 0, 10),
    (7, 3, 2, 10),
    (7, 3, 255, 10),
    (7, 12, 0, 0),
    (7, 12, 255, 0),
    (6, 12, 1, 10),
    (7, 13, 1, 0),
    (7, 13, 2, 10),
    (7, 14, 0, 0),
    (7, 14, 2, 10),
    (7, 14, 255, 10),
    (7, 15, 1, 24),
];

/// Every one-byte field at its limits and beyond them.
fn byte_limits() -> Vec<Limit> {
    let mut limits = Vec::new();
    for (record, at, value, number) in BYTES {
        let mut job = middle().bytes();
        job[16 * record + at] = value;
        limits.push(Limit {
            name: format!("record {record} byte {at} is {value}"),
            job,
            number,
        });
    }
    limits
}

/// A capacitance, a weight or both where there is no sink: at the first segment of the middle job, which has none, and at the
/// last with its sink byte taken away. The record, then byte and value of each change.
const STRAY_SINKS: [(usize, &[(usize, u8)]); 7] = [
    (6, &[(8, 1)]),
    (6, &[(11, 1)]),
    (6, &[(12, 1)]),
    (6, &[(9, 2), (12, 255)]),
    (7, &[(3, 0)]),
    (7, &[(3, 0), (12, 0)]),
    (7, &[(3, 0), (8, 0), (9, 0)]),
];

/// A change to a job's bytes.
type Change = fn(&mut Vec<u8>);

/// What else may be wrong with such a job, one question's or two's, and the number that it then has.
const BESIDE: [(u64, Change); 22] = [
    (1, |job| job.truncate(16 * 7 + 15)),
    (2, |job| job[0] = 5),
    (24, |job| job[16 * 7 + 15] = 1),
    (24, |job| (job[2], job[4]) = (2, 0)),
    (3, |job| drop(job.drain(16 * 4..16 * 6))),
    (4, |job| job[16 + 1] = 0),
    (4, |job| job[16 * 7 + 1] = 2),
    (5, |job| job[3] = 1),
    (5, |job| job[16 * 4 + 15] = 1),
    (5, |job| (job[3], job[4]) = (1, 0)),
    (6, |job| job[4] = 0),
    (6, |job| job[16 * 3 + 14] = 2),
    (6, |job| (job[16 * 3 + 14], job[16 * 7 + 2]) = (2, 2)),
    (7, |job| job[16 + 4] = 40),
    (7, |job| (job[16 + 4], job[16 * 5 + 2]) = (40, 2)),
    (8, |job| job[16 * 5 + 2] = 2),
    (8, |job| (job[16 * 5 + 2], job[16 * 7 + 2]) = (2, 2)),
    (9, |job| job[16 * 6 + 2] = 1),
    (9, |job| job[16 * 7 + 2] = 2),
    (9, |job| (job[16 * 7 + 2], job[16 * 7 + 14]) = (2, 2)),
    (10, |job| job[16 * 7 + 14] = 2),
    (10, |_| ()),
];

/// Jobs with a capacitance or a weight where there is no sink: 10 comes for it, before 11, and 24 and each number of 1 to 9 before
/// 10.
fn stray_sinks() -> Vec<Limit> {
    let mut limits = Vec::new();
    for (record, changes) in STRAY_SINKS {
        for (case, (number, beside)) in BESIDE.into_iter().enumerate() {
            let mut job = middle().bytes();
            for &(at, value) in changes {
                job[16 * record + at] = value;
            }
            beside(&mut job);
            limits.push(Limit {
                name: format!("record {record} with {changes:?} and case {case}"),
                job,
                number,
            });
        }
    }
    limits
}

/// The middle job with a second layer, which segment 1 uses. Its rows have larger capacitances than those of layer 0; widths are
/// the records 0 to 3, sizes 4 and 5, stages 6 and 7, segments 8 and 9.
fn two_layers() -> Plan {
    let mut plan = middle();
    plan.thick = vec![[9, 70], [5, 90]];
    plan.segments[1].layer = 1;
    plan
}

/// Question 24 in each of its ways, before 3 and after 2, and the other questions where layers change them: what is changed in the
/// job of two layers, and its number then.
const LAYERS: [(&str, u64, Change); 45] = [
    ("nothing", 0, |_| ()),
    ("layer 1 not named", 0, |job| job[16 * 9 + 15] = 0),
    ("both segments on layer 1", 0, |job| job[16 * 8 + 15] = 1),
    ("the last width's layer is 2", 24, |job| job[16 * 3 + 2] = 2),
    ("the last width's layer is 255", 24, |job| job[16 * 3 + 2] = 255),
    ("both layer 1 widths have layer 2", 24, |job| {
        (job[16 * 2 + 2], job[16 * 3 + 2], job[16 * 9 + 15]) = (2, 2, 0);
    }),
    ("all widths have layer 2", 24, |job| {
        (0..4).for_each(|width| job[16 * width + 2] = 2)
    }),
    ("the first segment's layer is 2", 24, |job| job[16 * 8 + 15] = 2),
    ("the last segment's layer is 2", 24, |job| job[16 * 9 + 15] = 2),
    ("the last segment's layer is 255", 24, |job| job[16 * 9 + 15] = 255),
    ("layers fall at the first width", 24, |job| job[2] = 1),
    ("layers fall at the last width", 24, |job| job[16 * 3 + 2] = 0),
    ("layers fall and all rows are in order", 24, |job| {
        (job[2], job[16 + 2], job[16 * 2 + 2], job[16 * 3 + 2]) = (1, 1, 0, 0);
    }),
    ("layer 1 named and empty", 24, |job| drop(job.drain(16 * 2..16 * 4))),
    ("layer 1 named and of layer 0", 24, |job| {
        (job[16 * 2 + 2], job[16 * 3 + 2]) = (0, 0)
    }),
    ("layer 1 empty and not named", 0, |job| {
        job[16 * 9 + 15] = 0;
        drop(job.drain(16 * 2..16 * 4));
    }),
    ("1 before 24", 1, |job| {
        job[16 * 3 + 2] = 2;
        job.push(0);
    }),
    ("2 before 24: the kind falls from 5", 2, |job| {
        (job[0], job[16 * 3 + 2]) = (5, 2)
    }),
    ("2 before 24: kinds that fall", 2, |job| {
        (job[16 * 8], job[16 * 9 + 15]) = (2, 2)
    }),
    ("24 before 3: no stage", 24, |job| {
        job[16 * 3 + 2] = 2;
        drop(job.drain(16 * 6..16 * 8));
    }),
    ("24 before 3: no width", 24, |job| drop(job.drain(..16 * 4))),
    ("24 before 3: no segment", 24, |job| {
        job[2] = 1;
        drop(job.drain(16 * 8..));
    }),
    ("24 before 4", 24, |job| (job[16 * 3 + 1], job[16 * 3 + 2]) = (7, 2)),
    ("24 before 5", 24, |job| (job[3], job[16 * 9 + 15]) = (1, 2)),
    ("24 before 6", 24, |job| (job[4], job[16 * 9 + 15]) = (0, 2)),
    ("24 before 7", 24, |job| (job[16 + 4], job[2]) = (40, 1)),
    ("24 before 8", 24, |job| (job[16 * 7 + 3], job[16 * 3 + 2]) = (9, 2)),
    ("24 before 9", 24, |job| (job[16 * 8 + 2], job[16 * 3 + 2]) = (1, 2)),
    ("24 before 10", 24, |job| (job[16 * 9 + 14], job[16 * 9 + 15]) = (9, 2)),
    ("24 before 11", 24, |job| (job[16 * 9 + 2], job[16 * 3 + 2]) = (0, 2)),
    ("3: layer 0 empty", 3, |job| (job[2], job[16 + 2]) = (1, 1)),
    ("3: no width, layer 1 not named", 3, |job| {
        job[16 * 9 + 15] = 0;
        drop(job.drain(..16 * 4));
    }),
    ("4: layer 1 counts on from layer 0", 4, |job| {
        (job[16 * 2 + 1], job[16 * 3 + 1]) = (2, 3)
    }),
    ("4: the last of layer 1", 4, |job| job[16 * 3 + 1] = 2),
    ("4: layer 1 counts from 1", 4, |job| {
        (job[16 * 2 + 1], job[16 * 3 + 1]) = (1, 2)
    }),
    ("5: byte 3 of a width of layer 1", 5, |job| job[16 * 2 + 3] = 1),
    ("5: byte 12 of a width of layer 1", 5, |job| job[16 * 3 + 12] = 1),
    ("6: a resistance of layer 1", 6, |job| job[16 * 2 + 4] = 101),
    ("6: a capacitance of layer 1", 6, |job| job[16 * 3 + 8] = 0),
    ("7: equal resistances in layer 1", 7, |job| job[16 * 3 + 4] = 9),
    ("7: equal capacitances in layer 1", 7, |job| job[16 * 3 + 8] = 70),
    ("no order from layer 0 to layer 1", 0, |job| {
        (job[16 * 2 + 4], job[16 * 2 + 8]) = (90, 10)
    }),
    ("equal rows in the two layers", 0, |job| {
        let rows = job[..16 * 2].to_vec();
        job[16 * 2..16 * 4].copy_from_slice(&rows);
        (job[16 * 2 + 2], job[16 * 3 + 2]) = (1, 1);
    }),
    ("10: highest beyond layer 1, within both", 10, |job| job[16 * 9 + 14] = 2),
    ("10: highest beyond layer 0, within both", 10, |job| job[16 * 8 + 14] = 2),
];

/// A plan with given counts of widths in each layer, and a segment on each layer that has any, at its highest width.
fn layered(first: u8, second: u8) -> Plan {
    let table = |count: u8| (0..u32::from(count)).map(|i| [50 - i, 1 + i]).collect();
    let mut plan = counted(1, 1, 1, 0);
    (plan.widths, plan.thick) = (table(first), table(second));
    for (layer, count) in [(0, first), (1, second)] {
        if count > 0 {
            let mut segment = segment_with_sink(0, 7, 3, 2, [count - 1, count - 1]);
            segment.layer = layer;
            plan.segments.push(segment);
        }
    }
    plan
}

/// Jobs of two layers: changed in one field, and with counts of widths in each layer at their limits and beyond them.
fn layer_limits() -> Vec<Limit> {
    let mut limits = Vec::new();
    for (name, number, change) in LAYERS {
        let mut job = two_layers().bytes();
        change(&mut job);
        limits.push(Limit {
            name: format!("two layers: {name}"),
            job,
            number,
        });
    }
    let counts = [
        ([1, 0], 0),
        ([1, 1], 0),
        ([8, 8], 0),
        ([3, 5], 0),
        ([5, 3], 0),
        ([9, 8], 3),
        ([8, 9], 3),
        ([1, 9], 3),
        ([0, 1], 3),
        ([0, 8], 3),
        ([16, 0], 3),
        ([0, 16], 3),
        ([4, 12], 3),
        ([12, 4], 3),
    ];
    for ([first, second], number) in counts {
        limits.push(Limit {
            name: format!("{first} widths of layer 0, {second} of layer 1"),
            job: layered(first, second).bytes(),
            number,
        });
    }
    // the shorter table's segment has the last index of the longer one
    for ([first, second], segment) in [([3, 2], 1), ([2, 3], 0), ([8, 1], 1), ([1, 8], 0)] {
        let mut plan = layered(first, second);
        plan.segments[segment].highest = first.max(second) - 1;
        limits.push(Limit {
            name: format!("{first} widths of layer 0, {second} of layer 1, segment {segment} beyond its own"),
            job: plan.bytes(),
            number: 10,
        });
    }
    limits
}

/// The middle job with two more segments and two repeaters: segment 1 has the branch 2, segment 3 hangs beside it, and the
/// repeaters sit at segments 0 and 1. Sizes are the records 2 and 3, stages 4 and 5, segments 6 to 9, repeaters 10 and 11.
fn two_repeaters() -> Plan {
    let mut plan = middle();
    plan.segments.push(segment_with_sink(2, 40, 300, 2, [0, 1]));
    plan.segments.push(segment_with_sink(1, 30, 200, 1, [0, 1]));
    plan.repeaters = vec![[0, 0, 1], [1, 0, 1]];
    plan
}

/// Questions 22 and 23 in each of their ways, and the other questions where repeaters change them: what is changed in the job with
/// two repeaters, and its number then.
const REPEATERS: [(&str, u64, Change); 49] = [
    ("nothing", 0, |_| ()),
    ("no repeater", 0, |job| job.truncate(16 * 10)),
    ("one repeater", 0, |job| job.truncate(16 * 11)),
    ("one repeater, at segment 1", 0, |job| {
        drop(job.drain(16 * 10..16 * 11));
        job[16 * 10 + 1] = 0;
    }),
    ("one index", 0, |job| job[16 * 10 + 4] = 0),
    ("the highest index alone", 0, |job| job[16 * 11 + 3] = 1),
    ("the last is a whole weight", 0, |job| job[16 * 11] = 6),
    ("2: kind 7 behind the repeaters", 2, |job| job.extend([7; 16])),
    ("2: kind 255 last", 2, |job| job[16 * 11] = 255),
    ("2: kind 0 last", 2, |job| job[16 * 11] = 0),
    ("2 before 24: kind 7", 2, |job| (job[16 * 11], job[16 + 2]) = (7, 2)),
    ("2: the kind falls from 5 to 4 at the last record", 2, |job| job[16 * 11] = 4),
    ("2: the kind falls from 5 to 4 at the last segment", 2, |job| job[16 * 8] = 5),
    ("2: the kind falls from 5 to 1", 2, |job| job[0] = 5),
    ("3: repeaters alone", 3, |job| drop(job.drain(..16 * 10))),
    ("3: repeaters in place of segments", 3, |job| drop(job.drain(16 * 6..16 * 10))),
    ("4: both have number 0", 4, |job| job[16 * 11 + 1] = 0),
    ("4: they count from 1", 4, |job| (job[16 * 10 + 1], job[16 * 11 + 1]) = (1, 2)),
    ("4: they count on from the segments", 4, |job| {
        (job[16 * 10 + 1], job[16 * 11 + 1]) = (4, 5)
    }),
    ("4: number 255", 4, |job| job[16 * 11 + 1] = 255),
    ("22: the segment is the count", 22, |job| job[16 * 11 + 2] = 4),
    ("22: the segment is one more", 22, |job| job[16 * 11 + 2] = 5),
    ("22: segment 63", 22, |job| job[16 * 11 + 2] = 63),
    ("22: segment 64", 22, |job| job[16 * 11 + 2] = 64),
    ("22: segment 255", 22, |job| job[16 * 11 + 2] = 255),
    ("22: both segments missing", 22, |job| {
        (job[16 * 10 + 2], job[16 * 11 + 2]) = (4, 5)
    }),
    ("22: the one segment is missing", 22, |job| {
        job.truncate(16 * 11);
        job[16 * 10 + 2] = 4;
    }),
    ("22: a segment without branches", 22, |job| job[16 * 11 + 2] = 2),
    ("22: the last segment", 22, |job| job[16 * 11 + 2] = 3),
    ("22: the first has no branches", 22, |job| {
        (job[16 * 10 + 2], job[16 * 11 + 2]) = (2, 3)
    }),
    ("22: the branch hangs beside", 22, |job| job[16 * 8 + 2] = 1),
    ("22: both at segment 0", 22, |job| job[16 * 11 + 2] = 0),
    ("22: both at segment 1", 22, |job| job[16 * 10 + 2] = 1),
    ("22: the segments fall", 22, |job| {
        (job[16 * 10 + 2], job[16 * 11 + 2]) = (1, 0)
    }),
    ("22: the first is missing", 22, |job| job[16 * 10 + 2] = 4),
    ("22: missing and without branches", 22, |job| {
        (job[16 * 10 + 2], job[16 * 11 + 2]) = (3, 4)
    }),
    ("22 before 23: missing and empty", 22, |job| {
        (job[16 * 10 + 3], job[16 * 10 + 4], job[16 * 11 + 2]) = (1, 0, 4)
    }),
    ("22 before 23: no branches and beyond", 22, |job| {
        (job[16 * 10 + 4], job[16 * 11 + 2]) = (2, 2)
    }),
    ("22 before 23: equal and beyond", 22, |job| {
        (job[16 * 10 + 4], job[16 * 11 + 2]) = (2, 0)
    }),
    ("22 before 23: in one record", 22, |job| {
        (job[16 * 11 + 2], job[16 * 11 + 4]) = (4, 2)
    }),
    ("23: the first range is empty", 23, |job| {
        (job[16 * 10 + 3], job[16 * 10 + 4]) = (1, 0)
    }),
    ("23: the last range is empty", 23, |job| {
        (job[16 * 11 + 3], job[16 * 11 + 4]) = (1, 0)
    }),
    ("23: lowest 255", 23, |job| job[16 * 11 + 3] = 255),
    ("23: the first is beyond by one", 23, |job| job[16 * 10 + 4] = 2),
    ("23: the last is beyond by one", 23, |job| job[16 * 11 + 4] = 2),
    ("23: highest 255", 23, |job| job[16 * 11 + 4] = 255),
    ("23: highest 16", 23, |job| job[16 * 11 + 4] = 16),
    ("23: one index, beyond", 23, |job| {
        (job[16 * 11 + 3], job[16 * 11 + 4]) = (2, 2)
    }),
    ("23: empty and beyond", 23, |job| {
        (job[16 * 11 + 3], job[16 * 11 + 4]) = (3, 2)
    }),
];

/// What may be wrong with the repeaters of such a job, and its number then.
const REPEATER_FAULTS: [(u64, Change); 7] = [
    (22, |job| job[16 * 11 + 2] = 4),
    (22, |job| job[16 * 11 + 2] = 2),
    (22, |job| job[16 * 11 + 2] = 0),
    (22, |job| (job[16 * 10 + 2], job[16 * 11 + 2]) = (1, 0)),
    (23, |job| (job[16 * 11 + 3], job[16 * 11 + 4]) = (1, 0)),
    (23, |job| job[16 * 11 + 4] = 2),
    (22, |job| (job[16 * 10 + 4], job[16 * 11 + 2]) = (2, 4)),
];

/// What may be wrong with it besides, and its number then: each of the questions before 22.
const BEFORE_22: [(u64, Change); 22] = [
    (1, |job| job.push(0)),
    (1, |job| job.truncate(16 * 12 - 1)),
    (2, |job| job[0] = 6),
    (2, |job| job[16 * 10] = 6),
    (2, |job| job[16 * 8] = 5),
    (24, |job| job[16 + 2] = 2),
    (24, |job| job[16 * 9 + 15] = 1),
    (3, |job| drop(job.drain(16 * 4..16 * 6))),
    (3, |job| {
        drop(job.splice(16 * 12..16 * 12, (2..9).flat_map(|number| repeater(number, 1))))
    }),
    (4, |job| job[16 + 1] = 0),
    (4, |job| job[16 * 10 + 1] = 1),
    (5, |job| job[3] = 1),
    (5, |job| job[16 * 10 + 5] = 1),
    (5, |job| job[16 * 11 + 15] = 255),
    (6, |job| job[4] = 0),
    (6, |job| job[16 * 3 + 14] = 2),
    (7, |job| job[16 + 4] = 40),
    (8, |job| job[16 * 5 + 3] = 2),
    (9, |job| job[16 * 9 + 2] = 4),
    (10, |job| job[16 * 9 + 14] = 2),
    (10, |job| job[16 * 6 + 12] = 1),
    (11, |job| (job[16 * 9 + 3], job[16 * 9 + 8], job[16 * 9 + 12]) = (0, 0, 0)),
];

/// The record of a repeater with a number, at a segment, of size 0.
fn repeater(number: u8, segment: u8) -> [u8; 16] {
    let mut record = [0; 16];
    record[..3].copy_from_slice(&[5, number, segment]);
    record
}

/// The job of a plan with a change.
fn changed(plan: &Plan, name: String, number: u64, change: Change) -> Limit {
    let mut job = plan.bytes();
    change(&mut job);
    Limit { name, job, number }
}

/// Jobs that fail nothing but 22 or 23: 22 in each of its ways, 23 in both, and both numbers at once.
pub fn repeater_faults() -> Vec<Limit> {
    let faults = REPEATER_FAULTS.into_iter().enumerate();
    faults
        .map(|(fault, (number, change))| changed(&two_repeaters(), format!("fault {fault} of repeaters"), number, change))
        .collect()
}

/// Each of the earlier faults in the job of a plan, alone and beside each fault of a list; the number is the earlier one's.
fn with_earlier(plan: &Plan, faults: fn() -> Vec<Limit>, earlier: &[(u64, Change)]) -> Vec<Limit> {
    let mut limits = Vec::new();
    for (case, &(number, change)) in earlier.iter().enumerate() {
        limits.push(changed(plan, format!("case {case} alone"), number, change));
        for fault in faults() {
            let (name, mut job) = (format!("{} and case {case}", fault.name), fault.job);
            change(&mut job);
            limits.push(Limit { name, job, number });
        }
    }
    limits
}

/// A chain of segments with repeaters at its first ones.
fn chain_with_repeaters(segments: u8, repeaters: u8) -> Plan {
    let mut plan = counted(2, 3, 2, 0);
    plan.segments = (0..segments).map(|i| segment_with_sink(i, 1, 1, 1, [0, 1])).collect();
    plan.repeaters = (0..repeaters).map(|site| [site, 0, 2]).collect();
    plan
}

/// Jobs with repeaters: changed in one field, with another question's fault beside theirs, each unnamed byte, counts at the limits
/// and beyond them, and tables of sizes longer and shorter than that of the widths.
pub fn repeater_limits() -> Vec<Limit> {
    let mut limits = repeater_faults();
    limits.extend(
        REPEATERS.map(|(name, number, change)| changed(&two_repeaters(), format!("two repeaters: {name}"), number, change)),
    );
    limits.extend(with_earlier(&two_repeaters(), repeater_faults, &BEFORE_22));
    let mut push = |name: String, job: Vec<u8>, number: u64| limits.push(Limit { name, job, number });
    for (record, at, value) in [10, 11]
        .into_iter()
        .flat_map(|record| (5..16).map(move |at| (record, at, 1 << (at % 8))))
    {
        let mut job = two_repeaters().bytes();
        job[16 * record + at] = value;
        push(format!("repeater record {record} byte {at} is {value}"), job, 5);
    }
    for (count, number) in [(0, 0), (1, 0), (7, 0), (8, 0), (9, 3), (10, 3), (63, 3)] {
        push(format!("{count} repeaters"), chain_with_repeaters(64, count).bytes(), number);
    }
    let mut many = chain_with_repeaters(64, 1).bytes();
    (1..=255).for_each(|number| many.extend(repeater(number, 0)));
    push("256 repeaters".into(), many, 3);
    // the last segment of 64 has no branches, and every one before it has one
    for (site, number) in [(62, 0), (63, 22), (64, 22)] {
        let mut plan = chain_with_repeaters(64, 1);
        plan.repeaters[0][0] = site;
        push(format!("a repeater at segment {site} of 64"), plan.bytes(), number);
    }
    for (widths, sizes, highest, number) in [(8, 2, 1, 0), (8, 2, 2, 23), (8, 2, 7, 23), (2, 16, 15, 0), (2, 16, 16, 23)] {
        let mut plan = counted(widths, sizes, 1, 0);
        plan.segments = chain_with_repeaters(2, 0).segments;
        plan.repeaters = vec![[0, 0, highest]];
        push(
            format!("{widths} widths, {sizes} sizes, a repeater's highest index {highest}"),
            plan.bytes(),
            number,
        );
    }
    limits
}

/// The job with two repeaters and three weights: the fraction 1/4 for segment 1, which has a branch, the whole number 7 for segment
/// 2, and segment 3's is absent. Weights are the records 12 to 14; the fraction's last bytes are 0xd0 and 0x3f.
fn three_weights() -> Plan {
    let mut plan = two_repeaters();
    plan.weights = vec![
        (1, PlannedWeight::Fraction(fraction(64))),
        (2, PlannedWeight::Whole(7)),
        (3, PlannedWeight::Absent),
    ];
    plan
}

/// Questions 20 and 21 and their order, and the other questions where weights change them: what is changed in the job with three
/// weights, and its number then.
const WEIGHTS: [(&str, u64, Change); 61] = [
    ("nothing", 0, |_| ()),
    ("no weight", 0, |job| job.truncate(16 * 12)),
    ("a fraction alone", 0, |job| job.truncate(16 * 13)),
    ("a whole number alone", 0, |job| {
        job.truncate(16 * 14);
        drop(job.drain(16 * 12..16 * 13));
    }),
    ("an absent one alone", 0, |job| drop(job.drain(16 * 12..16 * 14))),
    ("weights and no repeater", 0, |job| drop(job.drain(16 * 10..16 * 12))),
    ("the first and the last", 0, |job| drop(job.drain(16 * 13..16 * 14))),
    ("minus zero", 0, |job| (job[16 * 12 + 14], job[16 * 12 + 15]) = (0, 0x80)),
    ("2: kind 7 last", 2, |job| job[16 * 14] = 7),
    ("2: kind 255 last", 2, |job| job[16 * 14] = 255),
    ("2: kind 0 last", 2, |job| job[16 * 14] = 0),
    ("2: kind 0 first of the weights", 2, |job| job[16 * 12] = 0),
    ("2: kind 7 behind the weights", 2, |job| job.extend([7; 16])),
    ("2: a weight before a repeater", 2, |job| job[16 * 10] = 6),
    ("2: a weight before all repeaters", 2, |job| job[16 * 9] = 6),
    ("2: a weight before a segment", 2, |job| job[16 * 8] = 6),
    ("2: a weight first", 2, |job| job[0] = 6),
    ("2: a repeater behind a weight", 2, |job| job[16 * 14] = 5),
    ("2: a segment behind a weight", 2, |job| job[16 * 13] = 4),
    ("2 before 24", 2, |job| (job[16 * 14], job[16 + 2]) = (7, 2)),
    ("3: weights alone", 3, |job| drop(job.drain(..16 * 12))),
    ("3: weights in place of segments and repeaters", 3, |job| {
        drop(job.drain(16 * 6..16 * 12))
    }),
    ("3: weights and no stage", 3, |job| drop(job.drain(16 * 4..16 * 6))),
    ("4: the first segment twice", 4, |job| job[16 * 13 + 1] = 1),
    ("4: the last segment twice", 4, |job| job[16 * 13 + 1] = 3),
    ("4: one segment thrice", 4, |job| {
        (job[16 * 12 + 1], job[16 * 14 + 1]) = (2, 2)
    }),
    ("4: the first two fall", 4, |job| {
        (job[16 * 12 + 1], job[16 * 13 + 1]) = (2, 1)
    }),
    ("4: the last two fall", 4, |job| (job[16 * 13 + 1], job[16 * 14 + 1]) = (3, 2)),
    ("4: segment 255 first", 4, |job| job[16 * 12 + 1] = 255),
    ("4: segment 0 last", 4, |job| job[16 * 14 + 1] = 0),
    ("4 before 5", 4, |job| (job[16 * 13 + 1], job[16 * 13 + 3]) = (1, 1)),
    ("5: a fraction that is called absent", 5, |job| job[16 * 12 + 2] = 0),
    ("5: a fraction that is called whole", 5, |job| job[16 * 12 + 2] = 1),
    ("5 before 20: a fraction of form 3", 5, |job| job[16 * 12 + 2] = 3),
    ("5: a whole number that is called absent", 5, |job| job[16 * 13 + 2] = 0),
    ("5: a whole number that is called a fraction", 5, |job| job[16 * 13 + 2] = 2),
    ("5 before 20: a whole number of form 255", 5, |job| job[16 * 13 + 2] = 255),
    ("5 before 20: byte 3, in a missing segment's", 5, |job| {
        (job[16 * 14 + 1], job[16 * 14 + 3]) = (4, 1)
    }),
    ("5 before 21", 5, |job| (job[16 * 12 + 3], job[16 * 12 + 8]) = (1, 1)),
    ("an absent one that is called whole", 0, |job| job[16 * 14 + 2] = 1),
    ("an absent one that is called a fraction", 0, |job| job[16 * 14 + 2] = 2),
    ("20: the segment is the count", 20, |job| job[16 * 14 + 1] = 4),
    ("20: the segment is one more", 20, |job| job[16 * 14 + 1] = 5),
    ("20: segment 64", 20, |job| job[16 * 14 + 1] = 64),
    ("20: segment 255", 20, |job| job[16 * 14 + 1] = 255),
    ("20: all segments missing", 20, |job| {
        (job[16 * 12 + 1], job[16 * 13 + 1], job[16 * 14 + 1]) = (4, 5, 6)
    }),
    ("20: a fraction without a sink", 20, |job| job[16 * 12 + 1] = 0),
    ("20: a whole number without a sink", 20, |job| {
        drop(job.drain(16 * 12..16 * 13));
        job[16 * 12 + 1] = 0;
    }),
    ("20: an absent one without a sink", 20, |job| {
        drop(job.drain(16 * 12..16 * 14));
        job[16 * 12 + 1] = 0;
    }),
    ("20: the sink is gone", 20, |job| {
        job[16 * 7 + 3] = 0;
        job[16 * 7 + 8..16 * 7 + 13].fill(0);
    }),
    ("20: the whole number 263", 20, |job| job[16 * 13 + 5] = 1),
    ("20: the highest byte of a whole number", 20, |job| job[16 * 13 + 7] = 128),
    ("20 before 21: the fraction first", 20, |job| {
        (job[16 * 12 + 8], job[16 * 14 + 2]) = (1, 3)
    }),
    ("20 before 21: the fraction before a whole number", 20, |job| {
        (job[16 * 12 + 15], job[16 * 13 + 5]) = (0xbf, 1)
    }),
    ("20 before 21: the fraction last", 20, |job| {
        (job[16 * 12 + 1], job[16 * 14 + 2], job[16 * 14 + 8]) = (0, 2, 1)
    }),
    ("20 before 21: a missing segment, in one record", 20, |job| {
        (job[16 * 14 + 1], job[16 * 14 + 2], job[16 * 14 + 8]) = (4, 2, 1)
    }),
    ("20 before 21: no sink, in one record", 20, |job| {
        (job[16 * 12 + 1], job[16 * 12 + 8]) = (0, 1)
    }),
    ("21: the first fraction", 21, |job| job[16 * 12 + 8] = 1),
    ("21: the last fraction", 21, |job| {
        (job[16 * 14 + 2], job[16 * 14 + 8]) = (2, 1)
    }),
    ("21: both fractions", 21, |job| {
        (job[16 * 12 + 15], job[16 * 14 + 2], job[16 * 14 + 8]) = (0xbf, 2, 1)
    }),
    ("21: 1/4 and nothing else of it is byte 15", 21, |job| job[16 * 12 + 14] = 0),
];

/// What may be wrong with the weights of such a job, and its number then: 20 in each of its ways, 21 in each of its ways, and both.
const WEIGHT_FAULTS: [(u64, Change); 12] = [
    (20, |job| job[16 * 14 + 1] = 4),
    (20, |job| job[16 * 12 + 1] = 0),
    (20, |job| job[16 * 14 + 2] = 3),
    (20, |job| job[16 * 13 + 5] = 1),
    (21, |job| (job[16 * 12 + 14], job[16 * 12 + 15]) = (0xf8, 0x7f)),
    (21, |job| (job[16 * 12 + 14], job[16 * 12 + 15]) = (0xf0, 0xff)),
    (21, |job| job[16 * 12 + 15] = 0xbf),
    (21, |job| (job[16 * 12 + 14], job[16 * 12 + 15]) = (8, 0)),
    (21, |job| job[16 * 12 + 14] = 0xf0),
    (21, |job| job[16 * 12 + 8] = 1),
    (21, |job| job[16 * 12 + 13] = 1),
    (20, |job| (job[16 * 12 + 8], job[16 * 14 + 2]) = (1, 3)),
];

/// Jobs that fail nothing but 20 or 21: each in each of its ways, and both numbers at once.
pub fn weight_faults() -> Vec<Limit> {
    let faults = WEIGHT_FAULTS.into_iter().enumerate();
    faults
        .map(|(fault, (number, change))| changed(&three_weights(), format!("fault {fault} of weights"), number, change))
        .collect()
}

/// The middle job with a weight for its sink, which has an own byte.
fn one_weight(name: String, own: u8, weight: PlannedWeight, number: u64) -> Limit {
    let mut plan = middle();
    plan.segments[1].weight = own;
    plan.weights = vec![(1, weight)];
    let job = plan.bytes();
    Limit { name, job, number }
}

/// Jobs with one weight: every fraction that counts, fractions that are refused, whole numbers up to their limit and beyond; and
/// weights that are the own byte or another one, 0 among both.
fn single_weights() -> Vec<Limit> {
    let counted = (0..=255).map(|count| (format!("{count}/256"), PlannedWeight::Fraction(fraction(count)), 0));
    let refused = refused()
        .into_iter()
        .map(|(name, bits)| (name, PlannedWeight::Fraction(bits), 21));
    let whole = [0, 1, 2, 3, 127, 128, 254, 255].map(|number| (number, 0));
    let beyond = [256, 257, 258, 511, 512, 1 << 16, (1 << 16) + 3, 1 << 24, 1 << 31, u32::MAX].map(|number| (number, 20));
    let whole = whole
        .into_iter()
        .chain(beyond)
        .map(|(whole, number)| (format!("the whole number {whole}"), PlannedWeight::Whole(whole), number));
    let mut limits: Vec<Limit> = counted
        .chain(refused)
        .chain(whole)
        .map(|(name, weight, number)| one_weight(name, 3, weight, number))
        .collect();
    for own in [0, 1, 255] {
        let counts = [0, 1, 255];
        let whole = counts.map(|count| PlannedWeight::Whole(count.into()));
        let fractions = counts.map(|count| PlannedWeight::Fraction(fraction(count)));
        let others = [PlannedWeight::Absent, PlannedWeight::Fraction(MINUS_ZERO)];
        for weight in others.into_iter().chain(whole).chain(fractions) {
            limits.push(one_weight(format!("{weight:?} and the own byte {own}"), own, weight, 0));
        }
    }
    limits
}

/// The number of a job whose one weight has a form, zeros behind it, and one bit at a byte, which is that byte's lowest in byte 8
/// and one higher in each byte behind it; so it is minus zero in byte 15.
fn number_for_bit(form: u8, at: usize) -> u64 {
    match (form, at) {
        (1, 4) | (2, 15) => 0,
        (1, 5..=7) => 20,
        (2, 8..) => 21,
        _ => 5,
    }
}

/// Jobs with one weight of every form, and with a bit in each byte behind a form, named or not.
fn weight_forms() -> Vec<Limit> {
    // the weight is the record 8
    let with = |form: u8, name: String, number: u64| {
        let mut limit = one_weight(name, 3, PlannedWeight::Absent, number);
        limit.job[16 * 8 + 2] = form;
        limit
    };
    let mut limits: Vec<Limit> = (0..=255)
        .map(|form| with(form, format!("form {form}"), if form > 2 { 20 } else { 0 }))
        .collect();
    for form in [0, 1, 2, 3, 4, 128, 255] {
        for at in 3..16 {
            let mut limit = with(form, format!("form {form} and a bit in byte {at}"), number_for_bit(form, at));
            limit.job[16 * 8 + at] = 1 << (at % 8);
            limits.push(limit);
        }
    }
    limits
}

/// A weight by its turn: a fraction, a whole number, absent, or minus zero.
fn weight_in_turn(turn: usize) -> PlannedWeight {
    match turn % 4 {
        0 => PlannedWeight::Fraction(fraction(turn as u8)),
        1 => PlannedWeight::Whole(u32::from(turn as u8)),
        2 => PlannedWeight::Absent,
        _ => PlannedWeight::Fraction(MINUS_ZERO),
    }
}

/// Jobs of 64 segments with so many weights, all fractions or of each form in turn: beyond 64 a segment is missing, beyond 256 the
/// numbers cannot rise. And with one weight, for a segment among the 64 or behind them.
fn weight_counts() -> Vec<Limit> {
    let mut star = counted(2, 2, 2, 64);
    star.segments[..5].iter_mut().for_each(|segment| segment.highest = 1);
    let with = |name: String, weights: Vec<(u8, PlannedWeight)>, number: u64| {
        let mut plan = star.clone();
        plan.weights = weights;
        let job = plan.bytes();
        Limit { name, job, number }
    };
    let some_fraction = |turn: usize| PlannedWeight::Fraction(fraction(255 - turn as u8));
    let counts = [
        (0, 0),
        (1, 0),
        (63, 0),
        (64, 0),
        (65, 20),
        (66, 20),
        (128, 20),
        (255, 20),
        (256, 20),
    ];
    let beyond = [257, 258, 320, 512, 1_000, 4_026, 4_930].map(|count| (count, 4));
    let mut limits = Vec::new();
    for (count, number) in counts.into_iter().chain(beyond) {
        let all = |weight: &dyn Fn(usize) -> PlannedWeight| (0..count).map(|i| (i as u8, weight(i))).collect();
        limits.push(with(format!("{count} fractions"), all(&some_fraction), number));
        limits.push(with(format!("{count} weights"), all(&weight_in_turn), number));
        limits.push(with(
            format!("{count} absent weights"),
            all(&|_| PlannedWeight::Absent),
            number,
        ));
    }
    for segment in [0, 1, 62, 63, 64, 65, 127, 128, 254, 255] {
        let number = if segment < 64 { 0 } else { 20 };
        let weight = (segment, PlannedWeight::Whole(9));
        limits.push(with(format!("a weight for segment {segment}"), vec![weight], number));
    }
    let twice: Vec<(u8, PlannedWeight)> = (0..128).map(|i| (i as u8 / 2, some_fraction(i))).collect();
    let mut last_twice = twice.iter().copied().step_by(2).collect::<Vec<_>>();
    last_twice.push((63, PlannedWeight::Absent));
    limits.push(with("each of 64 twice".into(), twice, 4));
    limits.push(with("the last of 64 twice".into(), last_twice, 4));
    limits
}

/// Jobs with weights: changed in one field, with another question's fault beside theirs, with one weight of every count and of what
/// is refused, each byte of each form, and counts up to the most and beyond.
pub fn weight_limits() -> Vec<Limit> {
    let mut limits = weight_faults();
    limits.extend(
        WEIGHTS.map(|(name, number, change)| changed(&three_weights(), format!("three weights: {name}"), number, change)),
    );
    limits.extend(with_earlier(&three_weights(), weight_faults, &BEFORE_22));
    limits.extend(with_earlier(&three_weights(), weight_faults, &REPEATER_FAULTS));
    limits.extend(single_weights());
    limits.extend(weight_forms());
    limits.extend(weight_counts());
    limits
}

/// All jobs at and just beyond a limit, those with a capacitance or a weight where there is no sink, and those of two layers; none
/// has repeaters or weights.
pub fn limits() -> Vec<Limit> {
    let mut all = field_limits();
    all.extend(count_limits());
    all.extend(byte_limits());
    all.extend(stray_sinks());
    all.extend(layer_limits());
    all
}

/// How the places of a largest job are free: none at its lowest, none at its highest, or all.
#[derive(Clone, Copy, Debug)]
pub enum Freedom {
    Lowest,
    Highest,
    All,
}

impl Freedom {
    /// The range of a place that has so many indices.
    fn range(self, count: u8) -> [u8; 2] {
        match self {
            Freedom::Lowest => [0, 0],
            Freedom::Highest => [count - 1, count - 1],
            Freedom::All => [0, count - 1],
        }
    }
}

/// A job of 68 places with the largest figures that keep their order, in a shape, with a weight for every sink. The tables are
/// full; a second layer has every other segment.
pub fn largest_plan(random: &mut Random, shape: Shape, weight: u8, freedom: Freedom, layers: usize) -> Plan {
    let stage = freedom.range(16);
    let thick = if layers == 2 { 8 } else { 0 };
    let mut plan = Plan {
        widths: (0..8).map(|i| [100 - i, 93 + i]).collect(),
        thick: (0..thick).map(|i| [100 - 2 * i, 86 + 2 * i]).collect(),
        sizes: (0..16).map(|i| [100_000 - i, 99_985 + i, 100_000]).collect(),
        stages: vec![[stage[0], stage[0]], stage, stage, stage],
        ..Plan::default()
    };
    for segment in 0..64 {
        let parent = parent_byte(random, shape, segment);
        let mut planned = segment_with_sink(parent, 1_000, 100_000, weight, freedom.range(8));
        planned.layer = (segment % layers) as u8;
        plan.segments.push(planned);
    }
    plan
}

/// Where the eight repeaters of a largest job sit: at the first segments that have branches, at the last, or spread over all.
#[derive(Clone, Copy, Debug)]
enum Spread {
    First,
    Last,
    Even,
}

/// Puts eight repeaters into a plan.
fn put_eight(plan: &mut Plan, spread: Spread, freedom: Freedom) {
    let sites = plan.sites();
    let [lowest, highest] = freedom.range(16);
    let at = |i: usize| match spread {
        Spread::First => i,
        Spread::Last => sites.len() - 8 + i,
        Spread::Even => i * sites.len() / 8,
    };
    plan.repeaters = (0..8).map(|i| [sites[at(i)], lowest, highest]).collect();
}

/// All largest jobs: without repeaters and then with eight; one layer and two, every shape in which eight can sit, weights 0, 1
/// and 255, every freedom.
pub fn largest_plans() -> Vec<(String, Plan)> {
    let mut random = Random::new(11);
    let mut plans = Vec::new();
    for (layers, shape) in [1, 2].into_iter().flat_map(|layers| SHAPES.map(|shape| (layers, shape))) {
        for weight in [0, 1, 255] {
            for freedom in [Freedom::Lowest, Freedom::Highest, Freedom::All] {
                let name = format!("{layers} layers {shape:?} weight {weight} {freedom:?}");
                let plan = largest_plan(&mut random, shape, weight, freedom, layers);
                plans.push((name, freedom, plan));
            }
        }
    }
    let mut with_repeaters = Vec::new();
    for (name, freedom, plan) in plans.iter().filter(|(_, _, plan)| plan.sites().len() >= 8) {
        for spread in [Spread::First, Spread::Last, Spread::Even] {
            let mut plan = plan.clone();
            put_eight(&mut plan, spread, *freedom);
            with_repeaters.push((format!("{name} repeaters {spread:?}"), plan));
        }
    }
    let without = plans.into_iter().map(|(name, _, plan)| (name, plan));
    without.chain(with_repeaters).collect()
}
