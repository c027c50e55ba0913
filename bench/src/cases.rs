//! What is timed.

use crate::jobs::{self, Job, Shape};

/// What a case calls. The questions alone are a call of `size` with no room for a reply: it asks 1 to 11 and 20 to 24, and
/// answers 12.
pub enum Work {
    Questions,
    Measure { sizing: Vec<u8> },
    Refine { sizing: Vec<u8>, place: usize },
    Size,
}

/// A job and what is done with it.
pub struct Case {
    pub name: String,
    pub job: Vec<u8>,
    pub work: Work,
}

/// A net with two segments at each far end.
fn binary(stages: usize, segments: usize) -> Job {
    jobs::net(stages, segments, Shape::Binary)
}

fn questions(name: &str, net: Job) -> Case {
    Case {
        name: format!("questions, {name}"),
        job: net.bytes(),
        work: Work::Questions,
    }
}

fn measure(name: &str, net: Job) -> Case {
    Case {
        name: format!("measure, {name}"),
        job: net.bytes(),
        work: Work::Measure {
            sizing: jobs::sizing(&net),
        },
    }
}

fn refine(name: &str, net: Job, place: usize) -> Case {
    Case {
        name: format!("refine, {name}"),
        job: net.bytes(),
        work: Work::Refine {
            sizing: jobs::sizing(&net),
            place,
        },
    }
}

fn size(name: &str, job: Vec<u8>) -> Case {
    Case {
        name: format!("size, {name}"),
        job,
        work: Work::Size,
    }
}

/// A case with every other segment on a layer 1 of the rows given.
fn on_two_layers(case: Case, rows: &[(u32, u32)]) -> Case {
    Case {
        name: format!("{}, two layers", case.name),
        job: jobs::on_two_layers(&case.job, rows),
        work: case.work,
    }
}

/// All cases, in the order of the table.
pub fn all() -> Vec<Case> {
    const SEGMENTS: [usize; 5] = [4, 8, 16, 32, 64];
    let mut cases = Vec::new();
    for segments in SEGMENTS {
        cases.push(questions(&format!("1 stage, {segments} segments"), binary(1, segments)));
    }
    cases.extend([
        measure("hardest: 4 stages, 64 segments", binary(4, 64)),
        measure("median: 2 stages, 16 segments", binary(2, 16)),
    ]);
    for segments in SEGMENTS {
        cases.push(measure(&format!("1 stage, {segments} segments"), binary(1, segments)));
    }
    cases.push(measure("1 stage, 64 segments in a chain", jobs::net(1, 64, Shape::Chain)));
    cases.push(measure("1 stage, 64 segments at the source", jobs::net(1, 64, Shape::Star)));
    cases.extend([
        refine("hardest: 4 stages, 64 segments, at the last stage", binary(4, 64), 3),
        refine("hardest: 4 stages, 64 segments, at the last segment", binary(4, 64), 67),
        refine("median: 2 stages, 16 segments, at the last stage", binary(2, 16), 1),
        refine("median: 2 stages, 16 segments, at the last segment", binary(2, 16), 17),
    ]);
    cases.push(size("bounds only: 2 stages, 16 segments, room 1", binary(2, 16).bytes()));
    cases.push(size("bounds only: 4 stages, 64 segments, room 1", binary(4, 64).bytes()));
    cases.push(size(
        "hardest, first places free, all tie: room 65,536",
        jobs::first_free().bytes(),
    ));
    cases.push(size(
        "hardest, last segments free, all tie: room 65,536",
        jobs::last_free().bytes(),
    ));
    cases.push(size(
        "hardest, first places free, weighted: room 57,600",
        include_bytes!("../jobs/first.job").to_vec(),
    ));
    cases.push(size(
        "hardest, last segments free, weighted: room 61,740",
        include_bytes!("../jobs/last.job").to_vec(),
    ));
    cases.push(size(
        "median, all tie: 2 stages, 16 segments, room 512",
        jobs::median_unweighted().bytes(),
    ));
    cases.push(size(
        "median, weighted: 2 stages, 16 segments, room 576",
        include_bytes!("../jobs/median.job").to_vec(),
    ));
    cases.push(size(
        "examples/clock.job: room 512",
        include_bytes!("../../examples/clock.job").to_vec(),
    ));
    let thick = [
        questions("1 stage, 64 segments", binary(1, 64)),
        measure("hardest: 4 stages, 64 segments", binary(4, 64)),
        refine("hardest: 4 stages, 64 segments, at the last stage", binary(4, 64), 3),
        refine("hardest: 4 stages, 64 segments, at the last segment", binary(4, 64), 67),
        size("bounds only: 4 stages, 64 segments, room 1", binary(4, 64).bytes()),
    ];
    cases.extend(thick.map(|case| on_two_layers(case, &jobs::THICK)));
    // Both layers have the same rows here, so the room and the delays are those of the case with one layer.
    let last = include_bytes!("../jobs/last.job");
    cases.push(on_two_layers(
        size("hardest, last segments free, weighted: room 61,740", last.to_vec()),
        &jobs::rows(last),
    ));
    let repeated = |stages: usize| binary(stages, 64).with_repeaters();
    cases.extend([
        questions("1 stage, 64 segments, 8 repeaters", repeated(1)),
        measure("hardest: 4 stages, 64 segments, 8 repeaters", repeated(4)),
        refine(
            "hardest: 4 stages, 64 segments, 8 repeaters, at the last segment",
            repeated(4),
            67,
        ),
        refine(
            "hardest: 4 stages, 64 segments, 8 repeaters, at the last repeater",
            repeated(4),
            75,
        ),
        size("bounds only: 4 stages, 64 segments, 8 repeaters, room 1", repeated(4).bytes()),
        size(
            "hardest, 8 repeaters free, weighted: room 65,536",
            include_bytes!("../jobs/repeaters.job").to_vec(),
        ),
    ]);
    let weighted = |stages: usize| binary(stages, 64).with_fractions();
    cases.extend([
        questions("1 stage, 64 segments, 64 fractions", weighted(1)),
        measure("hardest: 4 stages, 64 segments, 64 fractions", weighted(4)),
        refine(
            "hardest: 4 stages, 64 segments, 64 fractions, at the last stage",
            weighted(4),
            3,
        ),
        refine(
            "hardest: 4 stages, 64 segments, 64 fractions, at the last segment",
            weighted(4),
            67,
        ),
        size(
            "bounds only: 4 stages, 64 segments, 64 fractions, room 1",
            weighted(4).bytes(),
        ),
    ]);
    cases
}
