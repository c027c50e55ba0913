//! Plain Rust and the library give the same on every job of the benchmark, and on random ones.

use crate::cases::{self, Work};
use crate::find::{LARGEST, WIDEST, repeaters, room, sizes, widths};
use crate::jobs::{self, Job, Random, Segment, Shape, Weight};
use crate::{REPLY, library, plain};

/// A way to size.
type Size = fn(&[u8], &mut [u8]) -> usize;

/// The three plain ways to size.
const PLAIN: [Size; 3] = [plain::size, plain::size_by_whole_delays, plain::size_fastest];

/// The number and the reply of a way to size, over a buffer of marks.
type Replied = (usize, [u8; REPLY]);

fn replied(job: &[u8], size: Size) -> Replied {
    let mut reply = [0xAA; REPLY];
    (size(job, &mut reply), reply)
}

/// The reply of the three plain ways.
fn same_plain_reply(job: &[u8], name: &str) -> Replied {
    let replies = PLAIN.map(|size| replied(job, size));
    assert_eq!(replies, [replies[0]; 3], "{name}");
    replies[0]
}

/// Replies of all four; the answer is the number that they give.
fn assert_same_reply(job: &[u8], name: &str) -> usize {
    let plain = same_plain_reply(job, name);
    assert_eq!(replied(job, library::size), plain, "{name}");
    plain.0
}

/// Both ends of the tie at a place and the delay reached, of the three plain ways.
fn same_plain_ends(job: &[u8], sizing: &[u8], place: usize, name: &str) -> Result<plain::Refined, usize> {
    let refined = [
        plain::refine(job, sizing, place),
        plain::refine_by_whole_delays(job, sizing, place),
        plain::refine_fastest(job, sizing, place),
    ];
    assert_eq!(refined, [refined[0]; 3], "{name}, place {place}");
    refined[0]
}

/// The same of all four.
fn assert_same_ends(job: &[u8], sizing: &[u8], place: usize, name: &str) {
    let plain = same_plain_ends(job, sizing, place, name);
    assert_eq!(library::refine(job, sizing, place), plain, "{name}, place {place}");
}

#[test]
fn replies_are_the_same_on_all_jobs() {
    for case in cases::all() {
        assert_same_reply(&case.job, &case.name);
    }
}

#[test]
fn every_case_does_its_work() {
    for case in cases::all() {
        match &case.work {
            Work::Questions => {
                assert_eq!(library::size(&case.job, &mut []), 12, "{}", case.name);
                assert_eq!(plain::size(&case.job, &mut []), 12, "{}", case.name);
            }
            Work::Measure { sizing } => {
                let figures = library::measure(&case.job, sizing);
                assert!(figures.is_ok(), "{}", case.name);
                assert_eq!(figures, plain::measure(&case.job, sizing), "{}", case.name);
                assert_eq!(figures, plain::measure_fastest(&case.job, sizing), "{}", case.name);
            }
            Work::Refine { sizing, place } => assert!(library::refine(&case.job, sizing, *place).is_ok(), "{}", case.name),
            Work::Size => assert_eq!(library::size(&case.job, &mut [0; REPLY]), 0, "{}", case.name),
        }
    }
}

#[test]
fn rooms_are_as_the_names_say() {
    for case in cases::all() {
        if let Some((_, said)) = case.name.split_once("room ") {
            let said = said.trim_end_matches(", two layers").replace(',', "");
            assert_eq!(room(&case.job).to_string(), said, "{}", case.name);
        }
    }
}

/// Calls at every place, and at the one past the last, from both bounds.
fn at_every_place(job: &[u8], mut call: impl FnMut(&[u8], usize)) {
    let (lower, upper) = plain::bounds(job).expect("the job passes the questions");
    for sizing in [&lower, &upper] {
        for place in 0..=lower.len() {
            call(sizing, place);
        }
    }
}

/// Refining of all four at every place, from both bounds.
fn assert_same_ends_everywhere(job: &[u8], name: &str) {
    at_every_place(job, |sizing, place| assert_same_ends(job, sizing, place, name));
}

#[test]
fn refining_is_the_same_at_every_place() {
    for case in cases::all() {
        assert_same_ends_everywhere(&case.job, &case.name);
        if let Work::Refine { sizing, place } = &case.work {
            assert_same_ends(&case.job, sizing, *place, &case.name);
        }
    }
}

/// The answer of `measure`, by the library and (a), to so many copies of a job with one byte replaced.
fn assert_same_numbers(random: &mut Random, job: &[u8], copies: usize, name: &str) {
    let (lower, _) = plain::bounds(job).expect("the job passes the questions");
    for _ in 0..copies {
        let mut job = job.to_vec();
        let at = random.below(job.len() as u64) as usize;
        job[at] = if random.below(2) == 0 {
            random.below(7) as u8
        } else {
            random.below(256) as u8
        };
        assert_eq!(
            plain::measure(&job, &lower),
            library::measure(&job, &lower),
            "{name}, byte {at}"
        );
    }
}

/// Damaged jobs: one byte is replaced. Jobs that a damage makes slow are measured only.
#[test]
fn numbers_are_the_same_on_damaged_jobs() {
    let mut random = Random(0xA076_1D64_78BD_642F);
    for case in cases::all() {
        assert_same_numbers(&mut random, &case.job, 20_000, &case.name);
    }
}

/// A layer 1 of other rows than layer 0, and of as many or more, so that a row or a count of the wrong layer shows.
#[test]
fn all_are_the_same_where_the_layers_differ() {
    let mut random = Random(0xE703_7ED1_A0B4_28DB);
    let one = include_bytes!("../jobs/median.job");
    for _ in 0..200 {
        let count = jobs::rows(one).len() as u64 + random.below(3);
        let rows = widths(&mut random, count as usize, WIDEST);
        let job = jobs::on_two_layers(one, &rows);
        let name = format!("{rows:?}");
        assert_eq!(assert_same_reply(&job, &name), 0, "{name}");
        assert_same_ends_everywhere(&job, &name);
        assert_same_numbers(&mut random, &job, 1_000, &name);
    }
}

/// A job with some bytes replaced.
fn with(job: &[u8], bytes: &[(usize, u8)]) -> Vec<u8> {
    let mut job = job.to_vec();
    bytes.iter().for_each(|&(at, byte)| job[at] = byte);
    job
}

/// Each way to fail question 24, alone and where question 3 or 2 fails too.
#[test]
fn layers_that_do_not_fit_give_24() {
    let one = jobs::net(4, 16, Shape::Binary).bytes();
    let two = jobs::on_two_layers(&one, &jobs::THICK);
    let ways = [
        ("a width's layer byte above 1", &two, (16 * 15 + 2, 2)),
        ("a segment's layer byte above 1", &two, (two.len() - 1, 2)),
        ("layers that fall", &two, (16 * 3 + 2, 1)),
        ("layer 1 named and empty", &one, (one.len() - 1, 1)),
    ];
    for (name, job, layer) in ways {
        let fifth_stage = (job.len() - 16 * 16, 3);
        let no_kind = (0, 0);
        let number = |bytes: &[(usize, u8)]| assert_same_reply(&with(job, bytes), name);
        assert_eq!(number(&[layer]), 24, "{name}");
        assert_eq!(number(&[fifth_stage]), 3, "{name}");
        assert_eq!(number(&[layer, fifth_stage]), 24, "{name}");
        assert_eq!(number(&[layer, no_kind]), 2, "{name}");
    }
}

#[test]
fn an_empty_layer_0_gives_3() {
    let job = jobs::net(1, 4, Shape::Binary).bytes();
    let layers = [0, 1, 2, 3, 4, 5, 6, 7].map(|k| (16 * k + 2, 1));
    assert_eq!(assert_same_reply(&with(&job, &layers), "layer 0 empty"), 3);
}

/// How many records of a kind a job has.
fn count(job: &[u8], kind: u8) -> usize {
    job.as_chunks::<16>().0.iter().filter(|r| r[0] == kind).count()
}

/// A range within the first `count` indices: every other time all of them.
fn range(random: &mut Random, count: usize) -> (u8, u8) {
    let (a, b) = (random.below(count as u64) as u8, random.below(count as u64) as u8);
    if random.below(2) == 0 {
        (0, count as u8 - 1)
    } else {
        (a.min(b), a.max(b))
    }
}

/// A tree of 2 to 16 segments with 1 to 8 repeaters. Two times in three the figures are small, so that the bounds stay apart and
/// sizings tie; in one of four no sink has a weight.
fn repeated_job(random: &mut Random) -> Job {
    let (rows, drivers) = (1 + random.below(4) as usize, 1 + random.below(4) as usize);
    let (largest, bits) = [(8, 2u64), (30, 3), (LARGEST, 16)][random.below(3) as usize];
    let (chained, weights) = (1 + random.below(3), 1 + random.below(4));
    let parents: Vec<u8> = (0..2 + random.below(15))
        .map(|i| {
            let is_chained = i == 1 || random.below(chained) == 0;
            (if is_chained { i } else { random.below(i + 1) }) as u8
        })
        .collect();
    let is_end = |i: usize| !parents.contains(&(i as u8 + 1));
    let mut job = Job {
        widths: widths(random, rows, largest.min(WIDEST)),
        sizes: sizes(random, drivers, largest),
        stages: (0..1 + random.below(4)).map(|_| range(random, drivers)).collect(),
        segments: (0..parents.len())
            .map(|i| Segment {
                parent: parents[i],
                length: 1 + random.up_to(bits.div_ceil(2)) as u32,
                sink: (is_end(i) || random.below(3) == 0).then(|| (random.up_to(bits) as u32, random.below(weights) as u8)),
                range: range(random, rows),
            })
            .collect(),
        repeaters: Vec::new(),
        weights: Vec::new(),
    };
    job.stages[0].1 = job.stages[0].0;
    let count = 1 + random.below(8) as usize;
    job.repeaters = repeaters(random, &job, count, (0, 0));
    job.repeaters.iter_mut().for_each(|r| r.range = range(random, drivers));
    job
}

/// So many jobs with repeaters, every other one on two layers, each with its text.
fn repeated_jobs(count: usize) -> Vec<(Vec<u8>, String)> {
    let mut random = Random(0x8EBC_6AF0_9C88_C6E3);
    (0..count)
        .map(|i| {
            let job = repeated_job(&mut random);
            let more = random.below(3) as usize;
            let rows = widths(&mut random, job.widths.len() + more, WIDEST);
            let bytes = if i % 2 == 0 {
                job.bytes()
            } else {
                jobs::on_two_layers(&job.bytes(), &rows)
            };
            let name = format!("job {i} with repeaters: {bytes:?}");
            (bytes, name)
        })
        .collect()
}

/// The cases that have records of a kind, each with its name.
fn cases_with(kind: u8) -> impl Iterator<Item = (Vec<u8>, String)> {
    let all = cases::all().into_iter().map(|case| (case.job, case.name));
    all.filter(move |(job, _)| count(job, kind) > 0)
}

/// The three plain ways among themselves: replies, and refining at every place.
fn same_plain_everywhere(job: &[u8], name: &str) {
    same_plain_reply(job, name);
    at_every_place(job, |sizing, place| {
        if let Ok((_, _, delay)) = same_plain_ends(job, sizing, place, name) {
            let (figures, by_pass) = (plain::measure(job, sizing), plain::measure_fastest(job, sizing));
            assert_eq!(figures, by_pass, "{name}");
            assert!(figures.is_ok_and(|(measured, _)| delay <= measured), "{name}, place {place}");
        }
    });
}

#[test]
fn plain_ways_are_the_same_with_repeaters() {
    for (job, name) in cases_with(5).chain(repeated_jobs(1_000)) {
        same_plain_everywhere(&job, &name);
    }
}

/// Replies, refining at every place, `measure` from both bounds and of damaged copies: the library and all three.
fn assert_same_everywhere(random: &mut Random, job: &[u8], name: &str) {
    assert_same_reply(job, name);
    assert_same_ends_everywhere(job, name);
    at_every_place(job, |sizing, _| {
        assert_eq!(library::measure(job, sizing), plain::measure(job, sizing), "{name}");
    });
    assert_same_numbers(random, job, 1_000, name);
}

#[test]
fn all_are_the_same_with_repeaters() {
    let mut random = Random(0x5895_60A2_47C5_3D21);
    for (job, name) in repeated_jobs(200) {
        assert_same_everywhere(&mut random, &job, &name);
    }
}

/// The random jobs have every count of repeaters, are answered with one sizing and with many, and are refused for their room.
#[test]
fn jobs_with_repeaters_are_of_all_kinds() {
    let jobs = repeated_jobs(200);
    for repeaters in 1..=8 {
        assert!(
            jobs.iter().any(|(job, _)| count(job, 5) == repeaters),
            "{repeaters} repeaters"
        );
    }
    let rooms: Vec<u64> = jobs.iter().map(|(job, _)| room(job)).collect();
    for (least, most) in [(1, 1), (2, 100), (101, 65_536), (65_537, u64::MAX)] {
        let among = rooms.iter().filter(|room| (least..=most).contains(room)).count();
        assert!(among >= 10, "{among} rooms from {least} to {most}");
    }
}

/// The first repeater, at segment 0, drives the branches 1 and 3, the second, at segment 1, drives segment 2. Resistances and
/// capacitances of the segments are 2, 1, 2, 3. With both repeaters at size 0 these delays arise: 3 × (1 + 4) = 15 in the stage,
/// 2 × (1 + 2) = 6 in segment 0, 3 × (1 + 6 + 9) = 48 in the first repeater, 1 × (1/2 + 5) = 5.5 in segment 1, 3 × (1 + 6) = 21
/// in the second repeater, 2 × (1 + 4) = 10 in segment 2 and 3 × (3/2 + 6) = 22.5 in segment 3. So the sinks of segments 1 to 3
/// have 74.5, 105.5 and 91.5, with the weights 1, 2 and 1: scaled 754. The load figure is 8 of wires, 13 of sinks, 1 of the stage
/// and 3 of each repeater: 28.
fn by_hand() -> Job {
    let segment = |parent: u8, length: u32, sink: Option<(u32, u8)>| Segment {
        parent,
        length,
        sink,
        range: (0, 0),
    };
    let repeater = |segment: u8| jobs::Repeater { segment, range: (0, 1) };
    Job {
        widths: vec![(1, 1)],
        sizes: vec![(3, 2, 1), (2, 5, 4)],
        stages: vec![(0, 0)],
        segments: vec![
            segment(0, 2, None),
            segment(1, 1, Some((3, 1))),
            segment(2, 2, Some((4, 2))),
            segment(1, 3, Some((6, 1))),
        ],
        repeaters: vec![repeater(0), repeater(1)],
        weights: Vec::new(),
    }
}

/// The job worked by hand with other weight bytes and three records, of which two say the same weights as before.
fn weighted_by_hand() -> Job {
    let mut job = by_hand();
    for (segment, sink) in [(1, (3, 9)), (2, (4, 200)), (3, (6, 1))] {
        job.segments[segment].sink = Some(sink);
    }
    job.weights = vec![(1, Weight::Whole(1)), (2, Weight::Fraction(0.0078125)), (3, Weight::Absent)];
    job
}

fn assert_as_worked_by_hand(job: &[u8]) {
    for (sizes, figures) in [
        ([0, 0], (754, 28)),
        ([1, 0], (794, 34)),
        ([0, 1], (840, 34)),
        ([1, 1], (856, 40)),
    ] {
        let sizing = [&[0; 5][..], &sizes].concat();
        assert_eq!(plain::measure(job, &sizing), Ok(figures), "{sizes:?}");
        assert_eq!(plain::measure_fastest(job, &sizing), Ok(figures), "{sizes:?}");
        assert_eq!(
            same_plain_ends(job, &sizing, 5, "by hand").map(|(low, high, _)| (low, high)),
            Ok((0, 0))
        );
    }
    let (number, reply) = same_plain_reply(job, "by hand");
    assert_eq!((number, &reply[..8]), (0, &754u64.to_le_bytes()[..]));
}

#[test]
fn a_repeater_behind_a_repeater_is_as_worked_by_hand() {
    assert_as_worked_by_hand(&by_hand().bytes());
}

#[test]
fn weights_of_records_are_as_worked_by_hand() {
    assert_as_worked_by_hand(&weighted_by_hand().bytes());
}

/// A byte that is put into a job: record from the last one back, offset, byte.
type Put = (usize, usize, u8);

/// A job with some bytes replaced.
fn with_puts(job: &[u8], puts: &[Put]) -> Vec<u8> {
    let at = |&(record, offset, byte): &Put| (job.len() - 16 * record + offset, byte);
    with(job, &puts.iter().map(at).collect::<Vec<_>>())
}

/// The net of the cases with repeaters, with some bytes replaced.
fn repeated_with(puts: &[Put]) -> Vec<u8> {
    with_puts(&jobs::net(4, 64, Shape::Binary).with_repeaters().bytes(), puts)
}

/// Each way to fail question 22 or 23, alone and where another fails too.
#[test]
fn repeaters_that_do_not_fit_give_22_or_23() {
    let number = |puts: &[Put]| assert_same_reply(&repeated_with(puts), &format!("{puts:?}"));
    let (empty, beyond) = ([(1, 3, 5), (1, 4, 4)], (2, 4, 16));
    let no_sink = [(9, 3, 0), (9, 8, 0), (9, 9, 0), (9, 10, 0), (9, 11, 0), (9, 12, 0)];
    assert_eq!(number(&[]), 0);
    for (name, site) in [
        ("missing", 64),
        ("missing", 255),
        ("without branches", 63),
        ("stays", 13),
        ("falls", 12),
    ] {
        let site = (1, 2, site);
        assert_eq!(number(&[site]), 22, "{name}");
        assert_eq!(number(&[site, beyond]), 22, "{name}");
        assert_eq!(number(&[&no_sink[..], &[site]].concat()), 11, "{name}");
    }
    assert_eq!(number(&empty), 23);
    assert_eq!(number(&[beyond]), 23);
    assert_eq!(number(&no_sink), 11);
}

/// Questions 2 to 5 where repeaters change them.
#[test]
fn repeaters_have_their_kind_count_numbers_and_zeros() {
    let number = |puts: &[Put]| assert_same_reply(&repeated_with(puts), &format!("{puts:?}"));
    assert_eq!(number(&[(1, 0, 7)]), 2);
    assert_eq!(number(&[(1, 0, 4)]), 2);
    assert_eq!(number(&[(9, 0, 5)]), 3);
    assert_eq!(number(&[(1, 1, 0)]), 4);
    for at in 5..16 {
        assert_eq!(number(&[(1, at, 1)]), 5, "byte {at}");
    }
}

/// A reply of all 76 places is 616 bytes, and is not written where there is one less.
#[test]
fn the_longest_reply_needs_its_room() {
    let job = repeated_with(&[]);
    for size in PLAIN.into_iter().chain([library::size as Size]) {
        let mut reply = [0xAA; 616];
        assert_eq!(size(&job, &mut reply[..615]), 12);
        assert_eq!(reply, [0xAA; 616]);
        assert_eq!(size(&job, &mut reply), 0);
        assert_eq!(reply[612..], [0; 4]);
    }
}

/// A random form of a record that says a count; half are fractions.
fn weight(random: &mut Random, count: u8) -> Weight {
    match random.below(4) {
        0 => Weight::Absent,
        1 => Weight::Whole(count.into()),
        _ if count == 0 && random.below(2) == 0 => Weight::Fraction(-0.0),
        _ => Weight::fraction(count),
    }
}

/// A job with weight records at two of three sinks, and the same job with what they say as weight bytes and without them.
fn weighted_job(random: &mut Random) -> (Job, Job) {
    let (mut weighted, most) = (repeated_job(random), 1 + random.below(256));
    let mut in_bytes = weighted.clone();
    for (i, segment) in (0..).zip(&mut in_bytes.segments) {
        let Some((_, byte)) = segment.sink.as_mut().filter(|_| random.below(3) > 0) else {
            continue;
        };
        let count = random.below(most) as u8;
        let weight = weight(random, count);
        weighted.weights.push((i, weight));
        if !matches!(weight, Weight::Absent) {
            *byte = count;
        }
    }
    (weighted, in_bytes)
}

/// So many jobs with weight records, and each without them.
fn weighted_jobs(count: usize) -> Vec<(Vec<u8>, Vec<u8>)> {
    let mut random = Random(0x94D0_49BB_1331_11EB);
    let bytes = |(weighted, in_bytes): (Job, Job)| (weighted.bytes(), in_bytes.bytes());
    (0..count).map(|_| bytes(weighted_job(&mut random))).collect()
}

/// The three plain ways among themselves, and with and without weight records.
#[test]
fn plain_ways_are_the_same_with_weights() {
    for (job, name) in cases_with(6) {
        same_plain_everywhere(&job, &name);
    }
    for (weighted, in_bytes) in weighted_jobs(1_000) {
        let name = format!("{weighted:?}");
        same_plain_everywhere(&weighted, &name);
        assert_eq!(
            same_plain_reply(&weighted, &name),
            same_plain_reply(&in_bytes, &name),
            "{name}"
        );
        at_every_place(&in_bytes, |sizing, place| {
            assert_eq!(plain::measure(&weighted, sizing), plain::measure(&in_bytes, sizing), "{name}");
            let [ends, without] = [&weighted, &in_bytes].map(|job| plain::refine(job, sizing, place));
            assert_eq!(ends, without, "{name}, place {place}");
        });
    }
}

#[test]
fn all_are_the_same_with_weights() {
    let mut random = Random(0xD6E8_FEB8_6659_FD93);
    for (weighted, _) in weighted_jobs(200) {
        assert_same_everywhere(&mut random, &weighted, &format!("{weighted:?}"));
    }
}

/// The net of the cases with repeaters and three weight records behind them: absent at segment 61, a whole number at 62, and a
/// weight at 63.
fn weighted(last: Weight) -> Vec<u8> {
    let mut job = jobs::net(4, 64, Shape::Binary).with_repeaters();
    job.weights = vec![(61, Weight::Absent), (62, Weight::Whole(255)), (63, last)];
    job.bytes()
}

/// The number of a job with three weight records, the last a fraction, and with some bytes replaced.
fn weighted_number(puts: &[Put]) -> usize {
    assert_same_reply(&with_puts(&weighted(Weight::fraction(77)), puts), &format!("{puts:?}"))
}

/// Questions 2 to 5 where weight records change them.
#[test]
fn weights_have_their_kind_order_and_zeros() {
    assert_eq!(weighted_number(&[]), 0);
    for kind in [(1, 0, 7), (1, 0, 0), (1, 0, 5), (2, 0, 5)] {
        assert_eq!(weighted_number(&[kind]), 2, "{kind:?}");
    }
    assert_eq!(weighted_number(&[(3, 0, 5)]), 3);
    for segment in [(1, 1, 62), (1, 1, 0), (3, 1, 62), (3, 1, 255)] {
        assert_eq!(weighted_number(&[segment]), 4, "{segment:?}");
        assert_eq!(weighted_number(&[segment, (1, 3, 1)]), 4, "{segment:?}");
    }
    let unnamed = [(3, vec![3..16]), (2, vec![3..4, 8..16]), (1, vec![3..8])];
    for (record, bytes) in unnamed {
        for at in bytes.into_iter().flatten() {
            assert_eq!(weighted_number(&[(record, at, 1)]), 5, "record {record}, byte {at}");
            assert_eq!(
                weighted_number(&[(record, at, 128), (3, 1, 64)]),
                4,
                "record {record}, byte {at}"
            );
        }
    }
    assert_eq!(weighted_number(&[(2, 2, 3)]), 5);
    assert_eq!(weighted_number(&[(1, 2, 0)]), 5);
}

/// Each way to fail question 20, alone and where 23 or 21 fails too.
#[test]
fn weights_that_do_not_fit_give_20() {
    let (no_range, no_count) = ((4, 4, 16), (1, 8, 1));
    for (name, put) in [
        ("a missing segment", (1, 1, 64)),
        ("a missing segment", (1, 1, 255)),
        ("no sink", (3, 1, 0)),
        ("a form above 2", (3, 2, 3)),
        ("a form above 2", (3, 2, 255)),
        ("a whole number above 255", (2, 5, 1)),
        ("a whole number above 255", (2, 7, 128)),
    ] {
        assert_eq!(weighted_number(&[put]), 20, "{name}");
        assert_eq!(weighted_number(&[put, no_count]), 20, "{name}");
        assert_eq!(weighted_number(&[put, no_range]), 23, "{name}");
    }
    assert_eq!(weighted_number(&[no_count]), 21);
}

/// Question 3 does not bound the weight records: 256 can rise, and of these the first behind the segments is refused.
#[test]
fn more_weights_than_segments_give_20() {
    let mut job = jobs::net(4, 64, Shape::Binary).with_fractions();
    assert_eq!(assert_same_reply(&job.bytes(), "64 weights"), 0);
    job.weights.extend((64..=255).map(|i| (i, Weight::Absent)));
    assert_eq!(assert_same_reply(&job.bytes(), "256 weights"), 20);
    job.weights.push((0, Weight::Absent));
    assert_eq!(assert_same_reply(&job.bytes(), "257 weights"), 4);
}

/// The number that a fraction gives.
fn fraction_number(fraction: f64) -> usize {
    assert_same_reply(&weighted(Weight::Fraction(fraction)), &format!("{fraction:e}"))
}

/// Every count as a fraction, and those next to it; 0 of either sign.
#[test]
fn fractions_without_a_count_give_21() {
    for count in 0..=255 {
        let fraction = f64::from(count) / 256.0;
        assert_eq!(fraction_number(fraction), 0, "{fraction}");
        for near in [
            fraction.next_up(),
            fraction.next_down(),
            fraction + 1.0,
            fraction + 1.0 / 512.0,
        ] {
            assert_eq!(fraction_number(near), 21, "{near:e}");
        }
        assert_eq!(fraction_number(-fraction), if count == 0 { 0 } else { 21 }, "-{fraction}");
    }
    for fraction in [
        1.0,
        255.0,
        f64::MIN_POSITIVE,
        f64::MAX,
        f64::MIN,
        f64::INFINITY,
        f64::NEG_INFINITY,
    ] {
        assert_eq!(fraction_number(fraction), 21, "{fraction:e}");
    }
    for bits in [0x7FF0_0000_0000_0001, 0x7FF8_0000_0000_0000, 0xFFF8_0000_0000_0000, u64::MAX] {
        assert_eq!(fraction_number(f64::from_bits(bits)), 21, "{bits:x}");
    }
}
