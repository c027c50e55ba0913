//! The figures that `examples/README.md` and the texts of the examples state, found by the reference.

use std::path::PathBuf;

use numlejka_tests::questions::{Net, read};
use numlejka_tests::reference::{
    Bounds, Least, exhaustive_bounds, exhaustive_least, load_figure, room, scaled_delay, sizings_between,
};
use numlejka_tests::reference_bounds::{least_between, swept_bounds};

/// A file of the examples.
fn example(name: &str) -> Vec<u8> {
    let path = PathBuf::from(env!("CARGO_MANIFEST_DIR")).join("../examples").join(name);
    std::fs::read(path).expect("the example is there")
}

/// The text of a file of the examples.
fn text(name: &str) -> String {
    String::from_utf8(example(name)).expect("text")
}

/// The net of a job that passes.
fn net_of(job: &[u8]) -> Net {
    read(job).expect("a valid job")
}

/// Bounds and least-delay sizings, found by the sweeps.
fn swept(net: &Net) -> (Bounds, Least) {
    let bounds = swept_bounds(net);
    let least = least_between(net, &bounds);
    (bounds, least)
}

/// A number with a comma before each three digits.
fn with_commas(number: u128) -> String {
    let digits = number.to_string();
    let groups: Vec<&str> = digits
        .as_bytes()
        .rchunks(3)
        .rev()
        .map(|group| std::str::from_utf8(group).expect("digits"))
        .collect();
    groups.join(",")
}

/// Each row of the table of jobs has the least delay and the room of its job.
#[test]
fn the_table_of_jobs_is_true() {
    let page = text("README.md");
    let mut rows = 0;
    for row in page.lines().filter(|line| line.starts_with("| `")) {
        let cells: Vec<&str> = row.split('|').map(str::trim).collect();
        let (bounds, least) = swept(&net_of(&example(&format!("{}.job", cells[1].trim_matches('`')))));
        let found = [with_commas(least.delay), with_commas(room(&bounds))];
        assert_eq!(found, [cells[3], cells[4]], "{row}");
        rows += 1;
    }
    assert_eq!(rows, 9);
}

/// What the programs of the examples print for a job.
fn printed(job: &[u8]) -> String {
    let (_, least) = swept(&net_of(job));
    let places = least.lean.iter().zip(&least.wide).enumerate();
    let lines = places.map(|(place, (lean, wide))| format!("place {place} lean {lean} wide {wide}\n"));
    format!("delay {}\n", least.delay) + &lines.collect::<String>()
}

/// Each expected output of the examples is what the reference finds for its job.
#[test]
fn the_expected_outputs_are_true() {
    for name in ["j1", "j2", "j3", "j4", "j5", "repeaters", "weights"] {
        let expected = text(&format!("expected/{name}.out"));
        assert_eq!(printed(&example(&format!("{name}.job"))), expected, "{name}");
    }
}

/// A job without its records of a kind.
fn without_kind(job: &[u8], kind: u8) -> Vec<u8> {
    job.chunks(16).filter(|record| record[0] != kind).flatten().copied().collect()
}

/// A job whose stages from the second on, repeaters and first segments may have every size or width, up to the highest of each
/// table; its other segments keep theirs.
fn widened(job: &[u8], size: u8, width: u8, segments: u8) -> Vec<u8> {
    let mut job = job.to_vec();
    for record in job.chunks_mut(16) {
        match (record[0], record[1]) {
            (3, 1..) => record[2..4].copy_from_slice(&[0, size]),
            (4, number) if number < segments => record[13..15].copy_from_slice(&[0, width]),
            (5, _) => record[3..5].copy_from_slice(&[0, size]),
            _ => {}
        }
    }
    job
}

/// The weights of the sinks, in 256ths, by their segments.
fn weights(net: &Net) -> Vec<u64> {
    let sinks = net.segments.iter().filter_map(|segment| segment.sink.as_ref());
    sinks.map(|sink| sink.weight).collect()
}

/// The weighted mean of the delays of the sinks in nanoseconds, where a unit of delay is a hundredth of a femtosecond.
fn mean_delay(net: &Net, delay: u128) -> f64 {
    let together: u64 = weights(net).iter().sum();
    delay as f64 / (2 * together) as f64 / 1e8
}

/// The one least-delay sizing of a net, its delay and its load figure, found by trying every allowed sizing; and that they are the
/// same in a job with wider ranges.
fn only_sizing(net: &Net, wider: &[u8]) -> (Vec<u8>, u128, u128) {
    let (bounds, least) = swept(net);
    assert_eq!(exhaustive_bounds(net), bounds);
    assert_eq!(exhaustive_least(net, &bounds), least);
    assert_eq!(swept(&net_of(wider)).1, least);
    assert_eq!(least.lean, least.wide);
    let load = load_figure(net, &least.lean);
    (least.lean, least.delay, load)
}

/// The net with repeaters: what its page and its text say of it with them and without.
#[test]
fn repeaters_gain_what_the_page_says() {
    let (page, lines) = (text("README.md"), text("repeaters.txt"));
    let with = example("repeaters.job");
    let without = without_kind(&with, 5);
    assert_eq!(with.len(), without.len() + 4 * 16);
    let stages_trunk_arms_wires = [[2, 5, 9, 4, 1, 2, 0, 0, 0, 0], [2, 6, 11, 4, 3, 4, 0, 1, 1, 2]];
    let repeaters = [&[2, 2, 3, 4][..], &[]];
    let figures = [(8_005_612_800, 58_800, "1.38"), (14_015_076_000, 72_360, "2.42")];
    for (case, job) in [with, without].into_iter().enumerate() {
        let net = net_of(&job);
        let (delay, load, nanoseconds) = figures[case];
        let sizing = [&stages_trunk_arms_wires[case][..], &[0; 8], repeaters[case]].concat();
        assert_eq!(only_sizing(&net, &widened(&job, 11, 4, 7)), (sizing, delay, load));
        assert_eq!(format!("{:.2}", mean_delay(&net, delay)), nanoseconds);
        assert!(page.contains(&with_commas(delay)) && lines.contains(&format!(" {delay}.")));
        assert!(page.contains(&with_commas(load)) && page.contains(nanoseconds));
    }
    let [(less, ..), (more, ..)] = figures;
    assert_eq!((100 * (more - less) + more / 2) / more, 43);
    assert!(page.contains("43 in a hundred less"));
}

/// A job whose weight records are gone, and whose sinks have these weights in the bytes of their own segments.
fn with_own_weights(job: &[u8], weights: &[u8]) -> Vec<u8> {
    let mut job = without_kind(job, 6);
    let sinks = job.chunks_mut(16).filter(|record| record[0] == 4 && record[3] == 1);
    for (record, &weight) in sinks.zip(weights) {
        record[12] = weight;
    }
    job
}

/// The net with weight records: what its page and its text say of it with them and without; and that it is as if the segments' own
/// bytes had the weights.
#[test]
fn weights_change_what_the_page_says() {
    let (page, lines) = (text("README.md"), text("weights.txt"));
    let with = example("weights.job");
    let without = without_kind(&with, 6);
    assert_eq!(with.len(), without.len() + 5 * 16);
    let counts = [128, 64, 16, 25, 7, 16];
    let own = with_own_weights(&with, &counts);
    let [net, alike] = [&with, &without].map(|job| net_of(job));
    assert_eq!(weights(&net), counts.map(u64::from));
    assert_eq!(weights(&alike), [16; 6]);
    let weighed = (vec![1, 3, 4, 4, 2, 1, 0, 0, 0, 0, 0], 26_339_008_000, 30_100);
    let unweighed = (vec![1, 4, 4, 3, 4, 0, 0, 0, 0, 0, 0], 12_052_800_000, 39_940);
    for (job, figures) in [(&with, &weighed), (&own, &weighed), (&without, &unweighed)] {
        assert_eq!(only_sizing(&net_of(job), &widened(job, 5, 4, 9)), *figures);
        let (_, delay, load) = *figures;
        assert!(page.contains(&with_commas(delay)) && lines.contains(&format!(" {delay}.")));
        assert!(page.contains(&with_commas(load)));
    }
    let (least, other) = (weighed.1, scaled_delay(&net, &unweighed.0));
    assert_eq!(other, 27_514_560_000);
    assert!(page.contains(&with_commas(other)) && lines.contains(&format!(" {other}.")));
    for (delay, nanoseconds) in [(least, "0.514"), (other, "0.537")] {
        assert_eq!(format!("{:.3}", mean_delay(&net, delay)), nanoseconds);
        assert!(page.contains(nanoseconds));
    }
    assert_eq!((100 * (other - least) + least / 2) / least, 4);
    assert!(page.contains("4 in a hundred more"));
}

/// What the page says of the bounds of a net with one least-delay sizing and of how many sizings there are: the places at which the
/// bounds differ, by one index, their delays, and the allowed sizings.
fn bounds_are_no_answer(name: &str, apart: &[usize], delays: [u128; 2], allowed: u128) {
    let page = text("README.md");
    let net = net_of(&example(name));
    let (bounds, least) = swept(&net);
    let differ = |place: &usize| bounds.lower[*place] != bounds.upper[*place];
    assert_eq!((0..net.places()).filter(differ).collect::<Vec<_>>(), apart);
    assert!(apart.iter().all(|&place| bounds.lower[place] + 1 == bounds.upper[place]));
    let [lower, upper] = [&bounds.lower, &bounds.upper].map(|bound| scaled_delay(&net, bound));
    assert_eq!([lower, upper], delays);
    assert!(lower > least.delay && upper > least.delay);
    assert_eq!(net.allowed_sizings(), allowed);
    for figure in [lower, upper, allowed] {
        assert!(page.contains(&with_commas(figure)), "{figure}");
    }
    let best = sizings_between(&bounds.lower, &bounds.upper)
        .iter()
        .filter(|sizing| scaled_delay(&net, sizing) == least.delay)
        .count();
    assert_eq!(best, 1);
}

#[test]
fn the_bounds_of_the_net_with_repeaters_are_no_answer() {
    let apart = [1, 2, 5, 19, 20, 21];
    bounds_are_no_answer("repeaters.job", &apart, [8_009_560_000, 8_039_200_000], 629_856);
    assert_eq!(net_of(&example("repeaters.job")).places(), 22);
}

#[test]
fn the_bounds_of_the_net_with_weights_are_no_answer() {
    bounds_are_no_answer("weights.job", &[1, 3, 4, 5], [26_361_920_000, 26_453_504_000], 25_600);
    assert_eq!(net_of(&example("weights.job")).places(), 11);
}
