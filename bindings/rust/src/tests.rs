//! The worked jobs J1 to J5, a job with a repeater, and each way of refusing.
use super::*;

type Record = [u8; 16];

/// A record with three words behind its first four bytes.
fn record(head: [u8; 4], words: [u32; 3]) -> Record {
    let mut r = [0; 16];
    r[..4].copy_from_slice(&head);
    for (at, word) in words.iter().enumerate() {
        r[4 + 4 * at..8 + 4 * at].copy_from_slice(&word.to_le_bytes());
    }
    r
}

/// Width i, of a resistance and a capacitance.
fn width(i: u8, resistance: u32, capacitance: u32) -> Record {
    record([1, i, 0, 0], [resistance, capacitance, 0])
}

/// Driver size i, of a resistance, a gate and an output capacitance.
fn driver(i: u8, resistance: u32, gate: u32, output: u32) -> Record {
    record([2, i, 0, 0], [resistance, gate, output])
}

/// Stage i, with its lowest and highest size.
fn stage(i: u8, lowest: u8, highest: u8) -> Record {
    record([3, i, lowest, highest], [0, 0, 0])
}

/// Segment i with a sink: its parent byte, length, sink capacitance and weight, and its highest width.
fn segment(i: u8, parent: u8, length: u32, sink: u32, weight: u8, highest: u8) -> Record {
    record(
        [4, i, parent, 1],
        [length, sink, u32::from_le_bytes([weight, 0, highest, 0])],
    )
}

/// Repeater i at the far end of a segment, with its lowest and highest size.
fn repeater(i: u8, segment: u8, lowest: u8, highest: u8) -> Record {
    record([5, i, segment, lowest], [highest.into(), 0, 0])
}

/// A weight record: the segment, the form, a whole number and the bits of a fraction.
fn weight(segment: u8, form: u8, whole: u32, fraction: u64) -> Record {
    let [low, high] = [fraction as u32, (fraction >> 32) as u32];
    record([6, segment, form, 0], [whole, low, high])
}

/// The bytes of a job.
fn job(records: &[Record]) -> Vec<u8> {
    records.concat()
}

fn with_one_segment(resistance: u32, sink: u32, weight: u8) -> Vec<u8> {
    job(&[
        width(0, 4, 2),
        width(1, 2, 3),
        driver(0, resistance, 3, 1),
        stage(0, 0, 0),
        segment(0, 0, 1, sink, weight, 1),
    ])
}

fn j1() -> Vec<u8> {
    with_one_segment(10, 5, 1)
}

fn j2() -> Vec<u8> {
    with_one_segment(9, 4, 1)
}

fn j3() -> Vec<u8> {
    with_one_segment(10, 5, 0)
}

/// A job with the tables of J4, two widths and two driver sizes, and the records behind them.
fn with_two_of_each(places: &[Record]) -> Vec<u8> {
    let tables = [
        width(0, 4, 2),
        width(1, 2, 3),
        driver(0, 10, 3, 1),
        driver(1, 5, 7, 1),
    ];
    [job(&tables), job(places)].concat()
}

fn j4() -> Vec<u8> {
    with_two_of_each(&[stage(0, 0, 0), stage(1, 0, 1), segment(0, 0, 1, 4, 1, 1)])
}

fn j5() -> Vec<u8> {
    job(&[
        width(0, 1, 1),
        driver(0, 1, 1, 0),
        stage(0, 0, 0),
        record([4, 0, 0, 0], [1, 0, 0]),
        segment(1, 1, 2, 1, 1, 0),
        segment(2, 1, 3, 2, 2, 0),
    ])
}

/// One stage, a segment with a sink and a repeater behind it, and a branch behind that.
fn with_repeater() -> Vec<u8> {
    with_two_of_each(&[
        stage(0, 0, 0),
        segment(0, 0, 1, 5, 1, 0),
        segment(1, 1, 1, 4, 1, 1),
        repeater(0, 0, 0, 1),
    ])
}

/// One stage of one size and n segments at the source, each of four widths and weight 0.
fn flat(n: u8) -> Vec<u8> {
    let mut records = vec![
        width(0, 4, 1),
        width(1, 3, 2),
        width(2, 2, 3),
        width(3, 1, 4),
    ];
    records.extend([driver(0, 1, 1, 0), stage(0, 0, 0)]);
    records.extend((0..n).map(|i| segment(i, 0, 1, 1, 0, 3)));
    job(&records)
}

fn delay(job: &[u8], sizing: &[u8]) -> u64 {
    measure(job, sizing).unwrap().delay
}

/// The least delay, lean and wide of a job that is finished.
fn finished(job: &[u8]) -> (u64, Vec<u8>, Vec<u8>) {
    match size(job) {
        Reply::Finished { delay, places } => (
            delay,
            places.iter().map(|p| p.lean).collect(),
            places.iter().map(|p| p.wide).collect(),
        ),
        other => panic!("{other:?}"),
    }
}

#[test]
fn delays() {
    assert_eq!((delay(&j1(), &[0, 0]), delay(&j1(), &[0, 1])), (208, 206));
    assert_eq!((delay(&j2(), &[0, 0]), delay(&j2(), &[0, 1])), (166, 166));
    assert_eq!((delay(&j3(), &[0, 0]), delay(&j3(), &[0, 1])), (0, 0));
    assert_eq!(
        (delay(&j4(), &[0, 0, 0]), delay(&j4(), &[0, 0, 1])),
        (260, 262)
    );
    assert_eq!(
        (delay(&j4(), &[0, 1, 0]), delay(&j4(), &[0, 1, 1])),
        (270, 262)
    );
    assert_eq!(delay(&j5(), &[0, 0, 0, 0]), 155);
}

#[test]
fn load() {
    assert_eq!(
        measure(&j4(), &[0, 0, 0]),
        Ok(Figures {
            delay: 260,
            load: 11
        })
    );
}

/// At (0, 0, 0, 0) the sink of segment 0 has 10 × (1 + 2 + 5 + 3) + 4 × (1 + 5 + 3) = 146, and behind the repeater, which
/// adds 10 × (1 + 2 + 4) = 70, the other has 146 + 70 + 4 × (1 + 4) = 236. At (0, 0, 1, 1) they have 202 and 253.
#[test]
fn a_repeater_is_a_place() {
    let job = with_repeater();
    assert_eq!(
        measure(&job, &[0, 0, 0, 0]),
        Ok(Figures {
            delay: 2 * (146 + 236),
            load: 2 + 2 + 5 + 4 + 1 + 3 + 1
        })
    );
    assert_eq!(delay(&job, &[0, 0, 1, 1]), 2 * (202 + 253));
    let best = refine(&job, &[0, 0, 0, 1], 3).unwrap();
    assert_eq!((best.lowest, best.highest, best.delay), (0, 0, 764));
    assert_eq!(
        choose(&job, &[0, 0, 0, 1, 9], &[0, 0, 0, 0, 9]),
        Some(&[0, 0, 0, 0][..])
    );
    assert_eq!(finished(&job), (764, vec![0; 4], vec![0; 4]));
    assert_eq!(measure(&job, &[0, 0, 0]).unwrap_err().number, 15);
    assert_eq!(measure(&job, &[0, 0, 0, 2]).unwrap_err().number, 16);
    assert_eq!(refine(&job, &[0, 0, 0, 0], 4).unwrap_err().number, 17);
}

/// J1 with its weight from a record: what the record counts, times the delays of J1, whose own weight is 1.
#[test]
fn a_weight_record_is_no_place() {
    let with = |record: Record| [j1(), record.to_vec()].concat();
    for (record, count) in [
        (weight(0, 0, 0, 0), 1),
        (weight(0, 1, 3, 0), 3),
        (weight(0, 2, 0, 0x3f80_0000_0000_0000), 2),
        (weight(0, 2, 0, 0x8000_0000_0000_0000), 0),
    ] {
        let job = with(record);
        assert_eq!(delay(&job, &[0, 0]), 208 * count);
        let (least, _, wide) = finished(&job);
        assert_eq!((least, wide), (206 * count, vec![0, 1]));
        let kept: &[u8] = if count == 0 { &[0, 0] } else { &[0, 1] };
        assert_eq!(choose(&job, &[0, 0], &[0, 1]), Some(kept));
        assert_eq!(refine(&job, &[0, 0], 2).unwrap_err().number, 17);
    }
    assert_eq!(
        measure(&with(weight(1, 0, 0, 0)), &[0, 0])
            .unwrap_err()
            .number,
        20
    );
    let one = weight(0, 2, 0, 0x3ff0_0000_0000_0000);
    assert_eq!(measure(&with(one), &[0, 0]).unwrap_err().number, 21);
}

/// A chain of 64 segments behind four stages, with eight repeaters, and every reply fits.
#[test]
fn the_most_places() {
    let mut records = vec![width(0, 2, 1), width(1, 1, 2)];
    records.extend([driver(0, 2, 1, 0), driver(1, 1, 2, 0)]);
    records.extend((0..4).map(|i| stage(i, 0, 0)));
    records.extend((0..64).map(|i| segment(i, i, 1, 1, 0, 0)));
    records.extend((0..8).map(|i| repeater(i, i, 0, 1)));
    let job = job(&records);
    assert_eq!(places_of(&job), MOST_PLACES);
    let (least, lean, wide) = finished(&job);
    assert_eq!((least, lean), (0, vec![0; MOST_PLACES]));
    assert_eq!(wide, [[0; 68].as_slice(), &[1; 8]].concat());
}

#[test]
fn later_bytes_are_not_read() {
    assert_eq!(delay(&j1(), &[0, 1, 255]), 206);
}

#[test]
fn both_ends_of_a_tie() {
    let best = |sizing: &[u8], place| {
        let refined = refine(&j4(), sizing, place).unwrap();
        (refined.lowest, refined.highest, refined.delay)
    };
    assert_eq!(best(&[0, 0, 1], 1), (0, 1, 262));
    assert_eq!(best(&[0, 1, 0], 1), (0, 0, 260));
    assert_eq!(best(&[0, 1, 0], 0), (0, 0, 270));
}

#[test]
fn an_index_between_the_ends_may_be_worse() {
    let job = job(&[
        width(0, 3, 3),
        width(1, 2, 4),
        width(2, 1, 5),
        driver(0, 1, 1, 1),
        stage(0, 0, 0),
        segment(0, 0, 1, 0, 1, 2),
    ]);
    let Refined {
        lowest,
        highest,
        delay: reached,
    } = refine(&job, &[0, 1], 1).unwrap();
    assert_eq!((lowest, highest, reached), (0, 2, 17));
    assert_eq!([0, 1, 2].map(|k| delay(&job, &[0, k])), [17, 18, 17]);
}

#[test]
fn chosen_part_is_the_callers_own() {
    let (x, y) = ([0, 0, 7], [0, 1]);
    assert!(std::ptr::eq(choose(&j1(), &x, &y).unwrap(), &y[..]));
    assert!(std::ptr::eq(choose(&j2(), &x, &y).unwrap(), &x[..2]));
    assert_eq!(choose(&j1(), &x, &[0]), None);
    assert_eq!(choose(&[], &x, &y), None);
}

#[test]
fn sizes() {
    assert_eq!(finished(&j1()), (206, vec![0, 1], vec![0, 1]));
    assert_eq!(finished(&j2()), (166, vec![0, 0], vec![0, 1]));
    assert_eq!(finished(&j3()), (0, vec![0, 0], vec![0, 1]));
    assert_eq!(finished(&j4()), (260, vec![0, 0, 0], vec![0, 0, 0]));
    assert_eq!(finished(&j5()), (155, vec![0; 4], vec![0; 4]));
}

#[test]
fn bounds_of_j4() {
    let Reply::Finished { places, .. } = size(&j4()) else {
        panic!()
    };
    let bounds: Vec<_> = places.iter().map(|p| (p.lower, p.upper)).collect();
    assert_eq!(bounds, [(0, 0), (0, 1), (0, 1)]);
}

#[test]
fn room() {
    let (least, lean, wide) = finished(&flat(8));
    assert_eq!((least, lean), (0, vec![0; 9]));
    assert_eq!(wide, [0, 3, 3, 3, 3, 3, 3, 3, 3]);
    let mut bounds = vec![Bounds { lower: 0, upper: 3 }; 10];
    bounds[0].upper = 0;
    assert_eq!(size(&flat(9)), Reply::BoundsOnly(bounds));
}

#[test]
fn refusals() {
    let refused = |number| Reply::Refused(Refusal { number });
    assert_eq!(size(&[]), refused(1));
    assert_eq!(size(&[1; 17]), refused(1));
    assert_eq!(size(&[0; 16]), refused(2));
    let mut bad = j1();
    bad[4] = 2;
    assert_eq!(size(&bad), refused(7));
    bad[3] = 1;
    bad[4] = 0;
    assert_eq!(size(&bad), refused(5));
    bad[2] = 2;
    assert_eq!(size(&bad), refused(24));
    let changed = |at: usize, byte: u8| {
        let mut bad = with_repeater();
        bad[16 * 7 + at] = byte;
        size(&bad)
    };
    assert_eq!(changed(0, 7), refused(2));
    assert_eq!(changed(1, 1), refused(4));
    assert_eq!(changed(5, 1), refused(5));
    assert_eq!(changed(2, 1), refused(22));
    assert_eq!(changed(2, 2), refused(22));
    assert_eq!(changed(3, 2), refused(23));
    assert_eq!(changed(4, 2), refused(23));
    assert_eq!(measure(&j1(), &[0]).unwrap_err().number, 15);
    assert_eq!(measure(&j1(), &[0, 2]).unwrap_err().number, 16);
    assert_eq!(refine(&j1(), &[0], 0).unwrap_err().number, 15);
    assert_eq!(refine(&j1(), &[0, 2], 2).unwrap_err().number, 16);
    assert_eq!(refine(&j1(), &[0, 0], 2).unwrap_err().number, 17);
}

#[test]
fn a_refusal_tells_its_question() {
    let refusal = measure(&[], &[]).unwrap_err();
    assert_eq!(
        refusal.to_string(),
        "refused 1: Is the length above 0 and a multiple of 16?"
    );
    let question = |number| Refusal { number }.question();
    assert_eq!(
        question(12),
        "Does the reply buffer hold 8 * (1 + P) bytes?"
    );
    assert_eq!(question(14), "Is room at most 65,536?");
    assert_eq!(question(17), "Is the place below P?");
    assert!(question(24).starts_with("Is every layer byte 0 or 1"));
    assert!(question(22).starts_with("Is every repeater's segment there"));
    assert!(question(23).starts_with("Is every repeater's lowest at most its highest"));
    assert!(question(20).starts_with("Is the segment of every weight record there"));
    assert!(question(21).starts_with("Is 256 times each fraction a whole number"));
    let numbers: Vec<usize> = QUESTIONS.iter().map(|(number, _)| *number).collect();
    assert_eq!(numbers[10..18], [10, 11, 22, 23, 20, 21, 12, 14]);
}

#[test]
fn number_13_has_no_question() {
    assert_eq!(
        Refusal { number: 13 }.to_string(),
        "refused 13: a number that this version does not use"
    );
}
