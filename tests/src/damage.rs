//! Damages to a valid job, sorted by the question that they are meant to fail.
#![allow(clippy::ptr_arg)] // one type for those that change the length and those that do not

use crate::fractions::{any_near, any_refused};
use crate::plan::{PlannedWeight, weight_record};
use crate::questions::RECORD;
use crate::random::Random;

/// A change to a job's bytes; it may find nothing to change.
type Damage = fn(&mut Random, &mut Vec<u8>);

/// The positions of the records of a kind.
fn records(job: &[u8], kind: u8) -> Vec<usize> {
    (0..job.len() / RECORD)
        .map(|i| i * RECORD)
        .filter(|&at| job[at] == kind)
        .collect()
}

/// The position of a random record of a kind.
fn any_record(random: &mut Random, job: &[u8], kind: u8) -> Option<usize> {
    let found = records(job, kind);
    if found.is_empty() { None } else { Some(random.pick(&found)) }
}

/// Writes a four-byte number.
fn put(job: &mut [u8], at: usize, number: u32) {
    job[at..at + 4].copy_from_slice(&number.to_le_bytes());
}

/// Puts a number out of 0 to `most`, or 0 itself, into a field of a random record of a kind.
fn put_beyond(random: &mut Random, job: &mut [u8], kind: u8, field: usize, most: u32) {
    if let Some(at) = any_record(random, job, kind) {
        let number = random.pick(&[0, most + 1, most + 256, 1 << 16, 1 << 24, (1 << 24) + 1, 1 << 31, u32::MAX]);
        put(job, at + field, if number <= most && number != 0 { most + 1 } else { number });
    }
}

/// Cuts some bytes off the end.
fn cut_end(random: &mut Random, job: &mut Vec<u8>) {
    let length = job.len().saturating_sub(random.between(1, 15) as usize);
    job.truncate(length);
}

/// Adds part of a record at the end.
fn add_part(random: &mut Random, job: &mut Vec<u8>) {
    let part = random.between(1, 15) as usize;
    job.extend(random.bytes(part));
}

/// Leaves nothing.
fn empty(_: &mut Random, job: &mut Vec<u8>) {
    job.clear();
}

/// Gives a record a kind that there is not, or that of repeaters or of weights.
fn unknown_kind(random: &mut Random, job: &mut Vec<u8>) {
    let at = random.below(job.len() / RECORD) * RECORD;
    job[at] = random.pick(&[0, 5, 6, 8, 128, 255]);
}

/// Swaps the records at two positions.
fn swap(job: &mut [u8], a: usize, b: usize) {
    for i in 0..RECORD {
        job.swap(a + i, b + i);
    }
}

/// Swaps two records, of one kind or of two.
fn swap_records(random: &mut Random, job: &mut Vec<u8>) {
    let count = job.len() / RECORD;
    let (a, b) = (random.below(count) * RECORD, random.below(count) * RECORD);
    swap(job, a, b);
}

/// Swaps the first record with the last.
fn swap_ends(_: &mut Random, job: &mut Vec<u8>) {
    let last = job.len() - RECORD;
    swap(job, 0, last);
}

/// Swaps the last record of a kind with one of a later kind, so that the kind falls.
fn swap_last(random: &mut Random, job: &mut [u8], kind: u8, later: u8) {
    if let (Some(&last), Some(other)) = (records(job, kind).last(), any_record(random, job, later)) {
        swap(job, last, other);
    }
}

/// Swaps the last segment with a repeater.
fn swap_with_repeater(random: &mut Random, job: &mut Vec<u8>) {
    swap_last(random, job, 4, 5);
}

/// Swaps the last segment or the last repeater with a weight.
fn swap_with_weight(random: &mut Random, job: &mut Vec<u8>) {
    let kind = random.between(4, 5) as u8;
    swap_last(random, job, kind, 6);
}

/// Gives the last record the kind of weights, which may then be one that passes.
fn weight_last(_: &mut Random, job: &mut Vec<u8>) {
    let last = job.len() - RECORD;
    job[last] = 6;
}

/// Gives a weight a kind that there is not, or one that falls unless the weight is the first.
fn other_kind_of_weight(random: &mut Random, job: &mut Vec<u8>) {
    if let Some(at) = last_or_any(random, job, 6) {
        job[at] = random.pick(&[0, 4, 5, 7, 7, 8, 255]);
    }
}

/// Drops all records of a kind.
fn drop_kind(random: &mut Random, job: &mut Vec<u8>) {
    let kind = random.between(1, 4) as u8;
    *job = job
        .chunks(RECORD)
        .filter(|record| record[0] != kind)
        .flatten()
        .copied()
        .collect();
}

/// The positions of the widths of a layer.
fn widths_of(job: &[u8], layer: u8) -> Vec<usize> {
    let mut found = records(job, 1);
    found.retain(|&at| job[at + 2] == layer);
    found
}

/// Drops all widths of a layer.
fn drop_layer(random: &mut Random, job: &mut Vec<u8>) {
    let layer = random.between(0, 1) as u8;
    *job = job
        .chunks(RECORD)
        .filter(|record| record[0] != 1 || record[2] != layer)
        .flatten()
        .copied()
        .collect();
}

/// Puts all widths on layer 1, numbered on, so that layer 0 is empty.
fn empty_first_layer(_: &mut Random, job: &mut Vec<u8>) {
    for (number, at) in records(job, 1).into_iter().enumerate() {
        (job[at + 1], job[at + 2]) = (number as u8, 1);
    }
    for at in records(job, 4) {
        job[at + 15] = 1;
    }
}

/// Gives a width a layer that there is not; the last one, so that the layers do not fall, or any.
fn bad_width_layer(random: &mut Random, job: &mut Vec<u8>) {
    let found = records(job, 1);
    let Some(&last) = found.last() else { return };
    let at = if random.once_in(2) { last } else { random.pick(&found) };
    job[at + 2] = random.pick(&[2, 3, 128, 255]);
}

/// Gives a segment a layer that there is not.
fn bad_segment_layer(random: &mut Random, job: &mut Vec<u8>) {
    if let Some(at) = any_record(random, job, 4) {
        job[at + 15] = random.pick(&[2, 3, 128, 255]);
    }
}

/// Puts a width on the other layer, so that layers fall unless it is at the border of the two.
fn other_layer(random: &mut Random, job: &mut Vec<u8>) {
    if let Some(at) = any_record(random, job, 1) {
        job[at + 2] ^= 1;
    }
}

/// Lets a segment name layer 1 in a job that has no widths there: they are dropped, or put on layer 0 and numbered on.
fn name_empty_layer(random: &mut Random, job: &mut Vec<u8>) {
    if let Some(at) = any_record(random, job, 4) {
        job[at + 15] = 1;
    }
    let (first, second) = (widths_of(job, 0).len(), widths_of(job, 1));
    if random.once_in(2) {
        for (i, at) in second.into_iter().enumerate() {
            (job[at + 1], job[at + 2]) = ((first + i) as u8, 0);
        }
    } else {
        second.into_iter().rev().for_each(|at| drop(job.drain(at..at + RECORD)));
    }
}

/// Repeats the last record of a kind, of widths that of a layer, numbered on, until there is one too many.
fn too_many(random: &mut Random, job: &mut Vec<u8>) {
    let (kind, most) = random.pick(&[(1u8, 8usize), (2, 16), (3, 4), (4, 64)]);
    let found = if kind == 1 {
        widths_of(job, random.between(0, 1) as u8)
    } else {
        records(job, kind)
    };
    repeat_last(job, &found, most + 1);
}

/// Repeats the last of the records at these positions, numbered on, until there are so many.
fn repeat_last(job: &mut Vec<u8>, found: &[usize], count: usize) {
    let Some(&last) = found.last() else { return };
    let copy = job[last..last + RECORD].to_vec();
    for number in (found.len()..count).rev() {
        let mut record = copy.clone();
        record[1] = number as u8;
        job.splice(last + RECORD..last + RECORD, record);
    }
}

/// Repeats the last repeater until there are nine.
fn nine_repeaters(_: &mut Random, job: &mut Vec<u8>) {
    let found = records(job, 5);
    repeat_last(job, &found, 9);
}

/// Changes the number of a record.
fn change_number(random: &mut Random, job: &mut Vec<u8>) {
    let at = random.below(job.len() / RECORD) * RECORD;
    renumber(random, job, at);
}

/// Changes the number of a repeater.
fn change_repeater_number(random: &mut Random, job: &mut Vec<u8>) {
    if let Some(at) = any_record(random, job, 5) {
        renumber(random, job, at);
    }
}

/// Changes the number of the record at a position.
fn renumber(random: &mut Random, job: &mut [u8], at: usize) {
    job[at + 1] = random.pick(&[job[at + 1].wrapping_add(1), job[at + 1].wrapping_sub(1), 0, 255]);
}

/// Numbers the widths of layer 1 on from those of layer 0.
fn number_on(_: &mut Random, job: &mut Vec<u8>) {
    let first = widths_of(job, 0).len();
    for (i, at) in widths_of(job, 1).into_iter().enumerate() {
        job[at + 1] = (first + i) as u8;
    }
}

/// Drops one record, so that the numbers after it do not fit.
fn drop_record(random: &mut Random, job: &mut Vec<u8>) {
    let at = random.below(job.len() / RECORD) * RECORD;
    job.drain(at..at + RECORD);
}

/// Sets an unnamed byte of a width, a size or a stage; a segment has none.
fn set_unnamed(random: &mut Random, job: &mut Vec<u8>) {
    let kind = random.between(1, 3) as u8;
    set_unnamed_of(random, job, kind);
}

/// Sets an unnamed byte of a repeater.
fn set_unnamed_of_repeater(random: &mut Random, job: &mut Vec<u8>) {
    set_unnamed_of(random, job, 5);
}

/// Sets an unnamed byte of a weight, by its form.
fn set_unnamed_of_weight(random: &mut Random, job: &mut Vec<u8>) {
    set_unnamed_of(random, job, 6);
}

/// The same after the form of a weight is put above 2.
fn set_unnamed_of_bad_form(random: &mut Random, job: &mut Vec<u8>) {
    bad_form(random, job);
    set_unnamed_of(random, job, 6);
}

/// The unnamed bytes of a record of a kind and, of weights, a form; a segment has none.
fn unnamed_bytes(kind: u8, form: u8) -> &'static [usize] {
    match (kind, form) {
        (1, _) => &[3, 12, 13, 14, 15],
        (2, _) => &[2, 3],
        (3, _) => &[4, 5, 6, 7, 8, 9, 10, 11, 12, 13, 14, 15],
        (5, _) => &[5, 6, 7, 8, 9, 10, 11, 12, 13, 14, 15],
        (_, 1) => &[3, 8, 9, 10, 11, 12, 13, 14, 15],
        (_, 2) => &[3, 4, 5, 6, 7],
        _ => &[3, 4, 5, 6, 7, 8, 9, 10, 11, 12, 13, 14, 15],
    }
}

/// Sets an unnamed byte of a record of a kind.
fn set_unnamed_of(random: &mut Random, job: &mut [u8], kind: u8) {
    if let Some(at) = any_record(random, job, kind) {
        job[at + random.pick(unnamed_bytes(kind, job[at + 2]))] = random.between(1, 255) as u8;
    }
}

/// Puts a resistance or a capacitance of a width out of range.
fn width_beyond(random: &mut Random, job: &mut Vec<u8>) {
    let field = random.pick(&[4, 8]);
    put_beyond(random, job, 1, field, 100);
}

/// Puts a resistance, a gate or an output of a size out of range.
fn size_beyond(random: &mut Random, job: &mut Vec<u8>) {
    let field = random.pick(&[4, 8, 12]);
    put_beyond(random, job, 2, field, 100_000);
}

/// Copies a table field from one row to the next, or swaps them, so that the order is lost, unless the two are of different layers.
fn disorder(random: &mut Random, job: &mut Vec<u8>) {
    let kind = random.between(1, 2) as u8;
    let found = records(job, kind);
    if found.len() < 2 {
        return;
    }
    let row = random.below(found.len() - 1);
    let field = found[row] + random.pick(&[4, 8]);
    let swap = random.once_in(2);
    for at in field..field + 4 {
        if swap {
            job.swap(at, at + RECORD);
        } else {
            job[at + RECORD] = job[at];
        }
    }
}

/// Adds a row to a table that is equal to its last.
fn repeat_row(random: &mut Random, job: &mut Vec<u8>) {
    let kind = random.between(1, 2) as u8;
    let Some(&last) = records(job, kind).last() else { return };
    let mut record = job[last..last + RECORD].to_vec();
    record[1] = record[1].wrapping_add(1);
    job.splice(last + RECORD..last + RECORD, record);
}

/// Damages a range: above the table, or turned round; `low` is the byte of its lowest index.
fn bad_range(random: &mut Random, job: &mut [u8], at: usize, low: usize, count: usize) {
    match random.below(4) {
        0 => job[at + low + 1] = count as u8,
        1 => job[at + low + 1] = random.pick(&[255, 128, 16]),
        2 => job[at + low] = job[at + low + 1].wrapping_add(1),
        _ => (job[at + low], job[at + low + 1]) = (count as u8, count as u8),
    }
}

/// Damages the range of a stage.
fn bad_stage(random: &mut Random, job: &mut Vec<u8>) {
    let count = records(job, 2).len();
    if let Some(at) = any_record(random, job, 3) {
        bad_range(random, job, at, 2, count);
    }
}

/// Lets stage 0 choose.
fn free_first_stage(_: &mut Random, job: &mut Vec<u8>) {
    let count = records(job, 2).len();
    if let Some(&at) = records(job, 3).first() {
        (job[at + 2], job[at + 3]) = (0, (count as u8).wrapping_sub(1));
    }
}

/// Hangs a segment on itself or on a later one.
fn late_parent(random: &mut Random, job: &mut Vec<u8>) {
    if let Some(at) = any_record(random, job, 4) {
        job[at + 2] = random.pick(&[job[at + 1].wrapping_add(1), job[at + 1].wrapping_add(2), 255, 64]);
    }
}

/// Damages the sink byte of a segment.
fn bad_sink_byte(random: &mut Random, job: &mut Vec<u8>) {
    if let Some(at) = any_record(random, job, 4) {
        job[at + 3] = random.pick(&[2, 3, 128, 255]);
    }
}

/// Puts a segment's length out of range.
fn length_beyond(random: &mut Random, job: &mut Vec<u8>) {
    put_beyond(random, job, 4, 4, 1_000);
}

/// Puts a sink's capacitance out of range.
fn sink_beyond(random: &mut Random, job: &mut Vec<u8>) {
    put_beyond(random, job, 4, 8, 100_000);
}

/// Damages the range of a segment, by the count of widths of its layer, of the other one, or of both.
fn bad_segment_range(random: &mut Random, job: &mut Vec<u8>) {
    if let Some(at) = any_record(random, job, 4) {
        let layer = job[at + 15];
        let count = match random.below(3) {
            0 => records(job, 1).len(),
            1 => widths_of(job, layer).len(),
            _ => widths_of(job, layer ^ 1).len(),
        };
        bad_range(random, job, at, 13, count);
    }
}

/// Takes the sink of the segment at a position away with all that belongs to it.
fn clear_sink(job: &mut [u8], at: usize) {
    job[at + 3] = 0;
    put(job, at + 8, 0);
    job[at + 12] = 0;
}

/// Leaves a segment without a sink a weight, a capacitance or both; or a byte of a capacitance, which may be out of range too.
fn stray_sink(random: &mut Random, job: &mut Vec<u8>) {
    if let Some(at) = any_record(random, job, 4) {
        clear_sink(job, at);
        let (capacitance, byte) = (random.between(1, 100_000), random.between(1, 255) as u8);
        match random.below(4) {
            0 => job[at + 12] = byte,
            1 => put(job, at + 8, capacitance),
            2 => {
                put(job, at + 8, capacitance);
                job[at + 12] = byte;
            }
            _ => job[at + 8 + random.below(4)] = byte,
        }
    }
}

/// Takes a sink away.
fn drop_sink(random: &mut Random, job: &mut Vec<u8>) {
    if let Some(at) = any_record(random, job, 4) {
        clear_sink(job, at);
    }
}

/// Takes the sink of the last segment away, on which nothing hangs.
fn drop_last_sink(_: &mut Random, job: &mut Vec<u8>) {
    if let Some(&at) = records(job, 4).last() {
        clear_sink(job, at);
    }
}

/// The position of a repeater or a weight: of the last one, so that the segments before it still rise up to it, or of any.
fn last_or_any(random: &mut Random, job: &[u8], kind: u8) -> Option<usize> {
    let last = random.once_in(2);
    let any = any_record(random, job, kind)?;
    if last { records(job, kind).last().copied() } else { Some(any) }
}

/// Puts a segment that there is not into a byte of a repeater or a weight.
fn name_missing(random: &mut Random, job: &mut [u8], kind: u8, byte: usize) {
    let count = records(job, 4).len() as u8;
    if let Some(at) = last_or_any(random, job, kind) {
        job[at + byte] = random.pick(&[count, count, count.wrapping_add(1), 64, 255]);
    }
}

/// Puts a repeater at a segment that there is not.
fn missing_segment(random: &mut Random, job: &mut Vec<u8>) {
    name_missing(random, job, 5, 2);
}

/// Puts a repeater at a segment that has no branches.
fn segment_without_branches(random: &mut Random, job: &mut Vec<u8>) {
    let segments = records(job, 4);
    let parents: Vec<u8> = segments.iter().map(|&at| job[at + 2]).collect();
    let ends: Vec<u8> = (0..segments.len() as u8)
        .filter(|end| !parents.contains(&(end + 1)))
        .collect();
    if let Some(at) = last_or_any(random, job, 5)
        && !ends.is_empty()
    {
        job[at + 2] = random.pick(&ends);
    }
}

/// Hangs the branches of a repeater's segment on what the segment itself hangs on.
fn move_branches(random: &mut Random, job: &mut Vec<u8>) {
    let segments = records(job, 4);
    if let Some(at) = any_record(random, job, 5)
        && let Some(&site) = segments.get(usize::from(job[at + 2]))
    {
        let (parent, own) = (job[site + 2], job[at + 2].wrapping_add(1));
        for segment in segments {
            if job[segment + 2] == own {
                job[segment + 2] = parent;
            }
        }
    }
}

/// Puts a repeater at the segment of the one before it, or swaps the segments of the two.
fn segments_not_rising(random: &mut Random, job: &mut Vec<u8>) {
    not_rising(random, job, 5, 2);
}

/// Gives a weight the segment of the one before it, or swaps the segments of the two.
fn weights_not_rising(random: &mut Random, job: &mut Vec<u8>) {
    not_rising(random, job, 6, 1);
}

/// Copies a byte from a record of a kind to the next, or swaps the two.
fn not_rising(random: &mut Random, job: &mut [u8], kind: u8, byte: usize) {
    let found = records(job, kind);
    if found.len() < 2 {
        return;
    }
    let pair = random.below(found.len() - 1);
    let (first, second) = (found[pair] + byte, found[pair + 1] + byte);
    if random.once_in(2) {
        job[second] = job[first];
    } else {
        job.swap(first, second);
    }
}

/// Damages the range of a repeater, by the count of sizes or of widths.
fn bad_repeater_range(random: &mut Random, job: &mut Vec<u8>) {
    let count = records(job, random.pick(&[2, 2, 2, 1])).len();
    if let Some(at) = any_record(random, job, 5) {
        bad_range(random, job, at, 3, count);
    }
}

/// Repeats a weight.
fn repeat_weight(random: &mut Random, job: &mut Vec<u8>) {
    if let Some(at) = any_record(random, job, 6) {
        job.splice(at..at, job[at..at + RECORD].to_vec());
    }
}

/// Gives a weight to a segment that there is not.
fn weight_of_missing(random: &mut Random, job: &mut Vec<u8>) {
    name_missing(random, job, 6, 1);
}

/// Gives a weight to a segment that has no sink, between those of the segments around it.
fn weight_without_sink(random: &mut Random, job: &mut Vec<u8>) {
    let mut sinkless = records(job, 4);
    sinkless.retain(|&at| job[at + 3] == 0);
    if !sinkless.is_empty() {
        let number = job[random.pick(&sinkless) + 1];
        let weight = random.pick(&[PlannedWeight::Absent, PlannedWeight::Whole(1), PlannedWeight::Fraction(0)]);
        let later = records(job, 6).into_iter().find(|&at| job[at + 1] > number);
        let at = later.unwrap_or(job.len());
        job.splice(at..at, weight_record(number, weight));
    }
}

/// Takes the sink of a weight's segment away.
fn drop_weighed_sink(random: &mut Random, job: &mut Vec<u8>) {
    if let Some(at) = any_record(random, job, 6)
        && let Some(&segment) = records(job, 4).get(usize::from(job[at + 1]))
    {
        clear_sink(job, segment);
    }
}

/// Lets a weight be another one, of the same segment.
fn replace_weight(random: &mut Random, job: &mut [u8], weight: PlannedWeight) -> Option<usize> {
    let at = last_or_any(random, job, 6)?;
    let record = weight_record(job[at + 1], weight);
    job[at..at + RECORD].copy_from_slice(&record);
    Some(at)
}

/// Puts the form of a weight above 2, the bytes behind it zero.
fn bad_form(random: &mut Random, job: &mut Vec<u8>) {
    if let Some(at) = replace_weight(random, job, PlannedWeight::Absent) {
        job[at + 2] = random.pick(&[3, 4, 128, 255]);
    }
}

/// Lets a weight be a whole number above 255.
fn whole_beyond(random: &mut Random, job: &mut Vec<u8>) {
    let number = random.pick(&[256, 257, 511, 1 << 16, 1 << 24, 1 << 31, u32::MAX]);
    replace_weight(random, job, PlannedWeight::Whole(number));
}

/// Lets a weight be a fraction that is refused.
fn bad_fraction(random: &mut Random, job: &mut Vec<u8>) {
    let bits = any_refused(random);
    replace_weight(random, job, PlannedWeight::Fraction(bits));
}

/// Lets a weight be a fraction that may have a count.
fn some_fraction(random: &mut Random, job: &mut Vec<u8>) {
    let bits = any_near(random);
    replace_weight(random, job, PlannedWeight::Fraction(bits));
}

/// Changes one byte, whichever.
fn any_byte(random: &mut Random, job: &mut Vec<u8>) {
    let at = random.below(job.len());
    job[at] = random.byte();
}

/// The questions of a job in their order; 0 stands for any byte.
const ORDER: [usize; 13] = [0, 1, 2, 24, 3, 4, 5, 6, 7, 8, 9, 10, 11];

/// The same with those of repeaters behind them, which come more often.
const ORDER_WITH_REPEATERS: [usize; 18] = [0, 1, 2, 24, 3, 4, 5, 6, 7, 8, 9, 10, 11, 22, 22, 22, 23, 23];

/// The same with those of weights behind them, which come most often; those of repeaters find nothing where there are none.
const ORDER_WITH_WEIGHTS: [usize; 30] = [
    0, 1, 2, 24, 3, 4, 4, 5, 5, 6, 7, 8, 9, 10, 11, 22, 22, 22, 23, 23, 23, 20, 20, 20, 20, 20, 21, 21, 21, 21,
];

/// The damages meant for a question of a job, those of repeaters and of weights left out; for 0 any byte.
fn damages_for(question: usize) -> &'static [Damage] {
    match question {
        1 => &[cut_end, add_part, empty],
        2 => &[unknown_kind, swap_records, swap_ends],
        24 => &[bad_width_layer, bad_segment_layer, other_layer, name_empty_layer],
        3 => &[drop_kind, drop_layer, empty_first_layer, too_many],
        4 => &[change_number, number_on, swap_records, drop_record],
        5 => &[set_unnamed],
        6 => &[width_beyond, size_beyond],
        7 => &[disorder, repeat_row],
        8 => &[bad_stage, free_first_stage],
        9 => &[late_parent],
        10 => &[bad_sink_byte, length_beyond, sink_beyond, stray_sink, bad_segment_range],
        11 => &[drop_sink, drop_last_sink],
        0 => &[any_byte],
        _ => &[],
    }
}

/// The damages of repeaters meant for a question of a job.
fn repeater_damages_for(question: usize) -> &'static [Damage] {
    match question {
        2 => &[weight_last, swap_with_repeater],
        3 => &[nine_repeaters],
        4 => &[change_repeater_number],
        5 => &[set_unnamed_of_repeater],
        22 => &[
            missing_segment,
            segment_without_branches,
            segment_without_branches,
            move_branches,
            segments_not_rising,
            segments_not_rising,
        ],
        23 => &[bad_repeater_range],
        _ => &[],
    }
}

/// The damages of weights meant for a question of a job.
fn weight_damages_for(question: usize) -> &'static [Damage] {
    match question {
        2 => &[other_kind_of_weight, swap_with_weight],
        4 => &[weights_not_rising, weights_not_rising, repeat_weight],
        5 => &[set_unnamed_of_weight, set_unnamed_of_weight, set_unnamed_of_bad_form],
        20 => &[
            weight_of_missing,
            weight_without_sink,
            drop_weighed_sink,
            bad_form,
            whole_beyond,
        ],
        21 => &[bad_fraction, bad_fraction, some_fraction],
        _ => &[],
    }
}

/// Damages a valid job once, twice or three times, so that the order of the questions shows too. Where it has repeaters or weights
/// their damages are among them.
pub fn damage(random: &mut Random, job: &mut Vec<u8>) {
    let [repeated, weighed] = [5, 6].map(|kind| !records(job, kind).is_empty());
    let order = match (repeated, weighed) {
        (_, true) => &ORDER_WITH_WEIGHTS[..],
        (true, false) => &ORDER_WITH_REPEATERS,
        (false, false) => &ORDER,
    };
    let times = random.pick(&[1, 1, 2, 2, 3]);
    let mut questions: Vec<usize> = (0..times).map(|_| random.below(order.len())).collect();
    questions.sort_by(|a, b| b.cmp(a));
    for question in questions {
        if job.len() >= RECORD {
            let mut damages = damages_for(order[question]).to_vec();
            if repeated || weighed {
                damages.extend(repeater_damages_for(order[question]));
            }
            if weighed {
                damages.extend(weight_damages_for(order[question]));
            }
            let kind = random.pick(&damages);
            kind(random, job);
        }
    }
}
