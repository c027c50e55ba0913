//! Numlejka sizes the drivers and wires of a clock net for the least weighted Elmore delay.
//!
//! A job is a slice of records of 16 bytes, a sizing one index for each place, stages first, then segments, then
//! repeaters: `docs/specification.md` of the repository has the formats. Every function is total: it answers, or tells
//! the question that the job or the sizing fails.
//!
//! ```
//! use numlejka::{measure, refine, size, Reply};
//!
//! // Two widths, one driver size, one stage, and a segment of length 1 with a sink of capacitance 5 and weight 1.
//! let job = [
//!     1, 0, 0, 0, 4, 0, 0, 0, 2, 0, 0, 0, 0, 0, 0, 0,
//!     1, 1, 0, 0, 2, 0, 0, 0, 3, 0, 0, 0, 0, 0, 0, 0,
//!     2, 0, 0, 0, 10, 0, 0, 0, 3, 0, 0, 0, 1, 0, 0, 0,
//!     3, 0, 0, 0, 0, 0, 0, 0, 0, 0, 0, 0, 0, 0, 0, 0,
//!     4, 0, 0, 1, 1, 0, 0, 0, 5, 0, 0, 0, 1, 0, 1, 0,
//! ];
//! assert_eq!(measure(&job, &[0, 0]).unwrap().delay, 208);
//! let best = refine(&job, &[0, 0], 1).unwrap();
//! assert_eq!((best.lowest, best.highest, best.delay), (1, 1, 206));
//! let Reply::Finished { delay, places } = size(&job) else { panic!() };
//! assert_eq!(delay, 206);
//! assert_eq!(places[1].lean, 1);
//! assert_eq!(measure(&job, &[0]).unwrap_err().number, 15);
//! ```

pub mod c;

use std::fmt;

/// The scaled delay and the load figure of a sizing. The load figure is the capacitance of all wires, all sinks, the gates
/// of stages 1 and up, the outputs of all stages, stage 0 included, and the gates and outputs of all repeaters, each once.
#[derive(Clone, Copy, Debug, PartialEq, Eq)]
pub struct Figures {
    pub delay: u64,
    pub load: u64,
}

/// The best indices at a place, the rest of a sizing held: the smallest, the largest, and the scaled delay of the sizing
/// with either of the two put there. The two indices are equal exactly when one index alone is best; an index between
/// them need not be a best one.
#[derive(Clone, Copy, Debug, PartialEq, Eq)]
pub struct Refined {
    pub lowest: u8,
    pub highest: u8,
    pub delay: u64,
}

/// The number of the first question whose answer is no. The number 13 is not used: the bounds never cross, so the question
/// that had it is not asked.
#[derive(Clone, Copy, Debug, PartialEq, Eq)]
pub struct Refusal {
    pub number: usize,
}

/// What is known of one place of a job: its bounds, and its index in lean and in wide.
#[derive(Clone, Copy, Debug, PartialEq, Eq)]
pub struct Place {
    pub lower: u8,
    pub upper: u8,
    pub lean: u8,
    pub wide: u8,
}

/// The bounds of one place.
#[derive(Clone, Copy, Debug, PartialEq, Eq)]
pub struct Bounds {
    pub lower: u8,
    pub upper: u8,
}

/// What [`size`] answers; places stand stages first, then segments, then repeaters.
#[derive(Clone, Debug, PartialEq, Eq)]
pub enum Reply {
    /// The least scaled delay, and each place.
    Finished { delay: u64, places: Vec<Place> },
    /// More than 65,536 sizings lie between the bounds: question 14.
    BoundsOnly(Vec<Bounds>),
    /// Any other question fails.
    Refused(Refusal),
}

/// The questions, each with its number, in the order in which they are asked.
const QUESTIONS: [(usize, &str); 21] = [
    (1, "Is the length above 0 and a multiple of 16?"),
    (2, "Is every kind 1 to 6, and does the kind never fall from one record to the next?"),
    (24, "Is every layer byte 0 or 1, does the layer never fall from one width to the next, and has layer 1 a width where a segment names it?"),
    (3, "Are there 1 to 8 widths of layer 0 and at most 8 of layer 1, 1 to 16 sizes, 1 to 4 stages, 1 to 64 segments, at most 8 repeaters?"),
    (4, "Do the numbers count from 0 in each of the kinds 1 to 5, those of widths in each layer, and does byte 1 of the weight records strictly rise?"),
    (5, "Are all unnamed bytes zero?"),
    (6, "Are the values of kinds 1 and 2 in range?"),
    (7, "In each table, that of each layer and that of the sizes, does resistance strictly fall, and do width capacitance and gate capacitance strictly rise?"),
    (8, "Is every stage's lowest at most its highest, which is below the count of sizes, and are both equal for stage 0?"),
    (9, "Is each parent byte at most the segment's own number?"),
    (10, "Are the segments' fields in range, capacitance and weight 0 where there is no sink, and lowest at most highest, which is below the count of widths of the segment's layer?"),
    (11, "Has every segment without branches a sink?"),
    (22, "Is every repeater's segment there, has it branches, and does its number strictly rise from one repeater to the next?"),
    (23, "Is every repeater's lowest at most its highest, which is below the count of sizes?"),
    (20, "Is the segment of every weight record there, has it a sink, is the form at most 2, and a whole number at most 255?"),
    (21, "Is 256 times each fraction a whole number from 0 to 255?"),
    (12, "Does the reply buffer hold 8 * (1 + P) bytes?"),
    (14, "Is room at most 65,536?"),
    (15, "Is each sizing at least P bytes long?"),
    (16, "Is each index in its place's range?"),
    (17, "Is the place below P?"),
];

impl Refusal {
    /// The question whose answer is no.
    pub fn question(self) -> &'static str {
        QUESTIONS
            .iter()
            .find(|(number, _)| *number == self.number)
            .map_or(
                "a number that this version does not use",
                |(_, question)| question,
            )
    }
}

impl fmt::Display for Refusal {
    fn fmt(&self, f: &mut fmt::Formatter<'_>) -> fmt::Result {
        write!(f, "refused {}: {}", self.number, self.question())
    }
}

impl std::error::Error for Refusal {}

/// The answer with the number 0, the refusal with any other.
fn answered<T>(number: usize, answer: T) -> Result<T, Refusal> {
    if number == 0 {
        Ok(answer)
    } else {
        Err(Refusal { number })
    }
}

/// The most places that a job can have: 4 stages, 64 segments and 8 repeaters.
const MOST_PLACES: usize = 76;

/// P of a job that passes its questions: its stages, its segments and its repeaters; weight records are no places.
fn places_of(job: &[u8]) -> usize {
    job.chunks(16)
        .filter(|record| (3..=5).contains(&record[0]))
        .count()
}

/// The scaled delay and the load figure of a sizing.
pub fn measure(job: &[u8], sizing: &[u8]) -> Result<Figures, Refusal> {
    let mut figures = Figures { delay: 0, load: 0 };
    // SAFETY: each pointer has the length of its slice beside it, and the figures are this function's own.
    let number = unsafe {
        c::numlejka_measure(
            job.as_ptr(),
            job.len(),
            sizing.as_ptr(),
            sizing.len(),
            &mut figures.delay,
            &mut figures.load,
        )
    };
    answered(number, figures)
}

/// The smallest and the largest best index at a place, the rest of the sizing held, and the scaled delay that either
/// reaches.
pub fn refine(job: &[u8], sizing: &[u8], place: usize) -> Result<Refined, Refusal> {
    let mut refined = Refined {
        lowest: 0,
        highest: 0,
        delay: 0,
    };
    // SAFETY: each pointer has the length of its slice beside it, and the ends and the delay are this function's own.
    let number = unsafe {
        c::numlejka_refine(
            job.as_ptr(),
            job.len(),
            sizing.as_ptr(),
            sizing.len(),
            place,
            &mut refined.lowest,
            &mut refined.highest,
            &mut refined.delay,
        )
    };
    answered(number, refined)
}

/// The first P bytes of the one of two sizings that has the smaller delay, at a tie of the first; `None` where the job
/// or a sizing is refused, and then [`measure`] of each sizing tells why.
pub fn choose<'a>(job: &[u8], x: &'a [u8], y: &'a [u8]) -> Option<&'a [u8]> {
    // SAFETY: each pointer has the length of its slice beside it, and nothing is written.
    let choice = unsafe {
        c::numlejka_choose(
            job.as_ptr(),
            job.len(),
            x.as_ptr(),
            x.len(),
            y.as_ptr(),
            y.len(),
        )
    };
    match choice {
        1 => Some(&x[..places_of(job)]),
        2 => Some(&y[..places_of(job)]),
        _ => None,
    }
}

/// The least delay of a job, with the bounds, lean and wide at each place.
pub fn size(job: &[u8]) -> Reply {
    let mut reply = [0; 8 * (1 + MOST_PLACES)];
    // SAFETY: each pointer has the length of its slice beside it, and the buffer is this function's own.
    let number =
        unsafe { c::numlejka_size(job.as_ptr(), job.len(), reply.as_mut_ptr(), reply.len()) };
    let (delay, records) = reply.split_at(8);
    let records = records.chunks(8).take(places_of(job));
    match number {
        0 => Reply::Finished {
            delay: u64::from_le_bytes(delay.try_into().expect("eight bytes")),
            places: records
                .map(|r| Place {
                    lower: r[0],
                    upper: r[1],
                    lean: r[2],
                    wide: r[3],
                })
                .collect(),
        },
        14 => Reply::BoundsOnly(
            records
                .map(|r| Bounds {
                    lower: r[0],
                    upper: r[1],
                })
                .collect(),
        ),
        _ => Reply::Refused(Refusal { number }),
    }
}

#[cfg(test)]
mod tests;
