//! The library through its C interface, behind safe functions.

use numlejka::c::{numlejka_choose, numlejka_measure, numlejka_refine, numlejka_size};

use crate::calls::{Call, Outcome};

/// What the parameters of measure hold before a call, so that a refusal that writes is seen.
const DELAY_BEFORE: u64 = 0x0123_4567_89ab_cdef;
const LOAD_BEFORE: u64 = 0xfedc_ba98_7654_3210;

/// Measures a sizing; with the number 0, delay and load go into the first sixteen bytes of `figures`.
pub fn measure(job: &[u8], sizing: &[u8], figures: &mut [u8]) -> u64 {
    let (mut delay, mut load) = (DELAY_BEFORE, LOAD_BEFORE);
    // SAFETY: every slice's pointer comes with its length, and the two figures are this function's own.
    let number = unsafe { numlejka_measure(job.as_ptr(), job.len(), sizing.as_ptr(), sizing.len(), &mut delay, &mut load) };
    if number == 0 {
        figures[..8].copy_from_slice(&delay.to_le_bytes());
        figures[8..16].copy_from_slice(&load.to_le_bytes());
    } else {
        assert_eq!((delay, load), (DELAY_BEFORE, LOAD_BEFORE), "a refusal wrote a figure");
    }
    number as u64
}

/// Refines a sizing at a place; the first ten bytes of `ends` are what the three parameters hold, before the call and after it.
pub fn refine(job: &[u8], sizing: &[u8], place: usize, ends: &mut [u8]) -> u64 {
    let [mut lowest, mut highest] = [ends[0], ends[1]];
    let mut delay = u64::from_le_bytes(ends[2..10].try_into().expect("eight bytes"));
    // SAFETY: every slice's pointer comes with its length, and the ends and the delay are this function's own.
    let number = unsafe {
        numlejka_refine(
            job.as_ptr(),
            job.len(),
            sizing.as_ptr(),
            sizing.len(),
            place,
            &mut lowest,
            &mut highest,
            &mut delay,
        )
    };
    ends[..2].copy_from_slice(&[lowest, highest]);
    ends[2..10].copy_from_slice(&delay.to_le_bytes());
    number as u64
}

/// Chooses between two sizings: 0 for none, 1 for the first, 2 for the second.
pub fn choose(job: &[u8], x: &[u8], y: &[u8]) -> u64 {
    // SAFETY: every pointer comes with the length of the slice that it points to.
    unsafe { numlejka_choose(job.as_ptr(), job.len(), x.as_ptr(), x.len(), y.as_ptr(), y.len()) as u64 }
}

/// Sizes a job; the reply goes to the start of `reply`.
pub fn size(job: &[u8], reply: &mut [u8]) -> u64 {
    // SAFETY: every pointer comes with the length of the slice that it points to.
    unsafe { numlejka_size(job.as_ptr(), job.len(), reply.as_mut_ptr(), reply.len()) as u64 }
}

/// Runs a call and gives its number and the lent buffer after it.
pub fn run(call: &Call) -> Outcome {
    match call {
        Call::Measure { job, sizing, figures } => {
            let mut buffer = figures.clone();
            Outcome {
                number: measure(job, sizing, &mut buffer),
                buffer,
            }
        }
        Call::Refine {
            job,
            sizing,
            place,
            ends,
        } => {
            let mut buffer = ends.clone();
            Outcome {
                number: refine(job, sizing, *place, &mut buffer),
                buffer,
            }
        }
        Call::Choose { job, x, y } => Outcome {
            number: choose(job, x, y),
            buffer: Vec::new(),
        },
        Call::Size { job, reply } => {
            let mut buffer = reply.clone();
            Outcome {
                number: size(job, &mut buffer),
                buffer,
            }
        }
    }
}
