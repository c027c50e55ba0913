//! The library through its Rust binding, in the form that the benchmark times.

use numlejka::c::numlejka_size;

/// Delay and load figure of a sizing, or the number of the first question that fails.
pub fn measure(job: &[u8], sizing: &[u8]) -> Result<(u64, u64), usize> {
    match numlejka::measure(job, sizing) {
        Ok(figures) => Ok((figures.delay, figures.load)),
        Err(refusal) => Err(refusal.number),
    }
}

/// Both ends of the tie at a place and the delay that either reaches, or the number of the first question that fails.
pub fn refine(job: &[u8], sizing: &[u8], place: usize) -> Result<(u8, u8, u64), usize> {
    match numlejka::refine(job, sizing, place) {
        Ok(refined) => Ok((refined.lowest, refined.highest, refined.delay)),
        Err(refusal) => Err(refusal.number),
    }
}

/// Sizes a job; the reply goes to the start of `reply`.
pub fn size(job: &[u8], reply: &mut [u8]) -> usize {
    // SAFETY: each pointer comes with the length of its slice.
    unsafe { numlejka_size(job.as_ptr(), job.len(), reply.as_mut_ptr(), reply.len()) }
}
