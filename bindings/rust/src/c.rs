//! The functions of the archive, as `include/numlejka.h` declares them, for callers that lend their own buffers.

extern "C" {
    pub fn numlejka_measure(
        job: *const u8,
        job_length: usize,
        sizing: *const u8,
        sizing_length: usize,
        delay: *mut u64,
        load: *mut u64,
    ) -> usize;

    pub fn numlejka_refine(
        job: *const u8,
        job_length: usize,
        sizing: *const u8,
        sizing_length: usize,
        place: usize,
        lowest: *mut u8,
        highest: *mut u8,
        delay: *mut u64,
    ) -> usize;

    pub fn numlejka_choose(
        job: *const u8,
        job_length: usize,
        x: *const u8,
        x_length: usize,
        y: *const u8,
        y_length: usize,
    ) -> usize;

    pub fn numlejka_size(
        job: *const u8,
        job_length: usize,
        reply: *mut u8,
        reply_length: usize,
    ) -> usize;
}
