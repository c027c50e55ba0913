/*
 * Numlejka: least-delay sizing of a driven routing tree.
 *
 * A job is a byte buffer of records of 16 bytes; a place is a stage, a segment or a repeater of the job, and P is the
 * number of its places, at most 76; a sizing is P bytes, one index for each place: the stages' first, then the segments',
 * then the repeaters'. docs/specification.md has the formats of jobs and replies, and what every figure and number means.
 *
 * Numbers. Each function but numlejka_choose returns 0 where it has answered, and otherwise the number of the first
 * question whose answer is no. They are asked in this order, so 24 comes after 2 and before 3, and 22, 23, 20 and 21
 * come after 11 and before 12 and 15:
 *
 *   number  question                                                                                  asked by
 *      0    (answered)
 *      1    Is the length above 0 and a multiple of 16?                                               all
 *      2    Is every kind 1 to 6, and does the kind never fall from one record to the next?           all
 *     24    Is every layer byte 0 or 1, does the layer never fall from one width to the next, and
 *           has layer 1 a width where a segment names it?                                             all
 *      3    Are there 1 to 8 widths of layer 0 and at most 8 of layer 1, 1 to 16 sizes, 1 to 4
 *           stages, 1 to 64 segments, at most 8 repeaters?                                            all
 *      4    Do the numbers count from 0 in each of the kinds 1 to 5, those of widths in each layer,
 *           and does byte 1 of the weight records strictly rise?                                      all
 *      5    Are all unnamed bytes zero?                                                               all
 *      6    Are the values of widths and sizes in range?                                              all
 *      7    In each table, that of each layer and that of the sizes, does resistance strictly fall,
 *           and do width capacitance and gate capacitance strictly rise?                              all
 *      8    Is every stage's lowest at most its highest, which is below the count of sizes, and
 *           are both equal for stage 0?                                                               all
 *      9    Is each parent byte at most the segment's own number?                                     all
 *     10    Are the segments' fields in range, capacitance and weight 0 where there is no sink, and
 *           lowest at most highest, which is below the count of widths of the segment's layer?        all
 *     11    Has every segment without branches a sink?                                                all
 *     22    Is every repeater's segment there, has it branches, and does its number strictly rise
 *           from one repeater to the next?                                                            all
 *     23    Is every repeater's lowest at most its highest, which is below the count of sizes?        all
 *     20    Is the segment of every weight record there, has it a sink, is the form at most 2, and a
 *           whole number at most 255?                                                                 all
 *     21    Is 256 times each fraction a whole number from 0 to 255?                                  all
 *     12    Does the reply buffer hold 8 * (1 + P) bytes?                                             size
 *     14    Is room at most 65,536?                                                                   size
 *     15    Is each sizing at least P bytes long? Later bytes make no difference to the answer.       measure, refine, choose
 *     16    Is each index in its place's range?                                                       measure, refine, choose
 *     17    Is the place below P?                                                                     refine
 *
 * The number 13 is not used, and no function returns it: it was that of the question whether the lower bound of each
 * place is at most the upper, which always holds.
 *
 * Buffers. A buffer is a pointer to its first byte and its length in bytes. The pointer of a buffer of length 0 may be
 * null: nothing is read or written through it. Every other pointer points to as many bytes as its length says, and a
 * pointer without a length to one value; none of these may be null. What a function writes to (delay, load, lowest,
 * highest, reply) overlaps no other argument of the call. Buffers that are only read may overlap each other.
 *
 * Refusals. A call that returns a number other than 0 leaves all memory of the caller as it was. The one exception is
 * numlejka_size with 14, which writes a reply of bounds.
 *
 * Threads. The library keeps no state and allocates nothing. Any number of calls may run at the same time, as long as
 * nothing writes to a buffer that a running call reads, and nothing uses a buffer that a running call writes to.
 *
 * Stack. A call needs at most 24 KiB of stack. Measured on painted stacks, on x86-64 Linux, with a chain of 64 segments
 * behind 4 stages and 16 places free, the deepest net and the deepest search that there are: size, measure and choose
 * 12 KiB, refine 4 KiB. The rest is margin; it covers what the dynamic linker may use when the C library's memcpy is
 * called for the first time (3 KiB more). tests/tests/stack.rs measures it again.
 *
 * Time. A call ends on every input. How long it takes depends on the job and is not promised.
 *
 * Link with libnumlejka.a and the C library; nothing else is needed.
 */
#ifndef NUMLEJKA_H
#define NUMLEJKA_H

#include <stddef.h>
#include <stdint.h>

#ifdef __cplusplus
extern "C" {
#endif

/* A reply buffer of this length holds the reply of every job: 8 * (1 + 76) bytes. */
#define NUMLEJKA_REPLY_LENGTH 616

/*
 * Measures a sizing. Returns the number; with 0 the scaled delay of the sizing is in *delay and its load figure in
 * *load, with every other number both are as they were. The load figure is the capacitance of all wires, all sinks, the
 * gates of stages 1 and up, the outputs of all stages, stage 0 included, and the gates and outputs of all repeaters, each
 * once.
 */
size_t numlejka_measure(const uint8_t *job, size_t job_length,
                        const uint8_t *sizing, size_t sizing_length,
                        uint64_t *delay, uint64_t *load);

/*
 * Finds the best indices at one place, the rest of the sizing held: the allowed indices that give the smallest delay.
 * Returns the number; with 0 the smallest of them is in *lowest, the largest in *highest, and in *delay the scaled delay
 * of the sizing with either of the two put at the place: it is the same. The two are equal exactly when one index alone
 * is best; an index between them need not be a best one. With every other number all three are as they were.
 */
size_t numlejka_refine(const uint8_t *job, size_t job_length,
                       const uint8_t *sizing, size_t sizing_length,
                       size_t place, uint8_t *lowest, uint8_t *highest, uint64_t *delay);

/*
 * Tells which of two sizings has the smaller delay. Returns 1 for x, also at a tie, 2 for y, and 0 where the job or
 * one of the sizings is refused; numlejka_measure of each sizing then tells the number. The chosen sizing is the first
 * P bytes of its buffer.
 */
size_t numlejka_choose(const uint8_t *job, size_t job_length,
                       const uint8_t *x, size_t x_length,
                       const uint8_t *y, size_t y_length);

/*
 * Sizes a job. Returns the number. With 0 the first 8 * (1 + P) bytes of the buffer are the reply: eight bytes with
 * the least scaled delay, the lowest byte first, then for each place, stages, segments and repeaters, the eight bytes
 * lower bound, upper bound, lean, wide, 0, 0, 0, 0. With 14 the reply has the bounds, and the delay's eight bytes,
 * lean and wide are all 255. The bytes behind the reply are as they were. With every other number the whole buffer is
 * as it was.
 */
size_t numlejka_size(const uint8_t *job, size_t job_length,
                     uint8_t *reply, size_t reply_length);

#ifdef __cplusplus
}
#endif

#endif
