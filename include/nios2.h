/*
 * nios2: a proved Nios II emulator. The archive is libnios2c.a (rt lib in crates/nios2c).
 *
 * Each slice is a pointer to its first element and its number of elements. No two slices of one call may overlap, and no
 * pointer may be null, also where the length is 0. Otherwise a call asks nothing: whatever the numbers and lengths, it
 * reads and writes inside the slices, ends, and answers as said here.
 *
 * mem       the memory's bytes, 8 to 1,048,576 and a multiple of 8. Words are little-endian.
 * read      the map of bytes read before any store: memory length / 8 bytes. The bit of address a is bit a % 8 of byte a / 8.
 * written   the map of bytes stored to, of the same form.
 * state     37 words: r0 to r31, pc, status, estatus, bstatus, ienable.
 * settings  6 words: reset address, exception address, break address, cpuid, multiplier, divider. A multiplier or divider of
 *           0 is absent; any other number counts as present.
 *
 * Numbers of a refused call:
 *   1    memory length not 8 to 1,048,576 and a multiple of 8
 *   2    a map's length is not memory length / 8
 *   3    reset, exception or break address no multiple of 4, or address + 4 above memory length
 *   4    r0 not 0, or status, estatus or bstatus above 1
 *   5    budget above 1,000,000
 *   6    start above end, or end above memory length
 *   255  state is not NIOS2_STATE_WORDS words, or settings not NIOS2_SETTINGS_WORDS
 * The first that holds is given, 255 before all others. A refused call changes nothing but what it answers.
 *
 * Reasons of a run that stopped:
 *   0    budget spent
 *   10   pc no multiple of 4
 *   11   pc + 4 above memory length
 *   12   a word outside the list of instructions
 *   13   custom
 *   14   division by zero, or of 80000000 by FFFFFFFF
 *   15   misaligned address
 *   16   address past memory
 *   17   status, estatus or bstatus above 1
 */
#ifndef NIOS2_H
#define NIOS2_H

#include <stddef.h>
#include <stdint.h>

#define NIOS2_STATE_WORDS 37
#define NIOS2_SETTINGS_WORDS 6
#define NIOS2_ANSWER_WORDS 2

#ifdef __cplusplus
extern "C" {
#endif

/*
 * A fresh start. Gives 0, with both maps cleared and state rewritten: zeros, and pc at the reset address. Or gives a number
 * of 1 to 3, or 255. Of mem only the length counts.
 */
uint32_t nios2_fresh(const uint8_t *mem, size_t mem_len,
                     uint8_t *read, size_t read_len,
                     uint8_t *written, size_t written_len,
                     uint32_t *state, size_t state_len,
                     const uint32_t *settings, size_t settings_len);

/*
 * A run of at most budget steps, with the interrupt lines held: bit n is line n. Rewrites mem, both maps and state, and
 * answers in two words: answer[0] is a number of 1 to 5 or 255, or a reason; answer[1] is the steps made, 0 where the call
 * is refused. Where answer_len is not NIOS2_ANSWER_WORDS, nothing at all is changed.
 */
void nios2_run(uint8_t *mem, size_t mem_len,
               uint8_t *read, size_t read_len,
               uint8_t *written, size_t written_len,
               uint32_t *state, size_t state_len,
               const uint32_t *settings, size_t settings_len,
               uint32_t lines, uint32_t budget,
               uint32_t *answer, size_t answer_len);

/*
 * Whether an edit of the bytes start to end - 1 leaves a run as it is, by the map that the run left in read. 1: yes, no byte
 * of the range was read first. 0: no. Or 256 and a number, 257, 258 or 262.
 */
uint32_t nios2_edit(uint64_t memory_length,
                    const uint8_t *read, size_t read_len,
                    uint64_t start, uint64_t end);

#ifdef __cplusplus
}
#endif

#endif
