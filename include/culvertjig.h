/* The block calls of libculvertjig.a. Each settles one hour block: culvertjig_block of a unit's day sheet, culvertjig_line_block of an
 * internal controllable line's day.
 *
 * `sh tools/staticlib` proves the library and writes the archive, for x86-64 Linux. docs/sheet.md has the blocks, key by key, and
 * docs/answers.md what each refusal means. tests/examples.sh holds these declarations against crates/culvertjig_c/src/lib.rt.
 */
#ifndef CULVERTJIG_H
#define CULVERTJIG_H

#include <stdbool.h>
#include <stddef.h>
#include <stdint.h>

#ifdef __cplusplus
extern "C" {
#endif

/* Lend a row of so many places, and no block is refused for want of room. */
#define CULVERTJIG_ROW 30

/* Settles the block that begins at the first byte and goes to its first empty line or to the last byte lent. Returns 0 if it is paid. Then
 * `grains`, `cents` and the first places of `row`, one for each interval, are written. Otherwise returns the number of the check that
 * refuses it, and `place` alone is written. What is not written stays as it was.
 *
 *   block, block_length   the bytes of the block
 *   excluded              whether the hour is excluded by its day's marks: it is checked all the same, and pays 0
 *   expected              the hour that the block has to say, from 0; below 0: any, and the block may say 0 to 24
 *   hours                 how many hours the block's day has: any number is taken, exactly 25 lets the block say hour 24, and every other is as
 *                         24; not read if any hour will do
 *   row, row_length       the contributions of the intervals, in grains; CULVERTJIG_ROW places are always enough
 *   place                 of a refusal: a line of the block (checks 1 to 4), an interval, counted from 1 (6, 7 and 10), or 0 (5 and 8)
 *   grains                the hour's sum, which may be below 0; a grain is 1/3,600,000 cent
 *   cents                 what the hour pays: the whole cents nearest to the sum, a half going up; 0 if the sum is below 0
 *
 * The checks: 1 FORM, 2 RANGE, 3 ORDER (the hour is not the expected one), 4 CURVE, 5 SECONDS, 6 DERATE, 7 REACH, 8 ROOM (the row is shorter
 * than the intervals are many), 10 POINT (no real-time curve to find an operating point on). 9 is of a sheet that moves, and never given here.
 *
 * The call keeps nothing, allocates nothing, reads and writes only what is lent, and may run in many threads at once. Each pointer and its
 * length belong together, no pointer is null, what is lent for writing lies apart from everything else that is lent, and nobody else
 * writes to it during the call.
 */
uint64_t culvertjig_block(const uint8_t *block, size_t block_length, bool excluded, int64_t expected, uint64_t hours, int64_t *row,
                          size_t row_length, uint64_t *place, int64_t *grains, int64_t *cents);

/* The same for a block of an internal controllable line, which has other keys (docs/sheet.md). `excluded` is whether its hour's mark is 0,
 * and checks 6 and 10 never refuse it.
 */
uint64_t culvertjig_line_block(const uint8_t *block, size_t block_length, bool excluded, int64_t expected, uint64_t hours, int64_t *row,
                               size_t row_length, uint64_t *place, int64_t *grains, int64_t *cents);

#ifdef __cplusplus
}
#endif

#endif
