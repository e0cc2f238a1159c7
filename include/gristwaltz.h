/* Gristwaltz: narrow a service plan until nothing more follows, or say that no plan exists. Link libgristwaltz.a (`rt lib` in crates/gristwaltz),
 * which asks for `memset` and no other function.
 *
 * A plan is a plan file in memory (at most 10,150 bytes). Every call takes any bytes, keeps no state, uses no heap and may run on any number
 * of threads at once. `file` and `out` point to as many bytes as their lengths say, are not NULL, and do not overlap.
 *
 * A resource record has the mark RS or RH, in any mixture, and is written back with its own. RS is a plain resource: its limit has to hold on
 * each day that a task covers there. RH is a held one: it has to hold on all days from the least origin to one before the greatest end of the
 * tasks placed there, on the bare days between tasks too. A task of duration 0 covers no day and takes part in both ends.
 *
 * Every call answers one number: the refusal number times 2^32 plus the place, or, where the refusal number is 0, a number of passes: those
 * that settling made, or those that it makes at most (0 for every call that has none to tell). A call that is lent an `out` writes on success
 * exactly as many bytes as `file` has to its front; on a refusal the whole of `out` is as it was.
 *
 * Refusals, in the order in which they are looked for: 8 and 9 of the first record, 1 (over 256 tasks), 2 (no resource, or over 16), 8 and
 * 9 of the other records and of what is left over, with 13 for a 65th band where it is met whole, 3 (an identifier repeats), 4 (a limit outside its
 * ends), 13 (a band out of order, beyond its ends, or of no resource), then for each task in turn 5 (a range) and 6 (its set), then 12 (no such
 * resource), 10 (`out` shorter than the file), 7 (no plan). The place is a byte of the file for 8 and 9, a resource for 3 and 4, a band for
 * 13, a task for 5 and 6, else 0. */
#ifndef GRISTWALTZ_H
#define GRISTWALTZ_H

#include <stddef.h>
#include <stdint.h>

#ifdef __cplusplus
extern "C" {
#endif

/* The bytes of the longest plan file: room in `out` for any. */
#define GRISTWALTZ_LONGEST_FILE 10150

/* Settles the plan and writes the settled plan's file to `out`: the answer is the number of passes, or the refusal. */
uint64_t gristwaltz_settle(const uint8_t *file, size_t file_len, uint8_t *out, size_t out_len);

/* Says whether the file is a plan that passes the entry checks: 0, or the refusal. */
uint64_t gristwaltz_check(const uint8_t *file, size_t file_len);

/* How many passes gristwaltz_settle makes of this plan at most, whether it settles or finds no plan: 1 plus all that could be removed, which is
 * for every task the sum of high minus low over its four ranges, plus its number of resources less one. The answer is that number (the widest plan
 * has 616,963,841), or the refusal of gristwaltz_check; no pass is made. */
uint64_t gristwaltz_most_passes(const uint8_t *file, size_t file_len);

/* Settles the plan with at most `most` passes. If they are enough, this is gristwaltz_settle: the settled plan in `out` and the number of
 * passes, or its refusal (7 where one of these passes finds no plan; every other refusal comes whatever `most` is). Else the answer is 0, and
 * `out` has the plan as `most` passes left it, with `most` 0 the plan itself: call again from that buffer into another with room. Calling again
 * and again until the answer is not 0 gives what gristwaltz_settle gives of the first file: the same bytes, and the same count once `most` is
 * added for each call before; or its refusal, and then the host holds what the call before left. With `most` of at least 1 that ends, at the
 * latest once the calls have made as many passes as gristwaltz_most_passes answers; with 0 it never does, unless the first call is refused.
 * Whatever a call left is a plan file with the same allowed plans. */
uint64_t gristwaltz_settle_within(const uint8_t *file, size_t file_len, uint64_t most, uint8_t *out, size_t out_len);

/* One balance step, written to `out`: 0, or the refusal. */
uint64_t gristwaltz_balance(const uint8_t *file, size_t file_len, uint8_t *out, size_t out_len);

/* One resource step of the resource at `place` (counted from 0), written to `out`: 0, or the refusal. */
uint64_t gristwaltz_resource_step(const uint8_t *file, size_t file_len, size_t place, uint8_t *out, size_t out_len);

/* One pass, the balance step and then the step of each resource in list order, written to `out`: 0, or the refusal (only settling
 * reports a pass count). Passes one by one, each on the file that the one before wrote, until one changes nothing, that is until the bytes
 * written are those of `file`, are settling, and the pass that changes nothing counts too: the same bytes after as many passes as
 * gristwaltz_settle answers, or its refusal. Whatever a pass left is a plan file with the same allowed plans: it can be kept, and gone on
 * from later, by passes or by settling, whose count then begins anew. (gristwaltz_settle_within makes many passes in one call.) */
uint64_t gristwaltz_pass(const uint8_t *file, size_t file_len, uint8_t *out, size_t out_len);

/* An answer taken apart: the refusal number (0: done), the place of a refusal (else 0), the passes that it tells (0 on a refusal). */
static inline uint32_t gristwaltz_refusal(uint64_t answer) { return (uint32_t)(answer >> 32); }
static inline uint32_t gristwaltz_place(uint64_t answer) { return gristwaltz_refusal(answer) ? (uint32_t)answer : 0; }
static inline uint32_t gristwaltz_passes(uint64_t answer) { return gristwaltz_refusal(answer) ? 0 : (uint32_t)answer; }

#ifdef __cplusplus
}
#endif

#endif
