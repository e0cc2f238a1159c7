/* How a host limits a call. It asks for the most passes that settling a plan can take. Where they are few it settles in one call; where not,
 * in calls of at most MOST passes, each on the file that the one before wrote, which gives the bytes and the count of settling in one call.
 * Then a plan that has none, whose output buffer has to be as it was, and a file cut short.
 * Built and run by tests/40-embed; by hand: cc -Iinclude examples/embed/within.c "$(tools/archive)" -o /tmp/within && /tmp/within, in the repository */
#include <stdio.h>
#include <string.h>
#include "gristwaltz.h"
#include "plan.h"

enum { MOST = 1000 }; /* the passes that this host allows a call: docs/EMBEDDING.md has what one costs */

/* Two tasks whose rules take a day a pass: 10,002 passes (examples/slow-pair.txt says why). What could be removed is 10,000 of each duration
 * and of each end, so most passes is 4 x 10,000 + 1; after p passes, up to 10,000, each duration has 10,000 - p left and each end 10,001 - p,
 * and most passes is 40,003 - 4 p. */
static size_t slow_pair(uint8_t *file) {
    size_t at = resource(file, header(file, 1, 1, 2), 61, 3);
    at = task(file, at, 1, (const int32_t[8]){0, 0, 0, 10000, 0, 10000, 2, 2});
    return task(file, at, 1, (const int32_t[8]){1, 1, 0, 10000, 1, 10001, 2, 2});
}

/* the longest duration of task 0, in a file of one resource */
static unsigned longest(const uint8_t *file) { return file[32] | file[33] << 8; }

/* A plan file in one of two buffers; a call writes into the other, and then they change places. */
struct plan_file { uint8_t *file, *other; size_t length; };

static void change_places(struct plan_file *plan) {
    uint8_t *written = plan->other;
    plan->other = plan->file;
    plan->file = written;
}

/* Settles call after call, and tells how far each got. A refusal may come in any of them: then nothing was written, and `file` is what the
 * call before it left. */
static uint64_t settle_in_calls(struct plan_file *plan) {
    for (unsigned call = 1;; call++) {
        uint64_t answer = gristwaltz_settle_within(plan->file, plan->length, MOST, plan->other, GRISTWALTZ_LONGEST_FILE);
        if (gristwaltz_refusal(answer)) return answer;
        change_places(plan);
        if (gristwaltz_passes(answer)) {
            printf("call %u: settled by its pass %u\n", call, gristwaltz_passes(answer));
            return (uint64_t)(call - 1) * MOST + answer;
        }
        uint64_t left = gristwaltz_most_passes(plan->file, plan->length);
        printf("call %u: durations up to %u, at most %u passes left\n", call, longest(plan->file), gristwaltz_passes(left));
    }
}

/* What the host does with a plan: the answer is gristwaltz_settle's, and on success `file` the settled plan's. */
static uint64_t settle_limited(const char *name, struct plan_file *plan) {
    uint64_t most = gristwaltz_most_passes(plan->file, plan->length);
    if (gristwaltz_refusal(most)) return most;
    printf("%s: at most %u passes, ", name, gristwaltz_passes(most));
    if (most > MOST) {
        printf("so in calls of at most %d\n", MOST);
        return settle_in_calls(plan);
    }
    printf("so in one call\n");
    uint64_t answer = gristwaltz_settle(plan->file, plan->length, plan->other, GRISTWALTZ_LONGEST_FILE);
    if (!gristwaltz_refusal(answer)) change_places(plan);
    return answer;
}

int main(void) {
    uint8_t buffers[2][GRISTWALTZ_LONGEST_FILE], kept[GRISTWALTZ_LONGEST_FILE]; /* kept: to compare with */
    struct plan_file plan = {buffers[0], buffers[1], 0};

    plan.length = case_nine(plan.file); /* of task 0 could be removed 1 + 0 + 1 + 1, of task 1 6 + 0 + 6 + 4 and one of two resources: 20 */
    uint64_t answer = settle_limited("case 9", &plan);
    printf("settled after %u passes\n", gristwaltz_passes(answer));

    plan.length = slow_pair(plan.file);
    uint64_t at_once = gristwaltz_settle(plan.file, plan.length, kept, sizeof kept);
    answer = settle_limited("slow pair", &plan);
    int same = answer == at_once && memcmp(plan.file, kept, plan.length) == 0;
    printf("settled after %u passes: %s\n", gristwaltz_passes(answer), same ? "the bytes and the count of settling in one call" : "other than in one call");

    plan.length = without_plan(plan.file);
    memset(plan.other, 0xa5, GRISTWALTZ_LONGEST_FILE);
    memcpy(kept, plan.other, sizeof kept);
    answer = gristwaltz_settle_within(plan.file, plan.length, MOST, plan.other, GRISTWALTZ_LONGEST_FILE);
    printf("no plan: refusal %u, place %u; output %s\n", gristwaltz_refusal(answer), gristwaltz_place(answer), memcmp(plan.other, kept, sizeof kept) ? "changed" : "as it was");

    answer = gristwaltz_most_passes(plan.file, 5);
    printf("cut short: refusal %u, place %u\n", gristwaltz_refusal(answer), gristwaltz_place(answer));
    return 0;
}
