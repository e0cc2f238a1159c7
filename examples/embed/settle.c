/* Settles case 9 of the page through the C boundary, by one call and pass by pass, case 6 on a plain and on a held resource, then a plan that
 * has none: its output buffer has to be as it was.
 * Built and run by tests/40-embed; by hand: cc -Iinclude examples/embed/settle.c "$(tools/archive)" -o /tmp/embed && /tmp/embed, in the repository */
#include <stdio.h>
#include <string.h>
#include "gristwaltz.h"
#include "plan.h"

/* Passes one by one until one changes nothing, as a host does that cuts off long calls: `file` holds what is left, however far it got.
 * The number of passes, the last one counted too; 0 where one is refused. */
static unsigned settle_by_passes(uint8_t *file, size_t length) {
    uint8_t out[GRISTWALTZ_LONGEST_FILE];
    for (unsigned passes = 1;; passes++) {
        if (gristwaltz_refusal(gristwaltz_pass(file, length, out, sizeof out))) return 0;
        if (memcmp(out, file, length) == 0) return passes;
        memcpy(file, out, length);
        printf("pass %u: task 1 has set %d, height from %d\n", passes, file[64], file[90]);
    }
}

int main(void) {
    uint8_t file[GRISTWALTZ_LONGEST_FILE], out[GRISTWALTZ_LONGEST_FILE], before[GRISTWALTZ_LONGEST_FILE];

    size_t length = case_nine(file);
    uint64_t answer = gristwaltz_settle(file, length, out, sizeof out);
    printf("case 9: refusal %u, %u passes; task 1 has set %d, height from %d\n", gristwaltz_refusal(answer), gristwaltz_passes(answer), out[64], out[90]);
    unsigned passes = settle_by_passes(file, length);
    printf("passes one by one: %u; %s\n", passes, memcmp(file, out, length) ? "other bytes" : "the same bytes as settling");

    length = case_six(file, "RS");
    answer = gristwaltz_settle(file, length, out, sizeof out);
    printf("case 6, a plain resource: refusal %u, %u passes\n", gristwaltz_refusal(answer), gristwaltz_passes(answer));
    length = case_six(file, "RH");
    answer = gristwaltz_settle(file, length, out, sizeof out);
    printf("case 6, a held one: refusal %u, place %u\n", gristwaltz_refusal(answer), gristwaltz_place(answer));

    length = without_plan(file);
    memset(out, 0xa5, sizeof out);
    memcpy(before, out, sizeof out);
    answer = gristwaltz_settle(file, length, out, sizeof out);
    printf("no plan: refusal %u, place %u; output %s\n", gristwaltz_refusal(answer), gristwaltz_place(answer), memcmp(out, before, sizeof out) ? "changed" : "as it was");

    answer = gristwaltz_check(file, 5);
    printf("cut short: refusal %u, place %u\n", gristwaltz_refusal(answer), gristwaltz_place(answer));
    return 0;
}
