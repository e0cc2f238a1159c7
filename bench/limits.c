/* The most stack that a call on each plan file takes (its thread's stack is painted first, and looked at afterwards), and each call's time. */
#define _GNU_SOURCE
#include "../include/gristwaltz.h"
#include <pthread.h>
#include <stdio.h>
#include <stdlib.h>
#include <string.h>
#include <time.h>

enum { STACK = 1 << 20, PAINT = 0x5a };
enum { AT_MOST = 1000 }; /* the passes that settling within is given */

/* The calls as they stand in a line. */
enum call { CHECK, MOST_PASSES, BALANCE, RESOURCE_STEP, PASS, SETTLE_WITHIN, SETTLE, CALLS };
static const char *const called[CALLS] = {"check", "most", "balance", "step", "pass", "within", "settle"};

struct work {
    uint8_t file[GRISTWALTZ_LONGEST_FILE], out[GRISTWALTZ_LONGEST_FILE];
    size_t length;
    unsigned calls;
    enum call call;
    const uint8_t *top;
    uint64_t answer;
    double microseconds;
};

/* not inlined: its own values would count as stack of the calls */
static __attribute__((noinline)) double now(void) {
    struct timespec t;
    clock_gettime(CLOCK_MONOTONIC, &t);
    return (double)t.tv_sec * 1e6 + (double)t.tv_nsec / 1e3;
}

static void *work(void *given) {
    struct work *w = given;
    w->top = __builtin_frame_address(0); /* what the thread took before this is not the calls' */
    w->microseconds = -now(); /* timed inside the thread, whose start may wait for a processor */
    for (unsigned k = 0; k < w->calls; k++) switch (w->call) {
        case CHECK: w->answer = gristwaltz_check(w->file, w->length); break;
        case MOST_PASSES: w->answer = gristwaltz_most_passes(w->file, w->length); break;
        case BALANCE: w->answer = gristwaltz_balance(w->file, w->length, w->out, sizeof w->out); break;
        case RESOURCE_STEP: w->answer = gristwaltz_resource_step(w->file, w->length, 0, w->out, sizeof w->out); break;
        case PASS: w->answer = gristwaltz_pass(w->file, w->length, w->out, sizeof w->out); break;
        case SETTLE_WITHIN: w->answer = gristwaltz_settle_within(w->file, w->length, AT_MOST, w->out, sizeof w->out); break;
        default: w->answer = gristwaltz_settle(w->file, w->length, w->out, sizeof w->out);
        }
    w->microseconds += now();
    return NULL;
}

/* The bytes of a fresh stack that so many calls touched. */
static size_t touched(struct work *w, unsigned calls) {
    uint8_t *stack = NULL;
    if (posix_memalign((void **)&stack, 4096, STACK)) exit(2);
    memset(stack, PAINT, STACK);
    pthread_attr_t attributes;
    pthread_t thread;
    pthread_attr_init(&attributes);
    pthread_attr_setstack(&attributes, stack, STACK);
    w->calls = calls;
    if (pthread_create(&thread, &attributes, work, w)) exit(2);
    pthread_join(thread, NULL);
    size_t clean = 0;
    while (clean < STACK && stack[clean] == PAINT) clean++;
    size_t below = (size_t)(w->top - stack);
    free(stack);
    return below - clean;
}

/* The best of a few rounds of so many calls, in microseconds a round. */
static double best_of(struct work *w, unsigned calls) {
    double best = 1e18;
    for (int round = 0; round < 5; round++) {
        touched(w, calls);
        if (w->microseconds < best) best = w->microseconds;
    }
    return best;
}

struct cost {
    size_t stack;
    double microseconds;
    uint64_t answer;
};

/* What a call costs. Its time: by many calls a round, unless one takes long. Its stack: by one call more, since the first of all may have had to
 * link what it calls. A call of a second or more is made once, for both; the calls on its line before it have linked what it calls. */
static struct cost cost_of(struct work *w, enum call call) {
    struct cost cost;
    w->call = call;
    cost.stack = touched(w, 1);
    cost.microseconds = w->microseconds;
    if (cost.microseconds < 1e6) {
        unsigned calls = best_of(w, 1) < 300 ? 5000 : 10;
        cost.microseconds = best_of(w, calls) / calls;
        cost.stack = touched(w, 1);
    }
    cost.answer = w->answer;
    return cost;
}

/* One plan file: what it is, then the stack of each call and its microseconds. */
static void tell(struct work *w, const char *name) {
    struct cost costs[CALLS];
    for (int k = 0; k < CALLS; k++) costs[k] = cost_of(w, k);
    printf("%-10s %6zu %8u %7u %9u", name, w->length, gristwaltz_refusal(costs[SETTLE].answer), gristwaltz_passes(costs[SETTLE].answer),
           gristwaltz_passes(costs[MOST_PASSES].answer));
    for (int k = 0; k < CALLS; k++) printf(" %7zu", costs[k].stack);
    for (int k = 0; k < CALLS; k++) printf(" %8.*f", costs[k].microseconds < 99999 ? 2 : 0, costs[k].microseconds);
    printf("\n");
}

int main(int count, char **names) {
    static struct work w;
    printf("%-43s  %-55s  microseconds\n", "", "stack");
    printf("%-10s %6s %8s %7s %9s", "plan", "bytes", "refusal", "passes", "at most");
    for (int k = 0; k < CALLS; k++) printf(" %7s", called[k]);
    for (int k = 0; k < CALLS; k++) printf(" %8s", called[k]);
    printf("\n");
    for (int k = 1; k < count; k++) {
        FILE *f = fopen(names[k], "rb");
        if (!f) return 2;
        w.length = fread(w.file, 1, sizeof w.file, f);
        if (fgetc(f) != EOF) return fprintf(stderr, "limits: %s is longer than the header's longest file\n", names[k]), 2;
        fclose(f);
        const char *name = strrchr(names[k], '/');
        tell(&w, name ? name + 1 : names[k]);
    }
    return 0;
}
