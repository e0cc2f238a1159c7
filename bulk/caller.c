/* Makes the engine's calls for another program, over pipes: so the archive that is handed out is called by a C host, beside the comparison.
 *
 * A request is five numbers of 8 bytes (call, place, length of the file, length of the memory, margin), the file, and the memory that holds
 * the output buffer with a margin on either side; settling within a number of passes has that number for the place. The reply is the answer
 * and the memory as the call left it. */
#include "../include/gristwaltz.h"

/* of the C library, whose headers may be those of another machine */
long read(int from, void *to, unsigned long count);
long write(int to, const void *from, unsigned long count);

/* the calls, numbered as bulk/src/engine.rs sends them */
enum { SETTLE, CHECK, BALANCE, STEP, PASS, MOST_PASSES, SETTLE_WITHIN };
/* more than the longest file with a margin on either side; a longer request is refused */
enum { ROOM = 2 * GRISTWALTZ_LONGEST_FILE };

struct request {
    uint64_t call, place, file_len, memory_len, margin;
};

static uint8_t file[ROOM];
static struct {
    uint64_t answer;
    uint8_t memory[ROOM];
} reply;

static int take(void *to, size_t count)
{
    uint8_t *at = to;
    while (count > 0) {
        long got = read(0, at, count);
        if (got <= 0)
            return 0;
        at += got;
        count -= (size_t)got;
    }
    return 1;
}

static int give(const void *from, size_t count)
{
    const uint8_t *at = from;
    while (count > 0) {
        long put = write(1, at, count);
        if (put <= 0)
            return 0;
        at += put;
        count -= (size_t)put;
    }
    return 1;
}

static uint64_t answer_to(const struct request *q)
{
    uint8_t *out = reply.memory + q->margin;
    size_t out_len = q->memory_len - 2 * q->margin;
    switch (q->call) {
    case SETTLE:
        return gristwaltz_settle(file, q->file_len, out, out_len);
    case CHECK:
        return gristwaltz_check(file, q->file_len);
    case BALANCE:
        return gristwaltz_balance(file, q->file_len, out, out_len);
    case PASS:
        return gristwaltz_pass(file, q->file_len, out, out_len);
    case MOST_PASSES:
        return gristwaltz_most_passes(file, q->file_len);
    case SETTLE_WITHIN:
        return gristwaltz_settle_within(file, q->file_len, q->place, out, out_len);
    default:
        return gristwaltz_resource_step(file, q->file_len, q->place, out, out_len);
    }
}

int main(void)
{
    struct request q;
    while (take(&q, sizeof q)) {
        if (q.file_len > ROOM || q.memory_len > ROOM || 2 * q.margin > q.memory_len)
            return 2;
        if (!take(file, q.file_len) || !take(reply.memory, q.memory_len))
            return 2;
        reply.answer = answer_to(&q);
        if (!give(&reply, sizeof reply.answer + q.memory_len))
            return 2;
    }
    return 0;
}
