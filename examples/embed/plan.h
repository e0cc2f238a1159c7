/* Plan files written into memory, record by record, for the C examples, and three plans. Each function returns the place after
 * what it wrote: after the last record that is the file's length. */
#ifndef EXAMPLES_PLAN_H
#define EXAMPLES_PLAN_H

#include <stddef.h>
#include <stdint.h>
#include <string.h>

static inline size_t put(uint8_t *file, size_t at, uint32_t value, int bytes) {
    for (int k = 0; k < bytes; k++) file[at + k] = (uint8_t)(value >> (8 * k));
    return at + bytes;
}

static inline size_t header(uint8_t *file, int sense, int resources, int tasks) {
    memcpy(file, "PL", 2);
    return put(file, put(file, put(file, 2, sense, 1), resources, 1), tasks, 2);
}

/* mark: RS for a plain resource, RH for a held one, whose limit has to hold between tasks too */
static inline size_t resource_marked(uint8_t *file, size_t at, const char *mark, int32_t id, int32_t limit) {
    memcpy(file + at, mark, 2);
    return put(file, put(file, at + 2, (uint32_t)id, 4), (uint32_t)limit, 4);
}

static inline size_t resource(uint8_t *file, size_t at, int32_t id, int32_t limit) { return resource_marked(file, at, "RS", id, limit); }

/* low and high of origin, duration, end and height */
static inline size_t task(uint8_t *file, size_t at, int set, const int32_t ranges[8]) {
    memcpy(file + at, "TK", 2);
    at = put(file, at + 2, set, 2);
    for (int k = 0; k < 8; k++) at = put(file, at, (uint32_t)ranges[k], 4);
    return at;
}

static inline size_t case_nine(uint8_t *file) {
    size_t at = resource(file, resource(file, header(file, 1, 2, 2), 7, 4), 9, 3);
    at = task(file, at, 1, (const int32_t[8]){1, 2, 2, 2, 3, 4, 0, 1});
    return task(file, at, 3, (const int32_t[8]){0, 6, 2, 2, 2, 8, 0, 4});
}

/* 2 are due, and two tasks have them on days 1 and 2 and on days 5 and 6; days 3 and 4 are bare */
static inline size_t case_six(uint8_t *file, const char *mark) {
    size_t at = resource_marked(file, header(file, 1, 1, 2), mark, 7, 2);
    at = task(file, at, 1, (const int32_t[8]){1, 1, 2, 2, 3, 3, 2, 2});
    return task(file, at, 1, (const int32_t[8]){5, 5, 2, 2, 7, 7, 2, 2});
}

/* one task of height -1 where the level is to be 0 */
static inline size_t without_plan(uint8_t *file) {
    size_t at = resource(file, header(file, 1, 1, 1), 7, 0);
    return task(file, at, 1, (const int32_t[8]){5, 5, 1, 1, 6, 6, -1, -1});
}

#endif
