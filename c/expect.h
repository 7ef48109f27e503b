/* What the tests of the exported calls share: names for the structs, and what they expect of a record or a list. */
#ifndef SCOREBUCKET_EXPECT_H
#define SCOREBUCKET_EXPECT_H

#include "scorebucket.h"

#include <stdio.h>
#include <string.h>

/* In C++ a struct goes by its bare name, unless a function bears it too. */
#ifdef __cplusplus
#define STRUCT(name) name
#else
#define STRUCT(name) struct name
#endif
typedef STRUCT(scorebucket_deque) deque;
typedef STRUCT(scorebucket_open_drain) open_drain;
typedef STRUCT(scorebucket_walk) walk;
typedef STRUCT(scorebucket_span) span;
typedef STRUCT(scorebucket_runs) runs;
typedef STRUCT(scorebucket_reply) reply;
typedef STRUCT(scorebucket_found_reply) found_reply;
typedef STRUCT(scorebucket_truth_reply) truth_reply;
typedef STRUCT(scorebucket_order_reply) order_reply;
typedef STRUCT(scorebucket_search_reply) search_reply;
typedef STRUCT(scorebucket_count_reply) count_reply;

/* 1 once a test has failed. */
extern int failed;

static inline void expect(bool met, const char *file, int line)
{
    if (!met) {
        printf("%s:%d: not met\n", file, line);
        failed = 1;
    }
}
#define EXPECT(met) expect((met), __FILE__, __LINE__)

/* The queue holds these numbers in this order. */
static inline bool holds(const uint32_t *slots, size_t cap, deque q, const uint32_t *numbers, size_t n)
{
    if (q.len != n) return false;
    for (size_t i = 0; i < n; i++) {
        found_reply s = scorebucket_get(slots, cap, &q, i);
        if (s.refused || !s.found || s.number != numbers[i]) return false;
    }
    return true;
}
#define EXPECT_LIST(slots, q, ...) \
    do { \
        static const uint32_t numbers[] = {__VA_ARGS__}; \
        EXPECT(holds(slots, sizeof slots / sizeof slots[0], q, numbers, sizeof numbers / sizeof numbers[0])); \
    } while (0)

/* A queue of six slots whose list 10, 20, 30, 40 goes round the end: head 4. */
static inline deque wrapped(uint32_t *slots)
{
    static const uint32_t laid[6] = {30, 40, 7, 8, 10, 20};
    deque q = {4, 4, 0};
    memcpy(slots, laid, sizeof laid);
    return q;
}

/* The same record, with this word for a mark. */
static inline bool marked(deque q, size_t head, size_t len, size_t mark)
{
    return q.head == head && q.len == len && q.mark == mark;
}

/* The same record, without a mark. */
static inline bool same(deque q, size_t head, size_t len)
{
    return marked(q, head, len, 0);
}

#endif
