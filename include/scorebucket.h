/* Scorebucket: a double-ended queue of uint32_t in slots that the caller lends. For C and C++ (from C99 and C++11 on).
 *
 * Link with the archive that `sh tools/native.sh . exports` makes. Every function is proved to meet its contract, which
 * this page tells in words (the contracts stand in crates/exports_.., src), for any record and any numbers: what can't
 * be done is refused, and nothing past the slots is read or written.
 *
 * THE QUEUE is an array of slots and a record {head, len, mark}. The number of slots, `cap` below, is its capacity. The
 * first element, at position 0, stands in slot `head`, the later ones in the slots behind it, and behind the last slot
 * comes slot 0 again. Every call takes the record's address, and a call that changes the queue changes its record
 * there: a copy of the record from before such a call is of no use any more. A record of all zeros is an empty queue's.
 *
 * THE MARK is 0, but for a queue that another one is being moved into by portions. `scorebucket_move_portion` alone
 * sets it, to 1: elements are still to come, and the queue can be looked at but not changed. The portion that leaves
 * the old queue empty makes it 0 again, and a call that makes a new record makes one without the mark. Any number but
 * 0 counts as set.
 *
 * MEMORY is the caller's: slots, records and whatever else a pointer leads to. Nothing is allocated or freed, and no
 * pointer is kept: a call uses its pointers until it returns. Calls on different slots and records may run at the same
 * time.
 *
 * WHAT A CALLER MUST SEE TO, since no call can test it:
 *   - A pointer with a length points to that many slots, values or bytes. With length 0 it may be anything, also NULL.
 *     A pointer without a length, to a record, a drain, a walk or runs, is never NULL. All are aligned for their type.
 *   - What a call may write (a pointer without `const`) overlaps nothing else that is lent to the same call. What it
 *     only reads may overlap.
 *   - While a drain is open, its queue's slots are used by that drain's calls alone, and the queue's record by none; a
 *     drain is closed once.
 *
 * ANSWERS. `refused` is 0, or the number of a refusal. Refused, no slot and no record is changed, and all else of the
 * answer is 0. `handed` is 1 where `number` was handed over; where there was none, both are 0, and nothing is changed.
 * `moved` is how many elements stand in another slot now, those that went from one queue to another among them.
 *
 * REFUSALS are asked in the order of their numbers, but for 6, which comes right behind 2, and the first that holds is
 * given. 6 is refused by every call that can change the queue's list or record, whatever it would do this time: not by
 * one that only looks, and not of slots over which a new record is made. What a call refuses beside 1, 2 and 6 is said
 * of each. A call on two queues asks these of the first, then of the second, then the rest. */
#ifndef SCOREBUCKET_H
#define SCOREBUCKET_H

#include <stdbool.h>
#include <stddef.h>
#include <stdint.h>

#ifdef __cplusplus
extern "C" {
#endif

/* Why a call was refused. */
enum scorebucket_refusal {
    SCOREBUCKET_ACCEPTED = 0,
    /* There are more than 16,000 slots. */
    SCOREBUCKET_SLOTS = 1,
    /* The record is not good for these slots: head is not below cap (0 is good for 0 slots), or len is above cap. Of a
     * drain: head is not so, start + drain_len + tail_len is above cap, idx is below start, or idx + remaining is above
     * start + drain_len. Of a walk: its queue's record is not good, or not low <= high <= len. */
    SCOREBUCKET_RECORD = 2,
    /* A position or a range goes past the end, a range ends before it starts, or a test is of no known kind. */
    SCOREBUCKET_POSITION = 3,
    /* The elements would be more than the slots that are to hold them, or the bytes more than the target's. */
    SCOREBUCKET_ROOM = 4,
    /* The bytes are no image. */
    SCOREBUCKET_IMAGE = 5,
    /* The queue's mark is set: another queue is being moved into it. Go on with `scorebucket_move_portion` from the old
     * queue until that is empty, and then make the call again. */
    SCOREBUCKET_OPEN = 6
};

/* What a test asks of an element, beside the number k. Another kind is refused with SCOREBUCKET_POSITION. */
enum scorebucket_test {
    SCOREBUCKET_BELOW = 1,    /* below k */
    SCOREBUCKET_AT_LEAST = 2, /* k or more */
    SCOREBUCKET_EQUAL = 3,    /* k */
    SCOREBUCKET_NOT_EQUAL = 4 /* another number than k */
};

/* How two lists stand to each other; 0 where the call was refused. */
enum scorebucket_order { SCOREBUCKET_LESS = 1, SCOREBUCKET_SAME = 2, SCOREBUCKET_GREATER = 3 };

/* The record of a queue: where its first element stands, how many there are, and the mark: 0 where no move into the
 * queue is open. */
struct scorebucket_deque {
    size_t head, len, mark;
};

/* The record of an open drain: `start` elements stand in front of it and `tail_len` behind; of its `drain_len` elements
 * the `remaining` from position `idx` on are not handed over yet. */
struct scorebucket_open_drain {
    size_t head, start, drain_len, idx, tail_len, remaining;
};

/* A walk over a queue: the positions from `low` to before `high` are still to come. */
struct scorebucket_walk {
    struct scorebucket_deque queue;
    size_t low, high;
};

/* A part of the slots, from `start` to before `end`. */
struct scorebucket_span {
    size_t start, end;
};

/* The two runs of a range of positions: its elements are those of `front`, then those of `back`. */
struct scorebucket_runs {
    struct scorebucket_span front, back;
};

/* Of a call that changes a queue or makes one. Every answer comes back in registers. */
struct scorebucket_reply {
    uint16_t refused, handed;
    uint32_t number;
    size_t moved;
};

/* Of a look at one element, or a walk's step: `found` is 1 where `number` stands there, else both are 0. */
struct scorebucket_found_reply {
    uint16_t refused, found;
    uint32_t number;
};

/* Of a yes-or-no question. */
struct scorebucket_truth_reply {
    uint16_t refused;
    bool is;
};

/* Of `cmp`: a value of enum scorebucket_order. */
struct scorebucket_order_reply {
    uint16_t refused, order;
};

/* Of a search: `found` is 1 and `position` is where it stands, or 0 and where to insert it. */
struct scorebucket_search_reply {
    uint16_t refused, found;
    size_t position;
};

/* A number of elements or of bytes. */
struct scorebucket_count_reply {
    uint16_t refused;
    size_t count;
};

/* ---- a new queue */

/* Makes *q an empty queue over the slots. Refusal: 1 alone. */
struct scorebucket_reply scorebucket_fresh(const uint32_t *slots, size_t cap, struct scorebucket_deque *q);

/* ---- the ends. From here on every call refuses 1 and 2, and one that can change the queue 6, but for image reading;
 * what it refuses more is said of it. */

/* Appends v. Refusal: 4. */
struct scorebucket_reply scorebucket_push_back(uint32_t *slots, size_t cap, struct scorebucket_deque *q, uint32_t v);
/* Puts v in front. Refusal: 4. */
struct scorebucket_reply scorebucket_push_front(uint32_t *slots, size_t cap, struct scorebucket_deque *q, uint32_t v);
/* Hands the first element over. */
struct scorebucket_reply scorebucket_pop_front(const uint32_t *slots, size_t cap, struct scorebucket_deque *q);
/* Hands the last element over. */
struct scorebucket_reply scorebucket_pop_back(const uint32_t *slots, size_t cap, struct scorebucket_deque *q);
/* Hands the first element over, if it meets the test. Refusal: 3, for an unknown kind. */
struct scorebucket_reply scorebucket_pop_front_if(const uint32_t *slots, size_t cap, struct scorebucket_deque *q,
    uint32_t kind, uint32_t k);
/* Hands the last element over, if it meets the test. Refusal: 3, for an unknown kind. */
struct scorebucket_reply scorebucket_pop_back_if(const uint32_t *slots, size_t cap, struct scorebucket_deque *q,
    uint32_t kind, uint32_t k);
/* Looks at the element at position i. A position past the end finds nothing. */
struct scorebucket_found_reply scorebucket_get(const uint32_t *slots, size_t cap, const struct scorebucket_deque *q,
    size_t i);
/* Looks at the first element. */
struct scorebucket_found_reply scorebucket_front(const uint32_t *slots, size_t cap, const struct scorebucket_deque *q);
/* Looks at the last element. */
struct scorebucket_found_reply scorebucket_back(const uint32_t *slots, size_t cap, const struct scorebucket_deque *q);
/* Keeps the first n elements: all of them, if there are no more. */
struct scorebucket_reply scorebucket_truncate(const uint32_t *slots, size_t cap, struct scorebucket_deque *q, size_t n);
/* Keeps the last n elements: all of them, if there are no more. */
struct scorebucket_reply scorebucket_truncate_front(const uint32_t *slots, size_t cap, struct scorebucket_deque *q,
    size_t n);
/* Keeps no element, and starts anew at slot 0. */
struct scorebucket_reply scorebucket_clear(const uint32_t *slots, size_t cap, struct scorebucket_deque *q);

/* ---- an element in another's place */

/* Exchanges the elements at positions i and j. Refusal: 3. */
struct scorebucket_reply scorebucket_swap(uint32_t *slots, size_t cap, struct scorebucket_deque *q, size_t i, size_t j);
/* Hands the element at position i over, and puts the first one in its place. Past the end it hands nothing over. */
struct scorebucket_reply scorebucket_swap_remove_front(uint32_t *slots, size_t cap, struct scorebucket_deque *q,
    size_t i);
/* Hands the element at position i over, and puts the last one in its place. Past the end it hands nothing over. */
struct scorebucket_reply scorebucket_swap_remove_back(uint32_t *slots, size_t cap, struct scorebucket_deque *q,
    size_t i);

/* ---- the middle */

/* Puts v at position i, up to the end; the shorter side moves. Refusals: 3, 4. */
struct scorebucket_reply scorebucket_insert(uint32_t *slots, size_t cap, struct scorebucket_deque *q, size_t i,
    uint32_t v);
/* Hands the element at position i over; the shorter side moves. Past the end it hands nothing over. */
struct scorebucket_reply scorebucket_remove(uint32_t *slots, size_t cap, struct scorebucket_deque *q, size_t i);
/* Keeps, in order, the elements that meet the test. Refusal: 3, for an unknown kind. */
struct scorebucket_reply scorebucket_retain(uint32_t *slots, size_t cap, struct scorebucket_deque *q, uint32_t kind,
    uint32_t k);

/* ---- lent values, and other queues */

/* Appends the n values. Refusal: 4. */
struct scorebucket_reply scorebucket_extend(uint32_t *slots, size_t cap, struct scorebucket_deque *q,
    const uint32_t *values, size_t n);
/* Puts the n values in front, in their order. Refusal: 4. */
struct scorebucket_reply scorebucket_prepend(uint32_t *slots, size_t cap, struct scorebucket_deque *q,
    const uint32_t *values, size_t n);
/* Puts the n values in front, the last of them first. Refusal: 4. */
struct scorebucket_reply scorebucket_extend_front(uint32_t *slots, size_t cap, struct scorebucket_deque *q,
    const uint32_t *values, size_t n);
/* Keeps the first n elements, or appends copies of v until there are n. Refusal: 4. */
struct scorebucket_reply scorebucket_resize(uint32_t *slots, size_t cap, struct scorebucket_deque *q, size_t n,
    uint32_t v);
/* Copies the other queue's elements behind ours, and empties the other. Refusals: the other's 1, 2 and 6, then 4. */
struct scorebucket_reply scorebucket_append(uint32_t *slots, size_t cap, struct scorebucket_deque *q,
    const uint32_t *other_slots, size_t other_cap, struct scorebucket_deque *other);
/* Moves the elements from position `at` on into the target's slots, and makes *t their record: what it and they held
 * before is not looked at. Refusals: the target's 1, then 3, 4. */
struct scorebucket_reply scorebucket_split_off(const uint32_t *slots, size_t cap, struct scorebucket_deque *q,
    size_t at, uint32_t *target, size_t target_cap, struct scorebucket_deque *t);

/* ---- a queue moved into other slots, more or fewer. A queue that fills up goes on in twice the slots, here by 64
 * elements at a time, so that no call takes long:
 *
 *     struct scorebucket_deque p = {0, 0, 0};
 *     do {
 *         r = scorebucket_move_portion(slots, cap, &q, 64, more, 2 * cap, &p);
 *         .. both can be looked at: position i of the whole list is position i of p, or i - p.len of q ..
 *     } while (!r.refused && p.mark); */

/* Moves every element into the target's slots, from slot 0 on, and makes *t their record: what it and they held before
 * is not looked at. *q is left empty, with head 0. Refusals: the target's 1, then 4. */
struct scorebucket_reply scorebucket_move_all(const uint32_t *slots, size_t cap, struct scorebucket_deque *q,
    uint32_t *target, size_t target_cap, struct scorebucket_deque *t);
/* Moves the first n elements, or all if there are fewer, behind those of the other queue, whose mark may be set. If *q
 * keeps elements, the other's mark becomes 1, also for n = 0; if not, it becomes 0, and head of *q, too. It takes time
 * by the elements that it moves. Refusals: the other's 1 and 2, then 4. */
struct scorebucket_reply scorebucket_move_portion(const uint32_t *slots, size_t cap, struct scorebucket_deque *q,
    size_t n, uint32_t *target, size_t target_cap, struct scorebucket_deque *other);

/* ---- drains, and splice */

/* Opens a drain of the positions from `start` to before `end`: *d stands for the queue until it is closed. *q is not
 * changed, and has no meaning until then. Refusal: 3. */
struct scorebucket_reply scorebucket_drain(const uint32_t *slots, size_t cap, const struct scorebucket_deque *q,
    size_t start, size_t end, struct scorebucket_open_drain *d);
/* Hands the drain's first remaining element over. */
struct scorebucket_reply scorebucket_drain_next(const uint32_t *slots, size_t cap, struct scorebucket_open_drain *d);
/* Hands the drain's last remaining element over. */
struct scorebucket_reply scorebucket_drain_next_back(const uint32_t *slots, size_t cap,
    struct scorebucket_open_drain *d);
/* Closes the drain: its elements are gone, also those that were not handed over, the shorter side moves, and *q is the
 * queue's record again. */
struct scorebucket_reply scorebucket_drain_close(uint32_t *slots, size_t cap, const struct scorebucket_open_drain *d,
    struct scorebucket_deque *q);
/* Puts the n values in the place of the elements from `start` to before `end`. Refusals: 3, 4. */
struct scorebucket_reply scorebucket_splice(uint32_t *slots, size_t cap, struct scorebucket_deque *q, size_t start,
    size_t end, const uint32_t *values, size_t n);

/* ---- reading many elements. `slice_ranges` is the way: a loop over the two runs is a loop over plain memory, and an
 * element takes 0.5 ns or less. A walk's step tests its record anew and takes 2 ns, where `get` takes 1.7: a walk is
 * for a caller that comes back for one element at a time, from either end. (12,000 elements; gcc and clang, x86-64.) */

/* Stores the two runs of the positions from `start` to before `end`, as parts of the slots. Gives the refusal number,
 * or 0; refused, *runs is as it was. Refusal: 3. */
uint16_t scorebucket_slice_ranges(const uint32_t *slots, size_t cap, const struct scorebucket_deque *q, size_t start,
    size_t end, struct scorebucket_runs *runs);
/* Begins a walk over the whole list. Gives the refusal number, or 0; refused, *w is as it was. */
uint16_t scorebucket_begin_walk(const uint32_t *slots, size_t cap, const struct scorebucket_deque *q,
    struct scorebucket_walk *w);
/* Gives the element at the walk's low end, which steps on by one. */
struct scorebucket_found_reply scorebucket_walk_next(const uint32_t *slots, size_t cap, struct scorebucket_walk *w);
/* Gives the element before the walk's high end, which steps back by one. */
struct scorebucket_found_reply scorebucket_walk_next_back(const uint32_t *slots, size_t cap,
    struct scorebucket_walk *w);

/* ---- comparing and searching */

/* Says whether x stands in the queue. */
struct scorebucket_truth_reply scorebucket_contains(const uint32_t *slots, size_t cap,
    const struct scorebucket_deque *q, uint32_t x);
/* Says whether the two queues hold the same list. Refusals: the other's 1 and 2, too. */
struct scorebucket_truth_reply scorebucket_eq(const uint32_t *slots, size_t cap, const struct scorebucket_deque *q,
    const uint32_t *other_slots, size_t other_cap, const struct scorebucket_deque *other);
/* Says how the queue's list stands to the other's in lexicographic order. Refusals: the other's 1 and 2, too. */
struct scorebucket_order_reply scorebucket_cmp(const uint32_t *slots, size_t cap, const struct scorebucket_deque *q,
    const uint32_t *other_slots, size_t other_cap, const struct scorebucket_deque *other);
/* Searches a sorted queue for x by halving. */
struct scorebucket_search_reply scorebucket_binary_search(const uint32_t *slots, size_t cap,
    const struct scorebucket_deque *q, uint32_t x);
/* Counts the elements that meet the test, in a queue in which all of them stand before all others. Refusal: 3, for an
 * unknown kind. */
struct scorebucket_count_reply scorebucket_partition_point(const uint32_t *slots, size_t cap,
    const struct scorebucket_deque *q, uint32_t kind, uint32_t k);

/* ---- saved images. An image is two bytes, the number of bytes behind them; one byte 1; and each element as four
 * bytes. Numbers have their highest byte first. */

/* Writes the queue's image, 3 + 4 * len bytes, to the start of the target, and gives their number. Refusal: 4. */
struct scorebucket_count_reply scorebucket_write_image(const uint32_t *slots, size_t cap,
    const struct scorebucket_deque *q, uint8_t *target, size_t n);
/* Makes *q the queue of the image that the n bytes are, in slots from slot 0 on. Refusals: 1, then 5, then 4. */
struct scorebucket_reply scorebucket_read_image(uint32_t *slots, size_t cap, struct scorebucket_deque *q,
    const uint8_t *bytes, size_t n);

#ifdef __cplusplus
}
#endif

#endif
