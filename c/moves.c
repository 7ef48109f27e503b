/* The moves from C and from C++: a queue moved whole and by portions, and what the mark lets through meanwhile. */
#include "expect.h"

/* A queue moved whole, into more slots and into fewer. */
static void test_moves(void)
{
    uint32_t s[6], more[8] = {1, 2, 3, 4, 5, 6, 7, 8}, four[4], three[3] = {1, 2, 3};
    deque q = wrapped(s), t = {5, 9, 7};
    reply r = scorebucket_move_all(s, 6, &q, three, 3, &t);
    EXPECT(r.refused == SCOREBUCKET_ROOM && r.moved == 0 && same(q, 4, 4) && marked(t, 5, 9, 7) && three[0] == 1);
    r = scorebucket_move_all(s, 6, &q, more, 8, &t);
    EXPECT(r.refused == 0 && r.moved == 4 && same(q, 0, 0) && same(t, 0, 4) && more[4] == 5 && s[4] == 10);
    EXPECT_LIST(more, t, 10, 20, 30, 40);
    r = scorebucket_move_all(more, 8, &t, four, 4, &q);
    EXPECT(r.refused == 0 && r.moved == 4 && same(t, 0, 0) && same(q, 0, 4));
    EXPECT_LIST(four, q, 10, 20, 30, 40);
}

/* The same by portions: the mark stands in the new record until the old queue is empty. */
static void test_portions(void)
{
    uint32_t s[6], more[8] = {0};
    deque q = wrapped(s), other = {6, 0, 0};
    reply r = scorebucket_move_portion(s, 6, &q, 0, more, 8, &other);
    EXPECT(r.refused == 0 && r.moved == 0 && same(q, 4, 4) && marked(other, 6, 0, 1));
    r = scorebucket_move_portion(s, 6, &q, 3, more, 8, &other);
    EXPECT(r.refused == 0 && r.moved == 3 && same(q, 1, 1) && marked(other, 6, 3, 1));
    EXPECT_LIST(s, q, 40);
    EXPECT_LIST(more, other, 10, 20, 30);
    other.mark = 7;
    other.head = 8;
    EXPECT(scorebucket_move_portion(s, 6, &q, 1, more, 8, &other).refused == SCOREBUCKET_RECORD);
    EXPECT(same(q, 1, 1) && marked(other, 8, 3, 7));
    other.head = 6;
    r = scorebucket_move_portion(s, 6, &q, SIZE_MAX, more, 8, &other);
    EXPECT(r.refused == 0 && r.moved == 1 && same(q, 0, 0) && same(other, 6, 4));
    EXPECT_LIST(more, other, 10, 20, 30, 40);
    /* more than the free slots, in which only the smaller of n and len counts */
    q = wrapped(s);
    EXPECT(scorebucket_push_back(s, 6, &q, 50).refused == 0);
    EXPECT(scorebucket_move_portion(s, 6, &q, 5, more, 8, &other).refused == SCOREBUCKET_ROOM);
    EXPECT(same(q, 4, 5) && same(other, 6, 4));
    EXPECT(scorebucket_move_portion(s, 6, &q, 4, more, 8, &other).refused == 0 && marked(other, 6, 8, 1));
    /* an empty queue has nothing to come */
    deque none = {3, 0, 0};
    EXPECT(scorebucket_move_portion(s, 6, &none, 1, more, 8, &other).refused == 0);
    EXPECT(same(none, 0, 0) && same(other, 6, 8));
}

/* A queue that fills up goes on in twice the slots, moved there by portions; between them the two can be looked at. */
static void test_growing(void)
{
    uint32_t s[6], more[12];
    deque q = wrapped(s), p = {0, 0, 0};
    reply r;
    EXPECT(scorebucket_push_back(s, 6, &q, 50).refused == 0 && scorebucket_push_back(s, 6, &q, 60).refused == 0);
    EXPECT(scorebucket_push_back(s, 6, &q, 70).refused == SCOREBUCKET_ROOM);
    do {
        r = scorebucket_move_portion(s, 6, &q, 4, more, 12, &p);
        for (size_t i = 0; i < 6; i++) {
            found_reply f = i < p.len ? scorebucket_get(more, 12, &p, i) : scorebucket_get(s, 6, &q, i - p.len);
            EXPECT(f.found == 1 && f.number == 10 * (i + 1));
        }
    } while (!r.refused && p.mark);
    EXPECT(r.refused == 0 && same(q, 0, 0));
    EXPECT(scorebucket_push_back(more, 12, &p, 70).refused == 0);
    EXPECT_LIST(more, p, 10, 20, 30, 40, 50, 60, 70);
}

/* Refused with 6, and the record is as it was, the mark's word among it. */
#define EXPECT_OPEN(call) EXPECT((call).refused == SCOREBUCKET_OPEN && marked(q, 4, 4, 7))

/* While the mark stands, every call that can change the queue is refused, also where it would refuse a position or find
 * no room, or had nothing to do. */
static void test_open(void)
{
    uint32_t s[6], t[6], as_before[6], more[3] = {1, 2, 3};
    deque q = wrapped(s), other = wrapped(t);
    open_drain d;
    q.mark = 7;
    memcpy(as_before, s, sizeof s);
    EXPECT_OPEN(scorebucket_push_back(s, 6, &q, 1));
    EXPECT_OPEN(scorebucket_push_front(s, 6, &q, 1));
    EXPECT_OPEN(scorebucket_pop_front(s, 6, &q));
    EXPECT_OPEN(scorebucket_pop_back(s, 6, &q));
    EXPECT_OPEN(scorebucket_pop_front_if(s, 6, &q, SCOREBUCKET_BELOW, 1));
    EXPECT_OPEN(scorebucket_pop_back_if(s, 6, &q, 9, 1));
    EXPECT_OPEN(scorebucket_truncate(s, 6, &q, 4));
    EXPECT_OPEN(scorebucket_truncate_front(s, 6, &q, 4));
    EXPECT_OPEN(scorebucket_clear(s, 6, &q));
    EXPECT_OPEN(scorebucket_swap(s, 6, &q, 1, 1));
    EXPECT_OPEN(scorebucket_swap_remove_front(s, 6, &q, 9));
    EXPECT_OPEN(scorebucket_swap_remove_back(s, 6, &q, 9));
    EXPECT_OPEN(scorebucket_insert(s, 6, &q, 9, 1));
    EXPECT_OPEN(scorebucket_remove(s, 6, &q, 9));
    EXPECT_OPEN(scorebucket_retain(s, 6, &q, SCOREBUCKET_AT_LEAST, 0));
    EXPECT_OPEN(scorebucket_extend(s, 6, &q, more, 3));
    EXPECT_OPEN(scorebucket_prepend(s, 6, &q, more, 3));
    EXPECT_OPEN(scorebucket_extend_front(s, 6, &q, NULL, 0));
    EXPECT_OPEN(scorebucket_resize(s, 6, &q, 4, 1));
    EXPECT_OPEN(scorebucket_append(s, 6, &q, t, 6, &other));
    EXPECT_OPEN(scorebucket_append(t, 6, &other, s, 6, &q));
    EXPECT_OPEN(scorebucket_split_off(s, 6, &q, 9, t, 6, &other));
    EXPECT_OPEN(scorebucket_drain(s, 6, &q, 9, 0, &d));
    EXPECT_OPEN(scorebucket_splice(s, 6, &q, 1, 1, NULL, 0));
    EXPECT_OPEN(scorebucket_move_all(s, 6, &q, t, 3, &other));
    EXPECT_OPEN(scorebucket_move_portion(s, 6, &q, 0, t, 6, &other));
    EXPECT(memcmp(as_before, s, sizeof s) == 0 && same(other, 4, 4));
    EXPECT_LIST(t, other, 10, 20, 30, 40);
    q.head = 6;
    EXPECT(scorebucket_push_back(s, 6, &q, 1).refused == SCOREBUCKET_RECORD && marked(q, 6, 4, 7));
}

/* It is looked at as ever, and slots in which it stands can be taken for a new queue, which has no mark. */
static void test_open_looks(void)
{
    uint32_t s[6], t[6];
    uint8_t bytes[19];
    deque q = wrapped(s), other = wrapped(t);
    runs g;
    walk w;
    q.mark = 7;
    EXPECT_LIST(s, q, 10, 20, 30, 40);
    EXPECT(scorebucket_front(s, 6, &q).number == 10 && scorebucket_back(s, 6, &q).number == 40);
    EXPECT(scorebucket_slice_ranges(s, 6, &q, 0, 4, &g) == 0 && g.back.end == 2);
    EXPECT(scorebucket_begin_walk(s, 6, &q, &w) == 0 && marked(w.queue, 4, 4, 1));
    EXPECT(scorebucket_walk_next(s, 6, &w).number == 10 && scorebucket_walk_next_back(s, 6, &w).number == 40);
    EXPECT(marked(w.queue, 4, 4, 1) && w.low == 1 && w.high == 3);
    EXPECT(scorebucket_contains(s, 6, &q, 30).is && scorebucket_eq(s, 6, &q, t, 6, &other).is);
    EXPECT(scorebucket_cmp(t, 6, &other, s, 6, &q).order == SCOREBUCKET_SAME);
    EXPECT(scorebucket_binary_search(s, 6, &q, 20).position == 1);
    EXPECT(scorebucket_partition_point(s, 6, &q, SCOREBUCKET_BELOW, 30).count == 2);
    EXPECT(scorebucket_partition_point(s, 6, &q, 9, 30).refused == SCOREBUCKET_POSITION);
    EXPECT(scorebucket_write_image(s, 6, &q, bytes, 19).count == 19 && marked(q, 4, 4, 7));
    EXPECT(scorebucket_split_off(t, 6, &other, 1, s, 6, &q).refused == 0 && same(q, 0, 3));
    q.mark = 7;
    EXPECT(scorebucket_move_all(t, 6, &other, s, 6, &q).refused == 0 && same(q, 0, 1));
    q.mark = 7;
    EXPECT(scorebucket_read_image(s, 6, &q, bytes, 19).refused == 0 && same(q, 0, 4));
    q.mark = 7;
    EXPECT(scorebucket_fresh(s, 6, &q).refused == 0 && same(q, 0, 0));
}

void test_all_moves(void)
{
    test_moves();
    test_portions();
    test_growing();
    test_open();
    test_open_looks();
}
