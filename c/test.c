/* The exported calls from C and from C++: each once (the moves in c/moves.c), refusals that change nothing, and empty
 * slices that are NULL. Prints 'ok', or the line of each test that failed. */
#include "expect.h"

/* The tests of c/moves.c. */
void test_all_moves(void);

int failed = 0;

static void test_ends(void)
{
    uint32_t s[6] = {0};
    deque q = {9, 9, 9};
    reply r = scorebucket_fresh(s, 6, &q);
    EXPECT(r.refused == 0 && r.moved == 0 && same(q, 0, 0));
    q = wrapped(s);
    r = scorebucket_push_back(s, 6, &q, 50);
    EXPECT(r.refused == 0 && r.moved == 0 && r.handed == 0 && r.number == 0 && q.head == 4);
    EXPECT_LIST(s, q, 10, 20, 30, 40, 50);
    r = scorebucket_push_front(s, 6, &q, 5);
    EXPECT(r.refused == 0 && q.head == 3);
    EXPECT_LIST(s, q, 5, 10, 20, 30, 40, 50);
    r = scorebucket_push_back(s, 6, &q, 60);
    EXPECT(r.refused == SCOREBUCKET_ROOM && q.head == 3);
    EXPECT_LIST(s, q, 5, 10, 20, 30, 40, 50);
    r = scorebucket_pop_front(s, 6, &q);
    EXPECT(r.handed == 1 && r.number == 5);
    r = scorebucket_pop_back(s, 6, &q);
    EXPECT(r.handed == 1 && r.number == 50);
    EXPECT_LIST(s, q, 10, 20, 30, 40);
    EXPECT(scorebucket_front(s, 6, &q).number == 10 && scorebucket_back(s, 6, &q).number == 40);
    EXPECT(scorebucket_get(s, 6, &q, 4).found == 0 && scorebucket_get(s, 6, &q, 4).refused == 0);
    EXPECT(scorebucket_pop_front_if(s, 6, &q, SCOREBUCKET_BELOW, 10).handed == 0 && same(q, 4, 4));
    EXPECT(scorebucket_pop_front_if(s, 6, &q, SCOREBUCKET_AT_LEAST, 10).number == 10);
    EXPECT(scorebucket_pop_back_if(s, 6, &q, SCOREBUCKET_NOT_EQUAL, 40).handed == 0);
    EXPECT(scorebucket_pop_back_if(s, 6, &q, SCOREBUCKET_EQUAL, 40).number == 40);
    EXPECT(scorebucket_pop_back_if(s, 6, &q, 5, 30).refused == SCOREBUCKET_POSITION);
    EXPECT_LIST(s, q, 20, 30);
    q = wrapped(s);
    EXPECT(scorebucket_truncate(s, 6, &q, 3).refused == 0);
    EXPECT_LIST(s, q, 10, 20, 30);
    EXPECT(scorebucket_truncate_front(s, 6, &q, 1).refused == 0 && q.head == 0);
    EXPECT_LIST(s, q, 30);
    q = wrapped(s);
    EXPECT(scorebucket_clear(s, 6, &q).refused == 0 && same(q, 0, 0));
    r = scorebucket_pop_front(s, 6, &q);
    EXPECT(r.refused == 0 && r.handed == 0 && r.number == 0 && same(q, 0, 0));
}

static void test_middle(void)
{
    uint32_t s[6];
    deque q = wrapped(s);
    reply r = scorebucket_swap(s, 6, &q, 0, 3);
    EXPECT(r.refused == 0 && r.moved == 2);
    EXPECT_LIST(s, q, 40, 20, 30, 10);
    EXPECT(scorebucket_swap(s, 6, &q, 0, 4).refused == SCOREBUCKET_POSITION);
    EXPECT_LIST(s, q, 40, 20, 30, 10);
    q = wrapped(s);
    r = scorebucket_swap_remove_front(s, 6, &q, 2);
    EXPECT(r.number == 30);
    EXPECT_LIST(s, q, 20, 10, 40);
    q = wrapped(s);
    r = scorebucket_swap_remove_back(s, 6, &q, 1);
    EXPECT(r.number == 20);
    EXPECT_LIST(s, q, 10, 40, 30);
    q = wrapped(s);
    r = scorebucket_insert(s, 6, &q, 1, 15);
    EXPECT(r.moved == 1 && q.head == 3);
    EXPECT_LIST(s, q, 10, 15, 20, 30, 40);
    r = scorebucket_remove(s, 6, &q, 1);
    EXPECT(r.handed == 1 && r.number == 15 && r.moved == 1);
    EXPECT_LIST(s, q, 10, 20, 30, 40);
    r = scorebucket_retain(s, 6, &q, SCOREBUCKET_NOT_EQUAL, 20);
    EXPECT(r.refused == 0 && r.moved == 2);
    EXPECT_LIST(s, q, 10, 30, 40);
}

static void test_joins(void)
{
    uint32_t s[6], t[6], more[2] = {50, 60};
    deque q = wrapped(s), other = wrapped(t), target = {1, 2, 7};
    EXPECT(scorebucket_extend(s, 6, &q, more, 2).refused == 0);
    EXPECT_LIST(s, q, 10, 20, 30, 40, 50, 60);
    q = wrapped(s);
    EXPECT(scorebucket_prepend(s, 6, &q, more, 2).refused == 0 && q.head == 2);
    EXPECT_LIST(s, q, 50, 60, 10, 20, 30, 40);
    q = wrapped(s);
    EXPECT(scorebucket_extend_front(s, 6, &q, more, 2).refused == 0);
    EXPECT_LIST(s, q, 60, 50, 10, 20, 30, 40);
    q = wrapped(s);
    EXPECT(scorebucket_resize(s, 6, &q, 6, 1).refused == 0);
    EXPECT_LIST(s, q, 10, 20, 30, 40, 1, 1);
    q = wrapped(s);
    EXPECT(scorebucket_append(s, 6, &q, t, 6, &other).refused == SCOREBUCKET_ROOM);
    EXPECT(same(q, 4, 4) && same(other, 4, 4));
    scorebucket_truncate(s, 6, &q, 2);
    reply r = scorebucket_append(s, 6, &q, t, 6, &other);
    EXPECT(r.refused == 0 && r.moved == 4 && same(other, 0, 0));
    EXPECT_LIST(s, q, 10, 20, 10, 20, 30, 40);
    r = scorebucket_split_off(s, 6, &q, 7, t, 6, &target);
    EXPECT(r.refused == SCOREBUCKET_POSITION && same(q, 4, 6) && marked(target, 1, 2, 7));
    r = scorebucket_split_off(s, 6, &q, 4, t, 6, &target);
    EXPECT(r.refused == 0 && r.moved == 2 && same(target, 0, 2));
    EXPECT_LIST(s, q, 10, 20, 10, 20);
    EXPECT_LIST(t, target, 30, 40);
}

static void test_drains(void)
{
    uint32_t s[6], more[3] = {1, 2, 3};
    deque q = wrapped(s);
    open_drain d;
    EXPECT(scorebucket_drain(s, 6, &q, 1, 3, &d).refused == 0);
    EXPECT(d.head == 4 && d.start == 1 && d.drain_len == 2 && d.idx == 1 && d.tail_len == 1 && d.remaining == 2);
    reply r = scorebucket_drain_next(s, 6, &d);
    EXPECT(r.handed == 1 && r.number == 20 && d.idx == 2 && d.remaining == 1);
    r = scorebucket_drain_next_back(s, 6, &d);
    EXPECT(r.handed == 1 && r.number == 30 && d.remaining == 0);
    r = scorebucket_drain_next(s, 6, &d);
    EXPECT(r.handed == 0 && r.refused == 0);
    r = scorebucket_drain_close(s, 6, &d, &q);
    EXPECT(r.refused == 0 && r.moved == 1);
    EXPECT_LIST(s, q, 10, 40);
    q = wrapped(s);
    EXPECT(scorebucket_drain(s, 6, &q, 3, 2, &d).refused == SCOREBUCKET_POSITION);
    EXPECT(d.head == 4 && d.idx == 2 && d.drain_len == 2);
    d.remaining = 9;
    EXPECT(scorebucket_drain_next(s, 6, &d).refused == SCOREBUCKET_RECORD && d.remaining == 9);
    EXPECT(scorebucket_drain_close(s, 6, &d, &q).refused == SCOREBUCKET_RECORD && d.remaining == 9);
    EXPECT_LIST(s, q, 10, 20, 30, 40);
    EXPECT(scorebucket_splice(s, 6, &q, 1, 3, more, 3).refused == 0);
    EXPECT_LIST(s, q, 10, 1, 2, 3, 40);
}

static void test_looks(void)
{
    uint32_t s[6], t[6];
    deque q = wrapped(s), other = wrapped(t);
    runs g = {{9, 9}, {9, 9}};
    EXPECT(scorebucket_slice_ranges(s, 6, &q, 1, 5, &g) == SCOREBUCKET_POSITION);
    EXPECT(g.front.start == 9 && g.back.end == 9);
    EXPECT(scorebucket_slice_ranges(s, 6, &q, 1, 4, &g) == 0);
    span front = g.front, back = g.back;
    EXPECT(front.start == 5 && front.end == 6 && back.start == 0 && back.end == 2);
    truth_reply is = scorebucket_contains(s, 6, &q, 30);
    EXPECT(is.refused == 0 && is.is && !scorebucket_contains(s, 6, &q, 7).is);
    EXPECT(scorebucket_eq(s, 6, &q, t, 6, &other).is && scorebucket_eq(s, 6, &q, s, 6, &q).is);
    order_reply stands = scorebucket_cmp(s, 6, &q, t, 6, &other);
    EXPECT(stands.refused == 0 && stands.order == SCOREBUCKET_SAME);
    scorebucket_pop_front(t, 6, &other);
    EXPECT(!scorebucket_eq(s, 6, &q, t, 6, &other).is);
    EXPECT(scorebucket_cmp(s, 6, &q, t, 6, &other).order == SCOREBUCKET_LESS);
    EXPECT(scorebucket_cmp(t, 6, &other, s, 6, &q).order == SCOREBUCKET_GREATER);
    search_reply f = scorebucket_binary_search(s, 6, &q, 30);
    EXPECT(f.refused == 0 && f.found == 1 && f.position == 2);
    f = scorebucket_binary_search(s, 6, &q, 31);
    EXPECT(f.refused == 0 && f.found == 0 && f.position == 3);
    count_reply n = scorebucket_partition_point(s, 6, &q, SCOREBUCKET_BELOW, 30);
    EXPECT(n.refused == 0 && n.count == 2);
    EXPECT(scorebucket_partition_point(s, 6, &q, 0, 30).refused == SCOREBUCKET_POSITION);
}

static void test_walks(void)
{
    uint32_t s[6];
    deque q = wrapped(s), bad = {6, 0, 0};
    walk w;
    EXPECT(scorebucket_begin_walk(s, 6, &q, &w) == 0 && same(w.queue, 4, 4) && w.low == 0 && w.high == 4);
    found_reply r = scorebucket_walk_next(s, 6, &w);
    EXPECT(r.found == 1 && r.number == 10 && w.low == 1);
    r = scorebucket_walk_next_back(s, 6, &w);
    EXPECT(r.found == 1 && r.number == 40 && w.high == 3);
    EXPECT(scorebucket_begin_walk(s, 6, &bad, &w) == SCOREBUCKET_RECORD);
    EXPECT(same(w.queue, 4, 4) && w.low == 1 && w.high == 3);
    w.low = 4;
    EXPECT(scorebucket_walk_next(s, 6, &w).refused == SCOREBUCKET_RECORD && w.low == 4);
    w.low = 3;
    r = scorebucket_walk_next(s, 6, &w);
    EXPECT(r.refused == 0 && r.found == 0 && r.number == 0 && w.low == 3);
}

static void test_images(void)
{
    uint32_t s[6], t[4] = {0};
    uint8_t bytes[19];
    deque q = wrapped(s), m = {1, 1, 7};
    EXPECT(scorebucket_write_image(s, 6, &q, bytes, 18).refused == SCOREBUCKET_ROOM);
    EXPECT(scorebucket_write_image(s, 6, &q, bytes, 19).count == 19);
    EXPECT(scorebucket_read_image(t, 3, &m, bytes, 19).refused == SCOREBUCKET_ROOM && marked(m, 1, 1, 7));
    EXPECT(scorebucket_read_image(t, 4, &m, bytes, 18).refused == SCOREBUCKET_IMAGE && marked(m, 1, 1, 7));
    EXPECT(scorebucket_read_image(t, 4, &m, bytes, 19).refused == 0 && same(m, 0, 4));
    EXPECT_LIST(t, m, 10, 20, 30, 40);
}

/* A record that is not good, and too many slots: refused, and nothing is written. */
static void test_refusals(void)
{
    static uint32_t many[16001];
    uint32_t s[6], as_before[6];
    deque bad = wrapped(s);
    bad.head = 6;
    memcpy(as_before, s, sizeof s);
    reply r = scorebucket_push_back(s, 6, &bad, 1);
    EXPECT(r.refused == SCOREBUCKET_RECORD && same(bad, 6, 4) && r.moved == 0 && r.handed == 0 && r.number == 0);
    EXPECT(scorebucket_retain(s, 6, &bad, 9, 1).refused == SCOREBUCKET_RECORD && same(bad, 6, 4));
    EXPECT(scorebucket_contains(s, 6, &bad, 1).refused == SCOREBUCKET_RECORD);
    EXPECT(memcmp(as_before, s, sizeof s) == 0);
    bad.head = 0;
    EXPECT(scorebucket_push_back(many, 16001, &bad, 1).refused == SCOREBUCKET_SLOTS && many[4] == 0);
    EXPECT(scorebucket_fresh(many, 16001, &bad).refused == SCOREBUCKET_SLOTS && same(bad, 0, 4));
    EXPECT(scorebucket_fresh(many, 16000, &bad).refused == 0 && same(bad, 0, 0));
    bad.head = SIZE_MAX;
    bad.len = SIZE_MAX;
    EXPECT(scorebucket_remove(s, 6, &bad, SIZE_MAX).refused == SCOREBUCKET_RECORD && same(bad, SIZE_MAX, SIZE_MAX));
}

/* Every slice of length 0 as NULL, of slots: a queue that can hold nothing. Each call changes nothing. */
static void test_null_slots(void)
{
    uint32_t s[6], one[1] = {1};
    uint8_t bytes[3];
    deque q = {7, 7, 7}, other = {0, 0, 0}, t = {7, 7, 7};
    open_drain d;
    walk w;
    runs g = {{9, 9}, {9, 9}};
    EXPECT(scorebucket_fresh(NULL, 0, &q).refused == 0 && same(q, 0, 0));
    EXPECT(scorebucket_push_back(NULL, 0, &q, 1).refused == SCOREBUCKET_ROOM);
    EXPECT(scorebucket_push_front(NULL, 0, &q, 1).refused == SCOREBUCKET_ROOM);
    EXPECT(scorebucket_pop_front(NULL, 0, &q).handed == 0 && scorebucket_pop_back(NULL, 0, &q).handed == 0);
    EXPECT(scorebucket_pop_front_if(NULL, 0, &q, SCOREBUCKET_BELOW, 1).handed == 0);
    EXPECT(scorebucket_pop_back_if(NULL, 0, &q, SCOREBUCKET_BELOW, 1).handed == 0);
    EXPECT(scorebucket_get(NULL, 0, &q, 0).found == 0);
    EXPECT(scorebucket_front(NULL, 0, &q).found == 0 && scorebucket_back(NULL, 0, &q).found == 0);
    EXPECT(scorebucket_truncate(NULL, 0, &q, 0).refused == 0);
    EXPECT(scorebucket_truncate_front(NULL, 0, &q, 0).refused == 0);
    EXPECT(scorebucket_clear(NULL, 0, &q).refused == 0);
    EXPECT(scorebucket_swap(NULL, 0, &q, 0, 0).refused == SCOREBUCKET_POSITION);
    EXPECT(scorebucket_swap_remove_front(NULL, 0, &q, 0).handed == 0);
    EXPECT(scorebucket_swap_remove_back(NULL, 0, &q, 0).handed == 0);
    EXPECT(scorebucket_insert(NULL, 0, &q, 0, 1).refused == SCOREBUCKET_ROOM);
    EXPECT(scorebucket_remove(NULL, 0, &q, 0).handed == 0);
    EXPECT(scorebucket_retain(NULL, 0, &q, SCOREBUCKET_BELOW, 1).refused == 0);
    EXPECT(scorebucket_extend(NULL, 0, &q, one, 1).refused == SCOREBUCKET_ROOM);
    EXPECT(scorebucket_prepend(NULL, 0, &q, one, 1).refused == SCOREBUCKET_ROOM);
    EXPECT(scorebucket_extend_front(NULL, 0, &q, one, 1).refused == SCOREBUCKET_ROOM);
    EXPECT(scorebucket_resize(NULL, 0, &q, 0, 1).refused == 0);
    EXPECT(scorebucket_append(NULL, 0, &q, NULL, 0, &other).refused == 0 && same(other, 0, 0));
    EXPECT(scorebucket_split_off(NULL, 0, &q, 0, NULL, 0, &t).refused == 0 && same(t, 0, 0));
    EXPECT(scorebucket_move_all(NULL, 0, &q, NULL, 0, &t).refused == 0 && same(t, 0, 0));
    EXPECT(scorebucket_move_portion(NULL, 0, &q, 1, NULL, 0, &other).refused == 0 && same(other, 0, 0));
    EXPECT(scorebucket_drain(NULL, 0, &q, 0, 0, &d).refused == 0);
    EXPECT(scorebucket_drain_next(NULL, 0, &d).handed == 0 && scorebucket_drain_next_back(NULL, 0, &d).handed == 0);
    EXPECT(scorebucket_drain_close(NULL, 0, &d, &q).refused == 0 && same(q, 0, 0));
    EXPECT(scorebucket_splice(NULL, 0, &q, 0, 0, one, 1).refused == SCOREBUCKET_ROOM);
    EXPECT(scorebucket_slice_ranges(NULL, 0, &q, 0, 0, &g) == 0 && g.front.end == 0 && g.back.end == 0);
    EXPECT(scorebucket_begin_walk(NULL, 0, &q, &w) == 0);
    EXPECT(scorebucket_walk_next(NULL, 0, &w).found == 0 && scorebucket_walk_next_back(NULL, 0, &w).found == 0);
    EXPECT(!scorebucket_contains(NULL, 0, &q, 0).is && scorebucket_eq(NULL, 0, &q, NULL, 0, &other).is);
    EXPECT(scorebucket_cmp(NULL, 0, &q, NULL, 0, &other).order == SCOREBUCKET_SAME);
    EXPECT(scorebucket_binary_search(NULL, 0, &q, 0).found == 0);
    EXPECT(scorebucket_partition_point(NULL, 0, &q, SCOREBUCKET_BELOW, 1).count == 0);
    EXPECT(scorebucket_write_image(NULL, 0, &q, bytes, 3).count == 3);
    EXPECT(scorebucket_read_image(NULL, 0, &q, bytes, 3).refused == 0 && same(q, 0, 0));
    /* beside a queue with elements */
    q = wrapped(s);
    EXPECT(scorebucket_append(s, 6, &q, NULL, 0, &other).refused == 0);
    EXPECT(scorebucket_split_off(s, 6, &q, 4, NULL, 0, &t).refused == 0 && same(t, 0, 0));
    EXPECT(scorebucket_split_off(s, 6, &q, 3, NULL, 0, &t).refused == SCOREBUCKET_ROOM);
    EXPECT(scorebucket_move_all(s, 6, &q, NULL, 0, &t).refused == SCOREBUCKET_ROOM);
    EXPECT(scorebucket_move_portion(s, 6, &q, 1, NULL, 0, &other).refused == SCOREBUCKET_ROOM);
    EXPECT(scorebucket_move_portion(NULL, 0, &other, 1, s, 6, &q).refused == 0 && same(q, 4, 4));
    EXPECT(!scorebucket_eq(s, 6, &q, NULL, 0, &other).is);
    EXPECT(scorebucket_cmp(s, 6, &q, NULL, 0, &other).order == SCOREBUCKET_GREATER);
    EXPECT_LIST(s, q, 10, 20, 30, 40);
}

/* The same of lent values, and of the bytes of an image. */
static void test_null_values(void)
{
    uint32_t s[6];
    deque q = wrapped(s);
    EXPECT(scorebucket_extend(s, 6, &q, NULL, 0).refused == 0);
    EXPECT(scorebucket_prepend(s, 6, &q, NULL, 0).refused == 0);
    EXPECT(scorebucket_extend_front(s, 6, &q, NULL, 0).refused == 0);
    EXPECT_LIST(s, q, 10, 20, 30, 40);
    EXPECT(scorebucket_write_image(s, 6, &q, NULL, 0).refused == SCOREBUCKET_ROOM);
    EXPECT(scorebucket_read_image(s, 6, &q, NULL, 0).refused == SCOREBUCKET_IMAGE);
    EXPECT_LIST(s, q, 10, 20, 30, 40);
    EXPECT(scorebucket_splice(s, 6, &q, 1, 3, NULL, 0).refused == 0);
    EXPECT_LIST(s, q, 10, 40);
}

int main(void)
{
    test_ends();
    test_middle();
    test_joins();
    test_drains();
    test_looks();
    test_walks();
    test_images();
    test_refusals();
    test_null_slots();
    test_null_values();
    test_all_moves();
    if (!failed) printf("ok\n");
    return failed;
}
