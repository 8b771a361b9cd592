/* Holds include/brinepost.h against the library: the layout of each struct, and each function called with numbers that would betray a wrong order, width or sign.
 * Expected words and segments are the Rust's own answers (oracle/ask). */
#include "brinepost.h"
#include "check.h"

/* ---- the header's layout, as the library has it */
SIZE(bp_clipped, 28);
AT(bp_clipped, x0, 4);
AT(bp_clipped, y0, 8);
AT(bp_clipped, x1, 12);
AT(bp_clipped, y1, 16);
AT(bp_clipped, edge0, 20);
AT(bp_clipped, edge1, 24);
SIZE(bp_job, 24);
AT(bp_job, points, 8);
AT(bp_job, words, 16);
SIZE(bp_reading, 24);
AT(bp_reading, vertices, 8);
AT(bp_reading, place, 16);
SIZE(bp_point, 12);
AT(bp_point, x, 4);
AT(bp_point, y, 8);
SIZE(bp_encoder, 96);
AT(bp_encoder, count, 4);
AT(bp_encoder, used, 8);
AT(bp_encoder, cmd_offset, 16);
AT(bp_encoder, x_min, 24);
AT(bp_encoder, x_max, 28);
AT(bp_encoder, y_min, 32);
AT(bp_encoder, y_max, 36);
AT(bp_encoder, xy_end, 40);
AT(bp_encoder, pt0, 52);
AT(bp_encoder, pt1, 64);
AT(bp_encoder, taken, 76);
AT(bp_encoder, boundary, 80);
AT(bp_encoder, skipped, 84);
AT(bp_encoder, taken_out, 88);
SIZE(bp_started, 104);
AT(bp_started, state, 8);
SIZE(bp_drawn, 120);
AT(bp_drawn, words, 8);
AT(bp_drawn, state, 16);
AT(bp_drawn, edge0, 112);
AT(bp_drawn, edge1, 116);
SIZE(bp_finished, 112);
AT(bp_finished, points, 8);
AT(bp_finished, state, 16);

/* ---- lists with a guard on both sides; what is not written stays */
enum { GUARD = 8, ROOM = 64 };
#define PATTERN 0xA5C3F00Du

static uint32_t memory[GUARD + ROOM + GUARD], edge_memory[GUARD + ROOM + GUARD];
static uint32_t *const words = memory + GUARD, *const named = edge_memory + GUARD;

static void fill(void)
{
    for (size_t i = 0; i < COUNT(memory); i++)
        memory[i] = edge_memory[i] = PATTERN + (uint32_t)i;
}

/* So many elements of a list were written, and these; everything else is as it was. */
static void written(int line, const char *what, const uint32_t *given, const uint32_t *expected, size_t count)
{
    for (size_t i = 0; i < COUNT(memory); i++) {
        size_t at = i - GUARD;
        same(what, line, i >= GUARD && at < count ? expected[at] : PATTERN + (uint32_t)i, given[i]);
    }
}
#define WRITTEN(list) written(__LINE__, "a word", memory, list, COUNT(list))
#define UNTOUCHED() written(__LINE__, "a word", memory, NULL, 0)
#define NAMED(list) written(__LINE__, "an edge", edge_memory, list, COUNT(list))
#define UNNAMED() written(__LINE__, "an edge", edge_memory, NULL, 0)

static void clips(void)
{
    bp_clipped c = bp_clip(-20, 1, 60, 30, -3, 40, 5, 17);
    SAME(0, c.refusal), SAME(-3, c.x0), SAME(7, c.y0), SAME(24, c.x1), SAME(17, c.y1), SAME(BP_X_MIN, c.edge0), SAME(BP_Y_MAX, c.edge1);
    c = bp_clip(60, 30, -20, 1, -3, 40, 5, 17);
    SAME(0, c.refusal), SAME(24, c.x0), SAME(17, c.y0), SAME(-3, c.x1), SAME(7, c.y1), SAME(BP_Y_MAX, c.edge0), SAME(BP_X_MIN, c.edge1);
    c = bp_clip(-BP_LIMIT, -500000000, BP_LIMIT, 600000000, -1000, 2000, -90000000, 80000000);
    SAME(0, c.refusal), SAME(-1000, c.x0), SAME(49999488, c.y0), SAME(2000, c.x1), SAME(50001025, c.y1);
    c = bp_clip(1, 2, 3, 4, 0, 10, 0, BP_LIMIT + 1);
    SAME(BP_BOX, c.refusal), SAME(0, c.x0), SAME(0, c.y0), SAME(0, c.x1), SAME(0, c.y1), SAME(0, c.edge0), SAME(0, c.edge1);
    /* each edge and each coordinate at the limit and beyond it */
    const int32_t far = BP_LIMIT;
    SAME(0, bp_clip(far, far, -far, -far, -far, far, -far, far).refusal);
    SAME(BP_BOX, bp_clip(0, 0, 1, 1, -far - 1, far, -far, far).refusal);
    SAME(BP_BOX, bp_clip(0, 0, 1, 1, -far, far + 1, -far, far).refusal);
    SAME(BP_BOX, bp_clip(0, 0, 1, 1, -far, far, -far - 1, far).refusal);
    SAME(BP_BOX, bp_clip(0, 0, 1, 1, 7, 7, 0, 10).refusal);
    SAME(BP_BOX, bp_clip(0, 0, 1, 1, 0, 10, 8, 7).refusal);
    SAME(BP_BOX, bp_clip(INT32_MIN, 0, 1, 1, 0, 10, 8, 7).refusal);
    SAME(BP_COORD, bp_clip(far + 1, 0, 1, 1, 0, 10, 0, 10).refusal);
    SAME(BP_COORD, bp_clip(0, -far - 1, 1, 1, 0, 10, 0, 10).refusal);
    SAME(BP_COORD, bp_clip(0, 0, INT32_MAX, 1, 0, 10, 0, 10).refusal);
    SAME(BP_COORD, bp_clip(0, 0, 1, INT32_MIN, 0, 10, 0, 10).refusal);
}

static void edges_are(int line, uint32_t edge0, uint32_t edge1, uint32_t given0, uint32_t given1)
{
    same("edge0", line, edge0, given0);
    same("edge1", line, edge1, given1);
}
#define EDGES(edge0_is, edge1_is, answer) edges_are(__LINE__, edge0_is, edge1_is, (answer).edge0, (answer).edge1)

static void clip_is(int line, bp_clipped expected, bp_clipped c)
{
    same("refusal", line, expected.refusal, c.refusal);
    same("x0", line, expected.x0, c.x0), same("y0", line, expected.y0, c.y0);
    same("x1", line, expected.x1, c.x1), same("y1", line, expected.y1, c.y1);
    edges_are(line, expected.edge0, expected.edge1, c.edge0, c.edge1);
}
#define CLIP(x0, y0, x1, y1, ...) clip_is(__LINE__, (bp_clipped){__VA_ARGS__}, bp_clip(x0, y0, x1, y1, 0, 10, 0, 10))

/* What became of each end, by its number, in the box from 0 to 10. */
static void edges(void)
{
    SAME(0, BP_STAYED), SAME(1, BP_X_MIN), SAME(2, BP_X_MAX), SAME(3, BP_Y_MIN), SAME(4, BP_Y_MAX);
    CLIP(-1, -1, 11, 11, 0, 0, 0, 10, 10, 1, 2);
    CLIP(11, 11, -1, -1, 0, 10, 10, 0, 0, 2, 1);
    CLIP(-1, 0, 1, -1, 0, 0, 0, 0, 0, 1, 3); /* the corner is reached by both ends, each by a cut of its own */
    CLIP(0, -1, -1, 1, 0, 0, 0, -1, 1, 3, 0); /* x_min holds the first end too, and its cut did not move it */
    CLIP(10, 10, 11, 11, 0, 10, 10, 10, 10, 0, 2);
    CLIP(0, 5, 0, 20, 0, 0, 5, 0, 10, 0, 4);
    CLIP(0, 0, 10, 10, 0, 0, 0, 10, 10, 0, 0); /* on the edges, and not moved */
    CLIP(-5, 20, -1, 30, 0, -5, 20, -1, 30, 0, 0); /* outside, and not moved */
    CLIP(-1, -1, 11, BP_LIMIT + 1, BP_COORD, 0, 0, 0, 0, 0, 0);

    /* a ring that leaves the box and comes back; then a point of a part of its own */
    fill();
    bp_drawn d = bp_encoder_add_point(bp_encoder_new(BP_POLYGON, 0, 10, 0, 10).state, 5, 5, words, ROOM);
    SAME(0, d.refusal), EDGES(0, 0, d);
    d = bp_encoder_add_point(d.state, 15, 5, words, ROOM);
    SAME(0, d.refusal), EDGES(0, 2, d);
    const bp_encoder open = d.state;
    d = bp_encoder_add_point(open, 5, 15, words, ROOM);
    SAME(0, d.refusal), EDGES(2, 4, d);
    /* the same segment refused, by each check, names none */
    EDGES(0, 0, bp_encoder_add_point(open, 5, BP_LIMIT + 1, words, ROOM));
    bp_drawn r = bp_encoder_add_point(open, 5, 15, words, open.used);
    SAME(BP_ROOM, r.refusal), EDGES(0, 0, r);
    bp_encoder s = open;
    s.pt0.is_set = 2;
    r = bp_encoder_add_point(s, 5, 15, words, ROOM);
    SAME(BP_STATE, r.refusal), EDGES(0, 0, r);
    d = bp_encoder_complete_geom(d.state, words, ROOM);
    SAME(0, d.refusal), EDGES(0, 0, d);
    d = bp_encoder_add_point(d.state, 15, 15, words, ROOM);
    SAME(0, d.refusal), EDGES(0, 0, d);

    /* lines pass them on as polygons do, points never */
    d = bp_encoder_add_point(bp_encoder_new(BP_LINE, 0, 10, 0, 10).state, -1, -1, words, ROOM);
    SAME(0, d.refusal), EDGES(0, 0, d);
    d = bp_encoder_add_point(d.state, 11, 11, words, ROOM);
    SAME(0, d.refusal), EDGES(1, 2, d);
    d = bp_encoder_add_point(bp_encoder_new(BP_POINT, 0, 10, 0, 10).state, -1, -1, words, ROOM);
    SAME(0, d.refusal), EDGES(0, 0, d);
    d = bp_encoder_add_point(d.state, 11, 11, words, ROOM);
    SAME(0, d.refusal), EDGES(0, 0, d);
}

/* Two parts that cross a box with four different edges. */
static const int32_t points[] = {-20, 1, 60, 30, 10, 9, 7, 11, 8, 12};
static const uint32_t ends[] = {3, 5};
static const uint32_t line[] = {9, 5, 10, 42, 0, 4, 54, 20, 32, 0, 21, 0, 37, 15, 9, 5, 4, 10, 2, 2};

static bp_job job(uint32_t kind, size_t room)
{
    fill();
    return bp_encode_job(kind, -3, 40, 5, 17, points, COUNT(points), ends, COUNT(ends), words, room);
}

static void jobs(void)
{
    bp_job j = job(BP_LINE, ROOM);
    SAME(0, j.refusal), SAME(5, j.points), SAME(20, j.words), WRITTEN(line);
    /* ten words for two points, two more for the third, for which 11 is no room */
    const uint32_t two[] = {9, 5, 10, 10, 0, 4, 54, 20, 32, 0};
    j = job(BP_LINE, 11);
    SAME(BP_ROOM, j.refusal), SAME(2, j.points), SAME(0, j.words), WRITTEN(two);
    j = job(BP_LINE, 0);
    SAME(BP_ROOM, j.refusal), SAME(0, j.points), SAME(0, j.words), UNTOUCHED();
    j = job(4, ROOM);
    SAME(BP_KIND, j.refusal), SAME(0, j.points), SAME(0, j.words), UNTOUCHED();
    j = job(UINT32_MAX, ROOM);
    SAME(BP_KIND, j.refusal), UNTOUCHED();
    SAME(BP_BOX, bp_encode_job(2, 5, 5, 0, 1, points, 10, ends, 2, words, ROOM).refusal);
    SAME(BP_JOB, bp_encode_job(4, 5, 5, 0, 1, points, 9, ends, 2, words, ROOM).refusal);
    SAME(BP_JOB, bp_encode_job(2, 0, 1, 0, 1, points, 10, ends, 0, words, ROOM).refusal);
    SAME(BP_JOB, bp_encode_job(2, 0, 1, 0, 1, points, 10, ends, 1, words, ROOM).refusal);
    const uint32_t wide[] = {UINT32_MAX};
    SAME(BP_JOB, bp_encode_job(2, 0, 1, 0, 1, points, 10, wide, 1, words, ROOM).refusal);
    const int32_t beyond[] = {1, 2, 3, -BP_LIMIT - 1};
    const uint32_t end[] = {2};
    const uint32_t before[] = {9, 2, 4};
    fill();
    j = bp_encode_job(2, 0, 10, 0, 10, beyond, 4, end, 1, words, ROOM);
    SAME(BP_COORD, j.refusal), SAME(1, j.points), SAME(0, j.words), WRITTEN(before);
    const uint32_t none[] = {0};
    j = bp_encode_job(1, 0, 10, 0, 10, points, 0, none, 1, words, ROOM);
    SAME(BP_EMPTY, j.refusal), SAME(0, j.points), SAME(0, j.words);
}

static bp_job edge_job(uint32_t kind, size_t room, size_t edge_room)
{
    fill();
    return bp_encode_job_edges(kind, -3, 40, 5, 17, points, COUNT(points), ends, COUNT(ends), words, room, named, edge_room);
}

static bp_job ring_job(const int32_t *ring, size_t edge_room)
{
    static const uint32_t three[] = {3};
    fill();
    return bp_encode_job_edges(BP_POLYGON, 0, 10, 0, 10, ring, 6, three, 1, words, ROOM, named, edge_room);
}

/* A job with its edges: the words of a job, and two numbers for each raw point. */
static void edge_jobs(void)
{
    static const uint32_t line_edges[] = {0, 0, 1, 4, 4, 0, 0, 0, 0, 0}, no_edges[10];
    bp_job j = edge_job(BP_LINE, ROOM, ROOM);
    SAME(0, j.refusal), SAME(5, j.points), SAME(20, j.words), WRITTEN(line), NAMED(line_edges);
    j = edge_job(BP_LINE, ROOM, BP_EDGE_NUMBERS(5));
    SAME(0, j.refusal), SAME(5, j.points), SAME(20, j.words), WRITTEN(line), NAMED(line_edges);
    j = edge_job(BP_POINT, ROOM, ROOM);
    SAME(0, j.refusal), SAME(5, j.points), NAMED(no_edges);
    /* no room for the words of the third point */
    const uint32_t two[] = {9, 5, 10, 10, 0, 4, 54, 20, 32, 0}, two_edges[] = {0, 0, 1, 4};
    j = edge_job(BP_LINE, 11, ROOM);
    SAME(BP_ROOM, j.refusal), SAME(2, j.points), SAME(0, j.words), WRITTEN(two), NAMED(two_edges);

    /* a ring that leaves the box and comes back, its words as bp_encode_job has them */
    static const int32_t ring[] = {5, 5, 15, 5, 5, 15}, beyond[] = {5, 5, 15, 5, 5, BP_LIMIT + 1}, far[] = {-BP_LIMIT - 1, 5};
    static const uint32_t one[] = {1}, three[] = {3}, ring_edges[] = {0, 0, 0, 2, 2, 4}, before[] = {0, 0, 0, 2};
    uint32_t expected[COUNT(memory)];
    fill();
    bp_job plain = bp_encode_job(BP_POLYGON, 0, 10, 0, 10, ring, 6, three, 1, words, ROOM);
    SAME(0, plain.refusal), SAME(3, plain.points);
    memcpy(expected, memory, sizeof memory);
    const size_t enough[] = {6, 7, ROOM};
    for (size_t i = 0; i < COUNT(enough); i++) {
        j = ring_job(ring, enough[i]);
        SAME(0, j.refusal), SAME(3, j.points), SAME(plain.words, j.words), NAMED(ring_edges);
        SAME(0, memcmp(expected, memory, sizeof memory));
    }

    /* a list that is a pair or an entry short: both lists as the calls for two points left them; COORD behind its end comes first */
    fill();
    bp_drawn d = bp_encoder_add_point(bp_encoder_new(BP_POLYGON, 0, 10, 0, 10).state, 5, 5, words, ROOM);
    d = bp_encoder_add_point(d.state, 15, 5, words, ROOM);
    SAME(0, d.refusal);
    memcpy(expected, memory, sizeof memory);
    for (size_t edge_room = 4; edge_room < 6; edge_room++) {
        j = ring_job(ring, edge_room);
        SAME(BP_ROOM, j.refusal), SAME(2, j.points), SAME(0, j.words), NAMED(before);
        SAME(0, memcmp(expected, memory, sizeof memory));
        j = ring_job(beyond, edge_room);
        SAME(BP_COORD, j.refusal), SAME(2, j.points), SAME(0, j.words), NAMED(before);
        SAME(0, memcmp(expected, memory, sizeof memory));
    }
    for (size_t edge_room = 0; edge_room < 2; edge_room++) {
        fill();
        j = bp_encode_job_edges(BP_LINE, 0, 10, 0, 10, ring, 2, one, 1, words, ROOM, named, edge_room);
        SAME(BP_ROOM, j.refusal), SAME(0, j.points), SAME(0, j.words), UNTOUCHED(), UNNAMED();
        j = bp_encode_job_edges(BP_LINE, 0, 10, 0, 10, far, 2, one, 1, words, ROOM, named, edge_room);
        SAME(BP_COORD, j.refusal), SAME(0, j.points), SAME(0, j.words), UNTOUCHED(), UNNAMED();
    }

    /* JOB, KIND and BOX, in this order, leave both lists */
    j = edge_job(4, ROOM, ROOM);
    SAME(BP_KIND, j.refusal), SAME(0, j.points), SAME(0, j.words), UNTOUCHED(), UNNAMED();
    SAME(BP_KIND, bp_encode_job_edges(0, 5, 5, 0, 1, ring, 6, three, 1, words, ROOM, named, ROOM).refusal);
    SAME(BP_JOB, bp_encode_job_edges(0, 5, 5, 0, 1, ring, 5, three, 1, words, ROOM, named, ROOM).refusal);
    SAME(BP_JOB, bp_encode_job_edges(2, 0, 1, 0, 1, ring, 6, three, 0, words, ROOM, named, ROOM).refusal);
    SAME(BP_JOB, bp_encode_job_edges(2, 0, 1, 0, 1, ring, 6, one, 1, words, ROOM, named, ROOM).refusal);
    SAME(BP_BOX, bp_encode_job_edges(2, 5, 5, 0, 1, ring, 6, three, 1, words, ROOM, named, ROOM).refusal);
    SAME(BP_BOX, bp_encode_job_edges(2, 0, 1, 0, BP_LIMIT + 1, ring, 6, three, 1, words, ROOM, named, 0).refusal);
    UNTOUCHED(), UNNAMED();
}

static void readings(void)
{
    const int32_t vertices[] = {1, -3, 5, 2, -3, 7, 2, 24, 17, 2, 40, 17, 2, 29, 17, 2, 10, 9, 1, 7, 11, 2, 8, 12};
    int32_t out[26];
    for (size_t i = 0; i < COUNT(out); i++)
        out[i] = -1000 - (int32_t)i;
    bp_reading r = bp_decode(line, COUNT(line), out, COUNT(vertices));
    SAME(0, r.refusal), SAME(8, r.vertices), SAME(0, r.place);
    for (size_t i = 0; i < COUNT(out); i++)
        SAME(i < COUNT(vertices) ? vertices[i] : -1000 - (int32_t)i, out[i]);
    const uint32_t far[] = {9, UINT32_MAX, UINT32_MAX - 1};
    r = bp_decode(far, 3, out, 3);
    SAME(0, r.refusal), SAME(1, r.vertices), SAME(1, out[0]), SAME(INT32_MIN, out[1]), SAME(INT32_MAX, out[2]);
    SAME(BP_ROOM, bp_decode(far, 3, out, 2).refusal);
    r = bp_decode(far, 2, out, 3);
    SAME(BP_CUTPARAMS, r.refusal), SAME(0, r.vertices), SAME(0, r.place);
    r = bp_decode(line, 5, out, 24);
    SAME(BP_CUTPARAMS, r.refusal), SAME(0, r.vertices), SAME(3, r.place);
    const uint32_t step[] = {17, UINT32_MAX, 0, 1, 0};
    SAME(BP_STEP, bp_decode(step, 5, out, 6).refusal);
    const uint32_t command[] = {7 + 8, 3};
    r = bp_decode(command, 2, out, 6);
    SAME(BP_COMMAND, r.refusal), SAME(0, r.vertices);
}

static void point_is(int at, uint32_t is_set, int32_t x, int32_t y, bp_point p)
{
    same("is_set", at, is_set, p.is_set);
    same("x", at, x, p.x);
    same("y", at, y, p.y);
}
#define POINT(is_set, x, y, p) point_is(__LINE__, is_set, x, y, p)

/* Two states, up to their last field: what stands behind it is padding. */
static void state_is(int at, bp_encoder s, bp_encoder t)
{
    same("the state", at, 0, memcmp(&s, &t, offsetof(bp_encoder, taken_out) + sizeof(uint32_t)));
}
#define STATE(s, t) state_is(__LINE__, s, t)

static void given_back(int at, bp_encoder s, bp_drawn d, uint32_t refusal)
{
    same("refusal", at, refusal, d.refusal);
    same("words", at, 0, d.words);
    edges_are(at, 0, 0, d.edge0, d.edge1);
    state_is(at, s, d.state);
}
#define GIVEN_BACK(s, d, refusal) given_back(__LINE__, s, d, refusal)

static void calls(void)
{
    bp_started n = bp_encoder_new(BP_POLYGON, -3, 40, 5, 17);
    SAME(0, n.refusal), SAME(3, n.state.kind), SAME(0, n.state.count), SAME(0, n.state.used), SAME(0, n.state.cmd_offset);
    SAME(-3, n.state.x_min), SAME(40, n.state.x_max), SAME(5, n.state.y_min), SAME(17, n.state.y_max);
    POINT(0, 0, 0, n.state.xy_end), POINT(0, 0, 0, n.state.pt0), POINT(0, 0, 0, n.state.pt1);
    SAME(BP_KIND, bp_encoder_new(0, 1, 1, 1, 1).refusal);
    n = bp_encoder_new(3, 1, 2, 3, 3);
    SAME(BP_BOX, n.refusal), SAME(0, n.state.kind), SAME(0, n.state.x_max);

    fill();
    bp_drawn d = bp_encoder_add_point(bp_encoder_new(BP_POLYGON, -3, 40, 5, 17).state, 0, 6, words, ROOM);
    SAME(0, d.refusal), SAME(3, d.words), SAME(1, d.state.count), SAME(0, d.state.cmd_offset);
    POINT(1, 0, 6, d.state.xy_end), POINT(0, 0, 0, d.state.pt0), POINT(1, 0, 6, d.state.pt1);
    d = bp_encoder_add_point(d.state, 9, 6, words, ROOM);
    const uint32_t two[] = {9, 0, 12, 10, 18, 0};
    SAME(6, d.words), SAME(3, d.state.cmd_offset), SAME(2, d.state.count), WRITTEN(two);
    d = bp_encoder_add_point(d.state, 20, 6, words, ROOM); /* (9, 6) is taken out */
    const uint32_t taken_out[] = {9, 0, 12, 10, 40, 0};
    SAME(6, d.words), SAME(2, d.state.count), WRITTEN(taken_out);
    POINT(1, 0, 6, d.state.pt0), POINT(1, 20, 6, d.state.pt1), POINT(1, 20, 6, d.state.xy_end);
    d = bp_encoder_add_point(d.state, 20, 16, words, ROOM);
    SAME(8, d.words), SAME(3, bp_encoder_count(d.state)), SAME(8, bp_encoder_len(d.state));
    const bp_encoder full = d.state;
    d = bp_encoder_complete_geom(full, words, ROOM);
    const uint32_t ring[] = {9, 0, 12, 18, 40, 0, 0, 20, 15};
    SAME(0, d.refusal), SAME(9, d.words), SAME(0, d.state.count), SAME(8, d.state.cmd_offset), WRITTEN(ring);
    POINT(0, 0, 0, d.state.xy_end), POINT(0, 0, 0, d.state.pt0), POINT(1, 20, 16, d.state.pt1);

    fill();
    GIVEN_BACK(full, bp_encoder_complete_geom(full, words, 8), BP_ROOM);
    GIVEN_BACK(full, bp_encoder_add_point(full, 1, BP_LIMIT + 1, words, ROOM), BP_COORD);
    GIVEN_BACK(full, bp_encoder_add_point(full, 1, 7, words, 7), BP_STATE);
    /* every number of the state is looked at, at its full width */
    bp_encoder s = full;
    s.used += (size_t)1 << 32;
    SAME(s.used, bp_encoder_len(s));
    GIVEN_BACK(s, bp_encoder_add_point(s, 1, 7, words, ROOM), BP_STATE);
    s = full, s.cmd_offset += (size_t)1 << 32;
    GIVEN_BACK(s, bp_encoder_complete_geom(s, words, ROOM), BP_STATE);
    s = full, s.count += (uint32_t)1 << 31;
    SAME(s.count, bp_encoder_count(s));
    GIVEN_BACK(s, bp_encoder_add_point(s, 1, 7, words, ROOM), BP_STATE);
    s = full, s.kind = 4;
    GIVEN_BACK(s, bp_encoder_add_point(s, 1, 7, words, ROOM), BP_STATE);
    s = full, s.x_min = s.x_max;
    GIVEN_BACK(s, bp_encoder_add_point(s, 1, 7, words, ROOM), BP_STATE);
    s = full, s.y_max = s.y_min;
    GIVEN_BACK(s, bp_encoder_add_point(s, 1, 7, words, ROOM), BP_STATE);
    bp_point *const stored[] = {&s.xy_end, &s.pt0, &s.pt1};
    for (size_t i = 0; i < COUNT(stored); i++) {
        s = full, stored[i]->is_set = 2;
        GIVEN_BACK(s, bp_encoder_add_point(s, 1, 7, words, ROOM), BP_STATE);
        GIVEN_BACK(s, bp_encoder_complete_geom(s, words, ROOM), BP_STATE);
        s = full, stored[i]->y = BP_LIMIT + 1;
        GIVEN_BACK(s, bp_encoder_add_point(s, 1, 7, words, ROOM), BP_STATE);
        s = full, stored[i]->x = -BP_LIMIT - 1;
        GIVEN_BACK(s, bp_encoder_complete_geom(s, words, ROOM), BP_STATE);
        stored[i]->is_set = 0; /* what lies behind a 0 is not looked at */
        SAME(0, bp_encoder_complete_geom(s, words, ROOM).refusal);
        fill();
    }
    UNTOUCHED();
}

/* ---- the counts of what became of the points */

/* How many vertices stand in the words of a state: so many are read of them once its part is completed, without ClosePath. */
static long long vertices_of(bp_encoder s)
{
    static uint32_t copy[ROOM + 1];
    static int32_t out[BP_READ_NUMBERS(ROOM + 1)];
    memcpy(copy, words, ROOM * sizeof copy[0]);
    bp_drawn d = bp_encoder_complete_geom(s, copy, COUNT(copy));
    bp_reading r = bp_decode(copy, d.words, out, COUNT(out));
    SAME(0, r.refusal);
    long long count = 0;
    for (size_t i = 0; i < r.vertices; i++)
        count += out[3 * i] != 7;
    return count;
}

/* The counts, and that they tell the vertices. */
static void counts_are(int at, uint32_t taken, uint32_t boundary, uint32_t skipped, uint32_t taken_out, bp_encoder s)
{
    same("taken", at, taken, s.taken);
    same("boundary", at, boundary, s.boundary);
    same("skipped", at, skipped, s.skipped);
    same("taken_out", at, taken_out, s.taken_out);
    same("vertices", at, (long long)s.taken + s.boundary - s.skipped - s.taken_out, vertices_of(s));
}
#define COUNTS(taken_is, boundary_is, skipped_is, taken_out_is, s) counts_are(__LINE__, taken_is, boundary_is, skipped_is, taken_out_is, s)

/* The state behind a point that is accepted. */
static bp_encoder with_point(int at, bp_encoder s, int32_t x, int32_t y)
{
    bp_drawn d = bp_encoder_add_point(s, x, y, words, ROOM);
    same("refusal", at, 0, d.refusal);
    return d.state;
}
#define ADD(x, y) s = with_point(__LINE__, s, x, y)

/* Each count by itself, in the box from 0 to 10; behind every call they tell the vertices. */
static void counts(void)
{
    for (uint32_t kind = BP_POINT; kind <= BP_POLYGON; kind++)
        COUNTS(0, 0, 0, 0, bp_encoder_new(kind, 0, 10, 0, 10).state);

    fill();
    bp_encoder s = bp_encoder_new(BP_POLYGON, 0, 10, 0, 10).state;
    ADD(0, 0), COUNTS(1, 0, 0, 0, s); /* there is no last point yet that it could be again */
    ADD(0, 0), COUNTS(2, 0, 1, 0, s);
    ADD(4, 0), COUNTS(3, 0, 1, 0, s);
    ADD(9, 0), COUNTS(4, 0, 1, 1, s); /* (4, 0) is taken out */
    ADD(9, 9), COUNTS(5, 0, 1, 1, s);
    const bp_encoder ring = s;
    ADD(20, 9), COUNTS(6, 1, 2, 1, s); /* cut at (10, 9), where the point itself is clamped to */
    ADD(20, 20), COUNTS(7, 1, 2, 1, s);
    bp_drawn d = bp_encoder_complete_geom(s, words, ROOM);
    SAME(0, d.refusal), COUNTS(7, 1, 2, 1, d.state);
    s = d.state;
    size_t used = s.used;
    ADD(10, 10), COUNTS(8, 1, 3, 1, s); /* a part that starts on the last point: its count is 1, and no word is written */
    SAME(1, s.count), SAME(used, s.used);
    ADD(5, 15), COUNTS(9, 2, 4, 1, s); /* the boundary point is (10, 10) again: it is counted where it is skipped too */
    d = bp_encoder_complete_geom(s, words, ROOM);
    SAME(0, d.refusal), COUNTS(9, 2, 4, 1, d.state);

    /* a refused call gives them back */
    fill();
    GIVEN_BACK(ring, bp_encoder_add_point(ring, 20, BP_LIMIT + 1, words, ROOM), BP_COORD);
    GIVEN_BACK(ring, bp_encoder_add_point(ring, 20, 9, words, ring.used), BP_ROOM);
    GIVEN_BACK(ring, bp_encoder_complete_geom(ring, words, ring.used), BP_ROOM);
    UNTOUCHED();

    /* a line that crosses the box; an empty part; a line that misses the box */
    fill();
    s = bp_encoder_new(BP_LINE, 0, 10, 0, 10).state;
    ADD(-5, 3), COUNTS(1, 0, 0, 0, s);
    ADD(15, 8), COUNTS(2, 2, 0, 0, s);
    s = bp_encoder_complete_geom(s, words, ROOM).state;
    COUNTS(2, 2, 0, 0, s);
    s = bp_encoder_complete_geom(s, words, ROOM).state;
    COUNTS(2, 2, 0, 0, s);
    ADD(-1, 0), COUNTS(3, 2, 0, 0, s);
    ADD(1, -1), COUNTS(4, 4, 2, 0, s); /* both ends are cut to (0, 0), where the last point is; the point itself goes to (1, 0) */
    ADD(5, -1), COUNTS(5, 4, 2, 0, s);
    ADD(7, -1), COUNTS(6, 4, 2, 0, s); /* of lines no point is taken out */

    /* points are never cut */
    fill();
    s = bp_encoder_new(BP_POINT, 0, 10, 0, 10).state;
    ADD(-1, -1), COUNTS(1, 0, 0, 0, s);
    ADD(-5, -5), COUNTS(2, 0, 1, 0, s);
    ADD(11, 5), COUNTS(3, 0, 1, 0, s);
    d = bp_encoder_complete_geom(s, words, ROOM);
    SAME(0, d.refusal), COUNTS(3, 0, 1, 0, d.state);
    s = d.state;
    ADD(20, 5), COUNTS(4, 0, 2, 0, s);
}

static bp_encoder counted(bp_encoder s, uint32_t taken, uint32_t boundary, uint32_t skipped, uint32_t taken_out)
{
    s.taken = taken, s.boundary = boundary, s.skipped = skipped, s.taken_out = taken_out;
    return s;
}

/* The rule of the counts: a carried state with these is STATE for both calls, or it is not; a point's count may have no room. */
static void balance_is(int at, bp_encoder s, uint32_t point, uint32_t part)
{
    fill();
    bp_drawn d = bp_encoder_add_point(s, 3, 4, words, ROOM);
    if (point == 0)
        same("refusal", at, 0, d.refusal);
    else
        given_back(at, s, d, point), written(at, "a word", memory, NULL, 0);
    d = bp_encoder_complete_geom(s, words, ROOM);
    if (part == 0) {
        same("refusal", at, 0, d.refusal);
        state_is(at, s, d.state); /* a fresh line: nothing else of it changes either */
    } else
        given_back(at, s, d, part);
}
#define BALANCE(point, part, taken, boundary, skipped, taken_out) \
    balance_is(__LINE__, counted(bp_encoder_new(BP_LINE, 0, 10, 0, 10).state, taken, boundary, skipped, taken_out), point, part)

static void balances(void)
{
    const uint32_t max = UINT32_MAX;
    BALANCE(0, 0, 0, 0, 0, 0);
    BALANCE(0, 0, 5, 0, 0, 0); /* nothing else of them is asked */
    BALANCE(0, 0, 3, 2, 4, 1); /* as many lost as were given */
    BALANCE(BP_STATE, BP_STATE, 2, 2, 4, 1);
    BALANCE(BP_STATE, BP_STATE, 3, 1, 4, 1);
    BALANCE(BP_STATE, BP_STATE, 3, 2, 5, 1);
    BALANCE(BP_STATE, BP_STATE, 3, 2, 4, 2);
    BALANCE(BP_STATE, BP_STATE, 0, 0, 1, 0);
    BALANCE(BP_STATE, BP_STATE, 0, 0, 0, 1);
    /* sums of more than 32 bits */
    BALANCE(BP_ROOM, 0, max, max, max, max);
    BALANCE(BP_STATE, BP_STATE, max - 1, max, max, max);
    BALANCE(BP_STATE, BP_STATE, max, max - 1, max, max);
    BALANCE(BP_STATE, BP_STATE, 0, max, max, 1);
    BALANCE(0, 0, 1, max, max, 1);
    BALANCE(BP_STATE, BP_STATE, 0, 0, max, 1);
    BALANCE(BP_STATE, BP_STATE, 0, 0, 1, max);
    BALANCE(0, 0, 1, max, 1, 0);
    BALANCE(BP_ROOM, 0, max, 1, 0, 1);
}

/* A point for which a count has room, exactly, and one for which it has none. */
static void room_is(int at, bp_encoder s, int32_t x, int32_t y, uint32_t taken, uint32_t boundary, uint32_t skipped, uint32_t taken_out)
{
    s = with_point(at, s, x, y);
    same("taken", at, taken, s.taken);
    same("boundary", at, boundary, s.boundary);
    same("skipped", at, skipped, s.skipped);
    same("taken_out", at, taken_out, s.taken_out);
}
#define FITS(s, x, y, ...) room_is(__LINE__, s, x, y, __VA_ARGS__)
#define NO_ROOM(s, x, y) (fill(), given_back(__LINE__, s, bp_encoder_add_point(s, x, y, words, ROOM), BP_ROOM), UNTOUCHED())

static void count_rooms(void)
{
    const uint32_t max = UINT32_MAX;
    bp_encoder s = bp_encoder_new(BP_LINE, 0, 10, 0, 10).state;
    fill();
    FITS(counted(s, max - 1, 0, 0, 0), 3, 4, max, 0, 0, 0);
    NO_ROOM(counted(s, max, 0, 0, 0), 3, 4);
    GIVEN_BACK(counted(s, max, 0, 0, 0), bp_encoder_add_point(counted(s, max, 0, 0, 0), BP_LIMIT + 1, 4, words, ROOM), BP_COORD);
    GIVEN_BACK(counted(s, 0, 0, 1, 0), bp_encoder_add_point(counted(s, 0, 0, 1, 0), BP_LIMIT + 1, 4, words, ROOM), BP_STATE);

    /* a line at (-5, 3): to (5, 5) one end moves, to (15, 8) both, to (-5, 8) none */
    ADD(-5, 3);
    FITS(counted(s, 1, max - 1, 0, 0), 5, 5, 2, max, 0, 0);
    NO_ROOM(counted(s, 1, max - 1, 0, 0), 15, 8);
    FITS(counted(s, 1, max - 2, 0, 0), 15, 8, 2, max, 0, 0);
    NO_ROOM(counted(s, 1, max, 0, 0), 5, 5);
    FITS(counted(s, 1, max, 0, 0), -5, 8, 2, max, 0, 0); /* what could come is not asked */

    /* a line at (-1, 0), clamped to (0, 0): to (0, 0) the boundary point and the point are skipped, to (-2, 0) the point, to (5, 0) the boundary point */
    s = bp_encoder_new(BP_LINE, 0, 10, 0, 10).state;
    ADD(-1, 0);
    FITS(counted(s, 1, 9, 8, 0), 0, 0, 2, 10, 10, 0);
    FITS(counted(s, max - 1, 9, max - 2, 0), 0, 0, max, 10, max, 0);
    NO_ROOM(counted(s, max - 1, 9, max - 1, 0), 0, 0);
    FITS(counted(s, max - 1, 9, max - 1, 0), 5, 0, max, 10, max, 0);
    FITS(counted(s, max - 1, 9, max - 1, 0), -2, 0, max, 9, max, 0);
    NO_ROOM(counted(s, max - 1, 9, max, 0), -2, 0);
    FITS(counted(s, max - 1, 9, max, 0), -2, 1, max, 9, max, 0);

    /* a ring at (0, 0), (4, 0): (9, 0) takes the second out, (9, 9) does not */
    s = bp_encoder_new(BP_POLYGON, 0, 10, 0, 10).state;
    fill();
    ADD(0, 0);
    ADD(4, 0);
    FITS(counted(s, max - 1, 2, 0, max - 1), 9, 0, max, 2, 0, max);
    NO_ROOM(counted(s, max - 1, 2, 0, max), 9, 0);
    FITS(counted(s, max - 1, 2, 0, max), 9, 9, max, 2, 0, max);
}

/* ---- a whole job with its state */

/* Document 01's sample jobs and those of samples/: the counts behind the last call, or the refusal and the accepted points. */
static const struct sample {
    uint32_t kind;
    bp_box box;
    size_t points, parts;
    int32_t at[20];
    uint32_t ends[2], refusal, taken, boundary, skipped, taken_out;
} sample_jobs[] = {
    {BP_POINT, {0, 100, 0, 100}, 2, 1, {5, 7, 3, 2}, {2}, 0, 2, 0, 0, 0},
    {BP_LINE, {0, 10, 0, 10}, 3, 1, {2, 2, 2, 10, 10, 10}, {3}, 0, 3, 0, 0, 0},
    {BP_LINE, {0, 10, 0, 10}, 5, 2, {2, 2, 2, 10, 10, 10, 1, 1, 3, 5}, {3, 5}, 0, 5, 0, 0, 0},
    {BP_POLYGON, {0, 100, 0, 100}, 3, 1, {3, 6, 8, 12, 20, 34}, {3}, 0, 3, 0, 0, 0},
    {BP_POLYGON, {0, 10, 0, 10}, 4, 1, {0, 0, 4, 0, 9, 0, 9, 9}, {4}, 0, 4, 0, 0, 1},
    {BP_POLYGON, {0, 10, 0, 10}, 6, 2, {0, 0, 4, 0, 4, 4, 4, 4, 8, 4, 8, 8}, {3, 6}, 0, 6, 0, 1, 0},
    {BP_LINE, {0, 10, 0, 10}, 2, 1, {-5, 3, 15, 8}, {2}, 0, 2, 2, 0, 0},
    {BP_LINE, {0, 10, 0, 10}, 2, 1, {-1, -1, 11, 11}, {2}, 0, 2, 2, 2, 0},
    {BP_POLYGON, {0, 10, 0, 10}, 3, 1, {5, 5, 15, 5, 5, 15}, {3}, 0, 3, 3, 2, 0},
    {BP_LINE, {0, 10, 0, 10}, 4, 1, {-1, 0, 0, 0, -1, 0, 0, 0}, {4}, 0, 4, 3, 6, 0},
    {BP_POLYGON, {0, 10, 0, 10}, 8, 1, {0, 0, 3, 0, 6, 0, 6, 0, 9, 0, 9, 4, 9, 15, 0, 15}, {8}, 0, 8, 1, 2, 3},
    {BP_LINE, {-BP_LIMIT, BP_LIMIT, -BP_LIMIT, BP_LIMIT}, 2, 1, {BP_LIMIT, -BP_LIMIT, 0, 0}, {2}, 0, 2, 0, 0, 0},
    {BP_LINE, {0, 0, 0, 0}, 1, 1, {1, 1}, {1}, BP_BOX, 0, 0, 0, 0},
    {BP_LINE, {0, BP_LIMIT + 1, 0, 10}, 1, 1, {1, 1}, {1}, BP_BOX, 0, 0, 0, 0},
    {BP_LINE, {0, 10, 0, 10}, 2, 1, {1, 1, BP_LIMIT + 1, 1}, {2}, BP_COORD, 1, 0, 0, 0},
    {BP_POINT, {0, 10, 0, 10}, 0, 1, {0}, {0}, BP_EMPTY, 0, 0, 0, 0},
    {4, {0, 10, 0, 10}, 1, 1, {1, 1}, {1}, BP_KIND, 0, 0, 0, 0},
    {BP_LINE, {0, 10, 0, 10}, 3, 2, {1, 1, 2, 2, 3, 3}, {2, 1}, BP_JOB, 0, 0, 0, 0},
};

/* The state of a job whose calls are made one by one, all of them accepted. */
static bp_encoder by_calls(const struct sample *j)
{
    bp_encoder s = bp_encoder_new_in(j->kind, j->box).state;
    for (size_t part = 0, i = 0; part < j->parts; part++) {
        for (; i < j->ends[part]; i++)
            ADD(j->at[2 * i], j->at[2 * i + 1]);
        bp_drawn d = bp_encoder_complete_geom(s, words, ROOM);
        SAME(0, d.refusal);
        s = d.state;
    }
    return s;
}

/* The same state by the whole job and by its calls, and its counts tell the vertices. */
static void job_state_is(int at, const struct sample *j, bp_encoder s)
{
    static uint32_t expected[COUNT(memory)];
    memcpy(expected, memory, sizeof memory);
    counts_are(at, s.taken, s.boundary, s.skipped, s.taken_out, s);
    fill();
    state_is(at, by_calls(j), s);
    same("the words", at, 0, memcmp(expected, memory, sizeof memory));
}

/* Jobs of up to ten points around a small box, as a generator has them. */
static void many_states(void)
{
    uint32_t seed = 9;
    for (int i = 0; i < 2000; i++) {
        struct sample j = {1 + (uint32_t)i % 3, {0, 10, 0, 10}, 1 + (size_t)i % 10, 2, {0}, {0}, 0, 0, 0, 0, 0};
        for (size_t k = 0; k < 2 * j.points; k++) {
            seed = seed * 1664525u + 1013904223u;
            j.at[k] = (int32_t)(seed >> 24) % 7 * 3 - 4;
        }
        j.ends[0] = 1 + seed % (uint32_t)j.points, j.ends[1] = (uint32_t)j.points;
        const bp_geometry g = {j.kind, j.box, j.at, 2 * j.points, j.ends, 2};
        fill();
        bp_finished f = bp_encode_state_in(&g, words, ROOM);
        SAME(0, f.refusal), SAME(j.points, f.points), SAME(j.points, f.state.taken);
        job_state_is(__LINE__, &j, f.state);
    }
}

static void job_states(void)
{
    static uint32_t expected[COUNT(memory)];
    const bp_encoder none = {0};
    for (size_t i = 0; i < COUNT(sample_jobs); i++) {
        const struct sample *j = &sample_jobs[i];
        const bp_geometry g = {j->kind, j->box, j->at, 2 * j->points, j->ends, j->parts};
        fill();
        bp_job plain = bp_encode_in(&g, words, ROOM);
        memcpy(expected, memory, sizeof memory);
        fill();
        bp_finished f = bp_encode_job_state(j->kind, j->box.x_min, j->box.x_max, j->box.y_min, j->box.y_max, j->at, 2 * j->points, j->ends, j->parts, words, ROOM);
        SAME(j->refusal, f.refusal), SAME(plain.refusal, f.refusal);
        SAME(j->taken, f.points), SAME(plain.points, f.points);
        SAME(plain.words, f.state.used), SAME(0, memcmp(expected, memory, sizeof memory));
        if (f.refusal == 0) {
            COUNTS(j->taken, j->boundary, j->skipped, j->taken_out, f.state);
            job_state_is(__LINE__, j, f.state);
        } else
            STATE(none, f.state);
    }

    /* four different edges, two parts; then no room for the third point: the words as two points left them, and no state */
    fill();
    bp_finished f = bp_encode_job_state(BP_LINE, -3, 40, 5, 17, points, COUNT(points), ends, COUNT(ends), words, ROOM);
    SAME(0, f.refusal), SAME(5, f.points), SAME(20, f.state.used), WRITTEN(line), COUNTS(5, 3, 0, 0, f.state);
    SAME(BP_LINE, f.state.kind), SAME(-3, f.state.x_min), SAME(40, f.state.x_max), SAME(5, f.state.y_min), SAME(17, f.state.y_max);
    SAME(0, f.state.count), SAME(17, f.state.cmd_offset), POINT(0, 0, 0, f.state.xy_end), POINT(0, 0, 0, f.state.pt0), POINT(1, 8, 12, f.state.pt1);
    const uint32_t two[] = {9, 5, 10, 10, 0, 4, 54, 20, 32, 0};
    fill();
    f = bp_encode_job_state(BP_LINE, -3, 40, 5, 17, points, COUNT(points), ends, COUNT(ends), words, 11);
    SAME(BP_ROOM, f.refusal), SAME(2, f.points), STATE(none, f.state), WRITTEN(two);
    GIVEN_BACK(f.state, bp_encoder_add_point(f.state, 0, 0, words, ROOM), BP_STATE);
    GIVEN_BACK(f.state, bp_encoder_complete_geom(f.state, words, ROOM), BP_STATE);
    fill();
    f = bp_encode_job_state(BP_LINE, -3, 40, 5, 17, points, COUNT(points) - 1, ends, COUNT(ends), words, ROOM);
    SAME(BP_JOB, f.refusal), SAME(0, f.points), STATE(none, f.state), UNTOUCHED();
}

/* What a list needs at most: it is enough, and is taken up. */
static void sizes(void)
{
    static const bp_box box = {0, 10, 0, 10};
    static const int32_t across[] = {-5, 3, 15, 8}; /* both ends are cut, and the point itself is a third */
    static const uint32_t two[] = {2}, three[] = {3}, closed[] = {15, 15, 15};
    static const int32_t apart[] = {1, 2, 3, 4, 5, 6};
    int32_t out[BP_READ_NUMBERS(3)];
    bp_geometry g = {BP_LINE, box, across, 4, two, 1};
    SAME(BP_LINE_WORDS(2), bp_encode_in(&g, words, BP_LINE_WORDS(2)).words);
    SAME(BP_ROOM, bp_encode_in(&g, words, BP_LINE_WORDS(2) - 1).refusal);
    g.kind = BP_POLYGON;
    SAME(BP_POLYGON_WORDS(2), bp_encode_in(&g, words, BP_POLYGON_WORDS(2)).words);
    SAME(BP_ROOM, bp_encode_in(&g, words, BP_POLYGON_WORDS(2) - 1).refusal);
    g = (bp_geometry){BP_POINT, box, apart, 6, three, 1};
    SAME(BP_POINT_WORDS(3), bp_encode_in(&g, words, BP_POINT_WORDS(3)).words);
    SAME(BP_ROOM, bp_encode_in(&g, words, BP_POINT_WORDS(3) - 1).refusal);
    SAME(3, bp_decode(closed, 3, out, COUNT(out)).vertices);
    SAME(BP_ROOM, bp_decode(closed, 3, out, COUNT(out) - 1).refusal);
}

/* The inline functions of this library, with lists and boxes of four different numbers, and null for what is empty. */
static void inlines(void)
{
    static const bp_box box = {-3, 40, 5, 17};
    bp_clipped c = bp_clip_in(-20, 1, 60, 30, box);
    SAME(0, c.refusal), SAME(-3, c.x0), SAME(7, c.y0), SAME(24, c.x1), SAME(17, c.y1);
    bp_encoder s = bp_encoder_new_in(BP_LINE, box).state;
    SAME(BP_LINE, s.kind), SAME(-3, s.x_min), SAME(40, s.x_max), SAME(5, s.y_min), SAME(17, s.y_max);
    bp_geometry g = {BP_LINE, box, points, COUNT(points), ends, COUNT(ends)};
    fill();
    bp_job j = bp_encode_in(&g, words, ROOM);
    SAME(0, j.refusal), SAME(5, j.points), SAME(20, j.words), WRITTEN(line);
    const uint32_t line_edges[] = {0, 0, 1, 4, 4, 0, 0, 0, 0, 0};
    fill();
    j = bp_encode_edges_in(&g, words, ROOM, named, COUNT(line_edges));
    SAME(0, j.refusal), SAME(5, j.points), SAME(20, j.words), WRITTEN(line), NAMED(line_edges);
    j = bp_encode_edges_in(&g, words, ROOM, NULL, 0);
    SAME(BP_ROOM, j.refusal), SAME(0, j.points);
    fill();
    bp_finished f = bp_encode_state_in(&g, words, ROOM);
    SAME(0, f.refusal), SAME(5, f.points), SAME(20, f.state.used), SAME(5, f.state.taken), SAME(3, f.state.boundary), WRITTEN(line);
    const uint32_t none[] = {0};
    g = (bp_geometry){BP_LINE, box, NULL, 0, none, 1};
    j = bp_encode_in(&g, NULL, 0);
    SAME(0, j.refusal), SAME(0, j.words);
    j = bp_encode_edges_in(&g, NULL, 0, NULL, 0);
    SAME(0, j.refusal), SAME(0, j.words);
    f = bp_encode_state_in(&g, NULL, 0);
    SAME(0, f.refusal), SAME(0, f.points), SAME(BP_LINE, f.state.kind), SAME(5, f.state.y_min);
    g.ends = NULL, g.ends_len = 0;
    SAME(BP_JOB, bp_encode_in(&g, NULL, 0).refusal);
    SAME(BP_JOB, bp_encode_state_in(&g, NULL, 0).refusal);
    SAME(BP_JOB, bp_encode_edges_in(&g, NULL, 0, NULL, 0).refusal);
    SAME(0, bp_decode_in(NULL, 0, NULL, 0).refusal);
    SAME(BP_ROOM, bp_decode_in(line, COUNT(line), NULL, 0).refusal);
}

/* What a refused new state gives is refused in its turn. */
static void refused_new(void)
{
    bp_started n = bp_encoder_new(4, 0, 1, 0, 1);
    SAME(BP_KIND, n.refusal);
    fill();
    GIVEN_BACK(n.state, bp_encoder_add_point(n.state, 0, 0, words, ROOM), BP_STATE);
    GIVEN_BACK(n.state, bp_encoder_complete_geom(n.state, words, ROOM), BP_STATE);
    UNTOUCHED();
}

int main(void)
{
    SAME(BP_VERSION, bp_version());
    sizes();
    inlines();
    refused_new();
    clips();
    edges();
    jobs();
    edge_jobs();
    readings();
    calls();
    counts();
    balances();
    count_rooms();
    job_states();
    many_states();
    return ended("clips, jobs, vertices and the encoder");
}
