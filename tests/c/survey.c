/* Surveyed points: what a map makes of doubles, to the last bit where it matters; a surveyed point added as its grid point is; a whole survey as the job of its
 * grid points. The grid points are written out, and never reckoned here with doubles. */
#include "brinepost.h"
#include "check.h"
#include <float.h>
#include <math.h>

/* ---- the header's layout, as the library has it */
SIZE(bp_affine, 48);
AT(bp_affine, a, 0);
AT(bp_affine, b, 8);
AT(bp_affine, c, 16);
AT(bp_affine, d, 24);
AT(bp_affine, e, 32);
AT(bp_affine, f, 40);
SIZE(bp_mapped, 12);
AT(bp_mapped, x, 4);
AT(bp_mapped, y, 8);

#define BELOW_HALF 0x1.fffffffffffffp-2   /* the largest double below one half */
#define EDGE 0x1.fffffffcp+29             /* 1073741823.5: from here on nothing is on the grid */
#define BELOW_EDGE 0x1.fffffffbfffffp+29  /* the double before it */
#define ABOVE_EDGE 0x1.fffffffc00001p+29  /* and behind it */
#define LEAST 0x1p-1074                   /* the least double above zero */

static const bp_affine identity = {1, 0, 0, 0, 1, 0};

/* ---- one point */

static void mapped_is(int line, uint32_t refusal, int32_t x, int32_t y, bp_mapped m)
{
    same("refusal", line, refusal, m.refusal);
    same("x", line, x, m.x);
    same("y", line, y, m.y);
}
#define MAPPED(x_is, y_is, ...) mapped_is(__LINE__, 0, x_is, y_is, bp_map_point(__VA_ARGS__))
#define NOWHERE(...) mapped_is(__LINE__, BP_COORD, 0, 0, bp_map_point(__VA_ARGS__))

/* A number alone, as x and as y, and its opposite; the other is 7. */
static void number_is(int line, int32_t expected, double number)
{
    mapped_is(line, 0, expected, 7, bp_map_point(identity, number, 7));
    mapped_is(line, 0, 7, expected, bp_map_point(identity, 7, number));
    mapped_is(line, 0, -expected, 7, bp_map_point(identity, -number, 7));
    mapped_is(line, 0, 7, -expected, bp_map_point(identity, 7, -number));
}
#define NUMBER(expected, number) number_is(__LINE__, expected, number)

/* None for it, wherever it stands, nor for its opposite. */
static void none_for(int line, double number)
{
    mapped_is(line, BP_COORD, 0, 0, bp_map_point(identity, number, 7));
    mapped_is(line, BP_COORD, 0, 0, bp_map_point(identity, 7, number));
    mapped_is(line, BP_COORD, 0, 0, bp_map_point(identity, -number, 7));
    mapped_is(line, BP_COORD, 0, 0, bp_map_point(identity, 7, -number));
    mapped_is(line, BP_COORD, 0, 0, bp_map_point(identity, number, number));
}
#define NONE(number) none_for(__LINE__, number)

static void numbers(void)
{
    NUMBER(0, 0), NUMBER(0, LEAST), NUMBER(0, DBL_MIN), NUMBER(0, 0.25);
    NUMBER(0, BELOW_HALF); /* one half more, and cut, would be 1 */
    NUMBER(1, 0.5), NUMBER(1, 0x1.0000000000001p-1), NUMBER(1, 1);
    NUMBER(1, 0x1.7ffffffffffffp+0), NUMBER(2, 1.5), NUMBER(2, 2), NUMBER(3, 2.5), NUMBER(3, 0x1.4000000000001p+1), NUMBER(4, 3.5);
    NUMBER(4503599, 4503599.4999999), NUMBER(8388608, 8388607.5), NUMBER(8388609, 8388608.5);
    NUMBER(BP_LIMIT - 1, 1073741822.0), NUMBER(BP_LIMIT, 1073741822.5), NUMBER(BP_LIMIT, BP_LIMIT), NUMBER(BP_LIMIT, BELOW_EDGE);
    SAME(1, BELOW_EDGE < EDGE && EDGE < ABOVE_EDGE && EDGE == 1073741823.5 && BELOW_HALF < 0.5);

    NONE(EDGE), NONE(ABOVE_EDGE), NONE(1073741824.0), NONE(2147483647.0), NONE(2147483648.0), NONE(4294967296.0);
    NONE(0x1p+53), NONE(0x1p+63), NONE(0x1p+64), NONE(1e300), NONE(DBL_MAX), NONE(INFINITY), NONE(NAN);
    /* what has a place does not help what has none, in either order */
    NOWHERE(identity, EDGE, NAN), NOWHERE(identity, INFINITY, -INFINITY);
}

static void maps(void)
{
    /* each of the six in its place, by value: the caller's own is as it was */
    bp_affine map = {2, 3, 5, 7, 11, 13};
    const bp_affine before = map;
    MAPPED(96, 341, map, 17, 19), MAPPED(28, 103, map, -17, 19), MAPPED(-18, -77, map, 17, -19);
    SAME(0, memcmp(&before, &map, sizeof map));
    MAPPED(-8, 8, (bp_affine){0, 0, -7.5, 0, 0, 7.5}, 1e300, -1e300);
    MAPPED(19, -17, (bp_affine){0, 1, 0, -1, 0, 0}, 17, 19);

    /* both products are rounded before they are added: 0, and 1 if one of them were fused with the sum */
    MAPPED(0, 0, (bp_affine){134217729, -1, 0, 0, 0, 0}, 134217729, 18014398777917440);
    MAPPED(0, 0, (bp_affine){0, 0, 0, 134217729, -1, 0}, 134217729, 18014398777917440);
    MAPPED(0, 0, (bp_affine){-1, 134217729, 0, 0, 0, 0}, 18014398777917440, 134217729);
    MAPPED(0, 0, (bp_affine){0, 0, 0, -1, 134217729, 0}, 18014398777917440, 134217729);
    /* the sums from the left: the shift comes last, and is not lost */
    MAPPED(1, -1, (bp_affine){1, 1, 1, 1, 1, -1}, 1e16, -1e16);
    /* the product is rounded, to one half, and then the half away from zero */
    MAPPED(1, -1, (bp_affine){0x1.5555555555555p-3, 0, 0, 0, -0x1.5555555555555p-3, 0}, 3, 3);
    /* so is a sum: to one half with 2^-54, and with 2^-55, which is a tie; not with 2^-56 */
    MAPPED(1, 1, (bp_affine){1, 0, 0x1p-54, 1, 0, 0x1p-55}, BELOW_HALF, 0);
    MAPPED(0, 0, (bp_affine){1, 0, 0x1p-56, 1, 0, 0}, BELOW_HALF, 0);
    /* subnormals are kept, among the points and among the six: 2^-1024 times 2^1023 is one half */
    MAPPED(3, 2, (bp_affine){0x1p+1023, 0, 0, 0, 0x1p+1023, 0}, 0x1.8p-1022, 0x1p-1022);
    MAPPED(1, 0, (bp_affine){0x1p+1023, 0, 0, 0, 0x1p+1023, 0}, 0x1p-1024, 0x1p-1025);
    MAPPED(0, -1, (bp_affine){0x1p-1025, 0, 0, 0, -0x1p-1024, 0}, 0x1p+1023, 0x1p+1023);

    /* an infinity or a NaN anywhere, times 0 too; and what only passes the doubles on the way */
    NOWHERE((bp_affine){0, 0, 0, 0, 0, 0}, INFINITY, 1), NOWHERE((bp_affine){0, 0, 0, 0, 0, 0}, 1, -INFINITY);
    NOWHERE((bp_affine){2, -2, 0, 0, 0, 0}, DBL_MAX, DBL_MAX);
    NOWHERE((bp_affine){1, 1, 0, 0, 0, 0}, DBL_MAX, DBL_MAX);
    for (int at = 0; at < 6; at++) {
        const double other[] = {NAN, INFINITY, -INFINITY};
        for (size_t i = 0; i < COUNT(other); i++) {
            double six[] = {1, 2, 3, 4, 5, 6};
            six[at] = other[i];
            NOWHERE((bp_affine){six[0], six[1], six[2], six[3], six[4], six[5]}, 0, 0);
            NOWHERE((bp_affine){six[0], six[1], six[2], six[3], six[4], six[5]}, 1, 2);
        }
    }
}

/* ---- lists with a guard on both sides; what is not written stays */
enum { GUARD = 8, ROOM = 64 };
#define PATTERN 0xA5C3F00Du

static uint32_t memory[GUARD + ROOM + GUARD], other_memory[GUARD + ROOM + GUARD];
static uint32_t *const words = memory + GUARD, *const others = other_memory + GUARD;

static void fill(void)
{
    for (size_t i = 0; i < COUNT(memory); i++)
        memory[i] = other_memory[i] = PATTERN + (uint32_t)i;
}
#define ALIKE() SAME(0, memcmp(memory, other_memory, sizeof memory))

static void untouched(int line)
{
    for (size_t i = 0; i < COUNT(memory); i++)
        same("a word", line, PATTERN + (uint32_t)i, memory[i]);
}
#define UNTOUCHED() untouched(__LINE__)

/* Two answers in every field; of the state up to its last, since what stands behind it is padding. */
static void drawn_is(int line, bp_drawn expected, bp_drawn d)
{
    same("refusal", line, expected.refusal, d.refusal);
    same("words", line, (long long)expected.words, (long long)d.words);
    same("edge0", line, expected.edge0, d.edge0);
    same("edge1", line, expected.edge1, d.edge1);
    same("the state", line, 0, memcmp(&expected.state, &d.state, offsetof(bp_encoder, taken_out) + sizeof(uint32_t)));
}

/* A refused call: the number, no words, no edges, and the state as it was given. */
static void given_back(int line, bp_encoder s, bp_drawn d, uint32_t refusal)
{
    drawn_is(line, (bp_drawn){.refusal = refusal, .state = s}, d);
}
#define GIVEN_BACK(s, d, refusal) given_back(__LINE__, s, d, refusal)

/* ---- the encoder call by call */

/* Metres to the grid, y downwards. */
static const bp_affine metres = {12.8, 0, -5531238.4, 0, -12.8, 69251072};

/* A street in metres, and its grid points. */
static const double street[] = {432101.337, 5410012.904, 432140.218, 5410018.551, 432163.872, 5410024.069, 432461.912, 5410131.068,
                                432258.907, 5410070.022, 432262.480, 5410049.377};
static const int32_t street_grid[] = {-341, 2907, 156, 2835, 459, 2764, 4274, 1394, 1676, 2176, 1721, 2440};
static const uint32_t street_ends[] = {4, 6};

static void calls(void)
{
    for (uint32_t kind = BP_POINT; kind <= BP_POLYGON; kind++) {
        bp_encoder s = bp_encoder_new(kind, -64, 4160, -64, 4160).state;
        fill();
        for (size_t i = 0; i < COUNT(street); i += 2) {
            bp_drawn d = bp_encoder_add_surveyed(s, metres, street[i], street[i + 1], words, ROOM);
            drawn_is(__LINE__, bp_encoder_add_point(s, street_grid[i], street_grid[i + 1], others, ROOM), d);
            SAME(0, d.refusal), ALIKE();
            s = d.state;
        }
        SAME(6, s.taken);
    }

    /* four different edges of a box, one of them named */
    bp_encoder s = bp_encoder_new(BP_LINE, -3, 40, 5, 17).state;
    fill();
    s = bp_encoder_add_surveyed(s, (bp_affine){2, 0, 0, 0, 3, 0}, -10.1, 0.4, words, ROOM).state;
    bp_drawn d = bp_encoder_add_surveyed(s, (bp_affine){0, 2, 0, 3, 0, 0}, 10, 30, words, ROOM);
    SAME(0, d.refusal), SAME(BP_X_MIN, d.edge0), SAME(BP_Y_MAX, d.edge1), SAME(60, d.state.xy_end.x), SAME(30, d.state.xy_end.y);
}

static void call_refusals(void)
{
    const double nowhere[] = {NAN, INFINITY, -INFINITY, EDGE, -EDGE, 1e300};
    bp_encoder s = bp_encoder_new(BP_LINE, 0, 10, 0, 10).state, bad = s;
    bad.pt0.is_set = 2;
    fill();
    for (size_t i = 0; i < COUNT(nowhere); i++) {
        /* COORD behind STATE and before ROOM, in x and in y; a refused point changes nothing */
        GIVEN_BACK(s, bp_encoder_add_surveyed(s, identity, nowhere[i], 1, words, ROOM), BP_COORD);
        GIVEN_BACK(s, bp_encoder_add_surveyed(s, identity, 1, nowhere[i], words, ROOM), BP_COORD);
        GIVEN_BACK(s, bp_encoder_add_surveyed(s, identity, nowhere[i], 1, words, 0), BP_COORD);
        GIVEN_BACK(bad, bp_encoder_add_surveyed(bad, identity, nowhere[i], 1, words, ROOM), BP_STATE);
        GIVEN_BACK(bad, bp_encoder_add_surveyed(bad, identity, 1, nowhere[i], words, 0), BP_STATE);
    }
    GIVEN_BACK(bad, bp_encoder_add_surveyed(bad, identity, 1, 1, words, ROOM), BP_STATE);
    GIVEN_BACK(s, bp_encoder_add_surveyed(s, identity, 1, 1, words, 2), BP_ROOM);
    GIVEN_BACK(s, bp_encoder_add_surveyed(s, (bp_affine){NAN, 0, 0, 0, 1, 0}, 1, 1, words, ROOM), BP_COORD);
    UNTOUCHED();

    /* in the middle of a part: the words and the state stay, and the next point goes on from there */
    s = bp_encoder_add_surveyed(s, identity, 2.4, 2, words, ROOM).state;
    s = bp_encoder_add_surveyed(s, identity, 2, 9.5, words, ROOM).state;
    const uint32_t two[] = {9, 4, 4, 10, 0, 16};
    GIVEN_BACK(s, bp_encoder_add_surveyed(s, identity, BELOW_EDGE, EDGE, words, ROOM), BP_COORD);
    GIVEN_BACK(s, bp_encoder_add_surveyed(s, identity, 5, 5, words, 7), BP_ROOM);
    SAME(6, s.used), SAME(0, memcmp(two, words, sizeof two)), SAME(PATTERN + GUARD + 6, words[6]), SAME(2, s.taken);
    SAME(0, bp_encoder_add_surveyed(s, identity, BELOW_EDGE, -BELOW_EDGE, words, ROOM).refusal);

    /* a count that has no room is ROOM, behind COORD */
    s.taken = UINT32_MAX;
    GIVEN_BACK(s, bp_encoder_add_surveyed(s, identity, 1, 1, words, ROOM), BP_ROOM);
    GIVEN_BACK(s, bp_encoder_add_surveyed(s, identity, 1, NAN, words, ROOM), BP_COORD);
}

/* ---- a whole survey */

static void job_is(int line, bp_job expected, bp_job j)
{
    same("refusal", line, expected.refusal, j.refusal);
    same("points", line, (long long)expected.points, (long long)j.points);
    same("words", line, (long long)expected.words, (long long)j.words);
}

/* The street by each kind and in each room: answer and words as its grid points give them. */
static void streets(void)
{
    const bp_box box = {-64, 4160, -64, 4160};
    for (uint32_t kind = BP_POINT; kind <= BP_POLYGON; kind++)
        for (size_t room = 0; room <= ROOM; room++) {
            const bp_survey survey = {kind, box, metres, street, COUNT(street), street_ends, COUNT(street_ends)};
            const bp_geometry g = {kind, box, street_grid, COUNT(street_grid), street_ends, COUNT(street_ends)};
            fill();
            bp_job expected = bp_encode_in(&g, others, room);
            job_is(__LINE__, expected, bp_encode_survey_in(&survey, words, room));
            ALIKE();
            fill();
            expected = bp_encode_in(&g, others, room);
            job_is(__LINE__, expected, bp_encode_survey(kind, -64, 4160, -64, 4160, metres, street, COUNT(street), street_ends, 2, words, room));
            ALIKE();
            if (room == ROOM)
                SAME(0, expected.refusal), SAME(6, expected.points);
            else if (room == 0)
                SAME(BP_ROOM, expected.refusal), SAME(0, expected.points);
        }

    /* four different edges, so that each is in its place */
    static const double points[] = {-10, 0.5, 30, 15, 5, 4.5};
    static const uint32_t three[] = {3};
    const uint32_t line[] = {9, 5, 10, 42, 0, 4, 54, 20, 32, 0, 21, 0, 37, 15};
    fill();
    bp_job j = bp_encode_survey(BP_LINE, -3, 40, 5, 17, (bp_affine){2, 0, 0, 0, 2, 0}, points, 6, three, 1, words, ROOM);
    job_is(__LINE__, (bp_job){0, 3, COUNT(line)}, j);
    SAME(0, memcmp(line, words, sizeof line)), SAME(PATTERN + GUARD + COUNT(line), words[COUNT(line)]);
}

/* More points than are put on the grid at once, in parts of many lengths; then one of them without a place: the words as the points before it left them. */
static void long_surveys(void)
{
    enum { POINTS = 1500, WORDS = 16384 };
    static double points[2 * POINTS];
    static int32_t grid[2 * POINTS];
    static uint32_t long_words[WORDS], long_others[WORDS];
    static const uint32_t ends[] = {1, 255, 256, 257, 512, 512, 769, 1300, POINTS};
    static const size_t at[] = {0, 1, 254, 255, 256, 257, 258, 511, 512, 513, 767, 768, 769, 1023, 1024, 1025, 1280, 1300, POINTS - 1};
    uint32_t seed = 10;
    for (size_t i = 0; i < COUNT(grid); i++) {
        seed = seed * 1664525u + 1013904223u;
        grid[i] = (int32_t)(seed >> 24) % 41 - 10;
        points[i] = (double)grid[i] / 4 + (int32_t)(seed >> 16 & 7) * 0.03125 - 0.109375; /* less than half a step away: an eighth of a unit */
    }
    for (uint32_t kind = BP_POINT; kind <= BP_POLYGON; kind++)
        for (size_t i = 0; i <= COUNT(at); i++) {
            const double kept = i < COUNT(at) ? points[2 * at[i]] : 0;
            const int32_t grid_kept = i < COUNT(at) ? grid[2 * at[i]] : 0;
            if (i < COUNT(at))
                points[2 * at[i]] = NAN, grid[2 * at[i]] = BP_LIMIT + 1;
            memset(long_words, 0xA5, sizeof long_words), memset(long_others, 0xA5, sizeof long_others);
            bp_job expected = bp_encode_job(kind, 0, 20, 0, 20, grid, COUNT(grid), ends, COUNT(ends), long_others, WORDS);
            bp_job j = bp_encode_survey(kind, 0, 20, 0, 20, (bp_affine){4, 0, 0, 0, 4, 0}, points, COUNT(points), ends, COUNT(ends), long_words, WORDS);
            job_is(__LINE__, expected, j);
            SAME(i < COUNT(at) ? BP_COORD : 0, j.refusal), SAME(i < COUNT(at) ? at[i] : POINTS, j.points);
            SAME(0, memcmp(long_words, long_others, sizeof long_words));
            if (i < COUNT(at))
                points[2 * at[i]] = kept, grid[2 * at[i]] = grid_kept;
        }
}

static void survey_refusals(void)
{
    static const double points[] = {1, 1, 2, NAN, 3, 3}, too_far[] = {1, 2, 3.4, -EDGE};
    static const uint32_t three[] = {3}, two[] = {2}, one[] = {1}, descend[] = {2, 1, 3}, descend_last[] = {3, 2}, none[] = {0}, wide[] = {UINT32_MAX};
    const uint32_t before[] = {9, 2, 4};
    fill();
    /* JOB, KIND and BOX in this order, before any double is looked at */
    job_is(__LINE__, (bp_job){BP_JOB, 0, 0}, bp_encode_survey(4, 5, 5, 0, 1, identity, points, 5, three, 1, words, ROOM));
    job_is(__LINE__, (bp_job){BP_JOB, 0, 0}, bp_encode_survey(BP_LINE, 0, 10, 0, 10, identity, points, 5, two, 1, words, ROOM));
    job_is(__LINE__, (bp_job){BP_JOB, 0, 0}, bp_encode_survey(BP_LINE, 0, 10, 0, 10, identity, points, 1, none, 1, words, ROOM));
    job_is(__LINE__, (bp_job){BP_JOB, 0, 0}, bp_encode_survey(BP_LINE, 0, 10, 0, 10, identity, points, 6, three, 0, words, ROOM));
    job_is(__LINE__, (bp_job){BP_JOB, 0, 0}, bp_encode_survey(BP_LINE, 0, 10, 0, 10, identity, points, 6, two, 1, words, ROOM));
    job_is(__LINE__, (bp_job){BP_JOB, 0, 0}, bp_encode_survey(BP_LINE, 0, 10, 0, 10, identity, points, 4, three, 1, words, ROOM));
    job_is(__LINE__, (bp_job){BP_JOB, 0, 0}, bp_encode_survey(BP_LINE, 0, 10, 0, 10, identity, points, 6, descend, 3, words, ROOM));
    job_is(__LINE__, (bp_job){BP_JOB, 0, 0}, bp_encode_survey(BP_LINE, 0, 10, 0, 10, identity, points, 6, descend_last, 2, words, ROOM));
    job_is(__LINE__, (bp_job){BP_JOB, 0, 0}, bp_encode_survey(BP_LINE, 0, 10, 0, 10, identity, points, 6, wide, 1, words, ROOM));
    job_is(__LINE__, (bp_job){BP_KIND, 0, 0}, bp_encode_survey(4, 5, 5, 0, 1, identity, points, 6, three, 1, words, ROOM));
    job_is(__LINE__, (bp_job){BP_KIND, 0, 0}, bp_encode_survey(0, 0, 10, 0, 10, identity, points, 6, three, 1, words, ROOM));
    job_is(__LINE__, (bp_job){BP_KIND, 0, 0}, bp_encode_survey(UINT32_MAX, 0, 10, 0, 10, identity, points, 6, three, 1, words, ROOM));
    job_is(__LINE__, (bp_job){BP_BOX, 0, 0}, bp_encode_survey(BP_LINE, 5, 5, 0, 1, identity, points, 6, three, 1, words, ROOM));
    job_is(__LINE__, (bp_job){BP_BOX, 0, 0}, bp_encode_survey(BP_LINE, 0, 1, 1, 0, identity, points, 6, three, 1, words, ROOM));
    job_is(__LINE__, (bp_job){BP_BOX, 0, 0}, bp_encode_survey(BP_LINE, 0, 1, 0, BP_LIMIT + 1, identity, points + 2, 2, one, 1, words, 0));
    job_is(__LINE__, (bp_job){BP_COORD, 0, 0}, bp_encode_survey(BP_LINE, 0, 10, 0, 10, identity, points + 2, 2, one, 1, words, 0));
    UNTOUCHED();

    /* COORD and ROOM with the accepted points, and the words as these left them */
    job_is(__LINE__, (bp_job){BP_COORD, 1, 0}, bp_encode_survey(BP_LINE, 0, 10, 0, 10, identity, too_far, 4, two, 1, words, ROOM));
    SAME(0, memcmp(before, words, sizeof before)), SAME(PATTERN + GUARD + 3, words[3]);
    fill();
    job_is(__LINE__, (bp_job){BP_COORD, 1, 0}, bp_encode_survey(BP_LINE, 0, 10, 0, 10, identity, points, 6, three, 1, words, 3));
    job_is(__LINE__, (bp_job){BP_ROOM, 0, 0}, bp_encode_survey(BP_LINE, 0, 10, 0, 10, identity, too_far, 4, two, 1, words, 2));

    /* without points the map is not looked at; null where there is nothing */
    const bp_affine nan = {NAN, NAN, NAN, NAN, NAN, NAN};
    bp_survey survey = {BP_LINE, {0, 10, 0, 10}, nan, NULL, 0, none, 1};
    job_is(__LINE__, (bp_job){0, 0, 0}, bp_encode_survey_in(&survey, NULL, 0));
    survey.kind = BP_POINT;
    job_is(__LINE__, (bp_job){BP_EMPTY, 0, 0}, bp_encode_survey_in(&survey, NULL, 0));
    survey.ends = NULL, survey.ends_len = 0;
    job_is(__LINE__, (bp_job){BP_JOB, 0, 0}, bp_encode_survey_in(&survey, NULL, 0));
    survey = (bp_survey){BP_LINE, {0, 10, 0, 10}, nan, points, 2, one, 1};
    job_is(__LINE__, (bp_job){BP_COORD, 0, 0}, bp_encode_survey_in(&survey, words, ROOM));
}

int main(void)
{
    SAME(BP_VERSION, bp_version());
    numbers();
    maps();
    calls();
    call_refusals();
    streets();
    long_surveys();
    survey_refusals();
    return ended("surveyed points");
}
