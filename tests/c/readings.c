/* What lists of words are read to: each fault with its place, the first from left to right, and ROOM behind all of them; a refused reading writes nowhere.
 * Ids 1, 2 and 7 are MoveTo, LineTo and ClosePath; a count of 1 adds 8 to the id. */
#include "brinepost.h"
#include "check.h"

enum { LENT = 24, MOST = 536870911 }; /* the largest count: twice as many parameters are 2^30 - 2 */
#define FAR 4294967294u               /* a step by 2,147,483,647 */
#define BACK 4294967295u              /* a step by -2,147,483,648 */

static int32_t memory[LENT], numbers[BP_READ_NUMBERS(BP_MAX_WORDS)];
static uint32_t many[BP_MAX_WORDS + 1];

static void fill(void)
{
    for (size_t i = 0; i < LENT; i++)
        memory[i] = -1000 - (int32_t)i;
}

static void answer_is(int line, uint32_t refusal, size_t vertices, size_t place, bp_reading r)
{
    same("refusal", line, refusal, r.refusal);
    same("vertices", line, (long long)vertices, (long long)r.vertices);
    same("place", line, (long long)place, (long long)r.place);
}

/* So many numbers were written at the front, and these; everything else is as it was. */
static void written(int line, const int32_t *expected, size_t count)
{
    for (size_t i = 0; i < LENT; i++)
        same("a number", line, i < count ? expected[i] : -1000 - (int32_t)i, memory[i]);
}

/* A fault is the same whatever list is lent, one of length 0 too. */
static void fault_is(int line, uint32_t refusal, size_t place, const uint32_t *words, size_t count)
{
    fill();
    answer_is(line, refusal, 0, place, bp_decode(words, count, memory, LENT));
    answer_is(line, refusal, 0, place, bp_decode(words, count, memory, 0));
    answer_is(line, refusal, 0, place, bp_decode_in(words, count, NULL, 0));
    written(line, NULL, 0);
}

/* What is read needs three numbers a vertex; with one less it is ROOM, which has no place. */
static void read_is(int line, const uint32_t *words, size_t count, const int32_t *expected, size_t numbers)
{
    fill();
    answer_is(line, BP_ROOM, 0, 0, bp_decode(words, count, memory, numbers - 1));
    written(line, NULL, 0);
    answer_is(line, BP_ACCEPTED, numbers / 3, 0, bp_decode(words, count, memory, numbers));
    written(line, expected, numbers);
}

#define WORDS(...) (const uint32_t[]){__VA_ARGS__}, COUNT(((const uint32_t[]){__VA_ARGS__}))
#define NUMBERS(...) (const int32_t[]){__VA_ARGS__}, COUNT(((const int32_t[]){__VA_ARGS__}))
#define FAULT(refusal, place, ...) fault_is(__LINE__, refusal, place, WORDS(__VA_ARGS__))
#define READ(words, numbers) read_is(__LINE__, words, numbers)

static void read_whole(void)
{
    READ(WORDS(15), NUMBERS(7, 0, 0));
    READ(WORDS(15, 15), NUMBERS(7, 0, 0, 7, 0, 0));
    READ(WORDS(9, 0, 0), NUMBERS(1, 0, 0));
    READ(WORDS(9, 6, 12, 18, 10, 12, 24, 44, 15), NUMBERS(1, 3, 6, 2, 8, 12, 2, 20, 34, 7, 20, 34));
    READ(WORDS(9, 4, 4, 10, 3, 0, 15, 17, 2, 2, 0, 1), NUMBERS(1, 2, 2, 2, 0, 2, 7, 0, 2, 1, 1, 3, 1, 1, 2));
    READ(WORDS(17, FAR, BACK, BACK, FAR), NUMBERS(1, INT32_MAX, INT32_MIN, 1, -1, -1));
    fill();
    answer_is(__LINE__, BP_ACCEPTED, 0, 0, bp_decode_in(NULL, 0, NULL, 0));
    answer_is(__LINE__, BP_ACCEPTED, 0, 0, bp_decode(many, 0, memory, LENT));
    written(__LINE__, NULL, 0);
}

static void commands(void)
{
    /* an unknown id, whatever its count, 0 too, and whatever follows */
    const uint32_t unknown[] = {0, 3, 4, 5, 6}, counts[] = {0, 1, 2, MOST};
    for (size_t i = 0; i < COUNT(unknown); i++)
        for (size_t j = 0; j < COUNT(counts); j++) {
            FAULT(BP_COMMAND, 0, unknown[i] + 8 * counts[j]);
            FAULT(BP_COMMAND, 0, 9, 0, 0, unknown[i] + 8 * counts[j], 0, 0);
        }
}

static void counts(void)
{
    /* a ClosePath of any count but 1, also as the last word */
    const uint32_t wrong[] = {0, 2, 3, MOST};
    for (size_t i = 0; i < COUNT(wrong); i++) {
        FAULT(BP_COUNT, 0, 7 + 8 * wrong[i]);
        FAULT(BP_COUNT, 0, 7 + 8 * wrong[i], 0, 0);
        FAULT(BP_COUNT, 0, 9, 2, 2, 10, 2, 2, 7 + 8 * wrong[i]);
        FAULT(BP_COUNT, 0, 15, 7 + 8 * wrong[i], 15);
    }
    /* a MoveTo or LineTo of count 0: not NOPARAMS, where it is the last word, and not nothing, where it is not */
    for (uint32_t id = 1; id <= 2; id++) {
        FAULT(BP_COUNT, 0, id);
        FAULT(BP_COUNT, 0, id, 15);
        FAULT(BP_COUNT, 0, id, 0, 0);
        FAULT(BP_COUNT, 0, 9, 0, 0, id);
    }
}

static void cuts(void)
{
    /* no word follows */
    for (uint32_t id = 1; id <= 2; id++) {
        FAULT(BP_NOPARAMS, 0, id + 8);
        FAULT(BP_NOPARAMS, 0, id + 16);
        FAULT(BP_NOPARAMS, 0, id + 8u * MOST);
        FAULT(BP_NOPARAMS, 1, 15, id + 8);
        FAULT(BP_NOPARAMS, 3, 9, 0, 0, id + 8);
        FAULT(BP_NOPARAMS, 5, 17, 0, 0, 0, 0, id + 16);
    }
    /* some follow, too few: the command's index, whatever its parameters would be as commands */
    for (uint32_t id = 1; id <= 2; id++) {
        FAULT(BP_CUTPARAMS, 0, id + 8, 0);
        FAULT(BP_CUTPARAMS, 0, id + 8, 9);
        FAULT(BP_CUTPARAMS, 0, id + 16, 0, 0, 0);
        FAULT(BP_CUTPARAMS, 0, id + 8u * MOST, 0);
        FAULT(BP_CUTPARAMS, 0, id + 8u * MOST, 0, 0, 0, 0);
        FAULT(BP_CUTPARAMS, 1, 15, id + 8, 3);
        FAULT(BP_CUTPARAMS, 3, 9, 0, 0, id + 16, 1, 1, 1);
        FAULT(BP_CUTPARAMS, 4, 9, 0, 0, 15, id + 24, 7, 7, 7, 7, 7);
    }
}

static void steps(void)
{
    /* in x, in y, below and above; a later pair that comes back does not heal it */
    FAULT(BP_STEP, 0, 17, FAR, 0, 2, 0);
    FAULT(BP_STEP, 0, 17, 0, FAR, 0, 2);
    FAULT(BP_STEP, 0, 17, BACK, 0, 1, 0);
    FAULT(BP_STEP, 0, 18, 0, BACK, 0, 1);
    FAULT(BP_STEP, 0, 25, FAR, 0, 2, 0, 1, 0);
    FAULT(BP_STEP, 0, 9, FAR, 0, 15, 10, FAR, 0);
}

static void orders(void)
{
    /* at one command the cut before STEP; an earlier STEP before every later fault */
    FAULT(BP_CUTPARAMS, 0, 25, FAR, 0, 2, 0);
    FAULT(BP_CUTPARAMS, 3, 9, FAR, 0, 26, 2, 0, 0, 0);
    const uint32_t later[] = {0, 3, 7, 23, 1, 2, 9, 10};
    for (size_t i = 0; i < COUNT(later); i++)
        FAULT(BP_STEP, 0, 17, FAR, 0, 2, 0, later[i]);
    FAULT(BP_STEP, 0, 17, FAR, 0, 2, 0, 9, 0);
    /* the first of two faults */
    FAULT(BP_COMMAND, 0, 3, 7);
    FAULT(BP_COUNT, 0, 7, 3);
    FAULT(BP_COUNT, 0, 23, 9);
    FAULT(BP_COMMAND, 0, 15, 3, 9, 0);
}

/* A list of so many words, all ClosePath but the last two. */
static bp_reading long_read(uint32_t last_but_one, uint32_t last, size_t count)
{
    for (size_t i = 0; i < COUNT(many); i++)
        many[i] = 15;
    many[count - 2] = last_but_one;
    many[count - 1] = last;
    return bp_decode(many, count, numbers, COUNT(numbers));
}
#define LONG(refusal, vertices, place, last_but_one, last, count) answer_is(__LINE__, refusal, vertices, place, long_read(last_but_one, last, count))

/* As many words as a geometry may have are read; one more is ROOM, behind the faults of all of them. */
static void rooms(void)
{
    LONG(BP_ACCEPTED, BP_MAX_WORDS, 0, 15, 15, BP_MAX_WORDS);
    SAME(7, numbers[COUNT(numbers) - 3]);
    LONG(BP_ROOM, 0, 0, 15, 15, BP_MAX_WORDS + 1);
    for (size_t count = BP_MAX_WORDS; count <= BP_MAX_WORDS + 1; count++) {
        LONG(BP_COMMAND, 0, 0, 15, 3, count);
        LONG(BP_COUNT, 0, 0, 15, 7, count);
        LONG(BP_COUNT, 0, 0, 15, 1, count);
        LONG(BP_NOPARAMS, 0, count - 1, 15, 9, count);
        LONG(BP_CUTPARAMS, 0, count - 2, 10, 9, count);
        LONG(BP_CUTPARAMS, 0, count - 2, 1 + 8u * MOST, 9, count);
    }
    /* a count whose parameters would not fit any list: the command stands first */
    many[0] = 2 + 8u * MOST;
    answer_is(__LINE__, BP_CUTPARAMS, 0, 0, bp_decode(many, BP_MAX_WORDS + 1, numbers, COUNT(numbers)));
}

int main(void)
{
    read_whole();
    commands();
    counts();
    cuts();
    steps();
    orders();
    rooms();
    return ended("readings");
}
