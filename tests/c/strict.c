/* Strict layers from C: a key that the open feature has already is AGAIN, at its turn among the checks, by every call that is given tags, and nothing is written.
 * Keys are compared by their bytes; other features do not count, and an ordinary layer never looks. Every call keeps the mark, and what is accepted leaves the
 * lists and the tile of an ordinary layer. That a mark above 1 is STATE for every call stands in tiles.c. */
#include "brinepost.h"
#include "check.h"
#include "layers.h"

static uint32_t mark; /* of the layers that are made now: 1 strict, 0 ordinary */

static bp_layer kept(int line, bp_changed c)
{
    same("is_strict", line, mark, c.layer.is_strict);
    return accepted(line, c);
}
#define KEPT(call) kept(__LINE__, call)

/* The layer "ab" without features, and with an open one. */
static bp_layer fresh(void)
{
    memset(&m, 0xA5, sizeof m);
    return KEPT((mark ? bp_strict_layer_new : bp_layer_new)(TEXT("ab"), 4096, m.texts, COUNT(m.texts)));
}

static bp_layer opened(void)
{
    return KEPT(bp_into_feature(fresh(), BP_POINT, words, 3, LISTS));
}

/* Bytes 0 and 3 are one letter and 1 is another, 2 is no text, and from 4 on there are 1,025 letters. */
static uint8_t letters[4 + BP_MAX_TEXT + 1];
#define LONG letters + 4, BP_MAX_TEXT + 1

/* ---- creating */
static void made(void)
{
    bp_tile t = bp_tile_new(0x80000001u);
    memset(&m, 0xA5, sizeof m);
    REFUSED(BP_TEXT, none, bp_strict_layer_new(letters + 2, BP_MAX_TEXT + 1, 7, m.texts, 1)); /* TEXT before UTF8 before ROOM */
    REFUSED(BP_TEXT, none, bp_create_strict_layer(t, letters + 2, BP_MAX_TEXT + 1, m.texts, 1));
    REFUSED(BP_UTF8, none, bp_strict_layer_new(letters + 2, BP_MAX_TEXT, 7, m.texts, 1));
    REFUSED(BP_UTF8, none, bp_create_strict_layer(t, letters + 2, BP_MAX_TEXT, m.texts, 1));
    REFUSED(BP_ROOM, none, bp_strict_layer_new(TEXT("ab"), 7, m.texts, 1));
    REFUSED(BP_ROOM, none, bp_create_strict_layer(t, TEXT("ab"), m.texts, 1));
    for (int by_tile = 0; by_tile < 2; by_tile++) {
        const bp_layer should = {.extent = 0x80000001u, .is_strict = 1, .name = 2, .used = {.texts = 2}};
        memset(&m, 0xA5, sizeof m), before = m, memcpy(before.texts, "ab", 2);
        bp_layer s = KEPT(by_tile ? bp_create_strict_layer(t, TEXT("ab"), m.texts, 2) : bp_strict_layer_new(TEXT("ab"), 0x80000001u, m.texts, 2));
        SAME(0, layers_differ(should, s)), SAME(0, memcmp(&before, &m, sizeof m));
    }
}

/* ---- a tag */

/* Each call behind each: the key of either is refused, with another value and with the same. In an ordinary layer both are taken. */
static void again(void)
{
    for (uint32_t first = 1; first <= 7; first++)
        for (uint32_t second = 1; second <= 7; second++) {
            mark = 1;
            bp_layer s = KEPT(tag(first, opened(), TEXT("k")));
            REFUSED(BP_AGAIN, s, tag(second, s, TEXT("k")));
            s = KEPT(tag(second, s, TEXT("l")));
            REFUSED(BP_AGAIN, s, tag(second, s, TEXT("k")));
            REFUSED(BP_AGAIN, s, tag(first, s, TEXT("l")));
            SAME(4, bp_num_tags(s, LISTS).count);
            mark = 0;
            s = KEPT(tag(second, KEPT(tag(first, opened(), TEXT("k"))), TEXT("k")));
            SAME(4, bp_num_tags(s, LISTS).count), SAME(1, s.used.keys);
        }
    mark = 1;
    bp_layer s = KEPT(tag(5, opened(), TEXT("k")));
    s.is_strict = mark = 0; /* the choice is the mark alone */
    KEPT(tag(5, s, TEXT("k")));
}

/* Keys of which no two have the same bytes; the layer's name and the text of a value are no keys. */
static void by_bytes(void)
{
    static const struct {
        const uint8_t *bytes;
        size_t len;
    } keys[] = {{TEXT("")}, {TEXT("\0")}, {TEXT("k")}, {TEXT("K")}, {TEXT("kk")}, {TEXT("k\0")}, {TEXT("l")}, {TEXT("ab")}, {TEXT("v")}, {TEXT("\xC3\xA9")},
                {TEXT("e\xCC\x81")}};
    mark = 1;
    for (size_t i = 0; i < COUNT(keys); i++)
        for (size_t j = 0; j < COUNT(keys); j++) {
            bp_layer s = KEPT(tag(1, opened(), keys[i].bytes, keys[i].len));
            if (i != j)
                s = KEPT(tag(1, s, keys[j].bytes, keys[j].len));
            REFUSED(BP_AGAIN, s, tag(1, s, keys[i].bytes, keys[i].len));
            REFUSED(BP_AGAIN, s, tag(1, s, keys[j].bytes, keys[j].len));
        }
}

/* Only the open feature counts: not one that was abandoned, that is complete, or that came whole. Abandoning keeps the choice. */
static void other_features(void)
{
    static const uint32_t tags[] = {0, 1, 5, 1, 0};
    mark = 1;
    bp_layer s = KEPT(bp_abandon(KEPT(tag(5, opened(), TEXT("k"))), LISTS));
    s = KEPT(tag(5, KEPT(bp_into_feature(s, BP_LINE, words, 3, LISTS)), TEXT("k")));
    REFUSED(BP_AGAIN, s, tag(5, s, TEXT("k")));
    s = KEPT(bp_into_layer(s, LISTS));
    s = KEPT(bp_add_feature(s, BP_LINE, 0, 0, words, 3, tags, 5, TEXT("k"), LISTS));
    s = KEPT(tag(5, KEPT(bp_into_feature(s, BP_LINE, words, 3, LISTS)), TEXT("l")));
    s = KEPT(tag(5, s, TEXT("k"))); /* key 0, though a value of index 0 is there */
    REFUSED(BP_AGAIN, s, tag(5, s, TEXT("l")));
    REFUSED(BP_AGAIN, s, tag(5, s, TEXT("k")));
    SAME(2, s.used.keys), SAME(1, s.used.values), SAME(4, bp_num_tags(s, LISTS).count), SAME(2, bp_num_features(s, LISTS).count);
}

static void order_of_tags(void)
{
    mark = 1;
    bp_layer s = KEPT(tag(5, opened(), TEXT("k"))), bad = s;
    bad.used.keys = COUNT(m.keys);
    REFUSED(BP_TEXT, s, bp_add_tag_string(s, TEXT("k"), LONG, LISTS));
    REFUSED(BP_UTF8, s, bp_add_tag_string(s, TEXT("k"), TEXT("\xDF"), LISTS));
    bp_layer shut = KEPT(bp_into_layer(s, LISTS));
    for (uint32_t kind = 1; kind <= 7; kind++) {
        REFUSED(BP_STATE, bad, tag(kind, bad, TEXT("k")));
        REFUSED(BP_TEXT, s, tag(kind, s, LONG));
        REFUSED(BP_TURN, shut, tag(kind, shut, TEXT("k")));
    }
    m.texts[2] = 0xDF; /* a key as it may be stored */
    for (uint32_t kind = 1; kind <= 7; kind++)
        REFUSED(BP_UTF8, s, tag(kind, s, TEXT("\xDF")));
}

/* A feature that leaves no room for a tag more: in a strict layer AGAIN comes before ROOM. */
static void before_room(void)
{
    for (mark = 0; mark <= 1; mark++) {
        bp_layer s = KEPT(bp_into_feature(fresh(), BP_POINT, words, COUNT(m.features) - 8, LISTS));
        s = KEPT(tag(5, s, TEXT("k")));
        for (uint32_t kind = 1; kind <= 7; kind++) {
            REFUSED(mark ? BP_AGAIN : BP_ROOM, s, tag(kind, s, TEXT("k")));
            REFUSED(BP_ROOM, s, tag(kind, s, TEXT("l")));
        }
    }
}

/* ---- whole features */

/* Lists of tags that have a key twice: at one place and at two, with the same value and another, without bytes, and among others at the front, in the middle
 * and at the end. */
static const struct {
    size_t len;
    uint32_t tags[25];
} twofold[] = {
    {10, {0, 1, 5, 7, 0, 0, 1, 5, 7, 0}},
    {10, {0, 1, 5, 7, 0, 3, 1, 7, 1, 0}},
    {10, {0, 2, 1, 0, 1, 0, 2, 1, 1, 1}},
    {10, {0, 0, 5, 7, 0, 4, 0, 5, 8, 0}},
    {10, {4, 1024, 5, 7, 0, 5, 1024, 5, 8, 0}},
    {15, {0, 1, 5, 7, 0, 3, 1, 5, 7, 0, 1, 1, 5, 7, 0}},
    {25, {0, 1, 5, 7, 0, 1, 1, 5, 7, 0, 4, 1, 5, 7, 0, 0, 2, 5, 7, 0, 3, 1, 5, 7, 0}},
    {25, {1, 1, 5, 7, 0, 0, 1, 5, 7, 0, 4, 1, 5, 7, 0, 3, 1, 5, 7, 0, 0, 2, 5, 7, 0}},
    {25, {1, 1, 5, 7, 0, 4, 1, 5, 7, 0, 0, 2, 5, 7, 0, 0, 1, 5, 7, 0, 3, 1, 5, 7, 0}},
};

static void whole(void)
{
    static const uint32_t tags[] = {0, 1, 5, 7, 0, 1, 1, 5, 7, 0, 0, 2, 5, 7, 0, 4, 1, 5, 7, 0, 4, 2, 5, 7, 0};
    for (mark = 0; mark <= 1; mark++) {
        for (size_t i = 0; i < COUNT(twofold); i++) {
            bp_layer s = fresh();
            if (mark)
                REFUSED_FEATURE(BP_AGAIN, s, BP_LINE, 3, twofold[i].tags, twofold[i].len, letters, sizeof letters);
            else if (twofold[i].tags[1] < 1024)
                KEPT(bp_add_feature(s, BP_LINE, 0, 0, words, 3, twofold[i].tags, twofold[i].len, letters, sizeof letters, LISTS));
        }
        bp_layer s = KEPT(bp_add_feature(fresh(), BP_LINE, 0, 0, words, 3, tags, 25, letters, sizeof letters, LISTS));
        s = KEPT(bp_add_feature(s, BP_LINE, 1, 7, words, 3, tags, 25, letters, sizeof letters, LISTS)); /* the keys of the one before */
        SAME(5, s.used.keys), SAME(2, bp_num_features(s, LISTS).count);
    }
}

static void order_of_features(void)
{
    static const uint32_t twice[] = {0, 1, 5, 7, 0, 3, 1, 5, 7, 0}, no_kind[] = {0, 1, 5, 7, 0, 3, 1, 8, 7, 0}, once[] = {0, 1, 5, 7, 0, 1, 1, 5, 7, 0};
    static const uint32_t long_text[] = {0, 1, 5, 7, 0, 3, 1, 1, 4, 1025}, ill_text[] = {0, 1, 5, 7, 0, 3, 1, 1, 2, 1}, ill_keys[] = {2, 1, 5, 7, 0, 2, 1, 5, 7, 0};
    static uint32_t too_many[BP_MAX_WORDS + 1];
    mark = 1;
    bp_layer s = fresh(), bad = s;
    bad.used.keys = COUNT(m.keys);
    REFUSED_FEATURE(BP_JOB, s, BP_LINE, 3, no_kind, 10, letters, sizeof letters);
    REFUSED_FEATURE(BP_KIND, s, 0, 3, twice, 10, letters, sizeof letters);
    REFUSED_FEATURE(BP_STATE, bad, BP_LINE, 3, twice, 10, letters, sizeof letters);
    REFUSED_FEATURE(BP_TEXT, s, BP_LINE, 3, long_text, 10, letters, sizeof letters);
    REFUSED_FEATURE(BP_UTF8, s, BP_LINE, 3, ill_text, 10, letters, sizeof letters);
    REFUSED_FEATURE(BP_UTF8, s, BP_LINE, 3, ill_keys, 10, letters, sizeof letters);
    REFUSED_FEATURE(BP_AGAIN, s, BP_LINE, 64, twice, 10, letters, sizeof letters); /* AGAIN before ROOM */
    REFUSED(BP_AGAIN, s, bp_add_feature(s, BP_LINE, 0, 0, too_many, COUNT(too_many), twice, 10, letters, sizeof letters, LISTS));
    REFUSED_FEATURE(BP_ROOM, s, BP_LINE, 64, once, 10, letters, sizeof letters);
    s = KEPT(bp_into_feature(s, BP_POINT, words, 3, LISTS));
    REFUSED_FEATURE(BP_TURN, s, BP_LINE, 3, twice, 10, letters, sizeof letters);
}

/* The second of three is refused: what is left is the first alone, with the indexes of the layer with it, where there are any. */
static void second(void)
{
    static const uint32_t heads[] = {1, 0, 0, 0, 1, 5, 2, 1, 7, 0, 1, 10, 3, 0, 0, 0, 1, 0};
    static const uint32_t tags[] = {0, 1, 5, 7, 0, 1, 1, 5, 8, 0, 1, 1, 5, 8, 0};
    mark = 1;
    for (size_t indexed = 0; indexed <= 1; indexed++) {
        const size_t k = indexed * COUNT(m.key_index), v = indexed * COUNT(m.value_index);
        bp_many first = bp_add_features(fresh(), heads, 6, words, 1, tags, 5, letters, 3, LISTS, m.key_index, k, m.value_index, v);
        before = m;
        bp_many a = bp_add_features(fresh(), heads, 18, words, 3, tags, 15, letters, 3, LISTS, m.key_index, k, m.value_index, v);
        SAME(0, first.refusal), SAME(BP_AGAIN, a.refusal), SAME(1, a.count), SAME(1, a.layer.is_strict), SAME(1, a.layer.used.keys);
        SAME(0, layers_differ(first.layer, a.layer)), SAME(0, memcmp(&before, &m, sizeof m));
    }
}

/* ---- carried layers */

/* A layer as no call makes it: the key "a" in two entries of the table, and an open feature with these tag words. */
static bp_layer carried(const uint32_t *tags, uint32_t len)
{
    const bp_layer s = {4096, 1, mark, 2, {2, 1, 4, 9 + len}, {0, 0, 2, 0}};
    const uint32_t record[] = {BP_LINE, 0, 0, 0, len, 3, 9, 2, 4};
    memset(&m, 0xA5, sizeof m);
    memcpy(m.texts, "abaa", 4);
    memcpy(m.keys, (const uint32_t[]){2, 1, 3, 1}, 16), memcpy(m.values, (const uint32_t[]){5, 7, 0}, 12);
    memcpy(m.features, record, sizeof record), memcpy(m.features + 9, tags, len * sizeof *tags);
    return s;
}

/* A tag of the key "a", whose lookup finds entry 0, behind tag words that have the key or not: an index behind the used keys names none, and a lone word is no
 * tag. */
static void by_entry(void)
{
    static const struct {
        uint32_t len, tags[4], has;
    } cases[] = {{0, {0}, 0}, {1, {0}, 0}, {2, {0, 0}, 1}, {2, {1, 0}, 1}, {2, {2, 0}, 0}, {2, {0xFFFFFFFFu, 0}, 0}, {3, {2, 0, 0}, 0}, {3, {1, 0, 2}, 1},
                 {4, {2, 0, 1, 0}, 1}, {4, {0, 0, 1, 0}, 1}};
    for (mark = 0; mark <= 1; mark++)
        for (size_t i = 0; i < COUNT(cases); i++)
            for (uint32_t kind = 1; kind <= 7; kind++) {
                bp_layer s = carried(cases[i].tags, cases[i].len);
                if (mark && cases[i].has) {
                    REFUSED(BP_AGAIN, s, tag(kind, s, TEXT("a")));
                } else {
                    s = KEPT(tag(kind, s, TEXT("a")));
                    SAME(0, m.features[9 + cases[i].len]), SAME(2, s.used.keys);
                }
            }
    mark = 1;
    bp_layer s = carried((const uint32_t[]){1, 0}, 2);
    s.used.keys = 1; /* entry 1 is not used: what stands there is no key */
    KEPT(tag(5, s, TEXT("a")));
}

/* An open feature that has a key twice breaks no rule: every call takes the layer, and another key. */
static void twice_already(void)
{
    static const uint32_t tags[] = {0, 0, 1, 0}, given[] = {0, 1, 5, 7, 0, 1, 1, 5, 7, 0};
    mark = 1;
    bp_layer s = carried(tags, 4);
    SAME(4, bp_num_tags(s, LISTS).count), SAME(0, bp_num_features(s, LISTS).refusal), SAME(2, bp_name(s, LISTS).len);
    s = KEPT(bp_set_id(s, 7, LISTS));
    s = KEPT(tag(5, s, TEXT("k")));
    REFUSED(BP_AGAIN, s, tag(5, s, TEXT("a")));
    KEPT(bp_abandon(s, LISTS));
    s = KEPT(bp_into_layer(s, LISTS));
    REFUSED_FEATURE(BP_AGAIN, s, BP_LINE, 3, given, 10, TEXT("aa"));
    s = KEPT(bp_add_feature(s, BP_LINE, 0, 0, words, 3, given, 10, TEXT("ak"), LISTS));
    bp_added t = bp_add_layer(bp_tile_new(4096), s, LISTS, TILE);
    SAME(0, t.refusal), SAME(t.tile.used, bp_layer_size(bp_tile_new(4096), s, LISTS).count), SAME(3, s.used.keys);
}

/* ---- every call keeps the mark, and leaves what it leaves in an ordinary layer */

static bp_layer drawn(void)
{
    static const uint32_t tags[] = {0, 1, 1, 2, 1, 1, 1, 5, 1, 0, 1, 1, 7, 1, 0}, heads[] = {2, 1, 8, 0, 1, 10, 3, 0, 0, 0, 2, 5};
    bp_layer s = KEPT(bp_set_id(opened(), 7, LISTS));
    for (uint32_t kind = 1; kind <= 7; kind++)
        s = KEPT(tag(kind, s, (const uint8_t *)"abcdefg" + kind - 1, 1));
    s = KEPT(bp_into_layer(s, LISTS));
    s = KEPT(tag(7, KEPT(bp_into_feature(s, BP_LINE, words, 3, LISTS)), TEXT("h")));
    s = KEPT(bp_abandon(s, LISTS));
    s = KEPT(bp_add_feature(s, BP_POLYGON, 0, 0, words, 1, tags, 10, TEXT("bav"), LISTS));
    bp_many none_at_all = bp_add_features(s, heads, 0, words, 0, tags, 0, TEXT(""), LISTS, INDEX);
    s = KEPT(((bp_changed){none_at_all.refusal, none_at_all.layer}));
    bp_many a = bp_add_features(s, heads, 12, words, 3, tags, 15, TEXT("bav"), LISTS, INDEX);
    SAME(2, a.count);
    return KEPT(((bp_changed){a.refusal, a.layer}));
}

static void same_bytes(void)
{
    bp_layer layers[2];
    size_t used[2];
    for (mark = 0; mark <= 1; mark++) {
        layers[mark] = drawn();
        bp_added a = bp_add_layer(bp_tile_new(4096), layers[mark], LISTS, TILE);
        used[mark] = a.tile.used;
        SAME(0, a.refusal), SAME(used[mark], bp_layer_size(bp_tile_new(4096), layers[mark], LISTS).count), SAME(4, bp_num_features(layers[mark], LISTS).count);
        if (mark == 0)
            before = m;
    }
    layers[1].is_strict = 0;
    SAME(0, layers_differ(layers[0], layers[1])), SAME(used[0], used[1]), SAME(1, used[1] > 0), SAME(0, memcmp(&before, &m, sizeof m));
}

int main(void)
{
    memset(letters, 'a', sizeof letters), letters[0] = letters[3] = 'k', letters[1] = 'l', letters[2] = 0xDF;
    mark = 1;
    made();
    again();
    by_bytes();
    other_features();
    order_of_tags();
    before_room();
    whole();
    order_of_features();
    second();
    by_entry();
    twice_already();
    same_bytes();
    return ended("strict layers");
}
