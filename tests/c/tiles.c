/* Holds include/brinepost.h against the library of layers and tiles: the layout of each struct, and each function called with numbers that would betray a wrong order, width or sign.
 * Expected words are those of document 01's lists; the bytes of the last tile were put together by hand from the Protocol Buffers document. */
#include "brinepost.h"
#include "check.h"

/* ---- the header's layout, as the library has it */
SIZE(bp_figures, 32);
AT(bp_figures, values, 8);
AT(bp_figures, texts, 16);
AT(bp_figures, features, 24);
SIZE(bp_layer, 88);
AT(bp_layer, is_open, 4);
AT(bp_layer, is_strict, 8);
AT(bp_layer, name, 16);
AT(bp_layer, used, 24);
AT(bp_layer, since, 56);
SIZE(bp_changed, 96);
AT(bp_changed, layer, 8);
SIZE(bp_many, 104);
AT(bp_many, layer, 8);
AT(bp_many, count, 96);
SIZE(bp_counted, 16);
AT(bp_counted, count, 8);
SIZE(bp_named, 24);
AT(bp_named, start, 8);
AT(bp_named, len, 16);
SIZE(bp_tile, 24);
AT(bp_tile, used, 8);
AT(bp_tile, layers, 16);
SIZE(bp_added, 32);
AT(bp_added, tile, 8);

/* ---- the lent lists with guards between them, and what they should hold; what is not written stays */
static struct memory {
    uint8_t guard0[16];
    uint32_t keys[5];
    uint8_t guard1[16];
    uint32_t values[22];
    uint8_t guard2[16];
    uint8_t texts[20];
    uint8_t guard3[16];
    uint32_t features[40];
    uint8_t guard4[16];
    uint32_t names[4];
    uint8_t guard5[16];
    uint8_t bytes[200];
    uint8_t guard6[16];
    uint32_t key_index[4];
    uint8_t guard7[16];
    uint32_t value_index[5];
    uint8_t guard8[16];
} m, should;
#define LISTS m.keys, COUNT(m.keys), m.values, COUNT(m.values), m.texts, COUNT(m.texts), m.features, COUNT(m.features)
#define INDEX m.key_index, COUNT(m.key_index), m.value_index, COUNT(m.value_index)
#define TILE m.names, COUNT(m.names), m.bytes, COUNT(m.bytes)
#define TEXT(text) (const uint8_t *)(text), sizeof(text) - 1

static void fill(void)
{
    memset(&m, 0xA5, sizeof m);
    memset(&should, 0xA5, sizeof should);
}
#define HELD() SAME(0, memcmp(&m, &should, sizeof m))
#define LAID(list, at, ...) memcpy(should.list + (at), (const uint32_t[]){__VA_ARGS__}, sizeof((const uint32_t[]){__VA_ARGS__}))

static void figures_are(int line, bp_figures f, size_t keys, size_t values, size_t texts, size_t features)
{
    same("keys", line, keys, f.keys);
    same("values", line, values, f.values);
    same("texts", line, texts, f.texts);
    same("features", line, features, f.features);
}
#define FIGURES(f, keys, values, texts, features) figures_are(__LINE__, f, keys, values, texts, features)

static void given_back(int line, bp_layer s, bp_changed c, uint32_t refusal)
{
    same("refusal", line, refusal, c.refusal);
    same("the layer given back", line, 0, layers_differ(s, c.layer));
    same("the lists", line, 0, memcmp(&m, &should, sizeof m));
}
#define GIVEN_BACK(s, c, refusal) given_back(__LINE__, s, c, refusal)

static const bp_layer none = {.name = 1}; /* what a refused new layer gives: its name runs past its texts */
static const uint32_t words[] = {9, 2, 4};

static bp_layer made(void)
{
    static const uint8_t long_name[1025];
    fill();
    GIVEN_BACK(none, bp_layer_new(long_name, 1025, 1, m.texts, 20), BP_TEXT);
    GIVEN_BACK(none, bp_layer_new(long_name, 1024, 1, m.texts, 20), BP_ROOM);
    GIVEN_BACK(none, bp_layer_new(TEXT("ab"), 1, m.texts, 1), BP_ROOM);
    bp_changed c = bp_layer_new(TEXT("ab"), 0x80000001u, m.texts, COUNT(m.texts));
    memcpy(should.texts, "ab", 2);
    SAME(0, c.refusal), SAME(0x80000001u, c.layer.extent), SAME(0, c.layer.is_open), SAME(0, c.layer.is_strict), SAME(2, c.layer.name), HELD();
    FIGURES(c.layer.used, 0, 0, 2, 0), FIGURES(c.layer.since, 0, 0, 0, 0);
    return c.layer;
}

static bp_layer tagged(bp_layer s)
{
    GIVEN_BACK(s, bp_into_feature(s, 4, words, 3, LISTS), BP_KIND);
    GIVEN_BACK(s, bp_set_id(s, 1, LISTS), BP_TURN);
    GIVEN_BACK(s, bp_add_tag_uint(s, TEXT("k"), 1, LISTS), BP_TURN);
    bp_changed c = bp_into_feature(s, BP_LINE, words, 3, LISTS);
    LAID(features, 0, 2, 0, 0, 0, 0, 3, 9, 2, 4);
    SAME(0, c.refusal), SAME(1, c.layer.is_open), FIGURES(c.layer.used, 0, 0, 2, 9), FIGURES(c.layer.since, 0, 0, 2, 0), HELD();
    GIVEN_BACK(c.layer, bp_into_feature(c.layer, BP_LINE, words, 3, LISTS), BP_TURN);
    c = bp_set_id(c.layer, 0x8102030405060708u, LISTS);
    LAID(features, 1, 1, 0x05060708, 0x81020304);
    SAME(0, c.refusal), HELD();
    c = bp_add_tag_string(c.layer, TEXT("k"), TEXT("v!"), LISTS); /* the text behind the key's */
    memcpy(should.texts + 2, "kv!", 3);
    LAID(keys, 0, 2, 1), LAID(values, 0, 1, 3, 2), LAID(features, 4, 2), LAID(features, 9, 0, 0);
    SAME(0, c.refusal), FIGURES(c.layer.used, 1, 1, 5, 11), HELD();
    c = bp_add_tag_float(c.layer, TEXT("k"), 0x80000001u, LISTS);
    LAID(values, 3, 2, 0x80000001u, 0), LAID(features, 4, 4), LAID(features, 11, 0, 1);
    SAME(0, c.refusal), HELD();
    c = bp_add_tag_double(c.layer, TEXT("d"), 0x8000000200000003u, LISTS);
    should.texts[5] = 'd';
    LAID(keys, 2, 5, 1), LAID(values, 6, 3, 3, 0x80000002u), LAID(features, 4, 6), LAID(features, 13, 1, 2);
    SAME(0, c.refusal), FIGURES(c.layer.used, 2, 3, 6, 15), HELD();
    c = bp_add_tag_int(c.layer, TEXT("d"), -2, LISTS);
    LAID(values, 9, 4, 0xFFFFFFFEu, 0xFFFFFFFFu), LAID(features, 4, 8), LAID(features, 15, 1, 3);
    SAME(0, c.refusal), HELD();
    c = bp_add_tag_uint(c.layer, TEXT("d"), 0xFFFFFFFE00000001u, LISTS);
    LAID(values, 12, 5, 1, 0xFFFFFFFEu), LAID(features, 4, 10), LAID(features, 17, 1, 4);
    SAME(0, c.refusal), HELD();
    c = bp_add_tag_sint(c.layer, TEXT("d"), INT64_MIN, LISTS);
    LAID(values, 15, 6, 0, 0x80000000u), LAID(features, 4, 12), LAID(features, 19, 1, 5);
    SAME(0, c.refusal), HELD();
    c = bp_add_tag_bool(c.layer, TEXT("k"), 256, LISTS); /* every number but 0 is true */
    LAID(values, 18, 7, 1, 0), LAID(features, 4, 14), LAID(features, 21, 0, 6);
    SAME(0, c.refusal), HELD();
    c = bp_add_tag_bool(c.layer, TEXT("d"), 0x80000000u, LISTS); /* the same value again */
    LAID(features, 4, 16), LAID(features, 23, 1, 6);
    SAME(0, c.refusal), FIGURES(c.layer.used, 2, 7, 6, 25), HELD();
    GIVEN_BACK(c.layer, bp_add_tag_bool(c.layer, TEXT("d"), 0, LISTS), BP_ROOM); /* an eighth value */
    GIVEN_BACK(c.layer, bp_add_tag_string(c.layer, TEXT("k"), m.bytes, 1025, LISTS), BP_TEXT);
    SAME(16, bp_num_tags(c.layer, LISTS).count), SAME(0, bp_num_features(c.layer, LISTS).count);
    return c.layer;
}

static bp_layer closed(bp_layer open)
{
    bp_changed c = bp_abandon(open, LISTS);
    SAME(0, c.refusal), SAME(0, c.layer.is_open), FIGURES(c.layer.used, 0, 0, 2, 0), HELD();
    c = bp_into_layer(open, LISTS);
    SAME(0, c.refusal), SAME(0, c.layer.is_open), FIGURES(c.layer.used, 2, 7, 6, 25), FIGURES(c.layer.since, 0, 0, 0, 0), HELD();
    GIVEN_BACK(c.layer, bp_into_layer(c.layer, LISTS), BP_TURN);
    GIVEN_BACK(c.layer, bp_abandon(c.layer, LISTS), BP_TURN);
    bp_counted n = bp_num_tags(c.layer, LISTS);
    SAME(BP_TURN, n.refusal), SAME(0, n.count);
    n = bp_num_features(c.layer, LISTS);
    SAME(0, n.refusal), SAME(1, n.count);
    bp_named name = bp_name(c.layer, LISTS);
    SAME(0, name.refusal), SAME(0, name.start), SAME(2, name.len);
    return c.layer;
}

/* A whole feature whose key and text are there already. */
static bp_layer whole(bp_layer s)
{
    const uint32_t tags[] = {2, 1, 1, 0, 2};
    GIVEN_BACK(s, bp_add_feature(s, 1, 0, 0, words, 3, tags, 4, TEXT("v!k"), LISTS), BP_JOB);
    GIVEN_BACK(s, bp_add_feature(s, 1, 0, 0, words, 3, tags, 5, TEXT("v!"), LISTS), BP_JOB);
    GIVEN_BACK(s, bp_add_feature(s, 0, 0, 0, words, 3, tags, 5, TEXT("v!k"), LISTS), BP_KIND);
    bp_changed c = bp_add_feature(s, BP_POINT, 0, 5, words, 3, tags, 0, TEXT(""), LISTS);
    LAID(features, 25, 1, 0, 0, 0, 0, 3, 9, 2, 4);
    SAME(0, c.refusal), FIGURES(c.layer.used, 2, 7, 6, 34), HELD();
    c = bp_add_feature(s, BP_POINT, 256, 0x8000000700000006u, words, 3, tags, 5, TEXT("v!k"), LISTS);
    LAID(features, 25, 1, 1, 6, 0x80000007u, 2, 3, 9, 2, 4, 0, 0);
    SAME(0, c.refusal), SAME(0, c.layer.is_open), FIGURES(c.layer.used, 2, 7, 6, 36), HELD();
    SAME(2, bp_num_features(c.layer, LISTS).count);
    return c.layer;
}

static void none_added(int line, bp_layer s, bp_many a, uint32_t refusal)
{
    same("refusal", line, refusal, a.refusal);
    same("the count", line, 0, a.count);
    same("the layer given back", line, 0, layers_differ(s, a.layer));
    same("the lists", line, 0, memcmp(&m, &should, sizeof m));
}
#define NONE_ADDED(s, a, refusal) none_added(__LINE__, s, a, refusal)

/* Three features in one call: without an id and tags, with both, and one whose value has no room and which leaves nothing. */
static void many(bp_layer s)
{
    static const uint32_t heads[] = {2, 0, 7, 8, 1, 0, 1, 1, 6, 0x80000007u, 2, 10, 3, 1, 1, 1, 3, 5};
    static const uint32_t drawn[] = {9, 2, 4, 5, 6, 7};
    static const uint32_t tags[] = {2, 1, 1, 0, 2, 3, 1, 5, 1, 0xFFFFFFFEu, 2, 1, 4, 3, 3};
    static const uint32_t marked[] = {1, 2, 0, 0, 0, 0};
    fill();
    bp_changed c = bp_layer_new(TEXT("ab"), s.extent, m.texts, COUNT(m.texts));
    memcpy(should.texts, "ab", 2);
    s = c.layer, s.since.keys = SIZE_MAX; /* what lies behind a 0 is not looked at, and comes back */
    NONE_ADDED(s, bp_add_features(s, heads, 17, drawn, 6, tags, 15, TEXT("v!kd"), LISTS, INDEX), BP_JOB);
    NONE_ADDED(s, bp_add_features(s, heads, 18, drawn, 5, tags, 15, TEXT("v!kd"), LISTS, INDEX), BP_JOB);
    NONE_ADDED(s, bp_add_features(s, heads, 18, drawn, 6, tags, 14, TEXT("v!kd"), LISTS, INDEX), BP_JOB);
    NONE_ADDED(s, bp_add_features(s, heads, 12, drawn, 4, tags, 10, TEXT("v!kd"), LISTS, INDEX), BP_JOB);
    NONE_ADDED(s, bp_add_features(s, marked, 6, drawn, 0, tags, 0, TEXT(""), LISTS, INDEX), BP_JOB);
    NONE_ADDED(s, bp_add_features(s, heads, 0, drawn, 0, tags, 0, TEXT(""), LISTS, m.key_index, 0, m.value_index, 0), 0);
    bp_many a = bp_add_features(s, heads, 18, drawn, 6, tags, 15, TEXT("v!kd"), m.keys, 4, m.values, 8, m.texts, COUNT(m.texts), m.features, COUNT(m.features), INDEX);
    LAID(features, 0, 2, 0, 0, 0, 0, 1, 9), LAID(features, 7, 1, 1, 6, 0x80000007u, 4, 2, 2, 4, 0, 0, 1, 1);
    LAID(keys, 0, 2, 1, 5, 1), LAID(values, 0, 1, 3, 2, 5, 1, 0xFFFFFFFEu), memcpy(should.texts + 2, "kv!d", 4);
    LAID(key_index, 0, 2, 1, 0, 0), LAID(value_index, 0, 0, 2, 0, 1, 0); /* built anew: the newest entry of each bucket, then what each entry follows */
    SAME(BP_ROOM, a.refusal), SAME(2, a.count), SAME(0, a.layer.is_open), FIGURES(a.layer.used, 2, 2, 6, 19), FIGURES(a.layer.since, 0, 0, 0, 0), HELD();
    SAME(2, bp_num_features(a.layer, LISTS).count);
    a = bp_add_features(a.layer, heads + 12, 6, drawn + 3, 3, tags + 10, 5, TEXT("v!kd"), LISTS, INDEX);
    LAID(features, 19, 3, 1, 1, 1, 2, 3, 5, 6, 7, 0, 2), LAID(values, 6, 4, 3, 3);
    SAME(0, a.refusal), SAME(1, a.count), FIGURES(a.layer.used, 2, 3, 6, 30), HELD();
}

/* ---- whole features that are refused leave every list as it was */
static bp_layer fresh(void)
{
    fill();
    bp_changed c = bp_layer_new(TEXT("ab"), 1, m.texts, COUNT(m.texts));
    memcpy(should.texts, "ab", 2);
    return c.layer;
}

/* A feature by its own call, and as the only one and the first of two of many. Its tags and texts are of the lists below. */
static const uint8_t letters[1025] = "kd";
static void refused_feature(int line, bp_layer s, uint32_t kind, size_t words_len, const uint32_t *tags, size_t tags_len, uint32_t refusal)
{
    static const uint32_t drawn[64];
    const uint32_t heads[] = {kind, 0, 0, 0, words_len, tags_len, 1, 0, 0, 0, 0, 0};
    given_back(line, s, bp_add_feature(s, kind, 0, 0, drawn, words_len, tags, tags_len, letters, 1025, LISTS), refusal);
    none_added(line, s, bp_add_features(s, heads, 6, drawn, words_len, tags, tags_len, letters, 1025, LISTS, INDEX), refusal);
    none_added(line, s, bp_add_features(s, heads, 12, drawn, words_len, tags, tags_len, letters, 1025, LISTS, INDEX), refusal);
}
#define REFUSED_FEATURE(s, kind, words_len, tags, tags_len, refusal) refused_feature(__LINE__, s, kind, words_len, tags, tags_len, refusal)

/* The checks in their order: where two fail the first is told. The first tag of each list would be accepted by itself. */
static void order(void)
{
    static const uint32_t good[] = {0, 1, 5, 7, 0, 1, 1, 5, 7, 0}, long_key[] = {0, 1, 5, 7, 0, 0, 1025, 5, 7, 0};
    static const uint32_t long_text[] = {0, 1, 5, 7, 0, 1, 1, 1, 0, 1025}, wide_text[] = {0, 1, 5, 7, 0, 1, 1, 1, 0, 1024};
    static const uint32_t past[] = {0, 1025, 5, 7, 0, 1, 1, 1, 1, 1025}, no_kind[] = {0, 1, 5, 7, 0, 1, 1, 8, 0, 0}, no_bool[] = {0, 1, 5, 7, 0, 1, 1, 7, 2, 0};
    bp_layer s = fresh(), bad = s;
    bad.used.keys = 3;
    REFUSED_FEATURE(s, BP_LINE, 3, past, 10, BP_JOB);
    REFUSED_FEATURE(s, BP_LINE, 3, no_kind, 10, BP_JOB);
    REFUSED_FEATURE(s, BP_LINE, 3, no_bool, 10, BP_JOB);
    REFUSED_FEATURE(s, 0, 3, good, 9, BP_JOB); /* JOB before KIND, */
    REFUSED_FEATURE(bad, 4, 64, past, 10, BP_JOB);
    REFUSED_FEATURE(s, 4, 3, good, 10, BP_KIND);
    REFUSED_FEATURE(bad, 0, 3, good, 10, BP_KIND); /* KIND before STATE, */
    REFUSED_FEATURE(s, 4, 64, long_key, 10, BP_KIND);
    REFUSED_FEATURE(bad, BP_LINE, 3, good, 10, BP_STATE);
    REFUSED_FEATURE(bad, BP_LINE, 64, long_key, 10, BP_STATE); /* STATE before TEXT, */
    REFUSED_FEATURE(s, BP_LINE, 3, long_key, 10, BP_TEXT);
    REFUSED_FEATURE(s, BP_LINE, 3, long_text, 10, BP_TEXT);
    REFUSED_FEATURE(s, BP_LINE, 64, long_text, 10, BP_TEXT); /* TEXT before ROOM, */
    REFUSED_FEATURE(s, BP_LINE, 3, wide_text, 10, BP_ROOM);
    REFUSED_FEATURE(s, BP_LINE, 64, good, 10, BP_ROOM);
    bp_layer open = bp_into_feature(s, BP_POINT, words, 3, LISTS).layer;
    LAID(features, 0, 1, 0, 0, 0, 0, 3, 9, 2, 4);
    REFUSED_FEATURE(open, BP_LINE, 3, good, 10, BP_TURN);
    REFUSED_FEATURE(open, BP_LINE, 3, long_text, 10, BP_TEXT); /* TEXT before TURN, */
    REFUSED_FEATURE(open, BP_LINE, 64, wide_text, 10, BP_TURN); /* TURN before ROOM */
    REFUSED_FEATURE(open, 0, 3, long_key, 10, BP_KIND);
}

/* Five tags of two keys and two values, for 0.0 and -0.0 are one: room for these is enough, and an element less of any list is not. */
static void again(void)
{
    static const uint32_t tags[] = {0, 1, 2, 0, 0, 0, 1, 2, 0x80000000u, 0, 1, 1, 5, 7, 0, 0, 1, 5, 7, 0, 1, 1, 2, 0x80000000u, 0};
    static const uint32_t heads[] = {3, 1, 5, 0, 3, 25};
    static const size_t rooms[][4] = {{3, 6, 4, 19}, {4, 5, 4, 19}, {4, 6, 3, 19}, {4, 6, 4, 18}, {4, 6, 4, 19}};
    for (int by_many = 0; by_many < 2; by_many++) {
        bp_layer s = fresh();
        for (size_t i = 0; i < COUNT(rooms); i++) {
            const size_t *n = rooms[i];
            bp_changed c;
            if (by_many) {
                bp_many a = bp_add_features(s, heads, 6, words, 3, tags, 25, TEXT("kd"), m.keys, n[0], m.values, n[1], m.texts, n[2], m.features, n[3], m.key_index, 4, m.value_index, 0);
                SAME(i == 4, a.count);
                c = (bp_changed){.refusal = a.refusal, .layer = a.layer};
            } else {
                c = bp_add_feature(s, BP_POLYGON, 1, 5, words, 3, tags, 25, TEXT("kd"), m.keys, n[0], m.values, n[1], m.texts, n[2], m.features, n[3]);
            }
            if (i < 4) {
                GIVEN_BACK(s, c, BP_ROOM);
                continue;
            }
            LAID(keys, 0, 2, 1, 3, 1), LAID(values, 0, 2, 0, 0, 5, 7, 0), memcpy(should.texts + 2, "kd", 2);
            LAID(features, 0, 3, 1, 5, 0, 10, 3, 9, 2, 4, 0, 0, 0, 0, 1, 1, 0, 1, 1, 0);
            if (by_many)
                LAID(key_index, 0, 2, 1, 0, 0); /* k is odd and d even, and there are two buckets */
            SAME(0, c.refusal), SAME(0, c.layer.is_open), FIGURES(c.layer.used, 2, 2, 4, 19), FIGURES(c.layer.since, 0, 0, 0, 0), HELD();
        }
    }
}

/* The second of two is refused, for each reason that it can have by itself: the first stays, and the indexes are those of the layer with it. */
static void second(void)
{
    static const struct {
        uint32_t kind, tags_len, refusal, tags[5];
    } seconds[] = {{2, 4, BP_JOB, {1, 1, 5, 8}}, {2, 5, BP_JOB, {1, 1025, 5, 8, 0}}, {4, 5, BP_KIND, {1, 1, 5, 8, 0}}, {2, 5, BP_TEXT, {0, 1025, 5, 8, 0}}, {2, 5, BP_ROOM, {1, 1, 1, 0, 1024}}};
    for (size_t i = 0; i < COUNT(seconds); i++) {
        const uint32_t *t = seconds[i].tags;
        const uint32_t heads[] = {1, 0, 0, 0, 1, 5, seconds[i].kind, 0, 0, 0, 2, seconds[i].tags_len};
        const uint32_t tags[] = {0, 1, 5, 7, 0, t[0], t[1], t[2], t[3], t[4]};
        bp_layer s = fresh();
        bp_many a = bp_add_features(s, heads, 12, words, 3, tags, 5 + seconds[i].tags_len, letters, 1025, m.keys, 4, m.values, 8, m.texts, COUNT(m.texts), m.features, COUNT(m.features), INDEX);
        LAID(keys, 0, 2, 1), LAID(values, 0, 5, 7, 0), LAID(features, 0, 1, 0, 0, 0, 2, 1, 9, 0, 0), should.texts[2] = 'k';
        LAID(key_index, 0, 0, 1, 0, 0), LAID(value_index, 0, 0, 1, 0, 0, 0);
        SAME(seconds[i].refusal, a.refusal), SAME(1, a.count), SAME(0, a.layer.is_open), FIGURES(a.layer.used, 1, 1, 3, 9), HELD();
    }
}

/* A geometry of the most words there may be, and of one more, for which there is room. */
static void widest(void)
{
    static uint32_t drawn[BP_MAX_WORDS + 1], features[BP_MAX_WORDS + 16];
    bp_layer s = fresh();
    drawn[BP_MAX_WORDS - 1] = 77, features[5] = 1;
    GIVEN_BACK(s, bp_add_feature(s, BP_LINE, 0, 0, drawn, BP_MAX_WORDS + 1, words, 0, TEXT(""), m.keys, 4, m.values, 8, m.texts, 20, features, COUNT(features)), BP_ROOM);
    SAME(0, features[0]), SAME(1, features[5]), SAME(0, features[BP_MAX_WORDS + 5]);
    bp_changed c = bp_add_feature(s, BP_LINE, 0, 0, drawn, BP_MAX_WORDS, words, 0, TEXT(""), m.keys, 4, m.values, 8, m.texts, 20, features, COUNT(features));
    SAME(0, c.refusal), SAME(BP_MAX_WORDS + 6, c.layer.used.features), SAME(BP_MAX_WORDS, features[5]), SAME(77, features[BP_MAX_WORDS + 5]), HELD();
}

/* Every number of the layer is looked at, at its full width, by every call. */
static void refused(bp_layer s)
{
    GIVEN_BACK(s, bp_into_feature(s, 2, words, 3, LISTS), BP_STATE);
    GIVEN_BACK(s, bp_into_feature(s, 4, words, 3, LISTS), BP_KIND); /* comes before STATE */
    GIVEN_BACK(s, bp_set_id(s, 1, LISTS), BP_STATE);
    GIVEN_BACK(s, bp_add_tag_string(s, TEXT("k"), TEXT("v"), LISTS), BP_STATE);
    GIVEN_BACK(s, bp_add_tag_float(s, TEXT("k"), 1, LISTS), BP_STATE);
    GIVEN_BACK(s, bp_add_tag_double(s, TEXT("k"), 1, LISTS), BP_STATE);
    GIVEN_BACK(s, bp_add_tag_int(s, TEXT("k"), 1, LISTS), BP_STATE);
    GIVEN_BACK(s, bp_add_tag_uint(s, TEXT("k"), 1, LISTS), BP_STATE);
    GIVEN_BACK(s, bp_add_tag_sint(s, TEXT("k"), 1, LISTS), BP_STATE);
    GIVEN_BACK(s, bp_add_tag_bool(s, TEXT("k"), 1, LISTS), BP_STATE);
    GIVEN_BACK(s, bp_into_layer(s, LISTS), BP_STATE);
    GIVEN_BACK(s, bp_abandon(s, LISTS), BP_STATE);
    GIVEN_BACK(s, bp_add_feature(s, 1, 0, 0, words, 3, words, 0, TEXT(""), LISTS), BP_STATE);
    NONE_ADDED(s, bp_add_features(s, (const uint32_t[]){1, 0, 0, 0, 0, 0}, 6, words, 0, words, 0, TEXT(""), LISTS, INDEX), BP_STATE);
    NONE_ADDED(s, bp_add_features(s, words, 0, words, 0, words, 0, TEXT(""), LISTS, INDEX), BP_STATE); /* of no features at all too */
    SAME(BP_STATE, bp_num_features(s, LISTS).refusal), SAME(BP_STATE, bp_num_tags(s, LISTS).refusal), SAME(BP_STATE, bp_name(s, LISTS).refusal);
    bp_tile t = {.extent = s.extent};
    SAME(BP_STATE, bp_add_layer(t, s, LISTS, TILE).refusal), HELD();
    SAME(BP_STATE, bp_layer_size(t, s, LISTS).refusal), SAME(0, bp_layer_size(t, s, LISTS).count);
}

/* A new layer that is refused: no call takes what it gives, whatever the lists hold. */
static void refused_new(void)
{
    fill();
    bp_changed c = bp_layer_new(m.bytes, BP_MAX_TEXT + 1, 7, m.texts, COUNT(m.texts));
    GIVEN_BACK(none, c, BP_TEXT), refused(c.layer);
    c = bp_create_layer(bp_tile_new(7), TEXT("ab"), m.texts, 1);
    GIVEN_BACK(none, c, BP_ROOM), refused(c.layer);
    memset(&m, 0, sizeof m), memset(&should, 0, sizeof should);
    refused(c.layer);
}

static void states(bp_layer open)
{
    bp_layer s = open;
    size_t *const figures[] = {&s.name, &s.used.keys, &s.used.values, &s.used.texts, &s.used.features, &s.since.keys, &s.since.values, &s.since.texts, &s.since.features};
    for (size_t i = 0; i < COUNT(figures); i++) {
        s = open, *figures[i] += (size_t)1 << 32;
        refused(s);
    }
    s = open, s.is_open = 2;
    refused(s);
    s.is_open = 0x80000000u;
    refused(s);
    static const uint32_t marks[] = {2, 3, 0x10000, 0x80000000u, 0xFFFFFFFFu};
    for (size_t i = 0; i < COUNT(marks); i++)
        for (uint32_t is_open = 0; is_open <= 1; is_open++) {
            s = open, s.is_open = is_open, s.is_strict = marks[i];
            refused(s);
        }
    s = open, s.is_open = 0, s.since.keys = SIZE_MAX; /* what lies behind a 0 is not looked at */
    SAME(0, bp_num_features(s, LISTS).refusal), SAME(1, bp_num_features(s, LISTS).count);
    GIVEN_BACK(s, bp_into_layer(s, LISTS), BP_TURN);
}

static void tile_given_back(int line, bp_tile t, bp_added a, uint32_t refusal)
{
    same("refusal", line, refusal, a.refusal);
    same("extent", line, t.extent, a.tile.extent);
    same("used", line, t.used, a.tile.used);
    same("layers", line, t.layers, a.tile.layers);
    same("the lists", line, 0, memcmp(&m, &should, sizeof m));
}
#define TILE_BACK(t, a, refusal) tile_given_back(__LINE__, t, a, refusal)

/* The layer "ab" of extent 0x80000001 with its two features. */
static const uint8_t bytes[] = {
    0x1A, 0x93, 0x01, 0x0A, 0x02, 0x61, 0x62, 0x12, 0x24, 0x08, 0x88, 0x8E, 0x98, 0xA8, 0xC0, 0xE0,
    0x80, 0x81, 0x81, 0x01, 0x12, 0x10, 0x00, 0x00, 0x00, 0x01, 0x01, 0x02, 0x01, 0x03, 0x01, 0x04,
    0x01, 0x05, 0x00, 0x06, 0x01, 0x06, 0x18, 0x02, 0x22, 0x03, 0x09, 0x02, 0x04, 0x12, 0x16, 0x08,
    0x86, 0x80, 0x80, 0x80, 0xF0, 0x80, 0x80, 0x80, 0x80, 0x01, 0x12, 0x02, 0x00, 0x00, 0x18, 0x01,
    0x22, 0x03, 0x09, 0x02, 0x04, 0x1A, 0x01, 0x6B, 0x1A, 0x01, 0x64, 0x22, 0x04, 0x0A, 0x02, 0x76,
    0x21, 0x22, 0x05, 0x15, 0x01, 0x00, 0x00, 0x80, 0x22, 0x09, 0x19, 0x03, 0x00, 0x00, 0x00, 0x02,
    0x00, 0x00, 0x80, 0x22, 0x0B, 0x20, 0xFE, 0xFF, 0xFF, 0xFF, 0xFF, 0xFF, 0xFF, 0xFF, 0xFF, 0x01,
    0x22, 0x0B, 0x28, 0x81, 0x80, 0x80, 0x80, 0xE0, 0xFF, 0xFF, 0xFF, 0xFF, 0x01, 0x22, 0x0B, 0x30,
    0xFF, 0xFF, 0xFF, 0xFF, 0xFF, 0xFF, 0xFF, 0xFF, 0xFF, 0x01, 0x22, 0x02, 0x38, 0x01, 0x28, 0x81,
    0x80, 0x80, 0x80, 0x08, 0x78, 0x02,
};

static void tiles(bp_layer open, bp_layer s)
{
    bp_tile t = bp_tile_new(0x80000001u);
    SAME(0x80000001u, t.extent), SAME(0, t.used), SAME(0, t.layers);
    TILE_BACK(t, bp_add_layer(t, open, LISTS, TILE), BP_TURN);
    SAME(0, bp_layer_size(t, s, LISTS).refusal), SAME(COUNT(bytes), bp_layer_size(t, s, LISTS).count);
    SAME(COUNT(bytes) - 25, bp_layer_size(t, open, LISTS).count); /* less the second feature, and a byte of the length; TURN is of adding */
    SAME(COUNT(bytes), bp_layer_size((bp_tile){1, SIZE_MAX, SIZE_MAX}, s, LISTS).count); /* nothing of the tile is looked at */
    TILE_BACK(t, bp_add_layer(t, s, LISTS, m.names, 1, m.bytes, COUNT(m.bytes)), BP_ROOM);
    TILE_BACK(t, bp_add_layer(t, s, LISTS, m.names, 2, m.bytes, COUNT(bytes) - 1), BP_ROOM);
    t.extent = 1;
    TILE_BACK(t, bp_add_layer(t, s, LISTS, TILE), BP_EXTENT);
    t.extent = 0x80000001u;
    bp_added a = bp_add_layer(t, s, LISTS, m.names, 2, m.bytes, COUNT(bytes));
    memcpy(should.bytes, bytes, COUNT(bytes));
    LAID(names, 0, 5, 2);
    SAME(0, a.refusal), SAME(0x80000001u, a.tile.extent), SAME(COUNT(bytes), a.tile.used), SAME(1, a.tile.layers), HELD();
    t = a.tile;
    TILE_BACK(t, bp_add_layer(t, s, LISTS, TILE), BP_NAME);
    SAME(1, bp_num_layers(t, TILE).count), SAME(COUNT(bytes), bp_compute_size(t, TILE).count), SAME(COUNT(bytes), bp_to_bytes(t, TILE).count);
    size_t *const figures[] = {&t.used, &t.layers};
    for (size_t i = 0; i < COUNT(figures); i++) {
        t = a.tile, *figures[i] += (size_t)1 << 32;
        TILE_BACK(t, bp_add_layer(t, s, LISTS, TILE), BP_STATE);
        SAME(BP_STATE, bp_num_layers(t, TILE).refusal), SAME(0, bp_num_layers(t, TILE).count);
        SAME(BP_STATE, bp_compute_size(t, TILE).refusal), SAME(BP_STATE, bp_to_bytes(t, TILE).refusal);
    }
}

/* Document 01's tile: extent 4096, the layer "a" without features. */
static void empty_layer(void)
{
    static const uint8_t tile[] = {0x1A, 0x08, 0x0A, 0x01, 0x61, 0x28, 0x80, 0x20, 0x78, 0x02};
    fill();
    bp_tile t = bp_tile_new(4096);
    SAME(BP_ROOM, bp_create_layer(t, TEXT("a"), m.texts, 0).refusal);
    bp_changed c = bp_create_layer(t, TEXT("a"), m.texts, 1);
    SAME(0, c.refusal), SAME(4096, c.layer.extent), SAME(1, c.layer.name), FIGURES(c.layer.used, 0, 0, 1, 0);
    SAME(sizeof tile, bp_layer_size(t, c.layer, LISTS).count);
    bp_added a = bp_add_layer(t, c.layer, LISTS, TILE);
    should.texts[0] = 'a', LAID(names, 0, 4, 1), memcpy(should.bytes, tile, sizeof tile);
    SAME(0, a.refusal), SAME(sizeof tile, bp_to_bytes(a.tile, TILE).count), HELD();
}

int main(void)
{
    bp_layer open = tagged(made());
    bp_layer shut = whole(closed(open));
    tiles(open, shut);
    states(open);
    many(shut);
    order();
    again();
    second();
    widest();
    empty_layer();
    refused_new();
    SAME(BP_VERSION, bp_tiles_version());
    return ended("layers and tiles");
}
