/* Holds include/brinepost.h against the library that reads tiles: the layout of each struct, where things stand, what is refused and at which place, at any
 * place of good and of bad tiles, and a tile that libbrinepost_tiles.a wrote, read again. Bytes and places are put together by hand from the Protocol Buffers
 * document. What samples/ holds is read by open.c. */
#include "brinepost.h"
#include "check.h"

/* ---- the header's layout, as the library has it */
SIZE(bp_opened, 24);
AT(bp_opened, place, 8);
AT(bp_opened, layers, 16);
SIZE(bp_layer_read, 80);
AT(bp_layer_read, is_there, 4);
AT(bp_layer_read, place, 8);
AT(bp_layer_read, version, 16);
AT(bp_layer_read, extent, 20);
AT(bp_layer_read, name_start, 24);
AT(bp_layer_read, name_len, 32);
AT(bp_layer_read, keys, 40);
AT(bp_layer_read, values, 48);
AT(bp_layer_read, features, 56);
AT(bp_layer_read, start, 64);
AT(bp_layer_read, end, 72);
SIZE(bp_feature_read, 64);
AT(bp_feature_read, is_there, 4);
AT(bp_feature_read, place, 8);
AT(bp_feature_read, has_id, 16);
AT(bp_feature_read, kind, 20);
AT(bp_feature_read, id, 24);
AT(bp_feature_read, tags, 32);
AT(bp_feature_read, words, 40);
AT(bp_feature_read, start, 48);
AT(bp_feature_read, end, 56);
SIZE(bp_key_read, 32);
AT(bp_key_read, is_there, 4);
AT(bp_key_read, place, 8);
AT(bp_key_read, start, 16);
AT(bp_key_read, len, 24);
SIZE(bp_value_read, 56);
AT(bp_value_read, is_there, 4);
AT(bp_value_read, place, 8);
AT(bp_value_read, kind, 16);
AT(bp_value_read, start, 24);
AT(bp_value_read, len, 32);
AT(bp_value_read, bits, 40);
AT(bp_value_read, next, 48);
SIZE(bp_words_read, 24);
AT(bp_words_read, place, 8);
AT(bp_words_read, count, 16);

/* ---- the tile that is read now, and a lent list with guards around it */
enum { LENT = 8, UNTOUCHED = 0x5A5A5A5A };
static uint8_t tile[4096];
static size_t len;
static struct memory {
    uint32_t guard0[4], out[LENT], guard1[4];
} m;
#define TILE tile, len

static unsigned digit(char c)
{
    return c <= '9' ? (unsigned)(c - '0') : (unsigned)(c - 'a') + 10;
}

/* The tile with these bytes, in hex; spaces do not count. */
static void take(const char *hex)
{
    for (len = 0; *hex; hex++)
        if (*hex != ' ') {
            tile[len++] = (uint8_t)(16 * digit(hex[0]) + digit(hex[1]));
            hex++;
        }
}

static void fill(void)
{
    for (size_t i = 0; i < sizeof m / sizeof(uint32_t); i++)
        ((uint32_t *)&m)[i] = UNTOUCHED;
}

/* So many numbers were written at the front of the list, and these; everything else is as it was. */
static void written(int line, const uint32_t *expected, size_t count)
{
    for (size_t i = 0; i < 4; i++) {
        same("the guard before", line, UNTOUCHED, m.guard0[i]);
        same("the guard behind", line, UNTOUCHED, m.guard1[i]);
    }
    for (size_t i = 0; i < LENT; i++)
        same("a number", line, i < count ? expected[i] : UNTOUCHED, m.out[i]);
}

/* ---- answers, field by field */
static void opened_is(int line, bp_opened a, uint32_t refusal, size_t place, size_t layers)
{
    same("refusal", line, refusal, a.refusal);
    same("place", line, (long long)place, (long long)a.place);
    same("layers", line, (long long)layers, (long long)a.layers);
}

static void layer_is(int line, bp_layer_read a, bp_layer_read b)
{
    same("refusal", line, b.refusal, a.refusal);
    same("is_there", line, b.is_there, a.is_there);
    same("place", line, (long long)b.place, (long long)a.place);
    same("version", line, b.version, a.version);
    same("extent", line, b.extent, a.extent);
    same("name_start", line, (long long)b.name_start, (long long)a.name_start);
    same("name_len", line, (long long)b.name_len, (long long)a.name_len);
    same("keys", line, (long long)b.keys, (long long)a.keys);
    same("values", line, (long long)b.values, (long long)a.values);
    same("features", line, (long long)b.features, (long long)a.features);
    same("start", line, (long long)b.start, (long long)a.start);
    same("end", line, (long long)b.end, (long long)a.end);
}

static void feature_is(int line, bp_feature_read a, bp_feature_read b)
{
    same("refusal", line, b.refusal, a.refusal);
    same("is_there", line, b.is_there, a.is_there);
    same("place", line, (long long)b.place, (long long)a.place);
    same("has_id", line, b.has_id, a.has_id);
    same("kind", line, b.kind, a.kind);
    same("id", line, (long long)b.id, (long long)a.id);
    same("tags", line, (long long)b.tags, (long long)a.tags);
    same("words", line, (long long)b.words, (long long)a.words);
    same("start", line, (long long)b.start, (long long)a.start);
    same("end", line, (long long)b.end, (long long)a.end);
}

static void key_is(int line, bp_key_read a, bp_key_read b)
{
    same("refusal", line, b.refusal, a.refusal);
    same("is_there", line, b.is_there, a.is_there);
    same("place", line, (long long)b.place, (long long)a.place);
    same("start", line, (long long)b.start, (long long)a.start);
    same("len", line, (long long)b.len, (long long)a.len);
}

static void value_is(int line, bp_value_read a, bp_value_read b)
{
    same("refusal", line, b.refusal, a.refusal);
    same("is_there", line, b.is_there, a.is_there);
    same("place", line, (long long)b.place, (long long)a.place);
    same("kind", line, b.kind, a.kind);
    same("start", line, (long long)b.start, (long long)a.start);
    same("len", line, (long long)b.len, (long long)a.len);
    same("bits", line, (long long)b.bits, (long long)a.bits);
    same("next", line, (long long)b.next, (long long)a.next);
}

static void words_are(int line, bp_words_read a, uint32_t refusal, size_t place, size_t count)
{
    same("refusal", line, refusal, a.refusal);
    same("place", line, (long long)place, (long long)a.place);
    same("count", line, (long long)count, (long long)a.count);
}

#define OPENED(call, ...) opened_is(__LINE__, call, __VA_ARGS__)
#define LAYER(call, ...) layer_is(__LINE__, call, (bp_layer_read){__VA_ARGS__})
#define FEATURE(call, ...) feature_is(__LINE__, call, (bp_feature_read){__VA_ARGS__})
#define KEY(call, ...) key_is(__LINE__, call, (bp_key_read){__VA_ARGS__})
#define VALUE(call, ...) value_is(__LINE__, call, (bp_value_read){__VA_ARGS__})
#define WORDS(call, ...) words_are(__LINE__, call, __VA_ARGS__)
#define IS 0, 1, 0 /* accepted, and there */
#define NONE 0     /* accepted, and all 0 */
#define NO_PLACE .refusal = BP_STATE
#define WIRE_AT(p) .refusal = BP_WIRE, .place = (p)

/* A place that is refused so by every call that has one; nothing is written. */
static void refused_at(int line, uint32_t refusal, size_t place, size_t at, size_t end)
{
    fill();
    feature_is(line, bp_next_feature(TILE, at, end), (bp_feature_read){.refusal = refusal, .place = place});
    key_is(line, bp_next_key(TILE, at, end), (bp_key_read){.refusal = refusal, .place = place});
    value_is(line, bp_next_value(TILE, at, end), (bp_value_read){.refusal = refusal, .place = place});
    words_are(line, bp_read_tags(TILE, at, end, m.out, LENT), refusal, place, 0);
    words_are(line, bp_read_geometry(TILE, at, end, m.out, LENT), refusal, place, 0);
    words_are(line, bp_read_geometry(TILE, at, end, m.out, 0), refusal, place, 0);
    written(line, NULL, 0);
}
#define REFUSED_AT(refusal, place, at, end) refused_at(__LINE__, refusal, place, at, end)

/* ---- what bp_open says of single faults, and of what looks like one: a place, or GOOD */
enum { GOOD = -1 };
static const struct vector {
    const char *hex;
    int place, layers;
} vectors[] = {
    {"", GOOD, 0},
    {"1a00", GOOD, 1},
    {"f8ffffff0f00", GOOD, 0},
    {"8880808080808080800000", GOOD, 0},
    {"08ffffffffffffffffff01", GOOD, 0},
    {"1a03288000", GOOD, 1},
    {"1a030a8000", GOOD, 1},
    {"1a082206950000000000", GOOD, 1},
    {"1a06120422028000", GOOD, 1},
    {"1a06120422002200", GOOD, 1},
    {"1b", 0, 0},
    {"9b80", 0, 0},
    {"0000", 0, 0},
    {"8000", 1, 0},
    {"8080808000", 4, 0},
    {"8080808080", 4, 0},
    {"8880808010", 4, 0},
    {"888080808001", 5, 0},
    {"88808080808080808001", 9, 0},
    {"18", 0, 0},
    {"9800", 1, 0},
    {"9880808080", 4, 0},
    {"1a042a", 2, 0},
    {"0880808080808080808002", 10, 0},
    {"1a01", 1, 0},
    {"1a032800", 3, 0},
    {"1a022880", 3, 0},
    {"1a020a01", 3, 0},
    {"1a030a00", 3, 0},
    {"1a030a81", 3, 0},
    {"1a051281", 3, 0},
    {"1a0a0aff", 3, 0},
    {"1a08220615", 4, 0},
    {"1a0c220a19", 4, 0},
    {"1a07220599", 4, 0},
    {"1a0c28808080808080808080", 11, 0},
    {"1a0612042202 8080", 7, 0},
    {"1a0612042201", 5, 0},
    {"1a051202", 3, 0},
    {"1a0c0a808080808080808080", 11, 0},
    {"1a13818180808080808080", 10, 0},
    {"1a0f858180808080808080", 10, 0},
    /* these end too early: the place is the number of bytes */
    {"1a", 1, 0},
    {"98", 1, 0},
    {"1a08", 2, 0},
    {"0aff", 2, 0},
    {"1a040a81", 4, 0},
    {"1a0a0a86", 4, 0},
    {"1a818080808080808080", 10, 0},
    {"1a0b28808080808080808080", 12, 0},
    {"1a061202", 4, 0},
    {"1a12818180808080808080", 11, 0},
};

/* What a call refuses is as it must be: STATE of places outside of the bytes; else WIRE with the tile's place, or STATE where the tile is good. */
static int wrongly_refused(uint32_t refusal, size_t place, int inside, bp_opened o)
{
    if (!inside || o.refusal == 0)
        return refusal != BP_STATE || place != 0;
    return refusal != BP_WIRE || place != o.place;
}

/* Every place of the tile and some beyond it, and every end: each call answers, and what it answers lies in what it was given. */
static void any_places(bp_opened o)
{
    static const size_t far[] = {(size_t)-1, (size_t)-2, (size_t)1 << 63, (size_t)1 << 32};
    size_t wrong = 0, beyond = 0;
    for (size_t i = 0; i < len + 2 + COUNT(far); i++) {
        size_t at = i < len + 2 ? i : far[i - len - 2];
        bp_layer_read l = bp_next_layer(TILE, at);
        wrong += l.refusal == 0 ? at > len : (size_t)wrongly_refused(l.refusal, l.place, at <= len, o);
        beyond += l.is_there && (l.start < at || l.end < l.start || len < l.end || len < l.name_start + l.name_len);
        for (size_t j = 0; j < len + 2 + COUNT(far); j++) {
            size_t end = j < len + 2 ? j : far[j - len - 2];
            int inside = at <= end && end <= len;
            bp_feature_read f = bp_next_feature(TILE, at, end);
            bp_key_read k = bp_next_key(TILE, at, end);
            bp_value_read v = bp_next_value(TILE, at, end);
            bp_words_read t = bp_read_tags(TILE, at, end, m.out, LENT), g = bp_read_geometry(TILE, at, end, m.out, LENT);
            wrong += f.refusal == 0 ? !inside : wrongly_refused(f.refusal, f.place, inside, o);
            wrong += k.refusal == 0 ? !inside : wrongly_refused(k.refusal, k.place, inside, o);
            wrong += v.refusal == 0 ? !inside : wrongly_refused(v.refusal, v.place, inside, o);
            wrong += t.refusal == 0 || t.refusal == BP_ROOM ? !inside : wrongly_refused(t.refusal, t.place, inside, o);
            wrong += g.refusal == 0 || g.refusal == BP_ROOM ? !inside : wrongly_refused(g.refusal, g.place, inside, o);
            beyond += f.is_there && (f.start < at || f.end < f.start || end < f.end);
            beyond += k.is_there && (k.start < at || end < k.start + k.len);
            beyond += v.is_there && (v.next < at || end < v.next || end < v.start + v.len || v.kind > 7);
            beyond += LENT < t.count || LENT < g.count;
        }
    }
    SAME(0, wrong);
    SAME(0, beyond);
}

static void faults(void)
{
    for (size_t i = 0; i < COUNT(vectors); i++) {
        const struct vector *v = &vectors[i];
        take(v->hex);
        bp_opened o = bp_open(TILE);
        int failed = failures;
        if (v->place == GOOD)
            OPENED(o, BP_ACCEPTED, 0, (size_t)v->layers);
        else
            OPENED(o, BP_WIRE, (size_t)v->place, 0);
        any_places(o);
        if (failed != failures)
            printf("the tile is %s\n", v->hex);
    }
}

/* ---- where things stand */

/* Document 01's tile: the layer "a", extent 4096, without features. */
static void empty_layer(void)
{
    take("1a08 0a0161 288020 7802");
    OPENED(bp_open(TILE), BP_ACCEPTED, 0, 1);
    LAYER(bp_next_layer(TILE, 0), IS, 2, 4096, 4, 1, 0, 0, 0, 2, 10);
    LAYER(bp_next_layer(TILE, 10), NONE);
    LAYER(bp_next_layer(TILE, 11), NO_PLACE);
    FEATURE(bp_next_feature(TILE, 2, 10), NONE);
    KEY(bp_next_key(TILE, 2, 10), NONE);
    VALUE(bp_next_value(TILE, 2, 10), NONE);
    FEATURE(bp_next_feature(TILE, 10, 10), NONE);
    KEY(bp_next_key(TILE, 10, 10), NONE);
    VALUE(bp_next_value(TILE, 10, 10), NONE);
    /* what is in the layer has the shape of a tile's fields that are not known; the bytes at 1, 3, 4, 6, 7 and 9 are nobody's fields */
    static const uint8_t taken[] = {2, 5, 8}, not_taken[] = {1, 3, 4, 6, 7, 9};
    for (size_t i = 0; i < COUNT(taken); i++)
        LAYER(bp_next_layer(TILE, taken[i]), NONE);
    for (size_t i = 0; i < COUNT(not_taken); i++) {
        LAYER(bp_next_layer(TILE, not_taken[i]), NO_PLACE);
        REFUSED_AT(BP_STATE, 0, not_taken[i], 10);
    }
    REFUSED_AT(BP_STATE, 0, 2, 9); /* an end inside of a field */
    REFUSED_AT(BP_STATE, 0, 5, 4);
    REFUSED_AT(BP_STATE, 0, 10, 11);
    REFUSED_AT(BP_STATE, 0, 11, 11);
    REFUSED_AT(BP_STATE, 0, 2, (size_t)-1);
    REFUSED_AT(BP_STATE, 0, (size_t)-1, 10);
}

/* A layer with its fields in any order: two features, two keys, two values, the name last. */
static void any_order(void)
{
    take("1a4d 1214 2208 0904041200101000 1204 00010100 1802 0807 7802 2208 0a06504520313030 1a08 6469616d65746572 1207 1801 2203 090404 2202 286e 288020 1a08 "
         "6d6174657269616c 0a05 6475637473");
    OPENED(bp_open(TILE), BP_ACCEPTED, 0, 1);
    LAYER(bp_next_layer(TILE, 0), IS, 2, 4096, 74, 5, 2, 2, 2, 2, 79);
    SAME(0, memcmp(tile + 74, "ducts", 5));
    LAYER(bp_next_layer(TILE, 79), NONE);
    FEATURE(bp_next_feature(TILE, 2, 79), IS, 1, 2, 7, 4, 8, 4, 24);
    FEATURE(bp_next_feature(TILE, 24, 79), IS, 0, 1, 0, 0, 3, 48, 55);
    FEATURE(bp_next_feature(TILE, 55, 79), NONE);
    KEY(bp_next_key(TILE, 2, 79), IS, 38, 8);
    KEY(bp_next_key(TILE, 46, 79), IS, 64, 8);
    KEY(bp_next_key(TILE, 72, 79), NONE);
    VALUE(bp_next_value(TILE, 2, 79), IS, 1, 30, 6, 0, 36);
    VALUE(bp_next_value(TILE, 36, 79), IS, 5, 0, 0, 110, 59);
    VALUE(bp_next_value(TILE, 59, 79), NONE);
    /* an end at a field's counts as the layer's */
    FEATURE(bp_next_feature(TILE, 24, 46), NONE);
    KEY(bp_next_key(TILE, 46, 62), NONE);

    static const uint32_t tags[] = {0, 1, 1, 0}, line[] = {9, 4, 4, 18, 0, 16, 16, 0}, point[] = {9, 4, 4};
    fill();
    WORDS(bp_read_tags(TILE, 4, 24, m.out, 3), BP_ROOM, 0, 0);
    WORDS(bp_read_tags(TILE, 4, 24, m.out, 0), BP_ROOM, 0, 0);
    WORDS(bp_read_tags_in(TILE, 4, 24, NULL, 0), BP_ROOM, 0, 0);
    WORDS(bp_read_geometry(TILE, 4, 24, m.out, 7), BP_ROOM, 0, 0);
    WORDS(bp_read_geometry(TILE, 48, 55, m.out, 2), BP_ROOM, 0, 0);
    WORDS(bp_read_tags(TILE, 48, 55, m.out, LENT), BP_ACCEPTED, 0, 0);
    WORDS(bp_read_tags(TILE, 48, 55, m.out, 0), BP_ACCEPTED, 0, 0);
    WORDS(bp_read_tags_in(TILE, 48, 55, NULL, 0), BP_ACCEPTED, 0, 0);
    WORDS(bp_read_geometry(TILE, 24, 24, m.out, LENT), BP_ACCEPTED, 0, 0); /* no bytes are a feature without anything */
    written(__LINE__, NULL, 0);
    WORDS(bp_read_tags(TILE, 4, 24, m.out, 4), BP_ACCEPTED, 0, 4);
    written(__LINE__, tags, 4);
    fill();
    WORDS(bp_read_tags(TILE, 4, 24, m.out, LENT), BP_ACCEPTED, 0, 4);
    written(__LINE__, tags, 4);
    fill();
    WORDS(bp_read_geometry(TILE, 4, 24, m.out, 8), BP_ACCEPTED, 0, 8);
    written(__LINE__, line, 8);
    fill();
    WORDS(bp_read_geometry(TILE, 48, 55, m.out, 3), BP_ACCEPTED, 0, 3);
    written(__LINE__, point, 3);
    REFUSED_AT(BP_STATE, 0, 4, 23); /* a feature whose last number is cut off, and no layer's fields either */
    any_places(bp_open(TILE));
}

/* Numbers by themselves, in several lists and both, wide ones; all of them in their order. */
static void numbers(void)
{
    static const uint32_t seven[] = {0, 9, 4294967295u, 0, 3, 1, 7}, words[] = {9, 2, 4};
    /* tags 0, then packed 9, 2^64 - 1 and 2^32, then 3, then none, then packed 1 and 7; the geometry between them */
    take("1a27 1225 1000 2009 1210 09 ffffffffffffffffff01 8080808010 1003 2200 1200 2002 1202 0107 2201 04");
    OPENED(bp_open(TILE), BP_ACCEPTED, 0, 1);
    FEATURE(bp_next_feature(TILE, 2, len), IS, 0, 0, 0, 7, 3, 4, len);
    fill();
    WORDS(bp_read_tags(TILE, 4, len, m.out, 6), BP_ROOM, 0, 0);
    written(__LINE__, NULL, 0);
    WORDS(bp_read_tags(TILE, 4, len, m.out, 7), BP_ACCEPTED, 0, 7);
    written(__LINE__, seven, 7);
    fill();
    WORDS(bp_read_geometry(TILE, 4, len, m.out, 2), BP_ROOM, 0, 0);
    written(__LINE__, NULL, 0);
    WORDS(bp_read_geometry(TILE, 4, len, m.out, 3), BP_ACCEPTED, 0, 3);
    written(__LINE__, words, 3);
    any_places(bp_open(TILE));
}

/* What stands in a layer or a feature twice counts as it stood last, and what is not there has its default. */
static void twice(void)
{
    take("1a15 7801 0a0161 2805 7803 0a026262 2a00 28808001");
    OPENED(bp_open(TILE), BP_WIRE, 15, 0); /* the extent as a text */
    take("1a15 7801 0a0161 2805 7803 0a026262 28 8080808010 3000");
    OPENED(bp_open(TILE), BP_ACCEPTED, 0, 1);
    LAYER(bp_next_layer(TILE, 0), IS, 3, 0, 13, 2, 0, 0, 0, 2, 23); /* an extent of 2^32 */
    take("1a00 1a0e 120c 0801 1801 0800 18 ffffffff1f");
    OPENED(bp_open(TILE), BP_ACCEPTED, 0, 2);
    LAYER(bp_next_layer(TILE, 0), IS, 1, 4096, 0, 0, 0, 0, 0, 2, 2);
    LAYER(bp_next_layer(TILE, 2), IS, 1, 4096, 0, 0, 0, 0, 1, 4, 18);
    FEATURE(bp_next_feature(TILE, 4, 18), IS, 1, 4294967295u, 0, 0, 0, 6, 18);
    any_places(bp_open(TILE));
    take("1a08 1200 12020800 1a00");
    FEATURE(bp_next_feature(TILE, 2, 10), IS, 0, 0, 0, 0, 0, 4, 4);
    FEATURE(bp_next_feature(TILE, 4, 10), IS, 1, 0, 0, 0, 0, 6, 8);
    FEATURE(bp_next_feature(TILE, 8, 10), NONE);
    KEY(bp_next_key(TILE, 2, 10), IS, 10, 0);
    KEY(bp_next_key(TILE, 10, 10), NONE);
}

/* A value alone in a layer. */
static void value_in(int line, const char *hex, uint32_t kind, size_t start, size_t text, uint64_t bits)
{
    char all[128];
    snprintf(all, sizeof all, "1a%02x22%02x%s", (unsigned)strlen(hex) / 2 + 2, (unsigned)strlen(hex) / 2, hex);
    take(all);
    opened_is(line, bp_open(TILE), BP_ACCEPTED, 0, 1);
    value_is(line, bp_next_value(TILE, 2, len), (bp_value_read){IS, kind, start, text, bits, len});
    value_is(line, bp_next_value(TILE, len, len), (bp_value_read){NONE});
    any_places(bp_open(TILE));
}
#define VALUE_IN(...) value_in(__LINE__, __VA_ARGS__)

static void values(void)
{
    VALUE_IN("", 0, 0, 0, 0);
    VALUE_IN("4001", 0, 0, 0, 0); /* a field that is not known */
    VALUE_IN("0a00", 1, 6, 0, 0);
    VALUE_IN("0a03c0ff00", 1, 6, 3, 0); /* no UTF-8, and a zero inside */
    VALUE_IN("150000c03f", 2, 0, 0, 0x3FC00000);
    VALUE_IN("15010000ff", 2, 0, 0, 0xFF000001);
    VALUE_IN("19000000000000f43f", 3, 0, 0, 0x3FF4000000000000);
    VALUE_IN("190100000000000080", 3, 0, 0, 0x8000000000000001);
    VALUE_IN("2003", 4, 0, 0, 3);
    VALUE_IN("20f1ffffffffffffffff01", 4, 0, 0, (uint64_t)-15);
    VALUE_IN("28ffffffffffffffffff01", 5, 0, 0, UINT64_MAX);
    VALUE_IN("3000", 6, 0, 0, 0);
    VALUE_IN("301d", 6, 0, 0, (uint64_t)-15);
    VALUE_IN("301e", 6, 0, 0, 15);
    VALUE_IN("30ffffffffffffffffff01", 6, 0, 0, (uint64_t)INT64_MIN);
    VALUE_IN("30feffffffffffffffff01", 6, 0, 0, INT64_MAX);
    VALUE_IN("3800", 7, 0, 0, 0);
    VALUE_IN("3801", 7, 0, 0, 1);
    VALUE_IN("3802", 7, 0, 0, 1);
    VALUE_IN("388080808010", 7, 0, 0, 1);
    VALUE_IN("3801286e0a0141", 1, 10, 1, 0);  /* of several kinds the lowest */
    VALUE_IN("301d20033001", 4, 0, 0, 3);
    VALUE_IN("28012802", 5, 0, 0, 2);         /* of one kind the last */
    VALUE_IN("0a01410a024243", 1, 9, 2, 0);
}

/* Bad tiles: what stands before the fault may be read, what has the fault is refused with its place. */
static void bad(void)
{
    take("1a0e 7802 0a056475637473 1a09646961 0a046d657465"); /* a key that runs past its layer */
    OPENED(bp_open(TILE), BP_WIRE, 12, 0);
    LAYER(bp_next_layer(TILE, 0), WIRE_AT(12));
    KEY(bp_next_key(TILE, 2, 11), NONE); /* before the fault nothing is wrong */
    KEY(bp_next_key(TILE, 2, 16), WIRE_AT(12));
    FEATURE(bp_next_feature(TILE, 2, 16), WIRE_AT(12));
    VALUE(bp_next_value(TILE, 2, 16), WIRE_AT(12));
    REFUSED_AT(BP_WIRE, 12, 3, 16);
    REFUSED_AT(BP_STATE, 0, 23, 23); /* places beyond the bytes come first */
    REFUSED_AT(BP_STATE, 0, 3, 2);
    take("1a06 1204 2202 8080"); /* in a feature's geometry: layers do not look into it, nor do keys */
    OPENED(bp_open(TILE), BP_WIRE, 7, 0);
    LAYER(bp_next_layer(TILE, 0), IS, 1, 4096, 0, 0, 0, 0, 1, 2, 8);
    FEATURE(bp_next_feature(TILE, 2, 8), WIRE_AT(7));
    KEY(bp_next_key(TILE, 2, 8), NONE);
    VALUE(bp_next_value(TILE, 2, 8), NONE);
    fill();
    WORDS(bp_read_tags(TILE, 4, 8, m.out, LENT), BP_WIRE, 7, 0);
    WORDS(bp_read_geometry(TILE, 4, 8, m.out, LENT), BP_WIRE, 7, 0);
    WORDS(bp_read_geometry(TILE, 4, 8, m.out, 0), BP_WIRE, 7, 0); /* before ROOM */
    written(__LINE__, NULL, 0);
    take("1a05 2203 288080"); /* in a value */
    OPENED(bp_open(TILE), BP_WIRE, 6, 0);
    LAYER(bp_next_layer(TILE, 0), IS, 1, 4096, 0, 0, 0, 1, 0, 2, 7);
    FEATURE(bp_next_feature(TILE, 2, 7), NONE);
    VALUE(bp_next_value(TILE, 2, 7), WIRE_AT(6));
    take("1a08 0a0161 288020 7802 1b"); /* behind a good layer: the layer is read, and the next is refused */
    OPENED(bp_open(TILE), BP_WIRE, 10, 0);
    LAYER(bp_next_layer(TILE, 0), IS, 2, 4096, 4, 1, 0, 0, 0, 2, 10);
    LAYER(bp_next_layer(TILE, 10), WIRE_AT(10));
    LAYER(bp_next_layer(TILE, 1), WIRE_AT(10));
    LAYER(bp_next_layer(TILE, 12), NO_PLACE);
    any_places(bp_open(TILE));
}

/* No bytes, and no address for them. */
static void nothing(void)
{
    fill();
    OPENED(bp_open_in(NULL, 0), BP_ACCEPTED, 0, 0);
    LAYER(bp_next_layer_in(NULL, 0, 0), NONE);
    LAYER(bp_next_layer_in(NULL, 0, 1), NO_PLACE);
    FEATURE(bp_next_feature_in(NULL, 0, 0, 0), NONE);
    FEATURE(bp_next_feature_in(NULL, 0, 0, 1), NO_PLACE);
    KEY(bp_next_key_in(NULL, 0, 0, 0), NONE);
    VALUE(bp_next_value_in(NULL, 0, 0, 0), NONE);
    WORDS(bp_read_tags_in(NULL, 0, 0, 0, NULL, 0), BP_ACCEPTED, 0, 0);
    WORDS(bp_read_geometry_in(NULL, 0, 0, 0, m.out, LENT), BP_ACCEPTED, 0, 0);
    WORDS(bp_read_geometry_in(NULL, 0, 1, 0, m.out, LENT), BP_STATE, 0, 0);
    written(__LINE__, NULL, 0);
}

/* ---- a tile that libbrinepost_tiles.a wrote */
#define TEXT(text) (const uint8_t *)(text), sizeof(text) - 1
static const struct given_value {
    uint32_t kind;
    const char *text;
    uint64_t bits;
} given_values[] = {
    {1, "PE 100", 0},           {2, NULL, 0x80000001}, {3, NULL, 0xFFF8000000000001}, {4, NULL, (uint64_t)-5}, {5, NULL, UINT64_MAX},
    {6, NULL, (uint64_t)INT64_MIN}, {7, NULL, 1},      {1, "", 0},                    {7, NULL, 0},
};
static const char *const given_keys[] = {"text", "float", "double", "int", "uint", "sint", "bool"};
static uint32_t long_words[400];
static const struct given_feature {
    uint32_t kind, has_id;
    uint64_t id;
    const uint32_t *words;
    size_t words_len;
    uint32_t tags[14]; /* pairs of indices, of a key and of a value, in the order in which they are new */
    size_t tags_len;
} given_features[] = {
    {BP_LINE, 1, UINT64_MAX, (const uint32_t[]){9, 4, 4, 18, 0, 16, 16, 0}, 8, {0, 0, 1, 1, 2, 2, 3, 3, 4, 4, 5, 5, 6, 6}, 14},
    {BP_POINT, 0, 0, long_words, COUNT(long_words), {0, 7, 6, 8, 3, 0}, 6},
    {BP_POLYGON, 1, 0, long_words, 0, {0}, 0},
};

static bp_changed tag(bp_layer s, const char *name, struct given_value v, const bp_lists *lists)
{
    const uint8_t *key = (const uint8_t *)name;
    size_t key_len = strlen(name);
    switch (v.kind) {
    case 1: return bp_add_tag_string_in(s, key, key_len, (const uint8_t *)v.text, strlen(v.text), lists);
    case 2: return bp_add_tag_float_in(s, key, key_len, (uint32_t)v.bits, lists);
    case 3: return bp_add_tag_double_in(s, key, key_len, v.bits, lists);
    case 4: return bp_add_tag_int_in(s, key, key_len, (int64_t)v.bits, lists);
    case 5: return bp_add_tag_uint_in(s, key, key_len, v.bits, lists);
    case 6: return bp_add_tag_sint_in(s, key, key_len, (int64_t)v.bits, lists);
    }
    return bp_add_tag_bool_in(s, key, key_len, (uint32_t)v.bits, lists);
}

/* Two layers of extent 512, "ducts" with what is given above and one with a name alone, as the tile that is read. */
static void write_tile(void)
{
    static uint32_t keys[16], records[512], names[4], entries[30];
    static uint8_t texts[64];
    const bp_lists lists = {keys, COUNT(keys), entries, COUNT(entries), texts, sizeof texts, records, COUNT(records)};
    const bp_tile_lists tile_lists = {names, COUNT(names), tile, sizeof tile};
    for (size_t i = 0; i < COUNT(long_words); i++)
        long_words[i] = (uint32_t)(i * i * 27000); /* of one byte to five */
    bp_tile t = bp_tile_new(512);
    bp_changed c = bp_create_layer_in(t, TEXT("ducts"), &lists);
    for (size_t i = 0; i < COUNT(given_features); i++) {
        const struct given_feature *g = &given_features[i];
        SAME(0, (c = bp_into_feature_in(c.layer, g->kind, g->words, g->words_len, &lists)).refusal);
        if (g->has_id)
            SAME(0, (c = bp_set_id_in(c.layer, g->id, &lists)).refusal);
        for (size_t j = 0; j < g->tags_len; j += 2)
            SAME(0, (c = tag(c.layer, given_keys[g->tags[j]], given_values[g->tags[j + 1]], &lists)).refusal);
        SAME(0, (c = bp_into_layer_in(c.layer, &lists)).refusal);
    }
    bp_added a = bp_add_layer_in(t, c.layer, &lists, &tile_lists);
    SAME(0, a.refusal);
    c = bp_create_layer_in(t, TEXT("\xE0\xA4\xA8"), &lists);
    a = bp_add_layer_in(a.tile, c.layer, &lists, &tile_lists);
    SAME(0, a.refusal);
    len = a.tile.used;
}

static void read_tile(void)
{
    static uint32_t read[COUNT(long_words)];
    write_tile();
    OPENED(bp_open(TILE), BP_ACCEPTED, 0, 2);
    bp_layer_read l = bp_next_layer(TILE, 0);
    LAYER(l, IS, 2, 512, 5, 5, COUNT(given_keys), COUNT(given_values), COUNT(given_features), 3, l.end);
    SAME(0, memcmp(tile + l.name_start, "ducts", 5));
    size_t at = l.start;
    for (size_t i = 0; i < COUNT(given_features); i++) {
        const struct given_feature *g = &given_features[i];
        bp_feature_read f = bp_next_feature(TILE, at, l.end);
        FEATURE(f, IS, g->has_id, g->kind, g->id, g->tags_len, g->words_len, f.start, f.end);
        WORDS(bp_read_tags(TILE, f.start, f.end, read, COUNT(read)), BP_ACCEPTED, 0, g->tags_len);
        SAME(0, memcmp(read, g->tags, 4 * g->tags_len));
        WORDS(bp_read_geometry(TILE, f.start, f.end, read, g->words_len), BP_ACCEPTED, 0, g->words_len);
        SAME(0, memcmp(read, g->words, 4 * g->words_len));
        at = f.end;
    }
    FEATURE(bp_next_feature(TILE, at, l.end), NONE);
    at = l.start;
    for (size_t i = 0; i < COUNT(given_keys); i++) {
        bp_key_read k = bp_next_key(TILE, at, l.end);
        KEY(k, IS, k.start, strlen(given_keys[i]));
        SAME(0, memcmp(tile + k.start, given_keys[i], strlen(given_keys[i])));
        at = k.start + k.len;
    }
    KEY(bp_next_key(TILE, at, l.end), NONE);
    at = l.start;
    for (size_t i = 0; i < COUNT(given_values); i++) {
        const struct given_value *g = &given_values[i];
        bp_value_read v = bp_next_value(TILE, at, l.end);
        VALUE(v, IS, g->kind, v.start, g->text ? strlen(g->text) : 0, g->bits, v.next);
        if (g->text)
            SAME(0, memcmp(tile + v.start, g->text, v.len));
        at = v.next;
    }
    VALUE(bp_next_value(TILE, at, l.end), NONE);
    bp_layer_read second = bp_next_layer(TILE, l.end);
    LAYER(second, IS, 2, 512, second.start + 2, 3, 0, 0, 0, l.end + 2, len);
    SAME(0, memcmp(tile + second.name_start, "\xE0\xA4\xA8", 3));
    LAYER(bp_next_layer(TILE, second.end), NONE);
    /* cut anywhere it only ends too early, but where the first layer ends and before it begins */
    for (size_t all = len, n = 0; n < all; n++) {
        len = n;
        if (n == 0 || n == l.end)
            OPENED(bp_open(TILE), BP_ACCEPTED, 0, n == 0 ? 0 : 1);
        else
            OPENED(bp_open(TILE), BP_WIRE, n, 0);
    }
}

int main(void)
{
    SAME(BP_VERSION, bp_reader_version());
    SAME(BP_VERSION, bp_tiles_version());
    SAME(BP_VERSION, bp_version());
    faults();
    empty_layer();
    any_order();
    numbers();
    twice();
    values();
    bad();
    nothing();
    read_tile();
    return ended("reading tiles");
}
