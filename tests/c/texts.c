/* Texts from C: each call that is given a name, a key or a text refuses one that is not UTF-8, at its turn among the checks, and writes nothing. What is UTF-8
 * is stored byte for byte, whatever it says, and texts that a layer holds already are not asked. */
#include "brinepost.h"
#include "check.h"
#include "layers.h"

struct text {
    const char *what;
    const uint8_t *bytes;
    size_t len;
};
#define OF(t) (t).bytes, (t).len

static const struct text ill[] = {
    {"the first surrogate", TEXT("\xED\xA0\x80")},
    {"the last surrogate", TEXT("\xED\xBF\xBF")},
    {"two surrogates for one character", TEXT("\xED\xA0\xBD\xED\xB8\x80")},
    {"a slash in two bytes", TEXT("\xC0\xAF")},
    {"a slash in three bytes", TEXT("\xE0\x80\xAF")},
    {"a slash in four bytes", TEXT("\xF0\x80\x80\xAF")},
    {"U+0000 in two bytes", TEXT("\xC0\x80")},
    {"U+007F in two bytes", TEXT("\xC1\xBF")},
    {"U+07FF in three bytes", TEXT("\xE0\x9F\xBF")},
    {"U+FFFF in four bytes", TEXT("\xF0\x8F\xBF\xBF")},
    {"the first above U+10FFFF", TEXT("\xF4\x90\x80\x80")},
    {"a first byte above F4", TEXT("\xF5\x80\x80\x80")},
    {"a form of five bytes", TEXT("\xF8\x88\x80\x80\x80")},
    {"FE", TEXT("\xFE")},
    {"FF", TEXT("\xFF")},
    {"one of two bytes", TEXT("\xC3")},
    {"one of three bytes", TEXT("\xE2")},
    {"two of three bytes", TEXT("\xE2\x82")},
    {"three of four bytes", TEXT("\xF0\x9F\x98")},
    {"two of three bytes, and another character", TEXT("\xE2\x82\xC3\xA9")},
    {"a second byte that is none", TEXT("\xC3\xC0")},
    {"a third byte that is none", TEXT("\xE2\x82\x7F")},
    {"a fourth byte that is none", TEXT("\xF1\x80\x80\xC0")},
    {"80 alone", TEXT("\x80")},
    {"BF behind a character", TEXT("\xC3\xA9\xBF")},
    {"a street in Latin-1", TEXT("Stra\xDF" "e")},
};

static const struct text good[] = {
    {"nothing", TEXT("")},
    {"U+0000", TEXT("\0")},
    {"U+0000 between letters", TEXT("a\0b")},
    {"U+007F", TEXT("\x7F")},
    {"U+0080", TEXT("\xC2\x80")},
    {"U+07FF", TEXT("\xDF\xBF")},
    {"U+0800", TEXT("\xE0\xA0\x80")},
    {"the last before the surrogates", TEXT("\xED\x9F\xBF")},
    {"the first behind the surrogates", TEXT("\xEE\x80\x80")},
    {"a byte order mark", TEXT("\xEF\xBB\xBF")},
    {"the noncharacter U+FDD0", TEXT("\xEF\xB7\x90")},
    {"the noncharacter U+FFFF", TEXT("\xEF\xBF\xBF")},
    {"U+10000", TEXT("\xF0\x90\x80\x80")},
    {"U+10FFFF", TEXT("\xF4\x8F\xBF\xBF")},
    {"a street in UTF-8", TEXT("Stra\xC3\x9F" "e")},
    {"Devanagari", TEXT("\xE0\xA4\xB8\xE0\xA4\xA1\xE0\xA4\xBC\xE0\xA4\x95")},
};

/* The layer "ab" without features, and with an open one. */
static bp_layer fresh(void)
{
    memset(&m, 0xA5, sizeof m);
    return ACCEPTED(bp_layer_new(TEXT("ab"), 4096, m.texts, COUNT(m.texts)));
}

static bp_layer opened(void)
{
    return ACCEPTED(bp_into_feature(fresh(), BP_POINT, words, 3, LISTS));
}

/* Each text that is none, wherever a call takes one. */
static void ill_formed(void)
{
    for (size_t i = 0; i < COUNT(ill); i++) {
        const uint32_t len = ill[i].len, key[] = {len, 1, 5, 7, 0, 0, len, 5, 8, 0}, text[] = {len, 1, 5, 7, 0, len, 1, 1, 0, len};
        uint8_t bytes[16];
        what = ill[i].what;
        bp_layer shut = fresh();
        REFUSED(BP_UTF8, none, bp_layer_new(OF(ill[i]), 4096, m.texts, COUNT(m.texts)));
        REFUSED(BP_UTF8, none, bp_create_layer(bp_tile_new(4096), OF(ill[i]), m.texts, COUNT(m.texts)));
        memcpy(bytes, ill[i].bytes, len), bytes[len] = 'k';
        REFUSED_FEATURE(BP_UTF8, shut, BP_POINT, 3, key, 10, bytes, len + 1);
        REFUSED_FEATURE(BP_UTF8, shut, BP_POINT, 3, text, 10, bytes, len + 1);
        bp_layer open = opened();
        for (uint32_t kind = 1; kind <= 7; kind++)
            REFUSED(BP_UTF8, open, tag(kind, open, OF(ill[i])));
        REFUSED(BP_UTF8, open, bp_add_tag_string(open, TEXT("k"), OF(ill[i]), LISTS));
    }
}

/* Behind up to eight letters, and with none to four behind it. */
static void anywhere(void)
{
    bp_layer open = opened();
    for (size_t i = 0; i < COUNT(ill); i++)
        for (size_t at = 0; at <= 8; at++)
            for (size_t behind = 0; behind <= 4; behind++) {
                uint8_t bytes[24];
                memset(bytes, 'a', sizeof bytes), memcpy(bytes + at, ill[i].bytes, ill[i].len);
                what = ill[i].what;
                REFUSED(BP_UTF8, none, bp_layer_new(bytes, at + ill[i].len + behind, 4096, m.texts, COUNT(m.texts)));
                REFUSED(BP_UTF8, open, bp_add_tag_string(open, TEXT("k"), bytes, at + ill[i].len + behind, LISTS));
            }
}

/* Each text that is one, as a name, as a key of each call and as a text: they stand in `texts` as they were given, and the name in the tile. */
static void well_formed(void)
{
    for (size_t i = 0; i < COUNT(good); i++) {
        const size_t len = good[i].len;
        const uint32_t tags[] = {0, len, 1, 0, len};
        uint8_t texts[64];
        what = good[i].what;
        fresh();
        SAME(0, bp_layer_new(OF(good[i]), 4096, m.texts, len).refusal);
        bp_layer s = ACCEPTED(bp_create_layer(bp_tile_new(4096), OF(good[i]), m.texts, COUNT(m.texts)));
        s = ACCEPTED(bp_into_feature(s, BP_POINT, words, 3, LISTS));
        for (uint32_t kind = 1; kind <= 7; kind++)
            s = ACCEPTED(tag(kind, s, OF(good[i])));
        s = ACCEPTED(bp_add_tag_string(s, TEXT("k"), OF(good[i]), LISTS));
        memcpy(texts, good[i].bytes, len), memcpy(texts + len, good[i].bytes, len), memcpy(texts + 2 * len, "vk", 2);
        memcpy(texts + 2 * len + 2, good[i].bytes, len);
        SAME(3 * len + 2, s.used.texts), SAME(0, memcmp(texts, m.texts, 3 * len + 2)), SAME(2, s.used.keys), SAME(8, s.used.values);
        s = ACCEPTED(bp_into_layer(s, LISTS));
        s = ACCEPTED(bp_add_feature(s, BP_POINT, 0, 0, words, 3, tags, 5, OF(good[i]), LISTS));
        bp_many a = bp_add_features(s, (const uint32_t[]){1, 0, 0, 0, 3, 5}, 6, words, 3, tags, 5, OF(good[i]), LISTS, INDEX);
        SAME(0, a.refusal), SAME(3 * len + 2, a.layer.used.texts); /* key and text are there already */
        bp_added t = bp_add_layer(bp_tile_new(4096), a.layer, LISTS, TILE);
        SAME(0, t.refusal), SAME(1, t.refusal == 0 && m.names[1] == len && memcmp(good[i].bytes, m.bytes + m.names[0], len) == 0);
    }
}

/* One character written in two ways is two keys. */
static void as_it_is(void)
{
    bp_layer s = ACCEPTED(tag(7, opened(), TEXT("\xC3\xA9")));
    s = ACCEPTED(tag(7, s, TEXT("e\xCC\x81")));
    SAME(2, s.used.keys), SAME(1, s.used.values);
}

/* The checks in their order: where two fail the first is told. Bytes 0 and 1 are letters, 2 is no text, and from 3 on there are 1,025 letters. */
static uint8_t letters[3 + BP_MAX_TEXT + 1];
#define LONG letters + 3, BP_MAX_TEXT + 1

static void order_of_names(void)
{
    bp_tile t = bp_tile_new(4096);
    letters[2 + BP_MAX_TEXT] = 0xDF; /* the last but one of the long text: of 1,024 bytes the last */
    REFUSED(BP_TEXT, none, bp_layer_new(LONG, 4096, m.texts, COUNT(m.texts)));
    REFUSED(BP_TEXT, none, bp_create_layer(t, LONG, m.texts, COUNT(m.texts)));
    REFUSED(BP_UTF8, none, bp_layer_new(letters + 3, BP_MAX_TEXT, 4096, m.texts, COUNT(m.texts))); /* UTF8 before ROOM */
    REFUSED(BP_UTF8, none, bp_create_layer(t, letters + 3, BP_MAX_TEXT, m.texts, COUNT(m.texts)));
    REFUSED(BP_ROOM, none, bp_layer_new(letters + 3, BP_MAX_TEXT - 1, 4096, m.texts, COUNT(m.texts)));
    REFUSED(BP_ROOM, none, bp_create_layer(t, letters + 3, BP_MAX_TEXT - 1, m.texts, COUNT(m.texts)));
    letters[2 + BP_MAX_TEXT] = 'a';
}

static void order_of_tags(void)
{
    bp_layer shut = fresh();
    for (uint32_t kind = 1; kind <= 7; kind++) {
        REFUSED(BP_TEXT, shut, tag(kind, shut, letters + 2, BP_MAX_TEXT + 1));
        REFUSED(BP_UTF8, shut, tag(kind, shut, TEXT("\xDF"))); /* UTF8 before TURN */
        REFUSED(BP_TURN, shut, tag(kind, shut, TEXT("k")));
    }
    REFUSED(BP_UTF8, shut, bp_add_tag_string(shut, TEXT("k"), TEXT("\xDF"), LISTS));
    bp_layer open = opened();
    REFUSED(BP_TEXT, open, bp_add_tag_string(open, TEXT("\xDF"), LONG, LISTS)); /* TEXT of either before UTF8 of either */
    REFUSED(BP_TEXT, open, bp_add_tag_string(open, LONG, TEXT("\xDF"), LISTS));
    REFUSED(BP_UTF8, open, bp_add_tag_string(open, TEXT("\xDF"), TEXT("\xDF"), LISTS));
    bp_layer full = open;
    for (size_t i = 0; i < COUNT(m.keys) / 2; i++)
        full = ACCEPTED(tag(7, full, (const uint8_t *)"abcdefgh" + i, 1));
    bp_layer bad = full;
    bad.used.keys++;
    for (uint32_t kind = 1; kind <= 7; kind++) {
        REFUSED(BP_ROOM, full, tag(kind, full, TEXT("z")));
        REFUSED(BP_UTF8, full, tag(kind, full, TEXT("\xDF"))); /* UTF8 before ROOM */
        REFUSED(BP_STATE, bad, tag(kind, bad, TEXT("\xDF")));
    }
    REFUSED(BP_UTF8, full, bp_add_tag_string(full, TEXT("z"), TEXT("\xDF"), LISTS));
    REFUSED(BP_STATE, bad, bp_add_tag_string(bad, TEXT("z"), TEXT("\xDF"), LISTS));
}

/* Of whole features: the first tag of each list but `late` would be accepted by itself. */
static void order_of_features(void)
{
    static const uint32_t key[] = {0, 1, 5, 7, 0, 2, 1, 5, 7, 0}, text[] = {0, 1, 5, 7, 0, 1, 1, 1, 2, 1}, good_tags[] = {0, 1, 5, 7, 0, 1, 1, 5, 2, 1};
    static const uint32_t late[] = {2, 1, 1, 2, 1, 1, 1, 1, 3, 1025}, no_kind[] = {0, 1, 1, 2, 1, 1, 1, 8, 0, 0};
    bp_layer s = fresh(), bad = s;
    bad.used.keys = COUNT(m.keys);
    REFUSED_FEATURE(BP_JOB, s, BP_LINE, 3, no_kind, 10, letters, sizeof letters);
    REFUSED_FEATURE(BP_KIND, s, 0, 3, key, 10, letters, sizeof letters);
    REFUSED_FEATURE(BP_STATE, bad, BP_LINE, 3, key, 10, letters, sizeof letters);
    REFUSED_FEATURE(BP_TEXT, s, BP_LINE, 3, late, 10, letters, sizeof letters); /* TEXT of a later tag before UTF8 of an earlier one */
    REFUSED_FEATURE(BP_UTF8, s, BP_LINE, 3, text, 10, letters, sizeof letters);
    REFUSED_FEATURE(BP_UTF8, s, BP_LINE, 64, key, 10, letters, sizeof letters); /* UTF8 before ROOM */
    REFUSED_FEATURE(BP_ROOM, s, BP_LINE, 64, good_tags, 10, letters, sizeof letters);
    REFUSED_FEATURE(BP_UTF8, s, BP_LINE, 3, (const uint32_t[]){1, 1, 7, 1, 0}, 5, TEXT("\xC3\xA9")); /* a part of a character */
    ACCEPTED(bp_add_feature(s, BP_LINE, 0, 0, words, 3, good_tags, 10, letters, sizeof letters, LISTS)); /* a number's halves name no text */
    s = opened();
    REFUSED_FEATURE(BP_UTF8, s, BP_LINE, 3, text, 10, letters, sizeof letters); /* UTF8 before TURN */
    REFUSED_FEATURE(BP_TURN, s, BP_LINE, 3, good_tags, 10, letters, sizeof letters);
}

/* The second of three is refused for its second tag: what is left is the first alone. */
static void second(void)
{
    static const uint32_t heads[] = {1, 0, 0, 0, 1, 5, 2, 1, 7, 0, 1, 10, 3, 0, 0, 0, 1, 0};
    static const uint32_t key[] = {0, 1, 5, 7, 0, 1, 1, 5, 8, 0, 2, 1, 5, 9, 0}, text[] = {0, 1, 5, 7, 0, 1, 1, 5, 8, 0, 0, 1, 1, 2, 1};
    const uint32_t *const tags[] = {key, text};
    for (size_t i = 0; i < COUNT(tags); i++) {
        bp_many first = bp_add_features(fresh(), heads, 6, words, 1, tags[i], 5, letters, 3, LISTS, INDEX);
        before = m;
        bp_many a = bp_add_features(fresh(), heads, 18, words, 3, tags[i], 15, letters, 3, LISTS, INDEX);
        SAME(0, first.refusal), SAME(BP_UTF8, a.refusal), SAME(1, a.count);
        SAME(0, layers_differ(first.layer, a.layer)), SAME(0, memcmp(&before, &m, sizeof m));
    }
}

/* A layer as it may be stored under interface 4, its name, its key and its text in Latin-1: every call takes it, and it is written as it is. */
static bp_layer stored(void)
{
    memset(&m, 0xA5, sizeof m);
    bp_layer s = ACCEPTED(bp_layer_new(TEXT("Stra?e"), 4096, m.texts, COUNT(m.texts)));
    s = ACCEPTED(bp_into_feature(s, BP_POINT, words, 3, LISTS));
    s = ACCEPTED(bp_add_tag_string(s, TEXT("stra?e"), TEXT("Gro?"), LISTS));
    s = ACCEPTED(bp_into_layer(s, LISTS));
    for (size_t i = 0; i < s.used.texts; i++)
        if (m.texts[i] == '?')
            m.texts[i] = 0xDF;
    return s;
}

static void carried(void)
{
    static const uint32_t tags[] = {0, 1, 1, 1, 1};
    bp_layer s = stored(), open = ACCEPTED(bp_into_feature(s, BP_LINE, words, 3, LISTS));
    SAME(0, bp_num_features(s, LISTS).refusal), SAME(0, bp_num_tags(open, LISTS).refusal), SAME(0, bp_name(s, LISTS).refusal), SAME(6, bp_name(s, LISTS).len);
    open = ACCEPTED(bp_set_id(open, 7, LISTS));
    REFUSED(BP_UTF8, open, tag(5, open, TEXT("stra\xDF" "e"))); /* though that key is there */
    REFUSED(BP_UTF8, open, bp_add_tag_string(open, TEXT("k"), TEXT("Gro\xDF"), LISTS));
    for (uint32_t kind = 1; kind <= 7; kind++)
        open = ACCEPTED(tag(kind, open, TEXT("k")));
    ACCEPTED(bp_into_layer(open, LISTS)), ACCEPTED(bp_abandon(open, LISTS));
    ACCEPTED(bp_add_feature(s, BP_POINT, 0, 0, words, 3, tags, 5, TEXT("kd"), LISTS));
    SAME(0, bp_add_features(s, (const uint32_t[]){1, 0, 0, 0, 3, 5}, 6, words, 3, tags, 5, TEXT("kd"), LISTS, INDEX).refusal);
}

static void carried_out(void)
{
    static const uint8_t tile[] = {
        0x1A, 0x2A, 0x0A, 0x06, 'S', 't', 'r', 'a', 0xDF, 'e', 0x12, 0x0B, 0x12, 0x02, 0x00, 0x00, 0x18, 0x01, 0x22, 0x03, 0x09, 0x02,
        0x04, 0x1A, 0x06, 's', 't', 'r', 'a', 0xDF, 'e', 0x22, 0x06, 0x0A, 0x04, 'G', 'r', 'o', 0xDF, 0x28, 0x80, 0x20, 0x78, 0x02,
    };
    bp_layer s = stored();
    bp_tile t = bp_tile_new(4096);
    SAME(sizeof tile, bp_layer_size(t, s, LISTS).count);
    bp_added a = bp_add_layer(t, s, LISTS, TILE);
    SAME(0, a.refusal), SAME(sizeof tile, a.tile.used), SAME(0, memcmp(tile, m.bytes, sizeof tile));
    SAME(0, bp_to_bytes(a.tile, TILE).refusal);
    SAME(BP_NAME, bp_add_layer(a.tile, s, LISTS, TILE).refusal); /* found by its bytes */
}

int main(void)
{
    memset(letters, 'a', sizeof letters), letters[1] = 'b', letters[2] = 0xDF;
    ill_formed();
    anywhere();
    well_formed();
    what = "refusal";
    as_it_is();
    order_of_names();
    order_of_tags();
    order_of_features();
    second();
    carried();
    carried_out();
    return ended("texts");
}
