/* What the C tests of texts and of strict layers share: the lent lists with guards between them, and calls that are accepted, or refused with every list as it
 * was. Stands behind check.h. */
static struct memory {
    uint8_t guard0[16];
    uint32_t keys[16];
    uint8_t guard1[16];
    uint32_t values[24];
    uint8_t guard2[16];
    uint8_t texts[64];
    uint8_t guard3[16];
    uint32_t features[64];
    uint8_t guard4[16];
    uint32_t names[4];
    uint8_t guard5[16];
    uint8_t bytes[256];
    uint8_t guard6[16];
    uint32_t key_index[16];
    uint8_t guard7[16];
    uint32_t value_index[16];
    uint8_t guard8[16];
} m, before;
#define LISTS m.keys, COUNT(m.keys), m.values, COUNT(m.values), m.texts, COUNT(m.texts), m.features, COUNT(m.features)
#define INDEX m.key_index, COUNT(m.key_index), m.value_index, COUNT(m.value_index)
#define TILE m.names, COUNT(m.names), m.bytes, COUNT(m.bytes)
#define TEXT(text) (const uint8_t *)(text), sizeof(text) - 1

static const bp_layer none = {.name = 1}; /* what a refused new layer gives */
static const uint32_t words[64] = {9, 2, 4};
static const char *what = "refusal"; /* what is given now */

static void given_back(int line, uint32_t refusal, bp_layer s, bp_changed c)
{
    same(what, line, refusal, c.refusal);
    same("the layer given back", line, 0, layers_differ(s, c.layer));
    same("the lists", line, 0, memcmp(&m, &before, sizeof m));
}
#define REFUSED(refusal, s, call) (before = m, given_back(__LINE__, refusal, s, call))

/* Whether a guard is not as every test fills the memory. */
static int guards_differ(void)
{
    const uint8_t *const guards[] = {m.guard0, m.guard1, m.guard2, m.guard3, m.guard4, m.guard5, m.guard6, m.guard7, m.guard8};
    for (size_t i = 0; i < COUNT(guards); i++)
        for (size_t j = 0; j < sizeof m.guard0; j++)
            if (guards[i][j] != 0xA5)
                return 1;
    return 0;
}

static bp_layer accepted(int line, bp_changed c)
{
    same(what, line, 0, c.refusal);
    same("the guards", line, 0, guards_differ());
    return c.layer;
}
#define ACCEPTED(call) accepted(__LINE__, call)

/* A tag of this key by the call for this kind of value; a text is "v". */
static bp_changed tag(uint32_t kind, bp_layer s, const uint8_t *key, size_t key_len)
{
    switch (kind) {
    case 1: return bp_add_tag_string(s, key, key_len, TEXT("v"), LISTS);
    case 2: return bp_add_tag_float(s, key, key_len, 1, LISTS);
    case 3: return bp_add_tag_double(s, key, key_len, 1, LISTS);
    case 4: return bp_add_tag_int(s, key, key_len, 1, LISTS);
    case 5: return bp_add_tag_uint(s, key, key_len, 1, LISTS);
    case 6: return bp_add_tag_sint(s, key, key_len, 1, LISTS);
    }
    return bp_add_tag_bool(s, key, key_len, 1, LISTS);
}

/* A feature by its own call, and as the only one and the first of two of many. */
static void refused_feature(int line, uint32_t refusal, bp_layer s, uint32_t kind, size_t words_len, const uint32_t *tags, size_t tags_len,
                            const uint8_t *bytes, size_t bytes_len)
{
    const uint32_t heads[] = {kind, 0, 0, 0, words_len, tags_len, 1, 0, 0, 0, 0, 0};
    before = m;
    given_back(line, refusal, s, bp_add_feature(s, kind, 0, 0, words, words_len, tags, tags_len, bytes, bytes_len, LISTS));
    for (size_t heads_len = 6; heads_len <= 12; heads_len += 6) {
        bp_many a = bp_add_features(s, heads, heads_len, words, words_len, tags, tags_len, bytes, bytes_len, LISTS, INDEX);
        given_back(line, refusal, s, (bp_changed){a.refusal, a.layer});
        same("the count", line, 0, a.count);
    }
}
#define REFUSED_FEATURE(refusal, ...) refused_feature(__LINE__, refusal, __VA_ARGS__)
