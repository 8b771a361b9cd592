/* Prints a tile, a file, by the calls of C as `./brinepost open` prints it: samples/NAME.open has what is expected of samples/NAME.mvt. */
#include "brinepost.h"
#include <inttypes.h>
#include <stdio.h>

static uint8_t bytes[1 << 18];
static uint32_t out[1 << 16];
static size_t len;

/* How many bytes a well-formed sequence at the front of a text has (the Unicode Standard, table 3-7), or 0. */
static size_t sequence(const uint8_t *s, size_t left)
{
    size_t n = s[0] < 0x80 ? 1 : s[0] < 0xC2 ? 0 : s[0] < 0xE0 ? 2 : s[0] < 0xF0 ? 3 : s[0] < 0xF5 ? 4 : 0;
    if (left < n)
        return 0;
    for (size_t i = 1; i < n; i++)
        if (s[i] < 0x80 || 0xBF < s[i])
            return 0;
    if ((s[0] == 0xE0 && s[1] < 0xA0) || (s[0] == 0xED && 0x9F < s[1]) || (s[0] == 0xF0 && s[1] < 0x90) || (s[0] == 0xF4 && 0x8F < s[1]))
        return 0;
    return n;
}

static void text(size_t start, size_t text_len)
{
    size_t good = 0, n;
    while (good < text_len && (n = sequence(bytes + start + good, text_len - good)) != 0)
        good += n;
    putchar('"');
    for (const uint8_t *s = bytes + start; s < bytes + start + text_len; s++)
        if (*s == '"' || *s == '\\')
            printf("\\%c", *s);
        else if ((0x20 <= *s && *s < 0x7F) || (0x80 <= *s && good == text_len))
            putchar(*s);
        else
            printf("\\x%02x", *s);
    putchar('"');
}

static void value(bp_value_read v)
{
    printf("value ");
    switch (v.kind) {
    case 0: printf("empty"); break;
    case 1: printf("text "), text(v.start, v.len); break;
    case 2: printf("float 0x%08" PRIx64, v.bits); break;
    case 3: printf("double 0x%016" PRIx64, v.bits); break;
    case 4: printf("int %" PRId64, (int64_t)v.bits); break;
    case 5: printf("uint %" PRIu64, v.bits); break;
    case 6: printf("sint %" PRId64, (int64_t)v.bits); break;
    default: printf("bool %s", v.bits ? "true" : "false");
    }
    putchar('\n');
}

static int words(const char *what, bp_words_read r, size_t count)
{
    printf("%s", what);
    for (size_t i = 0; i < r.count; i++)
        printf(" %" PRIu32, out[i]);
    putchar('\n');
    return r.refusal != 0 || r.count != count;
}

/* A layer, and how many of its parts are refused or more or fewer than it says. */
static int layer(bp_layer_read l)
{
    bp_key_read k;
    bp_value_read v;
    bp_feature_read f;
    size_t at, keys = 0, values = 0, features = 0;
    int wrong = 0;
    printf("layer "), text(l.name_start, l.name_len);
    printf(" version %" PRIu32 " extent %" PRIu32 " keys %zu values %zu features %zu\n", l.version, l.extent, l.keys, l.values, l.features);
    for (at = l.start; (k = bp_next_key(bytes, len, at, l.end)).is_there; at = k.start + k.len, keys++)
        printf("key "), text(k.start, k.len), putchar('\n');
    for (at = l.start; (v = bp_next_value(bytes, len, at, l.end)).is_there; at = v.next, values++)
        value(v);
    for (at = l.start; (f = bp_next_feature(bytes, len, at, l.end)).is_there; at = f.end, features++) {
        printf("feature type %" PRIu32, f.kind);
        if (f.has_id)
            printf(" id %" PRIu64, f.id);
        putchar('\n');
        wrong += words("tags", bp_read_tags(bytes, len, f.start, f.end, out, f.tags), f.tags);
        wrong += words("geometry", bp_read_geometry(bytes, len, f.start, f.end, out, f.words), f.words);
    }
    return wrong + (k.refusal != 0) + (v.refusal != 0) + (f.refusal != 0) + (keys != l.keys) + (values != l.values) + (features != l.features);
}

int main(int argc, char **argv)
{
    FILE *file = argc == 2 ? fopen(argv[1], "rb") : NULL;
    if (file == NULL)
        return 2;
    len = fread(bytes, 1, sizeof bytes, file);
    fclose(file);
    bp_opened tile = bp_open(bytes, len);
    if (tile.refusal != 0) {
        printf("refused %" PRIu32 " at %zu\n", tile.refusal, tile.place);
        return 0;
    }
    printf("layers %zu\n", tile.layers);
    bp_layer_read l;
    int wrong = 0;
    size_t layers = 0;
    for (size_t at = 0; (l = bp_next_layer(bytes, len, at)).is_there; at = l.end, layers++)
        wrong += layer(l);
    return wrong != 0 || l.refusal != 0 || layers != tile.layers;
}
