/* Holds the inline functions of include/brinepost.h, whose lists stand in structs, against the functions that they call, on two memories that start alike:
 * each call is accepted with the same answer, and the memories are alike after it. And a list of length 0 may be null. */
#include "brinepost.h"
#include "check.h"

static struct memory {
    uint32_t keys[19], values[26];
    uint8_t texts[24];
    uint32_t features[64], names[5];
    uint8_t bytes[200];
    uint32_t key_index[19], value_index[17];
} plain, with;

#define LISTS(m) m.keys, COUNT(m.keys), m.values, COUNT(m.values), m.texts, COUNT(m.texts), m.features, COUNT(m.features)
#define TILE(m) m.names, COUNT(m.names), m.bytes, COUNT(m.bytes)
#define INDEX(m) m.key_index, COUNT(m.key_index), m.value_index, COUNT(m.value_index)
#define TEXT(text) (const uint8_t *)(text), sizeof(text) - 1
static const bp_lists lists = {LISTS(with)};
static const bp_tile_lists tile_lists = {TILE(with)};
static const bp_index indexes = {INDEX(with)};
static const uint32_t words[] = {9, 2, 4};

static void layers_alike(int line, bp_layer p, bp_layer w)
{
    same("the layer", line, 0, layers_differ(p, w));
    same("the memory", line, 0, memcmp(&plain, &with, sizeof plain));
}

static bp_layer alike(int line, bp_changed p, bp_changed w)
{
    same("refusal", line, 0, p.refusal);
    same("refusal", line, 0, w.refusal);
    layers_alike(line, p.layer, w.layer);
    return w.layer;
}
#define ALIKE(p, w) alike(__LINE__, p, w)

static void counted_alike(int line, size_t expected, bp_counted p, bp_counted w)
{
    same("refusal", line, p.refusal, w.refusal);
    same("count", line, p.count, w.count);
    same("count", line, expected, w.count);
}
#define COUNTED(expected, p, w) counted_alike(__LINE__, expected, p, w)

static bp_layer tagged(bp_tile t)
{
    bp_layer s = ALIKE(bp_strict_layer_new(TEXT("abcd"), 7, plain.texts, COUNT(plain.texts)), bp_strict_layer_new_in(TEXT("abcd"), 7, &lists));
    SAME(1, s.is_strict), SAME(4, s.name), SAME(7, s.extent);
    s = ALIKE(bp_layer_new(TEXT("ab"), 7, plain.texts, COUNT(plain.texts)), bp_layer_new_in(TEXT("ab"), 7, &lists));
    s = ALIKE(bp_create_strict_layer(t, TEXT("abcd"), plain.texts, COUNT(plain.texts)), bp_create_strict_layer_in(t, TEXT("abcd"), &lists));
    SAME(1, s.is_strict), SAME(4, s.name), SAME(300, s.extent);
    s = ALIKE(bp_create_layer(t, TEXT("abc"), plain.texts, COUNT(plain.texts)), bp_create_layer_in(t, TEXT("abc"), &lists));
    s = ALIKE(bp_into_feature(s, BP_LINE, words, 3, LISTS(plain)), bp_into_feature_in(s, BP_LINE, words, 3, &lists));
    s = ALIKE(bp_set_id(s, 0x8102030405060708u, LISTS(plain)), bp_set_id_in(s, 0x8102030405060708u, &lists));
    s = ALIKE(bp_add_tag_string(s, TEXT("key"), TEXT("v!"), LISTS(plain)), bp_add_tag_string_in(s, TEXT("key"), TEXT("v!"), &lists));
    COUNTED(2, bp_num_tags(s, LISTS(plain)), bp_num_tags_in(s, &lists));
    s = ALIKE(bp_add_tag_float(s, TEXT("f"), 0x80000001u, LISTS(plain)), bp_add_tag_float_in(s, TEXT("f"), 0x80000001u, &lists));
    s = ALIKE(bp_add_tag_double(s, TEXT("d"), 0x8000000200000003u, LISTS(plain)), bp_add_tag_double_in(s, TEXT("d"), 0x8000000200000003u, &lists));
    s = ALIKE(bp_add_tag_int(s, TEXT("i"), -2, LISTS(plain)), bp_add_tag_int_in(s, TEXT("i"), -2, &lists));
    s = ALIKE(bp_add_tag_uint(s, TEXT("u"), UINT64_MAX, LISTS(plain)), bp_add_tag_uint_in(s, TEXT("u"), UINT64_MAX, &lists));
    s = ALIKE(bp_add_tag_sint(s, TEXT("s"), INT64_MIN, LISTS(plain)), bp_add_tag_sint_in(s, TEXT("s"), INT64_MIN, &lists));
    s = ALIKE(bp_add_tag_bool(s, TEXT("b"), 256, LISTS(plain)), bp_add_tag_bool_in(s, TEXT("b"), 256, &lists));
    ALIKE(bp_abandon(s, LISTS(plain)), bp_abandon_in(s, &lists));
    s = ALIKE(bp_into_layer(s, LISTS(plain)), bp_into_layer_in(s, &lists));
    COUNTED(1, bp_num_features(s, LISTS(plain)), bp_num_features_in(s, &lists));
    bp_named p = bp_name(s, LISTS(plain)), w = bp_name_in(s, &lists);
    SAME(0, w.refusal), SAME(p.start, w.start), SAME(3, w.len);
    return s;
}

static bp_layer whole(bp_layer s)
{
    static const uint32_t tags[] = {2, 1, 1, 0, 2, 2, 1, 5, 9, 0}, heads[] = {1, 1, 6, 7, 1, 5, 2, 0, 0, 0, 2, 5};
    const bp_feature f = {BP_POLYGON, 1, 0x8000000700000006u, words, 3, tags, 5, TEXT("v!k")};
    const bp_features many = {heads, 12, words, 3, tags, 10, TEXT("v!k")};
    s = ALIKE(bp_add_feature(s, f.kind, f.has_id, f.id, words, 3, tags, 5, TEXT("v!k"), LISTS(plain)), bp_add_feature_in(s, &f, &lists));
    bp_many p = bp_add_features(s, heads, 12, words, 3, tags, 10, TEXT("v!k"), LISTS(plain), INDEX(plain)), w = bp_add_features_in(s, &many, &lists, &indexes);
    SAME(p.refusal, w.refusal), SAME(p.count, w.count), layers_alike(__LINE__, p.layer, w.layer);
    SAME(0, w.refusal), SAME(2, w.count);
    return w.layer;
}

static void tile(bp_tile t, bp_layer s)
{
    COUNTED(bp_layer_size(t, s, LISTS(plain)).count, bp_layer_size(t, s, LISTS(plain)), bp_layer_size_in(t, s, &lists));
    size_t size = bp_layer_size_in(t, s, &lists).count;
    bp_added p = bp_add_layer(t, s, LISTS(plain), TILE(plain)), w = bp_add_layer_in(t, s, &lists, &tile_lists);
    SAME(0, p.refusal), SAME(0, w.refusal), SAME(p.tile.used, w.tile.used), SAME(size, w.tile.used), SAME(1, w.tile.layers);
    SAME(0, memcmp(&plain, &with, sizeof plain));
    COUNTED(1, bp_num_layers(p.tile, TILE(plain)), bp_num_layers_in(w.tile, &tile_lists));
    COUNTED(size, bp_compute_size(p.tile, TILE(plain)), bp_compute_size_in(w.tile, &tile_lists));
    COUNTED(size, bp_to_bytes(p.tile, TILE(plain)), bp_to_bytes_in(w.tile, &tile_lists));
}

/* Every list null and of length 0: what fits in no list at all is accepted, the rest is ROOM. */
static void nulls(void)
{
    static const bp_lists none;
    static const bp_tile_lists no_tile;
    static const bp_index no_index;
    static const bp_features no_features;
    bp_changed c = bp_layer_new_in(NULL, 0, 7, &none);
    SAME(0, c.refusal), SAME(7, c.layer.extent), SAME(0, c.layer.name);
    SAME(0, bp_create_layer_in(bp_tile_new(7), NULL, 0, &none).refusal);
    SAME(1, bp_strict_layer_new_in(NULL, 0, 7, &none).layer.is_strict), SAME(1, bp_create_strict_layer_in(bp_tile_new(7), NULL, 0, &none).layer.is_strict);
    SAME(BP_ROOM, bp_into_feature_in(c.layer, BP_POINT, NULL, 0, &none).refusal);
    SAME(BP_ROOM, bp_add_feature_in(c.layer, &(const bp_feature){.kind = BP_POINT}, &none).refusal);
    SAME(0, bp_add_features_in(c.layer, &no_features, &none, &no_index).refusal);
    SAME(BP_TURN, bp_add_tag_string_in(c.layer, NULL, 0, NULL, 0, &none).refusal);
    SAME(0, bp_num_features_in(c.layer, &none).refusal), SAME(0, bp_name_in(c.layer, &none).len);
    bp_tile t = bp_tile_new(7);
    SAME(8, bp_layer_size_in(t, c.layer, &none).count); /* a field of two bytes, an empty name, the extent and the version, two bytes each */
    SAME(BP_ROOM, bp_add_layer_in(t, c.layer, &none, &no_tile).refusal);
    SAME(0, bp_num_layers_in(t, &no_tile).refusal), SAME(0, bp_compute_size_in(t, &no_tile).refusal), SAME(0, bp_to_bytes_in(t, &no_tile).refusal);
}

int main(void)
{
    bp_tile t = bp_tile_new(300);
    tile(t, whole(tagged(t)));
    nulls();
    return ended("lists in structs");
}
