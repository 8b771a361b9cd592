/* A tile with one line that has a tag: its geometry encoded, a layer filled, the layer added, the bytes written out. */
#include "brinepost.h"
#include <stdio.h>
#include <stdlib.h>

/* Ends the program where a call is refused, and says by which refusal. */
static void accepted(const char *call, uint32_t refusal)
{
    if (refusal == BP_ACCEPTED)
        return;
    fprintf(stderr, "%s: refused as %s\n", call, bp_refusal_name(refusal));
    exit(1);
}

int main(void)
{
    const int32_t points[] = {2, 2, 2, 10, 10, 10};
    const uint32_t ends[] = {3};
    const uint8_t tag[] = "roadNH66";         /* the key and its text, one behind the other */
    const uint32_t tags[] = {0, 4, 1, 4, 4};  /* key: 4 bytes at 0; value: a text, 4 bytes at 4 */
    uint32_t words[BP_LINE_WORDS(3)], keys[2], values[3], features[BP_RECORD_WORDS(BP_LINE_WORDS(3), 1)], names[2];
    uint8_t texts[64], bytes[256];
    const bp_lists lists = {keys, 2, values, 3, texts, sizeof texts, features, sizeof features / sizeof features[0]};
    const bp_tile_lists tile_lists = {names, 2, bytes, sizeof bytes};

    if (bp_version() != BP_VERSION || bp_tiles_version() != BP_VERSION)
        return 1; /* the libraries are not those of this header */
    const bp_geometry geometry = {BP_LINE, {0, 4096, 0, 4096}, points, 6, ends, 1};
    bp_job line = bp_encode_in(&geometry, words, BP_LINE_WORDS(3));
    accepted("encoding", line.refusal);
    bp_tile tile = bp_tile_new(4096);
    bp_changed layer = bp_create_layer_in(tile, (const uint8_t *)"roads", 5, &lists);
    accepted("the layer", layer.refusal);
    const bp_feature road = {BP_LINE, 1, 7, words, line.words, tags, 5, tag, 8};
    layer = bp_add_feature_in(layer.layer, &road, &lists);
    accepted("the road", layer.refusal);
    bp_added added = bp_add_layer_in(tile, layer.layer, &lists, &tile_lists);
    accepted("adding", added.refusal);
    return fwrite(bytes, 1, added.tile.used, stdout) != added.tile.used;
}
