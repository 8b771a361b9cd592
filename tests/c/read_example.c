/* Prints the names of a tile's layers and their keys. The tile is a file of at most a megabyte; a longer one is cut there, and refused. */
#include "brinepost.h"
#include <stdio.h>

static uint8_t bytes[1 << 20];

/* A text of the tile on a line: it may hold any bytes, and none ends it. */
static void print(const char *what, size_t start, size_t len)
{
    fputs(what, stdout);
    fwrite(bytes + start, 1, len, stdout);
    putchar('\n');
}

int main(int argc, char **argv)
{
    FILE *file = argc == 2 ? fopen(argv[1], "rb") : NULL;
    if (file == NULL || bp_reader_version() != BP_VERSION)
        return 2; /* there is no such file, or the library is not that of this header */
    size_t len = fread(bytes, 1, sizeof bytes, file);
    bp_opened tile = bp_open(bytes, len);
    if (tile.refusal != BP_ACCEPTED)
        return fprintf(stderr, "%s: refused as %s at byte %zu\n", argv[1], bp_refusal_name(tile.refusal), tile.place), 1;
    bp_layer_read layer;
    bp_key_read key;
    for (size_t at = 0; (layer = bp_next_layer(bytes, len, at)).is_there; at = layer.end) {
        print("layer ", layer.name_start, layer.name_len);
        for (size_t in = layer.start; (key = bp_next_key(bytes, len, in, layer.end)).is_there; in = key.start + key.len)
            print("  key ", key.start, key.len);
    }
    return 0;
}
