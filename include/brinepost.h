/* Brinepost for C, as three libraries for x86-64: libbrinepost.a (clips, jobs, surveys, vertices and the encoder), libbrinepost_tiles.a (layers and tiles) and
 * libbrinepost_reader.a (finished tiles, opened and read). `./brinepost install PREFIX` proves and makes them and puts them beside this header with a file for
 * pkg-config; docs/PROMISES.md has what each function is proved to answer.
 *
 * Every function takes any numbers and any lists, ends, and answers.
 * Lists. A list is a pointer and a length in elements, in this order, lent for the call alone. The pointer is aligned for its type and its elements are the
 *   caller's to read and, where it is not const, to write; what a function may write must not overlap another list of the same call. A function proper is
 *   given no null, for a list of length 0 neither: any aligned address of the caller's will do. The inline functions whose names end in _in take a null with
 *   length 0, and at most six arguments.
 * States. A state goes in and comes back by value, and nothing is kept between calls. Two of them are compared field by field: what stands between the
 *   fields (padding) no promise speaks of. None has to be cleared before a call: what a function answers has every field.
 * Refusals. `refusal` is 0 where a call is accepted, else a number of bp_refusal, or BP_WIRE, and the first check that fails tells it: each function names
 *   its checks in their order. A refused call writes nowhere, says 0 for its counts and edges and gives the state back as it was given, with the counts in it. Two differ.
 *   A whole job leaves at its first refused call the words, and the list of edges where it has one, as the accepted calls left them, and says how many points
 *   were accepted; a state that it is to answer is all 0.
 *   Many features in one call keep up to the first refused feature what the accepted ones made, say how many these are and give back the layer with them.
 * Threads. No function reads or writes anything but what it is given, so any may be called from any number of threads at once, as long as no list that one
 *   call writes is lent to another call at the same time.
 * Doubles. What is reckoned in doubles means the default floating-point environment: round to nearest, subnormals kept (neither flushed nor taken as zero), no
 *   exception trapped. Another one is the caller's to avoid; in it nothing is promised of these functions. The environment's flags may be raised by a call.
 * What the libraries need. libbrinepost.a and libbrinepost_tiles.a call memset of the program's C library, the first since bp_encode_survey keeps 2 KiB of its
 *   own for grid points; nothing else is called, by libbrinepost_reader.a nothing at all, and no memory is allocated. */
#ifndef BRINEPOST_H
#define BRINEPOST_H

#include <stddef.h>
#include <stdint.h>

#ifdef __cplusplus
extern "C" {
#endif

/* The number of this interface. It is raised by one with every change of a declaration below (a struct's fields, a function's parameters, a constant, the
 * refusals) or of what one means; a declaration more leaves it. bp_version, bp_tiles_version and bp_reader_version answer the number of the archive:
 * where that is not BP_VERSION, header and archive do not belong together. */
#define BP_VERSION 7
uint32_t bp_version(void);        /* of libbrinepost.a */
uint32_t bp_tiles_version(void);  /* of libbrinepost_tiles.a */
uint32_t bp_reader_version(void); /* of libbrinepost_reader.a */

/* 9 is not given any more: up to interface 3 it was CUT, which 17 and 18 tell apart. */
enum bp_refusal {
    BP_ACCEPTED = 0,
    BP_JOB = 1,        /* no parts, ends that descend, a last end that is not the point count, an odd list of coordinates, of doubles too; no list of tags or of
                        * heads */
    BP_KIND = 2,       /* a kind that is not 1 point, 2 line, 3 polygon */
    BP_BOX = 3,        /* x_min >= x_max, y_min >= y_max, or an edge beyond BP_LIMIT */
    BP_STATE = 4,      /* a carried state that breaks a rule (docs/RULES.md, sections 6, 8 and 10), as an encoder's does whose skipped and taken_out together
                        * exceed its taken and boundary together */
    BP_COORD = 5,      /* x or y beyond BP_LIMIT; of a surveyed point, x or y after the map that is not finite, or whose whole number lies beyond BP_LIMIT */
    BP_EMPTY = 6,      /* a geometry of points is completed with none */
    BP_ROOM = 7,       /* the result, reckoned as if there were room, exceeds a lent list or one of the limits BP_MAX_...; more words than BP_MAX_WORDS read; a
                        * count of an encoder's state would pass 4,294,967,295 */
    BP_COMMAND = 8,    /* a command id that is not 1, 2 or 7 */
    BP_STEP = 10,      /* a decoded position leaves int32_t */
    BP_TEXT = 11,      /* a text of more than BP_MAX_TEXT bytes */
    BP_TURN = 12,      /* a call on the open feature where none is open; opening one, adding a whole one, or adding the layer, where one is */
    BP_EXTENT = 13,    /* layer and tile extents differ */
    BP_NAME = 14,      /* the tile has a layer of that name */
    BP_COUNT = 16,     /* a ClosePath whose count is not 1, a MoveTo or LineTo whose count is 0 */
    BP_NOPARAMS = 17,  /* no word follows a MoveTo or LineTo; bp_reading has its place */
    BP_CUTPARAMS = 18, /* fewer than twice the count words follow one, but some; bp_reading has its place */
    BP_UTF8 = 22,      /* a name, a key or a text value given to a call that is not well-formed UTF-8 (the Unicode Standard, table 3-7) */
    BP_AGAIN = 23      /* in a strict layer, a key that the open feature has already; in its whole features, a key that an earlier tag of the feature has */
};

/* One refusal more, of the calls that read a tile alone: so it stands by itself, and what the others may give is as it was. */
enum bp_wire {
    BP_WIRE = 15 /* bytes that are no good tile; what a call answers has the place of the fault beside it */
};

/* A refusal's name as docs/RULES.md has it, and "ACCEPTED" for 0; "UNKNOWN" for a number that is none. */
static inline const char *bp_refusal_name(uint32_t refusal)
{
    switch (refusal) {
    case BP_ACCEPTED: return "ACCEPTED";
    case BP_JOB: return "JOB";
    case BP_KIND: return "KIND";
    case BP_BOX: return "BOX";
    case BP_STATE: return "STATE";
    case BP_COORD: return "COORD";
    case BP_EMPTY: return "EMPTY";
    case BP_ROOM: return "ROOM";
    case BP_COMMAND: return "COMMAND";
    case BP_STEP: return "STEP";
    case BP_TEXT: return "TEXT";
    case BP_TURN: return "TURN";
    case BP_EXTENT: return "EXTENT";
    case BP_NAME: return "NAME";
    case BP_WIRE: return "WIRE";
    case BP_COUNT: return "COUNT";
    case BP_NOPARAMS: return "NOPARAMS";
    case BP_CUTPARAMS: return "CUTPARAMS";
    case BP_UTF8: return "UTF8";
    case BP_AGAIN: return "AGAIN";
    }
    return "UNKNOWN";
}

enum bp_kind { BP_POINT = 1, BP_LINE = 2, BP_POLYGON = 3 };

/* ---- limits, and what a list needs at most */

#define BP_LIMIT 1073741823           /* the largest coordinate and box edge; the least is its opposite */
#define BP_MAX_WORDS 1048576          /* the most words of a geometry */
#define BP_MAX_TEXT 1024              /* the most bytes of a text: a layer's name, a key, a text value */
#define BP_MAX_ENTRIES 65536          /* the most keys of a layer, and the most values */
#define BP_MAX_TEXTS 4294967295u      /* the most bytes of all texts of a layer */
#define BP_MAX_FEATURES 4294967295u   /* the most words of all feature records of a layer */
#define BP_MAX_TILE 4294967295u       /* the most bytes of a tile */

/* The most words of one part of n points, n >= 1, cut at its box; a part without points takes none. Of points, those of the whole geometry. */
#define BP_POINT_WORDS(n) (2 * (size_t)(n) + 1)
#define BP_LINE_WORDS(n) (6 * (size_t)(n) - 2)
#define BP_POLYGON_WORDS(n) (6 * (size_t)(n) - 1)

/* The numbers that the edges of n points take: two a point. */
#define BP_EDGE_NUMBERS(n) (2 * (size_t)(n))

/* The most numbers that the vertices of so many words take: a vertex a word, three numbers a vertex. */
#define BP_READ_NUMBERS(words) (3 * (size_t)(words))

/* The words that a feature takes of `features`, of so many geometry words and tags. A key that is new to the layer takes 2 words of `keys`, a new value
 * 3 of `values`, and their texts and the layer's name their bytes of `texts`. A layer takes 2 words of a tile's `names`, and bp_layer_size tells of `bytes`. */
#define BP_RECORD_WORDS(words, tags) (6 + (size_t)(words) + 2 * (size_t)(tags))

/* ---- one segment cut at a box */

typedef struct bp_box {
    int32_t x_min, x_max, y_min, y_max;
} bp_box;

/* What became of an end of a segment: it is as it was given, or the cut at that edge moved it. */
enum bp_edge { BP_STAYED = 0, BP_X_MIN = 1, BP_X_MAX = 2, BP_Y_MIN = 3, BP_Y_MAX = 4 };

/* The two ends after the cut, and what became of each, a number of bp_edge; all 0 where refused. */
typedef struct bp_clipped {
    uint32_t refusal;
    int32_t x0, y0, x1, y1;
    uint32_t edge0, edge1;
} bp_clipped;

/* Cuts the segment from (x0, y0) to (x1, y1) at the box, at x_min, x_max, y_min and y_max in this order: BOX, COORD.
 * A segment that meets the box has both ends in it afterwards. An end that moved lies on the box's edge, less than one from a point of the exact segment in
 * x and in y, also of a segment that misses the box, of which an end may have moved; an end that did not move is as it was given. An end moves at most once,
 * and edge0 and edge1 tell the edge whose cut moved it, outside which it was given; of two edges that meet where it came to lie, that one alone. */
bp_clipped bp_clip(int32_t x0, int32_t y0, int32_t x1, int32_t y1, int32_t x_min, int32_t x_max, int32_t y_min, int32_t y_max);

/* ---- a whole job */

typedef struct bp_job {
    uint32_t refusal;
    size_t points; /* how many were accepted; all of them where the job is accepted */
    size_t words;  /* how many words stand at the front of `words`; 0 where refused */
} bp_job;

/* Encodes a geometry: `points` are x and y by turns, `ends` each part's end, counted in points from the start: JOB, KIND, BOX, then what its calls refuse
 * (COORD, EMPTY, ROOM). */
bp_job bp_encode_job(uint32_t kind, int32_t x_min, int32_t x_max, int32_t y_min, int32_t y_max,
                     const int32_t *points, size_t points_len, const uint32_t *ends, size_t ends_len,
                     uint32_t *words, size_t words_len);

/* The same with its edges: in `edges` two numbers of bp_edge for each raw point, in order, what became of the first and of the second end of the segment that
 * ends in it, as bp_encoder_add_point tells them. A point whose two entries the list lacks is ROOM, its last check; the entries of points that are not accepted
 * stay as they were. Where the list has all of them (BP_EDGE_NUMBERS), answer and words are those of bp_encode_job. */
bp_job bp_encode_job_edges(uint32_t kind, int32_t x_min, int32_t x_max, int32_t y_min, int32_t y_max,
                           const int32_t *points, size_t points_len, const uint32_t *ends, size_t ends_len,
                           uint32_t *words, size_t words_len, uint32_t *edges, size_t edges_len);

/* ---- words to vertices */

typedef struct bp_reading {
    uint32_t refusal;
    size_t vertices; /* three numbers each (id, x, y) stand at the front of `out`; 0 where refused */
    size_t place;    /* of NOPARAMS and CUTPARAMS the command: its word's index among `words`, from 0. Else 0 */
} bp_reading;

/* Reads a geometry's words: COMMAND, COUNT, NOPARAMS, CUTPARAMS and STEP from left to right, at one command in this order; then ROOM. A ClosePath has count 1
 * and gives 7 and the unmoved cursor. */
bp_reading bp_decode(const uint32_t *words, size_t words_len, int32_t *out, size_t out_len);

/* ---- the encoder call by call */

/* A point that may be missing: `is_set` is 1 where there is one, else 0, and then x and y mean nothing. Another `is_set` is STATE. */
typedef struct bp_point {
    uint32_t is_set;
    int32_t x, y;
} bp_point;

/* A state between two calls. A caller may store it and hand it in again with the same words; bp_encoder_add_point, bp_encoder_add_surveyed and
 * bp_encoder_complete_geom refuse one that breaks a rule (STATE). That the words are those that it was made with they cannot see.
 * Its last four fields count what became of the points since the state was fresh, where all are 0: each accepted point adds to them, a completed part leaves
 * them as they are. taken + boundary - skipped - taken_out is the number of vertices now in the words, at any moment, within a part too; ClosePath is none.
 * A stored bp_encoder of interface 2 has another size: it has no counts. */
typedef struct bp_encoder {
    uint32_t kind;
    uint32_t count;     /* how many points of this part stand among the words; of points, of the whole geometry */
    size_t used;        /* words */
    size_t cmd_offset;  /* the last command's place among them */
    int32_t x_min, x_max, y_min, y_max;
    bp_point xy_end;    /* the last raw point of this part */
    bp_point pt0;       /* the emitted point before the last */
    bp_point pt1;       /* the last emitted point */
    uint32_t taken;     /* raw points taken: the accepted points, of every kind */
    uint32_t boundary;  /* boundary points emitted: the ends of segments that the cut moved, with those that are skipped */
    uint32_t skipped;   /* points and boundary points that are the last emitted point again, and so are not written */
    uint32_t taken_out; /* points taken out of the words, since they lie between their neighbours */
} bp_encoder;

typedef struct bp_started {
    uint32_t refusal;
    bp_encoder state; /* all 0 where refused, which is refused as STATE in its turn */
} bp_started;

typedef struct bp_drawn {
    uint32_t refusal;
    size_t words;          /* how many are used; 0 where refused */
    bp_encoder state;
    uint32_t edge0, edge1; /* what became of the ends of the segment from the part's last raw point to this one; 0 where none is cut, and where refused */
} bp_drawn;

/* A fresh state: KIND, BOX. */
bp_started bp_encoder_new(uint32_t kind, int32_t x_min, int32_t x_max, int32_t y_min, int32_t y_max);

/* Adds a point to this part: STATE, COORD, ROOM (of the words, and of the counts). `words` is the same list at every call of one geometry. The edges are those
 * of bp_clip for the segment that the point ends; a part's first point ends none, and no point of kind 1 does. */
bp_drawn bp_encoder_add_point(bp_encoder state, int32_t x, int32_t y, uint32_t *words, size_t words_len);

/* Completes this part: STATE, EMPTY, ROOM. Its edges are 0. */
bp_drawn bp_encoder_complete_geom(bp_encoder state, uint32_t *words, size_t words_len);

/* The state's count. Nothing is checked. */
uint32_t bp_encoder_count(bp_encoder state);

/* The state's used words. Nothing is checked. */
size_t bp_encoder_len(bp_encoder state);

typedef struct bp_finished {
    uint32_t refusal;
    size_t points;    /* how many were accepted; all of them where the job is accepted */
    bp_encoder state; /* behind the last call; all 0 where refused, which is refused as STATE in its turn */
} bp_finished;

/* The same job as bp_encode_job makes of these arguments, with the state that it ends in: its used words, and the counts over all parts of the job. Refusal,
 * points and words are those of bp_encode_job. */
bp_finished bp_encode_job_state(uint32_t kind, int32_t x_min, int32_t x_max, int32_t y_min, int32_t y_max,
                                const int32_t *points, size_t points_len, const uint32_t *ends, size_t ends_len,
                                uint32_t *words, size_t words_len);

/* ---- surveyed points: doubles, put on the grid by a map */

/* A map to the grid: there x is a * x + b * y + c and y is d * x + e * y + f, the products first, then the sums from the left, each operation rounded once and
 * none fused with another. */
typedef struct bp_affine {
    double a, b, c, d, e, f;
} bp_affine;

typedef struct bp_mapped {
    uint32_t refusal;
    int32_t x, y; /* the grid point; 0 where refused */
} bp_mapped;

/* The grid point of a surveyed point: x and y after the map, each at the nearest whole number, halves away from zero: COORD. The doubles have no limit of their
 * own; any may be given, and where one of the eight is a NaN or an infinity the answer is COORD. */
bp_mapped bp_map_point(bp_affine map, double x, double y);

/* Adds a surveyed point to this part: STATE, COORD, ROOM. It is bp_encoder_add_point of the grid point; a surveyed point that has none is COORD. */
bp_drawn bp_encoder_add_surveyed(bp_encoder state, bp_affine map, double x, double y, uint32_t *words, size_t words_len);

/* Encodes a geometry of surveyed points, `points` x and y by turns and `ends` as in bp_encode_job: JOB, KIND, BOX, then what its calls refuse (COORD, EMPTY,
 * ROOM). Answer and words are those of bp_encode_job for the grid points, where a surveyed point that has none stands for one beyond BP_LIMIT. The map itself
 * is not checked: without points any will do. */
bp_job bp_encode_survey(uint32_t kind, int32_t x_min, int32_t x_max, int32_t y_min, int32_t y_max, bp_affine map,
                        const double *points, size_t points_len, const uint32_t *ends, size_t ends_len,
                        uint32_t *words, size_t words_len);

/* ---- a layer and its open feature */

/* How much of a layer's four lists is used: keys (2 words each), values (3 words each), bytes of text, words of feature records. */
typedef struct bp_figures {
    size_t keys, values, texts, features;
} bp_figures;

/* A layer between two calls. A caller may store it and hand it in again, with its four lists as the last accepted call left them; every call that it is
 * given to refuses one that breaks a rule with what the lists hold (STATE). One with every field 0 breaks none: it has extent 0 and an empty name.
 * That its texts are UTF-8 is no such rule: a layer stored under interface 4 may hold others, and they go into the tile as they are.
 * A strict layer takes one value for each key: a tag whose key, by its bytes, the open feature has already is refused as AGAIN, with the same value too. Other
 * features do not count, nor does one that was abandoned. A layer is made strict by a call of its own, and every call keeps it so; where nothing is refused its
 * bytes are those of an ordinary layer, which never looks. A carried one whose open feature has a key twice already breaks no rule.
 * A stored bp_layer of interface 5 has another size: it has no is_strict. Four bytes of padding stand before name. */
typedef struct bp_layer {
    uint32_t extent;
    uint32_t is_open;   /* 1 where a feature is open, else 0; another number is STATE */
    uint32_t is_strict; /* 1 where the layer is strict, else 0; another number is STATE */
    size_t name;        /* the length of the name, which is the first text */
    bp_figures used;
    bp_figures since;   /* the figures when the open feature was opened; without one they mean nothing */
} bp_layer;

typedef struct bp_changed {
    uint32_t refusal;
    bp_layer layer; /* after the call; as it was given where refused. Where a new layer is refused, one that every call refuses as STATE */
} bp_changed;

typedef struct bp_many {
    uint32_t refusal;
    bp_layer layer; /* with the accepted features; as it was given where none was accepted */
    size_t count;   /* how many features were accepted, where refused too */
} bp_many;

typedef struct bp_counted {
    uint32_t refusal;
    size_t count; /* 0 where refused */
} bp_counted;

typedef struct bp_named {
    uint32_t refusal;
    size_t start, len; /* both 0 where refused */
} bp_named;

/* A layer without features; its name becomes the first text: TEXT, UTF8, ROOM. A text that is accepted is stored byte for byte: nothing is normalised, and
 * the empty text, U+0000, a byte order mark and noncharacters are good. */
bp_changed bp_layer_new(const uint8_t *name, size_t name_len, uint32_t extent, uint8_t *texts, size_t texts_len);

/* The same, strict: TEXT, UTF8, ROOM. */
bp_changed bp_strict_layer_new(const uint8_t *name, size_t name_len, uint32_t extent, uint8_t *texts, size_t texts_len);

/* Opens a feature with these geometry words, which are taken as given: KIND, STATE, TURN, ROOM. */
bp_changed bp_into_feature(bp_layer layer, uint32_t kind, const uint32_t *words, size_t words_len, const uint32_t *keys, size_t keys_len,
                           const uint32_t *values, size_t values_len, const uint8_t *texts, size_t texts_len, uint32_t *features, size_t features_len);

/* Sets the id of the open feature: STATE, TURN. */
bp_changed bp_set_id(bp_layer layer, uint64_t id, const uint32_t *keys, size_t keys_len, const uint32_t *values, size_t values_len,
                     const uint8_t *texts, size_t texts_len, uint32_t *features, size_t features_len);

/* Adds a tag to the open feature, its value a text: STATE, TEXT (of key or text), UTF8 (of either), TURN, AGAIN (of a strict layer), ROOM. */
bp_changed bp_add_tag_string(bp_layer layer, const uint8_t *key, size_t key_len, const uint8_t *val, size_t val_len, uint32_t *keys, size_t keys_len,
                             uint32_t *values, size_t values_len, uint8_t *texts, size_t texts_len, uint32_t *features, size_t features_len);

/* The same with a float, given by its bits: TEXT and UTF8 are of the key, here and in the calls below. */
bp_changed bp_add_tag_float(bp_layer layer, const uint8_t *key, size_t key_len, uint32_t bits, uint32_t *keys, size_t keys_len,
                            uint32_t *values, size_t values_len, uint8_t *texts, size_t texts_len, uint32_t *features, size_t features_len);

/* The same with a double, given by its bits. */
bp_changed bp_add_tag_double(bp_layer layer, const uint8_t *key, size_t key_len, uint64_t bits, uint32_t *keys, size_t keys_len,
                             uint32_t *values, size_t values_len, uint8_t *texts, size_t texts_len, uint32_t *features, size_t features_len);

/* The same with an int. */
bp_changed bp_add_tag_int(bp_layer layer, const uint8_t *key, size_t key_len, int64_t val, uint32_t *keys, size_t keys_len,
                          uint32_t *values, size_t values_len, uint8_t *texts, size_t texts_len, uint32_t *features, size_t features_len);

/* The same with a uint. */
bp_changed bp_add_tag_uint(bp_layer layer, const uint8_t *key, size_t key_len, uint64_t val, uint32_t *keys, size_t keys_len,
                           uint32_t *values, size_t values_len, uint8_t *texts, size_t texts_len, uint32_t *features, size_t features_len);

/* The same with a sint. */
bp_changed bp_add_tag_sint(bp_layer layer, const uint8_t *key, size_t key_len, int64_t val, uint32_t *keys, size_t keys_len,
                           uint32_t *values, size_t values_len, uint8_t *texts, size_t texts_len, uint32_t *features, size_t features_len);

/* The same with a bool: 0 is false, and every other number is true. */
bp_changed bp_add_tag_bool(bp_layer layer, const uint8_t *key, size_t key_len, uint32_t val, uint32_t *keys, size_t keys_len,
                           uint32_t *values, size_t values_len, uint8_t *texts, size_t texts_len, uint32_t *features, size_t features_len);

/* Completes the open feature: STATE, TURN. */
bp_changed bp_into_layer(bp_layer layer, const uint32_t *keys, size_t keys_len, const uint32_t *values, size_t values_len,
                         const uint8_t *texts, size_t texts_len, const uint32_t *features, size_t features_len);

/* Abandons the open feature, as if it had never been opened: STATE, TURN. A strict layer stays strict. */
bp_changed bp_abandon(bp_layer layer, const uint32_t *keys, size_t keys_len, const uint32_t *values, size_t values_len,
                      const uint8_t *texts, size_t texts_len, const uint32_t *features, size_t features_len);

/* Adds a whole feature at once, with this id where has_id is not 0: JOB, KIND, STATE, TEXT (of any key or text in `tags`), UTF8 (of any of them), TURN, AGAIN
 * (of a strict layer, where a tag has the key of an earlier one, by its bytes), and ROOM last, of exactly what is needed: a key or a value that comes twice, or
 * is there already, is stored once. A feature that is refused changes nothing: every element of every list is as it was. A tag is five words of `tags`: where
 * its key starts in `bytes` and how long it is, the value's kind (1 text, 2 float, 3 double, 4 int, 5 uint, 6 sint, 7 bool), then where its text starts in
 * `bytes` and how long it is, or the low and the high half of its content.
 * Each key and each text is UTF-8 by itself; bytes that no tag names are not looked at. JOB: tags_len is no multiple of five, a key or a text runs past
 * `bytes`, a kind is none of these, a float's high half is not 0, a bool's content is not 0 or 1. */
bp_changed bp_add_feature(bp_layer layer, uint32_t kind, uint32_t has_id, uint64_t id, const uint32_t *words, size_t words_len,
                          const uint32_t *tags, size_t tags_len, const uint8_t *bytes, size_t bytes_len, uint32_t *keys, size_t keys_len,
                          uint32_t *values, size_t values_len, uint8_t *texts, size_t texts_len, uint32_t *features, size_t features_len);

/* Adds whole features one after the other, up to the first that is refused: JOB where the heads do not tell all the words, then what bp_add_feature refuses of
 * each; without any heads STATE alone. The accepted ones stay, and the refused one leaves nothing. The layer is checked once for all of them, so many
 * features cost far less than as many calls. A feature is six words of `heads`: its kind, 1 where it has an id or else 0, the low and the high half of its id,
 * how many words of `words` and how many of `tags` it takes; those of one feature stand behind those of the one before, and all of both are taken.
 * `key_index` and `value_index` may hold anything before the call: two words for each key, and for each value, that there is room for (2 * (keys_len / 2)
 * and 2 * (values_len / 3), at most 2 * BP_MAX_ENTRIES, and at least 2) make looking up quick. A shorter list, of length 0 too, is not used and stays as it
 * is, and keys or values are looked up by a scan. One that is used is the index of the layer that comes back; where no feature was accepted, it stays as it
 * is too. */
bp_many bp_add_features(bp_layer layer, const uint32_t *heads, size_t heads_len, const uint32_t *words, size_t words_len, const uint32_t *tags, size_t tags_len,
                        const uint8_t *bytes, size_t bytes_len, uint32_t *keys, size_t keys_len, uint32_t *values, size_t values_len, uint8_t *texts,
                        size_t texts_len, uint32_t *features, size_t features_len, uint32_t *key_index, size_t key_index_len, uint32_t *value_index,
                        size_t value_index_len);

/* How many features are complete: STATE. */
bp_counted bp_num_features(bp_layer layer, const uint32_t *keys, size_t keys_len, const uint32_t *values, size_t values_len,
                           const uint8_t *texts, size_t texts_len, const uint32_t *features, size_t features_len);

/* How many tag words the open feature has, two a tag: STATE, TURN. */
bp_counted bp_num_tags(bp_layer layer, const uint32_t *keys, size_t keys_len, const uint32_t *values, size_t values_len,
                       const uint8_t *texts, size_t texts_len, const uint32_t *features, size_t features_len);

/* Where the name stands in `texts`: STATE. */
bp_named bp_name(bp_layer layer, const uint32_t *keys, size_t keys_len, const uint32_t *values, size_t values_len,
                 const uint8_t *texts, size_t texts_len, const uint32_t *features, size_t features_len);

/* ---- a tile */

/* A tile between two calls, with its two lists as the last accepted call left them: its bytes, and two words for each layer's name. Every call that is given
 * the tile with its lists refuses one that breaks a rule with what they hold (STATE). */
typedef struct bp_tile {
    uint32_t extent;
    size_t used;   /* bytes */
    size_t layers;
} bp_tile;

typedef struct bp_added {
    uint32_t refusal;
    bp_tile tile; /* after the call, or as it was given where refused */
} bp_added;

/* A tile without layers. */
bp_tile bp_tile_new(uint32_t extent);

/* A layer of the tile's extent, without features: TEXT, UTF8, ROOM. Nothing else of the tile is looked at. */
bp_changed bp_create_layer(bp_tile tile, const uint8_t *name, size_t name_len, uint8_t *texts, size_t texts_len);

/* The same, strict: TEXT, UTF8, ROOM. */
bp_changed bp_create_strict_layer(bp_tile tile, const uint8_t *name, size_t name_len, uint8_t *texts, size_t texts_len);

/* Writes a layer behind the tile's bytes: STATE (of either), TURN, EXTENT, NAME, ROOM. */
bp_added bp_add_layer(bp_tile tile, bp_layer layer, const uint32_t *keys, size_t keys_len, const uint32_t *values, size_t values_len,
                      const uint8_t *texts, size_t texts_len, const uint32_t *features, size_t features_len,
                      uint32_t *names, size_t names_len, uint8_t *bytes, size_t bytes_len);

/* By how many bytes adding this layer lets the tile grow, asked before it is added: STATE, of the layer alone. Nothing of the tile is looked at, and of a
 * layer with a feature open it tells what it would take as it stands. */
bp_counted bp_layer_size(bp_tile tile, bp_layer layer, const uint32_t *keys, size_t keys_len, const uint32_t *values, size_t values_len,
                         const uint8_t *texts, size_t texts_len, const uint32_t *features, size_t features_len);

/* How many layers the tile has: STATE. */
bp_counted bp_num_layers(bp_tile tile, const uint32_t *names, size_t names_len, const uint8_t *bytes, size_t bytes_len);

/* How many bytes the tile has: STATE. */
bp_counted bp_compute_size(bp_tile tile, const uint32_t *names, size_t names_len, const uint8_t *bytes, size_t bytes_len);

/* Where the tile ends in `bytes`, at whose front it stands: STATE. */
bp_counted bp_to_bytes(bp_tile tile, const uint32_t *names, size_t names_len, const uint8_t *bytes, size_t bytes_len);

/* ---- reading a tile (libbrinepost_reader.a) */

/* A tile's bytes, whoever wrote them, go in at every call as they were lent before; nothing is copied, and what is in them is told by places, indices of bytes
 * from 0. Every call takes any bytes and any places.
 * A good tile is as the Protocol Buffers document and the schema of Mapbox Vector Tiles have it, with fields in any order, fields that are not known, longer
 * forms of numbers, and lists of numbers packed, single, or divided. Not asked are the meaning of geometry words and tag indices, a layer's name, which
 * may be missing, and text: a name, a key or a text value has any bytes, is not asked for UTF-8, and no zero ends it. Whether a text is UTF-8 is the caller's to
 * ask.
 * Refusals. WIRE: the bytes are no good tile, and `place` is the least one: the index of the first byte after which no continuation could be a good tile;
 *   where the tile only ends too early, the number of bytes. STATE: a place beyond the bytes, or an end before it; or the tile is good, and what stands at
 *   the place is no field, or no message up to that end. ROOM: the lent list is too short. `place` is 0 but for WIRE.
 *   A call looks at no more than it needs, so the parts before a fault may be read from a bad tile: ask bp_open first. In a good tile, at the places that the
 *   calls themselves answer, nothing is refused but for ROOM. A place that is none of these may be taken for a field's where its bytes happen to be one's.
 * A walk. Layers: bp_next_layer from 0, and on from each one's `end`, until none is there. In a layer, features, keys and values, each kind by itself: from the
 *   layer's `start`, up to its `end`; features go on from their own `end`, keys from `start + len`, values from `next`. A feature's tags and geometry are read
 *   between its own `start` and `end`: tags are pairs of indices, of a key and of a value, from 0 in their order; the geometry's words are for bp_decode. */

typedef struct bp_opened {
    uint32_t refusal;
    size_t place;  /* of WIRE. Else 0 */
    size_t layers; /* how many the tile has; 0 where refused */
} bp_opened;

/* Whether the bytes are a good tile, as a whole and to its last message: WIRE. Without bytes it is a good tile, of no layers. */
bp_opened bp_open(const uint8_t *bytes, size_t bytes_len);

/* A layer. What stands in it several times counts as it stood last; what does not stand in it has the schema's default. Where none follows, and where refused,
 * all that stands behind `place` is 0. */
typedef struct bp_layer_read {
    uint32_t refusal;
    uint32_t is_there; /* 1, or 0 where no layer follows or the call is refused */
    size_t place;      /* of WIRE. Else 0 */
    uint32_t version;  /* 1 where it has none; of a number beyond 32 bits the low ones, here and in the extent */
    uint32_t extent;   /* 4096 where it has none */
    size_t name_start; /* the name is name_len bytes from here; both are 0 where it has none */
    size_t name_len;
    size_t keys;       /* how many */
    size_t values;
    size_t features;
    size_t start;      /* what is in the layer stands from here */
    size_t end;        /* up to here, where the next layer may begin */
} bp_layer_read;

/* The layer that stands at a place of the tile, or next behind it: STATE (a place beyond the bytes), WIRE, STATE. Its features and values are not looked
 * into. */
bp_layer_read bp_next_layer(const uint8_t *bytes, size_t bytes_len, size_t at);

/* A feature, as bp_layer_read tells a layer. */
typedef struct bp_feature_read {
    uint32_t refusal;
    uint32_t is_there; /* 1, or 0 where no feature follows or the call is refused */
    size_t place;      /* of WIRE. Else 0 */
    uint32_t has_id;   /* 1 where it has an id, else 0, and then id is 0 */
    uint32_t kind;     /* a number of bp_kind, 0 where it is unknown or missing, or what other number stands there, of which the low 32 bits */
    uint64_t id;
    size_t tags;       /* how many tag indices, two a tag */
    size_t words;      /* how many words of geometry */
    size_t start;      /* what is in the feature stands from here */
    size_t end;        /* up to here, where the layer goes on */
} bp_feature_read;

/* The feature that stands at a place of the layer that ends at `end`, or next behind it: STATE (end before at, or beyond the bytes), WIRE, STATE. */
bp_feature_read bp_next_feature(const uint8_t *bytes, size_t bytes_len, size_t at, size_t end);

typedef struct bp_key_read {
    uint32_t refusal;
    uint32_t is_there; /* 1, or 0 where no key follows or the call is refused */
    size_t place;      /* of WIRE. Else 0 */
    size_t start, len; /* the key is len bytes from start; the layer goes on behind them. Both 0 where no key follows, and where refused */
} bp_key_read;

/* The key that stands at a place of the layer that ends at `end`, or next behind it: refused as in bp_next_feature. */
bp_key_read bp_next_key(const uint8_t *bytes, size_t bytes_len, size_t at, size_t end);

/* A value. Of one that says several kinds, the lowest counts, and of this kind what stood last. Where none follows, and where refused, all that stands behind
 * `place` is 0. */
typedef struct bp_value_read {
    uint32_t refusal;
    uint32_t is_there; /* 1, or 0 where no value follows or the call is refused */
    size_t place;      /* of WIRE. Else 0 */
    uint32_t kind;     /* 1 text, 2 float, 3 double, 4 int, 5 uint, 6 sint, 7 bool, or 0 where it says nothing */
    size_t start, len; /* a text is len bytes from start; of another kind both are 0 */
    uint64_t bits;     /* the bits of a float (the low 32) or a double; the number of a uint; that of an int or a sint, as int64_t has it; of a bool 1 or 0.
                        * Of a text, and where it says nothing, 0 */
    size_t next;       /* where the layer goes on */
} bp_value_read;

/* The value that stands at a place of the layer that ends at `end`, or next behind it: refused as in bp_next_feature. */
bp_value_read bp_next_value(const uint8_t *bytes, size_t bytes_len, size_t at, size_t end);

typedef struct bp_words_read {
    uint32_t refusal;
    size_t place; /* of WIRE. Else 0 */
    size_t count; /* how many numbers stand at the front of `out`; 0 where refused */
} bp_words_read;

/* The tag indices of the feature that stands from `start` to `end`, in their order, of each its low 32 bits: refused as in bp_next_feature, then ROOM, where
 * `out` has less than the feature's `tags`. A refused call writes nowhere, an accepted one no more than its count. */
bp_words_read bp_read_tags(const uint8_t *bytes, size_t bytes_len, size_t start, size_t end, uint32_t *out, size_t out_len);

/* The same with its geometry, where `out` is to have the feature's `words`. */
bp_words_read bp_read_geometry(const uint8_t *bytes, size_t bytes_len, size_t start, size_t end, uint32_t *out, size_t out_len);

/* ---- the same with the lists in structs: at most six arguments, and a list of length 0 may be null */

/* A layer's four lists. */
typedef struct bp_lists {
    uint32_t *keys;
    size_t keys_len;
    uint32_t *values;
    size_t values_len;
    uint8_t *texts;
    size_t texts_len;
    uint32_t *features;
    size_t features_len;
} bp_lists;

/* A tile's two lists. */
typedef struct bp_tile_lists {
    uint32_t *names;
    size_t names_len;
    uint8_t *bytes;
    size_t bytes_len;
} bp_tile_lists;

/* A geometry to be encoded, as bp_encode_job, bp_encode_job_edges and bp_encode_job_state take it. */
typedef struct bp_geometry {
    uint32_t kind;
    bp_box box;
    const int32_t *points;
    size_t points_len;
    const uint32_t *ends;
    size_t ends_len;
} bp_geometry;

/* A geometry of surveyed points to be encoded, as bp_encode_survey takes it. */
typedef struct bp_survey {
    uint32_t kind;
    bp_box box;
    bp_affine map;
    const double *points;
    size_t points_len;
    const uint32_t *ends;
    size_t ends_len;
} bp_survey;

/* A whole feature, as bp_add_feature takes it. */
typedef struct bp_feature {
    uint32_t kind;
    uint32_t has_id;
    uint64_t id;
    const uint32_t *words;
    size_t words_len;
    const uint32_t *tags;
    size_t tags_len;
    const uint8_t *bytes;
    size_t bytes_len;
} bp_feature;

/* Many whole features, as bp_add_features takes them, and its two indexes. */
typedef struct bp_features {
    const uint32_t *heads;
    size_t heads_len;
    const uint32_t *words;
    size_t words_len;
    const uint32_t *tags;
    size_t tags_len;
    const uint8_t *bytes;
    size_t bytes_len;
} bp_features;

typedef struct bp_index {
    uint32_t *keys;
    size_t keys_len;
    uint32_t *values;
    size_t values_len;
} bp_index;

/* An aligned address for lists without elements: nothing is read or written there. */
static inline void *bp_nowhere(void)
{
    static uint64_t nothing;
    return &nothing;
}

#define BP_LENT(type, list, len) ((list) ? (list) : (type *)bp_nowhere()), (len)
#define BP_WORDS_OF(list, len) BP_LENT(const uint32_t, list, len)
#define BP_BYTES_OF(list, len) BP_LENT(const uint8_t, list, len)
#define BP_LISTS_OF(l)                                                                                      \
    BP_LENT(uint32_t, (l)->keys, (l)->keys_len), BP_LENT(uint32_t, (l)->values, (l)->values_len),           \
        BP_LENT(uint8_t, (l)->texts, (l)->texts_len), BP_LENT(uint32_t, (l)->features, (l)->features_len)
#define BP_TILE_OF(l) BP_LENT(uint32_t, (l)->names, (l)->names_len), BP_LENT(uint8_t, (l)->bytes, (l)->bytes_len)

static inline bp_clipped bp_clip_in(int32_t x0, int32_t y0, int32_t x1, int32_t y1, bp_box box)
{
    return bp_clip(x0, y0, x1, y1, box.x_min, box.x_max, box.y_min, box.y_max);
}

static inline bp_job bp_encode_in(const bp_geometry *g, uint32_t *words, size_t words_len)
{
    return bp_encode_job(g->kind, g->box.x_min, g->box.x_max, g->box.y_min, g->box.y_max, BP_LENT(const int32_t, g->points, g->points_len),
                         BP_WORDS_OF(g->ends, g->ends_len), BP_LENT(uint32_t, words, words_len));
}

static inline bp_job bp_encode_edges_in(const bp_geometry *g, uint32_t *words, size_t words_len, uint32_t *edges, size_t edges_len)
{
    return bp_encode_job_edges(g->kind, g->box.x_min, g->box.x_max, g->box.y_min, g->box.y_max, BP_LENT(const int32_t, g->points, g->points_len),
                               BP_WORDS_OF(g->ends, g->ends_len), BP_LENT(uint32_t, words, words_len), BP_LENT(uint32_t, edges, edges_len));
}

static inline bp_finished bp_encode_state_in(const bp_geometry *g, uint32_t *words, size_t words_len)
{
    return bp_encode_job_state(g->kind, g->box.x_min, g->box.x_max, g->box.y_min, g->box.y_max, BP_LENT(const int32_t, g->points, g->points_len),
                               BP_WORDS_OF(g->ends, g->ends_len), BP_LENT(uint32_t, words, words_len));
}

static inline bp_job bp_encode_survey_in(const bp_survey *survey, uint32_t *words, size_t words_len)
{
    return bp_encode_survey(survey->kind, survey->box.x_min, survey->box.x_max, survey->box.y_min, survey->box.y_max, survey->map,
                            BP_LENT(const double, survey->points, survey->points_len), BP_WORDS_OF(survey->ends, survey->ends_len),
                            BP_LENT(uint32_t, words, words_len));
}

static inline bp_reading bp_decode_in(const uint32_t *words, size_t words_len, int32_t *out, size_t out_len)
{
    return bp_decode(BP_WORDS_OF(words, words_len), BP_LENT(int32_t, out, out_len));
}

static inline bp_started bp_encoder_new_in(uint32_t kind, bp_box box)
{
    return bp_encoder_new(kind, box.x_min, box.x_max, box.y_min, box.y_max);
}

static inline bp_changed bp_layer_new_in(const uint8_t *name, size_t name_len, uint32_t extent, const bp_lists *lists)
{
    return bp_layer_new(BP_BYTES_OF(name, name_len), extent, BP_LENT(uint8_t, lists->texts, lists->texts_len));
}

static inline bp_changed bp_strict_layer_new_in(const uint8_t *name, size_t name_len, uint32_t extent, const bp_lists *lists)
{
    return bp_strict_layer_new(BP_BYTES_OF(name, name_len), extent, BP_LENT(uint8_t, lists->texts, lists->texts_len));
}

static inline bp_changed bp_create_layer_in(bp_tile tile, const uint8_t *name, size_t name_len, const bp_lists *lists)
{
    return bp_create_layer(tile, BP_BYTES_OF(name, name_len), BP_LENT(uint8_t, lists->texts, lists->texts_len));
}

static inline bp_changed bp_create_strict_layer_in(bp_tile tile, const uint8_t *name, size_t name_len, const bp_lists *lists)
{
    return bp_create_strict_layer(tile, BP_BYTES_OF(name, name_len), BP_LENT(uint8_t, lists->texts, lists->texts_len));
}

static inline bp_changed bp_into_feature_in(bp_layer layer, uint32_t kind, const uint32_t *words, size_t words_len, const bp_lists *lists)
{
    return bp_into_feature(layer, kind, BP_WORDS_OF(words, words_len), BP_LISTS_OF(lists));
}

static inline bp_changed bp_set_id_in(bp_layer layer, uint64_t id, const bp_lists *lists)
{
    return bp_set_id(layer, id, BP_LISTS_OF(lists));
}

static inline bp_changed bp_add_tag_string_in(bp_layer layer, const uint8_t *key, size_t key_len, const uint8_t *val, size_t val_len, const bp_lists *lists)
{
    return bp_add_tag_string(layer, BP_BYTES_OF(key, key_len), BP_BYTES_OF(val, val_len), BP_LISTS_OF(lists));
}

static inline bp_changed bp_add_tag_float_in(bp_layer layer, const uint8_t *key, size_t key_len, uint32_t bits, const bp_lists *lists)
{
    return bp_add_tag_float(layer, BP_BYTES_OF(key, key_len), bits, BP_LISTS_OF(lists));
}

static inline bp_changed bp_add_tag_double_in(bp_layer layer, const uint8_t *key, size_t key_len, uint64_t bits, const bp_lists *lists)
{
    return bp_add_tag_double(layer, BP_BYTES_OF(key, key_len), bits, BP_LISTS_OF(lists));
}

static inline bp_changed bp_add_tag_int_in(bp_layer layer, const uint8_t *key, size_t key_len, int64_t val, const bp_lists *lists)
{
    return bp_add_tag_int(layer, BP_BYTES_OF(key, key_len), val, BP_LISTS_OF(lists));
}

static inline bp_changed bp_add_tag_uint_in(bp_layer layer, const uint8_t *key, size_t key_len, uint64_t val, const bp_lists *lists)
{
    return bp_add_tag_uint(layer, BP_BYTES_OF(key, key_len), val, BP_LISTS_OF(lists));
}

static inline bp_changed bp_add_tag_sint_in(bp_layer layer, const uint8_t *key, size_t key_len, int64_t val, const bp_lists *lists)
{
    return bp_add_tag_sint(layer, BP_BYTES_OF(key, key_len), val, BP_LISTS_OF(lists));
}

static inline bp_changed bp_add_tag_bool_in(bp_layer layer, const uint8_t *key, size_t key_len, uint32_t val, const bp_lists *lists)
{
    return bp_add_tag_bool(layer, BP_BYTES_OF(key, key_len), val, BP_LISTS_OF(lists));
}

static inline bp_changed bp_into_layer_in(bp_layer layer, const bp_lists *lists)
{
    return bp_into_layer(layer, BP_LISTS_OF(lists));
}

static inline bp_changed bp_abandon_in(bp_layer layer, const bp_lists *lists)
{
    return bp_abandon(layer, BP_LISTS_OF(lists));
}

static inline bp_changed bp_add_feature_in(bp_layer layer, const bp_feature *f, const bp_lists *lists)
{
    return bp_add_feature(layer, f->kind, f->has_id, f->id, BP_WORDS_OF(f->words, f->words_len), BP_WORDS_OF(f->tags, f->tags_len),
                          BP_BYTES_OF(f->bytes, f->bytes_len), BP_LISTS_OF(lists));
}

static inline bp_many bp_add_features_in(bp_layer layer, const bp_features *f, const bp_lists *lists, const bp_index *index)
{
    return bp_add_features(layer, BP_WORDS_OF(f->heads, f->heads_len), BP_WORDS_OF(f->words, f->words_len), BP_WORDS_OF(f->tags, f->tags_len),
                           BP_BYTES_OF(f->bytes, f->bytes_len), BP_LISTS_OF(lists), BP_LENT(uint32_t, index->keys, index->keys_len),
                           BP_LENT(uint32_t, index->values, index->values_len));
}

static inline bp_counted bp_num_features_in(bp_layer layer, const bp_lists *lists)
{
    return bp_num_features(layer, BP_LISTS_OF(lists));
}

static inline bp_counted bp_num_tags_in(bp_layer layer, const bp_lists *lists)
{
    return bp_num_tags(layer, BP_LISTS_OF(lists));
}

static inline bp_named bp_name_in(bp_layer layer, const bp_lists *lists)
{
    return bp_name(layer, BP_LISTS_OF(lists));
}

static inline bp_added bp_add_layer_in(bp_tile tile, bp_layer layer, const bp_lists *lists, const bp_tile_lists *tile_lists)
{
    return bp_add_layer(tile, layer, BP_LISTS_OF(lists), BP_TILE_OF(tile_lists));
}

static inline bp_counted bp_layer_size_in(bp_tile tile, bp_layer layer, const bp_lists *lists)
{
    return bp_layer_size(tile, layer, BP_LISTS_OF(lists));
}

static inline bp_counted bp_num_layers_in(bp_tile tile, const bp_tile_lists *tile_lists)
{
    return bp_num_layers(tile, BP_TILE_OF(tile_lists));
}

static inline bp_counted bp_compute_size_in(bp_tile tile, const bp_tile_lists *tile_lists)
{
    return bp_compute_size(tile, BP_TILE_OF(tile_lists));
}

static inline bp_counted bp_to_bytes_in(bp_tile tile, const bp_tile_lists *tile_lists)
{
    return bp_to_bytes(tile, BP_TILE_OF(tile_lists));
}

static inline bp_opened bp_open_in(const uint8_t *bytes, size_t bytes_len)
{
    return bp_open(BP_BYTES_OF(bytes, bytes_len));
}

static inline bp_layer_read bp_next_layer_in(const uint8_t *bytes, size_t bytes_len, size_t at)
{
    return bp_next_layer(BP_BYTES_OF(bytes, bytes_len), at);
}

static inline bp_feature_read bp_next_feature_in(const uint8_t *bytes, size_t bytes_len, size_t at, size_t end)
{
    return bp_next_feature(BP_BYTES_OF(bytes, bytes_len), at, end);
}

static inline bp_key_read bp_next_key_in(const uint8_t *bytes, size_t bytes_len, size_t at, size_t end)
{
    return bp_next_key(BP_BYTES_OF(bytes, bytes_len), at, end);
}

static inline bp_value_read bp_next_value_in(const uint8_t *bytes, size_t bytes_len, size_t at, size_t end)
{
    return bp_next_value(BP_BYTES_OF(bytes, bytes_len), at, end);
}

static inline bp_words_read bp_read_tags_in(const uint8_t *bytes, size_t bytes_len, size_t start, size_t end, uint32_t *out, size_t out_len)
{
    return bp_read_tags(BP_BYTES_OF(bytes, bytes_len), start, end, BP_LENT(uint32_t, out, out_len));
}

static inline bp_words_read bp_read_geometry_in(const uint8_t *bytes, size_t bytes_len, size_t start, size_t end, uint32_t *out, size_t out_len)
{
    return bp_read_geometry(BP_BYTES_OF(bytes, bytes_len), start, end, BP_LENT(uint32_t, out, out_len));
}

#undef BP_LENT
#undef BP_WORDS_OF
#undef BP_BYTES_OF
#undef BP_LISTS_OF
#undef BP_TILE_OF

#ifdef __cplusplus
}
#endif

#endif
