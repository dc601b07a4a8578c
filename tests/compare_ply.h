/* What the parts of the comparison of PLY files share: a call, how it is made and run, and doubles by their bits.
   Assumes nothing more than compare.h. */
#ifndef PARSNIPROW_COMPARE_PLY_H
#define PARSNIPROW_COMPARE_PLY_H

#include "compare.h"

/* The rows of refusals in the order in which they are tried, and their numbers. */
enum { AXIS, LENGTHS, PAST, OFFSET, REST, SPACING, QUAD, ROOM, ROWS };

extern const uint32_t ply_refusals[ROWS];

enum { LENGTH = 1, BYTES_A_VERTEX = 24, BYTES_A_QUAD = 17 };

#define ITEMS(list) (sizeof(list) / sizeof *(list))

struct call {
    const char *name;
    uint32_t length[3];
    uint32_t *words, *quads;
    double *offsets;
    size_t words_len, offsets_len, quads_len, file_len, length_len, answer_len;
    double spacing[3];
    struct lying lying;
    unsigned faults; /* bit r: row r is due, were it not for earlier ones */
};

/* A mesh before anything is made wrong about it. */
struct source {
    const char *name;
    uint32_t length[3];
    const uint32_t *words, *quads;
    const double *offsets;
    size_t vertices, quad_count;
};

/* Is this row due? */
int due(const struct call *call, unsigned row);

/* How many cubes a block has, and how many bytes the file of a mesh. */
size_t cubes_of(const uint32_t length[3]);
size_t bytes_needed(size_t vertices, size_t quads);

/* ---- doubles by their bits ---- */

enum { GOOD_OFFSETS = 7, BAD_OFFSETS = 9, GOOD_SPACINGS = 6, BAD_SPACINGS = 10 };

/* From 0 to 1: zeros, the least above, the least normal one, a tenth, the last below 1, 1. Else: next above 1, 2, least
   below 0, -1, the infinities, and such as are no number. */
extern const uint64_t good_offsets[GOOD_OFFSETS], bad_offsets[BAD_OFFSETS];

/* Above 0 and at most 1000: the least, the least normal one, a tenth, 1, the last below 1000, 1000. Else: zeros, next
   above 1000, least below 0, -1, the infinities, and such as are no number. */
extern const uint64_t good_spacings[GOOD_SPACINGS], bad_spacings[BAD_SPACINGS];

double of_bits(uint64_t bits);

/* ---- calls ---- */

/* Nothing wrong, all lengths exact, spacings 0.1, 0.2 and 0.5; not lent yet. */
struct call good_call(const struct source *source, struct lying lying);

/* Lends the mesh with the lengths of the call. What is behind the mesh holds the patterns, and no vertex and no quad
   that they make is good. */
void lend_mesh(struct call *call, const struct source *source);

/* Gives back what was lent, so that long meshes do not slow short ones. */
void give_back_mesh(void);

/* Asks plain and the library, and compares. */
void run_call(const struct call *call);

/* The same with a question whose answer the request says: a refusal and its value, or 0 and 0. */
void expect(const struct call *call, uint32_t number, uint32_t value);

/* The same without plain, for a refusal that takes seconds. */
void expect_of_library(const struct call *call, uint32_t number, uint32_t value);

/* The file of the call that was run last has so many bytes, and these from a place on. */
void expect_bytes(const struct call *call, size_t length, size_t at, const void *bytes, size_t count);

#endif
