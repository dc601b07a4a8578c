/* Random numbers, sizes, thresholds, grey values, blocks of samples and noise figures for the comparison with the plain
   implementation.
   Assumes nothing; the same seed gives the same numbers on every machine. */
#ifndef PARSNIPROW_BLOCKS_H
#define PARSNIPROW_BLOCKS_H

#include <stddef.h>
#include <stdint.h>

enum { CEILING = 65535, HIGHEST = 65534, SHORTEST_AXIS = 2, LONGEST_AXIS = 256 };

struct chance {
    uint64_t state;
};

/* A row of random numbers of its own for each block, so that a block can be run alone. */
struct chance chance_of(uint64_t seed, uint64_t block);

/* A number from 0 to end - 1; end is at least 1. */
uint64_t chance_below(struct chance *chance, uint64_t end);

/* Yes in this many of a hundred cases. */
int chance_in_100(struct chance *chance, unsigned cases);

/* Three axis lengths from 2 to 256: mostly small, sometimes with rows of more than 64 samples.
   Where inner is set each is at least 3, so that the block has inner edges. */
void choose_size(struct chance *chance, int inner, uint32_t length[3]);

/* nx * ny * nz, or the highest number where it is more than that. */
uint64_t sample_product(const uint32_t length[3]);

/* Two to five samples an axis. Where that is to be wrong, one axis or several get a length that no block has. */
void choose_any_axes(struct chance *chance, int is_wrong, uint32_t length[3]);

/* The number of samples that the axes ask for. Where that is to be wrong, or is too many to be lent, mostly another
   number; at most MOST_ANY_SAMPLES. */
enum { MOST_ANY_SAMPLES = 8192 };
size_t choose_any_count(struct chance *chance, int is_wrong, uint64_t wanted);

/* A threshold from 1 to 65534. */
uint16_t choose_threshold(struct chance *chance);

enum kind {
    UNIFORM_NOISE,
    NEAR_THRESHOLD,
    EQUAL_PRODUCTS,
    LARGE_PRODUCTS,
    CHECKERBOARD,
    ROUGH_CHECKERBOARD,
    PORES,
    ALL_METAL,
    ALL_HOLLOW,
    PLANE,
    SPARSE,
    EXTREMES,
    SINGLE_PORE,
    TILED,
    KINDS
};

extern const char *const kind_names[KINDS];

/* A grey value from 0 to 65534, often at the threshold or beside it. */
uint16_t choose_grey(struct chance *chance, uint16_t t);

/* A grey value of metal or of hollow, often as near to the threshold or as far from it as can be. */
uint16_t choose_sign(struct chance *chance, int is_metal, uint16_t t);

/* Fills a block with grey values from 0 to 65534. TILED puts the paper's nine cubes side by side, as they stand there
   where t is 100 and moved with the threshold elsewhere. */
void fill_block(struct chance *chance, enum kind kind, const uint32_t length[3], uint16_t t, uint16_t *samples);

/* Puts some samples of a block at the ceiling: a few, of which often the first or the last; all in a box, as a steel
   bush does; all that are bright; or some with nothing but metal round them. Where the block has no such sample, a
   few. */
void add_ceilings(struct chance *chance, const uint32_t length[3], uint16_t t, uint16_t *samples);

/* ---- noise figures ---- */

enum { CUBE_CORNERS = 8, CUBE_FACES = 6 };

/* A face of a cube with four crossed edges. With a noise figure up to the limit its metal is joined, and with a larger
   one it is parted. The limit is below 0 where no noise figure joins it. */
struct doubtful {
    int64_t of_metal, of_hollow; /* the products of the differences */
    int64_t limit;
    int is_first_metal; /* whether the lowest of its four corners is metal */
};

/* Whether a face of a cube is doubtful, and if so what it is. Faces x=0, x=1, y=0, y=1, z=0, z=1 are 0 to 5. */
int is_doubtful(const uint16_t corner[CUBE_CORNERS], uint16_t t, unsigned face, struct doubtful *doubtful);

/* The corners of the cube with this number in a block. */
void corners_of(const uint32_t length[3], const uint16_t *samples, size_t number, uint16_t corner[CUBE_CORNERS]);

/* How many faces a noise figure decides otherwise than 0 does, and whether there is a doubtful one at all. A face
   between two cubes counts for each of them. */
struct noise_effect {
    int has_doubtful;
    uint64_t at_limit, one_above, parted; /* of noise figures above 0 */
};

struct noise_effect effect_of(const uint32_t length[3], uint16_t t, uint32_t noise, const uint16_t *samples);

/* A noise figure for a block: often 0, often at the limit of a doubtful face of the block or one beside it, else small,
   one of those that the rules turn on, or any. For a cube the block is 2 by 2 by 2. The threshold must be one from 1 to
   65534. */
uint32_t choose_noise(struct chance *chance, const uint32_t length[3], uint16_t t, const uint16_t *samples);

/* The same where something may be wrong about the block or the threshold: then 0 or any. */
uint32_t choose_any_noise(struct chance *chance, int is_wrong, const uint32_t length[3], uint16_t t,
                          const uint16_t *samples);

/* The same for a single cube, about which nothing is wrong. */
uint32_t choose_cube_noise(struct chance *chance, const uint16_t corner[CUBE_CORNERS], uint16_t t);

#endif
