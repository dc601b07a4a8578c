/* Small blocks with their crossed edges, each with a noise figure, and formulas for blocks of any size. A sample has
   six edges within a block, five on a face of the box, four where two faces meet and three at a corner. How the other
   numbers come about stands beside the block. "Both bounds" says that they are reached: three times the vertices is
   four times the crossed edges, and there is a quad for each crossed edge.
   Assumes nothing. */
#include "hand_blocks.h"

enum { CEILING = 65535, HIGHEST = 65534 };

const struct hand_block hand_blocks[HAND_BLOCKS] = {
    /* ---- one sample among others ---- */
    /* a vertex for each of the eight cubes, and a quad for each edge: 24 of 24 and 6 of 6, so both bounds */
    {"the paper's block: 6", {3, 3, 3}, 27, 100, 0, 0, 1, {{{1, 1, 1}, 400}}, {0, 6, 0}, 8, 6},
    {"a pore for its grain: 6", {3, 3, 3}, 27, 100, 0, 400, 1, {{{1, 1, 1}, 0}}, {0, 6, 0}, 8, 6},
    /* four cubes hold it; of its edges only the one that leaves the face is on no face */
    {"metal on a face of the box: 5", {3, 3, 3}, 27, 100, 0, 0, 1, {{{1, 1, 0}, 400}}, {0, 5, 0}, 4, 1},
    {"on the last face: 5", {3, 3, 3}, 27, 100, 0, 0, 1, {{{1, 1, 2}, 400}}, {0, 5, 0}, 4, 1},
    /* two cubes hold it, and each of its edges is on a face */
    {"where two faces meet: 4", {3, 3, 3}, 27, 100, 0, 0, 1, {{{1, 0, 0}, 400}}, {0, 4, 0}, 2, 0},
    {"where the last two meet: 4", {3, 3, 3}, 27, 100, 0, 0, 1, {{{1, 2, 2}, 400}}, {0, 4, 0}, 2, 0},
    {"at the first corner: 3", {3, 3, 3}, 27, 100, 0, 0, 1, {{{0, 0, 0}, 400}}, {0, 3, 0}, 1, 0},
    {"at the last corner: 3", {3, 3, 3}, 27, 100, 0, 0, 1, {{{2, 2, 2}, 400}}, {0, 3, 0}, 1, 0},
    {"a corner of 2, 2, 2: 3", {2, 2, 2}, 8, 100, 0, 0, 1, {{{1, 0, 1}, 400}}, {0, 3, 0}, 1, 0},
    {"a hollow corner of 2, 2, 2: 3", {2, 2, 2}, 8, 100, 0, 400, 1, {{{0, 1, 0}, 0}}, {0, 3, 0}, 1, 0},

    /* ---- two samples among others ---- */
    /* six and three, and the ninth vertex is that of the last corner */
    {"the paper's, its end a ceiling: 9",
     {3, 3, 3},
     27,
     100,
     0,
     0,
     2,
     {{{1, 1, 1}, 400}, {{2, 2, 2}, CEILING}},
     {0, 9, 0},
     9,
     6},
    /* twelve cubes; the edge between the two is not crossed, so each has five */
    {"two neighbours: 10", {4, 3, 3}, 36, 100, 0, 0, 2, {{{1, 1, 1}, 400}, {{2, 1, 1}, 400}}, {0, 10, 0}, 12, 10},
    /* no cube holds both: 48 of 48 and 12 of 12, so both bounds */
    {"two with one between them: 12",
     {3, 3, 5},
     45,
     100,
     0,
     0,
     2,
     {{{1, 1, 1}, 400}, {{1, 1, 3}, 400}},
     {0, 12, 0},
     16,
     12},
    /* two cubes hold both. 200 * 200 is at least 100 * 100, so there they have one vertex for both: 42 of 48 */
    {"two across a face, joined: 12",
     {4, 4, 3},
     48,
     100,
     0,
     0,
     2,
     {{{1, 1, 1}, 300}, {{2, 2, 1}, 300}},
     {0, 12, 0},
     14,
     12},
    /* 10 * 10 is less than 100 * 100, so there they have a vertex each: both bounds */
    {"two across a face, not joined: 12",
     {4, 4, 3},
     48,
     100,
     0,
     0,
     2,
     {{{1, 1, 1}, 110}, {{2, 2, 1}, 110}},
     {0, 12, 0},
     16,
     12},
    /* each has three edges, of which the one between them is not crossed */
    {"two neighbours in 2, 2, 2: 4", {2, 2, 2}, 8, 100, 0, 0, 2, {{{0, 0, 0}, 400}, {{0, 0, 1}, 400}}, {0, 4, 0}, 1, 0},
    {"across a face, joined: 6", {2, 2, 2}, 8, 100, 0, 0, 2, {{{0, 0, 0}, 200}, {{1, 1, 0}, 200}}, {0, 6, 0}, 1, 0},
    {"across a face, not joined: 6", {2, 2, 2}, 8, 100, 0, 0, 2, {{{0, 0, 0}, 110}, {{0, 1, 1}, 110}}, {0, 6, 0}, 2, 0},
    {"across the cube: 6", {2, 2, 2}, 8, 100, 0, 0, 2, {{{0, 0, 0}, 400}, {{1, 1, 1}, 400}}, {0, 6, 0}, 2, 0},

    /* ---- no crossed edge ---- */
    {"all hollow: 0", {3, 3, 3}, 27, 100, 0, 0, 0, {{{0, 0, 0}, 0}}, {0, 0, 0}, 0, 0},
    {"all metal: 0", {3, 3, 3}, 27, 100, 0, 400, 0, {{{0, 0, 0}, 0}}, {0, 0, 0}, 0, 0},
    {"nothing but ceilings: 0", {3, 3, 3}, 27, 100, 0, CEILING, 0, {{{0, 0, 0}, 0}}, {0, 0, 0}, 0, 0},
    {"a ceiling with metal all round: 0", {3, 3, 3}, 27, 100, 0, 200, 1, {{{1, 1, 1}, CEILING}}, {0, 0, 0}, 0, 0},
    {"65535 among 65534, t = 65534: 0", {3, 3, 3}, 27, HIGHEST, 0, HIGHEST, 1, {{{1, 1, 1}, CEILING}}, {0, 0, 0}, 0, 0},

    /* ---- at the threshold ---- */
    {"t among t - 1: 6", {3, 3, 3}, 27, 100, 0, 99, 1, {{{1, 1, 1}, 100}}, {0, 6, 0}, 8, 6},
    {"t - 1 among t: 6", {3, 3, 3}, 27, 100, 0, 100, 1, {{{1, 1, 1}, 99}}, {0, 6, 0}, 8, 6},
    {"1 among 0, t = 1: 6", {3, 3, 3}, 27, 1, 0, 0, 1, {{{1, 1, 1}, 1}}, {0, 6, 0}, 8, 6},
    {"65535 among 65533, t = 65534: 6", {3, 3, 3}, 27, HIGHEST, 0, 65533, 1, {{{1, 1, 1}, CEILING}}, {0, 6, 0}, 8, 6},
    {"65533 among 65535, t = 65534: 6", {3, 3, 3}, 27, HIGHEST, 0, CEILING, 1, {{{1, 1, 1}, 65533}}, {0, 6, 0}, 8, 6},

    /* ---- refused ---- */
    {"axes 1, 2, 2: 1, value 0", {1, 2, 2}, 4, 100, 0, 0, 1, {{{0, 1, 1}, 400}}, {1, 0, 0}, 0, 0},
    {"axes 2, 0, 300: 1, value 1", {2, 0, 300}, 0, 100, 0, 0, 0, {{{0, 0, 0}, 0}}, {1, 1, 0}, 0, 0},
    {"axes 2, 2, 257: 1 before 2, value 2", {2, 2, 257}, 8, 100, 0, 0, 0, {{{0, 0, 0}, 0}}, {1, 2, 0}, 0, 0},
    {"one sample less: 2, value 27", {3, 3, 3}, 26, 100, 0, 0, 1, {{{1, 1, 1}, 400}}, {2, 27, 0}, 0, 0},
    {"one sample more: 2, value 27", {3, 3, 3}, 28, 100, 0, 0, 1, {{{1, 1, 1}, 400}}, {2, 27, 0}, 0, 0},
    {"the longest axes: 2, value 16777216", {256, 256, 256}, 0, 100, 0, 0, 0, {{{0, 0, 0}, 0}}, {2, 16777216, 0}, 0, 0},
    {"t = 0: 3, value 0", {3, 3, 3}, 27, 0, 0, 0, 1, {{{1, 1, 1}, 400}}, {3, 0, 0}, 0, 0},
    {"t = 65535: 3, value 65535", {3, 3, 3}, 27, CEILING, 0, 0, 1, {{{1, 1, 1}, CEILING}}, {3, 65535, 0}, 0, 0},
    {"a sample less and t = 0: 2 before 3", {3, 3, 3}, 26, 0, 0, 0, 1, {{{1, 1, 1}, 400}}, {2, 27, 0}, 0, 0},
    {"axis 1 and t = 65535: 1 before 3", {2, 1, 2}, 4, CEILING, 0, 0, 1, {{{1, 0, 0}, 400}}, {1, 1, 0}, 0, 0},
    {"all three at once: 1", {257, 2, 2}, 8, 0, 0, 0, 0, {{{0, 0, 0}, 0}}, {1, 0, 0}, 0, 0},

    /* ---- with a noise figure ---- */
    /* 100 * 100 is at least 100 * 100 and 0 together, and not at least that and 1 */
    {"across a face, a tie, noise 1: 6",
     {2, 2, 2},
     8,
     100,
     1,
     0,
     2,
     {{{0, 0, 0}, 200}, {{1, 1, 0}, 200}},
     {0, 6, 0},
     2,
     0},
    {"the other corners, noise 0: 6",
     {2, 2, 2},
     8,
     100,
     0,
     0,
     2,
     {{{1, 0, 0}, 200}, {{0, 1, 0}, 200}},
     {0, 6, 0},
     1,
     0},
    {"the other corners, noise 1: 6",
     {2, 2, 2},
     8,
     100,
     1,
     0,
     2,
     {{{1, 0, 0}, 200}, {{0, 1, 0}, 200}},
     {0, 6, 0},
     2,
     0},
    /* 200 * 200 is at least 100 * 100 and 30000 together, and not at least that and 30001 */
    {"two across a face, noise 30000: 12",
     {4, 4, 3},
     48,
     100,
     30000,
     0,
     2,
     {{{1, 1, 1}, 300}, {{2, 2, 1}, 300}},
     {0, 12, 0},
     14,
     12},
    {"two across a face, noise 30001: 12",
     {4, 4, 3},
     48,
     100,
     30001,
     0,
     2,
     {{{1, 1, 1}, 300}, {{2, 2, 1}, 300}},
     {0, 12, 0},
     16,
     12},
    {"across a face along z, noise 30000: 12",
     {3, 4, 4},
     48,
     100,
     30000,
     0,
     2,
     {{{1, 2, 1}, 300}, {{1, 1, 2}, 300}},
     {0, 12, 0},
     14,
     12},
    {"across a face along z, noise 30001: 12",
     {3, 4, 4},
     48,
     100,
     30001,
     0,
     2,
     {{{1, 2, 1}, 300}, {{1, 1, 2}, 300}},
     {0, 12, 0},
     16,
     12},
    /* two pores: where the metal between them is parted, they have one vertex for both. 100 * 100 is 9900 above 10 * 10
     */
    {"two pores, noise 9900: 12",
     {4, 3, 4},
     48,
     100,
     9900,
     200,
     2,
     {{{1, 1, 1}, 90}, {{2, 1, 2}, 90}},
     {0, 12, 0},
     16,
     12},
    {"two pores, noise 9901: 12",
     {4, 3, 4},
     48,
     100,
     9901,
     200,
     2,
     {{{1, 1, 1}, 90}, {{2, 1, 2}, 90}},
     {0, 12, 0},
     14,
     12},
    /* 65534 * 65534 is 4294705155 above 1 * 1 */
    {"the most that can be joined: 6",
     {2, 2, 2},
     8,
     1,
     UINT32_C(4294705155),
     0,
     2,
     {{{0, 0, 0}, CEILING}, {{0, 1, 1}, CEILING}},
     {0, 6, 0},
     1,
     0},
    {"one more: 6",
     {2, 2, 2},
     8,
     1,
     UINT32_C(4294705156),
     0,
     2,
     {{{0, 0, 0}, CEILING}, {{0, 1, 1}, CEILING}},
     {0, 6, 0},
     2,
     0},
    {"the paper's block, the greatest noise: 6",
     {3, 3, 3},
     27,
     100,
     UINT32_MAX,
     0,
     1,
     {{{1, 1, 1}, 400}},
     {0, 6, 0},
     8,
     6},
    {"two in a row, the greatest noise: 10",
     {4, 3, 3},
     36,
     100,
     UINT32_MAX,
     0,
     2,
     {{{1, 1, 1}, 400}, {{2, 1, 1}, 400}},
     {0, 10, 0},
     12,
     10},
    {"t = 0 and the greatest noise: 3, value 0",
     {3, 3, 3},
     27,
     0,
     UINT32_MAX,
     0,
     1,
     {{{1, 1, 1}, 400}},
     {3, 0, 0},
     0,
     0},
    {"axis 1 and noise 1: 1, value 1", {2, 1, 2}, 4, 100, 1, 0, 1, {{{1, 0, 0}, 400}}, {1, 1, 0}, 0, 0},
};

static size_t index_of(const uint32_t length[3], const uint32_t at[3])
{
    return at[0] + length[0] * (at[1] + (size_t)length[1] * at[2]);
}

void fill_hand_block(const struct hand_block *block, uint16_t *samples)
{
    for (size_t index = 0; index < block->samples_len; index++)
        samples[index] = block->others;
    for (unsigned i = 0; i < block->odd_count; i++)
        samples[index_of(block->length, block->odd[i].at)] = block->odd[i].value;
}

/* ---- boards ---- */

void fill_board(const uint32_t length[3], uint16_t first, uint16_t second, uint16_t *samples)
{
    size_t index = 0;
    for (uint32_t k = 0; k < length[2]; k++)
        for (uint32_t j = 0; j < length[1]; j++)
            for (uint32_t i = 0; i < length[0]; i++)
                samples[index++] = (i + j + k) % 2 == 0 ? first : second;
}

/* Along an axis each line of samples has an edge less than samples. */
uint32_t all_edges(const uint32_t length[3])
{
    uint32_t nx = length[0], ny = length[1], nz = length[2];
    return (nx - 1) * ny * nz + nx * (ny - 1) * nz + nx * ny * (nz - 1);
}

/* The same for the lines that are on no face of the box. */
uint32_t inner_edges(const uint32_t length[3])
{
    uint32_t nx = length[0], ny = length[1], nz = length[2];
    return (nx - 1) * (ny - 2) * (nz - 2) + (nx - 2) * (ny - 1) * (nz - 2) + (nx - 2) * (ny - 2) * (nz - 1);
}

/* ---- boxes ---- */

void fill_box(const uint32_t length[3], const struct box *box, uint16_t inside, uint16_t outside, uint16_t *samples)
{
    uint32_t at[3];
    size_t index = 0;
    for (at[2] = 0; at[2] < length[2]; at[2]++)
        for (at[1] = 0; at[1] < length[1]; at[1]++)
            for (at[0] = 0; at[0] < length[0]; at[0]++) {
                int is_inside = 1;
                for (unsigned axis = 0; axis < 3; axis++)
                    is_inside = is_inside && at[axis] >= box->from[axis] && at[axis] < box->to[axis];
                samples[index++] = is_inside ? inside : outside;
            }
}

/* Each side of the box that is not at the block's end is crossed once for each of its samples. */
uint32_t edges_of_box(const uint32_t length[3], const struct box *box)
{
    uint32_t edges = 0;
    for (unsigned axis = 0; axis < 3; axis++) {
        unsigned second = (axis + 1) % 3, third = (axis + 2) % 3;
        uint32_t sides = (uint32_t)(box->from[axis] > 0) + (uint32_t)(box->to[axis] < length[axis]);
        edges += sides * (box->to[second] - box->from[second]) * (box->to[third] - box->from[third]);
    }
    return edges;
}

/* ---- grains ---- */

uint32_t fill_grains(const uint32_t length[3], int is_close, uint16_t grain, uint16_t others, uint16_t *samples)
{
    uint32_t at[3], count = 0;
    size_t index = 0;
    for (at[2] = 0; at[2] < length[2]; at[2]++)
        for (at[1] = 0; at[1] < length[1]; at[1]++)
            for (at[0] = 0; at[0] < length[0]; at[0]++) {
                int is_grain = is_close ? (at[0] + at[1] + at[2]) % 2 == 1 : at[0] % 2 + at[1] % 2 + at[2] % 2 == 3;
                for (unsigned axis = 0; axis < 3; axis++)
                    is_grain = is_grain && at[axis] > 0 && at[axis] + 1 < length[axis];
                samples[index++] = is_grain ? grain : others;
                count += (uint32_t)is_grain;
            }
    return count;
}
