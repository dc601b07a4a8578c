/* Small blocks with their crossed edges, vertices and quads, worked out by hand, for the plain implementation and for
   the library; and blocks of any size in which a formula gives the crossed edges: boards, boxes and grains.
   Assumes nothing. */
#ifndef PARSNIPROW_HAND_BLOCKS_H
#define PARSNIPROW_HAND_BLOCKS_H

#include <stddef.h>
#include <stdint.h>

enum { HAND_BLOCKS = 55, MOST_HAND_SAMPLES = 48, MOST_ODD = 2 };

/* All samples are alike but for one or two, the odd ones. */
struct hand_block {
    const char *name;
    uint32_t length[3];
    size_t samples_len; /* which decides about a refusal */
    uint16_t t;
    uint32_t noise;
    uint16_t others;
    unsigned odd_count;
    struct {
        uint32_t at[3];
        uint16_t value;
    } odd[MOST_ODD];
    uint32_t answer[3];
    uint32_t vertices, quads; /* where the block is not refused */
};

extern const struct hand_block hand_blocks[HAND_BLOCKS];

void fill_hand_block(const struct hand_block *block, uint16_t *samples);

/* A board: neighbours are never alike. The first value is that of sample (0, 0, 0). */
void fill_board(const uint32_t length[3], uint16_t first, uint16_t second, uint16_t *samples);

/* All edges of a block, which are the crossed ones of a board; and those of them that lie on no face of the box. */
uint32_t all_edges(const uint32_t length[3]);
uint32_t inner_edges(const uint32_t length[3]);

/* A box of samples, from one to below another along each axis. There is at least one sample in it. */
struct box {
    uint32_t from[3], to[3];
};

/* The samples in the box have one value, and all others the other one. */
void fill_box(const uint32_t length[3], const struct box *box, uint16_t inside, uint16_t outside, uint16_t *samples);

/* The crossed edges, where one of the two values is metal and the other hollow. */
uint32_t edges_of_box(const uint32_t length[3], const struct box *box);

/* Grains of one sample each, on no face of the box, of which no two are neighbours. Where they are close, two often
   share a face of a cube; else no two share a cube. All other samples are alike. Gives the number of grains. */
uint32_t fill_grains(const uint32_t length[3], int is_close, uint16_t grain, uint16_t others, uint16_t *samples);

#endif
