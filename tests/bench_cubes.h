/* The nine cubes that the paper has on the bench, with their masks at t = 100; and cubes with a noise figure that just
   joins or just parts them.
   Assumes nothing. */
#ifndef PARSNIPROW_BENCH_CUBES_H
#define PARSNIPROW_BENCH_CUBES_H

#include <stdint.h>

enum { BENCH_CUBES = 9, BENCH_THRESHOLD = 100 };

struct bench_cube {
    const char *name;
    uint16_t corners[8];
    unsigned count;
    uint32_t masks[4];
};

extern const struct bench_cube bench_cubes[BENCH_CUBES];

enum { NOISE_CUBES = 15 };

/* A cube with its own threshold and noise figure, and the words of its loops, which have the mark. */
struct noise_cube {
    const char *name;
    uint16_t corners[8], t;
    uint32_t noise;
    unsigned count;
    uint32_t words[4];
};

extern const struct noise_cube noise_cubes[NOISE_CUBES];

#endif
