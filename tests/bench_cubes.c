/* The nine cubes of the paper, section "Samples on the bench", copied from its table; then cubes with a noise figure.
   Assumes nothing. */
#include "bench_cubes.h"

const struct bench_cube bench_cubes[BENCH_CUBES] = {
    {"eight times 99", {99, 99, 99, 99, 99, 99, 99, 99}, 0, {0}},
    {"eight times 100", {100, 100, 100, 100, 100, 100, 100, 100}, 0, {0}},
    {"200, seven times 0", {200, 0, 0, 0, 0, 0, 0, 0}, 1, {0x111}},
    {"110,0,0,110,0,0,0,0", {110, 0, 0, 110, 0, 0, 0, 0}, 2, {0x111, 0x822}},
    {"300,50,50,300,0,0,0,0", {300, 50, 50, 300, 0, 0, 0, 0}, 1, {0x933}},
    {"200,0,0,200,0,0,0,0 (tie)", {200, 0, 0, 200, 0, 0, 0, 0}, 1, {0x933}},
    {"100,99,99,65534,0,0,0,0", {100, 99, 99, 65534, 0, 0, 0, 0}, 2, {0x111, 0x822}},
    {"110,0,0,110,0,110,110,0", {110, 0, 0, 110, 0, 110, 110, 0}, 4, {0x111, 0x822, 0x284, 0x448}},
    {"300,50,50,300,50,300,300,50", {300, 50, 50, 300, 50, 300, 300, 50}, 4, {0x221, 0x412, 0x144, 0x888}},
};

/* The face z=0 decides the first ten. Its metal is joined if the product of the metal is at least that of the hollow
   and the noise figure together: at a tie of 10000 and 10000; at 40000 and 2500, which are 37500 apart; and at
   4294705156 and 1, which are as far apart as can be. The first two pairs come with a first corner of metal and of
   hollow. */
const struct noise_cube noise_cubes[NOISE_CUBES] = {
    {"200,0,0,200,0,0,0,0, noise 0", {200, 0, 0, 200, 0, 0, 0, 0}, 100, 0, 1, {0x933}},
    {"the same, noise 1", {200, 0, 0, 200, 0, 0, 0, 0}, 100, 1, 2, {0x111, 0x822}},
    {"0,200,200,0,0,0,0,0, noise 0", {0, 200, 200, 0, 0, 0, 0, 0}, 100, 0, 1, {0x633}},
    {"the same, noise 1", {0, 200, 200, 0, 0, 0, 0, 0}, 100, 1, 2, {0x221, 0x412}},
    {"300,50,50,300,0,0,0,0, noise 37500", {300, 50, 50, 300, 0, 0, 0, 0}, 100, 37500, 1, {0x933}},
    {"the same, noise 37501", {300, 50, 50, 300, 0, 0, 0, 0}, 100, 37501, 2, {0x111, 0x822}},
    {"50,300,300,50,0,0,0,0, noise 37500", {50, 300, 300, 50, 0, 0, 0, 0}, 100, 37500, 1, {0x633}},
    {"the same, noise 37501", {50, 300, 300, 50, 0, 0, 0, 0}, 100, 37501, 2, {0x221, 0x412}},
    {"65535,0,0,65535,0,0,0,0, noise 4294705155",
     {65535, 0, 0, 65535, 0, 0, 0, 0},
     1,
     UINT32_C(4294705155),
     1,
     {0x1933}},
    {"the same, noise 4294705156", {65535, 0, 0, 65535, 0, 0, 0, 0}, 1, UINT32_C(4294705156), 2, {0x1111, 0x1822}},
    /* B * D and the noise figure have more than 32 bits together, and 0 in the low ones: 10000 and 4294957296 */
    {"200,0,0,200,0,0,0,0, noise 2^32 - 10000",
     {200, 0, 0, 200, 0, 0, 0, 0},
     100,
     UINT32_C(4294957296),
     2,
     {0x111, 0x822}},
    /* the low 16 bits of the noise figure are 0 */
    {"the same, noise 65536", {200, 0, 0, 200, 0, 0, 0, 0}, 100, 65536, 2, {0x111, 0x822}},
    /* metal that is parted stays so, and a cube without a doubtful face stays as it is */
    {"110,0,0,110,0,0,0,0, noise 9900", {110, 0, 0, 110, 0, 0, 0, 0}, 100, 9900, 2, {0x111, 0x822}},
    {"200, seven times 0, noise 4294967295", {200, 0, 0, 0, 0, 0, 0, 0}, 100, UINT32_MAX, 1, {0x111}},
    /* all six faces are doubtful; the metal of four corners is parted on each */
    {"300,50,50,300,50,300,300,50, noise 37501",
     {300, 50, 50, 300, 50, 300, 300, 50},
     100,
     37501,
     4,
     {0x111, 0x822, 0x284, 0x448}},
};
