/* What the programs here that read a block share: the block, memory for it, and how they stop. */
#ifndef RAW_H
#define RAW_H

#include <stddef.h>
#include <stdint.h>

/* A block of grey values, x fastest, and its threshold. */
struct block {
    uint32_t length[3];
    size_t sample_count;
    uint16_t *samples, t;
};

/* The name before what a program says; each defines its own. */
extern const char program[];

/* Says what is wrong and ends the program with status 2. */
void stop(const char *what);

/* Memory of that many bytes and one more; stops where there is none. */
void *taken(size_t bytes);

/* The block that five words name: a file of raw little-endian 16-bit numbers, nx, ny, nz, t. Stops where the file does
   not hold just so many. The samples are to be given back by free. */
struct block read_block(char *const words[5]);

/* The readings in a file of raw little-endian 32-bit floats. Stops where the file does not hold just so many. They are
   to be given back by free. Assumes that a float is an IEEE 754 single. */
float *read_readings(const char *name, size_t count);

#endif
