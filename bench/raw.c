/* The block that a program is given by a file, memory for it, and how the program stops; raw.h explains it. */
#include "raw.h"

#include <stdio.h>
#include <stdlib.h>
#include <string.h>

void stop(const char *what)
{
    fprintf(stderr, "%s: %s\n", program, what);
    exit(2);
}

void *taken(size_t bytes)
{
    void *memory = malloc(bytes + 1);
    if (!memory)
        stop("no memory");
    return memory;
}

/* The bytes of a file, which must have just so many; else it stops and says so. */
static unsigned char *bytes_in(const char *name, size_t count, const char *otherwise)
{
    FILE *file = fopen(name, "rb");
    unsigned char *bytes = taken(count);
    if (!file || fread(bytes, 1, count + 1, file) != count)
        stop(otherwise);
    fclose(file);
    return bytes;
}

struct block read_block(char *const words[5])
{
    struct block block;
    unsigned char *bytes;
    for (int axis = 0; axis < 3; axis++)
        block.length[axis] = (uint32_t)strtoul(words[1 + axis], NULL, 10);
    block.t = (uint16_t)strtoul(words[4], NULL, 10);
    block.sample_count = (size_t)block.length[0] * block.length[1] * block.length[2];
    bytes = bytes_in(words[0], 2 * block.sample_count, "the file does not hold nx * ny * nz samples");
    block.samples = taken(2 * block.sample_count);
    for (size_t index = 0; index < block.sample_count; index++)
        block.samples[index] = (uint16_t)(bytes[2 * index] | bytes[2 * index + 1] << 8);
    free(bytes);
    return block;
}

float *read_readings(const char *name, size_t count)
{
    unsigned char *bytes = bytes_in(name, 4 * count, "the file does not hold as many readings as there are samples");
    float *readings = taken(count * sizeof *readings);
    for (size_t index = 0; index < count; index++) {
        const unsigned char *at = bytes + 4 * index;
        uint32_t bits = at[0] | (uint32_t)at[1] << 8 | (uint32_t)at[2] << 16 | (uint32_t)at[3] << 24;
        memcpy(&readings[index], &bits, sizeof bits);
    }
    free(bytes);
    return readings;
}
