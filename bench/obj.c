/* Writes the library's mesh of one block as a Wavefront OBJ file, quads as they are. Each piece of the mesh is a group,
   and its number is the group's name.
   Usage: obj file nx ny nz t out.obj, the file raw little-endian 16-bit numbers, x fastest. Places are in grid steps
   from sample (0, 0, 0).
   Assumes that the library is linked in. A refused block gives its number and value on standard error and status 1. */
#include "../include/parsniprow.h"
#include "raw.h"

#include <stdio.h>
#include <stdlib.h>

enum { ANSWER = 3 };

const char program[] = "obj";

static void look_at(const uint32_t answer[ANSWER])
{
    if (answer[0] != 0) {
        fprintf(stderr, "obj: refused, number %u, value %u\n", (unsigned)answer[0], (unsigned)answer[1]);
        exit(1);
    }
}

/* A vertex lies at its cube's corner 0 and its offset; OBJ counts vertices from 1. Quads keep their order, so a group
   is named anew wherever it goes on. */
static void write_mesh(FILE *file, const uint32_t length[3], const uint32_t counted[ANSWER], const uint32_t *words,
                       const double *offsets, const uint32_t *quads, const uint32_t *piece)
{
    for (size_t vertex = 0; vertex < counted[1]; vertex++) {
        uint32_t cube = words[2 * vertex], x = cube % (length[0] - 1), row = cube / (length[0] - 1);
        uint32_t y = row % (length[1] - 1), z = row / (length[1] - 1);
        fprintf(file, "v %.9f %.9f %.9f\n", x + offsets[3 * vertex], y + offsets[3 * vertex + 1],
                z + offsets[3 * vertex + 2]);
    }
    for (size_t quad = 0; quad < counted[2]; quad++) {
        if (quad == 0 || piece[quads[4 * quad]] != piece[quads[4 * quad - 4]])
            fprintf(file, "g %lu\n", (unsigned long)piece[quads[4 * quad]]);
        fprintf(file, "f %lu %lu %lu %lu\n", quads[4 * quad] + 1UL, quads[4 * quad + 1] + 1UL,
                quads[4 * quad + 2] + 1UL, quads[4 * quad + 3] + 1UL);
    }
}

int main(int argc, char **argv)
{
    uint32_t counted[ANSWER], answer[ANSWER], *words, *quads, *piece, *size;
    struct block block;
    double *offsets;
    FILE *file;
    if (argc != 7)
        stop("usage: obj file nx ny nz t out.obj");
    block = read_block(argv + 1);
    parsniprow_counts(block.length[0], block.length[1], block.length[2], block.samples, block.sample_count, block.t, 0,
                      counted, ANSWER);
    look_at(counted);
    words = taken(2 * (size_t)counted[1] * sizeof *words);
    offsets = taken(3 * (size_t)counted[1] * sizeof *offsets);
    quads = taken(4 * (size_t)counted[2] * sizeof *quads);
    parsniprow_mesh(block.length[0], block.length[1], block.length[2], block.samples, block.sample_count, block.t, 0,
                    words, 2 * (size_t)counted[1], offsets, 3 * (size_t)counted[1], quads, 4 * (size_t)counted[2],
                    answer, ANSWER);
    look_at(answer);
    piece = taken(counted[1] * sizeof *piece);
    size = taken(counted[1] * sizeof *size);
    parsniprow_pieces(counted[1], quads, 4 * (size_t)counted[2], piece, counted[1], size, counted[1], answer, ANSWER);
    look_at(answer);
    file = fopen(argv[6], "w");
    if (!file)
        stop("the OBJ file cannot be written");
    write_mesh(file, block.length, counted, words, offsets, quads, piece);
    if (ferror(file) | fclose(file))
        stop("the OBJ file could not be written");
    free(words);
    free(offsets);
    free(quads);
    free(piece);
    free(size);
    free(block.samples);
    return 0;
}
