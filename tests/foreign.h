/* Foreign meshes: how such a mesh is made of a block, put in another order, and changed at one place, so that it is
   known what must be said of it. Assumes nothing; the same chance gives the same changes on every machine. */
#ifndef PARSNIPROW_FOREIGN_H
#define PARSNIPROW_FOREIGN_H

#include "blocks.h"

/* ---- meshes and their order ---- */

/* A mesh with room for a few vertices and quads more, SPARE of each. */
enum { SPARE = 16 };

struct foreign {
    uint32_t *words, *quads;
    double *offsets;
    size_t vertices, quad_count, vertex_room, quad_room;
};

/* The functions that make a mesh of a block. */
typedef void mesher(uint32_t nx, uint32_t ny, uint32_t nz, const uint16_t *samples, size_t samples_len, uint16_t t,
                    uint32_t noise, uint32_t *words, size_t words_len, double *offsets, size_t offsets_len,
                    uint32_t *quads, size_t quads_len, uint32_t *answer, size_t answer_len);

/* The mesh of a good block, in place of what the foreign mesh was; an empty one where that is refused. */
void make_foreign(struct foreign *foreign, mesher *by, const uint32_t length[3], const uint16_t *samples, uint16_t t,
                  uint32_t noise);
void copy_foreign(struct foreign *to, const struct foreign *from);
void free_foreign(struct foreign *foreign);

/* Exchanges the numbers of two vertices; the quads name them by their new numbers. */
void exchange_vertices(struct foreign *foreign, size_t a, size_t b);
void exchange_quads(struct foreign *foreign, size_t a, size_t b);

/* The same mesh in a random order. */
void shuffle_vertices(struct chance *chance, struct foreign *foreign);
void shuffle_quads(struct chance *chance, struct foreign *foreign);

/* The same mesh, each quad begun at any of its vertices. */
void turn_quad(uint32_t quad[4], unsigned by);
void turn_quads(struct chance *chance, struct foreign *foreign);

/* Adds a vertex or a quad at the end, as a copy of one that is there. */
void add_vertex(struct foreign *foreign, size_t like);
void add_quad(struct foreign *foreign, const uint32_t quad[4]);

/* Does the quad name the vertex? */
int names_vertex(const struct foreign *foreign, size_t q, size_t vertex);

/* ---- changes ---- */

/* What is said of a mesh, as the third item of an answer; where it is SAME_MESH, the second is 1. */
enum { SAME_MESH, VERTEX_AT_FAULT, QUAD_AT_FAULT, SOME_MISSING, NOT_KNOWN };

/* The block of which a mesh was made. */
struct origin {
    uint32_t length[3];
    uint16_t t;
    const uint16_t *samples;
};

/* A mesh that is being changed, and what must be said of it if nothing else is changed. */
struct making {
    struct chance *chance;
    struct foreign *foreign;
    const struct origin *origin;
    uint32_t fault;
    size_t at;
    unsigned bad_axes; /* bit a: an offset along axis a was made bad */
};

/* What a change is about: it leaves the mesh as good as it was, makes a vertex or a quad bad, or leaves some out. */
enum about { NOTHING, A_VERTEX, A_QUAD, WHAT_IS_MISSING };

/* Makes a change at a random place. Where the mesh has no such place it is left as it is, and the answer is 0. */
struct change {
    const char *name;
    int (*make)(struct making *);
    enum about about;
};

enum { CHANGES = 34 };

extern const struct change changes[CHANGES];

/* One of so many, often the first or the last. */
size_t choose_one(struct chance *chance, size_t count);

#endif
