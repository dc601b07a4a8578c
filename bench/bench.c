/* Times the library and the plain implementation on one block. Usage: bench file nx ny nz t mesh.ply sealed.ply, the
   file raw little-endian 16-bit numbers, x fastest; or bench room file nx ny nz t, see room_... below; or bench
   thresholds file nx ny nz t, see row_... below; or bench planes file nx ny nz t, see planes_... below; or bench
   readings file nx ny nz t readings, see readings_... below; or bench judge file nx ny nz t, see judge_... below; or
   bench worst, see worst_... below. Writes the mesh to mesh.ply, with a spacing of 0.1 millimetres along each axis.
   Where a sample on the six faces of the box is metal, the block is then sealed: all samples there become 0. The mesh
   of the sealed block is written to sealed.ply; of a block that needs no sealing there is no such file. Prints a line
   for each figure, its name and its value:
     crossed, rim, doubtful  crossed edges, steps out of the block from metal samples, faces with four crossed edges
     vertices, quads         of the mesh
     counts, mesh            seconds of the library's two calls; mesh writes into memory that was written to before
     whole                   seconds of counts, of taking memory of that size by malloc, and of mesh, in one go
     plain                   the same of the plain implementation
     bytes                   of the PLY file of the mesh
     ply                     seconds of the library's call that makes that file, in memory that was written to before
     copy                    seconds of memcpy of that file into such memory
     closed                  seconds of the library's call that says whether the mesh is closed; the memory that it
                             works in was written to before
     is_closed               its answer, 1 if the mesh is closed and 0 if not
     fault_quad              the quad of the first side at fault, where it is not
     pieces                  seconds of the library's call that gives each vertex the number of its piece, into buffers
                             that were written to before
     piece_count             how many pieces there are
     longest                 how many links the longest search followed
     sealed_...              vertices, quads, closed and is_closed of the sealed block, where there is one
     room_crossed            seconds of the library's call that counts the crossed edges; bench room prints this and
                             the next three, with crossed, vertices and quads, and nothing else
     room_counts             seconds of the library's call counts; a run is the one call and then the other, on the
                             same memory
     room_ratio              the first divided by the second, of one run; there is a line for each run
     room_plain              seconds of the plain implementation's call that counts the crossed edges
     row_one                 seconds of one call of the library's thresholds with 12 of them, from t - 5500 to t + 5500
                             in steps of 1000; bench thresholds prints this and the next five, and nothing else
     row_each                seconds of 12 calls of the library's counts, one for each of these thresholds; a run is the
                             one call and then the 12, on the same memory
     row_ratio               the first divided by the second, of one run; there is a line for each run
     cold_...                one, each and ratio, as those that begin with row_; but before each call, before the one
                             and before each of the 12, the block is flushed from the caches, which is not timed. Only
                             where the processor has clflush
     planes_all              seconds of the library's calls start, plane for each plane of the block, and end, into the
                             same buffers again and again, which have room for any layer and were written to before;
                             bench planes prints this and the next seven, and nothing else
     planes_mesh             seconds of the library's call mesh alone, into memory that was written to before
     planes_both             seconds of the library's calls counts and mesh, into the same memory
     planes_ratio            the first divided by the second, of one run; a run is the planes, then mesh, then counts
                             and mesh, on the same samples; there is a line for each run, of this and the next two
     planes_both_ratio       the first divided by the third
     planes_slowest_ratio    the slowest call of the planes of a run divided by all its calls
     planes_count            how many planes there are
     planes_bytes            of the buffers that the planes are lent, the work among them; without the plane itself
     readings_counts         seconds of the library's call readings_counts, on the readings in the file of that name,
                             raw little-endian 32-bit floats; bench readings prints this and the next eight, with
                             crossed, and nothing else
     grey_counts             seconds of the library's call counts on the samples that the readings count as
     readings_counts_ratio   the first divided by the second, of one run; a run is the one and then the other; there is
                             a line for each run
     readings_mesh, grey_mesh, readings_mesh_ratio
                             the same of the library's calls readings_mesh and mesh, each into memory of its own that
                             was written to before
     readings_whole, grey_whole, readings_whole_ratio
                             the same of counts, of taking memory of that size by malloc, and of mesh, in one go
     judge_written           seconds of the library's call judge on the mesh as the library's call mesh wrote it;
                             bench judge prints this and the next four, with vertices and quads, and nothing else
     judge_shuffled          the same on that mesh with its vertices and its quads in random order, each quad begun at
                             a random one of its vertices
     judge_mesh              seconds of the library's call mesh, into memory of its own that was written to before
     judge_written_ratio     the first divided by the third, of one run; a run is the first, the second and the third;
                             there is a line for each run, of this and the next
     judge_shuffled_ratio    the second divided by the third
     worst_...               vertices, quads, pieces, piece_count and longest of a list of quads that makes the longest
                             search as long as it can be; bench worst prints these alone. They are of no block, so
                             bench/run asks once
   A time is the best of 15 runs, or of as many as begin within half a second, but at least 2.
   Assumes that both are linked in; built with -DSELF there is no library, and its times and answers are not printed.
   The counts, the meshes and the files of the two must agree, bit by bit, or there are no times. The mesh must be
   closed if no sample on the six faces of the box is metal, and a side that is given as at fault must be so. No quad
   may join two pieces, and the pieces' numbers, sizes and count must fit together. The crossed edges must be as many as
   are counted here from the samples alone, and as plain says. Three times the vertices may not be more than four times
   the crossed edges, nor the quads more than they are. In each run the one call for the thresholds and the 12 calls
   must give the same counts. The parts that the planes give must be the mesh when they are put together. Each reading
   must be its sample and a fraction below 1, and the counts and the meshes of the readings must be those of the
   samples, bit by bit. Both meshes must be judged the same. The shuffled one must not be when its last quad goes the
   other way round, or is left out, or when its last vertex has another mark, and the verdict must say what it is. */
#define _POSIX_C_SOURCE 199309L

#include "../include/parsniprow.h"
#include "../tests/plain.h"
#include "raw.h"

#include <stdio.h>
#include <stdlib.h>
#include <string.h>
#include <time.h>

#if defined __x86_64__ && defined __SSE2__
#include <emmintrin.h>
#define HAS_FLUSH
#endif

#ifdef SELF
#define parsniprow_counts plain_counts
#define parsniprow_mesh plain_mesh
#define parsniprow_ply plain_ply
#endif

/* The noise figure of every call, which is none. */
enum { NOISE = 0 };
enum { MOST_RUNS = 15, LEAST_RUNS = 2, ANSWER = 3, CLOSED_ANSWER = 4, JUDGE_ANSWER = 4, SHORT_FILE = 15 };
/* The links of the longest search of the worst list, which has 2 to this power vertices and as many quads. With 24 it
   takes a second and 450 MB in all; noise of 128 samples an axis takes 620 MB. Each link more would double both. */
enum { WORST_LINKS = 24 };
/* The thresholds of a row lie around that of the block. A cache line has 64 bytes wherever there is clflush. */
enum { ROW = 12, ROW_STEP = 1000, ROW_BELOW = 5500, CACHE_LINE = 64 };
/* What the third number of a verdict says, and the bit of a word that is the mark. */
enum { AT_VERTEX = 1, AT_QUAD, SOME_MISSING, MARK = 1 << 12 };
static const double long_enough = 0.5, spacing = 0.1;

typedef void crossed_function(uint32_t, uint32_t, uint32_t, const uint16_t *, size_t, uint16_t, uint32_t *, size_t);
typedef void counts_function(uint32_t, uint32_t, uint32_t, const uint16_t *, size_t, uint16_t, uint32_t, uint32_t *,
                             size_t);
typedef void mesh_function(uint32_t, uint32_t, uint32_t, const uint16_t *, size_t, uint16_t, uint32_t, uint32_t *,
                           size_t, double *, size_t, uint32_t *, size_t, uint32_t *, size_t);
typedef void ply_function(uint32_t, uint32_t, uint32_t, const uint32_t *, size_t, const double *, size_t,
                          const uint32_t *, size_t, double, double, double, uint8_t *, size_t, uint64_t *, size_t,
                          uint32_t *, size_t);

struct mesh {
    uint32_t *words, *quads;
    double *offsets;
    size_t vertex_count, quad_count;
};

const char program[] = "bench";
static struct block block;

static double now(void)
{
    struct timespec time;
    clock_gettime(CLOCK_MONOTONIC, &time);
    return (double)time.tv_sec + 1e-9 * (double)time.tv_nsec;
}

/* ---- memory ---- */

static struct mesh room_for(const uint32_t *counted)
{
    struct mesh mesh;
    mesh.vertex_count = counted[1];
    mesh.quad_count = counted[2];
    mesh.words = taken(2 * mesh.vertex_count * sizeof *mesh.words);
    mesh.offsets = taken(3 * mesh.vertex_count * sizeof *mesh.offsets);
    mesh.quads = taken(4 * mesh.quad_count * sizeof *mesh.quads);
    return mesh;
}

static void fill(const struct mesh *mesh)
{
    memset(mesh->words, 0xA5, 2 * mesh->vertex_count * sizeof *mesh->words);
    memset(mesh->offsets, 0xA5, 3 * mesh->vertex_count * sizeof *mesh->offsets);
    memset(mesh->quads, 0xA5, 4 * mesh->quad_count * sizeof *mesh->quads);
}

static void give_back(struct mesh *mesh)
{
    free(mesh->words);
    free(mesh->offsets);
    free(mesh->quads);
}

static int same(const struct mesh *a, const struct mesh *b)
{
    return a->vertex_count == b->vertex_count && a->quad_count == b->quad_count &&
           memcmp(a->words, b->words, 2 * a->vertex_count * sizeof *a->words) == 0 &&
           memcmp(a->offsets, b->offsets, 3 * a->vertex_count * sizeof *a->offsets) == 0 &&
           memcmp(a->quads, b->quads, 4 * a->quad_count * sizeof *a->quads) == 0;
}

/* ---- the block ---- */

/* Whether the sample that lies so many steps on along two axes is metal; the axes may be the same. */
static int metal(const size_t at[3], unsigned u, size_t u_steps, unsigned v, size_t v_steps)
{
    size_t place[3] = {at[0], at[1], at[2]};
    place[u] += u_steps;
    place[v] += v_steps;
    return block.samples[place[0] + block.length[0] * (place[1] + block.length[1] * place[2])] >= block.t;
}

/* What the meshes and the crossed edges are held against: crossed edges, steps out of the block from metal samples,
   faces with four crossed edges. */
struct shape {
    size_t crossed, rim, doubtful;
};

/* Counted from the samples alone. */
static struct shape shape_of_block(void)
{
    struct shape shape = {0, 0, 0};
    size_t at[3];
    for (at[2] = 0; at[2] < block.length[2]; at[2]++)
        for (at[1] = 0; at[1] < block.length[1]; at[1]++)
            for (at[0] = 0; at[0] < block.length[0]; at[0]++)
                for (unsigned u = 0; u < 3; u++) {
                    unsigned v = (u + 1) % 3;
                    int here = metal(at, u, 0, v, 0), has_u = at[u] + 1 < block.length[u];
                    int has_v = at[v] + 1 < block.length[v];
                    shape.crossed += has_u && metal(at, u, 1, v, 0) != here;
                    shape.rim += here && (at[u] == 0) + !has_u;
                    shape.doubtful += has_u && has_v && metal(at, u, 1, v, 1) == here &&
                                      metal(at, u, 1, v, 0) != here && metal(at, u, 0, v, 1) != here;
                }
    return shape;
}

/* All samples on the six faces of the box become hollow, so the mesh is closed. */
static void seal(void)
{
    size_t x, y, z, n = 0, nx = block.length[0], ny = block.length[1], nz = block.length[2];
    for (z = 0; z < nz; z++)
        for (y = 0; y < ny; y++)
            for (x = 0; x < nx; x++, n++)
                if (x == 0 || x + 1 == nx || y == 0 || y + 1 == ny || z == 0 || z + 1 == nz)
                    block.samples[n] = 0;
}

/* ---- times ---- */

static void ask_counts(counts_function *function, uint32_t *answer)
{
    function(block.length[0], block.length[1], block.length[2], block.samples, block.sample_count, block.t, NOISE,
             answer, ANSWER);
    if (answer[0] != 0)
        stop("a count was refused");
}

static void ask_mesh(mesh_function *function, const struct mesh *mesh)
{
    uint32_t answer[ANSWER];
    function(block.length[0], block.length[1], block.length[2], block.samples, block.sample_count, block.t, NOISE,
             mesh->words, 2 * mesh->vertex_count, mesh->offsets, 3 * mesh->vertex_count, mesh->quads,
             4 * mesh->quad_count, answer, ANSWER);
    if (answer[0] != 0)
        stop("the mesh was refused");
}

static int runs_again(int runs, double spent)
{
    return runs < LEAST_RUNS || (runs < MOST_RUNS && spent < long_enough);
}

/* The best time of several runs of something that answers the seconds of one. */
static double best_of(double (*seconds)(void *), void *with)
{
    double best = 1e9, spent = 0.0;
    for (int run = 0; runs_again(run, spent); run++) {
        double took = seconds(with);
        spent += took;
        best = took < best ? took : best;
    }
    return best;
}

static double asked_seconds(counts_function *function, uint32_t *answer)
{
    double from = now();
    ask_counts(function, answer);
    return now() - from;
}

static double counts_seconds(void *answer)
{
    return asked_seconds(parsniprow_counts, answer);
}

static double mesh_seconds(void *mesh)
{
    double from = now();
    ask_mesh(parsniprow_mesh, mesh);
    return now() - from;
}

/* The two functions of an implementation, and the mesh of its last run. */
struct whole {
    counts_function *counts;
    mesh_function *mesh;
    struct mesh left;
};

/* What a caller pays who knows nothing of the block: counts, memory of that size, mesh. Giving the memory back is not
   timed. */
static double whole_seconds(void *with)
{
    struct whole *whole = with;
    uint32_t answer[ANSWER];
    double from;
    give_back(&whole->left);
    from = now();
    ask_counts(whole->counts, answer);
    whole->left = room_for(answer);
    ask_mesh(whole->mesh, &whole->left);
    return now() - from;
}

/* The PLY file of a mesh, and memory of the same size. */
struct file {
    const struct mesh *mesh;
    uint8_t *bytes, *other;
    size_t size;
};

/* The file of a mesh into lent memory; gives its size. Where the memory is too short, that is the size needed. */
static size_t ask_ply(ply_function *function, const struct mesh *mesh, uint8_t *bytes, size_t size)
{
    uint32_t answer[ANSWER];
    uint64_t length;
    function(block.length[0], block.length[1], block.length[2], mesh->words, 2 * mesh->vertex_count, mesh->offsets,
             3 * mesh->vertex_count, mesh->quads, 4 * mesh->quad_count, spacing, spacing, spacing, bytes, size, &length,
             1, answer, ANSWER);
    if (answer[0] == SHORT_FILE)
        return answer[1];
    if (answer[0] != 0)
        stop("the file was refused");
    return (size_t)length;
}

static double ply_seconds(void *with)
{
    struct file *file = with;
    double from = now();
    if (ask_ply(parsniprow_ply, file->mesh, file->bytes, file->size) != file->size)
        stop("the file is not of the size that was told");
    return now() - from;
}

static double copy_seconds(void *with)
{
    struct file *file = with;
    double from = now();
    memcpy(file->other, file->bytes, file->size);
    return now() - from;
}

static void write_file(const struct file *file, const char *name)
{
    FILE *out = fopen(name, "wb");
    if (!out)
        stop("the PLY file cannot be opened");
    if ((fwrite(file->bytes, 1, file->size, out) != file->size) | (fclose(out) != 0))
        stop("the PLY file could not be written");
}

static void print_file_times(const struct mesh *mesh, const char *name)
{
    struct file file = {mesh, NULL, NULL, 0};
    double ply_time, copy_time;
    uint8_t none[1];
    file.size = ask_ply(parsniprow_ply, mesh, none, 0);
    file.bytes = taken(file.size);
    file.other = taken(file.size);
    memset(file.bytes, 0xA5, file.size);
    memset(file.other, 0xA5, file.size);
    ply_time = best_of(ply_seconds, &file);
    copy_time = best_of(copy_seconds, &file);
    if (memcmp(file.other, file.bytes, file.size) != 0)
        stop("the copy differs from the file");
    memset(file.other, 0xA5, file.size);
    if (ask_ply(plain_ply, mesh, file.other, file.size) != file.size ||
        memcmp(file.other, file.bytes, file.size) != 0)
        stop("the file differs from that of plain");
    write_file(&file, name);
    printf("bytes %zu\n", file.size);
#ifdef SELF
    (void)ply_time;
#else
    printf("ply %.9f\n", ply_time);
#endif
    printf("copy %.9f\n", copy_time);
    free(file.bytes);
    free(file.other);
}

#ifndef SELF
/* A mesh, the memory to work in, and the answer of the last run. */
struct question {
    const struct mesh *mesh;
    uint64_t *work;
    size_t work_count;
    uint32_t answer[CLOSED_ANSWER];
};

static double closed_seconds(void *with)
{
    struct question *question = with;
    const struct mesh *mesh = question->mesh;
    double from = now();
    parsniprow_closed_with(mesh->quads, 4 * mesh->quad_count, question->work, question->work_count, question->answer,
                           CLOSED_ANSWER);
    return now() - from;
}

/* Whether a side is walked as often one way as the other, over all quads, and has two different ends. */
static int in_order(const struct mesh *mesh, size_t quad, size_t side)
{
    size_t one_way = 0, other_way = 0;
    uint32_t a = mesh->quads[4 * quad + side], b = mesh->quads[4 * quad + (side + 1) % 4];
    for (size_t n = 0; n < 4 * mesh->quad_count; n++) {
        uint32_t from = mesh->quads[n], to = mesh->quads[n - n % 4 + (n + 1) % 4];
        one_way += from == a && to == b;
        other_way += from == b && to == a;
    }
    return a != b && one_way == other_way;
}

/* The names of the figures begin with that word. */
static void print_closed_time(const struct mesh *mesh, const char *word, int must_be_closed)
{
    struct question question = {mesh, NULL, mesh->vertex_count + 4 * mesh->quad_count, {0}};
    const uint32_t *answer = question.answer;
    double closed_time;
    question.work = taken(question.work_count * sizeof *question.work);
    memset(question.work, 0xA5, question.work_count * sizeof *question.work);
    closed_time = best_of(closed_seconds, &question);
    free(question.work);
    if (answer[0] != 0 || answer[1] > 1)
        stop("the closed question was refused");
    if (answer[1] == 1 && (answer[2] != 0 || answer[3] != 0))
        stop("the mesh is closed and has a side at fault");
    if (answer[1] == 0 && must_be_closed)
        stop("the mesh is not closed");
    if (answer[1] == 0 && (answer[2] >= mesh->quad_count || answer[3] > 3 || in_order(mesh, answer[2], answer[3])))
        stop("the side at fault is in order");
    printf("%sclosed %.9f\n%sis_closed %u\n", word, closed_time, word, (unsigned)answer[1]);
    if (answer[1] == 0)
        printf("%sfault_quad %u\n", word, (unsigned)answer[2]);
}

/* A mesh, of which only the quads count, the two buffers for its pieces, and the answer of the last run. */
struct pieces {
    const struct mesh *mesh;
    uint32_t *piece, *size, answer[ANSWER];
};

static double pieces_seconds(void *with)
{
    struct pieces *pieces = with;
    const struct mesh *mesh = pieces->mesh;
    double from = now();
    parsniprow_pieces((uint32_t)mesh->vertex_count, mesh->quads, 4 * mesh->quad_count, pieces->piece,
                      mesh->vertex_count, pieces->size, mesh->vertex_count, pieces->answer, ANSWER);
    return now() - from;
}

/* Whether no quad joins two pieces, each piece has the number of its lowest vertex, and the sizes and the count are
   those of the pieces. So each set of joined vertices is within a piece. If there are as many sets as pieces, they are
   the same; peers.py counts the sets. */
static int fit_together(const struct pieces *pieces)
{
    const struct mesh *mesh = pieces->mesh;
    const uint32_t *piece = pieces->piece;
    size_t bytes = mesh->vertex_count * sizeof *pieces->size, count = 0;
    uint32_t *found = taken(bytes);
    int good = 1;
    memset(found, 0, bytes);
    for (size_t vertex = 0; good && vertex < mesh->vertex_count; vertex++) {
        good = piece[vertex] <= vertex && piece[piece[vertex]] == piece[vertex];
        if (good)
            count += found[piece[vertex]]++ == 0;
    }
    for (size_t n = 0; good && n < 4 * mesh->quad_count; n++)
        good = piece[mesh->quads[n]] == piece[mesh->quads[n - n % 4]];
    good = good && memcmp(found, pieces->size, bytes) == 0 && count == pieces->answer[1];
    free(found);
    return good;
}

/* The names of the figures begin with that word. Gives the links of the longest search. */
static uint32_t print_pieces_time(const struct mesh *mesh, const char *word)
{
    struct pieces pieces = {mesh, NULL, NULL, {0}};
    double pieces_time;
    pieces.piece = taken(mesh->vertex_count * sizeof *pieces.piece);
    pieces.size = taken(mesh->vertex_count * sizeof *pieces.size);
    memset(pieces.piece, 0xA5, mesh->vertex_count * sizeof *pieces.piece);
    memset(pieces.size, 0xA5, mesh->vertex_count * sizeof *pieces.size);
    pieces_time = best_of(pieces_seconds, &pieces);
    if (pieces.answer[0] != 0)
        stop("the pieces were refused");
    if (!fit_together(&pieces))
        stop("the pieces do not fit together");
    printf("%spieces %.9f\n%spiece_count %u\n%slongest %u\n", word, pieces_time, word, (unsigned)pieces.answer[1],
           word, (unsigned)pieces.answer[2]);
    free(pieces.piece);
    free(pieces.size);
    return pieces.answer[2];
}

static double crossed_seconds(crossed_function *function, uint32_t *answer)
{
    double from = now();
    function(block.length[0], block.length[1], block.length[2], block.samples, block.sample_count, block.t, answer,
             ANSWER);
    if (answer[0] != 0)
        stop("the crossed edges were refused");
    return now() - from;
}

static double plain_crossed_seconds(void *answer)
{
    return crossed_seconds(plain_crossed, answer);
}

/* The best times of two ways to ask, and the ratio of each run. */
struct turns {
    double one, other, ratios[MOST_RUNS];
    int runs;
};

/* The two ways are asked by turns, so that a machine that is slower for a while, or memory that lies worse in one
   process than in another, is so for both. */
static struct turns by_turns(double (*one)(void *), double (*other)(void *), void *with)
{
    struct turns turns = {1e9, 1e9, {0.0}, 0};
    double spent = 0.0;
    for (; runs_again(turns.runs, spent); turns.runs++) {
        double one_took = one(with), other_took = other(with);
        spent += one_took + other_took;
        turns.ratios[turns.runs] = one_took / other_took;
        turns.one = one_took < turns.one ? one_took : turns.one;
        turns.other = other_took < turns.other ? other_took : turns.other;
    }
    return turns;
}

/* The ratios are printed when all runs are over. */
static void print_ratios(const char *word, const struct turns *turns)
{
    for (int run = 0; run < turns->runs; run++)
        printf("%s_ratio %.6f\n", word, turns->ratios[run]);
}

struct room_answers {
    uint32_t edges[ANSWER], counted[ANSWER];
};

static double room_crossed_seconds(void *with)
{
    struct room_answers *answers = with;
    return crossed_seconds(parsniprow_crossed, answers->edges);
}

static double room_counts_seconds(void *with)
{
    struct room_answers *answers = with;
    return asked_seconds(parsniprow_counts, answers->counted);
}

static void print_room(size_t crossed)
{
    uint32_t plain[ANSWER];
    struct room_answers answers;
    struct turns turns = by_turns(room_crossed_seconds, room_counts_seconds, &answers);
    const uint32_t *edges = answers.edges, *counted = answers.counted;
    double plain_time = best_of(plain_crossed_seconds, plain);
    if (edges[1] != crossed || edges[2] != 0)
        stop("the crossed edges are not as many as in the samples");
    if (memcmp(plain, edges, sizeof plain) != 0)
        stop("the crossed edges differ from those of plain");
    if (3 * (uint64_t)counted[1] > 4 * (uint64_t)edges[1])
        stop("three times the vertices are more than four times the crossed edges");
    if (counted[2] > edges[1])
        stop("there are more quads than crossed edges");
    printf("crossed %zu\nvertices %u\nquads %u\n", crossed, (unsigned)counted[1], (unsigned)counted[2]);
    printf("room_crossed %.9f\nroom_counts %.9f\nroom_plain %.9f\n", turns.one, turns.other, plain_time);
    print_ratios("room", &turns);
}

/* The thresholds of the row, the answers of both ways to ask, and whether the block is flushed before each call. */
struct row {
    uint16_t thresholds[ROW];
    uint32_t at_once[ANSWER * ROW], one_by_one[ANSWER * ROW];
    int is_cold;
};

static struct row row_around(uint16_t t, int is_cold)
{
    struct row row;
    if (t <= ROW_BELOW || t >= UINT16_MAX - ROW_BELOW)
        stop("the thresholds around that of the block are not all from 1 to 65534");
    for (int i = 0; i < ROW; i++)
        row.thresholds[i] = (uint16_t)(t - ROW_BELOW + ROW_STEP * i);
    row.is_cold = is_cold;
    return row;
}

/* Afterwards no sample is in a cache. Where the processor has no way to do that, nothing is done. */
static void flush_block(void)
{
#ifdef HAS_FLUSH
    const char *bytes = (const char *)block.samples;
    size_t end = block.sample_count * sizeof *block.samples;
    for (size_t at = 0; at < end; at += CACHE_LINE)
        _mm_clflush(bytes + at);
    _mm_clflush(bytes + end - 1);
    _mm_mfence();
#endif
}

static double at_once_seconds(void *with)
{
    struct row *row = with;
    uint32_t answer[ANSWER];
    double from, took;
    memset(row->at_once, 0xA5, sizeof row->at_once);
    if (row->is_cold)
        flush_block();
    from = now();
    parsniprow_thresholds(block.length[0], block.length[1], block.length[2], block.samples, block.sample_count,
                          row->thresholds, ROW, NOISE, row->at_once, ANSWER * ROW, answer, ANSWER);
    took = now() - from;
    if (answer[0] != 0)
        stop("the thresholds were refused");
    return took;
}

/* Only the calls are timed. What they answer is held against the call before. */
static double one_by_one_seconds(void *with)
{
    struct row *row = with;
    double spent = 0.0;
    for (int i = 0; i < ROW; i++) {
        double from;
        if (row->is_cold)
            flush_block();
        from = now();
        parsniprow_counts(block.length[0], block.length[1], block.length[2], block.samples, block.sample_count,
                          row->thresholds[i], NOISE, row->one_by_one + ANSWER * i, ANSWER);
        spent += now() - from;
    }
    if (memcmp(row->at_once, row->one_by_one, sizeof row->at_once) != 0)
        stop("the counts of a row of thresholds differ from those of one threshold after the other");
    return spent;
}

/* The names of the figures begin with that word. */
static void print_row(const char *word, int is_cold)
{
    struct row row = row_around(block.t, is_cold);
    struct turns turns = by_turns(at_once_seconds, one_by_one_seconds, &row);
    printf("%s_one %.9f\n%s_each %.9f\n", word, turns.one, word, turns.other);
    print_ratios(word, &turns);
}

static void print_rows(void)
{
    print_row("row", 0);
#ifdef HAS_FLUSH
    print_row("cold", 1);
#endif
}

/* The buffers of the planes, with room for any layer, the mesh of the block in memory of its own, and the slowest call
   of the last run. */
struct planes {
    struct mesh layer, whole;
    uint32_t *work;
    size_t plane_size, work_size;
    double slowest;
};

static struct planes room_for_planes(void)
{
    size_t nx = block.length[0], ny = block.length[1];
    uint32_t counted[ANSWER], layer[ANSWER] = {0, 0, 0};
    struct planes planes;
    layer[1] = (uint32_t)(4 * (nx - 1) * (ny - 1));
    layer[2] = (uint32_t)((nx - 1) * (ny - 2) + (nx - 2) * (ny - 1) + (nx - 2) * (ny - 2));
    ask_counts(parsniprow_counts, counted);
    planes.layer = room_for(layer);
    planes.whole = room_for(counted);
    planes.plane_size = nx * ny;
    planes.work_size = 6 * planes.plane_size;
    planes.work = taken(planes.work_size * sizeof *planes.work);
    planes.slowest = 0.0;
    fill(&planes.layer);
    fill(&planes.whole);
    memset(planes.work, 0xA5, planes.work_size * sizeof *planes.work);
    return planes;
}

static void start_planes(const struct planes *planes, uint32_t *state)
{
    uint32_t answer[ANSWER];
    parsniprow_start(block.length[0], block.length[1], block.length[2], block.t, NOISE, planes->work, planes->work_size,
                     state, PARSNIPROW_STATE, answer, ANSWER);
    if (answer[0] != 0)
        stop("the start of the planes was refused");
}

static void ask_plane(const struct planes *planes, uint32_t *state, uint32_t k, uint32_t *answer)
{
    const struct mesh *layer = &planes->layer;
    parsniprow_plane(state, PARSNIPROW_STATE, block.samples + k * planes->plane_size, planes->plane_size, planes->work,
                     planes->work_size, layer->words, 2 * layer->vertex_count, layer->offsets, 3 * layer->vertex_count,
                     layer->quads, 4 * layer->quad_count, answer, ANSWER);
    if (answer[0] != 0)
        stop("a plane was refused");
}

static void end_planes(const struct planes *planes, const uint32_t *state)
{
    uint32_t answer[ANSWER];
    parsniprow_end(state, PARSNIPROW_STATE, answer, ANSWER);
    if (answer[0] != 0 || answer[1] != planes->whole.vertex_count || answer[2] != planes->whole.quad_count)
        stop("the end of the planes differs from the counts");
}

/* The time of each plane is taken too, which is a small part of it. */
static double planes_seconds(void *with)
{
    struct planes *planes = with;
    uint32_t state[PARSNIPROW_STATE], answer[ANSWER];
    double from = now(), before;
    planes->slowest = 0.0;
    start_planes(planes, state);
    before = now();
    for (uint32_t k = 0; k < block.length[2]; k++) {
        double after;
        ask_plane(planes, state, k, answer);
        after = now();
        planes->slowest = after - before > planes->slowest ? after - before : planes->slowest;
        before = after;
    }
    end_planes(planes, state);
    return now() - from;
}

static double planes_mesh_seconds(void *with)
{
    struct planes *planes = with;
    return mesh_seconds(&planes->whole);
}

static double planes_both_seconds(void *with)
{
    struct planes *planes = with;
    uint32_t answer[ANSWER];
    double from = now();
    ask_counts(parsniprow_counts, answer);
    ask_mesh(parsniprow_mesh, &planes->whole);
    return now() - from;
}

/* The axis of a quad's edge: that in which the cubes of its first and its third vertex agree. */
static int axis_of(const uint32_t *words, const uint32_t *quad)
{
    uint32_t one = words[2 * (size_t)quad[0]], other = words[2 * (size_t)quad[2]];
    for (int axis = 0; axis < 3; axis++) {
        uint32_t cubes = block.length[axis] - 1;
        if (one % cubes == other % cubes)
            return axis;
        one /= cubes;
        other /= cubes;
    }
    return 3;
}

/* All parts of a run one behind the other, with the quads as they come. */
static struct mesh parts_of(const struct planes *planes)
{
    uint32_t state[PARSNIPROW_STATE], answer[ANSWER] = {0, 0, 0};
    const struct mesh *layer = &planes->layer;
    struct mesh parts;
    answer[1] = (uint32_t)planes->whole.vertex_count;
    answer[2] = (uint32_t)planes->whole.quad_count;
    parts = room_for(answer);
    start_planes(planes, state);
    for (uint32_t k = 0; k < block.length[2]; k++) {
        size_t vertex = state[5], quad = state[6];
        ask_plane(planes, state, k, answer);
        if (vertex + answer[1] > parts.vertex_count || quad + answer[2] > parts.quad_count)
            stop("the planes give more than the mesh has");
        memcpy(parts.words + 2 * vertex, layer->words, 2 * (size_t)answer[1] * sizeof *layer->words);
        memcpy(parts.offsets + 3 * vertex, layer->offsets, 3 * (size_t)answer[1] * sizeof *layer->offsets);
        memcpy(parts.quads + 4 * quad, layer->quads, 4 * (size_t)answer[2] * sizeof *layer->quads);
    }
    end_planes(planes, state);
    return parts;
}

/* The quads along x come first, then y, then z, each as they came. */
static void check_parts(const struct planes *planes)
{
    struct mesh parts = parts_of(planes);
    size_t bytes = 4 * parts.quad_count * sizeof *parts.quads, put = 0;
    uint32_t *ordered = taken(bytes);
    for (int axis = 0; axis < 3; axis++)
        for (size_t at = 0; at < 4 * parts.quad_count; at += 4) {
            if (parts.quads[at] >= parts.vertex_count || parts.quads[at + 2] >= parts.vertex_count)
                stop("a quad of the planes has a vertex that is not there");
            if (axis_of(parts.words, parts.quads + at) == axis) {
                memcpy(ordered + put, parts.quads + at, 4 * sizeof *ordered);
                put += 4;
            }
        }
    if (put != 4 * parts.quad_count)
        stop("a quad of the planes has no axis");
    free(parts.quads);
    parts.quads = ordered;
    if (!same(&parts, &planes->whole))
        stop("the parts of the planes are not the mesh");
    give_back(&parts);
}

/* The three ways are asked by turns, as two are by by_turns. */
static void print_planes(void)
{
    struct planes planes = room_for_planes();
    double all = 1e9, mesh = 1e9, both = 1e9, spent = 0.0, ratios[3][MOST_RUNS];
    const struct mesh *layer = &planes.layer;
    int runs = 0;
    for (; runs_again(runs, spent); runs++) {
        double all_took = planes_seconds(&planes), mesh_took = planes_mesh_seconds(&planes);
        double both_took = planes_both_seconds(&planes);
        spent += all_took + mesh_took + both_took;
        ratios[0][runs] = all_took / mesh_took;
        ratios[1][runs] = all_took / both_took;
        ratios[2][runs] = planes.slowest / all_took;
        all = all_took < all ? all_took : all;
        mesh = mesh_took < mesh ? mesh_took : mesh;
        both = both_took < both ? both_took : both;
    }
    check_parts(&planes);
    printf("planes_all %.9f\nplanes_mesh %.9f\nplanes_both %.9f\n", all, mesh, both);
    for (int run = 0; run < runs; run++)
        printf("planes_ratio %.6f\nplanes_both_ratio %.6f\nplanes_slowest_ratio %.6f\n", ratios[0][run],
               ratios[1][run], ratios[2][run]);
    printf("planes_count %u\n", (unsigned)block.length[2]);
    printf("planes_bytes %zu\n", layer->vertex_count * (2 * sizeof *layer->words + 3 * sizeof *layer->offsets) +
                                     4 * layer->quad_count * sizeof *layer->quads +
                                     planes.work_size * sizeof *planes.work);
    give_back(&planes.layer);
    give_back(&planes.whole);
    free(planes.work);
}

/* The readings and the samples that they count as are asked by turns, so each has counts, and a mesh in memory that was
   written to before. The mesh in memory that a run took is given back before the next run, of whichever of the two: so
   malloc finds the same for both. */
struct readings {
    const float *values;
    uint32_t counted[ANSWER], grey_counted[ANSWER];
    struct mesh lent, grey_lent;
    struct whole grey;
};

static void ask_readings_counts(const struct readings *readings, uint32_t *answer)
{
    parsniprow_readings_counts(block.length[0], block.length[1], block.length[2], readings->values, block.sample_count,
                               block.t, NOISE, answer, ANSWER);
    if (answer[0] != 0)
        stop("a count of readings was refused");
}

static void ask_readings_mesh(const struct readings *readings, const struct mesh *mesh)
{
    uint32_t answer[ANSWER];
    parsniprow_readings_mesh(block.length[0], block.length[1], block.length[2], readings->values, block.sample_count,
                             block.t, NOISE, mesh->words, 2 * mesh->vertex_count, mesh->offsets, 3 * mesh->vertex_count,
                             mesh->quads, 4 * mesh->quad_count, answer, ANSWER);
    if (answer[0] != 0)
        stop("the mesh of readings was refused");
}

static double readings_counts_seconds(void *with)
{
    struct readings *readings = with;
    double from = now();
    ask_readings_counts(readings, readings->counted);
    return now() - from;
}

static double grey_counts_seconds(void *with)
{
    struct readings *readings = with;
    return asked_seconds(parsniprow_counts, readings->grey_counted);
}

static double readings_mesh_seconds(void *with)
{
    struct readings *readings = with;
    double from = now();
    ask_readings_mesh(readings, &readings->lent);
    return now() - from;
}

static double grey_mesh_seconds(void *with)
{
    struct readings *readings = with;
    return mesh_seconds(&readings->grey_lent);
}

/* As whole_seconds. */
static double readings_whole_seconds(void *with)
{
    struct readings *readings = with;
    struct mesh *left = &readings->grey.left;
    uint32_t answer[ANSWER];
    double from;
    give_back(left);
    from = now();
    ask_readings_counts(readings, answer);
    *left = room_for(answer);
    ask_readings_mesh(readings, left);
    return now() - from;
}

static double grey_whole_seconds(void *with)
{
    struct readings *readings = with;
    return whole_seconds(&readings->grey);
}

/* A fraction below 1 changes no side of the threshold, so a peer that takes the readings as they are crosses the same
   edges. */
static void check_readings(const float *values)
{
    for (size_t index = 0; index < block.sample_count; index++)
        if (!(values[index] >= (float)block.samples[index] && values[index] < (float)block.samples[index] + 1.0f))
            stop("a reading is not its sample and a fraction below 1");
}

/* The names of the figures end with that word. */
static void print_readings_turns(const char *word, double (*of_readings)(void *), double (*of_samples)(void *),
                                 struct readings *readings)
{
    struct turns turns = by_turns(of_readings, of_samples, readings);
    char name[32];
    snprintf(name, sizeof name, "readings_%s", word);
    printf("%s %.9f\ngrey_%s %.9f\n", name, turns.one, word, turns.other);
    print_ratios(name, &turns);
}

static void print_readings(const float *values)
{
    struct readings readings = {0};
    check_readings(values);
    readings.values = values;
    readings.grey.counts = parsniprow_counts;
    readings.grey.mesh = parsniprow_mesh;
    printf("crossed %zu\n", shape_of_block().crossed);
    print_readings_turns("counts", readings_counts_seconds, grey_counts_seconds, &readings);
    if (memcmp(readings.counted, readings.grey_counted, sizeof readings.counted) != 0)
        stop("the counts of the readings differ from those of the samples");
    readings.lent = room_for(readings.counted);
    readings.grey_lent = room_for(readings.counted);
    fill(&readings.lent);
    fill(&readings.grey_lent);
    print_readings_turns("mesh", readings_mesh_seconds, grey_mesh_seconds, &readings);
    print_readings_turns("whole", readings_whole_seconds, grey_whole_seconds, &readings);
    readings_whole_seconds(&readings);
    if (!same(&readings.lent, &readings.grey_lent) || !same(&readings.grey.left, &readings.grey_lent))
        stop("the mesh of the readings differs from that of the samples");
    give_back(&readings.lent);
    give_back(&readings.grey_lent);
    give_back(&readings.grey.left);
}

/* A number below a limit. The same numbers come in each process, so that each has the same work. */
static size_t random_below(size_t limit)
{
    static uint64_t state = UINT64_C(0x9E3779B97F4A7C15);
    state ^= state << 13;
    state ^= state >> 7;
    state ^= state << 17;
    return (size_t)(state % limit);
}

/* The numbers from 0 on, in random order. */
static uint32_t *random_order(size_t count)
{
    uint32_t *order = taken(count * sizeof *order);
    for (size_t n = 0; n < count; n++) {
        size_t other = random_below(n + 1);
        order[n] = order[other];
        order[other] = (uint32_t)n;
    }
    return order;
}

/* The mesh with its vertices and its quads in random order, each quad begun at a random one of its vertices. */
static struct mesh shuffled(const struct mesh *mesh)
{
    uint32_t counted[ANSWER] = {0, (uint32_t)mesh->vertex_count, (uint32_t)mesh->quad_count};
    uint32_t *vertices = random_order(mesh->vertex_count), *quads = random_order(mesh->quad_count);
    struct mesh other = room_for(counted);
    for (size_t old = 0; old < mesh->vertex_count; old++) {
        size_t now_at = vertices[old];
        memcpy(other.words + 2 * now_at, mesh->words + 2 * old, 2 * sizeof *other.words);
        memcpy(other.offsets + 3 * now_at, mesh->offsets + 3 * old, 3 * sizeof *other.offsets);
    }
    for (size_t old = 0; old < mesh->quad_count; old++) {
        size_t turn = random_below(4);
        for (size_t corner = 0; corner < 4; corner++)
            other.quads[4 * (size_t)quads[old] + corner] = vertices[mesh->quads[4 * old + (corner + turn) % 4]];
    }
    free(vertices);
    free(quads);
    return other;
}

/* The mesh as it was written and shuffled, and memory in which it is made anew. */
struct judged {
    struct mesh written, shuffled, lent;
};

static void ask_judge(const struct mesh *mesh, uint32_t *answer)
{
    parsniprow_judge(block.length[0], block.length[1], block.length[2], block.samples, block.sample_count, block.t,
                     NOISE, mesh->words, 2 * mesh->vertex_count, mesh->offsets, 3 * mesh->vertex_count, mesh->quads,
                     4 * mesh->quad_count, answer, JUDGE_ANSWER);
    if (answer[0] != 0)
        stop("the mesh was not judged but refused");
}

static double judge_seconds(const struct mesh *mesh)
{
    uint32_t answer[JUDGE_ANSWER];
    double from = now();
    ask_judge(mesh, answer);
    if (answer[1] != 1 || answer[2] != 0 || answer[3] != 0)
        stop("the library's own mesh is not judged the same");
    return now() - from;
}

static void want_verdict(const struct mesh *mesh, uint32_t what, size_t number)
{
    uint32_t answer[JUDGE_ANSWER];
    ask_judge(mesh, answer);
    if (answer[1] != 0 || answer[2] != what || answer[3] != number)
        stop("a mesh that is not the library's gets another verdict");
}

static void swap(uint32_t *one, uint32_t *other)
{
    uint32_t kept = *one;
    *one = *other;
    *other = kept;
}

/* Three faults, each at the end of a list, so that the whole list is gone through. */
static void check_faults(struct mesh *mesh)
{
    size_t last_vertex = mesh->vertex_count - 1, last_quad = mesh->quad_count - 1;
    if (mesh->vertex_count == 0 || mesh->quad_count == 0)
        return;
    swap(mesh->quads + 4 * last_quad, mesh->quads + 4 * last_quad + 2);
    want_verdict(mesh, AT_QUAD, last_quad);
    mesh->words[2 * last_vertex + 1] ^= MARK;
    want_verdict(mesh, AT_VERTEX, last_vertex);
    mesh->words[2 * last_vertex + 1] ^= MARK;
    swap(mesh->quads + 4 * last_quad, mesh->quads + 4 * last_quad + 2);
    mesh->quad_count--;
    want_verdict(mesh, SOME_MISSING, 0);
    mesh->quad_count++;
}

/* The three are asked by turns, as two are by by_turns. */
static void print_judged(void)
{
    uint32_t counted[ANSWER];
    struct judged judged;
    double written = 1e9, mixed = 1e9, mesh = 1e9, spent = 0.0, ratios[2][MOST_RUNS];
    int runs = 0;
    ask_counts(parsniprow_counts, counted);
    judged.written = room_for(counted);
    judged.lent = room_for(counted);
    fill(&judged.lent);
    ask_mesh(parsniprow_mesh, &judged.written);
    judged.shuffled = shuffled(&judged.written);
    for (; runs_again(runs, spent); runs++) {
        double written_took = judge_seconds(&judged.written), mixed_took = judge_seconds(&judged.shuffled);
        double mesh_took = mesh_seconds(&judged.lent);
        spent += written_took + mixed_took + mesh_took;
        ratios[0][runs] = written_took / mesh_took;
        ratios[1][runs] = mixed_took / mesh_took;
        written = written_took < written ? written_took : written;
        mixed = mixed_took < mixed ? mixed_took : mixed;
        mesh = mesh_took < mesh ? mesh_took : mesh;
    }
    if (!same(&judged.lent, &judged.written))
        stop("the mesh differs from one call to the next");
    check_faults(&judged.shuffled);
    printf("vertices %u\nquads %u\n", (unsigned)counted[1], (unsigned)counted[2]);
    printf("judge_written %.9f\njudge_shuffled %.9f\njudge_mesh %.9f\n", written, mixed, mesh);
    for (int run = 0; run < runs; run++)
        printf("judge_written_ratio %.6f\njudge_shuffled_ratio %.6f\n", ratios[0][run], ratios[1][run]);
    give_back(&judged.written);
    give_back(&judged.shuffled);
    give_back(&judged.lent);
}

/* Puts a quad of one vertex and, three times, another. */
static void put_pair(struct mesh *list, uint32_t first, uint32_t other)
{
    uint32_t *quad = list->quads + 4 * list->quad_count++;
    quad[0] = first;
    quad[1] = quad[2] = quad[3] = other;
}

/* Pieces of one size are joined two by two until one is left. Then its last vertex, which hangs lowest, is looked
   for. */
static void print_worst(void)
{
    uint32_t n = (uint32_t)1 << WORST_LINKS;
    struct mesh list = {NULL, NULL, NULL, n, 0};
    list.quads = taken(4 * (size_t)n * sizeof *list.quads);
    for (uint32_t half = 1; half < n; half *= 2)
        for (uint32_t first = 0; first < n; first += 2 * half)
            put_pair(&list, first, first + half);
    put_pair(&list, n - 1, n - 1);
    printf("worst_vertices %zu\nworst_quads %zu\n", list.vertex_count, list.quad_count);
    if (print_pieces_time(&list, "worst_") != WORST_LINKS)
        stop("the longest search of the worst list is another");
    free(list.quads);
}
#endif

static void print_times(const char *file_name, int must_be_closed)
{
    uint32_t counted[ANSWER];
    struct mesh lent;
    struct whole ours = {parsniprow_counts, parsniprow_mesh, {0}}, plain = {plain_counts, plain_mesh, {0}};
    double counts_time = best_of(counts_seconds, counted), mesh_time, whole_time, plain_time;
    lent = room_for(counted);
    fill(&lent);
    mesh_time = best_of(mesh_seconds, &lent);
    whole_time = best_of(whole_seconds, &ours);
    plain_time = best_of(whole_seconds, &plain);
    if (!same(&lent, &plain.left) || !same(&ours.left, &plain.left))
        stop("the mesh differs from that of plain");
    print_file_times(&lent, file_name);
    printf("vertices %zu\nquads %zu\n", plain.left.vertex_count, plain.left.quad_count);
#ifdef SELF
    (void)counts_time;
    (void)mesh_time;
    (void)whole_time;
    (void)must_be_closed;
#else
    printf("counts %.6f\nmesh %.6f\nwhole %.6f\n", counts_time, mesh_time, whole_time);
    print_closed_time(&lent, "", must_be_closed);
    print_pieces_time(&lent, "");
#endif
    printf("plain %.6f\n", plain_time);
    give_back(&lent);
    give_back(&ours.left);
    give_back(&plain.left);
}

static void print_sealed(const char *file_name)
{
    uint32_t counted[ANSWER];
    struct mesh mesh;
    struct file file = {&mesh, NULL, NULL, 0};
    uint8_t none[1];
    seal();
    ask_counts(parsniprow_counts, counted);
    mesh = room_for(counted);
    ask_mesh(parsniprow_mesh, &mesh);
    file.size = ask_ply(parsniprow_ply, &mesh, none, 0);
    file.bytes = taken(file.size);
    ask_ply(parsniprow_ply, &mesh, file.bytes, file.size);
    write_file(&file, file_name);
    free(file.bytes);
    printf("sealed_vertices %zu\nsealed_quads %zu\n", mesh.vertex_count, mesh.quad_count);
#ifndef SELF
    print_closed_time(&mesh, "sealed_", 1);
#endif
    give_back(&mesh);
}

int main(int argc, char **argv)
{
    struct shape shape;
#ifndef SELF
    if (argc == 2 && strcmp(argv[1], "worst") == 0) {
        print_worst();
        return 0;
    }
    if (argc == 7 && strcmp(argv[1], "room") == 0) {
        block = read_block(argv + 2);
        print_room(shape_of_block().crossed);
        free(block.samples);
        return 0;
    }
    if (argc == 7 && strcmp(argv[1], "thresholds") == 0) {
        block = read_block(argv + 2);
        print_rows();
        free(block.samples);
        return 0;
    }
    if (argc == 7 && strcmp(argv[1], "planes") == 0) {
        block = read_block(argv + 2);
        print_planes();
        free(block.samples);
        return 0;
    }
    if (argc == 7 && strcmp(argv[1], "judge") == 0) {
        block = read_block(argv + 2);
        print_judged();
        free(block.samples);
        return 0;
    }
    if (argc == 8 && strcmp(argv[1], "readings") == 0) {
        float *readings;
        block = read_block(argv + 2);
        readings = read_readings(argv[7], block.sample_count);
        print_readings(readings);
        free(readings);
        free(block.samples);
        return 0;
    }
#endif
    if (argc != 8)
        stop("usage: bench file nx ny nz t mesh.ply sealed.ply, or bench room file nx ny nz t, "
             "or bench thresholds file nx ny nz t, or bench planes file nx ny nz t, "
             "or bench readings file nx ny nz t readings, or bench judge file nx ny nz t, or bench worst");
    block = read_block(argv + 1);
    shape = shape_of_block();
    printf("crossed %zu\nrim %zu\ndoubtful %zu\n", shape.crossed, shape.rim, shape.doubtful);
    print_times(argv[6], shape.rim == 0);
    if (shape.rim != 0)
        print_sealed(argv[7]);
    free(block.samples);
    return 0;
}
