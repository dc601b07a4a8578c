/* The paper's rules in plain C by another method than the library's: loops are walked link by link, edges are looked at
   one by one, faces come from the corners, a quad's vertices are searched for, the sides of a list of quads are sorted.
   The number of a piece is spread from its lowest vertex through all quads that hold a vertex which has it. Only the
   longest search is found as the paper says it, since that is a rule about a method. A file is refused by one rule
   after the other, each over the whole mesh, and its head is made by printf. A run of planes remembers the samples of
   the last two planes and nothing of the mesh: with the next plane they are a block of their own, meshed as any other.
   Of a reading only the bits are looked at, with no float arithmetic, and the block of its grey values is put together
   before it is meshed. Whether metal is joined across a doubtful face is asked with a noise figure; beside that stands
   the old rule, which has none. A foreign mesh is judged by sorting: its vertices and ours by cube and word, then its
   quads and ours, each begun where its numbers are least; then both lists are gone through side by side.
   Assumes doubles rounded to nearest, each operation by itself (-ffp-contract=off), and floats of 32 bits by IEEE 754
   whose bytes stand as those of a uint32_t. */
#include "plain.h"

#include <stdio.h>
#include <stdlib.h>
#include <string.h>

enum { AXES = 3, CORNERS = 8, EDGES = 12, FACES = 6, MOST_LOOPS = 4, CEILING = 65535, MARK = 4096 };
enum { SHORTEST_AXIS = 2, LONGEST_AXIS = 256, WORDS = 2, SIDES = 4, ANSWER = 3, CLOSED_ANSWER = 4, JUDGE_ANSWER = 4 };
enum { MOST_THRESHOLDS = 16, STATE = 8, WORK_PLANES = 6, KEPT_PLANES = 2 };
enum { FRACTION_BITS = 23, EXPONENT_BITS = 8, NO_EXPONENT = 255, BIAS = 127 };
enum { MOST_VERTICES = 66325500, WIDEST_SPACING = 1000, MOST_HEAD = 256, DOUBLE_BYTES = 8, INT_BYTES = 4 };

/* Corner pairs of the edges, the lower one first. */
static const unsigned ends[EDGES][2] = {{0, 1}, {2, 3}, {4, 5}, {6, 7}, {0, 2}, {1, 3},
                                        {4, 6}, {5, 7}, {0, 4}, {1, 5}, {2, 6}, {3, 7}};

/* Where it is decided by an old rule or by a set of faces, the noise figure is not looked at. */
enum decider { BY_NOISE, BY_OLD_RULE, BY_SET };

struct cube {
    uint16_t sample[CORNERS];
    uint16_t t;
    uint32_t noise;
    enum decider decider;
    unsigned set; /* the faces with joined metal, bit f for face f, where the set decides */
};

struct block {
    size_t length[AXES];
    const uint16_t *samples;
    uint16_t t;
    uint32_t noise;
    enum decider decider;
};

struct refusal {
    uint32_t number, value;
};

static const struct refusal accepted = {0, 0};

/* What the rules exclude is a fault of this file. */
static void impossible(const char *what)
{
    fprintf(stderr, "plain: %s\n", what);
    abort();
}

/* Room for so many items. The caller frees it. */
static void *room_for(size_t count, size_t item)
{
    void *room = malloc(count > 0 ? count * item : 1);
    if (!room)
        impossible("no memory");
    return room;
}

/* ---- edges ---- */

static int positive(uint16_t sample, uint16_t t)
{
    return sample >= t;
}

static int crossed_between(uint16_t p, uint16_t q, uint16_t t)
{
    return positive(p, t) != positive(q, t);
}

static double fraction_between(uint16_t p, uint16_t q, uint16_t t)
{
    int part = abs((int)t - (int)p), all = abs((int)q - (int)p);
    return (double)part / (double)all;
}

static int crossed(const struct cube *cube, unsigned edge)
{
    return crossed_between(cube->sample[ends[edge][0]], cube->sample[ends[edge][1]], cube->t);
}

/* ---- faces ---- */

static int corner_on_face(unsigned corner, unsigned face)
{
    return (corner >> face / 2 & 1) == face % 2;
}

static int edge_on_face(unsigned edge, unsigned face)
{
    return corner_on_face(ends[edge][0], face) && corner_on_face(ends[edge][1], face);
}

static int meets(unsigned edge, unsigned corner)
{
    return ends[edge][0] == corner || ends[edge][1] == corner;
}

uint32_t plain_face(unsigned face)
{
    uint32_t mask = 0;
    for (unsigned edge = 0; edge < EDGES; edge++)
        if (edge_on_face(edge, face))
            mask |= (uint32_t)1 << edge;
    return mask;
}

/* The face of the edge that is not this one; for a number past the faces, its lowest face. */
static unsigned other_face(unsigned edge, unsigned face)
{
    for (unsigned other = 0; other < FACES; other++)
        if (other != face && edge_on_face(edge, other))
            return other;
    impossible("an edge lies on one face only");
    return FACES;
}

/* Of a face with four crossed edges: the product of the differences at its positive corners, and at its negative
   ones. Neither is below 0, and neither has more than 32 bits. */
struct products {
    int64_t of_positive, of_negative;
};

static struct products products_on(const struct cube *cube, unsigned face)
{
    struct products products = {1, 1};
    for (unsigned corner = 0; corner < CORNERS; corner++) {
        int64_t difference = (int64_t)cube->sample[corner] - (int64_t)cube->t;
        if (!corner_on_face(corner, face))
            continue;
        if (positive(cube->sample[corner], cube->t))
            products.of_positive *= difference;
        else
            products.of_negative *= difference;
    }
    return products;
}

/* The old rule, which has no noise figure. */
static int joined_by_old_rule(const struct cube *cube, unsigned face)
{
    struct products products = products_on(cube, face);
    return products.of_positive >= products.of_negative;
}

/* The rule with a noise figure. The sum has at most 33 bits. */
static int joined_with_noise(const struct cube *cube, unsigned face)
{
    struct products products = products_on(cube, face);
    return products.of_positive >= products.of_negative + (int64_t)cube->noise;
}

/* On a face with four crossed edges: are the positive corners joined? */
static int joined(const struct cube *cube, unsigned face)
{
    if (cube->decider == BY_SET)
        return cube->set >> face & 1;
    return cube->decider == BY_OLD_RULE ? joined_by_old_rule(cube, face) : joined_with_noise(cube, face);
}

/* The edge that a crossed edge is linked with on one of its faces. */
static unsigned partner(const struct cube *cube, unsigned edge, unsigned face)
{
    unsigned others[EDGES], count = 0, corner;
    for (unsigned other = 0; other < EDGES; other++)
        if (other != edge && edge_on_face(other, face) && crossed(cube, other))
            others[count++] = other;
    if (count == 1)
        return others[0];
    if (count != 3)
        impossible("a face has an odd number of crossed edges");
    /* joined metal: links turn round the negative corners, otherwise round the positive ones */
    corner = ends[edge][0];
    if (positive(cube->sample[corner], cube->t) == joined(cube, face))
        corner = ends[edge][1];
    for (unsigned i = 0; i < count; i++)
        if (meets(others[i], corner))
            return others[i];
    impossible("no second edge at a corner of a face");
    return EDGES;
}

/* ---- loops and places ---- */

/* Walks every loop from its lowest edge and gives their number. */
static unsigned loops(const struct cube *cube, uint32_t masks[MOST_LOOPS])
{
    uint32_t visited = 0;
    unsigned count = 0;
    for (unsigned start = 0; start < EDGES; start++) {
        unsigned edge = start, face = other_face(start, FACES);
        uint32_t mask = 0;
        if ((visited >> start & 1) || !crossed(cube, start))
            continue;
        do {
            mask |= (uint32_t)1 << edge;
            edge = partner(cube, edge, face);
            face = other_face(edge, face);
        } while (edge != start);
        if (count == MOST_LOOPS)
            impossible("more than four loops");
        masks[count++] = mask;
        visited |= mask;
    }
    return count;
}

/* The local coordinate of an edge's crossing. */
static double coordinate(const struct cube *cube, unsigned edge, unsigned axis)
{
    unsigned lower = ends[edge][0], upper = ends[edge][1];
    if (lower + (1u << axis) == upper)
        return fraction_between(cube->sample[lower], cube->sample[upper], cube->t);
    return lower >> axis & 1 ? 1.0 : 0.0;
}

static void place(const struct cube *cube, uint32_t mask, double offset[AXES])
{
    for (unsigned axis = 0; axis < AXES; axis++) {
        double sum = 0.0;
        unsigned count = 0;
        for (unsigned edge = 0; edge < EDGES; edge++)
            if (mask >> edge & 1) {
                sum += coordinate(cube, edge, axis);
                count++;
            }
        offset[axis] = sum / (double)count;
    }
}

/* The mask of a loop, with the mark where a corner of its cube is at the ceiling. */
static uint32_t word_of(const struct cube *cube, uint32_t mask)
{
    for (unsigned corner = 0; corner < CORNERS; corner++)
        if (cube->sample[corner] == CEILING)
            return mask + MARK;
    return mask;
}

/* ---- the block ---- */

static size_t sample_index(const struct block *block, size_t i, size_t j, size_t k)
{
    return i + block->length[0] * (j + block->length[1] * k);
}

static size_t cube_number(const struct block *block, size_t i, size_t j, size_t k)
{
    return i + (block->length[0] - 1) * (j + (block->length[1] - 1) * k);
}

static size_t cubes(const struct block *block)
{
    return (block->length[0] - 1) * (block->length[1] - 1) * (block->length[2] - 1);
}

static struct cube cube_at(const struct block *block, size_t number)
{
    size_t across = block->length[0] - 1, down = block->length[1] - 1;
    size_t i = number % across, j = number / across % down, k = number / across / down;
    struct cube cube;
    memset(&cube, 0, sizeof cube);
    cube.t = block->t;
    cube.noise = block->noise;
    cube.decider = block->decider;
    for (unsigned corner = 0; corner < CORNERS; corner++)
        cube.sample[corner] =
            block->samples[sample_index(block, i + (corner & 1), j + (corner >> 1 & 1), k + (corner >> 2 & 1))];
    return cube;
}

/* All corners alike: no edge is crossed, and there is nothing to walk. */
static int quiet(const struct cube *cube)
{
    int first = positive(cube->sample[0], cube->t);
    for (unsigned corner = 1; corner < CORNERS; corner++)
        if (positive(cube->sample[corner], cube->t) != first)
            return 0;
    return 1;
}

/* The number of vertices. Where first is given, it gets each cube's first vertex number, and the total at its end. */
static uint32_t number_vertices(const struct block *block, uint32_t *first)
{
    uint32_t count = 0, masks[MOST_LOOPS];
    size_t end = cubes(block);
    for (size_t number = 0; number < end; number++) {
        struct cube cube = cube_at(block, number);
        if (first)
            first[number] = count;
        if (!quiet(&cube))
            count += loops(&cube, masks);
    }
    if (first)
        first[end] = count;
    return count;
}

static void write_vertices(const struct block *block, uint32_t *words, double *offsets)
{
    size_t vertex = 0, end = cubes(block);
    for (size_t number = 0; number < end; number++) {
        struct cube cube = cube_at(block, number);
        uint32_t masks[MOST_LOOPS];
        unsigned count = quiet(&cube) ? 0 : loops(&cube, masks);
        for (unsigned loop = 0; loop < count; loop++, vertex++) {
            words[WORDS * vertex] = (uint32_t)number;
            words[WORDS * vertex + 1] = word_of(&cube, masks[loop]);
            place(&cube, masks[loop], offsets + AXES * vertex);
        }
    }
}

/* ---- quads ---- */

/* How far each of the four cubes of an inner edge lies below its lower sample, along x, y, z. */
static const size_t below[AXES][SIDES][AXES] = {{{0, 1, 1}, {0, 0, 1}, {0, 0, 0}, {0, 1, 0}},
                                                {{1, 0, 1}, {1, 0, 0}, {0, 0, 0}, {0, 0, 1}},
                                                {{1, 1, 0}, {0, 1, 0}, {0, 0, 0}, {1, 0, 0}}};

/* The edge of a cube that runs along an axis from this lower corner. */
static unsigned edge_from(unsigned lower, unsigned along)
{
    for (unsigned edge = 0; edge < EDGES; edge++)
        if (ends[edge][0] == lower && ends[edge][1] == lower + (1u << along))
            return edge;
    impossible("no edge runs from a corner along an axis");
    return EDGES;
}

/* The vertex of a cube whose mask holds the edge; the mark is above all edges. */
static uint32_t vertex_with(const uint32_t *first, const uint32_t *words, size_t number, unsigned edge)
{
    for (uint32_t vertex = first[number]; vertex < first[number + 1]; vertex++)
        if (words[WORDS * (size_t)vertex + 1] >> edge & 1)
            return vertex;
    impossible("no vertex of a cube holds a crossed edge");
    return 0;
}

/* The quad of the crossed inner edge that runs along an axis from this lower sample. */
static void write_quad(const struct block *block, const uint32_t *first, const uint32_t *words, unsigned along,
                       const size_t at[AXES], int lower_positive, uint32_t quad[SIDES])
{
    for (unsigned side = 0; side < SIDES; side++) {
        const size_t *step = below[along][side];
        unsigned corner = (unsigned)(step[0] + 2 * step[1] + 4 * step[2]);
        size_t number = cube_number(block, at[0] - step[0], at[1] - step[1], at[2] - step[2]);
        quad[side] = vertex_with(first, words, number, edge_from(corner, along));
    }
    if (!lower_positive) {
        uint32_t second = quad[1];
        quad[1] = quad[3];
        quad[3] = second;
    }
}

/* The number of quads: along x, then y, then z, each by index of the lower sample. Where quads is given, it gets
   them. */
static uint32_t number_quads(const struct block *block, const uint32_t *first, const uint32_t *words, uint32_t *quads)
{
    uint32_t count = 0;
    for (unsigned along = 0; along < AXES; along++) {
        size_t from[AXES], at[AXES];
        for (unsigned axis = 0; axis < AXES; axis++)
            from[axis] = axis == along ? 0 : 1;
        for (at[2] = from[2]; at[2] + 1 < block->length[2]; at[2]++)
            for (at[1] = from[1]; at[1] + 1 < block->length[1]; at[1]++)
                for (at[0] = from[0]; at[0] + 1 < block->length[0]; at[0]++) {
                    uint16_t p = block->samples[sample_index(block, at[0], at[1], at[2])];
                    uint16_t q = block->samples[sample_index(block, at[0] + (along == 0), at[1] + (along == 1),
                                                             at[2] + (along == 2))];
                    if (!crossed_between(p, q, block->t))
                        continue;
                    if (quads)
                        write_quad(block, first, words, along, at, positive(p, block->t),
                                   quads + SIDES * (size_t)count);
                    count++;
                }
    }
    return count;
}

/* ---- crossed edges ---- */

/* Each sample but the last along an axis is the lower end of an edge along that axis. */
static uint32_t number_crossed(const struct block *block)
{
    uint32_t count = 0;
    size_t at[AXES];
    for (at[2] = 0; at[2] < block->length[2]; at[2]++)
        for (at[1] = 0; at[1] < block->length[1]; at[1]++)
            for (at[0] = 0; at[0] < block->length[0]; at[0]++)
                for (unsigned along = 0; along < AXES; along++) {
                    size_t lower = sample_index(block, at[0], at[1], at[2]), upper;
                    if (at[along] + 1 == block->length[along])
                        continue;
                    upper = sample_index(block, at[0] + (along == 0), at[1] + (along == 1), at[2] + (along == 2));
                    if (crossed_between(block->samples[lower], block->samples[upper], block->t))
                        count++;
                }
    return count;
}

/* ---- refusals ---- */

static struct refusal refuse(uint32_t number, uint32_t value)
{
    struct refusal refusal;
    refusal.number = number;
    refusal.value = value;
    return refusal;
}

static struct refusal check_threshold(uint16_t t)
{
    return t == 0 || t == CEILING ? refuse(3, t) : accepted;
}

static struct refusal check_axes(uint32_t nx, uint32_t ny, uint32_t nz)
{
    uint32_t length[AXES];
    length[0] = nx;
    length[1] = ny;
    length[2] = nz;
    for (uint32_t axis = 0; axis < AXES; axis++)
        if (length[axis] < SHORTEST_AXIS || length[axis] > LONGEST_AXIS)
            return refuse(1, axis);
    return accepted;
}

static struct refusal check_samples(uint32_t nx, uint32_t ny, uint32_t nz, size_t samples_len)
{
    struct refusal refusal = check_axes(nx, ny, nz);
    uint32_t wanted = nx * ny * nz;
    if (!refusal.number && samples_len != wanted)
        refusal = refuse(2, wanted);
    return refusal;
}

static struct refusal check_block(uint32_t nx, uint32_t ny, uint32_t nz, size_t samples_len, uint16_t t)
{
    struct refusal refusal = check_samples(nx, ny, nz, samples_len);
    return refusal.number ? refusal : check_threshold(t);
}

static struct refusal check_rest(size_t quads_len)
{
    return quads_len % SIDES != 0 ? refuse(7, (uint32_t)(quads_len % SIDES)) : accepted;
}

/* A value above 4294967295 is given as that. */
static uint32_t cut_to_u32(size_t value)
{
    return value > UINT32_MAX ? UINT32_MAX : (uint32_t)value;
}

static struct refusal check_numbers(size_t vertices, const uint32_t *quads, size_t quads_len)
{
    for (size_t at = 0; at < quads_len; at++)
        if (quads[at] >= vertices)
            return refuse(14, cut_to_u32(at / SIDES));
    return accepted;
}

/* ---- answer places ---- */

/* As many items as the place has room for; what lies behind is kept. */
static void put_words(uint32_t *place, size_t place_len, const uint32_t *items, size_t count)
{
    for (size_t i = 0; i < count && i < place_len; i++)
        place[i] = items[i];
}

static void put_doubles(double *place, size_t place_len, const double *items, size_t count)
{
    for (size_t i = 0; i < count && i < place_len; i++)
        place[i] = items[i];
}

static void say(uint32_t *answer, size_t answer_len, uint32_t number, uint32_t second, uint32_t third)
{
    uint32_t items[ANSWER];
    items[0] = number;
    items[1] = second;
    items[2] = third;
    put_words(answer, answer_len, items, ANSWER);
}

static void say_refused(uint32_t *answer, size_t answer_len, struct refusal refusal)
{
    say(answer, answer_len, refusal.number, refusal.value, 0);
}

static struct block block_of(uint32_t nx, uint32_t ny, uint32_t nz, const uint16_t *samples, uint16_t t, uint32_t noise)
{
    struct block block;
    block.length[0] = nx;
    block.length[1] = ny;
    block.length[2] = nz;
    block.samples = samples;
    block.t = t;
    block.noise = noise;
    block.decider = BY_NOISE;
    return block;
}

/* ---- sides of a list of quads ---- */

/* A side by the vertices that it runs from and to, and where it stands: 4 times its quad, plus its number there. */
struct side {
    uint32_t from, to;
    size_t at;
};

static int by_number(size_t a, size_t b)
{
    return a < b ? -1 : a > b;
}

/* Sides between the same two vertices are equal here, whichever way they run. */
static int by_ends(const void *a, const void *b)
{
    const struct side *x = a, *y = b;
    int x_up = x->from < x->to, y_up = y->from < y->to;
    int by_low = by_number(x_up ? x->from : x->to, y_up ? y->from : y->to);
    return by_low != 0 ? by_low : by_number(x_up ? x->to : x->from, y_up ? y->to : y->from);
}

/* By the vertex that a side starts at, then as they stand in the list. */
static int by_start(const void *a, const void *b)
{
    const struct side *x = a, *y = b;
    int by_from = by_number(x->from, y->from);
    return by_from != 0 ? by_from : by_number(x->at, y->at);
}

/* All sides of a list, sorted. The caller frees them. */
static struct side *sorted_sides(const uint32_t *quads, size_t quads_len, int (*order)(const void *, const void *))
{
    struct side *sides = room_for(quads_len, sizeof *sides);
    for (size_t at = 0; at < quads_len; at++) {
        sides[at].from = quads[at];
        sides[at].to = quads[at % SIDES == SIDES - 1 ? at - (SIDES - 1) : at + 1];
        sides[at].at = at;
    }
    qsort(sides, quads_len, sizeof *sides, order);
    return sides;
}

/* Where the first side at fault stands, or quads_len where there is none. Sides between the same two vertices stand
   together once they are sorted: either all of them are in order or none is. */
static size_t first_side_at_fault(const uint32_t *quads, size_t quads_len)
{
    struct side *sides = sorted_sides(quads, quads_len, by_ends);
    size_t fault = quads_len;
    for (size_t first = 0, end; first < quads_len; first = end) {
        size_t up = 0, down = 0;
        for (end = first; end < quads_len && by_ends(&sides[first], &sides[end]) == 0; end++) {
            up += sides[end].from < sides[end].to;
            down += sides[end].from > sides[end].to;
        }
        if (sides[first].from != sides[first].to && up == down)
            continue;
        for (size_t i = first; i < end; i++)
            fault = sides[i].at < fault ? sides[i].at : fault;
    }
    free(sides);
    return fault;
}

/* How many vertex numbers there are from 0 to the highest in the list. */
static uint64_t numbers_up_to_highest(const uint32_t *quads, size_t quads_len)
{
    uint64_t numbers = 0;
    for (size_t at = 0; at < quads_len; at++)
        if (quads[at] >= numbers)
            numbers = (uint64_t)quads[at] + 1;
    return numbers;
}

/* For each of so many vertices the first side that starts there; then for each side the next one that starts where it
   does; quads_len where there is none. Sides that start at one vertex stand one behind the other once they are
   sorted. */
static void write_starts(const uint32_t *quads, size_t quads_len, size_t vertices, uint64_t *work)
{
    struct side *sides = sorted_sides(quads, quads_len, by_start);
    for (size_t i = 0; i < vertices + quads_len; i++)
        work[i] = quads_len;
    for (size_t i = 0; i < quads_len; i++) {
        int is_first = i == 0 || sides[i - 1].from != sides[i].from;
        work[is_first ? sides[i].from : vertices + sides[i - 1].at] = sides[i].at;
    }
    free(sides);
}

/* ---- pieces of a list of quads ---- */

static struct refusal check_pieces(uint32_t n, const uint32_t *quads, size_t quads_len, size_t piece_len,
                                   size_t size_len)
{
    struct refusal refusal = check_rest(quads_len);
    if (!refusal.number)
        refusal = check_numbers(n, quads, quads_len);
    if (!refusal.number && (piece_len < n || size_len < n))
        refusal = refuse(5, n);
    return refusal;
}

/* Where each vertex stands in a list: last at last[v], and before[at] is the place before at with the same vertex;
   quads_len where there is none. */
struct places {
    const uint32_t *quads;
    size_t quads_len, *last, *before;
};

static struct places places_of(uint32_t n, const uint32_t *quads, size_t quads_len)
{
    struct places places;
    places.quads = quads;
    places.quads_len = quads_len;
    places.last = room_for(n, sizeof *places.last);
    places.before = room_for(quads_len, sizeof *places.before);
    for (uint32_t vertex = 0; vertex < n; vertex++)
        places.last[vertex] = quads_len;
    for (size_t at = 0; at < quads_len; at++) {
        places.before[at] = places.last[quads[at]];
        places.last[quads[at]] = at;
    }
    return places;
}

/* Spreads the number of a piece from its lowest vertex through all quads. The answer is how many vertices got it: they
   stand in reached, in the order in which they did. In piece, none stands for no number yet. */
static uint32_t spread(const struct places *places, uint32_t lowest, uint32_t none, uint32_t *reached, uint32_t *piece)
{
    uint32_t count = 1;
    piece[lowest] = lowest;
    reached[0] = lowest;
    for (uint32_t i = 0; i < count; i++)
        for (size_t at = places->last[reached[i]]; at < places->quads_len; at = places->before[at])
            for (size_t side = 0; side < SIDES; side++) {
                uint32_t vertex = places->quads[at / SIDES * SIDES + side];
                if (piece[vertex] == none) {
                    piece[vertex] = lowest;
                    reached[count++] = vertex;
                }
            }
    return count;
}

/* Each vertex gets the number of its piece, and each lowest vertex the piece's size. The answer is how many pieces
   there are. */
static uint32_t number_pieces(uint32_t n, const uint32_t *quads, size_t quads_len, uint32_t *piece, uint32_t *size)
{
    struct places places = places_of(n, quads, quads_len);
    uint32_t *reached = room_for(n, sizeof *reached), count = 0;
    for (uint32_t vertex = 0; vertex < n; vertex++) {
        piece[vertex] = n;
        size[vertex] = 0;
    }
    for (uint32_t vertex = 0; vertex < n; vertex++)
        if (piece[vertex] == n) {
            size[vertex] = spread(&places, vertex, n, reached, piece);
            count++;
        }
    free(reached);
    free(places.last);
    free(places.before);
    return count;
}

/* What each vertex hangs under, where n stands for nothing; how many vertices each top has; and how many links the
   longest search has followed. */
struct hanging {
    uint32_t n, *link, *held, longest;
};

static uint32_t search_top(struct hanging *hanging, uint32_t vertex)
{
    uint32_t links = 0;
    for (; hanging->link[vertex] != hanging->n; vertex = hanging->link[vertex])
        links++;
    if (links > hanging->longest)
        hanging->longest = links;
    return vertex;
}

/* The top with fewer vertices is hung under the other, and at a tie the higher one. */
static void join_vertices(struct hanging *hanging, uint32_t first, uint32_t second)
{
    uint32_t a = search_top(hanging, first), b = search_top(hanging, second), *held = hanging->held;
    int is_a_hung = held[a] == held[b] ? a > b : held[a] < held[b];
    uint32_t hung = is_a_hung ? a : b, top = is_a_hung ? b : a;
    if (a == b)
        return;
    hanging->link[hung] = top;
    held[top] += held[hung];
}

/* Each quad in order joins its first vertex with its second, third and fourth. */
static uint32_t longest_search(uint32_t n, const uint32_t *quads, size_t quads_len)
{
    struct hanging hanging = {n, room_for(n, sizeof(uint32_t)), room_for(n, sizeof(uint32_t)), 0};
    for (uint32_t vertex = 0; vertex < n; vertex++) {
        hanging.link[vertex] = n;
        hanging.held[vertex] = 1;
    }
    for (size_t at = 0; at < quads_len; at += SIDES)
        for (size_t side = 1; side < SIDES; side++)
            join_vertices(&hanging, quads[at], quads[at + side]);
    free(hanging.link);
    free(hanging.held);
    return hanging.longest;
}

/* ---- the PLY file ---- */

/* A mesh that is to be drawn, with the axes of its block and the spacing along each; or one that is to be judged, with
   its block. */
struct drawing {
    struct block block; /* its samples, threshold and noise figure are not used to draw */
    const uint32_t *words, *quads;
    const double *offsets;
    size_t words_len, offsets_len, quads_len;
    double spacing[AXES];
};

static size_t drawn_vertices(const struct drawing *drawing)
{
    return drawing->words_len / WORDS;
}

static size_t drawn_quads(const struct drawing *drawing)
{
    return drawing->quads_len / SIDES;
}

static struct refusal check_lengths(const struct drawing *drawing)
{
    size_t count = drawn_vertices(drawing);
    if (count <= MOST_VERTICES && drawing->words_len == WORDS * count && drawing->offsets_len == AXES * count)
        return accepted;
    return refuse(22, cut_to_u32(drawing->words_len));
}

static struct refusal check_cubes(const struct drawing *drawing)
{
    size_t end = cubes(&drawing->block);
    for (size_t vertex = 0; vertex < drawn_vertices(drawing); vertex++)
        if (drawing->words[WORDS * vertex] >= end)
            return refuse(23, (uint32_t)vertex);
    return accepted;
}

/* The first vertex with an offset that is not from 0 to 1, or the number of vertices where there is none. What is no
   number is not at least 0. */
static size_t first_bad_offset(const struct drawing *drawing)
{
    for (size_t at = 0; at < drawing->offsets_len; at++)
        if (!(drawing->offsets[at] >= 0.0 && drawing->offsets[at] <= 1.0))
            return at / AXES;
    return drawn_vertices(drawing);
}

static struct refusal check_offsets(const struct drawing *drawing)
{
    size_t bad = first_bad_offset(drawing);
    return bad < drawn_vertices(drawing) ? refuse(24, (uint32_t)bad) : accepted;
}

static struct refusal check_list(const struct drawing *drawing)
{
    return check_rest(drawing->quads_len);
}

static struct refusal check_spacing(const struct drawing *drawing)
{
    for (uint32_t axis = 0; axis < AXES; axis++)
        if (!(drawing->spacing[axis] > 0.0 && drawing->spacing[axis] <= WIDEST_SPACING))
            return refuse(13, axis);
    return accepted;
}

static struct refusal check_quads(const struct drawing *drawing)
{
    return check_numbers(drawn_vertices(drawing), drawing->quads, drawing->quads_len);
}

/* Prints the head of the file, and gives its length. */
static size_t print_head(const struct drawing *drawing, char head[MOST_HEAD])
{
    int length = snprintf(head, MOST_HEAD,
                          "ply\nformat binary_little_endian 1.0\nelement vertex %llu\nproperty double x\nproperty "
                          "double y\nproperty double z\nelement face %llu\nproperty list uchar int "
                          "vertex_indices\nend_header\n",
                          (unsigned long long)drawn_vertices(drawing), (unsigned long long)drawn_quads(drawing));
    if (length < 0 || length >= MOST_HEAD)
        impossible("the head of a file is too long");
    return (size_t)length;
}

static uint64_t file_bytes(const struct drawing *drawing)
{
    char head[MOST_HEAD];
    return print_head(drawing, head) + (uint64_t)drawn_vertices(drawing) * AXES * DOUBLE_BYTES +
           (uint64_t)drawn_quads(drawing) * (1 + SIDES * INT_BYTES);
}

static struct refusal check_drawing(const struct drawing *drawing, size_t file_len)
{
    static struct refusal (*const checks[])(const struct drawing *) = {check_lengths, check_cubes,   check_offsets,
                                                                       check_list,    check_spacing, check_quads};
    uint64_t needed = file_bytes(drawing);
    for (size_t i = 0; i < sizeof checks / sizeof *checks; i++) {
        struct refusal refusal = checks[i](drawing);
        if (refusal.number)
            return refusal;
    }
    return needed > file_len ? refuse(15, cut_to_u32(needed)) : accepted;
}

/* So many bytes of a number, the lowest first; gives the place behind them. */
static uint8_t *put_bytes(uint8_t *to, uint64_t number, unsigned count)
{
    for (unsigned i = 0; i < count; i++)
        to[i] = (uint8_t)(number >> 8 * i);
    return to + count;
}

static uint8_t *put_double(uint8_t *to, double number)
{
    uint64_t bits;
    memcpy(&bits, &number, sizeof bits);
    return put_bytes(to, bits, DOUBLE_BYTES);
}

static uint8_t *put_vertex(uint8_t *to, const struct drawing *drawing, size_t vertex)
{
    size_t across = drawing->block.length[0] - 1, layer = across * (drawing->block.length[1] - 1);
    size_t number = drawing->words[WORDS * vertex], cube[AXES];
    cube[2] = number / layer;
    cube[1] = (number - cube[2] * layer) / across;
    cube[0] = number - cube[2] * layer - cube[1] * across;
    for (unsigned axis = 0; axis < AXES; axis++) {
        double steps = (double)cube[axis] + drawing->offsets[AXES * vertex + axis];
        to = put_double(to, steps * drawing->spacing[axis]);
    }
    return to;
}

static void draw(const struct drawing *drawing, uint8_t *file)
{
    char head[MOST_HEAD];
    size_t head_len = print_head(drawing, head);
    uint8_t *to = file + head_len;
    memcpy(file, head, head_len);
    for (size_t vertex = 0; vertex < drawn_vertices(drawing); vertex++)
        to = put_vertex(to, drawing, vertex);
    for (size_t at = 0; at < drawing->quads_len; at++) {
        if (at % SIDES == 0)
            to = put_bytes(to, SIDES, 1);
        to = put_bytes(to, drawing->quads[at], INT_BYTES);
    }
}

/* ---- judging a foreign mesh ---- */

/* A vertex or a quad as four numbers, and where it stands in its list. A vertex has its cube, its word and two
   zeros. */
struct entry {
    uint32_t number[SIDES];
    size_t at;
};

static int by_four(const uint32_t a[SIDES], const uint32_t b[SIDES])
{
    for (unsigned i = 0; i < SIDES; i++)
        if (a[i] != b[i])
            return by_number(a[i], b[i]);
    return 0;
}

/* Equal ones as they stand in their list. */
static int by_entry(const void *a, const void *b)
{
    const struct entry *x = a, *y = b;
    int by_numbers = by_four(x->number, y->number);
    return by_numbers != 0 ? by_numbers : by_number(x->at, y->at);
}

static void sort_entries(struct entry *entries, size_t count)
{
    qsort(entries, count, sizeof *entries, by_entry);
}

/* All vertices of a list, sorted. The caller frees them. */
static struct entry *sorted_vertices(const uint32_t *words, size_t count)
{
    struct entry *entries = room_for(count, sizeof *entries);
    for (size_t at = 0; at < count; at++) {
        struct entry entry = {{words[WORDS * at], words[WORDS * at + 1], 0, 0}, at};
        entries[at] = entry;
    }
    sort_entries(entries, count);
    return entries;
}

/* All quads of a list, sorted. Where names is given, it has another number for each vertex. Of the four ways to begin a
   quad the one with the least numbers is taken, so that quads are equal if one is the other begun elsewhere. The caller
   frees them. */
static struct entry *sorted_quads(const uint32_t *quads, size_t count, const uint32_t *names)
{
    struct entry *entries = room_for(count, sizeof *entries);
    for (size_t at = 0; at < count; at++)
        for (size_t begin = 0; begin < SIDES; begin++) {
            struct entry entry = {{0}, at};
            for (size_t side = 0; side < SIDES; side++) {
                uint32_t vertex = quads[SIDES * at + (begin + side) % SIDES];
                entry.number[side] = names ? names[vertex] : vertex;
            }
            if (begin == 0 || by_four(entry.number, entries[at].number) < 0)
                entries[at] = entry;
        }
    sort_entries(entries, count);
    return entries;
}

/* Where the first entry of theirs stands that is none of ours or equal to an earlier one; count where there is none.
   Where names is given, it gets for each of theirs that is ours where that one stands. */
static size_t first_stray(const struct entry *theirs, size_t count, const struct entry *ours, size_t our_count,
                          uint32_t *names)
{
    size_t stray = count, other = 0;
    for (size_t i = 0; i < count; i++) {
        int is_again = i > 0 && by_four(theirs[i - 1].number, theirs[i].number) == 0, is_ours;
        while (other < our_count && by_four(ours[other].number, theirs[i].number) < 0)
            other++;
        is_ours = other < our_count && by_four(ours[other].number, theirs[i].number) == 0;
        if (is_ours && names)
            names[theirs[i].at] = (uint32_t)ours[other].at;
        if ((is_again || !is_ours) && theirs[i].at < stray)
            stray = theirs[i].at;
    }
    return stray;
}

/* Our own mesh of a block. */
struct own {
    uint32_t vertex_count, quad_count, *words, *quads;
};

/* The caller frees what it holds. */
static struct own own_mesh(const struct block *block)
{
    uint32_t *first = room_for(cubes(block) + 1, sizeof *first);
    struct own own;
    double *offsets;
    own.vertex_count = number_vertices(block, first);
    own.quad_count = number_quads(block, NULL, NULL, NULL);
    own.words = room_for(WORDS * (size_t)own.vertex_count, sizeof *own.words);
    own.quads = room_for(SIDES * (size_t)own.quad_count, sizeof *own.quads);
    offsets = room_for(AXES * (size_t)own.vertex_count, sizeof *offsets);
    write_vertices(block, own.words, offsets);
    number_quads(block, first, own.words, own.quads);
    free(offsets);
    free(first);
    return own;
}

/* What is refused of a foreign mesh is refused of one that is to be drawn, but its cubes and offsets are faults. */
static struct refusal check_foreign(const struct drawing *foreign)
{
    struct refusal refusal = check_lengths(foreign);
    if (!refusal.number)
        refusal = check_list(foreign);
    return refusal.number ? refusal : check_quads(foreign);
}

/* The first vertex at fault, or how many there are. Each vertex gets its number in our mesh. */
static size_t first_vertex_at_fault(const struct drawing *foreign, const struct own *own, uint32_t *names)
{
    size_t count = drawn_vertices(foreign), stray, bad_offset = first_bad_offset(foreign);
    struct entry *theirs = sorted_vertices(foreign->words, count);
    struct entry *ours = sorted_vertices(own->words, own->vertex_count);
    stray = first_stray(theirs, count, ours, own->vertex_count, names);
    free(theirs);
    free(ours);
    return bad_offset < stray ? bad_offset : stray;
}

/* The first quad at fault, or how many there are. No vertex is at fault, so each has a name. */
static size_t first_quad_at_fault(const struct drawing *foreign, const struct own *own, const uint32_t *names)
{
    size_t count = drawn_quads(foreign), stray;
    struct entry *theirs = sorted_quads(foreign->quads, count, names);
    struct entry *ours = sorted_quads(own->quads, own->quad_count, NULL);
    stray = first_stray(theirs, count, ours, own->quad_count, NULL);
    free(theirs);
    free(ours);
    return stray;
}

/* The three items that stand behind the first of the answer. */
static void find_fault(const struct drawing *foreign, uint32_t found[3])
{
    struct own own = own_mesh(&foreign->block);
    size_t vertices = drawn_vertices(foreign), quads = drawn_quads(foreign), vertex, quad;
    uint32_t *names = room_for(vertices, sizeof *names);
    found[0] = found[1] = found[2] = 0;
    vertex = first_vertex_at_fault(foreign, &own, names);
    quad = vertex < vertices ? quads : first_quad_at_fault(foreign, &own, names);
    if (vertex < vertices) {
        found[1] = 1;
        found[2] = cut_to_u32(vertex);
    } else if (quad < quads) {
        found[1] = 2;
        found[2] = cut_to_u32(quad);
    } else if (vertices != own.vertex_count || quads != own.quad_count) {
        found[1] = 3;
    } else {
        found[0] = 1;
    }
    free(names);
    free(own.words);
    free(own.quads);
}

/* ---- planes ---- */

/* A run, as its state tells it. */
struct run {
    uint32_t length[AXES], noise, vertices, quads, planes;
    uint16_t t;
};

/* What is missing from the state is 0. */
static struct run run_of(const uint32_t *state, size_t state_len)
{
    uint32_t items[STATE] = {0};
    struct run run;
    put_words(items, STATE, state, state_len);
    memcpy(run.length, items, sizeof run.length);
    run.t = (uint16_t)items[3];
    run.noise = items[4];
    run.vertices = items[5];
    run.quads = items[6];
    run.planes = items[7];
    return run;
}

static void put_run(uint32_t *state, size_t state_len, const struct run *run)
{
    uint32_t items[STATE];
    memcpy(items, run->length, sizeof run->length);
    items[3] = run->t;
    items[4] = run->noise;
    items[5] = run->vertices;
    items[6] = run->quads;
    items[7] = run->planes;
    put_words(state, state_len, items, STATE);
}

/* Only where the axes were accepted. */
static uint32_t plane_size(const struct run *run)
{
    return run->length[0] * run->length[1];
}

static struct refusal check_run(const struct run *run)
{
    struct refusal refusal = check_axes(run->length[0], run->length[1], run->length[2]);
    return refusal.number ? refusal : check_threshold(run->t);
}

static struct refusal check_work(const struct run *run, size_t work_len)
{
    uint32_t needed = WORK_PLANES * plane_size(run);
    return work_len < needed ? refuse(15, needed) : accepted;
}

/* The refusals of a plane that do not hang on what this call needs. */
static struct refusal check_plane(const struct run *run, size_t plane_len, size_t work_len)
{
    struct refusal refusal = check_run(run);
    if (refusal.number)
        return refusal;
    if (run->planes >= run->length[2])
        return refuse(17, run->length[2]);
    if (plane_len != plane_size(run))
        return refuse(2, plane_size(run));
    return check_work(run, work_len);
}

/* The plane with up to two before it as a block, whose mesh is made in full. Of its vertices those from below on are of
   the layer that the plane finishes, and so is each quad whose third vertex is one of them: that is the vertex in the
   cube from which the edge starts. */
struct part {
    uint16_t *samples;
    struct block block;
    uint32_t kept, below, vertex_count, quad_count, *first, *words, *quads;
    double *offsets;
};

static int is_in_part(const struct part *part, const uint32_t *quad)
{
    return quad[2] >= part->below;
}

/* In work stands first the last plane, one sample an item, and then the one before it. */
static void stack_planes(struct part *part, const struct run *run, const uint16_t *plane, const uint32_t *work)
{
    size_t size = plane_size(run);
    part->kept = run->planes < KEPT_PLANES ? run->planes : KEPT_PLANES;
    part->samples = room_for((part->kept + 1) * size, sizeof *part->samples);
    for (size_t from = 0; from < part->kept; from++)
        for (size_t at = 0; at < size; at++)
            part->samples[(part->kept - 1 - from) * size + at] = (uint16_t)work[from * size + at];
    memcpy(part->samples + part->kept * size, plane, size * sizeof *plane);
    part->block = block_of(run->length[0], run->length[1], part->kept + 1, part->samples, run->t, run->noise);
}

/* The caller frees it. */
static struct part part_of(const struct run *run, const uint16_t *plane, const uint32_t *work)
{
    struct part part;
    uint32_t vertices, quads;
    stack_planes(&part, run, plane, work);
    part.first = room_for(cubes(&part.block) + 1, sizeof *part.first);
    vertices = number_vertices(&part.block, part.first);
    quads = number_quads(&part.block, NULL, NULL, NULL);
    part.words = room_for(WORDS * (size_t)vertices, sizeof *part.words);
    part.offsets = room_for(AXES * (size_t)vertices, sizeof *part.offsets);
    part.quads = room_for(SIDES * (size_t)quads, sizeof *part.quads);
    write_vertices(&part.block, part.words, part.offsets);
    number_quads(&part.block, part.first, part.words, part.quads);
    part.below = part.kept == KEPT_PLANES ? part.first[cube_number(&part.block, 0, 0, 1)] : 0;
    part.vertex_count = vertices - part.below;
    part.quad_count = 0;
    for (size_t at = 0; at < SIDES * (size_t)quads; at += SIDES)
        if (is_in_part(&part, part.quads + at)) {
            memmove(part.quads + SIDES * (size_t)part.quad_count, part.quads + at, SIDES * sizeof *part.quads);
            part.quad_count++;
        }
    return part;
}

static void free_part(struct part *part)
{
    free(part->samples);
    free(part->first);
    free(part->words);
    free(part->offsets);
    free(part->quads);
}

/* Cubes and vertices are numbered as in the whole block: its lowest layer here is that many layers up, and the first
   vertex of the part is the next one of the run. */
static void write_part(const struct part *part, const struct run *run, uint32_t *words, double *offsets,
                       uint32_t *quads)
{
    uint32_t layer = (run->length[0] - 1) * (run->length[1] - 1), lower = (run->planes - part->kept) * layer;
    for (size_t i = 0; i < part->vertex_count; i++) {
        size_t vertex = part->below + i;
        words[WORDS * i] = part->words[WORDS * vertex] + lower;
        words[WORDS * i + 1] = part->words[WORDS * vertex + 1];
        memcpy(offsets + AXES * i, part->offsets + AXES * vertex, AXES * sizeof *offsets);
    }
    for (size_t at = 0; at < SIDES * (size_t)part->quad_count; at++)
        quads[at] = part->quads[at] - part->below + run->vertices;
}

static void keep_plane(const struct run *run, const uint16_t *plane, uint32_t *work)
{
    size_t size = plane_size(run);
    memmove(work + size, work, size * sizeof *work);
    for (size_t at = 0; at < size; at++)
        work[at] = plane[at];
}

/* By which call of a run the layer of a cube is finished. */
static uint32_t call_of(uint32_t cube, uint32_t layer)
{
    return cube / layer + 1;
}

void plain_cut(uint32_t nx, uint32_t ny, uint32_t nz, const uint32_t *words, uint32_t vertex_count,
               const uint32_t *quads, uint32_t quad_count, uint32_t *vertices_of, uint32_t *quads_of,
               uint32_t *in_order)
{
    uint32_t layer = (nx - 1) * (ny - 1);
    size_t put = 0;
    for (uint32_t call = 0; call < nz; call++) {
        size_t before = put;
        vertices_of[call] = 0;
        for (size_t vertex = 0; vertex < vertex_count; vertex++)
            vertices_of[call] += call_of(words[WORDS * vertex], layer) == call;
        for (size_t at = 0; at < SIDES * (size_t)quad_count; at += SIDES)
            if (call_of(words[WORDS * (size_t)quads[at + 2]], layer) == call) {
                memcpy(in_order + SIDES * put, quads + at, SIDES * sizeof *quads);
                put++;
            }
        quads_of[call] = (uint32_t)(put - before);
    }
}

/* ---- readings ---- */

/* The greatest whole number not above significand * 2^power, or 65535 where that is less. The significand is at least
   2^23 and below 2^24. */
static uint16_t whole_part(uint32_t significand, int power)
{
    uint32_t whole;
    if (power >= 0)
        return CEILING;
    if (power < -FRACTION_BITS)
        return 0;
    whole = significand >> -power;
    return (uint16_t)(whole < CEILING ? whole : CEILING);
}

/* What the reading with this index is: a refusal, or a grey value. The lowest exponent has no leading bit. */
static struct refusal read_one(float x, uint32_t index, uint16_t *grey)
{
    uint32_t bits, fraction, exponent;
    int is_negative;
    memcpy(&bits, &x, sizeof bits);
    fraction = bits & (((uint32_t)1 << FRACTION_BITS) - 1);
    exponent = bits >> FRACTION_BITS & (((uint32_t)1 << EXPONENT_BITS) - 1);
    is_negative = bits >> (FRACTION_BITS + EXPONENT_BITS) == 1;
    *grey = 0;
    if (exponent == NO_EXPONENT)
        return fraction != 0 ? refuse(19, index) : refuse(20, index);
    if (is_negative && (exponent != 0 || fraction != 0))
        return refuse(21, index);
    if (exponent != 0)
        *grey = whole_part(fraction | (uint32_t)1 << FRACTION_BITS, (int)exponent - BIAS - FRACTION_BITS);
    return accepted;
}

/* The grey values of all readings, or the refusal of the first that is none. */
static struct refusal read_all(const float *readings, size_t count, uint16_t *greys)
{
    for (size_t index = 0; index < count; index++) {
        struct refusal refusal = read_one(readings[index], (uint32_t)index, &greys[index]);
        if (refusal.number)
            return refusal;
    }
    return accepted;
}

/* Where the readings make a block, its samples, which the caller frees; else null, and the refusal is said. */
static uint16_t *block_of_readings(uint32_t nx, uint32_t ny, uint32_t nz, const float *readings, size_t readings_len,
                                   uint16_t t, uint32_t *answer, size_t answer_len)
{
    struct refusal refusal = check_block(nx, ny, nz, readings_len, t);
    uint16_t *samples = NULL;
    if (!refusal.number) {
        samples = room_for(readings_len, sizeof *samples);
        refusal = read_all(readings, readings_len, samples);
    }
    if (!refusal.number)
        return samples;
    say_refused(answer, answer_len, refusal);
    free(samples);
    return NULL;
}

/* ---- the questions ---- */

void plain_edge(uint16_t p, uint16_t q, uint16_t t, double *fraction, size_t fraction_len, uint32_t *answer,
                size_t answer_len)
{
    struct refusal refusal = check_threshold(t);
    double found = 0.0;
    if (refusal.number) {
        say_refused(answer, answer_len, refusal);
    } else {
        if (crossed_between(p, q, t))
            found = fraction_between(p, q, t);
        say(answer, answer_len, 0, crossed_between(p, q, t) ? 1 : 0, 0);
    }
    put_doubles(fraction, fraction_len, &found, 1);
}

static void say_cube(const struct cube *cube, uint32_t *words, size_t words_len, double *offsets, size_t offsets_len,
                     uint32_t *answer, size_t answer_len)
{
    struct refusal refusal = check_threshold(cube->t);
    uint32_t masks[MOST_LOOPS], items[MOST_LOOPS] = {0};
    double places[AXES * MOST_LOOPS] = {0.0};
    if (refusal.number) {
        say_refused(answer, answer_len, refusal);
    } else {
        unsigned count = loops(cube, masks);
        for (unsigned loop = 0; loop < count; loop++) {
            items[loop] = word_of(cube, masks[loop]);
            place(cube, masks[loop], places + AXES * loop);
        }
        say(answer, answer_len, 0, count, 0);
    }
    put_words(words, words_len, items, MOST_LOOPS);
    put_doubles(offsets, offsets_len, places, AXES * MOST_LOOPS);
}

void plain_cube(uint16_t c0, uint16_t c1, uint16_t c2, uint16_t c3, uint16_t c4, uint16_t c5, uint16_t c6, uint16_t c7,
                uint16_t t, uint32_t noise, uint32_t *words, size_t words_len, double *offsets, size_t offsets_len,
                uint32_t *answer, size_t answer_len)
{
    struct cube cube = {{c0, c1, c2, c3, c4, c5, c6, c7}, t, noise, BY_NOISE, 0};
    say_cube(&cube, words, words_len, offsets, offsets_len, answer, answer_len);
}

void plain_old_cube(const uint16_t corner[8], uint16_t t, uint32_t words[4], double offsets[12], uint32_t answer[3])
{
    struct cube cube = {{0}, t, 0, BY_OLD_RULE, 0};
    memcpy(cube.sample, corner, sizeof cube.sample);
    say_cube(&cube, words, MOST_LOOPS, offsets, AXES * MOST_LOOPS, answer, ANSWER);
}

void plain_set_cube(const uint16_t corner[8], uint16_t t, unsigned set, uint32_t words[4])
{
    struct cube cube = {{0}, t, 0, BY_SET, set};
    double offsets[AXES * MOST_LOOPS];
    uint32_t answer[ANSWER];
    memcpy(cube.sample, corner, sizeof cube.sample);
    say_cube(&cube, words, MOST_LOOPS, offsets, AXES * MOST_LOOPS, answer, ANSWER);
}

void plain_crossed(uint32_t nx, uint32_t ny, uint32_t nz, const uint16_t *samples, size_t samples_len, uint16_t t,
                   uint32_t *answer, size_t answer_len)
{
    struct refusal refusal = check_block(nx, ny, nz, samples_len, t);
    struct block block = block_of(nx, ny, nz, samples, t, 0);
    if (refusal.number) {
        say_refused(answer, answer_len, refusal);
        return;
    }
    say(answer, answer_len, 0, number_crossed(&block), 0);
}

void plain_counts(uint32_t nx, uint32_t ny, uint32_t nz, const uint16_t *samples, size_t samples_len, uint16_t t,
                  uint32_t noise, uint32_t *answer, size_t answer_len)
{
    struct refusal refusal = check_block(nx, ny, nz, samples_len, t);
    struct block block = block_of(nx, ny, nz, samples, t, noise);
    if (refusal.number) {
        say_refused(answer, answer_len, refusal);
        return;
    }
    say(answer, answer_len, 0, number_vertices(&block, NULL), number_quads(&block, NULL, NULL, NULL));
}

void plain_thresholds(uint32_t nx, uint32_t ny, uint32_t nz, const uint16_t *samples, size_t samples_len,
                      const uint16_t *thresholds, size_t thresholds_len, uint32_t noise, uint32_t *answers,
                      size_t answers_len, uint32_t *answer, size_t answer_len)
{
    struct refusal refusal;
    if (thresholds_len > MOST_THRESHOLDS)
        refusal = refuse(16, cut_to_u32(thresholds_len));
    else if (answers_len < ANSWER * thresholds_len)
        refusal = refuse(15, cut_to_u32(thresholds_len));
    else
        refusal = check_samples(nx, ny, nz, samples_len);
    for (size_t i = 0; !refusal.number && i < thresholds_len; i++)
        plain_counts(nx, ny, nz, samples, samples_len, thresholds[i], noise, answers + ANSWER * i, ANSWER);
    say_refused(answer, answer_len, refusal);
}

static void say_mesh(const struct block *block, uint32_t *words, size_t words_len, double *offsets, size_t offsets_len,
                     uint32_t *quads, size_t quads_len, uint32_t *answer, size_t answer_len)
{
    uint32_t *first = room_for(cubes(block) + 1, sizeof *first);
    uint32_t vertex_count = number_vertices(block, first), quad_count = number_quads(block, NULL, NULL, NULL);
    if (words_len < WORDS * (size_t)vertex_count || offsets_len < AXES * (size_t)vertex_count) {
        say(answer, answer_len, 5, vertex_count, 0);
    } else if (quads_len < SIDES * (size_t)quad_count) {
        say(answer, answer_len, 6, quad_count, 0);
    } else {
        write_vertices(block, words, offsets);
        number_quads(block, first, words, quads);
        say(answer, answer_len, 0, vertex_count, quad_count);
    }
    free(first);
}

void plain_mesh(uint32_t nx, uint32_t ny, uint32_t nz, const uint16_t *samples, size_t samples_len, uint16_t t,
                uint32_t noise, uint32_t *words, size_t words_len, double *offsets, size_t offsets_len, uint32_t *quads,
                size_t quads_len, uint32_t *answer, size_t answer_len)
{
    struct refusal refusal = check_block(nx, ny, nz, samples_len, t);
    struct block block = block_of(nx, ny, nz, samples, t, noise);
    if (refusal.number)
        say_refused(answer, answer_len, refusal);
    else
        say_mesh(&block, words, words_len, offsets, offsets_len, quads, quads_len, answer, answer_len);
}

void plain_old_mesh(const uint32_t length[3], const uint16_t *samples, uint16_t t, uint32_t *words, size_t words_len,
                    double *offsets, size_t offsets_len, uint32_t *quads, size_t quads_len, uint32_t answer[3])
{
    struct block block = block_of(length[0], length[1], length[2], samples, t, 0);
    block.decider = BY_OLD_RULE;
    say_mesh(&block, words, words_len, offsets, offsets_len, quads, quads_len, answer, ANSWER);
}

void plain_reading(float x, uint32_t *answer, size_t answer_len)
{
    uint16_t grey;
    struct refusal refusal = read_one(x, 0, &grey);
    if (refusal.number)
        say_refused(answer, answer_len, refusal);
    else
        say(answer, answer_len, 0, grey, 0);
}

void plain_readings_counts(uint32_t nx, uint32_t ny, uint32_t nz, const float *readings, size_t readings_len,
                           uint16_t t, uint32_t noise, uint32_t *answer, size_t answer_len)
{
    uint16_t *samples = block_of_readings(nx, ny, nz, readings, readings_len, t, answer, answer_len);
    if (!samples)
        return;
    plain_counts(nx, ny, nz, samples, readings_len, t, noise, answer, answer_len);
    free(samples);
}

void plain_readings_mesh(uint32_t nx, uint32_t ny, uint32_t nz, const float *readings, size_t readings_len, uint16_t t,
                         uint32_t noise, uint32_t *words, size_t words_len, double *offsets, size_t offsets_len,
                         uint32_t *quads, size_t quads_len, uint32_t *answer, size_t answer_len)
{
    uint16_t *samples = block_of_readings(nx, ny, nz, readings, readings_len, t, answer, answer_len);
    if (!samples)
        return;
    plain_mesh(nx, ny, nz, samples, readings_len, t, noise, words, words_len, offsets, offsets_len, quads, quads_len,
               answer, answer_len);
    free(samples);
}

void plain_start(uint32_t nx, uint32_t ny, uint32_t nz, uint16_t t, uint32_t noise, uint32_t *work, size_t work_len,
                 uint32_t *state, size_t state_len, uint32_t *answer, size_t answer_len)
{
    struct run run = {{nx, ny, nz}, noise, 0, 0, 0, t};
    struct refusal refusal = check_run(&run);
    (void)work;
    if (!refusal.number)
        refusal = check_work(&run, work_len);
    if (!refusal.number)
        put_run(state, state_len, &run);
    say_refused(answer, answer_len, refusal);
}

void plain_plane(uint32_t *state, size_t state_len, const uint16_t *plane, size_t plane_len, uint32_t *work,
                 size_t work_len, uint32_t *words, size_t words_len, double *offsets, size_t offsets_len,
                 uint32_t *quads, size_t quads_len, uint32_t *answer, size_t answer_len)
{
    struct run run = run_of(state, state_len);
    struct refusal refusal = check_plane(&run, plane_len, work_len);
    struct part part;
    if (refusal.number) {
        say_refused(answer, answer_len, refusal);
        return;
    }
    part = part_of(&run, plane, work);
    if (words_len < WORDS * (size_t)part.vertex_count || offsets_len < AXES * (size_t)part.vertex_count) {
        say(answer, answer_len, 5, part.vertex_count, 0);
    } else if (quads_len < SIDES * (size_t)part.quad_count) {
        say(answer, answer_len, 6, part.quad_count, 0);
    } else {
        write_part(&part, &run, words, offsets, quads);
        keep_plane(&run, plane, work);
        run.vertices += part.vertex_count;
        run.quads += part.quad_count;
        run.planes++;
        put_run(state, state_len, &run);
        say(answer, answer_len, 0, part.vertex_count, part.quad_count);
    }
    free_part(&part);
}

void plain_end(const uint32_t *state, size_t state_len, uint32_t *answer, size_t answer_len)
{
    struct run run = run_of(state, state_len);
    if (run.planes < run.length[2])
        say(answer, answer_len, 18, run.planes, 0);
    else
        say(answer, answer_len, 0, run.vertices, run.quads);
}

/* The answer about a list that is refused, or else whether it is closed. */
static void say_closed(const uint32_t *quads, size_t quads_len, struct refusal refusal, uint32_t *answer,
                       size_t answer_len)
{
    uint32_t items[CLOSED_ANSWER] = {0};
    items[0] = refusal.number;
    items[1] = refusal.value;
    if (!refusal.number) {
        size_t at = first_side_at_fault(quads, quads_len);
        items[1] = at == quads_len;
        if (at < quads_len) {
            items[2] = cut_to_u32(at / SIDES);
            items[3] = (uint32_t)(at % SIDES);
        }
    }
    put_words(answer, answer_len, items, CLOSED_ANSWER);
}

void plain_closed(const uint32_t *quads, size_t quads_len, uint32_t *answer, size_t answer_len)
{
    say_closed(quads, quads_len, check_rest(quads_len), answer, answer_len);
}

void plain_closed_with(const uint32_t *quads, size_t quads_len, uint64_t *work, size_t work_len, uint32_t *answer,
                       size_t answer_len)
{
    uint64_t vertices = numbers_up_to_highest(quads, quads_len), needed = vertices + quads_len;
    struct refusal refusal = check_rest(quads_len);
    if (!refusal.number && needed > work_len)
        refusal = refuse(15, cut_to_u32(needed));
    if (!refusal.number)
        write_starts(quads, quads_len, (size_t)vertices, work);
    say_closed(quads, quads_len, refusal, answer, answer_len);
}

void plain_pieces(uint32_t n, const uint32_t *quads, size_t quads_len, uint32_t *piece, size_t piece_len,
                  uint32_t *size, size_t size_len, uint32_t *answer, size_t answer_len)
{
    struct refusal refusal = check_pieces(n, quads, quads_len, piece_len, size_len);
    uint32_t count;
    if (refusal.number) {
        say_refused(answer, answer_len, refusal);
        return;
    }
    count = number_pieces(n, quads, quads_len, piece, size);
    say(answer, answer_len, 0, count, longest_search(n, quads, quads_len));
}

void plain_ceilings(const uint16_t *samples, size_t samples_len, uint32_t *answer, size_t answer_len)
{
    size_t count = 0, lowest = samples_len;
    for (size_t index = samples_len; index-- > 0;)
        if (samples[index] == CEILING) {
            count++;
            lowest = index;
        }
    say(answer, answer_len, 0, cut_to_u32(count), cut_to_u32(lowest));
}

void plain_ply(uint32_t nx, uint32_t ny, uint32_t nz, const uint32_t *words, size_t words_len, const double *offsets,
               size_t offsets_len, const uint32_t *quads, size_t quads_len, double x, double y, double z, uint8_t *file,
               size_t file_len, uint64_t *length, size_t length_len, uint32_t *answer, size_t answer_len)
{
    struct drawing drawing = {
        block_of(nx, ny, nz, NULL, 0, 0), words, quads, offsets, words_len, offsets_len, quads_len, {x, y, z}};
    struct refusal refusal = check_axes(nx, ny, nz);
    if (!refusal.number)
        refusal = check_drawing(&drawing, file_len);
    if (!refusal.number)
        draw(&drawing, file);
    if (length_len > 0)
        length[0] = refusal.number ? 0 : file_bytes(&drawing);
    say_refused(answer, answer_len, refusal);
}

void plain_judge(uint32_t nx, uint32_t ny, uint32_t nz, const uint16_t *samples, size_t samples_len, uint16_t t,
                 uint32_t noise, const uint32_t *words, size_t words_len, const double *offsets, size_t offsets_len,
                 const uint32_t *quads, size_t quads_len, uint32_t *answer, size_t answer_len)
{
    struct drawing foreign = {block_of(nx, ny, nz, samples, t, noise),
                              words,
                              quads,
                              offsets,
                              words_len,
                              offsets_len,
                              quads_len,
                              {0.0, 0.0, 0.0}};
    struct refusal refusal = check_block(nx, ny, nz, samples_len, t);
    uint32_t items[JUDGE_ANSWER] = {0};
    if (!refusal.number)
        refusal = check_foreign(&foreign);
    items[0] = refusal.number;
    items[1] = refusal.value;
    if (!refusal.number)
        find_fault(&foreign, items + 1);
    put_words(answer, answer_len, items, JUDGE_ANSWER);
}
