/* Foreign meshes: their orders, and ways to change them at one place.
   Assumes nothing more than foreign.h. */
#include "foreign.h"

#include "plain.h"

#include <stdio.h>
#include <stdlib.h>
#include <string.h>

#define ITEMS(list) (sizeof(list) / sizeof *(list))

static size_t larger(size_t a, size_t b)
{
    return a > b ? a : b;
}

/* ---- meshes and their order ---- */

static void *memory(void *old, size_t count, size_t item)
{
    void *room = realloc(old, count * item + 1);
    if (!room) {
        fprintf(stderr, "compare: no memory\n");
        exit(2);
    }
    return room;
}

static void need_room(struct foreign *foreign, size_t vertices, size_t quads)
{
    if (vertices > foreign->vertex_room || !foreign->words) {
        foreign->words = memory(foreign->words, 2 * vertices, sizeof *foreign->words);
        foreign->offsets = memory(foreign->offsets, 3 * vertices, sizeof *foreign->offsets);
        foreign->vertex_room = vertices;
    }
    if (quads > foreign->quad_room || !foreign->quads) {
        foreign->quads = memory(foreign->quads, 4 * quads, sizeof *foreign->quads);
        foreign->quad_room = quads;
    }
}

/* The room is that which the number of crossed edges says is enough. */
void make_foreign(struct foreign *foreign, mesher *by, const uint32_t length[3], const uint16_t *samples, uint16_t t,
                  uint32_t noise)
{
    uint32_t made[3];
    size_t count = (size_t)sample_product(length);
    plain_crossed(length[0], length[1], length[2], samples, count, t, made, 3);
    need_room(foreign, (size_t)made[1] * 4 / 3 + SPARE, (size_t)made[1] + SPARE);
    by(length[0], length[1], length[2], samples, count, t, noise, foreign->words, 2 * foreign->vertex_room,
       foreign->offsets, 3 * foreign->vertex_room, foreign->quads, 4 * foreign->quad_room, made, 3);
    foreign->vertices = made[0] == 0 ? made[1] : 0;
    foreign->quad_count = made[0] == 0 ? made[2] : 0;
}

void copy_foreign(struct foreign *to, const struct foreign *from)
{
    need_room(to, from->vertices + SPARE, from->quad_count + SPARE);
    memcpy(to->words, from->words, 2 * from->vertices * sizeof *from->words);
    memcpy(to->offsets, from->offsets, 3 * from->vertices * sizeof *from->offsets);
    memcpy(to->quads, from->quads, 4 * from->quad_count * sizeof *from->quads);
    to->vertices = from->vertices;
    to->quad_count = from->quad_count;
}

void free_foreign(struct foreign *foreign)
{
    free(foreign->words);
    free(foreign->offsets);
    free(foreign->quads);
    memset(foreign, 0, sizeof *foreign);
}

/* Words and offsets only; no quad is renamed. */
static void swap_vertices(struct foreign *foreign, size_t a, size_t b)
{
    for (size_t i = 0; i < 2; i++) {
        uint32_t word = foreign->words[2 * a + i];
        foreign->words[2 * a + i] = foreign->words[2 * b + i];
        foreign->words[2 * b + i] = word;
    }
    for (size_t i = 0; i < 3; i++) {
        double offset = foreign->offsets[3 * a + i];
        foreign->offsets[3 * a + i] = foreign->offsets[3 * b + i];
        foreign->offsets[3 * b + i] = offset;
    }
}

void exchange_vertices(struct foreign *foreign, size_t a, size_t b)
{
    swap_vertices(foreign, a, b);
    for (size_t at = 0; at < 4 * foreign->quad_count; at++)
        if (foreign->quads[at] == a)
            foreign->quads[at] = (uint32_t)b;
        else if (foreign->quads[at] == b)
            foreign->quads[at] = (uint32_t)a;
}

void exchange_quads(struct foreign *foreign, size_t a, size_t b)
{
    for (size_t side = 0; side < 4; side++) {
        uint32_t vertex = foreign->quads[4 * a + side];
        foreign->quads[4 * a + side] = foreign->quads[4 * b + side];
        foreign->quads[4 * b + side] = vertex;
    }
}

/* Which vertex stands where is kept in a list, so that the quads are gone through once. */
void shuffle_vertices(struct chance *chance, struct foreign *foreign)
{
    uint32_t *from = memory(NULL, foreign->vertices, sizeof *from), *to = memory(NULL, foreign->vertices, sizeof *to);
    for (size_t v = 0; v < foreign->vertices; v++)
        from[v] = (uint32_t)v;
    for (size_t v = foreign->vertices; v > 1; v--) {
        size_t other = (size_t)chance_below(chance, v);
        uint32_t vertex = from[v - 1];
        swap_vertices(foreign, v - 1, other);
        from[v - 1] = from[other];
        from[other] = vertex;
    }
    for (size_t v = 0; v < foreign->vertices; v++)
        to[from[v]] = (uint32_t)v;
    for (size_t at = 0; at < 4 * foreign->quad_count; at++)
        foreign->quads[at] = to[foreign->quads[at]];
    free(from);
    free(to);
}

void shuffle_quads(struct chance *chance, struct foreign *foreign)
{
    for (size_t q = foreign->quad_count; q > 1; q--)
        exchange_quads(foreign, q - 1, (size_t)chance_below(chance, q));
}

void turn_quad(uint32_t quad[4], unsigned by)
{
    uint32_t old[4];
    memcpy(old, quad, sizeof old);
    for (unsigned side = 0; side < 4; side++)
        quad[side] = old[(side + by) % 4];
}

void turn_quads(struct chance *chance, struct foreign *foreign)
{
    for (size_t q = 0; q < foreign->quad_count; q++)
        turn_quad(foreign->quads + 4 * q, (unsigned)chance_below(chance, 4));
}

void add_vertex(struct foreign *foreign, size_t like)
{
    size_t last = foreign->vertices;
    need_room(foreign, last + 1, foreign->quad_count);
    memcpy(foreign->words + 2 * last, foreign->words + 2 * like, 2 * sizeof *foreign->words);
    memcpy(foreign->offsets + 3 * last, foreign->offsets + 3 * like, 3 * sizeof *foreign->offsets);
    foreign->vertices++;
}

void add_quad(struct foreign *foreign, const uint32_t quad[4])
{
    uint32_t copy[4];
    memcpy(copy, quad, sizeof copy); /* the quad may stand in the room that moves */
    need_room(foreign, foreign->vertices, foreign->quad_count + 1);
    memcpy(foreign->quads + 4 * foreign->quad_count, copy, sizeof copy);
    foreign->quad_count++;
}

static void remove_quad(struct foreign *foreign, size_t q)
{
    uint32_t *quad = foreign->quads + 4 * q;
    foreign->quad_count--;
    memmove(quad, quad + 4, 4 * (foreign->quad_count - q) * sizeof *quad);
}

int names_vertex(const struct foreign *foreign, size_t q, size_t vertex)
{
    for (size_t side = 0; side < 4; side++)
        if (foreign->quads[4 * q + side] == vertex)
            return 1;
    return 0;
}

/* The first quad that names one of two vertices, or how many there are. */
static size_t first_that_names(const struct foreign *foreign, size_t a, size_t b)
{
    size_t q = 0;
    while (q < foreign->quad_count && !names_vertex(foreign, q, a) && !names_vertex(foreign, q, b))
        q++;
    return q;
}

/* ---- changes ---- */

/* Something was changed, and this must be said of it. */
static int now(struct making *making, uint32_t fault, size_t at)
{
    making->fault = fault;
    making->at = at;
    return 1;
}

static size_t cubes_in(const struct origin *origin)
{
    return (size_t)(origin->length[0] - 1) * (origin->length[1] - 1) * (origin->length[2] - 1);
}

size_t choose_one(struct chance *chance, size_t count)
{
    uint64_t how = chance_below(chance, 6);
    return how == 0 ? 0 : how == 1 ? count - 1 : (size_t)chance_below(chance, count);
}

static size_t choose_vertex(const struct making *making)
{
    return choose_one(making->chance, making->foreign->vertices);
}

static size_t choose_quad(const struct making *making)
{
    return choose_one(making->chance, making->foreign->quad_count);
}

/* Two different ones of so many, which are two at least. */
static void choose_two(const struct making *making, size_t count, size_t *a, size_t *b)
{
    *a = choose_one(making->chance, count);
    *b = (size_t)chance_below(making->chance, count - 1);
    *b += *b >= *a;
}

/* Another vertex of the same cube; the number of vertices where there is none. */
static size_t cube_mate(const struct foreign *foreign, size_t vertex)
{
    size_t mate = 0;
    while (mate < foreign->vertices && (mate == vertex || foreign->words[2 * mate] != foreign->words[2 * vertex]))
        mate++;
    return mate;
}

/* Two vertices of one cube, where some tries find them. */
static int choose_mates(const struct making *making, size_t *a, size_t *b)
{
    for (unsigned tries = 0; tries < 6 && making->foreign->vertices > 1; tries++) {
        *a = choose_vertex(making);
        *b = cube_mate(making->foreign, *a);
        if (*b < making->foreign->vertices)
            return 1;
    }
    return 0;
}

static int flip(struct making *making, unsigned lowest, unsigned bits)
{
    size_t vertex;
    if (making->foreign->vertices == 0)
        return 0;
    vertex = choose_vertex(making);
    making->foreign->words[2 * vertex + 1] ^= UINT32_C(1) << (lowest + chance_below(making->chance, bits));
    return now(making, VERTEX_AT_FAULT, vertex);
}

/* A loop has three edges at least and no edge of another, so no word of ours differs from another in one edge. */
static int edge_bit(struct making *making)
{
    return flip(making, 0, 12);
}

static int mark_bit(struct making *making)
{
    return flip(making, 12, 1);
}

static int higher_bit(struct making *making)
{
    return flip(making, 13, 19);
}

static int no_word(struct making *making)
{
    size_t vertex;
    if (making->foreign->vertices == 0)
        return 0;
    vertex = choose_vertex(making);
    making->foreign->words[2 * vertex + 1] = 0;
    return now(making, VERTEX_AT_FAULT, vertex);
}

/* The cube may have such a vertex, so it is not known which vertex is at fault. */
static int other_cube(struct making *making)
{
    size_t vertex, cubes = cubes_in(making->origin);
    uint32_t cube;
    if (making->foreign->vertices == 0 || cubes == 1)
        return 0;
    vertex = choose_vertex(making);
    cube = (uint32_t)chance_below(making->chance, cubes - 1);
    making->foreign->words[2 * vertex] = cube + (cube >= making->foreign->words[2 * vertex]);
    return now(making, NOT_KNOWN, 0);
}

static int cube_past(struct making *making)
{
    size_t vertex;
    if (making->foreign->vertices == 0)
        return 0;
    vertex = choose_vertex(making);
    making->foreign->words[2 * vertex] = (uint32_t)cubes_in(making->origin);
    return now(making, VERTEX_AT_FAULT, vertex);
}

/* With some of them the cube would be good if bits of it, or of a product with it, were lost. */
static int cube_huge(struct making *making)
{
    uint32_t cubes = (uint32_t)cubes_in(making->origin), *word;
    size_t vertex;
    if (making->foreign->vertices == 0)
        return 0;
    vertex = choose_vertex(making);
    word = making->foreign->words + 2 * vertex;
    switch (chance_below(making->chance, 5)) {
    case 0:
        *word = UINT32_MAX;
        break;
    case 1:
        *word |= UINT32_C(1) << (24 + chance_below(making->chance, 8));
        break;
    case 2:
        *word += UINT32_C(357913942); /* a third of 2^30, so that 12 times it is 8 more than 2^32 */
        break;
    case 3:
        *word += cubes;
        break;
    default:
        *word = cubes + (uint32_t)chance_below(making->chance, (uint64_t)UINT32_MAX - cubes + 1);
    }
    return now(making, VERTEX_AT_FAULT, vertex);
}

/* The quads name either of the two. */
static int vertex_doubled(struct making *making)
{
    struct foreign *foreign = making->foreign;
    size_t vertex, copy = foreign->vertices, other;
    if (foreign->vertices == 0)
        return 0;
    vertex = choose_vertex(making);
    add_vertex(foreign, vertex);
    for (size_t at = 0; at < 4 * foreign->quad_count; at++)
        if (foreign->quads[at] == vertex && chance_in_100(making->chance, 50))
            foreign->quads[at] = (uint32_t)copy;
    other = choose_vertex(making);
    exchange_vertices(foreign, copy, other);
    return now(making, VERTEX_AT_FAULT, larger(other == vertex ? copy : vertex, other));
}

static int put_over(struct making *making, size_t from, size_t to)
{
    memcpy(making->foreign->words + 2 * to, making->foreign->words + 2 * from, 2 * sizeof *making->foreign->words);
    return now(making, VERTEX_AT_FAULT, larger(from, to));
}

static int vertex_for_another(struct making *making)
{
    size_t from, to;
    if (making->foreign->vertices < 2)
        return 0;
    choose_two(making, making->foreign->vertices, &from, &to);
    return put_over(making, from, to);
}

static int vertex_for_mate(struct making *making)
{
    size_t from, to;
    return choose_mates(making, &from, &to) && put_over(making, from, to);
}

static int vertex_left_out(struct making *making)
{
    struct foreign *foreign = making->foreign;
    size_t last = foreign->vertices - 1, kept = 0;
    if (foreign->vertices == 0)
        return 0;
    exchange_vertices(foreign, choose_vertex(making), last);
    for (size_t q = 0; q < foreign->quad_count; q++)
        if (!names_vertex(foreign, q, last)) {
            memmove(foreign->quads + 4 * kept, foreign->quads + 4 * q, 4 * sizeof *foreign->quads);
            kept++;
        }
    foreign->quad_count = kept;
    foreign->vertices = last;
    return now(making, SOME_MISSING, 0);
}

/* No quad of ours stays one, since two of them never have three cubes in common. */
static int swap_two(struct making *making, size_t a, size_t b)
{
    size_t quad = first_that_names(making->foreign, a, b);
    swap_vertices(making->foreign, a, b);
    return quad < making->foreign->quad_count ? now(making, QUAD_AT_FAULT, quad) : now(making, SAME_MESH, 0);
}

static int vertices_swapped(struct making *making)
{
    size_t a, b;
    if (making->foreign->vertices < 2)
        return 0;
    choose_two(making, making->foreign->vertices, &a, &b);
    return swap_two(making, a, b);
}

static int mates_swapped(struct making *making)
{
    size_t a, b;
    return choose_mates(making, &a, &b) && swap_two(making, a, b);
}

static int all_left_out(struct making *making)
{
    uint32_t fault = making->foreign->vertices > 0 ? SOME_MISSING : SAME_MESH;
    making->foreign->vertices = making->foreign->quad_count = 0;
    return now(making, fault, 0);
}

static int swap_in_quad(struct making *making, size_t a, size_t b)
{
    uint32_t *quad, vertex;
    size_t q;
    if (making->foreign->quad_count == 0)
        return 0;
    q = choose_quad(making);
    quad = making->foreign->quads + 4 * q;
    vertex = quad[a];
    quad[a] = quad[b];
    quad[b] = vertex;
    return now(making, QUAD_AT_FAULT, q);
}

static int quad_mirrored(struct making *making)
{
    return chance_in_100(making->chance, 50) ? swap_in_quad(making, 1, 3) : swap_in_quad(making, 0, 2);
}

static int quad_twisted(struct making *making)
{
    size_t a = (size_t)chance_below(making->chance, 4);
    return swap_in_quad(making, a, (a + 1) % 4);
}

/* Adds a quad at any place. What stood there is the last now. */
static size_t put_in(struct making *making, const uint32_t quad[4])
{
    size_t last = making->foreign->quad_count, place;
    add_quad(making->foreign, quad);
    place = choose_quad(making);
    exchange_quads(making->foreign, last, place);
    return place;
}

static int double_quad(struct making *making, unsigned turns)
{
    uint32_t quad[4];
    size_t q, last = making->foreign->quad_count, place;
    if (last == 0)
        return 0;
    q = choose_quad(making);
    memcpy(quad, making->foreign->quads + 4 * q, sizeof quad);
    turn_quad(quad, turns);
    place = put_in(making, quad);
    return now(making, QUAD_AT_FAULT, larger(place == q ? last : q, place));
}

static int quad_doubled(struct making *making)
{
    return double_quad(making, 0);
}

static int quad_doubled_turned(struct making *making)
{
    return double_quad(making, 1 + (unsigned)chance_below(making->chance, 3));
}

static int quad_for_another(struct making *making)
{
    size_t from, to;
    if (making->foreign->quad_count < 2)
        return 0;
    choose_two(making, making->foreign->quad_count, &from, &to);
    memcpy(making->foreign->quads + 4 * to, making->foreign->quads + 4 * from, 4 * sizeof *making->foreign->quads);
    turn_quad(making->foreign->quads + 4 * to, (unsigned)chance_below(making->chance, 4));
    return now(making, QUAD_AT_FAULT, larger(from, to));
}

static int quad_left_out(struct making *making)
{
    if (making->foreign->quad_count == 0)
        return 0;
    remove_quad(making->foreign, choose_quad(making));
    return now(making, SOME_MISSING, 0);
}

static int number_replaced(struct making *making)
{
    uint32_t *number, other;
    size_t q;
    if (making->foreign->quad_count == 0 || making->foreign->vertices < 2)
        return 0;
    q = choose_quad(making);
    number = making->foreign->quads + 4 * q + chance_below(making->chance, 4);
    other = (uint32_t)chance_below(making->chance, making->foreign->vertices - 1);
    *number = other + (other >= *number);
    return now(making, QUAD_AT_FAULT, q);
}

/* The vertex of the same cube that has other edges. */
static int number_of_mate(struct making *making)
{
    for (unsigned tries = 0; tries < 10 && making->foreign->quad_count > 0; tries++) {
        size_t q = choose_quad(making), mate;
        uint32_t *number = making->foreign->quads + 4 * q + chance_below(making->chance, 4);
        mate = cube_mate(making->foreign, *number);
        if (mate < making->foreign->vertices) {
            *number = (uint32_t)mate;
            return now(making, QUAD_AT_FAULT, q);
        }
    }
    return 0;
}

static int number_twice(struct making *making)
{
    size_t q, side;
    if (making->foreign->quad_count == 0)
        return 0;
    q = choose_quad(making);
    side = (size_t)chance_below(making->chance, 4);
    making->foreign->quads[4 * q + side] =
        making->foreign->quads[4 * q + (side + 1 + chance_below(making->chance, 3)) % 4];
    return now(making, QUAD_AT_FAULT, q);
}

/* A vertex of the cube with this number, looked for from anywhere on; the number of vertices where there is none. */
static size_t vertex_in(const struct making *making, size_t cube)
{
    const struct foreign *foreign = making->foreign;
    size_t from = foreign->vertices > 0 ? (size_t)chance_below(making->chance, foreign->vertices) : 0;
    for (size_t i = 0; i < foreign->vertices; i++) {
        size_t vertex = (from + i) % foreign->vertices;
        if (foreign->words[2 * vertex] == cube)
            return vertex;
    }
    return foreign->vertices;
}

/* How far the first, second and fourth cube of a quad lie before its third, by their numbers. */
static void steps_of(const struct origin *origin, unsigned along, size_t step[4])
{
    size_t row = origin->length[0] - 1, layer = row * (origin->length[1] - 1);
    const size_t steps[3][2] = {{layer, row}, {1, layer}, {row, 1}};
    step[1] = steps[along][0];
    step[2] = 0;
    step[3] = steps[along][1];
    step[0] = step[1] + step[3];
}

/* A quad of any vertices of four cubes, of which the third has this number; known is what must be said. */
static int invent(struct making *making, unsigned along, size_t third, uint32_t known)
{
    size_t step[4];
    uint32_t quad[4];
    steps_of(making->origin, along, step);
    for (unsigned side = 0; side < 4; side++) {
        size_t vertex = third < step[side] ? making->foreign->vertices : vertex_in(making, third - step[side]);
        if (vertex == making->foreign->vertices)
            return 0;
        quad[side] = (uint32_t)vertex;
    }
    if (chance_in_100(making->chance, 50)) {
        uint32_t second = quad[1];
        quad[1] = quad[3];
        quad[3] = second;
    }
    turn_quad(quad, (unsigned)chance_below(making->chance, 4));
    return now(making, known, put_in(making, quad));
}

/* Around an inner edge that is not crossed. */
static int quad_around_uncrossed(struct making *making)
{
    const struct origin *origin = making->origin;
    for (unsigned tries = 0; tries < 12; tries++) {
        unsigned along = (unsigned)chance_below(making->chance, 3);
        size_t at[3], lower, upper, third;
        for (unsigned axis = 0; axis < 3; axis++) {
            size_t from = axis == along ? 0 : 1;
            if (origin->length[axis] < 2 + from)
                return 0;
            at[axis] = from + (size_t)chance_below(making->chance, origin->length[axis] - 1 - from);
        }
        lower = at[0] + origin->length[0] * (at[1] + origin->length[1] * at[2]);
        upper = lower + (along == 0   ? 1
                         : along == 1 ? origin->length[0]
                                      : (size_t)origin->length[0] * origin->length[1]);
        third = at[0] + (origin->length[0] - 1) * (at[1] + (size_t)(origin->length[1] - 1) * at[2]);
        if ((origin->samples[lower] >= origin->t) == (origin->samples[upper] >= origin->t) &&
            invent(making, along, third, QUAD_AT_FAULT))
            return 1;
    }
    return 0;
}

/* Around an edge on a face of the box, so that by their numbers cubes of one row lie beside those of another. */
static int quad_on_the_box(struct making *making)
{
    const struct origin *origin = making->origin;
    for (unsigned tries = 0; tries < 12; tries++) {
        unsigned along = (unsigned)chance_below(making->chance, 3);
        unsigned on = (along + 1 + (unsigned)chance_below(making->chance, 2)) % 3;
        size_t at[3];
        for (unsigned axis = 0; axis < 3; axis++)
            at[axis] = axis == on ? 0 : (size_t)chance_below(making->chance, origin->length[axis] - 1);
        if (invent(making, along, at[0] + (origin->length[0] - 1) * (at[1] + (size_t)(origin->length[1] - 1) * at[2]),
                   NOT_KNOWN))
            return 1;
    }
    return 0;
}

static double of_bits(uint64_t bits)
{
    double number;
    memcpy(&number, &bits, sizeof number);
    return number;
}

static int put_offset(struct making *making, const uint64_t *bits, size_t count, int is_good)
{
    size_t vertex, axis = (size_t)chance_below(making->chance, 3);
    if (making->foreign->vertices == 0)
        return 0;
    vertex = choose_vertex(making);
    making->foreign->offsets[3 * vertex + axis] = of_bits(bits[chance_below(making->chance, count)]);
    making->bad_axes |= is_good ? 0 : 1u << axis;
    return now(making, is_good ? SAME_MESH : VERTEX_AT_FAULT, is_good ? 0 : vertex);
}

static int offset_no_number(struct making *making)
{
    static const uint64_t bits[] = {UINT64_C(0x7FF8000000000000), UINT64_C(0xFFF8000000000000),
                                    UINT64_C(0x7FF0000000000001), UINT64_C(0xFFFFFFFFFFFFFFFF)};
    return put_offset(making, bits, ITEMS(bits), 0);
}

static int offset_just_above(struct making *making)
{
    static const uint64_t bits[] = {UINT64_C(0x3FF0000000000001)};
    return put_offset(making, bits, ITEMS(bits), 0);
}

static int offset_just_below(struct making *making)
{
    static const uint64_t bits[] = {UINT64_C(0x8000000000000001)};
    return put_offset(making, bits, ITEMS(bits), 0);
}

static int offset_infinite(struct making *making)
{
    static const uint64_t bits[] = {UINT64_C(0x7FF0000000000000), UINT64_C(0xFFF0000000000000)};
    return put_offset(making, bits, ITEMS(bits), 0);
}

static int offset_far(struct making *making)
{
    static const uint64_t bits[] = {UINT64_C(0x4000000000000000), UINT64_C(0xBFF0000000000000),
                                    UINT64_C(0xBFE0000000000000), UINT64_C(0x7FEFFFFFFFFFFFFF)};
    return put_offset(making, bits, ITEMS(bits), 0);
}

static int offset_minus_zero(struct making *making)
{
    static const uint64_t bits[] = {UINT64_C(0x8000000000000000)};
    return put_offset(making, bits, ITEMS(bits), 1);
}

static int offset_zero(struct making *making)
{
    static const uint64_t bits[] = {UINT64_C(0x0000000000000000)};
    return put_offset(making, bits, ITEMS(bits), 1);
}

static int offset_one(struct making *making)
{
    static const uint64_t bits[] = {UINT64_C(0x3FF0000000000000)};
    return put_offset(making, bits, ITEMS(bits), 1);
}

static int offset_within(struct making *making)
{
    static const uint64_t bits[] = {UINT64_C(0x0000000000000001), UINT64_C(0x3FEFFFFFFFFFFFFF),
                                    UINT64_C(0x0010000000000000), UINT64_C(0x3FB999999999999A)};
    return put_offset(making, bits, ITEMS(bits), 1);
}

const struct change changes[CHANGES] = {
    {"an edge more or less", edge_bit, A_VERTEX},
    {"the mark", mark_bit, A_VERTEX},
    {"a bit above the mark", higher_bit, A_VERTEX},
    {"a word of 0", no_word, A_VERTEX},
    {"another cube", other_cube, A_VERTEX},
    {"the cube behind the last", cube_past, A_VERTEX},
    {"a cube far behind", cube_huge, A_VERTEX},
    {"a vertex more, doubled", vertex_doubled, A_VERTEX},
    {"a vertex for another", vertex_for_another, A_VERTEX},
    {"a vertex for another of its cube", vertex_for_mate, A_VERTEX},
    {"an offset that is no number", offset_no_number, A_VERTEX},
    {"an offset just above 1", offset_just_above, A_VERTEX},
    {"just below 0", offset_just_below, A_VERTEX},
    {"an infinite offset", offset_infinite, A_VERTEX},
    {"an offset farther off", offset_far, A_VERTEX},
    {"offset -0", offset_minus_zero, NOTHING},
    {"offset 0", offset_zero, NOTHING},
    {"offset 1", offset_one, NOTHING},
    {"another offset from 0 to 1", offset_within, NOTHING},
    {"a vertex left out with its quads", vertex_left_out, WHAT_IS_MISSING},
    {"all left out", all_left_out, WHAT_IS_MISSING},
    {"two vertices swapped and not renamed", vertices_swapped, A_QUAD},
    {"two of one cube swapped", mates_swapped, A_QUAD},
    {"a quad mirrored", quad_mirrored, A_QUAD},
    {"a quad twisted", quad_twisted, A_QUAD},
    {"a quad doubled", quad_doubled, A_QUAD},
    {"doubled and begun elsewhere", quad_doubled_turned, A_QUAD},
    {"a quad for another", quad_for_another, A_QUAD},
    {"a quad left out", quad_left_out, WHAT_IS_MISSING},
    {"a number replaced", number_replaced, A_QUAD},
    {"replaced by another vertex of its cube", number_of_mate, A_QUAD},
    {"a vertex twice in a quad", number_twice, A_QUAD},
    {"a quad around an edge that is not crossed", quad_around_uncrossed, A_QUAD},
    {"around an edge on the box", quad_on_the_box, A_QUAD},
};
