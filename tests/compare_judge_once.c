/* What is asked once of foreign meshes: those that were judged by hand; the paper's mesh with every set of rows that
   can hold at a time, with every bit of every word changed, with every offset at its limits, with each vertex and each
   quad for each other; lengths that no memory has; and, with enough blocks, the paper's mesh with any numbers in one
   quad, and large meshes. The library finds repeats without memory of its own, in ranges of so many keys at a time, so
   large meshes have repeats on both sides of the border of a range, in several ranges at once, such that the one in a
   later range stands first in its list, and among vertices that are all of another range. What must be said is known
   from how a mesh was made, and plain is held against it where that does not take long.
   Assumes nothing more than compare.h, and POSIX with anonymous mappings. */
#include "compare_judge.h"

#include "hand_judge.h"

#include <stdio.h>
#include <stdlib.h>
#include <string.h>

enum { ALL_ROWS = (1 << ROWS) - 1, MOST_VERTICES = 66325500 };

/* The keys of a range. A cube has KEYS_A_CUBE of them, one for each place that a vertex can have among those of the cube
   in our order; a quad has the number of its vertex in the highest cube, and for each axis there are as many keys as
   vertices. Of NEAR vertices in a row the library looks first whether any is in the range. */
enum { RANGE = 262144, KEYS_A_CUBE = 4, CUBES_A_RANGE = RANGE / KEYS_A_CUBE, NEAR = 64 };

/* ---- the paper's mesh ---- */

enum { PAPER_SAMPLES = 27, PAPER_VERTICES = 8, PAPER_QUADS = 6 };

static const uint32_t paper_length[3] = {3, 3, 3};
static uint16_t paper_samples[PAPER_SAMPLES];
static struct foreign paper, changed;

static void make_paper(void)
{
    paper_samples[PAPER_SAMPLES / 2] = 400;
    make_foreign(&paper, parsniprow_mesh, paper_length, paper_samples, 100, 0);
}

/* Another way to lie each time. */
static struct lying next_lying(void)
{
    static unsigned turn;
    struct lying lying;
    lying.beside = (enum beside)(turn % BESIDES);
    lying.shift = turn % MOST_SHIFT;
    turn++;
    return lying;
}

/* A question about the changed mesh, as one of the paper's block. */
static struct judging paper_judging(void)
{
    return good_judging("the paper's mesh, changed", paper_length, paper_samples, 100, 0, &changed, next_lying());
}

static void expect_refused(const struct judging *judging, uint32_t number, uint32_t value)
{
    uint32_t wanted[JUDGE_ANSWER] = {0};
    wanted[0] = number;
    wanted[1] = value;
    expect_judged(judging, wanted);
}

static void set_found(uint32_t wanted[JUDGE_ANSWER], uint32_t fault, size_t at)
{
    wanted[0] = 0;
    wanted[1] = fault == SAME_MESH;
    wanted[2] = fault;
    wanted[3] = (uint32_t)at;
}

static void expect_found(const struct judging *judging, uint32_t fault, size_t at)
{
    uint32_t wanted[JUDGE_ANSWER];
    set_found(wanted, fault, at);
    expect_judged(judging, wanted);
}

static void expect_paper(uint32_t fault, size_t at)
{
    struct judging judging = paper_judging();
    expect_found(&judging, fault, at);
}

/* ---- by hand ---- */

/* With all lengths of the answer place. */
static void try_hand_judged(const struct hand_judged *hand)
{
    uint16_t samples[MOST_JUDGED_SAMPLES];
    double offsets[3 * MOST_JUDGED_VERTICES];
    uint32_t words[2 * MOST_JUDGED_VERTICES], quads[4 * MOST_JUDGED_QUADS];
    struct foreign foreign = {words, quads, offsets, MOST_JUDGED_VERTICES, MOST_JUDGED_QUADS, 0, 0};
    memcpy(words, hand->words, sizeof words);
    memcpy(quads, hand->quads, sizeof quads);
    fill_judged_samples(hand, samples);
    fill_judged_offsets(hand, offsets);
    for (size_t answer_len = 0; answer_len <= JUDGE_ANSWER + 2; answer_len++)
        for (unsigned beside = 0; beside < BESIDES; beside++) {
            struct lying lying = {(enum beside)beside, answer_len};
            struct judging judging =
                good_judging(hand->name, hand->length, samples, hand->t, hand->noise, &foreign, lying);
            judging.samples_there = MOST_JUDGED_SAMPLES;
            judging.samples_len = hand->samples_len;
            judging.words_len = hand->words_len;
            judging.offsets_len = hand->offsets_len;
            judging.quads_len = hand->quads_len;
            judging.answer_len = answer_len;
            expect_judged(&judging, hand->answer);
        }
    judge_once.by_hand++;
}

/* ---- rows ---- */

/* The paper's mesh with some rows due, each always in the same way. A vertex is at fault too, and a quad. */
static void try_faults(unsigned faults)
{
    static const uint32_t values[ROWS] = {1, PAPER_SAMPLES, CEILING, 2 * PAPER_VERTICES - 1, 3, 1};
    struct judging judging;
    unsigned row = 0;
    copy_foreign(&changed, &paper);
    changed.words[2 * 6] = UINT32_MAX;
    turn_quad(changed.quads, 1);
    changed.quads[0] = changed.quads[1];
    judging = paper_judging();
    judging.faults = faults;
    if (judge_due(&judging, AXIS))
        judging.length[1] = 257;
    if (judge_due(&judging, COUNT))
        judging.samples_len--;
    if (judge_due(&judging, THRESHOLD))
        judging.t = CEILING;
    judging.words_len -= judge_due(&judging, LENGTHS) ? 1 : 0;
    judging.quads_len -= judge_due(&judging, REST) ? 1 : 0;
    if (judge_due(&judging, NUMBER))
        changed.quads[4 * 1 + 2] = PAPER_VERTICES;
    while (row < ROWS && !judge_due(&judging, row))
        row++;
    if (row < ROWS)
        expect_refused(&judging, judge_refusals[row], values[row]);
    else
        expect_found(&judging, VERTEX_AT_FAULT, 6);
}

/* Each set of bad axes; the count of the samples is that of the good ones. */
static void try_axes(void)
{
    static const uint32_t bad[] = {0, 1, 257, 258, 65536, 65539, UINT32_MAX};
    copy_foreign(&changed, &paper);
    for (unsigned set = 1; set < 8; set++)
        for (size_t i = 0; i < ITEMS(bad); i++) {
            struct judging judging = paper_judging();
            for (unsigned axis = 0; axis < 3; axis++)
                if (set >> axis & 1)
                    judging.length[axis] = bad[i];
            expect_refused(&judging, 1, set & 1 ? 0 : set & 2 ? 1 : 2);
        }
}

static void try_counts(void)
{
    copy_foreign(&changed, &paper);
    for (size_t samples_len = 0; samples_len <= PAPER_SAMPLES + 2; samples_len++) {
        struct judging judging = paper_judging();
        judging.samples_len = samples_len;
        if (samples_len != PAPER_SAMPLES)
            expect_refused(&judging, 2, PAPER_SAMPLES);
        else
            expect_found(&judging, SAME_MESH, 0);
    }
}

/* All lengths up to a vertex more than the paper's mesh has; no quads, which would name vertices that are not there. */
static void try_lengths(void)
{
    copy_foreign(&changed, &paper);
    for (size_t words_len = 0; words_len <= 2 * PAPER_VERTICES + 2; words_len++)
        for (size_t offsets_len = 0; offsets_len <= 3 * PAPER_VERTICES + 3; offsets_len++) {
            struct judging judging = paper_judging();
            size_t vertices = words_len / 2;
            judging.words_len = words_len;
            judging.offsets_len = offsets_len;
            judging.quads_len = 0;
            if (words_len != 2 * vertices || offsets_len != 3 * vertices)
                expect_refused(&judging, 22, (uint32_t)words_len);
            else if (vertices > PAPER_VERTICES) /* its pattern is no cube */
                expect_found(&judging, VERTEX_AT_FAULT, PAPER_VERTICES);
            else
                expect_found(&judging, SOME_MISSING, 0);
        }
}

/* Each length of the list of quads. */
static void try_quad_lengths(void)
{
    copy_foreign(&changed, &paper);
    for (size_t quads_len = 0; quads_len <= 4 * PAPER_QUADS; quads_len++) {
        struct judging judging = paper_judging();
        judging.quads_len = quads_len;
        if (quads_len % 4 != 0)
            expect_refused(&judging, 7, quads_len % 4);
        else
            expect_found(&judging, quads_len < 4 * PAPER_QUADS ? SOME_MISSING : SAME_MESH, 0);
    }
}

/* Every number in the quads in turn, alone and with all behind it, becomes one that no vertex has. */
static void try_numbers(void)
{
    static const uint32_t numbers[] = {PAPER_VERTICES, PAPER_VERTICES + 1, UINT32_C(1) << 31, UINT32_MAX};
    for (size_t place = 0; place < 4 * PAPER_QUADS; place++)
        for (size_t i = 0; i < ITEMS(numbers); i++)
            for (unsigned behind = 0; behind < 2; behind++) {
                struct judging judging;
                copy_foreign(&changed, &paper);
                for (size_t at = place; at < (behind ? 4 * PAPER_QUADS : place + 1); at++)
                    changed.quads[at] = numbers[i];
                judging = paper_judging();
                expect_refused(&judging, 14, (uint32_t)(place / 4));
            }
}

/* ---- vertices and quads of the paper's mesh ---- */

/* No two of the paper's words are alike, so a vertex whose cube or word is another is none of ours. */
static void try_bits(void)
{
    for (size_t at = 0; at < 2 * PAPER_VERTICES; at++)
        for (unsigned bit = 0; bit < 32; bit++) {
            copy_foreign(&changed, &paper);
            changed.words[at] ^= UINT32_C(1) << bit;
            expect_paper(VERTEX_AT_FAULT, at / 2);
        }
}

static double of_bits(uint64_t bits)
{
    double number;
    memcpy(&number, &bits, sizeof number);
    return number;
}

/* Every offset in turn, alone and with all behind it. */
static void try_offset(uint64_t bits, int is_good)
{
    for (size_t place = 0; place < 3 * PAPER_VERTICES; place++)
        for (unsigned behind = 0; behind < 2; behind++) {
            copy_foreign(&changed, &paper);
            for (size_t at = place; at < (behind ? 3 * PAPER_VERTICES : place + 1); at++)
                changed.offsets[at] = of_bits(bits);
            expect_paper(is_good ? SAME_MESH : VERTEX_AT_FAULT, is_good ? 0 : place / 3);
        }
}

static void try_offsets(void)
{
    static const uint64_t good[] = {UINT64_C(0x0000000000000000), UINT64_C(0x8000000000000000),
                                    UINT64_C(0x0000000000000001), UINT64_C(0x3FEFFFFFFFFFFFFF),
                                    UINT64_C(0x3FF0000000000000)};
    static const uint64_t bad[] = {UINT64_C(0x3FF0000000000001), UINT64_C(0x8000000000000001),
                                   UINT64_C(0xBFF0000000000000), UINT64_C(0x7FF0000000000000),
                                   UINT64_C(0xFFF0000000000000), UINT64_C(0x7FF8000000000000),
                                   UINT64_C(0xFFF8000000000000), UINT64_C(0x7FF0000000000001)};
    for (size_t i = 0; i < ITEMS(good); i++)
        try_offset(good[i], 1);
    for (size_t i = 0; i < ITEMS(bad); i++)
        try_offset(bad[i], 0);
}

/* Each vertex and each quad for each other, a quad begun at each of its vertices. */
static void try_repeats(void)
{
    for (size_t from = 0; from < PAPER_VERTICES; from++)
        for (size_t to = 0; to < PAPER_VERTICES; to++) {
            copy_foreign(&changed, &paper);
            memcpy(changed.words + 2 * to, paper.words + 2 * from, 2 * sizeof *paper.words);
            expect_paper(from == to ? SAME_MESH : VERTEX_AT_FAULT, from == to ? 0 : from < to ? to : from);
        }
    for (size_t from = 0; from < PAPER_QUADS; from++)
        for (size_t to = 0; to < PAPER_QUADS; to++)
            for (unsigned turns = 0; turns < 4; turns++) {
                copy_foreign(&changed, &paper);
                memcpy(changed.quads + 4 * to, paper.quads + 4 * from, 4 * sizeof *paper.quads);
                turn_quad(changed.quads + 4 * to, turns);
                expect_paper(from == to ? SAME_MESH : QUAD_AT_FAULT, from == to ? 0 : from < to ? to : from);
            }
}

/* One quad becomes any four of the numbers, which takes some time. */
static void try_any_quad(size_t q)
{
    for (uint32_t any = 0; any < PAPER_VERTICES * PAPER_VERTICES * PAPER_VERTICES * PAPER_VERTICES; any++) {
        uint32_t rest = any;
        struct judging judging;
        copy_foreign(&changed, &paper);
        for (size_t side = 0; side < 4; side++, rest /= PAPER_VERTICES)
            changed.quads[4 * q + side] = rest % PAPER_VERTICES;
        judging = paper_judging();
        ask_judged(&judging);
    }
}

/* ---- lengths that no memory has ---- */

/* Refused by its lengths alone, so nothing of the two buffers may be touched. */
static void try_untouched(size_t words_len, size_t offsets_len, uint32_t value)
{
    size_t words_bytes = (words_len + 1) * sizeof(uint32_t), offsets_bytes = (offsets_len + 1) * sizeof(double);
    void *words = space(words_bytes, 0), *offsets = space(offsets_bytes, 0);
    struct judging judging;
    copy_foreign(&changed, &paper);
    judging = paper_judging();
    judging.name = "lengths that no memory has";
    judging.far_words = words;
    judging.far_offsets = offsets;
    judging.words_len = words_len;
    judging.offsets_len = offsets_len;
    expect_refused(&judging, 22, value);
    give_space_back(words, words_bytes);
    give_space_back(offsets, offsets_bytes);
}

/* The most vertices that pass. Their words are all 0, so the first is at fault. Plain would sort them all, so it is not
   asked, and where it stands in for the library nothing is. */
#ifndef SELF
static void try_most(void)
{
    size_t words_bytes = 2 * (size_t)MOST_VERTICES * sizeof(uint32_t);
    size_t offsets_bytes = 3 * (size_t)MOST_VERTICES * sizeof(double);
    void *words = space(words_bytes, 1), *offsets = space(offsets_bytes, 1);
    uint32_t wanted[JUDGE_ANSWER];
    struct judging judging;
    copy_foreign(&changed, &paper);
    judging = paper_judging();
    judging.name = "the most vertices";
    judging.far_words = words;
    judging.far_offsets = offsets;
    judging.words_len = 2 * (size_t)MOST_VERTICES;
    judging.offsets_len = 3 * (size_t)MOST_VERTICES;
    set_found(wanted, VERTEX_AT_FAULT, 0);
    expect_judged_by_library(&judging, wanted);
    give_space_back(words, words_bytes);
    give_space_back(offsets, offsets_bytes);
}
#endif

static void try_far(void)
{
    size_t most = MOST_VERTICES, cut = (size_t)UINT32_MAX;
    try_untouched(2 * (most + 1), 3 * (most + 1), 2 * (MOST_VERTICES + 1));
    try_untouched(2 * most, 3 * (most + 1), 2 * MOST_VERTICES);
    try_untouched(2 * (most + 1), 3 * most, 2 * (MOST_VERTICES + 1));
    try_untouched(cut - 1, 0, UINT32_MAX - 1);
    try_untouched(cut, 0, UINT32_MAX);
    try_untouched(cut + 1, 0, UINT32_MAX);
    try_untouched(cut + 1 + 2 * PAPER_VERTICES, 3 * PAPER_VERTICES, UINT32_MAX);
#ifndef SELF
    try_most();
#endif
}

void try_fixed_judged(void)
{
    make_paper();
    for (size_t i = 0; i < HAND_JUDGED; i++)
        try_hand_judged(&hand_judged[i]);
    for (unsigned faults = 0; faults <= ALL_ROWS; faults++)
        try_faults(faults);
    try_axes();
    try_counts();
    try_lengths();
    try_quad_lengths();
    try_numbers();
    try_bits();
    try_offsets();
    try_repeats();
    try_far();
    free_foreign(&paper);
    free_foreign(&changed);
}

/* ---- large meshes ---- */

/* A block of noise, in which neighbours in a row are on both sides of each border, with its mesh. */
struct large {
    uint32_t length[3];
    uint16_t t, *samples;
    struct foreign mesh;
    struct chance chance;
    int is_plain_asked;
};

static uint16_t *sample_memory(size_t count)
{
    uint16_t *samples = calloc(count, sizeof *samples);
    if (!samples) {
        fprintf(stderr, "compare: no memory\n");
        exit(2);
    }
    return samples;
}

static size_t cubes_of_large(const struct large *large)
{
    return (size_t)(large->length[0] - 1) * (large->length[1] - 1) * (large->length[2] - 1);
}

/* The cube before the border and the one behind it get the most vertices that a cube can have, one round each sample
   of metal. So there are vertices with the last key before the border and with the first behind it. */
static void shape_border(struct large *large, size_t cube)
{
    size_t across = large->length[0] - 1, down = large->length[1] - 1;
    size_t i = cube % across, j = cube / across % down, k = cube / across / down;
    for (size_t x = 0; x < 3; x++)
        for (size_t y = 0; y < 2; y++)
            for (size_t z = 0; z < 2; z++)
                large->samples[i + x + large->length[0] * (j + y + large->length[1] * (k + z))] =
                    (x + y + z) % 2 == 0 ? (uint16_t)(large->t + 5) : 5;
}

static void fill_large(struct large *large, uint32_t axis)
{
    memset(large, 0, sizeof *large);
    large->length[0] = large->length[1] = large->length[2] = axis;
    large->t = 30000;
    large->samples = sample_memory((size_t)sample_product(large->length));
    large->chance = chance_of(12, axis);
    fill_block(&large->chance, UNIFORM_NOISE, large->length, large->t, large->samples);
}

static void make_large(struct large *large, uint32_t axis)
{
    fill_large(large, axis);
    for (size_t border = CUBES_A_RANGE; border < cubes_of_large(large); border += CUBES_A_RANGE)
        shape_border(large, border - 1);
    make_foreign(&large->mesh, parsniprow_mesh, large->length, large->samples, large->t, 0);
}

/* The noise is left in the first planes and in the last alone. */
static void make_hollow(struct large *large, uint32_t axis)
{
    size_t plane = (size_t)axis * axis;
    fill_large(large, axis);
    memset(large->samples + 2 * plane, 0, (axis - 4) * plane * sizeof *large->samples);
    make_foreign(&large->mesh, parsniprow_mesh, large->length, large->samples, large->t, 0);
}

static void free_large(struct large *large)
{
    free_foreign(&large->mesh);
    free(large->samples);
}

/* Asks about the changed mesh, as one of the large block. */
static void expect_large(const struct large *large, const char *name, uint32_t fault, size_t at)
{
    uint32_t wanted[JUDGE_ANSWER];
    struct judging judging = good_judging(name, large->length, large->samples, large->t, 0, &changed, next_lying());
    set_found(wanted, fault, at);
    if (large->is_plain_asked)
        expect_judged(&judging, wanted);
    else
        expect_judged_by_library(&judging, wanted);
}

/* The first vertex with this cube and, where one is given, this word. */
static size_t find_vertex(const struct foreign *foreign, size_t cube, const uint32_t *word)
{
    size_t v = 0;
    while (v < foreign->vertices && (foreign->words[2 * v] != cube || (word && foreign->words[2 * v + 1] != *word)))
        v++;
    return v;
}

/* The vertex of the changed mesh with this key; where it stands in our order says its word. */
static size_t vertex_with_key(const struct large *large, size_t key)
{
    const struct foreign *mesh = &large->mesh;
    size_t cube = key / KEYS_A_CUBE, ours = find_vertex(mesh, cube, NULL) + key % KEYS_A_CUBE;
    if (ours >= mesh->vertices || mesh->words[2 * ours] != cube) {
        first_to_fail("there is no vertex at the border of a range");
        return 0;
    }
    return find_vertex(&changed, cube, &mesh->words[2 * ours + 1]);
}

/* In one order or another. */
static void restart(struct large *large, int is_shuffled)
{
    copy_foreign(&changed, &large->mesh);
    if (is_shuffled) {
        shuffle_vertices(&large->chance, &changed);
        shuffle_quads(&large->chance, &changed);
        turn_quads(&large->chance, &changed);
    }
}

static void reverse_vertices(struct foreign *foreign)
{
    for (size_t at = 0; at < 4 * foreign->quad_count; at++)
        foreign->quads[at] = (uint32_t)(foreign->vertices - 1 - foreign->quads[at]);
    for (size_t v = 0; v < foreign->vertices / 2; v++) {
        uint32_t words[2];
        uint32_t *a = foreign->words + 2 * v, *b = foreign->words + 2 * (foreign->vertices - 1 - v);
        memcpy(words, a, sizeof words);
        memcpy(a, b, sizeof words);
        memcpy(b, words, sizeof words);
    }
}

static void reverse_quads(struct foreign *foreign)
{
    for (size_t q = 0; q < foreign->quad_count / 2; q++)
        exchange_quads(foreign, q, foreign->quad_count - 1 - q);
}

/* The same mesh in several orders, some of them almost that of the mesher. */
static void try_orders(struct large *large)
{
    restart(large, 0);
    expect_large(large, "a large mesh", SAME_MESH, 0);
    exchange_vertices(&changed, changed.vertices - 2, changed.vertices - 1);
    expect_large(large, "a large mesh, the last two vertices exchanged", SAME_MESH, 0);
    exchange_quads(&changed, 0, changed.quad_count - 1);
    expect_large(large, "and a quad", SAME_MESH, 0);
    restart(large, 0);
    reverse_vertices(&changed);
    expect_large(large, "a large mesh, vertices backwards", SAME_MESH, 0);
    reverse_quads(&changed);
    expect_large(large, "and quads", SAME_MESH, 0);
    restart(large, 1);
    expect_large(large, "a large mesh, shuffled", SAME_MESH, 0);
    changed.quad_count--;
    expect_large(large, "a large mesh, shuffled, the last quad left out", SOME_MISSING, 0);
    judge_once.several_ranges += 5;
}

/* One vertex again: behind all, then in place of another. */
static void try_vertex_again(struct large *large, size_t key, int is_shuffled)
{
    size_t vertex, other;
    restart(large, is_shuffled);
    vertex = vertex_with_key(large, key);
    add_vertex(&changed, vertex);
    expect_large(large, "a vertex at a border again", VERTEX_AT_FAULT, changed.vertices - 1);
    changed.vertices--;
    other = (size_t)chance_below(&large->chance, changed.vertices - 1);
    other += other >= vertex;
    memcpy(changed.words + 2 * other, changed.words + 2 * vertex, 2 * sizeof *changed.words);
    expect_large(large, "a vertex at a border for another", VERTEX_AT_FAULT, other < vertex ? vertex : other);
    judge_once.vertex_borders += 2;
}

/* Two vertices again, of which either is of the later range; then with a vertex of no edge before them or behind. */
static void try_vertices_again(struct large *large, size_t first_key, size_t second_key, int is_shuffled)
{
    size_t first, second, count, bad;
    restart(large, is_shuffled);
    count = changed.vertices;
    first = vertex_with_key(large, first_key);
    second = vertex_with_key(large, second_key);
    add_vertex(&changed, first);
    add_vertex(&changed, second);
    expect_large(large, "two vertices again", VERTEX_AT_FAULT, count);
    add_vertex(&changed, first);
    changed.words[2 * (count + 2) + 1] = 0;
    expect_large(large, "two vertices again, then one of no edge", VERTEX_AT_FAULT, count);
    exchange_vertices(&changed, count + 2, count);
    expect_large(large, "one of no edge, then two vertices again", VERTEX_AT_FAULT, count);
    exchange_vertices(&changed, count + 2, count);
    bad = (size_t)chance_below(&large->chance, count);
    changed.offsets[3 * bad + 2] = 1.5;
    expect_large(large, "a bad offset, then two vertices again", VERTEX_AT_FAULT, bad);
    judge_once.later_range_first += first_key > second_key;
}

static void try_vertex_borders(struct large *large)
{
    size_t keys = KEYS_A_CUBE * cubes_of_large(large);
    for (int is_shuffled = 0; is_shuffled < 2; is_shuffled++)
        for (size_t border = RANGE; border < keys; border += RANGE) {
            try_vertex_again(large, border - 1, is_shuffled);
            try_vertex_again(large, border, is_shuffled);
            try_vertices_again(large, border, border - 1, is_shuffled);
            try_vertices_again(large, border - 1, border, is_shuffled);
        }
    if (keys <= 2 * RANGE)
        first_to_fail("a large block has too few cubes");
}

/* The first vertex again at a place where all others round it are of another range. */
static void try_again_at(const struct large *large, size_t place)
{
    uint32_t kept[2];
    memcpy(kept, changed.words + 2 * place, sizeof kept);
    memcpy(changed.words + 2 * place, changed.words, sizeof kept);
    expect_large(large, "a vertex again among those of another range", VERTEX_AT_FAULT, place);
    memcpy(changed.words + 2 * place, kept, sizeof kept);
    judge_once.among_far++;
}

/* At each of the last places, and at the end of lists of several lengths. */
static void try_among_far(struct large *large)
{
    size_t count = large->mesh.vertices;
    restart(large, 0);
    changed.quad_count = 0;
    if (count < 4 * NEAR || changed.words[2 * (count - 3 * NEAR)] < CUBES_A_RANGE)
        first_to_fail("a hollow block has too few vertices in its last range");
    for (size_t place = count - 2 * NEAR; place < count; place++)
        try_again_at(large, place);
    for (changed.vertices = count - NEAR; changed.vertices < count; changed.vertices++)
        try_again_at(large, changed.vertices - 1);
}

/* The axis of a quad of ours, by how far its highest cube lies behind its lowest, and where its highest stands. */
static unsigned axis_of(const struct large *large, size_t q, size_t *third)
{
    const uint32_t *quad = changed.quads + 4 * q;
    size_t row = large->length[0] - 1, layer = row * (large->length[1] - 1), low = SIZE_MAX, high = 0;
    *third = 0;
    for (size_t side = 0; side < 4; side++) {
        size_t cube = changed.words[2 * (size_t)quad[side]];
        low = cube < low ? cube : low;
        if (cube >= high) {
            high = cube;
            *third = quad[side];
        }
    }
    return high - low == row + layer ? 0 : high - low == 1 + layer ? 1 : 2;
}

/* A quad with this key: a quad along its axis, whose third vertex then gets its number. Another quad is avoided, and so
   is one with the third vertex of that. */
static size_t quad_with_key(struct large *large, size_t key, size_t avoided)
{
    unsigned along = (unsigned)(key / changed.vertices);
    size_t number = key % changed.vertices, third, of_avoided = SIZE_MAX;
    size_t from = (size_t)chance_below(&large->chance, changed.quad_count);
    if (avoided < changed.quad_count)
        axis_of(large, avoided, &of_avoided);
    for (size_t i = 0; i < changed.quad_count; i++) {
        size_t q = (from + i) % changed.quad_count;
        if (axis_of(large, q, &third) == along && third != of_avoided) {
            exchange_vertices(&changed, third, number);
            return q;
        }
    }
    first_to_fail("there is no quad along an axis");
    return 0;
}

/* As quad_with_key, but with the numbers that the vertices have: the quad whose key is nearest to the border on one
   side of it. */
static size_t nearest_quad(const struct large *large, size_t border, int is_behind)
{
    size_t best = 0, best_key = is_behind ? SIZE_MAX : 0;
    for (size_t q = 0; q < changed.quad_count; q++) {
        size_t third, key;
        key = axis_of(large, q, &third) * changed.vertices;
        key += third;
        if ((key >= border) == is_behind && (is_behind ? key <= best_key : key >= best_key)) {
            best = q;
            best_key = key;
        }
    }
    return best;
}

static void add_turned(struct large *large, size_t q)
{
    uint32_t quad[4];
    memcpy(quad, changed.quads + 4 * q, sizeof quad);
    turn_quad(quad, (unsigned)chance_below(&large->chance, 4));
    add_quad(&changed, quad);
}

/* Two quads of keys on both sides of a border: each again, behind all and in place of another; then both, in either
   order; then with a mirrored one. */
static void try_quads_again(struct large *large, size_t before, size_t behind)
{
    const size_t both[2] = {before, behind};
    size_t count = changed.quad_count, other;
    uint32_t *last = changed.quads, second;
    for (unsigned i = 0; i < 2; i++) {
        uint32_t kept[4];
        add_turned(large, both[i]);
        expect_large(large, "a quad at a border again", QUAD_AT_FAULT, count);
        add_turned(large, both[1 - i]);
        expect_large(large, "two quads again", QUAD_AT_FAULT, count);
        changed.quad_count = count;
        other = (size_t)chance_below(&large->chance, count - 1);
        other += other >= both[i];
        memcpy(kept, changed.quads + 4 * other, sizeof kept);
        memcpy(changed.quads + 4 * other, changed.quads + 4 * both[i], sizeof kept);
        expect_large(large, "a quad at a border for another", QUAD_AT_FAULT, other < both[i] ? both[i] : other);
        memcpy(changed.quads + 4 * other, kept, sizeof kept);
        judge_once.quad_borders += 2;
        judge_once.later_range_first += i == 1; /* the one behind the border was added first */
    }
    add_turned(large, behind);
    add_turned(large, before);
    add_turned(large, before);
    last = changed.quads + 4 * (count + 2);
    second = last[1];
    last[1] = last[3];
    last[3] = second;
    expect_large(large, "two quads again, then a mirrored one", QUAD_AT_FAULT, count);
    exchange_quads(&changed, count, count + 2);
    expect_large(large, "a mirrored one, then two quads again", QUAD_AT_FAULT, count);
    changed.quad_count = count;
}

/* In our own order, and then shuffled. */
static void try_quad_borders(struct large *large)
{
    for (size_t border = RANGE; border < 3 * large->mesh.vertices; border += RANGE) {
        size_t before, behind;
        restart(large, 0);
        try_quads_again(large, nearest_quad(large, border, 0), nearest_quad(large, border, 1));
        restart(large, 1);
        before = quad_with_key(large, border - 1, SIZE_MAX);
        behind = quad_with_key(large, border, before);
        try_quads_again(large, before, behind);
    }
    if (large->mesh.vertices * 3 <= 2 * RANGE)
        first_to_fail("a large mesh has too few vertices");
}

/* Some samples of metal in the largest block, the last of all among them, so that keys are as high as can be. */
static void try_largest_block(void)
{
    static const size_t metal[][3] = {{1, 1, 1}, {254, 254, 254}, {255, 255, 255}, {128, 37, 200}, {255, 0, 77}};
    struct large large;
    size_t last, count;
    memset(&large, 0, sizeof large);
    large.length[0] = large.length[1] = large.length[2] = LONGEST_AXIS;
    large.t = 100;
    large.samples = sample_memory((size_t)sample_product(large.length));
    large.chance = chance_of(12, LONGEST_AXIS);
    for (size_t i = 0; i < ITEMS(metal); i++)
        large.samples[metal[i][0] + LONGEST_AXIS * (metal[i][1] + LONGEST_AXIS * metal[i][2])] = (uint16_t)(100 + i);
    make_foreign(&large.mesh, parsniprow_mesh, large.length, large.samples, large.t, 0);
    restart(&large, 0);
    expect_large(&large, "the mesh of the largest block", SAME_MESH, 0);
    restart(&large, 1);
    large.is_plain_asked = 1;
    expect_large(&large, "the mesh of the largest block, shuffled", SAME_MESH, 0);
    large.is_plain_asked = 0;
    last = vertex_with_key(&large, KEYS_A_CUBE * (cubes_of_large(&large) - 1));
    count = changed.vertices;
    add_vertex(&changed, last);
    expect_large(&large, "a vertex of the last cube again", VERTEX_AT_FAULT, count);
    changed.words[2 * count]++;
    expect_large(&large, "a cube behind the last of the largest block", VERTEX_AT_FAULT, count);
    changed.vertices--;
    add_turned(&large, changed.quad_count - 1);
    expect_large(&large, "a quad of the largest block again", QUAD_AT_FAULT, changed.quad_count - 1);
    judge_once.largest += 5;
    free_large(&large);
}

void try_largest_judged(void)
{
    struct large large;
    make_paper();
    try_any_quad(1);
    free_foreign(&paper);
    make_large(&large, 45); /* two ranges of cubes, and two of quads */
    large.is_plain_asked = 1;
    try_orders(&large);
    free_large(&large);
    make_large(&large, 53); /* three; what must be said is known, and plain knows no ranges */
    try_orders(&large);
    try_vertex_borders(&large);
    try_quad_borders(&large);
    free_large(&large);
    make_hollow(&large, 45);
    try_among_far(&large);
    free_large(&large);
    try_largest_block();
    free_foreign(&changed);
    give_back_judged();
}
