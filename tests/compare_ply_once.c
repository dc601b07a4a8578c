/* What is asked once of PLY files: the paper's mesh and the empty one, whose files are known; every set of rows that
   can hold at a time; every length, number and value at which a row begins or ends to hold; lengths that no memory has.
   What the request says of a question is held against plain too.
   Assumes nothing more than compare.h, and POSIX with anonymous mappings. */
#define _DEFAULT_SOURCE

#include "compare_ply.h"

#include <stdio.h>
#include <stdlib.h>
#include <string.h>
#include <sys/mman.h>

enum { ALL_ROWS = (1 << ROWS) - 1, MOST_VERTICES = 66325500 };

/* ---- the paper's mesh and the empty one ---- */

enum { PAPER_SAMPLES = 27, PAPER_VERTICES = 8, PAPER_QUADS = 6, PAPER_FILE = 466, PAPER_HEAD = 172, EMPTY_FILE = 172 };

static uint32_t paper_words[2 * PAPER_VERTICES], paper_quads[4 * PAPER_QUADS];
static double paper_offsets[3 * PAPER_VERTICES];

static const struct source paper = {"the paper's mesh", {3, 3, 3},     paper_words, paper_quads,
                                    paper_offsets,      PAPER_VERTICES, PAPER_QUADS};
static const struct source empty = {"the empty mesh", {3, 3, 3}, paper_words, paper_quads, paper_offsets, 0, 0};

static void make_paper(void)
{
    uint16_t samples[PAPER_SAMPLES] = {0};
    uint32_t made[ANSWER];
    samples[PAPER_SAMPLES / 2] = 400;
    parsniprow_mesh(3, 3, 3, samples, PAPER_SAMPLES, 100, 0, paper_words, 2 * PAPER_VERTICES, paper_offsets,
                    3 * PAPER_VERTICES, paper_quads, 4 * PAPER_QUADS, made, ANSWER);
}

/* Another way to lie each time. */
static struct lying next_lying(void)
{
    static unsigned turn;
    struct lying lying;
    lying.beside = (enum beside)(turn % BESIDES);
    lying.shift = turn % MOST_SHIFT;
    turn++;
    return lying;
}

/* The paper's mesh with nothing wrong, lent. */
static struct call paper_call(void)
{
    struct call call = good_call(&paper, next_lying());
    lend_mesh(&call, &paper);
    return call;
}

/* What the request says of the two files. */
static void try_known(void)
{
    static const char head[] = "ply\nformat binary_little_endian 1.0\nelement vertex 8\nproperty double x\n"
                               "property double y\nproperty double z\nelement face 6\n"
                               "property list uchar int vertex_indices\nend_header\n";
    static const char nothing[] = "ply\nformat binary_little_endian 1.0\nelement vertex 0\nproperty double x\n"
                                  "property double y\nproperty double z\nelement face 0\n"
                                  "property list uchar int vertex_indices\nend_header\n";
    static const uint8_t vertex[] = {0x34, 0x33, 0x33, 0x33, 0x33, 0x33, 0xB3, 0x3F, 0x34, 0x33, 0x33, 0x33,
                                     0x33, 0x33, 0xC3, 0x3F, 0x00, 0x00, 0x00, 0x00, 0x00, 0x00, 0xD8, 0x3F};
    static const uint8_t face[] = {4, 0, 0, 0, 0, 4, 0, 0, 0, 6, 0, 0, 0, 2, 0, 0, 0};
    struct call call = paper_call();
    expect(&call, 0, 0);
    expect_bytes(&call, PAPER_FILE, 0, head, PAPER_HEAD);
    expect_bytes(&call, PAPER_FILE, PAPER_HEAD, vertex, sizeof vertex);
    expect_bytes(&call, PAPER_FILE, PAPER_HEAD + BYTES_A_VERTEX * PAPER_VERTICES, face, sizeof face);
    call = good_call(&empty, next_lying());
    lend_mesh(&call, &empty);
    expect(&call, 0, 0);
    expect_bytes(&call, EMPTY_FILE, 0, nothing, EMPTY_FILE);
}

/* ---- the rows ---- */

/* The paper's mesh with some rows due, each always in the same way. */
static void try_faults(unsigned faults)
{
    static const uint32_t values[ROWS] = {1, 2 * PAPER_VERTICES - 1, 6, 2, 3, 2, 1, PAPER_FILE};
    struct call call = good_call(&paper, next_lying());
    unsigned row = 0;
    call.faults = faults;
    call.length[1] = due(&call, AXIS) ? 257 : 3;
    call.words_len -= due(&call, LENGTHS) ? 1 : 0;
    call.quads_len -= due(&call, REST) ? 1 : 0;
    call.spacing[2] = due(&call, SPACING) ? 0.0 : 0.5;
    call.file_len -= due(&call, ROOM) ? 1 : 0;
    lend_mesh(&call, &paper);
    if (due(&call, PAST)) /* at a later vertex than the bad offset */
        call.words[2 * 6] = UINT32_MAX;
    if (due(&call, OFFSET))
        call.offsets[3 * 2 + 1] = 1.5;
    if (due(&call, QUAD))
        call.quads[4 * 1 + 2] = PAPER_VERTICES;
    while (row < ROWS && !due(&call, row))
        row++;
    if (row < ROWS)
        expect(&call, ply_refusals[row], values[row]);
    else
        expect(&call, 0, 0);
}

/* Each axis at the ends of what is allowed, and each set of bad axes. */
static void try_axes(void)
{
    static const uint32_t good[] = {2, 3, 255, 256}, bad[] = {0, 1, 257, 258, 65536, 65538, UINT32_MAX};
    for (unsigned axis = 0; axis < 3; axis++)
        for (size_t i = 0; i < ITEMS(good); i++) {
            struct call call = good_call(&empty, next_lying());
            call.length[axis] = good[i];
            lend_mesh(&call, &empty);
            expect(&call, 0, 0);
        }
    for (unsigned set = 1; set < 8; set++)
        for (size_t i = 0; i < ITEMS(bad); i++) {
            struct call call = good_call(&empty, next_lying());
            for (unsigned axis = 0; axis < 3; axis++)
                call.length[axis] = set >> axis & 1 ? bad[i] : 3;
            lend_mesh(&call, &empty);
            expect(&call, 1, set & 1 ? 0 : set & 2 ? 1 : 2);
        }
}

/* All lengths up to a vertex more than the paper's mesh has; no quads, which would name vertices that are not there. */
static void try_lengths(void)
{
    for (size_t words_len = 0; words_len <= 2 * PAPER_VERTICES + 2; words_len++)
        for (size_t offsets_len = 0; offsets_len <= 3 * PAPER_VERTICES + 3; offsets_len++) {
            struct call call = good_call(&paper, next_lying());
            size_t vertices = words_len / 2;
            int is_good = words_len == 2 * vertices && offsets_len == 3 * vertices;
            call.words_len = words_len;
            call.offsets_len = offsets_len;
            call.quads_len = 0;
            lend_mesh(&call, &paper);
            if (!is_good)
                expect(&call, 22, (uint32_t)words_len);
            else if (vertices > PAPER_VERTICES) /* its pattern is no cube */
                expect(&call, 23, PAPER_VERTICES);
            else
                expect(&call, 0, 0);
        }
}

/* One vertex, in the last cube and behind it; then several behind it. */
static void try_last_cubes(void)
{
    static const uint32_t sizes[][3] = {{2, 2, 2},   {3, 4, 5},   {256, 256, 256}, {256, 2, 2},
                                        {2, 256, 2}, {2, 2, 256}, {17, 256, 2},    {256, 3, 256}};
    for (size_t i = 0; i < ITEMS(sizes); i++) {
        uint32_t end = (uint32_t)cubes_of(sizes[i]), numbers[4];
        struct source one = paper;
        struct call call;
        numbers[0] = end - 1;
        numbers[1] = end;
        numbers[2] = end | UINT32_C(1) << 24;
        numbers[3] = UINT32_MAX;
        memcpy(one.length, sizes[i], sizeof one.length);
        one.quad_count = 0;
        for (size_t vertex = 0; vertex < PAPER_VERTICES; vertex++)
            for (size_t number = 0; number < ITEMS(numbers); number++) {
                call = good_call(&one, next_lying());
                lend_mesh(&call, &one);
                for (size_t at = 0; at < PAPER_VERTICES; at++)
                    call.words[2 * at] = at < vertex ? end - 1 : numbers[number];
                expect(&call, number == 0 ? 0 : 23, number == 0 ? 0 : (uint32_t)vertex);
            }
    }
}

/* Every offset of the paper's mesh in turn, alone and with all behind it. */
static void try_offset(uint64_t bits, int is_good)
{
    for (size_t place = 0; place < 3 * PAPER_VERTICES; place++)
        for (unsigned behind = 0; behind < 2; behind++) {
            struct call call = paper_call();
            for (size_t at = place; at < (behind ? 3 * PAPER_VERTICES : place + 1); at++)
                call.offsets[at] = of_bits(bits);
            expect(&call, is_good ? 0 : 24, is_good ? 0 : (uint32_t)(place / 3));
        }
}

/* Each set of axes with this spacing. */
static void try_spacing(uint64_t bits, int is_good)
{
    for (unsigned set = 1; set < 8; set++) {
        struct call call = paper_call();
        for (unsigned axis = 0; axis < 3; axis++)
            if (set >> axis & 1)
                call.spacing[axis] = of_bits(bits);
        if (is_good)
            expect(&call, 0, 0);
        else
            expect(&call, 13, set & 1 ? 0 : set & 2 ? 1 : 2);
    }
}

/* Every number in the paper's quads in turn, alone and with all behind it: the last vertex, and what is none. */
static void try_quads(void)
{
    static const uint32_t numbers[] = {PAPER_VERTICES - 1, PAPER_VERTICES, PAPER_VERTICES + 1, UINT32_C(1) << 31,
                                       UINT32_MAX};
    for (size_t place = 0; place < 4 * PAPER_QUADS; place++)
        for (size_t i = 0; i < ITEMS(numbers); i++)
            for (unsigned behind = 0; behind < 2; behind++) {
                struct call call = paper_call();
                for (size_t at = place; at < (behind ? 4 * PAPER_QUADS : place + 1); at++)
                    call.quads[at] = numbers[i];
                expect(&call, i == 0 ? 0 : 14, i == 0 ? 0 : (uint32_t)(place / 4));
            }
}

/* Each length, and a quad where there is no vertex. */
static void try_quad_lengths(void)
{
    struct source lone = empty;
    struct call call;
    lone.quad_count = 1;
    call = good_call(&lone, next_lying());
    lend_mesh(&call, &lone);
    expect(&call, 14, 0);
    for (size_t quads_len = 0; quads_len <= 4 * PAPER_QUADS; quads_len++) {
        call = good_call(&paper, next_lying());
        call.quads_len = quads_len;
        lend_mesh(&call, &paper);
        expect(&call, quads_len % 4 ? 7 : 0, quads_len % 4);
    }
}

/* Each room from none to more than enough. */
static void try_rooms(void)
{
    for (size_t file_len = 0; file_len <= PAPER_FILE + 20; file_len++) {
        struct call call = paper_call();
        call.file_len = file_len;
        expect(&call, file_len < PAPER_FILE ? 15 : 0, file_len < PAPER_FILE ? PAPER_FILE : 0);
    }
    for (size_t file_len = 0; file_len <= EMPTY_FILE + 1; file_len++) {
        struct call call = good_call(&empty, next_lying());
        call.file_len = file_len;
        lend_mesh(&call, &empty);
        expect(&call, file_len < EMPTY_FILE ? 15 : 0, file_len < EMPTY_FILE ? EMPTY_FILE : 0);
    }
}

/* All lengths of the answer places, with a file and with a refusal. */
static void try_places(void)
{
    for (size_t length_len = 0; length_len <= LENGTH + 2; length_len++)
        for (size_t answer_len = 0; answer_len <= ANSWER + 2; answer_len++)
            for (unsigned beside = 0; beside < BESIDES; beside++)
                for (unsigned refusal = 0; refusal < 2; refusal++) {
                    struct call call = paper_call();
                    call.length_len = length_len;
                    call.answer_len = answer_len;
                    call.lying.beside = (enum beside)beside;
                    call.spacing[1] = refusal ? 0.0 : 1.0;
                    expect(&call, refusal ? 13 : 0, refusal ? 1 : 0);
                }
}

/* ---- many vertices and quads ---- */

static void *memory(size_t count, size_t item)
{
    void *zeros = calloc(count + 1, item);
    if (!zeros) {
        fprintf(stderr, "compare: no memory\n");
        exit(2);
    }
    return zeros;
}

/* So many vertices and quads. The numbers in the quads run down from the last vertex, again and again. */
static void try_counts(size_t vertices, size_t quad_count)
{
    uint32_t *words = memory(vertices, 2 * sizeof *words), *quads = memory(quad_count, 4 * sizeof *quads);
    double *offsets = memory(vertices, 3 * sizeof *offsets);
    struct source many = {"counts", {256, 256, 256}, words, quads, offsets, vertices, quad_count};
    struct call call;
    for (size_t vertex = 0; vertex < vertices; vertex++) {
        words[2 * vertex] = (uint32_t)(vertex * 2654435761u % cubes_of(many.length));
        words[2 * vertex + 1] = (uint32_t)vertex;
        for (size_t axis = 0; axis < 3; axis++)
            offsets[3 * vertex + axis] = (double)(vertex % 1000 + axis) / 1002.0;
    }
    for (size_t at = 0; at < 4 * quad_count; at++)
        quads[at] = (uint32_t)(vertices - 1 - at % vertices);
    call = good_call(&many, next_lying());
    lend_mesh(&call, &many);
    expect(&call, 0, 0);
    call.file_len--;
    expect(&call, 15, (uint32_t)bytes_needed(vertices, quad_count));
    free(words);
    free(quads);
    free(offsets);
}

/* Counts at which a digit more begins. */
static void try_digits(void)
{
    static const size_t ends[] = {10, 100, 1000, 10000, 100000};
    for (size_t i = 0; i < ITEMS(ends); i++)
        for (size_t count = ends[i] - 1; count <= ends[i]; count++) {
            try_counts(count, 0);
            try_counts(1, count);
            try_counts(count, ends[i] - 1);
        }
    give_back_mesh();
}

/* ---- lengths that no memory has ---- */

/* Refused by its lengths alone, so nothing of the two buffers may be touched. */
static void try_untouched(size_t words_len, size_t offsets_len, uint32_t value)
{
    struct call call = good_call(&empty, next_lying());
    size_t words_bytes = (words_len + 1) * sizeof(uint32_t), offsets_bytes = (offsets_len + 1) * sizeof(double);
    void *words = space(words_bytes, 0), *offsets = space(offsets_bytes, 0);
    call.name = "lengths that no memory has";
    lend_mesh(&call, &empty);
    call.words = words;
    call.words_len = words_len;
    call.offsets = offsets;
    call.offsets_len = offsets_len;
    expect(&call, 22, value);
    give_space_back(words, words_bytes);
    give_space_back(offsets, offsets_bytes);
}

/* The most vertices that pass, of which the first is in no cube. */
static void try_most(void)
{
    struct call call = good_call(&empty, next_lying());
    size_t words_bytes = 2 * (size_t)MOST_VERTICES * sizeof(uint32_t);
    size_t offsets_bytes = 3 * (size_t)MOST_VERTICES * sizeof(double);
    call.name = "the most vertices";
    lend_mesh(&call, &empty);
    call.words = space(words_bytes, 1);
    call.words_len = 2 * (size_t)MOST_VERTICES;
    call.offsets = space(offsets_bytes, 1);
    call.offsets_len = 3 * (size_t)MOST_VERTICES;
    if (mprotect(call.words, sizeof *call.words, PROT_READ | PROT_WRITE) != 0) {
        fprintf(stderr, "compare: a page cannot be opened to writing\n");
        exit(2);
    }
    call.words[0] = UINT32_MAX;
    expect(&call, 23, 0);
    give_space_back(call.words, words_bytes);
    give_space_back(call.offsets, offsets_bytes);
}

static void try_large(void)
{
    size_t most = MOST_VERTICES, cut = (size_t)UINT32_MAX;
    try_untouched(2 * (most + 1), 3 * (most + 1), 2 * (MOST_VERTICES + 1));
    try_untouched(2 * most, 3 * (most + 1), 2 * MOST_VERTICES);
    try_untouched(2 * (most + 1), 3 * most, 2 * (MOST_VERTICES + 1));
    try_untouched(cut - 1, 0, UINT32_MAX - 1);
    try_untouched(cut, 0, UINT32_MAX);
    try_untouched(cut + 1, 0, UINT32_MAX);
    try_untouched(cut + 1 + 2 * PAPER_VERTICES, 3 * PAPER_VERTICES, UINT32_MAX);
    try_most();
}

/* A file of 4294967296 bytes, for which there is no room: its quads are all 0, 0, 0, 0. */
void try_longest_file(void)
{
    struct source source = {"a file that no memory has", {3, 3, 3}, paper_words, paper_quads, paper_offsets, 6, 0};
    size_t quad_count = 252645116, quads_bytes = 4 * quad_count * sizeof(uint32_t);
    struct call call = good_call(&source, next_lying());
    lend_mesh(&call, &source);
    call.quads = space(quads_bytes, 1);
    call.quads_len = 4 * quad_count;
    expect_of_library(&call, 15, UINT32_MAX);
    give_space_back(call.quads, quads_bytes);
}

/* ---- all of it ---- */

void try_fixed_files(void)
{
    make_paper();
    try_known();
    for (unsigned faults = 0; faults <= ALL_ROWS; faults++)
        for (unsigned beside = 0; beside < BESIDES; beside++)
            try_faults(faults);
    try_axes();
    try_lengths();
    try_last_cubes();
    for (size_t i = 0; i < GOOD_OFFSETS; i++)
        try_offset(good_offsets[i], 1);
    for (size_t i = 0; i < BAD_OFFSETS; i++)
        try_offset(bad_offsets[i], 0);
    for (size_t i = 0; i < GOOD_SPACINGS; i++)
        try_spacing(good_spacings[i], 1);
    for (size_t i = 0; i < BAD_SPACINGS; i++)
        try_spacing(bad_spacings[i], 0);
    try_quads();
    try_quad_lengths();
    try_rooms();
    try_places();
    try_digits();
    try_large();
}
