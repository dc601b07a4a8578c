/* A caller of the installed library, in the words that C and C++ share: the paper's samples through each of the
   eighteen functions, in a thread with a stack of 64 KiB, which the header says is enough. Prints what is wrong and
   ends with status 1, or ends with status 0.
   Assumes the installed header and archive, and POSIX threads. */
#define _POSIX_C_SOURCE 200809L

#include <parsniprow.h>

#include <math.h>
#include <pthread.h>
#include <stdio.h>
#include <string.h>

enum { STACK = 65536, SAMPLES = 27, VERTICES = 8, MARKED_VERTICES = 9, QUADS = 6, MARK = 4096 };
enum { EDGES = 6, MARKED_EDGES = 9, RESERVED = 4 * MARKED_EDGES / 3 };
enum { THRESHOLDS = 7, MOST_THRESHOLDS = 16 };
enum { LARGE_PLANES = 40 };
enum { PLANES = 3, PLANE = 9, PLANE_WORK = 6 * PLANE, PLANES_TAKEN = PARSNIPROW_STATE - 1 };
enum { WORK = VERTICES + 4 * QUADS, FILE_BYTES = 466, HEAD_BYTES = 172 };

static int faults;

static void expect(const char *what, int holds)
{
    if (!holds) {
        printf("caller: %s\n", what);
        faults++;
    }
}

static int answers(const uint32_t *answer, uint32_t a, uint32_t b, uint32_t c)
{
    return answer[0] == a && answer[1] == b && answer[2] == c;
}

static void ask_edge(void)
{
    double fraction[1] = {9};
    uint32_t answer[3] = {9, 9, 9};
    parsniprow_edge(0, 400, 100, fraction, 1, answer, 3);
    expect("edge 0, 400", answers(answer, 0, 1, 0) && fraction[0] == 0.25);
    parsniprow_edge(100, 400, 100, fraction, 1, answer, 3);
    expect("edge 100, 400", answers(answer, 0, 0, 0) && fraction[0] == 0);
    parsniprow_edge(0, 65535, 100, fraction, 1, answer, 3);
    expect("edge at the ceiling", answers(answer, 0, 1, 0) && fraction[0] == 100.0 / 65535.0);
    parsniprow_edge(0, 65535, 0, fraction, 1, answer, 3);
    expect("edge at a threshold that is none", answers(answer, 3, 0, 0) && fraction[0] == 0);
}

static void ask_cube(void)
{
    uint32_t words[4] = {9, 9, 9, 9}, answer[3] = {9, 9, 9};
    double offsets[12] = {9, 9, 9, 9, 9, 9, 9, 9, 9, 9, 9, 9};
    parsniprow_cube(110, 0, 0, 110, 0, 110, 110, 0, 100, 0, words, 4, offsets, 12, answer, 3);
    expect("a cube of four loops", answers(answer, 0, 4, 0) && words[0] == 0x111 && words[1] == 0x822 &&
                                       words[2] == 0x284 && words[3] == 0x448);
    parsniprow_cube(65535, 0, 0, 0, 0, 0, 0, 0, 100, 0, words, 4, offsets, 12, answer, 3);
    expect("a cube with a ceiling", answers(answer, 0, 1, 0) && words[0] == MARK + 0x111 && words[1] == 0);
    parsniprow_cube(110, 0, 0, 110, 0, 0, 0, 0, 65535, 1, words, 4, offsets, 12, answer, 3);
    expect("a cube at a threshold that is none", answers(answer, 3, 65535, 0) && words[0] == 0 && offsets[11] == 0);
}

/* Cubes with a noise figure that just joins them, and one more. */
static void ask_noise(void)
{
    uint32_t words[4] = {9, 9, 9, 9}, answer[3] = {9, 9, 9};
    double offsets[12];
    parsniprow_cube(200, 0, 0, 200, 0, 0, 0, 0, 100, 0, words, 4, offsets, 12, answer, 3);
    expect("a tied cube", answers(answer, 0, 1, 0) && words[0] == 0x933 && words[1] == 0);
    parsniprow_cube(200, 0, 0, 200, 0, 0, 0, 0, 100, 1, words, 4, offsets, 12, answer, 3);
    expect("a tied cube with noise 1", answers(answer, 0, 2, 0) && words[0] == 0x111 && words[1] == 0x822);
    parsniprow_cube(50, 300, 300, 50, 0, 0, 0, 0, 100, 37500, words, 4, offsets, 12, answer, 3);
    expect("a cube with noise 37500", answers(answer, 0, 1, 0) && words[0] == 0x633 && words[1] == 0);
    parsniprow_cube(50, 300, 300, 50, 0, 0, 0, 0, 100, 37501, words, 4, offsets, 12, answer, 3);
    expect("a cube with noise 37501", answers(answer, 0, 2, 0) && words[0] == 0x221 && words[1] == 0x412);
    parsniprow_cube(65535, 0, 0, 65535, 0, 0, 0, 0, 1, 4294705155u, words, 4, offsets, 12, answer, 3);
    expect("the most that can be joined", answers(answer, 0, 1, 0) && words[0] == MARK + 0x933 && words[1] == 0);
    parsniprow_cube(65535, 0, 0, 65535, 0, 0, 0, 0, 1, 4294705156u, words, 4, offsets, 12, answer, 3);
    expect("one more", answers(answer, 0, 2, 0) && words[0] == MARK + 0x111 && words[1] == MARK + 0x822);
}

/* The tied cube as a block, in each way there is to ask for it: one vertex with noise 0, and two with noise 1. At
   t = 50 it is no tie, and has one vertex with both. */
static void ask_noisy_block(uint32_t noise)
{
    static const uint16_t samples[8] = {200, 0, 0, 200, 0, 0, 0, 0}, thresholds[2] = {100, 50};
    static const float readings[8] = {200.5f, 0, 0, 200.5f, 0, 0, 0, 0};
    uint32_t state[PARSNIPROW_STATE], work[24], words[4], quads[1], row[6], answer[3] = {9, 9, 9};
    uint32_t vertices = noise == 0 ? 1 : 2;
    double offsets[6];
    parsniprow_counts(2, 2, 2, samples, 8, 100, noise, answer, 3);
    expect("counts with a noise figure", answers(answer, 0, vertices, 0));
    parsniprow_mesh(2, 2, 2, samples, 8, 100, noise, words, 4, offsets, 6, quads, 0, answer, 3);
    expect("a mesh with a noise figure", answers(answer, 0, vertices, 0) && words[1] == (noise == 0 ? 0x933u : 0x111u));
    parsniprow_thresholds(2, 2, 2, samples, 8, thresholds, 2, noise, row, 6, answer, 3);
    expect("thresholds with a noise figure",
           answers(answer, 0, 0, 0) && answers(row, 0, vertices, 0) && answers(row + 3, 0, 1, 0));
    parsniprow_readings_counts(2, 2, 2, readings, 8, 100, noise, answer, 3);
    expect("counts of readings with a noise figure", answers(answer, 0, vertices, 0));
    parsniprow_readings_mesh(2, 2, 2, readings, 8, 100, noise, words, 4, offsets, 6, quads, 0, answer, 3);
    expect("a mesh of readings with a noise figure", answers(answer, 0, vertices, 0));
    parsniprow_start(2, 2, 2, 100, noise, work, 24, state, PARSNIPROW_STATE, answer, 3);
    expect("a start with a noise figure", answers(answer, 0, 0, 0) && state[3] == 100 && state[4] == noise);
    for (size_t k = 0; k < 2; k++)
        parsniprow_plane(state, PARSNIPROW_STATE, samples + 4 * k, 4, work, 24, words, 4, offsets, 6, quads, 0, answer,
                         3);
    expect("planes with a noise figure", answers(answer, 0, vertices, 0) && state[4] == noise);
}

static void ask_block(uint32_t *quads)
{
    uint16_t samples[SAMPLES] = {0};
    uint32_t words[2 * MARKED_VERTICES], answer[3] = {9, 9, 9};
    double offsets[3 * MARKED_VERTICES];
    samples[13] = 400;
    parsniprow_counts(3, 3, 3, samples, SAMPLES, 100, 0, answer, 3);
    expect("counts", answers(answer, 0, VERTICES, QUADS));
    parsniprow_ceilings(samples, SAMPLES, answer, 3);
    expect("no ceilings", answers(answer, 0, 0, SAMPLES));
    parsniprow_mesh(3, 3, 3, samples, SAMPLES, 100, 0, words, 2 * VERTICES, offsets, 3 * VERTICES, quads, 4 * QUADS,
                    answer, 3);
    expect("mesh", answers(answer, 0, VERTICES, QUADS) && words[1] == 0x888 && offsets[0] == 0.75 && quads[1] == 4);
    samples[26] = 65535;
    parsniprow_mesh(3, 3, 3, samples, SAMPLES, 100, 0, words, 2 * VERTICES, offsets, 3 * VERTICES, quads, 4 * QUADS,
                    answer, 3);
    expect("a ceiling, and no room for its vertex", answers(answer, 5, MARKED_VERTICES, 0));
    parsniprow_mesh(3, 3, 3, samples, SAMPLES, 100, 0, words, 2 * MARKED_VERTICES, offsets, 3 * MARKED_VERTICES, quads,
                    4 * QUADS, answer, 3);
    expect("a sample at the ceiling", answers(answer, 0, MARKED_VERTICES, QUADS) && words[1] == 0x888 &&
                                          words[15] == MARK + 0x111 && words[17] == MARK + 0x888);
    parsniprow_ceilings(samples, SAMPLES, answer, 3);
    expect("ceilings", answers(answer, 0, 1, 26));
}

/* The paper's block, then the same with a ceiling, whose mesh is made in rooms that are reserved by the crossed edges
   alone. */
static void ask_crossed(void)
{
    uint16_t samples[SAMPLES] = {0};
    uint32_t words[2 * RESERVED], quads[4 * MARKED_EDGES], answer[3] = {9, 9, 9};
    double offsets[3 * RESERVED];
    samples[13] = 400;
    parsniprow_crossed(3, 3, 3, samples, SAMPLES, 100, answer, 2);
    expect("an answer place of two items", answers(answer, 0, EDGES, 9));
    parsniprow_crossed(3, 3, 3, samples, SAMPLES, 100, answer, 3);
    expect("crossed edges", answers(answer, 0, EDGES, 0));
    samples[26] = 65535;
    parsniprow_crossed(3, 3, 3, samples, SAMPLES, 100, answer, 3);
    expect("crossed edges with a ceiling", answers(answer, 0, MARKED_EDGES, 0));
    parsniprow_mesh(3, 3, 3, samples, SAMPLES, 100, 0, words, 2 * RESERVED, offsets, 3 * RESERVED, quads,
                    4 * MARKED_EDGES, answer, 3);
    expect("a mesh in reserved rooms", answers(answer, 0, MARKED_VERTICES, QUADS));
    parsniprow_crossed(3, 1, 257, samples, 3, 0, answer, 3);
    expect("crossed edges of an axis that is none", answers(answer, 1, 1, 0));
    parsniprow_crossed(3, 3, 3, samples, SAMPLES - 1, 0, answer, 3);
    expect("crossed edges with a sample less", answers(answer, 2, SAMPLES, 0));
    parsniprow_crossed(3, 3, 3, samples, SAMPLES, 65535, answer, 3);
    expect("crossed edges at a threshold that is none", answers(answer, 3, 65535, 0));
}

/* The paper's block by seven thresholds: 0 and 65535 have number 3 of their own, by 401 there is no metal, and by any
   other the middle sample is metal. */
static void ask_thresholds(void)
{
    static const uint16_t thresholds[MOST_THRESHOLDS + 1] = {100, 0, 65535, 400, 401, 1, 100};
    uint16_t samples[SAMPLES] = {0};
    uint32_t row[3 * THRESHOLDS + 1], answer[3] = {9, 9, 9};
    for (size_t at = 0; at <= 3 * THRESHOLDS; at++)
        row[at] = 99;
    samples[13] = 400;
    parsniprow_thresholds(3, 1, 3, samples, SAMPLES, thresholds, MOST_THRESHOLDS + 1, 0, row, 0, answer, 3);
    expect("more than 16 thresholds", answers(answer, 16, MOST_THRESHOLDS + 1, 0));
    parsniprow_thresholds(3, 1, 3, samples, SAMPLES, thresholds, THRESHOLDS, 0, row, 3 * THRESHOLDS - 1, answer, 3);
    expect("too little room for seven thresholds", answers(answer, 15, THRESHOLDS, 0));
    parsniprow_thresholds(3, 1, 3, samples, SAMPLES, thresholds, THRESHOLDS, 0, row, 3 * THRESHOLDS, answer, 3);
    expect("thresholds with an axis that is none", answers(answer, 1, 1, 0));
    parsniprow_thresholds(3, 3, 3, samples, SAMPLES - 1, thresholds, 0, 0, row, 0, answer, 3);
    expect("no threshold and a sample less", answers(answer, 2, SAMPLES, 0));
    parsniprow_thresholds(3, 3, 3, samples, SAMPLES, thresholds, 0, 0, row, 3 * THRESHOLDS, answer, 3);
    expect("no threshold", answers(answer, 0, 0, 0));
    for (size_t at = 0; at <= 3 * THRESHOLDS; at++)
        expect("a row that is kept", row[at] == 99);
    parsniprow_thresholds(3, 3, 3, samples, SAMPLES, thresholds, THRESHOLDS, 0, row, 3 * THRESHOLDS + 1, answer, 3);
    expect("thresholds", answers(answer, 0, 0, 0) && row[3 * THRESHOLDS] == 99);
    expect("thresholds that are none", answers(row + 3, 3, 0, 0) && answers(row + 6, 3, 65535, 0));
    expect("their counts", answers(row, 0, VERTICES, QUADS) && answers(row + 9, 0, VERTICES, QUADS) &&
                               answers(row + 12, 0, 0, 0) && answers(row + 15, 0, VERTICES, QUADS) &&
                               answers(row + 18, 0, VERTICES, QUADS));
}

static void ask_reading(void)
{
    uint32_t answer[3] = {9, 9, 9};
    parsniprow_reading(400.75f, answer, 2);
    expect("an answer place of two items for a reading", answers(answer, 0, 400, 9));
    parsniprow_reading(-0.0f, answer, 3);
    expect("minus zero", answers(answer, 0, 0, 0));
    parsniprow_reading(65534.996f, answer, 3);
    expect("a reading below the ceiling", answers(answer, 0, 65534, 0));
    parsniprow_reading(65535, answer, 3);
    expect("a reading at the ceiling", answers(answer, 0, 65535, 0));
    parsniprow_reading(1e9f, answer, 3);
    expect("a reading above it", answers(answer, 0, 65535, 0));
    parsniprow_reading(NAN, answer, 3);
    expect("no number", answers(answer, 19, 0, 0));
    parsniprow_reading(-INFINITY, answer, 3);
    expect("infinite below zero", answers(answer, 20, 0, 0));
    parsniprow_reading(-1e-45f, answer, 3);
    expect("below zero", answers(answer, 21, 0, 0));
}

/* The paper's block as readings: of several at fault the first decides, after 3 and before 5. */
static void ask_refused_readings(float *readings, uint32_t *words, double *offsets, uint32_t *quads)
{
    uint32_t answer[3] = {9, 9, 9};
    readings[5] = -1;
    readings[7] = NAN;
    parsniprow_readings_counts(3, 1, 257, readings, 3, 0, 0, answer, 3);
    expect("counts of readings with an axis that is none", answers(answer, 1, 1, 0));
    parsniprow_readings_counts(3, 3, 3, readings, SAMPLES - 1, 0, 0, answer, 3);
    expect("counts with a reading less", answers(answer, 2, SAMPLES, 0));
    parsniprow_readings_counts(3, 3, 3, readings, SAMPLES, 65535, 0, answer, 3);
    expect("counts of readings at a threshold that is none", answers(answer, 3, 65535, 0));
    parsniprow_readings_counts(3, 3, 3, readings, SAMPLES, 100, 0, answer, 3);
    expect("counts of readings, two of them at fault", answers(answer, 21, 5, 0));
    readings[5] = 0.25f;
    parsniprow_readings_mesh(3, 3, 3, readings, SAMPLES, 100, 0, words, 0, offsets, 0, quads, 0, answer, 3);
    expect("a mesh of readings, one of them no number, without room", answers(answer, 19, 7, 0));
    readings[7] = INFINITY;
    parsniprow_readings_mesh(3, 3, 3, readings, SAMPLES, 100, 0, words, 2 * VERTICES, offsets, 3 * VERTICES, quads,
                             4 * QUADS, answer, 3);
    expect("a mesh of readings, one of them infinite", answers(answer, 20, 7, 0));
    readings[7] = 0.25f;
    parsniprow_readings_mesh(3, 3, 3, readings, SAMPLES, 100, 0, words, 2 * VERTICES, offsets, 3 * VERTICES - 1, quads,
                             0, answer, 3);
    expect("no room for the vertices of readings", answers(answer, 5, VERTICES, 0));
    parsniprow_readings_mesh(3, 3, 3, readings, SAMPLES, 100, 0, words, 2 * VERTICES, offsets, 3 * VERTICES, quads,
                             4 * QUADS - 1, answer, 3);
    expect("no room for the quads of readings", answers(answer, 6, QUADS, 0));
    expect("buffers that are kept", words[0] == 99 && offsets[0] == 99 && quads[0] == 99);
}

static void ask_readings(void)
{
    float readings[SAMPLES];
    uint32_t words[2 * MARKED_VERTICES], quads[4 * QUADS], answer[3] = {9, 9, 9};
    double offsets[3 * MARKED_VERTICES];
    for (size_t at = 0; at < SAMPLES; at++)
        readings[at] = 0.25f;
    readings[13] = 400.75f;
    words[0] = quads[0] = 99;
    offsets[0] = 99;
    ask_refused_readings(readings, words, offsets, quads);
    parsniprow_readings_counts(3, 3, 3, readings, SAMPLES, 100, 0, answer, 3);
    expect("counts of readings", answers(answer, 0, VERTICES, QUADS));
    parsniprow_readings_mesh(3, 3, 3, readings, SAMPLES, 100, 0, words, 2 * VERTICES, offsets, 3 * VERTICES, quads,
                             4 * QUADS, answer, 3);
    expect("a mesh of readings", answers(answer, 0, VERTICES, QUADS) && words[1] == 0x888 && offsets[0] == 0.75 &&
                                     quads[1] == 4);
    readings[26] = 1e9f;
    parsniprow_readings_mesh(3, 3, 3, readings, SAMPLES, 100, 0, words, 2 * MARKED_VERTICES, offsets,
                             3 * MARKED_VERTICES, quads, 4 * QUADS, answer, 3);
    expect("a reading above the ceiling in a mesh", answers(answer, 0, MARKED_VERTICES, QUADS) && words[1] == 0x888 &&
                                                        words[15] == MARK + 0x111 && words[17] == MARK + 0x888);
}

/* The state has an item more than it needs. */
static void ask_start(uint32_t *state, uint32_t *work)
{
    uint32_t answer[3] = {9, 9, 9};
    for (size_t at = 0; at <= PARSNIPROW_STATE; at++)
        state[at] = 99;
    parsniprow_start(3, 3, 257, 0, 1, work, 0, state, PARSNIPROW_STATE, answer, 3);
    expect("a start with an axis that is none", answers(answer, 1, 2, 0) && state[0] == 99);
    parsniprow_start(3, 3, 3, 65535, 1, work, 0, state, PARSNIPROW_STATE, answer, 3);
    expect("a start at a threshold that is none", answers(answer, 3, 65535, 0) && state[0] == 99);
    parsniprow_start(3, 3, 3, 100, 1, work, PLANE_WORK - 1, state, PARSNIPROW_STATE, answer, 3);
    expect("a start with too little work", answers(answer, 15, PLANE_WORK, 0) && state[0] == 99);
    parsniprow_start(3, 3, 3, 100, 2500, work, PLANE_WORK, state, PARSNIPROW_STATE + 1, answer, 3);
    expect("a start", answers(answer, 0, 0, 0) && state[0] == 3 && state[3] == 100 && state[4] == 2500 &&
                          state[PLANES_TAKEN] == 0 && state[PARSNIPROW_STATE] == 99);
}

/* A plane that needs room for four vertices and so many quads, or for nothing, where something else is missing. */
static void ask_refused_plane(uint32_t *state, const uint16_t *plane, uint32_t *work, uint32_t quads)
{
    uint32_t words[2 * 4], list[4 * 5], answer[3] = {9, 9, 9};
    double offsets[3 * 4];
    parsniprow_plane(state, PARSNIPROW_STATE, plane, PLANE - 1, work, 0, words, 0, offsets, 0, list, 0, answer, 3);
    expect("a plane with a sample less", answers(answer, 2, PLANE, 0));
    parsniprow_plane(state, PARSNIPROW_STATE, plane, PLANE, work, 0, words, 0, offsets, 0, list, 0, answer, 3);
    expect("a plane without work", answers(answer, 15, PLANE_WORK, 0));
    if (quads == 0)
        return;
    parsniprow_plane(state, PARSNIPROW_STATE, plane, PLANE, work, PLANE_WORK, words, 2 * 4, offsets, 3 * 4 - 1, list, 0,
                     answer, 3);
    expect("a plane without room for its vertices", answers(answer, 5, 4, 0));
    parsniprow_plane(state, PARSNIPROW_STATE, plane, PLANE, work, PLANE_WORK, words, 2 * 4, offsets, 3 * 4, list,
                     4 * quads - 1, answer, 3);
    expect("a plane without room for its quads", answers(answer, 6, quads, 0));
}

/* The paper's block plane by plane: the second plane finishes four vertices and a quad, the third the others. A plane
   that is refused is handed over again. */
static void ask_planes(void)
{
    static const uint32_t vertices[PLANES] = {0, 4, 4}, quads[PLANES] = {0, 1, 5};
    uint16_t samples[SAMPLES] = {0};
    uint32_t state[PARSNIPROW_STATE + 1], work[PLANE_WORK], words[2 * 4 + 1], list[4 * 5], answer[3] = {9, 9, 9};
    double offsets[3 * 4];
    samples[13] = 400;
    words[2 * 4] = 99;
    ask_start(state, work);
    for (uint32_t k = 0; k < PLANES; k++) {
        const uint16_t *plane = samples + PLANE * k;
        parsniprow_end(state, PARSNIPROW_STATE, answer, 3);
        expect("an end that comes too early", answers(answer, 18, k, 0));
        ask_refused_plane(state, plane, work, quads[k]);
        parsniprow_plane(state, PARSNIPROW_STATE, plane, PLANE, work, PLANE_WORK, words, 2 * 4 + 1, offsets, 3 * 4,
                         list, 4 * 5, answer, 3);
        expect("a plane", answers(answer, 0, vertices[k], quads[k]) && state[PLANES_TAKEN] == k + 1);
        if (k == 1)
            expect("its part", words[0] == 0 && words[1] == 0x888 && offsets[0] == 0.75 && list[1] == 2);
    }
    expect("the last part", words[0] == 4 && words[1] == 0x822 && words[8] == 99 && list[1] == 4 && list[19] == 6);
    parsniprow_plane(state, PARSNIPROW_STATE, samples, PLANE - 1, work, 0, words, 0, offsets, 0, list, 0, answer, 3);
    expect("a plane too many", answers(answer, 17, PLANES, 0));
    parsniprow_end(state, PARSNIPROW_STATE, answer, 3);
    expect("the end", answers(answer, 0, VERTICES, QUADS));
}

static void ask_closed(const uint32_t *quads)
{
    static const uint32_t alone[4] = {0, 1, 2, 3};
    uint32_t answer[4] = {9, 9, 9, 9};
    parsniprow_closed(quads, 4 * QUADS, answer, 4);
    expect("closed", answers(answer, 0, 1, 0) && answer[3] == 0);
    parsniprow_closed(alone, 4, answer, 4);
    expect("a quad alone", answers(answer, 0, 0, 0) && answer[3] == 0);
    parsniprow_closed(alone, 3, answer, 4);
    expect("three numbers", answers(answer, 7, 3, 0) && answer[3] == 0);
}

static void ask_closed_with(const uint32_t *quads)
{
    static const uint32_t alone[4] = {0, 1, 2, 3};
    uint32_t answer[4] = {9, 9, 9, 9};
    uint64_t work[WORK + 1];
    for (size_t at = 0; at <= WORK; at++)
        work[at] = 99;
    parsniprow_closed_with(quads, 4 * QUADS, work, WORK - 1, answer, 4);
    expect("too little work", answers(answer, 15, WORK, 0) && answer[3] == 0 && work[0] == 99 && work[WORK - 2] == 99);
    parsniprow_closed_with(alone, 3, work, 0, answer, 4);
    expect("three numbers and no work", answers(answer, 7, 3, 0) && answer[3] == 0 && work[0] == 99);
    parsniprow_closed_with(quads, 4 * QUADS, work, WORK + 1, answer, 4);
    expect("closed with work", answers(answer, 0, 1, 0) && answer[3] == 0);
    /* sides 0, 8 and 16 start at vertex 0, and side 1 is the first that starts at vertex 4 */
    expect("its work", work[0] == 0 && work[4] == 1 && work[VERTICES] == 8 && work[VERTICES + 8] == 16 &&
                           work[VERTICES + 16] == 4 * QUADS && work[WORK - 1] == 4 * QUADS && work[WORK] == 99);
    parsniprow_closed_with(alone, 4, work, 8, answer, 4);
    expect("a quad alone with work", answers(answer, 0, 0, 0) && answer[3] == 0 && work[3] == 3 && work[7] == 4);
}

/* The mesh of the block with a ceiling: its last vertex is in no quad. */
static void ask_pieces(const uint32_t *quads)
{
    uint32_t piece[MARKED_VERTICES + 1], size[MARKED_VERTICES + 1], answer[3] = {9, 9, 9};
    for (size_t at = 0; at <= MARKED_VERTICES; at++)
        piece[at] = size[at] = 99;
    parsniprow_pieces(MARKED_VERTICES, quads, 4 * QUADS, piece, MARKED_VERTICES, size, MARKED_VERTICES - 1, answer, 3);
    expect("too little room for the sizes", answers(answer, 5, MARKED_VERTICES, 0) && piece[0] == 99 && size[0] == 99);
    parsniprow_pieces(VERTICES - 1, quads, 4 * QUADS, piece, MARKED_VERTICES, size, MARKED_VERTICES, answer, 3);
    expect("a quad of a vertex that is not there", answers(answer, 14, 1, 0) && piece[0] == 99 && size[0] == 99);
    parsniprow_pieces(0, quads, 3, piece, 0, size, 0, answer, 3);
    expect("pieces of three numbers", answers(answer, 7, 3, 0));
    parsniprow_pieces(MARKED_VERTICES, quads, 4 * QUADS, piece, MARKED_VERTICES + 1, size, MARKED_VERTICES + 1, answer,
                      3);
    expect("pieces", answers(answer, 0, 2, 2) && piece[0] == 0 && piece[7] == 0 && piece[8] == 8 && piece[9] == 99);
    expect("their sizes", size[0] == 8 && size[7] == 0 && size[8] == 1 && size[9] == 99);
}

static void ask_ply(void)
{
    static const unsigned char vertex[8] = {0x34, 0x33, 0x33, 0x33, 0x33, 0x33, 0xB3, 0x3F};
    static const unsigned char face[17] = {4, 0, 0, 0, 0, 4, 0, 0, 0, 6, 0, 0, 0, 2, 0, 0, 0};
    uint16_t samples[SAMPLES] = {0};
    uint32_t words[2 * VERTICES], quads[4 * QUADS], answer[3] = {9, 9, 9};
    double offsets[3 * VERTICES];
    uint8_t file[FILE_BYTES + 1];
    uint64_t length[1] = {9};
    samples[13] = 400;
    file[FILE_BYTES] = 9;
    parsniprow_mesh(3, 3, 3, samples, SAMPLES, 100, 0, words, 2 * VERTICES, offsets, 3 * VERTICES, quads, 4 * QUADS,
                    answer, 3);
    parsniprow_ply(3, 3, 3, words, 2 * VERTICES, offsets, 3 * VERTICES, quads, 4 * QUADS, 0.1, 0.2, 0.5, file, 0,
                   length, 1, answer, 3);
    expect("a file without room", answers(answer, 15, FILE_BYTES, 0) && length[0] == 0);
    parsniprow_ply(3, 3, 3, words, 2 * VERTICES, offsets, 3 * VERTICES, quads, 4 * QUADS, 0.1, 0.2, 0.5, file,
                   FILE_BYTES + 1, length, 1, answer, 3);
    expect("a file", answers(answer, 0, 0, 0) && length[0] == FILE_BYTES && file[FILE_BYTES] == 9);
    expect("its bytes", memcmp(file, "ply\nformat binary_little_endian 1.0\nelement vertex 8\n", 53) == 0 &&
                            memcmp(file + HEAD_BYTES, vertex, sizeof vertex) == 0 &&
                            memcmp(file + HEAD_BYTES + 24 * VERTICES, face, sizeof face) == 0);
    parsniprow_ply(3, 3, 3, words, 2 * VERTICES, offsets, 3 * VERTICES, quads, 4 * QUADS, 0.1, 0, 0.5, file,
                   FILE_BYTES, length, 1, answer, 3);
    expect("a spacing of 0", answers(answer, 13, 1, 0) && length[0] == 0);
}

static int judged(const uint32_t *answer, uint32_t a, uint32_t b, uint32_t c, uint32_t d)
{
    return answers(answer, a, b, c) && answer[3] == d;
}

/* The paper's mesh and the same backwards, as a foreign one of a block whose other samples are hollow. */
static void ask_judge_of(uint32_t axis, const uint16_t *samples, size_t samples_len)
{
    uint32_t words[2 * VERTICES + 2], backwards[2 * VERTICES], quads[4 * QUADS], renamed[4 * QUADS];
    uint32_t answer[5] = {9, 9, 9, 9, 9};
    double offsets[3 * VERTICES + 3];
    parsniprow_mesh(axis, axis, axis, samples, samples_len, 100, 7, words, 2 * VERTICES, offsets, 3 * VERTICES, quads,
                    4 * QUADS, answer, 3);
    for (size_t at = 0; at < VERTICES; at++) {
        backwards[2 * at] = words[2 * (VERTICES - 1 - at)];
        backwards[2 * at + 1] = words[2 * (VERTICES - 1 - at) + 1];
    }
    for (size_t at = 0; at < 4 * QUADS; at++) /* and each begun one vertex later */
        renamed[at] = VERTICES - 1 - quads[at / 4 * 4 + (at + 1) % 4];
    parsniprow_judge(axis, axis, axis, samples, samples_len, 100, 7, words, 2 * VERTICES, offsets, 3 * VERTICES, quads,
                     4 * QUADS, answer, 4);
    expect("our own mesh", judged(answer, 0, 1, 0, 0) && answer[4] == 9);
    parsniprow_judge(axis, axis, axis, samples, samples_len, 100, 7, backwards, 2 * VERTICES, offsets, 3 * VERTICES,
                     renamed, 4 * QUADS, answer, 4);
    expect("our own mesh backwards", judged(answer, 0, 1, 0, 0));
    parsniprow_judge(axis, axis, axis, samples, samples_len, 100, 7, backwards, 2 * VERTICES, offsets, 3 * VERTICES,
                     quads, 4 * QUADS, answer, 4);
    expect("quads that are not renamed", judged(answer, 0, 0, 2, 0));
    parsniprow_judge(axis, axis, axis, samples, samples_len, 100, 7, words, 2 * VERTICES, offsets, 3 * VERTICES, quads,
                     4 * QUADS - 4, answer, 4);
    expect("the last quad left out", judged(answer, 0, 0, 3, 0));
    words[2 * VERTICES] = words[0];
    words[2 * VERTICES + 1] = words[1];
    offsets[3 * VERTICES] = offsets[3 * VERTICES + 1] = offsets[3 * VERTICES + 2] = -0.0;
    parsniprow_judge(axis, axis, axis, samples, samples_len, 100, 7, words, 2 * VERTICES + 2, offsets, 3 * VERTICES + 3,
                     quads, 4 * QUADS, answer, 4);
    expect("a vertex again", judged(answer, 0, 0, 1, VERTICES));
    offsets[2] = NAN;
    parsniprow_judge(axis, axis, axis, samples, samples_len, 100, 7, words, 2 * VERTICES, offsets, 3 * VERTICES, quads,
                     4 * QUADS, answer, 4);
    expect("an offset that is no number", judged(answer, 0, 0, 1, 0));
    parsniprow_judge(axis, axis, axis, samples, samples_len, 100, 7, words, 2 * VERTICES - 2, offsets, 3 * VERTICES - 3,
                     quads, 4 * QUADS, answer, 4);
    expect("a quad of a vertex that is left out", judged(answer, 14, 1, 0, 0));
    parsniprow_judge(axis, axis, axis, samples, samples_len, 100, 7, words, 2 * VERTICES, offsets, 3 * VERTICES - 1,
                     quads, 4 * QUADS - 1, answer, 4);
    expect("offsets that are too few", judged(answer, 22, 2 * VERTICES, 0, 0));
}

static void ask_judge(void)
{
    uint16_t samples[SAMPLES] = {0};
    samples[13] = 400;
    ask_judge_of(3, samples, SAMPLES);
}

/* A block of 256 samples an axis. The deepest stacks are that of the judge, which counts beside a table of its own, and
   that of the mesh, which counts first. Sixteen thresholds are the most. */
static void ask_large(void)
{
    static const uint16_t thresholds[MOST_THRESHOLDS] = {400, 401};
    static uint16_t samples[256 * 256 * 256];
    uint32_t row[3 * MOST_THRESHOLDS], answer[3] = {9, 9, 9};
    uint32_t none[1];
    double nothing[1];
    size_t count = sizeof samples / sizeof *samples;
    memset(samples, 0, sizeof samples);
    samples[1 + 256 * (1 + 256)] = 400;
    parsniprow_mesh(256, 256, 256, samples, count, 100, 4294967295u, none, 0, nothing, 0, none, 0, answer, 3);
    expect("a large block without room", answers(answer, 5, 8, 0));
    parsniprow_crossed(256, 256, 256, samples, count, 100, answer, 3);
    expect("crossed edges of a large block", answers(answer, 0, EDGES, 0));
    parsniprow_thresholds(256, 256, 256, samples, count, thresholds, MOST_THRESHOLDS, 0, row, 3 * MOST_THRESHOLDS,
                          answer, 3);
    expect("16 thresholds of a large block", answers(answer, 0, 0, 0) && answers(row, 0, VERTICES, QUADS) &&
                                                 answers(row + 3, 0, 0, 0) && answers(row + 45, 3, 0, 0));
    ask_judge_of(256, samples, count);
}

/* Planes of 256 by 256 samples, one of metal in the second. */
static void ask_large_planes(void)
{
    static uint16_t plane[256 * 256];
    static uint32_t work[6 * 256 * 256];
    uint32_t state[PARSNIPROW_STATE], words[2 * 4], list[4 * 5], answer[3] = {9, 9, 9};
    double offsets[3 * 4];
    size_t count = sizeof plane / sizeof *plane, work_len = sizeof work / sizeof *work;
    memset(plane, 0, sizeof plane);
    parsniprow_start(256, 256, 3, 100, 4294967295u, work, work_len, state, PARSNIPROW_STATE, answer, 3);
    expect("the start of a large block", answers(answer, 0, 0, 0));
    for (uint32_t k = 0; k < PLANES; k++) {
        plane[1 + 256] = k == 1 ? 400 : 0;
        parsniprow_plane(state, PARSNIPROW_STATE, plane, count, work, work_len, words, 2 * 4, offsets, 3 * 4, list,
                         4 * 5, answer, 3);
        expect("a plane of a large block", answers(answer, 0, k == 0 ? 0 : 4, k == 0 ? 0 : k == 1 ? 1 : 5));
    }
    parsniprow_end(state, PARSNIPROW_STATE, answer, 3);
    expect("the end of a large block", answers(answer, 0, VERTICES, QUADS));
}

/* Readings of 256 samples along x and y: one of metal in the second plane, and then one at fault at the end. */
static void ask_large_readings(void)
{
    static float readings[256 * 256 * LARGE_PLANES];
    uint32_t words[2 * VERTICES], quads[4 * QUADS], answer[3] = {9, 9, 9};
    double offsets[3 * VERTICES];
    size_t count = sizeof readings / sizeof *readings;
    for (size_t at = 0; at < count; at++)
        readings[at] = 0.25f;
    readings[1 + 256 * (1 + 256)] = 400.75f;
    parsniprow_readings_counts(256, 256, LARGE_PLANES, readings, count, 100, 0, answer, 3);
    expect("counts of many readings", answers(answer, 0, VERTICES, QUADS));
    parsniprow_readings_mesh(256, 256, LARGE_PLANES, readings, count, 100, 0, words, 2 * VERTICES, offsets,
                             3 * VERTICES, quads, 4 * QUADS, answer, 3);
    expect("a mesh of many readings", answers(answer, 0, VERTICES, QUADS) && words[1] == 0x888 && offsets[0] == 0.75);
    readings[count - 1] = -1;
    parsniprow_readings_mesh(256, 256, LARGE_PLANES, readings, count, 100, 0, words, 0, offsets, 0, quads, 0, answer,
                             3);
    expect("many readings, the last below zero", answers(answer, 21, (uint32_t)count - 1, 0));
}

static void *ask(void *unused)
{
    uint32_t quads[4 * QUADS];
    ask_edge();
    ask_cube();
    ask_noise();
    ask_noisy_block(0);
    ask_noisy_block(1);
    ask_block(quads);
    ask_crossed();
    ask_thresholds();
    ask_reading();
    ask_readings();
    ask_planes();
    ask_closed(quads);
    ask_closed_with(quads);
    ask_pieces(quads);
    ask_ply();
    ask_judge();
    ask_large();
    ask_large_planes();
    ask_large_readings();
    return unused;
}

int main(void)
{
    pthread_attr_t how;
    pthread_t thread;
    if (pthread_attr_init(&how) != 0 || pthread_attr_setstacksize(&how, STACK) != 0 ||
        pthread_create(&thread, &how, ask, NULL) != 0) {
        printf("caller: there is no thread with so small a stack\n");
        return 1;
    }
    pthread_join(thread, NULL);
    return faults ? 1 : 0;
}
