/* Runs the plain implementation on the paper's samples: the example block with its whole output, the nine cubes, the
   edges, the refusals, lists of quads and the table of faces; on cubes, rows and runs with a noise figure; on samples
   at the ceiling, which are metal and leave a mark; on rows of thresholds for the example block; on that block plane by
   plane; on readings and small blocks of them that were worked out by hand; on blocks whose crossed edges were worked
   out by hand or come from a formula; on two samples that are joined across a face, whose mesh is closed; on the work
   of the closed question; on the pieces of small lists that were worked out by hand and of the example's mesh; on files
   of that mesh and of the empty one; and on small foreign meshes that were judged by hand.
   Prints each sample and its verdict; exits with 1 if one differs.
   Assumes nothing of the library. */
#include "bench_cubes.h"
#include "hand_blocks.h"
#include "hand_judge.h"
#include "hand_lists.h"
#include "hand_readings.h"
#include "plain.h"

#include <stdio.h>
#include <string.h>

enum { ANSWER = 3, CLOSED_ANSWER = 4, JUDGE_ANSWER = 4, CEILING = 65535 };
/* the example block has 8 vertices, and one more where its last sample is at the ceiling */
enum { EXAMPLE_SAMPLES = 27, EXAMPLE_VERTICES = 8, MOST_VERTICES = 9, EXAMPLE_QUADS = 6 };

static unsigned failures;

static void verdict(const char *name, int good)
{
    printf("%-44s %s\n", name, good ? "as the paper says" : "DIFFERS");
    if (!good)
        failures++;
}

static int says(const uint32_t *answer, uint32_t number, uint32_t second, uint32_t third)
{
    return answer[0] == number && answer[1] == second && answer[2] == third;
}

/* ---- the example block ---- */

static const char example_output[] =
    "00000000080000000601\n"
    "010000000008883FE80000000000003FE80000000000003FE8000000000000\n"
    "010000000104483FD00000000000003FE80000000000003FE8000000000000\n"
    "010000000202843FE80000000000003FD00000000000003FE8000000000000\n"
    "010000000301443FD00000000000003FD00000000000003FE8000000000000\n"
    "010000000408223FE80000000000003FE80000000000003FD0000000000000\n"
    "010000000504123FD00000000000003FE80000000000003FD0000000000000\n"
    "010000000602213FE80000000000003FD00000000000003FD0000000000000\n"
    "010000000701113FD00000000000003FD00000000000003FD0000000000000\n"
    "0200000000000000040000000600000002\n"
    "0200000001000000030000000700000005\n"
    "0200000000000000010000000500000004\n"
    "0200000002000000060000000700000003\n"
    "0200000000000000020000000300000001\n"
    "0200000004000000050000000700000006\n";

/* Its last sample at the ceiling: two vertices in the last cube, both with the mark. */
static const char marked_output[] =
    "00000000090000000601\n"
    "010000000008883FE80000000000003FE80000000000003FE8000000000000\n"
    "010000000104483FD00000000000003FE80000000000003FE8000000000000\n"
    "010000000202843FE80000000000003FD00000000000003FE8000000000000\n"
    "010000000301443FD00000000000003FD00000000000003FE8000000000000\n"
    "010000000408223FE80000000000003FE80000000000003FD0000000000000\n"
    "010000000504123FD00000000000003FE80000000000003FD0000000000000\n"
    "010000000602213FE80000000000003FD00000000000003FD0000000000000\n"
    "010000000711113FD00000000000003FD00000000000003FD0000000000000\n"
    "010000000718883FE55980042AAED53FE55980042AAED53FE55980042AAED5\n"
    "0200000000000000040000000600000002\n"
    "0200000001000000030000000700000005\n"
    "0200000000000000010000000500000004\n"
    "0200000002000000060000000700000003\n"
    "0200000000000000020000000300000001\n"
    "0200000004000000050000000700000006\n";

static void example_block(uint16_t samples[EXAMPLE_SAMPLES])
{
    memset(samples, 0, EXAMPLE_SAMPLES * sizeof *samples);
    samples[13] = 0x190;
}

static int closed(const uint32_t *quads, size_t quad_count)
{
    uint32_t answer[CLOSED_ANSWER];
    plain_closed(quads, 4 * quad_count, answer, CLOSED_ANSWER);
    return answer[0] == 0 && answer[1] == 1;
}

static unsigned long long bits(double x)
{
    uint64_t word;
    memcpy(&word, &x, sizeof word);
    return word;
}

/* A block of the example's size at t = 100, with so many vertices and the example's quads. */
static void whole_output(const char *name, const uint16_t samples[EXAMPLE_SAMPLES], uint32_t vertices,
                         const char *wanted)
{
    uint32_t words[2 * MOST_VERTICES], quads[4 * EXAMPLE_QUADS], counted[ANSWER], answer[ANSWER];
    double offsets[3 * MOST_VERTICES];
    char output[sizeof marked_output + 100];
    size_t used;
    plain_counts(3, 3, 3, samples, EXAMPLE_SAMPLES, 100, 0, counted, ANSWER);
    plain_mesh(3, 3, 3, samples, EXAMPLE_SAMPLES, 100, 0, words, 2 * MOST_VERTICES, offsets, 3 * MOST_VERTICES, quads,
               4 * EXAMPLE_QUADS, answer, ANSWER);
    if (!says(counted, 0, vertices, EXAMPLE_QUADS) || !says(answer, 0, vertices, EXAMPLE_QUADS)) {
        verdict(name, 0);
        return;
    }
    used = (size_t)sprintf(output, "00%08X%08X%02X\n", (unsigned)answer[1], (unsigned)answer[2],
                           closed(quads, EXAMPLE_QUADS) ? 1u : 0u);
    for (size_t v = 0; v < vertices; v++)
        used += (size_t)sprintf(output + used, "01%08X%04X%016llX%016llX%016llX\n", (unsigned)words[2 * v],
                                (unsigned)words[2 * v + 1], bits(offsets[3 * v]), bits(offsets[3 * v + 1]),
                                bits(offsets[3 * v + 2]));
    for (size_t q = 0; q < EXAMPLE_QUADS; q++)
        used += (size_t)sprintf(output + used, "02%08X%08X%08X%08X\n", (unsigned)quads[4 * q],
                                (unsigned)quads[4 * q + 1], (unsigned)quads[4 * q + 2], (unsigned)quads[4 * q + 3]);
    fputs(output, stdout);
    verdict(name, strcmp(output, wanted) == 0);
}

static void example(void)
{
    uint16_t samples[EXAMPLE_SAMPLES];
    example_block(samples);
    whole_output("whole output of the example", samples, EXAMPLE_VERTICES, example_output);
    samples[EXAMPLE_SAMPLES - 1] = CEILING;
    whole_output("the same with its last sample at the ceiling", samples, MOST_VERTICES, marked_output);
}

/* ---- cubes ---- */

static void ask_cube(const uint16_t c[8], uint16_t t, uint32_t noise, uint32_t words[4], double offsets[12],
                     uint32_t answer[ANSWER])
{
    plain_cube(c[0], c[1], c[2], c[3], c[4], c[5], c[6], c[7], t, noise, words, 4, offsets, 12, answer, ANSWER);
}

static void cubes(void)
{
    for (size_t i = 0; i < BENCH_CUBES; i++) {
        uint32_t masks[4], answer[ANSWER];
        double offsets[12];
        int within = 1;
        ask_cube(bench_cubes[i].corners, BENCH_THRESHOLD, 0, masks, offsets, answer);
        for (unsigned loop = 0; loop < answer[1]; loop++)
            printf("%s%03X", loop ? ", " : "masks ", (unsigned)masks[loop]);
        printf("%s", answer[1] ? "\n" : "no masks\n");
        for (unsigned j = 0; j < 12; j++)
            within = within && offsets[j] >= 0.0 && offsets[j] <= 1.0 && (j < 3 * answer[1] || bits(offsets[j]) == 0);
        verdict(bench_cubes[i].name, says(answer, 0, bench_cubes[i].count, 0) && within &&
                                         memcmp(masks, bench_cubes[i].masks, sizeof masks) == 0);
    }
}

/* Cubes with a noise figure. With noise 0 the old rule says the same, in every bit. */
static void noise_of_cubes(void)
{
    for (size_t i = 0; i < NOISE_CUBES; i++) {
        const struct noise_cube *cube = &noise_cubes[i];
        uint32_t words[4], old_words[4], answer[ANSWER], old_answer[ANSWER];
        double offsets[12], old_offsets[12];
        int is_old;
        ask_cube(cube->corners, cube->t, 0, words, offsets, answer);
        plain_old_cube(cube->corners, cube->t, old_words, old_offsets, old_answer);
        is_old = memcmp(words, old_words, sizeof words) == 0 && memcmp(offsets, old_offsets, sizeof offsets) == 0 &&
                 memcmp(answer, old_answer, sizeof answer) == 0;
        ask_cube(cube->corners, cube->t, cube->noise, words, offsets, answer);
        verdict(cube->name, is_old && says(answer, 0, cube->count, 0) && memcmp(words, cube->words, sizeof words) == 0);
    }
}

/* Words with the mark, at t = 100. */
static const struct {
    const char *name;
    uint16_t corners[8];
    uint32_t count, words[4];
} marked_cubes[] = {
    {"cube 65535, seven times 0", {CEILING, 0, 0, 0, 0, 0, 0, 0}, 1, {0x1111}},
    {"cube seven times 0, 65535", {0, 0, 0, 0, 0, 0, 0, CEILING}, 1, {0x1888}},
    {"cube 200, six times 0, 65535", {200, 0, 0, 0, 0, 0, 0, CEILING}, 2, {0x1111, 0x1888}},
    {"cube 65535,50,50,300,50,300,300,50",
     {CEILING, 50, 50, 300, 50, 300, 300, 50},
     4,
     {0x1221, 0x1412, 0x1144, 0x1888}},
    {"cube eight times 65535",
     {CEILING, CEILING, CEILING, CEILING, CEILING, CEILING, CEILING, CEILING},
     0,
     {0}},
    {"cube seven times 100, 65535", {100, 100, 100, 100, 100, 100, 100, CEILING}, 0, {0}},
    {"cube 65534, seven times 0", {65534, 0, 0, 0, 0, 0, 0, 0}, 1, {0x111}},
};

static void ceilings_of_cubes(void)
{
    uint32_t words[4], answer[ANSWER];
    double offsets[12];
    for (size_t i = 0; i < sizeof marked_cubes / sizeof *marked_cubes; i++) {
        ask_cube(marked_cubes[i].corners, 100, 0, words, offsets, answer);
        verdict(marked_cubes[i].name, says(answer, 0, marked_cubes[i].count, 0) &&
                                          memcmp(words, marked_cubes[i].words, sizeof words) == 0);
    }
    ask_cube(marked_cubes[0].corners, 0, 0, words, offsets, answer);
    verdict("cube with a ceiling and t = 0", says(answer, 3, 0, 0) && words[0] == 0 && bits(offsets[0]) == 0);
    ask_cube(marked_cubes[0].corners, CEILING, 1, words, offsets, answer);
    verdict("cube with a ceiling and t = 65535",
            says(answer, 3, CEILING, 0) && words[0] == 0 && bits(offsets[0]) == 0);
}

/* ---- edges ---- */

static void edge(uint16_t p, uint16_t q, uint16_t t, uint32_t number, uint32_t second, double wanted)
{
    uint32_t answer[ANSWER];
    double fraction;
    char name[64];
    plain_edge(p, q, t, &fraction, 1, answer, ANSWER);
    sprintf(name, "edge %u,%u at %u: %s %g", (unsigned)p, (unsigned)q, (unsigned)t,
            number ? "refused, fraction" : second ? "fraction" : "none, fraction", wanted);
    verdict(name, says(answer, number, second, 0) && bits(fraction) == bits(wanted));
}

static void edges(void)
{
    edge(0, 400, 100, 0, 1, 0.25);
    edge(400, 0, 100, 0, 1, 0.75);
    edge(100, 0, 100, 0, 1, 0.0);
    edge(0, 100, 100, 0, 1, 1.0);
    edge(100, 400, 100, 0, 0, 0.0);
    edge(99, 0, 100, 0, 0, 0.0);
    edge(0, CEILING, 100, 0, 1, 100.0 / 65535.0);
    edge(CEILING, 0, 100, 0, 1, 65435.0 / 65535.0);
    edge(CEILING, CEILING, 100, 0, 0, 0.0);
    edge(CEILING, 65533, 65534, 0, 1, 0.5);
    edge(65533, CEILING, 65534, 0, 1, 0.5);
    edge(0, CEILING, 0, 3, 0, 0.0);
    edge(0, CEILING, CEILING, 3, CEILING, 0.0);
}

/* ---- refusals of a block ---- */

static void axes(uint32_t nx, uint32_t ny, uint32_t nz, uint32_t axis)
{
    uint16_t samples[1] = {0};
    uint32_t answer[ANSWER];
    char name[64];
    plain_counts(nx, ny, nz, samples, 0, 100, 0, answer, ANSWER);
    sprintf(name, "axes %u,%u,%u: 1, value %u", (unsigned)nx, (unsigned)ny, (unsigned)nz, (unsigned)axis);
    verdict(name, says(answer, 1, axis, 0));
}

static void room(const char *name, size_t vertices, size_t quads, uint32_t number, uint32_t value)
{
    uint16_t samples[EXAMPLE_SAMPLES];
    uint32_t words[2 * EXAMPLE_VERTICES], list[4 * EXAMPLE_QUADS], answer[ANSWER];
    double offsets[3 * EXAMPLE_VERTICES];
    example_block(samples);
    plain_mesh(3, 3, 3, samples, EXAMPLE_SAMPLES, 100, 0, words, 2 * vertices, offsets, 3 * vertices, list, 4 * quads,
               answer, ANSWER);
    verdict(name, says(answer, number, value, 0));
}

static void refusals(void)
{
    uint16_t samples[EXAMPLE_SAMPLES];
    uint32_t answer[ANSWER];
    axes(1, 2, 2, 0);
    axes(2, 2, 257, 2);
    room("room for 7 vertices: 5, value 8", 7, EXAMPLE_QUADS, 5, 8);
    room("room for 5 quads: 6, value 6", EXAMPLE_VERTICES, 5, 6, 6);
    room("both short: 5", 7, 5, 5, 8);
    example_block(samples);
    plain_counts(3, 3, 3, samples, EXAMPLE_SAMPLES - 1, 100, 0, answer, ANSWER);
    verdict("one sample less: 2, value 27", says(answer, 2, EXAMPLE_SAMPLES, 0));
    plain_counts(3, 3, 3, samples, EXAMPLE_SAMPLES, 1, 0, answer, ANSWER);
    verdict("t = 1 passes", says(answer, 0, EXAMPLE_VERTICES, EXAMPLE_QUADS));
    plain_counts(3, 3, 3, samples, EXAMPLE_SAMPLES, 65534, 0, answer, ANSWER);
    verdict("t = 65534 passes", says(answer, 0, 0, 0));
    samples[EXAMPLE_SAMPLES - 1] = CEILING;
    plain_counts(3, 3, 3, samples, EXAMPLE_SAMPLES, 0, 0, answer, ANSWER);
    verdict("last sample at the ceiling, t = 0: 3", says(answer, 3, 0, 0));
    plain_counts(3, 3, 3, samples, EXAMPLE_SAMPLES - 1, 100, 0, answer, ANSWER);
    verdict("a ceiling, one sample less: 2, value 27", says(answer, 2, EXAMPLE_SAMPLES, 0));
}

/* ---- samples at the ceiling ---- */

static void ceilings(const char *name, const uint16_t *samples, size_t samples_len, uint32_t count, uint32_t lowest)
{
    uint32_t answer[ANSWER];
    plain_ceilings(samples, samples_len, answer, ANSWER);
    verdict(name, says(answer, 0, count, lowest));
}

static void ceilings_of_blocks(void)
{
    uint16_t samples[EXAMPLE_SAMPLES];
    uint32_t answer[ANSWER] = {9, 9, 9};
    example_block(samples);
    ceilings("ceilings of the example: 0, none", samples, EXAMPLE_SAMPLES, 0, EXAMPLE_SAMPLES);
    samples[EXAMPLE_SAMPLES - 1] = CEILING;
    ceilings("its last sample at the ceiling: 1, at 26", samples, EXAMPLE_SAMPLES, 1, EXAMPLE_SAMPLES - 1);
    samples[0] = samples[7] = CEILING;
    ceilings("first, eighth and last: 3, at 0", samples, EXAMPLE_SAMPLES, 3, 0);
    ceilings("all but the first: 2, at 6", samples + 1, EXAMPLE_SAMPLES - 1, 2, 6);
    ceilings("ceilings of no sample: 0, none", samples, 0, 0, 0);
    plain_ceilings(samples, EXAMPLE_SAMPLES, answer, 2);
    verdict("an answer place of two items", says(answer, 0, 3, 9));
    for (size_t index = 0; index < EXAMPLE_SAMPLES; index++)
        samples[index] = index == EXAMPLE_SAMPLES / 2 ? CEILING : 200;
    plain_counts(3, 3, 3, samples, EXAMPLE_SAMPLES, 100, 0, answer, ANSWER);
    verdict("a ceiling with metal all round: no vertex", says(answer, 0, 0, 0));
    ceilings("and still counted: 1, at 13", samples, EXAMPLE_SAMPLES, 1, EXAMPLE_SAMPLES / 2);
}

/* ---- rows of thresholds ---- */

enum { MOST_ROW = 17, ROW = 7, UNTOUCHED = 99 };

/* Thresholds of a row for the example block, and the three numbers of each. A longer row goes through them again. */
static const uint16_t row_thresholds[ROW] = {100, 0, CEILING, 400, 401, 1, 100};
static const uint32_t row_answers[ROW][ANSWER] = {{0, 8, 6}, {3, 0, 0}, {3, CEILING, 0}, {0, 8, 6},
                                                  {0, 0, 0}, {0, 8, 6}, {0, 8, 6}};

/* So many thresholds with room for so many items, in the example block as far as the axes and samples_len say so.
   Behind the answers, and everywhere on refusal, the room must be kept. */
static void row(const char *name, const uint32_t n[3], size_t samples_len, size_t thresholds_len, size_t answers_len,
                uint32_t number, uint32_t value)
{
    uint16_t samples[EXAMPLE_SAMPLES], thresholds[MOST_ROW];
    uint32_t answers[ANSWER * MOST_ROW], answer[ANSWER];
    int is_good;
    example_block(samples);
    for (size_t i = 0; i < MOST_ROW; i++)
        thresholds[i] = row_thresholds[i % ROW];
    for (size_t i = 0; i < ANSWER * MOST_ROW; i++)
        answers[i] = UNTOUCHED;
    plain_thresholds(n[0], n[1], n[2], samples, samples_len, thresholds, thresholds_len, 0, answers, answers_len,
                     answer, ANSWER);
    is_good = says(answer, number, value, 0);
    for (size_t i = 0; i < MOST_ROW; i++) {
        const uint32_t kept[ANSWER] = {UNTOUCHED, UNTOUCHED, UNTOUCHED};
        const uint32_t *wanted = number == 0 && i < thresholds_len ? row_answers[i % ROW] : kept;
        is_good = is_good && says(answers + ANSWER * i, wanted[0], wanted[1], wanted[2]);
    }
    verdict(name, is_good);
}

static void rows_of_thresholds(void)
{
    static const uint32_t good[3] = {3, 3, 3}, bad[3] = {3, 9, 1};
    row("seven thresholds", good, EXAMPLE_SAMPLES, 7, 21, 0, 0);
    row("with room for more", good, EXAMPLE_SAMPLES, 7, 51, 0, 0);
    row("16 thresholds", good, EXAMPLE_SAMPLES, 16, 48, 0, 0);
    row("17 thresholds: 16, value 17", good, EXAMPLE_SAMPLES, 17, 51, 16, 17);
    row("room for 20 items: 15, value 7", good, EXAMPLE_SAMPLES, 7, 20, 15, 7);
    row("an axis of 1: 1, value 2", bad, EXAMPLE_SAMPLES, 7, 21, 1, 2);
    row("a sample less: 2, value 27", good, EXAMPLE_SAMPLES - 1, 7, 21, 2, EXAMPLE_SAMPLES);
    row("no threshold", good, EXAMPLE_SAMPLES, 0, 0, 0, 0);
    row("no threshold, an axis of 1: 1, value 2", bad, EXAMPLE_SAMPLES, 0, 0, 1, 2);
    row("no threshold, a sample less: 2, value 27", good, EXAMPLE_SAMPLES - 1, 0, 0, 2, EXAMPLE_SAMPLES);
    row("17, no room, an axis of 1: 16, value 17", bad, EXAMPLE_SAMPLES, 17, 0, 16, 17);
    row("room for 20, an axis of 1: 15, value 7", bad, EXAMPLE_SAMPLES, 7, 20, 15, 7);
    row("room for 20, a sample less: 15, value 7", good, EXAMPLE_SAMPLES - 1, 7, 20, 15, 7);
}

/* The tied cube as a block by the thresholds 100 and 50: so many vertices by each, and no quads. */
static void noise_of_row(const char *name, uint32_t noise, uint32_t first, uint32_t second)
{
    static const uint16_t samples[8] = {200, 0, 0, 200, 0, 0, 0, 0}, thresholds[2] = {100, 50};
    uint32_t answers[2 * ANSWER], answer[ANSWER];
    plain_thresholds(2, 2, 2, samples, 8, thresholds, 2, noise, answers, 2 * ANSWER, answer, ANSWER);
    verdict(name, says(answer, 0, 0, 0) && says(answers, 0, first, 0) && says(answers + ANSWER, 0, second, 0));
}

static void noise_of_rows(void)
{
    noise_of_row("a tied cube by 100 and 50, noise 0: 1, 1", 0, 1, 1);
    noise_of_row("noise 1: 2, 1", 1, 2, 1);
    noise_of_row("noise 20000: 2, 1", 20000, 2, 1);
    noise_of_row("noise 20001: 2, 2", 20001, 2, 2);
}

/* ---- planes ---- */

enum { STATE = 8, EXAMPLE_PLANES = 3, EXAMPLE_PLANE = 9, EXAMPLE_WORK = 54 };

/* What the calls for the example write: vertices, and quads in their order. */
static const uint32_t vertices_of_calls[EXAMPLE_PLANES] = {0, 4, 4}, quads_of_calls[EXAMPLE_PLANES] = {0, 1, 5};
static const uint32_t quads_in_calls[4 * EXAMPLE_QUADS] = {0, 2, 3, 1, 0, 4, 6, 2, 1, 3, 7, 5,
                                                           0, 1, 5, 4, 2, 6, 7, 3, 4, 5, 7, 6};

/* A run of the example, and its mesh as it grows. */
struct growing {
    uint32_t state[STATE], work[EXAMPLE_WORK], words[2 * EXAMPLE_VERTICES], quads[4 * EXAMPLE_QUADS], answer[ANSWER];
    uint16_t samples[EXAMPLE_SAMPLES];
    double offsets[3 * EXAMPLE_VERTICES];
};

static struct growing start_example(void)
{
    struct growing run;
    memset(&run, 0, sizeof run);
    example_block(run.samples);
    plain_start(3, 3, 3, 100, 0, run.work, EXAMPLE_WORK, run.state, STATE, run.answer, ANSWER);
    return run;
}

/* The next plane, with room for so many vertices and quads behind those that there are. */
static void grow(struct growing *run, uint32_t vertices, uint32_t quads)
{
    size_t plane = run->state[7] % EXAMPLE_PLANES, vertex = run->state[5], quad = run->state[6];
    plain_plane(run->state, STATE, run->samples + EXAMPLE_PLANE * plane, EXAMPLE_PLANE, run->work, EXAMPLE_WORK,
                run->words + 2 * vertex, 2 * vertices, run->offsets + 3 * vertex, 3 * vertices, run->quads + 4 * quad,
                4 * quads, run->answer, ANSWER);
}

/* The parts of the example, the totals at each place, and that they are the whole mesh, cut. */
static void parts_of_example(void)
{
    struct growing run = start_example();
    uint32_t words[2 * EXAMPLE_VERTICES], quads[4 * EXAMPLE_QUADS], in_order[4 * EXAMPLE_QUADS], answer[ANSWER];
    uint32_t vertices_of[EXAMPLE_PLANES], quads_of[EXAMPLE_PLANES];
    double offsets[3 * EXAMPLE_VERTICES];
    int is_good = says(run.answer, 0, 0, 0);
    for (uint32_t k = 0; k < EXAMPLE_PLANES; k++) {
        plain_end(run.state, STATE, answer, ANSWER);
        is_good = is_good && says(answer, 18, k, 0);
        grow(&run, vertices_of_calls[k], quads_of_calls[k]);
        is_good = is_good && says(run.answer, 0, vertices_of_calls[k], quads_of_calls[k]);
    }
    verdict("the example plane by plane: 0, 4, 4 vertices", is_good);
    verdict("its quads", memcmp(run.quads, quads_in_calls, sizeof quads_in_calls) == 0);
    plain_end(run.state, STATE, answer, ANSWER);
    verdict("its end: 8, 6", says(answer, 0, EXAMPLE_VERTICES, EXAMPLE_QUADS));
    plain_mesh(3, 3, 3, run.samples, EXAMPLE_SAMPLES, 100, 0, words, 2 * EXAMPLE_VERTICES, offsets,
               3 * EXAMPLE_VERTICES, quads, 4 * EXAMPLE_QUADS, answer, ANSWER);
    verdict("its words and offsets are those of the mesh",
            memcmp(words, run.words, sizeof words) == 0 && memcmp(offsets, run.offsets, sizeof offsets) == 0);
    plain_cut(3, 3, 3, words, EXAMPLE_VERTICES, quads, EXAMPLE_QUADS, vertices_of, quads_of, in_order);
    verdict("the mesh cut into calls", memcmp(vertices_of, vertices_of_calls, sizeof vertices_of) == 0 &&
                                           memcmp(quads_of, quads_of_calls, sizeof quads_of) == 0 &&
                                           memcmp(in_order, quads_in_calls, sizeof in_order) == 0);
}

/* A start with so much work. */
static void started(const char *name, const uint32_t n[3], uint16_t t, uint32_t noise, size_t work_len, uint32_t number,
                    uint32_t value)
{
    uint32_t work[1] = {0}, state[STATE], answer[ANSWER];
    uint32_t wanted[STATE] = {n[0], n[1], n[2], t, noise, 0, 0, 0};
    for (size_t i = 0; i < STATE; i++)
        state[i] = UNTOUCHED;
    for (size_t i = 0; number != 0 && i < STATE; i++)
        wanted[i] = UNTOUCHED;
    plain_start(n[0], n[1], n[2], t, noise, work, work_len, state, STATE, answer, ANSWER);
    verdict(name, says(answer, number, value, 0) && memcmp(state, wanted, sizeof state) == 0);
}

static void starts(void)
{
    static const uint32_t good[3] = {3, 3, 3}, bad[3] = {3, 257, 1}, largest[3] = {256, 256, 256};
    started("a start", good, 100, 0, EXAMPLE_WORK, 0, 0);
    started("a start with noise 2500", good, 100, 2500, EXAMPLE_WORK, 0, 0);
    started("the largest start", largest, 65534, UINT32_MAX, 393216, 0, 0);
    started("work of 53: 15, value 54", good, 100, 0, 53, 15, 54);
    started("work of 393215: 15, value 393216", largest, 1, 1, 393215, 15, 393216);
    started("a start with an axis of 257: 1, value 1", bad, 0, 0, 0, 1, 1);
    started("a start with t = 0: 3, value 0", good, 0, UINT32_MAX, 0, 3, 0);
    started("a start with t = 65535: 3, value 65535", good, CEILING, 0, EXAMPLE_WORK, 3, CEILING);
}

/* The tied cube in two planes. The noise figure stands in the state behind the threshold, and stays there. */
static void noise_of_run(const char *name, uint32_t noise, uint32_t vertices)
{
    static const uint16_t samples[8] = {200, 0, 0, 200, 0, 0, 0, 0};
    uint32_t state[STATE], work[24], words[4], quads[1], answer[ANSWER];
    double offsets[6];
    plain_start(2, 2, 2, 100, noise, work, 24, state, STATE, answer, ANSWER);
    plain_plane(state, STATE, samples, 4, work, 24, words, 0, offsets, 0, quads, 0, answer, ANSWER);
    plain_plane(state, STATE, samples + 4, 4, work, 24, words, 4, offsets, 6, quads, 0, answer, ANSWER);
    verdict(name, says(answer, 0, vertices, 0) && state[3] == 100 && state[4] == noise && state[5] == vertices &&
                      state[6] == 0 && state[7] == 2);
}

/* A state of four items has no noise figure and no planes taken: each plane is the first, and nothing more is
   written. */
static void four_items(void)
{
    static const uint16_t samples[4] = {200, 0, 0, 200};
    uint32_t state[STATE], work[24], words[1], quads[1], answer[ANSWER];
    double offsets[1];
    int is_good = 1;
    for (size_t i = 0; i < STATE; i++)
        state[i] = UNTOUCHED;
    plain_start(2, 2, 2, 100, 1, work, 24, state, 4, answer, ANSWER);
    for (unsigned again = 0; again < 3; again++) {
        plain_plane(state, 4, samples, 4, work, 24, words, 0, offsets, 0, quads, 0, answer, ANSWER);
        is_good = is_good && says(answer, 0, 0, 0) && state[3] == 100 && state[4] == UNTOUCHED;
    }
    verdict("a state of four items: each plane the first", is_good);
}

static void noise_of_runs(void)
{
    noise_of_run("a tied cube by planes, noise 0: 1", 0, 1);
    noise_of_run("noise 1: 2", 1, 2);
    noise_of_run("noise 4294967295: 2", UINT32_MAX, 2);
    four_items();
}

/* A call that is refused, after so many planes of the example, and leaves all as it was. */
static void plane_refused(const char *name, uint32_t taken, size_t plane_len, size_t work_len, size_t words_len,
                          size_t offsets_len, size_t quads_len, uint32_t number, uint32_t value)
{
    struct growing run = start_example(), before;
    uint32_t answer[ANSWER];
    for (uint32_t k = 0; k < taken; k++)
        grow(&run, vertices_of_calls[k], quads_of_calls[k]);
    memcpy(&before, &run, sizeof before);
    plain_plane(run.state, STATE, run.samples + EXAMPLE_PLANE * (taken % EXAMPLE_PLANES), plane_len, run.work, work_len,
                run.words, words_len, run.offsets, offsets_len, run.quads, quads_len, answer, ANSWER);
    verdict(name, says(answer, number, value, 0) && memcmp(&before, &run, sizeof run) == 0);
}

static void planes_refused(void)
{
    plane_refused("a fourth plane: 17, value 3", 3, EXAMPLE_PLANE, EXAMPLE_WORK, 8, 12, 20, 17, 3);
    plane_refused("a fourth plane of 8, no work: 17", 3, 8, 0, 0, 0, 0, 17, 3);
    plane_refused("a plane of 8: 2, value 9", 1, 8, EXAMPLE_WORK, 8, 12, 20, 2, EXAMPLE_PLANE);
    plane_refused("a plane of 10, no work: 2, value 9", 0, 10, 0, 0, 0, 0, 2, EXAMPLE_PLANE);
    plane_refused("a plane, work of 53: 15, value 54", 0, EXAMPLE_PLANE, 53, 0, 0, 0, 15, EXAMPLE_WORK);
    plane_refused("no room, work of 53: 15, value 54", 2, EXAMPLE_PLANE, 53, 0, 0, 0, 15, EXAMPLE_WORK);
    plane_refused("words for 3 vertices: 5, value 4", 2, EXAMPLE_PLANE, EXAMPLE_WORK, 7, 12, 0, 5, 4);
    plane_refused("offsets for 3 vertices: 5, value 4", 2, EXAMPLE_PLANE, EXAMPLE_WORK, 8, 11, 20, 5, 4);
    plane_refused("quads for none: 6, value 1", 1, EXAMPLE_PLANE, EXAMPLE_WORK, 8, 12, 3, 6, 1);
}

/* ---- readings ---- */

static void readings_by_hand(void)
{
    for (size_t i = 0; i < HAND_READINGS; i++) {
        const struct hand_reading *hand = &hand_readings[i];
        uint32_t answer[ANSWER] = {UNTOUCHED, UNTOUCHED, UNTOUCHED}, cut[ANSWER] = {UNTOUCHED, UNTOUCHED, UNTOUCHED};
        char name[64];
        plain_reading(reading_of(hand->bits), answer, ANSWER);
        plain_reading(reading_of(hand->bits), cut, 1);
        sprintf(name, "reading %s", hand->name);
        verdict(name, says(answer, hand->number, hand->grey, 0) && says(cut, hand->number, UNTOUCHED, UNTOUCHED));
    }
}

/* Where the mesh is refused, what there is room for is kept. */
static void blocks_of_readings(void)
{
    enum { ROOM = 12 };
    for (size_t i = 0; i < HAND_READING_BLOCKS; i++) {
        const struct hand_reading_block *block = &hand_reading_blocks[i];
        const uint32_t *n = block->length, *counts = block->counted, *mesh = block->meshed;
        uint32_t words[2 * ROOM], quads[4 * ROOM], counted[ANSWER], answer[ANSWER];
        size_t vertex_count = mesh[0] == 0 ? mesh[1] : 0, quad_count = mesh[0] == 0 ? mesh[2] : 0;
        float readings[MOST_HAND_READINGS];
        double offsets[3 * ROOM];
        int is_kept = 1;
        fill_hand_reading_block(block, readings);
        for (size_t at = 0; at < 4 * ROOM; at++)
            quads[at] = words[at % (2 * ROOM)] = UNTOUCHED;
        for (size_t at = 0; at < 3 * ROOM; at++)
            offsets[at] = 9;
        plain_readings_counts(n[0], n[1], n[2], readings, block->readings_len, block->t, 0, counted, ANSWER);
        plain_readings_mesh(n[0], n[1], n[2], readings, block->readings_len, block->t, 0, words, 2 * block->vertices,
                            offsets, 3 * block->vertices, quads, 4 * block->quads, answer, ANSWER);
        for (size_t at = 2 * vertex_count; at < 2 * ROOM; at++)
            is_kept = is_kept && words[at] == UNTOUCHED;
        for (size_t at = 3 * vertex_count; at < 3 * ROOM; at++)
            is_kept = is_kept && offsets[at] == 9;
        for (size_t at = 4 * quad_count; at < 4 * ROOM; at++)
            is_kept = is_kept && quads[at] == UNTOUCHED;
        verdict(block->name, is_kept && says(counted, counts[0], counts[1], counts[2]) &&
                                 says(answer, mesh[0], mesh[1], mesh[2]));
    }
}

/* The example as readings with fractions has the example's mesh, and at the ceiling the marked one. */
static void example_of_readings(const char *name, float last, uint16_t last_sample, uint32_t vertices, uint32_t marked)
{
    uint16_t samples[EXAMPLE_SAMPLES];
    uint32_t words[2][2 * MOST_VERTICES], quads[2][4 * EXAMPLE_QUADS], answer[2][ANSWER], found = 0;
    double offsets[2][3 * MOST_VERTICES];
    float readings[EXAMPLE_SAMPLES];
    example_block(samples);
    samples[EXAMPLE_SAMPLES - 1] = last_sample;
    for (size_t index = 0; index < EXAMPLE_SAMPLES; index++)
        readings[index] = 0.25f;
    readings[13] = 400.75f;
    readings[EXAMPLE_SAMPLES - 1] = last;
    plain_mesh(3, 3, 3, samples, EXAMPLE_SAMPLES, 100, 0, words[0], 2 * vertices, offsets[0], 3 * vertices, quads[0],
               4 * EXAMPLE_QUADS, answer[0], ANSWER);
    plain_readings_mesh(3, 3, 3, readings, EXAMPLE_SAMPLES, 100, 0, words[1], 2 * vertices, offsets[1], 3 * vertices,
                        quads[1], 4 * EXAMPLE_QUADS, answer[1], ANSWER);
    for (size_t vertex = 0; says(answer[1], 0, vertices, EXAMPLE_QUADS) && vertex < vertices; vertex++)
        found += words[1][2 * vertex + 1] >= 4096;
    verdict(name, says(answer[0], 0, vertices, EXAMPLE_QUADS) && says(answer[1], 0, vertices, EXAMPLE_QUADS) &&
                      memcmp(words[0], words[1], 2 * vertices * sizeof **words) == 0 &&
                      memcmp(offsets[0], offsets[1], 3 * vertices * sizeof **offsets) == 0 &&
                      memcmp(quads[0], quads[1], sizeof *quads) == 0 && found == marked);
}

static void examples_of_readings(void)
{
    example_of_readings("the example as readings: its mesh", 0.75f, 0, EXAMPLE_VERTICES, 0);
    example_of_readings("its last reading 65535: marked", 65535.0f, CEILING, MOST_VERTICES, 2);
    example_of_readings("its last reading 1e9: marked", 1e9f, CEILING, MOST_VERTICES, 2);
    example_of_readings("its last reading 65534.996: not marked", 65534.996f, 65534, MOST_VERTICES, 0);
}

/* ---- crossed edges ---- */

enum { MOST_FORMULA_SAMPLES = 512 };

/* Where a block is refused, the counts are refused alike. */
static void crossed_of_hand_blocks(void)
{
    for (size_t i = 0; i < HAND_BLOCKS; i++) {
        const struct hand_block *block = &hand_blocks[i];
        const uint32_t *n = block->length, *wanted = block->answer;
        uint16_t samples[MOST_HAND_SAMPLES];
        uint32_t answer[ANSWER], counted[ANSWER];
        char name[80];
        fill_hand_block(block, samples);
        plain_crossed(n[0], n[1], n[2], samples, block->samples_len, block->t, answer, ANSWER);
        plain_counts(n[0], n[1], n[2], samples, block->samples_len, block->t, block->noise, counted, ANSWER);
        sprintf(name, "crossed, %s", block->name);
        verdict(name, says(answer, wanted[0], wanted[1], wanted[2]) &&
                          (wanted[0] ? says(counted, wanted[0], wanted[1], wanted[2])
                                     : says(counted, 0, block->vertices, block->quads)));
    }
}

static int has_crossed(const uint32_t length[3], const uint16_t *samples, uint32_t edges)
{
    uint32_t answer[ANSWER];
    plain_crossed(length[0], length[1], length[2], samples, (size_t)length[0] * length[1] * length[2], 100, answer,
                  ANSWER);
    return says(answer, 0, edges, 0);
}

static int has_counts(const uint32_t length[3], const uint16_t *samples, uint32_t vertices, uint32_t quads)
{
    uint32_t answer[ANSWER];
    plain_counts(length[0], length[1], length[2], samples, (size_t)length[0] * length[1] * length[2], 100, 0, answer,
                 ANSWER);
    return says(answer, 0, vertices, quads);
}

/* At 110 and 0 no metal is joined across a face, so each cube has four vertices. */
static int is_board_good(const uint32_t length[3])
{
    uint16_t samples[MOST_FORMULA_SAMPLES];
    uint32_t cubes = (length[0] - 1) * (length[1] - 1) * (length[2] - 1);
    fill_board(length, 110, 0, samples);
    return has_crossed(length, samples, all_edges(length)) &&
           has_counts(length, samples, 4 * cubes, inner_edges(length));
}

/* Six crossed edges, eight vertices and six quads a grain. */
static int are_grains_good(const uint32_t length[3], int is_close)
{
    uint16_t samples[MOST_FORMULA_SAMPLES];
    uint32_t grains = fill_grains(length, is_close, 110, 0, samples);
    return has_crossed(length, samples, 6 * grains) && has_counts(length, samples, 8 * grains, 6 * grains);
}

/* Every box that there is in a block. */
static int are_boxes_good(const uint32_t length[3])
{
    uint16_t samples[MOST_FORMULA_SAMPLES];
    struct box box;
    int is_good = 1;
    uint32_t *from = box.from, *to = box.to;
    for (from[0] = 0; from[0] < length[0]; from[0]++)
        for (to[0] = from[0] + 1; to[0] <= length[0]; to[0]++)
            for (from[1] = 0; from[1] < length[1]; from[1]++)
                for (to[1] = from[1] + 1; to[1] <= length[1]; to[1]++)
                    for (from[2] = 0; from[2] < length[2]; from[2]++)
                        for (to[2] = from[2] + 1; to[2] <= length[2]; to[2]++) {
                            fill_box(length, &box, 400, 0, samples);
                            is_good = is_good && has_crossed(length, samples, edges_of_box(length, &box));
                        }
    return is_good;
}

static void crossed_of_formulas(void)
{
    static const uint32_t eight[3] = {8, 8, 8};
    uint32_t length[3];
    int is_board = 1, are_grains = 1, are_boxes = 1;
    for (length[0] = 2; length[0] <= 5; length[0]++)
        for (length[1] = 2; length[1] <= 5; length[1]++)
            for (length[2] = 2; length[2] <= 5; length[2]++) {
                is_board = is_board && is_board_good(length);
                are_grains = are_grains && are_grains_good(length, 0) && are_grains_good(length, 1);
                are_boxes = are_boxes && are_boxes_good(length);
            }
    verdict("crossed, boards of 2 to 5 an axis", is_board);
    verdict("crossed, a board of 8 an axis: 1344", all_edges(eight) == 1344 && is_board_good(eight));
    verdict("crossed, grains in 2 to 5 an axis", are_grains);
    verdict("crossed, all boxes in 2 to 5 an axis", are_boxes);
}

/* ---- lists of quads ---- */

enum { LIST_WORK = 64, KEPT = 9 };

/* Asked without work and with more of it than the list needs. */
static void list(const char *name, const uint32_t *quads, size_t quads_len, uint32_t number, uint32_t second,
                 uint32_t quad, uint32_t side)
{
    uint32_t answer[CLOSED_ANSWER], answer_with[CLOSED_ANSWER];
    uint64_t work[LIST_WORK];
    plain_closed(quads, quads_len, answer, CLOSED_ANSWER);
    plain_closed_with(quads, quads_len, work, LIST_WORK, answer_with, CLOSED_ANSWER);
    verdict(name, says(answer, number, second, quad) && answer[3] == side &&
                      memcmp(answer, answer_with, sizeof answer) == 0);
}

/* The paper's samples first, then its rule where it is easily missed; these are worked out by hand. */
static void lists(void)
{
    static const uint32_t alone[] = {0, 1, 2, 3}, twice[] = {0, 1, 2, 3, 0, 1, 2, 3};
    static const uint32_t begun_elsewhere[] = {0, 1, 2, 3, 1, 2, 3, 0}, both_ways[] = {0, 1, 2, 3, 3, 2, 1, 0};
    static const uint32_t folded[] = {0, 1, 2, 1}, narrow[] = {0, 1, 0, 1};
    static const uint32_t equal[] = {0, 0, 1, 2, 2, 1, 0, 0}, late[] = {0, 1, 2, 1, 3, 4, 5, 4, 6, 7, 7, 6};
    static const uint32_t last[] = {0, 1, 2, 1, 0, 3, 4, 4};
    static const uint32_t twice_back[] = {0, 1, 2, 1, 1, 0, 3, 4}, twice_there[] = {5, 6, 5, 6, 0, 1, 0, 2, 3, 4, 0, 1};
    list("quad 0,1,2,3 alone: open at quad 0, side 0", alone, 4, 0, 0, 0, 0);
    list("empty list: closed", alone, 0, 0, 1, 0, 0);
    list("length 1: 7, value 1", alone, 1, 7, 1, 0, 0);
    list("length 3: 7, value 3", alone, 3, 7, 3, 0, 0);
    list("length 6: 7, value 2", twice, 6, 7, 2, 0, 0);
    list("a quad twice: open at quad 0, side 0", twice, 8, 0, 0, 0, 0);
    list("the same, begun elsewhere: open", begun_elsewhere, 8, 0, 0, 0, 0);
    list("a quad and its reverse: closed", both_ways, 8, 0, 1, 0, 0);
    list("quad 0,1,2,1: closed", folded, 4, 0, 1, 0, 0);
    list("quad 0,1,0,1: twice each way, closed", narrow, 4, 0, 1, 0, 0);
    list("equal ends, all else in order: open", equal, 8, 0, 0, 0, 0);
    list("equal ends in quad 2, side 1", late, 12, 0, 0, 2, 1);
    list("one way only in quad 1, side 0", last, 8, 0, 0, 1, 0);
    list("once there, twice back: at quad 0, side 0", twice_back, 8, 0, 0, 0, 0);
    list("twice there, once back: at quad 1, side 0", twice_there, 12, 0, 0, 1, 0);
}

/* So much work is lent, and it must hold this at its front and else what it held. */
static void work(const char *name, const uint32_t *quads, size_t quads_len, size_t work_len, uint32_t number,
                 uint32_t second, const uint64_t *wanted, size_t wanted_len)
{
    uint32_t answer[CLOSED_ANSWER];
    uint64_t items[LIST_WORK];
    int is_good;
    for (size_t i = 0; i < LIST_WORK; i++)
        items[i] = KEPT;
    plain_closed_with(quads, quads_len, items, work_len, answer, CLOSED_ANSWER);
    is_good = says(answer, number, second, 0) && answer[3] == 0;
    for (size_t i = 0; i < LIST_WORK; i++)
        is_good = is_good && items[i] == (i < wanted_len ? wanted[i] : KEPT);
    verdict(name, is_good);
}

static void works(void)
{
    static const uint32_t both_ways[] = {0, 1, 2, 3, 3, 2, 1, 0}, folded[] = {4, 1, 2, 1};
    static const uint32_t highest[] = {0, 1, 2, UINT32_MAX}, at_limit[] = {0, 1, 2, UINT32_MAX - 5};
    static const uint64_t of_both[] = {0, 1, 2, 3, 7, 6, 5, 4, 8, 8, 8, 8};
    static const uint64_t of_folded[] = {4, 1, 2, 4, 0, 4, 3, 4, 4};
    work("work of a quad and its reverse", both_ways, 8, 12, 0, 1, of_both, 12);
    work("the same with more room", both_ways, 8, 13, 0, 1, of_both, 12);
    work("room one short: 15, value 12", both_ways, 8, 11, 15, 12, NULL, 0);
    work("no room: 15, value 12", both_ways, 8, 0, 15, 12, NULL, 0);
    work("work of quad 4,1,2,1", folded, 4, LIST_WORK, 0, 1, of_folded, 9);
    work("work of the empty list", folded, 0, 0, 0, 1, NULL, 0);
    work("length 3 without room: 7 before 15", folded, 3, 0, 7, 3, NULL, 0);
    work("4294967295 items needed", at_limit, 4, LIST_WORK, 15, UINT32_MAX, NULL, 0);
    work("4294967300 items needed: cut", highest, 4, LIST_WORK, 15, UINT32_MAX, NULL, 0);
}

/* ---- pieces ---- */

enum { PIECE_ROOM = 20, GRAIN_VERTICES = 8, GRAINS_SAMPLES = 45, GRAINS_VERTICES = 16, GRAINS_QUADS = 12 };

/* Rooms of such lengths are lent, and they must hold this at their front and else what they held. */
static void pieces(const char *name, uint32_t n, const uint32_t *quads, size_t quads_len, size_t piece_len,
                   size_t size_len, const uint32_t wanted[ANSWER], const uint32_t *wanted_piece,
                   const uint32_t *wanted_size)
{
    uint32_t piece[PIECE_ROOM], size[PIECE_ROOM], answer[ANSWER], written = wanted[0] == 0 ? n : 0;
    int is_good;
    for (size_t i = 0; i < PIECE_ROOM; i++)
        piece[i] = size[i] = KEPT;
    plain_pieces(n, quads, quads_len, piece, piece_len, size, size_len, answer, ANSWER);
    is_good = says(answer, wanted[0], wanted[1], wanted[2]);
    for (size_t i = 0; i < PIECE_ROOM; i++)
        is_good = is_good && piece[i] == (i < written ? wanted_piece[i] : KEPT) &&
                  size[i] == (i < written ? wanted_size[i] : KEPT);
    verdict(name, is_good);
}

static void pieces_of_hand_lists(void)
{
    for (size_t i = 0; i < HAND_LISTS; i++) {
        const struct hand_list *list = &hand_lists[i];
        pieces(list->name, list->n, list->quads, list->quads_len, list->piece_len, list->size_len, list->answer,
               list->piece, list->size);
    }
}

/* The example's first quad hangs 4, 6 and 2 under 0, its second one 3, 7 and 5 under 1, and its third one 1 under 0;
   then 5 is searched for with two links. With the last sample at the ceiling there is a ninth vertex, in no quad. */
static void pieces_of_example(void)
{
    static const uint32_t whole[ANSWER] = {0, 1, 2}, and_alone[ANSWER] = {0, 2, 2};
    static const uint32_t piece[MOST_VERTICES] = {0, 0, 0, 0, 0, 0, 0, 0, 8};
    static const uint32_t size[MOST_VERTICES] = {8, 0, 0, 0, 0, 0, 0, 0, 1};
    uint16_t samples[EXAMPLE_SAMPLES];
    uint32_t words[2 * MOST_VERTICES], quads[4 * EXAMPLE_QUADS], answer[ANSWER];
    double offsets[3 * MOST_VERTICES];
    example_block(samples);
    plain_mesh(3, 3, 3, samples, EXAMPLE_SAMPLES, 100, 0, words, 2 * MOST_VERTICES, offsets, 3 * MOST_VERTICES, quads,
               4 * EXAMPLE_QUADS, answer, ANSWER);
    pieces("pieces of the example: 1", answer[1], quads, 4 * EXAMPLE_QUADS, PIECE_ROOM, PIECE_ROOM, whole, piece,
           size);
    samples[EXAMPLE_SAMPLES - 1] = CEILING;
    plain_mesh(3, 3, 3, samples, EXAMPLE_SAMPLES, 100, 0, words, 2 * MOST_VERTICES, offsets, 3 * MOST_VERTICES, quads,
               4 * EXAMPLE_QUADS, answer, ANSWER);
    pieces("its last sample at the ceiling: 2", answer[1], quads, 4 * EXAMPLE_QUADS, PIECE_ROOM, PIECE_ROOM, and_alone,
           piece, size);
}

/* Two samples of metal with one of hollow between them: each has eight vertices and six quads, as the example has. */
static void pieces_of_two_grains(void)
{
    static const uint32_t two[ANSWER] = {0, 2, 2};
    uint16_t samples[GRAINS_SAMPLES] = {0};
    uint32_t words[2 * GRAINS_VERTICES], quads[4 * GRAINS_QUADS], answer[ANSWER];
    uint32_t piece[GRAINS_VERTICES], size[GRAINS_VERTICES] = {0};
    double offsets[3 * GRAINS_VERTICES];
    samples[1 + 3 * (1 + 3)] = samples[1 + 3 * (1 + 3 * 3)] = 400;
    for (uint32_t vertex = 0; vertex < GRAINS_VERTICES; vertex++)
        piece[vertex] = vertex / GRAIN_VERTICES * GRAIN_VERTICES;
    size[0] = size[GRAIN_VERTICES] = GRAIN_VERTICES;
    plain_mesh(3, 3, 5, samples, GRAINS_SAMPLES, 100, 0, words, 2 * GRAINS_VERTICES, offsets, 3 * GRAINS_VERTICES,
               quads, 4 * GRAINS_QUADS, answer, ANSWER);
    verdict("two grains: 16 vertices and 12 quads", says(answer, 0, GRAINS_VERTICES, GRAINS_QUADS));
    pieces("pieces of two grains: 2", GRAINS_VERTICES, quads, 4 * GRAINS_QUADS, PIECE_ROOM, PIECE_ROOM, two, piece,
           size);
}

/* ---- two samples, joined across a face ---- */

enum { PORE_SAMPLES = 48, PORE_VERTICES = 14, PORE_QUADS = 12 };

/* Where the first side stands that is not used exactly twice, whichever way it runs. */
static size_t first_not_used_twice(const uint32_t *quads, size_t quads_len)
{
    for (size_t at = 0; at < quads_len; at++) {
        unsigned uses = 0;
        for (size_t other = 0; other < quads_len; other++) {
            uint32_t a = quads[at], b = quads[at / 4 * 4 + (at + 1) % 4];
            uint32_t c = quads[other], d = quads[other / 4 * 4 + (other + 1) % 4];
            uses += (a == c && b == d) || (a == d && b == c);
        }
        if (uses != 2)
            return at;
    }
    return quads_len;
}

/* Two samples across a face of two cubes, and all others of the other sign: four quads join two of the vertices. So
   the mesh is closed, though a side of quad 1 is used four times. The noise figure does not part them. */
static void pore_of_two(const char *name, uint16_t two, uint16_t others, uint32_t noise, size_t side)
{
    uint16_t samples[PORE_SAMPLES];
    uint32_t words[2 * PORE_VERTICES], quads[4 * PORE_QUADS], answer[ANSWER];
    double offsets[3 * PORE_VERTICES];
    for (size_t index = 0; index < PORE_SAMPLES; index++)
        samples[index] = others;
    samples[1 + 4 * (1 + 4)] = samples[2 + 4 * (2 + 4)] = two;
    plain_mesh(4, 4, 3, samples, PORE_SAMPLES, 100, noise, words, 2 * PORE_VERTICES, offsets, 3 * PORE_VERTICES, quads,
               4 * PORE_QUADS, answer, ANSWER);
    verdict(name, says(answer, 0, PORE_VERTICES, PORE_QUADS) && closed(quads, PORE_QUADS) &&
                      first_not_used_twice(quads, 4 * PORE_QUADS) == 4 * 1 + side);
}

/* ---- files ---- */

static const char example_head[] = "ply\nformat binary_little_endian 1.0\nelement vertex 8\nproperty double x\n"
                                   "property double y\nproperty double z\nelement face 6\n"
                                   "property list uchar int vertex_indices\nend_header\n";
static const char empty_file[] = "ply\nformat binary_little_endian 1.0\nelement vertex 0\nproperty double x\n"
                                 "property double y\nproperty double z\nelement face 0\n"
                                 "property list uchar int vertex_indices\nend_header\n";

enum { HEAD = sizeof example_head - 1, EMPTY_FILE = 172, EXAMPLE_FILE = 466, FACES_AT = HEAD + 24 * EXAMPLE_VERTICES };

static int file_says(const uint32_t *answer, uint32_t number, uint32_t value, uint64_t length, uint64_t wanted)
{
    return says(answer, number, value, 0) && length == wanted;
}

/* At spacings 0.1, 0.2 and 0.5, into room for so many bytes. */
static void draw_example(uint8_t *file, size_t file_len, uint64_t *length, uint32_t *answer)
{
    uint16_t samples[EXAMPLE_SAMPLES];
    uint32_t words[2 * EXAMPLE_VERTICES], quads[4 * EXAMPLE_QUADS];
    double offsets[3 * EXAMPLE_VERTICES];
    example_block(samples);
    plain_mesh(3, 3, 3, samples, EXAMPLE_SAMPLES, 100, 0, words, 2 * EXAMPLE_VERTICES, offsets, 3 * EXAMPLE_VERTICES,
               quads, 4 * EXAMPLE_QUADS, answer, ANSWER);
    plain_ply(3, 3, 3, words, 2 * EXAMPLE_VERTICES, offsets, 3 * EXAMPLE_VERTICES, quads, 4 * EXAMPLE_QUADS, 0.1, 0.2,
              0.5, file, file_len, length, 1, answer, ANSWER);
}

static void files(void)
{
    static const uint8_t first_vertex[] = {0x34, 0x33, 0x33, 0x33, 0x33, 0x33, 0xB3, 0x3F, 0x34, 0x33, 0x33, 0x33,
                                           0x33, 0x33, 0xC3, 0x3F, 0x00, 0x00, 0x00, 0x00, 0x00, 0x00, 0xD8, 0x3F};
    static const uint8_t first_face[] = {4, 0, 0, 0, 0, 4, 0, 0, 0, 6, 0, 0, 0, 2, 0, 0, 0};
    uint8_t file[EXAMPLE_FILE];
    uint64_t length = 9;
    uint32_t answer[ANSWER], no_word = 0;
    double no_offset = 0;
    draw_example(file, EXAMPLE_FILE - 1, &length, answer);
    verdict("room for 465 bytes: 15, value 466", file_says(answer, 15, EXAMPLE_FILE, length, 0));
    draw_example(file, EXAMPLE_FILE, &length, answer);
    verdict("the example's file: 466 bytes", file_says(answer, 0, 0, length, EXAMPLE_FILE));
    verdict("its head", memcmp(file, example_head, HEAD) == 0);
    verdict("its first vertex", memcmp(file + HEAD, first_vertex, sizeof first_vertex) == 0);
    verdict("its first face", memcmp(file + FACES_AT, first_face, sizeof first_face) == 0);
    plain_ply(2, 2, 2, &no_word, 0, &no_offset, 0, &no_word, 0, 1, 1, 1, file, EXAMPLE_FILE, &length, 1, answer,
              ANSWER);
    verdict("the file of no mesh: 172 bytes",
            file_says(answer, 0, 0, length, EMPTY_FILE) && memcmp(file, empty_file, EMPTY_FILE) == 0);
}

/* ---- foreign meshes ---- */

static void foreign_meshes(void)
{
    for (size_t i = 0; i < HAND_JUDGED; i++) {
        const struct hand_judged *judged = &hand_judged[i];
        uint16_t samples[MOST_JUDGED_SAMPLES];
        double offsets[3 * MOST_JUDGED_VERTICES];
        uint32_t answer[JUDGE_ANSWER + 1] = {9, 9, 9, 9, 9};
        fill_judged_samples(judged, samples);
        fill_judged_offsets(judged, offsets);
        plain_judge(judged->length[0], judged->length[1], judged->length[2], samples, judged->samples_len, judged->t,
                    judged->noise, judged->words, judged->words_len, offsets, judged->offsets_len, judged->quads,
                    judged->quads_len, answer, JUDGE_ANSWER);
        verdict(judged->name, memcmp(answer, judged->answer, sizeof judged->answer) == 0 && answer[JUDGE_ANSWER] == 9);
    }
}

/* What the mesher writes for the example passes, with and without a ceiling, and an answer place may be short. */
static void own_meshes(void)
{
    uint16_t samples[EXAMPLE_SAMPLES];
    uint32_t words[2 * MOST_VERTICES], quads[4 * EXAMPLE_QUADS], made[ANSWER], answer[JUDGE_ANSWER] = {9, 9, 9, 9};
    double offsets[3 * MOST_VERTICES];
    example_block(samples);
    for (unsigned is_marked = 0; is_marked < 2; is_marked++) {
        samples[EXAMPLE_SAMPLES - 1] = is_marked ? CEILING : 0;
        plain_mesh(3, 3, 3, samples, EXAMPLE_SAMPLES, 100, 0, words, 2 * MOST_VERTICES, offsets, 3 * MOST_VERTICES,
                   quads, 4 * EXAMPLE_QUADS, made, ANSWER);
        plain_judge(3, 3, 3, samples, EXAMPLE_SAMPLES, 100, 0, words, 2 * made[1], offsets, 3 * made[1], quads,
                    4 * made[2], answer, 2);
        verdict(is_marked ? "the mesh of the example with a mark: same" : "the mesh of the example: same",
                answer[0] == 0 && answer[1] == 1 && answer[2] == 9 && answer[3] == 9);
    }
}

/* ---- faces ---- */

static void faces(void)
{
    static const unsigned table[6][4] = {{4, 10, 6, 8}, {5, 11, 7, 9}, {0, 9, 2, 8},
                                         {1, 11, 3, 10}, {0, 5, 1, 4}, {2, 7, 3, 6}};
    for (unsigned face = 0; face < 6; face++) {
        uint32_t mask = 0;
        char name[32];
        for (unsigned i = 0; i < 4; i++)
            mask |= (uint32_t)1 << table[face][i];
        sprintf(name, "edges of face %c=%u", "xyz"[face / 2], face % 2);
        verdict(name, plain_face(face) == mask);
    }
}

int main(void)
{
    faces();
    edges();
    cubes();
    noise_of_cubes();
    ceilings_of_cubes();
    refusals();
    ceilings_of_blocks();
    rows_of_thresholds();
    noise_of_rows();
    parts_of_example();
    starts();
    noise_of_runs();
    planes_refused();
    readings_by_hand();
    blocks_of_readings();
    examples_of_readings();
    crossed_of_hand_blocks();
    crossed_of_formulas();
    lists();
    works();
    pieces_of_hand_lists();
    pieces_of_example();
    pieces_of_two_grains();
    pore_of_two("two samples of metal: closed", 300, 0, 0, 1);
    pore_of_two("a pore of two samples: closed", 0, 150, 0, 2);
    pore_of_two("two samples of metal, noise 30000: closed", 300, 0, 30000, 1);
    pore_of_two("a pore of two that noise joins: closed", 90, 200, 9901, 2);
    files();
    foreign_meshes();
    own_meshes();
    example();
    printf("plain_samples: %u differences\n", failures);
    return failures ? 1 : 0;
}
