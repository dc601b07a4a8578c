/* Compares the counts and the mesh of random blocks with the plain implementation: good blocks, and blocks about which
   one thing or several are wrong, so that every refusal and every order of two refusals occurs. A third of the blocks
   have samples at the ceiling, and three quarters have a noise figure. Of the short ones that are accepted the library
   is also asked with noise 0: the mesh must be that of the old rule, and where no face is parted by noise that with the
   noise figure too. Some small blocks are asked once, and rows of cubes in which every sign pattern stands at every
   place of a word.
   Assumes nothing more than compare.h. */
#include "compare.h"

#include "bench_cubes.h"
#include "crash.h"

#include <stdio.h>
#include <stdlib.h>
#include <string.h>

enum { MOST_SAMPLES = 300000, PRINTED_SAMPLES = 128, SCANNED_SAMPLES = 1000, WORD_SAMPLES = 64 };
enum { SIGN_PATTERNS = 256, COLUMNS = 256, COLUMN_PATTERNS = 16, COLUMN_SAMPLES = 4 };
enum { REFUSALS = 5, COUNT_REFUSALS = 3, LAST_REFUSAL = 6 };

/* The refusals of a mesh; those of the counts stand first. Number 4 is given by nothing. */
static const unsigned refusals[REFUSALS] = {1, 2, 3, 5, 6};

struct call {
    const char *name; /* of its kind, or its own */
    enum kind kind;
    uint32_t length[3];
    uint16_t t;
    uint32_t noise;
    size_t samples_len, words_len, offsets_len, quads_len, answer_len, counted_len;
    struct lying lying;
    unsigned faults; /* bit n: refusal n is due, were it not for lower ones */
};

static struct lent samples_place = LENT("samples", sizeof(uint16_t), 0, byte_pattern);
static struct lent words_place = LENT("words", sizeof(uint32_t), 0, byte_pattern);
static struct lent offsets_place = LENT("offsets", sizeof(double), 0, offset_pattern);
static struct lent quads_place = LENT("quads", sizeof(uint32_t), 0, byte_pattern);
static struct lent answer_place = LENT("answer of the mesh", sizeof(uint32_t), ANSWER, byte_pattern);
static struct lent counted_place = LENT("answer of the counts", sizeof(uint32_t), ANSWER, byte_pattern);
static struct lent plain_words = LENT("words of plain", sizeof(uint32_t), 0, byte_pattern);
static struct lent plain_offsets = LENT("offsets of plain", sizeof(double), 0, offset_pattern);
static struct lent plain_quads = LENT("quads of plain", sizeof(uint32_t), 0, byte_pattern);
static struct lent old_words = LENT("words with noise 0", sizeof(uint32_t), 0, byte_pattern);
static struct lent old_offsets = LENT("offsets with noise 0", sizeof(double), 0, offset_pattern);
static struct lent old_quads = LENT("quads with noise 0", sizeof(uint32_t), 0, byte_pattern);
static struct lent old_answer_place = LENT("answer with noise 0", sizeof(uint32_t), ANSWER, byte_pattern);

/* What plain answers; of the samples as they are lent, how many are at the ceiling and which is the first. */
static uint32_t answer[ANSWER], counted[ANSWER], ceilings[ANSWER];

/* The block before anything is made wrong about it, and its counts. */
static uint16_t good[MOST_SAMPLES];
static uint32_t good_counted[ANSWER];

static int due(const struct call *call, unsigned refusal)
{
    return call->faults >> refusal & 1;
}

/* ---- choosing a call ---- */

static unsigned choose_faults(struct chance *chance)
{
    unsigned how = (unsigned)chance_below(chance, 100), faults = 0, wanted;
    wanted = how < 50 ? 0 : how < 65 ? 1 : how < 95 ? 2 : 3 + (unsigned)chance_below(chance, REFUSALS - 2);
    while (wanted > 0) {
        unsigned bit = 1u << refusals[chance_below(chance, REFUSALS)];
        if (!(faults & bit)) {
            faults |= bit;
            wanted--;
        }
    }
    return faults;
}

static void choose_rooms(struct chance *chance, struct call *call, size_t vertices, size_t quads)
{
    uint64_t which = chance_below(chance, 3);
    call->words_len = choose_room(chance, 2 * vertices, due(call, 5) && which != 0);
    call->offsets_len = choose_room(chance, 3 * vertices, due(call, 5) && which != 1);
    call->quads_len = choose_room(chance, 4 * quads, due(call, 6));
    call->answer_len = choose_reach(chance, ANSWER);
    call->counted_len = choose_reach(chance, ANSWER);
    call->lying = choose_lying(chance);
}

/* One to three bad axes. Without a bad sample count only such that the samples can be lent. */
static void spoil_axes(struct chance *chance, struct call *call)
{
    static const uint32_t bad[] = {0, 1, 257, UINT32_MAX, 65536, UINT32_C(1) << 31, 258, 512};
    size_t choices = due(call, 2) ? sizeof bad / sizeof *bad : 3;
    uint64_t axis = chance_below(chance, 3);
    do {
        call->length[axis] = bad[chance_below(chance, choices)];
        axis = chance_below(chance, 3);
    } while (chance_in_100(chance, 30));
    if (sample_product(call->length) > MOST_SAMPLES)
        call->faults |= 1u << 2;
}

static void choose_sample_count(struct chance *chance, struct call *call, size_t good_count)
{
    uint64_t wanted = sample_product(call->length), how = chance_below(chance, 10);
    if (!due(call, 2)) {
        call->samples_len = (size_t)wanted;
        return;
    }
    call->samples_len = good_count;
    if (wanted <= MOST_SAMPLES && how < 4)
        call->samples_len = (size_t)wanted + 1;
    else if (wanted <= MOST_SAMPLES && wanted > 0 && how < 8)
        call->samples_len = (size_t)wanted - 1;
    else if (wanted <= MOST_SAMPLES)
        call->samples_len = (size_t)chance_below(chance, 2 * wanted + 2);
    if (call->samples_len == wanted)
        call->samples_len++;
}

/* Lends the samples. Half of the margins are at the ceiling, so that a reading there changes the answer. */
static void lend_samples(struct chance *chance, const struct call *call, size_t good_count)
{
    uint16_t *samples;
    samples_place.pattern = chance_in_100(chance, 50) ? ceiling_pattern : byte_pattern;
    lend(&samples_place, call->samples_len, call->lying);
    samples = start(&samples_place);
    for (size_t index = 0; index < call->samples_len; index++)
        samples[index] = index < good_count ? good[index] : (uint16_t)chance_below(chance, CEILING);
}

/* A good block, of which a third gets samples at the ceiling. Where a room is to be short it is of a kind that has a
   mesh; a block of bench cubes is often a single one, and often at their threshold. */
static void choose_good(struct chance *chance, struct call *call)
{
    static const enum kind lively[] = {UNIFORM_NOISE, NEAR_THRESHOLD,     EQUAL_PRODUCTS, LARGE_PRODUCTS,
                                       CHECKERBOARD,  ROUGH_CHECKERBOARD, TILED};
    int room_short = due(call, 5) || due(call, 6);
    call->kind = room_short ? lively[chance_below(chance, sizeof lively / sizeof *lively)]
                            : (enum kind)chance_below(chance, KINDS);
    call->name = kind_names[call->kind];
    choose_size(chance, room_short, call->length);
    call->t = choose_threshold(chance);
    if (call->kind == TILED && chance_in_100(chance, 60))
        call->t = BENCH_THRESHOLD;
    if (call->kind == TILED && !room_short && chance_in_100(chance, 40))
        call->length[0] = call->length[1] = call->length[2] = 2;
    fill_block(chance, call->kind, call->length, call->t, good);
    if (chance_below(chance, 3) == 0)
        add_ceilings(chance, call->length, call->t, good);
    call->noise = choose_noise(chance, call->length, call->t, good);
}

/* A good block first, whose mesh says which rooms are short; then the faults. */
static struct call choose_call(struct trial *trial)
{
    struct chance *chance = &trial->chance;
    struct call call;
    size_t good_count;
    memset(&call, 0, sizeof call);
    call.faults = choose_faults(chance);
    choose_good(chance, &call);
    memcpy(trial->length, call.length, sizeof trial->length);
    trial->t = call.t;
    trial->samples = good;
    good_count = (size_t)sample_product(call.length);
    plain_counts(call.length[0], call.length[1], call.length[2], good, good_count, call.t, call.noise, good_counted,
                 ANSWER);
    if (good_counted[1] == 0)
        call.faults &= ~(1u << 5);
    if (good_counted[2] == 0)
        call.faults &= ~(1u << 6);
    choose_rooms(chance, &call, good_counted[1], good_counted[2]);
    if (due(&call, 1))
        spoil_axes(chance, &call);
    choose_sample_count(chance, &call, good_count);
    if (due(&call, 3))
        call.t = chance_in_100(chance, 50) ? 0 : CEILING;
    lend_samples(chance, &call, good_count);
    return call;
}

/* ---- what occurred ---- */

static struct {
    uint64_t answers[LAST_REFUSAL + 1], counts[LAST_REFUSAL + 1], kinds[KINDS];
    uint64_t orders[LAST_REFUSAL + 1][LAST_REFUSAL + 1];
    uint64_t vertices, quads, samples, bad_axis[3];
    uint64_t no_vertex, no_quad, some_quads, below, at, above, one_wide, wider, zero, top, lowest, highest;
    uint64_t long_row, longest[3];
    uint64_t marked, none_marked, some_marked, all_marked, no_surface, ceiling_first, ceiling_last, ceiling_everywhere;
    uint64_t ceiling_refused[LAST_REFUSAL + 1];
    uint64_t words_alone, offsets_alone, both_short, rooms_exact, rooms_longer;
    uint64_t bench_alone[BENCH_CUBES], bench_within[BENCH_CUBES];
    uint64_t patterns[SIGN_PATTERNS][WORD_SAMPLES];
    struct noise_tally noise;
    uint64_t refused_noise[LAST_REFUSAL + 1], old_rule, old_doubtful, not_doubtful;
    uint64_t changed, more_vertices, fewer_vertices, as_many, not_changed;
} tally;

static size_t index_of(const uint32_t length[3], size_t i, size_t j, size_t k)
{
    return i + length[0] * (j + length[1] * k);
}

/* An accepted block with a ceiling: how many of its vertices carry the mark? */
static void count_ceilings(const struct call *call, size_t vertices)
{
    const uint16_t *samples = start(&samples_place);
    const uint32_t *words = start(&plain_words);
    size_t marked = 0;
    for (size_t vertex = 0; vertex < vertices; vertex++)
        marked += words[2 * vertex + 1] >= MARK;
    tally.marked += marked > 0;
    tally.none_marked += marked == 0;
    tally.some_marked += marked > 0 && marked < vertices;
    tally.all_marked += vertices > 0 && marked == vertices;
    tally.no_surface += vertices == 0;
    tally.ceiling_first += samples[0] == CEILING;
    tally.ceiling_last += samples[call->samples_len - 1] == CEILING;
    tally.ceiling_everywhere += ceilings[1] == call->samples_len;
}

/* The paper's cubes as they stand there, each as a block of its own or within a larger one. */
static void count_bench_cubes(const uint32_t length[3], const uint16_t *samples)
{
    uint64_t *found = sample_product(length) == 8 ? tally.bench_alone : tally.bench_within;
    for (size_t k = 0; k + 1 < length[2]; k++)
        for (size_t j = 0; j + 1 < length[1]; j++)
            for (size_t i = 0; i + 1 < length[0]; i++) {
                uint16_t corner[8];
                for (size_t n = 0; n < 8; n++)
                    corner[n] = samples[index_of(length, i + (n & 1), j + (n >> 1 & 1), k + (n >> 2 & 1))];
                for (unsigned cube = 0; cube < BENCH_CUBES; cube++)
                    found[cube] += memcmp(corner, bench_cubes[cube].corners, sizeof corner) == 0;
            }
}

/* A pore or grain of one sample is one that differs from all others in sign. */
static void count_signs(const struct call *call, const uint16_t *samples)
{
    size_t metal = 0, below = 0, at = 0, above = 0;
    for (size_t index = 0; index < call->samples_len; index++) {
        metal += samples[index] >= call->t;
        below += (uint32_t)samples[index] + 1 == call->t;
        at += samples[index] == call->t;
        above += samples[index] == (uint32_t)call->t + 1;
    }
    tally.below += below > 0;
    tally.at += at > 0;
    tally.above += above > 0;
    if (call->kind == SINGLE_PORE) {
        int one = metal == 1 || metal + 1 == call->samples_len;
        tally.one_wide += one;
        tally.wider += !one;
    }
}

static void count_accepted(const struct call *call)
{
    size_t vertices = answer[1], quads = answer[2];
    tally.vertices += vertices;
    tally.quads += quads;
    tally.no_vertex += vertices == 0;
    tally.no_quad += vertices > 0 && quads == 0;
    tally.some_quads += quads > 0;
    tally.long_row += quads > 0 && call->length[0] > WORD_SAMPLES;
    for (unsigned axis = 0; axis < 3; axis++)
        tally.longest[axis] += quads > 0 && call->length[axis] == LONGEST_AXIS;
    tally.lowest += call->t == 1;
    tally.highest += call->t == HIGHEST;
    count_figure(&tally.noise, call->noise);
    tally.rooms_exact += quads > 0 && call->words_len == 2 * vertices && call->offsets_len == 3 * vertices &&
                         call->quads_len == 4 * quads;
    tally.rooms_longer += quads > 0 && call->words_len > 2 * vertices && call->offsets_len > 3 * vertices &&
                          call->quads_len > 4 * quads;
    if (ceilings[1] > 0)
        count_ceilings(call, vertices);
    if (call->samples_len <= SCANNED_SAMPLES) {
        count_signs(call, start(&samples_place));
        if (call->kind == TILED && call->t == BENCH_THRESHOLD)
            count_bench_cubes(call->length, start(&samples_place));
    }
}

static void count_refused(const struct call *call)
{
    int words_short = call->words_len < 2 * (size_t)answer[1];
    int offsets_short = call->offsets_len < 3 * (size_t)answer[1];
    if (answer[0] == 1)
        tally.bad_axis[answer[1]]++;
    tally.ceiling_refused[answer[0]] += ceilings[1] > 0;
    tally.refused_noise[answer[0]] += call->noise > 0;
    tally.zero += answer[0] == 3 && answer[1] == 0;
    tally.top += answer[0] == 3 && answer[1] == CEILING;
    tally.words_alone += answer[0] == 5 && words_short && !offsets_short;
    tally.offsets_alone += answer[0] == 5 && !words_short && offsets_short;
    tally.both_short += answer[0] == 5 && words_short && offsets_short;
    for (unsigned later = answer[0] + 1; later <= LAST_REFUSAL; later++)
        if (due(call, answer[0]) && due(call, later))
            tally.orders[answer[0]][later]++;
}

static void count_call(const struct call *call)
{
    tally.answers[answer[0]]++;
    tally.counts[counted[0]]++;
    tally.kinds[call->kind]++;
    tally.samples += call->samples_len;
    if (answer[0] == 0)
        count_accepted(call);
    else
        count_refused(call);
}

/* ---- telling a difference ---- */

static void print_call(const struct call *call)
{
    const uint16_t *samples = start(&samples_place);
    printf("  %s; axes %lu, %lu, %lu; t %u; noise %lu\n", call->name, (unsigned long)call->length[0],
           (unsigned long)call->length[1], (unsigned long)call->length[2], (unsigned)call->t,
           (unsigned long)call->noise);
    printf("  lengths: samples %zu, words %zu, offsets %zu, quads %zu, answers %zu and %zu\n", call->samples_len,
           call->words_len, call->offsets_len, call->quads_len, call->counted_len, call->answer_len);
    printf("  plain: counts %lu, %lu, %lu, mesh %lu, %lu, %lu\n", (unsigned long)counted[0], (unsigned long)counted[1],
           (unsigned long)counted[2], (unsigned long)answer[0], (unsigned long)answer[1], (unsigned long)answer[2]);
    if (call->samples_len <= PRINTED_SAMPLES) {
        printf("  samples:");
        for (size_t index = 0; index < call->samples_len; index++)
            printf(" %u", (unsigned)samples[index]);
        printf("\n");
    }
}

/* ---- running ---- */

/* Plain's own buffers are of the same lengths, since they decide about refusals. Its counts of a good block are
   known. */
static void run_plain(const struct call *c)
{
    struct lying lying = {PATTERNS, 0};
    int spoilt = due(c, 1) || due(c, 2) || due(c, 3);
    lend(&plain_words, c->words_len, lying);
    lend(&plain_offsets, c->offsets_len, lying);
    lend(&plain_quads, c->quads_len, lying);
    asking("plain_ceilings, plain_counts and plain_mesh");
    plain_ceilings(start(&samples_place), c->samples_len, ceilings, ANSWER);
    memcpy(counted, good_counted, sizeof counted);
    if (spoilt)
        plain_counts(c->length[0], c->length[1], c->length[2], start(&samples_place), c->samples_len, c->t, c->noise,
                     counted, ANSWER);
    plain_mesh(c->length[0], c->length[1], c->length[2], start(&samples_place), c->samples_len, c->t, c->noise,
               start(&plain_words), c->words_len, start(&plain_offsets), c->offsets_len, start(&plain_quads),
               c->quads_len, answer, ANSWER);
}

static void run_counts(const struct call *c)
{
    struct wanted wanted[] = {{&counted_place, counted, ANSWER}};
    lend(&counted_place, c->counted_len, c->lying);
    hand_out_to_read(&samples_place);
    hand_out_all(COUNTS, c->lying, wanted, 1);
    parsniprow_counts(c->length[0], c->length[1], c->length[2], start(&samples_place), c->samples_len, c->t, c->noise,
                      start(&counted_place), c->counted_len);
    take_back_read(&samples_place);
    if (first_to_differ(COUNTS, wanted, 1))
        print_call(c);
}

static void run_mesh(const struct call *c, size_t vertices, size_t quads)
{
    struct wanted wanted[] = {{&answer_place, answer, ANSWER},
                              {&words_place, start(&plain_words), 2 * vertices},
                              {&offsets_place, start(&plain_offsets), 3 * vertices},
                              {&quads_place, start(&plain_quads), 4 * quads}};
    lend(&words_place, c->words_len, c->lying);
    lend(&offsets_place, c->offsets_len, c->lying);
    lend(&quads_place, c->quads_len, c->lying);
    lend(&answer_place, c->answer_len, c->lying);
    hand_out_to_read(&samples_place);
    hand_out_all(MESH, c->lying, wanted, 4);
    parsniprow_mesh(c->length[0], c->length[1], c->length[2], start(&samples_place), c->samples_len, c->t, c->noise,
                    start(&words_place), c->words_len, start(&offsets_place), c->offsets_len, start(&quads_place),
                    c->quads_len, start(&answer_place), c->answer_len);
    take_back_read(&samples_place);
    if (first_to_differ(MESH, wanted, 4))
        print_call(c);
}

static void run_call(const struct call *call)
{
    size_t vertices, quads;
    run_plain(call);
    vertices = answer[0] == 0 ? answer[1] : 0;
    quads = answer[0] == 0 ? answer[2] : 0;
    if (!holds(&plain_words, start(&plain_words), 2 * vertices) ||
        !holds(&plain_offsets, start(&plain_offsets), 3 * vertices) ||
        !holds(&plain_quads, start(&plain_quads), 4 * quads))
        if (first_to_fail("plain wrote where it must keep"))
            print_call(call);
    run_counts(call);
    run_mesh(call, vertices, quads);
}

/* ---- the old rule ---- */

/* Whether the mesh with noise 0 is that of the noise figure, as plain made it. */
static int is_as_with_noise(size_t vertices, size_t quads)
{
    return vertices == answer[1] && quads == answer[2] &&
           memcmp(start(&old_words), start(&plain_words), 2 * vertices * sizeof(uint32_t)) == 0 &&
           memcmp(start(&old_offsets), start(&plain_offsets), 3 * vertices * sizeof(double)) == 0 &&
           memcmp(start(&old_quads), start(&plain_quads), 4 * quads * sizeof(uint32_t)) == 0;
}

static void count_change(const struct noise_effect *effect, uint32_t noise, size_t vertices, int is_same)
{
    count_effect(&tally.noise, effect);
    tally.old_rule++;
    tally.old_doubtful += effect->has_doubtful;
    tally.not_doubtful += noise > 0 && !effect->has_doubtful && vertices > 0;
    tally.not_changed += noise > 0 && effect->has_doubtful && is_same;
    tally.changed += !is_same;
    tally.more_vertices += answer[1] > vertices;
    tally.fewer_vertices += answer[1] < vertices;
    tally.as_many += !is_same && answer[1] == vertices;
}

/* The mesh of an accepted block with noise 0, beside the old rule's; and beside the mesh with the noise figure, which
   is the same where that parts no face. The rooms are exact by the old rule, which plain says first. */
static void try_old_rule(const struct call *c)
{
    const uint32_t *n = c->length;
    const uint16_t *samples = start(&samples_place);
    struct noise_effect effect = effect_of(n, c->t, c->noise, samples);
    uint32_t old_answer[ANSWER];
    struct lying lying = {PATTERNS, 0};
    size_t vertices, quads;
    static uint32_t words_of_old[2 * 4 * SCANNED_SAMPLES], quads_of_old[4 * 3 * SCANNED_SAMPLES];
    static double offsets_of_old[3 * 4 * SCANNED_SAMPLES];
    struct wanted wanted[] = {{&old_answer_place, old_answer, ANSWER},
                              {&old_words, words_of_old, 0},
                              {&old_offsets, offsets_of_old, 0},
                              {&old_quads, quads_of_old, 0}};
    int is_same;
    asking("plain_old_mesh");
    plain_old_mesh(n, samples, c->t, words_of_old, sizeof words_of_old / sizeof *words_of_old, offsets_of_old,
                   sizeof offsets_of_old / sizeof *offsets_of_old, quads_of_old,
                   sizeof quads_of_old / sizeof *quads_of_old, old_answer);
    vertices = old_answer[1];
    quads = old_answer[2];
    wanted[1].count = 2 * vertices;
    wanted[2].count = 3 * vertices;
    wanted[3].count = 4 * quads;
    lend(&old_answer_place, ANSWER, lying);
    lend(&old_words, 2 * vertices, lying);
    lend(&old_offsets, 3 * vertices, lying);
    lend(&old_quads, 4 * quads, lying);
    hand_out_to_read(&samples_place);
    hand_out_all(MESH, lying, wanted, 4);
    parsniprow_mesh(n[0], n[1], n[2], samples, c->samples_len, c->t, 0, start(&old_words), 2 * vertices,
                    start(&old_offsets), 3 * vertices, start(&old_quads), 4 * quads, start(&old_answer_place), ANSWER);
    take_back_read(&samples_place);
    if (first_to_differ(MESH, wanted, 4)) {
        printf("  the mesh with noise 0, beside that of the old rule; else\n");
        print_call(c);
    }
    is_same = is_as_with_noise(vertices, quads);
    if (effect.parted == 0 && !is_same &&
        first_to_fail("a noise figure changes a mesh whose faces it does not part"))
        print_call(c);
    count_change(&effect, c->noise, vertices, is_same);
}

void try_block(struct trial *trial)
{
    struct call call = choose_call(trial);
    run_call(&call);
    count_call(&call);
    if (answer[0] != 0)
        return;
    if (call.samples_len <= SCANNED_SAMPLES)
        try_old_rule(&call);
    trial->words = start(&plain_words);
    trial->offsets = start(&plain_offsets);
    trial->quads = start(&plain_quads);
    trial->vertex_count = answer[1];
    trial->quad_count = answer[2];
}

/* ---- what is asked once ---- */

/* Blocks of 3 samples an axis, all alike but for one or two of the 27. */
static const struct fixed {
    const char *name;
    uint16_t t, others, sample[2];
    size_t at[2];
} fixed_blocks[] = {
    {"the paper's block", 100, 0, {400, 400}, {13, 13}},
    {"with its last sample at the ceiling", 100, 0, {400, CEILING}, {13, 26}},
    {"with its first sample at the ceiling", 100, 0, {400, CEILING}, {13, 0}},
    {"with its middle at the ceiling", 100, 0, {CEILING, CEILING}, {13, 13}},
    {"a ceiling beside the middle", 100, 0, {400, CEILING}, {13, 14}},
    {"a ceiling deep in metal", 100, 200, {CEILING, CEILING}, {13, 13}},
    {"a ceiling at a corner in metal", 100, 200, {CEILING, CEILING}, {26, 26}},
    {"a ceiling beside a pore", 100, 200, {0, CEILING}, {13, 14}},
    {"a pore in ceilings", 100, CEILING, {0, 0}, {13, 13}},
    {"nothing but ceilings", 100, CEILING, {CEILING, CEILING}, {13, 13}},
    {"65535 among 65533, t = 65534", HIGHEST, 65533, {CEILING, CEILING}, {13, 13}},
    {"65533 among 65535, t = 65534", HIGHEST, CEILING, {65533, 65533}, {13, 13}},
    {"a ceiling and t = 0", 0, 0, {400, CEILING}, {13, 26}},
    {"a ceiling and t = 65535", CEILING, 0, {400, CEILING}, {13, 26}},
};

enum { FIXED_BLOCKS = sizeof fixed_blocks / sizeof *fixed_blocks, FIXED_AXIS = 3, FIXED_SAMPLES = 27 };

/* The samples as they are lent, with rooms for the mesh but for so many vertices and quads. */
static void run_with_room(struct call *call, size_t less_vertices, size_t less_quads)
{
    plain_counts(call->length[0], call->length[1], call->length[2], start(&samples_place), call->samples_len, call->t,
                 call->noise, good_counted, ANSWER);
    if (good_counted[0] == 0) {
        size_t vertices = good_counted[1], quads = good_counted[2];
        call->words_len = 2 * (vertices < less_vertices ? 0 : vertices - less_vertices);
        call->offsets_len = 3 * vertices;
        call->quads_len = 4 * (quads < less_quads ? 0 : quads - less_quads);
    }
    run_call(call);
}

/* With exact rooms, with one vertex less, with one quad less. No noise figure changes one of them. */
static void try_fixed_block(const struct fixed *fixed, enum beside beside, size_t less_vertices, size_t less_quads)
{
    struct call call;
    uint16_t *samples;
    memset(&call, 0, sizeof call);
    call.name = fixed->name;
    for (unsigned axis = 0; axis < 3; axis++)
        call.length[axis] = FIXED_AXIS;
    call.t = fixed->t;
    call.noise = beside == PATTERNS ? 0 : beside == PAGE_BEHIND ? 1 : UINT32_MAX;
    call.samples_len = FIXED_SAMPLES;
    call.answer_len = call.counted_len = ANSWER;
    call.lying.beside = beside;
    lend(&samples_place, FIXED_SAMPLES, call.lying);
    samples = start(&samples_place);
    for (size_t index = 0; index < FIXED_SAMPLES; index++)
        samples[index] = fixed->others;
    for (unsigned i = 0; i < 2; i++)
        samples[fixed->at[i]] = fixed->sample[i];
    run_with_room(&call, less_vertices, less_quads);
}

/* The signs of four samples with one x, as four bits, in an order in which each of the 16 follows each of them once,
   itself too: two neighbours are the sign pattern of a cube. The first follows the last. */
static void choose_columns(unsigned columns[COLUMNS])
{
    size_t count = 0;
    for (unsigned low = 0; low < COLUMN_PATTERNS; low++) {
        columns[count++] = low;
        for (unsigned high = low + 1; high < COLUMN_PATTERNS; high++) {
            columns[count++] = low;
            columns[count++] = high;
        }
    }
}

static void count_patterns(const uint16_t *samples, uint16_t t)
{
    for (size_t x = 0; x + 1 < COLUMNS; x++) {
        unsigned pattern = 0;
        for (unsigned corner = 0; corner < 8; corner++)
            pattern |= (unsigned)(samples[x + (corner & 1) + COLUMNS * (corner >> 1)] >= t) << corner;
        tally.patterns[pattern][x % WORD_SAMPLES]++;
    }
}

/* One row of cubes with these columns of samples, begun at any of them. The samples differ, so that doubtful faces are
   decided either way, and the noise figure rises from 0 by steps. */
static void try_columns(const unsigned columns[COLUMNS], size_t first)
{
    struct call call;
    uint16_t *samples;
    memset(&call, 0, sizeof call);
    call.name = "a row of cubes of all sign patterns";
    call.length[0] = COLUMNS;
    call.length[1] = call.length[2] = 2;
    call.t = 100;
    call.noise = (uint32_t)(first / 4 * 100);
    call.samples_len = COLUMNS * COLUMN_SAMPLES;
    call.answer_len = call.counted_len = ANSWER;
    lend(&samples_place, call.samples_len, call.lying);
    samples = start(&samples_place);
    for (size_t x = 0; x < COLUMNS; x++)
        for (size_t row = 0; row < COLUMN_SAMPLES; row++) {
            int metal = columns[(first + x) % COLUMNS] >> row & 1;
            size_t sample = metal ? call.t + (7 * x + 13 * row) % 150 : (11 * x + 5 * row) % call.t;
            samples[x + COLUMNS * row] = (uint16_t)sample;
        }
    count_patterns(samples, call.t);
    run_with_room(&call, 0, 0);
}

static void try_all_columns(void)
{
    unsigned columns[COLUMNS];
    choose_columns(columns);
    for (size_t first = 0; first < COLUMNS; first++)
        try_columns(columns, first);
}

void try_fixed_blocks(void)
{
    try_all_columns();
    for (unsigned i = 0; i < FIXED_BLOCKS; i++)
        for (unsigned beside = 0; beside < BESIDES; beside++) {
            try_fixed_block(&fixed_blocks[i], (enum beside)beside, 0, 0);
            try_fixed_block(&fixed_blocks[i], (enum beside)beside, 1, 0);
            try_fixed_block(&fixed_blocks[i], (enum beside)beside, 0, 1);
        }
}

/* ---- printing ---- */

/* How often each of the first so many refusals was given. */
static void tally_given(const uint64_t *counts, unsigned number)
{
    char name[40];
    for (unsigned i = 0; i < number; i++) {
        sprintf(name, "refusal %u", refusals[i]);
        tally_case(name, counts[refusals[i]]);
    }
}

static void tally_numbers(const char *title, const uint64_t *counts, unsigned number)
{
    tally_title(title);
    tally_case("accepted", counts[0]);
    tally_given(counts, number);
}

static void tally_refusals(void)
{
    char name[40];
    tally_numbers("answers of the counts", tally.counts, COUNT_REFUSALS);
    tally_numbers("answers of the mesh", tally.answers, REFUSALS);
    for (unsigned axis = 0; axis < 3; axis++) {
        sprintf(name, "axis %c", "xyz"[axis]);
        tally_case(name, tally.bad_axis[axis]);
    }
    tally_case("t = 0", tally.zero);
    tally_case("t = 65535", tally.top);
    tally_case("words alone short", tally.words_alone);
    tally_case("offsets alone short", tally.offsets_alone);
    tally_case("both short", tally.both_short);
    tally_title("two refusals due, the lower given");
    for (unsigned i = 0; i < REFUSALS; i++)
        for (unsigned j = i + 1; j < REFUSALS; j++) {
            sprintf(name, "%u-%u", refusals[i], refusals[j]);
            tally_case(name, tally.orders[refusals[i]][refusals[j]]);
        }
}

static void tally_with_ceilings(void)
{
    tally_title("blocks with a ceiling");
    tally_case("marked", tally.marked);
    tally_case("a ceiling, none marked", tally.none_marked);
    tally_case("some vertices marked, others not", tally.some_marked);
    tally_case("every vertex marked", tally.all_marked);
    tally_case("no vertex", tally.no_surface);
    tally_case("first sample", tally.ceiling_first);
    tally_case("last sample", tally.ceiling_last);
    tally_case("every sample", tally.ceiling_everywhere);
    tally_given(tally.ceiling_refused, REFUSALS);
}

/* Each of the 256 sign patterns at each of the 64 places of a word. */
static void tally_patterns(void)
{
    char name[60];
    uint64_t found = 0;
    for (unsigned pattern = 0; pattern < SIGN_PATTERNS; pattern++)
        for (unsigned place = 0; place < WORD_SAMPLES; place++)
            found += tally.patterns[pattern][place] > 0;
    sprintf(name, "sign patterns at places of a word (%llu of 16384)", (unsigned long long)found);
    tally_case(name, found == SIGN_PATTERNS * WORD_SAMPLES ? found : 0);
}

static void tally_accepted(void)
{
    char name[40];
    tally_title("accepted blocks");
    tally_case("t = 1", tally.lowest);
    tally_case("t = 65534", tally.highest);
    tally_case("a sample at t - 1", tally.below);
    tally_case("at t", tally.at);
    tally_case("at t + 1", tally.above);
    tally_case("pore or grain of one sample", tally.one_wide);
    tally_case("of a few", tally.wider);
    tally_case("no vertices", tally.no_vertex);
    tally_case("vertices and no quads", tally.no_quad);
    tally_case("quads", tally.some_quads);
    tally_case("row of more than 64 samples", tally.long_row);
    tally_patterns();
    for (unsigned axis = 0; axis < 3; axis++) {
        sprintf(name, "axis %c of 256", "xyz"[axis]);
        tally_case(name, tally.longest[axis]);
    }
    tally_case("all rooms exact", tally.rooms_exact);
    tally_case("all rooms longer", tally.rooms_longer);
    tally_title("bench cubes as blocks");
    for (unsigned cube = 0; cube < BENCH_CUBES; cube++)
        tally_case(bench_cubes[cube].name, tally.bench_alone[cube]);
    tally_title("bench cubes within blocks");
    for (unsigned cube = 0; cube < BENCH_CUBES; cube++)
        tally_case(bench_cubes[cube].name, tally.bench_within[cube]);
}

/* The last figures are of the blocks that were asked with noise 0 too. */
static void tally_with_noise(void)
{
    tally_title("blocks with a noise figure");
    tally_noise(&tally.noise);
    tally_given(tally.refused_noise, REFUSALS);
    tally_case("held against the old rule", tally.old_rule);
    tally_case("and doubtful", tally.old_doubtful);
    tally_case("mesh changed against noise 0", tally.changed);
    tally_case("more vertices", tally.more_vertices);
    tally_case("fewer", tally.fewer_vertices);
    tally_case("as many others", tally.as_many);
    tally_case("doubtful and not changed", tally.not_changed);
    tally_case("vertices and no doubtful face", tally.not_doubtful);
}

void tally_blocks(void)
{
    tally_title("blocks");
    for (unsigned kind = 0; kind < KINDS; kind++)
        tally_case(kind_names[kind], tally.kinds[kind]);
    tally_refusals();
    tally_with_ceilings();
    tally_accepted();
    tally_with_noise();
    tally_reaches(&counted_place);
    tally_reaches(&answer_place);
    tally_title("compared of meshes");
    tally_case("vertices", tally.vertices);
    tally_case("quads", tally.quads);
    tally_case("samples", tally.samples);
}
