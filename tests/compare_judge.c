/* Compares what is said of foreign meshes with the plain implementation. With each block: the mesh that the library
   makes of it, of which it must say that it is the same; and meshes that plain makes of it, put in another order and
   changed at one place or at several, or asked about with another threshold, noise figure or sample. Where one thing
   was changed, what must be said is known from that, and plain is held against it too. One thing or several may be
   wrong about a question, so that every refusal and every order of two refusals occurs. What is asked once stands in
   compare_judge_once.c.
   Assumes nothing more than compare.h. */
#include "compare_judge.h"

#include "crash.h"

#include <stdio.h>
#include <stdlib.h>
#include <string.h>

enum { MOST_SAMPLES = 20000, LONG_BLOCK = 1500, LONG_MESH = 3000, PRINTED_SAMPLES = 128, PRINTED_VERTICES = 24 };
enum { MOST_CHANGES = 4, FACE_QUADS = 4 };

const uint32_t judge_refusals[ROWS] = {1, 2, 3, 22, 7, 14};

struct judge_once judge_once;

static struct lent samples_place = LENT("samples of the judge", sizeof(uint16_t), 0, byte_pattern);
static struct lent words_place = LENT("words of the judge", sizeof(uint32_t), 0, byte_pattern);
static struct lent offsets_place = LENT("offsets of the judge", sizeof(double), 0, offset_pattern);
static struct lent quads_place = LENT("quads of the judge", sizeof(uint32_t), 0, byte_pattern);
static struct lent answer_place = LENT("answer of the judge", sizeof(uint32_t), JUDGE_ANSWER, byte_pattern);

/* What plain answers. */
static uint32_t answer[JUDGE_ANSWER];

int judge_due(const struct judging *judging, unsigned row)
{
    return judging->faults >> row & 1;
}

static size_t smaller(size_t a, size_t b)
{
    return a < b ? a : b;
}

static size_t larger(size_t a, size_t b)
{
    return a > b ? a : b;
}

/* ---- what occurred ---- */

static struct {
    uint64_t asked, own, own_marked, own_several, own_face, changed, harmless;
    uint64_t shuffled_vertices, shuffled_quads, turned, untouched, all_three;
    uint64_t alone[CHANGES], mixed[CHANGES], bad_axes[3];
    uint64_t same, same_empty, vertex_first, vertex_later, quad_first, quad_later, missing_vertices, missing_quads;
    uint64_t vertex_before_quad, vertex_before_missing, quad_before_missing, several_vertices, several_quads;
    uint64_t other_t_same, other_t, other_noise_same, other_noise, other_sample_same, other_sample, other_mark;
    uint64_t refused[ROWS], orders[ROWS][ROWS], rest[4], t_zero, t_ceiling;
    uint64_t words_odd, offsets_odd, counts_differ, too_many, words_cut;
    uint64_t number_first, number_later, numbers_several, number_at_end, number_of_ours;
    struct block_faults block;
    struct noise_tally noise;
    uint64_t kinds[KINDS];
} tally;

static void count_numbers(const struct judging *judging)
{
    uint64_t bad = 0;
    size_t vertices = judging->words_len / 2;
    tally.number_first += answer[1] == 0;
    tally.number_later += answer[1] > 0;
    for (size_t q = 0; q < judging->foreign->quad_count; q++) {
        int is_bad = 0;
        for (size_t side = 0; side < 4; side++)
            is_bad |= judging->foreign->quads[4 * q + side] >= vertices;
        bad += (uint64_t)is_bad;
    }
    tally.numbers_several += bad > 1;
    for (size_t side = 0; side < 4 && answer[1] < judging->foreign->quad_count; side++)
        tally.number_at_end += judging->foreign->quads[4 * (size_t)answer[1] + side] == vertices;
}

static void count_lengths(const struct judging *judging)
{
    int words_odd = judging->words_len % 2 != 0, offsets_odd = judging->offsets_len % 3 != 0;
    int is_equal = judging->words_len / 2 == judging->offsets_len / 3;
    tally.words_odd += words_odd && !offsets_odd;
    tally.offsets_odd += !words_odd && offsets_odd;
    tally.counts_differ += !words_odd && !offsets_odd && !is_equal;
    tally.too_many += !words_odd && !offsets_odd && is_equal;
    tally.words_cut += judging->words_len > UINT32_MAX;
}

static void count_refused(const struct judging *judging)
{
    unsigned row = 0;
    while (row + 1 < ROWS && judge_refusals[row] != answer[0])
        row++;
    tally.refused[row]++;
    for (unsigned later = row + 1; judge_due(judging, row) && later < ROWS; later++)
        tally.orders[row][later] += judge_due(judging, later);
    count_block_fault(&tally.block, answer, judging->length, judging->samples_len);
    tally.t_zero += row == THRESHOLD && judging->t == 0;
    tally.t_ceiling += row == THRESHOLD && judging->t == CEILING;
    if (row == LENGTHS)
        count_lengths(judging);
    if (row == REST)
        tally.rest[answer[1]]++;
    if (row == NUMBER)
        count_numbers(judging);
}

static void count_judged(const struct judging *judging)
{
    tally.asked++;
    if (answer[0] != 0) {
        count_refused(judging);
        return;
    }
    count_figure(&tally.noise, judging->noise);
    tally.same += answer[1] == 1;
    tally.same_empty += answer[1] == 1 && judging->words_len == 0;
    tally.vertex_first += answer[2] == VERTEX_AT_FAULT && answer[3] == 0;
    tally.vertex_later += answer[2] == VERTEX_AT_FAULT && answer[3] > 0;
    tally.quad_first += answer[2] == QUAD_AT_FAULT && answer[3] == 0;
    tally.quad_later += answer[2] == QUAD_AT_FAULT && answer[3] > 0;
}

/* ---- asking ---- */

static void print_judging(const struct judging *j)
{
    printf("  %s; axes %lu, %lu, %lu; t %u; noise %lu\n", j->name, (unsigned long)j->length[0],
           (unsigned long)j->length[1], (unsigned long)j->length[2], j->t, (unsigned long)j->noise);
    printf("  lengths: samples %zu, words %zu, offsets %zu, quads %zu, answer %zu\n", j->samples_len, j->words_len,
           j->offsets_len, j->quads_len, j->answer_len);
    printf("  plain or known: %lu, %lu, %lu, %lu\n", (unsigned long)answer[0], (unsigned long)answer[1],
           (unsigned long)answer[2], (unsigned long)answer[3]);
    if (j->samples_there > PRINTED_SAMPLES || j->foreign->vertices > PRINTED_VERTICES)
        return;
    printf("  samples:");
    for (size_t at = 0; at < j->samples_there; at++)
        printf(" %u", j->samples[at]);
    printf("\n  words:");
    for (size_t at = 0; at < 2 * j->foreign->vertices; at++)
        printf(at % 2 == 0 ? " %lu" : ":%lX", (unsigned long)j->foreign->words[at]);
    printf("\n  quads:");
    for (size_t at = 0; at < 4 * j->foreign->quad_count; at++)
        printf("%s%lu", at % 4 == 0 ? "  " : " ", (unsigned long)j->foreign->quads[at]);
    printf("\n");
}

static void copy_into(const struct lent *lent, const void *items, size_t bytes)
{
    bytes = smaller(bytes, lent->inside);
    if (bytes > 0)
        memcpy(start(lent), items, bytes);
}

static void lend_all(const struct judging *j)
{
    lend(&samples_place, j->samples_len, j->lying);
    lend(&words_place, j->far_words ? 0 : j->words_len, j->lying);
    lend(&offsets_place, j->far_words ? 0 : j->offsets_len, j->lying);
    lend(&quads_place, j->quads_len, j->lying);
    copy_into(&samples_place, j->samples, j->samples_there * sizeof *j->samples);
    copy_into(&words_place, j->foreign->words, 2 * j->foreign->vertices * sizeof *j->foreign->words);
    copy_into(&offsets_place, j->foreign->offsets, 3 * j->foreign->vertices * sizeof *j->foreign->offsets);
    copy_into(&quads_place, j->foreign->quads, 4 * j->foreign->quad_count * sizeof *j->foreign->quads);
}

static const uint32_t *words_of(const struct judging *j)
{
    return j->far_words ? j->far_words : start(&words_place);
}

static const double *offsets_of(const struct judging *j)
{
    return j->far_words ? j->far_offsets : start(&offsets_place);
}

static void run_plain(const struct judging *j)
{
    asking("plain_judge");
    plain_judge(j->length[0], j->length[1], j->length[2], start(&samples_place), j->samples_len, j->t, j->noise,
                words_of(j), j->words_len, offsets_of(j), j->offsets_len, start(&quads_place), j->quads_len, answer,
                JUDGE_ANSWER);
}

static void run_library(const struct judging *j)
{
    struct wanted wanted[] = {{&answer_place, answer, JUDGE_ANSWER}};
    struct lent *read[] = {&samples_place, &words_place, &offsets_place, &quads_place};
    lend(&answer_place, j->answer_len, j->lying);
    for (size_t i = 0; i < ITEMS(read); i++)
        hand_out_to_read(read[i]);
    hand_out_all(JUDGE, j->lying, wanted, 1);
    parsniprow_judge(j->length[0], j->length[1], j->length[2], start(&samples_place), j->samples_len, j->t, j->noise,
                     words_of(j), j->words_len, offsets_of(j), j->offsets_len, start(&quads_place), j->quads_len,
                     start(&answer_place), j->answer_len);
    for (size_t i = 0; i < ITEMS(read); i++)
        take_back_read(read[i]);
    if (first_to_differ(JUDGE, wanted, 1))
        print_judging(j);
    count_judged(j);
}

const uint32_t *ask_judged(const struct judging *judging)
{
    lend_all(judging);
    run_plain(judging);
    run_library(judging);
    return answer;
}

void expect_judged(const struct judging *judging, const uint32_t wanted[JUDGE_ANSWER])
{
    ask_judged(judging);
    if (memcmp(answer, wanted, sizeof answer) != 0 && first_to_fail("plain does not judge as is known")) {
        print_judging(judging);
        printf("  wanted: %lu, %lu, %lu, %lu\n", (unsigned long)wanted[0], (unsigned long)wanted[1],
               (unsigned long)wanted[2], (unsigned long)wanted[3]);
    }
}

void expect_judged_by_library(const struct judging *judging, const uint32_t wanted[JUDGE_ANSWER])
{
    memcpy(answer, wanted, sizeof answer);
    lend_all(judging);
    run_library(judging);
}

struct judging good_judging(const char *name, const uint32_t length[3], const uint16_t *samples, uint16_t t,
                            uint32_t noise, const struct foreign *foreign, struct lying lying)
{
    struct judging judging;
    memset(&judging, 0, sizeof judging);
    judging.name = name;
    memcpy(judging.length, length, sizeof judging.length);
    judging.t = t;
    judging.noise = noise;
    judging.samples = samples;
    judging.foreign = foreign;
    judging.samples_there = judging.samples_len = (size_t)sample_product(length);
    judging.words_len = 2 * foreign->vertices;
    judging.offsets_len = 3 * foreign->vertices;
    judging.quads_len = 4 * foreign->quad_count;
    judging.answer_len = JUDGE_ANSWER;
    judging.lying = lying;
    return judging;
}

void give_back_judged(void)
{
    give_back(&samples_place);
    give_back(&words_place);
    give_back(&offsets_place);
    give_back(&quads_place);
}

/* ---- what is wrong about a question ---- */

static unsigned choose_faults(struct chance *chance)
{
    unsigned how = (unsigned)chance_below(chance, 100), faults = 0, wanted;
    wanted = how < 76 ? 0 : how < 84 ? 1 : how < 98 ? 2 : 3 + (unsigned)chance_below(chance, ROWS - 2);
    while (wanted > 0) {
        unsigned bit = 1u << chance_below(chance, ROWS);
        if (!(faults & bit)) {
            faults |= bit;
            wanted--;
        }
    }
    return faults;
}

/* Without a bad sample count only such axes that the samples can be lent. */
static void spoil_axes(struct chance *chance, struct judging *judging)
{
    static const uint32_t bad[] = {0, 1, 257, UINT32_MAX, 65536, UINT32_C(1) << 31, 258, 512};
    size_t choices = judge_due(judging, COUNT) ? ITEMS(bad) : 3;
    do
        judging->length[chance_below(chance, 3)] = bad[chance_below(chance, choices)];
    while (chance_in_100(chance, 30));
    if (sample_product(judging->length) > MOST_SAMPLES)
        judging->faults |= 1u << COUNT;
    else if (!judge_due(judging, COUNT))
        judging->samples_len = (size_t)sample_product(judging->length);
}

static void spoil_count(struct chance *chance, struct judging *judging)
{
    uint64_t wanted = sample_product(judging->length), how = chance_below(chance, 10);
    if (wanted <= MOST_SAMPLES && how < 4)
        judging->samples_len = (size_t)wanted + 1;
    else if (wanted <= MOST_SAMPLES && wanted > 0 && how < 8)
        judging->samples_len = (size_t)wanted - 1;
    else
        judging->samples_len = (size_t)chance_below(chance, how < 9 ? 1 : 100);
    if (judging->samples_len == wanted)
        judging->samples_len++;
}

static void spoil_lengths(struct chance *chance, struct judging *judging)
{
    switch (chance_below(chance, 6)) {
    case 0:
        judging->words_len += 1 + chance_below(chance, 5);
        break;
    case 1:
        judging->offsets_len += 1 + chance_below(chance, 7);
        break;
    case 2:
        judging->words_len -= smaller(judging->words_len, 1 + chance_below(chance, 5));
        break;
    case 3:
        judging->offsets_len -= smaller(judging->offsets_len, 1 + chance_below(chance, 7));
        break;
    case 4:
        judging->words_len += 2;
        break;
    default:
        judging->offsets_len = judging->words_len;
    }
    if (judging->words_len % 2 == 0 && judging->words_len / 2 * 3 == judging->offsets_len)
        judging->words_len++;
}

/* A mesh without quads gets one first. */
static void spoil_numbers(struct chance *chance, struct judging *judging, struct foreign *foreign)
{
    static const uint32_t zeros[4] = {0, 0, 0, 0};
    uint32_t end = (uint32_t)larger(foreign->vertices, judging->words_len / 2);
    if (foreign->quad_count == 0) {
        add_quad(foreign, zeros);
        judging->quads_len += 4;
    }
    do {
        uint32_t past = (uint32_t)chance_below(chance, UINT32_MAX - end + UINT64_C(1));
        size_t at = 4 * choose_one(chance, foreign->quad_count) + (size_t)chance_below(chance, 4);
        foreign->quads[at] = chance_in_100(chance, 40) ? end : chance_in_100(chance, 20) ? UINT32_MAX : end + past;
    } while (chance_in_100(chance, 40));
}

static void spoil(struct chance *chance, struct judging *judging, struct foreign *foreign)
{
    if (judge_due(judging, AXIS))
        spoil_axes(chance, judging);
    if (judge_due(judging, COUNT))
        spoil_count(chance, judging);
    if (judge_due(judging, THRESHOLD))
        judging->t = chance_in_100(chance, 50) ? 0 : CEILING;
    if (judge_due(judging, LENGTHS))
        spoil_lengths(chance, judging);
    if (judge_due(judging, NUMBER))
        spoil_numbers(chance, judging, foreign);
    if (judge_due(judging, REST))
        judging->quads_len += 1 + chance_below(chance, 3);
}

/* ---- questions with a block ---- */

/* A good block, its mesh as plain makes it, and the mesh that is asked about. */
static struct {
    uint32_t length[3], noise;
    uint16_t t, samples[MOST_SAMPLES];
    size_t count;
    enum kind kind;
} good;
static struct foreign made, given;

/* Mostly with inner edges, since others have no quads. */
static void choose_good(struct chance *chance)
{
    choose_size(chance, chance_in_100(chance, 85), good.length);
    good.count = (size_t)sample_product(good.length);
    if (good.count > MOST_SAMPLES) {
        fprintf(stderr, "compare: a block of %zu samples to be judged\n", good.count);
        exit(2);
    }
    good.t = choose_threshold(chance);
    good.kind = (enum kind)chance_below(chance, KINDS);
    fill_block(chance, good.kind, good.length, good.t, good.samples);
    if (chance_below(chance, 3) == 0)
        add_ceilings(chance, good.length, good.t, good.samples);
    good.noise = choose_noise(chance, good.length, good.t, good.samples);
    tally.kinds[good.kind]++;
}

/* Whether two vertices are in four quads together: they lie on both sides of a doubtful face. */
static int has_joined_face(const struct foreign *foreign)
{
    for (size_t q = 0; q < foreign->quad_count; q++) {
        const uint32_t *quad = foreign->quads + 4 * q;
        unsigned together = 0;
        for (size_t other = 0; other < foreign->quad_count; other++)
            together += names_vertex(foreign, other, quad[0]) && names_vertex(foreign, other, quad[1]);
        if (together >= FACE_QUADS)
            return 1;
    }
    return 0;
}

/* What the library writes is the same, whatever plain says of it. */
static void try_own(struct chance *chance)
{
    static const uint32_t same[JUDGE_ANSWER] = {0, 1, SAME_MESH, 0};
    struct judging judging;
    asking("parsniprow_mesh");
    make_foreign(&given, parsniprow_mesh, good.length, good.samples, good.t, good.noise);
    judging = good_judging("what the library writes", good.length, good.samples, good.t, good.noise, &given,
                           choose_lying(chance));
    expect_judged_by_library(&judging, same);
    tally.own++;
    for (size_t v = 0; v < given.vertices; v++)
        if (given.words[2 * v + 1] & MARK) {
            tally.own_marked++;
            break;
        }
    for (size_t v = 1; v < given.vertices; v++)
        if (given.words[2 * v] == given.words[2 * v - 2]) {
            tally.own_several++;
            break;
        }
    if (given.quad_count <= LONG_BLOCK / 4)
        tally.own_face += has_joined_face(&given);
}

/* Another order of the same mesh. */
static void put_in_disorder(struct chance *chance)
{
    int are_vertices = chance_in_100(chance, 50), are_quads = chance_in_100(chance, 50);
    int are_turned = chance_in_100(chance, 50);
    if (are_vertices)
        shuffle_vertices(chance, &given);
    if (are_quads)
        shuffle_quads(chance, &given);
    if (are_turned)
        turn_quads(chance, &given);
    tally.shuffled_vertices += are_vertices && given.vertices > 1;
    tally.shuffled_quads += are_quads && given.quad_count > 1;
    tally.turned += are_turned && given.quad_count > 0;
    tally.all_three += are_vertices && are_quads && are_turned && given.quad_count > 1;
    tally.untouched += !are_vertices && !are_quads && !are_turned;
}

/* How many changes of each kind were made. */
struct made_changes {
    unsigned number, about[WHAT_IS_MISSING + 1];
    size_t last;
};

static struct made_changes change_given(struct chance *chance, struct making *making)
{
    uint64_t how = chance_below(chance, 100);
    unsigned wanted = how < 12 ? 0 : how < 65 ? 1 : 2 + (unsigned)chance_below(chance, MOST_CHANGES - 1);
    struct made_changes made_changes = {0, {0}, 0};
    for (unsigned tries = 0; tries < 3 * wanted && made_changes.number < wanted; tries++) {
        size_t which = (size_t)chance_below(chance, CHANGES);
        if (!changes[which].make(making))
            continue;
        made_changes.number++;
        made_changes.about[changes[which].about]++;
        made_changes.last = which;
        tally.mixed[which] += wanted > 1;
    }
    for (unsigned axis = 0; axis < 3; axis++)
        tally.bad_axes[axis] += making->bad_axes >> axis & 1;
    return made_changes;
}

static void count_changes(const struct made_changes *m)
{
    unsigned vertex = m->about[A_VERTEX], quad = m->about[A_QUAD], missing = m->about[WHAT_IS_MISSING];
    if (answer[0] != 0)
        return;
    tally.harmless += m->number == m->about[NOTHING];
    if (m->number == 1)
        tally.alone[m->last]++;
    tally.vertex_before_quad += vertex > 0 && quad > 0 && answer[2] == VERTEX_AT_FAULT;
    tally.vertex_before_missing += vertex > 0 && missing > 0 && answer[2] == VERTEX_AT_FAULT;
    tally.quad_before_missing += vertex == 0 && quad > 0 && missing > 0 && answer[2] == QUAD_AT_FAULT;
    tally.several_vertices += vertex > 1 && answer[2] == VERTEX_AT_FAULT;
    tally.several_quads += vertex == 0 && quad > 1 && answer[2] == QUAD_AT_FAULT;
    if (answer[2] == SOME_MISSING) {
        tally.missing_vertices += given.vertices < made.vertices;
        tally.missing_quads += given.vertices == made.vertices;
    }
}

/* Whether a quad names a vertex that is not there, with a number that a vertex of ours has. */
static int names_one_of_ours(size_t q)
{
    for (size_t side = 0; side < 4; side++)
        if (given.quads[4 * q + side] >= given.vertices && given.quads[4 * q + side] < made.vertices)
            return 1;
    return 0;
}

static void try_changed(struct chance *chance)
{
    struct origin origin = {{good.length[0], good.length[1], good.length[2]}, good.t, good.samples};
    struct making making = {chance, &given, &origin, SAME_MESH, 0, 0};
    struct made_changes made_changes;
    struct judging judging;
    copy_foreign(&given, &made);
    put_in_disorder(chance);
    made_changes = change_given(chance, &making);
    judging = good_judging(kind_names[good.kind], good.length, good.samples, good.t, good.noise, &given,
                           choose_lying(chance));
    judging.faults = choose_faults(chance);
    judging.answer_len = choose_reach(chance, JUDGE_ANSWER);
    tally.changed++;
    if (judging.faults != 0) {
        spoil(chance, &judging, &given);
        ask_judged(&judging);
        tally.number_of_ours += answer[0] == judge_refusals[NUMBER] && names_one_of_ours((size_t)answer[1]);
    } else if (made_changes.number > 1 || making.fault == NOT_KNOWN) {
        ask_judged(&judging);
    } else {
        uint32_t wanted[JUDGE_ANSWER];
        wanted[0] = 0;
        wanted[1] = making.fault == SAME_MESH;
        wanted[2] = making.fault;
        wanted[3] = (uint32_t)making.at;
        expect_judged(&judging, wanted);
    }
    count_changes(&made_changes);
}

/* ---- another question than the mesh was made for ---- */

static uint16_t other_threshold(struct chance *chance)
{
    uint64_t how = chance_below(chance, 3);
    uint16_t t = how == 0 ? (uint16_t)(good.t - 1) : how == 1 ? (uint16_t)(good.t + 1) : choose_threshold(chance);
    return t == 0 || t == CEILING || t == good.t ? (uint16_t)(good.t == 1 ? 2 : good.t - 1) : t;
}

/* The mesh is good, but the question is asked with another threshold, noise figure or sample. */
static void try_another(struct chance *chance)
{
    uint64_t which = chance_below(chance, 3);
    size_t index = choose_one(chance, good.count);
    uint16_t sample = good.samples[index], t = good.t;
    uint32_t noise = good.noise;
    struct judging judging;
    copy_foreign(&given, &made);
    put_in_disorder(chance);
    if (which == 0)
        t = other_threshold(chance);
    else if (which == 1)
        noise = chance_in_100(chance, 50) ? noise + 1 : choose_noise(chance, good.length, good.t, good.samples);
    else
        good.samples[index] = chance_in_100(chance, 50) ? CEILING : choose_grey(chance, good.t);
    judging = good_judging("another question than the mesh was made for", good.length, good.samples, t, noise, &given,
                           choose_lying(chance));
    ask_judged(&judging);
    tally.other_t_same += which == 0 && answer[1] == 1 && given.vertices > 0;
    tally.other_t += which == 0 && answer[1] == 0;
    tally.other_noise_same += which == 1 && noise != good.noise && answer[1] == 1 && given.vertices > 0;
    tally.other_noise += which == 1 && answer[1] == 0;
    tally.other_sample_same += which == 2 && good.samples[index] != sample && answer[1] == 1 && given.vertices > 0;
    tally.other_sample += which == 2 && answer[1] == 0;
    tally.other_mark +=
        which == 2 && good.samples[index] == CEILING && sample != CEILING && sample >= t && answer[1] == 0;
    good.samples[index] = sample;
}

/* Long blocks are asked about once. */
void try_judged(struct trial *trial)
{
    struct chance *chance = &trial->chance;
    unsigned times;
    choose_good(chance);
    asking("plain_mesh");
    make_foreign(&made, plain_mesh, good.length, good.samples, good.t, good.noise);
    try_own(chance);
    for (times = good.count > LONG_BLOCK ? 1 : 2; times > 0; times--)
        try_changed(chance);
    try_another(chance);
    if (made.vertices > LONG_MESH)
        give_back_judged();
}

/* ---- printing ---- */

static void tally_refusals(void)
{
    char name[60];
    tally_title("refused judgements");
    for (unsigned row = 0; row < ROWS; row++) {
        sprintf(name, "refusal %lu", (unsigned long)judge_refusals[row]);
        tally_case(name, tally.refused[row]);
    }
    for (unsigned row = 0; row < ROWS; row++)
        for (unsigned later = row + 1; later < ROWS; later++) {
            sprintf(name, "%lu before %lu", (unsigned long)judge_refusals[row], (unsigned long)judge_refusals[later]);
            tally_case(name, tally.orders[row][later]);
        }
    tally_block_faults(&tally.block);
    tally_case("t = 0", tally.t_zero);
    tally_case("t = 65535", tally.t_ceiling);
    tally_case("half a vertex in words", tally.words_odd);
    tally_case("a part of one in offsets", tally.offsets_odd);
    tally_case("counts that differ", tally.counts_differ);
    tally_case("too many vertices", tally.too_many);
    tally_case("more words than 32 bits can say", tally.words_cut);
    for (unsigned rest = 1; rest < 4; rest++) {
        sprintf(name, "7, value %u", rest);
        tally_case(name, tally.rest[rest]);
    }
    tally_case("14 at quad 0", tally.number_first);
    tally_case("at a later quad", tally.number_later);
    tally_case("at several", tally.numbers_several);
    tally_case("by the number of vertices itself", tally.number_at_end);
    tally_case("in a mesh with fewer vertices than ours", tally.number_of_ours);
}

static void tally_answers(void)
{
    tally_title("answers of the judge");
    tally_case("same", tally.same);
    tally_case("same, without a vertex", tally.same_empty);
    tally_case("vertex 0", tally.vertex_first);
    tally_case("a later vertex", tally.vertex_later);
    tally_case("quad 0", tally.quad_first);
    tally_case("a later quad", tally.quad_later);
    tally_case("vertices missing", tally.missing_vertices);
    tally_case("only quads missing", tally.missing_quads);
    tally_case("a vertex, with a change to a quad", tally.vertex_before_quad);
    tally_case("a vertex, with some left out", tally.vertex_before_missing);
    tally_case("a quad, with some left out", tally.quad_before_missing);
    tally_case("one of several vertices", tally.several_vertices);
    tally_case("one of several quads", tally.several_quads);
    tally_title("asked about with another");
    tally_case("threshold, same", tally.other_t_same);
    tally_case("not the same", tally.other_t);
    tally_case("noise figure, same", tally.other_noise_same);
    tally_case("not the same", tally.other_noise);
    tally_case("sample, same", tally.other_sample_same);
    tally_case("not the same", tally.other_sample);
    tally_case("metal become a ceiling, so that the mark alone differs", tally.other_mark);
}

static void tally_changes(void)
{
    char name[32];
    tally_title("order of foreign meshes");
    tally_case("vertices shuffled", tally.shuffled_vertices);
    tally_case("quads shuffled", tally.shuffled_quads);
    tally_case("quads turned", tally.turned);
    tally_case("all three", tally.all_three);
    tally_case("none", tally.untouched);
    tally_case("nothing made bad", tally.harmless);
    tally_title("changed alone");
    for (unsigned i = 0; i < CHANGES; i++)
        tally_case(changes[i].name, tally.alone[i]);
    tally_title("changed with others");
    for (unsigned i = 0; i < CHANGES; i++)
        tally_case(changes[i].name, tally.mixed[i]);
    for (unsigned axis = 0; axis < 3; axis++) {
        sprintf(name, "a bad offset along %c", "xyz"[axis]);
        tally_case(name, tally.bad_axes[axis]);
    }
}

uint64_t tally_judged(void)
{
    tally_title("foreign meshes");
    for (unsigned kind = 0; kind < KINDS; kind++)
        tally_case(kind_names[kind], tally.kinds[kind]);
    tally_case("as the library writes them", tally.own);
    tally_case("with marks", tally.own_marked);
    tally_case("with several vertices in a cube", tally.own_several);
    tally_case("with two vertices in four quads", tally.own_face);
    tally_case("as plain writes them", tally.changed);
    tally_changes();
    tally_answers();
    tally_refusals();
    tally_title("noise figures of the judge");
    tally_case("0", tally.noise.none);
    tally_case("above", tally.noise.some);
    tally_title("judged once");
    tally_case("by hand", judge_once.by_hand);
    tally_case("vertices at the borders of ranges", judge_once.vertex_borders);
    tally_case("quads at the borders", judge_once.quad_borders);
    tally_case("lists over several ranges", judge_once.several_ranges);
    tally_case("a repeat in a later range that stands first", judge_once.later_range_first);
    tally_case("one among vertices of another range", judge_once.among_far);
    tally_case("in a block of 256 samples an axis", judge_once.largest);
    tally_reaches(&answer_place);
    return tally.asked;
}
