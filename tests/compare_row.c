/* Compares the counts of blocks by rows of thresholds with the plain implementation. Once: rows that were worked out by
   hand; columns, bars and boards of many layers, whose counts a formula gives; and more thresholds than any memory has.
   With each block: a row for its own samples; now and then a row for a block of many layers, since the library may take
   16 layers at a time; and a row for a block about which one thing or several may be wrong, so that every refusal and
   every order of two refusals occurs. A row has one noise figure for all its thresholds. Where the row is accepted,
   what stands there for each threshold must also be what the library's counts answer for this threshold alone, with the
   same noise figure; and beside noise 0 it must have as many quads, and vertices too where no face is parted.
   Assumes nothing more than compare.h. */
#include "compare.h"

#include "crash.h"
#include "hand_blocks.h"

#include <stdio.h>
#include <stdlib.h>
#include <string.h>

enum { MOST_THRESHOLDS = 16, LONGEST_ROW = 20, LONGER_ROOM = 200, MOST_ROOM = ANSWER * LONGEST_ROW + LONGER_ROOM };
enum { PRINTED_SAMPLES = 128, SCANNED_SAMPLES = 200, SHORT_BLOCK = 4000 };

/* What plain is asked to count for one row: samples times thresholds. For a long block it is one threshold at least. */
enum { COUNTED_SAMPLES = 1200 };

/* The refusals of the whole call, in their order. */
enum { REFUSALS = 4, ALL_DUE = (1 << REFUSALS) - 1 };

enum refusal { MANY, ROOM, AXIS, COUNT };

static const unsigned refusals[REFUSALS] = {16, 15, 1, 2};

struct question {
    const char *name;
    uint32_t length[3];
    const uint16_t *samples, *thresholds;
    uint32_t noise;
    size_t samples_len, thresholds_len, answers_len, answer_len;
    struct lying lying;
    int ceilings_beside; /* so that a reading beside the samples or the thresholds changes the answer */
    int is_no_memory;    /* the thresholds may not be touched, so they are not copied */
};

static struct lent samples_place = LENT("samples of the row", sizeof(uint16_t), 0, byte_pattern);
static struct lent thresholds_place = LENT("thresholds of the row", sizeof(uint16_t), 0, byte_pattern);
static struct lent answers_place = LENT("answers of the row", sizeof(uint32_t), 0, byte_pattern);
static struct lent answer_place = LENT("answer of the row", sizeof(uint32_t), ANSWER, byte_pattern);

/* What plain answers, and what it writes for the thresholds where it does not refuse. */
static uint32_t answer[ANSWER], answers[MOST_ROOM];

/* Numbers of planes around those of one and two times 16 layers, and the most. */
static const uint32_t plane_counts[] = {17, 18, 33, 34, 40, LONGEST_AXIS};

enum { PLANE_COUNTS = sizeof plane_counts / sizeof *plane_counts };

/* The three numbers of a threshold. */
static const uint32_t *three(size_t i)
{
    return answers + ANSWER * i;
}

static int is_refused(uint16_t t)
{
    return t == 0 || t == CEILING;
}

/* ---- what occurred ---- */

static struct {
    uint64_t rows, by_hand, columns, bars, boards, no_memory, largest, own, layered, bad_blocks;
    uint64_t answers[REFUSALS + 1], orders[REFUSALS][REFUSALS], all_four;
    struct block_faults faults;
    uint64_t seventeen, more, no_room, one_item_less, two_less, fewer, short_of_one, short_of_most;
    uint64_t empty_refused[REFUSALS], three_refused[REFUSALS];
    uint64_t empty, empty_with_room, one, several, most, exact, longer[3], much_longer;
    uint64_t zero, top, both, first, last, between, only;
    uint64_t side_by_side, apart, again_counted, again_refused, all_alike, all_different, falling;
    uint64_t at_sample, above_sample, nothing, no_quad, quads, different;
    uint64_t under_17, plane_counts[PLANE_COUNTS], other_planes;
    struct noise_tally noise;
    uint64_t by_noise, changed, some_changed, noise_refused[REFUSALS];
} tally;

/* How the numbers 3 stand in an accepted row. */
static void count_threes(const struct question *q)
{
    size_t zeros = 0, tops = 0, end = q->thresholds_len;
    for (size_t i = 0; i < end; i++) {
        zeros += q->thresholds[i] == 0;
        tops += q->thresholds[i] == CEILING;
        tally.between += i > 0 && i + 1 < end && is_refused(q->thresholds[i]) && !is_refused(q->thresholds[i - 1]) &&
                         !is_refused(q->thresholds[i + 1]);
    }
    tally.zero += zeros > 0;
    tally.top += tops > 0;
    tally.both += zeros > 0 && tops > 0;
    tally.first += is_refused(q->thresholds[0]) && zeros + tops < end;
    tally.last += is_refused(q->thresholds[end - 1]) && zeros + tops < end;
    tally.only += end > 1 && zeros + tops == end;
}

/* Which thresholds of an accepted row occur again in it, and which stand behind a higher one. */
static void count_repeats(const struct question *q)
{
    const uint16_t *t = q->thresholds;
    size_t side_by_side = 0, apart = 0, falling = 0, again_counted = 0, again_refused = 0, pairs = 0;
    for (size_t i = 1; i < q->thresholds_len; i++) {
        falling += t[i] < t[i - 1];
        side_by_side += t[i] == t[i - 1];
        for (size_t j = 0; j < i; j++) {
            pairs += t[i] == t[j];
            apart += t[i] == t[j] && j + 1 < i;
            again_counted += t[i] == t[j] && three(i)[2] > 0;
            again_refused += t[i] == t[j] && three(i)[0] > 0;
        }
    }
    tally.side_by_side += side_by_side > 0;
    tally.apart += apart > 0;
    tally.again_counted += again_counted > 0;
    tally.again_refused += again_refused > 0;
    tally.all_alike += side_by_side > 0 && side_by_side + 1 == q->thresholds_len;
    tally.all_different += q->thresholds_len > 1 && pairs == 0;
    tally.falling += falling > 0;
}

/* Thresholds at which one more sample becomes hollow. */
static void count_samples(const struct question *q)
{
    size_t at = 0, above = 0;
    for (size_t i = 0; i < q->thresholds_len; i++)
        for (size_t index = 0; index < q->samples_len; index++) {
            at += q->samples[index] == q->thresholds[i];
            above += (uint32_t)q->samples[index] + 1 == q->thresholds[i];
        }
    tally.at_sample += at > 0;
    tally.above_sample += above > 0;
}

static void count_planes(const struct question *q)
{
    int is_listed = 0;
    tally.under_17 += q->length[2] < plane_counts[0];
    for (unsigned i = 0; i < PLANE_COUNTS; i++) {
        tally.plane_counts[i] += q->length[2] == plane_counts[i];
        is_listed = is_listed || q->length[2] == plane_counts[i];
    }
    tally.other_planes += q->length[2] > plane_counts[0] && !is_listed;
}

static void count_counts(const struct question *q)
{
    const uint32_t *before = NULL;
    size_t quads = 0, different = 0;
    for (size_t i = 0; i < q->thresholds_len; i++) {
        if (three(i)[0] != 0)
            continue;
        tally.nothing += three(i)[1] == 0;
        tally.no_quad += three(i)[1] > 0 && three(i)[2] == 0;
        quads += three(i)[2] > 0;
        different += before && memcmp(before, three(i), ANSWER * sizeof *before) != 0;
        before = three(i);
    }
    tally.quads += quads;
    tally.different += different > 0;
    if (quads > 0)
        count_planes(q);
}

static void count_accepted(const struct question *q)
{
    size_t m = q->thresholds_len, over = q->answers_len - ANSWER * m;
    tally.empty += m == 0 && over == 0;
    tally.empty_with_room += m == 0 && over > 0;
    if (m == 0)
        return;
    tally.one += m == 1;
    tally.several += m > 1 && m < MOST_THRESHOLDS;
    tally.most += m == MOST_THRESHOLDS;
    tally.exact += over == 0;
    tally.much_longer += over > 3;
    if (over > 0 && over <= 3)
        tally.longer[over - 1]++;
    count_threes(q);
    count_repeats(q);
    count_counts(q);
    if (q->samples_len <= SCANNED_SAMPLES)
        count_samples(q);
}

/* The refusals that are due, were it not for those before them: bit n for the one at place n of their order. */
static unsigned due(const struct question *q)
{
    unsigned found = 0;
    if (q->thresholds_len > MOST_THRESHOLDS)
        found |= 1u << MANY;
    if (q->answers_len < ANSWER * q->thresholds_len)
        found |= 1u << ROOM;
    for (unsigned axis = 0; axis < 3; axis++)
        if (q->length[axis] < SHORTEST_AXIS || q->length[axis] > LONGEST_AXIS)
            found |= 1u << AXIS;
    if (q->samples_len != sample_product(q->length))
        found |= 1u << COUNT;
    return found;
}

static void count_room(const struct question *q)
{
    size_t short_by = ANSWER * q->thresholds_len - q->answers_len;
    tally.no_room += q->answers_len == 0;
    tally.one_item_less += short_by == 1;
    tally.two_less += short_by == 2;
    tally.fewer += short_by > 2 && q->answers_len > 0;
    tally.short_of_one += q->thresholds_len == 1;
    tally.short_of_most += q->thresholds_len == MOST_THRESHOLDS;
}

static void count_refused(const struct question *q, enum refusal given)
{
    unsigned found = due(q);
    int has_three = 0;
    for (unsigned later = (unsigned)given + 1; later < REFUSALS; later++)
        tally.orders[given][later] += found >> later & 1;
    tally.all_four += found == ALL_DUE;
    for (size_t i = 0; !q->is_no_memory && i < q->thresholds_len; i++)
        has_three = has_three || is_refused(q->thresholds[i]);
    tally.three_refused[given] += has_three;
    tally.noise_refused[given] += q->noise > 0;
    tally.empty_refused[given] += q->thresholds_len == 0;
    tally.seventeen += given == MANY && q->thresholds_len == MOST_THRESHOLDS + 1;
    tally.more += given == MANY && q->thresholds_len > MOST_THRESHOLDS + 1;
    if (given == ROOM)
        count_room(q);
    count_block_fault(&tally.faults, answer, q->length, q->samples_len);
}

/* The last place is that of the rows which are accepted. */
static void count_question(const struct question *q)
{
    unsigned given = 0;
    while (given < REFUSALS && refusals[given] != answer[0])
        given++;
    tally.rows++;
    tally.answers[given]++;
    if (given == REFUSALS)
        count_accepted(q);
    else
        count_refused(q, (enum refusal)given);
}

/* ---- one row ---- */

static void print_question(const struct question *q)
{
    size_t written = answer[0] == 0 ? ANSWER * q->thresholds_len : 0;
    printf("  %s; axes %lu, %lu, %lu; noise %lu; lengths: samples %zu, thresholds %zu, answers %zu, answer %zu",
           q->name, (unsigned long)q->length[0], (unsigned long)q->length[1], (unsigned long)q->length[2],
           (unsigned long)q->noise, q->samples_len, q->thresholds_len, q->answers_len, q->answer_len);
    printf("; plain: %lu, %lu, %lu; thresholds", (unsigned long)answer[0], (unsigned long)answer[1],
           (unsigned long)answer[2]);
    for (size_t i = 0; !q->is_no_memory && i < q->thresholds_len; i++)
        printf(" %u", (unsigned)q->thresholds[i]);
    printf("; answers of plain");
    for (size_t i = 0; i < written; i++)
        printf("%s%lu", i % ANSWER == 0 ? "  " : " ", (unsigned long)answers[i]);
    printf("; samples");
    for (size_t index = 0; index < q->samples_len && index < PRINTED_SAMPLES; index++)
        printf(" %u", (unsigned)q->samples[index]);
    printf("%s\n", q->samples_len > PRINTED_SAMPLES ? " ..." : "");
}

static void ask_plain(const struct question *q)
{
    asking("plain_thresholds");
    memset(answers, 0, sizeof answers);
    plain_thresholds(q->length[0], q->length[1], q->length[2], q->samples, q->samples_len, q->thresholds,
                     q->thresholds_len, q->noise, answers, q->answers_len, answer, ANSWER);
}

static void lend_copy(struct lent *place, const uint16_t *items, size_t count, const struct question *q)
{
    place->pattern = q->ceilings_beside ? ceiling_pattern : byte_pattern;
    lend(place, count, q->lying);
    if (count > 0)
        memcpy(start(place), items, count * sizeof *items);
}

/* What is only read must be as it was lent, and both places for answers as plain says. */
static void run_row(const struct question *q)
{
    size_t copied = q->is_no_memory ? 0 : q->thresholds_len;
    struct wanted wanted[] = {{&answer_place, answer, ANSWER},
                              {&answers_place, answers, answer[0] == 0 ? ANSWER * q->thresholds_len : 0}};
    lend_copy(&samples_place, q->samples, q->samples_len, q);
    lend_copy(&thresholds_place, q->thresholds, copied, q);
    lend(&answers_place, q->answers_len, q->lying);
    lend(&answer_place, q->answer_len, q->lying);
    hand_out_to_read(&samples_place);
    hand_out_to_read(&thresholds_place);
    hand_out_all(THRESHOLDS, q->lying, wanted, 2);
    parsniprow_thresholds(q->length[0], q->length[1], q->length[2], start(&samples_place), q->samples_len,
                          q->is_no_memory ? q->thresholds : start(&thresholds_place), q->thresholds_len, q->noise,
                          start(&answers_place), q->answers_len, start(&answer_place), q->answer_len);
    take_back_read(&samples_place);
    take_back_read(&thresholds_place);
    if (first_to_differ(THRESHOLDS, wanted, 2))
        print_question(q);
    if (!holds(&samples_place, q->samples, q->samples_len) || !holds(&thresholds_place, q->thresholds, copied))
        if (first_to_fail("what was lent only to be read is changed"))
            print_question(q);
}

/* What the library wrote for each threshold, and what it answers for that threshold alone. */
static void ask_one_by_one(const struct question *q)
{
    const uint32_t *written = start(&answers_place);
    asking("parsniprow_counts");
    for (size_t i = 0; i < q->thresholds_len; i++) {
        uint32_t alone[ANSWER];
        parsniprow_counts(q->length[0], q->length[1], q->length[2], q->samples, q->samples_len, q->thresholds[i],
                          q->noise, alone, ANSWER);
        if (memcmp(written + ANSWER * i, alone, sizeof alone) == 0)
            continue;
        if (first_to_fail("a threshold of a row is answered otherwise than alone"))
            print_question(q);
    }
    asking("the comparison");
}

/* What the noise figure does to a short block by each threshold of an accepted row, beside noise 0. For the row the
   effects by all its thresholds count together. */
static void check_noise(const struct question *q)
{
    const uint32_t *written = start(&answers_place);
    struct noise_effect together = {0, 0, 0, 0};
    uint64_t changed = 0, counted = 0;
    count_figure(&tally.noise, q->noise);
    if (q->noise == 0 || q->samples_len > SCANNED_SAMPLES)
        return;
    asking("parsniprow_counts");
    for (size_t i = 0; i < q->thresholds_len; i++) {
        uint32_t without[ANSWER];
        struct noise_effect effect;
        if (is_refused(q->thresholds[i]))
            continue;
        parsniprow_counts(q->length[0], q->length[1], q->length[2], q->samples, q->samples_len, q->thresholds[i], 0,
                          without, ANSWER);
        effect = effect_of(q->length, q->thresholds[i], q->noise, q->samples);
        if (first_to_change(&effect, without, written + ANSWER * i))
            print_question(q);
        together.at_limit += effect.at_limit;
        together.one_above += effect.one_above;
        together.parted += effect.parted;
        counted++;
        changed += without[1] != three(i)[1];
    }
    asking("the comparison");
    count_effect(&tally.noise, &together);
    tally.changed += changed > 0;
    tally.some_changed += changed > 0 && changed < counted;
}

/* After a long block its place is given back, so that with short ones no long pages are opened and closed. */
static void try_question(const struct question *q)
{
    ask_plain(q);
    run_row(q);
    if (answer[0] == 0) {
        ask_one_by_one(q);
        check_noise(q);
    }
    count_question(q);
    if (q->samples_len > SHORT_BLOCK)
        give_back(&samples_place);
}

/* ---- what is asked once ---- */

/* Planes of up to 4 by 4 samples, as many as there can be, or wide planes, of which there are some. */
enum { WIDE_AXIS = 130, WIDE_PLANES = 34, FIXED_SAMPLES = WIDE_AXIS * 3 * WIDE_PLANES };

static uint16_t fixed_samples[FIXED_SAMPLES];

/* About a block of these axes; all else is open yet. */
static struct question block_question(const char *name, const uint32_t length[3], const uint16_t *samples)
{
    struct question question;
    memset(&question, 0, sizeof question);
    question.name = name;
    memcpy(question.length, length, sizeof question.length);
    question.samples = samples;
    question.samples_len = (size_t)sample_product(length);
    return question;
}

/* A row for a block of these axes, with room just for its answers and an answer place of the right length. Patterns and
   pages beside them take turns. */
static struct question next_question(const char *name, const uint32_t length[3], const uint16_t *samples,
                                     const uint16_t *thresholds, size_t thresholds_len)
{
    static unsigned turn;
    struct question question = block_question(name, length, samples);
    question.thresholds = thresholds;
    question.thresholds_len = thresholds_len;
    question.answers_len = ANSWER * thresholds_len;
    question.answer_len = ANSWER;
    question.lying.beside = (enum beside)(turn % BESIDES);
    question.lying.shift = turn % MOST_SHIFT;
    question.ceilings_beside = turn / BESIDES % 2;
    turn++;
    return question;
}

/* The library must have written these numbers, and nothing behind them. */
static void expect_answers(const struct question *q, const uint32_t *known)
{
    if (!holds(&answers_place, known, ANSWER * q->thresholds_len) && first_to_fail("not the counts that are known"))
        print_question(q);
}

/* ---- rows worked out by hand ---- */

/* All are for the paper's block, 3 by 3 by 3 samples of which the middle one is 400 and all others are 0, as far as
   lengths and samples_len say so. A row of more than seven thresholds goes through the seven again. */
struct hand_row {
    const char *name;
    uint32_t length[3];
    size_t samples_len, thresholds_len, answers_len;
    uint32_t answer[ANSWER];
};

static const uint16_t hand_thresholds[] = {100, 0, CEILING, 400, 401, 1, 100};

enum { HAND_THRESHOLDS = sizeof hand_thresholds / sizeof *hand_thresholds, MOST_HAND_ROW_SAMPLES = 28 };

/* By 100, 400 and 1 the middle sample is the only metal; by 401 there is none. */
static const uint32_t hand_answers[HAND_THRESHOLDS][ANSWER] = {{0, 8, 6}, {3, 0, 0}, {3, CEILING, 0}, {0, 8, 6},
                                                               {0, 0, 0}, {0, 8, 6}, {0, 8, 6}};

static const struct hand_row hand_rows[] = {
    /* ---- accepted ---- */
    {"seven thresholds", {3, 3, 3}, 27, 7, 21, {0, 0, 0}},
    {"an item more than they need", {3, 3, 3}, 27, 7, 22, {0, 0, 0}},
    {"two items more", {3, 3, 3}, 27, 7, 23, {0, 0, 0}},
    {"room for an eighth", {3, 3, 3}, 27, 7, 24, {0, 0, 0}},
    {"room for many", {3, 3, 3}, 27, 7, 200, {0, 0, 0}},
    {"one threshold", {3, 3, 3}, 27, 1, 3, {0, 0, 0}},
    {"two, of which the last is 0", {3, 3, 3}, 27, 2, 6, {0, 0, 0}},
    {"sixteen", {3, 3, 3}, 27, 16, 48, {0, 0, 0}},
    {"no threshold and no room", {3, 3, 3}, 27, 0, 0, {0, 0, 0}},
    {"no threshold and room for one", {3, 3, 3}, 27, 0, 3, {0, 0, 0}},

    /* ---- refused by one row ---- */
    {"17 thresholds: 16, value 17", {3, 3, 3}, 27, 17, 51, {16, 17, 0}},
    {"18 thresholds: 16, value 18", {3, 3, 3}, 27, 18, 100, {16, 18, 0}},
    {"20 thresholds: 16, value 20", {3, 3, 3}, 27, 20, 60, {16, 20, 0}},
    {"20 items for seven: 15, value 7", {3, 3, 3}, 27, 7, 20, {15, 7, 0}},
    {"an item for each of seven: 15, value 7", {3, 3, 3}, 27, 7, 7, {15, 7, 0}},
    {"no room for seven: 15, value 7", {3, 3, 3}, 27, 7, 0, {15, 7, 0}},
    {"two items for one: 15, value 1", {3, 3, 3}, 27, 1, 2, {15, 1, 0}},
    {"no room for one: 15, value 1", {3, 3, 3}, 27, 1, 0, {15, 1, 0}},
    {"47 items for sixteen: 15, value 16", {3, 3, 3}, 27, 16, 47, {15, 16, 0}},
    {"axes 1, 27, 1: 1, value 0", {1, 27, 1}, 27, 7, 21, {1, 0, 0}},
    {"axes 3, 0, 300: 1, value 1", {3, 0, 300}, 0, 7, 21, {1, 1, 0}},
    {"one sample less: 2, value 27", {3, 3, 3}, 26, 7, 21, {2, 27, 0}},
    {"one sample more: 2, value 27", {3, 3, 3}, 28, 7, 21, {2, 27, 0}},
    {"no sample: 2, value 16777216", {256, 256, 256}, 0, 7, 21, {2, 16777216, 0}},
    {"no threshold, axes 3, 9, 1: 1, value 2", {3, 9, 1}, 27, 0, 0, {1, 2, 0}},
    {"no threshold, one sample less: 2, value 27", {3, 3, 3}, 26, 0, 0, {2, 27, 0}},

    /* ---- refused by the first of several ---- */
    {"17 thresholds and no room: 16", {3, 3, 3}, 27, 17, 0, {16, 17, 0}},
    {"17 thresholds and room for 16: 16", {3, 3, 3}, 27, 17, 48, {16, 17, 0}},
    {"17 thresholds, no room, a bad axis: 16", {3, 9, 1}, 27, 17, 0, {16, 17, 0}},
    {"17 thresholds and a bad axis: 16", {3, 9, 1}, 27, 17, 51, {16, 17, 0}},
    {"17 thresholds and one sample less: 16", {3, 3, 3}, 26, 17, 51, {16, 17, 0}},
    {"20 items for seven and a bad axis: 15", {3, 9, 1}, 27, 7, 20, {15, 7, 0}},
    {"20 items for seven and one sample less: 15", {3, 3, 3}, 26, 7, 20, {15, 7, 0}},
    {"a bad axis and one sample less: 1", {3, 9, 1}, 26, 7, 21, {1, 2, 0}},
    {"no threshold, a bad axis, no sample: 1", {3, 9, 1}, 0, 0, 0, {1, 2, 0}},
    {"all four at once: 16", {257, 2, 2}, 8, 17, 50, {16, 17, 0}},
};

/* With all lengths of the answer place. */
static void try_hand_row(const struct hand_row *row)
{
    uint16_t samples[MOST_HAND_ROW_SAMPLES] = {0}, thresholds[LONGEST_ROW];
    uint32_t known[ANSWER * LONGEST_ROW];
    samples[13] = 400;
    for (size_t i = 0; i < LONGEST_ROW; i++) {
        thresholds[i] = hand_thresholds[i % HAND_THRESHOLDS];
        memcpy(known + ANSWER * i, hand_answers[i % HAND_THRESHOLDS], sizeof *hand_answers);
    }
    for (size_t answer_len = 0; answer_len <= ANSWER + 2; answer_len++)
        for (unsigned beside = 0; beside < 2 * BESIDES; beside++) {
            struct question question = next_question(row->name, row->length, samples, thresholds, row->thresholds_len);
            question.samples_len = row->samples_len;
            question.answers_len = row->answers_len;
            question.answer_len = answer_len;
            try_question(&question);
            if (!holds(&answer_place, row->answer, ANSWER) && first_to_fail(row->name))
                print_question(&question);
            if (!holds(&answers_place, known, row->answer[0] == 0 ? ANSWER * row->thresholds_len : 0) &&
                first_to_fail(row->name))
                print_question(&question);
            tally.by_hand++;
        }
}

/* The blocks whose crossed edges were worked out by hand, as far as only their threshold can be refused: with their
   own threshold among others. */
static void try_hand_block(const struct hand_block *block)
{
    uint16_t samples[MOST_HAND_SAMPLES], thresholds[] = {CEILING, block->t, 0, block->t};
    uint32_t known[] = {3, CEILING, 0, 0, block->vertices, block->quads, 3, 0, 0, 0, block->vertices, block->quads};
    struct question question = next_question(block->name, block->length, samples, thresholds, 4);
    question.noise = block->noise;
    question.samples_len = block->samples_len;
    fill_hand_block(block, samples);
    try_question(&question);
    if (block->answer[0] == 0)
        expect_answers(&question, known);
    else if (!holds(&answer_place, block->answer, ANSWER) && first_to_fail(block->name))
        print_question(&question);
    tally.by_hand++;
}

/* The tied cube as a block by two thresholds. At t = 100 both products are 10000; at t = 50 they are 22500 and 2500. */
static void try_noise_rows(void)
{
    static const uint16_t samples[8] = {200, 0, 0, 200, 0, 0, 0, 0}, thresholds[2] = {100, 50};
    static const uint32_t length[3] = {2, 2, 2};
    static const struct {
        const char *name;
        uint32_t noise, known[2 * ANSWER];
    } rows[] = {{"a tied cube, noise 0", 0, {0, 1, 0, 0, 1, 0}},
                {"a tied cube, noise 1", 1, {0, 2, 0, 0, 1, 0}},
                {"a tied cube, noise 20000", 20000, {0, 2, 0, 0, 1, 0}},
                {"a tied cube, noise 20001", 20001, {0, 2, 0, 0, 2, 0}},
                {"a tied cube, the greatest noise", UINT32_MAX, {0, 2, 0, 0, 2, 0}}};
    for (size_t i = 0; i < sizeof rows / sizeof *rows; i++)
        for (unsigned beside = 0; beside < 2 * BESIDES; beside++) {
            struct question question = next_question(rows[i].name, length, samples, thresholds, 2);
            question.noise = rows[i].noise;
            try_question(&question);
            expect_answers(&question, rows[i].known);
            tally.by_noise++;
        }
}

static void try_hand_rows(void)
{
    try_noise_rows();
    for (size_t i = 0; i < sizeof hand_rows / sizeof *hand_rows; i++)
        try_hand_row(&hand_rows[i]);
    for (size_t i = 0; i < HAND_BLOCKS; i++)
        if (hand_blocks[i].answer[0] != 3)
            try_hand_block(&hand_blocks[i]);
}

/* ---- columns, bars and boards ---- */

/* Numbers of planes: a few, and around those of 16 layers, of two times, three times and 15 times as many. */
static const uint32_t fixed_planes[] = {2, 3, 4, 16, 17, 18, 19, 32, 33, 34, 40, 48, 49, 50, 241, 242, 255, 256};

enum { FIXED_PLANES = sizeof fixed_planes / sizeof *fixed_planes };

/* The index of sample (x, 1, k) where the planes are nx by 3. */
static size_t in_column(uint32_t nx, uint32_t x, uint32_t k)
{
    return x + nx * (1 + 3 * (size_t)k);
}

/* One sample of metal in the middle of a plane of 3 by 3: eight vertices and six quads, or on the first plane and on
   the last four vertices and one quad. */
static void try_column(uint32_t nz, uint32_t k)
{
    static const uint16_t thresholds[] = {100, 0, 400, 401, CEILING, 1};
    uint32_t length[3] = {3, 3, nz}, v = k == 0 || k + 1 == nz ? 4 : 8, q = v == 4 ? 1 : 6;
    uint32_t known[] = {0, v, q, 3, 0, 0, 0, v, q, 0, 0, 0, 3, CEILING, 0, 0, v, q};
    struct question question = next_question("a sample in a column", length, fixed_samples, thresholds, 6);
    memset(fixed_samples, 0, sizeof fixed_samples);
    fixed_samples[in_column(3, 1, k)] = 400;
    try_question(&question);
    expect_answers(&question, known);
    tally.columns++;
}

/* Samples that rise along z within planes of nx by 3, so that by each threshold a bar of metal begins at another plane
   and runs to the last one. The planes where the bars of a row begin lie seven apart, or else the bar is empty. */
static void try_bars(uint32_t nx, uint32_t x, uint32_t nz, uint32_t shift)
{
    uint16_t thresholds[MOST_THRESHOLDS];
    uint32_t length[3] = {nx, 3, nz}, known[ANSWER * MOST_THRESHOLDS] = {0};
    struct question question;
    memset(fixed_samples, 0, sizeof fixed_samples);
    for (uint32_t k = 0; k < nz; k++)
        fixed_samples[in_column(nx, x, k)] = (uint16_t)(200 * (k + 1));
    for (uint32_t i = 0; i < MOST_THRESHOLDS; i++) {
        uint32_t from = (7 * i + shift) % (nz + 1);
        thresholds[i] = (uint16_t)(200 * (from + 1) - i % 3);
        known[ANSWER * i + 1] = from == 0 ? 4 * (nz - 1) : 4 * (nz - from);
        known[ANSWER * i + 2] = from == nz ? 0 : from == 0 ? 4 * (nz - 2) : 4 * (nz - 1 - from) + 1;
    }
    question = next_question("bars", length, fixed_samples, thresholds, MOST_THRESHOLDS);
    try_question(&question);
    expect_answers(&question, known);
    tally.bars++;
}

/* Each cube has four vertices, whether metal or hollow is joined across its faces, up to the value of the metal. So no
   noise figure changes their number. */
static void try_board(uint32_t nx, uint32_t ny, uint32_t nz)
{
    static const uint16_t thresholds[] = {110, 0, 1, 55, 111, 56, 111, CEILING, 110};
    uint32_t length[3] = {nx, ny, nz}, v = 4 * (nx - 1) * (ny - 1) * (nz - 1), q = inner_edges(length);
    uint32_t known[] = {0, v, q, 3, 0, 0, 0, v, q, 0, v, q, 0, 0, 0, 0, v, q, 0, 0, 0, 3, CEILING, 0, 0, v, q};
    struct question question = next_question("a board", length, fixed_samples, thresholds, 9);
    question.noise = nx % 4 == 0 ? nz * 100 : 0;
    fill_board(length, nz % 2 ? 110 : 0, nz % 2 ? 0 : 110, fixed_samples);
    try_question(&question);
    expect_answers(&question, known);
    tally.boards++;
}

/* In a long column the sample stands near a multiple of 16 planes, or at an end. In wide planes the bars stand near a
   multiple of 64 samples. */
static void try_layers(void)
{
    for (unsigned i = 0; i < FIXED_PLANES; i++) {
        uint32_t nz = fixed_planes[i];
        for (uint32_t k = 0; k < nz; k++)
            if (nz <= 50 || (k + 1) % 16 < 3 || k + 2 >= nz)
                try_column(nz, k);
        for (uint32_t shift = 0; shift < 7; shift++)
            try_bars(3, 1, nz, shift);
        try_board(2, 2, nz);
        try_board(4, 3, nz);
    }
    for (uint32_t x = 62; x < 66; x++)
        try_bars(WIDE_AXIS, x, WIDE_PLANES, x % 7);
}

/* ---- what no memory has, and the largest block ---- */

/* Refused by its number alone, so no threshold may be touched. */
static void try_no_memory(size_t thresholds_len, uint32_t value)
{
    static const uint32_t length[3] = {3, 3, 3};
    uint32_t known[ANSWER] = {16, value, 0};
    size_t bytes = thresholds_len * sizeof(uint16_t);
    void *thresholds = space(bytes, 0);
    struct question question;
    memset(fixed_samples, 0, 27 * sizeof *fixed_samples);
    question = next_question("thresholds that no memory has", length, fixed_samples, thresholds, thresholds_len);
    question.answers_len = MOST_ROOM;
    question.is_no_memory = 1;
    try_question(&question);
    if (!holds(&answer_place, known, ANSWER) && first_to_fail("not the value for more thresholds than any memory has"))
        print_question(&question);
    tally.no_memory++;
    give_space_back(thresholds, bytes);
}

void try_fixed_rows(void)
{
    size_t cut = (size_t)UINT32_MAX;
    try_hand_rows();
    try_layers();
    try_no_memory(65536 + 7, 65536 + 7);
    try_no_memory(cut - 1, UINT32_MAX - 1);
    try_no_memory(cut, UINT32_MAX);
    try_no_memory(cut + 1, UINT32_MAX);
    try_no_memory(cut + 1 + 7, UINT32_MAX);
}

/* The largest block as a board, which has the most vertices and quads that there can be. Plain is not asked, nor is one
   threshold after the other, since the numbers are known. */
void try_largest_rows(void)
{
    static const uint32_t length[3] = {LONGEST_AXIS, LONGEST_AXIS, LONGEST_AXIS};
    static const uint16_t thresholds[] = {111, 100, 0, 111};
    static const uint32_t known[] = {0, 0, 0, 0, 66325500, 49354740, 3, 0, 0, 0, 0, 0};
    size_t count = (size_t)sample_product(length);
    uint16_t *samples = malloc(count * sizeof *samples);
    struct question question;
    if (!samples) {
        fprintf(stderr, "compare: no memory\n");
        exit(2);
    }
    fill_board(length, 110, 0, samples);
    question = next_question("the largest board", length, samples, thresholds, 4);
    memset(answer, 0, sizeof answer);
    memcpy(answers, known, sizeof known);
    run_row(&question);
    give_back(&samples_place);
    tally.largest++;
    free(samples);
}

/* ---- rows with a block ---- */

/* A threshold that is refused, one of those before it, one at a sample or beside it, one at the block's threshold or
   beside it, or any. */
static uint16_t choose_one(struct chance *chance, const struct question *q, uint16_t t, const uint16_t *before,
                           size_t count)
{
    uint64_t how = chance_below(chance, 100);
    uint16_t beside = (uint16_t)(chance_below(chance, 3) - 1);
    if (how < 14)
        return how < 7 ? 0 : CEILING;
    if (how < 32 && count > 0)
        return before[how < 23 ? count - 1 : chance_below(chance, count)];
    if (how < 62 && q->samples_len > 0)
        return (uint16_t)(q->samples[chance_below(chance, q->samples_len)] + beside);
    if (how < 80)
        return (uint16_t)(t + beside);
    return (uint16_t)chance_below(chance, CEILING + 1);
}

/* The thresholds of a question whose samples and number of thresholds stand fast. */
static void choose_thresholds(struct chance *chance, struct question *q, uint16_t t)
{
    static uint16_t thresholds[LONGEST_ROW];
    int is_alike = chance_in_100(chance, 5);
    q->thresholds = thresholds;
    for (size_t i = 0; i < q->thresholds_len; i++)
        thresholds[i] = is_alike && i > 0 ? thresholds[0] : choose_one(chance, q, t, thresholds, i);
}

/* At most 16; of a long block no more than plain can count in time, but one. */
static size_t choose_few(struct chance *chance, size_t samples_len)
{
    uint64_t how = chance_below(chance, 10);
    size_t few = how < 1 ? 0 : how < 3 ? MOST_THRESHOLDS : (size_t)chance_below(chance, MOST_THRESHOLDS + 1);
    size_t most = samples_len < COUNTED_SAMPLES ? COUNTED_SAMPLES / (samples_len + 1) + 1 : 1;
    return few < most ? few : most;
}

static size_t choose_many(struct chance *chance)
{
    return MOST_THRESHOLDS + 1 + (chance_in_100(chance, 50) ? 0 : (size_t)chance_below(chance, 4));
}

/* Around three items a threshold; where it is to be short and there is a threshold, less. */
static size_t choose_answers(struct chance *chance, int is_short, size_t thresholds_len)
{
    size_t need = ANSWER * thresholds_len;
    uint64_t how = chance_below(chance, 10);
    if (is_short && need > 0)
        return how < 6 ? need - 1 - how % 2 : how < 8 ? 0 : (size_t)chance_below(chance, need);
    return how < 4 ? need : how < 8 ? need + 1 + how % 3 : need + (size_t)chance_below(chance, LONGER_ROOM);
}

/* The noise figure goes with one of the thresholds. */
static uint32_t choose_row_noise(struct chance *chance, const struct question *q)
{
    uint16_t t = q->thresholds_len > 0 ? q->thresholds[chance_below(chance, q->thresholds_len)] : 0;
    int is_wrong = is_refused(t) || (due(q) & (1u << AXIS | 1u << COUNT)) != 0;
    return choose_any_noise(chance, is_wrong, q->length, t, q->samples);
}

/* Asks about a block, of which only the thresholds, the noise figure and the lengths of the places are open yet. */
static void ask_row(struct chance *chance, struct question *q, uint16_t t, int is_many, int is_short)
{
    q->thresholds_len = is_many ? choose_many(chance) : choose_few(chance, q->samples_len);
    choose_thresholds(chance, q, t);
    q->noise = choose_row_noise(chance, q);
    q->answers_len = choose_answers(chance, is_short, q->thresholds_len);
    q->answer_len = choose_reach(chance, ANSWER);
    q->lying = choose_lying(chance);
    q->ceilings_beside = chance_in_100(chance, 50);
    try_question(q);
}

static void try_own_block(const struct trial *trial, struct chance *chance)
{
    struct question question = block_question("the block", trial->length, trial->samples);
    ask_row(chance, &question, trial->t, chance_in_100(chance, 5), chance_in_100(chance, 5));
    tally.own++;
}

/* Planes of two to four samples along x and y; their number is mostly one of those around 16 and 32 layers. */
static void try_layered_block(struct chance *chance)
{
    static uint16_t samples[FIXED_SAMPLES];
    enum kind kind = (enum kind)chance_below(chance, KINDS);
    uint16_t t = choose_threshold(chance);
    uint64_t how = chance_below(chance, 100);
    uint32_t length[3];
    struct question question;
    length[0] = SHORTEST_AXIS + (uint32_t)chance_below(chance, 3);
    length[1] = SHORTEST_AXIS + (uint32_t)chance_below(chance, 3);
    length[2] = how < 5    ? LONGEST_AXIS
                : how < 15 ? plane_counts[0] + (uint32_t)chance_below(chance, LONGEST_AXIS - plane_counts[0])
                           : plane_counts[chance_below(chance, PLANE_COUNTS - 1)];
    fill_block(chance, kind, length, t, samples);
    if (chance_below(chance, 3) == 0)
        add_ceilings(chance, length, t, samples);
    question = block_question(kind_names[kind], length, samples);
    ask_row(chance, &question, t, 0, 0);
    tally.layered++;
}

static void try_bad_block(struct chance *chance)
{
    static uint16_t samples[MOST_ANY_SAMPLES];
    uint16_t t = choose_threshold(chance);
    uint32_t length[3];
    struct question question;
    choose_any_axes(chance, chance_in_100(chance, 40), length);
    question = block_question("some block", length, samples);
    question.samples_len = choose_any_count(chance, chance_in_100(chance, 40), sample_product(length));
    for (size_t index = 0; index < question.samples_len; index++)
        samples[index] = choose_grey(chance, t);
    ask_row(chance, &question, t, chance_in_100(chance, 30), chance_in_100(chance, 30));
    tally.bad_blocks++;
}

void try_rows(struct trial *trial)
{
    struct chance *chance = &trial->chance;
    try_own_block(trial, chance);
    if (chance_in_100(chance, 20))
        try_layered_block(chance);
    try_bad_block(chance);
}

/* ---- printing ---- */

static void tally_asked(void)
{
    tally_title("rows of thresholds, asked once");
    tally_case("worked out by hand", tally.by_hand);
    tally_case("with a noise figure", tally.by_noise);
    tally_case("one sample in a column", tally.columns);
    tally_case("bars", tally.bars);
    tally_case("boards", tally.boards);
    tally_case("more than any memory has", tally.no_memory);
    tally_case("for the largest block", tally.largest);
    tally_title("rows of thresholds");
    tally_case("for a block", tally.own);
    tally_case("for many layers", tally.layered);
    tally_case("for what may be wrong", tally.bad_blocks);
}

static void tally_accepted(void)
{
    tally_title("accepted rows");
    tally_case("empty", tally.empty);
    tally_case("empty with room", tally.empty_with_room);
    tally_case("one threshold", tally.one);
    tally_case("several", tally.several);
    tally_case("sixteen", tally.most);
    tally_case("room for just their answers", tally.exact);
    tally_case("one item more", tally.longer[0]);
    tally_case("two more", tally.longer[1]);
    tally_case("three more", tally.longer[2]);
    tally_case("many more", tally.much_longer);
    tally_title("thresholds of accepted rows");
    tally_case("0", tally.zero);
    tally_case("65535", tally.top);
    tally_case("both", tally.both);
    tally_case("one of these first", tally.first);
    tally_case("last", tally.last);
    tally_case("between others", tally.between);
    tally_case("nothing else", tally.only);
    tally_case("one twice, side by side", tally.side_by_side);
    tally_case("apart", tally.apart);
    tally_case("twice with quads", tally.again_counted);
    tally_case("twice 0 or 65535", tally.again_refused);
    tally_case("all alike", tally.all_alike);
    tally_case("all different", tally.all_different);
    tally_case("one behind a higher one", tally.falling);
    tally_case("one at a sample", tally.at_sample);
    tally_case("one above a sample", tally.above_sample);
}

static void tally_counts(void)
{
    char name[40];
    tally_title("counts of accepted rows");
    tally_case("no vertex", tally.nothing);
    tally_case("vertices and no quad", tally.no_quad);
    tally_case("quads", tally.quads);
    tally_case("different counts in a row", tally.different);
    tally_title("noise figures of accepted rows");
    tally_noise(&tally.noise);
    tally_case("counts changed against noise 0", tally.changed);
    tally_case("by some thresholds and not by others", tally.some_changed);
    tally_title("planes of blocks with quads");
    tally_case("under 17", tally.under_17);
    for (unsigned i = 0; i < PLANE_COUNTS; i++) {
        sprintf(name, "nz = %lu", (unsigned long)plane_counts[i]);
        tally_case(name, tally.plane_counts[i]);
    }
    tally_case("another from 18 on", tally.other_planes);
}

/* An empty row is never too long, nor its room too short. */
static void tally_refused(void)
{
    char name[60];
    tally_title("answers of rows of thresholds");
    tally_case("accepted", tally.answers[REFUSALS]);
    for (unsigned i = 0; i < REFUSALS; i++) {
        sprintf(name, "refusal %u", refusals[i]);
        tally_case(name, tally.answers[i]);
        sprintf(name, "refusal %u with 0 or 65535 in the row", refusals[i]);
        tally_case(name, tally.three_refused[i]);
        sprintf(name, "refusal %u with a noise figure", refusals[i]);
        tally_case(name, tally.noise_refused[i]);
        sprintf(name, "refusal %u of an empty row", refusals[i]);
        if (i == AXIS || i == COUNT)
            tally_case(name, tally.empty_refused[i]);
    }
    tally_case("17 thresholds", tally.seventeen);
    tally_case("more", tally.more);
    tally_case("no room", tally.no_room);
    tally_case("one item less", tally.one_item_less);
    tally_case("two less", tally.two_less);
    tally_case("fewer", tally.fewer);
    tally_case("too short for one threshold", tally.short_of_one);
    tally_case("too short for sixteen", tally.short_of_most);
    tally_block_faults(&tally.faults);
    for (unsigned i = 0; i < REFUSALS; i++)
        for (unsigned later = i + 1; later < REFUSALS; later++) {
            sprintf(name, "%u before %u", refusals[i], refusals[later]);
            tally_case(name, tally.orders[i][later]);
        }
    tally_case("all four due", tally.all_four);
}

uint64_t tally_rows(void)
{
    tally_asked();
    tally_accepted();
    tally_counts();
    tally_refused();
    tally_reaches(&answer_place);
    return tally.rows;
}
