/* Compares the question about samples at the ceiling with the plain implementation: lists of every length up to 600 and
   two long ones once, with each block its samples and a part of them.
   Assumes nothing more than compare.h. */
#include "compare.h"

#include <stdio.h>
#include <stdlib.h>
#include <string.h>

/* The library may take 256 samples at a time, so that places near multiples of that are tried. */
enum { GROUP = 256, LONGEST_FIXED = 600, LONG_LIST = 70000, HIGHEST_COUNT_OF_16_BITS = 65535, PRINTED_SAMPLES = 64 };

struct question {
    const uint16_t *samples;
    size_t length, answer_len;
    struct lying lying;
    int ceilings_beside; /* so that a reading beside the samples changes the answer */
};

static struct lent samples_place = LENT("samples of the ceilings", sizeof(uint16_t), 0, byte_pattern);
static struct lent answer_place = LENT("answer of the ceilings", sizeof(uint32_t), ANSWER, byte_pattern);

/* ---- what occurred ---- */

static struct {
    uint64_t lists, empty, none, one, several, all, many, whole_groups, rest, first, last, in_group[3];
} tally;

static void count_list(const struct question *question, const uint32_t answer[ANSWER])
{
    size_t length = question->length, lowest = answer[2];
    tally.lists++;
    tally.empty += length == 0;
    tally.none += length > 0 && answer[1] == 0;
    tally.one += answer[1] == 1;
    tally.several += answer[1] > 1 && answer[1] < length;
    tally.all += length > 1 && answer[1] == length;
    tally.many += answer[1] > HIGHEST_COUNT_OF_16_BITS;
    tally.whole_groups += length > 0 && length % GROUP == 0;
    tally.rest += length % GROUP != 0;
    tally.first += answer[1] > 0 && lowest == 0;
    tally.last += answer[1] == 1 && lowest + 1 == length;
    if (answer[1] > 0)
        tally.in_group[lowest / GROUP < 2 ? lowest / GROUP : 2]++;
}

/* ---- one list ---- */

static void print_list(const struct question *question, const uint32_t answer[ANSWER])
{
    printf("  lengths: samples %zu, answer %zu; plain: %lu, %lu, %lu; samples", question->length, question->answer_len,
           (unsigned long)answer[0], (unsigned long)answer[1], (unsigned long)answer[2]);
    for (size_t i = 0; i < question->length && i < PRINTED_SAMPLES; i++)
        printf(" %u", (unsigned)question->samples[i]);
    printf("%s\n", question->length > PRINTED_SAMPLES ? " ..." : "");
}

static void try_list(const struct question *question)
{
    uint32_t answer[ANSWER];
    struct wanted wanted[] = {{&answer_place, answer, ANSWER}};
    plain_ceilings(question->samples, question->length, answer, ANSWER);
    samples_place.pattern = question->ceilings_beside ? ceiling_pattern : byte_pattern;
    lend(&samples_place, question->length, question->lying);
    if (question->length > 0)
        memcpy(start(&samples_place), question->samples, question->length * sizeof *question->samples);
    lend(&answer_place, question->answer_len, question->lying);
    hand_out_to_read(&samples_place);
    hand_out_all(CEILINGS, question->lying, wanted, 1);
    parsniprow_ceilings(start(&samples_place), question->length, start(&answer_place), question->answer_len);
    take_back_read(&samples_place);
    if (first_to_differ(CEILINGS, wanted, 1))
        print_list(question, answer);
    count_list(question, answer);
}

/* ---- what is asked once ---- */

/* With an answer place of the right length, and with patterns and pages beside the samples in turn. */
static void try_next(const uint16_t *samples, size_t length)
{
    static unsigned turn;
    struct question question = {samples, length, ANSWER, {PATTERNS, 0}, turn % 2};
    question.lying.beside = (enum beside)(turn % BESIDES);
    question.lying.shift = turn % MOST_SHIFT;
    turn++;
    try_list(&question);
}

/* Grey values below the ceiling, of which some come close to it in either byte. */
static void fill(uint16_t *samples, size_t length)
{
    static const uint16_t greys[] = {0, 65534, 255, 65280, 32767, 32768, 65279, 1};
    for (size_t index = 0; index < length; index++)
        samples[index] = greys[index % (sizeof greys / sizeof *greys)];
}

/* No ceiling; one at the start, near the multiples of 256 and at the end; one at the end and one in the middle; nothing
   but ceilings. */
static void try_length(size_t length)
{
    static const size_t places[] = {0, 1, GROUP - 1, GROUP, GROUP + 1, 2 * GROUP - 1, 2 * GROUP, 2 * GROUP + 1};
    uint16_t samples[LONGEST_FIXED];
    fill(samples, length);
    try_next(samples, length);
    for (size_t i = 0; i < sizeof places / sizeof *places && places[i] < length; i++) {
        uint16_t before = samples[places[i]];
        samples[places[i]] = CEILING;
        try_next(samples, length);
        samples[places[i]] = before;
    }
    if (length == 0)
        return;
    samples[length - 1] = CEILING;
    try_next(samples, length);
    samples[length / 2] = CEILING;
    try_next(samples, length);
    for (size_t index = 0; index < length; index++)
        samples[index] = CEILING;
    try_next(samples, length);
}

/* More ceilings than 16 bits can count, and a single one far behind. */
static void try_long_lists(void)
{
    uint16_t *samples = malloc(LONG_LIST * sizeof *samples);
    if (!samples) {
        fprintf(stderr, "compare: no memory\n");
        exit(2);
    }
    fill(samples, LONG_LIST);
    samples[LONG_LIST - 1] = CEILING;
    try_next(samples, LONG_LIST);
    for (size_t index = 0; index < LONG_LIST; index++)
        samples[index] = CEILING;
    try_next(samples, LONG_LIST);
    free(samples);
}

/* All lengths of the answer place: no sample, none at the ceiling, two of them. */
static void try_answer_lengths(void)
{
    static const uint16_t samples[] = {65534, 0, 7, CEILING, 400, CEILING};
    for (size_t length = 0; length <= 6; length += 3)
        for (size_t answer_len = 0; answer_len <= ANSWER + 2; answer_len++)
            for (unsigned beside = 0; beside < BESIDES; beside++) {
                struct question question = {samples, length, answer_len, {(enum beside)beside, length}, 1};
                try_list(&question);
            }
}

void try_fixed_ceilings(void)
{
    for (size_t length = 0; length <= LONGEST_FIXED; length++)
        try_length(length);
    try_long_lists();
    try_answer_lengths();
}

/* ---- lists with a block ---- */

static void choose_places(struct chance *chance, struct question *question)
{
    question->answer_len = choose_reach(chance, ANSWER);
    question->lying = choose_lying(chance);
    question->ceilings_beside = chance_in_100(chance, 50);
}

/* The block, and a part of it. */
void try_ceilings(struct trial *trial)
{
    struct chance *chance = &trial->chance;
    size_t count = (size_t)trial->length[0] * trial->length[1] * trial->length[2];
    struct question question;
    question.samples = trial->samples;
    question.length = count;
    choose_places(chance, &question);
    try_list(&question);
    question.length = (size_t)chance_below(chance, count + 1);
    question.samples = trial->samples + chance_below(chance, count - question.length + 1);
    choose_places(chance, &question);
    try_list(&question);
}

uint64_t tally_ceilings(void)
{
    tally_title("lists of samples");
    tally_case("empty", tally.empty);
    tally_case("a multiple of 256", tally.whole_groups);
    tally_case("another length", tally.rest);
    tally_title("ceilings in them");
    tally_case("none", tally.none);
    tally_case("one", tally.one);
    tally_case("several", tally.several);
    tally_case("all", tally.all);
    tally_case("more than 65535", tally.many);
    tally_case("the first sample", tally.first);
    tally_case("the last alone", tally.last);
    tally_case("lowest among the first 256", tally.in_group[0]);
    tally_case("among the second", tally.in_group[1]);
    tally_case("behind them", tally.in_group[2]);
    tally_reaches(&answer_place);
    return tally.lists;
}
