/* Compares readings of the second bench, and the counts and the mesh of blocks of them, with the plain implementation.
   Once: readings and blocks that were worked out by hand; every whole number from 0 to 65536 and every half between
   two, each with the floats beside it; every exponent; a fault at every place of a block; and lengths that no memory
   has. With enough blocks: two million readings, some large blocks and the largest. With the word all: each of the 2^32
   readings there are.
   With every second block: some readings; then a block of readings about which one thing or several may be wrong, so
   that every refusal and every order of two refusals occurs. It is made of a block of grey values: each of them gets a
   reading that becomes it. So the grey values are known without plain. Where no reading is at fault, the library must
   answer and write just what it does for the block of these grey values, with the same noise figure.
   Assumes nothing more than compare.h, and floats of 32 bits by IEEE 754. */
#include "compare.h"

#include "crash.h"
#include "hand_blocks.h"
#include "hand_readings.h"

#include <float.h>
#include <math.h>
#include <stdio.h>
#include <stdlib.h>
#include <string.h>

enum { MOST_READINGS = 300000, PRINTED_READINGS = 128, SHORT_BLOCK = 4000, MOST_FAULTS = 5, READINGS_WITH_BLOCK = 4 };

/* The library may go through so many readings at a time, so faults are often put at the ends of such a run. */
enum { RUN = 1024 };

/* The parts of a float. */
#define SIGN UINT32_C(0x80000000)
#define INFINITE_BITS UINT32_C(0x7F800000)
#define FRACTION UINT32_C(0x007FFFFF)
#define QUIET UINT32_C(0x00400000)

/* The refusals of a mesh in their order; those of the counts stand first. The three of a reading have one place: which
   of them is given hangs on the reading with the lowest index. */
enum row { AXIS, COUNT, THRESHOLD, NO_NUMBER, INFINITE, BELOW_ZERO, VERTICES, QUADS, ROWS };

enum { COUNT_ROWS = VERTICES };

static const unsigned row_numbers[ROWS] = {1, 2, 3, 19, 20, 21, 5, 6};

static int is_fault(unsigned row)
{
    return row == NO_NUMBER || row == INFINITE || row == BELOW_ZERO;
}

static uint32_t bits_of(float reading)
{
    uint32_t bits;
    memcpy(&bits, &reading, sizeof bits);
    return bits;
}

/* The fault of a reading, or ROWS where it has none. */
static enum row fault_of(uint32_t bits)
{
    uint32_t size = bits & ~SIGN;
    if (size > INFINITE_BITS)
        return NO_NUMBER;
    if (size == INFINITE_BITS)
        return INFINITE;
    return bits > SIGN ? BELOW_ZERO : ROWS;
}

/* ---- what occurred ---- */

static struct {
    uint64_t by_hand, whole, halves, exponents, many, lent;
    uint64_t zero, minus_zero, subnormal, below_one, grey, with_fraction, highest, at_ceiling, above_ceiling, greatest;
    uint64_t quiet[2], signalling[2], infinite[2], below_zero, little_below_zero;
} singles;

static struct {
    uint64_t blocks, by_hand, hand_blocks, each_place, no_memory, large, largest, kinds[KINDS], any_numbers, dresses[4];
    uint64_t counts[ROWS + 1], answers[ROWS + 1], orders[ROWS][ROWS];
    struct block_faults faults;
    uint64_t zero, top, lowest, highest;
    uint64_t short_words, short_offsets, one_less[3], no_room, exact, longer;
    uint64_t fault_first, fault_last, fault_within, behind_run, before_run_end, at_run_start, last_run, several;
    uint64_t minus_zero, subnormal, fraction, at_t, step_above_t, step_below_t, half_below_t;
    uint64_t at_ceiling, above_ceiling, greatest, step_below_ceiling, marked, some_marked, none_marked;
    uint64_t no_vertex, no_quad, quads, held, long_row, longest[3];
    struct noise_tally noise;
    uint64_t noise_fault, noise_room[2], changed;
} tally;

/* ---- one reading ---- */

static struct lent said_place = LENT("answer of the reading", sizeof(uint32_t), ANSWER, byte_pattern);

static void count_reading(uint32_t bits)
{
    enum row fault = fault_of(bits);
    int is_negative = bits >= SIGN;
    float reading = reading_of(bits);
    if (fault == NO_NUMBER) {
        (bits & QUIET ? singles.quiet : singles.signalling)[is_negative]++;
        return;
    }
    singles.infinite[is_negative] += fault == INFINITE;
    singles.below_zero += fault == BELOW_ZERO;
    singles.little_below_zero += fault == BELOW_ZERO && reading > -FLT_MIN;
    if (fault != ROWS)
        return;
    singles.zero += bits == 0;
    singles.minus_zero += bits == SIGN;
    singles.subnormal += reading > 0 && reading < FLT_MIN;
    singles.below_one += reading >= FLT_MIN && reading < 1;
    singles.grey += reading >= 1 && reading < CEILING;
    singles.with_fraction += reading >= 1 && reading < CEILING && reading != (float)(uint32_t)reading;
    singles.highest += reading >= HIGHEST && reading < CEILING;
    singles.at_ceiling += reading == CEILING;
    singles.above_ceiling += reading > CEILING;
    singles.greatest += reading == FLT_MAX;
}

static void print_reading(uint32_t bits, const uint32_t *said)
{
    printf("  the reading %08lX, %.9g; plain: %lu, %lu, %lu\n", (unsigned long)bits, (double)reading_of(bits),
           (unsigned long)said[0], (unsigned long)said[1], (unsigned long)said[2]);
}

/* In lent memory, into an answer place of any length. */
static void try_lent_reading(uint32_t bits, size_t answer_len, struct lying lying)
{
    uint32_t said[ANSWER];
    struct wanted wanted[] = {{&said_place, said, ANSWER}};
    plain_reading(reading_of(bits), said, ANSWER);
    lend(&said_place, answer_len, lying);
    hand_out_all(READING, lying, wanted, 1);
    parsniprow_reading(reading_of(bits), start(&said_place), answer_len);
    if (first_to_differ(READING, wanted, 1))
        print_reading(bits, said);
    count_reading(bits);
    singles.lent++;
}

/* The same with less around it, for many readings. */
static void try_reading(uint32_t bits)
{
    uint32_t said[ANSWER + 1] = {9, 9, 9, 9}, got[ANSWER + 1] = {9, 9, 9, 9};
    float reading = reading_of(bits);
    plain_reading(reading, said, ANSWER);
    parsniprow_reading(reading, got, ANSWER);
    if (memcmp(said, got, sizeof said) != 0 && first_to_fail("parsniprow_reading"))
        print_reading(bits, said);
}

static void try_and_count(uint32_t bits)
{
    try_reading(bits);
    count_reading(bits);
}

/* A reading with the floats beside it, and all of these with the sign. The float below 0 is no number then. */
static void try_around(float reading)
{
    for (uint32_t step = 0; step < 3; step++) {
        uint32_t bits = bits_of(reading) + step - 1;
        try_and_count(bits);
        try_and_count(bits ^ SIGN);
    }
}

static void try_whole_numbers(void)
{
    for (uint32_t whole = 0; whole <= CEILING + 1; whole++) {
        try_around((float)whole);
        try_around((float)whole + 0.5f);
        singles.whole++;
        singles.halves++;
    }
}

/* Each exponent with fractions of one bit, of all bits above or below one, and with some others. */
static void try_exponents(void)
{
    struct chance chance = chance_of(8, 23);
    for (uint32_t exponent = 0; exponent < 256; exponent++) {
        for (uint32_t bit = 0; bit < 24; bit++) {
            uint32_t one = UINT32_C(1) << bit & FRACTION, below = (UINT32_C(1) << bit) - 1;
            uint32_t any = (uint32_t)chance_below(&chance, FRACTION + 1);
            uint32_t fractions[] = {one, below & FRACTION, ~below & FRACTION, any};
            for (unsigned i = 0; i < 4; i++) {
                try_and_count(exponent << 23 | fractions[i]);
                try_and_count(SIGN | exponent << 23 | fractions[i]);
            }
        }
        singles.exponents++;
    }
}

/* With all lengths of the answer place. */
static void try_hand_reading(const struct hand_reading *hand)
{
    uint32_t known[ANSWER] = {hand->number, hand->grey, 0};
    for (size_t answer_len = 0; answer_len <= ANSWER + 1; answer_len++)
        for (unsigned beside = 0; beside < BESIDES; beside++) {
            struct lying lying = {(enum beside)beside, answer_len};
            try_lent_reading(hand->bits, answer_len, lying);
            if (!holds(&said_place, known, ANSWER) && first_to_fail(hand->name))
                print_reading(hand->bits, known);
            singles.by_hand++;
        }
}

static void try_fixed_singles(void)
{
    asking("parsniprow_reading");
    for (size_t i = 0; i < HAND_READINGS; i++)
        try_hand_reading(&hand_readings[i]);
    asking("parsniprow_reading");
    try_whole_numbers();
    try_exponents();
    asking("the comparison");
}

/* A million of all bits, and a million from 0.5 to 2^17. */
static void try_many_singles(void)
{
    struct chance chance = chance_of(19, 21);
    uint32_t low = bits_of(0.5f), high = bits_of(131072.0f);
    asking("parsniprow_reading");
    for (size_t i = 0; i < 1000000; i++) {
        try_and_count((uint32_t)chance_below(&chance, (uint64_t)UINT32_MAX + 1));
        try_and_count(low + (uint32_t)chance_below(&chance, high - low + 1));
        singles.many += 2;
    }
    asking("the comparison");
}

/* Each part of them takes less than five minutes, on a slow machine too. */
uint64_t try_all_readings(void)
{
    enum { PARTS = 64 };
    uint64_t all = (uint64_t)UINT32_MAX + 1, asked = 0;
    for (uint64_t part = 0; part < PARTS; part++) {
        char name[60];
        sprintf(name, "among all readings, part %u of %u", (unsigned)part + 1, (unsigned)PARTS);
        working_on(name);
        asking("parsniprow_reading");
        for (uint64_t bits = all / PARTS * part; bits < all / PARTS * (part + 1); bits++, asked++)
            try_reading((uint32_t)bits);
    }
    asking("the comparison");
    return asked;
}

/* ---- a block of readings ---- */

struct question {
    const char *name;
    uint32_t length[3];
    uint16_t t;
    uint32_t noise;
    const float *readings;
    const uint16_t *greys; /* what they become, where none is at fault; else null */
    size_t readings_len, words_len, offsets_len, quads_len, counted_len, answer_len;
    struct lying lying;
    const unsigned char *beside; /* what the readings have beside them */
    uint32_t vertices, quads;    /* of the block before anything was made wrong about it */
};

/* A reading at the ceiling, twice. The other patterns are readings at fault: no number, and below zero. */
static const unsigned char bright_pattern[PATTERN] = {0x00, 0xFF, 0x7F, 0x47, 0x00, 0xFF, 0x7F, 0x47};

static const unsigned char *const besides[] = {byte_pattern, ceiling_pattern, bright_pattern};

enum { PATTERNS_BESIDE = sizeof besides / sizeof *besides };

static struct lent readings_place = LENT("readings", sizeof(float), 0, byte_pattern);
static struct lent words_place = LENT("words of the readings", sizeof(uint32_t), 0, byte_pattern);
static struct lent offsets_place = LENT("offsets of the readings", sizeof(double), 0, offset_pattern);
static struct lent quads_place = LENT("quads of the readings", sizeof(uint32_t), 0, byte_pattern);
static struct lent answer_place = LENT("answer of the readings' mesh", sizeof(uint32_t), ANSWER, byte_pattern);
static struct lent counted_place = LENT("answer of the readings' counts", sizeof(uint32_t), ANSWER, byte_pattern);

/* The same rooms for plain, and for the library where it is asked for the block of grey values. */
static struct lent other_words = LENT("words beside those", sizeof(uint32_t), 0, byte_pattern);
static struct lent other_offsets = LENT("offsets beside those", sizeof(double), 0, offset_pattern);
static struct lent other_quads = LENT("quads beside those", sizeof(uint32_t), 0, byte_pattern);

/* What plain answers. */
static uint32_t answer[ANSWER], counted[ANSWER];

static int is_bad_axis(uint32_t length)
{
    return length < SHORTEST_AXIS || length > LONGEST_AXIS;
}

/* The refusals that are due, were it not for those before them: bit n for the one at place n. What a mesh needs is that
   of the block before anything was made wrong about it. */
static unsigned due(const struct question *q)
{
    unsigned found = 0;
    for (unsigned axis = 0; axis < 3; axis++)
        found |= is_bad_axis(q->length[axis]) ? 1u << AXIS : 0;
    found |= q->readings_len != sample_product(q->length) ? 1u << COUNT : 0;
    found |= q->t == 0 || q->t == CEILING ? 1u << THRESHOLD : 0;
    for (size_t index = 0; index < q->readings_len; index++)
        found |= 1u << fault_of(bits_of(q->readings[index]));
    found &= ~(1u << ROWS);
    found |= q->words_len < 2 * (size_t)q->vertices || q->offsets_len < 3 * (size_t)q->vertices ? 1u << VERTICES : 0;
    found |= q->quads_len < 4 * (size_t)q->quads ? 1u << QUADS : 0;
    return found;
}

static void print_question(const struct question *q)
{
    printf("  %s; axes %lu, %lu, %lu; t %u; noise %lu; lengths: readings %zu, words %zu, offsets %zu, quads %zu, "
           "answers %zu and %zu; plain: counts %lu, %lu, %lu, mesh %lu, %lu, %lu; readings",
           q->name, (unsigned long)q->length[0], (unsigned long)q->length[1], (unsigned long)q->length[2],
           (unsigned)q->t, (unsigned long)q->noise, q->readings_len, q->words_len, q->offsets_len, q->quads_len,
           q->counted_len, q->answer_len, (unsigned long)counted[0], (unsigned long)counted[1],
           (unsigned long)counted[2], (unsigned long)answer[0], (unsigned long)answer[1], (unsigned long)answer[2]);
    for (size_t index = 0; index < q->readings_len && index < PRINTED_READINGS; index++)
        printf(" %.9g", (double)q->readings[index]);
    printf("%s\n", q->readings_len > PRINTED_READINGS ? " ..." : "");
}

static void lend_others(const struct question *q)
{
    struct lying lying = {PATTERNS, 0};
    lend(&other_words, q->words_len, lying);
    lend(&other_offsets, q->offsets_len, lying);
    lend(&other_quads, q->quads_len, lying);
}

/* Whether the other rooms hold a mesh of this size from their start on, and else what they held. */
static int others_keep(size_t vertices, size_t quads)
{
    return holds(&other_words, start(&other_words), 2 * vertices) &&
           holds(&other_offsets, start(&other_offsets), 3 * vertices) &&
           holds(&other_quads, start(&other_quads), 4 * quads);
}

static void ask_plain(const struct question *q)
{
    const uint32_t *n = q->length;
    lend_others(q);
    asking("plain_readings_counts and plain_readings_mesh");
    plain_readings_counts(n[0], n[1], n[2], q->readings, q->readings_len, q->t, q->noise, counted, ANSWER);
    plain_readings_mesh(n[0], n[1], n[2], q->readings, q->readings_len, q->t, q->noise, start(&other_words),
                        q->words_len, start(&other_offsets), q->offsets_len, start(&other_quads), q->quads_len, answer,
                        ANSWER);
    asking("the comparison");
}

static void lend_readings(const struct question *q)
{
    readings_place.pattern = q->beside;
    lend(&readings_place, q->readings_len, q->lying);
    if (q->readings_len > 0)
        memcpy(start(&readings_place), q->readings, q->readings_len * sizeof *q->readings);
}

/* What was lent only to be read must be as it was. */
static void judge_readings(const struct question *q)
{
    if (!holds(&readings_place, q->readings, q->readings_len) && first_to_fail("the readings are changed"))
        print_question(q);
}

static void run_counts(const struct question *q)
{
    const uint32_t *n = q->length;
    struct wanted wanted[] = {{&counted_place, counted, ANSWER}};
    lend_readings(q);
    lend(&counted_place, q->counted_len, q->lying);
    hand_out_to_read(&readings_place);
    hand_out_all(READINGS_COUNTS, q->lying, wanted, 1);
    parsniprow_readings_counts(n[0], n[1], n[2], start(&readings_place), q->readings_len, q->t, q->noise,
                               start(&counted_place), q->counted_len);
    take_back_read(&readings_place);
    if (first_to_differ(READINGS_COUNTS, wanted, 1))
        print_question(q);
    judge_readings(q);
}

/* The other rooms hold what is wanted. */
static void run_mesh(const struct question *q)
{
    const uint32_t *n = q->length;
    size_t vertices = answer[0] == 0 ? answer[1] : 0, quads = answer[0] == 0 ? answer[2] : 0;
    struct wanted wanted[] = {{&answer_place, answer, ANSWER},
                              {&words_place, start(&other_words), 2 * vertices},
                              {&offsets_place, start(&other_offsets), 3 * vertices},
                              {&quads_place, start(&other_quads), 4 * quads}};
    lend_readings(q);
    lend(&words_place, q->words_len, q->lying);
    lend(&offsets_place, q->offsets_len, q->lying);
    lend(&quads_place, q->quads_len, q->lying);
    lend(&answer_place, q->answer_len, q->lying);
    hand_out_to_read(&readings_place);
    hand_out_all(READINGS_MESH, q->lying, wanted, 4);
    parsniprow_readings_mesh(n[0], n[1], n[2], start(&readings_place), q->readings_len, q->t, q->noise,
                             start(&words_place), q->words_len, start(&offsets_place), q->offsets_len,
                             start(&quads_place), q->quads_len, start(&answer_place), q->answer_len);
    take_back_read(&readings_place);
    if (first_to_differ(READINGS_MESH, wanted, 4))
        print_question(q);
    judge_readings(q);
}

static int is_alike(const struct lent *a, const struct lent *b, size_t items)
{
    return items == 0 || memcmp(start(a), start(b), items * a->item) == 0;
}

/* The readings are their block: the library answers and writes for the grey values what it did for the readings. */
static void compare_with_block(const struct question *q)
{
    const uint32_t *n = q->length;
    uint32_t of_counts[ANSWER], of_mesh[ANSWER];
    lend_others(q);
    asking("parsniprow_counts and parsniprow_mesh");
    parsniprow_counts(n[0], n[1], n[2], q->greys, q->readings_len, q->t, q->noise, of_counts, ANSWER);
    parsniprow_mesh(n[0], n[1], n[2], q->greys, q->readings_len, q->t, q->noise, start(&other_words), q->words_len,
                    start(&other_offsets), q->offsets_len, start(&other_quads), q->quads_len, of_mesh, ANSWER);
    asking("the comparison");
    if (!holds(&counted_place, of_counts, ANSWER) && first_to_fail("not the counts of the block of grey values"))
        print_question(q);
    if (!holds(&answer_place, of_mesh, ANSWER) && first_to_fail("not the answer for the block of grey values"))
        print_question(q);
    if ((!is_alike(&words_place, &other_words, q->words_len) ||
         !is_alike(&offsets_place, &other_offsets, q->offsets_len) ||
         !is_alike(&quads_place, &other_quads, q->quads_len)) &&
        first_to_fail("not the mesh of the block of grey values"))
        print_question(q);
    tally.held++;
}

/* ---- what occurred in a block ---- */

/* Where the lowest fault stands. */
static void count_fault_place(const struct question *q, size_t at)
{
    size_t end = q->readings_len;
    uint64_t behind = 0;
    for (size_t index = at + 1; index < end; index++)
        behind += fault_of(bits_of(q->readings[index])) != ROWS;
    tally.several += behind > 0;
    tally.fault_first += at == 0;
    tally.fault_last += at + 1 == end;
    tally.fault_within += at > 0 && at + 1 < end;
    tally.behind_run += at >= RUN;
    tally.before_run_end += at % RUN == RUN - 1;
    tally.at_run_start += at >= RUN && at % RUN == 0;
    tally.last_run += end > RUN && at >= end / RUN * RUN;
}

/* May the first of these be given where both are due? Of two faults either may, since their places decide. */
static int may_come_first(unsigned row, unsigned other)
{
    return other > row || (is_fault(row) && is_fault(other));
}

/* Two faults of one kind are an order too: the lower index is given. */
static void count_orders(const struct question *q, unsigned given)
{
    unsigned found = due(q);
    uint64_t alike = 0;
    for (unsigned other = 0; other < ROWS; other++)
        if (other != given && may_come_first(given, other))
            tally.orders[given][other] += found >> other & 1;
    for (size_t index = 0; is_fault(given) && index < q->readings_len; index++)
        alike += fault_of(bits_of(q->readings[index])) == given;
    tally.orders[given][given] += alike > 1;
}

static void count_refused(const struct question *q, unsigned given)
{
    int words_short = q->words_len < 2 * (size_t)q->vertices, offsets_short = q->offsets_len < 3 * (size_t)q->vertices;
    count_orders(q, given);
    tally.zero += given == THRESHOLD && q->t == 0;
    tally.top += given == THRESHOLD && q->t == CEILING;
    tally.short_words += given == VERTICES && words_short && !offsets_short;
    tally.short_offsets += given == VERTICES && !words_short && offsets_short;
    tally.no_room += given == VERTICES && q->words_len == 0 && q->offsets_len == 0;
    tally.one_less[0] += given == VERTICES && q->words_len + 1 == 2 * (size_t)q->vertices;
    tally.one_less[1] += given == VERTICES && q->offsets_len + 1 == 3 * (size_t)q->vertices;
    tally.one_less[2] += given == QUADS && q->quads_len + 1 == 4 * (size_t)q->quads;
    tally.noise_fault += is_fault(given) && q->noise > 0;
    tally.noise_room[0] += given == VERTICES && q->noise > 0;
    tally.noise_room[1] += given == QUADS && q->noise > 0;
    if (is_fault(given))
        count_fault_place(q, answer[1]);
    count_block_fault(&tally.faults, answer, q->length, q->readings_len);
}

/* Which readings an accepted block has. */
static void count_values(const struct question *q)
{
    size_t minus_zero = 0, subnormal = 0, fraction = 0, at_t = 0, above_t = 0, below_t = 0, half_below = 0;
    size_t at_ceiling = 0, above_ceiling = 0, greatest = 0, below_ceiling = 0;
    uint32_t t_bits = bits_of((float)q->t), ceiling_bits = bits_of((float)CEILING);
    for (size_t index = 0; index < q->readings_len; index++) {
        float reading = q->readings[index];
        uint32_t bits = bits_of(reading);
        minus_zero += bits == SIGN;
        subnormal += reading > 0 && reading < FLT_MIN;
        fraction += reading < CEILING && reading != (float)(uint32_t)reading;
        at_t += bits == t_bits;
        above_t += bits == t_bits + 1;
        below_t += bits == t_bits - 1;
        half_below += reading == (float)q->t - 0.5f;
        at_ceiling += bits == ceiling_bits;
        above_ceiling += bits > ceiling_bits && bits < SIGN;
        greatest += reading == FLT_MAX;
        below_ceiling += bits == ceiling_bits - 1;
    }
    tally.minus_zero += minus_zero > 0;
    tally.subnormal += subnormal > 0;
    tally.fraction += fraction > 0;
    tally.at_t += at_t > 0;
    tally.step_above_t += above_t > 0;
    tally.step_below_t += below_t > 0;
    tally.half_below_t += half_below > 0;
    tally.at_ceiling += at_ceiling > 0;
    tally.above_ceiling += above_ceiling > 0;
    tally.greatest += greatest > 0;
    tally.step_below_ceiling += below_ceiling > 0;
}

/* What the noise figure does to a short block that is accepted, beside noise 0. */
static void check_noise(const struct question *q)
{
    uint32_t without[ANSWER];
    struct noise_effect effect;
    count_figure(&tally.noise, q->noise);
    if (q->noise == 0 || !q->greys || q->readings_len > SHORT_BLOCK)
        return;
    effect = effect_of(q->length, q->t, q->noise, q->greys);
    count_effect(&tally.noise, &effect);
    asking("parsniprow_readings_counts");
    parsniprow_readings_counts(q->length[0], q->length[1], q->length[2], q->readings, q->readings_len, q->t, 0, without,
                               ANSWER);
    asking("the comparison");
    if (first_to_change(&effect, without, answer))
        print_question(q);
    tally.changed += without[1] != answer[1];
}

static void count_accepted(const struct question *q)
{
    const uint32_t *words = start(&words_place);
    size_t vertices = answer[1], quads = answer[2], marked = 0;
    for (size_t vertex = 0; vertex < vertices; vertex++)
        marked += words[2 * vertex + 1] >= MARK;
    tally.marked += marked > 0;
    tally.some_marked += marked > 0 && marked < vertices;
    tally.none_marked += vertices > 0 && marked == 0;
    tally.no_vertex += vertices == 0;
    tally.no_quad += vertices > 0 && quads == 0;
    tally.quads += quads > 0;
    tally.long_row += quads > 0 && q->length[0] > 64;
    for (unsigned axis = 0; axis < 3; axis++)
        tally.longest[axis] += quads > 0 && q->length[axis] == LONGEST_AXIS;
    tally.lowest += q->t == 1;
    tally.highest += q->t == HIGHEST;
    tally.exact += quads > 0 && q->words_len == 2 * vertices && q->offsets_len == 3 * vertices &&
                   q->quads_len == 4 * quads;
    tally.longer += quads > 0 && q->words_len > 2 * vertices && q->offsets_len > 3 * vertices &&
                    q->quads_len > 4 * quads;
    count_values(q);
    check_noise(q);
}

static unsigned row_of(const uint32_t *said)
{
    unsigned given = 0;
    while (given < ROWS && row_numbers[given] != said[0])
        given++;
    return given;
}

/* The last place is that of the blocks which are accepted. */
static void count_question(const struct question *q)
{
    unsigned given = row_of(answer);
    tally.blocks++;
    tally.counts[row_of(counted)]++;
    tally.answers[given]++;
    if (given == ROWS)
        count_accepted(q);
    else
        count_refused(q, given);
}

/* After a long block the places are given back, so that with short ones no long pages are opened and closed. */
static void give_places_back(void)
{
    give_back(&readings_place);
    give_back(&words_place);
    give_back(&offsets_place);
    give_back(&quads_place);
    give_back(&other_words);
    give_back(&other_offsets);
    give_back(&other_quads);
}

static void try_question(const struct question *q)
{
    ask_plain(q);
    if (!others_keep(answer[0] == 0 ? answer[1] : 0, answer[0] == 0 ? answer[2] : 0) &&
        first_to_fail("plain wrote where it must keep"))
        print_question(q);
    run_counts(q);
    run_mesh(q);
    if (q->greys)
        compare_with_block(q);
    count_question(q);
    if (q->readings_len > SHORT_BLOCK)
        give_places_back();
}

/* ---- what is asked once ---- */

/* A block of readings, with noise 0, answer places of the right length and no room for a mesh yet. Patterns and pages
   beside them take turns. */
static struct question next_question(const char *name, const uint32_t length[3], uint16_t t, const float *readings)
{
    static unsigned turn;
    struct question question;
    memset(&question, 0, sizeof question);
    question.name = name;
    memcpy(question.length, length, sizeof question.length);
    question.t = t;
    question.readings = readings;
    question.readings_len = (size_t)sample_product(length);
    question.counted_len = question.answer_len = ANSWER;
    question.lying.beside = (enum beside)(turn % BESIDES);
    question.lying.shift = turn % MOST_SHIFT;
    question.beside = besides[turn / BESIDES % PATTERNS_BESIDE];
    turn++;
    return question;
}

static void give_room(struct question *question, size_t vertices, size_t quads)
{
    question->words_len = 2 * vertices;
    question->offsets_len = 3 * vertices;
    question->quads_len = 4 * quads;
}

/* The library must have given these answers, whatever plain says. */
static void expect_answers(const struct question *q, const uint32_t *known_counts, const uint32_t *known_mesh)
{
    if ((!holds(&counted_place, known_counts, ANSWER) || !holds(&answer_place, known_mesh, ANSWER)) &&
        first_to_fail(q->name))
        print_question(q);
}

/* With all lengths of the answer places. */
static void try_hand_reading_block(const struct hand_reading_block *block)
{
    float readings[MOST_HAND_READINGS];
    fill_hand_reading_block(block, readings);
    for (size_t answer_len = 0; answer_len <= ANSWER + 1; answer_len++)
        for (unsigned beside = 0; beside < PATTERNS_BESIDE * BESIDES; beside++) {
            struct question question = next_question(block->name, block->length, block->t, readings);
            question.readings_len = block->readings_len;
            question.counted_len = answer_len;
            question.answer_len = (answer_len + beside) % (ANSWER + 2);
            question.vertices = 8;
            question.quads = 6;
            give_room(&question, block->vertices, block->quads);
            try_question(&question);
            expect_answers(&question, block->counted, block->meshed);
            tally.by_hand++;
        }
}

/* How grey values become readings: as they are, by a half more, by the greatest float that still has them, and each in
   its own way. */
enum dress { BARE, HALF_MORE, MOST, MIXED, DRESSES };

static float most_of(uint16_t grey)
{
    return grey == CEILING ? FLT_MAX : reading_of(bits_of((float)grey + 1) - 1);
}

/* A reading at the ceiling. */
static float bright(struct chance *chance)
{
    static const float some[] = {65535.0f, 65535.004f, 65535.5f,      65535.996f,    65536.0f, 65537.0f,
                                 131071.0f, 1e9f,      4294967296.0f, 4294968320.0f, FLT_MAX};
    uint64_t how = chance_below(chance, 2 * sizeof some / sizeof *some);
    uint32_t from = bits_of((float)CEILING);
    if (how < sizeof some / sizeof *some)
        return some[how];
    return reading_of(from + (uint32_t)chance_below(chance, INFINITE_BITS - from));
}

/* A reading that becomes zero. */
static float dark(struct chance *chance)
{
    switch (chance_below(chance, 6)) {
    case 0:
        return 0.0f;
    case 1:
        return -0.0f;
    case 2:
        return reading_of(1 + (uint32_t)chance_below(chance, FRACTION)); /* below 2^-126 */
    case 3:
        return most_of(0);
    default:
        return reading_of((uint32_t)chance_below(chance, bits_of(1.0f)));
    }
}

/* A reading that becomes this grey value. */
static float mixed(struct chance *chance, uint16_t grey)
{
    uint32_t from = bits_of((float)grey);
    if (grey == CEILING)
        return bright(chance);
    if (grey == 0)
        return dark(chance);
    switch (chance_below(chance, 6)) {
    case 0:
        return (float)grey;
    case 1:
        return reading_of(from + 1);
    case 2:
        return (float)grey + 0.5f;
    case 3:
        return most_of(grey);
    default:
        return reading_of(from + (uint32_t)chance_below(chance, bits_of((float)grey + 1) - from));
    }
}

static float dressed(struct chance *chance, enum dress dress, uint16_t grey)
{
    switch (dress) {
    case BARE:
        return (float)grey;
    case HALF_MORE:
        return (float)grey + 0.5f;
    case MOST:
        return most_of(grey);
    default:
        return mixed(chance, grey);
    }
}

/* The blocks of grey values that were worked out by hand, in each dress. */
static void try_hand_block(const struct hand_block *block, enum dress dress)
{
    struct chance chance = chance_of(block->t, dress);
    uint16_t greys[MOST_HAND_SAMPLES];
    float readings[MOST_HAND_SAMPLES];
    struct question question = next_question(block->name, block->length, block->t, readings);
    uint32_t known[ANSWER] = {block->answer[0], block->answer[1], 0};
    if (known[0] == 0) {
        known[1] = block->vertices;
        known[2] = block->quads;
    }
    fill_hand_block(block, greys);
    for (size_t index = 0; index < block->samples_len; index++)
        readings[index] = dressed(&chance, dress, greys[index]);
    question.noise = block->noise;
    question.readings_len = block->samples_len;
    question.greys = greys;
    question.vertices = block->vertices;
    question.quads = block->quads;
    give_room(&question, block->vertices, block->quads);
    try_question(&question);
    expect_answers(&question, known, known);
    tally.hand_blocks++;
}

/* A fault at every place of a block of more than two runs, by itself and with another one further on. */
static void try_each_place(void)
{
    static const uint32_t length[3] = {7, 11, 30};
    static const float faults[] = {NAN, INFINITY, -1.0f, -INFINITY};
    static const uint32_t numbers[] = {19, 20, 21, 20};
    static float readings[7 * 11 * 30];
    size_t count = sizeof readings / sizeof *readings;
    for (size_t index = 0; index < count; index++)
        readings[index] = (float)(index % 150) + 0.75f;
    for (size_t at = 0; at < count; at++) {
        size_t behind = at + 1 + at * 7 % (count - at);
        float good[2] = {readings[at], readings[behind % count]};
        uint32_t known[ANSWER] = {numbers[at % 4], (uint32_t)at, 0};
        struct question question = next_question("a fault at each place", length, 100, readings);
        question.noise = (uint32_t)at;
        if (behind < count)
            readings[behind] = faults[(at + 1) % 4];
        readings[at] = faults[at % 4];
        try_question(&question);
        expect_answers(&question, known, known);
        readings[behind % count] = good[1];
        readings[at] = good[0];
        tally.each_place++;
    }
}

/* Refused by its length or by an axis alone, so no reading may be touched: the length is right when it is cut to 32
   bits. */
static void try_no_memory(uint32_t ny, size_t more, uint32_t number, uint32_t value)
{
    size_t readings_len = 9 * (size_t)ny + more, bytes = readings_len * sizeof(float);
    uint32_t words[2] = {9, 9}, quads[4] = {9, 9, 9, 9}, said[2][ANSWER] = {{9, 9, 9}, {9, 9, 9}};
    double offsets[3] = {9, 9, 9};
    void *readings = space(bytes, 0);
    asking("parsniprow_readings_counts");
    parsniprow_readings_counts(3, ny, 3, readings, readings_len, 0, 1, said[0], ANSWER);
    asking("parsniprow_readings_mesh");
    parsniprow_readings_mesh(3, ny, 3, readings, readings_len, 0, 1, words, 2, offsets, 3, quads, 4, said[1], ANSWER);
    asking("the comparison");
    give_space_back(readings, bytes);
    for (unsigned i = 0; i < 2; i++)
        if (said[i][0] != number || said[i][1] != value || said[i][2] != 0)
            first_to_fail("more readings than any memory has are answered otherwise");
    if (words[0] != 9 || words[1] != 9 || quads[0] != 9 || quads[3] != 9 || offsets[0] != 9 || offsets[2] != 9)
        first_to_fail("a mesh of more readings than any memory has");
    tally.no_memory++;
}

void try_fixed_readings(void)
{
    size_t cut = (size_t)UINT32_MAX + 1;
    try_fixed_singles();
    for (size_t i = 0; i < HAND_READING_BLOCKS; i++)
        try_hand_reading_block(&hand_reading_blocks[i]);
    for (size_t i = 0; i < HAND_BLOCKS; i++)
        for (unsigned dress = 0; dress < DRESSES; dress++)
            try_hand_block(&hand_blocks[i], (enum dress)dress);
    try_each_place();
    try_no_memory(3, cut, 2, 27);
    try_no_memory(3, 2 * cut, 2, 27);
    try_no_memory(1, cut, 1, 1);
    try_no_memory(257, 3 * cut, 1, 1);
}

/* ---- the largest block ---- */

static void *room_for(size_t count, size_t item)
{
    void *room = malloc(count * item);
    if (!room) {
        fprintf(stderr, "compare: no memory\n");
        exit(2);
    }
    return room;
}

/* A block with long rows or many of them, samples at the ceiling and some noise figure. */
static void try_large(uint32_t nx, uint32_t ny, uint32_t nz, enum kind kind, uint16_t t)
{
    uint32_t length[3] = {nx, ny, nz}, known[ANSWER];
    size_t count = (size_t)sample_product(length);
    float *readings = room_for(count, sizeof *readings);
    uint16_t *greys = room_for(count, sizeof *greys);
    struct chance chance = chance_of(nx + ny, nz);
    struct question question = next_question(kind_names[kind], length, t, readings);
    fill_block(&chance, kind, length, t, greys);
    add_ceilings(&chance, length, t, greys);
    for (size_t index = 0; index < count; index++)
        readings[index] = mixed(&chance, greys[index]);
    question.noise = choose_noise(&chance, length, t, greys);
    asking("plain_counts");
    plain_counts(nx, ny, nz, greys, count, t, question.noise, known, ANSWER);
    question.greys = greys;
    question.vertices = known[1];
    question.quads = known[2];
    give_room(&question, known[1], known[2]);
    try_question(&question);
    expect_answers(&question, known, known);
    free(readings);
    free(greys);
    tally.large++;
}

/* A tube of metal with a steel bush at the ceiling in it and some pores, all off the faces of the box. */
static uint16_t grey_of_tube(int64_t i, int64_t j, int64_t k)
{
    int64_t x = i - 128, y = j - 128, square = x * x + y * y;
    int is_metal = square >= 60 * 60 && square <= 110 * 110 && k >= 8 && k < 248;
    if (is_metal && k >= 100 && k < 120 && square < 70 * 70)
        return CEILING;
    if (is_metal && k % 40 == 20 && (i + j) % 31 < 2)
        return (uint16_t)(6000 + (i * 7 + j * 13) % 1000);
    return (uint16_t)((is_metal ? 40000 : 6000) + (i * 7 + j * 13 + k * 29) % 1000);
}

/* The tube as it is; then with faults at its end. */
static void try_largest_block(void)
{
    static const uint32_t length[3] = {LONGEST_AXIS, LONGEST_AXIS, LONGEST_AXIS};
    size_t count = (size_t)sample_product(length), index = 0;
    float *readings = room_for(count, sizeof *readings);
    uint16_t *greys = room_for(count, sizeof *greys);
    struct chance chance = chance_of(256, 256);
    struct question question = next_question("the largest block", length, 23000, readings);
    uint32_t known[ANSWER], refused[ANSWER] = {21, (uint32_t)count - 2, 0};
    for (uint32_t k = 0; k < LONGEST_AXIS; k++)
        for (uint32_t j = 0; j < LONGEST_AXIS; j++)
            for (uint32_t i = 0; i < LONGEST_AXIS; i++, index++) {
                greys[index] = grey_of_tube(i, j, k);
                readings[index] = mixed(&chance, greys[index]);
            }
    question.noise = 100000;
    asking("plain_counts");
    plain_counts(length[0], length[1], length[2], greys, count, question.t, question.noise, known, ANSWER);
    question.greys = greys;
    question.vertices = known[1];
    question.quads = known[2];
    give_room(&question, known[1], known[2]);
    try_question(&question);
    expect_answers(&question, known, known);
    readings[count - 1] = NAN;
    readings[count - 2] = -1e-45f;
    question.greys = NULL;
    give_room(&question, 0, 0);
    try_question(&question);
    expect_answers(&question, refused, refused);
    free(readings);
    free(greys);
    tally.largest++;
}

void try_largest_readings(void)
{
    try_many_singles();
    try_large(256, 256, 3, UNIFORM_NOISE, 32767);
    try_large(256, 256, 2, NEAR_THRESHOLD, 100);
    try_large(3, 256, 256, UNIFORM_NOISE, 65534);
    try_large(256, 3, 256, PORES, 20000);
    try_large(65, 129, 12, SPARSE, 30000);
    try_largest_block();
}

/* ---- blocks of readings with a block ---- */

/* The rows that are to be made wrong, bit n for the one at place n. For the three of a reading NO_NUMBER stands. */
static unsigned choose_wrongs(struct chance *chance)
{
    static const enum row rows[] = {AXIS, COUNT, THRESHOLD, NO_NUMBER, NO_NUMBER, VERTICES, QUADS};
    unsigned how = (unsigned)chance_below(chance, 100), wrongs = 0;
    unsigned wanted = how < 40 ? 0 : how < 65 ? 1 : how < 95 ? 2 : 3 + (unsigned)chance_below(chance, 4);
    while (wanted > 0) {
        unsigned bit = 1u << rows[chance_below(chance, sizeof rows / sizeof *rows)];
        wanted -= !(wrongs & bit);
        wrongs |= bit;
    }
    return wrongs;
}

/* What is at fault by this row: with any payload and sign where it is no number, and often as little below zero as can
   be. */
static float choose_fault(struct chance *chance, enum row row)
{
    uint32_t sign = chance_in_100(chance, 50) ? SIGN : 0;
    uint64_t how = chance_below(chance, 8);
    if (row == NO_NUMBER)
        return reading_of(sign | INFINITE_BITS |
                          (how == 0   ? QUIET
                           : how == 1 ? 1
                                      : 1 + (uint32_t)chance_below(chance, FRACTION)));
    if (row == INFINITE)
        return reading_of(sign | INFINITE_BITS);
    if (how < 2)
        return reading_of(SIGN | 1);
    if (how < 4)
        return reading_of(SIGN | (1 + (uint32_t)chance_below(chance, FRACTION)));
    if (how < 6)
        return how == 4 ? -1.0f : -(float)(1 + chance_below(chance, CEILING));
    return reading_of(SIGN + 1 + (uint32_t)chance_below(chance, INFINITE_BITS - 1));
}

/* Any place, the first, the last, or the end or the start of a run. */
static size_t choose_place(struct chance *chance, size_t count)
{
    uint64_t how = chance_below(chance, 100);
    size_t any = (size_t)chance_below(chance, count);
    if (how < 8)
        return 0;
    if (how < 16)
        return count - 1;
    if (how < 40 && count > RUN) {
        size_t at = RUN * (1 + (size_t)chance_below(chance, count / RUN)) - how % 2;
        return at < count ? at : any;
    }
    return any;
}

/* One to five faults, of one kind or of several. Now and then all from some place on are at fault. */
static void put_faults(struct chance *chance, float *readings, size_t count)
{
    size_t faults = chance_in_100(chance, 40) ? 1 : 2 + (size_t)chance_below(chance, MOST_FAULTS - 1);
    enum row first = (enum row)(NO_NUMBER + chance_below(chance, 3));
    int is_alike = chance_in_100(chance, 20);
    for (size_t i = 0; i < faults; i++) {
        enum row row = is_alike ? first : (enum row)(NO_NUMBER + chance_below(chance, 3));
        readings[choose_place(chance, count)] = choose_fault(chance, row);
    }
    if (chance_in_100(chance, 5))
        for (size_t index = choose_place(chance, count); index < count; index++)
            readings[index] = choose_fault(chance, (enum row)(NO_NUMBER + chance_below(chance, 3)));
}

static float readings_now[MOST_READINGS];
static uint16_t greys_now[MOST_READINGS];

/* A good block. Where a room is to be short it is of a kind that has a mesh. Now and then its readings are any numbers
   from zero up; what they become is then found by cutting the fraction off. */
static void choose_good(struct chance *chance, struct question *q, int is_short)
{
    static const enum kind lively[] = {UNIFORM_NOISE, NEAR_THRESHOLD,     EQUAL_PRODUCTS, LARGE_PRODUCTS,
                                       CHECKERBOARD,  ROUGH_CHECKERBOARD, TILED};
    enum kind kind = is_short ? lively[chance_below(chance, sizeof lively / sizeof *lively)]
                              : (enum kind)chance_below(chance, KINDS);
    uint64_t how = chance_below(chance, 10);
    enum dress dress = how < 1 ? BARE : how < 2 ? HALF_MORE : how < 3 ? MOST : MIXED;
    int is_any = !is_short && chance_in_100(chance, 8);
    size_t count = (size_t)sample_product(q->length);
    q->name = is_any ? "any numbers" : kind_names[kind];
    fill_block(chance, kind, q->length, q->t, greys_now);
    if (chance_below(chance, 3) == 0)
        add_ceilings(chance, q->length, q->t, greys_now);
    for (size_t index = 0; index < count; index++) {
        float reading = is_any ? reading_of((uint32_t)chance_below(chance, INFINITE_BITS))
                               : dressed(chance, dress, greys_now[index]);
        readings_now[index] = reading;
        if (is_any)
            greys_now[index] = reading < CEILING ? (uint16_t)reading : CEILING;
    }
    tally.kinds[kind] += !is_any;
    tally.any_numbers += is_any;
    tally.dresses[dress] += !is_any;
}

static void choose_rooms(struct chance *chance, struct question *q, unsigned wrongs)
{
    int is_short = wrongs >> VERTICES & 1;
    uint64_t which = chance_below(chance, 3);
    q->words_len = choose_room(chance, 2 * (size_t)q->vertices, is_short && q->vertices > 0 && which != 0);
    q->offsets_len = choose_room(chance, 3 * (size_t)q->vertices, is_short && q->vertices > 0 && which != 1);
    q->quads_len = choose_room(chance, 4 * (size_t)q->quads, (wrongs >> QUADS & 1) && q->quads > 0);
    q->counted_len = choose_reach(chance, ANSWER);
    q->answer_len = choose_reach(chance, ANSWER);
    q->lying = choose_lying(chance);
    q->beside = besides[chance_below(chance, PATTERNS_BESIDE)];
}

/* One to three bad axes. */
static void spoil_axes(struct chance *chance, struct question *q)
{
    static const uint32_t bad[] = {0, 1, 257, 258, 512, 65536, UINT32_C(1) << 31, UINT32_MAX};
    do
        q->length[chance_below(chance, 3)] = bad[chance_below(chance, sizeof bad / sizeof *bad)];
    while (chance_in_100(chance, 30));
}

/* The number of readings that the axes ask for, or another one, or where the axes ask for too many the one that there
   was. */
static void choose_count(struct chance *chance, struct question *q, int is_wrong)
{
    uint64_t wanted = sample_product(q->length), how = chance_below(chance, 10);
    if (wanted >= MOST_READINGS / 2)
        return;
    q->readings_len = (size_t)wanted;
    if (!is_wrong)
        return;
    q->readings_len += how < 4 || wanted == 0 ? 1 : 0;
    q->readings_len -= how >= 4 && how < 8 && wanted > 0 ? 1 : 0;
    if (how >= 8)
        q->readings_len = (size_t)chance_below(chance, 2 * wanted + 2);
}

/* As of other blocks. Where a reading is to be at fault, often so long that there are more than 1024. */
static void choose_axes(struct chance *chance, unsigned wrongs, uint32_t length[3])
{
    choose_size(chance, (wrongs >> VERTICES | wrongs >> QUADS) & 1, length);
    if (!(wrongs >> NO_NUMBER & 1) || !chance_in_100(chance, 30))
        return;
    for (unsigned axis = 0; axis < 3; axis++)
        length[axis] = 8 + (uint32_t)chance_below(chance, 10);
}

/* A good block first, whose mesh says which rooms are short; then what is made wrong. */
static struct question choose_question(struct chance *chance)
{
    unsigned wrongs = choose_wrongs(chance);
    int is_short = (wrongs >> VERTICES | wrongs >> QUADS) & 1;
    uint32_t length[3], counts[ANSWER];
    struct question q;
    size_t good;
    choose_axes(chance, wrongs, length);
    q = next_question("", length, choose_threshold(chance), readings_now);
    choose_good(chance, &q, is_short);
    good = q.readings_len;
    q.noise = choose_noise(chance, length, q.t, greys_now);
    plain_counts(length[0], length[1], length[2], greys_now, good, q.t, q.noise, counts, ANSWER);
    q.vertices = counts[1];
    q.quads = counts[2];
    choose_rooms(chance, &q, wrongs);
    if (wrongs >> AXIS & 1)
        spoil_axes(chance, &q);
    choose_count(chance, &q, wrongs >> COUNT & 1);
    if (wrongs >> THRESHOLD & 1)
        q.t = chance_in_100(chance, 50) ? 0 : CEILING;
    for (size_t index = good; index < q.readings_len; index++) {
        greys_now[index] = (uint16_t)chance_below(chance, CEILING + 1);
        readings_now[index] = mixed(chance, greys_now[index]);
    }
    q.greys = greys_now;
    if ((wrongs >> NO_NUMBER & 1) && q.readings_len > 0) {
        put_faults(chance, readings_now, q.readings_len);
        q.greys = NULL;
    }
    return q;
}

/* Any bits, a reading at fault, or one that becomes some grey value, often one of the lowest or of the highest. */
static uint32_t choose_reading(struct chance *chance)
{
    static const uint16_t greys[] = {0, 0, 1, HIGHEST, CEILING, CEILING};
    uint64_t how = chance_below(chance, 4);
    if (how == 0)
        return (uint32_t)chance_below(chance, (uint64_t)UINT32_MAX + 1);
    if (how == 1)
        return bits_of(choose_fault(chance, (enum row)(NO_NUMBER + chance_below(chance, 3))));
    return bits_of(mixed(chance, how == 2 ? greys[chance_below(chance, sizeof greys / sizeof *greys)]
                                          : (uint16_t)chance_below(chance, CEILING)));
}

void try_readings(struct trial *trial)
{
    struct chance *chance = &trial->chance;
    struct question question;
    for (unsigned i = 0; i < READINGS_WITH_BLOCK; i++) {
        uint32_t bits = choose_reading(chance);
        size_t answer_len = choose_reach(chance, ANSWER);
        try_lent_reading(bits, answer_len, choose_lying(chance));
    }
    question = choose_question(chance);
    try_question(&question);
}

/* ---- printing ---- */

static void tally_singles(void)
{
    tally_title("readings");
    tally_case("worked out by hand", singles.by_hand);
    tally_case("around a whole number", singles.whole);
    tally_case("around a half", singles.halves);
    tally_case("exponents", singles.exponents);
    tally_case("among two million", singles.many);
    tally_case("in lent memory", singles.lent);
    tally_case("zero", singles.zero);
    tally_case("minus zero", singles.minus_zero);
    tally_case("above zero and below 2^-126", singles.subnormal);
    tally_case("from there below 1", singles.below_one);
    tally_case("from 1 below 65535", singles.grey);
    tally_case("of these with a fraction", singles.with_fraction);
    tally_case("from 65534 on", singles.highest);
    tally_case("65535", singles.at_ceiling);
    tally_case("above", singles.above_ceiling);
    tally_case("the greatest", singles.greatest);
    tally_case("no number", singles.quiet[0]);
    tally_case("with the sign", singles.quiet[1]);
    tally_case("that signals", singles.signalling[0]);
    tally_case("that signals with the sign", singles.signalling[1]);
    tally_case("infinite", singles.infinite[0]);
    tally_case("below zero too", singles.infinite[1]);
    tally_case("below zero", singles.below_zero);
    tally_case("by less than 2^-126", singles.little_below_zero);
    tally_reaches(&said_place);
}

static void tally_made(void)
{
    static const char *const dress_names[DRESSES] = {"as they are", "by a half more", "by as much more as can be",
                                                     "each in its own way"};
    tally_title("blocks of readings");
    tally_case("worked out by hand", tally.by_hand);
    tally_case("as grey values", tally.hand_blocks);
    tally_case("a fault at each place", tally.each_place);
    tally_case("lengths that no memory has", tally.no_memory);
    tally_case("large", tally.large);
    tally_case("the largest", tally.largest);
    for (unsigned kind = 0; kind < KINDS; kind++)
        tally_case(kind_names[kind], tally.kinds[kind]);
    tally_case("any numbers", tally.any_numbers);
    tally_title("grey values as readings");
    for (unsigned dress = 0; dress < DRESSES; dress++)
        tally_case(dress_names[dress], tally.dresses[dress]);
}

static void tally_given(const char *title, const uint64_t *given, unsigned rows)
{
    char name[40];
    tally_title(title);
    tally_case("accepted", given[ROWS]);
    for (unsigned row = 0; row < rows; row++) {
        sprintf(name, "refusal %u", row_numbers[row]);
        tally_case(name, given[row]);
    }
}

static void tally_refused(void)
{
    char name[40];
    tally_given("answers of the counts of readings", tally.counts, COUNT_ROWS);
    tally_given("answers of the mesh of readings", tally.answers, ROWS);
    for (unsigned row = 0; row < ROWS; row++)
        for (unsigned other = 0; other < ROWS; other++) {
            if (is_fault(row) && is_fault(other))
                sprintf(name, "%u at a lower index than %u", row_numbers[row], row_numbers[other]);
            else
                sprintf(name, "%u before %u", row_numbers[row], row_numbers[other]);
            if (may_come_first(row, other))
                tally_case(name, tally.orders[row][other]);
        }
    tally_case("t = 0", tally.zero);
    tally_case("t = 65535", tally.top);
    tally_case("words alone short", tally.short_words);
    tally_case("offsets alone short", tally.short_offsets);
    tally_case("no room for vertices", tally.no_room);
    tally_case("one item less of words", tally.one_less[0]);
    tally_case("of offsets", tally.one_less[1]);
    tally_case("of quads", tally.one_less[2]);
    tally_block_faults(&tally.faults);
    tally_title("the lowest reading at fault");
    tally_case("the first", tally.fault_first);
    tally_case("the last", tally.fault_last);
    tally_case("between them", tally.fault_within);
    tally_case("behind 1024 others", tally.behind_run);
    tally_case("the last of 1024", tally.before_run_end);
    tally_case("the first of the next", tally.at_run_start);
    tally_case("behind the last 1024", tally.last_run);
    tally_case("others behind it", tally.several);
}

static void tally_accepted(void)
{
    char name[40];
    tally_title("accepted blocks of readings");
    tally_case("t = 1", tally.lowest);
    tally_case("t = 65534", tally.highest);
    tally_case("minus zero", tally.minus_zero);
    tally_case("above zero and below 2^-126", tally.subnormal);
    tally_case("a fraction", tally.fraction);
    tally_case("t", tally.at_t);
    tally_case("a step above t", tally.step_above_t);
    tally_case("a step below t", tally.step_below_t);
    tally_case("t - 0.5", tally.half_below_t);
    tally_case("a step below 65535", tally.step_below_ceiling);
    tally_case("65535", tally.at_ceiling);
    tally_case("above 65535", tally.above_ceiling);
    tally_case("the greatest", tally.greatest);
    tally_case("marked", tally.marked);
    tally_case("some vertices marked, others not", tally.some_marked);
    tally_case("none marked", tally.none_marked);
    tally_case("no vertices", tally.no_vertex);
    tally_case("vertices and no quads", tally.no_quad);
    tally_case("quads", tally.quads);
    tally_case("row of more than 64 samples", tally.long_row);
    for (unsigned axis = 0; axis < 3; axis++) {
        sprintf(name, "axis %c of 256", "xyz"[axis]);
        tally_case(name, tally.longest[axis]);
    }
    tally_case("all rooms exact", tally.exact);
    tally_case("all rooms longer", tally.longer);
    tally_case("held against their grey values", tally.held);
    tally_title("blocks of readings with a noise figure");
    tally_noise(&tally.noise);
    tally_case("a reading at fault", tally.noise_fault);
    tally_case("refusal 5", tally.noise_room[0]);
    tally_case("refusal 6", tally.noise_room[1]);
    tally_case("vertices changed against noise 0", tally.changed);
}

uint64_t tally_readings(void)
{
    tally_singles();
    tally_made();
    tally_refused();
    tally_accepted();
    tally_reaches(&counted_place);
    tally_reaches(&answer_place);
    return tally.blocks;
}
