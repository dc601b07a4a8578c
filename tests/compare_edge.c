/* Compares the edge question with the plain implementation: all special values once, random ones with each block.
   Assumes nothing more than compare.h. */
#include "compare.h"

#include <stdio.h>

enum { EDGES_FOR_A_BLOCK = 8 };

struct edge {
    uint16_t p, q, t;
    size_t fraction_len, answer_len;
    struct lying lying;
};

static struct lent fraction_place = LENT("fraction of the edge", sizeof(double), 1, offset_pattern);
static struct lent answer_place = LENT("answer of the edge", sizeof(uint32_t), ANSWER, byte_pattern);

static struct {
    uint64_t edges, none, at_lower, between, at_upper, lower_metal, zero, top;
    uint64_t lower_crossed, upper_crossed, uncrossed, both, half, refused;
} tally;

static void count_edge(const struct edge *edge, const uint32_t answer[ANSWER], double fraction)
{
    int lower = edge->p == CEILING, upper = edge->q == CEILING, crossing = answer[0] == 0 && answer[1] == 1;
    tally.edges++;
    tally.none += answer[0] == 0 && answer[1] == 0;
    tally.at_lower += crossing && fraction == 0.0;
    tally.between += crossing && fraction > 0.0 && fraction < 1.0;
    tally.at_upper += crossing && fraction == 1.0;
    tally.lower_metal += crossing && edge->p > edge->q;
    tally.zero += answer[0] == 3 && answer[1] == 0;
    tally.top += answer[0] == 3 && answer[1] == CEILING;
    tally.lower_crossed += crossing && lower;
    tally.upper_crossed += crossing && upper;
    tally.uncrossed += answer[0] == 0 && answer[1] == 0 && lower != upper;
    tally.both += answer[0] == 0 && lower && upper;
    tally.half += crossing && (lower || upper) && edge->t == HIGHEST && fraction == 0.5;
    tally.refused += answer[0] == 3 && (lower || upper);
}

static void try_edge(const struct edge *edge)
{
    uint32_t answer[ANSWER];
    double fraction;
    struct wanted wanted[] = {{&fraction_place, &fraction, 1}, {&answer_place, answer, ANSWER}};
    plain_edge(edge->p, edge->q, edge->t, &fraction, 1, answer, ANSWER);
    lend(&fraction_place, edge->fraction_len, edge->lying);
    lend(&answer_place, edge->answer_len, edge->lying);
    hand_out_all(EDGE, edge->lying, wanted, 2);
    parsniprow_edge(edge->p, edge->q, edge->t, start(&fraction_place), edge->fraction_len, start(&answer_place),
                    edge->answer_len);
    if (first_to_differ(EDGE, wanted, 2))
        printf("  p %u, q %u, t %u; lengths: fraction %zu, answer %zu; plain: %lu, %lu, fraction %.17g\n",
               (unsigned)edge->p, (unsigned)edge->q, (unsigned)edge->t, edge->fraction_len, edge->answer_len,
               (unsigned long)answer[0], (unsigned long)answer[1], fraction);
    count_edge(edge, answer, fraction);
}

static struct edge edge_of(uint16_t p, uint16_t q, uint16_t t, enum beside beside)
{
    struct edge edge = {p, q, t, 1, ANSWER, {beside, 1}};
    return edge;
}

/* All special ends at all special thresholds. */
static void try_special_edges(void)
{
    static const uint16_t thresholds[] = {0, 1, 2, 99, 100, 101, 255, 256, 32767, 32768, 65533, 65534, 65535};
    static const uint16_t fixed_ends[] = {0, 1, 100, 400, 32767, 32768, 65533, 65534, 65535};
    enum { FIXED = sizeof fixed_ends / sizeof *fixed_ends, ENDS = FIXED + 5 };
    for (size_t i = 0; i < sizeof thresholds / sizeof *thresholds; i++) {
        uint16_t t = thresholds[i], ends[ENDS];
        for (size_t j = 0; j < ENDS; j++)
            ends[j] = j < FIXED ? fixed_ends[j] : (uint16_t)(t + (j - FIXED) - 2);
        for (size_t j = 0; j < ENDS * ENDS; j++) {
            struct edge edge = edge_of(ends[j / ENDS], ends[j % ENDS], t, (enum beside)(j % BESIDES));
            try_edge(&edge);
        }
    }
}

/* All lengths of the answer places, on edges with each kind of answer. */
static void try_edge_lengths(void)
{
    static const uint16_t asked[][3] = {{0, 400, 100}, {100, 400, 100}, {0, CEILING, 100}, {CEILING, CEILING, 100},
                                        {0, 400, 0},   {CEILING, 0, 0}, {300, 7, 100}};
    for (size_t i = 0; i < sizeof asked / sizeof *asked; i++)
        for (size_t fraction_len = 0; fraction_len <= 3; fraction_len++)
            for (size_t answer_len = 0; answer_len <= ANSWER + 2; answer_len++)
                for (unsigned beside = 0; beside < BESIDES; beside++) {
                    struct edge edge = edge_of(asked[i][0], asked[i][1], asked[i][2], (enum beside)beside);
                    edge.fraction_len = fraction_len;
                    edge.answer_len = answer_len;
                    try_edge(&edge);
                }
}

void try_fixed_edges(void)
{
    try_special_edges();
    try_edge_lengths();
}

static uint16_t choose_end(struct chance *chance, uint16_t t)
{
    return chance_in_100(chance, 5) ? CEILING : choose_grey(chance, t);
}

void try_edges(struct trial *trial)
{
    struct chance *chance = &trial->chance;
    for (unsigned i = 0; i < EDGES_FOR_A_BLOCK; i++) {
        struct edge edge;
        edge.t = i % 2 ? trial->t : choose_threshold(chance);
        edge.p = choose_end(chance, edge.t);
        edge.q = choose_end(chance, edge.t);
        if (chance_in_100(chance, 5))
            edge.t = chance_in_100(chance, 50) ? 0 : CEILING;
        edge.fraction_len = choose_reach(chance, 1);
        edge.answer_len = choose_reach(chance, ANSWER);
        edge.lying = choose_lying(chance);
        try_edge(&edge);
    }
}

uint64_t tally_edges(void)
{
    tally_title("edges");
    tally_case("no crossing", tally.none);
    tally_case("fraction 0", tally.at_lower);
    tally_case("between 0 and 1", tally.between);
    tally_case("fraction 1", tally.at_upper);
    tally_case("lower end metal", tally.lower_metal);
    tally_case("refusal 3, t = 0", tally.zero);
    tally_case("refusal 3, t = 65535", tally.top);
    tally_title("edges with an end at the ceiling");
    tally_case("lower end, crossed", tally.lower_crossed);
    tally_case("upper end, crossed", tally.upper_crossed);
    tally_case("one end, not crossed", tally.uncrossed);
    tally_case("both ends", tally.both);
    tally_case("65535 beside 65533, t = 65534", tally.half);
    tally_case("refusal 3", tally.refused);
    tally_reaches(&fraction_place);
    tally_reaches(&answer_place);
    return tally.edges;
}
