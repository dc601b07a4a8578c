/* Blocks with a margin: all samples on the six faces of the box are metal, or all are hollow, and within they are of
   any kind. The library meshes them with some noise figure, and the mesh must be closed, whether it is asked without
   work or with it. A copy of it in which one quad is damaged is asked too.
   Assumes nothing more than compare.h. */
#include "compare.h"

#include "crash.h"

#include <stdio.h>

/* One axis may be the longest. A cube has at most four vertices, and an edge that lies on no face of the box one quad:
   so there are never too many quads for the question without work. */
enum { LONGEST = 8, OTHERS = 6, MOST_SAMPLES = LONGEST * OTHERS * OTHERS };
enum { MOST_VERTICES = 4 * (LONGEST - 1) * (OTHERS - 1) * (OTHERS - 1) };
enum { MOST_QUADS = SQUARE_QUADS };

static const char *const sign_names[2] = {"hollow", "metal"};

struct margin {
    uint32_t length[3];
    uint16_t t;
    uint32_t noise;
    int is_metal;
    uint16_t samples[MOST_SAMPLES];
};

/* Each for either sign. */
static struct {
    uint64_t blocks[2], kinds[KINDS], ceilings[2], no_quad[2], quads[2], walked_again[2], noise[2], parted[2];
} tally;

static size_t sample_count(const struct margin *margin)
{
    return (size_t)margin->length[0] * margin->length[1] * margin->length[2];
}

/* ---- one block ---- */

static void print_margin(const struct margin *margin, const uint32_t answer[ANSWER])
{
    printf("  a margin of %s; axes %lu, %lu, %lu; t %u; noise %lu; mesh %lu, %lu, %lu; samples:",
           sign_names[margin->is_metal], (unsigned long)margin->length[0], (unsigned long)margin->length[1],
           (unsigned long)margin->length[2], (unsigned)margin->t, (unsigned long)margin->noise,
           (unsigned long)answer[0], (unsigned long)answer[1], (unsigned long)answer[2]);
    for (size_t index = 0; index < sample_count(margin); index++)
        printf(" %u", (unsigned)margin->samples[index]);
    printf("\n");
}

/* Has the library mesh the block, into the answer, and asks whether the mesh is closed, then of a damaged copy. */
static void try_closed(struct chance *chance, const struct margin *margin, uint32_t answer[ANSWER])
{
    static uint32_t words[2 * MOST_VERTICES], quads[4 * MOST_QUADS];
    static double offsets[3 * MOST_VERTICES];
    const uint32_t *length = margin->length;
    struct closure closure = {0, 0};
    asking("parsniprow_mesh");
    parsniprow_mesh(length[0], length[1], length[2], margin->samples, sample_count(margin), margin->t, margin->noise,
                    words, 2 * MOST_VERTICES, offsets, 3 * MOST_VERTICES, quads, 4 * MOST_QUADS, answer, ANSWER);
    if (answer[0] == 0)
        closure = try_list_of_mesh(chance, quads, answer[2], answer[1]);
    if (!closure.is_closed && first_to_fail("a block with a margin is not meshed, or its mesh is open"))
        print_margin(margin, answer);
    if (answer[0] == 0 && answer[2] > 0)
        try_damaged_mesh(chance, quads, answer[2], closure.is_closed);
    tally.no_quad[margin->is_metal] += answer[2] == 0;
    tally.quads[margin->is_metal] += answer[2] > 0;
    tally.walked_again[margin->is_metal] += closure.is_walked_again;
}

/* ---- a block beside another ---- */

static int on_face(const struct margin *margin, uint32_t i, uint32_t j, uint32_t k)
{
    return i == 0 || j == 0 || k == 0 || i + 1 == margin->length[0] || j + 1 == margin->length[1] ||
           k + 1 == margin->length[2];
}

/* A sample on a face that is not of the margin's sign gets a value of that sign. */
static void put_margin(struct chance *chance, struct margin *margin)
{
    size_t index = 0;
    for (uint32_t k = 0; k < margin->length[2]; k++)
        for (uint32_t j = 0; j < margin->length[1]; j++)
            for (uint32_t i = 0; i < margin->length[0]; i++, index++)
                if (on_face(margin, i, j, k) && (margin->samples[index] >= margin->t) != margin->is_metal)
                    margin->samples[index] = choose_sign(chance, margin->is_metal, margin->t);
}

void try_margin(struct trial *trial)
{
    static struct margin margin;
    struct chance *chance = &trial->chance;
    enum kind kind = (enum kind)chance_below(chance, KINDS);
    uint32_t answer[ANSWER], longest = (uint32_t)chance_below(chance, 3);
    for (uint32_t axis = 0; axis < 3; axis++) {
        uint32_t lengths = (axis == longest ? LONGEST : OTHERS) - SHORTEST_AXIS;
        int is_shortest = chance_in_100(chance, 5); /* then every sample is on a face */
        margin.length[axis] = SHORTEST_AXIS + (is_shortest ? 0 : 1 + (uint32_t)chance_below(chance, lengths));
    }
    margin.t = choose_threshold(chance);
    margin.is_metal = chance_in_100(chance, 50);
    fill_block(chance, kind, margin.length, margin.t, margin.samples);
    if (chance_below(chance, 3) == 0)
        add_ceilings(chance, margin.length, margin.t, margin.samples);
    put_margin(chance, &margin);
    margin.noise = choose_noise(chance, margin.length, margin.t, margin.samples);
    tally.noise[margin.is_metal] += margin.noise > 0;
    tally.parted[margin.is_metal] += effect_of(margin.length, margin.t, margin.noise, margin.samples).parted > 0;
    try_closed(chance, &margin, answer);
    plain_ceilings(margin.samples, sample_count(&margin), answer, ANSWER);
    tally.ceilings[margin.is_metal] += answer[1] > 0;
    tally.blocks[margin.is_metal]++;
    tally.kinds[kind]++;
}

/* ---- what is asked once ---- */

/* Two samples across a face of two cubes among samples of the other sign. Where they are joined on that face, each of
   the two cubes has one vertex for both, and four quads join these vertices; else each has a vertex for each. */
static void try_pore_of_two(uint16_t two, uint16_t others, uint32_t noise, uint32_t vertices)
{
    enum { QUADS = 12, NX = 4, NY = 4, NZ = 3 };
    static struct margin margin = {{NX, NY, NZ}, 100, 0, 0, {0}};
    struct chance chance = chance_of(0, two);
    uint32_t answer[ANSWER];
    margin.noise = noise;
    margin.is_metal = others >= margin.t;
    for (size_t index = 0; index < NX * NY * NZ; index++)
        margin.samples[index] = others;
    margin.samples[1 + NX * (1 + NY)] = margin.samples[2 + NX * (2 + NY)] = two;
    try_closed(&chance, &margin, answer);
    if ((answer[1] != vertices || answer[2] != QUADS) && first_to_fail("a pair of samples has another mesh"))
        print_margin(&margin, answer);
}

/* With noise 0, and where noise parts the metal with the last noise figure that does not and the first that does. In
   the last two the pair is hollow, and parted metal joins it. */
void try_fixed_margins(void)
{
    try_pore_of_two(300, 0, 0, 14);
    try_pore_of_two(0, 150, 0, 14);
    try_pore_of_two(CEILING, 0, 0, 14);
    try_pore_of_two(300, 0, 30000, 14);
    try_pore_of_two(300, 0, 30001, 16);
    try_pore_of_two(0, 150, UINT32_MAX, 14);
    try_pore_of_two(CEILING, 0, UINT32_C(4281729225), 14);
    try_pore_of_two(CEILING, 0, UINT32_C(4281729226), 16);
    try_pore_of_two(90, 200, 9900, 16);
    try_pore_of_two(90, 200, 9901, 14);
}

/* ---- printing ---- */

uint64_t tally_margins(void)
{
    for (unsigned sign = 0; sign < 2; sign++) {
        char title[40];
        sprintf(title, "margins of %s", sign_names[sign]);
        tally_title(title);
        tally_case("blocks", tally.blocks[sign]);
        tally_case("with ceilings", tally.ceilings[sign]);
        tally_case("no quads", tally.no_quad[sign]);
        tally_case("quads", tally.quads[sign]);
        tally_case("a side walked more than once one way", tally.walked_again[sign]);
        tally_case("with a noise figure", tally.noise[sign]);
        tally_case("a face parted by noise alone", tally.parted[sign]);
    }
    tally_title("within a margin");
    for (unsigned kind = 0; kind < KINDS; kind++)
        tally_case(kind_names[kind], tally.kinds[kind]);
    return tally.blocks[0] + tally.blocks[1];
}
