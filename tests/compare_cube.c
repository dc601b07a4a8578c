/* Compares the cube question with the plain implementation: the paper's nine cubes, cubes with a noise figure that just
   joins or parts them, all sign patterns and all sets of corners at the ceiling once, cubes of each block with the
   block, each with some noise figure. Of some cubes the library is also asked with noise 0, and must answer as the old
   rule does; and with one noise figure after the other, each larger than the one before. Then no face may become joined
   that was not.
   Assumes nothing more than compare.h. */
#include "compare.h"

#include "bench_cubes.h"
#include "crash.h"

#include <stdio.h>
#include <string.h>

enum { CUBES_FOR_A_BLOCK = 4, CORNERS = CUBE_CORNERS, SIGN_PATTERNS = 256, EDGES = 12, FIXED_SEED = 1 };
enum { FACES = CUBE_FACES, FACE_SETS = 64, MOST_STEPS = 24 };

/* Whole numbers from here on are not told apart in single precision where they differ by one. */
enum { SINGLE_PRECISION = 1 << 25 };

struct cube {
    uint16_t corner[CORNERS], t;
    uint32_t noise;
    size_t words_len, offsets_len, answer_len;
    struct lying lying;
};

static struct lent words_place = LENT("words of the cube", sizeof(uint32_t), LOOPS, byte_pattern);
static struct lent offsets_place = LENT("offsets of the cube", sizeof(double), COORDINATES, offset_pattern);
static struct lent answer_place = LENT("answer of the cube", sizeof(uint32_t), ANSWER, byte_pattern);

/* ---- what occurred ---- */

static struct {
    uint64_t cubes, loops[LOOPS + 1], lengths[EDGES + 1], patterns[SIGN_PATTERNS], zero, top, refused;
    uint64_t alone[CORNERS], several, marked[LOOPS + 1], deep, all;
    uint64_t joined, separated, close, large, bench[BENCH_CUBES];
    uint64_t tied, tied_with_noise, at_limit[2], one_above[2], parted[2], never_joined, wide, wide_noise, over_32_bits;
    uint64_t no_noise, noise, changed, more_loops, fewer_loops, other_loops, same, no_doubtful;
    uint64_t by_hand, old_rule, old_doubtful, stepped, steps, lost, gone[FACES + 1];
} tally;

/* The pairs of figures are for a first corner that is hollow and for one that is metal. */
static void count_face(const struct doubtful *face, uint32_t noise)
{
    int64_t n = noise, limit = face->limit;
    int first = face->is_first_metal;
    tally.joined += limit >= n;
    tally.separated += limit < n;
    tally.tied += limit == 0 && n == 0;
    tally.tied_with_noise += limit == 0 && n > 0;
    tally.at_limit[first] += limit == n && n > 0;
    tally.one_above[first] += limit + 1 == n && n > 0;
    tally.parted[first] += limit >= 0 && limit < n;
    tally.never_joined += limit < 0 && n > 0;
    tally.wide += n > UINT16_MAX && limit >= n;
    tally.wide_noise += n > INT32_MAX && limit >= n;
    tally.over_32_bits += face->of_hollow + n > UINT32_MAX && limit >= 0;
    tally.close += face->of_metal > SINGLE_PRECISION && (limit - n == 1 || limit - n == -1);
    tally.large += face->of_metal > INT32_MAX || face->of_hollow > INT32_MAX;
}

/* How many doubtful faces a cube has. */
static unsigned count_faces(const struct cube *cube)
{
    unsigned count = 0;
    for (unsigned face = 0; face < FACES; face++) {
        struct doubtful doubtful;
        if (!is_doubtful(cube->corner, cube->t, face, &doubtful))
            continue;
        count_face(&doubtful, cube->noise);
        count++;
    }
    return count;
}

/* What a noise figure does to the loops of a cube with so many doubtful faces, beside the old rule. */
static void count_noise(const struct cube *cube, unsigned doubtful, uint32_t loops, const uint32_t words[LOOPS])
{
    uint32_t old_words[LOOPS], old_answer[ANSWER];
    double offsets[COORDINATES];
    int is_same;
    tally.no_noise += cube->noise == 0;
    tally.noise += cube->noise > 0;
    tally.no_doubtful += cube->noise > 0 && doubtful == 0 && loops > 0;
    if (cube->noise == 0 || doubtful == 0)
        return;
    plain_old_cube(cube->corner, cube->t, old_words, offsets, old_answer);
    is_same = memcmp(words, old_words, sizeof old_words) == 0;
    tally.same += is_same;
    tally.changed += !is_same;
    tally.more_loops += loops > old_answer[1];
    tally.fewer_loops += loops < old_answer[1];
    tally.other_loops += loops == old_answer[1] && !is_same;
}

static unsigned sign_pattern(const struct cube *cube)
{
    unsigned pattern = 0;
    for (unsigned corner = 0; corner < CORNERS; corner++)
        pattern |= (unsigned)(cube->corner[corner] >= cube->t) << corner;
    return pattern;
}

static unsigned ones(uint32_t mask)
{
    unsigned count = 0;
    for (; mask != 0; mask &= mask - 1)
        count++;
    return count;
}

/* Corners at the ceiling, as a mask. */
static unsigned ceilings_in(const struct cube *cube)
{
    unsigned set = 0;
    for (unsigned corner = 0; corner < CORNERS; corner++)
        set |= (unsigned)(cube->corner[corner] == CEILING) << corner;
    return set;
}

/* A cube with loops and a corner at the ceiling has the mark in each of its words. */
static void count_marked(unsigned set, uint32_t loops, const uint32_t words[LOOPS])
{
    if (loops == 0) {
        tally.deep += ones(set) < CORNERS;
        tally.all += ones(set) == CORNERS;
        return;
    }
    for (unsigned corner = 0; corner < CORNERS; corner++)
        tally.alone[corner] += set == 1u << corner;
    tally.several += ones(set) > 1;
    tally.marked[loops] += words[loops - 1] >= MARK;
}

static void count_accepted(const struct cube *cube, uint32_t loops, const uint32_t words[LOOPS])
{
    unsigned set = ceilings_in(cube);
    tally.loops[loops]++;
    tally.patterns[sign_pattern(cube)]++;
    for (uint32_t loop = 0; loop < loops; loop++)
        tally.lengths[ones(words[loop] % MARK)]++;
    count_noise(cube, count_faces(cube), loops, words);
    if (set != 0)
        count_marked(set, loops, words);
    for (unsigned i = 0; i < BENCH_CUBES; i++)
        tally.bench[i] += cube->t == BENCH_THRESHOLD && cube->noise == 0 &&
                          memcmp(cube->corner, bench_cubes[i].corners, sizeof cube->corner) == 0;
}

static void count_cube(const struct cube *cube, const uint32_t answer[ANSWER], const uint32_t words[LOOPS])
{
    tally.cubes++;
    if (answer[0] == 0)
        count_accepted(cube, answer[1], words);
    tally.zero += answer[0] == 3 && answer[1] == 0;
    tally.top += answer[0] == 3 && answer[1] == CEILING;
    tally.refused += answer[0] == 3 && ceilings_in(cube) != 0;
}

/* ---- one cube ---- */

static void print_cube(const struct cube *cube, const uint32_t answer[ANSWER])
{
    printf("  corners");
    for (unsigned corner = 0; corner < CORNERS; corner++)
        printf(" %u", (unsigned)cube->corner[corner]);
    printf("; t %u; noise %lu; lengths: words %zu, offsets %zu, answer %zu; plain: %lu, %lu\n", (unsigned)cube->t,
           (unsigned long)cube->noise, cube->words_len, cube->offsets_len, cube->answer_len, (unsigned long)answer[0],
           (unsigned long)answer[1]);
}

static void ask_plain(const struct cube *cube, uint32_t words[LOOPS], double offsets[COORDINATES],
                      uint32_t answer[ANSWER])
{
    const uint16_t *c = cube->corner;
    plain_cube(c[0], c[1], c[2], c[3], c[4], c[5], c[6], c[7], cube->t, cube->noise, words, LOOPS, offsets, COORDINATES,
               answer, ANSWER);
}

static void try_cube(const struct cube *cube)
{
    const uint16_t *c = cube->corner;
    uint32_t answer[ANSWER], words[LOOPS];
    double offsets[COORDINATES];
    struct wanted wanted[] = {
        {&words_place, words, LOOPS}, {&offsets_place, offsets, COORDINATES}, {&answer_place, answer, ANSWER}};
    ask_plain(cube, words, offsets, answer);
    lend(&words_place, cube->words_len, cube->lying);
    lend(&offsets_place, cube->offsets_len, cube->lying);
    lend(&answer_place, cube->answer_len, cube->lying);
    hand_out_all(CUBE, cube->lying, wanted, 3);
    parsniprow_cube(c[0], c[1], c[2], c[3], c[4], c[5], c[6], c[7], cube->t, cube->noise, start(&words_place),
                    cube->words_len, start(&offsets_place), cube->offsets_len, start(&answer_place), cube->answer_len);
    if (first_to_differ(CUBE, wanted, 3))
        print_cube(cube, answer);
    count_cube(cube, answer, words);
}

/* A cube with places of the right length, and with patterns and pages beside them in turn. */
static struct cube cube_of(const uint16_t corner[CORNERS], uint16_t t, uint32_t noise)
{
    static unsigned turn;
    struct cube cube;
    memcpy(cube.corner, corner, sizeof cube.corner);
    cube.t = t;
    cube.noise = noise;
    cube.words_len = LOOPS;
    cube.offsets_len = COORDINATES;
    cube.answer_len = ANSWER;
    cube.lying.beside = (enum beside)(turn % BESIDES);
    cube.lying.shift = turn % MOST_SHIFT;
    turn++;
    return cube;
}

/* ---- the old rule, and one noise figure after the other ---- */

/* What the library answers with this noise figure, in places of the right length. */
static void ask_library(const struct cube *cube, uint32_t noise, uint32_t words[LOOPS], double offsets[COORDINATES],
                        uint32_t answer[ANSWER])
{
    const uint16_t *c = cube->corner;
    asking("parsniprow_cube");
    parsniprow_cube(c[0], c[1], c[2], c[3], c[4], c[5], c[6], c[7], cube->t, noise, words, LOOPS, offsets, COORDINATES,
                    answer, ANSWER);
    asking("the comparison");
}

/* With noise 0 the answer is that of the rule without a noise figure. */
static void try_old_rule(const struct cube *cube)
{
    uint32_t words[LOOPS], old_words[LOOPS], answer[ANSWER], old_answer[ANSWER];
    double offsets[COORDINATES], old_offsets[COORDINATES];
    struct doubtful doubtful;
    unsigned count = 0;
    plain_old_cube(cube->corner, cube->t, old_words, old_offsets, old_answer);
    ask_library(cube, 0, words, offsets, answer);
    if (memcmp(words, old_words, sizeof words) != 0 || memcmp(offsets, old_offsets, sizeof offsets) != 0 ||
        memcmp(answer, old_answer, sizeof answer) != 0)
        if (first_to_fail("a cube with noise 0 is not that of the old rule"))
            print_cube(cube, old_answer);
    for (unsigned face = 0; face < FACES; face++)
        count += is_doubtful(cube->corner, cube->t, face, &doubtful) != 0;
    tally.old_rule++;
    tally.old_doubtful += count > 0;
}

/* Noise figures from the lowest up: 0 and the greatest, the limit of each doubtful face and one more, and some others.
   Gives their number. */
static size_t choose_steps(struct chance *chance, const struct cube *cube, uint32_t steps[MOST_STEPS])
{
    size_t count = 0;
    steps[count++] = 0;
    steps[count++] = UINT32_C(4294705156);
    steps[count++] = UINT32_MAX;
    for (unsigned i = 0; i < 4; i++)
        steps[count++] = choose_cube_noise(chance, cube->corner, cube->t);
    for (unsigned face = 0; face < FACES; face++) {
        struct doubtful doubtful;
        if (!is_doubtful(cube->corner, cube->t, face, &doubtful) || doubtful.limit < 0)
            continue;
        steps[count++] = (uint32_t)doubtful.limit;
        steps[count++] = (uint32_t)doubtful.limit + 1;
    }
    for (size_t i = 1; i < count; i++)
        for (size_t j = i; j > 0 && steps[j] < steps[j - 1]; j--) {
            uint32_t lower = steps[j];
            steps[j] = steps[j - 1];
            steps[j - 1] = lower;
        }
    return count;
}

/* The words that each set of joined faces gives. */
static void words_of_sets(const struct cube *cube, uint32_t of_set[FACE_SETS][LOOPS], uint64_t *sets)
{
    unsigned all = 0;
    struct doubtful doubtful;
    for (unsigned face = 0; face < FACES; face++)
        all |= (unsigned)is_doubtful(cube->corner, cube->t, face, &doubtful) << face;
    *sets = 0;
    for (unsigned set = 0; set < FACE_SETS; set++)
        if ((set & ~all) == 0) {
            plain_set_cube(cube->corner, cube->t, set, of_set[set]);
            *sets |= (uint64_t)1 << set;
        }
}

/* The sets that give these words and lie within one of the sets before. Where there is none, a face has become joined
   by a larger noise figure. */
static uint64_t sets_after(uint64_t before, uint64_t sets, const uint32_t words[LOOPS],
                           uint32_t of_set[FACE_SETS][LOOPS])
{
    uint64_t after = 0;
    for (unsigned set = 0; set < FACE_SETS; set++) {
        int is_within = 0;
        if (!(sets >> set & 1) || memcmp(words, of_set[set], LOOPS * sizeof *words) != 0)
            continue;
        for (unsigned larger = 0; larger < FACE_SETS; larger++)
            is_within = is_within || ((before >> larger & 1) && (set & ~larger) == 0);
        after |= (uint64_t)is_within << set;
    }
    return after;
}

/* The faces whose metal the library joins are not told by it; but its words tell which sets of faces they can be. From
   one noise figure to the next the set never grows. Above 4294705155 it is empty. Plain's products are not used. */
static void try_steps(struct chance *chance, const struct cube *cube)
{
    static uint32_t of_set[FACE_SETS][LOOPS];
    uint32_t steps[MOST_STEPS], words[LOOPS], before[LOOPS], answer[ANSWER];
    size_t count = choose_steps(chance, cube, steps);
    double offsets[COORDINATES];
    unsigned lost = 0;
    uint64_t sets, joined;
    words_of_sets(cube, of_set, &sets);
    joined = sets;
    for (size_t i = 0; i < count; i++) {
        ask_library(cube, steps[i], words, offsets, answer);
        joined = sets_after(joined, sets, words, of_set);
        if (answer[0] != 0 || joined == 0 || (steps[i] > UINT32_C(4294705155) && !(joined & 1))) {
            if (first_to_fail("a larger noise figure joins metal")) {
                struct cube now = *cube;
                now.noise = steps[i];
                ask_plain(&now, words, offsets, answer);
                print_cube(&now, answer);
            }
            break;
        }
        lost += i > 0 && memcmp(words, before, sizeof words) != 0;
        memcpy(before, words, sizeof before);
        tally.steps++;
    }
    tally.stepped += sets > 1;
    tally.lost += lost > 0;
    tally.gone[lost < FACES ? lost : FACES]++;
}

/* ---- what is asked once ---- */

static void try_bench_cubes(void)
{
    for (unsigned i = 0; i < BENCH_CUBES; i++)
        for (unsigned beside = 0; beside < BESIDES; beside++) {
            struct cube cube = cube_of(bench_cubes[i].corners, BENCH_THRESHOLD, 0);
            cube.lying.beside = (enum beside)beside;
            try_cube(&cube);
        }
}

/* The library must have written these words, whatever plain says. */
static void try_noise_cubes(void)
{
    for (unsigned i = 0; i < NOISE_CUBES; i++)
        for (unsigned beside = 0; beside < BESIDES; beside++) {
            const struct noise_cube *known = &noise_cubes[i];
            struct cube cube = cube_of(known->corners, known->t, known->noise);
            uint32_t answer[ANSWER] = {0, known->count, 0};
            cube.lying.beside = (enum beside)beside;
            try_cube(&cube);
            if ((!holds(&words_place, known->words, LOOPS) || !holds(&answer_place, answer, ANSWER)) &&
                first_to_fail(known->name))
                print_cube(&cube, answer);
            tally.by_hand++;
        }
}

/* With noise 0 and with some other. */
static void try_sign_patterns(void)
{
    static const uint16_t thresholds[] = {1, 2, 100, 32767, 32768, 65533, 65534};
    struct chance chance = chance_of(FIXED_SEED, 0);
    for (size_t i = 0; i < 8 * sizeof thresholds / sizeof *thresholds; i++)
        for (unsigned pattern = 0; pattern < SIGN_PATTERNS; pattern++) {
            uint16_t corner[CORNERS], t = thresholds[i / 8];
            struct cube cube;
            for (unsigned j = 0; j < CORNERS; j++)
                corner[j] = choose_sign(&chance, pattern >> j & 1, t);
            cube = cube_of(corner, t, 0);
            try_cube(&cube);
            try_old_rule(&cube);
            if (i % 8 == 0)
                try_steps(&chance, &cube);
            cube.noise = choose_cube_noise(&chance, corner, t);
            try_cube(&cube);
        }
}

static struct cube cube_of_equal_corners(uint16_t corner, uint16_t t, uint32_t noise)
{
    uint16_t corners[CORNERS];
    for (unsigned i = 0; i < CORNERS; i++)
        corners[i] = corner;
    return cube_of(corners, t, noise);
}

static void try_with_ceilings(struct cube cube, unsigned set)
{
    for (unsigned corner = 0; corner < CORNERS; corner++)
        if (set >> corner & 1)
            cube.corner[corner] = CEILING;
    try_cube(&cube);
}

/* The ceiling at each set of corners, at good and bad thresholds; the others as in one of the paper's cubes, 0, or one
   under the threshold. So there is the cube of eight ceilings, and a ceiling with seven zeros. */
static void try_cube_ceilings(void)
{
    static const uint16_t thresholds[] = {0, 1, 100, 65534, 65535};
    static const uint32_t noises[] = {0, 0, 1, 2500, 65536, UINT32_C(4281729225), UINT32_MAX};
    for (size_t i = 0; i < sizeof thresholds / sizeof *thresholds; i++)
        for (unsigned set = 0; set < SIGN_PATTERNS; set++) {
            uint16_t t = thresholds[i], below = t > 0 ? (uint16_t)(t - 1) : 0;
            uint32_t noise = noises[set % (sizeof noises / sizeof *noises)];
            try_with_ceilings(cube_of(bench_cubes[set % BENCH_CUBES].corners, t, noise), set);
            try_with_ceilings(cube_of_equal_corners(0, t, noise), set);
            try_with_ceilings(cube_of_equal_corners(below, t, noise), set);
        }
}

/* All lengths of the answer places: four loops, one loop, a loop with the mark, refusal 3. */
static void try_cube_lengths(void)
{
    static const uint16_t ceiling[CORNERS] = {200, 0, CEILING, 0, 0, 0, 0, 0};
    const uint16_t *corners[] = {bench_cubes[7].corners, bench_cubes[2].corners, ceiling, ceiling};
    for (unsigned i = 0; i < 4; i++)
        for (size_t words_len = 0; words_len <= LOOPS + 2; words_len++)
            for (size_t offsets_len = 0; offsets_len <= COORDINATES + 2; offsets_len++)
                for (size_t answer_len = 0; answer_len <= ANSWER + 2; answer_len++) {
                    struct cube cube = cube_of(corners[i], i == 3 ? 0 : BENCH_THRESHOLD, answer_len % 2);
                    cube.words_len = words_len;
                    cube.offsets_len = offsets_len;
                    cube.answer_len = answer_len;
                    try_cube(&cube);
                }
}

void try_fixed_cubes(void)
{
    try_bench_cubes();
    try_noise_cubes();
    try_sign_patterns();
    try_cube_ceilings();
    try_cube_lengths();
}

/* ---- cubes of a block ---- */

static size_t some_cube(const struct trial *trial, struct chance *chance)
{
    const uint32_t *n = trial->length;
    return (size_t)chance_below(chance, (uint64_t)(n[0] - 1) * (n[1] - 1) * (n[2] - 1));
}

void try_cubes(struct trial *trial)
{
    struct chance *chance = &trial->chance;
    for (unsigned i = 0; i < CUBES_FOR_A_BLOCK; i++) {
        uint16_t corner[CORNERS];
        struct cube cube;
        corners_of(trial->length, trial->samples, some_cube(trial, chance), corner);
        cube = cube_of(corner, trial->t, 0);
        for (unsigned n = 0; i == 0 && n < CORNERS; n++)
            cube.corner[n] = choose_grey(chance, cube.t);
        while (chance_in_100(chance, 6))
            cube.corner[chance_below(chance, CORNERS)] = CEILING;
        cube.noise = choose_cube_noise(chance, cube.corner, cube.t);
        if (chance_in_100(chance, 50))
            try_old_rule(&cube);
        if (i < 2)
            try_steps(chance, &cube);
        if (chance_in_100(chance, 4))
            cube.t = chance_in_100(chance, 50) ? 0 : CEILING;
        cube.words_len = choose_reach(chance, LOOPS);
        cube.offsets_len = choose_reach(chance, COORDINATES);
        cube.answer_len = choose_reach(chance, ANSWER);
        cube.lying = choose_lying(chance);
        try_cube(&cube);
    }
}

/* ---- printing ---- */

/* Loops of 10 and of 11 edges do not exist. */
static void tally_loops(void)
{
    uint64_t patterns = 0;
    char name[40];
    for (unsigned pattern = 0; pattern < SIGN_PATTERNS; pattern++)
        patterns += tally.patterns[pattern] > 0;
    tally_title("cubes by loops");
    for (unsigned loops = 0; loops <= LOOPS; loops++) {
        sprintf(name, "%u", loops);
        tally_case(name, tally.loops[loops]);
    }
    tally_title("loops by edges");
    for (unsigned edges = 3; edges <= EDGES; edges++) {
        sprintf(name, "%u", edges);
        if (edges != 10 && edges != 11)
            tally_case(name, tally.lengths[edges]);
    }
    tally_title("cubes");
    sprintf(name, "sign patterns (%llu of 256)", (unsigned long long)patterns);
    tally_case(name, patterns == SIGN_PATTERNS ? patterns : 0);
    for (unsigned i = 0; i < BENCH_CUBES; i++)
        tally_case(bench_cubes[i].name, tally.bench[i]);
}

uint64_t tally_cubes(void)
{
    char name[40];
    tally_loops();
    tally_title("doubtful faces of cubes");
    tally_case("joined", tally.joined);
    tally_case("separated", tally.separated);
    tally_case("tied, noise 0", tally.tied);
    tally_case("tied, with noise", tally.tied_with_noise);
    for (unsigned first = 2; first-- > 0;) {
        tally_case(first ? "noise at the limit, first corner metal" : "first corner hollow", tally.at_limit[first]);
        tally_case("noise one above", tally.one_above[first]);
        tally_case("parted by noise alone", tally.parted[first]);
    }
    tally_case("parted already", tally.never_joined);
    tally_case("joined with noise over 16 bits", tally.wide);
    tally_case("over 31 bits", tally.wide_noise);
    tally_case("noise and product over 32 bits together", tally.over_32_bits);
    tally_case("large products one apart", tally.close);
    tally_case("a product over 31 bits", tally.large);
    tally_title("cubes with a noise figure");
    tally_case("worked out by hand", tally.by_hand);
    tally_case("0", tally.no_noise);
    tally_case("above", tally.noise);
    tally_case("answer changed against noise 0", tally.changed);
    tally_case("more loops", tally.more_loops);
    tally_case("fewer", tally.fewer_loops);
    tally_case("as many others", tally.other_loops);
    tally_case("doubtful and not changed", tally.same);
    tally_case("loops and no doubtful face", tally.no_doubtful);
    tally_case("held against the old rule", tally.old_rule);
    tally_case("and doubtful", tally.old_doubtful);
    tally_title("cubes with noise raised step by step");
    tally_case("doubtful", tally.stepped);
    tally_case("steps", tally.steps);
    tally_case("changed", tally.lost);
    for (unsigned times = 0; times < 4; times++) {
        sprintf(name, "changed %u times", times);
        tally_case(name, tally.gone[times]);
    }
    tally_title("refusals of cubes");
    tally_case("3, t = 0", tally.zero);
    tally_case("3, t = 65535", tally.top);
    tally_case("3, a corner at the ceiling", tally.refused);
    tally_title("cubes with a corner at the ceiling");
    for (unsigned corner = 0; corner < CORNERS; corner++) {
        sprintf(name, "marked by corner %u alone", corner);
        tally_case(name, tally.alone[corner]);
    }
    tally_case("by several", tally.several);
    for (unsigned loops = 1; loops <= LOOPS; loops++) {
        sprintf(name, "%u marked", loops);
        tally_case(name, tally.marked[loops]);
    }
    tally_case("no loop", tally.deep);
    tally_case("all corners", tally.all);
    tally_reaches(&words_place);
    tally_reaches(&offsets_place);
    tally_reaches(&answer_place);
    return tally.cubes;
}
