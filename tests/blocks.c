/* Random numbers, sizes, thresholds, grey values, blocks of samples and noise figures: those that the rules of the
   paper turn on.
   Assumes nothing. */
#include "blocks.h"

#include "bench_cubes.h"

const char *const kind_names[KINDS] = {"uniform noise", "values at t-1, t, t+1, 0, 65534",
                                       "differences with equal products", "large products one step apart",
                                       "checkerboard of two values", "checkerboard of many values", "pores",
                                       "all metal", "all hollow", "plane", "sparse", "only 0 and 65534",
                                       "single pore or grain", "the nine bench cubes"};

/* ---- chance ---- */

static uint64_t next(struct chance *chance)
{
    uint64_t z = chance->state += UINT64_C(0x9E3779B97F4A7C15);
    z = (z ^ z >> 30) * UINT64_C(0xBF58476D1CE4E5B9);
    z = (z ^ z >> 27) * UINT64_C(0x94D049BB133111EB);
    return z ^ z >> 31;
}

struct chance chance_of(uint64_t seed, uint64_t block)
{
    struct chance chance;
    chance.state = seed;
    chance.state = next(&chance) ^ block;
    chance.state = next(&chance);
    return chance;
}

uint64_t chance_below(struct chance *chance, uint64_t end)
{
    return next(chance) % end;
}

int chance_in_100(struct chance *chance, unsigned cases)
{
    return chance_below(chance, 100) < cases;
}

static uint16_t between(struct chance *chance, unsigned low, unsigned high)
{
    return (uint16_t)(low + chance_below(chance, high - low + 1));
}

/* ---- sizes and thresholds ---- */

/* Lengths around the words of 64 samples and below the limit. */
static const uint32_t long_axes[] = {62, 63, 64, 65, 66, 67, 127, 128, 129, 130, 191, 192, 193, 254, 255};

enum { LONG_AXES = sizeof long_axes / sizeof *long_axes };

void choose_size(struct chance *chance, int inner, uint32_t length[3])
{
    uint32_t shortest = inner ? SHORTEST_AXIS + 1 : SHORTEST_AXIS;
    unsigned shape = (unsigned)chance_below(chance, 100), axis = (unsigned)chance_below(chance, 3);
    for (unsigned i = 0; i < 3; i++)
        length[i] = between(chance, shortest, shape < 80 ? 9 : 5);
    if (shape < 80)
        return;
    if (chance_in_100(chance, 50))
        axis = 0;
    if (shape < 90)
        length[axis] = between(chance, 10, 70);
    else if (shape < 96)
        length[axis] = chance_in_100(chance, 25) ? LONGEST_AXIS : long_axes[chance_below(chance, LONG_AXES)];
    else if (shape < 99)
        length[axis] = between(chance, 10, 70), length[(axis + 1) % 3] = between(chance, 10, 30);
    else
        for (unsigned i = 0; i < 3; i++)
            length[i] = between(chance, 10, 24);
}

uint64_t sample_product(const uint32_t length[3])
{
    uint64_t two = (uint64_t)length[0] * length[1];
    return length[2] != 0 && two > UINT64_MAX / length[2] ? UINT64_MAX : two * length[2];
}

void choose_any_axes(struct chance *chance, int is_wrong, uint32_t length[3])
{
    static const uint32_t bad[] = {0, 1, 257, 258, 512, 65536, 65538, UINT32_C(1) << 31, UINT32_MAX};
    for (unsigned axis = 0; axis < 3; axis++)
        length[axis] = SHORTEST_AXIS + (uint32_t)chance_below(chance, 4);
    for (; is_wrong; is_wrong = chance_in_100(chance, 40)) {
        size_t choices = chance_in_100(chance, 50) ? 3 : sizeof bad / sizeof *bad;
        length[chance_below(chance, 3)] = bad[chance_below(chance, choices)];
    }
}

size_t choose_any_count(struct chance *chance, int is_wrong, uint64_t wanted)
{
    uint64_t how = chance_below(chance, 10);
    if (wanted >= MOST_ANY_SAMPLES)
        return (size_t)chance_below(chance, 100);
    if (!is_wrong)
        return (size_t)wanted;
    if (how < 3 && wanted > 0)
        return (size_t)wanted - 1;
    return how < 6 ? (size_t)wanted + 1 : how < 7 ? 0 : (size_t)chance_below(chance, 2 * wanted + 2) % MOST_ANY_SAMPLES;
}

uint16_t choose_threshold(struct chance *chance)
{
    switch (chance_below(chance, 8)) {
    case 0:
        return 1;
    case 1:
        return HIGHEST;
    case 2:
        return 100;
    case 3:
        return 32767;
    default:
        return between(chance, 1, HIGHEST);
    }
}

/* ---- samples ---- */

static uint16_t grey(int64_t value)
{
    return (uint16_t)(value < 0 ? 0 : value > HIGHEST ? HIGHEST : value);
}

static uint16_t metal(struct chance *chance, uint16_t t)
{
    return between(chance, t, HIGHEST);
}

static uint16_t hollow(struct chance *chance, uint16_t t)
{
    return between(chance, 0, t - 1u);
}

static uint16_t near_threshold(struct chance *chance, uint16_t t)
{
    switch (chance_below(chance, 5)) {
    case 0:
        return grey((int64_t)t - 1);
    case 1:
        return t;
    case 2:
        return grey((int64_t)t + 1);
    case 3:
        return 0;
    default:
        return HIGHEST;
    }
}

uint16_t choose_grey(struct chance *chance, uint16_t t)
{
    return chance_in_100(chance, 50) ? near_threshold(chance, t) : between(chance, 0, HIGHEST);
}

uint16_t choose_sign(struct chance *chance, int is_metal, uint16_t t)
{
    switch (chance_below(chance, 4)) {
    case 0:
        return is_metal ? t : (uint16_t)(t - 1);
    case 1:
        return is_metal ? grey((int64_t)t + 1) : 0;
    case 2:
        return is_metal ? HIGHEST : grey((int64_t)t - 2);
    default:
        return is_metal ? metal(chance, t) : hollow(chance, t);
    }
}

/* Differences with many common multiples: the two products of a face are often equal, or off by one step. */
static uint16_t equal_products(struct chance *chance, uint16_t t)
{
    static const int64_t differences[] = {1, 2, 3, 4, 6, 8, 12, 24};
    int64_t difference = differences[chance_below(chance, sizeof differences / sizeof *differences)];
    return grey(chance_in_100(chance, 50) ? t + difference : t - difference);
}

/* Differences m-1, m and m+1 of either sign with a large m: the products of a face are equal or differ by 1, m, ...
   so that a comparison with fewer bits than the products have goes wrong. */
static void large_products(struct chance *chance, const uint32_t length[3], uint16_t t, uint16_t *samples)
{
    size_t count = (size_t)length[0] * length[1] * length[2];
    int64_t most = t < HIGHEST - t ? t : HIGHEST - t;
    int64_t middle = most / 2 + (int64_t)chance_below(chance, (uint64_t)most / 2 + 1);
    for (size_t index = 0; index < count; index++) {
        int64_t difference = middle + (int64_t)chance_below(chance, 3) - 1;
        samples[index] = grey(chance_in_100(chance, 50) ? t + difference : t - difference);
    }
}

/* Distances are compared by their squares; the grey value falls by a step for each unit of the square. */
static void pores(struct chance *chance, const uint32_t length[3], uint16_t t, uint16_t *samples)
{
    unsigned count = 1 + (unsigned)chance_below(chance, 4);
    int64_t centre[4][3], radius[4], step = 1 + (int64_t)chance_below(chance, 3000);
    size_t index = 0;
    for (unsigned pore = 0; pore < count; pore++) {
        for (unsigned axis = 0; axis < 3; axis++)
            centre[pore][axis] = (int64_t)chance_below(chance, length[axis]);
        radius[pore] = 1 + (int64_t)chance_below(chance, 5);
    }
    for (int64_t k = 0; k < (int64_t)length[2]; k++)
        for (int64_t j = 0; j < (int64_t)length[1]; j++)
            for (int64_t i = 0; i < (int64_t)length[0]; i++) {
                int64_t outside = HIGHEST;
                for (unsigned pore = 0; pore < count; pore++) {
                    int64_t x = i - centre[pore][0], y = j - centre[pore][1], z = k - centre[pore][2];
                    int64_t square = x * x + y * y + z * z - radius[pore] * radius[pore];
                    outside = square < outside ? square : outside;
                }
                samples[index++] = grey(t + step * outside);
            }
}

/* One box of hollow in metal, or of metal in hollow: a single sample, or one to four samples along each axis. It is off
   the block's sides where there is room for that. */
static void single_pore(struct chance *chance, const uint32_t length[3], uint16_t t, uint16_t *samples)
{
    int grain = chance_in_100(chance, 50), one_sample = chance_in_100(chance, 50);
    uint32_t from[3], to[3];
    size_t index = 0;
    for (unsigned axis = 0; axis < 3; axis++) {
        uint32_t off = length[axis] > 2 ? 1 : 0, room = length[axis] - 2 * off;
        uint32_t wide = one_sample ? 1 : between(chance, 1, room < 4 ? room : 4);
        from[axis] = off + (uint32_t)chance_below(chance, room - wide + 1);
        to[axis] = from[axis] + wide;
    }
    for (uint32_t k = 0; k < length[2]; k++)
        for (uint32_t j = 0; j < length[1]; j++)
            for (uint32_t i = 0; i < length[0]; i++) {
                int inside = i >= from[0] && i < to[0] && j >= from[1] && j < to[1] && k >= from[2] && k < to[2];
                samples[index++] = choose_sign(chance, inside == grain, t);
            }
}

/* The bench cubes: a cube for each group of 2 by 2 by 2 samples, or one for all groups, so that every cube of the block
   is that cube or its image in a mirror. */
static void tiled(struct chance *chance, const uint32_t length[3], uint16_t t, uint16_t *samples)
{
    int64_t scale = t == BENCH_THRESHOLD ? 1 : 1 + (int64_t)chance_below(chance, 100);
    size_t one = (size_t)chance_below(chance, BENCH_CUBES);
    int alike = chance_in_100(chance, 30);
    for (uint32_t k = 0; k < length[2]; k += 2)
        for (uint32_t j = 0; j < length[1]; j += 2)
            for (uint32_t i = 0; i < length[0]; i += 2) {
                const uint16_t *corners = bench_cubes[alike ? one : (size_t)chance_below(chance, BENCH_CUBES)].corners;
                for (uint32_t corner = 0; corner < 8; corner++) {
                    uint32_t x = i + (corner & 1), y = j + (corner >> 1 & 1), z = k + (corner >> 2 & 1);
                    if (x < length[0] && y < length[1] && z < length[2])
                        samples[x + length[0] * (y + (size_t)length[1] * z)] =
                            grey(t + scale * ((int64_t)corners[corner] - BENCH_THRESHOLD));
                }
            }
}

static void plane(struct chance *chance, const uint32_t length[3], uint16_t t, uint16_t *samples)
{
    int64_t slope[3], middle = 0;
    size_t index = 0;
    for (unsigned axis = 0; axis < 3; axis++) {
        slope[axis] = chance_in_100(chance, 40) ? 0 : (int64_t)chance_below(chance, 2001) - 1000;
        middle += slope[axis] * (int64_t)chance_below(chance, length[axis]);
    }
    for (int64_t k = 0; k < (int64_t)length[2]; k++)
        for (int64_t j = 0; j < (int64_t)length[1]; j++)
            for (int64_t i = 0; i < (int64_t)length[0]; i++)
                samples[index++] = grey(t + slope[0] * i + slope[1] * j + slope[2] * k - middle);
}

static void checkerboard(struct chance *chance, int rough, const uint32_t length[3], uint16_t t, uint16_t *samples)
{
    uint16_t white = metal(chance, t), black = hollow(chance, t);
    size_t index = 0;
    if (chance_in_100(chance, 50))
        black = grey(2 * (int64_t)t - white); /* a tie on every face, where there is room for it */
    if (black >= t)
        black = (uint16_t)(t - 1);
    for (uint32_t k = 0; k < length[2]; k++)
        for (uint32_t j = 0; j < length[1]; j++)
            for (uint32_t i = 0; i < length[0]; i++) {
                int is_white = (i + j + k) % 2 == 0;
                if (rough)
                    samples[index++] = is_white ? metal(chance, t) : hollow(chance, t);
                else
                    samples[index++] = is_white ? white : black;
            }
}

static uint16_t one_sample(struct chance *chance, enum kind kind, uint16_t t, int mostly_metal)
{
    switch (kind) {
    case NEAR_THRESHOLD:
        return near_threshold(chance, t);
    case EQUAL_PRODUCTS:
        return equal_products(chance, t);
    case ALL_METAL:
        return metal(chance, t);
    case ALL_HOLLOW:
        return hollow(chance, t);
    case SPARSE:
        return chance_in_100(chance, 3) != mostly_metal ? metal(chance, t) : hollow(chance, t);
    case EXTREMES:
        return chance_in_100(chance, 50) ? HIGHEST : 0;
    default:
        return between(chance, 0, HIGHEST);
    }
}

void fill_block(struct chance *chance, enum kind kind, const uint32_t length[3], uint16_t t, uint16_t *samples)
{
    size_t count = (size_t)length[0] * length[1] * length[2];
    int mostly_metal = chance_in_100(chance, 50);
    if (kind == PORES)
        pores(chance, length, t, samples);
    else if (kind == PLANE)
        plane(chance, length, t, samples);
    else if (kind == SINGLE_PORE)
        single_pore(chance, length, t, samples);
    else if (kind == TILED)
        tiled(chance, length, t, samples);
    else if (kind == LARGE_PRODUCTS)
        large_products(chance, length, t, samples);
    else if (kind == CHECKERBOARD || kind == ROUGH_CHECKERBOARD)
        checkerboard(chance, kind == ROUGH_CHECKERBOARD, length, t, samples);
    else
        for (size_t index = 0; index < count; index++)
            samples[index] = one_sample(chance, kind, t, mostly_metal);
}

/* ---- ceilings ---- */

static void few_ceilings(struct chance *chance, size_t count, uint16_t *samples)
{
    size_t spots = chance_in_100(chance, 70) ? 1 : 1 + (size_t)chance_below(chance, 5);
    for (size_t spot = 0; spot < spots; spot++) {
        uint64_t how = chance_below(chance, 100);
        size_t any = (size_t)chance_below(chance, count);
        samples[how < 15 ? count - 1 : how < 25 ? 0 : any] = CEILING;
    }
}

static void bush(struct chance *chance, const uint32_t length[3], uint16_t *samples)
{
    uint32_t from[3], to[3];
    for (unsigned axis = 0; axis < 3; axis++) {
        from[axis] = (uint32_t)chance_below(chance, length[axis]);
        to[axis] = from[axis] + 1 + (uint32_t)chance_below(chance, length[axis] - from[axis]);
    }
    for (size_t k = from[2]; k < to[2]; k++)
        for (size_t j = from[1]; j < to[1]; j++)
            for (size_t i = from[0]; i < to[0]; i++)
                samples[i + length[0] * (j + length[1] * k)] = CEILING;
}

static void bright(struct chance *chance, size_t count, uint16_t t, uint16_t *samples)
{
    uint16_t from = chance_in_100(chance, 30) ? t : metal(chance, t);
    for (size_t index = 0; index < count; index++)
        if (samples[index] >= from)
            samples[index] = CEILING;
}

/* Are this sample and all that share a cube with it metal? */
static int deep_in_metal(const uint32_t length[3], const size_t at[3], uint16_t t, const uint16_t *samples)
{
    size_t from[3], to[3];
    for (unsigned axis = 0; axis < 3; axis++) {
        from[axis] = at[axis] > 0 ? at[axis] - 1 : 0;
        to[axis] = at[axis] + 1 < length[axis] ? at[axis] + 1 : at[axis];
    }
    for (size_t k = from[2]; k <= to[2]; k++)
        for (size_t j = from[1]; j <= to[1]; j++)
            for (size_t i = from[0]; i <= to[0]; i++)
                if (samples[i + length[0] * (j + length[1] * k)] < t)
                    return 0;
    return 1;
}

static void deep_ceilings(struct chance *chance, const uint32_t length[3], uint16_t t, uint16_t *samples)
{
    unsigned cases = chance_in_100(chance, 50) ? 100 : 10;
    size_t at[3];
    for (at[2] = 0; at[2] < length[2]; at[2]++)
        for (at[1] = 0; at[1] < length[1]; at[1]++)
            for (at[0] = 0; at[0] < length[0]; at[0]++)
                if (chance_in_100(chance, cases) && deep_in_metal(length, at, t, samples))
                    samples[at[0] + length[0] * (at[1] + length[1] * at[2])] = CEILING;
}

static int has_ceiling(size_t count, const uint16_t *samples)
{
    for (size_t index = 0; index < count; index++)
        if (samples[index] == CEILING)
            return 1;
    return 0;
}

void add_ceilings(struct chance *chance, const uint32_t length[3], uint16_t t, uint16_t *samples)
{
    size_t count = (size_t)length[0] * length[1] * length[2];
    uint64_t how = chance_below(chance, 4);
    if (how == 1)
        bush(chance, length, samples);
    else if (how == 2)
        bright(chance, count, t, samples);
    else if (how == 3)
        deep_ceilings(chance, length, t, samples);
    if (!has_ceiling(count, samples))
        few_ceilings(chance, count, samples);
}

/* ---- noise figures ---- */

int is_doubtful(const uint16_t corner[CUBE_CORNERS], uint16_t t, unsigned face, struct doubtful *doubtful)
{
    unsigned across = 1u << face / 2, first = face % 2 ? across : 0;
    unsigned u = 1u << (face / 2 + 1) % 3, v = 1u << (face / 2 + 2) % 3;
    int64_t a = (int64_t)corner[first] - t, b = (int64_t)corner[first + u] - t;
    int64_t c = (int64_t)corner[first + u + v] - t, d = (int64_t)corner[first + v] - t;
    if ((a >= 0) == (b >= 0) || (a >= 0) != (c >= 0) || (b >= 0) != (d >= 0))
        return 0;
    doubtful->is_first_metal = a >= 0;
    doubtful->of_metal = a >= 0 ? a * c : b * d;
    doubtful->of_hollow = a >= 0 ? b * d : a * c;
    doubtful->limit = doubtful->of_metal - doubtful->of_hollow;
    return 1;
}

void corners_of(const uint32_t length[3], const uint16_t *samples, size_t number, uint16_t corner[CUBE_CORNERS])
{
    size_t nx = length[0], ny = length[1], across = nx - 1, down = ny - 1;
    size_t i = number % across, j = number / across % down, k = number / across / down;
    for (size_t n = 0; n < CUBE_CORNERS; n++)
        corner[n] = samples[i + (n & 1) + nx * (j + (n >> 1 & 1) + ny * (k + (n >> 2 & 1)))];
}

static size_t cube_count(const uint32_t length[3])
{
    return (size_t)(length[0] - 1) * (length[1] - 1) * (length[2] - 1);
}

struct noise_effect effect_of(const uint32_t length[3], uint16_t t, uint32_t noise, const uint16_t *samples)
{
    struct noise_effect effect = {0, 0, 0, 0};
    size_t end = cube_count(length);
    for (size_t number = 0; number < end; number++) {
        uint16_t corner[CUBE_CORNERS];
        corners_of(length, samples, number, corner);
        for (unsigned face = 0; face < CUBE_FACES; face++) {
            struct doubtful doubtful;
            if (!is_doubtful(corner, t, face, &doubtful))
                continue;
            effect.has_doubtful = 1;
            effect.at_limit += noise > 0 && doubtful.limit == (int64_t)noise;
            effect.one_above += noise > 0 && doubtful.limit + 1 == (int64_t)noise;
            effect.parted += doubtful.limit >= 0 && doubtful.limit < (int64_t)noise;
        }
    }
    return effect;
}

/* Looks for a doubtful face from some cube on, and in that from some face on; mostly for one that is joined with noise
   0. In a long block it looks at some cubes only. Gives whether there is one. */
static int find_doubtful(struct chance *chance, const uint32_t length[3], uint16_t t, const uint16_t *samples,
                         struct doubtful *doubtful)
{
    enum { MOST_CUBES = 2000 };
    size_t end = cube_count(length), from = (size_t)chance_below(chance, end);
    unsigned first = (unsigned)chance_below(chance, CUBE_FACES);
    int is_any = chance_in_100(chance, 25);
    for (size_t i = 0; i < end && i < MOST_CUBES; i++) {
        uint16_t corner[CUBE_CORNERS];
        corners_of(length, samples, (from + i) % end, corner);
        for (unsigned face = 0; face < CUBE_FACES; face++)
            if (is_doubtful(corner, t, (first + face) % CUBE_FACES, doubtful) && (is_any || doubtful->limit >= 0))
                return 1;
    }
    return 0;
}

/* The limit of a face, one more or one less. Where the limit is below 0, as far above 0. */
static uint32_t noise_at_limit(struct chance *chance, int64_t limit)
{
    int64_t at = limit < 0 ? -limit : limit, beside = (int64_t)chance_below(chance, 3) - 1;
    return (uint32_t)(at + beside < 0 ? 0 : at + beside);
}

/* Numbers of each length in bits are as frequent. */
static uint32_t noise_of_some_bits(struct chance *chance)
{
    unsigned bits = (unsigned)chance_below(chance, 33);
    return (uint32_t)chance_below(chance, (uint64_t)1 << bits);
}

uint32_t choose_noise(struct chance *chance, const uint32_t length[3], uint16_t t, const uint16_t *samples)
{
    static const uint32_t some[] = {37500,      37501,      UINT32_C(4294705155), UINT32_C(4294705156),
                                    UINT32_MAX, UINT32_MAX, UINT32_C(1) << 31};
    uint64_t how = chance_below(chance, 100);
    struct doubtful doubtful;
    if (how < 25)
        return 0;
    if (how < 35)
        return 1 + (uint32_t)chance_below(chance, 3);
    if (how < 70 && find_doubtful(chance, length, t, samples, &doubtful))
        return noise_at_limit(chance, doubtful.limit);
    if (how < 80)
        return some[chance_below(chance, sizeof some / sizeof *some)];
    if (how < 90)
        return noise_of_some_bits(chance);
    return (uint32_t)chance_below(chance, (uint64_t)UINT32_MAX + 1);
}

uint32_t choose_any_noise(struct chance *chance, int is_wrong, const uint32_t length[3], uint16_t t,
                          const uint16_t *samples)
{
    if (!is_wrong)
        return choose_noise(chance, length, t, samples);
    return chance_in_100(chance, 25) ? 0 : (uint32_t)chance_below(chance, (uint64_t)UINT32_MAX + 1);
}

uint32_t choose_cube_noise(struct chance *chance, const uint16_t corner[CUBE_CORNERS], uint16_t t)
{
    static const uint32_t two[3] = {2, 2, 2};
    return choose_noise(chance, two, t, corner);
}
