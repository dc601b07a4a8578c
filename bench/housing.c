/* Writes a block of n x n x n grey values for the benchmark and the picture, as raw little-endian 16-bit numbers, x
   fastest. Usage: housing n kind seed file [float], the kind one of
     housing  a cast pump housing with a few pores, nearly without noise
     noisy    the same housing seen by a poor detector: specks everywhere, many doubtful faces, small loops
     noise    no housing: every value by chance
     pore     a piece of the housing's wall around one pore of several merged bubbles
   Assumes doubles rounded to nearest, each operation by itself (-ffp-contract=off); the same arguments then give the
   same file on every machine. The surface of the housing and of the pore lies at the threshold 23000, half way between
   metal and hollow; no value is at the ceiling.
   With the word float the file has readings in place of grey values, raw little-endian 32-bit floats: each is the same
   grey value and a fraction of some 256ths, from 0 to 255 of them, which the float holds exactly. */
#include <math.h>
#include <stdint.h>
#include <stdio.h>
#include <stdlib.h>
#include <string.h>

enum { HOLLOW = 6000, METAL = 40000, CEILING = 65535, LONGEST_AXIS = 256 };
enum { PORES_AT_256 = 400, LEAST_RADIUS = 2, MOST_RADIUS = 6, BOLTS = 8, TRIES = 1000000 };
enum { BUBBLES = 4, BLISTERS = 10, NECK_STEPS = 24, THINNEST_WALL = 32 };
/* A good detector's noise is even and reaches this far to either side. A poor one's is the sum of four such, nearly the
   bell curve: far from the surface one sample in 200 is on the wrong side of the threshold, near it one in six. */
enum { GOOD = 24, POOR = 6000, POOR_PARTS = 4 };

/* ---- chance ---- */

static uint64_t state;

static uint64_t next(void)
{
    uint64_t z = state += UINT64_C(0x9E3779B97F4A7C15);
    z = (z ^ z >> 30) * UINT64_C(0xBF58476D1CE4E5B9);
    z = (z ^ z >> 27) * UINT64_C(0x94D049BB133111EB);
    return z ^ z >> 31;
}

/* From 0 up to, not including, 1. */
static double part(void)
{
    return (double)(next() >> 11) / 9007199254740992.0;
}

/* ---- shapes, as distances: below zero inside ---- */

static double more(double a, double b)
{
    return a > b ? a : b;
}

static double less(double a, double b)
{
    return a < b ? a : b;
}

/* A cylinder along one axis: distance from that axis, and place along it. */
static double cylinder(double u, double v, double along, double radius, double from, double to)
{
    return more(sqrt(u * u + v * v) - radius, more(from - along, along - to));
}

static double bolt_holes(double x, double y, double circle, double radius)
{
    static const double turn[BOLTS][2] = {{1, 0},  {0.70710678118654757, 0.70710678118654757},
                                          {0, 1},  {-0.70710678118654757, 0.70710678118654757},
                                          {-1, 0}, {-0.70710678118654757, -0.70710678118654757},
                                          {0, -1}, {0.70710678118654757, -0.70710678118654757}};
    double nearest = 1e9;
    for (unsigned bolt = 0; bolt < BOLTS; bolt++) {
        double u = x - circle * turn[bolt][0], v = y - circle * turn[bolt][1];
        nearest = less(nearest, sqrt(u * u + v * v) - radius);
    }
    return nearest;
}

/* The housing without its pores. Lengths are parts of n, from the middle of the block. */
static double housing(double x, double y, double z, double n)
{
    double body = cylinder(x, y, z, 0.32 * n, -0.40 * n, 0.40 * n);
    double lower_flange = cylinder(x, y, z, 0.44 * n, -0.40 * n, -0.30 * n);
    double upper_flange = cylinder(x, y, z, 0.44 * n, 0.30 * n, 0.40 * n);
    double outlet = cylinder(y, z, x, 0.15 * n, 0.0, 0.46 * n);
    double chamber = cylinder(x, y, z, 0.24 * n, -0.32 * n, 0.50 * n);
    double shaft = cylinder(x, y, z, 0.07 * n, -0.50 * n, 0.0);
    double outlet_bore = cylinder(y, z, x, 0.09 * n, 0.0, 0.50 * n);
    double solid = less(less(body, outlet), less(lower_flange, upper_flange));
    double bores = less(less(chamber, shaft), less(outlet_bore, bolt_holes(x, y, 0.38 * n, 0.025 * n)));
    return more(solid, -bores);
}

/* ---- the block ---- */

static float *distances(size_t n)
{
    float *distance = malloc(n * n * n * sizeof *distance);
    double middle = 0.5 * (double)(n - 1);
    size_t index = 0;
    if (!distance)
        return NULL;
    for (size_t k = 0; k < n; k++)
        for (size_t j = 0; j < n; j++)
            for (size_t i = 0; i < n; i++)
                distance[index++] =
                    (float)housing((double)i - middle, (double)j - middle, (double)k - middle, (double)n);
    return distance;
}

/* Takes a sphere out of the metal. */
static void take_out(float *distance, size_t n, const double centre[3], double radius)
{
    size_t from[3], to[3];
    for (unsigned axis = 0; axis < 3; axis++) {
        from[axis] = (size_t)more(0.0, centre[axis] - radius - 2.0);
        to[axis] = (size_t)less((double)n, centre[axis] + radius + 3.0);
    }
    for (size_t k = from[2]; k < to[2]; k++)
        for (size_t j = from[1]; j < to[1]; j++)
            for (size_t i = from[0]; i < to[0]; i++) {
                double x = (double)i - centre[0], y = (double)j - centre[1], z = (double)k - centre[2];
                float *at = distance + i + n * (j + n * k);
                *at = (float)more(*at, radius - sqrt(x * x + y * y + z * z));
            }
}

/* Pores lie in the metal, as many for each part of the block as at 256; those that find no room are left out. */
static unsigned cast_pores(float *distance, size_t n)
{
    unsigned wanted = (unsigned)((uint64_t)PORES_AT_256 * n * n * n / ((uint64_t)256 * 256 * 256)), count = 0;
    for (unsigned try = 0; try < TRIES && count < wanted; try++) {
        double radius = LEAST_RADIUS + (MOST_RADIUS - LEAST_RADIUS) * part(), centre[3];
        size_t index = 0;
        for (unsigned axis = 3; axis-- > 0;) {
            centre[axis] = part() * (double)(n - 1);
            index = index * n + (size_t)centre[axis];
        }
        if (distance[index] > -(radius + 1.0))
            continue;
        take_out(distance, n, centre, radius);
        count++;
    }
    return count;
}

/* Solid metal all through. */
static float *wall(size_t n)
{
    float *distance = malloc(n * n * n * sizeof *distance);
    for (size_t index = 0; distance && index < n * n * n; index++)
        distance[index] = (float)-(double)n;
    return distance;
}

/* A round neck from one point to another. */
static void take_out_neck(float *distance, size_t n, const double from[3], const double to[3], double radius)
{
    for (unsigned step = 0; step <= NECK_STEPS; step++) {
        double along = (double)step / NECK_STEPS, centre[3];
        for (unsigned axis = 0; axis < 3; axis++)
            centre[axis] = from[axis] + along * (to[axis] - from[axis]);
        take_out(distance, n, centre, radius);
    }
}

/* One pore in the middle of the wall: three bubbles that have run together, a fourth that hangs on them by a thin neck,
   and blisters by chance on the first three. */
static void cast_one_pore(float *distance, size_t n)
{
    static const double bubble[BUBBLES][4] = {
        {-3.4, 0.3, -0.6, 5.2}, {3.1, 1.9, 1.3, 4.1}, {-0.6, -3.9, 2.9, 3.2}, {11.2, -2.6, -1.2, 2.7}};
    double centre[BUBBLES][3];
    for (unsigned which = 0; which < BUBBLES; which++) {
        for (unsigned axis = 0; axis < 3; axis++)
            centre[which][axis] = 0.5 * (double)(n - 1) + bubble[which][axis];
        take_out(distance, n, centre[which], bubble[which][3]);
    }
    take_out_neck(distance, n, centre[1], centre[3], 1.1);
    for (unsigned blister = 0; blister < BLISTERS; blister++) {
        unsigned on = blister % (BUBBLES - 1);
        double way[3], square = 0.0, at[3];
        for (unsigned axis = 0; axis < 3; axis++) {
            way[axis] = 2.0 * part() - 1.0;
            square += way[axis] * way[axis];
        }
        for (unsigned axis = 0; axis < 3; axis++)
            at[axis] = centre[on][axis] + way[axis] / sqrt(square) * (bubble[on][3] - 0.4);
        take_out(distance, n, at, 1.3 + 0.9 * part());
    }
}

/* ---- grey values ---- */

static int noise_within(int reach)
{
    return (int)(next() % (uint64_t)(2 * reach + 1)) - reach;
}

static int noise_of(int is_poor)
{
    int noise = 0;
    if (!is_poor)
        return noise_within(GOOD);
    for (unsigned count = 0; count < POOR_PARTS; count++)
        noise += noise_within(POOR);
    return noise;
}

/* A sample whose surroundings are half metal and half hollow is half way between the two. */
static uint16_t grey(double distance, int is_poor)
{
    double metal = less(1.0, more(0.0, 0.5 - 0.5 * distance));
    int value = HOLLOW + (int)((METAL - HOLLOW) * metal) + noise_of(is_poor);
    return (uint16_t)(value < 0 ? 0 : value);
}

/* Whether readings are written, and how many have been. */
static int is_float;
static uint64_t reading_count;

/* The fraction hangs on the place alone. */
static int put_reading(FILE *file, uint16_t value)
{
    uint64_t parts = reading_count++ * UINT64_C(0x9E3779B97F4A7C15) >> 56;
    float reading = (float)value + (float)parts / 256.0f;
    uint32_t bits;
    int good = 1;
    memcpy(&bits, &reading, sizeof bits);
    for (int shift = 0; good && shift < 32; shift += 8)
        good = putc((int)(bits >> shift & 255), file) != EOF;
    return good;
}

static int put(FILE *file, uint16_t value)
{
    if (is_float)
        return put_reading(file, value);
    return putc(value & 255, file) != EOF && putc(value >> 8, file) != EOF;
}

static int write_distances(FILE *file, size_t n, const float *distance, int is_poor)
{
    int good = 1;
    for (size_t index = 0; good && index < n * n * n; index++)
        good = put(file, grey(distance[index], is_poor));
    return good;
}

static int write_housing(FILE *file, size_t n, int is_poor)
{
    float *distance = distances(n);
    int good = distance != NULL;
    if (good) {
        printf("housing: %u pores\n", cast_pores(distance, n));
        good = write_distances(file, n, distance, is_poor);
    }
    free(distance);
    return good;
}

static int write_pore(FILE *file, size_t n)
{
    float *distance = wall(n);
    int good = distance != NULL;
    if (good) {
        cast_one_pore(distance, n);
        good = write_distances(file, n, distance, 0);
    }
    free(distance);
    return good;
}

static int write_noise(FILE *file, size_t n)
{
    int good = 1;
    for (size_t index = 0; good && index < n * n * n; index++)
        good = put(file, (uint16_t)(next() % CEILING));
    return good;
}

/* ---- the command ---- */

enum kind { HOUSING, NOISY, NOISE, PORE, KINDS };

static enum kind kind_called(const char *name)
{
    static const char *const names[KINDS] = {"housing", "noisy", "noise", "pore"};
    unsigned kind = 0;
    while (kind < KINDS && strcmp(name, names[kind]) != 0)
        kind++;
    return (enum kind)kind;
}

static int write_block(FILE *file, size_t n, enum kind kind)
{
    if (kind == NOISE)
        return write_noise(file, n);
    if (kind == PORE)
        return write_pore(file, n);
    return write_housing(file, n, kind == NOISY);
}

int main(int argc, char **argv)
{
    int is_complete = argc == 5 || (argc == 6 && strcmp(argv[5], "float") == 0), good;
    size_t n = is_complete ? (size_t)strtoul(argv[1], NULL, 10) : 0;
    enum kind kind = is_complete ? kind_called(argv[2]) : KINDS;
    FILE *file;
    if (n < (kind == PORE ? THINNEST_WALL : 2) || n > LONGEST_AXIS || kind == KINDS) {
        fprintf(stderr, "usage: housing n housing|noisy|noise|pore seed file [float], with n from 2 (pore: %d) to %d\n",
                THINNEST_WALL, LONGEST_AXIS);
        return 2;
    }
    is_float = argc == 6;
    state = strtoull(argv[3], NULL, 10);
    file = fopen(argv[4], "wb");
    if (!file) {
        perror(argv[4]);
        return 2;
    }
    good = write_block(file, n, kind);
    good = fclose(file) == 0 && good;
    if (!good)
        fprintf(stderr, "housing: could not write %s\n", argv[4]);
    return good ? 0 : 2;
}
