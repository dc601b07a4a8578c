/* What the parts of the comparison share: how a call is judged, what has occurred, and the trial of one block.
   Assumes that the library is linked in; built with -DSELF the plain implementation stands in for it. */
#ifndef PARSNIPROW_COMPARE_H
#define PARSNIPROW_COMPARE_H

#include "../include/parsniprow.h"
#include "blocks.h"
#include "lent.h"
#include "plain.h"

#ifdef SELF
#define parsniprow_edge plain_edge
#define parsniprow_cube plain_cube
#define parsniprow_crossed plain_crossed
#define parsniprow_counts plain_counts
#define parsniprow_thresholds plain_thresholds
#define parsniprow_mesh plain_mesh
#define parsniprow_reading plain_reading
#define parsniprow_readings_counts plain_readings_counts
#define parsniprow_readings_mesh plain_readings_mesh
#define parsniprow_start plain_start
#define parsniprow_plane plain_plane
#define parsniprow_end plain_end
#define parsniprow_closed plain_closed
#define parsniprow_closed_with plain_closed_with
#define parsniprow_pieces plain_pieces
#define parsniprow_ceilings plain_ceilings
#define parsniprow_ply plain_ply
#define parsniprow_judge plain_judge
#endif

enum { ANSWER = 3, CLOSED_ANSWER = 4, LOOPS = 4, COORDINATES = 12, MOST_SHIFT = 8 };

/* The mark of a vertex whose cube has a corner at the ceiling, a bit of its word. */
enum { MARK = 4096 };

enum function {
    EDGE,
    CUBE,
    CROSSED,
    COUNTS,
    THRESHOLDS,
    MESH,
    READING,
    READINGS_COUNTS,
    READINGS_MESH,
    START,
    PLANES,
    END,
    CLOSED,
    CLOSED_WITH,
    PIECES,
    CEILINGS,
    PLY,
    JUDGE,
    FUNCTIONS
};

/* ---- judging a call ---- */

/* A lent buffer and what it must hold after the call: these items, as far as it reaches, and else what it held. */
struct wanted {
    struct lent *lent;
    const void *items;
    size_t count;
};

/* Hands the buffers out for a call of the library, whose buffers lie so. */
void hand_out_all(enum function function, struct lying lying, const struct wanted *wanted, size_t count);

/* Takes them back and compares them. Where a buffer differs it is counted; for the first one that differs it prints
   which and where, and the answer is 1: the caller should then print the call. Otherwise 0. */
int first_to_differ(enum function function, const struct wanted *wanted, size_t count);

/* As first_to_differ, for a fault that is not in a buffer of the library. */
int first_to_fail(const char *what);

/* A random way for buffers to lie, and a random length for an answer place of so many items. */
struct lying choose_lying(struct chance *chance);
size_t choose_reach(struct chance *chance, size_t need);

/* A random length for a buffer that needs so many items: at or above the need, or below it where short is set. */
size_t choose_room(struct chance *chance, size_t need, int is_short);

/* ---- what has occurred ---- */

/* Prints a title, then under it how often each case occurred. A case that never did is missing. */
void tally_title(const char *title);
void tally_case(const char *name, uint64_t count);
void tally_reaches(const struct lent *lent);

/* How a block was wrong that was refused with 1 or 2: which axis was named, and how the axes or the samples were. */
struct block_faults {
    uint64_t axis[3], several_axes, axis_short, axis_long, no_sample, one_less, one_more;
};

/* Counts the fault of a block with these axes and so many samples, if the answer is refusal 1 or 2. */
void count_block_fault(struct block_faults *faults, const uint32_t *answer, const uint32_t length[3],
                       size_t samples_len);
void tally_block_faults(const struct block_faults *faults);

/* The noise figures of accepted blocks: how many are 0 and how many above; and how many have a face at whose limit they
   are, one above whose limit they are, and one that they part. These are of blocks so short that each face is looked
   at. */
struct noise_tally {
    uint64_t none, some, at_limit, one_above, parted;
};

/* Counts a noise figure, and what it does to the faces of a block. */
void count_figure(struct noise_tally *tally, uint32_t noise);
void count_effect(struct noise_tally *tally, const struct noise_effect *effect);
void tally_noise(const struct noise_tally *tally);

/* As first_to_fail, for what is answered to the counts of a block without a noise figure and with one of this effect:
   both must have as many quads, and as many vertices too where no face is parted. */
int first_to_change(const struct noise_effect *effect, const uint32_t *without, const uint32_t *with);

/* ---- the parts ---- */

/* A block, and the random numbers from which it and all that goes with it is made. */
struct trial {
    struct chance chance;
    uint32_t length[3]; /* of the block before anything was made wrong about it */
    uint16_t t;
    const uint16_t *samples;
    const uint32_t *words, *quads; /* of its mesh, where that was accepted, else null */
    const double *offsets;
    size_t vertex_count, quad_count;
};

/* Asks the counts and the mesh of a block and fills in the trial but for its chance; then what goes with the block:
   some edges, some of its cubes, some lists of quads, its samples at the ceiling, some files, another block, whose
   samples on the faces of the box are all of one sign, the pieces of some lists, its crossed edges with those of some
   other blocks, its counts by rows of thresholds with those of some other blocks, some other blocks plane by plane,
   some readings with a block of readings, and some foreign meshes with a block of their own. */
void try_block(struct trial *trial);
void try_edges(struct trial *trial);
void try_cubes(struct trial *trial);
void try_lists(struct trial *trial);
void try_ceilings(struct trial *trial);
void try_files(struct trial *trial);
void try_margin(struct trial *trial);
void try_pieces(struct trial *trial);
void try_room(struct trial *trial);
void try_rows(struct trial *trial);
void try_planes(struct trial *trial);
void try_readings(struct trial *trial);
void try_judged(struct trial *trial);

/* The closed question takes the square of a list without work, so it is asked so only up to this many quads. */
enum { SQUARE_QUADS = 352 };

/* What plain says of a list: is it closed, and is some side walked more than once one way? */
struct closure {
    int is_closed, is_walked_again;
};

/* Asks, without work and with enough of it, whether the quads of a mesh with so many vertices are closed. */
struct closure try_list_of_mesh(struct chance *chance, const uint32_t *quads, size_t quad_count, size_t vertex_count);

/* Asks the same of a copy in which one quad is damaged. There is at least one quad, and at most 1000. */
void try_damaged_mesh(struct chance *chance, const uint32_t *quads, size_t quad_count, int was_closed);

/* What is asked once, whatever the blocks. */
void try_fixed_blocks(void);
void try_fixed_edges(void);
void try_fixed_cubes(void);
void try_fixed_lists(void);
void try_fixed_ceilings(void);
void try_fixed_files(void);
void try_fixed_margins(void);
void try_fixed_pieces(void);
void try_fixed_rooms(void);
void try_fixed_rows(void);
void try_fixed_planes(void);
void try_fixed_readings(void);
void try_fixed_judged(void);

/* What takes seconds, and is asked only with enough blocks. */
void try_longest_file(void);
void try_largest_blocks(void);
void try_largest_rows(void);
void try_largest_planes(void);
void try_largest_readings(void);
void try_largest_judged(void);

/* What takes minutes: all 2^32 readings. Gives how many were asked. */
uint64_t try_all_readings(void);

/* Print what has occurred, and give the number of calls. */
void tally_blocks(void);
uint64_t tally_edges(void);
uint64_t tally_cubes(void);
uint64_t tally_lists(void);
uint64_t tally_ceilings(void);
uint64_t tally_files(void);
uint64_t tally_margins(void);
uint64_t tally_pieces(void);
uint64_t tally_rooms(void);
uint64_t tally_rows(void);
uint64_t tally_planes(void);
uint64_t tally_readings(void);
uint64_t tally_judged(void);

#endif
