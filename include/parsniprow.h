/* Parsniprow: the surface between metal and hollow in a block of 16-bit grey values, or of readings that become such,
   as a mesh of quads.

   WHAT IS TRUE OF EVERY FUNCTION HERE
   - It may be asked anything: every number and every length is taken, and every call ends.
   - A buffer is a pointer and then its length, counted in items and not in bytes. No pointer may be null, also where
     the length is 0 (malloc(0) may give null: ask for one byte at least). The memory is the caller's, it is aligned for
     its items, the length is not more than it has, and a buffer that is written to overlaps no other. What is only
     written to need not be initialised.
   - Nothing is kept from one call to the next and nothing is allocated, so any number of threads may call at once,
     where none writes what another's call reads or writes. What a mesh that is made plane by plane must remember stands
     in two buffers that the caller lends to each plane, the state and the work. A call takes less than 64 KiB of the
     stack. The library has no tables: its constants are less than 1 KiB. Of a C library it needs memcpy and memset.
     The processor rounds to nearest, traps at no float and takes the smallest floats as they are, as a C program
     starts. (Linked with -ffast-math a program may start otherwise: readings just below zero then pass as zeros.)
   - C cuts an argument that is too large for its type before the call: 65636 as t arrives as 100, 4294967296 as noise
     as 0, and -1 as noise as 4294967295. Check wider numbers first. It also rounds a double that is given as a float:
     65534.999 as a reading arrives as 65535.
   - Nothing outside the lent buffers is touched, and what is lent as const is not written to.
   - An answer place is always written, with zeros where the answer does not use it. It takes the number of items that
     the function says. If the place is shorter, as many are written as it has room for. What lies behind is kept.

   IN WHICH ORDER
   To try several thresholds on one scan, ask parsniprow_thresholds. It says how many vertices and quads there are by
   each of up to 16. For the one that you choose, parsniprow_counts says how long the buffers of a mesh must be. Or ask
   parsniprow_crossed, which takes less time on a scan: the lengths that are reserved by its answer are enough for the
   same block and threshold, with any noise figure. parsniprow_mesh fills the buffers; give it the threshold and the
   noise figure that the counts were asked with. Then parsniprow_closed_with, parsniprow_pieces and
   parsniprow_ply may be asked about the mesh. parsniprow_judge says whether a mesh that was made elsewhere is that of a
   block. The other questions stand by themselves: parsniprow_ceilings, parsniprow_edge, parsniprow_cube and
   parsniprow_closed.
   A block of readings goes the same way: parsniprow_readings_counts says how long the buffers must be, and
   parsniprow_readings_mesh fills them. What may be asked about a mesh may be asked about this one too. All other
   questions about a block take grey values. parsniprow_reading says of one reading which grey value it becomes. So
   whoever wants the crossed edges, the ceilings, several thresholds, a mesh plane by plane or a verdict on a mesh, of a
   block of readings, makes the grey values first.
   A scan that is too large to be held at once goes plane by plane: parsniprow_start once, then parsniprow_plane for
   each of the nz planes by rising z, then parsniprow_end. Each call of parsniprow_plane writes the part of the mesh
   that its plane finishes. Neither the counts nor the crossed edges need be asked before.

   REFUSALS
   What cannot be answered is refused by number. Each function says which numbers it tries, and in which order; the
   first that holds is given, with its value.

     number  given exactly when                value
     1       an axis is under 2 or over 256    lowest such axis, 0 to 2
     2       samples_len or readings_len is    nx * ny * nz, or of a
             not nx * ny * nz, or plane_len    plane nx * ny
             is not nx * ny
     3       t or a threshold is 0 or 65535    that threshold
     5       words_len is under 2 a vertex,    vertices needed, for a
             or offsets_len is under 3 a       plane by this call
             vertex; piece_len or size_len is
             under n
     6       quads_len is under 4 a quad       quads needed, for a
                                               plane by this call
     7       quads_len is no multiple of 4     quads_len modulo 4
     13      a spacing is not above 0, or      lowest such axis, 0 to 2
             is above 1000
     14      a quad names a vertex that is     lowest such quad
             not there
     15      file_len is under the bytes of    bytes or items needed;
             the file, work_len under the      for answers_len how
             items that the closed question    many thresholds there
             or a mesh made plane by plane     are
             needs, or answers_len under 3
             a threshold
     16      there are more than 16            how many there are
             thresholds
     17      a plane comes when nz planes      nz
             have been taken
     18      the end is asked before nz        planes taken
             planes have been taken
     19      of the readings at fault the one  its index; of a single
             with the lowest index is no       reading 0
             number
     20      the same one is infinite, of      its index; of a single
             either sign                       reading 0
     21      the same one is below zero and    its index; of a single
             not infinite                      reading 0
     22      words_len and offsets_len are     words_len
             not twice and three times one
             count of at most 66325500
     23      the cube of a vertex is not in    lowest such vertex
             the block
     24      an offset of a vertex is not      lowest such vertex
             from 0 to 1

   A value above 4294967295 is given as that. Numbers 8 to 12 are of the small program and not of the library. Number 4
   is given by nothing any more. A number stands first in the answer place of the call. Only number 3 of
   parsniprow_thresholds does not: there it is the answer for one threshold, and the call is not refused.

   GREY VALUES
   A sample is metal if it is at least the threshold t, else hollow. Samples stand x fastest: sample (i, j, k) has index
   i + nx * (j + ny * k). Eight neighbouring samples are the corners of a cube, and the box is what all cubes fill.
   65535 is the detector's ceiling. It counts as metal, and what the detector saw there is not known. So each vertex
   whose cube has a corner at 65535 carries a mark: bit 12 (4096) of its word. Neither the counts nor the number of
   crossed edges shows a mark. A ceiling with metal all round leaves no vertex and so no mark: parsniprow_ceilings
   counts every one.

   READINGS
   A second bench delivers 32-bit floats. Such a reading becomes a grey value: the greatest whole number that is not
   above it, so 400.75 becomes 400. 65535 and every finite reading above it become 65535, the ceiling. Minus zero is
   zero. A reading that has no grey value is at fault: it is no number (NaN, with any bits and either sign), infinite or
   below zero, be it ever so little. Of several at fault in a block the one with the lowest index decides, whatever its
   fault is. Readings stand in the order of samples, and they are not changed: no block of grey values is lent or
   allocated. The mesh is that of the block of grey values, with its marks. So fractions do not count: a crossing lies
   where the grey values put it.

   NOISE
   With a noisy tube the two products that decide a doubtful face, of which THE MESH speaks, are close to each other. A
   noise figure n goes with the threshold: the metal corners are joined only if their product is at least that of the
   hollow ones and n together. So a larger n parts metal, and the hollows of such a face join; no n does the reverse. n
   may be any 32-bit number. With 0 the rule is the plain one, and every answer is that of a library without noise
   figures. Above 4294705155 every such face is parted. n is compared with products of two differences from t, so it is
   in squares of grey values: 2500 is what two differences of 50 make. Which edges are crossed and where does not depend
   on it, and neither does the number of quads. Of the refusals only 5 depends on it, and 6 in so far as 5 is tried
   before it. A block without such a face has one mesh, whatever n is.

   THE MESH
   An edge joins two samples that are neighbours along x, y or z; its lower end has the smaller coordinate. It is
   crossed if one end is metal and the other hollow. On each face of a cube crossed edges are linked in pairs; where
   all four are crossed the face is doubtful, and the metal corners are joined if the product of their differences
   from t is at least that of the hollow ones and the noise figure together (asymptotic decider). The links close
   into loops of 3 to 12 edges, at most 4 in a cube. Each loop is a vertex, at the mean of its crossings. Vertices
   stand by rising cube number, in a cube by the loop's lowest edge. Each crossed edge that lies on no face of the
   box gives one quad of the vertices around it: edges along x, then y, then z, each by index of the lower sample. So
   a vertex at the box's faces may be in no quad. */
#ifndef PARSNIPROW_H
#define PARSNIPROW_H

#include <stddef.h>
#include <stdint.h>

#ifdef __cplusplus
extern "C" {
#endif

/* Where the surface crosses an edge. An end at 65535 counts as metal, and the answer shows no mark.
     p, q      the samples at the edge's two ends, p at the one with the smaller coordinate
     t         the threshold
     fraction  answer place, 1 item: how far the crossing is from the lower end, 0 to 1; 0 where there is none, on
               refusal too
     answer    answer place, 3 items: 0, number of crossings (0 or 1), 0; or refusal 3, its value, 0 */
void parsniprow_edge(uint16_t p, uint16_t q, uint16_t t, double *fraction, size_t fraction_len, uint32_t *answer,
                     size_t answer_len);

/* The loops of crossed edges in a cube, each of which is a vertex.
     c0 to c7  the samples at the corners; corner x + 2 * y + 4 * z is at (x, y, z)
     t         the threshold
     noise     the noise figure, any number; 0 for none
     words     answer place, 4 items: a word for each loop, in the order of their lowest edges: bits 0 to 11 are its
               mask, bit e for edge e; bit 12 is the mark, set if a corner is 65535. 0 where there is no loop, on
               refusal too
     offsets   answer place, 12 items: the place x, y, z of each loop in the cube, each 0 to 1; 0 where there is none,
               on refusal too
     answer    answer place, 3 items: 0, number of loops (0 to 4), 0; or refusal 3, its value, 0
   Edges by number, each with its two corners, the lower first: 0: 0-1, 1: 2-3, 2: 4-5, 3: 6-7, 4: 0-2, 5: 1-3, 6: 4-6,
   7: 5-7, 8: 0-4, 9: 1-5, 10: 2-6, 11: 3-7. */
void parsniprow_cube(uint16_t c0, uint16_t c1, uint16_t c2, uint16_t c3, uint16_t c4, uint16_t c5, uint16_t c6,
                     uint16_t c7, uint16_t t, uint32_t noise, uint32_t *words, size_t words_len, double *offsets,
                     size_t offsets_len, uint32_t *answer, size_t answer_len);

/* How many edges of a block are crossed, those on the faces of the box too. There are at most 50135040. On a scan the
   answer takes less time than the counts, for 256 samples an axis about half of it. Let E be this number, and let v be
   4 * E / 3, rounded down. The mesh of the same block and threshold, with any noise figure, has at most v vertices and
   at most E quads. So parsniprow_mesh never refuses buffers of these lengths with 5 or 6:
     words        2 * v items
     offsets      3 * v items
     quads        4 * E items
   That is 32 bytes for each of v vertices and 16 for each of E quads. A mesh often takes less. The answer of
   parsniprow_mesh says how much it took. For what is asked of that mesh afterwards these lengths are enough:
     work         v + 4 * E items, for parsniprow_closed_with
     piece, size  v items each, for parsniprow_pieces
     file         186 + 24 * v + 17 * E bytes, for parsniprow_ply
   Each of these numbers fits into 32 bits. The arguments:
     nx, ny, nz, samples, t  as of parsniprow_counts, which stands next
     answer  answer place, 3 items: 0, crossed edges, 0; or refusal (1, 2 or 3, tried in this order), its value, 0 */
void parsniprow_crossed(uint32_t nx, uint32_t ny, uint32_t nz, const uint16_t *samples, size_t samples_len, uint16_t t,
                        uint32_t *answer, size_t answer_len);

/* How many vertices and quads the mesh of a block has. There are at most 66325500 and 49354740. They do not show
   whether a vertex carries the mark.
     nx, ny, nz  axis lengths in samples, each 2 to 256
     samples     nx * ny * nz grey values
     t           the threshold, 1 to 65534
     noise       the noise figure, any number; 0 for none
     answer      answer place, 3 items: 0, vertices, quads; or refusal (1, 2 or 3, tried in this order), its value, 0 */
void parsniprow_counts(uint32_t nx, uint32_t ny, uint32_t nz, const uint16_t *samples, size_t samples_len, uint16_t t,
                       uint32_t noise, uint32_t *answer, size_t answer_len);

/* How many vertices and quads the mesh of a block has by each of several thresholds, for trying thresholds on one scan.
   For each threshold the numbers are those that parsniprow_counts answers for it alone, with the same noise figure. The
   call takes about the time of as many calls of parsniprow_counts, and less on a large scan.
     nx, ny, nz, samples  as of parsniprow_counts
     thresholds  0 to 16 thresholds, any numbers in any order; one may stand there twice
     noise       one noise figure for all of them, any number; 0 for none
     answers     room for 3 items a threshold. At 3 * i stand those of thresholds[i]: 0, vertices, quads; or, where it
                 is 0 or 65535, refusal 3, its value, 0. More room is allowed
     answer      answer place, 3 items: 0, 0, 0; or refusal of the whole call (16, 15, 1 or 2, tried in this order), its
                 value, 0
   A threshold of 0 or 65535 does not refuse the call: number 3 stands among the answers and never in answer, and the
   other thresholds are counted. So look at answer first, and then at the first item of each three in answers.
   Without a threshold a good block is accepted, and nothing is written to answers. The buffer keeps its contents on
   refusal, and always behind 3 * thresholds_len items. */
void parsniprow_thresholds(uint32_t nx, uint32_t ny, uint32_t nz, const uint16_t *samples, size_t samples_len,
                           const uint16_t *thresholds, size_t thresholds_len, uint32_t noise, uint32_t *answers,
                           size_t answers_len, uint32_t *answer, size_t answer_len);

/* The mesh of a block. Its time grows with the number of samples and with the size of the mesh. Ask parsniprow_counts
   first, which says the exact lengths: words takes 2 * vertices items, offsets 3 * vertices, quads 4 * quads. More room
   is allowed. Or ask parsniprow_crossed first, and reserve by its answer.
     nx, ny, nz, samples, t, noise  as of parsniprow_counts
     words    room for 2 items a vertex: the number of its cube, then its word: bits 0 to 11 are the mask of its loop,
              bit 12 is the mark, set if a corner of its cube is 65535. Cube (i, j, k) has number
              i + (nx - 1) * (j + (ny - 1) * k)
     offsets  room for 3 items a vertex: x, y, z from the cube's corner 0, each 0 to 1; the vertex is at
              (i + x, j + y, k + z) in grid steps
     quads    room for 4 items a quad: the numbers of its vertices, from 0. Seen along its edge from the hollow end they
              run against the clock where x, y, z are right-handed. A quad need be neither flat nor convex; vertices may
              share a place, so its area may be 0
     answer   answer place, 3 items: 0, vertices, quads; or refusal (1, 2, 3, 5 or 6, tried in this order), its value, 0
   The three buffers keep their contents on refusal, and always behind the mesh. Whoever hands them on, to
   parsniprow_closed_with, parsniprow_pieces, parsniprow_ply or parsniprow_judge, gives the lengths of the mesh,
   2 * vertices, 3 * vertices and 4 * quads by this answer, and not the lengths that were reserved. */
void parsniprow_mesh(uint32_t nx, uint32_t ny, uint32_t nz, const uint16_t *samples, size_t samples_len, uint16_t t,
                     uint32_t noise, uint32_t *words, size_t words_len, double *offsets, size_t offsets_len,
                     uint32_t *quads, size_t quads_len, uint32_t *answer, size_t answer_len);

/* What a reading is.
     x       the reading, any float
     answer  answer place, 3 items: 0, its grey value, which is 65535 at the ceiling, 0; or refusal 19, 20 or 21, 0 (a
             single reading has the index 0), 0 */
void parsniprow_reading(float x, uint32_t *answer, size_t answer_len);

/* How many vertices and quads the mesh of a block of readings has: as many as parsniprow_counts answers for the block
   of their grey values.
     nx, ny, nz  axis lengths in samples, each 2 to 256
     readings    nx * ny * nz readings
     t           the threshold, 1 to 65534
     noise       the noise figure, any number; 0 for none
     answer      answer place, 3 items: 0, vertices, quads; or refusal (1, 2 or 3, tried in this order, then 19, 20 or
                 21, whichever the lowest reading at fault has), its value, 0 */
void parsniprow_readings_counts(uint32_t nx, uint32_t ny, uint32_t nz, const float *readings, size_t readings_len,
                                uint16_t t, uint32_t noise, uint32_t *answer, size_t answer_len);

/* The mesh of a block of readings: what parsniprow_mesh writes for the block of their grey values, to the last bit. Ask
   parsniprow_readings_counts first, which says the exact lengths. More room is allowed.
     nx, ny, nz, readings, t, noise  as of parsniprow_readings_counts
     words, offsets, quads           as of parsniprow_mesh. The mark, bit 12 of a word, is set if the reading at a
                                     corner of the cube is at the ceiling
     answer  answer place, 3 items: 0, vertices, quads; or refusal (1, 2 or 3, tried in this order, then 19, 20 or 21,
             whichever the lowest reading at fault has, then 5, then 6), its value, 0
   The three buffers keep their contents on refusal, and always behind the mesh. They are handed on as of
   parsniprow_mesh. */
void parsniprow_readings_mesh(uint32_t nx, uint32_t ny, uint32_t nz, const float *readings, size_t readings_len,
                              uint16_t t, uint32_t noise, uint32_t *words, size_t words_len, double *offsets,
                              size_t offsets_len, uint32_t *quads, size_t quads_len, uint32_t *answer,
                              size_t answer_len);

/* The mesh of a block, plane by plane. The block need not be held in memory: its planes are handed over by rising z,
   plane k the nx * ny samples from index nx * ny * k on. The calls for one block are a run:
     parsniprow_start   once
     parsniprow_plane   nz times, each with the next plane. The first writes no vertex and no quad. Each further call
                        finishes a layer of cubes and writes what became known by it
     parsniprow_end     both totals
   All words that the calls write, one behind the other, are those of parsniprow_mesh for the whole block, and so are
   the offsets. The quads are the same too, each once, with the same vertex numbers, but they come in another order: by
   call, and in a call those along x, then y, then z. parsniprow_mesh has first all of them along x, then y, then z.
   What a run must remember stands in state and in work. Both are the caller's, and each plane gets them as the last
   call of the run left them. The end gets the state alone. They may be copied and moved between the calls. What the
   items of work mean is the library's own affair. Several runs, each with a state and a work of its own, may go side by
   side. With a state or a work that is not as a call left it, the mesh is not promised. Such a call still ends, touches
   nothing but the lent buffers, and writes at most as much as its answer says. */

/* How many items the state of a run has: nx, ny, nz, t, noise, vertices so far, quads so far, planes taken. */
#define PARSNIPROW_STATE 8

/* Starts a run.
     nx, ny, nz  axis lengths in samples, each 2 to 256
     t           the threshold, 1 to 65534
     noise       the noise figure of the whole run, any number; 0 for none
     work        the buffer that is to be lent to the planes, 6 * nx * ny items or more. Only its length is looked at,
                 and nothing is written to it. It is not const here, since a compiler may warn where a buffer that is
                 not initialised is lent as const
     state       room for PARSNIPROW_STATE items: nx, ny, nz, t, noise, 0, 0, 0
     answer      answer place, 3 items: 0, 0, 0; or refusal (1, 3 or 15, tried in this order), its value, 0
   The state keeps its contents on refusal, and always behind its items. If it is shorter, as many are written as it has
   room for. Such a state has no place for the planes taken. If it has 4 items or more, every plane is taken as the
   first. If it has fewer, every plane is refused with 1 or 3. */
void parsniprow_start(uint32_t nx, uint32_t ny, uint32_t nz, uint16_t t, uint32_t noise, uint32_t *work,
                      size_t work_len, uint32_t *state, size_t state_len, uint32_t *answer, size_t answer_len);

/* Takes the next plane of a run. Let k be the planes that were taken before. If k is 0, no vertex and no quad is
   written. Else the call writes the vertices of the layer of cubes between plane k - 1 and plane k; then the quads of
   the crossed edges along x on plane k - 1, then those along y on it, then those along z from plane k - 1 to plane k,
   each by index of the lower sample. As of parsniprow_mesh, only an edge that lies on no face of the box gives a quad.
   Each buffer is filled from its front in every call: lend fresh room, or read the part out before the next call.
     state    as the last call of the run left it. A missing item is read as 0, and t modulo 65536. An accepted call
              leaves t as it was read; vertices and quads so far are higher by those of this call, and planes taken by
              one
     plane    the nx * ny samples of plane k, x fastest
     work     6 * nx * ny items, as the last call of the run left them. Before the first plane it need not be
              initialised. More room is allowed
     words    room for 2 items for each vertex of the layer, as of parsniprow_mesh: the cube's number in the whole
              block, and its word, of which bit 12 is the mark
     offsets  room for 3 items for each vertex of the layer, as of parsniprow_mesh
     quads    room for 4 items for each of these quads: the numbers of its vertices in the mesh of the whole block. The
              first vertex that this call writes has the number of vertices so far
     answer   answer place, 3 items: 0, vertices, quads of this call; or refusal (1, 3, 17, 2, 15, 5 or 6, tried in this
              order), its value, 0. The state of a run never meets 1 and 3, which are about its own numbers
   On refusal state, work and the three buffers keep their contents, so the run can go on: hand the same plane over
   again with what was missing. Numbers 5 and 6 say what this call needs. The three buffers always keep what lies behind
   the part, and work what lies behind its 6 * nx * ny items. Buffers of these lengths are enough for each call of the
   run:
     words    8 * (nx - 1) * (ny - 1) items, for 4 vertices a cube
     offsets  12 * (nx - 1) * (ny - 1) items
     quads    4 * ((nx - 1) * (ny - 2) + (nx - 2) * (ny - 1) + (nx - 2) * (ny - 2)) items
   For 256 samples along x and y these and work take 13000960 bytes, whatever nz is. Most layers take much less: whoever
   reserves less lends what there is, and where a call is refused with 5 or 6, reserves more and asks again. */
void parsniprow_plane(uint32_t *state, size_t state_len, const uint16_t *plane, size_t plane_len, uint32_t *work,
                      size_t work_len, uint32_t *words, size_t words_len, double *offsets, size_t offsets_len,
                      uint32_t *quads, size_t quads_len, uint32_t *answer, size_t answer_len);

/* How many vertices and quads all planes of a run have given. The state is not changed, and the question may be asked
   again.
     state   as the last call of the run left it
     answer  answer place, 3 items: 0, vertices, quads of the whole mesh; or refusal 18, its value, 0 */
void parsniprow_end(const uint32_t *state, size_t state_len, uint32_t *answer, size_t answer_len);

/* Whether a list of quads is closed: each side is walked as often one way as the other, over all quads, and has two
   different ends. The mesh of a block is closed if all samples on the six faces of the box are metal, or all are
   hollow. The empty list is closed.
   ITS TIME GROWS WITH THE SQUARE OF THE LIST, unless a fault is found early: 10000 quads take some two seconds, 100000
   some minutes. For the list of a mesh ask parsniprow_closed_with.
     quads   4 vertex numbers a quad, any numbers; side s of a quad runs from its vertex s to the next, 3 back to 0
     answer  answer place, 4 items: 0, 1, 0, 0 if closed; 0, 0, quad, side of the first side at fault, by quad and then
             by side; or refusal 7, its value, 0, 0. A quad above 4294967295 is given as that */
void parsniprow_closed(const uint32_t *quads, size_t quads_len, uint32_t *answer, size_t answer_len);

/* The same question and the same answer, with lent memory to work in. Its time grows with the list, and with the number
   of sides that start at one vertex; in a mesh of parsniprow_mesh these are at most 12. A list in which a large part of
   the sides start at one vertex still takes the square of its length.
     quads   as of parsniprow_closed
     work    one item for each vertex number from 0 to the highest in the list, then one for each item of quads. For a
             mesh of parsniprow_mesh vertices + 4 * quads items are enough. More room is allowed. It need not be
             initialised
     answer  answer place, 4 items: as of parsniprow_closed; or refusal (7 or 15, tried in this order), its value, 0, 0
   At exit item v of work is the first side that starts at vertex v. The item of a side, behind those of the vertices,
   is the next side that starts where it does. Side s of quad q is 4 * q + s here, and quads_len stands where there is
   none. The buffer keeps its contents on refusal, and always behind these items. */
void parsniprow_closed_with(const uint32_t *quads, size_t quads_len, uint64_t *work, size_t work_len, uint32_t *answer,
                            size_t answer_len);

/* The pieces of a list of quads over n vertices. Two vertices belong to one piece if a chain of quads joins them. A
   vertex in no quad is a piece of its own. The number of a piece is its lowest vertex. The time grows with n and with
   the list, each at most times the base-two logarithm of n, and no memory is needed but the two buffers.
     n       the number of vertices
     quads   4 vertex numbers a quad, each below n
     piece   room for 1 item a vertex: the number of its piece
     size    room for 1 item a vertex: for the lowest vertex of a piece how many vertices the piece has, for any other
             vertex 0
     answer  answer place, 3 items: 0, pieces, links of the longest search; or refusal (7, 14 or 5, tried in this
             order), its value, 0
   What the third number of the answer counts: at first each vertex is a top. The first vertex of each quad is joined
   with the second, the third and the fourth, in the order of the list. Each join searches the tops of both vertices,
   link by link. If these are two tops, one is hung under the other by a new link: the top of the piece with fewer
   vertices, or where both have as many, the higher top. No link is shortened.
   The number is how many links the longest of these searches follows. It is 0 without quads, and at most the whole
   part of the base-two logarithm of n.
   The buffers keep their contents on refusal, and always behind the n items. */
void parsniprow_pieces(uint32_t n, const uint32_t *quads, size_t quads_len, uint32_t *piece, size_t piece_len,
                       uint32_t *size, size_t size_len, uint32_t *answer, size_t answer_len);

/* How many samples are at the detector's ceiling, and which is the first. It looks at the samples alone, so it also
   finds those that leave no mark. It refuses nothing.
     samples  any number of grey values, also none
     answer   answer place, 3 items: 0, how many samples are 65535, the lowest index of one; where there is none, that
              index is samples_len. A number above 4294967295 is given as that */
void parsniprow_ceilings(const uint16_t *samples, size_t samples_len, uint32_t *answer, size_t answer_len);

/* A mesh as a PLY file, for a viewer: binary, little-endian, format 1.0. The vertices are three doubles x, y, z in
   millimetres, the faces lists of four vertex numbers, in the order of the buffers. Its time grows with the mesh. The
   file has 170 bytes and the decimal digits of both counts, 24 bytes a vertex and 17 a quad. Ask with a file_len of 0
   first: the answer is then 15 with the bytes needed, if nothing else is wrong. A mesh of parsniprow_mesh needs at most
   2430842766; of longer lists reckon the bytes yourself.
     nx, ny, nz  axis lengths in samples, each 2 to 256, of the block that the mesh was made of
     words       2 items a vertex, as parsniprow_mesh writes them; the first is the number of its cube, and the second,
                 mask and mark, is not looked at and not in the file
     offsets     3 items a vertex, each from 0 to 1; minus zero passes
     quads       4 vertex numbers a quad; quads of no area are written as they are
     x, y, z     the spacing along each axis: millimetres from one sample to the next, above 0 and at most 1000
     file        room for the file, which stands at its front
     length      answer place, 1 item: how many bytes the file has, never cut; 0 on refusal
     answer      answer place, 3 items: 0, 0, 0; or refusal (1, 22, 23, 24, 7, 13, 14 or 15, tried in this order), its
                 value, 0
   The x of a vertex of the cube (i, j, k) is i plus its offset, then times the spacing, each rounded once, and so are y
   and z. Lend words and offsets with lengths of 2 * vertices and 3 * vertices exactly, and quads with 4 * quads.
   The file buffer keeps its contents on refusal, and always behind the file. */
void parsniprow_ply(uint32_t nx, uint32_t ny, uint32_t nz, const uint32_t *words, size_t words_len,
                    const double *offsets, size_t offsets_len, const uint32_t *quads, size_t quads_len, double x,
                    double y, double z, uint8_t *file, size_t file_len, uint64_t *length, size_t length_len,
                    uint32_t *answer, size_t answer_len);

/* Whether a mesh that was made elsewhere is the mesh of a block, by the same threshold and noise figure. It is if its
   vertices and those of parsniprow_mesh match one to one, each by its cube and its whole word; if its quads, with the
   vertices so renamed, are those of parsniprow_mesh, each once; and if each offset is from 0 to 1. Vertices and quads
   may stand in any order, and a quad may be begun at any of its four vertices, but not run the other way round. Where
   in its cube a vertex lies is not compared: any offsets from 0 to 1 will do. What parsniprow_mesh writes always
   passes, in any order. parsniprow_readings_mesh writes the same vertices and quads as parsniprow_mesh does for the grey
   values that the readings become, and so do the planes of a run, with the quads in another order.
     nx, ny, nz, samples, t, noise  as of parsniprow_counts
     words    2 items a vertex, as parsniprow_mesh writes them: the number of its cube, then its word, with mask and
              mark. Any numbers; a cube that is not in the block is a fault of the vertex and no refusal
     offsets  3 items a vertex, any doubles; minus zero passes
     quads    4 vertex numbers a quad, each below the number of vertices in words
     answer   answer place, 4 items: 0, 1, 0, 0 if it is the mesh of the block; 0, 0, 1 and the number of the first
              vertex at fault; else 0, 0, 2 and the number of the first quad at fault; else 0, 0, 3, 0 where some
              vertices or quads are missing; or refusal (1, 2, 3, 22, 7 or 14, tried in this order), its value, 0, 0.
              A quad number above 4294967295 is given as that
   A vertex is at fault if parsniprow_mesh has none with its cube and word, if an earlier one has the same cube and
   word, or if one of its offsets is not from 0 to 1, NaN among them. A quad is at fault if it is none of those of
   parsniprow_mesh, or an earlier one again, wherever that one is begun. So a quad that names a vertex twice or runs the
   other way round is at fault. The block and the mesh are only read, and no memory is lent to work in. A mesh in the
   order of parsniprow_mesh takes about the time of making it. In any other order the time also grows with vertices
   times cubes and with quads times vertices. For a scan it is still short; for noise alone of 256 samples an axis it is
   minutes. Lend words and offsets with lengths of 2 * vertices and 3 * vertices exactly, and quads with 4 * quads. */
void parsniprow_judge(uint32_t nx, uint32_t ny, uint32_t nz, const uint16_t *samples, size_t samples_len, uint16_t t,
                      uint32_t noise, const uint32_t *words, size_t words_len, const double *offsets,
                      size_t offsets_len, const uint32_t *quads, size_t quads_len, uint32_t *answer,
                      size_t answer_len);

#ifdef __cplusplus
}
#endif

#endif
