/* The paper's questions answered a second time, in plain C, to compare the library with. Each function has the
   signature of the library's function of that name in include/parsniprow.h and can stand in for it.
   Assumes that no pointer is null and that every length counts items.

   An answer is three words, of the closed question and of a judged mesh four: number of refusal, value, 0 on refusal;
   otherwise 0 and what the function says below. Answer places are always written, as far as they reach, and what lies
   behind is kept. */
#ifndef PARSNIPROW_PLAIN_H
#define PARSNIPROW_PLAIN_H

#include <stddef.h>
#include <stdint.h>

/* The edge question, lower value p and upper value q. Answer: 0, crossings (0 or 1), 0. Refusal 3.
   The fraction is plus zero where there is no crossing, on refusal too. */
void plain_edge(uint16_t p, uint16_t q, uint16_t t, double *fraction, size_t fraction_len, uint32_t *answer,
                size_t answer_len);

/* The cube question over corners 0 to 7 with a noise figure. Answer: 0, loops, 0. Refusal 3.
   Four words and four offsets of three coordinates; those that no loop uses hold zero, on refusal too. A word is the
   mask of a loop, and 4096 more where a corner is at the ceiling. */
void plain_cube(uint16_t c0, uint16_t c1, uint16_t c2, uint16_t c3, uint16_t c4, uint16_t c5, uint16_t c6, uint16_t c7,
                uint16_t t, uint32_t noise, uint32_t *words, size_t words_len, double *offsets, size_t offsets_len,
                uint32_t *answer, size_t answer_len);

/* The same by the old rule, which has no noise figure: metal is joined across a doubtful face if its product is at
   least that of the hollow. The rule stands by itself in plain.c. */
void plain_old_cube(const uint16_t corner[8], uint16_t t, uint32_t words[4], double offsets[12], uint32_t answer[3]);

/* The words of a cube in which metal is joined across the doubtful faces of this set and across no other. Bit f is that
   of face f, in the order of plain_face, and a face that is not doubtful may have either. Assumes a threshold from 1 to
   65534. */
void plain_set_cube(const uint16_t corner[8], uint16_t t, unsigned set, uint32_t words[4]);

/* The crossed edges of a block, each counted once, on the faces of the box too. Answer: 0, crossed edges, 0. Refusals
   1, 2, 3. */
void plain_crossed(uint32_t nx, uint32_t ny, uint32_t nz, const uint16_t *samples, size_t samples_len, uint16_t t,
                   uint32_t *answer, size_t answer_len);

/* The counts of a mesh. Answer: 0, vertices, quads. Refusals 1, 2, 3. */
void plain_counts(uint32_t nx, uint32_t ny, uint32_t nz, const uint16_t *samples, size_t samples_len, uint16_t t,
                  uint32_t noise, uint32_t *answer, size_t answer_len);

/* The counts of a mesh by each of up to 16 thresholds, with one noise figure for all. Three words a threshold, as
   plain_counts answers it alone: 0, vertices, quads; or 3, the threshold, 0. Answer: 0, 0, 0. Refusals of the whole
   call 16, 15, 1, 2, tried in this order. The answers are kept on refusal, and always behind three words a
   threshold. */
void plain_thresholds(uint32_t nx, uint32_t ny, uint32_t nz, const uint16_t *samples, size_t samples_len,
                      const uint16_t *thresholds, size_t thresholds_len, uint32_t noise, uint32_t *answers,
                      size_t answers_len, uint32_t *answer, size_t answer_len);

/* The mesh into lent buffers, its words as of the cube question. Answer: 0, vertices, quads. Refusals 1, 2, 3, 5, 6. */
void plain_mesh(uint32_t nx, uint32_t ny, uint32_t nz, const uint16_t *samples, size_t samples_len, uint16_t t,
                uint32_t noise, uint32_t *words, size_t words_len, double *offsets, size_t offsets_len, uint32_t *quads,
                size_t quads_len, uint32_t *answer, size_t answer_len);

/* The mesh of a good block by the old rule, as of the cube question. Answer: 0, vertices, quads. Refusals 5, 6. */
void plain_old_mesh(const uint32_t length[3], const uint16_t *samples, uint16_t t, uint32_t *words, size_t words_len,
                    double *offsets, size_t offsets_len, uint32_t *quads, size_t quads_len, uint32_t answer[3]);

/* What a reading of the second bench is. Answer: 0, grey value, which is 65535 at the ceiling, 0. Refusals 19, 20, 21,
   each with the value 0. */
void plain_reading(float x, uint32_t *answer, size_t answer_len);

/* The counts of the mesh of the block that the readings become. Answer: 0, vertices, quads. Refusals 1, 2, 3, then that
   of the lowest reading at fault, 19, 20 or 21. */
void plain_readings_counts(uint32_t nx, uint32_t ny, uint32_t nz, const float *readings, size_t readings_len,
                           uint16_t t, uint32_t noise, uint32_t *answer, size_t answer_len);

/* The mesh of that block into lent buffers, as plain_mesh writes it. Answer: 0, vertices, quads. Refusals as of
   plain_readings_counts, then 5, 6. */
void plain_readings_mesh(uint32_t nx, uint32_t ny, uint32_t nz, const float *readings, size_t readings_len, uint16_t t,
                         uint32_t noise, uint32_t *words, size_t words_len, double *offsets, size_t offsets_len,
                         uint32_t *quads, size_t quads_len, uint32_t *answer, size_t answer_len);

/* The mesh plane by plane. A state has eight words: nx, ny, nz, t, noise, vertices so far, quads so far, planes taken;
   what is missing is read as 0, and t modulo 65536. What stands in work is another matter than what the library puts
   there. The start writes the state with no plane taken. Answer: 0, 0, 0. Refusals 1, 3, 15. */
void plain_start(uint32_t nx, uint32_t ny, uint32_t nz, uint16_t t, uint32_t noise, uint32_t *work, size_t work_len,
                 uint32_t *state, size_t state_len, uint32_t *answer, size_t answer_len);

/* The next plane: the vertices of the layer that it finishes, from the front of the buffers, and the quads of the edges
   along x and y on the layer's lower plane and along z within it. Answer: 0, vertices, quads of this call. Refusals 1,
   3, 17, 2, 15, 5, 6, tried in this order; then state, work and buffers are kept. */
void plain_plane(uint32_t *state, size_t state_len, const uint16_t *plane, size_t plane_len, uint32_t *work,
                 size_t work_len, uint32_t *words, size_t words_len, double *offsets, size_t offsets_len,
                 uint32_t *quads, size_t quads_len, uint32_t *answer, size_t answer_len);

/* Both totals of a run. Answer: 0, vertices, quads. Refusal 18. */
void plain_end(const uint32_t *state, size_t state_len, uint32_t *answer, size_t answer_len);

/* The mesh of a whole block, as plain_mesh writes it, cut into what the nz calls of a run write. Call k writes so many
   vertices and quads as stand at k afterwards. The vertices come as they stand in the mesh. The quads are put in the
   order in which they come: a quad belongs to the call that finishes the layer of its third vertex, and the quads of
   one call stay in the order of the mesh, which is by axis and then by lower sample. */
void plain_cut(uint32_t nx, uint32_t ny, uint32_t nz, const uint32_t *words, uint32_t vertex_count,
               const uint32_t *quads, uint32_t quad_count, uint32_t *vertices_of, uint32_t *quads_of,
               uint32_t *in_order);

/* The closed question: a side is in order if it has two different ends and, over all quads, as many sides run one way
   between them as the other. Answer: 0, 1, 0, 0 where the list is closed; 0, 0, quad, side of the first side at fault;
   or refusal 7, its value, 0, 0. */
void plain_closed(const uint32_t *quads, size_t quads_len, uint32_t *answer, size_t answer_len);

/* The same with work: for each number from 0 to the highest in the list the first side that starts at this vertex, then
   for each side the next one that starts where it does; side s of quad q is 4 * q + s, and quads_len stands where there
   is none. Answer as of plain_closed, with refusals 7, 15. The work is kept on refusal, and behind these items always. */
void plain_closed_with(const uint32_t *quads, size_t quads_len, uint64_t *work, size_t work_len, uint32_t *answer,
                       size_t answer_len);

/* The pieces of a list over n vertices: two vertices belong together if a chain of quads joins them, and the number of
   a piece is its lowest vertex. Each vertex gets the number of its piece, the lowest vertex of a piece also how many
   vertices the piece has, and any other 0. Answer: 0, pieces, links of the longest search. Refusals 7, 14, 5, tried in
   this order. Both buffers are kept on refusal, and behind n items always. */
void plain_pieces(uint32_t n, const uint32_t *quads, size_t quads_len, uint32_t *piece, size_t piece_len,
                  uint32_t *size, size_t size_len, uint32_t *answer, size_t answer_len);

/* The samples at the ceiling. Answer: 0, how many there are, the lowest index of one or, where there is none,
   samples_len; a number above 4294967295 is given as that. No refusal. */
void plain_ceilings(const uint16_t *samples, size_t samples_len, uint32_t *answer, size_t answer_len);

/* The mesh as a PLY file, each coordinate in millimetres. Answer: 0, 0, 0. Refusals 1, 22, 23, 24, 7, 13, 14, 15, tried
   in this order. The length is 0 on refusal, and the file's room is then kept; behind the file it is kept always. */
void plain_ply(uint32_t nx, uint32_t ny, uint32_t nz, const uint32_t *words, size_t words_len, const double *offsets,
               size_t offsets_len, const uint32_t *quads, size_t quads_len, double x, double y, double z, uint8_t *file,
               size_t file_len, uint64_t *length, size_t length_len, uint32_t *answer, size_t answer_len);

/* Whether a foreign mesh is that of a block. Answer: 0, 1, 0, 0 where it is; 0, 0, 1, vertex of the first vertex at
   fault; else 0, 0, 2, quad of the first quad at fault; else 0, 0, 3, 0 where some of our vertices or quads are
   missing; or refusal, its value, 0, 0. A vertex is at fault if no vertex of ours has its cube and word, an earlier one
   has both or one of its offsets is not from 0 to 1; a quad, if it is none of ours, wherever it is begun, or an earlier
   one again. Refusals 1, 2, 3, 22, 7, 14, tried in this order. */
void plain_judge(uint32_t nx, uint32_t ny, uint32_t nz, const uint16_t *samples, size_t samples_len, uint16_t t,
                 uint32_t noise, const uint32_t *words, size_t words_len, const double *offsets, size_t offsets_len,
                 const uint32_t *quads, size_t quads_len, uint32_t *answer, size_t answer_len);

/* The edges of a face as a mask, worked out from the corners. Faces x=0, x=1, y=0, y=1, z=0, z=1 are 0 to 5. */
uint32_t plain_face(unsigned face);

#endif
