/* Small lists of quads with their pieces. The paper's rule was followed by hand; where there are links, how they come
   about stands beside the list. "3 under 2" says that 3 is hung under 2.
   Assumes nothing. */
#include "hand_lists.h"

const struct hand_list hand_lists[HAND_LISTS] = {
    /* ---- without a link that is followed ---- */
    {"no vertex and no quad: 0 pieces", 0, 0, {0}, 0, 0, {0, 0, 0}, {0}, {0}},
    {"five vertices without a quad: 5 pieces", 5, 0, {0}, 5, 5, {0, 5, 0}, {0, 1, 2, 3, 4}, {1, 1, 1, 1, 1}},
    {"one vertex four times: 1 piece", 1, 4, {0, 0, 0, 0}, 1, 1, {0, 1, 0}, {0}, {1}},
    /* 1, 2 and 3 come under 0 one after the other. Each search is for 0, which is the top all the time, or for a vertex
       that is not joined yet. So no link is followed, and the longest search is 0. */
    {"quad 0,1,2,3: longest 0", 4, 4, {0, 1, 2, 3}, 4, 4, {0, 1, 0}, {0, 0, 0, 0}, {4, 0, 0, 0}},
    {"the fourth vertex alone is another", 3, 4, {0, 0, 0, 2}, 3, 3, {0, 2, 0}, {0, 1, 0}, {2, 1, 0}},

    /* ---- with such links ---- */
    /* 1 under 0; then 1 is searched for twice more, with one link */
    {"quad 1,0,0,0: longest 1", 2, 4, {1, 0, 0, 0}, 2, 2, {0, 1, 1}, {0, 0}, {2, 0}},
    /* the same, where the second of the two searches follows the link */
    {"quad 0,1,1,1: longest 1", 2, 4, {0, 1, 1, 1}, 2, 2, {0, 1, 1}, {0, 0}, {2, 0}},
    /* the same, where only the fourth vertex is searched for with a link */
    {"quad 0,1,2,1: longest 1", 3, 4, {0, 1, 2, 1}, 3, 3, {0, 1, 1}, {0, 0, 0}, {3, 0, 0}},
    /* 3 under 2, then 1 and 0 under 2, which has more vertices: the top is not the lowest vertex. 3 is searched for
       twice with one link. */
    {"quad 3,2,1,0: longest 1", 4, 4, {3, 2, 1, 0}, 4, 4, {0, 1, 1}, {0, 0, 0, 0}, {4, 0, 0, 0}},
    /* 2 under 1, 0 under 1, and then 0 is searched for with one link */
    {"quad 1,2,0,0: longest 1", 3, 4, {1, 2, 0, 0}, 3, 3, {0, 1, 1}, {0, 0, 0}, {3, 0, 0}},
    /* 5 under 3, and 4 under 1 */
    {"two pairs and two vertices alone: 4 pieces",
     6,
     8,
     {5, 3, 5, 3, 4, 1, 1, 4},
     6,
     6,
     {0, 4, 1},
     {0, 1, 2, 3, 1, 3},
     {1, 2, 1, 2, 0, 0}},
    /* 3 under 2, 1 under 0, 2 under 0: 3 is two links from 0, and is searched for once more after that */
    {"two pairs, then both: longest 2",
     4,
     12,
     {3, 2, 2, 2, 1, 0, 0, 0, 3, 1, 1, 1},
     4,
     4,
     {0, 1, 2},
     {0, 0, 0, 0},
     {4, 0, 0, 0}},
    /* as before, but the last quad begins at 1: 3 is again searched for with two links, as the second of each join */
    {"the same, begun at the other pair: longest 2",
     4,
     12,
     {3, 2, 2, 2, 1, 0, 0, 0, 1, 3, 3, 3},
     4,
     4,
     {0, 1, 2},
     {0, 0, 0, 0},
     {4, 0, 0, 0}},
    /* 3 under 2, 2 under 0 and so on, but 3 is searched for only while it is one link from its top; the last join is of
       0 and 1, which have one link at most */
    {"two links that no search follows: longest 1",
     4,
     12,
     {3, 2, 2, 2, 1, 0, 0, 0, 0, 2, 1, 1},
     4,
     4,
     {0, 1, 1},
     {0, 0, 0, 0},
     {4, 0, 0, 0}},
    /* 1 and 2 under 0, 4 under 3, 3 under 0, since {3, 4} has fewer: 4 is two links from 0, and is searched for after
       that */
    {"three vertices and two: longest 2",
     5,
     12,
     {0, 1, 2, 0, 3, 4, 3, 3, 3, 0, 4, 0},
     5,
     5,
     {0, 1, 2},
     {0, 0, 0, 0, 0},
     {5, 0, 0, 0, 0}},
    /* 1 under 0; 3 and 4 under 2; 0 under 2, since {0, 1} has fewer: 1 is two links from 2, and is searched for after
       that. The piece has the number of its lowest vertex, 0. */
    {"two vertices and three: longest 2",
     5,
     12,
     {0, 1, 0, 0, 2, 3, 4, 2, 0, 2, 1, 2},
     5,
     5,
     {0, 1, 2},
     {0, 0, 0, 0, 0},
     {5, 0, 0, 0, 0}},
    /* four pairs, two fours, then all eight: 7 under 6 under 4 under 0, and 7 is searched for at last */
    {"eight vertices by halves: longest 3",
     8,
     28,
     {0, 1, 0, 1, 2, 3, 2, 3, 4, 5, 4, 5, 6, 7, 6, 7, 0, 2, 0, 2, 4, 6, 4, 6, 0, 4, 7, 7},
     8,
     8,
     {0, 1, 3},
     {0, 0, 0, 0, 0, 0, 0, 0},
     {8, 0, 0, 0, 0, 0, 0, 0}},

    /* ---- refused ---- */
    {"pieces of length 3: 7, value 3, first of all", 2, 3, {5, 5, 5}, 0, 0, {7, 3, 0}, {0}, {0}},
    {"length 5: 7, value 1", 4, 5, {0, 1, 2, 3, 0}, 4, 4, {7, 1, 0}, {0}, {0}},
    {"number 4 of 4 in quad 1: 14, value 1", 4, 8, {0, 1, 2, 3, 0, 1, 2, 4}, 4, 4, {14, 1, 0}, {0}, {0}},
    {"in quads 1 and 2: 14, value 1", 2, 12, {0, 1, 0, 1, 0, 2, 0, 0, 3, 0, 0, 0}, 2, 2, {14, 1, 0}, {0}, {0}},
    {"a quad and no vertex: 14, value 0", 0, 4, {0, 0, 0, 0}, 0, 0, {14, 0, 0}, {0}, {0}},
    {"number and room: 14 before 5", 2, 4, {0, 1, 2, 0}, 0, 0, {14, 0, 0}, {0}, {0}},
    {"the highest number of all: 14, value 0", UINT32_MAX, 4, {0, 0, 0, UINT32_MAX}, 8, 8, {14, 0, 0}, {0}, {0}},
    {"as many vertices as can be: 5", UINT32_MAX, 4, {0, 0, 0, UINT32_MAX - 1}, 8, 8, {5, UINT32_MAX, 0}, {0}, {0}},
    {"room for 3 piece numbers: 5, value 4", 4, 4, {0, 1, 2, 3}, 3, 4, {5, 4, 0}, {0}, {0}},
    {"room for 3 sizes: 5, value 4", 4, 4, {0, 1, 2, 3}, 4, 3, {5, 4, 0}, {0}, {0}},
    {"room for nothing: 5, value 5", 5, 0, {0}, 0, 0, {5, 5, 0}, {0}, {0}},
};
