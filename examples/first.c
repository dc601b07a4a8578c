/* A first caller of the library: a block of 3 by 3 by 3 samples whose middle alone is metal. It asks how many edges are
   crossed, reserves memory by that, makes the mesh and asks whether it is closed. README.md has the command that
   compiles it. */
#include <inttypes.h>
#include <parsniprow.h>
#include <stdio.h>
#include <stdlib.h>

/* Ends the program if the call was refused. */
static void check(const uint32_t *answer) {
    if (answer[0] != 0) {
        printf("refused: number %" PRIu32 ", value %" PRIu32 "\n", answer[0], answer[1]);
        exit(1);
    }
}

/* Memory for so many items. It is never null: a length may be 0, a pointer may not. */
static void *room(size_t items, size_t size) {
    void *memory = malloc(items * size + 1);
    if (memory == NULL) {
        puts("no memory");
        exit(1);
    }
    return memory;
}

int main(void) {
    uint16_t samples[27] = {0}, t = 100;
    uint32_t noise = 0, answer[4];
    samples[13] = 400; /* the sample (1, 1, 1): index 1 + 3 * (1 + 3 * 1) */

    parsniprow_crossed(3, 3, 3, samples, 27, t, answer, 4);
    check(answer);
    size_t edges = answer[1], most = 4 * edges / 3;
    uint32_t *words = room(2 * most, sizeof *words), *quads = room(4 * edges, sizeof *quads);
    double *offsets = room(3 * most, sizeof *offsets);

    parsniprow_mesh(3, 3, 3, samples, 27, t, noise, words, 2 * most, offsets, 3 * most, quads, 4 * edges, answer, 4);
    check(answer);
    size_t vertices = answer[1], made = answer[2];
    printf("%zu crossed edges, %zu vertices, %zu quads\n", edges, vertices, made);
    printf("vertex 0: cube %" PRIu32 ", at %g %g %g\n", words[0], offsets[0], offsets[1], offsets[2]);

    /* from here on the lengths are those of the mesh, and not those that were reserved */
    uint64_t *work = room(vertices + 4 * made, sizeof *work);
    parsniprow_closed_with(quads, 4 * made, work, vertices + 4 * made, answer, 4);
    check(answer);
    puts(answer[1] == 1 ? "closed" : "open");
    free(words);
    free(offsets);
    free(quads);
    free(work);
}
