/* A yardstick for the elimination: FLINT's reduced row echelon form of a dense random matrix modulo 251.
 *
 *     gcc -O2 -o flint flint.c -lflint -lgmp
 *     flint COLUMNS ROWS SEED
 *
 * The numbers are those of crates/bench_reduce with the word `dense`: the state is replaced by 6364136223846793005 times itself
 * plus 1442695040888963407 modulo 2^64, and an entry is the state over 2^33, rounded down, modulo 251; row by row, and in a row by
 * ascending columns. Prints the rank, the nonzero cells of the reduced form, and the processor seconds of nmod_mat_rref alone.
 */
#include <flint/nmod_mat.h>
#include <inttypes.h>
#include <stdio.h>
#include <stdlib.h>
#include <time.h>

static uint64_t draw(uint64_t *state, uint64_t below)
{
    *state = *state * UINT64_C(6364136223846793005) + UINT64_C(1442695040888963407);
    return (*state >> 33) % below;
}

int main(int count, char **words)
{
    if (count != 4) {
        fprintf(stderr, "words: COLUMNS ROWS SEED\n");
        return 5;
    }
    slong columns = atol(words[1]), rows = atol(words[2]);
    uint64_t state = strtoull(words[3], NULL, 10);
    nmod_mat_t matrix;
    nmod_mat_init(matrix, rows, columns, 251);
    for (slong i = 0; i < rows; i++)
        for (slong j = 0; j < columns; j++)
            nmod_mat_entry(matrix, i, j) = draw(&state, 251);
    clock_t begun = clock();
    slong rank = nmod_mat_rref(matrix);
    double seconds = (double)(clock() - begun) / CLOCKS_PER_SEC;
    uint64_t cells = 0;
    for (slong i = 0; i < rank; i++)
        for (slong j = 0; j < columns; j++)
            cells += nmod_mat_entry(matrix, i, j) != 0;
    printf("pivots %" PRId64 ", cells %" PRIu64 ", seconds %.6f\n", (int64_t)rank, cells, seconds);
    nmod_mat_clear(matrix);
    return 0;
}
