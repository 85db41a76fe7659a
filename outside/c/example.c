/* Solves the worked example, x * 6 = 2 on 4 bits, and prints what tvrun prints for it. From the
   repository's top, after `rt lib` in crates/walumpeh:

       cc -o example outside/c/example.c crates/walumpeh/out/libwalumpeh.a */
#include "walumpeh.h"
#include <inttypes.h>
#include <stdio.h>

enum { NODES = 5, ROOTS = 1, LENGTH = 9 + 24 * NODES + 2 * ROOTS };

static uint8_t problem[LENGTH] = {'T', 'B', 'V', 1, 0, NODES, 0, ROOTS, 0};

/* Node id at its place: kind, width, operands a and b, and one value for lo, another for hi. */
static void put(int id, uint8_t kind, uint8_t width, uint8_t a, uint8_t b, uint8_t lo, uint8_t hi) {
    uint8_t *node = problem + 9 + 24 * id;
    node[0] = kind;
    node[1] = width;
    node[2] = a;
    node[4] = b;
    node[8] = lo;
    node[16] = hi;
}

int main(void) {
    put(0, WAL_VARIABLE, 4, 0, 0, 0, 15); /* x, all free */
    put(1, WAL_CONSTANT, 4, 0, 0, 6, 6);
    put(2, WAL_MUL, 4, 0, 1, 0, 0); /* x * 6 */
    put(3, WAL_CONSTANT, 4, 0, 0, 2, 2);
    put(4, WAL_EQ, 1, 2, 3, 0, 0); /* x * 6 = 2 */
    problem[LENGTH - 2] = 4;       /* the root */

    static const char *names[] = {"model", "spent", "ended", "closed"};
    uint64_t values[NODES] = {0}, tape[] = {0, 0, 9, 0, 4}, out[WAL_RUN_OUT];
    uint64_t refusal = wal_run(problem, LENGTH, values, NODES, tape, 5, 1, out, WAL_RUN_OUT);
    if (refusal != WAL_ACCEPTED) {
        printf("refused %u at %" PRIu64 "\n", wal_number(refusal), wal_place(refusal));
        return 1;
    }
    printf("verdict %s moves %" PRIu64 " steps %" PRIu64 " words %" PRIu64 "\n", names[out[WAL_OUT_VERDICT]],
           out[WAL_OUT_MOVES], out[WAL_OUT_STEPS], out[WAL_OUT_WORDS]);
    printf("0 %" PRIu64 "\n", values[0]);
    return 0;
}
