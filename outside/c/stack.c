/* Measures how much stack each call takes, on a problem of 1,024 nodes, and fails where one takes more
   than the header says. Each call runs on a thread whose stack was filled with a mark beforehand.

       cc -pthread -o stack outside/c/stack.c crates/walumpeh/out/libwalumpeh.a */
#include "walumpeh.h"
#include <pthread.h>
#include <stdio.h>
#include <stdlib.h>
#include <string.h>

enum { NODES = 1024, ROOTS = 256, LENGTH = 9 + 24 * NODES + 2 * ROOTS, WORDS = 100000 };
enum { ROOM = 1 << 20, MARK = 0xa5 };

static uint8_t problem[LENGTH] = {'T', 'B', 'V', 1, 0, NODES & 255, NODES >> 8, ROOTS & 255, ROOTS >> 8};
enum { STARTS = 3 };
static uint64_t values[NODES], tape[WORDS], out[WAL_RUN_OUT];
static uint64_t places[STARTS * NODES], lengths[STARTS] = {30000, 30000, 40000}, answers[STARTS * WAL_ANSWER];
static uint16_t budgets[STARTS] = {300, 0, 300};
static uint64_t kept[WAL_MOST_KEPT * NODES];
static const uint16_t named[] = {1, 0};
static uint64_t spot[12] = {64, 64, 0, 0, 0, 0, ~0ull, ~0ull, 0, 3, 5, 0};
static uint64_t narrow[12] = {16, 16, 0, 0, 0, 0, 65535, 65535, 0, 3, 5, 0};

static void put(int id, uint8_t kind, uint8_t width, int a, int b) {
    uint8_t *node = problem + 9 + 24 * id;
    node[0] = kind;
    node[1] = width;
    node[2] = a & 255, node[3] = a >> 8;
    node[4] = b & 255, node[5] = b >> 8;
    if (kind == WAL_VARIABLE) memset(node + 16, 255, 8);
}

/* x, then one operator after another over the last two nodes; then a comparison for each root. */
static void fill(void) {
    static const uint8_t kinds[] = {WAL_ADD, WAL_MUL, WAL_SHL, WAL_LSHR, WAL_XOR, WAL_AND, WAL_ASHR};
    put(0, WAL_VARIABLE, 64, 0, 0);
    put(1, WAL_VARIABLE, 64, 0, 0);
    for (int id = 2; id < NODES - ROOTS; id++) put(id, kinds[id % 7], 64, id - 1, id - 2);
    for (int root = 0; root < ROOTS; root++) {
        int id = NODES - ROOTS + root;
        put(id, root % 2 ? WAL_EQ : WAL_BELOW, 1, id - ROOTS, id - ROOTS - 1);
        problem[LENGTH - 2 * ROOTS + 2 * root] = id & 255;
        problem[LENGTH - 2 * ROOTS + 2 * root + 1] = id >> 8;
    }
    for (int word = 0; word < WORDS; word++) tape[word] = 0x9e3779b97f4a7c15 * (uint64_t)word;
}

/* A problem of variables alone, with a name and an entry for each: the most that wal_model keeps. */
static uint8_t variables[9 + 24 * NODES] = {'T', 'B', 'V', 1, 0, NODES & 255, NODES >> 8};
static char names[8 * NODES], text[64 * NODES];
static size_t names_len, text_len;

static void fill_model(void) {
    text[text_len++] = '(';
    for (int id = 0; id < NODES; id++) {
        variables[9 + 24 * id + 1] = 64;
        memset(variables + 9 + 24 * id + 16, 255, 8);
        names_len += (size_t)sprintf(names + names_len, "n%d\n", id);
        text_len += (size_t)sprintf(text + text_len, "(define-fun n%d () (_ BitVec 64) (_ bv%d 64))", id, id);
    }
    text[text_len++] = ')';
}

/* A text of as many nodes and roots, with a name and a sort of its own for each: the most that wal_btor2 has to look up. */
static char btor2_text[128 * NODES];
static uint8_t converted[WAL_PROBLEM_MOST];
static size_t btor2_len;

static void fill_btor2(void) {
    int id = 0, inputs = NODES - ROOTS;
    for (int node = 0; node < inputs; node++) {
        id += 3;
        btor2_len += (size_t)sprintf(btor2_text + btor2_len, "%d sort bitvec 1\n%d input %d i%d\n%d uext %d %d 0\n", id, id + 1, id,
                                     node, id + 2, id, id + 1);
    }
    for (int root = 0; root < ROOTS; root++)
        btor2_len += (size_t)sprintf(btor2_text + btor2_len, "%d constraint -%d\n", id + 3 + root, 5 + 3 * root);
}

static void *nothing(void *none) { return none; }
static void *check(void *none) {
    if (wal_check(problem, LENGTH) != WAL_ACCEPTED) abort();
    return none;
}
static void *run(void *none) {
    if (wal_run(problem, LENGTH, values, NODES, tape, WORDS, 1000, out, WAL_RUN_OUT) != WAL_ACCEPTED) abort();
    return none;
}
static void *batch(void *none) {
    if (wal_batch(problem, LENGTH, STARTS, places, STARTS * NODES, tape, WORDS, lengths, STARTS, budgets, STARTS, answers,
                  STARTS * WAL_ANSWER) != WAL_ACCEPTED)
        abort();
    return none;
}
static void *gather(void *none) {
    if (wal_gather(problem, LENGTH, STARTS, places, STARTS * NODES, tape, WORDS, lengths, STARTS, budgets, STARTS, named, 2,
                   kept, WAL_MOST_KEPT * NODES, answers, STARTS * WAL_ANSWER, out, WAL_GATHER_OUT) != WAL_ACCEPTED)
        abort();
    return none;
}
static void *need(void *none) {
    if (wal_need(problem, LENGTH, 1000, out, WAL_NEED_OUT) != WAL_ACCEPTED) abort();
    return none;
}
static void *model(void *none) {
    if (wal_model(variables, sizeof variables, (uint8_t *)names, names_len, (uint8_t *)text, text_len, out, WAL_MODEL_OUT) !=
            WAL_ACCEPTED ||
        out[WAL_MODEL_YES] != 1)
        abort();
    return none;
}
static uint8_t mended[LENGTH];
static uint16_t map[NODES];
static void *mend(void *none) {
    if (wal_mend(problem, LENGTH, mended, LENGTH, map, NODES) != WAL_ACCEPTED || memcmp(problem, mended, LENGTH)) abort();
    return none;
}
static void *btor2(void *none) {
    if (wal_btor2((uint8_t *)btor2_text, btor2_len, converted, sizeof converted, out, WAL_BTOR2_OUT) != WAL_ACCEPTED ||
        out[WAL_BTOR2_BYTES] != WAL_PROBLEM_MOST)
        abort();
    return none;
}
/* The kinds with two operands of one width, and the node's width over operands of 64 bits; of 16 for udiv. */
static const struct {
    uint8_t kind, width;
} pairs[] = {{WAL_AND, 64},  {WAL_XOR, 64}, {WAL_ADD, 64},  {WAL_MUL, 64},         {WAL_SHL, 64},
             {WAL_LSHR, 64}, {WAL_EQ, 1},   {WAL_BELOW, 1}, {WAL_SIGNED_BELOW, 1}, {WAL_ASHR, 64},
             {WAL_UDIV, 16}};
enum { PAIRS = sizeof pairs / sizeof *pairs };
static const uint64_t *spot_of(int at) { return pairs[at].kind == WAL_UDIV ? narrow : spot; }

static void *picks(void *none) {
    for (int at = 0; at < PAIRS; at++)
        for (uint32_t position = 0; position < 2; position++)
            for (uint8_t which = 0; which < 2; which++)
                if (wal_pick(pairs[at].kind, pairs[at].width, 0, spot_of(at), 12, position, 1, 9, which, out, 1) > 1)
                    abort();
    return none;
}
static void *essential(void *none) {
    for (int at = 0; at < PAIRS; at++)
        if (wal_essential(pairs[at].kind, pairs[at].width, 0, spot_of(at), 12, 0, 1) > 1) abort();
    return none;
}

/* How many bytes of its stack a thread writes to. */
static size_t used(void *(*call)(void *)) {
    unsigned char *stack = aligned_alloc(4096, ROOM);
    pthread_attr_t attributes;
    pthread_t thread;
    memset(stack, MARK, ROOM);
    if (pthread_attr_init(&attributes) || pthread_attr_setstack(&attributes, stack, ROOM) ||
        pthread_create(&thread, &attributes, call, NULL) || pthread_join(thread, NULL))
        abort();
    size_t free_bytes = 0;
    while (stack[free_bytes] == MARK) free_bytes++;
    free(stack);
    return ROOM - free_bytes;
}

int main(void) {
    static const struct {
        const char *name;
        void *(*call)(void *);
        size_t most;
    } calls[] = {{"wal_check", check, WAL_STACK},
                 {"wal_run", run, WAL_STACK},
                 {"wal_batch", batch, WAL_STACK},
                 {"wal_gather", gather, WAL_STACK},
                 {"wal_need", need, WAL_STACK},
                 {"wal_model", model, WAL_MODEL_STACK},
                 {"wal_mend", mend, WAL_MEND_STACK},
                 {"wal_btor2", btor2, WAL_BTOR2_STACK},
                 {"wal_pick", picks, WAL_STACK},
                 {"wal_essential", essential, WAL_STACK}};
    int status = 0;
    fill();
    fill_model();
    fill_btor2();
    size_t before = used(nothing);
    for (size_t at = 0; at < sizeof calls / sizeof *calls; at++) {
        size_t taken = used(calls[at].call);
        taken = taken > before ? taken - before : 0;
        printf("%s: %zu bytes of stack\n", calls[at].name, taken);
        if (taken > calls[at].most) {
            printf("more than the header's %zu\n", calls[at].most);
            status = 1;
        }
    }
    return status;
}
