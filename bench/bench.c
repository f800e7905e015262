// The library, the Rust peer and the C peer on the same inputs, in one process.
//   bench time PASSES ROUNDS [depths]   first the agreement; then a line `time NAME` for each row and, with `depths`, `depth ENGINE DEPTH` for each depth: the
//                                       nanoseconds of library, Rust and C, the best of the rounds and then their median
//   bench count                         a line `count NAME MAKER TIMES` for each row and implementation, whose instructions were counted for TIMES, then for twice as many
#define _POSIX_C_SOURCE 200809L
#include "peer.h"

#include <stdio.h>
#include <stdlib.h>
#include <string.h>
#include <time.h>
#include <valgrind/callgrind.h>

enum { WORDS = 16384, SIGNERS = 8, TARGETS = 40, COMMON = 24, STEPS = 3 * DEPTH_MOST + 1 };
enum { CALL, RETURN, ENABLE, DISABLE, REVERT, CHECK };
enum { MAKERS = 3, SHAPES = 4, ROUNDS_MOST = 4096 };

struct maker {
    const char *name;
    run_fn *run[3];
    operate_fn *operate[2];
    move_fn *move[4];
    ask_fn *ask;
    write_fn *write;
    judge_fn *judge;
};

#define MAKER(shown, p)                                                                                                   \
    {                                                                                                                     \
        shown, { p##_walk_run, p##_record_run, p##_passed_run }, { p##_walk_operate, p##_record_operate },                \
            { p##_passed_call, p##_passed_enable, p##_passed_disable, p##_passed_revert }, p##_passed_check,              \
            p##_derivation_write, p##_derivation_check                                                                    \
    }

static const struct maker makers[MAKERS] = { MAKER("library", galmuvesh), MAKER("rust", rust), MAKER("c", c) };

static const char *const engines[] = { "walk", "record", "passed" };
static const char *const moves[] = { "call", "enable", "disable", "revert" };
static const char *const shapes[SHAPES] = { "mixed", "deep", "shallow", "calls" };

// All that is lent begins at a cache line, and each state of a table does too.
#define LENT static _Alignas(64)
LENT uint64_t policy[POLICY];
LENT uint8_t traces[SHAPES][2 * WORDS], answers[WORDS];
LENT uint64_t walks[DEPTH_MOST + 1][WALK + 2], records[DEPTH_MOST + 1][RECORD], passeds[DEPTH_MOST + 1][PASSED + 4];
LENT uint8_t derivations[DEPTH_MOST + 1][STEPS + 2], steps[STEPS];

static uint64_t seed = 0x9e3779b97f4a7c15;

// xorshift64: the same numbers on every machine.
static uint64_t below(uint64_t n)
{
    seed ^= seed << 13;
    seed ^= seed >> 7;
    seed ^= seed << 17;
    return (seed >> 20) % n;
}

static uint16_t word(unsigned operation, unsigned signer, unsigned target) { return (uint16_t)(operation << 13 | signer << 8 | target << 2); }

// Every signer is permitted the first 24 of the 40 targets, and each of the others with an even chance.
static void make_policy(void)
{
    policy[1] = SIGNERS;
    policy[2] = TARGETS;
    for (int s = 0; s < SIGNERS; s++)
        policy[3 + s] = (((uint64_t)1 << COMMON) - 1) | below((uint64_t)1 << (TARGETS - COMMON)) << COMMON;
}

// A trace in the making, with the depth that its words lead to.
struct pen { uint8_t *at, *end; unsigned depth; };

static void put(struct pen *pen, uint16_t w)
{
    if (pen->at == pen->end)
        return;
    *pen->at++ = (uint8_t)(w >> 8);
    *pen->at++ = (uint8_t)w;
    pen->depth += (w >> 13 == CALL) - (w >> 13 == RETURN);
}

static void put_call(struct pen *pen) { put(pen, word(CALL, (unsigned)below(SIGNERS), 0)); }
static void put_marked(struct pen *pen, unsigned operation) { put(pen, word(operation, 0, (unsigned)below(TARGETS))); }

// A call or a return, the depth staying between two bounds.
static void put_move(struct pen *pen, unsigned least, unsigned most)
{
    if (pen->depth <= least || (pen->depth < most && below(2)))
        put_call(pen);
    else
        put(pen, word(RETURN, 0, 0));
}

// Of ten words four move, one each enables, disables and reverts, three check.
static void make_mixed(struct pen *pen)
{
    while (pen->at < pen->end) {
        uint64_t choice = below(10);
        if (choice < 4)
            put_move(pen, 1, DEPTH_MOST);
        else
            put_marked(pen, choice < 7 ? ENABLE + (unsigned)choice - 4 : CHECK);
    }
}

// The bottom frame enables what all signers are permitted, and every check of it walks 40 frames.
static void make_deep(struct pen *pen)
{
    put_call(pen);
    for (unsigned t = 0; t < COMMON; t++)
        put(pen, word(ENABLE, 0, t));
    while (pen->depth < 40)
        put_call(pen);
    while (pen->at < pen->end)
        put(pen, word(CHECK, 0, (unsigned)below(COMMON)));
}

// Two to six frames; nine words of ten are checks.
static void make_shallow(struct pen *pen)
{
    while (pen->depth < 2)
        put_call(pen);
    while (pen->at < pen->end) {
        uint64_t choice = below(40);
        if (choice < 2)
            put_move(pen, 2, 6);
        else
            put_marked(pen, choice < 4 ? ENABLE + (unsigned)choice - 2 : CHECK);
    }
}

static void make_calls(struct pen *pen)
{
    while (pen->at < pen->end)
        put_move(pen, 1, DEPTH_MOST);
}

static void must(int holds, const char *what)
{
    if (holds)
        return;
    fprintf(stderr, "bench: %s\n", what);
    exit(1);
}

// States of each depth, all by the library: the bottom frame has enabled what all signers are permitted.
static void make_states(void)
{
    uint8_t answer;
    for (unsigned d = 1; d <= DEPTH_MOST; d++) {
        unsigned signer = (unsigned)below(SIGNERS);
        memcpy(walks[d], walks[d - 1], sizeof walks[d]);
        memcpy(records[d], records[d - 1], sizeof records[d]);
        memcpy(passeds[d], passeds[d - 1], sizeof passeds[d]);
        must(!galmuvesh_walk_operate(policy, walks[d], word(CALL, signer, 0), &answer), "a call by the walk was refused");
        must(!galmuvesh_record_operate(policy, records[d], word(CALL, signer, 0), &answer), "a call by the record was refused");
        must(!galmuvesh_passed_call(policy, passeds[d], (uint8_t)signer), "a call by the passed state was refused");
        for (unsigned t = 0; d == 1 && t < COMMON; t++) {
            must(!galmuvesh_walk_operate(policy, walks[d], word(ENABLE, 0, t), &answer), "an enable by the walk was refused");
            must(!galmuvesh_record_operate(policy, records[d], word(ENABLE, 0, t), &answer), "an enable by the record was refused");
            must(!galmuvesh_passed_enable(policy, passeds[d], (uint8_t)t), "an enable by the passed state was refused");
        }
        uint64_t figure;
        must(!galmuvesh_derivation_write(policy, walks[d], 0, derivations[d], STEPS, &figure), "a derivation was refused");
        must(figure == 3 * d + 1, "a derivation has another length than 3 n + 1");
    }
}

static void make_inputs(void)
{
    static void (*const make[SHAPES])(struct pen *) = { make_mixed, make_deep, make_shallow, make_calls };
    make_policy();
    for (int s = 0; s < SHAPES; s++)
        make[s](&(struct pen){ traces[s], traces[s] + sizeof traces[s], 0 });
    make_states();
}

// Rows: each is one operation, done many times by one of the three.

struct row {
    char name[40];
    void (*go)(const struct maker *, int which, int arg, long times);
    int which, arg;
    double per;
};

static void go_run(const struct maker *m, int engine, int shape, long times)
{
    uint64_t figure;
    while (times-- > 0)
        m->run[engine](policy, traces[shape], sizeof traces[shape], answers, sizeof answers, &figure);
}

static void go_operate(const struct maker *m, int engine, int depth, long times)
{
    uint64_t *state = engine ? records[depth] : walks[depth];
    uint8_t answer;
    while (times-- > 0)
        m->operate[engine](policy, state, word(CHECK, 0, (unsigned)times % 8), &answer);
}

static void go_move(const struct maker *m, int move, int depth, long times)
{
    while (times-- > 0) {
        uint64_t state[PASSED];
        memcpy(state, passeds[depth], sizeof state);
        m->move[move](policy, state, (uint8_t)(times % 8));
    }
}

static void go_ask(const struct maker *m, int none, int depth, long times)
{
    uint8_t answer;
    (void)none;
    while (times-- > 0)
        m->ask(policy, passeds[depth], (uint8_t)(times % 8), &answer);
}

static void go_write(const struct maker *m, int none, int depth, long times)
{
    uint64_t figure;
    (void)none;
    while (times-- > 0)
        m->write(policy, walks[depth], 0, steps, sizeof steps, &figure);
}

static void go_judge(const struct maker *m, int none, int depth, long times)
{
    uint64_t figure;
    (void)none;
    while (times-- > 0)
        m->judge(policy, walks[depth], 0, derivations[depth], (size_t)(3 * depth + 1), &figure);
}

static struct row rows[64];
static int row_count;

static struct row *add(void (*go)(const struct maker *, int, int, long), int which, int arg, double per)
{
    struct row *row = &rows[row_count++];
    *row = (struct row){ .go = go, .which = which, .arg = arg, .per = per };
    return row;
}

static void make_rows(void)
{
    static const int depths[] = { 4, 40, 63 }, lengths[] = { 1, 40, 63 };
    for (int e = 0; e < 3; e++)
        for (int s = 0; s < SHAPES; s++)
            sprintf(add(go_run, e, s, WORDS)->name, "%s-run-%s", engines[e], shapes[s]);
    for (int e = 0; e < 2; e++)
        for (int d = 0; d < 3; d++)
            sprintf(add(go_operate, e, depths[d], 1)->name, "%s-operate-%d", engines[e], depths[d]);
    for (int o = 0; o < 4; o++)
        sprintf(add(go_move, o, 40, 1)->name, "passed-%s", moves[o]);
    sprintf(add(go_ask, 0, 40, 1)->name, "passed-check");
    for (int n = 0; n < 3; n++)
        sprintf(add(go_write, 0, lengths[n], 1)->name, "derivation-write-%d", lengths[n]);
    for (int n = 0; n < 3; n++)
        sprintf(add(go_judge, 0, lengths[n], 1)->name, "derivation-check-%d", lengths[n]);
}

// Instructions: the counter sets out before a call, and writes what it counted after it.

static void counted(const struct row *row, const struct maker *m, long times)
{
    CALLGRIND_ZERO_STATS;
    row->go(m, row->which, row->arg, times);
    CALLGRIND_DUMP_STATS;
}

static void count(void)
{
    for (int r = 0; r < row_count; r++)
        for (int m = 0; m < MAKERS; m++) {
            long times = rows[r].per > 1 ? 1 : 10;
            counted(&rows[r], &makers[m], times);
            counted(&rows[r], &makers[m], 2 * times);
            printf("count %s %s %.0f\n", rows[r].name, makers[m].name, rows[r].per * (double)times);
        }
}

// Times.

static double now(void)
{
    struct timespec t;
    clock_gettime(CLOCK_MONOTONIC, &t);
    return 1e9 * (double)t.tv_sec + (double)t.tv_nsec;
}

static double timed(const struct row *row, const struct maker *m, long times)
{
    double began = now();
    row->go(m, row->which, row->arg, times);
    return (now() - began) / ((double)times * row->per);
}

struct clocked { long times; int rounds; double ns[MAKERS][ROUNDS_MOST]; };

// How many times make a batch of some 100 microseconds.
static long batch(const struct row *row)
{
    long times = 1;
    while (times * row->per * timed(row, &makers[0], times) < 1e5 && times < 1000000)
        times *= 2;
    return times;
}

// The three take turns, and each begins a round as often as the others.
static void clock_rounds(const struct row *row, struct clocked *c, int rounds)
{
    if (!c->times)
        c->times = batch(row);
    for (int i = 0; i < rounds && c->rounds < ROUNDS_MOST; i++, c->rounds++)
        for (int turn = 0; turn < MAKERS; turn++) {
            int m = (i + turn) % MAKERS;
            c->ns[m][c->rounds] = timed(row, &makers[m], c->times);
        }
}

static int by_size(const void *a, const void *b)
{
    double x = *(const double *)a, y = *(const double *)b;
    return (x > y) - (x < y);
}

static void sort(struct clocked *c)
{
    for (int m = 0; m < MAKERS; m++)
        qsort(c->ns[m], (size_t)c->rounds, sizeof c->ns[m][0], by_size);
}

static void show(const char *kind, const char *name, struct clocked *c)
{
    sort(c);
    printf("%s %s", kind, name);
    for (int m = 0; m < MAKERS; m++)
        printf(" %.3f", c->ns[m][0]);
    for (int m = 0; m < MAKERS; m++)
        printf(" %.3f", c->ns[m][c->rounds / 2]);
    printf("\n");
}

static struct clocked clocks[64];

// Several passes over all rows, so that a busy spell of the machine does not fall on one row alone.
static void time_rows(int passes, int rounds)
{
    memset(clocks, 0, sizeof clocks);
    for (int p = 0; p < passes; p++)
        for (int r = 0; r < row_count; r++)
            clock_rounds(&rows[r], &clocks[r], rounds);
    for (int r = 0; r < row_count; r++)
        show("time", rows[r].name, &clocks[r]);
}

static void time_depths(const char *name, void (*go)(const struct maker *, int, int, long), int which, int passes, int rounds)
{
    memset(clocks, 0, sizeof clocks);
    for (int p = 0; p < passes; p++)
        for (int d = 1; d <= DEPTH_MOST; d++)
            clock_rounds(&(struct row){ .go = go, .which = which, .arg = d, .per = 1 }, &clocks[d], rounds);
    for (int d = 1; d <= DEPTH_MOST; d++) {
        char depth[32];
        sprintf(depth, "%s %d", name, d);
        show("depth", depth, &clocks[d]);
    }
}

// Agreement: every number, figure, answer byte and state word, compared with the library's.

static long compared;

static void same(const void *a, const void *b, size_t size, const char *what, const struct maker *m)
{
    compared++;
    if (memcmp(a, b, size) == 0)
        return;
    fprintf(stderr, "bench: %s: %s differs from the library\n", what, m->name);
    exit(1);
}

enum { ROOM = WORDS + 8 };

// What one call leaves behind: its number, its figure, the bytes and the state lent to it.
struct outcome { uint8_t number; uint64_t figure; uint8_t bytes[ROOM]; uint64_t state[RECORD]; };

static struct outcome outcomes[MAKERS];

static void lend(struct outcome *o, const uint64_t *state, size_t size)
{
    o->number = 99;
    o->figure = 99;
    memset(o->bytes, 0xa5, sizeof o->bytes);
    memcpy(o->state, state, size);
}

static void agree(const char *what, size_t size)
{
    for (int m = 1; m < MAKERS; m++) {
        same(&outcomes[m].number, &outcomes[0].number, 1, what, &makers[m]);
        same(&outcomes[m].figure, &outcomes[0].figure, sizeof outcomes[0].figure, what, &makers[m]);
        same(outcomes[m].bytes, outcomes[0].bytes, ROOM, what, &makers[m]);
        same(outcomes[m].state, outcomes[0].state, size, what, &makers[m]);
    }
}

static void agree_run(const uint64_t *p, int engine, const uint8_t *trace, size_t len, size_t room)
{
    for (int m = 0; m < MAKERS; m++) {
        lend(&outcomes[m], p, 0);
        outcomes[m].number = makers[m].run[engine](p, trace, len, outcomes[m].bytes, room, &outcomes[m].figure);
    }
    agree(engines[engine], 0);
}

static void agree_operate(const uint64_t *p, int engine, const uint64_t *state, uint16_t w)
{
    size_t size = (engine ? RECORD : WALK) * sizeof *state;
    for (int m = 0; m < MAKERS; m++) {
        lend(&outcomes[m], state, size);
        outcomes[m].number = makers[m].operate[engine](p, outcomes[m].state, w, outcomes[m].bytes);
    }
    agree("operate", size);
}

static void agree_passed(const uint64_t *p, const uint64_t *state, uint8_t field)
{
    size_t size = PASSED * sizeof *state;
    for (int move = 0; move <= 4; move++) {
        for (int m = 0; m < MAKERS; m++) {
            struct outcome *o = &outcomes[m];
            lend(o, state, size);
            o->number = move < 4 ? makers[m].move[move](p, o->state, field) : makers[m].ask(p, o->state, field, o->bytes);
        }
        agree("passed", size);
    }
}

static void agree_derivation(const uint64_t *p, const uint64_t *state, uint8_t target, const uint8_t *given, size_t len)
{
    for (int m = 0; m < MAKERS; m++) {
        lend(&outcomes[m], state, WALK * sizeof *state);
        outcomes[m].number = makers[m].write(p, outcomes[m].state, target, outcomes[m].bytes, len, &outcomes[m].figure);
    }
    agree("derivation write", WALK * sizeof *state);
    for (int m = 0; m < MAKERS; m++) {
        lend(&outcomes[m], state, WALK * sizeof *state);
        outcomes[m].number = makers[m].judge(p, outcomes[m].state, target, given, len, &outcomes[m].figure);
    }
    agree("derivation check", WALK * sizeof *state);
}

static void agree_inputs(void)
{
    for (int e = 0; e < 3; e++)
        for (int s = 0; s < SHAPES; s++)
            agree_run(policy, e, traces[s], sizeof traces[s], WORDS);
    for (int d = 1; d <= DEPTH_MOST; d++) {
        for (unsigned t = 0; t < 8; t++)
            for (int e = 0; e < 2; e++)
                agree_operate(policy, e, e ? records[d] : walks[d], word(CHECK, 0, t));
        agree_derivation(policy, walks[d], 0, derivations[d], (size_t)(3 * d + 1));
        for (unsigned t = 0; t < 8; t++)
            agree_passed(policy, passeds[d], (uint8_t)t);
    }
}

// One word of an array becomes another: a bit flipped, a small number, or any.
static void damage(uint64_t *words, size_t n)
{
    uint64_t *w = &words[below(2) ? below(n) : below(n < 8 ? n : 8)];
    switch (below(3)) {
    case 0: *w ^= (uint64_t)1 << below(64); break;
    case 1: *w = below(70); break;
    default: *w = below((uint64_t)1 << 44) << below(20);
    }
}

struct lent { uint64_t policy[POLICY], walk[WALK], record[RECORD], passed[PASSED]; uint8_t steps[STEPS + 2], trace[64]; };

// A word that is mostly sound: unused fields zero, a few signers and targets too high.
static uint16_t some_word(void)
{
    unsigned operation = (unsigned)below(6);
    if (below(16) == 0)
        return (uint16_t)below(65536);
    return operation == CALL ? word(CALL, (unsigned)below(SIGNERS + 1), 0) : word(operation, 0, operation == RETURN ? 0 : (unsigned)below(TARGETS + 2));
}

// Arguments of a depth, a quarter of the policies and half of the states damaged.
static void lend_damaged(struct lent *l, uint64_t depth)
{
    memcpy(l->policy, policy, sizeof l->policy);
    memcpy(l->walk, walks[depth], sizeof l->walk);
    memcpy(l->record, records[depth], sizeof l->record);
    memcpy(l->passed, passeds[depth], sizeof l->passed);
    memcpy(l->steps, derivations[depth], sizeof l->steps);
    l->steps[below(sizeof l->steps)] = (uint8_t)below(256);
    l->policy[0] = below(2);
    if (below(4) == 0)
        damage(l->policy, POLICY);
    if (below(2))
        damage(l->walk, WALK), damage(l->record, RECORD), damage(l->passed, PASSED);
    for (size_t i = 0; i < sizeof l->trace; i += 2) {
        uint16_t w = some_word();
        l->trace[i] = (uint8_t)(w >> 8);
        l->trace[i + 1] = (uint8_t)w;
    }
}

// The peers also refuse what the library refuses: a peer that left a test out would be faster and no peer.
static void agree_damaged(int times)
{
    static struct lent l;
    while (times-- > 0) {
        uint64_t depth = below(DEPTH_MOST + 1);
        lend_damaged(&l, depth);
        for (int e = 0; e < 3; e++)
            agree_run(l.policy, e, l.trace, below(sizeof l.trace + 1), below(40));
        for (int e = 0; e < 2; e++)
            agree_operate(l.policy, e, e ? l.record : l.walk, some_word());
        agree_passed(l.policy, l.passed, (uint8_t)below(below(2) ? 256 : TARGETS));
        agree_derivation(l.policy, l.walk, (uint8_t)below(below(2) ? 70 : COMMON), l.steps, below(sizeof l.steps + 1));
        agree_derivation(l.policy, l.walk, (uint8_t)below(COMMON), l.steps, (size_t)(3 * depth + 1));
    }
}

int main(int count_of, char **args)
{
    make_inputs();
    make_rows();
    if (count_of > 1 && strcmp(args[1], "count") == 0) {
        count();
        return 0;
    }
    must(count_of > 3 && strcmp(args[1], "time") == 0, "use: bench time PASSES ROUNDS [depths] | bench count");
    agree_inputs();
    agree_damaged(4000);
    int passes = atoi(args[2]), rounds = atoi(args[3]);
    printf("agreed %ld\nrounds %d\n", compared, passes * rounds);
    time_rows(passes, rounds);
    if (count_of > 4) {
        time_depths("walk", go_operate, 0, passes, rounds / 4);
        time_depths("record", go_operate, 1, passes, rounds / 4);
        time_depths("passed", go_ask, 0, passes, rounds / 4);
    }
    return 0;
}
