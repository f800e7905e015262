/*
 * The library as a C host sees it: document 01's cases and each of its refusals through every function of the header.
 * Expected values are worked out by hand from document 01. Every buffer is lent so that its last byte is the last of
 * its page and the next page cannot be touched; what stands before it is looked at after each call.
 */
#define _DEFAULT_SOURCE
#include <galmuvesh.h>
#include <stdio.h>
#include <stdlib.h>
#include <string.h>
#include <sys/mman.h>
#include <ucontext.h>
#include <unistd.h>

enum { GUARD = 0xEE, ARENA = 40 * 1024, FIGURE_BEFORE = 0x5A5A };

static int passed, failed;

static void held(int holds, const char *what, int line) {
    if (holds) {
        passed++;
        return;
    }
    failed++;
    printf("host.c:%d: %s\n", line, what);
}

#define CHECK(fact) held((fact), #fact, __LINE__)

/* Memory to lend from its end, with a page behind it that nobody may read or write. */
typedef struct arena {
    uint8_t *base;
    size_t size;
} arena;

static arena policy_at, state_at, in_at, out_at, figure_at, answer_at;

static arena mapped(void) {
    size_t page = (size_t)sysconf(_SC_PAGESIZE);
    size_t size = (ARENA + page - 1) / page * page;
    void *base = mmap(NULL, size + page, PROT_READ | PROT_WRITE, MAP_PRIVATE | MAP_ANONYMOUS, -1, 0);
    if (base == MAP_FAILED || mprotect((uint8_t *)base + size, page, PROT_NONE) != 0) {
        perror("mmap");
        exit(1);
    }
    arena a = {base, size};
    return a;
}

/* The last `len` bytes of an arena, all of which holds guard bytes. */
static void *lend(arena a, size_t len) {
    memset(a.base, GUARD, a.size);
    return a.base + (a.size - len);
}

static int all_guard(const uint8_t *bytes, size_t len) {
    for (size_t i = 0; i < len; i++)
        if (bytes[i] != GUARD)
            return 0;
    return 1;
}

static int guarded(arena a, size_t len) { return all_guard(a.base, a.size - len); }

static int same(const void *a, const void *b, size_t len) { return len == 0 || memcmp(a, b, len) == 0; }

/* What a call left behind. */
static uint64_t figure;
static uint8_t answer;

/* Policies. The first is document 01's: empty start, 3 signers, 2 targets. */
static const uint8_t p_bytes[] = {0x08, 0x10, 0xC0, 0x80, 0x00};
static const galmuvesh_policy p = {{0, 3, 2, 3, 1, 0}};
static const galmuvesh_policy p_full = {{1, 3, 2, 3, 1, 0}};
static const galmuvesh_policy bad = {{0, 33, 2}};

/* 32 signers, 64 targets, full start; every signer is permitted targets 0 and 63. */
static galmuvesh_policy widest(void) {
    galmuvesh_policy w = {{1, 32, 64}};
    for (int s = 0; s < 32; s++)
        w.rows[s] = UINT64_C(0x8000000000000001);
    return w;
}

static uint64_t *lend_policy(const galmuvesh_policy *policy) {
    return memcpy(lend(policy_at, sizeof *policy), policy->words, sizeof *policy);
}

static int policy_kept(const uint64_t *lent, const galmuvesh_policy *policy) {
    return same(lent, policy->words, sizeof *policy) && guarded(policy_at, sizeof *policy);
}

static uint8_t *lend_in(const uint8_t *bytes, size_t len) {
    uint8_t *lent = lend(in_at, len);
    if (len != 0)
        memcpy(lent, bytes, len);
    return lent;
}

static uint64_t *lend_figure(void) {
    uint64_t *lent = lend(figure_at, sizeof *lent);
    *lent = FIGURE_BEFORE;
    return lent;
}

/* Reading, cutting and writing policies. */

static void read_gives(int line, const uint8_t *bytes, size_t len, uint8_t number, const galmuvesh_policy *value) {
    uint8_t *in = lend_in(bytes, len);
    uint64_t *policy = lend(policy_at, sizeof *value);
    held(galmuvesh_policy_read(in, len, policy) == number, "policy_read: number", line);
    if (value)
        held(same(policy, value->words, sizeof *value), "policy_read: value", line);
    else
        held(all_guard((uint8_t *)policy, sizeof *value), "policy_read: value left alone", line);
    held(guarded(policy_at, sizeof *value) && guarded(in_at, len) && same(in, bytes, len), "policy_read: guards", line);
}

#define READ_GIVES(number, value, ...) \
    do { \
        const uint8_t b[] = {__VA_ARGS__}; \
        read_gives(__LINE__, b, sizeof b, number, value); \
    } while (0)

static void read_policies(void) {
    read_gives(__LINE__, NULL, 0, 1, NULL);
    READ_GIVES(1, NULL, 0x08);
    READ_GIVES(0, &p, 0x08, 0x10, 0xC0, 0x80, 0x00);
    READ_GIVES(0, &p_full, 0x88, 0x10, 0xC0, 0x80, 0x00);
    READ_GIVES(3, NULL, 0x08, 0x11, 0xC0, 0x80, 0x00);
    READ_GIVES(3, NULL, 0x08, 0x11); /* the spare bits before the rows' length */
    READ_GIVES(1, NULL, 0x08, 0x10, 0xC0, 0x80);
    READ_GIVES(1, NULL, 0x08, 0x10, 0xA0); /* the length before the padding */
    READ_GIVES(2, NULL, 0x08, 0x10, 0xC0, 0x80, 0x00, 0x00);
    READ_GIVES(2, NULL, 0x08, 0x10, 0xA0, 0x80, 0x00, 0x00); /* what is left over before the padding */
    READ_GIVES(3, NULL, 0x08, 0x10, 0xA0, 0x80, 0x00);
    CHECK(galmuvesh_policy_read(NULL, 0, lend(policy_at, sizeof p)) == 1);
}

/* 2 + 32 * 8 bytes: header FF F0; a row's first bit is target 0 and its last target 63. */
static void widest_bytes(uint8_t bytes[258]) {
    memset(bytes, 0, 258);
    bytes[0] = 0xFF;
    bytes[1] = 0xF0;
    for (int s = 0; s < 32; s++) {
        bytes[2 + 8 * s] = 0x80;
        bytes[2 + 8 * s + 7] = 0x01;
    }
}

static void cut_recordings(void) {
    uint8_t recording[300];
    widest_bytes(recording);
    CHECK(galmuvesh_policy_cut(NULL, 0) == 0);
    CHECK(galmuvesh_policy_cut(lend_in(p_bytes, 1), 1) == 1);
    CHECK(galmuvesh_policy_cut(lend_in(p_bytes, 2), 2) == 2);
    CHECK(galmuvesh_policy_cut(lend_in(p_bytes, 4), 4) == 4);
    CHECK(galmuvesh_policy_cut(lend_in(p_bytes, 5), 5) == 5);
    CHECK(galmuvesh_policy_cut(lend_in(recording, 257), 257) == 257);
    CHECK(galmuvesh_policy_cut(lend_in(recording, 258), 258) == 258);
    CHECK(galmuvesh_policy_cut(lend_in(recording, 300), 300) == GALMUVESH_POLICY_BYTES_MOST);
    memcpy(recording, p_bytes, 5);
    CHECK(galmuvesh_policy_cut(lend_in(recording, 27), 27) == 5);
    recording[1] |= 0x0F;
    CHECK(galmuvesh_policy_cut(lend_in(recording, 27), 27) == 5); /* the spare bits are the reader's to refuse */
}

static void write_gives(int line, const galmuvesh_policy *policy, size_t room, uint8_t number, const uint8_t *bytes,
                        size_t len) {
    uint64_t *lent = lend_policy(policy), *fig = lend_figure();
    uint8_t *out = lend(out_at, room);
    held(galmuvesh_policy_write(lent, out, room, fig) == number, "policy_write: number", line);
    held(*fig == len, "policy_write: figure", line);
    held(same(out, bytes, len), "policy_write: bytes", line);
    held(all_guard(out + len, room - len), "policy_write: bytes past the figure left alone", line);
    held(guarded(out_at, room) && guarded(figure_at, 8) && policy_kept(lent, policy), "policy_write: guards", line);
}

static void write_policies(void) {
    uint8_t bytes[258];
    galmuvesh_policy w = widest();
    widest_bytes(bytes);
    write_gives(__LINE__, &p, 5, 0, p_bytes, 5);
    write_gives(__LINE__, &p, 9, 0, p_bytes, 5);
    write_gives(__LINE__, &p, 4, 9, NULL, 0);
    write_gives(__LINE__, &p, 0, 9, NULL, 0);
    write_gives(__LINE__, &w, GALMUVESH_POLICY_BYTES_MOST, 0, bytes, 258);
    write_gives(__LINE__, &w, 257, 9, NULL, 0);
    write_gives(__LINE__, &bad, 5, 13, NULL, 0);
    write_gives(__LINE__, &bad, 0, 13, NULL, 0); /* 13 before 9 */
    read_gives(__LINE__, bytes, 258, 0, &w);
    CHECK(galmuvesh_policy_write(p.words, NULL, 0, lend_figure()) == 9);
}

/* Every way to be outside a policy's range, one word changed at a time. */
static void refuse_policies(void) {
    const struct {
        int word;
        uint64_t value;
    } changes[] = {
        {0, 2}, {0, UINT64_MAX}, {1, 0}, {1, 33}, {2, 0}, {2, 65}, {3, 4}, {5, UINT64_C(1) << 63}, {6, 1}, {34, 1},
    };
    for (size_t i = 0; i < sizeof changes / sizeof *changes; i++) {
        galmuvesh_policy changed = p;
        changed.words[changes[i].word] = changes[i].value;
        write_gives(__LINE__, &changed, 258, 13, NULL, 0);
    }
}

/* Runs. */

typedef uint8_t run_by(const uint64_t *, const uint8_t *, size_t, uint8_t *, size_t, uint64_t *);

/* A run by one engine: the number, the figure, the `stand` answers, and no other byte touched. */
static void run_gives(int line, run_by *run, const galmuvesh_policy *policy, const uint8_t *trace, size_t len,
                      size_t room, uint8_t number, uint64_t index, const uint8_t *answers, size_t stand) {
    uint64_t *lent = lend_policy(policy), *fig = lend_figure();
    uint8_t *in = lend_in(trace, len), *out = lend(out_at, room);
    int counts = run == galmuvesh_walk_run;
    held(run(lent, in, len, out, room, fig) == number, "run: number", line);
    held(*fig == index, "run: figure", line);
    int right = 1;
    for (size_t i = 0; i < stand; i++)
        right = right && out[i] == (counts ? answers[i] : answers[i] & 0xC0);
    held(right, "run: answers", line);
    held(all_guard(out + stand, room - stand), "run: other answers left alone", line);
    held(guarded(out_at, room) && guarded(in_at, len) && guarded(figure_at, 8), "run: guards", line);
    held(same(in, trace, len) && policy_kept(lent, policy), "run: what is read stays", line);
}

static void runs_give(int line, const galmuvesh_policy *policy, const uint8_t *trace, size_t len, size_t room,
                      uint8_t number, uint64_t index, const uint8_t *answers, size_t stand) {
    run_by *engines[] = {galmuvesh_walk_run, galmuvesh_record_run, galmuvesh_passed_run};
    for (int e = 0; e < 3; e++)
        run_gives(line, engines[e], policy, trace, len, room, number, index, answers, stand);
}

static const uint8_t trace_a[] = {0x00, 0x00, 0x40, 0x00, 0x01, 0x00, 0xA0, 0x00, 0xA0, 0x04, 0x60,
                                  0x00, 0xA0, 0x00, 0x80, 0x00, 0xA0, 0x00, 0x20, 0x00, 0xA0, 0x00};
static const uint8_t answers_a[] = {0x00, 0x00, 0x00, 0x42, 0x81, 0x00, 0x81, 0x00, 0x81, 0x00, 0x41};

/* Document 01's words as the header makes them. */
#define WORDS(...) \
    const uint16_t words[] = {__VA_ARGS__}; \
    const size_t n = sizeof words / sizeof *words; \
    uint8_t trace[2 * sizeof words / sizeof *words]; \
    for (size_t i = 0; i < n; i++) \
        galmuvesh_trace_put(trace, i, words[i])

#define ANSWERS(...) (const uint8_t[]){__VA_ARGS__}

/* An accepted trace of n words, or one refused at its word `index`: the answers before it stand. */
#define ACCEPTS(policy, answers, ...) \
    do { \
        WORDS(__VA_ARGS__); \
        runs_give(__LINE__, policy, trace, 2 * n, n + 3, 0, n, answers, n); \
    } while (0)
#define REFUSES(policy, number, index, answers, ...) \
    do { \
        WORDS(__VA_ARGS__); \
        runs_give(__LINE__, policy, trace, 2 * n, n, number, index, answers, index); \
    } while (0)

#define call galmuvesh_call
#define ret galmuvesh_return()
#define enable galmuvesh_enable
#define disable galmuvesh_disable
#define revert galmuvesh_revert
#define check galmuvesh_check

static void run_cases(void) {
    runs_give(__LINE__, &p, trace_a, 22, 11, 0, 11, answers_a, 11); /* P1 */
    runs_give(__LINE__, &p, trace_a, 22, 20, 0, 11, answers_a, 11);
    ACCEPTS(&p, answers_a, call(0), enable(0), call(1), check(0), check(1), disable(0), check(0), revert(0), check(0),
            ret, check(0));
    ACCEPTS(&p, ANSWERS(0, 0, 0x81), call(2), enable(0), check(0)); /* P6 */
    /* P7 */
    ACCEPTS(&p, ANSWERS(0, 0, 0, 0x41, 0, 0x81), call(0), disable(0), enable(0), check(0), revert(0), check(0));
    ACCEPTS(&p_full, ANSWERS(0, 0x41, 0, 0x81), call(0), check(1), revert(1), check(1)); /* P8 */
    ACCEPTS(&p, ANSWERS(0, 0x81), call(0), check(0));                                    /* P9 */
    REFUSES(&p, 7, 0, NULL, ret);                                                        /* P10 */
    ACCEPTS(&p, ANSWERS(0, 0, 0), call(0), ret, call(0));
    /* marks of a returned frame are not found again */
    ACCEPTS(&p, ANSWERS(0, 0, 0, 0, 0, 0x82), call(0), call(0), enable(0), ret, call(0), check(0));
    runs_give(__LINE__, &p, NULL, 0, 0, 0, 0, NULL, 0);
    runs_give(__LINE__, &p, NULL, 0, 4, 0, 0, NULL, 0);
}

static void refused_runs(void) {
    runs_give(__LINE__, &bad, trace_a, 22, 11, 13, 0, NULL, 0);
    runs_give(__LINE__, &bad, trace_a, 21, 0, 13, 0, NULL, 0); /* 13 before 1 */
    runs_give(__LINE__, &p, trace_a, 21, 11, 1, 0, NULL, 0);
    runs_give(__LINE__, &p, trace_a, 21, 0, 1, 0, NULL, 0); /* 1 before 9 */
    runs_give(__LINE__, &p, trace_a, 22, 10, 9, 0, NULL, 0);
    runs_give(__LINE__, &p, trace_a, 22, 0, 9, 0, NULL, 0);
    REFUSES(&p, 4, 1, ANSWERS(0), call(0), 0xC000, ret);
    REFUSES(&p, 4, 1, ANSWERS(0), call(0), 0xE001, ret); /* 4 before 3 */
    REFUSES(&p, 4, 0, NULL, call(32));
    REFUSES(&p, 4, 1, ANSWERS(0), call(0), check(64));
    REFUSES(&p, 3, 0, NULL, 0x0001);
    REFUSES(&p, 3, 0, NULL, 0x0301);                /* 3 before 5 */
    REFUSES(&p, 3, 0, NULL, 0x0004);                /* call uses no target */
    REFUSES(&p, 3, 1, ANSWERS(0), call(0), 0x2100); /* return uses no signer */
    REFUSES(&p, 3, 1, ANSWERS(0), call(0), 0xA100); /* check uses no signer */
    REFUSES(&p, 5, 2, ANSWERS(0, 0), call(0), enable(1), call(3), ret);
    REFUSES(&p, 6, 2, ANSWERS(0, 0), call(0), enable(1), check(2), ret);
    REFUSES(&p, 6, 0, NULL, check(2)); /* 6 before 7 */
    REFUSES(&p, 7, 2, ANSWERS(0, 0), call(0), ret, enable(0));
}

/* 63 calls pass; the 64th gives 8, at index 63. */
static void deep_runs(void) {
    uint8_t trace[128] = {0}, answers[64] = {0};
    runs_give(__LINE__, &p, trace, 126, 63, 0, 63, answers, 63);
    runs_give(__LINE__, &p, trace, 128, 64, 8, 63, answers, 63);
    galmuvesh_trace_put(trace, 63, call(3));
    runs_give(__LINE__, &p, trace, 128, 64, 5, 63, answers, 63); /* 5 before 8 */
    galmuvesh_trace_put(trace, 63, check(0));
    answers[63] = 0xBF; /* past the bottom it is the depth, 63 */
    runs_give(__LINE__, &p, trace, 128, 64, 0, 64, answers, 64);
}

static void empty_runs(void) {
    run_by *engines[] = {galmuvesh_walk_run, galmuvesh_record_run, galmuvesh_passed_run};
    for (int e = 0; e < 3; e++) {
        uint64_t *fig = lend_figure();
        CHECK(engines[e](p.words, NULL, 0, NULL, 0, fig) == 0 && *fig == 0);
    }
}

/* One operation on a live state. */

typedef uint8_t operate_by(const uint64_t *, uint64_t *, uint16_t, uint8_t *);

static uint8_t operate(operate_by *by, const galmuvesh_policy *policy, uint64_t *state, size_t size, uint16_t word,
                       int line) {
    uint64_t *lent = lend_policy(policy);
    uint64_t *s = memcpy(lend(state_at, size), state, size);
    uint8_t *a = lend(answer_at, 1);
    uint8_t number = by(lent, s, word, a);
    held(guarded(state_at, size) && guarded(answer_at, 1) && policy_kept(lent, policy), "operate: guards", line);
    if (number != 0)
        held(same(s, state, size) && *a == GUARD, "operate: state and answer left alone", line);
    memcpy(state, s, size);
    answer = *a;
    return number;
}

#define WALK(policy, state, word) \
    operate(galmuvesh_walk_operate, policy, (state)->words, sizeof *(state), word, __LINE__)
#define RECORD(policy, state, word) \
    operate(galmuvesh_record_operate, policy, (state)->words, sizeof *(state), word, __LINE__)

static void walk_states(void) {
    galmuvesh_walk s = GALMUVESH_FRESH, expected = GALMUVESH_FRESH;
    CHECK(WALK(&p, &s, call(0)) == 0 && answer == 0);
    CHECK(WALK(&p, &s, enable(0)) == 0 && answer == 0);
    CHECK(WALK(&p, &s, call(1)) == 0 && answer == 0);
    CHECK(WALK(&p, &s, check(0)) == 0 && answer == 0x42);
    CHECK(WALK(&p, &s, check(1)) == 0 && answer == 0x81);
    CHECK(WALK(&p, &s, disable(0)) == 0 && answer == 0);
    expected.depth = 2;
    expected.frames[0].enabled = 1;
    expected.frames[1].signer = 1;
    expected.frames[1].disabled = 1;
    CHECK(same(&s, &expected, sizeof s));
    CHECK(WALK(&p, &s, revert(0)) == 0 && same(&s, &expected, sizeof s)); /* the disabled mark stands */
    CHECK(WALK(&p, &s, check(0)) == 0 && answer == 0x81);
    CHECK(WALK(&p, &s, ret) == 0 && answer == 0);
    expected.depth = 1;
    memset(&expected.frames[1], 0, sizeof expected.frames[1]);
    CHECK(same(&s, &expected, sizeof s));
    CHECK(WALK(&p, &s, check(0)) == 0 && answer == 0x41);
    CHECK(WALK(&p, &s, ret) == 0 && s.depth == 0 && WALK(&p_full, &s, call(0)) == 0 && s.frames[0].enabled == 3);
}

static void record_states(void) {
    galmuvesh_record s = GALMUVESH_FRESH, expected = GALMUVESH_FRESH;
    CHECK(RECORD(&p, &s, call(0)) == 0 && answer == 0);
    CHECK(RECORD(&p, &s, enable(0)) == 0 && answer == 0);
    CHECK(RECORD(&p, &s, call(1)) == 0 && answer == 0);
    expected.depth = 2;
    expected.frames[0].lengths[0] = 1;
    expected.frames[1].signer = 1;
    expected.frames[1].lengths[0] = 2; /* the caller's name put in front: a chain of length 1 */
    CHECK(same(&s, &expected, sizeof s));
    CHECK(RECORD(&p, &s, check(0)) == 0 && answer == 0x40);
    CHECK(RECORD(&p, &s, check(1)) == 0 && answer == 0x80);
    CHECK(RECORD(&p, &s, enable(0)) == 0 && s.frames[1].lengths[0] == 3);
    CHECK(RECORD(&p, &s, revert(0)) == 0 && same(&s, &expected, sizeof s));
    CHECK(RECORD(&p, &s, disable(0)) == 0 && s.frames[1].lengths[0] == 0);
    CHECK(RECORD(&p, &s, check(0)) == 0 && answer == 0x80);
    CHECK(RECORD(&p, &s, ret) == 0 && answer == 0 && s.depth == 1 && s.frames[1].signer == 0);
    CHECK(RECORD(&p, &s, check(0)) == 0 && answer == 0x40);
    CHECK(RECORD(&p, &s, ret) == 0 && s.depth == 0 && RECORD(&p_full, &s, call(0)) == 0);
    CHECK(s.frames[0].lengths[0] == 1 && s.frames[0].lengths[1] == 1 && s.frames[0].lengths[2] == 0);
}

/* The refusals of one operation, by both, on a state of no frame and on one of 63; in document 01's order. */
static void refused_operations(int line, operate_by *by, uint64_t *state, size_t size, int deep) {
    const struct {
        uint16_t word;
        uint8_t fresh, full;
    } cases[] = {
        {0xC000, 4, 4}, {0xE000, 4, 4}, {0xC001, 4, 4}, {0xFFFF, 4, 4}, {0x0001, 3, 3}, {0x0004, 3, 3}, {0x0302, 3, 3},
        {0x2004, 3, 3}, {0x2100, 3, 3}, {0x4100, 3, 3}, {0xBF0B, 3, 3}, {0x0300, 5, 5}, {0x1F00, 5, 5}, {0x4008, 6, 6},
        {0x6008, 6, 6}, {0x8008, 6, 6}, {0xA008, 6, 6}, {0xA0FC, 6, 6}, {0x2000, 7, 0}, {0x4000, 7, 0}, {0x6000, 7, 0},
        {0x8000, 7, 0}, {0xA000, 7, 0}, {0x0000, 0, 8}, {0x0200, 0, 8},
    };
    uint64_t *copy = malloc(size);
    for (size_t i = 0; i < sizeof cases / sizeof *cases; i++) {
        memcpy(copy, state, size);
        uint8_t expected = deep ? cases[i].full : cases[i].fresh;
        held(operate(by, &p, copy, size, cases[i].word, line) == expected, "operate: number", line);
        memcpy(copy, state, size);
        held(operate(by, &bad, copy, size, cases[i].word, line) == 13, "operate: 13 first", line);
        copy[0] = 64;
        held(operate(by, &p, copy, size, cases[i].word, line) == 14, "operate: 14 before the word", line);
        held(operate(by, &bad, copy, size, cases[i].word, line) == 13, "operate: 13 before 14", line);
    }
    free(copy);
}

static void refuse_operations(void) {
    galmuvesh_walk w = GALMUVESH_FRESH;
    galmuvesh_record r = GALMUVESH_FRESH;
    refused_operations(__LINE__, galmuvesh_walk_operate, w.words, sizeof w, 0);
    refused_operations(__LINE__, galmuvesh_record_operate, r.words, sizeof r, 0);
    for (int i = 0; i < 63; i++)
        CHECK(WALK(&p, &w, call(0)) == 0 && RECORD(&p, &r, call(0)) == 0);
    refused_operations(__LINE__, galmuvesh_walk_operate, w.words, sizeof w, 1);
    refused_operations(__LINE__, galmuvesh_record_operate, r.words, sizeof r, 1);
    CHECK(WALK(&p, &w, GALMUVESH_NO_WORD) == 4);
}

/* States of depth 1 with one word changed: what number 14 asks of each kind. */
static void refuse_states(void) {
    const struct {
        int word;
        uint64_t value;
        uint8_t walk, record;
    } changes[] = {
        {0, 0, 0, 0},   {0, 2, 0, 0},     {0, 64, 14, 14}, {0, UINT64_MAX, 14, 14}, {1, 2, 0, 0},   {1, 3, 14, 14},
        {2, 3, 0, 14},  {2, 4, 14, 14},   {2, 1, 0, 0},    {3, 2, 0, 14},           {3, 4, 14, 14}, {4, 1, 14, 14},
        {5, 1, 14, 14}, {189, 1, 14, 14},
    };
    for (size_t i = 0; i < sizeof changes / sizeof *changes; i++) {
        galmuvesh_walk w = {{1}};
        galmuvesh_record r = {{1}};
        w.words[changes[i].word] = changes[i].value;
        r.words[changes[i].word] = changes[i].value;
        CHECK(WALK(&p, &w, call(0)) == changes[i].walk);
        CHECK(RECORD(&p, &r, call(0)) == changes[i].record);
    }
    galmuvesh_record last = {{1}};
    last.words[4095] = 1;
    CHECK(RECORD(&p, &last, call(0)) == 14);
    galmuvesh_record second = {{2}};
    second.frames[1].lengths[1] = 3; /* chains of length 0 and 1 */
    CHECK(RECORD(&p, &second, call(0)) == 0 && second.frames[2].lengths[1] == 6);
    galmuvesh_record longer = {{2}};
    longer.frames[1].lengths[1] = 4;
    CHECK(RECORD(&p, &longer, call(0)) == 14);
}

/* Passed states. */

enum { CALL, ENABLE, DISABLE, REVERT, ASK };

static uint8_t pass(const galmuvesh_policy *policy, galmuvesh_passed *state, int op, uint8_t who, int line) {
    uint8_t (*const by[])(const uint64_t *, uint64_t *, uint8_t) = {galmuvesh_passed_call, galmuvesh_passed_enable,
                                                                    galmuvesh_passed_disable, galmuvesh_passed_revert};
    uint64_t *lent = lend_policy(policy);
    uint64_t *s = memcpy(lend(state_at, sizeof *state), state->words, sizeof *state);
    uint8_t *a = lend(answer_at, 1);
    uint8_t number = op == ASK ? galmuvesh_passed_check(lent, s, who, a) : by[op](lent, s, who);
    held(guarded(state_at, sizeof *state) && guarded(answer_at, 1) && policy_kept(lent, policy), "passed: guards",
         line);
    if (number != 0 || op == ASK)
        held(same(s, state->words, sizeof *state), "passed: state left alone", line);
    if (number != 0 || op != ASK)
        held(*a == GUARD, "passed: answer left alone", line);
    memcpy(state->words, s, sizeof *state);
    answer = *a;
    return number;
}

#define PASS(policy, state, op, who) pass(policy, state, op, who, __LINE__)

static int is(const galmuvesh_passed *s, uint64_t depth, uint64_t signer, uint64_t own, uint64_t callers) {
    return s->depth == depth && s->signer == signer && s->own == own && s->callers == callers;
}

static void passed_states(void) {
    galmuvesh_passed s = GALMUVESH_FRESH, full = GALMUVESH_FRESH;
    CHECK(PASS(&p, &s, CALL, 0) == 0 && is(&s, 1, 0, 0, 0));
    CHECK(PASS(&p, &s, ASK, 0) == 0 && answer == 0x80); /* P9 */
    CHECK(PASS(&p, &s, ENABLE, 0) == 0 && is(&s, 1, 0, 1, 0));
    galmuvesh_passed callee = s;
    CHECK(PASS(&p, &callee, CALL, 1) == 0 && is(&callee, 2, 1, 0, 1));
    CHECK(PASS(&p, &callee, ASK, 0) == 0 && answer == 0x40);
    CHECK(PASS(&p, &callee, ASK, 1) == 0 && answer == 0x80);
    CHECK(PASS(&p, &callee, DISABLE, 0) == 0 && is(&callee, 2, 1, 0, 0));
    CHECK(PASS(&p, &callee, ASK, 0) == 0 && answer == 0x80);
    CHECK(PASS(&p, &callee, ENABLE, 0) == 0 && is(&callee, 2, 1, 1, 0)); /* P7's order in a callee */
    CHECK(PASS(&p, &callee, ASK, 0) == 0 && answer == 0x40);
    CHECK(PASS(&p, &callee, REVERT, 0) == 0 && is(&callee, 2, 1, 0, 0));
    CHECK(PASS(&p, &callee, ASK, 0) == 0 && answer == 0x80);
    CHECK(is(&s, 1, 0, 1, 0) && PASS(&p, &s, ASK, 0) == 0 && answer == 0x40); /* the caller's own is still there */
    galmuvesh_passed third = s;
    CHECK(PASS(&p, &third, CALL, 2) == 0 && is(&third, 2, 2, 0, 1) && PASS(&p, &third, ENABLE, 0) == 0);
    CHECK(is(&third, 2, 2, 1, 1) && PASS(&p, &third, ASK, 0) == 0 && answer == 0x80); /* signer 2 lets nobody in */
    CHECK(PASS(&p, &third, REVERT, 0) == 0 && is(&third, 2, 2, 0, 1));  /* what the caller vouched for stays */
    CHECK(PASS(&p_full, &full, CALL, 0) == 0 && is(&full, 1, 0, 3, 0)); /* P8 */
    CHECK(PASS(&p_full, &full, ASK, 1) == 0 && answer == 0x40 && PASS(&p_full, &full, REVERT, 1) == 0);
    CHECK(PASS(&p_full, &full, ASK, 1) == 0 && answer == 0x80);
}

static void refuse_passed(void) {
    const galmuvesh_passed wrong[] = {{{64, 0, 0, 0}}, {{1, 3, 0, 0}}, {{1, 0, 4, 0}},
                                      {{2, 0, 0, 4}},  {{1, 0, 0, 1}}, {{0, 1, 0, 0}},
                                      {{0, 0, 1, 0}},  {{0, 0, 0, 1}}, {{UINT64_MAX, 0, 0, 0}}};
    for (int op = CALL; op <= ASK; op++) {
        galmuvesh_passed fresh = GALMUVESH_FRESH, one = {{1}}, deepest = {{63, 2, 3, 3}};
        for (size_t i = 0; i < sizeof wrong / sizeof *wrong; i++) {
            galmuvesh_passed s = wrong[i];
            CHECK(PASS(&p, &s, op, 255) == 14 && PASS(&bad, &s, op, 255) == 13); /* 13, 14, then 5 or 6 */
        }
        CHECK(PASS(&bad, &one, op, 0) == 13);
        CHECK(PASS(&p, &fresh, op, 3) == (op == CALL ? 5 : 6));   /* before 7 */
        CHECK(PASS(&p, &deepest, op, 3) == (op == CALL ? 5 : 6)); /* before 8 */
        CHECK(PASS(&p, &deepest, op, 0) == (op == CALL ? 8 : 0));
        CHECK(PASS(&p, &fresh, op, 0) == (op == CALL ? 0 : 7));
    }
    galmuvesh_passed s = GALMUVESH_FRESH;
    for (int i = 0; i < 63; i++)
        CHECK(PASS(&p, &s, CALL, 1) == 0);
    CHECK(PASS(&p, &s, CALL, 1) == 8 && s.depth == 63);
}

/* A signer of 32 to 255 is 5 and a target of 64 to 255 is 6, under a policy that has all 32 and all 64: nothing is
 * masked. */
static void nothing_masked(void) {
    const galmuvesh_policy w = widest();
    const galmuvesh_walk state = {{1, 31, UINT64_C(1) << 63}};
    uint8_t steps[4] = {0x01, 0x40, 0x80, 0xC0};
    for (unsigned n = 0; n < 256; n++) {
        galmuvesh_passed fresh = GALMUVESH_FRESH, s = {{1, 31, 0, 0}};
        CHECK(PASS(&w, &fresh, CALL, (uint8_t)n) == (n < 32 ? 0 : 5));
        for (int op = ENABLE; op <= ASK; op++)
            CHECK(PASS(&w, &s, op, (uint8_t)n) == (n < 64 ? 0 : 6));
        uint8_t written = n < 63 ? 12 : n == 63 ? 0 : 6, checked = n < 63 ? 10 : n == 63 ? 0 : 6;
        CHECK(galmuvesh_derivation_write(w.words, state.words, (uint8_t)n, lend(out_at, 4), 4, &figure) == written);
        CHECK(galmuvesh_derivation_check(w.words, state.words, (uint8_t)n, steps, 4, &figure) == checked);
    }
}

/* Derivations. */

static void derives(int line, const galmuvesh_policy *policy, const galmuvesh_walk *state, uint8_t target, size_t room,
                    uint8_t number, const uint8_t *steps, size_t len) {
    uint64_t *lent = lend_policy(policy), *fig = lend_figure();
    uint64_t *s = memcpy(lend(state_at, sizeof *state), state->words, sizeof *state);
    uint8_t *out = lend(out_at, room);
    held(galmuvesh_derivation_write(lent, s, target, out, room, fig) == number, "derivation_write: number", line);
    held(*fig == len, "derivation_write: figure", line);
    held(same(out, steps, len), "derivation_write: steps", line);
    held(all_guard(out + len, room - len), "derivation_write: bytes past the figure left alone", line);
    held(guarded(out_at, room) && guarded(state_at, sizeof *state) && guarded(figure_at, 8), "derivation_write: guards",
         line);
    held(same(s, state->words, sizeof *state) && policy_kept(lent, policy), "derivation_write: what is read stays",
         line);
}

static void judges(int line, const galmuvesh_policy *policy, const galmuvesh_walk *state, uint8_t target,
                   const uint8_t *steps, size_t len, uint8_t number, uint64_t index) {
    uint64_t *lent = lend_policy(policy), *fig = lend_figure();
    uint64_t *s = memcpy(lend(state_at, sizeof *state), state->words, sizeof *state);
    uint8_t *in = lend_in(steps, len);
    held(galmuvesh_derivation_check(lent, s, target, in, len, fig) == number, "derivation_check: number", line);
    held(*fig == index, "derivation_check: figure", line);
    held(guarded(in_at, len) && guarded(state_at, sizeof *state) && guarded(figure_at, 8), "derivation_check: guards",
         line);
    held(same(s, state->words, sizeof *state) && same(in, steps, len) && policy_kept(lent, policy),
         "derivation_check: what is read stays", line);
}

#define JUDGES(state, number, index, ...) \
    do { \
        const uint8_t b[] = {__VA_ARGS__}; \
        judges(__LINE__, &p, state, 0, b, sizeof b, number, index); \
    } while (0)

/* The state at trace A's first check. */
static const galmuvesh_walk at_check = {{2, 0, 1, 0, 1, 0, 0}};
static const uint8_t ours[] = {0x02, 0x40, 0x41, 0x80, 0x81, 0xC0, 0xC0};

static void write_derivations(void) {
    const galmuvesh_walk fresh = GALMUVESH_FRESH, wrong = {{64}};
    derives(__LINE__, &p, &at_check, 0, 7, 0, ours, 7); /* P2 */
    derives(__LINE__, &p, &at_check, 0, 190, 0, ours, 7);
    derives(__LINE__, &p, &at_check, 0, 6, 9, NULL, 0);
    derives(__LINE__, &p, &at_check, 0, 0, 9, NULL, 0);
    derives(__LINE__, &p, &at_check, 1, 7, 12, NULL, 0);
    derives(__LINE__, &p, &at_check, 1, 0, 12, NULL, 0); /* 12 before 9 */
    derives(__LINE__, &p, &fresh, 0, 7, 7, NULL, 0);
    derives(__LINE__, &p, &fresh, 2, 7, 6, NULL, 0); /* 6 before 7 */
    derives(__LINE__, &p, &wrong, 2, 7, 14, NULL, 0);
    derives(__LINE__, &bad, &wrong, 2, 7, 13, NULL, 0);
    uint64_t *fig = lend_figure();
    CHECK(galmuvesh_derivation_write(p.words, at_check.words, 0, NULL, 0, fig) == 9 && *fig == 0);
    CHECK(galmuvesh_derivation_check(p.words, at_check.words, 0, NULL, 0, fig) == 11 && *fig == 0);
}

static void check_derivations(void) {
    const galmuvesh_walk fresh = GALMUVESH_FRESH, wrong = {{64}};
    judges(__LINE__, &p, &at_check, 0, ours, 7, 0, 7);  /* P2 */
    judges(__LINE__, &p, &at_check, 0, ours, 6, 11, 0); /* P3 */
    judges(__LINE__, &p, &at_check, 0, NULL, 0, 11, 0); /* P4 */
    JUDGES(&at_check, 10, 0, 0x03);                     /* P5 */
    JUDGES(&at_check, 10, 0, 0x00);                     /* n from 1 */
    JUDGES(&at_check, 10, 0, 0x01);                     /* the newest has it not enabled */
    JUDGES(&at_check, 10, 0, 0xC0);                     /* nothing to drop */
    JUDGES(&at_check, 10, 1, 0x02, 0x80);               /* a frame is no signer */
    JUDGES(&at_check, 10, 1, 0x02, 0x42);               /* no such place */
    JUDGES(&at_check, 10, 3, 0x02, 0x40, 0x80, 0xC0);   /* the last entry is not T: no drop from the middle */
    JUDGES(&at_check, 10, 6, 0x02, 0x40, 0x41, 0x80, 0x81, 0xC0, 0xC1); /* rule 3 names place 0 */
    JUDGES(&at_check, 10, 7, 0x02, 0x40, 0x41, 0x80, 0x81, 0xC0, 0xC0, 0xC0);
    JUDGES(&at_check, 0, 9, 0x02, 0x41, 0x02, 0x41, 0x81, 0xC0, 0x40, 0x80, 0xC0); /* another order, taken anew */
    judges(__LINE__, &p, &fresh, 0, ours, 7, 7, 0);
    judges(__LINE__, &p, &fresh, 2, ours, 7, 6, 0);
    judges(__LINE__, &p, &wrong, 2, ours, 7, 14, 0);
    judges(__LINE__, &bad, &wrong, 2, ours, 7, 13, 0);
    judges(__LINE__, &p, &at_check, 1, ours, 7, 10, 0); /* target 1 was never enabled */
}

/* 63 frames of a permitted signer, the bottom one's enabled: the walk looks at all, and ours has 190 steps. */
static void deepest_derivation(void) {
    galmuvesh_walk s = GALMUVESH_FRESH;
    uint8_t steps[GALMUVESH_STEPS_MOST] = {63};
    for (int k = 0; k < 63; k++) {
        steps[1 + k] = (uint8_t)(0x40 + k);
        steps[64 + k] = (uint8_t)(0x80 + k);
        steps[127 + k] = 0xC0;
    }
    CHECK(WALK(&p, &s, call(0)) == 0 && WALK(&p, &s, enable(1)) == 0);
    for (int k = 1; k < 63; k++)
        CHECK(WALK(&p, &s, call(0)) == 0);
    CHECK(WALK(&p, &s, check(1)) == 0 && answer == 0x7F && galmuvesh_granted(answer) && galmuvesh_looked(answer) == 63);
    derives(__LINE__, &p, &s, 1, GALMUVESH_STEPS_MOST, 0, steps, 190);
    derives(__LINE__, &p, &s, 1, GALMUVESH_STEPS_MOST - 1, 9, NULL, 0);
    judges(__LINE__, &p, &s, 1, steps, 190, 0, 190);
}

/* What the header computes itself. */

static void words_and_answers(void) {
    CHECK(call(0) == 0x0000 && call(3) == 0x0300 && call(31) == 0x1F00 && ret == 0x2000);
    CHECK(enable(0) == 0x4000 && disable(0) == 0x6000 && revert(0) == 0x8000 && check(1) == 0xA004);
    CHECK(enable(63) == 0x40FC && disable(63) == 0x60FC && revert(63) == 0x80FC && check(63) == 0xA0FC);
    CHECK(call(32) == GALMUVESH_NO_WORD && call(256) == GALMUVESH_NO_WORD
          && call(UINT64_C(1) << 32) == GALMUVESH_NO_WORD);
    CHECK(enable(64) == GALMUVESH_NO_WORD && disable(64) == GALMUVESH_NO_WORD && revert(64) == GALMUVESH_NO_WORD);
    CHECK(check(64) == GALMUVESH_NO_WORD && check((uint64_t)-1) == GALMUVESH_NO_WORD);
    CHECK(galmuvesh_kind(0x00) == GALMUVESH_KIND_DONE && galmuvesh_kind(0x42) == GALMUVESH_KIND_GRANTED);
    CHECK(galmuvesh_kind(0x81) == GALMUVESH_KIND_FORBIDDEN && galmuvesh_looked(0x42) == 2
          && galmuvesh_looked(0xBF) == 63);
    CHECK(galmuvesh_granted(0x40) && !galmuvesh_granted(0x81) && !galmuvesh_granted(0x00) && !galmuvesh_granted(0xC1));
}

static void names(void) {
    for (int a = 0; a <= 15; a++)
        for (int b = 0; b < a; b++)
            CHECK(strcmp(galmuvesh_refusal_name((uint8_t)a), galmuvesh_refusal_name((uint8_t)b)) != 0);
    CHECK(strcmp(galmuvesh_refusal_name(0), "accepted") == 0
          && strcmp(galmuvesh_refusal_name(1), "bytes too few") == 0);
    CHECK(strcmp(galmuvesh_refusal_name(8), "call at depth 63") == 0);
    CHECK(strcmp(galmuvesh_refusal_name(255), galmuvesh_refusal_name(15)) == 0);
}

/* The stack that a run takes, seen on a stack of our own. */
#ifndef __SANITIZE_ADDRESS__
static uint8_t own_stack[128 * 1024];
static run_by *measured;

static void run_deepest(void) {
    static const uint8_t trace[126];
    static uint8_t answers[63];
    measured(p.words, trace, sizeof trace, answers, sizeof answers, &figure);
}

static size_t stack_of(run_by *run) {
    ucontext_t here, there;
    size_t untouched = 0;
    measured = run;
    memset(own_stack, GUARD, sizeof own_stack);
    getcontext(&there);
    there.uc_stack.ss_sp = own_stack;
    there.uc_stack.ss_size = sizeof own_stack;
    there.uc_link = &here;
    makecontext(&there, run_deepest, 0);
    swapcontext(&here, &there);
    while (own_stack[untouched] == GUARD)
        untouched++;
    return sizeof own_stack - untouched;
}

static void stacks(void) {
    CHECK(stack_of(galmuvesh_walk_run) < 2 * 1024 && figure == 63);
    CHECK(stack_of(galmuvesh_record_run) < 34 * 1024 && figure == 63);
    CHECK(stack_of(galmuvesh_passed_run) < 14 * 1024 && figure == 63);
}
#else
static void stacks(void) {}
#endif

int main(void) {
    arena *const arenas[] = {&policy_at, &state_at, &in_at, &out_at, &figure_at, &answer_at};
    for (size_t i = 0; i < sizeof arenas / sizeof *arenas; i++)
        *arenas[i] = mapped();
    void (*const parts[])(void) = {
        read_policies,     cut_recordings, write_policies, refuse_policies,   run_cases,         refused_runs,
        deep_runs,         empty_runs,     walk_states,    record_states,     refuse_operations, refuse_states,
        passed_states,     refuse_passed,  nothing_masked, write_derivations, check_derivations, deepest_derivation,
        words_and_answers, names,          stacks,
    };
    int whole = 0, broken = 0;
    for (size_t i = 0; i < sizeof parts / sizeof *parts; i++) {
        int before = failed;
        parts[i]();
        if (failed == before)
            whole++;
        else
            broken++;
    }
    printf("%d facts held, %d did not\n", passed, failed);
    printf("%d passed, %d failed\n", whole, broken);
    return broken != 0;
}
