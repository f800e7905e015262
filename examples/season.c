/*
 * A season at a field station, to copy from. Routines of four signers call one another, a planning run each hour, and
 * ask before each access. The season is run twice: on a live walk state, and by passed states that go down with each
 * call. Both must give the same verdicts. Then one verdict is put in evidence, and two refusals are handled.
 *
 *     cc -std=c99 season.c $(pkg-config --cflags --libs galmuvesh) -o season
 */
#include <galmuvesh.h>
#include <inttypes.h>
#include <stdio.h>
#include <stdlib.h>

enum { DAYS = 110, RUNS_A_DAY = 24 };
enum { PLANNER, SOIL_MODEL, WEATHER_MODEL, TRIAL_MODEL };
enum { WEATHER, SOIL, VALVE };

/* Empty start, 4 signers, 3 targets. The planner may use all three targets, the soil model and the trial model weather
 * and soil, the weather model weather. */
static const uint8_t policy_bytes[] = {0x0C, 0x20, 0xE0, 0xC0, 0x80, 0xC0};

/* What a routine does in a step: with a target, or with another routine. */
typedef struct step {
    enum { END, ENABLE, DISABLE, REVERT, CHECK, RUN } does;
    uint8_t target;
    unsigned times; /* of a check */
    const struct routine *callee;
} step;

/* A routine: the signer of its code, and its steps up to END. */
typedef struct routine {
    uint8_t signer;
    step steps[10];
} routine;

static const routine weather_model = {WEATHER_MODEL, {
    {.does = CHECK, .target = WEATHER, .times = 8},
    {.does = CHECK, .target = SOIL, .times = 1}, /* beyond its rights */
}};

static const routine soil_model = {SOIL_MODEL, {
    {.does = CHECK, .target = SOIL, .times = 16},
    {.does = RUN, .callee = &weather_model},
}};

/* The trial model shuts soil off, opens it for eight accesses of its own, and takes that back: the disable still stands. */
static const routine trial_model = {TRIAL_MODEL, {
    {.does = DISABLE, .target = SOIL},
    {.does = CHECK, .target = SOIL, .times = 2},
    {.does = ENABLE, .target = SOIL},
    {.does = CHECK, .target = SOIL, .times = 8},
    {.does = RUN, .callee = &weather_model},
    {.does = REVERT, .target = SOIL},
    {.does = CHECK, .target = SOIL, .times = 7},
}};

/* The planner vouches for weather and soil, then for soil no more: the same soil model is then forbidden its layers. */
static const routine planner = {PLANNER, {
    {.does = ENABLE, .target = WEATHER},
    {.does = ENABLE, .target = SOIL},
    {.does = RUN, .callee = &soil_model},
    {.does = RUN, .callee = &trial_model},
    {.does = DISABLE, .target = SOIL},
    {.does = RUN, .callee = &soil_model},
    {.does = CHECK, .target = VALVE, .times = 1},
    {.does = ENABLE, .target = VALVE},
    {.does = CHECK, .target = VALVE, .times = 1},
}};

/* What came of the checks. The digest (FNV-1a) is of the verdicts in their order. */
typedef struct tally {
    uint64_t granted, forbidden, looked, digest;
} tally;

static const tally nothing = {0, 0, 0, UINT64_C(0xcbf29ce484222325)};

static void count(tally *t, uint8_t answer) {
    if (galmuvesh_granted(answer))
        t->granted++;
    else
        t->forbidden++;
    t->looked += (uint64_t)galmuvesh_looked(answer);
    t->digest = (t->digest ^ (uint64_t)galmuvesh_kind(answer)) * UINT64_C(0x100000001b3);
}

/* Where nothing wrong is asked a refusal is a fault of the host: it stops and says which. */
static void must(uint8_t number) {
    if (number == GALMUVESH_ACCEPTED)
        return;
    fprintf(stderr, "season: refused by %d, %s\n", number, galmuvesh_refusal_name(number));
    exit(1);
}

/* The host with a live walk state: one for the whole season, changed by each operation. */
typedef struct live {
    const galmuvesh_policy *policy;
    galmuvesh_walk walk, kept; /* kept: the state at the first check that looked at three frames */
    tally tally;
} live;

static uint8_t operate(live *host, uint16_t word) {
    uint8_t answer = 0;
    must(galmuvesh_walk_operate(host->policy->words, host->walk.words, word, &answer));
    return answer;
}

static void live_checks(live *host, const step *s) {
    for (unsigned k = 0; k < s->times; k++) {
        uint8_t answer = operate(host, galmuvesh_check(s->target));
        count(&host->tally, answer);
        if (galmuvesh_looked(answer) == 3 && host->kept.depth == 0)
            host->kept = host->walk;
    }
}

static void live_run(live *host, const routine *r) {
    operate(host, galmuvesh_call(r->signer));
    for (const step *s = r->steps; s->does != END; s++) {
        switch (s->does) {
        case ENABLE: operate(host, galmuvesh_enable(s->target)); break;
        case DISABLE: operate(host, galmuvesh_disable(s->target)); break;
        case REVERT: operate(host, galmuvesh_revert(s->target)); break;
        case CHECK: live_checks(host, s); break;
        case RUN: live_run(host, s->callee); break;
        default: break;
        }
    }
    operate(host, galmuvesh_return());
}

static void passed_checks(const galmuvesh_policy *policy, tally *t, galmuvesh_passed mine, const step *s) {
    for (unsigned k = 0; k < s->times; k++) {
        uint8_t answer = 0;
        must(galmuvesh_passed_check(policy->words, mine.words, s->target, &answer));
        count(t, answer);
    }
}

/* The host that passes security down: `mine` comes by value from the caller, whose own is still there at return. */
static void passed_run(const galmuvesh_policy *policy, tally *t, const routine *r, galmuvesh_passed mine) {
    must(galmuvesh_passed_call(policy->words, mine.words, r->signer));
    for (const step *s = r->steps; s->does != END; s++) {
        switch (s->does) {
        case ENABLE: must(galmuvesh_passed_enable(policy->words, mine.words, s->target)); break;
        case DISABLE: must(galmuvesh_passed_disable(policy->words, mine.words, s->target)); break;
        case REVERT: must(galmuvesh_passed_revert(policy->words, mine.words, s->target)); break;
        case CHECK: passed_checks(policy, t, mine, s); break;
        case RUN: passed_run(policy, t, s->callee, mine); break;
        default: break;
        }
    }
}

static void report(const char *name, const tally *t) {
    printf("%s: %" PRIu64 " checks, %" PRIu64 " granted, %" PRIu64 " forbidden, digest %016" PRIx64 "\n", name,
           t->granted + t->forbidden, t->granted, t->forbidden, t->digest);
}

/* The season by both, which must agree. The live host keeps a state for the evidence. */
static void run_season(live *host) {
    const galmuvesh_passed fresh = GALMUVESH_FRESH;
    tally passed = nothing;
    for (int run = 0; run < DAYS * RUNS_A_DAY; run++) {
        live_run(host, &planner);
        passed_run(host->policy, &passed, &planner, fresh);
    }
    printf("%d days of %d planning runs\n", DAYS, RUNS_A_DAY);
    report("walk  ", &host->tally);
    report("passed", &passed);
    printf("frames looked at by the walk: %" PRIu64 "\n", host->tally.looked);
    if (passed.digest != host->tally.digest || passed.granted != host->tally.granted
        || passed.forbidden != host->tally.forbidden) {
        fprintf(stderr, "season: the two disagree\n");
        exit(1);
    }
}

static void explain(uint8_t byte) {
    int place = byte & 63;
    printf("  %02X  ", byte);
    switch (byte >> 6) {
    case 0: printf("take the newest %d frames\n", place); break;
    case 1: printf("the frame at place %d becomes its signer\n", place); break;
    case 2: printf("the signer at place %d becomes the target\n", place); break;
    default: printf("the last entry, the target, is dropped\n"); break;
    }
}

/* A stranger trusts nobody's verdict: only the policy's bytes, the state, and steps that anyone may have written. */
static void stranger(const galmuvesh_walk *state, uint8_t target, const uint8_t *steps, size_t len) {
    galmuvesh_policy policy;
    uint64_t figure;
    must(galmuvesh_policy_read(policy_bytes, sizeof policy_bytes, policy.words));
    uint8_t number = galmuvesh_derivation_check(policy.words, state->words, target, steps, len, &figure);
    if (number == GALMUVESH_ACCEPTED)
        printf("a stranger accepts its %" PRIu64 " steps\n", figure);
    else
        printf("a stranger refuses it by %d, %s, at step %" PRIu64 "\n", number, galmuvesh_refusal_name(number),
               figure);
}

static void show_evidence(const live *host) {
    uint8_t steps[GALMUVESH_STEPS_MOST];
    uint64_t len;
    must(galmuvesh_derivation_write(host->policy->words, host->kept.words, WEATHER, steps, sizeof steps, &len));
    printf("why the weather model, called by the soil model, called by the planner, may use weather:\n");
    for (uint64_t i = 0; i < len; i++)
        explain(steps[i]);
    stranger(&host->kept, WEATHER, steps, (size_t)len);
    steps[5] = 0x80;
    printf("with step 5 damaged:\n");
    explain(steps[5]);
    stranger(&host->kept, WEATHER, steps, (size_t)len);
}

/* A refused operation changes nothing, so the host can report it and go on. */
static void show_refusals(const galmuvesh_policy *policy) {
    galmuvesh_walk walk = GALMUVESH_FRESH;
    uint8_t number, answer;
    do
        number = galmuvesh_walk_operate(policy->words, walk.words, galmuvesh_call(PLANNER), &answer);
    while (number == GALMUVESH_ACCEPTED);
    printf("a routine that calls itself without end is refused by %d, %s; the depth is still %" PRIu64 "\n", number,
           galmuvesh_refusal_name(number), walk.depth);
    number = galmuvesh_walk_operate(policy->words, walk.words, galmuvesh_enable(3), &answer);
    printf("enable of target 3 is refused by %d, %s; there are %" PRIu64 "\n", number, galmuvesh_refusal_name(number),
           policy->targets);
}

int main(void) {
    galmuvesh_policy policy;
    must(galmuvesh_policy_read(policy_bytes, sizeof policy_bytes, policy.words));
    live host = {&policy, GALMUVESH_FRESH, GALMUVESH_FRESH, nothing};
    run_season(&host);
    show_evidence(&host);
    show_refusals(&policy);
    return 0;
}
