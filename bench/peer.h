// The functions that are compared, under the prefix of each implementation: galmuvesh_ (the library), rust_ and c_ (its peers).
#ifndef PEER_H
#define PEER_H

#include <stddef.h>
#include <stdint.h>

enum { POLICY = 35, WALK = 190, RECORD = 4096, PASSED = 4, DEPTH_MOST = 63 };

typedef uint8_t run_fn(const uint64_t *policy, const uint8_t *trace, size_t len, uint8_t *answers, size_t room, uint64_t *figure);
typedef uint8_t operate_fn(const uint64_t *policy, uint64_t *state, uint16_t word, uint8_t *answer);
typedef uint8_t move_fn(const uint64_t *policy, uint64_t *state, uint8_t field);
typedef uint8_t ask_fn(const uint64_t *policy, const uint64_t *state, uint8_t target, uint8_t *answer);
typedef uint8_t write_fn(const uint64_t *policy, const uint64_t *state, uint8_t target, uint8_t *steps, size_t room, uint64_t *figure);
typedef uint8_t judge_fn(const uint64_t *policy, const uint64_t *state, uint8_t target, const uint8_t *steps, size_t len, uint64_t *figure);

#define DECLARE(prefix)                                                                                                   \
    run_fn prefix##_walk_run, prefix##_record_run, prefix##_passed_run;                                                   \
    operate_fn prefix##_walk_operate, prefix##_record_operate;                                                            \
    move_fn prefix##_passed_call, prefix##_passed_enable, prefix##_passed_disable, prefix##_passed_revert;                \
    ask_fn prefix##_passed_check;                                                                                         \
    write_fn prefix##_derivation_write;                                                                                   \
    judge_fn prefix##_derivation_check;

DECLARE(galmuvesh)
DECLARE(rust)
DECLARE(c)

#endif
