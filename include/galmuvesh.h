/*
 * galmuvesh.h - may the code that runs now use this target?
 *
 * A policy says which signers may use which targets. Routines call one another, and each call puts a frame on a
 * stack; the frame speaks for the signer of the routine's code. A frame enables a target to vouch for its use, by
 * itself and by what it calls, and disables a target to vouch no more; revert takes back the frame's own enable, and
 * nothing else. A check looks from the newest frame down. It is granted where a frame that enabled the target is met,
 * every signer on the way, that frame's among them, is permitted the target, and no frame before it disabled the
 * target. Else it is forbidden. The library answers checks in three ways, proved to give the same verdicts: by
 * walking the stack (and then says how many frames it looked at), by a record of what each frame may claim, and by a
 * small state that is passed down with each call. For a granted check it writes the reasons as a derivation, which
 * anyone can check.
 *
 *     const uint8_t bytes[] = {0x08, 0x10, 0xC0, 0x80, 0x00};
 *     galmuvesh_policy policy;
 *     galmuvesh_walk walk = GALMUVESH_FRESH;
 *     uint8_t answer;
 *
 *     galmuvesh_policy_read(bytes, sizeof bytes, policy.words); // answers a number, as each does: 0, accepted
 *     galmuvesh_walk_operate(policy.words, walk.words, galmuvesh_call(0), &answer);
 *     galmuvesh_walk_operate(policy.words, walk.words, galmuvesh_enable(0), &answer);
 *     galmuvesh_walk_operate(policy.words, walk.words, galmuvesh_call(1), &answer);
 *     galmuvesh_walk_operate(policy.words, walk.words, galmuvesh_check(0), &answer);
 *     if (galmuvesh_granted(answer)) // it is, and galmuvesh_looked(answer) is 2
 *         ...
 *
 * Every function answers every argument: 0 where it did what was asked, else the number of the reason why not. A
 * verdict of `forbidden` is no refusal; it is an answer like `granted`.
 *
 * What holds for all of them:
 *
 * - A buffer is as long as the call says: a policy 35 words, a state as many as its type has, bytes as many as the
 *   length beside the pointer. This is the one thing that the library cannot test.
 * - A buffer that is written overlaps no other argument. Buffers that are only read may overlap.
 * - A policy, a state or a figure stands where a uint64_t may stand, as any object of its type does.
 * - No pointer is NULL, but a pointer whose length is 0 may be: it is not followed.
 * - The library keeps nothing between calls and has no variables of its own. Threads may call it at the same time,
 *   each on its own states and buffers, and may share a policy that none of them changes.
 * - It calls nothing but memset, allocates nothing, and never ends the program. galmuvesh_record_run takes under
 *   34 KiB of stack, galmuvesh_passed_run under 14 KiB, every other function under 2 KiB.
 */
#ifndef GALMUVESH_H
#define GALMUVESH_H

#include <stddef.h>
#include <stdint.h>

#ifdef __cplusplus
extern "C" {
#endif

/* Sizes. */
enum {
    GALMUVESH_SIGNERS_MOST = 32,
    GALMUVESH_TARGETS_MOST = 64,
    GALMUVESH_DEPTH_MOST = 63,
    GALMUVESH_INPUT_MOST = 65536,       /* bytes that the program galmuvesh-listing takes */
    GALMUVESH_POLICY_BYTES_MOST = 258,  /* room that holds the bytes of any policy: 2 + 32 * 8 */
    GALMUVESH_STEPS_MOST = 190          /* room that holds any derivation that the library writes: 3 * 63 + 1 */
};

/* Numbers for no. */
enum {
    GALMUVESH_ACCEPTED = 0,
    GALMUVESH_TOO_FEW = 1,      /* bytes too few: a policy short of its header or rows, or a trace of odd length */
    GALMUVESH_LEFT_OVER = 2,    /* policy bytes left over; program input over 65,536 */
    GALMUVESH_BIT_SET = 3,      /* a spare, padding or unused bit set */
    GALMUVESH_UNKNOWN = 4,      /* operation 6 or 7 */
    GALMUVESH_NO_SIGNER = 5,    /* signer S or above */
    GALMUVESH_NO_TARGET = 6,    /* target N or above */
    GALMUVESH_NO_FRAME = 7,     /* no frame, and the operation is not call */
    GALMUVESH_TOO_DEEP = 8,     /* call at depth 63 */
    GALMUVESH_NO_ROOM = 9,      /* lent buffer too short for what would be written */
    GALMUVESH_NOT_ALLOWED = 10, /* derivation step not allowed; the figure is its index */
    GALMUVESH_NOT_EMPTY = 11,   /* steps all allowed, but no chain taken or chain not empty */
    GALMUVESH_FORBIDDEN = 12,   /* derivation wanted for a forbidden check (the verdict is GALMUVESH_KIND_FORBIDDEN) */
    GALMUVESH_BAD_POLICY = 13,  /* policy value outside its range, or a bit set outside its rows and targets */
    GALMUVESH_BAD_STATE = 14    /* state value outside its range; each state below says which */
};

/* Policies and states are arrays of 64-bit words. Each type below is a union of the words, which the functions take
 * (`policy.words`, `walk.words`), with the same words by name, which a host reads (`policy.signers`, `walk.depth`).
 * Both are the same uint64_t objects, so neither the compiler's aliasing rules nor its checks of array sizes are in
 * the way. */
#ifdef __GNUC__
#define GALMUVESH_BY_NAME __extension__ struct /* C99 and C++ know no struct without a name; their compilers do */
#else
#define GALMUVESH_BY_NAME struct
#endif

/* Which signer may use which target. `start` is 0 for empty, 1 for full: a full start hands a bottom frame every
 * target as enabled. Bit t, of value 2^t, of rows[s] permits signer s target t. Refused by 13: `start` over 1,
 * `signers` not 1 to 32, `targets` not 1 to 64, a bit set in a row from `signers` on or for a target from `targets`
 * on. */
typedef union galmuvesh_policy {
    uint64_t words[35];
    GALMUVESH_BY_NAME {
        uint64_t start, signers, targets, rows[32];
    };
} galmuvesh_policy;

/* A frame of the walk: bit t of `enabled` and of `disabled` is its mark for target t. */
typedef struct galmuvesh_walk_frame {
    uint64_t signer, enabled, disabled;
} galmuvesh_walk_frame;

/* The stack as the walk sees it, frames[0] the oldest. Refused by 14: `depth` over 63, a frame's signer that the
 * policy does not have, a mark for a target that it does not have, anything but zero from frames[depth] on. */
typedef union galmuvesh_walk {
    uint64_t words[190];
    GALMUVESH_BY_NAME {
        uint64_t depth;
        galmuvesh_walk_frame frames[63];
    };
} galmuvesh_walk;

/* A frame of the belief record: bit k of lengths[t] says that it holds a chain of k frames on target t. */
typedef struct galmuvesh_record_frame {
    uint64_t signer, lengths[64];
} galmuvesh_record_frame;

/* The stack as the belief record keeps it, frames[0] the oldest. Refused by 14: as the walk, and a bit of frames[i]
 * for a chain longer than i. */
typedef union galmuvesh_record {
    uint64_t words[4096];
    GALMUVESH_BY_NAME {
        uint64_t depth;
        galmuvesh_record_frame frames[63];
    };
} galmuvesh_record;

/* All that a frame needs to know, to be passed by value: `own` is what it enabled itself and has not reverted or
 * disabled since, `callers` what its caller would have been granted at the call and it has not disabled since.
 * Refused by 14: `depth` over 63, a signer or a bit that the policy does not have, `callers` not zero at depth 1,
 * anything but zero at depth 0. */
typedef union galmuvesh_passed {
    uint64_t words[4];
    GALMUVESH_BY_NAME {
        uint64_t depth, signer, own, callers;
    };
} galmuvesh_passed;

/* A state of no frame, of any of the three kinds: `galmuvesh_walk walk = GALMUVESH_FRESH;` */
#define GALMUVESH_FRESH {{0}}

/* A layout other than the library's does not compile: an array cannot have -1 elements. */
#define GALMUVESH_HOLDS(name, fact) typedef char galmuvesh_holds_##name[(fact) ? 1 : -1]
GALMUVESH_HOLDS(policy_size, sizeof(galmuvesh_policy) == 8 * 35);
GALMUVESH_HOLDS(policy_signers, offsetof(galmuvesh_policy, signers) == 8 * 1);
GALMUVESH_HOLDS(policy_targets, offsetof(galmuvesh_policy, targets) == 8 * 2);
GALMUVESH_HOLDS(policy_rows, offsetof(galmuvesh_policy, rows) == 8 * 3);
GALMUVESH_HOLDS(policy_rows_size, sizeof(((galmuvesh_policy *)0)->rows) == 8 * 32);
GALMUVESH_HOLDS(walk_size, sizeof(galmuvesh_walk) == 8 * 190);
GALMUVESH_HOLDS(walk_frames, offsetof(galmuvesh_walk, frames) == 8 * 1);
GALMUVESH_HOLDS(walk_frames_size, sizeof(((galmuvesh_walk *)0)->frames) == 8 * 3 * 63);
GALMUVESH_HOLDS(walk_frame, sizeof(galmuvesh_walk_frame) == 8 * 3);
GALMUVESH_HOLDS(walk_enabled, offsetof(galmuvesh_walk_frame, enabled) == 8 * 1);
GALMUVESH_HOLDS(walk_disabled, offsetof(galmuvesh_walk_frame, disabled) == 8 * 2);
GALMUVESH_HOLDS(record_size, sizeof(galmuvesh_record) == 8 * 4096);
GALMUVESH_HOLDS(record_frames, offsetof(galmuvesh_record, frames) == 8 * 1);
GALMUVESH_HOLDS(record_frames_size, sizeof(((galmuvesh_record *)0)->frames) == 8 * 65 * 63);
GALMUVESH_HOLDS(record_frame, sizeof(galmuvesh_record_frame) == 8 * 65);
GALMUVESH_HOLDS(record_lengths, offsetof(galmuvesh_record_frame, lengths) == 8 * 1);
GALMUVESH_HOLDS(passed_size, sizeof(galmuvesh_passed) == 8 * 4);
GALMUVESH_HOLDS(passed_signer, offsetof(galmuvesh_passed, signer) == 8 * 1);
GALMUVESH_HOLDS(passed_own, offsetof(galmuvesh_passed, own) == 8 * 2);
GALMUVESH_HOLDS(passed_callers, offsetof(galmuvesh_passed, callers) == 8 * 3);
#undef GALMUVESH_HOLDS
#undef GALMUVESH_BY_NAME

/* Reads a policy from its `len` bytes, all of them. 0: `policy` is the value that they say. Else, tested in this
 * order, 1 for less than a header, 3 for a spare bit set in it, 1 for rows too short, 2 for bytes left over, 3 for a
 * padding bit set; `policy` is left alone. */
uint8_t galmuvesh_policy_read(const uint8_t *bytes, size_t len, uint64_t policy[35]);

/* How many of the `len` bytes at the front of a recording, which is a policy and then a trace, are the policy's by
 * its header: 2 + S * ceil(N / 8), and `len` where there are fewer than that or no whole header. It tests no bit;
 * reading the policy does. */
size_t galmuvesh_policy_cut(const uint8_t *bytes, size_t len);

/* Writes the one byte form of a policy at the front of a buffer of `room` bytes. 0: `figure` is the number of bytes
 * written, and those past it are left alone. Else 13 for a bad policy, 9 where the room is too short: `figure` is 0
 * and no byte is touched. GALMUVESH_POLICY_BYTES_MOST is always room enough. */
uint8_t galmuvesh_policy_write(const uint64_t policy[35], uint8_t *bytes, size_t room, uint64_t *figure);

/* Run a trace from a fresh start, by the walk, the belief record or the passed state. The trace is `len` bytes, two
 * to an operation word, the first the high one. 0: one answer byte for each word is written to `answers`, and
 * `figure` is the number of words. 13 for a bad policy, 1 for a trace of odd length and 9 for less room than one byte
 * a word, in this order: `figure` is 0 and no answer is touched. Else the run stops at its first refused word, by 4,
 * 3, 5, 6, 7 or 8: `figure` is the word's index, the answers before it stand, and those from it on are left alone.
 * Only the walk counts frames: by the other two an answer says 0 frames looked at. */
uint8_t galmuvesh_walk_run(const uint64_t policy[35], const uint8_t *trace, size_t len, uint8_t *answers, size_t room,
                           uint64_t *figure);
uint8_t galmuvesh_record_run(const uint64_t policy[35], const uint8_t *trace, size_t len, uint8_t *answers, size_t room,
                             uint64_t *figure);
uint8_t galmuvesh_passed_run(const uint64_t policy[35], const uint8_t *trace, size_t len, uint8_t *answers, size_t room,
                             uint64_t *figure);

/* Do one operation on a live state, by the walk or the belief record. 0: the state is the one after the operation,
 * and `answer` is the answer byte. Else, tested in this order, 13, 14, 4, 3, 5 or 6, 7, 8: the state and `answer` are
 * left alone. The functions below make the words. */
uint8_t galmuvesh_walk_operate(const uint64_t policy[35], uint64_t state[190], uint16_t word, uint8_t *answer);
uint8_t galmuvesh_record_operate(const uint64_t policy[35], uint64_t state[4096], uint16_t word, uint8_t *answer);

/* Do one operation on a passed state: after the call it is the callee's, after enable, disable and revert the same
 * frame's. 0: done. Else, tested in this order, 13, 14, 5 or 6, 7, 8: the state is left alone. There is no return:
 * the host passes a copy down with each call, and the caller's own is still there when the callee is done. A signer
 * over 31 is refused by 5 and a target over 63 by 6; but C itself cuts a number to the 8 bits of the parameter, so
 * test larger numbers before the call. */
uint8_t galmuvesh_passed_call(const uint64_t policy[35], uint64_t state[4], uint8_t signer);
uint8_t galmuvesh_passed_enable(const uint64_t policy[35], uint64_t state[4], uint8_t target);
uint8_t galmuvesh_passed_disable(const uint64_t policy[35], uint64_t state[4], uint8_t target);
uint8_t galmuvesh_passed_revert(const uint64_t policy[35], uint64_t state[4], uint8_t target);

/* Check a target by a passed state. 0: `answer` is the answer byte, granted or forbidden, with 0 frames looked at.
 * Else 13, 14, 6, 7, tested in this order, and `answer` is left alone. */
uint8_t galmuvesh_passed_check(const uint64_t policy[35], const uint64_t state[4], uint8_t target, uint8_t *answer);

/* Writes the derivation of a granted check of `target` by the newest frame of a walk state, at the front of a buffer
 * of `room` bytes. 0: `figure` is the number of steps, a byte each, and the bytes past them are left alone. Else 13,
 * 14, 6, 7, 12 where the check is forbidden, 9 where the room is too short, tested in this order: `figure` is 0 and
 * no byte is touched. GALMUVESH_STEPS_MOST is always room enough. */
uint8_t galmuvesh_derivation_write(const uint64_t policy[35], const uint64_t state[190], uint8_t target, uint8_t *steps,
                                   size_t room, uint64_t *figure);

/* Checks `len` steps against a policy, a walk state and a target: by the steps alone, whoever wrote them. 0: they are
 * a derivation, and the check is granted; `figure` is their number. 10: the step at index `figure` is not allowed.
 * Else 13, 14, 6, 7, which are tested before any step, or 11, after the last: `figure` is 0. Nothing but `figure` is
 * written. */
uint8_t galmuvesh_derivation_check(const uint64_t policy[35], const uint64_t state[190], uint8_t target,
                                   const uint8_t *steps, size_t len, uint64_t *figure);

/* An answer byte is a kind and the frames looked at: two bits and six. */
enum { GALMUVESH_KIND_DONE = 0, GALMUVESH_KIND_GRANTED = 1, GALMUVESH_KIND_FORBIDDEN = 2 };

static inline int galmuvesh_kind(uint8_t answer) { return answer >> 6; }
static inline int galmuvesh_looked(uint8_t answer) { return answer & 63; }
static inline int galmuvesh_granted(uint8_t answer) { return galmuvesh_kind(answer) == GALMUVESH_KIND_GRANTED; }

/* Operation words. A signer over 31 or a target over 63 has no place in a word: it makes GALMUVESH_NO_WORD, which
 * names no operation, so that the library refuses it by 4. Whether the policy has the signer or the target is tested
 * by the library. */
#define GALMUVESH_NO_WORD ((uint16_t)0xC000)

static inline uint16_t galmuvesh_word_of_target(unsigned operation, uint64_t target) {
    return target < GALMUVESH_TARGETS_MOST ? (uint16_t)(operation << 13 | (unsigned)target << 2) : GALMUVESH_NO_WORD;
}
static inline uint16_t galmuvesh_call(uint64_t signer) {
    return signer < GALMUVESH_SIGNERS_MOST ? (uint16_t)(signer << 8) : GALMUVESH_NO_WORD;
}
static inline uint16_t galmuvesh_return(void) { return 1 << 13; }
static inline uint16_t galmuvesh_enable(uint64_t target) { return galmuvesh_word_of_target(2, target); }
static inline uint16_t galmuvesh_disable(uint64_t target) { return galmuvesh_word_of_target(3, target); }
static inline uint16_t galmuvesh_revert(uint64_t target) { return galmuvesh_word_of_target(4, target); }
static inline uint16_t galmuvesh_check(uint64_t target) { return galmuvesh_word_of_target(5, target); }

/* Puts a word at its index into a trace, the high byte first. The trace has room for it. */
static inline void galmuvesh_trace_put(uint8_t *trace, size_t index, uint16_t word) {
    trace[2 * index] = (uint8_t)(word >> 8);
    trace[2 * index + 1] = (uint8_t)(word & 255);
}

/* What a number says, for a report to people. */
static inline const char *galmuvesh_refusal_name(uint8_t number) {
    switch (number) {
    case GALMUVESH_ACCEPTED: return "accepted";
    case GALMUVESH_TOO_FEW: return "bytes too few";
    case GALMUVESH_LEFT_OVER: return "bytes left over";
    case GALMUVESH_BIT_SET: return "a spare, padding or unused bit set";
    case GALMUVESH_UNKNOWN: return "operation 6 or 7";
    case GALMUVESH_NO_SIGNER: return "signer S or above";
    case GALMUVESH_NO_TARGET: return "target N or above";
    case GALMUVESH_NO_FRAME: return "no frame, and the operation is not call";
    case GALMUVESH_TOO_DEEP: return "call at depth 63";
    case GALMUVESH_NO_ROOM: return "lent buffer too short";
    case GALMUVESH_NOT_ALLOWED: return "derivation step not allowed";
    case GALMUVESH_NOT_EMPTY: return "no chain taken or chain not empty";
    case GALMUVESH_FORBIDDEN: return "derivation wanted for a forbidden check";
    case GALMUVESH_BAD_POLICY: return "policy value outside its range";
    case GALMUVESH_BAD_STATE: return "state value outside its range";
    default: return "no number of this library";
    }
}

#ifdef __cplusplus
}
#endif

#endif
