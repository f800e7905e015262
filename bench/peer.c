// The same routines in plain C, as one would write them by hand for speed: the layouts and the answers are the library's, and so are the
// algorithms (every refusal is tested, in document 01's order). The passed run calls itself at each call word.
#include "peer.h"

#include <stdbool.h>
#include <string.h>

enum { TOO_FEW = 1, BIT_SET = 3, UNKNOWN, NO_SIGNER, NO_TARGET, NO_FRAME, TOO_DEEP, NO_ROOM, NOT_ALLOWED, NOT_EMPTY, FORBIDDEN, BAD_POLICY, BAD_STATE };
enum { CALL, RETURN, ENABLE, DISABLE, REVERT, CHECK };
enum { YES = 64, NO = 128 };

struct policy { uint64_t start, signers, targets, rows[32]; };
struct marks { uint64_t signer, enabled, disabled; };
struct walk { uint64_t depth; struct marks frames[DEPTH_MOST]; };
struct held { uint64_t signer, lengths[64]; };
struct record { uint64_t depth; struct held frames[DEPTH_MOST]; };
struct passed { uint64_t depth, signer, own, callers; };

static uint64_t bit(unsigned t) { return (uint64_t)1 << t; }

// The bits at n and above, n from 1 to 64.
static uint64_t from(uint64_t n) { return n < 64 ? ~(uint64_t)0 << n : 0; }

static uint64_t any(const uint64_t *words, size_t n)
{
    uint64_t together = 0;
    for (size_t i = 0; i < n; i++)
        together |= words[i];
    return together;
}

static bool policy_valid(const struct policy *p)
{
    if (p->start > 1 || p->signers < 1 || p->signers > 32 || p->targets < 1 || p->targets > 64)
        return false;
    return !(any(p->rows, p->signers) & from(p->targets)) && !any(p->rows + p->signers, 32 - p->signers);
}

// The bits of a word that its operation does not use.
static const uint16_t unused[8] = { 0x00ff, 0x1fff, 0x1f03, 0x1f03, 0x1f03, 0x1f03 };

static unsigned operation(uint16_t word) { return word >> 13; }
static unsigned signer_of(uint16_t word) { return word >> 8 & 31; }
static unsigned target_of(uint16_t word) { return word >> 2 & 63; }

// 4, 3, 5 or 6, else 0.
static uint8_t word_refused(const struct policy *p, uint16_t word)
{
    unsigned op = operation(word);
    if (op > CHECK)
        return UNKNOWN;
    if (word & unused[op])
        return BIT_SET;
    if (op == CALL)
        return signer_of(word) < p->signers ? 0 : NO_SIGNER;
    return target_of(word) < p->targets ? 0 : NO_TARGET;
}

static uint64_t start_marks(const struct policy *p) { return p->start ? ~from(p->targets) : 0; }

static uint8_t run_refused(const struct policy *p, size_t len, size_t room)
{
    if (!policy_valid(p))
        return BAD_POLICY;
    if (len % 2)
        return TOO_FEW;
    return room < len / 2 ? NO_ROOM : 0;
}

static uint16_t word_at(const uint8_t *trace, size_t i) { return (uint16_t)(trace[2 * i] << 8 | trace[2 * i + 1]); }

// The walk.

static bool walk_valid(const struct policy *p, const struct walk *w)
{
    if (w->depth > DEPTH_MOST)
        return false;
    uint64_t marks = 0, bad = 0;
    for (size_t k = 0; k < w->depth; k++) {
        bad |= w->frames[k].signer >= p->signers;
        marks |= w->frames[k].enabled | w->frames[k].disabled;
    }
    if (bad || marks & from(p->targets))
        return false;
    return !any(&w->frames[0].signer + 3 * w->depth, 3 * (DEPTH_MOST - w->depth));
}

static uint8_t walk_check(const struct policy *p, const struct walk *w, unsigned target)
{
    uint64_t asked = bit(target);
    uint8_t looked = 0;
    for (size_t k = w->depth; k-- > 0;) {
        const struct marks *f = &w->frames[k];
        looked++;
        if (!(p->rows[f->signer] & asked))
            return NO + looked;
        if (f->enabled & asked)
            return YES + looked;
        if (f->disabled & asked)
            return NO + looked;
    }
    return NO + looked;
}

static uint8_t walk_serve(const struct policy *p, struct walk *w, uint16_t word, uint8_t *answer)
{
    uint8_t no = word_refused(p, word);
    if (no)
        return no;
    unsigned op = operation(word), target = target_of(word);
    if (op == CALL) {
        if (w->depth == DEPTH_MOST)
            return TOO_DEEP;
        w->frames[w->depth] = (struct marks){ signer_of(word), w->depth ? 0 : start_marks(p), 0 };
        w->depth++;
        *answer = 0;
        return 0;
    }
    if (!w->depth)
        return NO_FRAME;
    struct marks *f = &w->frames[w->depth - 1];
    *answer = 0;
    switch (op) {
    case RETURN: *f = (struct marks){ 0 }; w->depth--; break;
    case ENABLE: f->enabled |= bit(target); break;
    case DISABLE: f->enabled &= ~bit(target); f->disabled |= bit(target); break;
    case REVERT: f->enabled &= ~bit(target); break;
    default: *answer = walk_check(p, w, target);
    }
    return 0;
}

uint8_t c_walk_operate(const uint64_t *policy, uint64_t *state, uint16_t word, uint8_t *answer)
{
    const struct policy *p = (const struct policy *)policy;
    struct walk *w = (struct walk *)state;
    if (!policy_valid(p))
        return BAD_POLICY;
    if (!walk_valid(p, w))
        return BAD_STATE;
    return walk_serve(p, w, word, answer);
}

uint8_t c_walk_run(const uint64_t *policy, const uint8_t *trace, size_t len, uint8_t *answers, size_t room, uint64_t *figure)
{
    const struct policy *p = (const struct policy *)policy;
    struct walk state = { 0 };
    *figure = 0;
    uint8_t no = run_refused(p, len, room);
    for (size_t i = 0; !no && i < len / 2; i++) {
        *figure = i;
        no = walk_serve(p, &state, word_at(trace, i), &answers[i]);
    }
    if (!no)
        *figure = len / 2;
    return no;
}

// The belief record.

static bool record_valid(const struct policy *p, const struct record *r)
{
    if (r->depth > DEPTH_MOST)
        return false;
    for (size_t k = 0; k < r->depth; k++) {
        const struct held *f = &r->frames[k];
        if (f->signer >= p->signers || any(f->lengths, p->targets) & from(k + 1) || any(f->lengths + p->targets, 64 - p->targets))
            return false;
    }
    return !any(&r->frames[0].signer + 65 * r->depth, 65 * (DEPTH_MOST - r->depth));
}

// Tries each length held, the shortest first: the first frame that is not permitted ends it.
static uint8_t record_check(const struct policy *p, const struct record *r, unsigned target)
{
    uint64_t asked = bit(target), lengths = r->frames[r->depth - 1].lengths[target];
    for (size_t k = r->depth; k-- > 0; lengths >>= 1) {
        if (!(p->rows[r->frames[k].signer] & asked))
            return NO;
        if (lengths & 1)
            return YES;
    }
    return NO;
}

static void record_call(const struct policy *p, struct record *r, unsigned signer)
{
    struct held *f = &r->frames[r->depth];
    f->signer = signer;
    if (r->depth)
        for (size_t t = 0; t < 64; t++)
            f->lengths[t] = f[-1].lengths[t] << 1;
    else
        for (size_t t = 0; t < 64; t++)
            f->lengths[t] = p->start && t < p->targets;
    r->depth++;
}

static uint8_t record_serve(const struct policy *p, struct record *r, uint16_t word, uint8_t *answer)
{
    uint8_t no = word_refused(p, word);
    if (no)
        return no;
    unsigned op = operation(word), target = target_of(word);
    if (op == CALL) {
        if (r->depth == DEPTH_MOST)
            return TOO_DEEP;
        record_call(p, r, signer_of(word));
        *answer = 0;
        return 0;
    }
    if (!r->depth)
        return NO_FRAME;
    struct held *f = &r->frames[r->depth - 1];
    *answer = 0;
    switch (op) {
    case RETURN: memset(f, 0, sizeof *f); r->depth--; break;
    case ENABLE: f->lengths[target] |= 1; break;
    case DISABLE: f->lengths[target] = 0; break;
    case REVERT: f->lengths[target] &= ~(uint64_t)1; break;
    default: *answer = record_check(p, r, target);
    }
    return 0;
}

uint8_t c_record_operate(const uint64_t *policy, uint64_t *state, uint16_t word, uint8_t *answer)
{
    const struct policy *p = (const struct policy *)policy;
    struct record *r = (struct record *)state;
    if (!policy_valid(p))
        return BAD_POLICY;
    if (!record_valid(p, r))
        return BAD_STATE;
    return record_serve(p, r, word, answer);
}

uint8_t c_record_run(const uint64_t *policy, const uint8_t *trace, size_t len, uint8_t *answers, size_t room, uint64_t *figure)
{
    const struct policy *p = (const struct policy *)policy;
    struct record state = { 0 };
    *figure = 0;
    uint8_t no = run_refused(p, len, room);
    for (size_t i = 0; !no && i < len / 2; i++) {
        *figure = i;
        no = record_serve(p, &state, word_at(trace, i), &answers[i]);
    }
    if (!no)
        *figure = len / 2;
    return no;
}

// The passed state.

static bool passed_valid(const struct policy *p, const struct passed *s)
{
    if (s->depth == 0)
        return !(s->signer | s->own | s->callers);
    if (s->depth > DEPTH_MOST || s->signer >= p->signers || (s->own | s->callers) & from(p->targets))
        return false;
    return s->depth > 1 || !s->callers;
}

static uint64_t granted(const struct policy *p, const struct passed *s) { return p->rows[s->signer] & (s->own | s->callers); }

static struct passed callee(const struct policy *p, const struct passed *s, unsigned signer)
{
    if (!s->depth)
        return (struct passed){ 1, signer, start_marks(p), 0 };
    return (struct passed){ s->depth + 1, signer, 0, granted(p, s) };
}

static uint8_t verdict(const struct policy *p, const struct passed *s, unsigned target) { return granted(p, s) & bit(target) ? YES : NO; }

// 13, 14, 6 and 7, in the order of every operation with a target.
static uint8_t target_refused(const struct policy *p, const struct passed *s, uint8_t target)
{
    if (!policy_valid(p))
        return BAD_POLICY;
    if (!passed_valid(p, s))
        return BAD_STATE;
    if (target >= p->targets)
        return NO_TARGET;
    return s->depth ? 0 : NO_FRAME;
}

uint8_t c_passed_call(const uint64_t *policy, uint64_t *state, uint8_t signer)
{
    const struct policy *p = (const struct policy *)policy;
    struct passed *s = (struct passed *)state;
    if (!policy_valid(p))
        return BAD_POLICY;
    if (!passed_valid(p, s))
        return BAD_STATE;
    if (signer >= p->signers)
        return NO_SIGNER;
    if (s->depth == DEPTH_MOST)
        return TOO_DEEP;
    *s = callee(p, s, signer);
    return 0;
}

uint8_t c_passed_enable(const uint64_t *policy, uint64_t *state, uint8_t target)
{
    struct passed *s = (struct passed *)state;
    uint8_t no = target_refused((const struct policy *)policy, s, target);
    if (!no)
        s->own |= bit(target);
    return no;
}

uint8_t c_passed_disable(const uint64_t *policy, uint64_t *state, uint8_t target)
{
    struct passed *s = (struct passed *)state;
    uint8_t no = target_refused((const struct policy *)policy, s, target);
    if (!no) {
        s->own &= ~bit(target);
        s->callers &= ~bit(target);
    }
    return no;
}

uint8_t c_passed_revert(const uint64_t *policy, uint64_t *state, uint8_t target)
{
    struct passed *s = (struct passed *)state;
    uint8_t no = target_refused((const struct policy *)policy, s, target);
    if (!no)
        s->own &= ~bit(target);
    return no;
}

uint8_t c_passed_check(const uint64_t *policy, const uint64_t *state, uint8_t target, uint8_t *answer)
{
    const struct policy *p = (const struct policy *)policy;
    const struct passed *s = (const struct passed *)state;
    uint8_t no = target_refused(p, s, target);
    if (!no)
        *answer = verdict(p, s, target);
    return no;
}

struct left { size_t at; uint8_t number; bool back; };

static uint8_t refused_at(const struct policy *p, uint64_t depth, uint16_t word)
{
    uint8_t no = word_refused(p, word);
    if (no)
        return no;
    if (operation(word) == CALL)
        return depth == DEPTH_MOST ? TOO_DEEP : 0;
    return depth ? 0 : NO_FRAME;
}

static struct left frame_run(const struct policy *p, const uint8_t *trace, size_t words, uint8_t *answers, struct passed s, size_t i)
{
    while (i < words) {
        uint16_t word = word_at(trace, i);
        unsigned target = target_of(word);
        uint8_t no = refused_at(p, s.depth, word);
        if (no)
            return (struct left){ i, no, false };
        uint8_t *answer = &answers[i++];
        struct left left;
        *answer = 0;
        switch (operation(word)) {
        case CALL:
            left = frame_run(p, trace, words, answers, callee(p, &s, signer_of(word)), i);
            if (!left.back)
                return left;
            i = left.at;
            break;
        case RETURN: return (struct left){ i, 0, true };
        case ENABLE: s.own |= bit(target); break;
        case DISABLE: s.own &= ~bit(target); s.callers &= ~bit(target); break;
        case REVERT: s.own &= ~bit(target); break;
        default: *answer = verdict(p, &s, target);
        }
    }
    return (struct left){ i, 0, false };
}

uint8_t c_passed_run(const uint64_t *policy, const uint8_t *trace, size_t len, uint8_t *answers, size_t room, uint64_t *figure)
{
    const struct policy *p = (const struct policy *)policy;
    *figure = 0;
    uint8_t no = run_refused(p, len, room);
    if (no)
        return no;
    struct left left = frame_run(p, trace, len / 2, answers, (struct passed){ 0 }, 0);
    *figure = left.at;
    return left.number;
}

// Derivations. The chain is its length and a bit for each place that has spoken and for each that is the target.

static uint8_t derivation_refused(const struct policy *p, const struct walk *w, uint8_t target)
{
    if (!policy_valid(p))
        return BAD_POLICY;
    if (!walk_valid(p, w))
        return BAD_STATE;
    if (target >= p->targets)
        return NO_TARGET;
    return w->depth ? 0 : NO_FRAME;
}

uint8_t c_derivation_write(const uint64_t *policy, const uint64_t *state, uint8_t target, uint8_t *steps, size_t room, uint64_t *figure)
{
    const struct policy *p = (const struct policy *)policy;
    const struct walk *w = (const struct walk *)state;
    *figure = 0;
    uint8_t no = derivation_refused(p, w, target);
    if (no)
        return no;
    uint8_t found = walk_check(p, w, target);
    if (!(found & YES))
        return FORBIDDEN;
    size_t n = found & 63;
    if (room < 3 * n + 1)
        return NO_ROOM;
    steps[0] = (uint8_t)n;
    for (size_t k = 0; k < n; k++)
        steps[1 + k] = (uint8_t)(64 + k);
    for (size_t k = 0; k < n; k++)
        steps[1 + n + k] = (uint8_t)(128 + k);
    memset(steps + 1 + 2 * n, 192, n);
    *figure = 3 * n + 1;
    return 0;
}

struct chain { bool taken; uint8_t len; uint64_t spoken, done; };

static const struct marks *newest(const struct walk *w, size_t place) { return &w->frames[w->depth - 1 - place]; }

static bool take(const struct walk *w, uint64_t asked, struct chain *c, unsigned n)
{
    if (n < 1 || n > w->depth || !(newest(w, n - 1)->enabled & asked))
        return false;
    for (size_t k = 0; k + 1 < n; k++)
        if (newest(w, k)->disabled & asked)
            return false;
    *c = (struct chain){ true, (uint8_t)n, 0, 0 };
    return true;
}

static bool follow(const struct policy *p, const struct walk *w, uint64_t asked, struct chain *c, uint8_t step)
{
    unsigned place = step & 63;
    switch (step >> 6) {
    case 0:
        return take(w, asked, c, place);
    case 1:
        if (place >= c->len || (c->spoken | c->done) & bit(place))
            return false;
        c->spoken |= bit(place);
        return true;
    case 2:
        if (place >= c->len || c->done & bit(place) || !(c->spoken & bit(place)) || !(p->rows[newest(w, place)->signer] & asked))
            return false;
        c->done |= bit(place);
        return true;
    default:
        if (place || !c->len || !(c->done & bit(c->len - 1)))
            return false;
        c->len--;
        return true;
    }
}

uint8_t c_derivation_check(const uint64_t *policy, const uint64_t *state, uint8_t target, const uint8_t *steps, size_t len, uint64_t *figure)
{
    const struct policy *p = (const struct policy *)policy;
    const struct walk *w = (const struct walk *)state;
    struct chain c = { 0 };
    *figure = 0;
    uint8_t no = derivation_refused(p, w, target);
    if (no)
        return no;
    for (size_t i = 0; i < len; i++)
        if (!follow(p, w, bit(target), &c, steps[i])) {
            *figure = i;
            return NOT_ALLOWED;
        }
    if (!c.taken || c.len)
        return NOT_EMPTY;
    *figure = len;
    return 0;
}
