/* The host of the comparison. It reads requests, calls the library for each with buffers that have a guard on both
   sides, and writes back the answer, the later content of every buffer, and whether the guards are as they were. */
#define _DEFAULT_SOURCE
#include <galmuvesh.h>
#include <stdint.h>
#include <stdio.h>
#include <stdlib.h>
#include <string.h>
#include <sys/mman.h>

/* A page is 64 KiB at most on any machine that runs this, so that every fence lies on whole pages. */
enum { PAGE = 65536, BODY = 4 * PAGE, GUARD = 64, POLICY_WORDS = 35 };

/* How a byte buffer lies: 0 to 7 bytes off a multiple of 8, or against the no-access page behind or before it;
   or a null pointer where the length is 0. Word buffers keep to multiples of 8. */
enum { AT_END = 8, AT_START = 9, NULL_IF_EMPTY = 10 };

static void die(const char *why)
{
  fprintf(stderr, "host: %s\n", why);
  exit(2);
}

/* A lent buffer inside a body that no-access pages enclose. */
struct area {
  uint8_t *body, *at;
  size_t len, before, after;
};

static struct area policy, state, input, lent, figure, answer;

static void open_area(struct area *a)
{
  uint8_t *all = mmap(NULL, BODY + 2 * PAGE, PROT_NONE, MAP_PRIVATE | MAP_ANONYMOUS, -1, 0);
  if (all == MAP_FAILED || mprotect(all + PAGE, BODY, PROT_READ | PROT_WRITE) != 0)
    die("no memory");
  a->body = all + PAGE;
}

static size_t least(size_t a, size_t b) { return a < b ? a : b; }

static void lay(struct area *a, size_t len, unsigned place, unsigned shift, uint8_t mark)
{
  size_t off = place == AT_END ? BODY - len : place == AT_START ? 0 : GUARD + shift;
  if (len > BODY - 2 * GUARD)
    die("a buffer too long");
  a->at = a->body + off;
  a->len = len;
  a->before = least(off, GUARD);
  a->after = least(BODY - off - len, GUARD);
  memset(a->at - a->before, mark, a->before);
  memset(a->at + len, mark, a->after);
}

static int all_are(const uint8_t *bytes, size_t count, uint8_t mark)
{
  for (size_t i = 0; i < count; i++)
    if (bytes[i] != mark)
      return 0;
  return 1;
}

static int guarded(const struct area *a, uint8_t mark)
{
  return all_are(a->at - a->before, a->before, mark) && all_are(a->at + a->len, a->after, mark);
}

/* A batch of requests as it came, and what has been read of it. */
static uint8_t *batch;
static size_t batch_len, batch_at;

static const uint8_t *take(size_t count)
{
  if (count > batch_len - batch_at)
    die("a request cut short");
  batch_at += count;
  return batch + batch_at - count;
}

static uint64_t number(size_t bytes)
{
  uint64_t value = 0;
  memcpy(&value, take(bytes), bytes);
  return value;
}

/* The replies to a batch. */
static uint8_t *replies;
static size_t replies_len, replies_room;

static void give(const void *bytes, size_t count)
{
  if (replies_room - replies_len < count) {
    replies_room = 2 * (replies_len + count);
    replies = realloc(replies, replies_room);
    if (replies == NULL)
      die("no memory");
  }
  if (count > 0)
    memcpy(replies + replies_len, bytes, count);
  replies_len += count;
}

/* Words cross without the zeros at their end. */
static void take_words(struct area *a)
{
  size_t bytes = 8 * number(2);
  if (bytes > a->len)
    die("too many words");
  memcpy(a->at, take(bytes), bytes);
  memset(a->at + bytes, 0, a->len - bytes);
}

static void give_words(const struct area *a)
{
  const uint64_t *words = (const uint64_t *)(const void *)a->at;
  uint16_t count = (uint16_t)(a->len / 8);
  while (count > 0 && words[count - 1] == 0)
    count--;
  give(&count, 2);
  give(a->at, 8 * (size_t)count);
}

/* The functions by number, and the words of the state that each is lent. */
static const size_t state_words[] = {0, 0, 0, 0, 0, 0, 190, 4096, 4, 4, 4, 4, 4, 190, 190};

static uint64_t *words_of(const struct area *a) { return (uint64_t *)(void *)a->at; }

static uint8_t *bytes_of(const struct area *a, unsigned place)
{
  return a->len == 0 && place == NULL_IF_EMPTY ? NULL : a->at;
}

static uint8_t call(unsigned function, unsigned place, uint16_t argument)
{
  uint64_t *p = words_of(&policy), *s = words_of(&state), *f = words_of(&figure);
  uint8_t *in = bytes_of(&input, place), *out = bytes_of(&lent, place), low = (uint8_t)argument;
  switch (function) {
  case 0: return galmuvesh_policy_read(in, input.len, p);
  case 1: return galmuvesh_policy_write(p, out, lent.len, f);
  case 2: *f = galmuvesh_policy_cut(in, input.len); return 0;
  case 3: return galmuvesh_walk_run(p, in, input.len, out, lent.len, f);
  case 4: return galmuvesh_record_run(p, in, input.len, out, lent.len, f);
  case 5: return galmuvesh_passed_run(p, in, input.len, out, lent.len, f);
  case 6: return galmuvesh_walk_operate(p, s, argument, answer.at);
  case 7: return galmuvesh_record_operate(p, s, argument, answer.at);
  case 8: return galmuvesh_passed_call(p, s, low);
  case 9: return galmuvesh_passed_enable(p, s, low);
  case 10: return galmuvesh_passed_disable(p, s, low);
  case 11: return galmuvesh_passed_revert(p, s, low);
  case 12: return galmuvesh_passed_check(p, s, low, answer.at);
  case 13: return galmuvesh_derivation_write(p, s, low, out, lent.len, f);
  default: return galmuvesh_derivation_check(p, s, low, in, input.len, f);
  }
}

/* A lent buffer begins with bytes that both sides know, none equal to its neighbour. */
static void fill(struct area *a, uint8_t seed)
{
  for (size_t i = 0; i < a->len; i++)
    a->at[i] = (uint8_t)(seed + 29 * i);
}

/* What a request asks for, beside the contents of the buffers. */
struct request {
  unsigned function, place;
  uint8_t seed, mark;
  uint16_t argument;
  size_t room;
};

static struct request take_request(void)
{
  struct request r;
  r.function = (unsigned)number(1);
  r.place = (unsigned)number(1);
  r.seed = (uint8_t)number(1);
  r.mark = (uint8_t)~r.seed;
  r.argument = (uint16_t)number(2);
  r.room = number(4);
  if (r.function >= sizeof state_words / sizeof *state_words)
    die("no such function");
  return r;
}

static void lend(const struct request *r)
{
  unsigned shift = r->place < AT_END ? r->place : 0;
  lay(&policy, 8 * POLICY_WORDS, r->place, 0, r->mark);
  lay(&state, 8 * state_words[r->function], r->place, 0, r->mark);
  lay(&figure, 8, r->place, 0, r->mark);
  lay(&answer, 1, r->place, shift, r->mark);
  lay(&lent, r->room, r->place, shift, r->mark);
  fill(&figure, r->seed);
  fill(&answer, r->seed);
  fill(&lent, r->seed);
  take_words(&policy);
  take_words(&state);
}

static int all_guarded(uint8_t mark)
{
  return guarded(&policy, mark) && guarded(&state, mark) && guarded(&input, mark) && guarded(&lent, mark)
    && guarded(&figure, mark) && guarded(&answer, mark);
}

static void serve(void)
{
  struct request r = take_request();
  lend(&r);
  size_t len = number(4);
  const uint8_t *sent = take(len);
  lay(&input, len, r.place, r.place < AT_END ? r.place : 0, r.mark);
  memcpy(input.at, sent, len);

  uint8_t no = call(r.function, r.place, r.argument);
  uint8_t sound = all_guarded(r.mark) && memcmp(input.at, sent, len) == 0;
  uint32_t room = (uint32_t)lent.len;
  give(&no, 1);
  give(&sound, 1);
  give(answer.at, 1);
  give(figure.at, 8);
  give_words(&policy);
  give_words(&state);
  give(&room, 4);
  give(lent.at, lent.len);
}

static int read_batch(void)
{
  uint32_t len;
  if (fread(&len, 4, 1, stdin) != 1)
    return 0;
  free(batch);
  batch = malloc(len + 1UL);
  if (batch == NULL || fread(batch, 1, len, stdin) != len)
    die("a batch cut short");
  batch_len = len;
  batch_at = 0;
  return 1;
}

int main(void)
{
  struct area *areas[] = {&policy, &state, &input, &lent, &figure, &answer};
  for (size_t i = 0; i < sizeof areas / sizeof *areas; i++)
    open_area(areas[i]);
  while (read_batch()) {
    replies_len = 0;
    while (batch_at < batch_len)
      serve();
    uint32_t len = (uint32_t)replies_len;
    if (fwrite(&len, 4, 1, stdout) != 1 || fwrite(replies, 1, len, stdout) != len || fflush(stdout) != 0)
      die("replies not taken");
  }
  free(batch);
  free(replies);
  return 0;
}
