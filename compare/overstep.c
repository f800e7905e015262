/* A library that oversteps, to see that the comparison notices: linked with --wrap in front of galmuvesh_walk_run.
   FAULT says how. */
#include <stddef.h>
#include <stdint.h>

uint8_t __real_galmuvesh_walk_run(const uint64_t policy[35], const uint8_t *trace, size_t len, uint8_t *answers, size_t room, uint64_t *figure);
uint8_t __wrap_galmuvesh_walk_run(const uint64_t policy[35], const uint8_t *trace, size_t len, uint8_t *answers, size_t room, uint64_t *figure);

enum { WRITES_PAST_ROOM = 1, READS_PAST_TRACE, WRITES_POLICY, WRITES_UNANSWERED };

uint8_t __wrap_galmuvesh_walk_run(const uint64_t policy[35], const uint8_t *trace, size_t len, uint8_t *answers, size_t room, uint64_t *figure)
{
  uint8_t no = __real_galmuvesh_walk_run(policy, trace, len, answers, room, figure);
  if (FAULT == WRITES_PAST_ROOM && room > 0)
    answers[room] = (uint8_t)(answers[room] + 1);
  if (FAULT == READS_PAST_TRACE && len > 0)
    (void)*(const volatile uint8_t *)(trace + len);
  if (FAULT == WRITES_POLICY)
    ((uint64_t *)(uintptr_t)policy)[34] ^= 1;
  if (FAULT == WRITES_UNANSWERED && *figure < room)
    answers[*figure] = (uint8_t)(answers[*figure] + 1);
  return no;
}
