// A ticket lock with a first try that doesn't wait.
//
// The mistake: the try looks whether the next ticket is the one that is served, and then draws a
// ticket. Another hart that does the same has drawn that one, and both are in.
//
// Inputs: how often the hart enters the section. A hart that isn't alone there stops at an EBREAK.
// Repaired by -DFIXED: looking and drawing are one compare-and-swap.
//
// Found by `campaign --inputs 2,2 --steps 1000 --schedule even` and `explore --inputs 1,1`.

#include <stdatomic.h>

static atomic_uint next, served, inside;

// Draws a ticket if it is the one that is served; returns whether it has.
static int try(void) {
  unsigned ticket = served;
#ifdef FIXED
  return atomic_compare_exchange_strong(&next, &ticket, ticket + 1);
#else
  if (next != ticket) {
    return 0;
  }
  next++;
  return 1;
#endif
}

static void acquire(void) {
  if (try()) {
    return;
  }
  unsigned ticket = next++;
  while (served != ticket) {
  }
}

unsigned main(unsigned hart, unsigned input) {
  for (unsigned i = 0; i < input; i++) {
    acquire();
    if (inside++) {
      __builtin_trap();
    }
    inside--;
    served++;
  }
  return 0;
}
