// The queue lock of Craig, and of Landin and Hagersten: a hart waits at the node of the one before
// it, and takes that node for its own once it has the lock.
//
// The mistake: the hart's node says only after the hart has queued that the lock is held. One that
// queues behind it in between reads that it isn't, and goes in.
//
// Inputs: how often the hart enters the section. A hart that isn't alone there stops at an EBREAK.
// Repaired by -DFIXED: the two statements in the other order.
//
// Found by `campaign --inputs 2,2 --steps 1000 --schedule bursts:3` and `explore --inputs 1,1`.

#include <stdatomic.h>

#define HARTS 32

static atomic_uint held[HARTS + 1];
static atomic_uint *_Atomic tail = &held[HARTS];
static atomic_uint inside;

// Waits for the lock; returns the node that the hart has next.
static atomic_uint *acquire(atomic_uint *me) {
#ifdef FIXED
  *me = 1;
  atomic_uint *before = atomic_exchange(&tail, me);
#else
  atomic_uint *before = atomic_exchange(&tail, me);
  *me = 1;
#endif
  while (*before) {
  }
  return before;
}

unsigned main(unsigned hart, unsigned input) {
  atomic_uint *me = &held[hart];
  for (unsigned i = 0; i < input; i++) {
    atomic_uint *before = acquire(me);
    if (inside++) {
      __builtin_trap();
    }
    inside--;
    *me = 0;
    me = before;
  }
  return 0;
}
