// The queue lock of Mellor-Crummey and Scott, released by swaps alone, as they have it for machines
// without compare-and-swap.
//
// The mistake: a hart that finds none behind it takes the queue away, sees by what it took that
// others have come, and puts the queue back. It doesn't ask whether one has come in between, found
// no queue, and so has the lock; it hands the lock to the one behind it too.
//
// Inputs: how often the hart enters the section. A hart that isn't alone there stops at an EBREAK.
// Repaired by -DFIXED: those who came in between are put before the one behind it.
//
// Found by `campaign --inputs 2,2,2 --steps 2000 --schedule bursts:3` and `explore --inputs 1,1,1`.

#include <stdatomic.h>

#define HARTS 32

struct node {
  struct node *_Atomic next;
  atomic_uint waits;
};

static struct node nodes[HARTS];
static struct node *_Atomic tail;
static atomic_uint inside;

static void acquire(struct node *me) {
  me->next = 0;
  me->waits = 1;
  struct node *before = atomic_exchange(&tail, me);
  if (before) {
    before->next = me;
    while (me->waits) {
    }
  }
}

static void release(struct node *me) {
  if (!me->next) {
    struct node *last = atomic_exchange(&tail, 0);
    if (last == me) {
      return;
    }
#ifdef FIXED
    struct node *usurper = atomic_exchange(&tail, last);
    while (!me->next) {
    }
    if (usurper) {
      usurper->next = me->next;
      return;
    }
#else
    tail = last;
    while (!me->next) {
    }
#endif
  }
  me->next->waits = 0;
}

unsigned main(unsigned hart, unsigned input) {
  for (unsigned i = 0; i < input; i++) {
    acquire(&nodes[hart]);
    if (inside++) {
      __builtin_trap();
    }
    inside--;
    release(&nodes[hart]);
  }
  return 0;
}
