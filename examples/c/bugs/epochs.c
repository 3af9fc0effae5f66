// Epochs: a reader announces the epoch in which it reads. Hart 0 writes a new object and makes it
// the current one; it begins an epoch where all who read have announced the present one, and writes
// an old object anew once epochs have passed since it was current.
//
// The mistake: hart 0 waits for one epoch. A reader of the epoch in which the object was replaced
// doesn't keep the next one from beginning.
//
// Inputs: how often the hart writes, or reads. A reader with two different words stops at an
// EBREAK. Repaired by -DFIXED: hart 0 waits for two.
//
// Found by `campaign --inputs 3,3 --steps 2000 --schedule bursts:30` and `explore --inputs 2,1`.

#include <stdatomic.h>

#define HARTS 32

#ifdef FIXED
#define WAIT 2
#else
#define WAIT 1
#endif

static struct {
  atomic_uint first, second, replaced; // the last is the epoch
} objects[2];
// A hart that doesn't read has announced 0.
static atomic_uint epoch = WAIT, current, announced[HARTS];

static void next_epoch(unsigned harts) {
  for (unsigned hart = 1; hart < harts; hart++) {
    unsigned of_hart = announced[hart];
    if (of_hart != 0 && of_hart != epoch) {
      return;
    }
  }
  epoch++;
}

static void write(unsigned value, unsigned harts) {
  unsigned old = current;
  unsigned object = 1 - old;
  while (epoch - objects[object].replaced < WAIT) {
    next_epoch(harts);
  }
  objects[object].first = value;
  objects[object].second = value;
  current = object;
  objects[old].replaced = epoch;
}

static void read(unsigned hart) {
  announced[hart] = epoch;
  unsigned object = current;
  if (objects[object].first != objects[object].second) {
    __builtin_trap();
  }
  announced[hart] = 0;
}

unsigned main(unsigned hart, unsigned input, unsigned harts) {
  for (unsigned i = 1; i <= input; i++) {
    if (hart == 0) {
      write(i, harts);
    } else {
      read(hart);
    }
  }
  return 0;
}
