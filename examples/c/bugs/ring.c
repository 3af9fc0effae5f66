// A ring of two cells between hart 0, which puts, and hart 1, which takes.
//
// The mistake: hart 1 says that the cell is free, and then reads it. By then hart 0 may have filled
// it again.
//
// Inputs: how many values the hart puts, or takes, the same for both. A value that isn't the next
// one stops hart 1 at an EBREAK. Repaired by -DFIXED: the cell is read first.
//
// Found by `campaign --inputs 3,3 --steps 1000 --schedule bursts:10` and `explore --inputs 3,3`.

#include <stdatomic.h>

#define CELLS 2

static atomic_uint taken, filled, cells[CELLS];

static void put(unsigned value) {
  while (filled - taken == CELLS) {
  }
  cells[filled % CELLS] = value;
  filled++;
}

static unsigned take(void) {
  while (taken == filled) {
  }
#ifdef FIXED
  unsigned value = cells[taken % CELLS];
  taken++;
  return value;
#else
  unsigned place = taken++;
  return cells[place % CELLS];
#endif
}

unsigned main(unsigned hart, unsigned input) {
  for (unsigned i = 1; i <= input; i++) {
    if (hart == 0) {
      put(i);
    } else if (take() != i) {
      __builtin_trap();
    }
  }
  return 0;
}
