// A mailbox for one letter, of two words: hart 0 takes letters out, the others put them in.
//
// The mistake: a sender looks whether the box is empty, and then claims it. Another sender that has
// looked too claims it as well, and they write one letter together, or one over the other.
//
// Inputs: how many letters the hart sends; for hart 0 how many it takes. It stops at an EBREAK
// where a letter's words don't belong together, or aren't the next ones of their sender. Repaired
// by -DFIXED: looking and claiming are one compare-and-swap.
//
// Found by `campaign --inputs 4,2,2 --steps 3000 --schedule even` and `explore --inputs 2,1,1`.

#include <stdatomic.h>

#define HARTS 32

enum { EMPTY, CLAIMED, FULL };

static atomic_uint box, sender, letter;

static void claim(void) {
#ifdef FIXED
  unsigned empty = EMPTY;
  while (!atomic_compare_exchange_strong(&box, &empty, CLAIMED)) {
    empty = EMPTY;
  }
#else
  while (box != EMPTY) {
  }
  box = CLAIMED;
#endif
}

static void send(unsigned hart, unsigned number) {
  claim();
  sender = hart;
  letter = hart * 256 + number;
  box = FULL;
}

static void take(unsigned *number) {
  while (box != FULL) {
  }
  unsigned hart = sender;
  if (letter != hart * 256 + ++number[hart]) {
    __builtin_trap();
  }
  box = EMPTY;
}

unsigned main(unsigned hart, unsigned input) {
  static unsigned number[HARTS];
  for (unsigned i = 1; i <= input; i++) {
    if (hart == 0) {
      take(number);
    } else {
      send(hart, i);
    }
  }
  return 0;
}
