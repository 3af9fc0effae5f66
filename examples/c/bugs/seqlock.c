// A sequence lock: hart 0 counts before and after it writes a pair of words, the others read the
// pair again if the count has changed meanwhile.
//
// The mistake: a reader asks whether the count is the same, and not whether it was even. Where it
// reads all within one write, the count is odd and stays it.
//
// Inputs: how often the hart writes, or reads. A reader with two different words stops at an
// EBREAK. Repaired by -DFIXED: an odd count is read again too.
//
// Found by `campaign --inputs 2,2 --steps 1000 --schedule bursts:3` and `explore --inputs 1,1`.

#include <stdatomic.h>

static atomic_uint count, first, second;

static void write(unsigned value) {
  count++;
  first = value;
  second = value;
  count++;
}

static void read(void) {
  unsigned before, one, two;
  do {
    before = count;
    one = first;
    two = second;
#ifdef FIXED
  } while (before % 2 != 0 || count != before);
#else
  } while (count != before);
#endif
  if (one != two) {
    __builtin_trap();
  }
}

unsigned main(unsigned hart, unsigned input) {
  for (unsigned i = 1; i <= input; i++) {
    if (hart == 0) {
      write(i);
    } else {
      read();
    }
  }
  return 0;
}
