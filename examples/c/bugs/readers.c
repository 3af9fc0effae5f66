// A lock for one writer, hart 0, or any number of readers.
//
// The mistake: a reader looks whether the writer is there, and then counts itself. The writer, if
// it comes in between, finds no reader, and both are in.
//
// Inputs: how often the hart writes, or reads. A reader with two different words stops at an
// EBREAK. Repaired by -DFIXED: a reader counts itself first, then looks, and takes itself back
// where the writer is there.
//
// Found by `campaign --inputs 2,2 --steps 1000 --schedule even` and `explore --inputs 1,1`.

#include <stdatomic.h>

static atomic_uint writes, readers, first, second;

static void write(unsigned value) {
  writes = 1;
  while (readers) {
  }
  first = value;
  second = value;
  writes = 0;
}

static void begin_read(void) {
#ifdef FIXED
  readers++;
  while (writes) {
    readers--;
    while (writes) {
    }
    readers++;
  }
#else
  while (writes) {
  }
  readers++;
#endif
}

static void read(void) {
  begin_read();
  if (first != second) {
    __builtin_trap();
  }
  readers--;
}

unsigned main(unsigned hart, unsigned input) {
  for (unsigned i = 1; i <= input; i++) {
    if (hart == 0) {
      write(i);
    } else {
      read();
    }
  }
  return 0;
}
