// The deque of Chase and Lev: hart 0 puts items at the bottom and takes them there, the others
// steal them at the top.
//
// The mistake: hart 0 reads the top before it has moved the bottom. Others steal all in between,
// and it still takes the one at the bottom as one of several, without asking at the top.
//
// Inputs: for hart 0 how many items it puts, 0 to 8, before it takes them all; for the others how
// often they try to steal. A hart that gets an item which another had stops at an EBREAK. Repaired
// by -DFIXED: the bottom is moved first.
//
// Found by `campaign --inputs 2,4 --steps 1000 --schedule bursts:10` and `explore --inputs 2,2`.

#include <stdatomic.h>

#define MOST 8

static atomic_int top, bottom;
static atomic_uint items[MOST], seen[MOST + 1];

static void put(unsigned item) {
  items[bottom] = item;
  bottom++;
}

// Takes the item at the bottom; returns 0 if there is none.
static unsigned take(void) {
#ifdef FIXED
  int last = bottom - 1;
  bottom = last;
  int first = top;
#else
  int first = top;
  int last = bottom - 1;
  bottom = last;
#endif
  unsigned item = 0;
  if (first <= last) {
    item = items[last];
    if (first < last) {
      return item;
    }
    if (!atomic_compare_exchange_strong(&top, &first, first + 1)) {
      item = 0;
    }
  }
  bottom = last + 1;
  return item;
}

// Takes the item at the top; returns 0 if there is none, or another hart has taken it.
static unsigned steal(void) {
  int first = top;
  if (first >= bottom) {
    return 0;
  }
  unsigned item = items[first];
  return atomic_compare_exchange_strong(&top, &first, first + 1) ? item : 0;
}

static void check(unsigned item) {
  if (item != 0 && seen[item]++) {
    __builtin_trap();
  }
}

unsigned main(unsigned hart, unsigned input) {
  for (unsigned i = 1; i <= input; i++) {
    if (hart == 0) {
      put(i);
    } else {
      check(steal());
    }
  }
  for (unsigned i = 0; hart == 0 && i < input; i++) {
    check(take());
  }
  return 0;
}
