// A stack without a lock (Treiber): the word of the topmost node has a tag that counts the nodes
// taken, so that a hart doesn't mistake a node that came back for one that never left.
//
// The mistake: the tag has one bit. A hart reads the topmost node and the one below it; another
// takes both and puts the upper one back, and the tag is as it was. The first hart makes the lower
// node the topmost, which the other has.
//
// Inputs: how often the hart takes two nodes and puts them back. A hart that takes a node which
// another has stops at an EBREAK. Repaired by -DFIXED: a tag of 24 bits.
//
// Found by `campaign --inputs 2,2 --steps 2000 --schedule bursts:30` and `explore --inputs 1,1`.

#include <stdatomic.h>

#ifdef FIXED
#define TAGS (1u << 24)
#else
#define TAGS (1u << 1)
#endif

// Nodes are numbered from 1, and 0 is none. At first each lies on the next.
static atomic_uint below[] = {0, 2, 3, 0};
static atomic_uint had[4];
static atomic_uint top = 1;

static unsigned tagged(unsigned node, unsigned tag) { return node % 256 + tag % TAGS * 256; }

static unsigned take(void) {
  unsigned was = top;
  while (was % 256 != 0) {
    unsigned node = was % 256;
    if (atomic_compare_exchange_strong(&top, &was, tagged(below[node], was / 256 + 1))) {
      if (had[node]++) {
        __builtin_trap();
      }
      return node;
    }
  }
  return 0;
}

static void put(unsigned node) {
  if (node == 0) {
    return;
  }
  had[node]--;
  unsigned was = top;
  do {
    below[node] = was % 256;
  } while (!atomic_compare_exchange_strong(&top, &was, tagged(node, was / 256)));
}

unsigned main(unsigned hart, unsigned input) {
  for (unsigned i = 0; i < input; i++) {
    unsigned upper = take();
    unsigned lower = take();
    put(upper);
    put(lower);
  }
  return 0;
}
