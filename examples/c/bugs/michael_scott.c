// The queue of Michael and Scott. A hart that takes a value gets the node before it, and puts its
// next value into that node. Each word that names a node has a tag beside it.
//
// The mistake: the value is read from its node after the head has moved there. By then another hart
// may have moved the head on, got that node, and put a value of its own into it.
//
// Inputs: how many values the hart puts, 0 to 7; after each it takes one. A hart that finds no
// value, or takes one a second time, stops at an EBREAK. Repaired by -DFIXED: the value is read
// first, and is the right one if the head can still be moved.
//
// Found by `campaign --inputs 2,2 --steps 2000 --schedule bursts:30` and `explore --inputs 2,1`.

#include <stdatomic.h>

#define HARTS 32
#define MOST 8

// Nodes are numbered from 1, and 0 is none. The first is in the queue, the others are the harts'.
static struct {
  atomic_uint next, value;
} nodes[HARTS + 2];
static atomic_uint head = 1, tail = 1, seen[HARTS * MOST];

// Names a node in a word, with the next tag, if the word is as it was; returns whether it is.
static int replace(atomic_uint *word, unsigned was, unsigned node) {
  return atomic_compare_exchange_strong(word, &was, (was / 256 + 1) * 256 + node);
}

static void put(unsigned node, unsigned value) {
  nodes[node].value = value;
  replace(&nodes[node].next, nodes[node].next, 0);
  for (;;) {
    unsigned last = tail, next = nodes[last % 256].next;
    if (next % 256 != 0) {
      replace(&tail, last, next % 256);
    } else if (last == tail && replace(&nodes[last % 256].next, next, node)) {
      replace(&tail, last, node);
      return;
    }
  }
}

// Takes a value, and gives the hart the node before it. Returns 0 if there is none.
static unsigned take(unsigned *node) {
  for (;;) {
    unsigned first = head, last = tail, next = nodes[first % 256].next % 256;
    if (first != head) {
      continue;
    }
    if (first % 256 == last % 256) {
      if (next == 0) {
        return 0;
      }
      replace(&tail, last, next);
      continue;
    }
    *node = first % 256;
#ifdef FIXED
    unsigned value = nodes[next].value;
    if (replace(&head, first, next)) {
      return value;
    }
#else
    if (replace(&head, first, next)) {
      return nodes[next].value;
    }
#endif
  }
}

unsigned main(unsigned hart, unsigned input) {
  unsigned node = hart + 2;
  for (unsigned i = 1; i <= input; i++) {
    put(node, hart * MOST + i);
    unsigned value = take(&node);
    if (value == 0 || seen[value]++) {
      __builtin_trap();
    }
  }
  return 0;
}
