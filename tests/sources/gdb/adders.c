// Harts add to one counter without a lock, so additions get lost; each has a byte of its own beside it.
//
// Inputs: how often the hart adds. With two harts it stops at an EBREAK where an addition was lost.
volatile unsigned counter;
volatile unsigned char bytes[4];
unsigned done;

static unsigned once(unsigned old, unsigned by) {
  unsigned sum = old + by;
  return sum;
}

static void add(unsigned hart) {
  unsigned seen = counter;
  unsigned next = once(seen, 1);
  counter = next;
  bytes[hart] = next;
}

unsigned main(unsigned hart, unsigned input, unsigned harts) {
  for (unsigned i = 0; i < input; i++) {
    add(hart);
  }
  __atomic_fetch_add(&done, 1, __ATOMIC_SEQ_CST);
  while (__atomic_load_n(&done, __ATOMIC_SEQ_CST) != harts) {
  }
  if (counter != input + input) {
    __asm__ volatile("ebreak");
  }
  return counter;
}
