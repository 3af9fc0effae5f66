// A lock that is none: it is tested by one instruction and set by another, and another hart can come between.
//
// Inputs: how often the hart enters the section. In the section it adds 1 to `counter` by a plain read and write, so the counter is right in
// the end only where no two harts were in it at once. Exits with the counter; where it is wrong the hart stops at an EBREAK.

static unsigned lock, entered, done;
static volatile unsigned counter;

static void acquire(void) {
  while (__atomic_load_n(&lock, __ATOMIC_ACQUIRE)) {
  }
  __atomic_store_n(&lock, 1, __ATOMIC_RELAXED);
}

static void release(void) {
  __atomic_store_n(&lock, 0, __ATOMIC_RELEASE);
}

unsigned main(unsigned hart, unsigned input, unsigned harts) {
  for (unsigned i = 0; i < input; i++) {
    acquire();
    counter = counter + 1;
    release();
  }
  __atomic_fetch_add(&entered, input, __ATOMIC_RELAXED);
  __atomic_fetch_add(&done, 1, __ATOMIC_RELEASE);
  while (__atomic_load_n(&done, __ATOMIC_ACQUIRE) != harts) {
  }
  if (counter != __atomic_load_n(&entered, __ATOMIC_RELAXED)) {
    __builtin_trap();
  }
  return counter;
}
