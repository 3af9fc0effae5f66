// A loop that counts its rounds while it waits, and says `pause` in each of them.
//
// Inputs: that of hart 0 is how often it adds 1 to `work` before it lets the others go on; theirs aren't read. Hart 0 exits with `work`, the
// others with their rounds. By priorities a hart that comes back to the same registers gives way to those below it. One that counts never
// comes back to the same, so where it doesn't say `pause`, by -DNO_PAUSE, it waits to the end of the run for a hart 0 that is below it.

static unsigned ready;
static volatile unsigned work;

static void pause(void) {
#ifndef NO_PAUSE
  asm volatile (".word 0x0100000f");
#endif
}

unsigned main(unsigned hart, unsigned input, unsigned harts) {
  unsigned rounds = 0;
  if (hart == 0) {
    for (unsigned i = 0; i < input; i++) {
      work = work + 1;
    }
    __atomic_store_n(&ready, 1, __ATOMIC_RELEASE);
    return work;
  }
  while (!__atomic_load_n(&ready, __ATOMIC_ACQUIRE)) {
    rounds++;
    pause();
  }
  return rounds;
}
