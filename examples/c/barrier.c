// A barrier: the last hart that comes lets all go on, by turning the word that the others wait for.
//
// Inputs: the number of rounds, the same for each hart. In each round a hart writes the round's number into its slot, waits at the barrier,
// and looks at all slots: one that isn't of this round stops it at an EBREAK. Then it waits again, so that nobody writes while another
// looks. Exits with the number of rounds.

#define HARTS 32

static unsigned come, turn;
static volatile unsigned slots[HARTS];

static void wait(unsigned harts) {
  unsigned now = __atomic_load_n(&turn, __ATOMIC_RELAXED);
  if (__atomic_add_fetch(&come, 1, __ATOMIC_ACQ_REL) == harts) {
    __atomic_store_n(&come, 0, __ATOMIC_RELAXED);
    __atomic_store_n(&turn, now + 1, __ATOMIC_RELEASE);
  } else {
    while (__atomic_load_n(&turn, __ATOMIC_ACQUIRE) == now) {
    }
  }
}

unsigned main(unsigned hart, unsigned rounds, unsigned harts) {
  for (unsigned round = 1; round <= rounds; round++) {
    slots[hart] = round;
    wait(harts);
    for (unsigned other = 0; other < harts; other++) {
      if (slots[other] != round) {
        __builtin_trap();
      }
    }
    wait(harts);
  }
  return rounds;
}
