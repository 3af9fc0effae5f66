// A barrier that reverses its sense: the last hart that comes turns the word that the others wait
// for, which is the other way round in the next phase.
//
// The mistake: a hart adds itself to those who have come, and then reads how many they are. Two can
// both read that they are the last, both turn the word, and one that has gone on and waits in the
// next phase is let through without the other.
//
// Inputs: the number of rounds, the same for each hart. In each a hart writes the round's number
// into its slot and waits; where another hart's slot is of an earlier round it stops at an EBREAK.
// Repaired by -DFIXED: the addition itself says how many have come.
//
// Found by `campaign --inputs 3,3 --steps 2000 --schedule bursts:3` and `explore --inputs 2,2`.

#include <stdatomic.h>

#define HARTS 32

static atomic_uint come, sense, slots[HARTS];

static void wait(unsigned mine, unsigned harts) {
#ifdef FIXED
  unsigned number = atomic_fetch_add(&come, 1) + 1;
#else
  come++;
  unsigned number = come;
#endif
  if (number == harts) {
    come = 0;
    sense = !sense;
  } else {
    while (sense != mine) {
    }
  }
}

unsigned main(unsigned hart, unsigned rounds, unsigned harts) {
  for (unsigned round = 1; round <= rounds; round++) {
    slots[hart] = round;
    wait(round % 2, harts);
    for (unsigned other = 0; other < harts; other++) {
      if (slots[other] < round) {
        __builtin_trap();
      }
    }
  }
  return 0;
}
