// A spin lock whose section logs the counter that it finds.
//
// Inputs: how often the hart enters the section, in which it adds 1 to the counter. Exits with how
// often it has.

#include "log.h"

static unsigned lock;
static unsigned counter;

unsigned main(unsigned hart, unsigned input, unsigned harts) {
  for (unsigned i = 0; i < input; i++) {
    while (__atomic_exchange_n(&lock, 1, __ATOMIC_ACQUIRE)) {
    }
    log_word(counter);
    counter = counter + 1;
    __atomic_store_n(&lock, 0, __ATOMIC_RELEASE);
  }
  return input;
}
