// A bounded queue for any number of harts that put and take, without a lock (Vyukov). A cell's turn says what comes next in it: `place` that
// it may be filled by the hart that has drawn this place, `place + 1` that it is full, `place + CELLS` that it may be filled again.
//
// Inputs: how many values the hart puts, 0 to 8; after each it takes one. The values of all harts differ, and each must be taken once: a hart
// that takes one a second time stops at an EBREAK, and so does a hart one of whose values nobody has taken in the end. Exits with the number
// of values that all have taken.

#define HARTS 32
#define MOST 8
#define CELLS 32 // a power of 2, and no less than the number of harts

static struct {
  unsigned turn, value;
} cells[CELLS];
static unsigned head, tail, ready, taken, done, seen[HARTS * MOST];

// Waits for the turn `place + ahead` of the cell that the next place stands for, and draws that place.
static unsigned draw(unsigned *next, unsigned ahead) {
  unsigned place = __atomic_load_n(next, __ATOMIC_RELAXED);
  for (;;) {
    unsigned turn = __atomic_load_n(&cells[place % CELLS].turn, __ATOMIC_ACQUIRE);
    if (turn == place + ahead && __atomic_compare_exchange_n(next, &place, place + 1, 1, __ATOMIC_RELAXED, __ATOMIC_RELAXED)) {
      return place;
    }
    place = __atomic_load_n(next, __ATOMIC_RELAXED);
  }
}

static void put(unsigned value) {
  unsigned place = draw(&tail, 0);
  cells[place % CELLS].value = value;
  __atomic_store_n(&cells[place % CELLS].turn, place + 1, __ATOMIC_RELEASE);
}

static unsigned take(void) {
  unsigned place = draw(&head, 1);
  unsigned value = cells[place % CELLS].value;
  __atomic_store_n(&cells[place % CELLS].turn, place + CELLS, __ATOMIC_RELEASE);
  return value;
}

// Hart 0 gives each cell its first turn; the others wait for that.
static void begin(unsigned hart) {
  if (hart == 0) {
    for (unsigned cell = 0; cell < CELLS; cell++) {
      cells[cell].turn = cell;
    }
    __atomic_store_n(&ready, 1, __ATOMIC_RELEASE);
  }
  while (!__atomic_load_n(&ready, __ATOMIC_ACQUIRE)) {
  }
}

unsigned main(unsigned hart, unsigned input, unsigned harts) {
  begin(hart);
  for (unsigned i = 0; i < input; i++) {
    put(hart * MOST + i);
    if (__atomic_fetch_add(&seen[take()], 1, __ATOMIC_RELAXED)) {
      __builtin_trap();
    }
    __atomic_fetch_add(&taken, 1, __ATOMIC_RELAXED);
  }
  __atomic_fetch_add(&done, 1, __ATOMIC_RELEASE);
  while (__atomic_load_n(&done, __ATOMIC_ACQUIRE) != harts) {
  }
  for (unsigned i = 0; i < input; i++) {
    if (__atomic_load_n(&seen[hart * MOST + i], __ATOMIC_RELAXED) != 1) {
      __builtin_trap();
    }
  }
  return __atomic_load_n(&taken, __ATOMIC_RELAXED);
}
