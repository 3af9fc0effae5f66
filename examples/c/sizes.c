// Atomics of 1, 2 and 8 bytes, by the functions of atomics.c.
//
// Inputs: how often the hart adds, together less than 256. It adds 1 to a byte, to a half in the
// same word and to both words of 8 bytes. Hart 0 also stores another byte of that word, as plain
// bytes are stored. A hart stops at an EBREAK where that byte isn't as it was stored, where the two
// words of the 8 bytes differ, or where in the end a sum isn't that of all inputs. Exits with it.

static struct {
  unsigned char plain, byte;
  unsigned short half;
} parts;
static unsigned long long wide;
static unsigned entered, done;

static void add_to_half(void) {
  unsigned short was = __atomic_load_n(&parts.half, __ATOMIC_RELAXED);
  while (!__atomic_compare_exchange_n(&parts.half, &was, was + 1, 0, __ATOMIC_RELAXED,
                                      __ATOMIC_RELAXED)) {
  }
}

// The word that both halves of the 8 bytes are.
static unsigned both(void) {
  unsigned long long now = __atomic_load_n(&wide, __ATOMIC_RELAXED);
  if ((unsigned)now != (unsigned)(now >> 32)) {
    __builtin_trap();
  }
  return now;
}

static void store_plain(unsigned char value) {
  *(volatile unsigned char *)&parts.plain = value;
  both();
  if (*(volatile unsigned char *)&parts.plain != value) {
    __builtin_trap();
  }
}

unsigned main(unsigned hart, unsigned input, unsigned harts) {
  for (unsigned i = 1; i <= input; i++) {
    if (hart == 0) {
      store_plain(i);
    }
    __atomic_fetch_add(&parts.byte, 1, __ATOMIC_RELAXED);
    add_to_half();
    __atomic_fetch_add(&wide, 0x100000001, __ATOMIC_RELAXED);
  }
  __atomic_fetch_add(&entered, input, __ATOMIC_RELAXED);
  __atomic_fetch_add(&done, 1, __ATOMIC_RELEASE);
  while (__atomic_load_n(&done, __ATOMIC_ACQUIRE) != harts) {
  }
  unsigned sum = __atomic_load_n(&entered, __ATOMIC_RELAXED);
  if (parts.byte != sum || parts.half != sum || both() != sum) {
    __builtin_trap();
  }
  return sum;
}
