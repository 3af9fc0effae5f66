// The functions that GCC calls for atomics of 1, 2 and 8 bytes, where it has no instructions: loads
// and stores of 1 and 2 bytes are instructions. They are compiled together with the program.
//
// 1 and 2 bytes: the word around them is changed by LR and SC, so a store into another byte of the
// word, atomic or plain, isn't lost. The hart tries again after it.
//
// 8 bytes: under a lock, one for all. So no access of such an object may go past these functions.

typedef unsigned char u1;
typedef unsigned short u2;
typedef unsigned u4;
typedef unsigned long long u8;

static u4 lock;

static void acquire(void) {
  while (__atomic_exchange_n(&lock, 1, __ATOMIC_ACQUIRE)) {
  }
}

static void release(void) { __atomic_store_n(&lock, 0, __ATOMIC_RELEASE); }

// Puts `next` into a word if `*was` is there, and else that into `*was`; may also fail for nothing.
static _Bool replace(u4 *word, u4 *was, u4 next) {
  return __atomic_compare_exchange_n(word, was, next, 1, __ATOMIC_SEQ_CST, __ATOMIC_SEQ_CST);
}

// Puts `next` into a part of a word, of as many bits as `ones` has, if `was` is there, and leaves
// the rest of the word as it is. Returns what is there before.
static u4 exchange_part(volatile void *address, u4 ones, u4 was, u4 next) {
  u4 *word = (u4 *)((u4)address & ~3u);
  u4 shift = ((u4)address & 3) * 8;
  u4 whole = __atomic_load_n(word, __ATOMIC_RELAXED);
  while ((whole >> shift & ones) == was) {
    if (replace(word, &whole, (whole & ~(ones << shift)) | next << shift)) {
      break;
    }
  }
  return whole >> shift & ones;
}

_Bool __atomic_compare_exchange_1(volatile void *address, void *expected, u1 next, _Bool weak,
                                  int if_so, int if_not) {
  u1 was = *(u1 *)expected;
  *(u1 *)expected = exchange_part(address, 0xff, was, next);
  return *(u1 *)expected == was;
}

_Bool __atomic_compare_exchange_2(volatile void *address, void *expected, u2 next, _Bool weak,
                                  int if_so, int if_not) {
  u2 was = *(u2 *)expected;
  *(u2 *)expected = exchange_part(address, 0xffff, was, next);
  return *(u2 *)expected == was;
}

_Bool __atomic_compare_exchange_8(volatile void *address, void *expected, u8 next, _Bool weak,
                                  int if_so, int if_not) {
  acquire();
  u8 was = *(volatile u8 *)address;
  _Bool is_expected = was == *(u8 *)expected;
  if (is_expected) {
    *(volatile u8 *)address = next;
  }
  release();
  *(u8 *)expected = was;
  return is_expected;
}

u8 __atomic_load_8(const volatile void *address, int order) {
  acquire();
  u8 value = *(const volatile u8 *)address;
  release();
  return value;
}

void __atomic_store_8(volatile void *address, u8 value, int order) {
  acquire();
  *(volatile u8 *)address = value;
  release();
}

_Bool __atomic_is_lock_free(unsigned size, const volatile void *address) { return size <= 4; }

// The others, by these: `next` is computed from what `was` there, and is put if that still is.
#define FETCH(name, size, next)                                                                   \
  u##size __atomic_##name##_##size(volatile void *address, u##size value, int order) {            \
    volatile u##size *object = address;                                                           \
    u##size was = __atomic_load_n(object, __ATOMIC_SEQ_CST);                                      \
    while (!__atomic_compare_exchange_n(object, &was, next, 1, __ATOMIC_SEQ_CST,                  \
                                        __ATOMIC_SEQ_CST)) {                                      \
    }                                                                                             \
    return was;                                                                                   \
  }

#define FETCHES(size)                     \
  FETCH(exchange, size, value)            \
  FETCH(fetch_add, size, was + value)     \
  FETCH(fetch_sub, size, was - value)     \
  FETCH(fetch_and, size, was & value)     \
  FETCH(fetch_or, size, was | value)      \
  FETCH(fetch_xor, size, was ^ value)     \
  FETCH(fetch_nand, size, ~(was & value))

FETCHES(1)
FETCHES(2)
FETCHES(8)
