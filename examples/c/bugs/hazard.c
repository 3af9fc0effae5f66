// Hazard pointers (Michael): hart 0 writes a new object and makes it the current one, and may write
// an old object anew once no hart has announced that it reads it.
//
// The mistake: a reader announces the object that was current, and doesn't look whether it still
// is. Hart 0 may have asked before that, and be writing in it.
//
// Inputs: how often the hart writes, or reads. A reader with two different words stops at an
// EBREAK. Repaired by -DFIXED: the reader looks again after it has announced the object.
//
// Found by `campaign --inputs 3,3 --steps 1000 --schedule bursts:10` and `explore --inputs 2,1`.

#include <stdatomic.h>

#define HARTS 32

struct object {
  atomic_uint first, second;
};

static struct object objects[HARTS + 1];
static struct object *_Atomic current = objects;
static struct object *_Atomic announced[HARTS];

static int is_free(struct object *object, unsigned harts) {
  for (unsigned hart = 1; hart < harts; hart++) {
    if (announced[hart] == object) {
      return 0;
    }
  }
  return object != current;
}

// With one object more than harts, one is always free.
static void write(unsigned value, unsigned harts) {
  struct object *object = objects;
  while (!is_free(object, harts)) {
    object = object == &objects[harts] ? objects : object + 1;
  }
  object->first = value;
  object->second = value;
  current = object;
}

static void read(unsigned hart) {
  struct object *object = current;
  announced[hart] = object;
#ifdef FIXED
  while (current != object) {
    object = current;
    announced[hart] = object;
  }
#endif
  if (object->first != object->second) {
    __builtin_trap();
  }
  announced[hart] = 0;
}

unsigned main(unsigned hart, unsigned input, unsigned harts) {
  for (unsigned i = 1; i <= input; i++) {
    if (hart == 0) {
      write(i, harts);
    } else {
      read(hart);
    }
  }
  return 0;
}
