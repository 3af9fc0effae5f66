// The proved module from JavaScript: bytes into its memory, a call, and bytes out. The worker of the
// page and tests/page use this file.

// What stands in a call's output, by the number of its answer (crates/page/src/answer.rt).
const ANSWER_KINDS = ['answered', 'refused', 'no room', 'no memory', 'unasked'];
// The parts of an answer in memory: its size, and where its status and its kind are.
const ANSWER = { size: 16, status: 8, kind: 12 };
// A heap's memory and each slice begin at a multiple of this.
const UNIT = 16;
// A quarter of the module's memory is a call's output where nothing else is said.
const OUTPUT_SHARE = 1 / 4;
// The numbers of rules and of views (crates/page/specs/Asked.antt).
const RULE_NUMBERS = { none: 0, swap: 1, add: 2, lrsc: 3, adopt: 4, rounds: 5 };
const VIEW_NUMBERS = { listing: 0, facts: 1 };
// The numbers of orders and of reports (crates/page/src/seeds.rt).
const ORDER_NUMBERS = { even: 0, bursts: 1, priorities: 2, mixed: 3 };
const REPORT_NUMBERS = { lines: 0, failures: 1, summary: 2, outcomes: 3, causes: 4 };

/** A struct's fields one after another: those of 8 bytes, which are BigInts, and then those of 4. */
function packed(wide, words) {
  const view = new DataView(new ArrayBuffer(8 * wide.length + 8 * Math.ceil(words.length / 2)));
  wide.forEach((it, index) => view.setBigUint64(8 * index, BigInt(it), true));
  words.forEach((it, index) => view.setUint32(8 * wide.length + 4 * index, it, true));
  return new Uint8Array(view.buffer);
}

/** How a seed draws: its order, with a number where that has one, and one refusal in so many, or none for 0. */
const drawWords = ({ order, number, oneIn }) => [ORDER_NUMBERS[order], number, oneIn];

const alignedUp = (number) => Math.ceil(number / UNIT) * UNIT;
const alignedDown = (number) => Math.floor(number / UNIT) * UNIT;

/** Gives out the memory of one instance, from its first free byte on. */
class Room {
  constructor({ memory, __heap_base: base }) {
    this.buffer = memory.buffer;
    this.next = alignedUp(Number(base.value));
  }

  get left() {
    return alignedDown(this.buffer.byteLength - this.next);
  }

  take(size) {
    if (size > this.left) throw new RangeError(`the module has ${this.left} bytes left, and ${size} are asked for`);
    const at = this.next;
    this.next += alignedUp(size);
    return at;
  }

  /** Puts bytes or words there, and gives them as a call takes a slice: its address and its length. */
  put(items) {
    const at = this.take(items.byteLength);
    new items.constructor(this.buffer, at, items.length).set(items);
    return [BigInt(at), BigInt(items.length)];
  }
}

/**
 * The module's calls. Each call has a new instance, and with it new memory: what it gives the heap it never takes back.
 * `room` is how long an output may be, and `heap` how much memory the call may take, both in bytes; none is what there is.
 */
class Machine {
  constructor(module, { room = null, heap = null } = {}) {
    Object.assign(this, { module, room, heap });
  }

  /** Calls an export with numbers (BigInts where they have 64 bits, and the bytes of a struct) and slices; what it answers, with the bytes of its text. */
  call(name, numbers, slices) {
    const { exports } = new WebAssembly.Instance(this.module, {});
    const free = new Room(exports);
    const room = this.room ?? alignedDown(free.buffer.byteLength * OUTPUT_SHARE);
    const answer = free.take(ANSWER.size);
    const asked = numbers.map((it) => (it instanceof Uint8Array ? free.put(it)[0] : it));
    const given = slices.flatMap((it) => free.put(it));
    const out = free.take(room);
    const heap = this.heap === null ? free.left : alignedDown(this.heap);
    const region = free.take(heap);
    exports[name](BigInt(region), BigInt(heap), ...asked, ...given, BigInt(out), BigInt(room), BigInt(answer));
    const told = new DataView(free.buffer, answer, ANSWER.size);
    return {
      kind: ANSWER_KINDS[told.getUint32(ANSWER.kind, true)],
      status: told.getUint32(ANSWER.status, true),
      bytes: new Uint8Array(free.buffer, out, Number(told.getBigUint64(0, true))).slice(),
    };
  }

  /** `asm --out`: the ELF file of a source. */
  assemble(source) {
    return this.call('page_assemble', [], [source]);
  }

  /** `asm`: the listing of a source. */
  listing(source) {
    return this.call('page_listing', [], [source]);
  }

  /** What is wrong with a source, in words, and where; nothing where it has no fault. */
  explain(source) {
    return this.call('page_explain', [], [source]);
  }

  /** `list` (view `listing`) or `info` (`facts`) of an ELF file. */
  file(view, program) {
    return this.call('page_file', [VIEW_NUMBERS[view]], [program]);
  }

  /** `run` of an ELF file; `inputs` is a Uint32Array, `choices` the bytes of a choice text. */
  run({ rule = 'none', mustExit = false, inputs, program, choices }) {
    return this.call('page_run', [RULE_NUMBERS[rule], mustExit ? 1 : 0], [inputs, program, choices]);
  }

  /** `trace` of an ELF file, from one choice up to, but not including, another; they are counted from 0. */
  trace({ from = 0, to, inputs, program, choices }) {
    return this.call('page_trace', [BigInt(from), BigInt(to)], [inputs, program, choices]);
  }

  /** `shrink` of an ELF file's choices, under the rule and the exit of `run`. */
  shrink({ rule = 'none', mustExit = false, inputs, program, choices }) {
    return this.call('page_shrink', [RULE_NUMBERS[rule], mustExit ? 1 : 0], [inputs, program, choices]);
  }

  /** `debug` of an ELF file: the answers to the lines of `commands`. */
  debug({ inputs, program, choices, commands }) {
    return this.call('page_debug', [], [inputs, program, choices, commands]);
  }

  /** `schedule` of an ELF file: the choices that a seed draws in a run of so many steps. */
  schedule({ seed, steps, draw, inputs, program }) {
    return this.call('page_schedule', [packed([steps, seed], drawWords(draw))], [inputs, program]);
  }

  /** `explore` of an ELF file: every schedule, where they lead to at most so many worlds. */
  explore({ most, rule = 'none', mustExit = false, bounds, refusals, inputs, program }) {
    const words = [RULE_NUMBERS[rule], mustExit ? 1 : 0, bounds ? 1 : 0, refusals ? 1 : 0];
    return this.call('page_explore', [packed([most], words)], [inputs, program]);
  }

  /** `campaign` of an ELF file: the runs of `count` seeds from `first` on. */
  campaign({ first, count, steps, draw, rule = 'none', mustExit = false, report, inputs, program }) {
    const words = [...drawWords(draw), RULE_NUMBERS[rule], mustExit ? 1 : 0, REPORT_NUMBERS[report]];
    return this.call('page_campaign', [packed([first, count, steps], words)], [inputs, program]);
  }
}

if (typeof module !== 'undefined') module.exports = { Machine, ANSWER_KINDS, packed };
