// ---- A campaign, in parts that several engines do

// A part takes about so long, in milliseconds; what is done is told after each.
const PART_TIME = 250;
// An engine's first part has about so many steps.
const FIRST_STEPS = 100_000;
// A part has at most so many times the seeds of the one before.
const MOST_PART_GROWTH = 4;

/** Why a campaign has no outcomes: the answer of a part. */
class PartRefused extends Error {
  constructor(answer) {
    super();
    this.answer = answer;
  }
}

class Hunt {
  /** A campaign of the seeds from `first` on, `count` of them, both BigInts; `hear` is called after each part. */
  constructor(asked, { first, count }, hear) {
    Object.assign(this, { asked, next: first, last: first + count, count, hear, done: 0n, outcomes: new Outcomes() });
  }

  /** Lets engines do all parts, each one at a time; fails as the first part does that fails. */
  async run(engines) {
    try {
      await Promise.all(engines.map((it) => this.work(it)));
    } finally {
      this.next = this.last;
    }
  }

  async work(engine) {
    let size = Math.ceil(FIRST_STEPS / Math.max(1, this.asked.steps));
    while (this.next < this.last) {
      const part = this.take(BigInt(size));
      const answer = await engine.ask({ ...this.asked, ...part, command: 'campaign' });
      if (answer.kind !== 'answered') throw new PartRefused(answer);
      this.outcomes.add(decode(answer.bytes));
      this.done += part.count;
      this.hear();
      size = Math.ceil(size * Math.min(MOST_PART_GROWTH, PART_TIME / Math.max(1, answer.milliseconds)));
    }
  }

  take(size) {
    const left = this.last - this.next;
    const count = size < left ? size : left;
    const first = this.next;
    this.next += count;
    return { first, count };
  }
}
