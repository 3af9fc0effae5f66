// ---- Outcomes of campaigns: the lines of `campaign --summary`

const OUTCOME_LINE = /^seeds (\d+) first (\d+) (exited \d+ faulted (\d+) running (\d+)(?: (kept|broken))?.*)$/;

/** The outcomes of the parts of a campaign, added up. */
class Outcomes {
  constructor() {
    this.rows = new Map();
  }

  /** Takes the summary of one more part in. */
  add(summary) {
    for (const line of summary.split('\n')) {
      const [, seeds, first, text, faulted, running, verdict] = OUTCOME_LINE.exec(line) ?? [];
      if (text !== undefined) this.count(text, BigInt(seeds), BigInt(first), { faulted, running, verdict });
    }
  }

  count(text, seeds, first, ending) {
    const row = this.rows.get(text) ?? { text, seeds: 0n, first, ...ending };
    row.seeds += seeds;
    if (first < row.first) row.first = first;
    this.rows.set(text, row);
  }

  /** The rows in the order of their first seeds, as those of the whole campaign. */
  sorted() {
    return [...this.rows.values()].sort((one, other) => (one.first < other.first ? -1 : 1));
  }
}

/** Whether runs with an outcome have failed: a rule is broken, or without a rule a hart has faulted; or a hart still runs where it must exit. */
function hasFailed({ faulted, running, verdict }, mustExit) {
  const isWrong = verdict === undefined ? faulted !== '0' : verdict === 'broken';
  return isWrong || (mustExit && running !== '0');
}
