// ---- The campaign of the page

// The most engines that share a campaign.
const MOST_ENGINES = 8;
// Seeds and their number are below this, steps below the other.
const SEED_LIMIT = 2n ** 64n;
const STEP_LIMIT = 2n ** 32n;
const BAD_SEEDS = 'Seeds are below 2^64 and the steps of each below 2^32, as decimal numbers.';

/** The number of a text below a limit, as a BigInt; null where it is none. */
function wholeOf(text, limit) {
  const digits = text.trim();
  return /^\d{1,20}$/.test(digits) && BigInt(digits) < limit ? BigInt(digits) : null;
}

class CampaignPanel {
  constructor(bench, makeEngine) {
    Object.assign(this, { bench, makeEngine, engines: [], hunt: null, asked: null, began: 0 });
    find('do-campaign').addEventListener('click', () => this.run());
    find('stop-campaign').addEventListener('click', () => this.stop());
  }

  get isBusy() {
    return this.engines.some((it) => it.isBusy);
  }

  stop() {
    this.engines.forEach((it) => it.stop());
  }

  /** The numbers of the fields; null, and a fault beside them, where one is none. */
  seeds() {
    const limits = { 'first-seed': SEED_LIMIT, 'seed-count': SEED_LIMIT, 'seed-steps': STEP_LIMIT };
    const numbers = Object.entries(limits).map(([name, limit]) => {
      const number = wholeOf(find(name).value, limit);
      find(name).setAttribute('aria-invalid', String(number === null));
      return number;
    });
    const [first, count, steps] = numbers;
    const isGood = !numbers.includes(null) && first + count <= SEED_LIMIT;
    find('campaign-fault').hidden = isGood;
    find('campaign-fault').textContent = isGood ? '' : BAD_SEEDS;
    return isGood ? { first, count, steps: Number(steps) } : null;
  }

  /** What is asked for of each seed's run; null where a field says why not. */
  askedOfRuns() {
    const [seeds, inputs, draw] = [this.seeds(), this.bench.inputs(), this.bench.draw()];
    if (seeds === null || inputs === null || draw === null) return null;
    const { source, rule, mustExit } = this.bench.held();
    const report = find('by-results').checked ? 'outcomes' : 'summary';
    return { seeds, asked: { source, inputs, rule, mustExit, choices: '', steps: seeds.steps, draw, report } };
  }

  async run() {
    this.stop();
    const given = this.askedOfRuns();
    if (given === null) return;
    const count = clamped(navigator.hardwareConcurrency || 1, 1, MOST_ENGINES);
    if (this.engines.length === 0) this.engines = Array.from({ length: count }, this.makeEngine);
    const hunt = new Hunt(given.asked, given.seeds, () => this.hunt === hunt && this.show(''));
    Object.assign(this, { hunt, asked: given.asked, began: performance.now() });
    this.setBusy(true);
    this.show('');
    const end = await this.endOf(hunt);
    if (this.hunt !== hunt) return;
    this.setBusy(false);
    this.show(end);
  }

  /** How a campaign ends: not at all, or why it has no more outcomes. */
  async endOf(hunt) {
    try {
      await hunt.run(this.engines);
      return '';
    } catch (error) {
      if (error instanceof PartRefused) this.bench.isAnswered('campaign', error.answer);
      else if (!(error instanceof NoAnswer)) throw error;
      return error instanceof PartRefused ? 'refused' : error.message;
    }
  }

  setBusy(isBusy) {
    find('stop-campaign').disabled = !isBusy;
    find('progress').hidden = !isBusy;
  }

  /** Shows what is done. */
  show(end) {
    const { hunt, asked } = this;
    const rows = hunt.outcomes.sorted();
    const failed = rows.filter((it) => hasFailed(it, asked.mustExit)).reduce((sum, { seeds }) => sum + seeds, 0n);
    find('progress').value = hunt.count === 0n ? 1 : Number((hunt.done * 1000n) / hunt.count) / 1000;
    const time = `${(performance.now() - this.began).toFixed(0)} ms`;
    const isWhole = hunt.done === hunt.count;
    const said = `${isWhole ? '' : `${hunt.done} of `}${hunt.count} seeds, ${failed === 0n ? 'none' : failed} failed (${time})`;
    find('campaign-told').replaceChildren(element('strong', {}, 'campaign: '), end === '' ? said : `${end}; ${said}`);
    find('outcomes').hidden = rows.length === 0;
    const lines = [...find('outcomes').querySelectorAll('tbody tr')];
    if (isWhole || end !== '' || rows.length !== lines.length) this.showRows(rows);
    else lines.forEach((it, index) => this.showCounts(it, rows[index]));
  }

  /** While a campaign goes on, its buttons stay where they are. */
  showCounts(line, { seeds, first, text }) {
    [seeds, first, text].forEach((it, index) => {
      line.cells[index].textContent = String(it);
    });
  }

  showRows(rows) {
    const { asked } = this;
    const lines = rows.map((row) => {
      const isBad = hasFailed(row, asked.mustExit);
      const see = (isShrunk, text, title) => element('button', { title, onclick: () => this.see(row.first, isShrunk) }, text);
      const shrink = isBad ? see(true, 'Shrink', `The choices that the failure of seed ${row.first} needs, in the picture`) : '';
      const trace = see(false, 'Trace', `All choices of seed ${row.first}, in the picture`);
      const buttons = element('span', { className: 'pair' }, shrink, trace);
      const cells = [String(row.seeds), String(row.first), row.text, buttons].map((it) => element('td', {}, it));
      return element('tr', { className: isBad ? 'failed' : '' }, ...cells);
    });
    find('outcomes').querySelector('tbody').replaceChildren(...lines);
  }

  /** Shows a seed of the campaign in the picture, if the fields still ask for the same runs. */
  see(seed, isShrunk) {
    const now = this.askedOfRuns();
    if (now === null || JSON.stringify(now.asked) !== JSON.stringify(this.asked)) {
      find('campaign-told').textContent = 'The program, its inputs or the campaign have changed since: run the campaign again.';
      return;
    }
    this.bench.showSeed(seed, this.asked.steps, isShrunk);
  }
}
