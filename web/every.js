// ---- Every schedule of the program

// The most worlds are below this.
const WORLD_LIMIT = 2n ** 32n;
// What is said of an answer by its status (docs/MANUAL.md, "explore"), and where each hart must exit.
const FOUND = { 0: 'no schedule fails', 3: 'these choices fail', 4: 'these choices break the rule' };
const FOUND_WITH_EXITS = { ...FOUND, 3: 'these choices fail, or lead to a world from which not all harts can exit' };

class EveryPanel {
  constructor(bench, makeEngine) {
    Object.assign(this, { bench, engine: makeEngine(), asked: null, list: null });
    find('do-explore').addEventListener('click', () => this.run());
    find('stop-explore').addEventListener('click', () => this.stop());
    find('see-list').addEventListener('click', () => this.see());
  }

  stop() {
    this.engine.stop();
  }

  /** What the fields ask; null, and a fault beside them, where they don't say it. */
  question() {
    const most = wholeOf(find('most-worlds').value, WORLD_LIMIT);
    const isGood = most !== null && most > 0n;
    find('most-worlds').setAttribute('aria-invalid', String(!isGood));
    find('every-fault').hidden = isGood;
    find('every-fault').textContent = isGood ? '' : 'The worlds that may be looked at are 1 to 2^32 - 1, a decimal number.';
    const inputs = this.bench.inputs();
    if (!isGood || inputs === null) return null;
    const { source, rule, mustExit } = this.bench.held();
    return { source, inputs, rule, mustExit, choices: '', most: String(most), refusals: find('every-refusals').checked };
  }

  async run() {
    this.stop();
    const question = this.question();
    if (question === null) return;
    Object.assign(this, { asked: question, list: null });
    this.tell('explore', '..');
    this.show('');
    find('stop-explore').disabled = false;
    try {
      const answer = await this.engine.ask({ ...question, command: 'explore', bounds: find('with-bounds').checked });
      if (this.asked === question) this.hear(answer);
    } catch (error) {
      if (!(error instanceof NoAnswer)) throw error;
      if (this.asked === question) this.tell('explore', error.message);
    } finally {
      find('stop-explore').disabled = !this.engine.isBusy;
    }
  }

  /** Shows an answer: how all runs end, a list that fails or hangs, or why there is none. */
  hear(answer) {
    const text = decode(answer.bytes);
    const time = `(${answer.milliseconds.toFixed(0)} ms)`;
    if (answer.kind !== 'answered') {
      this.bench.isAnswered('explore', answer);
      this.tell('explore', `no answer ${time}`);
      this.show(text);
      return;
    }
    this.list = answer.status === 0 ? null : text.trim();
    this.tell('explore', `status ${answer.status}, ${(this.asked.mustExit ? FOUND_WITH_EXITS : FOUND)[answer.status]} ${time}`);
    this.show(text);
  }

  tell(command, said) {
    find('every-told').replaceChildren(element('strong', {}, `${command}: `), said);
  }

  show(text) {
    find('every-answer').textContent = text;
    find('every-answer').hidden = text === '';
    find('see-list').hidden = this.list === null;
  }

  /** Puts the list into the choices and shows its picture, if the fields still ask for the same program. */
  see() {
    const now = this.question();
    if (now === null || JSON.stringify(now) !== JSON.stringify(this.asked)) {
      find('every-told').textContent = 'The program, its inputs or the question have changed since: ask again.';
      return;
    }
    this.bench.setChoices(this.list, false);
    this.bench.trace(true);
  }
}
