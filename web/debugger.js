// ---- The debugger at the picture's step

// A question is asked again so many milliseconds after the picture has moved.
const ASKED_AGAIN = 80;
// Commands that hold for the whole session, and commands whose answers go with the step.
const LASTING = /^\s*(break|watch|rwatch|awatch|delete)\s/;
const OF_THE_STEP = /^\s*(regs|mem|list)\b/;
const NO_PLACE = /^(bad command|no symbol|several symbols)$/;

class DebugPanel {
  constructor(engine, picture) {
    Object.assign(this, { engine, picture, run: null, lasting: [], again: null, timer: null, turn: 0, typed: [], at: 0 });
    find('harts').after(find('debugger'));
    find('debugger').hidden = true;
    find('debug-ask').addEventListener('click', () => this.askTyped());
    find('debug-code').addEventListener('click', () => this.ask('list'));
    find('debug-registers').addEventListener('click', () => this.ask(`regs ${this.hart()}`));
    find('debug-line').addEventListener('keydown', (event) => this.hearKey(event));
    picture.hearMoves(() => this.moved());
  }

  /** The picture is of another run, or of none that can be asked about. */
  begin(run) {
    Object.assign(this, { run, lasting: [], again: null });
    find('debugger').hidden = run === null;
    find('debug-answer').hidden = true;
    find('debug-told').textContent = 'Asks about this step; help lists the commands.';
  }

  hearKey(event) {
    if (event.key === 'Enter') this.askTyped();
    else if (event.key === 'ArrowUp') this.recall(-1);
    else if (event.key === 'ArrowDown') this.recall(1);
    else return;
    event.preventDefault();
    event.stopPropagation();
  }

  /** Puts an earlier command into the line, or a later one. */
  recall(direction) {
    this.at = clamped(this.at + direction, 0, this.typed.length);
    find('debug-line').value = this.typed[this.at] ?? '';
  }

  askTyped() {
    const line = find('debug-line').value.trim();
    if (line === '') return;
    this.typed.push(line);
    this.at = this.typed.length;
    find('debug-line').value = '';
    this.ask(line);
  }

  /** The hart of the picture's step, or the first. */
  hart() {
    return this.picture.story.choices[this.picture.place - 1]?.hart ?? 0;
  }

  moved() {
    clearTimeout(this.timer);
    if (this.again !== null) this.timer = setTimeout(() => this.ask(this.again), ASKED_AGAIN);
  }

  /** Asks a command at the picture's step, after what holds for the session. */
  async ask(line) {
    if (this.run === null) return;
    this.turn += 1;
    const { turn, run, lasting } = this;
    const lines = [...lasting, `goto ${this.picture.place}`, line];
    this.again = OF_THE_STEP.test(line) ? line : null;
    let answer;
    try {
      answer = await this.engine.ask({ command: 'debug', ...run, commands: `${lines.join('\n')}\n` });
    } catch (error) {
      if (!(error instanceof NoAnswer)) throw error;
      find('debug-told').textContent = `debug: ${error.message}`;
      return;
    }
    if (turn === this.turn) this.show(line, answer);
  }

  show(line, { kind, bytes }) {
    const text = decode(bytes);
    find('debug-told').replaceChildren(element('strong', {}, line), kind === 'answered' ? '' : `: ${kind}`);
    find('debug-answer').hidden = false;
    // The commands before the last have a line of answer each.
    const answers = text.split('\n').slice(this.lasting.length + 1);
    find('debug-answer').textContent = kind === 'answered' ? answers.join('\n') : text;
    if (kind !== 'answered') return;
    if (LASTING.test(line) && !NO_PLACE.test(answers[0])) this.lasting.push(line);
    const [, place] = /^step (\d+) of \d+$/m.exec(answers.join('\n')) ?? [];
    if (place !== undefined) this.picture.go(Number(place));
  }
}
