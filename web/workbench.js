// ---- The page: program, schedule, commands, and the picture of a trace

// The picture has room for so many choices.
const MOST_TRACED = 20_000;
// The greatest number of each order of a draw and the usual one, and of refusals (crates/sched_draw/src/order.rt).
// The others take none.
const MOST_NUMBERS = { bursts: 2147483648n, priorities: 1000n };
const USUAL_NUMBERS = { bursts: 30, priorities: 3 };
const MOST_ONE_IN = 65536n;
// A name for what was typed and not opened.
const OWN_NAME = 'program';
const decode = (bytes) => new TextDecoder().decode(bytes);
const NO_MEMORY_64 =
  'This browser has no 64-bit memory for WebAssembly, which the simulator needs. Chrome and Edge have it from version 133 on, Firefox from 134 on; Safari doesn’t yet.';

/** The viewer's page, as the lower part of this one. */
class TracePicture extends Page {
  /** Files are opened by the workbench. */
  hearFiles() {}

  /** The address holds the program, and no place of a trace. */
  noteHash() {}

  followHash() {}

  placeOfHash() {
    return null;
  }

  show(story, name) {
    const { title } = document;
    super.show(story, name);
    document.title = title;
  }

  /** Calls a function after each move. */
  hearMoves(hear) {
    this.hearMove = hear;
  }

  moveTo(place) {
    super.moveTo(place);
    this.hearMove?.();
  }

  /** The picture's keys are heard where it has the focus. */
  hearKey(event) {
    if (find('story').contains(event.target) && !find('debugger').contains(event.target)) super.hearKey(event);
  }
}

class Workbench {
  constructor(makeEngine, examples) {
    Object.assign(this, { engine: makeEngine(), examples, name: OWN_NAME, turn: 0 });
    this.picture = new TracePicture();
    this.campaign = new CampaignPanel(this, makeEngine);
    this.every = new EveryPanel(this, makeEngine);
    this.debugger = new DebugPanel(this.engine, this.picture);
    this.source = new Editor(find('source-editor'), find('source-fault'));
    this.choices = new Editor(find('choices-editor'), find('choices-fault'));
    this.hearCommands();
    this.hearFields();
    this.hearOpening();
    this.listExamples();
  }

  // ---- What the fields hold

  held() {
    return {
      name: this.name,
      source: this.source.text,
      choices: this.choices.text,
      inputs: find('inputs').value,
      rule: find('rule').value,
      mustExit: find('must-exit').checked,
    };
  }

  hold({ name, source, choices, inputs, rule = 'none', mustExit = false }) {
    this.name = name;
    this.source.text = source;
    this.choices.text = choices;
    find('inputs').value = inputs;
    find('rule').value = rule;
    if (find('rule').selectedIndex < 0) find('rule').value = 'none';
    find('must-exit').checked = mustExit;
    this.showHarts();
    this.tell('Run prints how each hart ends. Trace shows each step in the picture below.');
    find('answer').textContent = '';
  }

  /** The inputs' numbers; null, and a fault beside them, where there are none. */
  inputs() {
    const inputs = inputsOf(find('inputs').value);
    find('inputs-fault').hidden = inputs !== null;
    find('inputs-fault').textContent = inputs === null ? 'Inputs are numbers below 2^32 with commas between, as 7,9: one for each hart.' : '';
    find('inputs').setAttribute('aria-invalid', String(inputs === null));
    return inputs;
  }

  /** How a seed draws; null, and a fault beside the fields, where they don't say it. */
  draw() {
    const order = find('order').value;
    const most = MOST_NUMBERS[order];
    const number = most === undefined ? 0n : wholeOf(find('order-number').value, most + 1n);
    const oneIn = wholeOf(find('one-in').value, MOST_ONE_IN + 1n);
    const isNumber = most === undefined || (number !== null && number > 0n);
    find('draw-fault').hidden = isNumber && oneIn !== null;
    find('draw-fault').textContent = isNumber ? `A refusal is one in 1 to ${MOST_ONE_IN} choices, or none with 0.` : `The ${order === 'bursts' ? 'mean of bursts' : 'depth of priorities'} is 1 to ${most}.`;
    return isNumber && oneIn !== null ? { order, number: Number(number), oneIn: Number(oneIn) } : null;
  }

  showOrder() {
    const order = find('order').value;
    const usual = USUAL_NUMBERS[order];
    find('order-number').hidden = usual === undefined;
    if (usual !== undefined) find('order-number').value = usual;
    find('draw-fault').hidden = true;
  }

  /** A button for each hart's next step. */
  showHarts() {
    const harts = this.inputs()?.length ?? 0;
    const { harts: colours } = this.picture.picture.palette;
    const buttons = Array.from({ length: harts }, (_, hart) => {
      const button = element('button', { className: 'hart', title: `hart ${hart} takes the next step`, onclick: () => this.choose(hart) }, `hart ${hart}`);
      button.style.borderBottomColor = colours[hart % colours.length];
      return button;
    });
    find('harts-next').replaceChildren(...buttons);
  }

  // ---- Commands

  hearCommands() {
    const press = (name, act) => find(name).addEventListener('click', act);
    press('do-run', () => this.run());
    press('do-trace', () => this.trace(true));
    press('do-list', () => this.print('list'));
    press('do-info', () => this.print('info'));
    press('do-file', () => this.saveFile());
    press('do-shrink', () => this.shrink());
    press('stop', () => this.engine.stop());
    document.addEventListener('keydown', (event) => {
      if (event.key === 'Enter' && (event.ctrlKey || event.metaKey)) {
        event.preventDefault();
        if (event.shiftKey) this.trace(true);
        else this.run();
      } else if (event.key === 'Escape') {
        if (this.engine.isBusy) this.engine.stop();
        this.campaign.stop();
        this.every.stop();
      }
    });
  }

  /** Asks for a command; its answer where it is the last that was asked for and has one, or null once that is told. */
  async ask(command, more = {}) {
    const inputs = this.inputs();
    if (inputs === null) {
      find('inputs').focus();
      return null;
    }
    this.turn += 1;
    const { turn } = this;
    this.tell(`${command} ..`);
    find('stop').disabled = false;
    try {
      const answer = await this.engine.ask({ command, ...this.held(), inputs, ...more });
      if (turn !== this.turn) return null;
      return this.isAnswered(command, answer) ? answer : null;
    } catch (error) {
      if (!(error instanceof NoAnswer)) throw error;
      if (turn === this.turn) this.tell(`${command}: ${error.message}`);
      return null;
    } finally {
      find('stop').disabled = !this.engine.isBusy;
    }
  }

  /** Shows why there is no answer, where there is none. */
  isAnswered(command, { kind, of, status, bytes, words, milliseconds }) {
    const reasons = {
      'no room': 'the answer is longer than the room for it',
      'no memory': 'out of memory',
      unasked: 'there is no such question',
    };
    const said = reasons[kind] ?? STATUSES[status] ?? '';
    this.tell(element('strong', {}, `${command}: `), `status ${status}, ${said} (${milliseconds.toFixed(0)} ms)`);
    if (kind === 'answered') return true;
    const text = decode(bytes);
    find('answer').textContent = text;
    if (kind === 'refused') this.markFault(of, text, words ? wordsOn(decode(words)) : null);
    return false;
  }

  /** Marks a fault's place: of a source the part that the words are about, or else the line. */
  markFault(of, text, words) {
    const inSource = of === 'source' ? sourceFault(text) : null;
    const inChoices = of === 'run' ? choiceFault(text) : null;
    if (inSource && words) {
      const begin = beginOfLine(this.source.text, inSource.line);
      this.source.mark(begin + words.from, begin + words.to, `Line ${inSource.line}: ${words.said}.`);
    } else if (inSource) {
      this.source.mark(...placesOfLine(this.source.text, inSource.line), `Line ${inSource.line}: ${inSource.meaning}.`);
    } else if (inChoices) {
      const at = placeOfByte(this.choices.text, inChoices.at);
      this.choices.mark(at, endOfItem(this.choices.text, at), `At byte ${inChoices.at}: ${inChoices.meaning}.`);
    }
  }

  tell(...parts) {
    find('told').replaceChildren(...parts);
  }

  async print(command, more = {}) {
    const answer = await this.ask(command, more);
    if (answer) find('answer').textContent = decode(answer.bytes);
  }

  run() {
    return this.print('run');
  }

  /** Leaves out the choices that the failure doesn't need; whether it did. */
  async shrink() {
    const before = countOfChoices(this.choices.text);
    const answer = await this.ask('shrink');
    if (!answer) return false;
    this.setChoices(decode(answer.bytes).trim(), false);
    find('answer').textContent = `${countOfChoices(this.choices.text)} of ${counted(before, 'choice')} are left`;
    return true;
  }

  /** Fills the choices with those that a seed draws in so many steps; whether it did. */
  async drawSeed(seed, steps) {
    const draw = this.draw();
    const answer = draw && (await this.ask('schedule', { seed, steps, draw }));
    if (!answer) return false;
    this.setChoices(decode(answer.bytes).trim(), false);
    find('answer').textContent = `The choices of seed ${seed}: ${countOfChoices(this.choices.text)} of them`;
    return true;
  }

  /** Shows a seed's run in the picture; shrunk first, where that is asked for. */
  async showSeed(seed, steps, isShrunk) {
    find('seed').value = String(seed);
    if (!(await this.drawSeed(seed, steps)) || (isShrunk && !(await this.shrink()))) return;
    const { textContent: said } = find('answer');
    if (await this.trace(true)) find('answer').textContent = `Seed ${seed}: ${isShrunk ? said : find('answer').textContent}`;
  }

  /** Traces the choices and shows the picture, from its beginning or after the last choice. */
  async trace(isFromStart) {
    const { source, choices: text } = this.held();
    const inputs = this.inputs();
    const answer = await this.ask('trace', { to: MOST_TRACED });
    if (!answer) return false;
    this.debugger.begin({ source, choices: text, inputs });
    this.picture.open(decode(answer.bytes), this.name);
    const { choices } = this.picture.story;
    const isCut = choices.length === MOST_TRACED;
    find('answer').textContent = `${counted(choices.length, 'choice')} in the picture${isCut ? ': later ones have no room there' : ''}`;
    if (isFromStart) {
      find('story').scrollIntoView({ block: 'nearest' });
      find('picture').focus({ preventScroll: true });
    } else this.picture.go(choices.length);
    return true;
  }

  async saveFile() {
    const answer = await this.ask('file');
    if (!answer) return;
    const name = `${this.name.replace(/[^\w.-]+/g, '_')}.elf`;
    const link = element('a', { href: URL.createObjectURL(new Blob([answer.bytes])), download: name });
    link.click();
    setTimeout(() => URL.revokeObjectURL(link.href), KEPT);
    find('answer').textContent = `Saved as ${name}: ${counted(answer.bytes.length, 'byte')}.`;
  }

  // ---- Choices

  hearFields() {
    find('inputs').addEventListener('input', () => this.showHarts());
    find('undo').addEventListener('click', () => this.setChoices(withoutLast(this.choices.text), true));
    const steps = () => clamped(Math.round(Number(find('steps').value)) || 0, 0, 100_000);
    const harts = () => this.inputs()?.length ?? 0;
    find('turns').addEventListener('click', () => this.setChoices(harts() > 0 ? byTurns(harts(), steps()) : '', false));
    find('one-by-one').addEventListener('click', () => this.setChoices(steps() > 0 ? oneByOne(harts(), steps()) : '', false));
    find('of-seed').addEventListener('click', () => {
      const seed = wholeOf(find('seed').value, SEED_LIMIT);
      if (seed === null) this.tell('A seed is a decimal number below 2^64.');
      else this.drawSeed(seed, steps());
    });
    find('order').addEventListener('change', () => this.showOrder());
    for (const name of ['order-number', 'one-in']) find(name).addEventListener('input', () => this.draw());
    find('empty').addEventListener('click', () => this.setChoices('', false));
    window.matchMedia('(prefers-color-scheme: dark)').addEventListener('change', () => this.showHarts());
  }

  /** Sets the choices, and where a step was chosen or taken back shows the picture after the last. */
  setChoices(text, isShown) {
    this.choices.text = text;
    this.choices.field.scrollTop = this.choices.field.scrollHeight;
    if (isShown) this.trace(false);
  }

  choose(hart) {
    this.setChoices(withChoice(this.choices.text, hart, find('refuse').checked), true);
    find('refuse').checked = false;
  }

  // ---- Examples, files and links

  listExamples() {
    const groups = Map.groupBy(this.examples, ({ group }) => group);
    const lists = [...groups].map(([label, list]) => element('optgroup', { label }, ...list.map(({ title }) => element('option', { value: title }, title))));
    find('example').replaceChildren(element('option', { value: '', disabled: true }, 'none'), ...lists);
    find('example').value = '';
  }

  showExample(title) {
    const example = this.examples.find((it) => it.title === title);
    find('example').value = title;
    this.hold(example);
    this.source.scrollTo(lineOfCode(example.source));
  }

  hearOpening() {
    find('example').addEventListener('change', (event) => this.showExample(event.target.value));
    find('link').addEventListener('click', () => this.makeLink());
    find('file').addEventListener('change', (event) => {
      this.openFile(event.target.files[0]);
      event.target.value = '';
    });
    document.addEventListener('dragover', (event) => event.preventDefault());
    document.addEventListener('drop', (event) => {
      event.preventDefault();
      this.openFile(event.dataTransfer.files[0]);
    });
    window.addEventListener('hashchange', () => this.openLink());
  }

  /** Opens a source, choices or a trace, by the ending of its name. */
  async openFile(file) {
    if (!file) return;
    const bytes = await file.arrayBuffer();
    let text;
    try {
      text = new TextDecoder('utf-8', { fatal: true }).decode(bytes);
    } catch {
      this.notify(`${file.name} isn’t text: the page opens sources, choice texts and traces.`, true);
      return;
    }
    this.notify('');
    if (/\.choices$/.test(file.name)) this.setChoices(text, false);
    else if (/\.(trace|json|jsonl|ndjson)$/.test(file.name)) {
      this.debugger.begin(null);
      this.picture.open(text, file.name);
    }
    else {
      this.source.text = text;
      this.name = file.name.replace(/\.[^.]*$/, '') || OWN_NAME;
      find('example').value = '';
    }
  }

  async makeLink() {
    const fragment = await linkOf(this.held());
    window.history.replaceState(null, '', fragment);
    let isCopied = true;
    try {
      await navigator.clipboard.writeText(window.location.href);
    } catch {
      isCopied = false;
    }
    this.notify(`The address now holds program, schedule and inputs, in ${counted(fragment.length, 'letter')}${isCopied ? ', and is copied' : ''}.`);
  }

  /** Fills the fields from the address, and says whether it holds some. */
  async openLink() {
    try {
      const held = await heldBy(window.location.hash);
      if (held === null) return false;
      find('example').value = '';
      this.hold(held);
      this.notify('');
      return true;
    } catch (error) {
      this.notify(`The address holds no program: ${error.message}.`, true);
      return false;
    }
  }

  notify(text, isAlarm = false) {
    find('notice').textContent = text;
    find('notice').hidden = text === '';
    find('notice').classList.toggle('alarm', isAlarm);
  }
}

/** The module that stands in the page, compiled: it is there under gzip, in base64. */
async function inflatedModule(letters) {
  const bytes = await through(ofLetters(letters), new DecompressionStream('gzip'), Infinity);
  return WebAssembly.compile(bytes);
}

async function openPage() {
  const { commit, digest } = JSON.parse(find('about').textContent);
  find('build').textContent = `Commit ${commit}; the module’s SHA-256 is ${digest}.`;
  const module = inflatedModule(find('module').textContent).catch((error) => {
    throw new NoAnswer(error.message);
  });
  // Each command says that there is no module.
  module.catch(() => {});
  const bench = new Workbench(() => new Engine(module, find('worker').textContent), JSON.parse(find('examples').textContent));
  if (!(await bench.openLink())) bench.showExample(bench.examples[0].title);
  if (!has64BitMemory()) {
    bench.notify(NO_MEMORY_64, true);
    for (const button of document.querySelectorAll('#result button, #campaign button, #every button, #harts-next button, #undo, #of-seed, #do-shrink')) button.disabled = true;
  }
}

openPage();
