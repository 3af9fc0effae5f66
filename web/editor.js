// ---- Texts that are edited

// So many lines are in view above one that is gone to.
const LINES_ABOVE = 3;

/** A text field with a mark on a part of its text, and with the numbers of its lines where it has room for them. */
class Editor {
  constructor(box, faultLine) {
    this.field = box.querySelector('textarea');
    this.backdrop = box.querySelector('.backdrop');
    this.numbers = box.querySelector('.numbers');
    this.faultLine = faultLine;
    this.field.addEventListener('input', () => this.clear());
    this.field.addEventListener('scroll', () => this.follow());
    new ResizeObserver(() => this.follow()).observe(this.field);
    this.clear();
  }

  get text() {
    return this.field.value;
  }

  set text(text) {
    this.field.value = text;
    this.field.scrollTop = 0;
    this.clear();
  }

  /** Brings a line to the top. */
  scrollTo(line) {
    this.field.scrollTop = (line - 1) * parseFloat(getComputedStyle(this.field).lineHeight);
  }

  /** Takes the mark away. */
  clear() {
    this.show(0, 0, null);
  }

  /** Marks the text from one place to another, and says why. */
  mark(from, to, said) {
    const go = element('button', { onclick: () => this.select(from, to) }, 'Go there');
    this.show(from, to, element('span', {}, said, go));
  }

  show(from, to, said) {
    const { text } = this;
    const isMarked = said !== null;
    this.backdrop.replaceChildren(text.slice(0, from), isMarked ? element('mark', {}, text.slice(from, to) || ' ') : '', `${text.slice(to)}\n`);
    this.field.setAttribute('aria-invalid', String(isMarked));
    this.faultLine.hidden = !isMarked;
    this.faultLine.replaceChildren(said ?? '');
    if (this.numbers) this.showNumbers(isMarked ? lineAt(text, from) : null);
    this.follow();
  }

  showNumbers(marked) {
    const lines = lineAt(this.text, this.text.length);
    const numbers = Array.from({ length: lines }, (_, index) => index + 1);
    if (marked === null) this.numbers.textContent = `${numbers.join('\n')}\n`;
    else {
      const parts = [numbers.slice(0, marked - 1), numbers.slice(marked)].map((it) => it.join('\n'));
      this.numbers.replaceChildren(marked > 1 ? `${parts[0]}\n` : '', element('b', {}, `✕ ${marked}`), `\n${parts[1]}\n`);
    }
  }

  follow() {
    const { scrollTop, scrollLeft } = this.field;
    this.backdrop.scrollTop = scrollTop;
    this.backdrop.scrollLeft = scrollLeft;
    if (this.numbers) this.numbers.scrollTop = scrollTop;
  }

  select(from, to) {
    this.field.focus();
    this.field.setSelectionRange(from, to);
    if (this.numbers) this.scrollTo(Math.max(1, lineAt(this.text, from) - LINES_ABOVE));
  }
}

/** The number of the line, from 1, that a place in a text is in. */
const lineAt = (text, place) => text.slice(0, place).split('\n').length;

/** The first line of a source, from 1, behind the comments at its head. */
const lineOfCode = (text) => text.split('\n').findIndex((line) => !/^\s*(#|$)/.test(line)) + 1;

/** Where a line begins. */
const beginOfLine = (text, number) => text.split('\n').slice(0, number - 1).reduce((sum, it) => sum + it.length + 1, 0);

/** Where a line begins and ends, without the blanks around its text. */
function placesOfLine(text, number) {
  const line = text.split('\n')[number - 1] ?? '';
  const begin = beginOfLine(text, number);
  return [begin + line.length - line.trimStart().length, begin + line.trimEnd().length];
}

/** Where the item that begins at a place ends. */
const endOfItem = (text, place) => place + /^[^ \t\r\n]*/.exec(text.slice(place))[0].length;
