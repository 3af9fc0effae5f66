// ---- Choice texts: items as `0`, `0!`, `0*3`, `0!*3`

// The largest count behind a choice.
const MOST_REPEATED = 2 ** 24;
const LAST_ITEM = /(^|[ \t\r\n])(\d+)(!?)(?:\*(\d+))?([ \t\r\n]*)$/;

const itemText = (hart, mark, count) => `${hart}${mark}${count > 1 ? `*${count}` : ''}`;

/** A choice text with one choice more: in the last item's count, where that is the same choice. */
function withChoice(text, hart, isRefused) {
  const mark = isRefused ? '!' : '';
  const last = LAST_ITEM.exec(text);
  if (last && Number(last[2]) === hart && last[3] === mark && !last[5].includes('\n')) {
    const count = Number(last[4] ?? 1) + 1;
    if (count <= MOST_REPEATED) return text.slice(0, last.index) + last[1] + itemText(hart, mark, count);
  }
  const isApart = text === '' || /[ \t\r\n]$/.test(text);
  return `${text}${isApart ? '' : ' '}${hart}${mark}`;
}

/** A choice text without its last choice; as it was where its last item is none. */
function withoutLast(text) {
  const last = LAST_ITEM.exec(text);
  if (!last) return text;
  const count = Number(last[4] ?? 1) - 1;
  const before = text.slice(0, last.index);
  return count > 0 ? before + last[1] + itemText(last[2], last[3], count) : before;
}

/** How many choices a text has. */
const countOfChoices = (text) => (text.match(/\S+/g) ?? []).reduce((sum, item) => sum + Number(item.split('*')[1] ?? 1), 0);

// So many items stand on a line.
const ON_A_LINE = 20;

/** So many steps of the harts by turns. */
function byTurns(harts, steps) {
  const items = Array.from({ length: steps }, (_, index) => index % harts);
  const lines = Array.from({ length: Math.ceil(steps / ON_A_LINE) }, (_, row) => items.slice(row * ON_A_LINE, (row + 1) * ON_A_LINE).join(' '));
  return lines.join('\n');
}

/** So many steps of each hart, one after another. */
const oneByOne = (harts, steps) => Array.from({ length: harts }, (_, hart) => itemText(hart, '', steps)).join(' ');

/** The inputs of a text, as `7,9`; null where it is none. */
function inputsOf(text) {
  const parts = text.split(',').map((it) => it.trim());
  const inputs = parts.map(Number);
  return parts.every((it) => /^\d+$/.test(it)) && inputs.every((it) => it < 2 ** 32) ? inputs : null;
}
