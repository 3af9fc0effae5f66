// ---- A link that holds a program with its schedule

// A fragment of this page: the version of its form, and the rest in the letters of a link.
const LINK_BEGIN = '#1.';
// What a link unpacks to is at most this long, in bytes.
const MOST_UNPACKED = 2 ** 22;
// The parts of a link with their types.
const LINK_PARTS = { name: 'string', source: 'string', choices: 'string', inputs: 'string', rule: 'string', mustExit: 'boolean' };

const toLetters = (bytes) => btoa(Array.from(bytes, (byte) => String.fromCharCode(byte)).join('')).replaceAll('+', '-').replaceAll('/', '_').replace(/=+$/, '');
const ofLetters = (letters) => Uint8Array.from(atob(letters.replaceAll('-', '+').replaceAll('_', '/')), (it) => it.charCodeAt(0));

/** All bytes of a stream; fails where there are more than so many. */
async function bytesOf(stream, most) {
  const parts = [];
  let length = 0;
  for (const reader = stream.getReader(); ; ) {
    const { done, value } = await reader.read();
    if (done) break;
    length += value.length;
    if (length > most) {
      await reader.cancel();
      throw new RangeError('it is too long');
    }
    parts.push(value);
  }
  return new Uint8Array(await new Blob(parts).arrayBuffer());
}

const through = (bytes, stream, most) => bytesOf(new Blob([bytes]).stream().pipeThrough(stream), most);

/** The fragment of what the page's fields hold. */
async function linkOf(held) {
  const parts = Object.fromEntries(Object.keys(LINK_PARTS).map((part) => [part, held[part]]));
  const text = new TextEncoder().encode(JSON.stringify(parts));
  return LINK_BEGIN + toLetters(await through(text, new CompressionStream('deflate-raw'), Infinity));
}

/** What the fields held when a link was made; null where the fragment is none; fails where it is damaged. */
async function heldBy(fragment) {
  if (!fragment.startsWith(LINK_BEGIN)) return null;
  const bytes = await through(ofLetters(fragment.slice(LINK_BEGIN.length)), new DecompressionStream('deflate-raw'), MOST_UNPACKED);
  const held = JSON.parse(new TextDecoder('utf-8', { fatal: true }).decode(bytes));
  for (const [part, type] of Object.entries(LINK_PARTS)) {
    if (typeof held[part] !== type) throw new TypeError(`it has no ${part}`);
  }
  return held;
}
