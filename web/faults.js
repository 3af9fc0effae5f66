// ---- What a fault's text says, and where

// What each fault of the assembler means; docs/ASSEMBLER.md has the table.
const ASSEMBLER_FAULTS = {
  Token: 'a character that can’t stand here, a malformed number, or a string that isn’t closed on its line',
  Mnemonic: 'no instruction has this name, or the statement begins with no name',
  Operands: 'the operands’ number or shape is wrong, or an escape in a string is',
  Register: 'no register has this name',
  Range: 'a number is out of its range',
  Undefined: 'a name or local label is never defined',
  Twice: 'a name is defined twice',
  BranchRange: 'the target of a branch or jump is too far, or at an odd distance',
  Directive: 'the directive is unknown, or an instruction or bytes stand in .bss',
  Align: 'an instruction stands at no multiple of 4, or the n of an alignment is above 12',
  TooLarge: 'text and data have more than 2^24 bytes together',
};
const CHOICE_FAULTS = {
  BadChoice: 'an item is a hart’s number, perhaps with ! and with * and a count behind it, as 0*3 or 1!',
  NoHart: 'no hart has this number: there is one for each input, from 0 on',
};

/** The line of a source, from 1, that an assembler's fault is in, with what it means; null for another text. */
function sourceFault(text) {
  const [, name, line] = /^asm fault \d+ (\w+) at \d+:(\d+)$/.exec(text) ?? [];
  return name === undefined ? null : { line: Number(line), meaning: ASSEMBLER_FAULTS[name] ?? name };
}

/** The words for people on a source's fault, and which part of its line they are about, in JavaScript's places; null where there are none. */
function wordsOn(text) {
  const [head = '', shown = '', marks = ''] = text.split('\n');
  const [, said] = /^source:\d+: (.+)$/.exec(head) ?? [];
  const [, room, signs] = /^ {4}([ \t]*)(\^+)$/.exec(marks) ?? [];
  if (said === undefined || signs === undefined) return null;
  const letters = [...shown.slice(4)];
  const lengthOf = (count) => letters.slice(0, count).join('').length;
  return { said: said.replace(/\bsource:(\d+)/g, 'line $1'), from: lengthOf(room.length), to: lengthOf(room.length + signs.length) };
}

/** The byte of a choice text that a fault is at, with what it means; null for another text. */
function choiceFault(text) {
  const [, name, at] = /^choice fault (\w+) at (\d+)$/.exec(text) ?? [];
  return name === undefined ? null : { at: Number(at), meaning: CHOICE_FAULTS[name] ?? name };
}

/** The place in a text, as JavaScript counts, of a byte of its UTF-8. */
function placeOfByte(text, byte) {
  const bytes = new TextEncoder().encode(text).slice(0, byte);
  return new TextDecoder().decode(bytes).length;
}

// The statuses that a command ends with; docs/MANUAL.md has the table.
const STATUSES = {
  0: 'done',
  1: 'invalid input',
  2: 'invalid question',
  3: 'failed: a hart has faulted without a rule, or still runs where it must exit',
  4: 'failed: the rule is broken',
  5: 'out of memory',
  6: 'not decided: there are more worlds than may be looked at',
};
