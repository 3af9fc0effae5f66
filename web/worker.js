// The worker: the page gives it the module first, compiled; then it answers a message at a time.

const encode = (text) => new TextEncoder().encode(text);

/** The page's commands by the module's calls. A program is assembled anew only where its source has changed. */
class Commands {
  constructor(machine) {
    Object.assign(this, { machine, source: null, assembled: null });
  }

  assemble(source) {
    if (source !== this.source) {
      this.assembled = this.machine.assemble(encode(source));
      this.source = source;
    }
    return this.assembled;
  }

  /** What a command answers, and whether that is of the source or of a run of its program. */
  answer(asked) {
    const { command, source } = asked;
    if (command === 'list') return this.ofSource(source, this.machine.listing(encode(source)));
    const assembled = this.assemble(source);
    if (command === 'file' || assembled.kind !== 'answered') return this.ofSource(source, assembled);
    return { of: 'run', ...this.ofProgram(assembled.bytes, asked) };
  }

  /** An answer on a source; where it is refused, with the words for people. */
  ofSource(source, answer) {
    const words = answer.kind === 'refused' ? this.machine.explain(encode(source)).bytes : null;
    return { of: 'source', ...answer, words };
  }

  ofProgram(program, { command, commands = '', ...asked }) {
    const { machine } = this;
    const given = { ...asked, program, inputs: Uint32Array.from(asked.inputs), choices: encode(asked.choices) };
    const deeds = {
      info: () => machine.file('facts', program),
      run: () => machine.run(given),
      trace: () => machine.trace(given),
      shrink: () => machine.shrink(given),
      schedule: () => machine.schedule(given),
      campaign: () => machine.campaign(given),
      explore: () => machine.explore(given),
      debug: () => machine.debug({ ...given, commands: encode(commands) }),
    };
    return deeds[command]();
  }
}

// There once the module has come.
let commands = null;

function answerTo({ module, ...asked }) {
  if (module) {
    commands = new Commands(new Machine(module));
    return null;
  }
  const began = performance.now();
  return { ...commands.answer(asked), milliseconds: performance.now() - began };
}

onmessage = ({ data: { number, ...asked } }) => {
  try {
    postMessage({ number, answer: answerTo(asked) });
  } catch (error) {
    postMessage({ number, error: error.message });
  }
};
