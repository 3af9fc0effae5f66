// ---- The proved module, in a worker

/** Why a call gave no answer: it was stopped, or the browser can't run the module. */
class NoAnswer extends Error {}

/** The worker with the module, of which `module` is a promise. What is asked of it waits in turn; `stop` ends it with all that waits, and the next call begins another. */
class Engine {
  constructor(module, script) {
    Object.assign(this, { module, script, worker: null, stops: 0, number: 0, waiting: new Map() });
  }

  get isBusy() {
    return this.waiting.size > 0;
  }

  begin(module) {
    const place = URL.createObjectURL(new Blob([this.script], { type: 'text/javascript' }));
    this.worker = new Worker(place);
    URL.revokeObjectURL(place);
    this.worker.onmessage = ({ data }) => this.hear(data);
    this.worker.onerror = (event) => this.end(new NoAnswer(event.message || 'the worker has ended'));
    this.worker.postMessage({ module, number: 0 });
  }

  /** What a command answers: `kind`, `status`, `bytes`, `of` which step it is, and the milliseconds that it took. */
  async ask(asked) {
    const { stops } = this;
    const module = await this.module;
    if (stops !== this.stops) throw new NoAnswer('stopped');
    if (!this.worker) this.begin(module);
    return this.send(asked);
  }

  send(message) {
    this.number += 1;
    const { number } = this;
    return new Promise((answered, failed) => {
      this.waiting.set(number, { answered, failed });
      this.worker.postMessage({ ...message, number });
    });
  }

  hear({ number, answer, error }) {
    const waits = this.waiting.get(number);
    this.waiting.delete(number);
    if (error === undefined) waits?.answered(answer);
    else waits?.failed(new NoAnswer(error));
  }

  stop() {
    this.end(new NoAnswer('stopped'));
  }

  end(why) {
    this.worker?.terminate();
    this.worker = null;
    this.stops += 1;
    const waits = [...this.waiting.values()];
    this.waiting.clear();
    waits.forEach(({ failed }) => failed(why));
  }
}

/** Whether this browser has 64-bit memory: a module with one, and with nothing else, is valid. */
function has64BitMemory() {
  return WebAssembly.validate(Uint8Array.of(0, 0x61, 0x73, 0x6d, 1, 0, 0, 0, 5, 3, 1, 4, 1));
}
