/** The page's side of the thread in which rv runs. A call cannot be interrupted, so to stop one ends the thread. */

const WORKER = new URL("worker.js", import.meta.url);

/** What an answer is that came no more, because the thread was ended. */
export class Stopped extends Error {}

export class Machine {
  #module;
  #worker;
  #waiting = new Map();
  #last = 0;

  /** @param {WebAssembly.Module} module */
  constructor(module) {
    this.#module = module;
    this.#begin();
  }

  #begin() {
    this.#worker = new Worker(WORKER, { type: "module" });
    this.#worker.onmessage = ({ data }) => this.#hear(data);
    this.#worker.onerror = (event) => this.#end(new Error(event.message ?? "The page's thread has failed."));
    this.#send("open", { module: this.#module }).catch(() => {});
  }

  #hear({ id, answer, trouble, done }) {
    const call = this.#waiting.get(id);
    if (done !== undefined) {
      call?.told(done);
      return;
    }
    this.#waiting.delete(id);
    if (trouble === undefined) {
      call?.resolve(answer);
    } else {
      call?.reject(new Error(trouble));
    }
  }

  #end(why) {
    this.#worker.terminate();
    const calls = [...this.#waiting.values()];
    this.#waiting.clear();
    calls.forEach((it) => it.reject(why));
  }

  #send(call, words, told = () => {}) {
    const id = ++this.#last;
    return new Promise((resolve, reject) => {
      this.#waiting.set(id, { resolve, reject, told });
      this.#worker.postMessage({ id, call, words });
    });
  }

  get isBusy() {
    return this.#waiting.size > 0;
  }

  /**
   * @param {string} name a call of worker.js
   * @param {object} words
   * @param {(done: number) => void} [told] hears how many instructions a long call has done
   */
  call(name, words, told) {
    return this.#send(name, words, told);
  }

  /** Ends all calls that go on, and begins anew. */
  stop() {
    this.#end(new Stopped());
    this.#begin();
  }
}
