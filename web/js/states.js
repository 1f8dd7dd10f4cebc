/**
 * The states of one run by how many instructions come before them. Some are kept, so that another is had by going on from
 * the nearest one below it: a step back costs no run from the start.
 */

/** The first slice is short, because engines run a function's quick code only from its next call on. */
const FIRST_SLICE = 100_000, GROWTH = 4, LONGEST_SLICE = 6_400_000;
/** How many states are kept at most, and how many bytes they have together. */
const MOST_STATES = 200, MOST_BYTES = 1 << 26;
/** How often to tell how far a run is, in milliseconds. */
const BETWEEN = 100;

/** @typedef {(done: number) => void} Told */
/** @typedef {import("./library.js").State} State */
/** @typedef {{step: number, kept: Uint8Array, written: number}} Kept a state, and how much was written before it */

export class States {
  #library;
  #executable;
  #input;
  /** By ascending steps; the first is where this began. @type {Kept[]} */
  #all;
  /** The longest front of the console that is known. */
  #console = new Uint8Array(0);

  /** @param {import("./library.js").Library} library @param {Kept} [first] where the run begins, if not at its start */
  constructor(library, executable, input, first = { step: 0, kept: new Uint8Array(0), written: 0 }) {
    this.#library = library;
    this.#executable = executable;
    this.#input = input;
    this.#all = [first];
  }

  /** Whether it is of this run. */
  isOf(executable, input) {
    return sameBytes(executable, this.#executable) && sameBytes(input, this.#input);
  }

  /** The nearest state that is kept at a step or below. @returns {Kept} */
  #nearest(step) {
    return this.#all.findLast((it) => it.step <= step);
  }

  /**
   * The state after some instructions, or at the end of the run where that comes before.
   * @param {Told} [told] hears how many instructions are done
   * @returns {{fault: import("./library.js").Fault} | State & {kept: Uint8Array}}
   */
  at(step, told = () => {}, address = 0n, size = 0) {
    let last = Date.now();
    for (let slice = FIRST_SLICE; ; slice = Math.min(slice * GROWTH, LONGEST_SLICE)) {
      const from = this.#nearest(step), steps = Math.min(slice, step - from.step);
      const state = this.#from(from, steps, address, size);
      if (state.fault || state.end.name !== "Limit" || state.count === step) {
        return state;
      }
      if (Date.now() - last > BETWEEN) {
        last = Date.now();
        told(state.count);
      }
    }
  }

  /** Goes on from a state that is kept, and keeps the one that is reached. */
  #from(from, steps, address, size) {
    const state = this.#library.resume(this.#executable, this.#input, from.kept, steps, address, size);
    if (state.fault) {
      return state;
    }
    const count = from.step + state.count, written = from.written + state.written;
    this.#hear(from.written, state.console);
    if (state.end.name === "Limit") {
      this.#keep({ step: count, kept: state.kept, written });
    }
    return { ...state, count, written, console: this.#console.slice(0, written) };
  }

  /** Takes what was written behind so many bytes. */
  #hear(before, bytes) {
    if (before + bytes.length > this.#console.length && before <= this.#console.length) {
      const known = new Uint8Array(before + bytes.length);
      known.set(this.#console.subarray(0, before));
      known.set(bytes, before);
      this.#console = known;
    }
  }

  /** @param {Kept} state */
  #keep(state) {
    const at = this.#all.findIndex((it) => it.step >= state.step);
    if (this.#all[at]?.step === state.step) {
      return;
    }
    this.#all.splice(at < 0 ? this.#all.length : at, 0, state);
    const bytes = this.#all.reduce((sum, it) => sum + it.kept.length, 0);
    if (this.#all.length > MOST_STATES || bytes > MOST_BYTES) {
      this.#thin();
    }
  }

  /** Leaves out the state that is nearest to its neighbours, of those between the first and the last. */
  #thin() {
    const gap = (at) => this.#all[at + 1].step - this.#all[at - 1].step;
    const between = this.#all.map((_, at) => at).slice(1, -1);
    const at = between.reduce((best, it) => (gap(it) < gap(best) ? it : best), between[0]);
    this.#all.splice(at ?? this.#all.length - 1, 1);
  }
}

function sameBytes(one, other) {
  return one === other || (one.length === other.length && one.every((it, at) => it === other[at]));
}
