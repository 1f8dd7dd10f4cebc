/**
 * Looks for the step at which a run comes to a place.
 */

import { withBreaks } from "./program.js";
import { States } from "./states.js";

/** How often to tell how far a search is, in milliseconds. */
const BETWEEN = 100;

/** @typedef {(done: number) => void} Told */

export class Runs {
  #library;
  /** Those of the run that was asked for last. @type {States | undefined} */
  #states;

  /** @param {import("./library.js").Library} library */
  constructor(library) {
    this.#library = library;
  }

  /** The states of a run. */
  #of(executable, input) {
    if (!this.#states?.isOf(executable, input)) {
      this.#states = new States(this.#library, executable, input);
    }
    return this.#states;
  }

  /** The state after some instructions, or at the end of the run where that comes before. @param {Told} told */
  at(executable, input, step, told, address, size) {
    return this.#of(executable, input).at(step, told, address, size);
  }

  /**
   * The next step behind `from` before which the run is at one of some addresses; else the last step of the run. An
   * `ebreak` stands there for this search: no state has the program's code, so one of the run itself is gone on from.
   * @param {bigint[]} addresses @param {Told} told
   */
  toOne(executable, input, from, addresses, limit, told) {
    const states = this.#of(executable, input), first = states.at(from + 1, told);
    if (first.fault || first.end.name !== "Limit" || addresses.includes(first.pc)) {
      return first.count;
    }
    const start = { step: first.count, kept: first.kept, written: first.written };
    const broken = new States(this.#library, withBreaks(executable, addresses), input, start);
    const state = broken.at(limit, told);
    // (the `ebreak` counts, and is not done in the true run)
    const isThere = !state.fault && state.end.name === "Breakpoint" && addresses.includes(state.pc);
    return state.count - Number(isThere);
  }

  /** The next step behind `from` whose state is wanted; else the last step of the run. @param {Told} told */
  toStep(executable, input, from, isWanted, limit, told) {
    const states = this.#of(executable, input);
    let last = Date.now();
    for (let step = from + 1; step <= limit; step++) {
      const state = states.at(step);
      if (state.end.name !== "Limit" || isWanted(state)) {
        return state.count;
      }
      if (Date.now() - last > BETWEEN) {
        last = Date.now();
        told(step);
      }
    }
    return limit;
  }

  /** The step behind the call that begins at `from`, or else the next one. @param {(at: bigint) => string} textAt */
  over(executable, input, from, textAt, limit, told) {
    const { pc, registers } = this.at(executable, input, from);
    const { text, size } = textAt(pc) ?? {};
    if (!isCall(text)) {
      return from + 1;
    }
    const behind = pc + BigInt(size), sp = registers[2];
    return this.toStep(executable, input, from, (it) => it.pc === behind && it.registers[2] >= sp, limit, told);
  }

  /** The step behind the return from the function that the run is in. */
  out(executable, input, from, textAt, limit, told) {
    let depth = 0, last = textAt(this.at(executable, input, from).pc)?.text;
    const isBack = ({ pc }) => {
      depth += isCall(last) ? 1 : isReturn(last) ? -1 : 0;
      last = textAt(pc)?.text;
      return depth < 0;
    };
    return this.toStep(executable, input, from, isBack, limit, told);
  }
}

/** A jump that links `ra` or `t0` (RISC-V Unprivileged ISA, 2.5). */
function isCall(text = "") {
  return /^jalr? (ra|t0),/.test(text);
}

function isReturn(text = "") {
  return /^jalr zero,0\((ra|t0)\)/.test(text);
}
