/**
 * The functions of rv.h over a WebAssembly module: bytes go in and come out as arrays, and the buffers of a call are
 * given back when it ends. The pointers of the module have 64 bits, so they are of the type bigint.
 */

/** The statuses of rv.h. */
export const OK = 0, SMALL = 1, REFUSED = 2, MEMORY = 3, UNFIT = 4, TOO_LONG = 5;

/** The ends of a run, by the numbers of rv.h; `Limit` is none: as many instructions as were asked for are done. */
export const ENDS = ["Exited", "Limit", "Breakpoint", "Illegal", "FetchOutside", "LoadText", "LoadOutside", "StoreText",
  "StoreOutside", "MisalignedAtomic"];

const TEXT_START = 0x10000n;
const WITH_MAP = 4;
const ROOM = 1 << 16;
/** The console is shown up to here. */
const CONSOLE_ROOM = 1 << 20;
const ANSWER = 32, END = 16, STATE = 34 * 8;

/** @typedef {{code: string, file: number, line: number, text: string}} Fault a refusal; file and line count from 1 */
/**
 * @typedef {object} State
 * @property {bigint[]} registers x0 to x31
 * @property {bigint} pc
 * @property {number} count how many instructions there were, with the one that ended the run
 * @property {{name: string, address: bigint, code: number}} end
 * @property {Uint8Array} memory
 * @property {Uint8Array} rights of each of its bytes: 1 to execute, 2 to write, 4 to read
 * @property {Uint8Array} console its front, as far as it is shown
 * @property {number} written how many bytes were written to the console
 */

/** What a call cannot do, in words. */
export class Trouble extends Error {}

/** The buffers of one call. */
class Frame {
  #exports;
  #taken = [];

  constructor(exports) {
    this.#exports = exports;
  }

  /** @returns {[bigint, bigint]} the address of a buffer and its length */
  room(length) {
    const at = this.#exports.page_take(BigInt(length + 1));
    if (at === 0n) {
      throw new Trouble("There is no more memory.");
    }
    this.#taken.push(at);
    return [at, BigInt(length)];
  }

  /** @param {Uint8Array} bytes */
  put(bytes) {
    const [at, length] = this.room(bytes.length);
    new Uint8Array(this.#exports.memory.buffer).set(bytes, Number(at));
    return [at, length];
  }

  /** Texts one after the other, and an array of their lengths. @param {Uint8Array[]} texts */
  texts(texts) {
    const whole = new Uint8Array(texts.reduce((sum, it) => sum + it.length, 0));
    const lengths = new BigUint64Array(texts.length);
    texts.reduce((at, it, index) => {
      whole.set(it, at);
      lengths[index] = BigInt(it.length);
      return at + it.length;
    }, 0);
    return [...this.put(whole), this.put(new Uint8Array(lengths.buffer))[0], BigInt(texts.length)];
  }

  /** A copy of the front of a buffer. */
  front([at, room], length) {
    const count = Math.min(Number(room), Number(length));
    return new Uint8Array(this.#exports.memory.buffer).slice(Number(at), Number(at) + count);
  }

  view([at]) {
    return new DataView(this.#exports.memory.buffer, Number(at));
  }

  release() {
    this.#taken.forEach((it) => this.#exports.page_give(it));
  }
}

export class Library {
  #exports;

  /** @param {WebAssembly.Instance} instance */
  constructor(instance) {
    this.#exports = instance.exports;
  }

  /** @param {WebAssembly.Module} module */
  static async over(module) {
    return new Library(await WebAssembly.instantiate(module, {}));
  }

  #framed(use) {
    const frame = new Frame(this.#exports);
    try {
      return use(frame);
    } finally {
      frame.release();
    }
  }

  /**
   * A call with two buffers for output behind its other words, once more where they were too small.
   * @returns {{fault: Fault} | {first: Uint8Array, second: Uint8Array}}
   */
  #made(name, words, has_second) {
    let rooms = [ROOM, has_second ? ROOM : 0];
    for (;;) {
      const found = this.#framed((frame) => {
        const [first, second] = rooms.map((it) => frame.room(it)), answer = frame.room(ANSWER);
        const outputs = has_second === undefined ? first : [...first, ...second];
        const status = this.#exports[name](...words(frame), ...outputs, answer[0]);
        const told = answered(frame.view(answer));
        if (status === SMALL) {
          rooms = [told.length, told.second];
          return null;
        }
        if (status === REFUSED) {
          return { fault: faultOf(told, frame.front(first, told.length)) };
        }
        demand(status);
        return { first: frame.front(first, told.length), second: frame.front(second, told.second), told };
      });
      if (found) {
        return found;
      }
    }
  }

  /** An executable and its map. @param {Uint8Array[]} sources @param {{start?: bigint, flags?: number}} [options] */
  build(sources, { start = TEXT_START, flags = WITH_MAP } = {}) {
    const made = this.#made("rv_build", (frame) => [...frame.texts(sources), start, flags], true);
    return made.fault ? made : { executable: made.first, map: made.second };
  }

  /** An object. @param {Uint8Array} source */
  assemble(source) {
    const made = this.#made("rv_as", (frame) => frame.put(source));
    return made.fault ? made : { object: made.first };
  }

  /** An executable and its map. @param {Uint8Array[]} objects @param {{start?: bigint, flags?: number}} [options] */
  link(objects, { start = TEXT_START, flags = WITH_MAP } = {}) {
    const made = this.#made("rv_ld", (frame) => [...frame.texts(objects), start, flags], true);
    return made.fault ? made : { executable: made.first, map: made.second };
  }

  /** What is wrong with sources, or may be: lines of JSON. @param {Uint8Array[]} sources @param {Uint8Array[]} names */
  check(sources, names) {
    const words = (frame) => [...frame.texts(sources), ...frame.texts(names), TEXT_START, 0];
    return this.#made("rv_check", words).first;
  }

  /** The listing of sources. @param {Uint8Array[]} sources @param {Uint8Array[]} names */
  list(sources, names, rows = 5n) {
    const words = (frame) => [...frame.texts(sources), ...frame.texts(names), TEXT_START, 0, rows];
    const made = this.#made("rv_list", words);
    return made.fault ? made : { text: made.first };
  }

  /** The text of the first instruction of bytes, and how many of them it has; null where there is none. */
  disassemble(bytes, address) {
    return this.#framed((frame) => {
      const text = frame.room(64), taken = frame.room(8), answer = frame.room(ANSWER);
      const given = [...frame.put(bytes), address];
      const status = this.#exports.rv_disassemble(...given, ...text, taken[0], answer[0]);
      if (status === UNFIT) {
        return null;
      }
      demand(status);
      const { length } = answered(frame.view(answer));
      return { text: latin(frame.front(text, length)), size: Number(frame.view(taken).getBigUint64(0, true)) };
    });
  }

  /** A run, without its states: the console, the end, and how many instructions it took. */
  run(executable, input, limit) {
    return this.#framed((frame) => {
      const [console, end, count, answer] = [CONSOLE_ROOM, END, 8, ANSWER].map((it) => frame.room(it));
      const words = [...frame.put(executable), ...frame.put(input), BigInt(limit)];
      const status = this.#exports.rv_run(...words, ...console, end[0], count[0], answer[0]);
      const told = answered(frame.view(answer));
      if (status === REFUSED) {
        return { fault: faultOf(told, frame.front(console, told.length)) };
      }
      demand(status);
      return {
        console: frame.front(console, told.length),
        written: told.length,
        end: endOf(frame.view(end)),
        count: Number(frame.view(count).getBigUint64(0, true)),
      };
    });
  }

  /**
   * The state of a run after some instructions, or at its end where that comes before.
   * @returns {{fault: Fault} | State}
   */
  state(executable, input, steps, address = 0n, size = 0) {
    return this.#framed((frame) => {
      const run = [...frame.put(executable), ...frame.put(input)];
      return this.#shown(frame, "rv_state", [...run, BigInt(steps), address], size);
    });
  }

  /**
   * The state some instructions after one that was kept, with what they wrote, and kept itself; after the start where
   * `kept` is empty.
   * @param {Uint8Array} kept
   * @returns {{fault: Fault} | State & {kept: Uint8Array}}
   */
  resume(executable, input, kept, steps, address = 0n, size = 0) {
    for (let room = kept.length + ROOM; ;) {
      const found = this.#framed((frame) => {
        const run = [...frame.put(executable), ...frame.put(input), ...frame.put(kept)], next = frame.room(room);
        const state = this.#shown(frame, "rv_resume", [...run, BigInt(steps), address], size, next);
        const length = state.second ?? 0;
        if (length > room) {
          room = length;
          return null;
        }
        return { ...state, kept: frame.front(next, length) };
      });
      if (found) {
        return found;
      }
    }
  }

  /** Has a call show a state, and give more to a buffer behind the console's where there is one. */
  #shown(frame, name, words, size, more = []) {
    const [memory, rights, console, state, end, answer] =
      [size, size, CONSOLE_ROOM, STATE, END, ANSWER].map((it) => frame.room(it));
    const records = [state[0], end[0], answer[0]];
    const status = this.#exports[name](...words, ...memory, ...rights, ...console, ...more, ...records);
    const told = answered(frame.view(answer));
    if (status === REFUSED) {
      return { fault: faultOf(told, frame.front(console, told.length)) };
    }
    demand(status);
    const hart = frame.view(state);
    return {
      registers: Array.from({ length: 32 }, (_, at) => hart.getBigUint64(8 * at, true)),
      pc: hart.getBigUint64(256, true),
      count: Number(hart.getBigUint64(264, true)),
      end: endOf(frame.view(end)),
      memory: frame.front(memory, size),
      rights: frame.front(rights, size),
      console: frame.front(console, told.length),
      written: told.length,
      second: told.second,
    };
  }
}

/** struct rv_answer */
function answered(view) {
  const [length, second] = [0, 8].map((at) => Number(view.getBigUint64(at, true)));
  const [kind, number, file, line] = [16, 20, 24, 28].map((at) => view.getUint32(at, true));
  return { length, second, kind, number, file, line };
}

/** struct rv_end */
function endOf(view) {
  return { address: view.getBigUint64(0, true), name: ENDS[view.getUint32(8, true)], code: view.getUint32(12, true) };
}

function faultOf({ kind, number, file, line }, text) {
  return { code: `${String.fromCharCode(kind)}${number}`, file, line, text: latin(text) };
}

function latin(bytes) {
  return new TextDecoder().decode(bytes);
}

/** Ends a call that gave nothing, in words. */
function demand(status) {
  if (status === MEMORY) {
    throw new Trouble("There is no more memory.");
  }
  if (status === TOO_LONG) {
    throw new Trouble("The program has written more than 64 MiB.");
  }
  if (status !== OK && status !== SMALL) {
    throw new Trouble(`The library answers ${status}.`);
  }
}
