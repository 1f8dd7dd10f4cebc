/** The programs that were written here: an example that is opened takes the place of none. This browser keeps them. */

const KEY = "rv-programs", OPENED = "rv-opened", MOST = 20;

/** @typedef {{files: {name: string, text: string}[], input: string}} Program */

export class Shelf {
  /** The newest first. @type {Program[]} */
  programs = programsOf(read(KEY));
  /** Whether the first of them is open; else it is an example that nobody has changed. */
  isOpen = false;

  /** The name of the example that was open at the last visit, if one was. */
  get example() {
    return read(OPENED) ?? "";
  }

  /** Keeps what is written: in place of the one that is open, or as a new one. @param {Program} program */
  keep(program) {
    const others = this.programs.slice(this.isOpen ? 1 : 0).filter((it) => it.files.some(({ text }) => text.trim()));
    this.#put([copy(program), ...others]);
  }

  /** One of them, which is the first from now on. @returns {Program} */
  take(at) {
    const [taken] = this.programs.splice(at, 1);
    this.#put([taken, ...this.programs]);
    return copy(taken);
  }

  /** Opens a program that may be among them. @param {Program} program */
  add(program) {
    const same = JSON.stringify(copy(program)), at = this.programs.findIndex((it) => JSON.stringify(it) === same);
    this.isOpen = false;
    return at < 0 ? this.keep(program) : this.take(at);
  }

  /** Notes that an example is open. */
  leave(name) {
    this.isOpen = false;
    write(OPENED, name);
  }

  #put(programs) {
    this.programs = programs.slice(0, MOST);
    this.isOpen = true;
    write(KEY, JSON.stringify(this.programs));
    write(OPENED, "");
  }

  /** Their names, each another one. */
  get names() {
    const seen = new Map();
    return this.programs.map(({ files: [{ name }] }) => {
      const count = (seen.get(name) ?? 0) + 1;
      seen.set(name, count);
      return count === 1 ? name : `${name} (${count})`;
    });
  }
}

function copy({ files, input }) {
  return { files: files.map(({ name, text }) => ({ name, text })), input };
}

/** The programs that were kept; what is none is left out. */
function programsOf(held) {
  const isFile = (it) => typeof it?.name === "string" && typeof it.text === "string";
  try {
    return JSON.parse(held ?? "[]").filter((it) => it?.files?.length > 0 && it.files.every(isFile)).map(copy);
  } catch {
    return [];
  }
}

// (a browser may forbid to keep anything: then they are there until the page is left)
function read(key) {
  try {
    return localStorage.getItem(key);
  } catch {
    return null;
  }
}

function write(key, text) {
  try {
    localStorage.setItem(key, text);
  } catch {
    // (see above)
  }
}
