/** The list of programs: those that were written here, the examples, the lessons and the exercises, and an empty one. */

import { make } from "./dom.js";

const EMPTY = `.globl _start
_start:
        li   a7, 93             # exits with a0
        ecall
`;

export class Picker extends EventTarget {
  #select;
  #shelf;
  #examples;
  #shown = "";

  /**
   * @param {HTMLSelectElement} select
   * @param {import("./shelf.js").Shelf} shelf
   * @param {{group: string, name: string, text: string}[]} examples
   */
  constructor(select, shelf, examples) {
    super();
    this.#select = select;
    this.#shelf = shelf;
    this.#examples = [...examples, { group: "New", name: "a new program", text: EMPTY, file: "a.s" }];
    select.addEventListener("change", () => this.#choose(select.value));
  }

  /** Opens what was open at the last visit, or else the first example. */
  begin() {
    const name = this.#shelf.example, at = this.#examples.findIndex((it) => it.name === name);
    this.#choose(at >= 0 ? `example ${at}` : this.#shelf.programs.length ? "own 0" : "example 0");
  }

  /** Opens a program, as one of an address. @param {import("./shelf.js").Program} program */
  open(program) {
    this.#shelf.add(program);
    this.show();
    this.#tell(program, false);
  }

  /** Keeps what is written. @param {import("./shelf.js").Program} program */
  keep(program) {
    this.#shelf.keep(program);
    this.show();
  }

  #choose(value) {
    const [kind, number] = value.split(" ");
    if (kind === "own") {
      const program = this.#shelf.take(Number(number));
      this.show();
      this.#tell(program, true);
      return;
    }
    const { name, text, file } = this.#examples[Number(number)];
    this.#shelf.leave(name);
    this.show(value);
    this.#tell({ files: [{ name: file ?? name, text }], input: null }, true);
  }

  #tell(program, isChosen) {
    this.dispatchEvent(new CustomEvent("open", { detail: { ...program, isChosen } }));
  }

  /** Shows the list, with what is open. */
  show(value = "own 0") {
    const own = this.#shelf.names.map((name, at) => ({ group: "Yours", name, value: `own ${at}` }));
    const all = [...own, ...this.#examples.map((it, at) => ({ ...it, value: `example ${at}` }))];
    const shown = JSON.stringify(own);
    if (shown !== this.#shown) {
      this.#shown = shown;
      const groups = Map.groupBy(all, (it) => it.group);
      this.#select.replaceChildren(...[...groups].map(([label, its]) =>
        make("optgroup", { label }, ...its.map((it) => make("option", { value: it.value }, it.name)))));
    }
    this.#select.value = value;
  }
}
