/**
 * Completion: what a word may become, in a list below the caret. Tab takes the choice, the arrows move it, Escape closes
 * the list, and Enter takes it once an arrow was used, so that a line can end in what is a word already.
 */

import { make, putAt } from "./dom.js";

const MOST = 8;

export class Completion {
  #area;
  #list;
  #language;
  #choices = [];
  #chosen = 0;
  #hasMoved = false;
  #start = 0;

  /** @param {HTMLTextAreaElement} area @param {HTMLElement} list @param {import("./tokens.js").Language} language */
  constructor(area, list, language) {
    this.#area = area;
    this.#list = list;
    this.#language = language;
    area.addEventListener("blur", () => this.#close());
  }

  /** Offers what the word before the caret may become. */
  offer(isAsked = false) {
    const { value, selectionStart: caret } = this.#area;
    const line = value.slice(value.lastIndexOf("\n", caret - 1) + 1, caret);
    const word = /(?:%|[A-Za-z_.$])?[\w.$]*$/.exec(line)[0];
    const sort = this.#language.tokens(line).tokens.at(-1)?.sort;
    if (sort === "comment" || sort === "string" || word === "" && !isAsked || /^\d/.test(word)) {
      this.#close();
      return;
    }
    const front = line.slice(0, line.length - word.length);
    const isStart = /(^|[:;])\s*$/.test(front);
    const found = (isStart ? this.#starts() : this.#operands(value)).filter((it) => it.name.startsWith(word));
    this.#choices = found.some((it) => it.name === word) && !isAsked ? [] : found.slice(0, MOST);
    this.#start = caret - word.length;
    this.#chosen = 0;
    this.#hasMoved = false;
    this.#show(line.length - word.length);
  }

  /** Closes the list where the caret has left the word. */
  follow() {
    if (this.#choices.length && this.#area.selectionStart < this.#start) {
      this.#close();
    }
  }

  /** @param {KeyboardEvent} event @returns {boolean} whether the key was for the list */
  key(event, insert) {
    if (event.key === " " && event.ctrlKey) {
      this.offer(true);
      return true;
    }
    if (!this.#choices.length) {
      return false;
    }
    if (event.key === "Escape") {
      this.#close();
    } else if (event.key === "ArrowDown" || event.key === "ArrowUp") {
      const by = event.key === "ArrowDown" ? 1 : this.#choices.length - 1;
      this.#chosen = (this.#chosen + by) % this.#choices.length;
      this.#hasMoved = true;
      this.#mark();
    } else if (event.key === "Tab" && !event.shiftKey || event.key === "Enter" && this.#hasMoved) {
      this.#take(this.#chosen, insert);
    } else {
      return false;
    }
    return true;
  }

  #starts() {
    const { mnemonics, directives } = this.#language;
    return [...mnemonics, ...directives].map(([name, operands]) => ({ name, operands }));
  }

  /** Registers, functions, and the labels of the source. */
  #operands(text) {
    const labels = [...new Set([...text.matchAll(/^[ \t]*([A-Za-z_.$][\w.$]*)[ \t]*:/gm)].map((it) => it[1]))];
    return [
      ...this.#language.registers.map((name) => ({ name, operands: "register" })),
      ...labels.map((name) => ({ name, operands: "label" })),
      ...this.#language.functions.map((name) => ({ name: `%${name}`, operands: "(address)" })),
    ];
  }

  #take(index, insert) {
    const { name } = this.#choices[index];
    this.#area.setSelectionRange(this.#start, this.#area.selectionStart);
    this.#close();
    insert(name);
    this.#close();
  }

  #close() {
    this.#choices = [];
    this.#list.hidden = true;
    this.#area.removeAttribute("aria-activedescendant");
  }

  #show(column) {
    if (!this.#choices.length) {
      this.#close();
      return;
    }
    const rows = this.#choices.map(({ name, operands }, at) => make("div", {
      role: "option",
      id: `choice-${at}`,
      // (before the text area loses the focus)
      onmousedown: (event) => {
        event.preventDefault();
        this.#take(at, (text) => document.execCommand("insertText", false, text));
      },
    }, make("span", { class: "name" }, name), make("span", { class: "operands" }, operands)));
    this.#list.replaceChildren(...rows);
    const { paddingLeft } = getComputedStyle(this.#area);
    this.#list.style.left = `calc(${this.#area.offsetLeft}px + ${paddingLeft} + ${column}ch)`;
    this.#list.hidden = false;
    this.place();
    this.#mark();
  }

  /** Puts the list, if it is shown, where it is seen. */
  place() {
    const { paddingTop, lineHeight } = getComputedStyle(this.#area), height = parseFloat(lineHeight);
    if (!this.#list.hidden) {
      const before = this.#area.value.slice(0, this.#start).split("\n").length - 1;
      putAt(this.#list, this.#area.closest(".editor"), parseFloat(paddingTop) + before * height, height);
    }
  }

  #mark() {
    const rows = [...this.#list.children], { offsetTop, offsetHeight } = rows[this.#chosen];
    rows.forEach((it, at) => it.setAttribute("aria-selected", String(at === this.#chosen)));
    // (in a low editor the list scrolls)
    this.#list.scrollTop = Math.min(this.#list.scrollTop, offsetTop);
    this.#list.scrollTop = Math.max(this.#list.scrollTop, offsetTop + offsetHeight - this.#list.clientHeight);
    this.#area.setAttribute("aria-activedescendant", `choice-${this.#chosen}`);
  }
}
