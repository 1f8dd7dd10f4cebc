/**
 * The editor: a plain text area, so that its caret, its undoing and what helps people to read and write work as
 * everywhere, over a layer that shows the same text in colours. Both are as large as the text; what is around them
 * scrolls.
 */

import { Completion } from "./completion.js";
import { make, putAt, reveal } from "./dom.js";

/** @typedef {{line: number, column: number | null, end: number | null, severity: string, text: string}} Mark */

const INDENT = 8;

export class Editor extends EventTarget {
  #place;
  #area;
  #layer;
  #gutter;
  #tip;
  #language;
  #completion;
  /** @type {Mark[]} */
  #marks = [];
  #breakpoints = new Set();
  #now = 0;
  #shown = [];

  /** @param {HTMLElement} place @param {import("./tokens.js").Language} language */
  constructor(place, language) {
    super();
    this.#place = place;
    this.#language = language;
    this.#area = /** @type {HTMLTextAreaElement} */ (place.querySelector("textarea"));
    this.#layer = place.querySelector(".layer");
    this.#gutter = place.querySelector(".gutter");
    this.#tip = place.querySelector(".tip");
    this.#completion = new Completion(this.#area, place.querySelector(".choices"), language);
    this.#area.addEventListener("input", () => this.#changed());
    this.#area.addEventListener("keydown", (event) => this.#key(event));
    for (const it of ["keyup", "click", "focus", "selectionchange"]) {
      this.#area.addEventListener(it, () => this.#moved());
    }
    this.#area.addEventListener("mousemove", (event) => this.#hover(event));
    this.#area.addEventListener("mouseleave", () => this.#showTip(null));
    this.#gutter.addEventListener("click", (event) => this.#clickGutter(event));
    // (the list of faults below takes room from the editor, and gives it back)
    new ResizeObserver(() => this.#keepInSight()).observe(place);
  }

  get text() {
    return this.#area.value;
  }

  set text(text) {
    this.#area.value = text;
    this.#area.setSelectionRange(0, 0);
    this.#marks = [];
    this.#paint();
  }

  /** The line of the caret, from 1. */
  get line() {
    return this.#area.value.slice(0, this.#area.selectionStart).split("\n").length;
  }

  /** @param {number} line @param {number} [column] both from 1 */
  go(line, column = 1) {
    const before = this.#area.value.split("\n").slice(0, line - 1).join("\n").length + (line > 1 ? 1 : 0);
    this.#area.focus();
    this.#area.setSelectionRange(before + column - 1, before + column - 1);
    this.#moved();
  }

  /** @param {Mark[]} marks */
  set marks(marks) {
    this.#marks = marks;
    this.#area.setAttribute("aria-invalid", String(marks.some((it) => it.severity === "error")));
    this.#paint();
  }

  /** @param {Set<number>} lines */
  set breakpoints(lines) {
    this.#breakpoints = lines;
    this.#paint();
  }

  /** The line of the next instruction, from 1; 0 where it is in no line. */
  set now(line) {
    this.#now = line;
    this.#paint();
    this.#reveal(line);
  }

  /** Where the caret is stays in sight, with what is offered there. */
  #keepInSight() {
    if (document.activeElement === this.#area) {
      this.#reveal(this.line);
      this.#completion.place();
    }
  }

  #reveal(line) {
    const row = this.#layer.children[line - 1];
    if (row) {
      reveal(this.#place, row);
    }
  }

  #changed() {
    this.#paint();
    this.#reveal(this.line);
    this.#completion.offer();
    this.dispatchEvent(new Event("change"));
    this.#moved();
  }

  #moved() {
    this.#completion.follow();
    this.#reveal(this.line);
    this.dispatchEvent(new Event("move"));
  }

  /** Puts a text in place of what is selected, such that it can be undone. */
  #insert(text) {
    // (what the standard calls deprecated is the only way that keeps the list of changes)
    if (!document.execCommand("insertText", false, text)) {
      this.#area.setRangeText(text, this.#area.selectionStart, this.#area.selectionEnd, "end");
      this.#changed();
    }
  }

  #key(event) {
    if (this.#completion.key(event, (text) => this.#insert(text))) {
      event.preventDefault();
    } else if (event.key === "Tab" && !event.shiftKey && !this.isLeaving && !event.ctrlKey && !event.altKey) {
      const start = this.#area.selectionStart;
      const column = start - (this.#area.value.lastIndexOf("\n", start - 1) + 1);
      event.preventDefault();
      this.#insert(" ".repeat(INDENT - column % INDENT));
    }
    // Escape lets the next Tab leave the editor.
    this.isLeaving = event.key === "Escape";
  }

  #clickGutter(event) {
    const line = Number(event.target.dataset?.line);
    if (line) {
      this.dispatchEvent(new CustomEvent("breakpoint", { detail: line }));
    }
  }

  #paint() {
    const lines = this.#area.value.split("\n");
    let isInComment = false;
    lines.forEach((line, at) => {
      const found = this.#language.tokens(line, isInComment);
      const marks = this.#marks.filter((it) => it.line === at + 1);
      this.#paintLine(at, line, found.tokens, marks, isInComment);
      isInComment = found.isInComment;
    });
    while (this.#layer.children.length > lines.length) {
      this.#layer.lastChild.remove();
      this.#gutter.lastChild.remove();
      this.#shown.pop();
    }
  }

  /** Draws a line anew where it has changed. */
  #paintLine(at, line, tokens, marks, isInComment) {
    const number = at + 1;
    const isNow = this.#now === number, isStop = this.#breakpoints.has(number);
    const key = JSON.stringify([line, marks, isInComment, isNow, isStop]);
    if (this.#shown[at] === key) {
      return;
    }
    this.#shown[at] = key;
    const row = make("div", { class: isNow ? "line now" : "line" }, ...pieces(tokens, marks, line.length), "\n");
    const grave = marks.some((it) => it.severity === "error") ? " error" : marks.length ? " warning" : "";
    const name = `count${isStop ? " stop" : ""}${isNow ? " now" : ""}${grave}`;
    const label = make("div", { class: name, "data-line": number }, String(number));
    for (const [parent, it] of [[this.#layer, row], [this.#gutter, label]]) {
      const old = parent.children[at];
      if (old) {
        old.replaceWith(it);
      } else {
        parent.append(it);
      }
    }
  }

  #hover(event) {
    const box = this.#area.getBoundingClientRect(), style = getComputedStyle(this.#area);
    const line = Math.floor((event.clientY - box.top - parseFloat(style.paddingTop)) / parseFloat(style.lineHeight)) + 1;
    this.#showTip(this.#marks.filter((it) => it.line === line)[0] ?? null);
  }

  #showTip(mark) {
    const row = mark && this.#layer.children[mark.line - 1];
    this.#tip.hidden = !row;
    if (row) {
      this.#tip.textContent = mark.text;
      this.#tip.style.left = `${this.#layer.offsetLeft + 16}px`;
      putAt(this.#tip, this.#place, row.offsetTop, row.offsetHeight);
    }
  }
}

/** The pieces of a line: tokens in their colours, cut where a mark begins or ends. */
function pieces(tokens, marks, length) {
  const spans = marks.map((it) => ({ ...it, start: (it.column ?? 1) - 1, end: it.end ?? length }));
  const cuts = [...new Set(spans.flatMap((it) => [it.start, it.end]))].sort((a, b) => a - b);
  const found = [];
  for (const { sort, text, start } of tokens) {
    const inner = cuts.map((it) => it - start).filter((it) => it > 0 && it < text.length);
    [0, ...inner].forEach((from, at, all) => {
      const piece = text.slice(from, all[at + 1]), place = start + from;
      const mark = spans.find((it) => it.start <= place && place < it.end);
      found.push(make("span", { class: mark ? `${sort} marked ${mark.severity}` : sort }, piece));
    });
  }
  if (spans.some((it) => it.start >= length)) {
    found.push(make("span", { class: "marked error" }, " "));
  }
  return found;
}
