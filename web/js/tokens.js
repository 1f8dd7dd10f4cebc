/**
 * The parts of a line, for colours and for what may be completed. It only has to look right: what a source means, and
 * what is wrong with it, the library says.
 */

/** @typedef {"comment" | "string" | "number" | "register" | "mnemonic" | "directive" | "label" | "function" | "name"
 *   | "other"} Sort */
/** @typedef {{sort: Sort, text: string, start: number}} Token */

const PARTS = [
  ["comment", /#.*|\/\*.*?(?:\*\/|$)/y],
  ["string", /"(?:[^"\\]|\\.)*"?|'(?:[^'\\]|\\.)'?/y],
  ["number", /0x[0-9a-fA-F]+|0b[01]+|\d+[bf]?\b|\d+/y],
  ["function", /%[a-z_]+/y],
  ["word", /[A-Za-z_.$][\w.$]*/y],
  ["other", /\s+|./y],
];

export class Language {
  /**
   * @param {{mnemonics: Record<string, string>, directives: Record<string, string>, registers: string[],
   *   functions: string[], entries: object}} tables what scripts/language.py gives
   */
  constructor(tables) {
    this.mnemonics = new Map(Object.entries(tables.mnemonics));
    this.directives = new Map(Object.entries(tables.directives));
    this.functions = tables.functions;
    this.registers = tables.registers;
    this.entries = tables.entries;
    this.allRegisters = new Set([...tables.registers, "fp", ...tables.registers.map((_, at) => `x${at}`)]);
  }

  /** The operands of a mnemonic or a directive; undefined where the word is neither. */
  operands(word) {
    return this.mnemonics.get(word) ?? this.directives.get(word);
  }

  /**
   * @param {string} line
   * @param {boolean} isInComment whether a comment goes on from the line before
   * @returns {{tokens: Token[], isInComment: boolean}}
   */
  tokens(line, isInComment = false) {
    const tokens = [];
    let at = 0, isStart = true;
    if (isInComment) {
      const end = line.indexOf("*/");
      at = end < 0 ? line.length : end + 2;
      tokens.push({ sort: "comment", text: line.slice(0, at), start: 0 });
      isInComment = end < 0;
    }
    while (at < line.length) {
      const [kind, text] = part(line, at);
      const sort = kind === "word" ? this.#sortOf(text, line.slice(at + text.length), isStart) : kind;
      tokens.push({ sort, text, start: at });
      if (kind === "comment" && text.startsWith("/*") && !text.endsWith("*/")) {
        isInComment = true;
      }
      isStart = text === ";" || isStart && (["label", "comment"].includes(sort) || /^(?:\s.*|\d+|:)$/.test(text));
      at += text.length;
    }
    return { tokens, isInComment };
  }

  #sortOf(word, rest, isStart) {
    if (isStart) {
      if (/^\s*:/.test(rest)) {
        return "label";
      }
      return word.startsWith(".") ? "directive" : this.mnemonics.has(word) ? "mnemonic" : "name";
    }
    return this.allRegisters.has(word) ? "register" : "name";
  }
}

/** @returns {[string, string]} */
function part(line, at) {
  for (const [kind, form] of PARTS) {
    form.lastIndex = at;
    const found = form.exec(line);
    if (found) {
      return [kind, found[0]];
    }
  }
  return ["other", line[at]];
}
