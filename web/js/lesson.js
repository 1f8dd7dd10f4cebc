/** The head of a case, as `rv test` reads it (docs/manual/test.md), and whether a run meets it. */

const KEYS = ["exit", "end", "console", "fault", "input", "limit", "instructions"];
const NAMED = { n: "\n", t: "\t", r: "\r", 0: "\0", "\\": "\\" };

/** A text with the escapes of C. */
export function unescaped(text) {
  return text.replace(/\\(?:x([0-9a-fA-F]{1,2})|(.))/gs, (_, code, sign) =>
    code ? String.fromCharCode(parseInt(code, 16)) : NAMED[sign] ?? sign);
}

/** The keys of a head with their values; several lines of one key are one text. @returns {Map<string, string>} */
export function readHead(text) {
  const found = new Map();
  for (const line of text.split("\n")) {
    if (!line.startsWith("#")) {
      break;
    }
    const [, key, value] = /^# ([a-z]+): ?(.*)$/.exec(line) ?? [];
    if (KEYS.includes(key)) {
      found.set(key, (found.get(key) ?? "") + value);
    }
  }
  return found;
}

/** The input that a head gives. */
export function inputOf(text) {
  return unescaped(readHead(text).get("input") ?? "");
}

/** Whether a text says what has to come of it. */
export function isExercise(text) {
  const head = readHead(text);
  return ["exit", "end", "console", "fault"].some((it) => head.has(it));
}

/** How an end is written: `exit 7`, `LoadOutside 11000`. */
export function endInWords({ name, code, address }) {
  if (name === "Exited") {
    return `exit ${code}`;
  }
  return name === "Breakpoint" || name === "Limit" ? name : `${name} ${address.toString(16)}`;
}

const quoted = (text) => JSON.stringify(text);

/** What a head wants: the fault of the build, or the end of the run, the console, and how many instructions. */
export function wanted(text) {
  const head = readHead(text);
  if (head.has("fault")) {
    return [head.get("fault")];
  }
  const all = [head.get("end") ?? `exit ${head.get("exit") ?? 0}`];
  if (head.has("console")) {
    all.push(quoted(unescaped(head.get("console"))));
  }
  if (head.has("instructions")) {
    all.push(`at most ${head.get("instructions")} instructions`);
  }
  return all;
}

/**
 * What a run, or a fault of the build, is beside the head.
 * @param {string} text the first source
 * @param {{state?: import("./library.js").State, fault?: {file: number, line: number, text: string}}} came
 * @param {string[]} names of the files
 * @returns {{wanted: string, came: string, isMet: boolean}[]}
 */
export function verdict(text, { state, fault }, names) {
  const head = readHead(text), all = wanted(text);
  if (fault || head.has("fault")) {
    const came = fault ? `${fault.file ? names[fault.file - 1] : ""}${fault.text}` : "no fault";
    return [{ wanted: all[0], came, isMet: all[0] === came }];
  }
  const came = [endInWords(state.end)];
  if (head.has("console")) {
    came.push(quoted(new TextDecoder().decode(state.console)));
  }
  const rows = came.map((it, at) => ({ wanted: all[at], came: it, isMet: all[at] === it }));
  if (head.has("instructions")) {
    const isMet = state.count <= Number(head.get("instructions"));
    rows.push({ wanted: all.at(-1), came: String(state.count), isMet });
  }
  return rows;
}
