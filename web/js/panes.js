/** What is shown of a program and of a state: machine code, registers, memory, the console, the end. */

import { byId, counted, hex, hexBytes, make, reveal } from "./dom.js";
import { endInWords, isExercise, verdict, wanted } from "./lesson.js";

const MOST_ROWS = 2000, SHOWN_BYTES = 8, ROW = 8n;
const STACK_END = 0x40000000n, STACK_ROOM = 512n, DATA_ROOM = 1024n;

/** @typedef {import("./session.js").Session} Session */

/**
 * Each statement with its place, its bytes and its instructions.
 * @param {Session} session
 * @param {(file: number, line: number) => void} go leads to a line of the source
 */
export function showListing(session, go) {
  const place = byId("listing"), { program } = session;
  const all = (program?.statements ?? []).flatMap((it) => rowsOf(it, session, go));
  const rows = all.slice(0, MOST_ROWS);
  if (!rows.length) {
    place.replaceChildren(make("p", { class: "empty" }, program ? "No statement has bytes." : "Nothing is built."));
  } else {
    const head = headings(["Address", "Bytes", "Instruction", "Line"], "", make("th", { scope: "col" },
      make("span", { class: "unseen" }, "Breakpoint")));
    const left = all.length - rows.length;
    const rest = left ? [make("p", { class: "empty" }, `${left} more rows are not shown.`)] : [];
    place.replaceChildren(make("table", {}, head, make("tbody", {}, ...rows)), ...rest);
  }
  const full = program?.regions.filter((it) => it.end > it.start) ?? [];
  byId("sizes").textContent = full.map((it) => `${it.name} ${it.end - it.start}`).join(" · ");
}

function headings(names, kind, ...before) {
  return make("thead", { class: kind }, make("tr", {}, ...before, ...names.map((it) => make("th", { scope: "col" }, it))));
}

function rowsOf(statement, session, go) {
  const { file, line, address, bytes, instructions, size } = statement;
  const where = session.files.length > 1 ? `${session.files[file]?.name}:${line}` : String(line);
  const open = () => go(file, line), label = `Line ${where} in the source`;
  const link = make("button", { type: "button", class: "link", onclick: open, "aria-label": label }, where);
  const stop = instructions.length ? stopButton(session, file, line, address) : null;
  const row = (kind, at, held, text) => make("tr", {
    class: kind, "data-file": file, "data-line": line, "data-address": hex(at), onclick: open,
  },
  make("td", { class: "stop" }, at === address ? stop : null),
  make("td", { class: "address" }, hex(at)),
  make("td", { class: "bytes" }, held),
  make("td", { class: "text" }, ...text),
  make("td", { class: "of" }, at === address ? link : null));
  if (!instructions.length) {
    const held = hexBytes(bytes.slice(0, SHOWN_BYTES)) + (bytes.length > SHOWN_BYTES ? "…" : "");
    return [row("data", address, held || "00…", [counted(size, "byte")])];
  }
  const tag = () => make("span", { class: "tag", title: "compressed: two bytes" }, "c");
  return instructions.map((it) => it.bytes.length === 2
    ? row("short", it.address, hexBytes(it.bytes), [it.text, tag()])
    : row("full", it.address, hexBytes(it.bytes), [it.text]));
}

function stopButton(session, file, line, address) {
  return make("button", {
    type: "button",
    class: "dot",
    "aria-pressed": String(session.breakpoints.has(`${file}:${line}`)),
    "aria-label": `Breakpoint at ${hex(address)}`,
    "data-stop": `${file}:${line}`,
    onclick: (event) => {
      event.stopPropagation();
      session.toggle(file, line);
    },
  });
}

/** Marks the rows of the caret's line, of the next instruction and of breakpoints. @param {Session} session */
export function markListing(session, line) {
  const pc = session.state ? hex(session.state.pc) : "";
  for (const row of document.querySelectorAll("#listing tbody tr")) {
    const { file, address } = row.dataset, isNow = address === pc;
    row.classList.toggle("cursor", Number(file) === session.current && Number(row.dataset.line) === line);
    row.classList.toggle("now", isNow);
    if (isNow) {
      row.setAttribute("aria-current", "step");
      reveal(byId("listing"), row);
    } else {
      row.removeAttribute("aria-current");
    }
  }
  for (const it of document.querySelectorAll("#listing [data-stop]")) {
    it.setAttribute("aria-pressed", String(session.breakpoints.has(it.dataset.stop)));
  }
}

/** All registers; those that changed since what was shown before are marked. @param {Session} session */
export function showRegisters({ state, last }, names) {
  const place = byId("registers");
  byId("pc").textContent = state ? `pc ${hex(state.pc)}` : "";
  if (!state) {
    place.replaceChildren(make("p", { class: "empty" }, "There is no run."));
    return;
  }
  const rows = state.registers.map((value, at) => {
    const isChanged = last !== null && last.registers[at] !== value;
    const digits = hex(value, 16), zeros = /^0*(?=.)/.exec(digits)[0].length;
    const told = isChanged ? make("span", { class: "unseen" }, " changed") : null;
    return make("tr", { class: isChanged ? "changed" : "" },
      make("th", { scope: "row", title: `x${at}` }, names[at]),
      make("td", { class: "hex" }, make("span", { class: "zeros" }, digits.slice(0, zeros)), digits.slice(zeros)),
      make("td", { class: "decimal" }, BigInt.asIntN(64, value).toString(), told));
  });
  const head = headings(["Register", "Hexadecimal", "Decimal"], "unseen");
  place.replaceChildren(make("table", {}, head, make("tbody", {}, ...rows)));
}

/** The parts of memory that can be shown: the one that was chosen, or else the first. @param {Session} session */
export function showRegions({ program }) {
  const select = byId("region"), chosen = select.dataset.chosen;
  const names = {
    rodata: "Constants", data: "Variables", bss: "Zeroed variables", text: "Code", stack: "Stack", other: "Address",
  };
  const [code, ...data] = program?.regions ?? [];
  const parts = [...data, { name: "stack" }, ...(code ? [code] : []), { name: "other" }];
  const all = parts.filter((it) => it.start !== it.end || it.start === undefined).map((it) => [it.name, names[it.name]]);
  select.replaceChildren(...all.map(([value, text]) => make("option", { value }, text)));
  select.value = all.some(([it]) => it === chosen) ? chosen : all[0][0];
}

/** What is to be shown of memory now. @param {Session} session */
export function windowOf({ program, state }) {
  const name = byId("region").value, found = program?.regions.find((it) => it.name === name);
  const line = (it) => it - it % ROW;
  if (found) {
    const start = line(found.start), end = line(found.end + ROW - 1n);
    return { address: start, size: Number(end - start > DATA_ROOM ? DATA_ROOM : end - start) };
  }
  if (name === "other") {
    return { address: line(BigInt.asUintN(64, typed())), size: Number(STACK_ROOM) };
  }
  const sp = state?.registers[2] ?? STACK_END;
  const start = line(STACK_END - STACK_ROOM < sp && sp <= STACK_END ? sp - (sp === STACK_END ? 64n : 0n) : sp);
  const end = start < STACK_END && start + STACK_ROOM > STACK_END ? STACK_END : start + STACK_ROOM;
  return { address: start, size: Number(end - start) };
}

function typed() {
  const text = byId("address").value.trim().replace(/^0x|h$/gi, "");
  return /^[0-9a-f]{1,16}$/i.test(text) ? BigInt(`0x${text}`) : 0n;
}

/** @param {Session} session */
export function showMemory(session) {
  const { state, last } = session, place = byId("memory");
  if (!state) {
    place.replaceChildren(make("p", { class: "empty" }, "There is no run."));
    return;
  }
  const names = namesByAddress(session), rows = [];
  for (let at = 0; at < state.memory.length; at += Number(ROW)) {
    const address = state.address + BigInt(at);
    const cells = Array.from({ length: Number(ROW) }, (_, index) => cell(state, last, names, at + index));
    const text = Array.from(cells, (_, index) => letter(state.memory[at + index], state.rights[at + index]));
    const here = cells.flatMap((_, index) => names.get(address + BigInt(index)) ?? []);
    rows.push(make("tr", {},
      make("th", { scope: "row" }, hex(address)),
      make("td", { class: "dump" }, ...cells),
      make("td", { class: "letters" }, text.join("")),
      make("td", { class: "names" }, here.join(" "))));
  }
  place.replaceChildren(make("table", {}, make("tbody", {}, ...rows)));
}

function letter(byte, rights) {
  return rights === 0 ? " " : byte > 31 && byte < 127 ? String.fromCharCode(byte) : "·";
}

/** A byte; one that cannot be read is two lines. */
function cell(state, last, names, at) {
  const address = state.address + BigInt(at), isKnown = state.rights[at] !== 0;
  const place = last ? Number(address - last.address) : -1;
  const isChanged = isKnown && last?.rights[place] > 0 && last.memory[place] !== state.memory[at];
  const kinds = { none: !isKnown, changed: isChanged, sp: state.registers[2] === address, named: names.has(address) };
  const held = Object.keys(kinds).filter((it) => kinds[it]);
  return make("span", { class: ["byte", ...held].join(" ") }, isKnown ? hex(state.memory[at], 2) : "--");
}

/** The labels of the sources at their addresses: those of a line, in their order there. */
function namesByAddress({ program, files, state }) {
  const found = new Map();
  const put = (address, name) => found.set(address, [...(found.get(address) ?? []), name]);
  const seen = new Map();
  for (const { file, line, address } of program.labels) {
    const key = `${file}:${line}`, at = seen.get(key) ?? 0;
    seen.set(key, at + 1);
    const text = (files[file]?.text.split("\n")[line - 1] ?? "").replace(/#.*/, "");
    const name = [...text.matchAll(/([A-Za-z_.$][\w.$]*|\d+)\s*:/g)][at]?.[1];
    if (name) {
      put(address, name);
    }
  }
  put(state.registers[2], "← sp");
  return found;
}

/** @param {Session} session */
export function showConsole({ state }) {
  byId("console").textContent = state ? new TextDecoder().decode(state.console) : "";
  const written = state?.written ?? 0, rest = state && written > state.console.length ? ", the front is shown" : "";
  byId("written").textContent = written ? counted(written, "byte") + rest : "";
}

/** Where the run stands, in a line that is also read aloud. @param {Session} session */
export function placeInWords({ state, now, files, isAtEnd }) {
  if (!state) {
    return "";
  }
  if (isAtEnd) {
    return `Ended: ${endInWords(state.end)}.`;
  }
  const text = now?.instructions.find((it) => it.address === state.pc)?.text;
  return now ? `Next: ${files[now.file].name}:${now.line}, ${text}` : `Next: no statement, at ${hex(state.pc)}`;
}

/**
 * How the run has ended, in words, and whether the exercise is met.
 * @param {Session} session
 * @param {(file: number, line: number) => void} go leads to a line of the source
 */
export function showEnd(session, entries, go) {
  const { state, program, files } = session, parts = [];
  if (state && session.isAtEnd) {
    parts.push(...report(session, entries, go));
  }
  const came = !program && session.fault ? { fault: session.fault } : state && session.isAtEnd ? { state } : null;
  if (files[0] && isExercise(files[0].text)) {
    const names = files.map((it) => it.name);
    parts.push(came ? exercise(verdict(files[0].text, came, names)) : task(wanted(files[0].text)));
  }
  byId("end").replaceChildren(...parts);
}

function report(session, entries, go) {
  const { state, isExit } = session, { end } = state;
  const title = isExit ? `Exited with ${end.code}` : endInWords(end);
  const after = ` after ${counted(state.count, "instruction")}`;
  const parts = [make("p", { class: isExit ? "outcome" : "outcome bad" }, make("strong", {}, title), after)];
  const statement = session.now;
  if (!isExit) {
    const text = statement?.instructions.find((it) => it.address === state.pc)?.text;
    const onclick = () => go(statement.file, statement.line);
    const where = statement && make("button", { type: "button", class: "link", onclick },
      `${session.files[statement.file].name}:${statement.line}`);
    parts.push(make("p", {}, where, `${where ? ": " : ""}${text ?? "no statement"} at ${hex(state.pc)}`));
    const entry = entries[end.name];
    if (entry) {
      parts.push(make("p", { class: "why" }, sentence(entry.cause)));
      parts.push(make("p", { class: "why" }, `Cure: ${entry.cure}.`));
    }
  }
  return parts;
}

function sentence(text) {
  return `${text[0].toUpperCase()}${text.slice(1)}.`;
}

function task(all) {
  return make("p", { class: "exercise" }, make("strong", {}, "Exercise"), `: wanted is ${all.join(", ")}`);
}

function exercise(rows) {
  const isMet = rows.every((it) => it.isMet);
  const wrong = rows.filter((it) => !it.isMet).map((it) => make("li", {}, `wanted ${it.wanted}, came ${it.came}`));
  const told = make("strong", {}, isMet ? "✓ The exercise is met." : "The exercise is not met yet.");
  return make("div", { class: isMet ? "exercise met" : "exercise missed" },
    make("p", {}, told), wrong.length ? make("ul", {}, ...wrong) : null);
}
