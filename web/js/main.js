/** Puts the page together: what is pressed or written goes to the session, and what the session tells is shown. */

import { byId, counted, hex, later, make } from "./dom.js";
import { Editor } from "./editor.js";
import { inputOf } from "./lesson.js";
import { Machine } from "./machine.js";
import * as panes from "./panes.js";
import { Picker } from "./picker.js";
import { Session } from "./session.js";
import { addressOf, programIn } from "./share.js";
import { Shelf } from "./shelf.js";
import { themed } from "./theme.js";
import { Language } from "./tokens.js";

const PAUSE = 150;
/** The smallest module with a memory of 64-bit addresses. */
const WITH_MEMORY64 = Uint8Array.of(0, 0x61, 0x73, 0x6d, 1, 0, 0, 0, 5, 3, 1, 4, 1);
const NO_MEMORY64 = "rv needs WebAssembly with 64-bit memory, which this browser does not have. Current versions of Chrome, "
  + "Edge and Firefox have it.";

/** What the keys do, and the buttons that do the same. */
const KEYS = [
  ["Ctrl+Enter", "Run to the next breakpoint or the end", "run"],
  ["F7", "Step", "step"],
  ["Shift+F7", "Step back", "back"],
  ["F8", "Step over a call", "over"],
  ["Shift+F8", "Step out of a function", "out"],
  ["F9", "Set or remove a breakpoint at the line", null],
  ["Shift+F9", "Run to the line of the caret", "cursor"],
  ["Escape", "Stop what runs; in the editor, let Tab leave it", "stop"],
  ["Ctrl+Space", "Complete a word", null],
  ["Tab", "Take a completion, or indent", null],
];

class Page {
  /** @param {Session} session @param {Language} language @param {Picker} picker */
  constructor(session, language, picker) {
    this.session = session;
    this.language = language;
    this.picker = picker;
    this.isBusy = false;
    this.busyText = "";
    this.editor = new Editor(byId("editor"), language);
    this.build = later(() => session.build(), PAUSE);
    this.#hear();
    this.#listen();
  }

  /** What the session tells. */
  #hear() {
    const on = (name, action) => this.session.addEventListener(name, ({ detail }) => action(detail));
    on("files", () => this.#showFile());
    on("built", () => this.#showBuilt());
    on("state", () => this.#showState());
    on("moved", () => this.#follow());
    on("length", () => this.#showPlace());
    on("breakpoints", () => this.#showBreakpoints());
    on("busy", ({ label, done }) => this.#showBusy(`${label} …${done ? ` ${counted(done, "instruction")}` : ""}`));
    on("idle", () => this.#showBusy(""));
    on("trouble", (text) => this.say(text));
    on("stopped", () => this.say(`Stopped. ${panes.placeInWords(this.session)}`));
    on("settled", () => this.#setReady(true));
  }

  /** Whether all that was written is built and shown. */
  get isReady() {
    return document.documentElement.dataset.ready === "true";
  }

  #setReady(is) {
    document.documentElement.dataset.ready = String(is);
    this.#showButtons();
  }

  /** Something was written, which is built once no more is written for a while. */
  #wrote() {
    this.session.forget();
    this.#setReady(false);
    this.picker.keep(this.session);
    this.build();
  }

  /** Runs what stands there now, so first of all it has to be built. */
  async #run() {
    if (!this.isReady) {
      await new Promise((done) => this.session.addEventListener("settled", done, { once: true }));
    }
    if (!this.isBusy) {
      await this.session.run();
    }
  }

  /** What is pressed or written. */
  #listen() {
    const { session, editor } = this;
    editor.addEventListener("change", () => {
      session.files[session.current].text = editor.text;
      this.#wrote();
    });
    editor.addEventListener("move", () => this.#showCaret());
    editor.addEventListener("breakpoint", ({ detail }) => session.toggle(session.current, detail));
    const actions = {
      run: () => this.#run(),
      stop: () => session.stop(),
      restart: () => session.show(0),
      back: () => session.show(session.aim - 1),
      step: () => session.show(session.aim + 1),
      over: () => session.over(),
      out: () => session.out(),
      cursor: () => session.toLine(editor.line),
      share: () => this.share(),
      keys: () => byId("keys-box").showModal(),
      about: () => byId("about-box").showModal(),
    };
    for (const [id, action] of Object.entries(actions)) {
      byId(id).addEventListener("click", ({ currentTarget }) => isOff(currentTarget) || action());
    }
    // (only the newest place is shown while the slider moves)
    const slide = later(() => session.show(Number(byId("slider").value)), 15);
    byId("slider").addEventListener("input", slide);
    byId("input").addEventListener("input", ({ target }) => {
      session.input = target.value;
      this.#wrote();
    });
    for (const it of ["region", "address"]) {
      byId(it).addEventListener("change", ({ target }) => {
        const region = byId("region");
        region.value = target.id === "address" ? "other" : region.value;
        region.dataset.chosen = region.value;
        session.window = panes.windowOf(session);
        session.look();
      });
    }
    this.picker.addEventListener("open", ({ detail }) => this.#open(detail));
    document.addEventListener("keydown", (event) => this.#key(event));
    // (before all others, so that none keeps Escape from what runs)
    document.addEventListener("keydown", (event) => this.#escape(event), { capture: true });
  }

  #escape(event) {
    if (event.key === "Escape" && this.isBusy && !isBoxOpen()) {
      event.preventDefault();
      event.stopPropagation();
      byId("stop").click();
    }
  }

  #key(event) {
    const name = `${event.ctrlKey || event.metaKey ? "Ctrl+" : ""}${event.shiftKey ? "Shift+" : ""}${event.key}`;
    const [, , button] = KEYS.find(([key]) => key === name) ?? [];
    if (event.defaultPrevented || isBoxOpen() || button === undefined || button === "stop") {
      return;
    }
    if (name === "F9") {
      this.session.toggle(this.session.current, this.editor.line);
    } else if (button === null) {
      return;
    } else {
      byId(button).click();
    }
    event.preventDefault();
  }

  /** Opens a program; one that was chosen is not that of the address. */
  async #open({ files, input, isChosen }) {
    if (isChosen) {
      history.replaceState(null, "", location.pathname + location.search);
    }
    this.#setReady(false);
    await this.session.open(files, input ?? inputOf(files[0].text));
  }

  #showFile() {
    const { session } = this;
    this.editor.text = session.files[session.current].text;
    byId("input").value = session.input;
    this.#showTabs();
    this.#showBreakpoints();
    this.#showFindings();
  }

  #showTabs() {
    const { session } = this;
    const open = (at) => {
      session.current = at;
      this.#showFile();
      this.#showState();
    };
    const tabs = session.files.map(({ name }, at) => make("button", {
      type: "button",
      class: "file",
      "aria-pressed": String(at === session.current),
      title: "Double click, or F2, to rename",
      onclick: () => open(at),
      ondblclick: () => this.#rename(at),
      onkeydown: (event) => event.key === "F2" && this.#rename(at),
    }, name));
    const add = () => {
      session.files.push({ name: this.#freeName(), text: "" });
      open(session.files.length - 1);
      this.#wrote();
    };
    const remove = () => {
      session.files.splice(session.current, 1);
      session.breakpoints.clear();
      open(0);
      this.#wrote();
    };
    const small = (sign, name, onclick) => make("button", { type: "button", class: "small", onclick, "aria-label": name }, sign);
    const plus = small("+", "Add a file", add), minus = small("−", `Remove ${session.files[session.current].name}`, remove);
    byId("files").replaceChildren(...tabs, plus, ...(tabs.length > 1 ? [minus] : []));
  }

  #freeName() {
    const names = this.session.files.map((it) => it.name);
    return ["b.s", "c.s", "d.s"].find((it) => !names.includes(it)) ?? `file${names.length + 1}.s`;
  }

  #rename(at) {
    const name = prompt("The name of the file", this.session.files[at].name)?.trim();
    if (name) {
      this.session.files[at].name = name;
      this.#showTabs();
      this.#wrote();
    }
  }

  #showBuilt() {
    const { session } = this;
    this.#showFindings();
    panes.showListing(session, (file, line) => this.#leadTo(file, line));
    panes.showRegions(session);
    session.window = panes.windowOf(session);
    this.#showState();
  }

  /** Shows a file; with a line, the caret goes there. */
  #leadTo(file, line, column = 1) {
    if (file !== this.session.current) {
      this.session.current = file;
      this.#showFile();
    }
    if (line) {
      this.editor.go(line, column);
    }
  }

  #showFindings() {
    const { session, language, editor } = this;
    const marks = session.findings.map((it) => markOf(it, session.files, language));
    const { name } = session.files[session.current];
    editor.marks = marks.filter((_, at) => [name, null].includes(session.findings[at].file));
    const rows = session.findings.map((it, at) => this.#finding(it, marks[at]));
    const none = make("li", { class: "none" }, "No fault, and nothing to warn of.");
    byId("faults").replaceChildren(...(rows.length ? rows : [none]));
    const faults = session.findings.filter((it) => it.severity === "error").length;
    const sums = [[faults, "fault"], [session.findings.length - faults, "warning"]].filter(([count]) => count > 0);
    byId("faults-title").textContent = sums.map(([count, noun]) => counted(count, noun)).join(", ") || "Faults";
  }

  #finding(finding, mark) {
    const { session, language } = this, entry = language.entries[finding.code];
    const at = Math.max(session.files.findIndex((it) => it.name === finding.file), 0);
    const open = () => this.#leadTo(at, Math.max(mark.line, 1), mark.column ?? 1);
    const place = finding.line ? `${finding.file}:${finding.line}` : "The program";
    const more = entry && make("details", {}, make("summary", {}, entry.title),
      make("p", {}, `Cause: ${entry.cause}.`), make("pre", {}, entry.example), make("p", {}, `Cure: ${entry.cure}.`));
    return make("li", { class: finding.severity },
      make("button", { type: "button", class: "link", onclick: open }, place),
      make("span", { class: "sort" }, finding.severity === "error" ? "fault" : "warning"),
      make("span", { class: "message" }, finding.message), more || null);
  }

  #showBreakpoints() {
    const { session, editor } = this;
    const own = [...session.breakpoints].map((it) => it.split(":").map(Number)).filter(([file]) => file === session.current);
    editor.breakpoints = new Set(own.map(([, line]) => line));
    panes.markListing(session, editor.line);
  }

  #showCaret() {
    const { session, editor, language } = this;
    panes.markListing(session, editor.line);
    const { tokens } = language.tokens(editor.text.split("\n")[editor.line - 1] ?? "");
    const isWord = ({ sort, text }) => ["mnemonic", "directive"].includes(sort) && language.operands(text) !== undefined;
    const word = tokens.findLast(isWord);
    byId("hint").textContent = word ? `${word.text} ${language.operands(word.text)}` : "";
  }

  #showState() {
    const { session, editor, language } = this;
    const now = session.now;
    editor.now = now?.file === session.current && !session.isExit ? now.line : 0;
    panes.showRegisters(session, language.registers);
    panes.showMemory(session);
    panes.showConsole(session);
    panes.showEnd(session, language.entries, (file, line) => this.#leadTo(file, line));
    panes.markListing(session, editor.line);
    this.#showPlace();
    this.say(panes.placeInWords(session));
    // the part of memory that is shown may follow the stack
    const window = panes.windowOf(session);
    if (session.state && (window.address !== session.window.address || window.size !== session.window.size)) {
      session.window = window;
      session.look();
    }
  }

  /** Shows the file in which the run is now. */
  #follow() {
    const { session } = this, file = session.now?.file ?? session.current;
    if (file !== session.current && file < session.files.length) {
      this.#leadTo(file);
      this.#showState();
    }
  }

  #showPlace() {
    const { session } = this, slider = byId("slider");
    const has = session.program !== null && session.state !== null;
    slider.max = String(session.length);
    slider.value = String(session.step);
    slider.disabled = !has;
    const whole = session.length.toLocaleString("en");
    const length = session.isWhole ? whole : `more than ${whole}`;
    const text = has ? `Step ${session.step.toLocaleString("en")} of ${length}` : "No run";
    byId("place").textContent = text;
    slider.setAttribute("aria-valuetext", text);
    this.#showButtons();
  }

  #showButtons() {
    const { session, isBusy } = this, has = session.state !== null && !isBusy;
    const isOn = has && !session.isAtEnd, isBehind = has && session.step > 0;
    const run = has || !this.isReady && !isBusy;
    const may = { run, stop: isBusy, cursor: has, step: isOn, over: isOn, out: isOn, back: isBehind, restart: isBehind };
    for (const [id, is] of Object.entries(may)) {
      // (what has the focus keeps it, so that a key can be pressed again)
      byId(id).setAttribute("aria-disabled", String(!is));
    }
  }

  #showBusy(text) {
    this.isBusy = text !== "";
    this.#showButtons();
    if (this.isBusy || byId("status").textContent === this.busyText) {
      this.say(text);
    }
    this.busyText = text;
  }

  say(text) {
    byId("status").textContent = text;
  }

  async share() {
    const address = await addressOf(this.session);
    history.replaceState(null, "", address);
    try {
      await navigator.clipboard.writeText(location.href);
      this.say("The address has the program now, and is copied.");
    } catch {
      this.say("The address of the page has the program now.");
    }
  }
}

function isOff(button) {
  return button.getAttribute("aria-disabled") === "true";
}

function isBoxOpen() {
  return document.querySelector("dialog[open]") !== null;
}

/** Where a finding stands: from its column, which counts bytes, to the end of the word there. */
function markOf({ file, line, column, severity, message, code }, files, language) {
  const text = (files.find((it) => it.name === file) ?? files[0]).text.split("\n")[(line ?? 1) - 1] ?? "";
  const bytes = new TextEncoder().encode(text);
  const start = column ? new TextDecoder().decode(bytes.slice(0, column - 1)).length : text.search(/\S|$/);
  const token = language.tokens(text).tokens.findLast((it) => it.start <= start);
  const end = column ? (token?.start ?? 0) + (token?.text.length ?? 1) : text.replace(/\s*#.*/, "").length;
  const told = code ? `${code}: ${message}` : message;
  return { line: line ?? 0, column: start + 1, end: Math.max(end, start + 1), severity, text: told };
}

function showFacts({ kind, commit, version }) {
  byId("kind").textContent = `${kind}, commit ${commit}`;
  byId("kind").classList.toggle("unproved", kind !== "all proved");
  byId("about-kind").textContent = kind === "all proved"
    ? `rv ${version} runs here by its library, of which every function is proved (commit ${commit}).`
    : `rv ${version} runs here by its library, which was made without proof (commit ${commit}).`;
}

async function read(name) {
  return (await fetch(new URL(`../data/${name}.json`, import.meta.url))).json();
}

/** The library's code; some servers do not say that it is WebAssembly. */
async function code() {
  const address = new URL("../rv.wasm", import.meta.url);
  try {
    return await WebAssembly.compileStreaming(fetch(address));
  } catch {
    return WebAssembly.compile(await (await fetch(address)).arrayBuffer());
  }
}

async function start() {
  themed(byId("theme"));
  const rows = KEYS.map(([key, what]) => make("tr", {}, make("th", { scope: "row" }, make("kbd", {}, key)), make("td", {}, what)));
  byId("keys-table").replaceChildren(make("tbody", {}, ...rows));
  const [tables, examples, facts] = await Promise.all(["language", "examples", "facts"].map(read));
  showFacts(facts);
  if (!WebAssembly.validate(WITH_MEMORY64)) {
    byId("status").textContent = NO_MEMORY64;
    return;
  }
  const picker = new Picker(byId("examples"), new Shelf(), examples);
  const page = new Page(new Session(new Machine(await code())), new Language(tables), picker);
  const open = async () => {
    const shared = await programIn(location.hash);
    if (shared) {
      picker.open(shared);
    }
    return shared !== null;
  };
  addEventListener("hashchange", open);
  if (!await open()) {
    picker.begin();
  }
  return page;
}

start().catch((why) => {
  byId("status").textContent = `The page cannot start: ${why.message}`;
});
