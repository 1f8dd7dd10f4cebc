/**
 * The program that is on the page, and the step at which it is shown. Every state is that of the library for a number of
 * instructions, so a step back is as true as a step on.
 */

import { Stopped } from "./machine.js";
import { readHead } from "./lesson.js";

/** @typedef {{name: string, text: string}} File */

/** How far the length of a run is looked for unasked, and how far a run goes unless its head says another limit. */
const GLANCE = 200_000, LIMIT = 100_000_000;
/** From so many instructions on, to show a state takes as long as a run. */
const FAR = 3_000_000;
const ENCODER = new TextEncoder();

export class Session extends EventTarget {
  #machine;
  #version = 0;
  /** How many calls go on that may take long. */
  #long = 0;
  /** @type {File[]} */
  files = [];
  current = 0;
  input = "";
  /** Lines, as `FILE:LINE`. @type {Set<string>} */
  breakpoints = new Set();
  /** What is to be shown of memory. */
  window = { address: 0n, size: 0 };
  /** @type {object[]} */
  findings = [];
  program = null;
  step = 0;
  /** The step that was asked for last, which may not be there yet. */
  aim = 0;
  /** The last step, where the run is known to end, or as far as it was followed. */
  length = 0;
  isWhole = false;
  state = null;
  /** The state that was shown before. */
  last = null;

  /** @param {import("./machine.js").Machine} machine */
  constructor(machine) {
    super();
    this.#machine = machine;
  }

  get limit() {
    return Number(readHead(this.files[0].text).get("limit") ?? LIMIT) || LIMIT;
  }

  #tell(name, detail) {
    this.dispatchEvent(new CustomEvent(name, { detail }));
  }

  /**
   * A call to the machine, of which nothing is heard any more once the program has changed. One that may take long has a
   * label, with which it tells how far it is; the others tell nothing, and so are never waited for.
   */
  async #ask(name, words, label) {
    const version = this.#version;
    const told = (done) => label && version === this.#version && this.#tell("busy", { label, done });
    if (label) {
      this.#long += 1;
      this.#tell("busy", { label, done: 0 });
    }
    try {
      const answer = await this.#machine.call(name, words, told);
      return version === this.#version ? answer : undefined;
    } catch (why) {
      if (version === this.#version && !(why instanceof Stopped)) {
        this.#tell("trouble", why.message);
      }
      return undefined;
    } finally {
      if (label && --this.#long === 0) {
        this.#tell("idle");
      }
    }
  }

  get #run() {
    return { executable: this.program.executable, input: ENCODER.encode(this.input) };
  }

  /** Hears nothing more of what was asked, because the files have changed and will be built. */
  forget() {
    this.#version += 1;
  }

  /** Takes other files; the first is shown. @param {File[]} files */
  async open(files, input = "") {
    this.files = files;
    this.current = 0;
    this.input = input;
    this.breakpoints = new Set();
    this.findings = [];
    this.program = this.state = this.last = null;
    this.#tell("files");
    await this.build();
  }

  /** Checks and builds what the files have now, and goes to the start. */
  async build() {
    const version = ++this.#version;
    if (this.#machine.isBusy) {
      this.#machine.stop();
    }
    const [sources, names] = ["text", "name"].map((key) => this.files.map((it) => ENCODER.encode(it[key])));
    const made = await this.#ask("build", { sources, names });
    if (made) {
      await this.#begin(made);
    }
    if (version === this.#version) {
      this.#tell("settled");
    }
  }

  /** Takes what was built, and goes to its start. */
  async #begin({ findings, fault, program }) {
    this.findings = this.#inOrder(findings);
    this.fault = fault;
    this.program = program ?? null;
    this.state = this.last = null;
    this.step = this.length = 0;
    this.isWhole = false;
    this.#tell("built");
    if (this.program) {
      await this.#show(0);
      await this.#glance();
    }
  }

  /** What is wrong, by file and line; what is wrong with the program comes last. */
  #inOrder(findings) {
    const file = (it) => this.files.findIndex(({ name }) => name === it.file);
    const place = (it) => (it.line ? [file(it), it.line, it.column ?? 0] : [this.files.length, 0, 0]);
    const compare = (one, other) => one.map((it, at) => it - other[at]).find((it) => it !== 0) ?? 0;
    return findings.toSorted((one, other) => compare(place(one), place(other)));
  }

  /** Looks how long the run is, if it is short. */
  async #glance() {
    const found = await this.#ask("length", { ...this.#run, limit: GLANCE });
    if (found && !found.fault) {
      this.#learn(found);
      this.#tell("length");
    }
  }

  #learn({ count, end }) {
    this.length = Math.max(this.length, count);
    this.isWhole ||= end.name !== "Limit";
  }

  /** Goes to the state after some instructions. */
  async show(step) {
    await this.#show(step);
    this.#tell("moved");
  }

  /** Shows the state after some instructions; again, if only what is shown of it has changed. */
  async #show(step, isAgain = false) {
    if (!this.program) {
      return;
    }
    const { address, size } = this.window;
    const aim = Math.max(step, 0);
    this.aim = aim;
    const label = aim > FAR ? "Going there" : undefined;
    const state = await this.#ask("state", { ...this.#run, steps: aim, address, size }, label);
    if (!state) {
      return;
    }
    if (state.fault) {
      this.#tell("trouble", state.fault.text);
      return;
    }
    if (!isAgain) {
      this.last = this.state;
    }
    this.state = { ...state, address };
    this.step = state.count;
    // (a step that was asked for since counts from where this one was to lead)
    this.aim = this.aim === aim ? state.count : this.aim;
    this.#learn(state);
    this.#tell("state");
  }

  /** Shows the state again, with another part of memory. */
  look() {
    return this.#show(this.step, true);
  }

  get isAtEnd() {
    return this.state !== null && this.state.end.name !== "Limit";
  }

  /** Whether the run has ended as its program wanted. */
  get isExit() {
    return this.state?.end.name === "Exited";
  }

  /** Goes to where a call of the machine says. */
  async #go(name, words, label) {
    if (this.program) {
      const step = await this.#ask(name, { ...this.#run, from: this.step, limit: this.limit, ...words }, label);
      if (step !== undefined) {
        await this.show(step);
      }
    }
  }

  /** Runs to the next breakpoint, or to the end. */
  async run() {
    const addresses = [...this.breakpoints].map((it) => this.#addressOf(it)).filter((it) => it !== undefined);
    if (this.isAtEnd) {
      await this.show(0);
    }
    if (addresses.length) {
      await this.#go("reach", { addresses }, "Running");
    } else if (this.program) {
      const state = await this.#ask("length", { ...this.#run, limit: this.limit }, "Running");
      if (state) {
        await this.show(state.count);
      }
    }
  }

  /** Runs to a line of the file that is shown. */
  async toLine(line) {
    const address = this.#addressOf(`${this.current}:${line}`);
    if (address === undefined) {
      this.#tell("trouble", "Nothing is executed at or behind this line.");
      return;
    }
    await this.#go("reach", { addresses: [address] }, "Running");
  }

  over() {
    return this.#go("over", {}, "Running");
  }

  out() {
    return this.#go("out", {}, "Running");
  }

  /** Ends what goes on; the program stays where it was, or is at its start if to come there takes long. */
  async stop() {
    this.#version += 1;
    this.#machine.stop();
    const step = this.step > FAR ? 0 : this.step;
    await this.build();
    const version = this.#version;
    await this.show(step);
    if (version === this.#version) {
      this.#tell("stopped");
    }
  }

  /** The first instruction at a line or behind it. */
  #addressOf(place) {
    const [file, line] = place.split(":").map(Number);
    const code = this.program?.statements.filter((it) => it.file === file && it.instructions.length && it.line >= line);
    return code?.sort((a, b) => a.line - b.line)[0]?.address;
  }

  /** The statement that has the next instruction. */
  get now() {
    return this.state && this.program?.statements.find(
      (it) => it.instructions.some(({ address }) => address === this.state.pc));
  }

  toggle(file, line) {
    const place = `${file}:${line}`;
    if (!this.breakpoints.delete(place)) {
      this.breakpoints.add(place);
    }
    this.#tell("breakpoints");
  }
}
