/**
 * The thread in which rv runs. Each message is a call, `{id, call, words}`, and its answer `{id, answer}` or
 * `{id, trouble}`; a long one tells how far it is, `{id, done}`.
 */

import { Library } from "./library.js";
import { programOf } from "./program.js";
import { Runs } from "./seeking.js";

/** @type {Library} */
let library;
/** @type {Runs} */
let runs;
/** The instructions of the program that was built last, by address. @type {Map<bigint, {text: string, size: number}>} */
let texts = new Map();

const textAt = (address) => texts.get(address);

function build({ sources, names }) {
  const findings = new TextDecoder().decode(library.check(sources, names)).split("\n").filter(Boolean)
    .map((it) => JSON.parse(it));
  const built = library.build(sources);
  if (built.fault) {
    return { findings, fault: built.fault };
  }
  const program = programOf(library, built.executable, built.map);
  const all = program.statements.flatMap((it) => it.instructions);
  texts = new Map(all.map((it) => [it.address, { text: it.text, size: it.bytes.length }]));
  return { findings, program };
}

/** A state as the page shows it. */
const shown = ({ kept, ...state }) => state;

const CALLS = {
  async open({ module }) {
    library = await Library.over(module);
    runs = new Runs(library);
    return true;
  },
  build,
  state: ({ executable, input, steps, address, size }, told) =>
    shown(runs.at(executable, input, steps, told, address, size)),
  length: ({ executable, input, limit }, told) => shown(runs.at(executable, input, limit, told)),
  reach: ({ executable, input, from, addresses, limit }, told) =>
    runs.toOne(executable, input, from, addresses, limit, told),
  over: ({ executable, input, from, limit }, told) => runs.over(executable, input, from, textAt, limit, told),
  out: ({ executable, input, from, limit }, told) => runs.out(executable, input, from, textAt, limit, told),
};

async function answer({ id, call, words }) {
  try {
    self.postMessage({ id, answer: await CALLS[call](words, (done) => self.postMessage({ id, done })) });
  } catch (trouble) {
    self.postMessage({ id, trouble: String(trouble.message ?? trouble) });
  }
}

// (one call after the other: the first has to wait for the module)
let before = Promise.resolve();
self.onmessage = ({ data }) => {
  before = before.then(() => answer(data));
};
