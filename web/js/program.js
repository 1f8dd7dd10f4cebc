/**
 * A built program as the page shows it: the statements of its sources with what became of them. All is read from the
 * executable and its map (docs/manual/files.md); instructions are put into words by the library.
 */

/**
 * @typedef {object} Instruction
 * @property {bigint} address
 * @property {Uint8Array} bytes two where it is compressed, else four
 * @property {string} text
 */
/**
 * @typedef {object} Statement
 * @property {number} file from 0
 * @property {number} line from 1
 * @property {bigint} address
 * @property {Uint8Array} bytes
 * @property {Instruction[]} instructions none where it is data
 */
/** @typedef {{name: string, start: bigint, end: bigint}} Region */
/** @typedef {{start: bigint, end: bigint, offset: number}} Segment bytes of the file that stand in memory */

/** The rights of a segment that is executed (gABI, "Program Header"). */
const EXECUTABLE = 1;
const LOADED = 1;
/** `c.ebreak`, which may stand at each multiple of two. */
const EBREAK = [0x02, 0x90];

/** @returns {(Segment & {flags: number})[]} */
export function segments(executable) {
  const view = new DataView(executable.buffer, executable.byteOffset, executable.byteLength);
  const first = Number(view.getBigUint64(32, true)), size = view.getUint16(54, true), count = view.getUint16(56, true);
  return Array.from({ length: count }, (_, index) => first + index * size)
    .filter((at) => view.getUint32(at, true) === LOADED)
    .map((at) => {
      const start = view.getBigUint64(at + 16, true), length = view.getBigUint64(at + 32, true);
      const offset = Number(view.getBigUint64(at + 8, true));
      return { flags: view.getUint32(at + 4, true), start, end: start + length, offset };
    });
}

/** The bytes of an executable at an address, as far as its file has them. */
export function bytesAt(executable, parts, address, size) {
  const found = parts.find((it) => it.start <= address && address < it.end);
  if (!found) {
    return new Uint8Array();
  }
  const from = found.offset + Number(address - found.start);
  return executable.slice(from, Math.min(from + size, found.offset + Number(found.end - found.start)));
}

/**
 * The executable with an `ebreak` at some addresses. Code can be neither read nor written, so the run is that of the
 * executable until it first comes to one of them.
 */
export function withBreaks(executable, addresses) {
  const made = executable.slice();
  for (const { flags, start, end, offset } of segments(executable)) {
    for (const it of addresses) {
      if ((flags & EXECUTABLE) !== 0 && start <= it && it + 2n <= end) {
        made.set(EBREAK, offset + Number(it - start));
      }
    }
  }
  return made;
}

/** @param {import("./library.js").Library} library */
function instructions(library, address, bytes) {
  const found = [];
  for (let at = 0; at < bytes.length;) {
    const place = address + BigInt(at);
    const one = library.disassemble(bytes.slice(at, at + 4), place);
    if (!one) {
      break;
    }
    found.push({ address: place, bytes: bytes.slice(at, at + one.size), text: one.text });
    at += one.size;
  }
  return found;
}

/** @param {import("./library.js").Library} library @param {Uint8Array} map */
export function programOf(library, executable, map) {
  const parts = segments(executable);
  /** @type {{statements: Statement[], labels: object[], regions: Region[], globals: object[], entry: bigint}} */
  const program = { executable, statements: [], labels: [], regions: [], globals: [], entry: 0n };
  for (const line of new TextDecoder().decode(map).split("\n")) {
    const [kind, ...words] = line.split(" ");
    if (["text", "rodata", "data", "bss"].includes(kind)) {
      const [start, end] = words.map((it) => BigInt(`0x${it}`));
      program.regions.push({ name: kind, start, end });
    } else if (kind === "entry") {
      program.entry = BigInt(`0x${words[0]}`);
    } else if (kind === "global") {
      program.globals.push({ name: words[0], address: BigInt(`0x${words[1]}`) });
    } else if (kind === "row") {
      putRow(library, program, parts, words);
    }
  }
  return program;
}

/** A row of the map is a statement, or a label where it has no bytes. */
function putRow(library, program, parts, [file, line, , place, size, count]) {
  const address = BigInt(`0x${place}`), where = { file: Number(file) - 1, line: Number(line), address };
  if (size === "0") {
    program.labels.push(where);
    return;
  }
  const bytes = bytesAt(program.executable, parts, address, Number(size));
  const found = count === "0" ? [] : instructions(library, address, bytes);
  program.statements.push({ ...where, bytes, size: Number(size), instructions: found });
}
