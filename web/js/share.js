/** The program in the page's address, behind `#`, where no server sees it: packed JSON in letters that an address may have. */

const MARK = "#p=";

async function through(stream, bytes) {
  return new Uint8Array(await new Response(new Blob([bytes]).stream().pipeThrough(stream)).arrayBuffer());
}

function toLetters(bytes) {
  const text = Array.from(bytes, (it) => String.fromCharCode(it)).join("");
  return btoa(text).replaceAll("+", "-").replaceAll("/", "_").replaceAll("=", "");
}

function fromLetters(letters) {
  const text = atob(letters.replaceAll("-", "+").replaceAll("_", "/"));
  return Uint8Array.from(text, (it) => it.charCodeAt(0));
}

/** The part of an address that holds a program. @param {{files: {name: string, text: string}[], input: string}} program */
export async function addressOf({ files, input }) {
  const held = JSON.stringify({ f: files.map((it) => [it.name, it.text]), i: input });
  return MARK + toLetters(await through(new CompressionStream("deflate-raw"), new TextEncoder().encode(held)));
}

/** The program of an address; null where there is none, or one that cannot be read. */
export async function programIn(hash) {
  if (!hash.startsWith(MARK)) {
    return null;
  }
  try {
    const bytes = await through(new DecompressionStream("deflate-raw"), fromLetters(hash.slice(MARK.length)));
    const { f, i } = JSON.parse(new TextDecoder().decode(bytes));
    const files = f.map(([name, text]) => ({ name: String(name), text: String(text) }));
    return files.length ? { files, input: String(i ?? "") } : null;
  } catch {
    return null;
  }
}
