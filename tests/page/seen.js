/**
 * What the tests of the page look at in it. Each function is called by its name; what it gives is JSON.
 */
globalThis.seen = {
  text: (id) => document.getElementById(id).textContent,
  value: (id) => document.getElementById(id).value,
  has: (id, text) => document.getElementById(id).textContent.includes(text),
  click: (id) => document.getElementById(id).click(),
  register: (number) => document.querySelectorAll("#registers tbody tr")[number].querySelector(".hex").textContent,
  isIdle: () => document.getElementById("stop").getAttribute("aria-disabled") === "true",
  isBusy: () => document.getElementById("stop").getAttribute("aria-disabled") === "false",
  marked: () => [...document.querySelectorAll(".layer .marked.error")].map((it) => it.textContent).join(""),
  changed: () => [...document.querySelectorAll("#registers .changed th")].map((it) => it.textContent).join(" "),
  choices: () => [...document.querySelectorAll("#choices [role=option]")].map((it) => it.textContent),
  focus: (id) => document.getElementById(id).focus(),
  forget: () => localStorage.clear(),
  hash: () => location.hash,
  width: () => document.documentElement.scrollWidth,
  line: () => {
    const { value, selectionStart } = document.getElementById("source");
    return value.slice(0, selectionStart).split("\n").length;
  },
  rows: (kind) => [...document.querySelectorAll(`#listing tr.${kind} .text`)].map((it) => it.firstChild.data),
  shown: (selector) => [...document.querySelectorAll(selector)].filter((it) => it.checkVisibility())
    .map((it) => it.innerText).join(" "),
  chosen: (id) => document.getElementById(id).selectedOptions[0].text,
  bytes: () => [...document.querySelectorAll("#memory .byte")].map((it) => it.textContent).join(""),
  focusOn: (selector) => document.querySelector(selector).focus(),
  isOpen: (id) => document.getElementById(id).open,
  /** The places of all controls that Tab should come to. */
  controls: () => [...document.querySelectorAll("button, select, input, textarea, summary, a[href], [tabindex='0']")]
    .filter((it) => it.checkVisibility() && !it.matches(":disabled") && !it.closest("dialog")).map(placeOf),
  closeBoxes: () => document.querySelectorAll("dialog").forEach((it) => it.close()),

  /** Puts a text in place of the source, as a person does who selects all of it and pastes. */
  put(text) {
    const area = document.getElementById("source");
    area.focus();
    area.select();
    document.execCommand("insertText", false, text);
  },

  /** Changes a field without the keyboard. */
  set(id, value, event) {
    const field = document.getElementById(id);
    field.value = value;
    field.dispatchEvent(new Event(event, { bubbles: true }));
  },

  choose(name) {
    const list = document.getElementById("examples");
    const option = [...list.options].find((it) => it.text === name);
    if (option) {
      seen.set("examples", option.value, "change");
    }
    return option !== undefined;
  },

  /** Presses the button that sets a breakpoint at a line. */
  breakAt: (line) => document.querySelector(`#listing tr[data-line="${line}"] .dot`).click(),

  /** Puts the caret before a part of the source. */
  caret(part) {
    const area = document.getElementById("source"), at = area.value.indexOf(part);
    area.focus();
    area.setSelectionRange(at, at);
  },

  /** The names in a part of the list of programs. */
  programs: (label) => [...document.querySelectorAll(`#examples optgroup[label="${label}"] option`)].map((it) => it.text),

  /** Whether an element is wholly within what scrolls around it. */
  isInSight(selector, around) {
    const own = document.querySelector(selector).getBoundingClientRect();
    const box = document.querySelector(around).getBoundingClientRect();
    return own.top >= box.top && own.bottom <= box.bottom && own.left >= box.left && own.right <= box.right;
  },

  addFile: () => document.querySelector('#files [aria-label="Add a file"]').click(),

  /** What has the focus, and whether this is seen. */
  focused() {
    const it = document.activeElement, around = it.id === "source" ? it.closest(".pane") : it;
    const { outlineStyle, outlineWidth } = getComputedStyle(around);
    const isRinged = outlineStyle !== "none" && parseFloat(outlineWidth) >= 2;
    return { id: it.id, tag: it.tagName, place: placeOf(it), isRinged, isInBox: it.closest("dialog[open]") !== null };
  },

  /** Each text with too little contrast to what is behind it (WCAG 2.2, 1.4.3). */
  faint(least) {
    const found = [...document.querySelectorAll("body *")].filter(isText).map((it) => [it, contrastOf(it)]);
    const told = ([it, ratio]) => `${it.tagName}.${it.className} '${it.textContent.trim().slice(0, 20)}': ${ratio.toFixed(2)}`;
    return { count: found.length, wrong: [...new Set(found.filter(([, ratio]) => ratio < least).map(told))] };
  },

  structure() {
    const ids = [...document.querySelectorAll("[id]")].map((it) => it.id);
    const keys = ["aria-labelledby", "aria-describedby", "aria-controls"];
    const pointed = [...document.querySelectorAll(keys.map((it) => `[${it}]`).join(", "))]
      .flatMap((it) => keys.map((key) => it.getAttribute(key))).filter(Boolean).flatMap((it) => it.split(" "));
    return {
      twice: ids.filter((it, at) => ids.indexOf(it) !== at),
      lost: pointed.filter((it) => !ids.includes(it)),
      first: document.querySelectorAll("h1").length,
      language: document.documentElement.lang,
      title: document.title,
    };
  },

  /** What the library gives for calls: hashes of files, the console, the end. */
  async given(calls) {
    globalThis.libraryForTests ??= await libraryOfPage();
    const found = [];
    for (const it of calls) {
      found.push(await givenFor(libraryForTests, it));
    }
    return found;
  },

  /** Makes a program ready to be timed: the engine makes its good code of what is called often. */
  async warm(source) {
    const library = await libraryOfPage();
    const { executable } = library.build([new TextEncoder().encode(source)]), none = new Uint8Array();
    globalThis.timedForTests = (name, count) => library[name](executable, none, count);
    for (const count of [1e5, 1e5, 1e6, 1e6]) {
      timedForTests("run", count);
      timedForTests("state", count);
    }
  },

  /** So many instructions of that program, by a function of the library. */
  runs(name, count) {
    timedForTests(name, count);
  },
};

/** What an element is, and the how manieth of the page. */
function placeOf(it) {
  return `${it.tagName} ${it.id || it.getAttribute("aria-label") || it.textContent.trim()} ${[...document.querySelectorAll("*")].indexOf(it)}`;
}

function isText(it) {
  const own = [...it.childNodes].some((node) => node.nodeType === Node.TEXT_NODE && node.data.trim());
  const isOff = it.closest("textarea, [aria-disabled=true], :disabled, option, .unseen");
  return own && it.checkVisibility() && isOff === null;
}

/** A colour of CSS as the canvas paints it: red, green, blue, and from 0 to 1 how much it covers. */
function channels(css) {
  globalThis.canvasForTests ??= document.createElement("canvas").getContext("2d", { willReadFrequently: true });
  canvasForTests.clearRect(0, 0, 1, 1);
  canvasForTests.fillStyle = css;
  canvasForTests.fillRect(0, 0, 1, 1);
  const [red, green, blue, cover] = canvasForTests.getImageData(0, 0, 1, 1).data;
  return [red, green, blue, cover / 255];
}

function over(upper, lower) {
  return [0, 1, 2].map((at) => upper[at] * upper[3] + lower[at] * (1 - upper[3]));
}

/** The colour behind an element. */
function behind(element) {
  const layers = [];
  for (let it = element; it; it = it.parentElement) {
    layers.unshift(channels(getComputedStyle(it).backgroundColor));
  }
  return layers.reduce((lower, upper) => over(upper, lower), [255, 255, 255]);
}

function luminance(colour) {
  const linear = colour.map((it) => it / 255).map((it) => it <= 0.04045 ? it / 12.92 : ((it + 0.055) / 1.055) ** 2.4);
  return 0.2126 * linear[0] + 0.7152 * linear[1] + 0.0722 * linear[2];
}

/** How much of an element is seen through it and what is around it. */
function opacityOf(element) {
  return element ? Number(getComputedStyle(element).opacity) * opacityOf(element.parentElement) : 1;
}

function contrastOf(element) {
  const ground = behind(element), [red, green, blue, cover] = channels(getComputedStyle(element).color);
  const text = over([red, green, blue, cover * opacityOf(element)], ground);
  const [low, high] = [luminance(ground), luminance(text)].sort((a, b) => a - b);
  return (high + 0.05) / (low + 0.05);
}

async function libraryOfPage() {
  const { Library } = await import(new URL("js/library.js", location.href));
  return Library.over(await WebAssembly.compileStreaming(fetch("rv.wasm")));
}

function unpacked(letters) {
  return Uint8Array.from(atob(letters), (sign) => sign.charCodeAt(0));
}

function packed(bytes) {
  return btoa(Array.from(bytes, (it) => String.fromCharCode(it)).join(""));
}

async function hashed(bytes) {
  const digest = new Uint8Array(await crypto.subtle.digest("SHA-256", bytes));
  return Array.from(digest, (it) => it.toString(16).padStart(2, "0")).join("");
}

function ended({ name, code, address }) {
  const isAlone = ["Limit", "Breakpoint"].includes(name);
  return name === "Exited" ? `exit ${code}` : isAlone ? name : `${name} ${address.toString(16)}`;
}

/** What each call of a case gives, up to the first that is refused; what one makes, the next may name. */
async function givenFor(library, { files, steps }) {
  const held = new Map(Object.entries(files).map(([name, it]) => [name, unpacked(it)])), found = [];
  for (const step of steps) {
    const made = madeBy(library, held, step);
    found.push(made.fault ? { fault: lineOf(made.fault, step.names) } : await shown(made));
    if (made.fault) {
      break;
    }
    held.set(step.to, made.executable ?? made.object);
  }
  return found;
}

function madeBy(library, held, { verb, names, start, flags, ...run }) {
  const bytes = names.map((it) => held.get(it)), named = names.map((it) => new TextEncoder().encode(it));
  return {
    as: () => library.assemble(bytes[0]),
    list: () => library.list(bytes, named),
    check: () => ({ text: library.check(bytes, named) }),
    build: () => library.build(bytes, { start: BigInt(start), flags }),
    ld: () => library.link(bytes, { start: BigInt(start), flags }),
    run: () => ranFor(library, bytes[0], run),
  }[verb]();
}

function lineOf({ file, text }, names) {
  return `${file ? names[file - 1] : ""}${text}`;
}

/** Files by their hashes. */
async function shown(made) {
  const all = Object.entries(made).map(async ([key, it]) => [key, it instanceof Uint8Array ? await hashed(it) : it]);
  return Object.fromEntries(await Promise.all(all));
}

/** The run, and whether the state at its end has the same end and console. */
function ranFor(library, executable, { input, limit }) {
  const ran = library.run(executable, unpacked(input), limit), state = library.state(executable, unpacked(input), limit);
  if (ran.fault) {
    return ran;
  }
  const isSame = ended(state.end) === ended(ran.end) && packed(state.console) === packed(ran.console);
  return { console: packed(ran.console), end: ended(ran.end), isSame };
}
