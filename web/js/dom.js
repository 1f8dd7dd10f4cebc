/** Small helpers over the document. Texts go in by `textContent` alone, so what a user writes is never read as HTML. */

/** What is kept free above and below a part that is scrolled to, for a row of headings. */
const MARGIN = 32;

/** @template {HTMLElement} T @param {string} id @returns {T} */
export function byId(id) {
  return /** @type {T} */ (document.getElementById(id));
}

/**
 * An element with attributes and children; texts become text nodes.
 * @param {string} name
 * @param {Record<string, string | number | boolean | EventListener | undefined>} [attributes] `onclick` and the like
 *   are listened to; what is false or undefined is left out
 * @param {...(Node | string | null | undefined)} children
 */
export function make(name, attributes = {}, ...children) {
  const made = document.createElement(name);
  for (const [key, value] of Object.entries(attributes)) {
    if (typeof value === "function") {
      made.addEventListener(key.slice(2), value);
    } else if (value !== undefined && value !== false) {
      made.setAttribute(key, value === true ? "" : String(value));
    }
  }
  made.append(...children.filter((it) => it !== null && it !== undefined));
  return made;
}

/** Runs `action` once nothing has asked for it for a while. */
export function later(action, milliseconds) {
  let timer = 0;
  return () => {
    clearTimeout(timer);
    timer = setTimeout(action, milliseconds);
  };
}

/** Scrolls a box, and nothing around it, until a part of it is seen. @param {HTMLElement} box @param {Element} part */
export function reveal(box, part) {
  const frame = box.getBoundingClientRect(), own = part.getBoundingClientRect();
  if (own.top < frame.top + MARGIN) {
    box.scrollTop -= frame.top + MARGIN - own.top;
  } else if (own.bottom > frame.bottom - MARGIN) {
    box.scrollTop += own.bottom - frame.bottom + MARGIN;
  }
}

/**
 * Puts a box that belongs to a row of what scrolls below that row, or above where more room is there; it is no higher
 * than that room.
 * @param {HTMLElement} it @param {HTMLElement} around what scrolls @param {number} top of the row @param {number} height
 */
export function putAt(it, around, top, height) {
  const above = top - around.scrollTop, below = around.clientHeight - above - height;
  it.style.maxHeight = it.style.marginLeft = "";
  const isAbove = it.offsetHeight > below && above > below;
  it.style.maxHeight = `${Math.max(isAbove ? above : below, 2 * height)}px`;
  it.style.top = `${isAbove ? top - it.offsetHeight : top + height}px`;
  const over = it.getBoundingClientRect().right - around.getBoundingClientRect().left - around.clientWidth;
  it.style.marginLeft = over > 0 ? `${-over}px` : "";
}

/** Hexadecimal, with zeros in front. @param {bigint | number} value */
export function hex(value, digits = 0) {
  return value.toString(16).padStart(digits, "0");
}

/** @param {Uint8Array} bytes */
export function hexBytes(bytes) {
  return Array.from(bytes, (it) => hex(it, 2)).join("");
}

/** A count with its noun. */
export function counted(count, noun) {
  return `${count.toLocaleString("en")} ${noun}${count === 1 ? "" : "s"}`;
}
