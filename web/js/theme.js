/** Light and dark: as the system has it, or as the button says; the choice is kept in this browser. */

const KEY = "rv-theme", ORDER = ["light dark", "light", "dark"];
const NAMES = { "light dark": "auto", light: "light", dark: "dark" };

/** @param {HTMLButtonElement} button */
export function themed(button) {
  const put = (theme) => {
    document.documentElement.style.colorScheme = theme;
    button.textContent = `Theme: ${NAMES[theme]}`;
  };
  let at = Math.max(ORDER.indexOf(read()), 0);
  put(ORDER[at]);
  button.addEventListener("click", () => {
    at = (at + 1) % ORDER.length;
    put(ORDER[at]);
    keep(ORDER[at]);
  });
}

// (a browser may forbid to keep anything)
function read() {
  try {
    return localStorage.getItem(KEY);
  } catch {
    return null;
  }
}

function keep(theme) {
  try {
    localStorage.setItem(KEY, theme);
  } catch {
    // then it holds until the page is left
  }
}
