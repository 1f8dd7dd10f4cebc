/**
 * An audit of the page by the rules of WCAG 2.2 that a script can judge, as axe-core does: each rule gives the elements
 * that break it. What a browser computes (roles and names) the tests read from its tree of accessibility instead.
 */

const CONTROL = "button, select, input, textarea, summary, a[href], [tabindex]:not([tabindex='-1']), [role=option]";
const LANDMARK = "header, main, nav, section[aria-label], section[aria-labelledby], dialog, [role=status], [role=log], .skip";
const LEAST_TARGET = 24, LEAST_EDGE = 3;

const all = (selector) => [...document.querySelectorAll(selector)];
const isSeen = (it) => it.checkVisibility({ checkVisibilityCSS: true }) && it.getClientRects().length > 0 && !it.closest(".unseen");
const seenOf = (selector) => all(selector).filter(isSeen);

const RULES = {
  "2.5.8 a target is too small": () => seenOf(CONTROL).filter((it) => isSmall(it) && !hasRoom(it)),
  "1.4.11 the edge of a field is too faint": () => seenOf("input, select, textarea").filter((it) => !hasEdge(it)),
  "1.4.11 a sign is too faint": () => seenOf(".dot").filter((it) => !hasSign(it)),
  "2.1.1 what scrolls has no focus": () => all("body *").filter((it) => scrolls(it) && !it.matches(CONTROL)
    && !it.querySelector(CONTROL)),
  "4.1.2 a control within a control": () => all("button, a, summary").filter((it) => it.querySelector(CONTROL)),
  "4.1.2 a control that is hidden from readers": () => seenOf("[aria-hidden=true]").filter((it) => it.querySelector(CONTROL)),
  "2.4.3 an order of its own": () => all("[tabindex]").filter((it) => it.tabIndex > 0),
  "1.3.1 a text outside of all landmarks": () => seenOf("body *").filter((it) => hasText(it) && !it.closest(LANDMARK)),
  "1.3.1 a list with other children": () => all("ol, ul").filter((it) => [...it.children].some((one) => one.tagName !== "LI")),
  "1.3.1 a part of a list outside of one": () => all("li").filter((it) => !it.parentElement.matches("ol, ul")),
  "1.3.1 a heading of a table without its direction": () => all("th").filter((it) => !/^(row|col)$/.test(it.scope)),
  "1.3.1 a table without headings": () => all("table").filter((it) => !it.querySelector("th")),
  "1.3.1 a level of headings is left out": () => skipped(),
  "2.5.3 a name without the text that is seen": () => seenOf("[aria-label]").filter((it) => !isNamedAsSeen(it)),
  "4.1.2 a state that its role has not": () => all("[aria-pressed]").filter((it) => it.tagName !== "BUTTON"),
  "1.1.1 a picture without a text": () => all("img").filter((it) => it.getAttribute("alt") === null),
  "1.4.4 the page forbids to enlarge it": () => all("meta[name=viewport]").filter((it) => /maximum|user-scalable/.test(it.content)),
  "1.4.10 a text is cut off": () => seenOf("body *").filter((it) => isCut(it)),
  "2.2.2 something moves by itself": () => document.getAnimations().filter((it) => !(it instanceof CSSTransition))
    .map((it) => it.effect?.target).filter(Boolean),
};

globalThis.audit = () => Object.entries(RULES).flatMap(([rule, wrong]) => wrong().map((it) => `${rule}: ${shownOf(it)}`));

function shownOf(it) {
  const name = `${it.tagName.toLowerCase()}${it.id ? `#${it.id}` : ""}${it.className ? `.${it.className}` : ""}`;
  const { width, height } = it.getBoundingClientRect();
  return `${name} '${it.textContent.trim().slice(0, 24)}' ${width.toFixed(1)} x ${height.toFixed(1)}`;
}

function hasText(it) {
  return [...it.childNodes].some((node) => node.nodeType === Node.TEXT_NODE && node.data.trim());
}

function isSmall(it) {
  const { width, height } = it.getBoundingClientRect();
  return Math.min(width, height) < LEAST_TARGET - 0.01;
}

/** Whether a circle of that size around its middle meets no other target (WCAG 2.2, 2.5.8, "Spacing"). */
function hasRoom(it) {
  const own = it.getBoundingClientRect(), x = own.left + own.width / 2, y = own.top + own.height / 2;
  return seenOf(CONTROL).every((other) => {
    const { left, right, top, bottom } = other.getBoundingClientRect();
    const aside = Math.hypot(Math.max(left - x, 0, x - right), Math.max(top - y, 0, y - bottom));
    const least = isSmall(other) ? LEAST_TARGET : LEAST_TARGET / 2;
    const apart = isSmall(other) ? Math.hypot((left + right) / 2 - x, (top + bottom) / 2 - y) : aside;
    return other === it || other.contains(it) || it.contains(other) || apart >= least;
  });
}

/** A colour over another, from 1 to 21. */
function ratio(one, other) {
  const [low, high] = [luminance(one), luminance(other)].sort((a, b) => a - b);
  return (high + 0.05) / (low + 0.05);
}

function edgeOf(it, style, ground, opacity = 1) {
  const [red, green, blue, cover] = channels(style.borderTopColor);
  const isThere = style.borderTopStyle !== "none" && parseFloat(style.borderTopWidth) > 0;
  return isThere ? ratio(over([red, green, blue, cover * opacity], ground), ground) : 1;
}

function hasEdge(it) {
  // (a slider is drawn by the browser; the editor is a whole pane)
  const around = behind(it.parentElement), style = getComputedStyle(it);
  return it.type === "range" || it.id === "source" || edgeOf(it, style, around) >= LEAST_EDGE
    || ratio(over(channels(style.backgroundColor), around), around) >= LEAST_EDGE;
}

function hasSign(it) {
  const style = getComputedStyle(it, "::before");
  return edgeOf(it, style, behind(it), Number(style.opacity)) >= LEAST_EDGE;
}

function scrolls(it) {
  const { overflowX, overflowY } = getComputedStyle(it);
  const may = (how) => how === "auto" || how === "scroll";
  return isSeen(it) && (may(overflowY) && it.scrollHeight > it.clientHeight + 1 || may(overflowX) && it.scrollWidth > it.clientWidth + 1);
}

function skipped() {
  const found = all("h1, h2, h3, h4").filter((it) => isSeen(it));
  return found.filter((it, at) => at > 0 && Number(it.tagName[1]) > Number(found[at - 1].tagName[1]) + 1);
}

/** A name has the words that are seen, where these are words. */
function isNamedAsSeen(it) {
  const text = it.matches("button, a, summary") ? it.textContent.trim().toLowerCase() : "";
  return !/\w/.test(text) || it.getAttribute("aria-label").toLowerCase().includes(text);
}

/** Whether more of a text is there than is seen, and nothing scrolls to it. */
function isCut(it) {
  const { overflowX, overflowY, textOverflow } = getComputedStyle(it);
  const isHidden = overflowX === "hidden" || overflowX === "clip" || textOverflow === "ellipsis";
  const isShort = (overflowY === "hidden" || overflowY === "clip") && it.scrollHeight > it.clientHeight + 1;
  const isOwn = !it.matches("textarea, html, body") && it.textContent.trim() !== "";
  return isOwn && (isHidden && it.scrollWidth > it.clientWidth + 1 || isShort);
}
