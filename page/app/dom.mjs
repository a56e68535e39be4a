// Small helpers for the elements of the page. Texts of users reach the page only through them, as text and never as HTML.

/** Returns the element with this id. @param {string} id */
export function byId(id) {
  return document.getElementById(id);
}

/**
 * Returns a new element.
 * @param {string} tag
 * @param {object} [attributes] Functions are listeners, such as `onclick`; `false` and `null` leave an attribute out.
 * @param {...(Node | string)} children
 */
export function make(tag, attributes = {}, ...children) {
  const element = document.createElement(tag);
  for (const [name, value] of Object.entries(attributes)) {
    if (typeof value === 'function') element[name] = value;
    else if (value !== false && value !== null && value !== undefined) element.setAttribute(name, value === true ? '' : value);
  }
  element.append(...children);
  return element;
}

/** Sets the text of an element, if it differs. (A live region is read again only if its text changes.) */
export function setText(element, text) {
  if (element.textContent !== text) element.textContent = text;
}

/** Returns a number as hexadecimal capitals with so many digits. */
export function hex(number, digits = 2) {
  return number.toString(16).toUpperCase().padStart(digits, '0');
}

/** Returns a number with commas between its thousands. */
export function grouped(number) {
  return number.toLocaleString('en');
}

/** Calls a function when it has not been asked to for so many milliseconds. */
export function later(time, call) {
  let timer;
  return (...values) => {
    clearTimeout(timer);
    timer = setTimeout(() => call(...values), time);
  };
}

/** Calls a function once before the next frame is drawn, however often it is asked to. */
export function inNextFrame(call) {
  let isAsked = false;
  return () => {
    if (isAsked) return;
    isAsked = true;
    requestAnimationFrame(() => { isAsked = false; call(); });
  };
}

/** Calls a function when it is asked to, but at most once in so many milliseconds. The last request is always answered. */
export function seldom(time, call) {
  let timer = null, isAsked = false;
  const answer = () => { timer = isAsked ? setTimeout(answer, time) : null; if (isAsked) { isAsked = false; call(); } };
  return () => {
    isAsked = true;
    if (timer === null) answer();
  };
}

/** Returns the text of a block of data in the page (make-html.mjs), or nothing if the page has no such block. */
export function block(name) {
  return byId(`data-${name}`)?.textContent;
}
