// Builds the page from elements and text alone. No markup is ever parsed, so a name can never be code.

export function build(node, attributes, children) {
  for (const [key, value] of Object.entries(attributes ?? {})) {
    if (value === null || value === undefined || value === false) continue;
    if (typeof value === 'function') node.addEventListener(key, value);
    else if (key === 'vars') {
      for (const [property, to] of Object.entries(value)) node.style.setProperty(`--${property}`, String(to));
    }
    else if (key === 'value') node.value = value;
    else node.setAttribute(key, value === true ? '' : value);
  }
  node.append(...children.flat(Infinity).filter((child) => child !== null && child !== undefined && child !== false));
  return node;
}

/** An element: h('p', { class: 'hint', click: f, vars: { hue: 20 } }, 'text', node, [more]). */
export const h = (tag, attributes, ...children) => build(document.createElement(tag), attributes, children);

/** A paragraph. */
export const p = (...children) => h('p', {}, children);
/** The heading of a view, to which the focus can go. */
export const heading = (...children) => h('h1', { tabindex: -1 }, children);
/** A button that sends no form. */
export const action = (attributes, ...children) => h('button', { type: 'button', ...attributes }, children);
/** An element of the page. */
export const byId = (id) => document.getElementById(id);

/** A name that somebody gave. It cannot turn the text around it to the other direction. */
export const name = (text) => h('bdi', {}, text);

/** Puts these children in place of those that the node has. */
export function fill(node, ...children) {
  node.replaceChildren();
  return build(node, {}, children);
}

/** Puts a view in place of the one before. Whoever was in that one with the keyboard is at the heading of this one. */
export function turn(root, ...children) {
  const held = root.contains(document.activeElement);
  fill(root, ...children);
  if (held) root.querySelector('h1')?.focus();
}

/** Tells a screen reader a sentence without moving the focus. */
export function announce(text) {
  const live = byId('live');
  if (!live) return;
  live.textContent = '';
  setTimeout(() => { live.textContent = text; }, 50);
}

/** A labelled field with a hint, and a place for what is wrong with it. */
export function field(id, label, control, hint) {
  control.id = id;
  control.setAttribute('aria-describedby', `${id}-fault${hint ? ` ${id}-hint` : ''}`);
  return h('div', { class: 'field' }, h('label', { for: id }, label),
    hint && h('p', { class: 'hint', id: `${id}-hint` }, hint), control, faultLine(id));
}

/** The place for what is wrong with a field. */
export const faultLine = (id) => h('p', { class: 'fault', id: `${id}-fault` });

/** Shows what is wrong with a field, or by '' that nothing is; whether there is a place for it. */
export function showFault(id, text) {
  const line = byId(`${id}-fault`);
  if (!line) return false;
  if (line.textContent !== text) line.textContent = text;
  const control = byId(id);
  if (text) control?.setAttribute('aria-invalid', 'true');
  else control?.removeAttribute('aria-invalid');
  return true;
}

/** A message: its kind is good, bad or note. */
export const box = (kind, ...children) => (
  h('div', { class: `box ${kind}`, role: kind === 'bad' ? 'alert' : null }, ...children));
