// As much of a browser's document as the page's modules ask for, so that views can be drawn and read in node.

const isPart = (some, all) => some.every((one) => all.includes(one));
const SELECTOR = /^([a-z]\w*)?(?:#([\w-]+))?((?:\.[\w-]+)*)(?:\[([\w-]+)\])?$/;
const known = new Map(); // selectors that were taken apart before

/** What a selector asks for: any of these. */
function selectorParts(selector) {
  if (!known.has(selector)) {
    known.set(selector, selector.split(',').map((one) => {
      const [, tag, id, classes, attribute] = SELECTOR.exec(one.trim());
      return { tag: tag?.toUpperCase(), id, classes: classes.split('.').filter(Boolean), attribute };
    }));
  }
  return known.get(selector);
}

class FakeNode {
  constructor(tag) {
    Object.assign(this, { tagName: tag.toUpperCase(), attributes: {}, children: [], listeners: {}, parentNode: null, value: '' });
    this.style = { setProperty() {} };
    this.dataset = {};
    this.hidden = this.disabled = false;
  }
  setAttribute(key, value) { this.attributes[key] = String(value); }
  getAttribute(key) { return this.attributes[key] ?? null; }
  removeAttribute(key) { delete this.attributes[key]; }
  addEventListener(event, call) { this.listeners[event] = call; }
  append(...added) {
    for (const child of added) {
      const node = child instanceof FakeNode ? child : Object.assign(new FakeNode('#text'), { data: String(child) });
      if (node.parentNode) node.parentNode.children = node.parentNode.children.filter((one) => one !== node); // it moves
      node.parentNode = this;
      this.children.push(node);
    }
  }
  appendChild(child) { this.append(child); return child; }
  prepend(child) { this.children.unshift(child); }
  after(child) { this.parentNode.append(child); }
  before(child) { this.parentNode.prepend(child); child.parentNode = this.parentNode; }
  get isConnected() { return this.parentNode ? this.parentNode.isConnected : this.isRoot; }
  replaceChildren() { this.children = []; }
  contains() { return false; }
  focus() {}
  blur() {}
  select() {}
  dispatchEvent() { return true; }
  click() { this.listeners.click?.({ currentTarget: this, target: this, preventDefault() {} }); }
  get firstChild() { return this.children[0]; }
  get id() { return this.attributes.id ?? ''; }
  set id(value) { this.attributes.id = value; }
  set className(value) { this.attributes.class = value; }
  get textContent() { return this.tagName === '#TEXT' ? this.data : this.children.map((child) => child.textContent).join(''); }
  set textContent(value) { this.children = []; if (value) this.append(value); }
  /** All nodes below this one, and itself. */
  all(found = []) {
    found.push(this);
    for (const child of this.children) child.all(found);
    return found;
  }
  matches(selector) {
    return selectorParts(selector).some(({ tag, id, classes, attribute }) => (!tag || this.tagName === tag)
      && (!id || this.id === id) && (!attribute || attribute in this.attributes)
      && (!classes.length || isPart(classes, (this.attributes.class ?? '').split(' '))));
  }
  querySelectorAll(selector) { return this.all().slice(1).filter((node) => node.tagName !== '#TEXT' && node.matches(selector)); }
  querySelector(selector) { return this.querySelectorAll(selector)[0] ?? null; }
  closest(selector) { return this.tagName !== '#TEXT' && this.matches(selector) ? this : this.parentNode?.closest(selector) ?? null; }
}

/** A store of a browser over a map. */
export const storage = (map) => ({
  getItem: (key) => map.get(key) ?? null, setItem: (key, value) => { map.set(key, String(value)); }, removeItem: (key) => { map.delete(key); },
  key: (at) => [...map.keys()][at] ?? null, get length() { return map.size; },
});

/** Puts a document, a store and an address in place of those of a browser; answers the node of the view. */
export function install() {
  const root = new FakeNode('main');
  const head = new FakeNode('head');
  head.append(Object.assign(new FakeNode('link'), {}));
  const store = new Map();
  globalThis.document = {
    createElement: (tag) => new FakeNode(tag), createElementNS: (_, tag) => new FakeNode(tag), getElementById: (id) => root.all().find((node) => node.id === id) ?? null,
    querySelector: () => head.children[0], addEventListener() {}, documentElement: {}, head, title: '', activeElement: null, hidden: false,
  };
  globalThis.localStorage = storage(store);
  globalThis.sessionStorage = storage(new Map());
  globalThis.location = { origin: 'https://split.example', pathname: '/', hash: '' };
  globalThis.print = () => {};
  Object.defineProperty(globalThis, 'navigator', { value: { languages: ['en-GB'] }, configurable: true });
  return { root, store };
}

/** Texts below a node that hold one of these words outside of a <bdi>. */
export const outsideOfBdi = (root, words) => root.all()
  .filter((node) => node.tagName === '#TEXT' && !node.closest('bdi') && !node.closest('option') && words.some((word) => node.data.includes(word)))
  .map((node) => node.data);
