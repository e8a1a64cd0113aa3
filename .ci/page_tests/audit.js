// Runs in a page, whose width is arguments[0]: what is wrong with it for people who see little, use keys alone or have it read aloud (WCAG 2.2 AA, as far
// as a script can tell). Answers the faults, and of how many texts the contrast was looked at.
const faults = [];
const visible = (e) => e.getClientRects().length && (e.checkVisibility?.() ?? true) && getComputedStyle(e).visibility !== 'hidden' && !e.closest('.sr, .skip');
const head = (e) => e.outerHTML.slice(0, 90);
const own = (e) => (e.innerText || e.getAttribute('alt') || '').trim();
const label = (e) => (e.getAttribute('aria-label') || (e.labels && [...e.labels].map((l) => l.innerText).join(' ')) || own(e) || '').trim();

// names, and the visible words within them
for (const e of document.querySelectorAll('a, button, input, select, textarea, summary')) {
  if (!visible(e)) continue;
  if (!label(e) && !e.querySelector('img[alt]')) faults.push(`no name: ${head(e)}`);
  const said = e.getAttribute('aria-label');
  if (said && e.tagName === 'BUTTON' && own(e).length > 1 && !said.toLowerCase().includes(own(e).toLowerCase().replace(/ ✓$/, ''))) faults.push(`the name lacks what is seen: ${head(e)}`);
}
for (const e of document.querySelectorAll('img')) if (!e.hasAttribute('alt')) faults.push(`no alternative: ${head(e)}`);

// structure
const ids = [...document.querySelectorAll('[id]')].map((e) => e.id);
for (const id of ids) if (ids.indexOf(id) !== ids.lastIndexOf(id)) faults.push(`twice: #${id}`);
for (const e of document.querySelectorAll('[aria-describedby]')) for (const id of e.getAttribute('aria-describedby').split(' ')) if (!document.getElementById(id)) faults.push(`described by nothing: ${id}`);
for (const e of document.querySelectorAll('label[for]')) if (!document.getElementById(e.htmlFor)) faults.push(`label of nothing: ${head(e)}`);
let level = 0;
for (const e of document.querySelectorAll('h1, h2, h3, h4')) {
  const now = Number(e.tagName[1]);
  if (now > level + 1) faults.push(`heading jumps: ${e.innerText}`);
  level = now;
}
if (document.querySelectorAll('h1').length !== 1) faults.push('not one h1');
if (document.querySelectorAll('main').length !== 1) faults.push('not one main');
if (!document.title) faults.push('no title');
if (!document.documentElement.lang) faults.push('no language');
if (!document.querySelector('[aria-live]')) faults.push('no place for messages');
for (const e of document.querySelectorAll('table')) {
  if (!e.caption) faults.push('table without caption');
  for (const th of e.querySelectorAll('th')) if (!th.scope) faults.push('th without scope');
}
for (const e of document.querySelectorAll('ul, ol')) for (const child of e.children) if (child.tagName !== 'LI') faults.push(`no item of a list: ${head(child)}`);
for (const e of document.querySelectorAll('fieldset')) if (e.firstElementChild?.tagName !== 'LEGEND') faults.push(`no legend: ${head(e)}`);
for (const e of document.querySelectorAll('[tabindex]')) if (Number(e.getAttribute('tabindex')) > 0) faults.push(`order of keys: ${head(e)}`);

// targets: 24 by 24 at least, and 40 high where they are buttons or fields
for (const e of document.querySelectorAll('button, select, textarea, input, summary, a')) {
  if (!visible(e)) continue;
  const { height, width } = (e.closest('label') ?? e).getBoundingClientRect();
  const inText = e.tagName === 'A' && getComputedStyle(e).display === 'inline';
  if (!inText && (height < 24 || width < 24)) faults.push(`small target: ${width} by ${height} ${head(e)}`);
  if (/BUTTON|SELECT|TEXTAREA/.test(e.tagName) && height < 40) faults.push(`low target: ${height} ${head(e)}`);
}

// contrast: 4.5 of texts, 3 of the borders of fields
const canvas = document.createElement('canvas').getContext('2d', { willReadFrequently: true });
const colours = new Map();
function rgb(text) {
  if (!colours.has(text)) {
    canvas.clearRect(0, 0, 1, 1);
    canvas.fillStyle = text;
    canvas.fillRect(0, 0, 1, 1);
    const d = canvas.getImageData(0, 0, 1, 1).data;
    colours.set(text, [d[0], d[1], d[2], d[3] / 255]);
  }
  return colours.get(text);
}
const over = (a, b) => a.slice(0, 3).map((x, i) => x * a[3] + b[i] * (1 - a[3]));
function ground(e) {
  const up = [];
  for (let n = e; n; n = n.parentElement) up.push(n);
  return up.reverse().reduce((c, n) => over(rgb(getComputedStyle(n).backgroundColor), c), [255, 255, 255]);
}
function light(c) {
  const [r, g, b] = c.map((x) => { x /= 255; return x <= 0.04045 ? x / 12.92 : ((x + 0.055) / 1.055) ** 2.4; });
  return 0.2126 * r + 0.7152 * g + 0.0722 * b;
}
function contrast(a, b) {
  const [high, low] = [light(a), light(b)].sort((x, y) => y - x);
  return (high + 0.05) / (low + 0.05);
}
const seen = new Set();
const walker = document.createTreeWalker(document.body, NodeFilter.SHOW_TEXT);
while (walker.nextNode()) {
  const e = walker.currentNode.parentElement;
  if (!walker.currentNode.textContent.trim() || seen.has(e) || !visible(e) || e.closest(':disabled, script, style, option')) continue;
  seen.add(e);
  const behind = ground(e);
  const ratio = contrast(over(rgb(getComputedStyle(e).color), behind), behind);
  if (ratio < 4.5) faults.push(`contrast ${ratio.toFixed(2)}: ${head(e)}`);
}
for (const e of document.querySelectorAll('input:not([type=range]):not([type=file]):not([type=radio]):not([type=checkbox]), select, textarea')) {
  if (!visible(e) || e.disabled) continue;
  const ratio = contrast(over(rgb(getComputedStyle(e).borderTopColor), ground(e.parentElement)), ground(e.parentElement));
  if (ratio < 3) faults.push(`border ${ratio.toFixed(2)}: ${head(e)}`);
}

for (const e of document.querySelectorAll('input[placeholder], textarea[placeholder]')) {
  if (!visible(e) || e.disabled || e.value) continue;
  const words = getComputedStyle(e, '::placeholder');
  const behind = ground(e);
  const colour = rgb(words.color);
  const ratio = contrast(over([...colour.slice(0, 3), colour[3] * Number(words.opacity)], behind), behind);
  if (ratio < 4.5) faults.push(`placeholder ${ratio.toFixed(2)}: ${head(e)}`);
}

// reflow, with the spaces that a reader may set, and motion
const spaced = arguments[1] ? { 'letter-spacing': '.12em', 'word-spacing': '.16em', 'line-height': '1.5' } : {};
for (const [name, value] of Object.entries(spaced)) document.body.style.setProperty(name, value);
if (document.documentElement.scrollWidth > arguments[0] + 1) faults.push(`the page is wider than the window: ${document.documentElement.scrollWidth} > ${arguments[0]}`);
for (const name of Object.keys(spaced)) document.body.style.removeProperty(name);
for (const e of document.querySelectorAll('*')) {
  const s = getComputedStyle(e);
  if (matchMedia('(prefers-reduced-motion: reduce)').matches && (parseFloat(s.transitionDuration) > 0 || s.animationName !== 'none')) { faults.push(`motion: ${head(e)}`); break; }
}
return [faults, seen.size];
