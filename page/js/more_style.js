// The style of what nobody needs to bid: forms, pictures and tables. A single file has it in line, and has
// more_style_alone.js in the place of this.
import { h } from './dom.js';

/** Loads it, once. */
export const tableStyle = () => new Promise((done) => {
  if (document.querySelector('link[href="tables.css"]')) done();
  else document.head.append(h('link', { rel: 'stylesheet', href: 'tables.css', load: done, error: done }));
});
