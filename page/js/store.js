// What this browser keeps: in localStorage what is to last, in sessionStorage drafts. Where that is forbidden, or this
// isn't the person's own device, it lasts no longer than the page.

// Hosts that share one name by their paths keep what is theirs apart, but for these.
const COMMON = ['language', 'borrowed'];
export const HERE = location.pathname.replace(/[^/]*$/, '');
const slot = (key, at) => `fairsplit${COMMON.includes(key) ? '/' : at}${key}`;

class Store {
  constructor(open) { Object.assign(this, { open, memory: new Map() }); }

  /** Does something with the browser's store; undefined where it has none, or no room. */
  attempt(what) { try { return what(this.open()); } catch { return undefined; } }

  get(name) {
    try { return JSON.parse(this.memory.get(name) ?? this.attempt((store) => store.getItem(name)) ?? null); } catch {
      return null;
    }
  }

  put(name, value, isKept) {
    this.memory.delete(name);
    this.attempt((store) => store.removeItem(name));
    if (value === null) return;
    const text = JSON.stringify(value);
    const done = isKept && this.attempt((store) => { store.setItem(name, text); return true; });
    if (!done) this.memory.set(name, text);
  }

  /** The names of all that is there. */
  names() {
    const stored = this.attempt((store) => Array.from({ length: store.length }, (_, i) => store.key(i))) ?? [];
    return [...new Set([...this.memory.keys(), ...stored])].filter((name) => name.startsWith('fairsplit'));
  }
}

const lasting = new Store(() => localStorage);
const passing = new Store(() => sessionStorage);

/** A value that was kept, or null. */
export const kept = (key, at = HERE) => lasting.get(slot(key, at));

/** Whether this was said not to be the person's own device. */
export const isBorrowed = () => Boolean(kept('borrowed'));

/** Keeps a value in this browser; null forgets it. */
export const keep = (key, value, at = HERE) => (
  lasting.put(slot(key, at), value, COMMON.includes(key) || !isBorrowed()));

/** The keys of this host that begin so. */
export const keysOf = (begin) => lasting.names()
  .filter((name) => name.startsWith(slot(begin, HERE))).map((name) => name.slice(slot('', HERE).length));

let isUnsent = false;

globalThis.addEventListener?.('beforeunload', (event) => {
  if (!isUnsent) return;
  event.preventDefault();
  event.returnValue = ''; // what browsers before 2023 ask by
});

/** Whether whoever leaves the page is asked first, since something is typed and not sent. */
export function askBeforeLeaving(ask) { isUnsent = ask; }

/** The draft of a view, begun or not: `get` what was typed before, `put` what is typed, `drop` once it was sent. */
function draftOf(view) {
  const name = slot(`draft.${view}`, HERE);
  return {
    get: () => passing.get(name),
    put: (value) => { passing.put(name, value, !isBorrowed()); askBeforeLeaving(true); },
    drop: () => { passing.put(name, null); askBeforeLeaving(false); },
  };
}

/** A few digits of the key tell the members of a round apart, and open nothing. */
export const bidDraft = ({ id, key }) => draftOf(`bid.${id}.${key.slice(0, 12)}`);

export const formDraft = (kind) => draftOf(`new.${kind}`);

/** A division of their own, of a round that has no result. */
export const proposalDraft = ({ id, key }) => draftOf(`proposal.${id}.${key.slice(0, 12)}`);

/** What was typed of a division on this device. */
export const divideDraft = () => draftOf('divide');

/** Forgets all that was kept, but for the language; answers it. */
export function forgetAll() {
  const all = [lasting, passing].map((store) => store.names().filter((name) => name !== slot('language'))
    .map((name) => [name, store.get(name)]));
  [lasting, passing].forEach((store, i) => all[i].forEach(([name]) => store.put(name, null)));
  return all;
}

/** Keeps again what was forgotten. */
export function restoreAll(all) {
  [lasting, passing].forEach((store, i) => all[i].forEach(([name, value]) => store.put(name, value, true)));
}
