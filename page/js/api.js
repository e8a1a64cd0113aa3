// Requests to the host, which of them are sent again, and its refusals as sentences.
import { knows, text } from './language.js';
import { THINGS } from './rules.js';

/** The host refused: status, and the JSON of the reply. */
export class Refusal extends Error {
  constructor(status, body) { super(body.code); Object.assign(this, { status, body, code: body.code }); }
}
/** No reply of the host came. What was sent, if `isSent`, may have been kept or not; `isUnsent`: the proxy never
    reached the host, so that nothing was. */
export class NoReply extends Error {
  constructor(what, isSent = false, isUnsent = false) { super(what); Object.assign(this, { isSent, isUnsent }); }
}

const PAUSES = [500, 1500]; // so that whoever waits hears of it within three seconds
const PATIENCE = 60_000;
/** After so long without an answer a view says that it still waits. */
export const SLOW = 3000;
// The host may have kept nothing of these, and the same request can be sent again.
const PASSING = ['store_fault', 'memory', 'clock_fault', 'too_many'];
let ahead = 0; // how far the host's clock is ahead of this one

/** The time by the host's clock, in milliseconds. */
export const hostNow = () => Date.now() + ahead;

/** The reply to a request, and its text. */
async function fetched(method, path, key, body) {
  const ending = new AbortController();
  const end = setTimeout(() => ending.abort(), PATIENCE);
  const headers = { ...(key && { 'x-key': key }), ...(body !== undefined && { 'Content-Type': 'application/json' }) };
  try {
    const reply = await fetch(path, { // from the folder of the page, so that a host may stand behind any path
      method, body, headers, cache: 'no-store', credentials: 'omit', redirect: 'error', referrerPolicy: 'no-referrer',
      signal: ending.signal,
    });
    return { reply, got: await reply.text() };
  } catch { throw new NoReply('no reply', method === 'POST'); } finally { clearTimeout(end); }
}

/** One request. A reply that is no JSON of the host (a proxy's 502, an error page) counts as none. */
async function once(method, path, key, body, asText) {
  const { reply, got } = await fetched(method, path, key, body);
  const date = Date.parse(reply.headers.get('Date') ?? '');
  if (date && Math.abs(date - Date.now()) > 2000) ahead = date - Date.now();
  if (reply.ok && asText) return got;
  let said;
  try { said = JSON.parse(got); } catch {
    if (reply.status !== 429) throw new NoReply(`status ${reply.status}`, method === 'POST');
    said = { code: 'too_many' }; // a proxy's word
  }
  if (reply.ok) return said;
  if (said.code === 'host_down') throw new NoReply('no host', false, method === 'POST');
  throw new Refusal(reply.status, said);
}

/** Whether it is not known if the request was kept, so that the same one is to be sent again. */
export const isOpen = (refused) => refused instanceof NoReply || PASSING.includes(refused.code);

/** Whether nothing of a request reached the host. */
export const isUnsent = (refused) => refused instanceof NoReply && refused.isUnsent;

/** Sends a request, and the very same one again where no reply came or the host could not keep it. That is safe: a
    creation is known by its tag, a bid and a withdrawal by their turn, and a close that was kept is answered `closed`.
    One that was in doubt stays so, even if the last try did not reach the host. With `movesOn`, a host that was never
    reached is not tried again: another may take its place. */
async function sure(method, path, key, body, { asText = false, movesOn = false } = {}) {
  let doubt = null;
  for (let tries = 0; ; tries++) {
    try { return await once(method, path, key, body, asText); } catch (refused) {
      if (!isOpen(refused)) throw refused;
      if (!isUnsent(refused)) doubt = refused;
      if (tries >= PAUSES.length || (movesOn && !doubt)) throw doubt ?? refused;
      await new Promise((go) => { setTimeout(go, PAUSES[tries]); });
    }
  }
}

/** The JSON at a path of the host. */
export const get = (path, key) => sure('GET', path, key);
/** The same, asked for once: for what is asked again later anyway. */
export const peek = (path, key) => once('GET', path, key);
/** A text at a path of the host. */
export const getText = (path, key) => sure('GET', path, key, undefined, { asText: true });
/** Sends a body. */
export const post = (path, key, body) => sure('POST', path, key, body);
/** Sends a creation to one of several hosts. */
export const postNew = (path, body) => sure('POST', path, null, body, { movesOn: true });

const isList = (list) => Array.isArray(list) && list.length > 0 && list.every((one) => typeof one === 'string');

/** Whether this is a round: a reply that is none counts as no reply. */
export const isRound = (round) => Boolean(THINGS[round?.kind]) && typeof round.title === 'string'
  && isList(round.members) && isList(round[THINGS[round.kind]])
  && Array.isArray(round.bids) && Number.isInteger(round.deadline);

/** What happened, as a sentence. */
export function sentence(refused) {
  if (isUnsent(refused)) return text('noReply.unsent');
  if (refused instanceof NoReply) return text(refused.isSent ? 'noReply.sent' : 'noReply.read');
  if (!(refused instanceof Refusal)) return text('pageFault', { what: refused.message });
  const { status, code, body: { field } } = refused;
  if (code === 'bad_field') return text(field === 'values' ? 'badSum' : 'notTaken');
  return knows(`refusals.${code}`) ? text(`refusals.${code}`) : text('refused', { status, code });
}
