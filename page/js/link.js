// Links: `#ID.KEY`, perhaps `.CURRENCY`, and in the organiser's the tag of the creation after it. Browsers send
// nothing after the # to anybody. Before it is the address of the page, with the path of a host.

/** What a fragment says, or null. */
export function parse(hash) {
  const found = /^#(\d{1,10})\.([0-9a-f]{64})(?:\.([A-Z]{3})?)?(?:\.([0-9a-z-]{16,64}))?$/.exec(hash);
  return found && { id: found[1], key: found[2], currency: found[3] ?? '', tag: found[4] ?? '' };
}

/** The fragment of a link. */
export const fragment = ({ id, key, currency = '', tag = '' }) => (
  `#${id}.${key}${currency || tag ? `.${currency}` : ''}${tag ? `.${tag}` : ''}`);

/** The link as an address. */
export const address = (link) => location.origin + location.pathname + fragment(link);

/** The organiser's links from which somebody went to bid for themselves, by their rounds: the way back. */
export const cameFrom = new Map();
