// The limits of a round. Pure.

/** The limits of a round, which are those of examples/creation.schema.json, and of a certificate, which are those of
    docs/REFERENCE.md. */
export const LIMITS = {
  name: 40, members: [2, 12], riders: [2, 10], goods: [1, 24], places: [1, 12],
  rent: 10_000_000, cost: 1_000_000, steps: 200_000, estateSteps: 1_000_000, points: 1000, turns: 20,
  certificate: 4_000_000, digits: 25, denominator: 4_294_967_295,
};

/** The mark in a link, in place of a currency, of items to which everyone gives ten chips of a hundred points each. */
export const CHIPS = 'TEN';
export const CHIP = 100;

/** The field of a creation in which the things stand that are divided. */
export const THINGS = { rent: 'rooms', goods: 'goods', fares: 'places' };

/** Spreads a whole over shares in their proportion, in whole units, those left over to the greatest remainders. */
export function scale(shares, whole) {
  const all = shares.reduce((a, b) => a + b, 0);
  const parts = shares.map((share) => (all ? (share * whole) / all : whole / shares.length));
  const out = parts.map((part) => Math.floor(part + 1e-9));
  const order = parts.map((part, i) => [part - out[i], i]).sort((a, b) => b[0] - a[0] || a[1] - b[1]);
  const left = whole - out.reduce((a, b) => a + b, 0);
  for (let i = 0; i < left; i++) out[order[i % order.length][1]]++;
  return out;
}
