// QR codes (ISO/IEC 18004) of texts in bytes, with error correction of level M, versions 1 to 20. Pure.

const VERSIONS = 20;
// By version: error correction bytes of a block, and blocks.
const CHECKS = [10, 16, 26, 18, 24, 16, 18, 22, 22, 26, 30, 22, 22, 24, 24, 28, 28, 26, 26, 26];
const BLOCKS = [1, 1, 1, 2, 2, 4, 4, 4, 5, 5, 5, 8, 9, 9, 10, 10, 11, 13, 14, 16];
const range = (n) => Array.from({ length: n }, (_, i) => i);

// The field of 256 elements by x^8 + x^4 + x^3 + x^2 + 1.
const doubled = (x) => (x << 1) ^ (x >> 7) * 0x11d;
const POWERS = range(255).reduce((all) => [...all, doubled(all[all.length - 1])], [1]);
const LOGS = new Map(range(255).map((i) => [POWERS[i], i]));
const times = (a, b) => (a && b ? POWERS[(LOGS.get(a) + LOGS.get(b)) % 255] : 0);

const sideOf = (version) => 17 + 4 * version;

/** The middles of the alignment patterns, along either side. */
function alignments(version) {
  if (version === 1) return [];
  const count = Math.floor(version / 7) + 2;
  const step = Math.ceil((4 * version + 4) / (2 * count - 2)) * 2;
  return [6, ...range(count - 1).map((i) => sideOf(version) - 7 - step * (count - 2 - i))];
}

/** How many bytes a version holds, data and error correction together. */
function bytesOf(version) {
  const side = sideOf(version);
  const middles = alignments(version).length;
  const aligned = middles ? middles ** 2 - 3 : 0;
  const inTiming = middles ? 2 * (middles - 2) : 0; // those that lie over a timing pattern
  const fixed = 3 * 64 + 2 * (side - 16) + 31 + 25 * aligned - 5 * inTiming + (version > 6 ? 36 : 0);
  return Math.floor((side * side - fixed) / 8);
}

/** What a list of bytes leaves when it is divided by the polynomial with so many roots. */
function remainder(bytes, degree) {
  let divisor = [...Array(degree - 1).fill(0), 1];
  for (const i of range(degree)) {
    divisor = divisor.map((c, at) => times(c, POWERS[i]) ^ (divisor[at + 1] ?? 0));
  }
  return bytes.reduce((left, byte) => {
    const factor = byte ^ left[0];
    return [...left.slice(1), 0].map((c, at) => c ^ times(divisor[at], factor));
  }, Array(degree).fill(0));
}

const bitsOf = (value, count) => range(count).map((i) => (value >> (count - 1 - i)) & 1);
const spareOf = (version) => bytesOf(version) - CHECKS[version - 1] * BLOCKS[version - 1];
const lengthBits = (version) => (version < 10 ? 8 : 16);

/** The data bytes: mode, length, text, and padding. */
function dataOf(bytes, version) {
  const bits = [0, 1, 0, 0, ...bitsOf(bytes.length, lengthBits(version)), ...bytes.flatMap((byte) => bitsOf(byte, 8))];
  const room = spareOf(version) * 8;
  bits.push(...Array(Math.min(4, room - bits.length)).fill(0));
  bits.push(...Array(-bits.length & 7).fill(0));
  const data = range(bits.length / 8).map((i) => bits.slice(8 * i, 8 * i + 8).reduce((a, b) => 2 * a + b));
  return [...data, ...range(spareOf(version) - data.length).map((i) => (i % 2 ? 0x11 : 0xec))];
}

/** Data and error correction, a byte of each block in turn. */
function interleaved(data, version) {
  const [count, degree] = [BLOCKS[version - 1], CHECKS[version - 1]];
  const short = Math.floor(data.length / count);
  const shorter = count - data.length % count;
  const start = (block) => block * short + Math.max(0, block - shorter);
  const blocks = range(count).map((block) => data.slice(start(block), start(block + 1)));
  const checks = blocks.map((block) => remainder(block, degree));
  const turns = (lists, most) => range(most).flatMap((i) => (
    lists.flatMap((list) => (i < list.length ? [list[i]] : []))));
  return [...turns(blocks, short + 1), ...turns(checks, degree)];
}

const MASKS = [
  (x, y) => (x + y) % 2, (x, y) => y % 2, (x) => x % 3, (x, y) => (x + y) % 3,
  (x, y) => (Math.floor(x / 3) + Math.floor(y / 2)) % 2, (x, y) => (x * y) % 2 + (x * y) % 3,
  (x, y) => ((x * y) % 2 + (x * y) % 3) % 2, (x, y) => ((x + y) % 2 + (x * y) % 3) % 2,
];

/** A number with the remainder of its polynomial behind it. */
function checked(value, by, degree) {
  const left = range(degree).reduce((rest) => (rest << 1) ^ ((rest >> (degree - 1)) * by), value);
  return (value << degree) | left;
}

/** The squares of a code: `dark`, and `isFixed` where they are no data. */
class Grid {
  constructor(version) {
    this.version = version;
    this.side = sideOf(version);
    this.dark = range(this.side).map(() => Array(this.side).fill(false));
    this.isFixed = range(this.side).map(() => Array(this.side).fill(false));
  }

  fix(x, y, dark) {
    if (!this.dark[y] || x < 0 || x >= this.side) return;
    this.dark[y][x] = Boolean(dark);
    this.isFixed[y][x] = true;
  }

  /** A pattern of rings around a square, of which one is light. */
  ring(x, y, reach, light) {
    for (const dy of range(2 * reach + 1)) for (const dx of range(2 * reach + 1)) {
      const ring = Math.max(Math.abs(dx - reach), Math.abs(dy - reach));
      this.fix(x + dx - reach, y + dy - reach, !light.includes(ring));
    }
  }

  patterns() {
    const { side, version } = this;
    for (const i of range(side)) { this.fix(6, i, i % 2 === 0); this.fix(i, 6, i % 2 === 0); }
    const middles = alignments(version);
    const last = middles.length - 1;
    middles.forEach((y, row) => middles.forEach((x, column) => {
      const isCorner = (row === 0 && (column === 0 || column === last)) || (row === last && column === 0);
      if (!isCorner) this.ring(x, y, 2, [1]);
    }));
    for (const [x, y] of [[3, 3], [side - 4, 3], [3, side - 4]]) this.ring(x, y, 4, [2, 4]);
    if (version > 6) this.versionBits();
  }

  versionBits() {
    const bits = checked(this.version, 0x1f25, 12);
    for (const i of range(18)) {
      const [a, b] = [this.side - 11 + i % 3, Math.floor(i / 3)];
      this.fix(a, b, (bits >> i) & 1);
      this.fix(b, a, (bits >> i) & 1);
    }
  }

  /** Level M and the mask, twice. */
  formatBits(mask) {
    const bits = checked(mask, 0x537, 10) ^ 0x5412; // level M is 00
    const bit = (i) => (bits >> i) & 1;
    const { side } = this;
    for (const i of range(15)) {
      this.fix(8, i < 6 ? i : i < 8 ? i + 1 : side - 15 + i, bit(i));
      this.fix(i < 8 ? side - 1 - i : i < 9 ? 7 : 14 - i, 8, bit(i));
    }
    this.fix(8, side - 8, true);
  }

  /** The data, up and down in pairs of columns from the right. */
  fill(bytes) {
    const bits = bytes.flatMap((byte) => bitsOf(byte, 8));
    let at = 0;
    for (const pair of range((this.side - 1) / 2)) {
      const right = this.side - 1 - 2 * pair - (this.side - 1 - 2 * pair <= 6 ? 1 : 0);
      for (const step of range(this.side)) for (const x of [right, right - 1]) {
        const y = pair % 2 === 0 ? this.side - 1 - step : step;
        if (!this.isFixed[y][x]) this.dark[y][x] = Boolean(bits[at++]);
      }
    }
  }

  masked(mask) {
    const other = new Grid(this.version);
    other.isFixed = this.isFixed.map((row) => [...row]);
    other.dark = this.dark.map((row, y) => row.map((dark, x) => (
      !this.isFixed[y][x] && MASKS[mask](x, y) === 0 ? !dark : dark)));
    other.formatBits(mask);
    return other;
  }
}

const FINDER = '1011101';

/** How hard a code is to read: long runs, squares of one colour, what looks like a finder, an uneven share of dark. */
function penalty({ dark, side }) {
  const rows = dark.map((row) => row.map(Number).join(''));
  const columns = range(side).map((x) => dark.map((row) => Number(row[x])).join(''));
  let sum = 0;
  for (const line of [...rows, ...columns]) {
    for (const [run] of line.matchAll(/0{5,}|1{5,}/g)) sum += run.length - 2;
    for (const pattern of [`0000${FINDER}`, `${FINDER}0000`]) sum += 40 * (line.split(pattern).length - 1);
  }
  for (const y of range(side - 1)) for (const x of range(side - 1)) {
    if (dark[y][x] === dark[y][x + 1] && dark[y][x] === dark[y + 1][x] && dark[y][x] === dark[y + 1][x + 1]) sum += 3;
  }
  const share = dark.flat().filter(Boolean).length / (side * side);
  return sum + 10 * Math.floor(Math.abs(share - 0.5) * 20);
}

/** The code of a text, as rows of squares that are dark or not; null where the text is too long. */
export function qrCode(text) {
  const bytes = [...new TextEncoder().encode(text)];
  const version = range(VERSIONS).map((i) => i + 1)
    .find((one) => bytes.length * 8 + 4 + lengthBits(one) <= spareOf(one) * 8);
  if (!version) return null;
  const grid = new Grid(version);
  grid.patterns();
  grid.formatBits(0); // its squares are no data
  grid.fill(interleaved(dataOf(bytes, version), version));
  const tried = MASKS.map((_, mask) => grid.masked(mask));
  const best = tried.reduce((a, b) => (penalty(b) < penalty(a) ? b : a));
  return best.dark;
}
