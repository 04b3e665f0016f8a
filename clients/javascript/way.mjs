// The way of the hashes from a proof's leaf to the root, for a picture of it. Nothing here decides anything: `lookUp` does.
import { bytesOf } from './jelly.mjs';

const HASH = '([0-9a-f]{64})';
const FIRST = /^(?:\d+ ok )?proof (\d+)$/;
const NAME = /^name ((?:[0-9a-f]{2})+)$/;
const LEAF = new RegExp(`^leaf (?:none|${HASH} ${HASH})$`);
const SIDE = new RegExp(`^side ${HASH}$`);

function bit(key, place) {
  return key[place >> 3] >> (7 - (place & 7)) & 1;
}

// The parts of a block that the way is made of, or null if the text has none.
function partsOf(text) {
  const [first = '', name = '', , leaf = '', ...sides] = text.replace(/\n$/, '').split('\n');
  const found = leaf.match(LEAF), siblings = sides.map(line => line.match(SIDE)), named = name.match(NAME);
  if (!FIRST.test(first) || !named || !found || siblings.includes(null) || siblings.length > 256) return null;
  return {
    name: bytesOf(named[1]),
    leaf: found[1] ? [bytesOf(found[1]), bytesOf(found[2])] : null,
    siblings: siblings.map(line => bytesOf(line[1])),
  };
}

// From the bottom: where the way starts, and at each step the sibling, whether it is on the left, and the hash that they come to. Null if
// the text isn't a block.
export function wayOf(jelly, text) {
  const parts = partsOf(text);
  if (!parts) return null;
  const key = jelly.keyOf(parts.name), depth = parts.siblings.length;
  const start = parts.leaf ? jelly.leafHash(...parts.leaf) : bytesOf('6e340b9cffb37a989ca544e6bb780a2c78901d3fb33738768511a30617afa01d');
  let hash = start;
  const steps = parts.siblings.map((sibling, place) => {
    const isLeft = bit(key, depth - 1 - place) === 1;
    hash = isLeft ? jelly.pairHash(sibling, hash) : jelly.pairHash(hash, sibling);
    return { depth: depth - 1 - place, sibling, isLeft, hash };
  });
  return { leaf: parts.leaf, start, steps, top: hash };
}
