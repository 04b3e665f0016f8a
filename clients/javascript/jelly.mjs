// The proved verifier of jellystore, as WebAssembly with 64-bit memory (clients/c/jelly.h has the same calls for C; docs/CLIENTS.md).
// It runs in browsers and in Node, of which 18 and 20 need the flag --experimental-wasm-memory64.

const HASH = 32, MAX_VALUE = 4096, PAGE = 65536, LENGTH = 8;
const VALUE = 0, ABSENT = 1, REFUSED = 16;

// Why nothing is shown, or a claim is refused (docs/FORMATS.md, "Proof blocks").
export const REASONS = {
  1: 'there are more than 256 siblings',
  2: "the leaf isn't that of the value, or it is the name's own and absence is claimed",
  3: "the leaf that shows absence isn't on the name's way",
  4: "the way up doesn't come to the root",
  5: 'the block is on another name',
  6: "the reply isn't one proof block of at most 256 siblings, with nothing after it",
};

// Nothing is shown: `number` says why.
export class Refused extends Error {
  constructor(number) {
    super(`refused ${number}: ${REASONS[number]}`);
    this.number = number;
  }
}

// The bytes of hexadecimal digits. Throws RangeError if they are none.
export function bytesOf(digits) {
  if (!/^([0-9a-f]{2})*$/.test(digits)) throw new RangeError('these are no hexadecimal digits, 0 to 9 and a to f, two to a byte');
  return Uint8Array.from(digits.match(/../g) ?? [], pair => parseInt(pair, 16));
}

export function digitsOf(bytes) {
  return Array.from(plain(bytes), byte => byte.toString(16).padStart(2, '0')).join('');
}

// What a caller passed, as bytes. Throws TypeError if it is no view of bytes: a text, or a list of numbers, would be read as bytes that
// nobody meant. (A view that comes from another page or frame is none of this one's classes.)
function plain(bytes) {
  if (!ArrayBuffer.isView(bytes) || bytes.BYTES_PER_ELEMENT !== 1) throw new TypeError('only a Uint8Array stands for bytes');
  return new Uint8Array(bytes.buffer, bytes.byteOffset, bytes.byteLength);
}

// A root, a key or a hash that a caller passed. Throws RangeError if it hasn't 32 bytes: a leaf's key and hash, cut at another place,
// would be hashed alike.
function sized(bytes) {
  const hash = plain(bytes);
  if (hash.length !== HASH) throw new RangeError('a root, a key and a hash have 32 bytes');
  return hash;
}

// A leaf that a caller passed: its key, and the hash of its value.
function sizedLeaf(leaf) {
  if (!Array.isArray(leaf)) throw new TypeError('a leaf is a list of a key and the hash of a value');
  if (leaf.length !== 2) throw new RangeError('a leaf is a key and the hash of a value');
  return [sized(leaf[0]), sized(leaf[1])];
}

// The elements of a list that a caller passed.
function each(list, element) {
  if (!Array.isArray(list)) throw new TypeError('siblings and leaves are lists');
  return Array.from(list, it => element(it));
}

// Byte arrays one after another as one.
function joined(arrays) {
  const all = new Uint8Array(arrays.reduce((size, array) => size + array.length, 0));
  let next = 0;
  for (const array of arrays) {
    all.set(array, next);
    next += array.length;
  }
  return all;
}

// The calls over one instance of the module. For bytes a caller passes a Uint8Array, or another view of bytes; anything else throws
// TypeError. A root, a key, a hash or a sibling that hasn't 32 bytes, or a leaf that isn't two of them, throws RangeError. After a trap,
// which no call here makes, the instance would be of no more use.
class Jelly {
  #calls;
  #memory;
  #base;

  constructor(instance) {
    this.#calls = instance.exports;
    this.#memory = instance.exports.memory;
    this.#base = Number(instance.exports.__heap_base.value);
  }

  // Makes room for so many bytes after the module's own.
  #reserve(size) {
    const missing = this.#base + size - this.#memory.buffer.byteLength;
    if (missing <= 0) return;
    const pages = Math.ceil(missing / PAGE);
    try {
      this.#memory.grow(BigInt(pages));
    } catch (error) {
      if (!(error instanceof TypeError)) throw error;
      this.#memory.grow(pages); // before memory with 64 bits was a standard
    }
  }

  // Writes arrays of bytes one after another into the memory; gives the place of each.
  #write(...arrays) {
    this.#reserve(arrays.reduce((size, array) => size + array.length, 0));
    const memory = new Uint8Array(this.#memory.buffer);
    let next = this.#base;
    return arrays.map(array => {
      const place = next;
      memory.set(array, place);
      next += array.length;
      return BigInt(place);
    });
  }

  #read(place, length) {
    return new Uint8Array(this.#memory.buffer).slice(Number(place), Number(place) + Number(length));
  }

  // What a version says of a name, from a store's reply to `prove` and the root of the version, which is the caller's own: the bytes of
  // the value, or null if it has none. Throws Refused if nothing is shown.
  lookUp(root, name, reply) {
    const asked = plain(name), told = plain(reply);
    const [length, value, top, own, text] = this.#write(new Uint8Array(LENGTH), new Uint8Array(MAX_VALUE), sized(root), asked, told);
    const answer = this.#calls.jelly_ask(top, own, BigInt(asked.length), text, BigInt(told.length), value, BigInt(MAX_VALUE), length);
    if (answer >= REFUSED) throw new Refused(answer - REFUSED);
    if (answer === ABSENT) return null;
    return this.#read(value, new DataView(this.#memory.buffer).getBigUint64(Number(length), true));
  }

  // Judges a claim in parts: value is null for absence, leaf is null or a key and the hash of its value, siblings have the lowest first.
  // 0, or the number of the check that refuses it.
  judge(root, name, value, leaf, siblings) {
    const hasValue = value !== null, hasLeaf = leaf !== null, asked = plain(name), hashes = each(siblings, sized);
    const claimed = hasValue ? plain(value) : new Uint8Array(0);
    const [key, hash] = hasLeaf ? sizedLeaf(leaf) : [new Uint8Array(HASH), new Uint8Array(HASH)];
    const [top, own, claim, leafKey, leafHash, beside] = this.#write(sized(root), asked, claimed, key, hash, joined(hashes));
    return this.#calls.jelly_judge(
      top, own, BigInt(asked.length), Number(hasValue), claim, BigInt(claimed.length), Number(hasLeaf), leafKey, leafHash, beside,
      BigInt(hashes.length));
  }

  // The root of the map with these leaves, each a key and the hash of its value, in ascending order of their keys. Throws RangeError if
  // the keys don't ascend strictly.
  rootOf(leaves) {
    const pairs = each(leaves, sizedLeaf);
    const [root, entries] = this.#write(new Uint8Array(HASH), joined(pairs.flat()));
    if (this.#calls.jelly_root(entries, BigInt(pairs.length), root) !== 0) throw new RangeError("the keys don't ascend strictly");
    return this.#read(root, HASH);
  }

  // The hashes of docs/FORMATS.md, "Keys and roots".
  keyOf(name) {
    const bytes = plain(name), [hash, own] = this.#write(new Uint8Array(HASH), bytes);
    this.#calls.jelly_key(own, BigInt(bytes.length), hash);
    return this.#read(hash, HASH);
  }

  valueHash(value) {
    const bytes = plain(value), [hash, own] = this.#write(new Uint8Array(HASH), bytes);
    this.#calls.jelly_value(own, BigInt(bytes.length), hash);
    return this.#read(hash, HASH);
  }

  leafHash(key, valueHash) {
    const [hash, first, second] = this.#write(new Uint8Array(HASH), sized(key), sized(valueHash));
    this.#calls.jelly_leaf(first, second, hash);
    return this.#read(hash, HASH);
  }

  pairHash(left, right) {
    const [hash, first, second] = this.#write(new Uint8Array(HASH), sized(left), sized(right));
    this.#calls.jelly_pair(first, second, hash);
    return this.#read(hash, HASH);
  }
}

// The calls of a module, from its bytes (`jelly.wasm`) or from the response to a request for it.
export async function load(source) {
  const bytes = ArrayBuffer.isView(source) || source instanceof ArrayBuffer ? source : await (await source).arrayBuffer();
  const { instance } = await WebAssembly.instantiate(bytes, {});
  return new Jelly(instance);
}
