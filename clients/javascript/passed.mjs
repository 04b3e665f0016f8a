// What callers pass: every call takes bytes alone, and hashes of 32 of them. The client in Python is held to the same by ByEachEngine
// (clients/python/test_vectors.py).
import { digitsOf } from './jelly.mjs';

const bytes = text => new TextEncoder().encode(text);

// A map of one entry: its parts, and the reply of a store that has it.
function entryIn(jelly) {
  const name = bytes('a'), value = bytes('1'), key = jelly.keyOf(name), hash = jelly.valueHash(value), root = jelly.leafHash(key, hash);
  const leaf = `leaf ${digitsOf(key)} ${digitsOf(hash)}`, empty = jelly.rootOf([]);
  return { name, value, key, hash, root, empty, reply: bytes(`1 ok proof 0\nname ${digitsOf(name)}\nclaim =${digitsOf(value)}\n${leaf}\n`) };
}

// What stands for no bytes, though some of it has a length and elements.
const NO_BYTES = {
  'digits': '12', 'a text': 'alice', 'no text': '', 'a list': [1, 2], 'a number above a byte': [300], 'no list': [], 'a number': 32, 'zero': 0,
  'a truth': true, 'a falsehood': false, 'an object': { length: 32 }, 'nothing': undefined, 'pairs of bytes': new Uint16Array(16),
  'a buffer': new ArrayBuffer(32), 'a view of no elements': new DataView(new ArrayBuffer(32)), 'floats': new Float64Array(32),
  '32 letters': '9'.repeat(32), '32 numbers': Array(32).fill(9),
};

// Each place at which a call takes bytes, with something else there; whether it takes a hash; and whether null means something there.
function places({ name, value, key, hash, root, reply }) {
  return [
    { title: 'the root of a lookup', call: (jelly, it) => jelly.lookUp(it, name, reply), isHash: true },
    { title: 'the name of a lookup', call: (jelly, it) => jelly.lookUp(root, it, reply) },
    { title: 'the reply', call: (jelly, it) => jelly.lookUp(root, name, it) },
    { title: 'the root of a claim', call: (jelly, it) => jelly.judge(it, name, value, [key, hash], []), isHash: true },
    { title: 'the name of a claim', call: (jelly, it) => jelly.judge(root, it, value, [key, hash], []) },
    { title: 'the value of a claim', call: (jelly, it) => jelly.judge(root, name, it, [key, hash], []), hasNull: true },
    { title: 'the key of a leaf', call: (jelly, it) => jelly.judge(root, name, value, [it, hash], []), isHash: true },
    { title: 'the hash of a leaf', call: (jelly, it) => jelly.judge(root, name, value, [key, it], []), isHash: true },
    { title: 'a sibling', call: (jelly, it) => jelly.judge(root, name, value, [key, hash], [root, it]), isHash: true },
    { title: 'a sibling among too many', call: (jelly, it) => jelly.judge(root, name, null, null, [...Array(300).fill(root), it]), isHash: true },
    { title: 'the key of an entry', call: (jelly, it) => jelly.rootOf([[it, hash]]), isHash: true },
    { title: 'the hash of an entry', call: (jelly, it) => jelly.rootOf([[key, it]]), isHash: true },
    { title: 'a name', call: (jelly, it) => jelly.keyOf(it) },
    { title: 'a value', call: (jelly, it) => jelly.valueHash(it) },
    { title: 'the key of a hashed leaf', call: (jelly, it) => jelly.leafHash(it, hash), isHash: true },
    { title: 'the hash of a hashed leaf', call: (jelly, it) => jelly.leafHash(key, it), isHash: true },
    { title: 'the left of a pair', call: (jelly, it) => jelly.pairHash(it, hash), isHash: true },
    { title: 'the right of a pair', call: (jelly, it) => jelly.pairHash(key, it), isHash: true },
    { title: 'what digits are made of', call: (jelly, it) => digitsOf(it) },
  ];
}

// What is no leaf and no list of leaves or siblings, and what is thrown of it.
function shapes({ name, value, key, hash, root }) {
  const leaves = [[], [key], [key, hash, hash], [key, hash, key, hash]];
  return [
    ...leaves.map(leaf => [`a leaf of ${leaf.length}`, RangeError, jelly => jelly.judge(root, name, value, leaf, [])]),
    ...leaves.map(leaf => [`an entry of ${leaf.length}`, RangeError, jelly => jelly.rootOf([leaf])]),
    ['an entry of one and another', RangeError, jelly => jelly.rootOf([[key], [hash]])],
    ['an entry that is no list', TypeError, jelly => jelly.rootOf([key, hash])],
    ['a leaf that is bytes', TypeError, jelly => jelly.judge(root, name, value, key, [])],
    ['a leaf that is missing', TypeError, jelly => jelly.judge(root, name, value, undefined, [])],
    ['a value that is missing', TypeError, jelly => jelly.judge(root, name, undefined, null, [])],
    ['entries that are missing', TypeError, jelly => jelly.rootOf()],
    ['siblings that are bytes', TypeError, jelly => jelly.judge(root, name, value, [key, hash], root)],
    ['siblings with a gap', TypeError, jelly => jelly.judge(root, name, value, [key, hash], Array(1))],
    ['an entry with a gap', TypeError, jelly => jelly.rootOf([Array(2)])],
    ['entries with a gap', TypeError, jelly => jelly.rootOf(Array(1))],
  ];
}

// A key and a hash that are cut at another place: hashed one after another they are the true leaf.
function cut({ name, key, hash, root }) {
  const both = Uint8Array.of(...key, ...hash);
  return [31, 33, 63, 0, 64].map(at => [both.slice(0, at), both.slice(at)]).flatMap(forged => [
    [`absence by a key of ${forged[0].length}`, RangeError, jelly => jelly.judge(root, name, null, forged, [])],
    [`an entry with a key of ${forged[0].length}`, RangeError, jelly => jelly.rootOf([forged])],
    [`a leaf with a key of ${forged[0].length}`, RangeError, jelly => jelly.leafHash(...forged)],
    [`a pair with a left of ${forged[0].length}`, RangeError, jelly => jelly.pairHash(...forged)],
  ]);
}

// All that has to be refused: a title, what is thrown, and the call.
function refusals(entry) {
  const all = places(entry);
  return [
    ...all.flatMap(({ title, call }) =>
      Object.entries(NO_BYTES).map(([what, it]) => [`${what} for ${title}`, TypeError, jelly => call(jelly, it)])),
    ...all.filter(it => !it.hasNull).map(({ title, call }) => [`null for ${title}`, TypeError, jelly => call(jelly, null)]),
    ...all.filter(it => it.isHash).flatMap(({ title, call }) =>
      [0, 31, 33, 64].map(size => [`${size} bytes for ${title}`, RangeError, jelly => call(jelly, new Uint8Array(size))])),
    ...shapes(entry),
    ...cut(entry),
  ];
}

function isRefused(jelly, kind, call) {
  try {
    call(jelly);
  } catch (error) {
    return error instanceof kind;
  }
  return false;
}

// Each call on an entry whose bytes are of some kind, and what it comes to.
function uses(jelly, entry, kind) {
  const [name, value, key, hash, root, reply, empty] = ['name', 'value', 'key', 'hash', 'root', 'reply', 'empty'].map(part => kind(entry[part]));
  return [
    ['a value', digitsOf(jelly.lookUp(root, name, reply)), digitsOf(value)],
    ['a claim', jelly.judge(root, name, value, [key, hash], []), 0],
    ['a claim with a sibling', jelly.judge(root, name, value, [key, hash], [empty]), 4],
    ['absence with the leaf', jelly.judge(root, name, null, [key, hash], []), 2],
    ['absence', jelly.judge(empty, name, null, null, []), 0],
    ['an empty value', jelly.judge(root, name, kind(new Uint8Array(0)), [key, hash], []), 2],
    ['a root', digitsOf(jelly.rootOf([[key, hash]])), digitsOf(root)],
    ['a key', digitsOf(jelly.keyOf(name)), digitsOf(key)],
    ['the hash of a value', digitsOf(jelly.valueHash(value)), digitsOf(hash)],
    ['the hash of a leaf', digitsOf(jelly.leafHash(key, hash)), digitsOf(root)],
    ['the hash of a pair', digitsOf(jelly.pairHash(key, hash)), digitsOf(jelly.pairHash(entry.key, entry.hash))],
  ];
}

// The bytes from the middle of others.
function inTheMiddle(it) {
  const all = new Uint8Array(it.length + 5);
  all.set(it, 3);
  return all.subarray(3, 3 + it.length);
}

// Kinds of views of bytes. `Other` is the Uint8Array of another page, frame or context.
const kinds = Other => ({
  'Uint8Array': it => it, 'from the middle': inTheMiddle, 'Int8Array': it => Int8Array.from(it),
  'Uint8ClampedArray': it => Uint8ClampedArray.from(it), "another realm's": it => Other.from(it),
});

// Passes to each call what it has to take and what it has to refuse: how many that were, and the titles of those that came to something
// else.
export function checkPassed(jelly, Other) {
  const entry = entryIn(jelly), refused = refusals(entry);
  const used = Object.entries(kinds(Other)).flatMap(([title, kind]) =>
    uses(jelly, entry, kind).map(([what, found, wanted]) => ({ title: `${what}, ${title}`, isRight: found === wanted })));
  const wrong = [
    ...refused.filter(([, kind, call]) => !isRefused(jelly, kind, call)).map(([title]) => title),
    ...used.filter(it => !it.isRight).map(it => it.title),
  ];
  return { count: refused.length + used.length, wrong };
}
