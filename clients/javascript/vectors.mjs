// The vectors of clients/vectors (docs/CLIENTS.md), and the calls of the library on them.
import { Refused, bytesOf, digitsOf } from './jelly.mjs';

const LINE_FEED = 10, ASCII = new TextDecoder('latin1');

// Reads the lines and bytes of a file.
class Reader {
  constructor(bytes) {
    this.bytes = bytes;
    this.place = 0;
  }

  get isAtEnd() {
    return this.place === this.bytes.length;
  }

  line() {
    const end = this.bytes.indexOf(LINE_FEED, this.place);
    const line = ASCII.decode(this.bytes.subarray(this.place, end));
    this.place = end + 1;
    return line;
  }

  after(word) {
    const line = this.line();
    if (line !== word && !line.startsWith(word + ' ')) throw new Error(`${line} in place of ${word}`);
    return line.slice(word.length + 1);
  }

  hex(word) {
    return bytesOf(this.after(word));
  }

  // The bytes after a line `bytes N`, or those of a line `hex`.
  text() {
    const [word, rest = ''] = this.line().split(' ');
    if (word === 'hex') return bytesOf(rest);
    const start = this.place;
    this.place += Number(rest) + 1;
    return this.bytes.slice(start, this.place - 1);
  }
}

function casesOf(bytes, read) {
  const cases = [], it = new Reader(bytes);
  while (!it.isAtEnd) {
    const title = it.after('case');
    cases.push({ title, ...read(it) });
  }
  return cases;
}

function lookup(it) {
  return { root: it.hex('root'), name: it.hex('name'), reply: it.text(), wanted: it.after('shows') };
}

function claim(it) {
  const root = it.hex('root'), count = Number(it.after('proof')), name = it.hex('name'), word = it.after('claim'), leaf = it.after('leaf');
  const siblings = Array.from({ length: count }, () => it.hex('side'));
  return {
    root, name, siblings,
    value: word === 'none' ? null : bytesOf(word.slice(1)),
    leaf: leaf === 'none' ? null : leaf.split(' ').map(bytesOf),
    wanted: Number(it.after('judged')),
  };
}

function leaves(it) {
  const rows = Array.from({ length: Number(it.after('entries')) }, () => it.line().split(' ').map(bytesOf));
  return { leaves: rows, wanted: it.after('root') };
}

function shown(jelly, { root, name, reply }) {
  try {
    const value = jelly.lookUp(root, name, reply);
    return value === null ? 'none' : 'value =' + digitsOf(value);
  } catch (error) {
    if (!(error instanceof Refused)) throw error;
    return `refused ${error.number}`;
  }
}

function rooted(jelly, it) {
  try {
    return digitsOf(jelly.rootOf(it.leaves));
  } catch (error) {
    if (!(error instanceof RangeError)) throw error;
    return 'unsorted';
  }
}

// Makes a lookup, whatever it comes to.
function tried(jelly, { root, name, reply }) {
  try {
    jelly.lookUp(root, name, reply);
  } catch (error) {
    if (!(error instanceof Refused)) throw error;
  }
}

// The microseconds that have gone by: of processor time in Node, and on the clock in a browser, which tells no other.
function now() {
  const used = globalThis.process?.cpuUsage?.();
  return used ? used.user + used.system : performance.now() * 1000;
}

// The microseconds of a lookup of these: the mean of the round that took least, as other work on the machine makes most take longer.
function timeOf(jelly, cases, rounds = 60, calls = 500) {
  const count = Math.ceil(calls / cases.length);
  const times = Array.from({ length: rounds }, () => {
    const began = now();
    for (let it = 0; it < count; it++) for (const one of cases) tried(jelly, one);
    return (now() - began) / count / cases.length;
  });
  return Math.min(...times);
}

// Makes each call on each case of files by their names. `wrong` has the titles of those that came to something else. How long a call takes
// is measured too, unless it shall not be.
export function check(jelly, files, isTimed = true) {
  const lookups = casesOf(files['proofs.txt'], lookup), claims = casesOf(files['claims.txt'], claim), roots = casesOf(files['roots.txt'], leaves);
  const wrong = [
    ...lookups.filter(it => shown(jelly, it) !== it.wanted),
    ...claims.filter(it => jelly.judge(it.root, it.name, it.value, it.leaf, it.siblings) !== it.wanted),
    ...roots.filter(it => rooted(jelly, it) !== it.wanted),
  ].map(it => it.title);
  return { lookups: lookups.length, claims: claims.length, roots: roots.length, wrong, ...(isTimed ? times(jelly, lookups) : {}) };
}

// The cases that show a value with so many siblings.
function values(lookups, siblings) {
  return lookups.filter(it => ASCII.decode(it.reply).startsWith(`1 ok proof ${siblings}\n`) && it.wanted.startsWith('value'));
}

function times(jelly, lookups) {
  return { mean: timeOf(jelly, lookups), none: timeOf(jelly, values(lookups, 0)), deep: timeOf(jelly, values(lookups, 17)) };
}

export function summary(found) {
  const counts = `${found.lookups} lookups, ${found.claims} claims, ${found.roots} roots: ${found.wrong.length} wrong`;
  return found.mean === undefined ? counts : `${counts}\n${timesOf(found)}`;
}

function timesOf({ mean, none, deep }) {
  return `a lookup takes ${mean.toFixed(2)} us (${Math.round(1e6 / mean)} a second), a value with no sibling ${none.toFixed(2)} us, with 17 siblings ${deep.toFixed(2)} us`;
}

export const FILES = ['proofs.txt', 'claims.txt', 'roots.txt'];
