// Makes each call of the library on the vectors, and passes to it what callers may, in Node:
//   node [--experimental-wasm-memory64] check.mjs [MODULE [FOLDER]]
// With the folder of other vectors it makes the calls on these alone, and doesn't tell how long they take.
import { readFile } from 'node:fs/promises';
import { runInNewContext } from 'node:vm';
import { load } from './jelly.mjs';
import { checkPassed } from './passed.mjs';
import { FILES, check, summary } from './vectors.mjs';

const here = name => new URL(name, import.meta.url);
const [, , path = here('../out/jelly.wasm'), folder] = process.argv;
const place = name => (folder === undefined ? here('../vectors/' + name) : `${folder}/${name}`);
const files = Object.fromEntries(await Promise.all(FILES.map(async name => [name, new Uint8Array(await readFile(place(name)))])));
const jelly = await load(new Uint8Array(await readFile(path))), found = check(jelly, files, folder === undefined);
console.log(summary(found));
const passed = folder === undefined ? checkPassed(jelly, runInNewContext('Uint8Array')) : null;
if (passed) console.log(`${passed.count} uses of what callers pass: ${passed.wrong.length} wrong`);
const wrong = [...found.wrong, ...(passed?.wrong ?? [])];
for (const title of wrong) console.error(title);
process.exitCode = wrong.length ? 1 : 0;
