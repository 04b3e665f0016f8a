// Makes each call of the library on the vectors in a browser, passes to it what callers may, and uses the page as a person would. What was
// found is shown, and sent to the server that this came from.
import { load } from './jelly.mjs';
import { checkPassed } from './passed.mjs';
import { FILES, check, summary } from './vectors.mjs';

const bytesAt = async path => new Uint8Array(await (await fetch(path)).arrayBuffer());

async function onVectors(jelly) {
  return check(jelly, Object.fromEntries(await Promise.all(FILES.map(async name => [name, await bytesAt('../vectors/' + name)]))));
}

// The page's document, once it is ready.
async function page() {
  const frame = document.getElementById('page');
  for (;;) {
    if (frame.contentDocument?.documentElement.dataset.ready === 'yes') return frame.contentDocument;
    await new Promise(resolve => setTimeout(resolve, 20));
  }
}

// Each: what is changed of the example, how the verdict begins, how many hashes are drawn, and how one of them is
// marked, if one is.
const USES = [
  ['the example', {}, 'value =31 (“1”)', 5, 'right'],
  ['another root', { root: '00'.repeat(32) }, 'refused 4', 5, 'wrong'],
  ['another name', { name: '62' }, 'refused 5', 5, ''],
  ['a forged value', { reply: ['claim =31', 'claim =32'] }, 'refused 2', 5, ''],
  ['a flipped sibling', { reply: ['side 52', 'side 53'] }, 'refused 4', 5, 'wrong'],
  ['no name', { name: '' }, 'refused 5', 5, ''],
  ['a line after the block', { reply: ['claim', 'claim'], more: 'x\n' }, 'refused 6', 0, ''],
  ['a root before the block', { before: `1 ok root ${'00'.repeat(32)}\n` }, 'refused 6', 0, ''],
  ['a root that is none', { root: '3e92' }, 'root and name: a root', 0, ''],
  ['digits that are none', { name: '6g' }, 'root and name: these are no', 0, ''],
  ['the name as text', { name: 'a', asText: true }, 'value =31', 5, 'right'],
];

function use(document, { root, name, reply, more = '', before = '', asText = false }) {
  const part = id => document.getElementById(id);
  part('example').click();
  if (root !== undefined) part('root').value = root;
  if (name !== undefined) part('name').value = name;
  if (reply) part('reply').value = part('reply').value.replace(...reply);
  part('reply').value = before + part('reply').value + more;
  if (asText) part('as-text').click();
  part('judge').click();
}

// How hashes are marked: one word for each that is.
function marks(document) {
  const marked = [...document.querySelectorAll('#way svg .right, #way svg .wrong')];
  return marked.map(it => (it.classList.contains('right') ? 'right' : 'wrong')).join(' ');
}

async function onPage() {
  const document = await page();
  return USES.filter(([, changes, verdict, hashes, mark]) => {
    use(document, changes);
    const text = document.getElementById('verdict').textContent;
    const count = selector => document.querySelectorAll(`#way svg ${selector}`).length;
    return !text.startsWith(verdict) || count('.hash') !== hashes || marks(document) !== mark;
  }).map(([title]) => title);
}

async function all() {
  const jelly = await load(fetch('../out/jelly.wasm')), found = await onVectors(jelly), misused = await onPage();
  const passed = checkPassed(jelly, document.getElementById('page').contentWindow.Uint8Array);
  const wrong = [...found.wrong, ...passed.wrong, ...misused], counts = `${passed.count} uses of what callers pass: ${passed.wrong.length} wrong`;
  return {
    isWell: wrong.length === 0, wrong,
    text: `${navigator.userAgent}\n${summary(found)}\n${counts}\n${USES.length} uses of the page: ${misused.length} wrong`,
  };
}

const result = await all().catch(error => ({ isWell: false, text: String(error.stack ?? error), wrong: [] }));
document.getElementById('found').textContent = result.text;
await fetch('/result', { method: 'POST', body: JSON.stringify(result) });
