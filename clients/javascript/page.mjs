// The page: root, name and reply go in; the value or the refusal, and the way of the hashes, come out.
import { Refused, bytesOf, digitsOf, load } from './jelly.mjs';
import { wayOf } from './way.mjs';
import { drawn } from './drawing.mjs';

const EXAMPLE = {
  root: '3e92b77a6f4a7dcc426f134b3415f3af7eb39e5c8ac7599c94f5a3c83fe07425',
  name: '61',
  reply: `1 ok proof 2
name 61
claim =31
leaf 19d5f57c8e8b3cd760f853bb8d7900d68e10ef02674383de65a9b4d65e419b26 f254fd9353abb55f60a0942b46382c2428aa019d102cd9985275c0fb42a8dbb3
side 523314ab33c912d434792b42083d03c32d7e90b536b35c355a01ad0bb7925da2
side 6e340b9cffb37a989ca544e6bb780a2c78901d3fb33738768511a30617afa01d
`,
};

const part = id => document.getElementById(id);

function show(kind, text) {
  part('verdict').className = kind;
  part('verdict').textContent = text;
}

const jelly = await load(fetch('../out/jelly.wasm')).catch(error => {
  show('unread', `../out/jelly.wasm can't be used: ${error.message}`);
  throw error;
});

function nameOf(text) {
  return part('as-text').checked ? new TextEncoder().encode(text) : bytesOf(text.trim());
}

// A value as its digits and, if it is printable text, as that too.
function valueText(value) {
  const text = new TextDecoder('utf-8').decode(value);
  return /^[\x20-\x7e]+$/.test(text) ? `value =${digitsOf(value)} (“${text}”)` : `value =${digitsOf(value)}`;
}

function verdictOf(root, name, reply) {
  try {
    const value = jelly.lookUp(root, name, reply);
    return { kind: 'shown', text: value === null ? 'none: the name has no value' : valueText(value) };
  } catch (error) {
    if (!(error instanceof Refused)) throw error;
    return { kind: 'refused', text: error.message };
  }
}

function judge() {
  part('way').replaceChildren();
  try {
    const root = bytesOf(part('root').value.trim()), reply = part('reply').value;
    const verdict = verdictOf(root, nameOf(part('name').value), new TextEncoder().encode(reply));
    show(verdict.kind, verdict.text);
    const way = wayOf(jelly, reply);
    if (way) part('way').append(drawn(way, root, verdict.kind === 'shown'));
  } catch (error) {
    if (!(error instanceof RangeError)) throw error;
    show('unread', `root and name: ${error.message}`);
  }
}

part('form').addEventListener('submit', event => {
  event.preventDefault();
  judge();
});
part('example').addEventListener('click', () => {
  part('as-digits').checked = true;
  for (const [id, text] of Object.entries(EXAMPLE)) part(id).value = text;
  judge();
});
part('judge').disabled = part('example').disabled = false;
document.documentElement.dataset.ready = 'yes';
