// Draws a way (way.mjs) as an SVG: the leaf at the bottom, the root at the top, each sibling on its side.
import { digitsOf } from './jelly.mjs';

const WIDTH = 640, ROW = 76, MARGIN = 40, MIDDLE = WIDTH / 2, BESIDE = 210, BOX = { width: 170, height: 34 };

function element(name, attributes, ...children) {
  const made = document.createElementNS('http://www.w3.org/2000/svg', name);
  for (const [key, value] of Object.entries(attributes)) made.setAttribute(key, value);
  made.append(...children);
  return made;
}

function short(hash) {
  const digits = digitsOf(hash);
  return `${digits.slice(0, 10)}…${digits.slice(-4)}`;
}

// A word in the middle above or below a place.
function word(x, y, text, kind = '') {
  return element('text', { x, y: y + 5, 'text-anchor': 'middle', class: kind }, text);
}

// A hash in its box, with all its digits as a hint.
function box(x, y, hash, kind) {
  const frame = element('rect', { x: x - BOX.width / 2, y: y - BOX.height / 2, ...BOX, rx: 6 });
  return element('g', { class: `hash ${kind}` }, element('title', {}, digitsOf(hash)), frame, word(x, y, short(hash)));
}

function line(x1, y1, x2, y2) {
  return element('line', { x1, y1: y1 - BOX.height / 2, x2, y2: y2 + BOX.height / 2 });
}

// A sibling on its side, with the bit of the key that says which side that is.
function beside(step, y, above) {
  const x = step.isLeft ? MIDDLE - BESIDE : MIDDLE + BESIDE;
  return [line(MIDDLE, y, MIDDLE, above), line(x, y, MIDDLE, above), box(x, y, step.sibling, 'sibling'),
    word(x, y + BOX.height / 2 + 12, `bit ${step.depth} of the key is ${step.isLeft ? 1 : 0}`, 'note')];
}

// How the top is marked: as right only if something is shown, as a way may come to the root and show nothing of the name.
function topKind(isRoot, isShown) {
  if (!isRoot) return 'way wrong';
  return isShown ? 'way right' : 'way';
}

// The picture of a way under a root, and whether it shows a value or an absence.
export function drawn(way, root, isShown) {
  const top = way.steps.length, height = 2 * MARGIN + top * ROW, y = row => height - MARGIN - row * ROW;
  const isRoot = digitsOf(way.top) === digitsOf(root);
  const kind = row => row < top ? 'way' : topKind(isRoot, isShown);
  const size = { viewBox: `0 0 ${WIDTH} ${height}`, width: WIDTH, height };
  const picture = element('svg', { ...size, role: 'img', 'aria-label': `a way of ${top + 1} hashes from the leaf to the top` });
  way.steps.forEach((step, row) => picture.append(...beside(step, y(row), y(row + 1))));
  picture.append(box(MIDDLE, y(0), way.start, kind(0)), word(MIDDLE, y(0) + BOX.height / 2 + 12, way.leaf ? 'the leaf' : 'no leaf', 'note'));
  way.steps.forEach((step, row) => picture.append(box(MIDDLE, y(row + 1), step.hash, kind(row + 1))));
  picture.append(word(MIDDLE, y(top) - BOX.height / 2 - 12, isRoot ? 'the root' : "isn't the root", 'note'));
  return picture;
}
