'use strict';
// The file's records come as DATA.steps. A step tells what changed: f, a new board; a, items
// that came or changed; g, ids that went. What it asked is told by pins, wire, by, reach, far;
// no is the rectangle of a refused keep-out.
const DATA = JSON.parse(document.getElementById('data').textContent);
const steps = DATA.steps;
const find = (id) => document.getElementById(id);
const svg = find('board');
const ROW = 24, EVERY = 256;
const MARGIN = { left: 64, right: 20, top: 20, bottom: 40 };
let now = 0, stand = null, view = null, whole = true;

// The board after a record: from the nearest kept one on, so that any jump is quick.
const kept = [{ frame: null, items: new Map() }];
function go(from, step) {
  if (step.f) return { frame: step.f, items: new Map() };
  for (const item of step.a || []) from.items.set(item.id, item);
  for (const id of step.g || []) from.items.delete(id);
  return from;
}
function copy(from) { return { frame: from.frame, items: new Map(from.items) }; }
function after(number) {
  while (kept.length * EVERY <= number) {
    let next = copy(kept[kept.length - 1]);
    for (let i = (kept.length - 1) * EVERY; i < kept.length * EVERY; i++) next = go(next, steps[i]);
    kept.push(next);
  }
  const base = Math.floor(number / EVERY);
  let result = copy(kept[base]);
  for (let i = base * EVERY; i < number; i++) result = go(result, steps[i]);
  return result;
}

// One record on, back, or to any other.
function show(number) {
  const before = stand && stand.frame;
  now = Math.max(0, Math.min(steps.length, number));
  stand = after(now);
  if (String(before) !== String(stand.frame)) fit();
  const step = steps[now - 1];
  find('place').textContent = 'record ' + now + ' of ' + steps.length;
  const answer = find('answer');
  answer.textContent = step ? step.p + ': ' + step.t + ': ' + step.w : 'before the first record';
  answer.className = step && step.c ? 'no' : '';
  find('about').textContent = stand.frame
    ? stand.frame[0] + ' \u00d7 ' + stand.frame[1] + ', clearance ' + stand.frame[2] + '; ' +
      (step ? step.b : 0) + ' of ' + DATA.blocks + ' blocks, ' + (step ? step.k : 0) + ' of ' + DATA.kept + ' changes kept'
    : 'no bounds yet';
  find('tip').hidden = true;
  keepInSight();
  list();
  draw();
  history.replaceState(null, '', '#' + now);
}

// The list: only the rows in sight are there, since a file may have 65,535.
function keepInSight() {
  const box = find('list'), top = now * ROW;
  if (top < box.scrollTop) box.scrollTop = top;
  if (top + ROW > box.scrollTop + box.clientHeight) box.scrollTop = top + ROW - box.clientHeight;
}
function list() {
  const box = find('list'), rows = find('rows');
  find('tall').style.height = (steps.length + 1) * ROW + 'px';
  const from = Math.max(0, Math.floor(box.scrollTop / ROW) - 4);
  const to = Math.min(steps.length, from + Math.ceil(box.clientHeight / ROW) + 8);
  rows.style.top = from * ROW + 'px';
  rows.replaceChildren();
  for (let i = from; i <= to; i++) rows.append(row(i));
}
function row(i) {
  const step = steps[i - 1], line = document.createElement('div');
  line.className = 'row' + (i === now ? ' now' : '') + (step && step.c ? ' no' : '');
  line.dataset.number = i;
  const where = document.createElement('span'), what = document.createElement('span');
  where.className = 'where';
  what.className = 'what';
  where.textContent = step ? step.p : '';
  what.textContent = step ? step.t : 'before the first record';
  line.append(where, what);
  line.title = step ? step.w : '';
  return line;
}

// From units to pixels; y points up.
let scale = 1, room = { width: 0, height: 0 };
const X = (x) => MARGIN.left + (x - view.x) * scale;
const Y = (y) => room.height - MARGIN.bottom - (y - view.y) * scale;
function measure() {
  const box = svg.getBoundingClientRect();
  room = { width: box.width, height: box.height };
}
function inner() {
  return {
    width: Math.max(40, room.width - MARGIN.left - MARGIN.right),
    height: Math.max(40, room.height - MARGIN.top - MARGIN.bottom),
  };
}
function fit() {
  measure();
  whole = true;
  if (!stand.frame) { view = null; return; }
  const [w, h] = stand.frame, size = inner();
  scale = Math.min(size.width / w, size.height / h);
  view = { x: 0, y: 0 };
}
function zoom(times, px, py) {
  if (!view) return;
  const x = view.x + (px - MARGIN.left) / scale, y = view.y + (room.height - MARGIN.bottom - py) / scale;
  const [w, h] = stand.frame, size = inner();
  const least = Math.min(size.width / w, size.height / h) / 2;
  const next = Math.max(least, Math.min(200, scale * times));
  view.x = x - (px - MARGIN.left) / next;
  view.y = y - (room.height - MARGIN.bottom - py) / next;
  scale = next;
  whole = false;
  draw();
}
const middle = () => [room.width / 2, room.height / 2];

// Drawing.
function element(name, attributes, parent, text) {
  const made = document.createElementNS('http://www.w3.org/2000/svg', name);
  for (const key in attributes) made.setAttribute(key, attributes[key]);
  if (text !== undefined) made.textContent = text;
  parent.append(made);
  return made;
}
function rect([x0, y0, x1, y1], attributes, parent) {
  const place = { x: X(x0), y: Y(y1), width: (x1 - x0) * scale, height: (y1 - y0) * scale };
  return element('rect', Object.assign(place, attributes), parent);
}
function path(corners, attributes, parent) {
  const points = corners.map(([x, y]) => X(x) + ',' + Y(y)).join(' ');
  return element('polyline', Object.assign({ points }, attributes), parent);
}
function runs(corners) {
  return corners.slice(1).map(([x, y], i) => {
    const [u, v] = corners[i];
    return [Math.min(x, u), Math.min(y, v), Math.max(x, u), Math.max(y, v)];
  });
}
// Lines are thin enough to show apart what is apart.
function breadth(parts) {
  let least = Infinity;
  for (let i = 0; i < parts.length; i++) {
    for (let j = 0; j < i; j++) {
      const [a, b] = [parts[i], parts[j]];
      const dx = Math.max(0, a[0] - b[2], b[0] - a[2]), dy = Math.max(0, a[1] - b[3], b[1] - a[3]);
      const gap = Math.hypot(dx, dy) * scale;
      if (gap > 0 && gap < least) least = gap;
    }
  }
  return Math.max(0.12, Math.min(1, least / 6));
}
function draw() {
  svg.replaceChildren();
  if (!view) return;
  const clip = element('clipPath', { id: 'near' }, svg), size = inner();
  element('rect', { x: MARGIN.left - 14, y: MARGIN.top - 14, width: size.width + 28, height: size.height + 28 }, clip);
  const board = element('g', { 'clip-path': 'url(#near)' }, svg);
  const [w, h, clearance] = stand.frame, step = steps[now - 1] || {};
  rect([0, 0, w, h], { class: 'paper' }, board);
  grid(board, w, h);
  rect([0, 0, w, h], { class: 'edge' }, board);
  const items = [...stand.items.values()];
  const keepouts = items.filter((item) => item.r), wires = items.filter((item) => item.c);
  const thin = breadth([...keepouts.map((item) => item.r), ...wires.flatMap((item) => runs(item.c)), ...runs(step.wire || [])]);
  for (const item of keepouts) rect(item.r, { class: 'rim', 'stroke-width': 3 * thin }, board);
  for (const item of keepouts) rect(item.r, { class: 'keepout', 'data-id': item.id }, board);
  if (step.reach) reached(step.reach, board);
  for (const item of wires) {
    const shade = element('g', { opacity: 0.18 }, board);
    for (const [x0, y0, x1, y1] of runs(item.c)) {
      rect([x0 - clearance, y0 - clearance, x1 + clearance, y1 + clearance], { class: 'box', 'pointer-events': 'none' }, shade);
    }
  }
  for (const item of wires) path(item.c, { class: 'wire', 'stroke-width': 3 * thin }, board);
  asked(step, thin, board);
  for (const item of wires) path(item.c, { class: 'hit', 'data-id': item.id }, board);
  taken = [];
  pins(step, thin, board);
  names(items, board);
  axes(w, h);
}
function grid(board, w, h) {
  if (scale < 9) return;
  const from = (low) => Math.max(0, Math.floor(low)), size = inner();
  for (let x = from(view.x); x <= Math.min(w, view.x + size.width / scale + 1); x++) {
    element('line', { x1: X(x), x2: X(x), y1: Y(0), y2: Y(h), class: 'grid' }, board);
  }
  for (let y = from(view.y); y <= Math.min(h, view.y + size.height / scale + 1); y++) {
    element('line', { x1: X(0), x2: X(w), y1: Y(y), y2: Y(y), class: 'grid' }, board);
  }
}
function reached(rects, board) {
  const shade = element('g', { opacity: 0.3, 'pointer-events': 'none' }, board);
  for (const [x0, y0, x1, y1] of rects) {
    if (x0 === x1 || y0 === y1) path([[x0, y0], [x1, y1]], { class: 'reach', 'stroke-width': 2 }, shade);
    else rect([x0, y0, x1, y1], { class: 'reach', 'stroke-width': 0 }, shade);
  }
}
// The wire that was found, or the item that blocks a pin.
function asked(step, thin, board) {
  const by = step.by && stand.items.get(step.by);
  if (by && by.r) rect(by.r, { class: 'blocker', 'stroke-width': 4 * thin, 'pointer-events': 'none' }, board);
  if (by && by.c) path(by.c, { class: 'blocker', 'stroke-width': 4 * thin }, board);
  if (step.wire) path(step.wire, { class: 'last', 'stroke-width': 4 * thin }, board);
  if (step.no) rect(step.no, { class: 'refused', 'pointer-events': 'none' }, board);
}
// Labels: none over another, none outside. Pins go first, as they matter most.
let taken = [];
function label(text, name, middles, board) {
  const half = 4 * String(text).length, high = 7.5, size = inner();
  const area = ([x, y]) => [x - half, y - high, x + half, y + high];
  const inside = (a) => a[0] >= MARGIN.left - 14 && a[1] >= MARGIN.top - 14 &&
    a[2] <= MARGIN.left + size.width + 14 && a[3] <= MARGIN.top + size.height + 14;
  const meets = (a) => (b) => a[0] < b[2] && b[0] < a[2] && a[1] < b[3] && b[1] < a[3];
  const best = middles.find((middle) => inside(area(middle)) && !taken.some(meets(area(middle))));
  if (!best) return;
  taken.push(area(best));
  element('text', { x: best[0], y: best[1] + 4, class: name }, board, text);
}
// Places for a label: in an area, or round it; a point is an area too.
function beside([x0, y0, x1, y1], text, far) {
  const half = 4 * String(text).length, x = (x0 + x1) / 2, y = (y0 + y1) / 2, places = [];
  if (x1 - x0 > 2 * half && y1 - y0 > 15) places.push([x, y], [x, (y0 + y) / 2], [x, (y + y1) / 2]);
  for (const off of [far, 2.2 * far, 4 * far]) {
    const [left, right, above, below] = [x0 - half - off, x1 + half + off, y0 - 7 - off, y1 + 7 + off];
    places.push([x, above], [right, y], [left, y], [x, below], [right, above], [left, above], [right, below], [left, below]);
  }
  return places;
}
function names(items, board) {
  const long = (part) => Math.max(part[2] - part[0], part[3] - part[1]);
  for (const item of items) {
    const parts = item.r ? [item.r] : runs(item.c).sort((a, b) => long(b) - long(a));
    const places = parts.flatMap(([x0, y0, x1, y1]) => beside([X(x0), Y(y1), X(x1), Y(y0)], item.id, 3));
    label(item.id, item.c ? 'name wirename' : 'name', places, board);
  }
}
function pins(step, thin, board) {
  if (!step.pins) return;
  const [sx, sy, tx, ty] = step.pins;
  const all = [['s', sx, sy], ['t', tx, ty]];
  if (step.far) all.push(['as far as', step.far[0], step.far[1]]);
  for (const [, x, y] of all) {
    element('circle', { cx: X(x), cy: Y(y), r: 1.5 + 3.5 * thin, class: 'pin' }, board);
    element('circle', { cx: X(x), cy: Y(y), r: 8, class: 'ring' }, board);
    taken.push([X(x) - 8, Y(y) - 8, X(x) + 8, Y(y) + 8]);
  }
  for (const [name, x, y] of all) {
    const text = name + ' (' + x + ',' + y + ')';
    label(text, 'name pinname', beside([X(x), Y(y), X(x), Y(y)], text, 10), board);
  }
}
function axes(w, h) {
  const size = inner(), nice = [1, 2, 5];
  let unit = 1;
  for (let power = 0; power < 6 && unit * scale < 56; power++) {
    for (const digit of nice) { unit = digit * 10 ** power; if (unit * scale >= 56) break; }
  }
  const base = room.height - MARGIN.bottom + 14, left = MARGIN.left - 14;
  const low = (from) => Math.max(0, Math.ceil(from / unit) * unit);
  for (let x = low(view.x); x <= Math.min(w, view.x + size.width / scale); x += unit) {
    element('line', { x1: X(x), x2: X(x), y1: base, y2: base + 5, class: 'tick' }, svg);
    element('text', { x: X(x), y: base + 18, class: 'axis', 'text-anchor': 'middle' }, svg, x);
  }
  for (let y = low(view.y); y <= Math.min(h, view.y + size.height / scale); y += unit) {
    element('line', { x1: left, x2: left - 5, y1: Y(y), y2: Y(y), class: 'tick' }, svg);
    element('text', { x: left - 8, y: Y(y) + 4, class: 'axis', 'text-anchor': 'end' }, svg, y);
  }
}

// Hovering tells an item's id and corners.
function told(item) {
  if (item.r) return 'keep-out ' + item.id + ' (' + item.r[0] + ',' + item.r[1] + ')-(' + item.r[2] + ',' + item.r[3] + ')';
  return 'wire ' + item.id + ': ' + item.c.map(([x, y]) => x + ':' + y).join(' ');
}
function hover(event) {
  const over = event.target.closest && event.target.closest('[data-id]'), tip = find('tip');
  const item = over && stand.items.get(Number(over.dataset.id));
  tip.hidden = !item;
  if (!item) return;
  tip.textContent = told(item);
  tip.style.left = Math.min(event.clientX + 14, window.innerWidth - tip.offsetWidth - 6) + 'px';
  tip.style.top = Math.min(event.clientY + 16, window.innerHeight - tip.offsetHeight - 6) + 'px';
}
let grip = null;
function drag(event) {
  if (!grip || !view) { hover(event); return; }
  view.x = grip.x - (event.clientX - grip.px) / scale;
  view.y = grip.y + (event.clientY - grip.py) / scale;
  whole = false;
  draw();
}
svg.addEventListener('pointerdown', (event) => {
  if (view) grip = { px: event.clientX, py: event.clientY, x: view.x, y: view.y };
});
window.addEventListener('pointerup', () => { grip = null; });
svg.addEventListener('pointermove', drag);
svg.addEventListener('pointerleave', () => { find('tip').hidden = true; });
svg.addEventListener('wheel', (event) => {
  event.preventDefault();
  const box = svg.getBoundingClientRect();
  zoom(event.deltaY < 0 ? 1.25 : 0.8, event.clientX - box.left, event.clientY - box.top);
}, { passive: false });

const KEYS = {
  ArrowRight: () => show(now + 1), ArrowDown: () => show(now + 1), ' ': () => show(now + 1),
  ArrowLeft: () => show(now - 1), ArrowUp: () => show(now - 1),
  PageDown: () => show(now + 10), PageUp: () => show(now - 10),
  Home: () => show(0), End: () => show(steps.length),
  '+': () => zoom(1.25, ...middle()), '=': () => zoom(1.25, ...middle()), '-': () => zoom(0.8, ...middle()),
  '0': () => { fit(); draw(); },
};
document.addEventListener('keydown', (event) => {
  if (event.ctrlKey || event.altKey || event.metaKey || !KEYS[event.key]) return;
  event.preventDefault();
  KEYS[event.key]();
});
for (const [id, key] of [['first', 'Home'], ['back', 'ArrowLeft'], ['forward', 'ArrowRight'], ['final', 'End'],
  ['nearer', '+'], ['farther', '-'], ['fit', '0']]) find(id).addEventListener('click', KEYS[key]);
find('rows').addEventListener('click', (event) => {
  const line = event.target.closest('.row');
  if (line) show(Number(line.dataset.number));
});
find('list').addEventListener('scroll', list);
window.addEventListener('resize', () => {
  if (whole) fit(); else measure();
  list();
  draw();
});
window.addEventListener('hashchange', () => show(Number(location.hash.slice(1)) || 0));
show(location.hash ? Number(location.hash.slice(1)) || 0 : Math.min(1, steps.length));
