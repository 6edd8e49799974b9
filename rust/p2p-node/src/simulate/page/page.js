'use strict';

const data = JSON.parse(document.getElementById('data').textContent);
const count = data.lies.length;
const byId = (id) => document.getElementById(id);
const circles = [];
const cells = [];
let tick = 1;
let chosen = null;

function create(parent, name, attributes) {
  const element = document.createElementNS('http://www.w3.org/2000/svg', name);
  for (const [key, value] of Object.entries(attributes)) element.setAttribute(key, value);
  parent.append(element);
  return element;
}

// The nodes are on a circle, the first one on top.
function placeOf(node, radius) {
  const angle = 2 * Math.PI * node / count - Math.PI / 2;
  return [radius * Math.cos(angle), radius * Math.sin(angle)];
}

function build() {
  byId('nodes').textContent = count;
  for (const flag of data.parameters.split(' --')) {
    const item = document.createElement('span');
    item.textContent = flag.startsWith('--') ? flag : `--${flag}`;
    byId('parameters').append(item, ' ');
  }
  byId('slider').max = data.ticks.length;
  const lines = create(byId('graph'), 'g', { id: 'lines' });
  lines.setAttribute('aria-hidden', 'true');
  for (let node = 0; node < count; node++) {
    const [x, y] = placeOf(node, 95);
    const circle = create(byId('graph'), 'circle', { cx: x.toFixed(2), cy: y.toFixed(2), r: count > 50 ? 2 : 3.2 });
    circle.addEventListener('click', () => choose(node));
    create(circle, 'title', {}).textContent = `node ${node}, ${data.lies[node]}`;
    circles.push(circle);
    if (count <= 50 || node % 5 === 0) {
      const [outerX, outerY] = placeOf(node, 104);
      create(byId('graph'), 'text', { x: outerX.toFixed(2), y: outerY.toFixed(2) }).textContent = node;
    }
  }
  buildSquare();
}

function buildSquare() {
  const square = byId('square');
  const margin = 0.06 * count;
  square.setAttribute('viewBox', `${-margin} ${-margin} ${count + 1.2 * margin} ${count + 1.2 * margin}`);
  const step = count > 40 ? 10 : 5;
  for (let node = 0; node < count; node += step) {
    const size = { 'font-size': 0.022 * count };
    create(square, 'text', { x: node + 0.5, y: -margin / 3, ...size }).textContent = node;
    create(square, 'text', { x: -margin / 2, y: node + 0.5, ...size }).textContent = node;
  }
  for (let row = 0; row < count; row++) {
    for (let column = 0; column < count; column++) {
      const cell = create(square, 'rect', { x: column, y: row, width: 0.94, height: 0.94 });
      cell.dataset.row = row;
      cell.dataset.column = column;
      if (row === column) cell.setAttribute('class', 'own');
      cells.push(cell);
    }
  }
  create(square, 'rect', { id: 'row', x: 0, width: count, height: 1, visibility: 'hidden' });
  square.addEventListener('click', (event) => {
    const { row } = event.target.dataset;
    if (row !== undefined) choose(Number(row));
  });
  square.addEventListener('mousemove', (event) => hint(event.target.dataset));
}

function hint({ row, column, age }) {
  if (row === undefined) return;
  let known = `knows nothing of node ${column}`;
  if (row === column) known = 'has its own info';
  else if (age === '0') known = `knows the newest info of node ${column}`;
  else if (age !== 'none') known = `knows an info of node ${column} that is ${age} behind the newest`;
  byId('hint').textContent = `Node ${row} ${known}.`;
}

function choose(node) {
  chosen = chosen === node ? null : node;
  update();
}

// An age is a digit of base 36, or a point if nothing is known.
function ageOf(digit) {
  return digit === '.' ? 'none' : String(parseInt(digit, 36));
}

function draw() {
  const now = data.ticks[tick - 1];
  byId('slider').value = tick;
  byId('tick').textContent = `${tick} of ${data.ticks.length}, at ${now.seconds} s`;
  byId('share').textContent = `${(100 * now.share).toFixed(1)} %`;
  byId('connections').textContent = now.meanConnections.toFixed(1);
  byId('bytes').textContent = Math.round(now.bytes);
  byId('running').textContent = now.running.filter(Boolean).length;
  cells.forEach((cell, place) => { cell.dataset.age = ageOf(now.ages[place]); });
  circles.forEach((circle, node) => {
    const kind = now.running[node] ? (data.lies[node] === 'honest' ? 'honest' : 'liar') : 'away';
    circle.setAttribute('class', node === chosen ? `${kind} chosen` : kind);
  });
  drawLines(now);
  drawDetails(now);
}

function drawLines(now) {
  const lines = byId('lines');
  lines.replaceChildren();
  now.connections.forEach((peers, node) => {
    for (const peer of peers) {
      // A connection that one side has ended has a line, too, until the other notices.
      if (peer < node && now.connections[peer].includes(node)) continue;
      const [[x1, y1], [x2, y2]] = [placeOf(node, 95), placeOf(peer, 95)];
      const line = create(lines, 'line', { x1: x1.toFixed(2), y1: y1.toFixed(2), x2: x2.toFixed(2), y2: y2.toFixed(2) });
      if (node === chosen || peer === chosen) {
        line.setAttribute('class', 'chosen');
      }
    }
  });
  lines.append(...lines.querySelectorAll('.chosen'));
}

function list(id, name, texts, empty) {
  const items = texts.map((text) => {
    const item = document.createElement('li');
    item.dataset[name] = text.value;
    item.textContent = text.shown;
    return item;
  });
  if (items.length === 0) {
    const item = document.createElement('li');
    item.textContent = empty;
    items.push(item);
  }
  byId(id).replaceChildren(...items);
}

function drawDetails(now) {
  const row = byId('row');
  byId('details').hidden = chosen === null;
  row.setAttribute('visibility', chosen === null ? 'hidden' : 'visible');
  if (chosen === null) return;
  row.setAttribute('y', chosen);
  byId('chosen').textContent = chosen;
  byId('state').textContent = now.running[chosen] ? data.lies[chosen] : 'away';
  byId('state').dataset.state = now.running[chosen] ? 'running' : 'away';
  list('sets', 'set', now.sets[chosen].map(([index, known, peers]) => ({
    value: `${index} ${known}/${peers}`,
    shown: `set ${index}: ${known} of ${peers} bits are true`,
  })), 'none');
  const plain = (peers) => peers.map((peer) => ({ value: peer, shown: peer }));
  list('peers', 'connection', plain(now.connections[chosen]), 'none');
  list('blocks', 'block', plain(now.blocked[chosen]), 'none');
  const grants = data.grants.filter(([at, node]) => node === chosen && at <= tick);
  list('grants', 'grant', grants.reverse().map(([, , text]) => ({ value: text, shown: text })), 'none yet');
}

function update() {
  const node = chosen === null ? '' : `&node=${chosen}`;
  history.replaceState(null, '', `#tick=${tick}${node}`);
  draw();
}

// The address may set the tick and the node: #tick=17&node=3.
function readAddress() {
  const words = new URLSearchParams(location.hash.slice(1));
  const within = (text, least, most) => {
    const number = Number(text);
    return text !== null && Number.isInteger(number) && number >= least && number <= most ? number : null;
  };
  tick = within(words.get('tick'), 1, data.ticks.length) ?? 1;
  chosen = within(words.get('node'), 0, count - 1);
  draw();
}

build();
byId('slider').addEventListener('input', (event) => {
  tick = Number(event.target.value);
  update();
});
window.addEventListener('hashchange', readAddress);
readAddress();
