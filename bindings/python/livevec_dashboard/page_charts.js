// How a chart and its table are drawn.
// --- Charts ---

function makeCard(name) {
  const root = byId('card').content.firstElementChild.cloneNode(true), find = selector => root.querySelector(selector);
  const card = { name, root, plot: find('.plot'), canvas: find('canvas'), now: find('.now'), at: find('.at'), times: find('.times'), top: find('.top'), bottom: find('.bottom'), lo: find('.lo'), hi: find('.hi'),
    readout: find('.readout'), kind: find('select'), range: find('input'), zoom: find('.zoom'), follow: find('.follow'), error: find('.error'), table: find('table'),
    details: find('details'), numbers: {}, told: null, columns: new Map(), cursor: null, chosen: null, anchor: null, tabled: 0 };
  find('h2').textContent = name;
  find('h2').title = name;
  card.plot.setAttribute('aria-label', `${name}: least, mean and greatest`);
  card.range.setAttribute('aria-label', `Range of ${name} to watch`);
  find('.scroll').setAttribute('aria-label', `Table of ${name}`);
  for (const [kind, label] of Object.entries(KINDS)) {
    const value = element('dd', '–', 'number'), pair = element('div');
    pair.append(element('dt', label), value);
    find('.numbers').append(pair);
    card.numbers[kind] = { value, pair };
  }
  card.details.addEventListener('toggle', () => tabulate(card, true));
  card.plot.addEventListener('keydown', event => onKey(card, event));
  card.plot.addEventListener('pointerdown', event => onDown(card, event));
  card.plot.addEventListener('pointermove', event => onMove(card, event));
  card.plot.addEventListener('pointerup', event => onUp(card, event));
  card.plot.addEventListener('pointercancel', () => { card.anchor = null; });
  card.plot.addEventListener('pointerleave', () => { if (card.anchor === null && document.activeElement !== card.plot) point(card, null); });
  card.range.addEventListener('input', () => choose(card, null, true));
  find('form').addEventListener('submit', event => { event.preventDefault(); watchTyped(card); });
  card.zoom.addEventListener('click', () => { if (card.chosen) fix(card, card.chosen); });
  card.follow.addEventListener('click', () => fix(card, null));
  resized.observe(card.plot);
  showSpan(card);
  return card;
}

const resized = new ResizeObserver(entries => {
  for (const entry of entries) for (const card of state.cards.values()) if (card.plot === entry.target) { redraw(card); look(); }
});

function takeChart(told) {
  const card = state.cards.get(told.name);
  if (!card) return;
  card.told = told;
  if (told.anew) card.columns.clear();
  for (const column of told.columns) card.columns.set(column[0], column);
  const first = Math.floor(told.lo / told.width);
  for (const number of card.columns.keys()) if (number < first) card.columns.delete(number);
  card.now.textContent = told.now === null ? '' : grouped(told.now);
  for (const [kind, { value }] of Object.entries(card.numbers)) {
    value.textContent = told.numbers[kind] === null ? (told.lo < told.hi ? 'beyond 64 bits' : '–') : grouped(told.numbers[kind]);
  }
  // where it is the sum or the greatest, the best run says nothing new
  card.numbers.best.pair.hidden = [told.numbers.sum, told.numbers.greatest].includes(told.numbers.best);
  card.at.textContent = `at edit ${count(told.edit)}`;
  card.root.classList.toggle('timed', !!told.times);
  card.lo.textContent = count(told.start);
  card.hi.textContent = `${count(told.end)} samples`;
  if (told.start + told.length < told.end) card.hi.textContent = `${count(told.start + told.length)} of ${card.hi.textContent}`;
  if (card.told.start < told.first) card.lo.textContent += ` (held from ${count(told.first)})`;
  if (told.times && told.times.from !== null) card.lo.textContent += `, ${dayOf(told.times.from)}`;
  // a chart that is not full yet has no tick at its last sample
  if (told.times && told.times.to !== null && told.hi < told.start + told.length) card.hi.textContent += ` up to ${timeOf(told, told.times.to)}`;
  if (card.cursor !== null) point(card, card.cursor < told.lo ? null : card.cursor);
  redraw(card);
  tabulate(card, false);
}

const dirty = new Set();
function redraw(card) {
  if (dirty.size === 0) requestAnimationFrame(() => { for (const it of dirty) draw(it); dirty.clear(); });
  dirty.add(card);
}

let colours = {};
function readColours() {
  const style = getComputedStyle(document.documentElement);
  for (const name of ['accent', 'band', 'grid', 'chosen', 'mark']) colours[name] = style.getPropertyValue('--' + name);
}
matchMedia('(prefers-color-scheme: dark)').addEventListener('change', () => { readColours(); for (const card of state.cards.values()) redraw(card); });

/** The samples of a column that the chart shows, from and up to. */
const samplesOf = (told, number) => [Math.max(number * told.width, told.lo), Math.min((number + 1) * told.width, told.hi)];

/** A time of a chart as text, as exactly as its span wants it; nothing where there is no time. */
function timeOf(told, time) {
  const { from, to } = told.times;
  return time === null ? '' : timeText(time, from === null || to === null ? 0 : Math.abs(to - from));
}

/** When the first sample of a column was taken, as text. */
const timeOfColumn = (told, column) => told.times ? timeOf(told, column[4] ?? null) : '';

/** The times below a chart, at equal distances. It gives how many parts they make of it. */
function drawTimes(card, wide) {
  const { told, times } = card;
  times.hidden = !told.times;
  if (!told.times) return 0;
  const texts = told.times.ticks.map(time => timeOf(told, time)), fits = texts.join('').length * 7 < wide;
  times.replaceChildren(...texts.filter((_, at) => fits || at % 2 === 0).map((text, at, all) => {
    const tick = element('span', text);
    tick.style.left = `${100 * at / (all.length - 1)}%`;
    return tick;
  }));
  return times.childElementCount - 1;
}

function draw(card) {
  const { canvas, told } = card, wide = card.plot.clientWidth, high = card.plot.clientHeight, ratio = devicePixelRatio || 1;
  if (canvas.width !== Math.round(wide * ratio) || canvas.height !== Math.round(high * ratio)) { canvas.width = Math.round(wide * ratio); canvas.height = Math.round(high * ratio); }
  const pen = canvas.getContext('2d');
  pen.setTransform(ratio, 0, 0, ratio, 0, 0);
  pen.clearRect(0, 0, wide, high);
  if (!told) return;
  const points = [...card.columns.values()].sort((a, b) => a[0] - b[0]);
  let low = Infinity, top = -Infinity, lowest = 0, highest = 0;
  for (const [, least, greatest] of points) {
    if (Number(least) < low) { low = Number(least); lowest = least; }
    if (Number(greatest) > top) { top = Number(greatest); highest = greatest; }
  }
  card.bottom.textContent = points.length ? scaled(lowest) : '';
  card.top.textContent = points.length ? scaled(highest) : '';
  const margin = 16, span = top - low, x = sample => (sample - told.start) / told.length * wide;
  const y = value => span > 0 ? margin + (top - Number(value)) / span * (high - 2 * margin) : high / 2;
  pen.strokeStyle = colours.grid;
  pen.lineWidth = 1;
  pen.beginPath();
  for (let at = 0; at <= 4; at++) { const line = Math.round(margin + at * (high - 2 * margin) / 4) + .5; pen.moveTo(0, line); pen.lineTo(wide, line); }
  for (let at = 1, parts = drawTimes(card, wide); at < parts; at++) { const line = Math.round(wide * at / parts) + .5; pen.moveTo(line, 0); pen.lineTo(line, high); }
  pen.stroke();
  if (card.chosen) {
    pen.fillStyle = colours.chosen;
    pen.fillRect(x(card.chosen.lo), 0, Math.max(x(card.chosen.hi) - x(card.chosen.lo), 2), high);
  }
  const middle = points.map(point => { const [from, to] = samplesOf(told, point[0]); return x((from + to) / 2); });
  if (points.length && told.width > 1) drawBand(pen, points, middle, y);
  drawMean(pen, points, middle, y);
  if (card.cursor !== null) {
    const at = Math.round(x(Math.floor(card.cursor / told.width) * told.width + told.width / 2)) + .5;
    pen.strokeStyle = colours.mark;
    pen.lineWidth = 1;
    pen.beginPath();
    pen.moveTo(at, 0);
    pen.lineTo(at, high);
    pen.stroke();
  }
}

/** From each column's least to its greatest. */
function drawBand(pen, points, middle, y) {
  pen.beginPath();
  points.forEach((point, at) => pen.lineTo(middle[at], y(point[2]) - .5));
  for (let at = points.length - 1; at >= 0; at--) pen.lineTo(middle[at], y(points[at][1]) + .5);
  pen.closePath();
  pen.fillStyle = colours.band;
  pen.fill();
}

function drawMean(pen, points, middle, y) {
  pen.beginPath();
  let on = false;
  points.forEach((point, at) => {
    if (point[3] === null) { on = false; return; }
    if (on) pen.lineTo(middle[at], y(point[3])); else pen.moveTo(middle[at], y(point[3]));
    on = true;
  });
  pen.strokeStyle = colours.accent;
  pen.lineWidth = 1.5;
  pen.lineJoin = 'round';
  pen.stroke();
  if (points.length === 1 && points[0][3] !== null) { pen.fillStyle = colours.accent; pen.beginPath(); pen.arc(middle[0], y(points[0][3]), 3, 0, 7); pen.fill(); }
}

/** The chart as a table, of so many rows at most, each of several columns. It is made while it is open, and at most every two seconds. */
function tabulate(card, now) {
  const { told } = card;
  if (!card.details.open || !told || (!now && performance.now() - card.tabled < 2000)) return;
  card.tabled = performance.now();
  const points = [...card.columns.values()].sort((a, b) => a[0] - b[0]), step = Math.max(Math.ceil(points.length / ROWS), 1), rows = [];
  for (let at = 0; at < points.length; at += step) rows.push(rowOf(told, points.slice(at, at + step)));
  card.table.querySelector('.when').hidden = !told.times;
  card.table.tBodies[0].replaceChildren(...rows.reverse());
  card.table.caption.textContent = `${card.name}, samples ${count(told.lo)} to ${count(told.hi)}, the latest first`;
}

function rowOf(told, points) {
  const from = samplesOf(told, points[0][0])[0], to = samplesOf(told, points[points.length - 1][0])[1];
  const pick = (place, better) => points.map(point => point[place]).reduce((a, b) => better(Number(b), Number(a)) ? b : a);
  const total = points.reduce((sum, point) => { const [lo, hi] = samplesOf(told, point[0]); return point[3] === null || sum === null ? null : sum + point[3] * (hi - lo); }, 0);
  const row = element('tr'), head = element('th', to - from === 1 ? count(from) : `${count(from)}–${count(to - 1)}`);
  head.scope = 'row';
  row.append(head, ...(told.times ? [element('td', timeOfColumn(told, points[0]))] : []), element('td', scaled(pick(1, (b, a) => b < a))), element('td', mean(total === null ? null : total / (to - from))), element('td', scaled(pick(2, (b, a) => b > a))));
  return row;
}

