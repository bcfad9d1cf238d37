// What the page shows and knows, and what it tells the server and is told.
'use strict';
// Texts of the stream (names, bad lines) go into the page by textContent alone.

const LASTS = [100, 1000, 10000, 100000, 1000000], PAGE = 12, MOST_COLUMNS = 2000, MOST_WATCHES = 32, MOST_NOTES = 60, MOST_LAST = 1048568, ROWS = 25;
const KINDS = { sum: 'sum', mean: 'mean', least: 'least', greatest: 'greatest', best: 'best run' };
const byId = id => document.getElementById(id);

const state = { viewer: null, digits: 0, names: [], cards: new Map(), last: 1000, search: '', page: 0, fixed: new Map(), watches: [], nextWatch: 1 };

// --- Numbers ---

const grouped = text => text.replace(/^(-?\d+)/, whole => whole.replace(/\B(?=(\d{3})+$)/g, ','));
const count = number => grouped(String(number));
/** A value of the stream's columns, which is whole there, as it was before the scale. */
function scaled(value) {
  const text = String(value), digits = state.digits;
  if (digits === 0) return grouped(text);
  const bare = text.replace('-', '').padStart(digits + 1, '0');
  return grouped((text[0] === '-' ? '-' : '') + bare.slice(0, -digits) + '.' + bare.slice(-digits));
}
/** A mean, rounded once: before the scale is taken off it, which only moves the point. */
function mean(value) {
  if (value === null) return 'beyond 64 bits';
  const [before, after] = value.toFixed(Math.abs(value) < 1e12 ? 3 : 0).split('.');
  return scaled(before) + (after ? (state.digits ? '' : '.') + after : '');
}

// --- Times, in milliseconds since 1970, by the reader's clock and calendar ---

const SECOND = 1000, DAY = 86400 * SECOND;
const padded = (number, digits = 2) => String(number).padStart(digits, '0');
const dayOf = time => { const at = new Date(time); return `${padded(at.getFullYear(), 4)}-${padded(at.getMonth() + 1)}-${padded(at.getDate())}`; };
/** A time as exactly as a chart that spans so many milliseconds wants it. */
function timeText(time, span) {
  const at = new Date(time), minutes = `${padded(at.getHours())}:${padded(at.getMinutes())}`;
  if (span >= 60 * DAY) return dayOf(time);
  if (span >= DAY) return `${dayOf(time).slice(-5)} ${minutes}`;
  return `${minutes}:${padded(at.getSeconds())}${span < 10 * SECOND ? '.' + padded(at.getMilliseconds(), 3) : ''}`;
}

// --- What stands in the address, so that a page that is loaded again shows the same ---

function keep() {
  const kept = { last: state.last, find: state.search || undefined, page: state.page || undefined,
    fixed: state.fixed.size ? [...state.fixed] : undefined, watches: state.watches.length ? state.watches.map(({ name, kind, span }) => ({ name, kind, span })) : undefined };
  history.replaceState(null, '', '#' + encodeURIComponent(JSON.stringify(kept)));
}

const whole = (value, least, most) => Number.isSafeInteger(value) && value >= least && value <= most;
const isSpan = span => !!span && typeof span === 'object' && ('last' in span ? whole(span.last, 1, MOST_LAST)
  : whole(span.lo, 0, 2 ** 53 - 2) && (span.hi === null || whole(span.hi, span.lo + 1, 2 ** 53 - 1)));

function restore() {
  let kept;
  try { kept = JSON.parse(decodeURIComponent(location.hash.slice(1))); } catch { return; }
  if (!kept || typeof kept !== 'object') return;
  if (whole(kept.last, 1, MOST_LAST)) state.last = kept.last;
  if (typeof kept.find === 'string') state.search = kept.find.slice(0, 200);
  if (whole(kept.page, 0, 1e6)) state.page = kept.page;
  const list = value => Array.isArray(value) ? value : [];
  for (const it of list(kept.fixed)) if (Array.isArray(it) && typeof it[0] === 'string' && isSpan(it[1])) state.fixed.set(it[0], it[1]);
  for (const it of list(kept.watches)) {
    if (it && typeof it.name === 'string' && Object.hasOwn(KINDS, it.kind) && isSpan(it.span) && state.watches.length < MOST_WATCHES) addWatch(it.name, it.kind, it.span);
  }
}

// --- Which names are shown ---

function matching() {
  const wanted = state.search.trim().toLowerCase();
  return wanted ? state.names.filter(name => name.toLowerCase().includes(wanted)) : state.names;
}

function arrange() {
  const found = matching(), pages = Math.max(Math.ceil(found.length / PAGE), 1);
  // names come one after the other: a page that was kept in the address waits for them
  const page = Math.min(state.page, pages - 1), shown = found.slice(page * PAGE, (page + 1) * PAGE);
  for (const [name, card] of state.cards) if (!shown.includes(name)) { card.root.remove(); state.cards.delete(name); }
  let before = byId('empty');
  for (const name of shown) {
    if (!state.cards.has(name)) state.cards.set(name, makeCard(name));
    const { root } = state.cards.get(name);
    // a card that is moved would lose the focus
    if (before.nextElementSibling !== root) before.after(root);
    before = root;
  }
  byId('empty').hidden = shown.length > 0;
  byId('empty').textContent = state.names.length ? 'No name contains this.' : 'Nothing yet. A chart appears with the first line “name value”.';
  byId('paging').hidden = found.length <= PAGE;
  byId('place').textContent = `${count(page * PAGE + 1)}–${count(page * PAGE + shown.length)} of ${count(found.length)}`;
  byId('back').disabled = page === 0;
  byId('on').disabled = page === pages - 1;
  for (const button of byId('lasts').querySelectorAll('button')) button.setAttribute('aria-pressed', String(Number(button.value) === state.last));
  look();
}

function turn(by) {
  state.page = Math.max(Math.min(state.page, Math.ceil(matching().length / PAGE) - 1) + by, 0);
  keep();
  arrange();
}

// --- What the server is told and tells ---

const spanOf = name => state.fixed.get(name) || { last: state.last };
let looking = 0;
/** Tells the server what is looked at, once for all that is changed in this moment. */
function look() {
  clearTimeout(looking);
  looking = setTimeout(async () => {
    if (!state.viewer) return;
    const charts = [...state.cards].map(([name, card]) => ({ name, ...spanOf(name), columns: Math.max(Math.min(Math.round(card.plot.clientWidth), MOST_COLUMNS), 50) }));
    const watches = state.watches.map(({ id, name, kind, span }) => ({ id, name, kind, ...span }));
    try {
      const told = await fetch('view?' + state.viewer, { method: 'POST', headers: { 'Content-Type': 'application/json' }, body: JSON.stringify({ charts, watches }) });
      if (told.status === 429) look();
    } catch { /* the events tell that the server is gone */ }
  }, 60);
}

function listen() {
  const events = new EventSource('events');
  events.addEventListener('hello', event => {
    const hello = JSON.parse(event.data);
    Object.assign(state, { viewer: hello.viewer, digits: hello.digits, names: [] });
    byId('title').textContent = hello.title;
    document.title = hello.title + ' · livevec';
    look();
  });
  events.addEventListener('message', event => take(JSON.parse(event.data)));
  events.addEventListener('error', () => {
    state.viewer = null;
    showState('connection lost, trying again', 'lost');
    // a browser gives up where the server said no
    if (events.readyState === EventSource.CLOSED) setTimeout(listen, 2000);
  });
}

function take(frame) {
  if (frame.stream) takeStream(frame.stream);
  // one by one: a call takes no more arguments than some ten thousand
  if (frame.names) { for (const name of frame.names) state.names.push(name); arrange(); }
  for (const chart of frame.charts || []) takeChart(chart);
  for (const told of frame.watches || []) takeWatch(told);
  document.dispatchEvent(new CustomEvent('frame', { detail: frame }));
}

// --- How the stream does ---

const seen = [];
let stream = null;
function takeStream(told) {
  stream = told;
  byId('lines').textContent = count(told.lines);
  showState(told.state === 'ended' ? 'the stream has ended' : told.state, told.state === 'reading' ? '' : 'waiting');
  byId('bad').hidden = told.bad === 0;
  byId('bads').textContent = count(told.bad);
  byId('lastbad').textContent = told.last_bad;
  byId('reasons').replaceChildren(...Object.entries(told.reasons).map(([why, times]) => element('li', `${count(times)} × ${why}`)));
}

function showState(text, kind) {
  if (byId('state').textContent !== text) byId('state').textContent = text;
  byId('state').className = kind;
}

setInterval(() => {
  seen.push([performance.now(), stream ? stream.lines : 0]);
  if (seen.length > 4) seen.shift();
  const [[from, before], [to, now]] = [seen[0], seen[seen.length - 1]];
  byId('rate').textContent = count(to > from ? Math.max(Math.round((now - before) * 1000 / (to - from)), 0) : 0);
}, 500);

function element(tag, text = '', className = '') {
  const made = document.createElement(tag);
  made.textContent = text;
  made.className = className;
  return made;
}

