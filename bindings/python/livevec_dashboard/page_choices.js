// What a reader chooses in a chart, the standing queries and their notes; at the end the start of it all.
// --- Cursor, choice and zoom ---

const clamp = (value, least, most) => Math.min(Math.max(value, least), most);

function sampleAt(card, event) {
  const box = card.plot.getBoundingClientRect(), { told } = card;
  return clamp(Math.floor(told.start + (event.clientX - box.left) / box.width * told.length), told.lo, Math.max(told.hi - 1, told.lo));
}

function onDown(card, event) {
  if (!card.told || event.button > 0) return;
  card.plot.focus({ preventScroll: true });
  card.anchor = sampleAt(card, event);
  choose(card, null);
  point(card, card.anchor);
  if (event.pointerType === 'mouse') card.plot.setPointerCapture(event.pointerId);
}

function onMove(card, event) {
  if (!card.told) return;
  const at = sampleAt(card, event);
  if (card.anchor !== null && at !== card.anchor) choose(card, between(card, card.anchor, at));
  point(card, at);
}

function onUp(card) { card.anchor = null; }

/** The samples from one column up to another, both included. */
function between(card, one, other) {
  const { width, lo, hi } = card.told, first = Math.floor(Math.min(one, other) / width) * width, last = (Math.floor(Math.max(one, other) / width) + 1) * width;
  return { lo: Math.max(first, lo), hi: Math.min(last, hi) };
}

function point(card, sample) {
  card.cursor = sample;
  const column = sample === null || !card.told ? null : card.columns.get(Math.floor(sample / card.told.width));
  let text = '';
  if (column) {
    const [from, to] = samplesOf(card.told, column[0]), time = timeOfColumn(card.told, column), when = time && `, ${time}`;
    text = to - from === 1 ? `sample ${count(from)}${when}: ${scaled(column[1])}`
      : `${count(from)}–${count(to - 1)}${when}: least ${scaled(column[1])}, mean ${mean(column[3])}, greatest ${scaled(column[2])}`;
  }
  // the same text again would be read aloud again
  if (card.readout.textContent !== text) card.readout.textContent = text;
  redraw(card);
}

function choose(card, span, typed = false) {
  card.chosen = span;
  if (!typed) card.range.value = span ? `${span.lo}..${span.hi}` : '';
  card.zoom.hidden = !span;
  card.error.hidden = true;
  redraw(card);
}

/** Shows a range that stays, or follows the end again. */
function fix(card, span) {
  if (span) state.fixed.set(card.name, span); else state.fixed.delete(card.name);
  choose(card, null);
  showSpan(card);
  keep();
  look();
}

function showSpan(card) { card.follow.hidden = !state.fixed.has(card.name); }

function zoomBy(card, by) {
  const { told } = card;
  if (!state.fixed.has(card.name)) return setLast(clamp(Math.round(state.last * by), 10, LASTS[LASTS.length - 1]));
  const middle = card.cursor ?? told.start + told.length / 2, length = clamp(Math.round(told.length * by), 10, MOST_LAST), lo = Math.max(Math.round(middle - length / 2), 0);
  fix(card, { lo, hi: lo + length });
}

function setLast(last) {
  state.last = last;
  state.fixed.clear();
  for (const card of state.cards.values()) { choose(card, null); showSpan(card); }
  keep();
  arrange();
}

function onKey(card, event) {
  const { told } = card, key = event.key;
  if (!told || event.ctrlKey || event.metaKey || event.altKey) return;
  if (key === 'ArrowLeft' || key === 'ArrowRight') {
    const from = card.cursor === null ? told.hi - 1 : card.cursor, to = clamp(from + (key === 'ArrowLeft' ? -1 : 1) * told.width, told.lo, Math.max(told.hi - 1, told.lo));
    if (event.shiftKey) { card.start = card.chosen && card.start !== undefined ? card.start : from; choose(card, between(card, card.start, to)); } else choose(card, null);
    point(card, to);
  } else if (key === 'Enter') card.root.querySelector('form').requestSubmit();
  else if (key === 'z' && card.chosen) fix(card, card.chosen);
  else if (key === '+' || key === '=') zoomBy(card, .1);
  else if (key === '-') zoomBy(card, 10);
  else if (key === 'Escape') { fix(card, null); point(card, null); }
  else return;
  event.preventDefault();
}

// --- Standing queries and their notes ---

/** The range that a text spells: `last 1000`, `200..500`, `200..`, or nothing where it is none. */
function spanIn(text) {
  const bare = text.replace(/[,_\s]+/g, ' ').trim().toLowerCase(), dense = bare.replace(/ /g, '');
  let found = /^last(\d{1,15})$/.exec(dense);
  if (found) return isSpan({ last: Number(found[1]) }) ? { last: Number(found[1]) } : null;
  found = /^(\d{1,15})\.\.(\d{1,15})?$/.exec(dense);
  const span = found && { lo: Number(found[1]), hi: found[2] === undefined ? null : Number(found[2]) };
  return span && isSpan(span) ? span : null;
}
const spanText = span => 'last' in span ? `last ${count(span.last)}` : `${count(span.lo)}..${span.hi === null ? '' : count(span.hi)}`;

function watchTyped(card) {
  const span = card.range.value.trim() ? spanIn(card.range.value) : spanOf(card.name);
  let error = span ? '' : 'A range is “last 1000”, “200..500” or “200..”.';
  if (state.watches.length >= MOST_WATCHES) error = `There are ${MOST_WATCHES} standing queries, and no more go.`;
  card.error.textContent = error;
  card.error.hidden = !error;
  if (error) return;
  addWatch(card.name, card.kind.value, span);
  choose(card, null);
  keep();
  look();
}

function addWatch(name, kind, span) {
  const watch = { id: state.nextWatch++, name, kind, span, told: null, noted: -Infinity, pending: 0, root: element('li') };
  const words = element('div'), drop = element('button', '×');
  watch.value = element('b', '…', 'number');
  watch.at = element('small', '', 'soft number');
  words.append(element('div', `${KINDS[kind]} of ${name}, ${spanText(span)}`, 'soft'), watch.value, ' ', watch.at);
  drop.setAttribute('aria-label', `Drop the query ${KINDS[kind]} of ${name}, ${spanText(span)}`);
  drop.addEventListener('click', () => dropWatch(watch));
  watch.root.append(words, drop);
  state.watches.push(watch);
  byId('watches').append(watch.root);
  showWatching();
}

function showWatching() {
  byId('nowatches').hidden = state.watches.length > 0;
  document.body.classList.toggle('watching', state.watches.length > 0);
}

function dropWatch(watch) {
  clearTimeout(watch.pending);
  state.watches = state.watches.filter(it => it !== watch);
  watch.root.remove();
  showWatching();
  keep();
  look();
}

const answerOf = told => told.lost ? 'no longer held' : told.value === null ? (told.lo < told.hi ? 'beyond 64 bits' : 'no samples yet') : grouped(told.value);

function takeWatch(told) {
  const watch = state.watches.find(it => it.id === told.id);
  if (!watch) return;
  watch.value.textContent = answerOf(told);
  watch.at.textContent = 'at edit ' + count(told.edit);
  const before = watch.told;
  watch.told = told;
  if (before === null) watch.noteOf = answerOf(told);
  // a note a second of each query: what came between is told by the next one
  else if (!watch.pending) watch.pending = setTimeout(() => note(watch), Math.max(1000 - (performance.now() - watch.noted), 0));
}

function note(watch) {
  watch.pending = 0;
  const now = answerOf(watch.told), before = watch.noteOf;
  if (now === before) return;
  watch.noted = performance.now();
  watch.noteOf = now;
  const line = element('li', '', 'new number'), what = element('span', `${KINDS[watch.kind]} of ${watch.name}, ${spanText(watch.span)}: `, 'soft');
  line.append(what, element('b', now), element('span', ` at edit ${count(watch.told.edit)}, was ${before}`, 'soft'));
  byId('notes').prepend(line);
  while (byId('notes').childElementCount > MOST_NOTES) byId('notes').lastElementChild.remove();
  byId('nonotes').hidden = true;
}

// --- Start ---

for (const last of LASTS) {
  const button = element('button', last < 1000 ? String(last) : last < 1000000 ? `${last / 1000}k` : `${last / 1000000}M`);
  button.value = last;
  button.setAttribute('aria-label', `last ${count(last)} samples`);
  button.addEventListener('click', () => setLast(last));
  byId('lasts').append(button);
}
byId('search').addEventListener('input', event => { state.search = event.target.value; state.page = 0; keep(); arrange(); });
byId('back').addEventListener('click', () => turn(-1));
byId('on').addEventListener('click', () => turn(1));
byId('aloud').addEventListener('change', event => byId('log').setAttribute('aria-live', event.target.checked ? 'polite' : 'off'));
readColours();
restore();
byId('search').value = state.search;
arrange();
listen();
